
// Containers and answers. The scripted camera's own time is measured by itself and taken off theirs.

mod containers {
    use super::*;
    use archive::*;
    use clock::*;
    use inputs::*;
    use std::cmp::min;
    use std::hint::black_box;

    /// The scripted camera's answers are made so many at a time, outside the time that is measured.
    const SCRIPTED: u64 = 64;

    fn scripted<F: FnMut(&mut PtpCamera)>(times: u64, data: &[u8], response: &[u8], mut once: F) -> f64 {
        let mut camera = PtpCamera::new(&libusb::Device::scripted()).expect("the scripted camera opens");
        let mut took = 0.0;
        let mut left = times;
        while left > 0 {
            let some = min(left, SCRIPTED);
            libusb::script((0..some).flat_map(|_| vec![data.to_vec(), response.to_vec()]).collect());
            took += timed(some, || {
                camera.current_tid = NUMBER;
                once(&mut camera);
            });
            left -= some;
        }
        took
    }

    /// What `command` does after it has sent, by the crate's own parts.
    fn phases(camera: &mut PtpCamera) -> Result<Vec<u8>, Error> {
        let mut last = vec![];
        loop {
            let (container, payload) = camera.read_txn_phase(Duration::new(0, 0))?;
            if !container.belongs_to(NUMBER) {
                return Err(Error::Response(0));
            }
            match container.kind {
                PtpContainerType::Data => last = payload,
                PtpContainerType::Response if container.code != StandardResponseCode::Ok => {
                    return Err(Error::Response(container.code));
                }
                PtpContainerType::Response => return Ok(last),
                _ => {}
            }
        }
    }

    fn transfers(camera: &mut PtpCamera, sent: &[u8], room: &mut [u8]) {
        if !sent.is_empty() {
            black_box(camera.handle.write_bulk(camera.ep_out, sent, Duration::new(0, 0)).is_ok());
        }
        for _ in 0..2 {
            black_box(camera.handle.read_bulk(camera.ep_in, black_box(room), Duration::new(0, 0)).is_ok());
        }
    }

    pub fn containers() {
        let code = StandardCommandCode::GetObject;
        let payload: Vec<u8> = (0..1024).map(|i| i as u8).collect();
        let data = container(2, code, &payload);
        let response = container(3, StandardResponseCode::Ok, &[]);
        let buffer = [data.clone(), response.clone()].concat();
        let mut fields = [0u64; 8];
        let mut sent = vec![0u8; 64];
        let mut room = vec![0u8; 8192];

        let parse: fn(&[u8]) -> Result<PtpContainerInfo, Error> = black_box(|s| PtpContainerInfo::parse(s));
        let theirs = parse(&data).expect("a container");
        accepted(read_container(&data, &mut fields));
        assert_eq!(fields[1..6], [2, theirs.code as u64, theirs.tid as u64, 12, theirs.payload_len as u64]);
        line("container header", 1,
             side(|| { black_box(read_container(black_box(&data), &mut fields)); }),
             Some(side(|| { black_box(parse(black_box(&data)).is_ok()); })));

        accepted(find_answer(&buffer, NUMBER, &mut fields));
        assert_eq!(fields[..4], [buffer.len() as u64, 0x2001, 12, 1024]);
        scripted(1, &data, &response, |camera| assert_eq!(phases(camera).expect("a payload"), payload));
        line("answer of 1 KiB, found", 1,
             side(|| { black_box(find_answer(black_box(&buffer), NUMBER, &mut fields)); }),
             Some(Box::new(|times| {
                 scripted(times, &data, &response, |camera| { black_box(phases(camera).is_ok()); })
                     - scripted(times, &data, &response, |camera| transfers(camera, &[], &mut room))
             })));

        let count = accepted(make_command(NUMBER, code, &[17], &mut sent));
        scripted(1, &data, &response, |camera| {
            assert_eq!(camera.command(code, &[17], None, None).expect("a payload"), payload)
        });
        scripted(1, &data, &response, |camera| {
            camera.command(code, &[17], None, None).ok();
            assert_eq!(libusb::sent(), &sent[..count]);
        });
        let mut out = sent.clone();
        let mut room = vec![0u8; 8192];
        line("command made, its answer of 1 KiB found", 1,
             side(|| {
                 black_box(make_command(NUMBER, code, black_box(&[17]), &mut out));
                 black_box(find_answer(black_box(&buffer), NUMBER, &mut fields));
             }),
             Some(Box::new(|times| {
                 scripted(times, &data, &response, |camera| { black_box(camera.command(code, black_box(&[17]), None, None).is_ok()); })
                     - scripted(times, &data, &response, |camera| transfers(camera, &sent[..count], &mut room))
             })));
    }

    /// A transaction of 1 KiB as packets and back.
    pub fn network() {
        let payload: Vec<u8> = (0..1024).map(|i| i as u8).collect();
        let code = StandardCommandCode::GetObject;
        let transaction = [container(1, code, &[17, 0, 0, 0]), container(2, code, &payload), container(3, StandardResponseCode::Ok, &[])].concat();
        let (mut packets, mut back) = (vec![0u8; 2048], vec![0u8; 2048]);
        let sent = accepted(to_network(&transaction, false, &mut packets));
        let count = accepted(from_network(&packets[..sent], &mut back));
        assert_eq!(&back[..count], &transaction[..]);
        line("a transaction of 1 KiB to the network and back", 1, side(|| {
            black_box(to_network(black_box(&transaction), false, &mut packets));
            black_box(from_network(black_box(&packets[..sent]), &mut back));
        }), None);
    }
}
