//! An exchange with cameras that are made here: how their bytes come, busy ones, events, silence.
#![cfg(feature = "alloc")]
use ptp_proved::*;

/// Transfers that come, one a call; what was sent is kept.
#[derive(Default)]
struct Made {
    transfers: Vec<Vec<u8>>,
    sent: Vec<Vec<u8>>,
}

impl Made {
    fn of(transfers: &[&[u8]]) -> Made {
        Made { transfers: transfers.iter().rev().map(|bytes| bytes.to_vec()).collect(), sent: vec![] }
    }
}

impl Transport for Made {
    type Error = &'static str;

    fn send(&mut self, container: &[u8]) -> Result<(), Self::Error> {
        self.sent.push(container.to_vec());
        Ok(())
    }

    fn receive(&mut self, buffer: &mut [u8]) -> Result<usize, Self::Error> {
        assert_eq!(buffer.len() % 1024, 0);
        let mut came = self.transfers.pop().ok_or("unplugged")?;
        let count = came.len().min(buffer.len());
        buffer[..count].copy_from_slice(&came[..count]);
        if count < came.len() {
            self.transfers.push(came.split_off(count));
        }
        Ok(count)
    }
}

/// All that a listener is told.
#[derive(Default)]
struct Heard {
    sent: usize,
    received: Vec<u8>,
    events: Vec<u16>,
    busy: Vec<u32>,
}

impl Listener for Heard {
    fn sent(&mut self, made: ptp_proved::Made<'_>) -> Result<(), Refusal> {
        self.sent += made.bytes.len();
        Ok(())
    }

    fn received(&mut self, containers: &[u8]) -> Result<(), Refusal> {
        self.received.extend_from_slice(containers);
        Ok(())
    }

    fn event(&mut self, event: PtpContainer<'_>) {
        self.events.push(event.code);
    }

    fn busy(&mut self, times: u32) {
        self.busy.push(times);
    }
}

fn container(kind: PtpContainerType, code: u16, tid: u32, payload: &[u8]) -> Vec<u8> {
    let mut out = vec![0; payload.len() + 12];
    PtpContainer { kind, code, tid, payload }.encode(&mut out).unwrap().to_vec()
}

fn data(tid: u32, payload: &[u8]) -> Vec<u8> {
    container(PtpContainerType::Data, 0x1009, tid, payload)
}

fn response(code: u16, tid: u32, payload: &[u8]) -> Vec<u8> {
    container(PtpContainerType::Response, code, tid, payload)
}

fn ask<L: Listener>(camera: &mut Camera<Made, L>) -> Result<Reply, Fault<&'static str>> {
    camera.ask(|session, out| session.get_object(9, out))
}

#[test]
fn an_answer_comes_in_any_pieces() {
    let picture: Vec<u8> = (0..200_000u32).map(|n| n as u8).collect();
    let answer = [data(0, &picture), response(0x2001, 0, &[7, 0, 0, 0, 8, 0, 0, 0])].concat();
    for pieces in
        [&[0, answer.len()][..], &[0, 5, 6, 11, 12, 13, 70_000, answer.len() - 1, answer.len()], &[0, 200_012, answer.len()]]
    {
        let transfers: Vec<&[u8]> = pieces.windows(2).map(|ends| &answer[ends[0]..ends[1]]).collect();
        let mut camera = Camera::new(Made::of(&transfers), Heard::default());
        let reply = ask(&mut camera).unwrap();
        assert_eq!((reply.code(), reply.payload() == picture, reply.parameters().to_vec()), (0x2001, true, vec![7, 8]));
        assert_eq!(camera.listener.received, answer);
        assert_eq!((camera.transport.sent.len(), camera.listener.sent), (1, 16));
    }
}

#[test]
fn data_is_a_transfer_of_its_own() {
    let mut camera = Camera::new(Made::of(&[&response(0x2001, 0, &[])]), ());
    let reply = camera.ask(|session, out| session.set_device_prop_value(0x500D, &[1, 2], out)).unwrap();
    assert!(reply.payload().is_empty());
    assert_eq!(camera.transport.sent.iter().map(Vec::len).collect::<Vec<_>>(), [16, 14]);
    // a payload that has no room, until there is
    let long = vec![0; 5000];
    let send = |camera: &mut Camera<Made>| camera.ask(|session, out| session.command_with_data(0x100D, &[], &long, out)).map(drop);
    assert_eq!(send(&mut camera), Err(Fault::Refused(Refusal::ROOM)));
    camera.make_room(long.len());
    camera.transport.transfers.push(response(0x2001, 0, &[]));
    assert_eq!(send(&mut camera), Ok(()));
}

#[test]
fn a_busy_camera_is_asked_again_as_often_as_is_said() {
    let busy = |tid| response(StandardResponseCode::DeviceBusy, tid, &[]);
    for (retries, sent) in [(0, 1), (1, 2), (2, 3), (5, 3)] {
        let mut camera = Camera::new(Made::of(&[&busy(1), &busy(2), &response(0x2001, 3, &[])]), Heard::default());
        camera.session = Session::at(1);
        camera.retries = retries;
        assert_eq!(ask(&mut camera).is_ok(), retries >= 2);
        assert_eq!((camera.transport.sent.len(), camera.listener.busy.len()), (sent, sent - 1));
    }
}

#[test]
fn another_response_is_told_with_its_parameters() {
    let mut camera = Camera::new(Made::of(&[&response(0x201D, 0, &[1, 0, 0, 0, 9])]), ());
    match ask(&mut camera) {
        Err(Fault::Response(reply)) => {
            assert_eq!((reply.code(), reply.parameters().to_vec(), reply.payload()), (0x201D, vec![1], &[][..]))
        }
        other => panic!("{other:?}"),
    }
}

#[test]
fn events_are_told_and_what_follows_is_the_next_answers() {
    let event = |tid, code| container(PtpContainerType::Event, code, tid, &[]);
    let both = [event(0, 0x4002), response(0x2001, 0, &[]), event(77, 0x4006), response(0x2001, 0, &[5, 0, 0, 0])].concat();
    let mut camera = Camera::new(Made::of(&[&both]), Heard::default());
    assert!(ask(&mut camera).unwrap().parameters().is_empty());
    assert_eq!((&camera.listener.events[..], camera.listener.received.len()), (&[0x4002, 0x4006][..], 36));
    assert_eq!(ask(&mut camera).unwrap().parameters().to_vec(), [5]);
    assert_eq!(camera.listener.received, both);
}

#[test]
fn what_is_no_answer_is_refused_or_silent() {
    let mut camera = Camera::new(Made::of(&[&response(0x2001, 3, &[])]), Heard::default());
    assert_eq!(ask(&mut camera), Err(Fault::Refused(Refusal::TID)));
    assert_eq!(camera.listener.received.len(), 12); // it is heard all the same
    assert_eq!(ask(&mut Camera::new(Made::of(&[&[12, 0, 0, 0, 9, 0]]), ())), Err(Fault::Refused(Refusal::KIND)));
    assert_eq!(ask(&mut Camera::new(Made::of(&[&[], &response(0x2001, 0, &[])]), ())).map(|reply| reply.code()), Ok(0x2001));
    assert_eq!(ask(&mut Camera::new(Made::of(&[&[], &[], &response(0x2001, 0, &[])]), ())), Err(Fault::Silent));
    assert_eq!(ask(&mut Camera::new(Made::of(&[&[1, 2]]), ())), Err(Fault::Transport("unplugged")));
    // 4 GiB are announced: they are not asked for at once
    let mut huge = data(0, &[]);
    huge[..4].fill(0xFF);
    assert_eq!(ask(&mut Camera::new(Made::of(&[&huge]), ())), Err(Fault::Transport("unplugged")));
}

#[test]
fn a_recorder_listens_and_tells_what_it_left_out() {
    let picture = vec![0; 65_001 - 12];
    let transfers = [&data(0, &picture)[..], &response(0x2001, 0, &[]), &data(0, &picture[1..]), &response(0x2001, 0, &[])];
    let mut room = vec![0; 100_000];
    let mut camera = Camera::new(Made::of(&transfers), Recorder::leaving_out(&mut room));
    ask(&mut camera).unwrap();
    assert_eq!(camera.listener.left_out(), LeftOut { containers: 1, bytes: 65_001 });
    assert_eq!(records(camera.listener.bytes()).unwrap().map(|record| record.body.len()).collect::<Vec<_>>(), [16, 12]);
    ask(&mut camera).unwrap();
    assert_eq!((camera.listener.left_out().containers, records(camera.listener.bytes()).unwrap().len()), (1, 5));
    // one that leaves nothing out refuses it, and keeps nothing of that answer
    let mut room = vec![0; 100_000];
    let mut camera = Camera::new(Made::of(&transfers), Recorder::new(&mut room));
    assert_eq!(ask(&mut camera), Err(Fault::Refused(Refusal::LONG)));
    assert_eq!(camera.listener.left_out(), LeftOut::default());
    assert_eq!(records(camera.listener.bytes()).unwrap().map(|record| record.body.len()).collect::<Vec<_>>(), [16]);
}

#[test]
fn needed_is_the_least_that_changes_anything() {
    let answer = [data(4, &[1, 2, 3]), response(0x2001, 4, &[])].concat();
    let expected = |held: usize| match held {
        0..=5 => 6 - held,    // a kind can be refused then
        6..=11 => 15 - held,  // the Data may be another transaction's, which is told once it is whole
        12..=20 => 21 - held, // it is not: the next container's kind
        _ => 27 - held,
    };
    for held in 0..=answer.len() {
        assert_eq!(needed(&answer[..held], 4), expected(held), "{held}");
    }
    // a length that is refused once all twelve bytes are there
    assert_eq!((needed(&[3, 0, 0, 0, 2, 0], 4), needed(&[3, 0, 0, 0, 2, 0, 0, 0, 0, 0, 0, 0], 4)), (6, 0));
    assert_eq!(needed(&answer, 5), 0); // another transaction's: for good
    assert_eq!(needed(&answer[..15], 5), 0);
}
