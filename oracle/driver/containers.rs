
// Containers.

mod containers {
    use super::*;
    use answers::*;
    use values::cursor;

    /// The size of the crate's first read of a phase.
    const FIRST_READ: usize = 8 * 1024;

    fn kind_number(kind: &PtpContainerType) -> u16 {
        match *kind {
            PtpContainerType::Command => 1,
            PtpContainerType::Data => 2,
            PtpContainerType::Response => 3,
            PtpContainerType::Event => 4,
        }
    }

    fn announced(data: &[u8]) -> u64 {
        cursor(data, 0).read_u32::<LittleEndian>().unwrap_or(0) as u64
    }

    fn has_kind(data: &[u8]) -> bool {
        let kind = cursor(data, 4).read_u16::<LittleEndian>();
        kind.ok().and_then(PtpContainerType::from_u16).is_some()
    }

    /// A whole header with a kind, so that the crate would use the announced length.
    fn uses_length(data: &[u8]) -> bool {
        data.len() >= PTP_CONTAINER_INFO_SIZE && has_kind(data)
    }

    /// Outside the domain: a length below 12, or one that the bytes stop before.
    pub fn length_in_domain(data: &[u8]) -> bool {
        let length = announced(data);
        !uses_length(data) || (PTP_CONTAINER_INFO_SIZE as u64 <= length && length <= data.len() as u64)
    }

    pub fn header(data: &[u8]) -> Answered {
        if left_out(!uses_length(data) || announced(data) >= PTP_CONTAINER_INFO_SIZE as u64) {
            return Ok(NO_ANSWER.to_owned());
        }
        let read = PtpContainerInfo::parse(data)?;
        Ok(format!("ok {} {} {} {}", kind_number(&read.kind), read.code, read.tid, read.payload_len))
    }

    /// The first container's bytes, or all that are there if they are no container of the domain.
    pub fn first_container(data: &[u8]) -> &[u8] {
        if uses_length(data) && length_in_domain(data) { &data[..announced(data) as usize] } else { data }
    }

    /// One container as the USB layer hands it over: a first read of at most 8 KiB, then the rest, which is an
    /// empty transfer where the first read was full.
    pub fn transfers(container: &[u8]) -> Vec<Vec<u8>> {
        if container.len() < FIRST_READ {
            return vec![container.to_vec()];
        }
        vec![container[..FIRST_READ].to_vec(), container[FIRST_READ..].to_vec()]
    }

    pub fn camera<'a>(number: u32) -> PtpCamera<'a> {
        let mut camera = PtpCamera::new(&libusb::Device::scripted()).expect("the scripted camera opens");
        camera.current_tid = number;
        camera
    }

    pub fn container(data: &[u8]) -> Answered {
        if left_out(length_in_domain(data)) {
            return Ok(NO_ANSWER.to_owned());
        }
        // Outside the domain all the bytes come in one phase, longer than announced or not.
        let one = if outside() { data } else { first_container(data) };
        libusb::script(transfers(one));
        let (read, payload) = camera(0).read_txn_phase(Duration::new(0, 0))?;
        if payload[..] != one[PTP_CONTAINER_INFO_SIZE..] {
            return Ok(format!("another payload: {}", hex(&payload)));
        }
        Ok(format!("ok {} {} {} {} {}", kind_number(&read.kind), read.code, read.tid, PTP_CONTAINER_INFO_SIZE,
                   payload.len()))
    }

    pub fn message(kind: u16, code: u16, number: u32, payload: &[u8]) -> Option<Vec<u8>> {
        let kind = PtpContainerType::from_u16(kind)?;
        let mut bytes = vec![];
        ptp_gen_message(&mut bytes, kind, code, number, payload);
        Some(bytes)
    }
}
