
// Transactions and camera calls.

mod transactions {
    use super::*;
    use answers::*;
    use containers::*;
    use words::Words;

    const MOST_PARAMETERS: usize = 5;

    fn response_ok(number: u32) -> Vec<u8> {
        message(3, StandardResponseCode::Ok, number, &[]).expect("3 is a kind")
    }

    /// What the crate sends for a call, and the number it holds after it. The camera says Ok at once.
    fn sent_by(number: u32, size: usize, run: &Fn(&mut PtpCamera)) -> String {
        let mut camera = camera(number);
        libusb::script(vec![response_ok(number)]);
        run(&mut camera);
        laid_out(size, &format!("{} {} ", number, camera.current_tid), &libusb::sent())
    }

    pub fn command(words: &Words, payload: Option<&[u8]>, size: usize) -> String {
        let (number, code, parameters) = (words.u32(0), words.code(1), words.list(2));
        if left_out(parameters.len() <= MOST_PARAMETERS && number != u32::max_value()) {
            return NO_ANSWER.to_owned();
        }
        sent_by(number, size, &|camera| {
            camera.command(code, &parameters, payload, None).expect("the camera says Ok");
        })
    }

    pub fn call(words: &Words) -> String {
        let (number, storage, wanted, handle, size) =
            (words.u32(1), words.u32(2), words.u32(3), words.u32(4), words.size(5));
        if left_out(number != u32::max_value()) {
            return NO_ANSWER.to_owned();
        }
        let filter = if wanted == 0 { None } else { Some(wanted) };
        let name = words.0[0];
        // The camera sends no data, so some calls fail after what they sent; only that is looked at.
        sent_by(number, size, &|camera| match (name, handle) {
            ("GetDeviceInfo", _) => drop(camera.get_device_info(None)),
            ("OpenSession", _) => drop(camera.open_session(None)),
            ("CloseSession", _) => drop(camera.close_session(None)),
            ("GetStorageIDs", _) => drop(camera.get_storageids(None)),
            ("GetStorageInfo", _) => drop(camera.get_storage_info(storage, None)),
            ("GetNumObjects", 0) => drop(camera.get_numobjects_all(storage, filter, None)),
            ("GetNumObjects", 0xffff_ffff) => drop(camera.get_numobjects_roots(storage, filter, None)),
            ("GetNumObjects", _) => drop(camera.get_numobjects(storage, handle, filter, None)),
            ("GetObjectHandles", 0) => drop(camera.get_objecthandles_all(storage, filter, None)),
            ("GetObjectHandles", 0xffff_ffff) => drop(camera.get_objecthandles_root(storage, filter, None)),
            ("GetObjectHandles", _) => drop(camera.get_objecthandles(storage, handle, filter, None)),
            ("GetObjectInfo", _) => drop(camera.get_objectinfo(handle, None)),
            ("GetObject", _) => drop(camera.get_object(handle, None)),
            _ => (),
        })
    }

    /// The phases of one transaction, as places in the buffer, up to the one at which the crate stops; None where
    /// one of them is outside the domain.
    fn phases(number: u32, data: &[u8]) -> Option<Vec<(usize, usize)>> {
        let mut found = vec![];
        let mut at = 0;
        loop {
            let rest = &data[at..];
            if rest.is_empty() {
                return if outside() { Some(found) } else { None };
            }
            if left_out(length_in_domain(rest)) {
                return None;
            }
            let one = first_container(rest);
            found.push((at, at + one.len()));
            at += one.len();
            match PtpContainerInfo::parse(one) {
                Ok(ref read) if read.tid == number && read.kind != PtpContainerType::Response => (),
                _ => return Some(found),
            }
        }
    }

    fn is_data(container: &[u8]) -> bool {
        container.len() >= PTP_CONTAINER_INFO_SIZE && container[4] == 2 && container[5] == 0
    }

    /// START is the script's: where the payload of the last Data container served stands in the buffer. That the
    /// crate handed back those very bytes is tested.
    pub fn answer(number: u32, data: &[u8]) -> Answered {
        let phases = match phases(number, data) {
            Some(ref phases) if !left_out(number != u32::max_value()) => phases.clone(),
            _ => return Ok(NO_ANSWER.to_owned()),
        };
        libusb::script(phases.iter().flat_map(|&(start, end)| transfers(&data[start..end])).collect());
        let got = camera(number).command(StandardCommandCode::GetObject, &[], None, None);
        let after = phases.last().map_or(0, |&(_, end)| end) - libusb::unread();
        let payload = match got {
            Err(Error::Response(code)) => return Ok(format!("ok response {} {}", code, after)),
            other => other?,
        };
        let last = phases.iter().filter(|&&(start, end)| is_data(&data[start..end])).last();
        let start = last.map_or(0, |&(start, _)| start + PTP_CONTAINER_INFO_SIZE);
        if !data[start..].starts_with(&payload) {
            return Ok(format!("another payload: {}", hex(&payload)));
        }
        Ok(format!("ok data {} {} {}", start, payload.len(), after))
    }

    /// A camera that answers its next command with this Data payload and Response Ok.
    pub fn answering<'a>(payload: &[u8]) -> PtpCamera<'a> {
        let data = message(2, StandardCommandCode::GetObject, 0, payload).expect("2 is a kind");
        let mut script = transfers(&data);
        script.push(response_ok(0));
        libusb::script(script);
        camera(0)
    }
}
