//! Commands, answers and records.
use super::{datasets, show, words};
use ptp_proved::*;

// The session that was asked, at its state before; and what it made: the number sent, and how many bytes.
fn made(state: u32, session: Session, made: Result<(u32, usize), Refusal>, out: &[u8]) -> String {
    match made {
        Ok((number, count)) => format!("ok {number} {} {count} {}", session.number(), show::bytes(out)),
        Err(why) => {
            assert_eq!(session.number(), state, "a refused command moved the state");
            format!("{} {}", show::refusal(why), show::bytes(out))
        }
    }
}

// The bytes that a command says it made are the front of what it was lent; the Command is as long as it says itself, and its Data the rest.
fn told(made: Made) -> (u32, usize) {
    let length = u32::from_le_bytes([made.bytes[0], made.bytes[1], made.bytes[2], made.bytes[3]]);
    assert_eq!((made.command().len(), made.data().len()), (length as usize, made.bytes.len() - length as usize));
    (made.number, made.bytes.len())
}

pub fn command(state: &str, code: &str, params: &str, data: Option<&str>, room: &str) -> Option<String> {
    let state = words::half(state)?;
    let code = words::short(code)?;
    let params = words::list(params, words::half)?;
    let data = match data {
        Some(word) => Some(words::bytes(word)?),
        None => None,
    };
    let mut out = words::room(room)?;
    let mut session = Session::at(state);
    let answer = match data {
        Some(data) => session.command_with_data(code, &params, &data, &mut out),
        None => session.command(code, &params, &mut out),
    };
    let answer = answer.map(told);
    Some(made(state, session, answer, &out))
}

pub fn set_value(layout: &str, state: &str, description: &str, code: &str, value: &str, room: &str) -> Option<String> {
    let layout = datasets::layout_of(layout)?;
    let state = words::half(state)?;
    let description = words::bytes(description)?;
    let code = words::short(code)?;
    let value = words::bytes(value)?;
    let mut out = words::room(room)?;
    let mut session = Session::at(state);
    let answer = session.set_value(layout, &description, code, &value, &mut out).map(told);
    Some(made(state, session, answer, &out))
}

// The call's own form for all objects or for the roots, where the handle says that and the call has one.
fn own_form<'o>(
    session: &mut Session,
    name: &str,
    (storage, filter, handle): (u32, Option<u32>, u32),
    out: &'o mut [u8],
) -> Option<Result<Made<'o>, Refusal>> {
    match (name, handle) {
        ("GetNumObjects", 0) => Some(session.get_numobjects_all(storage, filter, out)),
        ("GetNumObjects", 0xFFFFFFFF) => Some(session.get_numobjects_roots(storage, filter, out)),
        ("GetObjectHandles", 0) => Some(session.get_objecthandles_all(storage, filter, out)),
        ("GetObjectHandles", 0xFFFFFFFF) => Some(session.get_objecthandles_root(storage, filter, out)),
        _ => None,
    }
}

pub fn call(name: &str, state: &str, ids: [&str; 3], room: &str) -> Option<String> {
    let state = words::half(state)?;
    let [storage, filter, handle] = ids.map(words::half);
    let (storage, filter, handle) = (storage?, filter?, handle?);
    let some_filter = if filter == 0 { None } else { Some(filter) };
    let mut out = words::room(room)?;
    let mut session = Session::at(state);
    let answer = match name {
        "GetDeviceInfo" => session.get_device_info(&mut out),
        "OpenSession" => session.open_session(&mut out),
        "CloseSession" => session.close_session(&mut out),
        "GetStorageIDs" => session.get_storageids(&mut out),
        "GetStorageInfo" => session.get_storage_info(storage, &mut out),
        "GetNumObjects" => session.get_numobjects(storage, handle, some_filter, &mut out),
        "GetObjectHandles" => session.get_objecthandles(storage, handle, some_filter, &mut out),
        "GetObjectInfo" => session.get_objectinfo(handle, &mut out),
        "GetObject" => session.get_object(handle, &mut out),
        _ => return None,
    };
    let answer = answer.map(told);
    let (mut own, mut own_out) = (Session::at(state), words::room(room)?);
    if let Some(same) = own_form(&mut own, name, (storage, some_filter, handle), &mut own_out) {
        assert_eq!(same.map(told), answer);
        assert_eq!((&own, &own_out), (&session, &out));
    }
    Some(made(state, session, answer, &out))
}

pub fn answer(number: &str, s: &str) -> Option<String> {
    let number = words::half(number)?;
    let s = words::bytes(s)?;
    Some(match find_answer(&s, number) {
        Ok((Answer::Data { start, payload }, next)) => {
            assert_eq!(show::start(payload, &s), start);
            format!("ok data {start} {} {next}", payload.len())
        }
        Ok((Answer::Response(code), next)) => format!("ok response {code} {next}"),
        Err(why) => show::refusal(why),
    })
}

// The Data payload is told for Ok alone: for another Response it is looked for in the containers before it.
fn last_data(s: &[u8], end: usize) -> (usize, usize) {
    let (mut at, mut last) = (0, (0, 0));
    while at < end {
        let (container, next) = read_container(s, at).expect("a container before the Response");
        if container.kind == PtpContainerType::Data {
            last = (next - container.payload.len(), container.payload.len());
        }
        at = next;
    }
    last
}

pub fn response(number: &str, s: &str) -> Option<String> {
    let (number, s) = (words::half(number)?, words::bytes(s)?);
    Some(match find_response(&s, number) {
        Ok((found, next)) => {
            let size = next - found.start;
            assert_eq!(found.parameters.len(), size / 4);
            let (start, length) = last_data(&s, found.start - 12);
            if let Ok((Answer::Data { start: told, payload }, _)) = find_answer(&s, number) {
                assert_eq!((told, payload.len()), (start, length));
            }
            format!("ok {} {} {size} {start} {length} {next}", found.code, found.start)
        }
        Err(why) => show::refusal(why),
    })
}

pub fn needs(number: &str, s: &str) -> Option<String> {
    Some(format!("ok {}", needed(&words::bytes(s)?, words::half(number)?)))
}

fn record_line(s: &[u8], record: PtpRecord, next: usize) -> String {
    format!("ok {} {} {} {next}", record.kind as u16, show::start(record.body, s), record.body.len())
}

pub fn record(s: &str) -> Option<String> {
    let s = words::bytes(s)?;
    Some(match read_record(&s) {
        Ok((record, next)) => record_line(&s, record, next),
        Err(why) => show::refusal(why),
    })
}

// The records, gone through one by one, are as many as were counted, and fill the bytes.
pub fn recording(s: &str) -> Option<String> {
    let s = words::bytes(s)?;
    Some(match records(&s) {
        Ok(each) => {
            assert_eq!(read_recording(&s), Ok(each.len()));
            let told: Vec<_> = each
                .map(|record| format!("{} {} {}", record.kind as u16, show::start(record.body, &s), record.body.len()))
                .collect();
            [vec!["ok".into(), told.len().to_string()], told].concat().join(" ")
        }
        Err(why) => {
            assert_eq!(read_recording(&s), Err(why));
            show::refusal(why)
        }
    })
}

pub fn copy(s: &str, room: &str) -> Option<String> {
    let s = words::bytes(s)?;
    let mut out = words::room(room)?;
    let answer = copy_recording(&s, &mut out).map(|copied| (copied.bytes.len(), copied.left_records, copied.left_bytes));
    Some(match answer {
        Ok((count, records, bytes)) => format!("ok {count} {} {records} {bytes}", show::bytes(&out)),
        Err(why) => format!("{} {}", show::refusal(why), show::bytes(&out)),
    })
}

pub fn mend(s: &str, room: &str, report: &str) -> Option<String> {
    let s = words::bytes(s)?;
    let mut out = words::room(room)?;
    let [mut starts, mut lengths] = [words::report(report)?, words::report(report)?];
    let answer = mend_recording(&s, &mut out, &mut starts, &mut lengths).map(|mended| {
        let dropped = mended.dropped().map(|(_, length)| length as usize).sum::<usize>();
        assert_eq!(mended.bytes.len() + dropped, s.len());
        (mended.bytes.len(), mended.dropped().len())
    });
    let lists = format!("{} {}", show::runs(&starts), show::runs(&lengths));
    Some(match answer {
        Ok((count, stretches)) => format!("ok {count} {} {stretches} {lists}", show::bytes(&out)),
        Err(why) => format!("{} {} {lists}", show::refusal(why), show::bytes(&out)),
    })
}
