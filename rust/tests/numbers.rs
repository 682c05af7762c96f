//! The numbers of a session: what each command is sent with, and what comes next.
use ptp_proved::{find_answer, Answer, Made, Refusal, Session};

const OPEN: u16 = 0x1002;
const CLOSE: u16 = 0x1003;
const OTHER: u16 = 0x1004;
const LAST: u32 = 4_294_967_294;

// The number that is told, which must be the one in the bytes.
fn sent(made: Result<Made, Refusal>) -> u32 {
    let made = made.unwrap();
    assert_eq!(made.bytes[8..12], made.number.to_le_bytes());
    made.number
}

#[test]
fn a_session_opened_twice_and_closed() {
    let mut session = Session::new();
    let out = &mut [0; 24];
    assert_eq!(sent(session.get_device_info(out)), 0);
    assert_eq!(sent(session.open_session(out)), 0);
    assert_eq!(sent(session.get_storageids(out)), 1);
    assert_eq!(sent(session.open_session(out)), 0);
    assert_eq!(sent(session.close_session(out)), 1);
    assert_eq!(sent(session.get_device_info(out)), 0);
}

#[test]
fn every_row_of_the_rule() {
    let rows = [
        (0, OPEN, 0, 1),
        (57, OPEN, 0, 1),
        (u32::MAX, OPEN, 0, 1),
        (0, CLOSE, 0, 0),
        (0, OTHER, 0, 0),
        (1, CLOSE, 1, 0),
        (u32::MAX, CLOSE, u32::MAX, 0),
        (1, OTHER, 1, 2),
        (LAST - 1, OTHER, LAST - 1, LAST),
        (LAST, OTHER, LAST, 1),
        (u32::MAX, OTHER, u32::MAX, 1),
    ];
    for (state, code, number, next) in rows {
        let out = &mut [0; 64];
        let mut session = Session::at(state);
        assert_eq!((sent(session.command(code, &[5], out)), session.number()), (number, next));
        let mut session = Session::at(state);
        assert_eq!((sent(session.command_with_data(code, &[], b"AB", out)), session.number()), (number, next));
        // the Data container carries the Command's number
        assert_eq!(out[20..24], number.to_le_bytes());
    }
}

#[test]
fn a_refused_command_leaves_the_state() {
    for (state, code) in [(0, OPEN), (57, OPEN), (57, CLOSE), (57, OTHER), (LAST, OTHER)] {
        let mut session = Session::at(state);
        assert_eq!(session.command(code, &[], &mut [0; 11]), Err(Refusal::ROOM));
        assert_eq!(session.command_with_data(code, &[0; 6], &[], &mut [0; 64]), Err(Refusal::COUNT));
        assert_eq!(session.number(), state);
    }
}

#[test]
fn the_answer_to_a_second_open_session_is_found() {
    let mut session = Session::at(57);
    let number = session.open_session(&mut [0; 24]).unwrap().number;
    let ok = b"\x0C\0\0\0\x03\0\x01\x20\0\0\0\0";
    assert_eq!(find_answer(ok, number), Ok((Answer::Data { start: 0, payload: &[] }, 12)));
}
