//! What is lent: a refusal leaves it as it was, the exact need suffices, and nothing past what was given is touched.
use ptp_proved::{
    item, mend_recording, newer_value, read_container, tidy_property, unit, utf8, utf8_len, Newer, PropLayout, PtpDataType,
    PtpFormData, PtpPropInfo, PtpReader, PtpValues, Refusal, Session,
};

const KEPT: u8 = 0xA5;

// A list of an empty string and A; the current value, also empty, is spelled with an unread unit.
const LIST: [u8; 19] = *b"\x05\xD0\xFF\xFF\x01\x01\x00\x01\x41\x00\x02\x02\x00\x00\x02A\x00\x00\x00";
const TIDY: [u8; 17] = *b"\x05\xD0\xFF\xFF\x01\x01\x00\x00\x02\x02\x00\x00\x02A\x00\x00\x00";
const RANGE: [u8; 12] = *b"\x01\x50\x02\x00\x00\x01\x64\x32\x01\x00\x64\x01";

#[test]
fn tidy_needs_its_exact_room() {
    for room in 0..TIDY.len() {
        let mut out = [KEPT; 32];
        assert_eq!(tidy_property(PropLayout::Crate, &LIST, &mut out[..room]), Err(Refusal::ROOM));
        assert_eq!(out, [KEPT; 32]);
    }
    for room in [TIDY.len(), 32] {
        let mut out = [KEPT; 32];
        assert_eq!(tidy_property(PropLayout::Crate, &LIST, &mut out[..room]), Ok(&TIDY[..]));
        assert_eq!(out[TIDY.len()..], [KEPT; 32][TIDY.len()..]);
    }
}

#[test]
fn tidy_refused_by_its_reading_writes_nothing() {
    // the first bytes of its fields: numbers, two strings, form byte, count, two strings
    const FIELDS: [usize; 10] = [0, 2, 4, 5, 6, 7, 10, 11, 13, 14];
    for cut in 0..LIST.len() {
        let mut out = [KEPT; 32];
        let at = FIELDS.into_iter().rev().find(|&field| field <= cut).unwrap();
        assert_eq!(tidy_property(PropLayout::Crate, &LIST[..cut], &mut out), Err(Refusal::END { at }));
        assert_eq!(out, [KEPT; 32]);
    }
}

#[test]
fn command_needs_its_exact_room() {
    // twelve bytes of the command, four of its parameter, fourteen of its data
    const NEED: usize = 30;
    for room in 0..NEED {
        let mut out = [KEPT; 40];
        let mut session = Session::at(7);
        assert_eq!(session.command_with_data(0x1016, &[0x500D], b"AB", &mut out[..room]), Err(Refusal::ROOM));
        assert_eq!((out, session.number()), ([KEPT; 40], 7));
    }
    for room in [NEED, 40] {
        let mut out = [KEPT; 40];
        let mut session = Session::at(7);
        let made = session.command_with_data(0x1016, &[0x500D], b"AB", &mut out[..room]).unwrap();
        assert_eq!((made.number, made.bytes.len()), (7, NEED));
        assert_eq!(made.bytes[..16], *b"\x10\0\0\0\x01\0\x16\x10\x07\0\0\0\x0D\x50\0\0");
        assert_eq!(made.bytes[16..], *b"\x0E\0\0\0\x02\0\x16\x10\x07\0\0\0AB");
        assert_eq!(session.number(), 8);
        assert_eq!(out[NEED..], [KEPT; 40][NEED..]);
    }
}

#[test]
fn data_of_no_bytes_is_not_no_data() {
    let mut out = [KEPT; 24];
    assert_eq!(Session::new().command(0x1003, &[], &mut out).unwrap().bytes.len(), 12);
    assert_eq!(Session::new().command_with_data(0x1003, &[], &[], &mut out).unwrap().bytes.len(), 24);
}

#[test]
fn refused_command_uses_no_number() {
    let mut out = [KEPT; 64];
    let mut session = Session::at(7);
    assert_eq!(session.command(0x1001, &[1, 2, 3, 4, 5, 6], &mut out), Err(Refusal::COUNT));
    assert_eq!((session.number(), out), (7, [KEPT; 64]));
    assert_eq!(session.command(0x1001, &[1, 2, 3, 4, 5], &mut out).unwrap().number, 7);
    assert_eq!(session.number(), 8);
}

#[test]
fn only_an_allowed_value_is_set() {
    for (code, value, room, why) in [
        (3, &[5][..], 64, Refusal::TYPE),
        (2, &[], 64, Refusal::END { at: 0 }),
        (2, &[5, 0], 64, Refusal::TRAIL),
        (2, &[101], 64, Refusal::VALUE),
        (2, &[5], 28, Refusal::ROOM),
    ] {
        let (mut session, mut out) = (Session::at(7), [KEPT; 64]);
        assert_eq!(session.set_value(PropLayout::Crate, &RANGE, code, value, &mut out[..room]), Err(why));
        assert_eq!((session.number(), out), (7, [KEPT; 64]));
    }
    let (mut session, mut out) = (Session::at(7), [KEPT; 32]);
    let made = session.set_value(PropLayout::Crate, &RANGE, 2, &[5], &mut out).unwrap();
    assert_eq!((made.number, made.bytes.len(), made.bytes[28]), (7, 29, 5));
    assert_eq!((session.number(), &out[29..]), (8, &[KEPT; 3][..]));
}

fn list_of(info: PtpPropInfo<'_>) -> PtpValues<'_> {
    match info.Form {
        PtpFormData::Enumeration { array } => array,
        other => panic!("{:?} is no list", other),
    }
}

#[test]
fn an_index_past_the_list_is_refused() {
    let (info, taken) = PtpPropInfo::decode(PropLayout::Crate, &LIST).unwrap();
    let array = list_of(info);
    assert_eq!((taken, array.len()), (19, 2));
    assert_eq!(array.nth(1).unwrap().bytes(), b"\x02A\0\0\0");
    for n in [2, 3, usize::MAX] {
        assert_eq!(array.nth(n), Err(Refusal::PLACE));
        assert_eq!(PtpPropInfo::nth(PropLayout::Crate, &LIST, n), Err(Refusal::PLACE));
    }
    assert_eq!(PtpPropInfo::nth(PropLayout::Crate, &RANGE, 0), Err(Refusal::PLACE));
    assert_eq!(PtpPropInfo::nth(PropLayout::Crate, &RANGE[..11], 0), Err(Refusal::END { at: 11 }));
}

#[test]
fn a_list_of_values_without_bytes_has_them_all() {
    let (info, taken) = PtpPropInfo::decode(PropLayout::Crate, b"\x01\x50\0\0\0\0\x02\xFF\xFF").unwrap();
    let array = list_of(info);
    assert_eq!(
        (taken, array.len(), array.iter().map(|value| value.view()).filter(|view| *view == PtpDataType::UNDEF).count()),
        (9, 65535, 65535)
    );
    assert_eq!(array.nth(65534).map(|value| value.bytes().len()), Ok(0));
    assert_eq!(array.nth(65535), Err(Refusal::PLACE));
}

#[test]
fn values_are_equal_by_what_they_say() {
    let (info, _) = PtpPropInfo::decode(PropLayout::Crate, &LIST).unwrap();
    assert_eq!(info.Current, info.FactoryDefault);
    assert_ne!(info.Current.bytes(), info.FactoryDefault.bytes());
    assert_ne!(info.Current, PtpPropInfo::nth(PropLayout::Crate, &LIST, 1).unwrap());
}

#[test]
fn the_newer_value_is_a_part_of_one_of_the_two() {
    assert_eq!(newer_value(PropLayout::Crate, &RANGE, &[75]), Newer::Payload(&[75]));
    assert_eq!(newer_value(PropLayout::Crate, &RANGE, &[75, 0]), Newer::Description(&[50]));
    assert_eq!(newer_value(PropLayout::Crate, &RANGE[..2], &[75]), Newer::Description(&[]));
    assert_eq!(newer_value(PropLayout::Crate, &RANGE, &[75]).bytes(), [75]);
}

// The range without its `IsEnable` byte; and bytes that fit both layouts.
const BOOK_RANGE: [u8; 11] = *b"\x01\x50\x02\x00\x00\x64\x32\x01\x00\x64\x01";
const EITHER: [u8; 9] = *b"\x01\x50\x02\x00\x00\x01\x64\x00\x00";

#[test]
fn a_description_is_read_by_the_layout_that_was_named() {
    let (crates, taken) = PtpPropInfo::decode(PropLayout::Crate, &RANGE).unwrap();
    let (books, book_taken) = PtpPropInfo::decode(PropLayout::Book, &BOOK_RANGE).unwrap();
    assert_eq!((crates.IsEnable, books.IsEnable), (Some(1), None));
    assert_eq!((taken, book_taken), (12, 11));
    assert_eq!((crates.FactoryDefault, crates.Current, crates.Form), (books.FactoryDefault, books.Current, books.Form));
    let (crates, _) = PtpPropInfo::decode(PropLayout::Crate, &EITHER).unwrap();
    let (books, _) = PtpPropInfo::decode(PropLayout::Book, &EITHER).unwrap();
    assert_eq!((crates.Current.bytes(), books.Current.bytes()), (&[0][..], &[100][..]));
}

#[test]
fn the_book_has_its_own_places() {
    for cut in 5..BOOK_RANGE.len() {
        let why = PtpPropInfo::decode(PropLayout::Book, &BOOK_RANGE[..cut]).unwrap_err();
        assert_eq!(why, Refusal::END { at: cut });
    }
    let mut out = [KEPT; 16];
    assert_eq!(tidy_property(PropLayout::Book, &BOOK_RANGE, &mut out), Ok(&BOOK_RANGE[..]));
    assert_eq!(newer_value(PropLayout::Book, &BOOK_RANGE, &[75, 0]), Newer::Description(&[50]));
}

// A note of a byte between two bytes that are no record.
const DAMAGED: [u8; 9] = *b"\xFF\x07\0\0\0\x03\0A\0";

#[test]
fn mending_needs_its_exact_room() {
    for (room, starts_room, lengths_room) in [(6, 2, 2), (7, 1, 2), (7, 2, 1), (0, 0, 0)] {
        let (mut out, mut starts, mut lengths) = ([KEPT; 9], [9; 3], [9; 3]);
        let answer = mend_recording(&DAMAGED, &mut out[..room], &mut starts[..starts_room], &mut lengths[..lengths_room]);
        assert_eq!(answer, Err(Refusal::ROOM));
        assert_eq!((out, starts, lengths), ([KEPT; 9], [9; 3], [9; 3]));
    }
    for (room, report) in [(7, 2), (9, 3)] {
        let (mut out, mut starts, mut lengths) = ([KEPT; 9], [9; 3], [9; 3]);
        let mended = mend_recording(&DAMAGED, &mut out[..room], &mut starts[..report], &mut lengths[..report]).unwrap();
        assert_eq!(mended.bytes, &DAMAGED[1..8]);
        assert!(mended.dropped().eq([(0, 1), (8, 1)]));
        assert_eq!((out[7..].iter().all(|&byte| byte == KEPT), starts[2], lengths[2]), (true, 9, 9));
    }
}

#[test]
fn a_sound_recording_is_mended_to_itself() {
    let mut out = [KEPT; 7];
    let mended = mend_recording(&DAMAGED[1..8], &mut out, &mut [], &mut []).unwrap();
    assert_eq!((mended.bytes, mended.dropped().len()), (&DAMAGED[1..8], 0));
}

#[test]
fn a_place_past_the_end_is_told_as_it_was_asked() {
    for at in [3, 1 << 54, 1 << 55, 1 << 63, usize::MAX - 1, usize::MAX] {
        let s = [2, 65, 0];
        let end = Refusal::END { at };
        assert_eq!(PtpReader::at(&s, at).read_ptp_u8(), Err(end));
        assert_eq!(PtpReader::at(&s, at).read_ptp_str(), Err(end));
        assert_eq!((unit(&s, at, 0), utf8_len(&s, at)), (Err(end), Err(end)));
        assert_eq!((item(&s, at, 0x4002, 0), item(&s, at, 2, 0)), (Err(end), Err(Refusal::PLACE)));
        assert_eq!((utf8(&s, at, &mut [0; 8]), read_container(&s, at)), (Err(end), Err(end)));
        // a value of no bytes stands anywhere
        let mut reader = PtpReader::at(&s, at);
        assert_eq!((reader.read_type(0), reader.place()), (Ok(PtpDataType::UNDEF), at));
    }
}
