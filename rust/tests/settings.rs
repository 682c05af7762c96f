//! Settings kept from reel to reel: what is stored is found, and what is refused changes nothing.
use ptp_proved::{entry_bytes, write_entry, Edition, PtpDataType, PtpString, Refusal, Serial, Settings};

const SHUTTER: u16 = 0x500D;
const UINT32: u16 = 0x0006;
const SERIAL: [u16; 2] = [0x30, 0x31];

fn any(value: u32, out: &mut [u8]) -> &[u8] {
    entry_bytes(6, SHUTTER, None, UINT32, &value.to_le_bytes(), out).unwrap()
}

fn own(value: u32, out: &mut [u8]) -> &[u8] {
    entry_bytes(6, SHUTTER, Some(&SERIAL), UINT32, &value.to_le_bytes(), out).unwrap()
}

fn found(settings: Settings, serial: &[u16]) -> Option<u32> {
    settings.find(6, SHUTTER, serial).map(|kept| match kept.value.view() {
        PtpDataType::UINT32(value) => value,
        other => panic!("{other:?}"),
    })
}

#[test]
fn what_is_stored_is_found_and_a_serials_own_wins() {
    let (mut first, mut second, mut lent) = ([0; 64], [0; 64], [0; 32]);
    let empty = Settings::read(Edition::Two, &[]).unwrap();
    assert_eq!(found(empty, &SERIAL), None);
    let one = empty.store(any(80, &mut lent), &mut first).unwrap();
    assert_eq!((one.len(), found(one, &SERIAL), found(one, &[])), (1, Some(80), Some(80)));
    let two = one.store(own(100, &mut lent), &mut second).unwrap();
    assert_eq!((two.len(), found(two, &SERIAL), found(two, &[])), (2, Some(100), Some(80)));
    assert_eq!(two.find(6, SHUTTER, &SERIAL).map(|kept| kept.is_own), Some(true));
    assert_eq!(two.find(6, SHUTTER, &[]).map(|kept| kept.is_own), Some(false));
    assert_eq!(two.find(7, SHUTTER, &SERIAL), None);
    assert_eq!(two.find(6, SHUTTER + 1, &SERIAL), None);
    // units that no serial can have
    assert_eq!((found(two, &[0xD800]), found(two, &[0x30; 300])), (Some(80), Some(80)));
    assert!(two.iter().map(|entry| entry.serial.is_some()).eq([false, true]));
}

#[test]
fn storing_again_replaces_in_place() {
    let (mut first, mut second, mut third, mut lent) = ([0; 64], [0; 64], [0; 64], [0; 32]);
    let one = Settings::read(Edition::Two, &[]).unwrap().store(any(80, &mut lent), &mut first).unwrap();
    let two = one.store(own(100, &mut lent), &mut second).unwrap();
    let again = two.store(any(40, &mut lent), &mut third).unwrap();
    assert_eq!((again.len(), found(again, &SERIAL), found(again, &[])), (2, Some(100), Some(40)));
    assert_eq!(again.iter().next().unwrap().serial, None);
}

#[test]
fn a_refused_store_changes_nothing() {
    let (mut first, mut lent) = ([0; 32], [0; 32]);
    let one = Settings::read(Edition::One, &[]).unwrap().store(any(80, &mut lent), &mut first).unwrap();
    let long = own(100, &mut lent);
    let mut out = [9; 64];
    assert_eq!(one.store(long, &mut out), Err(Refusal::EDITION));
    assert_eq!(one.store(&[], &mut out), Err(Refusal::END { at: 0 }));
    let mut lent = [0; 32];
    let same = any(80, &mut lent);
    assert_eq!(one.store(same, &mut out[..17]), Err(Refusal::ROOM));
    assert_eq!(out, [9; 64]);
    assert_eq!(one.store(same, &mut out).map(|row| row.bytes().len()), Ok(18));
    assert_eq!(out[18..], [9; 46]);
}

#[test]
fn two_hundred_and_fifty_six_are_held() {
    let mut row = Vec::new();
    for property in 0..256 {
        row.extend_from_slice(entry_bytes(6, property, None, 0, &[], &mut [0; 14]).unwrap());
    }
    let full = Settings::read(Edition::One, &row).unwrap();
    assert_eq!((full.len(), full.iter().len()), (256, 256));
    let mut out = vec![9; row.len() + 14];
    let (mut new, mut held) = ([0; 14], [0; 15]);
    let new = entry_bytes(7, 0, None, 0, &[], &mut new).unwrap();
    assert_eq!(full.store(new, &mut out), Err(Refusal::FULL));
    let held = entry_bytes(6, 255, None, 2, &[1], &mut held).unwrap();
    assert_eq!(full.store(held, &mut out).map(|stored| stored.len()), Ok(256));
    row.extend_from_slice(new);
    assert_eq!(Settings::read(Edition::Two, &row), Err(Refusal::FULL));
}

#[test]
fn an_entry_is_laid_out_in_its_exact_room() {
    for (serial, need) in [(None, 18), (Some(&[][..]), 19), (Some(&SERIAL[..]), 25)] {
        let mut out = [9; 32];
        assert_eq!(entry_bytes(6, SHUTTER, serial, UINT32, &[1, 0, 0, 0], &mut out[..need - 1]), Err(Refusal::ROOM));
        assert_eq!(out, [9; 32]);
        assert_eq!(entry_bytes(6, SHUTTER, serial, UINT32, &[1, 0, 0, 0], &mut out).map(|bytes| bytes.len()), Ok(need));
        assert_eq!(out[need..], [9; 32][need..]);
    }
    assert_eq!(entry_bytes(6, SHUTTER, Some(&[0x30; 255]), 0, &[], &mut [0; 600]), Err(Refusal::COUNT));
    assert_eq!(entry_bytes(6, SHUTTER, Some(&[0x30; 254]), 0, &[], &mut [0; 600]).map(|bytes| bytes.len()), Ok(525));
}

#[test]
fn an_entry_that_is_written_is_the_one_that_is_laid_out() {
    let value = 80u32.to_le_bytes();
    for serial in [None, Some(&[][..]), Some(&SERIAL[..]), Some(&[0x30; 254][..])] {
        let (mut written, mut laid) = ([9; 600], [9; 600]);
        let written = write_entry(6, SHUTTER, serial, UINT32, &value, &mut written);
        assert_eq!(written, entry_bytes(6, SHUTTER, serial, UINT32, &value, &mut laid));
        assert!(written.is_ok());
    }
}

#[test]
fn an_entry_is_written_in_its_exact_room() {
    for (serial, need) in [(None, 18), (Some(&[][..]), 19), (Some(&SERIAL[..]), 25)] {
        let mut out = [9; 32];
        assert_eq!(write_entry(6, SHUTTER, serial, UINT32, &[1, 0, 0, 0], &mut out[..need - 1]), Err(Refusal::ROOM));
        assert_eq!(out, [9; 32]);
        assert_eq!(write_entry(6, SHUTTER, serial, UINT32, &[1, 0, 0, 0], &mut out).map(|bytes| bytes.len()), Ok(need));
        assert_eq!(out[need..], [9; 32][need..]);
    }
    assert_eq!(write_entry(6, SHUTTER, Some(&[0x30u16; 255]), 0, &[], &mut [0; 600]), Err(Refusal::COUNT));
    assert_eq!(write_entry(6, SHUTTER, Some(&[0x30u16; 254]), 0, &[], &mut [0; 600]).map(|bytes| bytes.len()), Ok(525));
}

#[test]
fn an_entry_that_no_row_takes_is_not_written() {
    let mut out = [9; 600];
    assert_eq!(write_entry(6, SHUTTER, Some(&[0xD800u16]), 0, &[], &mut out), Err(Refusal::TEXT { at: 0 }));
    assert_eq!(write_entry(6, SHUTTER, Some(&[0x30u16; 255]), 0, &[1], &mut out), Err(Refusal::COUNT));
    // a UINT32 of three bytes, of five, and an untidy string
    for (code, value) in [(UINT32, &[1, 0, 0][..]), (UINT32, &[1, 0, 0, 0, 0]), (0xFFFF, b"\x01\0\0")] {
        assert_eq!(write_entry(6, SHUTTER, None::<Serial>, code, value, &mut out), Err(Refusal::RECORD));
    }
    assert_eq!(out, [9; 600]);
}

#[test]
fn what_is_removed_is_held_no_more() {
    let (mut first, mut second, mut third, mut lent) = ([0; 64], [0; 64], [0; 64], [0; 32]);
    let one = Settings::read(Edition::Two, &[]).unwrap().store(any(80, &mut lent), &mut first).unwrap();
    let two = one.store(own(100, &mut lent), &mut second).unwrap();
    let left = two.remove(6, SHUTTER, Some(&SERIAL), &mut third).unwrap();
    assert_eq!((left.bytes(), found(left, &SERIAL)), (one.bytes(), Some(80)));
    let mut fourth = [0; 64];
    assert_eq!(left.remove(6, SHUTTER, None::<Serial>, &mut fourth).map(|row| row.len()), Ok(0));
    // not held: the row as it stands
    for (vendor, serial) in [(7, None), (6, Some(&SERIAL[..1])), (6, Some(&[0xD800][..])), (6, Some(&[0x30; 300][..]))] {
        let mut out = [9; 64];
        assert_eq!(two.remove(vendor, SHUTTER, serial, &mut out).map(|row| row.bytes() == two.bytes()), Ok(true));
    }
    assert_eq!(two.remove(6, SHUTTER, Some(&SERIAL), &mut [0; 17]).map(drop), Err(Refusal::ROOM));
}

#[test]
fn a_serial_is_taken_as_the_camera_gives_it() {
    let (mut room, mut lent) = ([0; 16], [0; 32]);
    let serial = PtpString::write("01", &mut room).unwrap();
    let row = write_entry(6, SHUTTER, Some(serial), UINT32, &[1, 0, 0, 0], &mut lent).unwrap();
    let settings = Settings::read(Edition::Two, row).unwrap();
    assert_eq!(settings.find_for(6, SHUTTER, serial), settings.find(6, SHUTTER, &SERIAL));
    assert_eq!(settings.find_for(6, SHUTTER, serial), settings.find_for(6, SHUTTER, &SERIAL));
    assert!(settings.find_for(6, SHUTTER, serial).unwrap().is_own);
}
