//! What a controller need not write by hand: datasets back into bytes, the value after and before, text, numbers.
use ptp_proved::*;

const LIST: &[u8] = b"\x0D\x50\x04\0\x01\x01\x05\0\x07\0\x02\x03\0\x05\0\x07\0\x09\0";

fn range(current: i16, least: i16, most: i16, step: i16) -> Vec<u8> {
    let mut s = b"\x10\x50\x03\0\x01\x01\0\0".to_vec();
    s.extend_from_slice(&current.to_le_bytes());
    s.push(1);
    [least, most, step].iter().for_each(|part| s.extend_from_slice(&part.to_le_bytes()));
    s
}

fn around(s: &[u8]) -> (Option<PtpDataType<'_>>, Option<PtpDataType<'_>>) {
    let (info, _) = PtpPropInfo::decode(PropLayout::Crate, s).unwrap();
    (info.value_before(), info.value_after())
}

#[test]
fn the_value_after_and_before_the_current_one() {
    use PtpDataType::*;
    assert_eq!(around(LIST), (Some(UINT16(5)), Some(UINT16(9))));
    assert_eq!(around(&range(0, -2000, 2000, 333)), (Some(INT16(-333)), Some(INT16(333))));
    assert_eq!(around(&range(-2000, -2000, 2000, 4000)), (None, Some(INT16(2000))));
    assert_eq!(around(&range(32767, -32768, 32767, 1)), (Some(INT16(32766)), None));
    assert_eq!(around(b"\x01\x50\x02\0\0\x01\x64\x32\0"), (None, None));
    // a current value that is not in its list
    assert_eq!(around(b"\x0D\x50\x02\0\x01\x01\x05\x06\x02\x02\0\x05\x09"), (None, None));
}

#[test]
fn a_description_is_written_as_it_is_read() {
    let mut out = [9; 64];
    for s in [LIST, &range(1, 0, 2, 1), b"\x01\x50\x02\0\0\x01\x64\x32\0", b"\x01\x50\0\0\0\x01\x02\x03\0"] {
        let (info, taken) = PtpPropInfo::decode(PropLayout::Crate, s).unwrap();
        assert_eq!((info.encode(PropLayout::Crate, &mut out).unwrap(), taken), (s, s.len()));
        let by_the_book = [&s[..5], &s[6..]].concat();
        assert_eq!(info.encode(PropLayout::Book, &mut out).unwrap(), by_the_book);
    }
    let (info, _) = PtpPropInfo::decode(PropLayout::Crate, LIST).unwrap();
    let mut short = [9; 18];
    assert_eq!(info.encode(PropLayout::Crate, &mut short), Err(Refusal::ROOM));
    assert_eq!(short, [9; 18]);
    // another current value, as a camera of one's own has it after it was set
    let (value, _) = PtpValue::read(4, &[9, 0], 0).unwrap();
    let set = PtpPropInfo { Current: value, ..info };
    assert_eq!(
        PtpPropInfo::decode(PropLayout::Crate, set.encode(PropLayout::Crate, &mut out).unwrap()).unwrap().0.Current.to_string(),
        "9"
    );
}

// Fields that are all different, strings and arrays among them.
fn record(numbers: usize, texts: &[&[u8]]) -> Vec<u8> {
    (1..=numbers).map(|n| n as u8).chain(texts.concat()).collect()
}

#[test]
fn records_are_written_as_they_are_read() {
    let (a, b, array) = (&b"\x02A\0\0\0"[..], &b"\0"[..], &b"\x02\0\0\0\x01\x10\x02\x10"[..]);
    let device = record(8, &[a, &[5, 6], array, array, b"\0\0\0\0", array, array, a, b, a, a]);
    let object = record(52, &[a, b, a, a]);
    let storage = record(26, &[a, b]);
    let (mut out, mut tidy) = ([9; 128], [9; 128]);
    let (info, taken) = PtpDeviceInfo::decode(&device).unwrap();
    assert_eq!((info.encode(&mut out).unwrap(), taken), (&device[..], device.len()));
    assert_eq!(tidy_device(&device, &mut tidy).unwrap(), device);
    let mut short = [9; 127];
    let short = &mut short[..device.len() - 1];
    assert_eq!(info.encode(short), Err(Refusal::ROOM));
    assert!(short.iter().all(|&byte| byte == 9));
    assert_eq!(PtpObjectInfo::decode(&object).unwrap().0.encode(&mut out).unwrap(), object);
    assert_eq!(PtpStorageInfo::decode(&storage).unwrap().0.encode(&mut out).unwrap(), storage);
}

#[test]
fn text_of_up_to_254_units_is_written() {
    let mut out = [9; 511];
    assert_eq!(write_str(&"A".repeat(255), &mut out), Err(Refusal::COUNT));
    assert_eq!(write_str(&"\u{1F600}".repeat(127), &mut out).map(|bytes| bytes.len()), Ok(511));
    assert_eq!(write_str("", &mut out), Ok(&[0][..]));
    assert_eq!(write_str("AB", &mut [0; 6]), Err(Refusal::ROOM));
}

#[test]
fn all_numbers_of_a_list_in_one_call() {
    let (info, _) = PtpPropInfo::decode(PropLayout::Crate, LIST).unwrap();
    match info.Form {
        PtpFormData::Enumeration { array } => assert_eq!(array.numbers(&mut [0; 3]), Ok(&[5, 7, 9][..])),
        other => panic!("{other:?}"),
    }
    let mut out = [9; 3];
    assert_eq!(numbers(&[1, 2, 3], 1, 0xFFFF, 2, &mut out), Err(Refusal::PLACE));
    assert_eq!(numbers(&[1, 2, 3, 4], 1, 4, 2, &mut out), Err(Refusal::END { at: 3 }));
    assert_eq!(numbers(&[1, 2, 3], 0, 2, 3, &mut out[..2]), Err(Refusal::ROOM));
    assert_eq!(out, [9; 3]);
    assert_eq!(numbers(&[1, 0xFF], 0, 1, 2, &mut out), Ok(&[1, u64::MAX][..]));
    assert_eq!(out[2], 9);
}

#[test]
fn names_are_those_of_pima() {
    assert_eq!(StandardEventCode::name(0x4002), Some("ObjectAdded"));
    assert_eq!(StandardPropertyCode::name(StandardPropertyCode::ExposureTime), Some("ExposureTime"));
    assert_eq!(StandardPropertyCode::unit(0x500D), Some((10_000, "s")));
    assert_eq!((StandardObjectFormat::name(0x3801), StandardObjectFormat::name(0x3806)), (Some("EXIF_JPEG"), None));
}
