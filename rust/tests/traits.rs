//! What Rust users expect of a type: iterators that know their length and stay ended, values that can be hashed and shown, `alloc`.
use ptp_proved::*;
use std::collections::HashSet;
use std::iter::FusedIterator;

const LIST: &[u8] = b"\x0D\x50\xFF\xFF\x01\x01\x00\x01\x41\x00\x02\x02\x00\x00\x02A\x00\x00\x00";

// It says how many are left before each step, and gives nothing after its end.
fn counts<I: ExactSizeIterator + FusedIterator>(mut each: I, mut left: usize) {
    while left > 0 {
        assert_eq!((each.len(), each.size_hint()), (left, (left, Some(left))));
        assert!(each.next().is_some());
        left -= 1;
    }
    assert_eq!(each.len(), 0);
    assert!(each.next().is_none() && each.next().is_none());
}

fn list() -> PtpValues<'static> {
    match PtpPropInfo::decode(PropLayout::Crate, LIST).unwrap().0.Form {
        PtpFormData::Enumeration { array } => array,
        other => panic!("{:?} is no list", other),
    }
}

#[test]
fn iterators_count_and_stay_ended() {
    counts(list().iter(), 2);
    counts(PtpReader::new(&[2, 0, 0, 0, 7, 8]).read_ptp_u8_vec().unwrap().iter(), 2);
    let (mut names, mut out, mut ends) = ([0; 6], [0; 16], [0; 2]);
    let mut objects = Objects::new(1, &[0], &mut names).unwrap();
    objects.add(0, 2, b"\x02A\0\0\0").unwrap();
    counts(objects.table().paths(&mut out, &mut ends).unwrap().into_iter(), 2);
    let mut places = [0; 2];
    counts(objects.table().placed_paths(&mut out, &mut ends, &mut places).unwrap().into_iter(), 2);
    let mut lent = [0; 32];
    let row = entry_bytes(6, 0x5001, None, 2, &[50], &mut lent).unwrap();
    counts(Settings::read(Edition::One, row).unwrap().into_iter(), 1);
    let row = write_entry(6, 0x5001, None::<Serial>, 2, &[50], &mut lent).unwrap();
    counts(Settings::read(Edition::One, row).unwrap().into_iter(), 1);
    let (mut out, mut starts, mut lengths) = ([0; 16], [0; 4], [0; 4]);
    counts(mend_recording(b"\xFF\x07\0\0\0\x03\0A\0", &mut out, &mut starts, &mut lengths).unwrap().dropped(), 2);
}

#[test]
fn what_is_equal_has_one_hash() {
    let (info, _) = PtpPropInfo::decode(PropLayout::Crate, LIST).unwrap();
    // an empty string in two spellings
    assert_eq!([info.FactoryDefault, info.Current].iter().collect::<HashSet<_>>().len(), 1);
    assert_eq!([info, info].iter().collect::<HashSet<_>>().len(), 1);
}

#[test]
fn every_refusal_is_a_sentence_of_its_own() {
    let said: HashSet<_> = (1..=22).map(|number| Refusal::from_number(number, 5).unwrap().to_string()).collect();
    assert_eq!(said.len(), 22);
    assert_eq!(said.iter().filter(|sentence| sentence.ends_with(" (at byte 5)")).count(), 2);
}

#[test]
fn a_width_is_kept() {
    let wide = PtpDataType::UINT128((2, 1));
    assert_eq!(format!("[{wide}][{wide:5}][{wide:>5}][{wide:^6}][{wide:2}]"), "[2:1][2:1  ][  2:1][ 2:1  ][2:1]");
    let array = PtpReader::new(&[2, 0, 0, 0, 7, 8]).read_type(0x4002).unwrap();
    assert_eq!(format!("{array:*>8}{array:7}|"), "**[7, 8][7, 8] |");
    let (end, trail) = (Refusal::END { at: 5 }, Refusal::TRAIL);
    assert_eq!(format!("{end:.>52}{trail:38}|"), format!(".{end}{trail} |"));
    // in characters, and not in bytes
    let text = PtpReader::new(b"\x03A\0\xE9\0\0\0").read_ptp_str().unwrap();
    assert_eq!(format!("{text:^5}|{text:1}"), " Aé  |Aé");
}

#[test]
fn a_recorder_shows_what_was_recorded() {
    let mut room = [7; 20];
    let mut recorder = Recorder::new(&mut room);
    assert_eq!(format!("{recorder:?}"), "Recorder { bytes: [], room: 20 }");
    recorder.received(b"\x0C\0\0\0\x03\0\x01\x20\0\0\0\0").unwrap();
    assert_eq!(format!("{recorder:?}").matches(", ").count(), 18);
    // the recorder is gone, and what it recorded stays
    assert_eq!(recorder.into_bytes(), b"\x12\0\0\0\x01\0\x0C\0\0\0\x03\0\x01\x20\0\0\0\0");
}

#[test]
fn objects_show_what_is_used() {
    let mut names = [0; 8];
    let mut objects = Objects::new(5, &[0], &mut names).unwrap();
    objects.add(0, 6, b"\x02A\0\0\0").unwrap();
    objects.delete(1).unwrap();
    let shown = "handles: [5, 6], parents: [0, 0], ends: [1, 6], marks: [1, 0], names: [0, 2, 65, 0, 0, 0], room: 8";
    assert_eq!(format!("{objects:?}"), format!("Objects {{ {shown} }}"));
}

#[cfg(feature = "alloc")]
#[test]
fn what_is_allocated_says_the_same() {
    let text = PtpReader::new(b"\x03A\0\xE9\0\0\0").read_ptp_str().unwrap();
    assert_eq!((String::from(text), text.to_string(), text.units().to_vec()), ("Aé".into(), "Aé".into(), vec![0x41, 0xE9]));
    let mut longest = vec![255];
    longest.resize(511, 65);
    longest[509..].fill(0);
    for (code, bytes) in [(0xFFFF, &longest[..]), (0xFFFF, &[0]), (0x4004, &[2, 0, 0, 0, 1, 0, 2, 0]), (0x0A, &[7; 16]), (0, &[])] {
        assert_eq!(PtpReader::new(bytes).read_type(code).unwrap().to_vec(), bytes);
    }
}
