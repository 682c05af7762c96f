//! The calls for all objects and for the roots, byte for byte. The replay asks only some of them.
use ptp_proved::Session;

// By PIMA 15740: GetNumObjects is 0x1006 and GetObjectHandles 0x1007; each has the storage, the format that is asked for, 0 for any, and the
// association, where 0 says that none is meant and 0xFFFFFFFF the roots alone.
const COUNT_ALL: &[u8] = b"\x18\0\0\0\x01\0\x06\x10\x07\0\0\0\x01\0\x02\0\x01\x38\0\0\0\0\0\0";
const COUNT_ROOTS: &[u8] = b"\x18\0\0\0\x01\0\x06\x10\x07\0\0\0\x01\0\x02\0\x01\x38\0\0\xFF\xFF\xFF\xFF";
const HANDLES_ALL: &[u8] = b"\x18\0\0\0\x01\0\x07\x10\x07\0\0\0\x01\0\x02\0\x01\x38\0\0\0\0\0\0";
const HANDLES_ROOTS: &[u8] = b"\x18\0\0\0\x01\0\x07\x10\x07\0\0\0\x01\0\x02\0\x01\x38\0\0\xFF\xFF\xFF\xFF";

// The same, whatever the format.
fn of_any_format(command: &[u8]) -> Vec<u8> {
    [&command[..16], &[0; 4], &command[20..]].concat()
}

#[test]
fn all_objects_and_the_roots() {
    const STORAGE: u32 = 0x0002_0001;
    let out = &mut [0; 24];
    for format in [Some(0x3801), None] {
        let expected = |command: &[u8]| if format.is_some() { command.to_vec() } else { of_any_format(command) };
        assert_eq!(Session::at(7).get_numobjects_all(STORAGE, format, out).unwrap().bytes, expected(COUNT_ALL));
        assert_eq!(Session::at(7).get_numobjects_roots(STORAGE, format, out).unwrap().bytes, expected(COUNT_ROOTS));
        assert_eq!(Session::at(7).get_objecthandles_all(STORAGE, format, out).unwrap().bytes, expected(HANDLES_ALL));
        assert_eq!(Session::at(7).get_objecthandles_root(STORAGE, format, out).unwrap().bytes, expected(HANDLES_ROOTS));
    }
}
