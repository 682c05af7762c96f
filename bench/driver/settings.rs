
// Settings: a find and a store in a full row, whose every entry has one camera's serial or none; a find in a short one. Theirs has none.

mod settings {
    use archive::*;
    use clock::*;
    use inputs::*;
    use std::hint::black_box;

    const VENDOR: u32 = 6;
    const SERIAL: [u16; 5] = [0x30, 0x30, 0x34, 0x31, 0x37];

    /// A UINT32 of a property, of even ones for any camera, of odd ones for the camera of the serial.
    fn entry(property: u16, value: u32) -> Vec<u8> {
        let serial = [vec![SERIAL.len() as u8 + 1], u16s(&SERIAL), u16s(&[0])].concat();
        let own = if property % 2 == 1 { serial } else { vec![] };
        let rest = [u32s(&[VENDOR]), u16s(&[property]), own, u16s(&[6]), u32s(&[value])].concat();
        [u32s(&[6 + rest.len() as u32]), u16s(&[16 + property % 2]), rest].concat()
    }

    /// The worst row: serials of 254 units that differ in the first alone, since keys are compared from their ends.
    fn long_row() -> Vec<u8> {
        (0..256u16).flat_map(|n| {
            let units: Vec<u16> = (0..254).map(|at| if at == 0 { 0x100 + n } else { 0x41 }).collect();
            let rest = [u32s(&[VENDOR]), u16s(&[1]), vec![255], u16s(&units), u16s(&[0]), u16s(&[6]), u32s(&[80])].concat();
            [u32s(&[6 + rest.len() as u32]), u16s(&[17]), rest].concat()
        }).collect()
    }

    fn row(count: u16) -> Vec<u8> {
        (0..count).flat_map(|property| entry(property, 80)).collect()
    }

    pub fn settings() {
        let mut found = [0u64; 16];
        for &(name, count) in &[("a setting found in a row of 256", 256), ("a setting found in a row of 16", 16)] {
            let row = row(count);
            assert!(accepted(settings_find(&row, VENDOR, count - 1, &SERIAL, &mut found)) > 0);
            line(name, 1, side(|| { black_box(settings_find(black_box(&row), VENDOR, count - 1, &SERIAL, &mut found)); }), None);
        }
        let worst = long_row();
        assert_eq!(accepted(settings_find(&worst, VENDOR, 2, &SERIAL, &mut found)), 0);
        line("a setting sought in a row of 256 with long equal serials", 1, side(|| { black_box(settings_find(black_box(&worst), VENDOR, 2, &SERIAL, &mut found)); }), None);
        let row = row(256);
        let new = entry(255, 100);
        let mut out = vec![0u8; row.len()];
        let count = accepted(settings_store(&row, &new, &mut out));
        assert_eq!(&out[..count], &[&row[..row.len() - new.len()], &new[..]].concat()[..]);
        line("a setting stored in a row of 256", 1, side(|| { black_box(settings_store(black_box(&row), &new, &mut out)); }), None);
    }
}
