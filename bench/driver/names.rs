
// Names: every code that has one and a few that have none, one after the other; the time is for each.

mod names {
    use super::*;
    use archive::*;
    use clock::*;
    use std::hint::black_box;

    pub fn names() {
        type Name = fn(u16) -> Option<&'static str>;
        let length = |their: Name, code: u16| -> u64 { their(code).map_or(0, str::len) as u64 };
        let lengths = |their: Name, codes: std::ops::Range<u16>| -> u64 { codes.map(|code| length(their, code)).sum() };
        let responses = lengths(StandardResponseCode::name, 0x2000..0x2021);
        for &(found, before, first, count, their, at) in &[
            ("response name found", 0, 0x2000, 33, StandardResponseCode::name as Name, ptp_response_place as Place),
            ("command name found", responses, 0x1000, 29, StandardCommandCode::name as Name, ptp_command_place as Place),
        ] {
            let codes: Vec<u16> = (0..count + 3).map(|i| first + i * 17 % (count + 3)).collect();
            for &code in &codes {
                let size = length(their, code);
                let place = if size == 0 { 0 } else { (before + lengths(their, first..code)) * 65536 + size };
                assert_eq!(unsafe { at(code) }, place);
            }
            let their = black_box(their);
            line(found, codes.len(),
                 side(|| for &code in &codes { black_box(unsafe { at(black_box(code)) }); }),
                 Some(side(|| for &code in &codes { black_box(their(black_box(code))); })));
        }
    }
}
