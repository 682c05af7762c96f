
// Strings read: theirs is a string of its own, ours the place and count of the units, all of them checked.

mod texts {
    use super::*;
    use archive::*;
    use clock::*;
    use inputs::*;
    use std::hint::black_box;

    type Read = fn(&[u8]) -> Result<String, Error>;

    fn reader() -> Read {
        black_box(|s| Cursor::new(s).read_ptp_str())
    }

    /// Ours and theirs are the same units, and ours is the whole string.
    fn agree(data: &[u8], theirs: &str) {
        let mut part = [0u64; 3];
        assert_eq!(accepted(archive::text(data, &mut part)), 3);
        assert_eq!(part[0] as usize, data.len());
        let start = part[1] as usize;
        let ours: Vec<u16> = data[start..start + 2 * part[2] as usize].chunks(2).map(|c| u16::from_le_bytes([c[0], c[1]])).collect();
        assert_eq!(ours, theirs.encode_utf16().collect::<Vec<u16>>());
    }

    pub fn texts() {
        let letters = "The quick brown fox. ";
        let pair = long_text(letters, 126) + "\u{1F600}" + &long_text(letters, 126);
        for &(name, ref text) in &[
            ("string of 254 units read, ASCII", long_text(letters, 254)),
            ("string of 254 units read, ASCII and one pair", pair),
            ("file name of 12 units read, ASCII", "DSC_0017.JPG".to_string()),
            ("string of 254 units read, all from 0xE000 on", long_text("\u{E000}\u{FF01}\u{F8FF}\u{FFFD}", 254)),
        ] {
            let data = string(text);
            let read = reader();
            agree(&data, &read(&data).expect("a string"));
            let mut part = [0u64; 3];
            line(name, 1,
                 side(|| { black_box(archive::text(black_box(&data), &mut part)); }),
                 Some(side(|| { black_box(read(black_box(&data)).is_ok()); })));
        }
    }

    /// Names of 8 to 24 units, one in a hundred with a letter or a picture that is not ASCII.
    fn names(count: usize) -> Vec<Vec<u8>> {
        let mut state = 1u64;
        let mut chance = move |below: usize| {
            state = state.wrapping_mul(6364136223846793005).wrapping_add(1442695040888963407);
            (state >> 33) as usize % below
        };
        (0..count).map(|place| {
            let mut letters: Vec<char> = (0..8 + chance(17)).map(|_| b"ABCDEFGHIJKLMNOPQRSTUVWXYZ_0123456789."[chance(38)] as char).collect();
            if place % 100 == 50 {
                letters.pop();
                let at = chance(letters.len() - 1);
                letters[at] = ['\u{E9}', '\u{65E5}', '\u{FF21}', '\u{1F600}'][chance(4)];
            }
            string(&letters.into_iter().collect::<String>())
        }).collect()
    }

    /// All of a night's names, one after the other, each where it stands in memory.
    pub fn night() {
        let all = names(1_000_000);
        let read = reader();
        for data in &all {
            agree(data, &read(data).expect("a name"));
        }
        let mut part = [0u64; 3];
        line("1,000,000 names of 8 to 24 units read, each", all.len(),
             side(|| for data in &all { black_box(archive::text(black_box(data), &mut part)); }),
             Some(side(|| for data in &all { black_box(read(black_box(data)).is_ok()); })));
    }
}
