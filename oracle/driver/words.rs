
// Words of a question. Every question asked here is well formed: docs/ASK.md's `?` is nobody's of the crate.

mod words {
    pub struct Words<'a>(pub Vec<&'a str>);

    impl<'a> Words<'a> {
        pub fn number(&self, place: usize) -> u64 {
            number(self.0[place])
        }

        pub fn code(&self, place: usize) -> u16 {
            self.number(place) as u16
        }

        pub fn u32(&self, place: usize) -> u32 {
            self.number(place) as u32
        }

        pub fn size(&self, place: usize) -> usize {
            self.number(place) as usize
        }

        pub fn bytes(&self, place: usize) -> Vec<u8> {
            let digits = self.0[place].as_bytes();
            if digits == b"-" {
                return vec![];
            }
            digits.chunks(2).map(|two| digit(two[0]) * 16 + digit(two[1])).collect()
        }

        pub fn list(&self, place: usize) -> Vec<u32> {
            match self.0[place] {
                "-" => vec![],
                joined => joined.split(',').flat_map(run).collect(),
            }
        }
    }

    /// A number alone, or N*TIMES.
    fn run(word: &str) -> Vec<u32> {
        let mut parts = word.split('*');
        let one = number(parts.next().expect("a number")) as u32;
        vec![one; parts.next().map_or(1, |times| number(times) as usize)]
    }

    fn digit(c: u8) -> u8 {
        (c as char).to_digit(16).expect("a hexadecimal digit") as u8
    }

    pub fn number(word: &str) -> u64 {
        if word.starts_with("0x") {
            return u64::from_str_radix(&word[2..], 16).expect("a hexadecimal number");
        }
        word.parse().expect("a number")
    }

    /// A signed number as `write-value` takes it.
    pub fn signed(word: &str) -> i64 {
        if word.starts_with("-") {
            return (number(&word[1..]) as i64).wrapping_neg();
        }
        number(word) as i64
    }

    pub fn halves(word: &str) -> (u64, u64) {
        let colon = word.find(':').expect("two halves");
        (number(&word[..colon]), number(&word[colon + 1..]))
    }
}
