//! The words of a question: docs/ASK.md. `None` is a word that is not written so, for which the answer is `?`.

pub const LARGEST_ROOM: u64 = 1_048_576;
const LONGEST_LIST: usize = 4096;

pub fn number(word: &str, largest: u64) -> Option<u64> {
    let (digits, radix) = match word.strip_prefix("0x") {
        Some(digits) => (digits, 16),
        None => (word, 10),
    };
    if digits.is_empty() || !digits.chars().all(|c| c.is_digit(radix)) {
        return None;
    }
    u64::from_str_radix(digits, radix).ok().filter(|&n| n <= largest)
}

pub fn byte(word: &str) -> Option<u8> {
    number(word, u8::MAX.into()).map(|n| n as u8)
}

pub fn short(word: &str) -> Option<u16> {
    number(word, u16::MAX.into()).map(|n| n as u16)
}

pub fn half(word: &str) -> Option<u32> {
    number(word, u32::MAX.into()).map(|n| n as u32)
}

pub fn size(word: &str) -> Option<usize> {
    number(word, u64::MAX).map(|n| n as usize)
}

/// Numbers joined by commas, each alone or as `N*TIMES`.
pub fn list<T: Clone>(word: &str, read: fn(&str) -> Option<T>) -> Option<Vec<T>> {
    let mut numbers = vec![];
    for each in word.split(',').filter(|_| word != "-") {
        let (one, times) = match each.split_once('*') {
            Some((one, times)) => (one, number(times, LONGEST_LIST as u64).filter(|&times| times > 0)?),
            None => (each, 1),
        };
        numbers.resize(numbers.len() + times as usize, read(one)?);
        if numbers.len() > LONGEST_LIST {
            return None;
        }
    }
    Some(numbers)
}

pub fn bytes(word: &str) -> Option<Vec<u8>> {
    if word == "-" {
        return Some(vec![]);
    }
    if word.is_empty() || word.len() % 2 == 1 || !word.bytes().all(|c| c.is_ascii_hexdigit()) {
        return None;
    }
    (0..word.len()).step_by(2).map(|i| u8::from_str_radix(&word[i..i + 2], 16).ok()).collect()
}

/// An output of this room, filled as every writer's is.
pub fn room(word: &str) -> Option<Vec<u8>> {
    number(word, LARGEST_ROOM).map(|n| vec![0xA5; n as usize])
}

/// One list of a report with room for so many stretches, filled as an output is.
pub fn report(word: &str) -> Option<Vec<u64>> {
    number(word, LONGEST_LIST as u64).map(|n| vec![0xA5A5_A5A5_A5A5_A5A5; n as usize])
}
