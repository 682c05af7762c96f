//! How answers print: docs/ASK.md.
use ptp_proved::{PtpArray, PtpDataType, PtpItem, PtpString, PtpValue, Refusal};
use std::fmt::Display;

pub fn refusal(why: Refusal) -> String {
    format!("no {}", told(why))
}

/// Its number, and its place where it has one.
pub fn told(why: Refusal) -> String {
    match why.place() {
        Some(at) => format!("{} {at}", why.number()),
        None => why.number().to_string(),
    }
}

pub fn bytes(bytes: &[u8]) -> String {
    if bytes.is_empty() {
        return "-".into();
    }
    bytes.iter().map(|byte| format!("{byte:02x}")).collect()
}

pub fn numbers<T: Display>(numbers: impl IntoIterator<Item = T>) -> String {
    let words = joined(numbers, ",");
    if words.is_empty() {
        "-".into()
    } else {
        words
    }
}

/// Equal neighbours as one, with their count.
pub fn runs<T: Display + PartialEq>(mut list: &[T]) -> String {
    let mut words = vec![];
    while let Some(first) = list.first() {
        let times = list.iter().take_while(|each| *each == first).count();
        words.push(if times == 1 { first.to_string() } else { format!("{first}*{times}") });
        list = &list[times..];
    }
    numbers(words)
}

fn joined<T: Display>(items: impl IntoIterator<Item = T>, between: &str) -> String {
    items.into_iter().map(|item| item.to_string()).collect::<Vec<_>>().join(between)
}

pub fn text(text: PtpString) -> String {
    format!("s<{}>", joined(text.units().iter().map(|unit| format!("{unit:04x}")), "."))
}

pub fn array<T: PtpItem + Display>(array: PtpArray<T>) -> String {
    format!("[{}]", joined(array, ","))
}

fn pair((high, low): (u64, u64)) -> String {
    format!("{high}:{low}")
}

fn pairs(array: PtpArray<(u64, u64)>) -> String {
    format!("[{}]", joined(array.iter().map(pair), ","))
}

pub fn value(value: PtpValue) -> String {
    use PtpDataType::*;
    match value.view() {
        UNDEF => "undef".into(),
        INT8(n) => n.to_string(),
        UINT8(n) => n.to_string(),
        INT16(n) => n.to_string(),
        UINT16(n) => n.to_string(),
        INT32(n) => n.to_string(),
        UINT32(n) => n.to_string(),
        INT64(n) => n.to_string(),
        UINT64(n) => n.to_string(),
        INT128(n) | UINT128(n) => pair(n),
        AINT8(a) => array(a),
        AUINT8(a) => array(a),
        AINT16(a) => array(a),
        AUINT16(a) => array(a),
        AINT32(a) => array(a),
        AUINT32(a) => array(a),
        AINT64(a) => array(a),
        AUINT64(a) => array(a),
        AINT128(a) | AUINT128(a) => pairs(a),
        STR(s) => text(s),
    }
}

/// Where a part of some bytes starts in them.
pub fn start(part: &[u8], whole: &[u8]) -> usize {
    let start = part.as_ptr() as usize - whole.as_ptr() as usize;
    assert!(start + part.len() <= whole.len(), "a part that lies elsewhere");
    start
}
