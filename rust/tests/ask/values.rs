//! Names; values at a place; the writers of values; payloads; the listing.
use super::{show, words};
use ptp_proved::*;

/// A writer's answer, and the whole output.
pub fn written(answer: Result<usize, Refusal>, out: &[u8]) -> String {
    match answer {
        Ok(count) => format!("ok {count} {}", show::bytes(out)),
        Err(why) => format!("{} {}", show::refusal(why), show::bytes(out)),
    }
}

pub fn read(answer: Result<String, Refusal>) -> String {
    match answer {
        Ok(words) => format!("ok {words}"),
        Err(why) => show::refusal(why),
    }
}

pub fn name(name: fn(u16) -> Option<&'static str>, code: &str) -> Option<String> {
    Some(name(words::short(code)?).map_or("none".into(), |name| format!("ok {name}")))
}

pub fn value(code: &str, at: &str, s: &str) -> Option<String> {
    let (code, at, s) = (words::short(code)?, words::size(at)?, words::bytes(s)?);
    let mut reader = PtpReader::at(&s, at);
    Some(read(reader.read_ptp_value(code).map(|value| format!("{} {}", show::value(value), reader.place()))))
}

pub fn end(at: &str, s: &str) -> Option<String> {
    let (at, s) = (words::size(at)?, words::bytes(s)?);
    Some(match PtpReader::at(&s, at).expect_end() {
        Ok(()) => "ok".into(),
        Err(why) => show::refusal(why),
    })
}

pub fn a_unit(n: &str, at: &str, s: &str) -> Option<String> {
    let (n, at, s) = (words::size(n)?, words::size(at)?, words::bytes(s)?);
    Some(read(unit(&s, at, n).map(|unit| unit.to_string())))
}

pub fn an_item(code: &str, n: &str, at: &str, s: &str) -> Option<String> {
    let (code, n, at, s) = (words::short(code)?, words::size(n)?, words::size(at)?, words::bytes(s)?);
    Some(read(item(&s, at, code, n).map(show::value)))
}

// The answer, and the whole list that was lent.
fn lent(answer: Result<usize, Refusal>, list: String) -> String {
    match answer {
        Ok(count) => format!("ok {count} {list}"),
        Err(why) => format!("{} {list}", show::refusal(why)),
    }
}

// As many as the answer may have room for.
fn list_room(word: &str) -> Option<usize> {
    words::size(word).filter(|&room| room <= 4096)
}

pub fn all_units(at: &str, s: &str, room: &str) -> Option<String> {
    let (at, s, mut out) = (words::size(at)?, words::bytes(s)?, vec![0xA5A5u16; list_room(room)?]);
    let answer = units(&s, at, &mut out).map(<[u16]>::len);
    Some(lent(answer, show::runs(&out)))
}

pub fn all_numbers(code: &str, at: &str, count: &str, s: &str, room: &str) -> Option<String> {
    let (code, at, count, s) = (words::short(code)?, words::size(at)?, words::size(count)?, words::bytes(s)?);
    let mut out = vec![0xA5A5_A5A5_A5A5_A5A5u64; list_room(room)?];
    let answer = numbers(&s, at, code, count, &mut out).map(<[u64]>::len);
    Some(lent(answer, show::runs(&out)))
}

// It is as long as it is told, and says what its units say.
pub fn in_utf8(at: &str, s: &str, room: &str) -> Option<String> {
    let (at, s, mut out) = (words::size(at)?, words::bytes(s)?, words::room(room)?);
    let answer = utf8(&s, at, &mut out).map(|text| {
        let mut reader = PtpReader::at(&s, at);
        assert_eq!(reader.read_ptp_str().expect("a string"), text);
        assert_eq!(utf8_len(&s, at), Ok((text.len(), reader.place())));
        text.len()
    });
    Some(written(answer, &out))
}

// An integer that the type has; UNDEF is the word `undef`.
fn data_type(code: u16, word: &str) -> Option<PtpDataType<'static>> {
    use PtpDataType::*;
    let signed = |bits: u32| match word.strip_prefix('-') {
        Some(digits) => words::number(digits, 1 << (bits - 1)).map(|n| (n as i64).wrapping_neg()),
        None => words::number(word, (1 << (bits - 1)) - 1).map(|n| n as i64),
    };
    let pair = || {
        let (high, low) = word.split_once(':')?;
        Some((words::number(high, u64::MAX)?, words::number(low, u64::MAX)?))
    };
    Some(match code {
        1 => INT8(signed(8)? as i8),
        2 => UINT8(words::number(word, u8::MAX.into())? as u8),
        3 => INT16(signed(16)? as i16),
        4 => UINT16(words::short(word)?),
        5 => INT32(signed(32)? as i32),
        6 => UINT32(words::half(word)?),
        7 => INT64(signed(64)?),
        8 => UINT64(words::number(word, u64::MAX)?),
        9 => INT128(pair()?),
        10 => UINT128(pair()?),
        0x4001..=0x400A | 0xFFFF => return None,
        _ if word == "undef" => UNDEF,
        _ => return None,
    })
}

pub fn write_value(code: &str, value: &str, room: &str) -> Option<String> {
    let value = data_type(words::short(code)?, value)?;
    let mut out = words::room(room)?;
    let answer = value.encode(&mut out).map(|bytes| bytes.len());
    Some(written(answer, &out))
}

pub fn write_string(units: &str, room: &str) -> Option<String> {
    let units = words::list(units, words::short)?;
    let mut out = words::room(room)?;
    Some(spelled(write_text(&units, &mut out).map(<[u8]>::len), &out))
}

/// Of a writer that is given units: the place of a string that is handed in is not the question's.
pub fn spelled(answer: Result<usize, Refusal>, out: &[u8]) -> String {
    match answer {
        Err(Refusal::TEXT { at: 0 }) => format!("no 2 {}", show::bytes(out)),
        other => written(other, out),
    }
}

type WritesTyped = for<'o> fn(u16, &[u8], &'o mut [u8]) -> Result<&'o [u8], Refusal>;

// What a value says has the same tidy spelling.
pub fn typed(write: WritesTyped, code: &str, s: &str, room: &str) -> Option<String> {
    let (code, s, mut out) = (words::short(code)?, words::bytes(s)?, words::room(room)?);
    let answer = write(code, &s, &mut out).map(|bytes| bytes.len());
    Some(written(answer, &out))
}

pub fn tidy_typed<'o>(code: u16, s: &[u8], out: &'o mut [u8]) -> Result<&'o [u8], Refusal> {
    let tidy = tidy_value(code, s, out)?;
    let mut again = vec![0; tidy.len()];
    let (value, _) = PtpValue::read(code, s, 0).expect("a value that was tidied");
    assert_eq!(value.view().encode(&mut again), Ok(tidy));
    Ok(tidy)
}

type Writes = for<'o> fn(&[u8], &'o mut [u8]) -> Result<&'o [u8], Refusal>;

pub fn tidy(write: Writes, s: &str, room: &str) -> Option<String> {
    let (s, mut out) = (words::bytes(s)?, words::room(room)?);
    let answer = write(&s, &mut out).map(|bytes| bytes.len());
    Some(written(answer, &out))
}

pub fn container(s: &str) -> Option<String> {
    let s = words::bytes(s)?;
    Some(read(read_container(&s, 0).map(|(x, next)| {
        let start = show::start(x.payload, &s);
        assert_eq!(start + x.payload.len(), next);
        format!("{} {} {} {start} {}", x.kind as u16, x.code, x.tid, x.payload.len())
    })))
}

pub fn put_container(kind: &str, code: &str, tid: &str, s: &str, room: &str) -> Option<String> {
    let (kind, code, tid, s) = (words::short(kind)?, words::short(code)?, words::half(tid)?, words::bytes(s)?);
    let mut out = words::room(room)?;
    let answer = write_container(kind, code, tid, &s, &mut out).map(|bytes| bytes.len());
    Some(written(answer, &out))
}

pub fn put_record(kind: &str, s: &str, room: &str) -> Option<String> {
    let (kind, s, mut out) = (words::short(kind)?, words::bytes(s)?, words::room(room)?);
    let answer = write_record(kind, &s, &mut out).map(|bytes| bytes.len());
    Some(written(answer, &out))
}

type Handles = for<'a> fn(&'a [u8]) -> Result<PtpArray<'a, u32>, Refusal>;

pub fn handles(list: Handles, s: &str) -> Option<String> {
    let s = words::bytes(s)?;
    Some(read(list(&s).map(|handles| {
        let by_index: Vec<_> = (0..handles.len()).map(|n| handles.get(n).expect("an item for each index")).collect();
        assert!(handles.iter().eq(by_index.iter().copied()) && handles.get(by_index.len()).is_none());
        show::numbers(handles)
    })))
}

pub fn count(s: &str) -> Option<String> {
    let s = words::bytes(s)?;
    Some(read(object_count(&s).map(|count| count.to_string())))
}

/// In pieces as in one: a window that ends with a whole record lists the same lines.
pub fn listing(s: &str) -> Option<String> {
    let s = words::bytes(s)?;
    let mut text = Vec::new();
    list_recording(&s, |piece| text.extend_from_slice(piece));
    let text = String::from_utf8(text).expect("a listing is ASCII");
    Some(format!("ok {}", text.replace('\n', "\\n")))
}
