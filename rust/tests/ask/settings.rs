//! Rows of settings.
use super::{show, words};
use ptp_proved::{entry_bytes, write_entry, Edition, Setting, Settings};

fn edition(word: &str) -> Option<Edition> {
    match words::number(word, 2)? {
        1 => Some(Edition::One),
        2 => Some(Edition::Two),
        _ => None,
    }
}

// 17 is an entry of one serial, 16 one of any.
fn kind(is_for_one: bool) -> u16 {
    16 + u16::from(is_for_one)
}

// The helper that lays an entry out gives the very bytes of one that was read, and so does the writer.
fn laid_out_again(entry: &Setting) {
    let units: Option<Vec<u16>> = entry.serial.map(|serial| serial.units().iter().collect());
    let mut out = vec![0xA5; entry.bytes.len()];
    let value = entry.value;
    let laid = entry_bytes(entry.vendor, entry.property, units.as_deref(), value.data_type(), value.bytes(), &mut out);
    assert_eq!(laid, Ok(entry.bytes));
    out.fill(0xA5);
    let written = write_entry(entry.vendor, entry.property, units.as_deref(), value.data_type(), value.bytes(), &mut out);
    assert_eq!(written, Ok(entry.bytes));
}

fn entry_words(row: &[u8], entry: Setting) -> String {
    laid_out_again(&entry);
    format!(
        " {} {} {} {} {} {} {} {}",
        show::start(entry.bytes, row),
        entry.bytes.len(),
        kind(entry.serial.is_some()),
        entry.vendor,
        entry.property,
        entry.serial.map_or("-".into(), show::text),
        entry.value.data_type(),
        show::value(entry.value),
    )
}

pub fn row(which: &str, row: &str) -> Option<String> {
    let (which, row) = (edition(which)?, words::bytes(row)?);
    Some(match Settings::read(which, &row) {
        Ok(read) => {
            assert_eq!(read.bytes(), row);
            read.iter().fold(format!("ok {}", read.len()), |line, entry| line + &entry_words(&row, entry))
        }
        Err(why) => show::refusal(why),
    })
}

pub fn find(which: &str, row: &str, vendor: &str, property: &str, serial: &str) -> Option<String> {
    let (which, row) = (edition(which)?, words::bytes(row)?);
    let (vendor, property, serial) = (words::half(vendor)?, words::short(property)?, words::list(serial, words::short)?);
    let read = match Settings::read(which, &row) {
        Ok(read) => read,
        Err(why) => return Some(show::refusal(why)),
    };
    let found = read.find(vendor, property, &serial);
    assert_eq!(read.find_for(vendor, property, &serial[..]), found);
    let kept = match found {
        Some(kept) => kept,
        None => return Some("none".into()),
    };
    let value = kept.value;
    let start = show::start(value.bytes(), &row);
    Some(format!("ok {} {} {} {start} {}", kind(kept.is_own), value.data_type(), show::value(value), value.bytes().len()))
}

pub fn store(which: &str, row: &str, entry: &str, room: &str) -> Option<String> {
    let (which, row, entry) = (edition(which)?, words::bytes(row)?, words::bytes(entry)?);
    let mut out = words::room(room)?;
    let answer = Settings::read(which, &row).and_then(|read| Ok(read.store(&entry, &mut out)?.bytes().len()));
    Some(match answer {
        Ok(count) => format!("ok {count} {}", show::bytes(&out)),
        Err(why) => format!("{} {}", show::refusal(why), show::bytes(&out)),
    })
}

// `own` for the camera of the serial, `any` for any.
fn serial_of(key: &str, serial: &str) -> Option<Option<Vec<u16>>> {
    let units = words::list(serial, words::short)?;
    match key {
        "own" => Some(Some(units)),
        "any" => Some(None),
        _ => None,
    }
}

pub fn write(numbers: [&str; 3], value: &str, key: &str, serial: &str, room: &str) -> Option<String> {
    let (vendor, property, code) = (words::half(numbers[0])?, words::short(numbers[1])?, words::short(numbers[2])?);
    let (value, serial, mut out) = (words::bytes(value)?, serial_of(key, serial)?, words::room(room)?);
    let answer = write_entry(vendor, property, serial.as_deref(), code, &value, &mut out).map(<[u8]>::len);
    Some(super::values::spelled(answer, &out))
}

pub fn remove(which: &str, row: &str, key_numbers: [&str; 2], key: &str, serial: &str, room: &str) -> Option<String> {
    let (which, row) = (edition(which)?, words::bytes(row)?);
    let (vendor, property) = (words::half(key_numbers[0])?, words::short(key_numbers[1])?);
    let (serial, mut out) = (serial_of(key, serial)?, words::room(room)?);
    let answer =
        Settings::read(which, &row).and_then(|read| Ok(read.remove(vendor, property, serial.as_deref(), &mut out)?.bytes().len()));
    Some(super::values::written(answer, &out))
}
