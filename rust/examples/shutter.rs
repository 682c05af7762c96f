//! Picks the shutter time that follows the current one, and prints the command that sets it.
//!
//!     shutter [LAYOUT HEX]      HEX is a property's description, LAYOUT crate or book; without them, one that stands here
//!
//! c/shutter.c is the same in C.
use ptp_proved::{PropLayout, PtpFormData, PtpPropInfo, PtpValue, Session};
use std::process::ExitCode;

// An exposure time, 0x500D, a UINT32 in units of 0.1 ms: 1/125 s now, out of a list of six.
const DESCRIPTION: &str = concat!(
    "0d5006000101",
    "50000000", // the default, 80
    "50000000", // the current value, 80
    "020600",   // a list of six
    "0a000000",
    "14000000",
    "28000000",
    "50000000",
    "a6000000",
    "4d010000",
);

fn read_layout(word: &str) -> Option<PropLayout> {
    match word {
        "crate" => Some(PropLayout::Crate),
        "book" => Some(PropLayout::Book),
        _ => None,
    }
}

fn read_hex(hex: &str) -> Option<Vec<u8>> {
    let digit = |c: u8| b"0123456789abcdef".iter().position(|&d| d == c);
    if hex.len() % 2 == 1 {
        return None;
    }
    hex.as_bytes().chunks(2).map(|two| Some((digit(two[0])? * 16 + digit(two[1])?) as u8)).collect()
}

// The value of the list that follows the one whose bytes are the current value's.
fn next_value<'a>(info: &PtpPropInfo<'a>) -> Option<PtpValue<'a>> {
    let array = match info.Form {
        PtpFormData::Enumeration { array } => array,
        _ => return None,
    };
    array.iter().skip_while(|value| value.bytes() != info.Current.bytes()).nth(1)
}

fn set_next(layout: PropLayout, s: &[u8]) -> Result<(), String> {
    let (info, _) = PtpPropInfo::decode(layout, s).map_err(|why| format!("refusal {}", why.number()))?;
    let value = next_value(&info).ok_or("no value follows the current one")?;
    let mut session = Session::at(1); // OpenSession took 0
    let mut out = [0; 64];
    let made =
        session.set_value(layout, s, info.DataType, value.bytes(), &mut out).map_err(|why| format!("refusal {}", why.number()))?;
    println!("{}", made.bytes.iter().map(|byte| format!("{byte:02x}")).collect::<String>());
    Ok(())
}

fn main() -> ExitCode {
    let word = std::env::args().nth(1).unwrap_or("crate".into());
    let hex = std::env::args().nth(2).unwrap_or(DESCRIPTION.into());
    let (layout, s) = match (read_layout(&word), read_hex(&hex)) {
        (Some(layout), Some(s)) => (layout, s),
        _ => {
            eprintln!("the layout is crate or book, the description two small hexadecimal digits a byte");
            return ExitCode::from(2);
        }
    };
    match set_next(layout, &s) {
        Ok(()) => ExitCode::SUCCESS,
        Err(why) => {
            eprintln!("{why}");
            ExitCode::from(1)
        }
    }
}
