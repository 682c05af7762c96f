//! What is written: each at the front of the output, and the part that was written comes back.
use crate::archive;
use crate::array::PtpArray;
use crate::refusal::Refusal;
use crate::text::PtpString;
use crate::value::PtpDataType;

/// A string from its units, at most 254. Refusals: TEXT, whose place is 0 here; COUNT; ROOM.
pub fn write_text<'o>(units: &[u16], out: &'o mut [u8]) -> Result<&'o [u8], Refusal> {
    let count = archive::write_text(units, out)?;
    Ok(&out[..count])
}

/// A string from its text, of at most 254 units of UTF-16. Refusals: COUNT; ROOM.
///
/// ```
/// assert_eq!(ptp_proved::write_str("A", &mut [0; 8])?, b"\x02A\0\0\0");
/// # Ok::<(), ptp_proved::Refusal>(())
/// ```
pub fn write_str<'o>(text: &str, out: &'o mut [u8]) -> Result<&'o [u8], Refusal> {
    // one more than a string can have, so that too many are refused
    let (mut units, mut count) = ([0; 255], 0);
    for (own, unit) in units.iter_mut().zip(text.encode_utf16()) {
        *own = unit;
        count += 1;
    }
    if count == 255 {
        return Err(Refusal::COUNT);
    }
    write_text(&units[..count], out)
}

/// An array from its type code and the bytes of its items. Refusals: PLACE for a code that is no array's; COUNT where the bytes are no whole
/// items, or too many; ROOM.
pub fn write_array<'o>(code: u16, items: &[u8], out: &'o mut [u8]) -> Result<&'o [u8], Refusal> {
    let count = archive::write_array(code, items, out)?;
    Ok(&out[..count])
}

/// The tidy spelling of the value of a type that begins these bytes. Refusals: those of reading it, END and TEXT; ROOM.
pub fn tidy_value<'o>(code: u16, s: &[u8], out: &'o mut [u8]) -> Result<&'o [u8], Refusal> {
    let count = archive::tidy_value(code, s, out)?;
    Ok(&out[..count])
}

/// The tidy spelling of the device record that begins these bytes. Refusals: those of reading it, END and TEXT; ROOM.
pub fn tidy_device<'o>(s: &[u8], out: &'o mut [u8]) -> Result<&'o [u8], Refusal> {
    let count = archive::tidy_device(s, out)?;
    Ok(&out[..count])
}

/// As [`tidy_device`], of an object record; the same refusals.
pub fn tidy_object<'o>(s: &[u8], out: &'o mut [u8]) -> Result<&'o [u8], Refusal> {
    let count = archive::tidy_object(s, out)?;
    Ok(&out[..count])
}

/// As [`tidy_device`], of a storage record; the same refusals.
pub fn tidy_storage<'o>(s: &[u8], out: &'o mut [u8]) -> Result<&'o [u8], Refusal> {
    let count = archive::tidy_storage(s, out)?;
    Ok(&out[..count])
}

impl PtpDataType<'_> {
    /// Its bytes, at the front of the output: the one tidy spelling of what it says.
    ///
    /// ```
    /// use ptp_proved::PtpDataType;
    /// let mut out = [0; 8];
    /// assert_eq!(PtpDataType::INT16(-2).encode(&mut out).unwrap(), [0xFE, 0xFF]);
    /// ```
    ///
    /// Refusal: ROOM.
    pub fn encode<'o>(&self, out: &'o mut [u8]) -> Result<&'o [u8], Refusal> {
        use PtpDataType::*;
        let code = self.code();
        let count = match *self {
            UNDEF => 0,
            INT8(n) => archive::write_integer(code, n as u64, 0, out)?,
            UINT8(n) => archive::write_integer(code, n.into(), 0, out)?,
            INT16(n) => archive::write_integer(code, n as u64, 0, out)?,
            UINT16(n) => archive::write_integer(code, n.into(), 0, out)?,
            INT32(n) => archive::write_integer(code, n as u64, 0, out)?,
            UINT32(n) => archive::write_integer(code, n.into(), 0, out)?,
            INT64(n) => archive::write_integer(code, n as u64, 0, out)?,
            UINT64(n) => archive::write_integer(code, n, 0, out)?,
            INT128((high, low)) | UINT128((high, low)) => archive::write_integer(code, low, high, out)?,
            AINT8(a) => items(code, a, out)?,
            AUINT8(a) => items(code, a, out)?,
            AINT16(a) => items(code, a, out)?,
            AUINT16(a) => items(code, a, out)?,
            AINT32(a) => items(code, a, out)?,
            AUINT32(a) => items(code, a, out)?,
            AINT64(a) => items(code, a, out)?,
            AUINT64(a) => items(code, a, out)?,
            AINT128(a) | AUINT128(a) => items(code, a, out)?,
            STR(text) => string(text, out)?,
        };
        Ok(&out[..count])
    }
}

// Values end to end, at the front of the output, each in its tidy spelling. Refusal, before anything is written: ROOM.
pub(crate) fn encode_all<'v, 'o>(
    values: impl Iterator<Item = PtpDataType<'v>> + Clone,
    out: &'o mut [u8],
) -> Result<&'o [u8], Refusal> {
    let length = values.clone().map(|value| value.tidy_len()).sum();
    let lent = out.get_mut(..length).ok_or(Refusal::ROOM)?;
    let mut at = 0;
    for value in values {
        at += value.encode(&mut lent[at..])?.len();
    }
    Ok(&out[..length])
}

impl PtpDataType<'_> {
    // How many bytes its tidy spelling has.
    fn tidy_len(&self) -> usize {
        use PtpDataType::*;
        match *self {
            UNDEF => 0,
            INT8(_) | UINT8(_) => 1,
            INT16(_) | UINT16(_) => 2,
            INT32(_) | UINT32(_) => 4,
            INT64(_) | UINT64(_) => 8,
            INT128(_) | UINT128(_) => 16,
            AINT8(a) => 4 + a.bytes().len(),
            AUINT8(a) => 4 + a.bytes().len(),
            AINT16(a) => 4 + a.bytes().len(),
            AUINT16(a) => 4 + a.bytes().len(),
            AINT32(a) => 4 + a.bytes().len(),
            AUINT32(a) => 4 + a.bytes().len(),
            AINT64(a) => 4 + a.bytes().len(),
            AUINT64(a) => 4 + a.bytes().len(),
            AINT128(a) | AUINT128(a) => 4 + a.bytes().len(),
            STR(text) if text.is_empty() => 1,
            STR(text) => 3 + 2 * text.len(),
        }
    }
}

#[cfg(feature = "alloc")]
impl PtpDataType<'_> {
    /// Its bytes, those of [`encode`](Self::encode), allocated.
    ///
    /// ```
    /// assert_eq!(ptp_proved::PtpDataType::UINT16(258).to_vec(), [2, 1]);
    /// ```
    pub fn to_vec(&self) -> alloc::vec::Vec<u8> {
        let mut out = alloc::vec![0; self.tidy_len()];
        self.encode(&mut out).expect("what was read can be written, and this is room for it");
        out
    }
}

fn items<T>(code: u16, array: PtpArray<'_, T>, out: &mut [u8]) -> Result<usize, Refusal> {
    archive::write_array(code, array.bytes(), out)
}

// A string that was read has at most 254 units.
fn string(text: PtpString<'_>, out: &mut [u8]) -> Result<usize, Refusal> {
    let mut units = [0; 254];
    for (unit, own) in text.units().iter().zip(&mut units) {
        *own = unit;
    }
    archive::write_text(&units[..text.len()], out)
}
