//! A property's value: its bytes, and what they say.
use crate::archive;
use crate::array::{PtpArray, PtpItem};
use crate::pad::padded;
use crate::refusal::Refusal;
use crate::text::PtpString;
use core::fmt;

/// What a value says. A value of 128 bits is the pair (high, low), for the signed type too.
///
/// ```
/// use ptp_proved::{PtpDataType, PtpReader};
/// assert_eq!(PtpReader::new(&[0xFE, 0xFF]).read_type(3)?, PtpDataType::INT16(-2));
/// assert_eq!(PtpDataType::INT16(-2).to_string(), "-2");
/// # Ok::<(), ptp_proved::Refusal>(())
/// ```
#[derive(Clone, Copy, Debug, PartialEq, Eq, Hash)]
pub enum PtpDataType<'a> {
    /// every type code that is none of the others, 0 too; it takes no bytes
    UNDEF,
    /// an integer of 8 bits, signed
    INT8(i8),
    /// an integer of 8 bits
    UINT8(u8),
    /// an integer of 16 bits, signed
    INT16(i16),
    /// an integer of 16 bits
    UINT16(u16),
    /// an integer of 32 bits, signed
    INT32(i32),
    /// an integer of 32 bits
    UINT32(u32),
    /// an integer of 64 bits, signed
    INT64(i64),
    /// an integer of 64 bits
    UINT64(u64),
    /// an integer of 128 bits, signed
    INT128((u64, u64)),
    /// an integer of 128 bits
    UINT128((u64, u64)),
    /// an array of integers of 8 bits, signed
    AINT8(PtpArray<'a, i8>),
    /// an array of integers of 8 bits
    AUINT8(PtpArray<'a, u8>),
    /// an array of integers of 16 bits, signed
    AINT16(PtpArray<'a, i16>),
    /// an array of integers of 16 bits
    AUINT16(PtpArray<'a, u16>),
    /// an array of integers of 32 bits, signed
    AINT32(PtpArray<'a, i32>),
    /// an array of integers of 32 bits
    AUINT32(PtpArray<'a, u32>),
    /// an array of integers of 64 bits, signed
    AINT64(PtpArray<'a, i64>),
    /// an array of integers of 64 bits
    AUINT64(PtpArray<'a, u64>),
    /// an array of integers of 128 bits, signed
    AINT128(PtpArray<'a, (u64, u64)>),
    /// an array of integers of 128 bits
    AUINT128(PtpArray<'a, (u64, u64)>),
    /// a string
    STR(PtpString<'a>),
}

impl PtpDataType<'_> {
    /// The type code; 0 for UNDEF.
    pub fn code(&self) -> u16 {
        use PtpDataType::*;
        match self {
            UNDEF => 0,
            INT8(_) => 0x0001,
            UINT8(_) => 0x0002,
            INT16(_) => 0x0003,
            UINT16(_) => 0x0004,
            INT32(_) => 0x0005,
            UINT32(_) => 0x0006,
            INT64(_) => 0x0007,
            UINT64(_) => 0x0008,
            INT128(_) => 0x0009,
            UINT128(_) => 0x000A,
            AINT8(_) => 0x4001,
            AUINT8(_) => 0x4002,
            AINT16(_) => 0x4003,
            AUINT16(_) => 0x4004,
            AINT32(_) => 0x4005,
            AUINT32(_) => 0x4006,
            AINT64(_) => 0x4007,
            AUINT64(_) => 0x4008,
            AINT128(_) => 0x4009,
            AUINT128(_) => 0x400A,
            STR(_) => 0xFFFF,
        }
    }
}

/// A value as it lies in the caller's bytes, with its type code. Two are equal where they say the same, however they are spelled.
///
/// ```
/// let (value, next) = ptp_proved::PtpValue::read(4, &[0, 2, 1], 1)?;
/// assert_eq!((value.data_type(), value.bytes(), next), (4, &[2, 1][..], 3));
/// assert_eq!(value.to_string(), "258");
/// # Ok::<(), ptp_proved::Refusal>(())
/// ```
#[derive(Clone, Copy)]
pub struct PtpValue<'a> {
    code: u16,
    bytes: &'a [u8],
}

impl<'a> PtpValue<'a> {
    // The bytes are exactly one value of the type, as the archive found it.
    pub(crate) fn new(code: u16, bytes: &'a [u8]) -> Self {
        PtpValue { code, bytes }
    }

    /// The value of a type at a place of the bytes, and the place after it. Refusals: END, TEXT.
    pub fn read(code: u16, s: &'a [u8], at: usize) -> Result<(Self, usize), Refusal> {
        let [next, ..] = archive::value(s, at, code)?;
        let next = next as usize;
        // UNDEF has no bytes, also at a place past the end
        Ok((PtpValue::new(code, s.get(at..next).unwrap_or(&[])), next))
    }

    // The integer of the type that ends at a place.
    pub(crate) fn ending(code: u16, s: &'a [u8], end: usize) -> Self {
        PtpValue::new(code, &s[end - width(code)..end])
    }

    /// The type code.
    pub fn data_type(&self) -> u16 {
        self.code
    }

    /// Its bytes, as they came: what SetDevicePropValue sends to set it.
    pub fn bytes(&self) -> &'a [u8] {
        self.bytes
    }

    /// What it says.
    pub fn view(&self) -> PtpDataType<'a> {
        use PtpDataType::*;
        let bytes = self.bytes;
        match self.code {
            0x0001 => INT8(PtpItem::read(bytes)),
            0x0002 => UINT8(PtpItem::read(bytes)),
            0x0003 => INT16(PtpItem::read(bytes)),
            0x0004 => UINT16(PtpItem::read(bytes)),
            0x0005 => INT32(PtpItem::read(bytes)),
            0x0006 => UINT32(PtpItem::read(bytes)),
            0x0007 => INT64(PtpItem::read(bytes)),
            0x0008 => UINT64(PtpItem::read(bytes)),
            0x0009 => INT128(PtpItem::read(bytes)),
            0x000A => UINT128(PtpItem::read(bytes)),
            0x4001 => AINT8(items(bytes)),
            0x4002 => AUINT8(items(bytes)),
            0x4003 => AINT16(items(bytes)),
            0x4004 => AUINT16(items(bytes)),
            0x4005 => AINT32(items(bytes)),
            0x4006 => AUINT32(items(bytes)),
            0x4007 => AINT64(items(bytes)),
            0x4008 => AUINT64(items(bytes)),
            0x4009 => AINT128(items(bytes)),
            0x400A => AUINT128(items(bytes)),
            0xFFFF => STR(text(bytes)),
            _ => UNDEF,
        }
    }
}

// An array is a count in four bytes, then its items to the end of its bytes.
fn items<T: PtpItem>(bytes: &[u8]) -> PtpArray<'_, T> {
    PtpArray::new(&bytes[4..])
}

// A string is a count byte alone; or that byte, its units, and one unit more.
fn text(bytes: &[u8]) -> PtpString<'_> {
    PtpString::new(if bytes.len() == 1 { &[] } else { &bytes[1..bytes.len() - 2] })
}

// The integers stand in pairs, signed and unsigned, each pair twice as wide as the last.
fn width(code: u16) -> usize {
    1 << ((code - 1) / 2)
}

impl PartialEq for PtpValue<'_> {
    fn eq(&self, other: &Self) -> bool {
        self.code == other.code && self.view() == other.view()
    }
}

impl Eq for PtpValue<'_> {}

impl fmt::Debug for PtpValue<'_> {
    fn fmt(&self, f: &mut fmt::Formatter<'_>) -> fmt::Result {
        fmt::Debug::fmt(&self.view(), f)
    }
}

impl core::hash::Hash for PtpValue<'_> {
    fn hash<H: core::hash::Hasher>(&self, state: &mut H) {
        self.code.hash(state);
        self.view().hash(state);
    }
}

impl fmt::Display for PtpValue<'_> {
    fn fmt(&self, f: &mut fmt::Formatter<'_>) -> fmt::Result {
        self.view().fmt(f)
    }
}

/// Integers in decimal, those of 128 bits as a pair of halves; arrays as lists; a string as its text. A width pads the integers of up to 64 bits
/// as it pads a number, all else as a `str`.
impl fmt::Display for PtpDataType<'_> {
    fn fmt(&self, f: &mut fmt::Formatter<'_>) -> fmt::Result {
        use PtpDataType::*;
        match self {
            UNDEF => f.pad("undef"),
            INT8(n) => n.fmt(f),
            UINT8(n) => n.fmt(f),
            INT16(n) => n.fmt(f),
            UINT16(n) => n.fmt(f),
            INT32(n) => n.fmt(f),
            UINT32(n) => n.fmt(f),
            INT64(n) => n.fmt(f),
            UINT64(n) => n.fmt(f),
            INT128((high, low)) | UINT128((high, low)) => padded(f, |to| write!(to, "{high}:{low}")),
            AINT8(a) => padded(f, |to| write!(to, "{a:?}")),
            AUINT8(a) => padded(f, |to| write!(to, "{a:?}")),
            AINT16(a) => padded(f, |to| write!(to, "{a:?}")),
            AUINT16(a) => padded(f, |to| write!(to, "{a:?}")),
            AINT32(a) => padded(f, |to| write!(to, "{a:?}")),
            AUINT32(a) => padded(f, |to| write!(to, "{a:?}")),
            AINT64(a) => padded(f, |to| write!(to, "{a:?}")),
            AUINT64(a) => padded(f, |to| write!(to, "{a:?}")),
            AINT128(a) | AUINT128(a) => padded(f, |to| write!(to, "{a:?}")),
            STR(text) => text.fmt(f),
        }
    }
}
