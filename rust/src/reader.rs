//! Single fields, read one after the other.
use crate::archive;
use crate::array::{PtpArray, PtpItem};
use crate::refusal::Refusal;
use crate::text::PtpString;
use crate::value::{PtpDataType, PtpValue};

/// Bytes, and a place in them that moves past each field that is read. A refused field leaves the place.
///
/// ```
/// use ptp_proved::{PtpReader, Refusal};
/// let mut r = PtpReader::new(&[0x34, 0x12, 2, 65, 0, 0, 0]);
/// assert_eq!(r.read_ptp_u16(), Ok(0x1234));
/// assert_eq!(r.read_ptp_str().unwrap(), "A");
/// assert_eq!(r.expect_end(), Ok(()));
/// assert_eq!(r.read_ptp_u8(), Err(Refusal::END { at: 7 }));
/// ```
#[derive(Clone, Copy, Debug, PartialEq, Eq, Hash)]
pub struct PtpReader<'a> {
    bytes: &'a [u8],
    place: usize,
}

macro_rules! integers {
    ($($name:ident $integer:ty, $vec:ident, $code:literal;)*) => {$(
        #[doc = concat!("An integer, `", stringify!($integer), "`. Refusal: END.")]
        pub fn $name(&mut self) -> Result<$integer, Refusal> {
            self.part($code).map(PtpItem::read)
        }

        #[doc = concat!("An array of `", stringify!($integer), "`. Refusal: END, told of its count, also where an item is cut.")]
        pub fn $vec(&mut self) -> Result<PtpArray<'a, $integer>, Refusal> {
            self.part(0x4000 + $code).map(|bytes| PtpArray::new(&bytes[4..]))
        }
    )*};
}

impl<'a> PtpReader<'a> {
    /// At the start of the bytes.
    pub fn new(bytes: &'a [u8]) -> Self {
        PtpReader::at(bytes, 0)
    }

    /// At a place of them.
    pub fn at(bytes: &'a [u8], place: usize) -> Self {
        PtpReader { bytes, place }
    }

    /// The place of the next field.
    pub fn place(&self) -> usize {
        self.place
    }

    // The bytes of a value of the type, which the place moves past.
    fn part(&mut self, code: u16) -> Result<&'a [u8], Refusal> {
        self.read_ptp_value(code).map(|value| value.bytes())
    }

    integers! {
        read_ptp_i8 i8, read_ptp_i8_vec, 1;
        read_ptp_u8 u8, read_ptp_u8_vec, 2;
        read_ptp_i16 i16, read_ptp_i16_vec, 3;
        read_ptp_u16 u16, read_ptp_u16_vec, 4;
        read_ptp_i32 i32, read_ptp_i32_vec, 5;
        read_ptp_u32 u32, read_ptp_u32_vec, 6;
        read_ptp_i64 i64, read_ptp_i64_vec, 7;
        read_ptp_u64 u64, read_ptp_u64_vec, 8;
        read_ptp_i128 (u64, u64), read_ptp_i128_vec, 9;
        read_ptp_u128 (u64, u64), read_ptp_u128_vec, 10;
    }

    /// A string. Refusals: END, also where a unit is cut, and TEXT, both told of its count byte.
    pub fn read_ptp_str(&mut self) -> Result<PtpString<'a>, Refusal> {
        let [next, start, count] = archive::text(self.bytes, self.place)?.map(|number| number as usize);
        self.place = next;
        Ok(PtpString::new(&self.bytes[start..start + 2 * count]))
    }

    /// A value of the type with its bytes. Refusals: END, TEXT.
    pub fn read_ptp_value(&mut self, code: u16) -> Result<PtpValue<'a>, Refusal> {
        let (value, next) = PtpValue::read(code, self.bytes, self.place)?;
        self.place = next;
        Ok(value)
    }

    /// What a value of the type says. Refusals: END, TEXT.
    pub fn read_type(&mut self, code: u16) -> Result<PtpDataType<'a>, Refusal> {
        self.read_ptp_value(code).map(|value| value.view())
    }

    /// Refusal: TRAIL where bytes follow.
    pub fn expect_end(&self) -> Result<(), Refusal> {
        if self.place < self.bytes.len() {
            return Err(Refusal::TRAIL);
        }
        Ok(())
    }
}

/// Unit `n`, from 0, of the string at a place. It reads the whole string: to go through one, read it by [`PtpReader::read_ptp_str`].
/// Refusals: END, TEXT; PLACE.
pub fn unit(s: &[u8], at: usize, n: usize) -> Result<u16, Refusal> {
    archive::unit(s, at, n).map(|[_, unit]| unit as u16)
}

/// The units of the string at a place, at the front of the output. Refusals: END, TEXT; ROOM.
///
/// ```
/// assert_eq!(ptp_proved::units(b"\x02A\0\0\0", 0, &mut [0; 4])?, [0x41]);
/// # Ok::<(), ptp_proved::Refusal>(())
/// ```
pub fn units<'o>(s: &[u8], at: usize, out: &'o mut [u16]) -> Result<&'o [u16], Refusal> {
    let count = archive::units(s, at, out)?;
    Ok(&out[..count])
}

/// The `count` integers of a type of 8 to 64 bits that stand end to end from a place on, at the front of the output, each as its word of 64
/// bits, a signed one in two's complement: a list's values, or an array's items behind its count. Refusals: PLACE for any other type; END of
/// the first that is cut; ROOM.
///
/// ```
/// assert_eq!(ptp_proved::numbers(&[0, 1, 0, 0xFE, 0xFF], 1, 3, 2, &mut [0; 2])?, [1, -2i64 as u64]);
/// # Ok::<(), ptp_proved::Refusal>(())
/// ```
pub fn numbers<'o>(s: &[u8], at: usize, code: u16, count: usize, out: &'o mut [u64]) -> Result<&'o [u64], Refusal> {
    let count = archive::list_numbers(s, at, code, count, out)?;
    Ok(&out[..count])
}

/// Item `n`, from 0, of the array at a place, by the array's type code. Refusals: PLACE for a code that is no array's; END; PLACE.
pub fn item(s: &[u8], at: usize, code: u16, n: usize) -> Result<PtpValue<'_>, Refusal> {
    let [next, ..] = archive::item(s, at, code, n)?;
    let next = next as usize;
    Ok(PtpValue::ending(code - 0x4000, s, next))
}
