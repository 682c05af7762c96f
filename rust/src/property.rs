//! A property's description: its values, its list, the newer value, the tidy spelling.
use crate::archive;
use crate::dataset::Row;
use crate::refusal::Refusal;
use crate::value::{PtpDataType, PtpValue};
use crate::writer::encode_all;

/// Which layout a description has. The caller names it: some bytes fit both, and nothing guesses.
///
/// ```
/// use ptp_proved::{PropLayout, PtpPropInfo};
/// let s = b"\x01\x50\x02\0\0\x01\x64\0\0";
/// assert_eq!(PtpPropInfo::decode(PropLayout::Crate, s)?.0.Current.to_string(), "0");
/// assert_eq!(PtpPropInfo::decode(PropLayout::Book, s)?.0.Current.to_string(), "100");
/// # Ok::<(), ptp_proved::Refusal>(())
/// ```
#[derive(Clone, Copy, Debug, PartialEq, Eq, Hash)]
pub enum PropLayout {
    /// With the `IsEnable` byte behind `GetSet`.
    Crate,
    /// PIMA 15740's, without it.
    Book,
}

impl PropLayout {
    pub(crate) fn is_book(self) -> bool {
        self == PropLayout::Book
    }
}

/// Which values a property may have.
///
/// ```
/// use ptp_proved::{PropLayout, PtpFormData, PtpPropInfo};
/// let s = b"\x01\x50\x02\0\0\x01\x64\x32\x01\0\x64\x01";
/// match PtpPropInfo::decode(PropLayout::Crate, s)?.0.Form {
///     PtpFormData::Range { minValue, maxValue, step } => assert_eq!(format!("{minValue} {maxValue} {step}"), "0 100 1"),
///     other => panic!("{other:?}"),
/// }
/// # Ok::<(), ptp_proved::Refusal>(())
/// ```
#[derive(Clone, Copy, Debug, PartialEq, Eq, Hash)]
pub enum PtpFormData<'a> {
    /// nothing is said of them
    None,
    /// those from the least to the greatest, in steps
    Range {
        /// the least
        minValue: PtpValue<'a>,
        /// the greatest
        maxValue: PtpValue<'a>,
        /// from one to the next
        step: PtpValue<'a>,
    },
    /// those of a list
    Enumeration {
        /// the list
        array: PtpValues<'a>,
    },
}

/// What a camera says of a property.
///
/// ```
/// use ptp_proved::{PropLayout, PtpPropInfo};
/// let (info, taken) = PtpPropInfo::decode(PropLayout::Crate, b"\x01\x50\x02\0\0\x01\x64\x32\x01\0\x64\x01")?;
/// assert_eq!((info.PropertyCode, info.IsEnable, taken), (0x5001, Some(1), 12));
/// assert_eq!(info.Current.to_string(), "50");
/// # Ok::<(), ptp_proved::Refusal>(())
/// ```
#[derive(Clone, Copy, Debug, PartialEq, Eq, Hash)]
pub struct PtpPropInfo<'a> {
    /// The property's code.
    pub PropertyCode: u16,
    /// The type code of its values.
    pub DataType: u16,
    /// 1 where it can be set.
    pub GetSet: u8,
    /// `None` in every reading of the book's layout, and in no other.
    pub IsEnable: Option<u8>,
    /// The value that it is made with.
    pub FactoryDefault: PtpValue<'a>,
    /// The value that it has.
    pub Current: PtpValue<'a>,
    /// Which values it may have.
    pub Form: PtpFormData<'a>,
}

impl<'a> PtpPropInfo<'a> {
    /// The description that begins these bytes, and how many it takes. Refusals: END, TEXT.
    pub fn decode(layout: PropLayout, s: &'a [u8]) -> Result<(Self, usize), Refusal> {
        let numbers = archive::prop_info(layout.is_book(), s)?;
        let mut row = Row::new(s, &numbers);
        let taken = row.size();
        let property = row.short();
        let code = row.short();
        let info = PtpPropInfo {
            PropertyCode: property,
            DataType: code,
            GetSet: row.word() as u8,
            IsEnable: enable(row.word()),
            FactoryDefault: PtpValue::new(code, row.part()),
            Current: PtpValue::new(code, row.part()),
            Form: form(&mut row, layout, code, &s[..taken]),
        };
        Ok((info, taken))
    }

    /// Its tidy bytes in a layout, at the front of the output: [`decode`](Self::decode) reads them back. By the book `IsEnable` is left out;
    /// in the crate's layout a missing one is written as 0. Refusal: ROOM.
    ///
    /// ```
    /// use ptp_proved::{PropLayout, PtpPropInfo};
    /// let s = b"\x01\x50\x02\0\0\x01\x64\x32\x01\0\x64\x01";
    /// assert_eq!(PtpPropInfo::decode(PropLayout::Crate, s)?.0.encode(PropLayout::Crate, &mut [0; 16])?, s);
    /// # Ok::<(), ptp_proved::Refusal>(())
    /// ```
    pub fn encode<'o>(&self, layout: PropLayout, out: &'o mut [u8]) -> Result<&'o [u8], Refusal> {
        use PtpDataType::*;
        let enable = if layout.is_book() { UNDEF } else { UINT8(self.IsEnable.unwrap_or(0)) };
        let front = [
            UINT16(self.PropertyCode),
            UINT16(self.DataType),
            UINT8(self.GetSet),
            enable,
            self.FactoryDefault.view(),
            self.Current.view(),
        ];
        // UNDEF has no bytes
        let (form, count, parts, list) = match self.Form {
            PtpFormData::None => (0, UNDEF, [UNDEF; 3], None),
            PtpFormData::Range { minValue, maxValue, step } => (1, UNDEF, [minValue.view(), maxValue.view(), step.view()], None),
            PtpFormData::Enumeration { array } => (2, UINT16(array.len() as u16), [UNDEF; 3], Some(array.iter())),
        };
        let values = list.into_iter().flatten().map(|value| value.view());
        encode_all(front.into_iter().chain([UINT8(form), count]).chain(parts).chain(values), out)
    }

    /// The value after the current one: the next of the list, or one step more in a range of integers of up to 64 bits. `None` where there is
    /// none, and where the current value is not in the list.
    ///
    /// ```
    /// use ptp_proved::{PropLayout, PtpDataType, PtpPropInfo};
    /// let (info, _) = PtpPropInfo::decode(PropLayout::Crate, b"\x0D\x50\x02\0\x01\x01\x05\x05\x02\x02\0\x05\x09")?;
    /// assert_eq!((info.value_after(), info.value_before()), (Some(PtpDataType::UINT8(9)), None));
    /// # Ok::<(), ptp_proved::Refusal>(())
    /// ```
    pub fn value_after(&self) -> Option<PtpDataType<'a>> {
        match self.Form {
            PtpFormData::Enumeration { array } => {
                array.iter().skip_while(|value| *value != self.Current).nth(1).map(|value| value.view())
            }
            PtpFormData::Range { maxValue, step, .. } => {
                let next = integer(self.Current)?.checked_add(integer(step)?)?;
                whole(next <= integer(maxValue)?, self.DataType, next)
            }
            PtpFormData::None => None,
        }
    }

    /// The value before the current one, as [`value_after`](Self::value_after) gives the one after it.
    pub fn value_before(&self) -> Option<PtpDataType<'a>> {
        match self.Form {
            PtpFormData::Enumeration { array } => {
                let at = array.iter().position(|value| value == self.Current)?;
                array.iter().nth(at.checked_sub(1)?).map(|value| value.view())
            }
            PtpFormData::Range { minValue, step, .. } => {
                let next = integer(self.Current)?.checked_sub(integer(step)?)?;
                whole(next >= integer(minValue)?, self.DataType, next)
            }
            PtpFormData::None => None,
        }
    }

    /// Value `n`, from 0, of the list of the description that begins these bytes, which each call reads anew: for several values
    /// [`decode`](Self::decode) it once, and ask [`PtpValues::iter`]. Refusals: those of reading it, then PLACE.
    pub fn nth(layout: PropLayout, s: &'a [u8], n: usize) -> Result<PtpValue<'a>, Refusal> {
        let (info, _) = PtpPropInfo::decode(layout, s)?;
        match info.Form {
            PtpFormData::Enumeration { array } => array.nth(n),
            _ => Err(Refusal::PLACE),
        }
    }
}

// The number of an integer of up to 64 bits.
fn integer(value: PtpValue<'_>) -> Option<i128> {
    use PtpDataType::*;
    Some(match value.view() {
        INT8(n) => n.into(),
        UINT8(n) => n.into(),
        INT16(n) => n.into(),
        UINT16(n) => n.into(),
        INT32(n) => n.into(),
        UINT32(n) => n.into(),
        INT64(n) => n.into(),
        UINT64(n) => n.into(),
        _ => return None,
    })
}

// The value of a number that lies between two of its type.
fn whole<'a>(allowed: bool, code: u16, number: i128) -> Option<PtpDataType<'a>> {
    use PtpDataType::*;
    Some(match (allowed, code) {
        (true, 1) => INT8(number as i8),
        (true, 2) => UINT8(number as u8),
        (true, 3) => INT16(number as i16),
        (true, 4) => UINT16(number as u16),
        (true, 5) => INT32(number as i32),
        (true, 6) => UINT32(number as u32),
        (true, 7) => INT64(number as i64),
        (true, 8) => UINT64(number as u64),
        _ => return None,
    })
}

fn enable(number: u64) -> Option<u8> {
    if number == archive::ENABLE_ABSENT {
        None
    } else {
        Some(number as u8)
    }
}

// The form's number, then three parts, or a list's bytes and count.
fn form<'a>(row: &mut Row<'a, '_>, layout: PropLayout, code: u16, dataset: &'a [u8]) -> PtpFormData<'a> {
    match row.word() {
        1 => PtpFormData::Range {
            minValue: PtpValue::new(code, row.part()),
            maxValue: PtpValue::new(code, row.part()),
            step: PtpValue::new(code, row.part()),
        },
        2 => PtpFormData::Enumeration { array: PtpValues { layout, dataset, code, bytes: row.part(), count: row.size() } },
        _ => PtpFormData::None,
    }
}

/// The values of a property's list, as they lie in the description.
///
/// ```
/// use ptp_proved::{PropLayout, PtpFormData, PtpPropInfo};
/// let s = b"\x0D\x50\x02\0\x01\x01\x05\x05\x02\x02\0\x05\x09";
/// if let PtpFormData::Enumeration { array } = PtpPropInfo::decode(PropLayout::Crate, s)?.0.Form {
///     assert_eq!((array.len(), array.nth(1)?.bytes()), (2, &[9][..]));
///     assert_eq!(array.iter().map(|value| value.to_string()).collect::<Vec<_>>(), ["5", "9"]);
/// }
/// # Ok::<(), ptp_proved::Refusal>(())
/// ```
#[derive(Clone, Copy)]
pub struct PtpValues<'a> {
    layout: PropLayout,
    dataset: &'a [u8],
    code: u16,
    bytes: &'a [u8],
    count: usize,
}

impl<'a> PtpValues<'a> {
    /// How many values there are.
    pub fn len(&self) -> usize {
        self.count
    }

    /// Whether there is none.
    pub fn is_empty(&self) -> bool {
        self.count == 0
    }

    /// Value `n`, from 0. Each call reads the description from its start; for all values ask [`iter`](Self::iter). Refusal: PLACE.
    pub fn nth(&self, n: usize) -> Result<PtpValue<'a>, Refusal> {
        let [_, start, length] = archive::list_value(self.layout.is_book(), self.dataset, n)?.map(|number| number as usize);
        Ok(PtpValue::new(self.code, &self.dataset[start..start + length]))
    }

    /// All numbers of a list of integers of 8 to 64 bits, in one call: [`numbers`](crate::numbers). Refusals: PLACE for another type; ROOM.
    pub fn numbers<'o>(&self, out: &'o mut [u64]) -> Result<&'o [u64], Refusal> {
        crate::reader::numbers(self.bytes, 0, self.code, self.count, out)
    }

    /// All values, in order, in one pass.
    pub fn iter(&self) -> Values<'a> {
        Values { code: self.code, bytes: self.bytes, place: 0, left: self.count as u16 }
    }
}

/// A list's values, one after the other: each step is the archive's, and all steps cost what the list's bytes cost. Only those of UNDEF, up to
/// 65,535, have none.
///
/// ```
/// use ptp_proved::{PropLayout, PtpFormData, PtpPropInfo};
/// let s = b"\x0D\x50\x02\0\x01\x01\x05\x05\x02\x02\0\x05\x09";
/// if let PtpFormData::Enumeration { array } = PtpPropInfo::decode(PropLayout::Crate, s)?.0.Form {
///     let mut values = array.iter();
///     assert_eq!((values.len(), values.next().unwrap().bytes(), values.len()), (2, &[5][..], 1));
/// }
/// # Ok::<(), ptp_proved::Refusal>(())
/// ```
#[derive(Clone, Debug)]
pub struct Values<'a> {
    code: u16,
    bytes: &'a [u8],
    place: usize,
    left: u16,
}

impl<'a> Iterator for Values<'a> {
    type Item = PtpValue<'a>;

    fn next(&mut self) -> Option<PtpValue<'a>> {
        let [next, left, ..] = archive::next_value(self.bytes, self.code, self.place, self.left)?;
        let next = next as usize;
        let value = PtpValue::new(self.code, &self.bytes[self.place..next]);
        (self.place, self.left) = (next, left as u16);
        Some(value)
    }

    fn size_hint(&self) -> (usize, Option<usize>) {
        (self.left.into(), Some(self.left.into()))
    }
}

impl core::iter::FusedIterator for Values<'_> {}

impl ExactSizeIterator for Values<'_> {}

impl<'a> IntoIterator for PtpValues<'a> {
    type Item = PtpValue<'a>;
    type IntoIter = Values<'a>;

    fn into_iter(self) -> Values<'a> {
        self.iter()
    }
}

impl<'a> IntoIterator for &PtpValues<'a> {
    type Item = PtpValue<'a>;
    type IntoIter = Values<'a>;

    fn into_iter(self) -> Values<'a> {
        self.iter()
    }
}

impl PartialEq for PtpValues<'_> {
    fn eq(&self, other: &Self) -> bool {
        self.code == other.code && self.iter().eq(other.iter())
    }
}

impl Eq for PtpValues<'_> {}

impl core::hash::Hash for PtpValues<'_> {
    fn hash<H: core::hash::Hasher>(&self, state: &mut H) {
        self.code.hash(state);
        self.count.hash(state);
        self.iter().for_each(|value| value.hash(state));
    }
}

impl core::fmt::Debug for PtpValues<'_> {
    fn fmt(&self, f: &mut core::fmt::Formatter<'_>) -> core::fmt::Result {
        f.debug_list().entries(self.iter()).finish()
    }
}

/// The newer value's bytes, and whose part they are.
///
/// ```
/// use ptp_proved::{newer_value, Newer, PropLayout};
/// let s = b"\x01\x50\x02\0\0\x01\x64\x32\x01\0\x64\x01";
/// assert_eq!(newer_value(PropLayout::Crate, s, &[75]), Newer::Payload(&[75]));
/// assert_eq!(newer_value(PropLayout::Crate, s, &[75, 0]), Newer::Description(&[50]));
/// ```
#[derive(Clone, Copy, Debug, PartialEq, Eq, Hash)]
pub enum Newer<'a> {
    /// a part of the description
    Description(&'a [u8]),
    /// the whole payload
    Payload(&'a [u8]),
}

impl<'a> Newer<'a> {
    /// The value's bytes.
    pub fn bytes(&self) -> &'a [u8] {
        match *self {
            Newer::Description(part) | Newer::Payload(part) => part,
        }
    }
}

/// The whole payload where it is exactly one value of the description's type, else the bytes of the description's current value.
/// An empty part of the description where that is refused. It refuses nothing itself.
pub fn newer_value<'a>(layout: PropLayout, description: &'a [u8], payload: &'a [u8]) -> Newer<'a> {
    let [of_payload, start, length] =
        archive::newer_value(layout.is_book(), description, payload).expect("its only refusal is ROOM");
    let (start, end) = (start as usize, (start + length) as usize);
    if of_payload == 1 {
        Newer::Payload(&payload[start..end])
    } else {
        Newer::Description(&description[start..end])
    }
}

/// The tidy spelling of the description that begins these bytes, at the front of the output: the part that was written.
/// Refusals: those of reading it, then ROOM.
pub fn tidy_property<'o>(layout: PropLayout, s: &[u8], out: &'o mut [u8]) -> Result<&'o [u8], Refusal> {
    let count = archive::tidy_property(layout.is_book(), s, out)?;
    Ok(&out[..count])
}
