//! Why a call gave nothing.
use crate::pad::padded;
use core::fmt;

/// The twenty-two refusals. Where several conditions hold, a call gives the first in its own order.
///
/// What could not be read is told with `at`, the place of the first byte of the field that failed: an array's count, a string's count byte,
/// a list's failing value. It counts in the bytes that were lent; of an object's name in that name.
///
/// ```
/// use ptp_proved::{object_count, Refusal};
/// let why = object_count(&[1, 0]).unwrap_err();
/// assert_eq!((why, why.number(), why.place()), (Refusal::END { at: 0 }, 1, Some(0)));
/// assert_eq!(why.to_string(), "the input stops before a field is whole (at byte 0)");
/// assert_eq!(Refusal::from_number(9, 0), Some(Refusal::ROOM));
/// ```
#[derive(Clone, Copy, Debug, PartialEq, Eq, Hash)]
pub enum Refusal {
    /// the input stops before a field is whole
    END {
        /// where that field begins
        at: usize,
    },
    /// a string's units hold an unpaired surrogate
    TEXT {
        /// where that string begins
        at: usize,
    },
    /// bytes follow what must fill its place
    TRAIL,
    /// a container's kind is not 1 to 4
    KIND,
    /// a container's length is below 12
    LENGTH,
    /// a container's bytes stop before its announced length
    SIZE,
    /// a container carries another transaction number
    TID,
    /// the containers stop, and no Response was seen
    NOPHASE,
    /// the output is shorter than the exact need
    ROOM,
    /// over 254 units, over 5 parameters, over 4,294,967,295 items, a payload over 4,294,967,283 bytes, or bytes that are no whole items
    COUNT,
    /// the object table breaks its rule
    TABLE,
    /// an index that does not exist, an object that is not live, the root where one is deleted, or a type code that is no array's where one is
    /// asked for
    PLACE,
    /// a record's length is below 6, or its kind not 1 to 3, of one to be written not 1 or 2; a setting's length is below 6, it is untidy, or its key stood before
    RECORD,
    /// a record's body is over 65,000 bytes
    LONG,
    /// another type than the description's, one that is none, or a range of anything but integers of 8 to 64 bits
    TYPE,
    /// the description's form does not allow the value
    VALUE,
    /// a setting's kind is not one of the edition
    EDITION,
    /// 256 settings with other keys are held
    FULL,
    /// 1,024 live objects are held
    TAKEN,
    /// a packet's kind is none of the five that a transaction has
    PACKET,
    /// a packet's length is not of whole fields, or the data is not as long as announced
    FIELDS,
    /// containers or packets are not one transaction
    TRANSACTION,
}

use Refusal::*;

// Those without a place, from 3 on.
const PLAIN: [Refusal; 20] = [
    TRAIL,
    KIND,
    LENGTH,
    SIZE,
    TID,
    NOPHASE,
    ROOM,
    COUNT,
    TABLE,
    PLACE,
    RECORD,
    LONG,
    TYPE,
    VALUE,
    EDITION,
    FULL,
    TAKEN,
    PACKET,
    FIELDS,
    TRANSACTION,
];

impl Refusal {
    /// Its number, 1 to 22.
    pub fn number(self) -> u8 {
        match self {
            END { .. } => 1,
            TEXT { .. } => 2,
            plain => 3 + PLAIN.iter().position(|each| *each == plain).expect("all are there") as u8,
        }
    }

    /// The place of the first byte of the field that failed, of END and TEXT.
    pub fn place(self) -> Option<usize> {
        match self {
            END { at } | TEXT { at } => Some(at),
            _ => None,
        }
    }

    // Without its place.
    fn sentence(self) -> &'static str {
        match self {
            END { .. } => "the input stops before a field is whole",
            TEXT { .. } => "a string holds an unpaired surrogate",
            TRAIL => "bytes follow what must fill its place",
            KIND => "a container's kind is not 1 to 4",
            LENGTH => "a container's length is below 12",
            SIZE => "a container's bytes stop before its announced length",
            TID => "a container carries another transaction number",
            NOPHASE => "the containers stop, and no Response was seen",
            ROOM => "the output is too short",
            COUNT => "there are too many units, parameters, items or payload bytes, or no whole items",
            TABLE => "the object table breaks its rule",
            PLACE => "there is no such index or live object, or the type is no array's",
            RECORD => "a record or setting is none",
            LONG => "a record's body is over 65,000 bytes",
            TYPE => "the type is another than the description's, or none that can be set",
            VALUE => "the description does not allow the value",
            EDITION => "a setting's kind is not one of the edition",
            FULL => "256 settings with other keys are held",
            TAKEN => "1,024 live objects are held",
            PACKET => "a packet's kind is none of a transaction's",
            FIELDS => "a packet is not of whole fields, or the data not as long as announced",
            TRANSACTION => "this is not one transaction",
        }
    }

    /// The refusal of a number, if there is one, with its place, which only 1 and 2 have.
    pub fn from_number(number: u64, at: usize) -> Option<Refusal> {
        match number {
            1 => Some(END { at }),
            2 => Some(TEXT { at }),
            plain => PLAIN.get(usize::try_from(plain.checked_sub(3)?).ok()?).copied(),
        }
    }
}

impl fmt::Display for Refusal {
    fn fmt(&self, f: &mut fmt::Formatter<'_>) -> fmt::Result {
        match self.place() {
            Some(at) => padded(f, |to| write!(to, "{} (at byte {at})", self.sentence())),
            None => f.pad(self.sentence()),
        }
    }
}

#[cfg(core_error)]
impl core::error::Error for Refusal {}
