//! A string's units, in the caller's bytes.
use crate::archive;
use crate::array::{Items, PtpArray};
use crate::pad::padded;
use crate::reader::PtpReader;
use crate::refusal::Refusal;
use crate::writer::write_str;
use core::fmt::{self, Write};

/// A string that was read: UTF-16 units without an unpaired surrogate. The last, unread unit is no part of it.
///
/// ```
/// let text = ptp_proved::PtpReader::new(b"\x03A\0\xE9\0\0\0").read_ptp_str()?;
/// assert_eq!(text, "Aé");
/// assert_eq!((text.len(), format!("{text:>4}")), (2, "  Aé".into()));
/// # Ok::<(), ptp_proved::Refusal>(())
/// ```
#[derive(Clone, Copy, PartialEq, Eq, Hash)]
pub struct PtpString<'a> {
    units: PtpArray<'a, u16>,
}

impl<'a> PtpString<'a> {
    // The bytes are those of the units, without a count and without the last unit.
    pub(crate) fn new(bytes: &'a [u8]) -> Self {
        PtpString { units: PtpArray::new(bytes) }
    }

    /// How many units it has; a character outside the basic plane has two.
    pub fn len(&self) -> usize {
        self.units.len()
    }

    /// Whether it has none.
    pub fn is_empty(&self) -> bool {
        self.units.is_empty()
    }

    /// Its units.
    pub fn units(&self) -> PtpArray<'a, u16> {
        self.units
    }

    /// A string of one's own: written to the front of `room`, 511 bytes for the longest. Refusals: COUNT for more than 254 units; ROOM.
    ///
    /// ```
    /// let mut room = [0; 16];
    /// assert_eq!(ptp_proved::PtpString::write("A1", &mut room)?, "A1");
    /// # Ok::<(), ptp_proved::Refusal>(())
    /// ```
    pub fn write(text: &str, room: &'a mut [u8]) -> Result<Self, Refusal> {
        PtpReader::new(write_str(text, room)?).read_ptp_str()
    }

    /// Whether it is safe as a file's name: not empty, not `.` or `..`, without a slash, a backslash and control characters. Paths have
    /// names as the camera gives them: `..`, slashes and newlines too, and two objects can have one path.
    ///
    /// ```
    /// use ptp_proved::PtpString;
    /// assert!(PtpString::write("FRAME1.JPG", &mut [0; 64])?.is_plain());
    /// assert!(!PtpString::write("..", &mut [0; 64])?.is_plain());
    /// # Ok::<(), ptp_proved::Refusal>(())
    /// ```
    pub fn is_plain(&self) -> bool {
        let unsafe_character = |c: char| c == '/' || c == '\\' || c.is_control();
        !self.is_empty() && *self != "." && *self != ".." && !self.chars().any(unsafe_character)
    }

    /// Its characters. A reading refuses an unpaired surrogate, so none has to be replaced.
    pub fn chars(&self) -> Chars<'a> {
        Chars { units: char::decode_utf16(self.units.iter()) }
    }
}

/// A string's characters, one after the other.
///
/// ```
/// let text = ptp_proved::PtpReader::new(b"\x02A\0\0\0").read_ptp_str()?;
/// assert_eq!(text.chars().collect::<Vec<_>>(), ['A']);
/// # Ok::<(), ptp_proved::Refusal>(())
/// ```
#[derive(Clone, Debug)]
pub struct Chars<'a> {
    units: core::char::DecodeUtf16<Items<'a, u16>>,
}

impl Iterator for Chars<'_> {
    type Item = char;

    fn next(&mut self) -> Option<char> {
        Some(self.units.next()?.unwrap_or(char::REPLACEMENT_CHARACTER))
    }

    fn size_hint(&self) -> (usize, Option<usize>) {
        self.units.size_hint()
    }
}

// The units' own iterator is.
impl core::iter::FusedIterator for Chars<'_> {}

#[cfg(feature = "alloc")]
impl From<PtpString<'_>> for alloc::string::String {
    fn from(text: PtpString<'_>) -> Self {
        text.chars().collect()
    }
}

/// The UTF-8 of the string at a place of the bytes, at the front of the output. Refusals: END, TEXT; ROOM.
pub fn utf8<'o>(s: &[u8], at: usize, out: &'o mut [u8]) -> Result<&'o str, Refusal> {
    let count = archive::utf8(s, at, out)?;
    Ok(core::str::from_utf8(&out[..count]).expect("it is UTF-8"))
}

/// How long it is in UTF-8, and the place after the string. Refusals: END, TEXT.
pub fn utf8_len(s: &[u8], at: usize) -> Result<(usize, usize), Refusal> {
    archive::utf8_len(s, at).map(|[next, length]| (length as usize, next as usize))
}

impl PartialEq<str> for PtpString<'_> {
    fn eq(&self, other: &str) -> bool {
        self.chars().eq(other.chars())
    }
}

impl PartialEq<&str> for PtpString<'_> {
    fn eq(&self, other: &&str) -> bool {
        *self == **other
    }
}

impl fmt::Display for PtpString<'_> {
    fn fmt(&self, f: &mut fmt::Formatter<'_>) -> fmt::Result {
        padded(f, |to| self.chars().try_for_each(|c| to.write_char(c)))
    }
}

impl fmt::Debug for PtpString<'_> {
    fn fmt(&self, f: &mut fmt::Formatter<'_>) -> fmt::Result {
        f.write_char('"')?;
        self.chars().flat_map(char::escape_debug).try_for_each(|c| f.write_char(c))?;
        f.write_char('"')
    }
}
