//! Settings kept from reel to reel: a row of entries, a property's value each, for a camera of one serial or for any.
use crate::archive;
use crate::dataset::Row;
use crate::refusal::Refusal;
use crate::text::PtpString;
use crate::value::PtpValue;

/// Which entries a row may have: the first edition only those for any camera, the second also those for the camera of one serial.
///
/// ```
/// use ptp_proved::{entry_bytes, Edition, Refusal, Settings};
/// let mut out = [0; 32];
/// let entry = entry_bytes(6, 0x5001, Some(&[0x30]), 2, &[50], &mut out)?;
/// assert_eq!(Settings::read(Edition::One, entry), Err(Refusal::EDITION));
/// assert_eq!(Settings::read(Edition::Two, entry)?.len(), 1);
/// # Ok::<(), ptp_proved::Refusal>(())
/// ```
#[derive(Clone, Copy, Debug, PartialEq, Eq, Hash)]
pub enum Edition {
    /// for any camera
    One,
    /// for any camera, and for the camera of one serial
    Two,
}

impl Edition {
    pub(crate) fn is_second(self) -> bool {
        self == Edition::Two
    }
}

/// An entry as it lies in its row.
///
/// ```
/// use ptp_proved::{entry_bytes, Edition, Settings};
/// let mut out = [0; 32];
/// let row = entry_bytes(6, 0x5001, Some(&[0x30]), 2, &[50], &mut out)?;
/// let setting = Settings::read(Edition::Two, row)?.iter().next().unwrap();
/// assert_eq!((setting.property, setting.serial.unwrap() == "0", setting.value.to_string()), (0x5001, true, "50".into()));
/// # Ok::<(), ptp_proved::Refusal>(())
/// ```
#[derive(Clone, Copy, Debug, PartialEq, Eq, Hash)]
pub struct Setting<'a> {
    /// all its bytes
    pub bytes: &'a [u8],
    /// the number of the maker's extension
    pub vendor: u32,
    /// the property's code
    pub property: u16,
    /// the camera's; `None` in an entry for any camera
    pub serial: Option<PtpString<'a>>,
    /// the value
    pub value: PtpValue<'a>,
}

// The kind of an entry for the camera of one serial.
const FOR_ONE: u16 = 17;
const FOR_ANY: u16 = 16;

// The entry that starts at a place, from its numbers; the place after it comes first.
fn setting(row: &[u8], start: usize, numbers: [u64; 9]) -> Setting<'_> {
    let mut numbers = Row::new(row, &numbers);
    let next = numbers.size();
    let is_for_one = numbers.short() == FOR_ONE;
    let vendor = numbers.half();
    let property = numbers.short();
    let serial = numbers.text();
    let code = numbers.short();
    Setting {
        bytes: &row[start..next],
        vendor,
        property,
        serial: if is_for_one { Some(serial) } else { None },
        value: PtpValue::new(code, numbers.part()),
    }
}

/// What is kept of a property.
///
/// ```
/// use ptp_proved::{entry_bytes, Edition, Settings};
/// let mut out = [0; 32];
/// let row = entry_bytes(6, 0x5001, None, 2, &[50], &mut out)?;
/// let kept = Settings::read(Edition::Two, row)?.find(6, 0x5001, &[0x30]).unwrap();
/// assert_eq!((kept.is_own, kept.value.bytes()), (false, &[50][..]));
/// # Ok::<(), ptp_proved::Refusal>(())
/// ```
#[derive(Clone, Copy, Debug, PartialEq, Eq, Hash)]
pub struct Kept<'a> {
    /// whether it is kept for the camera of the serial that was asked for; else it is for any
    pub is_own: bool,
    /// the value
    pub value: PtpValue<'a>,
}

/// A row that was read whole: one entry for each key, at most 256.
///
/// ```
/// use ptp_proved::{entry_bytes, Edition, Settings};
/// let (mut lent, mut out) = ([0; 32], [0; 32]);
/// let settings = Settings::read(Edition::Two, &[])?.store(entry_bytes(6, 0x5001, None, 2, &[50], &mut lent)?, &mut out)?;
/// assert_eq!((settings.len(), settings.find(6, 0x5001, &[]).is_some()), (1, true));
/// # Ok::<(), ptp_proved::Refusal>(())
/// ```
#[derive(Clone, Copy, Debug, PartialEq, Eq, Hash)]
pub struct Settings<'a> {
    edition: Edition,
    row: &'a [u8],
    count: usize,
}

impl<'a> Settings<'a> {
    /// The row that these bytes are; no bytes are an empty one. Refusals, entry by entry: END for six bytes, EDITION, RECORD for a length
    /// below 6, END for the rest; END and TEXT of the fields; TRAIL; RECORD for an untidy string, and for a key that stood before; FULL.
    ///
    /// Each key is looked for among those before it: twice as many entries cost up to four times as much.
    pub fn read(edition: Edition, row: &'a [u8]) -> Result<Settings<'a>, Refusal> {
        let count = archive::settings_check(edition.is_second(), row)?;
        Ok(Settings { edition, row, count })
    }

    /// How many entries it has.
    pub fn len(&self) -> usize {
        self.count
    }

    /// Whether there is none.
    pub fn is_empty(&self) -> bool {
        self.count == 0
    }

    /// Its bytes, to be kept.
    pub fn bytes(&self) -> &'a [u8] {
        self.row
    }

    /// Its entries, in their order; one step costs one entry.
    pub fn iter(&self) -> Entries<'a> {
        Entries { settings: *self, place: 0, left: self.count }
    }

    /// What is kept of a property: in edition 2 for the camera of this serial, by its units, where there is such an entry; else for any.
    ///
    /// Each call checks the whole row, as [`read`](Self::read) does: to look up many, go through [`iter`](Self::iter) once.
    ///
    /// ```
    /// use ptp_proved::{entry_bytes, Edition, Settings};
    /// let (mut any, mut own) = ([0; 32], [0; 32]);
    /// let any = entry_bytes(6, 0x5001, None, 2, &[50], &mut any)?;
    /// let own = entry_bytes(6, 0x5001, Some(&[0x30]), 2, &[60], &mut own)?;
    /// let row = [any, own].concat();
    /// let settings = Settings::read(Edition::Two, &row)?;
    /// let mut kept = std::collections::HashMap::new();
    /// for entry in settings.iter().filter(|entry| entry.serial.map_or(true, |serial| serial == "0")) {
    ///     // the camera's own wins
    ///     if entry.serial.is_some() || !kept.contains_key(&(entry.vendor, entry.property)) {
    ///         kept.insert((entry.vendor, entry.property), entry.value);
    ///     }
    /// }
    /// assert_eq!(kept[&(6, 0x5001)], settings.find(6, 0x5001, &[0x30]).unwrap().value);
    /// # Ok::<(), ptp_proved::Refusal>(())
    /// ```
    pub fn find(&self, vendor: u32, property: u16, serial: &[u16]) -> Option<Kept<'a>> {
        let found = archive::settings_find(self.edition.is_second(), self.row, vendor, property, serial);
        let numbers = found.expect("the row was read whole")?;
        let mut numbers = Row::new(self.row, &numbers);
        let is_own = numbers.short() == FOR_ONE;
        let code = numbers.short();
        Some(Kept { is_own, value: PtpValue::new(code, numbers.part()) })
    }

    /// The same for a serial as it stands in a device record, or by its units.
    ///
    /// ```
    /// use ptp_proved::{write_entry, Edition, PtpString, Settings};
    /// let (mut lent, mut room) = ([0; 32], [0; 8]);
    /// let serial = PtpString::write("0", &mut room)?;
    /// let settings = Settings::read(Edition::Two, write_entry(6, 0x5001, Some(serial), 2, &[50], &mut lent)?)?;
    /// assert_eq!(settings.find_for(6, 0x5001, serial), settings.find(6, 0x5001, &[0x30]));
    /// # Ok::<(), ptp_proved::Refusal>(())
    /// ```
    pub fn find_for<'s>(&self, vendor: u32, property: u16, serial: impl Into<Serial<'s>>) -> Option<Kept<'a>> {
        let (serial, mut own) = (serial.into(), [0; 255]);
        self.find(vendor, property, serial.units(&mut own))
    }

    /// The row without the entry of this key, at the front of the output: the one for the camera of this serial, or without a serial the one for
    /// any. Where there is none it is the row as it stands. Refusal: ROOM.
    ///
    /// ```
    /// use ptp_proved::{write_entry, Edition, Serial, Settings};
    /// let (mut lent, mut out) = ([0; 32], [0; 32]);
    /// let settings = Settings::read(Edition::Two, write_entry(6, 0x5001, None::<Serial>, 2, &[50], &mut lent)?)?;
    /// assert_eq!(settings.remove(6, 0x5001, None::<Serial>, &mut out)?.len(), 0);
    /// # Ok::<(), ptp_proved::Refusal>(())
    /// ```
    pub fn remove<'o, 's>(
        &self,
        vendor: u32,
        property: u16,
        serial: Option<impl Into<Serial<'s>>>,
        out: &'o mut [u8],
    ) -> Result<Settings<'o>, Refusal> {
        let mut own = [0; 255];
        let units = serial.map(Into::into);
        let units = units.as_ref().map(|serial| serial.units(&mut own));
        let length = archive::settings_remove(self.edition.is_second(), self.row, vendor, property, units, out)?;
        Settings::read(self.edition, &out[..length])
    }

    /// The row with this entry in place of the one that has its key, or last, at the front of the output. `entry` is an entry's bytes, as
    /// [`entry_bytes`] lays them out, and [`write_entry`] too; they are checked here. Refusals: the entry's own, as in a row, TRAIL also where
    /// bytes follow it; FULL where 256 others are held; ROOM.
    ///
    /// Each call checks the whole row, and then the new one, as [`read`](Self::read) does.
    pub fn store<'o>(&self, entry: &[u8], out: &'o mut [u8]) -> Result<Settings<'o>, Refusal> {
        let count = archive::settings_store(self.edition.is_second(), self.row, entry, out)?;
        Settings::read(self.edition, &out[..count])
    }
}

impl<'a> IntoIterator for Settings<'a> {
    type Item = Setting<'a>;
    type IntoIter = Entries<'a>;

    fn into_iter(self) -> Entries<'a> {
        self.iter()
    }
}

impl<'a> IntoIterator for &Settings<'a> {
    type Item = Setting<'a>;
    type IntoIter = Entries<'a>;

    fn into_iter(self) -> Entries<'a> {
        self.iter()
    }
}

/// A row's entries, one after the other.
///
/// ```
/// use ptp_proved::{entry_bytes, Edition, Settings};
/// let mut out = [0; 32];
/// let row = entry_bytes(6, 0x5001, None, 2, &[50], &mut out)?;
/// let mut entries = Settings::read(Edition::One, row)?.into_iter();
/// assert_eq!((entries.len(), entries.next().unwrap().vendor, entries.len()), (1, 6, 0));
/// # Ok::<(), ptp_proved::Refusal>(())
/// ```
#[derive(Clone, Debug)]
pub struct Entries<'a> {
    settings: Settings<'a>,
    place: usize,
    left: usize,
}

impl<'a> Iterator for Entries<'a> {
    type Item = Setting<'a>;

    fn next(&mut self) -> Option<Setting<'a>> {
        self.left = self.left.checked_sub(1)?;
        let Settings { edition, row, .. } = self.settings;
        let numbers = archive::settings_entry(edition.is_second(), row, self.place).expect("the row was read whole");
        let entry = setting(row, self.place, numbers);
        self.place += entry.bytes.len();
        Some(entry)
    }

    fn size_hint(&self) -> (usize, Option<usize>) {
        (self.left, Some(self.left))
    }
}

impl ExactSizeIterator for Entries<'_> {}

impl core::iter::FusedIterator for Entries<'_> {}

/// Lays the bytes of an entry out, for [`Settings::store`], which checks them: with the serial's units for one camera, without for any; the
/// value's type and bytes. Refusals: COUNT for a serial of more than 254 units, or a length of more than four bytes, which the entry could not
/// tell; ROOM.
pub fn entry_bytes<'o>(
    vendor: u32,
    property: u16,
    serial: Option<&[u16]>,
    code: u16,
    value: &[u8],
    out: &'o mut [u8],
) -> Result<&'o [u8], Refusal> {
    let units = serial.unwrap_or(&[]);
    if units.len() > 254 {
        return Err(Refusal::COUNT);
    }
    let serial_length = match serial {
        None => 0,
        Some([]) => 1,
        Some(units) => 3 + 2 * units.len(),
    };
    let length = 14 + serial_length + value.len();
    let announced = u32::try_from(length).map_err(|_| Refusal::COUNT)?;
    let lent = out.get_mut(..length).ok_or(Refusal::ROOM)?;
    let mut at = 0;
    let mut put = |bytes: &[u8]| {
        lent[at..at + bytes.len()].copy_from_slice(bytes);
        at += bytes.len();
    };
    put(&announced.to_le_bytes());
    put(&if serial.is_some() { FOR_ONE } else { FOR_ANY }.to_le_bytes());
    put(&vendor.to_le_bytes());
    put(&property.to_le_bytes());
    match serial {
        None => {}
        Some([]) => put(&[0]),
        Some(units) => {
            put(&[units.len() as u8 + 1]);
            units.iter().for_each(|unit| put(&unit.to_le_bytes()));
            put(&[0, 0]);
        }
    }
    put(&code.to_le_bytes());
    put(value);
    Ok(&out[..length])
}

/// The bytes of an entry, for [`Settings::store`]: its one spelling, at the front of the output. With a serial it is for the camera of that
/// serial, without one for any. Refusals: TEXT for a serial whose surrogates do not pair, COUNT for one of more than 254 units; RECORD where
/// the value's bytes are not one tidy value of the type; ROOM.
pub fn write_entry<'o, 's>(
    vendor: u32,
    property: u16,
    serial: Option<impl Into<Serial<'s>>>,
    code: u16,
    value: &[u8],
    out: &'o mut [u8],
) -> Result<&'o [u8], Refusal> {
    let mut own = [0; 255];
    let units = serial.map(Into::into);
    let units = units.as_ref().map(|serial| serial.units(&mut own));
    let length = archive::settings_write(vendor, property, code, value, units, out)?;
    Ok(&out[..length])
}

/// A camera's serial: as it stands in its device record, or by its units.
#[derive(Clone, Copy, Debug)]
pub enum Serial<'a> {
    /// [`PtpDeviceInfo::SerialNumber`](crate::PtpDeviceInfo::SerialNumber)
    Text(PtpString<'a>),
    /// its units
    Units(&'a [u16]),
}

impl<'a> Serial<'a> {
    // A string that was read has at most 254 units.
    fn units<'o>(&'o self, own: &'o mut [u16]) -> &'o [u16] {
        match self {
            Serial::Units(units) => units,
            Serial::Text(text) => {
                own.iter_mut().zip(text.units()).for_each(|(own, unit)| *own = unit);
                &own[..text.len()]
            }
        }
    }
}

impl<'a> From<PtpString<'a>> for Serial<'a> {
    fn from(text: PtpString<'a>) -> Self {
        Serial::Text(text)
    }
}

impl<'a> From<&'a [u16]> for Serial<'a> {
    fn from(units: &'a [u16]) -> Self {
        Serial::Units(units)
    }
}

impl<'a, const N: usize> From<&'a [u16; N]> for Serial<'a> {
    fn from(units: &'a [u16; N]) -> Self {
        Serial::Units(units)
    }
}
