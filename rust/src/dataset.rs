//! The device, object and storage records.
use crate::archive;
use crate::array::PtpArray;
use crate::refusal::Refusal;
use crate::text::PtpString;
use crate::value::PtpDataType;
use crate::writer::encode_all;

// Takes an answer's numbers in order, and the parts that they name out of the caller's bytes.
pub(crate) struct Row<'a, 'n> {
    pub(crate) bytes: &'a [u8],
    pub(crate) numbers: core::slice::Iter<'n, u64>,
}

impl<'a, 'n> Row<'a, 'n> {
    pub(crate) fn new(bytes: &'a [u8], numbers: &'n [u64]) -> Self {
        Row { bytes, numbers: numbers.iter() }
    }

    pub(crate) fn word(&mut self) -> u64 {
        *self.numbers.next().expect("a row has a number for each field")
    }

    pub(crate) fn size(&mut self) -> usize {
        self.word() as usize
    }

    // A field of fewer bits: its number is one that the field can hold, so nothing is cut off.
    pub(crate) fn half(&mut self) -> u32 {
        self.word() as u32
    }

    pub(crate) fn short(&mut self) -> u16 {
        self.word() as u16
    }

    // The bytes of a start and a length.
    pub(crate) fn part(&mut self) -> &'a [u8] {
        let start = self.size();
        let length = self.size();
        &self.bytes[start..start + length]
    }

    // The bytes of a start and a count of units or items of two bytes.
    fn pairs(&mut self) -> &'a [u8] {
        let start = self.size();
        let count = self.size();
        &self.bytes[start..start + 2 * count]
    }

    pub(crate) fn text(&mut self) -> PtpString<'a> {
        PtpString::new(self.pairs())
    }

    fn array(&mut self) -> PtpArray<'a, u16> {
        PtpArray::new(self.pairs())
    }
}

/// What a camera says of itself.
///
/// ```
/// let mut s = vec![0; 35];
/// s[0] = 100;
/// let (info, taken) = ptp_proved::PtpDeviceInfo::decode(&s)?;
/// assert_eq!((info.Version, info.Model.is_empty(), taken), (100, true, 35));
/// # Ok::<(), ptp_proved::Refusal>(())
/// ```
#[derive(Clone, Copy, Debug, PartialEq, Eq, Hash)]
pub struct PtpDeviceInfo<'a> {
    /// The version of the standard, times 100.
    pub Version: u16,
    /// The number of the maker's extension.
    pub VendorExID: u32,
    /// Its version, times 100.
    pub VendorExVersion: u16,
    /// Its description.
    pub VendorExtensionDesc: PtpString<'a>,
    /// The mode that the camera is in.
    pub FunctionalMode: u16,
    /// The codes of its operations.
    pub OperationsSupported: PtpArray<'a, u16>,
    /// The codes of its events.
    pub EventsSupported: PtpArray<'a, u16>,
    /// The codes of its properties.
    pub DevicePropertiesSupported: PtpArray<'a, u16>,
    /// The formats that it makes.
    pub CaptureFormats: PtpArray<'a, u16>,
    /// The formats that it holds.
    pub ImageFormats: PtpArray<'a, u16>,
    /// Who made it.
    pub Manufacturer: PtpString<'a>,
    /// Which model it is.
    pub Model: PtpString<'a>,
    /// The version of its firmware.
    pub DeviceVersion: PtpString<'a>,
    /// Its serial number.
    pub SerialNumber: PtpString<'a>,
}

impl<'a> PtpDeviceInfo<'a> {
    /// The record that begins these bytes, and how many it takes. Refusals: END, TEXT.
    pub fn decode(s: &'a [u8]) -> Result<(Self, usize), Refusal> {
        let numbers = archive::device_info(s)?;
        let mut row = Row::new(s, &numbers);
        let taken = row.size();
        let info = PtpDeviceInfo {
            Version: row.short(),
            VendorExID: row.half(),
            VendorExVersion: row.short(),
            VendorExtensionDesc: row.text(),
            FunctionalMode: row.short(),
            OperationsSupported: row.array(),
            EventsSupported: row.array(),
            DevicePropertiesSupported: row.array(),
            CaptureFormats: row.array(),
            ImageFormats: row.array(),
            Manufacturer: row.text(),
            Model: row.text(),
            DeviceVersion: row.text(),
            SerialNumber: row.text(),
        };
        Ok((info, taken))
    }

    /// Its tidy bytes, at the front of the output: [`decode`](Self::decode) reads them back. Refusal: ROOM.
    pub fn encode<'o>(&self, out: &'o mut [u8]) -> Result<&'o [u8], Refusal> {
        use PtpDataType::*;
        let fields = [
            UINT16(self.Version),
            UINT32(self.VendorExID),
            UINT16(self.VendorExVersion),
            STR(self.VendorExtensionDesc),
            UINT16(self.FunctionalMode),
            AUINT16(self.OperationsSupported),
            AUINT16(self.EventsSupported),
            AUINT16(self.DevicePropertiesSupported),
            AUINT16(self.CaptureFormats),
            AUINT16(self.ImageFormats),
            STR(self.Manufacturer),
            STR(self.Model),
            STR(self.DeviceVersion),
            STR(self.SerialNumber),
        ];
        encode_all(fields.into_iter(), out)
    }
}

/// What a camera says of an object that it holds.
///
/// ```
/// let mut s = vec![0; 56];
/// s[0] = 1;
/// let (info, taken) = ptp_proved::PtpObjectInfo::decode(&s)?;
/// assert_eq!((info.StorageID, info.Filename.len(), taken), (1, 0, 56));
/// # Ok::<(), ptp_proved::Refusal>(())
/// ```
#[derive(Clone, Copy, Debug, PartialEq, Eq, Hash)]
pub struct PtpObjectInfo<'a> {
    /// The storage that it lies in.
    pub StorageID: u32,
    /// Its format's code.
    pub ObjectFormat: u16,
    /// 0 where it may be changed.
    pub ProtectionStatus: u16,
    /// Its length in bytes.
    pub ObjectCompressedSize: u32,
    /// The thumbnail's format.
    pub ThumbFormat: u16,
    /// The thumbnail's length in bytes.
    pub ThumbCompressedSize: u32,
    /// The thumbnail's width.
    pub ThumbPixWidth: u32,
    /// The thumbnail's height.
    pub ThumbPixHeight: u32,
    /// The width in pixels.
    pub ImagePixWidth: u32,
    /// The height in pixels.
    pub ImagePixHeight: u32,
    /// Bits of a pixel.
    pub ImageBitDepth: u32,
    /// The handle of the object that it lies in; 0 for none.
    pub ParentObject: u32,
    /// Which kind of association it is; 0 for none.
    pub AssociationType: u16,
    /// What belongs to that kind.
    pub AssociationDesc: u32,
    /// Its place in a sequence.
    pub SequenceNumber: u32,
    /// Its name.
    pub Filename: PtpString<'a>,
    /// When it was taken.
    pub CaptureDate: PtpString<'a>,
    /// When it was changed last.
    pub ModificationDate: PtpString<'a>,
    /// Words for it.
    pub Keywords: PtpString<'a>,
}

impl<'a> PtpObjectInfo<'a> {
    /// The record that begins these bytes, and how many it takes. Refusals: END, TEXT.
    pub fn decode(s: &'a [u8]) -> Result<(Self, usize), Refusal> {
        let numbers = archive::object_info(s)?;
        let mut row = Row::new(s, &numbers);
        let taken = row.size();
        let info = PtpObjectInfo {
            StorageID: row.half(),
            ObjectFormat: row.short(),
            ProtectionStatus: row.short(),
            ObjectCompressedSize: row.half(),
            ThumbFormat: row.short(),
            ThumbCompressedSize: row.half(),
            ThumbPixWidth: row.half(),
            ThumbPixHeight: row.half(),
            ImagePixWidth: row.half(),
            ImagePixHeight: row.half(),
            ImageBitDepth: row.half(),
            ParentObject: row.half(),
            AssociationType: row.short(),
            AssociationDesc: row.half(),
            SequenceNumber: row.half(),
            Filename: row.text(),
            CaptureDate: row.text(),
            ModificationDate: row.text(),
            Keywords: row.text(),
        };
        Ok((info, taken))
    }

    /// Its tidy bytes, at the front of the output: [`decode`](Self::decode) reads them back. Refusal: ROOM.
    pub fn encode<'o>(&self, out: &'o mut [u8]) -> Result<&'o [u8], Refusal> {
        use PtpDataType::*;
        let fields = [
            UINT32(self.StorageID),
            UINT16(self.ObjectFormat),
            UINT16(self.ProtectionStatus),
            UINT32(self.ObjectCompressedSize),
            UINT16(self.ThumbFormat),
            UINT32(self.ThumbCompressedSize),
            UINT32(self.ThumbPixWidth),
            UINT32(self.ThumbPixHeight),
            UINT32(self.ImagePixWidth),
            UINT32(self.ImagePixHeight),
            UINT32(self.ImageBitDepth),
            UINT32(self.ParentObject),
            UINT16(self.AssociationType),
            UINT32(self.AssociationDesc),
            UINT32(self.SequenceNumber),
            STR(self.Filename),
            STR(self.CaptureDate),
            STR(self.ModificationDate),
            STR(self.Keywords),
        ];
        encode_all(fields.into_iter(), out)
    }
}

/// What a camera says of a store.
///
/// ```
/// let mut s = vec![0; 28];
/// s[0] = 3;
/// let (info, taken) = ptp_proved::PtpStorageInfo::decode(&s)?;
/// assert_eq!((info.StorageType, info.MaxCapacity, taken), (3, 0, 28));
/// # Ok::<(), ptp_proved::Refusal>(())
/// ```
#[derive(Clone, Copy, Debug, PartialEq, Eq, Hash)]
pub struct PtpStorageInfo<'a> {
    /// Which kind of storage it is.
    pub StorageType: u16,
    /// Which kind of file system it has.
    pub FilesystemType: u16,
    /// Whether it can be written.
    pub AccessCapability: u16,
    /// Its size in bytes.
    pub MaxCapacity: u64,
    /// How many bytes are free.
    pub FreeSpaceInBytes: u64,
    /// How many pictures have room.
    pub FreeSpaceInImages: u32,
    /// Its description.
    pub StorageDescription: PtpString<'a>,
    /// Its label.
    pub VolumeLabel: PtpString<'a>,
}

impl<'a> PtpStorageInfo<'a> {
    /// The record that begins these bytes, and how many it takes. Refusals: END, TEXT.
    pub fn decode(s: &'a [u8]) -> Result<(Self, usize), Refusal> {
        Ok(PtpStorageInfo::of(s, &archive::storage_info(s)?))
    }

    // By its numbers, the length taken first.
    pub(crate) fn of(s: &'a [u8], numbers: &[u64; 11]) -> (Self, usize) {
        let mut row = Row::new(s, numbers);
        let taken = row.size();
        let info = PtpStorageInfo {
            StorageType: row.short(),
            FilesystemType: row.short(),
            AccessCapability: row.short(),
            MaxCapacity: row.word(),
            FreeSpaceInBytes: row.word(),
            FreeSpaceInImages: row.half(),
            StorageDescription: row.text(),
            VolumeLabel: row.text(),
        };
        (info, taken)
    }

    /// Its tidy bytes, at the front of the output: [`decode`](Self::decode) reads them back. Refusal: ROOM.
    pub fn encode<'o>(&self, out: &'o mut [u8]) -> Result<&'o [u8], Refusal> {
        use PtpDataType::*;
        let fields = [
            UINT16(self.StorageType),
            UINT16(self.FilesystemType),
            UINT16(self.AccessCapability),
            UINT64(self.MaxCapacity),
            UINT64(self.FreeSpaceInBytes),
            UINT32(self.FreeSpaceInImages),
            STR(self.StorageDescription),
            STR(self.VolumeLabel),
        ];
        encode_all(fields.into_iter(), out)
    }
}
