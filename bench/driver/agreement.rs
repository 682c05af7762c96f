
// That ours, numbers and places in the bytes, is the record that theirs holds: every number, every string, every list.

mod agreement {
    use super::*;
    use std::slice;

    /// What we answer of a record, beside the bytes it was read from.
    pub struct Row<'a>(pub &'a [u8], pub &'a [u64]);

    impl<'a> Row<'a> {
        fn codes(&self, at: usize) -> Vec<u16> {
            let start = self.1[at] as usize;
            self.0[start..start + 2 * self.1[at + 1] as usize].chunks(2).map(|c| u16::from_le_bytes([c[0], c[1]])).collect()
        }

        fn text(&self, at: usize) -> String {
            String::from_utf16(&self.codes(at)).expect("a string")
        }

        fn values(&self, at: usize) -> Vec<PtpDataType> {
            let start = self.1[at] as usize;
            let word = |c: &[u8]| PtpDataType::UINT32(u32::from_le_bytes([c[0], c[1], c[2], c[3]]));
            self.0[start..start + self.1[at + 1] as usize].chunks(4).map(word).collect()
        }

        pub fn is_device(&self, r: &PtpDeviceInfo) {
            assert_eq!([0, 1, 2, 3, 6].map(|i| self.1[i]),
                       [self.0.len() as u64, r.Version as u64, r.VendorExID as u64, r.VendorExVersion as u64, r.FunctionalMode as u64]);
            assert_eq!([4, 17, 19, 21, 23].map(|i| self.text(i)).each_ref(),
                       [&r.VendorExtensionDesc, &r.Manufacturer, &r.Model, &r.DeviceVersion, &r.SerialNumber]);
            assert_eq!([7, 9, 11, 13, 15].map(|i| self.codes(i)).each_ref(),
                       [&r.OperationsSupported, &r.EventsSupported, &r.DevicePropertiesSupported, &r.CaptureFormats, &r.ImageFormats]);
        }

        pub fn is_object(&self, r: &PtpObjectInfo) {
            let numbers = [
                self.0.len() as u32, r.StorageID, r.ObjectFormat as u32, r.ProtectionStatus as u32, r.ObjectCompressedSize,
                r.ThumbFormat as u32, r.ThumbCompressedSize, r.ThumbPixWidth, r.ThumbPixHeight, r.ImagePixWidth, r.ImagePixHeight,
                r.ImageBitDepth, r.ParentObject, r.AssociationType as u32, r.AssociationDesc, r.SequenceNumber,
            ];
            assert_eq!(&self.1[..16], &numbers.map(|n| n as u64)[..]);
            assert_eq!([16, 18, 20, 22].map(|i| self.text(i)).each_ref(), [&r.Filename, &r.CaptureDate, &r.ModificationDate, &r.Keywords]);
        }

        pub fn is_storage(&self, r: &PtpStorageInfo) {
            let kinds = [r.StorageType, r.FilesystemType, r.AccessCapability].map(|n| n as u64);
            assert_eq!(&self.1[..7], &[self.0.len() as u64, kinds[0], kinds[1], kinds[2], r.MaxCapacity, r.FreeSpaceInBytes, r.FreeSpaceInImages as u64]);
            assert_eq!([7, 9].map(|i| self.text(i)).each_ref(), [&r.StorageDescription, &r.VolumeLabel]);
        }

        /// Of a property of UINT32 with a list.
        pub fn is_property(&self, r: &PtpPropInfo) {
            assert_eq!(&self.1[..5], &[self.0.len() as u64, r.PropertyCode as u64, r.DataType as u64, r.GetSet as u64, r.IsEnable as u64]);
            assert_eq!((&self.values(5)[..], &self.values(7)[..]), (slice::from_ref(&r.FactoryDefault), slice::from_ref(&r.Current)));
            match r.Form {
                PtpFormData::Enumeration { ref array } => {
                    assert_eq!((self.1[9], self.1[12], &self.values(10)), (2, array.len() as u64, array));
                }
                _ => panic!("no list"),
            }
        }
    }
}
