
// Datasets.

mod datasets {
    use super::*;
    use answers::*;
    use values::cursor;

    pub fn device_fields(read: &PtpDeviceInfo) -> String {
        [
            read.Version.to_string(),
            read.VendorExID.to_string(),
            read.VendorExVersion.to_string(),
            text(&read.VendorExtensionDesc),
            read.FunctionalMode.to_string(),
            array(&read.OperationsSupported),
            array(&read.EventsSupported),
            array(&read.DevicePropertiesSupported),
            array(&read.CaptureFormats),
            array(&read.ImageFormats),
            text(&read.Manufacturer),
            text(&read.Model),
            text(&read.DeviceVersion),
            text(&read.SerialNumber),
        ].join(" ")
    }

    pub fn object_fields(read: &PtpObjectInfo) -> String {
        [
            read.StorageID.to_string(),
            read.ObjectFormat.to_string(),
            read.ProtectionStatus.to_string(),
            read.ObjectCompressedSize.to_string(),
            read.ThumbFormat.to_string(),
            read.ThumbCompressedSize.to_string(),
            read.ThumbPixWidth.to_string(),
            read.ThumbPixHeight.to_string(),
            read.ImagePixWidth.to_string(),
            read.ImagePixHeight.to_string(),
            read.ImageBitDepth.to_string(),
            read.ParentObject.to_string(),
            read.AssociationType.to_string(),
            read.AssociationDesc.to_string(),
            read.SequenceNumber.to_string(),
            text(&read.Filename),
            text(&read.CaptureDate),
            text(&read.ModificationDate),
            text(&read.Keywords),
        ].join(" ")
    }

    pub fn storage_fields(read: &PtpStorageInfo) -> String {
        [
            read.StorageType.to_string(),
            read.FilesystemType.to_string(),
            read.AccessCapability.to_string(),
            read.MaxCapacity.to_string(),
            read.FreeSpaceInBytes.to_string(),
            read.FreeSpaceInImages.to_string(),
            text(&read.StorageDescription),
            text(&read.VolumeLabel),
        ].join(" ")
    }

    /// Two of the crate's readers do not tell how far they read: it is the shortest prefix that they still accept.
    fn shortest(data: &[u8], accepts: &Fn(&[u8]) -> bool) -> usize {
        let (mut refused, mut accepted) = (0, data.len());
        while refused < accepted {
            let middle = (refused + accepted) / 2;
            if accepts(&data[..middle]) { accepted = middle } else { refused = middle + 1 }
        }
        accepted
    }

    pub fn device(data: &[u8]) -> Answered {
        let read = PtpDeviceInfo::decode(data)?;
        let length = shortest(data, &|prefix| PtpDeviceInfo::decode(prefix).is_ok());
        Ok(format!("ok {} {}", length, device_fields(&read)))
    }

    pub fn object(data: &[u8]) -> Answered {
        let read = PtpObjectInfo::decode(data)?;
        let length = shortest(data, &|prefix| PtpObjectInfo::decode(prefix).is_ok());
        Ok(format!("ok {} {}", length, object_fields(&read)))
    }

    pub fn storage(data: &[u8]) -> Answered {
        let mut cursor = cursor(data, 0);
        let read = PtpStorageInfo::decode(&mut cursor)?;
        Ok(format!("ok {} {}", cursor.position(), storage_fields(&read)))
    }

    fn form(read: &PtpFormData) -> String {
        match *read {
            PtpFormData::None => "none".to_owned(),
            PtpFormData::Range { ref minValue, ref maxValue, ref step } => {
                format!("range {} {} {}", show(minValue), show(maxValue), show(step))
            }
            PtpFormData::Enumeration { ref array } => {
                let mut words = vec!["list".to_owned(), array.len().to_string()];
                words.extend(array.iter().map(show));
                words.join(" ")
            }
        }
    }

    pub fn property(data: &[u8]) -> Answered {
        let mut cursor = cursor(data, 0);
        let read = PtpPropInfo::decode(&mut cursor)?;
        Ok(format!("ok {} {} {} {} {} {} {} {}", cursor.position(), read.PropertyCode, read.DataType, read.GetSet,
                   read.IsEnable, show(&read.FactoryDefault), show(&read.Current), form(&read.Form)))
    }
}
