//! Datasets, and what the panel asks of a property.
use super::{show, words};
use ptp_proved::{
    newer_value, storage_info, tidy_property, Newer, PropLayout, PtpDeviceInfo, PtpFormData, PtpObjectInfo, PtpPropInfo,
    PtpStorageInfo,
};

pub fn device(s: &str) -> Option<String> {
    let s = words::bytes(s)?;
    let (x, taken) = match PtpDeviceInfo::decode(&s) {
        Ok(read) => read,
        Err(why) => return Some(show::refusal(why)),
    };
    Some(format!(
        "ok {taken} {} {} {} {} {} {} {} {} {} {} {} {} {} {}",
        x.Version,
        x.VendorExID,
        x.VendorExVersion,
        show::text(x.VendorExtensionDesc),
        x.FunctionalMode,
        show::array(x.OperationsSupported),
        show::array(x.EventsSupported),
        show::array(x.DevicePropertiesSupported),
        show::array(x.CaptureFormats),
        show::array(x.ImageFormats),
        show::text(x.Manufacturer),
        show::text(x.Model),
        show::text(x.DeviceVersion),
        show::text(x.SerialNumber),
    ))
}

pub fn object(s: &str) -> Option<String> {
    let s = words::bytes(s)?;
    let (x, taken) = match PtpObjectInfo::decode(&s) {
        Ok(read) => read,
        Err(why) => return Some(show::refusal(why)),
    };
    let numbers = [
        x.StorageID,
        x.ObjectFormat.into(),
        x.ProtectionStatus.into(),
        x.ObjectCompressedSize,
        x.ThumbFormat.into(),
        x.ThumbCompressedSize,
        x.ThumbPixWidth,
        x.ThumbPixHeight,
        x.ImagePixWidth,
        x.ImagePixHeight,
        x.ImageBitDepth,
        x.ParentObject,
        x.AssociationType.into(),
        x.AssociationDesc,
        x.SequenceNumber,
    ];
    let texts = [x.Filename, x.CaptureDate, x.ModificationDate, x.Keywords];
    let fields = numbers.iter().map(|n| n.to_string()).chain(texts.map(show::text));
    Some(fields.fold(format!("ok {taken}"), |line, field| line + " " + &field))
}

pub fn storage(s: &str) -> Option<String> {
    let s = words::bytes(s)?;
    Some(match PtpStorageInfo::decode(&s) {
        Ok((info, taken)) => format!("ok {taken} {}", fields(info)),
        Err(why) => show::refusal(why),
    })
}

pub fn storage_payload(s: &str) -> Option<String> {
    let s = words::bytes(s)?;
    Some(match storage_info(&s) {
        Ok(info) => format!("ok {}", fields(info)),
        Err(why) => show::refusal(why),
    })
}

fn fields(x: PtpStorageInfo) -> String {
    format!(
        "{} {} {} {} {} {} {} {}",
        x.StorageType,
        x.FilesystemType,
        x.AccessCapability,
        x.MaxCapacity,
        x.FreeSpaceInBytes,
        x.FreeSpaceInImages,
        show::text(x.StorageDescription),
        show::text(x.VolumeLabel),
    )
}

pub fn layout_of(word: &str) -> Option<PropLayout> {
    match word {
        "crate" => Some(PropLayout::Crate),
        "book" => Some(PropLayout::Book),
        _ => None,
    }
}

pub fn property(layout: &str, s: &str) -> Option<String> {
    let layout = layout_of(layout)?;
    let s = words::bytes(s)?;
    let (x, taken) = match PtpPropInfo::decode(layout, &s) {
        Ok(read) => read,
        Err(why) => return Some(show::refusal(why)),
    };
    let mut line = format!(
        "ok {taken} {} {} {} {} {} {}",
        x.PropertyCode,
        x.DataType,
        x.GetSet,
        x.IsEnable.map_or("-".into(), |byte| byte.to_string()),
        show::value(x.FactoryDefault),
        show::value(x.Current)
    );
    match x.Form {
        PtpFormData::None => line += " none",
        PtpFormData::Range { minValue, maxValue, step } => {
            line += &format!(" range {} {} {}", show::value(minValue), show::value(maxValue), show::value(step));
        }
        PtpFormData::Enumeration { array } => {
            line += &format!(" list {}", array.len());
            line.extend(array.iter().map(|value| format!(" {}", show::value(value))));
        }
    }
    Some(line)
}

pub fn tidy(layout: &str, s: &str, room: &str) -> Option<String> {
    let layout = layout_of(layout)?;
    let s = words::bytes(s)?;
    let mut out = words::room(room)?;
    let answer = match tidy_property(layout, &s, &mut out) {
        Ok(written) => format!("ok {}", written.len()),
        Err(why) => show::refusal(why),
    };
    Some(format!("{answer} {}", show::bytes(&out)))
}

pub fn nth(layout: &str, n: &str, s: &str) -> Option<String> {
    let layout = layout_of(layout)?;
    let n = words::size(n)?;
    let s = words::bytes(s)?;
    Some(match PtpPropInfo::nth(layout, &s, n) {
        Ok(value) => format!("ok {} {} {}", show::value(value), show::start(value.bytes(), &s), value.bytes().len()),
        Err(why) => show::refusal(why),
    })
}

// The iterator steps by itself: each of its values must be the very part that the archive finds for that place of the list.
pub fn list(layout: &str, s: &str) -> Option<String> {
    let layout = layout_of(layout)?;
    let s = words::bytes(s)?;
    let array = match PtpPropInfo::decode(layout, &s) {
        Ok((PtpPropInfo { Form: PtpFormData::Enumeration { array }, .. }, _)) => array,
        Ok(_) => return Some("ok 0 0".into()),
        Err(why) => return Some(format!("ok {} 0", show::told(why))),
    };
    let values: Vec<_> = array.iter().collect();
    for (n, stepped) in values.iter().enumerate() {
        let asked = array.nth(n).expect("a value for each step");
        assert_eq!(stepped.bytes().as_ptr_range(), asked.bytes().as_ptr_range());
    }
    let shown = values.iter().map(|&value| format!(" {}", show::value(value)));
    Some(format!("ok 0 {}{}", values.len(), shown.collect::<String>()))
}

pub fn newer(layout: &str, description: &str, payload: &str) -> Option<String> {
    let layout = layout_of(layout)?;
    let description = words::bytes(description)?;
    let payload = words::bytes(payload)?;
    Some(match newer_value(layout, &description, &payload) {
        Newer::Description(part) => {
            format!("ok description {} {} {}", show::start(part, &description), part.len(), show::bytes(part))
        }
        Newer::Payload(part) => format!("ok payload {} {} {}", show::start(part, &payload), part.len(), show::bytes(part)),
    })
}
