//! What the Data payload of a camera call's answer holds. Device and object info are the records' own `decode`; bytes may follow them.
use crate::archive;
use crate::array::PtpArray;
use crate::dataset::PtpStorageInfo;
use crate::refusal::Refusal;

/// Object handles, which fill the payload. Refusals: END; TRAIL where bytes follow.
pub fn object_handles(payload: &[u8]) -> Result<PtpArray<'_, u32>, Refusal> {
    let [_, start, count] = archive::handles(payload)?.map(|number| number as usize);
    Ok(PtpArray::new(&payload[start..start + 4 * count]))
}

/// Storage IDs: laid out as handles are. Refusals: those of [`object_handles`].
pub fn storage_ids(payload: &[u8]) -> Result<PtpArray<'_, u32>, Refusal> {
    object_handles(payload)
}

/// The number of objects, which fills the payload. Refusals: END; TRAIL where bytes follow.
pub fn object_count(payload: &[u8]) -> Result<u32, Refusal> {
    let [_, count] = archive::object_count(payload)?;
    Ok(count as u32)
}

/// A storage record that fills the payload. Refusals: END, TEXT; TRAIL where bytes follow.
pub fn storage_info(payload: &[u8]) -> Result<PtpStorageInfo<'_>, Refusal> {
    let numbers = archive::storage_payload(payload)?;
    Ok(PtpStorageInfo::of(payload, &numbers).0)
}
