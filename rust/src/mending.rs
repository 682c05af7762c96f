//! A damaged recording, mended.
use crate::archive;
use crate::refusal::Refusal;

/// What is kept of a damaged recording, and what was dropped.
///
/// ```
/// let (mut out, mut starts, mut lengths) = ([0; 16], [0; 4], [0; 4]);
/// let mended = ptp_proved::mend_recording(b"\xFF\x07\0\0\0\x03\0A", &mut out, &mut starts, &mut lengths)?;
/// assert_eq!((mended.bytes, mended.dropped().len()), (&b"\x07\0\0\0\x03\0A"[..], 1));
/// # Ok::<(), ptp_proved::Refusal>(())
/// ```
#[derive(Clone, Copy, Debug, PartialEq, Eq, Hash)]
pub struct Mended<'o> {
    /// the kept records, end to end, as they stood
    pub bytes: &'o [u8],
    starts: &'o [u64],
    lengths: &'o [u64],
}

impl<'o> Mended<'o> {
    /// The dropped stretches in rising order, each by its start in the damaged recording and its length. No two touch, and none is empty.
    pub fn dropped(self) -> Dropped<'o> {
        Dropped { starts: self.starts.iter(), lengths: self.lengths.iter() }
    }
}

/// The stretches that were dropped, one after the other, each by its start and its length.
///
/// ```
/// let (mut out, mut starts, mut lengths) = ([0; 16], [0; 4], [0; 4]);
/// let mended = ptp_proved::mend_recording(b"\xFF\x07\0\0\0\x03\0A\0", &mut out, &mut starts, &mut lengths)?;
/// assert_eq!(mended.dropped().collect::<Vec<_>>(), [(0, 1), (8, 1)]);
/// # Ok::<(), ptp_proved::Refusal>(())
/// ```
#[derive(Clone, Debug)]
pub struct Dropped<'o> {
    starts: core::slice::Iter<'o, u64>,
    lengths: core::slice::Iter<'o, u64>,
}

impl Iterator for Dropped<'_> {
    type Item = (u64, u64);

    fn next(&mut self) -> Option<(u64, u64)> {
        Some((*self.starts.next()?, *self.lengths.next()?))
    }

    fn size_hint(&self) -> (usize, Option<usize>) {
        self.starts.size_hint()
    }
}

impl ExactSizeIterator for Dropped<'_> {}

impl core::iter::FusedIterator for Dropped<'_> {}

/// Keeps every record that can still be read, from the front, as it stands, notes too; where none stands, one byte is dropped. Bytes in
/// damage that look like a record are kept. The report's room is that of the shorter of its two lists. Refusal: ROOM for either output.
pub fn mend_recording<'o>(
    s: &[u8],
    out: &'o mut [u8],
    starts: &'o mut [u64],
    lengths: &'o mut [u64],
) -> Result<Mended<'o>, Refusal> {
    let (count, stretches) = archive::mend_recording(s, out, starts, lengths)?;
    Ok(Mended { bytes: &out[..count], starts: &starts[..stretches], lengths: &lengths[..stretches] })
}
