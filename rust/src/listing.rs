//! The listing of a recording, window by window.
use crate::archive;
use crate::refusal::Refusal;

/// Where a listing stands: the place of the next record in the recording, and how many whole records stand before it.
///
/// ```
/// use ptp_proved::{write_ending, Tally};
/// let mut out = [0; 64];
/// assert_eq!(write_ending(Tally { place: 18, records: 1 }, &mut out)?, b"records 1 bytes 18\n");
/// # Ok::<(), ptp_proved::Refusal>(())
/// ```
#[derive(Clone, Copy, Debug, Default, PartialEq, Eq, Hash)]
pub struct Tally {
    /// where the next record stands
    pub place: u64,
    /// how many stand before it
    pub records: u64,
}

/// What was listed of a window.
///
/// ```
/// use ptp_proved::{list_window, Tally};
/// let mut out = [0; 128];
/// // a record that is cut waits for more bytes
/// let listed = list_window(&[18, 0, 0], false, Tally::default(), &mut out);
/// assert_eq!((listed.text, listed.used, listed.stopped), (&b""[..], 0, false));
/// ```
#[derive(Clone, Copy, Debug, PartialEq, Eq, Hash)]
pub struct Listed<'o> {
    /// the lines
    pub text: &'o [u8],
    /// how many bytes of the window they are of
    pub used: usize,
    /// where the listing stands now
    pub tally: Tally,
    /// a refused record ended the listing
    pub stopped: bool,
}

/// The first line. Refusal: ROOM.
pub fn write_heading(out: &mut [u8]) -> Result<&[u8], Refusal> {
    let count = archive::write_heading(out)?;
    Ok(&out[..count])
}

/// The lines of the whole records of a window, as many as have room; with less than 128 bytes of room nothing is listed. `last` says that the
/// recording ends with the window: else a record that is cut waits for more bytes.
pub fn list_window<'o>(window: &[u8], last: bool, from: Tally, out: &'o mut [u8]) -> Listed<'o> {
    let (count, [used, place, records, stopped]) = archive::list_window(window, last, from.place, from.records, out);
    Listed { text: &out[..count], used: used as usize, tally: Tally { place, records }, stopped: stopped == 1 }
}

/// The last line. Refusal: ROOM.
pub fn write_ending(tally: Tally, out: &mut [u8]) -> Result<&[u8], Refusal> {
    let count = archive::write_ending(tally.records, tally.place, out)?;
    Ok(&out[..count])
}

/// The whole listing of a recording, a piece at a time: a heading, a line a record, the last line.
///
/// ```
/// let recording = [18, 0, 0, 0, 1, 0, 12, 0, 0, 0, 3, 0, 1, 0x20, 0, 0, 0, 0];
/// let mut text = Vec::new();
/// ptp_proved::list_recording(&recording, |piece| text.extend_from_slice(piece));
/// assert_eq!(text, b"place way kind code tid bytes\n0 in Response Ok 0 0\nrecords 1 bytes 18\n");
/// ```
pub fn list_recording(recording: &[u8], mut write: impl FnMut(&[u8])) {
    let mut out = [0; 4096];
    let mut tally = Tally::default();
    let mut rest = recording;
    write(write_heading(&mut out).expect("a heading has room"));
    loop {
        let listed = list_window(rest, true, tally, &mut out);
        write(listed.text);
        (tally, rest) = (listed.tally, &rest[listed.used..]);
        if listed.stopped || rest.is_empty() {
            break;
        }
    }
    write(write_ending(tally, &mut out).expect("a last line has room"));
}
