//! A container, a record of a recording, and a recording copied without its notes.
use crate::archive;
use crate::dataset::Row;
use crate::refusal::Refusal;
use crate::session::Made;
use core::fmt;

/// A container's kind.
///
/// ```
/// use ptp_proved::PtpContainerType;
/// assert_eq!(PtpContainerType::from_u16(3), Some(PtpContainerType::Response));
/// assert_eq!(PtpContainerType::from_u16(5), None);
/// ```
#[derive(Clone, Copy, Debug, PartialEq, Eq, Hash)]
#[repr(u16)]
pub enum PtpContainerType {
    /// what the camera is to do
    Command = 1,
    /// what belongs to a command, either way
    Data = 2,
    /// how the camera ended it
    Response = 3,
    /// what the camera tells by itself
    Event = 4,
}

impl PtpContainerType {
    /// The kind of a number, 1 to 4.
    pub fn from_u16(kind: u16) -> Option<PtpContainerType> {
        use PtpContainerType::*;
        [Command, Data, Response, Event].into_iter().find(|&known| known as u16 == kind)
    }
}

/// A container: its kind, code, transaction number and payload.
///
/// ```
/// let s = b"\x0D\0\0\0\x02\0\x16\x10\x07\0\0\0A";
/// let (container, next) = ptp_proved::read_container(s, 0)?;
/// assert_eq!((container.code, container.tid, container.payload, next), (0x1016, 7, &b"A"[..], 13));
/// assert_eq!(container.encode(&mut [0; 16])?, s);
/// # Ok::<(), ptp_proved::Refusal>(())
/// ```
#[derive(Clone, Copy, Debug, PartialEq, Eq, Hash)]
pub struct PtpContainer<'a> {
    /// its kind
    pub kind: PtpContainerType,
    /// the command's or the response's code, by its kind
    pub code: u16,
    /// the transaction number
    pub tid: u32,
    /// what follows its twelve bytes
    pub payload: &'a [u8],
}

/// The container at a place of the bytes, an event's too, and the place after it. Refusals: END for six bytes, KIND, END for twelve, LENGTH,
/// SIZE.
pub fn read_container(s: &[u8], at: usize) -> Result<(PtpContainer<'_>, usize), Refusal> {
    let numbers = archive::read_container(s, at)?;
    let mut row = Row::new(s, &numbers);
    let next = row.size();
    let kind = PtpContainerType::from_u16(row.short()).expect("a container is of kind 1 to 4");
    Ok((PtpContainer { kind, code: row.short(), tid: row.half(), payload: row.part() }, next))
}

impl PtpContainer<'_> {
    /// Its bytes, at the front of the output. Refusals: COUNT, ROOM.
    pub fn encode<'o>(&self, out: &'o mut [u8]) -> Result<&'o [u8], Refusal> {
        let count = archive::write_container(self.kind as u16, self.code, self.tid, self.payload, out)?;
        Ok(&out[..count])
    }
}

/// A container by numbers. Refusals: KIND, COUNT, ROOM.
pub fn write_container<'o>(kind: u16, code: u16, tid: u32, payload: &[u8], out: &'o mut [u8]) -> Result<&'o [u8], Refusal> {
    let count = archive::write_container(kind, code, tid, payload, out)?;
    Ok(&out[..count])
}

/// A record of kind 1 or 2 with the body, which is one container. Refusals: RECORD, LONG; of the container END, KIND, LENGTH, SIZE, TRAIL; ROOM.
pub fn write_record<'o>(kind: u16, body: &[u8], out: &'o mut [u8]) -> Result<&'o [u8], Refusal> {
    let count = archive::write_record(kind, body, out)?;
    Ok(&out[..count])
}

/// A recording in a lent buffer, to which what was sent and received is added.
///
/// A container of more than 65,000 bytes, as a picture's, is no record: it is refused with LONG, unless the recorder was made by
/// [`leaving_out`](Self::leaving_out). Then it is left out and counted, and the Command before it and the Response behind it are kept: a day
/// with pictures is kept by its recording and the pictures' own files.
///
/// ```
/// use ptp_proved::{Recorder, Session};
/// let (mut room, mut out) = ([0; 256], [0; 64]);
/// let mut session = Session::new();
/// let mut recorder = Recorder::new(&mut room);
/// recorder.sent(session.open_session(&mut out)?)?;
/// recorder.received(&[12, 0, 0, 0, 3, 0, 1, 0x20, 0, 0, 0, 0])?;
/// assert_eq!(recorder.bytes().len(), 30 + 18);
/// assert_eq!(recorder.left_out().containers, 0);
/// # Ok::<(), ptp_proved::Refusal>(())
/// ```
pub struct Recorder<'o> {
    room: &'o mut [u8],
    held: usize,
    leaves_out: bool,
    left_out: LeftOut,
}

/// What a [`Recorder::leaving_out`] could not keep: containers of more than 65,000 bytes.
#[derive(Clone, Copy, Debug, Default, PartialEq, Eq, Hash)]
pub struct LeftOut {
    /// how many
    pub containers: usize,
    /// how many bytes they have, headers included
    pub bytes: u64,
}

impl<'o> Recorder<'o> {
    /// An empty recording.
    pub fn new(room: &'o mut [u8]) -> Self {
        Recorder { room, held: 0, leaves_out: false, left_out: LeftOut::default() }
    }

    /// An empty recording from which what is too long for a record is left out: LONG is no refusal then.
    ///
    /// ```
    /// use ptp_proved::{write_container, LeftOut, Recorder, Refusal};
    /// let mut out = vec![0; 65_001];
    /// let picture = write_container(2, 0x1009, 0, &[0; 64_989], &mut out)?;
    /// let (mut room, mut other) = ([0; 64], [0; 64]);
    /// assert_eq!(Recorder::new(&mut room).received(picture), Err(Refusal::LONG));
    /// let mut recorder = Recorder::leaving_out(&mut other);
    /// recorder.received(picture)?;
    /// assert_eq!(recorder.left_out(), LeftOut { containers: 1, bytes: 65_001 });
    /// # Ok::<(), ptp_proved::Refusal>(())
    /// ```
    pub fn leaving_out(room: &'o mut [u8]) -> Self {
        Recorder { leaves_out: true, ..Recorder::new(room) }
    }

    /// All records, end to end.
    pub fn bytes(&self) -> &[u8] {
        &self.room[..self.held]
    }

    /// The same, when no more is to be added: they stay as long as the room is lent.
    pub fn into_bytes(self) -> &'o [u8] {
        &self.room[..self.held]
    }

    /// What was left out so far.
    pub fn left_out(&self) -> LeftOut {
        self.left_out
    }

    /// What was sent: a record of the Command, and one of its Data. Refusals: LONG, ROOM; then neither is kept.
    pub fn sent(&mut self, made: Made<'_>) -> Result<(), Refusal> {
        let before = (self.held, self.left_out);
        self.add(RecordKind::ToCamera, made.command())?;
        if made.data().is_empty() {
            return Ok(());
        }
        self.add(RecordKind::ToCamera, made.data()).map_err(|why| {
            (self.held, self.left_out) = before;
            why
        })
    }

    /// Containers that were received, end to end: a record of each. Refusals: those of the first that is refused; then none is kept.
    pub fn received(&mut self, containers: &[u8]) -> Result<(), Refusal> {
        let (before, mut at) = ((self.held, self.left_out), 0);
        while at < containers.len() {
            let added = read_container(containers, at).and_then(|(_, next)| {
                self.add(RecordKind::FromCamera, &containers[at..next])?;
                Ok(next)
            });
            match added {
                Ok(next) => at = next,
                Err(why) => {
                    (self.held, self.left_out) = before;
                    return Err(why);
                }
            }
        }
        Ok(())
    }

    fn add(&mut self, kind: RecordKind, container: &[u8]) -> Result<(), Refusal> {
        match archive::write_record(kind as u16, container, &mut self.room[self.held..]) {
            Ok(length) => self.held += length,
            Err(Refusal::LONG) if self.leaves_out => {
                self.left_out.containers += 1;
                self.left_out.bytes += container.len() as u64;
            }
            Err(why) => return Err(why),
        }
        Ok(())
    }
}

/// What was recorded, and how much room there is in all.
impl fmt::Debug for Recorder<'_> {
    fn fmt(&self, f: &mut fmt::Formatter<'_>) -> fmt::Result {
        f.debug_struct("Recorder").field("bytes", &self.bytes()).field("room", &self.room.len()).finish()
    }
}

/// Which way a record's container went, or that the record is a note: those are read, and no more written.
///
/// ```
/// use ptp_proved::{read_record, RecordKind};
/// assert_eq!(read_record(b"\x07\0\0\0\x03\0A")?.0.kind, RecordKind::Note);
/// # Ok::<(), ptp_proved::Refusal>(())
/// ```
#[derive(Clone, Copy, Debug, PartialEq, Eq, Hash)]
#[repr(u16)]
pub enum RecordKind {
    /// the container came from the camera
    FromCamera = 1,
    /// it was sent to the camera
    ToCamera = 2,
    /// a note
    Note = 3,
}

/// A record; a note has no container, and any other record's container is its whole body.
///
/// ```
/// let (record, taken) = ptp_proved::read_record(b"\x12\0\0\0\x01\0\x0C\0\0\0\x03\0\x01\x20\0\0\0\0")?;
/// assert_eq!((record.container.unwrap().code, taken), (0x2001, 18));
/// # Ok::<(), ptp_proved::Refusal>(())
/// ```
#[derive(Clone, Copy, Debug, PartialEq, Eq, Hash)]
pub struct PtpRecord<'a> {
    /// its kind
    pub kind: RecordKind,
    /// what follows its six bytes
    pub body: &'a [u8],
    /// the container that its body is
    pub container: Option<PtpContainer<'a>>,
}

/// The record that begins these bytes, and how many it takes. Refusals: END for six bytes, RECORD, LONG, END for the body; then the
/// container's own, END, KIND, LENGTH, SIZE, and TRAIL.
pub fn read_record(s: &[u8]) -> Result<(PtpRecord<'_>, usize), Refusal> {
    let numbers = archive::read_record(s)?;
    let mut row = Row::new(s, &numbers);
    let taken = row.size();
    let kind = match row.word() {
        1 => RecordKind::FromCamera,
        2 => RecordKind::ToCamera,
        _ => RecordKind::Note,
    };
    let body = row.part();
    // a note's container is of kind 0, which there is not
    let container = PtpContainerType::from_u16(row.short()).map(|kind| PtpContainer {
        kind,
        code: row.short(),
        tid: row.half(),
        payload: row.part(),
    });
    Ok((PtpRecord { kind, body, container }, taken))
}

/// How many records a recording has, from its first byte to its last. It can be cut into records in one way only, and the same records in the
/// same order are the same bytes. Refusals: those of the first refused record, an END told by its place in `s`.
pub fn read_recording(s: &[u8]) -> Result<usize, Refusal> {
    archive::read_recording(s).map(|[count]| count as usize)
}

/// The records of a whole recording, which is read to its end first. Refusals: those of [`read_recording`].
///
/// ```
/// let day = b"\x07\0\0\0\x03\0A\x06\0\0\0\x03\0";
/// let bodies: Vec<_> = ptp_proved::records(day)?.map(|record| record.body).collect();
/// assert_eq!(bodies, [&b"A"[..], b""]);
/// # Ok::<(), ptp_proved::Refusal>(())
/// ```
pub fn records(s: &[u8]) -> Result<Records<'_>, Refusal> {
    Ok(Records { left: read_recording(s)?, rest: s })
}

/// A recording's records, one after the other; one step reads one record.
///
/// ```
/// let mut each = ptp_proved::records(b"\x06\0\0\0\x03\0")?;
/// assert_eq!((each.len(), each.next().is_some(), each.next()), (1, true, None));
/// # Ok::<(), ptp_proved::Refusal>(())
/// ```
#[derive(Clone, Debug)]
pub struct Records<'a> {
    left: usize,
    rest: &'a [u8],
}

impl<'a> Iterator for Records<'a> {
    type Item = PtpRecord<'a>;

    fn next(&mut self) -> Option<PtpRecord<'a>> {
        self.left = self.left.checked_sub(1)?;
        let (record, taken) = read_record(self.rest).expect("a record of an accepted recording");
        self.rest = &self.rest[taken..];
        Some(record)
    }

    fn size_hint(&self) -> (usize, Option<usize>) {
        (self.left, Some(self.left))
    }
}

impl ExactSizeIterator for Records<'_> {}

impl core::iter::FusedIterator for Records<'_> {}

/// A recording without its notes, and how many records and bytes, headers included, were left out.
///
/// ```
/// let mut out = [0; 8];
/// let copied = ptp_proved::copy_recording(b"\x07\0\0\0\x03\0A", &mut out)?;
/// assert_eq!((copied.bytes.len(), copied.left_records, copied.left_bytes), (0, 1, 7));
/// # Ok::<(), ptp_proved::Refusal>(())
/// ```
#[derive(Clone, Copy, Debug, PartialEq, Eq, Hash)]
pub struct Copied<'a> {
    /// the records, end to end
    pub bytes: &'a [u8],
    /// how many notes were left out
    pub left_records: usize,
    /// how many bytes those are
    pub left_bytes: usize,
}

/// Copies the records of kinds 1 and 2 of a whole recording, byte for byte and in order, to the front of `out`. Refusals: those of the
/// first refused record, an END told by its place in `s`; then ROOM. A refused copy writes nothing.
pub fn copy_recording<'a>(s: &[u8], out: &'a mut [u8]) -> Result<Copied<'a>, Refusal> {
    let [count, left_records, left_bytes] = archive::copy_recording(s, out)?;
    Ok(Copied { bytes: &out[..count], left_records, left_bytes })
}
