//! Commands of a session, and the search for an answer.
use crate::archive;
use crate::array::PtpArray;
use crate::code::{StandardCommandCode, StandardResponseCode};
use crate::dataset::Row;
use crate::property::PropLayout;
use crate::refusal::Refusal;

/// A command that was made: the number that it was sent with, which its answer carries, and its bytes.
///
/// ```
/// let mut out = [0; 64];
/// let made = ptp_proved::Session::at(7).command_with_data(0x1016, &[0x500D], b"AB", &mut out)?;
/// assert_eq!((made.number, made.command().len(), made.data().len()), (7, 16, 14));
/// # Ok::<(), ptp_proved::Refusal>(())
/// ```
#[derive(Clone, Copy, Debug, PartialEq, Eq, Hash)]
pub struct Made<'o> {
    /// the number that it was sent with
    pub number: u32,
    /// all its bytes
    pub bytes: &'o [u8],
    end: usize,
}

impl<'o> Made<'o> {
    // A command's bytes tell its number.
    fn of((count, end): (usize, usize), out: &'o [u8]) -> Made<'o> {
        let bytes = &out[..count];
        Made { number: u32::from_le_bytes([bytes[8], bytes[9], bytes[10], bytes[11]]), bytes, end }
    }

    /// The Command container: one transfer to the camera, and one record of a recording.
    pub fn command(&self) -> &'o [u8] {
        &self.bytes[..self.end]
    }

    /// The Data container behind it: another transfer, and another record. Empty where the command has no data.
    pub fn data(&self) -> &'o [u8] {
        &self.bytes[self.end..]
    }
}

/// Counts a session's transaction numbers. Its state is one number: 0 where it is closed, as a fresh one is, else the next command's.
///
/// OpenSession is sent with 0, and 1 comes next, also where the session is open. A closed session sends any other command with 0, and stays
/// closed. An open one sends its number: CloseSession closes it, after any other comes one more, and 1 after 4,294,967,294 or above. Both
/// commands are known by their code. A refused command leaves the state. The number that was sent is `Made::number`.
///
/// ```
/// let (mut session, mut out) = (ptp_proved::Session::new(), [0; 64]);
/// assert_eq!(session.open_session(&mut out)?.number, 0);
/// assert_eq!(session.get_storageids(&mut out)?.number, 1);
/// assert_eq!(session.number(), 2);
/// # Ok::<(), ptp_proved::Refusal>(())
/// ```
#[derive(Clone, Debug, Default, PartialEq, Eq, Hash)]
pub struct Session {
    number: u32,
}

impl Session {
    /// A fresh session, which is closed.
    pub const fn new() -> Session {
        Session::at(0)
    }

    /// An open session that goes on at a number; at 0 a closed one.
    pub const fn at(number: u32) -> Session {
        Session { number }
    }

    /// The number of the next command, unless that is OpenSession, which has 0; 0 where the session is closed.
    pub const fn number(&self) -> u32 {
        self.number
    }

    /// A Command container at the front of the output. Refusals: COUNT for more than five parameters, ROOM.
    pub fn command<'o>(&mut self, code: u16, params: &[u32], out: &'o mut [u8]) -> Result<Made<'o>, Refusal> {
        self.make(code, params, None, out)
    }

    /// A Command container and, right behind it, the Data container with its data. Refusals: COUNT for either, ROOM for both together.
    pub fn command_with_data<'o>(
        &mut self,
        code: u16,
        params: &[u32],
        data: &[u8],
        out: &'o mut [u8],
    ) -> Result<Made<'o>, Refusal> {
        self.make(code, params, Some(data), out)
    }

    /// SetDevicePropValue of a value that a property's description allows, with the value's tidy spelling as its data. `code` is the value's
    /// type; the description, of the layout that is named, begins its bytes. Refusals: END and TEXT of the description; TYPE; END, TEXT and
    /// TRAIL of the value, which must fill its bytes; VALUE where the description's form does not allow it; COUNT, ROOM.
    ///
    /// It looks at the form alone: a property that is read-only (`GetSet` 0) or disabled is sent too, and the camera answers. Each call reads the
    /// description anew, and looks for the value in its list.
    pub fn set_value<'o>(
        &mut self,
        layout: PropLayout,
        description: &[u8],
        code: u16,
        value: &[u8],
        out: &'o mut [u8],
    ) -> Result<Made<'o>, Refusal> {
        let made = archive::set_value(layout.is_book(), &mut self.number, description, code, value, out)?;
        Ok(Made::of(made, out))
    }

    fn make<'o>(&mut self, code: u16, params: &[u32], data: Option<&[u8]>, out: &'o mut [u8]) -> Result<Made<'o>, Refusal> {
        let made = archive::command(&mut self.number, code, params, data, out)?;
        Ok(Made::of(made, out))
    }
}

/// The commands of the camera calls. A filter of `None` is sent as 0; the handle of the roots is 0xFFFFFFFF, that of all objects 0.
impl Session {
    /// Asks what the camera is: [`PtpDeviceInfo::decode`](crate::PtpDeviceInfo::decode) reads the payload. Refusal: ROOM.
    pub fn get_device_info<'o>(&mut self, out: &'o mut [u8]) -> Result<Made<'o>, Refusal> {
        self.command(StandardCommandCode::GetDeviceInfo, &[0, 0, 0], out)
    }

    /// Opens session 3. Refusal: ROOM.
    pub fn open_session<'o>(&mut self, out: &'o mut [u8]) -> Result<Made<'o>, Refusal> {
        self.command(StandardCommandCode::OpenSession, &[3, 0, 0], out)
    }

    /// Closes the session. Refusal: ROOM.
    pub fn close_session<'o>(&mut self, out: &'o mut [u8]) -> Result<Made<'o>, Refusal> {
        self.command(StandardCommandCode::CloseSession, &[], out)
    }

    /// Asks for the storages: [`storage_ids`](crate::storage_ids) reads the payload. Refusal: ROOM.
    pub fn get_storageids<'o>(&mut self, out: &'o mut [u8]) -> Result<Made<'o>, Refusal> {
        self.command(StandardCommandCode::GetStorageIDs, &[], out)
    }

    /// Asks what a storage is: [`storage_info`](crate::storage_info) reads the payload. Refusal: ROOM.
    pub fn get_storage_info<'o>(&mut self, storage_id: u32, out: &'o mut [u8]) -> Result<Made<'o>, Refusal> {
        self.command(StandardCommandCode::GetStorageInfo, &[storage_id], out)
    }

    /// Asks how many objects stand in a folder: [`object_count`](crate::object_count) reads the payload. Refusal: ROOM.
    pub fn get_numobjects<'o>(
        &mut self,
        storage_id: u32,
        handle_id: u32,
        filter: Option<u32>,
        out: &'o mut [u8],
    ) -> Result<Made<'o>, Refusal> {
        self.command(StandardCommandCode::GetNumObjects, &[storage_id, filter.unwrap_or(0), handle_id], out)
    }

    /// Asks for the handles of those in a folder: [`object_handles`](crate::object_handles) reads the payload. Refusal: ROOM.
    pub fn get_objecthandles<'o>(
        &mut self,
        storage_id: u32,
        handle_id: u32,
        filter: Option<u32>,
        out: &'o mut [u8],
    ) -> Result<Made<'o>, Refusal> {
        self.command(StandardCommandCode::GetObjectHandles, &[storage_id, filter.unwrap_or(0), handle_id], out)
    }

    /// Asks how many objects the storage has in all: [`object_count`](crate::object_count) reads the payload. Refusal: ROOM.
    pub fn get_numobjects_all<'o>(&mut self, storage_id: u32, filter: Option<u32>, out: &'o mut [u8]) -> Result<Made<'o>, Refusal> {
        self.get_numobjects(storage_id, 0, filter, out)
    }

    /// Asks how many of them stand in no folder: [`object_count`](crate::object_count) reads the payload. Refusal: ROOM.
    pub fn get_numobjects_roots<'o>(
        &mut self,
        storage_id: u32,
        filter: Option<u32>,
        out: &'o mut [u8],
    ) -> Result<Made<'o>, Refusal> {
        self.get_numobjects(storage_id, 0xFFFFFFFF, filter, out)
    }

    /// Asks for the handles of all objects of the storage: [`object_handles`](crate::object_handles) reads the payload. Refusal: ROOM.
    pub fn get_objecthandles_all<'o>(
        &mut self,
        storage_id: u32,
        filter: Option<u32>,
        out: &'o mut [u8],
    ) -> Result<Made<'o>, Refusal> {
        self.get_objecthandles(storage_id, 0, filter, out)
    }

    /// Asks for the handles of those that stand in no folder: [`object_handles`](crate::object_handles) reads the payload. Refusal: ROOM.
    pub fn get_objecthandles_root<'o>(
        &mut self,
        storage_id: u32,
        filter: Option<u32>,
        out: &'o mut [u8],
    ) -> Result<Made<'o>, Refusal> {
        self.get_objecthandles(storage_id, 0xFFFFFFFF, filter, out)
    }

    /// Asks what an object is: [`PtpObjectInfo::decode`](crate::PtpObjectInfo::decode) reads the payload. Refusal: ROOM.
    pub fn get_objectinfo<'o>(&mut self, handle: u32, out: &'o mut [u8]) -> Result<Made<'o>, Refusal> {
        self.command(StandardCommandCode::GetObjectInfo, &[handle], out)
    }

    /// Asks for an object's bytes, which are the payload. Refusal: ROOM.
    pub fn get_object<'o>(&mut self, handle: u32, out: &'o mut [u8]) -> Result<Made<'o>, Refusal> {
        self.command(StandardCommandCode::GetObject, &[handle], out)
    }

    /// Asks for an object's thumbnail, whose bytes are the payload. Refusal: ROOM.
    pub fn get_thumb<'o>(&mut self, handle: u32, out: &'o mut [u8]) -> Result<Made<'o>, Refusal> {
        self.command(StandardCommandCode::GetThumb, &[handle], out)
    }

    /// Deletes an object. Refusal: ROOM.
    pub fn delete_object<'o>(&mut self, handle: u32, out: &'o mut [u8]) -> Result<Made<'o>, Refusal> {
        self.command(StandardCommandCode::DeleteObject, &[handle], out)
    }

    /// Asks for a property's description: [`PtpPropInfo::decode`](crate::PtpPropInfo::decode) reads the payload. Refusal: ROOM.
    pub fn get_device_prop_desc<'o>(&mut self, property: u16, out: &'o mut [u8]) -> Result<Made<'o>, Refusal> {
        self.command(StandardCommandCode::GetDevicePropDesc, &[property.into()], out)
    }

    /// Asks for a property's value: [`PtpReader::read_type`](crate::PtpReader::read_type) reads the payload by the description's type.
    /// Refusal: ROOM.
    pub fn get_device_prop_value<'o>(&mut self, property: u16, out: &'o mut [u8]) -> Result<Made<'o>, Refusal> {
        self.command(StandardCommandCode::GetDevicePropValue, &[property.into()], out)
    }

    /// Sets a property to the bytes of a value, which are not looked at: [`set_value`](Self::set_value) asks the description first. Refusals:
    /// COUNT, ROOM.
    pub fn set_device_prop_value<'o>(&mut self, property: u16, value: &[u8], out: &'o mut [u8]) -> Result<Made<'o>, Refusal> {
        self.command_with_data(StandardCommandCode::SetDevicePropValue, &[property.into()], value, out)
    }
}

/// How a camera answered.
///
/// ```
/// use ptp_proved::{find_answer, Answer};
/// let busy = b"\x0C\0\0\0\x03\0\x19\x20\x07\0\0\0";
/// assert_eq!(find_answer(busy, 7)?, (Answer::Response(0x2019), 12));
/// # Ok::<(), ptp_proved::Refusal>(())
/// ```
#[derive(Clone, Copy, Debug, PartialEq, Eq, Hash)]
pub enum Answer<'a> {
    /// Response Ok: the payload of the last Data container, and where it starts; empty and 0 without Data
    Data {
        /// where the payload starts in the bytes
        start: usize,
        /// the payload
        payload: &'a [u8],
    },
    /// another Response, with its code
    Response(u16),
}

/// The answer to the command of this number, in containers that lie end to end from the start of these bytes; and the place after it.
/// Refusals, container by container: END, KIND, LENGTH, SIZE, TID; NOPHASE where the bytes end at a container's start.
pub fn find_answer(s: &[u8], number: u32) -> Result<(Answer<'_>, usize), Refusal> {
    let [next, code, start, length] = archive::find_answer(s, number)?;
    let answer = match code as u16 {
        StandardResponseCode::Ok => Answer::Data { start: start as usize, payload: Row::new(s, &[start, length]).part() },
        other => Answer::Response(other),
    };
    Ok((answer, next as usize))
}

/// The Response to the command of this number, with its parameters; `find_answer` gives the payload of its Data.
///
/// ```
/// let s = b"\x10\0\0\0\x03\0\x1D\x20\x07\0\0\0\x09\0\0\0";
/// let (response, next) = ptp_proved::find_response(s, 7)?;
/// assert_eq!((response.code, response.parameters.get(0), next), (0x201D, Some(9), 16));
/// # Ok::<(), ptp_proved::Refusal>(())
/// ```
#[derive(Clone, Copy, Debug, PartialEq, Eq, Hash)]
pub struct PtpResponse<'a> {
    /// its code
    pub code: u16,
    /// its parameters: PIMA has at most five, and more are given as they stand
    pub parameters: PtpArray<'a, u32>,
    /// where they start in the bytes
    pub start: usize,
}

/// The same search as [`find_answer`]'s, with the same refusals.
pub fn find_response(s: &[u8], number: u32) -> Result<(PtpResponse<'_>, usize), Refusal> {
    let [next, code, _, _, start, count] = archive::find_response(s, number)?.map(|number| number as usize);
    let parameters = PtpArray::new(&s[start..start + 4 * count]);
    Ok((PtpResponse { code: code as u16, parameters, start }, next))
}

/// How many bytes the answer to the command of this number still needs, of containers that lie end to end: the least that must follow
/// before anything can be said of it. 0 where [`find_answer`] answers, or refuses for good. Proved.
///
/// ```
/// assert_eq!(ptp_proved::needed(&[], 7), 6); // a container's kind could be refused then
/// assert_eq!(ptp_proved::needed(&[20, 0, 0, 0, 2, 0], 7), 14); // the rest of what it announces
/// assert_eq!(ptp_proved::needed(b"\x0C\0\0\0\x03\0\x01\x20\x07\0\0\0", 7), 0);
/// ```
pub fn needed(s: &[u8], number: u32) -> usize {
    archive::needed(s, number)
}
