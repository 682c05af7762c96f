//! One transaction on the network: the packets of PTP/IP.
use crate::archive;
use crate::dataset::Row;
use crate::refusal::Refusal;

/// Where a transaction's data goes. Of a transaction without data either may be named.
#[derive(Clone, Copy, Debug, PartialEq, Eq, Hash)]
pub enum DataDirection {
    /// from the camera
    FromCamera,
    /// to the camera
    ToCamera,
}

/// A packet of a transaction. Parameters are the bytes of whole u32s, as a container's payload has them.
///
/// ```
/// use ptp_proved::{read_packet, PtpPacket};
/// let (packet, next) = read_packet(b"\x0E\0\0\0\x07\0\0\0\x01\x20\x05\0\0\0", 0)?;
/// assert_eq!((packet, next), (PtpPacket::Response { code: 0x2001, tid: 5, params: &[] }, 14));
/// # Ok::<(), ptp_proved::Refusal>(())
/// ```
#[derive(Clone, Copy, Debug, PartialEq, Eq, Hash)]
pub enum PtpPacket<'a> {
    /// kind 6: what the camera is to do
    Request {
        /// 2 where data goes to the camera, 1 where none does
        phase: u32,
        /// the command's code
        code: u16,
        /// the transaction number
        tid: u32,
        /// its parameters
        params: &'a [u8],
    },
    /// kind 7: how the camera ended it
    Response {
        /// the response's code
        code: u16,
        /// the transaction number
        tid: u32,
        /// its parameters
        params: &'a [u8],
    },
    /// kind 9: data follows
    StartData {
        /// the transaction number
        tid: u32,
        /// how many bytes of data follow in all
        total: u64,
    },
    /// kind 10: a piece of the data, and not the last
    Data {
        /// the transaction number
        tid: u32,
        /// the piece
        data: &'a [u8],
    },
    /// kind 12: the last piece of the data
    EndData {
        /// the transaction number
        tid: u32,
        /// the piece, which may be empty
        data: &'a [u8],
    },
}

/// The packet at a place of the bytes, and the place after it. Refusals: END for eight bytes, PACKET, FIELDS, END for the rest.
pub fn read_packet(s: &[u8], at: usize) -> Result<(PtpPacket<'_>, usize), Refusal> {
    let numbers = archive::read_packet(s, at)?;
    let mut row = Row::new(s, &numbers);
    let (next, kind, phase) = (row.size(), row.word(), row.half());
    let (code, tid, total, bytes) = (row.short(), row.half(), row.word(), row.part());
    let packet = match kind {
        6 => PtpPacket::Request { phase, code, tid, params: bytes },
        7 => PtpPacket::Response { code, tid, params: bytes },
        9 => PtpPacket::StartData { tid, total },
        10 => PtpPacket::Data { tid, data: bytes },
        _ => PtpPacket::EndData { tid, data: bytes },
    };
    Ok((packet, next))
}

/// One transaction's containers, end to end, as packets at the front of the output: a Command, at most one Data with its code, a Response,
/// all of one number, and nothing behind. All data goes in the end data packet. Refusals: of the first container that is refused END, KIND, END,
/// LENGTH, SIZE; then TRANSACTION, TID, ROOM.
///
/// What stands before the response packet does not depend on the Response. So a controller puts any Response of its number behind what it sends,
/// and sends the packets but the last.
///
/// ```
/// use ptp_proved::{from_network, to_network, DataDirection};
/// let containers = b"\x0C\0\0\0\x01\0\x01\x10\x05\0\0\0\x0C\0\0\0\x03\0\x01\x20\x05\0\0\0";
/// let (mut out, mut back) = ([0; 64], [0; 64]);
/// let packets = to_network(containers, DataDirection::FromCamera, &mut out)?;
/// assert_eq!(packets.len(), 18 + 14);
/// assert_eq!(from_network(packets, &mut back)?, containers);
/// # Ok::<(), ptp_proved::Refusal>(())
/// ```
pub fn to_network<'o>(s: &[u8], direction: DataDirection, out: &'o mut [u8]) -> Result<&'o [u8], Refusal> {
    let count = archive::to_network(s, direction == DataDirection::ToCamera, out)?;
    Ok(&out[..count])
}

/// One transaction's packets, end to end, as containers at the front of the output. Its data may be cut into any data packets. Refusals: of the
/// first packet that is refused END, PACKET, FIELDS, END; then TRANSACTION, FIELDS where the data is not as long as announced, TID, COUNT, ROOM.
pub fn from_network<'o>(s: &[u8], out: &'o mut [u8]) -> Result<&'o [u8], Refusal> {
    let count = archive::from_network(s, out)?;
    Ok(&out[..count])
}
