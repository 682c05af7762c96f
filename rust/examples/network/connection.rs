//! A connection of PTP/IP: whole packets, and the handshake, which is done by hand and is outside what is proved.
use ptp_proved::{read_packet, to_network, write_container, DataDirection, PtpContainerType, Refusal, StandardResponseCode};
use std::fmt;
use std::io::{self, ErrorKind, Read, Write};
use std::net::{TcpListener, TcpStream};
use std::time::{Duration, Instant};

/// Every wait ends: for a connection, and for bytes.
const LONGEST_WAIT: Duration = Duration::from_secs(30);
/// No packet is longer, and no transaction's packets together are.
pub const MOST_BYTES: usize = 16 << 20;
const PACKET_HEAD: usize = 8;
const POLL: Duration = Duration::from_millis(5);

const INIT_COMMAND_REQUEST: u32 = 1;
const INIT_COMMAND_ACK: u32 = 2;
const INIT_EVENT_REQUEST: u32 = 3;
const INIT_EVENT_ACK: u32 = 4;
const CONNECTION_NUMBER: [u8; 4] = [1, 0, 0, 0];
/// A GUID, the name "PTP" in UTF-16 with its final 0, and version 1.0.
const WHO: &[u8] = b"ptp-proved-bench\x50\0\x54\0\x50\0\0\0\0\0\x01\0";

/// What went wrong: the library's refusal, or the connection.
pub enum Broken {
    Refused(Refusal),
    Lost(String),
}

impl fmt::Display for Broken {
    fn fmt(&self, f: &mut fmt::Formatter<'_>) -> fmt::Result {
        match self {
            Broken::Refused(why) => write!(f, "refusal {}: {why}", why.number()),
            Broken::Lost(how) => f.write_str(how),
        }
    }
}

impl From<Refusal> for Broken {
    fn from(why: Refusal) -> Broken {
        Broken::Refused(why)
    }
}

impl From<String> for Broken {
    fn from(how: String) -> Broken {
        Broken::Lost(how)
    }
}

impl From<io::Error> for Broken {
    fn from(why: io::Error) -> Broken {
        Broken::Lost(match why.kind() {
            ErrorKind::UnexpectedEof | ErrorKind::ConnectionReset | ErrorKind::BrokenPipe => "the connection is lost".into(),
            ErrorKind::WouldBlock | ErrorKind::TimedOut => "the other side is silent".into(),
            _ => format!("the connection: {why}"),
        })
    }
}

/// One of the two connections.
pub struct Connection(TcpStream);

impl Connection {
    fn new(stream: TcpStream) -> Result<Connection, Broken> {
        stream.set_nonblocking(false)?;
        stream.set_read_timeout(Some(LONGEST_WAIT))?;
        stream.set_write_timeout(Some(LONGEST_WAIT))?;
        stream.set_nodelay(true)?;
        Ok(Connection(stream))
    }

    fn accepted(listener: &TcpListener) -> Result<Connection, Broken> {
        listener.set_nonblocking(true)?;
        let begun = Instant::now();
        loop {
            match listener.accept() {
                Err(why) if why.kind() == ErrorKind::WouldBlock && begun.elapsed() < LONGEST_WAIT => std::thread::sleep(POLL),
                other => return Connection::new(other?.0),
            }
        }
    }

    pub fn send(&mut self, packets: &[u8]) -> Result<(), Broken> {
        Ok(self.0.write_all(packets)?)
    }

    /// The next packet, whole.
    pub fn receive(&mut self) -> Result<Vec<u8>, Broken> {
        let mut packet = vec![0; PACKET_HEAD];
        self.0.read_exact(&mut packet)?;
        let length = number_at(&packet, 0) as usize;
        if !(PACKET_HEAD..=MOST_BYTES).contains(&length) {
            return Err(Broken::Lost(format!("a packet of {length} bytes was announced")));
        }
        packet.resize(length, 0);
        self.0.read_exact(&mut packet[PACKET_HEAD..])?;
        Ok(packet)
    }

    /// Waits for what comes next: whether the other side has closed the connection.
    pub fn is_ended(&mut self) -> Result<bool, Broken> {
        match self.0.read(&mut [0]) {
            Err(why) if why.kind() != ErrorKind::ConnectionReset => Err(why.into()),
            came => Ok(came.unwrap_or(0) == 0),
        }
    }

    // What stands behind the head of the next packet, which must be of this kind.
    fn expect(&mut self, kind: u32) -> Result<Vec<u8>, Broken> {
        let packet = self.receive()?;
        match number_at(&packet, 4) {
            other if other != kind => Err(Broken::Lost(format!("a packet of kind {other} came in the handshake"))),
            _ => Ok(packet[PACKET_HEAD..].to_vec()),
        }
    }
}

fn number_at(packet: &[u8], at: usize) -> u32 {
    u32::from_le_bytes([packet[at], packet[at + 1], packet[at + 2], packet[at + 3]])
}

fn packet_of(kind: u32, body: &[u8]) -> Vec<u8> {
    let length = (PACKET_HEAD + body.len()) as u32;
    [&length.to_le_bytes()[..], &kind.to_le_bytes(), body].concat()
}

/// A data packet, of kind 10 or 12.
pub fn data_packet(kind: u32, tid: u32, data: &[u8]) -> Vec<u8> {
    packet_of(kind, &[&tid.to_le_bytes()[..], data].concat())
}

/// The controller's part of the handshake: the connection of commands, and the one of events.
pub fn greet(address: &str) -> Result<(Connection, Connection), Broken> {
    let mut commands = Connection::new(TcpStream::connect(address)?)?;
    commands.send(&packet_of(INIT_COMMAND_REQUEST, WHO))?;
    let ack = commands.expect(INIT_COMMAND_ACK)?;
    let number = ack.get(..4).ok_or_else(|| Broken::Lost("the camera gave no connection number".into()))?;
    let mut events = Connection::new(TcpStream::connect(address)?)?;
    events.send(&packet_of(INIT_EVENT_REQUEST, number))?;
    events.expect(INIT_EVENT_ACK)?;
    Ok((commands, events))
}

/// The camera's part.
pub fn welcome(listener: &TcpListener) -> Result<(Connection, Connection), Broken> {
    let mut commands = Connection::accepted(listener)?;
    commands.expect(INIT_COMMAND_REQUEST)?;
    commands.send(&packet_of(INIT_COMMAND_ACK, &[&CONNECTION_NUMBER, WHO].concat()))?;
    let mut events = Connection::accepted(listener)?;
    if events.expect(INIT_EVENT_REQUEST)? != CONNECTION_NUMBER {
        return Err(Broken::Lost("another connection number came in the handshake".into()));
    }
    events.send(&packet_of(INIT_EVENT_ACK, &[]))?;
    Ok((commands, events))
}

/// The packets that these bytes are, one by one.
pub fn each_packet(mut packets: &[u8]) -> Result<Vec<&[u8]>, Broken> {
    let mut each = vec![];
    while !packets.is_empty() {
        let (one, rest) = packets.split_at(read_packet(packets, 0)?.1);
        each.push(one);
        packets = rest;
    }
    Ok(each)
}

/// Some Response of this number: it makes a transaction of what was sent before the answer is known.
pub fn any_response(tid: u32) -> Result<Vec<u8>, Broken> {
    let mut out = [0; 12];
    Ok(write_container(PtpContainerType::Response as u16, StandardResponseCode::Ok, tid, &[], &mut out)?.to_vec())
}

/// The packets of one transaction's containers.
pub fn packets_of(containers: &[u8], direction: DataDirection) -> Result<Vec<u8>, Broken> {
    let mut out = vec![0; containers.len() + 64]; // three heads grow by less
    Ok(to_network(containers, direction, &mut out)?.to_vec())
}
