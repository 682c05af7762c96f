//! One exchange with a camera: a command sent, its answer gathered and found. Plain Rust over proved calls.
use crate::archive;
use crate::array::PtpArray;
use crate::code::StandardResponseCode;
use crate::record::{read_container, PtpContainer, PtpContainerType, Recorder};
use crate::refusal::Refusal;
use crate::session::{needed, Made, Session};
use alloc::vec;
use alloc::vec::Vec;
use core::fmt;
use core::ops::Range;

/// What carries bytes to a camera and back.
pub trait Transport {
    /// what can fail there
    type Error;

    /// Sends one container as one transfer.
    fn send(&mut self, container: &[u8]) -> Result<(), Self::Error>;

    /// Receives one transfer, or a part of one, to the front of the buffer, and tells how many bytes came. The buffer's length is a multiple
    /// of 1,024: over USB no packet is cut. No bytes are a transfer too; two such in a row end the exchange.
    fn receive(&mut self, buffer: &mut [u8]) -> Result<usize, Self::Error>;
}

/// Who hears what goes to a camera and comes from it. Each call may be left out. [`Recorder`] records it, `()` hears nothing.
pub trait Listener {
    /// A command was sent. A refusal ends the exchange.
    fn sent(&mut self, _made: Made<'_>) -> Result<(), Refusal> {
        Ok(())
    }

    /// Whole containers came, end to end: those of one answer, with the events before and right behind its Response. A refusal ends the exchange.
    fn received(&mut self, _containers: &[u8]) -> Result<(), Refusal> {
        Ok(())
    }

    /// An event stood among them.
    fn event(&mut self, _event: PtpContainer<'_>) {}

    /// The camera was busy, for the n-th time: the command is made and sent anew when this returns.
    fn busy(&mut self, _times: u32) {}
}

impl Listener for () {}

impl Listener for Recorder<'_> {
    fn sent(&mut self, made: Made<'_>) -> Result<(), Refusal> {
        Recorder::sent(self, made)
    }

    fn received(&mut self, containers: &[u8]) -> Result<(), Refusal> {
        Recorder::received(self, containers)
    }
}

/// A camera's answer: its Response, and the payload of its Data.
#[derive(Clone, PartialEq, Eq)]
pub struct Reply {
    containers: Vec<u8>,
    code: u16,
    payload: Range<usize>,
    parameters: Range<usize>,
}

impl Reply {
    /// The Response's code.
    pub fn code(&self) -> u16 {
        self.code
    }

    /// The payload of the last Data container; empty without one, and where the Response is not Ok.
    pub fn payload(&self) -> &[u8] {
        &self.containers[self.payload.clone()]
    }

    /// The Response's parameters.
    pub fn parameters(&self) -> PtpArray<'_, u32> {
        PtpArray::new(&self.containers[self.parameters.clone()])
    }
}

impl fmt::Debug for Reply {
    fn fmt(&self, f: &mut fmt::Formatter<'_>) -> fmt::Result {
        f.debug_struct("Reply")
            .field("code", &self.code)
            .field("payload", &self.payload())
            .field("parameters", &self.parameters())
            .finish()
    }
}

/// Why an exchange gave no payload.
#[derive(Clone, Debug, PartialEq, Eq)]
pub enum Fault<E> {
    /// the command could not be made, the answer is none, or a listener refused
    Refused(Refusal),
    /// a Response other than Ok
    Response(Reply),
    /// the transport failed
    Transport(E),
    /// two transfers in a row had no bytes
    Silent,
}

impl<E> From<Refusal> for Fault<E> {
    fn from(why: Refusal) -> Self {
        Fault::Refused(why)
    }
}

impl<E: fmt::Display> fmt::Display for Fault<E> {
    fn fmt(&self, f: &mut fmt::Formatter<'_>) -> fmt::Result {
        match self {
            Fault::Refused(why) => write!(f, "refusal {}: {why}", why.number()),
            Fault::Response(reply) => write!(f, "response {:04x}", reply.code),
            Fault::Transport(why) => why.fmt(f),
            Fault::Silent => f.write_str("the camera sends nothing"),
        }
    }
}

// What one receive asks for: no less than the first, and no more than the second, whatever length a container announces.
const LEAST: usize = 65_536;
const MOST: usize = 1_048_576;

/// A camera: a session over a transport. [`ask`](Self::ask) is one exchange.
///
/// ```
/// use ptp_proved::{object_handles, Camera, Transport};
/// /// A camera with one object.
/// struct One;
/// impl Transport for One {
///     type Error = ();
///     fn send(&mut self, _: &[u8]) -> Result<(), ()> {
///         Ok(())
///     }
///     fn receive(&mut self, buffer: &mut [u8]) -> Result<usize, ()> {
///         let answer = b"\x14\0\0\0\x02\0\x07\x10\0\0\0\0\x01\0\0\0\x09\0\0\0\x0C\0\0\0\x03\0\x01\x20\0\0\0\0";
///         buffer[..answer.len()].copy_from_slice(answer);
///         Ok(answer.len())
///     }
/// }
/// let mut camera = Camera::new(One, ());
/// let reply = camera.ask(|session, out| session.get_objecthandles_all(1, None, out)).unwrap();
/// assert_eq!(object_handles(reply.payload()).unwrap().get(0), Some(9));
/// ```
#[derive(Debug)]
pub struct Camera<T, L = ()> {
    /// what carries the bytes
    pub transport: T,
    /// who hears them
    pub listener: L,
    /// the transaction numbers
    pub session: Session,
    /// how often a command is sent again where the camera is busy; at first not at all
    pub retries: u32,
    made: Vec<u8>,
    came: Vec<u8>,
}

impl<T: Transport, L: Listener> Camera<T, L> {
    /// A camera with a fresh session.
    pub fn new(transport: T, listener: L) -> Self {
        Camera { transport, listener, session: Session::new(), retries: 0, made: vec![0; 1024], came: Vec::new() }
    }

    /// Room for a command with so many bytes of data; there is always room for 900.
    pub fn make_room(&mut self, data: usize) {
        self.made.resize(data.max(900) + 124, 0);
    }

    /// Makes a command, sends it, with its data as a second transfer, and gathers until the answer is whole. A Response other than Ok is a
    /// [`Fault::Response`]. A busy camera is asked again up to `retries` times, each time by a new command.
    pub fn ask<F>(&mut self, make: F) -> Result<Reply, Fault<T::Error>>
    where
        F: for<'o> Fn(&mut Session, &'o mut [u8]) -> Result<Made<'o>, Refusal>,
    {
        let mut times = 0;
        loop {
            match self.ask_once(&make) {
                Err(Fault::Response(reply)) if reply.code == StandardResponseCode::DeviceBusy && times < self.retries => {
                    times += 1;
                    self.listener.busy(times);
                }
                other => return other,
            }
        }
    }

    fn ask_once<F>(&mut self, make: &F) -> Result<Reply, Fault<T::Error>>
    where
        F: for<'o> Fn(&mut Session, &'o mut [u8]) -> Result<Made<'o>, Refusal>,
    {
        let made = make(&mut self.session, &mut self.made)?;
        self.listener.sent(made)?;
        self.transport.send(made.command()).map_err(Fault::Transport)?;
        if !made.data().is_empty() {
            self.transport.send(made.data()).map_err(Fault::Transport)?;
        }
        let number = made.number;
        self.gather(number)?;
        let reply = self.take_reply(number)?;
        if reply.code == StandardResponseCode::Ok {
            Ok(reply)
        } else {
            Err(Fault::Response(reply))
        }
    }

    // Receives until nothing more is needed. What came is lost where the transport fails.
    fn gather(&mut self, number: u32) -> Result<(), Fault<T::Error>> {
        let mut silent = false;
        loop {
            let held = self.came.len();
            let needed = needed(&self.came, number);
            if needed == 0 {
                return Ok(());
            }
            let room = (needed.min(MOST).max(LEAST) + 1023) / 1024 * 1024;
            self.came.resize(held + room, 0);
            let received = self.transport.receive(&mut self.came[held..]);
            let count = received.as_ref().map_or(0, |&count| count.min(room));
            self.came.truncate(held + count);
            if let Err(why) = received {
                self.came.clear();
                return Err(Fault::Transport(why));
            }
            if count == 0 && silent {
                self.came.clear();
                return Err(Fault::Silent);
            }
            silent = count == 0;
        }
    }

    // The answer out of what came, with the events right behind it; what follows is the next one's.
    fn take_reply(&mut self, number: u32) -> Result<Reply, Fault<T::Error>> {
        let mut containers = core::mem::take(&mut self.came);
        let heard = |listener: &mut L, bytes: &[u8]| listener.received(bytes);
        let [next, code, start, length, params, count] = match archive::find_response(&containers, number) {
            Ok(numbers) => numbers.map(|number| number as usize),
            Err(why) => {
                // what the camera sent in its place is still heard
                let _ = heard(&mut self.listener, &containers);
                return Err(why.into());
            }
        };
        self.came = containers.split_off(events_end(&containers, next));
        heard(&mut self.listener, &containers)?;
        self.tell_events(&containers)?;
        Ok(Reply { containers, code: code as u16, payload: start..start + length, parameters: params..params + 4 * count })
    }

    fn tell_events(&mut self, containers: &[u8]) -> Result<(), Refusal> {
        let mut at = 0;
        while at < containers.len() {
            let (container, next) = read_container(containers, at)?;
            if container.kind == PtpContainerType::Event {
                self.listener.event(container);
            }
            at = next;
        }
        Ok(())
    }
}

// The place after the events that stand from a place on.
fn events_end(containers: &[u8], mut at: usize) -> usize {
    while let Ok((PtpContainer { kind: PtpContainerType::Event, .. }, next)) = read_container(containers, at) {
        at = next;
    }
    at
}
