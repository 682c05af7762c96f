//! The steps of a controller's day, over any transport: for `controller` and for `network`. The camera is the example's, which is made after ptp
//! 0.5.0 and has its layout of descriptions; an ordinary camera has the book's.
use ptp_proved::*;
use std::fmt::Display;
use std::process::ExitCode;

const LAYOUT: PropLayout = PropLayout::Crate;
pub const UNEXPECTED: &str = "the camera expected something else";

type Step<T, E> = Result<T, Fault<E>>;

/// All that goes to the camera and comes from it is recorded, and it is said where the camera is busy.
struct Heard<'o>(Recorder<'o>);

impl Listener for Heard<'_> {
    fn sent(&mut self, made: Made<'_>) -> Result<(), Refusal> {
        self.0.sent(made)
    }

    fn received(&mut self, containers: &[u8]) -> Result<(), Refusal> {
        self.0.received(containers)
    }

    fn busy(&mut self, _times: u32) {
        println!("the camera is busy");
    }
}

/// The day's camera, over a transport whose faults can be told.
struct Bench<'o, T>(Camera<T, Heard<'o>>);

impl<T: Transport<Error = E>, E: Display + From<String>> Bench<'_, T> {
    fn open(&mut self) -> Step<(), E> {
        self.0.ask(|session, out| session.open_session(out))?;
        let reply = self.0.ask(|session, out| session.get_device_info(out))?;
        let (info, _) = PtpDeviceInfo::decode(reply.payload())?;
        let operations = info.OperationsSupported.len();
        println!("camera {} {} {}, {operations} operations", info.Manufacturer, info.Model, info.SerialNumber);
        Ok(())
    }

    fn storages(&mut self) -> Step<u32, E> {
        let reply = self.0.ask(|session, out| session.get_storageids(out))?;
        let id = storage_ids(reply.payload())?.get(0).ok_or_else(|| told(UNEXPECTED))?;
        let reply = self.0.ask(|session, out| session.get_storage_info(id, out))?;
        let info = storage_info(reply.payload())?;
        println!("storage {id} {}, {} bytes free", info.StorageDescription, info.FreeSpaceInBytes);
        Ok(id)
    }

    fn description(&mut self, property: u16) -> Step<Reply, E> {
        let reply = self.0.ask(|session, out| session.get_device_prop_desc(property, out))?;
        let (info, _) = PtpPropInfo::decode(LAYOUT, reply.payload())?;
        println!("property {:04x} of type {:04x}: {}", info.PropertyCode, info.DataType, info.Current);
        Ok(reply)
    }

    /// The value that follows the current one, set again while the camera is busy.
    fn set_next(&mut self, description: &[u8]) -> Step<(), E> {
        let (info, _) = PtpPropInfo::decode(LAYOUT, description)?;
        let next = info.value_after().ok_or_else(|| told(UNEXPECTED))?;
        println!("set to {next}");
        self.0.retries = u32::MAX;
        let set = self.0.ask(|session, out| session.set_value(LAYOUT, description, info.DataType, &next.to_vec(), out));
        self.0.retries = 0;
        set.map(drop)
    }

    /// The roots of a storage, what each is, and their paths; the handle of the second.
    fn objects(&mut self, storage: u32) -> Step<u32, E> {
        let reply = self.0.ask(|session, out| session.get_objecthandles_root(storage, None, out))?;
        let handles = object_handles(reply.payload())?;
        let mut builder = TableBuilder::new();
        for handle in &handles {
            let reply = self.0.ask(|session, out| session.get_objectinfo(handle, out))?;
            let (info, _) = PtpObjectInfo::decode(reply.payload())?;
            println!("object {handle} {:>14} {} bytes", info.Filename, info.ObjectCompressedSize);
            builder.add_info(handle, &info)?;
        }
        builder.build().map_err(told)?.paths().iter().for_each(|(_, path)| println!("path /{path}"));
        handles.get(1).ok_or_else(|| told(UNEXPECTED))
    }

    /// A command of the maker's own, whose Response is no standard one.
    fn makers_own(&mut self) -> Step<(), E> {
        match self.0.ask(|session, out| session.command(0x9001, &[], out)) {
            Err(Fault::Response(reply)) => {
                println!("response {:04x} {}", reply.code(), StandardResponseCode::name(reply.code()).unwrap_or("has no name"));
                Ok(())
            }
            other => other.map(drop),
        }
    }

    fn day(&mut self) -> Step<(), E> {
        self.open()?;
        let storage = self.storages()?;
        let descriptions = [self.description(0x5001)?, self.description(0x500D)?, self.description(0xD005)?];
        self.set_next(descriptions[1].payload())?;
        let first = self.objects(storage)?;
        let picture = self.0.ask(|session, out| session.get_object(first, out))?;
        println!("object {first}: {} bytes came", picture.payload().len());
        self.makers_own()?;
        self.0.ask(|session, out| session.close_session(out)).map(drop)
    }
}

fn told<E: From<String>>(why: impl Display) -> Fault<E> {
    Fault::Transport(why.to_string().into())
}

/// The whole day, told line by line: what was sent and received goes to the file, and its listing is printed last.
pub fn run<E: Display + From<String>>(transport: impl Transport<Error = E>, out: &str) -> ExitCode {
    let mut room = vec![0; 65536];
    let mut bench = Bench(Camera::new(transport, Heard(Recorder::new(&mut room))));
    if let Err(why) = bench.day() {
        eprintln!("{why}");
        return ExitCode::FAILURE;
    }
    let recording = bench.0.listener.0.bytes();
    std::fs::write(out, recording).expect("the recording is written");
    list_recording(recording, |piece| print!("{}", std::str::from_utf8(piece).expect("a listing is ASCII")));
    ExitCode::SUCCESS
}
