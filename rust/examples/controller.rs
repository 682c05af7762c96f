//! A controller's day against a camera that is a recording: what is sent must be what stands there, and what stands behind it comes back.
//!
//!     controller CAMERA OUT      CAMERA is a recording of a day; OUT is written, the recording that the controller makes
//!
//! c/controller.c is the same in C. Nothing here reads or writes a byte of the protocol by hand.
mod day;

use ptp_proved::*;
use std::process::ExitCode;

/// The records of a day that are still to come. They are read one by one, so that what stands before damage is still answered.
struct Recorded<'a> {
    day: &'a [u8],
}

impl<'a> Recorded<'a> {
    fn peek(&self) -> Result<Option<(PtpRecord<'a>, &'a [u8])>, String> {
        if self.day.is_empty() {
            return Ok(None);
        }
        let (record, taken) = read_record(self.day).map_err(refused)?;
        Ok(Some((record, &self.day[taken..])))
    }
}

fn refused(why: Refusal) -> String {
    format!("refusal {}: {why}", why.number())
}

impl Transport for Recorded<'_> {
    type Error = String;

    /// The next container to the camera must be this one; notes are passed over.
    fn send(&mut self, container: &[u8]) -> Result<(), String> {
        while let Some((record, rest)) = self.peek()? {
            self.day = rest;
            if record.kind == RecordKind::ToCamera && record.body == container {
                return Ok(());
            }
            if record.kind != RecordKind::Note {
                break;
            }
        }
        Err(day::UNEXPECTED.into())
    }

    /// Of the containers that come until the next one to the camera, as many as there is room for. Where none is left, no Response comes.
    fn receive(&mut self, buffer: &mut [u8]) -> Result<usize, String> {
        let mut held = 0;
        while let Some((record, rest)) = self.peek()? {
            if record.kind == RecordKind::ToCamera || record.body.len() > buffer.len() - held {
                break;
            }
            self.day = rest;
            if record.kind == RecordKind::FromCamera {
                buffer[held..held + record.body.len()].copy_from_slice(record.body);
                held += record.body.len();
            }
        }
        if held == 0 {
            return Err(refused(Refusal::NOPHASE));
        }
        Ok(held)
    }
}

fn main() -> ExitCode {
    let words: Vec<_> = std::env::args().skip(1).collect();
    let (camera, out) = match &words[..] {
        [camera, out] => (camera, out),
        _ => {
            eprintln!("controller CAMERA OUT");
            return ExitCode::from(2);
        }
    };
    let day = std::fs::read(camera).expect("the camera's recording");
    day::run(Recorded { day: &day }, out)
}
