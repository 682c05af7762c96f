//! A controller's day over TCP, by PTP/IP: a camera that is a recording, and a controller.
//!
//!     network camera RECORDING [ADDRESS] [--cut N]
//!         serves one controller; ADDRESS is 127.0.0.1:15740 where none is given, and port 0 a free one; the address is printed.
//!         --cut N sends data in data packets of N bytes, the last in end data
//!     network controller ADDRESS OUT [--packets FILE]
//!         the day of the example `controller`; OUT is written, the recording that it makes.
//!         --packets FILE writes each packet of its transactions as `text2pcap -D` reads it
//!
//! Between containers and packets the proved `to_network` and `from_network` stand. The handshake, and what cuts data into packets, is plain Rust.
mod camera;
mod connection;
mod controller;
#[path = "../day/mod.rs"]
mod day;

use std::process::ExitCode;

/// Takes an option and its value out of the words; no value is an empty one.
fn option(words: &mut Vec<String>, name: &str) -> Option<String> {
    let at = words.iter().position(|word| word == name)?;
    let end = words.len().min(at + 2);
    Some(words.drain(at..end).nth(1).unwrap_or_default())
}

fn main() -> ExitCode {
    let mut words: Vec<_> = std::env::args().skip(1).collect();
    let cut = option(&mut words, "--cut").map(|count| count.parse().unwrap_or(0));
    let packets = option(&mut words, "--packets");
    let words: Vec<_> = words.iter().map(String::as_str).collect();
    match (&words[..], cut, packets.as_deref()) {
        (["camera", ..], Some(0), _) | (["controller", ..], _, Some("")) => usage(),
        (["camera", recording], cut, None) => camera::run(recording, camera::ADDRESS, cut),
        (["camera", recording, address], cut, None) => camera::run(recording, address, cut),
        (["controller", address, out], None, packets) => controller::run(address, out, packets),
        _ => usage(),
    }
}

fn usage() -> ExitCode {
    eprintln!("network camera RECORDING [ADDRESS] [--cut N]\nnetwork controller ADDRESS OUT [--packets FILE]");
    ExitCode::from(2)
}
