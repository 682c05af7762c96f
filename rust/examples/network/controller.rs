//! The controller's side.
use crate::connection::{any_response, each_packet, greet, packets_of, Broken, Connection, MOST_BYTES};
use crate::day;
use ptp_proved::{from_network, read_container, read_packet, DataDirection, PtpPacket, Transport};
use std::fmt::Write;
use std::process::ExitCode;

struct Network {
    commands: Connection,
    _events: Connection,
    kept: Kept,
    /// the Command, and its Data behind it, until the answer is asked for: both are needed to make the packets
    asked: Vec<u8>,
    /// what came of the answer and was not taken yet
    answer: Vec<u8>,
}

/// Each packet as `text2pcap -D` reads it, kept for a file.
struct Kept {
    file: Option<String>,
    text: String,
}

impl Kept {
    fn add(&mut self, way: char, packet: &[u8]) {
        self.text.push(way);
        for (line, bytes) in packet.chunks(16).enumerate() {
            write!(self.text, "\n{:06x}", 16 * line).expect("a string grows");
            bytes.iter().for_each(|byte| write!(self.text, " {byte:02x}").expect("a string grows"));
        }
        self.text.push('\n');
    }
}

impl Drop for Kept {
    fn drop(&mut self) {
        if let Some(file) = &self.file {
            std::fs::write(file, &self.text).expect("the packets are written");
        }
    }
}

impl Network {
    /// What stands before the response packet does not depend on the Response: so any Response is put behind, and its packet not sent.
    fn send_packets(&mut self) -> Result<Vec<u8>, Broken> {
        let (command, end) = read_container(&self.asked, 0)?;
        let direction = if end < self.asked.len() { DataDirection::ToCamera } else { DataDirection::FromCamera };
        let packets = packets_of(&[&self.asked[..], &any_response(command.tid)?].concat(), direction)?;
        let mut sent = each_packet(&packets)?;
        sent.pop();
        let sent_bytes = sent.concat();
        sent.into_iter().for_each(|packet| self.kept.add('O', packet));
        self.commands.send(&sent_bytes)?;
        Ok(sent_bytes)
    }

    /// All packets up to the response, behind those that were sent.
    fn receive_packets(&mut self, mut packets: Vec<u8>) -> Result<Vec<u8>, Broken> {
        loop {
            let packet = self.commands.receive()?;
            self.kept.add('I', &packet);
            packets.extend_from_slice(&packet);
            if packets.len() > MOST_BYTES {
                return Err(Broken::Lost("too many bytes came".into()));
            }
            if let PtpPacket::Response { .. } = read_packet(&packet, 0)?.0 {
                return Ok(packets);
            }
        }
    }
}

impl Transport for Network {
    type Error = Broken;

    fn send(&mut self, container: &[u8]) -> Result<(), Broken> {
        self.asked.extend_from_slice(container);
        Ok(())
    }

    fn receive(&mut self, buffer: &mut [u8]) -> Result<usize, Broken> {
        if !self.asked.is_empty() {
            let sent = self.send_packets()?;
            let packets = self.receive_packets(sent)?;
            let mut out = vec![0; packets.len()]; // containers are shorter than their packets
            self.answer = from_network(&packets, &mut out)?[self.asked.len()..].to_vec();
            self.asked.clear();
        }
        let count = self.answer.len().min(buffer.len());
        buffer[..count].copy_from_slice(&self.answer[..count]);
        self.answer.drain(..count);
        Ok(count)
    }
}

pub fn run(address: &str, out: &str, packets: Option<&str>) -> ExitCode {
    match greet(address) {
        Ok((commands, _events)) => {
            let kept = Kept { file: packets.map(str::to_string), text: String::new() };
            day::run(Network { commands, _events, kept, asked: vec![], answer: vec![] }, out)
        }
        Err(why) => {
            eprintln!("{why}");
            ExitCode::FAILURE
        }
    }
}
