//! The camera's side: a recording, served to one controller.
use crate::connection::{any_response, data_packet, each_packet, packets_of, welcome, Broken, Connection, MOST_BYTES};
use ptp_proved::*;
use std::net::TcpListener;
use std::process::ExitCode;

pub const ADDRESS: &str = "127.0.0.1:15740";
const TO_CAMERA: u32 = 2;
const DATA: u32 = 10;
const END_DATA: u32 = 12;

/// The records that are still to come, and how many notes and Events were passed over.
struct Day<'a> {
    rest: &'a [u8],
    left_out: usize,
}

impl<'a> Day<'a> {
    fn next(&mut self) -> Result<Option<(RecordKind, PtpContainer<'a>, &'a [u8])>, Broken> {
        while !self.rest.is_empty() {
            let (record, taken) = read_record(self.rest)?;
            self.rest = &self.rest[taken..];
            match record.container {
                Some(container) if container.kind != PtpContainerType::Event => {
                    return Ok(Some((record.kind, container, record.body)));
                }
                _ => self.left_out += 1,
            }
        }
        Ok(None)
    }

    /// The next transaction: its containers to the camera, and those from it up to the Response.
    fn transaction(&mut self) -> Result<Option<(Vec<u8>, Vec<u8>)>, Broken> {
        let (mut asked, mut answer) = (vec![], vec![]);
        while let Some((kind, container, body)) = self.next()? {
            if kind == RecordKind::ToCamera { &mut asked } else { &mut answer }.extend_from_slice(body);
            if container.kind == PtpContainerType::Response {
                break;
            }
        }
        Ok(if asked.is_empty() && answer.is_empty() { None } else { Some((asked, answer)) })
    }
}

/// A request, with its data where that goes to the camera, as containers; and where the data goes.
fn receive(commands: &mut Connection) -> Result<(Vec<u8>, DataDirection), Broken> {
    let mut packets = commands.receive()?;
    let (tid, direction) = match read_packet(&packets, 0)?.0 {
        PtpPacket::Request { phase: TO_CAMERA, tid, .. } => (tid, DataDirection::ToCamera),
        PtpPacket::Request { tid, .. } => (tid, DataDirection::FromCamera),
        _ => return Err(Broken::Lost("a packet came that begins no transaction".into())),
    };
    let mut ended = direction == DataDirection::FromCamera;
    while !ended {
        let packet = commands.receive()?;
        packets.extend_from_slice(&packet);
        if packets.len() > MOST_BYTES {
            return Err(Broken::Lost("too many bytes came".into()));
        }
        ended = matches!(read_packet(&packet, 0)?.0, PtpPacket::EndData { .. });
    }
    let response = any_response(tid)?;
    let mut out = vec![0; packets.len() + 64];
    let containers = from_network(&[packets, response_packet(tid)?].concat(), &mut out)?;
    Ok((containers[..containers.len() - response.len()].to_vec(), direction))
}

// The packet of some Response of this number.
fn response_packet(tid: u32) -> Result<Vec<u8>, Broken> {
    let mut command = [0; 12];
    write_container(PtpContainerType::Command as u16, 0, tid, &[], &mut command)?;
    let packets = packets_of(&[&command[..], &any_response(tid)?].concat(), DataDirection::FromCamera)?;
    Ok(packets[read_packet(&packets, 0)?.1..].to_vec())
}

/// An end data packet as data packets of so many bytes, the last of them in end data; any other packet as it is.
fn in_pieces(packet: &[u8], most: usize) -> Result<Vec<u8>, Broken> {
    Ok(match read_packet(packet, 0)?.0 {
        PtpPacket::EndData { tid, data } if data.len() > most => {
            let last = (data.len() - 1) / most * most;
            let pieces: Vec<u8> = data[..last].chunks(most).flat_map(|piece| data_packet(DATA, tid, piece)).collect();
            [pieces, data_packet(END_DATA, tid, &data[last..])].concat()
        }
        _ => packet.to_vec(),
    })
}

/// What the camera sends of a transaction: its packets behind those that came.
fn answer(asked: &[u8], answer: &[u8], direction: DataDirection, cut: Option<usize>) -> Result<Vec<u8>, Broken> {
    let packets = packets_of(&[asked, answer].concat(), direction)?;
    let came = if direction == DataDirection::ToCamera { 3 } else { 1 }; // a request; with data also its start and end
    let sent: Result<Vec<_>, Broken> =
        each_packet(&packets)?.into_iter().skip(came).map(|packet| in_pieces(packet, cut.unwrap_or(MOST_BYTES))).collect();
    Ok(sent?.concat())
}

fn another_command() -> Broken {
    Broken::Lost("another Command came than the recording has".into())
}

fn serve(recording: &[u8], address: &str, cut: Option<usize>) -> Result<(), Broken> {
    let listener = TcpListener::bind(address)?;
    println!("listening on {}", listener.local_addr()?);
    let (mut commands, _events) = welcome(&listener)?;
    let (mut day, mut served) = (Day { rest: recording, left_out: 0 }, 0);
    while let Some((asked, answered)) = day.transaction()? {
        let (came, direction) = receive(&mut commands)?;
        if came != asked {
            return Err(another_command());
        }
        commands.send(&answer(&asked, &answered, direction, cut)?)?;
        served += 1;
    }
    if !commands.is_ended()? {
        return Err(another_command());
    }
    println!("served {served} transactions; {} notes and Events were left out", day.left_out);
    Ok(())
}

pub fn run(recording: &str, address: &str, cut: Option<usize>) -> ExitCode {
    let recording = std::fs::read(recording).expect("the camera's recording");
    match serve(&recording, address, cut) {
        Ok(()) => ExitCode::SUCCESS,
        Err(why) => {
            eprintln!("{why}");
            ExitCode::FAILURE
        }
    }
}
