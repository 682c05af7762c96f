//! Packets, and transactions to the network.
use super::{show, values, words};
use ptp_proved::{read_packet, to_network, DataDirection, PtpPacket};

// Where the bytes behind a packet's fields are: they end with it.
fn part(part: &[u8], s: &[u8], next: usize) -> String {
    let start = show::start(part, s);
    assert_eq!(start + part.len(), next);
    format!("{start} {}", part.len())
}

pub fn packet(at: &str, s: &str) -> Option<String> {
    let (at, s) = (words::size(at)?, words::bytes(s)?);
    Some(values::read(read_packet(&s, at).map(|(packet, next)| {
        let told = match packet {
            PtpPacket::Request { phase, code, tid, params } => format!("6 {phase} {code} {tid} {}", part(params, &s, next)),
            PtpPacket::Response { code, tid, params } => format!("7 {code} {tid} {}", part(params, &s, next)),
            PtpPacket::StartData { tid, total } => format!("9 {tid} {total}"),
            PtpPacket::Data { tid, data } => format!("10 {tid} {}", part(data, &s, next)),
            PtpPacket::EndData { tid, data } => format!("12 {tid} {}", part(data, &s, next)),
        };
        format!("{told} {next}")
    })))
}

pub fn to(direction: &str, s: &str, room: &str) -> Option<String> {
    let direction = match direction {
        "in" => DataDirection::FromCamera,
        "out" => DataDirection::ToCamera,
        _ => return None,
    };
    let (s, mut out) = (words::bytes(s)?, words::room(room)?);
    let answer = to_network(&s, direction, &mut out).map(<[u8]>::len);
    Some(values::written(answer, &out))
}
