"""One transaction on the network: the packets of PTP/IP."""

from __future__ import annotations

import enum
from dataclasses import dataclass
from typing import Tuple

from ptp_proved import archive


class PacketKind(enum.IntEnum):
    """The kinds that a transaction has."""

    Request = 6
    Response = 7
    StartData = 9
    Data = 10
    EndData = 12


class DataDirection(enum.Enum):
    """Where a transaction's data goes. Of a transaction without data either may be named."""

    FromCamera = "in"
    ToCamera = "out"


@dataclass(frozen=True)
class PtpPacket:
    """A packet of a transaction. A number that its kind has not is 0, and so are bytes: the parameters of a request and a response, whole u32s, the
    bytes of data and end data."""

    kind: PacketKind
    phase: int
    code: int
    tid: int
    total: int
    start: int
    bytes: archive.Raw


def read_packet(data: archive.Bytes, at: int = 0) -> Tuple[PtpPacket, int]:
    """The packet at a place, and the place after it. Refusals: END for eight bytes, PACKET, FIELDS, END for the rest."""
    data = bytes(data)
    after, kind, phase, code, tid, total, start, length = archive.numbers_at("ptp_read_packet", 8, data, at)
    return PtpPacket(PacketKind(kind), phase, code, tid, total, start, data[start:start + length]), after


# A packet is at most so much longer than its container, and a transaction has at most three.
MORE = 3 * 32


def to_network(containers: archive.Bytes, direction: DataDirection) -> bytes:
    """One transaction's containers, end to end, as packets. Refusals: of a container END, KIND, END, LENGTH, SIZE; TRANSACTION, TID."""
    return archive.written("ptp_to_network", len(containers) + MORE, bytes(containers), direction is DataDirection.ToCamera)


def from_network(packets: archive.Bytes) -> bytes:
    """One transaction's packets, end to end, as containers. Refusals: of a packet END, PACKET, FIELDS, END; TRANSACTION, FIELDS, TID, COUNT."""
    return archive.written("ptp_from_network", len(packets) + MORE, bytes(packets))
