"""Cases for packets, and for one transaction to the network and back."""

import itertools

from compare.bits import EDGES_32, EDGES_64, Cases, hexed, maybe_damaged, room_for, some_bytes, u32
from compare.cases_session import whole
from model import network
from model.containers import COMMAND, DATA, EVENT, RESPONSE
from model.network import ANSWER, END_DATA, REQUEST, SOME_DATA, START_DATA, packet_bytes

CODE, OTHER_CODE, OK = 0x1016, 0x1014, 0x2001
PACKET_KINDS = (REQUEST, ANSWER, START_DATA, SOME_DATA, END_DATA)
# Those of the handshake, of events, of probes, and none at all.
OTHER_KINDS = [0, 1, 2, 3, 4, 5, 8, 11, 13, 14, 256, 262, 0xFFFFFFFF]
MOST_ITEMS = 5
LOAD = b"AB"


def container_of(kind, number=7, code=None, payload=b""):
    return whole(kind, (OK if kind == RESPONSE else CODE) if code is None else code, number, payload)


def packet_of(kind, number=7, body=b"", total=0, phase=1):
    fields = {"phase": phase, "code": OK if kind == ANSWER else CODE, "number": number, "total": total}
    return packet_bytes(kind, body, **fields)


def parameters(count):
    return bytes(range(4 * count))


def container_rows():
    """Every row of up to five containers of all kinds."""
    for count in range(MOST_ITEMS + 1):
        for kinds in itertools.product((COMMAND, DATA, RESPONSE, EVENT), repeat=count):
            yield b"".join(map(container_of, kinds))


def packet_rows():
    """Every row of up to five packets of all kinds."""
    for count in range(MOST_ITEMS + 1):
        for kinds in itertools.product(PACKET_KINDS, repeat=count):
            yield b"".join(map(packet_of, kinds))


def sent_of(first=b"", load=LOAD, last=b"", numbers=(7, 7, 7), code=CODE):
    """One transaction's containers, without Data where there is no load."""
    middle = [] if load is None else [container_of(DATA, numbers[1], code, load)]
    return b"".join([container_of(COMMAND, numbers[0], None, first), *middle, container_of(RESPONSE, numbers[2], None, last)])


def came_of(cut, total=None, first=b"", last=b"", numbers=None, phase=2):
    """One transaction's packets, its data in these pieces, the last of them in the end data packet."""
    numbers = numbers or [7] * (len(cut) + 3)
    total = sum(map(len, cut)) if total is None else total
    kinds = [SOME_DATA] * (len(cut) - 1) + [END_DATA]
    middle = [packet_of(kind, number, piece) for kind, number, piece in zip(kinds, numbers[2:], cut)]
    return b"".join([packet_of(REQUEST, numbers[0], first, phase=phase), packet_of(START_DATA, numbers[1], total=total), *middle,
                     packet_of(ANSWER, numbers[-1], last)])


def cuts():
    """The same bytes in one to four pieces, empty ones too."""
    data = b"ABCDE"
    for count in range(4):
        for ends in itertools.combinations_with_replacement(range(len(data) + 1), count):
            places = [0, *ends, len(data)]
            yield [data[start:end] for start, end in zip(places, places[1:])]


def with_one_changed(count):
    """Rows of numbers of which one, or none, is another."""
    yield [7] * count
    for place in range(count):
        yield [8 if at == place else 7 for at in range(count)]


def sent_transactions():
    """Parameters of none to six words and parts of one; another number or code; no Data and empty Data; a first byte behind; cut at every byte."""
    for size in (*range(0, 25, 4), 1, 2, 3, 19, 21):
        yield from (sent_of(bytes(size)), sent_of(last=bytes(size)), sent_of(bytes(size), None), sent_of(bytes(size), last=bytes(24)))
    for numbers in with_one_changed(3):
        yield from (sent_of(numbers=numbers), sent_of(load=None, numbers=numbers), sent_of(bytes(24), numbers=numbers))
    yield from (sent_of(code=OTHER_CODE), sent_of(code=OTHER_CODE, numbers=(7, 8, 7)), sent_of(load=b""), sent_of(load=None))
    data = sent_of(parameters(5), b"ABCDE", parameters(3))
    yield from (data[:length] for length in range(len(data) + 1))
    yield from (data + b"\xff", data + data, data + container_of(RESPONSE), data + container_of(RESPONSE)[:-1])


def came_transactions():
    """As those sent; every cut of the data, the announced length one less and one more; each refusal before a later one."""
    for size in range(0, 25, 4):
        yield from (came_of([LOAD], first=bytes(size)), came_of([LOAD], last=bytes(size)), came_of([LOAD], 3, bytes(size)))
    for cut in cuts():
        yield from (came_of(cut), came_of(cut, 4), came_of(cut, 6), came_of(cut, (1 << 64) - 1), came_of(cut, 5 + (1 << 32)))
    for numbers in with_one_changed(5):
        yield from (came_of([b"A", b"B"], total, numbers=numbers) for total in (2, 3))
    yield from (came_of([b""], phase=phase) for phase in (0, 1, 2, 3, 0xFFFFFFFF))
    data = came_of([b"AB", b"", b"CDE"], first=parameters(5), last=parameters(2))
    yield from (data[:length] for length in range(len(data) + 1))
    yield from (data + b"\xff", data + data, data + packet_of(ANSWER), data + packet_of(ANSWER)[:-1])
    yield from (data + packet_bytes_with(kind, 8) for kind in OTHER_KINDS)


def packet_bytes_with(kind, length, behind=b""):
    return length.to_bytes(4, "little") + kind.to_bytes(4, "little") + behind


def short_packets():
    """Every kind with every length around its own, cut at the ends of its fields."""
    for kind, length in itertools.product((*PACKET_KINDS, *OTHER_KINDS), (*range(27), 30, 34, 38, 42, *EDGES_32)):
        data = packet_bytes_with(kind, length, bytes(range(1, 31)))
        yield from (data[:cut] for cut in (0, 3, 4, 7, 8, 9, 12, 14, 18, 20, 38))


def random_sent(rng):
    load = None if rng.random() < 0.3 else some_bytes(rng, 12)
    numbers = [u32(rng)] * 3 if rng.random() < 0.9 else [u32(rng) for _ in range(3)]
    code = CODE if rng.random() < 0.95 else rng.getrandbits(16)
    data = sent_of(parameters(rng.randrange(7)), load, parameters(rng.randrange(6)), numbers, code)
    return data if rng.random() < 0.5 else maybe_damaged(rng, data)


def random_came(rng):
    if rng.random() < 0.2:
        data = network.to_network("in", sent_of(parameters(rng.randrange(6)), None, parameters(rng.randrange(6))))
    else:
        cut = [some_bytes(rng, 6) for _ in range(rng.randrange(1, 5))]
        total = None if rng.random() < 0.9 else rng.choice(EDGES_64)
        data = came_of(cut, total, parameters(rng.randrange(7)), parameters(rng.randrange(6)), phase=u32(rng))
    return data if rng.random() < 0.5 else maybe_damaged(rng, data)


def ask_to_network(rng, data, direction=None):
    direction = direction or rng.choice(["in", "out"])
    return f"to-network {direction} {hexed(data)} {room_for(rng, lambda: network.to_network(direction, data))}"


def ask_from_network(rng, data):
    return f"from-network {hexed(data)} {room_for(rng, lambda: network.from_network(data))}"


def short_to_network(rng):
    """Each in both directions, and the words that name none."""
    for data in itertools.chain(sent_transactions(), container_rows()):
        yield from (ask_to_network(rng, data, direction) for direction in network.DIRECTIONS)
    yield from (f"to-network {word} {hexed(sent_of())} 99" for word in ("In", "1", "inout", "-"))


def short_from_network(rng):
    return (ask_from_network(rng, data) for data in itertools.chain(came_transactions(), packet_rows()))


def short_packet(rng):
    yield from (f"packet 0 {hexed(data)}" for data in short_packets())
    data = came_of([b"AB", b"C"], first=parameters(2))
    yield from (f"packet {at} {hexed(data)}" for at in (*range(len(data) + 2), *EDGES_64))


def one_packet(rng):
    data = random_came(rng)
    return f"packet {rng.randrange(len(data) + 2) if rng.random() < 0.7 else 0} {hexed(data)}"


NETWORK_CASES = {
    "to-network": Cases(short_to_network, lambda rng: ask_to_network(rng, random_sent(rng))),
    "from-network": Cases(short_from_network, lambda rng: ask_from_network(rng, random_came(rng))),
    "packet": Cases(short_packet, one_packet),
}
