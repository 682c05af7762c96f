"""packets [FILE]: the packets of PTP/IP, a line each, by the answers of the proved program `ask`"""

import functools

from door import inputs, standard
from door.asking import Asking
from door.failure import Failure

MOST_BYTES = 1 << 26
# What is asked of a packet at first; where it is longer, more.
FEW_BYTES, MORE = 64, 8
END = "1"
# What each kind is called, whose names its code has, and what stands in its answer before the place after it.
KINDS = {
    "6": ("request", "command", ("phase", "code", "number", "start", "bytes")),
    "7": ("response", "response", ("code", "number", "start", "bytes")),
    "9": ("start-data", None, ("number", "bytes")),
    "10": ("data", None, ("number", "start", "bytes")),
    "12": ("end-data", None, ("number", "start", "bytes")),
}


class Packets(Asking):
    """What `ask` tells of packets."""

    @functools.lru_cache(maxsize=None)
    def name_of(self, whose, code):
        """As a listing has it: the code's name, or its number."""
        told, *name = self.answer(f"{whose}-name {code}")
        return name[0] if told == "ok" else f"0x{int(code):04x}"

    def packet_at(self, data, at):
        """The answer of the packet at a place. A refusal for the end of what was asked is one only where no more is there."""
        size = FEW_BYTES
        while True:
            told, *words = self.answer(f"packet 0 {data[at:at + size].hex()}")
            if told == "?":
                raise Failure(f"the packet at byte {at} is too long to be asked")
            if told == "ok" or words[0] != END or at + size >= len(data):
                return told, words
            size *= MORE


def shown(asking, data):
    """A line a packet, and whether all were accepted."""
    lines, at = [], 0
    while at < len(data):
        told, words = asking.packet_at(data, at)
        if told != "ok":
            return "".join([*lines, f"{at} refusal {' '.join(words)}\n"]), False
        kind, *numbers, after = words
        name, whose, fields = KINDS[kind]
        told_of = dict(zip(fields, numbers))
        code = [asking.name_of(whose, told_of["code"])] if whose else []
        lines.append(" ".join([str(at), name, *code, told_of["number"], told_of["bytes"]]) + "\n")
        at += int(after)
    return "".join(lines), True


def run(words):
    file, _ = inputs.opened_or_standard(inputs.only_file("packets", words)), standard.opened(standard.OUTPUT)
    data = inputs.read_at_most(file, MOST_BYTES)
    if len(data) > MOST_BYTES:
        raise Failure(f"the file has more than {MOST_BYTES:,} bytes")
    with Packets() as asking:
        text, is_accepted = shown(asking, data)
    standard.write_all(standard.OUTPUT, text.encode())
    return 0 if is_accepted else 1
