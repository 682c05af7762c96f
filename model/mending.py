"""A damaged recording mended (request 11 of document 02): every record that can still be read is kept as it stands, the rest is dropped."""

from collections import namedtuple

from model.recording import read_record
from model.refusals import Refused

# Where bytes start, and how many they are.
Stretch = namedtuple("Stretch", "start length")

# The kept records' bytes, the records, and the dropped stretches, of which no two touch; all in their order.
Mended = namedtuple("Mended", "data kept dropped")


def after_record(data, at):
    """The place after the acceptable record that stands here, or None."""
    try:
        return read_record(data, at).after
    except Refused:
        return None


def drop(dropped, at):
    """One byte more, joined to the stretch that ends here."""
    if dropped and sum(dropped[-1]) == at:
        dropped[-1] = Stretch(dropped[-1].start, dropped[-1].length + 1)
    else:
        dropped.append(Stretch(at, 1))


def mend(data):
    """From the front: where a record stands it is kept, where none does one byte is passed over."""
    at, kept, dropped = 0, [], []
    while at < len(data):
        after = after_record(data, at)
        if after is None:
            drop(dropped, at)
            at += 1
        else:
            kept.append(Stretch(at, after - at))
            at = after
    return Mended(b"".join(data[start:start + length] for start, length in kept), kept, dropped)


def report(mended):
    """What the program `mend` says: a line a stretch, and always last a line that counts."""
    lines = [f"{start} dropped {length}\n" for start, length in mended.dropped]
    lost = sum(length for _, length in mended.dropped)
    return "".join(lines) + (f"kept {len(mended.kept)} records {len(mended.data)} bytes, "
                             f"dropped {len(mended.dropped)} stretches {lost} bytes\n")
