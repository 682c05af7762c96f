"""Recordings that the tests of the page need: what no example has."""

import struct


def record(kind, body):
    return struct.pack("<IH", 6 + len(body), kind) + body


def container(kind, code, number, payload=b""):
    return struct.pack("<IHHI", 12 + len(payload), kind, code, number) + payload


def string(text):
    units = text.encode("utf-16-le")
    return bytes([len(units) // 2 + 1]) + units + bytes(2) if text else b"\0"


def object_info(parent, name, is_folder=False, size=1000):
    numbers = (0x10001, 0x3001 if is_folder else 0x3801, 0, size, 0x3808, 0, 160, 120, 4096, 3112, 24, parent, int(is_folder), 0, 0)
    return struct.pack("<IHHIHIIIIIIIHII", *numbers) + string(name) + string("20240229T081502") + string("") + string("")


class Maker:
    """A recording, transaction by transaction."""

    def __init__(self):
        self.parts, self.number = [], 1

    def note(self, text):
        self.parts.append(record(3, text.encode("utf-8")))
        return self

    def transaction(self, code, parameters, data=None, is_sent=False, answer=0x2001):
        sent = b"".join(struct.pack("<I", one) for one in parameters)
        self.parts.append(record(2, container(1, code, self.number, sent)))
        if data is not None:
            self.parts.append(record(2 if is_sent else 1, container(2, code, self.number, data)))
        self.parts.append(record(1, container(3, answer, self.number)))
        self.number += 1
        return self

    def described(self, handle, parent, name, is_folder=False):
        return self.transaction(0x1008, [handle], object_info(parent, name, is_folder))

    def bytes(self):
        return b"".join(self.parts)


SHUTTER = struct.pack("<HHBBIIBH4I", 0x500D, 6, 1, 1, 100, 40, 2, 4, 20, 40, 80, 100)
HOSTILE = '<img src=x onerror="window.ran=1">'


def hostile_day():
    """Names and notes that would run where they are taken for HTML or script."""
    day = Maker().note("</script><script>window.ran=1</script>").note('"><svg onload=window.ran=1>').note("{{script}} {{style}} \u2028")
    day.described(1, 0, HOSTILE, True).described(2, 1, "</script><script>window.ran=1</script>").described(3, 1, "javascript:window.ran=1//\u202egpj")
    return day.transaction(0x1001, [], struct.pack("<HIH", 100, 6, 100) + string(HOSTILE) + bytes(2 + 20) + string(HOSTILE) * 4).bytes()


def panel_day():
    """A shutter that is set to what is allowed and to what is not; frames that are deleted, one alone and a folder with all in it."""
    day = Maker().transaction(0x1014, [0x500D], SHUTTER)
    for value, answer in ((80, 0x2001), (33, 0x201C), (40, 0x2001)):
        day.transaction(0x1016, [0x500D], struct.pack("<I", value), True, answer)
    day.described(5, 9, "A.JPG").described(9, 0, "LATE", True).described(6, 9, "B.JPG").described(7, 0, "ROOT.JPG")
    return day.transaction(0x100B, [6, 0]).transaction(0x100B, [9, 0]).described(6, 0, "AGAIN.JPG").bytes()


def long_day(count=10_000):
    """So many transactions: objects, each with a name of its own, shutters set, objects fetched."""
    day = Maker().transaction(0x1014, [0x500D], SHUTTER)
    handle = folder = 1
    day.described(1, 0, "REEL1", True)
    while day.number <= count:
        turn = day.number % 4
        if turn == 0:
            day.transaction(0x1016, [0x500D], struct.pack("<I", (20, 40, 80, 100, 33)[day.number % 5]), True, 0x2019 if day.number % 7 == 0 else 0x2001)
        elif turn == 3:
            day.transaction(0x1009, [handle], bytes(range(256)) * 2)
        else:
            handle += 1
            is_folder = day.number % 400 == 1
            day.described(handle, 0 if is_folder else folder, f"REEL{handle}" if is_folder else f"F{handle:07d}.JPG", is_folder)
            folder = handle if is_folder else folder
    return day.bytes()
