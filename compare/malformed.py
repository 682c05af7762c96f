"""Lines that are no questions: each is a good one with one thing wrong with its writing (docs/ASK.md, `?`)."""

import itertools

from compare.bits import Cases
from model import ask

TABLE = "1*1024 0*1024 1*1024 1*1024 1 00"
GOOD = [
    "value 4 0 3412", "end 0 00", "unit 0 0 00", "item 0x4002 0 0 00000000", "utf8 0 00 4", "write-value 4 5 2",
    "write-value 9 1:2 16", "write-value 0 undef 1", "write-string 65,66 9", "write-array 0x4002 0102 9",
    "tidy-value 0xffff 00 3", "device 6400", "property crate 0150",
    "property book 0150", "tidy-property crate 0150 3", "nth crate 0 0150", "list book 0150", "step 00 2 0 1 0",
    "newer crate 0150 00", "header 0c00", "write-container 1 2 3 00 13", "command 0 4098 3,0,0 24",
    "command-data 0 4118 - 00 40", "call OpenSession 0 0 0 0 24", "answer 0 -", "handles 00000000",
    f"walk {TABLE}", f"path {TABLE} 0 4", f"paths {TABLE} 4", f"delete {TABLE} 1", f"collect {TABLE}", f"add {TABLE} 0 9 00", "settings 1 00",
    "settings-find 2 - 6 20481 65,66", "settings-store 1 - 00 9", "record 00", "write-record 3 41 9", "copy 060000000300 1", "mend 060000000300 6 1", "listing -",
    "response-name 8193", "command-name 4098",
]
BAD_WORDS = ["", "x", "-1", "+1", "1.", "0x", "0X10", "0xg", "1,", ",1", "1,,2", "--", "0g", "123", "\t", "1:2", "1:", "undefined",
             "18446744073709551616", "99999999999999999999999", "0x10000000000000000", "4294967296", "65536", "256",
             "1_000", "é", "00 ", "opensession", "Crate", "books"]
OUT_OF_RANGE = [
    "write-value 1 128 9", "write-value 1 -129 9", "write-value 2 256 9", "write-value 2 -1 9", "write-value 3 32768 9",
    "write-value 7 9223372036854775808 9", "write-value 7 -9223372036854775809 9", "write-value 8 18446744073709551616 9",
    "write-value 9 18446744073709551616:0 16", "write-value 9 5 16", "write-value 9 1:2:3 16", "write-value 9 -1:0 16",
    "write-value 0xffff 0 9", "write-value 0x4002 0 9", "write-value 0 0 9", "write-value 4 undef 9", "write-value 1 - 9",
    "write-value 1 -- 9", "write-value 1 --1 9", "utf8 0 00 1048577", "write-string 65536 9", "step 00 2 0 65536 0",
    "step 00 2 0 1 256", "walk 1 65536 1 1 1 00", "walk 1 0 4294967296 1 1 00", "walk 4294967296 0 1 1 1 00", "walk 1 0 1 256 1 00",
    "walk 1 0 1 1 18446744073709551616 00", "walk 1 0 1 00", "path 1 0 1 00 0 4", "paths 1 0 1 00 4", f"delete {TABLE} 18446744073709551616",
    f"add {TABLE} 0 4294967296 00", "write-string 65*0 9", "write-string 65*4097 9", "write-string 65*4096,66 9", "write-string 65* 9", "write-string *3 9",
    "write-string 65*3*2 9", "write-string 65*-1 9", "write-string 65536*2 9",
    "property 015002000001643201006401", "tidy-property 0150 3", "nth 0 0150", "list 0150", "newer 0150 00",
    "property pima 0150", "property cratebook 0150", "list BOOK 0150", "call GetThumb 0 0 0 0 24", "call opensession 0 0 0 0 24", "command 4294967296 1 - 12", "command 0 65536 - 12",
    "settings 0 -", "settings 3 -", "settings 257 -", "settings - -", "settings crate -", "settings -", "settings-find 2 - 4294967296 1 -", "settings-find 2 - 6 65536 -", "settings-find 1 - 6 1 65536",
    "settings-find 2 - 6 1", "settings-store 0 - - 9", "settings-store 2 - - 1048577",
    "mend - 0", "mend - 0 4097", "mend - 1048577 0", "mend - 0 -", "mend - 0 0x1001",
]
# Not malformed, though they look so: `ask` must take them.
ODD_BUT_GOOD = [
    "value 0x0004 000 3412", "value 0X4 0 3412", "value 4 0x0 aBcD", "write-value 1 -0 1", "write-value 1 -0x80 1",
    "write-value 5 -2147483648 4", "write-value 8 0xffffffffffffffff 8", "write-value 9 0x1:0x2 16",
    "utf8 0 00 0000000000000000000000000000001", "end 0x0000000000000000000000000 00", "utf8 0 00 1048576",
    "write-string 65*3 9", "write-string 0x41*0x3,66 11", "write-string 65*0001 9", "walk 1*0x400 0*1024 1*1024 0x1*1024 0x1 00",
    "settings 0x1 -", "settings 002 -", "settings-find 0x02 - 0x6 0 0x41,0x42", "mend - 0 4096", "mend ff 0x0 0x2",
]


def misspelled(good):
    return (good + " ", " " + good, good + " 0", good.replace(" ", "  ", 1), good.rsplit(" ", 1)[0], good + "\r",
            good.replace(" ", "\t", 1), good.upper())


def with_word(good, place, word):
    words = good.split(" ")
    return " ".join(words[:place] + [word] + words[place + 1:])


def longest():
    """The longest list and line, and one more."""
    for count in (ask.LONGEST_LIST, ask.LONGEST_LIST + 1):
        yield "write-string " + ",".join(["65"] * count) + " 9"
    digits = "00" * ((ask.LONGEST_LINE - len("value 0 0 ")) // 2)
    yield "value 0 0 " + digits
    yield "value 0 00 " + digits


def short_malformed(rng):
    yield from ["", " ", "?", "ok", "value", "Value 4 0 3412", "names 1", "quit"]
    yield from OUT_OF_RANGE
    yield from ODD_BUT_GOOD
    yield from longest()
    for good in GOOD:
        yield from misspelled(good)
    for good, word in itertools.product(GOOD, BAD_WORDS):
        yield from (with_word(good, place, word) for place in range(1, good.count(" ") + 1))


def one_malformed(rng):
    """A good line with a character changed, lost or added."""
    line = rng.choice(GOOD)
    at = rng.randrange(len(line) + 1)
    return line[:at] + rng.choice(["", " ", "0", "x", ",", "-", ":", "f", "9"]) + line[at + rng.randrange(2):]


MALFORMED_CASES = {"malformed": Cases(short_malformed, one_malformed)}
