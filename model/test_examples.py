"""Document 01's numbered examples and its listing, asked of the model in the words of docs/ASK.md."""

import unittest

from model.ask import answer

OPEN_SESSION = "1800000001000210" + "00000000" + "03" + "00" * 11
RESPONSE_OK = "0c00000003000120" + "00000000"
# The tree of N16: names empty, A, B, C.
TREE = "1,2,3,4,0*1020 0,0,1,0*1021 1,6,11,16,0*1020 1*4,0*1020 4 00" + "0241000000" + "0242000000" + "0243000000"

NUMBERED = [
    ("N1", "value 0x0004 0 3412", "ok 4660 2"),
    ("N2", "value 0x0003 0 FEFF", "ok -2 2"),
    ("N3", "value 0x000A 0 01" + "00" * 7 + "02" + "00" * 7, "ok 2:1 16"),
    ("N4", "value 0xFFFF 0 00", "ok s<> 1"),
    ("N5", "value 0xFFFF 0 014100", "ok s<> 3"),
    ("N5", "tidy-value 0xFFFF 014100 1", "ok 1 00"),
    ("N6", "value 0xFFFF 0 0241000000", "ok s<0041> 5"),
    ("N7", "value 0xFFFF 0 0200D80000", "no 2 0"),
    ("N8", "utf8 0 033DD800DE0000 4", "ok 4 f09f9880"),
    ("N9", "value 0x4004 0 0200000005000600", "ok [5,6] 8"),
    ("N10", "value 0x4002 0 FFFFFFFF", "no 1 0"),
    ("N11", "property crate 015002000001643201006401", "ok 12 20481 2 0 1 100 50 range 0 100 1"),
    ("N12", "property crate 05D0FFFF01010000020200000241000000", "ok 17 53253 65535 1 1 s<> s<> list 2 s<> s<0041>"),
    ("N13", "property crate 01500000000002FFFF",
     "ok 9 20481 0 0 0 undef undef list 65535" + " undef" * 65535),
    ("N14", "header 0C0000000300012007000000", "ok 3 8193 7 0"),
    ("N15", "call OpenSession 0 0 0 0 24", f"ok 0 1 24 {OPEN_SESSION}"),
    ("N16", f"walk {TREE}", "ok 0,1,3,2"),
    ("N16", f"path {TREE} 2 3", "ok 3 412f42"),
]

LISTING = """place way kind code tid bytes
0 out Command OpenSession 0 12
30 in Response Ok 0 0
records 2 bytes 48
"""


class Numbered(unittest.TestCase):
    def test_numbered_examples(self):
        for number, question, expected in NUMBERED:
            with self.subTest(number):
                self.assertEqual(answer(question), expected)

    def test_the_listing(self):
        recording = "1e0000000200" + OPEN_SESSION + "120000000100" + RESPONSE_OK
        self.assertEqual(answer(f"listing {recording}"), "ok " + LISTING.replace("\n", "\\n"))


if __name__ == "__main__":
    unittest.main()
