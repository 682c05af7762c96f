"""The proved programs through ./ptp, of this repository, where they are built."""

import os
import shutil
import subprocess
import unittest

from door.tests.sandbox import ROOT, result
from examples import cuts

PTP = ROOT / "ptp"
EXAMPLES = ROOT / "examples"
# A path without the kit: the programs that are built need none.
NO_KIT = {"PATH": os.pathsep.join(part for part in os.environ["PATH"].split(os.pathsep) if not os.path.exists(os.path.join(part, "rt")))}


def listing(name):
    return (EXAMPLES / f"{name}.listing").read_text()


class Programs(unittest.TestCase):
    def test_every_example_without_the_kit(self):
        self.assertIsNone(shutil.which("rt", path=NO_KIT["PATH"]))
        found = sorted(EXAMPLES.glob("*.recording"))
        self.assertTrue(found)
        for path in found:
            refused = " refusal " in listing(path.stem)
            self.assertEqual(result([PTP, "list", path], env=NO_KIT), (0, listing(path.stem), ""), path)
            self.assertEqual(result([PTP, "list", "--check", path], env=NO_KIT), (int(refused), listing(path.stem), ""), path)

    def test_both_outcomes_of_check_are_among_the_examples(self):
        self.assertEqual({" refusal " in path.read_text() for path in EXAMPLES.glob("*.listing")}, {True, False})

    def test_from_any_folder_and_standard_input(self):
        day = (EXAMPLES / "day.recording").read_bytes()
        self.assertEqual(result([PTP, "list", "day.recording"], cwd=EXAMPLES), (0, listing("day"), ""))
        self.assertEqual(result([PTP, "list", "-"], input=day, cwd="/"), (0, listing("day"), ""))
        self.assertEqual(result([PTP, "list"], input=day, cwd="/"), (0, listing("day"), ""))

    def test_an_empty_recording(self):
        self.assertEqual(result([PTP, "list"], input=b""), (0, "place way kind code tid bytes\nrecords 0 bytes 0\n", ""))

    def test_every_example_is_copied(self):
        for path in sorted(EXAMPLES.glob("*.recording")):
            self.assertTrue(cuts.copies_well([PTP, "copy"], path.read_bytes()), path)

    def test_every_example_is_mended(self):
        """As the model says; of a damaged one what stands beside it. What is written is listed to its end."""
        for path in sorted(EXAMPLES.glob("*.recording")):
            self.assertTrue(cuts.mends_well([PTP, "mend"], path.read_bytes()), path)
        for path in sorted(EXAMPLES.glob("*.mended")):
            damaged = path.with_suffix(".recording").read_bytes()
            mended, report = path.read_bytes(), path.with_suffix(".report").read_bytes()
            run = subprocess.run([PTP, "mend"], input=damaged, stdout=subprocess.PIPE, stderr=subprocess.PIPE, timeout=60)
            self.assertEqual((run.returncode, run.stdout, run.stderr), (0, mended, report), path)
            self.assertEqual(result([PTP, "list", "--check"], input=mended)[::2], (0, ""), path)

    def test_a_sound_recording_is_mended_to_itself(self):
        day = (EXAMPLES / "day.recording").read_bytes()
        run = subprocess.run([PTP, "mend"], input=day, stdout=subprocess.PIPE, stderr=subprocess.PIPE, timeout=60)
        report = f"kept 47 records {len(day)} bytes, dropped 0 stretches 0 bytes\n".encode()
        self.assertEqual((run.returncode, run.stdout, run.stderr), (0, day, report))

    def test_every_table_is_shown_folder_by_folder(self):
        """And one whose root has ended is refused."""
        found = sorted(EXAMPLES.glob("*.table"))
        self.assertTrue(found)
        for path in found:
            text, words = path.with_suffix(".shown").read_text(), path.read_text().split(" ")
            self.assertEqual(result([PTP, "folders", path], env=NO_KIT), (0, text, ""), path)
            self.assertEqual(result([PTP, "folders"], input=" ".join(words).encode(), cwd="/"), (0, text, ""), path)
            words[3] = "0*1024"
            self.assertEqual(result([PTP, "folders"], input=" ".join(words).encode()), (1, "refusal 11\n", ""), path)

    def test_every_row_of_packets_is_shown(self):
        """And a byte behind it is refused where it stands."""
        found = sorted(EXAMPLES.glob("*.packets"))
        self.assertTrue(found)
        for path in found:
            text, data = path.with_suffix(".shown").read_text(), path.read_bytes()
            self.assertEqual(result([PTP, "packets", path], env=NO_KIT), (0, text, ""), path)
            self.assertEqual(result([PTP, "packets"], input=data + b"\x05", cwd="/"), (1, f"{text}{len(data)} refusal 1 0\n", ""), path)

    def test_packets_of_many_bytes_and_of_many(self):
        """Those that fill a question's line, one byte more, and very many."""
        def data_of(size):
            return (12 + size).to_bytes(4, "little") + b"\x0a\0\0\0" + bytes(4 + size)

        self.assertEqual(result([PTP, "packets"], input=data_of(590_000) + data_of(1)), (0, "0 data 0 590000\n590012 data 0 1\n", ""))
        self.assertEqual(result([PTP, "packets"], input=data_of(600_000)), (1, "", "ptp: the packet at byte 0 is too long to be asked\n"))
        shown = "".join(f"{12 * place} data 0 0\n" for place in range(10_000))
        self.assertEqual(result([PTP, "packets"], input=data_of(0) * 10_000), (0, shown, ""))

    def test_every_row_of_settings_is_shown(self):
        found = sorted(EXAMPLES.glob("*.settings"))
        self.assertTrue(found)
        for path in found:
            text = path.with_suffix(".shown").read_text()
            self.assertEqual(result([PTP, "settings", path], env=NO_KIT), (0, text, ""), path)
            self.assertEqual(result([PTP, "settings"], input=path.read_bytes(), cwd="/"), (0, text, ""), path)
            self.assertEqual(result([PTP, "settings"], input=path.read_bytes() + b"\x05"), (1, f"refusal 1 {path.stat().st_size}\n", ""), path)

    def test_a_row_that_is_refused_without_a_place(self):
        row = (EXAMPLES / "reel.settings").read_bytes()
        self.assertEqual(result([PTP, "settings"], input=row + row), (1, "refusal 13\n", ""))

    def test_no_row_and_one_that_is_too_long(self):
        self.assertEqual(result([PTP, "settings"], input=b""), (0, "place kind vendor property serial type value\nentries 0 bytes 0\n", ""))
        longest = 599_994
        head = b"\x10\x00\x06\x00\x00\x00\x01\x50\x02\x40"
        row = longest.to_bytes(4, "little") + head + (longest - 18).to_bytes(4, "little") + bytes(longest - 18)
        status, text, said = result([PTP, "settings"], input=row)
        self.assertEqual((status, text[-len("entries 1 bytes 599994\n"):], said), (0, "entries 1 bytes 599994\n", ""))
        self.assertEqual(result([PTP, "settings"], input=row + b"\x00"), (1, "", "ptp: the row has more than 599,994 bytes\n"))

    def test_ask(self):
        self.assertEqual(result([PTP, "ask"], input=b"response-name 0x2001\nno question\n"), (0, "ok Ok\n?\n", ""))

    def test_wrong_names_what_it_does_not_know(self):
        for word in ("nowhere", "layout/nothing", "--words"):
            status, out, said = result([PTP, "wrong", word], env=NO_KIT)
            self.assertEqual((status, out), (2, ""))
            self.assertRegex(said, rf"\A[^\n]*{word.split('/')[-1]}[^\n]*\n\Z")


if __name__ == "__main__":
    unittest.main()
