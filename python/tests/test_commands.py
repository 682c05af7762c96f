"""`show` and `page` as an operator runs them: words, files, failing calls, signals, memory. By ./ptp, or the door that PTP_DOOR names."""

import json
import os
import pathlib
import signal
import subprocess
import tempfile
import unittest

from tests.days import long_day

ROOT = pathlib.Path(__file__).resolve().parent.parent.parent
PTP = os.environ.get("PTP_DOOR") or str(ROOT / "ptp")
EXAMPLES = ROOT / "examples"
DAY = EXAMPLES / "day.recording"
MEGABYTE = 1_000_000


def run(*words, **more):
    made = subprocess.run([PTP, *map(str, words)], stdout=more.pop("stdout", subprocess.PIPE), stderr=subprocess.PIPE, timeout=120, **more)
    return made.returncode, (made.stdout or b"").decode(), made.stderr.decode()


class Show(unittest.TestCase):
    def test_from_a_file_and_from_standard_input(self):
        due = (EXAMPLES / "day.shown").read_text(encoding="utf-8")
        self.assertEqual(run("show", "--layout", "crate", DAY), (0, due, ""))
        self.assertEqual(run("show", "--layout", "crate", input=DAY.read_bytes()), (0, due, ""))
        self.assertEqual(run("show", "-", "--layout", "crate", input=DAY.read_bytes()), (0, due, ""))

    def test_json_is_one_object_a_line(self):
        status, text, said = run("show", "--json", EXAMPLES / "damaged-day.recording")
        kinds = [json.loads(line)["kind"] for line in text.splitlines()]
        self.assertEqual((status, said, kinds[-2:]), (1, "", ["refusal", "totals"]))

    def test_an_empty_recording(self):
        self.assertEqual(run("show", input=b"")[::2], (0, ""))

    def test_what_cannot_be_written_is_told(self):
        with open("/dev/full", "wb") as full:
            self.assertEqual(run("show", DAY, stdout=full), (1, "", "ptp: standard output cannot be written: No space left on device\n"))

    def test_a_file_is_not_shown_into_itself(self):
        with tempfile.NamedTemporaryFile() as file:
            file.write(DAY.read_bytes())
            file.flush()
            self.assertEqual(run("show", file.name, stdout=file)[::2], (2, "ptp: IN and OUT are one file\n"))

    def test_a_reader_that_goes_away_ends_it_in_silence(self):
        with tempfile.NamedTemporaryFile() as file:
            file.write(long_day(3000))
            file.flush()
            script = f"'{PTP}' show '{file.name}' 2>'{file.name}.said' | head -n 1"
            self.addCleanup(os.unlink, file.name + ".said")
            subprocess.run(["sh", "-c", script], stdout=subprocess.DEVNULL, timeout=60, check=True)
            self.assertEqual(pathlib.Path(file.name + ".said").read_text(), "")

    def test_a_signal_ends_it(self):
        process = subprocess.Popen([PTP, "show"], stdin=subprocess.PIPE, stdout=subprocess.PIPE, stderr=subprocess.PIPE)
        process.stdin.write(DAY.read_bytes()[:48])
        process.stdin.flush()
        process.stdout.readline()
        process.send_signal(signal.SIGTERM)
        _, said = process.communicate(timeout=20)
        self.assertEqual((process.returncode, said), (1, b"ptp: ended by SIGTERM\n"))

    def test_entries_come_while_the_recording_does(self):
        process = subprocess.Popen([PTP, "show"], stdin=subprocess.PIPE, stdout=subprocess.PIPE)
        process.stdin.write(DAY.read_bytes()[:48])
        process.stdin.flush()
        self.assertEqual(process.stdout.readline(), b"0 OpenSession 0 Ok: SessionID 3, Parameter2 0, Parameter3 0\n")
        process.communicate(timeout=20)

    def peak(self, *words, data):
        """The most memory that a command held, in bytes."""
        script = "import resource, subprocess, sys; subprocess.run(sys.argv[1:], check=True, stdout=subprocess.DEVNULL); print(resource.getrusage(resource.RUSAGE_CHILDREN).ru_maxrss)"
        made = subprocess.run(["python3", "-c", script, PTP, *words], input=data, stdout=subprocess.PIPE, check=True, timeout=300)
        return int(made.stdout) * 1024

    def test_memory_does_not_grow_with_the_recording(self):
        day = long_day(4000)
        small, large = self.peak("show", "--layout", "crate", data=day), self.peak("show", "--layout", "crate", data=day * 12)
        self.assertLess(large - small, 8 * MEGABYTE)


class Page(unittest.TestCase):
    def setUp(self):
        folder = tempfile.TemporaryDirectory()
        self.addCleanup(folder.cleanup)
        self.folder = pathlib.Path(folder.name)

    def test_one_file_is_made(self):
        out = self.folder / "day.html"
        self.assertEqual(run("page", "--layout", "crate", DAY, out), (0, "", ""))
        self.assertTrue(out.read_text(encoding="utf-8").startswith("<!DOCTYPE html>"))
        self.assertEqual(sorted(path.name for path in self.folder.iterdir()), ["day.html"])

    def test_to_standard_output(self):
        status, text, said = run("page", DAY, "/dev/stdout")
        self.assertEqual((status, said, text[-8:]), (0, "", "</html>\n"))

    def test_a_report_of_mend(self):
        mended, report, out = self.folder / "mended", self.folder / "report", self.folder / "page.html"
        report.write_text(run("mend", EXAMPLES / "damaged-day.recording", mended)[2])
        self.assertEqual(run("page", "--report", report, mended, out), (0, "", ""))
        self.assertIn("that mend dropped", out.read_text(encoding="utf-8"))

    def test_more_entries_than_a_page_holds(self):
        long = self.folder / "long.recording"
        long.write_bytes(b"\x06\0\0\0\x03\0" * 100_001)
        self.assertEqual(run("page", long, self.folder / "page.html"), (1, "", "ptp: the recording has more than 100,000 entries, which is too much for a page\n"))
        self.assertEqual([path.name for path in self.folder.iterdir()], ["long.recording"])

    def test_what_is_wrong_is_told_and_out_stays(self):
        out = self.folder / "page.html"
        out.write_text("as it was")
        for words, status in (([DAY, self.folder / "none" / "page.html"], 2), ([self.folder / "missing", out], 2), ([out, out], 2),
                              (["--report", DAY, DAY, out], 1), (["--report", self.folder / "missing", DAY, out], 2), ([DAY, self.folder], 2)):
            told = run("page", *words)
            self.assertEqual(told[:2], (status, ""), words)
            self.assertRegex(told[2], r"\Aptp: [^\n]+\n\Z")
        self.assertEqual((out.read_text(), len(list(self.folder.iterdir()))), ("as it was", 1))


if __name__ == "__main__":
    unittest.main()
