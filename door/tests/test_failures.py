"""Reads and writes that fail, injected: one sentence says what failed and why, the listing stops without its last line, and the status is 1.
Where the reader of a pipe has gone, it ends quietly, with 1."""

import os
import pty
import re
import signal
import subprocess
import tempfile
import time
import tty
import unittest

from door.tests.sandbox import ROOT, device, read_some, result

PTP = ROOT / "ptp"
EXAMPLES = ROOT / "examples"
DAY = EXAMPLES / "day.recording"
LAST_LINE = re.compile(rb"^records \d+ bytes \d+\n\Z", re.MULTILINE)


def terminal():
    """Both ends of a pseudo-terminal that changes no byte. It is hung up where the first is closed."""
    ours, theirs = pty.openpty()
    tty.setraw(theirs)
    return ours, theirs


def started(**ends):
    return subprocess.Popen([PTP, "list"], stderr=subprocess.PIPE, start_new_session=True, **ends)


def ended(running):
    """Its status, what it still wrote, and what it said; it may not take long."""
    try:
        out, said = running.communicate(timeout=60)
    except subprocess.TimeoutExpired:
        os.killpg(running.pid, signal.SIGKILL)
        raise
    return running.returncode, out or b"", said.decode()


class Failures(unittest.TestCase):
    def failed(self, status, out, said, why):
        self.assertEqual(status, 1)
        self.assertRegex(said, rf"\A[^\n]*{why}[^\n]*\n\Z")
        self.assertIsNone(LAST_LINE.search(out), out[-200:])

    def test_a_folder_as_standard_input(self):
        folder = os.open(EXAMPLES, os.O_RDONLY | os.O_DIRECTORY)
        self.addCleanup(os.close, folder)
        status, out, said = result([PTP, "list"], stdin=folder)
        self.failed(status, out.encode(), said, "a folder")

    def test_a_file_that_cannot_be_read(self):
        status, out, said = result([PTP, "list", "/proc/self/mem"])
        self.failed(status, out.encode(), said, "Input/output error")

    def test_no_space_left(self):
        for words in ((), ("--check",)):
            with self.subTest(words), self.full() as full:
                ended = subprocess.run([PTP, "list", *words, DAY], stdout=full, stderr=subprocess.PIPE, timeout=60)
                self.failed(ended.returncode, b"", ended.stderr.decode(), "No space left on device")

    def test_a_closed_standard_input(self):
        status, out, said = result(["sh", "-c", f"'{PTP}' list <&-"])
        self.failed(status, out.encode(), said, "standard input")

    def test_a_closed_pipe(self):
        running = started(stdin=self.long_recording(), stdout=subprocess.PIPE)
        self.assertTrue(read_some(running.stdout))
        running.stdout.close()
        self.assertEqual(ended(running), (1, b"", ""))

    def test_a_terminal_hung_up_while_it_is_read(self):
        ours, theirs = terminal()
        running = started(stdin=theirs, stdout=subprocess.PIPE)
        os.close(theirs)
        data = DAY.read_bytes()
        os.write(ours, data[:len(data) // 2])
        out = read_some(running.stdout)
        self.assertTrue(out)
        time.sleep(1)  # so that the program waits for more: who reads after the end of the line sees an end of file
        os.close(ours)
        status, more, said = ended(running)
        self.failed(status, out + more, said, "Input/output error")

    def test_a_terminal_hung_up_while_it_is_written(self):
        ours, theirs = terminal()
        running = started(stdin=self.long_recording(), stdout=theirs)
        os.close(theirs)
        out = os.read(ours, 100)
        self.assertTrue(out)
        os.close(ours)
        status, _, said = ended(running)
        self.failed(status, out, said, "Input/output error")

    def test_mending_that_fails_says_so_and_does_not_count(self):
        folder = os.open(EXAMPLES, os.O_RDONLY | os.O_DIRECTORY)
        self.addCleanup(os.close, folder)
        with self.full() as full, DAY.open("rb") as day:
            for given, out, why in ((folder, subprocess.DEVNULL, "a folder"), (day, full, "No space left on device")):
                ended = subprocess.run([PTP, "mend"], stdin=given, stdout=out, stderr=subprocess.PIPE, timeout=60)
                self.assertEqual(ended.returncode, 1)
                self.assertRegex(ended.stderr.decode(), rf"{why}[^\n]*\n\Z")

    def full(self):
        """An open file that takes nothing: a device in a folder of the test's own."""
        folder = tempfile.TemporaryDirectory()
        self.addCleanup(folder.cleanup)
        path = device(os.path.join(folder.name, "full"), 7)
        if not path:
            self.skipTest("no device can be made here")
        return open(path, "wb")

    def long_recording(self):
        """Notes, more than any buffer holds, as an open file."""
        file = tempfile.TemporaryFile()
        self.addCleanup(file.close)
        file.write((EXAMPLES / "notes.recording").read_bytes() * 20_000)
        file.seek(0)
        return file


if __name__ == "__main__":
    unittest.main()
