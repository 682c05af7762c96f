"""list --follow: a file that grows, its caller, its reader, and what was written anew."""

import os
import select
import signal
import subprocess
import time
import unittest

from door.tests.place import DAY, EXAMPLES, PTP, Place, by_default
from door.tests.sandbox import read_some

LINES = (EXAMPLES / "day.listing").read_bytes().rsplit(b"records ", 1)[0]
# Behind so many lines a record begins, at the place that the next line tells; the file has a part of it at first.
FIRST = b"".join(LINES.splitlines(keepends=True)[:20])
HALF = int(LINES[len(FIRST):].split()[0]) + 7
SOON = 10


class Following(Place):
    def setUp(self):
        super().setUp()
        self.grows = self.folder / "grows"
        self.grows.write_bytes(DAY[:HALF])

    def started(self, *words, **ends):
        ends.setdefault("stdout", subprocess.PIPE)
        running = subprocess.Popen(
            [PTP, "list", "--follow", *words, self.grows], stderr=subprocess.PIPE, start_new_session=True, preexec_fn=by_default, **ends)
        self.addCleanup(running.stderr.close)
        if running.stdout:
            self.addCleanup(running.stdout.close)
        return running

    def seen(self, running, due):
        """The listing up to so many bytes."""
        got = b""
        while len(got) < due and (more := read_some(running.stdout)):
            got += more
        return got

    def half_listed(self, *words, **ends):
        running = self.started(*words, **ends)
        self.assertEqual(self.seen(running, len(FIRST)), FIRST)
        return running

    def ended(self, running):
        status = running.wait(SOON)
        return status, running.stdout.read() if running.stdout else b"", running.stderr.read().decode()

    def grow(self):
        with self.grows.open("ab") as more:
            more.write(DAY[HALF:])

    def test_what_is_appended_is_listed_until_it_is_interrupted(self):
        for words in ((), ("--check",)):
            self.grows.write_bytes(DAY[:HALF])
            running = self.half_listed(*words)
            self.grow()
            self.assertEqual(FIRST + self.seen(running, len(LINES) - len(FIRST)), LINES)
            os.kill(running.pid, signal.SIGINT)
            self.assertEqual(self.ended(running), (1, b"", "ptp: ended by SIGINT\n"))

    def test_a_refused_record_ends_it(self):
        self.grows.write_bytes((EXAMPLES / "damaged-kind.recording").read_bytes())
        due = (EXAMPLES / "damaged-kind.listing").read_bytes()
        self.assertEqual(self.ended(self.started()), (0, due, ""))
        self.assertEqual(self.ended(self.started("--check")), (1, due, ""))

    def test_a_file_that_is_cut_or_written_anew_ends_it(self):
        for what in ("cut short", "written anew"):
            self.grows.write_bytes(DAY[:HALF])
            running = self.half_listed()
            with self.grows.open("r+b") as file:
                if what == "cut short":
                    file.truncate(0)
                else:
                    file.write(bytes(len(DAY)))
            status, more, said = self.ended(running)
            self.assertEqual((status, more), (1, b""))
            self.assertRegex(said, rf"\Aptp: \S+grows was {what}[^\n]*\n\Z")

    def test_it_ends_with_its_caller(self):
        """Whoever waits for the end of its output is not left waiting."""
        ours, theirs = os.pipe()
        script = f'"{PTP}" list --follow "{self.grows}"; :'
        caller = subprocess.Popen(["sh", "-c", script], stdout=theirs, stderr=subprocess.DEVNULL, start_new_session=True, preexec_fn=by_default)
        os.close(theirs)
        with os.fdopen(ours, "rb") as output:
            self.assertTrue(read_some(output))
            caller.kill()
            caller.wait()
            late = time.monotonic() + SOON
            while (more := self.next_of(output, late)) not in (b"", None):
                self.assertNotIn(b"records ", more)
            self.assertEqual(more, b"")

    def next_of(self, output, late):
        ready, _, _ = select.select([output], [], [], max(0, late - time.monotonic()))
        return os.read(output.fileno(), 1 << 16) if ready else None

    def test_killed_itself_it_leaves_no_last_line(self):
        running = self.half_listed()
        os.kill(running.pid, signal.SIGKILL)
        running.wait(SOON)
        self.assertNotIn(b"records ", running.stdout.read())

    def test_it_ends_with_its_reader(self):
        running = self.half_listed()
        running.stdout.close()
        self.assertEqual((running.wait(SOON), running.stderr.read()), (1, b""))

    def test_nohup_outlives_its_caller(self):
        script = f'nohup "{PTP}" list --follow "{self.grows}" >"{self.folder}/listing" 2>/dev/null & echo $!'
        number = int(subprocess.run(["sh", "-c", script], stdout=subprocess.PIPE, timeout=SOON).stdout)
        self.addCleanup(os.kill, number, signal.SIGKILL)
        time.sleep(1)
        self.grow()
        late = time.monotonic() + SOON
        while (self.folder / "listing").read_bytes() != LINES and time.monotonic() < late:
            time.sleep(0.1)
        self.assertEqual((self.folder / "listing").read_bytes(), LINES)

    def test_a_full_disk_ends_it(self):
        limit = ["sh", "-c", f'ulimit -f 1; exec "{PTP}" list --follow $0 "{self.grows}" >"{self.folder}/listing"']
        self.grows.write_bytes(DAY * 10)
        for words in ("--check", "--follow"):
            run = subprocess.run([*limit, words], stderr=subprocess.PIPE, timeout=SOON)
            self.assertEqual(run.returncode, 1)
            self.assertRegex(run.stderr.decode(), r"\A[^\n]*File too large\n\Z")


if __name__ == "__main__":
    unittest.main()
