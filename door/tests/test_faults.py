"""Failures of each read and each write, injected one at a time: one sentence, status 1, and OUT as it was; or all was done."""

import errno
import itertools
import os
import pathlib
import shutil
import subprocess
import tempfile
import unittest

from door.tests.place import BEFORE, DAMAGED, DAY, EXAMPLES, MENDED, REPORT, Place

MOST = 40
COPY = (EXAMPLES / "two-records.recording").read_bytes()


@unittest.skipUnless(shutil.which("cc"), "without a C compiler nothing is injected")
class Faults(Place):
    # Each with what it is given, and OUT and the report where all is done.
    COMMANDS = (("mend", DAMAGED, (MENDED, REPORT)), ("copy", COPY, (COPY, "left out 0 records 0 bytes\n")))

    @classmethod
    def setUpClass(cls):
        cls.made = pathlib.Path(tempfile.mkdtemp())
        subprocess.run(["cc", "-shared", "-fPIC", "-o", cls.made / "faults.so", pathlib.Path(__file__).with_name("faults.c"), "-ldl"], check=True)

    @classmethod
    def tearDownClass(cls):
        shutil.rmtree(cls.made)

    def runs(self, words, program, function, code):
        """A run for each call that can fail, until none is left."""
        seen = self.made / "seen"
        for count in range(1, MOST):
            seen.unlink(missing_ok=True)
            self.out.write_bytes(BEFORE)
            fault = {"LD_PRELOAD": str(self.made / "faults.so"), "FAULT": f"{program}:{function}:{count}:{code}", "FAULT_SEEN": str(seen)}
            answer = self.ptp(*words, env={**os.environ, **fault})
            if not seen.exists():
                self.assertGreater(count, 1, (program, function))
                return
            yield answer, f"{program} {function} {count}"
        self.fail(f"{program} {function} comes to no end")

    def judge(self, answer, where, whole):
        """`whole` is OUT and the report where all is done."""
        status, out, said = answer
        self.assertEqual((out, self.names()), ("", ["given", "out"]), where)
        if status == 0:
            self.assertEqual((self.out.read_bytes(), said), whole, where)
        else:
            self.assertEqual((status, self.out.read_bytes()), (1, BEFORE), where)
            self.assertRegex(said, r"(Input/output error|ended without a whole report)[^\n]*\n\Z", where)
            self.assertNotRegex(said, "(?m)^(kept|left out) ", where)

    def test_the_programs_reads_and_writes(self):
        for (command, data, whole), function in itertools.product(self.COMMANDS, ("read", "write")):
            self.given.write_bytes(data)
            for answer, where in self.runs((command, "given", "out"), command, function, errno.EIO):
                self.judge(answer, where, whole)

    def test_a_call_that_a_signal_interrupts_is_made_again(self):
        for (command, data, whole), function in itertools.product(self.COMMANDS, ("read", "write")):
            self.given.write_bytes(data)
            for (status, _, said), where in self.runs((command, "given", "out"), command, function, errno.EINTR):
                self.assertEqual((status, (self.out.read_bytes(), said)), (0, whole), where)

    def test_the_doors_own_calls(self):
        """But for the last two, whose failure comes when OUT is there: the folder's sync and the report. It is told, too."""
        self.given.write_bytes(COPY)
        for function, late in (("fchmod", 0), ("renameat", 0), ("fsync", 1), ("write", 1)):
            for answer, where in self.runs(("copy", "given", "out"), "python3", function, errno.EIO):
                if self.out.read_bytes() != BEFORE and late:
                    self.assertEqual((answer[0], self.out.read_bytes()), (1, COPY), where)
                else:
                    self.judge(answer, where, None)

    def test_a_listing_that_fails_has_no_last_line(self):
        self.given.write_bytes(DAY)
        for words in (("list", "given"), ("list", "--check", "given")):
            for function in ("read", "write"):
                for (status, out, said), where in self.runs(words, "list", function, errno.EIO):
                    self.assertEqual(status, 1, where)
                    self.assertNotIn("\nrecords ", out, where)
                    self.assertRegex(said, r"\A[^\n]*Input/output error\n\Z", where)

    def test_settings_that_fail_show_nothing(self):
        self.given.write_bytes((EXAMPLES / "reel.settings").read_bytes())
        for function in ("read", "write"):
            for (status, out, said), where in self.runs(("settings", "given"), "ask", function, errno.EIO):
                self.assertEqual((status, out), (1, ""), where)
                self.assertRegex(said, r"\A[^\n]+\n\Z", where)


if __name__ == "__main__":
    unittest.main()
