"""A folder of a test's own, and the door that is tested: the repository's ./ptp, or the installed one that PTP_DOOR names."""

import os
import pathlib
import shutil
import signal
import tempfile
import unittest

from door.tests.sandbox import ROOT, result

PTP = os.environ.get("PTP_DOOR") or str(ROOT / "ptp")
IS_INSTALLED = "PTP_DOOR" in os.environ
EXAMPLES = ROOT / "examples"
DAY = (EXAMPLES / "day.recording").read_bytes()
DAMAGED = (EXAMPLES / "damaged-day.recording").read_bytes()
MENDED = (EXAMPLES / "damaged-day.mended").read_bytes()
REPORT = (EXAMPLES / "damaged-day.report").read_text()
# What stands in OUT before.
BEFORE = b"as it was"
SENTENCE = r"\A(\d+ dropped \d+\n)*ptp: [^\n]+\n\Z"


def by_default():
    """Signals as a terminal's shell has them: whoever runs the tests may have some ignored."""
    for number in (signal.SIGHUP, signal.SIGINT, signal.SIGQUIT, signal.SIGTERM):
        signal.signal(number, signal.SIG_DFL)


class Place(unittest.TestCase):
    def setUp(self):
        self.folder = pathlib.Path(tempfile.mkdtemp())
        self.folder.chmod(0o755)
        self.addCleanup(shutil.rmtree, self.folder)
        self.given, self.out = self.folder / "given", self.folder / "out"
        self.given.write_bytes(DAMAGED)

    def ptp(self, *words, **more):
        return result([PTP, *words], cwd=more.pop("cwd", self.folder), **more)

    def mend(self, out="out", **more):
        return self.ptp("mend", "given", out, **more)

    def names(self):
        return sorted(path.name for path in self.folder.iterdir())

    def refused(self, answer, status, named=""):
        """Nothing on standard output, and one sentence that names it."""
        self.assertEqual(answer[:2], (status, ""), answer)
        self.assertRegex(answer[2], SENTENCE)
        self.assertIn(named, answer[2])
