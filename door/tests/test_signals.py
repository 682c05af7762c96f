"""Signals, at many places in time: OUT is as it was and nothing is left beside it, or the work was done and all of it is there."""

import os
import signal
import subprocess
import time
import unittest

from door.tests.place import BEFORE, DAY, PTP, Place, by_default

ENDING = (signal.SIGTERM, signal.SIGINT, signal.SIGQUIT, signal.SIGHUP)
TIMES = 50
LONG = DAY * 12_000
DROPPED = b"\xff\xff"


class Signals(Place):
    def started(self, *words, **more):
        return subprocess.Popen(
            [PTP, *words], cwd=self.folder, stdout=subprocess.PIPE, stderr=subprocess.PIPE, start_new_session=True, preexec_fn=by_default, **more)

    def whole_time(self):
        began = time.monotonic()
        self.assertEqual(self.mend()[0], 0)
        return time.monotonic() - began

    def test_signals_while_mending(self):
        """To the command alone and to all of its group, as a terminal does."""
        self.given.write_bytes(DROPPED + LONG)
        whole, ended = self.whole_time(), set()
        for turn in range(TIMES):
            self.out.write_bytes(BEFORE)
            running = self.started("mend", "given", "out")
            time.sleep(whole * 1.1 * turn / TIMES)
            send = os.kill if turn % 2 else os.killpg
            send(running.pid, ENDING[turn % len(ENDING)])
            _, said = running.communicate(timeout=60)
            ended.add(running.returncode)
            self.judge(running.returncode, said.decode(), turn)
        self.assertIn(1, ended)  # some came in time; how many came too late is the machine's

    def judge(self, status, said, turn):
        self.assertEqual(self.names(), ["given", "out"], turn)
        if status == 0:
            self.assertEqual(self.out.stat().st_size, len(LONG), turn)
            self.assertRegex(said, r"\A0 dropped 2\nkept [^\n]+\n\Z")
        else:
            self.assertEqual(self.out.read_bytes(), BEFORE, turn)
            self.assertNotIn("kept", said, turn)
            self.assertTrue(self.was_ended_by(ENDING[turn % len(ENDING)], status, said), (turn, status, said))

    def was_ended_by(self, number, status, said):
        """Before Python is started the signal ends it as any program; from then on a sentence does."""
        return (status, said) in ((-number, ""), (1, f"ptp: ended by {number.name}\n"))

    def test_a_signal_while_a_fifo_waits_for_its_reader(self):
        os.mkfifo(self.folder / "fifo")
        running = self.started("mend", "given", "fifo")
        time.sleep(2)  # until it listens, on a machine with other work too
        running.terminate()
        _, said = running.communicate(timeout=10)
        self.assertEqual((running.returncode, said.decode()), (1, "ptp: ended by SIGTERM\n"))


if __name__ == "__main__":
    unittest.main()
