"""What OUT owes: each kind of file as OUT, by the real programs."""

import os
import resource
import socket
import stat
import subprocess
import threading
import unittest

from door.tests.place import BEFORE, DAMAGED, DAY, EXAMPLES, IS_INSTALLED, MENDED, PTP, REPORT, Place
from door.tests.sandbox import device, result

NOBODY = 65534
IS_ROOT = os.geteuid() == 0
LONG = DAY * 2000


class Files(Place):
    def test_a_new_file_has_the_mode_of_the_umask(self):
        for mask, mode in ((0o022, 0o644), (0o077, 0o600), (0o002, 0o664)):
            self.out.unlink(missing_ok=True)
            self.assertEqual(self.mend(umask=mask), (0, "", REPORT))
            self.assertEqual((self.out.read_bytes(), stat.S_IMODE(self.out.stat().st_mode)), (MENDED, mode))

    def test_mode_and_owner_are_kept(self):
        for mode in (0o600, 0o640, 0o666):
            self.out.write_bytes(BEFORE)
            self.out.chmod(mode)
            if IS_ROOT:
                os.chown(self.out, 1234, 4321)
            before = self.out.stat()
            self.assertEqual(self.mend(), (0, "", REPORT))
            after = self.out.stat()
            self.assertEqual((self.out.read_bytes(), after.st_mode, after.st_uid, after.st_gid), (MENDED, before.st_mode, before.st_uid, before.st_gid))

    def test_neighbours_stay(self):
        """Also one that is named by OUT and the number of the process."""
        (self.folder / "out.1").write_bytes(b"a rotated log")
        for command, data in (("copy", DAY), ("copy", DAMAGED), ("mend", DAMAGED)):
            self.given.write_bytes(data)
            result(["sh", "-c", f'printf mine >"out.$$"; exec "{PTP}" {command} given out'], cwd=self.folder)
            mine = [name for name in self.names() if name not in ("given", "out", "out.1")]
            self.assertEqual([(self.folder / name).read_bytes() for name in mine], [b"mine"], mine)
            (self.folder / mine[0]).unlink()
        self.assertEqual((self.folder / "out.1").read_bytes(), b"a rotated log")

    def test_a_read_only_file_stays(self):
        self.out.write_bytes(BEFORE)
        self.out.chmod(0o444)
        self.refused(self.mend(), 1, "read-only")
        self.assertEqual((self.out.read_bytes(), self.names()), (BEFORE, ["given", "out"]))

    def test_a_refused_copy_leaves_all_as_it_was(self):
        self.out.write_bytes(BEFORE)
        status, out, said = self.ptp("copy", "given", "out")
        self.assertEqual((status, out), (1, ""))
        self.assertRegex(said, r"\A\d+ refusal \d+( \d+)?\n\Z")
        self.assertEqual((self.out.read_bytes(), self.names()), (BEFORE, ["given", "out"]))

    def test_what_is_no_recording_is_not_mended_to_nothing(self):
        self.given.write_bytes(b"a letter to nobody")
        self.out.write_bytes(BEFORE)
        status, out, said = self.mend()
        self.assertEqual((status, out, self.out.read_bytes()), (1, "", BEFORE))
        self.assertRegex(said, r"\A0 dropped 18\nkept 0 records 0 bytes, dropped 1 stretches 18 bytes\nptp: nothing could be kept[^\n]*\n\Z")
        self.assertEqual(self.ptp("mend", input=b"a letter")[:2], (1, ""))

    def test_an_empty_recording_is_whole(self):
        self.given.write_bytes(b"")
        self.out.write_bytes(BEFORE)
        self.assertEqual(self.mend(), (0, "", "kept 0 records 0 bytes, dropped 0 stretches 0 bytes\n"))
        self.assertEqual(self.out.read_bytes(), b"")

    def test_names_that_cannot_be(self):
        self.refused(self.mend("x" * 300), 1, "File name too long")
        self.refused(self.mend(""), 2, "without a name")
        self.refused(self.mend("missing/out"), 2, "missing")
        self.refused(self.mend("given/out"), 2, "given")
        self.refused(self.mend("."), 2, "folder")
        self.assertEqual(self.names(), ["given"])

    def test_a_name_with_a_newline_is_not_its_neighbour(self):
        self.out.write_bytes(BEFORE)
        self.assertEqual(self.mend("out\n"), (0, "", REPORT))
        self.assertEqual(((self.folder / "out\n").read_bytes(), self.out.read_bytes()), (MENDED, BEFORE))
        self.refused(self.ptp("list", "missing\n"), 2, "'missing\\n'")

    def test_links(self):
        """To a file: the file is replaced, the link stays. To nothing: refused."""
        self.out.write_bytes(BEFORE)
        (self.folder / "link").symlink_to("out")
        self.assertEqual(self.mend("link")[0], 0)
        self.assertEqual((self.out.read_bytes(), os.readlink(self.folder / "link")), (MENDED, "out"))
        (self.folder / "dangling").symlink_to("nowhere")
        self.refused(self.mend("dangling"), 1, "dangling")
        self.assertEqual((os.readlink(self.folder / "dangling"), self.names()), ("nowhere", ["dangling", "given", "link", "out"]))

    def test_one_file_by_any_name(self):
        os.link(self.given, self.folder / "hard")
        (self.folder / "soft").symlink_to("given")
        for name in ("given", "./given", "hard", "soft", f"../{self.folder.name}/given"):
            self.refused(self.mend(name), 2, "one file")
        for script in ("mend given /dev/stdout >>given", "mend <given >>given", "list given >>given", "list - <given >>given"):
            self.refused(result(["sh", "-c", f'"{PTP}" {script}'], cwd=self.folder), 2, "one file")
        self.assertEqual(self.given.read_bytes(), DAMAGED)


class AsTheyAre(Place):
    """What is no regular file is written to and stays what it is."""

    def test_a_device_is_not_replaced(self):
        for name, minor, due in (("null", 3, (0, "", REPORT)), ("full", 7, None)):
            if not device(self.folder / name, minor):
                self.skipTest("no device can be made here")
            before = (self.folder / name).stat()
            answer = self.mend(name)
            after = (self.folder / name).stat()
            self.assertEqual((after.st_ino, after.st_rdev, after.st_mode), (before.st_ino, before.st_rdev, before.st_mode))
            if due:
                self.assertEqual(answer, due)
            else:
                self.assertEqual(answer[0], 1)
                self.assertIn("No space left on device", answer[2])
                self.assertNotIn("kept", answer[2])

    def test_a_fifo(self):
        os.mkfifo(self.folder / "fifo")
        got = []
        reader = threading.Thread(target=lambda: got.append((self.folder / "fifo").read_bytes()))
        reader.start()
        self.assertEqual(self.mend("fifo"), (0, "", REPORT))
        reader.join(10)
        self.assertEqual(got, [MENDED])
        self.assertTrue(stat.S_ISFIFO((self.folder / "fifo").stat().st_mode))

    def test_a_socket_is_told(self):
        with socket.socket(socket.AF_UNIX) as bound:
            bound.bind(str(self.folder / "socket"))
            self.refused(self.mend("socket"), 1, "socket cannot be written")
        self.assertTrue(stat.S_ISSOCK((self.folder / "socket").stat().st_mode))

    def test_open_files(self):
        for name in ("/dev/stdout", "/dev/fd/1", "/proc/self/fd/1"):
            run = subprocess.run([PTP, "mend", "given", name], cwd=self.folder, stdout=subprocess.PIPE, stderr=subprocess.PIPE, timeout=60)
            self.assertEqual((run.returncode, run.stdout, run.stderr.decode()), (0, MENDED, REPORT))
        self.out.write_bytes(BEFORE)
        for script in ("mend given /dev/stdout >>out", "mend given /dev/fd/3 3>>out"):
            self.out.write_bytes(BEFORE)
            self.assertEqual(result(["sh", "-c", f'"{PTP}" {script}'], cwd=self.folder), (0, "", REPORT))
            self.assertEqual(self.out.read_bytes(), BEFORE + MENDED)
        self.refused(result(["sh", "-c", f'"{PTP}" mend given /dev/stdout >&-'], cwd=self.folder), 1, "closed")


class NoRoom(Place):
    def failed(self, answer, reason):
        self.assertEqual(answer[:2], (1, ""))
        self.assertIn(reason, answer[2])
        self.assertNotIn("left out", answer[2])

    def test_a_limit_on_the_size_of_files(self):
        self.given.write_bytes(LONG)
        self.out.write_bytes(BEFORE)
        limit = len(LONG) // 2
        self.failed(self.ptp("copy", "given", "out", preexec_fn=lambda: resource.setrlimit(resource.RLIMIT_FSIZE, (limit, limit))), "File too large")
        self.assertEqual((self.out.read_bytes(), self.names()), (BEFORE, ["given", "out"]))

    @unittest.skipUnless(IS_ROOT, "only root mounts")
    def test_a_full_file_system(self):
        small = self.folder / "small"
        small.mkdir()
        if subprocess.run(["mount", "-t", "tmpfs", "-o", "size=256k", "none", small], stderr=subprocess.DEVNULL).returncode:
            self.skipTest("no file system can be mounted here; the limit on files stands for it")
        try:
            self.given.write_bytes(LONG)
            (small / "out").write_bytes(BEFORE)
            self.failed(self.ptp("copy", "given", "small/out"), "No space left on device")
            self.assertEqual(((small / "out").read_bytes(), os.listdir(small)), (BEFORE, ["out"]))
            (small / "filler").write_bytes(bytes(252 << 10))
            self.refused(self.ptp("settings", "small/row", "set", "6", "1", "AUINT64", ",".join(["7"] * 2000)), 1, "No space left on device")
            with (small / "listing").open("wb") as listing:
                for words in ((), ("--check",)):
                    run = subprocess.run([PTP, "list", *words, self.given], stdout=listing, stderr=subprocess.PIPE, timeout=60)
                    self.failed((run.returncode, "", run.stderr.decode()), "No space left on device")
                run = subprocess.run([PTP, "settings", EXAMPLES / "reel.settings"], stdout=listing, stderr=subprocess.PIPE, timeout=60)
                self.failed((run.returncode, "", run.stderr.decode()), "No space left on device")
        finally:
            subprocess.run(["umount", small], check=True)


@unittest.skipUnless(IS_ROOT and IS_INSTALLED, "root tries the installed door as another user")
class WithoutRights(Place):
    """As a user who may not write everywhere."""

    def mend_as_nobody(self, out):
        return self.mend(out, user=NOBODY, group=NOBODY, extra_groups=[])

    def test_a_folder_that_is_not_theirs(self):
        self.refused(self.mend_as_nobody("out"), 1, "Permission denied")
        self.out.write_bytes(BEFORE)
        self.refused(self.mend_as_nobody("out"), 1, "out may not be written")
        self.out.chmod(0o666)
        self.refused(self.mend_as_nobody("out"), 1, "Permission denied")
        self.assertEqual((self.out.read_bytes(), self.names()), (BEFORE, ["given", "out"]))

    def test_a_file_of_another_in_their_folder(self):
        """Where it may be written it is replaced, with its mode; its owner cannot be kept."""
        self.folder.chmod(0o777)
        self.out.write_bytes(BEFORE)
        self.refused(self.mend_as_nobody("out"), 1, "out may not be written")
        self.out.chmod(0o666)
        self.assertEqual(self.mend_as_nobody("out"), (0, "", REPORT))
        after = self.out.stat()
        self.assertEqual((self.out.read_bytes(), stat.S_IMODE(after.st_mode), after.st_uid), (MENDED, 0o666, NOBODY))

    def test_a_sticky_folder(self):
        self.folder.chmod(0o1777)
        self.out.write_bytes(BEFORE)
        self.out.chmod(0o666)
        self.refused(self.mend_as_nobody("out"), 1, "out cannot be written")
        self.assertEqual((self.out.read_bytes(), self.names()), (BEFORE, ["given", "out"]))

    def test_a_recording_that_may_not_be_read(self):
        self.given.chmod(0o600)
        self.refused(self.mend_as_nobody("out"), 2, "given cannot be read")


class Stored(Place):
    """settings FILE set .."""
    def set(self, *words):
        return self.ptp("settings", "row", "set", *words)

    def test_the_example_stored_entry_by_entry(self):
        """In the order of the example, each entry for the second time: it is replaced in place."""
        entries = ((("6", "0x500d", "UINT32"), "80"), (("6", "0x500d", "0x0006"), "100", "00417"), (("6", "53253", "STRING"), "Kodak 5219"),
                   (("6", "0xd005", "string"), "", "00417"), (("6", "0x500d", "UINT32"), "40", ""), (("0xffffffff", "0xd101", "AUINT16"), "28,40,56"))
        for key, _, *serial in entries:
            self.assertEqual(self.set(*key, "7", *serial), (0, "", ""))
        for key, value, *serial in entries:
            self.assertEqual(self.set(*key, value, *serial), (0, "", ""))
        made, expected = (self.folder / "row").read_bytes(), (EXAMPLES / "reel.settings").read_bytes()
        self.assertEqual(made, expected[:len(made)])
        self.assertEqual(len(expected) - len(made), 14)  # the entry of no type has no value to set
        self.assertEqual(self.names(), ["given", "row"])

    def remove(self, *words):
        return self.ptp("settings", "row", "remove", *words)

    def test_what_is_removed_is_held_no_more(self):
        self.set("6", "1", "UINT8", "1")
        one = (self.folder / "row").read_bytes()
        self.set("6", "1", "STRING", "A", "00417")
        both = (self.folder / "row").read_bytes()
        for words in (("6", "2"), ("7", "1"), ("6", "1", "00418"), ("6", "1", "")):
            self.assertEqual(self.remove(*words), (0, "no such setting is held\n", ""))
            self.assertEqual((self.folder / "row").read_bytes(), both)
        self.assertEqual(self.remove("6", "1", "00417"), (0, "", ""))
        self.assertEqual((self.folder / "row").read_bytes(), one)
        self.assertEqual(self.remove("6", "1"), (0, "", ""))
        self.assertEqual((self.folder / "row").read_bytes(), b"")

    def test_the_ends_of_each_type(self):
        for width, name in ((8, "INT8"), (16, "INT16"), (32, "INT32"), (64, "INT64")):
            for least, most, kind in ((-(1 << width - 1), (1 << width - 1) - 1, name), (0, (1 << width) - 1, f"U{name}")):
                for value in (least, most):
                    self.assertEqual(self.set("6", "1", kind, str(value)), (0, "", ""))
                    self.assertIn(f" {value}\n", self.ptp("settings", "row")[1])
                self.refused(self.set("6", "1", kind, str(least - 1)), 2, str(least - 1))
                self.refused(self.set("6", "1", kind, str(most + 1)), 2, str(most + 1))

    def test_a_row_that_is_refused_stays(self):
        (self.folder / "row").write_bytes(b"no row")
        self.refused(self.set("6", "1", "UINT8", "1"), 1, "refusal 17")
        self.assertEqual((self.folder / "row").read_bytes(), b"no row")

    def test_256_entries_and_one_more(self):
        one = (EXAMPLES / "old-reel.settings").read_bytes()[:18]
        row = b"".join(one[:6] + number.to_bytes(4, "little") + one[10:] for number in range(256))
        (self.folder / "row").write_bytes(row)
        self.refused(self.set("256", "0x500d", "UINT32", "1"), 1, "refusal 18")
        self.assertEqual((self.folder / "row").read_bytes(), row)
        self.assertEqual(self.set("255", "0x500d", "UINT32", "80"), (0, "", ""))
        self.assertEqual((self.folder / "row").read_bytes(), row)

    def test_two_stores_at_once_are_both_kept(self):
        both = [subprocess.Popen([PTP, "settings", "row", "set", "6", str(code), "UINT8", "1"], cwd=self.folder) for code in range(8)]
        self.assertEqual([one.wait(60) for one in both], [0] * 8)
        self.assertIn("entries 8 ", self.ptp("settings", "row")[1])


if __name__ == "__main__":
    unittest.main()
