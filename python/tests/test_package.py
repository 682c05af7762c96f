"""The package by itself: its refusals, what it makes, how it is found and installed."""

import os
import pathlib
import pickle
import random
import re
import subprocess
import sys
import tempfile
import unittest

import ptp_proved as ptp
from ptp_proved.declared import declarations

ROOT = pathlib.Path(__file__).resolve().parent.parent.parent
PACKAGE = ROOT / "python"
LIBRARY = pathlib.Path(os.environ.get("PTP_LIBRARY") or ROOT / "target" / "native" / "libptp.so.0").resolve()
DAY = (ROOT / "examples" / "day.recording").read_bytes()


def said(code, **environment):
    """What a fresh Python says of some code, and how it ends."""
    run = subprocess.run([sys.executable, "-c", code], env={"PATH": os.environ["PATH"], **environment}, cwd="/", capture_output=True, text=True)
    return run.returncode, run.stdout + run.stderr


class Values(unittest.TestCase):
    def test_numbers_of_128_bits_are_one(self):
        for code, number in ((9, -1), (9, -(1 << 127)), (10, (1 << 128) - 1), (9, 5 << 64)):
            value = ptp.PtpValue.of(code, number)
            self.assertEqual((ptp.PtpValue.read(code, value.bytes)[0], len(value.bytes)), (value, 16))
        row = ptp.PtpValue.of(0x4009, (-1, 1 << 126))
        self.assertEqual(ptp.PtpValue.read(0x4009, row.bytes)[0].value, (-1, 1 << 126))

    def test_what_a_type_cannot_say_is_refused(self):
        for code, value in ((2, 256), (2, -1), (1, 128), (0xFFFF, 5), (4, "A"), (0x4002, 5), (0, 5), (6, None)):
            with self.assertRaises(ptp.Refusal) as caught:
                ptp.encode(code, value)
            self.assertEqual(caught.exception.name, "PLACE")

    def test_text_of_lone_surrogates_and_too_long(self):
        for text, name in (("\ud800", "TEXT"), ("A" * 255, "COUNT"), ("\U0001F3AC" * 128, "COUNT")):
            with self.assertRaises(ptp.Refusal) as caught:
                ptp.write_text(text)
            self.assertEqual(caught.exception.name, name)
        self.assertEqual(ptp.read_text(ptp.write_text("\U0001F3AC" * 127))[0], "\U0001F3AC" * 127)

    def test_a_refusal_has_number_name_and_place(self):
        with self.assertRaises(ptp.Refusal) as caught:
            ptp.PtpDeviceInfo.decode(b"\x64\0\0")
        why = caught.exception
        self.assertEqual((why.number, why.name, why.place, str(why)), (1, "END", 2, "the input stops before a field is whole (at byte 2)"))
        self.assertEqual(pickle.loads(pickle.dumps(why)), why)

    def test_a_number_out_of_its_type_is_no_call(self):
        for call in (lambda: ptp.command_name(65_536), lambda: ptp.Session().command(1, [1 << 32]), lambda: ptp.item(b"", -1, 0x4002, 0)):
            self.assertRaises(OverflowError, call)


class Readers(unittest.TestCase):
    def test_each_integer_and_array(self):
        for code, name in enumerate(("i8", "u8", "i16", "u16", "i32", "u32", "i64", "u64", "i128", "u128"), 1):
            number = -2 if code % 2 else 2
            data = ptp.encode(code, number) + ptp.encode(0x4000 + code, (number, 1))
            reader = ptp.PtpReader(data)
            self.assertEqual((getattr(reader, f"read_ptp_{name}")(), getattr(reader, f"read_ptp_{name}_vec")()), (number, (number, 1)))
            reader.expect_end()

    def test_a_refused_field_leaves_the_place(self):
        reader = ptp.PtpReader(b"\x34\x12\x02A\0\0\0\x05")
        self.assertEqual((reader.read_ptp_u16(), reader.read_ptp_str(), reader.place), (0x1234, "A", 7))
        self.assertRaises(ptp.Refusal, reader.read_ptp_u32)
        with self.assertRaises(ptp.Refusal) as caught:
            reader.expect_end()
        self.assertEqual((reader.place, caught.exception.name), (7, "TRAIL"))


class Sessions(unittest.TestCase):
    def test_a_day_is_recorded_and_read(self):
        session, recorder = ptp.Session(), ptp.Recorder()
        recorder.sent(session.open_session())
        recorder.received(ptp.write_container(3, 0x2001, 0, b""))
        made = session.command(0x1016, [0x500D], b"\x50\0\0\0")
        recorder.sent(made)
        self.assertEqual((made.number, session.number, len(made.command), len(made.data)), (1, 2, 16, 16))
        kinds = [(record.kind, record.container.kind) for _, record in ptp.records(recorder.bytes)]
        self.assertEqual(kinds, [(2, 1), (1, 3), (2, 1), (2, 2)])

    def test_a_refused_command_leaves_the_session(self):
        session = ptp.Session(7)
        self.assertRaises(ptp.Refusal, session.command, 0x1001, [0] * 6)
        self.assertEqual(session.number, 7)


class Tables(unittest.TestCase):
    def test_names_get_room_as_they_come(self):
        objects = ptp.Objects()
        folder = objects.add(0, 1, "REEL").place
        for handle in range(2, 1024):
            objects.add(folder, handle, "N" * 250)
        with self.assertRaises(ptp.Refusal) as caught:
            objects.add(0, 9, "one more")
        self.assertEqual((caught.exception.name, len(objects), len(objects.folder_paths())), ("TAKEN", 1024, 1024))
        objects.delete(folder)
        self.assertEqual((objects.walk(), objects.find(1), objects.add(0, 9, "again").place), ([0], None, 1))


class Bytes(unittest.TestCase):
    """Every reader on bytes of chance: an answer or a refusal."""

    readers = [ptp.PtpDeviceInfo.decode, ptp.PtpObjectInfo.decode, ptp.PtpStorageInfo.decode, ptp.object_handles, ptp.object_count, ptp.storage_info,
               lambda data: ptp.PtpPropInfo.decode(ptp.PropLayout.Crate, data), lambda data: ptp.PtpPropInfo.decode(ptp.PropLayout.Book, data),
               ptp.read_container, ptp.read_record, ptp.read_packet, ptp.read_text, ptp.utf8, lambda data: ptp.Settings(ptp.Edition.Two, data),
               lambda data: ptp.find_answer(data, 1), ptp.copy_recording, ptp.mend_recording, ptp.from_network,
               lambda data: ptp.to_network(data, ptp.DataDirection.FromCamera), lambda data: list(ptp.records(data)),
               lambda data: b"".join(ptp.list_recording(data))]

    def test_nothing_but_a_refusal_is_raised(self):
        rng = random.Random(7)
        for count in range(400):
            start = rng.randrange(len(DAY))
            data = rng.choice([rng.randbytes(rng.randrange(80)), DAY[start:start + rng.randrange(300)]])
            for read in self.readers:
                for given in (data, bytearray(data), memoryview(data)):
                    try:
                        read(given)
                    except ptp.Refusal:
                        pass


class Found(unittest.TestCase):
    def test_every_exported_function_is_declared_once(self):
        self.assertEqual(len(declarations()), len(set(declarations())))

    def test_where_there_is_no_library_the_import_says_so_in_one_sentence(self):
        with tempfile.TemporaryDirectory() as folder:
            status, text = said("import ptp_proved", PYTHONPATH=str(PACKAGE), PTP_LIBRARY=f"{folder}/none.so")
        last = text.strip().split("\n")[-1]
        self.assertEqual(status, 1)
        self.assertRegex(last, r"^ImportError: ptp_proved needs the proved library libptp\.so\.0, ")

    def test_it_is_found_by_its_name(self):
        self.assertEqual(said("import ptp_proved; print(ptp_proved.response_name(0x2001))", PYTHONPATH=str(PACKAGE), PTP_LIBRARY=str(LIBRARY)), (0, "Ok\n"))

    def test_pip_installs_it_without_a_network(self):
        with tempfile.TemporaryDirectory() as folder:
            words = [sys.executable, "-m", "pip", "install", "--no-index", "--no-cache-dir", "--disable-pip-version-check", "-q", "--target", folder, str(PACKAGE)]
            run = subprocess.run(words, env={**os.environ, "PTP_LIBRARY": str(LIBRARY)}, capture_output=True, text=True)
            if "No module named pip" in run.stderr:
                self.skipTest("there is no pip")
            self.assertEqual(run.returncode, 0, run.stderr)
            code = "import ptp_proved.page, ptp_proved.quick; print(ptp_proved.__file__, ptp_proved.code_name('event', 0x4002))"
            self.assertEqual(said(code, PYTHONPATH=folder), (0, f"{folder}/ptp_proved/__init__.py ObjectAdded\n"))


class Example(unittest.TestCase):
    def test_what_the_page_of_the_package_says(self):
        blocks = re.findall(r"```python\n(.*?)```", (PACKAGE / "README.md").read_text(encoding="utf-8"), re.S)
        self.assertEqual(len(blocks), 2)
        for block in blocks:
            exec(block.replace('"examples/', f'"{ROOT}/examples/'), {})

    def test_the_shutters_of_the_day(self):
        run = subprocess.run([sys.executable, PACKAGE / "examples" / "shutters.py", "crate", ROOT / "examples" / "day.recording"],
                             env={**os.environ, "PYTHONPATH": str(PACKAGE), "PTP_LIBRARY": str(LIBRARY)}, capture_output=True, text=True)
        allowed = "80 (1/125 s); allowed [20 (1/500 s), 40 (1/250 s), 80 (1/125 s), 100 (1/100 s)]"
        self.assertEqual((run.stderr, run.stdout), ("", f"707: {allowed}; answered DeviceBusy\n769: {allowed}; answered Ok\n"))


if __name__ == "__main__":
    unittest.main()
