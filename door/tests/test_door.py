"""What the door does by itself: words, files, building, statuses. The programs are scripts: nothing need be proved for it."""

import os
import pathlib
import pty
import re
import shutil
import signal
import subprocess
import time
import unittest

from door.tests.place import by_default
from door.tests.sandbox import ROOT, Sandbox, device, read_some, result

CAT = "#!/bin/sh\nexec cat\n"
LISTING = "place way kind code tid bytes\n0 note 3\n9 refusal %s\nrecords 1 bytes 9\n"


class Door(unittest.TestCase):
    def sandbox(self, program=CAT, **words):
        box = Sandbox(program, **words)
        self.addCleanup(box.remove)
        return box

    def built(self, program=CAT, **words):
        return self.sandbox(program, **words).built("list", "copy", "mend", "ask")


class Words(Door):
    def test_help_is_printed_by_each_of_its_names(self):
        box = self.sandbox()
        status, page, said = box.run("help", kit=False)
        self.assertEqual((status, said), (0, ""))
        for words in (["--help"], ["-h"], ["list", "--help"], ["wrong", "-h"]):
            self.assertEqual(box.run(*words, kit=False), (0, page, ""), words)
        for command in ("list", "show", "page", "copy", "mend", "settings", "packets", "folders", "help"):
            self.assertIn(f"\nptp {command}", "\n" + page)
        for command in ("ask", "compare", "rust", "python", "install", "bench", "wrong", "test"):
            self.assertIn(f"\n./ptp {command}", page)
        for command in ("list", "show", "page", "copy", "mend", "settings", "packets", "folders", "ask", "compare", "rust", "python", "install", "bench",
                        "wrong", "test"):
            self.assertRegex(page, rf"\n {{10,}}(echo .* \| )?(\./)?ptp {command}")

    def refused(self, box, words, named):
        """One sentence that names it, status 2, and nothing on standard output."""
        status, out, said = box.run(*words)
        self.assertEqual((status, out), (2, ""), words)
        self.assertRegex(said, r"\Aptp: [^\n]+\n\Z")
        self.assertIn(named, said)

    def test_what_is_not_known_is_named(self):
        box = self.built()
        there = box.home / "crates.txt"
        self.refused(box, [], "no command")
        self.refused(box, ["lits"], "lits")
        self.refused(box, ["lits", "--help"], "lits")
        self.refused(box, ["help", "lits"], "lits")
        self.refused(box, ["list", ""], "there is no file")
        self.refused(box, ["list", "--chekc"], "--chekc")
        self.refused(box, ["ask", "--check"], "--check")
        self.refused(box, ["list", there, "second"], "second")
        self.refused(box, ["list", "-", "second"], "second")
        self.refused(box, ["list", "missing.recording"], "missing.recording")
        self.refused(box, ["list", box.home], str(box.home))
        self.refused(box, ["ask", "missing.questions"], "missing.questions")
        self.refused(box, ["list", "--follow"], "--follow")
        self.refused(box, ["list", "--follow", "-"], "--follow")
        self.refused(box, ["settings", "--check"], "--check")
        self.refused(box, ["settings", there, "second"], "second")
        self.refused(box, ["settings", "missing.settings"], "missing.settings")
        self.refused(box, ["packets", "--check"], "--check")
        self.refused(box, ["packets", "missing.packets"], "missing.packets")
        self.refused(box, ["folders", "--check"], "--check")
        self.refused(box, ["folders", "missing.table"], "missing.table")
        for words, named in (("6 0x500d UINT32", "VENDOR"), ("6 0x500d UINT32 1 00417 more", "VENDOR"), ("x 0x500d UINT32 1", "x is no vendor"),
                             ("4294967296 1 UINT8 1", "vendor"), ("6 65536 UINT8 1", "property"), ("6 1 UINT7 1", "UINT7"), ("6 1 UINT8 256", "0 to 255"),
                             ("6 1 INT8 -129", "-128 to 127"), ("6 1 AUINT8 1,300", "300"), ("6 1 0x0000 1", "no value"), ("6 1 0x800a 1", "no value"),
                             ("6 1 STRING " + "x" * 255, "254 units")):
            self.refused(box, ["settings", "new.settings", "set", *words.split()], named)
        for words, named in (("6", "VENDOR"), ("6 1 00417 more", "VENDOR"), ("x 1", "x is no vendor"), ("6 65536", "property")):
            self.refused(box, ["settings", "new.settings", "remove", *words.split()], named)
        self.refused(box, ["copy"], "IN and OUT")
        for command in ("copy", "mend"):
            self.refused(box, [command, there], "IN and OUT")
            self.refused(box, [command, there, "made", "more"], "IN and OUT")
            self.refused(box, [command, "--check", there], "--check")
            self.refused(box, [command, "missing.recording", "made"], "missing.recording")
            self.refused(box, [command, there, box.home], str(box.home))
            self.refused(box, [command, there, "missing/made"], "missing")
            self.refused(box, [command, there, ""], "without a name")
            self.refused(box, [command, there, there], "one file")
            self.refused(box, [command, there, box.home / "crates" / ".." / "crates.txt"], "one file")
        self.refused(box, ["rust", "word"], "word")
        self.refused(box, ["test", "word"], "word")
        self.refused(box, ["show", "--layout"], "--layout")
        self.refused(box, ["show", "--layout", "pima"], "--layout")
        self.refused(box, ["show", "--layout", "crate", "--layout", "book"], "--layout")
        self.refused(box, ["show", "--check"], "--check")
        self.refused(box, ["show", "missing.recording"], "missing.recording")
        self.refused(box, ["page", there], "two files")
        self.refused(box, ["page", "--json", there, "out.html"], "--json")
        self.refused(box, ["page", there, there], "one file")
        self.refused(box, ["page", "--report"], "--report")
        self.refused(box, ["show", there], "no cc")
        self.refused(box, ["python", "more"], "more")
        self.refused(box, ["install"], "PREFIX")
        self.refused(box, ["install", ""], "PREFIX")
        self.refused(box, ["install", "--prefix"], "--prefix")
        self.refused(box, ["install", "folder", "more"], "more")
        self.refused(box, ["install", there], str(there))
        self.refused(box, ["install", "folder"], "no cc")
        self.refused(box, ["compare", "1", "many"], "many")
        self.refused(box, ["compare", "1", "2", "missing.rs"], "missing.rs")
        self.refused(box, ["compare", "1", "2", there, "more"], "more")
        self.refused(box, ["bench", "missing.rs"], "missing.rs")
        self.refused(box, ["bench", there, "more"], "more")
        self.refused(box, ["bench"], "no source is given")

    def test_a_device_is_no_file_that_grows_and_no_row(self):
        box = self.built()
        null = device(box.folder / "null", 3)
        if not null:
            self.skipTest("no device can be made here")
        self.refused(box, ["list", "--follow", null], "regular file")
        self.refused(box, ["settings", null, "set", "6", "1", "UINT8", "1"], "regular file")

    def test_input_from_a_file_or_standard_input(self):
        box = self.built()
        (box.folder / "a file").write_bytes(b"from the file")
        (box.folder / "a file\n").write_bytes(b"from its neighbour")
        for words in (["a file"], ["--check", "a file"]):
            self.assertEqual(box.run("list", *words)[1], "from the file", words)
        self.assertEqual(box.run("list", "a file\n")[1], "from its neighbour")
        self.assertEqual(box.run("ask", "a file"), (0, "from the file", ""))
        self.assertEqual(box.run("list", input=b"piped"), (0, "piped", ""))
        self.assertEqual(box.run("list", "-", input=b"piped"), (0, "piped", ""))
        self.assertEqual(box.run("list", "a file", cwd="/"), (2, "", "ptp: there is no file a file\n"))


class Made(Door):
    """What copy and mend make of one file in another's place."""
    REPORTS = {"copy": "left out 2 records 13 bytes\n", "mend": "7 dropped 3\nkept 2 records 25 bytes, dropped 1 stretches 3 bytes\n"}

    def made(self, command, said, *before, status=0):
        """What is left of a file that is there, or is not, after a program that copies its input and says this."""
        box = self.built(f"#!/bin/sh\ncat\nprintf '%s' '{said}' >&2\nexit {status}\n")
        (box.folder / "given").write_bytes(b"records")
        for data in before:
            (box.folder / "made").write_bytes(data)
        answer = box.run(command, "given", "made")
        left = sorted(path.name for path in box.folder.iterdir() if path.is_file())
        return answer, left, (box.folder / "made").read_bytes() if "made" in left else None

    def test_what_is_made_is_moved_to_its_place(self):
        for command, report in self.REPORTS.items():
            for before in ((), (b"before",)):
                self.assertEqual(self.made(command, report, *before), ((0, "", report), ["given", "made"], b"records"))

    def test_what_is_refused_or_fails_leaves_all_as_it_was(self):
        for command in self.REPORTS:
            for said in ("7 refusal 1 10\n", f"{command}: writing standard output: it broke\n"):
                self.assertEqual(self.made(command, said), ((1, "", said), ["given"], None))
                self.assertEqual(self.made(command, said, b"before"), ((1, "", said), ["given", "made"], b"before"))
            half = self.REPORTS[command][:-1]
            self.assertEqual(self.made(command, half, b"before")[1:], (["given", "made"], b"before"))

    def test_a_program_that_says_nothing_or_fails_has_made_nothing(self):
        for command, report in self.REPORTS.items():
            told = f"ptp: {command} ended without a whole report\n"
            self.assertEqual(self.made(command, "", b"before"), ((1, "", told), ["given", "made"], b"before"))
            told = report[:report.rindex("\n", 0, -1) + 1 if "\n" in report[:-1] else 0] + f"ptp: {command} ended with 3\n"
            self.assertEqual(self.made(command, report, b"before", status=3), ((1, "", told), ["given", "made"], b"before"))

    def test_one_report_is_not_the_others(self):
        self.assertEqual(self.made("copy", self.REPORTS["mend"], b"before")[2], b"before")
        self.assertEqual(self.made("mend", self.REPORTS["copy"], b"before")[2], b"before")

    def test_mending_from_standard_input_to_standard_output(self):
        report = self.REPORTS["mend"]
        box = self.built(f"#!/bin/sh\ncat\nprintf '%s' '{report}' >&2\n")
        self.assertEqual(box.run("mend", input=b"piped"), (0, "piped", report))
        box = self.built("#!/bin/sh\ncat\necho 'mend: it broke' >&2\n")
        self.assertEqual(box.run("mend", input=b"piped"), (1, "piped", "mend: it broke\n"))
        for closed, named in (("<&-", "standard input is closed, or a folder"), (">&- </dev/null", "standard output is closed")):
            self.assertEqual(result(["sh", "-c", f"{box.home}/ptp mend {closed}"]), (1, "", f"ptp: {named}\n"))

    def test_a_reader_that_has_gone_ends_mending_quietly(self):
        box = self.built("#!/bin/sh\nwhile :; do echo a line; done\n")
        script = f"{{ {box.home}/ptp mend; echo $? >status; }} | head -n 1"
        self.assertEqual(result(["sh", "-c", script], cwd=box.folder), (0, "a line\n", ""))
        self.assertEqual((box.folder / "status").read_text(), "1\n")


class Rows(Door):
    HEADING = "place kind vendor property serial type value\n"

    def shown(self, answer, row=b"row", words=("settings",)):
        """What is shown of a row where the program answers so; the question that it was asked is kept beside it."""
        box = self.built(f"#!/bin/sh\ncat >'{{}}'/asked\nprintf '%b' '{answer}'\n")
        box.script(box.home / "crates" / "ask" / "out" / "ask", f"#!/bin/sh\ncat >{box.folder}/asked\nprintf '%b' '{answer}'\n")
        shown = box.run(*words, input=row)
        return shown, (box.folder / "asked").read_text()

    def test_a_line_an_entry(self):
        told = "ok 2 0 15 16 6 20481 - 2 7 15 20 17 6 20493 s<0041.000a.0022.d83d.de00> 65535 s<>\\n"
        text = self.HEADING + '0 16 6 0x5001 - 0x0002 7\n15 17 6 0x500d "A\\n\\"\U0001f600" 0xffff ""\nentries 2 bytes 35\n'
        self.assertEqual(self.shown(told, b"\x0f" * 35), ((0, text, ""), f"settings 2 {'0f' * 35}\n"))
        self.assertEqual(self.shown("ok 0\\n", b""), ((0, self.HEADING + "entries 0 bytes 0\n", ""), "settings 2 -\n"))

    def test_a_refused_row(self):
        self.assertEqual(self.shown("no 1 21\\n")[0], (1, "refusal 1 21\n", ""))
        self.assertEqual(self.shown("no 13\\n")[0], (1, "refusal 13\n", ""))

    def test_an_answer_that_is_not_whole_shows_nothing(self):
        whole = "ok 2 0 15 16 6 20481 - 2 7 15 20 17 6 20493 s<0041> 2 9\\n"
        for answer in (whole[:-2], whole[:40], whole[:40] + "\\n", whole.replace("ok 2", "ok 7"), whole.replace("15 20", "15 21"), ""):
            status, out, said = self.shown(answer, b"\x0f" * 35)[0]
            self.assertEqual((status, out), (1, ""), answer)
            self.assertRegex(said, r"\Aptp: [^\n]+\n\Z")

    def test_what_is_too_long_or_fails_is_told(self):
        self.assertEqual(self.shown("?\\n")[0], (1, "", "ptp: the row has more than 599,994 bytes\n"))
        box = self.built("#!/bin/sh\necho 'ask: it broke' >&2\n")
        self.assertEqual(box.run("settings"), (1, "", "ask: it broke\n"))

    def test_a_row_that_grew_in_the_meantime_is_not_written_over(self):
        box = self.built()
        row = box.folder / "row"
        row.write_bytes(b"row")
        box.script(box.home / "crates" / "ask" / "out" / "ask", f"#!/bin/sh\nread -r word rest\n[ $word = settings-write ] || printf more >>{row}\necho ok 2 0102\n")
        status, out, said = box.run("settings", row, "set", "6", "1", "UINT8", "1")
        self.assertEqual((status, out, row.read_bytes()), (1, "", b"rowmore"))
        self.assertIn("in the meantime", said)


class Packets(Door):
    # Answers each line with the next of these, and ends where there is none.
    ASK = "#!/bin/sh\nexec 3<<'END'\n{}\nEND\nwhile read -r question; do echo \"$question\" >>asked; read -r answer <&3 || exit 0; echo \"$answer\"; done\n"

    def shown(self, answers, data):
        box = self.built(self.ASK.format("\n".join(answers)))
        return box.run("packets", input=data), (box.folder / "asked").read_text().splitlines()

    def test_a_line_a_packet(self):
        answers = ["ok 6 1 4098 0 18 4 22", "ok OpenSession", "ok 9 7 5 20", "ok 10 7 12 3 15", "ok 12 7 12 2 14", "ok 7 40961 7 14 0 14", "none"]
        text = "0 request OpenSession 0 4\n22 start-data 7 5\n42 data 7 3\n57 end-data 7 2\n71 response 0xa001 7 0\n"
        shown, asked = self.shown(answers, bytes(85))
        self.assertEqual(shown, (0, text, ""))
        self.assertEqual((asked[1], asked[-1]), ("command-name 4098", "response-name 40961"))

    def test_a_refusal_ends_it(self):
        self.assertEqual(self.shown(["ok 9 7 5 20", "no 1 8"], bytes(30))[0], (1, "0 start-data 7 5\n20 refusal 1 8\n", ""))
        self.assertEqual(self.shown(["no 20"], bytes(800))[0], (1, "0 refusal 20\n", ""))

    def test_a_packet_is_asked_of_more_bytes_until_it_is_whole(self):
        shown, asked = self.shown(["no 1 8", "ok 12 7 12 238 250"], bytes(250))
        self.assertEqual(shown, (0, "0 end-data 7 238\n", ""))
        self.assertEqual([len(line) for line in asked], [len("packet 0 ") + 2 * size for size in (64, 250)])

    def test_what_is_too_long_or_fails_is_told(self):
        self.assertEqual(self.shown(["?"], bytes(9))[0], (1, "", "ptp: the packet at byte 0 is too long to be asked\n"))
        self.assertEqual(self.shown(["ok 9 7 5 20"], bytes(21))[0], (1, "", "ptp: ask ended inside its answer\n"))


class Folders(Door):
    def shown(self, answer, table=b"1 2 3 4 5 6"):
        box = self.built(f"#!/bin/sh\nread -r question\necho \"$question\" >asked\necho '{answer}'\n")
        return box.run("folders", input=table), (box.folder / "asked").read_text() if (box.folder / "asked").exists() else None

    def test_a_line_a_path(self):
        shown, asked = self.shown("ok 13 4142412f420a5c7f202fc3a97aa5 2,5*2,8,13,2779096485*1019", b"1 2 3 4 5 6\n")
        self.assertEqual(shown, (0, "AB\nA/B\n\n\\x0a\\\\\\x7f\n /\u00e9z\n", ""))
        self.assertEqual(asked, "folder-paths 1 2 3 4 5 6 1048576\n")

    def test_a_table_without_any_name(self):
        self.assertEqual(self.shown("ok 0 a5a5 0*2,2779096485*1022")[0], (0, "\n\n", ""))

    def test_what_is_refused_or_no_table(self):
        self.assertEqual(self.shown("no 11 a5a5")[0], (1, "refusal 11\n", ""))
        self.assertEqual(self.shown("no 1 5 a5a5")[0], (1, "refusal 1 5\n", ""))
        self.assertEqual(self.shown("no 9 a5a5")[0], (1, "", "ptp: the paths have more than 1,048,576 bytes\n"))
        for table, answer in ((b"1 2", "?"), (b"1 2\n3\n", "ok"), (b"\xff", "ok")):
            self.assertEqual(self.shown(answer, table)[0], (1, "", "ptp: the file is not one line that tells a table\n"))


class Shown(Door):
    SLOW = "#!/bin/sh\nhead -c 1000000\nsleep 3\ncat\necho 'left out 0 records 0 bytes' >&2\n"

    def test_long_work_shows_its_progress_on_a_terminal_and_nowhere_else(self):
        box = self.built(self.SLOW)
        (box.folder / "given").write_bytes(bytes(4_000_000))
        ours, theirs = pty.openpty()
        run = subprocess.Popen([box.home / "ptp", "copy", box.folder / "given", box.folder / "made"], stderr=theirs)
        os.close(theirs)
        with os.fdopen(ours, "rb", buffering=0) as terminal:
            shown = b""
            while more := self.read_terminal(terminal):
                shown += more
        self.assertEqual(run.wait(10), 0)
        self.assertRegex(shown.decode(), r"\A(\r\x1b\[K[0-4]\.\d of 4\.0 MB read)+\r\x1b\[Kleft out 0 records 0 bytes\r\n\Z")
        self.assertEqual(box.run("copy", "given", "made"), (0, "", "left out 0 records 0 bytes\n"))

    def read_terminal(self, terminal):
        """Nothing where the other end is closed, which a terminal tells by a failure."""
        try:
            return read_some(terminal)
        except OSError:
            return b""

    def test_the_pages_tell_of_the_same_commands(self):
        help_page = self.sandbox().run("help", kit=False)[1]
        manual, readme, commands = ((ROOT / name).read_text() for name in ("docs/ptp.1", "README.md", "docs/COMMANDS.md"))
        manual = manual.replace("\\", "")
        for command in ("list", "show", "page", "copy", "mend", "settings", "packets", "folders", "help"):
            self.assertIn(f"`./ptp {command}", readme)
            self.assertIn(f"`./ptp {command}", commands)
            self.assertIn(f"\nptp {command}", "\n" + help_page)
            self.assertIn(f"\n.B ptp {command}\n", manual)
        for word in ("--check", "--follow", "set VENDOR PROPERTY TYPE VALUE", "remove VENDOR PROPERTY", "OUT stays as it was"):
            for page in (help_page, manual.replace("\n.B set\n.I VENDOR", " set VENDOR").replace("\n.B remove\n.I VENDOR", " remove VENDOR"), commands):
                self.assertIn(word, page)


class Statuses(Door):
    def test_what_a_program_says_is_a_failure(self):
        box = self.built('#!/bin/sh\necho one line\necho "list: it broke" >&2\n')
        self.assertEqual(box.run("list"), (1, "one line\n", "list: it broke\n"))
        self.assertEqual(box.run("ask"), (1, "one line\n", "list: it broke\n"))
        self.assertEqual(box.run("list", "--check"), (1, "one line\n", "list: it broke\n"))

    def test_a_program_that_does_not_end_well_is_told(self):
        self.assertEqual(self.built("#!/bin/sh\nexit 3\n").run("list"), (1, "", "ptp: list ended with 3\n"))
        self.assertEqual(self.built("#!/bin/sh\nkill -9 $$\n").run("list"), (1, "", "ptp: list was ended by SIGKILL\n"))

    def test_output_is_untouched(self):
        data = bytes(range(256)) * 1000
        box = self.built()
        for words in ((), ("--check",)):
            made = subprocess.run([box.home / "ptp", "list", *words], input=data, stdout=subprocess.PIPE, timeout=60)
            self.assertEqual(made.stdout, data)

    def test_a_refusal_is_a_failure_where_it_is_asked_for(self):
        for number in ("1", "14", "1 20"):
            listing = LISTING % number
            box = self.built(f"#!/bin/sh\ncat <<END\n{listing}END\n")
            self.assertEqual(box.run("list"), (0, listing, ""))
            self.assertEqual(box.run("list", "--check"), (1, listing, ""))
        sound = "place way kind code tid bytes\nrecords 0 bytes 0\n"
        self.assertEqual(self.built(f"#!/bin/sh\ncat <<END\n{sound}END\n").run("list", "--check"), (0, sound, ""))

    def test_a_closed_pipe_ends_it_quietly(self):
        box = self.built("#!/bin/sh\nwhile :; do echo a line; done\n")
        for words in ("list", "list --check"):
            script = f"{{ {box.home}/ptp {words}; echo $? >status; }} | head -n 1"
            self.assertEqual(result(["sh", "-c", script], cwd=box.folder), (0, "a line\n", ""))
            self.assertEqual((box.folder / "status").read_text(), "1\n")

    def test_closed_inputs_and_outputs_are_told(self):
        box = self.built()
        for shell in ("dash", "bash"):
            for closed, named in (("<&-", "standard input is closed, or a folder"), (">&- </dev/null", "standard output is closed")):
                status, out, said = result([shell, "-c", f"{shell} {box.home}/ptp list {closed}"])
                self.assertEqual((status, out), (1, ""))
                self.assertEqual(said, f"ptp: {named}\n")


class Following(Door):
    def test_a_growing_file_is_listed_until_it_is_interrupted(self):
        box = self.built()
        grows = box.folder / "grows"
        grows.write_bytes(b"first ")
        started = subprocess.Popen([box.home / "ptp", "list", "--follow", grows], stdout=subprocess.PIPE, stderr=subprocess.DEVNULL,
                                   start_new_session=True, preexec_fn=by_default)
        self.addCleanup(started.stdout.close)
        self.assertEqual(read_some(started.stdout), b"first ")
        with grows.open("ab") as more:
            more.write(b"second")
        self.assertEqual(read_some(started.stdout), b"second")
        self.assertIsNone(started.poll())
        os.killpg(started.pid, signal.SIGINT)
        self.assertNotEqual(started.wait(10), 0)
        self.assertEqual(read_some(started.stdout), b"")

    def test_it_ends_with_the_program(self):
        box = self.built("#!/bin/sh\nexec head -c 3\n")
        (box.folder / "grows").write_bytes(b"abcdef")
        self.assertEqual(box.run("list", "--follow", "grows"), (0, "abc", ""))


class Building(Door):
    def test_a_line_a_crate_then_nothing(self):
        box = self.sandbox()
        told = "proving layout, 1 of 3\nproving wire, 2 of 3\nproving list, 3 of 3\n"
        self.assertEqual(box.run("list", input=b"x", env={"SLOW": "1.2"}), (0, "x", told))
        self.assertIn("many words of the prover on wire", (box.home / "target" / "door" / "list.log").read_text())
        self.assertEqual(box.run("list", input=b"x"), (0, "x", ""))
        self.assertEqual(box.run("list", input=b"x", kit=False), (0, "x", ""))

    def change(self, box, path):
        later = time.time() + 5
        os.utime(box.home / path, (later, later))

    def test_only_what_it_needs_makes_it_stale(self):
        box = self.built()
        self.change(box, "crates/tree/src/lib.rt")
        self.change(box, "crates/abi/src/lib.rt")
        self.assertEqual(box.run("list", kit=False), (0, "", ""))
        missing = (2, "", "ptp: the Rattle kit is missing: no rt on the path\n")
        self.assertEqual(box.run("ask", kit=False), missing)
        self.change(box, "crates/wire/src/lib.rt")
        self.assertEqual(box.run("list", kit=False), missing)

    def test_a_program_that_cannot_be_built(self):
        box = self.sandbox()
        status, out, said = box.run("list", env={"RT_REFUSES": "wire"})
        self.assertEqual((status, out), (2, ""))
        self.assertRegex(said, r"ptp: list could not be built: \S+/target/door/list.log says why\n\Z")


class Installing(Door):
    PLAIN = (*(f"include/{name}.h" for name in ("ptp", "ptp_camera", "ptp_table", "ptp_codes")), "share/ptp/ptp_camera.c", "share/ptp/ptp_table.c")
    LIBRARY = ("lib/libptp.a", "lib/libptp.so.0", "lib/libptp.so", "lib/pkgconfig/ptp.pc")
    PROGRAMS = tuple(f"lib/ptp/programs/{name}" for name in ("list", "copy", "mend", "ask"))
    MODULES = tuple(f"lib/ptp/door/{path.name}" for path in sorted((ROOT / "door").glob("*.py")))
    PACKAGE = tuple(f"lib/{path.relative_to(ROOT).as_posix()}" for folder in ("", "page") for path in sorted((ROOT / "python" / "ptp_proved" / folder).glob("*.*")))
    PLACES = (*PLAIN, *LIBRARY, *PACKAGE, *PROGRAMS, *MODULES, "bin/ptp", "share/man/man1/ptp.1")

    def library(self, compiler):
        """With this text for cc, and a library that stands in for the proved one."""
        box = self.built()
        shutil.copytree(ROOT / "c", box.home / "c")
        shutil.copytree(ROOT / "python", box.home / "python", ignore=shutil.ignore_patterns("__pycache__"))
        (box.home / "docs").mkdir()
        shutil.copy(ROOT / "docs" / "ptp.1", box.home / "docs")
        box.tool("cc", compiler)
        return box

    def test_each_file_in_its_place(self):
        box = self.library('#!/bin/sh\nfor out; do :; done\necho shared >"$out"\n')
        for prefix in ("here", "here", "a folder/below"):
            told = "".join(f"{box.folder / prefix / place}\n" for place in self.PLACES)
            self.assertEqual(box.run("install", prefix)[:2], (0, told))
        here = box.folder / "here"
        program = (box.home / "the-program").read_text()
        self.assertEqual([(here / place).read_text() for place in self.PLAIN], [(ROOT / "c" / pathlib.Path(place).name).read_text() for place in self.PLAIN])
        self.assertEqual([(here / place).read_text() for place in self.LIBRARY[:3]], [program, "shared\n", "shared\n"])
        self.assertEqual({(here / place).read_text() for place in self.PROGRAMS}, {program})
        self.assertIn(f"prefix={here}\n", (here / self.LIBRARY[3]).read_text())
        self.assertEqual(os.readlink(here / "lib" / "libptp.so"), "libptp.so.0")
        runs = [place for place in self.PLACES if (here / place).stat().st_mode & 0o777 == 0o755]
        self.assertEqual(runs, ["lib/libptp.so.0", "lib/libptp.so", *self.PROGRAMS, "bin/ptp"])

    def test_nothing_is_written_into_the_repository(self):
        box = self.library('#!/bin/sh\nfor out; do :; done\necho shared >"$out"\n')
        box.run("install", "first")
        def state():
            return {path: path.lstat().st_mtime_ns for path in box.home.rglob("*")}
        before = state()
        self.assertEqual(box.run("install", "here", kit=False)[::2], (0, ""))
        self.assertEqual(state(), before)

    def test_what_is_installed_needs_neither_kit_nor_repository(self):
        box = self.library('#!/bin/sh\nfor out; do :; done\necho shared >"$out"\n')
        box.run("install", "first")
        os.rename(box.folder / "first", box.folder / "moved")
        shutil.rmtree(box.home)
        moved = [box.folder / "moved" / "bin" / "ptp"]
        self.assertEqual(result([*moved, "list"], input=b"x"), (0, "x", ""))
        self.assertEqual(result([*moved, "help"])[::2], (0, ""))
        for words in ([], ["lits"], ["test"], ["list", "missing"]):
            status, out, said = result([*moved, *words])
            self.assertEqual((status, out), (2, ""))
            self.assertRegex(said, r"\Aptp: [^\n]+\n\Z")

    def test_a_program_that_is_missing_is_told(self):
        box = self.library('#!/bin/sh\nfor out; do :; done\necho shared >"$out"\n')
        box.run("install", "here")
        (box.folder / "here" / "lib" / "ptp" / "programs" / "list").unlink()
        status, out, said = result([box.folder / "here" / "bin" / "ptp", "list"])
        self.assertEqual((status, out), (2, ""))
        self.assertRegex(said, r"\Aptp: \S+/programs/list cannot be run: No such file or directory\n\Z")

    def test_the_version_is_one(self):
        header = (ROOT / "c" / "ptp.h").read_text()
        parts = re.findall(r"#define PTP_VERSION_(?:MAJOR|MINOR|PATCH) (\d+)\n", header)
        self.assertEqual(re.findall(r'#define PTP_VERSION "(.*)"\n', header), [".".join(parts)])
        self.assertIn('\nversion = "%s"\n' % ".".join(parts), (ROOT / "rust" / "Cargo.toml").read_text())
        self.assertIn('\n__version__ = "%s"\n' % ".".join(parts), (ROOT / "python" / "ptp_proved" / "__init__.py").read_text())

    def test_a_place_that_cannot_be_written_is_named(self):
        box = self.library('#!/bin/sh\nfor out; do :; done\necho shared >"$out"\n')
        (box.folder / "here").mkdir()
        (box.folder / "here" / "include").write_text("no folder")
        status, out, said = box.run("install", "here")
        self.assertEqual((status, out), (2, ""))
        self.assertRegex(said, r"ptp: \S+/here/include/ptp.h cannot be written\n\Z")

    def test_a_shared_library_that_cannot_be_made(self):
        box = self.library("#!/bin/sh\nexit 1\n")
        status, out, said = box.run("install", "here")
        self.assertEqual((status, out), (2, ""))
        self.assertRegex(said, r"ptp: libptp.so.0 could not be made of target/native/libptp.a\n\Z")
        self.assertFalse((box.folder / "here").exists())

    def test_a_program_is_compiled_by_the_words_of_pkg_config(self):
        for tool in ("cc", "ar", "pkg-config"):
            if not shutil.which(tool):
                self.skipTest(f"{tool} is missing")
        box = self.library(f"#!/bin/sh\nPATH='{os.environ['PATH']}' exec cc \"$@\"\n")
        stands = box.folder / "stands.c"
        stands.write_text('#include "ptp.h"\nint64_t ptp_response_place(uint16_t code) { return code; }\n')
        archive, made = box.home / "the-archive", box.folder / "stands.o"
        archive.unlink()
        script = f"cc -fPIC -I {box.home}/c -c {stands} -o {made} && ar rcs {archive} {made}"
        self.assertEqual(result(["sh", "-c", script]), (0, "", ""))
        self.assertEqual(box.run("install", "here")[0], 0)
        found = {**os.environ, "PKG_CONFIG_PATH": str(box.folder / "here" / "lib" / "pkgconfig"), "LD_LIBRARY_PATH": str(box.folder / "here" / "lib")}
        (box.folder / "user.c").write_text('#include <ptp.h>\n#include <stdio.h>\nint main(void) { return printf("%s %d", PTP_VERSION, (int)ptp_response_place(7)) < 0; }\n')
        script = 'cc -std=c99 -Wall -Wextra -pedantic -Werror user.c $(pkg-config --cflags --libs ptp) -o user && ./user && pkg-config --modversion ptp'
        self.assertEqual(result(["sh", "-c", script], cwd=box.folder, env=found), (0, "0.1.0 70.1.0\n", ""))


class OtherMachines(Door):
    """On a processor that is not x86-64, for which programs are made."""

    def test_the_library_is_compiled_for_it(self):
        box = self.sandbox(machine="aarch64")
        box.tool("cc", '#!/bin/sh\nfor out; do :; done\necho shared >"$out"\n')
        self.assertEqual(box.run("program", "library")[:2], (0, f"{box.home}/target/native/libptp.so.0\n"))
        self.assertIn("compiled: abi target/native/libptp.a aarch64\n", (box.home / "target" / "door" / "abi.log").read_text())

    def test_emulated(self):
        box = self.sandbox(machine="aarch64")
        box.emulator()
        self.assertEqual(box.run("list", input=b"x")[:2], (0, f"emulated: {box.home}/crates/list/out/list\nx"))
        self.assertEqual(box.run("list", input=b"x", kit=False), (0, f"emulated: {box.home}/crates/list/out/list\nx", ""))

    def test_built_by_the_gate_and_emulated(self):
        box = self.built(machine="aarch64")
        box.emulator()
        self.assertEqual(box.run("list", input=b"x"), (0, f"emulated: {box.home}/crates/list/out/list\nx", ""))

    def test_without_an_emulator(self):
        said = "ptp: the programs are made for x86-64, and this machine has no emulator: no qemu-x86_64 on the path\n"
        self.assertEqual(self.built(machine="aarch64").run("list"), (2, "", said))


if __name__ == "__main__":
    unittest.main()
