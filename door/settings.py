"""settings [FILE], settings FILE set VENDOR PROPERTY TYPE VALUE [SERIAL], and settings FILE remove VENDOR PROPERTY [SERIAL]: by the answers of the proved
program `ask`"""

import fcntl
import os

from door import inputs, output, signals, standard, values
from door.failure import Failure, Misuse, named
from door.program import Program, words_of
from door.watch import Watch

HEADING = "place kind vendor property serial type value\n"
# As many bytes as a line of a question has room for.
MOST_BYTES = 599_994
MOST_ANSWER = 1 << 24
ENTRY_WORDS = 8


def answered(question):
    """The words of the answer: one whole line, of a program that ended well and had nothing to say."""
    given, made, watch, said = os.memfd_create("question"), os.memfd_create("answer"), Watch(), []
    os.write(given, question.encode() + b"\n")
    os.lseek(given, 0, os.SEEK_SET)
    with Program(words_of("ask"), given, made, watch, said.append) as program:
        watch.until(lambda: program.is_silent, lambda: None, None)
        standard.write_all(standard.ERROR, b"".join(said))
        program.end()
    if said:
        raise Failure("")
    os.lseek(made, 0, os.SEEK_SET)
    line = inputs.read_at_most(made, MOST_ANSWER).decode("ascii")
    if line == "?\n":
        raise Failure(f"the row has more than {MOST_BYTES:,} bytes")
    if not line.endswith("\n"):
        raise Failure("ask ended inside its answer")
    return line[:-1].split(" ")


def hex_of(data):
    return data.hex() or "-"


def row_shown(row):
    """The row as text, and whether it was accepted. How many entries and bytes the answer names must be what it holds."""
    kind, *words = answered(f"settings 2 {hex_of(row)}")
    if kind != "ok":
        return f"refusal {' '.join(words)}\n", False
    entries = [words[at:at + ENTRY_WORDS] for at in range(1, len(words), ENTRY_WORDS)]
    if len(entries) != int(words[0]) or any(len(entry) != ENTRY_WORDS for entry in entries) or sum(int(entry[1]) for entry in entries) != len(row):
        raise Failure("ask answered for another row")
    lines = [entry_line(*entry) for entry in entries]
    return HEADING + "".join(lines) + f"entries {len(entries)} bytes {len(row)}\n", True


def entry_line(place, _, kind, vendor, code, serial, value_type, value):
    return f"{place} {kind} {vendor} 0x{int(code):04x} {values.text_of(serial)} 0x{int(value_type):04x} {values.text_of(value)}\n"


def read_row(file):
    row = inputs.read_at_most(file, MOST_BYTES)
    if len(row) > MOST_BYTES:
        raise Failure(f"the row has more than {MOST_BYTES:,} bytes")
    return row


def show(words):
    file, _ = inputs.opened_or_standard(inputs.only_file("settings", words)), standard.opened(standard.OUTPUT)
    text, is_accepted = row_shown(read_row(file))
    standard.write_all(standard.OUTPUT, text.encode())
    return 0 if is_accepted else 1


def made(what, question):
    """The bytes that the answer has; what is not done where it is a refusal."""
    kind, *words = answered(question)
    if kind != "ok":
        raise Failure(f"{what}: refusal {' '.join(words[:-1])}")
    count, data = int(words[0]), bytes.fromhex(words[1].replace("-", ""))
    if len(data) < count:
        raise Failure("ask answered with fewer bytes than it counts")
    return data[:count]


def key_of(serial):
    """For the camera of a serial, by its units, or for any."""
    return "any -" if serial is None else f"own {','.join(map(str, values.units_of(serial))) or '-'}"


def stored(row, vendor, code, value_type, value_word, serial):
    """The row with the entry, as the proved writer and the proved store make them."""
    numbers, data_type = values.key_numbers(vendor, code), values.type_of(value_type)
    value = values.value(data_type, value_word)
    room = len(value) + values.MOST_ENTRY
    entry = made("the entry is not written", f"settings-write {numbers} {data_type} {hex_of(value)} {key_of(serial)} {room}")
    return made("the entry is not stored", f"settings-store 2 {hex_of(row)} {hex_of(entry)} {len(row) + len(entry)}")


def removed(row, vendor, code, serial):
    """The row without the entry of that key; the row itself where none has it."""
    return made("nothing is removed", f"settings-remove 2 {hex_of(row)} {values.key_numbers(vendor, code)} {key_of(serial)} {len(row)}")


def locked(path):
    """The file's folder, held until this process ends: of two stores at once the second waits for the first, and neither is lost."""
    try:
        folder = os.open(os.path.dirname(os.path.realpath(path)), os.O_RDONLY | os.O_DIRECTORY)
        with signals.taken():
            fcntl.flock(folder, fcntl.LOCK_EX)
    except OSError:  # that there is no such folder, or that it knows no locks, is for whoever writes there to tell
        pass


def changed(path, word, change, words):
    """The row of a file, changed and written whole: to a new file beside it, which takes its place."""
    locked(path)
    out = output.opened(path)
    if not isinstance(out, output.Beside):
        raise Misuse(f"{word} takes a regular file, and {named(path)} is none")
    before = read_row(inputs.opened(path)) if out.before else b""
    row = change(before, *words)
    if word == "remove" and row == before:
        standard.write_all(standard.opened(standard.OUTPUT), b"no such setting is held\n")
        return 0
    with out:
        write_row(out, row)
    return 0


def store(path, words):
    if not 4 <= len(words) <= 5:
        raise Misuse("set takes VENDOR PROPERTY TYPE VALUE, and a SERIAL for one camera alone")
    values.check_entry(*words)
    return changed(path, "set", stored, [*words, None][:5])


def remove(path, words):
    if not 2 <= len(words) <= 3:
        raise Misuse("remove takes VENDOR PROPERTY, and a SERIAL for one camera alone")
    values.key_numbers(*words[:2])
    return changed(path, "remove", removed, [*words, None][:3])


def write_row(out, row):
    out.write(row)
    out.settle()
    out.move()


def run(words):
    if len(words) > 1 and words[1] in ("set", "remove"):
        return (store if words[1] == "set" else remove)(words[0], words[2:])
    return show(words)
