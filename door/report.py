"""Copying and mending: a program whose output goes to OUT, and whose report's last line says that the output is whole."""

from door import inputs, output, signals, standard
from door.failure import Failure, Misuse, named
from door.program import Program, words_of
from door.progress import Progress
from door.watch import Watch


class Report:
    """What the program says, shown as it comes but for its last line: that one is true only once OUT is in its place."""

    def __init__(self, progress):
        self.progress, self.held = progress, b""

    def heard(self, said):
        self.held += said
        end = self.held.rfind(b"\n", 0, -1) + 1
        if end:
            self.progress.erase()
            standard.write_all(standard.ERROR, self.held[:end])
            self.held = self.held[end:]

    def show_last(self):
        self.progress.erase()
        standard.write_all(standard.ERROR, self.held)


def two_files(command, words):
    for word in words:
        if len(word) > 1 and word.startswith("-"):
            raise Misuse(f"{command} does not take {named(word)}")
    if len(words) != 2:
        raise Misuse(f"{command} takes two files, IN and OUT")
    return words


def fits(line, closing):
    """Whether the line is this one, with numbers where it has #."""
    words, due = line.decode("latin-1").split(" "), (closing + "\n").split(" ")
    return len(words) == len(due) and all(word.isdigit() if like == "#" else word == like for word, like in zip(words, due))


def begins_like(line, closing):
    """A half line of success is not shown: it may be read for a whole one."""
    return line.decode("latin-1").split(" ")[0] == closing.split(" ")[0]


def says_why(ending, name):
    """A refused record, or the program's own sentence."""
    return ending.endswith(b"\n") and (b" refusal " in ending or ending.startswith(name.encode() + b": "))


def made_by(words, given, out, closing, refuse):
    """Runs the program. `closing` is its report's last line where it went through; `refuse` may still refuse what that line says."""
    watch, progress = Watch(), Progress(given, out.file)
    report = Report(progress)
    with Program(words, given, out.file, watch, report.heard) as program:
        watch.until(lambda: program.is_silent, progress.tick, progress.seconds)
        ending = report.held
        went_through = fits(ending, closing)
        if not went_through and not begins_like(ending, closing):
            report.show_last()
        program.end()
    if not went_through:
        raise Failure("" if says_why(ending, program.name) else f"{program.name} ended without a whole report")
    refused = refuse(ending)
    if refused:
        report.show_last()
        raise Failure(refused)
    out.settle()
    out.move()
    signals.ignore()
    report.show_last()


def from_file_to_file(command, words, closing, refuse=lambda ending: None):
    given_name, out_name = two_files(command, words)
    given = inputs.opened(given_name)
    output.refuse_same(given, out_name)
    out = output.opened(out_name)
    program = words_of(command)
    with out:
        made_by(program, given, out, closing, refuse)
    return 0
