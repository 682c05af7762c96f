"""Asks the program `ask`, the model and the oracle the same questions, and prints each difference.

    python3 -m compare.run [SEED [COUNT]] [--ask COMMAND] [--oracle PROGRAM] [--questions NAME,NAME]

The model is asked always; the other two where they are given. The same seed gives the same cases. Then comes a table
of the cases compared and left out by question, and last `COUNT compared, N differ`. It fails where an answer
differs, and where a question has no case compared.
"""

import argparse
import collections
import itertools
import os
import shlex
import subprocess
import sys
import tempfile

from compare import cases, rules
from model import ask

BATCH = 20_000
SHOWN = 300


def arguments():
    parser = argparse.ArgumentParser(description="compare ask, model and oracle")
    parser.add_argument("seed", nargs="?", default="1")
    parser.add_argument("count", nargs="?", type=int, default=100_000)
    parser.add_argument("--ask", help="the command that runs the program `ask`")
    parser.add_argument("--oracle", help="the oracle's program")
    parser.add_argument("--questions", help="only these, joined by commas")
    return parser.parse_args()


class Asked:
    """A program that answers a batch of lines; started on the batch, so that it may answer as late as it likes."""

    def __init__(self, command, folder):
        self.command, self.folder = command, folder

    def start(self, lines):
        self.lines = len(lines)
        self.questions = tempfile.TemporaryFile(dir=self.folder)
        self.answers = tempfile.TemporaryFile(dir=self.folder)
        self.questions.write("".join(line + "\n" for line in lines).encode("latin-1"))
        self.questions.seek(0)
        self.process = subprocess.Popen(self.command, stdin=self.questions, stdout=self.answers)

    def collect(self):
        status = self.process.wait()
        self.answers.seek(0)
        answers = self.answers.read().decode("latin-1").split("\n")[:-1]
        self.questions.close()
        self.answers.close()
        if status != 0 or len(answers) != self.lines:
            sys.exit(f"compare: {self.command[0]} ended with {status} after {len(answers)} of {self.lines} answers")
        return answers


class Tally:
    """What was compared with whom, by question, and what was left out of the oracle's comparison and why."""

    def __init__(self):
        self.asked = collections.Counter()
        self.with_ask = collections.Counter()
        self.with_oracle = collections.Counter()
        self.compared = collections.Counter()
        self.left_out = collections.defaultdict(collections.Counter)
        self.differ = 0

    def rows(self):
        yield "question", "cases", "ask", "oracle", "left out of the oracle's"
        for name in self.asked:
            left = " ".join(f"{row}:{count}" for row, count in sorted(self.left_out[name].items()))
            yield name, self.asked[name], self.with_ask[name], self.with_oracle[name], left

    def print(self):
        for name, asked, with_ask, with_oracle, left in self.rows():
            print(f"{name:16} {asked:>8} {with_ask:>8} {with_oracle:>8}  {left}".rstrip())

    def none_compared(self):
        return [name for name in self.asked if not self.compared[name]]


def shortened(text):
    return text if len(text) <= SHOWN else f"{text[:SHOWN]}.. ({len(text)} characters)"


def print_difference(line, answers):
    print(f"differs: {shortened(line)}")
    for who, answer in answers.items():
        print(f"  {who:7}{shortened(answer)}")


def compare(batch, program, oracle, tally):
    """One batch: both programs run while the model answers here."""
    lines = [line for _, line in batch]
    rows = [rules.row_for(name, line) for name, line in batch]
    if program:
        program.start(lines)
    if oracle:
        oracle.start([line for line, row in zip(lines, rows) if row is None])
    modelled = [ask.answer(line) for line in lines]
    by_program = iter(program.collect() if program else ())
    by_oracle = iter(oracle.collect() if oracle else ())
    for (name, line), row, answer in zip(batch, rows, modelled):
        answers = {"model": answer}
        if program:
            answers["ask"] = next(by_program)
        if oracle and row is None:
            answers["oracle"] = next(by_oracle)
        count(tally, name, line, row, answers)


def agree(answers):
    """Ours whole; the Rust's but for the place of a refusal."""
    model = answers["model"]
    placeless = rules.without_place(model)
    return answers.get("ask", model) == model and answers.get("oracle", placeless) == placeless


def count(tally, name, line, row, answers):
    tally.asked[name] += 1
    tally.with_ask[name] += "ask" in answers
    tally.with_oracle[name] += "oracle" in answers
    tally.compared[name] += len(answers) > 1
    if row is not None:
        tally.left_out[name][row] += 1
    if not agree(answers):
        tally.differ += 1
        print_difference(line, answers)


def batches(stream):
    while batch := list(itertools.islice(stream, BATCH)):
        yield batch


def main():
    given = arguments()
    wanted = given.questions and set(given.questions.split(","))
    tally = Tally()
    with tempfile.TemporaryDirectory() as folder:
        program = Asked(shlex.split(given.ask), folder) if given.ask else None
        oracle = Asked([os.path.abspath(given.oracle)], folder) if given.oracle else None
        for batch in batches(cases.all_cases(given.seed, given.count, wanted)):
            compare(batch, program, oracle, tally)
    tally.print()
    for who, there in (("ask", program), ("the oracle", oracle)):
        if not there:
            print(f"{who} was not given and not asked")
    missing = tally.none_compared()
    if missing:
        print(f"none compared: {' '.join(missing)}")
    print(f"{sum(tally.compared.values())} compared, {tally.differ} differ")
    return 1 if tally.differ or missing else 0


if __name__ == "__main__":
    sys.exit(main())
