"""The replay of `ask`, asked of the package: every line of each kind that it can answer.

    PYTHONPATH=python:. python3 -m tests.replay"""

import collections
import sys
import traceback

import ptp_proved as ptp

from model import ask
from tests.answers import ANSWERS, refusal
from tests.tables import TABLES

KINDS = {**ANSWERS, **TABLES}
# What the library has no function for: a header alone.
NOT_ASKED = {"header"}
FOLDER = "crates/ask"


def answered(kind, words):
    """The answer; None for words that are no question."""
    readers, _ = ask.QUESTIONS[kind]
    if len(readers) != len(words):
        return None
    try:
        return KINDS[kind](*(read(word) for read, word in zip(readers, words)))
    except ask.Malformed:
        return None
    except ptp.Refusal as why:
        return refusal(why)


def differences(pairs, compared):
    for question, expected in pairs:
        kind, *words = question.split(" ")
        if kind not in KINDS:
            continue
        try:
            answer = answered(kind, words)
        except Exception:
            answer = traceback.format_exc()
        compared[kind] += answer is not None
        if (answer or "?") != expected:
            yield f"question: {question[:300]}\nexpected: {expected[:300]}\nanswer:   {(answer or '?')[:1500]}\n"


def lines(name):
    with open(f"{FOLDER}/{name}", encoding="latin-1", newline="\n") as file:
        return file.read().split("\n")[:-1]


def main():
    questions, answers = lines("stdin"), lines("stdout")
    compared = collections.Counter()
    different = list(differences(zip(questions, answers), compared))
    print("\n".join(different[:20]), end="")
    missed = [kind for kind in ask.QUESTIONS if kind not in NOT_ASKED and not compared[kind]]
    if missed:
        print(f"nothing is asked of: {' '.join(missed)}")
    print(f"python: {sum(compared.values())} answers of {len(compared)} kinds compared, {len(different)} differ")
    return 1 if different or missed else 0


if __name__ == "__main__":
    sys.exit(main())
