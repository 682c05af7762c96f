"""Runs the examples of docs/DIFFERENCES.md: `ours` against the model, `rust` against the oracle started with --outside.
It fails too where a rule of compare/rules.py names a row that the page has not.

    python3 -m compare.differences --oracle PROGRAM
"""

import argparse
import pathlib
import re
import subprocess
import sys

from model import ask

ROOT = pathlib.Path(__file__).resolve().parent.parent
PAGE = ROOT / "docs" / "DIFFERENCES.md"
RULES = ROOT / "compare" / "rules.py"


def examples():
    """Triples of a question, our answer and the Rust's."""
    lines = PAGE.read_text().splitlines()
    return [(line[2:], lines[place + 1].removeprefix("ours "), lines[place + 2].removeprefix("rust "))
            for place, line in enumerate(lines) if line.startswith("> ")]


def rust_answers(oracle, questions):
    run = subprocess.run([oracle, "--outside"], input="".join(line + "\n" for line in questions),
                         capture_output=True, text=True, check=True)
    return run.stdout.splitlines()


def missing_rows():
    """Rows that a rule names and the page has not."""
    page = PAGE.read_text()
    return [row for row in sorted(set(re.findall(r'"(D\d+)"', RULES.read_text()))) if f"**{row}." not in page]


def main():
    parser = argparse.ArgumentParser(description="run the examples of docs/DIFFERENCES.md")
    parser.add_argument("--oracle", required=True)
    written = examples()
    by_rust = rust_answers(parser.parse_args().oracle, [question for question, _, _ in written])
    wrong = [(question, who, told, got)
             for (question, ours, rust), answer in zip(written, by_rust, strict=True)
             for who, told, got in (("ours", ours, ask.answer(question)), ("rust", rust, answer)) if told != got]
    for question, who, told, got in wrong:
        print(f"{question}\n  {who} is written as {told}\n  and is {got}")
    for row in missing_rows():
        print(f"compare/rules.py names {row}, which the page has not")
    print(f"{len(written)} examples, {len(wrong)} differ")
    return 1 if wrong or missing_rows() else 0


if __name__ == "__main__":
    sys.exit(main())
