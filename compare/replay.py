"""Writes the replay: a fixed list of questions, and the answers on which model and oracle agree.

    python3 -m compare.replay --oracle PROGRAM [--questions NAME,NAME] QUESTIONS ANSWERS

Where a rule of compare/rules.py leaves a question out of the oracle's comparison, the answer is the model's alone. With
--questions only those questions are written, so that the list can grow with the crates.
"""

import argparse
import itertools
import os
import sys
import tempfile

from compare import cases, cases_datasets, cases_tree, cases_values, differences, peers, rules, run
from model import ask, datasets, names, test_examples, test_orders, test_page, values

EXAMPLES = differences.ROOT / "examples"
SEED = "replay"
SHORT_CASES = 35
RANDOM_CASES = 35
MALFORMED_LINES = 250
# Of the runs of units, by each question that is asked about them: short lines, and lines of any length.
SHORT_RUNS = 14
RUNS = 3
# Of the rows of code points at the limits of UTF-8.
MIXED_ROWS = 120
# A sampled question and its answer are no longer than this together.
LONGEST_SAMPLED = 700
# So many of a question's cases are looked through for the sample.
LOOKED_THROUGH = 5_000


def written_down():
    """Questions that stand in a document or a test."""
    yield from (question for question, _ in test_page.examples())
    yield from (question for _, question, _ in test_examples.NUMBERED)
    for listed in test_orders.ORDERS.values():
        yield from (question for question, _ in listed)
    yield from (question for question, _, _ in differences.examples())
    yield from peers.PEERS
    yield from (f"listing {path.read_bytes().hex()}" for path in sorted(EXAMPLES.glob("*.recording")))
    yield from (f"settings 2 {path.read_bytes().hex()}" for path in sorted(EXAMPLES.glob("*.settings")))


def every_name():
    """Each code of both tables, and the neighbours that have no name."""
    for question, first, table in (("response-name", names.FIRST_RESPONSE, names.RESPONSES),
                                   ("command-name", names.FIRST_COMMAND, names.COMMANDS)):
        yield from (f"{question} {code}" for code in range(first - 1, first + len(table) + 1))


def is_short(line):
    return len(line) <= LONGEST_SAMPLED and len(line) + len(ask.answer(line)) <= LONGEST_SAMPLED


def is_plain(line):
    """Printable ASCII, so that no tool between here and the replay changes it."""
    return line.isascii() and line.isprintable()


def spread(lines, count):
    """`count` of the lines, evenly spread over all of them."""
    return [lines[place * len(lines) // count] for place in range(count)] if len(lines) > count else lines


def sampled(name):
    """A question's short cases, evenly spread, and its first random ones."""
    all_of_it = cases.cases_of(name, SEED)
    lines = list(itertools.islice(all_of_it, LOOKED_THROUGH))
    short, more = lines[0::2], lines[1::2]
    if cases.CASES[name].one is None:
        short, more = lines, []
    yield from spread([line for line in short if is_short(line)], SHORT_CASES)
    yield from itertools.islice((line for line in more if is_short(line)), RANDOM_CASES)


def runs_by_question():
    """The runs of units, whole and broken, as each question that reads strings is asked about them."""
    yield [f"value {values.STRING} 0 {data.hex()}" for data in cases_values.edge_runs()]
    yield [f"utf8 0 {data.hex()} {2 * len(data)}" for data in cases_values.edge_runs()]
    yield [f"device {data.hex()}" for data in cases_datasets.run_rows(datasets.DEVICE)]
    yield [f"object {data.hex()}" for data in cases_datasets.run_rows(datasets.OBJECT)]
    yield [f"walk {cases_tree.words(table)}" for table in cases_tree.run_tables()]


def runs():
    for lines in runs_by_question():
        yield from spread([line for line in lines if is_short(line)], SHORT_RUNS)
        yield from spread(lines, RUNS)


def mixed():
    """Code points of one to four bytes of UTF-8, in many an order, with just the room that they need."""
    return spread([f"utf8 0 {data.hex()} {len(cases_values.utf8_of(data, 0))}" for data in cases_values.mixed_strings()], MIXED_ROWS)


def no_questions():
    lines = itertools.islice(cases.cases_of(rules.MALFORMED, SEED), LOOKED_THROUGH)
    return spread([line for line in lines if is_plain(line) and is_short(line)], MALFORMED_LINES)


def group_of(line):
    """The question's name, or that the line is no question."""
    return line.split(" ")[0] if ask.answer(line) != "?" else rules.MALFORMED


def all_lines():
    """Every line of the replay once, question by question."""
    lines = dict.fromkeys(itertools.chain(written_down(), every_name(), runs(), mixed()))
    for name in ask.QUESTIONS:
        lines.update(dict.fromkeys(sampled(name)))
    lines.update(dict.fromkeys(no_questions()))
    order = [*ask.QUESTIONS, rules.MALFORMED]
    return sorted(((group_of(line), line) for line in lines), key=lambda pair: order.index(pair[0]))


def agreed(pairs, oracle):
    """The model's answers, after the oracle has given the same, but for the place of a refusal, wherever it has one."""
    asked = [line for name, line in pairs if rules.row_for(name, line) is None]
    with tempfile.TemporaryDirectory() as folder:
        program = run.Asked([os.path.abspath(oracle)], folder)
        program.start(asked)
        by_oracle = dict(zip(asked, program.collect()))
    for _, line in pairs:
        answer = ask.answer(line)
        placeless = rules.without_place(answer)
        if by_oracle.get(line, placeless) != placeless:
            sys.exit(f"replay: model and oracle differ: {line}")
        yield answer


def main():
    parser = argparse.ArgumentParser(description="write the replay")
    parser.add_argument("--oracle", required=True)
    parser.add_argument("--questions", help="only these, joined by commas")
    parser.add_argument("question_file")
    parser.add_argument("answer_file")
    given = parser.parse_args()
    wanted = set(given.questions.split(",")) | {rules.MALFORMED} if given.questions else None
    pairs = [pair for pair in all_lines() if wanted is None or pair[0] in wanted]
    answers = list(agreed(pairs, given.oracle))
    for path, lines in ((given.question_file, [line for _, line in pairs]), (given.answer_file, answers)):
        with open(path, "w", encoding="latin-1", newline="\n") as file:
            file.writelines(line + "\n" for line in lines)
    print(f"{len(pairs)} questions")


if __name__ == "__main__":
    main()
