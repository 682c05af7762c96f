"""Every example of docs/ASK.md is the model's answer, and every question has one that is answered `ok`."""

import pathlib
import unittest

from model import ask

PAGE = pathlib.Path(__file__).resolve().parent.parent / "docs" / "ASK.md"


def examples():
    lines = PAGE.read_text().splitlines()
    return [(line[2:], lines[place + 1]) for place, line in enumerate(lines) if line.startswith("> ")]


class Page(unittest.TestCase):
    def test_examples(self):
        for question, answer in examples():
            with self.subTest(question):
                self.assertEqual(ask.answer(question), answer)

    def test_every_question_has_an_example(self):
        answered = {question.split(" ")[0] for question, answer in examples() if answer.startswith("ok")}
        self.assertEqual(set(ask.QUESTIONS) - answered, set())


if __name__ == "__main__":
    unittest.main()
