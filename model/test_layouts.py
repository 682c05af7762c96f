"""The two layouts of a description. By the book it is read as the crate's layout reads it with one byte more behind the fifth, whichever
byte: the same answer with enable absent and each place behind that byte one less. And some bytes fit both."""

import random
import unittest

from compare.cases_datasets import one_description, short_descriptions
from model import datasets
from model.ask import answer
from model.refusals import Refused

HEAD = 5


def reading(layout, data):
    """What is read, or the refusal's number and place."""
    try:
        return datasets.read_property(layout, data)
    except Refused as refused:
        return refused.number, refused.place


def with_byte(data, byte):
    return data[:HEAD] + bytes([byte]) + data[HEAD:]


def one_further(read, byte):
    """The reading with this byte for enable, and every place one more."""
    if not isinstance(read, datasets.Property):
        number, place = read
        return number, place + 1
    return read._replace(enable=byte, length=read.length + 1, current_at=read.current_at + 1, values_at=read.values_at + 1)


class Layouts(unittest.TestCase):
    def test_the_one_byte(self):
        rng = random.Random("one byte")
        descriptions = list(short_descriptions(rng)) + [one_description(rng, datasets.BOOK) for _ in range(3000)]
        for data in descriptions:
            if HEAD <= len(data):
                byte = rng.randrange(256)
                self.assertEqual(reading(datasets.CRATE, with_byte(data, byte)),
                                 one_further(reading(datasets.BOOK, data), byte), data.hex())

    def test_before_it_they_are_the_same(self):
        for length in range(HEAD):
            data = bytes.fromhex("0150020000")[:length]
            self.assertEqual(reading(datasets.CRATE, data), reading(datasets.BOOK, data))

    def test_some_bytes_fit_both(self):
        self.assertEqual(answer("property crate 015002000001640000"), "ok 9 20481 2 0 1 100 0 none")
        self.assertEqual(answer("property book 015002000001640000"), "ok 8 20481 2 0 - 1 100 none")

    def test_the_tidy_word_is_one_byte_shorter(self):
        rng = random.Random("tidy")
        for _ in range(500):
            data = one_description(rng, datasets.BOOK)
            if isinstance(reading(datasets.BOOK, data), datasets.Property):
                tidy = datasets.tidy_property(datasets.BOOK, data)
                self.assertEqual(datasets.tidy_property(datasets.CRATE, with_byte(data, 1)), with_byte(tidy, 1))


if __name__ == "__main__":
    unittest.main()
