"""The laws of settings that crates/settings proves of the definitions, run on the model: rows and stores at random, of few keys."""

import random
import unittest

from compare.cases_settings import EDITIONS, PROPERTIES, SERIALS, VENDORS, for_any, for_one, random_entry, random_row
from model import settings, values
from model.refusals import Refused

RANDOM = 400


def accepted(edition, row):
    try:
        return settings.read_row(edition, row)
    except Refused:
        return None


def stores():
    """An edition, a row, an entry's bytes and the row after its store; refused ones are left out."""
    rng = random.Random("stores")
    for _ in range(RANDOM):
        edition = rng.choice(EDITIONS)
        row, entry = random_row(rng, edition), random_entry(rng, edition)
        try:
            yield edition, row, entry, settings.store(edition, row, entry)
        except Refused:
            continue


def every_question():
    for vendor in VENDORS:
        for code in PROPERTIES:
            for serial in SERIALS:
                yield vendor, code, serial


def said(found):
    """What was found, its place aside."""
    return found and (found.kind, found.type, found.value, found.value_length)


def parts(row, entries):
    return [row[entry.start:entry.start + entry.length] for entry in entries]


def with_value(entry, *value):
    """An entry of the same key with another value."""
    if entry.kind == settings.FOR_ANY:
        return for_any(entry.vendor, entry.property, *value)
    return for_one(entry.vendor, entry.property, values.write_string(entry.serial), *value)


class Laws(unittest.TestCase):
    def test_an_entry_has_one_spelling(self):
        """Untidy is exactly what a tidy writer would spell otherwise."""
        for spelled in (b"\x00", b"\x01\x00\x00", b"\x01\x41\x00", b"\x02\x41\x00\x00\x00", b"\x02\x41\x00\x01\x00", b"\x02\x41\x00\x00\x01", b"\x02\x00\x00\x00\x00"):
            self.assertEqual(settings.is_untidy(spelled), values.tidy_value(values.STRING, spelled) != spelled)

    def test_found_after_stored(self):
        for edition, row, data, stored in stores():
            entry = settings.read_entry(edition, data, 0)
            for serial in SERIALS if entry.kind == settings.FOR_ANY else [entry.serial]:
                own = settings.held(accepted(edition, row), (settings.FOR_ONE, entry.vendor, entry.property, serial))
                if entry.kind == settings.FOR_ONE or edition == 1 or own is None:
                    self.assertEqual(said(settings.find(edition, stored, entry.vendor, entry.property, serial)), said(entry))

    def test_others_stay(self):
        for edition, row, data, stored in stores():
            entry, before, after = settings.read_entry(edition, data, 0), accepted(edition, row), accepted(edition, stored)
            rank = settings.held(before, entry.key)
            rank = len(before) if rank is None else rank
            kept, found = parts(row, before), parts(stored, after)
            self.assertEqual((found[rank], found[:rank] + found[rank + 1:]), (data, kept[:rank] + kept[rank + 1:]))
            for vendor, code, serial in every_question():
                answer = settings.find(edition, stored, vendor, code, serial)
                if answer is None or answer.key != entry.key:
                    self.assertEqual(said(answer), said(settings.find(edition, row, vendor, code, serial)))

    def test_stored_rows_are_rows(self):
        for edition, row, _, stored in stores():
            entries = accepted(edition, stored)
            self.assertEqual(len({entry.key for entry in entries}), len(entries))
            self.assertLessEqual(len(entries), settings.MOST_ENTRIES)

    def test_again_is_the_same_and_the_second_decides(self):
        for edition, row, data, stored in stores():
            self.assertEqual(settings.store(edition, stored, data), stored)
            second = with_value(settings.read_entry(edition, data, 0), 4, b"\x05\x00")
            self.assertEqual(settings.store(edition, stored, second), settings.store(edition, row, second))
            self.assertEqual(len(accepted(edition, settings.store(edition, stored, second))), len(accepted(edition, stored)))

    def test_editions(self):
        rng = random.Random("editions")
        for _ in range(RANDOM):
            row = random_row(rng, 1)
            first = accepted(1, row)
            if first is not None:
                self.assertEqual(accepted(2, row), first)
                for vendor, code, serial in every_question():
                    self.assertEqual(settings.find(2, row, vendor, code, serial), settings.find(1, row, vendor, code, serial))

    def test_a_serials_own_entry_wins_wherever_it_stands(self):
        rng = random.Random("wins")
        for _ in range(RANDOM):
            row = random_row(rng, 2)
            for entry in accepted(2, row) or []:
                if entry.kind == settings.FOR_ONE:
                    self.assertEqual(settings.find(2, row, entry.vendor, entry.property, entry.serial), entry)


if __name__ == "__main__":
    unittest.main()
