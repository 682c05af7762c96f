"""The pictures show what they are made from, and nothing in them stands on another; what cannot be shown is told."""

import itertools
import pathlib
import re
import tempfile
import unittest
from xml.etree import ElementTree

from pictures import chart, house, make, svg, transaction
from pictures.pages import ROOT, BadPage, read

SHAPES = {"svg", "title", "desc", "g", "rect", "line", "path", "text"}


def elements(picture, name):
    return picture.iter("{http://www.w3.org/2000/svg}" + name)


def kept(name):
    return ElementTree.fromstring(read(name))


def title(element):
    return next(elements(element, "title")).text


def numbers(element, *names):
    return [float(element.get(name)) for name in names]


def texts(element):
    return [text.text for text in elements(element, "text")]


def room_of(text):
    """The left, top, right and lower edge of words, no narrower than they will be."""
    left, base, size = numbers(text, "x", "y", "font-size")
    width = svg.width_of(text.text, size, svg.BOLD if text.get("font-weight") else 1)
    left -= {"start": 0, "middle": width / 2, "end": width}[text.get("text-anchor")]
    return left, base - 0.8 * size, left + width, base + 0.2 * size


def within(inner, outer):
    return all((outer[0] <= inner[0], outer[1] <= inner[1], inner[2] <= outer[2], inner[3] <= outer[3]))


def rect_room(rect):
    left, top, width, height = numbers(rect, "x", "y", "width", "height")
    return left, top, left + width, top + height


class Kept(unittest.TestCase):
    def test_said_in_words_and_made_of_shapes_alone(self):
        for name in make.PICTURES:
            picture = kept(name)
            first, second = list(picture)[:2]
            self.assertTrue(first.text and first.tag.endswith("}title") and second.text and second.tag.endswith("}desc"), name)
            self.assertLessEqual({element.tag.split("}")[1] for element in picture.iter()}, SHAPES)

    def test_words_stay_on_the_paper_and_off_each_other(self):
        for name in make.PICTURES:
            picture = kept(name)
            paper = rect_room(next(elements(picture, "rect")))
            rooms = [(text.text, room_of(text)) for text in elements(picture, "text")]
            for words, room in rooms:
                self.assertTrue(within(room, paper), f"{name}: {words}")
            for (words, one), (others, other) in itertools.combinations(rooms, 2):
                is_apart = one[2] <= other[0] or other[2] <= one[0] or one[3] <= other[1] or other[3] <= one[1]
                self.assertTrue(is_apart, f"{name}: {words} and {others}")


def reached(lines, name):
    below = {lower for upper, lower in lines if upper == name}
    return below.union(*(reached(lines, one) for one in below))


def pairs(curve):
    places = [float(word) for word in re.findall(r"[\d.]+", curve)]
    return list(zip(places[::2], places[1::2]))


def points(curve):
    """Points on the way of a line, which is curves of four points each and straight between them."""
    ends, found = pairs(curve), []
    for start in range(0, len(ends), 4):
        for step in range(21):
            parts = [(1 - step / 20) ** (3 - power) * (step / 20) ** power * (1, 3, 3, 1)[power] for power in range(4)]
            found.append(tuple(sum(part * end[axis] for part, end in zip(parts, ends[start:start + 4])) for axis in (0, 1)))
    return found + [tuple((here + there) / 2 for here, there in zip(one, other)) for one, other in itertools.pairwise(found)]


class House(unittest.TestCase):
    def setUp(self):
        self.picture = kept("docs/house.svg")
        self.needed = {name: needs.split() for name, needs in re.findall(r"(?m)^(\w+)(?: staticlib)?:(.*)$", read("crates.txt"))}
        self.boxes = {group.get("id"): next(elements(group, "rect")) for group in elements(self.picture, "g")}
        self.lines = {tuple(title(path).split(" stands on ")): path.get("d") for path in elements(self.picture, "path")}

    def test_every_crate_is_there_and_its_words_in_its_box(self):
        self.assertEqual(set(self.boxes), set(self.needed))
        for group in elements(self.picture, "g"):
            self.assertEqual(texts(group)[0], group.get("id"))
            for text in elements(group, "text"):
                self.assertTrue(within(room_of(text), rect_room(self.boxes[group.get("id")])), text.text)

    def test_programs_look_otherwise(self):
        programs = {name for name in self.needed if (ROOT / "crates" / name / "src" / "main.rt").exists()}
        self.assertEqual({name for name, box in self.boxes.items() if box.get("fill") == house.PROGRAM.fill}, programs)

    def test_each_line_is_a_dependency_and_all_follow_from_them(self):
        for upper, lower in self.lines:
            self.assertIn(lower, self.needed[upper])
            self.assertNotIn(lower, reached(set(self.lines) - {(upper, lower)}, upper))
        needed = [(upper, lower) for upper, below in self.needed.items() for lower in below if lower in self.needed]
        for name in self.needed:
            self.assertEqual(reached(self.lines, name), reached(needed, name), name)

    def test_a_line_goes_from_its_crate_down_to_the_other(self):
        for (upper, lower), curve in self.lines.items():
            above, below, ends = rect_room(self.boxes[upper]), rect_room(self.boxes[lower]), pairs(curve)
            self.assertTrue(above[0] < ends[0][0] < above[2] and ends[0][1] == above[3], f"{upper} {lower}")
            self.assertTrue(below[0] < ends[-1][0] < below[2] and ends[-1][1] == below[1], f"{upper} {lower}")

    def test_no_line_runs_through_a_box(self):
        for (ends, curve), (name, box) in itertools.product(self.lines.items(), self.boxes.items()):
            left, top, right, foot = rect_room(box)
            self.assertFalse([one for one in points(curve) if left < one[0] < right and top < one[1] < foot], f"{ends} through {name}")

    def test_a_row_of_the_table_for_each_crate_and_no_other(self):
        page, listed = read("docs/HOUSE.md"), read("crates.txt")
        for name in self.needed:
            row = re.search(rf"(?m)^\| `{name}` \|.*\n", page).group()
            with self.assertRaisesRegex(BadPage, f"no row for the crate {name} of"):
                house.picture(listed, page.replace(row, ""), ())
        with self.assertRaisesRegex(BadPage, "a row for cellar, which"):
            house.picture(listed, page.replace("\n| `layout` |", "\n| `cellar` | wine | |\n| `layout` |"), ())
        with self.assertRaisesRegex(BadPage, "no section '# The house'"):
            house.picture(listed, page.replace("# The house", "# The tent"), ())


class Transaction(unittest.TestCase):
    def listed(self):
        """The records of the picture's transaction: way, kind and the container's bytes, by the example's listing."""
        data = (ROOT / "examples" / "day.recording").read_bytes()
        lines = [line.split() for line in read("examples/day.listing").splitlines()[1:-1]]
        places = [int(words[0]) for words in lines] + [len(data)]
        number = re.search(r"Transaction (\d+) of", " ".join(texts(kept("docs/transaction.svg")))).group(1)
        return [(words[1], words[2], data[start + 6:end]) for words, start, end in zip(lines, places, places[1:]) if words[-2:-1] == [number]]

    def test_it_is_the_recordings(self):
        records, groups = self.listed(), list(elements(kept("docs/transaction.svg"), "g"))
        self.assertEqual({kind for _, kind, _ in records}, {"Command", "Data", "Event", "Response"})
        self.assertEqual(len(groups), len(records))
        for (way, kind, data), group in zip(records, groups):
            cells = [text.text for text in elements(group, "text") if text.get("class") == "byte"]
            self.assertEqual(bytes.fromhex("".join(cells)), data)
            self.assertIn(kind, texts(group))
            start, end = numbers(next(elements(group, "line")), "x1", "x2")
            self.assertEqual("out" if start < end else "in", way)

    def test_a_long_payload_is_cut(self):
        self.assertEqual(transaction.cells_of(bytes(5)), ["00"] * 5)
        self.assertEqual(transaction.cells_of(bytes(6)), ["00"] * 5 + ["…"])

    def test_a_recording_without_one(self):
        data = (ROOT / "examples" / "book.recording").read_bytes()
        with self.assertRaisesRegex(BadPage, "no transaction with all four kinds"):
            transaction.picture(data, make.described()["recording"]["book"], "examples/book.recording")


TABLE = """
Last run: {machine}.

|  | ours, ns | theirs, ns | ratio |
|--|---------:|-----------:|------:|
| one | 53.2 | 1402 | 26.4x |
| alone | 25.2 | - | - |
| other | 11581670 | 703166 | 0.1x |
"""

# With the least of our rounds as a last column, as the bench writes it now.
TABLE_WITH_LEAST = """
Last run: {machine}.

|  | ours, ns | theirs, ns | ratio | ours, least |
|--|---------:|-----------:|------:|------------:|
| one | 53.2 | 1402 | 26.4x | 51.0 |
| alone | 25.2 | - | - | 24.9 |
| other | 11581670 | 703166 | 0.1x | 11380012 |
"""


class Chart(unittest.TestCase):
    def bars(self, picture):
        return [group for group in elements(picture, "g") if group.get("class") == "bar"]

    def test_a_bar_for_each_line_with_both_figures(self):
        rows = re.findall(r"(?m)^\| (\S.*?) +\| +[\d.]+ \| +[\d.]+ \| +([\d.]+)x \|(?: +[\d.]+ \|)?$", read("bench/RESULTS.md"))
        bars = self.bars(kept("bench/RESULTS.svg"))
        self.assertEqual([(texts(bar)[0], texts(bar)[1]) for bar in bars], [(label, f"{ratio}x") for label, ratio in rows])
        widths = [numbers(next(elements(bar, "rect")), "width")[0] for bar in bars]
        quicker = [(float(ratio), width) for (_, ratio), width in zip(rows, widths) if float(ratio) >= 1]
        self.assertEqual(sorted(quicker), sorted(quicker, key=lambda pair: pair[1]))

    def test_to_the_left_of_one_where_theirs_is_quicker(self):
        picture = ElementTree.fromstring(chart.picture(TABLE.format(machine="here")))
        quicker, slower = (rect_room(next(elements(bar, "rect"))) for bar in self.bars(picture))
        self.assertAlmostEqual(slower[2], quicker[0])

    def test_a_group_for_each_machine(self):
        picture = ElementTree.fromstring(chart.picture("".join(TABLE.format(machine=name) for name in ("this one", "that one"))))
        self.assertEqual([words for words in texts(picture) if words.startswith("Last")], ["Last run: this one.", "Last run: that one."])
        self.assertEqual(len(self.bars(picture)), 4)

    def test_another_column_changes_nothing(self):
        self.assertEqual(chart.picture(TABLE_WITH_LEAST.format(machine="here")), chart.picture(TABLE.format(machine="here")))

    def test_times_in_units_that_can_be_read(self):
        said = [chart.time_of(cell) for cell in ("1.8", "919", "1402", "98212", "703166", "11581670", "153632843")]
        self.assertEqual(said, ["1.8 ns", "919 ns", "1.40 µs", "98.2 µs", "703 µs", "11.6 ms", "154 ms"])

    def test_a_page_without_figures(self):
        for page in ("", "Last run: here.\n", TABLE.replace("Last run", "A run"), TABLE_WITH_LEAST.replace("Last run", "A run")):
            with self.assertRaisesRegex(BadPage, "no table with figures"):
                chart.picture(page)


class Making(unittest.TestCase):
    def test_what_would_not_be_made_now_is_told(self):
        with tempfile.TemporaryDirectory() as made:
            folder = pathlib.Path(made)
            for name, picture in make.PICTURES.items():
                (folder / name).parent.mkdir(exist_ok=True)
                (folder / name).write_text(picture(), encoding="utf-8")
            self.assertEqual(list(make.faults(folder)), [])
            (folder / "docs" / "house.svg").write_bytes(b"another")
            (folder / "bench" / "RESULTS.svg").unlink()
            told = [fault.split(" is not what would be made now")[0] for fault in make.faults(folder)]
            self.assertEqual(told, ["docs/house.svg", "bench/RESULTS.svg"])


if __name__ == "__main__":
    unittest.main()
