"""The bench as bars: how many times quicker ours is than theirs, for each line of bench/RESULTS.md that has both figures.

The page has a table for each machine, below the line that tells of its last run; each is a group of bars.
"""

import math
import re
from collections import namedtuple

from pictures import svg
from pictures.pages import BadPage, table_after

SIDE, LINE, BAR, SIZE = 20, 21, 13, 11

# Where the two columns of times end, and how wide such a column is.
OURS, THEIRS, COLUMN = 810, 880, 56

# The room for the ratio that stands beside the end of a bar: of one that goes left, and of one that goes right.
BEFORE, AFTER = 46, 60
QUICKER, SLOWER = "#2f8f7f", "#c8622d"
LAST_RUN = re.compile(r"Last run: (.*)\.$")
UNITS = ((1e6, "ms"), (1e3, "µs"))

Group = namedtuple("Group", "machine bars")
Bar = namedtuple("Bar", "label ours theirs said ratio")


def time_of(cell):
    """Nanoseconds as the table has them; from a thousand on in three digits of a longer unit."""
    for size, unit in UNITS:
        if float(cell) >= size:
            digits = 2 - int(math.log10(float(cell) / size))
            return f"{float(cell) / size:.{digits}f} {unit}"
    return f"{cell} ns"


def bars_of(rows):
    for label, ours, theirs, ratio, *_ in rows:
        if "-" not in (ours, theirs):
            yield Bar(label, time_of(ours), time_of(theirs), ratio, float(ratio.removesuffix("x")))


def groups_of(page):
    lines, groups = page.splitlines(), []
    for place, line in enumerate(lines):
        run = LAST_RUN.match(line)
        if run:
            groups.append(Group(run.group(1), list(bars_of(table_after(lines, place)))))
    if not groups or not all(group.bars for group in groups):
        raise BadPage("bench/RESULTS.md has no table with figures of both sides below a line that begins with Last run:")
    return groups


class Scale:
    """From ratios to places, by their logarithms: between the labels and the times, with room beside the shortest bar and the longest."""

    def __init__(self, bars):
        ratios = [bar.ratio for bar in bars]
        low, high = math.log10(min(1, *ratios)), math.log10(max(10, *ratios))
        self.labels = SIDE + max(svg.width_of(bar.label, SIZE) for bar in bars)
        left, right = self.labels + (BEFORE if low < 0 else 10), OURS - COLUMN - AFTER
        self.decade = (right - left) / (high - low)
        self.one = left - low * self.decade
        self.marks = [10 ** power for power in range(math.ceil(low), math.floor(high) + 1)]

    def place(self, ratio):
        return self.one + math.log10(ratio) * self.decade


def bar_of(bar, scale, top):
    end, base = scale.place(bar.ratio), top + BAR - 2
    fill, beside, anchor = (QUICKER, 5, "start") if bar.ratio >= 1 else (SLOWER, -5, "end")
    shapes = [svg.text(scale.labels, base, bar.label, SIZE, anchor="end"),
              svg.box(min(end, scale.one), top, abs(end - scale.one), BAR, fill, 1),
              svg.bold(end + beside, base, bar.said, SIZE, fill, anchor, stroke=svg.PAPER, stroke_width=4, paint_order="stroke"),
              svg.text(OURS, base, bar.ours, SIZE, anchor="end"), svg.text(THEIRS, base, bar.theirs, SIZE, svg.MUTED, "end")]
    sentence = f"{bar.label}: ours {bar.ours}, theirs {bar.theirs}, {bar.said}"
    return svg.titled(svg.shape("g", shapes, class_="bar"), sentence)


def axis(scale, top, foot):
    shapes = [svg.bold(OURS, top - 10, "ours", SIZE, anchor="end"), svg.bold(THEIRS, top - 10, "theirs", SIZE, svg.MUTED, "end")]
    for mark in scale.marks:
        place, is_one = scale.place(mark), mark == 1
        shapes += [svg.line((place, top - 4), (place, foot), svg.INK if is_one else svg.FAINT),
                   svg.text(place, top - 10, f"{mark:,g}x", SIZE, svg.INK if is_one else svg.MUTED, "middle")]
    return shapes


def group_of(group, top):
    """The bars of one machine, and where they end."""
    scale, foot = Scale(group.bars), top + LINE * len(group.bars)
    bars = [bar_of(bar, scale, top + LINE * place + 4) for place, bar in enumerate(group.bars)]
    machine = svg.text(SIDE, foot + 26, f"Last run: {group.machine}.", SIZE, svg.MUTED)
    return [*axis(scale, top, foot + 4), *bars, machine], foot + 26


def picture(page):
    """From the text of bench/RESULTS.md."""
    groups, foot = groups_of(page), 54
    shapes = [svg.bold(SIDE, 34, "Ours against ptp 0.5.0: how many times quicker an answer is", 17),
              svg.text(SIDE, foot, "To the left of 1x theirs is quicker. The scale goes by powers of ten.", SIZE, svg.MUTED)]
    for group in groups:
        made, foot = group_of(group, foot + 48)
        shapes += made
    about = " ".join(f"{bar.label}: {bar.said}." for group in groups for bar in group.bars)
    return svg.page("How many times quicker ours is than ptp 0.5.0", about, foot + 18, shapes)
