"""The house: the crates of crates.txt as boxes, each with what docs/HOUSE.md says that it holds, standing on what they need."""

import itertools
from collections import namedtuple

from pictures import floors, svg
from pictures.pages import BadPage, table_after

SIDE, TOP, FOOT = 20, 56, 66
HEAD, LINE, PAD, BETWEEN = 27, 14, 10, 60
SMALL = 11
HEADING = "# The house"

# `needs` are other crates, `kit` are libraries of the kit.
Crate = namedtuple("Crate", "name holds is_program needs kit")

Level = namedtuple("Level", "top foot")
Look = namedtuple("Look", "fill stroke corner")
LIBRARY, PROGRAM = Look("#e9f1fb", "#3c6fa6", 4), Look("#fdf1dd", "#b9740f", 14)


def needed_of(listed):
    """What each crate needs, by crates.txt. A static library's line says so behind its name."""
    lines = [line.split("#")[0] for line in listed.splitlines()]
    return {head.split()[0]: needs.split() for head, needs in (line.split(":") for line in lines if line.strip())}


def held_of(page):
    """What each crate holds, by the table of docs/HOUSE.md: up to the first semicolon."""
    lines = page.splitlines()
    if HEADING not in lines:
        raise BadPage(f"docs/HOUSE.md has no section {HEADING!r}")
    rows = table_after(lines, lines.index(HEADING))
    return {name.strip("`"): holds.replace("`", "").split(";")[0] for name, holds, _ in rows}


def crates_of(listed, page, programs):
    needed, held = needed_of(listed), held_of(page)
    for name in needed:
        if name not in held:
            raise BadPage(f"docs/HOUSE.md has no row for the crate {name} of crates.txt")
    for name in held:
        if name not in needed:
            raise BadPage(f"docs/HOUSE.md has a row for {name}, which crates.txt does not have")
    return {name: Crate(name, held[name].removeprefix("program: "), name in programs,
                        [one for one in needs if one in needed], [one for one in needs if one not in needed])
            for name, needs in needed.items()}


class Plan:
    """Where everything stands."""

    def __init__(self, crates):
        needs = {name: crate.needs for name, crate in crates.items()}
        self.floors = floors.floors_of(needs)
        self.below = floors.reduced(needs)
        self.routes = floors.routes_of(self.below, self.floors)
        links = floors.links_of(self.routes)
        told = {name: crate.holds for name, crate in crates.items()}
        self.spans = floors.spans_untangled(self.floors, links, told, svg.WIDTH - 2 * SIDE)
        self.ends = floors.ends_of(links, self.spans)
        self.words = {name: svg.wrapped(words, self.width(name) - 2 * PAD, SMALL) for name, words in told.items()}
        self.levels = self.stacked()

    def width(self, name):
        span = self.spans[name, self.floors[name]]
        return span.right - span.left

    def stacked(self):
        """The top and the foot of each floor, the highest first; a floor is as high as the most words on it ask for."""
        levels, top = {}, TOP
        for floor in range(max(self.floors.values()), -1, -1):
            lines = max(len(words) for name, words in self.words.items() if self.floors[name] == floor)
            levels[floor] = Level(top, top + HEAD + lines * LINE + PAD)
            top = levels[floor].foot + BETWEEN
        return levels


def look_of(crate):
    return PROGRAM if crate.is_program else LIBRARY


def box_of(crate, plan):
    spot = crate.name, plan.floors[crate.name]
    left, width, look = SIDE + plan.spans[spot].left, plan.width(crate.name), look_of(crate)
    top, foot = plan.levels[spot[1]]
    shapes = [svg.box(left, top, width, foot - top, look.fill, look.corner, stroke=look.stroke, stroke_width=1.2),
              svg.bold(left + PAD, top + 20, crate.name, 14)]
    if crate.kit:
        shapes.append(svg.text(left + width - PAD, top + 20, " ".join(crate.kit), 10, svg.MUTED, "end", font_style="italic"))
    for place, words in enumerate(plan.words[crate.name]):
        shapes.append(svg.text(left + PAD, top + HEAD + LINE * (place + 0.8), words, SMALL, svg.MUTED))
    return svg.shape("g", shapes, id=crate.name)


def curve_of(spots, plan):
    """The way of a line from its crate's foot down to the other's top; through a lane it goes straight."""
    parts = []
    for upper, lower in itertools.pairwise(spots):
        start, end = (svg.rounded(SIDE + place) for place in plan.ends[upper, lower])
        high, low = plan.levels[upper[1]].foot, plan.levels[lower[1]].top
        bend = svg.rounded((high + low) / 2)
        parts.append(f"{'L' if parts else 'M'} {start} {high} C {start} {bend} {end} {bend} {end} {low}")
    return " ".join(parts)


def line_of(crates, spots, plan):
    upper, lower = spots[0][0], spots[-1][0]
    stroke = look_of(crates[upper]).stroke
    made = svg.shape("path", d=curve_of(spots, plan), fill="none", stroke=stroke, stroke_width=1.4)
    return svg.titled(made, f"{upper} stands on {lower}")


def legend(base):
    shapes, left = [], SIDE
    for look, words in ((LIBRARY, "library"), (PROGRAM, "program")):
        shapes += [svg.box(left, base - 11, 22, 14, look.fill, look.corner / 2, stroke=look.stroke),
                   svg.text(left + 29, base, words, SMALL, svg.MUTED)]
        left += 90
    told = ("In italics: the libraries of the kit that a crate uses.",
            "A line leads down to what a crate stands on; lines to one crate may share their way. What follows from the others is not drawn.")
    return shapes + [svg.text(left, base, told[0], SMALL, svg.MUTED), svg.text(SIDE, base + 20, told[1], SMALL, svg.MUTED)]


def picture(listed, page, programs):
    """From the text of crates.txt, that of docs/HOUSE.md, and the names of the crates that are programs."""
    crates = crates_of(listed, page, programs)
    plan = Plan(crates)
    shapes = [svg.bold(SIDE, 34, "The house: what stands on what", 17)]
    shapes += [line_of(crates, spots, plan) for spots in plan.routes.values()]
    shapes += [box_of(crate, plan) for crate in crates.values()]
    about = " ".join(f"{name} stands on {', '.join(found) or 'nothing'}." for name, found in plan.below.items())
    height = plan.levels[0].foot + FOOT
    return svg.page("The crates and what stands on what", about, height, shapes + legend(height - 38))
