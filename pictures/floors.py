"""Where the crates of the house stand: on which floor, beside whom, and where the lines between them run.

A spot is a crate's name and a floor. On the crate's own floor it is the crate's box; on a floor above, the lane in which lines go down to the
crate between the boxes of that floor. Lines to one crate share its lanes.
"""

import functools
import itertools
from collections import Counter, namedtuple

LANE, GAP, STEP = 12, 12, 12

Span = namedtuple("Span", "left right")


def floors_of(needs):
    """Each crate's floor: one above the highest that it needs."""
    @functools.cache
    def floor(name):
        return 1 + max(map(floor, needs[name]), default=-1)
    return {name: floor(name) for name in needs}


def reduced(needs):
    """Of what each crate needs, that which does not follow from the rest."""
    @functools.cache
    def reached(name):
        return frozenset(needs[name]).union(*map(reached, needs[name]))
    return {name: [one for one in below if not any(one in reached(other) for other in below)] for name, below in needs.items()}


def routes_of(below, floors):
    """The spots from a crate down to each that it stands on."""
    return {(upper, lower): [(upper, floors[upper])] + [(lower, floor) for floor in range(floors[upper] - 1, floors[lower] - 1, -1)]
            for upper, found in below.items() for lower in found}


def links_of(routes):
    """The pairs of spots, the upper one first, that lines join."""
    return list(dict.fromkeys(pair for spots in routes.values() for pair in itertools.pairwise(spots)))


def weights_of(floors, links, told):
    """How wide the boxes are beside each other: by the lines that leave or meet one, whichever are more, and by what is told in it."""
    down, up = Counter(upper for upper, _ in links), Counter(lower for _, lower in links)
    return {spot: 2 + max(down[spot], up[spot]) + len(told[spot[0]]) / 20 for spot in floors.items()}


def spans_of(row, weights, width):
    """From where to where each spot of a row goes; a spot without a weight is a lane."""
    room = width - GAP * (len(row) - 1) - LANE * sum(spot not in weights for spot in row)
    share = room / sum(weights.get(spot, 0) for spot in row)
    spans, left = {}, 0
    for spot in row:
        right = left + (share * weights[spot] if spot in weights else LANE)
        spans[spot] = Span(left, right)
        left = right + GAP
    return spans


def middle(span):
    return (span.left + span.right) / 2


def apart(one, other):
    """How far a line must go sideways between two spans."""
    return max(0, other.left - one.right, one.left - other.right)


def tangle(rows, links, weights, width):
    """How many lines cross, and then how far they go sideways."""
    spans = {spot: span for row in rows for spot, span in spans_of(row, weights, width).items()}
    ends = [(spots[0][1], middle(spans[spots[0]]), middle(spans[spots[1]])) for spots in links]
    crossings = sum(one[0] == other[0] and (one[1] - other[1]) * (one[2] - other[2]) < 0 for one, other in itertools.combinations(ends, 2))
    return crossings, sum(apart(spans[upper], spans[lower]) for upper, lower in links)


def moves(rows):
    """The rows with one spot moved to another place of its row, in every way."""
    for number, row in enumerate(rows):
        for start, end in itertools.permutations(range(len(row)), 2):
            moved = row[:start] + row[start + 1:]
            moved.insert(end, row[start])
            yield [*rows[:number], moved, *rows[number + 1:]]


def untangled(rows, measure):
    """The rows with spots moved as long as that makes them better."""
    least = measure(rows)
    while True:
        best = min(moves(rows), key=measure)
        if measure(best) >= least:
            return rows
        rows, least = best, measure(best)


def rows_of(floors, links):
    """The spots of each floor, the lowest first: there in the order of the crates, above by the mean place of what they stand on."""
    spots = dict.fromkeys([*floors.items(), *itertools.chain.from_iterable(links)])
    places, rows = {}, []

    def mean(spot):
        below = [places[lower] for upper, lower in links if upper == spot]
        return sum(below) / max(1, len(below))

    for floor in range(max(floors.values()) + 1):
        row = sorted((spot for spot in spots if spot[1] == floor), key=mean)
        places.update((spot, (place + 0.5) / len(row)) for place, spot in enumerate(row))
        rows.append(row)
    return rows


def spans_untangled(floors, links, told, width):
    """From where to where each spot goes."""
    weights = weights_of(floors, links, told)
    rows = untangled(rows_of(floors, links), lambda rows: tangle(rows, links, weights, width))
    return {spot: span for row in rows for spot, span in spans_of(row, weights, width).items()}


def spread(span, count):
    """So many places on a span, evenly."""
    return [span.left + (span.right - span.left) * (place + 1) / (count + 1) for place in range(count)]


def spaced(wanted, span):
    """The places that are wanted, in rising order, kept within the span and from each other."""
    low, high = span.left + STEP, span.right - STEP
    places = []
    for one in wanted:
        places.append(max(min(one, high), low, places[-1] + STEP if places else low))
    for place in range(len(places) - 1, -1, -1):
        places[place] = min(places[place], high if place == len(places) - 1 else places[place + 1] - STEP)
    return places


def ends_of(links, spans):
    """Where each link leaves the upper spot and where it meets the lower one."""
    starts, ends = {}, {}
    for spot in spans:
        down = sorted((link for link in links if link[0] == spot), key=lambda link: middle(spans[link[1]]))
        starts.update(zip(down, spread(spans[spot], len(down))))
    for spot, span in spans.items():
        up = sorted((link for link in links if link[1] == spot), key=starts.get)
        is_lane = span.right - span.left <= LANE
        ends.update(zip(up, [middle(span)] * len(up) if is_lane else spaced([starts[link] for link in up], span)))
    return {link: (starts[link], ends[link]) for link in links}
