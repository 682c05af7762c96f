"""A transaction on the wire: its containers between controller and camera, byte by byte, from a recording.

It is the first of the recording in which all four kinds of container come. The bytes and what they mean are the model's readings of the
recording; what a payload's fields are called stands in the description that the example is made from.
"""

import itertools
import re
from collections import namedtuple

from model.containers import read_container
from model.listing import KIND_WORDS, code_word
from model.recording import NOTE, SENT, read_record
from pictures import svg
from pictures.pages import BadPage

LIFE, TOP = 72, 116
CELL, TALL, GAP, PAD, ROW = 29, 25, 14, 12, 80
SIZE, SMALL = 12, 11

# How many bytes of a payload are shown, and the most room that its column may take.
SHOWN = 5
PAYLOAD_ROOM = CELL * (SHOWN + 1)

# A container at its record's place; `told` are the words of its payload's fields.
Container = namedtuple("Container", "place is_sent header data told")
Column = namedtuple("Column", "left width")

# A field's bytes, or None for the rest.
Field = namedtuple("Field", "name bytes fill stroke")
FIELDS = (Field("length", 4, "#eef1f5", "#5f6e82"), Field("kind", 2, "#e3f1e6", "#4d8a5b"), Field("code", 2, "#e4edfa", "#3c6fa6"),
          Field("transaction", 4, "#f0e8f8", "#7d5aa6"), Field("payload", None, "#fdf1dd", "#b9740f"))
STARTS = tuple(itertools.accumulate((field.bytes for field in FIELDS[:-1]), initial=0))


def named(word):
    """A field of the description, [LABEL=]TYPE:VALUE, without its type."""
    label, value = re.fullmatch(r"(?:(\w+)=)?\w+:(.*)", word, re.DOTALL).groups()
    return f"{label} {value}" if label else value


def containers(data, lines):
    """Those of a recording, whose description has these lines, one for each record."""
    at = 0
    for words in lines:
        record = read_record(data, at)
        if record.kind != NOTE:
            body = data[record.start:record.start + record.length]
            yield Container(at, record.kind == SENT, read_container(body)[0], body, [named(word) for word in words[4:]])
        at = record.after


def chosen(found):
    """The containers of the first transaction that has all kinds."""
    for _, group in itertools.groupby(found, key=lambda one: one.header.number):
        group = list(group)
        if {one.header.kind for one in group} == set(KIND_WORDS):
            return group
    raise BadPage("the recording has no transaction with all four kinds of container")


def parts_of(one):
    """The bytes of each field, without an empty payload."""
    parts = [one.data[start:end] for start, end in itertools.pairwise((*STARTS, len(one.data)))]
    return parts if parts[-1] else parts[:-1]


def meanings_of(one):
    """What each field says."""
    header, told = one.header, ", ".join(one.told)
    if not told or svg.width_of(told, SIZE, svg.BOLD) > PAYLOAD_ROOM:
        told = f"{header.payload_length} bytes"
    return [f"{len(one.data)} bytes", KIND_WORDS[header.kind], code_word(header.kind, header.code), str(header.number), told]


def cells_of(part):
    """The bytes in hexadecimal digits; of a long payload the first ones."""
    return [f"{byte:02x}" for byte in part[:SHOWN]] + (["…"] if len(part) > SHOWN else [])


def columns_of(found):
    """Each field's column, wide enough for what any of the containers has in it; all together in the middle."""
    widths = [svg.width_of(field.name, SIZE, svg.BOLD) for field in FIELDS]
    for one in found:
        for place, (part, meaning) in enumerate(zip(parts_of(one), meanings_of(one))):
            widths[place] = max(widths[place], CELL * len(cells_of(part)), svg.width_of(meaning, SIZE, svg.BOLD))
    left, columns = (svg.WIDTH - sum(widths) - GAP * (len(widths) - 1)) / 2, []
    for width in widths:
        columns.append(Column(left, width))
        left += width + GAP
    return columns


def field_of(place, part, meaning, left, top):
    """A field's bytes as a row of cells, and its meaning beneath."""
    cells, (_, _, fill, stroke) = cells_of(part), FIELDS[place]
    shapes = [svg.box(left, top, CELL * len(cells), TALL, fill, 3, stroke=stroke)]
    for number, digits in enumerate(cells):
        if number:
            shapes.append(svg.line((left + CELL * number, top), (left + CELL * number, top + TALL), stroke, stroke_opacity=0.35))
        shapes.append(svg.text(left + CELL * (number + 0.5), top + 17, digits, 13, anchor="middle", class_="byte"))
    return shapes + [svg.bold(left, top + TALL + 17, meaning, SIZE, stroke)]


def arrow(is_sent, base):
    """From the one who sends to the other."""
    start, end = (LIFE, svg.WIDTH - LIFE) if is_sent else (svg.WIDTH - LIFE, LIFE)
    back = end - 12 if is_sent else end + 12
    head = f"M {end} {svg.rounded(base)} L {back} {svg.rounded(base - 5)} L {back} {svg.rounded(base + 5)} Z"
    return [svg.line((start, base), (back, base), svg.INK, stroke_width=1.6), svg.shape("path", d=head, fill=svg.INK)]


def row_of(one, columns, top):
    parts, meanings = parts_of(one), meanings_of(one)
    left, last = columns[0].left, columns[len(parts) - 1]
    card = svg.box(left - PAD, top - PAD, last.left + last.width - left + 2 * PAD, TALL + 16 + 2 * PAD, svg.PAPER, 6, stroke=svg.FAINT)
    shapes = arrow(one.is_sent, top + TALL / 2) + [card]
    for place, (part, meaning) in enumerate(zip(parts, meanings)):
        shapes += field_of(place, part, meaning, columns[place].left, top)
    return svg.titled(svg.shape("g", shapes), sentence(one))


def sentence(one):
    meanings = meanings_of(one)
    payload = f" with {meanings[-1]}" if one.header.payload_length else ""
    return f"The {'controller' if one.is_sent else 'camera'} sends {meanings[1]} {meanings[2]}, {meanings[0]}{payload}."


def lives(foot):
    """The two who speak, and their time down the picture."""
    shapes = []
    for middle, name in ((LIFE, "controller"), (svg.WIDTH - LIFE, "camera")):
        shapes += [svg.line((middle, 84), (middle, foot), "#9aa7b6", stroke_dasharray="4 4"),
                   svg.box(middle - 52, 56, 104, 28, svg.INK, 5), svg.bold(middle, 75, name, 13, svg.PAPER, "middle")]
    return shapes


def picture(data, lines, source):
    """From a recording's bytes, the lines of its description, and the name of its file."""
    found = chosen(containers(data, lines))
    columns, foot = columns_of(found), TOP + ROW * len(found) - 8
    code = meanings_of(found[0])[2]
    shapes = [svg.bold(20, 34, f"A transaction on the wire: {code}", 17)] + lives(foot)
    for column, field in zip(columns, FIELDS):
        size = f"{field.bytes} bytes" if field.bytes else "the rest"
        shapes += [svg.bold(column.left, 69, field.name, SIZE, field.stroke), svg.text(column.left, 84, size, SMALL, svg.MUTED)]
    shapes += [row_of(one, columns, TOP + ROW * place) for place, one in enumerate(found)]
    caption = f"Transaction {found[0].header.number} of {source}, from place {found[0].place} on. Numbers have their low byte first."
    shapes.append(svg.text(20, foot + 24, caption, SMALL, svg.MUTED))
    return svg.page(f"A transaction on the wire: {code}", " ".join(map(sentence, found)), foot + 42, shapes)
