"""The few shapes that the pictures are made of. Numbers are rounded, so that a picture is the same bytes wherever it is made."""

from xml.etree import ElementTree

WIDTH = 900
INK, MUTED, FAINT, PAPER = "#1f2933", "#52606d", "#d3dae3", "#ffffff"
FONT = "Helvetica, Arial, sans-serif"

# How wide letters are by their size, no less than in the widest fonts that are taken for sans-serif; bold ones are by BOLD wider.
LETTERS = {"ijl'|": 0.28, " ,.:;!I": 0.32, "()[]-/frt": 0.42, "ckszvxy": 0.6, "mwMW%@": 1.0}
CAPITAL, OTHER, BOLD = 0.76, 0.64, 1.12


def rounded(number):
    return f"{number:.1f}".removesuffix(".0")


def shape(name, inside=(), **attributes):
    """An element; in the names of its attributes _ stands for -."""
    made = ElementTree.Element(name)
    for key, value in attributes.items():
        made.set(key.rstrip("_").replace("_", "-"), value if isinstance(value, str) else rounded(value))
    made.extend(inside)
    return made


def titled(made, title):
    """The element with what it is in words, which browsers show and screen readers say."""
    words = shape("title")
    words.text = title
    made.insert(0, words)
    return made


def box(left, top, width, height, fill, corner=0, **more):
    return shape("rect", x=left, y=top, width=width, height=height, rx=corner, fill=fill, **more)


def line(start, end, stroke=FAINT, **more):
    return shape("line", x1=start[0], y1=start[1], x2=end[0], y2=end[1], stroke=stroke, **more)


def text(left, base, words, size=12, fill=INK, anchor="start", **more):
    made = shape("text", x=left, y=base, font_size=size, fill=fill, text_anchor=anchor, **more)
    made.text = words
    return made


def bold(*words, **more):
    return text(*words, font_weight="bold", **more)


def width_of(words, size, weight=1.0):
    """An upper bound, since nobody knows which font will be taken."""
    known = {letter: width for letters, width in LETTERS.items() for letter in letters}
    return size * weight * sum(known.get(letter, CAPITAL if letter.isupper() else OTHER) for letter in words)


def wrapped(words, width, size):
    """Lines of whole words that are no wider."""
    lines = []
    for word in words.split():
        if lines and width_of(f"{lines[-1]} {word}", size) <= width:
            lines[-1] += f" {word}"
        else:
            lines.append(word)
    return lines


def page(title, about, height, shapes):
    """A whole picture, on paper of its own: it is seen on light pages and on dark ones."""
    paper = box(0.5, 0.5, WIDTH - 1, height - 1, PAPER, corner=8, stroke=FAINT)
    described = shape("desc")
    described.text = about
    made = shape("svg", [described, paper, *shapes], xmlns="http://www.w3.org/2000/svg", width=WIDTH, height=height,
                 viewBox=f"0 0 {WIDTH} {rounded(height)}", role="img", font_family=FONT)
    titled(made, title)
    ElementTree.indent(made, " ")
    return ElementTree.tostring(made, encoding="unicode") + "\n"
