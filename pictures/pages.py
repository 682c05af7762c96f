"""What the pictures read of the repository's pages."""

import pathlib

ROOT = pathlib.Path(__file__).resolve().parent.parent


class BadPage(Exception):
    """A page lacks what a picture is made from; the words say what."""


def read(path):
    return (ROOT / path).read_text(encoding="utf-8")


def table_after(lines, start):
    """The cells of the first table's rows from this line on, without its heading."""
    row = start
    while row < len(lines) and not lines[row].startswith("|"):
        row += 1
    cells = []
    while row < len(lines) and lines[row].startswith("|"):
        cells.append([cell.strip() for cell in lines[row].strip("|").split("|")])
        row += 1
    return cells[2:]
