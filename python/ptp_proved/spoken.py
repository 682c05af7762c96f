"""Values as text for a terminal, a page or a search: codes by their names, text in quotes with escapes, units beside the number."""

from __future__ import annotations

from typing import Callable, Dict, Optional, Tuple, Union

from ptp_proved.code import GROUPS, code_name, command_name
from ptp_proved.session import ALL, ROOTS
from ptp_proved.value import TYPE_NAMES, Said

Shown = Union[Said, Tuple[Said, ...]]

EVERY_STORE = 0xFFFFFFFF
ESCAPED = {'"': '\\"', "\\": "\\\\"}
# Of a value with a unit whose parts are commonly told as a fraction.
FRACTIONS = "s"


def quoted(text: str) -> str:
    """On one line of a terminal: what is not printed there, a quote and a backslash by escapes."""
    if text.isprintable() and '"' not in text and "\\" not in text:
        return f'"{text}"'
    return '"' + "".join(ESCAPED.get(letter) or (letter if letter.isprintable() else ascii(letter)[1:-1]) for letter in text) + '"'


def named(code: int, name: Optional[str]) -> str:
    return f"0x{code:04x} {name}" if name else f"0x{code:04x}"


def in_group(group: str) -> Callable[[int], str]:
    return lambda code: named(code, code_name(group, code))


def identity(number: int) -> str:
    return f"0x{number:08x}"


def store(number: int) -> str:
    return identity(number) + (" all" if number == EVERY_STORE else "")


def folder(number: int) -> str:
    return identity(number) + (" root" if number == ROOTS else " all" if number == ALL else "")


def any_format(code: int) -> str:
    return named(code, code_name("format", code) or ("any" if code == 0 else None))


NUMBER_TEXTS: Dict[str, Callable[[int], str]] = {
    "number": str,
    "id": identity,
    "store": store,
    "folder": folder,
    "any-format": any_format,
    "command": lambda code: named(code, command_name(code)),
    "type": lambda code: named(code, TYPE_NAMES.get(code)),
    "get-set": lambda number: f"{number} {('Get', 'GetSet')[number]}" if number < 2 else str(number),
    "form": lambda number: f"{number} {('none', 'range', 'list')[number]}",
    **{group: in_group(group) for group in GROUPS},
}


def decimal(number: int, divisor: int) -> str:
    """A number by a power of ten, exactly."""
    sign, (whole, rest) = "-" if number < 0 else "", divmod(abs(number), divisor)
    digits = str(rest).rjust(len(str(divisor)) - 1, "0").rstrip("0")
    return f"{sign}{whole}.{digits}" if digits else f"{sign}{whole}"


def with_unit(number: int, code: int) -> str:
    """A property's number, and beside it what it is in its unit."""
    known = GROUPS["property"].get(code)
    if not known or not known.unit:
        return str(number)
    if known.unit == "f":
        return f"{number} (f/{decimal(number, known.divisor)})"
    if known.unit == FRACTIONS and 0 < number < known.divisor and known.divisor % number == 0:
        return f"{number} (1/{known.divisor // number} s)"
    return f"{number} ({decimal(number, known.divisor)} {known.unit})"


def spoken(how: str, value: Shown) -> str:
    """A value as text. `how` is one of the ways above, or the code of the property that the value is of, as `of 0x500d`."""
    if value is None:
        return "undef"
    if isinstance(value, str):
        return quoted(value)
    if isinstance(value, tuple):
        return "[" + ", ".join(spoken(how, each) for each in value) + "]"
    return with_unit(value, int(how[3:], 16)) if how.startswith("of ") else NUMBER_TEXTS[how](value)


def of_property(code: int) -> str:
    return f"of 0x{code:04x}"
