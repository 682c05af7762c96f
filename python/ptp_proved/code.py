"""The codes of responses and commands by the library's own names, and all other codes of PIMA 15740 by the table codes.tsv."""

from __future__ import annotations

import functools
import os
from dataclasses import dataclass
from typing import Dict, Optional

from ptp_proved import archive

NAME_BYTES = 975
FIRST_COMMAND, LAST_COMMAND = 0x1000, 0x101C
FIRST_RESPONSE, LAST_RESPONSE = 0x2000, 0x2020
TABLE = os.path.join(os.path.dirname(os.path.realpath(__file__)), "codes.tsv")

NAMES = archive.written("ptp_name_bytes", NAME_BYTES).decode("ascii")


def name_at(place: int) -> Optional[str]:
    """A name's start times 65,536, and its length; 0 for none."""
    start, length = divmod(place, 65536)
    return NAMES[start:start + length] if place else None


@functools.lru_cache(maxsize=None)
def command_name(code: int) -> Optional[str]:
    """The name of a standard command."""
    return name_at(archive.call("ptp_command_place", code))


@functools.lru_cache(maxsize=None)
def response_name(code: int) -> Optional[str]:
    """The name of a standard response."""
    return name_at(archive.call("ptp_response_place", code))


COMMANDS: Dict[str, int] = {str(command_name(code)): code for code in range(FIRST_COMMAND, LAST_COMMAND + 1)}
RESPONSES: Dict[str, int] = {str(response_name(code)): code for code in range(FIRST_RESPONSE, LAST_RESPONSE + 1)}


@dataclass(frozen=True)
class Named:
    """A code's name; of a property whose value has a unit, what it is divided by and the unit."""

    name: str
    divisor: int = 0
    unit: str = ""


def read_table() -> Dict[str, Dict[int, Named]]:
    """By group: event, property, format, storage, filesystem, access, protection, association."""
    groups: Dict[str, Dict[int, Named]] = {}
    with open(TABLE, encoding="utf-8") as file:
        for line in file:
            if not line.startswith("#"):
                group, code, name, *unit = line.rstrip("\n").split("\t")
                groups.setdefault(group, {})[int(code, 16)] = Named(name, int(unit[0]), unit[1]) if len(unit) == 2 else Named(name)
    return groups


GROUPS = read_table()


def code_name(group: str, code: int) -> Optional[str]:
    """The name of a code of a group, or None."""
    named = GROUPS[group].get(code)
    return named.name if named else None
