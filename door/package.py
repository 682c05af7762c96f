"""The Python package over the proved library, which `show` and `page` look through."""

import os
import sys

from door.failure import Misuse
from door.program import HOME, words_of

LAYOUTS = ("crate", "book")


def load():
    """Puts the package where it can be imported. The repository builds the library that is not built, where none is named; what is
    installed is there."""
    if os.path.exists(os.path.join(HOME, "crates.txt")):
        if not os.environ.get("PTP_LIBRARY"):
            os.environ["PTP_LIBRARY"] = words_of("library")[-1]
        sys.path.insert(0, os.path.join(HOME, "python"))
    else:
        sys.path.insert(0, os.path.join(os.path.dirname(HOME), "python"))
    try:
        import ptp_proved
    except ImportError as error:
        raise Misuse(str(error)) from None
    return ptp_proved


def taken_option(words, option, what):
    """The word behind an option, and the words without both; None where it is not there."""
    if option not in words:
        return None, words
    at = words.index(option)
    if at + 1 == len(words) or option in words[at + 1:]:
        raise Misuse(f"{option} takes {what}, once")
    return words[at + 1], words[:at] + words[at + 2:]


def taken_layout(words):
    layout, words = taken_option(words, "--layout", "crate or book")
    if layout is not None and layout not in LAYOUTS:
        raise Misuse("--layout takes crate or book, once")
    return layout, words
