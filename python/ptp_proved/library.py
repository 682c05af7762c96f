"""The shared library: where it is, and its functions with their types."""

from __future__ import annotations

import ctypes
import os
from typing import Any, Callable, Dict, Iterator, List, Tuple

from ptp_proved.declared import declarations

NAMES = ("libptp.so.0", "libptp.so")
HERE = os.path.dirname(os.path.realpath(__file__))
# In the package, below it as `./ptp install` puts it, and as the repository builds it.
BESIDE = (HERE, os.path.dirname(HERE), os.path.dirname(os.path.dirname(HERE)), os.path.join(os.path.dirname(os.path.dirname(HERE)), "target", "native"))

NUMBERS: Dict[str, Any] = {"u8": ctypes.c_uint8, "u16": ctypes.c_uint16, "u32": ctypes.c_uint32, "u64": ctypes.c_uint64, "usize": ctypes.c_size_t, "bool": ctypes.c_bool}
# Bytes are lent as they are, without a copy.
POINTERS: Dict[str, Any] = {"u8": ctypes.c_char_p, **{kind: ctypes.POINTER(NUMBERS[kind]) for kind in ("u16", "u32", "u64", "usize")}}


def candidates() -> Iterator[str]:
    named = os.environ.get("PTP_LIBRARY")
    if named:
        yield named
        return
    for folder in BESIDE:
        yield from (os.path.join(folder, name) for name in NAMES if os.path.exists(os.path.join(folder, name)))
    yield NAMES[0]


def opened() -> ctypes.CDLL:
    said = ""
    for path in candidates():
        try:
            return ctypes.CDLL(path)
        except OSError as error:
            said = str(error)
    raise ImportError(f"ptp_proved needs the proved library libptp.so.0, which is neither beside the package nor named by PTP_LIBRARY nor known to the loader ({said})")


def item_of(kind: str) -> str:
    """What a slice or a lent number is of."""
    return kind.replace("&mut ", "").replace("&", "").strip("[]")


def types_of(kinds: List[str]) -> List[type]:
    """A slice is a pointer and a length."""
    types: List[type] = []
    for kind in kinds:
        if kind.endswith("]"):
            types += [POINTERS[item_of(kind)], ctypes.c_size_t]
        else:
            types.append(POINTERS[item_of(kind)] if kind.startswith("&") else NUMBERS[kind])
    return types


def functions() -> Dict[str, Tuple[Callable[..., int], Tuple[str, ...]]]:
    library, found = opened(), {}
    for name, kinds in declarations().items():
        try:
            function = getattr(library, name)
        except AttributeError:
            raise ImportError(f"the library {library._name} is another version than this package: it has no {name}") from None
        function.argtypes, function.restype = types_of(kinds), ctypes.c_int64
        found[name] = function, tuple(kinds)
    return found
