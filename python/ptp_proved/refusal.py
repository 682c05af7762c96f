"""Why a call gave nothing."""

from __future__ import annotations

from typing import Any, Optional, Tuple

# By their numbers, from 1 on: name and sentence.
REFUSALS = (
    ("END", "the input stops before a field is whole"),
    ("TEXT", "a string holds an unpaired surrogate"),
    ("TRAIL", "bytes follow what must fill its place"),
    ("KIND", "a container's kind is not 1 to 4"),
    ("LENGTH", "a container's length is below 12"),
    ("SIZE", "a container's bytes stop before its announced length"),
    ("TID", "a container carries another transaction number"),
    ("NOPHASE", "the containers stop, and no Response was seen"),
    ("ROOM", "the output is too short"),
    ("COUNT", "there are too many units, parameters, items or payload bytes, or no whole items"),
    ("TABLE", "the object table breaks its rule"),
    ("PLACE", "there is no such index or live object, or the type is no array's"),
    ("RECORD", "a record or setting is none"),
    ("LONG", "a record's body is over 65,000 bytes"),
    ("TYPE", "the type is another than the description's, or none that can be set"),
    ("VALUE", "the description does not allow the value"),
    ("EDITION", "a setting's kind is not one of the edition"),
    ("FULL", "256 settings with other keys are held"),
    ("TAKEN", "1,024 live objects are held"),
    ("PACKET", "a packet's kind is none of a transaction's"),
    ("FIELDS", "a packet is not of whole fields, or the data not as long as announced"),
    ("TRANSACTION", "this is not one transaction"),
)
NUMBERS = {name: number for number, (name, _) in enumerate(REFUSALS, 1)}
END, TEXT, TRAIL, ROOM, PLACE, VALUE = (NUMBERS[name] for name in ("END", "TEXT", "TRAIL", "ROOM", "PLACE", "VALUE"))
# The farthest place that the library tells.
FARTHEST = (1 << 55) - 1


class Refusal(Exception):
    """A refusal: its number, 1 to 22, its name, and the place of the first byte of the field that failed, which only END and TEXT have.

    It counts in the bytes that were handed over; of an object's name in that name."""

    def __init__(self, number: int, place: Optional[int] = None) -> None:
        self.number, self.place = number, place
        self.name, self.sentence = REFUSALS[number - 1]
        super().__init__(self.sentence if place is None else f"{self.sentence} (at byte {place})")

    def __eq__(self, other: object) -> bool:
        return isinstance(other, Refusal) and (self.number, self.place) == (other.number, other.place)

    def __hash__(self) -> int:
        return hash((self.number, self.place))

    def __reduce__(self) -> Tuple[Any, ...]:
        return Refusal, (self.number, self.place)

    @staticmethod
    def of(answer: int) -> "Refusal":
        """Of an answer below 0."""
        place, number = divmod(-answer, 256)
        return Refusal(number, place if number in (END, TEXT) else None)
