"""The refusal numbers of document 01, and the one way in which this model refuses."""

END = 1        # the input stops before a field is whole
TEXT = 2       # an unpaired surrogate among a string's units
TRAIL = 3      # bytes follow an answer that must fill its payload
KIND = 4       # container kind is not 1 to 4
LENGTH = 5     # container length is below 12
SIZE = 6       # a phase's bytes stop before its announced length
TID = 7        # a phase carries another transaction number
NOPHASE = 8    # phases stop between containers, no Response seen
ROOM = 9       # the output is shorter than the exact need
COUNT = 10     # too many units, parameters, items or payload bytes, or a part of an item
TABLE = 11     # the object table breaks its rule
PLACE = 12     # an index or array type code that does not exist
RECORD = 13    # recording length below 6 or kind not 1 to 3
LONG = 14      # a record's body over 65,000 bytes
TYPE = 15      # another type than the description's, UNDEF, or a range of anything but integers of 8 to 64 bits
VALUE = 16     # the description's form does not allow the value
EDITION = 17   # an entry's kind is not one of the edition
FULL = 18      # 256 entries with other keys are held
TAKEN = 19     # 1,024 live objects are held
PACKET = 20    # a packet's kind is none of the five that a transaction has
FIELDS = 21    # a packet's length is not of whole fields, or the data's joined length is not the announced one
TRANSACTION = 22  # not one transaction


class Refused(Exception):
    """A refusal is its number and, of a reader's 1 and 2, the place of the first byte of the field that failed."""

    def __init__(self, number, place=None):
        super().__init__(number, place)
        self.number = number
        self.place = place

    def __str__(self):
        return str(self.number) if self.place is None else f"{self.number} {self.place}"

    def seen_from(self, start):
        """The same refusal, its place counted from another one."""
        return Refused(self.number, None if self.place is None else self.place - start)


def refuse_if(condition, number, place=None):
    if condition:
        raise Refused(number, place)
