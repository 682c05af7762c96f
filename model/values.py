"""Values ("Values" of document 01): read at a place, written, and spelled tidily.

A value is here a whole number, a pair (high, low) of unsigned halves for 128 bits, a list of those for an array,
a `Text` for a string, or `UNDEF`.
"""

from model.refusals import COUNT, END, PLACE, TEXT, TRAIL, refuse_if

STRING = 0xFFFF
MOST_UNITS = 254
MOST_ITEMS = 0xFFFFFFFF
UNDEF = None

# Codes 0x0001 to 0x000A; the odd ones are signed. 0x4001 to 0x400A are their arrays.
WIDTHS = {1: 1, 2: 1, 3: 2, 4: 2, 5: 4, 6: 4, 7: 8, 8: 8, 9: 16, 10: 16}
ARRAY_BIT = 0x4000


class Text(tuple):
    """A string's UTF-16 units, without the last, unread one."""


def item_code(code):
    """The type of an array's items, or None where the code is no array's."""
    item = code ^ ARRAY_BIT
    return item if item in WIDTHS else None


def take(data, at, count, field):
    """The next `count` bytes, of the field that starts at `field`. No bytes can be taken at any place, even past the end."""
    refuse_if(count > max(0, len(data) - at), END, field)
    return data[at:at + count], at + count


def read_number(data, at, width):
    taken, after = take(data, at, width, at)
    return int.from_bytes(taken, "little"), after


def words(code, count, data, at):
    """So many integers of 8 to 64 bits, end to end, each as a word of 64 bits, a signed one in two's complement: 12 for another type, 1 of the first that is cut."""
    refuse_if(not 1 <= code <= 8, PLACE)
    found = []
    while len(found) < count:
        taken, at = take(data, at, WIDTHS[code], at)
        found.append(number_of(code, taken) % (1 << 64))
    return found


def number_of(code, taken):
    """What an integer's bytes mean: signed in two's complement, 128 bits as a pair, low half first."""
    if WIDTHS[code] == 16:
        return int.from_bytes(taken[8:], "little"), int.from_bytes(taken[:8], "little")
    return int.from_bytes(taken, "little", signed=code % 2 == 1)


def read_array(code, data, at):
    """A u32 count, then items: one field. The product cannot overflow here."""
    count, first = read_number(data, at, 4)
    width = WIDTHS[code]
    taken, after = take(data, first, count * width, at)
    return [number_of(code, taken[i:i + width]) for i in range(0, len(taken), width)], after


def units_of(taken):
    return Text(int.from_bytes(taken[i:i + 2], "little") for i in range(0, len(taken), 2))


def read_string(data, at):
    """A count byte, count minus 1 units, one more that is not looked at: one field. END comes before TEXT."""
    count, first = read_number(data, at, 1)
    taken, after = take(data, first, 2 * count, at)
    units = units_of(taken[:-2])
    refuse_if(not is_paired(units), TEXT, at)
    return units, after


def is_paired(units):
    """Every high surrogate has a low one right after it, and no low one stands elsewhere."""
    high_before = False
    for unit in units:
        is_low = 0xDC00 <= unit <= 0xDFFF
        if is_low != high_before:
            return False
        high_before = 0xD800 <= unit <= 0xDBFF
    return not high_before


def read_value(code, data, at):
    """The value of the type that stands at the place, and the place after it."""
    if code in WIDTHS:
        taken, after = take(data, at, WIDTHS[code], at)
        return number_of(code, taken), after
    if item_code(code) is not None:
        return read_array(item_code(code), data, at)
    if code == STRING:
        return read_string(data, at)
    return UNDEF, at


def expect_end(data, at):
    """3 if bytes follow; past the end none do (docs/DIFFERENCES.md, D13)."""
    refuse_if(at < len(data), TRAIL)


def nth_of(row, index):
    refuse_if(index >= len(row), PLACE)
    return row[index]


def unit(index, data, at):
    return nth_of(read_string(data, at)[0], index)


def item(code, index, data, at):
    """An item of the array at the place: 12 at once for a code that is no array's."""
    refuse_if(item_code(code) is None, PLACE)
    return nth_of(read_array(item_code(code), data, at)[0], index)


def utf8(text):
    joined = b"".join(unit.to_bytes(2, "little") for unit in text)
    return joined.decode("utf-16-le").encode("utf-8")


def write_number(code, value):
    """An integer's bytes. The caller hands over a number that the type has."""
    if WIDTHS[code] == 16:
        high, low = value
        return low.to_bytes(8, "little") + high.to_bytes(8, "little")
    return value.to_bytes(WIDTHS[code], "little", signed=code % 2 == 1)


def write_string(units):
    """Tidy: empty is the byte 0; else the count is units plus 1 and the last unit is 0. 2, which has no place here, then 10."""
    refuse_if(not is_paired(units), TEXT)
    refuse_if(len(units) > MOST_UNITS, COUNT)
    if not units:
        return b"\x00"
    return bytes([len(units) + 1]) + b"".join(unit.to_bytes(2, "little") for unit in units) + b"\x00\x00"


def write_array(code, items):
    """From type code and item bytes: 12 for a code that is no array's, then 10."""
    refuse_if(item_code(code) is None, PLACE)
    width = WIDTHS[item_code(code)]
    refuse_if(len(items) % width != 0 or len(items) // width > MOST_ITEMS, COUNT)
    return (len(items) // width).to_bytes(4, "little") + items


def write_value(code, value):
    """The one tidy spelling of a value that was read."""
    if value is UNDEF:
        return b""
    if isinstance(value, Text):
        return write_string(value)
    if isinstance(value, list):
        return write_array(code, b"".join(write_number(item_code(code), each) for each in value))
    return write_number(code, value)


def tidy_value(code, data):
    """The tidy spelling of the value that begins the bytes."""
    return write_value(code, read_value(code, data, 0)[0])
