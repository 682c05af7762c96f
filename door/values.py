"""A setting's words: type codes and values as text, and a value's bytes. The proved writer judges those bytes and makes the entry."""

from door.failure import Misuse, named

# Each integer type with its width in bytes and whether it has a sign, by document 01's codes.
INTEGERS = {f"{'' if code % 2 else 'U'}INT{8 << (code - 1) // 2}": (code, 1 << (code - 1) // 2, bool(code % 2)) for code in range(1, 11)}
ARRAY, STRING = 0x4000, 0xFFFF
CODES = {name: code for name, (code, _, _) in INTEGERS.items()} | {f"A{name}": ARRAY | code for name, (code, _, _) in INTEGERS.items()} | {"STRING": STRING}
MOST_UNITS = 254
# An entry without its value has at most so many bytes: the longest serial is a string of 511.
MOST_ENTRY = 14 + 511


def quoted(text):
    """Text on one line of a terminal: what is not printed there, a quote and a backslash by escapes."""
    def shown(letter):
        if letter in '"\\':
            return "\\" + letter
        return letter if letter.isprintable() else ascii(letter)[1:-1]

    return '"' + "".join(map(shown, text)) + '"'


def text_of(word):
    """A string as `ask` writes it, s<0041.0042>, as text; any other word as it is."""
    if not word.startswith("s<"):
        return word
    units = [int(unit, 16) for unit in word[2:-1].split(".") if unit]
    return quoted(b"".join(unit.to_bytes(2, "little") for unit in units).decode("utf-16-le"))


def number_of(word, what, least, most):
    try:
        number = int(word, 0)
    except ValueError:
        raise Misuse(f"{named(word)} is no {what}") from None
    if not least <= number <= most:
        raise Misuse(f"{named(word)} is no {what}: it goes from {least} to {most}")
    return number


def type_of(word):
    """A type by its name, as UINT32, AUINT16 or STRING, or by its code."""
    return CODES.get(word.upper()) or number_of(word, "type", 0, 0xFFFF)


def integer(name, word):
    _, width, is_signed = INTEGERS[name]
    least, most = (-(1 << 8 * width - 1), (1 << 8 * width - 1) - 1) if is_signed else (0, (1 << 8 * width) - 1)
    return number_of(word, name, least, most).to_bytes(width, "little", signed=is_signed)


def units_of(word):
    """The units of UTF-16 of a string or a serial."""
    try:
        data = word.encode("utf-16-le")
    except UnicodeEncodeError:
        raise Misuse(f"{named(word)} is no text") from None
    if len(data) // 2 > MOST_UNITS:
        raise Misuse(f"a string has at most {MOST_UNITS} units of UTF-16, and this one has {len(data) // 2}")
    return [int.from_bytes(data[at:at + 2], "little") for at in range(0, len(data), 2)]


def string(word):
    units = units_of(word)
    return b"".join([bytes([len(units) + 1]), *(unit.to_bytes(2, "little") for unit in units), b"\0\0"]) if units else b"\0"


def value(code, word):
    """A value's bytes: a string as it is, an integer in decimal or as 0x.., an array as integers joined by commas."""
    if code == STRING:
        return string(word)
    names = {number: name for name, number in CODES.items()}
    name = names.get(code & ~ARRAY)
    if name is None or code not in names:
        raise Misuse(f"type 0x{code:04x} has no value that can be written")
    if not code & ARRAY:
        return integer(name, word)
    items = [integer(name, item) for item in word.split(",") if word]
    return len(items).to_bytes(4, "little") + b"".join(items)


def key_numbers(vendor, code):
    return f"{number_of(vendor, 'vendor', 0, 0xFFFFFFFF)} {number_of(code, 'property', 0, 0xFFFF)}"


def check_entry(vendor, code, value_type, value_word, serial=""):
    """Refuses words that no entry has, before a file is looked at."""
    key_numbers(vendor, code)
    value(type_of(value_type), value_word)
    units_of(serial)
