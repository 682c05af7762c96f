"""What `show` says of a recording (docs/SHOW.md), decoded by this model alone: the objects of `--json`, and from them the text.

    python3 -m model.show [--layout crate|book] [--json] < recording
"""

import json
import pathlib
import sys

from model import datasets, names, recording, values
from model.containers import read_container
from model.refusals import TRAIL, Refused, refuse_if

CODES = pathlib.Path(__file__).resolve().parent.parent / "python" / "ptp_proved" / "codes.tsv"
REFUSALS = """END TEXT TRAIL KIND LENGTH SIZE TID NOPHASE ROOM COUNT TABLE PLACE RECORD LONG TYPE VALUE EDITION FULL TAKEN PACKET FIELDS
TRANSACTION""".split()
SENTENCES = {1: "the input stops before a field is whole", 2: "a string holds an unpaired surrogate", 3: "bytes follow what must fill its place"}
KINDS = {1: "Command", 2: "Data", 3: "Response", 4: "Event"}
FIRST = 16
WAITING = 256
LAST_NUMBER = 4_294_967_294
UINT8, UINT16, UINT32 = 2, 4, 6


def read_codes():
    groups = {}
    for line in CODES.read_text(encoding="utf-8").splitlines():
        if line[:1] != "#":
            group, code, name, divisor, unit = (line.split("\t") + ["", ""])[:5]
            groups.setdefault(group, {})[int(code, 0)] = (name, int(divisor or 0), unit)
    return groups


GROUPS = read_codes()

# ---- numbers as text


def hexed(code, name):
    return f"0x{code:04x}" + (f" {name}" if name else "")


def coded(group):
    return lambda code: hexed(code, GROUPS[group].get(code, (None,))[0])


def wide(number, **words):
    """Eight digits, and a word for some numbers."""
    return f"0x{number:08x}" + "".join(f" {word}" for word, own in words.items() if own == number)


def type_name(code):
    if code == values.STRING:
        return "STR"
    plain = code & ~values.ARRAY_BIT
    if plain not in values.WIDTHS:
        return None
    return ("A" if code != plain else "") + ("" if plain % 2 else "U") + f"INT{8 * values.WIDTHS[plain]}"


def choice(*words):
    return lambda number: f"{number} {words[number]}" if number < len(words) else str(number)


TEXTS = {
    "plain": str,
    "id": wide,
    "store": lambda number: wide(number, all=0xFFFFFFFF),
    "folder": lambda number: wide(number, root=0xFFFFFFFF, all=0),
    "wanted": lambda code: hexed(code, "any" if code == 0 else GROUPS["format"].get(code, (None,))[0]),
    "command": lambda code: hexed(code, names.command_name(code)),
    "type": lambda code: hexed(code, type_name(code)),
    "getset": choice("Get", "GetSet"),
    "form": choice("none", "range", "list"),
}
TEXTS.update((group, coded(group)) for group in GROUPS)


def divided(number, divisor):
    digits = len(str(divisor)) - 1
    text = f"{abs(number):0{digits + 1}d}"
    whole, rest = (text[:-digits], text[-digits:].rstrip("0")) if digits else (text, "")
    return ("-" if number < 0 else "") + whole + (f".{rest}" if rest else "")


def measured(code):
    """A property's number with its unit."""
    _, divisor, unit = GROUPS["property"].get(code, (None, 0, ""))

    def text(number):
        if not unit:
            return str(number)
        if unit == "s" and 1 <= number < divisor and divisor % number == 0:
            return f"{number} (1/{divisor // number} s)"
        return f"{number} (f/{divided(number, divisor)})" if unit == "f" else f"{number} ({divided(number, divisor)} {unit})"
    return text


def quoted(text):
    """Letters that are printed, but for the quote and the backslash, as they are."""
    shown = []
    for letter in text:
        if letter in '\\"':
            shown.append("\\" + letter)
        elif letter.isprintable():
            shown.append(letter)
        else:
            shown.append(letter.encode("unicode_escape").decode("ascii"))
    return '"' + "".join(shown) + '"'


def plain(value):
    """The model's value as JSON has it: text, one number for 128 bits, lists."""
    if isinstance(value, values.Text):
        return values.utf8(value).decode("utf-8")
    if isinstance(value, list):
        return [plain(each) for each in value]
    return value


def whole_number(code, value):
    """Of 128 bits: one number, in two's complement for the signed type."""
    if isinstance(value, list):
        return [whole_number(values.item_code(code), each) for each in value]
    if not isinstance(value, tuple) or isinstance(value, values.Text):
        return value
    number = (value[0] << 64) + value[1]
    return number - (1 << 128) if code == 9 and value[0] >> 63 else number


def worded(value, text):
    if value is None:
        return "undef"
    if isinstance(value, str):
        return quoted(value)
    if isinstance(value, list):
        return f"[{', '.join(worded(each, text) for each in value)}]"
    return text(value)


# ---- fields

def field(name, value, text, place, length):
    value = plain(value)
    return {"name": name, "value": value, "text": worded(value, text), "place": place, "length": length}


def parameters(payload, place, meanings):
    """At most five numbers, and a sentence where bytes follow them."""
    fields, at = [], 0
    while len(fields) < 5 and at + 4 <= len(payload):
        name, text = meanings[len(fields)] if len(fields) < len(meanings) else (f"Parameter{len(fields) + 1}", "plain")
        number, after = values.read_number(payload, at, 4)
        fields.append(field(name, number, TEXTS[text], place + at, 4))
        at = after
    return fields, [f"{len(payload) - at} bytes behind the parameters"] if at < len(payload) else []


DEVICE = [("Version", "plain"), ("VendorExID", "plain"), ("VendorExVersion", "plain"), ("VendorExtensionDesc", "plain"), ("FunctionalMode", "plain"),
          ("OperationsSupported", "command"), ("EventsSupported", "event"), ("DevicePropertiesSupported", "property"), ("CaptureFormats", "format"),
          ("ImageFormats", "format"), ("Manufacturer", "plain"), ("Model", "plain"), ("DeviceVersion", "plain"), ("SerialNumber", "plain")]
OBJECT = [("StorageID", "store"), ("ObjectFormat", "format"), ("ProtectionStatus", "protection"), ("ObjectCompressedSize", "plain"),
          ("ThumbFormat", "format"), ("ThumbCompressedSize", "plain"), ("ThumbPixWidth", "plain"), ("ThumbPixHeight", "plain"),
          ("ImagePixWidth", "plain"), ("ImagePixHeight", "plain"), ("ImageBitDepth", "plain"), ("ParentObject", "id"),
          ("AssociationType", "association"), ("AssociationDesc", "plain"), ("SequenceNumber", "plain"), ("Filename", "plain"),
          ("CaptureDate", "plain"), ("ModificationDate", "plain"), ("Keywords", "plain")]
STORAGE = [("StorageType", "storage"), ("FilesystemType", "filesystem"), ("AccessCapability", "access"), ("MaxCapacity", "plain"),
           ("FreeSpaceInBytes", "plain"), ("FreeSpaceInImages", "plain"), ("StorageDescription", "plain"), ("VolumeLabel", "plain")]


def row(names_of, types, payload, place, must_fill=False):
    fields, at = [], 0
    for (name, text), code in zip(names_of, types):
        value, after = values.read_value(code, payload, at)
        fields.append(field(name, value, TEXTS[text], place + at, after - at))
        at = after
    refuse_if(must_fill and at < len(payload), TRAIL)
    return fields


def description(layout, payload, place):
    """Field by field, as the book has them."""
    read = datasets.read_property(layout, payload)
    fields, at = [], 0

    def take(name, code, text, value=None, count=1):
        nonlocal at
        found, after = datasets.read_row([code] * count, payload, at)
        fields.append(field(name, whole_number(code, found[0]) if value is None else value, text, place + at, after - at))
        at = after

    own = measured(read.code)
    take("PropertyCode", UINT16, TEXTS["property"])
    take("DataType", UINT16, TEXTS["type"])
    take("GetSet", UINT8, TEXTS["getset"])
    if layout == datasets.CRATE:
        take("IsEnable", UINT8, str)
    take("FactoryDefault", read.type, own)
    take("Current", read.type, own)
    take("Form", UINT8, TEXTS["form"], value=read.form if read.form in (1, 2) else 0)
    if read.form == datasets.RANGE_FORM:
        for name in ("minValue", "maxValue", "step"):
            take(name, read.type, own)
    if read.form == datasets.LIST_FORM:
        fields.append(field("array", [whole_number(read.type, each) for each in read.values], own, place + at, read.length - at))
    return fields, (read.code, read.type)


def filling(name, code, text, payload, place):
    value, after = values.read_value(code, payload, 0)
    refuse_if(after < len(payload), TRAIL)
    return [field(name, whole_number(code, value), text, place, len(payload))]


SIMPLE = {
    "device": lambda payload, place: row(DEVICE, datasets.DEVICE, payload, place),
    "object": lambda payload, place: row(OBJECT, datasets.OBJECT, payload, place),
    "storage": lambda payload, place: row(STORAGE, datasets.STORAGE, payload, place, must_fill=True),
    "handles": lambda payload, place: filling("ObjectHandles", 0x4006, TEXTS["id"], payload, place),
    "storage-ids": lambda payload, place: filling("StorageIDs", 0x4006, TEXTS["id"], payload, place),
    "count": lambda payload, place: filling("NumObjects", UINT32, str, payload, place),
}
READ_BY = {"GetDeviceInfo": "device", "GetStorageIDs": "storage-ids", "GetStorageInfo": "storage", "GetNumObjects": "count", "GetObjectHandles": "handles",
           "GetObjectInfo": "object", "SendObjectInfo": "object", "GetDevicePropDesc": "property", "GetDevicePropValue": "value",
           "SetDevicePropValue": "value"}

# ---- what parameters mean

STORE, HANDLE, PARENT, WANTED = ("StorageID", "store"), ("ObjectHandle", "id"), ("ParentObject", "folder"), ("ObjectFormat", "wanted")
CODE = [("DevicePropCode", "property")]
OF_COMMAND = {
    "OpenSession": [("SessionID", "plain")], "GetStorageInfo": [STORE], "GetNumObjects": [STORE, WANTED, PARENT],
    "GetObjectHandles": [STORE, WANTED, PARENT], "GetObjectInfo": [HANDLE], "GetObject": [HANDLE], "GetThumb": [HANDLE],
    "DeleteObject": [HANDLE, WANTED], "SendObjectInfo": [STORE, PARENT], "InitiateCapture": [STORE, WANTED],
    "FormatStore": [STORE, ("FilesystemFormat", "filesystem")], "SelfTest": [("SelfTestType", "plain")],
    "SetObjectProtection": [HANDLE, ("ProtectionStatus", "protection")], "GetDevicePropDesc": CODE, "GetDevicePropValue": CODE,
    "SetDevicePropValue": CODE, "ResetDevicePropValue": CODE, "TerminateOpenCapture": [("TransactionID", "plain")],
    "MoveObject": [HANDLE, STORE, PARENT], "CopyObject": [HANDLE, STORE, PARENT],
    "GetPartialObject": [HANDLE, ("Offset", "plain"), ("MaxBytes", "plain")], "InitiateOpenCapture": [STORE, WANTED],
}
OF_RESPONSE = {"GetNumObjects": [("NumObjects", "plain")], "SendObjectInfo": [STORE, PARENT, HANDLE], "CopyObject": [HANDLE],
               "GetPartialObject": [("SentBytes", "plain")]}
OF_EVENT = {
    "ObjectAdded": [HANDLE], "ObjectRemoved": [HANDLE], "StoreAdded": [STORE], "StoreRemoved": [STORE], "DevicePropChanged": CODE,
    "ObjectInfoChanged": [HANDLE], "RequestObjectTransfer": [HANDLE], "StoreFull": [STORE], "StorageInfoChanged": [STORE],
    "CaptureComplete": [("TransactionID", "plain")],
}


# ---- the records of a recording, each with what its header says

class Seen:
    """A record."""

    def __init__(self, data, at, read):
        self.place, self.length, self.is_note = at, read.after - at, read.kind == recording.NOTE
        body = data[read.start:read.after]
        if self.is_note:
            self.kind, self.start, self.payload = "note", read.start, body
            return
        header, start = read_container(body)
        self.kind, self.code, self.number = KINDS[header.kind], header.code, header.number
        self.way, self.start, self.payload = {1: "in", 2: "out"}[read.kind], read.start + start, body[start:]
        look_up = {"Response": names.response_name, "Event": lambda code: GROUPS["event"].get(code, (None,))[0]}.get(self.kind, names.command_name)
        self.name = look_up(self.code)

    @property
    def word(self):
        return self.name if self.name and self.kind != "Event" else f"0x{self.code:04x}"

    def head(self):
        return {"place": self.place, "length": self.length, "way": self.way, "code": self.code, "name": self.name}

    def payload_part(self):
        return {"place": self.start, "length": len(self.payload)}


def seen_in(data):
    """The records from the front, and the refusal that ended them, or None."""
    found, at = [], 0
    while at < len(data):
        try:
            read = recording.read_record(data, at)
        except Refused as refused:
            told = refused.seen_from(at)
            return found, {"kind": "refusal", "place": at, "number": told.number, "name": REFUSALS[told.number - 1], "at": told.place}
        found.append(Seen(data, at, read))
        at = read.after
    return found, None


# ---- entries

class Shown:
    """Entries by going through the records once."""

    def __init__(self, layout):
        self.layout, self.types = layout, {}
        self.done, self.waiting, self.command = [], [], None
        self.due = None

    def take(self, one):
        getattr(self, "take_" + one.kind.lower())(one)

    def end(self):
        if self.command:
            self.close(None)

    def aside(self, entry):
        (self.waiting if self.command else self.done).append(entry)
        if len(self.waiting) == WAITING:
            self.close(None)

    def take_note(self, one):
        try:
            text = one.payload.decode("utf-8")
        except UnicodeDecodeError:
            text = None
        self.aside({"kind": "note", "place": one.place, "length": one.length, "payload": one.payload_part(), "text": text,
                    "bytes": one.payload[:FIRST].hex() if text is None else None})

    def take_event(self, one):
        fields, said = parameters(one.payload, one.start, OF_EVENT.get(one.name, []))
        self.aside({"kind": "event", "number": one.number, **one.head(), "parameters": fields, "said": said + self.astray(one, "in")})

    def astray(self, one, due):
        turned = {"in": "came from", "out": "went to"}[one.way]
        return [] if one.way == due else [f"the {one.kind} {turned} the camera"]

    def take_command(self, one):
        self.end()
        due = 0 if one.name == "OpenSession" else self.due
        self.said = [] if due in (None, one.number) else [f"its number is {one.number}, and {due} was next"]
        self.said += self.astray(one, "out")
        self.due = {"OpenSession": 1, "CloseSession": 0}.get(one.name, 0 if one.number == 0 else 1 if one.number >= LAST_NUMBER else one.number + 1)
        self.command, self.carried = one, []

    def take_data(self, one):
        if not self.command or self.command.number != one.number:
            return self.stray(one, "Data without its Command", [], [])
        if self.command.code != one.code:
            self.said.append(f"its Data carries {one.word}")
        self.carried.append(one)

    def take_response(self, one):
        if self.command and self.command.number == one.number:
            return self.close(one)
        return self.stray(one, "a Response without its Command", *parameters(one.payload, one.start, []))

    def stray(self, one, sentence, fields, said):
        self.aside({"kind": "stray", "container": one.kind, "number": one.number, **one.head(), "parameters": fields, "payload": one.payload_part(),
                    "bytes": one.payload[:FIRST].hex(), "said": [sentence, *said]})

    def close(self, answer):
        """The open command is told, and behind it what waited."""
        command, self.command = self.command, None
        sent, said = parameters(command.payload, command.start, OF_COMMAND.get(command.name, []))
        said = self.said + said
        carried = None
        if self.carried:
            if len(self.carried) > 1:
                said.append(f"{len(self.carried)} Data containers, of which the last is read")
            carried, more, described = self.read(command, sent, self.carried[-1])
            carried["containers"] = len(self.carried)
            said += more
            if answer and answer.name == "Ok" and described:
                self.types[described[0]] = described[1]
        response = None
        if answer:
            fields, rest = parameters(answer.payload, answer.start, OF_RESPONSE.get(command.name, []))
            said += rest + self.astray(answer, "in")
            response = {**answer.head(), "parameters": fields}
        else:
            said = said + ["no Response came"]
        self.done.append({"kind": "transaction", "place": command.place, "number": command.number, "command": {**command.head(), "parameters": sent},
                          "data": carried, "response": response, "said": said})
        self.done += self.waiting
        self.waiting = []

    def read(self, command, sent, one):
        """The data, its sentences, and the property that it describes."""
        reading = READ_BY.get(command.name)
        told = {**one.head(), "payload": one.payload_part(), "reading": reading, "fields": [], "bytes": one.payload[:FIRST].hex(), "refusal": None}
        code = sent[0]["value"] if sent else None
        if reading is None:
            return told, [], None
        if reading == "property" and self.layout is None:
            return told, ["a description, which is not read: no --layout names its layout"], None
        if reading == "value" and code not in self.types:
            return told, ["a value, which is not read: no description of the property stands before it"], None
        try:
            described = None
            if reading == "property":
                told["fields"], described = description(self.layout, one.payload, one.start)
            elif reading == "value":
                told["fields"] = filling("Value", self.types[code], measured(code), one.payload, one.start)
            else:
                told["fields"] = SIMPLE[reading](one.payload, one.start)
        except Refused as refused:
            place = None if refused.place is None else one.start + refused.place
            return {**told, "refusal": {"number": refused.number, "name": REFUSALS[refused.number - 1], "place": place}}, [], None
        return {**told, "bytes": None}, [], described


def totals(entries, records, size):
    count = {kind: sum(entry["kind"] == kind for entry in entries) for kind in ("transaction", "event", "note", "stray")}
    answers = [entry["response"] for entry in entries if entry["kind"] == "transaction"]
    return {"kind": "totals", "transactions": count["transaction"], "unanswered": answers.count(None),
            "not_ok": sum(answer is not None and answer["name"] != "Ok" for answer in answers), "events": count["event"], "notes": count["note"],
            "stray": count["stray"], "records": records, "bytes": size}


def entries(data, layout=None):
    """All objects, in their order."""
    found, refusal = seen_in(data)
    shown = Shown(layout)
    for one in found:
        shown.take(one)
    shown.end()
    size = found[-1].place + found[-1].length if found else 0
    return shown.done + ([refusal] if refusal else []) + [totals(shown.done, len(found), size)]


# ---- the text, from the objects

def row_of_bytes(length, first):
    first = bytes.fromhex(first)
    return f"{length} bytes" + (f": {first.hex(' ')}" if first else "") + (" .." if first and length > len(first) else "")


def joined(fields):
    return ", ".join(f"{one['name']} {one['text']}" for one in fields)


def head(words, fields, behind=""):
    return " ".join(map(str, words)) + (f": {joined(fields)}" if fields else "") + (f" -> {behind}" if behind else "")


def word_of(one):
    return one["name"] or f"0x{one['code']:04x}"


def transaction_text(one):
    command, data, answer = one["command"], one["data"], one["response"]
    yield head([one["place"], word_of(command), one["number"], word_of(answer) if answer else "unanswered"], command["parameters"],
               joined(answer["parameters"]) if answer else "")
    if data:
        yield from (f"    {each['name']} {each['text']}" for each in data["fields"])
        if data["bytes"] is not None:
            yield "    " + row_of_bytes(data["payload"]["length"], data["bytes"])
        refusal = data["refusal"]
        if refusal:
            at = "" if refusal["place"] is None else f" at {refusal['place']}"
            yield f"    refusal {refusal['number']} {refusal['name']}{at}: {SENTENCES[refusal['number']]}"


def stray_text(one):
    yield head([one["place"], one["container"], word_of(one), one["number"]], one["parameters"])
    if one["container"] == "Data":
        yield "    " + row_of_bytes(one["payload"]["length"], one["bytes"])


def note_text(one):
    yield f"{one['place']} note " + (row_of_bytes(one["payload"]["length"], one["bytes"]) if one["text"] is None else quoted(one["text"]))


def event_text(one):
    yield head([one["place"], "event", word_of(one), one["number"]], one["parameters"])


def refusal_text(one):
    yield f"{one['place']} refusal {one['number']}" + ("" if one["at"] is None else f" {one['at']}")


def totals_text(one):
    yield " ".join(f"{word.replace('_', '-')} {number}" for word, number in one.items() if word != "kind")


TOLD = {"transaction": transaction_text, "stray": stray_text, "note": note_text, "event": event_text, "refusal": refusal_text, "totals": totals_text}


def text(data, layout=None):
    lines = []
    for one in entries(data, layout):
        lines += TOLD[one["kind"]](one)
        lines += (f"    {sentence}" for sentence in one.get("said", ()))
    return "".join(line + "\n" for line in lines)


def main(words):
    layout = words[words.index("--layout") + 1] if "--layout" in words else None
    data = sys.stdin.buffer.read()
    if "--json" in words:
        sys.stdout.write("".join(json.dumps(one) + "\n" for one in entries(data, layout)))
    else:
        sys.stdout.buffer.write(text(data, layout).encode("utf-8"))


if __name__ == "__main__":
    main(sys.argv[1:])
