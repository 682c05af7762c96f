"""The listing ("The listing, whole" of document 01), from a recording's bytes to its text."""

from model.containers import COMMAND, DATA, RESPONSE, read_header
from model.names import command_name, response_name
from model.recording import MOST_BODY, NOTE, SENT, read_record
from model.refusals import Refused

HEADING = "place way kind code tid bytes\n"
KIND_WORDS = {1: "Command", 2: "Data", 3: "Response", 4: "Event"}


def code_word(kind, code):
    """Command and Data use command names, Response response names; all else four hex digits."""
    name = None
    if kind in (COMMAND, DATA):
        name = command_name(code)
    if kind == RESPONSE:
        name = response_name(code)
    return name or f"0x{code:04x}"


def record_line(place, record, data):
    if record.kind == NOTE:
        return f"{place} old-note {record.length}\n"
    header = read_header(data, record.start)
    way = "out" if record.kind == SENT else "in"
    return (f"{place} {way} {KIND_WORDS[header.kind]} {code_word(header.kind, header.code)} "
            f"{header.number} {header.payload_length}\n")


def listing(data, most=MOST_BODY):
    """A line a record; a refusal, its place from the record's start, stops the reading; the last line counts the whole records before."""
    lines, at, count = [HEADING], 0, 0
    while at < len(data):
        try:
            record = read_record(data, at, most)
        except Refused as refused:
            lines.append(f"{at} refusal {refused.seen_from(at)}\n")
            break
        lines.append(record_line(at, record, data))
        at, count = record.after, count + 1
    lines.append(f"records {count} bytes {at}\n")
    return "".join(lines)
