"""The byte layer of the picture transfer protocol, over functions that are proved.

Names and fields are those of the Rust crate where Python has a like. A call either gives its whole answer or raises a `Refusal`. What is proved is
the library that is called: what it takes and refuses, each number, where each string, array and value lies, each byte written. What stands in Python
takes these parts out of the caller's bytes, and reads an array's integers."""

from ptp_proved.code import COMMANDS, GROUPS, RESPONSES, code_name, command_name, response_name
from ptp_proved.dataset import (PtpDeviceInfo, PtpObjectInfo, PtpStorageInfo, object_count, object_handles, spans, storage_ids, storage_info,
                                tidy_device, tidy_object, tidy_storage)
from ptp_proved.network import DataDirection, PacketKind, PtpPacket, from_network, read_packet, to_network
from ptp_proved.objects import GONE, PLACES, Added, Links, Objects, ObjectTable
from ptp_proved.property import (Enumeration, Newer, PropLayout, PtpFormData, PtpPropInfo, Range, list_value, newer_value, next_value,
                                 prop_spans, tidy_property)
from ptp_proved.reader import PtpReader
from ptp_proved.record import (Copied, Listed, Lister, Mended, PtpContainer, PtpContainerType, PtpRecord, Recorder, RecordKind, Tally,
                               copy_recording, list_recording, mend_recording, read_container, read_record, read_recording, records,
                               write_container, write_ending, write_heading, write_record)
from ptp_proved.refusal import REFUSALS, Refusal
from ptp_proved.session import Answer, Data, Made, Response, Session, find_answer, needed
from ptp_proved.settings import Edition, Kept, Setting, Settings, write_entry
from ptp_proved.value import (CODES, TYPE_NAMES, PtpValue, Said, encode, item, list_numbers, read_text, tidy_value, unit, units, utf8, utf8_len, write_array,
                              write_integer, write_text)

__version__ = "0.1.0"
__all__ = [
    "Added", "Answer", "CODES", "COMMANDS", "Copied", "Data", "DataDirection", "Edition", "Enumeration", "GONE", "GROUPS", "Kept", "Links", "Listed",
    "Lister", "Made", "Mended", "Newer", "ObjectTable", "Objects", "PLACES", "PacketKind", "PropLayout", "PtpContainer",
    "PtpContainerType", "PtpDeviceInfo", "PtpFormData", "PtpObjectInfo", "PtpPacket", "PtpPropInfo", "PtpReader", "PtpRecord", "PtpStorageInfo", "PtpValue",
    "REFUSALS", "RESPONSES", "Range", "RecordKind", "Recorder", "Refusal", "Response", "Said", "Session", "Setting", "Settings", "TYPE_NAMES",
    "Tally", "code_name", "command_name", "copy_recording", "encode", "write_entry", "find_answer", "from_network", "item", "list_numbers", "list_recording",
    "list_value", "mend_recording", "needed", "newer_value", "next_value", "object_count", "object_handles", "prop_spans", "read_container", "read_packet",
    "read_record", "read_recording", "read_text", "records", "response_name", "spans", "storage_ids", "storage_info", "tidy_device", "tidy_object",
    "tidy_property", "tidy_storage", "tidy_value", "to_network", "unit", "units", "utf8", "utf8_len", "write_array", "write_container", "write_ending",
    "write_heading", "write_integer", "write_record", "write_text",
]
