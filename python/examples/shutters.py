"""Every shutter value that was set in a recording: its place, what the description allowed then, and what the camera answered.

    python3 shutters.py crate|book RECORDING"""

import sys

from ptp_proved import PropLayout
from ptp_proved.shown import entries

SHUTTER, FORM = 0x500D, ("minValue", "maxValue", "step", "array")
may = "not described"
for one in entries(open(sys.argv[2], "rb").read, PropLayout(sys.argv[1])):
    sent = one.command.parameters if hasattr(one, "command") else ()
    if not sent or sent[0].value != SHUTTER or not one.data or not one.response:
        continue
    fields, doing = one.data.read.fields, one.command.record.word
    if doing == "GetDevicePropDesc" and one.response.record.word == "Ok":
        may = ", ".join(field.text for field in fields if field.name in FORM) or "any"
    elif doing == "SetDevicePropValue":
        print(f"{one.place}: {fields[0].text if fields else 'not read'}; allowed {may}; answered {one.response.record.word}")
