"""The shutter panel (request 3 of document 02): from a description and a chosen value to SetDevicePropValue with its data, or a refusal."""

from model.datasets import LIST_FORM, RANGE_FORM, read_property
from model.names import command_code
from model.refusals import TYPE, VALUE, refuse_if
from model.session import command_with_data
from model.values import STRING, WIDTHS, expect_end, item_code, read_value, write_value

# Whose ranges mean something: the integers of 8 to 64 bits.
RANGED = range(0x0001, 0x0009)


def set_value(layout, state, description, code, chosen):
    """The description's own, 15, the chosen value's 1, 2, 3, then 16 and 10. A refusal leaves the state."""
    read = read_property(layout, description)
    refuse_if(code != read.type or not has_range(read), TYPE)
    value, after = read_value(code, chosen, 0)
    expect_end(chosen, after)
    refuse_if(not allows(read, value), VALUE)
    return command_with_data(state, command_code("SetDevicePropValue"), [read.code], write_value(code, value))


def has_range(read):
    """The type is not UNDEF, and a range is of integers."""
    if read.form == RANGE_FORM:
        return read.type in RANGED
    return read.type in WIDTHS or item_code(read.type) is not None or read.type == STRING


def allows(read, value):
    """No form allows every value, a list what equals a member by meaning, a range what lies in it at whole steps."""
    if read.form == LIST_FORM:
        return value in read.values
    if read.form == RANGE_FORM:
        return in_range(*read.values, value)
    return True


def in_range(least, most, step, value):
    """A step of 0 or below leaves the two ends; a minimum above the maximum leaves nothing."""
    if not least <= value <= most:
        return False
    return value in (least, most) if step <= 0 else (value - least) % step == 0
