"""A writer of TOML in Python alone, beside which `test_pylock` puts the one in C: the same bytes, or the same error."""

from collections.abc import Mapping, Sequence
from datetime import date, datetime, time
from json.encoder import py_encode_basestring


def boolean(value):
    return "true" if value else "false"


def integer(value):
    if not -(1 << 63) <= value < 1 << 63:
        raise ValueError("an integer of TOML has 64 bits: %d" % value)
    return int.__repr__(value)


def moment(value):
    offset = value.utcoffset()
    if offset is not None and (offset.seconds % 60 or offset.microseconds):
        raise ValueError("an offset of TOML is in minutes: %s" % value.isoformat())
    return value.isoformat()


def hour(value):
    if value.tzinfo is not None:
        raise ValueError("a time of TOML has no offset: %s" % value.isoformat())
    return value.isoformat()


def array(value):
    return "[%s]" % ",".join([text_of(member) for member in value])


def pair(key, member):
    if not isinstance(key, str):
        raise TypeError("a key of TOML is a text, not %s" % type(key).__name__)
    return "%s=%s" % (quoted(key), text_of(member))


def quoted(value):
    return py_encode_basestring(value).replace("\x7f", "\\u007f")


def table(value):
    return "{%s}" % ",".join([pair(key, member) for key, member in value.items()])


# a bool is an int, a datetime a date
KINDS = (
    (str, quoted), (bool, boolean), (int, integer), (float, float.__repr__), (datetime, moment), (date, date.isoformat),
    (time, hour), (Mapping, table),
)


def text_of(value):
    for kind, writer in KINDS:
        if isinstance(value, kind):
            return writer(value)
    if isinstance(value, Sequence) and not isinstance(value, (bytes, bytearray, memoryview)):
        return array(value)
    raise TypeError("TOML has no %s" % type(value).__name__)


def document(value):
    """The text of a table: a line for each key."""
    return "".join([pair(key, member) + "\n" for key, member in value.items()]).encode()
