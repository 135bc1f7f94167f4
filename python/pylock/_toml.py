"""A writer of TOML, for tables that are handed to the library, which reads texts.

    >>> document({"name": "a", "size": 1, "hashes": {"sha256": "00"}})
    b'"name"="a"\\n"size"=1\\n"hashes"={"sha256"="00"}\\n'

It is exact: what a reader of TOML 1.0 makes of the text is equal to the table, and of the same types. What TOML doesn't
have is refused, and nothing is left out. It isn't made for people: each key of the table has a line, with all that
is below. `_native` writes what is of Python's own types, and asks here for the others.
"""

from __future__ import annotations

from collections.abc import Mapping, Sequence
from datetime import date, datetime, time
from typing import Any, Callable, Iterable, Tuple, Type, Union

from . import _native

__all__ = ["document"]


def _integer(value: int) -> str:
    raise ValueError("an integer of TOML has 64 bits: %d" % value)


def _moment(value: datetime) -> str:
    offset = value.utcoffset()
    if offset is not None and (offset.seconds % 60 or offset.microseconds):
        raise ValueError("an offset of TOML is in minutes: %s" % value.isoformat())
    return value.isoformat()


def _hour(value: time) -> str:
    if value.tzinfo is not None:
        raise ValueError("a time of TOML has no offset: %s" % value.isoformat())
    return value.isoformat()


# a datetime is a date; of integers those past 64 bits are asked for here
_OF_KIND: Tuple[Tuple[Type[Any], Callable[[Any], str]], ...] = (
    (datetime, _moment), (date, date.isoformat), (time, _hour), (int, _integer)
)


def _other(value: Any) -> Union[str, Tuple[bool, Iterable[Any]]]:
    """The text of a value whose type `_native` doesn't know; or whether it is a table, and its members."""
    for kind, text_of in _OF_KIND:
        if isinstance(value, kind):
            return text_of(value)
    if isinstance(value, Mapping):
        return True, ((key, member) for key, member in value.items())
    if isinstance(value, Sequence) and not isinstance(value, (bytes, bytearray, memoryview)):
        return False, iter(value)
    raise TypeError("TOML has no %s" % type(value).__name__)


def document(table: Mapping[str, Any]) -> bytes:
    """The text of a table: a line for each key.

    >>> document({"a": None})
    Traceback (most recent call last):
        ...
    TypeError: TOML has no NoneType

    A `str` that holds half a surrogate pair is refused as UnicodeEncodeError.
    """
    return _native.toml(table, _other)
