"""What comparison keys of `packaging` up to 26.0 ended with, with the names of `packaging._structures` (docs/PRIVATE.md).

Pickles of versions that were made by it have these in them. Nothing compares them.
"""

from __future__ import annotations

__all__ = ["Infinity", "InfinityType", "NegativeInfinity", "NegativeInfinityType"]


class InfinityType:
    """What was behind every key."""

    def __repr__(self) -> str:
        return "Infinity"


class NegativeInfinityType:
    """What was before every key."""

    def __repr__(self) -> str:
        return "-Infinity"


Infinity = InfinityType()
NegativeInfinity = NegativeInfinityType()
