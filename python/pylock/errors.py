"""What several modules raise, with the names of `packaging.errors`.

Every other exception stands in the module that raises it, as in `packaging`.
"""

from __future__ import annotations

import builtins
import sys

from ._typing import Sequence, Tuple

__all__ = ["ExceptionGroup"]


if sys.version_info >= (3, 11):
    ExceptionGroup = builtins.ExceptionGroup
else:

    class ExceptionGroup(Exception):
        """Several exceptions in one, where Python has none of its own: its message, exceptions, `str` and `repr`.

        >>> group = ExceptionGroup("two things are wrong", [ValueError("a"), TypeError("b")])
        >>> str(group), len(group.exceptions)
        ('two things are wrong (2 sub-exceptions)', 2)
        """

        message: str
        exceptions: Tuple[Exception, ...]

        def __init__(self, message: str, exceptions: Sequence[Exception]) -> None:
            self.args = (message, exceptions)
            self.message = message
            self.exceptions = tuple(exceptions)

        def __str__(self) -> str:
            count = len(self.exceptions)
            return f"{self.message} ({count} sub-exception{'' if count == 1 else 's'})"

        def __repr__(self) -> str:
            return f"{type(self).__name__}({self.message!r}, {list(self.exceptions)!r})"
