"""The class of a wheel's tag (PEP 425): the compiled one."""

from __future__ import annotations

from typing import Any, Tuple

from ._native import Tag

__all__ = ["Tag"]


def _restore(self: Tag, state: Any) -> None:
    """Reads the tag of a pickle of `packaging`."""
    from ._pickles import restore_tag

    restore_tag(self, state)


def _reduce(self: Tag) -> Tuple[Any, ...]:
    """What a pickle has of a tag of one's own class."""
    pieces = self.interpreter, self.abi, self.platform
    from ._subclasses import reduced

    return reduced(self, Tag, pieces, pieces)


Tag.__setstate__ = _restore  # type: ignore[attr-defined]
Tag.__reduce__ = _reduce  # type: ignore[method-assign, assignment]
