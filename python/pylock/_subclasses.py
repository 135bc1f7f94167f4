"""Classes that are made from `Version`, `Specifier`, `SpecifierSet` and `Tag`: what `packaging` asks of them, which the compiled
part doesn't.

A class may have an `__init__` with other arguments: what is made of it is made without that. A class of versions may say
otherwise what a part is, as `release`: what follows from that part, as `base_version`, is asked of it then.
"""

from __future__ import annotations

from copyreg import __newobj__  # type: ignore[attr-defined]
from typing import Any, Callable, Dict, Tuple

from . import _native
from ._version_parts import read_by_pattern, text_of
from .version import Version

__all__ = ["copied", "follow", "read_by_own_pattern", "reduced", "version_of"]


def version_of(kind: Any, text: str) -> Any:
    """The version of a text, of this class."""
    version = kind.__new__(kind)
    _native.Version.__init__(version, text)
    return version


def reduced(self: Any, base: Any, arguments: Tuple[Any, ...], state: Tuple[Any, ...]) -> Tuple[Any, ...]:
    """What a pickle has of an object: the arguments of its class, or a state where that takes other ones."""
    if type(self).__init__ is base.__init__ and type(self).__new__ is base.__new__:
        return type(self), arguments
    return __newobj__, (type(self),), state


def copied(self: Any) -> Any:
    """A copy of an object by what a pickle has of it."""
    told = self.__reduce_ex__(4)
    if isinstance(told, str):
        return self
    function, arguments, state = (*told, None)[:3]
    copy = function(*arguments)
    if state is not None:
        copy.__setstate__(state)
    return copy

# ---- a pattern of one's own ----


class _ByPattern(Version):
    """Versions that are read by the pattern of their class."""

    __slots__ = ()
    __init__ = read_by_pattern  # type: ignore[assignment]


def read_by_own_pattern(kind: Any) -> None:
    """Has the texts of a class read by its pattern, also those that an `__init__` before that of `Version` hands on."""
    if not issubclass(kind, _ByPattern):
        kind.__bases__ = (*[base for base in kind.__bases__ if base is not Version], _ByPattern)


# ---- what follows from the parts of a version ----


def _lettered(letter: str, number: Any) -> Any:
    return None if number is None else (letter, number)


def _text(self: Any) -> str:
    return text_of(
        self.epoch, self.release, self.pre, _lettered("post", self.post), _lettered("dev", self.dev),
        None if self.local is None else (self.local,),
    )


def _number(place: int) -> Callable[[Any], Any]:
    return lambda self: self.release[place] if place < len(self.release) else 0


# by the name: what it is asked of, and what it is
_FOLLOWING: Dict[str, Tuple[str, Callable[[Any], Any]]] = {
    "__str__": ("epoch release pre post dev local", _text),
    "public": ("epoch release pre post dev local __str__", lambda self: str(self).split("+", 1)[0]),
    "base_version": ("epoch release", lambda self: text_of(self.epoch, self.release, None, None, None, None)),
    "major": ("release", _number(0)),
    "minor": ("release", _number(1)),
    "micro": ("release", _number(2)),
    "is_prerelease": ("pre dev", lambda self: self.dev is not None or self.pre is not None),
    "is_postrelease": ("post", lambda self: self.post is not None),
    "is_devrelease": ("dev", lambda self: self.dev is not None),
}


def follow(kind: Any) -> None:
    """Has what follows from the parts that a class has of its own asked of these."""
    own = set(vars(kind))
    for name, (parts, function) in _FOLLOWING.items():
        if name not in own and not own.isdisjoint(parts.split()):
            setattr(kind, name, function if name == "__str__" else property(function))
