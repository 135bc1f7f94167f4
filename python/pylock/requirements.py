"""Requirements (PEP 508), with the names and meanings of `packaging.requirements`.

    >>> from pylock.requirements import Requirement
    >>> Requirement("requests[security]>=2.8.1; python_version < '3.8'").name
    'requests'

What is different: the markers and specifiers of this library are read, with their differences; empty pieces between
commas are taken, as `SpecifierSet` takes them.
"""

from __future__ import annotations

from typing import TYPE_CHECKING, Any, Iterator, Optional, Set, Tuple

from . import _native, _private
from ._errors import InvalidRequirement
from .markers import Marker
from .specifiers import SpecifierSet
from .utils import canonicalize_name

__all__ = ["InvalidRequirement", "Requirement"]


class Requirement:
    """A requirement: its name, extras and marker as they are written. They can be assigned.

    >>> requirement = Requirement("Foo_Bar [b, a] >= 1.0 ; os_name == 'nt'")
    >>> requirement.name, sorted(requirement.extras), requirement.specifier, requirement.url, requirement.marker
    ('Foo_Bar', ['a', 'b'], <SpecifierSet('>=1.0')>, None, <Marker('os_name == "nt"')>)
    >>> str(requirement)
    'Foo_Bar[a,b]>=1.0; os_name == "nt"'
    >>> requirement == Requirement("foo-bar[a,b]>=1; os_name == 'nt'")
    True
    >>> Requirement("a >= x")
    Traceback (most recent call last):
        ...
    pylock.requirements.InvalidRequirement: Expected semicolon (after name with no version specifier) or end
        a >= x
          ^
    """

    name: str
    """The name, as it is written."""
    url: Optional[str]
    """The URL, or None."""
    extras: Set[str]
    """The extras, as they are written."""
    specifier: SpecifierSet
    """The specifier set, empty where there is none."""
    marker: Optional[Marker]
    """The marker, or None."""

    def __init__(self, requirement_string: str) -> None:
        name, url, extras, specifier, marker = _native.requirement_parts(requirement_string)
        self.name = name
        self.url = url
        self.extras = extras
        self.specifier = SpecifierSet(specifier)
        self.marker = marker

    def _iter_parts(self, name: str) -> Iterator[str]:
        yield name
        if self.extras:
            yield "[%s]" % ",".join(sorted(self.extras))
        if self.specifier:
            yield str(self.specifier)
        if self.url:
            yield " @ " + self.url
            if self.marker:
                yield " "
        if self.marker:
            yield "; %s" % self.marker

    def __str__(self) -> str:
        if type(self) is Requirement:
            return _native.requirement_text(self.name, self.extras, self.specifier, self.url, self.marker)
        # a class may have the parts otherwise
        return "".join(self._iter_parts(self.name))

    def __repr__(self) -> str:
        return f"<{type(self).__name__}({self.__str__()!r})>"

    def __hash__(self) -> int:
        return hash((canonicalize_name(self.name), frozenset(self.extras), self.specifier, self.url, self.marker))

    def __eq__(self, other: object) -> bool:
        if not isinstance(other, Requirement):
            return NotImplemented
        return (
            canonicalize_name(self.name) == canonicalize_name(other.name)
            and self.extras == other.extras
            and self.specifier == other.specifier
            and self.url == other.url
            and self.marker == other.marker
        )

    def __getstate__(self) -> str:
        return str(self)

    def __reduce__(self) -> Tuple[Any, ...]:
        if type(self) is Requirement:
            return Requirement, (str(self),)
        # one of a class of one's own is made without its arguments
        from copyreg import __newobj__  # type: ignore[attr-defined]

        return __newobj__, (type(self),), self.__getstate__()

    def __setstate__(self, state: Any) -> None:
        """Takes a pickle of `packaging` too."""
        from ._pickles import restore_requirement

        restore_requirement(self, state)


if not TYPE_CHECKING:
    __getattr__ = _private.names_of("requirements")
