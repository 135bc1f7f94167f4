"""Where the names are that programs take of `packaging` though they are private there, or stand in a module by the way
(docs/PRIVATE.md). They are found when they are asked for, and what they need is imported then.
"""

from __future__ import annotations

TYPE_CHECKING = False
if TYPE_CHECKING:
    from typing import Any, Callable, Dict, Optional, Tuple

__all__ = ["Later", "SetParts", "SpecifierParts", "VersionParts", "_BaseVersion", "names_of"]

# by the module that has the name: the module in which it is, and behind a colon what it is called there
_PLACES: Dict[str, Dict[str, str]] = {
    "version": {
        "_Version": "_version_parts",
        "_cmpkey": "_version_parts:order_tuple",
        "_parse_letter_version": "_version_parts:letter_and_number",
        "_parse_local_version": "_version_parts:local_pieces",
        "_local_version_separators": "_patterns:LOCAL_SEPARATORS",
    },
    "specifiers": {
        "InvalidVersion": "_errors",
        "canonicalize_version": "utils",
    },
    "markers": {
        "InvalidSpecifier": "_errors",
        "MarkerAtom": "_parser",
        "MarkerList": "_parser",
        "Op": "_parser",
        "ParserSyntaxError": "_tokenizer",
        "Specifier": "specifiers",
        "Value": "_parser",
        "Variable": "_parser",
        "_format_marker": "_parser:text_of",
        "_parse_marker": "_parser:parse_marker",
    },
    "requirements": {
        "ParserSyntaxError": "_tokenizer",
        "_parse_requirement": "_parser:parse_requirement",
    },
    "utils": {
        "InvalidVersion": "_errors",
        "UnsortedTagsError": "_errors",
        "_build_tag_regex": "_patterns:BUILD_TAG",
        "_normalized_regex": "_patterns:NORMAL_NAME",
        "_validate_regex": "_patterns:NAME",
        "parse_tag": "tags",
    },
    "tags": {
        "_generic_abi": "tags:_abis_of_suffix",
        "_get_config_var": "tags:_config",
        "_linux_platforms": "_platforms:linux_platforms",
        "_normalize_string": "_platforms:normal_text",
        "_version_nodot": "tags:_joined",
    },
    "licenses": {
        "EXCEPTIONS": "licenses._spdx",
        "LICENSES": "licenses._spdx",
    },
}


def _found(place: str, name: str) -> Any:
    from importlib import import_module

    module, _, called = place.partition(":")
    return getattr(import_module("pylock." + module), called or name)


def names_of(module: str) -> Callable[[str], Any]:
    """The `__getattr__` of a module."""
    places = _PLACES[module]

    def found(name: str) -> Any:
        if name not in places:
            raise AttributeError("module 'pylock.%s' has no attribute %r" % (module, name))
        return _found(places[name], name)

    return found


class Later:
    """An attribute of a class that is found when it is asked for."""

    __slots__ = ("_place",)

    def __init__(self, place: str) -> None:
        self._place = place

    def __get__(self, instance: object, owner: object = None) -> Any:
        return _found(self._place, "")


# ---- what the classes have of it ----


class _BaseVersion:
    """What `Version` is made from, for `isinstance`, and for versions of one's own, which are compared by their `_key`."""

    __module__ = "pylock.version"
    __slots__ = ()

    if TYPE_CHECKING:

        @property
        def _key(self) -> Tuple[Any, ...]: ...

    def __hash__(self) -> int:
        return hash(self._key)

    def __lt__(self, other: _BaseVersion) -> bool:
        return self._key < other._key if isinstance(other, _BaseVersion) else NotImplemented

    def __le__(self, other: _BaseVersion) -> bool:
        return self._key <= other._key if isinstance(other, _BaseVersion) else NotImplemented

    def __eq__(self, other: object) -> bool:
        if not isinstance(other, _BaseVersion):
            return NotImplemented
        return self._key == other._key

    def __ge__(self, other: _BaseVersion) -> bool:
        return self._key >= other._key if isinstance(other, _BaseVersion) else NotImplemented

    def __gt__(self, other: _BaseVersion) -> bool:
        return self._key > other._key if isinstance(other, _BaseVersion) else NotImplemented

    def __ne__(self, other: object) -> bool:
        if not isinstance(other, _BaseVersion):
            return NotImplemented
        return self._key != other._key


_PARTS = frozenset(("__str__", "epoch", "release", "pre", "post", "dev", "local"))


class VersionParts:
    """The private parts of a version. A class that is made from it may have a pattern `_regex` of its own, by which its
    texts are read then."""

    __slots__ = ()

    _regex = Later("_patterns:VERSION")

    def __init_subclass__(cls, **named: Any) -> None:
        super().__init_subclass__(**named)
        if "_regex" in vars(cls):
            from ._subclasses import read_by_own_pattern

            read_by_own_pattern(cls)
        if not _PARTS.isdisjoint(vars(cls)):
            from ._subclasses import follow

            follow(cls)

    def __repr__(self) -> str:
        return "<%s('%s')>" % (type(self).__name__, self)

    @property
    def _epoch(self: Any) -> Any:
        return self.epoch

    @property
    def _release(self: Any) -> Any:
        return self.release

    @property
    def _pre(self: Any) -> Any:
        return self.pre

    @property
    def _post(self: Any) -> Any:
        return None if self.post is None else ("post", self.post)

    @property
    def _dev(self: Any) -> Any:
        return None if self.dev is None else ("dev", self.dev)

    @property
    def _local(self: Any) -> Any:
        from ._version_parts import local_pieces

        return local_pieces(self.local)

    @property
    def _key(self) -> Any:
        from ._version_parts import order_tuple

        return order_tuple(self._epoch, self._release, self._pre, self._post, self._dev, self._local)

    @property
    def _version(self) -> Any:
        from ._version_parts import _Version

        return _Version(self._epoch, self._release, self._dev, self._pre, self._post, self._local)

    def __setstate__(self, state: object) -> None:
        from ._pickles import restore_version

        restore_version(self, state)


class SpecifierParts:
    """The private parts of a specifier."""

    __slots__ = ()

    if TYPE_CHECKING:
        _forced: Optional[bool]

    _regex = Later("_patterns:SPECIFIER")
    _specifier_regex_str = Later("_patterns:SPECIFIER_PATTERN")
    _operators = {
        "~=": "compatible",
        "==": "equal",
        "!=": "not_equal",
        "<=": "less_than_equal",
        ">=": "greater_than_equal",
        "<": "less_than",
        ">": "greater_than",
        "===": "arbitrary",
    }

    @property
    def _prereleases(self) -> Optional[bool]:
        return self._forced

    @_prereleases.setter
    def _prereleases(self, value: Optional[bool]) -> None:
        setattr(self, "_forced", value)

    def __setstate__(self, state: object) -> None:
        from ._pickles import restore_specifier

        restore_specifier(self, state)


class SetParts:
    """The private parts of a specifier set."""

    __slots__ = ()

    if TYPE_CHECKING:
        _forced: Optional[bool]

    @property
    def _specs(self: Any) -> Any:
        return self._items()

    @_specs.setter
    def _specs(self: Any, value: Any) -> None:
        from .specifiers import SpecifierSet

        SpecifierSet.__init__(self, value, self._forced)

    @property
    def _prereleases(self) -> Optional[bool]:
        return self._forced

    @_prereleases.setter
    def _prereleases(self, value: Optional[bool]) -> None:
        setattr(self, "_forced", value)

    def __setstate__(self, state: object) -> None:
        from ._pickles import restore_set

        restore_set(self, state)
