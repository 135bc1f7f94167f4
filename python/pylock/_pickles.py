"""What pickles of `packaging` 20 to 26 have, where pylock stands in its place (docs/PRIVATE.md).

Since 26.2 the state of an object is short; 26.0 and 26.1 give its slots, the releases before its attributes.
"""

from __future__ import annotations

from typing import Any, Dict, NoReturn, Optional, Tuple

from . import _native
from ._version_parts import text_of

__all__ = ["restore_requirement", "restore_set", "restore_specifier", "restore_tag", "restore_version"]


def _attributes(state: Any) -> Optional[Dict[str, Any]]:
    """The attributes of an object of a release before 26.2; None of a later one."""
    if isinstance(state, tuple) and len(state) == 2 and state[0] is None:
        state = state[1]
    return state if isinstance(state, dict) else None


def _fail(kind: str, state: Any) -> NoReturn:
    raise TypeError("Cannot restore %s from %r" % (kind, state))


def restore_version(self: Any, state: Any) -> None:
    """Makes a version what the state says."""
    attributes = _attributes(state)
    parts: Any = state
    if attributes is not None:
        named = attributes.get("_version")
        if named is not None:
            parts = named.epoch, named.release, named.pre, named.post, named.dev, named.local
        else:
            parts = tuple(map(attributes.get, ("_epoch", "_release", "_pre", "_post", "_dev", "_local")))
    try:
        text = text_of(*parts)
    except TypeError:
        _fail("Version", state)
    _native.Version.__init__(self, text)


def _is_pair(specifier: Any) -> bool:
    return isinstance(specifier, tuple) and len(specifier) == 2 and all([isinstance(text, str) for text in specifier])


def restore_specifier(self: Any, state: Any) -> None:
    """Makes a specifier what the state says."""
    attributes = _attributes(state)
    pair: Any = state if isinstance(state, tuple) and len(state) == 2 else (None, None)
    if attributes is not None:
        pair = attributes.get("_spec"), attributes.get("_prereleases")
    specifier, prereleases = pair
    if not _is_pair(specifier) or prereleases not in (None, True, False):
        _fail("Specifier", state)
    _native.Specifier.__init__(self, "".join(specifier), prereleases)


def restore_set(self: Any, state: Any) -> None:
    """Makes a specifier set what the state says."""
    from .specifiers import Specifier, SpecifierSet

    attributes = _attributes(state)
    pair: Any = state if isinstance(state, tuple) and len(state) == 2 else (None, None)
    if attributes is not None:
        pair = attributes.get("_specs"), attributes.get("_prereleases")
    specifiers, prereleases = pair
    if isinstance(specifiers, frozenset):
        # up to 26.0
        specifiers = tuple(sorted(specifiers, key=str))
    is_right = isinstance(specifiers, tuple) and all([isinstance(one, Specifier) for one in specifiers])
    if not is_right or prereleases not in (None, True, False):
        _fail("SpecifierSet", state)
    SpecifierSet.__init__(self, specifiers, prereleases)


def restore_requirement(self: Any, state: Any) -> None:
    """Makes a requirement what the state says."""
    from .requirements import InvalidRequirement, Requirement

    if isinstance(state, str):
        try:
            self.__dict__.update(vars(Requirement(state)))
        except InvalidRequirement:
            _fail("Requirement", state)
    elif isinstance(state, dict):
        self.__dict__.update(state)
    else:
        _fail("Requirement", state)


def restore_tag(self: Any, state: Any) -> None:
    """Makes a tag what the state says."""
    attributes = _attributes(state)
    pieces: Tuple[Any, ...] = state if isinstance(state, tuple) else ()
    if attributes is not None:
        pieces = tuple(map(attributes.get, ("_interpreter", "_abi", "_platform")))
    if len(pieces) != 3 or not all([isinstance(piece, str) for piece in pieces]):
        _fail("Tag", state)
    _native.Tag.__init__(self, *pieces)
