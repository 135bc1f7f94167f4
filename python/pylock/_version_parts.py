"""The private parts of a version, as `packaging` has them (docs/PRIVATE.md), and versions of parts that aren't in a normal form."""

from __future__ import annotations

import re
from typing import Any, Match, NamedTuple, NoReturn, Optional, Tuple, Union

from . import _native
from ._errors import InvalidVersion

__all__ = ["from_parts", "letter_and_number", "local_pieces", "order_tuple", "read_by_pattern", "replaced", "text_of"]

Lettered = Optional[Tuple[str, int]]
Local = Optional[Tuple[Union[int, str], ...]]

# the spellings that aren't normal (PEP 440)
_LETTERS = {"alpha": "a", "beta": "b", "c": "rc", "pre": "rc", "preview": "rc", "rev": "post", "r": "post"}
_RANKS = {"a": 0, "b": 1, "rc": 2}
_RANK_OF_DEV, _RANK_OF_FINAL = -1, 3
_RANK_OF_LETTERS = -1


class _Version(NamedTuple):
    """The parts of a version, as `packaging` up to 25 pickles them."""

    epoch: int
    release: Tuple[int, ...]
    dev: Lettered
    pre: Lettered
    post: Lettered
    local: Local


def letter_and_number(letter: Optional[str], number: Any) -> Lettered:
    """The normal spelling of a letter and its number, 0 where it has none; a number alone is that of a post-release.

    >>> letter_and_number("Preview", "2"), letter_and_number("beta", None), letter_and_number(None, "3")
    (('rc', 2), ('b', 0), ('post', 3))
    """
    if letter:
        letter = letter.lower()
        return _LETTERS.get(letter, letter), int(number or 0)
    return ("post", int(number)) if number else None


def local_pieces(local: Optional[str]) -> Local:
    """The pieces of a local version, those of digits as numbers.

    >>> local_pieces("Ubuntu-01")
    ('ubuntu', 1)
    """
    if local is None:
        return None
    pieces = local.lower().replace("-", ".").replace("_", ".").split(".")
    return tuple([int(piece) if piece.isdigit() else piece for piece in pieces])


def order_tuple(
    epoch: int, release: Tuple[int, ...], pre: Lettered, post: Lettered, dev: Lettered, local: Local
) -> Tuple[Any, ...]:
    """A tuple whose order is the order of versions: the epoch, the release without zeros at its end, six numbers of
    pre-release, post-release and development release, and the local version where there is one.

    >>> order_tuple(0, (1, 0), ("rc", 1), None, None, ("x", 2))
    (0, (1,), (2, 1, 0, 0, 1, 0), ((-1, 'x'), (2, '')))
    """
    end = len(release)
    while end and not release[end - 1]:
        end -= 1
    if pre is not None:
        phase = _RANKS[pre[0]], pre[1]
    else:
        phase = (_RANK_OF_DEV if post is None and dev is not None else _RANK_OF_FINAL), 0
    after = (0, 0) if post is None else (1, post[1])
    before = (1, 0) if dev is None else (0, dev[1])
    key = epoch, release[:end], phase + after + before
    if local is None:
        return key
    return (*key, tuple([(piece, "") if isinstance(piece, int) else (_RANK_OF_LETTERS, piece) for piece in local]))


def text_of(epoch: int, release: Tuple[int, ...], pre: Lettered, post: Lettered, dev: Lettered, local: Local) -> str:
    """The text of a version of these parts."""
    pieces = ["%d!" % epoch if epoch else "", ".".join(["%d" % number for number in release])]
    pieces += ["%s%d" % pre] if pre is not None else []
    pieces += [".%s%d" % part for part in (post, dev) if part is not None]
    pieces += ["+" + ".".join(map(str, local))] if local else []
    return "".join(pieces)


# ---- versions of parts ----

_LOCAL = re.compile(r"[A-Za-z0-9]+(?:[-_.][A-Za-z0-9]+)*\Z").match


def _no_part(part: str, value: object) -> NoReturn:
    raise InvalidVersion("Invalid version: %s can't be %r" % (part, value), word="syntax")


def _number(part: str, value: object) -> str:
    if not isinstance(value, int) or value < 0:
        _no_part(part, value)
    return "%d" % value


def _pre_text(value: object) -> str:
    if not isinstance(value, tuple) or len(value) != 2 or not isinstance(value[0], str):
        _no_part("pre", value)
    letter = _native.normalize_pre(value[0])
    if letter not in ("a", "b", "rc"):
        _no_part("pre", value)
    return letter + _number("pre", value[1])


def _made(kind: Any, text: str) -> Any:
    """The version of a text, of a class that may take other arguments."""
    from .version import Version

    if kind is Version:
        return Version(text)
    from ._subclasses import version_of

    return version_of(kind, text)


def from_parts(
    kind: Any,
    *,
    epoch: Any = 0,
    release: Any,
    pre: Any = None,
    post: Any = None,
    dev: Any = None,
    local: Any = None,
) -> Any:
    """`Version.from_parts` of any class and of any parts, which are judged."""
    if not isinstance(release, tuple) or not release:
        _no_part("release", release)
    pieces = ["%s!" % _number("epoch", epoch) if epoch else ""]
    pieces.append(".".join([_number("release", number) for number in release]))
    if pre is not None:
        pieces.append(_pre_text(pre))
    if post is not None:
        pieces.append(".post" + _number("post", post))
    if dev is not None:
        pieces.append(".dev" + _number("dev", dev))
    if local is not None:
        if not isinstance(local, str) or not _LOCAL(local):
            _no_part("local", local)
        pieces.append("+" + local)
    return _made(kind, "".join(pieces))


def replaced(self: Any, **parts: Any) -> Any:
    """`Version.__replace__` of any class and with any parts."""
    for part in ("epoch", "release", "pre", "post", "dev", "local"):
        parts.setdefault(part, getattr(self, part))
    made = self.from_parts(**parts)
    return self if str(made) == str(self) else made


# ---- a pattern of one's own ----


def _text_of_match(found: Match[str]) -> str:
    """The text of the parts that a pattern found, which has the groups of VERSION_PATTERN."""
    part = found.groupdict().get
    return text_of(
        int(part("epoch") or 0),
        tuple([int(number) for number in found.group("release").split(".")]),
        letter_and_number(part("pre_l"), part("pre_n")),
        letter_and_number(part("post_l"), part("post_n1") or part("post_n2")),
        letter_and_number(part("dev_l"), part("dev_n")),
        local_pieces(part("local")),
    )


def read_by_pattern(self: Any, version: str) -> None:
    """The `__init__` of a class of versions that has a pattern of its own: it is what the pattern finds in the text."""
    text = version
    if not set(version) <= set(".0123456789"):
        found = self._regex.fullmatch(version)
        if found is None:
            raise InvalidVersion("Invalid version: %r" % version, word="syntax")
        text = _text_of_match(found)
    _native.Version.__init__(self, text)
