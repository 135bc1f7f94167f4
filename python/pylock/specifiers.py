"""Specifiers of versions (PEP 440), with the names and meanings of `packaging.specifiers`.

    >>> from pylock.specifiers import SpecifierSet
    >>> "1.4" in SpecifierSet(">=1.2,!=1.3.*,<2")
    True

Pre-releases are treated as `packaging` 26 treats them: `in` and `contains` admit them, and `filter` gives them where it
finds no final release, unless `prereleases` says otherwise. `admits` is the rule of versions alone, which knows no such
option; the installation steps of a lock use that one.

What is different: a number has at most 128 bits; white space is ASCII white space; `===` wants an operand, without a
comma; of `~=` the version counts and not how it is written; and beside a pre-release or a post-release `>` and `<` are
those of `packaging` up to 26.0.
"""

from __future__ import annotations

import abc
from itertools import accumulate, islice
from typing import TYPE_CHECKING, Any, Callable, Collection, Dict, Iterable, Iterator, List, Optional, Tuple, TypeVar, Union, overload

from . import _native, _private
from ._errors import InvalidSpecifier, InvalidVersion
from .version import Version

if TYPE_CHECKING:
    from ._answers import Answer

__all__ = ["BaseSpecifier", "InvalidSpecifier", "Specifier", "SpecifierSet"]

UnparsedVersion = Union[Version, str]
UnparsedVersionVar = TypeVar("UnparsedVersionVar", bound=UnparsedVersion)
_Item = TypeVar("_Item")
# an epoch and a release without zeros at its end
_Release = Tuple[int, Tuple[int, ...]]


def _given(item: UnparsedVersion) -> str:
    """The text of a version, which may still be none."""
    if isinstance(item, Version):
        return item._given
    if isinstance(item, str):
        return item
    raise TypeError("expected a Version or a str, not %s" % type(item).__name__)


class _Abstract(abc.ABCMeta):
    """The class of an abstract class that knows its own two at once, by the compiled part."""

    def _has_instance(cls, instance: object) -> bool:
        """Whether any other object is one, as every abstract class finds it."""
        return super().__instancecheck__(instance)


class BaseSpecifier(metaclass=_Abstract):
    """What `Specifier` and `SpecifierSet` are instances of, for `isinstance`, and for specifiers of one's own."""

    __slots__ = ()
    __match_args__ = ("_str",)

    @property
    def _str(self) -> str:
        return str(self)

    @abc.abstractmethod
    def __str__(self) -> str:
        """The text."""

    @abc.abstractmethod
    def __hash__(self) -> int:
        """Equal ones have one hash."""

    @abc.abstractmethod
    def __eq__(self, other: object) -> bool:
        """Whether the other one says the same."""

    @property
    @abc.abstractmethod
    def prereleases(self) -> Optional[bool]:
        """Whether pre-releases are admitted; None where nothing is said of them."""

    @prereleases.setter
    @abc.abstractmethod
    def prereleases(self, value: bool) -> None:
        """Says it."""

    @abc.abstractmethod
    def contains(self, item: str, prereleases: Optional[bool] = None) -> bool:
        """Whether the version is admitted."""

    if TYPE_CHECKING:

        @overload
        def filter(
            self, iterable: Iterable[UnparsedVersionVar], prereleases: Optional[bool] = None, key: None = ...
        ) -> Iterator[UnparsedVersionVar]: ...

        @overload
        def filter(
            self, iterable: Iterable[_Item], prereleases: Optional[bool] = None, key: Callable[[_Item], UnparsedVersion] = ...
        ) -> Iterator[_Item]: ...

    @abc.abstractmethod
    def filter(
        self,
        iterable: Iterable[Any],
        prereleases: Optional[bool] = None,
        key: Optional[Callable[[Any], UnparsedVersion]] = None,
    ) -> Iterator[Any]:
        """The items whose versions are admitted."""


class _Exact:
    """The specifiers by `===` of a set, which compare texts as they are given, and a set of the others."""

    __slots__ = ("operands", "others")

    def __init__(self, items: Iterable[Specifier]) -> None:
        self.operands: List[str] = []
        others = []
        for item in items:
            if item.operator == "===":
                self.operands.append(item.version.lower())
            else:
                others.append(item)
        self.others = SpecifierSet(others) if others else None

    def passes(self, item: UnparsedVersion) -> bool:
        """Whether all let it through. A version's text is its normal form."""
        text = str(item) if isinstance(item, Version) else _given(item)
        lower = text.lower()
        for operand in self.operands:
            if operand != lower:
                return False
        return self.others is None or self.others._passes(text)


if TYPE_CHECKING:
    _Registered = BaseSpecifier
else:
    # an abstract class takes its time to answer `isinstance`
    _Registered = object


class _Judge(_Registered):
    """What `Specifier` and `SpecifierSet` share, beside what lies in the compiled part."""

    __slots__ = ()
    __match_args__ = ("_str",)

    def _compares(self: Any) -> _Exact:
        """What compares texts, of specifiers of which one does."""
        exact: Optional[_Exact] = self._exact
        if exact is None:
            exact = self._exact = _Exact(self._items())  # type: ignore[misc]
        return exact

    def _passes_exactly(self, item: UnparsedVersion) -> bool:
        """Whether the specifiers let it through, of which one compares texts."""
        return self._compares().passes(item)

    @property
    def _str(self) -> str:
        return str(self)


class Specifier(_private.SpecifierParts, _native.Specifier, _Judge):
    """One specifier.

    >>> Specifier("~= 2.2").operator, Specifier("~= 2.2").version
    ('~=', '2.2')
    >>> Specifier("==1.2.3") == Specifier("== 1.2.3.0")
    True

    `prereleases` is what was said of them, else whether the operand is one; None of an operand that is no version. It can be
    assigned; no copy takes part.

    >>> Specifier(">=1.0").prereleases, Specifier(">=1.0a1").prereleases
    (False, True)
    """

    # its text, its operator and operand, and what it is asked for lie in the compiled part
    __slots__ = ()

    def _items(self) -> Tuple[Specifier, ...]:
        return (self,)

    def _reduced(self) -> Tuple[Any, ...]:
        """What a pickle has of a specifier of one's own class."""
        from ._subclasses import reduced

        return reduced(self, Specifier, (self._text, self._forced), (self._spec, self._forced))

    def _copied(self) -> Specifier:
        """A copy of a specifier of one's own class."""
        from ._subclasses import copied

        copy: Specifier = copied(self)
        return copy

    if TYPE_CHECKING:

        def __hash__(self) -> int: ...

        def __eq__(self, other: object) -> bool: ...

    def _equals(self, other: object) -> bool:
        """Whether it is equal to a text, or to a specifier where one of both is of one's own class."""
        if isinstance(other, str):
            try:
                other = type(self)(other)
            except InvalidSpecifier:
                return NotImplemented
        elif not isinstance(other, type(self)):
            return NotImplemented
        return self._canonical_spec() == other._canonical_spec()


class SpecifierSet(_private.SetParts, _native.Set, _Judge):
    """A set of specifiers, with commas between them; each is to admit a version.

    >>> versions = SpecifierSet(">=1.2, !=1.3.*")
    >>> versions
    <SpecifierSet('!=1.3.*,>=1.2')>
    >>> versions.text
    '>=1.2, !=1.3.*'
    >>> versions == SpecifierSet("!=1.3.*,>=1.2,>=1.2")
    True
    >>> versions & "<2"
    <SpecifierSet('!=1.3.*,<2,>=1.2')>

    `text` is the text as it was given and `normal_text` its normal form; `str` and `==` are those of a set: order and
    repetition don't count. `len` and iteration tell of each specifier that was given, in its place.

    >>> SpecifierSet(" >= 2.8.1 ,, == v1!2.0.* ").normal_text
    '>=2.8.1,==1!2.0.*'

    `in` and `contains` admit a pre-release unless it is said that these are not admitted; `admits` is the order of versions
    alone.

    >>> SpecifierSet(">=1.0").contains("2.0rc1"), SpecifierSet(">=1.0").contains("2.0rc1", prereleases=False)
    (True, False)
    >>> SpecifierSet(">=1.0", prereleases=False).admits("2.0rc1"), "2.0rc1" in SpecifierSet(">=1.0", prereleases=False)
    (True, False)
    >>> SpecifierSet(">=1.0").prereleases, SpecifierSet(">=1.0a1").prereleases
    (None, True)
    >>> SpecifierSet(">=2,<1").is_unsatisfiable(), SpecifierSet(">=1,<2").is_unsatisfiable()
    (True, False)

    `filter` gives the items whose versions are admitted; `key` gives the version of an item, which else is one. Pre-releases
    are among them where it is said, here or before, or a specifier asks for them; where nothing is said, if there is no final
    release.

    >>> list(SpecifierSet(">=1.2.3").filter(["1.2", "1.3", "1.5a1"]))
    ['1.3']
    >>> list(SpecifierSet(">=1.2.3").filter(["1.2", "1.5a1"]))
    ['1.5a1']
    >>> list(SpecifierSet(">=1.2.3").filter([("a", "1.2"), ("b", "1.3")], key=lambda pair: pair[1]))
    [('b', '1.3')]
    """

    # its text, its specifiers, and what it is asked for lie in the compiled part
    __slots__ = ("__weakref__",)

    if TYPE_CHECKING:

        def __and__(self, other: Union[SpecifierSet, str]) -> SpecifierSet: ...

    else:
        __and__ = _native.Set._joined

    def is_subset(self, other: SpecifierSet) -> Answer[Version]:
        """Whether the other set admits each version that this one does, by the order of versions alone, as `admits`: whatever is
        said of pre-releases. A no has a version that this set alone admits.

        >>> bool(SpecifierSet("==1.4.*").is_subset(SpecifierSet(">=1.2,<2")))
        True
        """
        from ._answers import answer_of_sets

        return answer_of_sets(self._subset(other))

    def is_disjoint(self, other: SpecifierSet) -> Answer[Version]:
        """Whether no version is admitted by both sets, by the order of versions alone, as `admits`. A no has a version that both
        admit. Beside the empty set it is the question whether this set admits none.

        >>> SpecifierSet("<2").is_disjoint(SpecifierSet(">=2")).outcome
        <Outcome.YES: 'yes'>
        >>> SpecifierSet("<=2").is_disjoint(SpecifierSet(">=2")).witness
        <Version('2')>
        """
        from ._answers import answer_of_sets

        return answer_of_sets(self._disjoint(other))

    def _has_no_version(self, items: Tuple[Specifier, ...]) -> bool:
        """Whether there is no version that it contains; its specifiers are given, at least one."""
        if self._is_exact:
            operands = set(self._compares().operands)
            return len(operands) > 1 or not self.contains(operands.pop())
        # mostly one of them names a version that is in it
        if self.contains(items[0].version):
            return False
        wants_final = self._forced is False
        starts = _starts(items, wants_final)
        if starts is not None:
            return not any(map(self._passes, starts))
        witnesses = _Witnesses(items)
        # one of the first few is mostly enough
        if any(map(self.contains, islice(witnesses, 100))):
            return False
        return all([wants_final and _native.phase(version) for version in witnesses.admitted_by_all()])

    def __reduce__(self) -> Tuple[Any, ...]:
        told = self._items() if self._says_more() else self._text
        arguments = (told,) if self._forced is None else (told, self._forced)
        if type(self) is SpecifierSet:
            return SpecifierSet, arguments
        from ._subclasses import reduced

        return reduced(self, SpecifierSet, arguments, (self._items(), self._forced))


_native.use_specifier(Specifier)
_native.use_set(SpecifierSet)
BaseSpecifier.register(Specifier)
BaseSpecifier.register(SpecifierSet)
_native.use_abstract(BaseSpecifier)


# ---- whether any version is admitted ----


# a number of more digits may be the last that there is
_MOST_DIGITS = 38


def _starts(items: Collection[Specifier], wants_final: bool) -> Optional[List[str]]:
    """Versions of which one is in the set if any is: those at which the stretches begin that a specifier admits, or, if final
    releases are wanted, the first of these in each. What all admit begins where a stretch of one does.

    None where operands have local versions, or stand beside an operator that admits many stretches then.
    """
    # deeper than each release that is named, so that nothing named lies between a release and this behind it
    deep = max([item.version.count(".") for item in items]) + 1
    starts, later = [], []
    for item in items:
        operator, operand = item.operator, item.version
        is_prefix = operand.endswith(".*")
        release = operand[:-2] if is_prefix else operand
        is_plain = len(release) <= _MOST_DIGITS and release.replace(".", "").isdecimal()
        if not is_plain and ("+" in operand or is_prefix or operator in (">", "!=")):
            return None
        if operator == "<" or operator == "<=":
            # of a pre-release `<` is the order alone
            if not is_plain and operator == "<" and not _native.phase(operand):
                return None
        elif operator == "!=":
            later.append(_behind(release, is_prefix) + ("" if wants_final else ".dev0"))
        elif operator == ">":
            starts.append(release + ".0" * (deep - release.count(".") - 1) + ".1")
        elif wants_final:
            starts.append(release if is_plain else _first_final(operand))
        else:
            starts.append(release + ".dev0" if is_prefix else release)
    if not starts:
        # nothing lies before the first of all versions
        starts.append("0" if wants_final else "0.dev0")
    return starts + later


def _first_final(text: str) -> str:
    """The first final release that isn't before a version."""
    version = Version(text)
    if not version.is_prerelease:
        return text
    if version.pre is None and version.post is not None:
        return "%s.post%d" % (version.base_version, version.post)
    return version.base_version


def _behind(release: str, is_prefix: bool) -> str:
    """The version behind a release and its local versions, or behind all that begins with it."""
    if not is_prefix:
        return release + ".post0"
    stem, dot, last = release.rpartition(".")
    return "%s%s%d" % (stem, dot, int(last) + 1)


class _Witnesses:
    """Versions of which one is in each stretch of the order of versions that the specifiers, none by `===`, bound, and
    a final release wherever the stretch has one.

    The bounds lie at an operand, around its local versions, its post-releases and all that begins with its release. So
    the versions next to these are enough, and those next to the operand of one specifier for the stretches of that one.
    """

    def __init__(self, items: Iterable[Specifier]) -> None:
        self._items = list(items)
        self._operands = [
            Version(item.version[:-2] if item.version.endswith(".*") else item.version) for item in self._items
        ]
        self._local = "+" + _nobodys({operand.local for operand in self._operands})
        self._behind = self._texts_behind()

    def _texts_behind(self) -> Dict[_Release, Tuple[str, ...]]:
        """For each release that is named, texts right behind all that it begins with zeros alone: nothing that is named
        lies between, for they are deeper than the next release where there is a bound."""
        bounds = sorted({key for operand in self._operands for key in _bounding(operand)})
        behind = {}
        for (epoch, release), (_, following) in zip(bounds, [*bounds[1:], (0, ())]):
            depth = max(len(release), len(following))
            texts = map(str, (*release, *[0] * (depth - len(release)), 1))
            behind[epoch, release] = self._variants("%d!%s" % (epoch, ".".join(texts)))
        return behind

    def _variants(self, stem: str) -> Tuple[str, ...]:
        """The version, a local one of it, and its first development release."""
        if ".dev" in stem:
            return stem, stem + self._local
        return stem, stem + self._local, stem + ".dev0"

    def _of(self, operand: Version) -> Iterator[str]:
        """Those next to an operand, and the first of all versions."""
        yield "0.dev0"
        yield "0"
        yield str(operand)
        for stem in _stems(operand):
            yield from self._variants(stem)
        yield from self._behind[operand.epoch, _without_zeros(operand.release)]

    def __iter__(self) -> Iterator[str]:
        for operand in self._operands:
            yield from self._of(operand)

    def admitted_by_all(self) -> List[Version]:
        """Those that each specifier admits. Between two versions next to its operand a specifier changes from one answer
        to the other once at most, so it is asked of few."""
        made: Dict[str, Version] = {}
        for text in dict.fromkeys(self):
            try:
                made[text] = Version(text)
            except InvalidVersion:
                # a number behind the last that there is
                continue
        order = sorted(set(made.values()))
        at = {version: place for place, version in enumerate(order)}
        places = {text: at[version] for text, version in made.items()}
        # how many specifiers refuse the version of a place, less those that refuse the one before
        more = [0] * len(order)
        for item, operand in zip(self._items, self._operands):
            admits = item._passes
            begin, admitted = 0, True
            for place in sorted({places[text] for text in self._of(operand) if text in places}):
                if admits(order[place]) != admitted:
                    admitted = not admitted
                    begin = _first(begin, place, lambda tried: admits(order[tried]) == admitted)
                    more[begin] += -1 if admitted else 1
                begin = place + 1
        return [version for version, refusing in zip(order, accumulate(more)) if not refusing]


def _first(begin: int, end: int, holds: Callable[[int], bool]) -> int:
    """The first of these numbers of which it holds, as it does of all behind that one and of the last."""
    while begin < end:
        middle = (begin + end) // 2
        if holds(middle):
            end = middle
        else:
            begin = middle + 1
    return end


def _without_zeros(release: Tuple[int, ...]) -> Tuple[int, ...]:
    """The release without the zeros at its end, which don't count."""
    end = len(release)
    while end and not release[end - 1]:
        end -= 1
    return release[:end]


def _followers(release: Tuple[int, ...]) -> Iterator[Tuple[int, ...]]:
    """The releases behind all that begins with this one, or with this one but for its last number."""
    for length in {len(release), max(len(release) - 1, 1)}:
        yield (*release[: length - 1], release[length - 1] + 1)


def _bounding(operand: Version) -> Iterator[_Release]:
    """The releases at which an operand may be a bound."""
    for release in (operand.release, *_followers(operand.release)):
        yield operand.epoch, _without_zeros(release)


def _nobodys(locals_: Collection[Optional[str]]) -> str:
    """A local version that is none of these."""
    number = 0
    while "x%d" % number in locals_:
        number += 1
    return "x%d" % number


def _stems(operand: Version) -> Iterator[str]:
    """The public texts next to a version, without or with another development release."""
    epoch, release = "%d!" % operand.epoch, operand.release
    base = epoch + ".".join(map(str, release))
    yield base
    yield base + ".post0"
    for follower in _followers(release):
        yield epoch + ".".join(map(str, follower))
    if operand.pre is not None:
        letter, number = operand.pre
        yield "%s%s%d" % (base, letter, number + 1)
        base = "%s%s%d" % (base, letter, number)
        yield base
        yield base + ".post0"
    if operand.post is not None:
        yield "%s.post%d" % (base, operand.post + 1)
        base = "%s.post%d" % (base, operand.post)
        yield base
    if operand.dev is not None:
        yield "%s.dev%d" % (base, operand.dev)
        yield "%s.dev%d" % (base, operand.dev + 1)


if not TYPE_CHECKING:
    __getattr__ = _private.names_of("specifiers")
