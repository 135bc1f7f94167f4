"""Locks (PEP 751) as tables of Python, with the names and meanings of `packaging.pylock`.

    >>> from pylock.pylock import Pylock
    >>> lock = Pylock.from_dict({
    ...     "lock-version": "1.0",
    ...     "created-by": "me",
    ...     "packages": [{"name": "a", "marker": "os_name == 'nt'", "directory": {"path": "./a"}}],
    ... })
    >>> lock.packages[0].marker, lock.packages[0].is_direct
    (<Marker('os_name == "nt"')>, True)
    >>> lock.to_dict()["packages"]
    [{'name': 'a', 'marker': 'os_name == "nt"', 'directory': {'path': './a'}}]

The library's reader decides what is a lock, as strictly as `pylock --strict` does, and its session what is selected:
docs/PYTHON.md has the differences. `pylock.Lock` reads the bytes of a file, and is many times as fast.
"""

from __future__ import annotations

import copy
import functools
from datetime import datetime
from typing import (
    TYPE_CHECKING, Any, Callable, Collection, Dict, Iterator, List, Mapping, NoReturn, Optional, Sequence, Tuple, Type, TypeVar,
    Union,
)

from . import _lock, _lock_shape, _native, _toml
from ._environment import VARIABLES, Environment, environment as running_environment, variables_text
from ._errors import InvalidLock, PlanFault, Refusal, StrictRefusal
from ._records import fields_of
from .markers import Marker, running_variables
from .specifiers import SpecifierSet
from .utils import NormalizedName, canonicalize_name
from .version import Version

if TYPE_CHECKING:
    from dataclasses import dataclass
    from pathlib import PurePath

    from .tags import Tag
else:
    from ._records import dataclass

__all__ = [
    "Package",
    "PackageArchive",
    "PackageDirectory",
    "PackageSdist",
    "PackageVcs",
    "PackageWheel",
    "Pylock",
    "PylockSelectError",
    "PylockUnsupportedVersionError",
    "PylockValidationError",
    "is_valid_pylock_path",
]

_NOTHING = b'{"environment": {}, "tags": []}'
# the versions of locks that are read: from the first to the one before the other
_FIRST, _NEXT = Version("1"), Version("2")

_Class = TypeVar("_Class")


def is_valid_pylock_path(path: PurePath) -> bool:
    """Whether the path's last part is the file name of a lock: `pylock.toml`, or `pylock.NAME.toml` without a dot in NAME.

    >>> from pathlib import PurePath
    >>> is_valid_pylock_path(PurePath("a/pylock.dev.toml")), is_valid_pylock_path(PurePath("dev.pylock.toml"))
    (True, False)
    """
    name = path.name
    if name[:7] != "pylock." or name[-5:] != ".toml":
        return False
    middle = name[7:-5]
    return middle != "" and "." not in middle or name == "pylock.toml"


# ---- errors ----


class PylockValidationError(Refusal):
    """A table is no lock. `message` says why, and `context` where, as `packages[0].wheels[1].hashes`, or is None.

    >>> Pylock.from_dict({"lock-version": "1.0", "created-by": 5})
    Traceback (most recent call last):
        ...
    pylock.pylock.PylockValidationError: expected str, not int in 'created-by'

    Made of another one, it says the same, with its own context before the other's. `word` is the library's word for the
    refusal, where it has one, and `place` is the context.
    """

    context: Optional[str] = None
    message: str

    def __init__(self, cause: Union[str, Exception], *, context: Optional[str] = None, word: str = "") -> None:
        if type(cause) is str:
            self.message = cause
        else:
            if isinstance(cause, PylockValidationError):
                context = ".".join(part for part in (context, cause.context) if part) or None
                word = word or cause.word
                self.message = cause.message
            else:
                self.message = str(cause)
            self.args = (self.message,)
        if word:
            self.word = word
        if context is not None:
            self.context = self.place = context

    def __str__(self) -> str:
        return self.message if self.context is None else "%s in %r" % (self.message, self.context)


class PylockUnsupportedVersionError(PylockValidationError):
    """The lock is of a version that isn't read: another one than 1."""


class PylockSelectError(Refusal):
    """The lock can't be installed so. `word` is the fault's code (docs/FORMATS.md), and `place` the number of the entry
    from 1, or 0 for the head of the lock."""

    if not TYPE_CHECKING:
        __init__ = ValueError.__init__


# ---- the tables ----


@dataclass(frozen=True, init=False)
class PackageVcs:
    """A source in a version control system."""

    type: str
    url: Optional[str] = None
    path: Optional[str] = None
    requested_revision: Optional[str] = None
    commit_id: str  # type: ignore[misc]
    subdirectory: Optional[str] = None

    def __init__(
        self,
        *,
        type: str,
        url: Optional[str] = None,
        path: Optional[str] = None,
        requested_revision: Optional[str] = None,
        commit_id: str,
        subdirectory: Optional[str] = None,
    ) -> None:
        vars(self).update(
            type=type, url=url, path=path, requested_revision=requested_revision, commit_id=commit_id, subdirectory=subdirectory
        )


@dataclass(frozen=True, init=False)
class PackageDirectory:
    """A directory of sources."""

    path: str
    editable: Optional[bool] = None
    subdirectory: Optional[str] = None

    def __init__(self, *, path: str, editable: Optional[bool] = None, subdirectory: Optional[str] = None) -> None:
        vars(self).update(path=path, editable=editable, subdirectory=subdirectory)


@dataclass(frozen=True, init=False)
class PackageArchive:
    """An archive of sources that has no name of an sdist."""

    url: Optional[str] = None
    path: Optional[str] = None
    size: Optional[int] = None
    upload_time: Optional[datetime] = None
    hashes: Mapping[str, str]  # type: ignore[misc]
    subdirectory: Optional[str] = None

    def __init__(
        self,
        *,
        url: Optional[str] = None,
        path: Optional[str] = None,
        size: Optional[int] = None,
        upload_time: Optional[datetime] = None,
        hashes: Mapping[str, str],
        subdirectory: Optional[str] = None,
    ) -> None:
        vars(self).update(
            url=url, path=path, size=size, upload_time=upload_time, hashes=hashes, subdirectory=subdirectory
        )


@dataclass(frozen=True, init=False)
class _File:
    """What a source distribution and a wheel have."""

    name: Optional[str] = None
    upload_time: Optional[datetime] = None
    url: Optional[str] = None
    path: Optional[str] = None
    size: Optional[int] = None
    hashes: Mapping[str, str]  # type: ignore[misc]

    def __init__(
        self,
        *,
        name: Optional[str] = None,
        upload_time: Optional[datetime] = None,
        url: Optional[str] = None,
        path: Optional[str] = None,
        size: Optional[int] = None,
        hashes: Mapping[str, str],
    ) -> None:
        vars(self).update(name=name, upload_time=upload_time, url=url, path=path, size=size, hashes=hashes)

    @property
    def filename(self) -> str:
        """The file name: `name`, else what ends the path, else what ends the URL, its escapes read.

        >>> PackageSdist(url="https://h/a%2Bb-1.tar.gz?x#y", hashes={"sha256": "00"}).filename
        'a+b-1.tar.gz'
        """
        name = self.name or _lock_shape.name_at(self.path, self.url)
        if not name:
            raise PylockValidationError("there is no file name: neither a name, nor one at the end of path or url")
        return name


@dataclass(frozen=True, init=False)
class PackageSdist(_File):  # type: ignore[misc]
    """A source distribution."""


@dataclass(frozen=True, init=False)
class PackageWheel(_File):  # type: ignore[misc]
    """A wheel."""


@dataclass(frozen=True, init=False)
class Package:
    """An entry of a lock."""

    name: NormalizedName
    version: Optional[Version] = None
    marker: Optional[Marker] = None
    requires_python: Optional[SpecifierSet] = None
    dependencies: Optional[Sequence[Mapping[str, Any]]] = None
    vcs: Optional[PackageVcs] = None
    directory: Optional[PackageDirectory] = None
    archive: Optional[PackageArchive] = None
    index: Optional[str] = None
    sdist: Optional[PackageSdist] = None
    wheels: Optional[Sequence[PackageWheel]] = None
    attestation_identities: Optional[Sequence[Mapping[str, Any]]] = None
    tool: Optional[Mapping[str, Any]] = None

    def __init__(
        self,
        *,
        name: NormalizedName,
        version: Optional[Version] = None,
        marker: Optional[Marker] = None,
        requires_python: Optional[SpecifierSet] = None,
        dependencies: Optional[Sequence[Mapping[str, Any]]] = None,
        vcs: Optional[PackageVcs] = None,
        directory: Optional[PackageDirectory] = None,
        archive: Optional[PackageArchive] = None,
        index: Optional[str] = None,
        sdist: Optional[PackageSdist] = None,
        wheels: Optional[Sequence[PackageWheel]] = None,
        attestation_identities: Optional[Sequence[Mapping[str, Any]]] = None,
        tool: Optional[Mapping[str, Any]] = None,
    ) -> None:
        vars(self).update(
            name=name, version=version, marker=marker, requires_python=requires_python, dependencies=dependencies, vcs=vcs,
            directory=directory, archive=archive, index=index, sdist=sdist, wheels=wheels,
            attestation_identities=attestation_identities, tool=tool,
        )

    @property
    def is_direct(self) -> bool:
        """Whether it is installed from a source that isn't a file of an index: it has no sdist and no wheels."""
        return not self.sdist and not self.wheels


_Source = Union[PackageVcs, PackageDirectory, PackageArchive, PackageWheel, PackageSdist]


@dataclass(frozen=True, init=False)
class Pylock:
    """A lock. `from_dict` gives one that is valid; one that is made by hand is judged by `validate`."""

    lock_version: Version
    environments: Optional[Sequence[Marker]] = None
    requires_python: Optional[SpecifierSet] = None
    extras: Optional[Sequence[NormalizedName]] = None
    dependency_groups: Optional[Sequence[str]] = None
    default_groups: Optional[Sequence[str]] = None
    created_by: str  # type: ignore[misc]
    packages: Sequence[Package]  # type: ignore[misc]
    tool: Optional[Mapping[str, Any]] = None

    def __init__(
        self,
        *,
        lock_version: Version,
        environments: Optional[Sequence[Marker]] = None,
        requires_python: Optional[SpecifierSet] = None,
        extras: Optional[Sequence[NormalizedName]] = None,
        dependency_groups: Optional[Sequence[str]] = None,
        default_groups: Optional[Sequence[str]] = None,
        created_by: str,
        packages: Sequence[Package],
        tool: Optional[Mapping[str, Any]] = None,
    ) -> None:
        vars(self).update(
            lock_version=lock_version, environments=environments, requires_python=requires_python, extras=extras,
            dependency_groups=dependency_groups, default_groups=default_groups, created_by=created_by, packages=packages,
            tool=tool,
        )

    @classmethod
    def from_dict(cls: Type[_Class], d: Mapping[str, Any], /) -> _Class:
        """The lock of a table, as `tomllib` reads it from a file.

        Raises PylockValidationError where the table is no lock that is taken strictly. A key whose value is None counts
        as absent. A version of the lock that is later than 1.0 is logged as a warning.
        """
        # what is a dict is mostly one itself, which is seen at once
        if type(d) is not dict and not isinstance(d, Mapping):
            raise TypeError("expected a mapping, not %s" % type(d).__name__)
        _judge(d)
        lock: _Class = _of_table(cls, d)
        version = d["lock-version"]
        if version != "1.0":
            import logging

            logging.getLogger(__name__).warning("the lock is of the version %s, of which only what 1.0 has is read", version)
        return lock

    def to_dict(self) -> Mapping[str, Any]:
        """The table of the lock, without the keys that are None, for a writer of TOML."""
        return _plain_table(self)

    def validate(self) -> None:
        """Raises PylockValidationError where the lock isn't valid."""
        self.from_dict(self.to_dict())

    def select(
        self,
        *,
        environment: Any = None,
        tags: Optional[Sequence[Tag]] = None,
        extras: Optional[Collection[str]] = None,
        dependency_groups: Optional[Collection[str]] = None,
    ) -> Iterator[Tuple[Package, _Source]]:
        """What is to be installed: each entry, in order, with the source that it is installed from.

        The environment gives the variables of markers, `python_full_version` among them, and those that it doesn't have
        are the running Python's; without one all are. The tags of wheels are those of the running Python where none are
        given. A kept `pylock.Environment` gives its variables as they are, and its tags. No extra is asked for where none
        is given, and the groups are then the lock's default groups.

        Raises PylockSelectError where the lock can't be installed so, before the first entry is given.

        >>> lock = Pylock.from_dict({
        ...     "lock-version": "1.0", "created-by": "me",
        ...     "packages": [{"name": "a", "marker": "'x' in extras", "directory": {"path": "./a"}}],
        ... })
        >>> list(lock.select()), [source.path for package, source in lock.select(extras=["X"])]
        ([], ['./a'])
        """
        groups = self.default_groups if dependency_groups is None else dependency_groups
        for place, kind, file in _selected(
            self, _environment_text(environment, tags), _names("extras", extras), _names("dependency_groups", groups)
        ):
            package = self.packages[place]
            yield package, package.wheels[file] if kind == "wheel" and package.wheels else getattr(package, kind)


# ---- tables made into objects, and objects into tables ----

_CLASSES: Tuple[Type[Any], ...] = (
    PackageVcs, PackageDirectory, PackageArchive, PackageSdist, PackageWheel, Package, Pylock
)
# of each class the keys of the lock, and the attributes that hold them
_KEYS: Dict[Type[Any], Dict[str, str]] = {
    each: {name.replace("_", "-"): name for name in fields_of(each)} for each in _CLASSES
}

class _Texts(Dict[str, Any]):
    """What was read of texts: those that come again are read once, and share an object."""

    def __init__(self, kind: Type[Any]) -> None:
        super().__init__()
        self.kind = kind

    def __missing__(self, text: str) -> Any:
        read = self[text] = self.kind(text)
        return read


def _maker(kind: Type[Any]) -> Callable[[Any], Any]:
    """What makes an object of a class of a table."""
    return functools.partial(_native.made, kind, _KEYS[kind])


_SOURCES: Dict[str, Callable[[Any], Any]] = {
    "vcs": _maker(PackageVcs),
    "directory": _maker(PackageDirectory),
    "archive": _maker(PackageArchive),
    "sdist": _maker(PackageSdist),
    "wheels": functools.partial(_native.made_all, PackageWheel, _KEYS[PackageWheel]),
}


def _of_table(kind: Type[Any], table: Mapping[str, Any]) -> Any:
    """The lock, of a class made from Pylock, of a table that the library took."""
    marker, python = _Texts(Marker).__getitem__, _Texts(SpecifierSet).__getitem__
    readers = dict(_SOURCES, version=_Texts(Version).__getitem__, marker=marker, requires_python=python)
    attributes: Dict[str, Union[str, Tuple[str, Callable[[Any], Any]]]] = {
        key: (name, readers[name]) if name in readers else name for key, name in _KEYS[Package].items()
    }
    values = {name: table[key] for key, name in _KEYS[Pylock].items() if table.get(key) is not None}
    values["lock_version"] = Version(values["lock_version"])
    if "requires_python" in values:
        values["requires_python"] = python(values["requires_python"])
    if "environments" in values:
        values["environments"] = [marker(text) for text in values["environments"]]
    if "extras" in values:
        values["extras"] = list(values["extras"])
    values["packages"] = _native.made_all(Package, attributes, values["packages"])
    return kind(**values)


def _keys_of(kind: Type[Any]) -> Dict[str, str]:
    """The keys and attributes of a class, which may be made from one of those here."""
    return _KEYS.get(kind) or next(_KEYS[base] for base in kind.__mro__ if base in _KEYS)


def _plain_table(made: Any) -> Dict[str, Any]:
    """The table of an object, in the order of its attributes."""
    members = [(key, getattr(made, name)) for key, name in _keys_of(type(made)).items()]
    return {key: _plain(member) for key, member in members if member is not None}


_UNCHANGEABLE = frozenset((str, int, bool, float, datetime))


def _plain(value: Any) -> Any:
    """A copy of a value, of the types that TOML has; what isn't known is copied as it is."""
    kind = type(value)
    if kind in _UNCHANGEABLE:
        return value
    if kind in _KEYS or isinstance(value, _CLASSES):
        return _plain_table(value)
    if isinstance(value, (Version, Marker, SpecifierSet)):
        return str(value)
    if kind is dict or isinstance(value, Mapping):
        return {key: _plain(member) for key, member in value.items()}
    if isinstance(value, (list, tuple)):
        return [_plain(member) for member in value]
    return copy.deepcopy(value)


# ---- what the library says of a table ----


def _refusal(table: Mapping[str, Any]) -> Optional[Exception]:
    """Why the library doesn't take a table strictly, or why it can't be written; None where it is taken."""
    try:
        _lock.Session(_toml.document(table), _NOTHING, strict=True).close()
    except (InvalidLock, TypeError, ValueError, RecursionError) as error:
        return error
    return None


def _is_taken_as(version: str, table: Mapping[str, Any]) -> bool:
    """Whether the library takes a table with this version, and has nothing to say of it."""
    try:
        return _native.audit(_toml.document(dict(table, **{"lock-version": version})), False)[1] == 0
    except (TypeError, ValueError, RecursionError):
        return False


def _check_version(version: str) -> None:
    """Raises the error of a version of which no lock is read; a text that is no version isn't judged here."""
    try:
        is_read = _FIRST <= Version(version) < _NEXT
    except ValueError:
        return
    if not is_read:
        raise PylockUnsupportedVersionError("a lock of the version %s isn't read" % version, word="lock-version")


def _judge(table: Mapping[str, Any]) -> None:
    """Raises PylockValidationError where the table isn't taken."""
    fault = _lock_shape.fault_of_head(table)
    if fault is not None:
        key, message = fault
        raise PylockValidationError(message, context=key, word=key)
    version = table["lock-version"]
    # the version is what is told last
    if version[:2] != "1." and _is_taken_as("1.0", table):
        _check_version(version)
    refusal = _refusal(table)
    if refusal is None:
        return
    # once more without what isn't judged, which may be what no TOML can hold: a key that is None, the tables of tools
    judged = _lock_shape.judged(table)
    if judged != table:
        refusal = _refusal(judged)
    if refusal is not None:
        _refuse(judged, refusal)


def _refuse(table: Dict[str, Any], refusal: Exception) -> NoReturn:
    """Raises the error of a table that is refused: of what stands first in the order of `packaging`."""
    word = refusal.word if isinstance(refusal, Refusal) else ""
    wrong = _lock_shape.fault_of(table)
    if wrong is not None:
        raise PylockValidationError(wrong.message, context=wrong.path or None, word=word) from refusal
    if word == "lock-version":
        # the version is what is told last
        as_read = dict(table, **{"lock-version": "1.0"})
        other = _refusal(as_read)
        if other is not None:
            _refuse(as_read, other)
        _check_version(table["lock-version"])
    raise PylockValidationError(str(refusal), context=_context(refusal), word=word) from refusal


# the keys that findings are about, where their detail isn't the path of one
_OF_FINDING = {"name-form": "name", "version": "version", "marker-extra": "marker"}
# the keys that a lock's own words are about
_OF_LOCK = {"lock-version": "lock-version", "created-by": "created-by", "too-many": "packages"}


def _place(refusal: Exception) -> Tuple[int, List[str]]:
    """The number of the entry that is refused, or 0, and the path of the key, as far as the library's words say."""
    if isinstance(refusal, StrictRefusal):
        finding = refusal.findings[0]
        key = finding.detail if finding.finding == "wrong-type" else _OF_FINDING.get(finding.finding)
        return finding.id, (key or "").split()
    words = refusal.words if isinstance(refusal, InvalidLock) else ()
    if words[:1] == ("entry",):
        return int(words[1]), list(words[2:])
    if words[:1] == ("head",):
        return 0, list(words[1:])
    return 0, [_OF_LOCK[word] for word in words[:1] if word in _OF_LOCK]


def _context(refusal: Exception) -> Optional[str]:
    """Where the library's refusal is, as `packaging` writes it."""
    number, words = _place(refusal)
    path = ["packages[%d]" % (number - 1)] if number else []
    for word in words:
        if word.isdigit() and path:
            path[-1] += "[%d]" % (int(word) - 1)
        else:
            path.append(word)
    return ".".join(path) or None


# ---- what the session says of a lock ----


def _names(argument: str, names: Optional[Collection[str]]) -> List[str]:
    """The names in normal form."""
    if isinstance(names, str):
        raise TypeError("%s: expected a list, not a str" % argument)
    return [canonicalize_name(name, validate=True) for name in names or ()]


def _environment_text(environment: Optional[Mapping[str, Any]], tags: Optional[Sequence[Any]]) -> bytes:
    """The environment file of what is selected for."""
    if isinstance(environment, Environment):
        return variables_text(environment.variables, environment.tags if tags is None else [str(tag) for tag in tags])
    texts = [str(tag) for tag in tags] if tags else running_environment().tags
    variables = running_variables()
    if environment:
        # the Python sets of a lock are judged by it, so that it can't be another Python's than the markers'
        variables["python_full_version"] = environment["python_full_version"]
        variables.update((name, environment[name]) for name in VARIABLES if name in environment)
    return variables_text(variables, texts)


# the keys of each kind of source that the session reads, and the attributes that hold them
_READ: Dict[str, Dict[str, str]] = {
    "vcs": {"type": "type", "url": "url", "path": "path", "commit-id": "commit_id"},
    "directory": {"path": "path"},
    "archive": {"url": "url", "path": "path"},
    "sdist": {"name": "name", "url": "url", "path": "path"},
}
_READ_WHEEL = _READ["sdist"]


def _asked_source(source: _Source, keys: Dict[str, str]) -> Dict[str, Any]:
    """What the session has to know of a source."""
    return {key: getattr(source, name) or "" for key, name in keys.items()}


def _asked_entry(package: Package) -> Dict[str, Any]:
    """What the session has to know of an entry."""
    asked: Dict[str, Any] = {"name": package.name}
    if package.marker is not None:
        asked["marker"] = package.marker.text
    if package.requires_python is not None:
        asked["requires-python"] = package.requires_python.text
    for key, read in _READ.items():
        source = getattr(package, key)
        if source is not None:
            asked[key] = _asked_source(source, read)
    if package.wheels:
        asked["wheels"] = [_asked_source(wheel, _READ_WHEEL) for wheel in package.wheels]
    return asked


def _asked_lock(lock: Pylock, extras: List[str], groups: List[str]) -> bytes:
    """What the session has to know of a lock. It declares what is asked for, also where the lock doesn't."""
    asked: Dict[str, Any] = {
        "lock-version": "1.0",
        "created-by": "",
        "extras": extras,
        "default-groups": groups,
        "environments": [marker.text for marker in lock.environments or ()],
    }
    if lock.requires_python is not None:
        asked["requires-python"] = lock.requires_python.text
    asked["packages"] = [_asked_entry(package) for package in lock.packages]
    return _toml.document(asked)


_FAULTS = {
    "python-unknown": "python_full_version is no version, so it can't be judged by the set %s",
    "python-not-met": "python_full_version isn't in the set %s",
    "no-environment": "it is none of the environments that the lock is for%.0s",
    "ambiguous": "another entry of this name is selected: packages[%s]",
    "sources": "there are sources of several kinds: %s",
    "no-file": "no wheel has one of the tags, and there is no sdist (%s)",
}


def _select_error(fault: PlanFault) -> PylockSelectError:
    where = "the lock" if fault.id == 0 else "packages[%d] (%r)" % (fault.id - 1, fault.name)
    detail = fault.detail or ""
    if fault.code == "ambiguous":
        detail = str(int(detail) - 1)
    why = _FAULTS.get(fault.code, "its marker has no value: %s") % detail
    error = PylockSelectError("%s can't be selected: %s" % (where, why))
    error.word, error.place = fault.code, fault.id
    return error


def _selected(lock: Pylock, environment: bytes, extras: List[str], groups: List[str]) -> Iterator[Tuple[int, str, int]]:
    """The place of each selected entry, the kind of its source, and of a wheel its place."""
    with _lock.Session(_asked_lock(lock, extras, groups), environment) as session:
        session._make([("add_extra", extra) for extra in extras])
        try:
            records = _lock.records(session._kept)
        except PlanFault as fault:
            raise _select_error(fault) from fault
    for number, kind, wheel, *_ in records:
        yield int(number) - 1, kind, int(wheel or 1) - 1
