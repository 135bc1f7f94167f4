"""The shape of a lock's table: where a table is wrong that the library refuses, and the table without what isn't judged.

The library decides whether a lock is taken. Nothing here does: `fault_of` says where the first wrong key is, in the
order in which `packaging` reads them, so that an error can name it; where it finds none, the library's words do. But a
lock whose head isn't of texts needs no writing out to be refused: that is `fault_of_head`.
"""

from __future__ import annotations

from collections.abc import Mapping, Sequence
from datetime import datetime, timedelta
from typing import Any, Callable, Dict, List, NamedTuple, Optional, Tuple, Type

from .markers import Marker
from .specifiers import SpecifierSet
from .utils import canonicalize_name, is_normalized_name, parse_sdist_filename, parse_wheel_filename
from .version import Version

__all__ = ["Wrong", "fault_of", "fault_of_head", "file_name", "judged", "name_at"]


class Wrong(Exception):
    """Something is wrong at a path, as `packages[0].wheels[1].hashes`; an empty path is the lock as a whole."""

    def __init__(self, path: str, message: str) -> None:
        super().__init__(path, message)
        self.path = path
        self.message = message


def _below(path: str, key: str) -> str:
    return "%s.%s" % (path, key) if path else key


_MISSING = "it is missing"


def _other_type(expected: str, value: Any) -> str:
    return "expected %s, not %s" % (expected, type(value).__name__)


def _listed(value: Any) -> bool:
    return isinstance(value, Sequence) and not isinstance(value, (str, bytes, bytearray, memoryview))


class _Shape:
    """What a key holds."""

    expected = "str"

    def is_kind(self, value: Any) -> bool:
        """Whether it is of the type that is expected."""
        return isinstance(value, str)

    def inspect(self, value: Any, path: str) -> None:
        """Raises Wrong where something is wrong in a value of this type."""

    def judged(self, value: Any) -> Any:
        """The value without what isn't judged."""
        return value

    def check(self, value: Any, path: str) -> None:
        """Raises Wrong where something is wrong, the type first."""
        self.check_kind(value, path)
        self.inspect(value, path)

    def check_kind(self, value: Any, path: str) -> None:
        """Raises Wrong where the type is another."""
        if not self.is_kind(value):
            raise Wrong(path, _other_type(self.expected, value))


class _Text(_Shape):
    """A text, which a reader may refuse."""

    def __init__(self, reader: Optional[Callable[[str], Any]] = None) -> None:
        self.reader = reader

    def inspect(self, value: Any, path: str) -> None:
        if self.reader is not None:
            try:
                self.reader(value)
            except ValueError as error:
                raise Wrong(path, str(error)) from error


class _Plain(_Shape):
    """A value of one type, with a rule."""

    def __init__(self, kind: Type[Any], rule: Callable[[Any], bool] = lambda value: True, otherwise: str = "") -> None:
        self.expected = kind.__name__
        self.kind = kind
        self.rule = rule
        self.otherwise = otherwise

    def is_kind(self, value: Any) -> bool:
        return isinstance(value, self.kind) and (self.kind is bool or not isinstance(value, bool))

    def inspect(self, value: Any, path: str) -> None:
        if not self.rule(value):
            raise Wrong(path, self.otherwise)


class _Mapping(_Shape):
    """A table of which nothing is judged but that it is one."""

    expected = "Mapping"

    def is_kind(self, value: Any) -> bool:
        return isinstance(value, Mapping)

    def judged(self, value: Any) -> Any:
        return {} if isinstance(value, Mapping) else value


class _Hashes(_Mapping):
    """A table of texts, at least one."""

    def inspect(self, value: Any, path: str) -> None:
        if not value:
            raise Wrong(path, "there is no hash")
        for algorithm, digest in value.items():
            if not isinstance(algorithm, str) or not isinstance(digest, str):
                raise Wrong(path, "the hash %r isn't a text" % (algorithm,))

    def judged(self, value: Any) -> Any:
        return dict(value) if isinstance(value, Mapping) else value


class _List(_Shape):
    """A list of members of one shape."""

    expected = "Sequence"

    def __init__(self, member: _Shape) -> None:
        self.member = member

    def is_kind(self, value: Any) -> bool:
        return _listed(value)

    def inspect(self, value: Any, path: str) -> None:
        places = ["%s[%d]" % (path, place) for place in range(len(value))]
        for member, place in zip(value, places):
            self.member.check_kind(member, place)
        for member, place in zip(value, places):
            self.member.inspect(member, place)

    def judged(self, value: Any) -> Any:
        return [self.member.judged(member) for member in value] if _listed(value) else value


class _Key(NamedTuple):
    name: str
    shape: _Shape
    required: bool = False


class _Table(_Mapping):
    """A table with keys in the order in which they are looked at, and what is asked of the whole."""

    def __init__(self, *keys: _Key, whole: Callable[[Mapping[str, Any], str], None] = lambda table, path: None) -> None:
        self.keys = keys
        self.whole = whole

    def inspect(self, value: Any, path: str) -> None:
        for key in self.keys:
            member = value.get(key.name)
            if member is not None:
                key.shape.check(member, _below(path, key.name))
            elif key.required:
                raise Wrong(_below(path, key.name), _MISSING)
        self.whole(value, path)

    def judged(self, value: Any) -> Any:
        if not isinstance(value, Mapping):
            return value
        return {key.name: key.shape.judged(value[key.name]) for key in self.keys if value.get(key.name) is not None}


# ---- what is asked of one key ----


def _name(text: str) -> None:
    canonicalize_name(text, validate=True)


def _normal_name(text: str) -> None:
    if not is_normalized_name(text):
        raise ValueError("%r is no name in normal form" % text)


def _is_utc(moment: datetime) -> bool:
    return moment.utcoffset() == timedelta(0)


# half a surrogate pair is no text that the library can read
_TEXT = _Text(str.encode)
_SIZE = _Plain(int, lambda size: 0 <= size < 1 << 63, "it is no size")  # type: ignore[no-any-return]
_MOMENT = _Plain(datetime, _is_utc, "it isn't in UTC")
_FLAG = _Plain(bool)
_TOOL = _Mapping()


# ---- what is asked of a whole table ----


def file_name(table: Mapping[str, Any]) -> Optional[str]:
    """The file name of a wheel or an sdist (docs/FORMATS.md, "The lock file"), None where there is none."""
    name = table.get("name")
    return str(name) if name else name_at(table.get("path"), table.get("url"))


def name_at(path: Optional[str], url: Optional[str]) -> Optional[str]:
    """The file name at the end of a path, or else of a URL."""
    last = (path or "").replace("\\", "/").rpartition("/")[2]
    if last:
        return str(last)
    last = (url or "").partition("#")[0].partition("?")[0].rpartition("/")[2]
    return _decoded(last) or None


def _decoded(text: str) -> str:
    """The text with its escapes read, or as it stands where they aren't UTF-8."""
    if "%" not in text:
        return text
    # imported here: most locks have no escapes
    from urllib.parse import unquote_to_bytes

    try:
        return unquote_to_bytes(text).decode()
    except UnicodeDecodeError:
        return text


def _placed(table: Mapping[str, Any], path: str) -> None:
    if table.get("path") is None and table.get("url") is None:
        raise Wrong(path, "there is neither path nor url")


def _check_sources(table: Mapping[str, Any], path: str) -> None:
    """One source stands: files count as one."""
    direct = [key for key in ("vcs", "directory", "archive") if table.get(key) is not None]
    files = table.get("sdist") is not None or bool(table.get("wheels"))
    if not direct and not files:
        raise Wrong(path, "there is no source: none of vcs, directory, archive, sdist and wheels")
    if len(direct) + files > 1:
        raise Wrong(path, "there are sources of several kinds: %s" % ", ".join(direct + ["files"] * files))


def _check_file(
    table: Mapping[str, Any], file: Mapping[str, Any], path: str, read: Callable[[str], Tuple[Any, ...]]
) -> Any:
    """The version of a file, whose name has to be readable, and the entry's."""
    name = file_name(file)
    try:
        found = read(name or "")
    except ValueError as error:
        raise Wrong(path, "no file name of this kind: %r" % name) from error
    if found[0] != table["name"]:
        raise Wrong(path, "the file %r isn't one of the package %r" % (name, table["name"]))
    version = table.get("version")
    if version is not None and found[1] != Version(version):
        raise Wrong(path, "the file %r isn't one of the version %r" % (name, version))
    return found[1]


def _check_files(table: Mapping[str, Any], path: str) -> None:
    """The wheels and the sdist have the entry's name and version; without an entry's version, one among them."""
    versions: List[Any] = []
    for place, wheel in enumerate(table.get("wheels") or ()):
        where = "%s.wheels[%d]" % (path, place)
        versions.append(_check_file(table, wheel, where, parse_wheel_filename))
        if versions[-1] != versions[0]:
            raise Wrong(where, "its version isn't that of the first wheel")
    if table.get("sdist") is not None:
        version = _check_file(table, table["sdist"], path + ".sdist", parse_sdist_filename)
        if versions and version != versions[0]:
            raise Wrong(path + ".sdist", "its version isn't that of the first wheel")


def _check_entry(table: Mapping[str, Any], path: str) -> None:
    _check_sources(table, path)
    _check_files(table, path)
    for place, identity in enumerate(table.get("attestation-identities") or ()):
        where = "%s.attestation-identities[%d]" % (path, place)
        _IDENTITY.inspect(identity, where)


# ---- the tables, their keys in the order in which `packaging` reads them ----

_IDENTITY = _Table(_Key("kind", _TEXT, True))


class _Identities(_List):
    """Identities, whose keys are looked at behind all others of their entry."""

    def inspect(self, value: Any, path: str) -> None:
        for place, member in enumerate(value):
            self.member.check_kind(member, "%s[%d]" % (path, place))


_VCS = _Table(
    _Key("type", _TEXT, True),
    _Key("url", _TEXT),
    _Key("path", _TEXT),
    _Key("requested-revision", _TEXT),
    _Key("commit-id", _TEXT, True),
    _Key("subdirectory", _TEXT),
    whole=_placed,
)
_DIRECTORY = _Table(_Key("path", _TEXT, True), _Key("editable", _FLAG), _Key("subdirectory", _TEXT))
_ARCHIVE = _Table(
    _Key("url", _TEXT),
    _Key("path", _TEXT),
    _Key("size", _SIZE),
    _Key("upload-time", _MOMENT),
    _Key("hashes", _Hashes(), True),
    _Key("subdirectory", _TEXT),
    whole=_placed,
)
_FILE = _Table(
    _Key("name", _TEXT),
    _Key("upload-time", _MOMENT),
    _Key("url", _TEXT),
    _Key("path", _TEXT),
    _Key("size", _SIZE),
    _Key("hashes", _Hashes(), True),
    whole=_placed,
)
_ENTRY = _Table(
    _Key("name", _Text(_normal_name), True),
    _Key("version", _Text(Version)),
    _Key("requires-python", _Text(SpecifierSet)),
    _Key("dependencies", _List(_TOOL)),
    _Key("marker", _Text(Marker)),
    _Key("vcs", _VCS),
    _Key("directory", _DIRECTORY),
    _Key("archive", _ARCHIVE),
    _Key("index", _TEXT),
    _Key("sdist", _FILE),
    _Key("wheels", _List(_FILE)),
    _Key("attestation-identities", _Identities(_IDENTITY)),
    _Key("tool", _TOOL),
    whole=_check_entry,
)
_LOCK = _Table(
    _Key("lock-version", _Text(Version), True),
    _Key("environments", _List(_Text(Marker))),
    _Key("extras", _List(_Text(_normal_name))),
    _Key("dependency-groups", _List(_Text(_name))),
    _Key("default-groups", _List(_Text(_name))),
    _Key("created-by", _TEXT, True),
    _Key("requires-python", _Text(SpecifierSet)),
    _Key("packages", _List(_ENTRY), True),
    _Key("tool", _TOOL),
)


def judged(table: Mapping[str, Any]) -> Dict[str, Any]:
    """The lock's table with the keys alone that the library judges, and without those that are None: `tool` is empty.

    >>> judged({"lock-version": "1.0", "tool": {"x": object()}, "packages": None})
    {'lock-version': '1.0', 'tool': {}}
    """
    return _LOCK.judged(table)  # type: ignore[no-any-return]


def fault_of(table: Mapping[str, Any]) -> Optional[Wrong]:
    """The first thing that is wrong in the lock's table, or None where nothing is found here.

    >>> fault = fault_of({"lock-version": "1.0", "created-by": "me", "packages": [{"name": "A"}]})
    >>> fault.path, fault.message
    ('packages[0].name', "'A' is no name in normal form")
    """
    try:
        _LOCK.inspect(table, "")
    except Wrong as wrong:
        return wrong
    return None


# the keys of the head that are looked at between `lock-version` and `created-by`
_BETWEEN = frozenset(("environments", "extras", "dependency-groups", "default-groups"))


def fault_of_head(table: Mapping[str, Any]) -> Optional[Tuple[str, str]]:
    """The key and the fault of `lock-version` or `created-by` where it is the first one that is wrong, and no text: whatever else
    stands in such a lock, the library refuses it by this key.

    >>> fault_of_head({"lock-version": "1.0", "created-by": 5})
    ('created-by', 'expected str, not int')
    """
    key, value = "lock-version", table.get("lock-version")
    if isinstance(value, str):
        version, key, value = value, "created-by", table.get("created-by")
        if isinstance(value, str) or version != "1.0" or not _BETWEEN.isdisjoint(table):
            return None
    return key, _MISSING if value is None else _other_type("str", value)
