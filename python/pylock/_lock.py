"""Locks and sessions (PEP 751): what is to be installed from a `pylock.toml`."""

from __future__ import annotations

import json
import threading
from itertools import groupby
from typing import (
    TYPE_CHECKING, Any, Dict, Iterable, List, Mapping, NamedTuple, NoReturn, Optional, Sequence, Tuple, TypedDict, Union, cast,
)

from . import _library as _native
from . import _program
from ._environment import VARIABLES, Environment, environment_bytes, read_source
from ._errors import InvalidEdit, PlanFault, StrictRefusal, WrongThread
from .markers import Marker
from .specifiers import SpecifierSet
from .utils import canonicalize_name

if TYPE_CHECKING:
    from typing_extensions import Unpack

__all__ = ["Difference", "Explanation", "Finding", "Lock", "Options", "Package", "Pick", "Session", "Step", "Verdict"]

AnyEnvironment = Union[Environment, Mapping[str, Any], bytes]
_NOTHING = b'{"environment": {}, "tags": []}'


class Pick(NamedTuple):
    """A source that a lock names: what an entry is installed from, or a `File` of `Lock.files`.

    `kind` is `vcs`, `directory`, `editable`, `archive`, `wheel` or `sdist`; `place` is the path, else the URL;
    `revision` of a VCS its type and its commit. What the lock doesn't have is None, and `hashes` is then empty.
    """

    id: int
    name: str
    version: Optional[str]
    kind: str
    file: Optional[str]
    place: str
    url: Optional[str]
    path: Optional[str]
    hashes: Dict[str, str]
    revision: Optional[Tuple[str, str]]
    subdirectory: Optional[str]


class File(Pick):
    """A source of `Lock.files`: a `Pick`, with what the lock says of its file besides.

    `size` is in bytes and `upload_time` a text (RFC 3339), where the lock has them; they are no part of the tuple.
    """

    size: Optional[int] = None
    upload_time: Optional[str] = None


class Head(NamedTuple):
    """The head of a lock: names in normal form, a specifier set and markers as they are written."""

    extras: Tuple[str, ...]
    dependency_groups: Tuple[str, ...]
    default_groups: Tuple[str, ...]
    requires_python: Optional[str]
    environments: Tuple[str, ...]


class Package(NamedTuple):
    """An entry of a lock: its number from 1, its name in normal form, its version and all its sources."""

    id: int
    name: str
    version: Optional[str]
    sources: Tuple[Pick, ...]


class Verdict(NamedTuple):
    """What becomes of an entry, or of the head with the number 0 (docs/FORMATS.md, `explain`)."""

    id: int
    name: Optional[str]
    version: Optional[str]
    verdict: str
    detail: Optional[str]


class Explanation(NamedTuple):
    """What becomes of the head and of each entry."""

    head: Verdict
    entries: List[Verdict]


class _Finding(NamedTuple):
    id: int
    name: Optional[str]
    finding: str
    detail: Optional[str]


class Finding(_Finding):
    """What a careful reader of the lock would want to be told (docs/FORMATS.md, `audit`).

    `line` and `column` say where it stands in the text of the lock, from 1; they are of `Lock.audit` alone, and no part of
    the tuple.
    """

    line: Optional[int] = None
    column: Optional[int] = None


class Difference(NamedTuple):
    """What a project asks for, and a lock or its plan hasn't (docs/FORMATS.md, `check`).

    `difference` is `missing`, `version`, `python`, `extra`, `group` or `unknown`; `where` a key of the `pyproject.toml`.
    """

    difference: str
    where: Optional[str]
    name: Optional[str]
    detail: Optional[str]


class Step(NamedTuple):
    """What is to be done with a project in an environment (docs/FORMATS.md, `status`).

    `step` is `install`, `replace`, `keep` or `remove`; `version` the one that is installed, that stays, or that goes;
    `from_version` the one that `replace` takes away; `id` the number of the entry that is installed.
    """

    step: str
    name: str
    version: Optional[str]
    from_version: Optional[str]
    id: Optional[int]


class Options(TypedDict, total=False):
    """The keyword arguments of `Lock.plan`, `explain`, `check` and `status`: what is asked for beside the lock's defaults.

    `strict` takes the lock only where `audit` finds nothing that installers read differently, and raises StrictRefusal
    otherwise. The others are extras; dependency groups, and these without some, all of them, or without the lock's
    default groups; for packages of a name, or of `:all:`, the policy `any`, `wheel` (no sdist) or `source` (no wheel),
    of which the last counts; and texts for variables of markers.
    """

    extras: Iterable[str]
    all_extras: bool
    groups: Iterable[str]
    without_groups: Iterable[str]
    all_groups: bool
    default_groups: bool
    policies: Iterable[Tuple[str, str]]
    variables: Mapping[str, str]
    strict: bool


def lock_head(lock: bytes) -> Head:
    """The head of a lock. One that is refused raises InvalidLock."""
    head = json.loads(_native.lock_head(lock))
    return Head(
        tuple(head["extras"]),
        tuple(head["groups"]),
        tuple(head["default_groups"]),
        head.get("requires_python"),
        tuple(head["environments"]),
    )


def _pick(source: Dict[str, Any]) -> Pick:
    revision = source.get("revision")
    return Pick(
        source["id"],
        source["name"],
        source.get("version"),
        source["kind"],
        source.get("file"),
        source["place"],
        source.get("url"),
        source.get("path"),
        source.get("hashes", {}),
        None if revision is None else (revision["type"], revision["commit"]),
        source.get("subdirectory"),
    )


def _file(source: Dict[str, Any]) -> File:
    file = File(*_pick(source))
    file.size, file.upload_time = source.get("size"), source.get("upload-time")
    return file


def _pick_of(
    id: str, kind: str, wheel: Optional[str], name: str, version: Optional[str], file: Optional[str], url: Optional[str],
    path: Optional[str], revision: Optional[str], commit: Optional[str], subdirectory: Optional[str], *hashes: str,
) -> Pick:
    """The pick of a record. One of its two places is there."""
    place = (url or "") if path is None else path
    of_vcs = None if revision is None or commit is None else (revision, commit)
    its_hashes = dict(zip(hashes[::2], hashes[1::2]))
    return Pick(int(id), name, version, kind, file, place, url, path, its_hashes, of_vcs, subdirectory)


def records(kept: _native.KeptSession) -> List[Tuple[Any, ...]]:
    """A record for each pick of the plan; a fault is raised."""
    found, is_plan = kept.picks()
    if not is_plan:
        id, name, code, detail = found[0]
        raise PlanFault(int(id), name, code, detail)
    return found


def _finding(found: Dict[str, Any]) -> Finding:
    finding = Finding(found["id"], found.get("name"), found["finding"], found.get("detail"))
    finding.line, finding.column = found.get("line"), found.get("column")
    return finding


def _findings(document: Dict[str, Any]) -> List[Finding]:
    return [_finding(found) for found in document["findings"]]


def _started_strictly(lock: bytes, environment: bytes) -> _native.KeptSession:
    """The session on a lock that is taken strictly; the findings for which it isn't are raised."""
    kept = _native.session_start_strict(lock, environment, True)
    if isinstance(kept, str):
        raise StrictRefusal(_findings(json.loads(kept)))
    return kept


def _explanation(text: str) -> Explanation:
    document = json.loads(text)
    head = document["head"]
    return Explanation(
        Verdict(0, None, None, head["verdict"], head.get("detail")),
        [
            Verdict(entry["id"], entry["name"], entry.get("version"), entry["verdict"], entry.get("detail"))
            for entry in document["entries"]
        ],
    )


class _ThisThread(threading.local):
    """An object of each thread: the number of a thread that ended may be another one's."""

    def __init__(self) -> None:
        self.token = object()


_this_thread = _ThisThread()


class _OfThread:
    """What stays on the thread that made it, and is neither copied nor pickled."""

    __slots__ = ("_thread",)

    def _check_thread(self) -> None:
        if _this_thread.token is not self._thread:
            raise WrongThread("a %s is used on the thread that made it alone" % type(self).__name__)

    def _keep_thread(self) -> None:
        self._thread = _this_thread.token

    def __reduce_ex__(self, argument: Any = None) -> NoReturn:
        raise TypeError("a %s can't be copied or pickled" % type(self).__name__)

    __copy__ = __deepcopy__ = __reduce_ex__  # type: ignore[assignment]


class Session(_OfThread):
    """A lock in an environment, edited and answered again. An edit judges again only what it touches.

    >>> lock = b'''
    ... lock-version = "1.0"
    ... created-by = "me"
    ... [[packages]]
    ... name = "a"
    ... marker = "os_name == 'nt'"
    ... directory = { path = "./a" }
    ... '''
    >>> session = Session(lock, Environment({"os_name": "posix"}, []))
    >>> session.answer()
    []
    >>> session.set("os_name", "nt")
    1
    >>> [pick.name for pick in session.answer()], session.judged
    (['a'], (1,))

    The lock and the environment are given as they are for `Lock.plan`; `strict` takes the lock as it does there. Each
    edit gives the number of entries, and the head, that it judged; a refused one raises InvalidEdit and changes nothing.
    A session stays on its thread. It is closed by `close`, or as a context manager.
    """

    __slots__ = ("_kept", "__weakref__")

    def __init__(self, lock: Union[Lock, bytes], environment: AnyEnvironment, *, strict: bool = False) -> None:
        self._keep_thread()
        content = lock._content if isinstance(lock, Lock) else given_bytes(lock)
        start = _started_strictly if strict else _native.session_start
        self._kept = start(content, environment_bytes(environment))

    def _edit(self, edit: str, *texts: str, number: Optional[int] = None) -> int:
        self._check_thread()
        return _native.session_edit(self._kept, edit, *texts, number=number)

    def _make(self, edits: Iterable[Tuple[str, ...]]) -> None:
        """Makes edits of texts, one after another; those that follow each other and are one for several names at once."""
        self._check_thread()
        for (edit, *more), run in groupby(edits, lambda texts: (texts[0], *texts[2:])):
            several = list(run)
            if not _native.session_edit_names(self._kept, edit, [texts[1] for texts in several], *more):
                for texts in several:
                    self._edit(*texts)

    def set(self, variable: str, value: str) -> int:
        """Gives a variable of markers a text."""
        return self._edit("set", variable, value)

    def unset(self, variable: str) -> int:
        """Leaves a variable of markers without a text."""
        return self._edit("unset", variable)

    def add_extra(self, name: str) -> int:
        """Asks for an extra of the lock."""
        return self._edit("add_extra", name)

    def drop_extra(self, name: str) -> int:
        """Asks for an extra no more."""
        return self._edit("drop_extra", name)

    def add_group(self, name: str) -> int:
        """Asks for a dependency group of the lock."""
        return self._edit("add_group", name)

    def drop_group(self, name: str) -> int:
        """Asks for a dependency group no more."""
        return self._edit("drop_group", name)

    def tags(self, tags: Iterable[str]) -> int:
        """Puts these tags, most wanted first, in place of those that were there."""
        if isinstance(tags, str):
            raise TypeError("expected a list of tags, not a str")
        texts = [str(tag) for tag in tags]
        for text in texts:
            if not text or "\n" in text:
                raise InvalidEdit("Refused edit: %r (one of the tags is none)" % text, word="tag")
        return self._edit("tags", "\n".join(texts))

    def add(self, entry: str) -> int:
        """Adds an entry behind all others, as `{name = "a", version = "1"}`: one table of TOML in a line."""
        return self._edit("add", entry)

    def put(self, number: int, entry: str) -> int:
        """Puts an entry in place of that of a number."""
        return self._edit("put", entry, number=_number(number))

    def delete(self, number: int) -> int:
        """Takes the entry of a number out. The number is never used again."""
        return self._edit("del", number=_number(number))

    def policy(self, name: str, policy: str) -> int:
        """Says what packages of a name may be installed from: `any`, `wheel` (no sdist) or `source` (no wheel)."""
        return self._edit("policy", name, policy)

    def line(self, line: str) -> int:
        """Makes the edit of a line, as `pylock select` reads it, without its LF; `show` edits nothing."""
        return self._edit("line", line)

    def answer(self) -> List[Pick]:
        """What is to be installed; where there is a fault, PlanFault is raised."""
        self._check_thread()
        return [_pick_of(*record) for record in records(self._kept)]

    def explain(self) -> Explanation:
        """What becomes of the head and of each entry."""
        self._check_thread()
        return _explanation(_native.session_explain(self._kept, True)[0])

    @property
    def judged(self) -> Tuple[int, ...]:
        """The numbers that the last accepted edit judged, or the start where there was none; 0 is the head.

        An entry among them may have taken what was found for another of the same marker and Python set.
        """
        self._check_thread()
        return tuple(_native.session_judged(self._kept))

    def close(self) -> None:
        """Gives the memory of the session back. Whatever else is asked of it raises ValueError then."""
        self._check_thread()
        self._kept.close()

    def __enter__(self) -> Session:
        self._check_thread()
        return self

    def __exit__(self, *error: Any) -> None:
        self.close()


# ---- options as words of the program ----

_POLICIES = {"wheel": "--only-binary=", "source": "--no-binary="}
_LISTS = ("extras", "groups", "without_groups", "policies")


def _checked(options: Options) -> Options:
    """The options with known names, and with lists of what can be read once."""
    checked: Dict[str, Any] = {}
    for option, value in options.items():
        if option not in Options.__annotations__:
            raise TypeError("there is no option %r" % option)
        if isinstance(value, str):
            raise TypeError("%s: expected a list, not a str" % option)
        checked[option] = [*cast(Any, value)] if option in _LISTS else value
    return cast(Options, checked)


def _have_words(options: Options) -> bool:
    """Whether the program has words for all of the options. A policy that is taken back has none, nor has a wrong one, or a
    variable with a `=` in it."""
    policies = [policy for _, policy in options.get("policies", ())]
    return all([policy in _POLICIES for policy in policies]) and not any(["=" in name for name in options.get("variables") or ()])


def _option_words(options: Options, policies: Iterable[Tuple[str, str]]) -> List[str]:
    """The words of the options, with these policies, in the order of the command line's table."""
    words: List[str] = []
    if options.get("all_extras"):
        words.append("--all-extras")
    words += ["--extra=" + name for name in options.get("extras", ())]
    if not options.get("default_groups", True):
        words.append("--no-default-groups")
    if options.get("all_groups"):
        words.append("--all-groups")
    words += ["--group=" + name for name in options.get("groups", ())]
    words += ["--no-group=" + name for name in options.get("without_groups", ())]
    words += [_POLICIES[policy] + name for name, policy in policies]
    words += ["--set=" + name + "=" + value for name, value in (options.get("variables") or {}).items()]
    if options.get("strict"):
        words.append("--strict")
    return words


def _several(option: str, values: Iterable[Any]) -> List[Any]:
    if isinstance(values, (str, bytes, bytearray, memoryview)):
        raise TypeError("%s: expected a list, not a %s" % (option, type(values).__name__))
    return list(values)


def _installed_bytes(installed: Any) -> bytes:
    """What `pip list --format json` or `pip inspect` printed: bytes, a text, or what JSON made of it."""
    if isinstance(installed, (bytes, bytearray, memoryview)):
        return bytes(installed)
    if isinstance(installed, str):
        return installed.encode("utf-8", "surrogatepass")
    if isinstance(installed, (list, tuple, dict)):
        return json.dumps(installed).encode()
    raise TypeError("expected bytes, a str, a list or a dict, not %s" % type(installed).__name__)


# ---- locks ----


def _number(number: int) -> int:
    if not isinstance(number, int) or isinstance(number, bool):
        raise TypeError("expected the number of an entry, not %s" % type(number).__name__)
    return number


def given_bytes(content: Any) -> bytes:
    """The bytes that are given; a path isn't read here."""
    if isinstance(content, (bytes, bytearray, memoryview)):
        return bytes(content)
    raise TypeError("expected a Lock or bytes, not %s" % type(content).__name__)


def _given(blank: Optional[Session], environment: AnyEnvironment) -> Optional[Session]:
    """The session without variables and tags, with those of a kept environment; None where it can't be given them."""
    if blank is None or not isinstance(environment, Environment):
        return None
    try:
        for name, value in environment.variables.items():
            if name in VARIABLES:
                blank.set(name, value)
        blank.tags(environment.tags)
    except InvalidEdit:
        return None
    return blank


class Lock(_OfThread):
    """A lock: a valid `pylock.toml`.

    >>> lock = Lock.read(b'''
    ... lock-version = "1.0"
    ... created-by = "me"
    ... extras = ["Tests"]
    ... [[packages]]
    ... name = "a"
    ... version = "1.0"
    ... sdist = { url = "https://example.org/a-1.0.tar.gz", hashes = { sha256 = "00" } }
    ... [[packages]]
    ... name = "b"
    ... marker = "'tests' in extras"
    ... directory = { path = "./b" }
    ... ''')
    >>> lock.extras, [package.name for package in lock.packages]
    (('tests',), ['a', 'b'])
    >>> [(pick.name, pick.kind) for pick in lock.plan(Environment({}, []), extras=["tests"])]
    [('a', 'sdist'), ('b', 'directory')]
    >>> lock.plan(Environment({}, []), policies=[("a", "wheel")])
    Traceback (most recent call last):
        ...
    pylock.PlanFault: entry 1 (`a`): no-file: wheels 0 sdist wheel

    A lock stays on the thread that made it, and can't be copied or pickled.
    """

    __slots__ = ("_content", "_session", "_taken_strictly", "_head", "_created_by", "_packages", "__weakref__")

    def __init__(self, content: bytes) -> None:
        self._keep_thread()
        self._content = given_bytes(content)
        # read when it is asked for
        self._head: Optional[Head] = None
        self._created_by: Optional[str] = None
        # the session on the environment that was asked for last, as it was started: at first without variables and tags,
        # so that the lock is judged here
        self._session: Optional[Tuple[bytes, Session]] = (_NOTHING, Session(self._content, _NOTHING))
        # whether one was started strictly, so that every other one can be
        self._taken_strictly = False
        self._packages: Optional[Tuple[Package, ...]] = None

    @classmethod
    def read(cls, source: Any) -> Lock:
        """The lock of a file, by its path or its bytes. One that is refused raises InvalidLock."""
        return cls(read_source(source))

    # ---- what the lock says ----

    @property
    def packages(self) -> Tuple[Package, ...]:
        """The entries, in order."""
        self._check_thread()
        packages = self._packages
        if packages is None:
            sources: Dict[int, List[Pick]] = {}
            for pick in self.files():
                sources.setdefault(pick.id, []).append(pick)
            packages = self._packages = tuple(
                Package(entry.id, entry.name or "", entry.version, tuple(sources.get(entry.id, ())))
                for entry in self._started(_NOTHING).explain().entries
            )
        return packages

    def _checked_head(self) -> Head:
        self._check_thread()
        if self._head is None:
            self._head = lock_head(self._content)
        return self._head

    @property
    def created_by(self) -> str:
        """What made the lock, as it says itself, but with `***` in place of secrets in a URL (docs/FORMATS.md, `show`)."""
        self._check_thread()
        made_by = self._created_by
        if made_by is None:
            made_by = self._created_by = str(self._answered(["show", "-"], {})["created-by"])
        return made_by

    @property
    def extras(self) -> Tuple[str, ...]:
        """The extras that can be asked for, in normal form."""
        return self._checked_head().extras

    @property
    def dependency_groups(self) -> Tuple[str, ...]:
        """The dependency groups that can be asked for, in normal form."""
        return self._checked_head().dependency_groups

    @property
    def default_groups(self) -> Tuple[str, ...]:
        """The groups that are asked for where nothing is said, in normal form."""
        return self._checked_head().default_groups

    @property
    def requires_python(self) -> Optional[SpecifierSet]:
        """The Pythons that the lock is for, or None."""
        text = self._checked_head().requires_python
        return None if text is None else SpecifierSet(text)

    @property
    def environments(self) -> Tuple[Marker, ...]:
        """The environments that the lock is for; empty where it is for all."""
        return tuple(Marker(text) for text in self._checked_head().environments)

    # ---- what becomes of it ----

    def _started(self, environment: AnyEnvironment, strict: bool = False) -> Session:
        """A session on the environment with nothing edited: the one that is kept, or a new one."""
        text = environment_bytes(environment)
        kept = self._session
        strict = strict and not self._taken_strictly
        if strict or kept is None or kept[0] != text:
            # the first environment is given to the session that has none, so the lock isn't read anew
            blank = kept[1] if kept is not None and kept[0] == _NOTHING and not strict else None
            self._session = None
            session = _given(blank, environment) or Session(self._content, text, strict=strict)
            self._taken_strictly = self._taken_strictly or strict
            kept = self._session = text, session
        return kept[1]

    def _edits(self, options: Options) -> List[Tuple[str, ...]]:
        """The edits that the options mean, in the order of the command line's table."""
        options = _checked(options)
        edits: List[Tuple[str, ...]] = []
        if options.get("all_extras"):
            edits += [("add_extra", name) for name in self.extras]
        edits += [("add_extra", name) for name in options.get("extras", ())]
        if not options.get("default_groups", True):
            edits += [("drop_group", name) for name in self.default_groups]
        if options.get("all_groups"):
            edits += [("add_group", name) for name in (*self.dependency_groups, *self.default_groups)]
        edits += [("add_group", name) for name in options.get("groups", ())]
        edits += [("drop_group", name) for name in options.get("without_groups", ())]
        for name, policy in options.get("policies", ()):
            # the entries of a name may be many: one edit is of all of them
            names = dict.fromkeys([package.name for package in self.packages]) if name == ":all:" else (name,)
            edits += [("policy", each, policy) for each in names]
        edits += [("set", name, value) for name, value in (options.get("variables") or {}).items()]
        return edits

    def _asked(self, environment: AnyEnvironment, options: Options) -> Session:
        """A session with the options' edits."""
        self._check_thread()
        edits = self._edits(options)
        session = self._started(environment, bool(options.get("strict")))
        if edits:
            # what is edited isn't kept for the next question
            self._session = None
            session._make(edits)
        return session

    def _answered(self, words: Sequence[str], files: Mapping[str, bytes]) -> Dict[str, Any]:
        """The document that the program prints of the lock for these words; a refusal is raised."""
        document = _program.answered(self._content, words, files)
        if "refused" in document:
            raise _program.refusal(document)
        return document

    def _last_policies(self, policies: Iterable[Tuple[str, str]]) -> List[Tuple[str, str]]:
        """The policy that each name has at the end, without those that were taken back."""
        last: Dict[str, str] = {}
        for name, policy in policies:
            names = [package.name for package in self.packages] if name == ":all:" else [canonicalize_name(name)]
            last.update(dict.fromkeys(names, policy))
        return [(name, policy) for name, policy in last.items() if policy != "any"]

    def _answered_for_plan(
        self, words: Sequence[str], files: Mapping[str, bytes], environment: AnyEnvironment, options: Options
    ) -> Dict[str, Any]:
        """The document for a plan with the options; what `plan` raises is raised. `environment` is a file beside the others."""
        options = _checked(options)
        policies = list(options.get("policies", ()))
        if not _have_words(options):
            # a session judges them
            self._asked(environment, options)
            policies = self._last_policies(policies)
        document = _program.answered(
            self._content, [*words, *_option_words(options, policies)], {**files, "environment": environment_bytes(environment)}
        )
        if "refused" in document:
            if not _program.is_of_a_file(document):
                # a session tells of an environment or an option, as it does for `plan`
                self._asked(environment, options)
            raise _program.refusal(document)
        if "findings" in document:
            raise StrictRefusal(_findings(document))
        if "fault" in document:
            fault = document["fault"]
            raise PlanFault(fault["id"], fault.get("name"), fault["code"], fault.get("detail"))
        return document

    def plan(self, environment: AnyEnvironment, **options: Unpack[Options]) -> List[Pick]:
        """What is to be installed in the environment: an Environment, a mapping of its form, or the bytes of its JSON.
        The keyword arguments are those of `Options`.

        Raises PlanFault where the lock can't be installed so, InvalidEdit where an option is refused, and
        InvalidEnvironment where the environment is; with `strict`, before any of these, StrictRefusal.
        """
        return self._asked(environment, options).answer()

    def explain(self, environment: AnyEnvironment, **options: Unpack[Options]) -> Explanation:
        """What becomes of the head and of each entry, with the options of `plan`."""
        return self._asked(environment, options).explain()

    def files(self) -> List[File]:
        """Every source that the lock names, whatever machine it is for."""
        self._check_thread()
        return [_file(source) for source in json.loads(_native.files(self._content, True)[0])["files"]]

    def audit(
        self, *, environments: bool = False, advisories: Iterable[Any] = (), hosts: Iterable[str] = (), ignore: Iterable[str] = ()
    ) -> List[Finding]:
        """What a careful reader of the lock would want to be told, though it is valid.

        With `environments`, every environment that the lock is for is looked at too. `advisories` are files in OSV's format,
        each by its path or its bytes: what they affect is told. With `hosts`, each source that names another host is told.
        `ignore` leaves findings out: `no-hash` of every package, `no-hash:NAME` of one.

        Raises InvalidAdvisories where a file of advisories is refused, and InvalidEdit where a word to ignore is.
        """
        self._check_thread()
        words = ["--environments"] if environments else []
        files = {"advisories-%d" % number: read_source(file) for number, file in enumerate(_several("advisories", advisories), 1)}
        words += ["--advisories=" + name for name in files]
        words += ["--host=" + host for host in _several("hosts", hosts)]
        words += ["--ignore=" + finding for finding in _several("ignore", ignore)]
        return _findings(self._answered(["audit", "-", *words], files))

    def check(self, project: Any, environment: AnyEnvironment, **options: Unpack[Options]) -> List[Difference]:
        """Where the lock isn't that of a project any more, whose `pyproject.toml` is given by its path or its bytes; empty where
        it is. The environment and the keyword arguments are those of `plan`: its plan is looked at.

        >>> lock = Lock.read(b'''
        ... lock-version = "1.0"
        ... created-by = "me"
        ... [[packages]]
        ... name = "a"
        ... version = "1.0"
        ... directory = { path = "./a" }
        ... ''')
        >>> for difference in lock.check(b'project.dependencies = ["a>=2", "b"]', Environment({}, [])):
        ...     print(*difference)
        version project.dependencies 1 a 1.0
        missing project.dependencies 2 b None

        Raises what `plan` raises, and InvalidProject where the project is refused.
        """
        self._check_thread()
        document = self._answered_for_plan(
            ["check", "-", "project", "environment"], {"project": read_source(project)}, environment, options
        )
        return [
            Difference(one["difference"], one.get("where"), one.get("name"), one.get("detail")) for one in document["differences"]
        ]

    def status(
        self, environment: AnyEnvironment, installed: Any, *, exact: bool = False, **options: Unpack[Options]
    ) -> List[Step]:
        """What is to be done so that an environment has the plan: a step for each pick, then one for each other project that is
        installed. `installed` is what `pip list --format json` or `pip inspect` prints there: its bytes, its text, or the list
        or dict that `json.loads` makes of it. Nothing is to be done where each step is `keep`.

        >>> lock = Lock.read(b'''
        ... lock-version = "1.0"
        ... created-by = "me"
        ... [[packages]]
        ... name = "a"
        ... version = "1.0"
        ... directory = { path = "./a" }
        ... ''')
        >>> there = [{"name": "A", "version": "0.9"}, {"name": "b", "version": "2"}, {"name": "pip", "version": "25.0"}]
        >>> for step in lock.status(Environment({}, []), there):
        ...     print(*step)
        replace a 1.0 0.9 1
        remove b 2 None None
        keep pip 25.0 None None

        `pip`, `setuptools` and `wheel` stay, unless it is to be `exact`. The environment and the other keyword arguments are
        those of `plan`. Raises what `plan` raises, and InvalidInstalled where the list is refused.
        """
        self._check_thread()
        words = ["status", "-", "environment", "--installed=installed", *(["--exact"] if exact else [])]
        document = self._answered_for_plan(words, {"installed": _installed_bytes(installed)}, environment, options)
        return [
            Step(one["step"], one["name"], one.get("version"), one.get("from"), one.get("id")) for one in document["steps"]
        ]
