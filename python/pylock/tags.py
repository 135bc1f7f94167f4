"""Tags of wheels (PEP 425), with the names and meanings of `packaging.tags`.

    >>> from pylock.tags import parse_tag
    >>> sorted(str(tag) for tag in parse_tag("py2.py3-none-any"))
    ['py2-none-any', 'py3-none-any']
    >>> parse_tag("py3-none-any") == {Tag("py3", "none", "any")}
    True

Each part of a text may be several pieces with `.` between. With `validate_order` they have to be in order (PEP 425):

    >>> parse_tag("py3.py2-none-any", validate_order=True)
    Traceback (most recent call last):
        ...
    pylock.tags.UnsortedTagsError: Unsorted tag: 'py3.py2' is to be 'py2.py3'

The tags of the running Python, the best first, are `sys_tags()`; those of another one are asked by its parts:

    >>> [str(tag) for tag in cpython_tags((3, 3), ["cp33m"], ["win32"])]
    ['cp33-cp33m-win32', 'cp33-abi3-win32', 'cp33-none-win32', 'cp32-abi3-win32']
"""

from __future__ import annotations

import sys
from operator import itemgetter
from typing import TYPE_CHECKING, AbstractSet, Any, Callable, Dict, FrozenSet, Iterable, Iterator, List, Optional, Sequence, Tuple, TypeVar

from . import _native, _private
from ._errors import InvalidTag, UnsortedTagsError
from ._platforms import (
    AppleVersion,
    android_platforms,
    ios_platforms,
    listed,
    mac_platforms,
    normal_text,
    platform_tags,
)
from ._tag import Tag

__all__ = [
    "INTERPRETER_SHORT_NAMES",
    "AppleVersion",
    "InvalidTag",
    "PythonVersion",
    "Tag",
    "UnsortedTagsError",
    "android_platforms",
    "compatible_tags",
    "cpython_tags",
    "create_compatible_tags_selector",
    "generic_tags",
    "interpreter_name",
    "interpreter_version",
    "ios_platforms",
    "mac_platforms",
    "parse_tag",
    "platform_tags",
    "sys_tags",
]

PythonVersion = Sequence[int]
"""The release of a Python, as (3, 12)."""

INTERPRETER_SHORT_NAMES: Dict[str, str] = {
    "python": "py",
    "cpython": "cp",
    "pypy": "pp",
    "ironpython": "ip",
    "jython": "jy",
}
"""What tags call the implementations (PEP 425). Others have their own name."""

_Thing = TypeVar("_Thing")

_FIRST, _SECOND = itemgetter(0), itemgetter(1)


parse_tag = _native.parse_tag


# ---- lists ----


def create_compatible_tags_selector(
    tags: Iterable[Tag],
) -> Callable[[Iterable[Tuple[_Thing, AbstractSet[Tag]]]], Iterator[_Thing]]:
    """A function that puts things with tags in the order of `tags`, and leaves out those that have none of these.

    >>> choose = create_compatible_tags_selector(cpython_tags((3, 12), ["cp312"], ["win32"]))
    >>> wheels = [("a-1-cp38-abi3-win32.whl", parse_tag("cp38-abi3-win32")), ("b", parse_tag("cp312-cp312-win32")),
    ...           ("c", parse_tag("py3-none-any"))]
    >>> list(choose(wheels))
    ['b', 'a-1-cp38-abi3-win32.whl']
    """
    # of equal tags the first one counts
    ordered = list(tags)
    places = dict(zip(reversed(ordered), range(len(ordered) - 1, -1, -1)))
    place_of = places.get

    def choose(tagged_things: Iterable[Tuple[_Thing, AbstractSet[Tag]]]) -> Iterator[_Thing]:
        found: List[Tuple[int, _Thing]] = []
        for thing, its_tags in tagged_things:
            fitting = [place for place in map(place_of, its_tags) if place is not None]
            if fitting:
                found.append((min(fitting), thing))
        found.sort(key=_FIRST)
        return map(_SECOND, found)

    return choose


# ---- the running Python ----


_sysconfig: Any = None


def _config(name: str, warn: bool) -> Any:
    """A variable of the Python's configuration; `warn` tells the log where it isn't set."""
    global _sysconfig
    if _sysconfig is None:
        # imported here, as whatever the running Python is asked by: who reads and compares tags waits for none of it
        import sysconfig as _sysconfig
    value = _sysconfig.get_config_var(name)
    if value is None and warn:
        import logging

        logging.getLogger(__name__).debug("the configuration of this Python doesn't have %s: tags of its ABI may be wrong", name)
    return value


def _joined(version: PythonVersion) -> str:
    return "".join(map(str, version))


def interpreter_name() -> str:
    """What tags call the running implementation.

    >>> len(interpreter_name()) >= 2
    True
    """
    name = sys.implementation.name
    return INTERPRETER_SHORT_NAMES.get(name) or name


def interpreter_version(*, warn: bool = False) -> str:
    """The release of the running Python, as `312`."""
    told = _config("py_version_nodot", warn)
    return str(told) if told else _joined(sys.version_info[:2])


def _is_debug_build(warn: bool) -> bool:
    told = _config("Py_DEBUG", warn)
    if told is not None:
        return bool(told)
    from importlib.machinery import EXTENSION_SUFFIXES

    # on Windows the configuration doesn't say
    return hasattr(sys, "gettotalrefcount") or "_d.pyd" in EXTENSION_SUFFIXES


def _old_letters(version: Tuple[int, ...], warn: bool) -> str:
    """What an ABI before 3.8 has behind its number: of the allocator, and before 3.3 of the size of a character."""
    letters = ""
    if version < (3, 8):
        allocator = _config("WITH_PYMALLOC", warn)
        letters += "m" if allocator or allocator is None else ""
    if version < (3, 3):
        size = _config("Py_UNICODE_SIZE", warn)
        letters += "u" if size == 4 or (size is None and sys.maxunicode == 0x10FFFF) else ""
    return letters


def _cpython_abis(python_version: PythonVersion, warn: bool) -> List[str]:
    """The ABIs of a CPython that is built as the running one is."""
    version = tuple(python_version)
    own = "cp" + _joined(version[:2])
    debug = "d" if _is_debug_build(warn) else ""
    if version < (3, 8):
        return [own + debug + _old_letters(version, warn)]
    if version >= (3, 13) and _config("Py_GIL_DISABLED", warn):
        own += "t"
    # a debug build loads what was built for others, since 3.8
    return [own + debug, own] if debug else [own]


def _abis_of_suffix() -> List[str]:
    """The ABI that the suffix of the running Python's extension modules names, as `.pypy310-pp73-x86_64-linux-gnu.so`."""
    suffix = _config("EXT_SUFFIX", True)
    if not isinstance(suffix, str) or suffix[:1] != ".":
        raise SystemError("this Python's configuration has no right EXT_SUFFIX: %r" % (suffix,))
    pieces = suffix.split(".")
    if len(pieces) < 3:
        # CPython on Windows before 3.8
        return _cpython_abis(sys.version_info[:2], False)
    words = pieces[1].split("-")
    if words[0].startswith("cpython") and len(words) > 1:
        abi = "cp" + words[1]
    elif words[0].startswith("cp"):
        abi = words[0]
    elif words[0].startswith("pypy"):
        abi = "-".join(words[:2])
    elif words[0].startswith("graalpy"):
        abi = "-".join(words[:3])
    else:
        abi = pieces[1]
    return [normal_text(abi)] if abi else []


# ---- the lists ----

# the first release with a stable ABI (PEP 384)
_FIRST_STABLE = (3, 2)


def _is_free_threaded(abi: str) -> bool:
    """Whether an ABI is one of a CPython without the interpreter's lock: behind its number stands a `t`."""
    number, t, _ = abi[2:].partition("t")
    return abi[:2] == "cp" and t == "t" and number[:1].isdecimal() and number[:1].isascii()


def _own_abis(version: PythonVersion, abis: Optional[Iterable[str]], warn: bool) -> List[str]:
    """The ABIs that are given or the running Python's, without those that every list has."""
    if abis is None:
        return _cpython_abis(version, warn) if len(version) > 1 else []
    own = list(abis)
    for common in ("abi3", "none"):
        if common in own:
            own.remove(common)
    return own


def cpython_tags(
    python_version: Optional[PythonVersion] = None,
    abis: Optional[Iterable[str]] = None,
    platforms: Optional[Iterable[str]] = None,
    *,
    warn: bool = False,
) -> Iterator[Tag]:
    """The tags of a CPython: of its own ABIs, of the stable one (PEP 384; the free-threaded build has its own, PEP 803),
    of none, and of the stable ones of earlier releases. What isn't given is the running Python's.

    >>> [str(tag) for tag in cpython_tags((3, 2), ["cp32m"], ["win32"])]
    ['cp32-cp32m-win32', 'cp32-abi3-win32', 'cp32-none-win32']
    """
    version = python_version or sys.version_info[:2]
    interpreter = "cp" + _joined(version[:2])
    own = _own_abis(version, abis, warn)
    places = listed(platforms)
    for abi in own:
        for place in places:
            yield Tag(interpreter, abi, place)
    is_stable = len(version) > 1 and tuple(version) >= _FIRST_STABLE
    stable = "abi3t" if own and _is_free_threaded(own[0]) else "abi3"
    for abi in (stable, "none") if is_stable else ("none",):
        for place in places:
            yield Tag(interpreter, abi, place)
    if is_stable:
        for minor in range(version[1] - 1, _FIRST_STABLE[1] - 1, -1):
            earlier = "cp%d%d" % (version[0], minor)
            for place in places:
                yield Tag(earlier, stable, place)


def generic_tags(
    interpreter: Optional[str] = None,
    abis: Optional[Iterable[str]] = None,
    platforms: Optional[Iterable[str]] = None,
    *,
    warn: bool = False,
) -> Iterator[Tag]:
    """The tags of an implementation of which nothing is known but its ABIs. What isn't given is the running Python's.

    >>> [str(tag) for tag in generic_tags("pp310", ["pypy310_pp73"], ["win32"])]
    ['pp310-pypy310_pp73-win32', 'pp310-none-win32']
    """
    if not interpreter:
        interpreter = interpreter_name() + interpreter_version(warn=warn)
    own = _abis_of_suffix() if abis is None else list(abis)
    places = listed(platforms)
    for abi in own if "none" in own else [*own, "none"]:
        for place in places:
            yield Tag(interpreter, abi, place)


def _py_versions(version: PythonVersion) -> Iterator[str]:
    """The names of the language: the release, the major release alone, and what came before."""
    major = "py%d" % version[0]
    if len(version) > 1:
        yield "py" + _joined(version[:2])
    yield major
    if len(version) > 1:
        yield from _native.numbered(major, version[1] - 1, 0, "")


def compatible_tags(
    python_version: Optional[PythonVersion] = None,
    interpreter: Optional[str] = None,
    platforms: Optional[Iterable[str]] = None,
) -> Iterator[Tag]:
    """The tags of what needs no ABI: for the platforms, then for any. What isn't given is the running Python's.

    >>> [str(tag) for tag in compatible_tags((3, 0), "cp30", ["win32"])]
    ['py30-none-win32', 'py3-none-win32', 'cp30-none-any', 'py30-none-any', 'py3-none-any']
    """
    version = python_version or sys.version_info[:2]
    places = listed(platforms)
    for name in _py_versions(version):
        for place in places:
            yield Tag(name, "none", place)
    if interpreter:
        yield Tag(interpreter, "none", "any")
    for name in _py_versions(version):
        yield Tag(name, "none", "any")


def sys_tags(*, warn: bool = False) -> Iterator[Tag]:
    """The tags of the running Python, the best first.

    >>> Tag("py3", "none", "any") in set(sys_tags())
    True
    """
    name = interpreter_name()
    yield from cpython_tags(warn=warn) if name == "cp" else generic_tags(warn=warn)
    interpreter = None
    if name == "cp":
        interpreter = "cp" + interpreter_version(warn=warn)
    elif name == "pp":
        # a wheel for any PyPy 3
        interpreter = "pp3"
    yield from compatible_tags(interpreter=interpreter)


if not TYPE_CHECKING:
    __getattr__ = _private.names_of("tags")
