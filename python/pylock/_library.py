"""The library of pylock, as the module calls it: the cold half of `_native`, which is compiled and has the library in it.

Here stand the exceptions of refused calls, and what makes lists and messages of the library's texts. What is asked often
is asked of `_native` directly.
"""

from __future__ import annotations

from . import _native
from ._errors import (
    InvalidEdit,
    InvalidEnvironment,
    InvalidLock,
    InvalidMarker,
    InvalidName,
    InvalidRequirement,
    InvalidSdistFilename,
    InvalidSpecifier,
    InvalidTag,
    InvalidTarget,
    InvalidVersion,
    InvalidWheelFilename,
    MarkerFault,
    Refusal,
    Told,
    UndefinedComparison,
    UndefinedEnvironmentName,
    UnsortedTagsError,
    quoted,
    untold,
)
from ._typing import Any, Dict, List, Optional, Tuple, Type, Union

KeptSession = _native.Session
KeptRun = _native.Run

# ---- refusals ----

# code: the exception, its word, and what a message says in brackets
_REFUSALS: Dict[int, Tuple[Type[Refusal], str, str]] = {
    6: (InvalidEdit, "input", "the input has more than 1,000,000 lines or 268,435,456 bytes"),
    10: (InvalidVersion, "syntax", ""),
    11: (InvalidVersion, "number", "a number is past 128 bits"),
    20: (InvalidSpecifier, "syntax", ""),
    21: (InvalidSpecifier, "number", "a number is past 128 bits"),
    30: (InvalidMarker, "too-deep", "more than 64 parentheses are open"),
    31: (InvalidMarker, "syntax", ""),
    32: (InvalidMarker, "set-misuse", "extras and dependency_groups stand right of in or not in alone"),
    40: (UndefinedEnvironmentName, "marker-unset", "it reads a variable that isn't set"),
    41: (MarkerFault, "marker-extra", "it reads extra, which has no value here"),
    42: (UndefinedComparison, "marker-undefined", "~= and === compare versions, and names have no order"),
    43: (MarkerFault, "marker-number", "a number is past 128 bits"),
    50: (InvalidRequirement, "name", "its name"),
    51: (InvalidRequirement, "extras", "its extras"),
    52: (InvalidRequirement, "specifier", "its specifier set"),
    53: (InvalidRequirement, "url", "its URL"),
    54: (InvalidRequirement, "marker", "its marker"),
    55: (InvalidRequirement, "trailing", "something follows the URL"),
    60: (InvalidWheelFilename, "extension", "extension must be '.whl'"),
    61: (InvalidWheelFilename, "parts", "wrong number of parts"),
    62: (InvalidWheelFilename, "name", "invalid project name"),
    63: (InvalidWheelFilename, "version", "invalid version"),
    64: (InvalidWheelFilename, "build", "invalid build number"),
    65: (InvalidWheelFilename, "tags", "invalid tags"),
    66: (InvalidSdistFilename, "extension", "extension must be '.tar.gz' or '.zip'"),
    67: (InvalidSdistFilename, "parts", "no version"),
    68: (InvalidSdistFilename, "name", "invalid project name"),
    69: (InvalidSdistFilename, "version", "invalid version"),
    73: (InvalidTarget, "python", "python is 3.MINOR or 3.MINOR.MICRO, from 3.8 on"),
    74: (InvalidTarget, "platform", "no such platform"),
    75: (InvalidTag, "tag", "python-abi-platform"),
    80: (InvalidEdit, "long", "the line has more than 1,048,576 bytes"),
    81: (InvalidEdit, "command", "no such command"),
    82: (InvalidEdit, "argument", "what follows the command has a wrong form"),
    83: (InvalidEdit, "variable", "no variable of markers has this name"),
    84: (InvalidEdit, "extra", "the lock has no such extra"),
    85: (InvalidEdit, "group", "the lock has no such group"),
    86: (InvalidEdit, "tag", "one of the tags is none (python-abi-platform)"),
    87: (InvalidEdit, "toml", "the entry is no table of TOML"),
    88: (InvalidEdit, "entry", "the entry has a wrong key"),
    89: (InvalidEdit, "too-many", "the number 100,000 was given out"),
    90: (InvalidEdit, "no-entry", "no entry has this number"),
    91: (InvalidEdit, "name", "this is no name"),
}

_WHAT: Dict[Type[Refusal], str] = {
    InvalidVersion: "Invalid version",
    InvalidSpecifier: "Invalid specifier",
    InvalidMarker: "Invalid marker",
    UndefinedEnvironmentName: "Marker without a value",
    UndefinedComparison: "Marker without a value",
    MarkerFault: "Marker without a value",
    InvalidName: "Invalid name",
    InvalidRequirement: "Invalid requirement",
    InvalidWheelFilename: "Invalid wheel filename",
    InvalidSdistFilename: "Invalid sdist filename",
    InvalidTag: "Invalid tag",
    InvalidTarget: "Invalid target",
    InvalidEdit: "Refused edit",
    InvalidEnvironment: "Invalid environment",
}


# what a text was to be, as `_native` says it: the exception where it has half a character
_KINDS: Dict[str, Type[Refusal]] = {
    "version": InvalidVersion,
    "specifier": InvalidSpecifier,
    "marker": InvalidMarker,
    "name": InvalidName,
    "requirement": InvalidRequirement,
    "wheel": InvalidWheelFilename,
    "sdist": InvalidSdistFilename,
    "tag": InvalidTag,
    "target": InvalidTarget,
    "edit": InvalidEdit,
    "variable": InvalidEnvironment,
}


def _told(code: int, text: str, kind: str) -> Union[BaseException, Told]:
    """What the exception for a code of a call on a text is made of; one that isn't UTF-8 is refused as `syntax` of its kind.
    It is asked once for each code, which has one, but where the text was to be a name, or to be in order."""
    if kind == "order":
        if code == 65:
            return Told((InvalidWheelFilename, "tags", "Invalid wheel filename: ", " (the pieces of a tag aren't in order)"))
        return Told((UnsortedTagsError, "tag-order", "Unsorted tag: ", " is to be "))
    if code in _REFUSALS:
        error, word, why = _REFUSALS[code]
        if kind == "name" and error is InvalidEdit:
            return Told((InvalidName, word, "name is invalid: ", ""))
        return Told((error, word, _WHAT[error] + ": ", " (%s)" % why if why else ""))
    if code == _native.NOT_UTF8 and kind in _KINDS:
        error = _KINDS[kind]
        return error("%s: %s (it has half a character)" % (_WHAT[error], quoted(text)), word="syntax")
    return RuntimeError("pylock: the library answered %d" % code)


def _refusal(code: int, text: str, kind: str) -> BaseException:
    """The exception for a code of a call on a text."""
    told = _told(code, text, kind)
    return untold(told, text) if isinstance(told, Told) else told


def _words_of(document: str) -> List[str]:
    from json import loads

    words: List[str] = loads(document)["refused"]
    return words


def _refused_input(code: int, text: str, lock: Optional[bytes], environment: Optional[bytes], json: bool) -> BaseException:
    """The exception for a code of a call on a lock or an environment: it has the printed words without the first. They
    stand in a line, or in a document."""
    error: Type[InvalidLock]
    if code == _native.LOCK_REFUSED and lock is not None:
        error, message = InvalidLock, _native.lock_message(lock)
    elif code == _native.ENVIRONMENT_REFUSED and environment is not None:
        error, message = InvalidEnvironment, _native.environment_message(environment)
    else:
        return RuntimeError("pylock: the library answered %d" % code)
    printed = tuple((_words_of(text) if json else text.rstrip("\n").split("\t"))[1:])
    place: Any = None
    if len(printed) > 1:
        place = int(printed[1]) if printed[1].isdigit() else printed[1]
    return error(message, word=printed[0], place=place, words=printed)


# from now on, in the place of what imported this module
_native.use_refusals(_told, _refused_input)


# ---- names and environments ----

is_name = _native.is_name
environment_read = _native.environment_read


def environment_target(python: str, platform: str) -> bytes:
    """The JSON text of the environment of a target."""
    return _native.environment_target(python, platform).encode()


# ---- requirements and names of wheels ----


def requirement(text: str) -> List[Optional[str]]:
    """The fields of a requirement, as they are written: name, extras, set (in normal form), URL, marker."""
    return list(_native.requirement(text))


def wheel(text: str) -> List[Optional[str]]:
    """The fields of a wheel's name: name as written, version, build, tags with a space between."""
    return list(_native.wheel(text))


# ---- a lock at once ----

files = _native.files
audit = _native.audit
lock_head = _native.lock_head


# ---- sessions ----

session_start = _native.session_start
session_start_strict = _native.session_start_strict


def session_edit(kept: KeptSession, edit: str, *texts: str, number: Optional[int] = None) -> int:
    """Makes an edit of texts, and of the number of an entry where it takes one; gives how many judgements it made."""
    if number is not None and not 0 <= number < 1 << 32:
        # no argument of the call can hold it, and no entry has it
        judged = -_native.EDIT_NO_ENTRY
    else:
        judged = kept.edit(edit, number, *texts)
    if judged >= 0:
        return judged
    raise _of_code(-judged, " ".join(texts if number is None else (str(number), *texts)))


# the edits of a name that are made of several as one: what reads the extras, or the groups, is judged once
_OF_SEVERAL = {
    "add_extra": "add_extras", "drop_extra": "drop_extras", "add_group": "add_groups", "drop_group": "drop_groups",
    "policy": "policies",
}
# so many policies at least are made as one: that looks at each entry, where one alone looks at those of its name
_MANY_POLICIES = 64


def session_edit_names(kept: KeptSession, edit: str, names: List[str], *more: str) -> bool:
    """Makes the edit of all of these names as one, where it is one of a name; `more` is the word of a policy. Gives whether
    that was done. Where one of them is refused none is made: by themselves they tell which."""
    if edit not in _OF_SEVERAL or not all([isinstance(name, str) and name and "\n" not in name for name in names]):
        return False
    if edit == "policy" and len(names) < _MANY_POLICIES:
        return False
    try:
        return kept.edit(_OF_SEVERAL[edit], None, "\n".join(names), *more) >= 0
    except InvalidEdit:
        return False


def _of_code(code: int, text: str) -> BaseException:
    """The exception for a code of an edit."""
    if code == _native.MEMORY:
        return MemoryError("pylock: a memory request was refused")
    if code == _native.EMPTY:
        return ValueError("pylock: the object was closed")
    return _refusal(code, text, "edit")


def session_answer(kept: KeptSession, json: bool) -> Tuple[str, bool]:
    """The answer, and whether it is a plan."""
    return kept.answer(json)


def session_explain(kept: KeptSession, json: bool) -> Tuple[str, bool]:
    """What becomes of each entry, and whether the answer is a plan."""
    return kept.explain(json)


def session_judged(kept: KeptSession) -> List[int]:
    """The numbers that the last accepted edit judged."""
    return [int(number) for number in kept.judged().split()]


# ---- the whole program ----

# what `select` is asked: a lock; an environment, or the Python and the platform of a target; strict and json, where those are
Asked = Tuple[str, Optional[str], Optional[str], Optional[str], Optional[str], Optional[str]]

run_program = _native.run_program
select_asked = _native.select_asked
run_start = _native.run_start


def run_feed(kept: KeptRun, json: bool, piece: bytes) -> bytes:
    """What the next piece of the input has the run print. After a refusal the run is over."""
    return kept.feed(json, piece)


def run_end(kept: KeptRun, json: bool) -> Tuple[bytes, int]:
    """What the end of the input has the run print, and the status. The run is over then."""
    return kept.end(json)
