"""The exceptions. Each stands in the submodule where `packaging` has it, and at the top."""

from __future__ import annotations

from ._typing import TYPE_CHECKING, Any, Optional, Sequence, Tuple, Union

if TYPE_CHECKING:
    from ._lock import Finding

Place = Union[int, str, None]
# Unicode's classes of the characters that steer a terminal, or aren't seen and change what is seen
STEERING = ("Cc", "Cf", "Zl", "Zp")


def shown(text: str) -> str:
    """The text as the program shows it to a person: `\\u{HEX}` stands for each character that steers a terminal."""
    if text.isprintable():
        return text
    # imported here: hardly a message needs it
    from unicodedata import category

    return "".join("\\u{%x}" % ord(letter) if category(letter) in STEERING else letter for letter in text)


class Refusal(ValueError):
    """A text, a lock or an edit is refused. `str` gives the message for a person.

    `word` is the program's word for it, as `syntax` (docs/FORMATS.md); `place` says where, as the number of an
    entry or the name of a key, and is None where the text as a whole is meant. One that a program raises itself may have any
    arguments, as a ValueError; its word is empty then.
    """

    word: str = ""
    place: Place = None

    def __init__(self, *args: object, word: str = "", place: Place = None) -> None:
        self.args = args
        if word:
            self.word = word
        if place is not None:
            self.place = place


# ---- what is told when it is asked for ----

# the arguments of an exception as they lie in it
_arguments: Any = vars(BaseException)["args"]


class Told(tuple):  # type: ignore[type-arg]
    """What a refused text's exception is made of: its class, its word, and what its message has before the text and behind it.

    `_native` raises the exception with this and the text as its arguments, and with a second text where that is the end of the
    message. What they tell is made when it is asked for: hardly a program reads it of each exception that it catches.
    """

    __slots__ = ()


def untold(told: Told, text: str) -> BaseException:
    """The exception of what it is made of, on a text, as `_native` makes it."""
    exception: BaseException = told[0].__new__(told[0], told, text)
    return exception


def quoted(text: object) -> str:
    """The `repr` of a text in a message, of a long one that of its beginning."""
    if isinstance(text, str) and str.__len__(text) > 200:
        text = str.__getitem__(text, slice(200)) + "..."
    return repr(text)


def _tell(refusal: TextRefusal) -> None:
    """Gives the exception the word, the source and the arguments that it was raised for."""
    given = _arguments.__get__(refusal)
    if len(given) < 2 or type(given[0]) is not Told:
        return
    (_, word, before, behind), text, *others = given
    own = vars(refusal)
    own.setdefault("word", word)
    if isinstance(refusal, PointingRefusal):
        own.setdefault("source", text)
    # from here on it is told, to other threads too
    _arguments.__set__(refusal, ("".join([before, quoted(text), behind, *map(quoted, others)]),))


class _Later:
    """An attribute that is told when it is asked for; its class has the usual value."""

    __slots__ = ("name", "usual")

    def __init__(self, name: str, usual: Optional[str]) -> None:
        self.name = name
        self.usual = usual

    def __get__(self, refusal: Optional[TextRefusal], owner: object = None) -> Any:
        if refusal is None:
            return self.usual
        _tell(refusal)
        return vars(refusal).get(self.name, self.usual)


class TextRefusal(Refusal):
    """A text is refused."""

    if not TYPE_CHECKING:
        word = _Later("word", "")

        @property
        def args(self):
            _tell(self)
            return _arguments.__get__(self)

        @args.setter
        def args(self, args):
            _tell(self)
            _arguments.__set__(self, args)

    def __str__(self) -> str:
        _tell(self)
        return super().__str__()

    def __repr__(self) -> str:
        _tell(self)
        return super().__repr__()

    def __reduce__(self) -> Union[str, Tuple[Any, ...]]:
        _tell(self)
        return super().__reduce__()


# ---- where in a text it is wrong ----


class Fault:
    """What was expected of a refused text, the stretch of its characters where that is, and two lines that point there."""

    __slots__ = ("lines", "sentence", "span")

    def __init__(self, sentence: str, span: Tuple[int, int], lines: str) -> None:
        self.sentence = sentence
        self.span = span
        self.lines = lines


def fault_of(calls: Sequence[str], text: str) -> Optional[Fault]:
    """The first answer of these calls of the library on a text; None where it isn't refused."""
    from . import _native

    for call in calls:
        fields = getattr(_native, call)(text)
        if len(fields) == 4:
            data = str.encode(text)
            begin, end = (len(data[: int(place)].decode()) for place in fields[:2])
            return Fault(fields[2], (begin, end), fields[3])
    return None


class PointingRefusal(TextRefusal):
    """A text is refused, and `str` points at the place in it. `source` is the text, None where a program raises one itself."""

    source: Optional[str] = None
    if not TYPE_CHECKING:
        source = _Later("source", None)
    _calls: Sequence[str] = ()
    """The library's calls that tell what was expected of such a text."""

    def __str__(self) -> str:
        fault = None if self.source is None else fault_of(self._calls, self.source)
        return super().__str__() if fault is None else "%s\n%s" % (self._said(fault.sentence), fault.lines)

    def _said(self, sentence: str) -> str:
        return sentence


# ---- the exceptions ----


class InvalidVersion(TextRefusal):
    """A text is no version (PEP 440).

    >>> import pylock
    >>> pylock.Version("1.x")
    Traceback (most recent call last):
        ...
    pylock.version.InvalidVersion: Invalid version: '1.x'
    """

    __module__ = "pylock.version"


class InvalidSpecifier(PointingRefusal):
    """A text is no specifier, or no set of them (PEP 440)."""

    __module__ = "pylock.specifiers"
    _calls = ("set_expected", "specifier_expected")

    def _said(self, sentence: str) -> str:
        return "%s: %s" % (super(PointingRefusal, self).__str__(), sentence)


class InvalidMarker(PointingRefusal):
    """A text is no marker (PEP 508). Its word is `syntax`, `too-deep` or `set-misuse`."""

    __module__ = "pylock.markers"
    _calls = ("marker_expected",)


class MarkerFault(TextRefusal):
    """A marker has no value in an environment. The words are those of the lock's answers, as `marker-number`."""

    __module__ = "pylock.markers"


class UndefinedEnvironmentName(MarkerFault):
    """A marker reads a variable that the environment doesn't have (`marker-unset`)."""

    __module__ = "pylock.markers"


class UndefinedComparison(MarkerFault):
    """A marker compares by `~=` or `===` what isn't a version (`marker-undefined`)."""

    __module__ = "pylock.markers"


class InvalidRequirement(PointingRefusal):
    """A text is no requirement (PEP 508). Its word is the first thing that is wrong, from the left."""

    __module__ = "pylock.requirements"
    _calls = ("requirement_expected",)


class InvalidName(TextRefusal):
    """A text is no name of a distribution."""

    __module__ = "pylock.utils"


class InvalidWheelFilename(TextRefusal):
    """A text is no file name of a wheel (PEP 427)."""

    __module__ = "pylock.utils"


class InvalidTarget(TextRefusal):
    """The Python or the platform of a target is none."""

    __module__ = "pylock"


class InvalidSdistFilename(TextRefusal):
    """A text is no file name of an sdist (PEP 625)."""

    __module__ = "pylock.utils"


class InvalidTag(TextRefusal):
    """A text isn't of the form python-abi-platform (PEP 425)."""

    __module__ = "pylock.tags"


class UnsortedTagsError(TextRefusal):
    """A part of a tag has its pieces out of order (PEP 425), and order was asked for."""

    __module__ = "pylock.tags"


class InputRefusal(Refusal):
    """A file is refused. `words` are those that the program prints of it."""

    def __init__(self, *args: object, word: str = "", place: Place = None, words: Tuple[str, ...] = ()) -> None:
        super().__init__(*args, word=word, place=place)
        self.words = words


class InvalidLock(InputRefusal):
    """Bytes are no `pylock.toml` (PEP 751). `words` are those that the program prints."""

    __module__ = "pylock"


class StrictRefusal(InvalidLock):
    """A lock isn't taken strictly: `audit` finds in it what installers read differently (docs/FORMATS.md, `--strict`).

    `findings` are those that are refused, at least one, as `Lock.audit` gives them. `word` and `place` are the first
    one's word and the number of its entry.
    """

    __module__ = "pylock"

    def __init__(self, findings: Sequence[Finding]) -> None:
        first = findings[0]
        where = "the head of the lock" if first.id == 0 else "entry %d (`%s`)" % (first.id, first.name)
        detail = "" if first.detail is None else ": " + first.detail
        more = "" if len(findings) == 1 else ", and %d more" % (len(findings) - 1)
        self.message = shown("refused strictly: %s: %s%s%s" % (where, first.finding, detail, more))
        super().__init__(self.message, word=first.finding, place=first.id, words=("findings", str(len(findings))))
        self.args = (findings,)
        self.findings = tuple(findings)

    def __str__(self) -> str:
        return self.message


class InvalidEnvironment(InvalidLock):
    """An environment isn't of the form of docs/FORMATS.md. `words` are those that the program prints."""

    __module__ = "pylock"


class InvalidProject(InputRefusal):
    """A `pyproject.toml` can't be read as `Lock.check` reads it (docs/FORMATS.md, `check`).

    `word` is as `requirement`, and `place` the key, as `project.dependencies 2`, or None.
    """

    __module__ = "pylock"


class InvalidInstalled(InputRefusal):
    """What is installed isn't told as pip tells it (docs/FORMATS.md, `status`).

    `word` is as `element`, and `place` the number of the element, from 1, or None.
    """

    __module__ = "pylock"


class InvalidAdvisories(InputRefusal):
    """A file of advisories isn't of OSV's format (docs/FORMATS.md, `audit`).

    `word` is as `json`, and `place` the number of the advisory in its file, from 1.
    """

    __module__ = "pylock"

    @property
    def file(self) -> Optional[int]:
        """The number of the file among those that are given, from 1."""
        return int(self.words[0]) if self.words else None


class InvalidEdit(TextRefusal):
    """An edit or an option is refused, and has changed nothing."""

    __module__ = "pylock"


class PlanFault(Refusal):
    """A lock can't be installed in an environment: the first fault of the installation steps.

    `id` is the number of the entry, 0 for the head of the lock; `name` its name, None for the head; `code` the
    fault's word (`word` too), as `no-file`; `detail` what `explain` says of it, or None.
    """

    __module__ = "pylock"

    def __init__(self, id: int, name: Optional[str], code: str, detail: Optional[str]) -> None:
        where = "the head of the lock" if id == 0 else "entry %d (`%s`)" % (id, name)
        self.message = shown("%s: %s%s" % (where, code, "" if detail is None else ": " + detail))
        super().__init__(self.message, word=code, place=id)
        self.args = (id, name, code, detail)
        self.id = id
        self.name = name
        self.code = code
        self.detail = detail

    def __str__(self) -> str:
        return self.message


class WrongThread(RuntimeError):
    """A lock or a session is used on another thread than the one that made it."""

    __module__ = "pylock"
