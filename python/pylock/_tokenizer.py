"""The tokens of requirements and markers, with the names of `packaging._tokenizer` (docs/PRIVATE.md).

The library reads texts by itself: to change a rule here changes nothing of what `Marker` and `Requirement` take.
"""

from __future__ import annotations

import re
from contextlib import contextmanager
from typing import Dict, Iterator, Mapping, NamedTuple, NoReturn, Optional, Pattern, Tuple

from ._patterns import SPECIFIER_PATTERN

__all__ = ["DEFAULT_RULES", "ParserSyntaxError", "Token", "Tokenizer"]


class Token(NamedTuple):
    """A piece of a text: the name of its rule, what it is, and where it begins."""

    name: str
    text: str
    position: int


class ParserSyntaxError(Exception):
    """A text isn't of the form that it is to have. `span` is the stretch that is wrong; `str` points at it."""

    def __init__(self, message: str, *, source: str, span: Tuple[int, int]) -> None:
        super().__init__()
        self.message = message
        self.source = source
        self.span = span

    def __str__(self) -> str:
        begin, end = self.span
        return "%s\n    %s\n    %s%s^" % (self.message, self.source, " " * begin, "~" * (end - begin))


_VARIABLES = (
    "python_version", "python_full_version", "os_name", "os.name", "sys_platform", "sys.platform", "platform_release",
    "platform_system", "platform_version", "platform.version", "platform_machine", "platform.machine",
    "platform_python_implementation", "platform.python_implementation", "python_implementation", "implementation_name",
    "implementation_version", "extras", "extra", "dependency_groups",
)


def _one_of(words: Tuple[str, ...]) -> str:
    return "(?:%s)" % "|".join(map(re.escape, words))


DEFAULT_RULES: Dict[str, Pattern[str]] = {
    "LEFT_PARENTHESIS": re.compile(r"\("),
    "RIGHT_PARENTHESIS": re.compile(r"\)"),
    "LEFT_BRACKET": re.compile(r"\["),
    "RIGHT_BRACKET": re.compile(r"\]"),
    "SEMICOLON": re.compile(";"),
    "COMMA": re.compile(","),
    "QUOTED_STRING": re.compile("'[^']*'|\"[^\"]*\""),
    "OP": re.compile(_one_of(("===", "==", "~=", "!=", "<=", ">=", "<", ">"))),
    "BOOLOP": re.compile(r"\b(?:or|and)\b"),
    "IN": re.compile(r"\bin\b"),
    "NOT": re.compile(r"\bnot\b"),
    "VARIABLE": re.compile(r"\b%s\b" % _one_of(_VARIABLES)),
    "SPECIFIER": re.compile(SPECIFIER_PATTERN, re.VERBOSE | re.IGNORECASE),
    "AT": re.compile("@"),
    "URL": re.compile(r"[^ \t]+"),
    "IDENTIFIER": re.compile(r"\b[A-Za-z0-9][A-Za-z0-9._-]*\b"),
    "VERSION_PREFIX_TRAIL": re.compile(r"\.\*"),
    "VERSION_LOCAL_LABEL_TRAIL": re.compile(r"\+[a-z0-9]+(?:[-_.][a-z0-9]+)*"),
    "WS": re.compile(r"[ \t]+"),
    "END": re.compile("$"),
}
"""The rule of each name of a token."""


class Tokenizer:
    """Reads a text token by token; the caller says which one it wants."""

    def __init__(self, source: str, *, rules: Mapping[str, Pattern[str]]) -> None:
        self.source = source
        self.rules = rules
        self.position = 0
        # that which was found and isn't read yet
        self.next_token: Optional[Token] = None

    def check(self, name: str, *, peek: bool = False) -> bool:
        """Whether such a token is next; without `peek` it is to be read then."""
        assert self.next_token is None, "%r is to be read before %r is looked for" % (self.next_token, name)
        found = self.rules[name].match(self.source, self.position)
        if found is not None and not peek:
            self.next_token = Token(name, found.group(), self.position)
        return found is not None

    def read(self) -> Token:
        """Reads the token that was found."""
        token = self.next_token
        assert token is not None
        self.position += len(token.text)
        self.next_token = None
        return token

    def consume(self, name: str) -> None:
        """Reads such a token, where one is next."""
        if self.check(name):
            self.read()

    def expect(self, name: str, *, expected: str) -> Token:
        """Reads such a token, which has to be next; `expected` says what it is."""
        if not self.check(name):
            self.raise_syntax_error("Expected " + expected)
        return self.read()

    def raise_syntax_error(
        self, message: str, *, span_start: Optional[int] = None, span_end: Optional[int] = None
    ) -> NoReturn:
        """Raises the error of a stretch, whose ends are by default where the reader is."""
        begin = self.position if span_start is None else span_start
        end = self.position if span_end is None else span_end
        raise ParserSyntaxError(message, source=self.source, span=(begin, end))

    @contextmanager
    def enclosing_tokens(self, open_token: str, close_token: str, *, around: str) -> Iterator[None]:
        """Reads a token before the block, where it is next, and then the other one behind the block."""
        begin = self.position
        is_open = self.check(open_token)
        if is_open:
            self.read()
        yield
        if not is_open:
            return
        if not self.check(close_token):
            message = "Expected matching %s for %s, after %s" % (close_token, open_token, around)
            self.raise_syntax_error(message, span_start=begin)
        self.read()
