"""Markers and requirements in pieces, with the names of `packaging._parser` (docs/PRIVATE.md).

The library judges the texts and takes markers apart; here their trees are, for programs that look into one and change it.
"""

from __future__ import annotations

from typing import Any, Iterator, List, Literal, NamedTuple, NoReturn, Optional, Sequence, Tuple, Union

from . import _native
from ._errors import InvalidMarker, InvalidRequirement, PointingRefusal, fault_of
from .utils import canonicalize_name

__all__ = ["MarkerAtom", "MarkerList", "Op", "ParsedRequirement", "Value", "Variable", "parse_marker", "parse_requirement"]


class Node:
    """A piece of a comparison: its text is `value`."""

    __slots__ = ("value",)

    value: str

    def __init__(self, value: str) -> None:
        self.value = value

    def __str__(self) -> str:
        return self.value

    def __repr__(self) -> str:
        return "<%s(%r)>" % (type(self).__name__, self.value)

    def serialize(self) -> str:
        """The piece as a marker's text has it."""
        return self.value

    def __getstate__(self) -> str:
        return self.value

    def __setstate__(self, state: Any) -> None:
        """Takes a pickle of `packaging` too: up to 26.1 it has the attributes."""
        if isinstance(state, tuple) and len(state) == 2:
            state = state[1]
        value = state.get("value") if isinstance(state, dict) else state
        if not isinstance(value, str):
            raise TypeError("Cannot restore %s from %r" % (type(self).__name__, state))
        self.value = value


class Variable(Node):
    """A variable, as `os_name`."""

    __slots__ = ()


class Value(Node):
    """A quoted text, without its marks."""

    __slots__ = ()

    def serialize(self) -> str:
        """The text in marks that it doesn't have; a text with both kinds is refused."""
        if '"' not in self.value:
            return '"%s"' % self.value
        if "'" in self.value:
            raise InvalidMarker("Invalid marker: %r has both kinds of quotation marks" % self.value, word="syntax")
        return "'%s'" % self.value


class Op(Node):
    """An operator, as `not in`."""

    __slots__ = ()


MarkerVar = Union[Variable, Value]
MarkerItem = Tuple[MarkerVar, Op, MarkerVar]
MarkerAtom = Union[MarkerItem, Sequence[Any]]
MarkerLogical = Literal["and", "or"]
MarkerList = List[Union[MarkerAtom, str]]
"""What a pair of parentheses has: comparisons and lists, with `and` and `or` between them."""


class ParsedRequirement(NamedTuple):
    """The parts of a requirement, as they are written; the texts of those that it doesn't have are empty."""

    name: str
    url: str
    extras: List[str]
    specifier: str
    marker: Optional[MarkerList]


# ---- markers ----


def process_env_var(env_var: str) -> Variable:
    """The variable of this name."""
    is_implementation = env_var == "python_implementation"
    return Variable("platform_python_implementation" if is_implementation else env_var.replace(".", "_"))


def process_python_str(python_str: str) -> Value:
    """The text between these marks."""
    return Value(python_str[1:-1])


def _operand(piece: str) -> MarkerVar:
    return Value(piece[1:]) if piece[0] == '"' else Variable(piece)


def _is_extra(operand: MarkerVar) -> bool:
    return isinstance(operand, Variable) and operand.value == "extra"


def _comparison(left: MarkerVar, operator: Op, right: MarkerVar, is_outermost: bool) -> MarkerItem:
    """The comparison; where it stands in no parentheses, the name that `extra` is compared with is in normal form."""
    if is_outermost and _is_extra(left) and isinstance(right, Value):
        right = Value(canonicalize_name(right.value))
    elif is_outermost and _is_extra(right) and isinstance(left, Value):
        left = Value(canonicalize_name(left.value))
    return left, operator, right


def _atoms(pieces: Iterator[str], is_outermost: bool) -> MarkerList:
    """Atoms with `and` and `or` between them, up to the end or a `)`."""
    found: MarkerList = []
    for piece in pieces:
        if piece == "(":
            found.append(_atoms(pieces, False))
        else:
            operator, right = Op(next(pieces)), _operand(next(pieces))
            found.append(_comparison(_operand(piece), operator, right, is_outermost))
        word = next(pieces, ")")
        if word == ")":
            break
        found.append(word)
    return found


def tree_of(text: str) -> MarkerList:
    """The tree of a text that is a marker: parentheses as lists, and the names that `extra` is compared with in normal form,
    where they stand in none, as `str` of the marker has them."""
    return _atoms(iter(_native.marker_pieces(text)), True)


def text_of(tree: Any, is_outermost: bool = True) -> str:
    """The text of a tree, which may be a marker or not."""
    if isinstance(tree, str):
        return tree
    if isinstance(tree, tuple):
        return " ".join([node.serialize() for node in tree])
    if not isinstance(tree, list):
        raise TypeError("expected a list, a tuple or a str in a marker's tree, not %s" % type(tree).__name__)
    if len(tree) == 1 and isinstance(tree[0], (list, tuple)):
        return text_of(tree[0], is_outermost)
    inner = " ".join([text_of(piece, False) for piece in tree])
    return inner if is_outermost else "(%s)" % inner


def _raise(error: PointingRefusal, source: str) -> NoReturn:
    from ._tokenizer import ParserSyntaxError

    fault = fault_of(error._calls, source)
    message, span = (str(error), (0, len(source))) if fault is None else (fault.sentence, fault.span)
    raise ParserSyntaxError(message, source=source, span=span) from error


def parse_marker(source: str) -> MarkerList:
    """The tree of a marker; ParserSyntaxError where the text is none."""
    from .markers import Marker

    try:
        return Marker(source)._markers
    except InvalidMarker as error:
        _raise(error, source)


# ---- requirements ----


def parse_requirement(source: str) -> ParsedRequirement:
    """The parts of a requirement; ParserSyntaxError where the text is none."""
    from . import _native

    try:
        name, extras, _, url, marker = _native.requirement(source)
        specifier = _native.requirement_parts(source)[3]
    except InvalidRequirement as error:
        _raise(error, source)
    tree = None if marker is None else tree_of(marker)
    return ParsedRequirement(str(name), url or "", extras.split(",") if extras else [], specifier, tree)
