"""Answers about every version, and about every environment that an interpreter of Python may have."""

from __future__ import annotations

import enum
from typing import TYPE_CHECKING, Dict, FrozenSet, Generic, NamedTuple, Optional, Tuple, TypeVar, Union

if TYPE_CHECKING:
    from .version import Version

__all__ = ["Answer", "EnvironmentWitness", "Outcome", "answer_of_markers", "answer_of_sets"]

EnvironmentWitness = Dict[str, Union[str, FrozenSet[str]]]
"""An environment as `Marker.evaluate` takes one."""

_Witness = TypeVar("_Witness")


class Outcome(enum.Enum):
    """What is said of every version or environment: it is so of all of them, it isn't, or it was not decided."""

    YES = "yes"
    NO = "no"
    UNDECIDED = "undecided"


if TYPE_CHECKING:

    class _Fields(NamedTuple, Generic[_Witness]):
        outcome: Outcome
        witness: Optional[_Witness]

else:

    class _Fields(NamedTuple):
        outcome: Outcome
        witness: object

        # which witness it is, is for type checkers
        @classmethod
        def __class_getitem__(cls, witness):
            return cls


class Answer(_Fields[_Witness]):
    """An answer about every version, or about every environment that an interpreter of Python may have.

    >>> from pylock import SpecifierSet
    >>> answer = SpecifierSet(">=1,<3").is_subset(SpecifierSet("<2"))
    >>> answer.outcome, answer.witness in SpecifierSet(">=2,<3")
    (<Outcome.NO: 'no'>, True)

    `witness` shows a no: a `Version`, or the environment as a mapping that `Marker.evaluate` takes. Of other answers it is
    None. As a truth value `YES` is true and `NO` false; `UNDECIDED` is neither, and raises TypeError.
    """

    __slots__ = ()

    def __bool__(self) -> bool:
        if self.outcome is Outcome.UNDECIDED:
            raise TypeError("the answer is undecided, and so neither true nor false: ask for its outcome")
        return self.outcome is Outcome.YES


# by the numbers of the library
_OUTCOMES = (Outcome.NO, Outcome.YES, Outcome.UNDECIDED)


def answer_of_sets(told: Tuple[int, Optional[Version]]) -> Answer[Version]:
    """What the compiled part tells of sets."""
    number, witness = told
    return Answer["Version"](_OUTCOMES[number], witness)


def answer_of_markers(told: Tuple[int, Optional[Tuple[str, ...]]]) -> Answer[EnvironmentWitness]:
    """What the compiled part tells of markers: of an environment pairs, of which each is a variable and its text, or the name
    of a set and what is in it."""
    number, fields = told
    return Answer[EnvironmentWitness](_OUTCOMES[number], None if fields is None else _environment_of(fields))


def _environment_of(fields: Tuple[str, ...]) -> EnvironmentWitness:
    environment: EnvironmentWitness = {}
    sets: Dict[str, FrozenSet[str]] = {}
    for name, text in zip(fields[::2], fields[1::2]):
        if name in ("extras", "dependency_groups"):
            sets[name] = sets.get(name, frozenset()) | {text}
        else:
            environment[name] = text
    environment.update(sets)
    return environment
