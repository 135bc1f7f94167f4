"""A typed program over pylock's answers about every version, every environment and locks, which `packaging` hasn't: `mypy --strict`
passes it (tools/check/annotations)."""

from pathlib import Path
from typing import Dict, FrozenSet, List, Optional, Union

from pylock import (
    Answer, Difference, Environment, Finding, InvalidAdvisories, InvalidInstalled, InvalidProject, Lock, Marker, Outcome, SpecifierSet, Step,
    Version,
)


def alone(one: SpecifierSet, other: SpecifierSet) -> Optional[Version]:
    """A version that the first set alone admits."""
    answer: Answer[Version] = one.is_subset(other)
    return answer.witness if answer.outcome is Outcome.NO else None


def in_common(one: SpecifierSet, other: SpecifierSet) -> List[str]:
    outcome, witness = one.is_disjoint(other)
    return [] if witness is None else [witness.public, outcome.value, str(outcome is Outcome.UNDECIDED)]


def name_where_both(one: Marker, other: Marker) -> Union[str, FrozenSet[str], None]:
    """The `os_name` of an environment in which both markers are true."""
    witness = one.is_disjoint(other).witness
    return None if witness is None else witness.get("os_name")


def is_implied(one: Marker, others: List[Marker]) -> bool:
    answers = [other.implies(one) for other in others]
    shown = [answer.witness for answer in answers if answer.outcome is Outcome.NO and answer.witness is not None]
    return all(answers) and not any(one.evaluate(environment, "lock_file") for environment in shown)


def differing(lock: Lock, environment: Environment) -> List[str]:
    """The names that a project asks for in vain."""
    try:
        found: List[Difference] = lock.check(Path("pyproject.toml"), environment, extras=["test"], policies=[("a", "wheel")], strict=True)
    except InvalidProject as refusal:
        return [refusal.word, *refusal.words, str(refusal.place)]
    return [one.name for one in found if one.name is not None and one.difference == "missing"]


def left_to_do(lock: Lock, environment: Environment, listed: List[Dict[str, str]]) -> List[Optional[str]]:
    steps: List[Step] = lock.status(environment, listed, exact=True, groups=("dev",)) + lock.status(environment, "[]") + lock.status(environment, b"[]")
    return [step.version or step.from_version or str(step.id) for step in steps if step.step != "keep"]


def told(lock: Lock) -> List[Finding]:
    try:
        return lock.audit(environments=True, advisories=[Path("advisories.json"), b"[]"], hosts={lock.created_by}, ignore=iter(["no-hash:a"]))
    except (InvalidAdvisories, InvalidInstalled) as refusal:
        return [Finding(refusal.file or 0 if isinstance(refusal, InvalidAdvisories) else 0, None, refusal.word, None)]


def wrong(lock: Lock, environment: Environment) -> None:
    """What the checker refuses: of an ignore that isn't needed it tells."""
    lock.check(b"", environment, extra=["test"])  # type: ignore[call-arg]
    lock.status(environment, [], True)  # type: ignore[misc]
    lock.created_by = "me"  # type: ignore[misc]
