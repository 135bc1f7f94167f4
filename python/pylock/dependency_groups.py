"""Dependency groups of a `pyproject.toml` (PEP 735), with the names of `packaging.dependency_groups`.

    >>> from pylock.dependency_groups import resolve_dependency_groups
    >>> groups = {"test": ["pytest>=8"], "all": [{"include-group": "Test"}, "mypy"]}
    >>> resolve_dependency_groups(groups, "all")
    ('pytest>=8', 'mypy')

What is different: what is wrong in a group is told once, however often the group is included; and a resolver gives the same
answer however often it is asked, also of a group in which something is wrong.
"""

from __future__ import annotations

from typing import Dict, List, Mapping, Sequence, Set, Tuple, Union

from .errors import ExceptionGroup
from .requirements import Requirement
from .utils import canonicalize_name

__all__ = [
    "CyclicDependencyGroup",
    "DependencyGroupInclude",
    "DependencyGroupResolver",
    "DuplicateGroupNames",
    "InvalidDependencyGroupObject",
    "resolve_dependency_groups",
]

_Groups = Mapping[str, Sequence[Union[str, Mapping[str, str]]]]


class DuplicateGroupNames(ValueError):
    """Several groups have one name, as `a-b` and `A_B`."""


class InvalidDependencyGroupObject(ValueError):
    """A table in a group is no include."""


class CyclicDependencyGroup(ValueError):
    """A group includes itself, over others or not: `group` has the include, of `include_group` as it is written."""

    def __init__(self, requested_group: str, group: str, include_group: str) -> None:
        self.requested_group = requested_group
        self.group = group
        self.include_group = include_group
        over = "itself" if group == canonicalize_name(include_group) else f"{include_group}, which includes it"
        self.args = (f"of dependency group {requested_group}: the group {group} includes {over}",)

    def __reduce__(self) -> Tuple[type, Tuple[str, str, str]]:
        # the arguments of the exception are its message
        return type(self), (self.requested_group, self.group, self.include_group)


class DependencyGroupInclude:
    """An item of a group that stands for the items of another group."""

    __slots__ = ("include_group",)

    def __init__(self, include_group: str) -> None:
        self.include_group = include_group

    def __repr__(self) -> str:
        return f"DependencyGroupInclude({self.include_group!r})"

    def __copy__(self) -> DependencyGroupInclude:
        return type(self)(self.include_group)

    def __reduce__(self) -> Tuple[type, Tuple[str]]:
        return type(self), (self.include_group,)


_Item = Union[Requirement, DependencyGroupInclude]


def _several_names(groups: _Groups) -> Exception:
    """What is wrong with groups of which several have one normal name."""
    given: Dict[str, List[str]] = {}
    for name in groups:
        given.setdefault(canonicalize_name(name), []).append(name)
    errors = []
    for normal, names in given.items():
        if len(names) > 1:
            errors.append(DuplicateGroupNames(f"dependency group {normal} has several names: {', '.join(names)}"))
    return ExceptionGroup("several dependency groups have one name", errors)


class DependencyGroupResolver:
    """The groups of a table `dependency-groups`, each read when it is asked for.

    >>> resolver = DependencyGroupResolver({"a": ["x"], "b": [{"include-group": "a"}, "y"]})
    >>> resolver.lookup("b")
    (DependencyGroupInclude('a'), <Requirement('y')>)
    >>> resolver.resolve("b")
    (<Requirement('x')>, <Requirement('y')>)

    What is wrong in a group comes in one `ExceptionGroup`; a requirement that is none comes at once.
    """

    def __init__(self, dependency_groups: _Groups) -> None:
        by_name: Dict[str, Sequence[Union[str, Mapping[str, str]]]] = {}
        for name in dependency_groups:
            normal = canonicalize_name(name)
            if normal in by_name:
                raise _several_names(dependency_groups)
            by_name[normal] = dependency_groups[name]
        self.dependency_groups = by_name
        # of groups in which nothing is wrong, what was read of them
        self._read: Dict[str, Tuple[_Item, ...]] = {}
        self._resolved: Dict[str, Tuple[Requirement, ...]] = {}

    def lookup(self, group: str) -> Tuple[_Item, ...]:
        """The items of a group, its includes as they are."""
        name = canonicalize_name(group)
        question = _Question(self, name)
        items = question.items(name)
        question.settle()
        return items

    def resolve(self, group: str) -> Tuple[Requirement, ...]:
        """The requirements of a group, those of its includes where they stand."""
        name = canonicalize_name(group)
        question = _Question(self, name)
        requirements = question.requirements(name)
        question.settle()
        return requirements


class _Question:
    """One question to a resolver, and what is found wrong in the groups that it reads."""

    __slots__ = ("closed", "errors", "open", "requested", "resolver")

    def __init__(self, resolver: DependencyGroupResolver, requested: str) -> None:
        self.resolver = resolver
        self.requested = requested
        self.errors: List[Exception] = []
        # the groups that are being resolved, each included by the one before; and those that were since the first error:
        # a group is gone through once, so that each error is told once and cycles over cycles take no longer
        self.open: Dict[str, None] = {}
        self.closed: Set[str] = set()

    def settle(self) -> None:
        """Raises what was found wrong."""
        if self.errors:
            raise ExceptionGroup(f"dependency group {self.requested!r} is wrong", self.errors)

    def items(self, name: str) -> Tuple[_Item, ...]:
        """The items of the group with this normal name; what is wrong in it is noted."""
        known = self.resolver._read.get(name)
        if known is not None:
            return known
        groups = self.resolver.dependency_groups
        if name not in groups:
            self.errors.append(LookupError(f"there is no dependency group {name!r}"))
            return ()
        before = len(self.errors)
        items = self._items_of(name, groups[name])
        if len(self.errors) == before:
            self.resolver._read[name] = items
        return items

    def _items_of(self, name: str, given: object) -> Tuple[_Item, ...]:
        if type(given) is not list and (isinstance(given, str) or not isinstance(given, Sequence)):
            self.errors.append(TypeError(f"dependency group {name!r} is a {type(given).__name__} and no list"))
            return ()
        items: List[_Item] = []
        for item in given:
            if isinstance(item, str):
                items.append(Requirement(item))
            elif type(item) is not dict and not isinstance(item, Mapping):
                self.errors.append(TypeError(f"of dependency group {name!r} an item is neither text nor table: {item!r}"))
            elif tuple(item) != ("include-group",):
                message = f"of dependency group {name!r} a table is no include: {item!r}"
                self.errors.append(InvalidDependencyGroupObject(message))
            else:
                items.append(DependencyGroupInclude(item["include-group"]))
        return tuple(items)

    def requirements(self, name: str) -> Tuple[Requirement, ...]:
        """The requirements of the group with this normal name, which isn't open; what is wrong in it is noted."""
        resolved = self.resolver._resolved
        if name in resolved or name in self.closed:
            return resolved.get(name, ())
        self.open[name] = None
        requirements: List[Requirement] = []
        for item in self.items(name):
            if isinstance(item, Requirement):
                requirements.append(item)
                continue
            included = canonicalize_name(item.include_group)
            if included in self.open:
                self.errors.append(CyclicDependencyGroup(self.requested, name, item.include_group))
            else:
                requirements.extend(self.requirements(included))
        del self.open[name]
        if self.errors:
            self.closed.add(name)
            return ()
        return resolved.setdefault(name, tuple(requirements))


def resolve_dependency_groups(dependency_groups: _Groups, /, *groups: str) -> Tuple[str, ...]:
    """The requirements of groups, as texts, in their order; `dependency_groups` is the table of that name.

    >>> resolve_dependency_groups({"a": ["x"], "b": ["y"]}, "b", "a", "b")
    ('y', 'x', 'y')
    """
    resolver = DependencyGroupResolver(dependency_groups)
    texts: List[str] = []
    for group in groups:
        texts.extend(map(str, resolver.resolve(group)))
    return tuple(texts)
