"""Markers (PEP 508), with the names and meanings of `packaging.markers`.

    >>> from pylock.markers import Marker
    >>> Marker("python_version >= '3.8'").evaluate()
    True

What is different: a marker is refused where it has `os.name` or another old spelling of a variable, a backslash in a
quoted text, more than 64 open parentheses, or `extras` and `dependency_groups` elsewhere than right of `in` or
`not in`. Two texts are compared as versions where the left one is a version and the right one an operand, and as texts
otherwise, whatever the variable; `packaging` goes by the variable. Two variables are compared by their values, and
`extra` as a name alone. A marker can't be changed but by its tree, which is private (docs/PRIVATE.md).
"""

from __future__ import annotations

import functools
import operator
import os
import platform
import sys
from typing import TYPE_CHECKING, AbstractSet, Any, Dict, FrozenSet, Literal, Mapping, Optional, Tuple, TypedDict, Union

from . import _native, _private
from ._environment import Environment as KeptEnvironment
from ._errors import InvalidMarker, MarkerFault, Told, UndefinedComparison, UndefinedEnvironmentName, untold

if TYPE_CHECKING:
    from typing import overload

    from ._answers import Answer, EnvironmentWitness
    from ._parser import MarkerList
else:
    __getattr__ = _private.names_of("markers")

__all__ = [
    "Environment",
    "EvaluateContext",
    "InvalidMarker",
    "Marker",
    "MarkerFault",
    "UndefinedComparison",
    "UndefinedEnvironmentName",
    "default_environment",
]

# how many environments of mappings are kept, and how many letters the texts of each may have
_MOST_KEPT = 64
_MOST_LETTERS = 4096

EvaluateContext = Literal["metadata", "lock_file", "requirement"]
"""Where a marker stands: it says which of `extra` and the sets are there without being given."""


class Environment(TypedDict):
    """The variables of the running Python, for types. What is kept for many markers is `pylock.Environment`."""

    implementation_name: str
    implementation_version: str
    os_name: str
    platform_machine: str
    platform_release: str
    platform_system: str
    platform_version: str
    python_full_version: str
    platform_python_implementation: str
    python_version: str
    sys_platform: str


# what `platform` is asked for: it keeps the answers for the process, and so is asked once, unless a program has put functions of
# its own in the places of these
_functions = operator.attrgetter(
    "machine", "python_implementation", "python_version", "python_version_tuple", "release", "system", "uname", "version",
)
_FUNCTIONS = _functions(platform)


def default_environment() -> Environment:
    """The variables of the running Python.

    >>> sorted(default_environment())[:3]
    ['implementation_name', 'implementation_version', 'os_name']
    """
    implementation = sys.implementation
    told = implementation.name, implementation.version, os.name, sys.platform
    if _functions(platform) == _FUNCTIONS:
        return _known_environment(sys.version, *told).copy()
    return _read_environment(*told)


def _read_environment(name: str, info: Any, os_name: str, sys_platform: str) -> Environment:
    implementation_version = "%d.%d.%d" % info[:3]
    if info.releaselevel != "final":
        implementation_version += "%s%d" % (info.releaselevel[0], info.serial)
    return {
        "implementation_name": name,
        "implementation_version": implementation_version,
        "os_name": os_name,
        "platform_machine": platform.machine(),
        "platform_release": platform.release(),
        "platform_system": platform.system(),
        "platform_version": platform.version(),
        "python_full_version": platform.python_version(),
        "platform_python_implementation": platform.python_implementation(),
        "python_version": ".".join(platform.python_version_tuple()[:2]),
        "sys_platform": sys_platform,
    }


@functools.lru_cache(maxsize=1)
def _known_environment(version: str, *told: Any) -> Environment:
    return _read_environment(*told)


def running_variables() -> Dict[str, str]:
    """The variables of the running Python as markers read them.

    A Python that is built from its repository is 3.13.0+, which is no version: it is read as 3.13.0+local.
    """
    variables: Dict[str, str] = dict(default_environment())  # type: ignore[arg-type]
    if variables["python_full_version"].endswith("+"):
        variables["python_full_version"] += "local"
    return variables


@functools.lru_cache(maxsize=1)
def _running() -> Dict[str, str]:
    return running_variables()


def _environment(
    laid_over: FrozenSet[Tuple[str, str]], running: bool, extras: FrozenSet[str], groups: FrozenSet[str]
) -> _native.Environment:
    """The variables, over those of the running Python where it is asked."""
    variables = dict(_running()) if running else {}
    variables.update(laid_over)
    kept = _native.environment_of(variables)
    for extra in sorted(extras):
        kept.add_extra(extra)
    for group in sorted(groups):
        kept.add_group(group)
    return kept


def _exact(text: Any) -> Any:
    """The text itself: by one of a class that is made from `str`, which says what it is equal to, nothing is kept."""
    return str.__str__(text) if isinstance(text, str) else text


@functools.lru_cache(maxsize=1)
def _layers() -> _native.Layers:
    """The variables of the running Python, for mappings of variables to be laid over."""
    return _native.Layers(_running())


# the variables that are laid over, whether over those of the running Python, extras and groups
_Asked = Tuple[FrozenSet[Tuple[str, str]], bool, FrozenSet[str], FrozenSet[str]]

_NONE: FrozenSet[Any] = frozenset()
_environments: Dict[_Asked, _native.Environment] = {}
_EMPTY: Mapping[str, Any] = {}


def _mapped(mapping: Optional[Mapping[str, Any]], running: bool) -> _native.Environment:
    """The environment of a mapping, whose sets `extras` and `dependency_groups` are asked for."""
    if mapping is None:
        return _kept((_NONE, running, _NONE, _NONE))
    if not isinstance(mapping, Mapping):
        raise TypeError("expected an Environment or a mapping, not %s" % type(mapping).__name__)
    variables = []
    sets: Dict[str, FrozenSet[str]] = {}
    for name, value in mapping.items():
        if type(name) is not str:
            name = _exact(name)
        if name in ("extras", "dependency_groups"):
            sets[name] = _names(value)
        elif name != "extra":
            if type(value) is not str:
                if not isinstance(value, str):
                    raise TypeError("%s: expected a str, not %s" % (name, type(value).__name__))
                value = _exact(value)
            variables.append((name, value))
    return _kept((frozenset(variables), running, sets.get("extras", _NONE), sets.get("dependency_groups", _NONE)))


def _names(value: Any) -> FrozenSet[str]:
    """The names of a set of a mapping, or the one name."""
    names = (value,) if isinstance(value, str) else tuple(value)
    return frozenset(names if all([type(name) is str for name in names]) else map(_exact, names))


def _kept(key: _Asked) -> _native.Environment:
    """The environment, kept for the next time where its texts aren't long."""
    kept = _environments.get(key)
    if kept is None:
        kept = _environment(*key)
        texts = [*[text for pair in key[0] for text in pair], *key[2], *key[3]]
        if sum(map(len, texts)) <= _MOST_LETTERS:
            if len(_environments) >= _MOST_KEPT:
                _environments.clear()
            _environments[key] = kept
    return kept


class Marker(_native.Marker):
    """A marker.

    >>> marker = Marker("python_version>='3.8' and (os_name=='posix' or extra=='Test_x')")
    >>> str(marker)
    'python_version >= "3.8" and (os_name == "posix" or extra == "Test_x")'
    >>> marker.evaluate({"python_version": "3.12", "os_name": "nt"}, extra="test-x")
    True
    >>> Marker("os_name = 'nt'")
    Traceback (most recent call last):
        ...
    pylock.markers.InvalidMarker: Expected marker operator, one of <=, <, !=, ==, >=, >, ~=, ===, in, not in
        os_name = 'nt'
                ^

    `text` is the text as it was given; `str` writes it anew as `packaging` does, and markers are equal where that is.

    >>> Marker("os_name == 'nt' or os_name == 'os2'") & Marker("extra == 'x'")
    <Marker('(os_name == "nt" or os_name == "os2") and extra == "x"')>
    """

    # what it says, and what it says to `&`, `|`, str, hash and ==, lie in the compiled part
    __slots__ = ("__weakref__",)

    # ---- the tree, pickles ----

    @property
    def _markers(self) -> MarkerList:
        """The tree, as `packaging` has it. It may be changed, and another one assigned: the marker is what its tree says."""
        from ._parser import text_of, tree_of

        if self._tree is None:
            text = self.text
            tree = tree_of(text) if text else []
            self._tree = tree, text_of(tree)
        return self._tree[0]

    @_markers.setter
    def _markers(self, tree: MarkerList) -> None:
        from ._parser import text_of

        self._read_tree(tree, text_of(tree))

    def _read_tree(self, tree: MarkerList, text: str) -> None:
        """Makes it the marker of a tree with this text. One without anything in it is true."""
        self._read(text)
        self._tree = tree, text

    def _follow_tree(self) -> None:
        """Reads the tree again, where it was changed: the compiled part asks for it before it says anything."""
        from ._parser import text_of

        assert self._tree is not None
        tree, before = self._tree
        text = text_of(tree)
        if text != before:
            self._read_tree(tree, text)

    @classmethod
    def _from_markers(cls, markers: MarkerList) -> Marker:
        """The marker of a tree."""
        new = cls.__new__(cls)
        new._markers = markers
        return new

    def __reduce_ex__(self, protocol: Any) -> Any:
        # the first two protocols ask the compiled class for a state, and it has none
        return super().__reduce_ex__(max(protocol, 2))

    def __getstate__(self) -> str:
        return self.text

    def __setstate__(self, state: Any) -> None:
        """Takes a pickle of `packaging` too: up to 26.1 it has the tree."""
        if isinstance(state, str):
            self._read(state) if state else self._read_tree([], state)
            return
        if isinstance(state, tuple) and len(state) == 2:
            state = state[1]
        tree = state.get("_markers") if isinstance(state, dict) else None
        if not isinstance(tree, list):
            raise TypeError("Cannot restore Marker from %r" % (state,))
        self._markers = tree

    if TYPE_CHECKING:
        # that of `packaging`, and one that takes whatever is taken beside: so a class may override it as it is there
        @overload
        def evaluate(
            self,
            environment: Optional[Mapping[str, Union[str, AbstractSet[str]]]] = None,
            context: EvaluateContext = "metadata",
        ) -> bool: ...

        @overload
        def evaluate(self, *arguments: Any, **named: Any) -> bool: ...

    def evaluate(  # type: ignore[misc]
        self,
        environment: Union[KeptEnvironment, Mapping[str, Union[str, AbstractSet[str]]], None] = None,
        context: EvaluateContext = "metadata",
        *,
        extra: Optional[str] = None,
    ) -> bool:
        """The value of the marker: in the running Python with the mapping laid over its variables, or in a kept
        `Environment` as it is.

        >>> Marker("sys_platform == 'win32'").evaluate({"sys_platform": "win32"})
        True
        >>> Marker("extra == 'tests'").evaluate(extra="Tests")
        True
        >>> Marker("'tests' in extras").evaluate({"extras": {"Tests"}}, "lock_file")
        True

        The operand `extra` is the text of `extra`, else of the mapping's `extra`, else empty in the metadata of a
        distribution (`context`), and unset elsewhere; it is compared as a name. The mapping's `extras` and
        `dependency_groups` are sets of names, which are empty in a lock file where it has none, and unset elsewhere.
        The variables of the running Python are read once, and mappings that come again are kept for some time, but for those
        with long texts.

        Raises UndefinedEnvironmentName where a variable or a set isn't set, UndefinedComparison where `~=` or `===`
        compares what isn't a version or `extra` stands beside another operator than `==`, `!=`, `in` and `not in`, and
        MarkerFault where `extra` isn't set or a version has a number past 128 bits.
        """
        if environment is None or type(environment) is dict:
            value = self._value_over(_layers(), environment, extra, context == "metadata")
            if value is not None:
                return value
        mapping: Any = _EMPTY
        if isinstance(environment, KeptEnvironment):
            kept = environment._kept
        else:
            if environment is None and context != "lock_file":
                self._find_sets(mapping)
            kept = _mapped(environment, True)
            if environment is not None:
                mapping = environment
                if extra is None:
                    extra = mapping.get("extra")
        if context != "lock_file":
            self._find_sets(mapping)
        if extra is None:
            if context != "metadata" and "extra" not in mapping:
                return self._value_in(kept, None)
            extra = ""
        return self._value_in(kept, extra)

    def _find_sets(self, mapping: Mapping[str, Any]) -> None:
        """Refuses a set that the marker reads and that isn't given."""
        for name in self._sets:
            if name not in mapping:
                behind = f" (it reads {name}, which isn't set)"
                raise untold(Told((UndefinedEnvironmentName, "marker-unset", "Marker without a value: ", behind)), self.text)

    def evaluate_exactly(self, environment: Union[KeptEnvironment, Mapping[str, Any]]) -> bool:
        """The value of the marker in exactly this environment, as the installation steps of a lock want it: nothing
        stands under a mapping, and to read `extra` is a fault.

        >>> Marker("os_name == 'nt'").evaluate_exactly({})
        Traceback (most recent call last):
            ...
        pylock.markers.UndefinedEnvironmentName: Marker without a value: "os_name == 'nt'" (it reads a variable that isn't set)
        """
        kept = environment._kept if isinstance(environment, KeptEnvironment) else _mapped(environment, False)
        return self._value_in(kept, None)

    def is_disjoint(self, other: Marker) -> Answer[EnvironmentWitness]:
        """Whether in no environment both markers are true, of those that an interpreter of Python may have: `python_version` is
        that of `python_full_version`, `os_name`, `sys_platform` and `platform_system` are of one platform, and variables may be
        unset. It is as in a lock, where `extra` has no text: a marker that reads it is neither true nor false. A no has an
        environment in which both are true, as `evaluate_exactly` takes it.

        >>> answer = Marker("python_version < '3.10'").is_disjoint(Marker("python_full_version >= '3.12.1'"))
        >>> bool(answer)
        True
        """
        from ._answers import answer_of_markers

        return answer_of_markers(self._disjoint(other))

    def implies(self, other: Marker) -> Answer[EnvironmentWitness]:
        """Whether the other marker is true, or has no value, in each such environment in which this one is true. A no has one
        in which this marker is true and the other false.

        >>> bool(Marker("sys_platform == 'win32'").implies(Marker("os_name == 'nt'")))
        True
        >>> Marker("os_name == 'nt'").implies(Marker("'docs' in extras")).witness["os_name"]
        'nt'
        """
        from ._answers import answer_of_markers

        return answer_of_markers(self._implied(other))


_native.use_marker(Marker)
