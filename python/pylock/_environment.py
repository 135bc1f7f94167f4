"""Environments: the variables of markers, and the tags of wheels."""

from __future__ import annotations

from typing import Any, Iterable, Mapping, NoReturn, Optional, Tuple

from . import _library as _native

__all__ = ["Environment", "VARIABLES", "environment"]

VARIABLES = (
    "os_name", "sys_platform", "platform_machine", "platform_python_implementation", "platform_release",
    "platform_system", "platform_version", "python_version", "python_full_version", "implementation_name",
    "implementation_version",
)
"""The variables of markers."""


def variables_text(variables: Mapping[str, str], tags: Iterable[str]) -> bytes:
    """The environment as JSON."""
    from json import dumps

    return dumps({"environment": dict(variables), "tags": list(tags)}).encode()


class _Fixed(dict):  # type: ignore[type-arg]
    """A dict that can't be changed: what the library keeps is what stands here."""

    __slots__ = ()

    def _refuse(self, *arguments: Any, **named: Any) -> NoReturn:
        raise TypeError("an environment can't be changed")

    __setitem__ = __delitem__ = __ior__ = clear = pop = popitem = setdefault = update = _refuse  # type: ignore

    def __reduce_ex__(self, argument: Any = None) -> NoReturn:
        raise TypeError("an environment can't be copied or pickled")

    __copy__ = __deepcopy__ = __reduce_ex__  # type: ignore[assignment]


class Environment(_Fixed):
    """The variables of markers and the tags of wheels, most wanted first, read once and kept.

    >>> linux = Environment({"sys_platform": "linux", "python_version": "3.12"}, ["py3-none-any"])
    >>> linux.variables["sys_platform"], linux.tags
    ('linux', ('py3-none-any',))

    It is a dict of the form of an environment file, so `json.dump` writes one:

    >>> import json
    >>> json.dumps(Environment({"os_name": "nt"}, []))
    '{"environment": {"os_name": "nt"}, "tags": []}'

    A variable that isn't given is unset. It can't be changed, and threads may share it. A text that is no tag is
    refused as InvalidEnvironment.
    """

    __slots__ = ("_kept", "_json", "__weakref__")

    def __init__(self, variables: Mapping[str, str], tags: Iterable[str] = ()) -> None:
        if isinstance(tags, str):
            raise TypeError("expected a list of tags, not a str")
        tag_texts = tuple(str(tag) for tag in tags)
        for name, value in variables.items():
            if not isinstance(name, str) or not isinstance(value, str):
                raise TypeError("variables are texts by their names: %r: %r" % (name, value))
        self._json = variables_text(variables, tag_texts)
        self._kept = _native.environment_read(self._json)
        super().__init__(environment=_Fixed(variables), tags=tag_texts)

    @classmethod
    def read(cls, source: Any) -> Environment:
        """The environment of a file, by its path or its bytes.

        >>> Environment.read(b'{"environment": {"os_name": "nt"}, "tags": []}').variables["os_name"]
        'nt'
        """
        content = read_source(source)
        from json import loads

        # judged first: what the library takes for an environment is one for `json` too
        _native.environment_read(content)
        document = loads(content.decode())
        return cls(
            {name: value for name, value in document["environment"].items() if isinstance(value, str)},
            document["tags"],
        )

    @property
    def variables(self) -> Mapping[str, str]:
        """The variables that are set."""
        return self["environment"]  # type: ignore[no-any-return]

    @property
    def tags(self) -> Tuple[str, ...]:
        """The tags as they were given, most wanted first."""
        return self["tags"]  # type: ignore[no-any-return]

    def __repr__(self) -> str:
        return "<Environment(%d variables, %d tags)>" % (len(self.variables), len(self.tags))

    __hash__ = None  # type: ignore[assignment]


def read_source(source: Any) -> bytes:
    """The bytes that are given, or those of the file of a path."""
    if isinstance(source, (bytes, bytearray, memoryview)):
        return bytes(source)
    if isinstance(source, int):
        raise TypeError("expected a path or bytes, not int")
    with open(source, "rb") as file:
        return file.read()


def environment_bytes(environment: Any) -> bytes:
    """The JSON of an environment: a kept one, one as a mapping, or bytes."""
    if isinstance(environment, Environment):
        return environment._json
    if isinstance(environment, (bytes, bytearray, memoryview)):
        return bytes(environment)
    if isinstance(environment, Mapping):
        from json import dumps

        return dumps(environment).encode()
    raise TypeError("expected an Environment, a mapping or bytes, not %s" % type(environment).__name__)


def environment(python: Optional[str] = None, platform: Optional[str] = None) -> Environment:
    """The environment of the running Python, as `tools/environment` writes it; or that of a target, of which both are
    given: a Python as "3.12", "3.12.4" or "3.13t", and a platform as "manylinux_2_28_x86_64", "linux", "macos" or
    "windows", or in uv's words as "aarch64-apple-darwin". A target leaves `platform_release` and `platform_version`
    unset.

    >>> environment(python="3.12", platform="win_amd64").tags[0]
    'cp312-cp312-win_amd64'

    >>> import json
    >>> sorted(json.loads(json.dumps(environment())))
    ['environment', 'tags']

    The variables and tags of the running Python are `default_environment` of `pylock.markers` and `sys_tags` of
    `pylock.tags`. A target that is none is refused as InvalidTarget.
    """
    if python is not None and platform is not None:
        return Environment.read(_native.environment_target(python, platform))
    if python is not None or platform is not None:
        raise TypeError("expected both python and platform, or neither")
    from .markers import running_variables
    from .tags import sys_tags

    return Environment(running_variables(), map(str, sys_tags()))
