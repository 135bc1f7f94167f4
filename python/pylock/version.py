"""Versions (PEP 440), with the names and meanings of `packaging.version`.

    >>> from pylock.version import Version, normalize_pre, parse
    >>> parse("1.0.dev4") < Version("1.0")
    True
    >>> str(Version("v1.0-RC.1"))
    '1.0rc1'

The normal spelling of the word of a pre-release; another word in lower case:

    >>> normalize_pre("Alpha"), normalize_pre("preview"), normalize_pre("b")
    ('a', 'rc', 'b')

What is different: a number of a version has at most 128 bits, and white space is ASCII white space.
"""

from __future__ import annotations

from . import _native, _private
from ._errors import InvalidVersion
from ._typing import TYPE_CHECKING, Any, Iterable, List, Tuple

__all__ = [
    "VERSION_PATTERN",
    "InvalidVersion",
    "Version",
    "normalize_pre",
    "parse",
    "parse_all",
    "sorted_versions",
    "version_key",
]

# the text of PEP 440, appendix B, as `packaging` gives it
VERSION_PATTERN = r"""
    v?
    (?:
        (?:(?P<epoch>[0-9]+)!)?                           # epoch
        (?P<release>[0-9]+(?:\.[0-9]+)*)                  # release segment
        (?P<pre>                                          # pre-release
            [-_\.]?
            (?P<pre_l>alpha|a|beta|b|preview|pre|c|rc)
            [-_\.]?
            (?P<pre_n>[0-9]+)?
        )?
        (?P<post>                                         # post release
            (?:-(?P<post_n1>[0-9]+))
            |
            (?:
                [-_\.]?
                (?P<post_l>post|rev|r)
                [-_\.]?
                (?P<post_n2>[0-9]+)?
            )
        )?
        (?P<dev>                                          # dev release
            [-_\.]?
            (?P<dev_l>dev)
            [-_\.]?
            (?P<dev_n>[0-9]+)?
        )?
    )
    (?:\+(?P<local>[a-z0-9]+(?:[-_\.][a-z0-9]+)*))?       # local version
"""
"""The pattern of a version, for use in longer patterns (`re.VERBOSE | re.IGNORECASE`). Nothing here reads it."""

normalize_pre = _native.normalize_pre


_BaseVersion = _private._BaseVersion


class Version(_private.VersionParts, _native.Version, _BaseVersion):  # type: ignore[misc]
    """A version. Equal versions, as `1` and `1.0`, are equal and have one hash, whatever their texts.

    >>> Version("1.0a5") < Version("1.0")
    True
    >>> Version("1.0") == Version("1")
    True
    >>> Version("1.0+abc.1").local
    'abc.1'
    >>> sorted([Version("1.10"), Version("1.9")])
    [<Version('1.9')>, <Version('1.10')>]

    Its parts are `epoch`, `release`, `pre`, `post`, `dev` and `local`, and of these `major`, `minor`, `micro`, `public`,
    `base_version`, `is_prerelease`, `is_postrelease` and `is_devrelease`:

    >>> one = Version("1!2.0c2-3+Ubuntu-01")
    >>> one.epoch, one.release, one.pre, one.post, one.dev, one.local
    (1, (2, 0), ('rc', 2), 3, None, 'ubuntu.1')
    >>> one.major, one.minor, one.micro, one.public, one.base_version
    (2, 0, 0, '1!2.0rc2.post3', '1!2.0')
    >>> one.is_prerelease, one.is_postrelease, one.is_devrelease
    (True, True, False)

    `from_parts` makes a version of parts, and `__replace__`, for `copy.replace`, one with other parts, of which one that is
    None is left away:

    >>> Version.from_parts(epoch=1, release=(2, 0), pre=("rc", 1), local="Ubuntu-1")
    <Version('1!2.0rc1+ubuntu.1')>
    >>> Version("1.0a1+x").__replace__(pre=None, post=2)
    <Version('1.0.post2+x')>

    A version can't be changed. It holds the text that it was read from, its place in the order and its parts.
    """

    __slots__ = ()
    __match_args__ = ("_str",)

    @property
    def _str(self) -> str:
        return str(self)

    def __reduce__(self) -> Tuple[Any, ...]:
        from ._subclasses import reduced

        state = self._epoch, self._release, self._pre, self._post, self._dev, self._local
        return reduced(self, Version, (str(self),), state)


def parse(version: str) -> Version:
    """The version of a text.

    >>> parse("1.0.dev1")
    <Version('1.0.dev1')>
    """
    return Version(version)


_native.use_version(Version)


def parse_all(versions: Iterable[str]) -> List[Version]:
    """The versions of the texts, in their order; the first text that is no version is refused.

    >>> parse_all(["1.10", "1.9"])
    [<Version('1.10')>, <Version('1.9')>]
    """
    return list(map(Version, versions))


def version_key(version: str) -> bytes:
    """Bytes whose order is the order of versions: a key function for `sorted`, `min` and `max` of texts.

    >>> max(["1.9", "1.10"], key=version_key)
    '1.10'
    """
    return _native.version_key(version)


def sorted_versions(versions: Iterable[str]) -> List[str]:
    """The texts in the order of their versions; texts of equal versions stay in their order.

    >>> sorted_versions(["1.10", "v1.9", "1.10.dev1", "1.9.0"])
    ['v1.9', '1.9.0', '1.10.dev1', '1.10']
    """
    return sorted(versions, key=_native.version_key)


if not TYPE_CHECKING:
    __getattr__ = _private.names_of("version")
