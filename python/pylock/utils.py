"""Names of projects and of files, with the names and meanings of `packaging.utils`.

    >>> from pylock.utils import canonicalize_name, canonicalize_version, is_normalized_name
    >>> from pylock.utils import parse_sdist_filename, parse_wheel_filename

The normal form of a text as a name (PEP 503); with `validate` a text that is no name is refused. Letters that aren't ASCII
become lower case as `str.lower` has it, as in `packaging`.

    >>> canonicalize_name("Django_.-rest")
    'django-rest'
    >>> canonicalize_name("-a", validate=True)
    Traceback (most recent call last):
        ...
    pylock.utils.InvalidName: name is invalid: '-a'
    >>> is_normalized_name("foo-bar"), is_normalized_name("foo_bar"), is_normalized_name("-foo")
    (True, False, False)

The normal form of a version, by default without zeros at the end of its release. Other texts stay.

    >>> canonicalize_version("1.0.0-RC1"), canonicalize_version("1.0.0-RC1", strip_trailing_zero=False)
    ('1rc1', '1.0.0rc1')

The name in normal form and the version of an sdist (PEP 625), whose file name is cut at its last dash.

    >>> parse_sdist_filename("foo_bar-1.0.tar.gz")
    ('foo-bar', <Version('1.0')>)

The name in normal form, the version, the build (empty, or a number and the rest) and the tags of a wheel.

    >>> name, version, build, tags = parse_wheel_filename("Foo_Bar-1.0-1b-py3-none-any.whl")
    >>> name, version, build, tags == {Tag("py3", "none", "any")}
    ('foo-bar', <Version('1.0')>, (1, 'b'), True)

With `validate_order` the pieces of a tag's part have to be in the order of texts (PEP 425):

    >>> parse_wheel_filename("a-1-py3.py2-none-any.whl", validate_order=True)
    Traceback (most recent call last):
        ...
    pylock.utils.InvalidWheelFilename: Invalid wheel filename: 'a-1-py3.py2-none-any.whl' (the pieces of a tag aren't in order)
"""

from __future__ import annotations

from typing import TYPE_CHECKING, NewType, Tuple, Union

from . import _native, _private
from ._errors import InvalidName, InvalidSdistFilename, InvalidWheelFilename
from .tags import Tag
from .version import Version

__all__ = [
    "BuildTag",
    "InvalidName",
    "InvalidSdistFilename",
    "InvalidWheelFilename",
    "NormalizedName",
    "canonicalize_name",
    "canonicalize_version",
    "is_normalized_name",
    "parse_sdist_filename",
    "parse_wheel_filename",
]

BuildTag = Union[Tuple[()], Tuple[int, str]]
NormalizedName = NewType("NormalizedName", str)

canonicalize_name = _native.canonicalize_name
canonicalize_version = _native.canonicalize_version
is_normalized_name = _native.is_normalized_name
parse_sdist_filename = _native.parse_sdist_filename
parse_wheel_filename = _native.parse_wheel_filename


if not TYPE_CHECKING:
    __getattr__ = _private.names_of("utils")
