"""The platforms of glibc, with the names of `packaging._manylinux` (docs/PRIVATE.md)."""

from __future__ import annotations

from contextlib import contextmanager
from typing import Iterator, Optional, Sequence

from . import _linux
from ._elffile import ELFFile
from ._linux import Release as _GLibCVersion
from ._linux import manylinux_platforms as platform_tags

__all__ = ["_GLibCVersion", "platform_tags"]

_NONE = _GLibCVersion(-1, -1)
_LEGACY_MANYLINUX_MAP = dict(_linux._OLDER_NAMES)
_ALLOWED_ARCHS = set(_linux._MACHINES)


def _get_glibc_version() -> _GLibCVersion:
    """The release of the glibc that the process uses; -1 and -1 where it uses another library.

    >>> len(_get_glibc_version())
    2
    """
    return _linux.glibc_release() or _NONE


def _glibc_version_string() -> Optional[str]:
    """The text of that release, or None."""
    return _linux._glibc_of_system() or _linux._glibc_of_process()


def _parse_glibc_version(version_str: str) -> _GLibCVersion:
    """The release of a text, as `2.36`."""
    return _linux.read_glibc_release(version_str) or _NONE


def _is_compatible(arch: str, version: _GLibCVersion) -> bool:
    """Whether wheels for a release of glibc and a machine run here."""
    if _get_glibc_version() < version:
        return False
    return _linux._is_admitted(_GLibCVersion(*version), arch, _linux._objections())


def _have_compatible_abi(executable: str, archs: Sequence[str]) -> bool:
    """Whether a Python has an ABI that wheels of glibc are made for."""
    return _linux.has_wheels(executable, archs)


def _is_linux_armhf(executable: str) -> bool:
    """Whether a program is one of ARM with numbers in registers of their own."""
    return _linux.has_wheels(executable, ["armv7l"])


def _is_linux_i686(executable: str) -> bool:
    """Whether a program is one of x86 with 32 bits."""
    return _linux.has_wheels(executable, ["i686"])


@contextmanager
def _parse_elf(path: str) -> Iterator[Optional[ELFFile]]:
    """What a file of ELF says; None of another one."""
    try:
        with open(path, "rb") as file:
            found: Optional[ELFFile] = ELFFile(file)
    except (OSError, TypeError, ValueError):
        found = None
    yield found

