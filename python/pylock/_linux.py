"""The platforms of Linux: glibc's (PEP 513, 571, 599, 600) and musl's (PEP 656), for the running Python."""

from __future__ import annotations

import functools
import os
import re
import subprocess
import sys
import warnings
from typing import Any, Callable, Dict, Iterator, NamedTuple, Optional, Sequence

from ._elf import ARM, I386, Program, read_program

__all__ = ["Release", "glibc_release", "manylinux_platforms", "musl_release", "musllinux_platforms"]


class Release(NamedTuple):
    """The release of a C library."""

    major: int
    minor: int


# ---- glibc ----

_TWO_NUMBERS = re.compile(r"([0-9]+)\.([0-9]+)")

# what wheels were named by before PEP 600
_OLDER_NAMES = {Release(2, 5): "manylinux1", Release(2, 12): "manylinux2010", Release(2, 17): "manylinux2014"}

# Wheels of x86 go back to glibc 2.5 (PEP 513), those of other machines to 2.17 (PEP 599).
_OLDEST_OF_X86 = 5
_OLDEST = 17

# Nobody knows what the last release of a glibc 2 will be, once there is a 3: no wheel is past this one.
_LAST_MINOR = 50

_MACHINES = frozenset(("x86_64", "aarch64", "ppc64", "ppc64le", "s390x", "loongarch64", "riscv64"))
"""The machines whose name says all of the ABI."""

# the fifth version of the ARM ABI, with numbers in registers of their own (e_flags)
_ARM_ABI = 0x05000000
_ARM_ABI_MASK = 0xFF000000
_ARM_HARD_FLOAT = 0x00000400


def _glibc_of_system() -> Optional[str]:
    """glibc's release as the system's configuration has it. This needs neither a file nor `ctypes`."""
    try:
        words = (os.confstr("CS_GNU_LIBC_VERSION") or "").split()
    except (AttributeError, OSError, ValueError):
        return None
    return words[1] if len(words) == 2 else None


def _glibc_of_process() -> Optional[str]:
    """glibc's release, as the process itself has it loaded."""
    try:
        import ctypes

        release = ctypes.CDLL(None).gnu_get_libc_version
    except (ImportError, OSError, AttributeError):
        return None
    release.restype = ctypes.c_char_p
    return (release() or b"").decode("ascii", "replace") or None


def read_glibc_release(text: str) -> Optional[Release]:
    """The release that a text begins with; a warning and None where it begins with none."""
    found = _TWO_NUMBERS.match(text)
    if found is None:
        warnings.warn("glibc's release is not MAJOR.MINOR: %s" % text, RuntimeWarning, stacklevel=3)
        return None
    return Release(int(found.group(1)), int(found.group(2)))


@functools.lru_cache(maxsize=None)
def glibc_release() -> Optional[Release]:
    """The release of the glibc that the process uses; None where it uses another library."""
    text = _glibc_of_system() or _glibc_of_process()
    return None if text is None else read_glibc_release(text)


def _is_hard_float_arm(program: Program) -> bool:
    right_abi = program.flags & _ARM_ABI_MASK == _ARM_ABI and bool(program.flags & _ARM_HARD_FLOAT)
    return program.bits == 32 and program.little and program.machine == ARM and right_abi


def _is_i686(program: Program) -> bool:
    return program.bits == 32 and program.little and program.machine == I386


# machines with more than one ABI: the running Python's own file says which one it is
_ASKED_OF_FILE: Dict[str, Callable[[Program], bool]] = {"armv7l": _is_hard_float_arm, "i686": _is_i686}


def has_wheels(executable: Optional[str], machines: Sequence[str]) -> bool:
    """Whether a Python has an ABI that wheels of glibc are made for."""
    for machine, is_right in _ASKED_OF_FILE.items():
        if machine in machines:
            program = read_program(executable)
            return program is not None and is_right(program)
    return any(machine in _MACHINES for machine in machines)


def _objections() -> Any:
    """The module `_manylinux`, by which a distribution may object to wheels (PEP 513, PEP 600); None without one."""
    try:
        import _manylinux  # type: ignore
    except ImportError:
        return None
    return _manylinux


def _is_admitted(release: Release, machine: str, objections: Any) -> bool:
    """Whether the distribution admits wheels for a release."""
    if hasattr(objections, "manylinux_compatible"):
        answer = objections.manylinux_compatible(release.major, release.minor, machine)
        return answer is None or bool(answer)
    if release in _OLDER_NAMES:
        return bool(getattr(objections, _OLDER_NAMES[release] + "_compatible", True))
    return True


def _releases(newest: Release, oldest_minor: int) -> Iterator[Release]:
    """The releases of glibc from the newest down to 2.`oldest_minor`."""
    for major in range(newest.major, min(newest.major, 2) - 1, -1):
        last = newest.minor if major == newest.major else _LAST_MINOR
        for minor in range(last, oldest_minor - 1 if major == 2 else -1, -1):
            yield Release(major, minor)


def manylinux_platforms(machines: Sequence[str]) -> Iterator[str]:
    """The platforms of glibc for these machines, the best first."""
    newest = glibc_release() if has_wheels(sys.executable, machines) else None
    if newest is None:
        return
    oldest_minor = _OLDEST_OF_X86 if "x86_64" in machines or "i686" in machines else _OLDEST
    objections = _objections()
    for machine in machines:
        for release in _releases(newest, oldest_minor):
            if _is_admitted(release, machine, objections):
                yield "manylinux_%d_%d_%s" % (release.major, release.minor, machine)
                if release in _OLDER_NAMES:
                    yield "%s_%s" % (_OLDER_NAMES[release], machine)


# ---- musl ----

_VERSION_LINE = re.compile(r"Version ([0-9]+)\.([0-9]+)")


def read_musl_release(told: str) -> Optional[Release]:
    """The release that musl's loader tells, when it is run without a program.

    >>> read_musl_release("musl libc (x86_64)\\nVersion 1.2.4\\nDynamic Program Loader\\n")
    Release(major=1, minor=2)
    """
    lines = [line.strip() for line in told.splitlines() if line.strip()]
    if len(lines) < 2 or not lines[0].startswith("musl"):
        return None
    found = _VERSION_LINE.match(lines[1])
    return Release(int(found.group(1)), int(found.group(2))) if found else None


@functools.lru_cache(maxsize=None)
def musl_release(executable: Optional[str]) -> Optional[Release]:
    """The release of the musl that a program runs on: its loader is asked. None where it runs on another library."""
    program = read_program(executable)
    if program is None or program.loader is None or "musl" not in program.loader:
        return None
    told = subprocess.run([program.loader], check=False, stderr=subprocess.PIPE, universal_newlines=True)
    return read_musl_release(told.stderr)


def musllinux_platforms(machines: Sequence[str]) -> Iterator[str]:
    """The platforms of musl for these machines, the best first."""
    release = musl_release(sys.executable)
    if release is not None:
        for machine in machines:
            for minor in range(release.minor, -1, -1):
                yield "musllinux_%d_%d_%s" % (release.major, minor, machine)
