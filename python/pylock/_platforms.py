"""The platforms that wheels are made for, by the systems: what `pylock.tags` gives of them, the best first."""

from __future__ import annotations

import os
import sys
from typing import Any, Callable, Dict, Iterable, Iterator, List, Optional, Tuple, cast

from . import _native

__all__ = ["AppleVersion", "android_platforms", "ios_platforms", "linux_platforms", "mac_platforms", "platform_tags"]

AppleVersion = Tuple[int, int]
"""The release of a system of Apple's, as (14, 2)."""

_IS_32_BIT = sys.maxsize < 2**32


# What the running system is asked by is imported when it is asked: who names a system waits for none of it.


def _platform() -> Any:
    """The module `platform`, with what came to it in 3.13."""
    import platform

    return platform


def _configured() -> str:
    """The platform as the Python's configuration has it."""
    import sysconfig

    return sysconfig.get_platform()


def normal_text(text: str) -> str:
    """The text as a part of a tag has it (PEP 425): nothing in it divides tags."""
    return text.replace(".", "_").replace("-", "_").replace(" ", "_")


def _two_numbers(text: str) -> AppleVersion:
    return cast(AppleVersion, tuple(int(piece) for piece in text.split(".")[:2]))


# ---- macOS ----

# the formats of files that run on a machine: one of them has the code of several machines
_MAC_FORMATS = {
    "x86_64": ("x86_64", "intel", "fat64", "fat32", "universal2", "universal"),
    "i386": ("i386", "intel", "fat32", "fat", "universal"),
    "ppc64": ("ppc64", "fat64", "universal"),
    "ppc": ("ppc", "fat32", "fat", "universal"),
    "intel": ("intel", "universal"),
    "arm64": ("arm64", "universal2"),
}

# the first release for a machine, where there is one, and the last one of those that were none for 11
_MAC_FIRST = {"x86_64": (10, 4), "i386": (10, 4), "ppc64": (10, 4)}
_MAC_LAST = {"ppc64": (10, 5), "ppc": (10, 6)}

# What calls itself 10.16 is 11, for programs that were built before it.
_MAC_LAST_OF_10 = 16


def _mac_endings(arch: str) -> List[str]:
    """What the platforms of a machine end with."""
    return ["_" + each for each in _MAC_FORMATS.get(arch, (arch,))]


def _running_mac_version(told: str) -> AppleVersion:
    """The release of the running system. 10.16 is what it tells an old Python: a Python without that memory is asked."""
    version = _two_numbers(told)
    if version == (10, 16):
        import subprocess

        asked = subprocess.run(
            [sys.executable, "-sS", "-c", "import platform; print(platform.mac_ver()[0])"],
            check=True, env=dict(os.environ, SYSTEM_VERSION_COMPAT="0"), stdout=subprocess.PIPE, universal_newlines=True,
        )
        version = _two_numbers(asked.stdout)
    return version


def _running_mac_arch(arch: str) -> str:
    """The machine of the running Python: one of 32 bits runs on a machine of 64 bits too."""
    if not _IS_32_BIT:
        return arch
    return "ppc" if arch.startswith("ppc") else "i386"


def mac_platforms(version: Optional[AppleVersion] = None, arch: Optional[str] = None) -> Iterator[str]:
    """The platforms of a macOS, by default the running one.

    >>> list(mac_platforms((11, 0), "arm64"))[:3]
    ['macosx_11_0_arm64', 'macosx_11_0_universal2', 'macosx_10_16_universal2']
    """
    if version is None or arch is None:
        told, _, machine = _platform().mac_ver()
        version = _running_mac_version(told) if version is None else version
        arch = _running_mac_arch(machine) if arch is None else arch
    endings = _mac_endings(arch)
    if (10, 0) <= version < (11, 0):
        first, last = _MAC_FIRST.get(arch, (10, 0)), _MAC_LAST.get(arch, version)
        for minor in range(version[1], -1, -1):
            if first <= (10, minor) <= last:
                head = "macosx_10_%d" % minor
                for ending in endings:
                    yield head + ending
    if version >= (11, 0):
        for major in range(version[0], 10, -1) if arch not in _MAC_LAST else ():
            # the second number says nothing of what runs, from 11 on
            head = "macosx_%d_0" % major
            for ending in endings:
                yield head + ending
        if arch != "x86_64":
            # what was built for 10 runs on other machines where it has code for them
            endings = ["_universal2"]
        for minor in range(_MAC_LAST_OF_10, 3, -1):
            head = "macosx_10_%d" % minor
            for ending in endings:
                yield head + ending


# ---- iOS and Android ----

# the first release that a Python runs on
_FIRST_IOS = 12
_FIRST_ANDROID = 16

# No iOS had a second number past this one. A wheel for one that never was does no harm.
_LAST_IOS_MINOR = 9


def ios_platforms(version: Optional[AppleVersion] = None, multiarch: Optional[str] = None) -> Iterator[str]:
    """The platforms of an iOS (PEP 730), by default the running one.

    >>> list(ios_platforms((12, 1), "arm64-iphoneos"))
    ['ios_12_1_arm64_iphoneos', 'ios_12_0_arm64_iphoneos']
    """
    if version is None:
        version = _two_numbers(_platform().ios_ver()[1])
    if multiarch is None:
        multiarch = str(sys.implementation._multiarch)
    ending = "_" + multiarch.replace("-", "_")
    for major in range(version[0], _FIRST_IOS - 1, -1):
        last = version[1] if major == version[0] else _LAST_IOS_MINOR
        yield from _native.numbered("ios_%d_" % major, last, 0, ending)


def android_platforms(api_level: Optional[int] = None, abi: Optional[str] = None) -> Iterator[str]:
    """The platforms of an Android (PEP 738), by default the running one.

    >>> list(android_platforms(17, "x86"))
    ['android_17_x86', 'android_16_x86']
    """
    if (api_level is None or abi is None) and _platform().system() != "Android":
        raise TypeError("this is no Android: api_level and abi have to be given")
    if api_level is None:
        api_level = _platform().android_ver().api_level
    if abi is None:
        abi = _configured().split("-")[-1]
    yield from _native.numbered("android_", cast(int, api_level), _FIRST_ANDROID, "_" + normal_text(abi))


# ---- Linux and the rest ----

# what a Python of 32 bits runs on, where the machine has 64
_32_BIT_MACHINES = {"linux_x86_64": "linux_i686", "linux_aarch64": "linux_armv8l"}

# machines that run what is made for others
_ALSO_RUN = {"armv8l": ("armv8l", "armv7l")}


def linux_platforms(is_32_bit: bool = _IS_32_BIT) -> Iterator[str]:
    """The platforms of the running Linux."""
    from ._linux import manylinux_platforms, musllinux_platforms

    own = normal_text(_configured())
    if not own.startswith("linux_"):
        # a system that is told to be another one, or a build of its own
        yield own
        return
    if is_32_bit:
        own = _32_BIT_MACHINES.get(own, own)
    machine = own[len("linux_") :]
    machines = _ALSO_RUN.get(machine, (machine,))
    yield from manylinux_platforms(machines)
    yield from musllinux_platforms(machines)
    for each in machines:
        yield "linux_" + each


_SYSTEMS: Dict[str, Callable[[], Iterator[str]]] = {
    "Darwin": mac_platforms,
    "iOS": ios_platforms,
    "Android": android_platforms,
    "Linux": linux_platforms,
}


def platform_tags() -> Iterator[str]:
    """The platforms of the running Python.

    >>> all("-" not in each for each in platform_tags())
    True
    """
    system = _SYSTEMS.get(_platform().system())
    if system is None:
        return iter([normal_text(_configured())])
    return system()


def listed(platforms: Optional[Iterable[str]]) -> List[str]:
    """The platforms that are given; those of the running Python where none is."""
    return list(platforms or platform_tags())
