"""The platforms of musl, with the names of `packaging._musllinux` (docs/PRIVATE.md)."""

from __future__ import annotations

from ._linux import Release as _MuslVersion
from ._linux import musl_release as _get_musl_version
from ._linux import musllinux_platforms as platform_tags
from ._linux import read_musl_release as _parse_musl_version

# the release of a C library; of the musl that a program runs on, or None; of what its loader tells, or None
__all__ = ["_MuslVersion", "_get_musl_version", "_parse_musl_version", "platform_tags"]
