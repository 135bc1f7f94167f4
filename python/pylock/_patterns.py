"""Regular expressions that programs take of `packaging` (docs/PRIVATE.md). Nothing here reads a text by them."""

from __future__ import annotations

import re

from .version import VERSION_PATTERN

__all__ = ["BUILD_TAG", "LOCAL_SEPARATORS", "NAME", "NORMAL_NAME", "SPECIFIER", "SPECIFIER_PATTERN", "VERSION"]

_RELEASE = r"v? (?:[0-9]+!)? [0-9]+ (?:\.[0-9]+)"
_PRE = r"(?: [-_.]? (?:alpha|beta|preview|pre|a|b|c|rc) [-_.]? [0-9]* )?"
_POST = r"(?: -[0-9]+ | [-_.]? (?:post|rev|r) [-_.]? [0-9]* )?"
_DEV = r"(?: [-_.]? dev [-_.]? [0-9]* )?"
_LOCAL = r"(?: \+ [a-z0-9]+ (?:[-_.][a-z0-9]+)* )?"
_PHASE = _PRE + _POST + _DEV

SPECIFIER_PATTERN = "|".join([
    r"(?: === \s* [^\s;)]*",
    r"(?: == | != ) \s* " + _RELEASE + r"* (?: \.\* | " + _PHASE + _LOCAL + ")",
    r"~= \s* " + _RELEASE + "+ " + _PHASE,
    r"(?: <= | >= | < | > ) \s* " + _RELEASE + "* " + _PHASE + ")",
])
"""The specifiers of PEP 440, by their operators (`re.VERBOSE | re.IGNORECASE`)."""

SPECIFIER = re.compile(r"\s*" + SPECIFIER_PATTERN + r"\s*", re.VERBOSE | re.IGNORECASE)
VERSION = re.compile(r"\s*" + VERSION_PATTERN + r"\s*", re.VERBOSE | re.IGNORECASE)
LOCAL_SEPARATORS = re.compile("[-_.]")
NAME = re.compile("[a-z0-9]|[a-z0-9][a-z0-9._-]*[a-z0-9]", re.IGNORECASE | re.ASCII)
NORMAL_NAME = re.compile("[a-z0-9]+(?:-[a-z0-9]+)*", re.ASCII)
BUILD_TAG = re.compile(r"(\d+)(.*)", re.ASCII)
"""The number of a build, and what stands behind it (PEP 427)."""
