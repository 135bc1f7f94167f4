"""Python's packaging rules, and the plan of a `pylock.toml`: a module over the proved library of pylock.

The names and meanings of `packaging` (versions, specifiers, markers, requirements, tags, names) stand here and in
submodules of the same names, so that a program changes only its imports. Locks are pylock's own part:

    lock = pylock.Lock.read("pylock.toml")
    for pick in lock.plan(pylock.environment()):
        print(pick.name, pick.version, pick.place)

Where a meaning differs from that of `packaging`, docs/PYTHON.md says so in a table. Versions, markers, tags and
environments can't be changed, and may be shared between threads as specifiers and requirements may to which nothing is
assigned; a Lock and a Session stay on the thread that made them.
"""

from __future__ import annotations

try:
    from . import _native
except ImportError as error:
    if "_native" not in str(error):
        raise
    raise ImportError(
        "pylock: there is no compiled module beside this one: `pip install` of the folder python/ builds it"
    ) from None

TYPE_CHECKING = False

if TYPE_CHECKING:
    from . import markers, requirements, specifiers, tags, utils, version
    from ._answers import Answer, Outcome
    from ._environment import VARIABLES, Environment, environment
    from ._errors import (
        InvalidAdvisories,
        InvalidEdit,
        InvalidEnvironment,
        InvalidInstalled,
        InvalidLock,
        InvalidProject,
        InvalidTarget,
        PlanFault,
        Refusal,
        StrictRefusal,
        WrongThread,
    )
    from ._lock import Difference, Explanation, File, Finding, Lock, Options, Package, Pick, Session, Step, Verdict
    from .markers import (
        InvalidMarker,
        Marker,
        MarkerFault,
        UndefinedComparison,
        UndefinedEnvironmentName,
        default_environment,
    )
    from .requirements import InvalidRequirement, Requirement
    from .specifiers import InvalidSpecifier, Specifier, SpecifierSet
    from .tags import InvalidTag, Tag, UnsortedTagsError, parse_tag
    from .utils import (
        BuildTag,
        InvalidName,
        InvalidSdistFilename,
        InvalidWheelFilename,
        NormalizedName,
        canonicalize_name,
        canonicalize_version,
        is_normalized_name,
        parse_sdist_filename,
        parse_wheel_filename,
    )
    from .version import VERSION_PATTERN, InvalidVersion, Version, parse, parse_all, sorted_versions, version_key

__all__ = [
    "Answer", "BuildTag", "Difference", "Environment", "Explanation", "File", "Finding", "InvalidAdvisories", "InvalidEdit",
    "InvalidEnvironment", "InvalidInstalled", "InvalidLock", "InvalidMarker", "InvalidName", "InvalidProject",
    "InvalidRequirement", "InvalidSdistFilename", "InvalidSpecifier", "InvalidTag", "InvalidTarget", "InvalidVersion",
    "InvalidWheelFilename", "Lock", "Marker", "MarkerFault", "NormalizedName", "Options", "Outcome", "Package", "Pick",
    "PlanFault", "Refusal", "Requirement", "Session", "Specifier", "SpecifierSet", "Step", "StrictRefusal", "Tag",
    "UndefinedComparison", "UndefinedEnvironmentName", "UnsortedTagsError", "VARIABLES", "VERSION_PATTERN", "Verdict",
    "Version", "WrongThread", "canonicalize_name", "canonicalize_version", "default_environment", "environment",
    "is_normalized_name", "markers", "parse", "parse_all", "parse_sdist_filename", "parse_tag", "parse_wheel_filename",
    "requirements", "sorted_versions", "specifiers", "tags", "utils", "version", "version_key",
]


# ---- what is imported when it is asked for ----


def _told(*refused):  # type: ignore[no-untyped-def]
    """What the exception of a refused text is made of."""
    from ._library import _told

    return _told(*refused)


def _refused_input(*refused):  # type: ignore[no-untyped-def]
    """The exception of a refused lock or environment."""
    from ._library import _refused_input

    return _refused_input(*refused)


_native.use_refusals(_told, _refused_input)

# The modules in which the names are. A module is imported when a name of it is asked for: who imports another one alone, as
# `pylock.version`, waits for no more than it needs.
_MODULES = {
    "_answers": ("Answer", "Outcome"),
    "_environment": ("VARIABLES", "Environment", "environment"),
    "_errors": (
        "InvalidAdvisories", "InvalidEdit", "InvalidEnvironment", "InvalidInstalled", "InvalidLock", "InvalidMarker",
        "InvalidName", "InvalidProject", "InvalidRequirement", "InvalidSdistFilename", "InvalidSpecifier", "InvalidTag",
        "InvalidTarget", "InvalidVersion", "InvalidWheelFilename", "MarkerFault", "PlanFault", "Refusal", "StrictRefusal",
        "UndefinedComparison", "UndefinedEnvironmentName", "UnsortedTagsError", "WrongThread",
    ),
    "_lock": ("Difference", "Explanation", "File", "Finding", "Lock", "Options", "Package", "Pick", "Session", "Step", "Verdict"),
    "markers": ("Marker", "default_environment"),
    "requirements": ("Requirement",),
    "specifiers": ("Specifier", "SpecifierSet"),
    "tags": ("Tag", "parse_tag"),
    "utils": (
        "BuildTag", "NormalizedName", "canonicalize_name", "canonicalize_version", "is_normalized_name",
        "parse_sdist_filename", "parse_wheel_filename",
    ),
    "version": ("VERSION_PATTERN", "Version", "parse", "parse_all", "sorted_versions", "version_key"),
}
_PLACES = {name: module for module, names in _MODULES.items() for name in names}


def _found(name: str) -> object:
    """The `__getattr__` of the package: a module of it, or a name that is in one."""
    from importlib import import_module

    if name in _MODULES:
        return import_module("pylock." + name)
    if name not in _PLACES:
        raise AttributeError("module 'pylock' has no attribute %r" % name)
    value = globals()[name] = getattr(import_module("pylock." + _PLACES[name]), name)
    return value


if not TYPE_CHECKING:
    __getattr__ = _found


def __dir__() -> "list[str]":
    return sorted({*globals(), *__all__})


__version__ = "1.14.0"

# what `packaging` tells of itself, as far as this module has it (docs/PRIVATE.md)
__title__ = "pylock"
__summary__ = "Python's packaging rules and the plan of a pylock.toml, over a proved library"
__uri__ = __author__ = __email__ = __license__ = __copyright__ = ""
