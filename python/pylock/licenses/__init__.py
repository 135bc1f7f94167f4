"""License expressions (PEP 639, SPDX 2.3 annex D), with the names of `packaging.licenses`.

    >>> from pylock.licenses import canonicalize_license_expression
    >>> canonicalize_license_expression("mit  or (apache-2.0 with llvm-exception)")
    'MIT OR (Apache-2.0 WITH LLVM-exception)'

What is different: `LicenseRef-` wants a name of ASCII letters, digits, `.` and `-` behind it, and no `+` after that; behind
`WITH` stands an exception alone; and parentheses may stand in each other as deep as one likes.
"""

from __future__ import annotations

from .._private import names_of
from .._typing import TYPE_CHECKING, Any, Dict, List, Tuple

if TYPE_CHECKING:
    from typing import NewType

    NormalizedLicenseExpression = NewType("NormalizedLicenseExpression", str)
    _Normalized = NormalizedLicenseExpression
else:
    _Normalized = str

__all__ = ["InvalidLicenseExpression", "NormalizedLicenseExpression", "canonicalize_license_expression"]

_REFERENCE = "LicenseRef-"


class InvalidLicenseExpression(ValueError):
    """A text is no license expression.

    >>> canonicalize_license_expression("MIT OR Unheard-of")
    Traceback (most recent call last):
        ...
    pylock.licenses.InvalidLicenseExpression: Invalid license expression: 'MIT OR Unheard-of' ('Unheard-of' is no license)
    """


_read: List[Dict[str, str]] = []


def _ids() -> List[Dict[str, str]]:
    """The ids of licenses, and those of exceptions, by their lower case: they are read when they are first asked for."""
    if not _read:
        from . import _spdx

        _read[:] = [{one.lower(): one for one in text.split()} for text in (_spdx.LICENSE_IDS, _spdx.EXCEPTION_IDS)]
    return _read


def _is_reference_name(text: str) -> bool:
    """Whether it is ASCII letters, digits, `.` and `-`, one at least."""
    rest = text.replace(".", "").replace("-", "")
    return text.isascii() and (rest.isalnum() or rest == "" != text)


def _license(word: str) -> str:
    """The license that a word means, as SPDX writes it."""
    if word[: len(_REFERENCE)].lower() == _REFERENCE.lower():
        name = word[len(_REFERENCE) :]
        if not _is_reference_name(name):
            raise InvalidLicenseExpression("%r is no name of an own license" % word)
        return _REFERENCE + name
    licenses, _ = _ids()
    # of some licenses the id with a `+` is one of its own
    lower, plus = word.lower(), ""
    if lower not in licenses and lower.endswith("+"):
        lower, plus = lower[:-1], "+"
    if lower not in licenses:
        raise InvalidLicenseExpression("%r is no license" % word)
    return licenses[lower] + plus


def _exception(word: str) -> str:
    """The exception that a word means, as SPDX writes it."""
    _, exceptions = _ids()
    if word.lower() not in exceptions:
        raise InvalidLicenseExpression("%r is no exception of a license" % word)
    return exceptions[word.lower()]


def _words(expression: str) -> List[str]:
    """The words of an expression in normal form, its parentheses among them."""
    words: List[str] = []
    depth = 0
    # what may stand next: a license or "(", an exception, or what follows these
    wanted = "license"
    for word in expression.replace("(", " ( ").replace(")", " ) ").split():
        upper = word.upper()
        if wanted == "license" and word == "(":
            depth += 1
        elif wanted == "license":
            word, wanted = _license(word), "operator"
        elif wanted == "exception":
            word, wanted = _exception(word), "operator"
        elif word == ")" and depth:
            depth -= 1
        elif upper in ("AND", "OR", "WITH"):
            word, wanted = upper, "exception" if upper == "WITH" else "license"
        else:
            raise InvalidLicenseExpression("%r stands where an operator is expected" % word)
        words.append(word)
    if wanted != "operator":
        raise InvalidLicenseExpression("at the end a license or an exception is missing")
    if depth:
        raise InvalidLicenseExpression("a parenthesis isn't closed")
    return words


def canonicalize_license_expression(raw_license_expression: str) -> _Normalized:
    """The normal form of an expression: ids as SPDX writes them, operators in capitals, one space between words.

    >>> canonicalize_license_expression("gpl-2.0+ AND licenseref-My.Own")
    'GPL-2.0+ AND LicenseRef-My.Own'
    """
    try:
        words = _words(raw_license_expression)
    except InvalidLicenseExpression as error:
        raise InvalidLicenseExpression("Invalid license expression: %r (%s)" % (raw_license_expression, error)) from None
    return _Normalized(" ".join(words).replace("( ", "(").replace(" )", ")"))


_private_name = names_of("licenses")


def _found(name: str) -> Any:
    """The `__getattr__` of the module: the type of the results is made when it is asked for."""
    if name != "NormalizedLicenseExpression":
        return _private_name(name)
    from typing import NewType

    made = globals()[name] = NewType("NormalizedLicenseExpression", str)
    return made


if not TYPE_CHECKING:
    __getattr__ = _found
