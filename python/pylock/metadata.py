"""Core metadata of a distribution, its `METADATA` and `PKG-INFO`, with the names of `packaging.metadata`.

    >>> from pylock.metadata import Metadata
    >>> text = b"Metadata-Version: 2.4\\nName: Foo\\nVersion: 1.0\\nRequires-Dist: bar>=2\\n\\nWhat it is.\\n"
    >>> metadata = Metadata.from_email(text)
    >>> metadata.name, metadata.version, metadata.requires_dist, metadata.description
    ('Foo', <Version('1.0')>, [<Requirement('bar>=2')>], 'What it is.\\n')

What is different: a body is the text that stands there, whatever `Content-Type` and `Content-Transfer-Encoding` say; a lone
surrogate in a text is the byte that it stands for; and a carriage return alone is a line end where a message is written.
"""

from __future__ import annotations

import email.message
import email.parser
import email.policy
import keyword
import pathlib
import re
from typing import (
    Any, Callable, Dict, Generic, Iterable, List, Literal, Optional, Tuple, Type, TypedDict, TypeVar, Union, cast, overload,
)

from .errors import ExceptionGroup
from .licenses import NormalizedLicenseExpression, canonicalize_license_expression
from .requirements import Requirement
from .specifiers import SpecifierSet
from .utils import NormalizedName, canonicalize_name
from .version import Version

__all__ = [
    "ExceptionGroup",
    "InvalidMetadata",
    "Metadata",
    "RFC822Message",
    "RFC822Policy",
    "RawMetadata",
    "parse_email",
]

_T = TypeVar("_T")

# the versions of the specification, in their order; 2.0 was given up
_MetadataVersion = Literal["1.0", "1.1", "1.2", "2.1", "2.2", "2.3", "2.4", "2.5"]
_VERSIONS = ("1.0", "1.1", "1.2", "2.1", "2.2", "2.3", "2.4", "2.5")
_REQUIRED = ("metadata_version", "name", "version")
_CONTENT_TYPES = ("text/plain", "text/x-rst", "text/markdown")
_MARKDOWN_VARIANTS = ("GFM", "CommonMark")

_line_end = re.compile(r"\r\n|\r|\n")
# what is mostly written for the type of a description, which needs no reader of headers
_plain_type = re.compile(r"text/(?:plain|x-rst|markdown)(?:; charset=UTF-8)?(?:; variant=(?:%s))?\Z" % "|".join(_MARKDOWN_VARIANTS))


class RawMetadata(TypedDict, total=False):
    """The fields of a document as they are written: texts, and lists of texts where a field may stand several times."""

    metadata_version: str
    name: str
    version: str
    platforms: List[str]
    summary: str
    description: str
    keywords: List[str]
    home_page: str
    author: str
    author_email: str
    license: str
    # 1.1
    supported_platforms: List[str]
    download_url: str
    classifiers: List[str]
    requires: List[str]
    provides: List[str]
    obsoletes: List[str]
    # 1.2
    maintainer: str
    maintainer_email: str
    requires_dist: List[str]
    provides_dist: List[str]
    obsoletes_dist: List[str]
    requires_python: str
    requires_external: List[str]
    project_urls: Dict[str, str]
    # 2.1
    description_content_type: str
    provides_extra: List[str]
    # 2.2
    dynamic: List[str]
    # 2.4
    license_expression: str
    license_files: List[str]
    # 2.5
    import_names: List[str]
    import_namespaces: List[str]


class InvalidMetadata(ValueError):
    """A field is wrong: `field` is the name of its header in small letters, as `requires-dist`."""

    field: str

    def __init__(self, field: str, message: str) -> None:
        self.args = (message,)
        self.field = field

    def __reduce__(self) -> Tuple[Type[InvalidMetadata], Tuple[str, str]]:
        return type(self), (self.field, str(self))


# ---- messages ----

# the end of a line and what its next one is set in by, for names of up to so many letters
_MOST_BELOW = 40
_BELOW = ["\n  " + " " * length for length in range(_MOST_BELOW)]


class RFC822Policy(email.policy.EmailPolicy):
    """How core metadata is written: in UTF-8, no line broken, what follows a line end of a field set in."""

    utf8 = True
    mangle_from_ = False
    max_line_length = 0

    def header_store_parse(self, name: str, value: str) -> Tuple[str, str]:
        """The header as it is kept: its further lines begin below the first one's text.

        >>> RFC822Policy().header_store_parse("License", "one\\ntwo")
        ('License', 'one\\n         two')
        """
        length = len(name)
        below = _BELOW[length] if length < _MOST_BELOW else "\n  " + " " * length
        if "\r" in value:
            return name, _line_end.sub(lambda found: found.group() + below[1:], value)
        return name, value.replace("\n", below)


class RFC822Message(email.message.EmailMessage):
    """A message of core metadata, under `RFC822Policy`.

    >>> message = RFC822Message()
    >>> message["Author"] = "Andr\\u00e9"
    >>> message.as_bytes()
    b'Author: Andr\\xc3\\xa9\\n\\n'
    """

    def __init__(self) -> None:
        super().__init__(policy=RFC822Policy())

    def as_bytes(self, unixfrom: bool = False, policy: Optional[email.policy.Policy] = None) -> bytes:
        """The message in UTF-8."""
        return self.as_string(unixfrom, policy=policy).encode("utf-8")


# ---- what a field means: each takes the name of the header and the raw value ----


def _refused(header: str, value: str, error: ValueError) -> InvalidMetadata:
    """What is said of a value that is refused."""
    return InvalidMetadata(header, "%r is refused for %r: %s" % (value, header, error))


def _made(header: str, make: Callable[[str], _T], value: str) -> _T:
    """What is made of the value by one of the package's classes, whose refusal is the cause of this one."""
    try:
        return make(value)
    except ValueError as error:
        raise _refused(header, value, error) from error


def _any(header: str, value: _T) -> _T:
    return value


def _metadata_version(header: str, value: Any) -> str:
    if value not in _VERSIONS:
        raise InvalidMetadata(header, "%r is no version of the metadata" % (value,))
    return cast(str, value)


def _name(header: str, value: str) -> str:
    _made(header, lambda text: canonicalize_name(text, validate=True), value)
    return value


def _version(header: str, value: str) -> Version:
    try:
        return Version(value)
    except ValueError as error:
        raise _refused(header, value, error) from error


def _summary(header: str, value: str) -> str:
    if "\n" in value:
        raise InvalidMetadata(header, "%r is expected to be one line" % header)
    return value


def _content_type(header: str, value: str) -> str:
    """The type of the description, the parameters of which count where they are known (RFC 2045)."""
    if _plain_type.match(value):
        return value
    message = email.message.EmailMessage()
    try:
        message["content-type"] = value
    except ValueError as error:
        raise InvalidMetadata(header, "%r is expected to be one line" % header) from error
    kind = message.get_content_type()
    # a text that is no type is taken for plain text by the reader of messages
    if kind not in _CONTENT_TYPES or kind not in value.lower():
        raise InvalidMetadata(header, "%r is expected to be %s, not %r" % (header, " or ".join(_CONTENT_TYPES), value))
    parameters = message["content-type"].params
    if parameters.get("charset", "UTF-8") != "UTF-8":
        raise InvalidMetadata(header, "%r is expected to have UTF-8 as its charset, not %r" % (header, parameters["charset"]))
    if kind == "text/markdown" and parameters.get("variant", "GFM") not in _MARKDOWN_VARIANTS:
        wanted = " or ".join(_MARKDOWN_VARIANTS)
        raise InvalidMetadata(header, "%r is expected to have the variant %s, not %r" % (header, wanted, parameters["variant"]))
    return value


def _dynamic(header: str, value: List[str]) -> List[str]:
    names = list(map(str.lower, value))
    for name in names:
        if name not in _BY_HEADER:
            raise InvalidMetadata(header, "%r is no field that could be dynamic" % name)
        if _BY_HEADER[name].name in _REQUIRED:
            raise InvalidMetadata(header, "%r can't be dynamic" % name)
    return names


def _extras(header: str, value: List[str]) -> List[NormalizedName]:
    return [_made(header, lambda text: canonicalize_name(text, validate=True), name) for name in value]


def _requirements(header: str, value: List[str]) -> List[Requirement]:
    return [_made(header, Requirement, text) for text in value]


def _specifiers(header: str, value: str) -> SpecifierSet:
    return _made(header, SpecifierSet, value)


def _license_expression(header: str, value: str) -> NormalizedLicenseExpression:
    return _made(header, canonicalize_license_expression, value)


def _license_files(header: str, value: List[str]) -> List[str]:
    """Paths below the folder of licenses, written with `/` and no more than is needed (PEP 639)."""
    for path in value:
        windows = pathlib.PureWindowsPath(path)
        if ".." in path:
            why = "it may lead to a folder above"
        elif "*" in path:
            why = "it is a pattern"
        elif path.startswith("/") or windows.is_absolute():
            why = "it is absolute"
        elif windows.as_posix() != path:
            why = "it isn't in its shortest form with `/`"
        else:
            continue
        raise InvalidMetadata(header, "%r is refused for %r: %s" % (path, header, why))
    return list(value)


def _imports(header: str, value: List[str]) -> List[str]:
    """Names of modules, with dots between their parts, and behind a `;` that one is private (PEP 794)."""
    for item in value:
        name, semicolon, option = item.partition(";")
        if semicolon and option.lstrip() != "private":
            raise InvalidMetadata(header, "%r is refused for %r: %r is expected behind the `;`" % (item, header, "private"))
        for part in name.rstrip().split("."):
            if not part.isidentifier() or keyword.iskeyword(part):
                raise InvalidMetadata(header, "%r is refused for %r: %r is no name of a module" % (item, header, part))
    return value


# ---- fields ----

# how a field is written: a text; a text for each value; texts with commas between them; a label and a URL for each
_TEXT, _TEXTS, _WORDS, _URLS = "text", "texts", "words", "urls"


class _Field(Generic[_T]):
    """A field of a `Metadata`, read from its raw value when it is first asked for."""

    def __init__(self, header: str, since: str, form: str, read: Callable[[str, Any], Any] = _any) -> None:
        self.header = header
        self.since = since
        self.form = form
        self.read = read
        self.name = ""

    def __set_name__(self, owner: Type[Metadata], name: str) -> None:
        self.name = name

    @overload
    def __get__(self, instance: None, owner: Type[Metadata]) -> _Field[_T]: ...

    @overload
    def __get__(self, instance: Metadata, owner: Type[Metadata]) -> _T: ...

    def __get__(self, instance: Optional[Metadata], owner: Type[Metadata]) -> Union[_Field[_T], _T]:
        if instance is None:
            return self
        name = self.name
        value = instance._raw.get(name)
        if not value and (name == "name" or name == "version"):
            raise InvalidMetadata(self.header, "%r is required" % self.header)
        if value is not None or name == "metadata_version":
            value = self.read(self.header, value)
        # the attribute is found before the field from now on
        instance.__dict__[name] = value
        return cast(_T, value)

    def raw(self, values: List[str]) -> Any:
        """The raw value of what stands in the headers; None where it isn't of the field's form."""
        if self.form == _TEXTS:
            # one empty header says that there is no module to import
            return [] if self.name == "import_names" and values == [""] else values
        if self.form == _URLS:
            urls: Dict[str, str] = {}
            for value in values:
                label, _, url = value.partition(",")
                urls[label.strip()] = url.strip()
            return urls if len(urls) == len(values) else None
        if len(values) != 1:
            return None
        return [word.strip() for word in values[0].split(",")] if self.form == _WORDS else values[0]

    def texts(self, value: Any) -> Iterable[str]:
        """The texts of the headers of a value."""
        if value is None:
            return []
        if self.form == _TEXTS:
            return [""] if self.name == "import_names" and not value else map(str, value)
        if self.form == _URLS:
            return ["%s, %s" % pair for pair in value.items()]
        return [",".join(value) if self.form == _WORDS else str(value)]


class Metadata:
    """The metadata of a distribution, each field as what it means; None where it isn't there.

    >>> Metadata.from_raw({"metadata_version": "2.4", "name": "a", "version": "1", "requires_python": ">=3.8"}).requires_python
    <SpecifierSet('>=3.8')>

    Where something is wrong, an `ExceptionGroup` has an `InvalidMetadata` for each field; with `validate=False` a field
    raises its own when it is asked for.
    """

    _raw: Dict[str, Any]

    metadata_version: _Field[_MetadataVersion] = _Field("metadata-version", "1.0", _TEXT, _metadata_version)
    """The version of the specification."""
    name: _Field[str] = _Field("name", "1.0", _TEXT, _name)
    """The name, as it is written."""
    version: _Field[Version] = _Field("version", "1.0", _TEXT, _version)
    """The version."""
    dynamic: _Field[Optional[List[str]]] = _Field("dynamic", "2.2", _TEXTS, _dynamic)
    """The headers, in small letters, of what may be otherwise in a wheel."""
    platforms: _Field[Optional[List[str]]] = _Field("platform", "1.0", _TEXTS)
    supported_platforms: _Field[Optional[List[str]]] = _Field("supported-platform", "1.1", _TEXTS)
    summary: _Field[Optional[str]] = _Field("summary", "1.0", _TEXT, _summary)
    """What it is, in one line."""
    description: _Field[Optional[str]] = _Field("description", "1.0", _TEXT)
    """What it is, at length: the body of a message, or the header."""
    description_content_type: _Field[Optional[str]] = _Field("description-content-type", "2.1", _TEXT, _content_type)
    keywords: _Field[Optional[List[str]]] = _Field("keywords", "1.0", _WORDS)
    home_page: _Field[Optional[str]] = _Field("home-page", "1.0", _TEXT)
    download_url: _Field[Optional[str]] = _Field("download-url", "1.1", _TEXT)
    author: _Field[Optional[str]] = _Field("author", "1.0", _TEXT)
    author_email: _Field[Optional[str]] = _Field("author-email", "1.0", _TEXT)
    maintainer: _Field[Optional[str]] = _Field("maintainer", "1.2", _TEXT)
    maintainer_email: _Field[Optional[str]] = _Field("maintainer-email", "1.2", _TEXT)
    license: _Field[Optional[str]] = _Field("license", "1.0", _TEXT)
    license_expression: _Field[Optional[NormalizedLicenseExpression]] = _Field(
        "license-expression", "2.4", _TEXT, _license_expression
    )
    """The license expression, in normal form."""
    license_files: _Field[Optional[List[str]]] = _Field("license-file", "2.4", _TEXTS, _license_files)
    classifiers: _Field[Optional[List[str]]] = _Field("classifier", "1.1", _TEXTS)
    requires_dist: _Field[Optional[List[Requirement]]] = _Field("requires-dist", "1.2", _TEXTS, _requirements)
    """The requirements."""
    requires_python: _Field[Optional[SpecifierSet]] = _Field("requires-python", "1.2", _TEXT, _specifiers)
    """The versions of Python that it is for."""
    requires_external: _Field[Optional[List[str]]] = _Field("requires-external", "1.2", _TEXTS)
    project_urls: _Field[Optional[Dict[str, str]]] = _Field("project-url", "1.2", _URLS)
    """The URLs by their labels."""
    provides_extra: _Field[Optional[List[NormalizedName]]] = _Field("provides-extra", "2.1", _TEXTS, _extras)
    """The extras, in normal form."""
    provides_dist: _Field[Optional[List[str]]] = _Field("provides-dist", "1.2", _TEXTS)
    obsoletes_dist: _Field[Optional[List[str]]] = _Field("obsoletes-dist", "1.2", _TEXTS)
    import_names: _Field[Optional[List[str]]] = _Field("import-name", "2.5", _TEXTS, _imports)
    """The modules that are its own; empty where it has none to import."""
    import_namespaces: _Field[Optional[List[str]]] = _Field("import-namespace", "2.5", _TEXTS, _imports)
    """The packages that it shares with others."""
    requires: _Field[Optional[List[str]]] = _Field("requires", "1.1", _TEXTS)
    provides: _Field[Optional[List[str]]] = _Field("provides", "1.1", _TEXTS)
    obsoletes: _Field[Optional[List[str]]] = _Field("obsoletes", "1.1", _TEXTS)

    @classmethod
    def from_raw(cls, data: RawMetadata, *, validate: bool = True) -> Metadata:
        """The metadata of raw fields, as `parse_email` gives them."""
        made = cls()
        made._raw = dict(data)
        errors = made._errors() if validate else []
        if errors:
            raise ExceptionGroup("the metadata is wrong", errors)
        return made

    @classmethod
    def from_email(cls, data: Union[bytes, str], *, validate: bool = True) -> Metadata:
        """The metadata of a document; a header that isn't known or can't be read is wrong too, but with `validate=False`."""
        raw, unparsed = parse_email(data)
        if validate and unparsed:
            known = ("the field %r isn't known", "the field %r can't be read")
            errors = [InvalidMetadata(header, known[header in _BY_HEADER] % header) for header in unparsed]
            raise ExceptionGroup("the metadata can't be read", errors)
        return cls.from_raw(raw, validate=validate)

    def _errors(self) -> List[Exception]:
        """What is wrong in the fields: those of the specification in its order, then those that aren't its own."""
        errors: List[Exception] = []
        known: Tuple[str, ...] = _VERSIONS
        given = self._raw.keys() | _REQUIRED
        for name in [each for each in _FIELDS if each in given]:
            field = _FIELDS[name]
            if field.since not in known:
                message = "the field %r came with version %s of the metadata, not %s"
                errors.append(InvalidMetadata(field.header, message % (field.header, field.since, known[-1])))
                continue
            try:
                getattr(self, name)
            except InvalidMetadata as error:
                errors.append(error)
                continue
            if name == "metadata_version":
                known = _VERSIONS[: _VERSIONS.index(self.metadata_version) + 1]
        unknown = [name for name in self._raw if name not in _FIELDS]
        return errors + [InvalidMetadata(name, "the field %r isn't known" % (name,)) for name in unknown]

    def as_rfc822(self) -> RFC822Message:
        """The metadata as a message.

        >>> metadata = Metadata.from_raw({"metadata_version": "2.4", "name": "a", "version": "1", "keywords": ["b", "c"]})
        >>> metadata.as_rfc822().as_string()
        'metadata-version: 2.4\\nname: a\\nversion: 1\\nkeywords: b,c\\n\\n'
        """
        message = RFC822Message()
        for name, field in _FIELDS.items():
            if name != "description":
                for text in field.texts(getattr(self, name)):
                    message[field.header] = text
        if self.description:
            message.set_payload(self.description)
        return message


_FIELDS: Dict[str, _Field[Any]] = {name: field for name, field in vars(Metadata).items() if isinstance(field, _Field)}
_BY_HEADER: Dict[str, _Field[Any]] = {field.header: field for field in _FIELDS.values()}


# ---- reading ----

_PARSER = email.parser.HeaderParser()
# the end of a header: a line that is set in goes on with it
_header_end = re.compile(r"\n(?![ \t])")


def _read(text: str) -> Tuple[Iterable[Tuple[str, str]], str]:
    """The headers and the body of a message, as `email` reads them, which is asked where a header has another form than most."""
    head, _, body = text.partition("\n\n")
    headers = []
    for header in _header_end.split(head[:-1] if head[-1:] == "\n" else head):
        name, colon, value = header.partition(":")
        value = value.lstrip(" \t")
        is_name = name.isascii() and name.isprintable() and " " not in name
        # Pythons differ where a first line is empty
        if not (name and colon and is_name) or "\r" in header or value[:1] == "\n":
            message = _PARSER.parsestr(text)
            return message.raw_items(), cast(str, message.get_payload())
        headers.append((name, value))
    return headers, body


def _decoded(text: str) -> Tuple[str, bool]:
    """The text that bytes mean, given as Latin-1, and whether they are UTF-8; if not, they stay."""
    if text.isascii():
        return text, True
    try:
        return text.encode("latin-1").decode("utf-8"), True
    except UnicodeDecodeError:
        return text, False


def parse_email(data: Union[bytes, str]) -> Tuple[RawMetadata, Dict[str, List[str]]]:
    """The raw fields of a document, and what of it is none: the values of headers by their names in small letters.

    Among the latter are headers that the specification doesn't have, that stand too often, or that aren't UTF-8, and a
    description that stands both in a header and as the body.

    >>> parse_email("Name: a\\nKeywords: b,c\\nColour: red\\n\\nWhat it is.")
    ({'name': 'a', 'keywords': ['b', 'c'], 'description': 'What it is.'}, {'colour': ['red']})
    """
    raw: Dict[str, Any] = {}
    unparsed: Dict[str, List[Any]] = {}
    if not isinstance(data, str) or not data.isascii():
        # each byte is a character to the reader of messages, which knows nothing of UTF-8
        data = (data.encode("utf-8", "surrogateescape") if isinstance(data, str) else data).decode("latin-1")
    items, body = _read(data)
    headers: Dict[str, List[str]] = {}
    broken = set()
    for header, text in items:
        name = header.lower()
        value, whole = (text, True) if text.isascii() else _decoded(text)
        if name in headers:
            headers[name].append(value)
        else:
            headers[name] = [value]
        if not whole:
            broken.add(name)
    for header, values in headers.items():
        field = _BY_HEADER.get(header)
        its_raw: Any = None
        if field is not None and header not in broken:
            # of most the one text as it is
            its_raw = values[0] if field.form == _TEXT and len(values) == 1 else field.raw(values)
        if field is None or its_raw is None:
            unparsed[header] = values
        else:
            raw[field.name] = its_raw
    body, whole = _decoded(body)
    if not whole:
        unparsed.setdefault("description", []).append(body.encode("latin-1"))
    elif body and ("description" in raw or "description" in unparsed):
        unparsed.setdefault("description", [raw.pop("description")] if "description" in raw else []).append(body)
    elif body:
        raw["description"] = body
    return cast(RawMetadata, raw), unparsed
