#!/usr/bin/env python3
"""A typed program over every public name of `packaging` 26.2, which `mypy --strict` passes: with `pylock` in the place of
`packaging` in the imports it passes too, and both print the same (tools/check/annotations, test_module.py).

The classes at its end override each public method with the signature that it has in 26.2.
"""

from __future__ import annotations

import email.message
import email.policy
from pathlib import Path
from typing import (
    TYPE_CHECKING, AbstractSet, Any, Callable, Collection, Dict, FrozenSet, Iterable, Iterator, List, Literal, Mapping, Optional,
    Protocol, Sequence, Tuple, TypedDict, TypeVar, Union, overload,
)

import packaging.dependency_groups
import packaging.direct_url
import packaging.errors
import packaging.licenses
import packaging.markers
import packaging.metadata
import packaging.pylock
import packaging.requirements
import packaging.specifiers
import packaging.tags
import packaging.utils
import packaging.version
from packaging.dependency_groups import (
    CyclicDependencyGroup, DependencyGroupInclude, DependencyGroupResolver, DuplicateGroupNames, InvalidDependencyGroupObject,
    resolve_dependency_groups,
)
from packaging.direct_url import ArchiveInfo, DirectUrl, DirectUrlValidationError, DirInfo, VcsInfo
from packaging.errors import ExceptionGroup
from packaging.licenses import InvalidLicenseExpression, NormalizedLicenseExpression, canonicalize_license_expression
from packaging.markers import (
    Environment, EvaluateContext, InvalidMarker, Marker, UndefinedComparison, UndefinedEnvironmentName, default_environment,
)
from packaging.metadata import InvalidMetadata, Metadata, RawMetadata, RFC822Message, RFC822Policy, parse_email
from packaging.pylock import (
    Package, PackageArchive, PackageDirectory, PackageSdist, PackageVcs, PackageWheel, Pylock, PylockUnsupportedVersionError,
    PylockValidationError, is_valid_pylock_path,
)
from packaging.requirements import InvalidRequirement, Requirement
from packaging.specifiers import BaseSpecifier, InvalidSpecifier, Specifier, SpecifierSet
from packaging.tags import (
    INTERPRETER_SHORT_NAMES, AppleVersion, PythonVersion, Tag, UnsortedTagsError, android_platforms, compatible_tags,
    cpython_tags, create_compatible_tags_selector, generic_tags, interpreter_name, interpreter_version, ios_platforms,
    mac_platforms, parse_tag, platform_tags, sys_tags,
)
from packaging.utils import (
    BuildTag, InvalidName, InvalidSdistFilename, InvalidWheelFilename, NormalizedName, canonicalize_name, canonicalize_version,
    is_normalized_name, parse_sdist_filename, parse_wheel_filename,
)
from packaging.version import VERSION_PATTERN, InvalidVersion, Version, normalize_pre, parse

if TYPE_CHECKING:
    from typing_extensions import Self, TypeGuard, Unpack, assert_type

Pre = Tuple[Literal["a", "b", "rc"], int]
AnyVersion = TypeVar("AnyVersion", bound=Union[Version, str])
Thing = TypeVar("Thing")
Judging = TypeVar("Judging", bound=BaseSpecifier)
Errors = (
    InvalidVersion, InvalidSpecifier, InvalidMarker, InvalidRequirement, InvalidName, InvalidSdistFilename, InvalidWheelFilename,
    InvalidLicenseExpression, InvalidMetadata, UnsortedTagsError, UndefinedComparison, UndefinedEnvironmentName,
    DuplicateGroupNames, CyclicDependencyGroup, InvalidDependencyGroupObject, DirectUrlValidationError, PylockValidationError,
    PylockUnsupportedVersionError,
)


class Ordered(Protocol):
    """What `sorted` takes, of versions."""

    def __lt__(self, other: Version, /) -> bool: ...


class Judge(Protocol):
    """What judges versions, a specifier or a set."""

    @property
    def prereleases(self) -> Optional[bool]: ...

    def contains(self, item: str, prereleases: Optional[bool] = None) -> bool: ...


class Kept(TypedDict):
    """A wheel, as a program keeps it."""

    name: NormalizedName
    version: Version
    build: BuildTag
    tags: FrozenSet[Tag]


# ---- versions ----


def is_early(version: Version) -> TypeGuard[Early]:
    return isinstance(version, Early)


class Early(Version):
    """A class of one's own."""

    def early(self) -> bool:
        return self.is_prerelease


def newest(versions: Iterable[AnyVersion], key: Callable[[AnyVersion], Version]) -> AnyVersion:
    return max(versions, key=key)


def least(versions: Sequence[Ordered]) -> int:
    return len(versions)


def versions() -> Iterator[object]:
    one, other = Version("1!2.0rc1.post2.dev3+a.1"), parse("2")
    pre: Optional[Pre] = one.pre
    letter: Literal["a", "b", "rc"] = pre[0] if pre is not None else "a"
    release: Tuple[int, ...] = one.release
    numbers: List[Optional[int]] = [one.epoch, one.post, one.dev, one.major, one.minor, one.micro]
    texts: List[Optional[str]] = [one.local, one.public, one.base_version, letter, normalize_pre("Alpha")]
    truths: Tuple[bool, bool, bool] = (one.is_prerelease, one.is_postrelease, one.is_devrelease)
    yield from (pre, release, numbers, texts, truths, str(one), repr(other), hash(one) == hash(other))
    base: packaging.version._BaseVersion = other
    yield from (one < base, one <= base, one > base, one >= base, one == base, one != base)
    yield from (sorted([one, other]), max(one, other), least([one, other]), newest(["1", "2"], parse), newest([one], lambda version: version))
    early: Early = Early.from_parts(epoch=0, release=(1, 0), pre=("b", 2), post=None, dev=None, local=None)
    replaced: Early = early.__replace__(pre=None, release=(1, 1), local="x")
    yield from (early, early.early(), replaced, is_early(one) and one.early())
    found: Dict[Version, str] = {one: "one"}
    yield from (found.get(other), one in found, len(VERSION_PATTERN) > 0)
    if TYPE_CHECKING:
        assert_type(one.pre, Optional[Pre])
        assert_type(Early.from_parts(release=(1,)), Early)
        assert_type(canonicalize_version(one, strip_trailing_zero=False), str)
    try:
        Version("x")
    except InvalidVersion as error:
        told: ValueError = error
        yield type(told).__name__


# ---- specifiers ----


def judged(judge: Judging, texts: Iterable[str]) -> Tuple[Judging, List[str]]:
    return judge, list(judge.filter(texts))


def admits(judge: Judge, text: str) -> bool:
    return judge.contains(text)


def specifiers() -> Iterator[object]:
    one, versions = Specifier(">=1.0", prereleases=None), SpecifierSet(">=1.0,<2", prereleases=True)
    judges: List[BaseSpecifier] = [one, versions]
    for judge in judges:
        yield from (str(judge), judge.prereleases, judge.contains("1.5", None), judge == judges[0], hash(judge) == hash(judges[0]))
        yield from (list(judge.filter(["1", "3"])), list(judge.filter([("a", "1.1")], key=lambda pair: pair[1])))
    yield judged(one, ["1.0"])[0].operator
    yield len(judged(versions, ["1.0"])[0])
    yield from (admits(one, "1"), admits(versions, "3"), isinstance(one, BaseSpecifier), issubclass(SpecifierSet, BaseSpecifier))
    texts: Iterator[str] = versions.filter(["1.1", "1.2a1"], prereleases=False)
    found: Iterator[Version] = one.filter([Version("1.1")])
    mixed: Iterator[Union[Version, str]] = versions.filter(["1.1", Version("1.2")], True)
    keyed: Iterator[Tuple[str, Version]] = versions.filter([("a", Version("1.1"))], None, lambda pair: pair[1])
    yield from (list(texts), list(found), list(mixed), list(keyed))
    one.prereleases = versions.prereleases = False
    one.prereleases = versions.prereleases = None
    yield from (one.operator, one.version, "1.5" in one, Version("3") in versions, one.contains(Version("1"), prereleases=True))
    yield from (versions.contains(Version("1.5a1"), prereleases=False, installed=True), versions.is_unsatisfiable(), len(versions))
    joined: SpecifierSet = versions & "!=1.5" & SpecifierSet([one, Specifier("<3")])
    each: List[Specifier] = sorted(joined, key=str)
    unparsed: packaging.specifiers.UnparsedVersion = "1"
    yield from (joined, each, repr(one), joined == versions, one != versions, unparsed in versions)
    if TYPE_CHECKING:
        assert_type(versions.filter(["1"]), Iterator[str])
        assert_type(one.filter([Version("1")], key=None), Iterator[Version])
        assert_type(versions.filter([1], key=lambda number: str(number)), Iterator[int])
    try:
        SpecifierSet("x")
    except InvalidSpecifier as error:
        yield type(error).__name__


# ---- markers, requirements ----


def markers() -> Iterator[object]:
    running: Environment = default_environment()
    names: str = running["os_name"] + running["sys_platform"]
    one, other = Marker("os_name == 'nt'"), Marker("'a' in extras")
    variables: Dict[str, Union[str, AbstractSet[str]]] = {"os_name": "nt", "extras": {"a"}}
    context: EvaluateContext = "lock_file"
    both: Marker = one & other | one
    yield from (len(names) > 0, both, str(one), repr(one), one == other, hash(one) == hash(one))
    yield from (one.evaluate(variables), other.evaluate(variables, context), other.evaluate(environment=variables, context="lock_file"))
    yield one.evaluate(dict(os_name="nt")) or one.evaluate(None) or one.evaluate()
    for text, mapping in (("os_name", variables), ("extra == 'a'", variables)):
        try:
            yield Marker(text).evaluate(mapping, "metadata")
        except (InvalidMarker, UndefinedComparison, UndefinedEnvironmentName) as error:
            yield type(error).__name__


def requirements() -> Iterator[object]:
    one = Requirement("A_b[x,y]>=1; os_name == 'nt'")
    extras: List[str] = sorted(one.extras)
    marker: Optional[Marker] = one.marker
    url: Optional[str] = one.url
    versions: SpecifierSet = one.specifier
    yield from (one.name, extras, marker, url, versions, str(one), repr(one), one == Requirement("a"), hash(one) == hash(one))
    one.name, one.url, one.marker, one.specifier = "c", "https://h/p.zip", None, SpecifierSet()
    one.extras = set()
    one.extras.add("z")
    yield one
    try:
        Requirement("-")
    except InvalidRequirement as error:
        yield type(error).__name__


# ---- names, files, tags ----


def files() -> Iterator[object]:
    name: NormalizedName = canonicalize_name("A_b", validate=True)
    assumed = NormalizedName("a")
    named: Dict[NormalizedName, int] = {name: 1, assumed: 2, canonicalize_name("c"): 3}
    yield from (sorted(named), is_normalized_name(name), canonicalize_version("1.0.0"), canonicalize_version(Version("1.0"), strip_trailing_zero=False))
    wheel: Tuple[NormalizedName, Version, BuildTag, FrozenSet[Tag]] = parse_wheel_filename("a-1-2b-py2.py3-none-any.whl", validate_order=True)
    kept: Kept = {"name": wheel[0], "version": wheel[1], "build": wheel[2], "tags": wheel[3]}
    build: BuildTag = kept["build"]
    number: int = build[0] if build else 0
    sdist: Tuple[NormalizedName, Version] = parse_sdist_filename("a-1.tar.gz")
    yield from (kept["name"], kept["version"], build, number, sorted(map(str, kept["tags"])), sdist)
    calls: List[Tuple[Callable[[str], object], str]] = [
        (lambda text: canonicalize_name(text, validate=True), "-"), (parse_wheel_filename, "a"), (parse_sdist_filename, "a"),
        (lambda text: parse_tag(text, validate_order=True), "py3.py2-none-any"),
    ]
    for call, text in calls:
        try:
            yield call(text)
        except (InvalidName, InvalidSdistFilename, InvalidWheelFilename, UnsortedTagsError) as error:
            yield type(error).__name__


def tags() -> Iterator[object]:
    one = Tag("py3", "none", platform="any")
    python: PythonVersion = (3, 12)
    apple: AppleVersion = (11, 0)
    found: FrozenSet[Tag] = parse_tag("py3-none-any")
    yield from (one.interpreter, one.abi, one.platform, str(one), one == Tag("py3", "none", "any"), hash(one) == hash(Tag("py3", "none", "any")), one in found)
    lists: List[Iterator[Tag]] = [
        cpython_tags(python, ["cp312"], ["linux_x86_64"], warn=False), generic_tags("pp310", ["x"], platforms=["any"], warn=True),
        compatible_tags(python, "cp312", ["win32"]), cpython_tags(python_version=[3, 2], abis=iter(["cp32m"]), platforms=iter(["win32"])),
    ]
    platforms: List[Iterator[str]] = [mac_platforms(apple, "arm64"), ios_platforms((13, 0), "arm64-iphoneos"), android_platforms(21, "x86_64")]
    yield from (list(map(str, each)) for each in lists)
    yield from (list(each) for each in platforms)
    running: Iterator[Tag] = sys_tags(warn=False)
    yield from (len(list(running)) > 0, len(list(platform_tags())) > 0, interpreter_name(), interpreter_version(warn=False))
    short: Dict[str, str] = INTERPRETER_SHORT_NAMES
    choose: Callable[[Iterable[Tuple[str, AbstractSet[Tag]]]], Iterator[str]] = create_compatible_tags_selector([one])
    chosen: List[str] = list(choose([("a", {one}), ("b", frozenset())]))
    yield from (short["cpython"], chosen)


# ---- documents ----


def documents() -> Iterator[object]:
    url = DirectUrl(url="https://h/p.zip", archive_info=ArchiveInfo(hashes={"sha256": "aa"}), subdirectory=None)
    url.validate()
    table: Mapping[str, Any] = url.to_dict(generate_legacy_hash=True, strip_user_password=True, safe_user_passwords=("git",))
    again: DirectUrl = DirectUrl.from_dict(table)
    hashes: Optional[Mapping[str, str]] = again.archive_info.hashes if again.archive_info is not None else None
    vcs, folder = VcsInfo(vcs="git", commit_id="0", requested_revision=None), DirInfo(editable=True)
    yield from (table, again == url, hashes, (vcs.vcs, vcs.commit_id, vcs.requested_revision), folder.editable)
    yield from (again.url, again.vcs_info, again.dir_info, again.subdirectory)
    try:
        DirectUrl.from_dict({})
    except DirectUrlValidationError as error:
        context: Optional[str] = error.context
        yield from (context, len(error.message) > 0)

    groups: Dict[str, List[Union[str, Mapping[str, str]]]] = {"a": ["x>=1"], "b": [{"include-group": "a"}, "y"]}
    resolver = DependencyGroupResolver(groups)
    items: Tuple[Union[Requirement, DependencyGroupInclude], ...] = resolver.lookup("b")
    resolved: Tuple[Requirement, ...] = resolver.resolve("b")
    texts: Tuple[str, ...] = resolve_dependency_groups(groups, "a", "b")
    yield from ([item.include_group if isinstance(item, DependencyGroupInclude) else item.name for item in items], resolved, texts)
    cycle = CyclicDependencyGroup("a", "b", include_group="c")
    yield (cycle.requested_group, cycle.group, cycle.include_group)

    expression: NormalizedLicenseExpression = canonicalize_license_expression("mit")
    yield from (expression, NormalizedLicenseExpression("MIT") == expression)


def metadata() -> Iterator[object]:
    raw: RawMetadata = {"metadata_version": "2.4", "name": "a", "version": "1.0", "requires_dist": ["b"], "keywords": ["c"]}
    one: Metadata = Metadata.from_raw(raw, validate=True)
    needed: Optional[List[Requirement]] = one.requires_dist
    version: Version = one.version
    pythons: Optional[SpecifierSet] = one.requires_python
    extras: Optional[List[NormalizedName]] = one.provides_extra
    license_expression: Optional[NormalizedLicenseExpression] = one.license_expression
    urls: Optional[Dict[str, str]] = one.project_urls
    kind: Literal["1.0", "1.1", "1.2", "2.1", "2.2", "2.3", "2.4", "2.5"] = one.metadata_version
    yield from (one.name, version, needed, pythons, extras, license_expression, urls, kind)
    texts: List[Optional[str]] = [
        one.summary, one.description, one.description_content_type, one.home_page, one.download_url, one.author, one.author_email,
        one.maintainer, one.maintainer_email, one.license,
    ]
    lists: List[Optional[List[str]]] = [
        one.dynamic, one.platforms, one.supported_platforms, one.keywords, one.license_files, one.classifiers, one.requires_external,
        one.provides_dist, one.obsoletes_dist, one.import_names, one.import_namespaces, one.requires, one.provides, one.obsoletes,
    ]
    yield from (texts, lists)
    message: RFC822Message = one.as_rfc822()
    policy: email.policy.EmailPolicy = RFC822Policy()
    written: email.message.EmailMessage = message
    yield from (message.as_bytes(), written["name"], policy.utf8, isinstance(message.policy, RFC822Policy))
    parsed: Tuple[RawMetadata, Dict[str, List[str]]] = parse_email(b"Name: a\nX: y\n")
    yield from (parsed[0].get("name"), parsed[1])
    try:
        Metadata.from_email("Name: a\n")
    except ExceptionGroup as group:
        fields: List[str] = [error.field for error in group.exceptions if isinstance(error, InvalidMetadata)]
        yield from (sorted(fields), len(group.message) > 0)
    wrong: Exception = packaging.errors.ExceptionGroup("two", [InvalidMetadata("name", message="x"), ValueError()])
    yield type(wrong).__name__


def locks() -> Iterator[object]:
    table: Dict[str, Any] = {
        "lock-version": "1.0", "created-by": "t", "packages": [{"name": "a", "version": "1", "wheels": [{"url": "https://h/a-1-py3-none-any.whl", "hashes": {"sha256": "00"}}]}],
    }
    lock: Pylock = Pylock.from_dict(table)
    lock.validate()
    again: Mapping[str, Any] = lock.to_dict()
    yield from (again == table, lock.lock_version, lock.created_by, lock.environments, lock.requires_python, lock.extras)
    yield from (lock.dependency_groups, lock.default_groups, lock.tool)
    packages: Sequence[Package] = lock.packages
    for package in packages:
        name: NormalizedName = package.name
        version: Optional[Version] = package.version
        wheels: Sequence[PackageWheel] = package.wheels or []
        yield from (name, version, package.marker, package.requires_python, package.is_direct, [wheel.filename for wheel in wheels])
        sources: Tuple[Optional[PackageVcs], Optional[PackageDirectory], Optional[PackageArchive], Optional[PackageSdist]] = (
            package.vcs, package.directory, package.archive, package.sdist
        )
        yield from (sources, package.dependencies, package.index, package.attestation_identities, package.tool)
    picks: List[Tuple[Package, Union[PackageVcs, PackageDirectory, PackageArchive, PackageWheel, PackageSdist]]] = list(
        lock.select(environment=default_environment(), tags=[Tag("py3", "none", "any")], extras={"x"}, dependency_groups=None)
    )
    for package, source in picks:
        yield from (package.name, source.hashes if isinstance(source, PackageWheel) else None)
    made = Pylock(
        lock_version=Version("1.0"), created_by="t",
        packages=[
            Package(name=canonicalize_name("b"), directory=PackageDirectory(path="b", editable=True, subdirectory="s")),
            Package(name=canonicalize_name("c"), vcs=PackageVcs(type="git", url="https://h/c", commit_id="0", requested_revision="x")),
            Package(name=canonicalize_name("d"), archive=PackageArchive(url="https://h/d.zip", size=1, hashes={"sha256": "00"})),
            Package(name=canonicalize_name("e"), sdist=PackageSdist(path="e-1.tar.gz", hashes={"sha256": "00"})),
        ],
    )
    yield from (made.to_dict(), is_valid_pylock_path(Path("pylock.dev.toml")))
    try:
        Pylock.from_dict({"lock-version": "2.0"})
    except (PylockUnsupportedVersionError, PylockValidationError) as error:
        context: Optional[str] = error.context
        yield from (context, len(error.message) > 0)


# ---- classes of one's own, with the signatures of `packaging` 26.2 ----


class Parts(TypedDict, total=False):
    """The parts of a version that may be another one."""

    epoch: Optional[int]
    release: Optional[Tuple[int, ...]]
    pre: Optional[Tuple[str, int]]
    post: Optional[int]
    dev: Optional[int]
    local: Optional[str]


class OwnVersion(Version):
    def __hash__(self) -> int:
        return super().__hash__()

    def __lt__(self, other: packaging.version._BaseVersion) -> bool:
        return super().__lt__(other)

    def __le__(self, other: packaging.version._BaseVersion) -> bool:
        return super().__le__(other)

    def __eq__(self, other: object) -> bool:
        return super().__eq__(other)

    def __ge__(self, other: packaging.version._BaseVersion) -> bool:
        return super().__ge__(other)

    def __gt__(self, other: packaging.version._BaseVersion) -> bool:
        return super().__gt__(other)

    def __ne__(self, other: object) -> bool:
        return super().__ne__(other)

    @classmethod
    def from_parts(
        cls, *, epoch: int = 0, release: Tuple[int, ...], pre: Optional[Tuple[str, int]] = None, post: Optional[int] = None,
        dev: Optional[int] = None, local: Optional[str] = None,
    ) -> Self:
        return super().from_parts(epoch=epoch, release=release, pre=pre, post=post, dev=dev, local=local)

    def __replace__(self, **kwargs: Unpack[Parts]) -> Self:
        return super().__replace__(**kwargs)

    def __str__(self) -> str:
        return super().__str__()

    def __repr__(self) -> str:
        return super().__repr__()

    @property
    def epoch(self) -> int:
        return super().epoch

    @property
    def release(self) -> Tuple[int, ...]:
        return super().release

    @property
    def pre(self) -> Optional[Pre]:
        return super().pre

    @property
    def post(self) -> Optional[int]:
        return super().post

    @property
    def dev(self) -> Optional[int]:
        return super().dev

    @property
    def local(self) -> Optional[str]:
        return super().local

    @property
    def public(self) -> str:
        return super().public

    @property
    def base_version(self) -> str:
        return super().base_version

    @property
    def is_prerelease(self) -> bool:
        return super().is_prerelease

    @property
    def is_postrelease(self) -> bool:
        return super().is_postrelease

    @property
    def is_devrelease(self) -> bool:
        return super().is_devrelease

    @property
    def major(self) -> int:
        return super().major

    @property
    def minor(self) -> int:
        return super().minor

    @property
    def micro(self) -> int:
        return super().micro


class Keyed(packaging.version._BaseVersion):
    """Versions by a key of their own."""

    def __init__(self, key: Tuple[object, ...]) -> None:
        self.key = key

    @property
    def _key(self) -> Tuple[object, ...]:
        return self.key


class OwnSpecifier(Specifier):
    @property
    def prereleases(self) -> Optional[bool]:
        return super().prereleases

    @prereleases.setter
    def prereleases(self, value: Optional[bool]) -> None:
        Specifier.prereleases.__set__(self, value)  # type: ignore[attr-defined]

    @property
    def operator(self) -> str:
        return super().operator

    @property
    def version(self) -> str:
        return super().version

    def __repr__(self) -> str:
        return super().__repr__()

    def __str__(self) -> str:
        return super().__str__()

    def __hash__(self) -> int:
        return super().__hash__()

    def __eq__(self, other: object) -> bool:
        return super().__eq__(other)

    def __contains__(self, item: Union[str, Version]) -> bool:
        return super().__contains__(item)

    def contains(self, item: Union[Version, str], prereleases: Optional[bool] = None) -> bool:
        return super().contains(item, prereleases)

    @overload
    def filter(
        self, iterable: Iterable[AnyVersion], prereleases: Optional[bool] = None, key: None = ...
    ) -> Iterator[AnyVersion]: ...

    @overload
    def filter(
        self, iterable: Iterable[Thing], prereleases: Optional[bool] = None, key: Callable[[Thing], Union[Version, str]] = ...
    ) -> Iterator[Thing]: ...

    def filter(
        self, iterable: Iterable[Any], prereleases: Optional[bool] = None, key: Optional[Callable[[Any], Union[Version, str]]] = None
    ) -> Iterator[Any]:
        return super().filter(iterable, prereleases, key) if key is not None else super().filter(iterable, prereleases)


class OwnSet(SpecifierSet):
    @property
    def prereleases(self) -> Optional[bool]:
        return super().prereleases

    @prereleases.setter
    def prereleases(self, value: Optional[bool]) -> None:
        SpecifierSet.prereleases.__set__(self, value)  # type: ignore[attr-defined]

    def __repr__(self) -> str:
        return super().__repr__()

    def __str__(self) -> str:
        return super().__str__()

    def __hash__(self) -> int:
        return super().__hash__()

    def __and__(self, other: Union[SpecifierSet, str]) -> SpecifierSet:
        return super().__and__(other)

    def __eq__(self, other: object) -> bool:
        return super().__eq__(other)

    def __len__(self) -> int:
        return super().__len__()

    def __iter__(self) -> Iterator[Specifier]:
        return super().__iter__()

    def is_unsatisfiable(self) -> bool:
        return super().is_unsatisfiable()

    def __contains__(self, item: Union[Version, str]) -> bool:
        return super().__contains__(item)

    def contains(self, item: Union[Version, str], prereleases: Optional[bool] = None, installed: Optional[bool] = None) -> bool:
        return super().contains(item, prereleases, installed)

    @overload
    def filter(
        self, iterable: Iterable[AnyVersion], prereleases: Optional[bool] = None, key: None = ...
    ) -> Iterator[AnyVersion]: ...

    @overload
    def filter(
        self, iterable: Iterable[Thing], prereleases: Optional[bool] = None, key: Callable[[Thing], Union[Version, str]] = ...
    ) -> Iterator[Thing]: ...

    def filter(
        self, iterable: Iterable[Any], prereleases: Optional[bool] = None, key: Optional[Callable[[Any], Union[Version, str]]] = None
    ) -> Iterator[Any]:
        return super().filter(iterable, prereleases, key) if key is not None else super().filter(iterable, prereleases)


class OwnJudge(BaseSpecifier):
    """Specifiers that are neither of the two."""

    def __str__(self) -> str:
        return "=1"

    def __hash__(self) -> int:
        return 1

    def __eq__(self, other: object) -> bool:
        return isinstance(other, OwnJudge)

    @property
    def prereleases(self) -> Optional[bool]:
        return None

    @prereleases.setter
    def prereleases(self, value: bool) -> None:
        """Nothing is kept."""

    def contains(self, item: str, prereleases: Optional[bool] = None) -> bool:
        return item == "1"

    @overload
    def filter(
        self, iterable: Iterable[AnyVersion], prereleases: Optional[bool] = None, key: None = ...
    ) -> Iterator[AnyVersion]: ...

    @overload
    def filter(
        self, iterable: Iterable[Thing], prereleases: Optional[bool] = None, key: Callable[[Thing], Union[Version, str]] = ...
    ) -> Iterator[Thing]: ...

    def filter(
        self, iterable: Iterable[Any], prereleases: Optional[bool] = None, key: Optional[Callable[[Any], Union[Version, str]]] = None
    ) -> Iterator[Any]:
        return iter(iterable)


class OwnMarker(Marker):
    def __str__(self) -> str:
        return super().__str__()

    def __repr__(self) -> str:
        return super().__repr__()

    def __hash__(self) -> int:
        return super().__hash__()

    def __eq__(self, other: object) -> bool:
        return super().__eq__(other)

    def __and__(self, other: Marker) -> Marker:
        return super().__and__(other)

    def __or__(self, other: Marker) -> Marker:
        return super().__or__(other)

    def evaluate(
        self, environment: Optional[Mapping[str, Union[str, AbstractSet[str]]]] = None, context: EvaluateContext = "metadata"
    ) -> bool:
        return super().evaluate(environment, context)


class OwnRequirement(Requirement):
    def __str__(self) -> str:
        return super().__str__()

    def __repr__(self) -> str:
        return super().__repr__()

    def __hash__(self) -> int:
        return super().__hash__()

    def __eq__(self, other: object) -> bool:
        return super().__eq__(other)


class OwnTag(Tag):
    @property
    def interpreter(self) -> str:
        return super().interpreter

    @property
    def abi(self) -> str:
        return super().abi

    @property
    def platform(self) -> str:
        return super().platform

    def __eq__(self, other: object) -> bool:
        return super().__eq__(other)

    def __hash__(self) -> int:
        return super().__hash__()

    def __str__(self) -> str:
        return super().__str__()


class OwnUrl(DirectUrl):
    @classmethod
    def from_dict(cls, d: Mapping[str, Any], /) -> Self:
        return super().from_dict(d)

    def to_dict(
        self, *, generate_legacy_hash: bool = False, strip_user_password: bool = True, safe_user_passwords: Collection[str] = ("git",)
    ) -> Mapping[str, Any]:
        return super().to_dict(generate_legacy_hash=generate_legacy_hash, strip_user_password=strip_user_password)

    def validate(self) -> None:
        super().validate()


class OwnResolver(DependencyGroupResolver):
    def lookup(self, group: str) -> Tuple[Union[Requirement, DependencyGroupInclude], ...]:
        return super().lookup(group)

    def resolve(self, group: str) -> Tuple[Requirement, ...]:
        return super().resolve(group)


class OwnMetadata(Metadata):
    @classmethod
    def from_raw(cls, data: RawMetadata, *, validate: bool = True) -> Metadata:
        return super().from_raw(data, validate=validate)

    @classmethod
    def from_email(cls, data: Union[bytes, str], *, validate: bool = True) -> Metadata:
        return super().from_email(data, validate=validate)

    def as_rfc822(self) -> RFC822Message:
        return super().as_rfc822()


class OwnMessage(RFC822Message):
    def as_bytes(self, unixfrom: bool = False, policy: Optional[email.policy.Policy] = None) -> bytes:
        return super().as_bytes(unixfrom, policy)


class OwnPolicy(RFC822Policy):
    def header_store_parse(self, name: str, value: str) -> Tuple[str, str]:
        return super().header_store_parse(name, value)


class OwnLock(Pylock):
    @classmethod
    def from_dict(cls, d: Mapping[str, Any], /) -> Self:
        return super().from_dict(d)

    def to_dict(self) -> Mapping[str, Any]:
        return super().to_dict()

    def validate(self) -> None:
        super().validate()

    def select(
        self, *, environment: Optional[Environment] = None, tags: Optional[Sequence[Tag]] = None,
        extras: Optional[Collection[str]] = None, dependency_groups: Optional[Collection[str]] = None,
    ) -> Iterator[Tuple[Package, Union[PackageVcs, PackageDirectory, PackageArchive, PackageWheel, PackageSdist]]]:
        return super().select(environment=environment, tags=tags, extras=extras, dependency_groups=dependency_groups)


class OwnWheel(PackageWheel):
    @property
    def filename(self) -> str:
        return super().filename


class OwnSdist(PackageSdist):
    @property
    def filename(self) -> str:
        return super().filename


class OwnPackage(Package):
    @property
    def is_direct(self) -> bool:
        return super().is_direct


def own() -> Iterator[object]:
    one = OwnVersion("1!2.0rc1.post2.dev3+a.1")
    parts = (one.epoch, one.release, one.pre, one.post, one.dev, one.local, one.public, one.base_version, one.major, one.minor, one.micro)
    yield from (one, parts, one < Version("3"), one == Version("1!2"), hash(one) == hash(Version(str(one))), one.is_prerelease)
    yield from (OwnVersion.from_parts(release=(1,)), one.__replace__(epoch=None), sorted([Keyed((2,)), Keyed((1,))])[0].key)
    judges: List[BaseSpecifier] = [OwnSpecifier(">=1"), OwnSet(">=1,<2"), OwnJudge()]
    for judge in judges:
        judge.prereleases = False
        yield from (judge, judge.prereleases, judge.contains("1"), list(judge.filter(["1", "2a1"])))
    marker = OwnMarker("os_name == 'nt'")
    yield from (marker, marker & marker, marker.evaluate({"os_name": "nt"}), OwnRequirement("a>=1"), OwnTag("a", "b", "c").abi)
    yield OwnUrl.from_dict({"url": "file:///a", "dir_info": {}}).to_dict()
    yield OwnResolver({"a": ["x"]}).resolve("a")
    yield issubclass(OwnMetadata, Metadata)
    yield from (OwnMessage().as_bytes(), OwnPolicy().header_store_parse("a", "b"))
    yield len(list(OwnLock.from_dict({"lock-version": "1.0", "created-by": "t", "packages": []}).select()))
    yield from (OwnWheel(url="https://h/a-1-py3-none-any.whl", hashes={}).filename, OwnSdist(name="a-1.zip", path="x", hashes={}).filename)
    yield OwnPackage(name=NormalizedName("a")).is_direct


def wrong() -> None:
    """What the checker refuses: of an ignore that isn't needed it tells."""
    Version("1") < "1"  # type: ignore[operator]
    Version(1)  # type: ignore[arg-type]
    Version("1").release = (1,)  # type: ignore[misc]
    Version.from_parts()  # type: ignore[call-arg]
    Version("1").__replace__(more=1)  # type: ignore[call-arg]
    BaseSpecifier()  # type: ignore[abstract]
    Specifier(">=1") < Specifier(">=2")  # type: ignore[operator]
    Specifier(">=1").contains("1", installed=True)  # type: ignore[call-arg]
    SpecifierSet(">=1", True).contains(1)  # type: ignore[arg-type]
    list(SpecifierSet().filter(["1"], key=1))  # type: ignore[call-overload]
    SpecifierSet().prereleases = "x"  # type: ignore[assignment]
    Marker("os_name == 'nt'") & "os_name == 'nt'"  # type: ignore[operator]
    Requirement("a").extras = ["b"]  # type: ignore[assignment]
    Requirement("a", "b")  # type: ignore[call-arg]
    Tag("a", "b")  # type: ignore[call-arg]
    Tag("a", "b", "c").abi = "d"  # type: ignore[misc]
    canonicalize_name("a", True)  # type: ignore[misc]
    canonicalize_version("1", False)  # type: ignore[misc]
    normal: NormalizedName = "a"  # type: ignore[assignment]
    parse_wheel_filename("a", True)  # type: ignore[misc]
    sys_tags(True)  # type: ignore[misc]
    DirInfo(True)  # type: ignore[misc]
    DirInfo(editable="x")  # type: ignore[arg-type]
    Metadata.from_raw({"nme": "a"})  # type: ignore[typeddict-item]
    Metadata.from_email(b"", False)  # type: ignore[misc]
    Pylock.from_dict(d={})  # type: ignore[call-arg]
    Package(name="a")  # type: ignore[arg-type]
    resolve_dependency_groups(dependency_groups={})  # type: ignore[call-arg]


def main() -> None:
    for part in (versions, specifiers, markers, requirements, files, tags, documents, metadata, locks, own):
        for answer in part():
            print("%s: %s" % (part.__name__, sorted(answer) if isinstance(answer, (set, frozenset)) else answer))
    print(len(Errors))


if __name__ == "__main__":
    main()
