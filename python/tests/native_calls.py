"""Every function, method and part of `_native`, each with arguments that it takes and arguments that it refuses: what is tried
hard by the other files native_*.py, which tools/check/native runs."""

import collections
import copy
import json
import operator
import re

import pylock
from pylock import _native, direct_url

ENVIRONMENT = json.dumps(
    {"environment": {"os_name": "posix", "sys_platform": "linux", "python_full_version": "3.12.4"}, "tags": ["py3-none-any"]}
).encode()
NOTHING = b'{"environment": {}, "tags": []}'
LOCK = b"""
lock-version = "1.0"
created-by = "t"
extras = ["x-y", "z"]
dependency-groups = ["dev"]
default-groups = ["main"]
packages = [
    {name = "a", version = "1", wheels = [{path = "w/a-1-py3-none-any.whl", hashes = {sha256 = "00"}}]},
    {name = "b", marker = "'x-y' in extras", directory = {path = "b", editable = true}},
    {name = "c", marker = "'main' in dependency_groups", archive = {path = "c.zip"}},
]
"""
BAD_LOCK = LOCK.replace(b'version = "1"', b"version = 1")
LONG = ".".join(str(number) for number in range(300))
PARTS = ("_given", "_key", "epoch", "release", "pre", "post", "dev", "local", "public", "base_version", "is_prerelease",
         "is_postrelease", "is_devrelease", "major", "minor", "micro")
EDITS = (
    ("set", None, "os_name", "x"), ("unset", None, "os_name"), ("add_extra", None, "z"), ("drop_extra", None, "z"),
    ("add_group", None, "dev"), ("drop_group", None, "main"), ("add_extras", None, "z\nx-y"), ("drop_extras", None, "z"),
    ("add_groups", None, "dev"), ("drop_groups", None, "main\ndev"), ("tags", None, "py3-none-any\npy2-none-any"),
    ("add", None, '{name = "d", archive = {path = "d.zip"}}'), ("line", None, "set os_name nt"), ("policy", None, "a", "wheel"),
    ("target", None, "3.12", "linux"), ("put", 2, '{name = "b", directory = {path = "b"}}'), ("del", 2),
    # refused, below zero
    ("set", None, "os.name", "x"), ("add_extra", None, "w"), ("add_extras", None, "z\nw"), ("add", None, "{"), ("del", 9), ("del", 2**40), ("tags", None, "-"),
)


class Row:
    """A call: a function, and what makes its arguments anew each time. `error` is what it raises, or None. Where an allocation is
    refused to the frame of a function in Python, that loses the exception, and what was iterated can't be made again: calls with
    such aren't for `allocations`. Where it isn't `again`, MemoryError closes what it was called of."""

    def __init__(self, name, function, make, error=None, allocations=True, again=True):
        self.name, self.function, self.make, self.error, self.allocations, self.again = name, function, make, error, allocations, again


def fixed(*arguments):
    return lambda: arguments


def fresh(text):
    """A text that no other object is: what is kept with it, as its UTF-8, is found anew."""
    return "".join(list(text))


def version(text):
    return pylock.Version(fresh(text))


def keyless():
    """A version whose key is found when it is used."""
    return _native.parse_sdist_filename("a-1.0rc1.tar.gz")[1]


def with_new_tags(text):
    """The text, where no tag is kept that came before."""
    _native.use_tag(pylock.Tag)
    return (fresh(text),)


def session():
    return _native.session_start(LOCK, ENVIRONMENT)


def environment():
    return _native.environment_of({"os_name": "posix", "sys_platform": "linux"})


class WithInit(_native.Version):
    """Reads its text in its own __init__."""

    def __init__(self, text):
        super().__init__(text + ".0")


class OfOnePiece(_native.Tag):
    """Gives its pieces in its own __init__."""

    __slots__ = ()

    def __init__(self, python):
        super().__init__(python, "none", "any")


class Early(pylock.Version):
    """Says otherwise whether it is a pre-release."""

    __slots__ = ()

    is_prerelease = property(lambda self: True)


def of_versions():
    for text in ("1.0", "1!2.3.rc4.post5-dev6+Local.7", LONG, "1.0-é"):
        error = pylock.InvalidVersion if "é" in text else None
        for name, function in (("Version", _native.Version), ("Version of the layer", pylock.Version), ("version_key", _native.version_key),
                               ("version_record", _native.version_record)):
            yield Row("%s(%.12s)" % (name, text), function, fixed(text), error)
        if error is None:
            yield Row("phase of a class(%.12s)" % text, _native.phase, lambda text=text: (Early(fresh(text)),))
        for name in ("phase", "canonicalize_version"):
            yield Row("%s(%.12s)" % (name, text), getattr(_native, name), fixed(text))
        if error is None:
            yield Row("Version of a class(%.12s)" % text, WithInit, fixed("7" if "+" in text else text))
            for part in PARTS:
                # of the layer it is another key
                made = _native.Version if part == "_key" else version
                yield Row("%.12s.%s" % (text, part), operator.attrgetter(part), lambda text=text, made=made: (made(fresh(text)),))
            for function in (str, repr, hash):
                yield Row("%s(%.12s)" % (function.__name__, text), function, lambda text=text: (version(text),))
            yield Row("canonicalize_version of one(%.12s)" % text, _native.canonicalize_version, lambda text=text: (version(text),))
    for name in ("lt", "le", "eq", "ne", "gt", "ge"):
        yield Row("versions, " + name, getattr(operator, name), lambda: (keyless(), version("2")))
    yield Row("hash of a keyless", hash, lambda: (keyless(),))
    yield Row("phase of one", _native.phase, lambda: (version("1.0-rc1"),))
    yield Row("versions, lt of a text", operator.lt, lambda: (version("1"), "1"), TypeError)
    yield Row("set again", _native.Version.__init__, lambda: (version("1"), "2"), TypeError)
    for text in ("1.0", "1!2.3.rc4.post5-dev6+Local.7", LONG):
        for named in ({}, {"local": None}, {"pre": ("b", 2)}, {"local": "x.1"}, {"pre": ("Alpha", 2)}, {"local": "X-1"}, {"post": 2**70}):
            yield Row("%.12s.__replace__(%r)" % (text, named), lambda one, named=named: one.__replace__(**named), lambda text=text: (pylock.Version(fresh(text)),),
                      allocations=False)
    for named in ({"release": (1, 2)}, {"release": (1, 2), "epoch": 1, "pre": ("rc", 3), "post": 4, "dev": 5, "local": "x.1"}, {"release": (1,), "local": "01"}):
        yield Row("from_parts(%r)" % named, lambda named=named: pylock.Version.from_parts(**named), fixed(), allocations=False)
    yield Row("from_parts, refused", lambda: pylock.Version.from_parts(release=(-1,)), fixed(), pylock.InvalidVersion, allocations=False)
    for word in ("Preview", "x", "\xc4" * 9, "\u212a"):
        yield Row("normalize_pre(%a)" % word, _native.normalize_pre, lambda word=word: (fresh(word),))
    yield Row("of no text", hash, lambda: (_native.Version.__new__(WithInit),), ValueError)


class Untold:
    """What isn't to be told as a text."""

    __str__ = None


def of_names():
    for name in ("canonicalize_name", "is_normalized_name", "is_name"):
        for text in ("A__b.C", "É-" * 300, "a-b"):
            yield Row("%s(%.6s)" % (name, text), getattr(_native, name), lambda text=text: (fresh(text),))
    yield Row("canonicalize_name(half)", _native.canonicalize_name, fixed("a\ud800"), pylock.InvalidName)
    for name, text, bad, error in (
        ("requirement", "a[b,c] >=1,<2; os_name == '\t'", "a[", pylock.InvalidRequirement),
        ("requirement", "a @ https://h/é" + "x" * 600, "-", pylock.InvalidRequirement),
        ("requirement_parts", "A_b [c, d]  (>=1,<2) ; os_name == '\u00e9' and 'x' in extras", "a; os_name", pylock.InvalidRequirement),
        ("requirement_parts", "a @ https://h/\u00e9" + "x" * 600 + " ; os_name == 'nt'", "a\ud800", pylock.InvalidRequirement),
        ("requirement_parts", "a" * 600, "a b", pylock.InvalidRequirement),
        ("wheel", "A_b-1.0-5x-py2.py3-none-any.whl", "a.whl", pylock.InvalidWheelFilename),
        ("parse_wheel_filename", "A_b-1.0.post1-5x-py2.py3-none-any.whl", "a-1-py3..py2-none-any.whl", pylock.InvalidWheelFilename),
        ("parse_wheel_filename", "a-1-1234567890123456789-cp310.cp311.py3-abi3-any.whl", "a-1\ud800-py3-none-any.whl", pylock.InvalidWheelFilename),
        ("sdist", "A_b-1.0.tar.gz", "a.tar.gz", pylock.InvalidSdistFilename),
        ("parse_sdist_filename", "A_b-1.0.zip", "a-x.zip", pylock.InvalidSdistFilename),
        ("parse_wheel_filename", "a-1-5\\\t-py3-none-any.whl", "a-1-\\5-py3-none-any.whl", pylock.InvalidWheelFilename),
    ):
        yield Row("%s(%.12s)" % (name, text), getattr(_native, name), lambda text=text: (fresh(text),))
        yield Row("%s(%.12s), refused" % (name, bad.replace("\ud800", "half")), getattr(_native, name), fixed(bad), error)
    text = _native.requirement_text
    yield Row("requirement_text", text, lambda: (fresh("a"), {fresh("x"), fresh("y")}, _native.Specifier(">=1"), fresh("u"), _native.Marker("extra == 'x'")))
    yield Row("requirement_text of a name", text, lambda: (fresh("\u00e9" * 300), set(), "", None, None))
    for number, odd in enumerate((5, {5}, Untold(), Untold(), Untold())):
        parts = ["a", set(), "", None, None]
        parts[number] = odd
        yield Row("requirement_text, odd %d" % number, text, fixed(*parts), TypeError)
    for name, error in (
        ("requirement_expected", pylock.InvalidRequirement), ("marker_expected", pylock.InvalidMarker),
        ("set_expected", pylock.InvalidSpecifier), ("specifier_expected", pylock.InvalidSpecifier),
    ):
        for text in ("a >= é", "a ; (os_name == '\t' " + "x" * 600, ">=1"):
            yield Row("%s(%.9r)" % (name, text), getattr(_native, name), lambda text=text: (fresh(text),))
        yield Row("%s(half), refused" % name, getattr(_native, name), fixed("a\ud800"), error)
    yield Row("parse_wheel_filename, new tags", _native.parse_wheel_filename, lambda: with_new_tags("a-1-cp310.cp311-abi3-any.whl"))


def specifier(text):
    return _native.Specifier(fresh(text))


def of_set(text):
    """A specifier that a set made, which is read when it is asked."""
    return _native.specifiers(fresh(text + ",<9"))[0]


def of_specifiers():
    for text in (" >= 1.0 , ===é, ,<2", "=== " + "é" * 600, ",".join("!= %d" % number for number in range(40))):
        yield Row("specifiers(%.9r)" % text, _native.specifiers, lambda text=text: (fresh(text),))
    for text in ("!=é", "===\ud800"):
        yield Row("specifiers(%r), refused" % text, _native.specifiers, fixed(text), pylock.InvalidSpecifier)
    yield Row("Specifier", _native.Specifier, lambda: (fresh(" >= 1.0rc1 "), False))
    for text in ("?", "", ">=1,<2", "===\ud800"):
        yield Row("Specifier(%r), refused" % text, _native.Specifier, fixed(text), pylock.InvalidSpecifier)
    yield Row("Specifier again", _native.Specifier.__init__, lambda: (asked(specifier(">=1")), "<2"))
    yield Row("Specifier again, refused", _native.Specifier.__init__, lambda: (asked(specifier(">=1")), "?"), pylock.InvalidSpecifier)
    for make in (specifier, of_set):
        for text in ("~= 1.0.0", "===x-é" if make is of_set else "===x", "!=1.0.0.*"):
            names = ("text", "_spec", "_is_exact", "operator", "version", "prereleases")
            parts = [operator.attrgetter(name) for name in names] + [str, hash, _native.Specifier._canonical_spec]
            for part in parts:
                yield Row("%s(%s), %r" % (make.__name__, text, part), part, lambda make=make, text=text: (make(text),))
        for name in ("admits", "_passes", "contains", "__contains__"):
            for given in ("1.0", LONG):
                yield Row("Specifier.%s(%.6s)" % (name, given), getattr(_native.Specifier, name), lambda make=make, given=given: (make(">=1"), given))
        yield Row("Specifier.admits, refused", _native.Specifier.admits, lambda make=make: (make(">=1"), "x"), pylock.InvalidVersion)
        yield Row("Specifier._passes of none", _native.Specifier._passes, lambda make=make: (make(">=1"), "x"))
        for given in ("1.0rc1", "1.0", version("1.0rc1")):
            yield Row("Specifier.contains(%.6s, False)" % given, _native.Specifier.contains, lambda make=make, given=given: (make(">=1.dev0"), given, False))
    for name in ("__copy__", "__reduce__", "__repr__"):
        yield Row("Specifier.%s" % name, getattr(pylock.Specifier, name), lambda: (pylock.Specifier(" >= 1.0", True),))
    yield Row("Specifier.__reduce_ex__", pylock.Specifier.__reduce_ex__, lambda: (pylock.Specifier(" >= 1.0", True), 2))
    yield Row("Specifier of no text", str, lambda: (_native.Specifier.__new__(_native.Specifier),), ValueError)


def asked(one):
    """The specifier, with all that it finds when it is asked."""
    hash(one)
    one.admits("1")
    return one


def asked_set(one):
    """The set, with all that it finds when it is asked."""
    return asked(one), str(one), one.prereleases, one.is_unsatisfiable()


def of_texts(*texts):
    """A set that is joined of those of the texts, in a row."""
    one = pylock.SpecifierSet(texts[0])
    for text in texts[1:]:
        one &= text
    return one


def of_joined():
    return of_texts(">=1.0", "", "!=1.5.*,!= 1.5.*", "<3")


def of_filter(text, *arguments):
    return _native.Set(text).filter(*arguments)


def of_items():
    return _native.Set([of_set(" !=1.0"), "<2"], True)


def layers():
    return _native.Layers({"os_name": "posix", "sys_platform": "linux"})


def of_layers():
    text = "os_name == 'nt' or 'x' == extra"
    over = _native.Marker._value_over
    yield Row("Layers", _native.Layers, fixed({"os_name": "é", "sys_platform": "linux"}))
    yield Row("Layers, refused", _native.Layers, fixed({"os_name": 5}), TypeError)
    for mapping in (None, {}, {"os_name": fresh("é" * 300)}, {"os_name": "nt", "extra": "x"}, {"more": "x"}, {"os_name": 5}):
        for extra in (None, "É"):
            yield Row("Marker._value_over(%.20r, %s)" % (mapping, extra), over,
                      lambda mapping=mapping, extra=extra: (_native.Marker(text), layers(), mapping, extra, True))
    yield Row("Marker._value_over, unset", over, lambda: (_native.Marker(text), layers(), {}, None, False), pylock.MarkerFault)
    for mapping, error in (({"os_name": "\ud800"}, pylock.InvalidEnvironment), ({"extra": "\ud800"}, pylock.InvalidName)):
        yield Row("Marker._value_over(%r), refused" % mapping, over,
                  lambda mapping=mapping: (_native.Marker(text), layers(), mapping, None, False), error)


class Small:
    """No text, but it says what it is in lower case."""

    def lower(self):
        return fresh("É").lower()


def of_tags():
    yield Row("parse_tag", _native.parse_tag, fixed("py2.py3-none-any"))
    yield Row("parse_tag, new", _native.parse_tag, lambda: with_new_tags("P3.é\\-none-any"))
    for text in ("py3-none", "py3-none-\ud800"):
        yield Row("parse_tag(%r), refused" % text, _native.parse_tag, fixed(text), pylock.tags.InvalidTag)
    for text in ("py2.py3-none-any", "py2.\xe9-none-any"):
        yield Row("parse_tag(%a) in order" % text, lambda text: _native.parse_tag(text, validate_order=True), lambda text=text: (fresh(text),))
    for text in ("py3.py2-none-any", "\xe9.py2-none-any"):
        yield Row("parse_tag(%a), not in order" % text, lambda text: _native.parse_tag(text, validate_order=True), fixed(text), pylock.UnsortedTagsError,
                  allocations=False)
    for text, error in (("a-1-py2.py3-none-any.whl", None), ("a-1-py3.py2-none-any.whl", pylock.InvalidWheelFilename)):
        yield Row("parse_wheel_filename(%s) in order" % text, lambda text: _native.parse_wheel_filename(text, validate_order=True), fixed(text), error,
                  allocations=False)
    for behind in ("_x", "_\xe9" * 300):
        yield Row("numbered(%.3a)" % behind, _native.numbered, lambda behind=behind: (fresh("ios_"), 12, 8, fresh(behind)))
    yield Row("Tag of capitals", _native.Tag, lambda: (fresh("CP310"), fresh("abi3"), fresh("ANY")))
    yield Row("Tag", _native.Tag, fixed("CP310", "abi3", "É"))
    yield Row("Tag of small texts", _native.Tag, lambda: (fresh("cp310"), fresh("abi3"), fresh("any")))
    yield Row("Tag of what has a lower", _native.Tag, fixed(Small(), "x", "y"))
    for odd, error in ((5, AttributeError), (b"x", TypeError)):
        yield Row("Tag of %r" % odd, _native.Tag, fixed("x", odd, "y"), error)
    yield Row("Tag of the layer", pylock.Tag, fixed("cp310", "abi3", "x\ud800" * 300))
    yield Row("Tag of a class", OfOnePiece, fixed("CP310-é"))
    yield Row("Tag without pieces", _native.Tag, fixed(), TypeError)
    for function in (str, repr, hash, operator.attrgetter("interpreter"), operator.attrgetter("abi"), operator.attrgetter("platform")):
        yield Row("tag, %r" % function, function, lambda: (_native.Tag("py3", "none", fresh("É" * 300)),))
    for name in ("eq", "ne"):
        yield Row("tags, " + name, getattr(operator, name), lambda: (_native.Tag("a", "b", "c"), _native.Tag("A", "b", "c")))
    yield Row("tags, lt", operator.lt, lambda: (_native.Tag("a", "b", "c"), _native.Tag("A", "b", "c")), TypeError)


def of_kept():
    long = ",".join("!=%d" % number for number in range(200))
    for text in (">=1.0, !=1.5.*, <3", long):
        yield Row("Set(%.5s)" % text, _native.Set, lambda text=text: (fresh(text),))
        yield Row("Set([%.5s])" % text, _native.Set, lambda text=text: ([fresh(each) for each in text.split(",")],))
    parts = [operator.attrgetter(name) for name in ("text", "normal_text", "prereleases", "_is_exact")]
    for make in (lambda: _native.Set(">=1.0, !=1.5.*, <3"), lambda: _native.Set(long), of_joined, of_items, lambda: _native.Set("")):
        shown = str(make())[:12]
        for part in parts + [str, repr, hash, len, list, _native.Set._items, _native.Set._says_more]:
            yield Row("Set(%s), %r" % (shown, part), part, lambda make=make: (make(),))
        for name, other in (("_joined", lambda: fresh("<9 ,!=3")), ("_joined", of_items), ("_joined", of_joined), ("__eq__", lambda: "<2"), ("__ne__", of_joined)):
            yield Row("Set(%s).%s" % (shown, name), getattr(_native.Set, name), lambda make=make, other=other: (make(), other()))
    for given in (5, ["?"], [5]):
        yield Row("Set(%s), refused" % given, _native.Set, fixed(given), pylock.InvalidSpecifier if given == ["?"] else TypeError)
    yield Row("Set._joined, refused", _native.Set._joined, lambda: (of_joined(), "?"), pylock.InvalidSpecifier)
    yield Row("Set._joined, of two minds", _native.Set._joined, lambda: (_native.Set("<1", True), _native.Set("", False)), ValueError)
    for key in (None, str):
        for prereleases in (None, True, False):
            yield Row("list(Set.filter(%s, %s))" % (prereleases, key), list,
                      lambda prereleases=prereleases, key=key: (of_filter(">=1.dev0", ["1.0rc1", version("1"), "0", "x", fresh("1!2")], prereleases, key),), allocations=False)
    yield Row("list(Set.filter) of pre-releases", list, lambda: (of_filter("<2", ["1rc1", version("2"), "1.dev0"]),), allocations=False)
    yield Row("list(Set.filter), refused", list, lambda: (of_filter("<2", ["1rc1", 5]),), TypeError, allocations=False)
    yield Row("next(Set.filter)", next, lambda: (of_filter("<2", ["1rc1", "1", "1.1"]),), allocations=False)
    yield Row("Set.filter", _native.Set.filter, lambda: (_native.Set("<2"), ["1rc1"], None, str))
    yield Row("Set.filter of nothing", _native.Set.filter, lambda: (_native.Set("<2"), 5), TypeError)
    # by the library, of what was joined too, and by the Python layer
    for text, said, allocations in ((">=1,<2", None, True), (">=2,<1", None, True), ("<=%s" % LONG, False, True), ("===x", None, False), ("==1rc1", False, False)):
        yield Row("Set(%.7s).is_unsatisfiable, %s" % (text, said), pylock.SpecifierSet.is_unsatisfiable,
                  lambda text=text, said=said: (pylock.SpecifierSet(fresh(text), said) & "!=1.7",), allocations=allocations)
    for name in ("_subset", "_disjoint"):
        for make in (lambda: _native.Set("<2, >=1.dev0"), of_joined, of_items, lambda: _native.Set(""), lambda: _native.Set("===x")):
            for other in (lambda: _native.Set(">=1.dev0,<3"), of_joined, lambda: _native.Set(">=7"), lambda: _native.Set("")):
                yield Row("Set(%s).%s(%s)" % (str(make())[:12], name, str(other())[:12]), getattr(_native.Set, name),
                          lambda make=make, other=other: (make(), other()))
            yield Row("Set(%s).%s of itself" % (str(make())[:12], name), getattr(_native.Set, name), lambda make=make: (make(),) * 2)
        yield Row("Set.%s, refused" % name, getattr(_native.Set, name), lambda: (_native.Set(">=1"), ">=1"), TypeError)
        yield Row("Set.%s of no text" % name, getattr(_native.Set, name), lambda: (_native.Set(">=1"), _native.Set.__new__(_native.Set)), ValueError)
    yield Row("Set again", _native.Set.__init__, lambda: (_native.Set(">=1"), "<2"))
    yield Row("Set of no text", str, lambda: (_native.Set.__new__(_native.Set),), ValueError)
    yield Row("Set, refused", _native.Set, fixed("?"), pylock.InvalidSpecifier)
    for name in ("admits", "_passes", "contains", "__contains__"):
        for given in ("1.0", LONG):
            yield Row("Set.%s(%.6s)" % (name, given), getattr(_native.Set, name), lambda given=given: (_native.Set(">=1"), given))
        yield Row("Set.%s of one" % name, getattr(_native.Set, name), lambda: (_native.Set(">=1"), version("1.0rc1")))
    yield Row("Set.admits, refused", _native.Set.admits, lambda: (_native.Set(">=1"), "x"), pylock.InvalidVersion)
    yield Row("Set._passes of none", _native.Set._passes, lambda: (_native.Set(">=1"), "x"))
    yield Row("Set.contains, refused", _native.Set.contains, lambda: (_native.Set(">=1"), "x", None, False, 1), TypeError)
    yield Row("Marker", _native.Marker, fixed("os_name == 'nt' or (extra == 'x' and python_version > '3')"))
    yield Row("Marker, refused", _native.Marker, fixed("os_name"), pylock.InvalidMarker)
    for given in ("os_name == 'n\tt' or (extra == 'x' and python_version > '3')", "os_name == '%s'" % LONG):
        yield Row("marker_pieces(%.14s)" % given, _native.marker_pieces, fixed(given))
    yield Row("marker_pieces, refused", _native.marker_pieces, fixed("os_name"), pylock.InvalidMarker)
    for extra in (None, "x", "É"):
        yield Row("Marker._value_in(%s)" % extra, _native.Marker._value_in,
                  lambda extra=extra: (_native.Marker("os_name == 'nt' or 'x' == %s" % ("extra" if extra else "os_name")), environment(), extra))
    yield Row("Marker._value_in, refused", _native.Marker._value_in,
              lambda: (_native.Marker("extra == 'x'"), environment(), None), pylock.MarkerFault)
    yield Row("environment_of", _native.environment_of, fixed({"os_name": "é", "no_variable": "x", "sys_platform": "linux"}))
    yield Row("environment_of, refused", _native.environment_of, fixed({"os_name": "\ud800"}), pylock.InvalidEnvironment)
    yield Row("environment_read", _native.environment_read, fixed(ENVIRONMENT))
    yield Row("environment_read, refused", _native.environment_read, fixed(b'{"environment": {}, "tags": ["x"]}'), pylock.InvalidEnvironment)
    yield Row("environment_message", _native.environment_message, fixed(b"{"))
    yield Row("environment_target", _native.environment_target, fixed("3.12", "manylinux_2_28_x86_64"))
    yield Row("environment_target, refused", _native.environment_target, fixed("3.12", "x"), pylock.InvalidTarget)
    for name in ("add_extra", "add_group"):
        yield Row("Environment." + name, getattr(_native.Environment, name), lambda: (environment(), "Some_É"))
        yield Row("Environment.%s, refused" % name, getattr(_native.Environment, name), lambda: (environment(), "\ud800"), pylock.InvalidName)


def joined():
    return _native.Marker("os_name == 'nt'").__and__(_native.Marker("'\u00c9_b' == extra").__or__(_native.Marker("(os_name=='\u00e9')")))


def deep():
    marker = one = _native.Marker("os_name == 'nt'")
    for _ in range(66):
        marker = marker.__or__(one)
    return marker


def with_tree():
    """A marker whose tree was changed."""
    marker = pylock.Marker("os_name == 'nt' or os_name == 'posix'")
    del marker._markers[1:]
    return marker


def known(make):
    """A marker that was asked for all that it finds."""
    one = make()
    return (str(one), one._value_in(environment(), "x")) and one


def of_markers():
    makers = (
        lambda: _native.Marker("os_name=='nt'and(('\u00c9' not  in extras)) or extra == '\u00c9__b'"), joined, lambda: known(joined),
        lambda: pylock.Marker(" os_name == '%s' " % ("x" * 600)), lambda: pylock.Marker("os_name == 'nt'") & pylock.Marker("'x' in dependency_groups"),
        with_tree,
    )
    functions = (str, repr, hash, _native.Marker.__copy__, operator.attrgetter("text"), operator.attrgetter("_sets"), operator.attrgetter("_tree"))
    for number, make in enumerate(makers):
        for function in functions:
            yield Row("marker %d, %r" % (number, function), function, lambda make=make: (make(),))
        for name in ("__and__", "__or__", "__eq__", "__ne__"):
            for other in (make, makers[0], lambda: 5):
                yield Row("marker %d, %s" % (number, name), getattr(_native.Marker, name), lambda make=make, other=other: (make(), other()))
        for name in ("_disjoint", "_implied"):
            for other in (make, makers[0], lambda: _native.Marker("'y' in extras and python_version < '3.9'")):
                yield Row("marker %d, %s" % (number, name), getattr(_native.Marker, name), lambda make=make, other=other: (make(), other()))
            yield Row("marker %d, %s of itself" % (number, name), getattr(_native.Marker, name), lambda make=make: (make(),) * 2)
            yield Row("marker %d, %s, refused" % (number, name), getattr(_native.Marker, name), lambda make=make: (make(), "os_name == 'nt'"), TypeError)
        yield Row("marker %d, _value_in" % number, _native.Marker._value_in, lambda make=make: (make(), environment(), "x"))
        yield Row("marker %d, _value_over" % number, _native.Marker._value_over, lambda make=make: (make(), layers(), {}, "x", True))
        for text in (fresh("os_name == '\u00e9'"), ""):
            yield Row("marker %d, _read(%.7s)" % (number, text), _native.Marker._read, lambda make=make, text=text: (make(), text))
        yield Row("marker %d, _read, refused" % number, _native.Marker._read, lambda make=make: (make(), "os_name"), pylock.InvalidMarker)
    for function in (str, hash, _native.Marker.__copy__, operator.attrgetter("text"), operator.attrgetter("_sets")):
        yield Row("marker without a text, %r" % function, function, lambda: (_native.Marker.__new__(_native.Marker),), ValueError)
    for function in (str, repr, hash, operator.attrgetter("text"), operator.attrgetter("_sets")):
        yield Row("marker that is too deep, %r" % function, function, lambda: (deep(),), pylock.InvalidMarker)


def of_locks():
    for name in ("files", "audit"):
        for json_too in (False, True):
            yield Row("%s(%s)" % (name, json_too), getattr(_native, name), fixed(LOCK, json_too))
        yield Row(name + " of one that is refused", getattr(_native, name), fixed(BAD_LOCK, True))
    yield Row("lock_head", _native.lock_head, fixed(LOCK))
    yield Row("lock_head, refused", _native.lock_head, fixed(BAD_LOCK), pylock.InvalidLock)
    yield Row("lock_message", _native.lock_message, fixed(BAD_LOCK))
    yield Row("session_start", _native.session_start, fixed(LOCK, ENVIRONMENT))
    yield Row("session_start, refused", _native.session_start, fixed(LOCK, b"{"), pylock.InvalidEnvironment)
    yield Row("session_start_strict, found", _native.session_start_strict, fixed(LOCK, ENVIRONMENT, True))
    yield Row("session_start_strict", _native.session_start_strict, fixed(LOCK.split(b"packages")[0], ENVIRONMENT, False))
    yield Row("session_start_strict, refused", _native.session_start_strict, fixed(BAD_LOCK, ENVIRONMENT, True), pylock.InvalidLock)
    for number, edit in enumerate(EDITS):
        yield Row("Session.edit %d, %s" % (number, edit[0]), _native.Session.edit, lambda edit=edit: (session(), *edit))
    for name in ("answer", "explain"):
        yield Row("Session." + name, getattr(_native.Session, name), lambda: (session(), True))
    for name in ("picks", "judged", "close"):
        yield Row("Session." + name, getattr(_native.Session, name), lambda: (session(),))
    yield Row("Session.owner.graves", operator.attrgetter("owner.graves"), lambda: (session(),))
    yield Row("Session.picks of a fault", _native.Session.picks, lambda: (_native.session_start(LOCK, NOTHING),))
    yield Row("answer of a closed one", _native.Session.answer, lambda: (closed(), True), ValueError)
    yield Row("picks of a closed one", _native.Session.picks, lambda: (closed(),), ValueError)


def words(text):
    """The words of a line, as the program takes them."""
    return tuple([b"pylock", *text.encode().split()])


FILES = (b"lock", LOCK, b"environment", ENVIRONMENT, b"bad", BAD_LOCK)


def of_the_program():
    for text in ("plan lock environment", "explain - environment --json", "select lock environment", "name A_b", "marker 'a'=='b' environment", "files --help"):
        given = LOCK if " - " in text else b"show\n"
        yield Row("run_program(%s)" % text, _native.run_program, fixed(words(text), FILES, given))
    # what there is no memory for isn't told on standard error
    for text in ("plan bad environment", "plan absent environment", "version x", "fly", "name \u00e9", ""):
        yield Row("run_program(%a)" % text, _native.run_program, fixed(words(text), FILES, b""), allocations=False)
    yield Row("run_program of no words", _native.run_program, fixed((), (), b""), allocations=False)
    yield Row("run_program of an odd file", _native.run_program, fixed(words("name a"), FILES[:3], b"x" * 100_000))
    for given in ([b"x"], None, b"x", ("x",), (b"x", 5), (bytearray(b"x"),)):
        yield Row("run_program(%r)" % (given,), _native.run_program, fixed(given, (), b""), TypeError)
        yield Row("run_program of files %r" % (given,), _native.run_program, fixed(words("name a"), given, b""), TypeError)
        yield Row("select_asked(%r)" % (given,), _native.select_asked, fixed(given), TypeError)
    yield Row("run_program of a str", _native.run_program, fixed((), (), "x"), TypeError)
    for text in ("select a\\b environment --strict", "select lock --python 3.12 --platform linux --json", "select lock", "plan a b", ""):
        yield Row("select_asked(%s)" % text, _native.select_asked, fixed(words(text)))
    yield Row("select_asked of no text", _native.select_asked, fixed((b"pylock", b"select", b"\xff", b"a")))


def run(json=False):
    return _native.run_start(LOCK, ENVIRONMENT, json)[0]


def ended():
    one = run()
    one.end(False)
    return one


def of_runs():
    for json_too in (False, True):
        yield Row("run_start(%s)" % json_too, _native.run_start, fixed(LOCK, ENVIRONMENT, json_too))
        for piece in (b"", b"show\nfly\nsh", b"x" * 100_000, b"show\n" * 4):
            yield Row("Run.feed(%s, %.5r)" % (json_too, piece), _native.Run.feed, lambda json_too=json_too, piece=piece: (run(json_too), json_too, piece), again=False)
        yield Row("Run.end(%s)" % json_too, _native.Run.end, lambda json_too=json_too: (run(json_too), json_too), again=False)
    yield Row("run_start of a fault", _native.run_start, fixed(LOCK, NOTHING, False))
    yield Row("run_start, refused lock", _native.run_start, fixed(BAD_LOCK, b"{", True), pylock.InvalidLock)
    yield Row("run_start, refused environment", _native.run_start, fixed(LOCK, b"{", False), pylock.InvalidEnvironment)
    yield Row("Run.end of a line", _native.Run.end, lambda: (fed(b"fly"), False), again=False)
    yield Row("Run.owner.graves", operator.attrgetter("owner.graves"), lambda: (run(),))
    yield Row("Run.feed of an ended one", _native.Run.feed, lambda: (ended(), False, b"show\n"), ValueError)
    yield Row("Run.end of an ended one", _native.Run.end, lambda: (ended(), False), ValueError)
    yield Row("Run.feed of a str", _native.Run.feed, lambda: (run(), False, "show\n"), TypeError)


def fed(piece):
    one = run()
    one.feed(False, piece)
    return one


class Entry:
    """An object that `made` makes."""


class Narrow:
    """One without a dict."""

    __slots__ = ("size", "name")


class Memo(dict):
    """What a deep copy remembers: by the places of objects in memory, which aren't compared."""


class NotCopied:
    def __deepcopy__(self, memo):
        raise ZeroDivisionError


ATTRIBUTES = {"name": "name", "size": "size", "version": ("version", pylock.Version)}
# what `toml` is told of values of other types: a text, a table or an array
MEMBERS = frozenset(["a table"])
OTHERS = {5j: "5.0", range(3): (False, range(3)), 2**64: "18446744073709551616", MEMBERS: (True, [("a", 1), ("é", "b")])}
# and what is no answer, by bytes
OTHERS.update((repr(found).encode(), found) for found in (5, (True,), (True, 5), (True, [5]), (False, None)))


def table():
    """A table with values of all types, made anew."""
    return {
        "text": fresh("\"é\x7f\n" * 9), "é": "", "list": [1, -2**63, 2.5, True, (), [[]]], "empty": {}, "more": {"a": {"b": "c"}},
        "members": MEMBERS, "other": [range(3), 5j], "long": 2**64, "texts": ["x" * 600] * 20,
    }


def of_tables():
    other = OTHERS.__getitem__
    yield Row("toml", _native.toml, lambda: (table(), other))
    yield Row("toml of a mapping", _native.toml, fixed(MEMBERS, other))
    for odd, error in ((None, KeyError), ("\ud800", UnicodeEncodeError), ({5: 1}, TypeError), ({"\ud800": []}, UnicodeEncodeError)):
        yield Row("toml of %.20a" % odd, _native.toml, lambda odd=odd: ({"a": odd, "b": [odd]}, other), error)
    for told in [key for key in OTHERS if isinstance(key, bytes)]:
        yield Row("toml, told %r" % told, _native.toml, lambda told=told: ({"a": told}, other), TypeError)
    for given, error in (({"name": "a", "size": 5, "version": "1.0", "x": 1}, None), (collections.OrderedDict(version=None, name="b"), None),
                         ({"version": "x"}, pylock.InvalidVersion), (5, AttributeError)):
        yield Row("made(%.20r)" % (given,), _native.made, lambda given=given: (Entry, ATTRIBUTES, copy.copy(given)), error)
        yield Row("made_all(%.20r)" % (given,), _native.made_all, lambda given=given: (Entry, ATTRIBUTES, [{}, copy.copy(given)]), error)
    yield Row("made, narrow", _native.made, fixed(Narrow, ATTRIBUTES, {"size": 1, "name": "a"}))
    yield Row("made, narrow, refused", _native.made, fixed(Narrow, {"x": "x"}, {"x": 1}), AttributeError)
    for kind in (5, int, type(re.compile(""))):
        yield Row("made of %r" % (kind,), _native.made, fixed(kind, {}, {}), TypeError)


def of_fields():
    yield Row("field_method", _native.field_method, lambda: ("__init__", Entry, (fresh("name"), "size"), fresh, {"name": 1}))
    for given in (("__new__", Entry, (), None, {}), (5, Entry, (), None, {}), ("__init__", 5, (), None, {}), ("__init__", Entry, [], None, {}),
                  ("__init__", Entry, (), None, None), ("__init__", Entry, ([],), None, {}), ("__copy__", Entry, tuple("x" * 17), None, {})):
        yield Row("field_method%.40r" % (given,), _native.field_method, fixed(*given), TypeError)
    copy_of, deep_copy_of = (vars(direct_url.ArchiveInfo)[name] for name in ("__copy__", "__deepcopy__"))
    make = vars(direct_url.VcsInfo)["__init__"]
    yield Row("copy of an object", copy_of, lambda: (direct_url.ArchiveInfo(hashes={"a": fresh("b")}),))
    yield Row("deep copy of an object", deep_copy_of, lambda: (direct_url.ArchiveInfo(hashes=fresh("b")), Memo()))
    yield Row("deep copy of an object, no memo", deep_copy_of, lambda: (direct_url.ArchiveInfo(hashes=5), None), TypeError)
    yield Row("deep copy of an object, refused", deep_copy_of, lambda: (direct_url.ArchiveInfo(hashes=NotCopied()), {}), ZeroDivisionError, False)
    for given in ((), (5,), (direct_url.DirInfo(),)):
        yield Row("copy%r" % (given,), copy_of, fixed(*given), TypeError)
        yield Row("__init__%r" % (given,), make, fixed(*given), TypeError, False)
    yield Row("__init__ by names", operator.methodcaller("__call__", direct_url.VcsInfo.__new__(direct_url.VcsInfo), vcs="git", commit_id="a"), fixed(make))


def closed():
    one = session()
    one.close()
    return one


def rows():
    return [row for part in (of_versions, of_names, of_specifiers, of_layers, of_tags, of_kept, of_markers, of_locks, of_the_program, of_runs, of_tables, of_fields) for row in part()]


def shown(value):
    """What can be seen of a result or an argument, for comparing."""
    if isinstance(value, _native.Version):
        try:
            return str(value), _native.Version._key.__get__(value), value.release, value.pre, value.local
        except ValueError:
            return "without a text"
    if isinstance(value, _native.Session):
        try:
            return value.answer(True), value.explain(False), value.judged()
        except ValueError:
            return "closed"
    if isinstance(value, _native.Environment):
        marker = _native.Marker("os_name == 'nt' or sys_platform == 'linux' or 'some-é' in extras or 'some-é' in dependency_groups")
        try:
            return marker._value_in(value, None)
        except pylock.MarkerFault:
            return "unset"
    if isinstance(value, _native.Marker):
        try:
            return str(value), value.text
        except ValueError:
            return "without a text"
    if isinstance(value, _native.Specifier):
        try:
            return str(value), value._spec
        except ValueError:
            return "without a text"
    if isinstance(value, _native.Layers):
        return _native.Marker("os_name == 'posix' and sys_platform == 'linux'")._value_over(value, None, None, False)
    if isinstance(value, _native.Set):
        try:
            return value.text, str(value), len(value)
        except ValueError:
            return "without a text"
    if isinstance(value, _native.Tag):
        return str(value)
    if isinstance(value, _native.Filter):
        return "a filter"
    if isinstance(value, (_native.FieldMethod, direct_url.ArchiveInfo)):
        return "a method" if isinstance(value, _native.FieldMethod) else value.hashes
    if isinstance(value, (Entry, Narrow)):
        return [(name, shown(getattr(value, name, None))) for name in ("name", "size", "version")]
    if isinstance(value, Memo):
        return [shown(copy) for copy in value.values()]
    if isinstance(value, tuple) and any(isinstance(one, bytes) for one in value):
        return [one if isinstance(one, (bytes, int)) else type(one).__name__ for one in value]
    if isinstance(value, (frozenset, tuple, list)):
        return type(value), len(value)
    if isinstance(value, _native.Run):
        return "a run"
    return value
