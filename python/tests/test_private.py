"""The private names of `packaging` that programs take (docs/PRIVATE.md): what they give, beside `packaging` where it is."""

import copy
import doctest
import importlib
import os
import pickle
import re
import struct
import subprocess
import sys
import tempfile
import unittest

import in_place
from peer import needs, peer, seeded
from support import TOP, refused, text_of

import pylock
from pylock import _parser, _tokenizer
from pylock.markers import Marker, Op, Value, Variable
from pylock.version import VERSION_PATTERN, Version, _BaseVersion

markers = peer("markers")

# the page has a row for each name: of a module, or of a class in it
ROW = re.compile(r"^\| `([a-z_.]+)` \| (.+?) \|", re.MULTILINE)
NAME = re.compile(r"`([A-Za-z_.]+)`")


def listed():
    """The modules and names that the page lists as kept."""
    found = [(module, name) for module, names in ROW.findall(text_of("docs", "PRIVATE.md")) for name in NAME.findall(names)]
    assert len(found) > 80, found
    return found


def named(module, name):
    """What a name of a module is, or a name of a class in it."""
    value = module
    for part in name.split("."):
        value = getattr(value, part)
    return value


def run(code, *path):
    """The status of a Python that runs the code."""
    return subprocess.run([sys.executable, "-c", code], env=dict(os.environ, PYTHONPATH=os.pathsep.join(path))).returncode


def plain(tree):
    """A tree of a marker as lists, tuples and texts."""
    if isinstance(tree, list):
        return [plain(piece) for piece in tree]
    if isinstance(tree, tuple):
        return tuple((type(node).__name__, node.value) for node in tree)
    return tree


class Names(unittest.TestCase):
    def test_page(self):
        results = doctest.testfile(os.path.join(TOP, "docs", "PRIVATE.md"), module_relative=False)
        self.assertEqual((results.failed, results.attempted > 6), (0, True))

    def test_kept(self):
        """Each name that the page has is here, and in `packaging` 26.2."""
        for module, name in listed():
            with self.subTest(module=module, name=name):
                named(importlib.import_module("pylock." + module), name)
                if peer("version") is not None:
                    named(peer(module), name)

    def test_absent(self):
        for module in ("version", "specifiers", "markers", "requirements", "utils", "tags", "licenses", "licenses._spdx"):
            with self.assertRaises(AttributeError):
                importlib.import_module("pylock." + module).no_such_name

    def test_dunders(self):
        for name in ("title", "summary", "uri", "version", "author", "email", "license", "copyright"):
            self.assertIsInstance(getattr(pylock, "__%s__" % name), str)

    def test_not_imported(self):
        """What is private is imported when it is asked for."""
        names = ["_parser", "_tokenizer", "_patterns", "_pickles", "_version_parts", "_elffile", "_manylinux", "_musllinux", "licenses"]
        code = "import sys, pylock; sys.exit([name for name in %r if 'pylock.' + name in sys.modules] or 0)" % names
        self.assertEqual(run(code, os.path.dirname(os.path.dirname(pylock.__file__))), 0)


TEXTS = [
    "os_name == 'nt'",
    "os_name=='nt' and extra == 'A_b'",
    "'A_b' == extra or python_version not  in '3.8'",
    "(os_name == 'nt')",
    "((os_name == 'nt')) and (sys_platform ~= 'x' or (extra == 'A_b'))",
    "'tests' in extras and 'dev' not in dependency_groups",
    'os_name == "it\'s"',
    "a",
]


class Trees(unittest.TestCase):
    def test_read(self):
        tree = Marker("os_name == 'nt' and (extra == 'x' or \"A_b\" == extra)")._markers
        self.assertEqual(plain(tree), [
            (("Variable", "os_name"), ("Op", "=="), ("Value", "nt")), "and",
            [(("Variable", "extra"), ("Op", "=="), ("Value", "x")), "or", (("Value", "A_b"), ("Op", "=="), ("Variable", "extra"))],
        ])
        left, operator, right = tree[0]
        self.assertEqual([repr(left), str(operator), right.serialize()], ["<Variable('os_name')>", "==", '"nt"'])
        self.assertEqual([type(left), type(operator), type(right)], [Variable, Op, Value])

    @needs(markers)
    def test_as_theirs(self):
        for text in TEXTS[:-1]:
            with self.subTest(text):
                self.assertEqual(plain(Marker(text)._markers), plain(markers.Marker(text)._markers))

    @needs(markers)
    def test_random(self):
        draw = seeded("private trees")
        for _ in range(300):
            text = self.random_text(draw, 3)
            with self.subTest(text):
                ours, theirs = Marker(text), markers.Marker(text)
                self.assertEqual(plain(ours._markers), plain(theirs._markers))
                again = Marker.__new__(Marker)
                again._markers = ours._markers
                self.assertEqual((str(again), again), (str(ours), ours))
                values = {"os_name": "nt", "python_version": draw.choice(["3.8", "3.12"]), "sys_platform": "x"}
                self.assertEqual(again.evaluate(values), theirs.evaluate(values))

    def random_text(self, draw, depth):
        pieces = []
        for _ in range(draw.randint(1, 3)):
            if depth and draw.random() < 0.3:
                pieces.append("(%s)" % self.random_text(draw, depth - 1))
            else:
                pieces.append(draw.choice(["os_name == 'nt'", "python_version>='3.9'", "sys_platform != 'x'", "'n' in os_name"]))
            pieces.append(draw.choice([" and ", " or "]))
        return "".join(pieces[:-1])

    def test_assigned(self):
        marker = Marker("os_name == 'nt'")
        marker._markers = [(Variable("os_name"), Op("!="), Value("nt")), "and", [(Variable("extra"), Op("=="), Value("x"))]]
        self.assertEqual(str(marker), 'os_name != "nt" and extra == "x"')
        self.assertEqual(marker, Marker("os_name != 'nt' and extra == 'x'"))
        self.assertTrue(marker.evaluate({"os_name": "posix", "extra": "x"}))
        self.assertFalse(marker.evaluate({"os_name": "nt", "extra": "x"}))
        for wrong in (["and"], [(Variable("os.name"), Op("=="), Value("x"))], [(Variable("os_name"), Op("="), Value("x"))],
                [(Variable("os_name"), Op("=="), Value("\"'"))], [(Value("a"), Op("=="), Variable("x"))]):
            with refused(self, pylock.InvalidMarker, "syntax"):
                marker._markers = wrong
            # a refused tree leaves the marker as it was
            self.assertEqual(str(marker), 'os_name != "nt" and extra == "x"')
        with self.assertRaises(TypeError):
            marker._markers = 5

    def test_changed(self):
        """A tree is the marker's own: what is changed in it is changed in the marker."""
        marker = Marker("os_name == 'nt' and (extra == 'x' or extra == 'y')")
        copies = copy.copy(marker), copy.deepcopy(marker), pickle.loads(pickle.dumps(marker))
        before, text = str(marker), marker.text
        tree = marker._markers
        self.assertIs(marker._markers, tree)
        self.assertEqual((str(marker), marker.text), (before, text))
        del tree[1:]
        self.assertEqual((str(marker), marker.text), ('os_name == "nt"',) * 2)
        self.assertTrue(marker.evaluate({"os_name": "nt", "extra": "z"}))
        tree[0] = (tree[0][0], Op("!="), tree[0][2])
        self.assertFalse(marker.evaluate({"os_name": "nt"}))
        self.assertEqual(hash(marker), hash(Marker("os_name != 'nt'")))
        for copied in copies:
            self.assertEqual((str(copied), copied._markers is tree), (before, False))
        tree.append("and")
        with refused(self, pylock.InvalidMarker, "syntax"):
            str(marker)

    def test_empty(self):
        """A tree from which all was taken is true."""
        marker = Marker("extra == 'x'")
        marker._markers.clear()
        self.assertEqual((str(marker), marker.evaluate(), marker._markers), ("", True, []))
        for copied in (copy.copy(marker), pickle.loads(pickle.dumps(marker))):
            self.assertEqual((copied, copied.evaluate()), (marker, True))

    def test_joined(self):
        class Own(Marker):
            def __init__(self, name, value):
                super().__init__("%s == '%s'" % (name, value))

        joined = Own("os_name", "nt") & Marker("extra == 'x'")
        self.assertEqual((type(joined), str(joined)), (Own, 'os_name == "nt" and extra == "x"'))
        self.assertEqual(repr(joined), "<Own('os_name == \"nt\" and extra == \"x\"')>")
        self.assertEqual(type(Own._from_markers(joined._markers)), Own)


class Parsers(unittest.TestCase):
    def test_markers(self):
        self.assertEqual(plain(_parser.parse_marker("extra == 'A_b'")), [(("Variable", "extra"), ("Op", "=="), ("Value", "a-b"))])
        with self.assertRaises(_tokenizer.ParserSyntaxError) as caught:
            _parser.parse_marker("x")
        self.assertEqual((caught.exception.source, caught.exception.span), ("x", (0, 0)))
        self.assertEqual(str(caught.exception), "Expected a marker variable or quoted string\n    x\n    ^")

    def test_requirements(self):
        name, url, extras, specifier, marker = _parser.parse_requirement("A_b [x, Y] (>=1,<2) ; os_name == 'nt'")
        self.assertEqual((name, url, extras, specifier), ("A_b", "", ["x", "Y"], ">=1,<2"))
        self.assertEqual(plain(marker), [(("Variable", "os_name"), ("Op", "=="), ("Value", "nt"))])
        self.assertEqual(tuple(_parser.parse_requirement("a @ https://h/p")), ("a", "https://h/p", [], "", None))
        with self.assertRaises(_tokenizer.ParserSyntaxError):
            _parser.parse_requirement("a b")

    def test_nodes(self):
        for node in (Variable("os_name"), Op("=="), Value("nt")):
            again = pickle.loads(pickle.dumps(node))
            self.assertEqual((type(again), again.value), (type(node), node.value))
            self.assertEqual(copy.deepcopy(node).value, node.value)
        with self.assertRaises(TypeError):
            Op("==").__setstate__(5)
        self.assertEqual(str(_parser.process_env_var("python_implementation")), "platform_python_implementation")
        self.assertEqual(str(_parser.process_env_var("os.name")), "os_name")
        self.assertEqual(_parser.process_python_str("'a b'").value, "a b")

    def tokens(self, module):
        reader = module.Tokenizer("name [x] >= 1.* ; os_name in 'a'", rules=module.DEFAULT_RULES)
        reader.consume("WS")
        found = [reader.expect("IDENTIFIER", expected="a name")]
        reader.consume("WS")
        with reader.enclosing_tokens("LEFT_BRACKET", "RIGHT_BRACKET", around="extras"):
            found.append(reader.expect("IDENTIFIER", expected="an extra"))
        for name in ("WS", "SPECIFIER", "VERSION_PREFIX_TRAIL", "WS", "SEMICOLON", "WS", "VARIABLE", "WS", "IN", "WS", "QUOTED_STRING", "END"):
            found.append((reader.check(name, peek=True), reader.check(name), reader.read()))
        with self.assertRaises(module.ParserSyntaxError) as caught:
            reader.expect("COMMA", expected="comma")
        told = str(caught.exception)
        with self.assertRaises(module.ParserSyntaxError):
            again = module.Tokenizer("(a", rules=module.DEFAULT_RULES)
            with again.enclosing_tokens("LEFT_PARENTHESIS", "RIGHT_PARENTHESIS", around="a"):
                again.expect("IDENTIFIER", expected="a name")
        return str(found), told

    def test_tokens(self):
        ours = self.tokens(_tokenizer)
        self.assertTrue(ours[1].startswith("Expected comma\n"))
        theirs = peer("_tokenizer")
        if theirs is not None:
            self.assertEqual(ours, self.tokens(theirs))
            self.assertEqual(set(theirs.DEFAULT_RULES), set(_tokenizer.DEFAULT_RULES))

    @needs(markers)
    def test_rules(self):
        """Each rule finds what that of `packaging` finds."""
        theirs = peer("_tokenizer").DEFAULT_RULES
        draw = seeded("private rules")
        pieces = ["==", "===", ">=", "<", "~=", "!=", "1", "1.2", "1!", ".*", "a1", "rc", ".post2", "-3", "dev", "+x.1", "v", " ", "\t", "and", "or",
            "in", "not", "os_name", "os.name", "extra", "extras", "python_version", "platform.machine", "'x'", '"', "'", "(", ")", "[", "]", ";", ",", "@", "a_b", "-", "x"]
        for _ in range(3000):
            text = "".join(draw.choice(pieces) for _ in range(draw.randint(1, 7)))
            for name, rule in _tokenizer.DEFAULT_RULES.items():
                ours, other = rule.match(text), theirs[name].match(text)
                self.assertEqual(ours and ours.group(), other and other.group(), (name, text))


class Versions(unittest.TestCase):
    def test_own_key(self):
        """A class of versions with keys of its own is compared by them, with versions too."""
        class Legacy(_BaseVersion):
            def __init__(self, text):
                self._key = -1, (text,)

        first, second = Legacy("a"), Legacy("b")
        self.assertTrue(first < second and first <= second and second > first and second >= first and first != second)
        self.assertTrue(first == Legacy("a") and hash(first) == hash(Legacy("a")) and not first == second)
        self.assertTrue(first < Version("0.dev0") and Version("0.dev0") > first and Version("1") != first and not Version("1") == first)
        self.assertEqual(sorted([Version("2"), second, Version("1"), first]), [first, second, Version("1"), Version("2")])
        for other in (1, "1", None):
            self.assertFalse(first == other)
            with self.assertRaises(TypeError):
                first < other

    def test_parts(self):
        theirs = peer("version")
        for text in ("1", "1!2.0.0rc1.post2.dev3+Ubuntu-01", "0.0", "1.dev0", "1a0", "1-3", "1.post0.dev0", "1+1.a"):
            ours = Version(text)
            self.assertLess(Version("0.dev0")._key, ours._key)
            if theirs is not None:
                other = theirs.Version(text)
                for name in ("_key", "_epoch", "_release", "_pre", "_post", "_dev", "_local"):
                    self.assertEqual(getattr(ours, name), getattr(other, name), (text, name))
                self.assertEqual(tuple(ours._version), (ours._epoch, ours._release, ours._dev, ours._pre, ours._post, ours._local))

    def test_letters(self):
        letter = pylock.version._parse_letter_version
        for given, wanted in ((("alpha", "1"), ("a", 1)), (("C", None), ("rc", 0)), (("rev", "2"), ("post", 2)), ((None, "3"), ("post", 3)),
                ((None, None), None), (("", ""), None), (("x", 5), ("x", 5))):
            self.assertEqual(letter(*given), wanted)

    def test_own_pattern(self):
        """A class of versions with a pattern of its own is read by it."""
        class Own(Version):
            _regex = re.compile(r"v?(?P<release>[0-9]+(?:\.[0-9]+)*)(?:-?(?P<pre_l>alpha|beta)(?P<pre_n>[0-9]+)?)?(?:-(?P<date>[0-9]{8}))?", re.ASCII)

        class Further(Own):
            pass

        for kind in (Own, Further):
            one = kind("v5.0-alpha-20201231")
            self.assertEqual((type(one), str(one), one.release, one.pre, repr(one)), (kind, "5.0a0", (5, 0), ("a", 0), "<%s('5.0a0')>" % kind.__name__))
            self.assertEqual(one, Version("5a0"))
            self.assertEqual(str(kind("4.1")), "4.1")
            with refused(self, pylock.InvalidVersion, "syntax"):
                kind("4.1rc1")
        self.assertEqual(str(Version("5.0.alpha")), "5.0a0")

    def own_patterns(self, library):
        """What becomes of classes that have a pattern and an `__init__` of their own, or of a class before."""
        pattern = re.compile(VERSION_PATTERN.replace(r"[-_\.]?", "/?"), re.VERBOSE | re.IGNORECASE)

        class Cut(library.Version):
            def __init__(self, text, letter="v"):
                super().__init__(text[len(letter) :])
                self.letter = letter

        class Mixed:
            pass

        class Late(Mixed, Cut):
            _regex = pattern

        class Both(library.Version):
            _regex = pattern

            def __init__(self, text):
                super().__init__(text.replace(" ", "/"))

        told = []
        for kind, text in ((Cut, "v5a1"), (Late, "v5/alpha1"), (Both, "5 alpha1"), (Late, "v5a1"), (Both, "5a1"), (Both, "5.1"), (Cut, "v5/alpha1")):
            try:
                one = kind(text)
                told.append((repr(one), one.release, one.pre, one == library.Version("5a1"), repr(copy.copy(one)), getattr(one, "letter", None)))
            except library.InvalidVersion:
                told.append("refused")
        return told

    @needs(markers)
    def test_own_patterns(self):
        self.assertEqual(self.own_patterns(pylock.version), self.own_patterns(peer("version")))

    @needs(markers)
    def test_patterns(self):
        """The patterns find what those of `packaging` find."""
        draw = seeded("private patterns")
        ours = Version._regex, pylock.Specifier._regex, pylock.utils._build_tag_regex, pylock.utils._validate_regex
        theirs = (peer("version").Version._regex, peer("specifiers").Specifier._regex, peer("utils")._build_tag_regex, peer("utils")._validate_regex)
        pieces = ["==", "===", ">=", "~=", "1", "1.2", "1!", ".*", "a1", "rc", ".post2", "-3", "dev", "+x.1", "v", " ", "_", "-", ".", "A"]
        for _ in range(3000):
            text = "".join(draw.choice(pieces) for _ in range(draw.randint(1, 6)))
            for one, other in zip(ours, theirs):
                self.assertEqual(bool(one.fullmatch(text)), bool(other.fullmatch(text)), (one.pattern, text))
        self.assertEqual(pylock.utils._build_tag_regex.match("12ab").groups(), ("12", "ab"))


class Sets(unittest.TestCase):
    def test_specifiers(self):
        """The specifiers of a set may be read and assigned."""
        versions = pylock.SpecifierSet(">=1,<2", prereleases=True)
        self.assertEqual([str(one) for one in versions._specs], [">=1", "<2"])
        versions._specs = frozenset([pylock.Specifier("==3.*")])
        self.assertEqual((str(versions), versions.prereleases, "3.1" in versions, "1.5" in versions), ("==3.*", True, True, False))
        versions._prereleases = None
        self.assertIsNone(versions.prereleases)
        empty = pylock.SpecifierSet()
        empty._specs = versions._specs
        self.assertEqual(empty, versions)

    def test_specifier(self):
        one = pylock.Specifier("== 1.2.*")
        self.assertEqual((one._spec, one._prereleases, one._operators["=="]), (("==", "1.2.*"), None, "equal"))
        one._prereleases = True
        self.assertTrue(one.prereleases)


class Systems(unittest.TestCase):
    def test_libraries(self):
        ours = [importlib.import_module("pylock." + name) for name in ("_manylinux", "_musllinux")]
        theirs = [peer(name) for name in ("_manylinux", "_musllinux")]
        self.assertEqual(len(ours[0]._get_glibc_version()), 2)
        if theirs[0] is not None:
            for one, other in zip(ours, theirs):
                self.assertEqual(list(one.platform_tags(["x86_64"])), list(other.platform_tags(["x86_64"])))
            self.assertEqual(tuple(ours[0]._get_glibc_version()), tuple(theirs[0]._get_glibc_version()))
            self.assertEqual(ours[1]._get_musl_version(sys.executable), theirs[1]._get_musl_version(sys.executable))
            self.assertEqual(ours[0]._is_compatible("x86_64", (2, 5)), theirs[0]._is_compatible("x86_64", theirs[0]._GLibCVersion(2, 5)))
            self.assertEqual(ours[0]._have_compatible_abi(sys.executable, ["i686"]), theirs[0]._have_compatible_abi(sys.executable, ["i686"]))
        self.assertEqual(tuple(ours[0]._parse_glibc_version("2.20-2014.11")), (2, 20))
        self.assertEqual(tuple(ours[1]._parse_musl_version("musl libc\nVersion 1.2.4\n")), (1, 2))

    def test_elf(self):
        from pylock._elffile import EIClass, EIData, ELFFile, ELFInvalid

        head = b"\x7fELF\x02\x01\x01" + bytes(9) + struct.pack("<HHIQQQIHHH", 2, 62, 1, 0, 64, 0, 7, 64, 56, 1)
        loader = b"/lib/ld-musl.so.1\0"
        content = head + bytes(64 - len(head)) + struct.pack("<IIQQQQ", 3, 0, 120, 0, 0, len(loader)) + bytes(16) + loader
        with tempfile.TemporaryFile() as file:
            file.write(content)
            file.seek(0)
            found = ELFFile(file)
            self.assertEqual((found.capacity, found.encoding, found.machine, found.flags), (EIClass.C64, EIData.Lsb, 62, 7))
            self.assertEqual(found.interpreter, "/lib/ld-musl.so.1")
        for wrong in (b"", b"\x7fELF", content[:20], b"#!/bin/sh" + content):
            with tempfile.TemporaryFile() as file:
                file.write(wrong)
                file.seek(0)
                with self.assertRaises(ELFInvalid):
                    ELFFile(file)


class InPlace(unittest.TestCase):
    def test_package(self):
        """The package of pylock's modules has the names that programs ask for."""
        with tempfile.TemporaryDirectory() as folder:
            in_place.write_package(folder)
            code = (
                "import packaging, packaging.version, packaging.licenses._spdx, packaging._manylinux, pylock\n"
                "from packaging.markers import Marker, Op, Value, Variable\nfrom packaging.specifiers import InvalidVersion\n"
                "from packaging.licenses import LICENSES\nfrom packaging._tokenizer import DEFAULT_RULES, ParserSyntaxError\n"
                "assert packaging.version.Version is pylock.Version and packaging.__title__ == 'packaging' and packaging.__version__ == '26.2'\n"
                "assert packaging.licenses._spdx.LICENSES is LICENSES and LICENSES['mit'] == {'id': 'MIT', 'deprecated': False}\n"
            )
            self.assertEqual(run(code, folder, os.path.dirname(os.path.dirname(pylock.__file__))), 0)


if __name__ == "__main__":
    unittest.main()
