"""Rows of agreement with the library `packaging`, or with the copy of it in pip: the same question to both.

The meanings are those of 26.2: PYLOCK_PEER names the folder of such a one. With an older release the rows are left out
in which `packaging` has changed since. Where an answer differs on purpose, the row stands in DIFFERENCES with both
answers; docs/PYTHON.md has the reasons.
"""

import copy
import functools
import importlib
import inspect
import itertools
import operator
import pickle
import random
import re
import sys
import unittest
from unittest import mock

from support import reference, release, refused

import pylock

packaging = reference()
OLD = packaging is not None and release(packaging) < (22, 0)
NEW = packaging is not None and release(packaging) >= (26, 2)
BEFORE = "packaging before 26.2 answers otherwise"

VERSIONS = [
    "1", "1.0", "1.0.0", "0", "0.0", "v1.2", " 1.2 ", "1.0.dev1", "1.0a1", "1.0a1.dev1", "1.0b2", "1.0rc1", "1.0RC1",
    "1.0-rc.1", "1.0c1", "1.0alpha", "1.0beta3", "1.0pre", "1.0preview2", "1.0.post1", "1.0-1", "1.0post", "1.0rev2",
    "1.0r3", "1.0.post1.dev2", "1.0a1.post2.dev3", "1!0.5", "1!1.0", "2!1", "1.0+abc", "1.0+5", "1.0+abc.5", "1.0+ABC-5",
    "1.0+abc.1.x", "1.0+01", "1.10", "1.9", "1.2.3.4.5", "2.2.post3", "2.2", "2.9", "3.0", "2.2.1", "3.1.dev0", "3.1",
    "1.7", "1.7.0.post1", "1.7.1", "1.7+x", "1.7.0+x", "1.7.post1+x", "1.7.post2+x", "2024.1.1", "0.0.1.dev0", "1.0a01",
    "01.002.3", "18446744073709551616", "1.1.0", "1.1a1", "1.1.dev3",
]
NO_VERSIONS = ["", " ", "x", "1.", ".1", "1..2", "1.0-1-1", "1.0+", "1.0+a..b", "1.0++a", "1.0a1b", "1!", "!1", "1 0", "1.0_", "1,0",
               "1.0.*", "v", "vv1", "1.0.devx", "1.0+\u00e9", "\u0661.0"]
SPECIFIERS = [
    "==1.0", "== 1.0", "==1.0.*", "==1.*", "!=1.0", "!=1.*", "!=1.0.*", ">=1.0", "<=1.0", ">1.0", "<1.1", "<1.1a2", "<1.1.dev1",
    ">1.7", ">1.7.post1", ">1.7a1", "<=1.7", ">=1.7.dev1", "~=2.2", "~=2.2.post3", "~=1.0a1", "~=1.2.3", "===1.0", "===1.0RC1",
    "===1.0rc1", "==1.0+abc", "!=1.0+abc", "==1!1.0", "==1!1.*", ">=1!0", "<1!0", "==v1.0", "==1.0.0", "==1", ">=1.0rc1",
    "<=3.1.dev0", "<3.1", ">=0", "==1.0.post1", ">1.0.post0", "==2.2.1.*",
]
SETS = ["", ",", ">=1.0", ">=1.0,<2", " >=1.0 , <2 ", "<2,>=1.0", ">=1.0,>=1.0", "==1.0,==1.0.0", ">=1.0,!=1.7,<3", ">=1.0a1,<2",
        "!=1.0.*,!=1.7.*", "~=1.0,!=1.0a1", ">=1.0,<1.0", ",,>=1,,", ">1.7,<2.2", "===1.0,>=0"]
NO_SETS = ["1.0", "=1.0", "=>1.0", ">=x", "~=1", "==1.*.*", ">=1.*", ">=1.0+abc", "<1.0+abc", "~=1.0.*", "==", ">=", ">=1 <2", "1.0,>=1",
           "==1.0a1.*", "~=1.0+a", "!", ">=1,x"]
MARKERS = [
    "os_name == 'nt'", 'os_name=="nt"', "  os_name  ==  'nt'  ", "'nt' == os_name", "os_name != 'nt'", "sys_platform in 'linux darwin'",
    "'linux' in sys_platform", "sys_platform not in 'linux darwin'", "python_version >= '3.8'", "python_version < '3.10'",
    "python_version == '3.12.*'", "python_version ~= '3.8'", "'3.9' <= python_version", "python_full_version >= '3.12.0'",
    "os_name == 'nt' and sys_platform == 'win32'", "os_name == 'nt' or sys_platform == 'linux'",
    "os_name == 'nt' or os_name == 'posix' and sys_platform == 'win32'",
    "(os_name == 'nt' or os_name == 'posix') and sys_platform == 'linux'", "(os_name == 'nt')", "((os_name == 'nt'))",
    "os_name == 'nt' and (sys_platform == 'win32')", "os_name=='a' and (os_name=='b' or (os_name=='c' and os_name=='d'))",
    "extra == 'tests'", "extra == 'Te_sts'", "'tests' == extra", "os_name == 'posix' and extra == 'tests'", "extra != 'tests'",
    "extra in 'tests docs'", "platform_machine == 'x86_64'", "platform_python_implementation == 'CPython'",
    "implementation_name == 'cpython' and implementation_version >= '3.9'", "platform_system == \"it's\"", "platform_release == ''",
    "platform_version == 'a b'", "platform_system < 'M'", "platform_system >= 'linux'", "os_name > 'a' and os_name <= 'z'",
    "python_version === '3.12'", "python_version not in '3.6, 3.7'",
]
NO_MARKERS = ["", "os_name", "os_name ==", "== 'nt'", "os_name = 'nt'", "os_name == nt", "os_name == 'nt", "os_name == 'nt' and", "(os_name == 'nt'",
              "os_name == 'nt')", "os_name 'nt'", "foo == 'nt'", "os_name == 'nt' xor os_name == 'x'", "os_name not == 'nt'", "os_name notin 'nt'",
              "os_name == 'nt' os_name == 'nt'", "and os_name == 'nt'"]
ENVIRONMENTS = [
    {"os_name": "posix", "sys_platform": "linux", "python_version": "3.12", "python_full_version": "3.12.4", "platform_machine": "x86_64",
     "platform_python_implementation": "CPython", "implementation_name": "cpython", "implementation_version": "3.12.4",
     "platform_system": "Linux", "platform_release": "6.1", "platform_version": "#1 SMP"},
    {"os_name": "nt", "sys_platform": "win32", "python_version": "3.8", "python_full_version": "3.8.10", "platform_machine": "AMD64",
     "platform_python_implementation": "PyPy", "implementation_name": "pypy", "implementation_version": "7.3.5",
     "platform_system": "Windows", "platform_release": "10", "platform_version": "10.0.19041"},
]
EXTRAS = ["", "tests", "te-sts", "docs"]
REQUIREMENTS = [
    "a", "A_b.c", " a ", "a[b]", "a[b,c]", "a [ b , c ]", "a[]", "a[b,b]", "a>=1", "a >= 1", "a(>=1)", "a (>=1,<2)", "a ( >= 1 , < 2 )",
    "a>=1,<2", "a[b]>=1", "a ; os_name == 'nt'", "a;os_name=='nt'", "a>=1; os_name == 'nt'", "a[b]>=1,<2 ; extra == 'x' and os_name == 'nt'",
    "a @ https://h/p.zip", "a@https://h/p.zip", "a[b] @ https://h/p.zip#sha1=x ; os_name=='nt'", "pip @ https://h/p.zip;x",
    "a==1.0.*", "a===1.0", "a~=1.0.post1", "requests[security, tests] >= 2.8.1, == 2.8.* ; python_version < \"2.7\"", "a ()", "a!=1,!=2",
]
NO_REQUIREMENTS = ["", "-a", "a-", "a b", "a[b", "a[b,]", "a[,b]", "a (>=1", "a >=1)", "a >=", "a @", "a ;", "a ; x", "a @ u v", "a 1.0", "a[b c]",
                   "a @ u ;", "a>=1 os_name=='nt'", "a = 1", "a[-b]", "@ u"]
# refused at many places; before each all is right
MISPLACED = [
    "a[!]", "a[b!]", "a[b,!]", "a[b, c d]", "a>=1.0.*", "a<1+x", "a>=1.0.* , <2", "a>=1.0,<2.*", "a<1+x,<2", "a (>=1 b)", "a (>=1,b)", "a >=1 b",
    "a >=1.x", "a ~=1", "a >=1,b", "a >=1, <", "a (", "a )", "a >=1)", "a ()x", "a ==1.0+", "a >= 1 . 0", "  a >=1 b", "a \u00e9", "a[b]>=1.x",
    "a @ http://x y", "a @ x; os_name", "a @ x ;", "a[b] @ x ; os_name == 'x' or", "a (>=1);os_name", "a; os_name ==", "a; (os_name == 'x'",
    "a; os_name == 'x' foo", "a; os_name == 'x')", "a;os_name not 'x'", "a; os_name == '\u00e9' foo", "a; os_name == 'x", "a >=1;; x",
    "a;((os_name == 'x') and (os_name == 'y'", "a; os_name == 'x' and", "a; os_name in 'x' or (os_name == 'x' and (os_name == 'y') foo",
]
NAMES = ["a", "A", "a_b", "a.b", "A-._B", "Foo.Bar_baz", "a--b", "0", "a1", "1a", "", "-a", "a-", "a b", "_", "a__b", "\u00e9", "\u00c9_X"]
WHEELS = ["a-1-py3-none-any.whl", "Foo_Bar-1.0-1b-py2.py3-none-any.whl", "foo.bar-1.0.post1-10-cp312-abi3-manylinux_2_17_x86_64.manylinux2014_x86_64.whl",
          "a-1.0+local.1-py3-none-any.whl", "A-1-0x-py3-none-any.whl", "a_b_c-1!2-py3-none-any.whl", "a-v1-PY3-None-Any.whl",
          "numpy-2.2.1-cp312-cp312-win_amd64.whl"]
NO_WHEELS = ["a-1-py3-none-any.zip", "a-1-py3-none.whl", "a__b-1-py3-none-any.whl", "a-x-py3-none-any.whl", "a-1-b-py3-none-any.whl", "a.whl",
             "a-1-1-1-py3-none-any.whl", "a b-1-py3-none-any.whl", "a-1-py3-none-any.WHL"]
SDISTS = ["a-1.tar.gz", "foo_bar-1.0.zip", "foo-bar-1.0.tar.gz", "A.b-1.0rc1.tar.gz", "foo-1.0-1.tar.gz", "A._-b-V1_RC.zip", "a- 1.0 .zip", "a-1+x.tar.gz"]
NO_SDISTS = ["a-1.tar.bz2", "a.tar.gz", "a_1.zip", "", "a-1", ".zip", "a-1.ZIP"]
NO_SDIST_VERSIONS = ["a-x.tar.gz", "a-.zip", "a-1.tar.gz.zip", "a-1+x-y.zip"]
TAGS = ["py3-none-any", "py2.py3-none-any", "CP312-abi3-manylinux_2_17_x86_64.linux_x86_64", "a.b-c.d-e.f"]
LISTS = [["1.0", "2.0"], ["1.0a1", "0.9"], ["1.0a1"], ["2.0a1", "2.0b1"], [], ["0.5", "1.0", "1.1rc1", "1.1", "2.0.dev0"], ["1.0a1", "3.0"]]


# sets with a repetition, which was left out before
REPEATED = (">=1.0,>=1.0", "==1.0,==1.0.0")
EXACT = ["===foo", "===FOO", "===1.0", "===V1.0", "===1.0RC1", "===foo,===FOO", "===foo,>=1", "===1.0,>=1", "===1.0rc1,<2",
         "!=1.0,===foo"]
# markers of names by an order: `packaging` has none of these since 26
ORDER_OF_NAMES = ("platform_system < 'M'", "platform_system >= 'linux'", "os_name > 'a' and os_name <= 'z'")
CONTEXTS = ["extra == 'a'", "extra != 'A.b'", "'a' == extra", "os_name == 'posix' or extra == 'a'",
            "os_name == 'nt' or extra == 'a'", "os_name == 'posix' and extra == 'a'", "'a_b' in extras", "'a' not in extras",
            "'a' in dependency_groups", "'a' in extras or 'a' in dependency_groups", "os_name == 'nt' or 'a' in extras", "os_name == 'extras'",
            "extra == 'dependency_groups'", "extra in 'a b'"]


def alike(pieces, version):
    """Whether the specifiers judge the text of a version as all releases of `packaging` do that are tried here; the
    rest stands in DIFFERENCES, or has changed since."""
    for piece in pieces:
        piece = piece.strip()
        if piece[:1] in ("<", ">") and piece[1:2] != "=":
            operand = pylock.Version(piece[1:])
            if operand.is_prerelease if piece[0] == ">" else operand.is_postrelease and not operand.is_prerelease:
                return False
            if piece[0] == ">" and "+" in version and not NEW:
                return False
        if piece.startswith("===") and not NEW:
            return False
    return True


def asked(function, *arguments, **named):
    """The answer, or what kind of refusal there is."""
    try:
        return function(*arguments, **named)
    except (ValueError, KeyError):
        return "refused"


def message(function, *arguments):
    """What the refusal says, if there is one."""
    try:
        function(*arguments)
    except ValueError as error:
        return str(error)


@unittest.skipIf(packaging is None, "neither packaging nor pip's copy of it is installed")
class Agreement(unittest.TestCase):
    maxDiff = None

    def same(self, row, ours, theirs):
        if ours != theirs:
            with self.subTest(row):
                self.assertEqual(ours, theirs)

    def test_versions(self):
        for text in VERSIONS:
            ours, theirs = pylock.Version(text), packaging.version.Version(text)
            for name in ("epoch", "release", "pre", "post", "dev", "local", "public", "base_version", "is_prerelease", "is_postrelease",
                         "is_devrelease", "major", "minor", "micro"):
                self.same((text, name), getattr(ours, name), getattr(theirs, name))
            self.same(text, (str(ours), repr(ours)), (str(theirs), repr(theirs)))
            self.same(text, str(pylock.parse(text)), str(packaging.version.parse(text)))
            self.same(text, pylock.canonicalize_version(text), packaging.utils.canonicalize_version(text))
            self.same(text, pylock.canonicalize_version(ours), packaging.utils.canonicalize_version(theirs))
        for text in NO_VERSIONS:
            self.same(text, asked(pylock.Version, text), asked(packaging.version.Version, text))

    def test_order(self):
        ours, theirs = ([library(text) for text in VERSIONS] for library in (pylock.Version, packaging.version.Version))
        for one, other in itertools.product(range(len(VERSIONS)), repeat=2):
            self.assertEqual(
                (ours[one] < ours[other], ours[one] == ours[other], ours[one] <= ours[other], ours[one] != ours[other], ours[one] > ours[other],
                 ours[one] >= ours[other]),
                (theirs[one] < theirs[other], theirs[one] == theirs[other], theirs[one] <= theirs[other], theirs[one] != theirs[other],
                 theirs[one] > theirs[other], theirs[one] >= theirs[other]),
                (VERSIONS[one], VERSIONS[other]),
            )
        self.assertEqual([str(version) for version in sorted(ours)], [str(version) for version in sorted(theirs)])
        self.assertEqual(pylock.sorted_versions(VERSIONS), sorted(VERSIONS, key=packaging.version.Version))

    def test_specifiers(self):
        for text in SPECIFIERS:
            ours, theirs = pylock.Specifier(text), packaging.specifiers.Specifier(text)
            self.same(text, (ours.operator, ours.version, str(ours), repr(ours)), (theirs.operator, theirs.version, str(theirs), repr(theirs)))
            if NEW or not text.startswith(("<", ">")):
                self.same((text, "prereleases"), ours.prereleases, theirs.prereleases)
            for version, prereleases in itertools.product(VERSIONS, (True, False)):
                if alike([text], version):
                    self.same(
                        (text, version, prereleases),
                        ours.contains(version, prereleases),
                        theirs.contains(version, prereleases),
                    )

    def test_contains(self):
        for text, version in itertools.product(SPECIFIERS + SETS, VERSIONS):
            if not alike(text.split(","), version):
                continue
            ours, theirs = pylock.SpecifierSet(text), packaging.specifiers.SpecifierSet(text)
            twins = pylock.Version(version), packaging.version.Version(version)
            for prereleases in (True, False):
                self.same((text, version, prereleases), *[
                    (versions.contains(version, prereleases), versions.contains(twin, prereleases))
                    for versions, twin in zip((ours, theirs), twins)
                ])
            if NEW:
                self.same((text, version), version in ours, version in theirs)
                self.same((text, version, "Version"), twins[0] in ours, twins[1] in theirs)
                for how in itertools.product((None, True, False), (None, True)):
                    self.same((text, version, how), ours.contains(version, *how), theirs.contains(version, *how))

    def test_filter(self):
        kinds = ((SETS, "SpecifierSet"), (("==1.0", ">=1.0", ">=1.0a1", "!=2.0", "~=1.0", "===1.0a1"), "Specifier"))
        for texts, kind in kinds:
            for text, versions, said in itertools.product(texts, LISTS, (None, True, False) if NEW else (True,)):
                ours, theirs = getattr(pylock, kind), getattr(packaging.specifiers, kind)
                row = text, versions, said
                self.same(row, list(ours(text).filter(versions, said)), list(theirs(text).filter(versions, said)))
                self.same(row, list(ours(text, said).filter(versions)), list(theirs(text, said).filter(versions)))

    @unittest.skipUnless(NEW, BEFORE)
    def test_filter_key(self):
        for text, versions, said in itertools.product(SETS, LISTS, (None, True, False)):
            items = list(enumerate(versions))
            self.same((text, versions, said), *[
                list(kind(text).filter(items, said, lambda item: item[1]))
                for kind in (pylock.SpecifierSet, packaging.specifiers.SpecifierSet)
            ])

    @unittest.skipUnless(NEW, BEFORE)
    def test_texts(self):
        """Texts that are no versions, and `===` beside texts as they are given."""
        texts = NO_VERSIONS + ["foo", "FOO", "1.0", "1.0.0", "V1.0", " 1.0", "1.0RC1", "1.0-rc1", "1.0rc1"]
        for kind, spec in [("SpecifierSet", text) for text in SETS + EXACT] + [("Specifier", text) for text in EXACT[:5]]:
            ours, theirs = getattr(pylock, kind)(spec), getattr(packaging.specifiers, kind)(spec)
            self.same((spec, "prereleases"), ours.prereleases, theirs.prereleases)
            for text, said in itertools.product(texts, (None, True, False)):
                self.same((spec, text, said), ours.contains(text, said), theirs.contains(text, said))
            for mixed in itertools.permutations(["foo", "2.0a1", "1.0", "1.0rc1"], 3):
                self.same((spec, mixed), list(ours.filter(mixed)), list(theirs.filter(mixed)))

    @unittest.skipUnless(NEW, BEFORE)
    def test_unsatisfiable(self):
        pieces = [
            "", ">=1", ">1", "<1", "<=1", "==1", "!=1", "==1.*", "!=1.*", "~=1.0", ">=1a1", "<=1a2", "==1a1", "<1.0.post1.dev1",
            ">1.post1", ">=1.post1", "<=1.post1", "!=1.post1", "<=1.dev0", ">=1.dev1", "==1+x", "!=1+x", "===1", "===foo", "==1!0",
            "<1!0", "<0", "<=0.dev0", "!=0", ">=0.9.9", "<1.0.1.dev0", "~=1.0.1", "<2",
        ]
        for one, other, said in itertools.product(pieces, pieces, (None, True, False)):
            if said is False and "0.dev0" in one + other or ">1" in (one, other) and "<=1.post1" in (one, other):
                # DIFFERENCES has these
                continue
            text = one + "," + other
            ours, theirs = pylock.SpecifierSet(text, said), packaging.specifiers.SpecifierSet(text, said)
            self.same((text, said), ours.is_unsatisfiable(), theirs.is_unsatisfiable())

    def test_sets(self):
        for text in SETS:
            ours, theirs = pylock.SpecifierSet(text), packaging.specifiers.SpecifierSet(text)
            if NEW:
                self.same(text, (len(ours), list(map(str, ours))), (len(theirs), list(map(str, theirs))))
            if NEW or text not in REPEATED:
                self.same(text, sorted(map(str, ours)), sorted(map(str, theirs)))
                self.same(text, (str(ours), repr(ours)), (str(theirs), repr(theirs)))
        for one, other in itertools.product(SETS, repeat=2):
            ours = [pylock.SpecifierSet(text) for text in (one, other)]
            theirs = [packaging.specifiers.SpecifierSet(text) for text in (one, other)]
            self.same((one, other, "=="), ours[0] == ours[1], theirs[0] == theirs[1])
            self.same((one, other, "== str"), ours[0] == other, theirs[0] == other)
            self.same((one, other, "&"), ours[0] & ours[1] == str(theirs[0] & theirs[1]), True)
            if NEW:
                theirs = [packaging.specifiers.SpecifierSet(text) for text in (one, other)]
                self.same((one, other, "& in order"), list(map(str, ours[0] & ours[1])), list(map(str, theirs[0] & theirs[1])))
                self.same((one, other, "& str"), len(ours[0] & other), len(theirs[0] & other))
            if ours[0] == ours[1]:
                self.assertEqual(hash(ours[0]), hash(ours[1]))
        for one, other in itertools.product(SPECIFIERS, repeat=2):
            if "===" in one + other and not NEW:
                continue
            self.same(
                (one, other),
                (pylock.Specifier(one) == pylock.Specifier(other), pylock.Specifier(one) == other),
                (packaging.specifiers.Specifier(one) == packaging.specifiers.Specifier(other), packaging.specifiers.Specifier(one) == other),
            )

    @unittest.skipIf(OLD, "packaging before 22 takes what isn't of PEP 440")
    def test_sets_refused(self):
        for text in NO_SETS:
            self.same(text, asked(pylock.SpecifierSet, text), asked(packaging.specifiers.SpecifierSet, text))
            self.same(text, asked(pylock.Specifier, text), asked(packaging.specifiers.Specifier, text))
        for text in ("", ">=1,<2", ">=1,", ","):
            self.same(text, asked(pylock.Specifier, text), asked(packaging.specifiers.Specifier, text))

    def test_forced(self):
        ours, theirs = (library.SpecifierSet for library in (pylock, packaging.specifiers))
        for forced in itertools.product((None, True, False), repeat=2):
            pair = [asked(lambda: (kind(">=1", forced[0]) & kind("<2", forced[1])).prereleases) for kind in (ours, theirs)]
            # what None says was said by False before
            self.same(forced, *(pair if NEW else [bool(value) for value in pair]))
        self.same("repr", repr(ours(">=1", prereleases=True)), repr(theirs(">=1", prereleases=True)))

    @unittest.skipUnless(NEW, BEFORE)
    def test_joined(self):
        """Sets that are joined share the specifiers that were asked for, and the empty set gives each item where all are wanted."""
        answers = []
        for library in (pylock, packaging.specifiers):
            one = library.SpecifierSet(">=1")
            item = next(iter(one))
            both = one & library.SpecifierSet("<2") & "!=1.5"
            item.prereleases = True
            answers.append((
                both.prereleases, [each is item for each in both], len(both), [str(each) for each in both], repr(both), list(both.filter(["1.5", "1.6rc1"])),
                list(library.SpecifierSet("").filter([5, None], prereleases=True)),
                [repr(each) for each in (item, copy.copy(item), pickle.loads(pickle.dumps(item)))],
            ))
            for left, right in ((one, 5), ("<2", one)):
                with self.assertRaises(TypeError):
                    left & right
        self.same("joined", *answers)

    def test_markers(self):
        for text in MARKERS:
            ours, theirs = pylock.Marker(text), packaging.markers.Marker(text)
            if OLD and "Te_sts" in text or NEW and text in ORDER_OF_NAMES:
                continue
            self.same(text, str(ours), str(theirs))
            if NEW or "'s" not in text:
                self.same(text, repr(ours), repr(theirs))
            for environment, extra in itertools.product(ENVIRONMENTS, EXTRAS):
                if OLD and extra == "te-sts":
                    continue
                with_extra = dict(environment, extra=extra)
                answer = asked(theirs.evaluate, with_extra)
                self.same((text, extra), asked(ours.evaluate, with_extra), answer)
                self.same((text, extra), asked(ours.evaluate, environment, extra=extra), answer)
            if "extra" not in text:
                self.same(text, asked(ours.evaluate), asked(theirs.evaluate))
                self.same(text, asked(ours.evaluate, {"os_name": "nt"}), asked(theirs.evaluate, {"os_name": "nt"}))
        for one, other in itertools.product(MARKERS, repeat=2):
            if not OLD or "Te_sts" not in one + other:
                self.same(
                    (one, other), pylock.Marker(one) == pylock.Marker(other),
                    str(packaging.markers.Marker(one)) == str(packaging.markers.Marker(other)),
                )
        for text in NO_MARKERS:
            self.same(text, asked(pylock.Marker, text), asked(packaging.markers.Marker, text))

    @unittest.skipIf(packaging is not None and release(packaging) < (25, 0), "packaging before 25 has no sets in markers")
    def test_marker_sets(self):
        for text in ("'a' in extras", "'A_b' in extras", "'a' not in dependency_groups", "'a' in extras or 'b' in dependency_groups"):
            for extras, groups in itertools.product((set(), {"a"}, {"a-b", "b"}), (set(), {"a"}, {"b"})):
                mapping = {"extras": extras, "dependency_groups": groups}
                self.same((text, mapping), pylock.Marker(text).evaluate(mapping), packaging.markers.Marker(text).evaluate(mapping, "lock_file"))

    @unittest.skipUnless(NEW, BEFORE)
    def test_contexts(self):
        for text in CONTEXTS:
            contexts = ("metadata", "lock_file", "requirement")
            for context, extra, extras, groups in itertools.product(
                contexts, (None, "", "a", "A_b"), (None, set(), {"A.b"}), (None, frozenset(), {"a"})
            ):
                mapping = {"os_name": "nt", "extra": extra, "extras": extras, "dependency_groups": groups}
                mapping = {name: value for name, value in mapping.items() if value is not None}
                self.same((text, context, mapping), *[
                    asked(kind(text).evaluate, mapping, context) for kind in (pylock.Marker, packaging.markers.Marker)
                ])
            self.same(text, asked(pylock.Marker(text).evaluate), asked(packaging.markers.Marker(text).evaluate))
        for value in (None, ""):
            self.same(value, pylock.Marker("extra == ''").evaluate({"extra": value}), True)

    @unittest.skipUnless(NEW, BEFORE)
    def test_markers_joined(self):
        # the last two have a name that a text written anew has in normal form
        texts = MARKERS + CONTEXTS + ["(extra == 'A_b')", "os_name=='a' and (extra=='A_b' or os_name=='b')"]
        for one, other in itertools.product(texts, repeat=2):
            ours, theirs = ([kind(text) for text in (one, other)] for kind in (pylock.Marker, packaging.markers.Marker))
            joined = ours[0] & ours[1], ours[0] | ours[1]
            self.same((one, other), tuple(map(str, joined)), (str(theirs[0] & theirs[1]), str(theirs[0] | theirs[1])))
            if "A_b" not in one + other:
                self.assertEqual(tuple(pylock.Marker(str(marker)) for marker in joined), joined)
        for wrong in ("os_name == 'a'", None):
            with self.assertRaises(TypeError):
                pylock.Marker("os_name == 'a'") & wrong
            with self.assertRaises(TypeError):
                pylock.Marker("os_name == 'a'") | wrong

    @unittest.skipUnless(NEW, BEFORE)
    def test_markers_folded(self):
        """Markers that were joined are joined again, on both sides and with themselves."""
        texts = ["os_name == 'a'", "extra=='A_b'", "os_name == 'b' or sys_platform == 'c'", "('x' == extra)", "((os_name != 'a'))"]
        values = [{"os_name": one, "sys_platform": other} for one in "abx" for other in "cx"]
        for seed in range(200):
            ours, theirs = [self.folded(kind, texts, seed) for kind in (pylock.Marker, packaging.markers.Marker)]
            self.same(seed, [str(one) for one in ours], [str(one) for one in theirs])
            for one, other in zip(ours, theirs):
                self.same(str(one), [one.evaluate(each) for each in values], [other.evaluate(each) for each in values])
        for right in (False, True):
            ours, theirs = [self.chained(kind, 66, right) for kind in (pylock.Marker, packaging.markers.Marker)]
            self.same(right, (str(ours), ours.evaluate()), (str(theirs), theirs.evaluate()))

    def folded(self, kind, texts, seed):
        dice = random.Random(seed)
        made = [kind(text) for text in texts]
        for _ in range(8):
            join = dice.choice((operator.and_, operator.or_))
            made.append(join(dice.choice(made), dice.choice(made)))
        return made

    def chained(self, kind, count, right):
        """So many comparisons, each joined with all before it."""
        marker = kind("os_name == '0'")
        for number in range(1, count):
            one = kind("os_name == '%d'" % number)
            marker = one | marker if right else marker | one
        return marker

    def test_running_environment(self):
        self.assertEqual(pylock.default_environment(), packaging.markers.default_environment())
        # what a program puts in the places of these functions is asked each time
        for name, value in (
            ("machine", "x"), ("release", "5"), ("system", "y"), ("version", "#1"), ("python_version", "3.9.1"),
            ("python_implementation", "z"), ("python_version_tuple", ("3", "9", "1")),
        ):
            with mock.patch("platform." + name, side_effect=[value, value]):
                self.same(name, *[library.markers.default_environment() for library in (pylock, packaging)])
        with mock.patch("sys.platform", "x"), mock.patch("os.name", "y"):
            self.same("x, y", *[library.markers.default_environment() for library in (pylock, packaging)])
        pylock.default_environment()["os_name"] = "changed"
        self.assertEqual(pylock.default_environment(), packaging.markers.default_environment())
        # before 22 there was no tag of the Python for any platform
        if not OLD:
            self.assertEqual(list(pylock.environment().tags), [str(tag) for tag in packaging.tags.sys_tags()])

    def test_requirements(self):
        for text in REQUIREMENTS:
            if OLD and text == "a ()":
                # refused before 22
                continue
            ours, theirs = pylock.Requirement(text), packaging.requirements.Requirement(text)
            self.same(
                text,
                (ours.name, set(ours.extras), str(ours.specifier), ours.url, ours.marker and str(ours.marker)),
                (theirs.name, theirs.extras, str(theirs.specifier), theirs.url, theirs.marker and str(theirs.marker)),
            )
            if NEW or "@" not in text:
                self.same(text, (str(ours), repr(ours)), (str(theirs), repr(theirs)))
        for one, other in itertools.product(REQUIREMENTS, repeat=2):
            if not OLD:
                ours = pylock.Requirement(one), pylock.Requirement(other)
                theirs = packaging.requirements.Requirement(one) == packaging.requirements.Requirement(other)
                self.same((one, other), ours[0] == ours[1], theirs)
                if theirs:
                    self.assertEqual(hash(ours[0]), hash(ours[1]))
        for text in NO_REQUIREMENTS:
            if OLD and text == "a >=":
                # taken before 22
                continue
            self.same(text, asked(pylock.Requirement, text), asked(packaging.requirements.Requirement, text))

    @unittest.skipIf(not NEW, BEFORE)
    def test_messages(self):
        """The sentence and the place, as `packaging` has them."""
        texts = NO_REQUIREMENTS + MISPLACED + NO_MARKERS + [text.partition(";")[2] for text in MISPLACED]
        for (module, kind), text in itertools.product((("requirements", "Requirement"), ("markers", "Marker")), texts):
            told = [message(getattr(library, kind), text) for library in (pylock, getattr(packaging, module))]
            self.same((kind, text), *told)
        for text in NO_SETS:
            told = [message(library.Specifier, text) for library in (pylock, packaging.specifiers)]
            self.assertTrue(told[0].startswith(told[1] + ": "), told)

    def test_names(self):
        utils = packaging.utils
        for text in NAMES:
            self.same(text, pylock.canonicalize_name(text), utils.canonicalize_name(text))
            if not OLD:
                self.same(text, asked(pylock.canonicalize_name, text, validate=True), asked(utils.canonicalize_name, text, validate=True))
                if text != "a--b":
                    self.same(text, pylock.is_normalized_name(text), utils.is_normalized_name(text))
        for text in VERSIONS + NO_VERSIONS:
            self.same(text, pylock.canonicalize_version(text), utils.canonicalize_version(text))
            if not OLD:
                self.same(
                    text, pylock.canonicalize_version(text, strip_trailing_zero=False), utils.canonicalize_version(text, strip_trailing_zero=False)
                )

    def test_files(self):
        for text in WHEELS:
            ours, theirs = pylock.parse_wheel_filename(text), packaging.utils.parse_wheel_filename(text)
            self.same(
                text, (ours[0], str(ours[1]), ours[2], set(map(str, ours[3]))), (theirs[0], str(theirs[1]), theirs[2], set(map(str, theirs[3])))
            )
        for text in SDISTS:
            ours, theirs = pylock.parse_sdist_filename(text), packaging.utils.parse_sdist_filename(text)
            self.same(text, (ours[0], str(ours[1])), (theirs[0], str(theirs[1])))
        for text in NO_WHEELS:
            if not OLD or text != "a-x-py3-none-any.whl":
                self.same(text, asked(pylock.parse_wheel_filename, text), asked(packaging.utils.parse_wheel_filename, text))
        # such a version was taken before 22
        for text in NO_SDISTS + ([] if OLD else NO_SDIST_VERSIONS):
            self.same(text, asked(pylock.parse_sdist_filename, text), asked(packaging.utils.parse_sdist_filename, text))

    def test_tags(self):
        for text in TAGS:
            ours, theirs = pylock.parse_tag(text), packaging.tags.parse_tag(text)
            self.same(text, sorted(map(str, ours)), sorted(map(str, theirs)))
            for tag in ours:
                twin = next(other for other in theirs if str(other) == str(tag))
                self.same(text, (tag.interpreter, tag.abi, tag.platform), (twin.interpreter, twin.abi, twin.platform))
        for text in ("py3-none", "", "a-b-c-d"):
            self.same(text, asked(pylock.parse_tag, text), asked(packaging.tags.parse_tag, text))

    @unittest.skipUnless(NEW, BEFORE)
    def test_orders_of_tags(self):
        for text in WHEELS + NO_WHEELS + ["a-1-py3.py2-none-any.whl", "a-1-py2.py3-none-b.a.whl", "a-1-2-py2.PY3-none-any.whl",
                                          "a-1-py2.py2-a.b-x.y.whl", "a-1-PY2.py3-none-any.whl"]:
            for ordered in (True, False):
                kinds = pylock.utils, packaging.utils
                answers = [asked(kind.parse_wheel_filename, text, validate_order=ordered) for kind in kinds]
                self.same((text, ordered), *["refused" if answer == "refused" else answer[0] for answer in answers])

    @unittest.skipUnless(NEW, BEFORE)
    def test_parts(self):
        changes = [
            {"epoch": epoch} for epoch in (0, 2, -1, "1", None)
        ] + [{"release": release} for release in ((3,), (0, 0), (1, 2, 3, 4), (), [1], ("1",), (-1,), 1)] + [
            {"pre": pre} for pre in (None, ("a", 0), ("Alpha", 1), ("c", 2), ("x", 1), ("b", -1), ("b", "1"), ["b", 1], "b1", ())
        ] + [{part: number} for part in ("post", "dev") for number in (None, 0, 7, -1, "1")] + [
            {"local": local} for local in (None, "a", "A_1-01", "", "a..b", "a ", 1, "\u017f")
        ]
        changes += [{}, {"post": 2**63}, {"dev": 2**64 - 1}, {"local": "1." * 300 + "z"}, {"release": (5,) * 300}, {"pre": ("rc", 2**63 - 1)}]
        kinds = pylock.Version, packaging.version.Version
        for text, one, other in itertools.product(["1.0", "1!2.0a1.post2.dev3+x.1", "v1.0-RC.1"], changes, changes):
            named = dict(one, **other)
            self.same((text, named), *[replaced(kind(text), named) for kind in kinds])
            named.setdefault("release", (1, 0))
            self.same(named, *[described(asked(kind.from_parts, **named)) for kind in kinds])
        for letter in ("a", "A", "alpha", "Beta", "b", "c", "RC", "pre", "preview", "PREVIEW", "previews", "rev", "r", "R", "post", "x", "",
                       "\u212a", "\u00c4lpha", "a\0", "\ud800", Word("Alpha")):
            self.same(letter, pylock.version.normalize_pre(letter), packaging.version.normalize_pre(letter))
        for kind in kinds:
            for places, named in (((), {}), (((1,),), {}), ((), {"release": (1,), "more": 1})):
                with self.assertRaises(TypeError):
                    kind.from_parts(*places, **named)

    @unittest.skipUnless(NEW, BEFORE)
    def test_assigned(self):
        """What can be assigned, and that copies and pickles have it."""
        for text, said in itertools.product((">=1", ">=1a1", "===foo", "!=1"), (None, True, False)):
            self.same((text, said), *[self.said(library, text, said) for library in (pylock, packaging.specifiers)])
        libraries = (pylock, pylock), (packaging.requirements, packaging.specifiers)
        for part, value in (
            ("name", "B"), ("extras", {"y", "x"}), ("url", "file:///x"), ("marker", None), ("specifier", ">=1,<2"),
            ("extras", []), ("extras", ("z", "y")), ("url", ""), ("marker", ""), ("specifier", ""),
        ):
            answers = []
            for requirements, specifiers in libraries:
                one = requirements.Requirement("a[x]; os_name == 'nt'")
                setattr(one, part, specifiers.SpecifierSet(value) if part == "specifier" else value)
                copied = copy.copy(one), copy.deepcopy(one), pickle.loads(pickle.dumps(one))
                answers.append((str(one), [str(each) for each in copied], [each == one for each in copied]))
            self.same((part, value), *answers)

    def said(self, library, text, said):
        """What becomes of specifiers and sets that are told of pre-releases after they are made."""
        one, versions = library.Specifier(text), library.SpecifierSet(text + ",<3")
        one.prereleases = versions.prereleases = said
        held = library.SpecifierSet([one, library.Specifier("<3")])
        more = library.SpecifierSet(text + ",<3")
        next(iter(more)).prereleases = said
        return [
            (
                repr(copied), copied.prereleases, copied.contains("2a1"), list(copied.filter(["1", "2a1"])), copied == kept,
                hash(copied) == hash(kept),
            )
            for kept in (one, versions, held, more, held & "<2", more & "<2", versions & ">0")
            for copied in (kept, copy.copy(kept), copy.deepcopy(kept), pickle.loads(pickle.dumps(kept)))
        ]

    def test_exported_names(self):
        """What `packaging` exports has a namesake here, or stands in the table of docs/PYTHON.md."""
        absent = {
            "specifiers": set(),
            "tags": {"MacVersion"},
            "markers": set() if NEW else {"format_full_version"},
            "version": {"LegacyVersion"},
            "utils": set(),
            "requirements": set(),
        }
        for part, allowed in absent.items():
            theirs = getattr(packaging, part)
            names = getattr(theirs, "__all__", None) or [
                name for name, value in vars(theirs).items()
                if not name.startswith("_") and getattr(value, "__module__", None) == theirs.__name__
            ]
            ours = getattr(pylock, part)
            missing = {name for name in names if not hasattr(ours, name)} - allowed
            with self.subTest(part):
                self.assertLessEqual(missing, {"LegacySpecifier", "VersionTypeVar"} if OLD else set())

    @unittest.skipUnless(NEW, BEFORE)
    def test_attributes(self):
        """Classes have the attributes of `packaging`, and functions and methods take its arguments by its names."""
        for part in ("version", "specifiers", "markers", "requirements", "utils"):
            for name in getattr(packaging, part).__all__:
                theirs, ours = getattr(getattr(packaging, part), name), getattr(getattr(pylock, part), name)
                if inspect.isfunction(theirs):
                    self.taken((part, name), ours, theirs)
                elif inspect.isclass(theirs) and not issubclass(theirs, (ValueError, dict)):
                    self.has_attributes(ours, theirs)
        ours, theirs = (re.compile(each.VERSION_PATTERN, re.VERBOSE | re.IGNORECASE) for each in (pylock, packaging.version))
        for text in VERSIONS + NO_VERSIONS:
            found = [pattern.fullmatch(text) for pattern in (ours, theirs)]
            self.same((text, "pattern"), *[match and match.groupdict() for match in found])
        self.assertEqual(pylock.markers.Environment.__annotations__.keys(), packaging.markers.Environment.__annotations__.keys())
        self.assertEqual(pylock.markers.EvaluateContext, packaging.markers.EvaluateContext)
        self.assertTrue(issubclass(pylock.Version, pylock.version._BaseVersion))
        for kind in (pylock.Specifier, pylock.SpecifierSet):
            self.assertTrue(issubclass(kind, pylock.specifiers.BaseSpecifier))

    def has_attributes(self, ours, theirs):
        name = theirs.__name__
        self.same((name, "name"), ours.__name__, name)
        self.taken(name, ours, theirs)
        self.same((name, "__match_args__"), getattr(ours, "__match_args__", None), getattr(theirs, "__match_args__", None))
        for attribute in dir(theirs):
            if attribute.startswith("_") and attribute not in SPECIAL:
                continue
            with self.subTest((name, attribute)):
                self.assertTrue(hasattr(ours, attribute))
            if inspect.isroutine(getattr(theirs, attribute)) and not attribute.startswith("_"):
                self.taken((name, attribute), getattr(ours, attribute), getattr(theirs, attribute))

    def taken(self, row, ours, theirs):
        """The arguments of `packaging` are taken here, by the same names, and by place where it takes them so."""
        try:
            inspect.signature(ours)
        except ValueError:
            # a type that is made at run time loses the signature of its documentation there
            if sys.version_info >= (3, 10):
                raise
            return
        ours, theirs = (list(inspect.signature(call).parameters.values()) for call in (ours, theirs))
        by_place = [[one.name for one in each if one.kind <= one.POSITIONAL_OR_KEYWORD] for each in (ours, theirs)]
        self.same((row, "by place"), by_place[0][: len(by_place[1])], by_place[1])
        with self.subTest((row, "by name")):
            self.assertLessEqual({one.name for one in theirs}, {one.name for one in ours})


SPECIAL = (
    "__and__", "__or__", "__contains__", "__eq__", "__hash__", "__iter__", "__le__", "__len__", "__lt__", "__replace__",
    "__str__", "_str",
)


def version(text):
    return lambda library: str(library.version.Version(text))


def parts(**named):
    return lambda library: str(library.version.Version.from_parts(**named))


class Word(str):
    """A text of a class of one's own."""


def described(answer):
    """What is asked of a version, which is that of its text too; what isn't one stays."""
    if isinstance(answer, str):
        return answer
    again = type(answer)(str(answer))
    return (
        str(answer), answer.epoch, answer.release, answer.pre, answer.post, answer.dev, answer.local, answer.public, answer.base_version,
        answer.is_prerelease, answer.is_postrelease, answer.is_devrelease, answer.major, answer.minor, answer.micro,
        again == answer, hash(again) == hash(answer), again <= answer <= again,
    )


def replaced(one, named):
    """What another version is made of this one, and whether it is the same one."""
    other = asked(one.__replace__, **named)
    return described(other), other is one


def another_part(library):
    try:
        return str(library.version.Version("1").__replace__(more=1))
    except TypeError:
        return "refused"


def kind_of_error(question):
    """The name of the exception that there is, or None."""
    def asked_of(library):
        try:
            question(library)
        except Exception as error:
            return type(error).__name__
        return None

    return asked_of


def patched(library):
    """What a marker is when a variable has changed."""
    one = library.markers.Marker("sys_platform == 'amiga'")
    one.evaluate()
    with mock.patch("sys.platform", "amiga"):
        return one.evaluate()


def copied_extra(library):
    one = library.markers.Marker("(extra == 'A_b')")
    return copy.copy(one) == one


def pickled_by_the_first_protocol(library):
    """What becomes of a pickle that `packaging` 26.2 made of `Version("1.0")`."""
    told = "ccopy_reg\n_reconstructor\n(c%s.version\nVersion\nc__builtin__\nobject\nNtR(I0\n(I1\nI0\ntNNNNtb."
    try:
        return str(pickle.loads((told % library.__name__).encode()))
    except TypeError:
        return "refused"


def own_metadata(library):
    metadata = importlib.import_module(library.__name__ + ".metadata")

    class Own(metadata.Metadata):
        """One that says nothing otherwise."""

    try:
        return Own.from_raw({"metadata_version": "2.1", "name": "a", "version": "1"}).name
    except metadata.ExceptionGroup:
        return "refused"


def contains(spec, text, *how):
    return lambda library: library.specifiers.SpecifierSet(spec).contains(text, *how)


def unsatisfiable(*made):
    return lambda library: library.specifiers.SpecifierSet(*made).is_unsatisfiable()


def marker(text):
    return lambda library: str(library.markers.Marker(text))


def evaluated(text, *mapping):
    return lambda library: library.markers.Marker(text).evaluate(*mapping)


def requirement(text):
    return lambda library: str(library.requirements.Requirement(text))


def set_in_order(library):
    versions = library.specifiers.SpecifierSet("==3,<2,==3.0")
    return str(versions), list(map(str, versions))


# What is asked, pylock's answer, the answer of packaging 26.2 ("refused" where it refuses)
DIFFERENCES = [
    ("a number past 128 bits", version(str(2**128)), "refused", str(2**128)),
    ("such a number in a set", contains(">=1", str(2**128)), False, True),
    ("white space that isn't ASCII", version("\u00a01.0"), "refused", "1.0"),
    ("a truth value as a number", parts(release=(1, True)), "1.1", "1.True"),
    ("another part", another_part, "refused", "1"),
    ("no release", lambda library: str(library.version.Version("1").__replace__(release=None)), "refused", "0"),
    ("no release of parts", parts(release=None), "refused", "0"),
    ("> with a pre-release", contains(">1.7a1", "1.7.post1"), False, True),
    ("< with a post-release", contains("<1.7.post1", "1.7a1"), False, True),
    ("=== without an operand", lambda library: str(library.specifiers.SpecifierSet("===")), "refused", "==="),
    ("=== with a comma", lambda library: str(library.specifiers.Specifier("===1,")), "refused", "===1,"),
    ("=== in filter with a key", lambda library: list(
        library.specifiers.SpecifierSet("===x").filter(["x_"], key=lambda item: item[0])), ["x_"], []),
    ("~= with v", lambda library: "2.5" in library.specifiers.SpecifierSet("~=v2.2"), True, False),
    ("~= with a pre-release in capitals", contains("~=2.2.RC1", "2.5"), True, False),
    ("white space that isn't ASCII behind ===", contains("===\u00a01.0", "1.0"), False, True),
    ("equal sets whose texts are in another order", lambda library: (
        library.specifiers.SpecifierSet(">1,>1!1") == library.specifiers.SpecifierSet(">1.0,>1!1")), True, False),
    ("0 as what is said of pre-releases", lambda library: "1a1" in library.specifiers.SpecifierSet("", 0), False, True),
    ("1 as what is said of pre-releases", lambda library: list(
        library.specifiers.SpecifierSet("", 1).filter(["1a1", "1"])), ["1a1", "1"], ["1"]),
    ("no final release below 0", unsatisfiable("<=0.dev0", False), True, False),
    ("no post-release behind >1", unsatisfiable(">1,<=1.post1"), True, False),
    ("a set after its text was asked for", set_in_order, ("<2,==3", ["==3", "<2", "==3.0"]), ("<2,==3", ["<2", "==3"])),
    ("a set of a text that is none", lambda library: str(library.specifiers.SpecifierSet([">=1,<2"])), "refused", ">=1,<2"),
    ("a release that is no version, by order", evaluated("platform_release >= '5'", {"platform_release": "6-generic"}),
     True, False),
    ("a release that is no version, by !=", evaluated("platform_release != '5'", {"platform_release": "6-generic"}), True, False),
    ("a release that is no version, by ~=", evaluated("platform_release ~= '5.0'", {"platform_release": "6-generic"}),
     "refused", False),
    ("a version beside what is no operand", evaluated("python_version < '3.13.*'", {"python_version": "3.12"}), True, False),
    ("an order of names", evaluated("platform_system < 'M'", {"platform_system": "Linux"}), True, False),
    ("names that spell versions", evaluated("os_name == '1.0'", {"os_name": "1"}), True, False),
    ("names that spell versions, by ~=", evaluated("os_name ~= '1.0'", {"os_name": "1.2"}), True, "refused"),
    ("names that spell versions, by ===", evaluated("os_name === '1.0'", {"os_name": "1.0"}), True, "refused"),
    ("two texts", evaluated("'a' == 'a'"), True, "refused"),
    ("two variables", evaluated("os_name == sys_platform", {"os_name": "sys_platform", "sys_platform": "x"}), False, True),
    ("an order of extras", evaluated("extra >= 'a'", {"extra": "a"}), "refused", True),
    ("an extra in parentheses", evaluated("(extra == 'A_b')", {"extra": "a-b"}), True, False),
    ("a copy of an extra in parentheses", copied_extra, True, False),
    ("a variable that is patched", patched, False, True),
    ("sets beside ==", marker("'a' == extras"), "refused", '"a" == extras'),
    ("a text as a set", evaluated("'a' in extras", {"extras": "abc"}), False, True),
    ("os.name", marker("os.name == 'nt'"), "refused", 'os_name == "nt"'),
    ("python_implementation", marker("python_implementation == 'x'"), "refused", 'platform_python_implementation == "x"'),
    ("65 open parentheses", marker("(" * 65 + "os_name == 'a'" + ")" * 65), "refused", 'os_name == "a"'),
    ("67 comparisons that were joined one after the other", lambda library: str(functools.reduce(
        operator.and_, [library.markers.Marker("os_name == 'a'")] * 67)), "refused",
        "(" * 65 + 'os_name == "a"' + ' and os_name == "a")' * 65 + ' and os_name == "a"'),
    ("a quotation mark in a text", marker("os_name == 'a\"b'"), "os_name == 'a\"b'", 'os_name == "a"b"'),
    ("two pairs of parentheses", marker("os_name=='a' and ((os_name=='b' or os_name=='c'))"),
     'os_name == "a" and (os_name == "b" or os_name == "c")', 'os_name == "a" and os_name == "b" or os_name == "c"'),
    ("a marker in parentheses and another", lambda library: str(
        library.markers.Marker("(os_name=='b' or os_name=='c')") & library.markers.Marker("os_name=='a'")),
     '(os_name == "b" or os_name == "c") and os_name == "a"', 'os_name == "b" or os_name == "c" and os_name == "a"'),
    ("a backslash", evaluated("os_name == 'a\\x62'", {"os_name": "ab"}), "refused", True),
    ("an empty piece in a requirement", requirement("a>=1,,<2"), "a<2,>=1", "refused"),
    ("a comma behind a requirement", requirement("a,"), "a", "refused"),
    ("=== and another in a requirement", requirement("a===1.0, >=1"), "a===1.0,>=1", "refused"),
    ("no specifier behind === and a comma", kind_of_error(requirement("a===1,x")), "InvalidRequirement", "InvalidSpecifier"),
    ("a line end in a requirement", requirement("a\n>=1"), "a>=1", "refused"),
    ("a form feed behind a requirement", requirement("a\f"), "a", "refused"),
    ("a line end in an extra", requirement("a[b\n]"), "a[b]", "refused"),
    ("a line end in a marker", marker("os_name\n== 'a'"), 'os_name == "a"', "refused"),
    ("a line end in a URL", requirement("a @ https://h/p\n.zip"), "refused", "a @ https://h/p\n.zip"),
    ("a vertical tab behind a URL", requirement("a @ https://h/p\v"), "a @ https://h/p", "a @ https://h/p\v"),
    ("a name with _ at its end", requirement("a_>=1"), "refused", "a_>=1"),
    ("an extra with _ at its end", requirement("a[b_]"), "refused", "a[b_]"),
    ("hashes of equal requirements", lambda library: len(
        {library.requirements.Requirement(text) for text in ("a>=1.0", "a>=1")}), 1, 2),
    ("a build that isn't ASCII", lambda library: library.utils.parse_wheel_filename("a-1-1\u00b2-py3-none-any.whl")[2], "refused", (1, "\u00b2")),
    ("a name of a wheel that isn't ASCII", lambda library: library.utils.parse_wheel_filename("\u00e9-1-py3-none-any.whl")[0], "refused", "\u00e9"),
    ("an empty name of a wheel", lambda library: library.utils.parse_wheel_filename("-1-py3-none-any.whl")[0], "refused", ""),
    ("a tag with an empty piece", lambda library: len(library.utils.parse_wheel_filename("a-1-py3..py2-none-any.whl")[3]), "refused", 3),
    ("an empty name of an sdist", lambda library: library.utils.parse_sdist_filename("-1.tar.gz")[0], "refused", ""),
    ("a dash behind the name of an sdist", lambda library: library.utils.parse_sdist_filename("a--1.tar.gz")[0], "refused", "a-"),
    ("a--b", lambda library: library.utils.is_normalized_name("a--b"), False, True),
    ("a tag of two parts", kind_of_error(lambda library: library.tags.parse_tag("py3-none")), "InvalidTag", "ValueError"),
    ("a sigma before a dot", lambda library: library.utils.canonicalize_name("a\u03a3.b"), "a\u03c2-b", "a\u03c3-b"),
    ("half a character in a name", lambda library: library.utils.canonicalize_name("A\udcff"), "refused", "a\udcff"),
    ("half a character in a tag", lambda library: len(library.tags.parse_tag("a\udcff-b-c")), "refused", 1),
    ("half a character in a URL", requirement("a @ u\udcff"), "refused", "a @ u\udcff"),
    ("half a character behind ===", lambda library: str(library.specifiers.SpecifierSet("===a\udcff")), "refused", "===a\udcff"),
    ("half a character in a variable", evaluated("os_name == 'a'", {"os_name": "\udcff"}), "refused", False),
    ("half a character in an extra", evaluated("extra == 'a'", {"extra": "\udcff"}), "refused", False),
    ("a list as a version", kind_of_error(lambda library: library.version.Version([])), "TypeError", "AttributeError"),
    ("a number as a name", kind_of_error(lambda library: library.utils.canonicalize_name(1)), "TypeError", "AttributeError"),
    ("a pickle by protocol 0", pickled_by_the_first_protocol, "refused", "1.0"),
    ("a class of metadata", own_metadata, "a", "refused"),
]


@unittest.skipIf(packaging is None or OLD, "neither packaging 22 or later nor pip's copy of it is installed")
class Differences(unittest.TestCase):
    """The differences on purpose, to 26.2."""

    def test_rows(self):
        for row, question, ours, theirs in DIFFERENCES:
            with self.subTest(row):
                self.assertEqual(asked(question, pylock), ours)
                if release(packaging) == (26, 2):
                    self.assertEqual(asked(question, packaging), theirs)

    def test_rows_differ(self):
        for row, _, ours, theirs in DIFFERENCES:
            self.assertNotEqual(ours, theirs, row)


class WithoutPackaging(unittest.TestCase):
    def test_admits_is_the_profile(self):
        """`admits` follows docs/FORMATS.md, where `contains` follows `packaging`."""
        for text, said, version, admits, contains in (
            (">=1.0", False, "2.0rc1", True, False),
            ("", False, "1.0a1", True, False),
            ("===1.0rc1", None, "1.0-RC.1", True, False),
            ("===v1.0", None, "v1.0", False, True),
            (">1.0.post1", None, "1.0.post2+x", True, True),
            (">1.0a1", None, "1.0+x", True, True),
            (">1.7", None, "1.7+x", False, False),
        ):
            with self.subTest((text, version)):
                versions = pylock.SpecifierSet(text, said)
                self.assertEqual((versions.admits(version), versions.contains(version)), (admits, contains))
        for text in ("", ">=1", "===foo"):
            with refused(self, pylock.InvalidVersion):
                pylock.SpecifierSet(text).admits("foo")

    def test_order_of_the_specification(self):
        row = ["1.0.dev1", "1.0a1.dev1", "1.0a1", "1.0a1.post1", "1.0rc1", "1.0", "1.0+abc", "1.0+5", "1.0.post1.dev1", "1.0.post1", "1!0"]
        versions = pylock.parse_all(row)
        self.assertEqual(sorted(reversed(versions)), versions)
        self.assertTrue(all(one < other for one, other in zip(versions, versions[1:])))


if __name__ == "__main__":
    unittest.main()
