"""Python's own manners: attributes of one's own, classes that are made from those here, exceptions with any arguments, and what
tools are told of functions and classes."""

import copy
import inspect
import operator
import pickle
import sys
import typing
import unittest
from unittest import mock

import pylock
from peer import needs, peer
from pylock import Marker, Requirement, Specifier, SpecifierSet, Tag, Version, _native
from support import reference, release

KINDS = {"Version": "version", "Specifier": "specifiers", "SpecifierSet": "specifiers", "Marker": "markers", "Requirement": "requirements", "Tag": "tags"}


class Pair(Version):
    """Classes stand at the top of the module, for pickles."""

    def __init__(self, major, minor):
        super().__init__("%d.%d" % (major, minor))


class AtLeast(SpecifierSet):
    def __init__(self, number):
        super().__init__(">=%d" % number)


class Below(Specifier):
    def __init__(self, number):
        super().__init__("<%d" % number, prereleases=True)


class Counted(Specifier):
    """Says itself what a pickle has, and what a copy so is made of."""

    made = 0

    def __reduce__(self):
        return Counted.again, (self.text, self.prereleases)

    @classmethod
    def again(cls, text, prereleases):
        cls.made += 1
        return cls(text, prereleases)


class Named(Requirement):
    def __init__(self, name, least):
        super().__init__("%s>=%s" % (name, least))
        self.least = least


class Equal(Marker):
    def __init__(self, name, value):
        super().__init__("%s == %r" % (name, value))


class Pure(Tag):
    def __init__(self, python):
        super().__init__(python, "none", "any")


class Words(pylock.InvalidVersion):
    def __init__(self, one, other):
        super().__init__(one, other)


class OtherArguments(unittest.TestCase):
    """A class whose `__init__` has other arguments."""

    def test_pickles(self):
        for one in (Pair(1, 2), AtLeast(3), Below(4), Named("a", "1"), Equal("os_name", "nt"), Pure("py3")):
            for protocol in range(pickle.HIGHEST_PROTOCOL + 1):
                for again in (pickle.loads(pickle.dumps(one, protocol)), copy.copy(one), copy.deepcopy(one)):
                    with self.subTest(repr(one), protocol=protocol):
                        self.assertEqual((type(again), again, str(again), hash(again)), (type(one), one, str(one), hash(one)))
        self.assertTrue(pickle.loads(pickle.dumps(Below(4))).prereleases)

    def test_own_pickle(self):
        one = Counted("~= 1.0", False)
        for number, again in enumerate((pickle.loads(pickle.dumps(one)), copy.copy(one), copy.deepcopy(one))):
            with self.subTest(number):
                self.assertEqual((type(again), str(again), again.prereleases), (Counted, "~=1.0", False))
        self.assertEqual(Counted.made, 3)
        one, again = Specifier("===x", True), copy.copy(Specifier("===x", True))
        self.assertEqual((again, str(again), again.prereleases, "X" in again, "1" in again), (one, "===x", True, True, False))
        again.prereleases = False
        self.assertTrue(one.prereleases)

    def test_made_of(self):
        for made, wanted in (
            (Pair.from_parts(release=(3, 4), dev=1), "<Pair('3.4.dev1')>"), (Pair(1, 2).__replace__(pre=("b", 1)), "<Pair('1.2b1')>"),
            (Equal("os_name", "nt") & Marker("extra == 'x'"), "<Equal('os_name == \"nt\" and extra == \"x\"')>"),
            (AtLeast(1) & "<2", "<SpecifierSet('<2,>=1')>"), (Pair(1, 2), "<Pair('1.2')>"), (AtLeast(1), "<AtLeast('>=1')>"),
            (Below(1), "<Below('<1', prereleases=True)>"), (Named("a", "1"), "<Named('a>=1')>"),
        ):
            self.assertEqual(repr(made), wanted)
        self.assertEqual((Pure("PY3"), hash(Pure("py3"))), (Tag("py3", "none", "any"), hash(Tag("py3", "none", "any"))))
        self.assertTrue(Pair(1, 2) == Version("1.2") and AtLeast(1) == SpecifierSet(">=1") and Named("a", "1") == Requirement("a>=1"))

    def test_refused(self):
        for call in (lambda: Pair(1), lambda: Pure(), lambda: Tag("a", "b"), lambda: Version()):
            with self.assertRaises(TypeError):
                call()
        with self.assertRaises(pylock.InvalidVersion):
            Pair(1, -2)


class Overridden(unittest.TestCase):
    """A class of versions that says otherwise what a part is."""

    def answers(self, module, sets):
        class Released(module.Version):
            release = property(lambda self: (9, 8, 7))

        class Early(module.Version):
            is_prerelease = property(lambda self: True)

        class Late(module.Version):
            pre = property(lambda self: None)
            dev = property(lambda self: None)

        class Written(module.Version):
            def __str__(self):
                return "7.7+x"

        class Further(Released):
            epoch = property(lambda self: 2)

        names = ("release", "base_version", "public", "major", "minor", "micro", "is_prerelease", "is_devrelease", "is_postrelease", "local")
        told = []
        for kind in (Released, Early, Late, Written, Further):
            for text in ("1.2", "1.2rc1.post3.dev4+a.1"):
                one = kind(text)
                told.append((repr(one), str(one), [getattr(one, name) for name in names], one == module.Version(text), one < module.Version("2")))
                for versions in (sets.SpecifierSet(">=0", prereleases=False), sets.SpecifierSet(">=0"), sets.Specifier(">=0"), sets.SpecifierSet("===7.7+x")):
                    told.append((versions.contains(one), versions.contains(one, prereleases=False), [str(each) for each in versions.filter([one, module.Version("0.5")])]))
        return told

    @needs(peer("version"))
    def test_as_theirs(self):
        self.assertEqual(self.answers(pylock.version, pylock.specifiers), self.answers(peer("version"), peer("specifiers")))

    def test_plain(self):
        """Without such parts the compiled ones are asked."""
        class Plain(Version):
            """One that says nothing otherwise."""

        self.assertIs(Plain.base_version, _native.Version.base_version)
        self.assertIs(Version.__str__, _native.Version.__str__)


class Attributes(unittest.TestCase):
    """A requirement has attributes as any object."""

    def check(self, module):
        one = module.Requirement("a[x]>=1; os_name == 'nt'")
        one.own = 1
        self.assertEqual(sorted(vars(one)), ["extras", "marker", "name", "own", "specifier", "url"])
        self.assertEqual((vars(one)["extras"], str(vars(one)["specifier"]), one.own), ({"x"}, ">=1", 1))
        del one.marker
        self.assertFalse(hasattr(one, "marker"))
        one.marker = None
        one.__dict__["name"] = "b"
        self.assertEqual(str(one), "b[x]>=1")
        self.assertFalse(hasattr(copy.deepcopy(one), "own"))

        class Own(module.Requirement):
            @property
            def specifier(self):
                return self.kept

            @specifier.setter
            def specifier(self, value):
                self.kept = value & "<9"

        self.assertEqual((str(Own("a>=1")), str(Own("a")), sorted(vars(Own("a")))), ("a<9,>=1", "a<9", ["extras", "kept", "marker", "name", "url"]))

    def test_attributes(self):
        self.check(pylock.requirements)
        if peer("requirements") is not None:
            self.check(peer("requirements"))


class Exceptions(unittest.TestCase):
    ERRORS = [
        pylock.InvalidVersion, pylock.InvalidSpecifier, pylock.InvalidMarker, pylock.UndefinedComparison, pylock.UndefinedEnvironmentName,
        pylock.InvalidRequirement, pylock.InvalidName, pylock.InvalidWheelFilename, pylock.InvalidSdistFilename, pylock.UnsortedTagsError,
    ]

    def test_arguments(self):
        for error in self.ERRORS:
            for arguments in ((), ("x",), ("x", 5), (None,)):
                with self.subTest(error=error, arguments=arguments):
                    raised = error(*arguments)
                    self.assertEqual((raised.args, str(raised), raised.word, raised.place), (arguments, str(ValueError(*arguments)), "", None))
                    again = pickle.loads(pickle.dumps(raised))
                    self.assertEqual((type(again), again.args), (error, arguments))
            with self.assertRaises(error):
                raise error
            with self.assertRaises(error):
                mock.Mock(side_effect=error)()
        self.assertEqual(Words("a", 1).args, ("a", 1))
        self.assertEqual(pylock.InvalidVersion("x", word="syntax", place=3).place, 3)

    def test_library(self):
        """What the library raises has its word."""
        with self.assertRaises(pylock.InvalidVersion) as caught:
            Version("x")
        self.assertEqual((caught.exception.word, len(caught.exception.args)), ("syntax", 1))


MODULES = (
    "dependency_groups", "direct_url", "licenses", "markers", "metadata", "pylock", "requirements", "specifiers", "tags", "utils",
    "version",
)
# arguments that are taken here besides
BESIDES = {
    ("Marker.evaluate", "extra"), ("Specifier.contains", "installed"), ("PylockValidationError.__init__", "word"),
    ("PylockUnsupportedVersionError.__init__", "word"),
}


def calls():
    """The public functions of `packaging`, the `__init__` of its classes and their public methods, by the module and the name."""
    for module in MODULES:
        theirs = peer(module)
        for name in theirs.__all__:
            value = getattr(theirs, name)
            if inspect.isfunction(value):
                yield module, name
            for part in dir(value) if inspect.isclass(value) else ():
                member = inspect.getattr_static(value, part)
                function = member.__func__ if isinstance(member, classmethod) else member
                if inspect.isfunction(function) and function.__module__ == theirs.__name__ and (part == "__init__" or part[0] != "_"):
                    yield module, "%s.%s" % (name, part)


def is_compiled(call):
    """Whether it is written in C: then it has no annotations, and a mock of it takes any arguments."""
    return not inspect.isfunction(getattr(call, "__func__", call))


def both(module, name):
    """What has the name here, and there."""
    found = operator.attrgetter(name)
    return found(getattr(pylock, module, None) or __import__("pylock." + module, fromlist=["x"])), found(peer(module))


@unittest.skipUnless(reference() and release(reference()) >= (26, 2), "no packaging of 26.2 or later; PYLOCK_PEER names the folder it is in")
class Told(unittest.TestCase):
    """What `inspect`, `typing` and `unittest.mock` are told of calls: what `packaging` tells them."""

    def taken(self, name, call):
        """The arguments: their names, how they are given, and what they are where they aren't. One that is taken by its place
        alone may be taken by its name too."""
        return [
            (one.name, max(one.kind, one.POSITIONAL_OR_KEYWORD), one.default) for one in inspect.signature(call).parameters.values()
            if (name, one.name) not in BESIDES
        ]

    def test_signatures(self):
        for module, name in calls():
            ours, theirs = both(module, name)
            if name.endswith(".__init__") and is_compiled(ours):
                # the class has it: one that is made at run time loses the signature of its documentation before Python 3.10
                if sys.version_info < (3, 10):
                    continue
                ours, theirs = both(module, name[: -len(".__init__")])
            with self.subTest(module=module, name=name):
                self.assertEqual(self.taken(name, ours), self.taken(name, theirs))

    def hinted(self, call):
        """The arguments that have annotations which can be read; None where one can't."""
        try:
            return set(typing.get_type_hints(call))
        except (NameError, TypeError):
            return None

    def test_annotations(self):
        for module, name in calls():
            call = both(module, name)[0]
            ours, theirs = map(self.hinted, both(module, name))
            with self.subTest(module=module, name=name):
                if is_compiled(call):
                    self.assertEqual(ours, set())
                elif theirs is not None:
                    self.assertIsNotNone(ours)
                    self.assertLessEqual(theirs, ours)
        for module in MODULES:
            for name in peer(module).__all__:
                ours, theirs = both(module, name)
                if inspect.isclass(theirs) and self.hinted(theirs) is not None:
                    with self.subTest(module=module, name=name):
                        self.assertIsNotNone(self.hinted(ours))

    def refused(self, name, value):
        """Which calls a mock of it refuses; of a method one of an instance of its class."""
        part = name.partition(".")[2]
        call = mock.create_autospec(value, instance=part != "")
        told = []
        for places, named in (((), {}), ((1,) * 9, {}), ((), {"unheard_of": 1})):
            try:
                (getattr(call, part) if part else call)(*places, **named)
            except TypeError:
                told.append((places, named))
        return told

    def test_mocks(self):
        for module, name in calls():
            # to make an object a class is called
            called = name[: -len(".__init__")] if name.endswith(".__init__") else name
            ours, theirs = (self.refused(called, one) for one in both(module, name.partition(".")[0]))
            with self.subTest(module=module, name=name):
                self.assertEqual(ours, [] if is_compiled(both(module, name)[0]) else theirs)


if __name__ == "__main__":
    unittest.main()
