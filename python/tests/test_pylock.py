"""`pylock.pylock` beside `packaging.pylock`: tables read, written and refused, what is selected, and the writer of TOML.

PYLOCK_PEER names a folder that holds `packaging` 26.2 or later; else the installed one, or pip's, is asked. Where it has
no `pylock` the tests beside it are skipped.
"""

import collections
import copy
import dataclasses
import datetime
import enum
import importlib
import inspect
import itertools
import logging
import math
import os
import pathlib
import pickle
import random
import signal
import struct
import sys
import threading
import types
import unittest

import toml_writer
from locks import TAGS, broken_lock, sound_lock
from support import TOP, bytes_of, reference, toml

import pylock
from pylock import _lock_shape, _toml
from pylock import pylock as ours

READER = toml()
LINUX = {
    "os_name": "posix", "sys_platform": "linux", "python_version": "3.12", "python_full_version": "3.12.4",
    "platform_machine": "x86_64",
    "platform_python_implementation": "CPython", "implementation_name": "cpython", "implementation_version": "3.12.4",
    "platform_system": "Linux", "platform_release": "6.1", "platform_version": "#1 SMP",
}
WINDOWS = dict(
    LINUX, os_name="nt", sys_platform="win32", python_version="3.8", python_full_version="3.8.10", platform_machine="AMD64"
)
NEXT = dict(LINUX, python_version="3.13", python_full_version="3.13.0rc1")
PURE = ["py3-none-any"]
CLASSES = ["Package", "PackageArchive", "PackageDirectory", "PackageSdist", "PackageVcs", "PackageWheel", "Pylock"]


def peer():
    """The peer's module, or None."""
    folder = os.environ.get("PYLOCK_PEER")
    if folder and folder not in sys.path:
        sys.path.insert(0, folder)
    library = reference()
    try:
        found = library and importlib.import_module(library.__name__ + ".pylock")
    except ImportError:
        return None
    # earlier releases select nothing
    return found if hasattr(found, "PylockSelectError") else None


theirs = peer()
beside = unittest.skipUnless(theirs, "there is no packaging.pylock (PYLOCK_PEER)")


def tags_of(module, tags):
    """The tags as objects of the module's library."""
    kind = importlib.import_module(module.__name__.rpartition(".")[0] + ".tags").Tag
    return None if tags is None else [kind(*tag.split("-")) for tag in tags]


def read(module, table):
    """The lock of the table, or the error."""
    try:
        return module.Pylock.from_dict(table)
    except module.PylockValidationError as error:
        return error


def selected(module, table, environment=None, tags=None, **asked):
    """What is selected: the places of entries and the keys of their sources, of a wheel with its place; or the error's name."""
    lock = module.Pylock.from_dict(table)
    try:
        picks = list(lock.select(environment=environment, tags=tags_of(module, tags), **asked))
    except Exception as error:
        return type(error).__name__
    found = []
    for package, source in picks:
        place = next(place for place, each in enumerate(lock.packages) if each is package)
        wheels = [place for place, wheel in enumerate(package.wheels or ()) if wheel is source]
        kind = [key for key in ("vcs", "directory", "archive", "sdist") if getattr(package, key) is source]
        found.append((place, kind[0] if kind else wheels[0]))
    return found


def whole(lock):
    """What a row changes, in a lock that both take."""
    return dict({"lock-version": "1.0", "created-by": "t", "packages": []}, **lock)


def wheel(*names, **entry):
    """A lock of one entry with wheels of these names or, where they have a sign for a place, these tables."""
    files = [dict(name) if isinstance(name, dict) else {"name": name, "path": "p"} for name in names]
    return whole({"packages": [dict({"name": "a", "wheels": [dict(file, hashes={"sha256": "00"}) for file in files]}, **entry)]})


def marked(marker):
    """A lock of one entry with this marker."""
    return wheel("a-1-py3-none-any.whl", marker=marker)


PLAIN = "a-1-py3-none-any.whl"
# the rows of docs/PYTHON.md: "Here is a plan, and `packaging` refuses or fails"
TAKEN_HERE = {
    "an empty url": wheel({"name": PLAIN, "url": ""}),
    "an empty path": whole({"packages": [{"name": "a", "archive": {"path": "", "hashes": {"sha256": "00"}}}]}),
    "a URL in which urlparse finds no host": wheel({"url": "https://[h/" + PLAIN}),
    "a file name with escapes": wheel({"url": "https://h/a-1%2Bx-py3-none-any.whl"}),
    "a URL without a path": wheel({"url": "https://" + PLAIN}),
    "a file name behind a backslash": wheel({"path": "w/x\\" + PLAIN}),
    "a line end in a marker": marked("os_name ==\n'posix'"),
    "a form feed in a marker": marked("os_name ==\f'posix'"),
}
# in the same list, but from_dict takes them there
FAILS_THERE = {
    "two quoted texts": marked("'a' == 'a'"),
    "extras in environments": dict(marked("os_name == 'posix'"), environments=["'x' not in extras"]),
}
# "Both plan, otherwise": what is selected here, and there
OTHERWISE = {
    "several wheels with one best tag": (wheel("a-1-1-py3-none-any.whl", "a-1-2-py3-none-any.whl"), [(0, 1)], [(0, 0)]),
    "a marker that audit finds by readings-differ": (marked("platform_machine == '1.0'"), [(0, 0)], []),
    "python_version < '3.13.*'": (marked("python_version < '3.13.*'"), [(0, 0)], []),
    "python_version <= '3.12.*'": (marked("python_version <= '3.12.*'"), [(0, 0)], []),
    "a text with .*": (marked("platform_machine == '1.*'"), [(0, 0)], []),
    "a text with .* and !=": (marked("platform_machine != '1.*'"), [], [(0, 0)]),
    "an operand that begins with =": (marked("python_version == '=3.12'"), [], [(0, 0)]),
    "two variables": (marked("os_name == os_name"), [(0, 0)], []),
}
# "Refused here, a plan there": where it is refused here
REFUSED_HERE = {
    "files of two versions": (wheel(PLAIN, "a-2-py3-none-any.whl"), "packages[0].wheels[1]"),
    "an upload-time that isn't in UTC": (
        wheel({"name": PLAIN, "path": "p", "upload-time": datetime.datetime(2024, 1, 1)}), "packages[0].wheels[0].upload-time"
    ),
    "a negative size": (wheel({"name": PLAIN, "path": "p", "size": -1}), "packages[0].wheels[0].size"),
    "a size that is no number": (wheel({"name": PLAIN, "path": "p", "size": True}), "packages[0].wheels[0].size"),
    "a size past 63 bits": (wheel({"name": PLAIN, "path": "p", "size": 1 << 63}), "packages[0].wheels[0].size"),
    "a lock-version of another form": (whole({"lock-version": "1.0.0"}), "lock-version"),
    "a lock-version without a dot": (whole({"lock-version": "1"}), "lock-version"),
    "a group that is no name": (whole({"dependency-groups": ["a", "a b"]}), "dependency-groups[1]"),
    "a default group that is no name": (whole({"default-groups": ["-"]}), "default-groups[0]"),
    "a control character in a quoted text": (marked("os_name != 'a\x01'"), "packages[0].marker"),
    "extras beside !=": (marked("'x' != extras"), "packages[0].marker"),
    "a character in a tag": (wheel("a-1-py3-none-any~x.whl", PLAIN), "packages[0].wheels[0]"),
    "a file name before ;params": (wheel({"url": "https://h/%s;params" % PLAIN}), "packages[0].wheels[0]"),
    "a file name with a TAB": (wheel({"url": "https://h/%s\t" % PLAIN}), "packages[0].wheels[0]"),
    "file:NAME": (wheel({"url": "file:" + PLAIN}), "packages[0].wheels[0]"),
    "a number past 128 bits": (wheel("a-%d-py3-none-any.whl" % 2**128), "packages[0].wheels[0]"),
    "an old variable": (marked("os.name == 'posix'"), "packages[0].marker"),
    "a backslash": (marked("os_name != '\\t'"), "packages[0].marker"),
    "65 parentheses": (marked("(" * 65 + "os_name == 'posix'" + ")" * 65), "packages[0].marker"),
    "a build that isn't ASCII": (wheel("a-1-1\u00e9-py3-none-any.whl"), "packages[0].wheels[0]"),
    "half a surrogate pair": (wheel({"name": PLAIN, "path": "\ud800"}), "packages[0].wheels[0].path"),
}


def arguments_of(function):
    """The names, kinds and defaults of the arguments."""
    return [(one.name, one.kind, one.default) for one in inspect.signature(function).parameters.values()]


class Names(unittest.TestCase):
    @beside
    def test_public_names(self):
        self.assertLessEqual(set(theirs.__all__), set(ours.__all__))
        self.assertTrue(hasattr(theirs, "PylockSelectError"))
        for name in ours.__all__:
            self.assertTrue(hasattr(theirs, name), name)

    @beside
    def test_fields_and_arguments(self):
        for name in CLASSES:
            here, there = getattr(ours, name), getattr(theirs, name)
            with self.subTest(name):
                fields = [[(field.name, field.default) for field in dataclasses.fields(each)] for each in (here, there)]
                self.assertEqual(*fields)
                self.assertEqual(arguments_of(here), arguments_of(there))
                public = [{one for one in dir(each) if not one.startswith("_")} for each in (here, there)]
                self.assertEqual(*public)
        for name in ("from_dict", "to_dict", "validate", "select"):
            self.assertEqual(arguments_of(getattr(ours.Pylock, name)), arguments_of(getattr(theirs.Pylock, name)))

    def test_documented(self):
        for name in ours.__all__:
            value = getattr(ours, name)
            self.assertTrue(value.__doc__, name)
            for part, member in vars(value).items() if inspect.isclass(value) else ():
                if not part.startswith("_") and (inspect.isfunction(member) or isinstance(member, (property, classmethod))):
                    self.assertTrue(getattr(value, part).__doc__, (name, part))

    def test_paths(self):
        names = [
            "pylock.toml", "pylock.a.toml", "pylock.a.b.toml", "pylock..toml", "pylock.toml.toml", "a.pylock.toml", "pylock",
            "pylock.tom", "PYLOCK.toml", "pylock.a.TOML", "pylock.a b.toml", "pylock.\u00e9.toml", "apylock.toml",
            "pylock-a.toml", "pylock.a.toml ", ".toml",
        ]
        expected = ["pylock.toml", "pylock.a.toml", "pylock.toml.toml", "pylock.a b.toml", "pylock.\u00e9.toml"]
        self.assertEqual([name for name in names if ours.is_valid_pylock_path(pathlib.PurePath(name))], expected)
        self.assertTrue(ours.is_valid_pylock_path(pathlib.PureWindowsPath("a\\pylock.toml")))
        if theirs:
            for name in names:
                path = pathlib.PurePosixPath("some.toml") / name
                self.assertEqual(ours.is_valid_pylock_path(path), theirs.is_valid_pylock_path(path), name)
        # no file has such a name in earnest
        self.assertFalse(ours.is_valid_pylock_path(pathlib.PurePosixPath("pylock.a.toml\n")))


class Objects(unittest.TestCase):
    LOCK = whole({
        "environments": ["os_name == 'posix'"], "requires-python": ">= 3.8", "extras": ["x"], "dependency-groups": ["Dev"],
        "default-groups": ["Dev"], "tool": {"t": [1]},
        "packages": [
            {"name": "a", "version": "1.0.0-RC1", "marker": "os_name=='posix'", "requires-python": ">=3.8", "wheels": [
                {"name": "a-1.0rc1-py3-none-any.whl", "url": "https://h/a", "size": 5, "hashes": {"sha256": "00"},
                 "upload-time": datetime.datetime(2024, 1, 2, 3, 4, 5, tzinfo=datetime.timezone.utc)}]},
            {"name": "b", "directory": {"path": ".", "editable": True}, "version": None},
        ],
    })

    def test_types(self):
        lock = ours.Pylock.from_dict(self.LOCK)
        self.assertEqual(lock.lock_version, pylock.Version("1.0"))
        self.assertEqual(lock.environments, [pylock.Marker("os_name == 'posix'")])
        self.assertEqual(lock.requires_python, pylock.SpecifierSet(">=3.8"))
        self.assertEqual((lock.extras, lock.dependency_groups, lock.default_groups), (["x"], ["Dev"], ["Dev"]))
        first, second = lock.packages
        self.assertEqual((first.name, str(first.version), str(first.marker)), ("a", "1.0.0rc1", 'os_name == "posix"'))
        self.assertIsInstance(first.wheels[0], ours.PackageWheel)
        self.assertEqual((first.wheels[0].size, first.wheels[0].filename), (5, "a-1.0rc1-py3-none-any.whl"))
        self.assertEqual((first.is_direct, second.is_direct), (False, True))
        self.assertEqual(second.directory, ours.PackageDirectory(path=".", editable=True))
        self.assertIsNone(second.version)

    def test_objects_as_values(self):
        lock = ours.Pylock.from_dict(self.LOCK)
        self.assertEqual(lock, ours.Pylock.from_dict(lock.to_dict()))
        self.assertEqual(pickle.loads(pickle.dumps(lock)), lock)
        self.assertEqual(copy.deepcopy(lock), lock)
        self.assertNotEqual(dataclasses.replace(lock, created_by="other"), lock)
        self.assertIn("created_by='t'", repr(lock))
        with self.assertRaises(dataclasses.FrozenInstanceError):
            lock.created_by = "x"
        table = lock.to_dict()
        table["packages"][0]["wheels"][0]["hashes"]["sha256"] = "11"
        table["tool"]["t"].append(2)
        self.assertEqual(lock, ours.Pylock.from_dict(self.LOCK))

    def test_made_by_hand(self):
        made = ours.Pylock(
            lock_version=pylock.Version("1.0"), created_by="me", environments=(pylock.Marker("os_name == 'posix'"),),
            packages=(ours.Package(name="a", vcs=ours.PackageVcs(type="git", url="https://h/a.git", commit_id="f0")),),
        )
        made.validate()
        self.assertEqual(made.to_dict(), {
            "lock-version": "1.0", "created-by": "me", "environments": ['os_name == "posix"'],
            "packages": [{"name": "a", "vcs": {"type": "git", "url": "https://h/a.git", "commit-id": "f0"}}],
        })
        self.assertEqual([source for _, source in made.select(environment=LINUX)], [made.packages[0].vcs])
        with self.assertRaises(ours.PylockValidationError) as caught:
            dataclasses.replace(made, packages=[ours.Package(name="a")]).validate()
        self.assertEqual(caught.exception.context, "packages[0]")
        with self.assertRaises(TypeError):
            ours.PackageDirectory(".")

    def test_a_class_made_from_it(self):
        class Mine(ours.Pylock):
            pass

        lock = Mine.from_dict(self.LOCK)
        self.assertIs(type(lock), Mine)
        lock.validate()
        self.assertEqual(lock.to_dict(), ours.Pylock.from_dict(self.LOCK).to_dict())

    def test_what_is_not_judged(self):
        # tables of tools and unknown keys may hold what no TOML can
        entry = {
            "name": "a", "directory": {"path": "."}, "tool": {"big": 1 << 70}, "dependencies": [{"x": object()}], "index": None,
        }
        odd = whole({"tool": {"x": object(), 5: {1, 2}, "none": None}, "unknown": b"x", "packages": [entry]})
        lock = ours.Pylock.from_dict(odd)
        self.assertIs(lock.tool, odd["tool"])
        deep = []
        for _ in range(200):
            deep = [deep]
        ours.Pylock.from_dict(whole({"tool": {"deep": deep}}))

    def test_later_version(self):
        with self.assertLogs("pylock.pylock", logging.WARNING):
            lock = ours.Pylock.from_dict(whole({"lock-version": "1.2"}))
        self.assertEqual(lock.lock_version, pylock.Version("1.2"))
        for text in ("2.0", "0.9", "3"):
            with self.assertRaises(ours.PylockUnsupportedVersionError) as caught:
                ours.Pylock.from_dict(whole({"lock-version": text}))
            self.assertIsNone(caught.exception.context)


class Errors(unittest.TestCase):
    def test_head(self):
        """What the head alone is refused for, the library refuses too, by the same word, whatever else is in the lock."""
        found = set()
        heads = itertools.product((None, 5, True, b"1.0", "1.0", "1.1", "2.0", "x"), (None, 5, ["a"], "me"))
        others = ({}, {"packages": []}, {"packages": 5}, {"packages": [{"name": "A"}]}, {"extras": ["A"]}, {"tool": {"a": 1}})
        for (version, maker), other in itertools.product(heads, others):
            given = {"lock-version": version, "created-by": maker, **other}
            table = {key: value for key, value in given.items() if value is not None}
            fault = _lock_shape.fault_of_head(table)
            if fault is not None:
                found.add(fault[0])
                wrong = _lock_shape.fault_of(table)
                self.assertEqual(fault, (wrong.path, wrong.message))
                if not isinstance(version, bytes):
                    with self.assertRaises(pylock.InvalidLock) as caught:
                        pylock.Lock(_toml.document(table))
                    self.assertEqual(caught.exception.word, fault[0])
        self.assertEqual(found, {"lock-version", "created-by"})

    def test_attributes(self):
        inner = ours.PylockValidationError("it is wrong", context="b[0]", word="head")
        self.assertEqual((inner.message, inner.context, str(inner)), ("it is wrong", "b[0]", "it is wrong in 'b[0]'"))
        outer = ours.PylockValidationError(inner, context="a")
        self.assertEqual((outer.message, outer.context, outer.word), ("it is wrong", "a.b[0]", "head"))
        self.assertEqual(ours.PylockValidationError(outer).context, "a.b[0]")
        bare = ours.PylockValidationError(ValueError("why"))
        self.assertEqual((bare.message, bare.context, str(bare)), ("why", None, "why"))
        for error in (inner, outer, bare, ours.PylockUnsupportedVersionError("x")):
            again = pickle.loads(pickle.dumps(error))
            self.assertEqual((type(again), str(again), again.context), (type(error), str(error), error.context))
            self.assertIsInstance(error, pylock.Refusal)

    def test_words(self):
        with self.assertRaises(ours.PylockValidationError) as caught:
            ours.Pylock.from_dict(whole({"packages": [{"name": "a", "sdist": {"path": "a-1.tar.gz"}}]}))
        error = caught.exception
        self.assertEqual((error.word, error.context), ("no-hash", "packages[0].sdist.hashes"))
        self.assertEqual([finding.finding for finding in error.__cause__.findings], ["no-hash"])
        with self.assertRaises(ours.PylockValidationError) as caught:
            ours.Pylock.from_dict(wheel(PLAIN, marker="extra == 'x'"))
        self.assertEqual((caught.exception.word, caught.exception.context), ("marker-extra", "packages[0].marker"))
        with self.assertRaises(TypeError):
            ours.Pylock.from_dict([])

    def test_limits(self):
        with self.assertRaises(ours.PylockValidationError) as caught:
            ours.Pylock.from_dict(whole({"packages": [{"name": "a", "directory": {"path": "."}}] * 100_001}))
        self.assertEqual(caught.exception.word, "too-many")


class Beside(unittest.TestCase):
    """The same table to both."""

    @beside
    @unittest.skipUnless(READER, "there is no reader of TOML")
    def test_examples(self):
        for name in ("pylock.toml", "audited.toml"):
            table = READER.loads(bytes_of("examples", name).decode())
            here, there = read(ours, table), read(theirs, table)
            with self.subTest(name):
                self.assertEqual(isinstance(here, Exception), isinstance(there, Exception))
                if isinstance(here, Exception):
                    self.assertEqual(here.context, there.context)
                    continue
                self.assertEqual(here.to_dict(), there.to_dict())
                for system in ("linux", "macos", "windows"):
                    environment = pylock.Environment.read(os.path.join(TOP, "examples", system + ".json"))
                    asked = {"extras": ["science"], "dependency_groups": ["test", "docs", "main"]}
                    given = dict(environment.variables), environment.tags
                    self.assertEqual(selected(ours, table, *given, **asked), selected(theirs, table, *given, **asked))

    @beside
    def test_random_sound(self):
        for seed in range(300):
            table = sound_lock(random.Random(seed))
            with self.subTest(seed=seed):
                here, there = ours.Pylock.from_dict(table), theirs.Pylock.from_dict(table)
                self.assertEqual(here.to_dict(), there.to_dict())
                self.assertEqual(list(here.to_dict()), list(there.to_dict()))
                self.assertEqual(repr(here), repr(there))
                here.validate()
                self.assertEqual(self.files(here), self.files(there))

    @staticmethod
    def files(lock):
        """The file names of wheels and sdists."""
        return [
            file.filename for package in lock.packages for file in [*(package.wheels or ()), package.sdist] if file is not None
        ]

    @beside
    def test_random_broken(self):
        # both tell of locks of 1.1
        logging.disable(logging.WARNING)
        self.addCleanup(logging.disable, logging.NOTSET)
        counts = collections.Counter()
        for seed in range(1_000):
            table, changes = broken_lock(random.Random(seed))
            here, there = read(ours, table), read(theirs, table)
            if isinstance(here, Exception) != isinstance(there, Exception):
                counts["one"] += 1
                self.assertTrue(any(self.is_known(*change) for change in changes), (seed, changes, here, there))
            elif isinstance(here, Exception):
                counts["both"] += 1
                counts["where"] += here.context == there.context
                # what is refused here alone may stand before what both refuse
                if here.context != there.context:
                    self.assertTrue(any(self.is_known(*change) for change in changes), (seed, changes, here, there))
                unsupported = isinstance(there, theirs.PylockUnsupportedVersionError)
                self.assertEqual(isinstance(here, ours.PylockUnsupportedVersionError), unsupported)
        self.assertGreater(counts["both"], 600)
        self.assertGreater(counts["where"], counts["both"] * 0.99)

    @staticmethod
    def is_known(path, wrong):
        """Whether the change is one of the rows of docs/PYTHON.md."""
        group = path[0] in ("dependency-groups", "default-groups") and (isinstance(wrong, str) or wrong == ["x y"])
        return group or path[-1] == "size" and wrong in (-1, True) or path[-1] in ("url", "path") and wrong == ""

    @beside
    def test_random_selected(self):
        counts = collections.Counter()
        for seed in range(500):
            dice = random.Random(seed)
            table = sound_lock(dice)
            environment = dice.choice([LINUX, WINDOWS, NEXT, {"python_full_version": "3.11.2"}])
            tags = dice.choice([TAGS, TAGS[::-1], PURE, TAGS[:1] + PURE, ["py9-none-any"]])
            asked = {
                "extras": dice.choice([None, [], ["science"], ["Test", "science"], ["x"]]),
                "dependency_groups": dice.choice([None, [], ["dev"], ["DEV", "doc-s"], ["unknown"], {"dev"}]),
            }
            here, there = selected(ours, table, environment, tags, **asked), selected(theirs, table, environment, tags, **asked)
            counts[isinstance(here, str)] += 1
            self.assertEqual(here, there, (seed, table, environment, tags, asked))
        self.assertGreater(min(counts.values()), 100)

    @beside
    def test_running(self):
        table = wheel(PLAIN, "a-1-py9-none-any.whl", marker="python_version >= '3.8'")
        self.assertEqual(selected(ours, table), [(0, 0)])
        self.assertEqual(selected(theirs, table), [(0, 0)])
        # no tags are the running Python's
        self.assertEqual(selected(ours, table, {}, []), selected(theirs, table, {}, []))
        for module in (ours, theirs):
            self.assertEqual(selected(module, table, {"os_name": "x"}, PURE), "KeyError")

    @beside
    def test_rows(self):
        for name, table in TAKEN_HERE.items():
            with self.subTest(name):
                self.assertEqual(len(selected(ours, table, LINUX, PURE)), 1)
                self.assertIsInstance(read(theirs, table), theirs.PylockValidationError)
        for name, table in FAILS_THERE.items():
            with self.subTest(name):
                self.assertEqual(selected(ours, table, LINUX, PURE), [(0, 0)])
                self.assertIsInstance(selected(theirs, table, LINUX, PURE), str)
        for name, (table, here, there) in OTHERWISE.items():
            with self.subTest(name):
                environment = dict(LINUX, platform_machine="1")
                self.assertEqual(selected(ours, table, environment, PURE), here)
                self.assertEqual(selected(theirs, table, environment, PURE), there)
        for name, (table, where) in REFUSED_HERE.items():
            with self.subTest(name):
                self.assertEqual(getattr(read(ours, table), "context", "taken"), where)
                self.assertIsInstance(selected(theirs, table, LINUX, PURE), list)


class Selecting(unittest.TestCase):
    GROUPS = whole({"default-groups": ["main"], "packages": [
        {"name": "a", "marker": "'main' in dependency_groups", "directory": {"path": "a"}},
        {"name": "b", "marker": "'dev' in dependency_groups", "directory": {"path": "b"}},
        {"name": "c", "marker": "'x' in extras", "directory": {"path": "c"}},
    ]})

    def names(self, **asked):
        return [package.name for package, _ in ours.Pylock.from_dict(self.GROUPS).select(environment=LINUX, **asked)]

    def test_extras_and_groups(self):
        self.assertEqual(self.names(), ["a"])
        self.assertEqual(self.names(dependency_groups=()), [])
        self.assertEqual(self.names(dependency_groups={"DEV"}, extras=["X"]), ["b", "c"])
        for asked in ({"extras": "x"}, {"dependency_groups": "dev"}):
            with self.assertRaises(TypeError):
                self.names(**asked)
        with self.assertRaises(pylock.utils.InvalidName):
            self.names(extras=["a b"])

    def test_kept_environment(self):
        lock = ours.Pylock.from_dict(wheel("a-1-cp312-cp312-win_amd64.whl", PLAIN))
        target = pylock.environment(python="3.12", platform="windows")
        self.assertEqual([source.filename for _, source in lock.select(environment=target)], ["a-1-cp312-cp312-win_amd64.whl"])
        tags = tags_of(ours, PURE)
        self.assertEqual([source.filename for _, source in lock.select(environment=target, tags=tags)], [PLAIN])

    def test_faults(self):
        sdists = {"name": "a", "directory": {"path": "."}}
        rows = [
            (whole({"requires-python": ">=4"}), "python-not-met", 0),
            (whole({"environments": ["os_name == 'nt'"]}), "no-environment", 0),
            (whole({"packages": [sdists, sdists]}), "ambiguous", 2),
            (whole({"packages": [dict(sdists, **{"requires-python": ">=4"})]}), "python-not-met", 1),
            (wheel("a-1-py9-none-any.whl"), "no-file", 1),
            (marked("os_name ~= 'x'"), "marker-undefined", 1),
        ]
        for table, word, place in rows:
            with self.subTest(word), self.assertRaises(ours.PylockSelectError) as caught:
                list(ours.Pylock.from_dict(table).select(environment=LINUX, tags=tags_of(ours, PURE)))
            self.assertEqual((caught.exception.word, caught.exception.place), (word, place))
            self.assertIsInstance(caught.exception.__cause__, pylock.PlanFault)
        self.assertIn("packages[0]", str(caught.exception))

    def test_as_the_library_says(self):
        """Where the library's whole plan of the same lock says more, it says the same."""
        for seed in range(200):
            dice = random.Random(seed)
            table = sound_lock(dice)
            lock = ours.Pylock.from_dict(table)
            kept = pylock.Environment(LINUX, TAGS)
            try:
                plan = pylock.Lock(_toml.document(table)).plan(kept, strict=True)
            except pylock.PlanFault as fault:
                with self.assertRaises(ours.PylockSelectError) as caught:
                    list(lock.select(environment=kept))
                self.assertEqual((caught.exception.word, caught.exception.place), (fault.code, fault.id))
                continue
            picks = list(lock.select(environment=kept))
            self.assertEqual(
                [(pick.name, pick.path, pick.url, pick.file) for pick in plan],
                [
                    (package.name, source.path, getattr(source, "url", None), getattr(source, "filename", None))
                    for package, source in picks
                ],
            )

    def test_on_another_thread(self):
        lock, found = ours.Pylock.from_dict(self.GROUPS), []
        threads = [threading.Thread(target=lambda: found.append(list(lock.select(environment=LINUX)))) for _ in range(4)]
        for thread in threads:
            thread.start()
        for thread in threads:
            thread.join()
        self.assertEqual(found, [[(lock.packages[0], lock.packages[0].directory)]] * 4)


class FileNames(unittest.TestCase):
    def test_as_the_library_finds_them(self):
        pieces = [
            "a-1-py3-none-any.whl", "/", "\\", "%2B", "%ff", "%", "?x=1", "#y", ";z", "https://h/", "", "file:", "\t", "\u00e9",
            "%C3%A9", ".",
        ]
        for seed in range(300):
            dice = random.Random(seed)
            file = {"hashes": {"sha256": "00"}}
            for key in ("name", "path", "url"):
                if dice.random() < (0.2 if key == "name" else 0.6):
                    file[key] = "".join(dice.choice(pieces) for _ in range(dice.randrange(4)))
            if "path" not in file and "url" not in file:
                file["url"] = "https://h/x%20y"
            table = whole({"packages": [{"name": "a", "wheels": [file]}]})
            (pick,) = pylock.Lock(_toml.document(table)).files()
            self.assertEqual(_lock_shape.file_name(file), pick.file, file)
            made = ours.PackageWheel(**file)
            if pick.file is None:
                with self.assertRaises(ours.PylockValidationError):
                    made.filename
            else:
                self.assertEqual(made.filename, pick.file)


class Text(str):
    """A text, a number, a table and a list of types of their own, which say something else of themselves."""

    def __str__(self):
        return "another"

    __repr__ = __str__


class Number(int):
    __str__ = __repr__ = Text.__str__


class Real(float):
    __str__ = __repr__ = Text.__str__


class Table(dict):
    def items(self):
        return [(key, member) for key, member in super().items() if key != "a b"]


class List(list):
    def __iter__(self):
        return iter([1, *super().__iter__()])


class Tuple(tuple):
    def __new__(cls, *members):
        return super().__new__(cls, members)


class Day(datetime.date):
    def isoformat(self):
        return "another"


class Moment(datetime.datetime):
    def isoformat(self):
        return "2024-01-01T00:00:00Z"


class Kind(enum.IntEnum):
    ONE = 1


def renamed(table):
    """Puts other keys into the table, as many as there are."""
    for key in list(table):
        table["other " + key] = table.pop(key)


ZONE = datetime.timezone(datetime.timedelta(hours=1, seconds=1))
ODD_LEAVES = [
    Text('"'), Text("\ud800"), "\udfff", Number(5), Number(1 << 64), Real(2.5), Real("nan"), Kind.ONE, 1 << 63, -(1 << 63) - 1,
    10**5_000, Day(2024, 1, 1), Moment(2024, 1, 1), datetime.datetime(2024, 1, 1, tzinfo=ZONE), datetime.time(1, tzinfo=datetime.timezone.utc),
    range(3), b"x", memoryview(b"x"), None, 1j, {1}, collections.deque([1]), collections.UserString("x"),
]
# what has these members, or these in a table
KINDS = [
    lambda members, table: members, lambda members, table: tuple(members), lambda members, table: table,
    lambda members, table: List(members), lambda members, table: Tuple(*members), lambda members, table: Table(table),
    lambda members, table: collections.OrderedDict(table), lambda members, table: collections.UserDict(table),
    lambda members, table: collections.UserList(members), lambda members, table: collections.ChainMap(table, {"z": 1}),
    lambda members, table: types.MappingProxyType(table), lambda members, table: collections.deque(members),
]


class Toml(unittest.TestCase):
    UTC = datetime.timezone.utc
    LEAVES = [
        "", "a", "\"\\\b\t\n\f\r\x00\x1f\x7f", "\u0080\u2028\ud7ff\ue000\U0010ffff", "'''", True, False, 0, -1, (1 << 63) - 1,
        -(1 << 63), 0.0, -0.5, 1e300, 5e-324, 1e16, 123456789.125, math.inf, -math.inf,
        datetime.datetime(1, 1, 1), datetime.datetime(9999, 12, 31, 23, 59, 59, 999999),
        datetime.datetime(2024, 2, 29, 1, 2, 3, 400, UTC),
        datetime.datetime(2024, 2, 29, tzinfo=datetime.timezone(datetime.timedelta(hours=-11, minutes=-30))),
        datetime.date(1, 1, 1), datetime.date(2024, 2, 29), datetime.time(1, 2, 3), datetime.time(23, 59, 59, 999999),
    ]
    KEYS = ["a", "", "a b", "a.b", "\u00e9", "\"", "\\", "\n", "\x7f", "=", "#", "null"]

    def value(self, dice, depth):
        if depth == 0 or dice.random() < 0.5:
            return dice.choice(self.LEAVES)
        if dice.random() < 0.5:
            return [self.value(dice, depth - 1) for _ in range(dice.randrange(4))]
        return {dice.choice(self.KEYS): self.value(dice, depth - 1) for _ in range(dice.randrange(4))}

    @unittest.skipUnless(READER, "there is no reader of TOML")
    def test_read_back(self):
        for seed in range(1_000):
            dice = random.Random(seed)
            table = {key: self.value(dice, 4) for key in dice.sample(self.KEYS, dice.randrange(5))}
            again = READER.loads(_toml.document(table).decode())
            self.assertEqual(again, table)
            # 1 and True, 0.0 and -0.0 are equal
            self.assertEqual(repr(again), repr(table))
        (number,) = READER.loads(_toml.document({"a": math.nan}).decode()).values()
        self.assertTrue(math.isnan(number))

    def same(self, table):
        """What both writers make of a table: the bytes, or the error."""
        return self.same_of(lambda: table)

    def same_of(self, make):
        """The same of a table that is made anew for each of them."""
        found = []
        for writer in (_toml, toml_writer):
            try:
                found.append(writer.document(make()))
            except RecursionError as error:
                found.append(type(error))
            except (TypeError, ValueError, RuntimeError) as error:
                found.append((type(error), str(error)))
        self.assertEqual(*found)
        return found[0]

    def odd(self, dice, depth):
        """A value that TOML may have or not, of types of its own."""
        if depth == 0 or dice.random() < 0.4:
            return dice.choice([*self.LEAVES, *ODD_LEAVES])
        members = [self.odd(dice, depth - 1) for _ in range(dice.randrange(4))]
        keys = [dice.choice([*self.KEYS, Text("k\x7f"), "\ud800"] + [5, None] * (dice.random() < 0.05)) for _ in members]
        return dice.choice(KINDS)(members, dict(zip(keys, members)))

    def test_as_the_writer_in_python(self):
        counts = collections.Counter()
        for seed in range(4_000):
            dice = random.Random(seed)
            table = {key: self.odd(dice, dice.randrange(4)) for key in dice.sample(self.KEYS, dice.randrange(4))}
            counts[type(self.same(dice.choice([dict, dict, Table, collections.OrderedDict])(table)))] += 1
        self.assertGreater(min(counts[bytes], counts[tuple]), 500)
        for table in (sound_lock(random.Random(seed)) for seed in range(300)):
            self.assertIsInstance(self.same(table), bytes)

    def test_texts(self):
        """Each character, and each kind of byte at each place of a word and at its ends."""
        self.same({"a": "".join(map(chr, range(0xd800))), "b": "".join(map(chr, range(0xe000, 0x11000)))})
        self.same({"a": [chr(number) for number in range(0xd700, 0xe100) if not 0xd800 <= number < 0xe000]})
        for sign in ("\x00", "\x1f", " ", "!", '"', "#", "[", "\\", "]", "~", "\x7f", "\x80", "\u00ff", "\ud800", "\udfff", "\U0010ffff"):
            for length in range(20):
                self.same({"x" * length: ["x" * place + sign + "x" * (length - place) for place in range(length + 1)]})
        self.same({"a": '"\\' * 100_000 + "\x7f" * 100_000})

    def test_numbers(self):
        dice = random.Random(1)
        for bits in range(66):
            for number in (1 << bits, (1 << bits) - 1, dice.getrandbits(bits + 1)):
                self.same({"a": number})
                self.same({"a": [-number, Number(number)]})
        for _ in range(2_000):
            (number,) = struct.unpack("d", struct.pack("Q", dice.getrandbits(64)))
            self.same({"a": [number, Real(number), dice.random() * 10.0 ** dice.randrange(30)]})

    def test_deep(self):
        def nested(value, make, depth):
            for _ in range(depth):
                value = make(value)
            return {"a": value}

        makers = [lambda value: [value], lambda value: (value,), lambda value: {"k": value}, lambda value: Table(k=value), lambda value: Tuple(value)]
        for make in makers:
            self.same(nested(1, make, 100))
            for depth in (1_000, 100_000):
                with self.assertRaises(RecursionError):
                    _toml.document(nested(1, make, depth))
        cyclic = {"list": []}
        cyclic["list"].append(cyclic)
        with self.assertRaises(RecursionError):
            _toml.document(cyclic)
        # what isn't judged may be so
        self.assertIs(ours.Pylock.from_dict(whole({"tool": cyclic})).tool, cyclic)
        with self.assertRaises(ours.PylockValidationError) as caught:
            ours.Pylock.from_dict(whole({"created-by": cyclic}))
        self.assertEqual(caught.exception.context, "created-by")

    def test_changed_meanwhile(self):
        """A table or a list that one of its members changes ends as Python's own iterator ends."""
        class Changing(datetime.datetime):
            def isoformat(self):
                change(holders[-1])
                return "2024-01-01"

        def holder(make):
            holders.append(make())
            return holders[-1]

        def table():
            return {"first": Changing(2024, 1, 1), "middle": "x" * 100, "last": "y" * 100}

        def numbers():
            return [Changing(2024, 1, 1), "x" * 100, "y" * 100]

        holders, found = [], set()
        for change in (dict.clear, dict.popitem, lambda table: table.update(new=1), lambda table: table.update(last=[1]), renamed,
                       lambda table: [renamed(table) for _ in range(9)], lambda table: table.update(first=1)):
            for make in (lambda: holder(table), lambda: {"a": holder(table)}, lambda: {"a": [holder(table), 1]}):
                found.add(type(self.same_of(make)))
        for change in (list.clear, list.pop, lambda numbers: len(numbers) < 9 and numbers.append("new"), lambda numbers: len(numbers) < 9 and numbers.insert(0, 5)):
            found.add(type(self.same_of(lambda: {"a": holder(numbers), "b": 1})))
        self.assertEqual(found, {bytes, tuple})

    @unittest.skipUnless(hasattr(signal, "setitimer"), "there are no timers")
    def test_interrupted(self):
        class Endless(collections.abc.Sequence):
            __len__ = __getitem__ = None

            def __iter__(self):
                return itertools.repeat(5)

        def handler(number, frame):
            raise KeyboardInterrupt

        before = signal.signal(signal.SIGALRM, handler)
        signal.setitimer(signal.ITIMER_REAL, 0.1)
        try:
            self.assertRaises(KeyboardInterrupt, _toml.document, {"a": Endless()})
        finally:
            signal.setitimer(signal.ITIMER_REAL, 0)
            signal.signal(signal.SIGALRM, before)

    def test_types_made_from_those_of_toml(self):
        mapping = collections.OrderedDict([("a", Text("x"))])
        table = {
            "m": mapping, "n": Number(5), "t": ("a",), "u": collections.UserList([1]), "c": collections.ChainMap({"z": 1}),
        }
        self.assertEqual(_toml.document(table), b'"m"={"a"="x"}\n"n"=5\n"t"=["a"]\n"u"=[1]\n"c"={"z"=1}\n')

    def test_refused(self):
        offset = datetime.timezone(datetime.timedelta(seconds=1))
        rows = [
            (TypeError, None), (TypeError, b"x"), (TypeError, {1}), (TypeError, object()), (TypeError, {1: 2}),
            (TypeError, {None: 2}),
            (ValueError, 1 << 63), (ValueError, -(1 << 63) - 1), (ValueError, datetime.datetime(2024, 1, 1, tzinfo=offset)),
            (ValueError, datetime.time(1, tzinfo=self.UTC)), (TypeError, 1j),
        ]
        for error, wrong in rows:
            with self.subTest(repr(wrong)), self.assertRaises(error):
                _toml.document({"a": [wrong]})


if __name__ == "__main__":
    unittest.main()
