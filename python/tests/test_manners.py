"""Refusals, wrong types, copies, pickles, closing, and the end of the interpreter."""

import copy
import json
import os
import pickle
import shutil
import subprocess
import sys
import tempfile
import threading
import unittest

from support import MODULE, PYTHON, refused

import pylock
from pylock import _library

LOCK = b"""
lock-version = "1.0"
created-by = "t"
extras = ["X_y", "x-y", "z"]
dependency-groups = ["Dev", "doc"]
default-groups = ["main"]
requires-python = ">= 3.8"
environments = ["sys_platform == 'linux'", "sys_platform == 'win32'"]
packages = [
    {name = "a", version = "1", wheels = [{path = "w/a-1-py3-none-any.whl", hashes = {sha256 = "00"}}], sdist = {url = "https://h/a-1.tar.gz"}},
    {name = "b", marker = "'x-y' in extras", directory = {path = "b", editable = true, subdirectory = "s"}},
    {name = "c", marker = "'main' in dependency_groups", vcs = {type = "git", url = "https://h/c.git", commit-id = "f0"}},
    {name = "d", marker = "'dev' in dependency_groups", archive = {path = "d.zip"}},
]
"""
LINUX = {"sys_platform": "linux", "python_full_version": "3.12.4"}


def linux(tags=("py3-none-any",)):
    return pylock.Environment(LINUX, tags)


UNCHANGING = [
    pylock.Version("1.0-RC1"),
    pylock.Marker("os_name=='nt' or extra == 'x'"),
    pylock.Tag("py3", "none", "any"),
]
ASSIGNED = [
    (pylock.Specifier(">= 1.0"), "prereleases", True),
    (pylock.Specifier(">=1.0", prereleases=True), "prereleases", False),
    (pylock.SpecifierSet(">=1.0, <2"), "prereleases", False),
    (pylock.SpecifierSet("", prereleases=False), "prereleases", True),
    (pylock.Requirement("A_b[x] >=1 ; os_name == 'nt'"), "extras", {"y"}),
]


class Quoted(str):
    """A text that says otherwise how it is shown."""

    def __repr__(self):
        return "<%s>" % self


class Refusals(unittest.TestCase):
    def test_words(self):
        for call, text, error, word in (
            (pylock.Version, "1.x", pylock.InvalidVersion, "syntax"),
            (pylock.Version, str(2**128), pylock.InvalidVersion, "number"),
            (pylock.version_key, "x", pylock.InvalidVersion, "syntax"),
            (pylock.SpecifierSet, ">=x", pylock.InvalidSpecifier, "syntax"),
            (pylock.SpecifierSet, "<%d" % 2**128, pylock.InvalidSpecifier, "number"),
            (pylock.Specifier, ">=1,<2", pylock.InvalidSpecifier, "syntax"),
            (pylock.Marker, "os_name", pylock.InvalidMarker, "syntax"),
            (pylock.Marker, "(" * 65, pylock.InvalidMarker, "too-deep"),
            (pylock.Marker, "extras == 'a'", pylock.InvalidMarker, "set-misuse"),
            (pylock.Requirement, "-a", pylock.InvalidRequirement, "name"),
            (pylock.Requirement, "a[b", pylock.InvalidRequirement, "extras"),
            (pylock.Requirement, "a x", pylock.InvalidRequirement, "specifier"),
            (pylock.Requirement, "a @", pylock.InvalidRequirement, "url"),
            (pylock.Requirement, "a ;", pylock.InvalidRequirement, "marker"),
            (pylock.Requirement, "a @ u v", pylock.InvalidRequirement, "trailing"),
            (pylock.parse_wheel_filename, "a.zip", pylock.InvalidWheelFilename, "extension"),
            (pylock.parse_wheel_filename, "a.whl", pylock.InvalidWheelFilename, "parts"),
            (pylock.parse_wheel_filename, "a__b-1-py3-none-any.whl", pylock.InvalidWheelFilename, "name"),
            (pylock.parse_wheel_filename, "a-x-py3-none-any.whl", pylock.InvalidWheelFilename, "version"),
            (pylock.parse_wheel_filename, "a-1-x-py3-none-any.whl", pylock.InvalidWheelFilename, "build"),
            (pylock.parse_wheel_filename, "a-1-py3..py2-none-any.whl", pylock.InvalidWheelFilename, "tags"),
            (pylock.parse_sdist_filename, "a-1.tar", pylock.InvalidSdistFilename, "extension"),
            (pylock.parse_sdist_filename, "a.tar.gz", pylock.InvalidSdistFilename, "parts"),
            (pylock.parse_sdist_filename, "-1.zip", pylock.InvalidSdistFilename, "name"),
            (pylock.parse_sdist_filename, "a-x.zip", pylock.InvalidSdistFilename, "version"),
            (pylock.parse_tag, "py3", pylock.InvalidTag, "tag"),
        ):
            with self.subTest(text[:40]):
                with refused(self, error, word) as caught:
                    call(text)
                self.assertIsInstance(caught.exception, ValueError)
                self.assertIsInstance(caught.exception, pylock.Refusal)
                self.assertTrue(str(caught.exception))
                # what points at the place in a text has that, and looks for the place when it is shown
                points = error in (pylock.InvalidSpecifier, pylock.InvalidMarker, pylock.InvalidRequirement)
                source = {"source": text} if points else {}
                self.assertEqual(vars(caught.exception), {"word": word, **source})
                self.assertIsNone(caught.exception.place)
                (message,) = caught.exception.args
                self.assertEqual(str(caught.exception).endswith("^") if points else str(caught.exception), points or message)
                again = pickle.loads(pickle.dumps(caught.exception))
                self.assertEqual((type(again), str(again), again.word), (error, str(caught.exception), word))

    def test_asked_in_any_order(self):
        """What an exception tells is made when it is asked for: whatever comes first, and by copies."""
        asks = (
            str, repr, lambda error: error.args, lambda error: error.word, lambda error: error.source, lambda error: error.place,
            lambda error: str(pickle.loads(pickle.dumps(error))), lambda error: copy.copy(error).source,
            lambda error: copy.deepcopy(error).word, lambda error: pickle.loads(pickle.dumps(error, 0)).args,
        )

        def raised():
            with refused(self, pylock.InvalidSpecifier) as caught:
                pylock.Specifier("=>1")
            return caught.exception

        wanted = [ask(raised()) for ask in asks]
        self.assertEqual(wanted[1:6], ["InvalidSpecifier(\"Invalid specifier: '=>1'\")", ("Invalid specifier: '=>1'",), "syntax", "=>1", None])
        for first in asks:
            error = raised()
            first(error)
            self.assertEqual([ask(error) for ask in asks], wanted)
        error = raised()
        error.word = "mine"
        self.assertEqual((error.word, error.source), ("mine", "=>1"))
        error = raised()
        error.args = ("a", 1)
        self.assertEqual((error.args, error.word, error.source), (("a", 1), "syntax", "=>1"))
        for kind in (pylock.InvalidSpecifier, pylock.InvalidVersion):
            self.assertEqual((kind.word, kind.place), ("", None))
        self.assertIsNone(pylock.InvalidSpecifier.source)
        with refused(self, pylock.UnsortedTagsError, "tag-order") as caught:
            pylock.parse_tag("py3.py2-none-any", validate_order=True)
        self.assertEqual(caught.exception.args, ("Unsorted tag: 'py3.py2' is to be 'py2.py3'",))

    def test_messages(self):
        """A message has the text as its `repr` is, of a long one the beginning."""
        for text in ("x", "x'y", 'x"y', "x\\y", "x\n", "x\x7f", "\xe9", "\u0100", "\U0001f600", "x" * 200, "x" * 201, "'" * 300, "\xe9" * 600, Quoted("x")):
            shown = repr(text if len(text) <= 200 else text[:200] + "...")
            with refused(self, pylock.InvalidVersion, "syntax") as caught:
                pylock.Version(text)
            self.assertEqual(str(caught.exception), "Invalid version: " + shown)
            with refused(self, pylock.InvalidWheelFilename, "extension") as caught:
                pylock.parse_wheel_filename(text)
            self.assertEqual(str(caught.exception), "Invalid wheel filename: %s (extension must be '.whl')" % shown)
            with refused(self, pylock.InvalidName, "name") as caught:
                pylock.canonicalize_name(text + "-", validate=True)
            self.assertTrue(str(caught.exception).startswith("name is invalid: "))

    def test_half_a_character(self):
        for call, error in (
            (pylock.Version, pylock.InvalidVersion), (pylock.SpecifierSet, pylock.InvalidSpecifier), (pylock.Marker, pylock.InvalidMarker),
            (pylock.Requirement, pylock.InvalidRequirement), (pylock.parse_wheel_filename, pylock.InvalidWheelFilename),
            (pylock.parse_sdist_filename, pylock.InvalidSdistFilename),
        ):
            with refused(self, error, "syntax"):
                call("1\ud800")
        self.assertFalse(pylock.is_normalized_name("a\ud800"))
        with refused(self, pylock.InvalidName, "syntax"):
            pylock.canonicalize_name("a\ud800")
        with refused(self, pylock.InvalidName, "syntax"):
            pylock.Marker("extra == 'a'").evaluate(extra="\ud800")
        with refused(self, pylock.InvalidName, "syntax"):
            pylock.Marker("'a' in extras").evaluate({"extras": ["\ud800"]})

    def test_markers(self):
        for text, error, word in (
            ("os_name == 'nt'", pylock.UndefinedEnvironmentName, "marker-unset"), ("extra == 'a'", pylock.MarkerFault, "marker-extra"),
            ("'a' ~= 'b'", pylock.UndefinedComparison, "marker-undefined"), ("'%d' < '1'" % 2**128, pylock.MarkerFault, "marker-number"),
        ):
            with refused(self, error, word):
                pylock.Marker(text).evaluate_exactly({})
        with refused(self, pylock.UndefinedComparison, "marker-undefined"):
            pylock.Marker("extra < 'a'").evaluate(extra="b")

    def test_locks(self):
        with refused(self, pylock.InvalidLock, "entry", 1) as caught:
            pylock.Lock.read(LOCK.replace(b"'x-y' in extras", b"x").replace(b'name = "a", version = "1"', b'name = "a", version = 1'))
        self.assertEqual(caught.exception.words, ("entry", "1", "version"))
        with refused(self, pylock.InvalidLock, "head", "extras") as caught:
            pylock.Lock.read(LOCK.replace(b'["X_y"', b'["-"'))
        self.assertEqual(caught.exception.words, ("head", "extras"))
        with refused(self, pylock.InvalidLock, "not-text"):
            pylock.Lock.read(b"\xff")
        with refused(self, pylock.InvalidEnvironment, "tag", 2):
            pylock.Environment({}, ["py3-none-any", "py3"])
        with refused(self, pylock.InvalidEnvironment, "json"):
            pylock.Environment.read(b"{")
        with refused(self, pylock.InvalidEnvironment, "shape"):
            pylock.Lock.read(LOCK).plan({"environment": {}})
        with self.assertRaises(OSError):
            pylock.Lock.read("/no/such/lock")

    def test_options(self):
        lock = pylock.Lock.read(LOCK)
        for options, word in (
            ({"extras": ["w"]}, "extra"), ({"groups": ["w"]}, "group"), ({"without_groups": ["w"]}, "group"),
            ({"policies": [("-", "wheel")]}, "name"), ({"policies": [("a", "both")]}, "argument"), ({"variables": {"os.name": "x"}}, "variable"),
        ):
            with refused(self, pylock.InvalidEdit, word):
                lock.plan(linux(), **options)
            # a refused question leaves nothing behind
            self.assertEqual([pick.name for pick in lock.plan(linux())], ["a", "c"])

    def test_session_unchanged(self):
        session = pylock.Session(LOCK, linux())
        before = session.answer(), session.explain(), session.judged
        for edit, word in (
            (lambda: session.set("os.name", "x"), "variable"), (lambda: session.unset("x"), "variable"), (lambda: session.add_extra("w"), "extra"),
            (lambda: session.drop_group("w"), "group"), (lambda: session.tags(["py3"]), "tag"), (lambda: session.tags([""]), "tag"),
            (lambda: session.tags(["a-b-c\nd-e-f"]), "tag"), (lambda: session.add("5"), "toml"), (lambda: session.add('{name="-"}'), "entry"),
            (lambda: session.put(9, '{name="a"}'), "no-entry"), (lambda: session.put(-1, '{name="a"}'), "no-entry"),
            (lambda: session.delete(2**32 + 1), "no-entry"), (lambda: session.policy("a", "both"), "argument"),
            (lambda: session.policy("-", "any"), "name"), (lambda: session.line("fly"), "command"), (lambda: session.line("del x"), "argument"),
            (lambda: session.line(""), "command"), (lambda: session.line("show \ud800"), "syntax"),
        ):
            with refused(self, pylock.InvalidEdit, word):
                edit()
            self.assertEqual((session.answer(), session.explain(), session.judged), before)

    def test_types(self):
        for call in (pylock.Version, pylock.SpecifierSet, pylock.Marker, pylock.Requirement, pylock.canonicalize_name, pylock.parse_wheel_filename):
            for wrong in (1, None, b"1"):
                with self.subTest((call, wrong)), self.assertRaises(TypeError):
                    call(wrong)
        lock, session = pylock.Lock.read(LOCK), pylock.Session(LOCK, linux())
        marker = pylock.Marker("os_name == 'nt'")
        for call in (
            lambda: 1 in pylock.SpecifierSet(">=1"), lambda: pylock.SpecifierSet(">=1").admits(None), lambda: pylock.Version("1") < "1",
            lambda: lock.plan(5), lambda: lock.plan("x"), lambda: lock.plan(linux(), extras="x"), lambda: pylock.Lock.read(5),
            lambda: lock.plan(linux(), extra=["x"]), lambda: lock.explain(linux(), policies="x"), lambda: lock.explain(linux(), []),
            lambda: pylock.Session("x", linux()), lambda: pylock.Session(LOCK, None), lambda: session.set(1, "x"), lambda: session.set("os_name", 1), lambda: session.set("os_name", -1),
            lambda: session.put("1", "x"), lambda: session.delete(True), lambda: session.tags("py3-none-any"), lambda: session.add(None),
            lambda: marker.evaluate(5), lambda: marker.evaluate({"os_name": 5}), lambda: marker.evaluate(lock), lambda: marker.evaluate_exactly(session),
            lambda: marker.evaluate(pylock.SpecifierSet("")), lambda: pylock.Environment({"os_name": 1}), lambda: pylock.Environment({}, "py3-none-any"),
        ):
            with self.assertRaises(TypeError):
                call()


class Copies(unittest.TestCase):
    def pickled(self, one):
        """A pickle gives an equal object of the class."""
        for protocol in range(pickle.HIGHEST_PROTOCOL + 1):
            again = pickle.loads(pickle.dumps(one, protocol))
            self.assertEqual((again, type(again), str(again), hash(again)), (one, type(one), str(one), hash(one)))

    def test_unchanging(self):
        for one in UNCHANGING:
            with self.subTest(repr(one)):
                for copied in (copy.copy(one), copy.deepcopy([one])[0]):
                    self.assertEqual(copied, one)
                    # the tree of a marker, which is private, may be changed
                    self.assertIs(copied is one, not isinstance(one, pylock.Marker))
                self.pickled(one)
                with self.assertRaises(AttributeError):
                    one.anything = 1

    def test_assigned(self):
        """What can be assigned changes no copy."""
        for one, name, value in ASSIGNED:
            with self.subTest(repr(one)):
                self.pickled(one)
                copies = copy.copy(one), copy.deepcopy([one])[0], pickle.loads(pickle.dumps(one))
                before = getattr(one, name), repr(one), hash(one)
                setattr(one, name, value)
                self.assertEqual(getattr(one, name), value)
                self.assertNotEqual(repr(one), before[1])
                for copied in copies:
                    self.assertEqual((getattr(copied, name), repr(copied), hash(copied)), before)
                self.pickled(one)
                self.assertEqual(getattr(pickle.loads(pickle.dumps(one)), name), value)
                if not isinstance(one, pylock.Requirement):
                    with self.assertRaises(AttributeError):
                        one.anything = 1

    def test_of_a_thread(self):
        for one in (pylock.Lock.read(LOCK), pylock.Session(LOCK, linux()), linux()):
            for call in (copy.copy, copy.deepcopy, pickle.dumps):
                with self.subTest((type(one), call)), self.assertRaisesRegex(TypeError, "can't be copied or pickled"):
                    call(one)

    def test_environment_fixed(self):
        environment = linux()
        for change in (
            lambda: environment.update({}), lambda: environment.__setitem__("tags", []), lambda: environment.pop("tags"), environment.clear,
            lambda: environment.variables.update(os_name="x"), lambda: environment.setdefault("x", 1), lambda: environment.popitem(),
            lambda: environment.__delitem__("tags"),
        ):
            with self.assertRaises(TypeError):
                change()
        self.assertEqual(json.loads(json.dumps(environment)), {"environment": LINUX, "tags": ["py3-none-any"]})
        self.assertEqual(pylock.Environment.read(json.dumps(environment).encode()), environment)


class Threads(unittest.TestCase):
    def elsewhere(self, call):
        """What a call raises on another thread."""
        raised = []

        def run():
            try:
                call()
            except BaseException as error:
                raised.append(error)

        thread = threading.Thread(target=run)
        thread.start()
        thread.join()
        return raised

    def test_wrong_thread(self):
        lock, session = pylock.Lock.read(LOCK), pylock.Session(LOCK, linux())
        for call in (
            lambda: lock.plan(linux()), lambda: lock.explain(linux()), lock.files, lock.audit, lambda: lock.packages, lambda: lock.extras,
            lambda: lock.check(b"", linux()), lambda: lock.status(linux(), []), lambda: lock.created_by, session.answer, session.explain, lambda: session.judged, lambda: session.set("os_name", "x"), session.close,
        ):
            raised = self.elsewhere(call)
            self.assertEqual([type(error) for error in raised], [pylock.WrongThread])
        self.assertEqual(len(session.answer()), 2)

    def test_let_go_elsewhere(self):
        """A session that another thread lets go of is freed on its own thread, or after its end."""
        holder = [pylock.Session(LOCK, linux())]
        owner = holder[0]._kept.owner
        self.assertEqual(self.elsewhere(holder.clear), [])
        self.assertEqual(owner.graves, 1)
        pylock.Session(LOCK, linux())
        self.assertEqual(owner.graves, 0)
        made = []
        self.assertEqual(self.elsewhere(lambda: made.append(pylock.Session(LOCK, linux()))), [])
        made.clear()

    def test_run_elsewhere(self):
        """A run stays on its thread as a session does, and shares what the thread has."""
        kept, first = _library.run_start(LOCK, linux()._json, False)
        for call in (lambda: _library.run_feed(kept, False, b"show\n"), lambda: _library.run_end(kept, False)):
            self.assertEqual([type(error) for error in self.elsewhere(call)], [RuntimeError])
        self.assertEqual(_library.run_feed(kept, False, b"show\n"), first)
        holder, owner = [_library.run_start(LOCK, linux()._json, True)[0]], kept.owner
        self.assertEqual((self.elsewhere(holder.clear), owner.graves), ([], 1))
        self.assertIs(pylock.Session(LOCK, linux())._kept.owner, owner)
        self.assertEqual(owner.graves, 0)

    def test_of_a_thread_that_ended(self):
        """Threads that begin later have the number of one that ended, and not what it had."""
        made, raised = [], []

        def make():
            made.append((threading.get_ident(), pylock.Session(LOCK, linux()), pylock.Lock.read(LOCK)))

        def use():
            for number, session, lock in made:
                if number == threading.get_ident():
                    for call in (session.answer, session._kept.judged, lambda lock=lock: lock.plan(linux()), lambda lock=lock: lock.extras):
                        try:
                            raised.append(call())
                        except RuntimeError as error:
                            raised.append(type(error).__name__)

        for _ in range(20):
            self.assertEqual(self.elsewhere(make), [])
            self.assertEqual(self.elsewhere(use), [])
        self.assertEqual(set(map(repr, raised)) - {"'WrongThread'", "'RuntimeError'"}, set())
        if sys.platform == "linux":
            self.assertNotEqual(raised, [])

    def test_shared(self):
        versions = pylock.SpecifierSet(">=1.0,!=1.5.*,<3")
        one = pylock.Version("1.4+x")
        marker = pylock.Marker("python_version >= '3.8' and (sys_platform == 'linux' or extra == 'a')")
        environment = pylock.Environment({"python_version": "3.12", "sys_platform": "linux"})
        problems = []

        def run(seed):
            for turn in range(300):
                text = "%d.%d" % (seed % 4, turn % 9)
                expected = 1 <= seed % 4 < 3 and not (seed % 4 == 1 and turn % 9 == 5)
                answers = (
                    versions.contains(text), one in versions, marker.evaluate(environment), marker.evaluate({"sys_platform": "x%d" % (turn % 70)}, extra="b"),
                    str(pylock.Version("%d.%d" % (seed, turn))), str(one), len(versions), str(marker),
                )
                if answers[:4] != (expected, True, True, False) or answers[4] != "%d.%d" % (seed, turn):
                    problems.append((seed, turn, answers))

        threads = [threading.Thread(target=run, args=(seed,)) for seed in range(8)]
        for thread in threads:
            thread.start()
        for thread in threads:
            thread.join()
        self.assertEqual(problems, [])


class Ends(unittest.TestCase):
    def test_closed(self):
        with pylock.Session(LOCK, linux()) as session:
            self.assertEqual(len(session.answer()), 2)
        for call in (session.answer, session.explain, lambda: session.judged, lambda: session.set("os_name", "x")):
            with self.assertRaises(ValueError):
                call()
        session.close()

    def test_another_kind(self):
        """An object of another kind doesn't reach the library."""
        marker, versions = pylock.Marker("os_name == 'nt'"), pylock.SpecifierSet(">=1")
        with self.assertRaises(TypeError):
            marker.evaluate(marker)
        with self.assertRaises(TypeError):
            marker.evaluate(versions)
        with self.assertRaises(TypeError):
            versions.contains(versions)

    def run_python(self, text, **more):
        environment = dict(os.environ, PYTHONPATH=MODULE, **more)
        return subprocess.run([sys.executable, "-W", "error", "-c", text], env=environment, stdout=subprocess.PIPE, stderr=subprocess.STDOUT)

    def test_end_of_the_interpreter(self):
        text = """
import sys, threading, pylock
kept = [pylock.Version("1"), pylock.SpecifierSet(">=1"), pylock.Marker("extra == 'x'"), pylock.Requirement("a"), pylock.Environment({}, []),
        pylock.Lock.read(%r), pylock.Session(%r, pylock.environment())]
kept[2].evaluate(extra="x")
kept.append(kept)
sys.modules["__main__"].cycle = sys
class Late:
    def __init__(self): self.version = pylock.Version
    def __del__(self): self.version("1.0").release
late = Late()
sys.kept = kept
sys.late = late
thread = threading.Thread(target=lambda: kept.append(pylock.Session(%r, pylock.Environment({}, []))))
thread.start(); thread.join()
""" % (LOCK, LOCK, LOCK)
        ended = self.run_python(text)
        self.assertEqual((ended.returncode, ended.stdout), (0, b""))

    def test_not_compiled(self):
        """Without its compiled part the import fails with a sentence."""
        with tempfile.TemporaryDirectory() as folder:
            shutil.copytree(os.path.join(PYTHON, "pylock"), os.path.join(folder, "pylock"), ignore=shutil.ignore_patterns("*.so"))
            environment = dict(os.environ, PYTHONPATH=folder)
            ended = subprocess.run([sys.executable, "-c", "import pylock"], env=environment, stdout=subprocess.PIPE, stderr=subprocess.STDOUT)
        self.assertEqual(ended.returncode, 1)
        self.assertIn(b"ImportError: pylock: there is no compiled module", ended.stdout)


if __name__ == "__main__":
    unittest.main()
