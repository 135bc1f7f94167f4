"""The compiled part tried hard: wrong arguments, long and odd texts, classes that are made from its own, the collector, threads,
signals, forks, interpreters beside the first, modules that end before their objects, and the end of the interpreter."""

import gc
import importlib.util
import os
import pickle
import signal
import subprocess
import sys
import threading
import time
import unittest
import weakref

import native_calls
from native_calls import ENVIRONMENT, LOCK
from support import MODULE

import pylock
from pylock import _native

REFUSED = (TypeError, AttributeError, ValueError, OverflowError, ZeroDivisionError)
TEXTS = ("", "\0", "1\0", "1.0\0", "\ud800", "a\udfff", "é", "\U0001f600", "1." * 400, "-", "a-b-c", "\n", "\t\\")


class Odd:
    """An object that can't be asked whether it is true."""

    def __bool__(self):
        raise ZeroDivisionError

    __hash__ = None


class Text(str):
    """A text with a will of its own."""

    def lower(self):
        return 5

    def __str__(self):
        return self

    def __eq__(self, other):
        raise ZeroDivisionError

    def __hash__(self):
        raise ZeroDivisionError


class Free(_native.Version):
    """Has a dict, and can be referred to weakly."""


class FreeTag(_native.Tag):
    pass


ODDS = (None, True, -1, 2**100, 1.5, "", "1.0", "\ud800", "a\0b", Text("1.0"), b"", b"\xff", bytearray(b"x"), [], ("x",), {}, {1: 2},
        {"os_name": 1}, {"os_name": "\ud800"}, {"x": None}, Odd(), object, len,
        _native.Version("1"), _native.Tag("a", "b", "c"), Free.__new__(Free, "1"), _native.Set(""), Ellipsis)


def new_module():
    """Another module of the same file, with a state of its own."""
    spec = importlib.util.spec_from_file_location("pylock._native", _native.__file__)
    module = importlib.util.module_from_spec(spec)
    spec.loader.exec_module(module)
    return module


def callables():
    """Each function of the module, and each method of its types, by its name."""
    keep = ("use_refusals", "use_version", "use_tag")
    for name in dir(_native):
        value = getattr(_native, name)
        if name in keep or name.startswith("__") or not callable(value):
            continue
        yield name, value
        for part, method in sorted(vars(value).items()) if isinstance(value, type) else ():
            if callable(method) and part != "__new__":
                yield "%s.%s" % (name, part), method


class Arguments(unittest.TestCase):
    def told(self, name, call, *arguments, **named):
        """A call ends with a result, or an error of the module's."""
        try:
            call(*arguments, **named)
        except REFUSED:
            pass

    def test_each_function(self):
        tried = 0
        for name, call in callables():
            self.told(name, call)
            with self.assertRaises(REFUSED, msg=name):
                call("1", no_such_argument="1")
            for odd in ODDS:
                for arguments in ((odd,), (odd, odd), ("x", odd), (b"", odd), (odd, "x", "x"), (b"{}", b"{}", odd), (odd,) * 9):
                    self.told(name, call, *arguments)
                    tried += 1
        self.assertGreater(tried, 10_000)

    def test_types(self):
        """What takes a text takes nothing else."""
        for name in ("version_key", "version_record", "phase", "canonicalize_version", "canonicalize_name", "is_normalized_name",
                     "is_name", "parse_tag", "parse_wheel_filename", "parse_sdist_filename", "requirement", "requirement_parts", "wheel", "sdist",
                     "requirement_expected", "marker_expected", "set_expected", "specifier_expected", "specifiers", "Version", "Specifier",
                     "Marker"):
            for odd in (None, 1, b"1", [], {}, object(), Odd()):
                with self.assertRaises(TypeError, msg=(name, odd)):
                    getattr(_native, name)(odd)
        # a set takes specifiers too
        for odd in (None, 1, b"1", [1], {None: ">=1"}, object(), Odd(), [">=1", [">=1"]]):
            self.assertRaises(TypeError, _native.Set, odd)
        for name in ("environment_read", "environment_message", "lock_message", "lock_head"):
            for odd in (None, 1, "1", bytearray(b"x"), [], Odd()):
                with self.assertRaises(TypeError, msg=(name, odd)):
                    getattr(_native, name)(odd)
        # what takes bytes, or a tuple of them, takes nothing else
        for odd in (None, 1, "1", bytearray(b"x"), memoryview(b"x"), [], Odd()):
            for call, arguments in (
                (_native.run_program, (odd, (), b"")), (_native.run_program, ((), odd, b"")), (_native.run_program, ((), (), odd)),
                (_native.run_program, ((b"x", odd), (), b"")), (_native.select_asked, (odd,)), (_native.run_start, (odd, ENVIRONMENT, False)),
                (_native.run_start, (LOCK, odd, False)), (native_calls.run().feed, (False, odd)),
            ):
                with self.assertRaises(TypeError, msg=(call, odd)):
                    call(*arguments)
        for call in (lambda: _native.run_start(LOCK, ENVIRONMENT, Odd()), lambda: native_calls.run().feed(Odd(), b""), lambda: native_calls.run().end(Odd())):
            self.assertRaises(ZeroDivisionError, call)

    def test_joined(self):
        """Many words, long ones, empty ones, and classes that are made from `bytes` and `tuple`."""

        class Bytes(bytes):
            def __len__(self):
                return 5

        class Words(tuple):
            def __len__(self):
                return 99

            def __getitem__(self, place):
                return 1 // 0

            __iter__ = None

        size = int(os.environ.get("NATIVE_SIZE", "10000000"))
        for words, wanted in (
            ((b"pylock", b"name", b"A_b"), b"a-b\n"), (Words([b"pylock", b"name", b"A_b"]), b"a-b\n"), ((b"pylock", b"name", Bytes(b"A_b")), b"a-b\n"),
            ((b"pylock", b"name", b"a" * size), b"a" * size + b"\n"), ((b"pylock", b"name", b"--", b""), b"refused\tname\n"),
        ):
            self.assertEqual(_native.run_program(words, (), b"")[1], wanted)
        self.assertEqual(_native.run_program((b"pylock", *[b""] * 10_000, b"x" * 100), (), b"")[0], 2)
        files = tuple(part for number in range(10_000) for part in (b"%d" % number, b"x" * (number % 7)))
        self.assertEqual(_native.run_program(native_calls.words("files lock"), files + (b"lock", LOCK, b"lock", b"x"), b"")[0], 0)
        self.assertEqual(_native.run_program(native_calls.words("files -"), files, LOCK)[0], 0)
        self.assertIsNone(_native.select_asked((b"pylock", *[b"x"] * 10_000)))
        self.assertEqual(_native.select_asked(native_calls.words("select a\\b - --json")), None)
        self.assertEqual(_native.select_asked((b"pylock", b"select", b"a\\b\tc\n-", b"\xc3\xa9", b"--json")), ("a\\b\tc\n-", "\xe9", None, None, None, "json"))

    def test_methods(self):
        one, kept = _native.Set(">=1"), native_calls.environment()
        started, marker = native_calls.session(), _native.Marker("os_name == 'nt'")
        specifier, layers = native_calls.of_set(">=1"), native_calls.layers()
        for odd in ODDS:
            for call in (one.admits, one._passes, one.contains, one._joined, one._subset, one._disjoint, one.__init__, kept.add_extra, kept.add_group, started.edit, started.answer, started.explain,
                         lambda odd: marker._value_in(odd, None), lambda odd: marker._value_in(kept, odd),
                         specifier.admits, specifier._passes, specifier.contains, lambda odd: marker._value_over(odd, None, None, False),
                         lambda odd: marker._value_over(layers, odd, odd, odd), marker.__and__, marker.__or__, marker._disjoint, marker._implied, marker.__eq__, marker.__lt__,
                         marker._read, lambda odd: setattr(marker, "_tree", odd), marker.__deepcopy__, marker.__init__,
                         lambda odd: marker._value_over(layers, {"os_name": odd, "extra": odd}, None, True),
                         lambda odd: marker._value_over(layers, {odd if type(odd) is str else "x": odd}, odd, True),
                         lambda odd: started.edit("set", None, odd, odd), lambda odd: started.edit("del", odd),
                         lambda odd: started.edit(odd, odd, odd)):
                self.told("method", call, odd)
        self.assertEqual(len(started.answer(True)), 2)
        self.assertEqual(started.edit("del", 2**32 + 1), started.edit("del", 99))

    def test_not_made(self):
        for kind in (_native.Environment, _native.Session, _native.Run, type(native_calls.session().owner)):
            for make in (kind, lambda kind=kind: object.__new__(kind), lambda kind=kind: kind.__new__(kind)):
                self.assertRaises(TypeError, make)
        for kind in (_native.Version, _native.Tag, _native.Set, _native.Marker, _native.Specifier, _native.Layers):
            self.assertRaises(TypeError, object.__new__, kind)
        for odd in ODDS:
            for call in (_native.use_version, _native.use_tag, _native.use_specifier, _native.use_set, _native.use_marker,
                         _native.use_abstract):
                self.assertRaises(TypeError, call, odd)

    def test_refusals_of_another(self):
        """What makes exceptions may give anything."""
        module = new_module()
        self.assertRaises(RuntimeError, module.Version, "x")
        for maker in (5, lambda *given: None, lambda *given: ValueError, lambda *given: 1 // 0, lambda *given: SystemExit("x")):
            module.use_refusals(maker, maker)
            for call in (module.Version, module.Set, module.Marker, module.wheel, lambda text: module.lock_head(text.encode())):
                self.assertRaises((TypeError, SystemError, ZeroDivisionError, SystemExit), call, "?")


class Texts(unittest.TestCase):
    CALLS = (_native.Version, _native.Set, _native.Marker, _native.version_key, _native.version_record, _native.phase, _native.parse_tag,
             _native.canonicalize_version, _native.canonicalize_name, _native.is_normalized_name, _native.is_name,
             _native.parse_wheel_filename, _native.parse_sdist_filename, _native.requirement, _native.requirement_parts, _native.wheel, _native.sdist,
             _native.requirement_expected, _native.marker_expected, _native.set_expected, _native.specifier_expected,
             _native.specifiers, _native.Specifier)

    def test_odd(self):
        environment, one = native_calls.environment(), _native.Set(">=1")
        marker, layers = _native.Marker("os_name == 'nt' or extra == 'x'"), native_calls.layers()

        def laid(mapping, extra):
            return marker._value_over(layers, mapping, extra, True)

        for text in TEXTS:
            for call in (*self.CALLS, one.admits, one._passes, environment.add_extra, environment.add_group,
                         lambda text: _native.environment_of({text: text}), lambda text: laid({"os_name": text}, None), lambda text: laid({}, text),
                         lambda text: str(_native.specifiers(text)), lambda text: _native.environment_target(text, text)):
                try:
                    call(text)
                except ValueError as error:
                    self.assertIsInstance(error, pylock.Refusal, (call, text))
            # a text of a class that is made from str counts by its letters
            self.assertEqual(_native.is_name(Text(text)), _native.is_name(text))
        tag = _native.Tag(Text("PY3"), Text("none"), Text("any"))
        self.assertEqual((tag, str(tag), type(tag.interpreter)), (_native.Tag("py3", "none", "any"), "py3-none-any", str))

    def test_long(self):
        """Ten million bytes, or as many as NATIVE_SIZE says."""
        size = int(os.environ.get("NATIVE_SIZE", "10000000"))
        for text in ("1." + "0." * (size // 2) + "0", "a" * size, "A-_." * (size // 4), "1.0+" + "a" * size, "é" * (size // 2), " " * size,
                     "9" * size, ">=1," * (size // 4) + "<2", "a-1-" + "0" * size, "os_name == '%s'" % ("x" * size), "(" * size):
            for call in self.CALLS:
                try:
                    result = call(text)
                except ValueError:
                    continue
                if isinstance(result, _native.Version):
                    self.assertEqual(hash(result), hash(_native.Version(text)))
                    self.assertTrue(str(result) and result == _native.Version(text) and result.release)
        for json in (b"[" * size, b'{"environment":{"os_name":"' + b"x" * size + b'"},"tags":[]}', b"{" * size, b"a = '" + b"x" * size):
            for call in (_native.environment_read, _native.lock_head, _native.lock_message):
                try:
                    call(json)
                except ValueError:
                    pass

    def test_half_a_character(self):
        tag = _native.Tag("P\ud800", "none", "any")
        self.assertEqual((tag.interpreter, str(tag)), ("p\ud800", "p\ud800-none-any"))
        self.assertRaises(pylock.tags.InvalidTag, _native.parse_tag, "P\ud800-none-any")


class Classes(unittest.TestCase):
    def test_without_init(self):
        class Late(_native.Version):
            def __init__(self, *given):
                pass

        late = Late(1, 2, 3)
        for part in native_calls.PARTS:
            # what has no value isn't there, as in `packaging`; what is private here asks for the text
            self.assertRaises(ValueError if part in ("_given", "_key") else AttributeError, getattr, late, part)
        for call in (str, repr, hash, lambda one: one == _native.Version("1"), lambda one: _native.Version("1") < one,
                     _native.canonicalize_version, _native.Set("").admits):
            self.assertRaises(ValueError, call, late)
        self.assertRaises(AttributeError, _native.phase, late)
        self.assertRaises(pylock.InvalidVersion, _native.Version.__init__, late, "x")
        self.assertRaises(TypeError, _native.Version.__init__, late, 5)
        _native.Version.__init__(late, native_calls.LONG)
        self.assertRaises(TypeError, _native.Version.__init__, late, "1.0")
        self.assertEqual(late, _native.Version(native_calls.LONG))

    def test_with_new(self):
        class Other(_native.Version):
            def __new__(cls, text):
                return super().__new__(cls, text) if text != "5" else 5

        self.assertEqual((Other("5"), Other("1").major, type(Other("1"))), (5, 1, Other))

    def test_as_results(self):
        """A class of which results are made, and that lets go of itself in odd ways."""
        module, ended = new_module(), []

        class Noted(module.Version):
            def __del__(self):
                ended.append(str(self))
                module.parse_wheel_filename("a-%s-py3-none-any.whl" % (len(ended) % 3)) if len(ended) < 20 else None

        class NotedTag(module.Tag):
            def __del__(self):
                ended.append(str(self))

        module.use_version(Noted)
        module.use_tag(NotedTag)
        for number in range(100):
            self.assertIs(type(module.parse_wheel_filename("a-%d-py%d-none-any.whl" % (number, number))[1]), Noted)
        module.use_tag(module.Tag)
        self.assertGreaterEqual(len(ended), 200)
        Noted.__init__ = lambda self, *given: 1 // 0
        self.assertEqual(str(module.parse_wheel_filename("a-7-py3-none-any.whl")[1]), "7")

    def test_tags_again(self):
        """The memory of tags is used again, as long as their module has their type."""
        for _ in range(3):
            module = new_module()
            kept = [module.Tag("p%d" % number, "n", "a") for number in range(200)]
            del kept[::2]
            kept += [module.Tag("q%d" % number, "n", "a") for number in range(200)]
            self.assertEqual((len(kept), len({str(one) for one in kept}), len(set(kept))), (300, 300, 300))
            module.itself = module, kept[:5], [FreeTag("a", "b", "c")]
            del module
            gc.collect()
            del kept[:250]
            kept.append(type(kept[0])("r", "n", "a"))
            self.assertEqual({(one.abi, one.platform) for one in kept}, {("n", "a")})
            kept.append(kept)
            del kept
            gc.collect()

    def test_cycles(self):
        """The collector finds objects that hold themselves."""
        for make in (lambda: Free("1.0"), lambda: FreeTag("a", "b", "c")):
            one = make()
            one.itself, one.kind = [one], type(one)
            gone = weakref.ref(one)
            del one
            gc.collect()
            self.assertIsNone(gone())
        for number in range(50):
            kind = type("Kind%d" % number, (_native.Version,), {})
            kind.one = kind("1")
            kind.one.fields = kind.one.release, kind.one.public
            gone = weakref.ref(kind)
            del kind
        gc.collect()
        self.assertIsNone(gone())

    def test_specifiers_in_cycles(self):
        class FreeSpecifier(_native.Specifier):
            pass

        for name in ("_forced", "_exact", "more"):
            one = FreeSpecifier(">=1")
            setattr(one, name, [one])
            gone = weakref.ref(one)
            del one
            gc.collect()
            self.assertIsNone(gone(), name)

    def test_specifiers_in_a_row(self):
        """Each of a million holds the next."""
        gc.disable()
        for kind, name, count in ((_native.Specifier, "_forced", 1_000_000), (_native.Specifier, "_exact", 10_000), (pylock.Specifier, "_forced", 10_000),
                                  (_native.Set, "_forced", 1_000_000), (_native.Set, "_exact", 10_000), (pylock.SpecifierSet, "_forced", 10_000)):
            one = None
            for _ in range(count):
                holder = kind.__new__(kind)
                setattr(holder, name, one)
                one = holder
            one = holder = None
        gc.enable()
        self.assertEqual(str(_native.Specifier("<2")), "<2")

    def test_class_of_a_kept_tag(self):
        """Whoever gives a tag another class has that tag alone of it."""

        class Other(_native.Tag):
            __slots__ = ()

        for text in ("py3-none-other", "py2.py3-none-other"):
            for one in _native.parse_tag(text):
                one.__class__ = Other
            self.assertEqual({type(one) for one in _native.parse_tag(text)}, {_native.Tag})
            self.assertEqual({type(one) for one in _native.parse_wheel_filename("a-1-%s.whl" % text)[3]}, {_native.Tag})
            self.assertEqual({type(one) for one in pylock.parse_tag(text)}, {pylock.Tag})

    def test_made_of_another_class(self):
        """Attributes are given to an object of the class that was asked for alone."""

        class Meta(type):
            pass

        for given in (int, _native.Tag("a", "b", "c"), 5, None, threading, Meta("Given", (), {})):
            class Odd:
                def __new__(cls, given=given):
                    return given

            with self.assertRaises(TypeError, msg=given):
                _native.made(Odd, {"pylock_name": "pylock_name"}, {"pylock_name": 1})
            self.assertFalse(hasattr(given, "pylock_name"))
        Of = type("Of", (Meta,), {"__new__": lambda cls: type.__new__(cls, "Of", (), {})})
        for kind in (Of, type("OfModule", (type(threading),), {}), Meta, type):
            with self.assertRaises(TypeError):
                _native.made(kind, {"a": "a"}, {"a": 1})

    def test_specifier_again(self):
        """A specifier that is read again while what it had is given up."""
        one = _native.Specifier(">=1")

        class Reader:
            def __del__(self):
                one.__init__("<5")
                one.admits("1")

        for number in range(3):
            one._forced, one._exact = Reader(), [Reader()]
            one.__init__("==%d" % number, True)
            self.assertEqual((str(one), one.admits(str(number)), one.admits("7")), ("==%d" % number, True, False))
            self.assertRaises(pylock.InvalidSpecifier, one.__init__, "?")
            self.assertEqual(str(one), "==%d" % number)

    def test_resurrected(self):
        kept = []

        class Again(_native.Version):
            def __del__(self):
                kept.append(self)

        for number in range(3):
            Again("1.%d" % number)
        self.assertEqual([one.minor for one in kept], [0, 1, 2])

    def test_pickles(self):
        for one in (pylock.Version("1.0-RC1"), pylock.Tag("A", "b", "c"), pylock.Version(native_calls.LONG)):
            self.assertEqual(pickle.loads(pickle.dumps(one)), one)
        for one in (native_calls.session(), native_calls.environment(), _native.Set(">=1"), _native.Marker("os_name == 'a'")):
            self.assertRaises(TypeError, pickle.dumps, one)

    def test_of_another_layout(self):
        """The class of an object is changed to one of the same kind alone."""
        for one, kind in ((_native.Set(""), _native.Marker), (_native.Marker("os_name == 'a'"), _native.Set), (Free("1"), FreeTag),
                          (native_calls.environment(), _native.Marker)):
            with self.assertRaises(TypeError):
                one.__class__ = kind


class Modules(unittest.TestCase):
    def test_given_up(self):
        """A module of which nothing stays is collected with its types, of each of which there was an object."""
        text = """
import gc, weakref, native_hard
gone = []
for _ in range(5):
    module = native_hard.new_module()
    module.kept = [module.Version("1.0.0-RC1"), module.Tag("a", "b", "c"), module.Set(">=1"), module.Marker("os_name == 'nt'"),
                   module.environment_of({"os_name": "nt"}), *module.parse_wheel_filename("a-1-py3-none-any.whl"), module.Layers({"os_name": "nt"}),
                   module.Set(">=1")._joined(module.Set("<2")).filter(["1"]), *module.specifiers(">=2"), type("Sub", (module.Version,), {})("1"),
                   module.requirement_parts("a; os_name == 'nt'")[4], type("Sub", (module.Specifier,), {"__slots__": ()})("<1")]
    module.kept[-1]._forced = module.kept[0].release, module
    module.kept[-2]._tree = module, module.kept[-2].__and__(module.kept[3])
    gone += map(weakref.ref, {module, *map(type, module.kept[:4])} | {type(module.kept[-1]), module.Specifier, module.Layers})
    del module
    gc.collect()
assert len(gone) == 40 and not any(one() for one in gone), [one() for one in gone]
"""
        ended = subprocess.run([sys.executable, "-c", text], stdout=subprocess.PIPE, stderr=subprocess.STDOUT, env=alone(), timeout=100)
        self.assertEqual((ended.returncode, ended.stdout), (0, b""))

    def test_collected(self):
        """A module and what it made are given up together; of objects that stay, their module stays."""
        for _ in range(5):
            module = new_module()
            kept = [module.Version("1.0.0-RC1"), module.Tag("a", "b", "c"), module.Set(">=1"), module.Marker("os_name == 'nt'"),
                    module.environment_of({"os_name": "nt"}), module.session_start(LOCK, ENVIRONMENT), *module.parse_wheel_filename("a-1-py3-none-any.whl"),
                    *module.run_start(LOCK, ENVIRONMENT, False), module.Layers({"os_name": "nt"}), *module.specifiers(">=2")]
            gone = weakref.ref(module)
            del module
            gc.collect()
            self.assertIsNotNone(gone())
            self.assertTrue(kept[3]._value_in(kept[4], None) and kept[2].admits(kept[0]) is False and len(kept[5].answer(True)) == 2)
            self.assertEqual((str(kept[0]), kept[-4].feed(False, b"show\n")), ("1.0.0rc1", kept[-3]))
            self.assertTrue(kept[-1].admits("5") and kept[3]._value_over(kept[-2], None, None, False))
            # the thread has an object that holds the module, until it ends
            del kept
        gc.collect()

    def test_of_two(self):
        module = new_module()
        one, other = _native.Version("1"), module.Version("1")
        self.assertNotEqual(one, other)
        self.assertRaises(TypeError, lambda: one < other)
        self.assertRaises(TypeError, _native.Set("").admits, other)
        self.assertRaises(TypeError, _native.Set("")._subset, module.Set(""))
        self.assertRaises(TypeError, _native.Marker("os_name == 'a'")._implied, module.Marker("os_name == 'a'"))
        self.assertRaises(TypeError, _native.Marker("os_name == 'a'")._value_in, module.environment_of({}), None)
        self.assertRaises(TypeError, _native.use_version, module.Version)

    def test_taken_apart(self):
        """What runs while the collector takes a module apart finds it whole, or is told."""
        text = """
import gc, sys
sys.path.insert(0, %r); sys.path.insert(0, %r)
import native_hard
from native_calls import LOCK, ENVIRONMENT
heard = []
for order in range(40):
    module = native_hard.new_module()
    kept = [module.Version("1.0.0-RC1"), module.Version("2"), module.Set(">=1"), module.Marker("os_name == 'nt'"), module.environment_of({"os_name": "nt"}),
            module.Tag("a", "b", "c"), module.parse_wheel_filename("a-1-py3-none-any.whl")[1], module.Layers({"os_name": "nt"}), module.specifiers(">=2")[0]]
    def late(self, kept=kept, module=module, calls=(module.parse_wheel_filename, module.parse_tag, module.environment_of, module.environment_read,
             module.session_start, module.phase, module.use_tag, module.use_version, module.Version, module.Tag, module.Set, module.Marker,
             module.Specifier, module.specifiers, module.Layers, module.use_specifier, module.use_set, module.run_start, module.run_program, module.select_asked)):
        for call, given in (
            (lambda: kept[0] < kept[1], ()), (hash, (kept[6],)), (str, (kept[0],)), (kept[2].admits, (kept[0],)), (kept[2].admits, ("x",)),
            (kept[3]._value_in, (kept[4], None)), (str, (kept[5],)), (lambda: kept[5] == kept[5], ()), (calls[0], ("a-1-py2.py3-none-any.whl",)),
            (calls[1], ("py2.py3-none-any",)), (calls[2], ({"os_name": "x"},)), (calls[3], (ENVIRONMENT,)), (calls[4], (LOCK, ENVIRONMENT)),
            (calls[5], ("1rc1",)), (calls[6], (kept[5].__class__,)), (calls[7], (kept[0].__class__,)), (calls[8], ("1",)), (calls[8], ("x",)),
            (calls[9], ("a", "b", "c")), (calls[10], (">=1",)), (calls[10], ("?",)), (calls[11], ("os_name == 'a'",)), (repr, (kept[0],)),
            (kept[3]._value_over, (kept[7], {"os_name": "x", "extra": "y"}, None, True)), (kept[8].admits, ("1",)), (hash, (kept[8],)),
            (calls[12], (">=1",)), (calls[12], ("?",)), (calls[13], (">=1,<2",)), (calls[14], ({"os_name": "x"},)), (calls[15], (kept[8].__class__,)),
            (calls[16], (kept[2].__class__,)), (calls[17], (LOCK, ENVIRONMENT, True)), (calls[18], ((b"pylock", b"name", b"a"), (), b"")),
            (calls[19], ((b"pylock", b"select", b"a", b"b"),)), (calls[17], (b"x", ENVIRONMENT, True)), (kept[2]._joined, (kept[2],)), (kept[2]._joined, ("<2",)),
            (kept[2]._subset, (kept[2],)), (kept[3]._implied, (kept[3],)), (list, (kept[2],)), (str, (kept[2],)),
        ):
            try: call(*given)
            except Exception as error: heard.append(type(error).__name__)
        heard.append("late")
    # without a dict the collector doesn't know of it, and it ends in the midst
    kind = type("Late", (), {"__slots__": (), "__del__": late})
    holder = [[] for _ in range(order)]
    holder.append(kind())
    module.holder = holder
    if order %% 2: module.itself = module
    kept.append(kept)
    del kept, module, late, kind, holder
    gc.collect()
print(sorted(set(heard)))
""" % (MODULE, os.path.dirname(os.path.abspath(__file__)))
        ended = subprocess.run([sys.executable, "-c", text], stdout=subprocess.PIPE, stderr=subprocess.STDOUT, env=alone(), timeout=100)
        self.assertEqual(ended.returncode, 0, ended.stdout[-2000:])
        self.assertIn(b"late", ended.stdout)


def alone():
    """The environment of a process of its own."""
    return dict(os.environ, PYTHONPATH=os.pathsep.join([MODULE, os.path.dirname(os.path.abspath(__file__))]))


class Running(unittest.TestCase):
    def test_threads(self):
        """Eight threads with the same objects, and the collector in between."""
        before = sys.getswitchinterval()
        sys.setswitchinterval(1e-5)
        started, problems = native_calls.session(), []
        one, marker, environment = _native.Set(">=1,<3"), _native.Marker("os_name == 'posix' and 'x' not in extras"), native_calls.environment()

        def run(seed, shared):
            for turn in range(60):
                for number, version in enumerate(shared):
                    answers = (one.admits(version), str(version), hash(version) == hash(str(version)) or version == type(version)(str(version)),
                               version.release, version.is_prerelease, marker._value_in(environment, None), str(new_tags[turn]))
                    if answers != (number % 4 in (1, 2), "%d.%drc1" % (number % 4, number), True, (number % 4, number), True, True, "p%d-n-a" % turn):
                        problems.append(answers)
                environment.add_group("g%d" % (turn % 3))
                try:
                    started.answer(True)
                    problems.append("answered")
                except RuntimeError:
                    pass
                mine = native_calls.session()
                mine.edit("set", None, "os_name", "x")
                others.append(mine)
                if turn % 10 == 0:
                    gc.collect()
                    others.clear()

        new_tags, others = [_native.Tag("P%d" % number, "n", "a") for number in range(60)], []
        shared = [pylock.Version("%d.%d-RC1" % (number % 4, number)) for number in range(8)]
        threads = [threading.Thread(target=run, args=(seed, shared)) for seed in range(8)]
        for thread in threads:
            thread.start()
        for thread in threads:
            thread.join()
        sys.setswitchinterval(before)
        others.clear()
        self.assertEqual(problems, [])
        self.assertEqual(len(started.answer(True)), 2)

    @unittest.skipUnless(hasattr(signal, "setitimer"), "there are no timers")
    def test_signals(self):
        """A handler calls the module while calls run."""
        heard, started = [], native_calls.session()
        version, environment = pylock.Version("1.0-RC1"), pylock.Environment({"os_name": "posix"}, [])
        # a handler that is called while a module is imported doesn't find what that has
        marker, parse_wheel = pylock.Marker, pylock.parse_wheel_filename

        def handler(number, frame):
            heard.append((str(pylock.Version("1.%d" % len(heard))), version.pre, marker("os_name == 'posix'").evaluate(environment),
                          len(started.answer(True)), parse_wheel("a-1-py3-none-any.whl")[0]))
            gc.collect(0)

        before = signal.signal(signal.SIGALRM, handler)
        signal.setitimer(signal.ITIMER_REAL, 0.001, 0.001)
        end = time.monotonic() + 1.0
        try:
            while time.monotonic() < end:
                started.edit("set", None, "os_name", "nt")
                _native.audit(LOCK, True)
                started.answer(True)
                for text in ("1.x", "1.0"):
                    try:
                        pylock.Version(text).release
                    except ValueError:
                        pass
        finally:
            signal.setitimer(signal.ITIMER_REAL, 0)
            signal.signal(signal.SIGALRM, before)
        self.assertGreater(len(heard), 5)
        self.assertEqual(set(one[1:] for one in heard), {(("rc", 1), True, 2, "a")})

    @unittest.skipUnless(hasattr(signal, "setitimer"), "there are no timers")
    def test_interrupted(self):
        """A text that means more tags than anybody waits for can be interrupted."""
        text = "-".join(".".join("%d" % number for number in range(150)) for _ in range(3))

        def handler(number, frame):
            raise KeyboardInterrupt

        before = signal.signal(signal.SIGALRM, handler)
        signal.setitimer(signal.ITIMER_REAL, 0.2)
        start = time.monotonic()
        try:
            self.assertRaises(KeyboardInterrupt, _native.parse_tag, text)
        finally:
            signal.setitimer(signal.ITIMER_REAL, 0)
            signal.signal(signal.SIGALRM, before)
        self.assertLess(time.monotonic() - start, 10)

    @unittest.skipUnless(hasattr(os, "fork"), "there is no fork")
    def test_fork(self):
        """A process without other threads forks: the child goes on with what it has."""
        text = """
import os, sys
import native_calls, pylock
version, started, environment = pylock.Version("1.0-RC1"), native_calls.session(), pylock.Environment({"os_name": "posix"}, [])
marker = pylock.Marker("os_name == 'posix'")
def use():
    assert version.pre == ("rc", 1) and len(started.answer(True)) == 2 and marker.evaluate(environment)
    assert started.edit("set", None, "os_name", "x") >= 0 and native_calls.session().judged() == "0\\t1\\t2\\t3", native_calls.session().judged()
child = os.fork()
if child == 0:
    use(); sys.exit(0)
use()
sys.exit(os.waitpid(child, 0)[1] != 0)
"""
        ended = subprocess.run([sys.executable, "-c", text], stdout=subprocess.PIPE, stderr=subprocess.STDOUT, env=alone(), timeout=100)
        self.assertEqual((ended.returncode, ended.stdout), (0, b""))


INSIDE = """
import sys
sys.path[:0] = %r
import native_calls, native_hard, pylock, gc
assert str(pylock.Version("1.0-RC1")) == "1.0rc1" and pylock.Version("1") < pylock.Version("2")
assert "1.5" in pylock.SpecifierSet(">=1,<2") and pylock.Marker("os_name == 'x'").evaluate({"os_name": "x"})
assert len(native_calls.session().answer(True)) == 2
for turn in range(2):
    for row in native_calls.rows():
        try: row.function(*row.make())
        except Exception as error: assert row.error is not None, (row.name, error)
        else: assert row.error is None, row.name
pylock.kept = pylock, native_calls.session()
gc.collect()
"""


class Interpreters(unittest.TestCase):
    def run_beside(self, create, at_once):
        """Imports and uses the module in several interpreters, in turn, and at once where they have locks of their own."""
        text = """
import threading, native_calls
try:
    import _interpreters as interpreters
except ImportError:
    import _xxsubinterpreters as interpreters
inside = %r
def run(one):
    told = interpreters.run_string(one, inside)
    assert told is None, told
for turn in range(2):
    one = %s
    run(one)
    native_calls.session().answer(True)
    interpreters.destroy(one)
several = [%s for _ in range(3 * %d)]
failed = []
def hold(one):
    try: run(one)
    except BaseException as error: failed.append(repr(error))
threads = [threading.Thread(target=hold, args=(one,)) for one in several]
for thread in threads: thread.start()
for thread in threads: thread.join()
for one in several: interpreters.destroy(one)
assert not failed, failed
""" % (INSIDE % [MODULE, os.path.dirname(os.path.abspath(__file__))], create, create, at_once)
        ended = subprocess.run([sys.executable, "-c", text], stdout=subprocess.PIPE, stderr=subprocess.STDOUT, env=alone(), timeout=100)
        self.assertEqual((ended.returncode, ended.stdout), (0, b""))

    def test_of_one_lock(self):
        name = "legacy" if sys.version_info >= (3, 13) else None
        self.run_beside("interpreters.create(%r)" % name if name else "interpreters.create(isolated=False)" if sys.version_info >= (3, 9)
                        else "interpreters.create()", False)

    @unittest.skipUnless(sys.version_info >= (3, 13), "the module is for interpreters with their own locks from Python 3.13 on")
    def test_of_their_own_locks(self):
        self.run_beside("interpreters.create('isolated')", True)

    @unittest.skipUnless(sys.version_info[:2] == (3, 12), "other Pythons have no such interpreters, or take the module into them")
    def test_refused_by_their_own_locks(self):
        text = """
import native_calls, _xxsubinterpreters as interpreters
for turn in range(2):
    one = interpreters.create(isolated=True)
    try: interpreters.run_string(one, "import sys; sys.path[:0] = %r; import pylock._native")
    except interpreters.RunFailedError as error: assert "ImportError" in str(error), error
    else: raise SystemExit("taken")
    interpreters.destroy(one)
    assert len(native_calls.session().answer(True)) == 2
""" % [MODULE]
        ended = subprocess.run([sys.executable, "-c", text], stdout=subprocess.PIPE, stderr=subprocess.STDOUT, env=alone(), timeout=100)
        self.assertEqual((ended.returncode, ended.stdout), (0, b""))


class Ends(unittest.TestCase):
    def test_end(self):
        """The interpreter ends with objects of each kind alive, in cycles, in threads, and used while it ends."""
        text = """
import gc, sys, threading, atexit
import native_calls, native_hard, pylock
from pylock import _native
gc.disable()
other = native_hard.new_module()
def everything(module):
    return [module.Version("1.0-RC1"), module.Tag("a", "b", "c"), module.Set(">=1"), module.Marker("os_name == 'a'"), module.environment_of({}),
            module.session_start(native_calls.LOCK, native_calls.ENVIRONMENT), module.parse_wheel_filename("a-1-py3-none-any.whl"),
            module.run_start(native_calls.LOCK, native_calls.ENVIRONMENT, True)[0]]
class Late:
    def __init__(self, module): self.kept = everything(module); self.module = module; self.itself = self
    def __del__(self, len=len, str=str, everything=everything):
        len(self.kept[5].answer(True)); self.kept[7].feed(True, b"show\\n"); str(self.kept[0]); everything(self.module)
sys.late = Late(_native); sys.other = Late(other); builtins = __import__("builtins"); builtins.late = Late(other)
class Sub(_native.Version):
    def __del__(self): self.release, str(self), self < self
one = Sub("1"); one.itself = one; sys.one = one; del one
local = threading.local(); local.kept = everything(other)
def run():
    local.kept = everything(_native); held.append(everything(other)); held[-1].append(held)
held = []
threads = [threading.Thread(target=run) for _ in range(3)]
for thread in threads: thread.start()
for thread in threads: thread.join()
stop = threading.Event()
def forever():
    while True: everything(_native); _native.audit(native_calls.LOCK, True); _native.run_program(native_calls.words("plan lock environment"), native_calls.FILES, b"")
threading.Thread(target=forever, daemon=True).start()
atexit.register(everything, other)
"""
        for _ in range(3):
            ended = subprocess.run([sys.executable, "-c", text], stdout=subprocess.PIPE, stderr=subprocess.STDOUT, env=alone(), timeout=100)
            self.assertEqual((ended.returncode, ended.stdout), (0, b""))


if __name__ == "__main__":
    unittest.main()
