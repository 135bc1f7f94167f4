"""Memory stays level over a hundred thousand objects of each kind, and what is joined takes no more than its sides."""

import copy
import gc
import os
import pickle
import sys
import tracemalloc
import unittest

from peer import needs, peer
from support import refused
from test_manners import LOCK, linux

import pylock


def resident():
    """The bytes of memory that the process has now."""
    with open("/proc/self/statm") as file:
        return int(file.read().split()[1]) * os.sysconf("SC_PAGE_SIZE")


@unittest.skipUnless(sys.platform == "linux", "it is told by /proc")
class Memory(unittest.TestCase):
    def level(self, make, count):
        for number in range(count // 10):
            make(number)
        gc.collect()
        before = resident()
        for number in range(count):
            make(number)
        gc.collect()
        self.assertLess(resident() - before, 4_000_000)

    def test_versions(self):
        self.level(lambda number: str(pylock.Version("1.%d+x" % number)), 100_000)

    def test_sets(self):
        self.level(lambda number: pylock.SpecifierSet(">=1.%d,<3" % number).contains("2.0"), 100_000)

    @needs(peer("specifiers"))
    def test_beside_theirs(self):
        """Sets of one to five specifiers have no more of Python's memory than those of `packaging`."""
        pieces = (">=1.%d", "<2", "!=1.5.*", "!=1.6", "~=1.0")
        texts = [",".join(pieces[: number % 5 + 1]) % number for number in range(100)]
        for ask in (lambda one: None, len, str, hash, lambda one: "1.9" in one, lambda one: one.prereleases):
            taken = []
            for kind in (pylock.SpecifierSet, peer("specifiers").SpecifierSet):
                ask(kind(texts[-1]))
                gc.collect()
                tracemalloc.start()
                made = [kind(text) for text in texts]
                for one in made:
                    ask(one)
                gc.collect()
                taken.append(tracemalloc.get_traced_memory()[0])
                tracemalloc.stop()
                del made, one
            self.assertLessEqual(*taken)

    def test_joined_sets(self):
        self.level(lambda number: str(pylock.SpecifierSet(">=1.%d" % number) & "<3" & pylock.SpecifierSet("!=2")), 50_000)

    def test_markers(self):
        self.level(lambda number: pylock.Marker("os_name == '%d' or extra == 'x'" % number).evaluate({"os_name": str(number % 100)}), 100_000)

    def test_joined(self):
        one, other = pylock.Marker("os_name == 'a'"), pylock.Marker("extra == 'x' or os_name == 'b'")
        self.level(lambda number: (one & other, str(one | other), (other & one).evaluate()), 30_000)

    def test_requirements(self):
        self.level(lambda number: str(pylock.Requirement("a[b]>=1.%d; os_name == 'nt'" % number)), 100_000)

    def test_wheels(self):
        self.level(lambda number: pylock.parse_wheel_filename("a-1.%d-py2.py3-none-any.whl" % number), 50_000)

    def test_refusals(self):
        def refuse(number):
            for call in (pylock.Version, pylock.SpecifierSet, pylock.Marker, pylock.Requirement):
                try:
                    call("?%d" % number)
                except ValueError:
                    pass

        self.level(refuse, 25_000)

    def test_environments(self):
        self.level(lambda number: pylock.Environment({"os_name": str(number)}, ["py3-none-any"]), 20_000)

    def test_long_texts(self):
        """What is kept for the next time is bound by its size too."""
        size = 1_000_000
        marker, before = pylock.Marker("os_name == 'nt' or 'x' in extras"), resident()
        for number in range(40):
            long = "%dx" % number + "y" * size
            pylock.parse_tag("py3-none-" + long)
            pylock.parse_wheel_filename("a-1-py3-none-%s.whl" % long)
            marker.evaluate({"os_name": long, "extras": ()})
            marker.evaluate({"os_name": "posix", "more": long, "extras": ["x"]})
            marker.evaluate({"os_name": "posix", long: "more", "extras": [long]})
        gc.collect()
        self.assertLess(resident() - before, 30 * size)

    def test_sessions(self):
        environment = linux()

        def start(number):
            session = pylock.Session(LOCK, environment)
            session.set("os_name", str(number))
            session.answer()

        self.level(start, 5_000)
        session = pylock.Session(LOCK, environment)

        def edit(number):
            session.set("sys_platform", "linux" if number % 2 else "win32")
            session.put(2, '{name = "b", version = "%d", directory = {path = "b"}}' % number)
            session.answer()

        self.level(edit, 10_000)


def chain(count, right=False):
    """So many comparisons, each joined with all before it."""
    marker, one = pylock.Marker("os_name == '0'"), pylock.Marker("os_name == '1'")
    for _ in range(count - 1):
        marker = one | marker if right else marker & one
    return marker


class Joined(unittest.TestCase):
    """Markers that are joined have their sides, and no text until they are asked for something."""

    ASKED = (str, repr, hash, pickle.dumps, lambda one: one == one, lambda one: one.text, lambda one: one.evaluate(),
             lambda one: one.evaluate_exactly({}), lambda one: one.evaluate({"os_name": "x"}, "lock_file"), lambda one: one._markers,
             lambda one: str(copy.copy(one)), lambda one: str(one & one))

    def test_depth(self):
        """A text with 64 open parentheses is the deepest."""
        for right in (False, True):
            self.assertEqual(str(chain(66, right)).count("("), 64)
            self.assertIs(chain(66, right).evaluate({"os_name": "1"}), right)
            for count in (67, 5_000):
                deep = chain(count, right)
                for ask in self.ASKED:
                    with refused(self, pylock.InvalidMarker, "too-deep"):
                        ask(deep)
        nested = pylock.Marker("(" * 64 + "os_name == '0'" + ")" * 64)
        self.assertEqual(str(nested & nested), 'os_name == "0" and os_name == "0"')
        nested = pylock.Marker("".join(["os_name == '%d' and (" % number for number in range(64)]) + "os_name == 'x' or os_name == 'y'" + ")" * 64)
        with refused(self, pylock.InvalidMarker, "too-deep"):
            str(nested & nested)

    def test_long(self):
        """Joining doesn't go through what is joined, and the end of it doesn't go down into it."""
        for right in (False, True):
            chain(200_000, right)
        shared = pylock.Marker("os_name == '0'")
        for _ in range(100_000):
            shared = shared & shared

    def test_shared(self):
        shared = pylock.Marker("os_name == 'é'")
        for _ in range(10):
            shared = shared | shared
        self.assertEqual(str(shared).count("os_name"), 1024)
        for _ in range(50):
            shared = shared & shared
        with self.assertRaises(MemoryError):
            str(shared)

    def test_sides(self):
        """What becomes of a side later isn't said by what was joined."""
        one, other = pylock.Marker("os_name == 'a'"), pylock.Marker("os_name == 'b'")
        both, again = one & other, one | one
        one._markers.extend(["or", *other._markers])
        other.__init__("extra == 'x'")
        self.assertEqual((str(both), str(again)), ('os_name == "a" and os_name == "b"', 'os_name == "a" or os_name == "a"'))
        # what was changed before is
        self.assertEqual(str(one & other), '(os_name == "a" or os_name == "b") and extra == "x"')
        copied = copy.copy(both)
        both._markers[1:2] = ["or"]
        self.assertEqual((str(both), str(copied)), ('os_name == "a" or os_name == "b"', 'os_name == "a" and os_name == "b"'))
        one._markers.clear()
        with refused(self, pylock.InvalidMarker, "syntax"):
            str(one & other)


class Sizes(unittest.TestCase):
    """What an object takes, beside that of `packaging`."""

    def size(self, make, texts):
        make(texts[0])
        gc.collect()
        tracemalloc.start()
        try:
            kept = [make(text) for text in texts]
            return tracemalloc.get_traced_memory()[0] / len(kept)
        finally:
            tracemalloc.stop()

    @needs(peer("markers"))
    def test_markers(self):
        for form in ("os_name == '%d'", "python_version >= '3.%d' and os_name == 'nt'"):
            texts = [form % number for number in range(200)]
            for asked in (lambda marker: marker, lambda marker: (marker, str(marker)), lambda marker: marker & marker):
                ours, theirs = [self.size(lambda text, kind=kind: asked(kind(text)), texts) for kind in (pylock.Marker, peer("markers").Marker)]
                self.assertLess(ours, theirs)

    @needs(peer("requirements"))
    def test_requirements(self):
        for form in ("name>=1.%d", "name[a,b]>=1.%d,<2", "name[a]>=1.%d; python_version >= '3.8'", "name; os_name == '%d'"):
            texts = [form % number for number in range(200)]
            for asked in (lambda one: one, lambda one: (one, one.name, one.url, one.extras, one.specifier, one.marker)):
                ours, theirs = [self.size(lambda text, kind=kind: asked(kind(text)), texts)
                                for kind in (pylock.Requirement, peer("requirements").Requirement)]
                self.assertLess(ours, theirs)

    @needs(peer("requirements"))
    def test_empty_sets(self):
        """A set has no place for what it isn't asked for, nor has a requirement for the specifiers that it hasn't."""
        sets, requirements = [(getattr(pylock, name), getattr(peer(module), name))
                              for module, name in (("specifiers", "SpecifierSet"), ("requirements", "Requirement"))]
        for kinds, forms in ((sets, ("",)), (requirements, ("name%d", "name @ https://example.com/%d"))):
            for form in forms:
                texts = [form % number if form else form for number in range(200)]
                for ask in (lambda one: None, str, hash, lambda one: getattr(one, "prereleases", None)):
                    ours, theirs = [self.size(lambda text, kind=kind: (lambda one: (one, ask(one))[0])(kind(text)), texts) for kind in kinds]
                    self.assertLessEqual(ours, theirs * 1.01)


if __name__ == "__main__":
    unittest.main()
