"""Pickles that `packaging` made, where pylock stands in its place: of releases 23 to 26 from pickles.txt, and of the one that is
here; and the states of the releases between."""

import base64
import io
import os
import pickle
import subprocess
import sys
import unittest
from collections import namedtuple

import pickled
import pylock
from peer import peer
from support import HERE, text_of

TEXT = text_of("python", "tests", "pickles.txt")


class InPlace(pickle.Unpickler):
    """Finds what a pickle names in pylock, as a package `packaging` of its modules does (in_place.py)."""

    def find_class(self, module, name):
        package, _, rest = module.partition(".")
        return super().find_class("pylock." + rest if package == "packaging" else module, name)


def stored():
    """The pickles by the releases that made them."""
    found, release = {}, None
    for line in TEXT.splitlines():
        if line.startswith("    "):
            found[release] += line.strip()
        elif not line.startswith("#"):
            release = line
            found[release] = ""
    return {release: base64.b64decode(text) for release, text in found.items()}


class Pickles(unittest.TestCase):
    def check(self, content):
        loaded, wanted = InPlace(io.BytesIO(content)).load(), pickled.objects(pylock)
        self.assertEqual(set(loaded), set(wanted))
        for kind in set(wanted) - {"keys"}:
            for one, other in zip(loaded[kind], wanted[kind]):
                with self.subTest(kind=kind, one=other):
                    self.assertEqual((type(one), one, str(one), repr(one)), (type(other), other, str(other), repr(other)))
                    if not isinstance(other, pylock.Requirement):
                        self.assertEqual(hash(one), hash(other))
        self.assertEqual(loaded["keys"], wanted["keys"])
        one, several = loaded["told"]
        self.assertEqual((one.prereleases, several.prereleases), (True, False))
        self.assertTrue("1.5" in loaded["sets"][1] and "2.5" not in loaded["sets"][1])
        self.assertTrue(loaded["markers"][0].evaluate({"os_name": "nt"}))
        self.assertEqual(loaded["versions"][1].local, "ubuntu.1")
        self.assertIs(type(loaded["requirements"][1].specifier), pylock.SpecifierSet)
        # what was loaded makes pickles of its own
        again = pickle.loads(pickle.dumps({kind: ones for kind, ones in loaded.items()}))
        self.assertEqual(again, loaded)

    def test_stored(self):
        found = stored()
        self.assertEqual(list(found), ["23.0", "24.1", "25.0", "26.2"])
        for release, content in found.items():
            with self.subTest(release):
                self.check(content)

    @unittest.skipIf(peer("version") is None or not os.environ.get("PYLOCK_PEER"), "no packaging of 26 or later; PYLOCK_PEER names the folder it is in")
    def test_made_now(self):
        for protocol in range(2, pickle.HIGHEST_PROTOCOL + 1):
            made = subprocess.run([sys.executable, os.path.join(HERE, "pickled.py"), str(protocol)],
                env=dict(os.environ, PYTHONPATH=os.environ["PYLOCK_PEER"]), stdout=subprocess.PIPE, check=True)
            with self.subTest(protocol):
                self.check(base64.b64decode(made.stdout))


class States(unittest.TestCase):
    """The states of one object."""

    def restored(self, kind, state):
        one = kind.__new__(kind)
        one.__setstate__(state)
        return one

    def test_between(self):
        """26.0 and 26.1 give slots."""
        slots = {"_epoch": 0, "_release": (1, 2), "_pre": ("rc", 1), "_post": None, "_dev": ("dev", 3), "_local": ("x", 1), "_key_cache": 5}
        self.assertEqual(self.restored(pylock.Version, (None, slots)), pylock.Version("1.2rc1.dev3+x.1"))
        one = self.restored(pylock.Specifier, (None, {"_spec": (">=", "1.0"), "_prereleases": True, "_ranges": None}))
        self.assertEqual((str(one), one.prereleases), (">=1.0", True))
        several = self.restored(pylock.SpecifierSet, (None, {"_specs": frozenset([one]), "_prereleases": None}))
        self.assertEqual((str(several), several.prereleases), (">=1.0", True))
        tag = self.restored(pylock.Tag, (None, {"_interpreter": "py3", "_abi": "none", "_platform": "any", "_hash": 7}))
        self.assertEqual((tag, hash(tag)), (pylock.Tag("py3", "none", "any"), hash(pylock.Tag("py3", "none", "any"))))
        marker = pylock.Marker("os_name == 'nt'")
        self.assertEqual(self.restored(pylock.Marker, (None, {"_markers": marker._markers})), marker)
        requirement = self.restored(pylock.Requirement, vars(pylock.Requirement("a>=1")))
        self.assertEqual(requirement, pylock.Requirement("a>=1"))

    def test_refused(self):
        Parts = namedtuple("Parts", "epoch release dev pre post local")
        for kind, states in (
            (pylock.Version, [None, 5, "1", (), (1, 2), {}, (None, {}), {"_version": Parts(0, None, None, None, None, None)}, (0, (1,), 5, None, None, None)]),
            (pylock.Specifier, [None, 5, ((">=", 1), None), ((">=", "1"), 5), {}, (None, {"_spec": ">=1"})]),
            (pylock.SpecifierSet, [None, 5, ((5,), None), ((), 5), (("",), None), {"_specs": 5}]),
            (pylock.Tag, [None, 5, ("a", "b"), ("a", "b", 5), {}, (None, {"_abi": "x"})]),
            (pylock.Marker, [None, 5, {}, {"_markers": 5}]),
            (pylock.Requirement, [None, 5, "-"]),
        ):
            for state in states:
                with self.subTest(kind=kind.__name__, state=state), self.assertRaises(TypeError):
                    self.restored(kind, state)

    def test_blank(self):
        """What isn't restored yet can be asked nothing, or is empty; what has its parts keeps them."""
        with self.assertRaises((TypeError, ValueError)):
            str(pylock.Version.__new__(pylock.Version))
        self.assertEqual(str(pylock.Tag.__new__(pylock.Tag)), "--")
        tag, version = pylock.Tag("py3", "none", "any"), pylock.Version("1.0")
        tag.__setstate__(("py2", "none", "any"))
        self.assertEqual(tag, pylock.Tag("py3", "none", "any"))
        with self.assertRaises(TypeError):
            version.__setstate__((0, (2,), None, None, None, None))
        for kind in (pylock.Version, pylock.Tag):
            with self.assertRaises(TypeError):
                kind()


if __name__ == "__main__":
    unittest.main()
