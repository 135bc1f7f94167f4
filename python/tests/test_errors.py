"""Exceptions: where they stand, and the group of several."""

import importlib
import inspect
import pickle
import sys
import unittest

from peer import needs, peer
import support  # noqa: F401 - puts the module on the path

from pylock.errors import ExceptionGroup

theirs = peer("errors")

# the modules of `packaging` whose exceptions stand here in a module of the same name
MODULES = ["version", "specifiers", "markers", "requirements", "utils"]
MODULES += ["direct_url", "dependency_groups", "metadata", "licenses"]


class Group(unittest.TestCase):
    def test_group(self):
        one, two = ValueError("a"), TypeError("b")
        for errors in ([one], [one, two], (one, two)):
            group = ExceptionGroup("why", errors)
            self.assertEqual((group.message, group.exceptions, group.args[0]), ("why", tuple(errors), "why"))
            self.assertEqual(str(group), "why (%d sub-exception%s)" % (len(errors), "s" * (len(errors) > 1)))
            again = pickle.loads(pickle.dumps(group))
            self.assertEqual((again.message, list(map(str, again.exceptions))), ("why", list(map(str, errors))))
        self.assertEqual(repr(ExceptionGroup("why", [one])), "ExceptionGroup('why', [%r])" % one)
        self.assertTrue(issubclass(ExceptionGroup, Exception))
        built_in = vars(importlib.import_module("builtins")).get("ExceptionGroup")
        self.assertEqual(ExceptionGroup is built_in, sys.version_info >= (3, 11))

    @needs(theirs)
    def test_beside(self):
        self.assertEqual(importlib.import_module("pylock.errors").__all__, theirs.__all__)
        ours, other = [kind("why", [ValueError("a")]) for kind in (ExceptionGroup, theirs.ExceptionGroup)]
        self.assertEqual((ours.message, list(map(str, ours.exceptions))), (other.message, list(map(str, other.exceptions))))


@needs(theirs)
class Places(unittest.TestCase):
    def test_places(self):
        """Each public exception stands where `packaging` has it, and is a ValueError where that one is."""
        found = 0
        for name in MODULES:
            module = importlib.import_module("pylock." + name)
            for public in peer(name).__all__:
                other = getattr(peer(name), public)
                if inspect.isclass(other) and issubclass(other, Exception) and public != "ExceptionGroup":
                    ours = getattr(module, public)
                    self.assertIn(public, module.__all__)
                    self.assertEqual((ours.__module__, ours.__name__), (module.__name__, public))
                    self.assertEqual(issubclass(ours, ValueError), issubclass(other, ValueError), public)
                    found += 1
        self.assertGreaterEqual(found, 15)


if __name__ == "__main__":
    unittest.main()
