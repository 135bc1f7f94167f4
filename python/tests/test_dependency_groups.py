"""Dependency groups (PEP 735): their rules, and the same tables put to `packaging`."""

import copy
import pickle
import re
import unittest

from peer import needs, peer, seeded
import support  # noqa: F401 - puts the module on the path

import pylock.dependency_groups as ours
from pylock.errors import ExceptionGroup
from pylock.requirements import InvalidRequirement, Requirement

theirs = peer("dependency_groups")
their_errors = peer("errors")


def include(name):
    return {"include-group": name}


# tables of groups, the group that is asked for, and its requirements (the first are the examples of PEP 735)
TABLES = [
    ({"test": ["pytest", "coverage"], "docs": ["sphinx", "sphinx-rtd-theme"]}, "docs", ["sphinx", "sphinx-rtd-theme"]),
    ({"coverage": ["coverage[toml]"], "test": ["pytest>7", include("coverage")]}, "test", ["pytest>7", "coverage[toml]"]),
    ({"group-a": ["foo>=1.0"], "b": ["foo<1.0", include("group-a")]}, "b", ["foo<1.0", "foo>=1.0"]),
    ({"test": ["a"], "typing": ["mypy"], "dev": [include("test"), "ruff", include("typing")]}, "dev", ["a", "ruff", "mypy"]),
    ({"Group_A": ["x"], "b": [include("group.a")]}, "B", ["x"]),
    ({"a": []}, "a", []),
    ({"a": ("x",)}, "a", ["x"]),
    ({"a": ["x", "x"], "b": [include("a"), include("a")]}, "b", ["x", "x", "x", "x"]),
    ({"a": ["x"], "b": [include("a"), "y"], "c": [include("b"), include("a"), "z"]}, "c", ["x", "y", "x", "z"]),
    ({"a": ["x ; os_name == 'nt'", "Y [b,a]"]}, "a", ['x; os_name == "nt"', "Y[a,b]"]),
    ({"a": ["x"], "bad": [5, include("no")], "worse": ["x !"]}, "a", ["x"]),
    ({"": ["x"], "a b": ["y"]}, "", ["x"]),
]
# tables in which something is wrong, the group that is asked for, and what is raised
REFUSED = [
    ({}, "a", ["LookupError"]),
    ({"a": [include("b")]}, "a", ["LookupError"]),
    ({"a": [include("b"), include("c")]}, "a", ["LookupError", "LookupError"]),
    ({"a": "x"}, "a", ["TypeError"]),
    ({"a": 5}, "a", ["TypeError"]),
    ({"a": None}, "a", ["TypeError"]),
    ({"a": {"x": "y"}}, "a", ["TypeError"]),
    ({"a": [5, [], None, "x"]}, "a", ["TypeError"] * 3),
    ({"a": [{}, {"set": "x"}, {"include-group": "b", "x": "y"}], "b": []}, "a", ["InvalidDependencyGroupObject"] * 3),
    ({"a": [include("a")]}, "a", ["CyclicDependencyGroup"]),
    ({"a": [include("b")], "b": [include("A")]}, "a", ["CyclicDependencyGroup"]),
    ({"a": [include("b")], "b": [include("c")], "c": [include("b")]}, "a", ["CyclicDependencyGroup"]),
    ({"a": [include("b"), 5], "b": [{}]}, "a", ["TypeError", "InvalidDependencyGroupObject"]),
    ({"a": [include("b"), include("b")], "b": [5]}, "a", ["TypeError"]),
    ({"a": [include("b"), include("c")], "b": [5], "c": [include("b")]}, "a", ["TypeError"]),
    ({"a": ["x"], "A": ["y"]}, "a", ["DuplicateGroupNames"]),
    ({"a": ["x"], "A": ["y"], "b_b": [], "b-b": [], "B.B": []}, "c", ["DuplicateGroupNames"] * 2),
    ({"a": ["x !"]}, "a", "InvalidRequirement"),
    ({"a": [5, include("b")], "b": ["x !"]}, "a", "InvalidRequirement"),
    ({"a": [include(5)]}, "a", "TypeError"),
]


def told(error):
    """The name of an exception, and what it holds besides its message."""
    name = type(error).__name__
    if name == "CyclicDependencyGroup":
        return name, error.requested_group, error.group, error.include_group
    # a group that is missing or no list is told by its name
    group = re.match("(?:there is no )?dependency group '([^']*)'", str(error), re.IGNORECASE)
    return (name, group.group(1)) if group else name


def kind(told_of):
    return told_of if isinstance(told_of, str) else told_of[0]


def answer(group_of, call):
    """What a call gives, or the exceptions that it raises: a list of those in a group."""
    try:
        return call()
    except group_of as error:
        return [told(inner) for inner in error.exceptions]
    except Exception as error:
        return told(error)


def answers(library, group_of, table, name):
    """What a library makes of a table and the name of a group."""
    def looked_up():
        items = library.DependencyGroupResolver(table).lookup(name)
        return tuple(repr(item) if hasattr(item, "include_group") else str(item) for item in items)

    def resolved():
        return tuple(map(str, library.DependencyGroupResolver(table).resolve(name)))

    return [answer(group_of, call) for call in (looked_up, resolved, lambda: library.resolve_dependency_groups(table, name))]


class Rules(unittest.TestCase):
    def test_tables(self):
        for table, name, expected in TABLES:
            with self.subTest((table, name)):
                self.assertEqual(list(ours.resolve_dependency_groups(table, name)), expected)
                self.assertEqual(ours.DependencyGroupResolver(table).resolve(name), tuple(map(Requirement, expected)))

    def test_refused(self):
        for table, name, expected in REFUSED:
            with self.subTest((table, name)):
                raised = answer(ExceptionGroup, lambda: ours.resolve_dependency_groups(table, name))
                self.assertEqual([*map(kind, raised)] if isinstance(raised, list) else raised, expected)

    def test_several(self):
        table = {"a": ["x"], "b": ["y", include("a")], "bad": [5], "worse": [5, 6]}
        self.assertEqual(ours.resolve_dependency_groups(table), ())
        self.assertEqual(ours.resolve_dependency_groups(table, "b", "A", "b"), ("y", "x", "x", "y", "x"))
        with self.assertRaises(ExceptionGroup) as caught:
            ours.resolve_dependency_groups(table, "a", "bad", "worse")
        self.assertEqual(len(caught.exception.exceptions), 1)

    def test_again(self):
        """A resolver that was asked answers as one that wasn't, also after what is wrong."""
        for table, name, _ in TABLES + REFUSED:
            resolver = answer(ExceptionGroup, lambda: ours.DependencyGroupResolver(table))
            if not isinstance(resolver, ours.DependencyGroupResolver):
                continue
            for call in ("lookup", "resolve"):
                for group in [*table, name, *table, name]:
                    with self.subTest((table, group, call)):
                        fresh = answer(ExceptionGroup, lambda: getattr(ours.DependencyGroupResolver(table), call)(group))
                        again = answer(ExceptionGroup, lambda: getattr(resolver, call)(group))
                        self.assertEqual(repr(again), repr(fresh))
        resolver = ours.DependencyGroupResolver({"a": ["x"], "b": [include("a")]})
        self.assertIs(resolver.resolve("b"), resolver.resolve("B"))
        self.assertEqual(resolver.dependency_groups, {"a": ["x"], "b": [include("a")]})

    def test_objects(self):
        error = pickle.loads(pickle.dumps(ours.CyclicDependencyGroup("a", "b", "c")))
        self.assertEqual(told(error), ("CyclicDependencyGroup", "a", "b", "c"))
        # the message alone, as in `packaging`
        self.assertEqual(error.args, (str(error),))
        for kind in (ours.CyclicDependencyGroup, ours.DuplicateGroupNames, ours.InvalidDependencyGroupObject, InvalidRequirement):
            self.assertTrue(issubclass(kind, ValueError))
        items = ours.DependencyGroupResolver({"a": [include("B_b"), "x"]}).lookup("a")
        self.assertEqual((repr(items[0]), items[0].include_group), ("DependencyGroupInclude('B_b')", "B_b"))
        self.assertEqual(items[1], Requirement("x"))
        with self.assertRaises(AttributeError):
            items[0].more = 1
        self.assertRaises(TypeError, ours.resolve_dependency_groups, dependency_groups={})
        self.assertRaises(TypeError, ours.resolve_dependency_groups, {"a": []}, 5)


class Random:
    """Tables of a few groups that include each other."""

    NAMES = ["a", "b", "c", "D_d", "d-D", "e"]
    ODD = [5, None, [], {}, {"include-group": "a", "more": "b"}, {"set": "a"}, "x !", ">=1", b"x"]

    def __init__(self, name):
        self.source = seeded(name)

    def item(self, odd):
        chance = self.source.random()
        if chance < odd:
            return self.source.choice(self.ODD)
        if chance < 0.5:
            return include(self.source.choice(["a", "B", "c", "d.d", "e", "f" if self.source.random() < odd else "a"]))
        return self.source.choice(["x", "y>=1", "z[b,a] ; os_name == 'nt'", "w != 1.*, >= 0.5"])

    def table(self):
        """At times without a cycle: a group includes later ones alone."""
        odd = self.source.choice([0, 0, 0.1, 0.4])
        names = self.source.sample(self.NAMES, self.source.randrange(1, 6))
        table = {name: [self.item(odd) for _ in range(self.source.randrange(4))] for name in names}
        if self.source.random() < odd:
            table[self.source.choice(names)] = self.source.choice(["x", 5, None, {}])
        if self.source.random() < 0.5:
            for at, name in enumerate(names):
                if isinstance(table[name], list):
                    table[name] = [self.forward(item, names[at + 1 :]) for item in table[name]]
        return table

    def forward(self, item, later):
        """The item; of an include one of a later group."""
        if not isinstance(item, dict) or list(item) != ["include-group"]:
            return item
        return include(self.source.choice(later)) if later else "x"


@needs(theirs)
class Beside(unittest.TestCase):
    def same_errors(self, mine, other):
        """The same is found; but a group is told once here, and of cycles those of one way through the groups."""
        self.assertEqual([one for one in mine if isinstance(one, str)], [one for one in other if isinstance(one, str)])
        groups = [[one for one in told_of if len(one) == 2] for told_of in (mine, other)]
        self.assertEqual(groups[0], list(dict.fromkeys(groups[1])))
        cycles = [[one for one in told_of if kind(one) == "CyclicDependencyGroup"] for told_of in (mine, other)]
        self.assertLessEqual(set(cycles[0]), set(cycles[1]))
        self.assertEqual(bool(cycles[0]), bool(cycles[1]))

    def both(self, table, name):
        expected = answers(theirs, their_errors.ExceptionGroup, copy.deepcopy(table), name)
        for mine, other in zip(answers(ours, ExceptionGroup, table, name), expected):
            with self.subTest((table, name)):
                if isinstance(mine, list) and isinstance(other, list):
                    self.same_errors(mine, other)
                else:
                    self.assertEqual(mine, other)
        return isinstance(expected[1], tuple)

    def test_tables(self):
        for table, name, _ in TABLES + REFUSED:
            self.both(table, name)

    def test_random(self):
        made = Random("dependency groups")
        taken = 0
        for _ in range(1500):
            table = made.table()
            for name in ("a", "b", "C", "d.D", "e"):
                taken += self.both(table, name)
        self.assertGreater(taken, 500)

    def test_differences(self):
        """What the page has as different, is: a group in which something is wrong, asked for a second time."""
        resolver = theirs.DependencyGroupResolver({"a": ["x", 5]})
        self.assertRaises(their_errors.ExceptionGroup, resolver.lookup, "a")
        self.assertEqual(len(resolver.lookup("a")), 1)
        resolver = ours.DependencyGroupResolver({"a": ["x", 5]})
        for _ in range(2):
            self.assertRaises(ExceptionGroup, resolver.lookup, "a")

    def test_names(self):
        self.assertEqual(sorted(ours.__all__), sorted(theirs.__all__))


if __name__ == "__main__":
    unittest.main()
