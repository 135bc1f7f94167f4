"""Answers about every version and every environment: by reasoning, and beside what the sets and markers say of many."""

import copy
import itertools
import pickle
import random
import unittest

import pylock
from pylock import Answer, Marker, Outcome, SpecifierSet, Version

YES, NO, UNDECIDED = Outcome.YES, Outcome.NO, Outcome.UNDECIDED

# two sets; whether the first lies in the second, and whether they have nothing in common, by the order of versions
SETS = (
    (">=1,<2", ">=1", YES, NO),
    (">=1", ">=1,<2", NO, NO),
    ("==1.4.*", ">=1.2,<2", YES, NO),
    ("==1.4.*", "==1.5.*", NO, YES),
    ("<2", ">=2", NO, YES),
    ("<=2", ">=2", NO, NO),
    ("~=2.2", ">=2.2,==2.*", YES, NO),
    ("~=2.2.0", "~=2.2", YES, NO),
    ("==1.0", "==1", YES, NO),
    ("==1.0+a", "==1.0", YES, NO),
    ("", "", YES, NO),
    ("", ">=0", NO, NO),
    (">=1", "", YES, NO),
    (">=2,<1", "==7", YES, YES),
    ("!=1", "!=1.0", YES, NO),
    ("!=1.*", "!=1.5", YES, NO),
    # a pre-release counts as any other version, and `<1` leaves out those of 1
    ("<1", "<1.dev0", YES, NO),
    (">=1.dev0,<1", "", YES, YES),
    ("==1rc1", ">=1.dev0,<1", NO, YES),
    ("==1rc1", ">=1.dev0,<=1", YES, NO),
    (">=1rc1", ">=1", NO, NO),
)

# two markers; whether the first implies the second, and whether they are never both true
MARKERS = (
    ("python_version >= '3.9'", "python_version >= '3.8'", YES, NO),
    ("python_version >= '3.8'", "python_version >= '3.9'", NO, NO),
    ("python_version < '3.10'", "python_full_version >= '3.12.1'", NO, YES),
    ("python_full_version >= '3.12.1'", "python_version >= '3.12'", YES, NO),
    ("sys_platform == 'win32'", "os_name == 'nt'", YES, NO),
    ("sys_platform == 'linux'", "os_name == 'nt'", NO, YES),
    ("platform_system == 'Darwin'", "sys_platform == 'linux'", NO, YES),
    ("platform_machine == 'x86_64'", "platform_machine == 'aarch64'", NO, YES),
    ("platform_machine == 'x86_64'", "platform_machine != 'aarch64'", YES, NO),
    ("'docs' in extras", "'Docs' in extras", YES, NO),
    ("'docs' in extras", "'docs' not in extras", NO, YES),
    ("'docs' in extras", "'docs' in dependency_groups", NO, NO),
    ("os_name == 'nt' and 'a' in extras", "os_name == 'nt' or 'b' in extras", YES, NO),
    ("os_name == 'nt' or os_name == 'posix'", "os_name == 'nt'", NO, NO),
    ("os_name == 'nt' and sys_platform == 'linux'", "python_version < '3'", YES, YES),
    # it has no value in a lock
    ("extra == 'docs'", "os_name == 'nt'", YES, YES),
)

NUMBERS = ("0", "1", "1.0", "1.1", "1.2.0", "1.10", "2", "2.0.1", "1!0")
ENDINGS = ("", "a1", "b0", "rc2", ".post1", ".dev0", "a1.dev3", "+a", ".post1+7")
OPERATORS = (">=", "<=", ">", "<", "==", "!=")
VERSIONS = [Version(number + ending) for number in NUMBERS for ending in ENDINGS]

SPELLINGS = (
    "python_version %s '3.%d'", "python_full_version %s '3.%d.2'", "python_version %s '3.%d.1'",
)
TEXTS = (
    "os_name == 'nt'", "os_name != 'nt'", "sys_platform == 'linux'", "sys_platform != 'win32'", "platform_system == 'Darwin'",
    "platform_machine == 'x86_64'", "platform_machine in 'x86_64 arm64'", "'a' in extras", "'a' not in extras", "'B_b' in extras",
    "'c' in dependency_groups", "'c' not in dependency_groups", "implementation_name == 'cpython'", "'linux' in sys_platform",
)
PLATFORMS = (("posix", "linux", "Linux"), ("posix", "darwin", "Darwin"), ("nt", "win32", "Windows"), ("java", "java17", "Java"))


def random_set(chance):
    each = []
    for _ in range(chance.randrange(4)):
        operator, number = chance.choice(OPERATORS), chance.choice(NUMBERS)
        if operator in ("==", "!=") and chance.random() < 0.4:
            each.append("%s%s.*" % (operator, number))
        elif operator in ("==", "!="):
            each.append(operator + number + chance.choice(ENDINGS))
        else:
            each.append(operator + number + chance.choice(ENDINGS).partition("+")[0])
    if chance.random() < 0.2:
        each.append("~=1.%d" % chance.randrange(3))
    return SpecifierSet(",".join(each))


def random_marker(chance, depth=2):
    if depth == 0 or chance.random() < 0.3:
        if chance.random() < 0.5:
            return chance.choice(SPELLINGS) % (chance.choice(OPERATORS), chance.randrange(8, 13))
        return chance.choice(TEXTS)
    word = chance.choice(("and", "or"))
    return "(%s) %s (%s)" % (random_marker(chance, depth - 1), word, random_marker(chance, depth - 1))


def random_environment(chance):
    """One that an interpreter may have."""
    minor, micro = chance.randrange(7, 15), chance.randrange(4)
    os_name, sys_platform, system = chance.choice(PLATFORMS)
    environment = {
        "python_version": "3.%d" % minor, "python_full_version": "3.%d.%d" % (minor, micro), "os_name": os_name,
        "sys_platform": sys_platform, "platform_system": system, "platform_machine": chance.choice(("x86_64", "arm64", "riscv64")),
        "implementation_name": chance.choice(("cpython", "pypy")),
    }
    for name, members in (("extras", ("a", "b-b")), ("dependency_groups", ("c",))):
        environment[name] = {member for member in members if chance.random() < 0.5}
    return environment


class Answers(unittest.TestCase):
    def test_truth(self):
        yes, no, open_one = (Answer(outcome, None) for outcome in (YES, NO, UNDECIDED))
        self.assertEqual((bool(yes), bool(no)), (True, False))
        self.assertRaises(TypeError, bool, open_one)
        with self.assertRaises(TypeError):
            assert not open_one

    def test_manners(self):
        answer = SpecifierSet(">=1,<3").is_subset(SpecifierSet(">=1,<2"))
        self.assertEqual(answer, Answer(NO, answer.witness))
        self.assertNotEqual(answer, Answer(YES, None))
        self.assertEqual(repr(Answer(YES, None)), "Answer(outcome=<Outcome.YES: 'yes'>, witness=None)")
        self.assertEqual(hash(answer), hash(Answer(NO, answer.witness)))
        for made in (copy.copy(answer), copy.deepcopy(answer), *[pickle.loads(pickle.dumps(answer, number)) for number in range(2, 6)]):
            self.assertEqual((made, type(made), type(made.witness)), (answer, Answer, Version))
        self.assertIs(pickle.loads(pickle.dumps(UNDECIDED)), UNDECIDED)
        with self.assertRaises(AttributeError):
            answer.outcome = YES
        marker = Marker("os_name == 'nt'").implies(Marker("'a' in extras"))
        self.assertEqual(pickle.loads(pickle.dumps(marker)), marker)

    def test_other_things(self):
        for ask in (SpecifierSet(">=1").is_subset, SpecifierSet(">=1").is_disjoint, Marker("os_name == 'nt'").is_disjoint, Marker("os_name == 'nt'").implies):
            for odd in (None, 5, ">=1", "os_name == 'nt'", Version("1"), [SpecifierSet("")]):
                self.assertRaises(TypeError, ask, odd)


class Sets(unittest.TestCase):
    def shown(self, one, other, answer, in_other):
        """The witness is a version that shows a no, and there is none otherwise."""
        if answer.outcome is not NO:
            self.assertIsNone(answer.witness)
            return
        self.assertIs(type(answer.witness), Version)
        self.assertEqual((one.admits(answer.witness), other.admits(answer.witness)), (True, in_other))

    def test_worked(self):
        for text, other_text, subset, disjoint in SETS:
            one, other = SpecifierSet(text), SpecifierSet(other_text)
            with self.subTest((text, other_text)):
                told = one.is_subset(other)
                self.assertIs(told.outcome, subset)
                self.shown(one, other, told, False)
                for told in (one.is_disjoint(other), other.is_disjoint(one)):
                    self.assertIs(told.outcome, disjoint)
                    self.shown(one, other, told, True)

    def test_itself(self):
        """A set is asked beside itself, as beside an equal one."""
        for text in ("", ">=1,<2", "!=1.*", "===1.0", ">=2,<1", ",".join("!=%d" % number for number in range(40))):
            one = SpecifierSet(text)
            for other in (one, copy.copy(one), SpecifierSet(text)):
                self.assertIs(one.is_subset(other).outcome, YES)
                self.assertIs(one.is_disjoint(other).outcome, YES if text == ">=2,<1" else NO)
            self.assertEqual(str(one), str(SpecifierSet(text)))

    def test_one_set(self):
        """Beside the empty set it is asked whether a set admits nothing."""
        for text, outcome in ((">=1,<2", NO), (">=2,<1", YES), ("==1.0,!=1", YES), ("==1.*,>=2", YES), ("", NO), ("===x,===y", UNDECIDED)):
            self.assertIs(SpecifierSet(text).is_disjoint(SpecifierSet("")).outcome, outcome, text)

    def test_prereleases(self):
        """What is said of pre-releases counts for nothing, as in `admits`."""
        for said, other_said in itertools.product((None, True, False), repeat=2):
            one, other = SpecifierSet(">=1rc1,<=1rc2", prereleases=said), SpecifierSet(">=1", prereleases=other_said)
            self.assertIs(one.is_disjoint(other).outcome, YES)
            self.assertIs(one.is_subset(other).outcome, NO)

    def test_texts(self):
        """Texts that are no versions are no witnesses, and nothing is told of them."""
        for told in (SpecifierSet("===foo").is_disjoint(SpecifierSet("===foo")), SpecifierSet("===foo").is_subset(SpecifierSet("===1.0"))):
            self.assertIsNot(told.outcome, NO)

    def test_random(self):
        chance = random.Random(20261130)
        counts = dict.fromkeys(Outcome, 0)
        for _ in range(800):
            one, other = random_set(chance), random_set(chance)
            for told, in_other in ((one.is_subset(other), False), (one.is_disjoint(other), True)):
                counts[told.outcome] += 1
                self.shown(one, other, told, in_other)
                if told.outcome is YES:
                    shows = [version for version in VERSIONS if one.admits(version) and other.admits(version) is in_other]
                    self.assertEqual(shows, [], (str(one), str(other), in_other))
        self.assertGreater(min(counts[YES], counts[NO]), 200, counts)
        self.assertLess(counts[UNDECIDED], 100, counts)

    def test_unsatisfiable(self):
        """What the library shows of all versions is what the Python layer finds, and stays a bool."""
        chance = random.Random(26)
        found = []
        for _ in range(400):
            one = random_set(chance) & random_set(chance)
            one.prereleases = chance.choice((None, True, False))
            found.append(one.is_unsatisfiable())
            if len(one):
                self.assertEqual(one._has_no_version(one._items()), found[-1], (str(one), one.prereleases))
            if one.is_disjoint(SpecifierSet("")).outcome is YES:
                self.assertIs(found[-1], True)
        self.assertTrue(50 < sum(found) < 350, sum(found))
        for said, wanted in ((None, False), (True, False), (False, True)):
            self.assertIs(SpecifierSet("==1rc1", said).is_unsatisfiable(), wanted)
            self.assertIs(SpecifierSet("<=1rc1", said).is_unsatisfiable(), False)

    def test_after_a_change(self):
        """A set that is read again is another question."""
        one = SpecifierSet(">=1")
        self.assertIs(one.is_subset(SpecifierSet(">=0")).outcome, YES)
        one._specs = (pylock.Specifier("<1"),)
        self.assertIs(one.is_subset(SpecifierSet(">=0")).outcome, NO)

    def test_subclasses(self):
        class Own(SpecifierSet):
            pass

        self.assertIs(Own(">=1").is_subset(Own(">=0.5")).outcome, YES)


class Markers(unittest.TestCase):
    def shown(self, one, other, answer, value):
        """The witness is an environment in which the first is true and the second has the value, and there is none otherwise."""
        if answer.outcome is not NO:
            self.assertIsNone(answer.witness)
            return
        self.assertIs(type(answer.witness), dict)
        self.assertEqual((one.evaluate_exactly(answer.witness), other.evaluate_exactly(answer.witness)), (True, value))
        self.assertEqual((one.evaluate(answer.witness, "lock_file"), other.evaluate(answer.witness, "lock_file")), (True, value))
        for name, member in answer.witness.items():
            self.assertIs(type(member), frozenset if name in ("extras", "dependency_groups") else str, name)
            self.assertTrue(name not in ("extras", "dependency_groups") or member)

    def test_worked(self):
        for text, other_text, implied, disjoint in MARKERS:
            one, other = Marker(text), Marker(other_text)
            with self.subTest((text, other_text)):
                told = one.implies(other)
                self.assertIs(told.outcome, implied)
                self.shown(one, other, told, False)
                for told in (one.is_disjoint(other), other.is_disjoint(one)):
                    self.assertIs(told.outcome, disjoint)
                    self.shown(one, other, told, True)

    def test_itself(self):
        for text in ("os_name == 'nt'", "'a' in extras or python_version < '3.9'", "'a\tb' == os_name"):
            one = Marker(text)
            for other in (one, copy.copy(one), Marker(text)):
                self.assertIs(one.implies(other).outcome, YES)
                told = one.is_disjoint(other)
                self.assertIs(told.outcome, NO)
                self.shown(one, other, told, True)
            self.assertIs((one & one).implies(one | one).outcome, YES)

    def test_of_a_tree(self):
        """A marker is what its tree says, and without anything in it true."""
        one = Marker("os_name == 'nt' and python_version < '3.9'")
        self.assertIs(one.implies(Marker("python_version < '3.9'")).outcome, YES)
        del one._markers[1:]
        self.assertIs(one.implies(Marker("python_version < '3.9'")).outcome, NO)
        del one._markers[:]
        self.assertIsNot(Marker("os_name == 'nt'").implies(one).outcome, NO)
        self.assertIs(one.implies(Marker("os_name == 'nt'")).outcome, NO)

    def test_random(self):
        chance = random.Random(20261130)
        counts = dict.fromkeys(Outcome, 0)
        environments = [random_environment(chance) for _ in range(300)]
        for _ in range(400):
            one, other = Marker(random_marker(chance)), Marker(random_marker(chance))
            values = [(one.evaluate_exactly(environment), other.evaluate_exactly(environment)) for environment in environments]
            for told, value in ((one.implies(other), False), (one.is_disjoint(other), True)):
                counts[told.outcome] += 1
                self.shown(one, other, told, value)
                if told.outcome is YES:
                    self.assertNotIn((True, value), values, (str(one), str(other), value))
        self.assertGreater(min(counts[YES], counts[NO]), 50, counts)
        self.assertLess(counts[UNDECIDED], 120, counts)


if __name__ == "__main__":
    unittest.main()
