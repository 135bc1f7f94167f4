"""Forks as resolvers write them: entries of one name, each for its part of all environments. Which of them exclude each other
is known from how they are made, and each answer is tried in random environments.

PYLOCK_FORKS says for how many names this is tried, and PYLOCK_ENVIRONMENTS in how many environments of each.
"""

import itertools
import os
import random
import unittest

import pylock
from pylock import Marker, Outcome

NAMES = int(os.environ.get("PYLOCK_FORKS", "400"))
ENVIRONMENTS = int(os.environ.get("PYLOCK_ENVIRONMENTS", "60"))
# what stays undecided of all pairs, at most
MOST_UNDECIDED = 0.02

PYTHONS = ["3.%d.%d" % (minor, micro) for minor in range(7, 15) for micro in (0, 1, 5, 11)]
PLATFORMS = [("posix", "linux", "Linux"), ("posix", "darwin", "Darwin"), ("nt", "win32", "Windows"), ("posix", "freebsd14", "FreeBSD"), ("java", "java", "Java")]
TEXTS = {
    "platform_machine": ["x86_64", "aarch64", "arm64", "AMD64", "s390x"],
    "platform_python_implementation": ["CPython", "PyPy"],
    "implementation_name": ["cpython", "pypy"],
}
EXTRAS, GROUPS = ["cpu", "cu124", "cu128", "gui"], ["dev", "docs"]


class Forks:
    """The entries of a name: all environments are cut in two by a condition, again and again, and each entry gets some parts."""

    def __init__(self, seed):
        self.draw = random.Random(seed)

    def python(self):
        draw = self.draw
        kind, minor = draw.random(), draw.randint(8, 14)
        if kind < 0.5:
            return ("python_full_version < '3.%d'" % minor, "python_full_version >= '3.%d'" % minor)
        if kind < 0.6:
            micro = draw.randint(1, 9)
            return ("python_full_version <= '3.%d.%d'" % (minor, micro), "python_full_version > '3.%d.%d'" % (minor, micro))
        if kind < 0.8:
            return ("python_version < '3.%d'" % minor, "python_version >= '3.%d'" % minor)
        if kind < 0.9:
            return ("python_full_version == '3.%d.*'" % minor, "python_full_version != '3.%d.*'" % minor)
        return ("python_version == '3.%d'" % minor, "python_version != '3.%d'" % minor)

    def condition(self):
        draw, kind = self.draw, self.draw.random()
        if kind < 0.42:
            return self.python()
        if kind < 0.82:
            name = draw.choice(["os_name", "sys_platform", "sys_platform", "platform_system", *TEXTS])
            columns = dict(zip(("os_name", "sys_platform", "platform_system"), zip(*PLATFORMS[:3])))
            text = draw.choice(columns[name] if name in columns else TEXTS[name])
            return ("%s == '%s'" % (name, text), "%s != '%s'" % (name, text))
        variable, names = ("extras", EXTRAS) if kind < 0.95 else ("dependency_groups", GROUPS)
        name = draw.choice(names)
        return ("'%s' in %s" % (name, variable), "'%s' not in %s" % (name, variable))

    def paths(self, least):
        """The conditions of each part."""
        parts = [[]]
        while len(parts) < least or (self.draw.random() < 0.5 and len(parts) < 14):
            part = parts.pop(self.draw.randrange(len(parts)))
            parts += [part + [side] for side in self.condition()]
        return parts

    def entries(self):
        """The markers of the entries, and whether each excludes each other."""
        count = self.draw.randint(3, 10)
        parts, dealt = self.paths(count), [[] for _ in range(count)]
        self.draw.shuffle(parts)
        exact = self.draw.random() < 0.75
        if not exact:
            part = self.draw.choice(parts)
            del part[self.draw.randrange(len(part))]
        for number, part in enumerate(parts):
            dealt[number if number < count else self.draw.randrange(count)].append(part)
        return [" or ".join(" and ".join(part) or "os_name == os_name" for part in some) for some in dealt], exact


def environments(draw, count):
    """Environments that an interpreter of Python may have."""
    for _ in range(count):
        made = dict(zip(("os_name", "sys_platform", "platform_system"), draw.choice(PLATFORMS)))
        made["python_full_version"] = draw.choice(PYTHONS)
        made["python_version"] = made["python_full_version"].rpartition(".")[0]
        made.update((name, draw.choice(texts)) for name, texts in TEXTS.items())
        made["extras"] = {name for name in EXTRAS if draw.random() < 0.3}
        made["dependency_groups"] = {name for name in GROUPS if draw.random() < 0.3}
        yield made


def holds(marker, environment):
    return marker.evaluate_exactly(environment)


class Pairs(unittest.TestCase):
    def test_pairs(self):
        forks, told = Forks(65), {outcome: 0 for outcome in Outcome}
        for number in range(NAMES):
            texts, exact = forks.entries()
            markers = [Marker(text) for text in texts]
            answers = {pair: markers[pair[0]].is_disjoint(markers[pair[1]]) for pair in itertools.combinations(range(len(markers)), 2)}
            for (one, other), answer in answers.items():
                told[answer.outcome] += 1
                if answer.outcome is Outcome.NO:
                    self.assertTrue(holds(markers[one], answer.witness), (texts[one], answer.witness))
                    self.assertTrue(holds(markers[other], answer.witness), (texts[other], answer.witness))
                    self.assertFalse(exact, (texts[one], texts[other]))
            for environment in environments(forks.draw, ENVIRONMENTS):
                true = [place for place, marker in enumerate(markers) if holds(marker, environment)]
                for pair in itertools.combinations(true, 2):
                    self.assertIsNot(answers[pair].outcome, Outcome.YES, ([texts[place] for place in pair], environment))
        self.assertLessEqual(told[Outcome.UNDECIDED], MOST_UNDECIDED * sum(told.values()), told)
        self.assertTrue(told[Outcome.YES] and told[Outcome.NO], told)

    def test_implied(self):
        forks = Forks(66)
        for number in range(NAMES // 4):
            texts, _ = forks.entries()
            markers = [Marker(text) for text in texts] + [Marker(" or ".join("(%s)" % text for text in texts[:2]))]
            answers = {pair: markers[pair[0]].implies(markers[pair[1]]) for pair in itertools.permutations(range(len(markers)), 2)}
            for (one, other), answer in answers.items():
                if answer.outcome is Outcome.NO:
                    self.assertTrue(holds(markers[one], answer.witness))
                    self.assertFalse(holds(markers[other], answer.witness))
            for place in (0, 1):
                self.assertIs(answers[place, len(texts)].outcome, Outcome.YES, (texts[place], str(markers[-1])))
            for environment in environments(forks.draw, ENVIRONMENTS):
                values = [holds(marker, environment) for marker in markers]
                for (one, other), answer in answers.items():
                    if answer.outcome is Outcome.YES:
                        self.assertFalse(values[one] and not values[other], (one, other, environment))


if __name__ == "__main__":
    unittest.main()
