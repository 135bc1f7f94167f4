"""Random questions to this module and to `packaging` 26.2 (PYLOCK_PEER): the same ones every time, as the seed is fixed.

What stands in DIFFERENCES of test_agreement.py isn't asked.
"""

import copy
import pickle
import random
import unittest

from test_agreement import BEFORE, NEW, alike, asked, packaging

import pylock

NAMES = (
    "os_name", "sys_platform", "platform_machine", "platform_python_implementation", "platform_system", "implementation_name",
)
NUMBERS = ("python_version", "python_full_version", "implementation_version")


class Questions:
    """Random texts."""

    def __init__(self, seed):
        self.random = random.Random(seed)

    def one(self, *choices):
        return self.random.choice(choices)

    def likely(self, part):
        return self.random.random() < part

    def version(self):
        numbers = [self.one("0", "0", "1", "1", "2", "3", "10") for _ in range(self.one(1, 2, 2, 3, 4))]
        text = self.one("", "", "", "v", "1!") + ".".join(numbers)
        if self.likely(0.3):
            text += self.one("a", "b", "rc", "c", "alpha", "-pre", "_beta.", "RC", "preview") + self.one("", "0", "1", "2")
        if self.likely(0.2):
            text += self.one(".post", "-", "post", "rev", ".r") + self.one("0", "1", "2")
        if self.likely(0.2):
            text += self.one(".dev", "dev", "-dev") + self.one("", "0", "1", "2")
        return text + self.one("+x", "+abc.1", "+5", "+A-1", "+01") if self.likely(0.1) else text

    def text(self):
        return self.one("foo", "FOO", "", "1.x", ".", "1..0", " 1.0") if self.likely(0.12) else self.version()

    def specifier(self):
        operator, version = self.one("==", "==", "!=", "<=", ">=", ">=", "<", ">", "~=", "==="), self.version()
        if operator in ("==", "!=") and self.likely(0.3):
            version = version.split("+")[0] + ".*"
        if operator == "~=":
            # of another spelling the prefix isn't that of the version
            version = str(pylock.Version(version))
        return operator + self.one("", " ") + (self.one("foo", "FOO") if operator == "===" and self.likely(0.4) else version)

    def versions(self):
        """The text of a set."""
        return self.one(",", ", ", " , ").join(self.specifier() for _ in range(self.one(0, 1, 1, 2, 2, 3)))

    def value(self, name):
        if name in NUMBERS:
            return self.one("3.8", "3.12", "3.12.4", "3.8.10", "2.7")
        if name == "extra":
            return self.one("a", "a-b", "docs")
        return self.one("linux", "win32", "posix", "nt", "it's", "x86_64", "a b", "Linux", "")

    def comparison(self):
        if self.likely(0.15):
            return "'%s' %s %s" % (self.value("extra"), self.one("in", "not in"), self.one("extras", "dependency_groups"))
        name = self.one("extra", *NAMES, *NUMBERS)
        operator = self.one("==", "!=", "in", "not in")
        if name in NUMBERS:
            operator = self.one(operator, "<", "<=", ">", ">=", "~=", "===")
        sides = [name, '"%s"' % self.value(name)]
        if self.likely(0.15) and operator != "~=":
            sides.reverse()
        return sides[0] + self.one(" ", "  ") + operator + " " + sides[1]

    def marker(self, depth=0):
        text = ""
        for turn in range(self.one(1, 1, 2, 3)):
            text += self.one(" and ", " or ") if turn else ""
            if self.likely(0.7):
                text += self.comparison()
            elif depth or self.likely(0.7):
                text += "(%s)" % self.comparison()
            else:
                text += "(%s and %s)" % (self.marker(1), self.comparison())
        return text


@unittest.skipUnless(NEW, BEFORE)
class RandomAgreement(unittest.TestCase):
    def same(self, row, *answers):
        """The two answers, or what is asked of each, are the same."""
        if callable(answers[0]):
            answers = [asked(answer) for answer in answers]
        if answers[0] != answers[1]:
            with self.subTest(row):
                self.assertEqual(answers[0], answers[1])

    def test_versions(self):
        questions = Questions(1)
        for _ in range(1000):
            text = questions.text()
            self.same(text, lambda: str(pylock.Version(text)), lambda: str(packaging.version.Version(text)))
            self.same(text, pylock.canonicalize_version(text), packaging.utils.canonicalize_version(text))
            if asked(pylock.Version, text) != "refused":
                for part in ("epoch", "release", "pre", "post", "dev", "local", "public", "base_version", "is_prerelease"):
                    self.same((text, part), getattr(pylock.Version(text), part), getattr(packaging.version.Version(text), part))

    def test_sets(self):
        questions = Questions(2)
        for _ in range(600):
            text, more, said = questions.versions(), questions.versions(), questions.one(None, None, True, False)
            pair = [asked(kind, text, said) for kind in (pylock.SpecifierSet, packaging.specifiers.SpecifierSet)]
            self.same((text, "refused"), *[isinstance(each, str) for each in pair])
            if isinstance(pair[0], str):
                continue
            self.same(text, *[(list(map(repr, each)), each.prereleases) for each in pair])
            self.same((text, more), lambda: list(map(str, pair[0] & more)), lambda: list(map(str, pair[1] & more)))
            self.same(text, *[list(map(repr, pickle.loads(pickle.dumps(copy.copy(each))))) for each in pair])
            if alike(text.split(","), ""):
                versions = [questions.text() for _ in range(questions.one(1, 2, 4, 8))]
                self.judged(text, pair, versions, questions.one(None, True, False))
            self.same(text, *[(str(each), repr(each)) for each in pair])

    def judged(self, text, pair, versions, said):
        row = text, said, versions
        for judges in (pair, *zip(*map(list, pair))):
            self.same(row, *[[version in judge for version in versions] for judge in judges])
            self.same(row, *[[judge.contains(version, said) for version in versions] for judge in judges])
            self.same(row, *[list(judge.filter(versions, said)) for judge in judges])
        self.same(row, *[[each.contains(version, said, True) for version in versions] for each in pair])
        read = [version for version in versions if asked(pylock.Version, version) != "refused"]
        kinds = pylock.Version, packaging.version.Version
        self.same(row, *[list(map(str, each.filter(map(kind, read)))) for each, kind in zip(pair, kinds)])
        self.same(row, *[list(each.filter([(version,) for version in read], said, lambda item: item[0])) for each in pair])

    def test_markers(self):
        questions = Questions(3)
        kinds = pylock.Marker, packaging.markers.Marker
        for _ in range(600):
            text, more = questions.marker(), questions.marker()
            pair, others = [asked(kind, text) for kind in kinds], [asked(kind, more) for kind in kinds]
            self.same((text, "refused"), *[isinstance(each, str) for each in pair])
            self.same(text, *[(str(each), repr(each)) for each in pair])
            if "(" not in text[:1] + more[:1]:
                self.same((text, more), *[(str(one & other), str(one | other), one == other) for one, other in zip(pair, others)])
            environment = {name: questions.value(name) for name in NAMES + NUMBERS}
            environment.update({"platform_release": "6", "platform_version": "x"})
            if questions.likely(0.5):
                environment["extra"] = questions.one("a", "A_b", "")
            for name in ("extras", "dependency_groups"):
                if questions.likely(0.6):
                    environment[name] = {questions.one("a", "A_b") for _ in range(questions.one(0, 1, 2))}
            for context in ("metadata", "lock_file", "requirement"):
                self.same((text, environment, context), *[
                    lambda marker=marker: marker.evaluate(environment, context) for marker in pair
                ])

    def test_requirements(self):
        questions = Questions(4)
        for _ in range(600):
            text = questions.one("a", "A_b", "a.b") + questions.one("", "", "[x]", "[x, Y_z]", " [x]", "[]")
            if questions.likely(0.2):
                text += questions.one(" @ ", "@") + questions.one("https://h/p.zip", "file:///x")
                text += questions.one("", " ; " + questions.marker(), ";x")
            else:
                versions = questions.versions()
                # a comma behind === belongs to the operand there
                versions = "" if "===" in versions and "," in versions else versions
                text += questions.one("%s", " %s", "(%s)") % versions + questions.one("", "; " + questions.marker())
            pair = [asked(kind, text) for kind in (pylock.Requirement, packaging.requirements.Requirement)]
            self.same((text, "refused"), *[isinstance(each, str) for each in pair])
            if not isinstance(pair[0], str):
                self.same(text, *[(str(each), repr(each), each.name, each.extras) for each in pair])
                self.same(text, *[(str(each.specifier), each.url, str(each.marker)) for each in pair])
                self.same(text, *[str(pickle.loads(pickle.dumps(copy.copy(each)))) for each in pair])


if __name__ == "__main__":
    unittest.main()
