"""What the compiled module says of a text, held to another of the library's calls for the same text.

These are of a version its normal forms and its kind; of a specifier set, where its specifiers lie. The normal form of a name is
held to PEP 503's own words for it, and the string of a marker, which the module writes itself, to that of its tree. And what it
keeps from one call to the next: the variables that a mapping before had, and tags that were cut of a text.
"""

import collections.abc
import copy
import itertools
import os
import pickle
import random
import re
import subprocess
import sys
import unittest

import support
from pylock import (
    Environment, Marker, Tag, Version, canonicalize_name, canonicalize_version, default_environment, is_normalized_name,
    parse_tag,
)
from pylock import _native
from pylock._errors import InvalidSpecifier, InvalidTag, InvalidVersion
from pylock._parser import text_of, tree_of
from pylock.specifiers import Specifier, SpecifierSet
from pylock.utils import parse_wheel_filename

NAME_LETTERS = "aZ0-_.\u00e9"
VERSION_PIECES = ("0", "1", "10", ".", "a", "rc", "post", "dev", "+", "!", "v")
# the fields of a record of the library
NORMAL, PUBLIC, BASE, EPOCH, RELEASE, PRE, POST, DEV, LOCAL = range(9)
# about where an order key writes a number in more bytes
ENDS = (2, 253, 256, 253 * 256, 254 * 256, 255 * 256, 2**16, 2**24, 2**64, 2**127)
NUMBERS = [end + step for end in ENDS for step in range(-2, 3)]


def short_texts(pieces, length):
    """All texts of up to so many pieces."""
    for count in range(length + 1):
        for chosen in itertools.product(pieces, repeat=count):
            yield "".join(chosen)


def random_version(dice):
    """A text that is a version, or nearly one."""
    text = dice.choice(("", "", "", "", "v", "1!", "0!", " "))
    text += ".".join([dice.choice(("0", "1", "10", "01", "00", "9", "123")) for _ in range(dice.randrange(1, 5))])
    text += dice.choice(("", "", "a1", "rc2", "b0", "a01", "a", "RC1", "-a1", "c1", "alpha1", "a.1", ".a1", "rc", "beta3"))
    text += dice.choice(("", "", "", ".post2", "post1", "-1", ".post01", ".post", ".rev2", "_post2", ".Post1"))
    text += dice.choice(("", "", "", ".dev0", "dev1", ".dev", ".dev01", ".DEV3", "-dev2"))
    return text + dice.choice(("", "", "", "", "+a", "+1.2", "+1.rc1", "+dev.post1", " ", "\u0661"))


def kinds(one):
    """Whether a version is a pre-release, a post-release and a development release."""
    return one.is_prerelease, one.is_postrelease, one.is_devrelease


def kinds_of(record):
    """The same of a record of the library."""
    has_pre, has_post, has_dev = [record[part] != "-" for part in (PRE, POST, DEV)]
    return has_pre or has_dev, has_post, has_dev


def parts(one):
    """The parts of a version as a record has them."""
    pre = one.pre and "%s%d" % one.pre
    fields = (one.public, one.base_version, one.epoch, ".".join(map(str, one.release)), pre, one.post, one.dev, one.local)
    return [str(one), *("-" if field is None else str(field) for field in fields)]


def normal_name(text):
    """The normal form of a name, as PEP 503 writes it."""
    return re.sub("[-_.]+", "-", text).lower()


class Names(unittest.TestCase):
    def test_short_texts(self):
        for text in short_texts(NAME_LETTERS, 4):
            normal = normal_name(text)
            if canonicalize_name(text) != normal or is_normalized_name(text) != (_native.is_name(text) and normal == text):
                self.fail((text, canonicalize_name(text), normal))

    def test_long_texts(self):
        dice = random.Random(49)
        for length in (63, 511, 512, 513, 5000):
            for letters in ("aZ0-_.", "a", "-", "aZ-\u00c9"):
                text = "".join([dice.choice(letters) for _ in range(length)])
                self.assertEqual(canonicalize_name(text), normal_name(text))


class Late(Version):
    """A version that is read after it was made."""

    def __init__(self):
        pass

    def read(self, text):
        super().__init__(text)
        self.label = text


class Versions(unittest.TestCase):
    def held(self, text):
        """Compares what is said of the text here and there. Whether it is a version."""
        try:
            record = _native.version_record(text).split("\t")
        except InvalidVersion:
            with self.assertRaises(InvalidVersion, msg=repr(text)):
                Version(text)
            self.assertEqual((canonicalize_version(text), _native.phase(text)), (text, None))
            return False
        normal, base = record[NORMAL], record[BASE]
        epoch, sign, release = base.rpartition("!")
        numbers = release.split(".")
        while len(numbers) > 1 and numbers[-1] == "0":
            numbers.pop()
        one = Version(text)
        said = (
            str(one), str(Version(normal)), kinds(one), _native.phase(text), _native.phase(one),
            canonicalize_version(text, strip_trailing_zero=False), canonicalize_version(text),
        )
        expected = kinds_of(record)
        stripped = epoch + sign + ".".join(numbers) + normal[len(base) :]
        if said != (normal, normal, expected, expected[0], expected[0], normal, stripped) or parts(one) != record:
            self.fail((text, said, parts(one), record))
        return True

    def test_short_texts(self):
        self.assertGreater(sum(map(self.held, short_texts(VERSION_PIECES, 4))), 500)

    def test_random_texts(self):
        dice = random.Random(440)
        self.assertGreater(sum(self.held(random_version(dice)) for _ in range(20_000)), 10_000)

    def test_numbers(self):
        """Numbers of each length that an order key has, in each part of a version."""
        forms = (
            "%d!1", "%d", "1.%d.0.2", "1a%d", "1rc%d", "1.post%d", "1.dev%d", "1b%d.post%d.dev%d", "%d!%d.%d.post%d", "1+%d",
            "%d.%d.dev%d+%d.rc1",
        )
        for number in NUMBERS:
            for form in forms:
                self.assertTrue(self.held(form % ((number,) * form.count("%"))))
        # a key that is long, and one with several numbers of many bytes
        long = ".".join(["300"] * 400) + ".post300.dev300"
        for text in (long, "1" * 30 + "!" + "9" * 38 + "a" + "7" * 30 + ".post" + "8" * 30):
            self.assertTrue(self.held(text) and self.held(text + "+rc1"))

    def test_attributes(self):
        """What a version is can't be assigned, nor deleted; nor has one without a text it."""
        for one in (Version("1.0-RC1"), Version("1"), parse_wheel_filename("a-1rc1-py3-none-any.whl")[1]):
            for name in ("is_prerelease", "is_postrelease", "is_devrelease", "release", "pre"):
                had = getattr(one, name)
                self.assertRaises(AttributeError, setattr, one, name, not had)
                self.assertRaises(AttributeError, delattr, one, name)
                self.assertEqual(getattr(one, name), had)
            for again in (copy.copy(one), copy.deepcopy(one), pickle.loads(pickle.dumps(one))):
                self.assertEqual(kinds(again), kinds(one))
        for name in ("is_prerelease", "is_postrelease", "is_devrelease", "release", "pre", "public", "base_version", "major"):
            # as in `packaging`, where a part has no value before its `__init__`
            self.assertRaises(AttributeError, getattr, Late.__new__(Late), name)
        late = Late()
        late.read("1.dev1")
        self.assertEqual((late.is_prerelease, late.label), (True, "1.dev1"))

    def test_kept_texts(self):
        """A version of a wheel's name has the library's normal form as its text."""
        dice = random.Random(427)
        for _ in range(2_000):
            text = random_version(dice).strip()
            try:
                record = _native.version_record(text).split("\t")
            except InvalidVersion:
                continue
            if "-" in text or "!" in text or not text.isascii() or "_" in text:
                continue
            one = parse_wheel_filename("a-%s-py3-none-any.whl" % text)[1]
            self.assertEqual((one.is_prerelease, str(one)), (kinds_of(record)[0], record[NORMAL]))
            self.assertEqual((kinds(one), one, hash(one)), (kinds_of(record), Version(text), hash(Version(text))))


class Sets(unittest.TestCase):
    def test_one_alone(self):
        for text in short_texts((">=", "===", "!=", "1", ".*", ",", " "), 4):
            try:
                items = _native.specifiers(SpecifierSet(text).text)
            except InvalidSpecifier:
                items = ()
            if len(items) == 1 and "," not in text:
                one = Specifier(text)
                self.assertEqual((str(one), one._spec, one, hash(one)), (str(items[0]), items[0]._spec, items[0], hash(items[0])))
                self.assertEqual("1" in one, "1" in items[0])
            else:
                with self.assertRaises(InvalidSpecifier):
                    Specifier(text)

    def test_made_again(self):
        one = Specifier(">= 1", True)
        self.assertEqual((str(one), one.prereleases, "2" in one), (">=1", True, True))
        one.__init__("===x")
        self.assertEqual((str(one), one.prereleases, one.version, "2" in one, "X" in one), ("===x", None, "x", False, True))
        with self.assertRaises(InvalidSpecifier):
            one.__init__("1")
        self.assertEqual((str(one), "X" in one), ("===x", True))
        for ask in (str, hash, lambda item: "1" in item, lambda item: item.admits("1")):
            with self.assertRaises(ValueError):
                ask(Specifier.__new__(Specifier))

    def test_short_texts(self):
        """The pieces of a set are its specifiers: each is one alone, and all of them together are the set."""
        found = 0
        for text in short_texts((">=", "==", "===", "~=", "1", "1.2", ".*", ",", " "), 5):
            try:
                kept = SpecifierSet(text)
            except InvalidSpecifier:
                continue
            found += 1
            items = list(kept)
            self.assertEqual(kept.normal_text, ",".join([SpecifierSet(str(item)).normal_text for item in items]))
            self.assertEqual([Specifier(item.operator + item.version) for item in items], items)
            first = {}
            for item in sorted(items, key=str):
                first.setdefault(item, str(item))
            self.assertEqual(str(kept), ",".join(first.values()))
        self.assertGreater(found, 300)


class Strings(unittest.TestCase):
    """Of a marker its string is that of its tree."""

    def text(self, dice, depth):
        """The text of a marker, with white space, parentheses and marks as they come."""
        pieces = []
        for _ in range(dice.choice((1, 1, 2, 3))):
            if depth and dice.random() < 0.5:
                pieces.append("(%s)" % self.text(dice, depth - 1))
            else:
                pieces.append(dice.choice((
                    "os_name=='nt'", "python_version  not\tin'3.8 3.9'", "'A_b'==extra", 'extra != "C.d"', "extra == os_name", "'a'in extras",
                    "\"it's\" >= sys_platform", "'\"' < os_name", "'((' ~= ')'", "extra === '\u0130_\u00e9'", "'and'not in dependency_groups",
                )))
            pieces.append(dice.choice((" and ", "\n or  ")))
        return "".join(pieces[:-1]).replace(") and (", ")and(")

    def test_random(self):
        dice = random.Random(1502)
        for _ in range(2_000):
            text = dice.choice(("", " ")) + self.text(dice, 4) + dice.choice(("", "\n"))
            marker = Marker(text)
            self.assertEqual(str(marker), text_of(tree_of(text)), text)
            self.assertEqual(marker._sets, tuple(name for name in ("extras", "dependency_groups") if re.search(r"in\W*%s\b" % name, text)), text)
            self.assertEqual(str(Marker(str(marker))), text_of(tree_of(str(marker))), text)

class Joined(unittest.TestCase):
    """A set that is joined of others has what the set of all their texts has, in whatever shape they were joined."""

    TEXTS = (">= 1.0, !=1.5", "", "<3,", "===1.7", ",", "!=1.5.0 , ~=1.2", ">=1.dev0")

    def shapes(self, draw, texts):
        """A set of the texts in their order, of which some were asked for what they have, or made of specifiers."""
        if len(texts) == 1:
            made = SpecifierSet(texts[0])
            return draw.choice((lambda: made, lambda: SpecifierSet(list(made)), lambda: (str(made), hash(made), "1" in made) and made))()
        middle = draw.randrange(1, len(texts))
        right = texts[middle:]
        both = self.shapes(draw, texts[:middle]) & (right[0] if len(right) == 1 and draw.random() < 0.3 else self.shapes(draw, right))
        draw.choice((lambda: None, lambda: both.text, lambda: len(list(both)), lambda: "1.7" in both))()
        return both

    def told(self, one):
        return (
            [str(item) for item in one], len(one), str(one), hash(one), one.prereleases, one.normal_text, one.is_unsatisfiable(),
            ["1.7" in one, "1.5" in one, "2.0rc1" in one, "x" in one], list(one.filter(["1.7", "1.7rc1", "x"])), one == SpecifierSet(one.text),
        )

    def test_shapes(self):
        draw = random.Random(5)
        for _ in range(400):
            texts = [draw.choice(self.TEXTS) for _ in range(draw.randint(1, 6))]
            made, wanted = self.shapes(draw, texts), SpecifierSet(",".join(texts))
            with self.subTest(texts):
                self.assertEqual(self.told(made), self.told(wanted))

    def test_parts_stay(self):
        """What is joined is what it was, and what is said of one isn't said of the other."""
        one, other = SpecifierSet(">=1"), SpecifierSet("<2")
        both = one & other
        more = both & "!=1.5"
        both.prereleases = True
        self.assertEqual([str(each) for each in (one, other, both, more)], [">=1", "<2", "<2,>=1", "!=1.5,<2,>=1"])
        self.assertEqual([each.prereleases for each in (one, other, both, more, both & "")], [None, None, True, None, True])
        one.__init__("==5")
        self.assertEqual((str(one), str(both), str(more)), ("==5", "<2,>=1", "!=1.5,<2,>=1"))

    def test_many(self):
        """Five thousand, from the left, from the right and in pairs."""
        count = 5_000
        sets = [SpecifierSet("!=1.%d" % number) for number in range(count)]
        left, right, pairs = sets[0], sets[-1], list(sets)
        for one in sets[1:]:
            left = left & one
        for one in reversed(sets[:-1]):
            right = one & right
        while len(pairs) > 1:
            pairs = [one & other for one, other in zip(pairs[::2], pairs[1::2])] + pairs[len(pairs) - len(pairs) % 2 :]
        wanted = ",".join("!=1.%d" % number for number in range(count))
        for joined in (left, right, pairs[0]):
            self.assertEqual((len(joined), joined.text), (count, wanted))
            self.assertEqual([str(item) for item in joined], wanted.split(","))
        # and let go of without having been asked
        left = right = SpecifierSet("")
        for one in sets:
            left, right = left & one, one & right
        del left, right

    def test_of_one_class(self):
        """What `in` asks, a class may say otherwise, and `filter` has nothing behind its end."""

        class Never(SpecifierSet):
            def contains(self, item, prereleases=None, installed=None):
                return False

        class Nothing(Specifier):
            def contains(self, item, prereleases=None):
                return False

        self.assertEqual(("1" in Never(">=0"), "1" in SpecifierSet(">=0"), "1" in Nothing(">=0")), (False, True, False))
        given = iter(["1rc1", "1", "2"])
        passing = SpecifierSet(">=0").filter(given)
        self.assertEqual((next(passing), list(passing), list(passing)), ("1", ["2"], []))
        passing = SpecifierSet(">=0").filter(["1", 5, "2"])
        self.assertEqual(next(passing), "1")
        self.assertRaises(TypeError, next, passing)
        self.assertEqual(list(passing), [])

    def test_said_again(self):
        """`is_unsatisfiable` is kept until something is said of pre-releases, or the set is read again."""
        one = SpecifierSet(">=1a1,<=1rc1")
        self.assertEqual([one.is_unsatisfiable() for _ in range(2)], [False, False])
        one.prereleases = False
        self.assertEqual([one.is_unsatisfiable() for _ in range(2)], [True, True])
        one._prereleases = None
        self.assertFalse(one.is_unsatisfiable())
        one._specs = (Specifier("<1"), Specifier(">1"))
        self.assertTrue(one.is_unsatisfiable())
        with self.assertRaises(AttributeError):
            del one.prereleases
        for ask in (str, hash, len, list, lambda one: "1" in one, lambda one: one.text, lambda one: one & "<1", lambda one: one.prereleases):
            with self.assertRaises(ValueError):
                ask(SpecifierSet.__new__(SpecifierSet))


class Layers(unittest.TestCase):
    MARKERS = (
        "os_name == 'a'", "sys_platform == 'a' or os_name != 'b'", "python_version >= '3.8' and platform_release < '5'",
        "extra == 'a' and os_name == 'a'", "implementation_name in 'a b'",
    )

    MORE = ({}, {}, {"extra": "A"}, {"extra": None}, {"no_variable": "x"}, {"os_name": 5}, {"extras": {"x"}})

    def test_mappings(self):
        """A mapping has the same value whatever was laid over before it."""
        dice = random.Random(508)
        markers = [Marker(text) for text in self.MARKERS]
        running = dict(default_environment())
        for _ in range(4_000):
            names = dice.sample(sorted(running), dice.randrange(5))
            mapping = {name: dice.choice(("a", "b", "3.9", "\u00e9", "\ud800")) for name in names}
            mapping.update(dice.choice(self.MORE))
            marker = dice.choice(markers)
            self.assertEqual(told(marker, mapping), told(marker, _Mapping(mapping)), mapping)
            if all(isinstance(value, str) and value.isascii() for value in mapping.values()):
                kept = Environment({name: value for name, value in dict(running, **mapping).items() if name in running})
                self.assertEqual(told(marker, mapping), told(marker, kept, extra=mapping.get("extra", "")), mapping)

    def test_of_texts_that_equal_others(self):
        """A mapping's texts count by their letters: one that says that it equals another changes no later answer."""

        class Alike(str):
            def __eq__(self, other):
                return True

            def __hash__(self):
                return hash("nt")

        marker = Marker("os_name == 'nt' or 'x' in extras")
        for right, wrong in (("nt", "posix"), ("posix", "nt")):
            for extras in ((), ["y"], [Alike("y")]):
                for make in (dict, _Mapping):
                    for context in ("lock_file", "metadata"):
                        for text in (Alike(wrong), right, Alike(right), wrong):
                            for name in ("os_name", Alike("os_name")):
                                mapping = make([(name, text), ("extras", extras)]) if make is dict else make({"os_name": text, "extras": extras})
                                self.assertIs(marker.evaluate(mapping, context), str.__eq__(text, "nt"), (text, extras))

    def test_refused(self):
        for arguments in ((), (5,), ({"os_name": 5},), ({"x": "y"},)):
            with self.assertRaises(TypeError):
                _native.Layers(*arguments)
        with self.assertRaises(TypeError):
            _native.Marker("os_name == 'a'")._value_over(5, None, None, False)


class _Mapping(collections.abc.Mapping):
    """A mapping that is no dict, so it goes another way."""

    def __init__(self, items):
        self.items_of = items

    def __getitem__(self, name):
        return self.items_of[name]

    def __iter__(self):
        return iter(self.items_of)

    def __len__(self):
        return len(self.items_of)


def told(marker, environment, **named):
    try:
        return marker.evaluate(environment, **named)
    except (ValueError, TypeError) as error:
        return type(error).__name__, str(error)


class Text(str):
    def lower(self):
        raise ZeroDivisionError


class Noted(Tag):
    """A class that is made from that of tags, with attributes of its own."""


class Tags(unittest.TestCase):
    def test_two_ways(self):
        """A tag of a text is that of its pieces, of any length and letters."""
        dice = random.Random(425)
        for _ in range(3_000):
            pieces = ["".join([dice.choice("azAZ09_.@[`{\u00c4\u03a3") for _ in range(dice.randrange(1, 20))]) for _ in range(3)]
            pieces = [piece.replace(".", "_") for piece in pieces]
            (found,) = parse_tag("-".join(pieces))
            made = Tag(*pieces)
            small = [piece.lower() for piece in pieces]
            self.assertEqual((found, hash(found), str(found)), (made, hash(made), "-".join(small)))
            self.assertEqual([found.interpreter, found.abi, found.platform], small)
            self.assertEqual([made.interpreter, made.abi, made.platform, str(made)], small + [str(found)])
        self.assertNotEqual(Tag("a-b", "c", "d"), Tag("a", "b-c", "d"))
        self.assertEqual(str(Tag("a-b", "c", "d")), str(Tag("a", "b-c", "d")))

    def test_ways(self):
        """Equal tags have one hash and one text, however they were made."""
        for pieces in (
            ("cp312", "abi3", "win32"), ("Py3", "NONE", "any"), ("py3", "none", "manylinux_2_17_x86_64"),
            ("\u00c4", "b", "\u0416"), ("", "", ""),
            ("a" * 300, "b" * 300, "C" * 300), ("a", "b", "c" * 511), ("I\u0307", "\u0130", "\u03a3\u03a3"),
            ("a\0b", "\0", "c\0"), ("abcdefgh", "abcdefg", "abcdefghi"), ("abcdefgH", "abcdefG", "Abcdefghi"),
        ):
            small = [piece.lower() for piece in pieces]
            text = "-".join(pieces)
            ways = [
                Tag(*pieces), Tag(*small), Tag(*map(Text, pieces)), Tag(pieces[0], platform=pieces[2], abi=pieces[1]),
                Noted(*pieces), *parse_tag(text), *parse_tag("-".join(small)), *parse_tag(text),
            ]
            ways += [copy.copy(ways[0]), copy.deepcopy(ways[1])]
            ways += [pickle.loads(pickle.dumps(one, 2)) for one in (ways[0], ways[4], ways[5])]
            parts = [[one.interpreter, one.abi, one.platform] for one in ways]
            self.assertEqual({(hash(one), str(one)) for one in ways}, {(hash(ways[0]), "-".join(small))})
            self.assertEqual(parts, [small] * len(ways))
            self.assertEqual({type(piece) for part in parts for piece in part}, {str})
            self.assertTrue(all(one == other and not one != other for one in ways for other in ways) and len(set(ways)) == 1)
        # half a character is in no text that is read
        self.assertEqual(str(Tag("\u00c4", "b", "\ud800")), "\u00e4-b-\ud800")
        self.assertRaises(InvalidTag, parse_tag, "\u00c4-b-\ud800")
        (found,) = parse_wheel_filename("a-1-cp312-abi3-win32.whl")[3]
        self.assertEqual((found, hash(found)), (Tag("cp312", "abi3", "win32"), hash(Tag("cp312", "abi3", "win32"))))

    def test_builds(self):
        """The text of a build stands as it is, whatever has an escape in the library's lines."""
        for build in ("\\", "\t", "\r", "\n", "\\t", "\\\\", "a\\b", "\0", "\\n\t", "_", "x"):
            self.assertEqual(parse_wheel_filename("a-1-1%s-3-e-y.whl" % build)[2], (1, build))

    def test_classes(self):
        """A tag is the compiled type itself, which others may be made from; it can't be changed."""
        self.assertIs(Tag, _native.Tag)
        self.assertEqual((Tag.__module__, Tag.__qualname__), ("pylock._tag", "Tag"))
        one = Noted("a", "b", "c")
        one.label = "x"
        self.assertEqual((pickle.loads(pickle.dumps(one)), type(pickle.loads(pickle.dumps(one)))), (one, Noted))
        self.assertIs(copy.copy(one), one)
        for one in (Tag("a", "b", "c"), *parse_tag("a-b-d")):
            for name in ("interpreter", "abi", "platform", "label"):
                self.assertRaises(AttributeError, setattr, one, name, "x")
        self.assertNotEqual(one, "a-b-d")
        given = ["a", "b", "c"]
        self.assertIs(Tag(*given).platform, given[2])

    def test_hashes(self):
        """Short texts of other letters have other hashes, but for one in many thousands."""
        texts = list(short_texts("ab0", 5))
        self.assertGreater(len({hash(Tag(text, "x", "y")) for text in texts}), len(texts) - 3)

    def test_secret(self):
        """Each process has other hashes: nobody can choose what falls together."""
        code = """
from pylock import SpecifierSet, Tag, Version
print(*[hash(one) for one in (Version("1.0"), Tag("P", "x", "y"), SpecifierSet(">=1"), *SpecifierSet(">=1"))])
"""
        found = []
        for seed in ("1", "2", "2"):
            environment = dict(os.environ, PYTHONPATH=support.MODULE, PYTHONHASHSEED=seed)
            found.append(subprocess.check_output([sys.executable, "-c", code], env=environment).split())
        self.assertEqual(found[1], found[2])
        for one, other in zip(found[0], found[1]):
            self.assertNotEqual(one, other)


if __name__ == "__main__":
    unittest.main()
