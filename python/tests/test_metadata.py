"""Core metadata: its rules, and the same documents put to `packaging`."""

import copy
import email.errors
import email.parser
import importlib
import pickle
import unittest
from unittest import mock

from peer import needs, peer, seeded
import support  # noqa: F401 - puts the module on the path

import pylock.metadata as ours
from pylock import Requirement, Specifier, SpecifierSet, Version
from pylock.errors import ExceptionGroup
from pylock.metadata import InvalidMetadata, Metadata, RFC822Message, RFC822Policy, parse_email

theirs = peer("metadata")

HEAD = "Metadata-Version: 2.5\nName: A_b\nVersion: v1.0\n"
WHOLE = HEAD + """Keywords: a b,c
Project-URL: Home page, https://host/,x
Project-URL: b
Platform: x
Platform: y
Summary: s
License: one
 two
Classifier: c
Requires-Dist: a>1 ; os_name=='nt'
Requires-Python: >=3,<4
Provides-Extra: A_b
Dynamic: Summary
License-Expression: mit
License-File: a/b
Import-Name: a
Import-Namespace: b;private
Description-Content-Type: text/markdown; charset=UTF-8; variant=GFM
Home-page: h
Author: \u00e9
Requires: x
Provides: y
Obsoletes: z
Maintainer: m
Maintainer-email: q
Author-email: r
Download-URL: d
Supported-Platform: u
Requires-External: e
Provides-Dist: p
Obsoletes-Dist: o

body
more
"""
# documents, their raw fields, and what of them is none
PARSED = [
    ("", {}, {}),
    ("Name: a", {"name": "a"}, {}),
    ("NAME:a\n\nbody\n", {"name": "a", "description": "body\n"}, {}),
    ("Name: a\nname: b", {}, {"name": ["a", "b"]}),
    ("Colour: red\ncolour: blue", {}, {"colour": ["red", "blue"]}),
    ("Keywords: a, b,,c d", {"keywords": ["a", "b", "", "c d"]}, {}),
    ("Platform: a\nPlatform: b\nPlatform: a", {"platforms": ["a", "b", "a"]}, {}),
    ("Project-URL: a, b\nProject-URL: c,d,e\nProject-URL: f", {"project_urls": {"a": "b", "c": "d,e", "f": ""}}, {}),
    ("Project-URL: a, b\nProject-URL: a, c", {}, {"project-url": ["a, b", "a, c"]}),
    ("Description: a\n  b\n\n", {"description": "a\n  b"}, {}),
    ("Description: a\n\nbody", {}, {"description": ["a", "body"]}),
    ("Description: a\nDescription: b\n\nbody", {}, {"description": ["a", "b", "body"]}),
    ("License: a\n b\n\tc\nName: d", {"license": "a\n b\n\tc", "name": "d"}, {}),
    ("Import-Name:", {"import_names": []}, {}),
    ("Import-Name:\nImport-Name: a", {"import_names": ["", "a"]}, {}),
    ("Import-Namespace:", {"import_namespaces": [""]}, {}),
    ("Summary: =?utf-8?q?a?=", {"summary": "=?utf-8?q?a?="}, {}),
    ("Name: \u00e9\n\n\u00e9", {"name": "\u00e9", "description": "\u00e9"}, {}),
    (b"Name: \xc3\xa9\r\nVersion: 1\r\n\r\n\xc3\xa9\r\n", {"name": "\u00e9", "version": "1", "description": "\u00e9\r\n"}, {}),
    (b"Name: \xff\n", {}, {"name": ["\u00ff"]}),
    (b"Platform: \xff\nPlatform: \xc3\xa9", {}, {"platform": ["\u00ff", "\u00e9"]}),
    (b"Name: a\n\n\xff", {"name": "a"}, {"description": [b"\xff"]}),
    (b"Description: a\n\n\xff", {"description": "a"}, {"description": [b"\xff"]}),
    ("Name a\nVersion: 1", {"description": "Name a\nVersion: 1"}, {}),
    ("Version: 1\nbad line\nName: a", {"version": "1", "description": "bad line\nName: a"}, {}),
    ("From x\nName: a\n b\n\n\n c", {"name": "a\n b", "description": "\n c"}, {}),
    ("Content-Type: multipart/mixed; boundary=x\nName: a\n\nbody", {"name": "a", "description": "body"},
     {"content-type": ["multipart/mixed; boundary=x"]}),
]
# what stands behind the head, as a body too, where `packaging` fails or decodes
ENCODED = [
    ("Content-Type: multipart/mixed; boundary=x\n\n--x\n\na\n--x--\n", "--x\n\na\n--x--\n"),
    ("Content-Type: message/rfc822\n\nName: a\n\nb", "Name: a\n\nb"),
    (b"Content-Transfer-Encoding: base64\n\nYQ==\n", "YQ==\n"),
]
BASE = {"metadata_version": "2.5", "name": "a", "version": "1"}
# fields with values that are taken, and with others that aren't
VALUES = {
    "metadata_version": (["1.0", "1.1", "1.2", "2.1", "2.2", "2.3", "2.4", "2.5"], ["2.0", "2.6", "1", "", None, 5, []]),
    "name": (["a", "A_b", "a.b-c", "0"], ["", "a b", "-a", "a-", "\u00e9", "a\n", None]),
    "version": (["1", "v1.0-RC1", "1.0+abc", " 1"], ["", "1.x", "x", None]),
    "summary": (["", "a", "a" * 600, "a\u2028b", None], ["a\nb", "a\n"]),
    "description_content_type": (
        ["text/plain", "TEXT/Plain", "text/x-rst", "text/markdown", "text/plain; charset=UTF-8", "text/plain;charset=\"UTF-8\"",
         "text/markdown; variant=GFM", "text/markdown; charset=UTF-8; Variant=CommonMark", "text/plain; variant=x", "text/plain;",
         " text/plain ", "text/plain, text/html", "text/markdown; variant=GFM; variant=x", "text/x-rst; foo=bar", None],
        ["", "text", "text/html", "multipart/mixed", "text/plain; charset=latin-1", "text/plain; charset=utf-8", "text/plain x",
         "text/markdown; variant=gfm", "text/markdown; variant=x", "text/markdown; variant", "text/plain; charset", "/plain",
         "text/\u00e9", "text/x-rst; charset=ascii"],
    ),
    "dynamic": (
        [[], ["summary"], ["Summary", "Requires-Dist"], ["dynamic"], ["license-file", "import-name", "obsoletes"]],
        [["name"], ["Version"], ["metadata-version"], ["colour"], ["requires_dist"], [""], ["summary", "name"]],
    ),
    "provides_extra": ([[], ["a", "A_b", "a.b"], ["a", "A"]], [["a b"], [""], ["-a"], ["a", "b c"]]),
    "requires_dist": ([[], ["a", "b>1", "c;os_name=='nt'"], ["d[f,e]!=1.*"]], [[">1"], ["a", "b !"], ["a b"]]),
    "requires_python": (["", ">3", ">=3.8,<4", None], ["3", "x"]),
    "license_expression": (["MIT", "mit or (0bsd)", None], ["", "foo", "MIT OR"]),
    "license_files": (
        [[], ["LICENSE"], ["a/b", " a", "\u00e9", "~", "a?b", "[a]", ".", "C:a"]],
        [["/a"], ["//a"], ["../a"], ["a/../b"], ["a/.."], ["a.."], ["a\\b"], ["a*"], [""], ["./a"], ["a//b"], ["a/"], ["C:/a"],
         ["C:\\a"], ["a", "/b"]],
    ),
    "import_names": (
        [[], ["a"], ["a.b", "a", "a"], ["a; private", "b ;private", "c\t;\tprivate"], ["a "], ["\u00e9", "_a", "match", "print"]],
        [[""], ["a."], [".a"], ["a..b"], ["1a"], ["a-b"], ["class"], ["a.None"], ["a;"], ["a; Private"], ["a;private "],
         ["a;private;x"], [";private"], [" a"], ["a b"], ["*"], ["a", "b."]],
    ),
    "keywords": ([[], ["a", "b c"]], []),
    "project_urls": ([{}, {"a": "b", "c": ""}], []),
    "platforms": ([[], ["a", ""]], []),
    "author": (["", "a\nb", "a", None], []),
    "description": (["", "a\n", "\n a", "\u00e9\nFrom x\n.\n"], []),
}
VALUES["import_namespaces"] = VALUES["import_names"]
# raw values of another kind than the field's
OTHER_KINDS = [
    ("license_expression", ["MIT"]), ("license_expression", 5), ("requires_python", []), ("requires_python", [Specifier(">=1")]),
    ("requires_python", (Specifier("<2"), Specifier(">=1"))), ("requires_python", SpecifierSet(">=1")), ("requires_python", 5),
    ("requires_dist", ("a", "b")), ("requires_dist", "ab"), ("requires_dist", [Requirement("a")]), ("requires_dist", [None]),
    ("requires_dist", 5), ("version", Version("1")), ("version", 5), ("name", 5), ("name", ["a"]), ("summary", ["a"]), ("summary", 5),
    ("provides_extra", ("A_b",)), ("provides_extra", "ab"), ("provides_extra", [5]), ("dynamic", ("Summary",)), ("dynamic", [5]),
    ("dynamic", 5), ("license_files", ("a",)), ("license_files", "ab"), ("license_files", [5]), ("import_names", ("a",)),
    ("import_names", "ab"), ("import_names", [5]), ("keywords", ("a",)), ("keywords", 5), ("project_urls", []), ("classifiers", "ab"),
    ("description_content_type", 5), ("description", 5), ("metadata_version", 2.4), ("metadata_version", ["2.4"]),
]
# the version with which each field came (the specification's history)
SINCE = {
    "1.0": "platforms summary description keywords home_page author author_email license",
    "1.1": "supported_platforms download_url classifiers requires provides obsoletes",
    "1.2": "maintainer maintainer_email requires_dist provides_dist obsoletes_dist requires_python requires_external "
    "project_urls",
    "2.1": "description_content_type provides_extra",
    "2.2": "dynamic",
    "2.3": "",
    "2.4": "license_expression license_files",
    "2.5": "import_names import_namespaces",
}
EXAMPLE = {"requires_python": ">3", "license_expression": "MIT", "description_content_type": "text/plain", "dynamic": ["summary"],
           "project_urls": {"a": "b"}}
LISTS = set("""platforms supported_platforms keywords classifiers requires provides obsoletes requires_dist provides_dist
obsoletes_dist requires_external provides_extra license_files import_names import_namespaces""".split())
FIELDS = [name for names in SINCE.values() for name in names.split()]


def example(name):
    return EXAMPLE.get(name, ["x"] if name in LISTS else "x")


def plain(value):
    """A value of either library as texts."""
    if isinstance(value, (list, tuple)):
        return [plain(one) for one in value]
    return value if value is None or isinstance(value, dict) else str(value)


def errors(group):
    """The fields that are wrong, in order of the alphabet: `packaging` tells them in any."""
    return sorted((type(error).__name__, str(error.field), isinstance(error, ValueError)) for error in group.exceptions)


def answers(library, call):
    """What a library's object holds and writes, or the fields that are wrong in it; None where it fails over one."""
    try:
        metadata = call(library.Metadata)
    except library.ExceptionGroup as group:
        return errors(group)
    except (AttributeError, ValueError):
        return None
    held = {name: plain(getattr(metadata, name)) for name in ["metadata_version", "name", "version", *FIELDS]}
    return held, metadata.as_rfc822().as_bytes(), [(name, str(value)) for name, value in metadata.as_rfc822().items()]


class Reading(unittest.TestCase):
    def test_parsed(self):
        for data, raw, unparsed in PARSED:
            with self.subTest(data):
                self.assertEqual(parse_email(data), (raw, unparsed))
                if isinstance(data, str):
                    self.assertEqual(parse_email(data.encode()), (raw, unparsed))
        for data, body in ENCODED:
            self.assertEqual(parse_email(data)[0], {"description": body})
        self.assertRaises(UnicodeEncodeError, parse_email, "Name: \ud800")
        self.assertRaises(UnicodeEncodeError, parse_email, "\n\ud800")
        # a text may hold bytes, as `surrogateescape` has them
        for data, _, _ in PARSED:
            if isinstance(data, bytes):
                self.assertEqual(parse_email(data.decode("ascii", "surrogateescape")), parse_email(data))

    def test_read(self):
        """Headers and body are what `email` reads."""
        draw, plain_ones = seeded("metadata headers"), 0
        pieces = ["A", "Name", "b-c", ":", ": ", ": x", ":\ty ", "\n", "\n", "\n ", "\n\t", "\n\n", "\r\n", "\r", "\x0c", "\x85", "\xe9", "\x7f", "From ", " "]
        for count in range(2000):
            draw_of = pieces if count % 2 else pieces[:12]
            text = "".join(draw.choice(draw_of) for _ in range(draw.randrange(12)))
            text = draw.choice(["", "A: b\n", "A: b\nC: d"]) + text
            message = email.parser.HeaderParser().parsestr(text)
            with mock.patch.object(ours, "_PARSER") as parser:
                parser.parsestr.return_value = message
                headers, body = ours._read(text)
                plain_ones += not parser.parsestr.called
            self.assertEqual((list(headers), body), (list(message.raw_items()), message.get_payload()), text)
        self.assertTrue(300 < plain_ones < 1700, plain_ones)

    def test_whole(self):
        metadata = Metadata.from_email(WHOLE)
        self.assertEqual((metadata.name, str(metadata.version), metadata.license), ("A_b", "1.0", "one\n two"))
        self.assertEqual((metadata.dynamic, metadata.provides_extra, metadata.license_expression), (["summary"], ["a-b"], "MIT"))
        self.assertEqual(plain(metadata.requires_dist), ['a>1; os_name == "nt"'])
        again = Metadata.from_email(metadata.as_rfc822().as_bytes())
        for name in FIELDS:
            self.assertIsNotNone(getattr(metadata, name), name)
            if name != "license":
                self.assertEqual(plain(getattr(again, name)), plain(getattr(metadata, name)))
        self.assertEqual(again.as_rfc822().keys(), metadata.as_rfc822().keys())


class Meaning(unittest.TestCase):
    def refused(self, raw):
        with self.assertRaises(ExceptionGroup) as caught:
            Metadata.from_raw(raw)
        for error in caught.exception.exceptions:
            self.assertIsInstance(error, InvalidMetadata)
        return sorted(error.field for error in caught.exception.exceptions)

    def test_values(self):
        for name, (taken, refused) in VALUES.items():
            for value in taken:
                with self.subTest((name, value)):
                    raw = {**BASE, name: value}
                    before = copy.deepcopy(raw)
                    getattr(Metadata.from_raw(raw), name)
                    self.assertEqual(raw, before)
            for value in refused:
                with self.subTest((name, value)):
                    raw = {**BASE, name: value}
                    header = vars(Metadata)[name].header
                    self.assertEqual(self.refused(raw), [header])
                    with self.assertRaises(InvalidMetadata) as caught:
                        getattr(Metadata.from_raw(raw, validate=False), name)
                    self.assertEqual(caught.exception.field, header)

    def test_since(self):
        versions = list(SINCE)
        for since, names in SINCE.items():
            for name in names.split():
                for version in versions:
                    with self.subTest((name, version)):
                        raw = {**BASE, "metadata_version": version, name: example(name)}
                        if versions.index(version) < versions.index(since):
                            self.assertEqual(self.refused(raw), [vars(Metadata)[name].header])
                            self.assertIsNotNone(getattr(Metadata.from_raw(raw, validate=False), name))
                        else:
                            Metadata.from_raw(raw)

    def test_several(self):
        self.assertEqual(self.refused({}), ["metadata-version", "name", "version"])
        wrong = {"metadata_version": "9", "name": "-", "version": "x", "summary": "a\nb", "colour": "red"}
        wrong["requires_dist"] = ["a !", "b !"]
        self.assertEqual(self.refused(wrong), ["colour", "metadata-version", "name", "requires-dist", "summary", "version"])
        for text, fields in (
            ("Colour: red\nSummary: a\n b\nShape: round", ["colour", "shape"]),
            ("Name: b", ["name"]), ("Summary: a\n b", ["summary"]),
            ("Description: a\n\nbody", ["description"]), ("Project-URL: a,b\nProject-URL: a,c", ["project-url"]),
        ):
            with self.subTest(text), self.assertRaises(ExceptionGroup) as caught:
                Metadata.from_email(HEAD + text)
            self.assertEqual(sorted(error.field for error in caught.exception.exceptions), fields)
            Metadata.from_email(HEAD + text, validate=False)

    def made_of(self, library, name, value):
        """What a field is of a raw value, or the kind of the exception."""
        try:
            return repr(getattr(library.Metadata.from_raw({**BASE, name: value}, validate=False), name))
        except Exception as error:
            return type(error).__name__

    @needs(theirs)
    def test_other_kinds(self):
        for name, value in OTHER_KINDS:
            with self.subTest((name, value)):
                self.assertEqual(self.made_of(ours, name, value), self.made_of(theirs, name, alike(value)))

    def test_objects(self):
        error = pickle.loads(pickle.dumps(InvalidMetadata("a", "why")))
        self.assertEqual((error.field, str(error), error.args), ("a", "why", ("why",)))
        metadata = Metadata.from_raw({**BASE, "requires_dist": ["a"]})
        self.assertIs(metadata.requires_dist, metadata.requires_dist)
        for other in (copy.copy(metadata), copy.deepcopy(metadata), pickle.loads(pickle.dumps(metadata))):
            self.assertEqual(answers(ours, lambda kind: other), answers(ours, lambda kind: metadata))
        for cause, raw in ((pylock_error("version", "InvalidVersion"), {**BASE, "version": "x"}),
                           (pylock_error("utils", "InvalidName"), {**BASE, "provides_extra": ["-"]}),
                           (pylock_error("requirements", "InvalidRequirement"), {**BASE, "requires_dist": ["-"]}),
                           (pylock_error("specifiers", "InvalidSpecifier"), {**BASE, "requires_python": "-"}),
                           (pylock_error("licenses", "InvalidLicenseExpression"), {**BASE, "license_expression": "-"})):
            with self.assertRaises(ExceptionGroup) as caught:
                Metadata.from_raw(raw)
            self.assertIsInstance(caught.exception.exceptions[0].__cause__, cause)


def alike(value):
    """The value, with objects of `packaging` where it has those of this module."""
    if isinstance(value, (list, tuple)):
        return type(value)(map(alike, value))
    module = type(value).__module__.partition("pylock.")[2]
    return getattr(peer(module), type(value).__name__)(str(value)) if module else value


def pylock_error(module, name):
    return getattr(importlib.import_module("pylock." + module), name)


class Messages(unittest.TestCase):
    TEXTS = ["", "a", "a\nb", "a\n\n b\n", "\n a", " a ", "x" * 300, "\u00e9", "a\r\nb", "a: b", "=?utf-8?q?a?="]

    def test_lines(self):
        self.assertEqual(RFC822Policy().header_store_parse("Summary", "a\nb\n c"), ("Summary", "a\n         b\n          c"))
        message = RFC822Message()
        message["License"] = "a\rb"
        message.set_payload("\u00e9")
        self.assertEqual(message.as_bytes().decode(), "License: a\n         b\n\n\u00e9")
        # what is written is one header again
        for text in self.TEXTS + ["a\rb", "a\nName: b", "a\n\nName: b"]:
            raw = parse_email(Metadata.from_raw({**BASE, "license": text}).as_rfc822().as_bytes())[0]
            self.assertEqual({**raw, "license": None}, {**BASE, "license": None})
            self.assertEqual(raw["license"].split(), text.split())

    @needs(theirs)
    def test_beside(self):
        for text in self.TEXTS:
            with self.subTest(text):
                kept = [library.RFC822Policy().header_store_parse("License", text) for library in (ours, theirs)]
                self.assertEqual(kept[0], kept[1])
                written = []
                for library in (ours, theirs):
                    message = library.RFC822Message()
                    message["Summary"], message["License"] = "s", text
                    message.set_payload(text)
                    written.append((message.as_bytes(), message.as_string(), [str(value) for value in message.values()]))
                self.assertEqual(written[0], written[1])
        for name in ("utf8", "mangle_from_", "max_line_length", "linesep", "cte_type", "refold_source"):
            self.assertEqual(getattr(RFC822Policy(), name), getattr(theirs.RFC822Policy(), name))


class Random:
    """Raw fields and documents with an oddity or two."""

    def __init__(self, name):
        self.source = seeded(name)

    def raw(self):
        raw = dict(BASE, metadata_version=self.source.choice(["2.5", "2.5", "2.5", "2.4", "2.1", "1.2", "9"]))
        wrong = self.source.choice([0, 0, 0, 0.1, 0.5])
        for name in self.source.sample(list(VALUES), self.source.randrange(8)):
            taken, refused = VALUES[name]
            if name != "metadata_version" or wrong:
                raw[name] = copy.deepcopy(self.source.choice(refused if refused and self.source.random() < wrong else taken))
        for name in self.source.sample(FIELDS, self.source.randrange(4)):
            raw.setdefault(name, example(name))
        if self.source.random() < wrong / 2:
            raw[self.source.choice(["colour", "license-file"])] = "x"
            raw.pop(self.source.choice(["name", "version", "metadata_version"]))
        return raw

    LINES = WHOLE.split("\n\n", 1)[0].split("\n")
    ODD = [
        "Summary: \u00e9", "Colour: red", "Keywords:", "Import-Name:", "Import-Name: b", "Project-URL: b, x",
        " continued", "\tx", "", "no header", "Description: d", "name: b", "Requires-Dist: a b", "Provides-Extra: -",
        "License-File: ../a", "Platform:", "Classifier: c", "X: a\rb",
    ]

    def document(self):
        lines = HEAD.strip().split("\n") + self.source.sample(self.LINES[3:], self.source.randrange(6))
        for _ in range(self.source.choice([0, 0, 1, 1, 2, 4])):
            lines.insert(self.source.randrange(len(lines) + 1), self.source.choice(self.ODD))
        end = self.source.choice(["\n", "\n", "\r\n"])
        data = end.join(lines) + self.source.choice(["", end, end * 2, end * 2 + "body", end * 3 + "b\u00e9" + end])
        if self.source.random() < 0.5:
            return data
        data = data.encode()
        return data.replace(b"\xc3", b"") if self.source.random() < 0.3 else data


@needs(theirs)
class Beside(unittest.TestCase):
    def both(self, call, what):
        mine, expected = answers(ours, call), answers(theirs, call)
        with self.subTest(what):
            if expected is None:
                # over a raw field that it doesn't know, and over a type in several lines
                self.assertTrue({"colour", "license-file", "description-content-type"} & {field for _, field, _ in mine})
            else:
                self.assertEqual(mine, expected)
        return isinstance(expected, tuple)

    def test_parsed(self):
        for data, _, _ in PARSED:
            with self.subTest(data):
                self.assertEqual(parse_email(data), theirs.parse_email(data))

    def test_values(self):
        for name, values in VALUES.items():
            for value in values[0] + values[1]:
                self.both(lambda kind: kind.from_raw({**BASE, name: copy.deepcopy(value)}), (name, value))
        for name in FIELDS:
            for version in SINCE:
                raw = {**BASE, "metadata_version": version, name: example(name)}
                self.both(lambda kind: kind.from_raw(raw), raw)

    def test_random_fields(self):
        made = Random("metadata fields")
        taken = 0
        for _ in range(800):
            raw = made.raw()
            taken += self.both(lambda kind: kind.from_raw(copy.deepcopy(raw)), raw)
        self.assertTrue(200 < taken < 700, taken)

    def test_random_documents(self):
        made = Random("metadata documents")
        taken = 0
        for _ in range(1200):
            data = made.document()
            with self.subTest(data):
                self.assertEqual(parse_email(data), theirs.parse_email(data))
            taken += self.both(lambda kind: kind.from_email(data), data)
        self.assertTrue(300 < taken < 1000, taken)

    def test_differences(self):
        """What the page has as different, is."""
        for data, _ in ENCODED[:2]:
            self.assertRaises(AssertionError, theirs.parse_email, data)
        self.assertEqual(theirs.parse_email(ENCODED[2][0])[0], {"description": "a"})
        self.assertEqual(theirs.parse_email("\n\udcff")[0], {"description": "\ufffd"})
        failing = [({"colour": "x", "metadata_version": "9"}, AttributeError)]
        failing += [({"description_content_type": "text/plain;\n x=y"}, ValueError)]
        for raw, error in failing:
            self.assertRaises(error, theirs.Metadata.from_raw, {**BASE, **raw})
            self.assertRaises(ExceptionGroup, Metadata.from_raw, {**BASE, **raw})
        written = theirs.Metadata.from_raw({**BASE, "author": "a\rb"}).as_rfc822()
        try:
            self.assertNotIn(b"        b", written.as_bytes())
        except email.errors.MessageError:
            # later releases of Python refuse to write it
            pass

    def test_names(self):
        self.assertEqual(sorted(ours.__all__), sorted(theirs.__all__))
        self.assertEqual(set(ours.RawMetadata.__annotations__), set(theirs.RawMetadata.__annotations__))
        public = [{name for name in dir(library.Metadata) if not name.startswith("_")} for library in (ours, theirs)]
        self.assertEqual(public[0], public[1])


if __name__ == "__main__":
    unittest.main()
