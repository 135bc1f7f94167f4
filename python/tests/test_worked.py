"""The worked examples of the repository, once through Python: the rows of crates/cases and of tools/check/rows and what stands
beside them as expected, and the example of the README."""

import os
import re
import sys
import tempfile
import unittest

from support import TOP, bytes_of, call_main, text_of, toml

sys.path.append(os.path.join(TOP, "tools", "check", "rows"))
from worked import bytes_in, title_of

import pylock
from pylock import _library as _native

READER = toml()
HEAD = b'lock-version = "1.0"\ncreated-by = "t"\n'
NOTHING = b'{"environment":{},"tags":[]}'
# The rows that stand in tools/check/rows; the others are those of crates/cases.
ROWS = ("replies", "plans", "explains")
STATUS = re.compile(r"(^|\n)status [0-9]\Z")


def answers():
    """What is expected under each title and kind of text, those of one title and kind in order.

    One title may stand in several files: commands are told with their lines (`> `), a report with its status.
    """
    found, blocks, kept = {}, [], None
    texts = [text_of("crates", "cases", "stdout"), *(text_of("tools", "check", "rows", name + ".txt") for name in ROWS)]
    for line in "\n".join(texts).split("\n"):
        if line.startswith("-- "):
            name, kept = line[3:], []
            blocks.append((name, kept))
        elif kept is not None:
            kept.append(line)
    for name, lines in blocks:
        text = "\n".join(lines).rstrip("\n")
        kind = "commands" if text.startswith("> ") else "report" if STATUS.search(text) else "other"
        found.setdefault((name, kind), []).append(text)
    return found


def field(text):
    """A text as the program prints it in a field."""
    if text is None or text == "-":
        return "-" if text is None else "\\-"
    for sign, escape in (("\\", "\\\\"), ("\t", "\\t"), ("\n", "\\n"), ("\r", "\\r")):
        text = text.replace(sign, escape)
    return text


def reply(words):
    """What the one-shot command prints, worked out by the module's own calls, and its status."""
    command, *texts = words
    try:
        if command == "version":
            return str(pylock.Version(texts[0])), 0
        if command == "name":
            return field(pylock.canonicalize_name(texts[0], validate=True)), 0
        if command == "match":
            return match(*texts)
        if command == "marker":
            return marker(*texts)
        if command == "requirement":
            one = pylock.Requirement(texts[0])
            # the extras in the order of the text, which a set doesn't tell
            extras = _native.requirement(texts[0])[1]
            return "\t".join((
                field(pylock.canonicalize_name(one.name)),
                field(extras and ",".join(map(pylock.canonicalize_name, extras.split(",")))),
                field(one.specifier.normal_text or None), field(one.url), field(one.marker and one.marker.text),
            )), 0
        if command == "wheel":
            name, version, build, tags = pylock.parse_wheel_filename(texts[0])
            record = _native.wheel(texts[0])
            assert tags == {tag for text in record[3].split(" ") for tag in pylock.parse_tag(text)}
            assert (build == ()) == (record[2] is None)
            return "\t".join((field(name), str(version), field(record[2]), record[3])), 0
        if command == "sdist":
            name, version = pylock.parse_sdist_filename(texts[0])
            return "\t".join((field(name), str(version))), 0
    except pylock.Refusal as refusal:
        return "refused\t" + refusal.word, 1
    raise AssertionError(words)


def match(specifiers, version):
    try:
        versions = pylock.SpecifierSet(specifiers)
    except pylock.InvalidSpecifier as refusal:
        return "refused\tset-" + refusal.word, 1
    try:
        return ("true" if versions.admits(version) else "false"), 0
    except pylock.InvalidVersion as refusal:
        return "refused\tversion-" + refusal.word, 1


def marker(text, environment):
    one = pylock.Marker(text)
    try:
        kept = pylock.Environment.read(environment.encode())
    except pylock.InvalidEnvironment as refusal:
        return "\t".join(("environment", *refusal.words)), 2
    try:
        return ("true" if one.evaluate_exactly(kept) else "false"), 0
    except pylock.MarkerFault as fault:
        return "fault\t" + fault.word, 1


def line_of(pick):
    """A plan line."""
    hashes = ",".join("%s=%s" % pair for pair in sorted(pick.hashes.items())) or None
    revision = pick.revision and "%s@%s" % pick.revision
    return "\t".join((
        str(pick.id), field(pick.name), field(pick.version), pick.kind, field(pick.file), field(pick.place), field(hashes),
        field(revision), field(pick.subdirectory),
    ))


def answer(session):
    """The answer as `select` prints it."""
    try:
        picks = session.answer()
    except pylock.PlanFault as fault:
        return "fault %d\t%s\n" % (fault.id, fault.code), False
    return "plan %d\n" % len(picks) + "".join(line_of(pick) + "\n" for pick in picks), True


def select(lock, environment, lines):
    """What `pylock select` prints, and its status."""
    try:
        session = pylock.Session(lock, environment)
    except pylock.InvalidEnvironment as refusal:
        return "\t".join(("environment", *refusal.words)) + "\n", 2
    except pylock.InvalidLock as refusal:
        return "\t".join(("lock", *refusal.words)) + "\n", 2
    printed, is_plan = answer(session)
    report, all_taken = [printed], True
    pieces = lines.split(b"\n")
    if not pieces[-1]:
        pieces.pop()
    for number, line in enumerate(pieces, 1):
        try:
            session.line(line.decode("utf-8", "surrogateescape"))
        except pylock.InvalidEdit as refusal:
            word = "text" if refusal.word == "syntax" else refusal.word
            report.append("refused %d\t%s\n" % (number, word))
            all_taken = False
        else:
            printed, is_plan = answer(session)
            report.append(printed)
    return "".join(report), 0 if is_plan and all_taken else 1


def commanded(words, lock, environment):
    """What `python -m pylock` prints for the words, with the files `lock` and `environment`, and its status."""
    with tempfile.TemporaryDirectory() as folder:
        for name, content in (("lock", lock), ("environment", environment)):
            with open(os.path.join(folder, name), "wb") as file:
                file.write(content)
        status, printed, _ = call_main(words, folder)
        return printed.decode(), status


@unittest.skipIf(READER is None, "there is no reader of TOML")
class Worked(unittest.TestCase):
    maxDiff = 2000

    @classmethod
    def setUpClass(cls):
        cls.expected = answers()

    def rows(self, file, kind, told):
        """The cases of a kind with what is expected of them, told as commands or as a report."""
        place = ("tools", "check", "rows") if file in ROWS else ("crates", "cases", "data")
        cases = READER.loads(text_of(*place, file + ".toml"))[kind]
        seen = {}
        for case in cases:
            name = title_of(case)
            place = seen[name] = seen.get(name, -1) + 1
            blocks = self.expected.get((name, told))
            if blocks is None or "brief" in case:
                # a title of several lines, or of a case that is told otherwise or in brief
                continue
            yield name, case, blocks[place] if len(blocks) > place else blocks[-1]

    def test_replies(self):
        count = 0
        for name, case, expected in self.rows("replies", "reply", "report"):
            words = [bytes_in(case["long"]).decode() if word == "#" else word for word in case["words"]]
            # the module's own calls make no documents of these
            if words[0] in ("files", "audit") or "--json" in words:
                continue
            with self.subTest(name):
                self.assertEqual("%s\nstatus %d" % reply(words), expected)
                count += 1
        self.assertGreater(count, 60)

    def test_runs(self):
        count = 0
        for name, case, expected in self.rows("runs", "run", "report"):
            lock = bytes_in(case["lock"]) if "lock" in case else HEAD + bytes_in(case.get("lines", ""))
            environment = bytes_in(case.get("environment", NOTHING.decode()))
            with self.subTest(name):
                report, status = select(lock, environment, bytes_in(case.get("input", "")))
                self.assertEqual("%sstatus %d" % (report, status), expected)
                count += 1
        self.assertGreater(count, 20)

    def commands(self, file, kind, words_of):
        count = 0
        for name, case, expected in self.rows(file, kind, "commands"):
            lock = bytes_in(case["lock"]) if "lock" in case else HEAD + bytes_in(case.get("lines", ""))
            environment = bytes_in(case.get("environment", NOTHING.decode()))
            for told in expected[2:].split("\n> "):
                line, _, report = told.partition("\n")
                if report == "refused by clap" or line.startswith("select "):
                    continue
                # what is told beside the report stands behind the status
                report, mark, rest = report.partition("status ")
                while mark and not rest[:1].isdigit():
                    more, mark, rest = rest.partition("status ")
                    report += "status " + more
                with self.subTest((name, line)):
                    self.assertEqual(commanded(words_of(line), lock, environment), (report, int(rest[0])))
                    count += 1
        return count

    def test_plans(self):
        words = lambda line: [line.split(" ")[0], "lock", "environment"] + [word for word in line.split(" ")[1:] if word]
        self.assertGreater(self.commands("plans", "plan", words), 30)
        self.assertGreater(self.commands("explains", "explain", words), 5)

    def test_documents(self):
        self.assertGreater(self.commands("documents", "document", lambda line: line.split(" ")), 10)
        self.assertGreater(self.commands("strict", "strict", lambda line: line.split(" ")), 10)


class Examples(unittest.TestCase):
    def test_readme(self):
        lock, environment = bytes_of("examples", "pylock.toml"), bytes_of("examples", "linux.json")
        report, status = select(lock, environment, bytes_of("examples", "edits.txt"))
        self.assertEqual(report, text_of("examples", "expected.txt"))
        plan = pylock.Lock.read(os.path.join(TOP, "examples", "pylock.toml")).plan(pylock.Environment.read(environment))
        self.assertEqual(len(plan), 11)
        self.assertEqual("plan 11\n" + "".join(line_of(pick) + "\n" for pick in plan), answer(pylock.Session(lock, environment))[0])
        self.assertTrue(report.startswith(answer(pylock.Session(lock, environment))[0]))

    def test_audited(self):
        printed, status = commanded(["audit", "lock"], bytes_of("examples", "audited.toml"), NOTHING)
        self.assertEqual((printed, status), (text_of("examples", "audited.txt"), 1))
        findings = pylock.Lock.read(bytes_of("examples", "audited.toml")).audit()
        self.assertEqual("findings %d" % len(findings), printed.split("\n", 1)[0])

    def test_environments(self):
        for name in ("linux.json", "macos.json", "windows.json"):
            environment = pylock.Environment.read(os.path.join(TOP, "examples", name))
            self.assertIn("sys_platform", environment.variables)
            self.assertTrue(environment.tags)


if __name__ == "__main__":
    unittest.main()
