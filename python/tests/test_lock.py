"""Locks, plans, sessions: every public call."""

import json
import random
import subprocess
import tempfile
import unittest

from support import program, refused
from test_manners import LINUX, LOCK, linux
from test_worked import answer

import pylock
from pylock import _library, _lock


class Locks(unittest.TestCase):
    def test_head(self):
        lock = pylock.Lock.read(LOCK)
        self.assertEqual(lock.extras, ("x-y", "z"))
        self.assertEqual(lock.dependency_groups, ("dev", "doc"))
        self.assertEqual(lock.default_groups, ("main",))
        self.assertEqual(lock.requires_python, pylock.SpecifierSet(">=3.8"))
        self.assertEqual(lock.environments, (pylock.Marker("sys_platform == 'linux'"), pylock.Marker("sys_platform == 'win32'")))
        bare = pylock.Lock.read(b'lock-version = "1.0"\ncreated-by = "t"\n')
        self.assertEqual((bare.extras, bare.requires_python, bare.environments, bare.packages), ((), None, (), ()))

    def test_packages(self):
        packages = pylock.Lock.read(LOCK).packages
        self.assertEqual([(one.id, one.name, one.version) for one in packages], [(1, "a", "1"), (2, "b", None), (3, "c", None), (4, "d", None)])
        self.assertEqual([[pick.kind for pick in one.sources] for one in packages], [["wheel", "sdist"], ["editable"], ["vcs"], ["archive"]])

    def test_plan(self):
        lock = pylock.Lock.read(LOCK)
        wheel = pylock.Pick(
            1, "a", "1", "wheel", "a-1-py3-none-any.whl", "w/a-1-py3-none-any.whl", None, "w/a-1-py3-none-any.whl", {"sha256": "00"}, None, None
        )
        sdist = pylock.Pick(1, "a", "1", "sdist", "a-1.tar.gz", "https://h/a-1.tar.gz", "https://h/a-1.tar.gz", None, {}, None, None)
        editable = pylock.Pick(2, "b", None, "editable", None, "b", None, "b", {}, None, "s")
        vcs = pylock.Pick(3, "c", None, "vcs", None, "https://h/c.git", "https://h/c.git", None, {}, ("git", "f0"), None)
        archive = pylock.Pick(4, "d", None, "archive", None, "d.zip", None, "d.zip", {}, None, None)
        plain = {"environment": LINUX, "tags": ["py3-none-any"]}
        for environment in (linux(), plain, json.dumps(plain).encode()):
            self.assertEqual(lock.plan(environment), [wheel, vcs])
        for options, picks in (
            ({"extras": ["X.Y"]}, [wheel, editable, vcs]), ({"all_extras": True}, [wheel, editable, vcs]), ({"default_groups": False}, [wheel]),
            ({"groups": ["DEV"]}, [wheel, vcs, archive]), ({"all_groups": True, "without_groups": ["main"]}, [wheel, archive]),
            ({"policies": [("A", "source")]}, [sdist, vcs]), ({"policies": [(":all:", "source"), ("a", "wheel")]}, [wheel, vcs]),
            ({"variables": {"sys_platform": "win32"}}, [wheel, vcs]),
        ):
            with self.subTest(str(options)):
                self.assertEqual(lock.plan(linux(), **options), picks)
                self.assertEqual(lock.plan(linux()), [wheel, vcs])
        self.assertEqual(lock.plan(linux([])), [sdist, vcs])
        self.assertEqual([pick.kind for pick in lock.files()], ["wheel", "sdist", "editable", "vcs", "archive"])

    def test_files(self):
        lock = pylock.Lock.read(b"""lock-version = "1.0"
created-by = "t"
[[packages]]
name = "a"
version = "1"
sdist = {path = "a-1.tar.gz", size = 12, upload-time = 2024-02-29T01:02:03Z, hashes = {}}
wheels = [{path = "a-1-py3-none-any.whl", size = -1, hashes = {}}]
""")
        wheel, sdist = lock.files()
        self.assertEqual(sdist, pylock.Pick(1, "a", "1", "sdist", "a-1.tar.gz", "a-1.tar.gz", None, "a-1.tar.gz", {}, None, None))
        self.assertEqual((sdist.size, sdist.upload_time), (12, "2024-02-29T01:02:03Z"))
        self.assertEqual((wheel.size, wheel.upload_time), (None, None))
        self.assertEqual([(one.finding, one.line, one.column) for one in lock.audit() if one.finding != "wrong-type"],
                         [("no-hash", 3, 1), ("no-hash", 3, 1)])
        (wrong,) = (one for one in lock.audit() if one.finding == "wrong-type")
        self.assertEqual((wrong.detail, wrong.line, wrong.column), ("wheels 1 size", 7, 43))

    def test_faults(self):
        lock = pylock.Lock.read(LOCK)
        with self.assertRaises(pylock.PlanFault) as caught:
            lock.plan(linux([]), policies=[("a", "wheel")])
        fault = caught.exception
        self.assertEqual((fault.id, fault.name, fault.code, fault.detail), (1, "a", "no-file", "wheels 1 sdist wheel"))
        self.assertEqual(str(fault), "entry 1 (`a`): no-file: wheels 1 sdist wheel")
        with self.assertRaises(pylock.PlanFault) as caught:
            lock.plan(linux(), variables={"sys_platform": "darwin"})
        fault = caught.exception
        self.assertEqual((fault.id, fault.name, fault.code, fault.detail), (0, None, "no-environment", None))
        self.assertEqual(str(fault), "the head of the lock: no-environment")

    def test_shown(self):
        # what is shown steers no terminal, and the parts stay as they are
        fault = pylock.PlanFault(1, "a", "no-file", "wheels 1 \u202ex\u2028")
        self.assertEqual(str(fault), "entry 1 (`a`): no-file: wheels 1 \\u{202e}x\\u{2028}")
        self.assertEqual(fault.detail, "wheels 1 \u202ex\u2028")
        finding = pylock.Finding(1, "a\u200f", "no-hash", "sdist \x1b[31m\t\x85\u00e9\u3000")
        refusal = pylock.StrictRefusal([finding])
        self.assertEqual(str(refusal), "refused strictly: entry 1 (`a\\u{200f}`): no-hash: sdist \\u{1b}[31m\\u{9}\\u{85}\u00e9\u3000")
        self.assertEqual(refusal.findings, (finding,))

    def test_explain(self):
        told = pylock.Lock.read(LOCK).explain(linux(), extras=["x-y"])
        self.assertEqual(told.head, pylock.Verdict(0, None, None, "ok", None))
        self.assertEqual(
            [(one.id, one.name, one.version, one.verdict, one.detail) for one in told.entries],
            [(1, "a", "1", "wheel", "a-1-py3-none-any.whl py3-none-any"), (2, "b", None, "editable", "b"), (3, "c", None, "vcs", "https://h/c.git"),
             (4, "d", None, "skipped", "'dev' in dependency_groups")],
        )

    def test_audit(self):
        findings = pylock.Lock.read(LOCK).audit()
        self.assertIn(pylock.Finding(4, "d", "no-hash", "archive d.zip"), findings)
        self.assertTrue(all(finding.finding for finding in findings))

    def test_audit_of_environments(self):
        never = "{name = 'a', marker = \"os_name == 'nt' and os_name == 'posix'\", directory = {path = 'a'}}"
        lock = pylock.Lock.read(f"lock-version = '1.0'\ncreated-by = 't'\npackages = [{never}]\n".encode())
        self.assertEqual(lock.audit(), [])
        self.assertEqual(lock.audit(environments=True), [pylock.Finding(1, "a", "never", None)])

    def test_strict(self):
        named = LOCK.replace(b'"X_y", ', b"")
        lock = pylock.Lock.read(named)
        found = (pylock.Finding(1, "a", "no-hash", "sdist a-1.tar.gz"), pylock.Finding(4, "d", "no-hash", "archive d.zip"))
        for ask in (
            lambda: lock.plan(linux(), strict=True), lambda: lock.explain(linux(), strict=True, extras=["none"]),
            lambda: pylock.Session(lock, linux(), strict=True), lambda: pylock.Session(named, b"{", strict=True),
        ):
            with refused(self, pylock.StrictRefusal, "no-hash", 1) as caught:
                ask()
            self.assertEqual((caught.exception.findings, caught.exception.words), (found, ("findings", "2")))
            self.assertEqual(str(caught.exception), "refused strictly: entry 1 (`a`): no-hash: sdist a-1.tar.gz, and 1 more")
        self.assertEqual([pick.name for pick in lock.plan(linux(), strict=False)], ["a", "c"])
        sound = named.replace(b'a-1.tar.gz"', b'a-1.tar.gz", hashes = {sha256 = "00"}').replace(b'd.zip"', b'd.zip", hashes = {sha256 = "00"}')
        lock = pylock.Lock.read(sound)
        self.assertEqual(lock.plan(linux(), strict=True, extras=["z"]), lock.plan(linux(), extras=["z"]))
        self.assertEqual(lock.explain(linux([]), strict=True), lock.explain(linux([])))
        self.assertEqual(pylock.Session(sound, linux(), strict=True).answer(), lock.plan(linux()))
        with refused(self, pylock.InvalidEnvironment, "json"):
            pylock.Session(sound, b"{", strict=True)
        with refused(self, pylock.InvalidLock, "toml"):
            pylock.Session(b"x", b"{", strict=True)

    def test_session(self):
        session = pylock.Session(pylock.Lock.read(LOCK), linux())
        names = lambda: [pick.name for pick in session.answer()]
        self.assertEqual((names(), session.judged), (["a", "c"], (0, 1, 2, 3, 4)))
        for edit, judged, expected in (
            (lambda: session.add_extra("x.y"), 1, ["a", "b", "c"]), (lambda: session.drop_extra("X-Y"), 1, ["a", "c"]),
            (lambda: session.add_group("dev"), 2, ["a", "c", "d"]), (lambda: session.drop_group("main"), 2, ["a", "d"]),
            (lambda: session.set("sys_platform", "win32"), 1, ["a", "d"]), (lambda: session.policy("A", "source"), 1, ["a", "d"]),
            (lambda: session.tags([]), 1, ["a", "d"]), (lambda: session.tags(["py3-none-any", pylock.Tag("cp312", "cp312", "any")]), 1, ["a", "d"]),
            (lambda: session.add('{name = "e", directory = {path = "e"}}'), 1, ["a", "d", "e"]),
            (lambda: session.put(5, '{name = "f", directory = {path = "e"}}'), 1, ["a", "d", "f"]), (lambda: session.delete(5), 0, ["a", "d"]),
            (lambda: session.line("policy a any"), 1, ["a", "d"]), (lambda: session.line("show"), 0, ["a", "d"]),
        ):
            self.assertEqual(edit(), judged)
            self.assertEqual(names(), expected)
        session.unset("python_full_version")
        self.assertEqual(session.judged, (0,))
        with self.assertRaises(pylock.PlanFault) as caught:
            session.answer()
        self.assertEqual((caught.exception.id, caught.exception.code), (0, "python-unknown"))
        self.assertEqual(session.explain().head.verdict, "python-unknown")


class Random(unittest.TestCase):
    """A thousand edits beside `pylock select` on the same lines."""

    WORDS = {
        "extra+": ["x-y", "X.y", "z", "w", ""], "extra-": ["x-y", "z", "-"], "group+": ["dev", "doc", "main", "x"], "group-": ["Dev", "main", ""],
        "set": ["sys_platform linux", "sys_platform win32", "python_full_version 3.12.4", "os_name ", "os.name x", "sys_platform"],
        "unset": ["python_full_version", "os_name", "x"], "tags": ["", "py3-none-any", "cp312-cp312-any py3-none-any", "py3"],
        "policy": ["a wheel", "a source", "A any", "b wheel", "- any", "a both"],
        "add": ['{name = "e", directory = {path = "e"}}', '{name = "a", version = "2", marker = "sys_platform == \'win32\'", sdist = {path = "s"}}', "5", '{name = "-"}'],
        "del": ["1", "2", "6", "8", "0", "x"],
        "put": ['1 {name = "a", version = "1", sdist = {path = "a-1.tar.gz"}}', '3 {name = "c\\tc", directory = {path = "c"}}', '4 {name = "d", directory = {path = "-"}}', "9 5"],
        "show": [], "fly": ["x"],
    }

    def lines(self):
        dice = random.Random(751)
        for _ in range(1000):
            command = dice.choice(list(self.WORDS))
            arguments = self.WORDS[command]
            yield command + " " + dice.choice(arguments) if arguments else command

    def test_beside_the_program(self):
        if program() is None:
            self.skipTest("crates/pylock/out/pylock isn't built")
        lines = list(self.lines())
        session = pylock.Session(LOCK, linux())
        report = [answer(session)[0]]
        for number, line in enumerate(lines, 1):
            try:
                session.line(line)
                report.append(answer(session)[0])
            except pylock.InvalidEdit as refusal:
                report.append("refused %d\t%s\n" % (number, refusal.word))
        with tempfile.NamedTemporaryFile() as lock, tempfile.NamedTemporaryFile() as environment:
            lock.write(LOCK)
            lock.flush()
            environment.write(json.dumps(linux()).encode())
            environment.flush()
            printed = subprocess.run(
                [program(), "select", lock.name, environment.name], input="".join(line + "\n" for line in lines).encode(), stdout=subprocess.PIPE
            ).stdout.decode()
        self.assertEqual("".join(report), printed)


class Plans(unittest.TestCase):
    """A plan is read of the records of a session."""

    NAMES = ("a-1-py3-none-any.whl", "a-1.tar.gz", "-", "a\tb", "a=b,c", "\u00e9", "")
    HASHES = ("{}", '{sha256 = "00"}', '{sha256 = "00", md5 = "1"}', '{md5 = "a,b=c"}', '{"a=b" = "c"}', '{sha256 = ""}', '{"x" = "-"}')

    def source(self, dice):
        kind = dice.choice(("wheels", "sdist", "sdist", "archive", "vcs", "directory"))
        if kind == "directory":
            return 'directory = {path = "a"}'
        if kind == "vcs":
            return 'vcs = {type = "git", url = "https://h/g", commit-id = "f0"}'
        place = dice.choice(('url = "https://h/a-1.tar.gz"',) * 8 + ('url = "https://h/%61"', 'url = "https://h/\u0061"', 'url = "-"', 'url = ""',
                            'path = "p"', 'path = "p", url = "u"', '"p\\u0061th" = "q"'))
        more = dice.choice(("", 'subdirectory = "s", ', 'subdirectory = "-", ')) if kind == "archive" else ""
        if kind != "archive" and dice.random() < 0.7:
            more = 'name = "%s", ' % dice.choice(self.NAMES[:1] if kind == "wheels" else self.NAMES[1:])
        table = "{%s%s, hashes = %s}" % (more, place, dice.choice(self.HASHES))
        return "%s = %s" % (kind, "[%s]" % table if kind == "wheels" else table)

    def lock(self, dice):
        text = 'lock-version = "1.0"\ncreated-by = "t"\n'
        for place in range(dice.randrange(1, 4)):
            version = dice.choice(("", 'version = "1"\n', 'version = "1.0-1"\n'))
            text += '[[packages]]\nname = "N%d"\n%s%s\n' % (place, version, self.source(dice))
        return text.encode()

    def test_answers(self):
        """A plan is that of the JSON document that the program prints."""
        dice, found = random.Random(49), {True: 0, False: 0}
        for _ in range(3000):
            content = self.lock(dice)
            try:
                session = pylock.Session(content, linux())
            except pylock.InvalidLock as refusal:
                with self.assertRaises(pylock.InvalidLock) as caught:
                    pylock.Lock.read(content)
                self.assertEqual(str(caught.exception), str(refusal))
                continue
            text, is_plan = session._kept.answer(True)
            document, lock = json.loads(text), pylock.Lock.read(content)
            found[is_plan] += 1
            if is_plan:
                picks = [_lock._pick(source) for source in document["plan"]]
                self.assertEqual((lock.plan(linux()), session.answer()), (picks, picks), content)
                continue
            fault = document["fault"]
            for answer in (session.answer, lambda lock=lock: lock.plan(linux())):
                with self.assertRaises(pylock.PlanFault) as caught:
                    answer()
                self.assertEqual(caught.exception.args, (fault["id"], fault.get("name"), fault["code"], fault.get("detail")))
        self.assertGreater(min(found.values()), 100)

    def test_environments(self):
        """The first environment is given to the session that judged the lock, and others start one of their own."""
        dice = random.Random(4)
        texts = ["linux", "win32", "", "\u00e9", "a\nb"]
        for _ in range(300):
            lock = pylock.Lock.read(LOCK)
            for _ in range(3):
                variables = {name: dice.choice(texts) for name in dice.sample(["sys_platform", "os_name", "python_full_version", "no_variable"], 3)}
                if "python_full_version" in variables:
                    variables["python_full_version"] = dice.choice(["3.12.4", "3.7", "x"])
                tags = dice.choice([[], ["py3-none-any"], ["cp312-cp312-any", "py3-none-any", "py3-none-any"]])
                environment = pylock.Environment(variables, tags)
                given = dice.choice([environment, {"environment": variables, "tags": tags}, environment])
                self.assertEqual(planned(lock.plan, given), planned(pylock.Session(LOCK, environment).answer))


def planned(call, *arguments):
    """The plan, or the words of the fault."""
    try:
        return call(*arguments)
    except pylock.PlanFault as fault:
        return str(fault)


class Runs(unittest.TestCase):
    """Runs of `select` by the pieces of their input."""

    def run_on(self, pieces, json_too=False):
        kept, printed = _library.run_start(LOCK, linux()._json, json_too)
        fed = [_library.run_feed(kept, json_too, piece) for piece in pieces]
        last, status = _library.run_end(kept, json_too)
        return [printed, *fed, last], status

    def test_pieces(self):
        for json_too in (False, True):
            for text in (b"", b"show", b"show\n", b"fly\nextra+ z\n\nset os_name nt", b"set sys_platform darwin\n"):
                whole = self.run_on([text], json_too)
                for cut in range(len(text)):
                    pieces, status = self.run_on([text[:cut], b"", text[cut:]], json_too)
                    self.assertEqual((b"".join(pieces), status), (b"".join(whole[0]), whole[1]))
                each, status = self.run_on([text[place : place + 1] for place in range(len(text))], json_too)
                self.assertEqual((b"".join(each), status), (b"".join(whole[0]), whole[1]))

    def test_answers(self):
        started = pylock.Session(LOCK, linux())
        first = answer(started)[0]
        started.set("sys_platform", "darwin")
        printed, status = self.run_on([b"fly\nset sys", b"_platform darwin\nsh", b"ow"])
        then = answer(started)[0]
        self.assertEqual(([text.decode() for text in printed], status), ([first, "refused 1\tcommand\n", then, "", then], 1))
        self.assertEqual(self.run_on([b"show"])[1], 0)

    def test_refused(self):
        with refused(self, pylock.InvalidLock, "toml"):
            _library.run_start(b"x", b"{", False)
        with refused(self, pylock.InvalidEnvironment, "json"):
            _library.run_start(LOCK, b"{", True)
        kept, _ = _library.run_start(LOCK, linux()._json, False)
        _library.run_end(kept, False)
        for call in (lambda: _library.run_feed(kept, False, b""), lambda: _library.run_end(kept, False)):
            self.assertRaisesRegex(ValueError, "closed", call)

    def test_limits(self):
        for pieces in ([b"show\n" * 1_000_000, b"", b"s"], [b"\n" * 1_000_001], [b"x" * 268_435_456, b"x"]):
            kept, _ = _library.run_start(b'lock-version = "1.0"\ncreated-by = "t"\n', linux()._json, False)
            for piece in pieces[:-1]:
                _library.run_feed(kept, False, piece)
            with refused(self, pylock.InvalidEdit, "input"):
                _library.run_feed(kept, False, pieces[-1])
            # it may only be let go of
            self.assertRaisesRegex(ValueError, "closed", _library.run_feed, kept, False, b"")

    def test_asked(self):
        for words, wanted in (
            (["select", "a", "b"], ("a", "b", None, None, None, None)), (["select", "--json", "--", "-a", "\t\\n"], ("-a", "\t\\n", None, None, None, "json")),
            (["select", "a", "--python=3.12", "--platform", "-", "--strict"], ("a", None, "3.12", "-", "strict", None)), (["select", "a"], None),
            (["select", "-", "a"], None), (["plan", "a", "b"], None), ([], None), (["select", "--help"], None), (["select", "\u00e9", "b"], ("\u00e9", "b", None, None, None, None)),
        ):
            self.assertEqual(_library.select_asked(tuple([b"pylock", *[word.encode() for word in words]])), wanted, words)


if __name__ == "__main__":
    unittest.main()
