"""`python -m pylock` is the program: its status, standard output and standard error are those of the built one, byte for byte, and come
as soon."""

import contextlib
import errno
import json
import os
import re
import signal
import subprocess
import sys
import tempfile
import threading
import unittest
from unittest import mock

from support import MODULE, TOP, bytes_of, call_main, program, text_of, toml

sys.path.append(os.path.join(TOP, "tools", "check", "rows"))
from worked import bytes_in

import pylock
import pylock.__main__

PROGRAM = program() and os.path.abspath(program())
READER = toml()
EXAMPLES = os.path.join(TOP, "examples")
CHECK = os.path.join(TOP, "tools", "check")
HEAD = b'lock-version = "1.0"\ncreated-by = "t"\n'
NOTHING = b'{"environment":{},"tags":[]}'
ENVIRONMENT = b'{"environment":{},"tags":["py3-none-any"]}'
COMMANDS = ("plan", "explain", "select", "files", "audit", "diff", "environment", "version", "match", "name", "marker", "requirement", "wheel", "sdist")
LOCK, LINUX = "pylock.toml", "linux.json"
MOST = 268_435_456
SECONDS = 100


def module_environment():
    if os.environ.get("PYLOCK_INSTALLED"):
        return dict(os.environ)
    return dict(os.environ, PYTHONPATH=os.pathsep.join(filter(None, (MODULE, os.environ.get("PYTHONPATH")))))


def run(command, words, folder, **streams):
    """What a process does: its status, standard output and standard error."""
    if not {"stdin", "input"} & set(streams):
        streams["stdin"] = subprocess.DEVNULL
    streams.setdefault("stdout", subprocess.PIPE)
    ran = subprocess.run([*command, *words], cwd=folder, env=module_environment(), stderr=subprocess.PIPE, timeout=SECONDS, **streams)
    return ran.returncode, ran.stdout and without_sum(ran.stdout), ran.stderr


def without_sum(printed):
    """Without the sum of the sources, which the built program alone has."""
    return re.sub(rb"(?m)^sources .*, proved", b"sources, proved", printed)


def run_program(words, folder, **streams):
    return run([PROGRAM], words, folder, **streams)


def run_module(words, folder, **streams):
    return run([sys.executable, "-m", "pylock"], words, folder, **streams)


@unittest.skipIf(PROGRAM is None, "there is no built program")
class Same(unittest.TestCase):
    maxDiff = 2000

    def setUp(self):
        made = tempfile.TemporaryDirectory()
        self.addCleanup(made.cleanup)
        self.folder = made.name

    def file(self, name, content):
        with open(os.path.join(self.folder, name), "wb") as file:
            file.write(content)

    def same(self, *words, given=b"", folder=None):
        """The module, called here, does as the program does."""
        folder = folder or self.folder
        with self.subTest(words):
            wanted = run_program(words, folder, input=given)
            status, printed, said = call_main(words, folder, given)
            self.assertEqual((status, without_sum(printed), said), wanted)

    def same_process(self, *words, folder=EXAMPLES, path=None, flags=os.O_RDONLY, **streams):
        """The same in a process of its own, with the file of a path as standard input."""
        with self.subTest(words):
            told = []
            for run_either in (run_program, run_module):
                if path is not None:
                    streams["stdin"] = os.open(path, flags)
                told.append(run_either(words, folder, **streams))
                if path is not None:
                    os.close(streams["stdin"])
            # a long difference takes long to show
            self.assertTrue(told[1] == told[0], [(status, (printed or b"")[:2000], said) for status, printed, said in told])


class Words(Same):
    def test_help(self):
        for words in ([], ["--help"], ["-h"], ["help"], ["--version"], ["-V"], ["help", "fly"], ["help", "help"]):
            self.same(*words)
        for command in COMMANDS:
            for words in ([command, "--help"], [command, "-h"], ["help", command]):
                if command == "environment":
                    status, printed, said = run_program(words, self.folder)
                    self.assertEqual(call_main(words, self.folder), (status, printed + pylock.__main__._MORE_HELP, said))
                else:
                    self.same(*words)
        self.same_process("plan", "--help")
        self.same_process("--version")

    def test_wrong(self):
        for words in (
            ["fly"], ["\x1b[31m"], ["--fly"], ["plan"], ["select"], ["plan", "a", "b", "c"], ["plan", "--fly", "a"], ["plan", "a", "b", "--extra"],
            ["plan", "a", "b", "--json", "--json"], ["plan", "a", "b", "--python", "3.12"], ["plan", "a", "--python", "3.12"],
            ["plan", "--python", "3.7", "--platform", "linux", LOCK], ["plan", "--python", "3.12", "--platform", "darwin", LOCK],
            ["plan", "-", "-"], ["diff", "-", "-"], ["diff", "a"], ["diff", "a", "b", "--extra", "x"], ["diff", "-", "a", "--in", "-"],
            ["select", "-", "a"], ["select", "a", "-"], ["version"], ["version", "1", "2"], ["match", "1"], ["marker"], ["environment", "--json"],
            ["environment", "--python", "3.12"], ["environment", "--python", "3.12", "--platform", "x"], ["environment", "x"],
            ["plan", LOCK, LINUX, "--format", "x"], ["plan", LOCK, LINUX, "--format", "urls", "--json"], ["files", LOCK, "--format", "requirements"],
            ["plan", LOCK, LINUX, "--extra", "tset"], ["plan", LOCK, LINUX, "--extra", "tset", "--json"], ["plan", LOCK, LINUX, "--extra=-"],
            ["plan", LOCK, LINUX, "--set", "a\tb"], ["explain", LOCK, LINUX, "--group", "\u202e"], ["name", "-"], ["name", "--", "-"], ["version", ""],
            ["plan", "--", LOCK, LINUX], ["plan", "--", "--in=x", LINUX], ["version", b"\xff"], ["plan", b"a\xff", LINUX], [b"\xff"], ["plan", LOCK, b"\xc3"],
        ):
            self.same(*words, folder=EXAMPLES)
        for words in (["version", b"\xff"], ["plan", b"a\xff", LINUX], ["fly"]):
            self.same_process(*words)

    def test_examples(self):
        for words in (
            ["plan", LOCK, LINUX], ["plan", LOCK, LINUX, "--extra", "science", "--only-binary", ":all:"], ["plan", LOCK, LINUX, "--json"],
            ["plan", LOCK, LINUX, "--no-binary", "foo", "--set", "python_version=3.9"], ["plan", LOCK, LINUX, "--format", "requirements"],
            ["plan", LOCK, LINUX, "--format", "requirements-local"], ["plan", LOCK, "--python", "3.12", "--platform", "linux"],
            ["plan", LOCK, LINUX, "--format=urls"], ["plan", LOCK, LINUX, "--format", "cyclonedx"],
            ["files", LOCK, "--format", "sha256sum"], ["files", LOCK, "--format", "aria2"],
            ["explain", LOCK, "windows.json"], ["explain", LOCK, "macos.json", "--json"], ["files", LOCK], ["audit", "audited.toml"], ["audit", LOCK, "--json"],
            ["status", LOCK, LINUX, "--installed", "installed.json"], ["check", LOCK, "pyproject.toml", LINUX, "--json"], ["show", LOCK],
            ["audit", LOCK, "--environments"], ["plan", "--strict", "audited.toml", LINUX], ["select", "--strict", "audited.toml", LINUX], ["diff", LOCK, "audited.toml"],
            ["diff", LOCK, "audited.toml", "--json"], ["diff", LOCK, "audited.toml", "--in", LINUX, "--extra", "science"],
            ["diff", LOCK, "audited.toml", "--in=" + LINUX], ["diff", LOCK, LOCK, "--python=3.12", "--platform=windows"],
            ["environment", "--python", "3.12", "--platform", "linux"], ["environment", "--python=3.13t", "--platform=macos"],
            ["version", "v1.0-RC.1"], ["match", ">=2.8.1, ==2.8.*", "2.8.3"], ["name", "Foo__Bar"], ["marker", 'os_name == "posix"', LINUX],
            ["marker", "os_name == 'nt'", "--python", "3.12", "--platform", "windows"], ["requirement", "requests[security] >= 2.8.1"],
            ["wheel", "numpy-2.2.1-cp312-cp312-win_amd64.whl"], ["sdist", "Foo.Bar-1.0.tar.gz"], ["sdist", "Foo.Bar", "--json"],
        ):
            self.same(*words, folder=EXAMPLES)
        for options in ([], ["--json"], ["--strict"]):
            self.same("select", LOCK, LINUX, *options, given=bytes_of("examples", "edits.txt"), folder=EXAMPLES)
            self.same("select", LOCK, "--python", "3.12", "--platform", "linux", *options, given=b"extra+ science\nfly", folder=EXAMPLES)
        self.same_process("plan", LOCK, LINUX)
        self.same_process("select", LOCK, LINUX, input=bytes_of("examples", "edits.txt"))

    def test_table(self):
        """The table of tools/check/program."""
        count = 0
        for line in text_of("tools", "check", "commands.tsv").split("\n"):
            if not line or line.startswith("#"):
                continue
            _, _, _, _, _, given, *words = [unescaped(field) for field in line.split("\t")]
            text = b"" if given in (b"closed", b"nothing") else bytes_of("tools", "check", given[1:].decode()) if given[:1] == b"=" else given
            # where the program wants an environment the module has one
            if not run_program(words, CHECK, input=text)[2].startswith(pylock.__main__._NO_ENV):
                self.same(*words, given=text, folder=CHECK)
                count += 1
        self.assertGreater(count, 100)


def unescaped(field):
    """The bytes of a field with escapes of printf."""
    letters = {b"n": b"\n", b"t": b"\t", b"r": b"\r", b"\\": b"\\"}
    return re.sub(rb"\\(x[0-9a-fA-F]{2}|.)", lambda found: letters.get(found[1]) or bytes([int(found[1][1:], 16)]), field.encode())


@unittest.skipIf(READER is None, "there is no reader of TOML")
class Rows(Same):
    """The rows of tools/check/rows and of crates/cases."""

    def read(self, kind, *names):
        return READER.loads(text_of(*names))[kind]

    def files(self, case, environment=NOTHING):
        self.file("lock", bytes_in(case["lock"]) if "lock" in case else HEAD + bytes_in(case.get("lines", "")))
        self.file("environment", bytes_in(case["environment"]) if "environment" in case else environment)

    def test_replies(self):
        for case in self.read("reply", "tools", "check", "rows", "replies.toml"):
            command, *texts = [bytes_in(case["long"]).decode() if word == "#" else word for word in case["words"]]
            form = texts[:1] if texts[0] == "--json" else []
            texts = texts[len(form) :]
            if command in ("files", "audit", "marker"):
                self.file("file", texts[-1].encode())
                texts[-1] = "file"
            self.same(command, *form, "--", *texts)

    def test_options(self):
        for name, kind in (("plans", "plan"), ("explains", "explain")):
            for case in self.read(kind, "tools", "check", "rows", name + ".toml"):
                self.files(case)
                for options in case["options"]:
                    self.same(kind, "lock", "environment", *options.split())
        for case in self.read("audit", "tools", "check", "rows", "audits.toml"):
            self.files(case)
            self.same("audit", "lock")

    def test_commands(self):
        for name in ("document", "strict"):
            for case in self.read(name, "crates", "cases", "data", {"document": "documents.toml"}.get(name, "strict.toml")):
                self.files(case)
                for command in case["commands"]:
                    self.same(*command.split(" "))

    def test_diffs(self):
        for case in self.read("diff", "tools", "check", "rows", "diff.toml"):
            self.file("old", HEAD + case["old"].encode())
            self.file("new", HEAD + case["new"].encode())
            self.same("diff", "old", "new")
            for installed in case.get("environments", ()):
                self.file("environment", installed["environment"].encode())
                self.same("diff", "old", "new", "--in", "environment")

    def test_exports(self):
        for case in self.read("export", "tools", "check", "rows", "exports.toml"):
            self.files(case, ENVIRONMENT)
            self.same(*case["command"].split(" "))

    def test_runs(self):
        for place in (("tools", "check", "rows", "select.toml"), ("tools", "check", "rows", "runs.toml"), ("crates", "cases", "data", "runs.toml")):
            for case in self.read("run", *place):
                self.files(case)
                given = bytes_in(case.get("input", ""))
                self.same("select", "lock", "environment", *["--strict"] * case.get("strict", False), given=given)
                self.same("select", "--json", "lock", "environment", given=given)


class Files(Same):
    def test_unread(self):
        self.file("a", HEAD)
        os.mkdir(os.path.join(self.folder, "folder"))
        os.symlink("loop", os.path.join(self.folder, "loop"))
        # no one may read the last
        for name in ("nothere", "folder", ".", "a/x", "loop", "x" * 300, "", "\x1b\t\u202e", "/proc/self/mem", "/proc/sys/net/ipv4/route/flush"):
            for words in (["plan", name, "a"], ["explain", "--json", "a", name], ["select", name, "a"], ["select", "a", name], ["files", name], ["audit", name],
                          ["diff", "a", name], ["diff", name, "a", "--in", "a"], ["diff", "a", "a", "--in", name], ["diff", "a", "a", "--in=" + name],
                          ["marker", "os_name == 'nt'", name], ["plan", name, name], ["plan", name, "--python", "3.12", "--platform", "linux"]):
                self.same(*words)
        self.same_process("plan", "nothere", "a")

    def test_why(self):
        """What may not be read, whoever tries it."""
        self.file("a", HEAD)
        before = os.getcwd()
        os.chdir(self.folder)
        self.addCleanup(os.chdir, before)
        for number, why in ((errno.ENOENT, b"no such file"), (errno.EISDIR, b"a directory"), (errno.EACCES, b"permission"), (errno.EPERM, b"permission"),
                            (errno.EIO, b"can't be read"), (errno.ENOTDIR, b"can't be read"), (errno.EMFILE, b"can't be read")):
            with mock.patch("builtins.open", side_effect=OSError(number, "x")):
                self.assertEqual(pylock.__main__._Program([b"pylock", b"files", b"a"]).run(), (3, b"", b"pylock: file: a: %s\n" % why))
            # of a read that fails one reason is told
            with mock.patch("os.read", side_effect=OSError(number, "x")):
                for path in (b"a", b"-"):
                    wanted = b"pylock: file: %s: can't be read\n" % path
                    self.assertEqual(pylock.__main__._Program([b"pylock", b"files", path]).run(), (3, b"", wanted))

    def test_read_once(self):
        """A word that is no file of the command isn't read, nor is standard input."""
        self.file("1.0", b"x")
        os.mkfifo(os.path.join(self.folder, "a"))
        for words in (["version", "1.0"], ["name", "a"], ["name", "-"], ["plan", "nothere", "-"]):
            wanted = run_program(words, self.folder)
            with mock.patch("os.read", side_effect=AssertionError):
                self.assertEqual(call_main(words, self.folder), wanted)

    def test_pipe(self):
        """A file that is a pipe is read once."""
        for run_either in (run_program, run_module):
            ours, theirs = os.pipe()
            os.write(theirs, HEAD)
            os.close(theirs)
            try:
                self.assertEqual(run_either(["files", "/dev/fd/%d" % ours], self.folder, pass_fds=[ours]), (0, b"files 0\n", b""))
            finally:
                os.close(ours)

    def test_input(self):
        self.file("lock", HEAD)
        self.file("environment", ENVIRONMENT)
        for words in (["plan", "-", "environment"], ["explain", "lock", "-"], ["files", "-"], ["audit", "--json", "-"], ["diff", "-", "lock"], ["diff", "lock", "-"],
                      ["diff", "lock", "lock", "--in", "-"], ["diff", "lock", "lock", "--in=-"], ["marker", "os_name == 'nt'", "-"], ["plan", "--", "-", "environment"],
                      ["plan", "-", "nothere"], ["plan", "nothere", "-"], ["plan", "-", "--python", "3.12", "--platform", "linux"]):
            for given in (HEAD, ENVIRONMENT, b"", b" \n", b"\xff", b"x"):
                self.same(*words, given=given)
        self.same_process("plan", "-", LINUX, input=bytes_of("examples", LOCK))
        self.same_process("files", "-", path=os.devnull)

    def test_input_that_cannot_be_read(self):
        for words in (["files", "-"], ["diff", LOCK, "-"], ["select", LOCK, LINUX], ["select", LOCK, LINUX, "--json"], ["files", LOCK]):
            self.same_process(*words, preexec_fn=lambda: os.close(0))
            self.same_process(*words, path=os.devnull, flags=os.O_WRONLY)

    def test_large(self):
        self.file("a", HEAD)
        self.file("environment", ENVIRONMENT)
        large, many = os.path.join(self.folder, "large"), os.path.join(self.folder, "many")
        with open(large, "wb") as file:
            file.truncate(MOST + 1)
        self.same_process("files", "large", folder=self.folder)
        self.same_process("plan", "a", "large", folder=self.folder)
        self.same_process("files", "-", folder=self.folder, path=large)
        self.same_process("select", "a", "environment", folder=self.folder, path=large)
        self.file("many", b"show\n" * 1_000_001)
        self.same_process("select", "a", "environment", folder=self.folder, path=many)
        self.file("long", b'x = "%s"\n' % (b"x" * 10_000_000))
        self.same("files", "long")


class Here(Same):
    """The environment of the running Python."""

    def test_left_out(self):
        self.file("here", json.dumps(pylock.environment()).encode())
        lock = os.path.join(EXAMPLES, LOCK)
        for words in (["plan", lock], ["plan", lock, "--json", "--extra", "science"], ["explain", lock], ["marker", "os_name == 'posix'"],
                      ["marker", "platform_version > python_version", "--json"], ["plan", lock, "--extra", "tset"], ["plan", lock, "--strict"], ["plan", "nothere"],
                      ["plan", "--format", "urls", lock], ["plan", "--", lock]):
            wanted = run_program([*words, "here"], self.folder)
            self.assertEqual(call_main(words, self.folder), wanted)
        for words in (["select", lock], ["select", "--json", lock], ["select", lock, "--strict"]):
            given = bytes_of("examples", "edits.txt")
            self.assertEqual(call_main(words, self.folder, given), run_program([*words, "here"], self.folder, input=given))
        self.assertEqual(run_module(["plan", lock], self.folder), run_program(["plan", lock, "here"], self.folder))
        self.assertEqual(call_main(["plan", "-"], self.folder, HEAD), (0, b"plan 0\n", b""))
        # a wrong lock is told, and wrong words as well
        self.file("bad", b"x")
        self.assertEqual(call_main(["plan", "bad"], self.folder), run_program(["plan", "bad", "here"], self.folder))

    def test_environment(self):
        status, printed, said = run_module(["environment"], self.folder)
        self.assertEqual((status, said, printed.count(b"\n")), (0, b"", 1))
        here = pylock.environment()
        self.assertEqual(json.loads(printed.decode()), {"environment": dict(here.variables), "tags": list(here.tags)})
        self.file("here", printed)
        self.assertEqual(run_program(["marker", "python_full_version == '%d.%d.%d'" % sys.version_info[:3], "here"], self.folder)[1], b"true\n")


def one_answer(stream, is_json):
    """The lines of one answer of `select`, as they come."""
    line = stream.readline()
    more = 0 if is_json or not line.startswith(b"plan ") else int(line[5:])
    return b"".join([line, *[stream.readline() for _ in range(more)]])


class Streams(Same):
    def converse(self, command, words, pieces):
        """The answers to pieces of input, each of which is read before the next one is sent; an empty piece has none."""
        with subprocess.Popen([*command, *words], cwd=EXAMPLES, env=module_environment(), stdin=subprocess.PIPE, stdout=subprocess.PIPE) as talk:
            late = threading.Timer(SECONDS, talk.kill)
            late.start()
            answers = [one_answer(talk.stdout, "--json" in words)]
            for piece in pieces:
                talk.stdin.write(piece)
                talk.stdin.flush()
                answers += [one_answer(talk.stdout, "--json" in words) for _ in range(piece.count(b"\n"))]
            talk.stdin.close()
            answers.append(talk.stdout.read())
            late.cancel()
        return talk.returncode, answers

    def test_pieces(self):
        lines = bytes_of("examples", "edits.txt").splitlines(True)
        for pieces in (lines, [b"sh", b"ow\nfl", b"y\nshow"], [b"show\nshow\n", b"", b"set os_name nt"], []):
            for words in (["select", LOCK, LINUX], ["select", "--json", "--strict", LOCK, "--python", "3.12", "--platform", "linux"]):
                with self.subTest((words, pieces)):
                    wanted = self.converse([PROGRAM], words, pieces)
                    self.assertEqual(self.converse([sys.executable, "-m", "pylock"], words, pieces), wanted)
                    self.assertEqual(len(wanted[1]), b"".join(pieces).count(b"\n") + 2)

    def test_closed_output(self):
        for words in ([], ["--help"], ["--version"], ["plan", LOCK, LINUX], ["plan", LOCK, LINUX, "--extra", "tset"], ["files", LOCK], ["select", LOCK, LINUX], ["name", "a"],
                      ["plan", "nothere", LINUX], ["fly"], ["plan", LOCK, LINUX, "--format", "urls", "--no-binary", "foo"]):
            # closed, and a pipe that nobody reads
            self.same_process(*words, preexec_fn=lambda: os.close(1), stdout=None)
            ours, theirs = os.pipe()
            os.close(ours)
            self.same_process(*words, stdout=theirs)
            os.close(theirs)
            if os.path.exists("/dev/full"):
                with open("/dev/full", "wb") as full:
                    self.same_process(*words, stdout=full)
        with open(os.devnull, "wb") as nothing:
            ran = subprocess.run([sys.executable, "-m", "pylock", "environment"], stdout=nothing, stderr=subprocess.PIPE, env=module_environment())
            self.assertEqual((ran.returncode, ran.stderr), (0, b""))
        self.assertEqual(run_module(["environment"], self.folder, preexec_fn=lambda: os.close(1), stdout=None)[0::2], (3, b"pylock: write\n"))

    @unittest.skipUnless(hasattr(signal, "SIGXFSZ"), "there are no limits of files")
    def test_short_writes(self):
        """A write that takes a part is followed by one that fails; also where Python has no buffer."""
        import resource

        def limit():
            signal.signal(signal.SIGXFSZ, signal.SIG_IGN)
            resource.setrlimit(resource.RLIMIT_FSIZE, (1000, 1000))

        told = []
        for run_either, unbuffered in ((run_program, ""), (run_module, ""), (run_module, "1")):
            with mock.patch.dict(os.environ, {"PYTHONUNBUFFERED": unbuffered}), tempfile.TemporaryFile() as file:
                ran = run_either(["files", LOCK], EXAMPLES, stdout=file, preexec_fn=limit)
                file.seek(0)
                told.append((ran, file.read()))
                self.assertEqual(run_either(["files", LOCK], EXAMPLES)[0], 0)
        self.assertEqual((told[0][0][::2], len(told[0][1])), ((3, b"pylock: write\n"), 1000))
        self.assertEqual(told[1:], told[:1] * 2)

    def test_closed_error(self):
        for words in (["fly"], ["files", "nothere"], ["version", "x"]):
            wanted = run_program(words, EXAMPLES)[:2]
            for command in ([PROGRAM], [sys.executable, "-m", "pylock"]):
                for close in (lambda: os.close(2), lambda: os.dup2(os.open("/dev/full", os.O_WRONLY), 2)):
                    ran = subprocess.run([*command, *words], cwd=EXAMPLES, env=module_environment(), stdin=subprocess.DEVNULL, stdout=subprocess.PIPE, preexec_fn=close)
                    self.assertEqual((ran.returncode, ran.stdout), wanted)

    def test_reader_ends(self):
        """Who reads the first lines alone ends it."""
        for command in ([PROGRAM], [sys.executable, "-m", "pylock"]):
            with subprocess.Popen([*command, "select", LOCK, LINUX], cwd=EXAMPLES, env=module_environment(), stdin=subprocess.PIPE, stdout=subprocess.PIPE,
                                  stderr=subprocess.PIPE) as talk:
                one_answer(talk.stdout, False)
                talk.stdout.close()
                talk.stdin.write(b"show\n")
                talk.stdin.close()
                self.assertEqual((talk.stderr.read(), talk.wait(SECONDS)), (b"pylock: write\n", 3))

    def terminal(self, command, words, at):
        """What a terminal is given as standard input, or as both outputs, and the status."""
        import pty
        import termios

        ours, theirs = pty.openpty()
        modes = termios.tcgetattr(theirs)
        modes[1] &= ~termios.OPOST
        modes[3] &= ~termios.ECHO
        termios.tcsetattr(theirs, termios.TCSANOW, modes)
        places = {"stdin": theirs, "stdout": subprocess.PIPE, "stderr": subprocess.PIPE} if at == "in" else {"stdin": subprocess.DEVNULL, "stdout": theirs, "stderr": theirs}
        talk = subprocess.Popen([*command, *words], cwd=CHECK, env=module_environment(), **places)
        os.close(theirs)
        shown = []
        try:
            if at == "in":
                os.write(ours, b"show\n\x04")
                shown = talk.communicate(timeout=SECONDS)
            else:
                with contextlib.suppress(OSError):
                    while not shown or shown[-1]:
                        shown.append(os.read(ours, 65_536))
                shown = [b"".join(shown)]
        finally:
            os.close(ours)
        return talk.wait(SECONDS), list(shown)

    def test_terminal(self):
        try:
            import pty

            for place in pty.openpty():
                os.close(place)
        except (ImportError, OSError):
            self.skipTest("there is no terminal")
        lock, environment = os.path.join("inputs", "empty.toml"), os.path.join("inputs", "environment.json")
        self.file("long.toml", HEAD + b'[[packages]]\nname = "a"\nwheels = [{name = "\\u202e\\u20ac\\u0085\\u3000.whl", path = "a", hashes = {sha256 = "00"}}]\n' * 3000)
        for at, words in (
            ("out", ["files", os.path.join("inputs", "steering.toml")]), ("out", ["files", "--json", os.path.join("inputs", "steering.toml")]), ("out", ["\x1b[31m"]),
            ("out", ["files", "\x1b[31m\r"]), ("out", ["plan", "--help"]), ("out", ["requirement", "a[\x1b"]), ("out", ["select", lock, environment]),
            ("out", ["files", os.path.join(self.folder, "long.toml")]), ("out", ["plan", "nothere", environment]),
            ("out", ["plan", *(os.path.join(EXAMPLES, name) for name in (LOCK, LINUX)), "--format", "urls", "--no-binary", "foo"]), ("in", ["select", lock, environment]), ("in", ["select", "--json", lock, environment]),
            ("in", ["select", "nothere", environment]), ("in", ["select", lock]), ("in", ["plan", lock, environment]), ("in", ["select", environment, lock]),
        ):
            wanted = self.terminal([PROGRAM], words + [environment] * (words == ["select", lock]), at)
            self.assertEqual(self.terminal([sys.executable, "-m", "pylock"], words, at), wanted, words)

    def test_interrupt(self):
        """Ctrl-C ends both in the same way."""
        for command in ([PROGRAM], [sys.executable, "-m", "pylock"]):
            # what runs in the background has it ignored
            with subprocess.Popen([*command, "select", LOCK, LINUX], cwd=EXAMPLES, env=module_environment(), stdin=subprocess.PIPE, stdout=subprocess.PIPE,
                                  stderr=subprocess.PIPE, preexec_fn=lambda: signal.signal(signal.SIGINT, signal.default_int_handler)) as talk:
                one_answer(talk.stdout, False)
                talk.send_signal(signal.SIGINT)
                self.assertEqual((talk.stdout.read(), talk.stderr.read(), talk.wait(SECONDS)), (b"", b"", -signal.SIGINT))
        # or neither, where it is ignored
        for command in ([PROGRAM], [sys.executable, "-m", "pylock"]):
            with subprocess.Popen([*command, "select", LOCK, LINUX], cwd=EXAMPLES, env=module_environment(), stdin=subprocess.PIPE, stdout=subprocess.PIPE,
                                  preexec_fn=lambda: signal.signal(signal.SIGINT, signal.SIG_IGN)) as talk:
                first = one_answer(talk.stdout, False)
                talk.send_signal(signal.SIGINT)
                talk.stdin.write(b"show\n")
                talk.stdin.close()
                self.assertEqual((talk.stdout.read(), talk.wait(SECONDS)), (first, 0))

    def test_memory(self):
        for name in ("run_program", "select_asked", "run_start", "run_feed", "run_end"):
            with mock.patch.object(pylock.__main__._native, name, side_effect=MemoryError):
                status, printed, said = call_main(["select", LOCK, LINUX], EXAMPLES, b"show\n")
                self.assertEqual((status, said), (3, b"pylock: memory\n"), name)

    def test_locale(self):
        """Whatever the locale is, words and what is printed are bytes."""
        with mock.patch.dict(os.environ, {"LC_ALL": "C", "PYTHONUTF8": "0", "PYTHONCOERCECLOCALE": "0", "PYTHONIOENCODING": "ascii"}):
            for words in (["name", "\u00e9".encode()], ["requirement", "a @ https://h/\u20ac".encode()], ["files", "\u00e9".encode()], ["version", b"\xff"]):
                self.same_process(*words)


if __name__ == "__main__":
    unittest.main()
