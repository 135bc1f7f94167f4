"""Random runs of all commands: their words, files and standard input."""

import glob
import os
import random

HERE = os.path.dirname(os.path.realpath(__file__))
TOP = os.path.realpath(f"{HERE}/../../..")

PYTHONS = ["3.8", "3.9", "3.10", "3.11", "3.12", "3.12.4", "3.13", "3.13t", "3.14"]
PLATFORMS = ["linux", "macos", "windows", "manylinux_2_28_x86_64", "manylinux_2_17_aarch64", "musllinux_1_2_x86_64", "win32", "win_arm64",
             "macosx_14_0_arm64"]
NO_TARGETS = [("3.7", "linux"), ("x", "linux"), ("", ""), ("3.12", "darwin"), ("3.12", "linux-gnu"), ("3", "linux")]
NAMES = ["science", "test", "docs", "main", "science", "test", "socks", "nope", "Foo__Bar", "numpy", "requests", "acme-service", ":all:", ":none:", "-", "é", "\t"]
VARIABLES = ["python_version", "python_full_version", "os_name", "sys_platform", "platform_machine", "platform_release", "extra", "nope"]
VALUES = ["3.12", "3.11.0a6", "nt", "posix", "linux", "win32", "AMD64", "", "1!2.0.post3+Abc", "a\tb", "\u202e"]
VERSIONS = ["1.0", "v1.0-RC.1", "1!2.0.post3+Abc", "1.0.dev0", "01.00", "1.0+a.b-c", "x", "", "1" * 45, "1.0.0.0.0.0", " 1.0 ", "1.0a", "1e3"]
SETS = [">=1.0", "==1.*", "~=1.4.2", "!=1.0,<2", "===foo", "", ">=1.0,==", "<1.0a1", ">1.0+x", "==" + "9" * 45, ",", "~=1"]
MARKERS = ["os_name == 'posix'", "python_version < '3.11' and 'test' in dependency_groups", "extra == 'x'", "'a' in extras", "os_name",
           "sys_platform == 'win32' or (platform_machine == 'AMD64' and os_name != \"nt\")", "'3' < '4'", "python_version ~= 'x'", "(" * 64, ""]
REQUIREMENTS = ["requests[socks]>=2,<3; python_version<'3.8'", "a@https://h/x.whl ; os_name=='nt'", "a b", "a[", "-", "a (>=1)", "A.b_c==1.*"]
WHEELS = ["cffi-1.17.1-cp312-cp312-manylinux_2_17_x86_64.manylinux2014_x86_64.whl", "a-1-py3-none-any.whl", "a-1-2x-py2.py3-none-any.whl", "a.whl",
          "a-1-py3-none.whl", "a-x-py3-none-any.whl", "a-1-py3-none-any.zip"]
SDISTS = ["a-1.tar.gz", "Foo_Bar-1.0rc1.zip", "a.tar.gz", "a-x.tar.gz", "a-1.tgz"]
FORMS = ["requirements", "requirements-local", "sha256sum", "aria2", "urls", "cyclonedx", "spdx", "pip"]
EDITS = ["show", "set python_version 3.12", "set os_name nt", "unset platform_release", "extra+ science", "extra- science", "extra+ nope", "group+ test",
         "group- docs", "tags py3-none-any", "tags cp312-cp312-manylinux_2_17_x86_64 py3-none-any", "tags x", "del 1", "del 99", "policy numpy wheel",
         "policy cffi source", "policy x y", "fly", "", "put 1 {name = \"a\"}", "add {name = \"zz\", directory = {path = \"d\"}}", "add {", "\r", "set"]
FINDINGS = ["vulnerable", "no-hash", "clash", "other-host", "name-form", "never", "vulnerable:numpy", "other-host:Requests", "no-hash:", "nope", "", "clash:-a", "\u202e"]
ADVISORY = b'{"id":"G-%d","aliases":["CVE-%d"],"affected":[{"package":{"ecosystem":"PyPI","name":"%s"},"ranges":[{"type":"ECOSYSTEM","events":%s}]}]}'
EVENTS = (b'[{"introduced":"0"},{"fixed":"99"}]', b'[{"introduced":"1.0"},{"last_affected":"2.32.3"}]', b'[{"introduced":"0"}]')
LINES = [ADVISORY % (at, at, name, EVENTS[at % 3]) for at, name in enumerate((b"numpy", b"Requests", b"a", b"cffi", b"zipp", b"b"))]
ADVISORIES = {"lines.json": b"\n".join(LINES), "array.json": b"[" + b",".join(LINES[:3]) + b"]", "one.json": LINES[1], "none.json": b"[]"}
SETTINGS = {
    "settings.toml": b'[tool.pylock.audit]\nfail-on = "vulnerable"\nignore = ["vulnerable:numpy", "no-hash"]\nhost = ["files.pythonhosted.org"]\n',
    "every.toml": b"[project]\nname = 'p'\n[tool.pylock.audit]\nenvironments = true\n",
    "unknown.toml": b"[tool.pylock.audit]\nignored = []\n",
}


def pool():
    """The locks and the environments that there are, by their names."""
    locks, environments = {}, {}
    for path in sorted(glob.glob(f"{TOP}/examples/*") + glob.glob(f"{TOP}/tools/check/inputs/*")):
        if os.path.isfile(path) and os.path.getsize(path) < 200000:
            with open(path, "rb") as file:
                (environments if path.endswith(".json") else locks)[os.path.basename(path)] = file.read()
    return locks, environments


class Maker:
    def __init__(self, seed):
        self.random = random.Random(seed)
        self.locks, self.environments = pool()

    def some(self, items, least=0, most=3):
        return [self.random.choice(items) for _ in range(self.random.randint(least, most))]

    def broken(self, data):
        """The text with a few bytes changed, cut or doubled."""
        for _ in range(self.random.randint(1, 3)):
            at = self.random.randrange(len(data) + 1)
            size = self.random.choice([1, 1, 2, 5, 40])
            with_what = self.random.choice([b"", b"\"", b"'", b"\n", b"=", b"\x00", b"\xff", b"[", b"}", b"\\", data[at : at + size] * 2, b"\xe2\x80\xae"])
            data = data[:at] + with_what + data[at + size :]
        return data

    def target(self):
        python, platform = self.random.choice(PYTHONS), self.random.choice(PLATFORMS)
        if self.random.random() < 0.05:
            python, platform = self.random.choice(NO_TARGETS)
        return ["--python", python, "--platform", platform]

    def targets(self):
        """Words of some targets, of Pythons or of platforms alone, or none."""
        words = []
        for option, place in (("python", 0), ("platform", 1)):
            if self.random.random() < 0.7:
                words.append(f"--{option}={','.join(self.target()[2 * place + 1] for _ in range(self.random.randint(1, 3)))}")
        return words

    def file(self, files, named):
        """A file of these, most often one that looks right, as it is."""
        mark = b"lock-version" if named is self.locks else b'"tags"'
        is_any = self.random.random() < 0.1
        name = self.random.choice([name for name, data in sorted(named.items()) if is_any or mark in data])
        data = named[name]
        if self.random.random() < 0.2:
            data = self.broken(data)
        if self.random.random() < 0.98:
            files[name] = data
        return name

    def machine(self, files, name="ENV"):
        if self.random.random() < 0.5:
            path = self.file(files, self.environments)
            return [path] if name == "ENV" else ["--in", path]
        return self.target()

    def options(self):
        words = []
        for name, values in (("extra", NAMES), ("group", NAMES), ("no-group", NAMES), ("only-binary", NAMES), ("no-binary", NAMES)):
            if self.random.random() < 0.08:
                words += [f"--{name}={value}" for value in self.some(values, 1, 2)]
        if self.random.random() < 0.15:
            words.append(f"--set={self.random.choice(VARIABLES)}={self.random.choice(VALUES)}")
        for name in ("all-extras", "all-groups", "no-default-groups", "strict", "json"):
            if self.random.random() < 0.12:
                words.append(f"--{name}")
        self.random.shuffle(words)
        return words

    def audited(self, files):
        """Words of an audit, of files of advisories and of a project file too."""
        words = self.some(["--environments", "--host=a.example", "--host=files.pythonhosted.org", "--format=sarif", "--format=urls"], 0, 2)
        words += [f"--ignore={finding}" for finding in self.some(FINDINGS, 0, 2)] if self.random.random() < 0.4 else []
        words += [f"--fail-on={','.join(self.some(FINDINGS, 1, 2))}"] if self.random.random() < 0.3 else []
        for option, named in (("advisories", ADVISORIES), ("config", SETTINGS)):
            for name in self.some(sorted(named), 0, 2 if option == "advisories" else 1):
                files[name] = named[name] if self.random.random() < 0.9 else self.broken(named[name])
                words.append(f"--{option}={name}")
        self.random.shuffle(words)
        return words

    def flag(self):
        return ["--json"] if self.random.random() < 0.4 else []

    def words(self, files):
        kind = self.random.choice(["plan", "plan", "explain", "matrix", "select", "files", "audit", "show", "diff", "environment", "texts", "marker", "help"])
        lock = lambda: self.file(files, self.locks)
        if kind in ("plan", "explain"):
            words = [kind, lock(), *self.machine(files), *self.options()]
            return words + ([f"--format={self.random.choice(FORMS)}"] if kind == "plan" and self.random.random() < 0.3 else [])
        if kind == "matrix":
            return [kind, lock(), *self.targets(), *self.options(), *self.some(["--no-build"], 0, 1)]
        if kind == "select":
            return [kind, lock(), *self.machine(files), *self.flag()]
        if kind == "show":
            return [kind, lock(), *self.flag()]
        if kind == "audit":
            return [kind, lock(), *self.audited(files), *self.flag()]
        if kind == "files":
            return [kind, lock(), *self.flag(), *(["--format", self.random.choice(FORMS)] if self.random.random() < 0.2 else [])]
        if kind == "diff":
            return [kind, lock(), lock(), *(self.machine(files, "in") if self.random.random() < 0.5 else []), *self.flag()]
        if kind == "environment":
            return [kind, *self.target()]
        if kind == "marker":
            return [kind, self.random.choice(MARKERS), *self.machine(files), *self.flag()]
        if kind == "help":
            command = self.random.choice(["plan", "explain", "matrix", "select", "status", "check", "show", "files", "audit", "diff", "environment", "version", "match", "name", "marker", "x"])
            return self.random.choice([["help", command], [command, "--help"], ["--help"], ["-V"], [], [command], ["help"], ["--nope"]])
        command, *texts = self.random.choice([
            ("version", VERSIONS), ("match", SETS, VERSIONS), ("name", NAMES), ("requirement", REQUIREMENTS), ("wheel", WHEELS), ("sdist", SDISTS)
        ])
        return [command, *[self.random.choice(text) for text in texts], *self.flag()]

    def run(self):
        """Its words and files as bytes, and its standard input."""
        files = {}
        words = [word.encode() for word in self.words(files)]
        if self.random.random() < 0.05:
            at = self.random.randrange(len(words) + 1)
            words[at : at + self.random.randint(0, 1)] = [self.random.choice([b"-", b"--", b"--json", b"\xff", b"", b"--x", b"plan", b"--extra"])]
        text = b"".join(line.encode() + self.random.choice([b"\n", b"\n", b"\n", b""]) for line in self.some(EDITS, 0, 6))
        if b"-" in words:
            text = self.random.choice([text, self.random.choice(list(self.locks.values())), self.random.choice(list(self.environments.values()))])
        return words, {name.encode(): data for name, data in files.items()}, text
