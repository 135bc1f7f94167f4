"""What the checks in Python share: runs of the built program, how cases are judged and counted, and texts of locks. Those in bash have
checks.sh."""

import collections
import concurrent.futures
import json
import os
import re
import subprocess
import sys
import unicodedata
import urllib.parse

HERE = os.path.dirname(os.path.realpath(__file__))
TOP = os.path.dirname(os.path.dirname(HERE))
BUILT = f"{TOP}/crates/pylock/out/pylock"
SECONDS = 60  # of one run
# Each character that is written `\u{HEX}` wherever a text is safe to show, as far as this Python knows Unicode; a line's end is none
# within a line.
CONTROL = re.compile("[%s]" % "".join(
    re.escape(one) for one in map(chr, range(sys.maxunicode + 1)) if unicodedata.category(one) in ("Cc", "Cf", "Zl", "Zp")
))

Ran = collections.namedtuple("Ran", "status output error")


def program_of_words(page):
    """The program that the command line names, or else the built one; shows the page of a tool where the words are others."""
    words = sys.argv[1:]
    if len(words) > 1 or words and words[0].startswith("-"):
        is_asked = words in (["--help"], ["-h"])
        print(page, end="", file=sys.stdout if is_asked else sys.stderr)
        sys.exit(0 if is_asked else 2)
    return words[0] if words else BUILT


class Checks:
    """How many cases passed, failed and were skipped, and the program that is tried."""

    def __init__(self, name, program=BUILT):
        self.name = name
        self.program = os.path.abspath(program)
        self.passed = self.failed = self.skipped = 0

    def run(self, *words, given=b"", folder=None):
        """What the program does with the words, and with this standard input."""
        ran = subprocess.run(
            [self.program, *words], input=given, stdout=subprocess.PIPE, stderr=subprocess.PIPE, cwd=folder, timeout=SECONDS
        )
        return Ran(ran.returncode, ran.stdout.decode("utf-8", "replace"), ran.stderr.decode("utf-8", "replace"))

    def tell(self, text):
        print(f"{self.name}: {text}", flush=True)

    def judge(self, what, wrong, said="ok"):
        """Counts a case, which passes where nothing is wrong with it."""
        if wrong:
            self.failed += 1
            self.tell(f"{what}: FAILED, {wrong}")
        else:
            self.passed += 1
            self.tell(f"{what}: {said}")

    def skip(self, what, count=1):
        self.skipped += count
        self.tell(f"skipped: {what}" + (f" ({count} cases)" if count > 1 else ""))

    def judge_each(self, what, cases, wrong):
        """Judges a function of each case, some side by side; counts them one by one, and tells of those that fail."""
        cases = list(cases)
        failed = 0
        with concurrent.futures.ThreadPoolExecutor(os.cpu_count()) as workers:
            for found in workers.map(lambda case: guarded(wrong, case), cases):
                if found:
                    failed += 1
                    if failed <= 5:
                        self.tell(f"{what}: FAILED, {found}")
        self.failed += failed
        self.passed += len(cases) - failed
        self.tell(f"{what}: {len(cases) - failed} of {len(cases)} ok")

    def end(self):
        """The last line, which counts, and the status."""
        skipped = f", {self.skipped} skipped" if self.skipped else ""
        self.tell(f"{self.passed} passed, {self.failed} failed{skipped}")
        sys.exit(1 if self.failed else 0)

    def over(self, try_all):
        """Tries all on the program, where there is one, and ends."""
        if os.access(self.program, os.X_OK):
            wrong = guarded(lambda each: each(), try_all)
            if wrong:
                self.judge("the rest", wrong)
        else:
            self.judge(self.program, "it isn't built")
        self.end()


def guarded(function, case):
    """What the function finds wrong with a case, also where it can't judge it."""
    try:
        return function(case)
    except Exception as error:
        return f"{type(error).__name__}: {error}, of {case!r}"[:2000]


def document(text):
    """The object that a JSON text holds; an empty one where it holds none."""
    try:
        found = json.loads(text)
    except ValueError:
        return {}
    return found if isinstance(found, dict) else {}


def document_text(value):
    """The text of a document: members in order, no white space, and each control character as its code units of UTF-16."""
    text = json.dumps(value, sort_keys=True, separators=(",", ":"), ensure_ascii=False)
    return CONTROL.sub(lambda found: json.dumps(found[0])[1:-1], text) + "\n"


def told_to_a_person(error):
    """What is wrong with lines for a person: that there is none, or that one isn't safe to show."""
    lines = error.split("\n")
    if lines.pop() != "" or not lines:
        return "standard error has no line, or one that doesn't end"
    if not all(line.startswith("pylock: ") for line in lines):
        return f"standard error has a line that doesn't begin with `pylock: `: {error!r}"
    if CONTROL.search("".join(lines)):
        return f"standard error has a control character: {error!r}"
    return None


def refused_words(ran):
    """What is wrong with a command line that has to be refused."""
    if ran.status != 2 or ran.output or not ran.error:
        return f"status {ran.status}, {ran.output!r} and {ran.error!r}, not 2, nothing and a line on standard error"
    return None


def quoted(text):
    """A string of TOML."""
    return '"' + re.sub(r'["\\\0-\x1f\x7f]', lambda found: f"\\u{ord(found[0]):04x}", text) + '"'


def toml(value):
    """A value of TOML on one line: a text, a number, true or false, a list or a table."""
    if isinstance(value, bool):
        return "true" if value else "false"
    if isinstance(value, str):
        return quoted(value)
    if isinstance(value, list):
        return f"[{', '.join(map(toml, value))}]"
    if isinstance(value, dict):
        return f"{{{', '.join(f'{quoted(key)} = {toml(member)}' for key, member in value.items())}}}"
    return str(value)


def lock_text(entries, **head):
    """A lock of these entries; `head` has further keys, with `_` for `-`."""
    keys = {"lock-version": "1.0", "created-by": "t", **{key.replace("_", "-"): value for key, value in head.items()}}
    lines = [f"{key} = {toml(value)}\n" for key, value in keys.items()]
    return "".join([*lines, "packages = [\n", *(f"    {toml(entry)},\n" for entry in entries), "]\n"])


def write(path, text):
    """Writes a text, as it stands, and gives the path."""
    with open(path, "w", encoding="utf-8", newline="") as file:
        file.write(text)
    return path


def normal_name(name):
    return re.sub(r"[-_.]+", "-", name).lower()


def last_part(url, path):
    """The last part of a URL, or of a path, percent-decoded."""
    if url is None:
        return re.split(r"[/\\]", path)[-1]
    last = url.split("#")[0].split("?")[0].split("/")[-1]
    try:
        return urllib.parse.unquote_to_bytes(last).decode("utf-8")
    except UnicodeDecodeError:
        return last


def file_name(name, url, path):
    """The file name of an sdist or a wheel, as “The lock file” of docs/FORMATS.md finds it."""
    found = name or (path is not None and re.split(r"[/\\]", path)[-1]) or (url is not None and last_part(url, None))
    return found or None


def sources_of(entries):
    """The sources of entries, in the order and with the members that `files --json` has."""
    found = []
    for number, entry in enumerate(entries, 1):
        tables = [(key, entry[key]) for key in ("vcs", "directory", "archive") if key in entry]
        tables += [("wheel", wheel) for wheel in entry.get("wheels", [])]
        tables += [("sdist", entry["sdist"])] if "sdist" in entry else []
        for kind, table in tables:
            source = {"id": number, "name": normal_name(entry["name"]),
                "kind": "editable" if table.get("editable") else kind}
            if "version" in entry:
                source["version"] = entry["version"]
            source.update({key: table[key] for key in ("url", "path", "subdirectory", "hashes") if table.get(key, {}) != {}})
            if kind == "vcs":
                source["revision"] = {"type": table["type"], "commit": table["commit-id"]}
            if kind in ("wheel", "sdist"):
                source["file"] = file_name(table.get("name"), table.get("url"), table.get("path"))
            found.append(source)
    return found
