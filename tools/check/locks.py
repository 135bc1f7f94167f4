"""Random locks of hostile texts, many of which a form can have."""

import random

from checks import file_name
from forms import project_of_wheel
from hostile import A256, A384, A512, B256, COMMIT, OF_ENDS, PIECES, WHOLE

NAMES = ["a", "a-b", "alpha", "x2", "pip", "http", "git", "file", "r", "e", "sha256", "c", "localhost", "0", "a-1", "setup-py"]
HOSTS = ["h", "h.example", "127.0.0.1", "localhost", "h:80", "h:8080", "H.Example", "h-i", "h:0443", "xn--h", "1", "h."]
WRONG_HOSTS = ["", "u@h", "u:p@h", "h:80@evil", "h%40evil", "[::1]", "h:", "h:x", "h\\evil", "h_x", "@", "h@", ":80", "h?x",
    "h#x", "h,evil", "h&x", "h:99999"]
# Parts of paths that a URL may have; behind them what a URL for pip can't have.
PARTS = ["x", "..", ".", "", "%2e%2e", "%2F", "%252F", "sha256", "md5:0", "egg", "egg:evil", "@", "a@b", "%40", "%23egg%3Devil",
    "%3Fx", "%26subdirectory%3Devil", "~u", "!", "+", ",", ":", "git+https:", "http:", "-r", "--hash", "%00", "%0a", "%5C..",
    "%25", "a.whl", "evil-1.0-py3-none-any.whl", "C:", "0" * 40, "@" + COMMIT, "...", "~", "%", "%zz", "%C3%A9", "a.b+c_d-e"]
WRONG_PARTS = ["sha256=" + B256, "md5=" + "0" * 32, "&sha512=" + A512, "egg=evil", "&egg=evil", "&subdirectory=evil&", "=", "&",
    "#", "a b", ";", "$x", "${HOME}", "\\", "\n", "'", '"', "*", "[x]", "\u00e9", "|"]
QUERIES = ["?", "?x", "?sha256:0", "?a/b", "?/../y", "?@evil", "??", "?.whl", "?%26egg%3Devil", "?a,b!c~d+e"]
WRONG_QUERIES = ["?x=1", "?sha256=" + B256, "?x&md5=" + "0" * 32, "?x&subdirectory=evil&y", "?x&egg=evil", "?#",
    "#sha256=" + B256, "#egg=evil", "? ", "#"]
FOLDERS = ["x", "x", "d-1", "a.b", "a+b", "...", ".x", "-r", "-e", "requests", "x.zip", "X.WHL", "a.tar.gz",
    "alpha-1.0-py3-none-any.whl", ".", "x.", "http", "git", "0", "_"]
WRONG_FOLDERS = ["..", "", "a b", "a;b", "a[x]", "${X}", "a\\b", "C:", "a#b", "a@b", "%2e%2e", "a\n", "~", "a=b", "\u00e9"]
ENDS = [".zip", ".tar.gz", ".tgz", ".whl", ".WHL", "", ".txt", ".tar.xz", ".tar", ".exe", ".ZIP"]
VERSIONS = ["1", "1.0", "1!2", "1.0+x.1", "1.0.post1", "2a1", "0", "1_0", "x", "1..0", "v1"]
EXTRAS = ["", "", "", "%2B", "%2D", "%25", "%2525", "%2F", "%252F", "@", "?", "~", ",", ":", " ", "..", "+", "!"]


def is_picked(entry):
    """Whether a plan has the entry: a wheel may be none, or for another machine."""
    if "wheels" not in entry:
        return True
    table = entry["wheels"][0]
    file = file_name(table.get("name"), table.get("url"), table.get("path")) or ""
    return project_of_wheel(file) is not None and file.lower().endswith("-py3-none-any.whl")


class Locks:
    """Locks, one after the other; the same for the same seed. `care` is the part of the texts that are chosen with care."""

    def __init__(self, seed, care=0.9):
        self.random = random.Random(seed)
        self.care = care

    def one(self, right, wrong):
        return self.random.choice(right if self.random.random() < self.care else wrong)

    def rarely(self, chance=0.15):
        return self.random.random() < chance

    def bent(self, text):
        """The text, or sometimes with a hostile piece in it, or another one."""
        kind = self.random.random()
        if kind < 0.06:
            at = self.random.randint(0, len(text))
            return text[:at] + self.random.choice(PIECES + OF_ENDS) + text[at:]
        return self.random.choice(WHOLE) if kind < 0.07 else text

    def file_name(self, kind, name):
        """What could be the name of a file of the project, mostly."""
        own = [name, name.replace("-", "_"), name.title(), name.replace("-", ".")]
        project = self.one(own, ["evil", name + "-x", "x y", ""])
        version = self.random.choice(VERSIONS)
        if kind == "wheel" or kind == "archive" and self.rarely(0.1):
            build = self.random.choice(["", "", "", "-1", "-1x", "-0a.b"])
            return f"{project.replace('-', '_')}-{version}{build}-py3-none-any.whl"
        if kind == "sdist":
            return f"{project}-{version}{self.one(['.tar.gz', '.zip'], ENDS)}"
        return self.random.choice([f"{project}-{version}", project, "x"]) + self.random.choice(ENDS)

    def url_part(self):
        return self.one(PARTS, WRONG_PARTS)

    def url(self, last):
        others = ["HTTPS://", "ftp://", "file://", "file:", "https:", "git+https://", "//", ""]
        scheme = self.one(["https://", "http://"], others)
        host = self.one(HOSTS, WRONG_HOSTS)
        if self.rarely(0.05):
            scheme, host = "file://", ""
        parts = [self.url_part() for _ in range(self.random.choice([0, 0, 1, 1, 2, 3]))]
        query = self.one(QUERIES, WRONG_QUERIES) if self.rarely(0.25) else ""
        if self.rarely(0.1):
            at = self.random.randint(0, len(last))
            last = last[:at] + self.random.choice(EXTRAS) + last[at:]
        return self.bent("/".join([scheme + host, *parts, last]) + query)

    def path(self, last=None, above=False):
        parts = [self.one(FOLDERS, WRONG_FOLDERS) for _ in range(self.random.choice([0, 1, 1, 2]))]
        parts += [last] if last is not None else parts or ["x"]
        start = self.one(["", "", "", "/"], ["//", "../", "./", "~/", "C:/"])
        if above and self.rarely(0.3):
            start = "../" * self.random.randint(1, 3)
        return self.bent(start + "/".join(parts) + ("/" if last is None and self.rarely(0.1) else ""))

    def subdirectory(self):
        return {"subdirectory": self.path()} if self.rarely(0.3) else {}

    def hashes(self):
        found = {}
        for name, value in (("sha512", A512), ("sha256", A256), ("sha384", A384), ("md5", A256[:32])):
            if self.rarely(0.6 if name == "sha256" else 0.3):
                wrong = self.random.choice(["", "0", value.upper(), value + "0", B256])
                found[name] = wrong if self.rarely(0.05) else value
        return found or {"sha256": A256}

    def place(self, kind, name):
        """Where a file is."""
        file = self.file_name(kind, name)
        found = {"hashes": self.hashes()}
        where = self.random.random()
        if where < 0.7:
            found["url"] = self.url(file)
        if where > 0.65:
            found["path"] = self.path(file)
        if kind != "archive" and self.rarely(0.1):
            found["name"] = self.bent(file)
        return found

    def checkout(self):
        system = self.one(["git", "git", "hg", "svn", "bzr"], ["cvs", "Git", "git+ssh", ""])
        commits = [COMMIT, COMMIT.upper()] if system in ("git", "hg") else ["1", "r12", "0" * 40, "abc", "99999"]
        last = self.random.choice(["r", "r.git", "x@y", "0" * 40, "", "a:b", "r%40x", "%2e%2e", "..", "x,y!z"])
        found = {"type": system, "url": self.url(last), "commit-id": self.bent(self.one(commits, WHOLE)), **self.subdirectory()}
        if self.rarely(0.05):
            found["path"] = self.path()
        return found

    def entry(self, name):
        kind = self.random.choice(["wheel", "sdist", "archive", "vcs", "directory", "editable"])
        if kind in ("wheel", "sdist", "archive"):
            table = self.place(kind, name)
            if kind == "archive":
                return {"name": name, "archive": {**table, **self.subdirectory()}}
            return {"name": name, **({"wheels": [table]} if kind == "wheel" else {"sdist": table})}
        if kind == "vcs":
            return {"name": name, "vcs": self.checkout()}
        editable = {"editable": True} if kind == "editable" else {}
        return {"name": name, "directory": {"path": self.path(above=True), **self.subdirectory(), **editable}}

    def lock(self):
        """The entries of a lock: one to three."""
        entries = [self.entry(name) for name in self.random.sample(NAMES, self.random.choice([1, 1, 2, 3]))]
        return entries if all(map(is_picked, entries)) else self.lock()
