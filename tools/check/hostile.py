"""Hostile texts of a lock, for tools/check/exports and tools/check/pips: texts that are put into each field that a form reads, and what was
seen to make real tools do something else than the lock says."""

import urllib.parse

A256, A384, A512, B256 = "0123456789abcdef" * 4, "0123456789abcdef" * 6, "0123456789abcdef" * 8, "f" * 64
COMMIT = "0123456789abcdef0123456789abcdef01234567"
SUM = {"sha256": A256}
FIRST = {"name": "first", "sdist": {"url": "https://h/first-1.tar.gz", "hashes": SUM}}


def sdist(**table):
    return {"sdist": {"hashes": SUM, **table}}


def wheel(**table):
    return {"wheels": [{"hashes": SUM, **table}]}


def archive(**table):
    return {"archive": {"hashes": SUM, **table}}


def vcs(**table):
    return {"vcs": {"type": "git", "url": "https://h/r", "commit-id": COMMIT, **table}}


def directory(path, **table):
    return {"directory": {"path": path, **table}}


# ---- texts that are put into each field

# A part of a text: what ends a line or a word for some reader, opens an option, a variable or an escape, leaves a folder, or
# is looked for anywhere in a URL.
PIECES = [
    "\n", "\r", "\r\n", "\t", "\0", "\x0b", "\x0c", "\x1b[2J", "\x1c", "\x7f", "\x85", "\xa0", "\u2028", "\u2029", "\u202e",
    "\u200b", "\ufeff",
    " ", "  ", "\\", "\\\n", "\\n", '"', "'", "`", "#", " #", "%0a", "%0A", "%20", "%", "%2f", "%00", "/../", "/..", "../",
    "..", "/./", "//", "%2e%2e%2f", "%252F", "%25", "%2525",
    "${HOME}", "$HOME", "$(id)", "%HOME%", "~", ";", " ; os_name == 'nt'", " --hash=sha256:" + B256, " -r x", "\n-r x",
    "\n--index-url=https://evil/", "?sha256=" + B256, "&md5=0", "/md5=0/", "sha256", "&egg=evil", "#egg=evil",
    "&subdirectory=evil&y", "%23subdirectory%3Devil", "@evil", ":80@evil", "%40evil", ".whl", ".tar.gz", ".aria2",
    ".aria2__temp",
    "@", ":", ",", "=", "&", "?", "!", "*", "[x]", "(", ")", "{", "}", "<", ">", "|", "^", "+", "-", "_", ".", "0", "Z",
    "\u00e9", "\u017f", "\u0661", "\uff41", "\U0001f40d",
]
# Those that are tried at other places too.
OF_ENDS = ["\n", "\t", "\x7f", "\u2028", " ", "\\", '"', "#", "%0a", "../", "..", "/", "${HOME}", ";", "-", "!", "+", "~",
    "\u00e9", "=", "&", "?", "@", ".whl", ".ZIP", "%25", "%2f"]
# A text as a whole.
WHOLE = [
    "", "requests", "requests==2", "-r", "-rx", "-r x", "-e", "-e .", "--index-url=https://evil/", "--", "-", ".", "..", "../x",
    "./x", "x/..", "x/../y", "...", "x/", "x//y", "x/.", "../..", "../../x", "../x/../y",
    "..x", "x..", "/", "/x", "/../x", "/x/..", "//h/x", "~/x", "C:\\x", "C:/x", "\\\\h\\x", "x\\..\\y", "file:x", "file:/x",
    "file://x", "file://h/x", "file:////h/x", "file:///./x", "file:///%2fh/x",
    "file:///x", "file:///x/../y", "FILE:///x", "file:///", "http:x", "http:/x", "http://h/x", "HTTP://h/x", "Https://h/x",
    "https:h", "https:/h/x", "https://h", "https://h/", "https://h?x/y", "https:///x", "https://h:/x", "https://h:8/x",
    "https://h:x/x", "https://h:80@evil/x", "https://h%40evil/x", "https://h/x/", "https://h/x?", "https://h/x?/../y",
    "https://h/x-1.tar.gz", "https://h/x#egg=y", "https://h/x#subdirectory=../y", "https://u:p@h/x", " https://h/x",
    "https://h/x ", "\nhttps://h/x",
    "https://h/x\n", "ftp://h/x", "ssh://h/x", "git+https://h/x", "git@h:x", "data:x", "javascript:x", "x.torrent",
    "x.metalink", "x.aria2", "http", "https://[::1]/x",
    "probe-1-py3-none-any.whl", "evil-1-py3-none-any.whl", "probe-1.tar.gz", "evil-1.tar.gz", "probe-1.ZIP", "x.tar.xz", ".whl",
    COMMIT[:39], COMMIT + "0", COMMIT.upper(), COMMIT[:39] + "g", A256, A256.upper(), A256[:63], A256 + "0", A256[:63] + "g",
    A384, A512, A512[:127], "0x" + A256[:62],
    "git", "Git", "GIT", "hg", "svn", "bzr", "cvs", "git+ssh", "gi t", "1234", "main", "HEAD", "r1", "v1.0", "a-b", "sha256",
    "None", "*",
]


def named_sdist(text):
    """An sdist of this name, which stands in its URL with every other character escaped."""
    return sdist(name=text, url="https://h/" + urllib.parse.quote(text, safe=""))


def hashed_sdist(hashes):
    return {"sdist": {"url": "https://h/probe-1.tar.gz", "hashes": hashes}}


# Each text of a lock that a form reads: the entry with that text, and the texts that pieces are put into, at the bar.
FIELDS = {
    "the url of an sdist": (lambda text: sdist(url=text),
        ["https://h/x|y/probe-1.tar.gz", "https://h/probe|-1.tar.gz", "|https://h/probe-1.tar.gz", "https://h/probe-1.tar.gz|",
         "https://h/probe-1.tar.gz?x|y", "https://h|/probe-1.tar.gz", "https://|h/probe-1.tar.gz", "http://h:8|/probe-1.tar.gz",
         "file:///|x/probe-1.tar.gz"]),
    "the url of a wheel": (lambda text: wheel(url=text),
        ["https://h/x|y/probe-1-py3-none-any.whl", "https://h/probe|-1-py3-none-any.whl",
         "https://h/probe-1-py3-none-any.whl|"]),
    "the url of a wheel with a name": (lambda text: wheel(name="probe-1-py3-none-any.whl", url=text),
        ["https://h/x|y/probe-1-py3-none-any.whl", "https://h/probe-1-py3-none-any.whl|"]),
    "the path of a wheel": (lambda text: wheel(path=text), ["x|y/probe-1-py3-none-any.whl", "|probe-1-py3-none-any.whl"]),
    "the url of an sdist with a path": (lambda text: sdist(url=text, path="x/probe-1.tar.gz"),
        ["https://h/x|y/probe-1.tar.gz"]),
    "the path of an sdist with a url": (lambda text: sdist(url="https://h/probe-1.tar.gz", path=text),
        ["x|y/probe-1.tar.gz", "|probe-1.tar.gz"]),
    "the path of an sdist": (lambda text: sdist(path=text),
        ["x|y/probe-1.tar.gz", "probe|-1.tar.gz", "|probe-1.tar.gz", "/x|/probe-1.tar.gz"]),
    "the name of an sdist": (named_sdist, ["x|y", "|probe-1.tar.gz", "probe-1.tar.gz|", "probe-1|.tar.gz"]),
    "the name of an sdist whose url has another": (lambda text: sdist(name=text, url="https://h/probe-1.tar.gz"),
        ["probe-1|.tar.gz"]),
    "the sha256 of an sdist": (lambda text: hashed_sdist({"sha256": text}), [A256[:-1] + "|", "|" + A256]),
    "the sha512 beside it": (lambda text: hashed_sdist({"sha256": A256, "sha512": text}), [A512[:-1] + "|"]),
    "the md5 beside it": (lambda text: hashed_sdist({"sha256": A256, "md5": text}), ["0|"]),
    "an algorithm alone": (lambda text: hashed_sdist({text: A256}), ["sha256|", "|sha256", "sha|256"]),
    "the url of an archive": (lambda text: archive(url=text), ["https://h/x|y.zip", "https://h/x.zip|", "https://h|/x.zip"]),
    "the path of an archive": (lambda text: archive(path=text), ["x|y.zip", "|x.zip", "x.zip|"]),
    "the subdirectory of an archive": (lambda text: archive(url="https://h/x.zip", subdirectory=text), ["x|y", "|x", "x|"]),
    "the sha384 of an archive": (lambda text: {"archive": {"url": "https://h/x.zip", "hashes": {"sha384": text}}},
        [A384[:-1] + "|"]),
    "the type of a VCS": (lambda text: vcs(type=text), ["git|"]),
    "the commit-id of git": (lambda text: vcs(**{"commit-id": text}), [COMMIT[:-1] + "|", "|" + COMMIT]),
    "the commit-id of svn": (lambda text: vcs(type="svn", **{"commit-id": text}), ["12|34"]),
    "the url of a VCS": (lambda text: vcs(url=text), ["https://h/x|y", "https://h/x|", "https://h|/x", "https://h/|",
        "file:///x|y"]),
    "the path of a VCS with a url": (lambda text: vcs(path=text), ["x|y"]),
    "the path of a VCS": (lambda text: {"vcs": {"type": "git", "path": text, "commit-id": COMMIT}}, ["x|y"]),
    "the subdirectory of a VCS": (lambda text: vcs(subdirectory=text), ["x|y", "|x"]),
    "the path of a directory": (directory, ["x|y", "|x", "x|", "/x|y", "../x|"]),
    "the path of an editable directory": (lambda text: directory(text, editable=True), ["x|y", "x|"]),
    "the subdirectory of a directory": (lambda text: directory("x", subdirectory=text), ["x|y", "|x", "x|"]),
}


def hostile_entries():
    """The field, the text and the entry of each."""
    for field, (entry, texts) in FIELDS.items():
        found = [texts[0].replace("|", piece, 1) for piece in PIECES]
        found += [text.replace("|", piece, 1) for text in texts[1:] for piece in OF_ENDS]
        for text in dict.fromkeys(found + WHOLE):
            yield field, text, {"name": "probe", **entry(text)}


# ---- tricks: what was seen to make a pip do something else than the lock says. Each has to be refused

WHEEL, SDIST = "alpha-1.0-py3-none-any.whl", "alpha-1.0.tar.gz"
TRICKS = {
    # pip looks for an algorithm and `=` anywhere in a URL, and takes a file of that hash beside the one of the line
    "a hash behind &": wheel(url=f"http://h/{WHEEL}?x&sha256={B256}"),
    "a weak hash behind &": wheel(url=f"http://h/{WHEEL}?x&md5=0123456789abcdef0123456789abcdef"),
    "a hash behind ?": wheel(url=f"http://h/{WHEEL}?sha256={B256}"),
    "a hash in the path": wheel(url=f"http://h/md5=0123456789abcdef0123456789abcdef/{WHEEL}"),
    "a hash in the path of an sdist": sdist(url=f"http://h/&sha512={A512}&/{SDIST}"),
    "a hash in the path of an archive": archive(url=f"http://h/sha1=0123456789abcdef0123456789abcdef01234567/a.zip"),
    # another folder of the archive is built, one outside too
    "a subdirectory of an archive": archive(url="http://h/a.tar.gz?x&subdirectory=evil&y"),
    "a subdirectory above an archive": archive(url="http://h/a.tar.gz?x&subdirectory=../../evil&y"),
    "a subdirectory in the path of an archive": archive(url="http://h/x&subdirectory=evil&y/a.tar.gz"),
    "a subdirectory before that of an archive": archive(url="http://h/x&subdirectory=evil&/a.tar.gz", subdirectory="good"),
    "a subdirectory in the path of a checkout": vcs(url="http://h/x&subdirectory=evil&y/r"),
    "another project behind &": archive(url="http://h/a.tar.gz?x&egg=evil&y"),
    "another project in the path of a checkout": vcs(url="http://h/x&egg=evil&y/r"),
    # the commit is read as the host
    "a checkout without a path": vcs(url="http://good.example"),
    "a checkout of svn without a path": vcs(type="svn", url="http://good.example", **{"commit-id": "1"}),
    "a checkout with a query": vcs(url="http://h/r?x"),
    "a checkout with a query alone": vcs(url="http://h?x"),
    # a file is written elsewhere before its hash is looked at
    "a path that is escaped twice": sdist(name="victim-1.tar.gz", url="http://h/%252Ftmp%252Fx%252Fvictim-1.tar.gz"),
    "an archive whose path is escaped twice": archive(url="http://h/%252Ftmp%252Fx%252Fvictim.txt"),
    "an archive above, escaped twice": archive(url="http://h/..%252F..%252Fvictim.zip"),
    # a file that stands where the lock says that a directory does
    "a directory that may be a wheel": directory("alpha-1.0-py3-none-any.whl"),
    "a directory that may be an archive": directory("x/alpha-1.0.tar.gz"),
    "a directory that may be a file, by its subdirectory": directory("x", subdirectory="alpha.zip/."),
    # a share of Windows; elsewhere pip refuses it
    "a share of Windows, by the root and a subdirectory": directory("/", subdirectory="evil/x"),
    # the file says which project is installed
    "a relative wheel of another project": wheel(path="evil-1.0-py3-none-any.whl"),
    "a relative archive that is a wheel": archive(path="evil-1.0-py3-none-any.whl"),
    "another host": wheel(url=f"http://h:80@evil/{WHEEL}"),
    "another host of a checkout": vcs(url="http://h:80@evil/r"),
    "a name and a password": sdist(url=f"https://user:password@h/{SDIST}"),
}
# These too, but the lines of a requirements file don't show it.
TRICKS_OF_FILES = {
    "a relative sdist of another project": sdist(path="evil-1.0.tar.gz"),
    "a wheel of another project": wheel(url="http://h/evil-1.0-py3-none-any.whl"),
    "an sdist of another project": sdist(url="http://h/evil-1.0.tar.gz"),
    "the lock's own folder": archive(path=""),
    "a share of Windows": sdist(url=f"file:////h/{SDIST}"),
    "a share of Windows, by a path": sdist(path=f"//h/{SDIST}"),
    "an archive that ends in .WHL": archive(url="http://h/evil-1.0-py3-none-any.WHL"),
    "an archive that ends as a wheel does": archive(url="http://h/a.whl"),
}

# ---- what else is refused: the form, and what the entry `alpha` has

REFUSED_URLS = {
    "another scheme": "ftp://h/", "a scheme in capitals": "HTTPS://h/", "no scheme": "//h/", "no host": "https:///",
    "a port that is none": "https://h:/", "a port of letters": "https://h:x/", "a host with an escape": "https://h%2e/",
    "a host with an @": "https://u@h/", "a host in brackets": "https://[::1]/", "a host with `_`": "https://h_h/",
    "a query in place of a path": "https://h?/", "a space": "https://h/x y/", "a fragment": "https://h/x#y/",
    "a semicolon": "https://h/x;y/", "a variable": "https://h/${HOME}/", "an end of a line": "https://h/x\n",
    "U+2028": "https://h/\u2028/",
    "a backslash": "https://h\\x/", "a quote": "https://h/'/", "an asterisk": "https://h/*/", "U+00E9": "https://h/\u00e9/",
}
REFUSED_LAST_PARTS = {
    "an empty last part": "", "a last part `..`": "..", "a last part `.`": ".", "a last part that begins with -": "-r",
    "a slash in the last part": "a%2Fb", "a line's end in the last part": "a%0Ab",
    "an escape in the last part, decoded": "a%2541",
    "`~` in the last part": "a~b", "`@` in the last part": "a@b", "`,` in the last part": "a,b",
    "a backslash in the last part": "a%5Cb", "`?` in the last part, escaped": "a%3Fb", "no escape": "a%",
    "a last part that is no UTF-8": "a%ff", "a query behind no last part": "?a",
}
REFUSED = {
    **{f"{what}, {form}": (form, archive(url=f"{url}a.zip")) for what, url in REFUSED_URLS.items()
       for form in ("requirements", "aria2", "urls")},
    **{f"{what}, of a checkout": ("requirements-local", vcs(url=f"{url}r")) for what, url in REFUSED_URLS.items()},
    **{f"{what}, {form}": (form, archive(url=f"https://h/{last}")) for what, last in REFUSED_LAST_PARTS.items()
       for form in ("requirements", "urls")},
    **{f"a directory that ends in {end}": ("requirements-local", directory(f"x/alpha{end}")) for end in (
        ".whl", ".zip", ".tar", ".tar.gz", ".tgz", ".tar.bz2", ".tbz", ".tar.xz", ".txz", ".tlz", ".tar.lz", ".tar.lzma",
        ".WHL", ".Tar.Gz")},
    "a directory whose last part ends so, with a slash": ("requirements-local", directory("x/alpha.whl/")),
    "a directory whose last part ends so, with a dot": ("requirements-local", directory("x/alpha.whl/./.")),
    "a subdirectory that ends so": ("requirements-local", directory("x", subdirectory="y/alpha.whl")),
    "a subdirectory `.` of what ends so": ("requirements-local", directory("../alpha.whl", subdirectory=".")),
    "a directory above, in the middle": ("requirements-local", directory("a/../b")),
    "a directory above, at the end": ("requirements-local", directory("a/..")),
    "a directory above the root": ("requirements-local", directory("/..")),
    "a subdirectory above": ("requirements-local", directory("../a", subdirectory="..")),
    "a subdirectory of the root": ("requirements-local", directory("a", subdirectory="/b")),
    "an empty directory": ("requirements-local", directory("")),
    "an empty subdirectory": ("requirements-local", directory("a", subdirectory="")),
    "a directory with `//`": ("requirements-local", directory("a//b")),
    "a share as a directory": ("requirements-local", directory("//h/b")),
    "a share as an editable directory": ("requirements-local", directory("/", subdirectory="h/b", editable=True)),
    "an editable directory above, in the middle": ("requirements-local", directory("a/../b", editable=True)),
    "a directory with a space": ("requirements-local", directory("a b")),
    "a directory with extras": ("requirements-local", directory("a[x]")),
    "a checkout at a file URL": ("requirements-local", vcs(url="file:///srv/r")),
    "a checkout with = in its path": ("requirements-local", vcs(url="https://h/a=b/r")),
    "a checkout with & in its path": ("requirements-local", vcs(url="https://h/a&b/r")),
    "a checkout with a host and `/`": ("requirements-local", vcs(url="https://h/")),
    "a checkout without a url": ("requirements-local", {"vcs": {"type": "git", "path": "../r", "commit-id": COMMIT}}),
    "a checkout by cvs": ("requirements-local", vcs(type="cvs")),
    "a branch": ("requirements-local", vcs(**{"commit-id": "main"})),
    "a commit of 39 digits": ("requirements-local", vcs(**{"commit-id": COMMIT[:39]})),
    "a commit of 64 digits": ("requirements-local", vcs(**{"commit-id": A256})),
    "a commit of hg that is a number": ("requirements-local", vcs(type="hg", **{"commit-id": "12"})),
    "a revision with @": ("requirements-local", vcs(type="svn", **{"commit-id": "1@HEAD"})),
    "no revision": ("requirements-local", vcs(type="bzr", **{"commit-id": ""})),
    "a subdirectory of a checkout above": ("requirements-local", vcs(subdirectory="a/../..")),
    "a subdirectory of a checkout with a project": ("requirements-local", vcs(subdirectory="a&egg=b")),
    "= in a url": ("requirements", archive(url="https://h/a.zip?x=y")),
    "& in a url": ("requirements", archive(url="https://h/a&b/a.zip")),
    "a file url and a dot": ("requirements", archive(url="file:///./a.zip")),
    "a file url with a host": ("requirements", archive(url="file://h/a.zip")),
    "an archive above": ("requirements", archive(path="../a.zip")),
    "an archive with `//`": ("requirements", archive(path="a//b.zip")),
    "an archive at a slash": ("requirements", archive(path="a/")),
    "an archive that is a dot": ("requirements", archive(path="a/.")),
    "an archive that begins with a dot": ("requirements", archive(path="a/.zip")),
    "a subdirectory of an archive above": ("requirements", archive(url="https://h/a.zip", subdirectory="../b")),
    "a subdirectory of a relative archive": ("requirements", archive(path="a.zip", subdirectory="b")),
    "no hash": ("requirements", {"sdist": {"url": f"https://h/{SDIST}"}}),
    "a weak hash alone": ("requirements", {"sdist": {"url": f"https://h/{SDIST}", "hashes": {"md5": "0" * 32}}}),
    "a sha256 that is none beside a sha512": ("requirements",
        {"sdist": {"url": f"https://h/{SDIST}", "hashes": {"sha256": "0", "sha512": A512}}}),
    "a sha384 of another length": ("requirements", {"sdist": {"url": f"https://h/{SDIST}", "hashes": {"sha384": A256}}}),
    "a sha256 in capitals": ("requirements", {"sdist": {"url": f"https://h/{SDIST}", "hashes": {"sha256": "F" * 64}}}),
    "a name that the url doesn't end in": ("requirements", sdist(name=SDIST, url="https://h/alpha-2.tar.gz")),
    "a name that the path doesn't end in": ("requirements", sdist(name=SDIST, path="alpha-2.tar.gz")),
    "a wheel's name for an sdist": ("requirements", sdist(url=f"https://h/{WHEEL}")),
    "an sdist that is none": ("requirements", sdist(url="https://h/alpha.tar.gz")),
    "an sdist of another kind": ("requirements", sdist(url="https://h/alpha-1.0.tar.bz2")),
    "a sum of another length": ("sha256sum", {"sdist": {"url": f"https://h/{SDIST}", "hashes": {"sha256": A384}}}),
    "a sum with two lines": ("sha256sum", {"sdist": {"url": f"https://h/{SDIST}", "hashes": {"sha256": f"{A256}\n{B256}"}}}),
    "a file name with `=`": ("sha256sum", sdist(name="--files0-from=x", url="https://h/x")),
    "a file name above": ("sha256sum", sdist(name="../x", url="https://h/x")),
    "a file name with an end of a line": ("sha256sum", sdist(url="https://h/a%0Ab.zip")),
    "a path above": ("sha256sum", sdist(path="../a.zip")),
    "a path with a space": ("sha256sum", sdist(path="a b.zip")),
    "what aria2c keeps beside a file": ("aria2", sdist(name="alpha-1.zip.aria2", url="https://h/x")),
    "what aria2c writes first": ("aria2", sdist(name="alpha-1.zip.aria2__temp", url="https://h/x")),
    "a file name with a slash": ("aria2", sdist(name="x/../../y", url="https://h/x")),
    "a hidden file": ("aria2", sdist(name=".profile", url="https://h/x")),
}
