"""The rules of the forms that `plan` and `files` give to other tools (“Forms that other tools take” of
docs/FORMATS.md), for tools/check/exports and tools/check/pips: what a form is of the sources of a lock, worked out beside the program,
and what is wrong with what the program gives."""

import posixpath
import re

from checks import last_part, normal_name, told_to_a_person

LISTS = ["sha256sum", "aria2", "urls"]
FORMS = {"plan": ["requirements", "requirements-local", *LISTS], "files": LISTS}
HEADER = "# plan by pylock"
HASHES = {"sha256": 64, "sha384": 96, "sha512": 128}  # those of `requirements`, the first that stands counts

# ---- what a part of a line may be

URL_CHARACTERS = r"[A-Za-z0-9\-._~/:@%+,!?=&]*"
PATH = r"(?!.*//)(?!(.*/)?\.\.(/|$))[A-Za-z0-9\-._+/]+"
FILE = r"[A-Za-z0-9][A-Za-z0-9\-._+!]*"
ALLOWED = {
    "URL": rf"https?://[A-Za-z0-9\-.]+(:[0-9]+)?/{URL_CHARACTERS}",
    "file URL": rf"file:///[A-Za-z0-9]{URL_CHARACTERS}",
    "FILE": FILE,
    "PATH": PATH,
    "PATH of a directory": r"(?!.*//)(\.\.(/|$))*(?!(.*/)?\.\.(/|$))[A-Za-z0-9\-._+/]*(?<=.)",
    "SUB": rf"(?!/){PATH}",
    "git": "[0-9A-Fa-f]{40}",
    "hg": "[0-9A-Fa-f]{40}",
    "svn": "[A-Za-z0-9]+",
    "bzr": "[A-Za-z0-9]+",
    **{name: f"[0-9a-f]{{{length}}}" for name, length in HASHES.items()},
}
# What pip takes for a file where there is one.
ENDS_OF_FILES = (".whl", ".zip", ".tar", ".tar.gz", ".tgz", ".tar.bz2", ".tbz", ".tar.xz", ".txz", ".tlz", ".tar.lz",
    ".tar.lzma")


class Refused(Exception):
    """The lock is refused whole; `ids` are numbers of entries that may be named."""

    def __init__(self, *ids):
        super().__init__(ids)
        self.ids = ids


def require(holds, source):
    if not holds:
        raise Refused(source["id"])


def is_allowed(what, text):
    return text is not None and re.fullmatch(ALLOWED[what], text) is not None


def allowed(what, text, source):
    """The text, which has to be there and to be one of these."""
    require(is_allowed(what, text), source)
    return text


def url_of(source, is_for_pip=False):
    """The URL of a source, whose last part is a file name."""
    url = source["url"]
    require(is_allowed("URL", url) or is_for_pip and is_allowed("file URL", url), source)
    require(not is_for_pip or not re.search("[=&]", url), source)
    allowed("FILE", last_part(url, None), source)
    return url


def written_path(path):
    return path if path.startswith("/") else f"./{path}"


def fragment_of(source):
    found = source.get("subdirectory")
    return "" if found is None else f"#subdirectory={allowed('SUB', found, source)}"


# ---- names of files

NUMBER_LIMIT = 2**128
VERSION = re.compile(
    r"v?(?:[0-9]+!)?[0-9]+(?:\.[0-9]+)*(?:[-_.]?(?:alpha|beta|preview|pre|rc|a|b|c)[-_.]?[0-9]*)?"
    r"(?:-[0-9]+|[-_.]?(?:post|rev|r)[-_.]?[0-9]*)?(?:[-_.]?dev[-_.]?[0-9]*)?(\+[a-z0-9]+(?:[-_.][a-z0-9]+)*)?",
    re.IGNORECASE | re.ASCII,
)
NAME = re.compile(r"[A-Za-z0-9]([A-Za-z0-9._\-]*[A-Za-z0-9])?")


def is_version(text):
    found = VERSION.fullmatch(text.strip("\t\n\v\f\r "))
    if not found:
        return False
    local = found[1] or ""
    numbers = re.findall("[0-9]+", found[0][:len(found[0]) - len(local)])
    numbers += [segment for segment in re.split(r"[-_.+]", local) if segment.isdigit()]
    return all(int(number) < NUMBER_LIMIT for number in numbers)


def project_of_wheel(file):
    """The project that the name of a wheel says, in normal form; None for another text."""
    parts = file[:-len(".whl")].split("-")
    if not file.endswith(".whl") or len(parts) not in (5, 6):
        return None
    name, version, build, tags = parts[0], parts[1], parts[2:-3], parts[-3:]
    if not re.fullmatch(r"[A-Za-z0-9_.]+", name) or "__" in name or not is_version(version):
        return None
    if build and not (build[0].isascii() and re.match("[0-9]", build[0])
            and int(re.match("[0-9]+", build[0])[0]) < NUMBER_LIMIT):
        return None
    pieces = [part.split(".") for part in tags]
    if not all(re.fullmatch("[A-Za-z0-9_]+", piece) for part in pieces for piece in part):
        return None
    return normal_name(name) if len(pieces[0]) * len(pieces[1]) * len(pieces[2]) <= 1024 else None


def project_of_sdist(file):
    """The project that the name of an sdist says, in normal form; None for another text."""
    found = re.fullmatch(r"(.*)-([^-]*)(\.tar\.gz|\.zip)", file, re.DOTALL)
    if not found or not NAME.fullmatch(found[1]) or not is_version(found[2]):
        return None
    return normal_name(found[1])


def is_of_its_project(source, file):
    """The file name says that the file is of the entry's project; that of an archive has to where it is a wheel's."""
    if source["kind"] == "archive":
        return not file.lower().endswith(".whl") or project_of_wheel(file) == source["name"]
    return source["name"] == (project_of_wheel if source["kind"] == "wheel" else project_of_sdist)(file)


# ---- for pip and uv


def is_file(source):
    return source["kind"] in ("wheel", "sdist", "archive")


def hash_of(source):
    """The one hash that a line has."""
    hashes = source.get("hashes", {})
    for name in HASHES:
        if name in hashes:
            return f"--hash={name}:{allowed(name, hashes[name], source)}"
    raise Refused(source["id"])


def requirement(source):
    """The line of a file or an archive."""
    url, path, fragment = source.get("url"), source.get("path"), fragment_of(source)
    last = allowed("FILE", last_part(url, path), source)
    require(source["kind"] == "archive" or last == source.get("file"), source)
    require(is_of_its_project(source, last), source)
    if url is not None:
        place = f"{source['name']} @ {url_of(source, True)}{fragment}"
    elif allowed("PATH", path, source).startswith("/"):
        place = f"{source['name']} @ file://{path}{fragment}"
    else:
        require(not fragment, source)  # there is no URL that it could stand behind
        place = f"./{path}"
    return f"{place} {hash_of(source)}"


def requirement_of_checkout(source):
    system, commit, url = source["revision"]["type"], source["revision"]["commit"], source.get("url")
    require(system in ("git", "hg", "svn", "bzr"), source)
    allowed("URL", url, source)
    # a path that isn't empty, and nothing that pip looks for in a URL
    require(re.fullmatch(r"https?://[^/]+/[^?=&]+", url), source)
    return f"{source['name']} @ {system}+{url}@{allowed(system, commit, source)}{fragment_of(source)}"


def requirement_of_directory(source):
    path, sub = allowed("PATH of a directory", source["path"], source), source.get("subdirectory")
    if sub is not None:
        require(not path.endswith("/"), source)  # at the root `//` is a share of Windows
        path = f"{path}/{allowed('SUB', sub, source)}"
    if source["kind"] == "editable":
        return f"-e {written_path(path)}"
    last = posixpath.basename(posixpath.normpath(path))
    require(not last.lower().endswith(ENDS_OF_FILES), source)
    return written_path(path)


def local_requirement(source):
    return requirement_of_checkout(source) if source["kind"] == "vcs" else requirement_of_directory(source)


# ---- lists of files


def name_of(source):
    """The name of a file; an archive has the last part of its place."""
    if source["kind"] == "archive":
        return last_part(source.get("url"), source.get("path")) or None
    return source.get("file")


def can_list(form, source):
    """Whether a list can have this source at all."""
    if not is_file(source):
        return False
    if form == "urls":
        return "url" in source
    if "sha256" not in source.get("hashes", {}):
        return False
    return name_of(source) is not None if "url" in source else form == "sha256sum"


def entry_of(form, source):
    """What a list names a file by, and the value that goes with it."""
    if form == "urls":
        return url_of(source), None
    value = allowed("sha256", source["hashes"]["sha256"], source)
    if "url" not in source:
        return allowed("PATH", source["path"], source), value
    file = allowed("FILE", name_of(source), source)
    if form == "aria2":
        url_of(source)
        require(not file.endswith((".aria2", ".aria2__temp")), source)
    return file, value


OPTIONS = " follow-torrent=false\n follow-metalink=false\n auto-file-renaming=false"


def line_of(form, key, value, source):
    """The lines of a source that a list names so."""
    if form == "aria2":
        return f"{source['url']}\n out={key}\n checksum=sha-256={value}\n{OPTIONS}"
    if form == "sha256sum":
        return f"{value}  {key if 'url' in source else written_path(key)}"
    return key


def list_of(form, sources):
    """The lines of a list, each file once."""
    found = {}
    for source in sources:
        key, value = entry_of(form, source)
        first = found.setdefault(key, (value, source))
        if first[0] != value:
            raise Refused(source["id"], first[1]["id"])
    return [line_of(form, key, value, source) for key, (value, source) in found.items()]


# ---- a form


def has_line(form, source):
    """Whether the form is for this source; else it is left out, and counted."""
    if form in LISTS:
        return can_list(form, source)
    return is_file(source) == (form == "requirements")


def lines_of(form, sources):
    """The lines of a form; raises Refused."""
    kept = [source for source in sources if has_line(form, source)]
    if form in LISTS:
        return list_of(form, kept)
    return [HEADER, *map(requirement if form == "requirements" else local_requirement, kept)]


def expected(form, sources):
    """The text of a form, or None where the lock is refused; the numbers of entries that a refusal may name; and the sources
    that are left out."""
    left = [source for source in sources if not has_line(form, source)]
    try:
        return "".join(f"{line}\n" for line in lines_of(form, sources)), (), left
    except Refused as refused:
        return None, refused.ids, left


# ---- what the program gives

# A line of each form holds nothing else, whatever the lock has.
OF_URL = r"https?://[A-Za-z0-9.\-]+(:[0-9]+)?/[\w\-.~/:@%+,!?=&]*"
OF_PIP = r"(https?://[A-Za-z0-9.\-]+(:[0-9]+)?/|file:///)[\w\-.~/:@%+,!?]*"
OF_SUB = r"(#subdirectory=[\w\-.+/]+)?"
OF_HASH = r"(sha256:\w{64}|sha384:\w{96}|sha512:\w{128})"
OF_NAME = r"[a-z0-9]([a-z0-9\-]*[a-z0-9])?"
NOTHING_ELSE = {
    "requirements": rf"{HEADER}|({OF_NAME} @ {OF_PIP}{OF_SUB}|\./[\w\-.+/]+) --hash={OF_HASH}",
    "requirements-local": rf"{HEADER}|(-e )?(\./|/)[\w\-.+/]*|{OF_NAME} @ (git|hg|svn|bzr)\+{OF_PIP}@[0-9A-Za-z]+{OF_SUB}",
    "sha256sum": rf"[0-9a-f]{{64}}  ({FILE}|\./[\w\-.+/]+|/[\w\-.+/]*)",
    "aria2": rf"{OF_URL}|[ \t]+(out={FILE}|checksum=sha-256=[0-9a-f]{{64}}|follow-(torrent|metalink)=false"
             r"|auto-file-renaming=false)",
    "urls": OF_URL,
}


def is_told(left, error):
    """What is wrong with the note of the sources that are left out: it has their number and the name of the first."""
    if not left:
        return f"standard error has {error!r}" if error else None
    if not re.search(rf"\b{len(left)}\b", error) or left[0]["name"] not in error:
        return f"no note of {len(left)}, {left[0]['name']} first, on standard error: {error!r}"
    return told_to_a_person(error)


def compare(ran, form, sources, name=None):
    """What is wrong with what the program gives of these sources in a form; a refusal has to name the entry `name`."""
    text, ids, left = expected(form, sources)
    if text is None:
        return compare_refusal(ran, ids, name)
    lines = ran.output.split("\n")
    if not all(re.fullmatch(NOTHING_ELSE[form], line, re.ASCII) for line in lines[:-1]) or lines[-1]:
        return f"a line that {form} can't have: {ran.output!r}"
    # how far the options of aria2c are indented is free
    if ran.status != 0 or re.sub(r"^[ \t]+", " ", ran.output, flags=re.MULTILINE) != text:
        return f"status {ran.status} and {ran.output!r}, not 0 and {text!r}"
    return is_told(left, ran.error)


def compare_refusal(ran, ids, name=None):
    """What is wrong with a refusal of one of these entries."""
    if ran.status != 1 or ran.output:
        return f"status {ran.status} and {ran.output!r}, not 1 and nothing"
    first, _, rest = ran.error.partition("\n")
    if first not in [f"refused\tformat\t{each}" for each in ids]:
        return f"standard error begins with {first!r}, where entry {ids} is at fault"
    fields = r"url|path|file|hash|sha|type|commit|subdirectory|archive"
    if name is not None and not (name in rest and re.search(fields, rest)):
        return f"a line for a person without the entry or the field: {rest!r}"
    return told_to_a_person(rest)
