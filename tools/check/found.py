"""The pips that can be asked here: those of the Pythons of this machine, and those of Debian's suites, which apt-get fetches
into out/pips, where they stay."""

import glob
import os
import re
import shutil
import subprocess
import sys

from checks import TOP

OLDEST = (20, 1)  # since which pip has the functions that reader.py calls
SUITES = ["bullseye", "bookworm", "trixie", "sid"]
KEPT = f"{TOP}/out/pips"
KEYS = "/usr/share/keyrings/debian-archive-keyring.gpg"
SECONDS = 180  # of one command
APT = """#clear APT::Update::Pre-Invoke;
#clear APT::Update::Post-Invoke;
#clear APT::Update::Post-Invoke-Success;
Dir::Etc::SourceList "{folder}/sources.list";
Dir::Etc::SourceParts "/dev/null";
Dir::Etc::Preferences "/dev/null";
Dir::Etc::PreferencesParts "/dev/null";
Dir::State "{folder}/state";
Dir::State::Lists "{folder}/state/lists";
Dir::State::Status "{folder}/state/status";
Dir::Cache "{folder}/cache";
APT::Sandbox::User "";
APT::Update::Error-Mode "any";
Acquire::Languages "none";
Acquire::Retries "0";
Acquire::http::Timeout "10";
"""


class Absent(Exception):
    """Why a pip isn't reached."""


def version_of(folder):
    """The version of the package pip that a folder holds."""
    try:
        with open(f"{folder}/pip/__init__.py", encoding="utf-8") as file:
            found = re.search(r'^__version__ = "(.+)"$', file.read(), re.MULTILINE)
    except OSError:
        return None
    return found[1] if found else None


def numbers_of(version):
    return tuple(int(number) for number in re.findall("[0-9]+", version))


def path_of(folder):
    """What is to be on the path for the pip of a folder: Debian's of some suites has what it needs in wheels beside it."""
    wheels = sorted(glob.glob(f"{folder}/../../../share/python-wheels/*.whl"))
    return [folder, *(wheel for wheel in wheels if not re.match("(pip|wheel)-", os.path.basename(wheel)))]


# ---- of this machine


def of_this_machine():
    """The version of each pip of a Python here, or in a folder that PYLOCK_PIPS names, and what is to be on the path for it."""
    beside = os.path.dirname(sys.base_prefix)
    folders = [*sys.path, *os.environ.get("PYLOCK_PIPS", "").split(os.pathsep), "/usr/lib/python3/dist-packages"]
    folders += sorted(glob.glob(f"{beside}/*/lib/python3*/site-packages"))
    found = {}
    for folder in filter(None, folders):
        version = version_of(folder)
        if version and numbers_of(version) >= OLDEST:
            found.setdefault(version, path_of(os.path.abspath(folder)))
    return found


# ---- of Debian


def run(*words, folder=None):
    try:
        ran = subprocess.run(words, cwd=folder, stdin=subprocess.DEVNULL, stdout=subprocess.PIPE, stderr=subprocess.STDOUT,
            timeout=SECONDS)
    except (OSError, subprocess.TimeoutExpired) as error:
        raise Absent(f"{words[0]}: {error}") from None
    if ran.returncode != 0:
        told = ran.stdout.decode("utf-8", "replace").strip().splitlines() or ["nothing"]
        raise Absent(f"{words[0]} says {next((line for line in told if line.startswith('E: ')), told[-1])!r}")


def write(path, text):
    os.makedirs(os.path.dirname(path), exist_ok=True)
    with open(path, "w", encoding="utf-8") as file:
        file.write(text)


def prepared(suite, room):
    """The words of an apt of its own, in a new folder, which knows a suite: nothing of the machine's changes."""
    for needed in ("apt-get", "dpkg-deb"):
        if not shutil.which(needed):
            raise Absent(f"there is no {needed}")
    if not os.path.exists(KEYS):
        raise Absent(f"there is no {KEYS}")
    shutil.rmtree(room, ignore_errors=True)
    write(f"{room}/apt.conf", APT.format(folder=room))
    write(f"{room}/sources.list", f"deb [signed-by={KEYS}] http://deb.debian.org/debian {suite} main\n")
    write(f"{room}/state/status", "")
    os.makedirs(f"{room}/cache/archives/partial")
    os.makedirs(f"{room}/state/lists/partial")
    apt = ["apt-get", "-q", "-c", f"{room}/apt.conf"]
    run(*apt, "update")
    return apt


def unpack(apt, packages, room):
    """Fetches packages, and unpacks them into the folder `unpacked` of the apt's own."""
    run(*apt, "download", *packages, folder=room)
    for package in glob.glob(f"{room}/*.deb"):
        run("dpkg-deb", "-x", package, f"{room}/unpacked")
        os.remove(package)


def fetch(suite, place):
    """Unpacks the pip of a suite into a folder."""
    room = f"{place}.room"
    apt = prepared(suite, room)
    # before bookworm what pip needs of others is in another package
    unpack(apt, ["python3-pip", *(["python-pip-whl"] if suite == "bullseye" else [])], room)
    os.makedirs(os.path.dirname(place), exist_ok=True)
    shutil.rmtree(place, ignore_errors=True)
    os.rename(f"{room}/unpacked", place)
    shutil.rmtree(room)


def of_debian(suite):
    """The version of a suite's pip, and what is to be on the path for it; raises Absent."""
    place = f"{KEPT}/{suite}"
    folder = f"{place}/usr/lib/python3/dist-packages"
    if version_of(folder) is None:
        try:
            fetch(suite, place)
        finally:
            shutil.rmtree(f"{place}.room", ignore_errors=True)
    version = version_of(folder)
    if version is None:
        raise Absent(f"there is no pip in {folder}")
    return version, path_of(folder)
