"""Two copies of pip, one with its own `packaging` and one with pylock in its place, and a folder of wheels and sdists for both.

The variable PYLOCK_PIP names a folder that has `pip`, of release 26 or later. Nothing here needs a network: pip is asked
with an index of its own, the folder that is made here. Each copy stands in a folder of its own with an environment
(`venv`) of its own; what they write is compared with these folders' names replaced.
"""

import base64
import hashlib
import io
import json
import os
import re
import shutil
import subprocess
import sys
import tarfile
import zipfile

import in_place
import support  # noqa: F401  (it says where the module is)

import pylock

OLDEST = (26, 0)


def pip_folder():
    """The folder that PYLOCK_PIP names, if the pip in it is new enough and runs on this Python; else why not."""
    folder = os.environ.get("PYLOCK_PIP")
    if not folder:
        return None, "PYLOCK_PIP names no folder with pip 26 or later"
    try:
        with open(os.path.join(folder, "pip", "__init__.py"), encoding="utf-8") as file:
            release = re.search(r'__version__ = "(\d+)\.(\d+)', file.read())
    except OSError as error:
        return None, "PYLOCK_PIP: %s" % error
    if release is None or tuple(map(int, release.groups())) < OLDEST:
        return None, "PYLOCK_PIP: the pip there is older than 26"
    if sys.version_info < (3, 10) or not hasattr(os, "fork"):
        return None, "pip 26 needs Python 3.10 or later, and these tests a system that forks"
    return folder, ""


# ---- wheels and sdists ----

STAMP = (2024, 1, 2, 3, 4, 6)


def metadata_text(name, version, requires=(), extras=(), python=None, lines=()):
    """A METADATA file."""
    head = ["Metadata-Version: 2.1", "Name: " + name, "Version: " + version, "Summary: made for a test"]
    head += ["Requires-Python: " + python] if python else []
    head += ["Requires-Dist: " + each for each in requires]
    head += ["Provides-Extra: " + each for each in extras]
    return "\n".join([*head, *lines, "", "A description.", ""])


def zipped(files):
    """A zip archive of texts by their names, the same bytes each time."""
    made = io.BytesIO()
    with zipfile.ZipFile(made, "w", zipfile.ZIP_DEFLATED) as archive:
        for name, text in files.items():
            entry = zipfile.ZipInfo(name, STAMP)
            entry.external_attr = 0o100644 << 16
            archive.writestr(entry, text)
    return made.getvalue()


def wheel_bytes(name, version, tag="py3-none-any", build=None, stem=None, **rest):
    """The file name and the bytes of a wheel."""
    stem = stem or re.sub(r"[-_.]+", "_", name).lower()
    folder = "%s-%s.dist-info" % (stem, version)
    tags = ["%s-%s-%s" % (one, two, three) for one in tag.split("-")[0].split(".") for two in tag.split("-")[1].split(".")
        for three in tag.split("-")[2].split(".")]
    head = ["Wheel-Version: 1.0", "Generator: test", "Root-Is-Purelib: true", *("Tag: " + each for each in tags)]
    head += ["Build: " + build] if build else []
    files = {
        stem + ".py": "version = %r\n" % version,
        folder + "/METADATA": metadata_text(name, version, **rest),
        folder + "/WHEEL": "\n".join(head) + "\n",
        folder + "/entry_points.txt": "[console_scripts]\n%s = %s:main\n" % (stem, stem),
    }
    record = []
    for path, text in files.items():
        digest = base64.urlsafe_b64encode(hashlib.sha256(text.encode()).digest()).rstrip(b"=").decode()
        record.append("%s,sha256=%s,%d" % (path, digest, len(text)))
    files[folder + "/RECORD"] = "\n".join([*record, folder + "/RECORD,,"]) + "\n"
    return "-".join([stem, version, *([build] if build else []), tag]) + ".whl", zipped(files)


BACKEND = '''\
import base64, hashlib, json, os, zipfile

HERE = os.path.dirname(os.path.abspath(__file__))
with open(os.path.join(HERE, "project.json")) as file:
    PROJECT = json.load(file)


def get_requires_for_build_wheel(config_settings=None):
    return PROJECT["build_requires"]


def _files(editable=False):
    stem, version = PROJECT["stem"], PROJECT["version"]
    folder = "%s-%s.dist-info" % (stem, version)
    code = {stem + ".pth": HERE + "\\n"} if editable else {stem + ".py": "version = %r\\n" % version}
    return folder, {
        **code,
        folder + "/METADATA": PROJECT["metadata"],
        folder + "/WHEEL": "Wheel-Version: 1.0\\nGenerator: test\\nRoot-Is-Purelib: true\\nTag: py3-none-any\\n",
    }


def prepare_metadata_for_build_wheel(metadata_directory, config_settings=None):
    folder, files = _files()
    os.makedirs(os.path.join(metadata_directory, folder))
    for name, text in files.items():
        if name.startswith(folder):
            with open(os.path.join(metadata_directory, name), "w") as file:
                file.write(text)
    return folder


prepare_metadata_for_build_editable = prepare_metadata_for_build_wheel


def build_wheel(wheel_directory, config_settings=None, metadata_directory=None, editable=False):
    folder, files = _files(editable)
    record = []
    for name, text in files.items():
        digest = base64.urlsafe_b64encode(hashlib.sha256(text.encode()).digest()).rstrip(b"=").decode()
        record.append("%s,sha256=%s,%d" % (name, digest, len(text)))
    files[folder + "/RECORD"] = "\\n".join(record + [folder + "/RECORD,,"]) + "\\n"
    made = "%s-%s-py3-none-any.whl" % (PROJECT["stem"], PROJECT["version"])
    with zipfile.ZipFile(os.path.join(wheel_directory, made), "w") as archive:
        for name, text in files.items():
            archive.writestr(zipfile.ZipInfo(name, (2024, 1, 2, 3, 4, 6)), text)
    return made


def build_editable(wheel_directory, config_settings=None, metadata_directory=None):
    return build_wheel(wheel_directory, editable=True)
'''


def project_files(name, version, build_requires=(), requires=(), extras=(), python=None, groups=None):
    """The files of a project that builds itself: it needs no other project to be built."""
    stem = re.sub(r"[-_.]+", "_", name).lower()
    text = metadata_text(name, version, requires, extras, python)
    project = {"stem": stem, "version": version, "metadata": text, "build_requires": list(build_requires)}
    lines = ["[build-system]", "requires = []", 'build-backend = "backend"', 'backend-path = ["."]']
    if groups is not None:
        lines += ["[dependency-groups]", *groups]
    return {"PKG-INFO": text, "pyproject.toml": "\n".join(lines) + "\n", "backend.py": BACKEND,
        "project.json": json.dumps(project)}


def sdist_bytes(name, version, stem=None, **rest):
    """The file name and the bytes of an sdist."""
    top = "%s-%s" % (stem or re.sub(r"[-_.]+", "_", name).lower(), version)
    made = io.BytesIO()
    with tarfile.open(fileobj=made, mode="w:gz", compresslevel=1) as archive:
        for path, text in project_files(name, version, **rest).items():
            entry = tarfile.TarInfo("%s/%s" % (top, path))
            entry.size = len(text.encode())
            archive.addfile(entry, io.BytesIO(text.encode()))
    return top + ".tar.gz", made.getvalue()


def write(folder, files):
    """Writes files, texts or bytes, by their names."""
    for name, content in files.items():
        path = os.path.join(folder, name)
        os.makedirs(os.path.dirname(path), exist_ok=True)
        with open(path, "wb") as file:
            file.write(content.encode() if isinstance(content, str) else content)


# ---- the copies of pip ----

# Imports all of pip once, and has a child of its own do what each line asks: the words, the folder, and where to write.
DRIVER = '''\
import argparse, importlib, importlib.readers, json, os, pkgutil, sys
import pip._internal, pip._vendor.distro, pip._vendor.rich.json
from pip._internal.cli.main import main
for each in pkgutil.walk_packages(pip._internal.__path__, "pip._internal."):
    try:
        importlib.import_module(each.name)
    except ImportError:
        # what is of another system, or of an older Python
        pass
print("ready", flush=True)
for line in sys.stdin:
    job = json.loads(line)
    child = os.fork()
    if child:
        status = os.waitpid(child, 0)[1]
        print(status >> 8 if status & 255 == 0 else -1, flush=True)
        continue
    for number, name in ((1, "out"), (2, "error")):
        os.dup2(os.open(job[name], os.O_WRONLY | os.O_CREAT | os.O_TRUNC), number)
    os.chdir(job["folder"])
    os.environ.update(job["variables"])
    status = 99
    try:
        status = main(job["words"])
    except SystemExit as end:
        status = end.code or 0
    except BaseException:
        import traceback
        traceback.print_exc()
    finally:
        sys.stdout.flush()
        sys.stderr.flush()
        os._exit(status if isinstance(status, int) else 98)
'''


class World:
    """A copy of pip with an environment of its own."""

    def __init__(self, root, source, shared, modules=None):
        """With `modules`, the names of modules, pylock takes the place of the copy's `packaging`."""
        self.root = root
        shutil.copytree(os.path.join(source, "pip"), os.path.join(root, "pip"))
        if modules is not None:
            self.replace(os.path.join(root, "pip", "_vendor", "packaging"), modules)
        for name in ("tmp", "home", "work", "cache"):
            os.mkdir(os.path.join(root, name))
        self.environment = self.make_environment("venv")
        write(root, {"driver.py": DRIVER})
        self.variables = self.make_variables(shared)
        self.driver = None
        self.jobs = 0

    def replace(self, place, modules):
        with open(os.path.join(place, "__init__.py"), encoding="utf-8") as file:
            release = re.search(r'__version__ = "(.*)"', file.read()).group(1)
        shutil.rmtree(place)
        os.mkdir(place)
        write(place, {"__init__.py": in_place.PACKAGE % (release, tuple(sorted(modules)))})

    def make_environment(self, name):
        """An environment without anything in it; its folder of modules."""
        folder = os.path.join(self.root, name)
        subprocess.run([sys.executable, "-m", "venv", "--without-pip", folder], check=True)
        return folder

    def make_variables(self, shared):
        kept = {name: os.environ[name] for name in ("PYLOCK_LIBRARY", "LD_LIBRARY_PATH") if name in os.environ}
        # no certificates are read: no network is asked
        return dict(
            kept, PATH="/usr/bin:/bin", PIP_USE_DEPRECATED="legacy-certs", HOME=os.path.join(self.root, "home"),
                TMPDIR=os.path.join(self.root, "tmp"), LC_ALL="C.UTF-8", COLUMNS="200",
            PYTHONHASHSEED="0", PYTHONPATH=os.path.join(shared, "modules"), PIP_CONFIG_FILE=os.devnull, NO_COLOR="1",
            PIP_DISABLE_PIP_VERSION_CHECK="1", PIP_NO_INPUT="1", PIP_NO_INDEX="1", PIP_FIND_LINKS=os.path.join(shared, "links"),
            PIP_CACHE_DIR=os.path.join(self.root, "cache"), PIP_ROOT_USER_ACTION="ignore",
        )

    def site(self, environment=None):
        """The folder of an environment's modules."""
        return os.path.join(environment or self.environment, "lib", "python%d.%d" % sys.version_info[:2], "site-packages")

    def start(self):
        if self.driver is None:
            self.driver = subprocess.Popen(
                [os.path.join(self.environment, "bin", "python"), os.path.join(self.root, "driver.py")], env=self.variables,
                stdin=subprocess.PIPE, stdout=subprocess.PIPE, stderr=subprocess.PIPE, universal_newlines=True,
            )
            if self.driver.stdout.readline() != "ready\n":
                raise AssertionError("pip doesn't start in %s: %s" % (self.root, self.driver.stderr.read()))

    def ask(self, words, variables):
        """Has the driver do it; `answer` waits for it."""
        self.start()
        self.jobs += 1
        paths = [os.path.join(self.root, "%s-%d" % (name, self.jobs)) for name in ("out", "error")]
        words = [each.replace("WORLD", self.root) for each in words]
        job = {"words": words, "folder": os.path.join(self.root, "work"), "variables": variables, "out": paths[0],
            "error": paths[1]}
        self.driver.stdin.write(json.dumps(job) + "\n")
        self.driver.stdin.flush()
        return paths

    def answer(self, paths):
        """The status, and what was written."""
        status = int(self.driver.stdout.readline())
        found = []
        for path in paths:
            with open(path, encoding="utf-8", errors="replace") as file:
                found.append(self.plain(file.read()))
        return status, found[0], found[1]

    def plain(self, text):
        """The text without what differs between two copies."""
        text = text.replace(self.root, "/world")
        text = re.sub(r"\bpip-([a-z]+(?:-[a-z]+)*)-[a-z0-9_]{8}\b", r"pip-\1-NUMBER", text)
        return re.sub(r"_[0-9a-f]{32}\b", "_NUMBER", text)

    def tree(self, name):
        """The files below a folder of this world, with digests of their contents."""
        found = {}
        for folder, _, files in os.walk(os.path.join(self.root, name)):
            for file_name in files:
                path = os.path.join(folder, file_name)
                if not path.endswith(".pyc"):
                    with open(path, "rb") as file:
                        content = self.plain(file.read().decode("latin-1"))
                    # a RECORD has the digests of files with paths in them
                    content = re.sub(r"(bin/|direct_url|\.pth).*", r"\1", content) if file_name == "RECORD" else content
                    found[self.plain(path)] = hashlib.sha256(content.encode()).hexdigest()
        return found

    def close(self):
        if self.driver is not None:
            self.driver.stdin.close()
            self.driver.wait()
            self.driver.stdout.close()
            self.driver.stderr.close()


def share(folder):
    """What both copies have: pylock as a package alone, and a folder for the links."""
    shutil.copytree(
        os.path.dirname(os.path.abspath(pylock.__file__)), os.path.join(folder, "modules", "pylock"),
        ignore=shutil.ignore_patterns("__pycache__"),
    )
    os.mkdir(os.path.join(folder, "links"))
