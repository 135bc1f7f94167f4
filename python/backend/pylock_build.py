"""Builds the wheel and the sdist of `pylock`, with the standard library alone (PEP 517).

The wheel carries the module, with `_native` compiled by the machine's `cc`, or that which CC names, for the limited API of
Python: its tag is cp310-abi3-PLATFORM, or cp38-abi3-PLATFORM where Python 3.8 or 3.9 builds it. The library is linked in:
the archive that PYLOCK_ARCHIVE names, else out/libpylock.a of the repository, which tools/make/library builds, else
dist/libpylock.a. Where PYLOCK_NATIVE names a compiled `_native`, the wheel has that one; PYLOCK_API names its API, as
cp310. The command pylock is `python -m pylock`. PYLOCK_PLATFORM names the platforms of the tag, with dots between them. A
wheel is the same bytes for the same files and tools.

    python3 backend/pylock_build.py place FOLDER

compiles `_native` and puts it in FOLDER/pylock beside links to the module's files: for PYTHONPATH.
"""

import base64
import gzip
import hashlib
import io
import os
import re
import shlex
import shutil
import subprocess
import sys
import sysconfig
import tarfile
import tempfile
import zipfile

HERE = os.path.dirname(os.path.dirname(os.path.abspath(__file__)))
TOP = os.path.dirname(HERE)
TIME = (1980, 1, 1, 0, 0, 0)
NATIVE = "_native.abi3.so"
WORDS = ["-std=c11", "-O2", "-Wall", "-Wextra", "-Werror", "-fPIC", "-fvisibility=hidden"]
# On Linux: calls of Python's functions without a step between, of which there are many short ones; a guard behind the arrays of
# a function, for which glibc since 2.4 and musl have `__stack_chk_fail`; and no calls that check sizes, which musl doesn't have.
OF_SYSTEM = {"linux": ["-fno-plt", "-fstack-protector-strong", "-U_FORTIFY_SOURCE"]}
# there all that is called is found when the module is loaded, and can't be written over from then on
LINKING = {
    "darwin": ["-bundle", "-undefined", "dynamic_lookup", "-Wl,-exported_symbol,_PyInit__native"],
    "linux": ["-shared", "-s", "-Wl,--exclude-libs,ALL", "-Wl,-z,relro,-z,now"],
}


def get_requires_for_build_wheel(config_settings=None):
    return []


def get_requires_for_build_sdist(config_settings=None):
    return []


def project():
    """The keys of the table `project` that are texts."""
    with open(os.path.join(HERE, "pyproject.toml"), encoding="utf-8") as file:
        table = file.read().split("[project]", 1)[1]
    return dict(re.findall(r'^([a-z-]+) = "([^"]*)"$', table, re.MULTILINE))


def metadata():
    keys = project()
    lines = [
        "Metadata-Version: 2.1",
        "Name: " + keys["name"],
        "Version: " + keys["version"],
        "Summary: " + keys["description"],
        "Requires-Python: " + keys["requires-python"],
    ]
    return "\n".join(lines) + "\n"


def fail(text):
    sys.exit("pylock: " + text)


# ---- the compiled part


def first(places, what):
    """The first of the files that is there."""
    for place in places:
        if os.path.isfile(place):
            return place
    return fail(what % " or ".join(places))


def archive():
    """The path of the built library."""
    named = os.environ.get("PYLOCK_ARCHIVE")
    places = [named] if named else [os.path.join(TOP, folder, "libpylock.a") for folder in ("out", "dist")]
    return first(places, "there is no built library at %s: tools/make/library builds it, or PYLOCK_ARCHIVE names it")


def header():
    """The path of the library's header: that of the repository, or of an sdist."""
    return first([os.path.join(folder, "include", "pylock.h") for folder in (TOP, HERE)], "there is no %s")


def api():
    """The limited API that is compiled for, as a tag of wheels has it."""
    return os.environ.get("PYLOCK_API") or ("cp310" if sys.version_info >= (3, 10) else "cp38")


def compiler():
    named = shlex.split(os.environ.get("CC") or "cc")
    if shutil.which(named[0]) is None:
        fail("there is no C compiler %s, which compiles the module (CC names one)" % named[0])
    return named


def python_headers():
    """The folders of Python's own headers."""
    folders = list(dict.fromkeys(sysconfig.get_path(name) for name in ("include", "platinclude")))
    if not any(os.path.isfile(os.path.join(folder, "Python.h")) for folder in folders):
        fail("there is no Python.h in %s: the headers of this Python are missing" % " or ".join(folders))
    return folders


def sources():
    """The paths of the files in C, in order."""
    folder = os.path.join(HERE, "native")
    return sorted(os.path.join(folder, name) for name in os.listdir(folder) if name.endswith(".c"))


def words(system):
    """The words of the compiler but for folders, files and the API."""
    return WORDS + OF_SYSTEM.get(system, [])


def compile_native(path):
    """Compiles and links the part that is written in C."""
    if sysconfig.get_config_var("Py_GIL_DISABLED"):
        fail("there is no build for a free-threaded Python, as this one is")
    line = compiler() + words(sys.platform) + shlex.split(os.environ.get("CFLAGS", ""))
    line.append("-DPy_LIMITED_API=0x03%02x0000" % int(api()[len("cp3") :]))
    line.append("-I" + os.path.dirname(header()))
    for folder in python_headers():
        line += ["-isystem", folder]
    line += sources() + LINKING.get(sys.platform, LINKING["linux"]) + [archive(), "-o", path]
    if subprocess.call(line) != 0:
        fail("the module was not compiled")


def native():
    """The bytes of the compiled part."""
    named = os.environ.get("PYLOCK_NATIVE")
    if named:
        return content(named)
    with tempfile.TemporaryDirectory() as folder:
        path = os.path.join(folder, NATIVE)
        compile_native(path)
        return content(path)


def place(folder):
    """Puts the compiled part into the folder's folder pylock, and links to the files of the module beside it."""
    package = os.path.join(folder, "pylock")
    os.makedirs(package, exist_ok=True)
    for module in modules():
        link = os.path.join(package, *module.split("/"))
        os.makedirs(os.path.dirname(link), exist_ok=True)
        os.symlink(os.path.join(HERE, "pylock", *module.split("/")), link)
    compile_native(os.path.join(package, NATIVE))


# ---- the wheel


def platform():
    """The platforms of the wheel's tag, with dots between them."""
    name = sysconfig.get_platform().replace("-", "_").replace(".", "_")
    return os.environ.get("PYLOCK_PLATFORM", name)


def modules():
    """The names of the module's files, with those of its folders, in order."""
    folder = os.path.join(HERE, "pylock")
    found = []
    for place, _, names in os.walk(folder):
        within = os.path.relpath(place, folder).replace(os.sep, "/")
        ours = [name for name in names if name.endswith((".py", ".pyi")) or name == "py.typed"]
        found += [name if within == "." else within + "/" + name for name in ours]
    return sorted(found)


def content(path):
    with open(path, "rb") as file:
        return file.read()


def read(*names):
    return content(os.path.join(HERE, *names))


def tags(platforms):
    """The file WHEEL, with a tag for each platform."""
    lines = ["Wheel-Version: 1.0", "Generator: pylock_build", "Root-Is-Purelib: false"]
    lines += ["Tag: %s-abi3-%s" % (api(), name) for name in platforms.split(".")]
    return "\n".join(lines) + "\n"


class Wheel:
    """A wheel that is being written: each file with its sum in RECORD."""

    def __init__(self, path, dist_info):
        self.file = zipfile.ZipFile(path, "w", zipfile.ZIP_DEFLATED)
        self.dist_info = dist_info
        self.record = []

    def add(self, name, content, mode=0o644):
        info = zipfile.ZipInfo(name, TIME)
        info.external_attr = (0o100000 | mode) << 16
        info.compress_type = zipfile.ZIP_DEFLATED
        self.file.writestr(info, content)
        digest = base64.urlsafe_b64encode(hashlib.sha256(content).digest()).rstrip(b"=").decode()
        self.record.append("%s,sha256=%s,%d" % (name, digest, len(content)))

    def close(self):
        name = self.dist_info + "/RECORD"
        record = "\n".join(self.record + [name + ",,"]) + "\n"
        self.file.writestr(zipfile.ZipInfo(name, TIME), record)
        self.file.close()


def build_wheel(wheel_directory, config_settings=None, metadata_directory=None):
    keys = project()
    stem = "%s-%s" % (keys["name"], keys["version"])
    platforms = platform()
    name = "%s-%s-abi3-%s.whl" % (stem, api(), platforms)
    compiled = native()
    wheel = Wheel(os.path.join(wheel_directory, name), stem + ".dist-info")
    for module in modules():
        wheel.add("pylock/" + module, read("pylock", module))
    wheel.add("pylock/" + NATIVE, compiled, 0o755)
    wheel.add(stem + ".dist-info/METADATA", metadata().encode())
    wheel.add(stem + ".dist-info/entry_points.txt", b"[console_scripts]\npylock = pylock.__main__:command\n")
    wheel.add(stem + ".dist-info/WHEEL", tags(platforms).encode())
    wheel.close()
    return name


def build_sdist(sdist_directory, config_settings=None):
    """The module, its part in C and this backend, without a library: PYLOCK_ARCHIVE names one where the sdist is built."""
    keys = project()
    stem = "%s-%s" % (keys["name"], keys["version"])
    files = [("PKG-INFO", metadata().encode()), ("pyproject.toml", read("pyproject.toml"))]
    files.append(("backend/pylock_build.py", read("backend", "pylock_build.py")))
    files.append(("include/pylock.h", content(header())))
    files += [("native/" + name, read("native", name)) for name in sorted(os.listdir(os.path.join(HERE, "native")))]
    files += [("pylock/" + module, read("pylock", module)) for module in modules()]
    packed = io.BytesIO()
    with tarfile.open(fileobj=packed, mode="w", format=tarfile.PAX_FORMAT) as file:
        for name, packed_content in files:
            info = tarfile.TarInfo(stem + "/" + name)
            info.size = len(packed_content)
            info.mode = 0o644
            file.addfile(info, io.BytesIO(packed_content))
    with open(os.path.join(sdist_directory, stem + ".tar.gz"), "wb") as file:
        file.write(gzip.compress(packed.getvalue(), mtime=0))
    return stem + ".tar.gz"


if __name__ == "__main__":
    if len(sys.argv) != 3 or sys.argv[1] != "place":
        sys.exit((__doc__ or "").split("\n\n", 1)[1])
    place(sys.argv[2])
