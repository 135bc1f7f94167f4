"""jobs.py JOB FOLDER: does one job of a program that imports `packaging`, in an empty folder, and writes what came of it as
JSON on standard output. What is on the path says which `packaging` it is; tools/check/consumers/run compares two."""

import contextlib
import hashlib
import io
import json
import os
import re
import shutil
import sys
import tarfile
import traceback
import zipfile

REQUIRES = [
    "alpha>=1.0,<2", 'beta[fast,Slow]~=2.1; python_version >= "3.8" and sys_platform != "win32"',
    'gamma @ https://example.org/gamma-1.0-py3-none-any.whl', 'delta==1.*; python_version < "3.9" or os_name == "nt"', "Eps.ilon",
]
EXTRAS = {
    "More_Tests": ["pytest>=7; python_version >= '3.8'", "coverage[toml]!=7.0.0"],
    "docs": ['sphinx>=4,<9; python_version < "3.12" or implementation_name == "pypy"', "self-example[more-tests]"],
}
VERSION = "1.4.0b2.post1"


# ---- files


def write(path, text):
    os.makedirs(os.path.dirname(os.path.abspath(path)), exist_ok=True)
    with open(path, "w", encoding="utf-8") as file:
        file.write(text)


def read(path):
    with open(path, encoding="utf-8") as file:
        return file.read()


def toml(value):
    if isinstance(value, list):
        return "[%s]" % ", ".join(map(toml, value))
    return json.dumps(value)


def project(backend, requires, *more, version=VERSION, dynamic=None):
    """The text of a pyproject.toml."""
    lines = ["[build-system]", "requires = %s" % toml(requires), "build-backend = %s" % toml(backend), "[project]"]
    lines += ['name = "Self_Example"', 'description = "An example"', 'license = "mit or apache-2.0"', 'requires-python = ">=3.8,!=3.9.1"']
    lines += ["dynamic = %s" % toml(dynamic)] if dynamic else ["version = %s" % toml(version)]
    lines += ["dependencies = %s" % toml(REQUIRES), "[project.optional-dependencies]"]
    lines += ["%s = %s" % (name, toml(texts)) for name, texts in EXTRAS.items()]
    return "\n".join([*lines, *more, ""])


def member(content):
    """What a file of an archive has: the text, or its digest."""
    try:
        text = content.decode("utf-8")
    except UnicodeDecodeError:
        text = None
    return text if text is not None and len(text) < 6000 else hashlib.sha256(content).hexdigest()


def archive(path):
    """The members of a wheel or an sdist."""
    found = {}
    if path.endswith(".whl"):
        with zipfile.ZipFile(path) as file:
            found = {name: member(file.read(name)) for name in file.namelist()}
    else:
        with tarfile.open(path) as file:
            found = {each.name: member(file.extractfile(each).read()) for each in file.getmembers() if each.isfile()}
    return {"file": os.path.basename(path), "members": found}


def module(name="self_example"):
    write("src/%s/__init__.py" % name, '"""An example."""\n__version__ = "1.4.0b2"\n')
    write("README.md", "# Example\n")


def called(function, *words, **named):
    """What a call gives, or the exception that it ends with."""
    try:
        return repr(function(*words, **named))
    except Exception as error:
        return type(error).__name__


def command(main, *words, name=None):
    """The status, or the exception that it ends with, and the output of the program that a function is."""
    output = io.StringIO()
    sys.argv = [name or "program", *words]
    try:
        with contextlib.redirect_stdout(output), contextlib.redirect_stderr(output):
            status = main()
    except SystemExit as end:
        status = end.code
    except Exception as error:
        status = type(error).__name__
    return {"words": words, "status": status, "output": output.getvalue()}


# ---- hatchling


def hatch(*more, **named):
    module()
    write("pyproject.toml", project("hatchling.build", ["hatchling"], *more, **named))


def hatchling_builds():
    hatch("[tool.hatch.metadata]", "allow-direct-references = true", "[tool.hatch.build.targets.wheel]", 'packages = ["src/self_example"]')
    from hatchling import build

    os.mkdir("out")
    return {
        "wheel": archive(os.path.join("out", build.build_wheel("out"))),
        "sdist": archive(os.path.join("out", build.build_sdist("out"))),
        "editable": archive(os.path.join("out", build.build_editable("out"))),
    }


def hatchling_metadata():
    hatch("[tool.hatch.metadata]", "allow-direct-references = true")
    from hatchling.cli import hatchling

    return [command(hatchling, "metadata"), command(hatchling, "metadata", "dependencies"), command(hatchling, "version")]


def hatchling_versions():
    from hatchling.cli import hatchling

    told = []
    for begin, words in (
        ("1.4.0", ["rc", "minor", "alpha", "post", "dev", "release", "major", "2.0,b", "micro,rc,dev", "patch", "fix", "preview", "1!3.0"]),
        ("1.0rc1.post2.dev3", ["rc", "beta", "dev", "post", "release", "0.9", "x"]), ("2.0a1", ["a", "alpha", "c", "rev", "r"]),
    ):
        for word in words:
            shutil.rmtree("src", ignore_errors=True)
            hatch("[tool.hatch.version]", 'path = "src/self_example/__init__.py"', dynamic=["version"])
            write("src/self_example/__init__.py", '__version__ = "%s"\n' % begin)
            told.append([begin, command(hatchling, "version", word), read("src/self_example/__init__.py")])
    return told


def hatchling_spec():
    """The metadata of each release, written and read again, and dependencies that are in step."""
    hatch("[tool.hatch.metadata]", "allow-direct-references = true")
    from hatchling.cli.dep.core import dependencies_in_sync
    from hatchling.metadata import spec
    from hatchling.metadata.core import ProjectMetadata
    from packaging.requirements import Requirement

    from hatchling.plugin.manager import PluginManager

    metadata = ProjectMetadata(os.getcwd(), PluginManager())
    told = {name: function(metadata) for name, function in spec.get_core_metadata_constructors().items()}
    told["read"] = {name: called(spec.project_metadata_from_core_metadata, text) for name, text in list(told.items())}
    told["in step"] = [dependencies_in_sync([Requirement(text)]) for text in
        ("tomlkit>=0.1", "tomlkit<0.1", "nowhere", "nowhere; os_name == 'nt'", "tomlkit[x]; extra == 'y'", "tomlkit==0.13.*")]
    return told


# ---- other backends


def pdm_backend_builds():
    module()
    write("pyproject.toml", project("pdm.backend", ["pdm-backend"], "[tool.pdm.build]", 'package-dir = "src"'))
    from pdm import backend

    os.mkdir("out")
    told = {
        "wheel": archive(os.path.join("out", backend.build_wheel("out"))),
        "sdist": archive(os.path.join("out", backend.build_sdist("out"))),
        "editable": archive(os.path.join("out", backend.build_editable("out"))),
    }
    for number in ("1", "2b", "x"):
        told["build " + number] = called(lambda: archive(os.path.join("out", backend.build_wheel("out", {"--build-number": number})))["file"])
    for words in ({"--python-tag": "py3", "--py-limited-api": "cp38"}, {"--plat-name": "win_amd64"}):
        told[str(words)] = called(lambda: archive(os.path.join("out", backend.build_wheel("out", words)))["file"])
    return told


def pdm_backend_versions():
    from pdm.backend.hooks.version import scm
    from pdm.backend.utils import merge_marker, to_filename
    from packaging.requirements import Requirement
    from packaging.version import Version

    told = []
    for text, marker in (("a", "extra == 'x'"), ("a; os_name == 'nt'", "extra == 'x'"), ("a>1; os_name == 'nt' or os_name == 'x'", "extra == 'x'"),
            ("a; (os_name == 'nt' or os_name == 'x')", "extra == 'x'"), ("a; os_name == 'nt' and (os_name == 'y' or os_name == 'x')", "extra == 'x'")):
        requirement = Requirement(text)
        merge_marker(requirement, marker)
        told.append(str(requirement))
    for version in ("1.0", "1.0rc1", "1!2.0.post3", "1.0.dev4"):
        for distance in (0, 5):
            found = scm.SCMVersion(Version(version), distance, bool(distance), "abcdef", "main")
            told.append(called(scm.default_version_formatter, found))
    return [told, to_filename("A.b-C")]


def meson_builds():
    write("meson.build", "project('self-example', version: '1.4.0b2')\npy = import('python').find_installation(pure: true)\n"
        "py.install_sources('self_example.py')\n")
    write("self_example.py", "")
    write("pyproject.toml", project("mesonpy", ["meson-python"]))
    import mesonpy

    os.mkdir("out")
    return archive(os.path.join("out", mesonpy.build_wheel("out")))


def scikit_builds():
    module()
    write("pyproject.toml", project("scikit_build_core.build", ["scikit-build-core>=0.10"], "[tool.scikit-build]", "wheel.cmake = false",
        'wheel.py-api = "py3"', 'minimum-version = "0.10"'))
    from scikit_build_core import build

    os.mkdir("out")
    return {
        "wheel": archive(os.path.join("out", build.build_wheel("out", {}))),
        "sdist": archive(os.path.join("out", build.build_sdist("out", {}))),
        "editable": archive(os.path.join("out", build.build_editable("out", {}))),
    }


def scikit_names():
    from scikit_build_core.builder.wheel_tag import WheelTag
    from scikit_build_core.settings.skbuild_overrides import version_match

    tags = [called(lambda api=api: str(WheelTag.compute_best(["x86_64"], api))) for api in ("", "cp38", "py3", "py2.py3", "cp399", "x")]
    matches = [version_match(version, text, "v") for version in ("3.8", "3.12.1", "1.0rc1") for text in (">=3.8", "<2", "==3.12.*", "!=1.0")]
    return [tags, matches]


def pyproject_metadata():
    import pyproject_metadata
    import tomllib

    module()
    told = []
    text = project("x", ["x"]).replace('license = "mit or apache-2.0"\n', "")
    for name, wanted in (("plain", text), ("markers", text.replace('"delta', '"Delta')), ("name", text.replace("Self_Example", "-x")),
            ("version", text.replace(VERSION, "1.x")), ("requirement", text.replace("alpha>=1.0", "alpha>>1.0")), ("python", text.replace(">=3.8,", ">=x,")),
            ("license", project("x", ["x"]))):
        table = tomllib.loads(wanted)
        for version in ("2.1", "2.2", "2.3", "2.4"):
            def made(table=table, version=version):
                metadata = pyproject_metadata.StandardMetadata.from_pyproject(table, metadata_version=version)
                return str(metadata.as_rfc822()), sorted(metadata.as_json().items())
            told.append([name, version, called(made)])
    return told


# ---- tox


TOX = """
[tool.tox]
requires = ["tox>=4"]
env_list = ["py", "lint", "docs"]
[tool.tox.env_run_base]
deps = ["pytest>=7; python_version >= '3.8'", "coverage; sys_platform == 'win32'"]
extras = ["More_Tests"]
set_env = { A = { value = "1", marker = "os_name == 'posix'" }, B = { value = "2", marker = "os_name == 'nt'" }, C = "3" }
commands = [["pytest"]]
[tool.tox.env.lint]
skip_install = true
deps = ["ruff==0.1.*"]
[tool.tox.env.docs]
extras = ["docs"]
package = "editable"
"""


def tox_lists():
    module()
    write("pyproject.toml", project("hatchling.build", ["hatchling"]) + TOX)
    from tox.run import main

    return [command(lambda words=words: main(words), *words) for words in (
        ["list"], ["config", "-e", "py,lint,docs", "-k", "deps", "extras", "set_env", "package", "commands"], ["depends"], ["list", "--no-desc"],
    )]


def tox_dependencies():
    """What tox installs of a package: its dependencies by the extras that are asked for."""
    from packaging.requirements import Requirement
    from tox.tox_env.python.virtual_env.package.util import dependencies_with_extras

    texts = [
        "alpha>=1", "beta; extra == 'Fast'", 'gamma; (os_name == "nt" or os_name == "posix") and extra == "fast"', 'delta; extra == "slow" and python_version > "3"',
        'eps; extra == "fast" or extra == "slow"', "self[fast]; extra == 'all'", "zeta; os_name == 'nt'", "eta", 'theta; "fast" == extra', 'iota; (extra == "fast")',
        'kappa; os_name == "posix" and (python_version > "3" and extra == "fast")',
    ]
    told = []
    for extras in ([], ["fast"], ["slow"], ["FAST", "slow"], ["all"], ["none"]):
        given = [Requirement(text) for text in texts]
        chosen = dependencies_with_extras(given, set(extras), "self")
        told.append([extras, [str(each) for each in chosen], [str(each) for each in given]])
        told.append([each.marker is None or each.marker.evaluate({"extra": ""}) for each in chosen])
    return told


# ---- pdm and dep_logic


def dep_markers():
    from dep_logic.markers import from_pkg_marker, parse_marker
    from packaging.markers import Marker

    texts = [
        "os_name == 'nt'", "os_name == 'nt' or os_name == 'posix'", "python_version >= '3.8' and python_version < '3.12'", "python_full_version > '3.8.1'",
        "(os_name == 'nt' or sys_platform == 'linux') and python_version >= '3.9'", "'linux' in sys_platform", "sys_platform not in 'win32,cygwin'",
        "'3.8' <= python_version", "extra == 'A_b'", "'x' in extras", "implementation_name == 'pypy' or (os_name == 'nt' and python_version != '3.10')",
        "python_version in '3.8, 3.9'", "platform_release >= '5.0'", "python_version ~= '3.8'", "python_version == '3.*'", "",
    ]
    values = [{"python_version": "3.8", "python_full_version": "3.8.2", "os_name": "nt", "extra": "a-b", "extras": {"x"}},
        {"python_version": "3.12", "os_name": "posix", "sys_platform": "linux", "extra": "", "extras": set()}]
    told = []
    for text in texts:
        def all_of(text=text):
            one = parse_marker(text)
            return [str(one), str(~one), str(one.without_extras()), str(one.exclude("python_version")), str(one.only("os_name")),
                str(from_pkg_marker(Marker(text))) if text else None]
        told.append([text, called(all_of), [called(lambda: parse_marker(text).evaluate(each)) for each in values]])
    for left in texts:
        for right in texts:
            told.append([left, right, called(lambda: str(parse_marker(left) & parse_marker(right))), called(lambda: str(parse_marker(left) | parse_marker(right)))])
    return told + [[text, called(parse_marker, text)] for text in ("os_name", "x == 'y'", "os_name = 'x'", "(os_name == 'x'")]


def dep_specifiers():
    from dep_logic.specifiers import from_specifierset, parse_version_specifier
    from packaging.specifiers import SpecifierSet

    texts = [">=3.8", "<4,>=3.8", "==3.*", "!=3.9.1", "~=3.8", "===3.8", ">=1.0rc1", "<=1.0.post1", "", ">3.8,!=3.9.*,<3.13", "==3.8.1", "<2||>3", ">=1!2.0", "<empty>"]
    versions = ["3.8", "3.8.1", "3.9.1", "3.12", "4", "1.0rc1", "2.0.dev0", "1!3"]
    told = []
    for text in texts:
        def all_of(text=text):
            one = parse_version_specifier(text)
            return [str(one), str(~one), one.is_empty(), one.is_any(), [version in one for version in versions],
                str(from_specifierset(SpecifierSet(text))) if "|" not in text and text != "<empty>" else None]
        told.append([text, called(all_of)])
        told += [[text, other, called(lambda: str(parse_version_specifier(text) & parse_version_specifier(other))),
            called(lambda: str(parse_version_specifier(text) | parse_version_specifier(other)))] for other in texts]
    return told


def dep_tags():
    from dep_logic.tags import EnvSpec, Platform

    names = ["alpha-1.0-py3-none-any.whl", "a-1-cp312-cp312-manylinux_2_17_x86_64.manylinux2014_x86_64.whl", "a-1-cp38-abi3-win_amd64.whl",
        "a-1-cp312-abi3-musllinux_1_2_x86_64.whl", "a-1-cp311-cp311-macosx_11_0_universal2.whl", "a-1-pp310-pypy310_pp73-manylinux2014_x86_64.whl", "a-1-2b-py2.py3-none-any.whl"]
    told = [str(Platform.current()), str(EnvSpec.current())]
    for python in (">=3.8", "==3.12.1", "<3.9"):
        for platform in ("linux", "manylinux_2_20_x86_64", "windows", "macos_14_0_arm64", "alpine", "musllinux_1_2_aarch64"):
            spec = EnvSpec.from_spec(python, platform, "cpython")
            told.append([python, platform, [called(spec.wheel_compatibility, name) for name in names], sorted(spec.markers().items())])
    return told


def pdm(*words):
    """What pdm does, by the running Python and without a network."""
    from pdm.core import Core

    os.environ.update(PDM_CHECK_UPDATE="false", PDM_IGNORE_SAVED_PYTHON="1", PDM_USE_VENV="0", PDM_NON_INTERACTIVE="1")
    told = command(lambda: Core().main(list(words)), *words)
    told["output"] = re.sub(r"\d+:\d\d:\d\d|pdm-[a-z]+-[a-z0-9_]{8}\.log", "..", told["output"])
    return told


def pdm_told():
    write("pyproject.toml", project("pdm.backend", ["pdm-backend"]).replace("gamma @ https://example.org/gamma-1.0-py3-none-any.whl", "gamma"))
    told = [pdm("use", "-f", sys.executable), pdm("info", "--env"), pdm("info", "--packages"), pdm("--version"), pdm("config", "check_update")]
    return [*told, pdm("list", "--fields", "name,version", "--freeze")]


def wheel(folder, name, version, requires=(), extras=(), python=None, tag="py3-none-any"):
    head = ["Metadata-Version: 2.1", "Name: " + name, "Version: " + version, *("Requires-Dist: " + each for each in requires)]
    head += ["Provides-Extra: " + each for each in extras] + (["Requires-Python: " + python] if python else [])
    info = "%s-%s.dist-info/" % (name, version)
    path = os.path.join(folder, "%s-%s-%s.whl" % (name, version, tag))
    with zipfile.ZipFile(path, "w") as file:
        for each, text in ((name + ".py", ""), (info + "METADATA", "\n".join(head) + "\n\n"), (info + "WHEEL", "Wheel-Version: 1.0\nRoot-Is-Purelib: true\nTag: %s\n" % tag), (info + "RECORD", "")):
            file.writestr(zipfile.ZipInfo(each, (2024, 1, 2, 3, 4, 6)), text)


def pdm_locks():
    """A lock over a folder of wheels, without a network, and what is exported of it."""
    os.mkdir("links")
    for version in ("0.9", "1.0", "1.1", "1.2rc1", "2.0"):
        wheel("links", "alpha", version, ["gamma; python_version < '3.99'", "delta (>=1); extra == 'Fast'"], ["fast"])
    wheel("links", "beta", "2.1", ["alpha[fast]<1.1", "gamma"], ["fast", "slow"], python=">=3.8")
    wheel("links", "beta", "2.2", ["alpha>=1.1"], ["fast", "slow"], python=">=3.99")
    wheel("links", "gamma", "3.1")
    wheel("links", "gamma", "3.2.dev1")
    wheel("links", "delta", "1.5", ["gamma!=3.0; os_name == 'posix' or os_name == 'nt'"])
    lines = ["[project]", 'name = "x"', 'version = "1"', 'requires-python = ">=3.10"', "dependencies = [\"alpha>=1.0,<2; python_version >= '3.8'\", \"beta[fast]~=2.1; os_name == 'posix' or os_name == 'nt'\"]"]
    lines += ["[project.optional-dependencies]", 'more = ["delta>=1; python_version > \'3.11\'"]', "[dependency-groups]", 'test = ["gamma>=3"]']
    lines += ["[[tool.pdm.source]]", 'type = "find_links"', 'url = "file://%s/links"' % os.getcwd(), 'name = "pypi"', "verify_ssl = false"]
    write("pyproject.toml", "\n".join(lines) + "\n")
    told = [pdm("use", "-f", sys.executable), pdm("lock", "-G", ":all", "-q")]
    told.append(read("pdm.lock") if os.path.exists("pdm.lock") else "")
    told += [pdm("export", "-G", ":all", "-f", "requirements", "--without-hashes"), pdm("export", "-f", "pylock"), pdm("list", "--tree")]
    return told


# ---- pipenv


def pipenv_with_own():
    """pipenv has a copy of `packaging` in each of two places: both become the one that is tried."""
    import importlib

    names = ("version", "specifiers", "markers", "requirements", "utils", "tags", "_parser", "_tokenizer", "_structures", "_elffile",
        "_manylinux", "_musllinux", "metadata", "licenses", "licenses._spdx", "pylock", "direct_url", "errors", "dependency_groups")
    import packaging

    for prefix in ("pipenv.patched.pip._vendor.packaging", "pipenv.vendor.packaging"):
        sys.modules[prefix] = packaging
        for name in names:
            sys.modules[prefix + "." + name] = importlib.import_module("packaging." + name)


def pipenv_markers():
    pipenv_with_own()
    from pipenv.utils import markers

    texts = [
        "os_name == 'nt'", "python_version >= '3.8' and os_name == 'nt'", "extra == 'x' and python_version < '3.9'", "(extra == 'x' or extra == 'y') and os_name == 'nt'",
        "python_version in '3.8,3.9'", "python_version not in '2.7'", "python_version >= '3.8' or python_version < '3.0'", "extra == 'x'", "os_name == 'nt' or (extra == 'x' and python_version == '3.8')",
        "python_full_version >= '3.8.1' and python_version != '3.10'",
    ]
    functions = [markers.get_without_extra, markers.get_without_pyversion, markers.get_contained_extras, markers.get_contained_pyversions, markers.contains_extra,
        markers.contains_pyversion, markers.normalize_marker_str, markers.gen_marker, markers.PipenvMarkers.make_marker]
    told = [[text, function.__name__, called(lambda: str(function(text) if function is not markers.gen_marker else function(markers.Marker(text)._markers[0])))] for text in texts for function in functions]
    told += [[text, function.__name__, called(lambda: str(function(markers.Marker(text))))] for text in texts for function in functions[:6]]
    told += [[one, other, called(markers.merge_markers, one, other)] for one in texts for other in texts]
    told += [called(markers.normalize_specifier_set, text) for text in (">=1,<2", "==1.*", "~=1.4", "!=1.0,>0.9", None)]
    told += [called(lambda: sorted(map(str, markers.cleanup_pyspecs(text)))) for text in (">=3.8", ">=3.8,<3.12", "!=3.9", "==3.8", "in 3.8,3.9")]
    told += [called(lambda: str(markers.marker_from_specifier(text))) for text in (">=3.8", ">=3.8,<3.12", "==3.8", "3.9")]
    tables = [{"markers": "os_name == 'nt'"}, {"sys_platform": "== 'win32'", "python_version": ">= '3.8'"}, {"os_name": "== 'x'", "markers": "python_version < '3.9'"}, {}]
    told += [called(lambda: str(markers.PipenvMarkers.from_pipfile("a", table))) for table in tables]
    return told


def pipenv_requirements():
    pipenv_with_own()
    write("Pipfile", '[[source]]\nurl = "https://pypi.org/simple"\nverify_ssl = true\nname = "pypi"\n[packages]\nalpha = {version = ">=1.0", markers = "python_version >= \'3.8\'", extras = ["x"]}\n'
        'beta = "*"\ngamma = {version = "~=2.1", sys_platform = "== \'win32\'"}\n[dev-packages]\ndelta = "==1.*"\n')
    write("Pipfile.lock", json.dumps({
        "_meta": {"hash": {"sha256": "0" * 64}, "pipfile-spec": 6, "requires": {}, "sources": [{"name": "pypi", "url": "https://pypi.org/simple", "verify_ssl": True}]},
        "default": {"alpha": {"version": "==1.1", "markers": "python_version >= '3.8'", "extras": ["x"], "hashes": ["sha256:" + "a" * 64]}, "beta": {"version": "==2.0rc1"},
            "gamma": {"version": "==2.1.3", "markers": "sys_platform == 'win32' and python_version in '3.8,3.9'"}},
        "develop": {"delta": {"version": "==1.5", "markers": "os_name == 'nt' or os_name == 'posix'"}},
    }))
    from pipenv.utils import dependencies

    told = []
    for name, entry in json.loads(read("Pipfile.lock"))["default"].items():
        told.append([called(dependencies.requirement_from_lockfile, name, entry), called(dependencies.requirement_from_lockfile, name, entry, include_hashes=False)])
    for text in ("alpha>=1.0; python_version >= '3.8'", "beta[x,Y]==1.*", "gamma", "alpha @ https://example.org/a-1.0-py3-none-any.whl", "x y", "delta~=1.4; os_name == 'nt' and extra == 'z'"):
        told.append([text, called(dependencies.convert_deps_to_pip, {text.split(" ")[0].split(">")[0].split("[")[0]: "*"}), called(lambda: str(dependencies.get_constraints_from_deps({text.split(">")[0]: text[5:]})))])
    return told


# ---- others


def ocrmypdf_versions():
    """How ocrmypdf reads the versions of Tesseract: the class alone, as its module imports much else."""
    import ast

    from packaging.version import Version

    path = next(path for path in (os.path.join(folder, "ocrmypdf", "_exec", "tesseract.py") for folder in sys.path) if os.path.exists(path))
    names = {"re": re, "Version": Version}
    for node in ast.parse(read(path)).body:
        name = node.name if isinstance(node, ast.ClassDef) else getattr(node.targets[0], "id", "") if isinstance(node, ast.Assign) else ""
        if name in ("TESSERACT_VERSION_PATTERN", "TesseractVersion"):
            exec(compile(ast.Module([node], []), path, "exec"), names)
    kind = names["TesseractVersion"]
    texts = ["4.1.1", "5.0.0-alpha-20201231", "v5.3.0", "5.0.0-rc1.20211030", "4.1.1-rc2-25-g9707", "5.0.0-beta-20210916-12-g19cc", "4.0.0-beta.1", "5.3.4-64-gab",
        "5.0.0-alpha.20201231", "3.04.01", "x", "5..0", "", " 5.1 ", "5.0.0+x"]
    return [[text, called(kind, text), called(lambda: [kind(text) >= Version("5.0"), kind(text) < kind("5.0.1"), hash(kind(text)) == hash(Version(str(kind(text))))])] for text in texts]


def shippinglabel_requirements():
    from packaging.requirements import Requirement
    from packaging.specifiers import Specifier
    from shippinglabel.requirements import ComparableRequirement, combine_requirements, parse_requirements, resolve_specifiers

    texts = ["a>=1", "A>=1.0", "a[x]>=1", "a; os_name == 'nt'", "a; os_name=='nt'", "a; os_name == 'posix' and extra == 'x'", "b<2", "b<2,>=1", "b!=1.5", "c @ https://example.org/c.zip"]
    told = [[one, other, called(lambda: (ComparableRequirement(one) == Requirement(other), ComparableRequirement(one) < ComparableRequirement(other), ComparableRequirement(one) == other))]
        for one in texts for other in texts]
    told.append(called(lambda: sorted(str(each) for each in combine_requirements([ComparableRequirement(text) for text in texts]))))
    told += [called(lambda: str(resolve_specifiers([Specifier(text) for text in group]))) for group in ([">=1", ">=2"], ["<1", "<2", "!=0.5"], ["==1"], ["~=1.4", ">1.5"], [">1", ">=1"])]
    told.append(called(lambda: [sorted(map(str, each)) if isinstance(each, set) else each for each in parse_requirements(["# x", *texts[:6], "", "not valid!"])]))
    return told


# ---- one of them


JOBS = [
    hatchling_builds, hatchling_metadata, hatchling_versions, hatchling_spec, pdm_backend_builds, pdm_backend_versions, meson_builds,
    scikit_builds, scikit_names, pyproject_metadata, tox_lists, tox_dependencies, dep_markers, dep_specifiers, dep_tags, pdm_told, pdm_locks,
    pipenv_markers, pipenv_requirements, ocrmypdf_versions, shippinglabel_requirements,
]


def main():
    name, folder = sys.argv[1:]
    job = next(each for each in JOBS if each.__name__ == name)
    # what a job's own programs write isn't the answer
    answer = os.fdopen(os.dup(1), "w", encoding="utf-8")
    os.dup2(2, 1)
    os.chdir(folder)
    try:
        told = job()
    except BaseException as error:
        told = {"failed": type(error).__name__, "text": str(error), "where": traceback.format_exc()[-3000:]}
    text = json.dumps(told, indent=1, sort_keys=True, default=str)
    answer.write(text.replace(os.path.realpath(folder), "/folder") + "\n")
    answer.close()


if __name__ == "__main__":
    main()
