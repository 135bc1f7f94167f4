"""pip with pylock in the place of its `packaging`: the same commands say and do the same.

`PYLOCK_PIP` names a folder that has a `pip` of release 26 or later. What is compared is the status, what is written to
both outputs, reports as objects, and the files that are made. Of a message that holds the text of an exception the part
before it counts, since texts are worded otherwise here.
"""

import ast
import hashlib
import importlib
import io
import json
import os
import re
import shutil
import sys
import tempfile
import unittest
import zipfile
from random import Random

from pip_worlds import World, metadata_text, pip_folder, project_files, sdist_bytes, share, wheel_bytes, write

FOLDER, WHY = pip_folder()
PREFIX = "pip._vendor.packaging"
OWN_PYTHON = "cp%d%d" % sys.version_info[:2]


# ---- the names that pip takes ----


def sources():
    """pip's own modules and those it brings, but for `packaging`, each as a syntax tree."""
    for folder, folders, files in os.walk(os.path.join(FOLDER, "pip")):
        if folder.endswith(os.path.join("_vendor", "packaging")):
            folders.clear()
            continue
        for name in files:
            if name.endswith(".py"):
                with open(os.path.join(folder, name), encoding="utf-8") as file:
                    yield ast.parse(file.read())


def imports(tree):
    """What a module takes of `packaging`: (module, name) each; a module as a whole with the attributes that are read."""
    whole = {}
    for node in ast.walk(tree):
        if isinstance(node, ast.ImportFrom) and not node.level and (node.module or "").split(".")[:3] == PREFIX.split("."):
            for each in node.names:
                if node.module == PREFIX:
                    whole[each.asname or each.name] = each.name
                    yield each.name, None
                else:
                    yield node.module[len(PREFIX) + 1 :], each.name
    for node in ast.walk(tree):
        if isinstance(node, ast.Attribute) and isinstance(node.value, ast.Name) and node.value.id in whole:
            yield whole[node.value.id], node.attr


def taken():
    """All that pip takes of `packaging`."""
    return sorted({pair for tree in sources() for pair in imports(tree)}, key=str)


@unittest.skipIf(FOLDER is None, WHY)
class Names(unittest.TestCase):
    def test_names(self):
        """Each name that pip takes of `packaging` is here."""
        names = taken()
        self.assertGreaterEqual(len(names), 45)
        for module, name in names:
            with self.subTest(module=module, name=name):
                found = importlib.import_module("pylock." + module)
                if name is not None:
                    self.assertTrue(hasattr(found, name), "pylock.%s has no %s" % (module, name))


# ---- the projects ----


def links():
    """The wheels and sdists that pip finds."""
    made = [wheel_bytes("alpha", version) for version in (
        "0.9", "1.0", "1.1", "1.1.post1", "1.2.dev1", "1.2a1", "2.0rc1", "1.0+local.7", "1!0.5",
    )]
    made += [
        wheel_bytes("beta", "1.0", requires=[
            "alpha>=1.0,<1!0", 'gamma; extra == "fast"', 'delta (>=0.1) ; extra=="Dev_Tools" and python_version>="3"',
            'absent; python_version < "3"', "alpha!=1.0.5",
        ], extras=["fast", "dev-tools"]),
        wheel_bytes("beta", "1.1", requires=["alpha~=1.1", 'absent; sys_platform == "win32"'], extras=["fast"], python=">=3.8"),
        wheel_bytes("beta", "9.0", python=">=3.99"),
        wheel_bytes("gamma", "3", requires=["Foo.Bar[x]"]),
        wheel_bytes("Foo.Bar", "1.0", extras=["x"], requires=['alpha==1.*; extra == "x"']),
        wheel_bytes("delta", "0.1", tag="py2.py3-none-any"),
        wheel_bytes("delta", "0.2", tag=OWN_PYTHON + "-abi3-manylinux_2_5_x86_64.manylinux1_x86_64"),
        wheel_bytes("delta", "0.2", tag="cp38-abi3-manylinux_2_17_aarch64"),
        wheel_bytes("delta", "0.2", tag=OWN_PYTHON + "-abi3-win_amd64"),
        wheel_bytes("delta", "0.3", build="1", tag="py3-none-any"),
        wheel_bytes("delta", "0.3", build="2a", tag="py3-none-any"),
        wheel_bytes("delta", "0.3", build="10", tag="cp38-abi3-macosx_11_0_arm64"),
        wheel_bytes("delta", "0.4", tag="cp27-cp27mu-linux_x86_64"),
        wheel_bytes("needs-absent", "1", requires=["absent>=2"]),
        wheel_bytes("old-alpha", "1", requires=["alpha<1"]),
        wheel_bytes("new-alpha", "1", requires=["alpha>=1.1"]),
        wheel_bytes("pre-alpha", "1", requires=["alpha>=1.2a1"]),
        wheel_bytes("wrong-requirement", "1", requires=["alpha >>1"]),
        wheel_bytes("wrong-marker", "1", requires=["alpha; python_wersion > '3'"]),
        wheel_bytes("circle-one", "1", requires=["circle-two"]),
        wheel_bytes("circle-two", "1", requires=["circle-one"]),
        wheel_bytes("choice", "1", requires=["alpha==1.0"]),
        wheel_bytes("choice", "2", requires=["alpha==0.9"]),
        wheel_bytes("tool", "1.5"),
        sdist_bytes("sourced", "1.0", requires=["alpha<1.1"], extras=["more"]),
        sdist_bytes("sourced", "1.1", requires=["alpha"]),
        sdist_bytes("tooled", "1", build_requires=["tool>=1; python_version > '3'", "absent; os_name == 'x'"]),
        sdist_bytes("sourced", "2.0b1"),
        sdist_bytes("Foo.Baz", "2.0", stem="Foo.Baz"),
        sdist_bytes("builds-with-absent", "1", build_requires=["absent==3"]),
        sdist_bytes("other-version", "1.0.0", stem="other_version"),
    ]
    made += [
        ("not-a-version-x-py3-none-any.whl", b""), ("alpha-3.0-py3-none.whl", b""), ("nothing.whl", b""), ("alpha.tar.gz", b""),
        ("alpha-4.x.tar.gz", b""), ("alpha-3.0-b1-py3-none-any.whl", b""), ("al pha-5.0.zip", b""),
    ]
    return dict(made)


def digest(files, name):
    return hashlib.sha256(files[name]).hexdigest()


def installed(site, one):
    """Puts a wheel into an environment's modules, as pip leaves it."""
    name, content = one
    with zipfile.ZipFile(io.BytesIO(content)) as archive:
        archive.extractall(site)
    folder = [each for each in os.listdir(site) if each.startswith(name.split("-")[0] + "-") and each.endswith(".dist-info")][0]
    write(site, {folder + "/INSTALLER": "pip\n"})
    return folder


def fill(world, shared):
    """An environment with what is right, what is broken, and what came from elsewhere."""
    site = world.site()
    for one in (
        wheel_bytes("alpha", "1.0"), wheel_bytes("beta", "1.0",
            requires=["alpha>=1.1", "gamma; extra == 'fast'", "absent"], extras=["fast"]),
        wheel_bytes("Foo.Bar", "1.0.0+deb.1"), wheel_bytes("pre", "2.0rc1", requires=["alpha", "Foo_Bar<1"]),
        wheel_bytes("other-system", "1", tag="cp38-cp38-win32"), wheel_bytes("for-2", "1!3", tag="py2-none-any"),
        wheel_bytes("wrong-requirement", "1", requires=["alpha >>1"]),
            wheel_bytes("marked", "1", requires=["absent; os_name == 'nt'"]),
    ):
        installed(site, one)
    direct = {
        "archived": {"url": "file:///elsewhere/archived-1.0.tar.gz", "archive_info": {"hashes": {"sha256": "a" * 64}},
            "subdirectory": "sub"},
        "cloned": {"url": "https://example.org/cloned.git",
            "vcs_info": {"vcs": "git", "requested_revision": "main", "commit_id": "b" * 40}},
        "editable": {"url": "file://%s/project" % shared, "dir_info": {"editable": True}},
        "foldered": {"url": "file://%s/project" % shared, "dir_info": {}},
        "odd-origin": {"url": "file:///x", "archive_info": {}, "dir_info": {}},
    }
    for name, origin in direct.items():
        folder = installed(site, wheel_bytes(name, "1.0"))
        write(site, {folder + "/direct_url.json": json.dumps(origin)})
    write(site, {
        "odd-1.x.dist-info/METADATA": metadata_text("odd", "1.x", requires=["alpha"]),
        "odder-1.0.dist-info/METADATA": metadata_text("odder", "1.0", python="three"),
        "old_egg-1.5.egg-info/PKG-INFO": metadata_text("old_egg", "1.5"),
        "old_egg-1.5.egg-info/requires.txt": "alpha\n\n[more]\nbeta\n",
    })


WORLDS = {}


def make_worlds():
    """The two copies, and what both find."""
    top = os.path.realpath(tempfile.mkdtemp(prefix="pylock-pip-"))
    WORLDS["top"] = top
    share(top)
    files = links()
    write(os.path.join(top, "links"), files)
    write(os.path.join(top, "project"), project_files(
        "own-project", "7.0", requires=["alpha<2", 'gamma; extra == "all"'], extras=["all"],
        groups=[
            "test = ['alpha>=1', \"delta; python_version >= '3'\"]", "docs = [{include-group = 'test'}, 'gamma']",
            "round = [{include-group = 'round'}]", "wrong = ['alpha >>1']", "odd = [{include = 'test'}]", "T_E-st2 = ['alpha']",
            "t.e.st2 = {}", "twice = ['alpha', {include-group = 'TEST'}]",
        ],
    ))
    WORLDS["files"] = files
    # names of one length, so that tables have one width
    theirs = WORLDS["theirs"] = World(os.path.join(top, "one"), FOLDER, top)
    fill(theirs, top)
    theirs.start()
    # the second copy is one of the first, with what Python has compiled of it
    ours = WORLDS["ours"] = World(os.path.join(top, "two"), theirs.root, top, sorted({module for module, _ in taken()}))
    fill(ours, top)


def tearDownModule():
    for name in ("theirs", "ours"):
        if name in WORLDS:
            WORLDS[name].close()
    if WORLDS:
        shutil.rmtree(WORLDS["top"])


# what stands before the text of an exception
BEFORE_TEXT = re.compile(r"""
    (
        Invalid\ requirement: \ '[^']*'
      | Invalid\ (?:marker|specifier|wheel\ filename|name|version)
      | has\ invalid\ metadata
      | Error\ parsing\ dependencies\ of\ [^\s:]+
      | Error\ parsing\ direct_url.json\ for\ [^\s:]+
      | Invalid\ pylock\ file\ '[^']*'
      | Cannot\ select\ requirements\ from\ pylock\ file\ '[^']*'
      | resolution\ failed\ for\ '[^']*'\ from\ '[^']*'
      | \[dependency-groups\]\ data\ was\ invalid\ in\ [^:]*
    ) [^:]* : .*
""", re.VERBOSE)

# what is logged of a lock of a later version, by either
LATER_LOCK = re.compile(r"WARNING: .*\bversion 1\.7\b.*")

# the last line of a trace: an exception by its name, whatever the module
RAISED = re.compile(r"(?:\w+\.)*([A-Z]\w+)(?:: .*)?$")


def without_texts(text):
    """What is said without the texts of exceptions, of each of which a second line is indented, and without the frames of
    traces."""
    kept, is_cut, in_trace = [], False, False
    for line in text.split("\n"):
        if is_cut and line.startswith("  "):
            continue
        is_cut = False
        if line.startswith("Traceback (most recent call last):"):
            in_trace = True
            continue
        if in_trace:
            found = RAISED.match(line)
            in_trace = found is None
            is_cut = not in_trace
            if found:
                kept.append("Raised " + found.group(1))
            continue
        shorter = LATER_LOCK.sub("WARNING: later", BEFORE_TEXT.sub(r"\1", line))
        is_cut = shorter != line
        kept.append(shorter)
    # of a chain of exceptions the last one is told
    chain = r"Raised \w+\n\n(?:During handling|The above exception)[^\n]*\n\n(?=Raised )"
    return re.sub(chain, "", "\n".join(kept))


@unittest.skipIf(FOLDER is None, WHY)
class Both(unittest.TestCase):
    """One command to both copies."""

    maxDiff = 4000

    @classmethod
    def setUpClass(cls):
        if not WORLDS:
            make_worlds()

    def both(self, *words, status=0, **variables):
        """The answers to one command are equal: the status and what is written."""
        asked = [(world, world.ask(list(words), variables)) for world in (WORLDS["theirs"], WORLDS["ours"])]
        theirs, ours = (world.answer(paths) for world, paths in asked)
        theirs, ours = ((code, without_texts(out), without_texts(error)) for code, out, error in (theirs, ours))
        shown = " ".join(words)
        self.assertEqual(ours, theirs, "pip " + shown)
        if status is not None:
            self.assertEqual(theirs[0], status, "pip %s\n%s\n%s" % (shown, theirs[1], theirs[2]))
        return theirs

    def report(self, *words, **named):
        """A report of what would be installed is equal, as an object too; the names and versions."""
        _, out, _ = self.both("install", "--dry-run", "--ignore-installed", "--quiet", "--report", "-", *words, **named)
        value = json.loads(out)
        return ["%s==%s" % (each["metadata"]["name"], each["metadata"]["version"]) for each in value["install"]]

    def file(self, name, text):
        """A file of both copies' folder; its path, where WORLD stands for the copy."""
        for world in (WORLDS["theirs"], WORLDS["ours"]):
            write(os.path.join(world.root, "work"), {name: text})
        return name

    def same_trees(self, name):
        theirs, ours = (world.tree(name) for world in (WORLDS["theirs"], WORLDS["ours"]))
        self.assertTrue(theirs, name)
        self.assertEqual(ours, theirs, name)
        return theirs


class Asked(Both):
    """What stands in an environment."""

    def test_list(self):
        for words in ([], ["-v"], ["--format", "json"], ["--format", "freeze"], ["--format", "json", "-v"], ["--not-required"],
                      ["--pre"], ["--editable"], ["--exclude-editable"], ["--exclude", "Foo_Bar"], ["--local"], ["--user"]):
            with self.subTest(words):
                self.both("list", *words, status=None)

    def test_outdated(self):
        for words in (["--outdated"], ["--outdated", "--pre"], ["--uptodate"], ["--outdated", "--format", "json"]):
            with self.subTest(words):
                self.both("list", *words, status=None)

    def test_check(self):
        _, out, _ = self.both("check", status=1)
        self.assertIn("beta 1.0 has requirement alpha>=1.1, but you have alpha 1.0.", out)
        self.assertIn("beta 1.0 requires absent, which is not installed.", out)
        self.assertIn("other-system 1 is not supported on this platform", out)

    def test_freeze(self):
        requirements = self.file("frozen.txt",
            "# a comment\nalpha>=1\nabsent==3\n-e ./x\nbeta ; python_version>'2'\nFoo-Bar\nalpha\n")
        for words in ([], ["--all"], ["-r", requirements], ["--exclude", "alpha"], ["--exclude-editable"], ["--local"]):
            with self.subTest(words):
                self.both("freeze", *words, status=None)

    def test_show(self):
        for words in (["alpha", "beta"], ["-f", "Foo.Bar"], ["--verbose", "archived"], ["absent"],
            ["wrong-requirement"], ["odder"],
                      ["old-egg"], ["odd"]):
            with self.subTest(words):
                self.both("show", *words, status=None)

    def test_inspect(self):
        self.both("inspect", status=None)
        self.both("inspect", "--local", status=None)

    def test_debug(self):
        for words in ([], ["--verbose"], ["--platform", "manylinux_2_17_x86_64", "--verbose"], ["--python-version", "3.14", "-v"],
                      ["--python-version", "313", "--implementation", "cp", "--abi", "cp313t", "-v"],
                          ["--implementation", "pp", "-v"],
                      ["--platform", "macosx_11_0_arm64", "-v"], ["--platform", "win_amd64", "--python-version", "3.9", "-v"],
                      ["--platform", "ios_14_2_arm64_iphoneos", "-v"], ["--platform", "android_21_x86_64", "-v"]):
            with self.subTest(words):
                self.both("debug", *words)

    def test_older_reading(self):
        """By pkg_resources, which older Pythons use."""
        for words in (["list"], ["list", "-v"], ["freeze"], ["check"], ["show", "beta", "alpha"],
            ["show", "-f", "Foo.Bar"], ["list", "--not-required"],
                      ["install", "--dry-run", "beta[fast]"], ["install", "--dry-run", "-U", "alpha"]):
            with self.subTest(words):
                self.both(*words, status=None, _PIP_USE_IMPORTLIB_METADATA="0")

    def test_index_and_hash(self):
        for words in (["alpha"], ["alpha", "--pre"], ["beta", "--python-version", "3.99"], ["absent"],
            ["delta", "--json"], ["sourced"]):
            with self.subTest(words):
                self.both("index", "versions", *words, status=None)
        path = os.path.join(WORLDS["top"], "links", "alpha-1.0-py3-none-any.whl")
        self.both("hash", path)


class Chosen(Both):
    """What would be installed."""

    def test_requirements(self):
        chosen = []
        for text in (
            "alpha", "alpha===1.0", "alpha>=1.0,<1.1", "alpha~=1.0", "alpha!=1.1.*,<1!0", "alpha<=1.0", "Alpha",
            "ALPHA  >= 1 , < 1!0", "alpha (>=1,<2)", "alpha>=2.0rc1,<1!0", "alpha>1.1,<1!0", "alpha>=1.2a1,<1!0",
            "alpha<1.2,<1!0", "alpha==1.*", "alpha>1.0,<1.1", "beta", "beta[fast]", "beta[fast,DEV.tools]<1.1",
            "beta[absent]", "gamma", "foo-bar", "FOO__bar[x]", "delta", "delta==0.2", "delta<0.3", "delta==0.3",
            "sourced", "sourced[more]==2.0b1", "foo.baz", "pre-alpha", "circle-one", "choice", "other-version==1",
            "alpha; python_version>'3'", "alpha ; python_version<'3'",
            "alpha==1.0; sys_platform!='win32' and extra==''",
        ):
            with self.subTest(text):
                chosen.append(self.some_report(text))
        self.assertGreater(len(chosen) - chosen.count(None), 25)
        for text, expected in {
            "alpha==1.0": ["alpha==1.0+local.7"], "alpha==1.0+local.7": ["alpha==1.0+local.7"],
            "alpha==1!0.5": ["alpha==1!0.5"], "alpha==1.2a1": ["alpha==1.2a1"],
        }.items():
            self.assertEqual(self.some_report(text), expected, text)

    def some_report(self, *words):
        """A report, or the same refusal."""
        status, out, _ = self.both("install", "--dry-run", "--ignore-installed", "--quiet", "--report", "-", *words, status=None)
        if status:
            return None
        return ["%s==%s" % (each["metadata"]["name"], each["metadata"]["version"]) for each in json.loads(out)["install"]]

    def test_random(self):
        """Sets of two or three specifiers, and markers."""
        random = Random(20261)
        operands = ["0.9", "1", "1.0", "1.0.post1", "1.1", "1.1.post1", "1.2.dev1", "1.2a1", "2", "2.0rc1",
            "1.0+local.7", "1!0.5", "1!0"]
        markers = ["", " ; python_version >= '3.%d'", " ; sys_platform == 'linux' or os_name == 'x%d'",
            " ; python_full_version < '3.%d.0'"]
        chosen = []
        for _ in range(40):
            found = []
            for _ in range(random.choice((1, 2, 2, 3))):
                operator, operand = random.choice(("==", "!=", "<", "<=", ">", ">=", "~=", "===")), random.choice(operands)
                if "+" in operand and operator not in ("==", "!=", "==="):
                    operand = "1.0"
                if operator == "~=" and operand in ("1", "2"):
                    operand += ".0"
                if operator in ("==", "!=") and operand in ("1", "1.0", "1.1", "2") and random.random() < 0.5:
                    operand += ".*"
                found.append(operator + operand)
            marker = random.choice(markers)
            text = "alpha" + ",".join(found) + (marker % random.randrange(8, 16) if marker else "")
            with self.subTest(text):
                chosen.append(self.some_report(text))
        self.assertGreater(chosen.count(None), 5)
        self.assertGreater(len({each[0] for each in chosen if each}), 3)

    def test_options(self):
        for words in (["alpha", "--pre"], ["sourced", "--no-binary", ":all:"], ["sourced", "--only-binary", ":all:"],
                      ["beta", "--no-deps"], ["beta", "--ignore-requires-python"], ["beta", "alpha<1.1"], ["choice", "alpha<1"],
                      ["delta", "--prefer-binary"], ["alpha", "--require-hashes"], ["beta", "gamma", "delta", "foo.bar"],
                      ["beta[fast]", "--only-deps"], ["alpha", "--all-releases", ":all:"], ["alpha", "--only-final", "alpha"],
                      ["alpha<1!0", "--pre"], ["alpha", "--only-binary", "alpha,,beta"], ["--no-binary", "Foo_Bar", "foo.bar"]):
            with self.subTest(words):
                self.some_report(*words)

    def test_environment(self):
        """Beside what is installed."""
        for words in (["alpha"], ["alpha", "--upgrade"], ["beta", "-U"],
            ["beta", "-U", "--upgrade-strategy", "eager"], ["pre"], ["foo.bar"],
                      ["beta[fast]"], ["alpha", "--force-reinstall"], ["new-alpha"], ["marked", "alpha<1"]):
            with self.subTest(words):
                self.both("install", "--dry-run", *words, status=None)
                self.both("install", "--dry-run", "--quiet", "--report", "-", *words, status=None)

    def test_files(self):
        plain = self.file("plain.txt", "\n".join([
            "# all", "alpha>=1 ; python_version >= '3.0'  # comment", "beta[fast] ; sys_platform != 'x'", "-c limits.txt",
            "absent; os_name=='x'", "",
        ]))
        self.file("limits.txt", "alpha==1.0\nbeta<1.1\ngamma==3; python_version>'3'\nabsent==1\n")
        self.report("-r", plain)
        for text in ("alpha<1\n", "alpha==1.1\n", "beta==9.0\n", "alpha>=1.2a1\n", "alpha\n", "alpha[x]\n",
            "alpha @ file:///x.whl\n", "-e x\n", ">=1\n"):
            with self.subTest(constraint=text):
                self.some_report("beta<1.1", "-c", self.file("limits.txt", text))

    def test_scripts(self):
        """Requirements of a script (PEP 723)."""
        for number, text in enumerate((
            "dependencies = ['alpha<1.1', 'beta[fast]<1.1 ; python_version > \"3\"']",
                "requires-python = '>=3.99'\ndependencies = []",
            "dependencies = ['alpha >>1']", "requires-python = 'three'", "dependencies = 3",
        )):
            lines = ["# /// script", *("# " + line for line in text.split("\n")), "# ///", ""]
            with self.subTest(text):
                self.some_report("--requirements-from-script", self.file("script%d.py" % number, "\n".join(lines)))

    def test_urls(self):
        top, files = WORLDS["top"], WORLDS["files"]
        place = "file://%s/links/" % top
        wheel, sdist = "beta-1.0-py3-none-any.whl", "sourced-1.0.tar.gz"
        right, wrong = digest(files, wheel), "0" * 64
        for text in (
            place + wheel, "beta @ " + place + wheel, "beta[fast] @ " + place + wheel + " ; python_version > '3'",
                top + "/links/" + wheel,
            "beta@" + place + wheel + "#sha256=" + right, "beta @ " + place + wheel + "#sha256=" + wrong,
                "alpha @ " + place + wheel,
            place + sdist, "sourced[more]@ " + place + sdist, top + "/project[all]",
                "own-project @ file://" + top + "/project", "beta @ " + place + wheel + "; python_version < '3'",
            place + "absent-1-py3-none-any.whl", place + "alpha-3.0-py3-none.whl",
                place + "delta-0.4-cp27-cp27mu-linux_x86_64.whl",
            "beta @ " + wheel, "own-project[all] @ file://" + top + "/project#subdirectory=x",
        ):
            with self.subTest(text):
                self.some_report(text)
        self.some_report("-e", top + "/project")
        self.some_report("beta @ " + place + wheel, "beta==1.1")
        self.some_report("beta @ " + place + wheel, "beta @ " + place + "beta-1.1-py3-none-any.whl")
        self.some_report("beta", "-c", self.file("limits.txt", "beta @ %s%s\n" % (place, wheel)))

    def test_hashes(self):
        files = WORLDS["files"]
        right = {name: digest(files, name + "-py3-none-any.whl") for name in ("alpha-1.1.post1", "beta-1.0", "alpha-1.0")}
        for text in (
            "alpha==1.1.post1 --hash=sha256:%s\n" % right["alpha-1.1.post1"],
            "alpha==1.0 --hash=sha256:%s\n" % right["alpha-1.0"],
            "alpha==1.1.post1 --hash=sha256:%s\n" % ("0" * 64),
            "alpha --hash=sha256:%s\n" % right["alpha-1.1.post1"],
            "beta==1.0 --hash=sha256:%s\n" % right["beta-1.0"],
            "beta==1.0 --hash=sha256:%s\nalpha==1.1.post1 --hash=sha256:%s\n" % (right["beta-1.0"], right["alpha-1.1.post1"]),
            "alpha>=1 --hash=sha256:%s --hash=sha256:%s\n" % (right["alpha-1.0"], right["alpha-1.1.post1"]),
        ):
            with self.subTest(text):
                self.some_report("-r", self.file("hashed.txt", text))

    def test_targets(self):
        for words in (
            ["--platform", "manylinux_2_17_aarch64"], ["--platform", "win_amd64"],
                ["--platform", "macosx_12_0_arm64"], ["--python-version", "3.8"],
            ["--platform", "manylinux2014_x86_64", "--python-version", "310", "--implementation", "cp", "--abi", "cp310"],
            ["--python-version", "2.7", "--abi", "cp27mu", "--platform", "linux_x86_64", "--implementation", "cp"],
            ["--platform", "any", "--implementation", "py"], ["--platform", "manylinux_2_4_x86_64"],
                ["--python-version", "3.13", "--abi", "cp313t"],
        ):
            for name in ("delta<0.3", "beta"):
                with self.subTest([*words, name]):
                    self.some_report("--only-binary", ":all:", "--target", "WORLD/none", *words, name)

    def test_groups(self):
        project = os.path.join(WORLDS["top"], "project", "pyproject.toml")
        for words in (["--group", "%s:test" % project], ["--group", "%s:docs" % project],
            ["--group", "%s:docs" % project, "beta<1.1"],
                      ["--group", "%s:absent" % project], ["--group", "%s:round" % project],
                          ["--group", "%s:wrong" % project], ["--group", "test"],
                      ["--group", "%s:odd" % project], ["--group", "%s:twice" % project], ["--group", "%s:t-e-st2" % project]):
            with self.subTest(words):
                self.some_report(*words)


class Errors(Both):
    """One of each kind."""

    def test_errors(self):
        for words in (
            ["alpha >>1"], ["alpha=1"], ["alpha==1.x"], ["alpha; python_wersion>'3'"], ["alpha[x"], ["-alpha"],
                ["al pha"], ["alpha @"], ["alpha @ x y"],
            [""], ["absent"], ["alpha==99"], ["alpha<0.1"], ["old-alpha", "new-alpha"], ["alpha<1", "alpha>1"],
                ["needs-absent"], ["beta==9.0"],
            ["delta==0.4"], ["builds-with-absent"], ["wrong-requirement"], ["wrong-marker"], ["./absent"],
                ["absent.whl"], ["x-1-py3-none-any.whl"],
            ["alpha>=1", "-c", "absent.txt"], ["-r", "absent.txt"], ["alpha;"], ["alpha;os_name"],
                ["alpha; extra == 'x' or"], ["alpha==1.*.1"], ["alpha>=1.*"],
            ["choice==1", "alpha==0.9"], ["beta", "alpha==0.9"], ["sourced==1.0", "alpha>=1.1"],
        ):
            with self.subTest(words):
                self.both("install", "--dry-run", "--ignore-installed", *words, status=None)

    def test_files(self):
        for text in ("alpha >>1\n", "alpha==1.0 --hash=md5:x\n", "alpha --hash\n", "-x\n", "alpha\nalpha==1.1\n",
            "alpha==1.0\nalpha==1.1\n",
                     "alpha ; python_version > 3\n", "alpha[a,]\n", "alpha\\\n>=1\n", "${X}\n",
                         "alpha @ file:///absent.whl\n", "-c absent.txt\n"):
            with self.subTest(text):
                self.both("install", "--dry-run", "--ignore-installed", "-r", self.file("wrong.txt", text), status=None)

    def test_verbose(self):
        """What is said of links that are passed over."""
        for words in (["alpha"], ["delta<0.3"], ["sourced"], ["beta"], ["nothing"]):
            with self.subTest(words):
                self.both("install", "--dry-run", "--ignore-installed", "-vv", *words, status=None)


class Made(Both):
    """Files that are made."""

    def test_download(self):
        for number, words in enumerate((
            ["beta[fast]<1.1"], ["sourced", "--no-deps"], ["delta<0.3", "--only-binary", ":all:", "--platform", "win_amd64"],
            ["foo.baz", "alpha==1.0"], ["-r", self.file("down.txt", "alpha>=1,<1.1\ngamma\n")],
        )):
            with self.subTest(words):
                self.both("download", "-d", "WORLD/down-%d" % number, *words)
                self.same_trees("down-%d" % number)
        self.both("download", "-d", "WORLD/down-x", "absent", status=1)

    def test_wheel(self):
        self.both("wheel", "-w", "WORLD/wheels", "sourced<1.1", "foo.baz")
        self.assertIn("/world/wheels/sourced-1.0-py3-none-any.whl", self.same_trees("wheels"))
        self.both("wheel", "-w", "WORLD/wheels-2", "tooled", "--no-deps")
        self.same_trees("wheels-2")
        self.both("wheel", "-w", "WORLD/wheels-3", "builds-with-absent", status=1)

    def test_target(self):
        self.both("install", "--target", "WORLD/target", "beta[fast]<1.1", "sourced<1.1", "delta")
        self.same_trees("target")
        self.both("list", "--path", "WORLD/target")
        self.both("freeze", "--path", "WORLD/target")
        self.both("install", "--prefix", "WORLD/prefix", "--ignore-installed", "foo.bar[x]", "--no-warn-script-location")
        self.same_trees("prefix")
        self.both("install", "--root", "WORLD/root", "--ignore-installed", "circle-one", "--no-warn-script-location")
        self.same_trees("root")

    def test_environment(self):
        """Installed, changed, checked and removed, in an environment of its own."""
        for world in (WORLDS["theirs"], WORLDS["ours"]):
            world.make_environment("other")
        for words, status in (
            (["install", "beta[fast]<1.1", "alpha==1.0"], 0), (["list"], 0), (["check"], 0), (["freeze"], 0),
                (["install", "--upgrade", "alpha<1!0"], 0),
            (["install", "alpha==0.9"], 0), (["check"], 1), (["install", "-e", os.path.join(WORLDS["top"], "project")], 0),
            (["list", "--outdated", "--format", "json"], 0), (["install", "alpha"], 0),
                (["install", "sourced==1.0"], 0), (["inspect"], 0),
            (["install", os.path.join(WORLDS["top"], "links", "delta-0.3-2a-py3-none-any.whl")], 0), (["freeze", "--all"], 0),
            (["show", "own-project", "delta"], 0), (["uninstall", "-y", "gamma", "Foo_Bar", "absent"], 0),
                (["check"], 1), (["list", "--not-required"], 0),
        ):
            with self.subTest(words):
                self.both("--python", "WORLD/other", *words, status=status)
        self.same_trees("other/lib")
        for words in (["uninstall", "-y", "beta", "alpha", "sourced", "delta", "own-project"], ["list"]):
            self.both("--python", "WORLD/other", *words)


def lock_text(top, files):
    """A lock of wheels, an sdist and an archive."""
    def wheel(name):
        return '{name = "%s", path = "%s/links/%s", hashes = {sha256 = "%s"}}' % (name, top, name, digest(files, name))

    return """
lock-version = "1.0"
environments = ["python_version >= '3.0'", "sys_platform == 'win32'"]
requires-python = ">=3.8"
extras = ["science"]
dependency-groups = ["dev", "docs"]
default-groups = ["dev"]
created-by = "a test"

[[packages]]
name = "alpha"
version = "1.0"
wheels = [%s]

[[packages]]
name = "beta"
version = "1.0"
marker = "sys_platform != 'win32' and 'dev' in dependency_groups"
requires-python = ">=3"
dependencies = [{name = "alpha"}]
wheels = [%s]

[[packages]]
name = "gamma"
version = "3"
marker = "'science' in extras"
wheels = [%s]

[[packages]]
name = "delta"
version = "0.2"
wheels = [
    %s,
    %s,
]

[[packages]]
name = "sourced"
version = "1.0"
sdist = {name = "sourced-1.0.tar.gz", url = "file://%s/links/sourced-1.0.tar.gz", hashes = {sha256 = "%s"}}

[[packages]]
name = "foo-bar"
archive = {path = "%s/links/foo_bar-1.0-py3-none-any.whl", hashes = {sha256 = "%s"}}

[[packages]]
name = "unneeded"
version = "1"
marker = "python_version < '3'"
index = "https://example.org/simple"
wheels = [{url = "https://example.org/unneeded-1-py3-none-any.whl", hashes = {sha256 = "00"}}]

[tool.test]
key = [1, 2.5, true, 2024-01-02]
""" % (
        wheel("alpha-1.0-py3-none-any.whl"), wheel("beta-1.0-py3-none-any.whl"), wheel("gamma-3-py3-none-any.whl"),
        wheel("delta-0.2-%s-abi3-win_amd64.whl" % OWN_PYTHON),
            wheel("delta-0.2-%s-abi3-manylinux_2_5_x86_64.manylinux1_x86_64.whl" % OWN_PYTHON),
        top, digest(files, "sourced-1.0.tar.gz"), top, digest(files, "foo_bar-1.0-py3-none-any.whl"),
    )


def small_lock(entry):
    """A lock of one entry."""
    return 'lock-version = "1.0"\ncreated-by = "a test"\n[[packages]]\n%s\n' % entry


# edits of the lock, each of which makes it wrong, or another one
EDITS = {
    "other version": ('lock-version = "1.0"', 'lock-version = "2.0"'),
    "later version": ('lock-version = "1.0"', 'lock-version = "1.7"'),
    "no version": ('lock-version = "1.0"', ""),
    "no creator": ('created-by = "a test"', ""),
    "another Python": ('requires-python = ">=3.8"', 'requires-python = ">=3.99"'),
    "wrong Python": ('requires-python = ">=3.8"', 'requires-python = "three"'),
    "another environment": ("python_version >= '3.0'", "python_version < '3.0'"),
    "wrong marker": ("\"sys_platform != 'win32' and 'dev' in dependency_groups\"", "\"sys_platform != \""),
    "wrong name": ('name = "gamma"', 'name = "-gamma"'),
    "name that isn't normal": ('name = "gamma"', 'name = "Gamma_"'),
    "wrong package version": ('version = "3"', 'version = "3.x"'),
    "version of another type": ('version = "3"', "version = 3"),
    "no hashes": ("hashes = {sha256", "hashes2 = {sha256"),
    "no wheel for this machine": ("manylinux_2_5_x86_64.manylinux1_x86_64", "manylinux_2_5_s390x"),
    "wrong hash": ('hashes = {sha256 = "', 'hashes = {sha256 = "0'),
    "two sources": ("archive = {", 'directory = {path = "x"}\narchive = {'),
    "no source": ("archive = {", "archive2 = {"),
    "no default": ('default-groups = ["dev"]', ""),
    "wrong file name": ('name = "alpha-1.0-py3-none-any.whl"', 'name = "alpha.whl"'),
    "no packages": ("[[packages]]", "[[packages2]]"),
    "unknown key": ('name = "gamma"', 'name = "gamma"\nunknown = 1'),
    "no TOML": ("[[packages]]", "[[packages"),
    "two entries": ("marker = \"'science' in extras\"",
        "marker = \"'science' not in extras\"\n[[packages]]\nname = \"gamma\"\nversion = \"3\"\nwheels = []\n[packages.tool]\n"),
    "a size": ('sdist = {name', "sdist = {size = 7, name"),
    "a wrong size": ('sdist = {name', "sdist = {size = \"7\", name"),
    "a time": ('sdist = {name', "sdist = {upload-time = 2024-01-02T03:04:05Z, name"),
}


class Locks(Both):
    """`pip install -r pylock.toml` and `pip lock`."""

    def lock(self, text, name="pylock.toml"):
        return self.file(name, text)

    def test_install(self):
        text = lock_text(WORLDS["top"], WORLDS["files"])
        self.both("install", "-r", self.lock(text), "--target", "WORLD/locked")
        found = self.same_trees("locked")
        for name in ("alpha", "beta", "sourced", "foo_bar"):
            self.assertIn("/world/locked/%s.py" % name, found)
        self.assertNotIn("/world/locked/gamma.py", found)
        self.assertIn("foo-bar==1.0", [each.lower().replace(".", "-", 1)
            for each in self.report("-r", self.lock(text, "pylock.named.toml"))])
        self.both("download", "-r", "pylock.toml", "-d", "WORLD/locked-down", status=None)
        self.both("install", "--dry-run", "-r", self.lock(text, "notlock.toml"), status=None)

    def test_alone(self):
        """A lock of wheels alone, of whom nothing depends on more."""
        top, files = WORLDS["top"], WORLDS["files"]
        for name in ("alpha-1.0-py3-none-any.whl", "delta-0.3-2a-py3-none-any.whl", "beta-1.1-py3-none-any.whl"):
            project, version = name.split("-")[:2]
            source = 'wheels = [{path = "%s/links/%s", hashes = {sha256 = "%s"}}]' % (top, name, digest(files, name))
            text = small_lock('name = "%s"\nversion = "%s"\n%s' % (project, version, source))
            with self.subTest(name):
                self.both("install", "--dry-run", "--ignore-installed", "-r", self.lock(text), status=None)
                self.both("install", "--dry-run", "--ignore-installed", "-r", self.lock(text), "alpha<1", status=None)
                self.both("install", "--dry-run", "--ignore-installed", "-r", self.lock(text), "--no-deps", "--quiet",
                    "--report", "-", status=None)

    def test_edits(self):
        whole = lock_text(WORLDS["top"], WORLDS["files"])
        statuses = []
        for name, (old, new) in EDITS.items():
            self.assertIn(old, whole, name)
            with self.subTest(name):
                path = self.lock(whole.replace(old, new))
                found = self.both("install", "--dry-run", "--ignore-installed", "--no-deps", "--quiet", "--report", "-",
                    "-r", path, status=None)
                statuses.append(found[0])
        self.assertGreater(statuses.count(0), 3)
        self.assertGreater(statuses.count(1), 12)

    def test_sources(self):
        """Folders, clones and archives alone."""
        top, files = WORLDS["top"], WORLDS["files"]
        for source in (
            'directory = {path = "%s/project"}' % top, 'directory = {path = "../../project", editable = true}',
                'directory = {path = "%s/absent"}' % top,
            'directory = {path = "%s", subdirectory = "project"}' % top, 'directory = {}', 'directory = {path = 1}',
            'vcs = {type = "git", url = "file://%s/clone", commit-id = "abc"}' % top,
                'vcs = {type = "svn2", path = "x", commit-id = "abc"}',
            'vcs = {type = "git", url = "x"}',
                'archive = {url = "file://%s/links/alpha-1.0-py3-none-any.whl", hashes = {}}' % top,
            'archive = {url = "file://%s/links/own.whl", hashes = {sha256 = "%s"}}' % (top, digest(files, "sourced-1.0.tar.gz")),
            'archive = {url = "file://%s/links/sourced-1.0.tar.gz", hashes = {sha256 = "%s"}}' % (top,
                digest(files, "sourced-1.0.tar.gz")),
        ):
            text = small_lock('name = "own-project"\n' + source)
            with self.subTest(source):
                self.both("install", "--dry-run", "--ignore-installed", "--no-deps", "-r", self.lock(text), status=None)

    def test_absent(self):
        self.both("install", "--dry-run", "-r", "pylock.absent.toml", status=None)
        self.both("install", "--dry-run", "-r", self.lock(""), "--platform", "win32", "--target", "WORLD/x",
            "--only-binary", ":all:", status=None)

    def test_made(self):
        for number, words in enumerate((
            ["alpha"], ["beta[fast]<1.1"], ["sourced"], ["delta", "foo.baz"],
                ["-r", self.file("in.txt", "alpha<1.1\nbeta<1.1\n")], ["absent"],
            ["alpha<1", "new-alpha"], ["-e", "."],
        )):
            with self.subTest(words):
                self.both("lock", "-o", "WORLD/work/pylock.made%d.toml" % number, *words, status=None)
                self.both("lock", "-o", "-", *words, status=None)
                if words[0] in ("alpha", "sourced"):
                    self.both("install", "--dry-run", "--ignore-installed", "-r",
                        "WORLD/work/pylock.made%d.toml" % number, status=None)
        self.both("lock", "alpha", "-o", "WORLD/work/other.toml")


if __name__ == "__main__":
    unittest.main()
