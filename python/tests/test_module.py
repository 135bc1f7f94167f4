"""The doctests, the example program, the public names, sets that no version is in, the installed module, the command line."""

import ast
import doctest
import importlib
import inspect
import os
import pkgutil
import random
import re
import subprocess
import sys
import tempfile
import unittest

from support import HERE, MODULE, PYTHON, TOP, bytes_of, reference, release, text_of

import pylock
from pylock import SpecifierSet, _native, specifiers


class Doctests(unittest.TestCase):
    def test_doctests(self):
        tried = 0
        for module in pkgutil.iter_modules(pylock.__path__, "pylock."):
            if module.name != "pylock.__main__":
                results = doctest.testmod(importlib.import_module(module.name), optionflags=doctest.IGNORE_EXCEPTION_DETAIL)
                self.assertEqual(results.failed, 0, module.name)
                tried += results.attempted
        results = doctest.testfile(os.path.join(TOP, "docs", "PYTHON.md"), module_relative=False, optionflags=doctest.ELLIPSIS)
        self.assertEqual(results.failed, 0, "docs/PYTHON.md")
        self.assertGreater(tried, 80)

    def test_documented(self):
        for name in pylock.__all__:
            value = getattr(pylock, name)
            # a function of its own before Python 3.10
            if value is pylock.NormalizedName:
                continue
            if inspect.isclass(value) or inspect.isfunction(value):
                self.assertTrue(value.__doc__, name)
                for part, member in vars(value).items() if inspect.isclass(value) else ():
                    if not part.startswith("_") and (inspect.isfunction(member) or isinstance(member, property)):
                        self.assertTrue(member.__doc__, (name, part))

    def test_names(self):
        for part in ("version", "specifiers", "markers", "requirements", "utils", "tags"):
            module = getattr(pylock, part)
            for name in module.__all__:
                # at the top is what is used most, and there `Environment` is a kept one
                if name in pylock.__all__ and name != "Environment":
                    self.assertIs(getattr(module, name), getattr(pylock, name), (part, name))
        for error in (pylock.InvalidVersion, pylock.InvalidSpecifier, pylock.InvalidMarker, pylock.InvalidRequirement, pylock.InvalidWheelFilename):
            self.assertIs(getattr(importlib.import_module(error.__module__), error.__name__), error)


class Names(unittest.TestCase):
    """The names that are no calls."""

    def test_values(self):
        self.assertEqual(set(pylock.VARIABLES), set(pylock.default_environment()))
        pattern = re.compile(pylock.VERSION_PATTERN, re.VERBOSE | re.IGNORECASE)
        for text in ("1.0", "v1!2.0-RC.1.post2.dev3+Abc_1"):
            self.assertTrue(pattern.fullmatch(text), text)
        self.assertEqual(pylock.NormalizedName("a"), "a")
        self.assertEqual(pylock.parse_wheel_filename("a-1-2b-py3-none-any.whl")[2], (2, "b"))
        self.assertEqual(set(pylock.Options.__annotations__), {
            "extras", "all_extras", "groups", "without_groups", "all_groups", "default_groups", "policies", "variables",
            "strict",
        })


class Unsatisfiable(unittest.TestCase):
    """Whether a version is in a set: of many specifiers, and beside each version that is tried alone."""

    MOST = 2**128 - 1

    def specifier(self, draw):
        release = ".".join(str(draw.choice([0, 0, 1, 1, 2])) for _ in range(draw.randint(1, 4)))
        kind = draw.choice(["==%s", "!=%s", "<=%s", ">=%s", "<%s", ">%s", "~=%s.0", "==%s.*", "!=%s.*", "!=1!%s", "==%s+x0"])
        ends = ["", "", "a1", "rc0.dev1", ".post0", ".post1.dev0", ".dev0"] if kind[2:] == "%s" or kind[1:] == "%s" else [""]
        return kind % release + draw.choice(ends)

    def test_each_tried(self):
        draw = random.Random(7)
        for _ in range(300):
            text = ",".join(self.specifier(draw) for _ in range(draw.randint(1, 6)))
            versions = SpecifierSet(text)
            witnesses = specifiers._Witnesses(versions._items())
            with self.subTest(text):
                tried = {pylock.Version(each) for each in witnesses if versions.contains(each)}
                self.assertEqual(set(witnesses.admitted_by_all()), tried)
                self.assertEqual(versions.is_unsatisfiable(), not tried)

    def plain(self, draw):
        release = ".".join(str(draw.choice([0, 0, 1, 1, 2, 9])) for _ in range(draw.randint(1, 4)))
        return draw.choice(["==%s", "!=%s", "<=%s", ">=%s", "<%s", ">%s", "~=%s.0", "==%s.*", "!=%s.*", ">=%sa1", "<%sb2", "<=%s.post1",
                            "==%s.dev1", ">=%s.post1.dev2", "~=%s.0rc1"]) % release

    def test_starts(self):
        """The versions at which stretches begin tell what all those beside the operands do, of final releases too."""
        draw, told = random.Random(8), []
        for _ in range(500):
            text, forced = ",".join(self.plain(draw) for _ in range(draw.randint(1, 6))), draw.choice([None, True, False])
            versions = SpecifierSet(text, forced)
            witnesses = specifiers._Witnesses(versions._items())
            admitted = [version for version in witnesses.admitted_by_all() if forced is not False or not version.is_prerelease]
            with self.subTest(text, forced=forced):
                starts = specifiers._starts(versions._items(), forced is False)
                self.assertEqual(any(versions.contains(start) for start in starts), bool(admitted))
                told.append(versions.is_unsatisfiable())
                self.assertEqual(told[-1], not admitted)
        self.assertTrue(150 < sum(told) < 350, sum(told))

    def test_many(self):
        holes = ["!=1.%d.*" % number for number in range(3000)]
        for left, wanted in ((holes, True), (holes[:2000] + holes[2001:], False)):
            self.assertEqual(SpecifierSet(",".join([">=1.0", "<1.3000", *left])).is_unsatisfiable(), wanted)

    def test_last_number(self):
        for text, wanted in ((">=%d", False), (">%d.post%d", False), ("==1.%d.*", False), ("<1,>=%d", True), (">1.dev%d,<1", True),
                             (">1.%d", False), ("!=1.%d.*,>=1.%d,<2", True), ("!=1.%d,==1.%d", True), ("!=1.%d.*,>=1.%d", False), ("~=1.%d,!=1.%d", False)):
            with self.subTest(text):
                self.assertEqual(SpecifierSet(text.replace("%d", str(self.MOST))).is_unsatisfiable(), wanted)


class Compiled(unittest.TestCase):
    def test_told(self):
        """What type checkers are told of the compiled part is there, and nothing else but what Python itself asks for."""
        told = {}
        for node in ast.parse(text_of("python", "pylock", "_native.pyi")).body:
            if isinstance(node, ast.ClassDef) and not node.name.startswith("_"):
                told[node.name] = {part.name if isinstance(part, ast.FunctionDef) else part.target.id for part in node.body}
            elif isinstance(node, (ast.FunctionDef, ast.AnnAssign)):
                told[node.name if isinstance(node, ast.FunctionDef) else node.target.id] = set()
        # a session has it
        del told["Owner"]
        self.assertEqual(set(told), {name for name in dir(_native) if not name.startswith("__")})
        for name, parts in told.items():
            value = getattr(_native, name)
            self.assertEqual([part for part in parts if not hasattr(value, part)], [], name)
            if isinstance(value, type):
                self.assertEqual({part for part in vars(value) if not part.startswith(("__", "_pylock"))},
                                 {part for part in parts if not part.startswith("__")}, name)


class Program(unittest.TestCase):
    def run_as(self, library, *names):
        text = re.sub(r"\bpackaging\.", library + ".", text_of(*names))
        environment = dict(os.environ, PYTHONPATH=os.pathsep.join([MODULE, os.environ.get("PYLOCK_PEER", MODULE)]))
        return subprocess.run([sys.executable, "-c", text], env=environment, stdout=subprocess.PIPE, check=True).stdout.decode()

    def test_same_output(self):
        with open(os.path.join(HERE, "packaging_program.txt"), encoding="utf-8") as file:
            expected = file.read()
        self.assertEqual(self.run_as("pylock", "examples", "packaging_program.py"), expected)
        library = reference()
        if library is not None and release(library) >= (26, 2):
            self.assertEqual(self.run_as(library.__name__, "examples", "packaging_program.py"), expected)

    @unittest.skipUnless(reference() and release(reference()) >= (26, 2), "no packaging of 26.2 or later; PYLOCK_PEER names the folder it is in")
    def test_typed(self):
        """The program whose types tools/check/annotations checks."""
        here = "python", "tests", "typed_program.py"
        self.assertEqual(self.run_as("pylock", *here), self.run_as(reference().__name__, *here))


class Installed(unittest.TestCase):
    def test_install(self):
        with tempfile.TemporaryDirectory() as folder:
            python = os.path.join(folder, "bin", "python")
            made = subprocess.run([sys.executable, "-m", "venv", folder], stdout=subprocess.PIPE, stderr=subprocess.STDOUT)
            if made.returncode or not os.path.exists(python):
                self.skipTest("no venv can be made")
            environment = {name: value for name, value in os.environ.items() if name not in ("PYTHONPATH", "PYLOCK_MODULE")}
            install = [python, "-m", "pip", "install", "--no-index", "--quiet", "--disable-pip-version-check", PYTHON]
            done = subprocess.run(install, env=environment, stdout=subprocess.PIPE, stderr=subprocess.STDOUT)
            self.assertEqual(done.returncode, 0, done.stdout)
            text = "import pylock; print(pylock.__file__); print(pylock.Version('1.0-RC1')); print(len(pylock.environment().tags) > 0)"
            ran = subprocess.run([python, "-I", "-c", text], env=environment, stdout=subprocess.PIPE, stderr=subprocess.STDOUT, cwd=folder)
            lines = ran.stdout.decode().split("\n")
            self.assertEqual((ran.returncode, lines[1:]), (0, ["1.0rc1", "True", ""]), ran.stdout)
            self.assertIn(os.path.realpath(folder), os.path.realpath(lines[0]))
            command = [python, "-m", "pylock", "plan", os.path.join(TOP, "examples", "pylock.toml"), os.path.join(TOP, "examples", "linux.json")]
            ran = subprocess.run(command, env=environment, stdout=subprocess.PIPE)
            self.assertEqual((ran.returncode, ran.stdout.split(b"\n")[0]), (0, b"plan 11"))
            removed = subprocess.run([python, "-m", "pip", "uninstall", "-y", "-q", "pylock"], stdout=subprocess.PIPE, stderr=subprocess.STDOUT)
            self.assertEqual(removed.returncode, 0)

    def backend(self, call, **environment):
        text = "import sys; sys.path.insert(0, 'backend'); import pylock_build; print(pylock_build.%s)" % call
        return subprocess.run(
            [sys.executable, "-c", text], cwd=PYTHON, env=dict(os.environ, **environment), stdout=subprocess.PIPE, stderr=subprocess.STDOUT
        )

    def test_backend(self):
        with tempfile.TemporaryDirectory() as folder:
            built = self.backend("build_wheel(%r)" % folder, PYLOCK_PLATFORM="linux_x86_64")
            api = "cp310" if sys.version_info >= (3, 10) else "cp38"
            self.assertEqual(built.stdout.decode(), "pylock-%s-%s-abi3-linux_x86_64.whl\n" % (pylock.__version__, api))
            name, version, build, tags = pylock.parse_wheel_filename(built.stdout.decode().strip())
            self.assertEqual((name, str(version), build), ("pylock", pylock.__version__, ()))
            with open(os.path.join(folder, built.stdout.decode().strip()), "rb") as file:
                first = file.read()
            self.backend("build_wheel(%r)" % folder, PYLOCK_PLATFORM="linux_x86_64")
            with open(os.path.join(folder, built.stdout.decode().strip()), "rb") as file:
                self.assertEqual(file.read(), first)
            self.assertEqual(self.backend("build_sdist(%r)" % folder).stdout, b"pylock-%s.tar.gz\n" % pylock.__version__.encode())
            for variable, value, told in (
                ("PYLOCK_ARCHIVE", os.path.join(folder, "none"), b"tools/make/library"), ("CC", os.path.join(folder, "none"), b"there is no C compiler"),
            ):
                missing = self.backend("build_wheel(%r)" % folder, **{variable: value})
                self.assertEqual((missing.returncode, missing.stdout.count(b"\n")), (1, 1), missing.stdout)
                self.assertIn(told, missing.stdout)


if __name__ == "__main__":
    unittest.main()
