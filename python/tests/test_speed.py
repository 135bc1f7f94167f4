"""The list of what `tools/measure/speed python --all` measures: it has every public name of the modules of `packaging`."""

import dataclasses
import inspect
import re
import subprocess
import sys
import typing
import unittest

import support  # noqa: F401 - puts the module on the path
import peer
import speed_rows
from pylock import direct_url, licenses, version

MODULES = {name: peer.peer(name) for name in speed_rows.IMPORTS}
# how the special methods of a class are asked for
ASKED = {
    "__and__": "item & ", "__contains__": " in item", "__eq__": "item == ", "__ge__": "item >= ", "__gt__": "item > ",
    "__hash__": "hash(item)", "__iter__": "list(item)", "__le__": "item <= ", "__len__": "len(item)", "__lt__": "item < ",
    "__ne__": "item != ", "__or__": "item | ", "__replace__": "replace", "__repr__": "repr(item)", "__str__": "str(item)",
}


def lines_of(module):
    """The items and lines of the rows of a module."""
    return [part for name, items, lines in speed_rows.ROWS if name == module for part in (*items, lines)]


def own_members(kind):
    """The public attributes of a class that `packaging` itself gives it, and its special methods."""
    for base in kind.__mro__:
        if base.__module__.split(".")[0] in ("packaging", peer.NAMED, "pip"):
            for name in {*vars(base), *getattr(base, "__annotations__", ())}:
                is_setting = isinstance(vars(base).get(name), int)
                if name in ASKED or not name.startswith("_") and not is_setting:
                    yield name


def row_names():
    """The names of the rows, with their items and lines."""
    for module, items, lines in speed_rows.ROWS:
        for item in items:
            for line in filter(None, map(str.strip, lines.splitlines())):
                for word in ("new", "kept"):
                    yield "%s: %s of a %s %s" % (module, line, word, item), item, line


def missing():
    """The public names that have no row."""
    for module, theirs in MODULES.items():
        lines = "\n".join(lines_of(module))
        for name in theirs.__all__:
            value, path = getattr(theirs, name), "%s.%s" % (module, name)
            if path in speed_rows.NOT_MEASURED:
                continue
            if not re.search(speed_rows.RAISED.get(path) or r"\b%s\b" % name, lines):
                yield path
            if inspect.isclass(value) and not issubclass(value, BaseException):
                for member in sorted(set(own_members(value))):
                    asked = ASKED.get(member) or "." + member
                    if not any(asked in each for each in lines_of(module)):
                        yield "%s.%s" % (path, member)


@unittest.skipIf(None in MODULES.values(), "no packaging of 26.2 with all modules; PYLOCK_PEER names the folder it is in")
class Rows(unittest.TestCase):
    def test_all_names(self):
        self.assertEqual(list(missing()), [])

    def test_ties(self):
        """Each form of a tie has rows; of a row that is a tie as an attribute is read, that is found without a function of
        `packaging` itself but a property."""
        names = [name for name, *_ in row_names()]
        for form, reason in speed_rows.TIES:
            self.assertTrue(any(re.match(form, name) for name in names), (form, reason))
        for name, item, line in row_names():
            if speed_rows.tie_of(name) == speed_rows.READ:
                self.assertRegex(line, r"\Aitem\.\w+(\(\))?\Z", name)

    def test_with_making(self):
        for form in speed_rows.WITH_MAKING:
            self.assertTrue(any(re.match(form, name) for name, *_ in row_names()), form)

    def test_exceptions(self):
        """What isn't measured, or raised, is there."""
        for path in (*speed_rows.NOT_MEASURED, *speed_rows.RAISED):
            module, name = path.split(".")
            self.assertIn(name, MODULES[module].__all__, path)


class Imports(unittest.TestCase):
    """What a module loads in an interpreter that has loaded nothing yet, and what is found nevertheless."""

    def loaded(self, module):
        program = "import sys; sys.path.insert(0, %r); import %s; print(*sys.modules)" % (support.MODULE, module)
        done = subprocess.run([sys.executable, "-I", "-S", "-c", program], stdout=subprocess.PIPE, check=True)
        return done.stdout.decode().split()

    @unittest.skipIf(sys.version_info < (3, 10), "before 3.10 annotations need typing")
    def test_light(self):
        for module in ("pylock", "pylock.version", "pylock.errors", "pylock.licenses"):
            heavy = {"re", "typing", "dataclasses", "functools", "json", "ctypes", "pylock.tags", "pylock.licenses._spdx"}
            self.assertEqual(heavy.intersection(self.loaded(module)), set(), module)

    def test_tags(self):
        heavy = {"platform", "subprocess", "sysconfig", "logging", "ctypes", "pylock._linux"}
        self.assertEqual(heavy.intersection(self.loaded("pylock.tags")), set())

    def test_direct_url(self):
        self.assertEqual({"dataclasses", "inspect"}.intersection(self.loaded("pylock.direct_url")), set())

    def test_hints(self):
        self.assertEqual(typing.get_type_hints(version.parse), {"version": str, "return": version.Version})
        self.assertEqual(set(typing.get_type_hints(licenses.canonicalize_license_expression)), {"raw_license_expression", "return"})
        self.assertEqual(typing.get_type_hints(direct_url.DirInfo), {"editable": typing.Optional[bool]})

    def test_dataclasses(self):
        """What `dataclasses` does with a class is what it does with one of its own."""
        kind = direct_url.VcsInfo
        self.assertTrue(dataclasses.is_dataclass(kind))
        self.assertTrue(kind.__dataclass_params__.frozen)
        one = kind(vcs="git", commit_id="a")
        self.assertEqual(dataclasses.asdict(one), {"vcs": "git", "commit_id": "a", "requested_revision": None})
        self.assertEqual(hash(one), hash(("git", "a", None)))
        self.assertRaises(dataclasses.FrozenInstanceError, delattr, one, "vcs")

        @dataclasses.dataclass(frozen=True)
        class Own(direct_url.DirInfo):
            note: str = "b"

        self.assertEqual([field.name for field in dataclasses.fields(Own)], ["editable", "note"])

        class Other(direct_url.DirInfo):
            pass

        other = Other(editable=True)
        other.note = "c"
        self.assertNotEqual(other, direct_url.DirInfo(editable=True))
        self.assertEqual((other.note, repr(other)), ("c", Other.__qualname__ + "(editable=True)"))


if __name__ == "__main__":
    unittest.main()
