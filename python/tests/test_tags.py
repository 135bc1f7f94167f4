"""The tags of Pythons and machines beside those of `packaging` 26.2 or later, and beside the library's own lists.

What a machine says is patched: the configuration of the Python, the system, glibc, and the file that runs, which is made
here. `PYLOCK_PEER` names a folder that has `packaging`.
"""

import ast
import contextlib
import copy
import inspect
import itertools
import json
import os
import pickle
import struct
import sys
import sysconfig
import tempfile
import types
import unittest
import warnings
from unittest import mock

from support import reference, refused, release

import pylock
from pylock import _elf, _linux, _platforms, tags

packaging = reference()
COMPARED = packaging is not None and release(packaging) >= (26, 2)
NO_PEER = "packaging 26.2 or later isn't there: PYLOCK_PEER names none"


def texts(call, *words, **named):
    """The list that a call makes, as texts; or which error it raises, and how many warnings."""
    with warnings.catch_warnings(record=True) as told:
        warnings.simplefilter("always")
        try:
            made = call(*words, **named)
            made = made if isinstance(made, str) else [str(each) for each in made]
        except Exception as error:
            made = type(error).__name__
    return made, [each.category for each in told]


def forget():
    """What is remembered of the machine is asked anew."""
    _linux.glibc_release.cache_clear()
    _linux.musl_release.cache_clear()
    if COMPARED:
        packaging._manylinux._get_glibc_version.cache_clear()
        packaging._musllinux._get_musl_version.cache_clear()


@contextlib.contextmanager
def machine(system=None, named=None, glibc=None, executable=None, config=None, module=None):
    """A machine: its system, the name that the Python gives it, glibc's release, the file that runs, variables of the
    configuration, and the module by which a distribution objects."""
    with contextlib.ExitStack() as stack:
        if system is not None:
            stack.enter_context(mock.patch("platform.system", return_value=system))
        if named is not None:
            stack.enter_context(mock.patch("sysconfig.get_platform", return_value=named))
        if glibc is not None:
            stack.enter_context(mock.patch("os.confstr", return_value=glibc, create=True))
        if executable is not None:
            stack.enter_context(mock.patch("sys.executable", executable))
        if config is not None:
            real = sysconfig.get_config_var
            stack.enter_context(mock.patch("sysconfig.get_config_var",
                lambda name: config[name] if name in config else real(name)))
        stack.enter_context(mock.patch.dict(sys.modules, {"_manylinux": module}))
        forget()
        try:
            yield
        finally:
            forget()


def elf(bits, little, machine_number, flags=0, loader=None, kind=3):
    """An ELF file with its header and, where a loader is named, one program header."""
    order = "<" if little else ">"
    count = 0 if loader is None else 1
    if bits == 32:
        head = struct.pack(order + "HHIIIIIHHHHHH", 2, machine_number, 1, 0, 52, 0, flags, 52, 32, count, 0, 0, 0)
        program = struct.pack(order + "IIIIIIII", kind, 84, 0, 0, len(loader or b""), 0, 0, 0)
    else:
        head = struct.pack(order + "HHIQQQIHHHHHH", 2, machine_number, 1, 0, 64, 0, flags, 64, 56, count, 0, 0, 0)
        program = struct.pack(order + "IIQQQQQQ", kind, 0, 120, 0, 0, len(loader or b""), 0, 0)
    start = b"\x7fELF" + bytes([bits // 32, 1 if little else 2, 1]) + b"\0" * 9
    return start + head + (program + loader if loader is not None else b"")


class Folder(unittest.TestCase):
    def setUp(self):
        folder = tempfile.TemporaryDirectory()
        self.addCleanup(folder.cleanup)
        self.folder = folder.name

    def file(self, content, name="python", executable=False):
        path = os.path.join(self.folder, name)
        with open(path, "wb") as file:
            file.write(content)
        if executable:
            os.chmod(path, 0o755)
        return path


class Standards(unittest.TestCase):
    """What the PEPs give as examples, or say in one sentence."""

    def names(self, call, *words):
        return [str(each) for each in call(*words)]

    def test_pep_425(self):
        self.assertEqual(self.names(tags.cpython_tags, (3, 3), ["cp33m"], ["linux_x86_64"])[:2],
            ["cp33-cp33m-linux_x86_64", "cp33-abi3-linux_x86_64"])
        self.assertEqual(
            self.names(tags.compatible_tags, (3, 1), "cp31", ["p"]),
            ["py31-none-p", "py3-none-p", "py30-none-p", "cp31-none-any", "py31-none-any", "py3-none-any", "py30-none-any"],
        )
        self.assertEqual({str(tag) for tag in tags.parse_tag("py2.py3-none-any")}, {"py2-none-any", "py3-none-any"})
        self.assertEqual(tags.INTERPRETER_SHORT_NAMES,
            {"python": "py", "cpython": "cp", "pypy": "pp", "ironpython": "ip", "jython": "jy"})

    def test_pep_600(self):
        with machine("Linux", "linux-x86_64", "glibc 2.13"):
            found = list(tags.platform_tags())
        self.assertEqual(found[:4], ["manylinux_2_13_x86_64", "manylinux_2_12_x86_64", "manylinux2010_x86_64",
            "manylinux_2_11_x86_64"])
        self.assertEqual([each for each in found if "manylinux" in each][-2:], ["manylinux_2_5_x86_64", "manylinux1_x86_64"])
        self.assertEqual(found[-1], "linux_x86_64")
        with machine("Linux", "linux-x86_64", "glibc 2.6",
            module=types.SimpleNamespace(manylinux_compatible=lambda major, minor, arch: minor < 6)):
            self.assertEqual(list(tags.platform_tags())[:2], ["manylinux_2_5_x86_64", "manylinux1_x86_64"])

    def test_pep_656(self):
        for told, expected in (
            ("musl libc (x86_64)\nVersion 1.2.2\nDynamic Program Loader\n", (1, 2)),
                ("musl libc\n\n Version 1.1.24-git\n", (1, 1)),
            ("musl libc\n", None), ("glibc\nVersion 2.17\n", None), ("musl libc\nRelease 1.2\n", None), ("", None),
        ):
            self.assertEqual(_linux.read_musl_release(told), expected, told)

    def test_pep_703_and_803(self):
        self.assertEqual(self.names(tags.cpython_tags, (3, 15), ["cp315t"], ["p"])[:3],
            ["cp315-cp315t-p", "cp315-abi3t-p", "cp315-none-p"])

    def test_pep_730(self):
        self.assertEqual(
            list(tags.ios_platforms((13, 1), "arm64-iphonesimulator"))[:3],
            ["ios_13_1_arm64_iphonesimulator", "ios_13_0_arm64_iphonesimulator", "ios_12_9_arm64_iphonesimulator"],
        )

    def test_pep_738(self):
        self.assertEqual(list(tags.android_platforms(18, "arm64_v8a")),
            ["android_18_arm64_v8a", "android_17_arm64_v8a", "android_16_arm64_v8a"])
        with machine("Linux"), self.assertRaises(TypeError):
            list(tags.android_platforms())

    def test_unsorted(self):
        with refused(self, tags.UnsortedTagsError, "tag-order"):
            tags.parse_tag("py3.py2-none-any", validate_order=True)
        self.assertEqual(len(tags.parse_tag("py2.py3-none-any", validate_order=True)), 2)
        self.assertTrue(issubclass(tags.UnsortedTagsError, ValueError))
        for text in ("", "a", "a-b", "a-b-c-d"):
            with refused(self, tags.InvalidTag, "tag"):
                tags.parse_tag(text)

    def test_tag(self):
        tag = tags.Tag("CP312", "Abi3", "ANY")
        self.assertEqual((tag.interpreter, tag.abi, tag.platform, str(tag)), ("cp312", "abi3", "any", "cp312-abi3-any"))
        other = tags.Tag("cp312", "abi3", "any")
        self.assertEqual((tag, hash(tag), {tag}), (other, hash(other), {other}))
        self.assertNotEqual(tag, tags.Tag("cp312", "abi3", "win32"))
        self.assertNotEqual(tag, "cp312-abi3-any")
        for protocol in range(pickle.HIGHEST_PROTOCOL + 1):
            self.assertEqual(pickle.loads(pickle.dumps(tag, protocol)), tag)
        self.assertIs(copy.copy(tag), tag)
        self.assertIs(copy.deepcopy(tag), tag)
        for name in ("interpreter", "abi", "platform"):
            with self.assertRaises(AttributeError):
                setattr(tag, name, "x")
        with self.assertRaises(TypeError):
            tag < other
        with self.assertRaises(AttributeError):
            tags.Tag(1, "abi3", "any")

    def test_no_dependence(self):
        """Nothing here takes anything of `packaging`."""
        top = os.path.dirname(pylock.__file__)
        for name in os.listdir(top):
            if name.endswith(".py"):
                with open(os.path.join(top, name), encoding="utf-8") as file:
                    tree = ast.parse(file.read())
                for node in ast.walk(tree):
                    names = [each.name for each in node.names] if isinstance(node, ast.Import) else []
                    names += [node.module or ""] if isinstance(node, ast.ImportFrom) and not node.level else []
                    self.assertFalse([each for each in names if each.split(".")[0] in ("packaging", "pip")], name)

    def test_environment(self):
        self.assertEqual(list(pylock.environment().tags), [str(tag) for tag in tags.sys_tags()])


class Library(unittest.TestCase):
    """The library's list for a target is the one that is made here for its version, ABI and platforms."""

    GLIBC = [("x86_64", 5), ("x86_64", 12), ("x86_64", 13), ("x86_64", 28), ("i686", 17), ("i686", 99)]
    GLIBC += [(arch, minor) for arch in ("aarch64", "ppc64le", "s390x", "riscv64", "loongarch64", "armv7l")
        for minor in (17, 18, 39)]
    MUSL = [("x86_64", 0), ("x86_64", 2), ("aarch64", 1), ("armv7l", 2)]
    MAC = [((10, 4), "x86_64"), ((10, 9), "x86_64"), ((10, 16), "x86_64"), ((11, 0), "x86_64"), ((26, 0), "x86_64"),
        ((11, 0), "arm64"), ((14, 0), "arm64")]

    def same(self, platform, platforms):
        for minor, build in ((8, ""), (12, ""), (13, "t"), (14, ""), (15, "t"), (99, "")):
            interpreter = "cp3%d" % minor
            made = [*tags.cpython_tags((3, minor), [interpreter + build], platforms),
                *tags.compatible_tags((3, minor), interpreter, platforms)]
            with self.subTest(platform=platform, minor=minor):
                self.assertEqual(list(pylock.environment(python="3.%d%s" % (minor, build), platform=platform).tags),
                    [str(tag) for tag in made])

    def test_windows(self):
        for name in ("win32", "win_amd64", "win_arm64"):
            self.same(name, [name])

    def test_glibc(self):
        for arch, minor in self.GLIBC:
            with machine("Linux", "linux-" + arch, "glibc 2.%d" % minor), mock.patch.object(_linux, "_ASKED_OF_FILE",
                {}), mock.patch.object(
                _linux, "_MACHINES", {arch}
            ):
                self.same("manylinux_2_%d_%s" % (minor, arch), list(_linux.manylinux_platforms([arch])) + ["linux_" + arch])

    def test_musl(self):
        for arch, minor in self.MUSL:
            with mock.patch.object(_linux, "musl_release", return_value=_linux.Release(1, minor)):
                self.same("musllinux_1_%d_%s" % (minor, arch), list(_linux.musllinux_platforms([arch])) + ["linux_" + arch])

    def test_mac(self):
        for version, arch in self.MAC:
            self.same("macosx_%d_%d_%s" % (*version, arch), list(tags.mac_platforms(version, arch)))


@unittest.skipUnless(COMPARED, NO_PEER)
class Compared(Folder):
    """The same question to both."""

    def same(self, name, *words, **named):
        """The answers to one question, of a function by its name, are equal; the answer."""
        label = (name, words, named)
        ours = texts(getattr(tags, name), *words, **named)
        self.assertEqual(ours, texts(getattr(packaging.tags, name), *words, **named), label)
        return ours[0]

    def same_all(self):
        """All lists for the machine as it is patched."""
        for name in ("platform_tags", "sys_tags", "cpython_tags", "generic_tags", "compatible_tags",
            "interpreter_name", "interpreter_version"):
            forget()
            self.same(name)
            if name != "platform_tags" and name != "compatible_tags" and name != "interpreter_name":
                self.same(name, warn=True)

    def test_names(self):
        self.assertEqual(set(tags.__all__), set(packaging.tags.__all__) | {"InvalidTag"})
        for name in packaging.tags.__all__:
            ours, theirs = getattr(tags, name), getattr(packaging.tags, name)
            if inspect.isfunction(theirs):
                one, other = ([(each.name, each.kind, each.default)
                    for each in inspect.signature(call).parameters.values()] for call in (ours, theirs))
                if name != "create_compatible_tags_selector":
                    self.assertEqual(one, other, name)
            elif inspect.isclass(theirs):
                self.assertTrue(issubclass(ours, ValueError) == issubclass(theirs, ValueError), name)
            else:
                self.assertEqual(ours, theirs, name)

    def test_running(self):
        self.same_all()
        self.assertGreater(len(self.same("sys_tags")), 100)

    def test_cpython(self):
        versions = [(3,), (2, 7), (3, 1), (3, 2), (3, 3), (3, 7), (3, 8), (3, 9, 1), (3, 10), (3, 13), (3, 14),
            (3, 15), (3, 100), (4, 0), (4, 1), [3, 12], ()]
        abis = [
            None, [], ["cp313"], ["cp313t"], ["cp313d", "cp313"], ["cp313td", "cp313t"], ["abi3", "none", "x"],
                ["abi3", "cp313t"], ["none", "none"],
            ["abi3t", "cp313t"], ["CP313T"], ["t"], ["cp3t"], ("cp27mu",), "ab", ["abi3", "abi3"],
                ["cp313", "cp313t"], ["pypy310_pp73"],
        ]
        for version, own in itertools.product(versions, abis):
            for platforms in (["p"], ["win_amd64", "Any"]):
                self.same("cpython_tags", version, own, platforms)
        self.same("cpython_tags", (3, 3), [], [])
        for call in (tags.cpython_tags, packaging.tags.cpython_tags):
            self.assertEqual(len(list(call((3, 12), iter(["cp312"]), iter("pq")))), 2 * 13)

    def test_compatible(self):
        for version in ((3,), (3, 0), (3, 3), (2, 7), (3, 12, 4), (3, 100), [3, 9], (), None):
            for interpreter in (None, "", "cp312", "PP3"):
                for platforms in (["p"], ["p", "q"], "pq", [], None):
                    self.same("compatible_tags", version, interpreter, platforms)

    def test_generic(self):
        for interpreter in (None, "", "x", "PP310"):
            for abis in (None, [], ["a"], ["none"], ["a", "none"], ["none", "a", "none"], "ab"):
                for platforms in (["p"], ["p", "q"], [], None):
                    self.same("generic_tags", interpreter, abis, platforms)

    def test_suffixes(self):
        for suffix in (
            ".cpython-313-x86_64-linux-gnu.so", ".cp313-win_amd64.pyd", ".pyd", ".so",
                ".pypy310-pp73-x86_64-linux-gnu.so", ".graalpy-38-native-x86_64.dylib",
            ".graalpy230-310-native-x86_64-linux.so", None, "so", 3, "..so", ".dummy.so", ".cpython-37m-darwin.so",
                ".cpython-313t-x.so", ".abi3.so", "a.b.c",
            ".a-b-c.so", ".pypy.so", ".graalpy.so", ".cp39.pyd", ".icpy314-ic.x-y.so", ".cpython-3 13-x.so",
                ".cp39-win.x.pyd", ".",
        ):
            with machine(config={"EXT_SUFFIX": suffix}):
                self.same("generic_tags", "x", None, ["p"])
                self.same("generic_tags", None, None, ["p"], warn=True)

    def test_configurations(self):
        versions = [(2, 7), (3, 2), (3, 3), (3, 7), (3, 8), (3, 12), (3, 13), (3, 14), (3,)]
        for debug, free in itertools.product((None, 0, 1, ""), (None, 0, 1, "0")):
            with machine(config={"Py_DEBUG": debug, "Py_GIL_DISABLED": free}):
                for version in versions:
                    self.same("cpython_tags", version, None, ["p"])
        for allocator, size in itertools.product((None, 0, 1), (None, 2, 4)):
            with machine(config={"WITH_PYMALLOC": allocator, "Py_UNICODE_SIZE": size}):
                for version in versions:
                    self.same("cpython_tags", version, None, ["p"])
        for joined in (None, "", "314", 39, "3_14"):
            with machine(config={"py_version_nodot": joined}):
                self.same_all()
        with machine(config={"Py_DEBUG": None}), mock.patch.object(sys, "gettotalrefcount", lambda: 0, create=True):
            self.same("cpython_tags", (3, 12), None, ["p"])

    def test_implementations(self):
        real = sys.implementation
        for name in ("cpython", "pypy", "python", "jython", "ironpython", "graalpy", "micropython", "X"):
            made = types.SimpleNamespace(name=name, version=real.version, cache_tag=real.cache_tag)
            with machine(), mock.patch.object(sys, "implementation", made):
                self.same_all()

    def test_mac(self):
        arches = ["x86_64", "arm64", "i386", "ppc", "ppc64", "intel", "universal2", "fat", "fat32", "fat64",
            "universal", "foo", "aarch64", ""]
        versions = [(10, minor) for minor in range(18)] + [(11, 0), (11, 3), (12, 1), (13, 5, 1), (15, 0), (26, 0),
            (9, 9), (0, 0), (10,), (12,), (10, 4, 11)]
        for version, arch in itertools.product(versions, arches):
            self.same("mac_platforms", version, arch)

    def test_running_mac(self):
        for told, arch in itertools.product(("10.9", "10.15.7", "11.2", "13.0.1", "26.1", "x", ""),
            ("x86_64", "arm64", "i386", "ppc", "ppc64")):
            with machine("Darwin", "macosx-10.9-universal2"), mock.patch("platform.mac_ver",
                return_value=(told, ("", "", ""), arch)):
                self.same("mac_platforms")
                self.same("mac_platforms", (12, 0))
                self.same("mac_platforms", None, "arm64")
                self.same("platform_tags")
                self.same("sys_tags")
        answer = types.SimpleNamespace(stdout="13.2\n")
        with machine("Darwin"), mock.patch("platform.mac_ver", return_value=("10.16", ("", "", ""), "arm64")), mock.patch(
            "subprocess.run", return_value=answer
        ) as run:
            self.assertEqual(self.same("mac_platforms")[0], "macosx_13_0_arm64")
            one, other = run.call_args_list
            self.assertEqual(one[0][0][1:], other[0][0][1:])
            self.assertEqual(one[1]["env"]["SYSTEM_VERSION_COMPAT"], other[1]["env"]["SYSTEM_VERSION_COMPAT"])
        for arch, is_32_bit in itertools.product(("ppc", "ppc64", "i386", "x86_64", "arm64", ""), (True, False)):
            with mock.patch.object(_platforms, "_IS_32_BIT", is_32_bit):
                self.assertEqual(_platforms._running_mac_arch(arch),
                    packaging.tags._mac_arch(arch, is_32bit=is_32_bit), (arch, is_32_bit))

    def test_ios(self):
        for version in ((11, 9), (12, 0), (12, 2), (13, 0), (15, 12), (17, 5), (14, 1, 3), (14,), (26, 0)):
            for multiarch in ("arm64-iphoneos", "arm64_iphonesimulator", "x86_64-iphonesimulator", "A-B.c"):
                self.same("ios_platforms", version, multiarch)
        for told in ("13.4.1", "12.1", "13", "x", ""):
            with machine("iOS", "ios-13.0-arm64-iphoneos"), mock.patch("platform.ios_ver",
                return_value=("iOS", told, "iPhone", False), create=True):
                with mock.patch.object(sys, "implementation",
                    types.SimpleNamespace(name="cpython", _multiarch="arm64-iphoneos", version=sys.version_info)):
                    self.same("ios_platforms")
                    self.same("platform_tags")
                    self.same("sys_tags")
                    self.same("ios_platforms", None, "x86_64-iphonesimulator")

    def test_android(self):
        for level, abi in itertools.product((0, 15, 16, 18, 21, 34), ("x86", "arm64_v8a", "X-y.z w", "")):
            self.same("android_platforms", level, abi)
        for words in ((), (20,), (None, "x86")):
            self.same("android_platforms", *words)
        for named in ("android-21-x86_64", "android-16-arm64_v8a", "android-x86", "android_21_x86_64", "android"):
            with machine("Android", named), mock.patch("platform.android_ver",
                return_value=types.SimpleNamespace(api_level=18), create=True):
                self.same("android_platforms")
                self.same("android_platforms", 17)
                self.same("platform_tags")
                self.same("sys_tags")

    def test_systems(self):
        for system, named in itertools.product(
            ("Windows", "Linux", "FreeBSD", "", "Java", "Emscripten", "iPadOS"),
            ("win-amd64", "win32", "win-arm64", "linux-x86_64", "linux_aarch64", "freebsd-13.2-release-amd64",
                "linux", "emscripten-3.1.14-wasm32", "a b.c-D"),
        ):
            with machine(system, named):
                self.same("platform_tags")
                self.same("sys_tags")

    def linux(self, arch, glibc="glibc 2.18", executable=None, module=None, is_32_bit=False):
        """The platforms of a Linux, which are equal."""
        with machine("Linux", "linux-" + arch, glibc, executable, module=module):
            ours = texts(_platforms.linux_platforms, is_32_bit)
            self.assertEqual(ours, texts(packaging.tags._linux_platforms, is_32bit=is_32_bit),
                (arch, glibc, executable, module, is_32_bit))
            if not is_32_bit and sys.maxsize > 2**32:
                forget()
                self.same("platform_tags")
        return ours[0]

    def test_linux(self):
        for arch in ("x86_64", "aarch64", "armv7l", "armv8l", "i686", "ppc64le", "s390x", "riscv64", "loongarch64",
            "ppc64", "mips64", "armv6l", "x-y.z"):
            for glibc in ("glibc 2.4", "glibc 2.5", "glibc 2.16", "glibc 2.17", "glibc 2.39", "glibc 3.2", "glibc 5.1"):
                for is_32_bit in (False, True):
                    self.linux(arch, glibc, is_32_bit=is_32_bit)

    def test_glibc(self):
        for told in ("glibc 2", "glibc", "musl", "", "glibc x.y", "glibc 1.9", "eglibc 2 3", " 2.9", "glibc  2.7",
            "glibc 2.031", "glibc 2.5\n", "glibc 2.20-abc", "glibc 2.20.3"):
            self.linux("x86_64", told)
            self.linux("aarch64", told)
        for error in (OSError, ValueError, AttributeError):
            with machine("Linux", "linux-x86_64"), mock.patch("os.confstr", side_effect=error, create=True):
                forget()
                self.same("platform_tags")
                with mock.patch("ctypes.CDLL", side_effect=OSError):
                    forget()
                    self.assertEqual(self.same("platform_tags"), ["linux_x86_64"])
                for release_text in (b"2.19", b"2.x"):
                    library = types.SimpleNamespace(gnu_get_libc_version=mock.Mock(return_value=release_text))
                    with mock.patch("ctypes.CDLL", return_value=library):
                        forget()
                        self.same("platform_tags")
                with mock.patch("ctypes.CDLL", return_value=types.SimpleNamespace()):
                    forget()
                    self.same("platform_tags")

    def test_objections(self):
        made = types.SimpleNamespace
        asked = []
        for module in (
            made(), made(manylinux1_compatible=False), made(manylinux2010_compatible=0),
                made(manylinux2014_compatible=None), made(manylinux2014_compatible=True),
            made(manylinux_compatible=lambda *words: None), made(manylinux_compatible=lambda major, minor, arch: minor % 2),
            made(manylinux_compatible=lambda *words: False),
                made(manylinux_compatible=lambda *words: None, manylinux2014_compatible=False),
            made(manylinux_compatible=None), made(manylinux_compatible=lambda *words: asked.append(words)),
            made(manylinux_compatible=lambda major, minor, arch: arch == "aarch64"),
        ):
            for arch in ("x86_64", "aarch64"):
                self.linux(arch, "glibc 2.18", module=module)
        self.assertTrue(all(isinstance(minor, int) and arch in ("x86_64", "aarch64") for _, minor, arch in asked))

    def test_files(self):
        hard, soft, old = 0x05000400, 0x05000200, 0x04000400
        programs = [elf(bits, little, number, flags) for bits in (32, 64) for little in (True, False)
            for number in (3, 40, 62) for flags in (0, hard, soft, old)]
        programs += [b"", b"\x7fELF", b"#!/bin/sh\n", elf(32, True, 3)[:30], elf(32, True, 3)[:40],
            elf(64, True, 3)[:16], b"MZ" + elf(32, True, 3)[2:]]
        programs += [b"\x7fELF" + bytes(pair) + elf(32, True, 3)[6:] for pair in ((0, 1), (3, 1), (1, 0), (1, 3))]
        listed = 0
        for number, content in enumerate(programs):
            path = self.file(content, "python%d" % number)
            for arch, is_32_bit in (("i686", False), ("x86_64", True), ("armv7l", False), ("aarch64", True),
                ("armv8l", False), ("mips", False)):
                listed += any("manylinux" in each for each in self.linux(arch, executable=path, is_32_bit=is_32_bit))
        self.assertGreater(listed, 10)
        for path in (os.path.join(self.folder, "absent"), self.folder, ""):
            self.linux("i686", executable=path)
        with machine("Linux", "linux-i686", "glibc 2.18"), mock.patch("sys.executable", None):
            self.same("platform_tags")

    def test_musl(self):
        if os.name != "posix":
            self.skipTest("a loader that runs is a script here")
        answers = ["musl libc (x86_64)\\nVersion 1.2.3\\nUsage", "musl libc\\n\\nVersion 1.1.24", "musl",
            "musl\\nRelease 3", "Musl\\nVersion 1.2", "", "musl x\\nVersion 2.10"]
        for number, told in enumerate(answers):
            loader = self.file(b"#!/bin/sh\nprintf '" + told.encode() + b"\\n' >&2\nexit 1\n",
                "ld-musl-%d.so.1" % number, executable=True)
            for content in (
                elf(64, True, 62, loader=os.fsencode(loader) + b"\0"), elf(64, False, 22, loader=os.fsencode(loader)),
                elf(32, True, 40, 0x05000400, loader=os.fsencode(loader) + b"\0"),
                    elf(64, True, 62, loader=os.fsencode(loader), kind=1),
                elf(64, True, 62, loader=os.fsencode(loader))[:100],
            ):
                path = self.file(content, "python")
                for arch in ("x86_64", "s390x", "armv8l", "mips"):
                    self.linux(arch, "glibc 2.18", path)
        self.assertIn("musllinux_2_7_mips",
            self.linux("mips", executable=self.file(elf(64, True, 62, loader=os.fsencode(loader)))))
        for name in (b"", b"/lib64/ld-linux-x86-64.so.2\0", b"/absent/ld-musl-x86_64.so.1\0", b"\xff/musl\0"):
            self.linux("mips", executable=self.file(elf(64, True, 62, loader=name)))

    def test_selector(self):
        made = {}
        for library in (tags, packaging.tags):
            own = [library.Tag(*text.split("-")) for text in ("cp3-abi3-p", "py3-none-p", "py3-none-any")]
            things = [
                ("d", frozenset([own[2]])), ("e", frozenset([library.Tag("x", "y", "z")])), ("a", {own[1], own[2]}),
                    ("b", {own[0]}), ("c", {own[0]}),
                ("f", {own[2]}), ("g", set()), ("h", [own[1]]),
            ]
            made[library] = [
                list(library.create_compatible_tags_selector(wanted)(iter(things)))
                for wanted in (own, iter(own), [], [own[2], own[0], own[2]], own[::-1])
            ]
        self.assertEqual(made[tags], made[packaging.tags])
        self.assertEqual(made[tags][0], ["b", "c", "a", "h", "d", "f"])

    def test_texts(self):
        for text in ("a-b-c", "A-b-c", "py2.py3-none-any", "py3.py2-none-any", "py3.py3-none-any", "a.-b-c", "--",
            "a-b.a-c", "py3 -none-any", "B.a-x-y", "a.B-x-y", "\xe9.a-x-y", "a.\xe9-x-y", "a-b-\U0001f600.b",
                     "cp39.cp310-abi3-p", "cp310.cp39-abi3-p", "a-b-manylinux_2_17_x86_64.manylinux2014_x86_64",
                         "PY2.py3-none-any", "a-b-c.d.e.d"):
            for validate_order in (False, True):
                answers = []
                for library in (tags, packaging.tags):
                    try:
                        answers.append(sorted(map(str, library.parse_tag(text, validate_order=validate_order))))
                    except ValueError as error:
                        answers.append(type(error).__name__)
                self.assertEqual(*answers, (text, validate_order))
        for text in ("", "a", "a-b", "a-b-c-d"):
            for library in (tags, packaging.tags):
                self.assertRaises(ValueError, library.parse_tag, text)
                self.assertRaises(ValueError, library.parse_tag, text, validate_order=True)

    def test_tags(self):
        ours, theirs = ([library.Tag(*words)
            for words in (("CP3", "Abi3", "ANY"), ("cp3", "abi3", "any"), ("cp3", "abi3", "x"))]
                for library in (tags, packaging.tags))
        for one, other in zip(ours, theirs):
            self.assertEqual((str(one), one.interpreter, one.abi, one.platform),
                (str(other), other.interpreter, other.abi, other.platform))
            self.assertNotEqual(one, other)
            self.assertEqual(repr(one)[:-1], repr(other).split(" @")[0])
        self.assertEqual([one == other for one in ours for other in ours], [one == other for one in theirs for other in theirs])
        self.assertEqual(hash(ours[0]), hash(ours[1]))


class Files(Folder):
    def test_loader(self):
        for bits, little in itertools.product((32, 64), (True, False)):
            found = _elf.read_program(self.file(elf(bits, little, 62, 7, b"/lib/ld-musl.so.1\0")))
            self.assertEqual(found, (bits, little, 62, 7, "/lib/ld-musl.so.1"))
            self.assertIsNone(_elf.read_program(self.file(elf(bits, little, 62, 7, b"/lib/ld.so", kind=1))).loader)
            whole = elf(bits, little, 62, 7, b"/lib/ld-musl.so.1\0")
            for length in range(len(whole)):
                found = _elf.read_program(self.file(whole[:length]))
                self.assertTrue(found is None or whole.index(b"/lib") <= length or found.loader is None, length)

    def test_huge_places(self):
        head = b"\x7fELF\x02\x01\x01" + b"\0" * 9 + struct.pack("<HHIQQQIHHH", 2, 62, 1, 0, 2**64 - 1, 0, 0, 64, 56, 3)
        self.assertIsNone(_elf.read_program(self.file(head)))

    def test_running(self):
        found = _elf.read_program(sys.executable)
        if sys.platform == "linux":
            self.assertEqual(found.bits, 64 if sys.maxsize > 2**32 else 32)
        else:
            self.assertIsNone(found)


if __name__ == "__main__":
    unittest.main()
