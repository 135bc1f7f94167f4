"""What a call of `_native` borrows it holds: at each allocation that it causes, in turn, something runs that takes away or changes
what the call was given. It does what it does otherwise, or raises what such a change is told by. The module _meanwhile
(native_meanwhile.c) hands over the dict of named arguments as it is, as Python 3.8 does, whatever Python runs."""

import gc
import sys
import unittest

import _meanwhile
import native_calls
from native_calls import ENVIRONMENT, LOCK, fresh
from native_hard import Free, new_module

from pylock import _native, direct_url

# past that a call doesn't end
MOST = 2_000


class Late(_native.Version):
    """Has no text until its __init__ is called by itself."""

    def __init__(self, *given):
        pass


class Truth:
    """Says that it is true, and does something meanwhile."""

    def __init__(self, action):
        self.action = action

    def __bool__(self):
        self.action()
        return True

    def lower(self):
        self.action()
        return fresh("lower")


class Ended:
    """Does something where it is given up."""

    def __init__(self, action):
        self.action = action

    def __del__(self):
        self.action()


class Case:
    """A call: a function with its arguments, what runs meanwhile, and what may be told then beside what is told without it, or
    where it ran before the call. Where `told` is None anything may be."""

    def __init__(self, function, arguments=(), named=None, action=None, told=(), after=lambda: None):
        self.function, self.arguments, self.named, self.told, self.after = function, arguments, named, told, after
        self.action = action or self.clear

    def clear(self):
        for one in (*self.arguments, self.named):
            if isinstance(one, (dict, list)):
                one.clear()
        gc.collect()


def case_of_names(function, make):
    """Makes a case of named arguments, which are cleared."""
    return lambda: Case(function, named=make(), told=(RuntimeError,))


def of_names():
    for name in ("canonicalize_name", "is_normalized_name"):
        yield name, case_of_names(getattr(_native, name), lambda: {"name": fresh("A__b-\xe9")})
        yield name + " of half a character", case_of_names(getattr(_native, name), lambda: {"name": fresh("A\ud800")})
    yield "canonicalize_name, refused", case_of_names(_native.canonicalize_name, lambda: {"validate": True, "name": fresh("-a")})
    yield "canonicalize_version", case_of_names(_native.canonicalize_version, lambda: {"version": fresh("1!1.0.0-RC1+x"), "strip_trailing_zero": 1})
    yield "canonicalize_version of none", case_of_names(_native.canonicalize_version, lambda: {"version": fresh("none at all")})
    yield "parse_tag", case_of_names(_native.parse_tag, lambda: {"tag": fresh("P2.\xe9-none-any"), "validate_order": False})
    yield "parse_tag in order", case_of_names(_native.parse_tag, lambda: {"validate_order": True, "tag": fresh("p2.p3-none-any")})
    yield "parse_tag, not in order", case_of_names(_native.parse_tag, lambda: {"validate_order": True, "tag": fresh("p3.\xe9.p2-none-any")})
    yield "parse_wheel_filename", case_of_names(_native.parse_wheel_filename, lambda: {"filename": fresh("a-1.0-5x-py3.py2-none-any.whl"), "validate_order": True})
    yield "parse_sdist_filename", case_of_names(_native.parse_sdist_filename, lambda: {"filename": fresh("A_b-1.0.zip")})
    yield "parse_sdist_filename, refused", case_of_names(_native.parse_sdist_filename, lambda: {"filename": fresh("A_b.zip")})
    for kind in (_native.Version, Free):
        for text in ("1.0-RC1", native_calls.LONG, "no version"):
            yield "%s(%.10s)" % (kind.__name__, text), case_of_names(kind, lambda text=text: {"version": fresh(text)})
    for texts in (("CP310", "abi3", "any"), ("P\xc9", "a\ud800", "b"), ("x", "y" * 600, "z")):
        yield "Tag(%.20a)" % (texts,), case_of_names(_native.Tag, lambda texts=texts: dict(zip(("interpreter", "abi", "platform"), map(fresh, texts))))
    for text in (" >= 1.0 ", "?", "==1,<2"):
        yield "Specifier(%s)" % text, case_of_names(_native.Specifier, lambda text=text: {"spec": fresh(text), "prereleases": [fresh("x")]})
    yield "Specifier of nothing", case_of_names(_native.Specifier, lambda: {"prereleases": [fresh("x")]})
    yield "Layers", case_of_names(_native.Layers, lambda: {"variables": {"os_name": fresh("posix")}})


def again(function, arguments, named):
    """A case of named arguments of which one does the clearing itself, and the dict has them alone."""
    case = Case(function, arguments, named, told=(RuntimeError,))
    for name, value in list(named.items()):
        if value is Truth:
            named[name] = Truth(case.clear)
    return case


def of_their_own():
    yield "validate", lambda: again(_native.canonicalize_name, (), {"name": fresh("A__b"), "validate": Truth})
    yield "strip_trailing_zero", lambda: again(_native.canonicalize_version, (), {"version": fresh("1.0.0"), "strip_trailing_zero": Truth})
    yield "interpreter.lower", lambda: again(_native.Tag, (), {"platform": fresh("ANY"), "abi": fresh("none"), "interpreter": Truth})
    yield "abi.lower", lambda: again(_native.Tag, (), {"interpreter": fresh("PY3"), "abi": Truth, "platform": fresh("ANY")})

    def read_again():
        one = _native.Specifier(">=1")
        case = Case(_native.Specifier.__init__, (one,), {"spec": fresh("<2"), "prereleases": fresh("more")}, told=(RuntimeError,))
        one._exact = Ended(case.clear)
        return case

    yield "Specifier.__init__", read_again

    def late():
        one = Late.__new__(Late)
        return Case(_native.Version.__init__, (one,), {"version": fresh("1.0-\xe9")}, told=(RuntimeError,))

    yield "Version.__init__", late


def of_dicts():
    changed = (RuntimeError,)
    for odd in ("os_name", "\ud800", 5, b"x"):
        for value in ("posix", "\ud800", 5):
            yield "environment_of({%r: %r})" % (odd, value), lambda odd=odd, value=value: Case(
                _native.environment_of, ({"sys_platform": fresh("linux"), fresh(odd) if isinstance(odd, str) else odd: value if value == 5 else fresh(value)},),
                told=changed)
    over = _native.Marker._value_over
    for value in ("nt", "\ud800", 5):
        yield "evaluate_over(%r)" % value, lambda value=value: Case(
            over, (_native.Marker("os_name == 'nt' or 'x' == extra"), native_calls.layers(), {"os_name": value if value == 5 else fresh(value), "extra": fresh("more\ud800")},
                   None, False))
    other = native_calls.OTHERS.__getitem__
    yield "toml", lambda: Case(_native.toml, ({"a": [fresh("b"), {"c": fresh("d\ud800")}], "e": [5j], "f": fresh("g")}, other), told=changed)
    yield "made", lambda: Case(_native.made, (native_calls.Entry, dict(native_calls.ATTRIBUTES), {"version": fresh("1.0"), "name": fresh("b")}), told=changed)
    yield "__init__ of a dataclass", case_of_names(direct_url.VcsInfo, lambda: {"vcs": fresh("git"), "commit_id": fresh("a")})
    for name, more in (("__copy__", ()), ("__deepcopy__", ({},))):
        yield name, lambda name=name, more=more: Case(
            vars(direct_url.ArchiveInfo)[name], (direct_url.ArchiveInfo(hashes=fresh("a")), *map(dict, more)), told=changed)
    yield "made_all", lambda: Case(_native.made_all, (native_calls.Entry, dict(native_calls.ATTRIBUTES), [{"version": fresh("1.0"), "name": fresh("b")}]), told=changed)


def of_specifiers():
    """A specifier is read again meanwhile: it has all of the new text then, and nothing of the one before."""
    for make in (native_calls.specifier, native_calls.of_set):
        for text in ("~= 1.0.0", "===x", "!= 1.0.0.*"):
            for name, function, more in (
                ("hash", hash, ()), ("str", str, ()), ("_spec", lambda one: one._spec, ()), ("_is_exact", lambda one: one._is_exact, ()),
                ("_canonical_spec", _native.Specifier._canonical_spec, ()), ("admits", _native.Specifier.admits, ("7",)),
                ("_passes", _native.Specifier._passes, ("no version\ud800",)), ("__init__", _native.Specifier.__init__, ("<9",)),
                ("prereleases", lambda one: one.prereleases, ()), ("contains", _native.Specifier.contains, ("7rc1", False)),
            ):
                def case(make=make, text=text, function=function, more=more):
                    one = make(text)

                    def after():
                        if str(one) == "==7.0":
                            assert (one._spec, one._canonical_spec(), one.admits("7"), one.admits("1"), one._is_exact) == (
                                ("==", "7.0"), ("==", "7"), True, False, False), one._spec
                        assert one._text == "".join(one._spec), one._spec

                    # what is told may be of the one text or of the other
                    return Case(function, (one, *more), action=lambda: one.__init__("==7.0"), told=None, after=after)

                yield "%s(%s).%s" % (make.__name__, text, name), case


def of_sets():
    """The same of a set, which may be of a text, of specifiers or joined; what it is joined with is read again too."""
    makes = (lambda: _native.Set(fresh(">= 1.0.0,!=1.5 ,!=1.5.0")), native_calls.of_items, native_calls.of_joined)
    for number, make in enumerate(makes):
        for name, function, more in (
            ("hash", hash, ()), ("str", str, ()), ("list", list, ()), ("text", lambda one: one.text, ()), ("prereleases", lambda one: one.prereleases, ()),
            ("normal_text", lambda one: one.normal_text, ()), ("contains", _native.Set.contains, ("7rc1", False)), ("admits", _native.Set.admits, ("7",)),
            ("_joined", _native.Set._joined, ("<9, !=7.0",)), ("of itself", lambda one: str(one._joined(one)), ()), ("==", lambda one: one == "<3,>=1", ()),
            ("_subset", _native.Set._subset, (native_calls.of_joined(),)), ("_disjoint of itself", lambda one: one._disjoint(one), ()),
            ("__init__", _native.Set.__init__, ("<9",)), ("__init__ of items", _native.Set.__init__, (["<9", ">=1"],)),
        ):
            def case(make=make, function=function, more=more):
                one = make()

                def after():
                    if one.text == "==7.0":
                        assert (str(one), [str(each) for each in one], one.admits("7"), one.admits("1"), hash(one), len(one)) == (
                            "==7.0", ["==7.0"], True, False, hash(_native.Set("==7")), 1), str(one)
                    assert one.normal_text.count("=") == one.text.count("="), (one.normal_text, one.text)

                return Case(function, (one, *more), action=lambda: one.__init__("==7.0"), told=None, after=after)

            yield "%d.%s" % (number, name), case


def of_markers():
    """A marker is read again meanwhile, or its sides are: it says the one or the other."""
    for make in (lambda: _native.Marker("os_name=='nt' or (extra == '\u00c9_b')"), native_calls.joined, lambda: native_calls.known(native_calls.joined)):
        for name, function, more in (
            ("str", str, ()), ("hash", hash, ()), ("text", lambda one: one.text, ()), ("_sets", lambda one: one._sets, ()), ("copy", _native.Marker.__copy__, ()),
            ("__and__", _native.Marker.__and__, (native_calls.joined(),)), ("__eq__", _native.Marker.__eq__, (native_calls.joined(),)),
            ("_disjoint", _native.Marker._disjoint, (native_calls.joined(),)), ("_implied of itself", lambda one: one._implied(one), ()),
            ("_read", _native.Marker._read, ("os_name == 'x'",)), ("__init__", _native.Marker.__init__, ("os_name == 'x'",)),
            ("_value_in", _native.Marker._value_in, (native_calls.environment(), fresh("\u00c9\ud800"))),
            ("_value_over", _native.Marker._value_over, (native_calls.layers(), {"os_name": fresh("nt")}, None, True)),
        ):
            def case(make=make, function=function, more=more):
                one = make()

                def after():
                    assert str(one) in ('os_name == "new"', 'os_name == "x"', str(make())), str(one)

                return Case(function, (one, *more), action=lambda: (str(one.__or__(one)), one.__init__("os_name == 'new'")), told=None, after=after)

            yield "marker, %s" % name, case

    def shared():
        """What has it as a side asks for the string meanwhile, and another for its text."""
        side = native_calls.joined()
        whole = side.__or__(side)
        return Case(str, (whole,), action=lambda: (str(side), str(whole), gc.collect()), told=None, after=lambda: str(whole) == str(side.__or__(side)) or 1 / 0)

    yield "marker, sides", shared


def of_modules():
    """The layer says meanwhile that other classes and refusals are used, and the tags that are kept are given up."""
    another = new_module()
    for name, arguments in (
        ("parse_wheel_filename", ("a-1.0-5x-py2.py3-none-any.whl",)), ("parse_wheel_filename", ("a",)), ("parse_sdist_filename", ("a-1.0.zip",)), ("parse_tag", ("P2.\xc9-none-any",)),
        ("specifiers", (">=1,<2",)), ("Version", ("x",)), ("Set", ("?",)), ("Set", ([">=1", "<2"],)), ("phase", (native_calls.LONG + "rc1",)), ("lock_head", (b"x",)),
        ("session_start", (LOCK, ENVIRONMENT)), ("canonicalize_version", ("1.0.0-RC1",)), ("requirement_parts", ("A_b[c,d]>=1; os_name == '\xe9'",)),
        ("requirement_parts", ("?",)), ("Marker", ("os_name",)), ("run_start", (LOCK, ENVIRONMENT, False)), ("run_start", (b"x", ENVIRONMENT, True)),
        ("run_program", (native_calls.words("plan lock environment"), native_calls.FILES, b"")), ("run_program", ((b"pylock", 5), (), b"")),
        ("select_asked", (native_calls.words("select a\\b environment"),)),
    ):
        def case(name=name, arguments=arguments, module=another):
            def other():
                for use, base in ((module.use_version, module.Version), (module.use_tag, module.Tag), (module.use_specifier, module.Specifier),
                                  (module.use_set, module.Set), (module.use_marker, module.Marker)):
                    use(type("Other", (base,), {"__slots__": ()}))
                maker = [lambda *given: ValueError(other(), given) if len(given) == 9 else ValueError(given[0])]
                module.use_refusals(maker[0], maker.pop())
                gc.collect()

            other()
            return Case(getattr(module, name), arguments, action=other)

        yield "%s%.40a of other classes" % (name, arguments), case


def found_of(case, nth):
    """What the call gives, as it can be seen, or the class of what it raises."""
    try:
        result = _meanwhile.call(case.function, case.arguments, case.named, nth, case.action)
    except Exception as error:
        return type(error)
    return native_calls.shown(result) if type(result).__module__ != "pylock._native" else type(result).__name__


class Held(unittest.TestCase):
    @classmethod
    def setUpClass(cls):
        # the collector leaves out what was there before
        gc.collect()
        gc.freeze()

    @classmethod
    def tearDownClass(cls):
        gc.unfreeze()

    def at_each(self, name, make):
        expected, changed = found_of(make(), 0), make()
        changed.action()
        changed = found_of(changed, 0)
        self.assertNotIn(SystemError, (expected, changed), name)
        for nth in range(1, MOST):
            case = make()
            found = found_of(case, nth)
            count = _meanwhile.allocations()
            if case.told is None:
                self.assertNotEqual(found, SystemError, (name, nth))
            else:
                self.assertIn(found, (expected, changed, *case.told), (name, nth))
            case.after()
            tried[0] += 1
            if count < nth:
                return
        self.fail("%s: more to come" % name)


def test_of(name, make):
    return lambda self: self.at_each(name, make)


tried = [0]
for number, (one, make_one) in enumerate(pair for part in (of_names, of_their_own, of_dicts, of_specifiers, of_sets, of_markers, of_modules) for pair in part()):
    setattr(Held, "test_%03d" % number, test_of(one, make_one))
    getattr(Held, "test_%03d" % number).__doc__ = one


def tearDownModule():
    print("native: %d calls with something between, on Python %s" % (tried[0], sys.version.split()[0]))


if __name__ == "__main__":
    unittest.main()
