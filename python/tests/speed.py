"""Measures the module beside `packaging`, and judges nothing: the time of each, and the ratio.

    tools/measure/speed python
    PYLOCK_MODULE=FOLDER PYLOCK_PEER=FOLDER python3 python/tests/speed.py [--table] [--with-loop] [ROW ..]

`python/backend/pylock_build.py place FOLDER` makes the first folder; the second has the folder `packaging`, where it isn't
this Python's own or pip's copy. Words name rows by a part of their names.

Processor time of the process, in microseconds or as said: here and there by turns, and of each the least of nine runs, as
other work on the machine only adds to a time. What an empty loop over the same items takes is taken off both, so that a time
is that of the expression alone; `--with-loop` leaves it in. Each row is measured with one text that came before and with
texts that are new, in this order; what is made and read at once has one measurement. With `--table` the rows are those of a
table in Markdown.
"""

import importlib
import json
import os
import random
import runpy
import sys
import time

from support import TOP, bytes_of, reference, toml

import pylock

theirs = reference()
TEXTS = 100_000
ROUNDS = 9
ITEMS = 2_000

NAMES = {
    "version": "Version parse InvalidVersion",
    "specifiers": "Specifier SpecifierSet",
    "markers": "Marker default_environment",
    "requirements": "Requirement",
    "tags": "Tag parse_tag",
    "utils": "canonicalize_name canonicalize_version is_normalized_name parse_wheel_filename parse_sdist_filename",
}


def names_of(library):
    """The names that the rows use."""
    return {name: getattr(getattr(library, part), name) for part, names in NAMES.items() for name in names.split()}


def with_values(names):
    """And the values that they use."""
    values = dict(names)
    values["other"] = names["Version"]("4.5.6")
    values["versions"] = names["SpecifierSet"](">=1.0,<2000,!=1.5.*")
    values["one"] = names["Specifier"](">=1.0")
    values["marker"] = names["Marker"]("python_version >= '3.8' and sys_platform == 'linux'")
    values["variables"] = dict(names["default_environment"](), extra="")
    values["tag"] = names["Tag"]("cp312", "cp312", "manylinux_2_17_x86_64")
    values["table"] = {values["other"]: 1}
    return values


HERE = with_values(names_of(pylock))
VARIABLES = HERE["variables"]
HERE["kept"] = pylock.Environment({name: value for name, value in HERE["variables"].items() if name != "extra"}, [])
THERE = with_values(names_of(theirs)) if theirs else None

counter = iter(range(10**12))


def text(form):
    """Texts of a form, each another."""
    return lambda names, number: form % number


def version(form):
    return lambda names, number: names["Version"](form % number)


def tags(names, number):
    return names["Tag"]("cp%d" % number, "abi3", "any")


# what, the expression, the items, and where it is another one there, the expression there
ROWS = [
    ("Version(text)", "Version(item)", text("1.2.%d")),
    ("Version(text) of a pre-release", "Version(item)", text("1.2.%drc1")),
    ("str(Version(text))", "str(Version(item))", text("1.2.%d")),
    ("str(Version(text)) of a pre-release", "str(Version(item))", text("1.2.%drc1")),
    ("str of a version", "str(item)", version("1.2.%d")),
    ("hash of a version", "hash(item)", version("1.2.%d")),
    ("a version looked for in a dict", "item in table", version("1.2.%d")),
    ("one version < another", "item < other", version("1.2.%d")),
    ("one version == another", "item == other", version("1.2.%d")),
    ("is_prerelease of a version", "item.is_prerelease", version("1.2.%d")),
    ("canonicalize_version", "canonicalize_version(item)", text("1.%d.0")),
    ("SpecifierSet(text)", "SpecifierSet(item)", text(">=1.0,<2.%d,!=1.5.*")),
    ("Specifier(text)", "Specifier(item)", text(">=1.%d")),
    ("str(SpecifierSet(text))", "str(SpecifierSet(item))", text(">=1.0,<2.%d,!=1.5.*")),
    ("str(SpecifierSet(text)) with an operator twice", "str(SpecifierSet(item))", text(">=1.0,!=1.%d,!=1.5.*")),
    ("hash of a SpecifierSet", "hash(SpecifierSet(item))", text(">=1.0,<2.%d,!=1.5.*")),
    ("one SpecifierSet == another", "SpecifierSet(item) == versions", text(">=1.0,<2.%d,!=1.5.*"), 500),
    ("a version in a set", "item in versions", version("1.%d")),
    ("a text in a set", "item in versions", text("1.%d")),
    ("contains of a text, without pre-releases", "versions.contains(item, prereleases=False)", text("1.%d")),
    ("a version in a Specifier", "item in one", version("1.%d")),
    ("filter of 100 texts", "list(versions.filter(item))", lambda names, number: ["1.%d.%d" % (number, one) for one in range(100)], 20),
    ("filter of 100 versions", "list(versions.filter(item))",
     lambda names, number: [names["Version"]("1.%d.%d" % (number, one)) for one in range(100)], 20),
    ("Marker(text)", "Marker(item)", text("python_version >= '3.%d' and sys_platform == 'linux'"), 200),
    ("str(Marker(text))", "str(Marker(item))", text("python_version >= '3.%d' and sys_platform == 'linux'"), 200),
    ("evaluate in a kept environment", "marker.evaluate(kept)", text("%d"), 500, "marker.evaluate(variables)"),
    ("evaluate in a mapping", "marker.evaluate(item)", lambda names, number: {"platform_release": str(number)}, 500),
    ("evaluate in a mapping of all variables", "marker.evaluate(item)",
     lambda names, number: dict(VARIABLES, platform_release=str(number)), 500),
    ("evaluate in the running Python", "marker.evaluate()", text("%d"), 500),
    ("Requirement(text)", "Requirement(item)", text("requests[security]>=2.8.%d,==2.8.*; python_version < '2.7'"), 200),
    ("Requirement(text) of a name and a set", "Requirement(item)", text("requests>=2.8.%d"), 200),
    ("the set and the marker of a Requirement", "(lambda one: (one.specifier, one.marker))(Requirement(item))",
     text("requests[security]>=2.8.%d,==2.8.*; python_version < '2.7'"), 200),
    ("str(Requirement(text))", "str(Requirement(item))", text("requests[security]>=2.8.%d,==2.8.*; python_version < '2.7'"), 200),
    ("parse_wheel_filename", "parse_wheel_filename(item)",
     text("numpy-2.2.%d-cp312-cp312-manylinux_2_17_x86_64.manylinux2014_x86_64.whl")),
    ("parse_wheel_filename of py3-none-any", "parse_wheel_filename(item)", text("Foo_bar-1.%d-py3-none-any.whl")),
    ("parse_sdist_filename", "parse_sdist_filename(item)", text("foo_bar-1.%d.tar.gz")),
    ("canonicalize_name", "canonicalize_name(item)", text("Foo.Bar_baz%d")),
    ("canonicalize_name of a normal one", "canonicalize_name(item)", text("foo-bar%d")),
    ("is_normalized_name", "is_normalized_name(item)", text("foo-bar%d")),
    ("Tag(..)", "Tag(item, 'abi3', 'manylinux_2_17_x86_64')", text("cp%d")),
    ("parse_tag", "parse_tag(item)", text("py2.py%d-none-any")),
    ("str of a tag", "str(item)", tags),
    ("hash of a tag", "hash(item)", tags),
    ("one tag == another", "item == tag", tags),
]


def loop(expression, values):
    """A function that gives the processor time of the expression, or a statement, for each of the items."""
    scope = dict(values, clock=time.process_time)
    exec("def run(items):\n begin = clock()\n for item in items:\n  %s\n return clock() - begin" % expression, scope)
    return scope["run"]


def measured(expression, values, make, count, fresh):
    """What the expression takes for an item, and what the empty loop does."""
    if fresh:
        items = [make(values, next(counter)) for _ in range(count)]
    else:
        items = [make(values, 7)] * count
    # the empty one comes last: what is new is new to the other
    return [loop(each, values)(items) / count * 1e6 for each in (expression, "pass")]


def least_of(rounds):
    """The least time of the expression, without that of the empty loop."""
    whole, empty = [min(times) for times in zip(*rounds)]
    return whole if with_loop else whole - empty


table = False
with_loop = False


def cell(time):
    """A time in three digits."""
    return "%.2f" % time if time < 10 else "%.1f" % time if time < 100 else "{:,.0f}".format(time)


def shown(name, here, there):
    cells = []
    if table:
        for ours, others in zip(here, there or [None] * len(here)):
            cells += [cell(others), cell(ours), "%.1f" % (others / ours)] if others else ["", cell(ours), ""]
        print("| %s |" % " | ".join(["`%s`" % name if "(" in name else name] + cells + [""] * (6 - len(cells))))
        sys.stdout.flush()
        return
    for ours, others in zip(here, there or [None] * len(here)):
        cells += ["%10.2f" % others if others else "%10s" % "", "%10.2f" % ours, "%6.1f" % (others / ours) if others else "%6s" % ""]
    print("%-44s" % name, *cells)
    sys.stdout.flush()


def row(name, expression, make, count=ITEMS, there=None):
    """Prints what the expression takes: there, here and the ratio, of what came before and of what is new."""
    here, others = [], []
    for fresh in (False, True):
        rounds = [
            (
                measured(expression, HERE, make, count, fresh),
                measured(there or expression, THERE, make, max(count // 2, 5), fresh) if THERE else (0.0, 0.0),
            )
            for _ in range(ROUNDS)
        ]
        for side, times in zip((here, others), zip(*rounds)):
            side.append(least_of(times))
    shown(name, here, others if THERE else None)


def once(name, ours, other=None, unit=1e3):
    """Prints what a whole takes, by default in milliseconds."""
    times = []
    for call in (ours, other) if other and theirs else (ours,):
        least = None
        for _ in range(5):
            begin = time.process_time()
            call()
            taken = (time.process_time() - begin) * unit
            least = taken if least is None else min(least, taken)
        times.append(least)
    shown(name, times[:1], times[1:])


def wholes():
    dice = random.Random(440)
    texts = ["%d.%d.%d%s" % (dice.randrange(30), dice.randrange(30), dice.randrange(300), dice.choice(("", "", "", "rc1", ".post2", ".dev3")))
             for _ in range(TEXTS)]
    parse = theirs and theirs.version.Version
    once("100,000 texts parsed, ms", lambda: pylock.parse_all(texts), lambda: [parse(text) for text in texts])
    ours, others = pylock.parse_all(texts), [parse(text) for text in texts] if theirs else []
    once("100,000 versions sorted, ms", lambda: sorted(ours), lambda: sorted(others))
    once("100,000 texts sorted, ms", lambda: pylock.sorted_versions(texts), lambda: sorted(texts, key=parse))
    lock, environment = bytes_of("examples", "pylock.toml"), pylock.Environment.read(os.path.join(TOP, "examples", "linux.json"))
    session = pylock.Session(lock, environment)
    once("the first plan of examples/pylock.toml, us", lambda: pylock.Lock.read(lock).plan(environment), unit=1e6)
    once("an edit of its session, us", lambda: (session.add_extra("science"), session.drop_extra("science")), unit=1e6 / 2)
    once("an answer of its session, us", session.answer, unit=1e6)


def selected(library, document, variables, tags):
    """How many entries `pylock` of a library selects of a document."""
    return sum(1 for _ in library.Pylock.from_dict(document).select(environment=variables, tags=tags))


def locks(count):
    """Rows of a whole lock with wheels, as tools/measure/speed makes it: of the text of `pylock.toml` and of its read document."""
    tool = runpy.run_path(os.path.join(TOP, "tools", "measure", "speed"))
    text = "".join(tool["wheels"](count))
    given = json.loads(tool["environment"]("3.12.4"))
    content, variables = text.encode(), given["environment"]
    environment = pylock.Environment(variables, given["tags"])
    other = None
    if theirs and toml():
        try:
            other = importlib.import_module(theirs.__name__ + ".pylock")
        except (ImportError, SyntaxError):
            pass
    own = importlib.import_module("pylock.pylock")
    # a tag is a text, with a dash between its parts
    tags = [[library.tags.Tag(*tag.split("-")) for tag in given["tags"]] for library in (pylock, theirs) if library]
    told = "a lock of {:,} entries".format(count)
    if other and len(pylock.Lock.read(content).plan(environment)) != selected(other, toml().loads(text), variables, tags[1]):
        raise SystemExit("speed: the plans differ")
    once(told + ", Lock.read and plan, ms", lambda: pylock.Lock.read(content).plan(environment),
         other and (lambda: selected(other, toml().loads(text), variables, tags[1])))
    if toml():
        document = toml().loads(text)
        # what the standard library takes for the table, before the two have anything to do
        once(told + ", its text read by tomllib, ms", lambda: toml().loads(text))
        once(told + ", Pylock.from_dict and select, ms", lambda: selected(own, document, variables, tags[0]),
             other and (lambda: selected(other, document, variables, tags[1])))


def main(words):
    global table, with_loop
    table, with_loop = "--table" in words, "--with-loop" in words
    words = [word for word in words if word not in ("--table", "--with-loop")]
    told = "%s %s" % (theirs.__name__, theirs.__version__) if theirs else "nothing"
    if table:
        print("| Python %s, µs or as said | %s | Here | Times as fast | New texts: %s | Here | Times as fast |" % (
            sys.version.split()[0], told, told))
        print("|---|---|---|---|---|---|---|")
    else:
        print("Python %s, microseconds: %s, pylock, times as fast; of what came before, and of what is new" % (
            sys.version.split()[0], told))
    for name, expression, make, *more in ROWS:
        if not words or any(word in name for word in words):
            row(name, expression, make, *more)
    if not words or "wholes" in words:
        wholes()
    if not words or "locks" in words:
        locks(1_000)


if __name__ == "__main__":
    main(sys.argv[1:])
