"""Measures every public name of the module beside `packaging` 26.2 or later, and says what isn't well ahead of it.

    tools/measure/speed python --all [WORD ..]
    PYLOCK_MODULE=FOLDER PYLOCK_PEER=FOLDER python3 python/tests/speed_all.py [WORD ..]

`speed_rows` lists what is measured: of each item a new one that is asked for the first time, and one that is asked again. To
these come the import of each module in a fresh interpreter, alone and with a first use; markers and sets that are joined by
the thousand; and the memory of objects, as `tracemalloc` tells it, before anything is asked of them and after.

The bound of a row is 1.5 times as fast. That of a tie, which `speed_rows` lists with its reason, is 0.95 times: no slower, as
both do one thing of the interpreter's there. Printed are the rows that are below their bound, or take more memory; the last
line counts them, and the status is 1 where there are any. Words name rows by a part of their names, and each of these is
printed then, a tie with its reason. The modules tell of their start, on the standard error.

Processor time, here and there by turns, and of each the least of several rounds; a row that is below is measured again before
it is told. What an empty loop over the same items takes is taken off both.
"""

import contextlib
import gc
import functools
import importlib
import itertools
import operator
import os
import re
import subprocess
import sys
import tempfile
import time
import tracemalloc
from copy import copy, deepcopy
from dataclasses import replace
from pathlib import PurePath
from pickle import dumps, loads

import speed_rows
from speed import loop
from support import reference, release

import pylock

AHEAD = 1.5
EVEN = 0.95
# rounds of a row, and of one that is below so often again, a tie oftener, as it may be of a few nanoseconds; those of an import
# or a fold take longer
ROUNDS, STARTS = 8, 3
AGAIN, AGAIN_OF_TIE = 6, 30
# seconds that a round takes, and the making of its items
ROUND, MAKING = 0.0003, 0.001
# how often a line stands in the loop over what is kept, so that the loop itself hardly counts
REPEATED = 10
# the objects of which the memory is measured, and what is the same, with what else is made meanwhile
OBJECTS, SAME = 1_000, 1.01
# the number of what is kept; new ones have as many digits
KEPT = 100_000
numbers = itertools.count(KEPT + 1)

HELPERS = {
    "copy": copy, "deepcopy": deepcopy, "dumps": dumps, "loads": loads, "replace": replace, "PurePath": PurePath,
    "first": operator.itemgetter(0), "email": speed_rows.email, "lock_table": speed_rows.lock_table,
    "some_texts": ["1.%d" % number for number in range(20)],
    "some_pairs": [("1.%d" % number, number) for number in range(20)],
}


def scope_of(library):
    """The names that rows may read, of a library."""
    scope = {}
    for name in speed_rows.IMPORTS:
        module = importlib.import_module("%s.%s" % (library.__name__, name))
        public = importlib.import_module("pylock." + name).__all__
        scope.update((each, getattr(module, each)) for each in public if hasattr(module, each))
    scope.update(HELPERS, library=library)
    scope["one_version"] = scope["Version"]("1.4")
    scope["some_versions"] = [scope["Version"](text) for text in scope["some_texts"]]
    scope["variables"] = dict(scope["default_environment"](), extra="")
    scope["some_tags"] = list(scope["cpython_tags"]((3, 12), ["cp312"], ["linux_x86_64", "manylinux_2_17_x86_64"]))
    scope["some_wheels"] = [(text, scope["parse_tag"](text)) for text in ("py3-none-any", "cp38-abi3-linux_x86_64", "x-y-z")]
    return scope


def lines_of(text):
    return [line.strip() for line in text.splitlines() if line.strip()]


def rows():
    """The module, the item, and the line of each row."""
    for module, items, lines in speed_rows.ROWS:
        yield from ((module, item, line) for item in items for line in lines_of(lines))


def statement(line):
    """What is run for a line."""
    kind, _, call = line.partition(" ")
    if kind == "refused":
        return "try:\n   %s\n  except Exception:\n   pass\n  else:\n   raise SystemExit('speed: it is taken: ' + repr(item))" % call
    return line


# ---- lines


@contextlib.contextmanager
def without_collector():
    """The collector of cycles waits: it would run in the round of either."""
    gc.disable()
    try:
        yield
    finally:
        gc.enable()


class Timer:
    """The time of a line here or there: of a new item each, or of one that was asked before."""

    rounds = ROUNDS

    def __init__(self, scope, item, line, fresh, is_made):
        self.make, self.fresh = eval("lambda n: " + item, scope), fresh
        scope, run = dict(scope, other=self.make(KEPT)), statement(line)
        if is_made:
            # the number of an item is given, and the item made in the loop
            self.make, run = int, "n = item\n  item = %s\n  %s" % (item, run)
        self.repeated = 1 if fresh else REPEATED
        self.loops = [loop("\n  ".join([each] * self.repeated), scope) for each in (run, "pass")]
        self.kept = self.make(KEPT)
        self.count, self.least = 5, [float("inf")] * 2
        begin = time.process_time()
        self.round()
        making = (time.process_time() - begin) / self.count
        most = MAKING / making if fresh else 10_000
        self.count = max(10, int(min(ROUND / self.repeated / max(self.least[0], 1e-8), most)))
        self.least = [float("inf")] * 2

    def round(self):
        items = [self.make(next(numbers)) for _ in range(self.count)] if self.fresh else [self.kept] * self.count
        # the empty loop comes last: what is new is new to the line
        with without_collector():
            times = [run(items) / (self.count * self.repeated) for run in self.loops]
        self.least = list(map(min, self.least, times))

    def time(self):
        return max(self.least[0] - self.least[1], 1e-10)


def measured(make, here, there, bound):
    """How many times as fast it is here, and the microseconds there and here. What is low is measured again with other objects,
    as other work on the machine may have made it so, or the place of an object in memory."""
    least = [float("inf")] * 2
    for _ in range(AGAIN if bound == AHEAD else AGAIN_OF_TIE):
        sides = make(there), make(here)
        for _ in range(sides[0].rounds):
            for side in sides:
                side.round()
        least = [min(time, side.time()) for time, side in zip(least, sides)]
        if least[0] >= least[1] * bound:
            break
    return least[0] / least[1], least[0] * 1e6, least[1] * 1e6


# ---- imports


class Start:
    """The time of an import in a fresh interpreter."""

    rounds = STARTS

    PROGRAM = """
import sys, time
sys.path.insert(0, sys.argv[1])
begin = time.process_time()
from %s.%s import *
%s
print(time.process_time() - begin)
"""

    def __init__(self, scope, module, line, cache):
        library = scope["library"]
        folder = os.path.abspath(library.__file__)
        for _ in range(library.__name__.count(".") + 2):
            folder = os.path.dirname(folder)
        self.words = [sys.executable, "-c", self.PROGRAM % (library.__name__, module, line), folder]
        # both are compiled once, wherever they lie
        self.environment = dict(os.environ, PYTHONPYCACHEPREFIX=cache, PYTHONDONTWRITEBYTECODE="")
        self.least = float("inf")
        self.round()
        self.least = float("inf")

    def round(self):
        said = subprocess.run(self.words, env=self.environment, stdout=subprocess.PIPE, check=True).stdout
        self.least = min(self.least, float(said))

    def time(self):
        return self.least


# ---- many joined to one


class Fold:
    """The time of joining as many markers or sets by an operator."""

    rounds = STARTS

    def __init__(self, scope, item, word, count):
        self.make = eval("lambda n: " + item, scope)
        self.join, self.count, self.least = getattr(operator, word), count, float("inf")

    def round(self):
        items = [self.make(number) for number in range(self.count)]
        begin = time.process_time()
        functools.reduce(self.join, items)
        self.least = min(self.least, time.process_time() - begin)

    def time(self):
        return self.least


# ---- memory


def kept_items(scope):
    """The items that are objects of the module's own, each with what gives their parts."""
    lines = {}
    for _, item, line in rows():
        lines.setdefault(item, []).append(line)
    for item, its in lines.items():
        kind = type(eval("lambda n: " + item, scope)(KEPT))
        if kind.__module__.startswith("pylock."):
            yield item, [line for line in its if re.fullmatch(r"item\.\w+|(str|hash)\(item\)", line)]


def memory(scope, item, parts):
    """The bytes of an object of which nothing was asked, and when its parts were read."""
    make = eval("lambda n: " + item, scope)
    ask = eval("lambda item: (%s)" % "".join(part + ", " for part in parts), scope)
    ask(make(KEPT))
    # Python keeps the memory of tuples and their like for the next ones, of which `tracemalloc` doesn't know then
    gc.collect()
    tracemalloc.start()
    items = [make(number) for number in range(KEPT, KEPT + OBJECTS)]
    sizes = [tracemalloc.get_traced_memory()[0]]
    for one in items:
        ask(one)
    sizes.append(tracemalloc.get_traced_memory()[0])
    tracemalloc.stop()
    return [size / OBJECTS for size in sizes]


# ---- the whole


def cases(cache, same):
    """Of each row its name, and what measures it on a side."""
    for module, item, line in rows():
        if same.isdisjoint(re.findall(r"\w+", item + line)):
            for fresh, word in ((True, "new"), (False, "kept")):
                name = "%s: %s of a %s %s" % (module, line, word, item)
                is_made = speed_rows.is_with_making(name)
                yield name, lambda side: Timer(side, item, line, fresh, is_made)
    for module, line in speed_rows.IMPORTS.items():
        for use in ("", line):
            yield "import of %s %s" % (module, use), lambda side: Start(side, module, use, cache)
    for item, word in speed_rows.FOLDS:
        for count in speed_rows.FOLDED:
            yield "%s of {:,} %s".format(count) % (word, item), lambda side: Fold(side, item, word, count)


def told(ratio, there, here, unit, name):
    print("%7.2f %11.3f %11.3f %-5s %s" % (ratio, there, here, unit, name))
    sys.stdout.flush()


class Judge:
    """What measures the rows that are asked for, tells those that are below and counts them."""

    def __init__(self, words, here, there):
        self.words, self.here, self.there = words, here, there
        self.count = self.ties = self.behind = self.larger = 0

    def is_asked(self, name):
        return not self.words or any(word in name for word in self.words)

    def judge_time(self, name, make):
        reason = speed_rows.tie_of(name)
        bound = AHEAD if reason is None else EVEN
        try:
            ratio, others, ours = measured(make, self.here, self.there, bound)
        except Exception as error:
            ratio, others, ours, name = 0.0, 0.0, 0.0, "%s: %r" % (name, error)
        self.count, self.ties, self.behind = self.count + 1, self.ties + (bound == EVEN), self.behind + (ratio < bound)
        if self.words or ratio < bound:
            told(ratio, others, ours, "us", name if reason is None else "%s [tie: %s]" % (name, reason))

    def judge_memory(self, item, parts):
        sizes = [memory(side, item, parts) for side in (self.here, self.there)]
        for when, ours, others in zip(("made", "asked"), *sizes):
            is_larger = ours > others * SAME
            self.count, self.larger = self.count + 1, self.larger + is_larger
            if self.words or is_larger:
                told(others / ours, others, ours, "bytes", "memory of %s, %s" % (item, when))

    def end(self):
        """The status, and a line that tells it."""
        fine = (self.count, self.ties, self.behind, AHEAD, EVEN, self.larger)
        print("speed: %d rows, %d of them ties: %d below %s times as fast, of a tie %s; %d of more memory" % fine)
        return 1 if self.behind or self.larger else 0


def main(words):
    theirs = reference()
    if theirs is None or release(theirs) < (26, 2):
        sys.exit("speed: `packaging` 26.2 is needed: PYLOCK_PEER names the folder that has it")
    here, there = scope_of(pylock), scope_of(theirs)
    same = {name for name in here.keys() & there.keys() if here[name] is there[name]} - set(HELPERS)
    print("times as fast, %s %s, pylock, Python %s" % (theirs.__name__, theirs.__version__, sys.version.split()[0]))
    judge, begin, at = Judge(words, here, there), time.perf_counter(), ""
    with tempfile.TemporaryDirectory() as cache:
        for name, make in cases(cache, same):
            if judge.is_asked(name):
                part = re.match(r"import|\w+(?=:)|", name)[0] or "folds"
                if part != at:
                    at = part
                    print("%6.0f s: %s" % (time.perf_counter() - begin, part), file=sys.stderr)
                judge.judge_time(name, make)
    for item, parts in kept_items(here):
        if judge.is_asked("memory of " + item):
            judge.judge_memory(item, parts)
    return judge.end()


if __name__ == "__main__":
    sys.exit(main(sys.argv[1:]))
