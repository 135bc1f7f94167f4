"""References and memory are level over many calls of each function of `_native`, on success and on refusal: where Python counts
its references, as python3-dbg does, by their number, and else by the interpreter's blocks and the memory of the process.

Each is called 100,000 times, or as often as its time allows: NATIVE_SECONDS has the seconds for one, by default a part."""

import gc
import os
import sys
import time
import unittest

import native_calls
from test_memory import resident

CALLS = 100_000
LEAST = 200
SECONDS = float(os.environ.get("NATIVE_SECONDS", "0.02"))
TURNS = 5
# what a loop of a test may leave
SLACK = 12


def held():
    """What is counted: references, or blocks of memory."""
    gc.collect()
    return sys.gettotalrefcount() if hasattr(sys, "gettotalrefcount") else sys.getallocatedblocks()


def run(row, calls):
    for _ in range(calls):
        try:
            row.function(*row.make())
        except Exception:
            pass


def calls_for(row):
    """How many calls there is time for."""
    run(row, 20)
    start = time.process_time()
    run(row, 20)
    each = max((time.process_time() - start) / 20, 1e-7)
    return max(LEAST, min(CALLS, int(SECONDS / each)))


class References(unittest.TestCase):
    def level(self, row):
        """What each call leaves, it leaves in each turn."""
        left, calls = [], calls_for(row)
        for _ in range(TURNS):
            before = held()
            run(row, calls)
            left.append(held() - before)
            made.append(calls)
            if left[-1] <= SLACK:
                return
        self.fail("%s: %s left over %d calls" % (row.name, left, calls))


@unittest.skipUnless(sys.platform == "linux", "it is told by /proc")
class Resident(unittest.TestCase):
    def test_resident(self):
        """The memory of the process, with what the library holds."""
        rows, grown = list(native_calls.rows()), []
        for _ in range(TURNS):
            before = resident()
            for row in rows:
                run(row, 200)
            gc.collect()
            grown.append(resident() - before)
            if grown[-1] < 200_000:
                return
        self.fail("memory grows by %s" % grown)


class Calls(unittest.TestCase):
    """Each call a few times, as it is expected: for the sanitizers."""

    def test_each(self):
        for row in native_calls.rows():
            for _ in range(5):
                try:
                    row.function(*row.make())
                    raised = None
                except Exception as error:
                    raised = type(error)
                self.assertIs(raised, row.error, row.name)


def test_of(row):
    return lambda self: self.level(row)


made = []
for number, one in enumerate(native_calls.rows()):
    setattr(References, "test_%03d" % number, test_of(one))


def tearDownModule():
    print("native: %d calls, counted by %s" % (sum(made), "references" if hasattr(sys, "gettotalrefcount") else "blocks"))


if __name__ == "__main__":
    unittest.main()
