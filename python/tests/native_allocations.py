"""Each allocation of memory in each call of `_native` is refused in turn, of Python and of the library, alone and with all behind
it: the call does what it does otherwise or raises MemoryError, leaves its arguments as they were, and holds nothing."""

import gc
import sys
import unittest

import _refuse
import native_calls
from pylock import _native

# past that a call doesn't end
MOST = 20_000
TIMES = 60
TURNS = 4


def outcome(row, arguments, nth, behind):
    """What a call gives, as it can be seen, or the class of what it raises. An edit gives codes, below zero."""
    try:
        result = _refuse.call(row.function, arguments, nth, behind)
    except Exception as error:
        return type(error)
    return MemoryError if result == -_native.MEMORY and row.function is _native.Session.edit else native_calls.shown(result)


def seen(arguments):
    return [native_calls.shown(argument) for argument in arguments if not isinstance(argument, (str, bytes))]


class Allocations(unittest.TestCase):
    def expected(self, row):
        arguments = row.make()
        found = outcome(row, arguments, 0, False)
        self.assertEqual(isinstance(found, type) and found, row.error or False, row.name)
        return found, seen(arguments)

    def refuse_each(self, row, behind):
        """Refuses each allocation in turn; how many there were, and how often that was told."""
        told = 0
        expected, after = self.expected(row)
        for nth in range(1, MOST):
            arguments = row.make()
            # to look at an argument finds what it keeps
            before = seen(row.make())
            found = outcome(row, arguments, nth, behind)
            reached = _refuse.allocations() >= nth
            if found is MemoryError:
                told += 1
                if nth % 2:
                    self.assertEqual(seen(arguments), before, (row.name, nth))
                # the call may be made again
                if not row.again:
                    arguments = row.make()
                found = outcome(row, arguments, 0, False)
            self.assertEqual(found, expected, (row.name, nth))
            self.assertEqual(seen(arguments), after, (row.name, nth))
            if not reached:
                return nth - 1, told
        return self.fail("%s: more to come" % row.name)

    def level(self, row):
        """Both ways; then neither the library nor Python holds more blocks than before."""
        for _ in range(2):
            gc.collect()
            before = _refuse.blocks(), sys.getallocatedblocks()
            counts = [self.refuse_each(row, behind) for behind in (False, True)]
            gc.collect()
            self.assertEqual(_refuse.blocks(), before[0], row.name)
            if sys.getallocatedblocks() <= before[1]:
                return counts[0]
        # what the interpreter keeps for itself it keeps once; what an allocation leaves behind it leaves each time
        for behind in (False, True):
            for nth in range(1, counts[0][0] + 1):
                self.level_many(row, nth, behind)
        return counts[0]

    def level_many(self, row, nth, behind):
        left = []
        for _ in range(TURNS):
            before = sys.getallocatedblocks()
            for _ in range(TIMES):
                outcome(row, row.make(), nth, behind)
            if sys.getallocatedblocks() - before >= TIMES:
                gc.collect()
            left.append(sys.getallocatedblocks() - before)
            if left[-1] < TIMES:
                return
        self.fail((row.name, nth, behind, left))


def test_of(row):
    def test(self):
        allocations.append(self.level(row)[0])

    return test


allocations = []
for number, one in enumerate(row for row in native_calls.rows() if row.allocations):
    setattr(Allocations, "test_%03d" % number, test_of(one))
    getattr(Allocations, "test_%03d" % number).__doc__ = one.name


def tearDownModule():
    print("native: %d allocations refused in each of two ways" % sum(allocations))


if __name__ == "__main__":
    unittest.main()
