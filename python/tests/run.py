"""Runs the tests, and counts them in the last line as the other tests of the repository do.

Where NATIVE_COLLECTS is set, the collector runs at each allocation that the compiled part causes, which is built for that
(tools/check/native)."""

import gc
import importlib
import os
import sys
import time
import unittest

from support import HERE, reference


class Counted(unittest.TextTestResult):
    """`testsRun` has the skipped tests on some Pythons alone, so what passes is counted here."""

    passed = 0
    # the function that says that the collector is to run, or None
    collect = None

    def startTest(self, test):
        super().startTest(test)
        if Counted.collect is not None:
            # it looks at what the test makes alone
            gc.collect()
            gc.freeze()
            Counted.collect(True)

    def stopTest(self, test):
        if Counted.collect is not None:
            Counted.collect(False)
        super().stopTest(test)

    def addSuccess(self, test):
        super().addSuccess(test)
        self.passed += 1


def main():
    start = time.monotonic()
    library = reference()
    print("python: Python %s, %s" % (
        sys.version.split()[0], "%s %s" % (library.__name__, library.__version__) if library else "no packaging library",
    ))
    sys.stdout.flush()
    loader = unittest.TestLoader()
    names = sys.argv[1:]
    tests = loader.loadTestsFromNames(names) if names else loader.discover(HERE, top_level_dir=HERE)
    if os.environ.get("NATIVE_COLLECTS"):
        Counted.collect = importlib.import_module("_meanwhile").collect_always
    result = unittest.TextTestRunner(stream=sys.stdout, verbosity=2, resultclass=Counted).run(tests)
    # each row of a test that fails is in these lists: a test counts once
    whole = {getattr(test, "test_case", test) for test, _ in result.failures + result.errors}
    failed = len(whole)
    skipped = len(result.skipped)
    reasons = {}
    for test, reason in result.skipped:
        reasons.setdefault(reason, []).append(test.id())
    for reason, names in reasons.items():
        print("python: skipped: %s: %s" % (", ".join(names), reason))
    print("python: %.0f seconds" % (time.monotonic() - start))
    print("python: %d passed, %d failed%s" % (result.passed, failed, ", %d skipped" % skipped if skipped else ""))
    return 1 if failed else 0


if __name__ == "__main__":
    sys.path.insert(0, HERE)
    sys.exit(main())
