"""Modules of `packaging` 26 and later to compare with.

The folder that PYLOCK_PEER names has the package, which is loaded under another name so that no other test takes it for
an installed one; without the variable an installed one is taken, else pip's copy.
"""

import importlib
import importlib.util
import os
import random
import sys
import unittest

NAMED = "pylock_peer"


def load():
    """Loads the package of the folder that the variable names."""
    folder = os.path.join(os.environ["PYLOCK_PEER"], "packaging")
    spec = importlib.util.spec_from_file_location(
        NAMED, os.path.join(folder, "__init__.py"), submodule_search_locations=[folder]
    )
    library = sys.modules[NAMED] = importlib.util.module_from_spec(spec)
    spec.loader.exec_module(library)


if os.environ.get("PYLOCK_PEER") and NAMED not in sys.modules:
    load()


def peer(module):
    """The module of `packaging` with this name, or None where there is none of release 26 or later."""
    for name in (NAMED, "packaging", "pip._vendor.packaging"):
        try:
            library = importlib.import_module(name)
            if int(library.__version__.split(".")[0]) >= 26:
                return importlib.import_module("%s.%s" % (name, module))
        except ImportError:
            continue
    return None


def needs(module):
    """Skips a test where there is no such module to compare with."""
    return unittest.skipIf(module is None, "no packaging of 26 or later; PYLOCK_PEER names the folder it is in")


def seeded(name):
    """A source of random choices that is the same in each run."""
    return random.Random("pylock " + name)
