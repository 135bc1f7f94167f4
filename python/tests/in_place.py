"""pylock in the place of `packaging`: a package of that name whose modules are those of pylock."""

import os

# the modules of `packaging` 26.2 with the private ones, in an order in which one finds what is in it
MODULES = (
    "errors", "version", "specifiers", "utils", "tags", "markers", "requirements", "metadata", "licenses", "licenses._spdx",
    "direct_url", "dependency_groups", "pylock", "_structures", "_parser", "_tokenizer", "_elffile", "_manylinux", "_musllinux",
)

PACKAGE = '''\
import importlib, sys
__title__ = "packaging"
__summary__ = __uri__ = __author__ = __email__ = __license__ = __copyright__ = ""
__version__ = %r
for name in %r:
    module = sys.modules[__name__ + "." + name] = importlib.import_module("pylock." + name)
    if "." not in name:
        globals()[name] = module
'''


def write_package(folder, release="26.2", modules=MODULES):
    """Puts the package `packaging` into the folder, where pylock is on the path too."""
    place = os.path.join(folder, "packaging")
    os.makedirs(place)
    with open(os.path.join(place, "__init__.py"), "w", encoding="utf-8") as file:
        file.write(PACKAGE % (release, tuple(modules)))
