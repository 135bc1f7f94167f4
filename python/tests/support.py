"""What the tests share: the library `packaging` where there is one, and the files of this repository."""

import contextlib
import importlib
import io
import os
import sys
import tempfile

HERE = os.path.dirname(os.path.abspath(__file__))
PYTHON = os.path.dirname(HERE)
TOP = os.path.dirname(PYTHON)
# the folder in which the module lies with its compiled part, as tools/check/module makes it
MODULE = os.environ.get("PYLOCK_MODULE", PYTHON)
if MODULE not in sys.path and not os.environ.get("PYLOCK_INSTALLED"):
    sys.path.insert(0, MODULE)


def reference():
    """The library `packaging`: that of the folder that PYLOCK_PEER names, which holds the package, or the installed
    one, or the copy of it in pip; None where there is none."""
    peer = os.environ.get("PYLOCK_PEER")
    if peer:
        if not os.path.isdir(os.path.join(peer, "packaging")):
            raise SystemExit("PYLOCK_PEER: there is no package `packaging` in %s" % peer)
        if peer not in sys.path:
            sys.path.insert(0, peer)
    for name in ("packaging", "pip._vendor.packaging"):
        try:
            found = importlib.import_module(name)
            for part in ("version", "specifiers", "markers", "requirements", "utils", "tags"):
                importlib.import_module("%s.%s" % (name, part))
            return found
        except ImportError:
            continue
    return None


def release(library):
    """The release of the library, as a tuple."""
    return tuple(int(piece) for piece in library.__version__.split(".")[:2])


def toml():
    """A reader of TOML, or None: that of the standard library, or the copy in pip."""
    for name in ("tomllib", "pip._vendor.tomli"):
        try:
            return importlib.import_module(name)
        except ImportError:
            continue
    return None


def program():
    """The built program, or None: that which the variable PYLOCK names, or the repository's own."""
    path = os.environ.get("PYLOCK") or os.path.join(TOP, "crates", "pylock", "out", "pylock")
    return path if os.access(path, os.X_OK) else None


def text_of(*names):
    """The text of a file of the repository."""
    with open(os.path.join(TOP, *names), encoding="utf-8") as file:
        return file.read()


def bytes_of(*names):
    """The bytes of a file of the repository."""
    with open(os.path.join(TOP, *names), "rb") as file:
        return file.read()


@contextlib.contextmanager
def refused(test, error, word=None, place=None):
    """The block has to be refused by this error, with this word and place."""
    with test.assertRaises(error) as caught:
        yield caught
    if word is not None:
        test.assertEqual(caught.exception.word, word)
    if place is not None:
        test.assertEqual(caught.exception.place, place)


@contextlib.contextmanager
def in_folder(folder, given):
    """The block runs in the folder, with these bytes as the standard input of the process."""
    before, kept = os.getcwd(), os.dup(0)
    with tempfile.TemporaryFile() as file:
        file.write(given)
        file.seek(0)
        os.dup2(file.fileno(), 0)
    os.chdir(folder)
    try:
        yield
    finally:
        os.chdir(before)
        os.dup2(kept, 0)
        os.close(kept)


def call_main(words, folder, given=b""):
    """What `python -m pylock` does, called in this process: its status, standard output and standard error."""
    main = importlib.import_module("pylock.__main__").main
    out, error = [io.TextIOWrapper(io.BytesIO(), "utf-8", newline="\n") for _ in range(2)]
    with in_folder(folder, given), contextlib.redirect_stdout(out), contextlib.redirect_stderr(error):
        status = main([os.fsdecode(word) for word in words])
    return status, out.buffer.getvalue(), error.buffer.getvalue()
