"""`python -m pylock`: the program, over the library.

What it reads, prints and answers is the program's (docs/FORMATS.md). Beside that it knows the Python that runs it, whose environment
counts where ENV is left out, and which `python -m pylock environment` prints.
"""

from __future__ import annotations

import os
import re
import sys

from . import _library as _native
from ._environment import environment, environment_bytes
from ._errors import InvalidEdit, shown
from ._typing import Any, Dict, List, Optional, Sequence, Tuple

# the most bytes of a file, and how many are read at once
_MOST = 268_435_456
_PIECE = 65_536
# what the program says where it lacks something: it is given that, and run again
_NO_ENV = b"error: ENV is missing, or --python and --platform in its place\n"
_NO_INPUT = b"pylock: -: the file is empty\n"
_NO_FILE = b"pylock: file: %s: %s\n"
# the path of standard input, and that of the environment of this Python, which no word of a command line can be
_INPUT = b"-"
_HERE = b"this Python\0"
_FORM = b"pylock: note: --format "
_WAITS = b"pylock: edit lines are read from standard input; Ctrl-D ends them\n"
_HELP = b"Print the environment of a Python and a platform\n"
_MORE_HELP = b"\nWithout options, `python -m pylock environment` prints that of the Python itself.\n"


# ---- what is written ----


class _Unwritten(Exception):
    """Standard output took not all."""


def _seen(text: bytes) -> bytes:
    """The text as a terminal is given it: no character of it steers that."""
    letters = text.decode("utf-8", "surrogateescape")
    return re.sub(r"[^\t\n]+", lambda found: shown(found[0]), letters).encode("utf-8", "surrogateescape")


def _write(stream: Any, text: bytes) -> bool:
    """Writes all of the text at once; whether that was done."""
    if stream is None or not text:
        return not text
    left = memoryview(_seen(text) if stream.isatty() else text)
    try:
        while left:
            # without a buffer, as after `python -u`, it may be less than all, or None where it would wait
            written = stream.buffer.write(left)
            if not written:
                raise BlockingIOError
            left = left[written:]
        stream.buffer.flush()
    except OSError:
        # what is left would be tried, and told of, once more where the interpreter ends
        os.dup2(os.open(os.devnull, os.O_WRONLY), stream.fileno())
        return False
    return True


def _print(text: bytes) -> None:
    if not _write(sys.stdout, text):
        raise _Unwritten


def _tell(text: bytes) -> None:
    _write(sys.stderr, text)


# ---- what is read ----


def _whole(file: int) -> bytes:
    """The bytes to the end, or more of them than a file may have."""
    pieces, length = [b""], 0
    while length <= _MOST:
        try:
            pieces.append(os.read(file, _PIECE))
        except OSError as error:
            # why a read fails isn't told
            raise OSError("can't be read") from error
        if not pieces[-1]:
            break
        length += len(pieces[-1])
    return b"".join(pieces)


def _content(path: bytes) -> bytes:
    if path == _HERE:
        return environment_bytes(environment())
    if path == _INPUT:
        return _whole(0)
    with open(path, "rb", buffering=0) as file:
        return _whole(file.fileno())


def _why(error: OSError) -> bytes:
    """Why a file can't be read, in the program's words."""
    if isinstance(error, FileNotFoundError):
        return b"no such file"
    if isinstance(error, IsADirectoryError):
        return b"a directory"
    return b"permission" if isinstance(error, PermissionError) else b"can't be read"


# ---- the program ----


def _told(path: bytes, why: bytes) -> bytes:
    return _NO_FILE % (shown(path.decode("utf-8", "replace")).encode(), why)


class _Program:
    """The program on its words, in memory. What it says that it lacks is read, and it is run again."""

    def __init__(self, words: List[bytes]) -> None:
        self.words = words
        self.files: Dict[bytes, bytes] = {}

    def lacked(self, said: bytes) -> Optional[bytes]:
        """The path of what it says that it lacks."""
        if said.startswith(_NO_ENV):
            self.words.append(_HERE)
            return _HERE
        if said == _NO_INPUT:
            return _INPUT
        for word in self.words:
            path = word.partition(b"=")[2] if word.startswith(b"--") else word
            if said == _told(path, b"no such file"):
                return path
        return None

    def run(self) -> Tuple[int, bytes, bytes]:
        """Its status without edit lines, and what stands on standard output and standard error."""
        while True:
            files = [part for file in self.files.items() if file[0] != _INPUT for part in file]
            ended = _native.run_program(tuple(self.words), tuple(files), self.files.get(_INPUT, b""))
            path = self.lacked(ended[2])
            if path is None or path in self.files:
                return ended
            try:
                self.files[path] = _content(path)
            except OSError as error:
                return 3, b"", _told(path, _why(error))


def _select(program: _Program, asked: _native.Asked) -> int:
    """Prints the first answer, and each further one as soon as its line was read."""
    lock, path, python, platform, _, form = asked
    if path is None:
        machine = _native.environment_target(python or "", platform or "")
    else:
        machine = program.files[path.encode()]
    run, printed = _native.run_start(program.files[lock.encode()], machine, form == "json")
    while True:
        _print(printed)
        try:
            piece = os.read(0, _PIECE)
        except OSError:
            return _end(b"read")
        if not piece:
            break
        printed = _native.run_feed(run, form == "json", piece)
    printed, status = _native.run_end(run, form == "json")
    _print(printed)
    return status


def _end(why: bytes) -> int:
    _tell(b"pylock: %s\n" % why)
    return 3


def _perform(words: List[bytes]) -> int:
    if words[1:] == [b"environment"]:
        from json import dumps

        _print(dumps(environment(), separators=(",", ":"), sort_keys=True).encode() + b"\n")
        return 0
    program = _Program(words)
    status, printed, said = program.run()
    asked = _native.select_asked(tuple(program.words))
    if asked is not None and os.isatty(0):
        _tell(_WAITS)
    if asked is not None and status < 2:
        return _select(program, asked)
    note, end, rest = said.partition(b"\n")
    if note.startswith(_FORM):
        # what a form leaves out is told before it
        _tell(note + end)
        said = rest
    _print(printed + _MORE_HELP if printed.startswith(_HELP) else printed)
    _tell(said)
    return status


def main(arguments: Optional[Sequence[str]] = None) -> int:
    try:
        return _perform([b"pylock", *map(os.fsencode, sys.argv[1:] if arguments is None else arguments)])
    except _Unwritten:
        return _end(b"write")
    except InvalidEdit:
        return _end(b"input")
    except MemoryError:
        return _end(b"memory")


def command() -> int:
    """The command `pylock`."""
    import signal

    # Ctrl-C ends it as it ends the program, also within a call of the library
    if signal.getsignal(signal.SIGINT) is signal.default_int_handler:
        signal.signal(signal.SIGINT, signal.SIG_DFL)
    return main()


if __name__ == "__main__":
    sys.exit(command())
