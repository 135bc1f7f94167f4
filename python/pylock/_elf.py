"""What the tags of Linux need of an ELF file: the machine that it runs on, and the loader that it asks for.

    >>> import tempfile
    >>> with tempfile.NamedTemporaryFile() as file:
    ...     read_program(file.name) is None
    True
"""

from __future__ import annotations

import os
import struct
from typing import IO, NamedTuple, Optional, Tuple

__all__ = ["ARM", "I386", "Program", "read_file", "read_program"]

# the numbers of machines (e_machine)
I386 = 3
ARM = 40

# a program header that names the loader (p_type)
_LOADER = 3

# By the class of the file (EI_CLASS): how many bits it has, and the fields behind its first 16 bytes, which are e_type,
# e_machine, e_version, e_entry, e_phoff, e_shoff, e_flags, e_ehsize, e_phentsize, e_phnum.
_CLASSES = {1: (32, "HHIIIIIHHH"), 2: (64, "HHIQQQIHHH")}

# of a program header by the bits of the file: its fields, and which of them are p_offset and p_filesz
_PROGRAM_HEADERS = {32: ("IIIII", 1, 4), 64: ("IIQQQQ", 2, 5)}

# the byte order by EI_DATA
_ORDERS = {1: "<", 2: ">"}


class Program(NamedTuple):
    """What a file says of itself. `loader` is the path of the loader (PT_INTERP), None where it names none."""

    bits: int
    little: bool
    machine: int
    flags: int
    loader: Optional[str]


def _fields(file: IO[bytes], form: str) -> Tuple[int, ...]:
    return struct.unpack(form, file.read(struct.calcsize(form)))


def _loader(file: IO[bytes], order: str, bits: int, start: int, size: int, count: int) -> Optional[str]:
    """The loader that the first program header of its kind names."""
    form, offset_at, length_at = _PROGRAM_HEADERS[bits]
    for number in range(count):
        file.seek(start + size * number)
        try:
            fields = _fields(file, order + form)
        except struct.error:
            continue
        if fields[0] == _LOADER:
            file.seek(fields[offset_at])
            return os.fsdecode(file.read(fields[length_at])).strip("\0") or None
    return None


def read_file(file: IO[bytes]) -> Optional[Program]:
    """What an open file says; None where it is no ELF file. One that is cut off is a `struct.error`."""
    start = file.read(16)
    if len(start) < 16 or start[:4] != b"\x7fELF" or start[4] not in _CLASSES or start[5] not in _ORDERS:
        return None
    bits, form = _CLASSES[start[4]]
    order = _ORDERS[start[5]]
    _, machine, _, _, headers, _, flags, _, header_size, header_count = _fields(file, order + form)
    loader = _loader(file, order, bits, headers, header_size, header_count)
    return Program(bits, order == "<", machine, flags, loader)


def read_program(path: Optional[str]) -> Optional[Program]:
    """What the file says; None where it can't be read, or is no ELF file."""
    # a Python that doesn't know its own path has None for it
    if path is None:
        return None
    try:
        with open(path, "rb") as file:
            return read_file(file)
    # a place past what the system knows is an OSError or an OverflowError
    except (OSError, ValueError, OverflowError, struct.error):
        return None
