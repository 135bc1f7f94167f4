"""Files of ELF, with the names of `packaging._elffile` (docs/PRIVATE.md)."""

from __future__ import annotations

import enum
import struct
from typing import IO, Optional

from . import _elf

__all__ = ["EIClass", "EIData", "ELFFile", "ELFInvalid", "EMachine"]


class ELFInvalid(ValueError):
    """A file is none of ELF."""


class EIClass(enum.IntEnum):
    """The size of addresses."""

    C32 = 1
    C64 = 2


class EIData(enum.IntEnum):
    """The order of bytes."""

    Lsb = 1
    Msb = 2


class EMachine(enum.IntEnum):
    """Machines that tags tell apart."""

    I386 = 3
    S390 = 22
    Arm = 40
    X8664 = 62
    AArc64 = 183


class ELFFile:
    """What a file says of its machine; ELFInvalid where it is none of ELF."""

    def __init__(self, f: IO[bytes]) -> None:
        try:
            program = _elf.read_file(f)
        except struct.error as error:
            raise ELFInvalid("the header of the file is cut off") from error
        if program is None:
            raise ELFInvalid("this is no file of ELF, or one of no known form")
        self.capacity = EIClass.C32 if program.bits == 32 else EIClass.C64
        self.encoding = EIData.Lsb if program.little else EIData.Msb
        self.machine = program.machine
        self.flags = program.flags
        self._loader = program.loader

    @property
    def interpreter(self) -> Optional[str]:
        """The path of the loader, or None."""
        return self._loader
