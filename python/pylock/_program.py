"""The program, asked about a lock in memory: its answer is a document (docs/FORMATS.md, “JSON”)."""

from __future__ import annotations

import json
from typing import Any, Dict, List, Mapping, Optional, Sequence

from . import _library as _native
from ._errors import InvalidAdvisories, InvalidEdit, InvalidInstalled, InvalidProject

Document = Dict[str, Any]


def answered(lock: bytes, words: Sequence[str], files: Mapping[str, bytes]) -> Document:
    """The document that these words ask for. The files have names, and the lock is `-`, the standard input.

    It may be a refusal, which is `program` where no document is printed, as for half a character in a word.
    """
    asked = [b"pylock", *[word.encode("utf-8", "surrogatepass") for word in words], b"--json"]
    given = [part for name, content in files.items() for part in (name.encode(), content)]
    status, printed, said = _native.run_program(tuple(asked), tuple(given), lock)
    if printed:
        document: Document = json.loads(printed.decode())
        return document
    told = said.decode("utf-8", "replace").rstrip()
    if status > 2:
        # memory ran out, or one of the files is longer than a file may be
        raise (MemoryError if told.endswith("memory") else OSError)(told)
    return {"refused": ["program"], "message": told.partition("\n")[0]}


def _number(words: List[str], place: int) -> Optional[int]:
    return int(words[place]) if place < len(words) else None


def refusal(document: Document) -> Exception:
    """The exception for a document that is a refusal: of a file, or else of an option."""
    kind, *words = document["refused"]
    message = document.get("message", kind)
    if words[-1:] == ["memory"]:
        return MemoryError(message)
    if kind == "project":
        return InvalidProject(message, word=words[0], place=words[1] if len(words) > 1 else None, words=tuple(words))
    if kind == "installed":
        return InvalidInstalled(message, word=words[0], place=_number(words, 1), words=tuple(words))
    if kind == "advisories":
        return InvalidAdvisories(message, word=words[2], place=_number(words, 1), words=tuple(words))
    # `refused` is of an option that has no place of its own
    return InvalidEdit("Refused option: " + message, word=words[0] if kind == "refused" else kind)


def is_of_a_file(document: Document) -> bool:
    """Whether it is a refusal of a file beside the lock and the environment, which no session reads."""
    return document["refused"][0] in ("project", "installed", "advisories")
