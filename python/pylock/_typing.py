"""What annotations are made of, without `typing`, which takes longer to import than all of a module that reads it here.

Annotations are texts, which `typing.get_type_hints` alone reads. It finds here what Python itself has since 3.10; an older one
has `typing` for it. Type checkers read `_typing.pyi`.
"""

import sys

if sys.version_info < (3, 10):
    from typing import Any, Dict, Iterable, List, NoReturn, Optional, Sequence, Tuple, Type, Union
else:
    # what `collections.abc` has, without the rest of `collections`
    from _collections_abc import Iterable, Sequence

    Any = NoReturn = object
    Dict, List, Tuple, Type = dict, list, tuple, type

    class Optional:
        """`Optional[int]`: an int or None."""

        def __class_getitem__(cls, kind):
            return kind | None

    class Union:
        """`Union[int, str]`: one of both."""

        def __class_getitem__(cls, kinds):
            first, *others = kinds
            for other in others:
                first = first | other
            return first


TYPE_CHECKING = False

__all__ = ["TYPE_CHECKING", "Any", "Dict", "Iterable", "List", "NoReturn", "Optional", "Sequence", "Tuple", "Type", "Union"]
