"""What modules read of `typing` that don't import it when they run."""

from typing import (
    TYPE_CHECKING as TYPE_CHECKING,
    Any as Any,
    Dict as Dict,
    Iterable as Iterable,
    List as List,
    NoReturn as NoReturn,
    Optional as Optional,
    Sequence as Sequence,
    Tuple as Tuple,
    Type as Type,
    Union as Union,
)
