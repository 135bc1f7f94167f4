"""Frozen dataclasses without `dataclasses`, which takes longer to import than the modules that have them.

A class has the fields, `repr`, equality and hash that the decorator of that module gives it with these arguments, and what
`dataclasses` itself asks a class for is made when it asks. Type checkers read the decorator of `dataclasses`.
"""

from __future__ import annotations

import sys
from typing import Any, Callable, Dict, List, Tuple

from . import _native

__all__ = ["dataclass", "fields_of"]


def _annotations(kind: Any) -> Dict[str, str]:
    """The fields of a class and of those that it is made from, with their types."""
    found: Dict[str, str] = {}
    for each in reversed(kind.__mro__[:-1]):
        # before Python 3.10 a class without any has those of its base
        if sys.version_info >= (3, 10) or "__annotations__" in vars(each):
            found.update(each.__annotations__)
    return found


def fields_of(kind: Any) -> Tuple[str, ...]:
    """The names of the fields, in their order."""
    return tuple(_annotations(kind))


class _Asked:
    """What `dataclasses` asks a class for: it makes that of a class with the same fields."""

    def __init__(self, kind: Any, name: str) -> None:
        self._kind, self._name = kind, name

    def __get__(self, instance: object, owner: object = None) -> Any:
        from dataclasses import dataclass as decorator

        kind = self._kind
        annotations = _annotations(kind)
        body = {name: getattr(kind, name) for name in annotations if hasattr(kind, name)}
        body.update(__annotations__=annotations, __module__=kind.__module__)
        twin: Any = decorator(frozen=True, init=False)(type(kind.__name__, (), body))
        for name in ("__dataclass_fields__", "__dataclass_params__"):
            setattr(kind, name, getattr(twin, name))
        return getattr(kind, self._name)


def _frozen(action: str, name: str) -> Exception:
    from dataclasses import FrozenInstanceError

    return FrozenInstanceError("cannot %s field %r" % (action, name))


def _compiled(kind: Any, name: str, source: str) -> Callable[..., Any]:
    """A method of the class that is compiled when it is first called, as few are."""

    def method(self: Any, *arguments: Any) -> Any:
        scope: Dict[str, Any] = {}
        exec(source, scope)
        _put(kind, scope[name])
        return scope[name](self, *arguments)

    method.__name__ = name
    return method


def _put(kind: Any, method: Any) -> None:
    """Gives the class a method."""
    method.__qualname__ = "%s.%s" % (kind.__qualname__, method.__name__)
    method.__module__ = kind.__module__
    setattr(kind, method.__name__, method)


def _methods(kind: Any, fields: Tuple[str, ...]) -> List[Any]:
    """The special methods of a class with these fields that Python has."""
    values = "".join("self.%s, " % name for name in fields)
    form = ", ".join("%s={self.%s!r}" % (name, name) for name in fields)
    equal = " and ".join("self.%s == other.%s" % (name, name) for name in fields)
    sources = {
        "__repr__": "def __repr__(self):\n return f'{self.__class__.__qualname__}(%s)'" % form,
        "__eq__": "def __eq__(self, other):\n if self.__class__ is other.__class__:\n  return %s\n return NotImplemented" % equal,
        "__hash__": "def __hash__(self):\n return hash((%s))" % values,
    }

    def __setattr__(self: Any, name: str, value: Any) -> None:
        if type(self) is kind or name in fields:
            raise _frozen("assign to", name)
        super(kind, self).__setattr__(name, value)

    def __delattr__(self: Any, name: str) -> None:
        if type(self) is kind or name in fields:
            raise _frozen("delete", name)
        super(kind, self).__delattr__(name)

    def __replace__(self: Any, **changes: Any) -> Any:
        return self.__class__(**{**{name: getattr(self, name) for name in fields}, **changes})

    methods = [_compiled(kind, name, source) for name, source in sources.items()] + [__setattr__, __delattr__]
    return [*methods, __replace__] if sys.version_info >= (3, 13) else methods


def _put_compiled(kind: Any, fields: Tuple[str, ...]) -> None:
    """Gives the class the methods that the compiled part has: it does what `__init__` does, and copies."""
    functions: Dict[str, Any] = {"__copy__": None, "__deepcopy__": None}
    if "__init__" in vars(kind):
        functions["__init__"] = kind.__init__
    for name, function in functions.items():
        defaults = getattr(function, "__kwdefaults__", None) or {}
        setattr(kind, name, _native.field_method(name, kind, fields, function, defaults))


def _make_room(kind: Any, fields: Tuple[str, ...]) -> None:
    """Has the objects of the class keep their fields within themselves: Python learns the names of the first objects, which may
    be some that have hardly a field."""
    first = kind.__new__(kind)
    for name in fields:
        object.__setattr__(first, name, None)


def dataclass(*, frozen: bool, init: bool) -> Callable[[Any], Any]:
    """The decorator, which is to be asked for a class that is frozen and has an `__init__` of its own."""
    assert frozen and not init

    def decorated(kind: Any) -> Any:
        fields = fields_of(kind)
        for method in _methods(kind, fields):
            _put(kind, method)
        _put_compiled(kind, fields)
        _make_room(kind, fields)
        for name in ("__dataclass_fields__", "__dataclass_params__"):
            setattr(kind, name, _Asked(kind, name))
        if sys.version_info >= (3, 10):
            setattr(kind, "__match_args__", fields)
        return kind

    return decorated
