"""JSON texts of Python objects."""

from __future__ import annotations

import decimal
import json
from typing import Any, Callable, Iterator, Optional

Default = Optional[Callable[[Any], Any]]


class Exact:
    """A value that has a text of its own."""

    __slots__ = ()

    def print(self) -> str:
        """Returns the text."""
        raise NotImplementedError


class _HasExact(Exception):
    """Some object is written by its own text, of which `json` knows nothing."""


def encode(value: Any, default: Default = None) -> str:
    """Returns the compact JSON text of a value.

    A `Decimal` is written by its digits, and a `View` by its text. Of any other object that has no
    JSON text, `default` returns one that has.
    """

    def other(it: Any) -> Any:
        if isinstance(it, (decimal.Decimal, Exact)):
            raise _HasExact
        return _replaced(it, default)

    try:
        return _plain(value, other)
    except _HasExact:
        return "".join(_parts(value, default))


def _plain(value: Any, other: Default = None) -> str:
    """Returns the text of what `json` can write."""
    return json.dumps(
        value, ensure_ascii=False, allow_nan=False, separators=(",", ":"), default=other
    )


def _replaced(value: Any, default: Default) -> Any:
    if default is None:
        raise TypeError(f"a value of the type {type(value).__name__} has no JSON text")
    return default(value)


def _name(key: Any) -> str:
    """Returns the text of a key, with the colon after it: keys are converted as `json` does."""
    return _plain({key: 0})[1:-2]


def _parts(value: Any, default: Default) -> Iterator[str]:
    """Yields the parts of the text of a value."""
    if isinstance(value, Exact):
        yield value.print()
    elif isinstance(value, decimal.Decimal):
        if not value.is_finite():
            raise ValueError(f"{value} has no JSON text")
        yield str(value)
    elif isinstance(value, dict):
        before = "{"
        for key, below in value.items():
            yield before + _name(key)
            yield from _parts(below, default)
            before = ","
        yield "}" if value else "{}"
    elif isinstance(value, (list, tuple)):
        before = "["
        for below in value:
            yield before
            yield from _parts(below, default)
            before = ","
        yield "]" if value else "[]"
    elif value is None or isinstance(value, (str, int, float)):
        yield _plain(value)
    else:
        yield from _parts(_replaced(value, default), default)
