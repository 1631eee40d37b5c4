"""Writing Python objects as JSON texts."""

from __future__ import annotations

from typing import IO, Any

from mezdruk._calls import Indent, edit
from mezdruk._encode import Default, encode


def dumps(
    value: Any,
    *,
    indent: Indent = None,
    sort_keys: bool = False,
    default: Default = None,
    depth: int = 254,
    unique_keys: bool = False,
) -> str:
    """Returns the JSON text of a value of Python objects, with no whitespace if no indent is given.

    A `Decimal` is written by its digits, and a `View` by its text. `default` gets any other object
    that has no JSON text, and returns one that has. NaN and the infinities have none: they are a
    ValueError. A value of more than `depth` levels, or with a string that is no Unicode text, is a
    TextError, and with `unique_keys` so are two keys with one name.
    """
    text = encode(value, default)
    return edit(
        text, "[]", indent=indent, sort_keys=sort_keys, depth=depth, unique_keys=unique_keys
    )


def dump(value: Any, file: IO[str], **choices: Any) -> None:
    """Writes the JSON text of a value to a text file; the choices are those of `dumps`."""
    file.write(dumps(value, **choices))
