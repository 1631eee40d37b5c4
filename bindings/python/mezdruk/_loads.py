"""Reading a text into Python objects."""

from __future__ import annotations

import functools
from typing import IO, Any, Callable, Dict, Optional

from mezdruk._calls import Source, checked_depth, encoded
from mezdruk._errors import fail_with
from mezdruk._reader import read


def loads(
    text: Source,
    *,
    parse_int: Callable[[str], Any] = int,
    parse_float: Callable[[str], Any] = float,
    object_hook: Optional[Callable[[Dict[str, Any]], Any]] = None,
    depth: int = 254,
    unique_keys: bool = False,
) -> Any:
    """Returns the value of a JSON text as Python objects.

    `parse_int` and `parse_float` get the literal of a number as it is in the text: `parse_float` if
    it has a fraction or an exponent, as with `json.loads`. Of members of one name the last counts.
    `object_hook` gets each dict once it is read, innermost first, and what it returns takes the
    place of the dict.
    """
    source = encoded(text)
    return read(
        source,
        checked_depth(depth),
        bool(unique_keys),
        None if parse_int is int else parse_int,
        None if parse_float is float else parse_float,
        object_hook,
        functools.partial(fail_with, source),
    )


def load(file: IO[Any], **choices: Any) -> Any:
    """Returns the value of the JSON text of a file; the choices are those of `loads`."""
    return loads(file.read(), **choices)
