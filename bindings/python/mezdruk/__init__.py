"""JSON (RFC 8259) checked, edited, patched and read by proved code.

>>> import mezdruk
>>> mezdruk.edit('{"a": 1, "b": 1.50}', [["set", ["a"], 2]])
'{"a":2,"b":1.50}'
>>> mezdruk.loads('[1, 2.50]', parse_float=str)
[1, '2.50']
>>> mezdruk.check('[1, x]')
Traceback (most recent call last):
mezdruk.TextError: InvalidJsonValue at offset 4, line 1 column 5
"""

from __future__ import annotations

from mezdruk._calls import (
    check, diff, edit, get, is_valid, lines, merge_diff, merge_patch, patch,
)
from mezdruk._document import Document, View
from mezdruk._dumps import dump, dumps
from mezdruk._errors import ApplyError, ArgumentError, Error, TextError
from mezdruk._loads import load, loads

__version__ = "0.1.0"

__all__ = [
    "ApplyError",
    "ArgumentError",
    "Document",
    "Error",
    "TextError",
    "View",
    "check",
    "diff",
    "dump",
    "dumps",
    "edit",
    "get",
    "is_valid",
    "lines",
    "load",
    "loads",
    "merge_diff",
    "merge_patch",
    "patch",
]
