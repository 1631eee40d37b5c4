"""Calls over texts."""

from __future__ import annotations

from typing import Any, Sequence, Tuple, TypeVar, Union

from mezdruk._encode import encode
from mezdruk._errors import Error, fail
from mezdruk._native import ffi, lib

Text = TypeVar("Text", str, bytes)
Source = Union[str, bytes, bytearray, memoryview]
Indent = Union[None, int, str]


def encoded(text: Source) -> bytes:
    """Returns the bytes of a text. Those of a `bytearray`, which may change, are copied."""
    if isinstance(text, str):
        return text.encode("utf-8", "surrogatepass")
    if type(text) is bytes:
        return text
    try:
        return bytes(memoryview(text))
    except TypeError:
        raise TypeError(f"a text is str or bytes, and not {type(text).__name__}") from None


def checked_depth(depth: int) -> int:
    """Returns the depth, if texts of so many levels can be read."""
    if not 0 <= depth <= 1024:
        raise ValueError("depth must be from 0 to 1024")
    return depth


def options(
    depth: int = 254,
    unique_keys: bool = False,
    sort_keys: bool = False,
    indent: Indent = None,
) -> Any:
    """Returns the options of a call."""
    if indent is None:
        number = 0
    elif indent == "\t":
        number = 10
    elif isinstance(indent, int) and 0 <= indent <= 8:
        number = indent + 1
    elif isinstance(indent, str) and len(indent) <= 8 and not indent.strip(" "):
        number = len(indent) + 1
    else:
        raise ValueError("indent must be None, 0 to 8 spaces, or a tab")
    asked = (checked_depth(depth), unique_keys, sort_keys, number)
    return ffi.new("mezdruk_options *", asked)


def _json(argument: Any) -> bytes:
    if isinstance(argument, (str, bytes)):
        return encoded(argument)
    return encode(argument).encode("utf-8", "surrogatepass")


def _changed(call: Any, text: Text, argument: bytes, asked: Any) -> Text:
    source = encoded(text)
    output = ffi.new("mezdruk_buffer *")
    fault = ffi.new("mezdruk_fault *")
    status = call(
        ffi.from_buffer(source), len(source), ffi.from_buffer(argument), len(argument),
        asked, output, fault,
    )
    if status:
        fail(status, fault, source, argument)
    return _taken(output, text)


def _taken(output: Any, text: Text) -> Text:
    """Returns the bytes of a buffer, as the text is, and frees it."""
    try:
        result = bytes(ffi.buffer(output.bytes, output.length)) if output.length else b""
    finally:
        lib.mezdruk_free(output)
    return result.decode() if isinstance(text, str) else result


def check(text: Source, *, depth: int = 254, unique_keys: bool = False) -> None:
    """Raises TextError unless the text is JSON of at most `depth` levels.

    With `unique_keys` the names of each object have to differ.
    """
    source = encoded(text)
    fault = ffi.new("mezdruk_fault *")
    asked = options(depth, unique_keys)
    status = lib.mezdruk_check(ffi.from_buffer(source), len(source), asked, fault)
    if status:
        fail(status, fault, source)


def is_valid(text: Source, *, depth: int = 254, unique_keys: bool = False) -> bool:
    """Returns whether the text is JSON of at most `depth` levels."""
    try:
        check(text, depth=depth, unique_keys=unique_keys)
    except Error:
        return False
    return True


def edit(
    text: Text,
    edits: Union[str, bytes, Sequence[Any]],
    *,
    indent: Indent = None,
    sort_keys: bool = False,
    depth: int = 254,
    unique_keys: bool = False,
) -> Text:
    """Returns the text with the edits applied in turn.

    An edit is `["set", path, value]`, `["insert", path, key, value]`, `["push", path, value]` or
    `["remove", path, step]`; a path is a list of names and indexes. The edits may also be a JSON
    text, in which the values keep their number literals. The result has the type of the text.
    """
    asked = options(depth, unique_keys, sort_keys, indent)
    return _changed(lib.mezdruk_edit, text, _json(edits), asked)


def patch(
    text: Text,
    operations: Union[str, bytes, Sequence[Any]],
    *,
    indent: Indent = None,
    sort_keys: bool = False,
    depth: int = 254,
    unique_keys: bool = False,
) -> Text:
    """Returns the text with a JSON Patch (RFC 6902) applied."""
    asked = options(depth, unique_keys, sort_keys, indent)
    return _changed(lib.mezdruk_patch, text, _json(operations), asked)


def merge_patch(
    text: Text,
    patch: Any,
    *,
    indent: Indent = None,
    sort_keys: bool = False,
    depth: int = 254,
    unique_keys: bool = False,
) -> Text:
    """Returns the text with a JSON Merge Patch (RFC 7396) applied.

    A patch that is a `str` or `bytes` is taken as a JSON text.
    """
    asked = options(depth, unique_keys, sort_keys, indent)
    return _changed(lib.mezdruk_merge, text, _json(patch), asked)


def diff(
    text: Text,
    target: Any,
    *,
    indent: Indent = None,
    sort_keys: bool = False,
    depth: int = 254,
    unique_keys: bool = False,
) -> Text:
    """Returns a JSON Patch (RFC 6902) that leads from the text to the target.

    `patch` makes of the text what is the same as the target, and the patch is `[]` exactly if the
    two are the same. A target that is a `str` or `bytes` is taken as a JSON text.
    """
    asked = options(depth, unique_keys, sort_keys, indent)
    return _changed(lib.mezdruk_diff, text, _json(target), asked)


def merge_diff(
    text: Text,
    target: Any,
    *,
    indent: Indent = None,
    sort_keys: bool = False,
    depth: int = 254,
    unique_keys: bool = False,
) -> Text:
    """Returns a JSON Merge Patch (RFC 7396) that leads from the text to the target.

    There is none, and ApplyError is raised, if a member of the target that the text has not is
    null, or if a name repeats in one of two objects that differ.
    """
    asked = options(depth, unique_keys, sort_keys, indent)
    return _changed(lib.mezdruk_merge_diff, text, _json(target), asked)


def lines(
    text: Text,
    columns: Union[str, bytes, Sequence[Any]],
    *,
    has: Union[str, bytes, Sequence[Union[str, int]]] = (),
) -> Tuple[Text, Text]:
    """Returns a row of cells for each line of the text, and the errors of those that are bad.

    A column is `[path, kind]`; a kind is "text", "int", "bool" or "json". The cells of a row have
    tabs between them, and are `-` where there is no value of the kind. A line without a value at
    the path `has` has no row, and nor has one that is not a JSON text of at most 254 levels: its
    number and its error are among the errors, which are empty if no line is bad.
    """
    source, asked, path = encoded(text), _json(columns), _json(has)
    rows, errors = ffi.new("mezdruk_buffer *"), ffi.new("mezdruk_buffer *")
    fault = ffi.new("mezdruk_fault *")
    status = lib.mezdruk_lines(
        ffi.from_buffer(source), len(source), ffi.from_buffer(asked), len(asked),
        ffi.from_buffer(path), len(path), rows, errors, fault,
    )
    if status:
        fail(status, fault, source, asked)
    return _taken(rows, text), _taken(errors, text)


def get(
    text: Text,
    pointer: str,
    *,
    indent: Indent = None,
    sort_keys: bool = False,
    depth: int = 254,
    unique_keys: bool = False,
) -> Text:
    """Returns the text of the value that a JSON Pointer (RFC 6901) references."""
    asked = options(depth, unique_keys, sort_keys, indent)
    return _changed(lib.mezdruk_get, text, encoded(pointer), asked)
