"""Parsed documents and lazy views of their values."""

from __future__ import annotations

import decimal
import threading
from typing import Any, Iterator, List, Tuple, Union, overload

from mezdruk._calls import Indent, Source, encoded, options
from mezdruk._encode import Exact
from mezdruk._errors import fail
from mezdruk._native import ffi, lib

_KINDS = ("null", "boolean", "number", "string", "object", "array")


class Document:
    """A parsed JSON text, whose values are read as they are asked for.

    A document is used by the thread that made it.

    >>> document = Document('{"a": [1, 2.50]}')
    >>> document.root["a"][1].literal
    '2.50'
    """

    def __init__(
        self, text: Source, *, depth: int = 254, unique_keys: bool = False
    ) -> None:
        source = encoded(text)
        fault = ffi.new("mezdruk_fault *")
        self._thread = threading.get_ident()
        self._handle = ffi.gc(ffi.new("mezdruk_document *"), lib.mezdruk_free_document)
        status = lib.mezdruk_parse(
            ffi.from_buffer(source), len(source), options(depth, unique_keys), self._handle, fault
        )
        if status:
            fail(status, fault, source)

    @property
    def root(self) -> View:
        """The whole value."""
        return View(self, self.handle().root)

    def handle(self) -> Any:
        """Returns the handle, in the thread that made it."""
        if threading.get_ident() != self._thread:
            raise RuntimeError("a document is used by the thread that made it")
        return self._handle

    def after(self, node: int) -> int:
        """Returns the node after the value at a node and all that is below it."""
        found = ffi.new("uint32_t *")
        if not lib.mezdruk_after(self.handle(), node, found):
            raise IndexError(node)
        return int(found[0])

    def text_at(self, node: int) -> str:
        """Returns the string or the name at a node, or the literal that is no integer of 64 bits."""
        at, length = ffi.new("const uint8_t **"), ffi.new("size_t *")
        if not lib.mezdruk_lend(self.handle(), node, at, length):
            raise IndexError(node)
        return bytes(ffi.buffer(at[0], length[0])).decode()


def _number(literal: str) -> Tuple[str, Any]:
    """Returns what equals that of another number, and nothing else, if the exact values are equal.

    Of a literal whose exponent is too large for a `Decimal` it has the literal.
    """
    try:
        return "number", decimal.Decimal(literal)
    except decimal.InvalidOperation:
        return "number", literal


class View(Exact):
    """A value of a document.

    An array has a length, indexes, slices and iteration. An object has a length, names, `in`,
    `get`, `keys`, `values` and `items`. A view is true as its value is: null, false, zero and what
    is empty are not. It equals what `value()` returns, and another view if the values are equal,
    numbers by their exact values.
    """

    __slots__ = ("_document", "_node", "_shown")

    def __init__(self, document: Document, node: int) -> None:
        self._document = document
        self._node = node
        self._shown = ffi.new("mezdruk_node *")
        if not lib.mezdruk_read(document.handle(), node, self._shown):
            raise IndexError(node)

    @property
    def kind(self) -> str:
        """"null", "boolean", "number", "string", "object" or "array"."""
        return _KINDS[self._shown.kind]

    def __len__(self) -> int:
        if self._shown.kind in (lib.MEZDRUK_ARRAY, lib.MEZDRUK_OBJECT):
            return int(self._shown.length)
        raise TypeError(f"a value of kind {self.kind} has no length")

    def __bool__(self) -> bool:
        kind = self._shown.kind
        if kind == lib.MEZDRUK_BOOLEAN:
            return bool(self._shown.boolean)
        if kind == lib.MEZDRUK_NUMBER:
            mantissa = self.literal.lower().partition("e")[0]
            return bool(mantissa.strip("-0."))
        return bool(kind != lib.MEZDRUK_NULL and self._shown.length)

    def __eq__(self, other: object) -> bool:
        if isinstance(other, View):
            exact = {"parse_int": _number, "parse_float": _number}
            return bool(self.value(**exact) == other.value(**exact))
        return bool(self.value() == other)

    __hash__ = None  # type: ignore[assignment]

    def __repr__(self) -> str:
        kind, count = self.kind, self._shown.length
        if kind == "array":
            return f"<View: array of {count} element{'s' * (count != 1)}>"
        if kind == "object":
            return f"<View: object of {count} member{'s' * (count != 1)}>"
        text = self.print()
        return f"<View: {text if len(text) <= 60 else text[:57] + '...'}>"

    @overload
    def __getitem__(self, step: Union[int, str]) -> View: ...

    @overload
    def __getitem__(self, step: slice) -> List[View]: ...

    def __getitem__(self, step: Union[int, str, slice]) -> Union[View, List[View]]:
        if isinstance(step, slice):
            if self._shown.kind != lib.MEZDRUK_ARRAY:
                raise TypeError(f"a value of kind {self.kind} has no slices")
            return list(self._elements())[step]
        if isinstance(step, str):
            for name, node in self._members():
                if name == step:
                    return View(self._document, node)
            raise KeyError(step)
        index = step + len(self) if step < 0 else step
        found = ffi.new("uint32_t *")
        if index < 0 or not lib.mezdruk_element(self._document.handle(), self._node, index, found):
            raise IndexError(step)
        return View(self._document, found[0])

    def __iter__(self) -> Iterator[Any]:
        if self._shown.kind == lib.MEZDRUK_OBJECT:
            return (name for name, _ in self._members())
        return self._elements()

    def __contains__(self, it: object) -> bool:
        """Whether an object has the name, or an array an element that equals the value."""
        if self._shown.kind == lib.MEZDRUK_OBJECT:
            return any(name == it for name, _ in self._members())
        return any(element == it for element in self._elements())

    def get(self, name: str, default: Any = None) -> Any:
        """The value of the first member of an object with the name, or the default."""
        for found, node in self._members():
            if found == name:
                return View(self._document, node)
        return default

    def keys(self) -> Iterator[str]:
        """The names of an object, in their order."""
        return (name for name, _ in self._members())

    def values(self) -> Iterator[View]:
        """The values of an object, in their order."""
        return (View(self._document, node) for _, node in self._members())

    def items(self) -> Iterator[Tuple[str, View]]:
        """The names and values of an object, in their order."""
        return ((name, View(self._document, node)) for name, node in self._members())

    def _elements(self) -> Iterator[View]:
        node = self._node + 1
        for _ in range(len(self)):
            yield View(self._document, node)
            node = self._document.after(node)

    def _members(self) -> Iterator[Tuple[str, int]]:
        if self._shown.kind != lib.MEZDRUK_OBJECT:
            raise TypeError(f"a value of kind {self.kind} has no members")
        node = self._node + 1
        for _ in range(len(self)):
            yield self._document.text_at(node), node + 1
            node = self._document.after(node + 1)

    @property
    def literal(self) -> str:
        """The literal of a number, as it is in the text."""
        if self._shown.form == lib.MEZDRUK_NATURAL:
            return str(self._shown.natural)
        if self._shown.form == lib.MEZDRUK_NEGATIVE:
            return str(self._shown.negative)
        if self._shown.kind != lib.MEZDRUK_NUMBER:
            raise TypeError(f"a value of kind {self.kind} has no literal")
        return self._document.text_at(self._node)

    @property
    def text(self) -> str:
        """The string."""
        if self._shown.kind != lib.MEZDRUK_STRING:
            raise TypeError(f"a value of kind {self.kind} is no string")
        return self._document.text_at(self._node)

    def value(self, **choices: Any) -> Any:
        """Returns the value as Python objects; the choices are those of `loads`."""
        from mezdruk._loads import loads

        return loads(self.print(), depth=1024, **choices)

    def print(self, *, indent: Indent = None, sort_keys: bool = False) -> str:
        """Returns the JSON text of the value."""
        output = ffi.new("mezdruk_buffer *")
        fault = ffi.new("mezdruk_fault *")
        asked = options(254, False, sort_keys, indent)
        status = lib.mezdruk_print(self._document.handle(), self._node, asked, output, fault)
        if status:
            fail(status, fault, b"")
        try:
            return bytes(ffi.buffer(output.bytes, output.length)).decode()
        finally:
            lib.mezdruk_free(output)

    def __str__(self) -> str:
        return self.print()
