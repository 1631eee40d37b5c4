"""The errors of the package."""

from __future__ import annotations

from typing import Any, NoReturn, Optional

from mezdruk._native import lib

_NAMES = {
    lib.MEZDRUK_CODE_NO_MEMORY: "NoMemory",
    lib.MEZDRUK_CODE_TOO_LARGE: "TooLarge",
    lib.MEZDRUK_CODE_INVALID_UTF8: "InvalidUTF8",
    lib.MEZDRUK_CODE_EOF_WHILE_PARSING: "EofWhileParsing",
    lib.MEZDRUK_CODE_INVALID_LITERAL: "InvalidLiteral",
    lib.MEZDRUK_CODE_INVALID_NUMBER: "InvalidNumber",
    lib.MEZDRUK_CODE_EXPECTED_COLON: "ExpectedColon",
    lib.MEZDRUK_CODE_EXPECTED_ARRAY_COMMA_OR_END: "ExpectedArrayCommaOrEnd",
    lib.MEZDRUK_CODE_EXPECTED_OBJECT_COMMA_OR_END: "ExpectedObjectCommaOrEnd",
    lib.MEZDRUK_CODE_EXPECT_OBJECT_KEY_OR_END: "ExpectObjectKeyOrEnd",
    lib.MEZDRUK_CODE_TRAILING_COMMA: "TrailingComma",
    lib.MEZDRUK_CODE_INVALID_JSON_VALUE: "InvalidJsonValue",
    lib.MEZDRUK_CODE_CONTROL_CHARACTER: "ControlCharacter",
    lib.MEZDRUK_CODE_INVALID_ESCAPE: "InvalidEscape",
    lib.MEZDRUK_CODE_INVALID_SURROGATE: "InvalidSurrogate",
    lib.MEZDRUK_CODE_TRAILING_CHARACTERS: "TrailingCharacters",
    lib.MEZDRUK_CODE_RECURSION_LIMIT_EXCEEDED: "RecursionLimitExceeded",
    lib.MEZDRUK_CODE_NOT_FOUND: "NotFound",
    lib.MEZDRUK_CODE_TYPE_UNMATCHED: "TypeUnmatched",
    lib.MEZDRUK_CODE_NUMBER_OUT_OF_RANGE: "NumberOutOfRange",
    lib.MEZDRUK_CODE_DUPLICATE_KEY: "DuplicateKey",
    lib.MEZDRUK_CODE_BAD_POINTER: "BadPointer",
    lib.MEZDRUK_CODE_BAD_PATCH: "BadPatch",
    lib.MEZDRUK_CODE_TEST_FAILED: "TestFailed",
    lib.MEZDRUK_CODE_BAD_OPTIONS: "BadOptions",
    lib.MEZDRUK_CODE_NO_MERGE_PATCH: "NoMergePatch",
}

_NONE = 2**64 - 1
# The bytes that do not begin a character of UTF-8.
_CONTINUATION = bytes(range(0x80, 0xC0))


class Error(ValueError):
    """Why a call failed.

    `code` is the name of the error. `offset`, `line` and `column` are the position in bytes of
    UTF-8, with lines and columns counted from 1, or None. `pos`, `lineno` and `colno` are the same
    position in characters, as `json.JSONDecodeError` has it. Of an `ArgumentError` it is the
    position in the edits, the patch or the pointer. `item` is the index of the edit or the
    operation that does not apply, or None.
    """

    pos: Optional[int] = None
    lineno: Optional[int] = None
    colno: Optional[int] = None

    def __init__(
        self,
        code: str,
        offset: Optional[int] = None,
        line: Optional[int] = None,
        column: Optional[int] = None,
        item: Optional[int] = None,
    ) -> None:
        self.code = code
        self.offset = offset
        self.line = line
        self.column = column
        self.item = item
        super().__init__(code, offset, line, column, item)

    def __str__(self) -> str:
        if self.offset is not None:
            return f"{self.code} at offset {self.offset}, line {self.line} column {self.column}"
        if self.item is not None:
            return f"{self.code} in item {self.item}"
        return self.code


class TextError(Error):
    """The text is not valid JSON, or breaks the rules that were asked for."""


class ArgumentError(Error):
    """The options, the edits, the patch, the target or the pointer are not valid."""


class ApplyError(Error):
    """An edit, a patch or a pointer does not apply, or there is no merge patch to the target."""


_CLASSES = {
    lib.MEZDRUK_BAD_TEXT: TextError,
    lib.MEZDRUK_BAD_ARGUMENT: ArgumentError,
    lib.MEZDRUK_NOT_APPLIED: ApplyError,
}


def fail(status: int, fault: Any, text: bytes, argument: bytes = b"") -> NoReturn:
    """Raises the error of a status and a fault of a call on a text and an argument."""
    parts = (fault.code, fault.offset, fault.line, fault.column, fault.item)
    fail_with(argument if status == lib.MEZDRUK_BAD_ARGUMENT else text, status, *parts)


def fail_with(
    text: bytes, status: int, code: int, offset: int, line: int, column: int, item: int
) -> NoReturn:
    """Raises the error of a status and of what a fault has, which is of this text."""
    if status == lib.MEZDRUK_NO_MEMORY:
        raise MemoryError
    placed = offset != _NONE
    error = _CLASSES[status](
        _NAMES.get(code, str(code)),
        offset if placed else None,
        line if placed else None,
        column if placed else None,
        item if item != _NONE else None,
    )
    if placed:
        error.pos = _characters(text[:offset])
        error.lineno = line
        error.colno = _characters(text[text.rfind(b"\n", 0, offset) + 1 : offset]) + 1
    raise error


def _characters(text: bytes) -> int:
    """Returns how many characters begin in the bytes."""
    return len(text.translate(None, _CONTINUATION))
