"""Writes worked rows of the programs, of pointers, of patches between texts and of lines, in the form
that rows.c reads.

A line has the name of the call, numbers, and bytes in hex: the input, the argument, the output, and
of lines the path and the errors.
"""

import re
import sys
from urllib.parse import unquote_to_bytes

CODES = {
    name: number
    for number, name in enumerate(
        "NoMemory Io TooLarge InvalidUTF8 EofWhileParsing InvalidLiteral InvalidNumber ExpectedColon "
        "ExpectedArrayCommaOrEnd ExpectedObjectCommaOrEnd ExpectObjectKeyOrEnd TrailingComma "
        "InvalidJsonValue ControlCharacter InvalidEscape InvalidSurrogate TrailingCharacters "
        "RecursionLimitExceeded NotFound TypeUnmatched NumberOutOfRange SerExpectKeyIsStrOrNum "
        "ExpectedNumericKey BadWords DuplicateKey".split(),
        start=1,
    )
}

PATCH_CODES = {"NotFound": 19, "TypeUnmatched": 20, "BadPointer": 29, "BadPatch": 30, "TestFailed": 31}

# Codes that only the C library has.
BAD_OPTIONS, NO_MERGE_PATCH = 32, 33

# The document of RFC 6901, section 5, and pointers with what they reference in it.
POINTED = (
    '{"foo": ["bar", "baz"], "": 0, "a/b": 1, "c%d": 2, "e^f": 3, "g|h": 4, "i\\\\j": 5, '
    '"k\\"l": 6, " ": 7, "m~n": 8}'
)
POINTERS = {
    "": '{"foo":["bar","baz"],"":0,"a/b":1,"c%d":2,"e^f":3,"g|h":4,"i\\\\j":5,"k\\"l":6," ":7,"m~n":8}',
    "/foo": '["bar","baz"]',
    "/foo/0": '"bar"',
    "/": "0",
    "/a~1b": "1",
    "/c%d": "2",
    "/e^f": "3",
    "/g|h": "4",
    "/i\\j": "5",
    '/k"l': "6",
    "/ ": "7",
    "/m~0n": "8",
}
NO_POINTERS = ["foo", "/foo/~", "/~2", "//~"]
NOWHERE = ["/foo/2", "/foo/-", "/foo/01", "/foo/0/x", "/bar", "/foo/", "//", "/m~01n"]


def repeated(field):
    """Returns a field with each piece as often as it says."""
    return re.sub("«([0-9]+) ([^»]*)»", lambda m: m.group(2) * int(m.group(1)), field)


def place_of(error):
    """Returns the code, the offset, the line, the column and the item of an error's text."""
    at = re.fullmatch(r"(\w+) at offset (\d+), line (\d+) column (\d+)", error)
    if at:
        return CODES[at.group(1)], int(at.group(2)), int(at.group(3)), int(at.group(4)), -1
    edit = re.fullmatch(r"(\w+) in edit (\d+)", error)
    if edit:
        return CODES[edit.group(1)], -1, 0, 0, int(edit.group(2))
    operation = re.fullmatch(r"(\w+) in operation (\d+)", error)
    if operation:
        return PATCH_CODES[operation.group(1)], -1, 0, 0, int(operation.group(2))
    return CODES.get(error, PATCH_CODES.get(error, 0)), -1, 0, 0, -1


def options_of(words):
    """Returns the options and the edits of the arguments, or None if C cannot ask for that."""
    depth, unique, sort, indent, edits, seen = 254, 0, 0, 0, [], set()
    for word in words:
        name = word.split("=")[0] if word.startswith("--") else ""
        kind = "--indent" if name in ("--pretty", "--tabs") else name
        if name and kind in seen:
            return None
        seen.add(kind)
        if word == "--pretty":
            indent = 3
        elif word == "--tabs":
            indent = 10
        elif re.fullmatch("--indent=[0-8]", word):
            indent = 1 + int(word[-1])
        elif word == "--sort-keys":
            sort = 1
        elif word == "--unique-keys":
            unique = 1
        elif re.fullmatch("--depth=(0|[1-9][0-9]*)", word) and int(word[8:]) <= 1024:
            depth = int(word[8:])
        elif word.startswith("--"):
            return None
        else:
            edits.append(word)
    if len(edits) > 1:
        return None
    return depth, unique, sort, indent, (edits or ["[]"])[0].encode()


def rows_of(path):
    """Yields the fields of each row of the table."""
    with open(path, encoding="utf-8") as source:
        table = re.search(r'ROWS: &str = r#"(.*?)"#;', source.read(), re.S).group(1)
    for line in table.split("\n"):
        if line and not line.startswith("#"):
            yield [repeated(field) for field in line.split("|")[:-1]]


def call_of(words):
    """Returns the call, its options and its argument, or None if C has no such call."""
    request = re.fullmatch("--(patch|merge)=(.*)", words[0], re.S) if len(words) == 1 else None
    if request:
        return request.group(1), (254, 0, 0, 0), request.group(2).encode()
    asked = options_of(words)
    return asked and ("edit", asked[:4], asked[4])


def write(call, status, place, options, input, argument, output, has=b"", errors=b""):
    """Writes a row."""
    fields = (input, argument, output, has, errors)
    print(call, status, *place, *options, *(field.hex() + "." for field in fields))


def write_rows(path, calls):
    """Writes the rows of a table that are of these calls."""
    for text, status, output, error, *words in rows_of(path):
        asked = call_of(words)
        if asked and asked[0] in calls:
            call, options, argument = asked
            fields = (unquote_to_bytes(text), argument, unquote_to_bytes(output))
            write(call, int(status), place_of(error), options, *fields)


def write_pointers():
    """Writes the rows of pointers."""
    plain, text = (254, 0, 0, 0), POINTED.encode()
    for pointer, output in POINTERS.items():
        write("get", 0, (0, -1, 0, 0, -1), plain, text, pointer.encode(), output.encode())
    for code, pointers in (("BadPointer", NO_POINTERS), ("NotFound", NOWHERE)):
        for pointer in pointers:
            write("get", 3, place_of(code), plain, text, pointer.encode(), b"")
    write("get", 2, (CODES["InvalidUTF8"], 1, 1, 2, -1), plain, text, b"/\xff", b"")
    write("get", 1, (CODES["EofWhileParsing"], 1, 1, 2, -1), plain, b"[", b"/0", b"")
    write("get", 0, (0, -1, 0, 0, -1), (254, 0, 1, 3), b'[{"b":1e2,"a":-0}]', b"/0",
          b'{\n  "a": -0,\n  "b": 1e2\n}')


def table_of(path, name):
    """Yields the columns of each row of a table whose columns are parted by arrows."""
    with open(path, encoding="utf-8") as source:
        table = re.search(rf'{name}: &str =\s*r#"(.*?)"#;', source.read(), re.S).group(1)
    for line in table.split("\n"):
        yield [column.encode() for column in line.split(" → ")]


def write_diffs(patches, merge_patches):
    """Writes the rows of patches between texts."""
    plain, done = (254, 0, 0, 0), (0, -1, 0, 0, -1)
    for text, target, patch in table_of(patches, "PATCHES"):
        write("diff", 0, done, plain, text, target, patch)
    for text, target, patch in table_of(merge_patches, "MERGE_PATCHES"):
        write("merge_diff", 0, done, plain, text, target, patch)
    for text, target in table_of(merge_patches, "NONE"):
        write("merge_diff", 3, (NO_MERGE_PATCH, -1, 0, 0, -1), plain, text, target, b"")


def write_lines(path):
    """Writes the rows of lines for which C can ask: columns, and a path or none."""
    for text, status, output, error, *words in rows_of(path):
        paths = [word[6:] for word in words if word.startswith("--has=")]
        columns = [word for word in words if not word.startswith("--has=")]
        if len(columns) != 1 or len(paths) > 1:
            continue
        errors = "".join(line + "\n" for line in error.split("%0A") if status == "1")
        code = BAD_OPTIONS if status == "2" else 0
        write("lines", 2 if code else 0, (code, -1, 0, 0, -1), (254, 0, 0, 0),
              unquote_to_bytes(text), columns[0].encode(), unquote_to_bytes(output),
              (paths or ["[]"])[0].encode(), errors.encode())


def main():
    edits, patches, lines, *between = sys.argv[1:]
    write_rows(edits, ("edit",))
    write_rows(patches, ("patch", "merge"))
    write_pointers()
    write_diffs(*between)
    write_lines(lines)


main()
