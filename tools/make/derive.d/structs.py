"""The structs of a source file that are marked by `// json: derive`, or why one cannot be derived."""
import re
from dataclasses import dataclass, field

from kinds import PRELUDE, RANGES, Kind, check_kind, read_kind
from tokens import END, Refused, Stream, tokens_of

ITEMS = ("struct", "enum", "union", "fn", "impl", "trait", "type", "static", "mod", "use", "const", "macro_rules", "ghost")
BY_HAND = {"enum": "write its impls by hand", "union": "take a struct"}
WRITTEN = {"Builder", "DeserializeFrom", "ErrorCode", "Events", "Explain", "ExplainMembers", "Field", "Global", "InputStr", "KeyRoom"}
WRITTEN |= {"Piece", "Refusal", "Result", "Serialize", "Tokens", *PRELUDE}


@dataclass
class Member:
    """A field: its name, its type, the name of its member, and its default: code and datum."""

    name: str
    kind: Kind
    key: str
    default: tuple | None


@dataclass
class Struct:
    name: str
    lifetime: str
    strict: bool
    line: int
    fields: list = field(default_factory=list)


def mark_of(token):
    """What a comment asks for after `// json:`, or None if it is no mark."""
    if match := re.fullmatch(r"// json:(?: (.*))?", token.text):
        if not (match[1] or "").strip():
            raise Refused("nothing follows `// json:`", token.line)
        return match[1].strip()
    words = r"(?:derive(?: strict)?|default\b.*|name\b.*)"
    if re.fullmatch(rf"//+!?\s*json\s*:\s*(?:{words})?", token.text, re.I) or re.fullmatch(r"//+!?\s*json\s+derive(?: strict)?", token.text, re.I):
        raise Refused("a mark is written `// json: derive`, with two slashes, a space, and lower case", token.line)
    if re.fullmatch(rf"/\*[*!]?\s*json\s*:\s*{words}\s*\*/", token.text):
        raise Refused("a mark is a comment of the form `// json: derive`", token.line)
    return None


def literal_of(text, head):
    """The code and the datum of a default that is written out."""
    if head == "bool" and text in ("true", "false"):
        return text, f"boolean_datum {text}"
    if head in RANGES and re.fullmatch(r"-?[0-9]+", text):
        least, most = RANGES[head]
        if not least <= int(text) <= most:
            raise Refused(f"the default {text} is outside of `{head}`, which goes from {least} to {most}")
        return text, f"integer_datum (negsuc {-int(text) - 1})" if int(text) < 0 else f"integer_datum (pos {int(text)})"
    if head == "String" and re.fullmatch(r'"[^"\\]*"', text) and text.isascii():
        return f"String::from_str(alloc, {text})?", f"text_datum (codes {text})"
    raise Refused(f"`{text}` is no default of the type `{head}`")


def default_of(text, kind):
    """The code and the datum of a default: the one that is written, or that of the type."""
    simple = {**dict.fromkeys(RANGES, "0"), "bool": "false"}
    empty = {"String": "text_datum []", "Vec": "list_datum no_data", "BTreeMap": "rows_datum no_rows"}
    if text or kind.head in simple:
        return literal_of(text or simple[kind.head], kind.head)
    if kind.head in empty:
        return f"{kind.path}::new(alloc)", empty[kind.head]
    raise Refused(f"the type `{kind.text}` has no default")


def options_of(text, found):
    """Adds what a comment above a field asks for."""
    for part in re.findall(r'(?:[^,"]|"[^"]*"?)+', text):
        word, _, rest = part.strip().partition(" ")
        if word == "derive":
            raise Refused("`derive` is for the line above a struct")
        if word not in ("name", "default"):
            raise Refused(f"`{part.strip()}` is none of `name \"..\"`, `default` and `default VALUE`")
        if word in found:
            raise Refused(f"the field has two {word}s")
        found[word] = rest.strip()
    if "name" in found and not (re.fullmatch(r'"[^"\\]+"', found["name"]) and found["name"].isascii()):
        raise Refused("a name is ASCII text between quotes, without quotes and backslashes in it")


def field_of(name, kind, options):
    default = ("None", "null_datum") if kind.head == "Option" else None
    if "default" in options:
        if default is not None:
            raise Refused("a field of the type `Option` is `None` where its member is missing")
        default = default_of(options["default"], kind)
    return Member(name, kind, options.get("name", f'"{name}"'), default)


class Reader:
    """Reads a file up to its end. `unmarked` has its other structs and enums."""

    def __init__(self, text, around):
        self.stream, self.around = Stream(tokens_of(text)), around
        self.found, self.unmarked, self.blocks = [], {}, []

    def structs(self):
        item = []
        while (token := self.stream.take()) is not END:
            if token.kind == "comment":
                if (mark := mark_of(token)) is not None:
                    self.derive(mark, token.line)
                    item = []
            elif token.text == "{":
                self.blocks.append(named(item))
                item = []
            elif token.text in ("}", ";"):
                if token.text == "}" and self.blocks:
                    self.blocks.pop()
                item = []
            else:
                item.append(token.text)
                if len(item) > 1 and item[-2] in ("struct", "enum") and not self.blocks:
                    self.unmarked[token.text] = item[-2]
        self.check_kinds()
        return self.found

    def derive(self, mark, line):
        """Reads the struct below a mark."""
        if mark not in ("derive", "derive strict"):
            raise Refused(f"`{mark}` is neither `derive` nor `derive strict`, and not above a field of a marked struct", line)
        if self.blocks:
            raise Refused(f"the mark is within {self.blocks[-1]}: a struct is derived where it is an item of the file itself", line)
        self.skip_to_item()
        token = self.stream.take()
        if token.text != "struct":
            raise Refused(self.why_not(token), line)
        struct = Struct(self.stream.take().text, "", mark != "derive", line)
        struct.lifetime = self.lifetime(struct.name)
        while not self.stream.takes("}"):
            struct.fields.append(self.member(struct))
        if not struct.fields:
            raise Refused(f"the struct `{struct.name}` has no fields", line)
        self.found.append(struct)

    def skip_to_item(self):
        """Takes comments, attributes and the visibility."""
        while True:
            token = self.stream.peek()
            if token.kind == "comment":
                self.stream.take()
                if mark_of(token) is not None:
                    raise Refused("two marks are above one item", token.line)
            elif token.text in ("#", "pub"):
                self.stream.take()
                if self.stream.peek().text in ("[", "("):
                    self.stream.skip_brackets()
            else:
                return

    def why_not(self, token):
        words = [token.text]
        while token.text not in ITEMS and self.stream.peek().kind == "word":
            words.append(self.stream.take().text)
            if words[-1] in ITEMS:
                break
        if words[-1] == "const" and self.stream.peek().text == "fn":
            words.append(self.stream.take().text)
        if words[-1] not in ITEMS:
            return "no struct is below the mark"
        name = f" `{self.stream.peek().text}`" if words[-1] not in ("impl", "use") else ""
        more = f": {BY_HAND[words[-1]]}" if words[-1] in BY_HAND else ""
        return f"the mark is above the {words[-1]}{name}, and only a struct can be derived{more}"

    def lifetime(self, name):
        """The lifetime of a struct, or nothing, up to the bracket before its fields."""
        lifetime = ""
        if self.stream.takes("<"):
            lifetime = self.stream.take().text
            if not lifetime.startswith("'") or not self.stream.takes(">"):
                raise Refused(f"the struct `{name}` has other parameters than one lifetime", self.stream.last().line)
        if not self.stream.takes("{"):
            raise Refused(f"the struct `{name}` is none of named fields: only such a struct can be derived", self.stream.peek().line)
        return lifetime

    def options(self):
        """What the comments above a field ask for, and the line of the last that asks."""
        found, line = {}, 0
        while self.stream.peek().kind == "comment" or self.stream.peek().text == "#":
            before, token = self.stream.last(), self.stream.take()
            if token.text == "#":
                self.stream.skip_brackets()
            elif (mark := mark_of(token)) is not None:
                line = token.line
                if before.line == line:
                    raise Refused("a mark is on a line of its own, above its field", line)
                with_line(line, options_of, mark, found)
        return found, line

    def member(self, struct):
        """The next field, with the comma after it."""
        options, line = self.options()
        if self.stream.peek().text in ("}", ""):
            raise Refused("no field is below the mark" if line else f"the struct `{struct.name}` does not end", line or struct.line)
        if self.stream.takes("pub") and self.stream.peek().text == "(":
            self.stream.skip_brackets()
        name = self.stream.take()
        if name.kind != "word" or name.text == "ghost" or not self.stream.takes(":"):
            raise Refused("a field is written as `NAME: TYPE,`", name.line)
        kind = with_line(name.line, read_kind, self.stream, self.around.outside)
        self.end_member(name.line)
        with_line(name.line, check_kind, kind, self.around, struct.lifetime)
        found = with_line(line or name.line, field_of, name.text, kind, options)
        if found.key in [it.key for it in struct.fields]:
            raise Refused(f"two fields have the member {found.key}", name.line)
        return found

    def end_member(self, line):
        """Takes the comma after a field and the comments on the lines of the field."""
        while self.stream.peek().kind == "comment":
            if mark_of(self.stream.take()) is not None:
                raise Refused("a mark is on a line of its own, above its field", self.stream.last().line)
        if not self.stream.takes(",") and self.stream.peek().text != "}":
            raise Refused(f"`{self.stream.peek().text}` is no part of a type here", self.stream.peek().line or line)
        while self.stream.peek().kind == "comment" and self.stream.peek().line == self.stream.last().line:
            if mark_of(self.stream.take()) is not None:
                raise Refused("a mark is on a line of its own, above its field", self.stream.last().line)

    def check_kinds(self):
        """Refuses names that the written code has itself, and types of the file that have no impls."""
        names = [it.name for it in self.found]
        for struct in self.found:
            needs = [(need, it) for it in struct.fields for kind in it.kind.all() for need in sorted(kind.needs)]
            for name in (struct.name, *(need for need, _ in needs)):
                if name in WRITTEN:
                    raise Refused(f"the written code has a `{name}` of its own: give yours another name", struct.line)
                if any(name in (f"{it}Builder", f"{it}Seen") for it in names):
                    raise Refused(f"the written code has a struct `{name}`: give yours another name", struct.line)
            for need, it in needs:
                if need in self.unmarked and need not in self.around.own:
                    what, how = self.unmarked[need], "mark it by `// json: derive`, or write its impls by hand"
                    raise Refused(f"the field `{it.name}` is of the {what} `{need}`, which is neither read nor written: {how if what == 'struct' else BY_HAND['enum']}", struct.line)


def named(item):
    """What a block is, by the words before it."""
    for word in ("mod", "fn", "trait", "struct", "enum"):
        if word in item[:-1]:
            return f"the {dict(mod='module', fn='function').get(word, word)} `{item[item.index(word) + 1]}`" + (", which is not marked" if word == "struct" else "")
    return "an impl" if "impl" in item else "a block"


def with_line(line, call, *arguments):
    """Calls a function, and gives the line to a refusal that has none."""
    try:
        return call(*arguments)
    except Refused as problem:
        raise Refused(problem.why, problem.line or line) from None
