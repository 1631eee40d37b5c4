"""Reads .rt and .antt files as items: functions, types, constants, definitions, imports. Comments and blank space are no part of them.

A file is cut into tokens first: words, numbers, texts, and single signs. Two files with the same tokens are the same here, however they are
laid out. An item is found by the words that it declares. Of a name such as `◌then◌` it is the longest word.
"""
import dataclasses
import functools
import re

_COMMON = r"|(?P<word>[^\W\d][\w']*)|\d\w*(?:\.\d\w*)?|."
_RUST = r"""(?P<gap>\s+|//[^\n]*)|(?P<block>/\*)|[bc]?r(?P<marks>\#*)"(?s:.*?)"(?P=marks)|[bc]?"(?:[^"\\]|\\(?s:.))*"
    |b?'(?:[^'\\\n]|\\x[0-9a-fA-F]{2}|\\u\{[0-9a-fA-F_]+\}|\\.)'|'[^\W\d]\w*"""
# (in antt a name is any run of other signs than these, so two hyphens inside one begin no comment)
_ANTT = r"""(?P<gap>\s+|(?<![^\s(){}.;,@"«»])--[^\n]*)|(?P<block>\{-)|"(?:[^"\\\n]|\\.)*\""""
TOKENS = {".rt": re.compile(_RUST + _COMMON, re.X), ".antt": re.compile(_ANTT + _COMMON, re.X)}
BLOCKS = {".rt": re.compile(r"/\*|\*/"), ".antt": re.compile(r"\{-|-\}")}
TYPED = re.compile(r"\s*:\s")
BLANK = re.compile(r"\s")
NAME = re.compile(r'[^\s(){}.;,@"«»]+')
# What may follow a closed brace within one item.
GOES_ON = {"{", ";", "requires", "ensures", "also_owns", "decreases", "where"}
MODIFIERS = {"pub", "unsafe", "final", "async", "default"}
TO_SEMICOLON = {"use", "const", "static", "type", "ghost"}
HAS_CODE = {"const", "static", "macro_rules"}
NAMED = {"struct", "enum", "union", "trait", "mod", "macro_rules"}
NO_TYPES = set("mut const dyn fn impl for where str bool char u8 u16 u32 u64 u128 usize i8 i16 i32 i64 i128 isize f32 f64".split())
DECLARES = {"abbrev", "pub", "unfoldable", "record", "data", "mutual", "axiom", "ruleset", "pattern"}


def tokens_of(text, kind):
    """The tokens of a text, each with its offset. Blanks in a quoted text are marked, so that those of joined tokens are between tokens."""
    found, at = [], 0
    while at < len(text):
        for match in TOKENS[kind].finditer(text, at):
            group = match.lastgroup
            if group == "word":
                found.append((match[0], match.start()))
            elif group == "block":
                at = end_of_comment(text, match.start(), BLOCKS[kind])
                break
            elif group != "gap":
                found.append((BLANK.sub(lambda it: f"\\{ord(it[0])}", match[0]), match.start()))
        else:
            break
    return found


def end_of_comment(text, at, marks):
    """Where a comment ends that may hold others."""
    depth = 0
    for mark in marks.finditer(text, at):
        depth += 1 if mark[0] in ("/*", "{-") else -1
        if depth == 0:
            return mark.end()
    return len(text)


def joined(words):
    return " ".join(words)


def key_of(words):
    """The word by which a name is looked up."""
    return max(words, key=lambda it: (it != "◌", len(it)))


@dataclasses.dataclass(eq=False)
class Item:
    """An item of a file. Without keys it counts wherever its crate does."""
    keys: frozenset
    # What it says to others, what it says about its own proof or layout in memory alone, and the body of a function.
    text: str
    about: str = ""
    body: str = ""
    span: tuple = (0, 0)
    inside: tuple = (0, 0)
    # An import or a line `mod` says something only where its name is used. Code names functions, and nothing else does.
    is_link: bool = False
    is_public: bool = True
    is_code: bool = False
    is_function: bool = False
    cycle: str = ""

    @functools.cached_property
    def words(self):
        return set(self.text.split(" "))


def words_in_paths(text):
    """The words that are written with a path before them, that begin one, or that name a macro."""
    return set(re.findall(r"(?<=: : )[^\W\d][\w']*|[^\W\d][\w']*(?= : :| !)", text))


def words_called(text):
    """The words that are called as methods."""
    return set(re.findall(r"(?<=\. )[^\W\d]\w*(?= \(| : :)", text))


def items_of(text, kind):
    """The items of a file."""
    tokens = tokens_of(text, kind)
    return Rust(tokens).items(0, len(tokens)) if kind == ".rt" else antt_items(tokens, text)


def imports_of(words, span, is_public):
    """An item for each name that a line `use` brings in: the path that it has there."""
    for path, local in tree_of(words, 0, [])[0]:
        keys = frozenset() if local == ["*"] else frozenset([key_of(local)])
        yield Item(keys, joined(["use", *path]), span=span, is_link=True, is_public=is_public, is_code="Rattle" not in path or "contracts" in path)


def tree_of(words, at, path):
    """The paths of a tree of imports, each with the name that it is known by, and where the tree ends."""
    while at < len(words) and words[at] not in (",", "}", ";"):
        if words[at] == "{":
            found, at = [], at + 1
            while at < len(words) and words[at] != "}":
                more, at = tree_of(words, at, path)
                found += more
                at += at < len(words) and words[at] == ","
            return found, at + 1
        path = [*path, words[at]]
        at += 1
    cut = max((number for number, it in enumerate(path) if it in (".", ":", "as")), default=-1)
    return ([(path, path[cut + 1 :])] if path[cut + 1 :] else []), at


class Rust:
    """The items of a .rt file, by its tokens."""

    def __init__(self, tokens):
        # (two words more, so that each has a next one)
        self.words, self.at = [*(it for it, _ in tokens), "", ""], [at for _, at in tokens]
        self.partner, opened = {}, []
        for number, it in enumerate(self.words):
            if it in ("(", "[", "{"):
                opened.append(number)
            elif it in (")", "]", "}") and opened:
                self.partner[opened.pop()] = number

    def close(self, at):
        return self.partner.get(at, len(self.at) - 1)

    def items(self, at, end, group=((), None)):
        """The items between two tokens. A group is the header of an impl or a trait, and the keys if it is found as a whole."""
        found = []
        while at < end:
            first = at
            while at < end and self.words[at] == "#":
                is_inner = self.words[at + 1] == "!"
                at = self.close(at + 1 + is_inner) + 1
                # (an attribute of the whole crate is no part of an item)
                first = at if is_inner else first
            if at < end:
                more, at = self.item(first, at, end, group)
                found += more
        return found

    def item(self, first, head, end, group):
        """The items that begin at a token, with attributes from the first, and where they end."""
        at = self.kind_at(head)
        kind = self.words[at]
        last = self.end_of(at, end, kind in TO_SEMICOLON)
        span = self.at[first], self.at[last] + 1
        if kind == "use":
            found = list(imports_of(self.words[at + 1 : last], span, "pub" in self.words[head:at]))
        elif kind in ("impl", "trait", "mod") and self.words[last] == "}":
            found = self.block(kind, first, at, last)
        elif kind == "fn":
            found = [self.function(first, head, at, last, group)]
        else:
            name = self.words[at + 1 + (kind == "macro_rules")]
            keys = group[1] or frozenset([name] if kind in TO_SEMICOLON or kind in NAMED else [])
            found = [Item(keys, joined([*group[0], *self.words[first : last + 1]]), span=span, is_link=kind == "mod", is_code=kind in HAS_CODE)]
        return found, last + 1

    def kind_at(self, at):
        """Where the word is that says what an item is."""
        while True:
            it, next_one = self.words[at], self.words[at + 1]
            if it == "ghost" and next_one in ("use", "fn") or it == "const" and next_one in ("fn", "unsafe", "extern"):
                at += 1
            elif it == "extern" and next_one.endswith('"'):
                at += 2
            elif it in MODIFIERS:
                at = self.close(at + 1) + 1 if next_one == "(" else at + 1
            else:
                return at

    def end_of(self, at, end, to_semicolon):
        """The last token of an item."""
        while at < end:
            if self.words[at] == ";":
                return at
            if self.words[at] in ("(", "[", "{"):
                is_brace = self.words[at] == "{"
                at = self.close(at)
                if is_brace and not to_semicolon and (at + 1 >= end or self.words[at + 1] not in GOES_ON):
                    return at
            at += 1
        return end - 1

    def opening(self, at, last):
        """The brace that the last token closes."""
        return next((it for it in range(at, last) if self.words[it] == "{" and self.close(it) == last), last)

    def block(self, kind, first, at, last):
        """The items of an impl, a trait or a module. An impl of a trait, and a trait, is found as a whole."""
        opens = self.opening(at, last)
        header = self.words[first:opens]
        if kind == "mod":
            return self.items(opens + 1, last)
        if kind == "impl" and self.trait_of(at, opens) is None:
            return self.items(opens + 1, last, (header, None))
        if kind == "trait":
            called = {self.words[it + 1] for it in range(opens, last) if self.words[it] == "fn"}
            keys = frozenset({self.words[at + 1]} | {it for it in called if it.isidentifier()})
        else:
            keys = frozenset(self.types_of(at, opens))
        whole = Item(keys, joined(header), span=(self.at[first], self.at[opens]))
        return [whole, *self.items(opens + 1, last, (header, keys))]

    def generics(self, at):
        """Where the generics behind `impl` end, and the names that they bind."""
        if self.words[at] != "<":
            return at, set()
        depth, names = 0, set()
        for number in range(at, len(self.at)):
            it = self.words[number]
            depth += (it == "<") - (it == ">" and self.words[number - 1] != "-")
            if depth == 1 and self.words[number - 1] in ("<", ",", "const"):
                names.add(it)
            if depth == 0:
                return number + 1, names
        return at, names

    def trait_of(self, at, opens):
        """Where the word `for` of an impl of a trait is, or none."""
        begins, _ = self.generics(at + 1)
        # (not that of a bound `for<'a>`)
        return next((it for it in range(begins, opens) if self.words[it] == "for" and self.words[it + 1] != "<"), None)

    def types_of(self, at, opens):
        """The words by which an impl of a trait is found: those of its type, and of the trait if the type has none of its own."""
        begins, bound = self.generics(at + 1)
        cut = self.trait_of(at, opens)
        ends = next((it for it in range(cut, opens) if self.words[it] == "where"), opens)
        def names(words):
            return {it for it in words if re.fullmatch(r"[^\W\d]\w*", it) and it not in NO_TYPES and it not in bound}
        return names(self.words[cut + 1 : ends]) or names(self.words[begins:cut]) or {self.words[begins]}

    def function(self, first, head, at, last, group):
        """A function: without its body, unless others can see that."""
        opens = self.opening(at, last) if self.words[last] == "}" else last + 1
        header, shared = group
        about, says, start = [], [*header], first
        while start < head:
            ends = self.close(start + 1) + 1
            (about if self.words[start + 2] in ("tactic", "inline") else says).extend(self.words[start:ends])
            start = ends
        says += self.words[head:opens]
        body, cycle = self.words[opens : last + 1], re.search(r"# \[ cycle \( (\w+)", joined(says))
        # (a constant function can be evaluated, and a result `impl Trait` has the type that the body gives it)
        is_open = "const" in self.words[head:at] or "impl" in self.words[at:opens]
        return Item(
            keys=shared or frozenset([self.words[at + 1]]),
            text=joined([*says, *body] if is_open else says),
            about=joined(about),
            body=joined(body),
            span=(self.at[first], self.at[last] + 1),
            inside=(0, 0) if is_open or not body else (self.at[opens] + 1, self.at[last]),
            cycle=cycle[1] if cycle else "",
            is_code=is_open,
            is_function=shared is None,
        )


def antt_items(tokens, text):
    """The items of an .antt file. What begins in the first column is an item, or a clause of the one before it."""
    starts = [number for number, (_, at) in enumerate(tokens) if at == 0 or text[at - 1] == "\n"]
    found = []
    for first, last in zip(starts, [*starts[1:], len(tokens)]):
        words, begins = [it for it, _ in tokens[first:last]], tokens[first][1]
        span = begins, tokens[last - 1][1] + len(words[-1])
        uses = 1 if words[:2] == ["pub", "use"] else 0
        if words[uses] == "use":
            found += imports_of(words[uses + 1 :], span, uses == 1)
        elif words[0] in DECLARES or words[0].startswith("infix") or words[0] in ("open", "mod") or is_signature(text, begins):
            is_link = "mod" in words[:2]
            found.append(Item(frozenset(words[-1:]) if is_link else declared(words, tokens[first:last], text), joined(words), span=span, is_link=is_link))
        elif found and not found[-1].is_link:
            found[-1].text += " " + joined(words)
            found[-1].span = found[-1].span[0], span[1]
        else:
            found.append(Item(frozenset(), joined(words), span=span))
    return found


def is_signature(text, at):
    """Whether a line `NAME : TYPE` begins here."""
    name = NAME.match(text, at)
    return bool(name) and TYPED.match(text, name.end()) is not None


def declared(words, tokens, text):
    """The names that an antt item declares: of a family its constructors too, of mutual ones each. None for `open`, which counts always."""
    if words[0] == "open":
        return frozenset()
    if words[0].startswith("infix"):
        return frozenset([key_of(words[2:])])
    keys, number, is_record = set(), 0, "record" in words[:3]
    while number < len(tokens):
        at = tokens[number][1]
        if number == 0 or not is_record and not text[text.rfind("\n", 0, at) + 1 : at].strip():
            declares = number == 0
            while number < len(tokens) - 1 and words[number] in DECLARES:
                declares = declares or words[number] in ("data", "record")
                number += 1
            name = NAME.match(text, tokens[number][1])
            if name and (declares or TYPED.match(text, name.end())):
                keys.add(key_of([it for it, _ in tokens_of(name[0], ".antt")]))
        number += 1
    return frozenset(keys)
