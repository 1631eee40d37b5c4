"""The types that a field may have: how they are read from a source file, and why others are refused."""
from dataclasses import dataclass, field

from tokens import END, Refused

RANGES = {f"{sign}{bits}": (-(1 << bits - 1) if sign == "i" else 0, (1 << bits - (sign == "i")) - 1) for sign in "ui" for bits in (8, 16, 32, 64, 128)}
RANGES |= {"usize": RANGES["u64"], "isize": RANGES["i64"]}
PRELUDE = {*RANGES, "bool", "char", "String", "Vec", "Option", "Box", "str"}
PARAMETERS = {"Option": 1, "Vec": 1, "BTreeMap": 2}
LIST = "take `Vec<T>`"
ITSELF = "take the type inside, or `Value` for a value that contains itself"
INSTEAD = {
    **dict.fromkeys(("f32", "f64"), "take `RawNumber`, whose `as_f64` returns the nearest float"),
    **dict.fromkeys(("HashMap", "IndexMap"), "take `BTreeMap<K, V>`"),
    **dict.fromkeys(("HashSet", "BTreeSet", "IndexSet", "VecDeque", "LinkedList", "BinaryHeap", "SmallVec", "ArrayVec"), LIST),
    **dict.fromkeys(("Box", "Rc", "Arc", "Cell", "RefCell"), ITSELF),
    **dict.fromkeys(("Duration", "Instant", "SystemTime"), "take an integer, or a `String` of the time as it is written"),
    **dict.fromkeys(("PathBuf", "OsString", "str"), "take `String`"),
    **dict.fromkeys(("Edit", "Path", "IgnoredAny"), "it is read and not written: take `Value`"),
    "Cow": "take `String`, or `CowStr<'a>` for text that is borrowed from the input",
    "Result": "take `Option<T>`, or a struct",
}
TUPLES = range(2, 9)
NO_KEYS = {"Vec", "BTreeMap", "Value", "Array", "Object", "RawNumber", "Number", "()", "(,)"}


@dataclass
class Kind:
    """A type: its text where the code is written, the last name of its path (of a tuple `(,)`), its arguments, and the names that it
    needs of the file that has the struct."""

    text: str
    head: str
    path: str = ""
    arguments: list = field(default_factory=list)
    needs: set = field(default_factory=set)
    lifetimes: set = field(default_factory=set)

    def all(self):
        """The type and all types in it."""
        yield self
        for it in self.arguments:
            yield from it.all()


def read_arguments(stream, close, outside):
    """The types and the lifetimes up to a bracket that closes."""
    kinds, lifetimes = [], []
    while not stream.takes(close):
        if stream.peek().kind == "lifetime":
            lifetimes.append(stream.take().text)
        else:
            kinds.append(read_kind(stream, outside))
        if not stream.takes(",") and stream.peek().text != close:
            raise Refused(f"`{stream.peek().text}` is no part of a type here", stream.peek().line)
    return kinds, lifetimes


def read_tuple(stream, outside):
    kinds, _ = read_arguments(stream, ")", outside)
    if kinds and len(kinds) not in TUPLES:
        raise Refused(f"a tuple of {len(kinds)} cannot be a field: take a struct")
    return Kind(f"({', '.join(it.text for it in kinds)})", "(,)" if kinds else "()", "", kinds)


def path_from_below(names, outside):
    """A path as it is written in a module below, and the name that it needs of the module above, or none."""
    if len(names) == 1:
        return names, None if names[0] in PRELUDE else names[0]
    if names[0] in ("crate", "std", "core", *outside):
        return names, None
    if names[0] == "self":
        return ["super", *names[1:]], None
    if names[0] == "super":
        return ["super", *names], None
    return names, names[0]


def read_kind(stream, outside):
    """The next type. `outside` has the names of other crates."""
    while stream.peek().kind == "comment":
        stream.take()
    token = stream.take()
    if token.text == "(":
        return read_tuple(stream, outside)
    if token.text == "[":
        raise Refused(f"an array or a slice cannot be a field: {LIST}")
    if token.text == "&":
        raise Refused("a reference cannot be a field: take `String`, or `CowStr<'a>` for text that is borrowed from the input")
    if token.kind != "word" or token.text in ("dyn", "fn", "impl", "for", "unsafe", "extern"):
        raise Refused(f"a type cannot begin with `{token.text}`" if token is not END else "the file ends within a type")
    names = [token.text]
    while stream.takes("::"):
        if stream.peek().kind != "word":
            break
        names.append(stream.take().text)
    kinds, lifetimes = read_arguments(stream, ">", outside) if stream.takes("<") else ([], [])
    path, need = path_from_below(names, outside)
    inside = ", ".join([*lifetimes, *(it.text for it in kinds)])
    text = "::".join(path)
    return Kind(f"{text}<{inside}>" if inside else text, names[-1], text, kinds, {need} - {None}, set(lifetimes))


@dataclass
class Surroundings:
    """Of a crate: the names of other crates, the types for which it or the library has impls, and the lengths of the tuples that have them."""

    outside: tuple
    own: set
    tuples: set


def check_kind(kind, around, lifetime):
    """Refuses a type that cannot be a field."""
    for it in kind.all():
        if it.head in INSTEAD and it.head not in around.own:
            raise Refused(f"`{it.head}` cannot be a field: {INSTEAD[it.head]}")
        if it.head == "(,)" and len(it.arguments) not in around.tuples:
            raise Refused(f"a tuple of {len(it.arguments)} cannot be a field, since no error explains one: take a struct")
        if it.head in PARAMETERS and len(it.arguments) != PARAMETERS[it.head]:
            raise Refused(f"`{it.text}`: `{it.head}` takes {PARAMETERS[it.head]} type{'s' * (PARAMETERS[it.head] > 1)}")
        if it.head == "BTreeMap" and it.arguments[0].head in NO_KEYS:
            raise Refused(f"`{it.arguments[0].text}` cannot be a key: a key is a `String`, a `char`, a `bool` or an integer")
        if it.lifetimes - {lifetime}:
            raise Refused(f"the struct has no lifetime `{min(it.lifetimes - {lifetime})}`")
