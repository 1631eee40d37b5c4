"""The code by which structs are read, written and explained."""
import re
from dataclasses import dataclass

HEAD = "// Written by tools/make/derive from the structs of the file above: edit those and run it again."


def chain(items, indent):
    """A list of the definitions' language, an item a line."""
    return (f"\n{indent}∷ ").join([*items, "[]"])


@dataclass
class Names:
    """The type parameters of the code, which are no types of the file: of texts that are lent, of tokens and of events."""

    text: str
    tokens: str
    events: str


def names_beside(taken):
    """The usual parameters, or these with a number after them where a type has the name."""
    return Names(*(next(it for it in (letter, *(f"{letter}{number}" for number in range(1, 100))) if it not in taken) for letter in "STE"))


def impl_of(struct, trait, names):
    """The head of an impl: lifetimes, the text that is lent, and the struct's type."""
    lent = f"&{struct.lifetime} str" if struct.lifetime else names.text
    kind = f"<{struct.lifetime}>" if struct.lifetime else ""
    params = f"<{struct.lifetime}>" if struct.lifetime else f"<{names.text}: InputStr>"
    return lent, kind, f"impl{params} {trait}<{lent}>"


def quote(kind, lent):
    return f"⟦<{kind} as DeserializeFrom<{lent}>>⟧"


def explained(kind, lent):
    return f"⟦<{kind} as Explain<{lent}>>⟧"


def so_far_of(struct, lent):
    """The definitions of a builder: its shape, the data that it has, and the data of a struct that was read."""
    shape, so_far, values = [], [], []
    for it in struct.fields:
        q = quote(it.kind.text, lent)
        reads = f"(codes {it.key}) {q}.from_tree"
        shape.append(f"or_default {reads} ({it.default[1]})" if it.default else f"needed {reads}")
        so_far.append(f"field_datum {q}.datum b.{it.name}")
        values.append(f"{q}.datum v.{it.name}")
    return [
        f"    ghost shape = {{ record {{ fields = {chain(shape, '        ')}; strict = {str(struct.strict).lower()} }} }};",
        "",
        f"    ghost so_far = {{ λ b. list_data ({chain(so_far, '        ')}) }};",
        "",
        f"    ghost values = {{ λ v. {chain(values, '        ')} }};",
        "",
    ]


def member_of(struct, lent, names):
    """The function by which a builder reads a member."""
    arms = []
    for it in struct.fields:
        arms += [
            f"            {it.key} => {{",
            f"                let value = <{it.kind.text} as DeserializeFrom<{lent}>>::deserialize(alloc, tokens)?;",
            f"                self.{it.name} = Some(value);",
            "            }",
        ]
    other = ["            _ => tokens.skip()?,"]
    if struct.strict:
        other = ["            _ => {", "                tokens.skip()?;", "                return Err(error_without_place(ErrorCode::TypeUnmatched));", "            }"]
    return [
        f"    fn member<{names.tokens}: Tokens<{lent}>>(&mut self, alloc: Global, name: &str, tokens: &mut {names.tokens}) -> Result<()> {{",
        "        match name {",
        *arms,
        *other,
        "        }",
        "        Ok(())",
        "    }",
        "",
    ]


def build_of(struct, kind):
    """The function that makes the struct of what was read."""
    # (a field that is named as something of the function has another name within it)
    local = {it.name: f"{it.name}_read" if it.name in ("alloc", "required") else it.name for it in struct.fields}
    taken = ", ".join(name if name == local[name] else f"{name}: {local[name]}" for name in local)
    built = []
    for it in struct.fields:
        if it.default:
            arms = [f"                Some({local[it.name]}) => {local[it.name]},", f"                None => {it.default[0]},"]
            built += [f"            {it.name}: match {local[it.name]} {{", *arms, "            },"]
        else:
            built.append(f"            {it.name}: required({local[it.name]})?,")
    uses_alloc = any(it.default and "alloc" in it.default[0] for it in struct.fields)
    return [
        f"    fn build(self, alloc: Global) -> Result<{struct.name}{kind}> {{",
        *([] if uses_alloc else ["        let _ = alloc;"]),
        f"        let {struct.name}Builder {{ {taken} }} = self;",
        f"        Ok({struct.name} {{",
        *built,
        "        })",
        "    }",
    ]


def builder_of(struct, names):
    """The builder: what was read of each field so far."""
    lent, kind, head = impl_of(struct, "Builder", names)
    name = f"{struct.name}Builder{kind}"
    return [
        f"// What was read of the members of `{struct.name}` so far.",
        "#[derive(Drop)]",
        f"struct {name} {{",
        *[f"    {it.name}: Option<{it.kind.text}>," for it in struct.fields],
        "}",
        "",
        f"{head} for {name} {{",
        f"    type Built = {struct.name}{kind};",
        "",
        *so_far_of(struct, lent),
        "    fn new() -> Self {",
        f"        {struct.name}Builder {{",
        *[f"            {it.name}: None," for it in struct.fields],
        "        }",
        "    }",
        "",
        *member_of(struct, lent, names),
        *build_of(struct, kind),
        "}",
        "",
    ]


def reader_of(struct, names):
    """The impl by which the struct is read."""
    lent, kind, head = impl_of(struct, "DeserializeFrom", names)
    builder = f"{struct.name}Builder{kind}"
    q = f"⟦<{builder} as Builder<{lent}>>⟧"
    return [
        f"{head} for {struct.name}{kind} {{",
        f"    ghost datum = {{ λ v. struct_datum {q}.shape ({q}.values v) }};",
        "",
        f"    ghost from_tree = {{ spec_read_struct {q}.shape }};",
        "",
        f"    fn deserialize<{names.tokens}: Tokens<{lent}>>(alloc: Global, tokens: &mut {names.tokens}) -> Result<{struct.name}{kind}> {{",
        f"        read_struct::<{lent}, {builder}, {names.tokens}>(alloc, tokens)",
        "    }",
        "",
        f"    fn try_deserialize<{names.tokens}: Tokens<{lent}>>(alloc: Global, tokens: &mut {names.tokens}) -> Result<Option<{struct.name}{kind}>> {{",
        f"        try_read_struct::<{lent}, {builder}, {names.tokens}>(alloc, tokens)",
        "    }",
        "}",
        "",
    ]


def writer_of(struct, names):
    """The impl by which the struct is written. Its datum is that which is read."""
    kind = f"<{struct.lifetime}>" if struct.lifetime else ""
    lent = f"&{struct.lifetime} str" if struct.lifetime else "&'static str"
    key = "'key" if struct.lifetime == "'k" else "'k"
    fields = [f"Field {{ name: {it.key}, value: &self.{it.name} }}" for it in struct.fields]
    nested = fields[-1]
    for it in reversed(fields[:-1]):
        nested = f"({it}, {nested})"
    return [
        f"impl{kind} Serialize for {struct.name}{kind} {{",
        f"    ghost datum = {{ {quote(struct.name + kind, lent)}.datum }};",
        "",
        f"    fn serialize<{names.events}: Events>(&self, out: &mut {names.events}) -> Result<()> {{",
        f"        let fields = {nested};",
        "        serialize_fields(&fields, out)",
        "    }",
        "",
        f"    fn key<{key}>(&{key} self, room: &{key} mut KeyRoom) -> Option<&{key} str> {{",
        "        let _ = room;",
        "        None",
        "    }",
        "}",
        "",
    ]


def explains_members(struct, lent, names):
    """The functions that explain a member, and that name one that is missing."""
    arms, missing = [], []
    for it in struct.fields:
        arms += [
            f"            {it.key} => {{",
            f"                self.{it.name} = true;",
            f"                <{it.kind.text} as Explain<{lent}>>::explain(alloc, tokens)",
            "            }",
        ]
        if it.default is None:
            missing += [f"        if !self.{it.name} {{", f"            return Some({it.key});", "        }"]
    skip = ["            _ => {", "                tokens.skip()?;", "                Ok(None)", "            }"]
    refuse = ["            _ => explain_key(alloc, tokens, ErrorCode::TypeUnmatched),"]
    return [
        f"    fn member<{names.tokens}: Tokens<{lent}>>(&mut self, alloc: Global, key: &Piece<{lent}>, name: &str, tokens: &mut {names.tokens}) -> Result<Option<Refusal>> {{",
        "        let _ = key;",
        "        match name {",
        *arms,
        *(refuse if struct.strict else skip),
        "        }",
        "    }",
        "",
        "    fn missing(&self) -> Option<&str> {",
        *missing,
        "        None",
        "    }",
        "}",
        "",
    ]


def explainer_of(struct, names):
    """The impl by which a refusal of the struct is explained."""
    lent, kind, head = impl_of(struct, "Explain", names)
    members = head.replace("Explain<", "ExplainMembers<")
    name = f"{struct.name}Seen"
    reading = [f"field_reading (codes {it.key}) {explained(it.kind.text, lent)}.refused {str(it.default is None).lower()}" for it in struct.fields]
    return [
        f"// Which members of `{struct.name}` were seen.",
        "#[derive(Drop)]",
        f"struct {name} {{",
        *[f"    {it.name}: bool," for it in struct.fields],
        "}",
        "",
        f"{members} for {name} {{",
        f"    ghost reading = {{ struct_reading {str(struct.strict).lower()} ({chain(reading, '        ')}) }};",
        "",
        f"    ghost seen = {{ λ m. {' ∷ '.join(f'm.{it.name}' for it in struct.fields)} ∷ [] }};",
        "",
        *explains_members(struct, lent, names),
        f"{head} for {struct.name}{kind} {{",
        f"    ghost refused = {{ object_refused ⟦<{name} as ExplainMembers<{lent}>>⟧.reading ({'false ∷ ' * len(struct.fields)}[]) }};",
        "",
        f"    fn explain<{names.tokens}: Tokens<{lent}>>(alloc: Global, tokens: &mut {names.tokens}) -> Result<Option<Refusal>> {{",
        f"        let mut seen = {name} {{",
        *[f"            {it.name}: false," for it in struct.fields],
        "        };",
        "        explain_members(alloc, &mut seen, tokens)",
        "    }",
        "}",
        "",
    ]


@dataclass
class Paths:
    """From where the impls are: the code and the definitions of readers and writers, and those of what explains refusals, if the
    crate has that."""

    code: str
    specs: str
    explain: str | None
    explain_specs: str | None


def named(line, names):
    """A line of imports of these names, if there are any."""
    if not names:
        return []
    return [f"{line}{{{', '.join(names)}}};" if len(names) > 1 or line.startswith("ghost") else f"{line}{names[0]};"]


def named_above(structs):
    """The names that the code takes from the file above it."""
    return {it.name for it in structs} | {need for it in structs for member in it.fields for kind in member.kind.all() for need in kind.needs}


def imports_of(structs, paths, body):
    """The lines of imports: what the body names."""

    def used(names):
        return [it for it in sorted(names) if re.search(rf"(?<![\w.]){it.split()[-1]}\b", body)]

    data = used(["boolean_datum", "integer_datum", "list_data", "list_datum", "no_data", "no_rows", "null_datum", "rows_datum", "text_datum"])
    fields = used(["field_datum", "or_default", "read_struct as spec_read_struct", "required as needed", "struct_datum"])
    explained = used(["field_reading", "object_refused", "struct_reading"])
    calls = used(["Builder", "DeserializeFrom", "ErrorCode", "Events", "Field", "InputStr", "KeyRoom", "Result", "Serialize", "Tokens", "error_without_place", "read_struct", "required", "serialize_fields", "try_read_struct"])
    explaining = used(["Explain", "ExplainMembers", "Piece", "Refusal", "explain_key", "explain_members"])
    own = sorted(named_above(structs))
    return [
        *named("ghost use Rattle.std.specs.Prelude.", ["[]", "◌∷◌", *used(["codes", "false", "negsuc", "pos", "true"])]),
        *named(f"ghost use {paths.specs}.Datum.", data),
        *named(f"ghost use {paths.specs}.Fields.", fields),
        *named(f"ghost use {paths.explain_specs}.Refused.", explained),
        "",
        *named("use super::", own),
        *named(f"use {paths.code}::", calls),
        *named(f"use {paths.explain}::", explaining),
        "use std::alloc::Global;",
        "",
    ]


def module_of(structs, paths):
    """The file of some structs."""
    names = names_beside(named_above(structs))
    parts = [builder_of, reader_of, *([explainer_of] if paths.explain else []), writer_of]
    body = [line for it in structs for part in parts for line in part(it, names)]
    return "\n".join([HEAD, *imports_of(structs, paths, "\n".join(body)), *body])
