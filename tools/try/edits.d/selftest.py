"""Changes a copy of the crates in turn, and looks which edits `tools/try/edits --changed` would name."""
import pathlib
import shutil
import tempfile

from edits import TOP, all_of
from items import items_of, tokens_of
from sums import Sums, changed_files, name_of

# A crate with edits, one below it, one that is not above that, and one above all. Only their edits are looked at.
MIDDLE, LOWEST, APART, ABOVE = "json_text", "json_grammar", "json_io", "json_doc"


def words(text, kind):
    return [word for word, _ in tokens_of(text, kind)]


def check_tokens():
    """What is a comment in either language, and what is none."""
    yield words('a /* b /* c */ d */ e // f\n"// g" \'"\' h\'', ".rt") == ["a", "e", '"//\\32g"', "'\"'", "h'"]
    yield words('r#"a " /* b"# x \'a: b\' b\'\\\'\' y', ".rt") == ['r#"a\\32"\\32/*\\32b"#', "x", "'a", ":", "b'", "b'\\''", "y"]
    yield words('a -- b\nc (-- d\n) {- e {- f -} g -} "-- h" i', ".antt") == ["a", "c", "(", ")", '"--\\32h"', "i"]
    yield [it.text for it in items_of("use A.{b as c, D.{e}}\n", ".antt")] == ["use A . b as c", "use A . D . e"]
    found = items_of("impl<T: A> B for C<T> {\n    ghost d = { e };\n    fn f(&self) ensures { g } { h }\n}\n", ".rt")
    yield [(sorted(it.keys), it.body) for it in found] == [(["C"], ""), (["C"], ""), (["C"], "{ h }")]
    found = items_of("abbrev mutual\n  pub f : A\n  f = b\nunfoldable pub g : A\n-- c\ng = d\nh : A\nh = e\n", ".antt")
    yield [sorted(it.keys) for it in found] == [["f"], ["g"], ["h"]]


def sums_of(top):
    found = Sums(top)
    return {name_of(crate, edit): found.of(crate, edit) for crate in (LOWEST, APART, MIDDLE, ABOVE) for edit in all_of(crate, top)}


class Copy:
    """A copy in which one file at a time is changed."""

    def __init__(self, top):
        self.top = top
        ignored = shutil.ignore_patterns("out")
        shutil.copytree(TOP / "crates", top / "crates", ignore=ignored)
        shutil.copytree(TOP / "tools" / "edits", top / "tools" / "edits")
        for name in ("crates.txt", "HANDLES"):
            shutil.copy(TOP / name, top / name)
        self.sums = sums_of(top)

    def named(self, path, change):
        """The edits whose sums change with a file."""
        file = self.top / path
        old = file.read_text()
        new = change(old)
        if new == old:
            raise ValueError(f"{path} is not changed")
        file.write_text(new)
        found = {name for name, sum in sums_of(self.top).items() if sum != self.sums[name]}
        file.write_text(old)
        return found


def of(*names):
    return {name_of(crate, edit) for crate in names for edit in all_of(crate)}


def clause_of(copy, crate):
    """A file of a crate with a clause, and the change of it by a word."""
    path = next(path for path in sorted((copy.top / "crates" / crate / "src").rglob("*.rt")) if "    ensures {" in path.read_text())
    return path, lambda text: text.replace("    ensures {", "    ensures other {", 1)


def free_body(copy, crate):
    """A file that no edit of the crate changes, and the change of a body in it; it counts only for edits of more than bodies."""
    found, folder = Sums(copy.top), copy.top / "crates" / crate
    taken = {path for edit in all_of(crate) for path in changed_files(edit)}
    for path in sorted((folder / "src").rglob("*.rt")):
        item = next((it for it in found.crate(crate).files[str(path.relative_to(folder))].items if it.inside[1]), None)
        if item and str(path.relative_to(folder)) not in taken:
            at = item.inside[0]
            wide = {name_of(crate, it) for it in all_of(crate) if item in found.changed_items(crate, it)[0]}
            return path, lambda text: text[:at] + " let unused = 0; " + text[at:], wide
    raise ValueError("each file has an edit")


def changed_body(copy, crate):
    """A file with an edit inside a body, and the change of that body: with the edits that it has to name."""
    found = Sums(copy.top)
    for edit in all_of(crate):
        bodies, _ = found.changed_items(crate, edit)
        path = next(iter(changed_files(edit)))
        if len(bodies) == 1 and len(changed_files(edit)) == 1 and path.startswith("src/"):
            at = bodies[0].inside[0]
            same = {name_of(crate, it) for it in all_of(crate) if bodies[0] in found.changed_items(crate, it)[0]}
            return copy.top / "crates" / crate / path, lambda text: text[:at] + " let unused = 0; " + text[at:], same
    raise ValueError("no edit changes one body")


def check_changes(copy):
    """For each change whether it names the edits that it should."""
    middle = of(MIDDLE)
    named = copy.named(*clause_of(copy, MIDDLE))
    yield "a clause", middle <= named and not named & of(LOWEST, APART)
    path, change = clause_of(copy, MIDDLE)
    yield "a comment", not copy.named(path, lambda text: "// ensures { one }\n" + text.replace("\n    ensures {", "\n    /* two */ ensures {", 1))
    yield "blank space", not copy.named(path, lambda text: text.replace("\n    ensures {", "\n\n        ensures\n  {", 1))
    proof = next((copy.top / "crates" / MIDDLE / "proofs").rglob("Answers.antt"))
    yield "a proof", not copy.named(proof, lambda text: text + "\nx = y\n")
    path, change, wide = free_body(copy, MIDDLE)
    yield "another body", wide == copy.named(path, change) and len(wide) < len(middle) / 4
    path, change, same = changed_body(copy, MIDDLE)
    yield "the body that an edit changes", same == copy.named(path, change)
    grammar = copy.top / "crates" / LOWEST / "specs" / "Grammar.antt"
    yield "a comment of a definition", not copy.named(grammar, lambda text: text.replace("\n\n", "\n\n-- is_text\n", 1))
    named = copy.named(grammar, lambda text: text.replace("pub is_text : Tree", "pub is_text : ℕ → Tree", 1))
    yield "a definition of the grammar", of(LOWEST, MIDDLE, ABOVE) <= named and not named & of(APART)
    yield "the list of crates", of(MIDDLE, ABOVE) <= copy.named("crates.txt", lambda text: text.replace(f"\n{MIDDLE}: bstr", f"\n{MIDDLE}:", 1))


def run():
    """Whether all is right."""
    right = True
    for number, holds in enumerate(check_tokens(), 1):
        right = right and holds
        if not holds:
            print(f"WRONG: the tokens or items of text {number}")
    with tempfile.TemporaryDirectory(prefix="edits-") as at:
        for what, holds in check_changes(Copy(pathlib.Path(at))):
            right = right and holds
            print(f"{what} changed: {'it names the right edits' if holds else 'WRONG: it names other edits'}")
    return right
