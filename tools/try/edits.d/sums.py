"""Which edits were tried on this text: `tools/edits/tried` has a line for each edit that was refused, with a sum of what that rests on.

What counts for an edit, and why it is enough. An edit is refused because a goal of a function is open once it is made. `rattle check` proves
each function by itself, by its own body and clauses, the contracts of what it calls, the types, constants and definitions that these name, and
the lemmas of proofs/. So the sum covers:
- The text of the edit, and of each function that it changes: attributes, signature, clauses, body. Functions of one cycle of calls are one proof,
  so their bodies count together.
- An edit may change something else: a constant, a type, a definition, a clause, or where an item begins. Then any function of its crate may be
  what refuses it, and all bodies of the crate count. Of a file of proofs/ that an edit changes the whole file counts.
- Of its own crate everything in src/ but other bodies, and all of specs/. What an attribute `tactic` or `inline` of another function says does
  not count, as it changes no goal. A line `use` or `mod` counts where a counted text has the name that it brings in.
- Of the crates below the items that are reached: those that a counted text names, closed over names. A word of a text is a name if its file
  declares or imports it, if it is written with a path, or, in code, if it is called as a method. All items of that name count, in whichever crate
  below: that errs to the side of trying again. But functions count only where code names them, since no clause calls one. What is used without
  being named, as an operator, a conversion or a loop, is in an impl of a trait: it counts as a whole once its type is named. The body counts of a
  constant function, and of one that returns `impl Trait`.
- Which crates are below, HANDLES, and what `rt version` prints: another prover may prove more, and has another library below.
Bodies of other functions, all other proofs, comments and blank space do not count: they change no goal. A proof can at most close a goal that is
true, and an edit is kept because what it makes false is none.
"""
import collections
import hashlib
import re
import subprocess

from edits import TOP, all_of, crates, is_inside, pairs_of
from items import items_of, joined, tokens_of, words_called, words_in_paths

# Words of paths that name no item.
OF_PATHS = {"use", "as", "Rattle", "specs", "declared", "TheVariants", "crate", "self", "super", "std"}


class File:
    """The items of a file, and the names that are in scope in it."""

    def __init__(self, path):
        self.items = items_of(path.read_text(), path.suffix)
        self.imports, self.seen = collections.defaultdict(list), {}
        for item in self.items:
            for key in item.keys if item.is_link else ():
                self.imports[key].append(item)
        self.declared = {key for item in self.items if not item.is_link for key in item.keys}
        # (what a line `use .. *` of this repository brings in is not known here)
        self.is_open = any(item.is_link and not item.keys and " std " not in item.text for item in self.items)

    def names(self, item):
        """What an item names that is not in its file, and the imports that it uses."""
        if item not in self.seen:
            self.seen[item] = (item.words - OF_PATHS, []) if item.is_link else self.names_in(item.text, item.is_code)
        return self.seen[item]

    def names_in(self, text, is_code):
        """The same of a text. Code also names the methods that it calls."""
        words = set(text.split(" "))
        names = words if self.is_open or "Rattle" in words else words & self.declared | words_in_paths(text)
        names |= words_called(text) if is_code else set()
        return names - OF_PATHS, [link for word in words & self.imports.keys() for link in self.imports[word]]


class Crate:
    """The files of a crate, and its items by the words that find them."""

    def __init__(self, folder):
        self.files, self.found_by = {}, collections.defaultdict(list)
        for part, kind in (("src", ".rt"), ("specs", ".antt")):
            for path in sorted((folder / part).rglob(f"*{kind}")):
                self.files[str(path.relative_to(folder))] = File(path)
        self.file_of = {item: file for file in self.files.values() for item in file.items}
        # (what has no name, such as a call of a macro that writes items, counts always)
        self.always = [item for item in self.file_of if not item.keys and not item.is_link]
        for item in self.file_of:
            for key in item.keys if item.is_public else ():
                self.found_by[key].append(item)


class Sums:
    """The sums of edits on the text of one checkout."""

    def __init__(self, top=TOP):
        self.top, self.parsed, self.bases = top, {}, {}
        lines = [line.partition(":") for line in (top / "crates.txt").read_text().splitlines() if re.match("[a-z]", line)]
        self.below = {name.split()[0]: below.split() for name, _, below in lines}
        self.version = subprocess.run(["rt", "version"], stdout=subprocess.PIPE, text=True, check=True).stdout

    def crate(self, name):
        if name not in self.parsed:
            self.parsed[name] = Crate(self.top / "crates" / name)
        return self.parsed[name]

    def crates_below(self, crate):
        """A crate, and those of the repository below it."""
        found, todo = [], [crate]
        while todo:
            name = todo.pop()
            if name in self.below and name not in found:
                found.append(name)
                todo += self.below[name]
        return found

    def base(self, crate):
        """What counts for each edit of a crate: its sum, the items that it reaches, and those below by name."""
        if crate in self.bases:
            return self.bases[crate]
        own = {item: file for item, file in self.crate(crate).file_of.items() if not item.is_link}
        names, begin = collections.defaultdict(list), [(*file.names(item), item.is_code) for item, file in own.items()]
        below = self.crates_below(crate)
        found = set()
        for other in (self.crate(name) for name in below[1:]):
            begin += [(*other.file_of[item].names(item), item.is_code) for item in other.always]
            found.update(other.always)
            for name, items in other.found_by.items():
                names[name] += [(item, other.file_of[item]) for item in items]
        found = reached(names, begin, found)
        frame = [self.version, (self.top / "HANDLES").read_text(), [(it, self.below[it]) for it in sorted(below)]]
        texts = [*frame, sorted(item.text for item in own), sorted(item.text for item in found)]
        self.bases[crate] = hashlib.sha256(repr(texts).encode()), found, names
        return self.bases[crate]

    def changed_items(self, crate, edit):
        """The functions of a crate whose bodies count for an edit, and the files of proofs/ that it changes."""
        folder, own, functions, proofs, is_wider = self.top / "crates" / crate, self.crate(crate), [], {}, False
        texts, moves = {}, collections.defaultdict(list)
        for path, old, new in pairs_of(edit):
            text = texts.setdefault(path, (folder / path).read_text())
            at = text.find(old)
            if path.startswith("proofs/"):
                proofs.setdefault(path, text)
            else:
                first, last = (place_of(it, moves[path]) for it in (at, at + len(old)))
                inside = [it for it in own.files[path].items if it.inside[0] <= first and last <= it.inside[1]] if is_inside(old, new) else []
                functions += inside
                is_wider = is_wider or not inside
            moves[path].append((at, len(old), len(new)))
            texts[path] = text.replace(old, new, 1)
        cycles = {item.cycle for item in functions} - {""}
        bodies = [item for item in own.file_of if item.body and (is_wider or item in functions or item.cycle in cycles)]
        return bodies, sorted(proofs.items())

    def of(self, crate, edit):
        """The sum of an edit of a crate; none of one that cannot be applied."""
        if not all((self.top / "crates" / crate / path).is_file() for path in changed_files(edit)):
            return ""
        base, found, names = self.base(crate)
        bodies, proofs = self.changed_items(crate, edit)
        own, files = self.crate(crate), self.crate(crate).file_of
        begin = [(*files[item].names_in(item.body, True), True) for item in bodies]
        begin += [(*own.files[path].names_in(text, True), True) for path, text in written(edit) if path in own.files]
        more = reached(names, begin, set(found)) - found
        texts = [edit.read_text(), sorted((item.text, item.about, item.body) for item in bodies), proofs, sorted(item.text for item in more)]
        total = base.copy()
        total.update(repr(texts).encode())
        return total.hexdigest()[:16]


def reached(by_name, todo, found):
    """Adds to the items that were found what names and imports lead to, and what those name. Only code names functions."""
    while todo:
        names, links, is_code = todo.pop()
        below = [pair for name in names & by_name.keys() for pair in by_name[name] if is_code or not pair[0].is_function]
        for item, file in [*((link, None) for link in links), *below]:
            if item not in found:
                found.add(item)
                todo.append((*(file.names(item) if file else (item.words - OF_PATHS, [])), item.is_code))
    return found


def changed_files(edit):
    return {path for path, _, _ in pairs_of(edit)}


def written(edit):
    """The tokens that an edit writes, with their files."""
    return [(path, joined(word for word, _ in tokens_of(new, path[path.rfind(".") :]))) for path, _, new in pairs_of(edit)]


def place_of(at, moves):
    """Where an offset is in a text before these changes, each with its place and the lengths before and after it."""
    for start, before, after in reversed(moves):
        at = at - after + before if at >= start + after else min(at, start)
    return at


def name_of(crate, edit):
    return f"{crate}/{edit.name}"


def tried(top=TOP):
    """The edits that were refused, each with the sum of the text on which it was."""
    file = top / "tools" / "edits" / "tried"
    return dict(line.split(" ") for line in file.read_text().splitlines()) if file.is_file() else {}


def note(sums, top=TOP):
    """Notes the sums of edits that were refused, and takes out those that came to something else (no sum), and those that are no more."""
    there = {name_of(crate, edit) for crate in crates(top) for edit in all_of(crate, top)}
    lines = {name: sum for name, sum in {**tried(top), **sums}.items() if sum and name in there}
    (top / "tools" / "edits" / "tried").write_text("".join(f"{name} {sum}\n" for name, sum in sorted(lines.items())))


def untried(wanted, top=TOP):
    """For each crate the edits that were not refused on this text."""
    sums, known = Sums(top), tried(top)
    def is_known(crate, edit):
        return known.get(name_of(crate, edit)) == sums.of(crate, edit)
    return {crate: [it for it in all_of(crate, top) if not is_known(crate, it)] for crate in wanted}


def changed(wanted):
    """Says which edits were not tried on this text. Whether none is left."""
    left = untried(wanted)
    for crate, edits in left.items():
        if edits:
            print(f"{crate}: {len(edits)} of {len(all_of(crate))}:", *(it.stem for it in edits))
    count = sum(len(it) for it in left.values())
    print(f"{count} of {sum(len(all_of(it)) for it in wanted)} edits were not tried on this text")
    return not count
