"""The edits of both folders: where they are, what they change, and what is wrong with the folders or with what the documents say of them."""
import collections
import pathlib
import re

TOP = pathlib.Path(__file__).resolve().parents[3]
# At most so many edits of one crate are in the gate, and only of crates that are proved in so many processor minutes, or are named here.
MOST, MINUTES, ALWAYS = 12, 1.5, ("reshape",)
ITEM = re.compile(r"\b(fn|impl|trait|const|static|struct|enum|mod|use|macro_rules|cycle)\b")
NUMBERS = re.compile(r"(\d+) in all, (\d+) in the gate \(of (\d+) crates\) and (\d+) outside")
PAGES = ("CONTRIBUTING.md", "docs/ARCHITECTURE.md", "docs/CLAIMS.md", "docs/DECISIONS.md", "docs/DEFINITIONS.md")


def crates(top=TOP):
    return [line.split(":")[0].split()[0] for line in (top / "crates.txt").read_text().splitlines() if re.match("[a-z]", line)]


def edits_of(crate, top=TOP):
    """The edits of a crate: those of the gate, and those outside."""
    folders = top / "crates" / crate / "must-fail", top / "tools" / "edits" / crate
    return [sorted(folder.glob("*.edit")) for folder in folders]


def all_of(crate, top=TOP):
    return [edit for folder in edits_of(crate, top) for edit in folder]


def pairs_of(edit):
    """The changes of an edit in their order: a file, an old text and the new one."""
    path, old, found = "", "", []
    for line in edit.read_text().split("\n"):
        if line.startswith("file: "):
            path = line.removeprefix("file: ").strip()
        elif line.startswith("old: "):
            old = line.removeprefix("old: ")
        elif line.startswith("new:"):
            found.append((path, old, line.removeprefix("new:").removeprefix(" ")))
    return found


def is_inside(old, new):
    """Whether a new text writes no item and leaves the braces around it as an old text has them."""
    def braces(text):
        depth, least = 0, 0
        for it in text:
            depth += (it == "{") - (it == "}")
            least = min(least, depth)
        return depth, least
    items = [collections.Counter(ITEM.findall(it)) for it in (old, new)]
    return braces(old)[0] == braces(new)[0] and braces(old)[1] <= braces(new)[1] and items[1] <= items[0]


def fault_of(edit, crate):
    """Why an edit cannot be applied, if it cannot."""
    path, old, texts, changes = None, None, {}, 0
    for line in edit.read_text().split("\n"):
        word, _, text = line.partition(":")
        text = text.removeprefix(" ")
        if word == "file":
            path = text.strip()
            if not path.startswith(("src/", "specs/", "proofs/")) or not (TOP / "crates" / crate / path).is_file():
                return f"there is no file {path} below src, specs or proofs"
            texts.setdefault(path, (TOP / "crates" / crate / path).read_text())
        elif word == "old":
            old = text
        elif word == "new":
            if not path or not old:
                return "a line 'new:' has no line 'file:' or 'old:' before it"
            count = texts[path].count(old)
            if count != 1:
                return f"an 'old:' text stands {count} times in {path}: {old.strip()[:60]}"
            texts[path] = texts[path].replace(old, text)
            changes += old != text
            old = None
        elif line.strip():
            return f"a line begins with none of 'file:', 'old:', 'new:': {line.strip()[:60]}"
    if old:
        return f"an 'old:' text has no line 'new:' behind it: {old.strip()[:60]}"
    return None if changes else "it changes nothing"


def minutes():
    """The processor minutes of the proof of each crate, by the table in CONTRIBUTING.md."""
    found, column = {}, None
    for line in (TOP / "CONTRIBUTING.md").read_text().splitlines():
        cells = [cell.strip().strip("`") for cell in line.strip().strip("|").split("|")] if line.startswith("|") else []
        if cells and cells[0] == "crate":
            column = cells.index("proof") if "proof" in cells else None
        elif not cells:
            column = None
        elif column is not None and len(cells) > column and re.fullmatch(r"\d+(\.\d+)?", cells[column]):
            found[cells[0]] = float(cells[column])
    return found


def strangers():
    """What is in the folders of edits and is no edit of a crate."""
    known = crates()
    for path in sorted([*TOP.glob("crates/*/must-fail/**/*"), *TOP.glob("tools/edits/**/*")]):
        crate, *inside = path.relative_to(TOP / ("crates" if "must-fail" in path.parts else "tools/edits")).parts
        if path == TOP / "tools" / "edits" / "tried":
            continue
        if crate not in known or not path.is_dir() and (path.suffix != ".edit" or inside[:-1] not in ([], ["must-fail"])):
            yield f"{path.relative_to(TOP)} is no edit of a crate that crates.txt lists"


def faults_of(crate, proof):
    """What is wrong with the edits of a crate, whose proof takes so many minutes."""
    gate, outside = edits_of(crate)
    if len(gate) > MOST:
        yield f"must-fail has more than {MOST}"
    if gate and crate not in ALWAYS and (proof is None or proof > MINUTES):
        told = "no table of CONTRIBUTING.md says how long its proof takes" if proof is None else f"its proof takes {proof} minutes"
        yield f"must-fail has edits, and {told}: they belong in tools/edits/{crate}"
    for twice in sorted({it.name for it in gate} & {it.name for it in outside}):
        yield f"{twice} stands in both folders"
    for edit in gate + outside:
        if fault := fault_of(edit, crate):
            yield f"{edit.relative_to(TOP)} cannot be applied: {fault}"


def misstated():
    """What the documents say of the numbers of edits that is not so. README.md alone says them."""
    both = [edits_of(crate) for crate in crates()]
    gate, outside = (sum(len(it[number]) for it in both) for number in (0, 1))
    wanted = gate + outside, gate, sum(bool(it[0]) for it in both), outside
    told = NUMBERS.findall(" ".join((TOP / "README.md").read_text().split()))
    if [tuple(map(int, it)) for it in told] != [wanted]:
        yield "README.md has to say once: {} in all, {} in the gate (of {} crates) and {} outside".format(*wanted)
    for page in PAGES:
        for found in re.finditer(r"(?<![\d^,.])\d+ (?:must-fail |more )?edits\b", " ".join((TOP / page).read_text().split())):
            yield f"{page} says '{found[0]}': README.md alone says how many edits there are"


def apply(wanted):
    """Whether all edits can be applied, and the gate and the documents have those that they should have."""
    wrong, counts, table = [*strangers(), *misstated()], [0, 0], minutes()
    print(*wrong, sep="\n", end="\n" if wrong else "")
    for crate in wanted:
        both = edits_of(crate)
        if any(both):
            print(f"{crate}: {len(both[0])} in the gate, {len(both[1])} outside")
            counts = [sum + len(edits) for sum, edits in zip(counts, both)]
            faults = list(faults_of(crate, table.get(crate)))
            print(*(f"  {it}" for it in faults), sep="\n", end="\n" if faults else "")
            wrong += faults
    print(f"{sum(counts)} edits: {counts[0]} in the gate, {counts[1]} outside; {len(wrong)} wrong")
    return not wrong
