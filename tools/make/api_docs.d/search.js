// Lists the names that contain what is typed, those that begin with it first.
const box = document.getElementById("search");
const found = document.getElementById("found");
const MAX_ROWS = 40;

function rank(name, wanted) {
  const last = name.split("::").pop();
  return name === wanted || last === wanted ? 0 : last.startsWith(wanted) ? 1 : 2;
}

function show() {
  const wanted = box.value.trim().toLowerCase();
  found.replaceChildren();
  if (!wanted) return;
  const hits = NAMES.map(([name, crate, at]) => [name.toLowerCase(), name, crate, at])
    .filter(([lower]) => lower.includes(wanted))
    .sort((a, b) => rank(a[0], wanted) - rank(b[0], wanted) || a[0].length - b[0].length);
  for (const [, name, crate, at] of hits.slice(0, MAX_ROWS)) {
    const row = document.createElement("li");
    const link = document.createElement("a");
    const from = document.createElement("span");
    link.href = at;
    link.textContent = name;
    from.textContent = crate;
    row.append(link, from);
    found.append(row);
  }
}

box.addEventListener("input", show);
document.addEventListener("keydown", (event) => {
  if (event.key === "/" && document.activeElement !== box) {
    event.preventDefault();
    box.focus();
  }
});
show();
