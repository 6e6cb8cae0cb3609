#!/usr/bin/env python3
"""Draws the crates in layers, from crates.txt: docs/crates.svg, legible at the width of a page and in light and dark.

A layer is what the table below says; in a layer the crates stand in groups, and in a group above what they depend on, with a line to each crate of
the group that they need at first hand. Beside a group stand the groups below that it needs at first hand. Programs are the crates with a
src/main.rt; a crate that the table lacks goes to the group of what it stands on. Crates without functions are theorems alone.

    python3 tools/crate_map.py            # writes docs/crates.svg
    python3 tools/crate_map.py --check    # fails where the file is not what crates.txt says, or docs/MAP.md lacks a crate or has one too many
"""
import pathlib
import re
import sys

ROOT = pathlib.Path(__file__).resolve().parent.parent
OUT = ROOT / "docs" / "crates.svg"
PAGE = ROOT / "docs" / "MAP.md"

# From the top: a layer, what it is in a few words, and its groups.
LAYERS = [
    ("Programs", "which the tests run", [("programs", "")]),
    ("On top", "what users call; theorems over several calls", [
        ("C and Rust", "wire inplace mergewire graphwire reportwire tracewire linenhatch linenhatch_c"),
        ("theorems", "graphtold owngraph hiding hidingorder embargo")]),
    ("Calls", "each with a promise of its own", [
        ("reports", "swatch calendar feed tally driver lister reports termsreport"),
        ("graph files", "levels graphfile graphbytes graphplan graphwrite"),
        ("tested opening", "judging falling tested opentested"),
        ("where two series part", "stain parting mergebase"),
        ("tracing by turns", "memo withinreach moves trace"),
        ("names", "fsck")]),
    ("The lister", "open and next", [
        ("lister", "links rowvisit bodyvisit visit frontier refill painting traverse simple")]),
    ("Lent memory", "tables, queues, state; what reads into them", [
        ("lent memory", "hashtable revwalk pending state reading opening reach")]),
    ("The walk", "as mathematics", [("walk", "walk")]),
    ("The files", "what is read, and the digests of names", [
        ("readers", "odb actor object commitgraph commit commititer"),
        ("digests", "digest sha1_hash sha256 commitid")]),
    ("Bytes", "ids, numbers, times; what programs share", [("bytes", "hash date idlist walks host")]),
]
PROGRAMS, LIBRARY = "programs", "C and Rust"

WIDTH, LABEL, MARGIN = 880, 132, 14                  # of the picture, of the column of labels, around both
CHIP_H, ROW_H, CHAR, PAD, GAP = 22, 33, 6.7, 9, 10    # of a crate's box, of a row of them, of a letter, beside a name, between boxes
INSIDE, TITLE, NEEDS = 12, 20, 15                    # around a group's boxes; its title; a line of what it needs
STYLE = """
text{font-family:ui-sans-serif,system-ui,-apple-system,"Segoe UI","DejaVu Sans",Helvetica,Arial,sans-serif;font-size:12px;fill:#1f2933}
.page{fill:#ffffff}.band{fill:#f3f5f8}.group{fill:#ffffff;stroke:#cbd3dd}.line{fill:none;stroke:#8a97a8;stroke-width:1}
.layer{font-size:14px;font-weight:600}.said,.needs{font-size:11px;fill:#5b6877}.title{font-weight:600}
.library{fill:#dfeaf8;stroke:#5f86b8}.program{fill:#e2f2e0;stroke:#5f9a63}.theorems{fill:#faedcf;stroke:#b58b34}
@media (prefers-color-scheme:dark){text{fill:#e3e8ee}
.page{fill:#0d1117}.band{fill:#161b22}.group{fill:#0d1117;stroke:#36404c}.line{stroke:#7d8996}.said,.needs{fill:#9aa7b4}
.library{fill:#17304f;stroke:#5b8fce}.program{fill:#163a22;stroke:#4f9d61}.theorems{fill:#43340f;stroke:#bd9440}}
"""


def read_crates():
    """The dependencies of each crate that stands in this repository."""
    deps = {}
    for line in (ROOT / "crates.txt").read_text().splitlines():
        if line.startswith("#") or ":" not in line:
            continue
        name, rest = line.split(":", 1)
        deps[name.split()[0]] = rest.split()          # behind a static library's name stands "staticlib"
    return {name: [d for d in ds if d in deps] for name, ds in deps.items()}


def kind_of(name):
    """Program, theorems alone, or library."""
    src = ROOT / "crates" / name / "src"
    if (src / "main.rt").exists():
        return "program"
    text = "".join(p.read_text() for p in src.rglob("*.rt"))
    return "library" if re.search(r"\bfn \w+", text) else "theorems"


def all_below(deps):
    """All that each crate, or group, stands on."""
    below = {}

    def at(name):
        if name not in below:
            below[name] = set(deps[name]).union(*(at(d) for d in deps[name]))
        return below[name]

    for name in deps:
        at(name)
    return below


def first_hand(deps):
    """The dependencies that do not follow from others."""
    below = all_below(deps)
    return {n: [d for d in ds if not any(d in below[e] for e in ds if e != d)] for n, ds in deps.items()}


def groups_of(deps):
    """The group of each crate; and the height of each group's layer, the lowest 0."""
    group, height = {}, {}
    for k, (_, _, groups) in enumerate(reversed(LAYERS)):
        for title, names in groups:
            height[title] = k
            group.update((n, title) for n in names.split() if n in deps)
    for n, ds in deps.items():                       # crates.txt has each crate behind what it stands on
        if kind_of(n) == "program":
            group[n] = PROGRAMS
        elif n not in group:
            group[n] = LIBRARY if n.endswith("wire") else max((group[d] for d in ds), key=height.get, default="bytes")
    return group, height


def group_needs(deps, group):
    """The groups that each group stands on."""
    needs = {g: [] for _, _, groups in LAYERS for g, _ in groups}
    for n, ds in deps.items():
        for d in ds:
            if group[d] != group[n] and group[d] not in needs[group[n]]:
                needs[group[n]].append(group[d])
    return needs


def width_of(name):
    return 2 * PAD + CHAR * len(name)


def rows_of(names, edges, most):
    """The boxes of a group in rows, the lowest first: each above all that it needs here, and near to it; a row that is too wide is parted evenly."""
    depth = {}
    for n in names:
        depth[n] = 1 + max((depth[d] for d in edges[n]), default=-1)
    beside = {n: edges[n] + [m for m in names if n in edges[m]] for n in names}
    rows = [[n for n in names if depth[n] == k] for k in range(max(depth.values()) + 1)]
    for _ in range(4):                               # each box to the middle of those that lines go to
        for row in rows[::-1] + rows:
            place = {n: (i + 0.5) / len(r) for r in rows for i, n in enumerate(r)}
            row.sort(key=lambda n: sum(place[m] for m in beside[n]) / len(beside[n]) if beside[n] else 2)
    parts = []
    for row in rows:
        size = -(-len(row) // (1 + int(sum(width_of(n) + GAP for n in row) / most)))
        parts += [row[i:i + size] for i in range(0, len(row), size)]
    return parts


class Group:
    """A group laid out: its size, its boxes by their middle, top and width, and its lines."""

    def __init__(self, title, names, edges, needs, most, framed):
        inside = set(names)
        self.title, self.framed = title, framed
        self.edges = {n: [d for d in edges[n] if d in inside] for n in names}
        rows = rows_of(names, self.edges, most - 2 * INSIDE)
        wide = max(sum(width_of(n) + GAP for n in row) - GAP for row in rows)
        self.width = min(most, max(wide, 7.2 * len(title), 130) + 2 * INSIDE)
        self.needs = wrapped("on " + ", ".join(needs), int((self.width - 2 * INSIDE) / 5.7)) if needs and framed else []
        top = INSIDE + TITLE + NEEDS * len(self.needs) if framed else 2
        self.height = top + ROW_H * len(rows) - (ROW_H - CHIP_H) + (INSIDE if framed else 2)
        self.boxes = {}
        for k, row in enumerate(reversed(rows)):
            x = (self.width - sum(width_of(n) + GAP for n in row) + GAP) / 2
            for n in row:
                self.boxes[n] = (x + width_of(n) / 2, top + k * ROW_H, width_of(n))
                x += width_of(n) + GAP

    def spread(self, more):
        """Makes the group wider, its boxes in the middle."""
        self.width += more
        self.boxes = {n: (a + more / 2, top, w) for n, (a, top, w) in self.boxes.items()}

    def draw(self, x, y):
        out = []
        if self.framed:
            out.append(f'<rect class="group" x="{x:.1f}" y="{y:.1f}" width="{self.width:.1f}" height="{self.height:.1f}" rx="6"/>')
            out.append(f'<text class="title" x="{x + INSIDE:.1f}" y="{y + INSIDE + 9:.1f}">{self.title}</text>')
        for k, line in enumerate(self.needs):
            out.append(f'<text class="needs" x="{x + INSIDE:.1f}" y="{y + INSIDE + TITLE + NEEDS * k + 3:.1f}">{line}</text>')
        for n, ds in self.edges.items():
            a, top, _ = self.boxes[n]
            for d in ds:
                b, low, _ = self.boxes[d]
                start, end = y + top + CHIP_H, y + low
                bend = (end - start) / 2
                points = ((x + a, start), (x + a, start + bend), (x + b, end - bend), (x + b, end))
                out.append('<path class="line" d="M{}C{} {} {}"/>'.format(*(f"{u:.1f} {v:.1f}" for u, v in points)))
        for n, (a, top, w) in self.boxes.items():
            out.append(f'<rect class="{kind_of(n)}" x="{x + a - w / 2:.1f}" y="{y + top:.1f}" width="{w:.1f}" height="{CHIP_H}" rx="4"/>')
            out.append(f'<text x="{x + a:.1f}" y="{y + top + 15:.1f}" text-anchor="middle">{n}</text>')
        return out


def wrapped(words, most):
    """A few words in lines of so many letters."""
    lines = [""]
    for word in words.split():
        lines = lines[:-1] + [f"{lines[-1]} {word}".strip()] if len(lines[-1]) + len(word) < most else lines + [word]
    return [line for line in lines if line]


def draw():
    """The picture."""
    deps = read_crates()
    group, height = groups_of(deps)
    needs = group_needs(deps, group)
    for g, below in needs.items():
        for other in below:
            if height[other] >= height[g]:
                sys.exit(f"the group '{g}' needs '{other}', which is not below it: mend the table in tools/crate_map.py")
    direct, edges = first_hand(needs), first_hand(deps)
    order = sorted(deps, key=lambda n: len(all_below(deps)[n]))
    room = WIDTH - 2 * MARGIN - LABEL - INSIDE
    out, y = [], MARGIN
    for label, said, titles in LAYERS:
        laid = []
        for title, _ in titles:
            names = [n for n in order if group[n] == title]
            if names:
                laid.append(Group(title, names, edges, direct[title], room, len(titles) > 1))
        bands = [[]]
        for g in laid:
            if bands[-1] and sum(h.width + GAP for h in bands[-1]) + g.width > room:
                bands.append([])
            bands[-1].append(g)
        said = wrapped(said, 19)
        if len(titles) == 1 and titles[0][0] != PROGRAMS and direct[titles[0][0]]:
            said += wrapped("on " + ", ".join(direct[titles[0][0]]), 19)
        tall = max(sum(max(g.height for g in band) + GAP for band in bands) - GAP, 20 + 14 * len(said)) + 2 * INSIDE
        out.append(f'<rect class="band" x="{MARGIN}" y="{y:.1f}" width="{WIDTH - 2 * MARGIN}" height="{tall:.1f}" rx="8"/>')
        out.append(f'<text class="layer" x="{MARGIN + INSIDE}" y="{y + INSIDE + 12:.1f}">{label}</text>')
        for k, line in enumerate(said):
            out.append(f'<text class="said" x="{MARGIN + INSIDE}" y="{y + INSIDE + 29 + 14 * k:.1f}">{line}</text>')
        at = y + (tall - sum(max(g.height for g in band) + GAP for band in bands) + GAP) / 2
        for band in bands:
            spare = room - sum(g.width + GAP for g in band) + GAP
            x = MARGIN + LABEL
            for g in band:
                g.height = max(h.height for h in band)
                g.spread(spare / len(band))
                out += g.draw(x, at)
                x += g.width + GAP
            at += band[0].height + GAP
        y += tall + GAP
    x, y = MARGIN + INSIDE, y + 6
    for kind, words in (("library", "functions with their proofs"), ("theorems", "theorems alone"), ("program", "programs")):
        out.append(f'<rect class="{kind}" x="{x}" y="{y:.1f}" width="14" height="14" rx="3"/><text x="{x + 20}" y="{y + 11:.1f}">{words}</text>')
        x += 44 + int(CHAR * len(words))
    out.append(f'<text class="said" x="{x}" y="{y + 11:.1f}">{len(deps)} crates; a layer stands on those below it</text>')
    head = f'<svg xmlns="http://www.w3.org/2000/svg" viewBox="0 0 {WIDTH} {y + 14 + MARGIN:.0f}" role="img" aria-label="The crates in layers">'
    return "\n".join([head, f"<style>{STYLE}</style>", '<rect class="page" width="100%" height="100%"/>'] + out + ["</svg>"]) + "\n"


def main():
    picture = draw()
    if "--check" in sys.argv[1:]:
        if not OUT.exists() or OUT.read_text() != picture:
            sys.exit("docs/crates.svg is not what crates.txt says: run python3 tools/crate_map.py")
        table = PAGE.read_text().split("## The crates")[1].split("## The rest")[0]
        first = "".join(line.split("|")[1] for line in table.splitlines() if line.startswith("| `"))
        said, there = sorted(re.findall(r"`(\w+)`", first)), sorted(read_crates())
        if said != there:
            sys.exit(f"docs/MAP.md has other crates than crates.txt, or one twice: {sorted(set(said) ^ set(there))}")
        return
    OUT.write_text(picture)


if __name__ == "__main__":
    main()
