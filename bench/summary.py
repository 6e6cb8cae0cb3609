"""summary.py [--widths] [FILE]: the summary of a run of the bench, from the table that it wrote (bench/target/results/table.md if no FILE is given; docs/PERFORMANCE.md has
the same table, so it goes too). For each walk, without and with a commit-graph file: the best, the median and the worst of the rows' ratios of ours
to `Simple` (walk alone) and to `git rev-list` (opening and walk, git less its start), each with its history. A row in which git was stopped at its
limit counts for git with the ratio that it is under. Histories with SHA-256 ids are left out of it. With --widths the other table: each walk of ours with SHA-256
ids beside the one over the same history with SHA-1 ids, nanoseconds for each commit listed, and beside git.
"""
import os
import statistics
import sys

HERE = os.path.dirname(os.path.abspath(__file__))
COLUMNS = ("history", "commits", "walk", "graph", "ours/Simple, walk", "ours/git")


def rows(path):
    """The rows of the table whose head has all of COLUMNS, as dictionaries."""
    head, out = None, []
    with open(path) as f:
        for line in f:
            cells = [cell.strip() for cell in line.strip().strip("|").split("|")]
            if not line.startswith("|"):
                head = None
            elif head is None and all(column in cells for column in COLUMNS):
                head = cells
            elif head and not cells[0].startswith("---"):
                out.append(dict(zip(head, cells)))
    return out


def number(cell):
    """A ratio; `under R` is R, and a dash is none."""
    try:
        return float(cell.removeprefix("under "))
    except ValueError:
        return None


def shown(x):
    return f"{x:.2f}" if x >= 0.095 else f"{x:.3f}"


def cells(part, column):
    known = sorted((number(row[column]), row["history"], row["commits"]) for row in part if number(row[column]) is not None)
    if not known:
        return ["–"] * 3
    ends = [f"{shown(x)} ({history} {commits})" for x, history, commits in (known[0], known[-1])]
    return [ends[0], shown(statistics.median(x for x, _, _ in known)), ends[1]]


def is_wide(row):
    return row["history"].endswith("256")


def widths(path):
    """Ours with either width."""
    table = rows(path)
    narrow = {key(row): row for row in table if not is_wide(row)}
    print("| history | commits | walk | graph | ours: walk, SHA-1 | ours: walk, SHA-256 | SHA-256/SHA-1 | ours/git, SHA-1 | ours/git, SHA-256 |")
    print("|---" * 9 + "|")
    for row in filter(is_wide, table):
        other = narrow.get(key(row))
        mine, its = (median(r["ours: walk"]) if r else None for r in (row, other))
        cells = [row["history"].removesuffix("256"), row["commits"], row["walk"], row["graph"], its, mine]
        ratio = f"{mine / its:.2f}" if mine and its else None
        print("| " + " | ".join("–" if cell is None else f"{cell:,.0f}" if isinstance(cell, float) else cell for cell in cells + [ratio, other and other["ours/git"], row["ours/git"]]) + " |")


def key(row):
    return row["history"].removesuffix("256"), row["commits"], row["walk"], row["graph"]


def median(cell):
    """Of a cell `MEDIAN (LEAST–MOST)`."""
    return number(cell.split(" ")[0].replace(",", ""))


def main(path):
    table = [row for row in rows(path) if not is_wide(row)]
    if not table:
        sys.exit(f"{path} has no table of the bench")
    print("| walk | graph | rows | ours/Simple: best | median | worst | ours/git: best | median | worst |")
    print("|---" * 9 + "|")
    walks = list(dict.fromkeys(row["walk"] for row in table))
    for graph in ("no", "yes"):
        for walk in [*walks, "**all**"]:
            part = [row for row in table if row["graph"] == graph and walk in (row["walk"], "**all**")]
            if part:
                print(f"| {walk} | {graph} | {len(part)} | {' | '.join(cells(part, COLUMNS[4]) + cells(part, COLUMNS[5]))} |")


given = [word for word in sys.argv[1:] if word != "--widths"]
(widths if "--widths" in sys.argv[1:] else main)(given[0] if given else os.path.join(HERE, "target", "results", "table.md"))
