"""zero.py: commit-graph files whose generations were never computed (card 6). Makes histories of 120 commits in git whose clocks are right, lets git
write commit-graph files of all commits and of the older half, and sets generations in them to 0, with the checksum made right again: of every
row, of one row, and of one row that stands alone in the file, which nothing in the history reaches. Each commit is hidden in turn, and each list of
the tool `linenhatch` and of `git rev-list` is judged by plain reachability. In every list with a 0 no generation may be shown.

    tools/staticlib && (cd bindings/rust && cargo build --release --offline)
    python3 compare/zero.py

Options: --seeds N (3), --commits N (120), --tool FILE, --width N (ids of 20 bytes or of 32; else both). Ends with status 1 if a list of ours is wrong or shows a generation. Needs python3 and git.
"""
import argparse
import os
import subprocess
import sys
import tempfile

import drift
from generate import seeded
from library import widths

sys.path.insert(0, os.path.join(drift.HERE, "..", "tools"))
import formats  # noqa: E402


def graph_of(repository, ids):
    """The commit-graph file that git writes of what these reach, with generations (version 1)."""
    drift.git(repository, "-c", "commitGraph.generationVersion=1", "commit-graph", "write", "--stdin-commits", data="".join(f"{x}\n" for x in ids).encode())
    return os.path.join(repository, "objects", "info", "commit-graph")


def zeroed(path, chosen, width):
    """Sets the generations of the rows that chosen picks to 0; the checksum is made anew. How many rows there are."""
    with open(path, "rb") as f:
        g = bytearray(f.read())
    read = formats.Graph(bytes(g), width)
    assert read.good
    rows = bytes(g).index(read.rows)
    for p in chosen(read):
        at = rows + formats.row_size(width) * p + width + 8
        g[at:at + 4] = formats.u32(read.word(p, 2) & 3)
    g[-width:] = formats.digest(bytes(g[:-width]), width)
    os.chmod(path, 0o644)
    with open(path, "wb") as f:
        f.write(g)
    assert not formats.Graph(bytes(g), width).levelled
    return read.n


def run(seed, count, tool, width):
    rng = seeded(f"zero {seed}", width)
    parents = drift.benches(rng, count)
    seconds = [1_700_000_000 + drift.APART * n for n in range(count)]
    reached, wrong, lists = drift.reach(parents), {}, 0
    with tempfile.TemporaryDirectory() as room:
        for what, of, chosen in (("every row", "all commits", lambda g: range(g.n)), ("one row", "all commits", lambda g: [rng.randrange(g.n)]),
                                 ("every row", "the older half", lambda g: range(g.n)), ("one row", "the older half", lambda g: [rng.randrange(g.n)]),
                                 ("a commit that nothing reaches", "all commits", None)):
            repository = os.path.join(room, f"{len(wrong)}")
            ids = drift.make(repository, parents, seconds, width=width)
            given = ids if of == "all commits" else ids[:count // 2]
            if chosen is None:
                stray = drift.git(repository, "-c", "user.name=Bench", "-c", "user.email=bench@example.org", "commit-tree", "-m", "stray", drift.git(repository, "rev-parse", ids[0] + "^{tree}").decode().strip()).decode().strip()
                given = ids + [stray]
                chosen = lambda g: [g.find(bytes.fromhex(stray))]  # noqa: E731
            zeroed(graph_of(repository, given), chosen, width)
            for name, command in (("linenhatch", drift.ours(tool, repository, "--git-graph")), ("git rev-list", drift.rev_list(repository, True))):
                counts = drift.judge(command, ids, reached)
                wrong[name, what, of] = counts[0] + counts[-1]  # the clocks are right, so none may be refused
                lists += count
            shown = subprocess.run([tool, "-C", repository, "--git-graph", "--time", ids[-1]], stdout=subprocess.PIPE, check=True, env=drift.ENV).stdout.decode().splitlines()
            wrong["linenhatch, generations shown", what, of] = sum(not x.endswith("/-") for x in shown)
    return wrong, lists


def main():
    p = argparse.ArgumentParser(usage=__doc__)
    p.add_argument("--seeds", type=int, default=3)
    p.add_argument("--commits", type=int, default=120)
    p.add_argument("--tool", default=drift.TOOL)
    p.add_argument("--width", type=int, choices=formats.WIDTHS)
    a = p.parse_args()
    bad = 0
    for width in widths(a.width):
        runs = [run(seed, a.commits, os.path.abspath(a.tool), width) for seed in range(1, a.seeds + 1)]
        said = "" if width == formats.SHA1 else f" with ids of {width} bytes"
        print(f"| lister | generation 0 of | commit-graph file of | wrong of {a.seeds * a.commits} lists{said} |\n|---|---|---|---|")
        for name in runs[0][0]:
            print(f"| {' | '.join(name)} | {sum(r[0][name] for r in runs)} |")
        wrong = sum(r[0][name] for r in runs for name in r[0] if name[0].startswith("linenhatch"))
        print(f"\n{sum(r[1] for r in runs)} lists{said}: " + (f"FAILED: {wrong} of ours are wrong or show a generation" if wrong else "none of ours is wrong, and none shows a generation"))
        bad += wrong
    return bool(bad)


if __name__ == "__main__":
    sys.exit(main())
