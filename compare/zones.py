"""zones.py: the zones of commits (card 7) by the tool `linenhatch` and by git, `git log --format=%cd --date=raw`:

- a history of 1,800 commits with every zone from -1459 to +1459, the author's another one, that `git fast-import` wrote: without a commit-graph
  file, with one of the older half (whose commits have no zone of ours) and with one of all, over all parents and over first parents alone; and one such history with ids of 32 bytes;
- commits that `git commit-tree` wrote from dates, and a merge of 300 parents over first parents alone;
- the history that this folder stands in, and that of each --repository DIR;
- committer lines with odd zones, written as they stand by `git hash-object --literally`. Here git defines something else than card 7: it skips any
  white space, takes the digits after the sign, however many, as one decimal number (0 if it is too large for an int) and reads no further, so that +100 is
  its +0100, +01000 its +1000 and +01o0 its +0001, +1460 and +1500 are themselves, and a CR or a space may follow; where it finds no sign with a
  digit it gives no date at all. For card 7 each of these is no zone. So the tool is held to the card here, git's reading is printed beside it, and
  only where the card defines a zone must git's be the same; of those git shows -0000 as +0000.

    tools/staticlib && (cd bindings/rust && cargo build --release --offline)
    python3 compare/zones.py

Options: --seeds N (3), --repository DIR, --tool FILE. Ends with status 1 if a zone of ours is wrong. Needs python3 and git.
"""
import argparse
import os
import random
import subprocess
import sys
import tempfile

import drift
from generate import seeded
from library import widths

sys.path.insert(0, os.path.join(drift.HERE, "..", "tools"))
import formats  # noqa: E402

EVERY = [f"{sign}{hours:02}{minutes:02}" for sign in "+-" for hours in range(15) for minutes in range(60)]
ODD = ["+0060", "+1460", "-1460", "+1500", "-1500", "+9959", "+2400", "+100", "+01000", "+000100", "0100", "00100", "UTC", "Z", "+01o0", "+a100", "+01:00", "+",
       "+ 0100", "+0100\r", " +0100", "+0100 ", "+0100 +0200", "\t+0100", "", "++100", "+-100", "\u22120100", "+99999999999", "+0100\0"]
START = 1_700_000_000


# ---- both readers

def ours(tool, repository, tip, *words):
    """The tool's zones by id, whatever a tested opening says of the history."""
    out = subprocess.run([tool, "-C", repository, "--untested", "--git-graph", "--zone", *words, tip], stdout=subprocess.PIPE, check=True, env=drift.ENV).stdout
    return dict(line.split(" ") for line in out.decode().splitlines())


def gits(repository, *words):
    """git's zones by id, None where it gives no date."""
    out = drift.git(repository, "log", "--format=%H %cd", "--date=raw", *words).decode().splitlines()
    return {line.split(" ")[0]: line.split(" ")[2] if line.count(" ") == 2 else None for line in out}


def wrong(mine, its, without=()):
    """How many zones are not git's, or of the commits of a graph file not none; or listed by one alone."""
    return sum(mine.get(x) != ("-" if x in without else its.get(x)) for x in mine.keys() | its.keys())


# ---- what is compared: each gives (what, zones compared, wrong)

def every_zone(seed, tool, room, width=formats.SHA1):
    rng, said = seeded(f"zones {seed}", width), "" if width == formats.SHA1 else f", ids of {width} bytes"
    zones = rng.sample(EVERY, len(EVERY))
    parents = drift.benches(rng, len(zones))
    seconds = [START + drift.APART * n for n in range(len(zones))]
    plain = os.path.join(room, f"plain {seed} {width}")
    ids = drift.make(plain, parents, seconds, list(zip(rng.sample(EVERY, len(EVERY)), zones)), width)
    whole, half = ids, ids[:len(ids) // 2]
    for words, first in (((), ()), (("--first-parent",), ("--first-parent",))):
        its = gits(plain, *first, ids[-1])
        written = all(its[x] == zone.replace("-0000", "+0000") for x, zone in zip(ids, zones) if x in its)
        order = ("first parents" if words else "all parents") + said
        yield f"every zone, {order}", len(its), wrong(ours(tool, plain, ids[-1], *words), its) + (not written)
        for what, of in (("of the older half", half), ("of all commits", whole)):
            with_file = os.path.join(room, f"{what} {order} {seed}")
            drift.with_graph(plain, with_file, of)
            yield f"every zone, {order}, a commit-graph file {what}", len(its), wrong(ours(tool, with_file, ids[-1], *words), its, set(of))
            yield f"every zone, {order}, the same file not used", len(its), wrong(ours(tool, with_file, ids[-1], "--no-graph", *words), its)


def commit_tree(repository, tree, seconds, zone, parents, author):
    dates = {"GIT_AUTHOR_DATE": f"@{seconds} {author}", "GIT_COMMITTER_DATE": f"@{seconds} {zone}"}
    people = {f"GIT_{who}_{what}": "bench" for who in ("AUTHOR", "COMMITTER") for what in ("NAME", "EMAIL")}
    words = [word for parent in parents for word in ("-p", parent)]
    out = subprocess.run(["git", "-C", repository, "commit-tree", "-m", "run", *words, tree], stdout=subprocess.PIPE, stderr=subprocess.DEVNULL, check=True, env=drift.ENV | dates | people).stdout
    return out.decode().strip()


def empty(room, name):
    """A repository without commits, and its empty tree."""
    repository = os.path.join(room, name)
    os.mkdir(repository)
    drift.git(repository, "init", "-q", "--bare", ".")
    return repository, drift.git(repository, "hash-object", "-t", "tree", "-w", "--stdin", data=b"").decode().strip()


def from_dates(seed, tool, room):
    rng = random.Random(f"dates {seed}")
    repository, tree = empty(room, f"dates {seed}")
    ids = []
    for n, zone in enumerate(["+0000", "-0000", "+1400", "-1459", "+1459"] + rng.sample(EVERY, 55)):
        ids.append(commit_tree(repository, tree, START + n, zone, ids[-1:] + ids[-7:-6], rng.choice(EVERY)))
    its = gits(repository, ids[-1])
    yield "git commit-tree", len(its), wrong(ours(tool, repository, ids[-1]), its)


def many_parents(seed, tool, room):
    """A merge of 300 parents, each its own commit; git commit-tree takes so many, and its list is the first parents' alone."""
    repository, tree = empty(room, f"parents {seed}")
    roots = [commit_tree(repository, tree, START + n, "+0000", [], "+0000") for n in range(300)]
    tip = commit_tree(repository, tree, START + 300, "-0330", roots, "+0100")
    its = gits(repository, "--first-parent", tip)
    yield "a merge of 300 parents, first parents", len(its), wrong(ours(tool, repository, tip, "--first-parent"), its)


def real(tool, repository):
    tip = drift.git(repository, "rev-parse", "HEAD").decode().strip()
    its = gits(repository, tip)
    yield f"a real history, zones {', '.join(sorted(set(its.values())))}", len(its), wrong(ours(tool, repository, tip, "--no-graph"), its)


def odd_zones(tool, room):
    """Each a commit of its own; what the tool says, what git does, and whether it is what the card says."""
    repository, tree = empty(room, "odd")
    for text in ODD + ["+0000", "-0000", "+1459", "-1459", "+0959"]:
        line = b"%d %s" % (START, text.encode())
        body = b"tree %s\nauthor A <a> 5 +0900\ncommitter A <a> %s\n\nrun\n" % (tree.encode(), line)
        name = drift.git(repository, "hash-object", "-t", "commit", "-w", "--literally", "--stdin", data=body).decode().strip()
        card, its = formats.zone(b" " + text.encode()), gits(repository, "--no-walk", name)[name]
        mine = ours(tool, repository, name)[name]
        right = mine == "-" if card is None else mine == its and (int(its[0] + "1") * (60 * int(its[1:3]) + int(its[3:])) == card)
        yield text, mine, its, right


def main():
    p = argparse.ArgumentParser(usage=__doc__)
    p.add_argument("--seeds", type=int, default=3)
    p.add_argument("--repository", action="append", default=[])
    p.add_argument("--tool", default=drift.TOOL)
    a = p.parse_args()
    tool, sums = os.path.abspath(a.tool), {}
    with tempfile.TemporaryDirectory() as room:
        told = [x for seed in range(1, a.seeds + 1) for part in (every_zone, from_dates, many_parents) for x in part(seed, tool, room)]
        told += [x for width in widths() if width != formats.SHA1 for x in every_zone(1, tool, room, width)]
        for repository in [drift.HERE] + a.repository:
            told += real(tool, repository)
        for what, count, bad in told:
            sums[what] = [x + y for x, y in zip(sums.get(what, (0, 0)), (count, bad))]
        odd = list(odd_zones(tool, room))
    print("| compared with git | zones | wrong |\n|---|---|---|")
    for what, (count, bad) in sums.items():
        print(f"| {what} | {count:,} | {bad} |")
    print("\n| after the seconds and a space | linenhatch | git | |\n|---|---|---|---|")
    for text, mine, its, right in odd:
        print(f"| {ascii(text)} | {mine} | {its or 'no date'} | {'' if right else 'WRONG'} |")
    bad = sum(bad for _, bad in sums.values()) + sum(not right for *_, right in odd)
    print(f"\n{sum(count for count, _ in sums.values()) + len(odd):,} zones: " + (f"FAILED: {bad} of ours are wrong" if bad else "none of ours is wrong"))
    return bool(bad)


if __name__ == "__main__":
    sys.exit(main())
