"""make_history.py [--hide REV]... [--graph REV] [--list FILE] DIR [REPO [REV...]]: writes DIR/store, DIR/graph, DIR/tips and DIR/hidden, the
files of the program `history`: every commit that the REVs of a git repository (HEAD if none is given) and the hidden REVs reach as a commit
store, cutting nothing; the commit-graph file that git writes for what REV of --graph reaches (for all of it if none is given); and the ids.
FILE gets the list that the program must print, newest first, from git's own output alone.

Without REPO, the history of two benches that `benches` makes. Names, dates and contents are fixed, so the same git gives the same bytes.
"""
import argparse
import os
import subprocess
import sys
import tempfile

sys.path.insert(0, os.path.dirname(__file__))
from formats import store  # noqa: E402

ROOM = 65536                                           # bytes of a file that the program takes


def git(repo, *words, data=None, env=None):
    plain = {k: v for k, v in os.environ.items() if not k.startswith("GIT_")}
    plain.update(GIT_CONFIG_GLOBAL="/dev/null", GIT_CONFIG_NOSYSTEM="1", **(env or {}))
    r = subprocess.run(["git", "-C", repo, *words], input=data, stdout=subprocess.PIPE, env=plain)
    if r.returncode != 0:
        sys.exit(f"git {words[0]} failed")
    return r.stdout


# ---- the history of two benches

def benches(repo):
    """Two benches measure the yarn feed of 54 pieces, at the cone and at the needle bed; each run is a commit, and a merge joins the readings of a
    piece. The benches run ahead of the merges. Their clocks drift apart, so many a run is older than the one it follows, until both are set
    right after piece 45. Then git writes its commit-graph file, and runs go on, so the file is stale. A table was printed from piece 12."""
    stream, tips, clock, number = [], {}, 1700000000, 0

    def commit(branch, at, parents, text):
        nonlocal number
        number += 1
        who = f"{branch.capitalize()} Bench <{branch}@example.org> {at} +0100"
        stream.append(f"commit refs/heads/{branch}\nmark :{number}\nauthor {who}\ncommitter {who}\ndata {len(text)}\n{text}")
        stream.extend(f"{'merge' if i else 'from'} :{p}\n" for i, p in enumerate(parents))
        stream.append(f"M 100644 inline {branch}-feed\ndata {len(text)}\n{text}\n")
        tips[branch] = number

    def name(ref):
        stream.append(f"reset refs/tags/{ref}\nfrom :{tips['pieces']}\n\n")

    commit("pieces", clock, [], "no piece yet\n")
    tips["cone"] = tips["bed"] = tips["pieces"]
    for piece in range(1, 55):
        wrong = piece <= 45
        for run in range(1 + piece % 3):
            clock += 60
            commit("cone", clock + wrong * (piece % 9) * 50, [tips["cone"]], f"piece {piece}, cone, run {run + 1}\n")
        for run in range(1 + piece % 2):
            clock += 45
            commit("bed", clock - wrong * (piece % 7) * 70, [tips["bed"]], f"piece {piece}, bed, run {run + 1}\n")
        if piece % 4:
            clock += 30
            commit("pieces", clock, [tips["pieces"], tips["cone"], tips["bed"]], f"piece {piece}\n")
        if piece in (8, 12, 46):
            commit("pieces", clock + 10, [tips["pieces"], tips["bed"]], f"piece {piece}, bed\n")
        for at, ref in ((9, "school"), (12, "table"), (46, "graph")):
            if piece == at:
                name(ref)
    git(repo, "fast-import", "--quiet", data="".join(stream).encode())
    return ["pieces", "cone", "bed", "school"], ["table"], "graph"


# ---- any history

class History:
    """What git says of a repository, asked in a bare repository of its own, so that nothing is written to the other and no setting, graft or
    replacement of the other changes an answer. Git's commit-graph file is not used for it."""

    def __init__(self, room, repo, tips, hidden, graphed):
        objects = git(repo, "rev-parse", "--path-format=absolute", "--git-path", "objects").decode().strip()
        self.room, self.env = room, {"GIT_ALTERNATE_OBJECT_DIRECTORIES": objects}
        git(room, "init", "-q", "--bare", ".")
        self.tips, self.hidden = ([self.peel(repo, r) for r in revs] for revs in (tips, hidden))
        self.graphed = [self.peel(repo, graphed)] if graphed else self.tips + self.hidden

    @staticmethod
    def peel(repo, rev):
        return git(repo, "rev-parse", "--verify", "--end-of-options", rev + "^{commit}").decode().strip()

    def ask(self, *words):
        without = {"GIT_CONFIG_COUNT": "1", "GIT_CONFIG_KEY_0": "core.commitGraph", "GIT_CONFIG_VALUE_0": "false"}
        return git(self.room, *words, env=self.env | without)

    def reached(self, revs):
        """The commits that the revs reach, each with its parents, parents first."""
        return [line.split() for line in self.ask("rev-list", "--topo-order", "--reverse", "--parents", *revs).decode().splitlines()]

    def store(self):
        return store({bytes.fromhex(c): self.ask("cat-file", "commit", c) for c, *_ in self.reached(self.tips + self.hidden)})

    def graph(self):
        git(self.room, "commit-graph", "write", "--stdin-commits", data="\n".join(self.graphed).encode() + b"\n", env=self.env)
        with open(os.path.join(self.room, "objects/info/commit-graph"), "rb") as f:
            return f.read()

    def generations(self):
        """The generation of each commit that the graph file lists: 1 more than the greatest of its parents, by git's commit-graph document."""
        out = {}
        for c, *parents in self.reached(self.graphed):
            out[c] = 1 + max((out[p] for p in parents), default=0)
        return out

    def listed(self):
        """The lines that the program prints: `git log` has order, seconds and parents; `git rev-list --date-order` must have the same commits."""
        revs = self.tips + ["--not"] + self.hidden if self.hidden else self.tips
        rows = [line.split() for line in self.ask("log", "--format=%H %ct %P", *revs).decode().splitlines()]
        dated = [line.split() for line in self.ask("rev-list", "--date-order", "--parents", *revs).decode().splitlines()]
        assert sorted([c, *parents] for c, _, *parents in rows) == sorted(dated) and len({row[0] for row in rows}) == len(rows)
        generation = self.generations()
        for c, seconds, *parents in rows:
            yield f"{c} seconds {seconds} generation {generation.get(c, '-')} parents {len(parents)}\n"
        gone = {c for c, *_ in self.reached(self.hidden)} if self.hidden else set()
        struck = len(gone & set(self.tips))            # a tip that something hidden reaches waits until it is struck
        yield f"end admitted {len(rows) + struck} struck {struck} waiting 0\n"


def main():
    p = argparse.ArgumentParser(usage=__doc__)
    p.add_argument("--hide", action="append", default=[])
    p.add_argument("--graph")
    p.add_argument("--list")
    p.add_argument("dir")
    p.add_argument("repo", nargs="?")
    p.add_argument("revs", nargs="*")
    a = p.parse_args()
    with tempfile.TemporaryDirectory() as room, tempfile.TemporaryDirectory() as made:
        if a.repo is None:
            git(made, "init", "-q", "--bare", ".")
            h = History(room, made, *benches(made))
        else:
            h = History(room, a.repo, a.revs or ["HEAD"], a.hide, a.graph)
        files = {"store": h.store(), "graph": h.graph()}
        files.update((name, b"".join(map(bytes.fromhex, ids))) for name, ids in (("tips", h.tips), ("hidden", h.hidden)))
        lines = "".join(h.listed()) if a.list else ""
    for name, content in files.items():
        if len(content) > ROOM:
            sys.exit(f"{name} would have {len(content)} bytes; the program takes {ROOM}.\nFor a history of this size build the tool linenhatch, which "
                     "takes some 60,000 commits straight from a repository: bindings/rust/README.md")
    os.makedirs(a.dir, exist_ok=True)
    for name, content in files.items():
        with open(os.path.join(a.dir, name), "wb") as f:
            f.write(content)
    if a.list:
        with open(a.list, "w") as f:
            f.write(lines)


main()
