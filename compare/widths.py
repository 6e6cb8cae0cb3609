"""widths.py [LIBRARY.so]: repositories with SHA-256 (card 13), and with SHA-1 beside them, that git made: `git init --object-format=sha256`. Histories of four
benches with merges, and ones with several roots, whose clocks fall; of each

- the names: each id is the digest of the commit, and the checksum of the graph file that git wrote is right (model.py's check of names);
- the graph file that git wrote (hash version 2 with SHA-256), of all commits and of the older half: model.py reads it, and finds each row's parents, seconds and
  generation as the book and git have them; with generations of version 1 it is the file that model.py writes, byte for byte;
- the lists: model.py's walk beside `git rev-list`, in order: newest first, over first parents, with hidden tips, from a cutoff on (`--max-age`, where 31 bits hold it), with
  the graph file and without; and its tested opening accepts each;
- the best common ancestors: model.py's beside `git merge-base --all`;
- the other width: the book is 4 and the graph file 5 there.

Before that, with ids of 32 bytes, model.py beside the transcribed definitions on the families of generate.py, every field of every answer, and both checked by document
01's statements, as compare.py does with ids of 20. With a library, made into a shared one, each walk and each call is also made through it, every field of every answer compared.

    python3 compare/widths.py
    python3 compare/widths.py target/c/liblinenhatch.so

Options: --seed N, --scale N (percent of the 24 histories of each width). Ends with status 1 if anything differs. Needs python3 and git.
"""
import argparse
import collections
import os
import subprocess
import sys
import tempfile

import definitions
import drift
import generate
import graphs
import library as plain
import model
from compare import agrees, expected, sum_holds, third_demand
from generate import CUTOFF_NEWEST, NEWEST, Case, Pair

import formats

HISTORIES, COMMITS, LISTS = 24, 90, 20
SHARE = 30  # percent of the families of generate.py


def parents_of(rng, k):
    """Four benches; or merges of what was lately there, several roots among them, with up to 20 parents."""
    if k % 2:
        return drift.benches(rng, COMMITS)
    out = [[]]
    for n in range(1, COMMITS):
        late = range(max(0, n - 6), n)
        out.append([] if rng.randrange(20) == 0 else rng.sample(range(n), min(n, 20)) if rng.randrange(20) == 0 else rng.sample(late, min(len(late), rng.choice((1, 1, 2, 3)))))
    return out


class History:
    """A repository, its commits parents first, and its files."""

    def __init__(self, room, rng, k, width):
        self.width, self.parents, at = width, parents_of(rng, k), rng.choice((1_700_000_000, 2 ** 32 - 900, 2 ** 33))
        self.seconds = []
        for _ in self.parents:
            at += rng.randrange(1, 90)
            self.seconds.append(at)
        self.repository = os.path.join(room, "r")
        self.names = drift.make(self.repository, self.parents, self.seconds, width=width)
        self.ids = [bytes.fromhex(name) for name in self.names]
        self.bodies = {bytes.fromhex(name): drift.git(self.repository, "cat-file", "commit", name) for name in self.names}
        self.store = formats.store(self.bodies)

    def graph(self, names, version):
        """The graph file that git writes of what these reach."""
        drift.git(self.repository, "-c", f"commitGraph.generationVersion={version}", "commit-graph", "write", "--stdin-commits", "--no-progress", data="".join(f"{x}\n" for x in names).encode())
        path = os.path.join(self.repository, "objects", "info", "commit-graph")
        with open(path, "rb") as file:
            data = file.read()
        os.chmod(path, 0o644)
        os.remove(path)
        return data

    def rev_list(self, *words):
        return drift.git(self.repository, "-c", "core.commitGraph=false", "rev-list", *words).decode().split()


# ---- what is compared: each gives what differs, or None

def files_fault(history, graph, whole):
    """The graph file that git wrote, and the names."""
    files, width = model.Files(history.store, graph, history.width), history.width
    if files.fault is not None:
        return "the files are refused with %d" % files.fault
    if model.check_names(history.store, graph, width) != (0, 0):
        return "the names: %s" % (model.check_names(history.store, graph, width),)
    generation = []
    for links in history.parents:
        generation.append(1 + max((generation[p] for p in links), default=0))
    reached = {name for name in history.ids} if whole else {name for name in files.places}
    for name, links, seconds, level in zip(history.ids, history.parents, history.seconds, generation):
        if name not in reached:
            continue
        wanted = [(history.ids[p], history.seconds[p]) for p in links], level, seconds
        if files.row(name) != wanted:
            return "the row of %s: %s for %s" % (name.hex(), files.row(name), wanted)
    other = formats.SHA1 if width == formats.SHA256 else formats.SHA256
    if model.Files(history.store, b"", other).fault != 4 or model.Files(formats.store({}), graph, other).fault != 5:
        return "the other width is not refused"
    return None


def lists(rng, history):
    """A case and the words that git takes for it."""
    pick = lambda most: [rng.choice(history.names[-12:] if rng.randrange(2) else history.names) for _ in range(most)]  # noqa: E731
    tips, hidden = pick(rng.choice((1, 1, 2))), pick(rng.choice((0, 1, 2)))
    first, cutoff = rng.randrange(4) == 0, rng.choice(history.seconds) if rng.randrange(3) == 0 else None
    cutoff = cutoff if history.seconds[-1] < 2 ** 31 else None  # git reads --max-age as an int
    if first:
        tips, hidden, cutoff = tips[:1], [], None
    words = (["--first-parent"] if first else []) + ([f"--max-age={cutoff}"] if cutoff is not None else []) + tips + ["^" + x for x in hidden]
    return tips, hidden, cutoff, first, words


def list_fault(library, rng, history, graph):
    tips, hidden, cutoff, first, words = lists(rng, history)
    as_ids = [[bytes.fromhex(x) for x in names] for names in (tips, hidden)]
    case = Case(Pair({}, store=history.store, graph=graph, width=history.width), *as_ids, (), NEWEST if cutoff is None else CUTOFF_NEWEST, cutoff or 0, first)
    _, answers, walk = expected(case, model.Tested)
    if walk.refused is not None:
        return "a tested opening is refused with %d" % walk.refused
    mine, its = [a.name.hex() for a in answers if a.kind == "commit"], history.rev_list(*words)
    if mine != its:
        return "%s: %s for git's %s" % (" ".join(words), mine, its)
    return plain.fault(library, case) or plain.fault(library, case, tested=True) if library else None


def base_fault(library, rng, history):
    one, other = rng.sample(history.names[-30:], 2)
    run = subprocess.run(["git", "-C", history.repository, "merge-base", "--all", one, other], stdout=subprocess.PIPE, env=drift.ENV)
    at = dict(zip(history.names, history.seconds))
    first = min((bytes.fromhex(x) for x in run.stdout.decode().split()), key=lambda x: (-at[x.hex()], x), default=None)
    said = model.merge_base(history.store, bytes.fromhex(one), bytes.fromhex(other), width=history.width)
    return None if said == (0, first) else "merge base of %s and %s: %s for %s" % (one, other, said, first)


def by_definitions(seed, scale, width):
    """model.py beside definitions.py; how many differ."""
    cases = calls = held = bad = 0
    for name, family, pairs, *how in generate.FAMILIES:
        rng = generate.seeded("definitions %d %s" % (seed, name), width)
        for _ in range(max(1, pairs * SHARE * scale // 10000)):
            for case in generate.random_cases(rng, family, *how, width=width):
                _, answers, walk = expected(case)
                found = not agrees(walk, answers, *definitions.answers(case, len(answers)))
                if walk.refused is None:
                    right = third_demand(case, answers)
                    held += right is not None
                    found = found or not sum_holds(answers, walk) or right is False
                cases, calls, bad = cases + 1, calls + len(answers), bad + found
    print("ids of %d bytes, model and definitions: %d cases, %d calls, the third demand's premise holds in %d; %d differ" % (width, cases, calls, held, bad))
    return bad


def run(library, seed, scale, width):
    counted, bad = collections.Counter(), []
    for k in range(max(2, HISTORIES * scale // 100)):
        rng = generate.seeded("widths %d %d" % (seed, k), width)
        with tempfile.TemporaryDirectory() as room:
            history = History(room, rng, k, width)
            whole, half = (history.graph(names, 1) for names in (history.names, history.names[:COMMITS // 2]))
            if model.write_graph(history.store, COMMITS, len(whole), width) != (0, whole):
                bad.append("the graph file that the model writes is another than git's")
            for graph, of in ((whole, True), (half, False), (history.graph(history.names, 2), True)):
                bad.append(files_fault(history, graph, of))
                counted["graph files of git"] += 1
            for n in range(LISTS):
                bad.append(list_fault(library, rng, history, (b"", whole, half)[n % 3]))
                bad.append(base_fault(library, rng, history))
                counted["lists"] += 1
                counted["pairs of tips"] += 1
            if library:
                call = graphs.Call(library.lib, history.store, COMMITS, len(whole), width)
                bad.append(call.fault(0, whole))
            counted["histories"] += 1
    bad = [found for found in bad if found]
    for found in bad[:5]:
        print(found[:600])
    print("ids of %d bytes: %s; %d differ" % (width, ", ".join("%s %d" % pair for pair in counted.items()), len(bad)))
    return len(bad)


def main():
    options = argparse.ArgumentParser()
    options.add_argument("library", nargs="?")
    options.add_argument("--seed", type=int, default=1)
    options.add_argument("--scale", type=int, default=100)
    options = options.parse_args()
    library = plain.Library(options.library) if options.library else None
    if library:
        library.lib.linenhatch_graph_length.restype = library.lib.linenhatch_write_graph.restype = plain.ctypes.c_uint32
    bad = by_definitions(options.seed, options.scale, formats.SHA256)
    bad += sum(run(library, options.seed, options.scale, width) for width in (plain.widths() if library else formats.WIDTHS))
    print("%d differ" % bad)
    return 1 if bad else 0


if __name__ == "__main__":
    sys.exit(main())
