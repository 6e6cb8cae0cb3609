"""graphs.py LIBRARY.so: writing graph files (card 4), by the static library, made into a shared one, and

- by model.py's definition, on generated stores: histories, merges of up to 257 parents, repeated parents, cycles, commits that are their own parents, absent
  parents, unreadable bodies, seconds at and past both ends of their range, broken layouts, ids of 20 and of 32 bytes. Each is asked for its length, written into an output of
  that length, into a longer one and into one that is shorter by a byte (20), with levels that are one too few (1), and without room for the
  length (101). Every byte is held to the definition: the file's own; all others of the output, and all of them after a refusal, as they were; the
  length, 0 after a refusal; the levels as they were after 2, 4, 1 and 101; nothing beside a buffer or in the store. Each file is then lent to a tested opening over the
  same store, which must be accepted, and every answer of its calls must be the model's and the right list by plain reachability;
- by `git commit-graph write` with commitGraph.generationVersion=1, on repositories made for it, a fifth of them with SHA-256 ids: merges of up to 256 parents, repeated
  parents, clocks that stand still, run backwards and lie anywhere in 34 bits. The files must be equal byte for byte, `git commit-graph verify` must pass ours, and a tested opening with it must
  be accepted and list exactly what the tips reach.

Prints how many came to each result; ends with status 1 if anything differs. Options: --seed N, --scale N (percent of the 24,000 stores and the 240 repositories).

    tools/staticlib
    make -C bindings/c shared
    python3 compare/graphs.py target/c/liblinenhatch.so
"""
import argparse
import collections
import ctypes
import os
import random
import subprocess
import sys
import tempfile
import zlib

import drift
import generate
import library as plain
import model
from compare import expected, third_demand
from library import GUARD, NO_ROOM, Buffer, lend

import formats
from formats import SHA1, SHA256

STORES, REPOSITORIES = 24000, 240
EARLY = (1, 2, 4, NO_ROOM)  # what leaves the lent levels as they were
CLOCKS = (tuple(range(1, 12)), (5,), (0, 1), (0, 2 ** 31, 2 ** 32 - 1, 2 ** 32, 2 ** 33 + 7, 2 ** 34 - 1), tuple(range(40, 0, -3)))


# ---- the library

class Call:
    """One call; room None asks for the length alone."""

    def __init__(self, library, store, lent, room, width, numbers=1):
        self.levels, self.numbers = Buffer(ctypes.c_uint32, lent), Buffer(ctypes.c_uint64, numbers)
        self.out = None if room is None else Buffer(ctypes.c_uint8, room)
        words, part = lend(store)
        self.lent = [self.levels] + ([self.out] if self.out else []) + [self.numbers]
        call = library.linenhatch_graph_length if room is None else library.linenhatch_write_graph
        self.result = call(ctypes.c_uint32(width), *words, *(w for b in self.lent for w in b.words()))
        self.sound = bytes(part)[:len(store)] == store and all(b.sound() for b in self.lent)

    def fault(self, wanted, file):
        """None, or what is not as it must be."""
        said = file if wanted == 0 else b""
        if self.result != wanted:
            return "%d for %d" % (self.result, wanted)
        if wanted != NO_ROOM and self.numbers.part[0] != len(said):
            return "the length %d for %d" % (self.numbers.part[0], len(said))
        if self.out and bytes(self.out.part) != said + bytes([GUARD]) * (self.out.n - len(said)):
            return "the output after %d" % wanted
        kept = [self.levels] * (wanted in EARLY) + [self.numbers] * (wanted == NO_ROOM)
        if not self.sound or any(set(bytes(b.all)) != {GUARD} for b in kept):
            return "a lent buffer altered, or memory beside one, after %d" % wanted
        return None


# ---- generated stores

def names(rng, count, width):
    """Ids that differ anywhere, in the first byte, or in the last alone."""
    like, stem, out = rng.randrange(3), rng.randbytes(width - 1), set()
    while len(out) < count:
        byte = bytes([rng.randrange(256)])
        out.add(rng.randbytes(width) if like == 0 else stem + byte if like == 1 else byte + stem)
    out = sorted(out)  # a set has no order of its own, and a seed is to give the same stores again
    rng.shuffle(out)
    return out


def body(rng, seconds, parents, width):
    who = b"A <a> %s +0000" % (b"%d" % seconds if rng.randrange(9) else b"%s%018d" % (b"-" * (seconds < 0), abs(seconds)) if abs(seconds) < 10 ** 17 else b"%d" % seconds)
    lines = b"".join(b"parent %s\n" % p.hex().encode() for p in parents)
    return b"tree %s\n%sauthor %s\ncommitter %s\n\nm\nparent %s\n" % (rng.randbytes(width).hex().encode(), lines, who, who, b"0" * 2 * width)


def damaged(rng, text, width):
    return rng.choice((
        text.replace(b"tree ", b"three ", 1),
        text.replace(b"author ", b"writer ", 1),
        text.replace(b"committer ", b"keeper ", 1),
        text.replace(b" +0000\n\n", b"x +0000\n\n", 1),
        text[:rng.randrange(60)],
        text[:text.index(b"\n\n")],
        b"",
        b"tree %s\n" % (b"A" * 2 * width) + text[6 + 2 * width:],
    ))


def links(rng, kind, count):
    """The parents of each commit, as numbers; count is an absent commit."""
    parents = [[rng.randrange(n) for _ in range(rng.choice((1, 1, 1, 2, 2, 3, 5)))] if n and rng.randrange(8) else [] for n in range(count)]
    at = rng.randrange(count)
    if kind == "wide merges":
        for n in rng.sample(range(count), min(count, 1 + rng.randrange(2))):
            parents[n] = [rng.randrange(n) for _ in range(rng.choice((3, 4, 17, 255, 256, 256)))] if n else []
    if kind == "crowded":
        parents[at] = [rng.randrange(count) for _ in range(257)]
    if kind == "repeated parents":
        parents = [[p for p in row for _ in range(rng.randrange(1, 4))] for row in parents]
    if kind == "a long line":
        parents = [[n - 1] if n else [] for n in range(count)]
    if kind == "cycles":
        for _ in range(rng.randrange(1, 4)):
            n = rng.randrange(count)
            parents[n].insert(rng.randrange(len(parents[n]) + 1), rng.randrange(count))
    if kind == "own parents":
        parents[at] = rng.choice((parents[at] + [at], [at], [at, at] + parents[at]))
    if kind == "absent":
        parents[at].insert(rng.randrange(len(parents[at]) + 1), count)
    return parents


KINDS = ("histories", "histories", "histories", "a long line", "wide merges", "repeated parents", "seconds", "seconds", "cycles", "cycles", "own parents", "absent", "crowded", "unreadable", "unreadable and late", "torn", "torn")


def case(rng):
    """The kind, the store, and the width of its ids."""
    kind, width = rng.choice(KINDS), SHA1 if rng.randrange(4) else SHA256
    count = rng.randrange(1, 41 if kind == "a long line" else 10)
    if rng.randrange(100) == 0:
        return "empty", bytes(8), width
    ids, clock, parents = names(rng, count + 1, width), rng.choice(CLOCKS), links(rng, kind, count)
    seconds = [rng.choice(clock) for _ in range(count)]
    if kind in ("seconds", "unreadable and late"):
        seconds[rng.randrange(count)] = rng.choice((-1, 2 ** 34 - 1, 2 ** 34, 2 ** 34 + 1, 2 ** 35, -2 ** 34, 10 ** 18 - 1, -10 ** 18 + 1, 0))
    bodies = [body(rng, seconds[n], [ids[p] for p in parents[n]], width) for n in range(count)]
    if kind.startswith("unreadable"):
        at = rng.randrange(count)
        bodies[at] = damaged(rng, bodies[at], width)
    store = formats.store(dict(zip(ids, bodies)))
    if kind == "torn":
        at = rng.randrange(len(store))
        store = rng.choice((store[:at], store[at:], store[:at] + bytes([store[at] ^ 1 << rng.randrange(8)]) + store[at + 1:], rng.randbytes(rng.randrange(60))))
    return kind, store, width


def wrong(library, rng, store, width):
    """None, or what differs; the result, and the file."""
    entries = formats.store_entries(store, width)
    count = rng.randrange(5) if entries is None else len(entries)
    said = width if width == SHA256 or rng.randrange(4) else rng.choice((0, 1, 19, 21, 31, 33, 2 ** 32 - 1))  # any other number is SHA-1
    wanted, file = model.write_graph(store, count, len(store) * 9 + 4096, width)
    more = rng.choice((1, 2, 30))
    calls = [(count, None, 1), (count + more, None, 1), (count, len(file), 1), (count + more, len(file) + more, 1), (count, 0, 1), (count, len(file), 0), (count, None, 0)]
    calls += [(count, len(file) - 1, 1), (count, rng.randrange(len(file)), 1)] if file else []
    calls += [(count - 1, len(file), 1), (rng.randrange(count), None, 1)] if count else []
    for lent, room, numbers in calls:
        number = NO_ROOM if numbers == 0 else model.graph_length(store, lent, width)[0] if room is None else model.write_graph(store, lent, room, width)[0]
        found = Call(library.lib, store, lent, room, said, numbers).fault(number, file)
        if found:
            return "%s, with %d levels and %s" % (found, lent, "no output" if room is None else "an output of %d" % room), wanted, file
    return None, wanted, file


def listed(library, rng, store, file, width):
    """None, or what is not as it must be of a tested opening with the file that was written."""
    ids = [name for name, _, _ in formats.store_entries(store, width)]
    pick = lambda most: [rng.choice(ids) for _ in range(rng.randrange(most))] if ids else []
    seconds = [model.Header(store[start:end], width).seconds for _, start, end in formats.store_entries(store, width)] or [0]
    made = generate.Case(generate.Pair({}, store=store, graph=file, width=width), pick(4), pick(3), pick(2), rng.randrange(5), rng.choice(seconds) + rng.randrange(-1, 2), bool(rng.randrange(2)))
    _, answers, walk = expected(made, model.Tested)
    if walk.refused is not None:
        return "refused with %d" % walk.refused
    if third_demand(made, answers) is not True:
        return "the list is not right"
    return plain.fault(library, made, tested=True)


def generated(library, seed, scale):
    rng, results, bad, lent = random.Random("graphs %d" % seed), collections.Counter(), 0, 0
    count = STORES * scale // 100
    for k in range(count):
        kind, store, width = case(rng)
        found, result, file = wrong(library, rng, store, width)
        if result == 0 and not found:
            found, lent = listed(library, rng, store, file, width), lent + 1
        results[kind, width, result] += 1
        if found:
            bad += 1
            if bad <= 5:
                print("%s, ids of %d: %s; %s" % (kind, width, found, store.hex()))
    for n in (16777216, 16777217):
        for room in (None, 0, 2000):
            found = Call(library.lib, bytes(n - 1) + b"\1", 1, room, SHA1).fault(4 if n == 16777216 else 2, b"")
            bad += found is not None
            if found:
                print("a store of %d bytes: %s" % (n, found))
    for kind in dict.fromkeys(("empty",) + KINDS):
        print("%s: %s" % (kind, ", ".join("%s %d" % pair for pair in sorted(sum_by(results, kind).items()))))
    by_width = collections.Counter()
    for (_, width, _), n in results.items():
        by_width[width] += n
    print("%d stores (%s), %d files lent to a tested opening: %d differ" % (count, ", ".join("%d with ids of %d bytes" % (n, width) for width, n in sorted(by_width.items())), lent, bad))
    return bad


def sum_by(results, kind):
    out = collections.Counter()
    for (of, _, result), n in results.items():
        if of == kind:
            out[result] += n
    return out


# ---- beside git

def history(rng, kind, count):
    """The parents of each commit, as numbers of older ones."""
    parents = [[]]
    for n in range(1, count):
        late = range(max(0, n - 6), n)
        most = {"lines": (1, 1, 1, 2), "merges": (1, 2, 2, 3, 4, 6), "repeated": (1, 2, 3), "wide": (1, 2, 3, 17)}[kind]
        some = [] if rng.randrange(30) == 0 else rng.sample(late, min(len(late), rng.choice(most)))
        if kind == "repeated" and rng.randrange(2):
            some = [p for p in some for _ in range(rng.randrange(1, 4))]
            rng.shuffle(some)
        parents.append(some)
    if kind == "wide":
        for n in rng.sample(range(count // 2, count), 3):
            parents[n] = [rng.randrange(n) for _ in range(rng.choice((3, 255, 256)))] if rng.randrange(2) else rng.sample(range(n), min(n, 256))
    return parents


def clock(rng, kind, count):
    start = 1_700_000_000
    if kind == 0:
        return [start + 60 * n for n in range(count)]
    if kind == 1:
        return [start - 60 * n for n in range(count)]
    if kind == 2:
        return [rng.choice((0, 1, 2 ** 31, 2 ** 32 - 1, 2 ** 32, 2 ** 33, 2 ** 34 - 1)) for _ in range(count)]
    return [rng.randrange(2 ** 34) for _ in range(count)] if kind == 3 else [start] * count


def put(repository, kind, data, width=SHA1):
    """A loose object; its id."""
    whole = b"%s %d\0%s" % (kind, len(data), data)
    name = formats.digest(whole, width).hex()
    folder = os.path.join(repository, "objects", name[:2])
    os.makedirs(folder, exist_ok=True)
    with open(os.path.join(folder, name[2:]), "wb") as file:
        file.write(zlib.compress(whole, 1))
    return name


def make(repository, rng, parents, seconds, width):
    """A repository whose commits have these parents and seconds, a branch for each that is nobody's parent; the bodies by their ids."""
    os.mkdir(repository)
    drift.git(repository, "init", "-q", "--bare", "--object-format=" + formats.digest_name(width), ".")
    trees = [put(repository, b"tree", b"", width), put(repository, b"tree", b"100644 a\0" + bytes.fromhex(put(repository, b"blob", b"a\n", width)), width)]
    ids, bodies = [], {}
    for n, row in enumerate(parents):
        who = b"A <a> %d +0000" % seconds[n]
        text = b"tree %s\n%sauthor %s\ncommitter %s\n\nrun %d\n" % (rng.choice(trees).encode(), b"".join(b"parent %s\n" % ids[p].encode() for p in row), who, who, n)
        ids.append(put(repository, b"commit", text, width))
        bodies[bytes.fromhex(ids[-1])] = text
    tips = [x for n, x in enumerate(ids) if not any(n in row for row in parents)]
    with open(os.path.join(repository, "packed-refs"), "w") as refs:
        refs.write("# pack-refs with: peeled fully-peeled sorted \n" + "".join("%s refs/heads/b%04d\n" % (x, n) for n, x in enumerate(tips)))
    return bodies, [bytes.fromhex(x) for x in tips]


def written_by_git(repository):
    """The file, which is then taken away."""
    drift.git(repository, "-c", "commitGraph.generationVersion=1", "commit-graph", "write", "--reachable", "--no-progress")
    path = os.path.join(repository, "objects", "info", "commit-graph")
    with open(path, "rb") as file:
        data = file.read()
    os.chmod(path, 0o644)
    return path, data


def verified(repository, path, file):
    with open(path, "wb") as out:
        out.write(file)
    run = subprocess.run(["git", "-C", repository, "-c", "core.commitGraph=true", "commit-graph", "verify", "--no-progress"], stdout=subprocess.PIPE, stderr=subprocess.STDOUT, env=drift.ENV)
    return None if run.returncode == 0 else run.stdout.decode()


def one_repository(library, seed, k):
    """None, or what differs; commits, rows of over two parents, the most parents. Every fifth repository has ids of 32 bytes."""
    rng = random.Random("graphs beside git %d %d" % (seed, k))
    kind, width = ("lines", "merges", "repeated", "wide")[k % 4], SHA256 if k % 5 == 2 else SHA1
    parents = history(rng, kind, rng.choice((1, 2, 30)) if k % 20 == 0 else 300 if kind == "wide" and k % 8 == 3 else 40)
    seconds = clock(rng, k // 4 % 5, len(parents))
    with tempfile.TemporaryDirectory() as room:
        repository = os.path.join(room, "r")
        bodies, tips = make(repository, rng, parents, seconds, width)
        store = formats.store(bodies)
        path, theirs = written_by_git(repository)
        call = Call(library.lib, store, len(bodies), len(theirs), width)
        ours = bytes(call.out.part)
        found = call.fault(0, theirs) or verified(repository, path, ours)
    if model.write_graph(store, len(bodies), len(theirs), width) != (0, theirs):
        found = found or "the model's file is another than git's"
    if not found:
        made = generate.Case(generate.Pair({}, store=store, graph=ours, width=width), tips[:1024], sorting=k % 3)
        _, answers, walk = expected(made, model.Tested)
        handed = [a.name for a in answers if a.kind == "commit"]
        found = "the model refuses" if walk.refused is not None else "the list is not whole" if len(tips) <= 1024 and sorted(handed) != sorted(bodies) else plain.fault(library, made, tested=True)
    return found, len(parents), sum(len(row) > 2 for row in parents), max(map(len, parents))


def beside_git(library, seed, scale):
    bad, commits, wide, most = 0, 0, 0, 0
    count = max(4, REPOSITORIES * scale // 100)
    for k in range(count):
        found, n, over, row = one_repository(library, seed, k)
        commits, wide, most = commits + n, wide + over, max(most, row)
        if found:
            bad += 1
            if bad <= 5:
                print("repository %d: %s" % (k, found))
    print("beside git commit-graph write: %d repositories, a fifth with ids of 32 bytes, %d commits, %d of them with over two parents, at most %d: %d differ" % (count, commits, wide, most, bad))
    return bad


def main():
    options = argparse.ArgumentParser()
    options.add_argument("library")
    options.add_argument("--seed", type=int, default=1)
    options.add_argument("--scale", type=int, default=100)
    options = options.parse_args()
    library = plain.Library(options.library)
    library.lib.linenhatch_graph_length.restype = library.lib.linenhatch_write_graph.restype = ctypes.c_uint32
    bad = generated(library, options.seed, options.scale) + beside_git(library, options.seed, options.scale)
    print("%d differ" % bad)
    return 1 if bad else 0


if __name__ == "__main__":
    sys.exit(main())
