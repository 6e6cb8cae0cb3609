"""partings.py LIBRARY.so: where two series part (cards 8 and 11), by the static library, made into a shared one, and

- by model.py's definition, on generated stores: lines, merges, criss-cross, shared parents, cycles, commits that are their own parents, absent and unreadable commits, repeated
  parents, equal and negative seconds, ids that differ in their last byte, broken layouts, with ids of 20 bytes and of 32. Each also with the tips exchanged, which must say
  the same; with a buffer of the memory an element too short (1, and not a byte of it altered); and without room for the answer or with a tip of
  19 bytes (31; 101, and nothing altered). After 2, 4 and 1 the memory must be as it was; after a refusal and for none id and number are zeros;
- by `git merge-base --all`, on repositories that git wrote, clocks right and wrong: our answer must be one of git's, the first by card 11's order, and none
  where git has none.

Prints how many came to each result; ends with status 1 if anything differs or a byte beside a buffer is altered. Options: --seed N, --scale N (percent
of the 40,000 stores and the 20 repositories of each width), --width N (one width alone).

    tools/staticlib
    make -C bindings/c shared
    python3 compare/partings.py target/c/liblinenhatch.so
"""
import argparse
import collections
import ctypes
import os
import subprocess
import sys
import tempfile

import drift
import model
from library import GUARD, NO_ROOM, Buffer, in_words, lend, memory_sizes, width_words, widths

import formats
from formats import SHA1
from generate import seeded

STORES, REPOSITORIES, PAIRS = 40000, 20, 60
CLOCKS = ((1, 2, 3, 4, 5, 6, 7, 8, 9), (5,), (5, 6), (-1, 0, 1), (-3, -2, -1), (0, 2 ** 31, 2 ** 32, 2 ** 33, -2 ** 33), (10 ** 18 - 1, -10 ** 18 + 1, 0))


# ---- the library

class Call:
    """One call, with memory for so many places; short is the number of a buffer that is an element shorter, -1 for none."""

    def __init__(self, library, width, store, one, other, places, short=-1, id_bytes=None, numbers=1):
        self.memory = [Buffer(kind, n - (k == short)) for k, (kind, n) in enumerate(memory_sizes(width, places))]
        self.id, self.numbers = Buffer(ctypes.c_uint8, width if id_bytes is None else id_bytes), Buffer(ctypes.c_uint64, numbers)
        lent = [lend(data) for data in (store, one, other)]
        words = [word for pair, _ in lent for word in pair] + [word for b in self.memory + [self.id, self.numbers] for word in b.words()]
        self.result = library.linenhatch_merge_base(*width_words(width), *words)
        self.same_input = all(bytes(part)[:len(data)] == data for (_, part), data in zip(lent, (store, one, other)))

    def said(self):
        return self.result, bytes(self.id.part), self.numbers.part[0]

    def sound(self):
        return self.same_input and all(b.sound() for b in self.memory + [self.id, self.numbers])

    def as_lent(self, buffers):
        return all(set(bytes(b.all)) <= {GUARD} for b in buffers)


def places(library, width, store, one, other):
    lent = [lend(data) for data in (store, b"", one + other, b"")]
    return library.linenhatch_places(*width_words(width), *(word for pair, _ in lent for word in pair))


# ---- generated stores

def names(rng, count, width=SHA1):
    """Ids that differ anywhere, in the first byte, or in the last alone."""
    like = rng.randrange(3)
    stem = rng.randbytes(width - 1)
    out = set()
    while len(out) < count:
        byte = bytes([rng.randrange(256)])
        out.add(rng.randbytes(width) if like == 0 else stem + byte if like == 1 else byte + stem)
    out = list(out)
    rng.shuffle(out)
    return out


def body(seconds, parents, rng, fault=None, width=SHA1):
    who = b"A <a> %d +0000" % seconds
    lines = b"".join(b"parent %s\n" % p.hex().encode() for p in parents)
    text = b"tree %s\n%sauthor %s\ncommitter %s\n\nm" % (b"0" * 2 * width, lines, who, who)
    if fault is None:
        return text
    return rng.choice((
        text.replace(b"tree ", b"three ", 1),
        text.replace(b"author ", b"writer ", 1),
        text.replace(b"committer ", b"keeper ", 1),
        text.replace(b"> %d" % seconds, b">%d" % seconds),
        text[:rng.randrange(len(text) - 3)],
        b"",
        b"tree %s\n%sauthor %s\ncommitter %s\n\n" % (b"0" * 2 * width, b"parent %s\n" % (b"1" * 2 * width) * 257, who, who),
    ))


def links(rng, kind, count):
    """The parents of each commit, as numbers; -1 is an absent commit."""
    older = lambda n: [rng.randrange(n) for _ in range(rng.choice((1, 1, 2, 2, 3)))] if n else []
    parents = [older(n) if rng.randrange(8) else [] for n in range(count)]
    if kind == "criss-cross":
        for n in range(2, count):
            low = max(0, 2 * (n // 2) - 2)
            parents[n] = rng.sample([low, low + 1], 2)
        parents[:2] = ([], rng.choice(([], [0])))[:count]
    if kind == "shared parents":
        for n in range(max(0, count - 2), count):
            parents[n] = rng.sample(range(count - 2), count - 2 - rng.randrange(2) * (count > 4)) if count > 2 else []
    if kind == "cycles":
        for _ in range(rng.randrange(1, 4)):
            n = rng.randrange(count)
            parents[n] = parents[n] + [rng.randrange(count)]
    if kind == "own parents":
        for n in rng.sample(range(count), min(count, 2)):
            parents[n] = rng.choice((parents[n] + [n], [n], [n, n] + parents[n]))
    if kind == "repeated parents":
        parents = [[p for p in row for _ in range(rng.randrange(1, 4))] for row in parents]
    if kind == "absent":
        n = rng.randrange(count)
        parents[n] = parents[n] + [-1]
    if kind == "any":
        parents = [[rng.randrange(count) for _ in range(rng.randrange(3))] for _ in range(count)]
    return parents


KINDS = ("histories", "histories", "criss-cross", "criss-cross", "shared parents", "shared parents", "cycles", "cycles", "own parents", "repeated parents", "absent", "unreadable", "any", "any", "torn")


def case(rng, width):
    """A store and two tips."""
    kind, count = rng.choice(KINDS), rng.randrange(1, 10)
    if kind == "criss-cross":
        count += count % 2
    ids, clock = names(rng, count + 1, width), rng.choice(CLOCKS)
    parents = links(rng, kind, count)
    faulty = set(rng.sample(range(count), 1)) if kind == "unreadable" else set()
    bodies = {ids[n]: body(rng.choice(clock), [ids[p] for p in parents[n]], rng, n in faulty or None, width) for n in range(count)}
    store = formats.store(bodies)
    if kind == "torn":
        at = rng.randrange(len(store))
        store = rng.choice((store[:at], store[at:], store[:at] + bytes([store[at] ^ 1 << rng.randrange(8)]) + store[at + 1:], rng.randbytes(rng.randrange(60))))
    recent = range(max(0, count - 3), count)
    tips = [ids[rng.choice(recent if rng.randrange(3) else range(count))] for _ in range(2)]
    if kind in ("criss-cross", "shared parents") and rng.randrange(4):
        tips = rng.sample((ids[count - 1], ids[max(0, count - 2)]), 2)
    if rng.randrange(40) == 0:
        tips[rng.randrange(2)] = ids[count]
    return kind, store, *tips


def wrong(library, width, rng, store, one, other):
    """None, or what differs; and the result."""
    p = 2 + len(store) // formats.parent_line(width)
    wanted, commit = model.merge_base(store, one, other, width=width)
    said = wanted, commit or bytes(width), int(commit is not None)
    if places(library, width, store, one, other) != p:
        return "places", wanted
    more = rng.choice((0, 0, 0, 1, 7))
    for a, b in ((one, other), (other, one), (one + b"x", other + one)):
        call = Call(library, width, store, a, b, p + more)
        if call.said() != said or not call.sound():
            return "%s for %s" % (call.said(), said), wanted
        if wanted in (2, 4) and not call.as_lent(call.memory):
            return "memory altered by %d" % wanted, wanted
    call = Call(library, width, store, one, other, p, short=rng.randrange(6))
    early = wanted if wanted in (2, 4) else 1
    if call.said() != (early, bytes(width), 0) or not call.sound() or not call.as_lent(call.memory):
        return "%s with memory too short" % (call.said(),), wanted
    a, b, n, m = rng.choice(((one[:-1], other, width, 1), (one, other[:-1], width, 1), (one, other, width - 1, 1), (one, other, width, 0), (b"", b"", 0, 0)))
    call = Call(library, width, store, a, b, p, id_bytes=n, numbers=m)
    if call.result != NO_ROOM or not call.as_lent(call.memory + [call.id, call.numbers]) or not call.same_input:
        return "%d without room" % call.result, wanted
    return None, wanted


def generated(library, seed, scale, width):
    rng, results, bad = seeded("partings %d" % seed, width), collections.Counter(), 0
    count = STORES * scale // 100
    for k in range(count):
        kind, store, one, other = case(rng, width)
        found, result = wrong(library, width, rng, store, one, other)
        if result == 0:
            best = len(model.best_common(model.Files(store, b"", width), one, other)[1])
            result = "none" if not best else "several best" if best > 1 else "one best"
        results[kind, result] += 1
        if found:
            bad += 1
            if bad <= 5:
                print("%s: %s; %s %s %s" % (kind, found, store.hex(), one.hex(), other.hex()))
    for n in (16777216, 16777217):
        bad += any(call.said() != (4 if n == 16777216 else 2, bytes(width), 0) or not call.as_lent(call.memory) for call in [Call(library, width, bytes(n - 1) + b"\1", bytes(width), bytes(width), 0)])
    for kind in dict.fromkeys(KINDS):
        print("%s%s: %s" % (in_words(width), kind, ", ".join("%s %d" % (result, n) for (of, result), n in sorted(results.items(), key=str) if of == kind)))
    print("%s%d stores, each with five calls more: %d differ" % (in_words(width), count, bad))
    return bad


# ---- beside git

def history(rng, count):
    """Parents of each commit: merges of what was lately there, criss-cross among them, and a second root now and then."""
    parents = [[]]
    for n in range(1, count):
        late = range(max(0, n - 5), n)
        crossed = n > 3 and rng.randrange(2)  # two merges of the same two
        parents.append([] if rng.randrange(25) == 0 else [n - 2 - n % 2, n - 1 - n % 2] if crossed else rng.sample(late, min(len(late), rng.choice((1, 1, 2, 2, 3)))))
    return parents


def beside_git(library, seed, scale, width):
    bad, pairs, several, none = 0, 0, 0, 0
    for k in range(max(1, REPOSITORIES * scale // 100)):
        rng = seeded("partings beside git %d %d" % (seed, k), width)
        parents = history(rng, 60)
        start = 1_700_000_000
        seconds = [start + (60 * n, rng.randrange(3), rng.randrange(4000), -60 * n)[k % 4] for n in range(len(parents))]
        with tempfile.TemporaryDirectory() as room:
            repository = os.path.join(room, "r")
            ids = drift.make(repository, parents, seconds, width=width)
            bodies = {bytes.fromhex(x): drift.git(repository, "cat-file", "commit", x) for x in ids}
            store = formats.store(bodies)
            for _ in range(PAIRS):
                at = rng.randrange(len(ids) - 3)
                one, other = rng.sample(ids[at:at + 4] if rng.randrange(2) else ids, 2)
                run = subprocess.run(["git", "-C", repository, "merge-base", "--all", one, other], stdout=subprocess.PIPE, env=drift.ENV)
                best = run.stdout.decode().split()
                first = min(best, key=lambda x: (-seconds[ids.index(x)], x)) if best else None
                wanted = (0, bytes.fromhex(first), 1) if best else (0, bytes(width), 0)
                call = Call(library, width, store, bytes.fromhex(one), bytes.fromhex(other), 2 + len(store) // formats.parent_line(width))
                pairs, several, none = pairs + 1, several + (len(best) > 1), none + (not best)
                if call.said() != wanted or not call.sound():
                    bad += 1
                    if bad <= 5:
                        print("git has %s, the library %s" % (best, call.said()))
    print("%sbeside git merge-base --all: %d pairs of commits, %d with several best, %d with none: %d differ" % (in_words(width), pairs, several, none, bad))
    return bad


def main():
    options = argparse.ArgumentParser()
    options.add_argument("library")
    options.add_argument("--seed", type=int, default=1)
    options.add_argument("--scale", type=int, default=100)
    options.add_argument("--width", type=int, choices=formats.WIDTHS)
    options = options.parse_args()
    library = ctypes.CDLL(options.library)
    library.linenhatch_places.restype = ctypes.c_size_t
    library.linenhatch_merge_base.restype = ctypes.c_uint32
    bad = sum(part(library, options.seed, options.scale, width) for width in widths(options.width) for part in (generated, beside_git))
    print("%d differ" % bad)
    return 1 if bad else 0


if __name__ == "__main__":
    sys.exit(main())
