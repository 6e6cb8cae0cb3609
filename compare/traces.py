"""traces.py LIBRARY.so: tracing by turns (card 12), by the static library, made into a shared one, and by model.py's definition, on generated stores: lines, merges,
shared and repeated parents, cycles, commits that are their own parents, absent and unreadable commits (also one step within and one step past the moves),
broken layouts, ids of 20 bytes and of 32, and calibrations that are absent, beyond the moves, repeated, or the start.

Each case is called with a memo of length 0, of a length at random and of one that is enough for every entry, each filled with other bytes, and with a longer
start: all must say the same in every field. After 25 and 2 to 4 the memo must be as it was. Each is called too without room for the answer or with a start of
19 bytes (31; 101, and nothing altered). A ladder of merges of 256 parents, which has 256 to the power 12 traces, must be answered in under a second.

Prints how many came to each result; ends with status 1 if anything differs or a byte beside a buffer is altered. Options: --seed N, --scale N (percent of the
40,000 cases of each width), --width N (one width alone).

    tools/staticlib
    make -C bindings/c shared
    python3 compare/traces.py target/c/liblinenhatch.so
"""
import argparse
import collections
import ctypes
import random
import sys
import time

import model
import partings
from library import GUARD, NO_ROOM, Buffer, in_words, lend, width_words, widths

import formats
from generate import seeded

CASES, ROW = 40000, 26


class Call:
    """One call with a memo of so many bytes."""

    def __init__(self, library, width, store, start, listed, moves, memo, id_bytes=None, numbers=2):
        id_bytes = width if id_bytes is None else id_bytes
        self.memo, self.id, self.numbers = Buffer(ctypes.c_uint8, memo), Buffer(ctypes.c_uint8, id_bytes), Buffer(ctypes.c_uint64, numbers)
        given = (store, start, listed)
        lent = [lend(data) for data in given]
        words = [word for pair, _ in lent for word in pair] + [ctypes.c_uint32(moves)]
        words += [word for b in (self.memo, self.id, self.numbers) for word in b.words()]
        self.result = library.linenhatch_trace(*width_words(width), *words)
        self.same_input = all(bytes(part)[:len(data)] == data for (_, part), data in zip(lent, given))

    def said(self):
        return self.result, self.numbers.part[0], self.numbers.part[1], bytes(self.id.part)

    def sound(self):
        return self.same_input and all(b.sound() for b in (self.memo, self.id, self.numbers))

    def as_lent(self, *buffers):
        return all(set(bytes(b.all)) <= {GUARD} for b in buffers)


KINDS = ("histories", "histories", "criss-cross", "shared parents", "cycles", "own parents", "repeated parents", "absent", "unreadable", "any", "any", "torn", "ragged", "far")


def case(rng, width):
    """A store, a start, a list of calibrations and a number of moves."""
    kind, count = rng.choice(KINDS), rng.randrange(1, 14)
    ids, parents = partings.names(rng, count + 1, width), partings.links(rng, kind, count)
    faulty = {rng.randrange(count)} if kind == "unreadable" else set()
    bodies = {ids[n]: partings.body(5, [ids[p] for p in parents[n]], rng, n in faulty or None, width) for n in range(count)}
    store = formats.store(bodies)
    if kind == "torn":
        at = rng.randrange(len(store))
        store = rng.choice((store[:at], store[at:], store[:at] + bytes([store[at] ^ 1 << rng.randrange(8)]) + store[at + 1:]))
    start = ids[rng.choice((count - 1, count - 1, rng.randrange(count)))]
    if rng.randrange(40) == 0:
        start = ids[count]
    listed = [ids[rng.randrange(count)] for _ in range(rng.choice((0, 1, 1, 2, 3)))]
    if rng.randrange(6) == 0:
        listed.append(rng.choice((ids[count], rng.randbytes(width), start)))
    rng.shuffle(listed)
    listed = b"".join(listed)
    if kind == "ragged":
        listed += bytes(rng.randrange(1, width))
    moves = rng.choice((0, 1, 2, 3, 4, 5, 6, 12, rng.randrange(13)))
    if kind == "far":
        moves = rng.choice((13, 14, 255, 2 ** 31, 2 ** 32 - 1))
    return kind, store, start, listed, moves


def wrong(library, width, rng, store, start, listed, moves):
    """None, or what differs; and what was wanted."""
    wanted = model.trace(store, start, listed, moves, width)
    enough = ROW * (len(store) // formats.entry_size(width))
    for memo in (0, rng.randrange(enough + 2), enough, enough + rng.randrange(100)):
        call = Call(library, width, store, start + rng.choice((b"", b"x")), listed, moves, memo)
        if call.said() != wanted or not call.sound():
            return "%s for %s with a memo of %d" % (call.said(), wanted, memo), wanted
        if wanted[0] in (25, 2, 3, 4) and not call.as_lent(call.memo):
            return "memo altered by %d" % wanted[0], wanted
    a, n, m = rng.choice(((start[:-1], width, 2), (start, width - 1, 2), (start, width, 1), (b"", 0, 0)))
    call = Call(library, width, store, a, listed, moves, enough, n, m)
    if call.result != NO_ROOM or not call.as_lent(call.memo, call.id, call.numbers) or not call.same_input:
        return "%d without room" % call.result, wanted
    return None, wanted


def generated(library, seed, scale, width):
    rng, results, bad = seeded("traces %d" % seed, width), collections.Counter(), 0
    count = CASES * scale // 100
    for _ in range(count):
        kind, *given = case(rng, width)
        found, wanted = wrong(library, width, rng, *given)
        results[kind, ("not forced", "at the start", "forced")[wanted[1]] if wanted[0] == 0 else wanted[0]] += 1
        if found:
            bad += 1
            if bad <= 5:
                print("%s: %s; %s" % (kind, found, " ".join(x.hex() if isinstance(x, bytes) else str(x) for x in given)))
    for n in (16777216, 16777217):
        call = Call(library, width, bytes(n - 1) + b"\1", bytes(width), b"", 12, 100)
        bad += call.said() != (4 if n == 16777216 else 2, 0, 0, bytes(width)) or not call.as_lent(call.memo)
    for n in (1024, 1025):
        call = Call(library, width, bytes(8), bytes(width), bytes(width * n), 0, 100)
        bad += call.said() != (13 if n == 1024 else 2, 0, 0, bytes(width))
    for kind in dict.fromkeys(KINDS):
        print("%s%s: %s" % (in_words(width), kind, ", ".join("%s %d" % (result, n) for (of, result), n in sorted(results.items(), key=str) if of == kind)))
    print("%s%d cases, each with five calls: %d differ" % (in_words(width), count, bad))
    return bad


def ladder(library, width):
    """Layers of 100 merges (70 with ids of 32 bytes), each of 256 parents: all of the layer below it, over and over. The last layer has the first for its parents. The bed makes move 10
    and evades the one that is left out, the cone makes move 11 and takes the one that is listed."""
    layers, wide = 12, 100 if width == formats.SHA1 else 70  # as many as fit a store
    name = lambda layer, k: bytes([layer, k]) + bytes(width - 2)
    rows = {}
    for layer in range(layers):
        below = [name((layer + 1) % layers, k % wide) for k in range(256)]
        rows.update((name(layer, k), partings.body(5, below, random, width=width)) for k in range(wide))
    store, bad, times = formats.store(rows), 0, []
    for listed, wanted in ((b"", (0, 0, 0, bytes(width))), (b"".join(name(10, k) for k in range(1, wide)), (0, 0, 0, bytes(width))), (name(11, 3), (0, 2, 0, name(1, 0)))):
        begin = time.perf_counter()
        call = Call(library, width, store, name(0, 0), listed, 12, ROW * len(rows))
        times.append(time.perf_counter() - begin)
        bad += call.said() != wanted or not call.sound() or times[-1] > 1
        if call.said() != wanted:
            print("ladder: %s for %s" % (call.said(), wanted))
    print("%sa ladder of %d merges of 256 parents, 12 moves: %s s" % (in_words(width), len(rows), ", ".join("%.2f" % t for t in times)))
    return bad


def main():
    options = argparse.ArgumentParser()
    options.add_argument("library")
    options.add_argument("--seed", type=int, default=1)
    options.add_argument("--scale", type=int, default=100)
    options.add_argument("--width", type=int, choices=formats.WIDTHS)
    options = options.parse_args()
    library = ctypes.CDLL(options.library)
    library.linenhatch_trace.restype = ctypes.c_uint32
    bad = sum(generated(library, options.seed, options.scale, width) + ladder(library, width) for width in widths(options.width))
    print("%d differ" % bad)
    return 1 if bad else 0


if __name__ == "__main__":
    sys.exit(main())
