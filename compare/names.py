"""names.py LIBRARY.so: the check of names of the static library, made into a shared one, beside model.py's, on stores and graph files that are
true, a little off, or any bytes at all. Prints how many came to each result; ends with status 1 if anything differs, a file is altered, or a
byte beside the lent number is. Options: --seed N, --cases N (of each width), --width N (one width alone; else ids of 20 bytes and of 32).

    tools/staticlib
    make -C bindings/c shared
    python3 compare/names.py target/c/liblinenhatch.so
"""
import argparse
import collections
import ctypes
import os
import sys

import model
from library import GUARD, NO_ROOM, Buffer, in_words, lend, width_words, widths

import formats
from formats import SHA1
from generate import seeded

EXAMPLE = os.path.join(os.path.dirname(os.path.abspath(__file__)), "..", "crates", "readers", "data")


def true_pair(rng, width):
    """A store whose names are true and a graph file whose checksum is; the graph file may be none."""
    bodies = [bytes(rng.choice(b"ab\n") for _ in range(rng.choice((0, 1, 44, 45, 46, 52, 53, 54, 108, 109, 110, rng.randrange(300))))) for _ in range(rng.randrange(6))]
    names = {model.commit_id(body, width): body for body in bodies}
    graph = b""
    if rng.randrange(3):
        graph = formats.graph({name: ((), 1, 5) for name in names}, width=width)[:-width]
        graph += formats.digest(graph, width)
    return formats.store(names), graph


def off(rng, data):
    """As it is, or a bit off, a byte out or in, cut, two parts exchanged."""
    if not data:
        return data
    at, to = sorted((rng.randrange(len(data)), rng.randrange(len(data))))
    if rng.randrange(2):
        return data
    return rng.choice((
        data[:at] + bytes([data[at] ^ 1 << rng.randrange(8)]) + data[at + 1:],
        data[:at] + data[at + 1:],
        data[:at] + b"\0" + data[at:],
        data[:at],
        data[:at] + data[to:] + data[at:to],
    ))


def swapped(rng, store, width):
    """Two bodies under each other's id."""
    entries = formats.store_entries(store, width)
    if entries is None or len(entries) < 2:
        return store
    bodies = [store[a:e] for _, a, e in entries]
    k = rng.randrange(len(bodies) - 1)
    bodies[k:k + 2] = bodies[k + 1], bodies[k]
    return formats.store({name: body for (name, _, _), body in zip(entries, bodies)})


def with_wide_ids(store, graph):
    """The example's files with ids of 32 bytes, each commit under its digest; parents are named as they were, which a check of names does not read."""
    entries = formats.store_entries(store)
    names = {name: model.commit_id(store[start:end], formats.SHA256) for name, start, end in entries}
    read = formats.Graph(graph)
    rows = {names[read.names[p]]: ((), read.level(p), read.seconds(p)) for p in range(read.n)}
    wide = formats.graph(rows, width=formats.SHA256)[:-formats.SHA256]
    return formats.store({names[name]: store[start:end] for name, start, end in entries}), wide + formats.digest(wide, formats.SHA256)


def pairs(rng, count, width):
    example = tuple(open(os.path.join(EXAMPLE, name), "rb").read() for name in ("store", "graph"))
    example = example if width == SHA1 else with_wide_ids(*example)
    for k in range(count):
        store, graph = example if k % 8 == 0 else true_pair(rng, width)
        if rng.randrange(4) == 0:
            store = swapped(rng, store, width)
        if k % 50 == 0:
            store, graph = rng.randbytes(rng.randrange(80)), rng.randbytes(rng.randrange(80))
        yield off(rng, store), off(rng, graph)
    for n in (16777216, 16777217):
        yield bytes(n), b""
        yield b"", bytes(n)


def run(check, seed, count, width):
    results, bad = collections.Counter(), 0
    for store, graph in pairs(seeded(seed, width), count, width):
        (s, kept_store), (g, kept_graph) = lend(store), lend(graph)
        numbers, none = Buffer(ctypes.c_uint64, 1), Buffer(ctypes.c_uint64, 0)
        got = check(*width_words(width), *s, *g, *numbers.words()), numbers.part[0]
        wanted = model.check_names(store, graph, width)
        room = check(*width_words(width), *s, *g, *none.words()) == NO_ROOM and set(bytes(none.all)) == {GUARD}
        same = bytes(kept_store)[:len(store)] == store and bytes(kept_graph)[:len(graph)] == graph
        if got != wanted or not numbers.sound() or not room or not same:
            bad += 1
            if bad <= 5:
                print("%s for %s: %s, %s" % (got, wanted, store[:400].hex(), graph[:400].hex()))
        results[got[0]] += 1
    print(in_words(width) + ", ".join("%d: %d" % pair for pair in sorted(results.items())))
    return bad


def main():
    options = argparse.ArgumentParser()
    options.add_argument("library")
    options.add_argument("--seed", type=int, default=1)
    options.add_argument("--cases", type=int, default=20000)
    options.add_argument("--width", type=int, choices=formats.WIDTHS)
    options = options.parse_args()
    check = ctypes.CDLL(options.library).linenhatch_check_names
    check.restype = ctypes.c_uint32
    bad = sum(run(check, options.seed, options.cases, width) for width in widths(options.width))
    print("%d differ" % bad)
    return 1 if bad else 0


if __name__ == "__main__":
    sys.exit(main())
