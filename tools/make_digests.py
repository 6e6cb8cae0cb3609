"""make_digests.py DIR EXAMPLE: writes DIR/stdin and DIR/stdout, the cases of the program `digests` and what it must print.

A case is what it asks (one byte) and two parts, each a big-endian u32 length and its bytes; before it stands its own length, at most 65,536. The digests are hashlib's, the published
ones are set beside it, and the ids and the check of names are compare/model.py's. EXAMPLE is the folder of the files git wrote.
"""
import hashlib
import os
import random
import sys

sys.path[:0] = [os.path.dirname(__file__), os.path.join(os.path.dirname(__file__), "..", "compare")]
import model  # noqa: E402
from formats import *  # noqa: E402,F403

KINDS = (("sha1", 1, 3), ("sha256", 2, 4))

# FIPS 180-4's examples (published with it), and the empty message
PUBLISHED = (
    (b"abc", "a9993e364706816aba3e25717850c26c9cd0d89d", "ba7816bf8f01cfea414140de5dae2223b00361a396177a9cb410ff61f20015ad"),
    (b"abcdbcdecdefdefgefghfghighijhijkijkljklmklmnlmnomnopnopq", "84983e441c3bd26ebaae4aa1f95129e5e54670f1", "248d6a61d20638b8e5c026930c3e6039a33ce45964ff2167f6ecedd419db06c1"),
    (b"abcdefghbcdefghicdefghijdefghijkefghijklfghijklmghijklmnhijklmnoijklmnopjklmnopqklmnopqrlmnopqrsmnopqrstnopqrstu", "a49b2446a02c645bf419f995b67091253a04a259",
     "cf5b16a778af8380036ce59e7b0492370b249b11e8f07a51afac45037afee9d1"),
    (b"", "da39a3ee5e6b4b0d3255bfef95601890afd80709", "e3b0c44298fc1c149afbf4c8996fb92427ae41e4649b934ca495991b7852b855"),
)

cases, lines = [], []


def case(asked, a=b"", b=b""):
    out = bytes([asked])
    for part in (a, b):
        out += u32(len(part)) + part
    assert len(out) <= 65536
    cases.append(u32(len(out)) + out)


def digest_cases(head, body):
    for name, asked, _ in KINDS:
        case(asked, head, body)
        lines.append(hashlib.new(name, head + body).hexdigest())


def id_cases(body):
    for name, _, asked in KINDS:
        case(asked, body)
        lines.append(model.commit_id(body, {"sha1": 20, "sha256": 32}[name]).hex())


def check_case(s, g, want=None, width=SHA1):
    r = model.check_names(s, g, width)
    assert want is None or r == want, (r, want)
    case(5 if width == SHA1 else 6, s, g)
    lines.append("%d %d" % r)


def flipped(b, at, bit=0):
    return b[:at] + bytes([b[at] ^ 1 << bit]) + b[at + 1:]


def digests():
    for m, one, two in PUBLISHED:
        assert hashlib.sha1(m).hexdigest() == one and hashlib.sha256(m).hexdigest() == two
        digest_cases(b"", m)
        digest_cases(m, b"")
    for n in (1, 54, 55, 56, 57, 63, 64, 65, 111, 118, 119, 120, 127, 128, 129, 183, 184, 1000):
        m = bytes(i * 7 % 251 for i in range(n))
        for at in sorted({0, 1, n // 2, min(n, 28), min(n, 64), n}):
            digest_cases(m[:at], m[at:])
    m = bytes(i * 7 % 251 for i in range(65000))
    digest_cases(m[:28], m[28:])
    digest_cases(b"", b"\xff" * 200)


def ids(bodies):
    for n in (0, 1, 9, 10, 99, 100, 999, 1000, 9999, 10000):
        id_cases(b"x" * n)
    for b in bodies:
        id_cases(b)


def checks(s, g):
    entries = store_entries(s)
    start = be32(s, len(s) - 8)
    n = len(entries)
    bodies = [s[a:e] for _, a, e in entries]
    check_case(s, g, (0, 0))
    check_case(s, b"", (0, 0))
    check_case(store({}), g, (0, 0))
    check_case(store({}), b"", (0, 0))
    for k in (0, 1, n // 2, n - 1):
        a, e = entries[k][1:]
        for at in (a, (a + e) // 2, e - 1):
            check_case(flipped(s, at, 3), g, (16, k))                   # a bit of a body
        check_case(flipped(s, start + 24 * k + 19), g)                  # a bit of an id, its last
        check_case(flipped(s, start + 24 * k, 7), g)                    # its first: the order may break
    for k in (0, 1, 9, n - 2):                                          # a body under its neighbour's id, and the other way round
        swapped = bodies[:k] + [bodies[k + 1], bodies[k]] + bodies[k + 2:]
        out, table, end = b"".join(swapped), b"", 0
        for (name, _, _), b in zip(entries, swapped):
            end += len(b)
            table += name + u32(end)
        check_case(out + table + u32(end) + u32(n), g, (16, k))
    moved = flipped(s, start + 23, 0)                                   # a body's end a byte further or nearer
    check_case(moved, g, (16, 0))
    check_case(flipped(flipped(s, entries[9][1]), entries[4][1]), g, (16, 4))
    for at in range(0, len(g) - 20, 43):                                # a bit of the graph file: torn, or its checksum false
        check_case(store({}), flipped(g, at, at % 8))
    for at in (len(g) - 20, len(g) - 11, len(g) - 1):                   # a bit of the checksum
        check_case(s, flipped(g, at, at % 8), (17, 0))
    check_case(s, flipped(g, 2000, 5), (17, 0))                         # a bit of a chunk that the reader skips
    check_case(flipped(s, 0), flipped(g, len(g) - 1), (16, 0))          # both: the name decides
    check_case(s[:-1], flipped(g, len(g) - 1), (4, 0))
    check_case(flipped(s, 0), flipped(g, 0), (5, 0))
    check_case(flipped(s, 0), g[:-1], (6, 0))
    check_case(s, g[:7], (5, 0))
    check_case(b"", g, (4, 0))
    true = store({model.commit_id(b): b for b in (b"", b"x", b"tree", bytes(range(256)))})
    check_case(true, g, (0, 0))
    check_case(true, b"", (0, 0))
    rng = random.Random(2)
    for _ in range(12):                                                 # hostile bytes
        t, h = bytearray(s), bytearray(g)
        for _ in range(rng.randrange(3)):
            t[rng.randrange(len(t))] ^= 1 << rng.randrange(8)
        for _ in range(rng.randrange(3)):
            h[rng.randrange(len(h))] ^= 1 << rng.randrange(8)
        check_case(bytes(t), bytes(h))


def other_width(s, g):
    """Card 13: entries of 36 bytes, "graph hash version 2 with a 32-byte checksum", and "a graph of the other width is 5"."""
    bodies, last = {}, []
    for k in range(40):
        b = body(last, k, bytes([k]) * SHA256)
        name = model.commit_id(b, SHA256)
        bodies[name] = b
        last = [name] + last[:k % 3]
    wide = store(bodies)
    start, n = be32(wide, len(wide) - 8), len(bodies)
    graph = model.write_graph(wide, n, 65536, SHA256)[1]
    check_case(wide, graph, (0, 0), SHA256)
    check_case(wide, b"", (0, 0), SHA256)
    check_case(store({}), graph, (0, 0), SHA256)
    for k in (0, 1, n // 2, n - 1):
        a, e = store_entries(wide, SHA256)[k][1:]
        check_case(flipped(wide, a, 3), graph, (16, k), SHA256)
        check_case(flipped(wide, e - 1, 3), graph, (16, k), SHA256)
        check_case(flipped(wide, start + 36 * k + 31), graph, None, SHA256)
    for at in (len(graph) - 32, len(graph) - 20, len(graph) - 1):
        check_case(wide, flipped(graph, at, at % 8), (17, 0), SHA256)
    check_case(flipped(wide, 0), flipped(graph, len(graph) - 1), (16, 0), SHA256)
    check_case(wide, g, (5, 0), SHA256)
    check_case(s, graph, (5, 0))
    check_case(s, graph, (4, 0), SHA256)
    check_case(wide, g, (4, 0))
    check_case(wide, graph[:-1], (6, 0), SHA256)


def main(out, example):
    s = open(os.path.join(example, "store"), "rb").read()
    g = open(os.path.join(example, "graph"), "rb").read()
    digests()
    ids([s[a:e] for _, a, e in store_entries(s)[:5]])
    checks(s, g)
    other_width(s, g)
    open(os.path.join(out, "stdin"), "wb").write(b"".join(cases))
    open(os.path.join(out, "stdout"), "w").write("\n".join(lines) + "\n")


if __name__ == "__main__":
    main(*sys.argv[1:])
