"""make_vectors.py DIR EXAMPLE: writes DIR/stdin and DIR/stdout, the vectors of the program `vectors` and what it must print.

A case is a kind (one byte) and three parts, each a big-endian u32 length and its bytes; before it stands its own length, at most 65,536. The expected lines come from tools/formats.py,
which reads the files by document 01's words and shares nothing with the Rattle crates. EXAMPLE is the folder of the files git wrote.
"""
import os
import random
import sys

sys.path.insert(0, os.path.dirname(__file__))
from formats import *  # noqa: E402,F403

cases, lines = [], []


def case(kind, a=b"", b=b"", c=b""):
    out = bytes([kind])
    for part in (a, b, c):
        out += u32(len(part)) + part
    assert len(out) <= 65536
    cases.append(u32(len(out)) + out)


def store_case(s, ids=()):
    case(1, s, b"".join(ids))
    entries = store_entries(s)
    if entries is None:
        lines.append("store bad")
        return
    lines.append(f"store good {len(entries)}")
    places = {n: (a, e) for n, a, e in entries}
    for x in ids:
        lines.append("%d %d" % (places[x][0], places[x][1] - places[x][0]) if x in places else "absent")


def told(stamp):
    return f"{stamp[0]} zone {'none' if stamp[1] is None else stamp[1]}"


def header_case(body):
    case(2, body)
    r = reading(body)
    lines.append(f"readable {len(r[1])} {told(r[2])}" if r[0] == "readable" else r[0])
    t = id_line(b"tree ", body)
    ids = parent_lines(t[1])[0] if t else []
    for x in (ids[:1] + ids[-1:]):
        lines.append(f"parent {x.hex()}")
    s = stamp_only(body)
    lines.append("seconds bad" if s is None else f"seconds {told(s)}")


def graph_case(g, ids=()):
    case(3, g, b"".join(ids))
    if not graph_head(g):
        lines.append("graph foreign")
        return
    r = Graph(g)
    if not r.good:
        lines.append("graph torn")
        return
    lines.append(f"graph good {r.n}")
    for x in ids:
        p = r.find(x)
        if p is None:
            lines.append("absent")
            continue
        ps = r.parents(p)
        told = "corrupt" if ps is None else " ".join(map(str, [len(ps)] + ps))
        lines.append(f"at {p} level {r.pair_level(p)} seconds {r.seconds(p)} parents {told}")


def find_case(g, s, ids):
    case(4, g, s, b"".join(ids))
    r = Graph(g) if g else None
    places = {n: (a, e) for n, a, e in store_entries(s)}
    for x in ids:
        p = r.find(x) if r else None
        if p is not None:
            lines.append(f"graph {r.row(p).hex()}")
        elif x in places:
            a, e = places[x]
            lines.append(f"store {s[a:e].hex()}")
        else:
            lines.append("absent")


def name(*bs):
    return bytes(bs) + b"\0" * (20 - len(bs))


def changed(b, at, by):
    return b[:at] + by + b[at + len(by):]


def stores():
    a, b, c = name(1), name(2), b"\xff" * 20
    store_case(store({}), [a])
    for n in range(9):
        store_case(b"\0" * n, [])
    store_case(store({a: b""}), [a, b])
    store_case(store({a: b"", b: b"x", c: b""}), [a, b, c, name(0), name(1, 1), name(3)])
    three = store({a: b"one", b: b"two!", c: b"three"})
    store_case(three, [a, b, c, name(1)[:19] + b"\1", name(2, 255)])
    start = 12
    store_case(changed(three, start, b), [])                           # the first two ids equal
    store_case(changed(three, start, name(3)), [])                     # ids fall
    store_case(changed(three, start + 20, u32(8)), [])                 # ends fall
    store_case(changed(three, start + 44, u32(3)), [b])                # an empty body between
    store_case(changed(three, start + 68, u32(11)), [])                # last end is not the start
    store_case(changed(three, start + 68, u32(13)), [])
    store_case(changed(three, len(three) - 8, u32(11)), [])            # wrong start
    store_case(changed(three, len(three) - 4, u32(2)), [])             # wrong count
    store_case(changed(three, len(three) - 4, u32(4)), [])
    store_case(changed(three, len(three) - 4, b"\xff\xff\xff\xff"), [])
    store_case(three[:-1], [])
    store_case(three + b"\0", [])
    store_case(b"x" + three, [])
    rng = random.Random(1)
    many = {bytes(rng.randrange(256) for _ in range(20)): bytes(rng.randrange(9)) for _ in range(300)}
    clumped = {bytes([7, 7, 7, 7]) + bytes(rng.randrange(256) for _ in range(16)): b"b" * rng.randrange(4) for _ in range(200)}
    for d in (many, clumped):
        names = sorted(d)
        store_case(store(d), names[:3] + names[-3:] + rng.sample(names, 20) + [bytes(20), b"\xff" * 20, names[5][:19] + bytes([names[5][19] ^ 1])])


def headers():
    p = [bytes([i // 256, i % 256]) + b"\xab" * 18 for i in range(258)]
    for n in (0, 1, 2, 3, 255, 256, 257, 258):
        header_case(body(p[:n], 7))
    header_case(body(p[:257], author=b"no author\n"))                   # crowded decides before the bad author line
    header_case(body(p[:256], author=b"parent 00\n"))                   # 256 parents, then a bad line
    header_case(body(p[:256], author=b"no author\n"))
    good = body(p[:2], 7)
    for n in (0, 4, 5, 44, 45, 46, 47, 93, 94, 95, len(good) - 2, len(good) - 1):
        header_case(good[:n])
    header_case(good.replace(b"ab", b"aB", 1))
    header_case(good.replace(b"tree ", b"Tree ", 1))
    header_case(good.replace(b"0\n", b"g\n", 1))
    header_case(good.replace(b"parent ", b"parent", 1))
    header_case(good.replace(b"parent 0001", b"parent 00_1", 1))
    header_case(b"tree " + b"A" * 40 + good[45:])
    header_case(b"tree " + b"abcdef0123" * 4 + good[45:])
    for author in (b"author \n", b"author <>\n", b"author ><\n", b"author >a<b>c\n", b"author a<b\n", b"author <\n>\n", b"authr <>\n", b"author<>\n", b"author <<>>\n", b"author x <y> z"):
        header_case(body(p[:1], author=author))
    for tail in (b"> 5\n", b"> 5 \n", b"> 5 +0000\n", b">5\n", b">  5\n", b"> -5\n", b"> -\n", b"> --5\n", b"> +5\n", b"> \n", b">\n", b"> 5x\n", b"> 5\t\n", b"> 0\n", b"> -0\n",
                 b"> 000000000000000007\n", b"> 0000000000000000007\n", b"> 999999999999999999\n", b"> -999999999999999999\n", b"> 1000000000000000000\n", b"> 9999999999999999999\n",
                 b"> 5> 6\n", b"> 5 > 6 +0000\n", b"> 5 >\n", b" 5\n", b"> 5", b"> 17179869184 +1400\n", b"> 5 \n> 6\n"):
        header_case(body(p[:1], committer=b"committer A <a" + tail))
    for zone in (b"+0000", b"-0000", b"+1400", b"+1459", b"+1460", b"+1500", b"-1400", b"-1459", b"-1500", b"+0059", b"+0060", b"-0060", b"+0099", b"+2000", b"+9959", b"+000", b"+00000", b"+0:00",
                 b"+o000", b"+00a0", b"0000", b"00000", b"UTC", b"+0000\r", b" +0000", b"+0000 ", b"+0000 +0100", b"", b"+", b"+ 000", b"\xff0000", b",0000", b"\xab0100", b"-0030", b"+0945", b"+/959", b"+0:59"):
        header_case(body(p[:1], committer=b"committer A <a> 5 " + zone + b"\n"))
    header_case(body(p[:1], author=b"author A <a> 5 +0100\n", committer=b"committer A <a> 5\n"))      # a zone on the author line alone
    header_case(body(p[:1], committer=b"committer A <a> -5 -0130\n"))
    header_case(body(p[:1], committer=b"committer A <a> 5 +0100 > 6 +0200\n"))                         # the last `>`
    header_case(body(p[:1], committer=b"committer A <a> x +0100\n"))                                  # no seconds, and so no zone
    header_case(body(p[:257], committer=b"committer A <a> 5 +0100\n"))                                # parents are not counted
    header_case(body(p[:1], committer=b"committer > 9\n"))
    header_case(body(p[:1], committer=b"committer> 9\n"))
    header_case(body(p[:1], committer=b"commiter A <a> 9\n"))
    header_case(b"")


def graphs(example):
    one = {name(5): ((), 1, 5)}
    graph_case(b"", [])
    for n in (1, 7, 8, 19, 20, 31, 32, 39, 40, 51, 52):
        graph_case(b"CGPH\x01\x01\x00\x00" [:n] + b"\0" * max(0, n - 8), [])
    g = graph(one)
    graph_case(g, [name(5), name(4), name(6), b"\xff" * 20])
    graph_case(graph({}), [name(5)])                                    # N = 0
    for at, by in ((0, b"X"), (4, b"\2"), (5, b"\2"), (7, b"\1")):
        graph_case(changed(g, at, by))
    for at, by in ((6, b"\2"), (6, b"\4"), (6, b"\xff"), (8 + 36, b"\0\0\0\1"), (12, u64(57)), (12, u64(55)), (12 + 36, u64(len(g) - 19)), (12 + 36, u64(len(g) - 21)),
                   (24, u64(0)), (8, b"OIDL"), (20, b"OIDF"), (8, b"OIDX"), (32, b"CDAX"), (56 + 1020, u32(2)), (56 + 1020, u32(0)), (56 + 16, u32(1)), (56 + 20, u32(0)), (56 + 24, u32(2))):
        graph_case(changed(g, at, by), [name(5)])
    graph_case(g + b"\0")
    graph_case(g[:-1])
    parts = dict(zip((b"OIDF", b"OIDL", b"CDAT"), (fan([name(5)]), name(5), graph_rows(one)[1])))
    three = list(parts.items())
    graph_case(chunk_file(three + [(b"EDGE", b"")]), [name(5)])
    graph_case(chunk_file(three + [(b"EDGE", b"\0" * 8)]), [name(5)])
    graph_case(chunk_file(three + [(b"EDGE", b"\0" * 6)]))
    graph_case(chunk_file(three + [(b"EDGE", b""), (b"EDGE", b"")]))
    graph_case(chunk_file(three + [(b"\0\0\0\0", b"zero"), (b"XXXX", b"skipped"), (b"XXXX", b"again")]), [name(5)])
    graph_case(chunk_file(three[::-1]), [name(5)])
    graph_case(chunk_file(three[:2]))
    graph_case(chunk_file(three + three[:1]))
    graph_case(chunk_file([(n, d + b"\0" * 4 if n == b"OIDF" else d) for n, d in three]))
    two = [name(5), name(6)]
    rows = graph_rows({n: ((), 1, 5) for n in two})[1]
    for names in ([name(6), name(5)], [name(5), name(5)], two):
        graph_case(chunk_file([(b"OIDF", fan(names)), (b"OIDL", b"".join(names)), (b"CDAT", rows)]), two)
    graph_case(chunk_file([(b"OIDF", fan(two)), (b"OIDL", b"".join(two)), (b"CDAT", rows[:-1])]))
    # parent lists: the first row of a graph of 8 commits set by hand; a long list names the same positions again
    n = 8
    names = [bytes([i // 256, i % 256]) + bytes(18) for i in range(n)]

    def listed(first, second, edge, level=1, low=0):
        row = bytes(20) + u32(first) + u32(second) + u32(level << 2 | low) + u32(9)
        rest = (bytes(20) + u32(NONE) + u32(NONE) + u32(4) + u32(9)) * (n - 1)
        chunks = [(b"OIDF", fan(names)), (b"OIDL", b"".join(names)), (b"CDAT", row + rest)]
        if edge is not None:
            chunks.append((b"EDGE", b"".join(map(u32, edge))))
        return chunk_file(chunks)

    for first, second, edge in (
            (NONE, NONE, None), (1, NONE, None), (n - 1, NONE, None), (n, NONE, None), (1, 2, None), (1, n - 1, None), (1, n, None), (n, 1, None),
            (NONE, 1, None), (NONE, TOP, [TOP | 1]), (TOP | 1, NONE, None), (TOP | 1, 2, None), (1, TOP, None), (1, TOP, []), (1, TOP, [TOP | 2]), (1, TOP, [2, TOP | 3]),
            (1, TOP, [2, 3]), (1, TOP, [2, TOP | n]), (1, TOP, [n, TOP | 2]), (1, TOP | 1, [6, 4, TOP | 5]), (1, TOP | 2, [2, TOP | 3]), (1, TOP | 0x7FFFFFFF, [TOP | 2]),
            (1, TOP, [NONE, TOP | 2]), (1, TOP, [TOP | NONE]), (NONE, NONE, [TOP])):
        graph_case(listed(first, second, edge), [names[0], names[n - 1]])
    for count in (255, 256, 257):
        graph_case(listed(1, TOP, [k % n for k in range(2, count)] + [TOP | 3]), [names[0]])
    graph_case(listed(NONE, NONE, None, 0x3FFFFFFF, 3), [names[0]])
    graph_case(listed(NONE, NONE, None, 0, 1), [names[0]])
    git = open(os.path.join(example, "graph"), "rb").read()
    graph_case(git, Graph(git).names + [bytes(20), b"\xff" * 20])
    for at in (0, 6, 9, 13, 100, 200, 1500, 2000, len(git) - 1):
        graph_case(changed(git, at, bytes([git[at] ^ 1])))
    rng = random.Random(2)
    crowd = {bytes([rng.choice((3, 200)), rng.randrange(3)]) + bytes(rng.randrange(256) for _ in range(18)): ((), 1, 1) for _ in range(200)}
    graph_case(graph(crowd), rng.sample(sorted(crowd), 12) + [bytes([3]) + bytes(19), bytes([200]) + b"\xff" * 19])


def finds():
    a, b, c = name(1), name(2), name(3)
    g = graph({a: ((), 1, 5), b: ((a,), 2, 6)})
    s = store({b: body([a], 6), c: body([b], 7)})
    find_case(g, s, [a, b, c, name(4)])
    find_case(b"", s, [a, b, c, name(4)])
    find_case(g, store({}), [a, b, c])


def main(out, example):
    stores()
    headers()
    graphs(example)
    finds()
    with open(os.path.join(out, "stdin"), "wb") as f:
        f.write(b"".join(cases))
    with open(os.path.join(out, "stdout"), "w") as f:
        f.write("\n".join(lines) + "\n")
    print(len(cases), "cases,", sum(map(len, cases)), "bytes,", len(lines), "lines")


main(*sys.argv[1:])
