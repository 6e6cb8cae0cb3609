"""make_partings.py DIR: writes DIR/stdin and DIR/stdout, the cases of the program `partings` and what it must print.

A case is the kind of ids, two ids, the lengths of the six buffers to lend and the commit store; before it stands its own length. Each is made with ids of 20 bytes and of 32 (card 13). What is expected comes from document 02's words by brute
force: the set of ids that each tip reaches, every pair of common commits set against each other. The readers are compare/model.py's.
"""
import os
import random
import sys

sys.path[:0] = [os.path.dirname(__file__), os.path.join(os.path.dirname(__file__), "..", "compare")]
import model  # noqa: E402
from formats import *  # noqa: E402,F403

cases, lines = [], []
width = SHA1  # of the ids of the case that is made


# ---- document 02, cards 8 and 11

def places(book):
    """"P with two tips and no graph"; "P divides the book by 72 there" """
    return 2 + len(book) // parent_line(width)


def lengths(book):
    """Document 01: "names 20·P bytes, marks P bytes, levels P u32, times P i64, line 5·P u32, parents 5,120 bytes"; card 13: "buffers follow it" """
    p = places(book)
    return [width * p, p, p, p, 5 * p, parents_size(width)]


def reached(files, tip):
    """What a tip reaches, itself too; "an absent or unreadable id is reached too, as a commit that isn't readable, and leads no further" """
    met, waiting = {tip}, [tip]
    while waiting:
        h = files.header(waiting.pop())
        for p in h.ids if h is not None and h.fault() is None else ():
            if p not in met:
                met.add(p)
                waiting.append(p)
    return met


def parting(book, one, other, lent):
    """Refusal, None or id: "reachable from both, and not reachable from another commit that is"; "Of all best common ancestors give the first: greatest book
    seconds, then the smallest id". """
    if len(book) > model.MOST_BYTES:
        return 2
    files = model.Files(book, b"", width)
    if files.fault is not None:
        return files.fault
    if any(have < want for have, want in zip(lent, lengths(book))):
        return 1
    a, b = reached(files, one), reached(files, other)
    if any(files.header(x) is None or files.header(x).fault() is not None for x in a | b):
        return 13
    common = a & b
    if not common:
        return None
    below = {x: reached(files, x) for x in common}
    best = [x for x in common if not any(x in below[y] for y in common if y != x)]
    if not best:
        return 23
    return min(best, key=lambda x: (-files.header(x).seconds, x))


# ---- cases

def case(book, one, other, lent=None, want=()):
    lent = lengths(book) if lent is None else lent
    r = parting(book, one, other, lent)
    assert want == () or r == want, (r, want)
    body = bytes([hash_version(width)]) + one + other + b"".join(u32(n) for n in lent) + book
    assert len(body) <= 65536 and places(book) <= 512
    cases.append(u32(len(body)) + body)
    lines.append("none" if r is None else "refused %d" % r if isinstance(r, int) else r.hex())
    return r


def both_ways(book, one, other, want=()):
    """Either order of the tips: the same is said."""
    assert case(book, one, other, None, want) == case(book, other, one, None, want)


def name(k):
    """An id for a number: its first byte tells it, so that ids rise with numbers."""
    return bytes([k]) + bytes(width - 1)


def near(k):
    """Ids that differ in the last byte alone."""
    return b"\x42" * (width - 1) + bytes([k])


def commit(parents, seconds=0, last=b"\n"):
    out = b"tree " + b"0" * (2 * width) + b"\n"
    for p in parents:
        out += b"parent " + p.hex().encode() + b"\n"
    return out + b"author A <a> 5 +0000\ncommitter A <a> %d +0000" % seconds + last


def history(links, seconds=None, names=name):
    """A store from numbers to their parents' numbers."""
    return store({names(k): commit([names(p) for p in ps], (seconds or {}).get(k, k)) for k, ps in links.items()})


def shapes():
    line = history({1: [], 2: [1], 3: [2], 4: [3]})
    for a in (1, 2, 3, 4):                                                          # equal tips; one the ancestor of the other
        for b in (1, 2, 3, 4):
            case(line, name(a), name(b), None, name(min(a, b)))
    fork = history({1: [], 2: [1], 3: [2], 4: [2], 5: [3], 6: [4]})
    both_ways(fork, name(5), name(6), name(2))
    crossed = {1: [], 2: [1], 3: [1], 4: [2, 3], 5: [3, 2]}                          # a criss-cross: 2 and 3 are both best
    both_ways(history(crossed), name(4), name(5), name(3))
    both_ways(history(crossed, {2: 7, 3: 7}), name(4), name(5), name(2))             # equal seconds: the smallest id
    both_ways(history(crossed, {2: 7, 3: 6}), name(4), name(5), name(2))
    both_ways(history(crossed, {2: -7, 3: -8}), name(4), name(5), name(2))           # negative seconds are signed
    both_ways(history(crossed, {2: -8, 3: -7}), name(4), name(5), name(3))
    both_ways(history(crossed, {2: -1, 3: 0}), name(4), name(5), name(3))
    both_ways(history(crossed, {2: 0, 3: 0}, near), near(4), near(5), near(2))       # ids that differ in the last byte
    both_ways(history(crossed, {2: -999999999999999999, 3: 999999999999999999}), name(4), name(5), name(3))
    wide = {1: [], 2: [1], 3: [1], 4: [1], 5: [1], 6: [2, 3, 4, 5], 7: [5, 4, 3, 2]}    # several best
    both_ways(history(wide, {2: 3, 3: 9, 4: 9, 5: 1}), name(6), name(7), name(3))
    both_ways(history(wide, {2: 9, 3: 9, 4: 9, 5: 9}), name(6), name(7), name(2))
    both_ways(history(wide, {2: -9, 3: -3, 4: -3, 5: -9}, near), near(6), near(7), near(3))
    both_ways(history({1: [], 2: [1], 3: [], 4: [3]}), name(2), name(4), None)       # none common
    both_ways(history({1: [], 2: [1, 1, 1], 3: [1, 1]}), name(2), name(3), name(1))  # repeated parents
    both_ways(history({1: [2], 2: [1], 3: [2], 4: [1], 5: []}), name(3), name(4), 23)  # a cycle below both
    both_ways(history({1: [2], 2: [1], 3: [2, 5], 4: [1, 5], 5: []}), name(3), name(4), name(5))  # beside the cycle stands a best one
    both_ways(history({1: [], 2: [3, 1], 3: [2], 4: [1]}), name(2), name(4), name(1))  # a cycle above
    case(history({1: [2], 2: [3], 3: [1]}), name(1), name(1), None, 23)              # a cycle as the whole reach, equal tips too
    both_ways(history({1: [2], 2: [3], 3: [1]}), name(1), name(3), 23)
    both_ways(history({1: [1], 2: [1], 3: [1]}), name(2), name(3), name(1))          # its own parent is not another
    case(history({1: [1]}), name(1), name(1), None, name(1))
    both_ways(history({1: [], 2: [2, 1], 3: [2], 4: [2, 1]}), name(3), name(4), name(2))
    both_ways(history({1: [2], 2: [2, 1], 3: [1], 4: [2]}), name(3), name(4), 23)
    both_ways(history({1: [], 2: [1], 3: [1], 4: [2, 1], 5: [3, 1]}), name(4), name(5), name(1))


def faults():
    ok = history({1: [], 2: [1], 3: [1]})
    both_ways(ok, name(2), name(9), 13)                                              # an absent tip
    case(ok, name(9), name(9), None, 13)
    case(store({}), name(1), name(2), None, 13)
    both_ways(history({1: [], 2: [1, 9], 3: [1]}), name(2), name(3), 13)             # an absent parent on one side
    for bad in (b"", b"tree", commit([name(1)])[:-1], commit([name(1)]).replace(b"author", b"auther"), commit([name(1)] * 257)):
        bodies = {name(1): commit([]), name(2): bad, name(3): commit([name(1)]), name(4): commit([name(2)])}
        both_ways(store(bodies), name(3), name(4), 13)                               # a commit that is not readable, on one side only
        case(store(bodies), name(3), name(1), None, name(1))                         # and out of reach
    both_ways(store({name(1): commit([]), name(2): commit([name(1)] * 256), name(3): commit([name(1)])}), name(2), name(3), name(1))
    full = lengths(ok)
    for k in range(6):                                                               # each buffer one short
        case(ok, name(2), name(3), full[:k] + [full[k] - 1] + full[k + 1:], 1)
        case(ok, name(9), name(3), full[:k] + [0] + full[k + 1:], 1)
        case(ok, name(2), name(3), full[:k] + [full[k] + 1] + full[k + 1:], name(1))
    case(ok, name(2), name(3), [0] * 6, 1)
    for cut in (ok[:-1], ok[1:], b"", ok + b"\0"):                                   # 4 before 1
        case(cut, name(2), name(3), [0] * 6, 4)
        case(cut, name(2), name(3), None, 4)


def generated():
    rng = random.Random(8)
    for turn in range(150):
        n = rng.randrange(1, 12)
        names = name if turn % 3 else near
        links = {k: [rng.randrange(0 if turn % 5 else 1, k if turn % 2 and k > 1 else n + 1) or 200 * (turn % 7 == 0) or 1 for _ in range(rng.choice((0, 1, 1, 1, 2, 2, 3)))] for k in range(1, n + 1)}
        book = history(links, {k: rng.randrange(-3, 4) for k in links}, names)
        both_ways(book, names(rng.randrange(1, n + 1)), names(rng.randrange(1, n + 1)))


def other_width():
    """A store and tips of the other width: its layout does not hold, or a tip is absent."""
    global width
    ids = {}
    for width in WIDTHS:
        ids[width] = history({1: [], 2: [1], 3: [1]}), name(2), name(3)
    for width in WIDTHS:
        book = ids[SHA1 + SHA256 - width][0]
        case(book, name(2), name(3), None, 4)
        case(store({}), name(2), name(3), None, 13)


def main(out):
    global width
    for width in WIDTHS:
        shapes()
        faults()
        generated()
    other_width()
    open(os.path.join(out, "stdin"), "wb").write(b"".join(cases))
    open(os.path.join(out, "stdout"), "w").write("\n".join(lines) + "\n")
    kinds = {}
    for l in lines:
        k = l if l[0] in "nr" else "commit"
        kinds[k] = kinds.get(k, 0) + 1
    print(len(lines), kinds)


if __name__ == "__main__":
    main(*sys.argv[1:])
