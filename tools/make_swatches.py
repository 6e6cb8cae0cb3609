"""make_swatches.py PROGRAM CASES: writes PROGRAM/stdin and PROGRAM/stdout, document 01's example for the program `swatches` and what it
prints, and CASES/stdin and CASES/stdout, the inputs of the program `swatchcases` and what it must print.

A case is a title and an input, each with its length before it as a big-endian u32. The expected text comes from compare/model.py, which
walks by document 01's words and shares nothing with the Rattle crates.
"""
import os
import sys

HERE = os.path.dirname(os.path.abspath(__file__))
sys.path.insert(0, HERE)
sys.path.insert(0, os.path.join(HERE, "..", "compare"))
from formats import body, store, u32  # noqa: E402
from model import Files, Walk  # noqa: E402

MOST = 65536


def listing(given):
    """What is printed for these bytes."""
    if len(given) > MOST:
        return "! 2\n"
    # "reads a 20-byte tip, then a book"; "Under 20 bytes, all are the tip list and the book is 8 zero bytes"
    tips, book = given[:20], given[20:] if len(given) >= 20 else bytes(8)
    if len(tips) % 20:
        return "! 3\n"
    walk = Walk(Files(book, b""), [tips] if tips else [], [], [], "breadth", None, False)
    if walk.refused is not None:
        return "! %d\n" % walk.refused
    out = ""
    while True:
        a = walk.next()
        if a.kind == "end":
            return out + "end\n"
        # "A refusal prints `! `, its number and a newline; … one from a call doesn't [stop the program]"
        out += "! %d\n" % a.number if a.kind == "error" else "%s %d\n" % (a.name.hex(), len(a.parents))


def name(n):
    return bytes([n]) * 20


def example():
    """Document 01's: "Tip of 20 bytes 0x11, its one body a tree of zeros, author and committer `A <a> 5 +0000`, blank line (92 bytes;
    book 124)"."""
    book = store({name(0x11): body()})
    assert len(body()) == 92 and len(book) == 124
    return name(0x11) + book


def history():
    """"8→6,7; 7→4; 6→5; 5→3; 4→2; 3→1; 2→1", numbers as seconds; tip 8."""
    links = {8: [6, 7], 7: [4], 6: [5], 5: [3], 4: [2], 3: [1], 2: [1], 1: []}
    return name(8) + store({name(n): body([name(p) for p in ps], n) for n, ps in links.items()})


def filled(size):
    """A tip and a store that together have this many bytes: two commits, the second with a long message."""
    bodies = {name(1): body([name(2)], 6), name(2): body()}
    rest = size - 20 - len(store(bodies))
    bodies[name(2)] += b"m" * rest
    return name(1) + store(bodies)


def many(parents):
    """A commit with this many parents, none of them in the store."""
    return name(255) + store({name(255): body([b"\1" * 18 + bytes([k // 256, k % 256]) for k in range(parents)])})


def cases():
    tip = name(0x11)
    good = example()
    yield "no input", b""
    yield "1 byte", b"\x11"
    yield "19 bytes", b"\x11" * 19
    yield "20 bytes: a tip and no store", tip
    yield "a tip and an empty store", tip + bytes(8)
    yield "document 01's example", good
    every = bytes.fromhex("0123456789abcdeffedcba9876543210a0b1c2d3")
    yield "every hexadecimal digit", every + store({every: body()})
    yield "the store ends early", good[:-1]
    yield "the store's start of entries is wrong", good[:-8] + u32(91) + good[-4:]
    yield "another tip", name(0x12) + good[20:]
    # the first parent is absent, the second is there
    yield "a lost parent, and one that follows", tip + store({tip: body([name(3), name(2)]), name(2): body()})
    yield "a blurred commit, and its good parent", tip + store({tip: body([name(2), name(4)]), name(2): body([name(5)], author=b"writer A <a> 5\n"), name(4): body(), name(5): body()})
    yield "a blurred commit with no tree", tip + store({tip: b"parent " + name(2).hex().encode() + b"\n", name(2): body()})
    yield "a parent named twice", tip + store({tip: body([name(2), name(2)]), name(2): body([tip])})
    yield "the history of eight commits", history()
    yield "256 parents, all lost", many(256)
    yield "257 parents", many(257)
    full = filled(MOST)
    assert len(full) == MOST
    yield "65,536 bytes", full
    yield "65,537 bytes", filled(MOST + 1)


def write(folder, given, text):
    with open(os.path.join(folder, "stdin"), "wb") as f:
        f.write(given)
    with open(os.path.join(folder, "stdout"), "w", newline="") as f:
        f.write(text)


def main(program, runs):
    text = listing(example())
    assert text == "1" * 40 + " 0\nend\n"
    write(program, example(), text)
    given, out = b"", ""
    for title, case in cases():
        given += u32(len(title.encode())) + title.encode() + u32(len(case)) + case
        out += title + "\n" + listing(case)
    write(runs, given, out)


main(*sys.argv[1:])
