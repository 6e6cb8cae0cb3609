"""make_traces.py DIR: writes DIR/stdin and DIR/stdout, the cases of the program `traces` and what it must print.

A case is the kind of ids, a start, the moves, the length of the memo to lend, the length of the list, the list and the commit store; before it stands its own length. Each is made
with ids of 20 bytes and of 32 (card 13). What is expected comes from document 02's words (compare/model.py, `trace`). Each case is run with a memo of 0 and 1 bytes, of half the entries and of all.
"""
import os
import random
import sys

sys.path[:0] = [os.path.dirname(__file__), os.path.join(os.path.dirname(__file__), "..", "compare")]
import model  # noqa: E402
from formats import *  # noqa: E402,F403

cases, lines = [], []
width = SHA1  # of the ids of the case that is made
SAID = ("not forced", "at the start")


def name(k):
    """An id for a number: its first byte tells it, so that ids rise with numbers."""
    return bytes([k]) + bytes(width - 1)


def commit(parents):
    return b"tree " + b"0" * (2 * width) + b"\n" + b"".join(b"parent %s\n" % p.hex().encode() for p in parents) + b"author A <a> 5 +0000\ncommitter A <a> 5 +0000\n"


def history(links, names=name):
    """A store from numbers to their parents' numbers."""
    return store({names(k): commit([names(p) for p in ps]) for k, ps in links.items()})


def case(book, start, listed, moves, want=()):
    """listed: numbers, or bytes as they are. want: a refusal's number, None for not forced, True for the start, or the number of the parent in a list."""
    listed = listed if isinstance(listed, bytes) else b"".join(name(k) for k in listed)
    result, said, number, parent = model.trace(book, start, listed, moves, width)
    is_ = result if result else (None, True, [number])[said]
    assert want == () or is_ == want, (is_, want)
    entries = len(book) // 100 + 1
    for memo in (0, 1, 26 * (entries // 2) + 7, 26 * entries)[3 * (len(listed) > 1000):]:
        body = bytes([hash_version(width)]) + start + u32(moves) + u32(memo) + u32(len(listed)) + listed + book
        assert len(body) <= 65536 and memo <= 6656
        cases.append(u32(len(body)) + body)
        lines.append("refused %d" % result if result else SAID[said] if said < 2 else "%d %s" % (number, parent.hex()))


def shapes():
    line = history({1: [], 2: [1], 3: [2], 4: [3], 5: [4]})
    case(line, name(5), [5], 0, True)                                   # the start is on the list
    case(line, name(5), [4, 5], 12, True)
    case(line, name(5), [4], 0, None)                                   # no move
    for moves in range(6):                                              # a calibration within and beyond the moves
        case(line, name(5), [3], moves, [0] if moves >= 2 else None)
        case(line, name(5), [1], moves, [0] if moves >= 4 else None)
    case(line, name(1), [2], 12, None)                                  # no parents
    case(line, name(5), [], 12, None)                                   # no list
    case(line, name(5), [99], 12, None)                                 # a calibration that the store has not
    case(line, name(5), [99, 3, 3], 12, [0])
    fork = {1: [], 2: [], 3: [1], 4: [1, 2], 5: [4, 3]}
    case(history(fork), name(5), [1], 2, [1])                           # the bed evades from 4, and cannot from 3
    case(history(fork), name(5), [1, 2], 2, [0])
    case(history(fork), name(5), [2], 2, None)
    case(history(fork), name(5), [2], 12, None)                         # the bed is stuck at 1, off the list
    case(history({1: [], 2: [1], 3: [2, 1]}), name(3), [1], 2, [0])      # through 2 as well as at once
    case(history({1: [], 2: [1], 3: [1, 2]}), name(3), [2], 1, [1])
    case(history({1: [], 2: [], 3: [2, 1, 1, 2]}), name(3), [1], 1, [1])  # repeated parents: the first line
    case(history({1: [], 2: [1, 1], 3: [2, 2]}), name(3), [1], 2, [0])
    three = {1: [], 2: [], 3: [1], 4: [2], 5: [3, 4], 6: [5]}            # the cone moves third: it chooses at 5
    case(history(three), name(6), [1], 12, None)                        # at 5 the bed chooses
    case(history({**three, 7: [6]}), name(7), [1], 4, [0])              # one move more, and the cone does
    case(history({**three, 7: [6]}), name(7), [1], 3, None)
    for circle in ({1: [2], 2: [1]}, {1: [1]}, {1: [2], 2: [3], 3: [1]}):
        case(history(circle), name(1), [9], 12, None)
        case(history(circle), name(1), [1], 12, True)
    case(history({1: [2], 2: [3, 1], 3: []}), name(1), [3], 12, None)
    back = history({1: [2, 2], 2: [1, 3], 3: []})
    case(back, name(2), [3], 2, [1])
    case(back, name(2), [3], 3, [0])                                    # with time to go round the circle first
    case(back, name(2), [3], 12, [0])
    wide = history({1: [], 2: [1], 3: [2] * 255 + [1]})
    case(wide, name(3), [1], 1, [255])                                  # 256 parents
    case(wide, name(3), [1], 2, [0])


def faults():
    line = {2: [1], 3: [2], 4: [3], 5: [4]}
    for moves in range(6):                                              # 1 is absent: 4 steps from 5
        case(history(line), name(5), [], moves, 13 if moves >= 4 else None)
        case(history(line), name(5), [3], moves, 13 if moves >= 4 else [0] if moves >= 2 else None)  # also past a calibration
        case(history(line), name(5), [5], moves, 13 if moves >= 4 else True)
    case(history(line), name(9), [9], 0, 13)                            # an absent start, even on the list
    case(history({}), name(1), [], 0, 13)
    for bad in (b"", b"tree", commit([name(1)])[:-1], commit([name(1)]).replace(b"author", b"auther"), commit([name(1)] * 257)):
        book = store({name(1): commit([]), name(2): bad, name(3): commit([name(2)]), name(4): commit([name(3)])})
        for moves in (0, 1, 2, 3):
            case(book, name(4), [3], moves, 13 if moves >= 2 else [0] if moves else None)
        case(book, name(2), [2], 0, 13)
        case(book, name(1), [2], 12, None)
    ok = history({1: [], 2: [1]})
    for moves in (13, 14, 4294967295):                                  # 25 before all else
        case(ok, name(2), [1], moves, 25)
        case(b"", name(2), bytes(width + 1), moves, 25)
    most = 1024 * width
    case(b"", name(2), bytes(most + width), 12, 2)                      # 2 before 3 before 4
    case(b"", name(2), bytes(most), 12, 4)
    case(ok, name(2), bytes(most), 12, None)
    case(ok, name(2), bytes(most + 1), 12, 2)
    for extra in (1, width - 1, width + 1, 2 * width - 1, SHA1 + SHA256 - width):  # the other width too
        case(b"", name(2), bytes(extra), 12, 3)
        case(ok, name(9), bytes(extra), 0, 3)
    for cut in (ok[:-1], ok[1:], b"", ok + b"\0"):                      # 4 before 13
        case(cut, name(9), [1], 1, 4)


def generated():
    rng = random.Random(12)
    for turn in range(150):
        n = rng.randrange(1, 12)
        links = {k: [rng.randrange(1, k if turn % 2 and k > 1 else n + 1 + (turn % 9 == 0)) for _ in range(rng.choice((0, 1, 1, 1, 2, 2, 3)))] for k in range(1, n + 1)}
        case(history(links), name(rng.choice((n, rng.randrange(1, n + 1)))), [rng.randrange(1, n + 1) for _ in range(rng.randrange(4))], rng.randrange(13))


def main(out):
    global width
    for width in WIDTHS:
        shapes()
        faults()
        generated()
    open(os.path.join(out, "stdin"), "wb").write(b"".join(cases))
    open(os.path.join(out, "stdout"), "w").write("\n".join(lines) + "\n")
    kinds = {}
    for l in lines:
        k = l if l[0] in "nar" else "forced"
        kinds[k] = kinds.get(k, 0) + 1
    print(len(lines), kinds)


if __name__ == "__main__":
    main(*sys.argv[1:])
