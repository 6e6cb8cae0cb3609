"""make_graphs.py DIR: writes DIR/stdin and DIR/stdout, the cases of the program `graphs` and what it must print.

A case is the kind of ids, the numbers of levels and of bytes to lend and the commit store; before it stands its own length. What is expected comes from document 02's words
by compare/model.py: the length of the file or the refusal, the same of the writing, and the SHA-1 of the output, of which a refusal alters nothing.
"""
import hashlib
import os
import random
import sys

sys.path[:0] = [os.path.dirname(__file__), os.path.join(os.path.dirname(__file__), "..", "compare")]
import model  # noqa: E402
from formats import *  # noqa: E402,F403

MOST_LEVELS, MOST_OUTPUT = 1024, 40960
MOST = model.MOST_SECONDS
cases, lines, rows = [], [], 0


def case(book, width=20, levels=None, output=None, want=None):
    """levels: as many as there are entries if not said; output: as long as the file. want: the number of the refusal of the writing, 0 for none."""
    global rows
    entries = store_entries(book, width)
    levels = len(entries or ()) if levels is None else levels
    number, file = model.graph_length(book, levels, width)
    output = len(file) if output is None else output
    assert levels <= MOST_LEVELS and output <= MOST_OUTPUT and len(book) <= 65527
    refused, written = model.write_graph(book, levels, output, width)
    assert want is None or refused == want, (refused, want)
    say = lambda n, x: b"!%d" % n if n else b"%d" % len(x)
    out = written + b"\\" * (output - len(written))
    body = bytes([1 if width == 20 else 2]) + u32(levels) + u32(output) + book
    cases.append(u32(len(body)) + body)
    lines.append(b"%s %s %s" % (say(number, file), say(refused, written), hashlib.sha1(out).hexdigest().encode()))
    rows += len(entries) if not refused else 0
    return len(file)


def name(k, width=20):
    """An id for a number; the first byte tells the low ones, so that ids rise with numbers below 256."""
    return bytes([k % 256, k // 256]) + bytes(width - 2)


def commit(parents=(), seconds=5, tree=b"\x7a", width=20, tail=b""):
    lines = b"tree %s\n" % (tree * width).hex().encode() + b"".join(b"parent %s\n" % p.hex().encode() for p in parents)
    return lines + b"author A <a> 5 +0000\ncommitter A <a> %d +0000\n\n" % seconds + tail


def history(links, seconds=None, width=20):
    """A store from numbers to their parents' numbers."""
    return store({name(k, width): commit([name(p, width) for p in ps], (seconds or {}).get(k, k), bytes([k % 251]), width) for k, ps in links.items()})


def shapes(width):
    n = case(store({}), width, want=0)                                                # N = 0
    case(store({}), width, 0, n - 1, 20)
    case(store({}), width, 9, n + 30, 0)
    case(history({1: []}, width=width), width, want=0)
    line = history({k: [k - 1] if k else [] for k in range(40)}, width=width)
    n = case(line, width, want=0)
    case(line, width, 39, n, 1)                                                       # a level too few
    case(line, width, 40, n - 1, 20)                                                  # a byte too few
    case(line, width, 41, n + 1, 0)
    case(line, width, 0, 0, 1)
    case(line, width, 40, 0, 20)
    for parents in ([1], [1, 2], [2, 1], [1, 2, 3], [3, 2, 1], [1, 1], [1, 1, 1], [3, 1, 3, 1]):
        case(history({1: [], 2: [1], 3: [2], 9: parents}, width=width), width, want=0)
    case(history({1: [], 2: [1, 1, 1], 3: [2, 1], 4: [3, 2, 1, 2], 5: [4]}, width=width), width, want=0)  # two lists in EDGE, a row between
    case(history({5: [], 4: [5], 3: [4, 5], 2: [3, 4, 5], 1: [2]}, width=width), width, want=0)           # parents with greater ids
    case(history({9: [1, 7], 1: [3], 7: [], 3: [5], 5: []}, width=width), width, want=0)                   # the longest way decides a level
    for many in (3, 255, 256):
        case(history({1: [], 2: [1], 9: [1 + k % 2 for k in range(many)]}, width=width), width, want=0)
    case(history({1: [], 9: [1] * 257}, width=width), width, want=18)                  # crowded
    for first in (0, 1, 127, 128, 254, 255):                                          # the ends of the fan-out
        case(store({bytes([first]) * width: commit(width=width), bytes([first]) * (width - 1) + bytes([first ^ 1]): commit(width=width)}), width, want=0)


def seconds(width):
    for s in (0, 1, 2 ** 31, 2 ** 32 - 1, 2 ** 32, 2 ** 33, 2 ** 34 - 2, MOST):
        case(history({1: [], 2: [1]}, {1: s}, width), width, want=0)
    for s in (-1, MOST + 1, 2 ** 35, -2 ** 34, 10 ** 18 - 1, 1 - 10 ** 18):
        for at in (1, 2):
            case(history({1: [], 2: [1]}, {at: s}, width), width, 2, 3000, 19)
    case(history({1: [], 2: [9]}, {1: -1}, width), width, want=18)                     # 18 before 19
    case(history({1: [], 2: [1]}, {1: -1}, width), width, 2, 0, 19)                    # 19 before 20
    case(history({1: [], 2: [9]}, width=width), width, 1, 0, 1)                        # 1 before 18
    case(history({1: [], 2: [9]}, width=width), width, 2, 0, 18)                       # 18 before 20


def unfit(width):
    for links in ({1: [1]}, {1: [2], 2: [1]}, {1: [2], 2: [3], 3: [1]}, {1: [], 2: [1, 2]}, {1: [], 2: [1], 3: [2, 4], 4: [3]}, {1: [9]}, {1: [], 2: [1, 9]}, {1: [], 2: [9, 1]}):
        case(history(links, width=width), width, 8, 4000, 18)
    good = commit([name(1, width)], width=width)
    for bad in (b"", b"tree", good[:-2], good.replace(b"author", b"auther"), good.replace(b"committer", b"comitter"), good.replace(b"<a> 5", b"<a> x"),
                good.replace(b"parent", b"Parent"), good.replace(b"7a", b"7A", 1), good[:good.index(b"author")], good.replace(b"> 5 +", b"> 1234567890123456789 +")):
        case(store({name(1, width): commit(width=width), name(2, width): bad}), width, 2, 3000, 18)
    case(store({name(1, width): commit(width=width), name(2, width): good + b"parent " + b"0" * 2 * width + b"\n"}), width, want=0)  # a message that looks like a parent
    ok = history({1: [], 2: [1]}, width=width)
    for cut in (ok[:-1], ok[1:], b"", bytes(7), ok + b"\0"):
        case(cut, width, 0, 0, 4)
        case(cut, width, 9, 3000, 4)


def generated():
    """Many rows, and ids anywhere."""
    rng = random.Random(4)
    for turn in range(45):
        width = 32 if turn % 3 == 0 else 20
        n = rng.choice((3, 8, 20)) if turn else 150
        ids = sorted({rng.randbytes(width) for _ in range(n)})
        order = rng.sample(range(n), n)
        older = {k: order[:at] for at, k in enumerate(order)}
        bodies = {}
        for k in range(n):
            parents = [ids[rng.choice(older[k])] for _ in range(rng.choice((0, 1, 1, 2, 2, 3, 5)))] if older[k] else []
            if rng.randrange(150) == 0:
                parents.append(ids[k])
            bodies[ids[k]] = commit(parents, rng.choice((rng.randrange(2 ** 34), 0, MOST)) if rng.randrange(100) else -1, rng.randbytes(1), width)
        book = store(bodies)
        whole = case(book, width)
        if whole:
            case(book, width, n, whole - 1, 20)
            case(book, width, n + 3, whole + 77, 0)
    small = lambda parents: b"tree %s\n%sauthor <>\ncommitter > 5\n" % (b"0" * 40, b"".join(b"parent %s\n" % p.hex().encode() for p in parents))
    case(store({name(k): small([name(k - 1)] if k else []) for k in range(450)}), want=0)
    case(store({name(k): small([]) for k in range(600)}), want=0)


def main(out):
    for width in (20, 32):
        shapes(width)
        seconds(width)
        unfit(width)
    generated()
    open(os.path.join(out, "stdin"), "wb").write(b"".join(cases))
    open(os.path.join(out, "stdout"), "wb").write(b"\n".join(lines) + b"\n")
    kinds = {}
    for line in lines:
        said = line.split()[1]
        said = said if said.startswith(b"!") else b"file"
        kinds[said.decode()] = kinds.get(said.decode(), 0) + 1
    print(len(lines), rows, kinds)


if __name__ == "__main__":
    main(*sys.argv[1:])
