"""Cases for the comparison: random histories and files, family by family, and all small ones.

A `Pair` is a commit store and a commit-graph file, kept in parts so that a case can be made smaller; a `Case` adds lists and settings.
"""
import bisect
import itertools
import os
import random
import struct
import sys

sys.path.insert(0, os.path.join(os.path.dirname(os.path.abspath(__file__)), "..", "tools"))
import formats  # noqa: E402
import model  # noqa: E402
from formats import NONE, SHA1, SHA256, TOP, u32  # noqa: E402

BREADTH, NEWEST, OLDEST, CUTOFF_NEWEST, CUTOFF_OLDEST = range(5)
ORDER = ["breadth", "newest", "oldest", "newest", "oldest"]
SECONDS_OF_A_ROW = 1 << 34
LARGEST = 10 ** 18 - 1
EXTREMES = [0, 1, -1, 2, 5, LARGEST, -LARGEST, LARGEST - 1, 1 - LARGEST, 2 ** 31 - 1, 2 ** 31, -2 ** 31, 2 ** 32 - 1, 2 ** 32, 2 ** 34 - 1, 2 ** 34,
            2 ** 34 + 5, -2 ** 34, 2 ** 53, -2 ** 53]


class Pair:
    """bodies: id -> bytes. rows: None (no graph), or id -> (parents, level, seconds), where parents is a list of ids or, for a list that is
    not right, a tuple of the row's two words. edges: words after those of the right lists. store, graph: bytes in place of the built ones. width: of
    the ids (card 13)."""

    def __init__(self, bodies, rows=None, edges=(), store=None, graph=None, width=SHA1):
        self.bodies, self.rows, self.edges, self.width = bodies, rows, list(edges), width
        self.torn_store, self.torn_graph = store, graph
        self.store = formats.store(bodies) if store is None else store
        self.graph = (b"" if rows is None else build_graph(rows, self.edges, width)) if graph is None else graph
        self._files = None

    @property
    def files(self):
        if self._files is None:
            self._files = model.Files(self.store, self.graph, self.width)
        return self._files


class Case:
    def __init__(self, pair, tips, hidden=(), barred=(), sorting=BREADTH, cutoff=0, first=False):
        self.pair, self.tips, self.hidden, self.barred = pair, list(tips), list(hidden), list(barred)
        self.sorting, self.cutoff, self.first = sorting, cutoff, first

    @property
    def width(self):
        return self.pair.width

    def walk(self, kind=model.Walk):
        cutoff = self.cutoff if self.sorting >= CUTOFF_NEWEST else None
        return kind(self.pair.files, self.tips, self.hidden, self.barred, ORDER[self.sorting], cutoff, self.first)

    def bytes(self, calls):
        """As the driver reads it."""
        out = b""
        for part in (self.pair.store, self.pair.graph, b"".join(self.tips), b"".join(self.hidden), b"".join(self.barred)):
            out += u32(len(part)) + part
        return out + struct.pack(">BqBI", self.sorting, self.cutoff, self.first, calls)


def build_graph(rows, edges=(), width=SHA1):
    """A commit-graph file with a good layout."""
    names = sorted(rows)
    place = {name: k for k, name in enumerate(names)}
    edge, data = [], []
    for name in names:
        parents, level, seconds = rows[name]
        if isinstance(parents, tuple):
            first, second = parents
        else:
            p = [place[x] for x in parents]
            first = p[0] if p else NONE
            second = NONE
            if len(p) == 2:
                second = p[1]
            elif len(p) > 2:
                second = TOP | len(edge)
                edge += p[1:-1] + [TOP | p[-1]]
        data.append(bytes(width) + struct.pack(">IIII", first, second, level << 2 | seconds >> 32, seconds & 0xFFFFFFFF))
    firsts = [name[0] for name in names]
    fan = struct.pack(">256I", *(bisect.bisect_right(firsts, i) for i in range(256)))
    chunks = [(b"OIDF", fan), (b"OIDL", b"".join(names)), (b"CDAT", b"".join(data))]
    edge += edges
    if edge:
        chunks.append((b"EDGE", b"".join(map(u32, edge))))
    return formats.chunk_file(chunks, width=width)


# ---- pieces

def seeded(text, width):
    """The random numbers of a name and a width; those of 20 are as they were before there was another."""
    return random.Random(text if width == SHA1 else "ids of %d bytes: %s" % (width, text))


def some_ids(rng, n, width=SHA1):
    """n different ids: of one byte each, of random bytes, alike in all but the last bytes, or at the ends of the fan-out."""
    style, out = rng.randrange(4), set()
    front = rng.randbytes(rng.randrange(8, width - 1))
    while len(out) < n:
        if style == 0 and n <= 200:
            out.add(bytes([rng.randrange(256)]) * width)
        elif style == 1 or n > 200:
            out.add(rng.randbytes(width))
        elif style == 2:
            out.add(front + rng.randbytes(width - len(front)))
        else:
            out.add(rng.choice([b"\0", b"\xff"]) * (width - 8) + rng.randbytes(8))
    out = list(out)
    out.sort()
    rng.shuffle(out)
    return out


def some_links(rng, n, cyclic=False):
    """Parents by number, newest first; a commit's parents come later, or stand anywhere."""
    out = []
    for i in range(n):
        pool = list(range(n)) if cyclic else list(range(i + 1, min(n, i + 6)))
        k = min(rng.choices([0, 1, 2, 3, 4], [1, 16, 12, 4, 2])[0], len(pool))
        parents = rng.sample(pool, k)
        if parents and rng.random() < (0.15 if cyclic else 0.02):
            parents.append(rng.choice(parents))
        out.append(parents)
    return out


def some_seconds(rng, n, clock):
    if clock == "falling":
        out, at = [], rng.choice([n * 4, 2 ** 32 + 7, 2 ** 34 - 1])
        for _ in range(n):
            out.append(at)
            at -= rng.randrange(1, 4)
        return out
    if clock == "skewed":
        return rng.sample(range(-2, 4 * n), n)
    if clock == "drifting":  # falls, save for a few
        out = [10 * (n - i) for i in range(n)]
        for _ in range(rng.randrange(1, 3)):
            out[rng.randrange(n)] += rng.choice([-45, -25, 25, 45, 1005])
        return out
    if clock == "equal":
        return [rng.randrange(3) for _ in range(n)]
    if clock == "extreme":
        return rng.sample(EXTREMES, n) if n <= len(EXTREMES) else [rng.choice(EXTREMES) for _ in range(n)]
    raise ValueError(clock)


def levels_of(links):
    out = [0] * len(links)
    for i in reversed(range(len(links))):
        out[i] = 1 + max((out[p] for p in links[i]), default=0)
    return out


def agreeing_rows(names, links, seconds, levels, chosen=None):
    chosen = range(len(names)) if chosen is None else chosen
    return {names[i]: ([names[p] for p in links[i]], levels[i], seconds[i] % SECONDS_OF_A_ROW) for i in chosen}


def some_case(rng, pair, names, seconds, strangers=(), stranger=0.02):
    """Lists and settings over a pair; low numbers are likelier tips."""
    def one(newer):
        if strangers and rng.random() < stranger:
            return rng.choice(strangers)
        low = min(rng.randrange(len(names)) for _ in range(3))
        return names[low if newer else max(low, rng.randrange(len(names)))]

    def some(counts, weights, newer):
        out = [one(newer) for _ in range(rng.choices(counts, weights)[0])]
        if out and rng.random() < 0.15:
            out.insert(rng.randrange(len(out) + 1), rng.choice(out))
        return out

    tips = some([0, 1, 2, 3], [1, 30, 18, 10], True)
    hidden = some([0, 1, 2], [5, 6, 2], False)
    barred = some([0, 1, 2], [10, 2, 1], False)
    cutoff = min(rng.choice(seconds), rng.choice(seconds)) + rng.choice([-1, 0, 0, 1])
    if rng.random() < 0.1:
        cutoff = rng.choice([0, 1, -2 ** 63, 2 ** 63 - 1])
    return Case(pair, tips, hidden, barred, rng.randrange(5), cutoff, rng.random() < 0.3)


def painting_case(rng, pair, names, seconds, *_):
    """Several tips and hidden tips, with repeats; any order."""
    tips = [rng.choice(names) for _ in range(rng.choice([1, 2, 2, 3]))]
    hidden = [rng.choice(names) for _ in range(rng.choice([1, 1, 2]))]
    hidden += [rng.choice(hidden) for _ in range(rng.choice([0, 0, 1, 2]))]
    return Case(pair, tips, hidden, (), rng.choice([BREADTH, BREADTH, NEWEST, OLDEST]), 0, rng.random() < 0.2)


def cutoff_case(rng, pair, names, seconds, *_):
    """Several tips, some of which the cutoff turns away."""
    at = {name: t for name, t in zip(names, seconds)}
    tips = [rng.choice(names) for _ in range(rng.choice([2, 3, 4]))]
    hidden = [rng.choice(names)] if rng.random() < 0.2 else []
    barred = [rng.choice(names)] if rng.random() < 0.2 else []
    return Case(pair, tips, hidden, barred, rng.choice([CUTOFF_NEWEST, CUTOFF_OLDEST]), at[rng.choice(tips)] + rng.choice([0, 1]), rng.random() < 0.3)


# ---- damage

def damaged(rng, parents, seconds, width=SHA1):
    """A body with one line that is bad, or only looks so."""
    good, n = formats.body(parents, seconds, width=width), 2 * width
    tree, hexes = b"tree " + b"0" * n + b"\n", [p.hex().encode() for p in parents]
    lines = b"".join(b"parent " + h + b"\n" for h in hexes)
    author, committer = b"author A <a> 5 +0000\n", b"committer A <a> %d +0000\n" % seconds
    kind = rng.randrange(8)
    if kind == 0:
        return good[:rng.randrange(len(good))]
    if kind == 1:
        at = rng.randrange(len(good))
        return good[:at] + bytes([rng.randrange(256)]) + good[at + 1:]
    if kind == 2:
        tree = rng.choice([b"tree " + b"0" * (n - 1) + b"A\n", b"tree " + b"0" * (n - 1) + b"\n", b"Tree " + b"0" * n + b"\n", b"", b"tree  " + b"0" * (n - 1) + b"\n",
                           b"tree " + b"0" * n + b" \n", b"tree " + b"g" * n + b"\n", tree + tree])
    elif kind == 3:
        other = rng.choice([b"parent " + b"A" * n + b"\n", b"parent " + b"1" * (n - 1) + b"\n", b"parent " + b"1" * (n + 1) + b"\n", b"Parent " + b"1" * n + b"\n",
                            b"parent  " + b"1" * (n - 1) + b"\n", b"\n", b"parent " + b"1" * n + b"\r\n"])
        at = formats.parent_line(width) * rng.randrange(len(parents) + 1)
        lines = lines[:at] + other + lines[at:]
    elif kind == 4:
        author = rng.choice([b"", b"author A a> 5\n", b"author A <a 5\n", b"author >< 5\n", b"author <>\n", b"author > < >\n", b"author\n", b"author \n",
                             b"Author A <a> 5\n", b"author A <a> 5 +0000", author + author, b"author A <a\n> 5\n"])
    elif kind == 5:
        end = rng.choice([b"> 5\n", b"> -5 x\n", b"> -0\n", b"> 000000000000000007 \n", b">  5\n", b">5\n", b"> \n", b">\n", b"> -\n", b"> +5\n", b"> 5x\n",
                          b"> 5\t\n", b"> 1234567890123456789\n", b"> 999999999999999999\n", b"> -999999999999999999 +\n", b"> -1234567890123456789 \n",
                          b"> 5 > 6\n", b"> 5 >\n", b"> 5> -8 z\n", b" 5\n", b"> --5\n", b"> 0x5\n", b"> 5 +0000"])
        committer = b"committer " + rng.choice([b"A <a", b"A a", b"", b"> 1 "]) + end
    elif kind == 6:
        committer = rng.choice([b"", b"Committer A <a> 5\n", b"committer\n", committer + b"> 3 \n", b"x" + committer])
    else:
        return tree + lines + author + committer + rng.choice([b"", b"gpgsig x\n y\n\nhello\n", b"parent " + b"1" * n + b"\n", b"\nA <a> 5\n"])
    return tree + lines + author + committer + b"\n"


def corrupt_rows(rng, rows):
    """One or two rows with a list that is corrupt, or only looks so: the row's two words, and words for EDGE."""
    rows, n, edges = dict(rows), len(rows), []
    old = sum(len(r[0]) - 1 for r in rows.values() if len(r[0]) > 2)
    names = sorted(rows)
    for name in rng.sample(names, min(len(names), rng.choice([1, 1, 2]))):
        if len(rows[name][0]) > 2:
            continue  # so that the words of the other lists stay where they are
        p = rng.randrange(n)
        listed = TOP | (old + len(edges))
        first, second, more = rng.choice([
            (n, NONE, []), (p, n, []), (NONE, p, []), (TOP | p, p, []), (TOP | p, NONE, []), (p, NONE - 1, []), (NONE, listed, [TOP | p]),
            (p, listed, [p, p]), (p, listed, [TOP | n]), (p, listed, [n, TOP | p]), (p, listed, [p, TOP | p]), (p, TOP | 0x7FFFFFFF, []),
            (p, listed, [NONE, TOP | p]), (p, listed, [TOP | NONE]), (0xFFFFFFFF, 0xFFFFFFFF, []), (p, listed, []), (p, listed, [p] * 254 + [TOP | p]),
            (p, listed, [p] * 255 + [TOP | p]), (p, p, []), (p, NONE, []), (NONE, NONE, [])])
        rows[name] = ((first, second), rows[name][1], rows[name][2])
        edges += more
    return rows, edges


# ---- families: each gives (pair, names, seconds, strangers, how often a list names a stranger)

def history(rng, clock, width, cyclic=False, most=14):
    n = max(rng.randrange(1, most), rng.randrange(1, most))
    return some_ids(rng, n, width), some_links(rng, n, cyclic), some_seconds(rng, n, clock)


ZONES = [b" +0000", b" -0000", b" +0100", b" -0800", b" +0530", b" +1400", b" +1459", b" -1459", b" +1460", b" -1500", b" 00000", b" +0a00", b"  +000", b" +000 ", b" +000\r"]


def bodies_of(names, links, seconds, width=SHA1):
    """A commit's zone goes by its id, so that no case is drawn otherwise for it."""
    def committer(i):
        return b"committer A <a> %d%s\n" % (seconds[i], ZONES[sum(names[i]) % len(ZONES)])

    return {names[i]: formats.body([names[p] for p in links[i]], committer=committer(i), width=width) for i in range(len(names))}


def maybe_graph(rng, names, links, seconds):
    """No graph, an agreeing one of all, or an agreeing one of the older commits (as far as 34 bits of seconds agree)."""
    kind = rng.randrange(4)
    if kind == 0:
        return None
    levels = levels_of(links) if rng.random() < 0.9 else [0] * len(names)
    start = 0 if kind == 1 else rng.randrange(len(names) + 1)
    return agreeing_rows(names, links, seconds, levels, range(start, len(names)))


def by_clock(clock):
    def family(rng, width=SHA1):
        names, links, seconds = history(rng, clock, width)
        return Pair(bodies_of(names, links, seconds, width), maybe_graph(rng, names, links, seconds), width=width), names, seconds, (), 0
    return family


def cycles(rng, width=SHA1):
    names, links, seconds = history(rng, rng.choice(["skewed", "equal"]), width, cyclic=True, most=8)
    rows = None
    if rng.random() < 0.4:
        rows = agreeing_rows(names, links, seconds, [rng.randrange(4) for _ in names])
    return Pair(bodies_of(names, links, seconds, width), rows, width=width), names, seconds, (), 0


def absent(rng, width=SHA1):
    """Commits that the book lacks; the graph lists some of them."""
    names, links, seconds = history(rng, rng.choice(["falling", "skewed", "equal", "extreme"]), width)
    bodies, gone = bodies_of(names, links, seconds, width), []
    for name in rng.sample(names, rng.randrange(1, 1 + (len(names) + 1) // 2)):
        del bodies[name]
        gone.append(name)
    return Pair(bodies, maybe_graph(rng, names, links, seconds), width=width), names, seconds, gone + some_ids(rng, 1, width), 0.1


def headers(rng, width=SHA1):
    names, links, seconds = history(rng, rng.choice(["falling", "skewed", "extreme"]), width)
    bodies = bodies_of(names, links, seconds, width)
    for i in rng.sample(range(len(names)), rng.randrange(1, 1 + (len(names) + 1) // 2)):
        bodies[names[i]] = damaged(rng, [names[p] for p in links[i]], seconds[i], width)
    return Pair(bodies, maybe_graph(rng, names, links, seconds), width=width), names, seconds, (), 0


def wide(rng, width=SHA1):
    """A merge with about 256 parents, over few or many commits."""
    names, links, seconds = history(rng, rng.choice(["falling", "skewed"]), width, most=6)
    k = rng.choice([250, 255, 256, 256, 257, 257, 258])
    more = some_ids(rng, k, width) if rng.random() < 0.5 else names
    top = some_ids(rng, 1, width)[0]
    pool = [x for x in dict.fromkeys(more) if x != top]
    parents = [pool[j % len(pool)] for j in range(k)] if rng.random() < 0.5 else [rng.choice(pool) for _ in range(k)]
    bodies = bodies_of(names, links, seconds, width)
    at = max(seconds) + 300
    for j, x in enumerate(pool):
        bodies.setdefault(x, formats.body([], at - 1 - j, width=width))
    last = rng.choice([b"author A <a> 5\n", b"author A <a> 5\n", b"author A\n"])
    bodies[top] = formats.body(parents, at + 1, author=last, width=width)
    rows = None
    if rng.random() < 0.4:
        rows = {}
        for x in bodies:
            header = model.Header(bodies[x], width)
            rows[x] = (header.ids if x != top else parents, 3, 7 if header.seconds is None else header.seconds % SECONDS_OF_A_ROW)
    everyone = [top] + names
    return Pair(bodies, rows, width=width), everyone, seconds + [at], (), 0


def wrong(rng, width=SHA1):
    """A graph file of all commits, or of the older ones, that says other things than the book: parents, levels, seconds."""
    names, links, seconds = history(rng, rng.choice(["falling", "skewed", "drifting"]), width)
    start = rng.choice([0, rng.randrange(len(names))])
    rows = agreeing_rows(names, links, seconds, levels_of(links), range(start, len(names)))
    other = rng.sample(range(0, 5 * len(names)), len(names))
    what = rng.randrange(1, 8)
    for i, name in enumerate(names):
        if name in rows and rng.random() < 0.6:
            parents, level, its = rows[name]
            if what & 1:
                parents = [rng.choice(names[start:]) for _ in range(rng.choices([0, 1, 2, 3], [2, 4, 3, 1])[0])]
            if what & 2:
                level = rng.choice([0, 1, 2, 3, 4, 0x3FFFFFFF])
            if what & 4:
                its = other[i]
            rows[name] = (parents, level, its)
    return Pair(bodies_of(names, links, seconds, width), rows, width=width), names, seconds + other, (), 0


def corrupt(rng, width=SHA1):
    names, links, seconds = history(rng, rng.choice(["falling", "skewed", "skewed", "equal"]), width)
    rows = agreeing_rows(names, links, seconds, levels_of(links))
    rows, edges = corrupt_rows(rng, rows)
    return Pair(bodies_of(names, links, seconds, width), rows, edges, width=width), names, seconds, (), 0


def close_pairs(rng, width=SHA1):
    """Few commits with close or equal pairs, for painting."""
    n = rng.randrange(3, 8)
    names, links = some_ids(rng, n, width), some_links(rng, n, rng.random() < 0.3)
    seconds = [rng.randrange(3) for _ in range(n)] if rng.random() < 0.6 else rng.sample(range(2 * n), n)
    rows = None
    if rng.random() < 0.4:
        rows = agreeing_rows(names, links, seconds, [rng.randrange(3) for _ in names])
    return Pair(bodies_of(names, links, seconds, width), rows, width=width), names, seconds, (), 0


def long(rng, width=SHA1):
    """Some hundreds of commits."""
    n = rng.randrange(100, 400)
    names, links, seconds = some_ids(rng, n, width), some_links(rng, n), some_seconds(rng, n, rng.choice(["falling", "skewed", "drifting", "equal"]))
    return Pair(bodies_of(names, links, seconds, width), maybe_graph(rng, names, links, seconds), width=width), names, seconds, (), 0


def torn(rng, width=SHA1):
    """A byte or a few of one of the files altered, cut or added; the layout may still hold."""
    names, links, seconds = history(rng, "falling", width, most=6)
    bodies = bodies_of(names, links, seconds, width)
    rows = agreeing_rows(names, links, seconds, levels_of(links))
    good = Pair(bodies, rows, width=width)

    def altered(b, tail):
        kind = rng.randrange(5)
        at = rng.randrange(len(b)) if rng.random() < 0.3 else (rng.randrange(max(0, len(b) - tail), len(b)) if tail else rng.randrange(min(len(b), 120)))
        if kind == 0:
            return b[:at]
        if kind == 1:
            return b[:at] + rng.randbytes(rng.randrange(1, 5)) + b[at:]
        if kind == 2:
            return b[:at] + b[at + 1:]
        return b[:at] + bytes([(b[at] + rng.choice([1, 255, 128, rng.randrange(256)])) % 256]) + b[at + 1:]

    store, graph = good.store, good.graph
    if rng.random() < 0.5:
        store = altered(store, 8 + formats.entry_size(width) * len(names))
    else:
        graph = altered(graph, 0)
    return Pair(bodies, rows, store=store, graph=graph, width=width), names, seconds, (), 0


def mixture(rng, width=SHA1):
    """Everything at once."""
    clock = rng.choice(["falling", "skewed", "drifting", "equal", "extreme"])
    names, links, seconds = history(rng, clock, width, cyclic=rng.random() < 0.2, most=16)
    bodies = bodies_of(names, links, seconds, width)
    rows, edges = None, ()
    if rng.random() < 0.7:
        levels = [rng.randrange(5) for _ in names] if rng.random() < 0.5 else [1 + len(names) - i for i in range(len(names))]
        rows = agreeing_rows(names, links, seconds, levels)
        for name in names:
            if rng.random() < 0.1:
                rows[name] = (rows[name][0], rows[name][1], rng.randrange(60))
        if rng.random() < 0.3:
            rows, edges = corrupt_rows(rng, rows)
        elif rng.random() < 0.5:
            keep = set(rng.sample(names, rng.randrange(len(names) + 1)))
            while True:  # only rows whose parents have rows
                less = {x for x in keep if all(p in keep for p in rows[x][0])}
                if less == keep:
                    break
                keep = less
            rows = {x: rows[x] for x in keep}
    for i, name in enumerate(names):
        if rng.random() < 0.05:
            del bodies[name]
        elif rng.random() < 0.05:
            bodies[name] = damaged(rng, [names[p] for p in links[i]], seconds[i], width)
    return Pair(bodies, rows, edges, width=width), names, seconds, some_ids(rng, 2, width), 0.02


# name, pairs of files, cases for each pair, and how a case is drawn if not by some_case
FAMILIES = [
    ("falling clocks", by_clock("falling"), 1000, 6),
    ("skewed clocks", by_clock("skewed"), 1000, 6),
    ("drifting clocks", by_clock("drifting"), 800, 6),
    ("equal clocks", by_clock("equal"), 800, 6),
    ("extreme clocks", by_clock("extreme"), 600, 6),
    ("close pairs in painting", close_pairs, 1500, 6, painting_case),
    ("tips at the cutoff", by_clock("skewed"), 500, 6, cutoff_case),
    ("cycles", cycles, 600, 6),
    ("absent commits", absent, 800, 6),
    ("damaged headers", headers, 800, 6),
    ("wide merges", wide, 60, 6),
    ("wrong graph files", wrong, 1000, 6),
    ("corrupt parent lists", corrupt, 1000, 6),
    ("long histories", long, 25, 4),
    ("torn files", torn, 600, 2),
    ("mixtures", mixture, 1500, 6),
]


def other_width(rng, width=SHA1):
    """A book, a graph or both of the other width: 4 or 5, save where a file has no ids. Not beside the crate, which has one width."""
    other = SHA1 if width == SHA256 else SHA256
    names, links, seconds = history(rng, "falling", width, most=6)
    ids = {name: (name + name)[:other] for name in names}
    theirs = Pair(bodies_of(list(ids.values()), links, seconds, other), agreeing_rows(list(ids.values()), links, seconds, levels_of(links)), width=other)
    mine = Pair(bodies_of(names, links, seconds, width), agreeing_rows(names, links, seconds, levels_of(links)), width=width)
    what = rng.randrange(5)
    store = formats.store({}) if what == 4 else theirs.store if what & 1 else mine.store
    graph = build_graph({}, (), other) if what == 4 else theirs.graph if what != 1 else mine.graph
    return Pair(mine.bodies, mine.rows, store=store, graph=graph, width=width), names, seconds, (), 0


def random_cases(rng, family, variants, draw=some_case, width=SHA1):
    pair, names, seconds, strangers, stranger = family(rng, width)
    for _ in range(variants):
        yield draw(rng, pair, names, seconds, strangers, stranger)


# ---- all small ones

def weak_orders(n):
    """Every clock of n commits, equals included: the numbers used are 0 up to the largest."""
    for clock in itertools.product(range(n), repeat=n):
        if set(clock) == set(range(max(clock) + 1)):
            yield clock


def ordered_subsets(pool):
    for k in range(len(pool) + 1):
        yield from itertools.permutations(pool, k)


def small_three(width=SHA1):
    """Every relation over three commits (parents among the other two, in order, so cycles too), every clock; tip 0."""
    names = [bytes([b]) * width for b in (0x22, 0x33, 0x11)]
    for links in itertools.product(*(list(ordered_subsets([j for j in range(3) if j != i])) for i in range(3))):
        for clock in weak_orders(3):
            seconds = [1 + t for t in clock]
            pair = Pair(bodies_of(names, links, seconds, width), width=width)
            for hidden in ([], [1], [2], [1, 2]):
                for sorting, cutoff, first in ((BREADTH, 0, False), (NEWEST, 0, False), (OLDEST, 0, False), (CUTOFF_NEWEST, 2, False), (BREADTH, 0, True)):
                    yield Case(pair, names[:1], [names[h] for h in hidden], (), sorting, cutoff, first)


def small_four(width=SHA1):
    """Every acyclic relation over four commits in one order (parents come later), every clock; tip 0, one of the others hidden, newest first."""
    names = [bytes([b]) * width for b in (0x33, 0x11, 0x44, 0x22)]
    for links in itertools.product(*(list(ordered_subsets(range(i + 1, 4))) for i in range(4))):
        for clock in weak_orders(4):
            pair = Pair(bodies_of(names, links, [1 + t for t in clock], width), width=width)
            for hidden in (1, 2, 3):
                yield Case(pair, names[:1], [names[hidden]], (), NEWEST)


# ---- document 01's own runs

def named_runs(width=SHA1):
    """(what, case, the numbers or letters that come out, errors as !n)"""
    def pair_of(seconds, links, gone=()):
        ids = {k: (bytes([k]) if isinstance(k, int) else k.encode()) * width for k in seconds}
        bodies = {ids[k]: formats.body([ids[p] for p in links.get(k, ())], seconds[k], width=width) for k in seconds if k not in gone}
        return ids, Pair(bodies, width=width)

    ids, pair = pair_of({k: k for k in range(1, 9)}, {8: [6, 7], 7: [4], 6: [5], 5: [3], 4: [2], 3: [1], 2: [1]})

    def run(what, expected, tips=(8,), hidden=(), barred=(), **settings):
        return what, Case(pair, [ids[k] for k in tips], [ids[k] for k in hidden], [ids[k] for k in barred], **settings), ids, expected.split()

    yield run("breadth", "8 6 7 5 4 3 2 1")
    yield run("newest", "8 7 6 5 4 3 2 1", sorting=NEWEST)
    yield run("oldest", "8 6 5 3 1 7 4 2", sorting=OLDEST)
    yield run("cutoff 4 newest", "8 7 6 5 4", sorting=CUTOFF_NEWEST, cutoff=4)
    yield run("First", "8 6 5 3 1", first=True)
    yield run("hide 5, breadth", "8 6 7 4 2", hidden=(5,))
    yield run("bar 6, breadth", "8 7 4 2 1", barred=(6,))
    yield run("tips 7, 6, 7", "7 6 4 5 2 3 1", tips=(7, 6, 7))
    yield run("hide 8", "", hidden=(8,))
    yield run("no tips", "", tips=())

    skewed, other = pair_of({"a": 10, "h": 9, "c": 8, "m": 3, "s": 1}, {"a": "cm", "h": "m", "m": "s", "s": "c"})
    yield "skewed clock, tip a, hide h", Case(other, [skewed["a"]], [skewed["h"]]), skewed, ["a", "c"]
    twice, third = pair_of({"a": 30, "c": 20, "x": 7, "m": 6, "h": 5}, {"a": "cx", "h": "x", "x": "m", "m": "c"})
    yield "tip a, hide h", Case(third, [twice["a"]], [twice["h"]]), twice, ["a", "c"]
    yield "tip a, hide h, h", Case(third, [twice["a"]], [twice["h"]] * 2), twice, ["a"]

    lone, fourth = pair_of({"t": 5, "g": 1}, {"t": "g"}, gone="g")
    yield "absent parent, newest, cutoff 0", Case(fourth, [lone["t"]], sorting=CUTOFF_NEWEST, cutoff=0), lone, ["t", "!9"]
    yield "absent parent, newest, cutoff 1", Case(fourth, [lone["t"]], sorting=CUTOFF_NEWEST, cutoff=1), lone, ["t"]
    for k in (256, 257):
        top, root = b"t" * width, b"r" * width
        many = Pair({top: formats.body([root] * k, 9, width=width), root: formats.body([], 1, width=width)}, width=width)
        yield "%d parents" % k, Case(many, [top]), {"t": top, "r": root}, ["t", "r"] if k == 256 else ["!11", "r"]
