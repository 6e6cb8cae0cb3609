"""make_runs.py DIR EXAMPLE: writes DIR/stdin and DIR/stdout, the walks of the program `runs` and what it must print.

A case is eleven bytes of settings (the order: 0 breadth first, 1 newest, 2 oldest, 3 cutoff and newest, 4 cutoff and oldest; the cutoff, a big-endian
i64; the mode: 0 All, 1 First; the opening: 0 plain, 1 tested) and seven parts, each a big-endian u32 length and its bytes: title, commit store, commit-graph file, tips, hidden tips,
excluded ids, and the lengths of the six lent buffers, a u32 each; before it stands its own length, at most 65,536.

The expected lines come from compare/model.py, document 01's walk from its words alone, which shares nothing with the Rattle crates; the tests of an
opening that the model leaves out (1 to 3) stand below. Every walk with a fault of compare/slips.py must print something else. EXAMPLE is the folder
of the files git wrote.
"""
import os
import random
import struct
import sys

HERE = os.path.dirname(os.path.abspath(__file__))
sys.path[:0] = [HERE, os.path.join(HERE, "..", "compare")]
import generate  # noqa: E402
import model  # noqa: E402
import slips  # noqa: E402
from formats import NONE, TOP, body, chunk_file, fan, graph_rows, store, u32  # noqa: E402
from generate import BREADTH, CUTOFF_NEWEST, CUTOFF_OLDEST, LARGEST, NEWEST, OLDEST, Pair  # noqa: E402

MOST_PLACES = 1400                                     # the program's buffers have room for so many
BUFFERS = ["names", "marks", "levels", "times", "line", "parents"]
FEW = 8                                                # parents that are printed one by one
runs = []


class Run:
    def __init__(self, family, title, pair, lists, sorting, cutoff, first, lent, tested=False):
        self.family, self.title, self.pair = family, title, pair
        self.tips, self.hidden, self.barred = lists
        self.sorting, self.cutoff, self.first = sorting, cutoff, first
        self.lent, self.tested = lent, tested

    def walk(self, kind):
        ids = [[part[i:i + 20] for i in range(0, len(part), 20)] for part in (self.tips, self.hidden, self.barred)]
        return generate.Case(self.pair, *ids, self.sorting, self.cutoff, self.first).walk(kind)

    def bytes(self):
        out = struct.pack(">BqBB", self.sorting, self.cutoff, self.first, self.tested)
        sizes = b"".join(map(u32, self.lent))
        for part in (self.title.encode(), self.pair.store, self.pair.graph, self.tips, self.hidden, self.barred, sizes):
            out += u32(len(part)) + part
        assert len(out) <= 65536, self.title
        return u32(len(out)) + out


def sizes_for(places):
    """"Lent: names 20·P bytes, marks P bytes, levels P u32, times P i64, line 5·P u32, parents 5,120 bytes." """
    return [20 * places, places, places, places, 5 * places, 5120]


# ---- what must be printed

def opening(run, kind):
    """The refusal's number or None, and the walk. "in order 2 to 6, 1, 7, 8"; card 1: "tested in that order after 8" """
    lists = (run.tips, run.hidden, run.barred)
    if max(len(run.pair.store), len(run.pair.graph)) > model.MOST_BYTES or max(map(len, lists)) > 20 * model.MOST_IDS:
        return 2, None
    if any(len(part) % 20 for part in lists):
        return 3, None
    if run.pair.files.fault is not None:
        return run.pair.files.fault, None
    walk = run.walk(kind)
    if any(have < want for have, want in zip(run.lent, sizes_for(walk.P))):
        return 1, walk
    return walk.refused, walk


def checksum(ids):
    out = 0
    for byte in b"".join(ids):
        out = (31 * out + byte) % 65521
    return out


def numbers(admitted, struck, waiting):
    return " admitted %d struck %d waiting %d" % (admitted, struck, waiting)


def call_line(word, name, level, seconds, zone, tally, parents):
    told = [p.hex() for p in parents]
    if len(parents) > FEW:
        told = [told[0], "to", told[-1], "checksum", str(checksum(parents))]
    values = ["-" if value is None else str(value) for value in (level, seconds, zone)]
    front = " ".join([word, name.hex(), "generation", values[0], "seconds", values[1]])
    return front + tally + " ".join([" parents %d" % len(parents)] + told + ["zone", values[2]])


NO_ID = bytes(20)


def lines(run, kind=None):
    out = ["# " + run.title]
    refused, walk = opening(run, kind or (model.Tested if run.tested else model.Walk))
    if refused is not None:
        # "refused openings and 12 carry zeros"; "12 … comes for every closed record"
        return out + ["refused %d" % refused + numbers(0, 0, 0), call_line("refused 12", NO_ID, None, None, None, numbers(0, 0, 0), ())]
    out.append(("opened tested" if run.tested else "opened") + numbers(walk.admitted, walk.struck, len(walk.line)))
    ends = 0
    while ends < 2:
        a = walk.next()
        ends += a.kind == "end"
        word = "refused %d" % a.number if a.kind == "error" else a.kind
        out.append(call_line(word, a.name or NO_ID, a.level, a.seconds, a.zone, numbers(a.admitted, a.struck, a.waiting), a.parents))
    return out


# ---- cases

family = ""


def case(title, pair, tips=(), hidden=(), barred=(), sorting=BREADTH, cutoff=0, first=False, lent=None, tested=False):
    """A list is ids or bytes. Buffers are lent at their exact sizes unless `lent` says others."""
    lists = [part if isinstance(part, bytes) else b"".join(part) for part in (tips, hidden, barred)]
    run = Run(family, title, pair, lists, sorting, cutoff, first, lent, tested)
    if lent is None:
        run.lent = sizes_for(MOST_PLACES)
        refused, walk = opening(run, model.Walk)
        if walk is not None:
            assert walk.P <= MOST_PLACES, (title, walk.P)
            run.lent = sizes_for(walk.P)
    runs.append(run)


def name(key):
    return (bytes([key]) if isinstance(key, int) else key.encode()) * 20


def names(keys):
    return [name(key) for key in keys]


class History:
    """Commits named by a letter or a number; links: a commit's parents. `gone` are not in the store; `bodies` stand there in place of the built
    ones. `graph`: None, or the commits with a row, which says what the store does unless `rows` has another: parents (a tuple: the row's two words),
    level, seconds. `pad` words end EDGE."""

    def __init__(self, seconds, links={}, gone=(), bodies={}, graph=None, rows={}, levels={}, pad=()):
        self.seconds, self.links = seconds, links
        made = {k: body(names(links.get(k, ())), seconds[k]) for k in seconds if k not in gone}
        made.update(bodies)
        listed = None
        if graph is not None:
            listed = {}
            for k in graph:
                parents, level, its = rows.get(k, (None, None, None))
                parents = links.get(k, "") if parents is None else parents
                listed[name(k)] = (parents if isinstance(parents, tuple) else names(parents),
                                   levels.get(k, self.level(k)) if level is None else level, seconds[k] % 2 ** 34 if its is None else its)
        self.pair = Pair({name(k): made[k] for k in made}, listed, pad)

    def level(self, k):
        return 1 + max((self.level(p) for p in self.links.get(k, ())), default=0)

    def run(self, title, tips, hidden=(), barred=(), **settings):
        case(title, self.pair, names(tips), names(hidden), names(barred), **settings)


SOURCE = dict(seconds={k: k for k in range(1, 9)}, links={8: [6, 7], 7: [4], 6: [5], 5: [3], 4: [2], 3: [1], 2: [1]})
CHAIN = dict(seconds=dict(a=40, b=30, c=20, d=10), links=dict(a="b", b="c", c="d"))


def documents(_):
    for what, c, keys, wanted in generate.named_runs():
        case("document 01: " + what, c.pair, c.tips, c.hidden, c.barred, c.sorting, c.cutoff, c.first)
        words = {"commit " + its.hex(): str(key) for key, its in keys.items()}
        words.update(("refused %d %s" % (k, NO_ID.hex()), "!%d" % k) for k in range(9, 12))
        assert [words[line.split(" generation")[0]] for line in lines(runs[-1])[2:-2]] == wanted, what
    one = History(dict(t=5))
    one.run("a tip without parents", "t")
    one.run("a tip without parents, newest", "t", sorting=NEWEST)
    empty = Pair({})
    case("an empty store, no tips", empty)
    case("an empty store, no tips, a hidden tip", empty, hidden=names("h"))
    case("an empty store, a tip", empty, names("t"))


def orders(_):
    same = History(dict(a=5, b=5, c=5, d=5, e=5, f=5, g=9), dict(a="def", b="g", c="fe", f="g"))
    for what, sorting in (("newest", NEWEST), ("oldest", OLDEST)):
        same.run("equal seconds, first queued first, " + what, "cab", sorting=sorting)
    late = History(dict(a=9, b=5, c=5, d=5, e=5, f=2), dict(a="bc", b="de", c="f", d="f"))
    late.run("equal seconds queued at different calls, newest", "a", sorting=NEWEST)
    late.run("equal seconds queued at different calls, oldest", "a", sorting=OLDEST)
    late.run("equal seconds, a tip among them", "da", sorting=NEWEST)
    twice = History(dict(a=9, b=4, c=3), dict(a="bcbb", b="cc"))
    twice.run("merges that repeat a parent", "a")
    twice.run("merges that repeat a parent, First", "a", first=True)
    twice.run("merges that repeat a parent, hide c", "a", "c")
    back = History(dict(a=9, b=4), dict(a="ba", b="ab"))
    back.run("commits that name themselves and each other", "a")
    back.run("commits that name each other, hide b", "a", "b", sorting=NEWEST)
    up = History(dict(a=1, b=2, c=3, d=4), dict(a="bc", b="d", c="d"))
    up.run("seconds that rise along the links, newest", "a", sorting=NEWEST)
    up.run("seconds that rise along the links, oldest", "a", sorting=OLDEST)
    ten = History({k: 30 - k for k in range(1, 13)}, {1: range(2, 11), 2: range(3, 11), 3: [11, 12]})
    ten.run("nine and eight parents", [1], sorting=OLDEST)
    wide = History({k: (7 * k) % 23 for k in range(1, 24)}, {1: range(2, 24)})
    wide.run("22 parents, newest", [1], sorting=NEWEST)
    ids = [bytes.fromhex("00" * 19 + "%02x" % k) for k in range(3)] + [bytes.fromhex("00" * 12 + "%02x" % k + "00" * 7) for k in (1, 128, 255)]
    near = Pair({ids[k]: body(ids[k + 1:k + 3], 50 - k) for k in range(6)})
    case("ids that differ in their last bytes alone", near, ids[:1], sorting=NEWEST)
    case("ids that differ in their last bytes alone, hide one", near, ids[:1], ids[3:4])


def tips(_):
    source = History(**SOURCE)
    source.run("tips repeated and one the parent of another", [8, 6, 8, 6, 6])
    source.run("tips repeated, newest", [2, 8, 2], sorting=NEWEST)
    source.run("an excluded tip", [8, 7], barred=[8])
    source.run("all tips excluded", [8, 7, 8], barred=[7, 8])
    source.run("an excluded tip that another reaches", [6, 8], barred=[6])
    source.run("excluded ids repeated and unknown", [8], barred=[2, 200, 2, 3])
    source.run("all parents excluded", [8], barred=[6, 7], sorting=NEWEST)
    source.run("an excluded tip under a cutoff", [8, 7], barred=[7], sorting=CUTOFF_NEWEST, cutoff=3)
    gap = History(dict(a=9, b=5), dict(a="b"))
    gap.run("an absent tip that is excluded, newest", "xa", barred="x", sorting=NEWEST)
    gap.run("an absent tip, breadth", "xa")
    bad = History(dict(a=9, b=5), dict(a="b"), bodies=dict(b=b"tree"))
    bad.run("an unreadable tip that is excluded, oldest", "ab", barred="b", sorting=OLDEST)
    bad.run("an unreadable tip, breadth", "ba")
    many = Pair({name("t"): body(names("p"), 9), name("p"): body([], 8)})
    case("1,024 tips, newest", many, names("pt" * 512), sorting=NEWEST)
    case("1,024 hidden tips", many, names("t"), names("p" * 1024))
    case("buffers larger than their sizes", many, names("t"), sorting=OLDEST, lent=sizes_for(MOST_PLACES))


def cutoffs(_):
    chain = History(**CHAIN)
    for cutoff in (10, 11, 40, 41):
        chain.run("cutoff %d, newest" % cutoff, "a", sorting=CUTOFF_NEWEST, cutoff=cutoff)
    chain.run("cutoff 20, oldest", "a", sorting=CUTOFF_OLDEST, cutoff=20)
    chain.run("a tip before the cutoff is seen, though another reaches it", "ca", sorting=CUTOFF_NEWEST, cutoff=21)
    turned = History(dict(a=40, b=30, c=5, d=50), dict(a="bc", b="c", c="d"))
    turned.run("a tip turned away, reached later", "ca", sorting=CUTOFF_NEWEST, cutoff=6)
    turned.run("a tip turned away, its parent after the cutoff", "c", sorting=CUTOFF_NEWEST, cutoff=6)
    turned.run("a parent before the cutoff leads no further", "a", sorting=CUTOFF_OLDEST, cutoff=6)
    other = History(dict(a=40, b=50, c=50, x=50), dict(a="x", b="x", x="c"))
    other.run("a cutoff at the seconds of three", "ab", sorting=CUTOFF_NEWEST, cutoff=50)
    signed = History(dict(a=5, b=-5, c=-6, d=0, e=-1), dict(a="bcd", d="e"))
    signed.run("seconds below 0, newest", "a", sorting=NEWEST)
    signed.run("seconds below 0, oldest", "a", sorting=OLDEST)
    for cutoff in (0, -5):
        signed.run("seconds below 0, cutoff %d" % cutoff, "a", sorting=CUTOFF_NEWEST, cutoff=cutoff)
    far = History(dict(a=LARGEST, b=-LARGEST, c=2 ** 34, d=2 ** 34 - 1, e=-2 ** 31, f=2 ** 53 + 1), dict(a="bcdef"))
    far.run("extreme seconds, newest", "a", sorting=NEWEST)
    far.run("extreme seconds, oldest", "a", sorting=OLDEST)
    for what, cutoff in (("least", -2 ** 63), ("greatest", 2 ** 63 - 1), ("of the greatest seconds", LARGEST), ("one above the least seconds", 1 - LARGEST)):
        far.run("extreme seconds, cutoff " + what, "ab", sorting=CUTOFF_OLDEST, cutoff=cutoff)
    gone = History(dict(a=5, x=0, b=3), dict(a="xb", b="x"), gone="x")
    gone.run("an absent parent, cutoff -1", "a", sorting=CUTOFF_OLDEST, cutoff=-1)
    gone.run("an absent parent, oldest", "a", sorting=OLDEST)
    blurred = History(dict(a=5, x=4, b=3), dict(a="xb"), bodies=dict(x=body([], 4, committer=b"committer A <a> x\n")))
    blurred.run("a parent without readable seconds has 0, newest", "a", sorting=NEWEST)
    blurred.run("a parent without readable seconds, cutoff 1", "a", sorting=CUTOFF_NEWEST, cutoff=1)
    source = History(**SOURCE)
    source.run("First ignores the cutoff after the tips", [8], sorting=CUTOFF_NEWEST, cutoff=8, first=True)
    source.run("First, a tip before the cutoff", [4, 8, 5], sorting=CUTOFF_OLDEST, cutoff=5, first=True)
    source.run("First, all tips before the cutoff", [8, 7], sorting=CUTOFF_NEWEST, cutoff=9, first=True)
    chain.run("First, a tip turned away by the cutoff is seen, so no other's first parent", "ba", sorting=CUTOFF_NEWEST, cutoff=31, first=True)
    listed = History(**CHAIN, graph="abcd", rows=dict(b=("c", 3, 99)))
    listed.run("a tip turned away by the cutoff is seen, though its row has later seconds", "ba", sorting=CUTOFF_NEWEST, cutoff=31)
    source.run("a cutoff and a hidden tip", [8], [4], sorting=CUTOFF_NEWEST, cutoff=3)


def first(_):
    source = History(**SOURCE)
    source.run("First, newest: no seconds, the tips in list order", [5, 8, 7], sorting=NEWEST, first=True)
    source.run("First, oldest: the same", [5, 8, 7], sorting=OLDEST, first=True)
    source.run("First, tips that meet", [6, 5, 3], first=True)
    source.run("First, a first parent excluded", [8], barred=[6], first=True)
    source.run("First, hide 4: hidden tips lead through all parents", [8], [4], first=True)
    deep = History(dict(a=9, h=8, x=5, y=4, z=3), dict(a="xy", h="zx", x="y", z="y"))
    deep.run("First, hide h: its second parent is hidden too", "a", "h", first=True)
    deep.run("First, hide h, newest", "a", "h", first=True, sorting=NEWEST)
    head = body(names("p"), 7)
    bad = History(dict(a=9, p=3), dict(a="p"), bodies=dict(b=head[:46 + 48] + b"parent 00\n", c=head[:46], d=b"tree", e=head[:46 + 48] + b"author\n"))
    bad.run("First: a bad line after the first parent is not read", "b", first=True)
    bad.run("All: a bad line after the first parent", "b")
    bad.run("First: no parent, and no author line", "c", first=True)
    bad.run("First: a bad tree line", "da", first=True)
    bad.run("First: a bad author line after a parent", "e", first=True)
    crowd = History(dict(p=3), bodies=dict(t=body(names("p" * 257), 9)))
    crowd.run("First: 257 parents", "t", first=True)


def painting(_):
    source = History(**SOURCE)
    source.run("hide 1", [8], [1])
    source.run("hide 6 and 7", [8], [6, 7])
    source.run("hide 3, newest", [8], [3], sorting=NEWEST)
    source.run("hide 2, oldest", [8], [2], sorting=OLDEST)
    source.run("tips 6 and 7, hide 7", [6, 7], [7])
    source.run("tips 7, 6 and 5, hide 6 and 4, newest", [7, 6, 5], [6, 4], sorting=NEWEST)
    source.run("tips 4, 7 and 6, hide 2, oldest", [4, 7, 6], [2], sorting=OLDEST)
    source.run("a hidden tip that reaches the tip", [5], [8])
    source.run("a hidden tip equal to a tip, twice", [8, 7], [7, 7])
    source.run("no tips, a hidden tip", [], [8])
    source.run("no tips, an absent hidden tip", [], [99])
    source.run("all tips excluded, an absent hidden tip", [8], [99], [8])
    source.run("all tips before the cutoff, an absent hidden tip", [7], [99], sorting=CUTOFF_NEWEST, cutoff=8)
    source.run("a hidden tip that is excluded", [8], [5], [5])
    source.run("an excluded commit below a hidden tip", [8], [5], [3, 7])
    source.run("a tip that is hidden and excluded, and another", [8, 7], [8], [8])
    source.run("an absent hidden tip", [8], [99])
    source.run("an absent hidden tip after a good one", [8, 7, 3], [5, 99])
    apart = History(dict(a=9, b=8, c=7, h=6, g=5), dict(a="b", b="c", h="g"))
    apart.run("a hidden tip with nothing in common", "a", "h")
    bad = dict(u=b"tree x", v=body(names("d"), 7, author=b"author\n"), w=body(names("d"), 7, committer=b"committer\n"))
    broken = History(**CHAIN, bodies=bad)
    for k, what in (("u", "a bad tree line"), ("v", "a bad author line"), ("w", "a bad committer line")):
        broken.run("a hidden tip with " + what, "a", k)
        broken.run("a tip with %s, hide d" % what, k + "a", "d")
    for count in (256, 257):
        crowd = History(dict(a=9, p=3), dict(a="t"), bodies=dict(t=body(names("p" * count), 8)))
        crowd.run("%d parents met in painting" % count, "a", "p")
    hole = History(dict(a=40, b=30, c=20, d=10), dict(a="b", b="c", c="d"), gone="c")
    hole.run("an absent commit met in painting", "a", "d")
    hole.run("an absent commit that painting does not come to", "a", "b")
    hole.run("an absent waiting commit, breadth", "ca", "d")
    low = History(dict(a=40, b=30, c=20, d=10), dict(a="b", b="c", c="d"), bodies=dict(d=b""))
    low.run("an empty body met in painting", "a", "c")
    low.run("an empty body that painting does not come to", "a", "b")
    tie = History(dict(a=0, b=1, c=0), dict(a="b", c="a"))
    tie.run("equal pairs in painting, first queued first", "abc", "c")
    tie.run("equal pairs in painting, tips in another order", "cba", "c")
    popped = History(dict(m=0, b=0, z=1), dict(m="z", z="b"))
    popped.run("a hidden tip that waits: queued twice, and not STALE itself", "mb", "m")
    rising = History(dict(m=0, b=0, c=1), dict(m="c", b="m", c="b"))
    rising.run("waiting ids are queued by rising id", "mb", "c")
    skew = History(dict(a=10, h=9, c=8, m=3, s=1), dict(a="cm", h="m", m="s", s="c"))
    skew.run("the skewed clock, newest", "a", "h", sorting=NEWEST)
    skew.run("the skewed clock, tips a and s", "sa", "h")
    graph = History(dict(a=10, h=9, c=8, m=3, s=1), dict(a="cm", h="m", m="s", s="c"), graph="ahcms")
    graph.run("the skewed clock, generations in a graph file", "a", "h")
    stale = History(dict(a=20, h=19, b=18, c=17, d=16, e=15), dict(a="bc", h="cb", b="d", c="d", d="e"))
    stale.run("two ways to the frontier", "a", "h")
    stale.run("two ways to the frontier, tips a, b and d", "dab", "h", sorting=OLDEST)


def graphs(_):
    source = History(**SOURCE, graph=range(1, 9))
    for what, sorting in (("breadth", BREADTH), ("newest", NEWEST), ("oldest", OLDEST)):
        source.run("a graph file that agrees, " + what, [8], sorting=sorting)
    source.run("a graph file that agrees, cutoff 4", [8], sorting=CUTOFF_NEWEST, cutoff=4)
    source.run("a graph file that agrees, First", [8], first=True)
    source.run("a graph file that agrees, hide 5", [8], [5])
    source.run("a graph file that agrees, hide 5, newest", [7, 8], [5], sorting=NEWEST)
    older = History(**SOURCE, graph=range(1, 6))
    older.run("a graph file of the older commits, newest", [8], sorting=NEWEST)
    older.run("a graph file of the older commits, hide 4", [8], [4], sorting=OLDEST)
    zero = History(**SOURCE, graph=range(1, 9), levels={k: 0 for k in range(1, 9)})
    zero.run("generations 0", [8])
    zero.run("generations 0, hide 5", [8], [5], sorting=NEWEST)
    part = History(**SOURCE, graph=range(1, 9), levels={5: 0, 3: 0, 8: 2 ** 30 - 1})
    part.run("generations 0 of some, the greatest of one, hide 3", [8], [3])
    # card 6: 0 as the lowest level, 1, or no level for that row alone would hand out 5 (4 in the second history) as well
    rising = dict(seconds={1: 20, 2: 17, 3: 19, 4: 8, 5: 3}, links={1: [2, 5], 2: [4], 4: [5]}, graph=[3, 4, 5])
    History(**rising, levels={3: 0, 4: 2, 5: 3}).run("a generation 0 that no tip reaches, hide 2", [1], [2])
    History(**rising, levels={3: 0, 4: 2, 5: 3}).run("a generation 0 that no tip reaches, hide 2, newest", [1], [2], sorting=NEWEST)
    History(**rising, levels={3: 1, 4: 2, 5: 3}).run("the same with a generation 1, hide 2", [1], [2])
    within = dict(seconds={1: 17, 2: 14, 3: 13, 4: 11, 5: 4}, links={1: [2, 4], 2: [3, 5], 3: [4], 4: [5]}, graph=range(1, 6))
    History(**within, levels={1: 3, 2: 3, 3: 2, 4: 3, 5: 0}).run("a generation 0 of a root, hide 2", [1], [2])
    History(**within, levels={1: 3, 2: 3, 3: 2, 4: 3, 5: 1}).run("the same with a generation 1 of the root, hide 2", [1], [2])
    # the graph says other parents and other seconds than the store: for a commit from the graph it decides
    rows = {"a": ("cd", 9, 40), "b": ("", 7, 99), "c": ("db", 6, 2), "d": ("", 5, 77)}
    other = History(**CHAIN, graph="abcd", rows=rows)
    for what, settings in (("breadth", {}), ("newest", dict(sorting=NEWEST)), ("oldest", dict(sorting=OLDEST)), ("First", dict(first=True)),
                           ("cutoff 41", dict(sorting=CUTOFF_NEWEST, cutoff=41)), ("cutoff 40", dict(sorting=CUTOFF_NEWEST, cutoff=40)),
                           ("hide b", dict(hidden="b")), ("hide d, newest", dict(hidden="d", sorting=NEWEST))):
        other.run("a graph file with other parents and seconds, " + what, "a", **settings)
    other.run("a graph file with other seconds: a tip has the store's", "cdb", "a", sorting=NEWEST)
    rows = {"c": ("d", 9, 99), "d": ("", 8, 98)}
    below = History(dict(a=40, b=30, c=20, d=10), dict(a="bc", b="d", c="d"), graph="cd", rows=rows)
    below.run("a parent of a store commit has the store's seconds, newest", "a", sorting=NEWEST)
    below.run("a parent of a store commit, cutoff 21", "a", sorting=CUTOFF_NEWEST, cutoff=21)
    only = History(dict(a=40, b=30, c=20, d=10), dict(a="b", b="c", c="d"), graph="bcd", gone="bc")
    only.run("commits in the graph file alone", "a")
    only.run("commits in the graph file alone, newest", "a", sorting=NEWEST)
    only.run("commits in the graph file alone, cutoff 1", "a", sorting=CUTOFF_NEWEST, cutoff=1)
    only.run("commits in the graph file alone, hide d", "a", "d")
    only.run("a tip in the graph file alone, breadth", "b")
    only.run("a hidden tip in the graph file alone", "a", "c")
    left = History(dict(a=40, b=30, c=20, d=10), dict(a="cb", b="d"), graph="d", gone="c")
    left.run("a commit in neither file", "a")
    left.run("a commit in neither file, oldest", "a", sorting=OLDEST)
    octopus = History({k: 40 - k for k in range(1, 13)}, {1: [2, 3, 4], 2: [5, 6, 7, 8, 9, 10, 11, 12], 3: [5], 4: [6, 7]}, graph=range(1, 13))
    octopus.run("three and eight parents through EDGE", [1])
    octopus.run("three and eight parents through EDGE, oldest", [1], sorting=OLDEST)
    octopus.run("three and eight parents through EDGE, First", [1], first=True)
    octopus.run("three and eight parents through EDGE, hide 3", [1], [3], sorting=NEWEST)
    crowd = {k: 100 - k for k in range(1, 22)}
    History(crowd, {1: range(2, 22)}, graph=crowd).run("20 parents through EDGE, newest", [1], sorting=NEWEST)
    full = dict(seconds=dict(a=9, p=4), links=dict(a="p"), graph="ap")
    History(**full, rows=dict(a=((1, TOP), 2, 9)), pad=[1] * 254 + [TOP | 1]).run("256 parents through EDGE", "a")
    History(**full, rows=dict(a=((1, TOP), 2, 9)), pad=[1] * 254 + [TOP | 1]).run("256 parents through EDGE, hide p", "a", "p")
    least = History(dict(a=2 ** 34 - 1, b=2 ** 32, c=2 ** 33 + 5), dict(a="bc"), graph="abc", levels=dict(a=2 ** 30 - 1))
    least.run("34 bits of seconds and 30 of generation", "a", sorting=OLDEST)
    below = History(dict(a=5, b=-1, c=-2 ** 34), dict(a="bc"), graph="abc")
    below.run("seconds that a row cannot hold", "a", sorting=NEWEST)
    source = History(**SOURCE)
    nothing = Pair(source.pair.bodies, {})
    case("a graph file of no commits", nothing, names([8]), sorting=NEWEST)
    parts = graph_rows({name("a"): (names("b"), 3, 40), name("b"): ((), 1, 30)})
    chunks = [(b"OIDF", fan(parts[0])), (b"OIDL", b"".join(parts[0])), (b"CDAT", parts[1])]
    chain = History(**CHAIN).pair.bodies
    for what, more in (("an empty EDGE", [(b"EDGE", b"")]), ("chunks of other kinds", [(b"XXXX", b"skipped"), (b"\0\0\0\0", b"zero")])):
        case("a graph file with " + what, Pair(chain, None, graph=chunk_file(chunks[::-1] + more)), names("a"))


def corrupt(_):
    def rows(words, *pad, **more):
        return dict(graph="abcde", rows=dict(b=(words, 8, 30)), pad=pad, **more)

    # b is row 1 of five; its list is corrupt, and so not what the store says, d
    links = dict(a="bc", b="d", c="d", d="e")
    plain = dict(seconds=dict(a=40, b=30, c=30, d=10, e=5), links=links)
    kinds = [("a position of N", (5, NONE), []), ("a second position of N", (3, 5), []), ("no first parent, but a second", (NONE, 3), []),
             ("a first parent with the top bit", (TOP | 3, 3), []), ("EDGE at its end", (3, TOP), []), ("EDGE that runs out", (3, TOP), [3, 2]),
             ("a list past EDGE", (3, TOP | 9), [TOP | 3]), ("a position of N in EDGE", (3, TOP), [5, TOP | 2]),
             ("a last position of N in EDGE", (3, TOP), [TOP | 5]), ("257 parents", (3, TOP), [3] * 255 + [TOP | 3])]
    for what, words, pad in kinds:
        History(**plain, **rows(words, *pad)).run("a corrupt list, " + what, "a")
    for what, words, pad in (kinds[5], kinds[9]):
        History(**plain, **rows(words, *pad)).run("a corrupt list in painting, " + what, "a", "d")
    bad = History(**plain, **rows((5, NONE)))
    bad.run("a corrupt list, newest: the commit goes back after its equal", "a", sorting=NEWEST)
    bad.run("a corrupt list, oldest", "a", sorting=OLDEST)
    bad.run("a corrupt list, cutoff 30", "a", sorting=CUTOFF_NEWEST, cutoff=30)
    bad.run("a corrupt list, First", "b", first=True)
    bad.run("a corrupt list of the first tip", "bac")
    bad.run("a corrupt list of a later tip, newest", "cbe", sorting=NEWEST)
    bad.run("a corrupt list that no call comes to", "c")
    bad.run("a corrupt list of an excluded commit", "a", barred="b")
    bad.run("a corrupt list of a tip in painting", "b", "d")
    bad.run("a corrupt list of a parent in painting", "a", "d", sorting=NEWEST)
    bad.run("a corrupt list of a hidden tip", "a", "b")
    bad.run("a corrupt list that painting does not come to", "c", "d")
    second = History(**plain, **rows((3, 5)))
    second.run("a corrupt second parent, First", "a", first=True)
    absent = History(**plain, **rows((5, NONE)), gone="bd")
    absent.run("a corrupt list of a commit that the store lacks", "a")
    absent.run("a corrupt list of a commit that the store lacks, newest", "a", sorting=NEWEST)
    late = dict(rows((5, NONE)), rows=dict(b=((5, NONE), 8, 30), c=("", 7, 33)))
    History(**plain, **late).run("parents queued with a row's seconds keep them when the graph file is dropped", "a", sorting=NEWEST)
    three = History(dict(a=9, b=9, c=9, d=9, e=1), dict(a="e", b="e", c="e", d="e"), graph="abcde", rows=dict(a=((7, NONE), 2, 9), c=((7, NONE), 2, 9)))
    three.run("a corrupt list among four equals, newest", "abcd", sorting=NEWEST)
    three.run("a corrupt list among four equals, oldest", "dcba", sorting=OLDEST)
    three.run("a corrupt list among four, breadth", "abcd")
    three.run("a corrupt list among four, First and newest", "abcd", sorting=NEWEST, first=True)


def headers(_):
    head = body(names("pq"), 7)
    whole = 46 + 2 * 48
    bad = [("a bad tree line", b"Tree" + head[4:]), ("an empty body", b""), ("a tree line without its newline", head[:45]), ("a tree line alone", head[:46]),
           ("a bad third parent line", head[:whole] + b"parent " + b"A" * 40 + b"\n" + head[whole:]), ("a second parent line cut short", head[:whole - 1]),
           ("no author line", head[:whole] + b"committer A <a> 7 +0000\n"), ("an author line without `>`", head[:whole] + b"author A <a\ncommitter A <a> 7\n"),
           ("an author line whose `>` comes first", head[:whole] + b"author >A<\ncommitter A <a> 7\n"), ("an author line without its newline", head[:whole] + b"author A <a> 7"),
           ("a good author line and nothing after", head[:whole] + b"author <>\n"), ("a bad committer line", head[:whole] + b"author <>\ncommitter A <a> 7x\n")]
    for what, broken in bad:
        h = History(dict(a=9, p=5, q=4, r=3), dict(a="bp", q="r"), bodies=dict(b=broken))
        h.run(what, "a")
    h = History(dict(a=9, p=5, q=4, r=3), dict(a="bp", q="r"), bodies=dict(b=bad[4][1]))
    h.run("a bad third parent line, newest: the first two wait", "a", sorting=NEWEST)
    h.run("a bad third parent line, cutoff 5", "a", sorting=CUTOFF_NEWEST, cutoff=5)
    for count in (256, 257):
        worse = History(dict(p=5), bodies=dict(b=body(names("p" * count), author=b"parent 00\n")))
        worse.run("%d parents and a bad line" % count, "b")
    ids = [bytes([1 + k // 128, k % 128]) * 10 for k in range(257)]
    case("256 different parents that the store lacks, cutoff 1", Pair({name("t"): body(ids[:256], 9)}), names("t"), sorting=CUTOFF_NEWEST, cutoff=1)
    case("257 different parents, all but three excluded: those already read stay", Pair({name("t"): body(ids, 9)}), names("t"), barred=ids[1:255])
    for tail in (b"> -5 x\n", b"> -0\n", b"> 000000000000000007 \n", b"> 5> 6\n"):
        h = History(dict(p=3), bodies=dict(t=body(names("p"), committer=b"committer A" + tail)))
        h.run("committer%s" % tail.decode().rstrip(), "t", sorting=OLDEST)


def zones(_):
    def line(zone):
        return body([], committer=b"committer A <a> 5" + zone + b"\n", author=b"author A <a> 5 +0900\n")

    vectors = [("+0000", b" +0000"), ("-0000", b" -0000"), ("+0001", b" +0001"), ("-0001", b" -0001"), ("+0530", b" +0530"), ("-0930", b" -0930"),
               ("+0059", b" +0059"), ("+0060", b" +0060"), ("+1359", b" +1359"), ("+1400", b" +1400"), ("-1400", b" -1400"), ("+1459", b" +1459"),
               ("-1459", b" -1459"), ("+1460", b" +1460"), ("-1460", b" -1460"), ("+1500", b" +1500"), ("-1500", b" -1500"), ("+9959", b" +9959"),
               ("three digits", b" +100"), ("five digits", b" +01000"), ("no sign", b" 0100"), ("no digits", b" +"), ("a letter among the digits", b" +01o0"),
               ("a letter as the first digit", b" +a100"), ("letters", b" UTC"), ("a colon", b" +01:00"), ("a space among the digits", b" + 100"), ("a minus sign of two bytes", b" \xc2\xad0100"),
               ("a CR at the end", b" +0100\r"), ("two spaces", b"  +0100"), ("a trailing space", b" +0100 "), ("a trailing zone", b" +0100 +0200"), ("a tab", b" \t+0100"),
               ("no zone", b""), ("a space alone", b" "), ("a zone before the last `>`", b" +0100> 6 +0200"), ("none after the last `>`", b" +0100> 6")]
    for what, zone in vectors:
        History({}, bodies=dict(z=line(zone))).run("zone: " + what, "z")
    History({}, bodies=dict(z=line(b" -0130"))).run("zone: by time, beside the seconds", "z", sorting=NEWEST)
    History({}, bodies=dict(z=body([], committer=b"committer A <a> -5 -0130\n"))).run("zone: beside seconds below 0", "z", sorting=OLDEST)
    alone = body([], author=b"author A <a> 5 +0100\n", committer=b"committer A <a> 5\n")
    History({}, bodies=dict(z=alone)).run("zone: on the author line alone", "z")
    History({}, bodies=dict(z=body([]) + b"committer A <a> 5 +0100\n")).run("zone: a second committer line is not read", "z")
    east = b"committer A <a> 9 +0200\n"
    for count in (256, 257, 300):
        crowd = History(dict(p=3), bodies=dict(t=body(names("p" * count), committer=east)))
        crowd.run("zone: %d parents, First" % count, "t", first=True)
        crowd.run("zone: %d parents, All" % count, "t")
    merge = History(dict(p=3, q=2), bodies=dict(t=body(names("pq"), committer=east)))
    merge.run("zone: two parents, First", "t", first=True)
    merge.run("zone: two parents, First and newest: no seconds, a zone", "t", sorting=NEWEST, first=True)
    whole = body(names("pq"), committer=east)
    bad = [("a bad second parent line", whole[:46 + 48] + b"parent 00\n" + whole[46 + 48:]), ("a bad author line", body(names("pq"), author=b"author\n", committer=east)),
           ("no author line", body(names("pq"), author=b"", committer=east)), ("seconds that are no number", body(names("pq"), committer=b"committer A <a> 9x +0200\n")),
           ("no `>`", body(names("pq"), committer=b"committer A 9 +0200\n")), ("no newline at the end", body(names("pq"), committer=east)[:-2]),
           ("another word", body(names("pq"), committer=b"Committer A <a> 9 +0200\n")), ("a bad tree line", b"Tree" + whole[4:])]
    for what, broken in bad:
        h = History(dict(p=3, q=2), bodies=dict(t=broken))
        h.run("zone: none under First, for " + what, "t", first=True)
        h.run("zone: none under All, for " + what, "t")
    far = dict(a=body(names("b"), committer=b"committer A <a> 40 +0100\n"), b=body(names("c"), committer=b"committer A <a> 30 -0200\n"),
               c=body(names("d"), committer=b"committer A <a> 20 +0300\n"), d=body([], committer=b"committer A <a> 10 -0400\n"))
    for what, rows in (("no graph file", {}), ("a graph file of all", dict(graph="abcd")), ("a graph file of the older half", dict(graph="cd")),
                       ("a graph file with a generation 0", dict(graph="abcd", levels=dict(d=0)))):
        for order, settings in (("breadth", {}), ("newest", dict(sorting=NEWEST)), ("First", dict(first=True))):
            History(**CHAIN, bodies=far, **rows).run("zone: %s, %s" % (what, order), "a", **settings)
    dropped = dict(**CHAIN, bodies=far, graph="abcd", rows=dict(c=((9, NONE), 2, 20)))
    History(**dropped).run("zone: none from a row, then those of the store after the graph file is dropped", "a")
    History(**dropped).run("zone: the same, newest", "a", sorting=NEWEST)
    History(**dropped).run("zone: the graph file is dropped at the first commit", "c", first=True)
    History(**CHAIN, bodies=far, graph="bcd").run("zone: beside hidden commits", "a", "c")
    gone = History(dict(a=9, x=5), dict(a="x"), gone="x", bodies=dict(a=body(names("x"), committer=east)))
    gone.run("zone: none with an absent commit, nor at the end", "a")


def refusals(_):
    chain, good = History(**CHAIN).pair, History(**CHAIN, graph="abcd").pair
    torn, odd = chain.store[:-1], good.graph[:-1]
    foreign = b"X" + good.graph[1:]
    long, ragged = names("a" * 1025), name("a")[:19]
    nothing = [0] * 6

    def files(store=None, graph=None):
        return Pair(chain.bodies, None, store=store, graph=graph)

    case("2: a byte over 1,024 hidden tips", chain, names("a"), b"".join(long[1:]) + b"a")
    case("2 before 3 and 4: 1,025 tips, a ragged list and a torn store", files(torn), long, ragged)
    case("2 before 5 and 1: 1,025 excluded ids, a foreign graph file and no memory", files(graph=foreign), names("a"), barred=long, lent=nothing)
    for what, lists in (("tips", (ragged,)), ("hidden tips", (names("a"), ragged)), ("excluded ids", (names("a"), (), ragged))):
        case("3: 19 bytes of " + what, chain, *lists)
    case("3: 21 bytes of tips", chain, name("a") + b"a")
    case("3 before 4: a ragged list and a torn store", files(torn), ragged)
    case("3 before 6 and 1", files(graph=odd), names("a"), barred=ragged, lent=nothing)
    for what, store_bytes in (("a byte short", torn), ("nothing", b""), ("7 zero bytes", bytes(7)),
                              ("ids that do not rise", store({name("a"): b"", name("b"): b""}).replace(name("b"), name("a"))),
                              ("a last end before the entries", store({name("a"): b"x"})[:21] + u32(0) + u32(1) + u32(1))):
        case("4: %s" % what, files(store_bytes), names("a"))
    case("4 before 5: a torn store and a foreign graph file", files(torn, foreign), names("a"))
    case("4 before 6: a torn store and a torn graph file", files(torn, odd), names("a"))
    case("4 before 1", files(torn), names("a"), lent=nothing)
    case("4 before 7", files(torn), names("x"), sorting=NEWEST)
    for what, graph in (("another first byte", foreign), ("7 bytes", good.graph[:7]), ("version 2", good.graph[:4] + b"\2" + good.graph[5:]),
                        ("hash version 2", good.graph[:5] + b"\2" + good.graph[6:]), ("a base file", good.graph[:7] + b"\1" + good.graph[8:])):
        case("5: " + what, files(graph=graph), names("a"))
    case("5 before 1", files(graph=foreign), names("a"), lent=nothing)
    case("5 before 7", files(graph=foreign), names("x"), sorting=NEWEST)
    for what, graph in (("a byte short", odd), ("8 bytes", good.graph[:8]), ("another count of chunks", good.graph[:6] + b"\2" + good.graph[7:]),
                        ("two OIDF", good.graph[:20] + b"OIDF" + good.graph[24:]), ("a fan-out that is off", good.graph[:60] + u32(1) + good.graph[64:])):
        case("6: " + what, files(graph=graph), names("a"))
    case("6 before 1", files(graph=odd), names("a"), lent=nothing)
    case("6 before 7", files(graph=odd), names("x"), sorting=OLDEST)
    need = sizes_for(2 + len(good.store) // 48 + 4)
    for k, what in enumerate(BUFFERS):
        case("1: %s one element short" % what, good, names("a"), names("d"), lent=need[:k] + [need[k] - 1] + need[k + 1:])
    case("all buffers at their sizes", good, names("a"), names("d"), lent=need)
    case("1: no memory, no tips", chain, lent=nothing)
    case("1: a place fewer for a tip lent twice", good, names("aa"), names("d"), names("a"), lent=need)
    case("1 before 7", chain, names("x"), sorting=NEWEST, lent=nothing)
    case("1 before 8", History(dict(a=1), bodies=dict(u=b"")).pair, names("u"), sorting=NEWEST, lent=nothing)
    tips = History(**CHAIN, bodies=dict(u=b"tree", v=body([], committer=b"committer\n"), w=body([], author=b"author\n")))
    tips.run("7: an absent tip, newest", "x", sorting=NEWEST)
    tips.run("7: an absent tip, oldest, after good ones", "abx", sorting=OLDEST)
    tips.run("7: an absent tip, First and newest", "xa", sorting=NEWEST, first=True)
    tips.run("7: an absent tip under a cutoff", "ax", sorting=CUTOFF_NEWEST, cutoff=2 ** 63 - 1)
    tips.run("8: a tip with a bad tree line", "u", sorting=NEWEST)
    tips.run("8: a tip with a bad committer line", "av", sorting=OLDEST)
    tips.run("8: a tip with a bad author line, First", "w", sorting=CUTOFF_OLDEST, cutoff=0, first=True)
    tips.run("7 before 8: the first tip at fault decides", "axu", sorting=NEWEST)
    tips.run("8 before 7: the first tip at fault decides", "aux", sorting=NEWEST)
    crowd = History(dict(p=3), bodies=dict(t=body(names("p" * 257), 9)))
    crowd.run("257 parents of a tip are not counted for its seconds", "t", sorting=NEWEST)
    tips.run("the same tips, breadth", "uxv")
    gone = History(**CHAIN, gone="b", graph="abcd")
    gone.run("7: a tip in the graph file alone", "b", sorting=NEWEST)
    for run in runs:
        if run.family == family and run.title[0].isdigit() and run.title[1] in " :":
            assert lines(run)[1].startswith("refused " + run.title[0]), run.title


def tested(_):
    """Card 1: a history of each kind. The chain is a 40, b 30, c 20, d 10."""
    def history(title, tips="a", hidden="", barred="", settings=(), refused=None, **made):
        made = {**CHAIN, **made}
        History(**made).run("tested: " + title, tips, hidden, barred, tested=True, **dict(settings))
        got = lines(runs[-1])[1].split()
        assert got[:2] == (["opened", "tested"] if refused is None else ["refused", str(refused)]), (title, got)

    by_time, first = dict(sorting=NEWEST), dict(first=True)
    for what, settings in (("breadth", {}), ("newest", by_time), ("oldest", dict(sorting=OLDEST)), ("cutoff", dict(sorting=CUTOFF_NEWEST, cutoff=15)), ("First", first)):
        history("good, " + what, settings=settings)
        history("good with a graph file, hide c, " + what, hidden="c", settings=settings, graph="abcd")
    history("no tips", tips="")
    history("faults that nothing reaches", tips="c", gone="b", bodies=dict(x=b""))
    history("256 parents", bodies=dict(a=body(names("b" * 256), 40)))
    # 13
    history("a commit unreadable deep down", bodies=dict(d=b"tree"), refused=13)
    history("a commit without a committer line", bodies=dict(d=body([], 10, committer=b"")), refused=13)
    history("257 parents", bodies=dict(a=body(names("b" * 257), 40)), refused=13)
    history("an absent parent", gone="d", refused=13)
    history("an absent parent that the graph file has", gone="d", graph="abcd", refused=13)
    history("an absent tip, breadth", tips="ax", refused=13)
    history("an absent second parent under First", links=dict(a="bx", b="c", c="d"), settings=first, refused=13)
    history("an absent hidden tip, no tips", tips="", hidden="x", refused=13)
    history("an absent parent below the cutoff", gone="d", settings=dict(sorting=CUTOFF_NEWEST, cutoff=30), refused=13)
    history("an absent excluded id that nothing reaches", barred="x")
    history("an absent parent that is excluded", gone="d", barred="d", refused=13)
    apart = dict(seconds=dict(a=40, b=30, u=35, v=25), links=dict(a="b", u="v"))
    history("an excluded tip whose reach is bad", tips="au", barred="u", gone="v", refused=13, **apart)
    history("a hidden tip whose reach is bad", hidden="u", gone="v", refused=13, **apart)
    history("a tip that the cutoff turns away, whose reach is bad", tips="au", gone="v", settings=dict(sorting=CUTOFF_NEWEST, cutoff=36), refused=13, **apart)
    # 14
    history("a stale graph file that agrees", graph="cd")
    history("a graph file that agrees, of other commits too", tips="b", graph="abcd")
    history("a graph file with another parent", graph="abcd", rows=dict(b=("d", None, None)), refused=14)
    history("a graph file with a parent more", graph="abcd", rows=dict(d=("c", None, None)), refused=14)
    history("a graph file with a parent less", graph="abcd", rows=dict(c=("", None, None)), refused=14)
    merge = dict(links=dict(a="bc", b="d", c="d"))
    history("a merge in a graph file", graph="abcd", **merge)
    history("a graph file with the parents in another order", graph="abcd", rows=dict(a=("cb", None, None)), refused=14, **merge)
    wide = dict(seconds=dict(a=40, b=30, c=20, d=10, e=5), links=dict(a="bcde"))
    history("four parents in a graph file", graph="abcde", **wide)
    history("four parents, the last two exchanged", graph="abcde", rows=dict(a=("bced", None, None)), refused=14, **wide)
    history("a graph file with other seconds", graph="abcd", rows=dict(c=(None, None, 21)), refused=14)
    history("a graph file with seconds of 33 bits more", graph="abcd", rows=dict(d=(None, None, 10 + 2 ** 32)), refused=14)
    history("seconds below 0, which no row holds", seconds=dict(a=40, b=30, c=20, d=-10), graph="abcd", refused=14)
    history("a corrupt list", graph="abcd", rows=dict(d=((9, NONE), None, None)), refused=14)
    history("a corrupt list of a commit that is not reached", tips="c", graph="abcd", rows=dict(a=((9, NONE), None, None)))
    history("a hidden tip at odds with its row", tips="c", hidden="a", graph="abcd", rows=dict(a=(None, None, 41)), refused=14)
    # 15
    history("a pair equal along a link", seconds=dict(a=40, b=30, c=10, d=10), refused=15)
    history("a pair equal along a link, with generations", seconds=dict(a=40, b=30, c=10, d=10), graph="abcd")
    history("a pair equal along a link, of equal generations", seconds=dict(a=40, b=30, c=10, d=10), graph="abcd", rows=dict(c=(None, 1, None)), refused=15)
    history("equal generations, and the clock falls", graph="abcd", rows=dict(c=(None, 1, None)))
    rising = dict(seconds=dict(a=40, b=30, c=10, d=20))
    history("a clock that falls the wrong way", refused=15, **rising)
    history("a clock that falls the wrong way, with generations", graph="abcd", **rising)
    history("a clock that falls the wrong way, above a stale graph file", graph="d", **rising)
    history("a clock that falls the wrong way, between commits without a row", seconds=dict(a=30, b=40, c=20, d=10), graph="cd", refused=15)
    history("generations never computed, and the clock falls", graph="abcd", levels=dict(a=0, b=0, c=0, d=0))
    history("generations never computed, and it does not", graph="abcd", levels=dict(a=0, b=0, c=0, d=0), refused=15, **rising)
    history("a generation 0 in one row, and the clock does not fall", graph="abcd", levels=dict(a=0), refused=15, **rising)
    history("a generation 0 in one row that is not reached", tips="b", graph="abcd", levels=dict(a=0), refused=15, **rising)
    history("generations that rise", graph="abcd", levels=dict(a=4, b=1, c=2, d=1), refused=15)
    history("a cycle", links=dict(a="b", b="c", c="a"), refused=15)
    history("a cycle that a hidden tip reaches", tips="d", hidden="a", links=dict(a="b", b="c", c="a"), refused=15)
    history("a commit that names itself", links=dict(a="b", b="c", c="d", d="d"), refused=15)
    history("an excluded tip whose pair does not fall", tips="au", barred="u", refused=15, seconds=dict(a=40, b=30, u=35, v=35), links=dict(a="b", u="v"))
    # the order
    odds = dict(graph="abcd", rows=dict(b=(None, None, 31)))
    history("13 before 14", gone="d", refused=13, **odds)
    history("14 before 15", refused=14, levels=dict(a=0), **rising, **odds)
    history("13 before 15", gone="d", refused=13, seconds=dict(a=30, b=30, c=20, d=10))
    history("7 before 13", tips="ax", gone="d", settings=by_time, refused=7)
    history("8 before 13", tips="ax", gone="d", bodies=dict(x=b""), settings=by_time, refused=8)
    for k, what in enumerate(BUFFERS):
        chain = History(**CHAIN, gone="d")
        sizes = sizes_for(len(chain.pair.store) // 48 + 1)
        sizes[k] -= 1
        chain.run("tested: 1 before 13, %s one short" % what, "a", lent=sizes, tested=True)
        assert lines(runs[-1])[1].startswith("refused 1 "), what


def git_files(example):
    """A history and a commit-graph file that git made, with real ids."""
    with open(os.path.join(example, "store"), "rb") as f, open(os.path.join(example, "graph"), "rb") as g:
        both = Pair({}, None, store=f.read(), graph=g.read())
    alone = Pair({}, None, store=both.store, graph=b"")
    by_time = sorted(both.files.bodies, key=lambda x: both.files.header(x).seconds)
    tip, merge, side, root = by_time[-1:], by_time[-3:-2], by_time[4:5], by_time[:1]
    case("git's files, breadth", both, tip)
    case("git's files, newest", both, tip, sorting=NEWEST)
    case("git's store, newest", alone, tip, sorting=NEWEST)
    case("git's files, First", both, tip, first=True)
    case("git's files, hide a merge, oldest", both, tip, merge, sorting=OLDEST)
    case("git's store, hide a side, newest", alone, tip + merge, side, sorting=NEWEST)
    case("git's files, tested", both, tip, tested=True)
    case("git's files, tested, hide a merge, newest", both, tip, merge, sorting=NEWEST, tested=True)
    case("git's store, tested: its clocks do not all fall", alone, tip, tested=True)
    case("git's store, tested, from the older half", alone, by_time[5:6], sorting=NEWEST, tested=True)
    case("git's files, bar the root, cutoff", both, merge, barred=root, sorting=CUTOFF_OLDEST, cutoff=both.files.header(side[0]).seconds)


def sample(_):
    """Some of the comparison's random cases."""
    rng = random.Random(1)
    for what, make, _, count, *draw in generate.FAMILIES:
        for k in range({"mixtures": 3, "wide merges": 1, "long histories": 1, "torn files": 1}.get(what, 2)):
            while True:
                c = next(iter(generate.random_cases(rng, make, 1, *draw)))
                long = what == "long histories"
                if len(c.pair.store) + len(c.pair.graph) > (20000 if long or what == "wide merges" else 3000) or not c.tips:
                    continue
                run = Run(family, "", c.pair, [b"".join(part) for part in (c.tips, c.hidden, c.barred)], c.sorting, c.cutoff, c.first, sizes_for(MOST_PLACES))
                refused, walk = opening(run, model.Walk)
                told = len(lines(run))
                if (walk is None and what == "torn files") or (walk is not None and walk.P <= MOST_PLACES and (refused or 5 < told < (160 if long else 30))):
                    break
            case("%s, %d" % (what, k + 1), c.pair, c.tips, c.hidden, c.barred, c.sorting, c.cutoff, c.first)


FAMILIES = [("document 01's runs", documents), ("orders, equal seconds, merges", orders), ("tips and excluded ids", tips), ("cutoffs and seconds", cutoffs),
            ("First", first), ("painting", painting), ("graph files", graphs), ("corrupt parent lists", corrupt), ("headers", headers), ("zones", zones),
            ("refused openings", refusals), ("tested openings", tested), ("files that git wrote", git_files), ("a sample of the comparison's", sample)]


def main(out, example):
    global family
    for family, make in FAMILIES:
        make(example)
    told = [lines(run) for run in runs]
    for what, _ in FAMILIES:
        mine = [t for run, t in zip(runs, told) if run.family == what]
        print("%-32s %4d cases %5d lines" % (what, len(mine), sum(map(len, mine))))
    for kind in slips.ALL + slips.ZONES + slips.TESTED:
        apart = sum(lines(run, kind) != t for run, t in zip(runs, told) if run.tested == (kind in slips.TESTED))
        print("a walk that %s: %d" % (kind.__doc__, apart))
        assert apart, kind
    data, text = b"".join(run.bytes() for run in runs), "".join(line + "\n" for t in told for line in t)
    with open(os.path.join(out, "stdin"), "wb") as f:
        f.write(data)
    with open(os.path.join(out, "stdout"), "w") as f:
        f.write(text)
    print(len(runs), "cases,", len(data), "bytes,", text.count("\n"), "lines,", len(text), "bytes of output")


if __name__ == "__main__":
    main(*sys.argv[1:])
