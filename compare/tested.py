"""tested.py LIBRARY.so: the tested opening (card 1) of the static library, made into a shared one, beside model.py's, over histories of each kind that it
has to tell apart and over the families of generate.py. Prints how many came to each result; ends with status 1 if anything differs.

- Every byte that is promised: the result; record and numbers; parents, and the other lent memory after 1 to 8; nothing beside a lent buffer. After a
  refusal a call says 12 and alters nothing; after 13 to 15 the same memory serves a plain opening.
- An accepted opening leaves the record of a plain one, and each answer of its calls is the model's, in every field. The commits handed out are those of
  plain reachability, computed anew (compare.py): each once, then end, and no refusal.
- One lent buffer an element short: 1, after 2 to 6 and before all other refusals.
- The model beside a second one of the same words, by closing the relation of parents; and openings with one fault each (slips.py: TESTED), each of which
  some case must tell from the right one. `--alone` runs these two without a library.

Each with ids of 20 bytes and with ids of 32 (card 13).

Options: --seed N, --scale N (percent of the cases), --width N (one width alone), --alone; --program target/bin/runs: the same cases through the program `runs` (tools/program runs), each printed
line beside the model's, but for those that its buffers have no room for.

    tools/staticlib
    make -C bindings/c shared
    python3 compare/tested.py target/c/liblinenhatch.so
"""
import argparse
import collections
import random
import subprocess
import sys

import generate
import library as plain
import model
import slips
from compare import expected, third_demand
from generate import CUTOFF_NEWEST, SHA1, Case, Pair

TESTED = (13, 14, 15)
PAIRS, CASES = 340, 7  # files of each kind, and lists and settings for each
SHARE = 40             # percent of the families of generate.py


# ---- histories of each kind: (pair, names, seconds, strangers, how often a list names a stranger), as the families of generate.py

class Made:
    """A history whose clock falls, which each kind alters; commit 0 is the newest, and no commit but the last is without parents."""

    def __init__(self, rng, width, least=3, most=14):
        n = rng.randrange(least, most)
        self.rng, self.width, self.names = rng, width, generate.some_ids(rng, n + 1, width)
        self.stranger = self.names.pop()
        self.links = generate.some_links(rng, n)
        for i in range(n - 1):
            self.links[i] = self.links[i] or [i + 1]
        self.seconds = generate.some_seconds(rng, n, "falling")
        self.bodies, self.rows, self.edges = None, None, ()

    def built(self):
        if self.bodies is None:
            self.bodies = generate.bodies_of(self.names, self.links, self.seconds, self.width)
        return self.bodies

    def deep(self):
        """A commit, likelier an old one."""
        return max(self.rng.randrange(len(self.names)), self.rng.randrange(len(self.names)))

    def child(self, least=1):
        """A commit with so many parents."""
        some = [i for i, parents in enumerate(self.links) if len(parents) >= least]
        if not some:
            self.links[0] = (list(range(1, len(self.names))) + [1, 1])[:least]
            some = [0]
        return self.rng.choice(some)

    def graph(self, levels=None, start=0):
        levels = generate.levels_of(self.links) if levels is None else levels
        self.rows = generate.agreeing_rows(self.names, self.links, self.seconds, levels, range(start, len(self.names)))
        return self.rows

    def maybe(self):
        self.rows = generate.maybe_graph(self.rng, self.names, self.links, self.seconds)

    def done(self):
        return Pair(self.built(), self.rows, self.edges, width=self.width), self.names, self.seconds, (), 0


def good(h):
    h.maybe()


def stale(h):
    """A graph file of the older commits alone, which agrees."""
    h.graph(start=h.rng.randrange(1, len(h.names) + 1))


def unreadable(h):
    h.maybe()
    at = h.deep()
    h.built()[h.names[at]] = generate.damaged(h.rng, [h.names[p] for p in h.links[at]], h.seconds[at], h.width)


def crowded(h):
    """256 parents, or 257; repeats count."""
    at = h.child()
    h.links[at] = (h.links[at] * 257)[:h.rng.choice([256, 257])]
    if h.rng.randrange(2) and len(h.links[at]) == 256:
        h.graph()


def absent(h):
    """A parent that neither file has, or that the graph alone has."""
    h.maybe()
    if h.rng.randrange(2):
        del h.built()[h.names[h.deep()]]
    else:
        at = h.child(0)
        h.built()[h.names[at]] = model.formats.body([h.names[p] for p in h.links[at]] + [h.stranger], h.seconds[at], width=h.width)


def other_parents(h):
    at = h.child()
    parents, level, seconds = h.graph()[h.names[at]]
    h.rows[h.names[at]] = (h.rng.choice([parents[1:], parents[:-1], parents + parents[:1], parents[:-1] + [h.rng.choice(h.names)]]), level, seconds)


def other_order(h):
    at = h.child(2)
    parents, level, seconds = h.graph()[h.names[at]]
    h.rows[h.names[at]] = (parents[1:] + parents[:1], level, seconds)


def other_seconds(h):
    at = h.deep()
    parents, level, seconds = h.graph()[h.names[at]]
    h.rows[h.names[at]] = (parents, level, (seconds + h.rng.choice([1, -1, 2 ** 32, 2 ** 33])) % generate.SECONDS_OF_A_ROW)


def far_seconds(h):
    """Seconds that a row cannot hold."""
    at = h.deep()
    h.seconds[at] += h.rng.choice([2 ** 34, -2 ** 34])
    h.graph()


def corrupt(h):
    h.rows, h.edges = generate.corrupt_rows(h.rng, h.graph())


def equal_pair(h):
    """A commit with the seconds of a parent; with a graph file, the level too."""
    at = h.child()
    parent = h.rng.choice(h.links[at])
    h.seconds[at] = h.seconds[parent]
    if h.rng.randrange(2):
        h.graph()
        if h.rng.randrange(2):
            h.rows[h.names[at]] = (*h.rows[h.names[at]][:1], h.rows[h.names[parent]][1], h.seconds[at])


def turned(h):
    at = h.child()
    h.seconds[at] = h.seconds[h.rng.choice(h.links[at])] - h.rng.choice([1, 2, 100])


def rising(h):
    """A clock that falls from a parent to its child; no graph file."""
    turned(h)


def rising_with_levels(h):
    """The same with a graph file, of all or of the older commits."""
    turned(h)
    h.seconds = [abs(t) for t in h.seconds]
    h.graph(start=h.rng.choice([0, h.rng.randrange(len(h.names))]))


def wrong_levels(h):
    """A level that is at most that of a parent, or none under 1; the clock falls."""
    h.graph()
    at = h.child()
    parents, level, seconds = h.rows[h.names[at]]
    low = min(h.rows[parent][1] for parent in parents)
    h.rows[h.names[at]] = (parents, h.rng.choice([low, max(1, low - 1), level + 1, 0x3FFFFFFF]), seconds)


def never_computed(h):
    """Levels 0 in all rows or in one, with a clock that falls or not."""
    if h.rng.randrange(2):
        turned(h)
        h.seconds = [abs(t) for t in h.seconds]
    levels = generate.levels_of(h.links)
    levels = [0] * len(levels) if h.rng.randrange(2) else levels[:-1] + [0]
    h.graph(levels)


def cycle(h):
    at = h.rng.randrange(1, len(h.names))
    h.links[at] = h.links[at] + [h.rng.randrange(at)]
    if h.rng.randrange(2):
        h.graph([len(h.names) - i for i in range(len(h.names))])


def itself(h):
    at = h.deep()
    h.links[at] = h.links[at] + [at]
    if h.rng.randrange(2):
        h.graph([len(h.names) - i for i in range(len(h.names))])


def two_faults(h):
    """Two of 13, 14 and 15, in different commits."""
    turned(h)
    h.seconds = [abs(t) for t in h.seconds]
    what = h.rng.randrange(1, 4)
    h.graph([0] * len(h.names))
    if what & 1:
        at = h.deep()
        parents, level, seconds = h.rows[h.names[at]]
        h.rows[h.names[at]] = (parents, level, seconds ^ 1)
    if what & 2:
        del h.built()[h.names[h.deep()]]


KINDS = [good, stale, unreadable, crowded, absent, other_parents, other_order, other_seconds, far_seconds, corrupt, equal_pair, rising, rising_with_levels,
         wrong_levels, never_computed, cycle, itself, two_faults]
# what each has to come to, besides being accepted
MEETS = {good: [], stale: [], unreadable: [13], crowded: [13], absent: [13], other_parents: [14], other_order: [14], other_seconds: [14], far_seconds: [14], corrupt: [14],
         equal_pair: [15], rising: [15], rising_with_levels: [15], wrong_levels: [15], never_computed: [15], cycle: [15], itself: [15], two_faults: [13, 14, 15]}


def apart(rng, width):
    """A good history and one at fault, of any kind but the good ones, side by side in one store: which of the two a list names decides."""
    here, there = Made(rng, width), Made(rng, width)
    while set(here.names + [here.stranger]) & set(there.names + [there.stranger]):
        there = Made(rng, width)
    rng.choice(KINDS[2:])(there)
    if there.edges or any(isinstance(row[0], tuple) for row in (there.rows or {}).values()):
        there.rows, there.edges = None, ()
    rows = None
    if there.rows is not None:
        rows = here.graph()
        rows.update(there.rows)
    pair = Pair({**here.built(), **there.built()}, rows, width=width)
    return here, there, pair


def bad_part(rng, how, width):
    here, there, pair = apart(rng, width)

    def some(h, counts=(1, 1, 2)):
        return [rng.choice(h.names[:3]) for _ in range(rng.choice(counts))]

    for _ in range(CASES):
        sorting, cutoff, first = rng.randrange(5), rng.choice(here.seconds), rng.random() < 0.3
        if how == "excluded":
            bad = some(there)
            yield Case(pair, some(here) + bad, some(here, (0, 1)), bad, sorting, cutoff, first)
        elif how == "hidden":
            yield Case(pair, some(here), some(there), (), sorting, cutoff, first)
        elif how == "turned away":
            tips = some(here) + some(there)
            yield Case(pair, tips, (), (), rng.choice([CUTOFF_NEWEST, CUTOFF_NEWEST + 1]), max(there.seconds) + rng.choice([-1, 0, 1]), first)
        else:
            yield Case(pair, some(here, (0, 1, 2)), some(here, (0, 1)), some(there, (0, 1)), sorting, cutoff, first)


PARTS = {"excluded": "excluded tip whose reach is bad", "hidden": "hidden tip whose reach is bad", "turned away": "tip that the cutoff turns away",
         "not reached": "faults that nothing reaches"}


def families(seed, scale, width=SHA1):
    def share(n):
        return max(1, n * scale // 100)

    for kind in KINDS:
        rng = generate.seeded("%d %s" % (seed, kind.__name__), width)

        def family(rng, width, kind=kind):
            h = Made(rng, width)
            kind(h)
            return h.done()

        yield kind.__name__.replace("_", " "), MEETS[kind], (case for _ in range(share(PAIRS)) for case in generate.random_cases(rng, family, CASES, width=width))
    for how, name in PARTS.items():
        rng = generate.seeded("%d %s" % (seed, how), width)
        yield name, [] if how == "not reached" else list(TESTED), (case for _ in range(share(PAIRS)) for case in bad_part(rng, how, width))
    yield "document 01's runs", [], [case for _, case, _, _ in generate.named_runs(width)]
    for name, family, pairs, *how in generate.FAMILIES:
        rng = generate.seeded("%d tested %s" % (seed, name), width)
        yield name, [], (case for _ in range(share(pairs * SHARE // 100)) for case in generate.random_cases(rng, family, *how, width=width))


# ---- a second opinion on the model

def closed(case):
    """The number by another way: the relation of parents between all ids that are named, closed by squaring; None, or 13 to 15."""
    files = case.pair.files
    ids = sorted(set(files.bodies).union(case.tips, case.hidden, *(files.header(name).ids for name in files.bodies)))
    bit = {name: 1 << k for k, name in enumerate(ids)}
    good = {name for name in files.bodies if files.header(name).fault() is None}
    to = {name: bit[name] | sum({bit[p] for p in (files.header(name).ids if name in good else ())}) for name in ids}
    grown = True
    while grown:
        further = {name: union(to[other] for other in ids if to[name] & bit[other]) for name in ids}
        grown, to = further != to, further
    met = union(to[name] for name in case.tips + case.hidden)
    met = [name for name in ids if met & bit[name]]
    if not good.issuperset(met):
        return 13
    graph = files.graph
    place = {} if graph is None else files.places

    def row(name):
        parents = graph.parents(place[name])
        return None if parents is None else ([graph.names[p] for p in parents], graph.seconds(place[name]))

    if any(row(name) != (files.header(name).ids, files.header(name).seconds) for name in met if name in place):
        return 14
    zero = graph is not None and any(graph.level(k) == 0 for k in range(graph.n))

    def key(name):
        level = model.NO_ROW_LEVEL if zero or name not in place else graph.level(place[name])
        return level * 2 ** 64 + files.header(name).seconds

    return 15 if any(key(parent) >= key(name) for name in met for parent in files.header(name).ids) else None


def union(words):
    out = 0
    for word in words:
        out |= word
    return out


# ---- the run

def listed(lib, case, answers):
    """None, or what is wrong with the library's own list, beside plain reachability."""
    if lib.open(case, tested=True) != 0:
        return "not accepted again"
    record = bytes(lib.record.part)
    if lib.open(case) != 0 or record != bytes(lib.record.part):
        return "another record than a plain opening's"
    lib.open(case, tested=True)
    got = []
    for a in answers:
        result = lib.next()
        got.append(model.Answer.__new__(model.Answer))
        got[-1].kind = {0: "commit", plain.ENDED: "end"}.get(result, "error")
        got[-1].name = bytes(lib.id.part)
    return None if third_demand(case, got) else "not the commits of plain reachability"


def again(lib, case):
    """None, or what differs where the memory that a refusal of 13 to 15 left is lent to a plain opening."""
    lib.open(case, tested=True)
    result = lib.open(case, memory=lib.memory)
    return "memory left by a refusal does not serve a plain opening: %d" % result if result != 0 else None


def short(lib, case, refused, rng):
    """None, or what differs where one lent buffer is an element short; "in order 2 to 6, 1" """
    number = refused if refused in range(2, 7) else 1
    which = rng.randrange(6)
    result = lib.open(case, tested=True, short=which)
    if which < 5 and not lib.places:  # nothing is asked for
        return None
    return plain.refused(lib, result, number)


def judged(lib, case, refused, answers, rng):
    """None, or what differs between library and model."""
    found = plain.fault(lib, case, tested=True) or plain.without_room(lib, case, tested=True)
    if not found and refused is None:
        found = listed(lib, case, answers)
    if not found and refused in TESTED:
        found = again(lib, case)
    return found or (short(lib, case, refused, rng) if rng.random() < 0.2 else None)


def run(lib, seed, scale, width):
    rng = random.Random(seed)
    total, told, bad = collections.Counter(), collections.Counter(), 0
    if width != SHA1:
        print("\nWith ids of %d bytes\n" % width)
    print("| kind | cases | accepted | 13 | 14 | 15 | 4 to 8 |\n|---|---|---|---|---|---|---|")
    for name, meets, cases in families(seed, scale, width):
        met = collections.Counter()
        for case in cases:
            _, answers, walk = expected(case, model.Tested)
            refused = walk.refused
            met[refused] += 1
            found = None
            if refused not in range(2, 9) and closed(case) != refused:
                found = "the model: %s for %s" % (refused, closed(case))
            if refused is None and third_demand(case, answers) is not True or refused in TESTED and third_demand(case, ()) is not None:
                found = "the model: accepted is not what the third demand supposes"
            if found is None and lib is not None:
                found = judged(lib, case, refused, answers, rng)
            if refused not in range(2, 9):
                told.update(slip for slip in slips.TESTED if case.walk(slip).refused != refused)
            if found:
                bad += 1
                if bad <= 5:
                    print("%s, case %d: %s" % (name, sum(met.values()), found))
        layout = sum(met[k] for k in range(2, 9))
        print("| %s | %d | %d | %d | %d | %d | %d |" % (name, sum(met.values()), met[None], met[13], met[14], met[15], layout))
        for number in meets:
            if not met[number] and scale >= 5:
                bad += 1
                print("%s: no case comes to %d" % (name, number))
        total.update(met)
    early = sum(total[k] for k in range(2, 9))
    print("| **all** | %d | %d | %d | %d | %d | %d |" % (sum(total.values()), *(total[k] for k in (None, *TESTED)), early))
    print("\n| an opening that | told apart in |\n|---|---|")
    for slip in slips.TESTED:
        print("| %s | %d |" % (slip.__doc__.split("\n")[0], told[slip]))
        bad += not told[slip]
    print("%d cases, %d differ" % (sum(total.values()), bad))
    return 1 if bad else 0


def through(program, seed, scale):
    """The cases through the program `runs`, some thousands at a time."""
    import make_runs
    done = bad = 0

    def held(runs):
        out = subprocess.run([program], input=b"".join(run.bytes() for run in runs), stdout=subprocess.PIPE, check=True).stdout.decode()
        got, wanted = out.split("\n# "), "".join(line + "\n" for run in runs for line in make_runs.lines(run)).split("\n# ")
        return sum(x != y for x, y in zip(got, wanted)) + abs(len(got) - len(wanted))

    for name, _, cases in families(seed, scale):
        runs = []
        for case in cases:
            lists = [b"".join(part) for part in (case.tips, case.hidden, case.barred)]
            room = make_runs.sizes_for(make_runs.MOST_PLACES)
            run = make_runs.Run(name, "%s, %d" % (name, len(runs)), case.pair, lists, case.sorting, case.cutoff, case.first, room, True)
            places = case.walk(model.Tested).P
            if places <= make_runs.MOST_PLACES and len(case.pair.store) + len(case.pair.graph) + sum(map(len, lists)) < 65000:
                run.lent = make_runs.sizes_for(places)
                runs.append(run)
        done, bad = done + len(runs), bad + held(runs)
    print("%d cases through the program, %d differ" % (done, bad))
    return 1 if bad else 0


def main():
    options = argparse.ArgumentParser(usage=__doc__)
    options.add_argument("library", nargs="?")
    options.add_argument("--alone", action="store_true")
    options.add_argument("--program")
    options.add_argument("--seed", type=int, default=1)
    options.add_argument("--scale", type=int, default=100)
    options.add_argument("--width", type=int, choices=model.formats.WIDTHS)
    options = options.parse_args()
    if options.program:
        return through(options.program, options.seed, options.scale)
    if not options.alone and not options.library:
        print("which library? (or --alone)")
        return 2
    library = None if options.alone else plain.Library(options.library)
    return max([run(library, options.seed, options.scale, width) for width in ((options.width,) if options.width else model.formats.WIDTHS if options.alone else plain.widths())])


if __name__ == "__main__":
    sys.exit(main())
