"""compare.py DRIVER: runs the cases of generate.py through the driver and through model.py and compares every answer. Prints the tables of
README.md; ends with status 1 if the driver and the model differ anywhere, or a check of the model fails.

--seed N      other random cases
--scale N     N percent of the random cases
--random      without the exhaustive families
--ours        the driver is our library, not the crate: also files with a level 0, which the crate takes as the lowest (card 6)
--keep FILE   also writes a tenth of the cases to FILE, as the driver reads them
"""
import argparse
import collections
import random
import subprocess
import sys

import definitions
import generate
import model
import shrink
import slips
from generate import CUTOFF_NEWEST, NONE, TOP

BATCH = 1000
NAMED = "sample history and skewed clock"
SORTINGS = ["breadth first", "newest first", "oldest first", "cutoff, newest first", "cutoff, oldest first"]


# ---- both sides

def expected(case, kind=model.Walk):
    """The model's lines, its answers and the walk: calls until end was said twice."""
    walk = case.walk(kind)
    if walk.refused is not None:
        return ["open %d" % walk.refused], [], walk
    walk.tips_admitted = walk.admitted
    answers, ends = [], 0
    while ends < 2:
        answers.append(walk.next())
        ends += answers[-1].kind == "end"
        if len(answers) > walk.P + 4:
            break
    return ["open"] + [a.text() for a in answers], answers, walk


def driven(driver, cases, options=()):
    """The driver's lines for each (case, number of calls)."""
    out = subprocess.run([driver, *options], input=b"".join(case.bytes(calls) for case, calls in cases), stdout=subprocess.PIPE, check=True).stdout
    blocks = out.decode().split("\n\n")
    assert blocks.pop() == "" and len(blocks) == len(cases)
    return [block.split("\n") for block in blocks]


def differs(driver, options=(), others=False, within=None):
    """A test for one case, for making it smaller: the answers differ, or even sorted differ; and it breaks no other clause of the domain."""
    def test(case):
        lines, answers, walk = expected(case)
        if within is not None and not outside(case, walk) <= within:
            return False
        got = driven(driver, [(case, len(answers))], options)[0]
        return sorted(got) != sorted(lines) if others else got != lines
    return test


def agrees(walk, answers, opening, others):
    """The model's opening and answers and those of the transcribed definitions, in every field."""
    if (walk.refused is None) != (opening[0] == "opened") or walk.refused not in (None, opening[1]):
        return False
    for a, b in zip(answers, others):
        kind = {"commit": ("commit", a.name, a.level, a.seconds), "error": ("error", a.number), "end": ("end",)}[a.kind]
        if (kind, tuple(a.parents), a.zone, a.admitted, a.struck, a.waiting) != b:
            return False
    return len(answers) == len(others)


# ---- document 01's domain

def facts(pair):
    """What of the domain depends on the files alone."""
    if hasattr(pair, "facts"):
        return pair.facts
    files, out = pair.files, set()
    named = set()
    for name in files.bodies:
        header = files.header(name)
        named.update(header.ids)
        if header.fault() == 10:
            out.add("a bad header")
        if header.fault() == 11:
            out.add("over 256 parents")
    graph = files.graph
    if graph is not None:
        for place in range(files.count):
            first, second = graph.word(place, 0), graph.word(place, 1)
            words, over = [word for word in (first, second if second < TOP else NONE) if word != NONE], False
            if second >= TOP:
                at, count = second - TOP, 1
                while 4 * at + 4 <= len(graph.edge):
                    word = int.from_bytes(graph.edge[4 * at:4 * at + 4], "big")
                    words.append(word & ~TOP)
                    at, count = at + 1, count + 1
                    if word & TOP or count > 300:
                        break
                over = count > 256
            if any(word >= files.count for word in words):
                out.add("a graph position of at least N")
            if over:
                out.add("over 256 parents")
    pair.facts = out, named
    return pair.facts


def outside(case, walk):
    """The clauses of document 01's domain that the case breaks."""
    files = case.pair.files
    out, named = facts(case.pair)
    out = set(out)
    if case.hidden and any(name not in files.bodies and files.row(name) is None for name in named.union(case.tips, case.hidden)):
        out.add("an absent commit under hiding")
    if case.first and case.sorting and walk.refused is None and walk.tips_admitted > 1:
        out.add("several tips under First and a time order")
    if walk.ties:
        out.add("equal keys in a queue")
    return out


# ---- checks of the model by document 01's statements

def sum_holds(answers, walk):
    """"admitted = handed + refused commits + struck by painting + waiting; and from an opening, call P + 2 at latest says end" """
    used = 0
    for number, answer in enumerate(answers):
        if answer.kind == "commit" or (answer.kind == "error" and answer.struck < answer.admitted):
            used += 1
        if answer.admitted != used + answer.struck + answer.waiting or (number >= walk.P + 1 and answer.kind != "end"):
            return False
    return True


def third_demand(case, answers):
    """None where the third demand's premise does not hold, else whether what it says does. Reachability is computed anew, from the book."""
    files = case.pair.files

    def reach(starts, links):
        out, todo = set(), list(starts)
        while todo:
            name = todo.pop()
            if name not in out:
                out.add(name)
                todo += links(name)
        return out

    def lines(name):
        header = files.header(name)
        return header.ids if header is not None and header.fault() is None else []

    def pair(name):
        row = files.row(name)
        return model.NO_ROW_LEVEL if row is None else row[1], files.header(name).seconds

    everyone = reach(case.tips + case.hidden, lines)
    if any(files.header(name) is None or files.header(name).fault() is not None for name in everyone):
        return None
    for name in everyone:
        row = files.row(name)
        if row is not None and (row is model.CORRUPT or [p for p, _ in row[0]] != lines(name) or row[2] != files.header(name).seconds):
            return None
    if any(not pair(parent) < pair(name) for name in everyone for parent in lines(name)):
        return None
    barred, cutoff = set(case.barred), case.cutoff if case.sorting >= CUTOFF_NEWEST else None
    tips = [tip for tip in case.tips if tip not in barred]
    turned = {tip for tip in tips if cutoff is not None and files.header(tip).seconds < cutoff}

    def admitted(name):
        for parent in lines(name)[:1] if case.first else lines(name):
            if parent not in barred and parent not in turned and (case.first or cutoff is None or files.header(parent).seconds >= cutoff):
                yield parent

    wanted = reach([tip for tip in tips if tip not in turned], admitted) - reach(case.hidden, lines)
    first = answers[:len(wanted)]
    return {a.name for a in first if a.kind == "commit"} == wanted and all(a.kind == "end" for a in answers[len(wanted):])


# ---- the run

class Tally:
    def __init__(self):
        self.zero = 0
        self.cases = self.calls = self.inside = self.outside = self.layout = self.differ = self.heap_inside = self.heap_outside = 0


class Run:
    def __init__(self, driver, seed, scale, small, ours=False):
        self.driver, self.seed, self.scale, self.small, self.ours = driver, seed, scale, small, ours
        self.tallies = {}
        self.clauses = collections.Counter()
        self.clause_differs = collections.Counter()
        self.seen = collections.Counter()
        self.found, self.heap_found = [], {}
        self.failed, self.kept, self.draw = [], [], random.Random(seed)

    def family(self, name, cases):
        tally, batch = self.tallies.setdefault(name, Tally()), []
        for case in cases:
            batch.append((case, *expected(case)))
            if len(batch) == BATCH:
                self.batch(name, tally, batch)
                batch = []
        if batch:
            self.batch(name, tally, batch)

    def batch(self, name, tally, batch):
        cases = [(case, len(answers)) for case, _, answers, _ in batch]
        stable, heap = driven(self.driver, cases), driven(self.driver, cases, ["--plain-heap"])
        for (case, lines, answers, walk), got, other in zip(batch, stable, heap):
            tally.cases += 1
            tally.calls += len(answers)
            self.note(case, answers, walk)
            layout = walk.refused in (4, 5, 6)
            broken = set() if layout else outside(case, walk)
            self.clauses.update(broken)
            tally.layout += layout
            tally.outside += bool(broken)
            tally.inside += not layout and not broken
            # "Runs beside the crate keep to files without a zero": there only model and definitions are held against each other
            zero = not self.ours and not case.pair.files.levelled
            tally.zero += zero
            if zero:
                got = other = lines
            if got != lines:
                tally.differ += 1
                self.found.append((name, case, sorted(broken)))
            if other != lines:
                tally.heap_outside += bool(broken)
                tally.heap_inside += not broken
                self.clause_differs.update(broken)
                if len(broken) < 2:
                    # the order of equals changes the list's order, or which commits are listed
                    what = min(broken, default="inside the domain"), sorted(got) != sorted(other)
                    self.heap_found.setdefault(what, []).append(case)
            if walk.refused is None:
                if not sum_holds(answers, walk):
                    self.failed.append(("sum", case))
                held = third_demand(case, answers)
                if held is not None:
                    self.seen["third demand's premise holds"] += 1
                    if not held:
                        self.failed.append(("third demand", case))
            if name == NAMED or self.draw.random() < (0.5 if name == "close pairs in painting" else 0.1):
                self.kept.append((case, got, len(answers)))
            if not agrees(walk, answers, *definitions.answers(case, len(answers))):
                self.failed.append(("definitions", case))

    def note(self, case, answers, walk):
        seen = self.seen
        seen["%s, %s" % (SORTINGS[case.sorting], "First" if case.first else "All")] += 1
        if walk.refused is not None:
            seen["refusal %d" % walk.refused] += 1
            return
        for number in {a.number for a in answers if a.kind == "error"}:
            seen["refusal %d" % number] += 1
        if case.hidden and walk.tips_admitted:
            seen["painted"] += 1
            seen["a frontier that is not empty"] += bool(walk.frontier)
        seen["commits handed out"] += sum(a.kind == "commit" for a in answers)
        seen["commits handed out from the graph"] += sum(a.kind == "commit" and a.level is not None for a in answers)
        seen["graph dropped"] += not walk.kept

    def all(self):
        for what, case, names, wanted in generate.named_runs():
            self.family(NAMED, [case])
            back = {name: str(key) for key, name in names.items()}
            got = [back[a.name] if a.kind == "commit" else "!%d" % a.number for a in expected(case)[1] if a.kind != "end"]
            if got != wanted:
                self.failed.append(("run %s gives %s" % (what, got), case))
        for name, family, pairs, *how in generate.FAMILIES:
            rng = random.Random("%d %s" % (self.seed, name))
            count = max(1, pairs * self.scale // 100)
            self.family(name, (case for _ in range(count) for case in generate.random_cases(rng, family, *how)))
        if self.small:
            self.family("all of three commits", generate.small_three())
            self.family("all of four commits", generate.small_four())

    def slips(self):
        """How many of some kept cases tell a faulty walk from the driver's answers."""
        out = []
        for kind in slips.ALL:
            told = sum(expected(case, kind)[0] != got for case, got, _ in self.kept)
            out.append((kind.__doc__, told))
        return out

    # ---- what is printed

    def report(self):
        print("seed %d, scale %d\n" % (self.seed, self.scale))
        print("| family | cases | calls | inside | outside | layout refused | level 0, not beside the crate | differ | plain heap differs, inside | plain heap differs, outside |")
        print("|---|---|---|---|---|---|---|---|---|---|")
        total = Tally()
        for name, t in list(self.tallies.items()) + [("all", total)]:
            print("| %s | %d | %d | %d | %d | %d | %d | %d | %d | %d |" % (
                name, t.cases, t.calls, t.inside, t.outside, t.layout, t.zero, t.differ, t.heap_inside, t.heap_outside))
            for field in vars(total) if t is not total else ():
                setattr(total, field, getattr(total, field) + getattr(t, field))
        print("\n| outside by (a case may break several) | cases | plain heap differs |\n|---|---|---|")
        for clause, count in sorted(self.clauses.items()):
            print("| %s | %d | %d |" % (clause, count, self.clause_differs[clause]))
        print("\n| met | |\n|---|---|")
        for what, count in sorted(self.seen.items()):
            print("| %s | %d |" % (what, count))
        print("\n| a walk that | told apart in, of %d cases |\n|---|---|" % len(self.kept))
        for what, told in self.slips():
            print("| %s | %d |" % (what, told))
        for what, case in self.failed[:10]:
            print("\nFAILED: %s\n%s" % (what, shrink.text(case)))
        for name, case, broken in self.found[:10]:
            small = shrink.smallest(case, differs(self.driver, within=set(broken)))
            print("\nDIFFERS (%s; outside by: %s)\n%s" % (name, ", ".join(broken) or "nothing", self.both(small)))
        for (clause, others), found in sorted(self.heap_found.items()):
            test = differs(self.driver, ["--plain-heap"], others, {clause})
            small = min((shrink.smallest(case, test) for case in sorted(found, key=shrink.size)[:5]), key=shrink.size)
            what = "lists other commits" if others else "lists in another order"
            print("\nThe plain heap %s (%s)\n%s" % (what, clause, self.both(small, ["--plain-heap"])))
        bad = bool(self.found or self.failed)
        print("\n%d cases, %d calls: driver and model differ in %d; checks of the model failed: %d" % (
            total.cases, total.calls, len(self.found), len(self.failed)))
        return bad

    def both(self, case, options=()):
        lines, answers, _ = expected(case)
        got = driven(self.driver, [(case, len(answers))], options)[0]
        return "%smodel: %s\ndriver: %s" % (shrink.text(case), "; ".join(shrink.short(case, lines)), "; ".join(shrink.short(case, got)))


def main():
    parser = argparse.ArgumentParser()
    parser.add_argument("driver")
    parser.add_argument("--seed", type=int, default=1)
    parser.add_argument("--scale", type=int, default=100)
    parser.add_argument("--random", action="store_true")
    parser.add_argument("--ours", action="store_true")
    parser.add_argument("--keep", metavar="FILE")
    given = parser.parse_args()
    run = Run(given.driver, given.seed, given.scale, not given.random, given.ours)
    run.all()
    if given.keep:
        with open(given.keep, "wb") as file:
            file.write(b"".join(case.bytes(calls) for case, _, calls in run.kept))
    sys.exit(run.report())


if __name__ == "__main__":
    main()
