"""hiding.py [LIBRARY.so]: hiding adds up (card 14). Draws histories of generate.py with tips, excluded ids and settings, and two hidden lists each, and
runs model.py, and the library if it is given, with the first list, the second, both joined, the joined list mixed and repeated, and the first with
one tip more. Where the premises of a tested opening hold with the joined list (compare.py's test of them, computed anew from the book):
- the runs left by both are those left by the first that are left by the second too;
- the mixed list, of up to 1,024 ids, leaves the same runs;
- one tip more adds no run and takes away only runs that it reaches, at most as many as it reaches;
- beside the card's words: what is left stands in the order of each list that it is left of.
Where they do not hold nothing is asked, but it is counted how often the card's sentences would fail: the cases could show it.

    python3 compare/hiding.py
    python3 compare/hiding.py target/c/liblinenhatch.so

Options: --seed N, --scale N (percent), --width N (one width alone; else ids of 20 bytes and of 32). Ends with status 1 if a sentence fails under the premises, or no case without them would show it.
"""
import argparse
import ctypes
import sys

import generate
from compare import expected, third_demand
from generate import Case
from model import reach

# name, histories, pairs of files, triples for each
FAMILIES = [
    ("falling clocks", generate.by_clock("falling"), 1500, 6),
    ("skewed clocks", generate.by_clock("skewed"), 1500, 6),
    ("drifting clocks", generate.by_clock("drifting"), 1500, 6),
    ("equal clocks", generate.by_clock("equal"), 800, 6),
    ("extreme clocks", generate.by_clock("extreme"), 500, 6),
    ("close pairs in painting", generate.close_pairs, 1500, 6),
    ("absent commits", generate.absent, 300, 6),
    ("corrupt parent lists", generate.corrupt, 300, 6),
    ("long histories", generate.long, 15, 4),
]
CARD = {"both", "same ids", "one more"}


class Model:
    name = "model.py"

    def widths(self):
        return generate.formats.WIDTHS

    def runs(self, case):
        """The ids handed out up to the end, or None where the opening or a call is refused."""
        _, answers, walk = expected(case)
        if walk.refused is not None or any(a.kind == "error" for a in answers):
            return None
        return [a.name for a in answers if a.kind == "commit"]


class Shared:
    name = "the library"

    def __init__(self, path):
        import library  # asked for only where one is given
        self.made, self.library = library, library.Library(path)

    def widths(self):
        return self.made.widths()

    def runs(self, case):
        """Its own buffers are lent longer than it asks for."""
        if self.library.open(case, self.made.RECORD + 8, 16) != 0:
            return None
        self.library.seconds, out = self.made.Buffer(ctypes.c_int64, 4), []
        while True:
            result = self.library.next()
            if result == self.made.ENDED:
                return out
            if result != 0:
                return None
            out.append(bytes(self.library.id.part))


def hide(case, hidden):
    return Case(case.pair, case.tips, hidden, case.barred, case.sorting, case.cutoff, case.first)


def some_hidden(rng, names):
    """0 to 3 ids, the older ones likelier, now and then one twice."""
    out = [names[max(rng.randrange(len(names)), rng.randrange(len(names)))] for _ in range(rng.choices([0, 1, 2, 3], [1, 8, 5, 2])[0])]
    return out + [rng.choice(out)] if out and rng.random() < 0.15 else out


def mixed(rng, ids):
    """The same ids in another order, repeated: mostly a few times, now and then up to 1,024 ids."""
    if not ids:
        return []
    more = rng.choice([0, 1, 2, 3]) if rng.random() < 0.97 else 1024 - len(ids)
    out = ids + [rng.choice(ids) for _ in range(more)]
    rng.shuffle(out)
    return out


def failing(runs, case, first, second, other, tip):
    """The sentences that fail: of what `runs` gives with both lists joined, each alone, the mixed one, and the first with one tip more."""
    both, one, two, same = (runs(hide(case, h)) for h in (first + second, first, second, other))
    more = runs(hide(case, first + [tip]))
    if None in (both, one, two, same, more):
        return ["refused"]
    reached, lost, out = reach(case.pair.files, [tip]), set(one) - set(more), []
    if set(both) != set(one) & set(two):
        out.append("both")
    if set(same) != set(both) or len(same) != len(both):
        out.append("same ids")
    if not set(more) <= set(one) or not lost <= reached or len(one) - len(more) > len(reached):
        out.append("one more")
    if both != [x for x in one if x in set(both)] or both != [x for x in two if x in set(both)] or same != both or more != [x for x in one if x in set(more)]:
        out.append("order")
    return out


def premises(case):
    """Do the premises of a tested opening hold? (None of 1 to 8 applies, and compare.py's test.)"""
    _, answers, walk = expected(case)
    return walk.refused is None and third_demand(case, answers) is not None


def run(ways, seed, scale, width):
    """Whether a sentence fails under the premises, or no case without them would show it."""
    held = shown = bad = hid = 0
    without = {}
    print("| histories | triples | premises hold | and something is hidden | a sentence fails | without premises | a sentence would fail |\n|---|---|---|---|---|---|---|")
    for name, family, pairs, each in FAMILIES:
        rng = generate.seeded("hiding %d %s" % (seed, name), width)
        count = dict.fromkeys(("all", "held", "hid", "bad", "shown"), 0)
        for _ in range(max(1, pairs * scale // 100)):
            pair, names, seconds, strangers, stranger = family(rng, width)
            for _ in range(each):
                case = generate.some_case(rng, pair, names, seconds, strangers, stranger)
                first, second, tip = some_hidden(rng, names), some_hidden(rng, names), rng.choice(names)
                # the tip that is added is asked for too: the premises are those with the list joined to it
                holds = premises(hide(case, first + second)) and premises(hide(case, first + [tip]))
                other = mixed(rng, first + second)
                count["all"] += 1
                count["held"] += holds
                for way in ways if holds else ways[:1]:
                    fails = failing(way.runs, case, first, second, other, tip)
                    if not holds:
                        count["shown"] += bool(CARD & set(fails))
                        for sentence in fails:
                            without[sentence] = without.get(sentence, 0) + 1
                    elif fails:
                        count["bad"] += 1
                        if bad + count["bad"] <= 5:
                            print("%s, %s, triple %d: %s" % (way.name, name, count["all"], ", ".join(fails)))
                if holds:
                    count["hid"] += ways[0].runs(hide(case, [])) != ways[0].runs(hide(case, first + second))
        print("| %s | %d | %d | %d | %d | %d | %d |" % (name, count["all"], count["held"], count["hid"], count["bad"], count["all"] - count["held"], count["shown"]))
        held, shown, bad, hid = held + count["held"], shown + count["shown"], bad + count["bad"], hid + count["hid"]
    by = " and ".join(way.name for way in ways)
    print("\nwithout the premises: " + ", ".join("%s %d" % (sentence, without[sentence]) for sentence in sorted(without)))
    print("by %s: %d triples under the premises, %d of them with something hidden, %d fail; without them %d would fail" % (by, held, hid, bad, shown))
    return bool(bad or not shown)


def main():
    options = argparse.ArgumentParser(usage=__doc__)
    options.add_argument("library", nargs="?")
    options.add_argument("--seed", type=int, default=1)
    options.add_argument("--scale", type=int, default=100)
    options.add_argument("--width", type=int, choices=generate.formats.WIDTHS)
    options = options.parse_args()
    ways, told = [Model()] + ([Shared(options.library)] if options.library else []), []
    for width in (options.width,) if options.width else ways[-1].widths():
        if told:
            print("\nWith ids of %d bytes\n" % width)
        told.append(run(ways, options.seed, options.scale, width))
    return any(told)


if __name__ == "__main__":
    sys.exit(main())
