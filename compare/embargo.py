"""embargo.py LIBRARY.so: embargoed readings (card 10), on pairs of stores side by side. Draws histories of generate.py with messages of every kind, a list of
embargoed ids, and for each store a second one that differs from it only in feed digits of embargoed commits; by the static library, made into a shared
one, the outside reader's report and every answer of the walk must be the same over both, byte for byte: the report's number and numbers, and of an
opening and each call the result, the record, the id, the numbers, the seconds and all of parents.

What differs is drawn in every place that the card allows: in readings, in ones that are unreadable or given twice, in those of commits that are hidden,
excluded or not reached. The shop's reader is asked too, and must be given another report over some pairs, else the pairs would show nothing; and so must an
outside reader from whom nothing is withheld. Each report is compared with model.py's too.

Whether a pair is one is tested anew, from the card's words and not from how it was drawn.

    tools/staticlib
    make -C bindings/c shared
    python3 compare/embargo.py target/c/liblinenhatch.so

Prints how many came to each result; ends with status 1 if anything differs that must not. Options: --seed N, --scale N (percent),
--width N (one width alone; else ids of 20 bytes and of 32).
"""
import argparse
import collections
import ctypes
import sys

import generate
import model
from library import ENDED, Library, in_words, widths
from reports import Call, cases, same_graph, with_messages

PAIRS = 20000
STARTS = (model.CONE, model.BED)
MOST_CALLS = 3000


# ---- pairs

def spans(body):
    """Where the rest of each line that starts as a reading stands in a body: from and to."""
    text = model.message(body)
    at = len(body) - len(text)
    for line in text.split(b"\n"):
        for start in STARTS:
            if line.startswith(start):
                yield at + len(start), at + len(line)
        at += len(line) + 1


def other_digits(rng, body):
    """The body with other feed digits, as many."""
    out = bytearray(body)
    for first, last in spans(body):
        for at in range(first, last):
            if 48 <= out[at] <= 57 and rng.random() < 0.7:
                out[at] = rng.randrange(48, 58)
    return bytes(out)


def differ_only_in_feed(before, after, embargoed):
    """"two books differ only in feed digits of embargoed runs, of equal length, with all else alike": of the bodies by id."""
    if before.keys() != after.keys():
        return False
    for name, body in before.items():
        other = after[name]
        if body == other:
            continue
        if name not in embargoed or len(body) != len(other):
            return False
        allowed = {at for first, last in spans(body) for at in range(first, last)}
        if any(x != y and not (at in allowed and chr(x).isdigit() and chr(y).isdigit()) for at, (x, y) in enumerate(zip(body, other))):
            return False
    return True


def two_stores(rng, pair):
    """A pair of files with messages, the embargoed ids, and the pair with other feed digits in these."""
    one = with_messages(rng, pair, rng.choice([0, 0.05, 0.3, 0.8]))
    share = rng.choice((0.1, 0.5, 1))
    listed = [name for name in sorted(one.bodies) if rng.random() < share][:model.MOST_IDS]
    rng.shuffle(listed)
    two = same_graph(one, {name: other_digits(rng, body) if name in set(listed) else body for name, body in one.bodies.items()})
    return one, two, listed


def with_files(case, pair):
    return generate.Case(pair, case.tips, case.hidden, case.barred, case.sorting, case.cutoff, case.first)


# ---- what an outside reader is given

def answers(library, case):
    """All bytes that an opening and its calls give."""
    said = [(library.open(case), bytes(library.record.part), bytes(library.numbers.part))]
    parents = library.memory[5]
    for k in range(MOST_CALLS):
        ctypes.memset(parents.part, k & 255, parents.n)
        result = library.next()
        own = tuple(bytes(b.part) for b in (library.record, library.id, library.numbers, library.seconds, parents))
        said.append((result, own))
        if result == ENDED or said[0][0]:
            return said
    raise AssertionError("no end")


def reported(library, case, listed, outside):
    call = Call(library.lib, case)
    call.feed(6, 1, listed, outside)
    return call.said()


def wrong(library, one, two, listed, counted):
    """None, or what differs over the two cases."""
    lent = b"".join(listed)
    outside = [reported(library, case, lent, 1) for case in (one, two)]
    number, numbers, less = model.feed_report(one.walk(), lent, True)
    if outside[0] != outside[1] or outside[0] != (number, numbers, [less]):
        return "the outside reports are %s and %s, for %s" % (*outside, (number, numbers, [less]))
    if answers(library, one) != answers(library, two):
        return "the answers of the walk differ"
    shop = [reported(library, case, lent, 0) for case in (one, two)]
    for case, said in zip((one, two), shop):
        number, numbers, less = model.feed_report(case.walk(), lent, False)
        if said != (number, numbers, [less]):
            return "the shop's report is %s, for %s" % (said, (number, numbers, [less]))
    counted["outside %s" % (outside[0][0] or "whole")] += 1
    counted["the shop's reports differ"] += shop[0] != shop[1]
    counted["the shop's is refused by 21 or 22, the outside one is not"] += shop[0][0] in (21, 22) and outside[0][0] not in (21, 22)
    counted["not withheld, they differ"] += reported(library, one, b"", 1) != reported(library, two, b"", 1)
    return None


# ---- the run

def run(library, seed, wanted, width):
    """Whether something differs that must not, or nothing would show it."""
    rng, counted, bad, pairs = generate.seeded("embargo %d" % seed, width), collections.Counter(), 0, 0
    for pair, drawn in cases(rng, 10 ** 9, width):
        for case in rng.sample(drawn, 2):
            one, two, listed = two_stores(rng, pair)
            if one.store == two.store:
                continue
            assert differ_only_in_feed(one.bodies, two.bodies, set(listed))
            pairs += 1
            found = wrong(library, with_files(case, one), with_files(case, two), listed, counted)
            if found:
                bad += 1
                if bad <= 5:
                    print(found)
        if pairs >= wanted:
            break
    for what in sorted(counted):
        print("%s%s: %d" % (in_words(width), what, counted[what]))
    shown = all(counted[what] for what in ("the shop's reports differ", "not withheld, they differ", "the shop's is refused by 21 or 22, the outside one is not"))
    print("%s%d pairs of stores that differ: %d show it%s" % (in_words(width), pairs, bad, "" if shown else "; nothing would"))
    return bad or not shown


def main():
    options = argparse.ArgumentParser()
    options.add_argument("library")
    options.add_argument("--seed", type=int, default=1)
    options.add_argument("--scale", type=int, default=100)
    options.add_argument("--width", type=int, choices=generate.formats.WIDTHS)
    options = options.parse_args()
    library = Library(options.library)
    library.lib.linenhatch_feed.restype = ctypes.c_uint32
    return 1 if sum(bool(run(library, options.seed, max(1, PAIRS * options.scale // 100), width)) for width in widths(options.width)) else 0


if __name__ == "__main__":
    sys.exit(main())
