"""reports.py LIBRARY.so: the reports over a whole walk by the static library, made into a shared one, and by model.py's, on generated files:

- the feed report (cards 5 and 10): every number of it, over generate.py's histories with messages that hold readings, none, two of a kind, unreadable
  ones, and lines that only look so; faulty commits before and after a commit that the walk refuses, and commits that the graph alone has; for the shop's
  reader and for an outside one, with lists of embargoed ids. Pairs of stores that differ in embargoed readings are in embargo.py.
- the report by terms (card 9): each month of Python's calendar, to the second; and the same histories with seconds at the ends of months, good lists of terms and bad ones.

Each with ids of 20 bytes and with ids of 32 (card 13). Each call is also made with a buffer of the memory an element too short, with a ragged or oversize list (of tips and of embargoed ids), and without room
for what is reported. After 1 to 8, and after 24, no lent byte may be altered but the report's own; and no byte beside a buffer ever.

Prints how many came to each result; ends with status 1 if anything differs. Options: --seed N, --scale N (percent), --width N (one width alone), --feed or --terms alone.

    tools/staticlib
    make -C bindings/c shared
    python3 compare/reports.py target/c/liblinenhatch.so
"""
import argparse
import collections
import ctypes
import re
import sys

import generate
import model
from library import GUARD, MOST_PLACES, NO_ROOM, Buffer, in_words, lend, memory_sizes, width_words, widths

FEED, TERMS = 36000, 36000
FAMILIES = [family for _, family, pairs, *_ in generate.FAMILIES if pairs > 100] + [generate.wide]
CASES = 6  # of each pair of files


# ---- the library

class Call:
    """A report of one case. short: which buffer of the memory is lent an element less, None for none; tips: bytes in place of the case's."""

    def __init__(self, library, case, short=None, tips=None):
        lists = [case.pair.store, case.pair.graph, b"".join(case.tips) if tips is None else tips, b"".join(case.hidden), b"".join(case.barred)]
        lent = [lend(data) for data in lists]
        self.kept = [(part, data) for (_, part), data in zip(lent, lists)]
        words = [word for pair, _ in lent for word in pair]
        p = min(library.linenhatch_places(*width_words(case.width), *words[:8]), MOST_PLACES)
        order = {"breadth": 0, "newest": 1, "oldest": 2}[generate.ORDER[case.sorting]]
        settings = [ctypes.c_uint32(order), ctypes.c_uint32(case.sorting >= generate.CUTOFF_NEWEST), ctypes.c_int64(case.cutoff), ctypes.c_uint32(case.first)]
        self.memory = [Buffer(kind, max(0, n - (k == short))) for k, (kind, n) in enumerate(memory_sizes(case.width, p))]
        self.width, self.library, self.inputs, self.settings = case.width, library, words, settings

    def lent(self):
        return [word for b in self.memory for word in b.words()]

    def feed(self, numbers=6, difference=1, embargoed=b"", outside=0):
        words, part = lend(embargoed)
        self.kept.append((part, embargoed))
        self.own = [Buffer(ctypes.c_uint64, numbers), Buffer(ctypes.c_int64, difference)]
        self.result = self.library.linenhatch_feed(*width_words(self.width), *self.inputs, *self.settings, *words, ctypes.c_uint32(outside), *self.lent(), *(w for b in self.own for w in b.words()))
        return self.result

    def terms(self, terms, counts, outside=1):
        part = (ctypes.c_uint32 * max(1, len(terms)))(*terms)
        self.own = [Buffer(ctypes.c_uint64, counts), Buffer(ctypes.c_uint64, outside)]
        self.result = self.library.linenhatch_terms(*width_words(self.width), *self.inputs, *self.settings, ctypes.cast(part, ctypes.c_void_p), ctypes.c_size_t(len(terms)), *self.lent(),
                                                    *(w for b in self.own for w in b.words()))
        return self.result

    def said(self):
        return self.result, list(self.own[0].part), list(self.own[1].part)

    def sound(self):
        return all(b.sound() for b in self.memory + self.own) and all(bytes(part)[:len(data)] == data for part, data in self.kept)

    def as_lent(self, buffers):
        return all(set(bytes(b.all)) <= {GUARD} for b in buffers)


# ---- bodies

LOOKALIKES = [b"Cone-feed:5", b" Cone-feed: 5", b"cone-feed: 5", b"Cone-feed : 5", b"Bed-feed:", b"Bed-feed:7", b"xBed-feed: 7", b"Bed-Feed: 7", b"Cone-Bed-feed: 1", b"Cone-feed", b"\rCone-feed: 5"]
UNREADABLE = [b"", b" ", b"5 ", b" 5", b"5\r", b"-5", b"+5", b"5.0", b"1000000001", b"9999999999", b"00000000001", b"12345678901", b"x", b"5x", b"\0", b"0x10", b"5\t", b"/", b":", b"\xb2"]
READINGS = [0, 1, 9, 10, 999999999, 1000000000]


def digits(rng):
    n = rng.choice(READINGS) if rng.random() < 0.3 else rng.randrange(10 ** rng.randrange(1, 10))
    text = b"%d" % n
    return text.rjust(rng.randrange(len(text), 11), b"0") if rng.random() < 0.3 else text


def message(rng, faulty):
    """Lines after the first empty one: readings, and with a chance of `faulty` a fault."""
    lines = [rng.choice([b"words", b"", b"a: b", rng.choice(LOOKALIKES)]) for _ in range(rng.randrange(4))]
    for start in (model.CONE, model.BED):
        if rng.random() < 0.6:
            lines.append(start + digits(rng))
    if rng.random() < faulty:
        start = rng.choice((model.CONE, model.BED))
        lines.append(start + (rng.choice(UNREADABLE) if rng.random() < 0.7 else digits(rng)))
        if rng.random() < 0.3:
            lines.append(rng.choice((model.CONE, model.BED)) + rng.choice(UNREADABLE))
    rng.shuffle(lines)
    end = rng.choice([b"\n", b"\n", b"", b"\r\n" if rng.random() < faulty else b"\n"])
    return b"\n".join(lines) + end


def with_messages(rng, pair, faulty):
    """The same files with other messages; now and then a reading in the header, where it is none."""
    bodies = {}
    for name in sorted(pair.bodies):
        body = pair.bodies[name]
        if rng.random() < 0.9:
            if not body.endswith(b"\n\n") and rng.random() < 0.8:
                body += b"\n" if body.endswith(b"\n") else b"\n\n"
            if rng.random() < 0.05:
                body = body[:-1] + b"Cone-feed: 3\n\n" if body.endswith(b"\n\n") else b"Bed-feed: 4\n" + body
            body += message(rng, faulty)
        bodies[name] = body
    return same_graph(pair, bodies)


def same_graph(pair, bodies):
    torn = pair.torn_store is not None and pair.torn_store != generate.formats.store(pair.bodies)
    return generate.Pair(bodies, pair.rows, pair.edges, store=pair.torn_store if torn else None, graph=pair.torn_graph, width=pair.width)


# ---- seconds and terms

def a_second(rng, months):
    """A second at or beside the ends of a month, or any."""
    month = rng.choice(months) if rng.random() < 0.7 else rng.randrange(1560)
    first, last = model.month_seconds(month)
    return rng.choice([first - 1, first, first + 1, last - 1, last, last + 1, rng.randrange(first, last + 1), rng.randrange(-10 ** 10, 10 ** 10), -1, 0, 4102444799, 4102444800])


def good_terms(rng):
    """A good list: up to 24 terms, some of one month, some that touch."""
    count = rng.choice([0, 1, 1, 2, 3, 5, 12, 23, 24])
    span = rng.choice([2 * count + 1, 60, 1560])
    start = rng.choice([0, 1, 1560 - span, rng.randrange(1560 - span + 1)])
    ends = sorted(rng.sample(range(start, start + span), min(2 * count, span)))
    out = []
    for a, b in zip(ends[::2], ends[1::2]):
        if rng.random() < 0.3 and (not out or a > out[-1]):
            b = a
        elif out and rng.random() < 0.4:
            a = out[-1] + 1
        out += [a, b]
    return out


def some_terms(rng):
    """A list, good by three in four."""
    out = good_terms(rng)
    if rng.random() < 0.75 or not out:
        return out
    at = rng.randrange(len(out))
    return rng.choice([
        lambda: out[:-1], lambda: out + [out[-1] + 1], lambda: out[:at] + out[at + 1:], lambda: out[:at] + [1560] + out[at + 1:], lambda: out + [1559, 1560],
        lambda: out[::-1], lambda: out + out[-2:], lambda: out + [out[-1], out[-1] + 1], lambda: out + [out[-1] + 1, out[-1]], lambda: out[:at] + [2 ** 32 - 1] + out[at + 1:],
        lambda: [n for k in range(25) for n in (3 * k, 3 * k + 1)], lambda: [rng.randrange(2 ** 32) for _ in range(rng.randrange(60))],
    ])()


def with_seconds(rng, pair, months):
    """The same files with other seconds in the store; the graph may say others."""
    def other(found):
        return found.group(1) + b"%d" % a_second(rng, months)

    bodies = {name: re.sub(rb"(\ncommitter A <a> )-?[0-9]+", other, pair.bodies[name]) for name in sorted(pair.bodies)}
    rows = pair.rows
    if rows is not None and rng.random() < 0.6:  # the graph agrees
        rows = {name: (parents, level, second_of(bodies.get(name), seconds, pair.width)) for name, (parents, level, seconds) in rows.items()}
    return same_graph(generate.Pair(pair.bodies, rows, pair.edges, store=pair.torn_store, graph=pair.torn_graph, width=pair.width), bodies)


def second_of(body, seconds, width):
    header = model.Header(body, width) if body is not None else None
    return seconds if header is None or header.seconds is None else header.seconds % generate.SECONDS_OF_A_ROW


# ---- one case

def before_the_walk(wanted):
    return 1 <= wanted <= 8


def wrong_feed(library, rng, case):
    """None, or what differs; and the result."""
    listed, outside = some_embargoed(rng, case), rng.choice((0, 1, 1, 2, 0xFFFFFFFF))
    wanted = model.feed_report(case.walk(), listed, outside != 0)
    call = Call(library, case)
    call.feed(*rng.choice(((6, 1), (6, 1), (7, 2))), listed, outside)
    rest = [0x5C5C5C5C5C5C5C5C] * (len(call.own[0].part) - 6), [0x5C5C5C5C5C5C5C5C] * (len(call.own[1].part) - 1)
    said = wanted[0], wanted[1] + rest[0], [wanted[2]] + rest[1]
    if call.said() != said or not call.sound():
        return "%s for %s" % (call.said(), said), wanted
    if before_the_walk(wanted[0]) and not call.as_lent(call.memory):
        return "memory altered by %d" % wanted[0], wanted
    bad = rng.choice((b"x" * case.width * 1025, b"x" * (case.width * 1024 + 1), b"x" * (case.width - 1), listed + b"y", listed[:-1] or b"z"))
    call, number = Call(library, case), model.embargo_refusal(case.walk(), bad)
    call.feed(6, 1, bad, outside)
    if call.said() != (number, [0] * 6, [0]) or not call.sound() or not call.as_lent(call.memory):
        return "%s with an embargoed list of %d bytes, for %d" % (call.said(), len(bad), number), wanted
    said = refused_early(
        library, rng, case, wanted[0], lambda c: c.feed(6, 1, listed, outside), lambda c: c.feed(*rng.choice(((5, 1), (6, 0), (0, 0))), listed, outside), (6, 1))
    return said, wanted


def some_embargoed(rng, case):
    """A list of ids, some of them of the store, some none, some twice; often empty."""
    names = sorted(case.pair.bodies)
    share = rng.choice((0, 0.2, 0.5, 1))
    listed = [name for name in names if rng.random() < share]
    if listed and rng.random() < 0.3:
        listed.append(rng.choice(listed))
    if rng.random() < 0.2:
        listed.append(bytes(rng.randrange(256) for _ in range(case.width)))
    rng.shuffle(listed)
    return b"".join(listed[:model.MOST_IDS])


def wrong_terms(library, rng, case, terms):
    wanted = model.terms_report(terms, case.walk)
    n = len(terms) // 2
    call = Call(library, case)
    call.terms(terms, *rng.choice(((n, 1), (n, 1), (n + 1, 2), (24 + n, 1))))
    # "a number for each term, and 0 in every place past them"
    rest = [0] * (len(call.own[0].part) - n), [0x5C5C5C5C5C5C5C5C] * (len(call.own[1].part) - 1)
    said = wanted[0], wanted[1] + rest[0], [wanted[2]] + rest[1]
    if call.said() != said or not call.sound():
        return "%s for %s" % (call.said(), said), wanted
    if (before_the_walk(wanted[0]) or wanted[0] == 24) and not call.as_lent(call.memory):
        return "memory altered by %d" % wanted[0], wanted
    short = [(n, 0), (0, 0)] + [(n - 1, 1)] * (n > 0)
    return refused_early(library, rng, case, wanted[0], lambda c: c.terms(terms, n), lambda c: c.terms(terms, *rng.choice(short)), (n, 1)), wanted


def refused_early(library, rng, case, wanted, run, no_room, own):
    """None, or what differs where memory or room is too short, or a list is ragged or oversize: zeros, and no other byte altered."""
    zeros = [0] * own[0], [0] * own[1]
    first = wanted if wanted in (2, 4, 5, 6, 24) else 1
    call = Call(library, case, short=rng.randrange(6))
    run(call)
    if any(b.n == 0 for b in call.memory[:5]):
        first = wanted  # nothing of it can be lacking
    elif call.said() != (first, *zeros) or not call.sound() or not call.as_lent(call.memory):
        return "%s with memory too short, for %d" % (call.said(), first)
    tips, number = rng.choice(((b"x" * case.width * 1025, 2), (b"x" * (case.width - 1), 3), (b"".join(case.tips) + b"y", 3)))
    number = 24 if wanted == 24 else 2 if wanted == 2 else number
    call = Call(library, case, tips=tips)
    run(call)
    if call.said() != (number, *zeros) or not call.sound() or not call.as_lent(call.memory):
        return "%s with another list, for %d" % (call.said(), number)
    call = Call(library, case)
    no_room(call)
    if call.result != NO_ROOM or not call.as_lent(call.memory + call.own):
        return "%d without room" % call.result
    return None


# ---- the run

def cases(rng, count, width=generate.SHA1):
    """Cases over generate.py's files, made as many as asked for."""
    done = 0
    while done < count:
        pair, names, seconds, strangers, stranger = rng.choice(FAMILIES)(rng, width)
        yield pair, [generate.some_case(rng, pair, names, seconds, strangers, stranger) for _ in range(min(CASES, count - done))]
        done += CASES


def feeds(library, seed, count, width):
    rng, results, bad = generate.seeded("feeds %d" % seed, width), collections.Counter(), 0
    for pair, drawn in cases(rng, count, width):
        pair = with_messages(rng, pair, rng.choice([0, 0, 0, 0.05, 0.3]))
        for case in drawn:
            case.pair = pair
            found, wanted = wrong_feed(library, rng, case)
            results[wanted[0]] += 1
            results["runs"] += sum(wanted[1][:4])
            results["paired"] += wanted[1][0]
            if found:
                bad += 1
                if bad <= 5:
                    print("feed: %s" % found)
    return tell(width, "feed reports", results, bad)


def terms(library, seed, count, width):
    rng, results, bad = generate.seeded("terms %d" % seed, width), collections.Counter(), 0
    for pair, drawn in cases(rng, count, width):
        listed = some_terms(rng)
        pair = with_seconds(rng, pair, [m for m in listed if m < 1560] or [0])
        for case in drawn:
            case.pair = pair
            found, wanted = wrong_terms(library, rng, case, listed)
            results[wanted[0]] += 1
            results["runs"] += sum(wanted[1]) + wanted[2]
            results["outside"] += wanted[2]
            if found:
                bad += 1
                if bad <= 5:
                    print("terms %s: %s" % (listed, found))
    return tell(width, "reports by terms", results, bad)


def every_month(library, width):
    """A second before each month of Python's calendar, its first, its last, and one after: two of the four lie in it."""
    bad = 0
    for month in range(1560):
        first, last = model.month_seconds(month)
        bodies = {bytes([k + 1]) * width: generate.formats.body([bytes([k + 2]) * width] if k < 3 else [], at, width=width) for k, at in enumerate((first - 1, first, last, last + 1))}
        call = Call(library, generate.Case(generate.Pair(bodies, width=width), [b"\1" * width]))
        call.terms([month, month], 1)
        if call.said() != (0, [2], [2]):
            bad += 1
            print("month %d: %s" % (month, call.said()))
    print("%s1560 months, each with four commits at its ends: %d differ" % (in_words(width), bad))
    return bad


def tell(width, what, results, bad):
    numbers = {key: n for key, n in results.items() if isinstance(key, int)}
    print("%s%d %s: %s; %s; each with four calls more: %d differ" % (
        in_words(width), sum(numbers.values()), what, ", ".join("%s %d" % ("whole" if not key else "refused %d" % key, numbers[key]) for key in sorted(numbers)),
        ", ".join("%s %d" % (key, n) for key, n in results.items() if not isinstance(key, int)), bad))
    return bad


def main():
    options = argparse.ArgumentParser()
    options.add_argument("library")
    options.add_argument("--seed", type=int, default=1)
    options.add_argument("--scale", type=int, default=100)
    options.add_argument("--feed", action="store_true")
    options.add_argument("--terms", action="store_true")
    options.add_argument("--width", type=int, choices=generate.formats.WIDTHS)
    options = options.parse_args()
    library = ctypes.CDLL(options.library)
    library.linenhatch_places.restype = ctypes.c_size_t
    bad = 0
    for width in widths(options.width):
        if not options.terms:
            library.linenhatch_feed.restype = ctypes.c_uint32
            bad += feeds(library, options.seed, FEED * options.scale // 100, width)
        if not options.feed:
            library.linenhatch_terms.restype = ctypes.c_uint32
            bad += every_month(library, width)
            bad += terms(library, options.seed, TERMS * options.scale // 100, width)
    print("%d differ" % bad)
    return 1 if bad else 0


if __name__ == "__main__":
    sys.exit(main())
