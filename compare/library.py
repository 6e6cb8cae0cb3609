"""library.py LIBRARY.so: runs the cases of generate.py through the static library, made into a shared one, and through model.py, and
compares every field of every answer, every byte of parents, and the memory around each lent buffer. Prints a line for each family; ends
with status 1 if anything differs. Every family is run with ids of 20 bytes and with ids of 32 (card 13), and so are files of the other width than is
said. Options: --seed N, --scale N (percent of the random cases), --width N (one width alone).

    tools/staticlib
    make -C bindings/c shared
    python3 compare/library.py target/c/liblinenhatch.so
"""
import argparse
import ctypes
import itertools
import sys

import generate
import model
from compare import expected

import formats
from formats import SHA1

ENDED, NO_ROOM, CLOSED = 100, 101, 12
GUARD = 0x5C
MOST_PLACES = 20000  # a torn graph file may claim any number of commits; it is refused before memory is asked for
RECORD, NUMBERS, SECONDS = 20, 8, 2  # words
OTHERS = itertools.cycle((20, 0, 20, 1, 19, 20, 21, 31, 20, 33, 40, 2 ** 31, 20, 2 ** 32 - 1))  # "32 is SHA-256, any other number SHA-1"


def widths(asked=None):
    """The widths that a run compares."""
    return (asked,) if asked else formats.WIDTHS


def width_words(width):
    """The first parameter of a call."""
    return [ctypes.c_uint32(next(OTHERS) if width == SHA1 else width)]


def in_words(width):
    """Before a line that is printed."""
    return "" if width == SHA1 else "ids of %d bytes, " % width


def memory_sizes(width, places):
    """What is lent: kinds and lengths. "names 20·P bytes, marks P bytes, levels P u32, times P i64, line 5·P u32, parents 5,120 bytes"; "buffers follow" the width. """
    times = (ctypes.c_uint8, width), (ctypes.c_uint8, 1), (ctypes.c_uint32, 1), (ctypes.c_int64, 1), (ctypes.c_uint32, 5)
    return [(kind, n * places) for kind, n in times] + [(ctypes.c_uint8, formats.parents_size(width))]


class Buffer:
    """A lent buffer of n elements, filled with GUARD, and 16 elements of it on either side that no call may alter."""

    def __init__(self, kind, n):
        self.n, self.all = n, (kind * (n + 32))()
        ctypes.memset(self.all, GUARD, ctypes.sizeof(self.all))
        self.part = (kind * n).from_buffer(self.all, 16 * ctypes.sizeof(kind))
        self.kind = kind

    def sound(self):
        size = 16 * ctypes.sizeof(self.kind)
        whole = bytes(self.all)
        return whole[:size] == whole[-size:] == bytes([GUARD]) * size

    def words(self):
        return [ctypes.cast(self.part, ctypes.c_void_p), ctypes.c_size_t(self.n)]


def lend(data):
    part = (ctypes.c_uint8 * max(1, len(data))).from_buffer_copy(data or b"\0")
    return [ctypes.cast(part, ctypes.c_void_p), ctypes.c_size_t(len(data))], part


class Library:
    def __init__(self, path):
        self.lib = ctypes.CDLL(path)
        self.lib.linenhatch_places.restype = ctypes.c_size_t
        self.lib.linenhatch_open.restype = self.lib.linenhatch_open_tested.restype = self.lib.linenhatch_next.restype = ctypes.c_uint32

    def open(self, case, record=RECORD, numbers=NUMBERS, tested=False, short=None, memory=None):
        """short: which buffer is lent one element less than its size, 0 for names to 5 for parents. memory: buffers to be lent again."""
        lists = [case.pair.store, case.pair.graph, b"".join(case.tips), b"".join(case.hidden), b"".join(case.barred)]
        lent = [lend(data) for data in lists]
        self.kept = [part for _, part in lent]
        store, graph, tips, hidden, barred = (words for words, _ in lent)
        order = {"breadth": 0, "newest": 1, "oldest": 2}[generate.ORDER[case.sorting]]
        settings = [ctypes.c_uint32(order), ctypes.c_uint32(case.sorting >= generate.CUTOFF_NEWEST), ctypes.c_int64(case.cutoff), ctypes.c_uint32(case.first)]
        self.width = case.width
        self.places = self.lib.linenhatch_places(*width_words(self.width), *store, *graph, *tips, *hidden)
        sizes = memory_sizes(self.width, min(self.places, MOST_PLACES))
        self.memory = memory or [Buffer(kind, max(0, n - (at == short))) for at, (kind, n) in enumerate(sizes)]
        self.record, self.id, self.numbers, self.seconds = Buffer(ctypes.c_uint64, record), Buffer(ctypes.c_uint8, self.width), Buffer(ctypes.c_uint64, numbers), Buffer(ctypes.c_int64, SECONDS)
        self.files = [*store, *graph, *hidden, *barred, *settings]
        memory = [w for b in self.memory for w in b.words()]
        call = self.lib.linenhatch_open_tested if tested else self.lib.linenhatch_open
        return call(*width_words(self.width), *store, *graph, *tips, *hidden, *barred, *settings, *memory, *self.record.words(), *self.numbers.words())

    def next(self):
        memory = [w for b in self.memory for w in b.words()]
        return self.lib.linenhatch_next(*width_words(self.width), *self.record.words(), *self.files, *memory, *self.id.words(), *self.numbers.words(), *self.seconds.words())

    def own(self):
        return [self.record, self.id, self.numbers, self.seconds]

    def unaltered(self, buffers):
        return all(set(bytes(b.all)) <= {GUARD} for b in buffers)

    def sound(self):
        return all(b.sound() for b in self.memory + self.own())


def without_room(library, case, tested=False):
    """None, or what differs where one of the library's own buffers is too short: that is said before all else, and nothing is altered."""
    for record, numbers in ((RECORD - 1, NUMBERS), (RECORD, 2), (0, 0)):
        result = library.open(case, record, numbers, tested)
        if result != NO_ROOM or not library.unaltered(library.own() + library.memory):
            return "opening without room: %d" % result
    opened = library.open(case)
    for name, kind, n in (("record", ctypes.c_uint64, RECORD - 1), ("id", ctypes.c_uint8, case.width - 1), ("numbers", ctypes.c_uint64, NUMBERS - 1), ("seconds", ctypes.c_int64, SECONDS - 1)):
        kept = getattr(library, name)
        before = [bytes(b.all) for b in library.memory + library.own()]
        setattr(library, name, Buffer(kind, n))
        result = library.next()
        short = getattr(library, name)
        setattr(library, name, kept)
        if result != NO_ROOM or not library.unaltered([short]) or before != [bytes(b.all) for b in library.memory + library.own()]:
            return "call without room for %s: %d" % (name, result)
    result = library.next()
    return "call after those without room: %d" % result if (result == CLOSED) != (opened != 0) else None


def refused(library, result, number):
    """None, or what differs after an opening that must be refused with a number. Card 1: after 13 to 15 the working memory, all lent but parents, is free."""
    kept = library.memory[5:] if number in (13, 14, 15) else library.memory
    untouched = all(set(bytes(b.part)) <= {GUARD} for b in kept) and set(bytes(library.numbers.part)[24:]) <= {GUARD}
    if result != number or list(library.numbers.part)[:3] != [0, 0, 0] or any(library.record.part) or not untouched or not library.sound():
        return "refused opening: %d for %d" % (result, number)
    before = [bytes(b.all) for b in library.memory + [library.record]]
    result = library.next()
    if result != CLOSED or any(library.numbers.part) or any(library.id.part) or any(library.seconds.part):
        return "call of a closed record: %d" % result
    return None if before == [bytes(b.all) for b in library.memory + [library.record]] else "memory altered by a call of a closed record"


def fault(library, case, tested=False):
    """None, or what differs."""
    _, answers, walk = expected(case, model.Tested if tested else model.Walk)
    result = library.open(case, tested=tested)
    parents, room = library.memory[5], formats.parents_size(case.width)
    numbers = list(library.numbers.part)
    if not library.sound():
        return "memory beside a buffer"
    if walk.refused is not None:
        return refused(library, result, walk.refused)
    if library.places != walk.P or result != 0 or numbers[:3] != [walk.tips_admitted, 0, walk.tips_admitted]:
        return "opening: %d, places %d for %d" % (result, library.places, walk.P)
    for k, a in enumerate(answers):
        ctypes.memset(parents.part, k & 255, room)
        result = library.next()
        got = (result, bytes(library.id.part), list(library.numbers.part), list(library.seconds.part), bytes(parents.part))
        wanted = (
            {"commit": 0, "end": ENDED, "error": a.number}[a.kind],
            a.name if a.kind == "commit" else bytes(case.width),
            [a.admitted, a.struck, a.waiting, len(a.parents), int(a.level is not None), a.level or 0, int(a.seconds is not None), int(a.zone is not None)],
            [a.seconds or 0, a.zone or 0],
            b"".join(a.parents) + bytes([k & 255]) * (room - case.width * len(a.parents)),
        )
        if got != wanted or not library.sound():
            return "call %d: %s for %s" % (k, got[:4], wanted[:4])
    return None


def families(seed, scale, width):
    """The cases of each family, drawn as they are asked for: a family is run before the next is drawn."""
    yield "sample history and skewed clock", [case for _, case, _, _ in generate.named_runs(width)]
    for name, family, pairs, *how in generate.FAMILIES + [("files of the other width", generate.other_width, 400, 4)]:
        rng = generate.seeded("%d %s" % (seed, name), width)
        yield name, (case for _ in range(max(1, pairs * scale // 100)) for case in generate.random_cases(rng, family, *how, width=width))


def main():
    options = argparse.ArgumentParser()
    options.add_argument("library")
    options.add_argument("--seed", type=int, default=1)
    options.add_argument("--scale", type=int, default=100)
    options.add_argument("--width", type=int, choices=formats.WIDTHS)
    options = options.parse_args()
    library = Library(options.library)
    bad = 0
    for width in widths(options.width):
        for name, cases in families(options.seed, options.scale, width):
            done = 0
            for case in cases:
                done += 1
                found = fault(library, case) or without_room(library, case)
                if found:
                    bad += 1
                    if bad <= 5:
                        print("%s%s, case %d: %s" % (in_words(width), name, done, found))
            print("%s%s: %d cases" % (in_words(width), name, done))
    print("%d differ" % bad)
    return 1 if bad else 0


if __name__ == "__main__":
    sys.exit(main())
