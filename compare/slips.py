"""Walks with one fault each, to see that the cases tell them from the right one. The first four are document 01's slips. Those of ZONES alter
nothing but card 7's zone, which runs beside the crate leave out; those of TESTED nothing but card 1's tests at opening."""
import copy

import formats
from model import CORRUPT, HIDDEN, NO_ROW_LEVEL, STALE, VISIBLE, Tested, Walk, reach


class PoppedStale(Walk):
    """marks the popped commit STALE"""

    def paint(self):
        return painting(self, popped_stale=True)


class FirstHides(Walk):
    """takes First through hidden tips too"""

    def paint(self):
        return painting(self, first_hides=self.first)


class GraphSeconds(Walk):
    """takes a parent's seconds from the graph when the child came from the book"""

    def seconds_of(self, parent):
        row = self.files.row(parent) if self.kept else None
        return row[2] if row not in (None, CORRUPT) else super().seconds_of(parent)


class EdgeFromThird(Walk):
    """reads EDGE from the third parent"""

    def __init__(self, files, *rest):
        super().__init__(Shifted(files), *rest)


class Shifted:
    def __init__(self, files):
        self.__dict__.update(files.__dict__)
        self.files = files
        self.header = files.header

    def row(self, name):
        row = self.files.row(name)
        if row in (None, CORRUPT) or len(row[0]) < 3:
            return row
        return row[0][:1] + row[0][2:], row[1], row[2]

    def whole(self, name):
        parents, pair = self.files.whole(name)
        row = self.row(name)
        return (parents if row is None else [p for p, _ in row[0]]), pair


class ZeroLowest(Walk):
    """takes level 0 as the lowest level"""

    def __init__(self, files, *rest):
        super().__init__(levels_by(files, lambda level: level), *rest)


class ZeroRowAlone(Walk):
    """leaves out the level of a row with level 0 and uses the others"""

    def __init__(self, files, *rest):
        super().__init__(levels_by(files, lambda level: level or NO_ROW_LEVEL), *rest)


def levels_by(files, taken):
    other = copy.copy(files)
    other.rows, other.level = {}, lambda place: taken(files.graph.level(place))
    return other


class LastQueued(Walk):
    """among equals the last queued"""

    def goes_before(self, mine, other):
        return mine >= other if self.sorting == "newest" else mine <= other


class HiddenOnce(Walk):
    """queues a repeated hidden tip once"""

    def __init__(self, files, tips, hidden, *rest):
        super().__init__(files, tips, list(dict.fromkeys(hidden)), *rest)


class TurnedTipAdmitted(Walk):
    """forgets that a tip turned away by the cutoff is seen"""

    def open(self, tips):
        out = super().open(tips)
        self.seen = {name for name, _ in self.line}
        return out


class CutoffUnderFirst(Walk):
    """heeds the cutoff under First"""

    def visit(self, parent, seconds):
        if self.first and self.cutoff is not None and seconds < self.cutoff:
            self.seen.add(parent)
            return
        super().visit(parent, seconds)


class UnsortedWaiting(Walk):
    """paints the waiting commits in the line's order"""

    def paint(self):
        return painting(self, unsorted=True)


class SecondsBeforeLevels(Walk):
    """compares seconds before generations in painting"""

    def paint(self):
        return painting(self, turned=True)


class GraphKept(Walk):
    """takes up the graph again after a corrupt list"""

    def next(self):
        self.kept = True
        return super().next()


class RowZone(Walk):
    """gives the book's zone where the commit came from the graph"""

    def next(self):
        a = super().next()
        if a.kind == "commit" and self.kept and self.files.row(a.name) is not None and self.files.header(a.name) is not None:
            a.zone = self.zone_of(a.name)
        return a


class AuthorZone(Walk):
    """takes the zone of the author line"""

    def zone_of(self, name):
        if self.files.header(name).seconds is None:
            return None
        rest = formats.parent_lines(self.files.bodies[name][46:])[1]
        return (formats.committer_line(b"committer " + rest[7:]) or (None, None))[1]


class CountedZone(Walk):
    """reads no zone behind over 256 parents"""

    def zone_of(self, name):
        return None if self.files.header(name).crowded else super().zone_of(name)


class FirstWithoutZone(Walk):
    """reads no zone where First has stopped"""

    def zone_of(self, name):
        return None if self.first and self.files.header(name).ids else super().zone_of(name)


class SignLost(Walk):
    """loses the sign of a zone"""

    def zone_of(self, name):
        zone = super().zone_of(name)
        return None if zone is None else abs(zone)


class NoneAtUtc(Walk):
    """takes a zone of 0 minutes for none"""

    def zone_of(self, name):
        return super().zone_of(name) or None


class HiddenUntested(Tested):
    """tests nothing that hidden tips alone reach"""

    def looked_at(self, tips):
        return reach(self.files, tips)


class BarredUntested(Tested):
    """leaves excluded tips out of the test"""

    def looked_at(self, tips):
        return reach(self.files, [tip for tip in tips if tip not in self.barred] + self.hidden)


class TurnedUntested(Tested):
    """leaves tips that the cutoff turned away out of the test"""

    def looked_at(self, tips):
        return reach(self.files, [name for name, _ in self.line] + [tip for tip in tips if tip in self.barred] + self.hidden)


class FirstTested(Tested):
    """tests along first parents alone under First"""

    def looked_at(self, tips):
        if not self.first:
            return super().looked_at(tips)
        out, todo = set(), list(tips) + self.hidden
        while todo:
            name = todo.pop()
            if name not in out:
                out.add(name)
                todo += self.links(name)[:1] if self.readable(name) else []
        return out

    def links(self, name):
        return super().links(name)[:1] if self.first else super().links(name)


class AllTested(Tested):
    """tests every commit of the store, reached or not"""

    def looked_at(self, tips):
        return super().looked_at(tips) | reach(self.files, self.files.bodies)


class OrderOfParentsFree(Tested):
    """compares parents without their order"""

    def agrees(self, name):
        row, header = self.files.row(name), self.files.header(name)
        if row in (None, CORRUPT):
            return row is None
        return sorted(parent for parent, _ in row[0]) == sorted(header.ids) and row[2] == header.seconds


class SecondsNotCompared(Tested):
    """compares no seconds of rows"""

    def agrees(self, name):
        row = self.files.row(name)
        return row is None or row is not CORRUPT and [parent for parent, _ in row[0]] == self.files.header(name).ids


class ParentsNotCompared(Tested):
    """compares no parents of rows"""

    def agrees(self, name):
        row = self.files.row(name)
        return row is None or row is not CORRUPT and row[2] == self.files.header(name).seconds


class CorruptPasses(Tested):
    """takes a corrupt list for no row"""

    def agrees(self, name):
        return self.files.row(name) is CORRUPT or super().agrees(name)

    def pair(self, name):
        return (NO_ROW_LEVEL, self.files.header(name).seconds) if self.files.row(name) is CORRUPT else super().pair(name)


class RowForAbsent(Tested):
    """takes a commit that the graph alone has as readable"""

    def readable(self, name):
        return super().readable(name) or name not in self.files.bodies and self.files.row(name) is not None

    def agrees(self, name):
        return name not in self.files.bodies or super().agrees(name)

    def links(self, name):
        return [parent for parent in super().links(name) if parent in self.files.bodies] if name in self.files.bodies else []


class CrowdedPasses(Tested):
    """takes a commit of over 256 parents as readable"""

    def readable(self, name):
        header = self.files.header(name)
        return header is not None and header.fault() in (None, 11)

    def agrees(self, name):
        return self.files.header(name).crowded or super().agrees(name)

    def links(self, name):
        return [] if self.files.header(name).crowded else [p for p in super().links(name) if not self.files.header(p).crowded]


class EqualPairPasses(Tested):
    """accepts a pair that is equal along a link"""

    def falls(self, name, parent):
        return self.pair(parent) <= self.pair(name)


class SelfPasses(Tested):
    """looks over a commit that names itself"""

    def falls(self, name, parent):
        return parent == name or super().falls(name, parent)


class SecondsAlone(Tested):
    """compares seconds and no levels"""

    def falls(self, name, parent):
        return self.pair(parent)[1] < self.pair(name)[1]


class LevelsAlone(Tested):
    """compares levels and no seconds"""

    def falls(self, name, parent):
        return self.pair(parent)[0] < self.pair(name)[0]


class ZeroTested(Tested):
    """takes level 0 as the lowest level"""

    def pair(self, name):
        row = self.files.row(name)
        return (NO_ROW_LEVEL if row is None else self.files.graph.level(self.files.places[name])), self.files.header(name).seconds


class FirstFaultDecides(Tested):
    """tests commit by commit, so that the first at fault decides the number"""

    def test(self, tips):
        for name in sorted(self.looked_at(tips)):
            if not self.readable(name):
                return 13
            if not self.agrees(name):
                return 14
            if any(self.readable(parent) and self.agrees(parent) and not self.falls(name, parent) for parent in self.links(name)):
                return 15
        return None


def painting(walk, popped_stale=False, first_hides=False, unsorted=False, turned=False):
    marks, read, queue = {}, {}, []

    def give(name, passed):
        if name not in marks:
            parents, pair = walk.files.whole(name)
            read[name] = parents[:1] if first_hides else parents, pair[::-1] if turned else pair
        marks[name] = marks.get(name, 0) | passed
        at = len(queue)
        while at > 0 and read[name][1] > queue[at - 1][0]:
            at -= 1
        queue.insert(at, (read[name][1], name))

    waiting = [name for name, _ in walk.line]
    for name in waiting if unsorted else sorted(waiting):
        give(name, VISIBLE)
    for name in walk.hidden:
        give(name, HIDDEN)
    while any(not marks[name] & STALE for _, name in queue):
        name = queue.pop(0)[1]
        passed = marks[name]
        if passed == VISIBLE | HIDDEN:
            passed |= STALE
            if popped_stale:
                marks[name] |= STALE
        for parent in read[name][0]:
            if marks.get(parent, 0) & passed != passed:
                give(parent, passed)
    return {name for name, has in marks.items() if has & VISIBLE and has & HIDDEN}


ALL = [PoppedStale, FirstHides, GraphSeconds, EdgeFromThird, LastQueued, HiddenOnce, TurnedTipAdmitted, CutoffUnderFirst, UnsortedWaiting,
       SecondsBeforeLevels, GraphKept, ZeroLowest, ZeroRowAlone]
ZONES = [RowZone, AuthorZone, CountedZone, FirstWithoutZone, SignLost, NoneAtUtc]
TESTED = [HiddenUntested, BarredUntested, TurnedUntested, FirstTested, AllTested, OrderOfParentsFree, SecondsNotCompared, ParentsNotCompared, CorruptPasses,
          RowForAbsent, CrowdedPasses, EqualPairPasses, SelfPasses, SecondsAlone, LevelsAlone, ZeroTested, FirstFaultDecides]
