"""The definitions of crates/walk/specs (Settings, Lookup, State, Opening, Painting, Next, Calls), transcribed by hand: function by function,
under their own names, with sets of ids as frozensets. The two files are read by tools/formats.py, as in model.py.

So what the definitions say runs over the same cases as the driver and the model, in every field of an answer.
"""
from typing import NamedTuple

from model import CORRUPT, formats

BREADTH, NEWEST, OLDEST, CUTOFF_NEWEST, CUTOFF_OLDEST = range(5)
NO_GENERATION = 0xFFFFFFFF


class OutOfFuel(Exception):
    """Painting would have taken more turns than a walk's fuel."""


class Settings(NamedTuple):
    sorting: int
    cutoff: int
    first: bool


class Walk(NamedTuple):
    world: object
    settings: Settings
    excluded: frozenset
    hidden: list
    fuel: int


class State(NamedTuple):
    queue: tuple = ()
    seen: frozenset = frozenset()
    frontier: frozenset = frozenset()
    painted: bool = False
    kept: bool = True
    admitted: int = 0
    struck: int = 0


class Answer(NamedTuple):
    kind: tuple
    parents: tuple
    zone: object
    admitted: int
    struck: int
    waiting: int


class Paint(NamedTuple):
    vis: frozenset = frozenset()
    hid: frozenset = frozenset()
    stale: frozenset = frozenset()
    pending: tuple = ()


class Marks(NamedTuple):
    v: bool
    h: bool
    s: bool


VISIBLE, HIDDEN = Marks(True, False, False), Marks(False, True, False)


# ---- Settings

def timed(sorting):
    return sorting != BREADTH


def cutoff_of(settings):
    return settings.cutoff if settings.sorting in (CUTOFF_NEWEST, CUTOFF_OLDEST) else None


def not_before(cutoff, t):
    return cutoff is None or not t < cutoff


def by_time(settings):
    return timed(settings.sorting) and not settings.first


def sooner(sorting, a, b):
    if sorting == BREADTH:
        return False
    return b < a if sorting in (NEWEST, CUTOFF_NEWEST) else a < b


def goes_before(settings, a, b):
    return sooner(settings.sorting, a, b) if by_time(settings) else False


def followed(settings, ids):
    return ids[:1] if settings.first else ids


# ---- Lookup

def store_seconds(w, x):
    h = w.header(x)
    return None if h is None else h.seconds


def seconds_for(w, x):
    t = store_seconds(w, x)
    return 0 if t is None else t


def lt_pair(a, b):
    return True if a[0] < b[0] else (a[1] < b[1] if a[0] == b[0] else False)


def from_store(h):
    """("fail", number) or ("good", parents, pair)"""
    if h is None:
        return "fail", 9
    if not h.tree:
        return "fail", 10
    if h.crowded:
        return "fail", 11
    if not h.author:
        return "fail", 10
    if h.seconds is None:
        return "fail", 10
    return "good", h.ids, (NO_GENERATION, h.seconds)


def read(w, x):
    r = w.row(x)
    if r is None:
        return from_store(w.header(x))
    if r is CORRUPT:
        return "fail", 10
    ps, level, s = r
    return "good", [p for p, _ in ps], (level, s)


# ---- State

def queued(before, x, queue):
    for k, y in enumerate(queue):
        if before(x[1], y[1]):
            return queue[:k] + (x,) + queue[k:]
    return queue + (x,)


def enter(w, x, t, queue):
    return queued(lambda a, b: goes_before(w.settings, a, b), (x, t if by_time(w.settings) else 0), queue)


def sees(st, x):
    return st._replace(seen=st.seen | {x})


def waits(w, st, x, t):
    return st._replace(queue=enter(w, x, t, st.queue), seen=st.seen | {x}, admitted=st.admitted + 1)


# ---- Opening

def P(files, tips, hidden):
    return len(tips) + len(hidden) + len(files.store) // formats.parent_line(files.width) + files.count


def distinct(had, excluded, ids):
    out = []
    for x in ids:
        if not (x in had or x in excluded):
            out.append(x)
            had = had | {x}
    return out


def tips_in(w, ids, st):
    """("closed", number) or ("opened", state)"""
    for x in ids:
        if not timed(w.settings.sorting):
            st = waits(w, st, x, 0)
            continue
        h = w.world.header(x)
        if h is None:
            return "closed", 7
        if h.seconds is None:
            return "closed", 8
        st = waits(w, st, x, h.seconds) if not_before(cutoff_of(w.settings), h.seconds) else sees(st, x)
    return "opened", st


def open_walk(case):
    """The walk and its opening, with lent memory in full; the lists are whole ids and nothing is oversize."""
    files = case.pair.files
    w = Walk(files, Settings(case.sorting, case.cutoff, case.first), frozenset(case.barred), case.hidden, 4 * P(files, case.tips, case.hidden))
    if files.fault is not None:
        return w, ("closed", files.fault)
    return w, tips_in(w, distinct(frozenset(), w.excluded, case.tips), State())


# ---- Painting

class Stop(Exception):
    pass


def add_pending(p, x, pending):
    for k, y in enumerate(pending):
        if lt_pair(y[0], p):
            return pending[:k] + ((p, x),) + pending[k:]
    return pending + ((p, x),)


def mark(w, m, x, st):
    r = read(w, x)
    if r[0] == "fail":
        raise Stop(r[1])
    also = lambda given, f: f | {x} if given else f  # noqa: E731
    return Paint(also(m.v, st.vis), also(m.h, st.hid), also(m.s, st.stale), add_pending(r[2], x, st.pending))


def mark_all(w, m, ids, st):
    for x in ids:
        st = mark(w, m, x, st)
    return st


def lacks(m, x, st):
    return (m.v and x not in st.vis) or (m.h and x not in st.hid) or (m.s and x not in st.stale)


def pass_on(w, m, ids, st):
    for x in ids:
        if lacks(m, x, st):
            st = mark(w, m, x, st)
    return st


def passed(st, x):
    return Marks(x in st.vis, x in st.hid, x in st.stale or (x in st.vis and x in st.hid))


def fresh(stale, pending):
    return any(x not in stale for _, x in pending)


def turn(w, st):
    if not st.pending:
        return st
    (_, x), rest = st.pending[0], st.pending[1:]
    r = read(w, x)
    return pass_on(w, passed(st, x), [] if r[0] == "fail" else r[1], st._replace(pending=rest))


def turns(w, fuel, st):
    for _ in range(fuel):
        if not fresh(st.stale, st.pending):
            return st
        st = turn(w, st)
    if fresh(st.stale, st.pending):
        raise OutOfFuel()
    return st


def paint(w, fuel, waiting, hidden):
    return turns(w, fuel, mark_all(w, HIDDEN, hidden, mark_all(w, VISIBLE, sorted(waiting), Paint())))


# ---- Next

def step(kind, parents, st):
    return Answer(kind, tuple(parents), None, st.admitted, st.struck, len(st.queue)), st


def zoned(z, s):
    return s[0]._replace(zone=z), s[1]


def admits(w, x, t):
    return x not in w.excluded and (w.settings.first or not_before(cutoff_of(w.settings), t))


def visit(w, st, x, t):
    if x in st.frontier or x in st.seen:
        return st
    return waits(w, st, x, t) if admits(w, x, t) else sees(st, x)


def visit_all(w, st, parents):
    for x, t in parents:
        st = visit(w, st, x, t)
    return st


def queued_seconds(w, t):
    return t if by_time(w.settings) else None


def level_shown(level):
    return None if level == NO_GENERATION else level


def from_row(w, st, x, t, ps, level):
    f = followed(w.settings, ps)
    return step(("commit", x, level_shown(level), queued_seconds(w, t)), [p for p, _ in f], visit_all(w, st, f))


def ending(settings, h):
    if not h.tree:
        return 10
    if settings.first and h.ids:
        return None
    if h.crowded:
        return 11
    return None if h.author else 10


def zone_shown(r, z):
    return z if r is None else None


def from_body(w, st, x, t, h):
    if h is None:
        return step(("error", 9), [], st)
    f = followed(w.settings, h.ids)
    r = ending(w.settings, h)
    kind = ("commit", x, None, queued_seconds(w, t)) if r is None else ("error", r)
    return zoned(zone_shown(r, h.zone), step(kind, f, visit_all(w, st, [(p, seconds_for(w.world, p)) for p in f])))


def back(w, x, rest):
    return queued(lambda a, b: goes_before(w.settings, a, b), x, rest) if by_time(w.settings) else (x,) + rest


def take_store(w, st, queue):
    if not queue:
        return step(("end",), [], st)
    x, rest = queue[0], queue[1:]
    return from_body(w, st._replace(queue=rest), x[0], x[1], w.world.header(x[0]))


def take_row(w, st, x, rest, r):
    if r is None:
        return take_store(w, st, (x,) + rest)
    if r is CORRUPT:
        queue = back(w, x, rest)
        return take_store(w, st._replace(queue=queue, kept=False), queue)
    ps, level, _ = r
    return from_row(w, st._replace(queue=rest), x[0], x[1], ps, level)


def take_next(w, st):
    if not st.queue:
        return step(("end",), [], st)
    x, rest = st.queue[0], st.queue[1:]
    return take_row(w, st, x, rest, w.world.row(x[0])) if st.kept else take_store(w, st, st.queue)


def painted_with(st, queue, frontier):
    return st._replace(queue=queue, frontier=frontier, painted=True, struck=st.struck + (len(st.queue) - len(queue)))


def first_call(w, st):
    if not w.hidden or not st.queue:
        return take_next(w, painted_with(st, st.queue, frozenset()))
    try:
        p = paint(w.world, w.fuel, [x for x, _ in st.queue], w.hidden)
    except Stop as stop:
        return step(("error", stop.args[0]), [], painted_with(st, (), frozenset()))
    both = p.vis & p.hid
    return take_next(w, painted_with(st, tuple(x for x in st.queue if x[0] not in both), both))


def next_call(w, st):
    return take_next(w, st) if st.painted else first_call(w, st)


def answers(case, calls):
    """The opening, and the answers to so many calls."""
    w, opening = open_walk(case)
    out = []
    if opening[0] == "opened":
        st = opening[1]
        for _ in range(calls):
            answer, st = next_call(w, st)
            out.append(answer)
    return opening, out
