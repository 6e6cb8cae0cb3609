"""Document 01's walk, from its words alone, and document 02's cards; the readers of the two files are tools/formats.py, from the same words.

`Files` is what the two files say of an id. `Walk` is an opening and its next calls. Sentences in quotation marks are the documents'.
`reach` and `Tested` are card 1, `commit_id` and `check_names` card 2, `write_graph` card 4, `feed_report` cards 5 and 10, `merge_base` cards 8 and
11, `terms_report` card 9, `trace` card 12. Card 13's width of an id is a parameter of all that speaks of ids; what follows from it is named in
tools/formats.py.
"""
import calendar
import collections
import os
import sys

sys.path.insert(0, os.path.join(os.path.dirname(os.path.abspath(__file__)), "..", "tools"))
import formats  # noqa: E402
from formats import SHA1  # noqa: E402

CORRUPT = "corrupt"
VISIBLE, HIDDEN, STALE = 1, 2, 4
NO_ROW_LEVEL = 0xFFFFFFFF
MOST_BYTES, MOST_IDS, MOST_PARENTS = 16777216, 1024, 256


class Refused(Exception):
    def __init__(self, number):
        self.number = number


class Header:
    """One commit's lines: is the tree line good; the parents up to 256; is there a good 257th line; is the author line good; the seconds and
    the zone, or None where a line up to the committer's is bad. "Where only seconds are wanted … parents are not counted." Card 7: the zone "is
    read past all parent lines, uncounted", and the committer line may have none. """

    def __init__(self, body, width=SHA1):
        self.tree, self.ids, self.crowded, self.author, self.seconds, self.zone = False, [], False, False, None, None
        tree = formats.id_line(b"tree ", body, width)
        if tree is None:
            return
        self.tree = True
        ids, rest = formats.parent_lines(tree[1], width)
        self.ids, self.crowded = ids[:MOST_PARENTS], len(ids) > MOST_PARENTS
        after = formats.author_line(rest)
        if after is not None:
            self.author = True
            self.seconds, self.zone = formats.committer_line(after) or (None, None)

    def fault(self):
        """Why the commit is not readable: 10 or 11, "the earlier line decides"; None where it is."""
        if not self.tree:
            return 10
        if self.crowded:
            return 11
        return 10 if self.seconds is None else None


class Files:
    """Book and graph, and the width of their ids. `fault` is the first of 4 to 6 that applies. `levelled`: card 6, "If any row has level 0, no level of that
    file is used". """

    def __init__(self, store, graph, width=SHA1):
        self.store, self.graph_bytes, self.width = store, graph, width
        self.headers, self.rows, self.count, self.graph, self.levelled = {}, {}, 0, None, True
        entries = formats.store_entries(store, width)
        self.fault = None
        if entries is None:
            self.fault = 4
            return
        self.bodies = {name: store[start:end] for name, start, end in entries}
        if graph:
            if not formats.graph_head(graph, width):
                self.fault = 5
                return
            self.graph = formats.Graph(graph, width)
            if not self.graph.good:
                self.fault = 6
                return
            self.count = self.graph.n
            self.places = {name: place for place, name in enumerate(self.graph.names)}
            self.levelled = self.graph.levelled

    def header(self, name):
        """None where the book has no such id."""
        if name not in self.headers:
            self.headers[name] = Header(self.bodies[name], self.width) if name in self.bodies else None
        return self.headers[name]

    def row(self, name):
        """None where the graph has no such id; CORRUPT; or the parents with their own rows' seconds, the level of the pair, the seconds."""
        if self.graph is None or name not in self.places:
            return None
        if name not in self.rows:
            place = self.places[name]
            parents = self.graph.parents(place)
            self.rows[name] = CORRUPT if parents is None else (
                [(self.graph.names[p], self.graph.seconds(p)) for p in parents], self.level(place), self.graph.seconds(place))
        return self.rows[name]

    def level(self, place):
        """Card 6: "pairs take 0xFFFFFFFF" """
        return self.graph.pair_level(place)

    def whole(self, name):
        """A commit read for painting: its parents and its pair (level, seconds). "The graph comes before the book"."""
        row = self.row(name)
        if row is CORRUPT:
            raise Refused(10)
        if row is not None:
            parents, level, seconds = row
            return [parent for parent, _ in parents], (level, seconds)
        header = self.header(name)
        if header is None:
            raise Refused(9)
        fault = header.fault()
        if fault is not None:
            raise Refused(fault)
        return header.ids, (NO_ROW_LEVEL, header.seconds)


class Answer:
    """`kind` is "commit", "error" or "end". The zone is card 7's: none "in a refusal or end"."""

    def __init__(self, walk, kind, number=0, name=None, parents=(), level=None, seconds=None, zone=None):
        self.kind, self.number, self.name, self.parents, self.level, self.seconds, self.zone = kind, number, name, parents, level, seconds, zone
        self.admitted, self.struck, self.waiting = walk.admitted, walk.struck, len(walk.line)

    def text(self):
        """As the driver prints it. "Runs beside the crate leave the zone out." """
        if self.kind == "end":
            return "end"
        if self.kind == "error":
            return "error %d" % self.number
        parts = ["commit", self.name.hex(), "-" if self.level is None else str(self.level),
                 "-" if self.seconds is None else str(self.seconds)]
        return " ".join(parts + [parent.hex() for parent in self.parents])


class Walk:
    """sorting: "breadth", "newest" or "oldest"; cutoff: None or seconds (with newest or oldest); first: the mode First."""

    def __init__(self, files, tips, hidden, barred, sorting, cutoff, first):
        self.files, self.sorting, self.cutoff, self.first = files, sorting, cutoff, first
        self.hidden, self.barred = list(hidden), set(barred)
        self.lent = max(len(tips), len(hidden), len(barred))
        self.line, self.seen, self.frontier = [], set(), set()
        self.painted, self.kept = False, True
        self.admitted = self.struck = 0
        self.ties = False
        self.queued_with, self.painted_with = {}, {}
        self.by_time = sorting != "breadth" and not first
        self.refused = self.open(tips)
        # "P = tips + hidden tips + ⌊book bytes/48⌋ + N, both lists counted as lent"; "P divides the book by 72 there"
        self.P = len(tips) + len(hidden) + len(files.store) // formats.parent_line(files.width) + files.count

    # ---- opening

    def open(self, tips):
        """None, or the number of the refusal; memory is lent in full."""
        files = self.files
        if max(len(files.store), len(files.graph_bytes)) > MOST_BYTES or self.lent > MOST_IDS:
            return 2
        if files.fault is not None:
            return files.fault
        # "Tips lose repeats and barred ids; the rest are seen."
        rest = []
        for tip in tips:
            if tip not in self.barred and tip not in self.seen:
                self.seen.add(tip)
                rest.append(tip)
        # "Under a time order each remaining tip is read from the book alone; under a cutoff it stays if seconds ≥ cutoff."
        for tip in rest:
            seconds = None
            if self.sorting != "breadth":
                header = files.header(tip)
                if header is None:
                    return 7
                seconds = header.seconds
                if seconds is None:
                    return 8
                if self.cutoff is not None and seconds < self.cutoff:
                    continue
            self.wait(tip, seconds)
        return None

    # ---- the line

    def wait(self, name, seconds):
        """A commit is admitted."""
        self.admitted += 1
        self.enter(name, seconds)

    def enter(self, name, seconds):
        """Into the line, after all that it does not go before; "under First they wait in list order"."""
        if not self.by_time:
            self.line.append((name, None))
            return
        if self.queued_with.setdefault(seconds, name) != name:
            self.ties = True
        at = len(self.line)
        while at > 0 and self.goes_before(seconds, self.line[at - 1][1]):
            at -= 1
        self.line.insert(at, (name, seconds))

    def goes_before(self, mine, other):
        return mine > other if self.sorting == "newest" else mine < other

    # ---- painting

    def paint(self):
        """The frontier; raises Refused."""
        marks, read, queue = {}, {}, []

        def give(name, passed):
            if name not in marks:
                # "A commit is read when it first gets a mark"
                read[name] = self.files.whole(name)
                marks[name] = 0
            marks[name] |= passed
            pair = read[name][1]
            if self.painted_with.setdefault(pair, name) != name:
                self.ties = True
            # "the greatest pair, among equals the first queued"
            at = len(queue)
            while at > 0 and pair > queue[at - 1][0]:
                at -= 1
            queue.insert(at, (pair, name))

        # "Waiting ids by rising id get VISIBLE, then hidden tips in order HIDDEN; each is queued."
        for name in sorted(name for name, _ in self.line):
            give(name, VISIBLE)
        for name in self.hidden:
            give(name, HIDDEN)
        # "While a queued commit lacks STALE: take the greatest pair"
        while any(not marks[name] & STALE for _, name in queue):
            name = queue.pop(0)[1]
            passed = marks[name]
            # "if its marks are exactly the first two, add STALE to what is passed (not to itself)"
            if passed == VISIBLE | HIDDEN:
                passed |= STALE
            # "each parent lacking a passed mark gets them and is queued"
            for parent in read[name][0]:
                if marks.get(parent, 0) & passed != passed:
                    give(parent, passed)
        # "The frontier is every commit with both marks"
        return {name for name, has in marks.items() if has & VISIBLE and has & HIDDEN}

    # ---- a next call

    def next(self):
        # "Done by the first next call, unless hidden tips or waiting commits are none."
        if not self.painted:
            self.painted = True
            if self.hidden and self.line:
                waiting = len(self.line)
                try:
                    self.frontier = self.paint()
                except Refused as refused:
                    # "line emptied (all of it struck), refusal given once, then end"
                    self.line = []
                    self.struck += waiting
                    return Answer(self, "error", refused.number)
                # "it leaves the line"
                self.line = [entry for entry in self.line if entry[0] not in self.frontier]
                self.struck += waiting - len(self.line)
        # "Empty: end."
        if not self.line:
            return Answer(self, "end")
        # "Breadth order takes the front; time order the newest or oldest; among equals the first queued." "Look it up."
        name, seconds = self.line.pop(0)
        row = self.files.row(name) if self.kept else None
        if row is CORRUPT:
            # "A corrupt list drops the graph for good and the commit goes back (front, or queued last among equals)."
            self.kept = False
            if self.by_time:
                self.enter(name, seconds)
            else:
                self.line.insert(0, (name, seconds))
            name, seconds = self.line.pop(0)
            row = None
        if row is not None:
            parents, level, _ = row
            # card 6: "listings show none"
            level = None if level == NO_ROW_LEVEL else level
            if self.first:
                parents = parents[:1]
            for parent, its in parents:
                self.visit(parent, its)
            return Answer(self, "commit", name=name, parents=[parent for parent, _ in parents], level=level, seconds=seconds)
        header = self.files.header(name)
        if header is None:
            return Answer(self, "error", 9)
        if not header.tree:
            return Answer(self, "error", 10)
        # "Under First only one parent."
        parents = header.ids[:1] if self.first else header.ids
        for parent in parents:
            self.visit(parent, self.seconds_of(parent))
        # "After the parents of a commit from the book the author line must be good, save where First has stopped."
        if not (self.first and parents):
            if header.crowded:
                return Answer(self, "error", 11, parents=parents)
            if not header.author:
                return Answer(self, "error", 10, parents=parents)
        # card 7: "signed minutes, or none when the commit came from the graph"
        return Answer(self, "commit", name=name, parents=parents, seconds=seconds, zone=self.zone_of(name))

    def zone_of(self, name):
        """Card 7: of a commit from the book, "under First too, and is none if a line up to committer is bad" """
        return self.files.header(name).zone

    def seconds_of(self, parent):
        """"Seconds of a parent come from its own graph row if the child came from the graph, else from the book, else they are 0." """
        header = self.files.header(parent)
        return 0 if header is None or header.seconds is None else header.seconds

    def visit(self, parent, seconds):
        """"unless in the frontier or seen, it is seen, and waits if its link is admitted" """
        if parent in self.frontier or parent in self.seen:
            return
        self.seen.add(parent)
        # "the parent is not barred …, and, under a cutoff with All, its seconds ≥ cutoff. First ignores the cutoff after the tips."
        if parent in self.barred or (self.cutoff is not None and not self.first and seconds < self.cutoff):
            return
        self.wait(parent, seconds)


def reach(files, starts):
    """Document 01: "commits reach others over the book's parent lines …; an absent or unreadable id is reached too, as a commit that isn't
    readable, and leads no further". """
    out, todo = set(), list(starts)
    while todo:
        name = todo.pop()
        if name not in out:
            out.add(name)
            header = files.header(name)
            if header is not None and header.fault() is None:
                todo += header.ids
    return out


class Tested(Walk):
    """Card 1's tested opening: "13 unreadable reach, 14 graph at odds, 15 pair not falling; tested in that order after 8". """

    def open(self, tips):
        refused = super().open(tips)
        return self.test(tips) if refused is None else refused

    def test(self, tips):
        """None, or the number. "looks at everything reachable from all given tips and hidden tips, over all the book's parents, and … accepts
        exactly when every commit is readable in the book, the graph agrees, and each pair falls" """
        found = self.looked_at(tips)
        if not all(self.readable(name) for name in found):
            return 13
        if not all(self.agrees(name) for name in found):
            return 14
        if not all(self.falls(name, parent) for name in found for parent in self.links(name)):
            return 15
        return None

    def looked_at(self, tips):
        """"all given tips and hidden tips": barred ones, and those that a cutoff turns away, too"""
        return reach(self.files, list(tips) + self.hidden)

    def links(self, name):
        return self.files.header(name).ids

    def readable(self, name):
        header = self.files.header(name)
        return header is not None and header.fault() is None

    def agrees(self, name):
        """Document 01: "each reachable commit that the graph lists has there its book parents, in order, and its book seconds" """
        row, header = self.files.row(name), self.files.header(name)
        if row is None:
            return True
        return row is not CORRUPT and [parent for parent, _ in row[0]] == header.ids and row[2] == header.seconds

    def pair(self, name):
        """Card 6's: "pairs take 0xFFFFFFFF" where a row has level 0; "Without a graph row the level is 0xFFFFFFFF." """
        row = self.files.row(name)
        return NO_ROW_LEVEL if row is None else row[1], self.files.header(name).seconds

    def falls(self, name, parent):
        return self.pair(parent) < self.pair(name)


def commit_id(body, width=SHA1):
    """"A commit's id is the digest of `commit `, the body length in decimal, a zero byte and the body." """
    return formats.digest(b"commit %d\0" % len(body) + body, width)


def check_names(store, graph, width=SHA1):
    """The number of the refusal, 0 where there is none, and the entry's. "It refuses the first false name in id order and returns that entry's
    number, counted from 0. Refused: 16 false name, 17 graph checksum false, both after 6 of that call and 16 first." """
    if max(len(store), len(graph)) > MOST_BYTES:
        return 2, 0
    files = Files(store, graph, width)
    if files.fault is not None:
        return files.fault, 0
    for k, name in enumerate(sorted(files.bodies)):
        if commit_id(files.bodies[name], width) != name:
            return 16, k
    if graph and formats.digest(graph[:-width], width) != graph[-width:]:
        return 17, 0
    return 0, 0


def readable(files, name):
    header = files.header(name)
    return header is not None and header.fault() is None


def best_common(files, one, other):
    """Card 8: "reachable from both, and not reachable from another commit that is". The common ones and the best ones."""
    common = reach(files, [one]) & reach(files, [other])
    return common, {x for x in common if not any(x in reach(files, [y]) for y in common if y != x)}


def merge_base(store, one, other, room=True, width=SHA1):
    """The number of the refusal, 0 where there is none, and the commit, None where there is none. "Refused: 23 tangled reach, exactly then; before it
    13, for a commit reachable from either tip that is not readable, and before that 2, 4 and 1". room: whether the memory is enough. """
    if len(store) > MOST_BYTES:
        return 2, None
    files = Files(store, b"", width)
    if files.fault is not None:
        return files.fault, None
    if not room:
        return 1, None
    if not all(readable(files, name) for name in reach(files, [one, other])):
        return 13, None
    common, best = best_common(files, one, other)
    # "Say none exactly when no commit is reachable from both."
    if not common:
        return 0, None
    if not best:
        return 23, None
    # card 11: "give the first: greatest book seconds, then the smallest id"
    return 0, min(best, key=lambda name: (-files.header(name).seconds, name))


# ---- card 4

MOST_SECONDS = 17179869183


def levels_of(parents):
    """"level 1 without parents, else one more than the greatest parent's", by rounds; None where "no levels can satisfy the rule". parents: for each
    entry the entries that are its parents. """
    levels, left = {}, {k: set(links) for k, links in enumerate(parents)}
    ready = [k for k in left if not left[k]]
    children = collections.defaultdict(set)
    for k, links in left.items():
        for p in links:
            children[p].add(k)
    while ready:
        p = ready.pop()
        levels[p] = 1 + max((levels[q] for q in parents[p]), default=0)
        for k in children[p]:
            left[k].discard(p)
            if not left[k]:
                ready.append(k)
    return levels if len(levels) == len(parents) else None


def graph_file(rows, width=SHA1):
    """The version 1 file of rows (id, tree, parents' positions, level, seconds), in id order: "OIDF, OIDL, CDAT, then EDGE only if some commit has over two
    parents, its lists in row order; … SHA-1 at the end". Document 01: "There the list holds the second parent onward and ends at the first entry
    with the top bit set, whose other bits are the last parent"; "Parent 0x70000000 is none". """
    names, data, edge = [], b"", []
    for name, tree, parents, level, seconds in rows:
        names.append(name)
        first = parents[0] if parents else formats.NONE
        second = parents[1] if len(parents) == 2 else formats.NONE
        if len(parents) > 2:
            second = formats.TOP + len(edge)
            edge += parents[1:-1] + [formats.TOP + parents[-1]]
        # "a u32 whose high 30 bits are the level and whose low 2 bits are the high bits of the 34-bit seconds, then their low 32"
        data += tree + b"".join(map(formats.u32, (first, second, level * 4 + seconds // 2 ** 32, seconds % 2 ** 32)))
    chunks = [(b"OIDF", formats.fan(names)), (b"OIDL", b"".join(names)), (b"CDAT", data)]
    chunks += [(b"EDGE", b"".join(map(formats.u32, edge)))] if edge else []
    at = 8 + 12 * (len(chunks) + 1)
    out = b"CGPH" + bytes([1, formats.hash_version(width), len(chunks), 0])
    for name, part in chunks:
        out += name + formats.u64(at)
        at += len(part)
    out += bytes(4) + formats.u64(at) + b"".join(part for _, part in chunks)
    return out + formats.digest(out, width)


def graph_length(store, lent, width=SHA1):
    """The number of the refusal, 0 where there is none, and the file. "Refused: 18 unfit book (an entry unreadable, a parent absent, or no levels can
    satisfy the rule), 19 seconds outside 0 to 17,179,869,183 …; in that order after 2, 4 and 1 (lent levels of under one u32 per entry)". """
    if len(store) > MOST_BYTES:
        return 2, b""
    entries = formats.store_entries(store, width)
    if entries is None:
        return 4, b""
    if lent < len(entries):
        return 1, b""
    place = {name: k for k, (name, _, _) in enumerate(entries)}
    bodies = [store[start:end] for _, start, end in entries]
    read = [formats.reading(body, width) for body in bodies]
    if any(r[0] != "readable" or any(p not in place for p in r[1]) for r in read):
        return 18, b""
    parents = [[place[p] for p in r[1]] for r in read]
    levels = levels_of(parents)
    if levels is None:
        return 18, b""
    seconds = [r[2][0] for r in read]
    if any(not 0 <= s <= MOST_SECONDS for s in seconds):
        return 19, b""
    trees = [formats.id_line(b"tree ", body, width)[0] for body in bodies]
    return 0, graph_file([(name, trees[k], parents[k], levels[k], seconds[k]) for k, (name, _, _) in enumerate(entries)], width)


def write_graph(store, lent, room, width=SHA1):
    """The same, and then "20 short output". "A refusal leaves the output buffer alone; an accepted writing alters only the file's own bytes there and
    returns their number." """
    number, file = graph_length(store, lent, width)
    return (20, b"") if number == 0 and room < len(file) else (number, file)


# ---- card 5

CONE, BED = b"Cone-feed: ", b"Bed-feed: "
MOST_FEED = 1000000000


def message(body):
    """"the message is what follows the first empty line"; no message is an empty one"""
    at = 0
    while at < len(body):
        end = body.find(b"\n", at)
        if end < 0:
            break
        if end == at:
            return body[at + 1:]
        at = end + 1
    return b""


def feed(body):
    """The two readings, None where there is none; raises Refused. "21 reading given twice (two lines with the same start, readable or not), 22 reading
    unreadable, … 21 first". """
    # "message lines starting so count wherever they stand. A line ends at its newline or at the body's end"
    lines = message(body).split(b"\n")
    given = [[line[len(start):] for line in lines if line.startswith(start)] for start in (CONE, BED)]
    if any(len(values) > 1 for values in given):
        raise Refused(21)
    # "1 to 10 decimal digits, millimetres, at most 1,000,000,000"; "one that starts so and goes on otherwise is unreadable"
    for values in given:
        for digits in values:
            if not 1 <= len(digits) <= 10 or any(not 48 <= byte <= 57 for byte in digits) or int(digits) > MOST_FEED:
                raise Refused(22)
    return [int(values[0]) if values else None for values in given]


def handed(walk):
    """The ids that a walk hands out, one after the other; raises Refused at its own first refusal."""
    if walk.refused is not None:
        raise Refused(walk.refused)
    while True:
        answer = walk.next()
        if answer.kind == "error":
            raise Refused(answer.number)
        if answer.kind == "end":
            return
        yield answer.name


def embargo_refusal(walk, embargoed):
    """Card 10: "The list of embargoed ids is a list for 2 and 3", in document 01's order: 2 of any file or list, then 3 of any; None where neither is of
    this list. The walk's own lists are of whole ids here. """
    if walk.refused == 2 or len(embargoed) > walk.files.width * MOST_IDS:
        return 2
    return 3 if len(embargoed) % walk.files.width else None


def ids_of(listed, width):
    """The ids of a list. Card 13: "A list must be a multiple of the chosen width" """
    return {listed[k:k + width] for k in range(0, len(listed), width)}


def feed_report(walk, embargoed=b"", outside=False):
    """The number, then runs with both, cone alone, bed alone and neither, the two sums, and cone less bed over paired runs. "A walk's own refusal ends the
    report with that number and zeros." 21 and 22 "at the first such run in walk order …; the report is zeros. Of these and a walk's refusal the earlier
    call decides." Card 10: "The shop's reader sees all; an outside reader is given the id, parents, level, seconds and zone of an embargoed run, and its
    feed counts as neither reading"; its readings "never cause 21 or 22 there". """
    early = embargo_refusal(walk, embargoed)
    if early is not None:
        return early, [0] * 6, 0
    withheld = ids_of(embargoed, walk.files.width) if outside else set()
    both = cone_alone = bed_alone = neither = cones = beds = less = 0
    try:
        for name in handed(walk):
            # "A commit found only in the graph has no message and counts as neither."
            cone, bed = (None, None) if name in withheld else feed(walk.files.bodies.get(name, b""))
            both += cone is not None and bed is not None
            cone_alone += cone is not None and bed is None
            bed_alone += cone is None and bed is not None
            neither += cone is None and bed is None
            cones, beds = cones + (cone or 0), beds + (bed or 0)
            if cone is not None and bed is not None:
                less += cone - bed
    except Refused as refused:
        return refused.number, [0] * 6, 0
    return 0, [both, cone_alone, bed_alone, neither, cones, beds], less


# ---- card 9

def month_seconds(month):
    """The first and the last second of a month, counted from January 1970, in UTC, by Python's own calendar."""
    year, at = 1970 + month // 12, month % 12 + 1
    return calendar.timegm((year, at, 1, 0, 0, 0)), calendar.timegm((year, at, calendar.monthrange(year, at)[1], 23, 59, 59))


def good_terms(months):
    """"Refused: 24 bad term list (over 24 terms, out of order, overlapping, a term ending before it starts, or a month outside the table; no terms is a good
    list)". Two months a term. """
    if len(months) % 2 or len(months) > 48 or any(not 0 <= month < 1560 for month in months):
        return False
    terms = list(zip(months[::2], months[1::2]))
    return all(first <= last for first, last in terms) and all(one[1] < other[0] for one, other in zip(terms, terms[1:]))


def terms_report(months, opened):
    """The number, the runs in each term, those outside all. opened makes the walk: 24 comes "before the walk opens". "Runs before 1970 or after 2099, and runs
    without readable seconds in the book, are outside. A walk's own refusal ends this report with that number and zeros; after 24 it is zeros." """
    counts, outside = [0] * (len(months) // 2), 0
    if not good_terms(months):
        return 24, counts, 0
    # "A term runs from the first second of one month to the last second of the same or a later month."
    terms = [(month_seconds(first)[0], month_seconds(last)[1]) for first, last in zip(months[::2], months[1::2])]
    walk = opened()
    try:
        for name in handed(walk):
            header = walk.files.header(name)
            seconds = None if header is None else header.seconds
            within = [k for k, (first, last) in enumerate(terms) if seconds is not None and first <= seconds <= last]
            for k in within:
                counts[k] += 1
            outside += not within
    except Refused as refused:
        return refused.number, [0] * (len(months) // 2), 0
    return 0, counts, outside


# ---- card 12


def within(files, start, steps):
    """Every id within so many parent steps of the start, the start included, calibrations or not."""
    met, edge = {start}, {start}
    for _ in range(steps):
        edge = {p for name in edge if readable(files, name) for p in files.header(name).ids} - met
        met |= edge
    return met


def forced(files, listed, start, moves):
    """Card 12, by sets and from the end of the trace: who gets to the list from where with 0, 1, 2 … moves left, the cone to move and the bed to move.
    "The bench to move and the bench to reply are judged by one another's prospects with one move fewer"; "a commit without parents off the list does not"
    count. Whether the cone forces it from the start, and the parents of the start from which it does, the bed to move. """
    parents = {name: files.header(name).ids if readable(files, name) else [] for name in within(files, start, moves)}
    cone = bed = {name for name in parents if name in listed}
    before = bed
    for _ in range(moves):
        before = bed
        cone, bed = (
            {name for name, ids in parents.items() if name in listed or any(p in bed for p in ids)},
            {name for name, ids in parents.items() if name in listed or ids and all(p in cone for p in ids)},
        )
    return start in cone, [n for n, p in enumerate(parents[start]) if p in before] if moves else []


def trace(store, start, calibrations, moves, width=SHA1):
    """Card 12. The number of the refusal, 0 where there is none; what is said (0 not forced, 1 the start is on the list, 2 forced by a parent); the parent's number
    and its id. "Refused: 25 d over 12, before any reading; then 2 to 4; then 13 for an unreadable commit within d parent steps of the start, the start
    included." """
    nothing = 0, 0, bytes(width)
    if moves > 12:
        return 25, *nothing
    if len(store) > MOST_BYTES or len(calibrations) > width * MOST_IDS:
        return 2, *nothing
    if len(calibrations) % width:
        return 3, *nothing
    files = Files(store, b"", width)
    if files.fault is not None:
        return files.fault, *nothing
    if not all(readable(files, name) for name in within(files, start, moves)):
        return 13, *nothing
    listed = ids_of(calibrations, width)
    if start in listed:
        return 0, 1, 0, bytes(width)
    wins, forcing = forced(files, listed, start, moves)
    assert wins == bool(forcing)
    return (0, 2, forcing[0], files.header(start).ids[forcing[0]]) if wins else (0, *nothing)
