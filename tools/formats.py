"""The two files of the lister, built and read in Python from document 01's words alone.

The readers here are the second opinion that the programs' expected output comes from: they share no code with the Rattle crates.
"""
import hashlib
import struct

NONE = 0x70000000
TOP = 0x80000000


def u32(n):
    return struct.pack(">I", n)


def u64(n):
    return struct.pack(">Q", n)


def be32(b, i):
    return int.from_bytes((b[i:i + 4] + b"\0\0\0\0")[:4], "big")


# ---- the width of an id (card 13), and what follows from it

SHA1, SHA256 = 20, 32
WIDTHS = (SHA1, SHA256)


def width_said(number):
    """The width that a number asks the library for: 32 is SHA-256, any other SHA-1."""
    return SHA256 if number == SHA256 else SHA1


def entry_size(width):
    """"book entries (36 bytes)", 24 with SHA-1: an id and a u32"""
    return width + 4


def row_size(width):
    """"rows (48 bytes)", 36 with SHA-1: a tree's id and four u32"""
    return width + 16


def parent_line(width):
    """"parent lines (72 bytes)", 48 with SHA-1; "P divides the book by 72 there" """
    return 2 * width + 8


def parents_size(width):
    """The lent parents: 256 ids, 5,120 bytes or 8,192."""
    return 256 * width


def digest_name(width):
    """"Digests there are SHA-256". As hashlib and git's object format name it."""
    return {SHA1: "sha1", SHA256: "sha256"}[width]


def digest(data, width=SHA1):
    return hashlib.new(digest_name(width), data).digest()


def hash_version(width):
    """"graph hash version 2 with a 32-byte checksum belongs to it" """
    return {SHA1: 1, SHA256: 2}[width]


# ---- the commit store

def store(bodies):
    """The store of a dict from id to body."""
    out, entries, end = b"", b"", 0
    for name in sorted(bodies):
        out += bodies[name]
        end += len(bodies[name])
        entries += name + u32(end)
    return out + entries + u32(end) + u32(len(bodies))


def store_entries(b, width=SHA1):
    """The entries (id, start, end) of a good store; None where the layout does not hold."""
    if len(b) < 8:
        return None
    start, count = be32(b, len(b) - 8), be32(b, len(b) - 4)
    if len(b) != start + entry_size(width) * count + 8:
        return None
    out, last, end = [], None, 0
    for k in range(count):
        at = start + entry_size(width) * k
        name, stop = b[at:at + width], be32(b, at + width)
        if (last is not None and not last < name) or stop < end:
            return None
        out.append((name, end, stop))
        last, end = name, stop
    return out if end == start else None


# ---- header lines

def id_line(word, b, width=SHA1):
    n, end = len(word), len(word) + 2 * width
    if b[:n] != word or b[end:end + 1] != b"\n":
        return None
    digits = b[n:end]
    if any(c not in b"0123456789abcdef" for c in digits):
        return None
    return bytes.fromhex(digits.decode()), b[end + 1:]


def author_line(b):
    if not b.startswith(b"author ") or b"\n" not in b:
        return None
    line, rest = b[7:].split(b"\n", 1) if b"\n" in b[7:] else (None, None)
    if line is None or b"<" not in line or b">" not in line[line.index(b"<"):]:
        return None
    return rest


def zone(text):
    """Card 7, of the bytes after the seconds: "space, sign, four digits, minutes below 60, hours at most 14, then the line's end; anything
    else reads as none". In signed minutes."""
    if len(text) != 6 or text[:1] != b" " or text[1:2] not in (b"+", b"-") or any(c not in b"0123456789" for c in text[2:]):
        return None
    hours, minutes = divmod(int(text[2:]), 100)
    if hours > 14 or minutes > 59:
        return None
    return (60 * hours + minutes) * (-1 if text[1:2] == b"-" else 1)


def committer_line(b):
    """(seconds, zone): the zone may be None."""
    if not b.startswith(b"committer ") or b"\n" not in b[10:]:
        return None
    line = b[10:].split(b"\n", 1)[0]
    if b">" not in line:
        return None
    tail = line[line.rindex(b">") + 1:]
    if not tail.startswith(b" "):
        return None
    tail = tail[1:]
    sign = 1
    if tail.startswith(b"-"):
        sign, tail = -1, tail[1:]
    n = 0
    while n < len(tail) and tail[n] in b"0123456789":
        n += 1
    if not 1 <= n <= 18 or (n < len(tail) and tail[n:n + 1] != b" "):
        return None
    return sign * int(tail[:n]), zone(tail[n:])


def parent_lines(b, width=SHA1):
    out = []
    while True:
        t = id_line(b"parent ", b, width)
        if t is None:
            return out, b
        out.append(t[0])
        b = t[1]


def stamp_only(body, width=SHA1):
    t = id_line(b"tree ", body, width)
    if t is None:
        return None
    rest = author_line(parent_lines(t[1], width)[1])
    return None if rest is None else committer_line(rest)


def reading(body, width=SHA1):
    """('readable', parents, (seconds, zone)), ('crowded',) or ('bad',): the earlier line decides."""
    t = id_line(b"tree ", body, width)
    if t is None:
        return ("bad",)
    ids, rest = parent_lines(t[1], width)
    if len(ids) > 256:
        return ("crowded",)
    rest = author_line(rest)
    stamp = None if rest is None else committer_line(rest)
    return ("bad",) if stamp is None else ("readable", ids, stamp)


def body(parents=(), seconds=5, tree=None, author=b"author A <a> 5 +0000\n", committer=None, width=SHA1):
    out = b"tree " + (bytes(width) if tree is None else tree).hex().encode() + b"\n"
    for p in parents:
        out += b"parent " + p.hex().encode() + b"\n"
    return out + author + (committer if committer is not None else b"committer A <a> %d +0000\n" % seconds) + b"\n"


# ---- the commit-graph file

def chunk_file(chunks, header=None, count=None, base=0, first=None, last_id=0, slack=0, width=SHA1):
    header = b"CGPH\x01" + bytes([hash_version(width)]) if header is None else header
    c = len(chunks) if count is None else count
    at = 8 + 12 * (len(chunks) + 1) if first is None else first
    table = b""
    for name, data in chunks:
        table += name + u64(at)
        at += len(data)
    table += u32(last_id) + u64(at + slack)
    return header + bytes([c, base]) + table + b"".join(d for _, d in chunks) + bytes(width)


def graph_rows(commits, order=None, width=SHA1):
    """commits: dict id -> (parents, level, seconds). Rows and EDGE, as git writes them."""
    names = sorted(commits)
    place = {n: i for i, n in enumerate(names)}
    rows, edge = b"", []
    for n in names:
        parents, level, seconds = commits[n]
        p = [place[x] for x in parents]
        first = p[0] if p else NONE
        if len(p) < 2:
            second = NONE
        elif len(p) == 2:
            second = p[1]
        else:
            second = TOP | len(edge)
            edge += p[1:-1] + [TOP | p[-1]]
        rows += bytes(width) + u32(first) + u32(second) + u32(level << 2 | seconds >> 32) + u32(seconds & 0xFFFFFFFF)
    return names, rows, b"".join(map(u32, edge))


def fan(names):
    return b"".join(u32(sum(1 for n in names if n[0] <= i)) for i in range(256))


def graph(commits, extra=(), width=SHA1):
    names, rows, edge = graph_rows(commits, width=width)
    chunks = [(b"OIDF", fan(names)), (b"OIDL", b"".join(names)), (b"CDAT", rows)]
    chunks += list(extra)
    if edge:
        chunks.append((b"EDGE", edge))
    return chunk_file(chunks, width=width)


def graph_head(g, width=SHA1):
    """"a graph of the other width is 5" """
    return len(g) >= 8 and g[:5] == b"CGPH\x01" and g[5] == hash_version(width) and g[7] == 0


class Graph:
    """A graph file that was read; `good` is document 01's layout past the first 8 bytes."""

    def __init__(self, g, width=SHA1):
        self.g, self.width, self.good, self.n = g, width, False, 0
        self.good = self.read()

    def read(self):
        g, width = self.g, self.width
        c = g[6] if len(g) > 6 else 0
        if len(g) < 8 + 12 * (c + 1) + width:
            return False
        rows = [(g[8 + 12 * i:12 + 12 * i], int.from_bytes(g[12 + 12 * i:20 + 12 * i], "big")) for i in range(c + 1)]
        if rows[c][0] != b"\0\0\0\0" or rows[0][1] != 8 + 12 * (c + 1) or rows[c][1] != len(g) - width:
            return False
        if any(rows[i][1] > rows[i + 1][1] for i in range(c)):
            return False
        named = [r[0] for r in rows[:c]]
        if any(named.count(x) != 1 for x in (b"OIDF", b"OIDL", b"CDAT")) or named.count(b"EDGE") > 1:
            return False
        part = {rows[i][0]: g[rows[i][1]:rows[i + 1][1]] for i in range(c)}
        fanout = part[b"OIDF"]
        if len(fanout) != 1024:
            return False
        n = be32(fanout, 1020)
        self.ids, self.rows, self.edge = part[b"OIDL"], part[b"CDAT"], part.get(b"EDGE", b"")
        if len(self.ids) != width * n or len(self.rows) != row_size(width) * n or len(self.edge) % 4:
            return False
        self.names = [self.ids[width * k:width * k + width] for k in range(n)]
        counts, total = [0] * 256, 0
        for x in self.names:
            counts[x[0]] += 1
        for i in range(256):
            total += counts[i]
            if be32(fanout, 4 * i) != total:
                return False
        if any(not self.names[k] < self.names[k + 1] for k in range(n - 1)):
            return False
        self.n = n
        self.levelled = all(self.level(p) != 0 for p in range(n))
        return True

    def find(self, name):
        return self.names.index(name) if name in self.names else None

    def row(self, p):
        size = row_size(self.width)
        return self.rows[size * p:size * p + size]

    def word(self, p, k):
        """The k-th of the four words after the tree's id."""
        return be32(self.row(p), self.width + 4 * k)

    def level(self, p):
        return self.word(p, 2) >> 2

    def pair_level(self, p):
        """Card 6: "If any row has level 0, no level of that file is used: pairs take 0xFFFFFFFF". """
        return self.level(p) if self.levelled else 0xFFFFFFFF

    def seconds(self, p):
        return (self.word(p, 2) & 3) << 32 | self.word(p, 3)

    def parents(self, p):
        """The positions, or None where the list is corrupt."""
        a, b = self.word(p, 0), self.word(p, 1)
        if a == NONE:
            return [] if b == NONE else None
        out = [a]
        if b & TOP:
            j = b - TOP
            while True:
                if 4 * j + 4 > len(self.edge) or len(out) == 256:
                    return None
                v = be32(self.edge, 4 * j)
                out.append(v & 0x7FFFFFFF)
                j += 1
                if v & TOP:
                    break
        elif b != NONE:
            out.append(b)
        return out if all(x < self.n for x in out) else None
