"""make_terms.py DIR: writes DIR/stdin and DIR/stdout, the cases of the program `termcases` and what it must print.

A case is the width of ids and the settings (big-endian u32s: width, order, whether a cutoff stands, the mode First; then the cutoff in 8 bytes), the lengths of
the six parts, and the parts: store, graph, tips, hidden tips, excluded ids, and the months of the terms, two a term, as u32s. Before a case stands its own
length. Each is made with ids of 20 bytes and of 32 (card 13). What is expected comes from compare/model.py, document 02's words, and the first day of each
month from Python's calendar; each hand-made case also says what it should be.
"""
import calendar
import os
import struct
import sys

sys.path[:0] = [os.path.dirname(__file__), os.path.join(os.path.dirname(__file__), "..", "compare")]
import generate  # noqa: E402
import model  # noqa: E402
import reports  # noqa: E402
import formats  # noqa: E402
from formats import SHA1, SHA256, WIDTHS, hash_version, parent_line, u32  # noqa: E402
from generate import BREADTH, CUTOFF_NEWEST, NEWEST, OLDEST, Case  # noqa: E402

PLACES, COUNTS = 512, 26
cases, lines = [], []
width = SHA1  # of the ids of the case that is made


def body(parents, seconds):
    return formats.body(parents, seconds, width=width)


def Pair(bodies, rows=None, **torn):
    return generate.Pair(bodies, rows, width=width, **torn)


def days():
    """The first day of each month of the table, and of the month past it, 12 a line."""
    first = [calendar.timegm((1970 + m // 12, m % 12 + 1, 1, 0, 0, 0)) // 86400 for m in range(1561)]
    for k in range(0, 1561, 12):
        lines.append("".join(" %d" % day for day in first[k:k + 12]))


def terms(case, months, want=None):
    """want: the number, or the counts of the terms and the commits outside."""
    number, counts, outside = model.terms_report(months, case.walk)
    if case.pair.files.fault is None and number not in (2, 3, 24) and case.walk().P > PLACES:
        number, counts, outside = 1, [0] * len(counts), 0
    assert want is None or want == (number or counts + [outside]), (want, number, counts, outside)
    order = {"breadth": 0, "newest": 1, "oldest": 2}[generate.ORDER[case.sorting]]
    parts = (case.pair.store, case.pair.graph, b"".join(case.tips), b"".join(case.hidden), b"".join(case.barred), b"".join(map(u32, months)))
    out = struct.pack(">IIIIQ", width, order, case.sorting >= CUTOFF_NEWEST, case.first, case.cutoff)
    out += b"".join(u32(len(part)) for part in parts) + b"".join(parts)
    assert len(out) <= 65536 and len(months) <= 64
    cases.append(u32(len(out)) + out)
    counts = (counts + [0] * COUNTS)[:COUNTS]
    lines.append(" ".join(["refused %d" % number if number else "whole"] + [str(n) for n in counts] + ["outside", str(outside)]))


def name(k):
    return bytes([k]) * width


def chain(seconds, rows=None, **settings):
    """Commits at these seconds, the tip's first. None: a commit that the store lacks."""
    n = len(seconds)
    parents = [[name(k + 2)] if k + 1 < n else [] for k in range(n)]
    texts = {name(k + 1): body(parents[k], s) for k, s in enumerate(seconds) if s is not None}
    rows = {name(k + 1): (parents[k], n - k, rows) for k in range(n)} if rows is not None else None
    return Case(Pair(texts, rows), [name(1)], **settings)


def edges(year, month):
    return model.month_seconds(12 * (year - 1970) + month - 1)


def at(year, month):
    return 12 * (year - 1970) + month - 1


def months():
    """The ends of months."""
    for year, month in ((1970, 1), (1970, 2), (1972, 2), (1972, 3), (1999, 12), (2000, 2), (2000, 3), (2038, 1), (2096, 2), (2096, 3), (2099, 2), (2099, 12)):
        first, last = edges(year, month)
        m = at(year, month)
        terms(chain([first - 1, first, last, last + 1]), [m, m], [2, 2])
        terms(chain([first]), [m, m], [1, 0])
        terms(chain([last]), [m, m], [1, 0])
        terms(chain([last + 1]), [m, m], [0, 1])
    assert edges(2099, 12)[1] == 4102444799 and edges(1972, 2)[1] - edges(1972, 2)[0] == 29 * 86400 - 1
    terms(chain([-1, 0]), [0, 0], [1, 1])                                        # 1969's last second, 1970's first
    terms(chain([-1, 0]), [0, 1559], [1, 1])
    terms(chain([-1, -86400, -2678400, -10 ** 15]), [0, 1559], [0, 4])           # negative seconds
    terms(chain([4102444799, 4102444800, 10 ** 15]), [0, 1559], [1, 2])          # 2099's last second, and past it
    terms(chain([0, 2678399, 2678400, 5097599, 5097600]), [0, 0, 1, 1], [2, 2, 1])                # two that touch
    terms(chain([0, 2678399, 2678400, 5097599, 5097600]), [0, 1], [4, 1])
    terms(chain([0, 2678399, 2678400, 5097599, 5097600]), [0, 0, 2, 2], [2, 1, 2])                # with a gap
    terms(chain([0, 1, 2]), [], [3])                                             # no terms is a good list


def lists():
    """Good lists and bad ones."""
    seconds = [edges(1970 + k, 1)[0] for k in range(26)]
    many = [12 * k for k in range(25) for _ in range(2)]
    terms(chain(seconds), many[:48], [1] * 24 + [2])                             # 24 terms
    terms(chain(seconds), many, 24)                                              # 25
    terms(chain(seconds), many[:49], 24)
    touching = [k for k in range(24) for _ in range(2)]
    terms(chain([edges(1970, 12)[1], edges(1971, 12)[1], edges(1972, 1)[0]]), touching, [0] * 11 + [1] + [0] * 11 + [1, 1])
    one = chain([0])
    for bad in ([0], [0, 0, 1], [1, 0], [0, 1, 1, 2], [0, 1, 0, 1], [2, 2, 0, 0], [0, 5, 2, 3], [0, 1560], [1560, 1560], [2 ** 32 - 1, 2 ** 32 - 1], [0, 2 ** 32 - 1],
                [0, 0, 2, 1], [1559, 1559, 1560, 1560], [5, 5, 5, 5]):
        terms(one, bad, 24)
    terms(one, [1559, 1559], [0, 1])
    terms(one, [0, 1559], [1, 0])
    terms(one, [0, 1558, 1559, 1559], [1, 0, 0])
    # "before the walk opens": whatever else is wrong
    terms(Case(Pair({}, store=b""), [name(1)]), [1, 0], 24)
    terms(Case(Pair({}, graph=b"CGPHxxxx"), []), [0], 24)


def walks():
    """The store's seconds, and the walk's own refusals."""
    year = [at(2024, 1), at(2024, 12)]
    inside, out = edges(2024, 6)[0], edges(2023, 6)[0]
    for sorting in (BREADTH, NEWEST, OLDEST):
        terms(chain([inside, out, inside + 1, out, -5], sorting=sorting), year, [2, 3])
    terms(chain([inside, None, inside], rows=out), year, [2, 1])                 # the graph alone has it: outside, whatever seconds it says
    terms(chain([inside, None, inside], rows=inside), year, [2, 1])
    terms(chain([inside, out], rows=out), year, [1, 1])                          # the store's seconds count where the graph says others
    terms(chain([inside, None, inside]), year, 9)
    terms(chain([inside, inside, None]), year, 9)
    terms(chain([inside, out, inside], hidden=[name(2)]), year, [1, 0])
    terms(chain([inside, out, inside], barred=[name(2)]), year, [1, 0])
    terms(chain([inside + 2, inside + 1, inside, out], sorting=CUTOFF_NEWEST, cutoff=inside), year, [3, 0])
    bad = body([], inside).replace(b"committer A <a> %d" % inside, b"committer A <a> x")
    rows = {name(1): ([name(2)], 2, inside), name(2): ([], 1, inside)}
    terms(Case(Pair({name(1): body([name(2)], inside), name(2): bad}, rows), [name(1)]), year, [1, 1])    # in the graph too, and unreadable in the store
    terms(Case(Pair({name(1): body([name(2)], inside), name(2): b"tree"}), [name(1)]), year, 10)
    terms(Case(Pair({}), []), year, [0, 0])
    terms(Case(Pair({}), [name(1)]), year, 9)
    terms(Case(Pair({}), [name(1)], sorting=NEWEST), year, 7)
    terms(Case(Pair({name(1): b"tree"}), [name(1)], sorting=NEWEST), year, 8)
    terms(Case(Pair({}, store=b""), [name(1)]), year, 4)
    terms(Case(Pair({}, graph=b"CGPHxxxx"), []), year, 5)
    terms(Case(Pair({}, graph=b"CGPH\1" + bytes([hash_version(width), 4, 0])), []), year, 6)
    terms(Case(Pair({}, graph=b"CGPH\1" + bytes([hash_version(SHA1 + SHA256 - width), 4, 0])), []), year, 5)     # of the other width
    long = chain([inside] * 200)
    assert long.walk().P > PLACES
    terms(long, year, 1)


def generated(seed, count):
    rng = generate.seeded("termcases %d" % seed, width)
    for pair, drawn in reports.cases(rng, count, width):
        if len(pair.store) + len(pair.graph) > 6000 or pair.files.fault is None and 8 + len(pair.store) // parent_line(width) + pair.files.count > PLACES - 200:
            continue
        for case in drawn:
            listed = reports.some_terms(rng)
            case.cutoff = max(case.cutoff, 0)
            case.pair = reports.with_seconds(rng, pair, [m for m in listed if m < 1560] or [0])
            if case.walk().P <= PLACES:
                terms(case, listed)


def main(out):
    global width
    days()
    for width in WIDTHS:
        months()
        lists()
        walks()
        generated(1, 180)
    open(os.path.join(out, "stdin"), "wb").write(b"".join(cases))
    open(os.path.join(out, "stdout"), "w").write("\n".join(lines) + "\n")
    kinds = {}
    for line in lines[131:]:
        k = " ".join(line.split()[:2]) if line[0] == "r" else "whole"
        kinds[k] = kinds.get(k, 0) + 1
    print(len(cases), kinds)


if __name__ == "__main__":
    main(*sys.argv[1:])
