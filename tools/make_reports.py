"""make_reports.py DIR: writes DIR/stdin and DIR/stdout, the cases of the program `reportcases` and what it must print.

A case is the reader's letter (`f` the shop's, `o` an outside one), the width of ids and the settings (big-endian u32s: width, order, whether a cutoff stands,
the mode First; then the cutoff in 8 bytes), the lengths of the six buffers to lend, those of the six parts, and the parts: store, graph, tips, hidden tips,
excluded ids, embargoed ids. Before a case stands its own length. Each is made with ids of 20 bytes and of 32 (card 13). What is expected comes from
compare/model.py, document 02's words; each hand-made case also says what it should be.
"""
import os
import struct
import sys

sys.path[:0] = [os.path.dirname(__file__), os.path.join(os.path.dirname(__file__), "..", "compare")]
import generate  # noqa: E402
import model  # noqa: E402
import reports  # noqa: E402
import formats  # noqa: E402
from formats import SHA1, SHA256, WIDTHS, hash_version, parent_line, parents_size, u32  # noqa: E402
from generate import BREADTH, CUTOFF_NEWEST, NEWEST, OLDEST, Case  # noqa: E402

PLACES = 512
cases, lines = [], []
width = SHA1  # of the ids of the case that is made


def body(parents, seconds):
    return formats.body(parents, seconds, width=width)


def Pair(bodies, rows=None, **torn):
    return generate.Pair(bodies, rows, width=width, **torn)


def lengths(case):
    p = case.walk().P if case.pair.files.fault is None else 0
    return [width * p, p, p, p, 5 * p, parents_size(width)]


def encoded(letter, case, embargoed, lent):
    order = {"breadth": 0, "newest": 1, "oldest": 2}[generate.ORDER[case.sorting]]
    parts = (case.pair.store, case.pair.graph, b"".join(case.tips), b"".join(case.hidden), b"".join(case.barred), embargoed)
    out = letter + struct.pack(">IIIIQ", width, order, case.sorting >= CUTOFF_NEWEST, case.first, case.cutoff)
    out += b"".join(map(u32, lent)) + b"".join(u32(len(part)) for part in parts) + b"".join(parts)
    assert len(out) <= 65536 and all(n <= most for n, most in zip(lent, (SHA256 * PLACES, PLACES, PLACES, PLACES, 5 * PLACES, parents_size(SHA256))))
    cases.append(u32(len(out)) + out)


def said(number, numbers):
    return " ".join(["refused %d" % number if number else "whole"] + [str(n) for n in numbers])


def feed(case, want=None, lent=None, embargoed=b"", outside=False):
    """want: the number, or the seven numbers."""
    number, numbers, less = model.feed_report(case.walk(), embargoed, outside)
    if lent is None:
        lent = lengths(case)
    elif number not in (2, 3, 4, 5, 6):
        number, numbers, less = 1, [0] * 6, 0
    line = said(number, numbers + [less])
    assert want is None or line == (said(want, [0] * 7) if isinstance(want, int) else said(0, want)), (line, want)
    encoded(b"o" if outside else b"f", case, embargoed, lent)
    lines.append(line)


def name(k):
    return bytes([k]) * width


def head():
    return b"tree " + b"0" * (2 * width) + b"\nauthor A <a> 5 +0000\ncommitter A <a> 5 +0000\n"


# ---- card 5

def lone(text, **settings):
    """A history of one commit with this body."""
    return Case(Pair({name(1): text}), [name(1)], **settings)


def bodies():
    """One body, whatever stands in it."""
    top, cone, bed = head(), b"Cone-feed: ", b"Bed-feed: "
    neither = [0, 0, 0, 1, 0, 0, 0]
    only = lambda n: [0, 1, 0, 0, n, 0, 0]
    feed(lone(top), neither)                                                    # no message
    feed(lone(top + b"\n"), neither)                                            # an empty one
    feed(lone(top + b"\n" + cone + b"5"), only(5))                              # no newline at the end
    feed(lone(top + b"\n" + cone + b"5\n"), only(5))
    feed(lone(top + b"\n" + bed + b"7\n" + cone + b"5\n"), [1, 0, 0, 0, 5, 7, -2])
    feed(lone(top + b"\n" + bed + b"7"), [0, 0, 1, 0, 0, 7, 0])
    feed(lone(top + b"\nwords\n" + cone + b"5\n\nmore\n" + bed + b"5\nwords"), [1, 0, 0, 0, 5, 5, 0])    # wherever they stand
    feed(lone(top + b"\n" + cone + b"5\r\n"), 22)                               # CR
    feed(lone(top + b"\n" + cone + b"5 \n"), 22)
    feed(lone(top + b"\n" + cone + b" 5\n"), 22)
    feed(lone(top + b"\n" + cone + b"\n"), 22)                                  # nothing
    feed(lone(top + b"\n" + cone), 22)
    feed(lone(top + b"\n" + cone + b"0000000001\n"), only(1))                   # ten digits
    feed(lone(top + b"\n" + cone + b"00000000001\n"), 22)                       # eleven
    feed(lone(top + b"\n" + cone + b"1000000000\n"), only(10 ** 9))
    feed(lone(top + b"\n" + cone + b"1000000001\n"), 22)
    feed(lone(top + b"\n" + bed + b"1000000001\n"), 22)
    feed(lone(top + b"\n" + bed + b"9999999999\n"), 22)
    feed(lone(top + b"\n" + cone + b"007\n"), only(7))                          # leading zeros
    feed(lone(top + b"\n" + cone + b"0\n"), only(0))
    feed(lone(top + b"\n" + cone + b"/\n"), 22)
    feed(lone(top + b"\n" + cone + b":\n"), 22)
    feed(lone(top + b"\n" + cone + b"-5\n"), 22)
    feed(lone(top + cone + b"5\n\n"), neither)                                  # before the first empty line
    feed(lone(top + cone + b"5\n\n" + cone + b"6\n"), only(6))
    feed(lone(top + b"\nCone-feed:5\n"), neither)                               # without its space
    feed(lone(top + b"\n " + cone + b"5\n"), neither)
    feed(lone(top + b"\ncone-feed: 5\n"), neither)
    feed(lone(top + b"\nx" + cone + b"5\n"), neither)
    feed(lone(top + b"\n\n\n" + cone + b"5"), only(5))                          # further empty lines are the message's
    feed(lone(top + b"\n" + cone + b"5\n" + cone + b"5\n"), 21)                 # twice
    feed(lone(top + b"\n" + cone + b"5\n" + cone + b"x\n"), 21)                 # readable or not
    feed(lone(top + b"\n" + cone + b"x\n" + cone + b"x"), 21)
    feed(lone(top + b"\n" + cone + b"x\n" + bed + b"1\n" + bed + b"1\n"), 21)   # 21 first, across the two
    feed(lone(top + b"\n" + bed + b"1\n" + cone + b"x\n" + bed + b"1\n"), 21)
    feed(lone(top + b"\n" + cone + b"x\n" + bed + b"y\n"), 22)                  # both faulty
    feed(lone(top + b"\n" + cone + b"1\n" + bed + b"y\n"), 22)
    feed(lone(top[:-1] + b"\n\n" + cone + b"5"), only(5))
    feed(lone(top, sorting=NEWEST), neither)


# ---- card 10

def embargoes():
    """Both readers: readings withheld, faults that are not met, and the list refused among the others."""
    one, two = b"Cone-feed: 5\nBed-feed: 3\n", b"Cone-feed: 2\nBed-feed: 10\n"
    texts = lambda *messages: {name(k + 1): body([name(k + 2)] if k + 1 < len(messages) else [], 100 - k) + text for k, text in enumerate(messages)}
    two_of = Case(Pair(texts(one, two)), [name(1)])
    feed(two_of, [2, 0, 0, 0, 7, 13, -6], embargoed=name(2))
    feed(two_of, [1, 0, 0, 1, 5, 3, 2], embargoed=name(2), outside=True)
    feed(two_of, [1, 0, 0, 1, 2, 10, -8], embargoed=name(1) + name(9) + name(1), outside=True)     # an id that is none, and a repeated one
    feed(two_of, [0, 0, 0, 2, 0, 0, 0], embargoed=name(2) + name(1), outside=True)
    feed(two_of, [2, 0, 0, 0, 7, 13, -6], outside=True)                                            # nothing is embargoed
    for text, number in ((b"Cone-feed: x", 22), (b"Bed-feed: 1\nBed-feed: 1", 21), (b"Cone-feed: \nCone-feed: \n", 21)):
        case = Case(Pair(texts(one, text, two)), [name(1)])
        feed(case, number, embargoed=name(2))                                                      # the shop's reader meets it
        feed(case, number, embargoed=name(3), outside=True)                                        # another is embargoed
        feed(case, [2, 0, 0, 1, 7, 13, -6], embargoed=name(2), outside=True)
    feed(Case(Pair(texts(b"Cone-feed: x", b"Bed-feed: 1\nBed-feed: 1")), [name(1)]), 21, embargoed=name(1), outside=True)
    lost = Case(Pair({name(1): body([name(2)], 100) + one}), [name(1)])
    feed(lost, 9, embargoed=name(2), outside=True)                                                 # the walk's own refusal stays
    row = {name(1): ([name(2)], 2, 100), name(2): ([], 1, 99)}
    feed(Case(Pair({name(1): body([name(2)], 100) + one}, row), [name(1)]), [0, 0, 0, 2, 0, 0, 0], embargoed=name(1), outside=True)
    torn = Case(Pair({}, store=b""), [name(1)])
    most = 1024 * width
    for outside in (False, True):
        feed(two_of, 2, embargoed=b"x" * (most + 1), outside=outside)                              # 2 and 3, for either reader
        feed(two_of, [2, 0, 0, 0, 7, 13, -6], embargoed=b"x" * most, outside=outside)
        for length in (1, width - 1, width + 1, SHA1 + SHA256 - width, most - 1):                  # the other width too
            feed(two_of, 3, embargoed=b"x" * length, outside=outside)
        feed(torn, 2, embargoed=b"x" * (most + 1), outside=outside)                                # before 4 and 1
        feed(torn, 3, embargoed=b"x" * (width - 1), outside=outside)
        feed(two_of, 3, [0] * 6, embargoed=b"x" * (width - 1), outside=outside)
        feed(two_of, 1, [0] * 6, embargoed=name(2), outside=outside)
        for part in ("tips", "hidden", "barred"):
            over = Case(Pair(texts(one, two)), [name(1)])
            setattr(over, part, [name(1)] * 1025)
            feed(over, 2, [0] * 6, embargoed=b"x" * (width - 1), outside=outside)                  # 3 after every 2


def several():
    """Several commits: sums, what comes first, and commits without a message."""
    def chain(messages, rows=None, **settings):
        """The first of the messages is the tip's; None: a commit that the store lacks."""
        n = len(messages)
        texts = {name(k + 1): body([name(k + 2)] if k + 1 < n else [], 100 - k) + text for k, text in enumerate(messages) if text is not None}
        rows = {name(k + 1): ([name(k + 2)] if k + 1 < n else [], n - k, 100 - k) for k in range(n)} if rows else None
        return Case(Pair(texts, rows), [name(1)], **settings)

    one, two = b"Cone-feed: 5\nBed-feed: 3\n", b"Cone-feed: 2\nBed-feed: 10\n"
    for sorting in (BREADTH, NEWEST, OLDEST):
        feed(chain([one, two, b"Cone-feed: 7", b"Bed-feed: 9", b"", b"\n"], sorting=sorting), [2, 1, 1, 2, 14, 22, -6])
    feed(chain([one, None, two], rows=True), [2, 0, 0, 1, 7, 13, -6])            # the graph alone has it
    feed(chain([one, None, two]), 9)
    feed(chain([one, b"Cone-feed: x", None]), 22)                                # the earlier call decides
    feed(chain([one, None, b"Cone-feed: x"]), 9)
    feed(chain([b"Bed-feed: \n", b"Cone-feed: 1\nCone-feed: 1"]), 22)            # the first run
    feed(chain([b"Cone-feed: 1\nCone-feed: 1", b"Bed-feed: \n"]), 21)
    feed(chain([one, two], hidden=[name(2)]), [1, 0, 0, 0, 5, 3, 2])
    feed(chain([one, two, b"Cone-feed: x"], barred=[name(3)]), [2, 0, 0, 0, 7, 13, -6])
    feed(chain([one, two, b"Cone-feed: x"], sorting=CUTOFF_NEWEST, cutoff=99), [2, 0, 0, 0, 7, 13, -6])
    feed(chain([one] * 40), [40, 0, 0, 0, 200, 120, 80])
    most = b"Cone-feed: 1000000000\nBed-feed: 0\n"
    feed(chain([most] * 60), [60, 0, 0, 0, 60 * 10 ** 9, 0, 60 * 10 ** 9])       # past 32 bits
    feed(chain([b"Cone-feed: 0\nBed-feed: 1000000000\n"] * 60), [60, 0, 0, 0, 0, 60 * 10 ** 9, -60 * 10 ** 9])
    feed(Case(Pair({}), []), [0] * 7)
    feed(Case(Pair({}), [name(1)]), 9)
    feed(Case(Pair({}), [name(1)], sorting=NEWEST), 7)
    feed(lone(b"tree", sorting=NEWEST), 8)
    feed(lone(b"tree\n\nCone-feed: x"), 10)
    feed(Case(Pair({}, store=b""), [name(1)]), 4)
    feed(Case(Pair({}, graph=b"CGPHxxxx"), []), 5)
    feed(Case(Pair({}, graph=b"CGPH\1" + bytes([hash_version(width), 4, 0])), []), 6)
    feed(Case(Pair({}, graph=b"CGPH\1" + bytes([hash_version(SHA1 + SHA256 - width), 4, 0])), []), 5)     # of the other width
    good = chain([one, two])
    for k in range(6):
        feed(good, 1, [n - (j == k) for j, n in enumerate(lengths(good))])


def generated(seed, count):
    rng = generate.seeded("reportcases %d" % seed, width)
    for pair, drawn in reports.cases(rng, count, width):
        if len(pair.store) + len(pair.graph) > 6000 or pair.files.fault is None and 8 + len(pair.store) // parent_line(width) + pair.files.count > PLACES - 200:
            continue
        for case in drawn:
            case.cutoff = max(case.cutoff, 0)
            case.pair = reports.with_messages(rng, pair, rng.choice([0, 0, 0.1]))
            if case.walk().P <= PLACES:
                feed(case)
                listed = [name for name in sorted(pair.bodies) if rng.random() < 0.5]
                feed(case, embargoed=b"".join(listed), outside=True)


def main(out):
    global width
    for width in WIDTHS:
        bodies()
        several()
        embargoes()
        generated(1, 240)
    open(os.path.join(out, "stdin"), "wb").write(b"".join(cases))
    open(os.path.join(out, "stdout"), "w").write("\n".join(lines) + "\n")
    kinds = {}
    for line in lines:
        k = " ".join(line.split()[:2]) if line[0] == "r" else "whole"
        kinds[k] = kinds.get(k, 0) + 1
    print(len(lines), kinds)


if __name__ == "__main__":
    main(*sys.argv[1:])
