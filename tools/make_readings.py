"""make_readings.py DIR: writes DIR/stdin and DIR/stdout, the vectors of the program `readings` and what it must print.

A vector is one byte, the length of a commit's body, and the body. The expected lines come from the patterns below, which are document 02's words on
the feed report (card 5) and share nothing with the Rattle crates.
"""
import re
import sys

STARTS = (b"Cone-feed: ", b"Bed-feed: ")


def message(body):
    """What follows the first empty line: the first newline that is the first byte of its line."""
    found = re.search(rb"(?:\A|\n)\n", body)
    return body[found.end():] if found else b""


def reading(text):
    """1 to 10 decimal digits, at most 1,000,000,000; None where a line goes on otherwise."""
    good = re.fullmatch(rb"[0-9]{1,10}", text) and int(text) <= 1_000_000_000
    return int(text) if good else None


def expected(body):
    """A line that starts so counts wherever it stands; 21 goes before 22."""
    lines = message(body).split(b"\n")
    told = [[line[len(start):] for line in lines if line.startswith(start)] for start in STARTS]
    if any(len(each) > 1 for each in told):
        return "! 21"
    if any(reading(each[0]) is None for each in told if each):
        return "! 22"
    return " ".join(str(reading(each[0])) if each else "-" for each in told)


def main():
    head = b"tree t\nauthor a\n\n"
    cone, bed = STARTS
    bodies = [
        head + b"A run\n\n" + cone + b"1200\n" + bed + b"1199\n",          # both
        head + cone + b"1000000000\n" + bed + b"0",                        # the most; the body's end ends a line
        head + cone + b"0000000007\n",                                     # leading zeros
        head + cone + b"1000000001\n",                                     # one more than the most
        head + cone + b"9999999999\n",                                     # 10 digits
        head + cone + b"00000000007\n",                                    # 11 digits
        head + bed + b"\n", head + bed,                                    # nothing
        head + bed + b"5\r\n", head + bed + b"5 \n", head + bed + b" 5\n",  # bytes that are no digits
        head + bed + b"-5\n", head + bed + b"5/\n", head + bed + b":\n",
        head + b"Bed-feed:5\n", head + b" " + bed + b"5\n", head + b"bed-feed: 5\n",  # other starts
        head + b"x " + bed + b"5\n",
        head + bed + b"5\nlast\n", head + b"\n\n" + bed + b"5\n\n",        # wherever they stand
        cone + b"5\n\n", b"x\n" + cone + b"5\n", b"",                      # no message has them
        b"\n" + cone + b"5\n", b"\n", b"\n\n" + bed + b"6", b"x\n\n",      # a body that begins with its empty line
        head + cone + b"5\n" + cone + b"5\n",                              # given twice
        head + cone + b"\n" + cone + b"5", head + bed + b"x\n" + bed + b"y\n",
        head + cone + b"x\n" + bed + b"5\n" + bed + b"5\n",                # twice before unreadable, across the starts
        head + bed + b"x\n" + cone + b"5\n" + cone + b"6\n",
        head + cone + b"x\n" + bed + b"5\n", head + cone + b"5\n" + bed + b"x\n",
    ]
    where = sys.argv[1]
    with open(where + "/stdin", "wb") as out:
        for body in bodies:
            out.write(bytes([len(body)]) + body)
    with open(where + "/stdout", "w") as out:
        out.write("".join(expected(body) + "\n" for body in bodies))


if __name__ == "__main__":
    main()
