"""make_tokens.py DIR: writes DIR/stdin and DIR/stdout, the vectors of the program `tokens` and what it must print.

A vector is one byte for the id kind (`1` SHA-1, `2` SHA-256), a commit's body and a zero byte. The expected lines come from the patterns below, which
are document 01's words on header lines and share nothing with the Rattle crates: a line counts only where the line before it lets it stand.
"""
import re
import sys

WIDTHS = {1: 40, 2: 64}  # hexadecimal digits of an id


def zone(text):
    """Card 7: "sign, four digits, minutes below 60, hours at most 14, then the line's end; anything else reads as none"."""
    found = re.fullmatch(rb"([+-])(0[0-9]|1[0-4])([0-5][0-9])", text)
    return str(int(found[1] + b"1") * (60 * int(found[2]) + int(found[3]))) if found else "none"


def expected(kind, body):
    """The tokens of a body, a line each, up to the end."""
    hexes = rb"[0-9a-f]{%d}" % WIDTHS[kind]
    tree, parent = rb"tree " + hexes + rb"\n", rb"parent (" + hexes + rb")\n"
    author = rb"author [^\n<]*<[^\n>]*>[^\n]*\n"
    committer = rb"committer [^\n]*> (-?[0-9]{1,18})(?: ([^\n>]*))?\n"
    lines, at, allowed = [], 0, [("tree", tree)]
    while allowed:
        for name, pattern in allowed:
            found = re.compile(pattern).match(body, at)
            if found:
                break
        else:
            lines.append("bad" if at < len(body) else "end")
            break
        at = found.end()
        told = found.group(1).decode() if name in ("parent", "committer") else ""
        if name == "committer":
            told += " zone " + zone(found.group(2) or b"")
        lines.append((name + " " + told).strip())
        allowed = {
            "tree": [("parent", parent), ("author", author)],
            "parent": [("parent", parent), ("author", author)],
            "author": [("committer", committer)],
            "committer": [],
        }[name]
    if lines[-1] != "end":
        lines.append("end")
    return lines


def commit(*lines):
    return b"".join(line.encode() + b"\n" for line in lines)


def main():
    tree, one, two = "tree " + "0" * 40, "parent " + "1" * 39 + "a", "parent " + "2" * 40
    author, committer = "author A <a> 5 +0000", "committer B <b> -7 +0100"
    wide = "tree " + "0" * 64, "parent " + "1" * 63 + "f"
    vectors = [
        (1, commit(tree, one, two, author, committer, "", "parent of none")),  # a good commit
        (1, commit(tree, author, committer)),                                  # a good commit without parents
        (1, commit(tree, committer)),                                          # a committer right after the tree
        (1, commit(tree, author, "committer B <b> 7 -1459")),                  # the farthest zone back
        (1, commit(tree, author, "committer B <b> 7 +1460")),                  # no zone: minutes of 60
        (1, commit(tree, author, "committer B <b> 7")),                        # no zone
        (1, commit(tree, one, committer)),                                     # a committer right after a parent
        (1, commit(tree, one, author, two, committer)),                        # a parent after the author
        (1, commit(tree, one, author, author, committer)),                     # two authors
        (1, commit(tree, tree, author, committer)),                            # two trees
        (1, commit(author, committer)),                                        # no tree
        (1, commit(tree, one, author)),                                        # the body ends before the committer
        (1, commit(tree, one)[:-1]),                                           # the last line has no newline
        (2, commit(wide[0], wide[1], author, committer)),                      # a good commit with SHA-256 ids
        (2, commit(tree, one, author, committer)),                             # SHA-1 ids read as SHA-256
        (1, b""),                                                              # nothing
    ]
    with open(sys.argv[1] + "/stdin", "wb") as out:
        for kind, body in vectors:
            assert b"\0" not in body
            out.write(b"%d" % kind + body + b"\0")
    with open(sys.argv[1] + "/stdout", "w") as out:
        for kind, body in vectors:
            out.write("".join(line + "\n" for line in expected(kind, body)) + "\n")


main()
