"""published.py DRIVER DIR: the published walks of DIR (crates/runs: `stdin`, and `stdout`, which tools/make_runs.py wrote) beside the unaltered
`Simple` over the stand-ins and beside the definitions of crates/walk/specs. Ends with status 1 if any differs.

A tested opening that is accepted is compared as a plain one. The driver's answers are compared wherever an opening is not refused with 1 to 3 or 13 to 15,
which the Rust does not have, and no row has level 0: opening or refusal, then for each call
the id, the generation, the seconds and the parents, or the refusal's number, or end; the zone, which the Rust does not give, is left out (card 7).
The definitions' answers are compared in every field.
"""
import collections
import os
import struct
import sys

import compare
import definitions
from generate import Case, Pair


def cases(data):
    """(title, case) of each frame; the lists may not be whole ids."""
    at = 0
    while at < len(data):
        at += 4
        sorting, cutoff, first, _ = struct.unpack_from(">BqBB", data, at)
        at, parts = at + 11, []
        for _ in range(7):
            size = int.from_bytes(data[at:at + 4], "big")
            parts.append(data[at + 4:at + 4 + size])
            at += 4 + size
        title, store, graph, *lists, _ = parts
        ids = [[part[i:i + 20] for i in range(0, len(part), 20)] for part in lists]
        yield title.decode(), Case(Pair({}, None, store=store, graph=graph), *ids, sorting, cutoff, bool(first))


def checksum(ids):
    out = 0
    for byte in b"".join(ids):
        out = (31 * out + byte) % 65521
    return str(out)


def parents_text(ids):
    told = [x.hex() for x in ids]
    return [str(len(ids))] + (told if len(ids) <= 8 else [told[0], "to", told[-1], "checksum", checksum(ids)])


def short(line):
    """Of a published line what the driver says too."""
    words = line.split()
    if words[0] == "refused":
        return ["error", words[1]]
    return ["end"] if words[0] == "end" else ["commit", words[1], words[3], words[5]] + words[13:-2]


def from_driver(line):
    words = line.split()
    return words[:4] + parents_text([bytes.fromhex(x) for x in words[4:]]) if words[0] == "commit" else words


def from_definitions(answer):
    kind, parents, zone, admitted, struck, waiting = answer
    word, name, level, seconds = kind if kind[0] == "commit" else (kind[0] if kind[0] == "end" else "refused %d" % kind[1], bytes(20), None, None)
    values = ["-" if value is None else str(value) for value in (level, seconds, zone)]
    return " ".join([word, name.hex(), "generation", values[0], "seconds", values[1], "admitted", str(admitted), "struck", str(struck), "waiting", str(waiting),
                     "parents"] + parents_text(parents) + ["zone", values[2]])


def main(driver, folder):
    with open(os.path.join(folder, "stdin"), "rb") as file:
        all_cases = list(cases(file.read()))
    with open(os.path.join(folder, "stdout")) as file:
        blocks = [block.split("\n") for block in ("\n" + file.read().rstrip("\n")).split("\n# ")[1:]]
    assert [block[0] for block in blocks] == [title for title, _ in all_cases]
    seen, bad = collections.Counter(), []
    for (title, case), (_, opening, *calls) in zip(all_cases, blocks):
        refused = int(opening.split()[1]) if opening.startswith("refused") else None
        if refused in (1, 2, 3, 13, 14, 15):
            seen["refused 1 to 3 or 13 to 15: not in the Rust"] += 1
            continue
        if refused is not None:
            calls = []
        # "Runs beside the crate keep to files without a zero" (card 6)
        beside = case.pair.files.levelled
        seen["with a level 0: not beside the Rust"] += not beside
        if beside:
            got = compare.driven(driver, [(case, len(calls))])[0]
            if got[0] != ("open" if refused is None else "open %d" % refused) or [from_driver(x) for x in got[1:]] != [short(x) for x in calls]:
                bad.append("driver: " + title)
        said, answers = definitions.answers(case, len(calls))
        if (said[0] == "opened") != (refused is None) or refused not in (None, said[1]) or [from_definitions(x) for x in answers] != calls:
            bad.append("definitions: " + title)
        seen["compared"] += 1
        seen["calls compared"] += len(calls)
    for what, count in sorted(seen.items()):
        print("%s: %d" % (what, count))
    print("\n".join(["differ: %d" % len(bad)] + bad))
    return bool(bad)


if __name__ == "__main__":
    sys.exit(main(*sys.argv[1:]))
