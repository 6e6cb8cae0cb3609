"""cases.py FILE: writes the base cases that faults.c damages, drawn from every family of generate.py, in the format of the comparison's
driver (compare/README.md). Options: --seed N; --scale N (percent of the cases); --width N (of ids, 20)."""
import argparse
import os
import sys

sys.path.insert(0, os.path.join(os.path.dirname(os.path.abspath(__file__)), ".."))
import generate  # noqa: E402

PAIRS = 60           # pairs of files of a family
FEW = {"wide merges": 20, "long histories": 6}  # of those whose files are long
VARIANTS = 3         # cases for each pair


def main():
    options = argparse.ArgumentParser()
    options.add_argument("file")
    options.add_argument("--seed", type=int, default=1)
    options.add_argument("--scale", type=int, default=100)
    options.add_argument("--width", type=int, default=generate.SHA1, choices=generate.formats.WIDTHS)
    options = options.parse_args()
    cases = [case for _, case, _, _ in generate.named_runs(options.width)]
    for name, family, _, _, *draw in generate.FAMILIES:
        rng = generate.seeded("%d %s" % (options.seed, name), options.width)
        for _ in range(max(1, FEW.get(name, PAIRS) * options.scale // 100)):
            cases += generate.random_cases(rng, family, VARIANTS, *draw, width=options.width)
    with open(options.file, "wb") as file:
        for case in cases:
            file.write(case.bytes(0))
    print("%d base cases" % len(cases))


if __name__ == "__main__":
    main()
