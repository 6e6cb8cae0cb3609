"""merges.py SAMPLES HISTORIES: the table of `merges`: nanoseconds for each parent link, the least of all turns, and ratios."""
import collections
import re
import sys

LINKS = {"wide": "new", "dense": "seen"}
FROM = {"yes": "rows", "no": "bodies"}


def main():
    least = collections.defaultdict(lambda: float("inf"))
    cases = []
    for line in open(sys.argv[1]):
        peer, graph, label, said = line.rstrip("\n").split("\t")
        each = float(re.search(r"least (\d+)", said).group(1))
        case = (label, graph)
        if case not in cases:
            cases.append(case)
        least[case, peer] = min(least[case, peer], each)
    print("| history | parents | from | before | after | Simple | after/before | after/Simple |")
    print("|---|---|---|---|---|---|---|---|")
    for label, graph in cases:
        name, count = label.rsplit("-", 1)
        links = counted(name, int(count))
        before, after, simple = (least[(label, graph), peer] * int(count) / links for peer in ("before", "after", "simple"))
        print(f"| {label} | {LINKS[name]} | {FROM[graph]} | {before:.1f} | {after:.1f} | {simple:.1f} | {after / before:.2f} | {after / simple:.2f} |")


def counted(name, count):
    """How many parent links there are: in wide each commit but the tip is a parent once; in dense each layer of 256 has the whole layer below."""
    if name == "wide":
        return count - 1
    layers, rest = divmod(count - 1, 256)
    sizes = [256] * layers + ([rest] if rest else [])
    return sum(a * b for a, b in zip(sizes, sizes[1:])) + sizes[-1]


main()
