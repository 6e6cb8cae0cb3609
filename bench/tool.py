"""tool.py [--repetitions N] FOLDER...: the whole run of the tool `linenhatch` beside git's, on histories that histories.py made. In each repetition every
peer runs once, one after the other, and writes its list to a file; the lists must be the same. A number is the median of the repetitions, in
milliseconds on the clock; in brackets processor time, of all processes that took part. Peers:

    linenhatch           reads the commits through git, makes a store, writes its own commit-graph file of it in memory, tests, walks: `linenhatch TIP [--hide REV]`
    git rev-list         `git rev-list TIP [^REV]`, which reads no more than it needs
    and cat-file         `git rev-list TIP | git cat-file --batch --buffer`: git's list of all that the tip reaches, with every commit's text read, as the tool does

With "graph" git uses the repository's commit-graph file (`git commit-graph write --reachable` wrote it), else it does not; the tool as it is never
goes by it. Needs the tool
(bindings/rust, release), python3 and git:

    python3 bench/tool.py $(python3 bench/histories.py bench/target/histories --only real-10000,real-80000)
"""
import argparse
import os
import resource
import statistics
import subprocess
import sys
import tempfile
import time

HERE = os.path.dirname(os.path.abspath(__file__))
TOOL = os.path.join(HERE, "..", "bindings", "rust", "target", "release", "linenhatch")
ENV = dict(os.environ, GIT_CONFIG_GLOBAL="/dev/null", GIT_CONFIG_NOSYSTEM="1")


def facts(folder):
    with open(os.path.join(folder, "facts")) as f:
        return dict(line.split() for line in f)


def spent():
    usage = resource.getrusage(resource.RUSAGE_CHILDREN)
    return usage.ru_utime + usage.ru_stime


def timed(command, out):
    """Seconds on the clock and of processor time."""
    clock, processor = time.monotonic(), spent()
    with open(out, "wb") as f:
        subprocess.run(command, stdout=f, check=True, env=ENV)
    return time.monotonic() - clock, spent() - processor


def peers(folder, hiding, graph):
    f, repo = facts(folder), os.path.join(folder, "git")
    git = ["git", "-C", repo, "-c", f"core.commitGraph={'true' if graph else 'false'}"]
    tool = [TOOL, "-C", repo, f["tip"]] + (["--hide", f["hidden"]] if hiding else [])
    rev_list = [*git, "rev-list", f["tip"]] + (["^" + f["hidden"]] if hiding else [])
    words = " ".join(git)
    both = ["sh", "-c", f"{words} rev-list {f['tip']} | {words} cat-file --batch --buffer"]
    return [tool, rev_list, both]


def row(folder, hiding, graph, repetitions):
    samples = [[], [], []]
    with tempfile.TemporaryDirectory() as room:
        outs = [os.path.join(room, str(n)) for n in range(3)]
        for _ in range(repetitions):
            for n, command in enumerate(peers(folder, hiding, graph)):
                samples[n].append(timed(command, outs[n]))
        lists = []
        for out in outs[:2]:
            with open(out, "rb") as f:
                lists.append(f.read().split())
    assert sorted(lists[0]) == sorted(lists[1]), "the same commits"
    clock, processor = ([1000 * statistics.median(s[i] for s in part) for part in samples] for i in (0, 1))
    cells = [f"{c:,.0f} ({p:,.0f})" for c, p in zip(clock, processor)]
    name = os.path.basename(os.path.normpath(folder)).rsplit("-", 1)[0]
    first = [name, f"{int(facts(folder)['commits']):,}", "hiding" if hiding else "all", "yes" if graph else "no", f"{len(lists[0]):,}"]
    print(f"| {' | '.join(first + cells)} | {clock[0] / clock[1]:.1f} | {clock[0] / clock[2]:.1f} |", flush=True)


def main():
    p = argparse.ArgumentParser(usage=__doc__)
    p.add_argument("--repetitions", type=int, default=5)
    p.add_argument("folders", nargs="+")
    a = p.parse_args()
    if not os.path.isfile(TOOL):
        sys.exit("build the tool first: tools/staticlib && (cd bindings/rust && cargo build --release --offline)")
    with open("/proc/loadavg") as f:
        print(f"{a.repetitions} repetitions; load average before the run: {' '.join(f.read().split()[:3])}\n")
    print("| history | commits | list | graph | listed | linenhatch | git rev-list | git rev-list and cat-file | linenhatch/rev-list | linenhatch/both |")
    print("|---" * 10 + "|")
    for folder in a.folders:
        for hiding in (False, True):
            for graph in (False, True):
                row(folder, hiding, graph, a.repetitions)


main()
