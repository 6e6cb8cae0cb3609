"""drift.py: hiding where clocks drift. Makes histories of 300 commits in git, 15 percent of the clocks set back by up to 4,000 seconds. Each commit
is hidden in turn, all that the tip reaches is listed, and each list is judged by plain reachability: right are the commits that the tip reaches
and the hidden commit does not, each once. Listed by the tool `linenhatch` as it is, which writes a commit-graph file of its own; with --git-graph
and --no-graph, tested and with --untested, with no commit-graph file, with one of the older half (a stale one) and with one of all commits; and by
`git rev-list` with no such file and with one of all commits. A list that the tool refuses is counted apart; it may give refusal 15 and no other.

    tools/staticlib && (cd bindings/rust && cargo build --release --offline)
    python3 compare/drift.py

Options: --seeds N (5 histories, of the seeds 1 to N), --commits N (300), --tool FILE. A seed always gives the same history. Ends with status 1 if a
list of the tool as it is, is wrong or refused, if a tested one is wrong, or if one with git's file of all commits is wrong or refused: there the
premises of the theorem hold. Elsewhere they do not, and git is no judge either: the counts say how often each is wrong. Needs python3 and git; some
minutes.
"""
import argparse
import os
import random
import shutil
import subprocess
import sys
import tempfile

HERE = os.path.dirname(os.path.abspath(__file__))
TOOL = os.path.join(HERE, "..", "bindings", "rust", "target", "release", "linenhatch")
BENCHES, APART = 4, 60                                 # lines of runs; seconds from one commit to the next
PART, MOST_BACK = 0.15, 4_000                          # of the clocks; seconds
ENV = {k: v for k, v in os.environ.items() if not k.startswith("GIT_")} | {"GIT_CONFIG_GLOBAL": "/dev/null", "GIT_CONFIG_NOSYSTEM": "1"}
FORMATS = {20: "sha1", 32: "sha256"}                    # by the width of an id, as git names them
FAULTS = ("wrong", "with commits too many", "with commits missing or twice", "commits too many", "refused")


# ---- a history: for each commit its seconds and its parents' numbers, parents first, the tip last

def benches(rng, count):
    """Four benches, each of which goes on from its own last run; two runs in five also take in the last run of a bench. The tip joins all four."""
    parents, last = [[]], [0] * BENCHES
    while len(parents) < count - 1:
        at = rng.randrange(BENCHES)
        links = [last[at]]
        if rng.random() < 0.4 and (other := last[rng.randrange(BENCHES)]) not in links:
            links.append(other)
        last[at] = len(parents)
        parents.append(links)
    parents.append(sorted(set(last)))
    return parents


def drifting(seed, count):
    rng = random.Random(f"drift {seed}")
    parents = benches(rng, count)
    seconds = [1_700_000_000 + APART * n for n in range(count)]
    for n in rng.sample(range(count), round(PART * count)):
        seconds[n] -= rng.randint(1, MOST_BACK)
    return parents, seconds


def reach(parents):
    """For each commit the numbers of those that it reaches, itself among them."""
    out = []
    for n, links in enumerate(parents):
        out.append(frozenset({n}.union(*(out[p] for p in links))))
    return out


# ---- in git

def git(repository, *words, data=None):
    return subprocess.run(["git", "-C", repository, *words], input=data, stdout=subprocess.PIPE, check=True, env=ENV).stdout


def make(repository, parents, seconds, zones=None, width=20):
    """The ids of the commits, in order. zones: of each commit the author's and the committer's. width: of the ids."""
    stream = []
    for n, links in enumerate(parents):
        stream += ["reset refs/heads/main\n\n"] if n and not links else []  # a further root; else it would go on from the commit before
        text = f"run {n}\n"
        people = [f"{who} Bench <bench@example.org> {seconds[n]} {zone}\n" for who, zone in zip(("author", "committer"), zones[n] if zones else ["+0000"] * 2)]
        stream.append(f"commit refs/heads/main\nmark :{n + 1}\n{''.join(people)}data {len(text)}\n{text}")
        stream += [f"{'merge' if i else 'from'} :{p + 1}\n" for i, p in enumerate(links)]
    os.mkdir(repository)
    git(repository, "init", "-q", "--bare", f"--object-format={FORMATS[width]}", ".")
    marks = os.path.join(repository, "marks")
    git(repository, "fast-import", "--quiet", "--force", "--date-format=raw-permissive", f"--export-marks={marks}", data="".join(stream).encode())
    with open(marks) as f:
        ids = dict(line.split() for line in f)
    return [ids[f":{n + 1}"] for n in range(len(parents))]


def with_graph(repository, copy, ids):
    """A copy of the repository with the commit-graph file that git writes of what these reach."""
    shutil.copytree(repository, copy)
    git(copy, "commit-graph", "write", "--stdin-commits", data="".join(f"{x}\n" for x in ids).encode())
    return copy


# ---- the lists

def ours(tool, repository, *options):
    words = [tool, "-C", repository, *options]
    return lambda tip, hidden: words + ["--hide", hidden, tip]


def rev_list(repository, graph):
    words = ["git", "-C", repository, "-c", f"core.commitGraph={'true' if graph else 'false'}", "rev-list"]
    return lambda tip, hidden: words + [tip, f"^{hidden}"]


def judge(command, ids, reached):
    """The counts of FAULTS over the lists."""
    counts = [0] * len(FAULTS)
    for n, hidden in enumerate(ids):
        done = subprocess.run(command(ids[-1], hidden), stdout=subprocess.PIPE, stderr=subprocess.PIPE, env=ENV)
        if done.returncode == 1 and not done.stdout and b"(refusal 15, " in done.stderr:
            counts[-1] += 1
            continue
        done.check_returncode()
        out = done.stdout.decode().split()
        listed, right = set(out), {ids[m] for m in reached[-1] - reached[n]}
        more, less = len(listed - right), len(right - listed) + len(out) - len(listed)
        for i, x in enumerate((bool(more or less), bool(more), bool(less), more)):
            counts[i] += x
    return counts


def run(seed, count, tool):
    """The counts of each lister with each file, over one history."""
    parents, seconds = drifting(seed, count)
    reached = reach(parents)
    links = [(n, m) for n, p in enumerate(parents) for m in p]
    print(f"seed {seed}: {len(links)} links, over {sum(seconds[n] <= seconds[m] for n, m in links)} of them the parent is not older", flush=True)
    with tempfile.TemporaryDirectory() as room:
        plain = os.path.join(room, "plain")
        ids = make(plain, parents, seconds)
        whole = with_graph(plain, os.path.join(room, "whole"), ids)
        stale = with_graph(plain, os.path.join(room, "stale"), ids[:len(ids) // 2])
        files = {"none": plain, "of the older half": stale, "of all commits": whole}
        lists = [("", "none"), ("", "of the older half"), ("--git-graph", "of the older half"), ("--git-graph", "of all commits"), ("--no-graph", "none"),
                 ("--untested --git-graph", "of the older half"), ("--untested --git-graph", "of all commits"), ("--untested --no-graph", "none")]
        commands = {(f"linenhatch {words}".strip(), what): ours(tool, files[what], *words.split()) for words, what in lists} | {
                    ("git rev-list", "none"): rev_list(plain, False),
                    ("git rev-list", "of all commits"): rev_list(whole, True)}
        return {name: judge(command, ids, reached) for name, command in commands.items()}


def main():
    p = argparse.ArgumentParser(usage=__doc__)
    p.add_argument("--seeds", type=int, default=5)
    p.add_argument("--commits", type=int, default=300)
    p.add_argument("--tool", default=TOOL)
    a = p.parse_args()
    if not os.path.isfile(a.tool):
        sys.exit(f"there is no {os.path.normpath(a.tool)}: tools/staticlib && (cd bindings/rust && cargo build --release --offline)")
    print(f"{a.seeds} histories of {a.commits} commits, {round(PART * a.commits)} clocks of each set back by 1 to {MOST_BACK:,} s; each commit "
          "hidden in turn, each list judged by plain reachability")
    runs = [run(seed, a.commits, os.path.abspath(a.tool)) for seed in range(1, a.seeds + 1)]
    print(f"\n| lister | git's commit-graph file | wrong of {a.commits}, by seed | {FAULTS[0]} of {a.seeds * a.commits:,} | {' | '.join(FAULTS[1:])} |")
    print("|---" * (3 + len(FAULTS)) + "|")
    for name in runs[0]:
        sums = [f"{sum(column):,}" for column in zip(*(r[name] for r in runs))]
        print(f"| {' | '.join(name)} | {', '.join(str(r[name][0]) for r in runs)} | {' | '.join(sums)} |")
    def bad(refused, chosen):
        return any(r[name][0] + (r[name][-1] if refused else 0) for r in runs for name in r if name[0].startswith("linenhatch") and chosen(*name))

    for why, found in (("a list of the tool as it is, is wrong or refused", bad(True, lambda lister, _: lister == "linenhatch")),
                       ("a tested list of ours is wrong", bad(False, lambda lister, _: "--untested" not in lister)),
                       ("with git's commit-graph file of all commits a list of ours is wrong or refused", bad(True, lambda _, what: what == "of all commits"))):
        if found:
            print(f"\nFAILED: {why}")
            return 1
    print("\nno list of the tool as it is, is wrong or refused; no tested list is wrong; with git's commit-graph file of all commits none is refused")
    return 0


if __name__ == "__main__":
    sys.exit(main())
