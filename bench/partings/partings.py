"""partings.py LIBRARY.so TURNS: where two series part, by the library's call over a store in memory and by `git merge-base --all` over a repository that
holds the same commits packed, without a commit-graph file and with one. Each turn runs all three one after another; the best processor time
of each counts. git's is that of its whole process, of which the start (`git merge-base` of a commit with itself) is timed too.
"""
import ctypes
import os
import resource
import subprocess
import sys
import tempfile
import time

HERE = os.path.dirname(os.path.abspath(__file__))
sys.path[:0] = [os.path.join(HERE, "..", "..", "compare"), os.path.join(HERE, "..", "..", "tools")]
import drift  # noqa: E402
import formats  # noqa: E402

START = 1_700_000_000


def fork(count, line):
    """A line of commits, and two series on it of half the rest each."""
    series = (count - line) // 2
    parents = [[n - 1] if n else [] for n in range(line + series)]
    parents += [[line - 1]] + [[n - 1] for n in range(line + series + 1, line + 2 * series)]
    return parents, line + series - 1, line + 2 * series - 1


def criss_cross(merges):
    """Two series, each of which takes in the other's last commit with every commit."""
    parents = [[], [0], [0]]
    for n in range(merges // 2):
        one, other = len(parents) - 2, len(parents) - 1
        parents += [[one, other], [other, one]]
    return parents, len(parents) - 2, len(parents) - 1


def make(repository, parents):
    """The ids of the commits, in order; names are short, so that 80,000 fit in a store."""
    stream = []
    for n, links in enumerate(parents):
        who = "A <a> %d +0000" % (START + 60 * n)
        stream.append("commit refs/heads/main\nmark :%d\nauthor %s\ncommitter %s\ndata 1\nm\n" % (n + 1, who, who))
        stream += ["%s :%d\n" % ("merge" if k else "from", p + 1) for k, p in enumerate(links)]
    os.mkdir(repository)
    drift.git(repository, "init", "-q", "--bare", ".")
    marks = os.path.join(repository, "marks")
    drift.git(repository, "fast-import", "--quiet", "--force", "--date-format=raw", f"--export-marks={marks}", data="".join(stream).encode())
    with open(marks) as f:
        known = dict(line.split() for line in f)
    return [known[":%d" % (n + 1)] for n in range(len(parents))]


def store_of(repository, ids):
    """The commits cut after their committer line."""
    out = drift.git(repository, "cat-file", "--batch", data="".join(x + "\n" for x in ids).encode())
    bodies, at = {}, 0
    for x in ids:
        end = out.index(b"\n", at)
        size = int(out[at:end].split()[2])
        body = out[end + 1:end + 1 + size]
        bodies[bytes.fromhex(x)] = body[:body.index(b"\n\n") + 1]
        at = end + 2 + size
    return joined(bodies)


def joined(bodies):
    """formats.store in linear time."""
    names, end, ends = sorted(bodies), 0, []
    for name in names:
        end += len(bodies[name])
        ends.append(end)
    return b"".join(bodies[name] for name in names) + b"".join(name + formats.u32(e) for name, e in zip(names, ends)) + formats.u32(end) + formats.u32(len(names))


class Library:
    def __init__(self, path, store, one, other):
        self.call = ctypes.CDLL(path).linenhatch_merge_base
        self.call.restype = ctypes.c_uint32
        p = 2 + len(store) // formats.parent_line(formats.SHA1)
        kinds = [(ctypes.c_uint8, 20 * p), (ctypes.c_uint8, p), (ctypes.c_uint32, p), (ctypes.c_int64, p), (ctypes.c_uint32, 5 * p), (ctypes.c_uint8, 5120), (ctypes.c_uint8, 20), (ctypes.c_uint64, 1)]
        self.kept = [(ctypes.c_uint8 * len(x)).from_buffer_copy(x) for x in (store, one, other)] + [(kind * n)() for kind, n in kinds]
        self.words = [w for part in self.kept for w in (ctypes.cast(part, ctypes.c_void_p), ctypes.c_size_t(len(part)))]

    def run(self):
        before = time.process_time()
        assert self.call(ctypes.c_uint32(formats.SHA1), *self.words) == 0
        return time.process_time() - before

    def said(self):
        return bytes(self.kept[-2]).hex() if self.kept[-1][0] else None


def git(repository, *words):
    before = resource.getrusage(resource.RUSAGE_CHILDREN)
    out = subprocess.run(["git", "-C", repository, *words], stdout=subprocess.PIPE, check=True, env=drift.ENV).stdout
    after = resource.getrusage(resource.RUSAGE_CHILDREN)
    return after.ru_utime + after.ru_stime - before.ru_utime - before.ru_stime, out.decode().split()


def measure(what, library, history, turns):
    parents, one, other = history
    with tempfile.TemporaryDirectory() as room:
        plain = os.path.join(room, "plain")
        ids = make(plain, parents)
        store = store_of(plain, ids)
        ours = Library(library, store, bytes.fromhex(ids[one]), bytes.fromhex(ids[other]))
        filed = os.path.join(room, "filed")
        drift.with_graph(plain, filed, [ids[one], ids[other]])
        times = {"library": [], "git": [], "git with a graph file": [], "git's start": []}
        for _ in range(turns):
            times["library"].append(ours.run())
            for name, words in (("git", (plain, "merge-base", "--all", ids[one], ids[other])), ("git with a graph file", (filed, "merge-base", "--all", ids[one], ids[other])),
                                ("git's start", (plain, "merge-base", "--all", ids[0], ids[0]))):
                took, out = git(*words)
                times[name].append(took)
                if name != "git's start" and ours.said() not in out:
                    print("%s: the library says %s, %s %s" % (what, ours.said(), name, out))
                    return 1
        best = {name: min(taken) * 1e3 for name, taken in times.items()}
        print("%s (%d commits, a store of %d bytes, %d best): %s; library over git %.2f, over git with a graph file %.2f" % (
            what, len(ids), len(store), len(git(plain, "merge-base", "--all", ids[one], ids[other])[1]), ", ".join("%s %.1f ms" % pair for pair in best.items()),
            best["library"] / best["git"], best["library"] / best["git with a graph file"]))
    return 0


def main():
    library, turns = sys.argv[1], int(sys.argv[2])
    histories = [("a fork in the middle", fork(count, count // 2)) for count in (20000, 40000, 80000)]
    histories += [("a fork at the root", fork(80001, 1)), ("criss-cross", criss_cross(1000)), ("criss-cross", criss_cross(40000))]
    return sum(measure(what, library, history, turns) for what, history in histories)


if __name__ == "__main__":
    sys.exit(main())
