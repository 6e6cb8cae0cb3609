"""graphs.py LIBRARY.so TURNS: the commit-graph file of a history, by the library's call over a store in memory and by `git commit-graph write --reachable` with
commitGraph.generationVersion=1 over a repository that holds the same commits packed. Each turn runs both one after the other; the best processor time of each counts.
git's is that of its whole process, of which the start (the same over a repository without commits) is timed too. The two files must be equal byte for byte. If the tool is
built (bindings/rust), so is its file, and the time of `linenhatch write-graph` with the git that it reads through.
"""
import ctypes
import os
import resource
import subprocess
import sys
import tempfile
import time

HERE = os.path.dirname(os.path.abspath(__file__))
sys.path[:0] = [os.path.join(HERE, "..", "partings"), os.path.join(HERE, "..", "..", "compare"), os.path.join(HERE, "..", "..", "tools")]
import drift  # noqa: E402
from partings import git, make, store_of  # noqa: E402

TOOL = os.path.join(HERE, "..", "..", "bindings", "rust", "target", "release", "linenhatch")

WRITE = ("-c", "commitGraph.generationVersion=1", "commit-graph", "write", "--reachable", "--no-progress")


def chain(count):
    return [[n - 1] if n else [] for n in range(count)]


def merges(count):
    """A line on which every second commit also takes in an older one."""
    return [[n - 1] + ([n - 1 - n % 97] if n % 2 and n > 97 else []) if n else [] for n in range(count)]


def wide(count):
    """A line; then series of 255 commits on one, and a merge of them all, up to a third of the whole."""
    parents = chain(count - 256 * (count // 768))
    while len(parents) < count:
        last = len(parents) - 1
        parents += [[last]] * 255 + [list(range(last + 1, last + 256))]
    return parents


class Library:
    def __init__(self, path, store, entries):
        library = ctypes.CDLL(path)
        self.call, length = library.linenhatch_write_graph, library.linenhatch_graph_length
        self.call.restype = length.restype = ctypes.c_uint32
        self.store, self.levels, self.numbers = (ctypes.c_uint8 * len(store)).from_buffer_copy(store), (ctypes.c_uint32 * entries)(), (ctypes.c_uint64 * 1)()
        assert length(ctypes.c_uint32(20), *self.words(self.store, self.levels, self.numbers)) == 0
        self.out = (ctypes.c_uint8 * self.numbers[0])()

    def words(self, *parts):
        return [w for part in parts for w in (ctypes.cast(part, ctypes.c_void_p), ctypes.c_size_t(len(part)))]

    def run(self):
        before = time.process_time()
        assert self.call(ctypes.c_uint32(20), *self.words(self.store, self.levels, self.out, self.numbers)) == 0
        return time.process_time() - before


def tool(repository, file):
    before = resource.getrusage(resource.RUSAGE_CHILDREN)
    subprocess.run([TOOL, "write-graph", repository, "-o", file], check=True, env=drift.ENV)
    after = resource.getrusage(resource.RUSAGE_CHILDREN)
    return after.ru_utime + after.ru_stime - before.ru_utime - before.ru_stime


def measure(what, library, parents, turns):
    with tempfile.TemporaryDirectory() as room:
        repository, empty = os.path.join(room, "r"), os.path.join(room, "empty")
        ids = make(repository, parents)
        os.mkdir(empty)
        drift.git(empty, "init", "-q", "--bare", ".")
        store = store_of(repository, ids)
        ours = Library(library, store, len(ids))
        file = os.path.join(repository, "objects", "info", "commit-graph")
        times = {"library": [], "git": [], "git's start": []} | ({"the tool": []} if os.path.exists(TOOL) else {})
        by_tool = os.path.join(room, "by-tool")
        for _ in range(turns):
            times["library"].append(ours.run())
            if os.path.exists(file):
                os.remove(file)
            times["git"].append(git(repository, *WRITE)[0])
            times["git's start"].append(git(empty, *WRITE)[0])
            if "the tool" in times:
                times["the tool"].append(tool(repository, by_tool))
        same = True
        for written in [file] + [by_tool] * ("the tool" in times):
            with open(written, "rb") as f:
                same = same and f.read() == bytes(ours.out)
        best = {name: min(taken) * 1e3 for name, taken in times.items()}
        print("%s (%d commits, %d links, a store of %d bytes, a file of %d): %s; library over git %.2f, over git less its start %.2f%s" % (
            what, len(ids), sum(map(len, parents)), len(store), len(ours.out), ", ".join("%s %.1f ms" % pair for pair in best.items()),
            best["library"] / best["git"], best["library"] / (best["git"] - best["git's start"]), "" if same else "; THE FILES DIFFER"))
    return not same


def main():
    library, turns = sys.argv[1], int(sys.argv[2])
    histories = [("a line", chain(count)) for count in (20000, 40000, 80000)]
    histories += [("merges", merges(count)) for count in (20000, 80000)]
    histories += [("wide merges", wide(count)) for count in (20000, 80000)]
    print("load of the machine at the start: %.1f" % os.getloadavg()[0])
    bad = sum(measure(what, library, parents, turns) for what, parents in histories)
    print("load at the end: %.1f" % os.getloadavg()[0])
    return bad


if __name__ == "__main__":
    sys.exit(main())
