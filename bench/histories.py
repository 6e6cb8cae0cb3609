"""histories.py DIR [--only NAME-SIZE,...]: makes the histories of the bench under DIR, each in a folder NAME-SIZE (real256 is the shape real in a repository with
SHA-256 ids):

    git/        a bare repository, made by `git fast-import`, with the commit-graph file that `git commit-graph write` wrote
    store       the commit store: git's own commits, read back with `git cat-file --batch`
    graph       a copy of that commit-graph file
    facts       lines of a word and a value: commits, links, tip, hidden, cutoff

Every number comes from a fixed seed, so the same git gives the same bytes. A folder that is complete is not made again.
"""
import argparse
import hashlib
import os
import random
import shutil
import subprocess
import sys

sys.dont_write_bytecode = True
sys.path.insert(0, os.path.join(os.path.dirname(os.path.abspath(__file__)), "..", "tools"))
from formats import SHA1, SHA256, digest_name, entry_size, parent_line, u32  # noqa: E402

MOST_BYTES = 16_777_216
MOST_PARENTS = 256
SIZES = (1_000, 10_000, 80_000)
# as many commits as fit a store, in steps of 256
WIDEST, DENSEST = 99_840, 1_536
# with SHA-256: the first two sizes stand beside those of SHA-1, the third is about as much as fits
WIDE_SIZES = (1_000, 10_000, 64_000)

ENV = dict(os.environ, GIT_CONFIG_GLOBAL="/dev/null", GIT_CONFIG_NOSYSTEM="1")


# ---- shapes: a list of (seconds, parents as numbers of earlier commits), the tip last; and the numbers of a commit to hide and of
# ---- seconds to cut off at. A child is always newer than its parents, so that git and the walk agree on what hiding leaves.

def chain(count):
    commits = [(1 + n, [n - 1] if n else []) for n in range(count)]
    return commits, count // 2, 1 + count // 2


def real(count):
    """A main line with topic branches that are open for a while, are merged back, and at times take in the main line."""
    rng = random.Random(f"real {count}")
    commits, used, clock = [(1, [])], set(), 1
    main, topics = 0, []
    middle = None

    def add(parents):
        nonlocal clock
        clock += rng.choice((0, 1, 1, 1, 2, 2, 3))
        seconds = max([clock] + [commits[p][0] + 1 for p in parents])
        while (seconds, tuple(parents)) in used:
            seconds += 1
        used.add((seconds, tuple(parents)))
        commits.append((seconds, parents))
        return len(commits) - 1

    # each open branch still needs its merge
    while len(commits) + len(topics) + 1 < count:
        draw = rng.random()
        if draw < 0.10 and len(topics) < 24:
            # from the main line's head, or from a commit near it
            start = main if rng.random() < 0.7 else max(0, main - rng.randrange(60))
            topics.append(add([start]))
        elif draw < 0.19 and topics:
            # a merge into the main line; now and then of several branches at once
            merged = [topics.pop(rng.randrange(len(topics)))]
            while topics and rng.random() < 0.03:
                merged.append(topics.pop(rng.randrange(len(topics))))
            main = add([main] + merged)
        elif draw < 0.24 and topics:
            at = rng.randrange(len(topics))
            topics[at] = add([topics[at], main])
        elif draw < 0.75 and topics:
            at = rng.randrange(len(topics))
            topics[at] = add([topics[at]])
        else:
            main = add([main])
        if middle is None and len(commits) * 2 >= count:
            middle = main
    while topics:
        main = add([main, topics.pop()])
    while len(commits) < count:
        main = add([main])
    return commits, middle, commits[middle][0]


def wide(count):
    """Merges of merges: the tip has 256 parents, each of these 256, and so on, as far as the commits go. No commit has two children."""
    rng = random.Random(f"wide {count}")
    parents, given = [[] for _ in range(count)], 1
    for number in range(count):
        take = min(MOST_PARENTS, count - given)
        parents[number] = list(range(given, given + take))
        given += take
        if given == count:
            break
    inner = number + 1
    leaves = list(range(1, count - inner + 1))
    rng.shuffle(leaves)
    # number 0 is the tip here: turned around, so that parents come first
    seconds = [count + 1 - n if n < inner else leaves[n - inner] for n in range(count)]
    commits = [(seconds[n], [count - 1 - p for p in parents[n]]) for n in reversed(range(count))]
    return commits, count - 1 - inner // 2, count // 2


def dense(count):
    """Layers of 256 commits, each of them a merge of the whole layer below: most links lead to a commit that is seen already."""
    commits, layer = [], []
    hidden = None
    while len(commits) < count - 1:
        size = min(MOST_PARENTS, count - 1 - len(commits))
        below = layer
        layer = []
        for _ in range(size):
            commits.append((len(commits) + 1, list(below)))
            layer.append(len(commits) - 1)
        if hidden is None and len(commits) * 2 >= count:
            hidden = layer[0]
    commits.append((len(commits) + 1, layer))
    return commits, hidden, count // 2


def reached(commits):
    """How many commits the tip reaches."""
    seen = {len(commits) - 1}
    for number in reversed(range(len(commits))):
        if number in seen:
            seen.update(commits[number][1])
    return len(seen)


def store_bytes(commits, width):
    """How long the store of these commits will be."""
    return 8 + sum(entry_size(width) + 6 + 2 * width + parent_line(width) * len(p) + 21 + 23 + len(str(s)) + 1 for s, p in commits)


# ---- files

def git(repo, *words, **more):
    return subprocess.run(["git", "-C", repo, *words], env=ENV, check=True, stdout=subprocess.PIPE, **more).stdout


def stream(commits):
    """The input of fast-import. Commits have no files and no message: the smallest that are good."""
    for number, (seconds, parents) in enumerate(commits):
        lines = ["commit refs/heads/main", f"mark :{number + 1}", "author A <a> 5 +0000", f"committer A <a> {seconds} +0000", "data 0"]
        if parents:
            lines += [f"from :{parents[0] + 1}"] + [f"merge :{p + 1}" for p in parents[1:]]
        else:
            lines = ["reset refs/heads/main"] + lines
        yield ("\n".join(lines) + "\n\n").encode()


def read_back(repo, ids):
    """The bodies of commits, in this order."""
    out = git(repo, "cat-file", "--batch", input=b"".join(i.hex().encode() + b"\n" for i in ids))
    at = 0
    for name in ids:
        end = out.index(b"\n", at)
        head, kind, size = out[at:end].split()
        assert head.decode() == name.hex() and kind == b"commit"
        yield out[end + 1:end + 1 + int(size)]
        at = end + 2 + int(size)
    assert at == len(out)


def write_store(path, ids, repo):
    """The store's three parts: bodies by rising id, entries, trailer."""
    ids = sorted(ids)
    end, entries = 0, []
    with open(path, "wb") as f:
        for name, body in zip(ids, read_back(repo, ids)):
            f.write(body)
            end += len(body)
            entries.append(name + u32(end))
        f.write(b"".join(entries) + u32(end) + u32(len(ids)))


def make(folder, name, shape, count, width):
    commits, hidden, cutoff = shape(count)
    assert reached(commits) == count, f"{name}: the tip reaches {reached(commits)} of {count}"
    repo, marks = os.path.join(folder, "git"), os.path.join(folder, "marks")
    os.makedirs(folder)
    subprocess.run(["git", "init", "-q", "--bare", "-b", "main", "--object-format=" + digest_name(width), repo], env=ENV, check=True)
    feed = subprocess.Popen(
        ["git", "-C", repo, "-c", "fastimport.unpackLimit=1", "fast-import", "--quiet", f"--export-marks={marks}"],
        env=ENV, stdin=subprocess.PIPE)
    for part in stream(commits):
        feed.stdin.write(part)
    feed.stdin.close()
    assert feed.wait() == 0
    ids = [None] * count
    with open(marks) as f:
        for line in f:
            mark, word = line.split()
            ids[int(mark[1:]) - 1] = bytes.fromhex(word)
    os.remove(marks)
    assert None not in ids and len(set(ids)) == count, "two commits are the same"
    git(repo, "commit-graph", "write", "--reachable", stderr=subprocess.DEVNULL)
    shutil.copy(os.path.join(repo, "objects/info/commit-graph"), os.path.join(folder, "graph"))
    write_store(os.path.join(folder, "store"), ids, repo)
    size = os.path.getsize(os.path.join(folder, "store"))
    assert size == store_bytes(commits, width) and size <= MOST_BYTES, size
    if count in (WIDEST, DENSEST):
        assert store_bytes(shape(count + MOST_PARENTS)[0], width) > MOST_BYTES, "more commits fit"
    with open(os.path.join(folder, "facts"), "w") as f:
        f.write(f"commits {count}\nlinks {sum(len(p) for _, p in commits)}\n")
        f.write(f"tip {ids[-1].hex()}\nhidden {ids[hidden].hex()}\ncutoff {cutoff}\n")


SHAPES = {"chain": chain, "real": real, "wide": wide, "dense": dense}


def plan():
    """Names, sizes and widths."""
    for name, size in plan_of_sha1():
        yield name, size, SHA1
    for name in ("chain256", "real256"):
        for size in WIDE_SIZES:
            yield name, size, SHA256


def plan_of_sha1():
    for name in ("chain", "real"):
        for size in SIZES:
            yield name, size
    for size in (*SIZES[:2], WIDEST):
        yield "wide", size
    yield "dense", DENSEST


def main():
    words = argparse.ArgumentParser()
    words.add_argument("dir")
    words.add_argument("--only", default="")
    options = words.parse_args()
    with open(os.path.abspath(__file__), "rb") as f:
        stamp = hashlib.sha256(f.read()).hexdigest()
    for name, count, width in plan():
        label = f"{name}-{count}"
        if options.only and label not in options.only.split(","):
            continue
        folder = os.path.join(os.path.abspath(options.dir), label)
        done = os.path.join(folder, "done")
        if os.path.exists(done) and open(done).read() == stamp:
            print(folder)
            continue
        shutil.rmtree(folder, ignore_errors=True)
        make(folder, name, SHAPES[name.removesuffix("256")], count, width)
        with open(done, "w") as f:
            f.write(stamp)
        print(folder, flush=True)


main()
