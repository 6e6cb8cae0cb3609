"""make_example.py DIR: writes DIR/store and DIR/graph: a small history made with git itself, its commits as a commit store, and the
commit-graph file that `git commit-graph write` wrote for it, with the chunks that document 01 skips (generation data, Bloom filters).

Names, dates and contents are fixed, so the same git gives the same bytes.
"""
import os
import subprocess
import sys
import tempfile

sys.path.insert(0, os.path.dirname(__file__))
from formats import store  # noqa: E402


def main(out):
    with tempfile.TemporaryDirectory() as repo:
        env = dict(os.environ, GIT_CONFIG_GLOBAL="/dev/null", GIT_CONFIG_NOSYSTEM="1")

        def git(*words, at=None, data=None, text=True):
            e = dict(env)
            if at is not None:
                for who in ("AUTHOR", "COMMITTER"):
                    e.update({f"GIT_{who}_NAME": "Cone Bench", f"GIT_{who}_EMAIL": "cone@example.org", f"GIT_{who}_DATE": f"@{at} +0100"})
            r = subprocess.run(["git", "-C", repo, *words], env=e, input=data, capture_output=True, check=True)
            return r.stdout.decode().strip() if text else r.stdout

        git("init", "-q", "-b", "main")

        def commit(at, parents):
            blob = git("hash-object", "-w", "--stdin", data=b"run at %d\n" % at)
            tree = git("mktree", data=b"100644 blob %s\tfeed\n" % blob.encode())
            words = [w for p in parents for w in ("-p", p)]
            return git("commit-tree", tree, *words, "-m", f"run at {at}", at=at)

        c = [commit(1700000000, [])]
        for i in range(1, 12):
            c.append(commit(1700000000 + 60 * i, [c[-1]]))
        side = [commit(1700000100 + 60 * i, [c[2]]) for i in range(5)]
        c.append(commit(1700001000, [c[-1], side[0]]))
        c.append(commit(1700001060, [c[-1], side[1], side[2]]))
        c.append(commit(1700001120, [c[-1], *side]))
        c.append(commit(5000000000, [c[-1]]))
        git("update-ref", "refs/heads/main", c[-1])
        git("commit-graph", "write", "--reachable", "--changed-paths")
        bodies = {}
        for name in git("rev-list", "--all").split():
            bodies[bytes.fromhex(name)] = git("cat-file", "commit", name, text=False)
        with open(os.path.join(repo, ".git/objects/info/commit-graph"), "rb") as f:
            graph = f.read()
    with open(os.path.join(out, "store"), "wb") as f:
        f.write(store(bodies))
    with open(os.path.join(out, "graph"), "wb") as f:
        f.write(graph)


main(sys.argv[1])
