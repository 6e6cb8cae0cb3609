"""make_benches.py DIR: makes a small git repository in DIR, for a first list and a first report: two benches measure the yarn feed of five pieces, at
the cone and at the needle bed. The tag last-table is what a table was printed from. The second bench's clock stands an hour back.

Names, dates and contents are fixed, so the commits have the same ids everywhere.
"""
import os
import subprocess
import sys

HOUR, START = 3600, 1700000000
STREAM = []


def commit(mark, branch, parents, minutes, subject, *readings):
    at = START + 60 * minutes - (HOUR if branch == "second-bench" else 0)
    who = f"{branch} <bench@example.org> {at} +0100"
    text = subject + "\n" + ("\n" + "".join(f"{what}-feed: {mm}\n" for what, mm in readings) if readings else "")
    STREAM.append(f"commit refs/heads/{branch}\nmark :{mark}\nauthor {who}\ncommitter {who}\ndata {len(text)}\n{text}")
    STREAM.extend(f"{'merge' if i else 'from'} :{p}\n" for i, p in enumerate(parents))
    STREAM.append("\n")


def main(folder):
    commit(1, "main", [], 0, "Set up the benches")
    commit(2, "main", [1], 10, "Piece 1", ("Cone", 1200), ("Bed", 1250))
    commit(3, "main", [2], 20, "Piece 2", ("Cone", 1210), ("Bed", 1245))
    STREAM.append("reset refs/tags/last-table\nfrom :3\n\n")
    commit(4, "main", [3], 30, "Piece 3, cone", ("Cone", 1190))
    commit(5, "second-bench", [3], 40, "Piece 3, needle bed", ("Bed", 1230))
    commit(6, "second-bench", [5], 50, "Piece 4", ("Cone", 1205), ("Bed", 1198))
    commit(7, "main", [4, 6], 60, "Join the second bench's pieces")
    commit(8, "main", [7], 70, "Piece 5", ("Cone", 1195), ("Bed", 1240))
    env = {k: v for k, v in os.environ.items() if not k.startswith("GIT_")}
    env.update(GIT_CONFIG_GLOBAL="/dev/null", GIT_CONFIG_NOSYSTEM="1")
    subprocess.run(["git", "init", "-q", "-b", "main", folder], env=env, check=True)
    subprocess.run(["git", "-C", folder, "fast-import", "--quiet"], input="".join(STREAM).encode(), env=env, check=True)


if __name__ == "__main__":
    if len(sys.argv) != 2 or sys.argv[1].startswith("-"):
        sys.exit(__doc__)
    if os.path.exists(sys.argv[1]) and os.listdir(sys.argv[1]):
        sys.exit(f"{sys.argv[1]} is there already and is not empty")
    main(sys.argv[1])
