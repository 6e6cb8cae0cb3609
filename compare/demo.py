"""demo.py: runs ./demo in every way that it can go and tells whether it ends as its help says: status, what it writes, nothing left running. Proves the
program `history` first if that was not done (`tools/program history`). Needs rt, python3 and a /proc. Ends with status 1 if anything is otherwise.
"""
import os
import shutil
import signal
import subprocess
import sys
import tempfile
import time

TOP = os.path.join(os.path.dirname(os.path.abspath(__file__)), "..")
DATA = os.path.join(TOP, "crates", "history", "data")
FILES = ("store", "graph", "tips", "hidden")
SIGNALS = (signal.SIGTERM, signal.SIGINT, signal.SIGHUP)


def copied(folder, *without, **content):
    """A copy of the demo's files, without some, and with others in the place of some."""
    os.makedirs(folder)
    for name in FILES:
        if name not in without:
            shutil.copy(os.path.join(DATA, name), folder)
    for name, data in content.items():
        with open(os.path.join(folder, name), "wb") as f:
            f.write(data)
    return folder


def without_a_commit():
    """The demo's store less its hundredth commit, by the layout of docs/SPECIFICATION.md, section 1."""
    with open(os.path.join(DATA, "store"), "rb") as f:
        old = f.read()
    start, at, bodies, entries = int.from_bytes(old[-8:-4], "big"), 0, b"", b""
    for n in range(int.from_bytes(old[-4:], "big")):
        entry = old[start + 24 * n:start + 24 * n + 24]
        end = int.from_bytes(entry[20:], "big")
        if n != 99:
            bodies += old[at:end]
            entries += entry[:20] + len(bodies).to_bytes(4, "big")
        at = end
    return bodies + entries + len(bodies).to_bytes(4, "big") + (len(entries) // 24).to_bytes(4, "big")


def run(*words):
    r = subprocess.run(["./demo", *words], cwd=TOP, stdin=subprocess.DEVNULL, stdout=subprocess.PIPE, stderr=subprocess.PIPE, text=True)
    return r.returncode, r.stdout, r.stderr


def of_session(session):
    """The processes of a session that run."""
    out = []
    for word in os.listdir("/proc"):
        try:
            with open(f"/proc/{word}/stat") as f:
                state, _, _, of = f.read().rsplit(")", 1)[1].split()[:4]
        except (OSError, IndexError, ValueError):
            continue
        if word.isdigit() and of == str(session) and state != "Z":
            out.append(word)
    return out


def unignored():
    """In the child: a signal that this run ignores (nohup, or a job in the background) is not ignored there."""
    for number in SIGNALS:
        signal.signal(number, signal.SIG_DFL)


def stopped(number):
    """After a signal to the demo alone, while its programs run: how many ran, its status, and what still runs a second later."""
    p = subprocess.Popen(["./demo"], cwd=TOP, stdin=subprocess.DEVNULL, stdout=subprocess.DEVNULL, stderr=subprocess.DEVNULL, start_new_session=True,
                         preexec_fn=unignored)
    until, ran = time.monotonic() + 30, 0
    while ran < 4 and p.poll() is None and time.monotonic() < until:
        time.sleep(0.05)
        ran = len(of_session(p.pid))
    p.send_signal(number)
    status = p.wait()
    time.sleep(1)
    return ran, status, of_session(p.pid)


def cases(room):
    """What is run: its words, the status, and a part of what it writes on standard output and on standard error."""
    at = lambda name: os.path.join(room, name)
    yield ("--help",), 0, "usage: ./demo", ""
    yield ("--nonsense",), 2, "", "no option --nonsense"
    yield (DATA, "sideways"), 2, "", "'sideways' is no order"
    yield (DATA, "newest", "more"), 2, "", "at most"
    yield (at("nowhere"),), 1, "", "there is no folder"
    yield (copied(at("no-store"), "store"),), 1, "", "there is no"
    yield (copied(at("no-tips"), "tips"),), 1, "", "there is no"
    yield (copied(at("large"), store=bytes(65537)),), 1, "", "bindings/rust/README.md"
    yield (copied(at("large-graph"), graph=bytes(65537)),), 1, "", "has 65537 bytes"
    yield (), 0, "end admitted 182 struck 1 waiting 0", "git gives the same"
    yield (DATA,), 0, "end admitted 182 struck 1 waiting 0", ""
    yield (DATA, "breadth"), 0, "end admitted 182 struck 1 waiting 0", ""
    yield (copied(at("no-graph"), "graph", "hidden"),), 0, "end admitted 234 struck 0 waiting 0", ""
    yield (copied(at("torn-graph"), graph=b"CGPH\1\1\4\0"),), 1, "refused 6 ", "is not opened"
    yield (copied(at("torn-store"), store=b"no store"),), 1, "refused 4 ", "is not opened"
    yield (copied(at("lost"), "graph", "hidden", store=without_a_commit()),), 1, "refused 9 ", "is not whole: 1 refused"


def main():
    bad = count = 0
    with tempfile.TemporaryDirectory() as room:
        for words, status, out, err in cases(room):
            got = run(*words)
            count += 1
            if got[0] != status or out not in got[1] or err not in got[2]:
                bad += 1
                print(f"./demo {' '.join(words)}: status {got[0]} for {status}\n{got[1][-300:]}{got[2][-300:]}")
    for number in SIGNALS:
        ran, status, left = stopped(number)
        count += 1
        if ran < 4 or status != 128 + number or left:
            bad += 1
            print(f"./demo and {number.name}: {ran} processes ran, status {status}, left running: {left}")
    print(f"{count} runs of the demo, {bad} end otherwise than its help says")
    return bool(bad)


sys.exit(main())
