#!/usr/bin/env python3
"""Holds README.md to what its commands print: under 120 lines, none over 140 characters, every page that it names is there, and each block of output
is what the command before it prints (a line `...` stands for any lines). Building and the gate are not run: the tool must be there.

    tools/staticlib && (cd bindings/rust && cargo build --release --offline)
    python3 tools/check_readme.py
"""
import os
import pathlib
import re
import subprocess
import sys
import tempfile

ROOT = pathlib.Path(__file__).resolve().parent.parent
RUN = ("./demo", "linenhatch ", "python3 ")


def blocks(text):
    """The indented blocks, each with its lines."""
    return [[line[4:] for line in block.splitlines()] for block in re.findall(r"(?:^    .*\n)+", text, flags=re.M)]


def printed(command, room):
    env = dict(os.environ, PATH=f"{ROOT / 'bindings/rust/target/release'}:{os.environ['PATH']}")
    done = subprocess.run(command.replace("/tmp/", f"{room}/"), shell=True, cwd=ROOT, env=env, stdout=subprocess.PIPE)
    if done.returncode != 0:
        sys.exit(f"README.md: '{command}' ends with status {done.returncode}")
    return done.stdout.decode()


def main():
    text = (ROOT / "README.md").read_text()
    faults = [f"line {n} has over 140 characters" for n, line in enumerate(text.splitlines(), 1) if len(line) > 140]
    if text.count("\n") >= 120:
        faults.append("120 lines or more")
    for name in re.findall(r"`([\w/.-]+\.(?:md|py|txt))`|\]\(([\w/.-]+)\)", text):
        if not (ROOT / (name[0] or name[1])).exists():
            faults.append(f"there is no {name[0] or name[1]}")
    last = None
    with tempfile.TemporaryDirectory() as room:
        for block in blocks(text):
            commands = [line.split("   #")[0].strip() for line in block if line.startswith(RUN)]
            if commands:
                last = [(command, printed(command, room)) for command in commands][-1]
            elif last and not block[0].startswith(("rt ", "tools/", "PATH=")):
                wanted = "\n".join("(?s:.*)" if line == "..." else re.escape(line) for line in block) + "\n"
                if not re.fullmatch(wanted, last[1]):
                    faults.append(f"'{last[0]}' prints something else:\n{last[1]}")
                last = None
    for fault in faults:
        print(f"README.md: {fault}")
    sys.exit(1 if faults else 0)


if __name__ == "__main__":
    main()
