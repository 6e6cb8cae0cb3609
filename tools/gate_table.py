#!/usr/bin/env python3
"""The account of the gate: reads what `rt ci` printed (standard input) and prints a table: the functions of each crate that was proved, and the edits of it
that were refused, as they must be. `rt ci` says no seconds, so none stand here.

    rt ci 2>&1 | tee ci.txt; python3 tools/gate_table.py < ci.txt
"""
import re
import sys

proved, edits, kept, crate = {}, {}, set(), None
for line in sys.stdin:
    found = re.match(r"== (\w+)$", line)
    if found:
        crate = found.group(1)
    found = re.match(r"logic=proved functions=(\d+) ", line)
    if found and crate:
        proved[crate] = int(found.group(1))
    found = re.match(r"rt: must-fail (\w+)/\S+\.edit: refused", line)
    if found:
        edits[found.group(1)] = edits.get(found.group(1), 0) + 1
    found = re.match(r"rt: (\w+) is kept: ", line)
    if found:
        kept.add(found.group(1))

print("| crate | functions | edits |")
print("|---|---|---|")
for name, functions in proved.items():
    print(f"| {name} | {functions} | {edits.get(name, 0)} |")
print(f"| all | {sum(proved.values())} | {sum(edits.get(name, 0) for name in proved)} |")
if kept - set(proved):
    print(f"\nKept from an earlier run, and not counted: {' '.join(sorted(kept - set(proved)))}.")
