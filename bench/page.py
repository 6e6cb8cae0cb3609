"""page.py: puts what the bench wrote to bench/target/results/ into docs/PERFORMANCE.md. A block of the page that begins with the line `<!-- NAME.md -->` and ends
with `<!-- end -->` gets the contents of the file NAME.md, if there is one; the text around the blocks is written by hand, and is to be read again
after each renewal.

    bench/run                                    # machine.md, table.md, summary.md, widths.md
    python3 bench/tool.py FOLDER... >bench/target/results/tool.md      # the tool's whole run (tool.py says which folders)
    python3 bench/page.py
"""
import os
import re

HERE = os.path.dirname(os.path.abspath(__file__))
PAGE, RESULTS = os.path.join(HERE, "..", "docs", "PERFORMANCE.md"), os.path.join(HERE, "target", "results")


def block(match):
    path = os.path.join(RESULTS, match[1])
    if not os.path.isfile(path):
        print(f"{match[1]}: none, so the page keeps what it has")
        return match[0]
    with open(path) as f:
        text = re.sub(r"^## ", "### ", f.read().strip(), flags=re.M)
    return f"<!-- {match[1]} -->\n{text}\n<!-- end -->"


with open(PAGE) as f:
    page = f.read()
with open(PAGE, "w") as f:
    f.write(re.sub(r"<!-- (\w+\.md) -->\n.*?<!-- end -->", block, page, flags=re.S))
