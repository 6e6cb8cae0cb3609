#!/usr/bin/env python3
"""Respells the repository's own definitions and lemmas: snake case, a prime is an apostrophe. Run once, at the top, after the kit's port.py.

tools/respell.tsv has a row for each name: old, a tab, new, and after another tab, where one is given, the beginning of the paths that it is for.
Turned are: .antt files (whole words outside comments and strings, and words of a comment's code spans), clauses and `ghost use` items of .rt files,
and the texts of must-fail edits. A word stays where the file imports it from another library, and where it is the answer to a generated goal.
Behind a dot a lemma's ending `_lem` is left away: there the word is a field or a label."""
import os
import re
import sys

HERE = os.path.dirname(os.path.abspath(__file__))
WORD = re.compile(r"[^\s(){}\[\].;,@\"«»|:`]+")
CLAUSE = re.compile(r"^(\s*(?:requires|ensures)\b[^{\n]*\{)(.*)$")
IMPORT = re.compile(r"^use ([^\s{]+)\.\{([^}]*)\}", re.M)
ANSWER = re.compile(r"^([^\s(){}.;,@\"]+) : \(?(?:[^\n]*→ )?tie\.", re.M)


def table():
    rows = []
    with open(os.path.join(HERE, "respell.tsv"), encoding="utf-8") as f:
        for line in f:
            parts = line.rstrip("\n").split("\t")
            if len(parts) > 1:
                rows.append((parts[0], parts[1], parts[2] if len(parts) > 2 else ""))
    return rows


def words(text, names, stays):
    def one(m):
        w = m[0]
        dotted = text[m.start() - 1 : m.start()] == "."
        if w not in names or (not dotted and w in stays):
            return w
        new = names[w]
        if dotted and new.endswith("_lem"):
            new = new[: -len("_lem")]
        return new

    return WORD.sub(one, text)


def spans(text, names):
    return re.sub(r"`[^`\n]*`", lambda m: words(m[0], names, ()), text)


def antt(text, names):
    stays = set(ANSWER.findall(text))
    for module, items in IMPORT.findall(text):
        if not module.startswith("Rattle.") or module.startswith("Rattle.std."):
            for item in items.split(","):
                stays.add(item.split(" as ")[-1].strip())
    out = []
    for line in text.split("\n"):
        code, comment = line, ""
        m = re.search(r"(?<!\S)--", line)
        if m:
            code, comment = line[: m.start()], line[m.start() :]
        parts = re.split(r'("(?:[^"\\]|\\.)*")', code)
        parts = [p if i % 2 else words(p, names, stays) for i, p in enumerate(parts)]
        out.append("".join(parts) + spans(comment, names))
    return "\n".join(out)


def rt(text, names):
    out, depth = [], 0
    ghost = False
    for line in text.split("\n"):
        s = line.strip()
        if ghost or s.startswith("ghost use"):
            out.append(words(line, names, ()))
            ghost = ";" not in line
            continue
        m = CLAUSE.match(line) if depth == 0 else None
        if m or depth:
            out.append(words(line, names, ()))
            depth += line.count("{") - line.count("}")
            continue
        if s.startswith("//"):
            line = spans(line, names)
        out.append(line)
    return "\n".join(out)


def edit(text, names):
    out = []
    for line in text.split("\n"):
        m = re.match(r"(old|new): ", line)
        out.append(m[0] + words(line[m.end() :], names, ()) if m else line)
    return "\n".join(out)


def main():
    top = os.path.dirname(HERE)
    rows = table()
    turned = 0
    for folder, folders, files in os.walk(os.path.join(top, "crates")):
        folders[:] = [f for f in folders if f != "out"]
        for name in files:
            path = os.path.join(folder, name)
            rel = os.path.relpath(path, top)
            names = {old: new for old, new, where in rows if rel.startswith(where)}
            turn = {"antt": antt, "rt": rt, "edit": edit}.get(name.rsplit(".", 1)[-1])
            if not turn:
                continue
            with open(path, encoding="utf-8") as f:
                old = f.read()
            new = turn(old, names)
            if new != old:
                turned += 1
                with open(path, "w", encoding="utf-8") as f:
                    f.write(new)
    print("respelled files:", turned)


if __name__ == "__main__":
    sys.exit(main())
