#!/usr/bin/env python3
"""Lists the places of the design pass (docs/DESIGN-PASS.md) in crates/*/src, point by point, and counts them.

usage: tools/places.py [-v] [POINT..]      at the top of the repository; -v prints each place

1  enums in which one variant has what is wanted and the others say that or why it is not there; structs that say by a flag whether the
   value beside it counts; numbers that stand for no number
2  pairs of functions whose bodies are the same but for names, types and numbers
3  loops that count by hand: while loops
4  functions that compare, copy, convert or print by hand
5  parameters that travel together: functions that take the lent memory, or the files, one by one
6  buffers with a length beside them, lists searched by hand
7  parameters that say which step to run
"""
import glob
import re
import sys
from collections import defaultdict

VERBOSE = "-v" in sys.argv
POINTS = [int(it) for it in sys.argv[1:] if it.isdigit()] or list(range(1, 8))


def sources():
    for path in sorted(glob.glob("crates/*/src/**/*.rt", recursive=True)):
        with open(path) as file:
            yield path, file.read()


def bare(text):
    return re.sub(r"//[^\n]*", "", text)


def line_of(text, at):
    return text.count("\n", 0, at) + 1


FUNCTION = re.compile(r"^(?:    )?(?:#\[[^\n]*\n)*(?:pub(?:\(crate\))? )?(?:unsafe )?(?:extern \"C\" )?fn (\w+)(.*?)\n(?:    )?\}\n", re.M | re.S)


def functions(text):
    for it in FUNCTION.finditer(text):
        yield it.start(), it.group(1), it.group(2)


def point_1():
    for path, text in sources():
        for it in re.finditer(r"^(?:pub(?:\(crate\))? )?enum (\w+) \{(.*?)^\}", text, re.M | re.S):
            variants = re.findall(r"^    (\w+)(\(|\s*\{)?", bare(it.group(2)), re.M)
            holding = [name for name, holds in variants if holds]
            if len(variants) > 1 and 0 < len(holding) and (len(holding) == 1 or "Refus" in it.group(2)):
                yield path, line_of(text, it.start()), f"enum {it.group(1)}"
        for it in re.finditer(r"^(?:pub(?:\(crate\))? )?struct (\w+)[^{;]*\{(.*?)^\}", text, re.M | re.S):
            if re.search(r"\b(found|good|done|fresh): bool", it.group(2)):
                yield path, line_of(text, it.start()), f"struct {it.group(1)}"
        for it in re.finditer(r"^(?:pub(?:\(crate\))? )?const (NO\w*|NOWHERE): ", text, re.M):
            yield path, line_of(text, it.start()), f"const {it.group(1)}"
        for it in re.finditer(r"(\w+): &mut bool", text):
            yield path, line_of(text, it.start()), f"flag {it.group(1)}"


def shape(body):
    body = bare(body)
    body = re.sub(r"^\s*(ensures|requires)\b.*$", "", body, flags=re.M)
    body = re.sub(r"\d+", "0", body)
    body = re.sub(r"\b[a-z_]\w*\b", "x", re.sub(r"\b(if|else|while|for|match|return|let|mut|in|as|true|false)\b", lambda it: it.group(0).upper(), body))
    return re.sub(r"\b[A-Z]\w*[a-z]\w*\b", "T", re.sub(r"\s+", " ", body))


def point_2():
    found = defaultdict(list)
    for path, text in sources():
        for at, name, body in functions(text):
            if body.count("\n") >= 5:
                found[shape(body)].append((path, line_of(text, at), f"fn {name}"))
    for group in found.values():
        if len(group) > 1:
            names = ", ".join(f"{path.split('/')[1]}::{what[3:]}" for path, _, what in group)
            yield group[0][0], group[0][1], names


def point_3():
    for path, text in sources():
        for number, line in enumerate(text.split("\n"), 1):
            if re.match(r"\s*while ", line):
                yield path, number, line.strip()


def point_4():
    words = r"same\w*|eq|equal\w*|less|compare\w*|before|copy\w*|cleared|clear\w*|wide\w*|narrow\w*|as_hint|number|\w+_number|text|hex|byte"
    for path, text in sources():
        for at, name, body in functions(text):
            if re.fullmatch(words, name):
                yield path, line_of(text, at), f"fn {name}"


def point_5():
    for path, text in sources():
        for at, name, body in functions(text):
            head = body.split("\n{")[0]
            lent = [it for it in ("names", "marks", "levels", "times", "line", "parents") if re.search(rf"\b{it}: &(?:'a )?(?:mut )?\[", head)]
            files = [it for it in ("cache: ", "graph: &", "store: &", "hidden: &", "l: Layout", "position: usize") if it in head]
            if len(lent) >= 3 or len(files) >= 3:
                yield path, line_of(text, at), f"fn {name}: {len(lent)} of the lent memory, {len(files)} of the files"


def point_6():
    for path, text in sources():
        for at, name, body in functions(text):
            head = body.split("\n{")[0]
            if re.search(r"\w+: &(?:mut )?\[[^\]]*\],?\s+(n|count|len|cap): usize", head):
                yield path, line_of(text, at), f"fn {name}"


def point_7():
    for path, text in sources():
        for at, name, body in functions(text):
            head = body.split("\n{")[0]
            for it in re.findall(r"(\w+): (bool|Task|Reader)\b", head):
                yield path, line_of(text, at), f"fn {name}: {it[0]}: {it[1]}"


for number, point in enumerate((point_1, point_2, point_3, point_4, point_5, point_6, point_7), 1):
    if number in POINTS:
        places = list(point())
        print(f"point {number}: {len(places)} places")
        if VERBOSE:
            for path, line, what in places:
                print(f"    {path}:{line}: {what}")
