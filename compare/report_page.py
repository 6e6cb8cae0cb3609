"""report_page.py: the page of `linenhatch report` beside an independent count.

Makes a bare repository with 900 runs of four benches over four years, with readings of every good form, in many zones and at the first and last second of
months; and has pages made of it: by the terms of a school, by years, by 24 terms, by one empty term, without what a branch reaches, over first
parents, with a title that is hard to put into HTML, and for an outside reader with every seventh run embargoed. Of each page

- every number of the table is held to a count of its own, from `git cat-file` and Python's calendar;
- the chart is well-formed, has a mark for each mean and a bar for each difference, where the axis says, and its numbers are the table's;
- nothing is asked for from elsewhere: no link, no script, no picture, no address;
- its colours stand off the ground and from one another, light, dark and on paper, by their lightness alone, so in grey too.

A page with one number altered must be told apart. Where Chromium is there, the first page and the one with 24 terms are also drawn, light, dark, narrow and as a PDF, which
must have the right ground and (with pdftotext and pdftoppm) all rows of the table; they are left in the folder --keep. Where it is not, a line says so.

    tools/staticlib && (cd bindings/rust && cargo build --release --offline)
    python3 compare/report_page.py

Options: --tool FILE, --keep FOLDER, --seed N (1). Ends with status 1 if something is wrong. Needs python3 and git.
"""
import argparse
import calendar
import datetime
import html.parser
import os
import random
import re
import shutil
import struct
import subprocess
import sys
import tempfile
import xml.etree.ElementTree
import zlib

import drift

TERMS = ["2022-09..2023-01", "2023-02..2023-07", "2023-09..2024-01", "2024-02..2024-07", "2024-09..2025-01", "2025-02..2025-07"]
MANY = [f"{year}-{first:02}..{year}-{first + 1:02}" for year in (2022, 2023, 2024, 2025) for first in (1, 3, 5, 7, 9, 11)]
TITLE = "Left & <right> \"benches\", autumn to spring"
ZONES = ["+0000", "+0100", "-0330", "+1245", "-1100", "+0530"]


# ---- a history with readings

def seconds_of(count, rng):
    """Rising seconds from September 2022 to December 2025, with the first and last second of each month among them."""
    edges = []
    for month in range(12 * 2022 + 8, 12 * 2026):
        first = calendar.timegm((month // 12, month % 12 + 1, 1, 0, 0, 0))
        edges += [first, first - 1]
    low, high = min(edges), max(edges)
    rest = rng.sample(range(low, high), count - len(edges))
    return sorted(set(edges) | set(rest))


def message(n, second, rng):
    """A run's message: the cone's feed falls slowly behind the bed's, and a reading may be missing."""
    drift_mm = (second - 1_660_000_000) / 3_000_000
    cone, bed = round(rng.gauss(1212 - drift_mm / 2, 9)), round(rng.gauss(1204 + drift_mm / 3, 7))
    form = rng.choice(["{}", "{:05}", "{:010}"])
    lines = [f"Cone-feed: {form.format(cone)}"] * (rng.random() < 0.88) + [f"Bed-feed: {form.format(bed)}"] * (rng.random() < 0.91)
    rng.shuffle(lines)
    text = f"run {n}\n\n" + rng.choice(["", "Warp 12, weft 14.\n", " Cone-feed: 5\nthe Bed-feed: 6\n"]) + "\n".join(lines)
    return text + rng.choice(["", "\n", "\n\nchecked\n"])


def make(repository, seed):
    rng = random.Random(f"report page {seed}")
    seconds = seconds_of(900, rng)
    parents = drift.benches(rng, len(seconds))
    os.mkdir(repository)
    drift.git(repository, "init", "-q", "--bare", "-b", "main", ".")
    stream = []
    for n, links in enumerate(parents):
        text, zone = message(n, seconds[n], rng), rng.choice(ZONES)
        stream.append(f"commit refs/heads/main\nmark :{n + 1}\ncommitter Bench <bench@example.org> {seconds[n]} {zone}\ndata {len(text)}\n{text}\n")
        stream += [f"{'merge' if i else 'from'} :{p + 1}\n" for i, p in enumerate(links)]
        if n == 300:
            stream.append("\nreset refs/heads/printed\nfrom :301\n\n")
    drift.git(repository, "fast-import", "--quiet", "--date-format=raw-permissive", data="".join(stream).encode())


# ---- the count

def bodies(repository, *words):
    """The ids and bodies of the commits that git lists."""
    ids = drift.git(repository, "rev-list", *words)
    text, at, out = drift.git(repository, "cat-file", "--batch", data=ids), 0, []
    while at < len(text):
        end = text.index(b"\n", at)
        size = int(text[at:end].split()[2])
        out.append((text[at:at + 40].decode(), text[end + 1:end + 1 + size]))
        at = end + size + 2
    return out


def run_of(body):
    """Seconds, cone and bed of a run, None for a reading that is not there."""
    head, text = body.split(b"\n\n", 1)
    seconds = int(re.search(rb"^committer .*> (-?\d+) ", head, re.M).group(1))
    one = [re.findall(rb"^" + word + rb": (\d{1,10})$", text, re.M) for word in (b"Cone-feed", b"Bed-feed")]
    assert all(len(found) < 2 for found in one)
    return seconds, *(int(found[0]) if found else None for found in one)


def span(term):
    first, _, last = term.partition("..")
    (year, month), (end_year, end) = (map(int, part.split("-")) for part in (first, last or first))
    day = calendar.monthrange(end_year, end)[1]
    return calendar.timegm((year, month, 1, 0, 0, 0)), calendar.timegm((end_year, end, day, 23, 59, 59))


def row(runs):
    """The fields of a row, as the page writes them."""
    both = [(c, b) for _, c, b in runs if c is not None and b is not None]
    cones, beds = [c for _, c, _ in runs if c is not None], [b for _, _, b in runs if b is not None]
    counts = [len(runs), len(both), len(cones) - len(both), len(beds) - len(both), sum(c is None and b is None for _, c, b in runs)]
    means = [sum(cones) / len(cones) if cones else None, sum(beds) / len(beds) if beds else None, sum(c - b for c, b in both) / len(both) if both else None]
    return [f"{count:,}" for count in counts] + [number(mean, 3, k == 2) for k, mean in enumerate(means)]


def number(mean, places, signed):
    if mean is None:
        return "–"
    text = f"{abs(mean):,.{places}f}"
    return text if not re.search("[1-9]", text) else ("\u2212" if mean < 0 else "+" if signed else "") + text


def label(term):
    first, _, last = term.partition("..")
    if last and first[:4] == last[:4] and (first[5:], last[5:]) == ("01", "12"):
        return first[:4]
    return first if last in ("", first) else f"{first} – {last}"


def right(runs, terms):
    """The rows that the table must have."""
    if not terms:
        years = [datetime.datetime.fromtimestamp(second, datetime.timezone.utc).year for second, _, _ in runs]
        terms = [f"{year}-01..{year}-12" for year in range(min(years), max(years) + 1)][-24:]
    within = [[run for run in runs if span(term)[0] <= run[0] <= span(term)[1]] for term in terms]
    outside = [run for run in runs if not any(span(term)[0] <= run[0] <= span(term)[1] for term in terms)]
    rows = [[label(term), *row(part)] for term, part in zip(terms, within)]
    return rows + [["outside all terms", *row(outside)], ["all runs", *row(runs)]]


# ---- the page

class Reader(html.parser.HTMLParser):
    """Takes the rows of the table and the title, and sees to it that tags are closed in turn."""

    def __init__(self):
        super().__init__()
        self.open, self.rows, self.faults, self.title, self.figures = [], [], [], "", []

    def handle_starttag(self, tag, attributes):
        if tag in ("script", "link", "img", "iframe", "object", "a") or any(name in ("src", "href") or name.startswith("on") for name, _ in attributes):
            self.faults.append(f"the page has a {tag} with {attributes}")
        if tag not in ("meta", "line", "circle", "rect", "polyline"):
            self.open.append(tag)
        if tag == "tr":
            self.rows.append([])
        if tag in ("td", "th") and self.rows:
            self.rows[-1].append("")
        if tag == "dd":
            self.figures.append("")

    def handle_startendtag(self, tag, attributes):
        pass

    def handle_endtag(self, tag):
        if not self.open or self.open.pop() != tag:
            self.faults.append(f"</{tag}> closes another")

    def handle_data(self, text):
        if self.open and self.open[-1] == "h1":
            self.title += text
        if any(tag in ("td", "th") for tag in self.open):
            self.rows[-1][-1] += text
        if "dd" in self.open:
            self.figures[-1] += text


def faults_of(text, rows, title):
    """What is wrong with a page."""
    reader = Reader()
    reader.feed(text)
    faults = reader.faults + [f"<{tag}> is not closed" for tag in reader.open]
    faults += [f"the page asks for something elsewhere: {found}" for found in re.findall(r"https?:|@import|url\((?!#stripes\))", text)]
    if reader.title != title:
        faults.append(f"the title is {reader.title!r}")
    found = reader.rows[2:]
    faults += [f"{mine} is not {its}" for mine, its in zip(found, rows) if mine != its]
    if len(found) != len(rows):
        faults.append(f"{len(found)} rows, not {len(rows)}")
    everything = rows[-1]
    if reader.figures[0] != everything[1] or not reader.figures[1].startswith(everything[2]):
        faults.append(f"the figures are {reader.figures}")
    return faults + chart_faults(text, rows[:-2]) + colour_faults(text)


def lightness(colour):
    """Of a colour such as #00619c, as the web's rules for contrast have it."""
    parts = [int(colour[k:k + 2], 16) / 255 for k in (1, 3, 5)]
    red, green, blue = (part / 12.92 if part <= 0.04045 else ((part + 0.055) / 1.055) ** 2.4 for part in parts)
    return 0.2126 * red + 0.7152 * green + 0.0722 * blue


def colour_faults(text):
    faults = []
    schemes = re.findall(r":root \{(.*?)\}", text, re.S)
    for scheme in schemes:
        colours = dict(re.findall(r"--(\w+): (#[0-9a-f]{6})", scheme))
        for one, other, least in (("ink", "paper", 12), ("quiet", "paper", 5), ("cone", "paper", 4.5), ("bed", "paper", 4.5), ("edge", "paper", 3), ("both", "cone", 2)):
            dark, light = sorted(lightness(colours[name]) for name in (one, other))
            if (light + 0.05) / (dark + 0.05) < least:
                faults.append(f"{one} {colours[one]} stands off {other} {colours[other]} by {(light + 0.05) / (dark + 0.05):.1f}")
    return faults + ([] if len(schemes) == 3 else [f"{len(schemes)} schemes of colours"])


def value(text):
    return None if text == "–" else float(text.replace(",", "").replace("\u2212", "-"))


def chart_faults(text, rows):
    """Whether the marks stand where the axes say, for each term."""
    svg = xml.etree.ElementTree.fromstring(re.search(r"<svg.*</svg>", text, re.S).group(0))
    kind = lambda name: [x for x in svg if x.get("class") == name]
    cones, beds, differences = kind("mark cone"), kind("mark bed"), kind("difference")
    wanted = [[value(row[k]) for row in rows if row[k] != "–"] for k in (6, 7, 8)]
    some = [bool(values) for values in wanted]
    # The legend has one mark of each kind, before the others.
    centres = [float(x.get("cy")) for x in cones][1:], [float(x.get("y")) + 4.5 for x in beds][1:]
    faults = [f"{len(have)} marks, not {len(want)}" for have, want in zip((*centres, differences), wanted) if len(have) != len(want) and any(some)]
    ticks = [(value(x.text), float(x.get("y")) - 4.5) for x in svg if x.get("class") == "quiet"]
    falls = [0] + [n for n in range(1, len(ticks)) if ticks[n][1] > ticks[n - 1][1] + 60 or ticks[n][1] > ticks[n - 1][1]] + [len(ticks)]
    axes = [ticks[a:b] for a, b in zip(falls, falls[1:])]
    if len(axes) != 1 + sum((some[0] or some[1], some[2])):
        return faults + [f"{len(axes)} axes"]

    def at(axis, number_):
        (low, y_low), (high, y_high) = axis[0], axis[-1]
        return y_low + (number_ - low) / (high - low) * (y_high - y_low)

    for have, want in zip(centres, wanted):
        faults += [f"a mean of {number_} stands at {y}" for y, number_ in zip(have, want) if abs(at(axes[0], number_) - y) > 0.2]
    for bar, number_ in zip(differences, wanted[2]):
        y, height = float(bar.get("y")), float(bar.get("height"))
        if abs(y + (height if number_ < 0 else 0) - at(axes[1], number_)) > 0.2:
            faults.append(f"a difference of {number_} ends at {y}, {height}")
    heights = {}
    for bar in svg:
        if (bar.get("class") or "").startswith("run ") and bar.get("width") != "16":
            heights[bar.get("x")] = heights.get(bar.get("x"), 0) + float(bar.get("height"))
    full = [at(axes[-1], 0) - at(axes[-1], value(row[1])) for row in rows if value(row[1])]
    if len(heights) != len(full) or any(abs(a - b) > 0.5 for a, b in zip(heights.values(), full)):
        faults.append(f"the bars of runs are {list(heights.values())}, not {full}")
    return faults


# ---- in a browser

def chromium():
    return next(filter(None, map(shutil.which, ("chromium", "chromium-browser", "google-chrome"))), None)


def corner(png):
    """The red, green and blue of a picture's first point."""
    data, at, rows = open(png, "rb").read(), 8, b""
    while at < len(data):
        size, kind = struct.unpack(">I4s", data[at:at + 8])
        if kind == b"IDAT":
            rows += data[at + 8:at + 8 + size]
        at += 12 + size
    first = zlib.decompressobj().decompress(rows, 4)
    return tuple(first[1:4])


def drawn(browser, page, stem, rows):
    """Draws a page; what is wrong with it."""
    plain = [browser, "--headless", "--no-sandbox", "--disable-gpu", "--hide-scrollbars", f"--user-data-dir={stem}.profile"]
    address = "file://" + os.path.abspath(page)
    faults = []

    def run(*words):
        done = subprocess.run([*plain, *words, address], stdout=subprocess.DEVNULL, stderr=subprocess.PIPE, timeout=120)
        if done.returncode:
            faults.append(f"{browser} {' '.join(words)}: {done.stderr.decode(errors='replace')[-300:]}")

    for what, size, scheme in (("light", "1000,1650", 1), ("dark", "1000,1650", 0), ("narrow", "500,1900", 1)):
        run(f"--window-size={size}", f"--blink-settings=preferredColorScheme={scheme}", f"--screenshot={stem}-{what}.png")
    run("--no-pdf-header-footer", f"--print-to-pdf={stem}.pdf")
    shutil.rmtree(f"{stem}.profile", ignore_errors=True)
    if faults:
        return faults
    for what, is_right in (("light", lambda c: min(c) > 240), ("dark", lambda c: max(c) < 40), ("narrow", lambda c: min(c) > 240)):
        if not is_right(corner(f"{stem}-{what}.png")):
            faults.append(f"the ground of {stem}-{what}.png is {corner(f'{stem}-{what}.png')}")
    if shutil.which("pdftotext"):
        text = subprocess.run(["pdftotext", "-layout", f"{stem}.pdf", "-"], stdout=subprocess.PIPE, check=True).stdout.decode()
        lines = [re.sub(r"\s+", " ", line).strip() for line in text.splitlines()]
        faults += [f"{stem}.pdf lacks {' '.join(row)}" for row in rows if " ".join(row) not in lines]
    if shutil.which("pdftoppm"):
        subprocess.run(["pdftoppm", "-r", "80", "-png", f"{stem}.pdf", f"{stem}-page"], check=True)
        for name in sorted(os.listdir(os.path.dirname(stem))):
            path = os.path.join(os.path.dirname(stem), name)
            if path.startswith(f"{stem}-page") and min(corner(path)) < 250:
                faults.append(f"the ground of {path} is {corner(path)}")
    return faults


def main():
    parser = argparse.ArgumentParser()
    parser.add_argument("--tool", default=drift.TOOL)
    parser.add_argument("--keep")
    parser.add_argument("--seed", type=int, default=1)
    options = parser.parse_args()
    wrong = 0

    def say(what, faults):
        nonlocal wrong
        wrong += len(faults)
        print(f"{what}: {'as counted' if not faults else '; '.join(faults[:5])}")

    with tempfile.TemporaryDirectory() as room:
        repository, keep = os.path.join(room, "benches.git"), options.keep or os.path.join(room, "pages")
        os.makedirs(keep, exist_ok=True)
        make(repository, options.seed)
        cases = [
            ("terms", TERMS, ["main"], [], None), ("years", [], ["main"], [], None), ("many", MANY, ["main"], [], None),
            ("empty", ["1999-12"], ["main"], [], None), ("since", TERMS, ["printed..main"], [], None), ("first-parents", TERMS[2:4], ["main"], ["--first-parent"], None),
            ("titled", ["2024-09"], ["main"], [], TITLE), ("outside", TERMS, ["main"], ["--embargo", os.path.join(room, "embargoed"), "--outside"], None),
        ]
        withheld = set(drift.git(repository, "rev-list", "main").decode().split()[::7])
        with open(os.path.join(room, "embargoed"), "w") as file:
            file.write("\n".join(sorted(withheld)) + "\n")
        for name, terms, revs, more, title in cases:
            page = os.path.join(keep, f"{name}.html")
            words = [word for term in terms for word in ("--term", term)] + (["--title", title] if title else [])
            done = subprocess.run([options.tool, "-C", repository, "report", "-o", page, *words, *more, *revs], env=drift.ENV, stderr=subprocess.PIPE)
            if done.returncode:
                say(name, [done.stderr.decode()])
                continue
            text = open(page, encoding="utf-8").read()
            runs = [run_of(body) if name != "outside" or x not in withheld else (run_of(body)[0], None, None)
                    for x, body in bodies(repository, *(() if name == "outside" else more), *revs)]
            rows = right(runs, terms)
            say(f"{name}: {len(runs)} runs, {len(rows) - 2} terms", faults_of(text, rows, title or "Feed report"))
            if name == "terms":
                digit = text.index("</td><td>", text.index("<tbody>")) - 1
                altered = text[:digit] + str((int(text[digit]) + 1) % 10) + text[digit + 1:]
                say("a page with one digit altered is told apart", [] if faults_of(altered, rows, "Feed report") else ["it is not"])
            if name in ("terms", "many") and chromium():
                say(f"{name}, drawn light, dark, narrow and as a PDF", drawn(chromium(), page, os.path.join(os.path.abspath(keep), name), rows))
        if not chromium():
            print("Chromium is not there: no page was drawn")
    print(f"report_page.py: {wrong} wrong")
    sys.exit(1 if wrong else 0)


if __name__ == "__main__":
    main()
