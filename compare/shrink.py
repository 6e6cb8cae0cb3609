"""Makes a case smaller while a test still holds of it, and prints it."""
import formats
import model
from generate import BREADTH, NEWEST, ORDER, CUTOFF_NEWEST, Case, Pair


def with_pair(case, pair):
    return Case(pair, case.tips, case.hidden, case.barred, case.sorting, case.cutoff, case.first)


def smaller(case):
    """Cases with a little less in them."""
    pair = case.pair
    for which in ("tips", "hidden", "barred"):
        for k in range(len(getattr(case, which))):
            out = with_pair(case, pair)
            getattr(out, which).pop(k)
            yield out
    if pair.torn_store is not None or pair.torn_graph is not None:
        return
    if case.first:
        out = with_pair(case, pair)
        out.first = False
        yield out
    for sorting in (BREADTH, NEWEST):
        if case.sorting > sorting:
            out = with_pair(case, pair)
            out.sorting = sorting
            yield out
    if pair.rows is not None:
        yield with_pair(case, Pair(pair.bodies, width=pair.width))
        raw = any(isinstance(row[0], tuple) for row in pair.rows.values())
        for name, (parents, level, seconds) in pair.rows.items():
            if not raw and not any(name in row[0] for other, row in pair.rows.items() if other != name):
                yield with_pair(case, Pair(pair.bodies, {x: row for x, row in pair.rows.items() if x != name}, pair.edges, width=pair.width))
            if not isinstance(parents, tuple):
                for k in range(len(parents)):
                    rows = dict(pair.rows)
                    rows[name] = (parents[:k] + parents[k + 1:], level, seconds)
                    yield with_pair(case, Pair(pair.bodies, rows, pair.edges, width=pair.width))
            for less in ((parents, 0, seconds), (parents, level, 0), (parents, level, seconds // 2)):
                if less != (parents, level, seconds):
                    rows = dict(pair.rows)
                    rows[name] = less
                    yield with_pair(case, Pair(pair.bodies, rows, pair.edges, width=pair.width))
    for name, body in pair.bodies.items():
        yield with_pair(case, Pair({x: b for x, b in pair.bodies.items() if x != name}, pair.rows, pair.edges, width=pair.width))
        header = model.Header(body, pair.width)
        if header.fault() is None:
            plain = formats.body(header.ids, header.seconds, width=pair.width)
            changed = [formats.body(header.ids[:k] + header.ids[k + 1:], header.seconds, width=pair.width) for k in range(len(header.ids))]
            nearer = [0, header.seconds // 2 if header.seconds > 0 else -(-header.seconds // 2), header.seconds - 1 if header.seconds > 0 else header.seconds + 1]
            changed += [formats.body(header.ids, t, width=pair.width) for t in nearer if abs(t) < abs(header.seconds)]
            for less in changed + ([plain] if plain != body else []):
                bodies = dict(pair.bodies)
                bodies[name] = less
                yield with_pair(case, Pair(bodies, pair.rows, pair.edges, width=pair.width))


def size(case):
    return len(case.pair.store) + len(case.pair.graph) + case.width * len(case.tips + case.hidden + case.barred)


def smallest(case, test, turns=400):
    for _ in range(turns):
        for less in smaller(case):
            if test(less):
                case = less
                break
        else:
            return case
    return case


def letters(case):
    """A letter for each id that the case names, newest tips first."""
    out = {}
    files = case.pair.files
    names = case.tips + case.hidden + case.barred + list(getattr(files, "bodies", {})) + list(case.pair.rows or {})
    for name in list(getattr(files, "bodies", {})):
        names += files.header(name).ids
    for name in names:
        if name not in out:
            k = len(out)
            out[name] = chr(ord("a") + k) if k < 26 else "n%d" % k
    return out


def text(case):
    """A case in a few lines."""
    names, files = letters(case), case.pair.files
    say = lambda ids: ", ".join(names[x] for x in ids) or "none"  # noqa: E731
    out = []
    if files.fault is not None:
        out.append("files refused: %d" % files.fault)
    else:
        for name in sorted(files.bodies, key=lambda x: names[x]):
            header = files.header(name)
            parents = "".join(names[x] + " " for x in header.ids).strip() or "nothing"
            what = "%s seconds" % header.seconds if header.fault() is None else "header at fault (%d)" % header.fault()
            out.append("book: %s -> %s; %s" % (names[name], parents, what))
        for name in sorted(case.pair.rows or {}, key=lambda x: names[x]):
            row = files.row(name)
            out.append("graph: %s %s" % (names[name], "corrupt" if row is model.CORRUPT else "-> %s; level %d, %d seconds" % (
                " ".join(names[x] for x, _ in row[0]) or "nothing", row[1], row[2])))
    order = ORDER[case.sorting] + (", cutoff %d" % case.cutoff if case.sorting >= CUTOFF_NEWEST else "")
    out.append("ids by rise: %s; tips %s; hidden %s; barred %s; %s, %s" % (
        " ".join(names[x] for x in sorted(names)), say(case.tips), say(case.hidden), say(case.barred), order, "First" if case.first else "All"))
    return "".join(line + "\n" for line in out)


def short(case, lines):
    """Answers with letters for ids."""
    names = {name.hex(): letter for name, letter in letters(case).items()}
    return [" ".join(names.get(word, word) for word in line.split(" ")) for line in lines]
