#!/usr/bin/env python3
"""Of a measurement the few figures for the front page and docs/PERFORMANCE.md, the aims, and where djq is slower or larger.

    bench/wide/summary.py FILE ..     puts all tables of figures into the pages, of what measure.py kept by `--keep`; of a side
                                      that several files have, of the last
"""

import sys

sys.dont_write_bytecode = True
import report  # noqa: E402
from queries import BY_NAME, SETS  # noqa: E402
from report import NAMES, SAID, by_side, each, median, plain, shown, table  # noqa: E402
from schema import TABLES  # noqa: E402

SIDES = ("run", "tcp", "sqlite", "postgres")
FRONT = "lines"  # the set whose figures are on the front page
WIDEST = "sold"
# what the widest join took when this was first measured, a row that it reads: bytes, and seconds of registering (0.8 s of 375,000 rows)
BYTES_BEFORE, REGISTERING_BEFORE = 404, 2.1e-6
CHANGES, LOADING, BELOW, REGISTERING = 0.33, 0.25, 0.6, 0.4  # the aims: of SQLite's time the first two, of what was before the others


def largest(found):
    """The sets and tables of the largest scale, and its rows."""
    scale = max(found["figures"], key=float)
    return found["figures"][scale], found["tables"][scale], found["rows"][scale]


def ratio(found, over, under, read):
    """One side's figure by another's; none where one of them lacks it."""
    if over not in found or under not in found:
        return None
    value, other = median(found[over], read), median(found[under], read)
    return value / other if value is not None and other else None


def grown(figures):
    """What the queries of a set take beside their relations."""
    return figures["memory"][-1] - figures["memory"][-2]


def below(name):
    """Bytes below a set's query, a row that it reads."""
    return lambda rows: lambda figures: grown(figures) / sum(rows[table] for table in BY_NAME[SETS[name][0]].tables)


def row_bytes(tables, rows, side, name="lineitem"):
    return tables[side][name] / rows[name] if side in tables else None


# Where djq is slower or larger


WORK = (("change", "processor", "a change below {}"), ("register", "processor", "registering {}"), ("first", "wall", "the first ten answers of {}"),
        ("kept", "processor", "all answers of {}"))


def slower(sets, side):
    """The work for which a side of djq needs more time than SQLite, with how many times."""
    joins = {name: found for name, found in sets.items() if name != "none"}
    worse = []
    for read, words in [(each(work, part), words) for work, part, words in WORK] + [(plain("delay.median"), "the delay of a delta of {}")]:
        worse += together(words, {SAID[name]: ratio(found, side, "sqlite", read) for name, found in joins.items()})
    none = sets.get("none", {})
    worse += together("{}", {"a change without a query": ratio(none, side, "sqlite", each("change", "processor")),
                             "loading a row": ratio(none, side, "sqlite", each("load", "processor"))})
    return worse


def larger(sets, tables, rows):
    """What takes more memory than with SQLite, with how many times."""
    both = "sqlite" in tables and "run" in tables
    of_rows = {name: tables["run"][name] / tables["sqlite"][name] for name, count in rows.items() if count > 100} if both else {}
    below_joins = {SAID[name]: ratio(found, "run", "sqlite", grown) for name, found in sets.items() if name != "none"}
    return together("a row of {}", of_rows) + together("what is below {}", below_joins)


def together(words, times):
    """Which of some work has more than once the other's figure: each by its name, or where they are many how many of them."""
    known = {name: value for name, value in times.items() if value is not None}
    worse = {name: value for name, value in known.items() if value > 1}
    if len(worse) > 2:
        return [f"{words.format(f'{len(worse)} of {len(known)}')} ({min(worse.values()):.1f} to {max(worse.values()):.1f} times)"]
    return [f"{words.format(name)} ({value:.1f} times)" for name, value in worse.items()]


def said(words, worse):
    return f"- {words} {'; '.join(worse)}.\n" if worse else f"- {words} nothing here.\n"


def where_worse(found):
    """Sentences on where djq is slower or larger than SQLite, with how many times."""
    sets, tables, rows = largest(found)
    text = "".join(said(f"{NAMES[side]}, needs more time than SQLite in its own process for" if side == "tcp" else
                        f"{NAMES[side]} needs more time than SQLite for", slower(sets, side)) for side in ("run", "tcp"))
    return text + said("djq takes more memory than SQLite for", larger(sets, tables, rows))


# The tables


def memory(sets, tables, rows):
    """Bytes a row, by the columns of the relation and what is below a query."""
    sides = [side for side in ("run", "sqlite", "postgres") if side in tables]
    made = []
    for name in ("lineitem", "orders", "customer", "part", "partsupp"):
        values = [shown(row_bytes(tables, rows, side, name), "") for side in sides]
        made.append([f"`{name}`, {len(TABLES[name].columns)} columns", *values])
    for name, found in sets.items():
        if len(SETS[name]) == 1:
            read = below(name)(rows)
            made.append([f"below {SAID[name]}", *(shown(median(found[side], read), "") if side in found else "" for side in sides)])
    return table(["bytes a row", *(NAMES[side] for side in sides)], made)


def of(found):
    """The first table of docs/PERFORMANCE.md."""
    sets, tables, rows = largest(found)
    shown_sets = {name: {side: made for side, made in found.items() if side in SIDES} for name, found in sets.items()}
    text = f"{sum(rows.values()):,} rows. {report.said_of_runs(shown_sets)}\n"
    for title, body in (
        ("Processor time a change, µs", by_side(sets, SIDES, each("change", "processor"), "µs", report.RATIOS)),
        ("Loading, µs a row", report.loading(shown_sets)),
        ("Memory: of a relation's row, and of a query for each row that it reads", memory(sets, tables, rows)),
    ):
        text += f"\n**{title}**\n\n{body}"
    return f"{text}\n{where_worse(found)}\n**The aims**\n\n{aims(found)}"


def front(found):
    """The front page's three figures, and how much of SQLite's time a change takes."""
    sets, tables, rows = largest(found)
    one = sets.get(FRONT, {})

    def cells(read):
        return [shown(median(one[side], read), "µs") if side in one else "" for side in SIDES]

    def stored(side):
        return f"{row_bytes(tables, rows, side):.0f} + {median(one[side], below(FRONT)(rows)):.0f}" if side in tables and side in one else ""

    lines = [["a changed row below a join, µs", *cells(each("change", "processor"))],
             ["its first ten answers, µs", *cells(each("first", "wall"))],
             ["bytes a row of 16 columns + joined", *map(stored, SIDES)]]
    text = f"{sum(rows.values()):,} rows of TPC-H ([measured so](docs/PERFORMANCE.md)):\n\n"
    text += table(["", *(NAMES[side] for side in SIDES)], lines).replace("| --- | --- | --- | --- | --- |", "|---|---|---|---|---|")
    spreads = [spread(sets, side) for side in ("run", "tcp")]
    return text + (f"\nChanges take {spreads[0]} of SQLite's time, {spreads[1]} over TCP.\n" if all(spreads) else "")


def spread(sets, side):
    """The least and the greatest part of SQLite's time that a change takes below the queries of a set."""
    times = [ratio(found, side, "sqlite", each("change", "processor")) for name, found in sets.items() if name != "none"]
    known = [one for one in times if one is not None]
    return f"{min(known):.1f} to {max(known):.1f}" if known else ""


# The aims


def aims(found):
    """A table of the aims, what was measured, and whether that meets them."""
    sets, tables, rows = largest(found)
    lines = []
    for name, of_set in sets.items():
        if name != "none":
            lines += aim(f"a change below {SAID[name]}, of SQLite's time", CHANGES,
                         [ratio(of_set, side, "sqlite", each("change", "processor")) for side in ("run", "tcp")])
    lines += aim("loading a row without a query, of SQLite's time", LOADING,
                 [ratio(sets.get("none", {}), side, "sqlite", each("load", "processor")) for side in ("run", "tcp")])
    if "run" in tables:
        for name, count in rows.items():
            if count > 100:
                lines += aim(f"bytes a row of `{name}`", 8 * len(TABLES[name].columns) + 40, [row_bytes(tables, rows, "run", name)])
    widest = sets.get(WIDEST, {}).get("run")
    if widest:
        lines += aim(f"bytes a row below {SAID[WIDEST]}, of {BYTES_BEFORE} before", BELOW, [median(widest, below(WIDEST)(rows)) / BYTES_BEFORE])
        read = sum(rows[table] for table in BY_NAME[SETS[WIDEST][0]].tables)
        lines += aim("registering it, of 2.1 µs a row before", REGISTERING, [median(widest, each("register", "wall")) / read / REGISTERING_BEFORE])
    return table(["aim", "at most", "djq `run`", "djq, TCP", "met"], lines)


def aim(words, most, values):
    """A row of the table of aims; none where nothing was measured."""
    known = [value for value in values if value is not None]
    if not known:
        return []
    cells = ["" if value is None else f"{value:.0f}" if most > 1 else f"{value:.2f}" for value in [*values, None][:2]]
    met = [value <= most for value in known]
    return [[words, str(most), *cells, "yes" if all(met) else "no" if not any(met) else "one of two"]]


def write(found):
    """Puts the figures into all pages that have them."""
    report.put(report.MARK, report.page(found))
    report.put(report.MARK, of(found), "docs/PERFORMANCE.md")
    report.put(report.MARK, front(found), "README.md")


if __name__ == "__main__":
    if len(sys.argv) < 2:
        raise SystemExit(__doc__)
    write(report.merged(sys.argv[1:]))
