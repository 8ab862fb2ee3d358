#!/usr/bin/env python3
"""The tables of docs/WIDE.md: those of figures, for measure.py, and the one of queries, which the program is asked for.

    bench/wide/report.py PROGRAM               puts the table of queries into the page
"""

import json
import os
import re
import statistics
import subprocess
import sys

sys.dont_write_bytecode = True
from queries import BY_NAME, PLAIN_HEADS, QUERIES, SETS, with_head  # noqa: E402
from schema import TABLES  # noqa: E402

ROOT = os.path.join(os.path.dirname(os.path.abspath(__file__)), "..", "..")
MARK = "bench/wide/measure.py --write"
NAMES = {"run": "djq `run`", "tcp": "djq, TCP", "log": "djq, TCP, log", "hand": "by hand, `run`", "sqlite": "SQLite", "postgres": "PostgreSQL",
         "synced": "PostgreSQL, synced"}
UNPROVED = """djq's are of a build of the same sources that isn't proved: it checks each sum and each place of a list as it runs, and has no hints
on inlining. So it takes far more than the program does, most of all to read lines: a proved one took 2.1 to 2.6 times the instructions
of the one by hand for these changes.

"""
SAID = {"none": "no query", "q3": "Q3's join", "placed": "orders, customer, nation, region", "offered": "partsupp, part, supplier",
        "lines": "lineitem, orders: 13 columns", "sold": "lineitem, orders, customer: 16 columns", "twelve": "twelve queries", "every": "every query"}


def median(runs, read):
    """The median of what some runs say; none where they don't say it."""
    values = [value for value in map(read, runs) if value is not None]
    return statistics.median(values) if values else None


def each(name, part):
    """What one of some work costs."""
    def read(figures):
        return figures[f"{name}.{part}"] / figures[f"{name}.count"] if figures.get(f"{name}.count") else None
    return read


def plain(name):
    return lambda figures: figures.get(name)


def shown(value, unit):
    """A number of seconds in micro- or milliseconds, or of bytes."""
    if value is None:
        return ""
    value *= {"µs": 1e6, "ms": 1e3, "s": 1, "": 1}[unit]
    return f"{value:,.0f}" if value >= 100 else f"{value:.1f}" if value >= 10 else f"{value:.2f}"


def table(head, rows):
    rows = [row for row in rows if any(cell for cell in row[1:])]
    lines = ["| " + " | ".join(row) + " |" for row in [head, ["---"] * len(head), *rows]]
    return "\n".join(lines) + "\n"


def row_of(title, found, sides, read, unit, quotients):
    """A row: a value a side, and quotients of two sides behind them."""
    values = {side: median(found[side], read) if side in found else None for side in sides}
    parts = [f"{values[over] / values[under]:.2f}" if values[over] and values[under] else "" for over, under in quotients]
    return [title] + [shown(values[side], unit) for side in sides] + parts


def head_of(title, sides, quotients):
    return [title] + [NAMES[side] for side in sides] + [f"{NAMES[over]} / {NAMES[under]}" for over, under in quotients]


def by_side(sets, sides, read, unit, quotients=()):
    """A row a set, a column a side."""
    sides = [side for side in sides if any(side in found for found in sets.values())]
    quotients = [pair for pair in quotients if set(pair) <= set(sides)]
    return table(head_of("", sides, quotients), [row_of(SAID[name], found, sides, read, unit, quotients) for name, found in sets.items()])


def said_of_runs(sets):
    """Of how many runs the figures are the median."""
    counts = {side: len(made) for found in sets.values() for side, made in found.items()}
    by_count = {count: ", ".join(NAMES[side] for side, made in counts.items() if made == count) for count in sorted(counts.values(), reverse=True)}
    said = "; ".join(f"{count} {'run' if count == 1 else 'runs'} of {sides}" for count, sides in by_count.items())
    return f"Medians of {said}."


ALL = ("run", "tcp", "log", "hand", "sqlite", "postgres", "synced")
SQL = ("sqlite", "postgres")
MEMORY = ("run", "sqlite", "postgres")
RATIOS = (("run", "sqlite"), ("tcp", "sqlite"))


def loading(sets):
    found = sets.get("none", {})
    sides = [side for side in ALL if side in found]
    quotients = [pair for pair in RATIOS if set(pair) <= set(sides)]
    return table(head_of("µs a row", sides, quotients),
                 [row_of(part, found, sides, each("load", part), "µs", quotients) for part in ("processor", "wall")])


def bytes_of_tables(tables, rows):
    sides = [side for side in MEMORY if side in tables]
    made = []
    for name, count in rows.items():
        columns = len(TABLES[name].columns)
        if count > 100:
            made.append([name, str(columns), f"{count:,}", str(8 * columns + 40)] + [shown(tables[side][name] / count, "") for side in sides])
    return table(["bytes a row", "columns", "rows", "8 a column and 40"] + [NAMES[side] for side in sides], made)


def bytes_below(sets, rows):
    made, sides = [], []
    for name, found in sets.items():
        queries = [BY_NAME[query] for query in SETS[name]]
        if len(queries) != 1 or not any(side in found for side in MEMORY):
            continue
        read = sum(rows[table] for table in queries[0].tables)
        sides = [side for side in MEMORY if side in found]
        grown = {side: median(found[side], lambda figures: figures["memory"][-1] - figures["memory"][-2]) for side in sides}
        made.append([SAID[name], str(len(queries[0].head)), f"{read:,}"] + [shown(grown[side] / read, "") for side in sides])
    return table(["bytes a row that is read", "columns of the head", "rows that are read"] + [NAMES[side] for side in sides], made)


def page(found):
    """All tables of a measurement."""
    text = f"{found['compared']:,} listings of answers were compared, and all were the same.\n"
    for scale, sets in sorted(found["figures"].items(), key=lambda one: -float(one[0])):
        rows = found["rows"][scale]
        text += f"\n### {sum(rows.values()):,} rows (scale {scale})\n\n{said_of_runs(sets)}\n"
        parts = (
            ("Processor time a change, µs", by_side(sets, ALL, each("change", "processor"), "µs", RATIOS)),
            ("Wall time a change with many on their way, µs", by_side(sets, ALL, each("change", "wall"), "µs", RATIOS)),
            ("From a change to its delta at the watcher, one after another: the median, µs", by_side(sets, ALL, plain("delay.median"), "µs")),
            ("The same: the 99th of a hundred, µs", by_side(sets, ALL, plain("delay.p99"), "µs")),
            ("Loading a row, no query", loading(sets)),
            ("Registering, ms of the processor", by_side(sets, ALL, each("register", "processor"), "ms", RATIOS)),
            ("Registering, ms that others wait", by_side(sets, ALL, each("register", "wall"), "ms")),
            ("The first ten answers, µs", by_side(sets, ALL, each("first", "wall"), "µs")),
            ("The first ten answers asked anew, µs", by_side(sets, SQL, each("first anew", "wall"), "µs")),
            ("All answers as they are kept, ms of the processor", by_side(sets, ALL, each("kept", "processor"), "ms")),
            ("All answers asked anew, ms of the processor", by_side(sets, SQL, each("anew", "processor"), "ms")),
            ("`refresh materialized view`, ms of the processor", by_side(sets, ("postgres",), each("refresh", "processor"), "ms")),
            ("Memory of the relations, with their keys", bytes_of_tables(found["tables"][scale], rows)),
            ("Memory below a query", bytes_below(sets, rows)),
        )
        for title, body in parts:
            text += f"\n**{title}**\n\n{body}" if body.count("\n") > 2 else ""
    return text


def keep(path, found):
    with open(path, "w", encoding="utf-8") as file:
        json.dump(found, file, indent=1)


def merged(paths):
    """The figures of several files as one."""
    all_of = {"figures": {}, "tables": {}, "rows": {}, "compared": 0}
    for path in paths:
        with open(path, encoding="utf-8") as file:
            found = json.load(file)
        all_of["compared"] += found["compared"]
        all_of["rows"].update(found["rows"])
        for scale, sets in found["figures"].items():
            for name in SETS:
                all_of["figures"].setdefault(scale, {}).setdefault(name, {}).update(sets.get(name, {}))
            all_of["tables"].setdefault(scale, {}).update(found["tables"][scale])
    for sets in all_of["figures"].values():
        for name in [name for name, sides in sets.items() if not sides]:
            del sets[name]
    return all_of


def put(mark, text, page="docs/WIDE.md"):
    """Puts a text into a page, between two marks."""
    path = os.path.join(ROOT, page)
    with open(path, encoding="utf-8") as file:
        found = file.read()
    begin, end = f"<!-- begin: {mark} -->\n", "<!-- end -->"
    before, there, rest = found.partition(begin)
    if not there:
        raise SystemExit(f"{page} has no place for {mark}")
    with open(path, "w", encoding="utf-8") as file:
        file.write(before + begin + text + rest[rest.index(end):])


def replies(program, lines):
    """What the program replies to lines behind those that make the tables."""
    begin = [f"rel {one.name} {' '.join(one.columns.values())}" for one in TABLES.values()]
    done = subprocess.run([program, "run"], input="\n".join(begin + lines) + "\n", capture_output=True, text=True, check=True)
    return done.stdout.splitlines()[len(begin):]


def verdicts(program):
    """Of each query: `flat`, `linear`, or why it is refused."""
    said = replies(program, [line for query in QUERIES for line in (query.djq(), f"shape {query.name}")])
    return {query.name: shape if answer.startswith("ok query") else answer for query, answer, shape in zip(QUERIES, said[::2], said[1::2])}


def verdicts_of_heads(program):
    """Of each query with TPC-H's own head, where that is another one: whether it is admitted."""
    said = replies(program, [with_head(BY_NAME[name], head) for name, head in PLAIN_HEADS.items()])
    return {name: " ".join(reply.split()[:2]) for name, reply in zip(PLAIN_HEADS, said)}


def queries(program):
    """The table of queries: what each joins, what the program says of it and of TPC-H's own head, and what it can't be asked."""
    found, heads, rows = verdicts(program), verdicts_of_heads(program), []
    for query in QUERIES:
        words, head = found[query.name], heads.get(query.name, "as it is")
        rows.append([f"`{query.name}`", ", ".join(atom.table for atom in query.atoms), f"`{words}`" if words.startswith("no ") else words,
                     {"ok query": "admitted", "no connex": "`no connex`"}.get(head, head), query.beyond])
    return table(["query", "joins", "what a change costs", "with TPC-H's head", "what can't be asked"], rows)


def main():
    if len(sys.argv) != 2:
        raise SystemExit(__doc__)
    put("bench/wide/report.py PROGRAM", queries(os.path.abspath(sys.argv[1])))


if __name__ == "__main__":
    main()
