#!/usr/bin/env python3
"""What a change of a wide schema costs in instructions, which depend little on the machine and not at all on what else it does.

    bench/wide/instructions.py PROGRAM [--by-hand PROGRAM] [--scale S] [--changes N] [--sets NAME ..] [--unproved] [--write]

`djq run` and SQLite's driver are run under `valgrind --tool=callgrind`, three times a set: up to the rows, up to the registered and watched
query, and up to the end of the changes. The differences are what registering and the changes cost. `--by-hand` counts bench/by_hand's
program too, for sets without comparisons. Of some sets each kind of change is counted too: deletes of rows of `lineitem`, inserts of the
same ones, updates of their quantity.
"""

import argparse
import concurrent.futures
import os
import re
import subprocess
import sys
import tempfile

sys.dont_write_bytecode = True
import keeping  # noqa: E402
import measure  # noqa: E402
import report  # noqa: E402
from engines import compiled  # noqa: E402
from keeping import SQLITE, Kept  # noqa: E402
from queries import BY_NAME, SETS  # noqa: E402
from schema import TABLES  # noqa: E402

AT_ONCE = 3
MARK = "bench/wide/instructions.py --write"
OF_A_KIND = 400  # changes of each kind
KINDS = ("a delete", "an insert", "an update of a quantity")
SETS_BY_KIND = ("none", "q3", "lines")


def counted(command, text):
    """The instructions of a program over what it is given to read."""
    with tempfile.NamedTemporaryFile("r") as told:
        words = ["valgrind", "--tool=callgrind", "--callgrind-out-file=/dev/null", f"--log-file={told.name}", *command]
        subprocess.run(words, input=text, stdout=subprocess.DEVNULL, text=True, check=True)
        return int(re.search(r"Collected : (\d+)", told.read())[1])


def of_file(data, what, side):
    with open(data.path(what, side), encoding="utf-8") as file:
        return file.read()


def djq_stages(data, queries):
    """The lines of the three stages."""
    first = "".join(f"rel {table.name} {' '.join(table.columns.values())}\n" for table in TABLES.values()) + of_file(data, "load", "djq")
    second = "".join(f"{query.djq()}\n" for query in queries) + "".join(f"watch {query.name}\n" for query in queries)
    return first, second, of_file(data, "changes", "djq")


def sqlite_stages(data, queries):
    """The script of the three stages."""
    first = measure.text("say", keeping.schema(SQLITE)) + "\n"
    for table, kinds, sql in keeping.statements(SQLITE):
        first += measure.text(f"statement {table} {''.join(kind[0] for kind in kinds)}", sql) + "\n"
    first += f"changes {data.path('load', 'sql')} 0 {10 ** 9}\n" + measure.text("say", "\n".join(keeping.indexes(queries)) + "\nanalyze;") + "\n"
    second = "".join(measure.text(f"register {query.name} {','.join(sorted(query.tables))}", Kept(SQLITE, query).script()) + "\n"
                     + f"watch {query.name}\n" for query in queries)
    return first, second, f"changes {data.path('changes', 'sql')} 0 {10 ** 9}\n"


def of_set(name, given, data, tools, pool):
    """The instructions of a registration, a row that is read, and of a change, of each side."""
    queries = [BY_NAME[query] for query in SETS[name]]
    runs = {"run": ([given.program, "run"], djq_stages(data, queries)), "sqlite": ([tools["sqlite"]], sqlite_stages(data, queries))}
    if given.by_hand and not any(query.comparisons for query in queries):
        runs["hand"] = ([given.by_hand, "run"], djq_stages(data, queries))
    waiting = {side: [pool.submit(counted, command, "".join(stages[:upto])) for upto in (1, 2, 3)] for side, (command, stages) in runs.items()}
    read = sum(data.rows[table] for query in queries for table in query.tables)
    found = {}
    for side, parts in waiting.items():
        begin, registered, end = (part.result() for part in parts)
        found[side] = ((registered - begin) / read if read else None, (end - registered) / data.change_count)
    return found


def by_kind(name, given, data, tools, pool):
    """The instructions of a change of each kind, by djq and SQLite."""
    queries = [BY_NAME[query] for query in SETS[name]]
    begins = {"run": ([given.program, "run"], "".join(djq_stages(data, queries)[:2])),
              "sqlite": ([tools["sqlite"]], "".join(sqlite_stages(data, queries)[:2]))}
    counts = {"run": [], "sqlite": []}
    for upto in range(len(KINDS) + 1):
        for side, (command, begin) in begins.items():
            if side == "run":
                text = begin + "".join(of_file(data, f"kind_{at}", "djq") for at in range(upto))
            else:
                text = begin + "".join(f"changes {data.path(f'kind_{at}', 'sql')} 0 {OF_A_KIND}\n" for at in range(upto))
            counts[side].append(pool.submit(counted, command, text))
    totals = {side: [one.result() for one in waiting] for side, waiting in counts.items()}
    return {side: [(after - before) / OF_A_KIND for before, after in zip(of, of[1:])] for side, of in totals.items()}


def write_kinds(data):
    """The changes of each kind, of rows of `lineitem` that are there from the start."""
    lineitem = TABLES["lineitem"]
    rows = data.lines[:OF_A_KIND]
    data.write("kind_0", [("delete", "lineitem", row) for row in rows])
    data.write("kind_1", [("insert", "lineitem", row) for row in rows])
    data.write("kind_2", [("update", "lineitem", row, lineitem.changed(row, "quantity", lineitem.value(row, "quantity") % 50 + 1), "quantity")
                          for row in rows])


def page_of_kinds(found):
    """A table: what a change of each kind costs."""
    rows = []
    for name, of in found.items():
        for at, kind in enumerate(KINDS):
            ours, theirs = of["run"][at], of["sqlite"][at]
            rows.append([f"{report.SAID[name]}: {kind}", str(1 + (at == 2)), f"{ours:,.0f}", f"{theirs:,.0f}", f"{ours / theirs:.2f}"])
    head = ["", "lines of djq", report.NAMES["run"], report.NAMES["sqlite"], f"djq / {report.NAMES['sqlite']}"]
    return f"\n**Instructions a change of `lineitem`, by its kind**\n\n{report.table(head, rows)}"


def page(found):
    """A table: what a change costs, then what registering does."""
    sides = [side for side in ("run", "sqlite", "hand") if any(side in of for of in found.values())]
    text = ""
    for title, at in (("Instructions a change", 1), ("Instructions of registering, a row that is read", 0)):
        rows = []
        for name, of in found.items():
            values = {side: of[side][at] if side in of else None for side in sides}
            quotients = [f"{values['run'] / values[side]:.2f}" if values.get(side) else "" for side in sides[1:]]
            if values["run"]:
                rows.append([report.SAID[name]] + [f"{value:,.0f}" if value else "" for value in values.values()] + quotients)
        head = [""] + [report.NAMES[side] for side in sides] + [f"djq / {report.NAMES[side]}" for side in sides[1:]]
        text += f"\n**{title}**\n\n" + report.table(head, rows)
    return text


def main():
    words = argparse.ArgumentParser(description=__doc__.splitlines()[0])
    words.add_argument("program")
    words.add_argument("--by-hand")
    words.add_argument("--scale", type=float, default=0.002)
    words.add_argument("--changes", type=int, default=2400)
    words.add_argument("--sets", nargs="+", default=[name for name in SETS if name != "every"], choices=list(SETS))
    words.add_argument("--unproved", action="store_true", help="the program is a build that isn't proved, which the page says then")
    words.add_argument("--write", action="store_true", help="put the tables into docs/WIDE.md")
    given = words.parse_args()
    given.program = os.path.abspath(given.program)
    with tempfile.TemporaryDirectory() as folder, concurrent.futures.ThreadPoolExecutor(AT_ONCE) as pool:
        data = measure.Data(os.path.join(folder, "data"), given.scale, given.changes)
        tools = compiled(folder, ["sqlite"])
        write_kinds(data)
        found = {name: of_set(name, given, data, tools, pool) for name in given.sets}
        kinds = {name: by_kind(name, given, data, tools, pool) for name in SETS_BY_KIND if name in given.sets}
    text = report.UNPROVED * given.unproved + f"At scale {given.scale}: {sum(data.rows.values()):,} rows, and {data.change_count:,} changes.\n" + page(found) + page_of_kinds(kinds)
    print(text, end="")
    if given.write:
        report.put(MARK, text)


if __name__ == "__main__":
    main()
