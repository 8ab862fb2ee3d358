#!/usr/bin/env python3
"""Where the instructions of a change of a wide schema are spent, by the parts of djq.

    bench/wide/parts.py PROGRAM [--scale S] [--changes N] [--sets NAME ..] [--write]

`djq run` is run twice a set under `valgrind --tool=callgrind`, without the changes and with them, and each function's instructions
are subtracted. What a function of the library or of the system costs belongs to the function of djq that calls it. PROGRAM needs the
names of its functions.
"""

import argparse
import collections
import concurrent.futures
import os
import re
import subprocess
import sys
import tempfile

sys.dont_write_bytecode = True
import instructions  # noqa: E402
import measure  # noqa: E402
import report  # noqa: E402
from queries import BY_NAME, SETS  # noqa: E402

MARK = "bench/wide/parts.py --write"
# the first that fits: a part, and what its functions' names begin with
PARTS = (
    ("reading the line: its words, numbers and texts", ("djq_parser", "djq_session", "djq_value")),
    ("the relation, and texts in the dictionary", ("djq_database", "djq_dictionary")),
    ("hash tables: rows, leaves, the nodes above", ("djq_leaves", "djq_reduct", "djq_propagate", "djq_index", "djq_arena", "djq_query", "djq_binder")),
    ("the delta: marking and walking what a change reaches", ("djq_reach", "djq_gains", "djq_enumeration", "djq_live_query", "djq_union", "djq_united")),
    ("printing replies, answers and deltas", ("djq_reply",)),
    ("the command: names, refusals in order, sessions", ("djq_commands", "djq_core", "djq_store", "djq_engine", "djq_machine", "djq_cursors", "djq_counters", "djq_model")),
    ("moving bytes, and the program's loop", ("djq",)),
)
LINE = re.compile(r"(fn|cfn)=\((\d+)\)(?: (.*))?$")


def part_of(function):
    """The part that a function belongs to; none of a library's."""
    crate = re.match(r"(djq\w*)(?:::|\+|$)", function)
    return next((name for name, crates in PARTS if crate and any(crate[1] == one or one == "djq" for one in crates)), None)


def read(path):
    """Of a profile each function's own instructions, and of each call which function calls which, with what the call costs in all."""
    names, own, calls, function, called = {}, collections.Counter(), collections.Counter(), "", None
    with open(path, encoding="utf-8", errors="replace") as file:
        for line in file:
            found = LINE.match(line.rstrip("\n"))
            if found:
                kind, number, name = found.groups()
                names.setdefault(number, name)
                if kind == "fn":
                    function = names[number]
                else:
                    called = names[number]
            elif line.startswith("calls="):
                words = next(file).split()
                calls[function, called] += int(words[1])
            elif line[0] in "0123456789+-*":
                words = line.split()
                own[function] += int(words[1]) if len(words) > 1 else 0
    return own, calls


def by_part(own, calls):
    """Instructions of each part. A function of a library has its own and those of the libraries below it, without what it calls of djq."""
    found, rest = collections.Counter(), sum(own.values())
    for function, count in own.items():
        if part_of(function):
            found[part_of(function)] += count
            rest -= count
    below = {}
    for (caller, callee), count in calls.items():
        if part_of(caller) and not part_of(callee):
            count -= back(callee, calls, below) * count
            found[part_of(caller)] += count
            rest -= count
    found["else"] = rest
    return found


def back(function, calls, below):
    """Of what a library's function costs in all, the part that functions of djq have which it calls."""
    if function not in below:
        below[function] = 0
        total = sum(count for (_, callee), count in calls.items() if callee == function)
        inner = [(callee, count) for (caller, callee), count in calls.items() if caller == function and callee != function]
        ours = sum(count if part_of(callee) else count * back(callee, calls, below) for callee, count in inner)
        below[function] = min(1, ours / total) if total else 0
    return below[function]


def profiled(program, text):
    """A run's instructions by part, and all of them."""
    with tempfile.TemporaryDirectory() as folder:
        path = os.path.join(folder, "profile")
        words = ["valgrind", "--tool=callgrind", f"--callgrind-out-file={path}", "--compress-pos=no", f"--log-file={path}.log", *program, "run"]
        subprocess.run(words, input=text, stdout=subprocess.DEVNULL, text=True, check=True)
        return by_part(*read(path))


def of_set(name, program, data, pool):
    """A change's instructions by part."""
    stages = instructions.djq_stages(data, [BY_NAME[query] for query in SETS[name]])
    waiting = [pool.submit(profiled, program, "".join(stages[:upto])) for upto in (2, 3)]
    begin, end = (one.result() for one in waiting)
    if not any(count for part, count in end.items() if part != "else"):
        raise SystemExit("the program has no names of functions")
    return {part: (end[part] - begin[part]) / data.change_count for part in [*(name for name, _ in PARTS), "else"]}


def page(found):
    """A row a part, a column a set."""
    rows = [["all", *(f"{sum(of.values()):,.0f}" for of in found.values())]]
    for part in [*(name for name, _ in PARTS), "else"]:
        cells = [f"{of[part]:,.0f} ({of[part] / sum(of.values()):.0%})" for of in found.values()]
        rows.append([part, *cells])
    return report.table(["instructions a change", *(report.SAID[name] for name in found)], rows)


def main():
    words = argparse.ArgumentParser(description=__doc__.splitlines()[0])
    words.add_argument("program", nargs="+", help="the program, which may be several words")
    words.add_argument("--scale", type=float, default=0.002)
    words.add_argument("--changes", type=int, default=2400)
    words.add_argument("--sets", nargs="+", default=["none", "q3", "lines", "sold"], choices=list(SETS))
    words.add_argument("--unproved", action="store_true", help="the program is a build that isn't proved, which the page says then")
    words.add_argument("--write", action="store_true", help="put the table into docs/WIDE.md")
    given = words.parse_args()
    with tempfile.TemporaryDirectory() as folder, concurrent.futures.ThreadPoolExecutor(instructions.AT_ONCE) as pool:
        data = measure.Data(os.path.join(folder, "data"), given.scale, given.changes)
        found = {name: of_set(name, given.program, data, pool) for name in given.sets}
        lines = instructions.of_file(data, "changes", "djq")
    text = report.UNPROVED * given.unproved + (f"At scale {given.scale}, {sum(data.rows.values()):,} rows. A change is {lines.count(chr(10)) / data.change_count:.2f} lines of "
            f"{len(lines) / data.change_count:.0f} bytes in all.\n\n{page(found)}")
    print(text, end="")
    if given.write:
        report.put(MARK, text)


if __name__ == "__main__":
    main()
