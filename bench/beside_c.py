#!/usr/bin/env python3
"""djq beside SQLite in memory, called from C and through Python, on rows of two integers.

    bench/beside_c.py PROGRAM [--rows N] [--runs R] [--write]

Four rows of bench.py's first table, with N rows (200,000): each the best of R runs. The same statements are given to SQLite by
beside_c/sqlite.c, which is compiled with cc and SQLite's library (on Debian, gcc and libsqlite3-dev), and the rows that its
triggers log are held against those that Python saw. `--write` puts the table into docs/PERFORMANCE.md.
"""

import argparse
import os
import re
import subprocess
import sys
import tempfile

sys.dont_write_bytecode = True
import bench  # noqa: E402

HERE = os.path.dirname(os.path.abspath(__file__))
PAGE = os.path.join(HERE, "..", "docs", "PERFORMANCE.md")
TABLE = re.compile(r"(?<=<!-- begin: bench/beside_c.py --write -->\n).*?(?=<!-- end -->)", re.DOTALL)


def compiled(folder):
    """SQLite from C."""
    program = os.path.join(folder, "sqlite")
    source = os.path.join(HERE, "beside_c", "sqlite.c")
    done = subprocess.run(["cc", "-O2", "-o", program, source, "-lsqlite3"], capture_output=True, text=True)
    if done.returncode:
        raise SystemExit(f"sqlite.c isn't compiled (on Debian, apt-get install gcc libsqlite3-dev):\n{done.stderr}")
    return program


class InC:
    """What is said to SQLite from C."""

    def __init__(self, script, changes):
        self.words = bench.statements(changes)
        self.places = {word: at for at, word in enumerate(self.words)}
        self.said = [self.sized("script", bench.LOG + script)] + [self.sized("statement", sql) for sql in self.words.values()]

    @staticmethod
    def sized(word, text):
        return f"{word} {len(text.encode())}\n{text}\n"

    def make(self, changes):
        rows = "".join(f"{self.places[word, table]} {x} {y}\n" for word, table, (x, y) in changes)
        self.said.append(f"changes {len(changes)}\n{rows}")

    def ask(self, sql, times):
        self.said.append(f"query {times} {len(sql)}\n{sql}\n")

    def told(self, program):
        """Of each change list and question: the seconds, how many rows were read, and the sum of their numbers."""
        done = subprocess.run([program], input="".join(self.said), capture_output=True, text=True, check=True)
        return [(int(nanos) / 1e9, int(rows), int(total)) for nanos, rows, total in map(str.split, done.stdout.splitlines())]


def logged(script, *lists):
    """The log of SQLite's triggers for the last of some lists of changes, by Python."""
    base = bench.base_of(script)
    for changes in lists:
        _, log = bench.apply(base, changes)
    return len(log), sum(value for row in log for value in row if isinstance(value, int))


def join_in_c(program, count):
    changes = bench.join_rows(count)
    said = InC(bench.JOIN_BASE, changes)
    said.make(changes)
    ((seconds, *log),) = said.told(program)
    bench.same(tuple(log), logged(bench.JOIN_BASE, changes), "SQLite from C, join")
    return seconds / count


def updates_in_c(program, count):
    fill, changes = bench.update_changes(count)
    said = InC(bench.UPDATE_BASE, fill + changes)
    said.make(fill)
    said.make(changes)
    _, (seconds, *log) = said.told(program)
    bench.same(tuple(log), logged(bench.UPDATE_BASE, fill, changes), "SQLite from C, updates")
    return seconds / (len(changes) // 2)


def fan_out_in_c(program, count):
    fill, changes = bench.fan_changes(count)
    said = InC(bench.FAN_BASE, fill + changes)
    said.make(fill)
    said.make(changes)
    _, (seconds, *log) = said.told(program)
    bench.same(tuple(log), logged(bench.FAN_BASE, fill, changes), "SQLite from C, fan-out")
    return seconds / len(changes)


def dead_ends_in_c(program, count):
    changes, times = bench.dead_end_rows(count), 3
    said = InC(bench.PATH_BASE, changes)
    said.make(changes)
    said.said.append(InC.sized("script", "analyze"))
    said.ask(bench.FIRST_OF_PATH + "10", times)
    _, (seconds, rows, _) = said.told(program)
    bench.same(rows, 10 * times, "SQLite from C, dead ends")
    return seconds / times


ROWS = [
    ("insert below a join of two relations", "join", "join: add a row below q(x,y,z) <- r(x,y), s(y,z)", join_in_c),
    ("a row replaced below a watched join", "updates", "updates: replace a row below a watched join", updates_in_c),
    ("a change that publishes 16 answers", "fan-out", "fan-out: a watched change that tells 16 answers", fan_out_in_c),
    ("the first ten answers of a join of three, most rows being dead ends", "dead-ends",
     "dead ends: open, first 10 answers, close", dead_ends_in_c),
]


def shown(value):
    return f"{value * 1e6:.1f} µs" if value < 1e-3 else f"{value * 1e3:.0f} ms"


def table(given, in_c):
    names = dict.fromkeys(part for _, part, _, _ in ROWS)
    parts = {name: bench.least(bench.PARTS[name], given.program, given.rows, given.runs) for name in names}
    lines = "| | djq | SQLite, from C | SQLite, through Python |\n|---|---|---|---|\n"
    for said, part, what, measure in ROWS:
        ours, theirs, _ = parts[part][what]
        from_c = min(measure(in_c, given.rows) for _ in range(given.runs))
        lines += f"| {said} | {shown(ours)} | {shown(from_c)} | {shown(theirs)} |\n"
    return lines


def main():
    words = argparse.ArgumentParser(description=__doc__.splitlines()[0])
    words.add_argument("program")
    words.add_argument("--rows", type=int, default=200_000)
    words.add_argument("--runs", type=int, default=3)
    words.add_argument("--write", action="store_true", help="put the table into docs/PERFORMANCE.md")
    given = words.parse_args()
    with tempfile.TemporaryDirectory() as folder:
        text = table(given, compiled(folder))
    print(text, end="")
    if given.write:
        with open(PAGE, encoding="utf-8") as file:
            page = file.read()
        with open(PAGE, "w", encoding="utf-8") as file:
            file.write(TABLE.sub(lambda _: text, page))


if __name__ == "__main__":
    main()
