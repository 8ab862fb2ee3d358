#!/usr/bin/env python3
"""What djq costs in instructions: python3 bench/count.py PROGRAM [--beside BY_HAND] [--only A ..] [--write] [--time].

Each kind of work of `workloads.py` is run with N rows and with 4N under `valgrind --tool=callgrind`, which counts the
instructions of the operations alone. They hardly depend on the machine, nor on what else it does. `--write` keeps the
counts in counted.json and in the table of docs/PERFORMANCE.md; `tests/counted.py` holds them.

`--beside` counts the program by hand on the same streams (README.md says which it is). Without it the counts of that
program stand beside that are kept in counted_by_hand.json, where `--write` keeps them.

`--time` counts nothing, and tells instead how much processor time two kinds of work take in both programs.
"""

import argparse
import concurrent.futures
import json
import os
import re
import shutil
import statistics
import subprocess
import tempfile

from bench import Session
from workloads import ALIKE, BY_HAND, WORKLOADS

HERE = os.path.dirname(os.path.abspath(__file__))
KEPT = os.path.join(HERE, "counted.json")
KEPT_BY_HAND = os.path.join(HERE, "counted_by_hand.json")
PAGE = os.path.join(HERE, "..", "docs", "PERFORMANCE.md")
TABLE = re.compile(r"(?<=<!-- begin: bench/count.py --write -->\n).*?(?=<!-- end -->)", re.DOTALL)
NO_CHANGE = re.compile(r"err |no |stale |ok absent|ok added \d+ (?!1$)|ok removed \d+ (?!0$)|ok done \d+ 0$")
AT_ONCE = 3  # streams that are run side by side
TIMED = {"F": 20_000, "J": 10_000}  # kinds of work that `--time` times, with so many rows
RUNS = 9  # how often it runs each


def can_count():
    """Whether valgrind is there."""
    return shutil.which("valgrind") is not None and shutil.which("callgrind_control") is not None


def per_operation(program, stream):
    """The instructions of a stream's operations, an operation."""
    with tempfile.NamedTemporaryFile("r+") as told:
        words = ["valgrind", "--tool=callgrind", "--instr-atstart=no", "--callgrind-out-file=/dev/null"]
        with Session(program, [*words, f"--log-file={told.name}"]) as session:
            run(session, stream.before, 0)
            switch(session, "on")
            run(session, stream.counted, stream.told)
            switch(session, "off")
        instructions = re.search(r"Collected : (\d+)", told.read())
    return int(instructions[1]) / stream.operations


def switch(session, state):
    """Counts from now on, or no more."""
    subprocess.run(["callgrind_control", "-i", state, str(session.process.pid)], check=True, capture_output=True)


def run(session, lines, answers):
    """Runs lines, of which none may be refused or change no row, and which are told so many lines of answers."""
    _, told = session.feed(lines)
    refused = [line for line in told if NO_CHANGE.match(line)]
    number = sum(line.startswith(("= ", "+ ", "- ")) for line in told)
    if refused or number != answers:
        raise SystemExit(f"refused: {refused[:3]}; {number} answers, and there are {answers}")


def count(program, names=tuple(WORKLOADS)):
    """The instructions of an operation, with N rows and with 4N, of each kind of work."""
    sizes = [(name, size * WORKLOADS[name].rows) for name in names for size in (1, 4)]
    with concurrent.futures.ThreadPoolExecutor(AT_ONCE) as pool:
        counts = list(pool.map(lambda one: per_operation(program, WORKLOADS[one[0]].make(one[1])), sizes))
    return {name: [round(counts[2 * at]), round(counts[2 * at + 1])] for at, name in enumerate(names)}


def seconds(program, stream):
    """The processor time of a stream's operations, of the program and of the system for it."""
    with Session(program) as session:
        run(session, stream.before, 0)
        before = processor(session)
        run(session, stream.counted, stream.told)
        return processor(session) - before


def processor(session):
    """The seconds that the program was on a processor."""
    with open(f"/proc/{session.process.pid}/schedstat", encoding="ascii") as file:
        return int(file.read().split()[0]) / 1e9


def tell_times(program, by_hand):
    """The times of both programs, in turns, and the median of the quotients of each turn."""
    for name, rows in TIMED.items():
        stream = WORKLOADS[name].make(rows)
        turns = [(seconds(program, stream), seconds(by_hand, stream)) for _ in range(RUNS)]
        ours, theirs = (statistics.median(times) / stream.operations * 1e6 for times in zip(*turns))
        times = statistics.median(one / other for one, other in turns)
        print(f"{name} with {rows:,} rows: {ours:,.1f} us an operation, by hand {theirs:,.1f} us: {times:.2f} times")


def table(counts, by_hand):
    """The counts as a page shows them, and beside them those of the program by hand and of one with tables like djq's."""
    lines = ["| | | N | instructions | with 4N | by hand | times | alike | times |", "|---|---|---|---|---|---|---|---|---|"]
    for name, (small, large) in counts.items():
        work = WORKLOADS[name]
        cells = [name, work.what, f"{work.rows:,}", f"{small:,}", f"{large:,}"]
        for other in (by_hand[name][0] if name in by_hand else None, ALIKE.get(name)):
            cells += [f"{other:,}", f"{small / other:.2f}"] if other else ["", ""]
        lines.append(f"| {' | '.join(cells)} |")
    return "\n".join(lines) + "\n"


def kept(path=KEPT):
    """The counts that are kept; none before the first were."""
    if not os.path.exists(path):
        return {}
    with open(path, encoding="ascii") as file:
        return json.load(file)


def keep(counts, path=KEPT):
    """Keeps these counts, and those of other kinds of work as they are; gives all."""
    counts = {name: both for name in WORKLOADS if (both := {**kept(path), **counts}.get(name)) is not None}
    with open(path, "w", encoding="ascii") as file:
        file.write("{\n" + ",\n".join(f'  "{name}": {both}' for name, both in counts.items()) + "\n}\n")
    return counts


def show(text):
    """Puts the table into the page, where it has a place for it."""
    with open(PAGE, encoding="utf-8") as file:
        page = file.read()
    with open(PAGE, "w", encoding="utf-8") as file:
        file.write(TABLE.sub(lambda _: text, page))


def main():
    words = argparse.ArgumentParser(description=__doc__.splitlines()[0])
    words.add_argument("program")
    words.add_argument("--beside", metavar="BY_HAND", help="the program by hand, counted on the same streams")
    words.add_argument("--only", nargs="*", choices=[*WORKLOADS], default=[*WORKLOADS])
    words.add_argument("--write", action="store_true", help="keep the counts")
    words.add_argument("--time", action="store_true", help="tell times, of PROGRAM and BY_HAND")
    given = words.parse_args()
    if given.time:
        return tell_times(given.program, given.beside or words.error("--time needs --beside"))
    if not can_count():
        raise SystemExit("valgrind isn't there: on Debian, apt-get install valgrind")
    counts, by_hand = count(given.program, given.only), {}
    if given.beside:
        by_hand = count(given.beside, [name for name in given.only if name in BY_HAND])
    print(table(counts, {**kept(KEPT_BY_HAND), **by_hand}), end="")
    if given.write:
        show(table(keep(counts), keep(by_hand, KEPT_BY_HAND)))


if __name__ == "__main__":
    main()
