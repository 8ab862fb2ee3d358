#!/usr/bin/env python3
"""What a change costs by the rows that are there: python3 bench/flat.py PROGRAM.

Counts, under `valgrind --tool=callgrind`, the instructions of a watched change of a query whose changes cost the same
whatever there is, with 10^3 to 10^6 rows; and beside it those of a query where one row may make all others join. Values
are of equally many digits, so that longer numbers don't count.
"""

import random
import sys

from count import can_count, per_operation
from workloads import Stream, add, delete, relations

FLAT = "q(x,y,z) <- r(x,y), s(x,z)"
LINEAR = "p(x,y) <- r(x), s(x,y), t(y)"
FIRST = 1_000_000  # the least value
CHANGES = 2000
SIZES = [10**3, 10**4, 10**5, 10**6]
MOST_LINEAR = 10**5  # rows of the other query, a change of which takes some thousand instructions a row


def flat(rows):
    """Two rows a key in each relation; a row comes and goes, with two answers."""
    chance, keys = random.Random(1), rows // 4
    lines = relations("rs") + [f"query {FLAT}"]
    lines += [add(name, FIRST + at // 2, FIRST + at) for at in range(2 * keys) for name in "rs"]
    counted = []
    for _ in range(CHANGES // 2):
        row = "r", FIRST + chance.randrange(keys), 2 * FIRST
        counted += [add(*row), delete(*row)]
    return Stream([*lines, "watch q"], counted, CHANGES, 2 * CHANGES)


def linear(rows):
    """All rows have one key, whose one row on the other side comes and goes; no answer does."""
    lines = ["rel r int", "rel s int int", "rel t int", f"query {LINEAR}"]
    lines += [add("s", FIRST, FIRST + at) for at in range(rows)]
    return Stream([*lines, "watch p"], [add("r", FIRST), delete("r", FIRST)], 2)


def main():
    if len(sys.argv) != 2:
        raise SystemExit(__doc__)
    if not can_count():
        raise SystemExit("valgrind isn't there: on Debian, apt-get install valgrind")
    print(f"| rows | a watched change of `{FLAT}` | a watched change of `{LINEAR}` |\n|---|---|---|")
    for rows in SIZES:
        ours = per_operation(sys.argv[1], flat(rows))
        other = f"{per_operation(sys.argv[1], linear(rows)):,.0f}" if rows <= MOST_LINEAR else ""
        print(f"| {rows:,} | {ours:,.0f} | {other} |", flush=True)


if __name__ == "__main__":
    main()
