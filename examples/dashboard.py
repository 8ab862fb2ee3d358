#!/usr/bin/env python3
"""A table of a join's answers in the terminal, drawn anew as rows come and go.

    crates/djq/out/djq serve 127.0.0.1:7007 &
    python3 examples/dashboard.py 127.0.0.1:7007

It makes two relations, `machines` and `jobs`, with a few rows where they aren't there yet, and shows each job
beside its machine's name. In another terminal, `nc 127.0.0.1 7007` and then

    add jobs 13 2 "waiting"
    batch
    del jobs 11 1 "running"
    add jobs 11 1 "done"
    done 2

change the table at once, the last four lines as one change. A `+` stands before the answers that came by the last change.
With `--once` it prints the table as it is and ends; with `--changes N` it ends after N changes.
"""

import argparse
import os
import sys

sys.path.insert(0, os.path.join(os.path.dirname(os.path.abspath(__file__)), "..", "clients", "python"))
import djq

HEAD = ("machine", "name", "job", "state")
QUERY = "board(machine,name,job,state) <- machines(machine,name), jobs(job,machine,state)"
MACHINES = [(1, "anvil"), (2, "bellows")]
JOBS = [(11, 1, "running"), (12, 2, "waiting")]


def prepare(server):
    """The relations and the query, where they aren't there, and rows of new relations."""
    for name, types, rows in (("machines", (int, str), MACHINES), ("jobs", (int, int, str), JOBS)):
        try:
            server.relation(name, *types)
        except djq.Taken:
            continue
        for row in rows:
            server.add(name, *row)
    try:
        server.query(QUERY)
    except djq.Taken:
        pass


def table(answers, came):
    """The lines of a table, the answers in order."""
    cells = [[str(value) for value in answer] for answer in sorted(answers)]
    widths = [max(map(len, column)) for column in zip(HEAD, *cells)]
    spread = lambda row: "  ".join(cell.ljust(width) for cell, width in zip(row, widths)).rstrip()
    lines = ["  " + spread(HEAD), "  " + "  ".join("-" * width for width in widths)]
    for answer, row in zip(sorted(answers), cells):
        lines.append(("+ " if answer in came else "  ") + spread(row))
    return lines


def draw(live, came=frozenset()):
    if sys.stdout.isatty():
        print("\x1b[H\x1b[J", end="")
    print(f"change {live.seq}, answers: {len(live.answers)}")
    print("\n".join(table(live.answers, came)), flush=True)


def main():
    words = argparse.ArgumentParser(description=__doc__.splitlines()[0])
    words.add_argument("address", help="HOST:PORT of a server")
    words.add_argument("--once", action="store_true", help="print the table and end")
    words.add_argument("--changes", type=int, help="end after so many changes")
    given = words.parse_args()
    host, _, port = given.address.rpartition(":")
    with djq.connect(host, int(port)) as server:
        prepare(server)
        with server.live("board") as live:
            draw(live)
            if given.once:
                return
            for seen, change in enumerate(live.changes(), 1):
                draw(live, change.came)
                if seen == given.changes:
                    return


if __name__ == "__main__":
    try:
        main()
    except KeyboardInterrupt:
        pass
    except djq.Error as error:
        sys.exit(str(error))
