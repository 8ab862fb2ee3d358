#!/usr/bin/env python3
"""An alarm of two rules that overlap, told once: a pump has to stop where it runs dry, or where a bearing is too hot.

    crates/djq/out/djq serve 127.0.0.1:7007 &
    python3 examples/rules.py 127.0.0.1:7007

Each rule is a query of its own, and the alarm is their union: it is raised by whichever rule holds first, and cleared
once none holds any more. What happens to the second rule in between tells nothing. SEQ is the number of the change that
did it, and behind it stand the rules that hold as it is told. In another terminal, `nc 127.0.0.1 7007` and then

    add levels 11 5
    add bearings 1 85
    del levels 11 5
    del bearings 1 85

Of these four the first raises the alarm of pump 1 and the last clears it. With `--once` it prints the alarms that stand
and ends; with `--lines N` it ends after N lines.
"""

import argparse
import os
import sys

sys.path.insert(0, os.path.join(os.path.dirname(os.path.abspath(__file__)), "..", "clients", "python"))
import djq

RULES = {
    "dry": 'dry(pump) <- pumps(pump,tank,"running"), levels(tank,percent), percent < 10',
    "hot": "hot(pump) <- bearings(pump,degrees), degrees >= 80",
}
RELATIONS = [
    ("pumps", (int, int, str), [(1, 11, "running"), (2, 12, "running")]),
    ("levels", (int, int), [(11, 60), (12, 70)]),
    ("bearings", (int, int), [(1, 40), (2, 45)]),
]


def prepare(server):
    """The relations, the rules and their union, where they aren't there, and rows of new relations."""
    for name, types, rows in RELATIONS:
        try:
            server.relation(name, *types)
        except djq.Taken:
            continue
        for row in rows:
            server.add(name, *row)
    for rule in RULES.values():
        try:
            server.query(rule)
        except djq.Taken:
            pass
    try:
        server.union("halt", *RULES)
    except djq.Taken:
        pass


def lines(server, live):
    """The alarms that stand, then those that are raised and cleared, without end."""
    for (pump,) in sorted(live.answers):
        yield tell(server, "stands", live.seq, pump)
    for change in live.changes():
        for (pump,) in sorted(change.went):
            yield f"cleared {change.seq}: pump {pump} may run"
        for (pump,) in sorted(change.came):
            yield tell(server, "raised", change.seq, pump)


def tell(server, word, seq, pump):
    rules = [rule for rule in RULES if server.has(rule, pump)]
    return f"{word} {seq}: pump {pump} has to stop, it is {' and '.join(rules) or 'well again'}"


def main():
    words = argparse.ArgumentParser(description=__doc__.splitlines()[0])
    words.add_argument("address", help="HOST:PORT of a server")
    words.add_argument("--once", action="store_true", help="print the alarms that stand and end")
    words.add_argument("--lines", type=int, help="end after so many lines")
    given = words.parse_args()
    host, _, port = given.address.rpartition(":")
    with djq.connect(host, int(port)) as server:
        prepare(server)
        with server.live("halt") as live:
            bound = len(live.answers) if given.once else given.lines
            told = lines(server, live)
            while bound is None or bound > 0:
                print(next(told), flush=True)
                bound = None if bound is None else bound - 1


if __name__ == "__main__":
    try:
        main()
    except KeyboardInterrupt:
        pass
    except djq.Error as error:
        sys.exit(str(error))
