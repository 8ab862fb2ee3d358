#!/usr/bin/env python3
"""An alarm rule as a join with a threshold: which sensor reads too high, and who of the team that minds it is on call.

    crates/djq/out/djq serve 127.0.0.1:7007 &
    python3 examples/alarm.py 127.0.0.1:7007

An answer that comes raises an alarm, and one that goes clears it; SEQ is the number of the change that did it. What a
sensor reads is told in percent of what is safe, and from 90 on the server has an answer: below, it sends nothing. The
rule looks at three relations, so an alarm also moves when somebody else goes on call or a team minds something else.
In another terminal, `nc 127.0.0.1 7007` and then

    add readings 7 "heat" 95
    batch
    del readings 7 "heat" 95
    add readings 7 "heat" 97
    done 2
    batch
    del oncall "heating" "Ada"
    add oncall "heating" "Cai"
    done 2
    del readings 7 "heat" 97

A row that replaces another is one change with it, by a transaction: the alarm stands, and is told as changed. Where two
gateways report the same reading, its row has two copies, and the alarm is cleared once both took it back. Where the
connection was lost, what was missed is told as one change. With `--once` it prints the alarms that stand and ends; with
`--lines N` it ends after N lines.
"""

import argparse
import os
import sys

sys.path.insert(0, os.path.join(os.path.dirname(os.path.abspath(__file__)), "..", "clients", "python"))
import djq

RULE = (
    "alarm(sensor,kind,level,team,person)"
    " <- readings(sensor,kind,level), level >= 90, minds(kind,team), oncall(team,person)"
)
RELATIONS = [
    ("readings", (int, str, int), [(7, "heat", 40)]),
    ("minds", (str, str), [("heat", "heating"), ("damp", "plumbing")]),
    ("oncall", (str, str), [("heating", "Ada"), ("plumbing", "Bo")]),
]


def prepare(server):
    """The relations and the rule, where they aren't there, and rows of new relations."""
    for name, types, rows in RELATIONS:
        try:
            server.relation(name, *types)
        except djq.Taken:
            continue
        for row in rows:
            server.add(name, *row)
    try:
        server.query(RULE)
    except djq.Taken:
        pass


def lines(live):
    """The alarms that stand, then those that are raised, changed and cleared, without end."""
    for answer in sorted(live.answers):
        yield tell("stands", live.seq, answer)
    for change in live.changes():
        # what one change takes of a sensor and brings again stands
        went, came = ({answer[:2] for answer in answers} for answers in (change.went, change.came))
        for answer in sorted(change.went):
            if answer[:2] not in came:
                yield tell("cleared", change.seq, answer)
        for answer in sorted(change.came):
            yield tell("changed" if answer[:2] in went else "raised", change.seq, answer)


def tell(word, seq, answer):
    sensor, kind, level, team, person = answer
    return f"{word} {seq}: sensor {sensor} has {kind} at {level} %, {team} calls {person}"


def main():
    words = argparse.ArgumentParser(description=__doc__.splitlines()[0])
    words.add_argument("address", help="HOST:PORT of a server")
    words.add_argument("--once", action="store_true", help="print the alarms that stand and end")
    words.add_argument("--lines", type=int, help="end after so many lines")
    given = words.parse_args()
    host, _, port = given.address.rpartition(":")
    with djq.connect(host, int(port)) as server:
        prepare(server)
        with server.live("alarm") as live:
            bound = len(live.answers) if given.once else given.lines
            told = lines(live)
            while bound is None or bound > 0:
                print(next(told), flush=True)
                bound = None if bound is None else bound - 1


if __name__ == "__main__":
    try:
        main()
    except KeyboardInterrupt:
        pass
    except djq.Error as error:
        sys.exit(str(error))
