#!/usr/bin/env python3
"""A cache of joined rows, which deltas alone make invalid.

    crates/djq/out/djq serve 127.0.0.1:7007 &
    echo "1 1 2" | python3 examples/cache.py 127.0.0.1:7007

A key is a customer's number; what is made for it is a line with the customer's name beside each item that was ordered.
One query serves all keys: its answers are kept up to date, with an index by their first column. A delta names the keys
whose lines are made anew, by the answers that it brings and takes; all others stay. So no key is asked for, and no time
limit is needed. What is given may be late by as long as a delta takes.

Keys are read from the standard input, words apart, and each is answered by a line. `--size N` keeps the lines of N keys
at most; the one that wasn't asked for longest goes first.
"""

import argparse
import collections
import os
import sys

sys.path.insert(0, os.path.join(os.path.dirname(os.path.abspath(__file__)), "..", "clients", "python"))
import djq

RELATIONS = [
    ("customers", (int, str), [(1, "Ada"), (2, "Bo")]),
    ("orders", (int, str), [(1, "tea"), (1, "cake"), (2, "soup")]),
]
QUERY = "ordered(customer,name,item) <- customers(customer,name), orders(customer,item)"


class Cache:
    """What `make` makes of the answers of each key, the value of their first column."""

    def __init__(self, live, make, size):
        self.live, self.make, self.size = live, make, size
        self.rows = live.by(0)
        self.made = collections.OrderedDict()  # the key that wasn't asked for longest first

    def get(self, key):
        """What is made for a key, and whether it was kept."""
        while (change := self.live.next(0)) is not None:
            for touched in self.rows.touched(change):
                self.made.pop(touched, None)
        kept = key in self.made
        if not kept:
            self.made[key] = self.make(self.rows[key])
            if len(self.made) > self.size:
                self.made.popitem(last=False)
        self.made.move_to_end(key)
        return self.made[key], kept


def line(rows):
    """What is shown for a key."""
    return ", ".join(f"{name} {item}" for _, name, item in sorted(rows)) or "nothing"


def quietly(refusal, call, *given):
    """Whether a call is done; not where it is refused so, since another client did it."""
    try:
        call(*given)
    except refusal:
        return False
    return True


def main():
    words = argparse.ArgumentParser(description=__doc__.splitlines()[0])
    words.add_argument("address", help="HOST:PORT of a server")
    words.add_argument("--size", type=int, default=100_000, help="the most keys whose lines are kept")
    given = words.parse_args()
    host, _, port = given.address.rpartition(":")
    with djq.connect(host, int(port)) as server:
        for name, types, rows in RELATIONS:
            if quietly(djq.Taken, server.relation, name, *types):
                for row in rows:
                    server.add(name, *row)
        quietly(djq.Taken, server.query, QUERY)
        with server.live("ordered", reconnect=True) as live:
            cache = Cache(live, line, given.size)
            for words in sys.stdin:
                for key in words.split():
                    told, kept = cache.get(int(key))
                    print(f"{key} {'kept' if kept else 'made'}: {told}", flush=True)


if __name__ == "__main__":
    try:
        main()
    except djq.Error as error:
        sys.exit(str(error))
