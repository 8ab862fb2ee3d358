#!/usr/bin/env python3
"""Measures what the Python client keeps: a cache of many keys by one query, what is computed of live answers, and rows that
expire.

    bench/client.py PROGRAM [--keys N] [--rows N] [--only KIND ..] [--json FILE]

PROGRAM is the built server; it listens on a free port of loopback. Times are of one run, of both ends on one machine.
"""

import argparse
import json
import os
import platform
import statistics
import subprocess
import sys
import time

HERE = os.path.dirname(os.path.abspath(__file__))
sys.path[:0] = [os.path.join(HERE, "..", "tests"), os.path.join(HERE, "..", "examples")]
from serving import SECONDS, Server, djq

import cache as cached

KINDS = ("cache", "folds", "expiring", "moments")
CHANGES = 2000  # single changes of which each is timed


class Report:
    """The figures, each with its words, printed as they come."""

    def __init__(self):
        self.figures = {}

    def tell(self, name, value, unit):
        self.figures[name] = round(value, 3)
        print(f"{name:<64} {value:>12,.3f} {unit}", flush=True)

    def timed(self, name, call):
        began = time.perf_counter()
        result = call()
        self.tell(name, time.perf_counter() - began, "s")
        return result

    def spread(self, name, seconds):
        ordered = sorted(seconds)
        self.tell(f"{name}, median", 1000 * statistics.median(ordered), "ms")
        self.tell(f"{name}, 99 of 100", 1000 * ordered[len(ordered) * 99 // 100], "ms")


def megabytes():
    """The memory of this process that is in use."""
    with open("/proc/self/statm", encoding="ascii") as file:
        return int(file.read().split()[1]) * os.sysconf("SC_PAGESIZE") / 1e6


def bench_cache(program, report, keys):
    """As many keys as are given, each with one joined row, behind one query."""
    with Server(program) as server, server.connect() as client:
        for name, types, _ in cached.RELATIONS:
            client.relation(name, *types)
        client.query(cached.QUERY)
        client.load("customers", ((key, f"customer {key}") for key in range(keys)))
        client.load("orders", ((key, "tea") for key in range(keys)))
        before = megabytes()
        live = report.timed(f"cache of {keys:,} keys: the live set starts", lambda: client.live("ordered"))
        cache = report.timed("cache: the index is made", lambda: cached.Cache(live, cached.line, keys))
        report.timed("cache: each key is asked for the first time", lambda: [cache.get(key) for key in range(keys)])
        hits = report.timed("cache: each key is asked for again", lambda: sum(cache.get(key)[1] for key in range(keys)))
        assert hits == keys
        report.tell("cache: memory that the client took", megabytes() - before, "MB")
        waits = []
        for number in range(CHANGES):
            key = number * 7919 % keys
            began = time.perf_counter()
            client.add("orders", key, f"cake {number}")
            while cache.get(key)[1] or f"cake {number}" not in cache.get(key)[0]:
                pass
            waits.append(time.perf_counter() - began)
            assert len(cache.made) == keys, "another key was made invalid"
        report.spread("cache: from an insert sent to the key made anew", waits)
        live.close()


def bench_folds(report, answers):
    """What is computed of so many answers, without a server: at first, and by each change."""
    rows = {(number, number % 1000, f"state {number % 7}") for number in range(answers)}
    computed = {
        "nothing": lambda kept: None,
        "count by a column": lambda kept: kept.count(by=2),
        "sum by a column": lambda kept: kept.sum(1, by=2),
        "max, and the first ten": lambda kept: (kept.max(1), kept.top(10, 0)),
        "index by a column": lambda kept: kept.by(1),
    }
    for name, compute in computed.items():
        kept = djq.kept.Kept("q")
        kept._apply(djq.Change(1, frozenset(rows), frozenset()))
        report.timed(f"{answers:,} answers, {name}: at first", lambda: compute(kept))
        changes = [
            djq.Change(2 + at, frozenset({(answers + at, at % 1000, "new")}), frozenset({(at, at % 1000, f"state {at % 7}")}))
            for at in range(min(answers, 20000))
        ]
        began = time.perf_counter()
        for change in changes:
            kept._apply(change)
            compute(kept)
        took = (time.perf_counter() - began) / len(changes)
        report.tell(f"{answers:,} answers, {name}: a change taken and read", 1e6 * took, "us")


def bench_expiring(program, report, rows):
    """So many rows that expire."""
    now = [1_000_000.0]
    with Server(program) as server, server.connect() as client:
        seen = djq.Expiring(client.table("seen", int, str, key=1), 30, by_itself=False, clock=lambda: now[0])
        all_rows = [(number, f"machine {number}") for number in range(rows)]
        report.timed(f"{rows:,} rows that expire: all come", lambda: seen.renew_all(all_rows))
        now[0] += 10
        report.timed("rows that expire: all are renewed", lambda: seen.renew_all(all_rows))
        waits = []
        for number in range(CHANGES):
            now[0] += 0.001
            began = time.perf_counter()
            seen.renew(*all_rows[number * 7919 % rows])
            waits.append(time.perf_counter() - began)
        report.spread("rows that expire: one is renewed", waits)
        with server.connect() as other:
            begun = report.timed(
                "rows that expire: another process goes on with them",
                lambda: djq.Expiring(other.table("seen", int, str, key=1), 30, False, lambda: now[0]),
            )
            assert len(begun.table) == rows
        renewed = min(CHANGES, rows)
        now[0] += 30 - 0.001 * CHANGES
        gone = report.timed("rows that expire: those that weren't renewed go", seen.expire)
        assert len(gone) == rows - renewed, len(gone)
        waits = []
        with djq.Expiring(client.table("few", int, key=1), 0.5) as few, client.live("few_rows") as live:
            for number in range(20):
                few.renew(number)
                began = time.perf_counter()
                while not live.next(SECONDS).went:
                    pass
                waits.append(time.perf_counter() - began - 0.5)
        report.spread("rows that expire: one goes by itself, beyond its time", waits)


def bench_moments(program, report):
    """The changes of two queries told together, one change after another."""
    with Server(program) as server, server.connect() as client:
        client.relation("r", int)
        client.query("q(x) <- r(x)")
        client.query("p(x) <- r(x)")
        with client.lives("q", "p") as lives:
            for name, take in (("alone", lambda: [lives.next(SECONDS), lives.next(SECONDS)]),
                               ("together", lambda: lives.next_moment(SECONDS))):  # fmt: skip
                waits = []
                for number in range(CHANGES):
                    began = time.perf_counter()
                    (client.delete if number % 2 else client.add)("r", 1)
                    take()
                    waits.append(time.perf_counter() - began)
                report.spread(f"a change of two queries, each told {name}", waits)


def main():
    words = argparse.ArgumentParser(description=__doc__.splitlines()[0])
    words.add_argument("program")
    words.add_argument("--keys", type=int, default=100_000)
    words.add_argument("--rows", type=int, default=10_000)
    words.add_argument("--only", nargs="+", choices=KINDS, default=KINDS, help="what is measured")
    words.add_argument("--json", metavar="FILE", help="write the figures there too")
    given = words.parse_args()
    program, report = os.path.abspath(given.program), Report()
    commit = subprocess.run(["git", "log", "-1", "--format=%h"], cwd=HERE, capture_output=True, text=True).stdout.strip()
    print(f"client {djq.__version__} at {commit}, Python {platform.python_version()}, {os.cpu_count()} processors")
    if "cache" in given.only:
        bench_cache(program, report, given.keys)
    if "folds" in given.only:
        bench_folds(report, given.keys)
    if "expiring" in given.only:
        bench_expiring(program, report, given.rows)
    if "moments" in given.only:
        bench_moments(program, report)
    if given.json:
        with open(given.json, "w", encoding="utf-8") as file:
            json.dump(report.figures, file, indent=1)
            file.write("\n")


if __name__ == "__main__":
    main()
