#!/usr/bin/env python3
"""What rows cost on their way from PostgreSQL through djq to Redis.

    python3 bench/neighbours.py PROGRAM [--rows N] [--updates N]

It starts a PostgreSQL 15, djq, djq-postgres, a Redis and djq-redis on loopback, and ends them by their ids; it needs what
tests/postgres_feed.py needs. Without and with a log it prints, a line each: the rows a second of the first load, and of one
transaction of the stream; the transactions a second of single updates; the delay from COMMIT to the delta at a subscriber,
and to the entry in Redis, as median and 99th percentile; and the processor time of each process for a row.
"""

import argparse
import contextlib
import os
import statistics
import sys
import tempfile
import time

sys.path.insert(0, os.path.join(os.path.dirname(os.path.abspath(__file__)), "..", "tests"))

import postgres_in

if __name__ == "__main__":
    postgres_in.change_python()

from postgres_feed import Feed, Redis, Server, Writer, await_place

QUERY = "q(o,w,i) <- orders(o,w), items(o,i)"
TICKS = os.sysconf("SC_CLK_TCK")


def seconds_of(process):
    """The seconds that a process was on a processor."""
    with open(f"/proc/{process.pid}/stat", encoding="ascii") as file:
        words = file.read().rpartition(")")[2].split()
    return (int(words[11]) + int(words[12])) / TICKS


class Clock:
    """The time, and that of each process, since it was made."""

    def __init__(self, **processes):
        self.processes = processes
        self.begun, self.before = time.monotonic(), {name: seconds_of(one) for name, one in processes.items()}

    def line(self, what, count, unit):
        spent = time.monotonic() - self.begun
        each = (f"{name} {(seconds_of(one) - self.before[name]) / count * 1e6:.1f} us" for name, one in self.processes.items())
        return f"{what}: {count / spent:,.0f} {unit} a second; of a processor {', '.join(each)}"


def delays(count, change, wait):
    """Median and 99th percentile of the time from a change to what it is waited for, in milliseconds."""
    spent = []
    for number in range(count):
        change(number)
        began = time.monotonic()
        wait()
        spent.append(1000 * (time.monotonic() - began))
    return f"median {statistics.median(spent):.2f} ms, 99th {statistics.quantiles(spent, n=100)[98]:.2f} ms"


class Entries:
    """The entries of the feed in Redis, from now on."""

    def __init__(self, client):
        self.client, self.last = client, client.xrevrange("djq:q", count=1)[0][0]

    def wait(self):
        """Waits for an entry after the last one."""
        ((_, told),) = self.client.xread({"djq:q": self.last}, block=20_000)
        self.last = told[-1][0]


def measure(program, log, rows, updates):
    with contextlib.ExitStack() as stack:
        postgres = stack.enter_context(postgres_in.Postgres())
        dsn, sql = stack.enter_context(postgres.database())
        server = stack.enter_context(Server(program, log=log))
        sql.execute("CREATE TABLE orders (id int PRIMARY KEY, who text); CREATE TABLE items (o int, i int, PRIMARY KEY (o, i))")
        sql.execute("INSERT INTO orders SELECT n, 'w' || n %% 5 FROM generate_series(1, %s) AS n", (rows,))
        feed = stack.enter_context(Feed(dsn, server.port, "--tables", "orders,items", "--query", QUERY))
        clock = Clock(djq_postgres=feed.process, djq=server.process)
        await_place(sql, server)
        yield clock.line("first load", rows, "rows")
        clock = Clock(djq_postgres=feed.process, djq=server.process)
        sql.execute("INSERT INTO items SELECT n, n %% 7 FROM generate_series(1, %s) AS n", (rows,))
        await_place(sql, server)
        yield clock.line("one transaction", rows, "rows")
        there = stack.enter_context(Redis())
        writer = stack.enter_context(Writer(server, there, "--queries", "q"))
        clock = Clock(djq_postgres=feed.process, djq=server.process, djq_redis=writer.process, redis=there.process)
        for number in range(updates):
            sql.execute("UPDATE orders SET who = 'x' WHERE id = %s", (number + 1,))
        await_place(sql, server)
        yield clock.line("single updates", updates, "transactions")
        change = lambda number: sql.execute("UPDATE orders SET who = %s WHERE id = %s", (f"z{number}", number % rows + 1))
        with server.connect() as session, session.live("q") as live:
            yield "COMMIT to delta: " + delays(300, change, lambda: live.next(20))
        client = stack.enter_context(there.connect())
        time.sleep(1)  # in which the entries before come
        entries = Entries(client)
        change = lambda number: sql.execute("UPDATE orders SET who = %s WHERE id = %s", (f"y{number}", number % rows + 1))
        yield "COMMIT to entry: " + delays(300, change, entries.wait)


def main():
    words = argparse.ArgumentParser(description=__doc__.split("\n")[0])
    words.add_argument("program", metavar="PROGRAM")
    words.add_argument("--rows", type=int, default=200_000)
    words.add_argument("--updates", type=int, default=5_000)
    given = words.parse_args()
    with tempfile.TemporaryDirectory() as folder:
        for log in None, os.path.join(folder, "log"):
            print("with a log" if log else "without a log")
            for line in measure(os.path.abspath(given.program), log, given.rows, given.updates):
                print(f"  {line}", flush=True)


if __name__ == "__main__":
    main()
