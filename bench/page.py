#!/usr/bin/env python3
"""What pages cost: python3 bench/page.py PROGRAM [--rows N] [--viewers N] [--keys N] [--changes N].

It starts the server and `djq-web` beside it on loopback, and prints

- with N rows in a table's query: what the page weighs, the seconds until Chromium has painted it, and from a change to
  a viewer that was sent it, with the bytes of a change;
- with N viewers of all answers of one query: from a change until the last of them has it;
- with N viewers of one query, each of the answers of a key of its own: the same of the one viewer whom a change
  concerns, what a change costs djq-web, and how many connections it has to the server.

Viewers are sockets of this process. It needs python3-aiohttp, and for the paint chromium, chromium-driver and
python3-selenium, from Debian. Nothing is left behind.
"""

import argparse
import contextlib
import os
import statistics
import sys
import time

sys.path.insert(0, os.path.join(os.path.dirname(os.path.abspath(__file__)), "..", "tests"))
from live_endpoint import Many, connections_to  # noqa: E402
from serving import Server, wait_until  # noqa: E402
from web import DEBIAN, Browser, Events, Web, has_aiohttp, has_browser  # noqa: E402

PAGE = """
title = "Rows"
[[panel]]
kind = "table"
title = "Rows"
query = "rows"
columns = ["key", "text"]
rows = 100
[[panel]]
kind = "count"
title = "How many"
query = "rows"
"""


def filled(server, rows):
    """The relation, the query, and so many rows."""
    client = server.connect()
    client.relation("r", int, str)
    client.load("r", [(key, f"some text of row {key}") for key in range(rows)])
    client.query("rows(k,t) <- r(k,t)")
    return client


def report(name, value):
    """A line of the table."""
    print(f"  {name:<58} {value}", flush=True)


def times(seconds):
    """The middle and the worst of some times, in milliseconds."""
    return f"{1000 * statistics.median(seconds):.1f} ms, at most {1000 * max(seconds):.1f} ms"


def processor(process):
    """The seconds that a process was on a processor."""
    with open(f"/proc/{process.pid}/schedstat", encoding="ascii") as file:
        return int(file.read().split()[0]) / 1e9


def memory(process):
    """The megabytes that a process holds."""
    with open(f"/proc/{process.pid}/statm", encoding="ascii") as file:
        return int(file.read().split()[1]) * os.sysconf("SC_PAGE_SIZE") / 1e6


def a_table(program, rows, changes):
    """The page of a table."""
    print(f"a table of {rows:,} rows")
    with Server(program) as server, filled(server, rows) as client, Web(server, PAGE) as web:
        wait_until(lambda: f"of {rows:,} rows" in web.page())
        begun = time.perf_counter()
        page = web.page()
        report("the page, without a browser", f"{1000 * (time.perf_counter() - begun):.1f} ms, {len(page):,} bytes")
        if has_browser():
            report("painted first, of five times", painted(web))
        with Events(web) as events:
            events.until_whole(2)
            took, sizes = [], []
            for change in range(changes):
                time.sleep(0.1)
                before, begun = events.size, time.perf_counter()
                client.add("r", -1 - change, f"a further row {change}")
                events.until(lambda views, change=change: events.rows()[0][0] == str(-1 - change))
                took.append(time.perf_counter() - begun)
                time.sleep(0.1)
                sizes.append(events.size - before)
        report("from an add to a viewer", times(took))
        report("bytes of a change", f"{statistics.median(sizes):.0f}, at most {max(sizes)}")


def painted(web):
    """The seconds until Chromium has painted the page."""
    browser = Browser()
    try:
        paints = []
        for _ in range(5):
            browser.open(web)
            paints.append(browser.painted())
    finally:
        browser.driver.quit()
    return times(paints)


def all_answers(program, viewers, changes):
    """Viewers of all answers of one query."""
    print(f"{viewers:,} viewers of all answers of one query")
    words = ("--viewers", str(viewers))
    with Server(program) as server, filled(server, 100) as client, Web(server, None, *words) as web:
        begun = time.perf_counter()
        with Many(web.port, viewers, "/live/rows") as many:
            many.until(b"event: answers")
            report("until all have connected and have the answers", f"{time.perf_counter() - begun:.1f} s")
            took = []
            for change in range(changes):
                text = f"change {change};"
                begun = time.perf_counter()
                client.add("r", change, text)
                many.until(text.encode())
                took.append(time.perf_counter() - begun)
                time.sleep(0.2)
            report("from an add until the last viewer has it", times(took))
            report("memory of djq-web", f"{memory(web.process):.0f} MB")


def a_key_each(program, viewers, changes):
    """Viewers of one query with a key each."""
    print(f"{viewers:,} viewers of one query with a key each")
    words = ("--viewers", str(viewers), "--query", "rows(key,text)")
    with Server(program) as server, filled(server, viewers) as client, Web(server, None, *words) as web:
        begun = time.perf_counter()
        with Many(web.port, viewers) as many:
            many.until(b"event: answers")
            report("until all have connected and have their answers", f"{time.perf_counter() - begun:.1f} s")
            took = []
            for change in range(changes):
                key, text = (change * 7919) % viewers, f"change {change};"
                begun = time.perf_counter()
                client.add("r", key, text)
                many.until(text.encode(), [key])
                took.append(time.perf_counter() - begun)
            report("from an add to the viewer of its key", times(took))
            before, begun = processor(web.process), time.perf_counter()
            client.load("r", [(key, "further") for key in range(viewers)])
            many.until(b"further")
            spent = processor(web.process) - before
            report(f"{viewers:,} changes at once, one for each viewer", f"{time.perf_counter() - begun:.1f} s")
            report("processor time of djq-web, for a change", f"{1e6 * spent / viewers:.0f} us")
            report("connections of djq-web to the server", connections_to(web.process.pid, client.port))
            report("memory of djq-web", f"{memory(web.process):.0f} MB")


def main():
    parser = argparse.ArgumentParser(description="What pages cost.")
    parser.add_argument("program")
    parser.add_argument("--rows", type=int, default=10_000)
    parser.add_argument("--viewers", type=int, default=2000)
    parser.add_argument("--keys", type=int, default=5000)
    parser.add_argument("--changes", type=int, default=50)
    given = parser.parse_args()
    program = os.path.abspath(given.program)
    a_table(program, given.rows, given.changes)
    all_answers(program, given.viewers, given.changes)
    a_key_each(program, given.keys, given.changes)


if __name__ == "__main__":
    # Debian's packages are for Debian's interpreter
    if not (has_aiohttp() and has_browser()) and os.path.exists(DEBIAN) and not os.environ.get("DJQ_WEB_AGAIN"):
        os.execve(DEBIAN, [DEBIAN, *sys.argv], dict(os.environ, DJQ_WEB_AGAIN="1"))
    if not has_aiohttp():
        sys.exit("bench/page.py needs python3-aiohttp")
    with contextlib.suppress(KeyboardInterrupt):
        main()
