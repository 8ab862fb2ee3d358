#!/usr/bin/env python3
"""What a log costs, and how fair the server is to one client beside another: djq, Redis and PostgreSQL in one run on one disk.

    bench/log/measure.py PROGRAM [--beside PROGRAM] [--full] [--runs R] [--only PART ..] [--disk FOLDER] [--write | --write-before]

README.md beside it says what is done, and how the tables are read. Each figure is the median of R runs (three), in which the sides take
turns. Figures that are kept in figures.json as those of before stand beside these; or, by `--beside`, those of another build in this run.
`--write` puts the tables into docs/PERFORMANCE.md and the figures into figures.json; `--write-before` does so too, and has later runs
compared with these.
"""

import argparse
import contextlib
import json
import os
import platform
import shutil
import signal
import statistics
import subprocess
import sys
import tempfile
import time

sys.dont_write_bytecode = True
import servers  # noqa: E402
import table  # noqa: E402
from servers import Djq, Postgres, Redis, bench  # noqa: E402

LOADS = {"waiting": (32, 1), "pipeline": (1, 1000)}  # connections, and changes of each that are on their way at once
RATE_SECONDS = 1.2
ASK_SECONDS, LEAST_ANSWERS, MOST_SECONDS = 1.5, 10, 5
TRACED_SECONDS = 1
PIPELINED = 10_000
PIPELINED_LOGGED = 2_000
SYNCED = 64  # bytes that a sync is measured with
PARTS = ("rates", "delays", "costly", "calls")


class Driver:
    """A driver that is connected and waits for its begin."""

    def __init__(self, words):
        self.process = subprocess.Popen(words, stdin=subprocess.PIPE, stdout=subprocess.PIPE, text=True, bufsize=1)
        if self.process.stdout.readline() != "ready\n":
            self.process.wait()
            raise SystemExit(f"{os.path.basename(words[0])} can't begin")

    def begin(self):
        self.process.stdin.write("\n")
        return self

    def figures(self, end=False):
        """Its figures, once it has ended by itself or, where it is ended, soon."""
        if end:
            self.process.stdin.close()
        told = self.process.stdout.readline()
        if self.process.wait() or not told:
            raise SystemExit("a driver has failed")
        return json.loads(told)


class Found:
    """The figures of all runs: by row, and by side."""

    def __init__(self):
        self.runs = {}

    def put(self, row, side, value):
        self.runs.setdefault(row, {}).setdefault(side, []).append(value)
        print(f"  {row:<20} {side:<12} {value:,.6g}", flush=True)

    def medians(self):
        return {row: {side: statistics.median(values) for side, values in sides.items()} for row, sides in self.runs.items()}


# The sides


def kinds_of(given):
    """What starts each side that can be measured, given a folder, the drivers and the system calls to be traced."""
    made = {
        "djq log": lambda *words: Djq(*words[:2], given.program, True, *words[2:]),
        "djq": lambda *words: Djq(*words[:2], given.program, False, *words[2:]),
        "redis": Redis,
        "postgres": Postgres,
    }
    if given.beside:
        made["before log"] = lambda *words: Djq(*words[:2], given.beside, True, *words[2:])
        made["before"] = lambda *words: Djq(*words[:2], given.beside, False, *words[2:])
    for side in list(made):
        missing = servers.missing_for(side)
        if missing:
            print(f"{side} is left out: there is no {missing}")
            del made[side]
    return made


def checked_load(server, load, seconds):
    """The figures of a load, all of whose changes are there."""
    before = server.changes()
    figures = Driver(server.load(*LOADS[load], seconds)).begin().figures()
    bench.same(server.changes() - before, figures["changes"], f"the changes of {load}")
    return figures


def rates(found, side, server):
    """Changes a second, nothing else on its way."""
    for load in LOADS:
        figures = checked_load(server, load, RATE_SECONDS)
        found.put(f"{load}.rate", side, figures["changes"] / figures["seconds"])


def delays(found, side, server):
    """What another client waits for an answer: alone, and beside each load."""
    limits = ASK_SECONDS, LEAST_ANSWERS, MOST_SECONDS
    put_delays(found, "alone", side, Driver(server.ask(0.3, *limits[1:])).begin().figures())
    for load in LOADS:
        loading = Driver(server.load(*LOADS[load], 60))
        asking = Driver(server.ask(*limits))
        loading.begin()
        time.sleep(0.2)
        put_delays(found, load, side, asking.begin().figures())
        loading.figures(end=True)


def put_delays(found, row, side, figures):
    found.put(f"{row}.median", side, figures["median"])
    found.put(f"{row}.p99", side, figures["p99"])


# One write of costly lines


def listing(_given):
    """Lines that list a thousand answers each of a union of eight queries over 22 atoms each; one such line; the lines of replies."""
    names = "abc"
    setup = [f"rel {name} int" for name in names]
    setup += [f"add {name} {value}" for name in names for value in range(100)]
    atoms = ", ".join(f"{'abc'[at % 3]}({'xyz'[at % 3]})" for at in range(22))
    setup += [f"query m{at}(x,y,z) <- {atoms}" for at in range(8)]
    setup += ["union u " + " ".join(f"m{at}" for at in range(8)), "open alone u", "open c u"]
    return setup, "next c 1000\n" * 680, 680 * 1001, "next alone 1000\n", 1001, ""


def registering(given):
    """Pairs that register a query over many rows and drop it; one such line; the lines of replies."""
    setup = ["rel s int int"] + [f"add s {value} {value}" for value in range(given.rows)]
    return setup, "query p(x,y) <- s(x,y)\ndrop p\n" * 200, 400, "query p(x,y) <- s(x,y)\n", 1, "drop p\n"


COSTLY = {"listing": listing, "registering": registering}


def costly(found, side, program, given, folder, drivers):
    """What another client waits beside one write of costly lines, to a server without a log."""
    for name, lines_of in COSTLY.items():
        setup, write, replies, one, one_replies, after = lines_of(given)
        with Djq(os.path.join(folder, f"{name} {time.monotonic()}"), drivers, program, False) as server, server.connect() as client:
            bench.pour(client, ("\n".join(setup) + "\n").encode(), len(setup))
            found.put(f"{name}.one", side, statistics.median(alone(client, one, one_replies, after) for _ in range(5)))
            asking = Driver(server.ask(600, 1, 600))
            begin = time.perf_counter()
            client.sendall(write.encode())
            asking.begin()
            bench.same(len(bench.hear(client, replies).splitlines()), replies, f"the replies to {name}")
            found.put(f"{name}.all", side, time.perf_counter() - begin)
            figures = asking.figures(end=True)
            found.put(f"{name}.median", side, figures["median"])
            found.put(f"{name}.most", side, figures["most"])


def alone(client, line, replies, after):
    """The seconds that a line takes whose reply is waited for."""
    begin = time.perf_counter()
    bench.ask(client, line.encode(), replies)
    seconds = time.perf_counter() - begin
    if after:
        bench.ask(client, after.encode())
    return seconds


# System calls


def syncs(found, side, start, folder, drivers):
    """Syncs a change, of a server that is traced."""
    with start(os.path.join(folder, f"syncs {side}"), drivers, ("syncs",)) as server:
        for load in LOADS:
            before = server.trace.counts()["syncs"]
            changes = checked_load(server, load, TRACED_SECONDS)["changes"]
            found.put(f"{load}.syncs", side, (server.trace.counts()["syncs"] - before) / changes)


def calls(found, side, start, folder, drivers, lines):
    """System calls for so many pipelined lines, told for 500 of them."""
    with start(os.path.join(folder, f"calls {side}"), drivers, tuple(servers.Trace.KINDS)) as server, server.connect() as client:
        before = server.trace.counts()
        bench.pour(client, b"".join(b"add r %d\n" % (servers.FIRST + at) for at in range(lines)), lines)
        for kind, count in server.trace.counts().items():
            found.put(f"calls.{kind}", side, (count - before[kind]) * 500 / lines)


# The disk


def sync_seconds(folder):
    """The median of a sync on this disk, after a few bytes were appended."""
    taken = []
    with open(os.path.join(folder, "synced"), "wb", buffering=0) as file:
        for _ in range(200):
            file.write(b"x" * SYNCED)
            begin = time.perf_counter()
            os.fsync(file.fileno())
            taken.append(time.perf_counter() - begin)
    return statistics.median(taken)


def file_system(folder):
    done = subprocess.run(["stat", "-f", "-c", "%T", folder], capture_output=True, text=True)
    return done.stdout.strip()


def measured(given, folder):
    """All figures of one run of the bench."""
    sides, found = kinds_of(given), Found()
    drivers = servers.compiled(folder, sides)
    if "rates" in given.only or "delays" in given.only:
        with contextlib.ExitStack() as stack:
            running = {side: stack.enter_context(start(os.path.join(folder, side), drivers)) for side, start in sides.items()}
            for _ in range(given.runs):
                found.put("sync", "disk", sync_seconds(folder))
                for part, measure in (("rates", rates), ("delays", delays)):
                    for side, server in running.items() if part in given.only else ():
                        measure(found, side, server)
    if "costly" in given.only:
        for _ in range(given.runs):
            for side, program in (("djq", given.program), ("before", given.beside)):
                if program:
                    costly(found, side, program, given, folder, drivers)
    if "calls" in given.only and not shutil.which("strace"):
        print("system calls are left out: there is no strace")
    elif "calls" in given.only:
        for side, start in sides.items():
            if side not in ("djq", "before"):
                syncs(found, side, start, folder, drivers)
            if side not in ("redis", "postgres"):
                logged = side.endswith("log") and not given.full
                calls(found, side, start, folder, drivers, PIPELINED_LOGGED if logged else PIPELINED)
    return found


def main():
    words = argparse.ArgumentParser(description=__doc__.splitlines()[0])
    words.add_argument("program")
    words.add_argument("--beside", metavar="PROGRAM", help="another build, measured in the same run")
    words.add_argument("--full", action="store_true", help="register over 1,000,000 rows in place of 100,000, and trace 10,000 lines with a log")
    words.add_argument("--runs", type=int, default=3)
    words.add_argument("--only", nargs="+", choices=PARTS, default=PARTS)
    words.add_argument("--disk", metavar="FOLDER", help="a folder on the disk to be measured; else that of temporary files")
    words.add_argument("--write", action="store_true", help="put the tables into docs/PERFORMANCE.md, the figures into figures.json")
    words.add_argument("--write-before", action="store_true", help="the same; later runs are compared with these figures")
    given = words.parse_args()
    writes = given.write or given.write_before
    if writes and tuple(given.only) != PARTS:
        words.error("what is written has all parts")
    signal.signal(signal.SIGTERM, lambda *_: sys.exit("ended"))  # so that no server is left
    given.program, given.beside = os.path.abspath(given.program), given.beside and os.path.abspath(given.beside)
    given.rows = 1_000_000 if given.full else 100_000
    began, busy = time.time(), os.getloadavg()[0]
    with tempfile.TemporaryDirectory(dir=given.disk) as folder:
        if file_system(folder) == "tmpfs":
            raise SystemExit(f"{folder} is in memory, where a sync costs nothing: name another folder by --disk")
        found = measured(given, folder)
    machine = {"day": time.strftime("%d %B %Y", time.gmtime(began)), "processors": os.cpu_count(), "load": busy,
               "system": platform.release(), "rows": given.rows, "runs": given.runs, "seconds": round(time.time() - began)}
    now = {"machine": machine, "figures": found.medians()}
    before = None if given.beside or given.write_before else table.stored_before()
    text = table.text_of(now, before)
    print("\n" + text)
    if writes:
        table.write(text, now, given.write_before)


if __name__ == "__main__":
    main()
