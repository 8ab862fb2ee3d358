"""A small factory that moves: eight machines, jobs that come, run and go, and gauges that drift.

A query compares a variable with a constant, and here thresholds are rows. So the pairs of a machine and a gauge that
reads more than its threshold are a small relation of their own, `too_high`, kept in step with the answers of
`measured`; a threshold that is changed by hand raises and clears alarms too:

    del thresholds "heat" 80
    add thresholds "heat" 60
"""

from __future__ import annotations

import random
import sys
import time

from ..connection import Connection, connect
from ..errors import Error, Taken
from ..live import PASSING
from ..protocol import Answer

PACE = 0.6  # seconds between two things that happen
PAUSE = 1.0  # seconds before a server that isn't there is asked again
TIMEOUT = 10.0

MACHINES = ["anvil", "bellows", "crane", "drill", "etcher", "furnace", "grinder", "hoist"]
GAUGES = {"heat": (62, 80), "load": (55, 85)}  # what each reads when nothing is wrong, and its threshold
MOST_WAITING = 14

QUERIES = [
    "board(machine,name,job,state) <- machines(machine,name), jobs(job,machine,state)",
    'running(job) <- jobs(job,_,"running")',
    'waiting(job) <- jobs(job,_,"waiting")',
    "measured(machine,gauge,reading,most) <- gauges(machine,gauge,reading), thresholds(gauge,most)",
    "in_alarm(machine) <- too_high(machine,_)",
    "raised(machine,name,gauge) <- machines(machine,name), too_high(machine,gauge)",
    "alarms(machine,name,gauge,reading,most)"
    " <- machines(machine,name), too_high(machine,gauge), gauges(machine,gauge,reading), thresholds(gauge,most)",
]


def run_demo(host: str, port: int) -> None:
    """Moves the factory without end, also where the server comes back without it."""
    while True:
        try:
            with connect(host, port, TIMEOUT) as server:
                Factory(server, random.Random()).run()
        except PASSING:
            time.sleep(PAUSE)
        except Error as error:
            print(f"djq-web: the demo has ended: {error}", file=sys.stderr, flush=True)
            return


class Factory:
    """What is on the server, and what happens next."""

    def __init__(self, server: Connection, chance: random.Random) -> None:
        self._chance = chance
        self._server = server
        try:
            server.relation("machines", int, str)
        except Taken:
            pass  # by an earlier run, or by examples/dashboard.py, which has the same
        self._jobs = server.table("jobs", int, int, str, key=1)
        self._gauges = server.table("gauges", int, str, int, key=2)
        self._too_high = server.table("too_high", int, str, key=2)
        self._thresholds = server.table("thresholds", str, int, key=1)
        if len(self._gauges) == 0:
            self._fill()
        for query in QUERIES:
            try:
                server.query(query)
            except Taken:
                pass
        self._measured = server.lives("measured")
        self._job = max((int(job) for job, _, _ in self._jobs), default=100)

    def run(self) -> None:
        """Lets things happen without end."""
        try:
            while True:
                self._work()
                self._drift()
                self._compare()
                time.sleep(PACE * self._chance.uniform(0.6, 1.4))
        finally:
            self._measured.close()

    def _fill(self) -> None:
        self._server.load("machines", enumerate(MACHINES, 1))
        for gauge, (usual, threshold) in GAUGES.items():
            self._thresholds.upsert(gauge, threshold)
            for machine in range(1, len(MACHINES) + 1):
                self._gauges.upsert(machine, gauge, usual + self._chance.randint(-6, 6))
        for job in range(101, 101 + len(MACHINES)):
            self._jobs.upsert(job, job - 100, "running" if job < 105 else "waiting")

    def _jobs_in(self, state: str) -> list[tuple[int, int]]:
        """The jobs in a state, in order, each with its machine."""
        return sorted((int(job), int(machine)) for job, machine, now in self._jobs if now == state)

    def _work(self) -> None:
        """Jobs come, are begun where their machine is free, and are done; for half a minute more come than are done."""
        chance = self._chance.random
        waiting, running = self._jobs_in("waiting"), self._jobs_in("running")
        if chance() < (0.5 if time.monotonic() % 60 < 30 else 0.2) and len(waiting) < MOST_WAITING:
            self._job += 1
            self._jobs.upsert(self._job, self._chance.randint(1, len(MACHINES)), "waiting")
        busy = {machine for _, machine in running}
        free = [(job, machine) for job, machine in waiting if machine not in busy]
        if free and chance() < 0.5:
            self._jobs.upsert(*free[0], "running")
        for job, _ in running:
            if chance() < 0.06:
                self._jobs.remove(job)

    def _drift(self) -> None:
        """One gauge reads something else: more where its machine works, and now and then much more."""
        rows = [(int(machine), str(gauge), int(reading)) for machine, gauge, reading in sorted(self._gauges)]
        if not rows or self._chance.random() < 0.3:
            return
        machine, gauge, reading = self._chance.choice(rows)
        busy = {machine for _, machine in self._jobs_in("running")}
        usual = GAUGES.get(gauge, (reading, 0))[0] + (10 if machine in busy else -6)
        jump = 22 if self._chance.random() < 0.12 else 0
        self._gauges.upsert(machine, gauge, reading + jump + round((usual - reading) / 3 + self._chance.gauss(0, 4)))

    def _compare(self) -> None:
        """Brings `too_high` in step with what is measured."""
        self._measured.sync()
        (measured,) = self._measured
        wanted: set[Answer] = {
            (machine, gauge) for machine, gauge, reading, most in measured.answers if int(reading) > int(most)
        }
        there = set(self._too_high)
        for row in there - wanted:
            self._too_high.remove(*row)
        for row in wanted - there:
            self._too_high.upsert(*row)
