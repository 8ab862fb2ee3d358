#!/usr/bin/env python3
"""Tests of one reader of several servers (djq.shards), beside three of the built program on loopback.

    python3 tests/shards.py PROGRAM

The rows are spread by the test, and stand on a further server whole, which says what the answers are. A line is printed for
each test that fails, and last `N passed, M failed`; the status is 0 where none failed.
"""

import contextlib
import os
import random
import sys
import tempfile

import pages
from harness import expect, run_tests, test
from serving import SECONDS, Server, djq, raises, wait_until

from djq.shards import Spread, Unsuited, shards

COUNT = 3


@test
def which_queries_are_suited(program):
    for texts, disjoint, places in (
        (["q(x,y) <- r(x,y)"], [True], {"r": {0}}),
        (["q(x,y) <- r(x,y), s(y)", "p(y) <- r(_,y)"], [True, False], {"r": {0}, "s": set()}),
        (["q(y) <- r(x,y), t(x)"], [False], {"r": {0}, "t": {0}}),
        (["q(a,b) <- s(a,b)"], [False], {"s": set()}),
        (["q(x) <- r(x,_)", "p(a,b) <- r(a,b)", "o(b) <- r(a,b)", "n(b) <- r(7,b)"], [True, True, False, True], {"r": {0}}),
        (["q(x) <- r(x), t(x)", "p(a) <- r(a), t(a)", "o(b) <- r(7), t(7), s(b)"], [True] * 3, {"r": {0}, "t": {0}, "s": set()}),
        (["q(x,y) <- r(x,y), r(y,x)", "p(x) <- r(x,_)"], [False, False], {"r": {0, 1}}),
    ):
        spread = Spread("x")
        for text in texts:
            spread.add(text)
        expect((list(spread.disjoint.values()), spread.places), (disjoint, places), texts)
    for texts, why in (
        (["q(x,z) <- r(x,y), r(y,z)"], "q isn't suited to rows spread by x: its atoms have no term in common in"
         " r(x,y) by column 1, r(y,z) by column 1"),
        (["q(x) <- r(x), t(x)", "p(a,b) <- r(a), t(b)"], "p isn't suited to rows spread by x: its atoms have no term in common in"
         " r(a) by column 1, t(b) by column 1"),
        (["q(x) <- r(x), t(x)", "p(a) <- r(a), t(_)"], None),
        (["p(a,b) <- r(a,c), s(c,b)", "q(x) <- r(x,_)", "o(x) <- s(x,_)"], "o would spread a relation anew, and then p isn't suited to"
         " rows spread by x: its atoms have no term in common in r(a,c) by column 1, s(c,b) by column 1"),
        (["q(x) <- r(x), t(x)", "p(b) <- r(7), t(8), s(b)"], None),
        (["nothing"], None),
    ):  # fmt: skip
        spread = Spread("x")
        for text in texts[:-1]:
            spread.add(text)
        before = spread.places, spread.disjoint
        error = raises(Unsuited, lambda: spread.add(texts[-1]))
        expect(((spread.places, spread.disjoint), why in (None, str(error))), (before, True), str(error))


QUERIES = (
    "own(x,y,z) <- r(x,y), t(x,z), s(y)",  # each answer is of one server
    "any(y) <- r(x,y), t(x,_)",  # several servers may have it
    "all(y) <- s(y)",  # all have it
    "both(x,y) <- e(x,y), e(y,x)",  # rows of e lie at two servers, and so may answers
)


class Rows:
    """Rows that are spread over servers, and whole on one more."""

    def __init__(self, servers, whole, seed=1):
        self.servers, self.whole = servers, whole
        self.draw, self.rows = random.Random(seed), set()

    def homes(self, relation, row):
        """The servers of a row, by the places that the queries ask for."""
        places = self.servers.places[relation]
        return sorted({row[place] * 7 % COUNT for place in places}) if places else range(COUNT)

    def put(self, relation, row, adds):
        for connection in [self.whole, *(self.servers.connections[home] for home in self.homes(relation, row))]:
            (connection.add if adds else connection.delete)(relation, *row)
        (self.rows.add if adds else self.rows.discard)((relation, row))

    def change(self):
        """A row comes or goes, or moves to another value by which it is spread."""
        relation = self.draw.choice("rrttse")
        row = (self.draw.randrange(9),) if relation == "s" else (self.draw.randrange(12), self.draw.randrange(9))
        there = (relation, row) in self.rows
        self.put(relation, row, not there)
        if there and self.draw.random() < 0.5:
            moved = ((row[0] + 1) % 12, *row[1:])
            if (relation, moved) not in self.rows:
                self.put(relation, moved, True)


@contextlib.contextmanager
def three(program, folder=None):
    """Three servers, with logs if there is a folder for them, one with all rows, and a reader of the three."""
    with contextlib.ExitStack() as stack:
        logs = [folder and os.path.join(folder, f"log{n}") for n in range(COUNT)]
        running = [stack.enter_context(Server(program, log=log)) for log in logs]
        whole = stack.enter_context(stack.enter_context(Server(program)).connect())
        servers = stack.enter_context(shards([("127.0.0.1", one.port) for one in running], by="x", timeout=SECONDS))
        for relation, *types in (("r", int, int), ("t", int, int), ("s", int), ("e", int, int)):
            servers.relation(relation, *types)
            whole.relation(relation, *types)
        for text in QUERIES:
            servers.query(text)
            whole.query(text)
        yield running, servers, whole


@test
def merged_answers_are_those_of_one_server(program):
    with three(program) as (_, servers, whole), contextlib.ExitStack() as stack:
        expect(servers.places, {"r": (0,), "t": (0,), "s": (), "e": (0, 1)})
        rows, names = Rows(servers, whole), ["own", "any", "all", "both"]
        for _ in range(50):
            rows.change()
        lives = {name: stack.enter_context(servers.live(name)) for name in names}
        for turn in range(20):
            for _ in range(50):
                rows.change()
            for name, live in lives.items():
                wanted = whole.snapshot(name)
                expect(servers.snapshot(name), wanted, name)
                live.sync()
                expect(live.answers, wanted, name)
                for answer in list(wanted)[:3]:
                    expect(servers.has(name, *answer), True)
                expect(servers.has(name, *[99] * len(next(iter(wanted)))), False)
        expect({name: live._merged._counts is None for name, live in lives.items()}, {"own": True, "any": False, "all": False, "both": False})
        # each change of the merged answers is told once
        live, told = lives["any"], set(lives["any"].answers)
        for _ in range(200):
            rows.change()
        for change in live.changes(timeout=0.5):
            assert not change.came & told and change.went <= told, change
            told = (told - change.went) | change.came
        expect((told, live.answers), (whole.snapshot("any"),) * 2)


@test
def a_query_that_is_refused_is_nowhere(program):
    with three(program) as (_, servers, whole):
        error = raises(Unsuited, lambda: servers.query("far(x,y) <- r(x,z), t(z,y)"))
        assert str(error).startswith("far isn't suited"), error
        raises(djq.NotFreeConnex, lambda: servers.query("far(y,z) <- r(x,y), t(x,z)"))
        raises(Unsuited, lambda: servers.live("far"))
        for connection in servers.connections:
            raises(djq.NoQuery, lambda: connection.shape("far"))
        servers.connections[2].query("half(x) <- r(x,_)")
        raises(djq.Taken, lambda: servers.query("half(x) <- r(x,_)"))
        raises(djq.NoQuery, lambda: servers.connections[0].shape("half"))
        servers.connections[0].query("half(x) <- r(x,_)")
        servers.connections[1].query("half(x) <- r(x,_)")
        servers.know("half(x) <- r(x,_)")
        expect(servers.snapshot("half"), set())
        servers.drop("half")
        raises(djq.NoQuery, lambda: servers.connections[1].shape("half"))


@test
def a_server_is_lost_and_is_back(program):
    with tempfile.TemporaryDirectory() as folder, three(program, folder) as (running, servers, whole):
        rows = Rows(servers, whole)
        for _ in range(300):
            rows.change()
        with servers.live("any") as live:
            expect(live.answers, whole.snapshot("any"))
            running[1].process.kill()
            running[1].process.wait()
            before = set(live.answers)
            one = next(x for x in range(1, 12) if x * 7 % COUNT == 0)
            for connection in (whole, servers.connections[0]):  # the others go on
                connection.add("r", one, 77)
                connection.add("t", one, 77)
            wait_until(lambda: live.next(0.2) is not None and (77,) in live.answers)
            expect(live.answers, before | {(77,)}, "what the lost server told is there still")
            again = Server(program, running[1].port, os.path.join(folder, "log1"))
            running[1].process = again.process
            again.__enter__()
            with again.connect() as connection:
                two = next(x for x in range(1, 12) if x * 7 % COUNT == 1)
                for to in (whole, connection):
                    to.add("r", two, 88)
                    to.add("t", two, 88)
            wait_until(lambda: live.next(0.2) is not None and (88,) in live.answers)
            live.sync()
            expect(live.answers, whole.snapshot("any"))


@test
def the_page_is_as_shown(program):
    with contextlib.ExitStack() as stack:
        names = {"addresses": [("127.0.0.1", stack.enter_context(Server(program)).port) for _ in range(COUNT)]}
        blocks = [block for kind, block in pages.blocks("SCALE.md") if kind == "python"]
        for block in blocks:
            pages.run_python("SCALE.md", block, names)
        names["servers"].close()
        expect(len(blocks), 2)


if __name__ == "__main__":
    if len(sys.argv) != 2:
        raise SystemExit(__doc__)
    path = os.path.abspath(sys.argv[1])
    sys.exit(run_tests(lambda function: function(path), limit=-3))
