"""Tests of what the client computes of live answers: counts, sums, least and largest values, the first few, an index; and
of the moments of several sets. Each is held against the same computed anew.

    python3 tests/folds.py PROGRAM [NAME ..]

Ends with a line `N passed, N failed`; a failure is exit status 1.
"""

import asyncio
import contextlib
import logging
import os
import random
import signal
import socket
import sys
import tempfile
import threading
import time
import traceback

from serving import SECONDS, Server, djq, raises

import djq.aio
from djq import folds
from djq.kept import Kept, take_moment


def plain(answers, column, by):
    """What is computed of answers, computed anew: by group the count, the sum, the least, the largest, the first three and
    the last three in order."""
    groups = {}
    for answer in answers:
        groups.setdefault(by(answer), []).append(answer)
    told = {}
    for key, some in groups.items():
        some.sort(key=lambda answer: (answer[column], answer))
        values = [answer[column] for answer in some]
        told[key] = (len(some), sum(values), values[0], values[-1], some[:3], some[:-4:-1])
    return told


def computed(kept, column, by):
    """The same as it is kept up to date."""
    count, total, least, largest = kept.count(by), kept.sum(column, by), kept.min(column, by), kept.max(column, by)
    first, last = kept.top(3, column, by, least=True), kept.top(3, column, by)
    assert len(count) == len(total) == len(least) == len(largest) == len(first)
    return {key: (count[key], total[key], least[key], largest[key], first[key], last[key]) for key in count}


def compare(kept):
    answers = kept.answers
    for columns, by in (((0,), lambda answer: answer[0]), ((0, 2), lambda answer: (answer[0], answer[2]))):
        given = columns[0] if len(columns) == 1 else columns
        assert computed(kept, 1, given) == plain(answers, 1, by)
        index, wanted = kept.by(*columns), {}
        for answer in answers:
            wanted.setdefault(by(answer), set()).add(answer)
        assert dict(index) == wanted and len(index) == len(wanted) and "none" not in index and index["none"] == set()
    whole = plain(answers, 1, lambda answer: ()).get((), (0, 0, None, None, [], []))
    assert (kept.count(), kept.sum(1), kept.min(1), kept.max(1), kept.top(3, 1, least=True), kept.top(3, 1)) == whole
    texts = sorted((answer[2], answer) for answer in answers)
    assert kept.max(2) == (texts[-1][0] if texts else None)
    assert kept.top(len(texts) + 5, 2, least=True) == [answer for _, answer in texts]


def random_change(draw, answers, seq):
    """A change that suits the answers."""
    went = set(draw.sample(sorted(answers), min(len(answers), draw.choice((0, 0, 1, 1, 2, 30)))))
    came = set()
    while len(came) < draw.choice((0, 1, 1, 2, 40)):
        answer = (draw.randrange(5), draw.randrange(-50, 50), draw.choice("abcä"))
        if answer not in answers:
            came.add(answer)
    return djq.Change(seq, frozenset(came), frozenset(went))


def test_folds_beside_plain_ones(program):
    """Beside 3,000 random changes, with lists so short that they are cut and emptied."""
    before, folds.MOST_IN_A_LIST = folds.MOST_IN_A_LIST, 4
    draw, kept = random.Random(5), Kept("q")
    for seq in range(1, 3001):
        change = random_change(draw, kept.answers, seq)
        kept._apply(change)
        if seq % 10 == 0 or len(kept.answers) < 3:
            compare(kept)
    folds.MOST_IN_A_LIST = before


def test_items_in_order(program):
    before, folds.MOST_IN_A_LIST = folds.MOST_IN_A_LIST, 4
    draw = random.Random(6)
    for size in (0, 1, 2, 3, 4, 5, 100):
        items = [draw.randrange(30) for _ in range(size)]
        ordered = folds.Ordered(items)
        for _ in range(400):
            if items and draw.random() < 0.5:
                ordered.remove(items.pop(draw.randrange(len(items))))
            else:
                items.append(draw.randrange(30))
                ordered.add(items[-1])
            assert list(ordered) == sorted(items) and list(reversed(ordered)) == sorted(items)[::-1]
            assert bool(ordered) == bool(items) and max(map(len, ordered._lists), default=0) <= 4
    folds.MOST_IN_A_LIST = before


class Interrupted(Exception):
    pass


def interrupt(*_):
    raise Interrupted


def test_folds_that_are_interrupted(program):
    """A change that is interrupted anywhere, and taken again, leaves what it would have been."""
    before = signal.signal(signal.SIGALRM, interrupt)
    draw, kept, hits = random.Random(7), Kept("q"), 0
    compare(kept)
    for seq in range(1, 1501):
        change = random_change(draw, kept.answers, seq)
        answers = (kept.answers - change.went) | change.came
        while True:
            try:
                signal.setitimer(signal.ITIMER_REAL, draw.random() / 5000 + 1e-6)
                kept._apply(change)
                signal.setitimer(signal.ITIMER_REAL, 0)
                break
            except Interrupted:
                hits += 1
        assert kept.answers == answers
        if seq % 15 == 0:
            compare(kept)
    signal.signal(signal.SIGALRM, before)
    assert hits > 100, hits


def test_columns_that_dont_suit(program):
    """What can't be computed is raised where it is asked for, and the set goes on."""
    kept = Kept("q")
    assert kept.sum(1) == 0 and kept.max(5) is None and kept.count(7) == {}
    kept._apply(djq.Change(1, frozenset({(1, "a"), (2, "b")}), frozenset()))
    assert kept.answers == {(1, "a"), (2, "b")} and kept.seq == 1
    raises(TypeError, lambda: kept.sum(1))
    raises(IndexError, lambda: kept.max(5))
    raises(IndexError, lambda: kept.count(7))
    raises(TypeError, lambda: kept.by())
    assert kept.sum(0) == 3 and kept.max(1) == "b" and kept.min(-1) == "a"
    kept._apply(djq.Change(2, frozenset(), kept.answers))
    assert kept.sum(1) == 0 and kept.sum(0) == 0 and kept.max(5) is None


def test_an_index_tells_what_a_change_touched(program):
    kept = Kept("q")
    index = kept.by(0)
    for seq, came, went, touched in (
        (1, {(1, "a"), (2, "b")}, set(), {1, 2}), (2, {(1, "c")}, {(1, "a")}, {1}), (3, set(), {(2, "b")}, {2}),
    ):  # fmt: skip
        change = djq.Change(seq, frozenset(came), frozenset(went))
        kept._apply(change)
        assert index.touched(change) == touched and kept.by(0) is index
    assert set(index) == {1} and index[1] == {(1, "c")} and index[2] == set() and 2 not in index


JOBS = "board(machine,name,job,state) <- machines(machine,name), jobs(job,machine,state)"


def factory(client):
    client.relation("machines", int, str)
    client.relation("jobs", int, int, str)
    client.query(JOBS)
    client.load("machines", [(number, f"m{number}") for number in range(5)])


def test_folds_of_a_live_set(program):
    """Also over a start anew, in which the set is listed: of a server with its log, and of one without."""
    draw, rows = random.Random(8), set()
    with tempfile.TemporaryDirectory() as folder:
        log = os.path.join(folder, "log")
        with Server(program, log=log) as server, server.connect() as client:
            factory(client)
            live = client.live("board", reconnect=True)
            index, held = live.by(0), live.count(by=3)
            port = server.port
            for _ in range(60):
                row = (draw.randrange(12), draw.randrange(5), draw.choice(["new", "done"]))
                seq = (client.delete if row in rows else client.add)("jobs", *row).seq
                rows ^= {row}
                while live.seq < seq:
                    live.next(SECONDS)
                check_board(live, index, held, rows)
        with Server(program, port, log) as server, server.connect() as client:
            assert live.next(SECONDS).restarted
            check_board(live, index, held, rows)
            client.add("jobs", 99, 1, "new")
            live.next(SECONDS)
            check_board(live, index, held, rows | {(99, 1, "new")})
        with Server(program, port) as server, server.connect() as client:
            factory(client)
            assert live.next(SECONDS).lost
            check_board(live, index, held, set())
        live.close()


def check_board(live, index, held, rows):
    answers = {(machine, f"m{machine}", job, state) for job, machine, state in rows}
    assert live.answers == answers and live.count() == len(rows)
    states = {state: sum(row[2] == state for row in rows) for state in {row[2] for row in rows}}
    assert dict(held) == dict(live.count(by=3)) == states
    assert {key: set(some) for key, some in index.items()} == {
        machine: {answer for answer in answers if answer[0] == machine} for machine in {row[1] for row in rows}
    }
    assert live.top(2, 2) == sorted(answers, key=lambda answer: (answer[2], answer))[:-3:-1]


# Moments


QUERIES = ["a(x) <- ra(x)", "ab(x) <- ra(x), rb(x)", "b(x) <- rb(x)"]


def moved(client, draw, rows, states):
    """One random change of rows, with what the queries answer behind it by its number."""
    if draw.random() < 0.3:
        with client.transaction() as change:
            some = {(draw.choice(["ra", "rb"]), draw.randrange(6)) for _ in range(4)}
            for row in some:
                (change.delete if row in rows else change.add)(*row)
        rows ^= some
        seq = change.result().seq
    else:
        row = (draw.choice(["ra", "rb"]), draw.randrange(6))
        seq = (client.delete if row in rows else client.add)(*row).seq
        rows ^= {row}
    a, b = ({(value,) for name, value in rows if name == which} for which in ("ra", "rb"))
    states[seq] = [a, a & b, b]


def begin_moments(client):
    client.relation("ra", int)
    client.relation("rb", int)
    for text in QUERIES:
        client.query(text)


def test_moments(program):
    """Behind each moment all sets are those of its change, whether more has come or not."""
    draw, rows, states = random.Random(9), set(), {0: [set(), set(), set()]}
    with Server(program) as server, server.connect() as client:
        begin_moments(client)
        with client.lives("a", "ab", "b") as lives:
            sets, several = list(lives), 0
            for _ in range(60):
                for _ in range(draw.choice((1, 1, 5))):
                    moved(client, draw, rows, states)
                while lives.seq < max(states):
                    moment = lives.next_moment(SECONDS)
                    assert lives.seq == moment.seq and moment.changes
                    assert [live.answers for live in sets] == states[moment.seq], moment
                    assert all(change.seq == moment.seq for change in moment.changes.values())
                    several += len(moment.changes) > 1
                assert [live.answers for live in sets] == states[max(states)]
            assert several > 20
            # a change that brings no answer is a moment of the queries that read it
            client.add("ra", 7)
            assert set(lives.next_moment(SECONDS).changes) == {"a", "ab"} and lives.next_moment(0) is None


class OneByOne:
    """Stands between a client and a server, and hands the server's lines on one by one."""

    def __init__(self, server):
        self.listener = socket.create_server(("127.0.0.1", 0))
        self.port = self.listener.getsockname()[1]
        self.server = server
        threading.Thread(target=self.run, daemon=True).start()

    def run(self):
        client, _ = self.listener.accept()
        behind = socket.create_connection(("127.0.0.1", self.server.port))
        client.setsockopt(socket.IPPROTO_TCP, socket.TCP_NODELAY, 1)
        threading.Thread(target=self.say, args=(client, behind), daemon=True).start()
        with behind.makefile("rb") as told, contextlib.suppress(OSError):
            for line in told:
                client.sendall(line)
                time.sleep(0.003)

    def say(self, client, behind):
        with contextlib.suppress(OSError):
            while piece := client.recv(4096):
                behind.sendall(piece)
            behind.close()


def test_a_moment_is_whole(program):
    """Also where its lines come one by one, each behind a pause."""
    draw, rows, states = random.Random(12), set(), {0: [set(), set(), set()]}
    with Server(program) as server, server.connect() as client:
        begin_moments(client)
        with djq.Lives("127.0.0.1", OneByOne(server).port, SECONDS) as lives:
            sets = [lives.add(name) for name in ("a", "ab", "b")]
            for turn in range(20):
                moved(client, draw, rows, states)
                while lives.seq < max(states):
                    moment = lives.next_moment(SECONDS)
                    assert [live.answers for live in sets] == states[moment.seq], (turn, moment)


def test_moments_over_a_start_anew(program):
    with tempfile.TemporaryDirectory() as folder:
        log = os.path.join(folder, "log")
        draw, rows, states = random.Random(10), set(), {}
        with Server(program, log=log) as server, server.connect() as client:
            begin_moments(client)
            moved(client, draw, rows, states)
            lives = client.lives("a", "ab", "b", reconnect=True)
            port = server.port
        with Server(program, port, log) as server, server.connect() as client:
            for _ in range(10):
                moved(client, draw, rows, states)
            moment = lives.next_moment(SECONDS)
            assert set(moment.changes) == {"a", "ab", "b"} and moment.changes["a"].restarted
            while lives.seq < max(states):
                moment = next(lives.moments(SECONDS))
            assert [live.answers for live in lives] == states[moment.seq] == states[max(states)]
        lives.close()


def test_several_changes_of_one_query_are_one(program):
    """Behind a start anew what a query's listing brings and what came behind it are told as one change."""
    protocol, kept = djq.Protocol(), Kept("q")
    kept.answers, kept._anew = {(1,), (2,)}, ({(1,), (3,)}, 4)
    protocol.feed(b"+ q 2\n- q 3\nat q 5\n+ q 4\nat q 6\n- q 1\nat q 7\n")
    moment = take_moment([kept], protocol, 6)
    assert moment.changes == {"q": djq.Change(6, frozenset({(4,)}), frozenset(), True, False)}, moment
    assert kept.answers == {(1,), (2,), (4,)}
    assert take_moment([kept], protocol, 9).changes["q"].went == {(1,)}


async def awaited_moments(server):
    draw, rows, states = random.Random(11), set(), {0: [set(), set(), set()]}
    with server.connect() as client:
        async with djq.aio.connect("127.0.0.1", server.port, SECONDS) as other:
            async with other.lives("a", "ab", "b") as lives:
                sets = list(lives)
                for _ in range(30):
                    for _ in range(draw.choice((1, 3))):
                        moved(client, draw, rows, states)
                    while lives.seq < max(states):
                        moment = await lives.next_moment(SECONDS)
                        assert [live.answers for live in sets] == states[moment.seq], moment
                    assert [live.answers for live in sets] == states[max(states)]
                assert sets[0].count() == len(sets[0].answers) and set(sets[0].by(0)) == {x for x, in sets[0].answers}
                assert [moment async for moment in lives.moments(0)] == []


def test_moments_with_asyncio(program):
    with Server(program) as server:
        with server.connect() as client:
            begin_moments(client)
        asyncio.run(awaited_moments(server))


TESTS = [
    test_folds_beside_plain_ones, test_items_in_order, test_folds_that_are_interrupted, test_columns_that_dont_suit,
    test_an_index_tells_what_a_change_touched, test_folds_of_a_live_set, test_moments, test_a_moment_is_whole,
    test_moments_over_a_start_anew,
    test_several_changes_of_one_query_are_one, test_moments_with_asyncio,
]  # fmt: skip


def main():
    program, names = os.path.abspath(sys.argv[1]), sys.argv[2:]
    logging.getLogger("djq").setLevel(logging.ERROR)
    passed = failed = 0
    for test in TESTS:
        if names and test.__name__ not in names:
            continue
        try:
            test(program)
            passed += 1
        except Exception:
            failed += 1
            print(f"{test.__name__} failed")
            traceback.print_exc()
    print(f"{passed} passed, {failed} failed")
    sys.exit(1 if failed or not passed else 0)


if __name__ == "__main__":
    main()
