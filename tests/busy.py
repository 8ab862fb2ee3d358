"""Tests of the client beside rows that change, servers that go and come, and calls that are interrupted: nothing is
lost without a word."""

import contextlib
import os
import random
import signal
import threading
import time

from serving import SECONDS, Server, churn, djq, dropped, raises


def grid(client, name, side):
    """A query with side * side answers in group 0, and one in group 7 as long as a row of it is there."""
    for relation in "abc":
        client.relation(f"{name}_{relation}", int, int)
    client.query(f"{name}(g,x,y,k) <- {name}_a(g,x), {name}_b(g,y), {name}_c(g,k)")
    with client.pipeline() as many:
        for group in (0, 7):
            many.add(f"{name}_c", group, 1)
        many.add(f"{name}_a", 7, 1)
        for number in range(side):
            many.add(f"{name}_a", 0, number)
            many.add(f"{name}_b", 0, number)
    return [f"add {name}_b 7 1", f"del {name}_b 7 1"]


def catch_up(live, listed):
    """Takes changes until none comes, and compares with a listing."""
    for change in live.changes(0.5):
        pass
    assert live.answers == listed, (len(live.answers), len(listed))


# Live sets that start


def live_starts(program, side, rate, most):
    """A live set of side * side answers starts beside so many changes a second, in so many seconds at most: at the best
    of three tries, and where the machine has more to do than it can, by the processor time of both ends."""
    tries = []
    for _ in range(3):
        tries.append(live_started(program, side, rate))
        if tries[-1][0] < most:
            return
    assert os.getloadavg()[0] > os.cpu_count() and min(spent for _, spent in tries) < most, tries


def live_started(program, side, rate):
    """The seconds that a live set takes to start, and those that client and server were on a processor meanwhile."""
    with Server(program) as server, server.connect() as client:
        lines = grid(client, "q", side)
        with churn(server, rate, *lines):
            spent = time.process_time() + server.processor()
            began = time.monotonic()
            live = client.live("q")
            took = time.monotonic() - began
            spent = time.process_time() + server.processor() - spent
            assert len(live.answers) - side * side in (0, 1)
            seqs = [live.next(SECONDS).seq for _ in range(10)]
            assert seqs == list(range(seqs[0], seqs[0] + 10))
        with live:
            catch_up(live, set(client.answers("q")))
    return took, spent


def test_live_starts_while_rows_change(program):
    live_starts(program, 55, 1000, 0.2)
    live_starts(program, 158, 50, 10)


def test_a_large_live_set_starts_while_rows_change(program):
    live_starts(program, 633, 1000, 30)


def test_live_starts_anew_after_a_long_delta(program):
    """From 202,500 answers to 405,000, beside 1,000 changes a second."""
    with Server(program) as server, server.connect() as client:
        lines = grid(client, "q", 450)
        client.relation("wide", str)
        client.query("wide(x,y) <- q_a(0,x), wide(y)")
        with churn(server, 1000, *lines):
            live = client.live("q")
            live._group._connection.watch("wide")
            client.add("q_c", 0, 2)
            # nothing is read of this delta of 202,500 answers, nor of what follows, until the session is ended,
            # which gives up its watches
            for turn in range(1000):
                (client.delete if turn % 2 else client.add)("wide", "t" * 250)
                if dropped(client, "wide"):
                    break
            assert turn < 999, "the session never ended"
            began = time.monotonic()
            while not live.next(3 * SECONDS).restarted:
                pass
            took = time.monotonic() - began
            assert took < 60, took
            assert len(live.answers) - 2 * 450 * 450 in (0, 1)
        with live:
            catch_up(live, client.snapshot("q"))
        return took


def test_a_listing_that_is_overtaken_says_so(program):
    with Server(program) as server, server.connect() as client, server.connect() as other:
        grid(client, "q", 100)
        turn, rows = client._turn, iter(range(10**9))

        def overtaken(said, until, lead=0):
            """A turn, behind which a row comes."""
            replies = turn(said, until, lead)
            other.add("q_c", 8, next(rows))
            return replies

        client._turn = overtaken
        # with two pages a turn it can't come to its end
        error = raises(djq.Overtaken, lambda: djq.listing.list_whole(client, "q", 2, 2))
        assert "q wasn't listed in 2 s" in str(error) and "one turn tells 2000" in str(error)
        assert len(client.snapshot("q")) == 10000
        client.drop("q")


# Starts that fail


def test_live_after_a_start_that_failed(program):
    with Server(program) as server, server.connect() as client:
        client.relation("r", int)
        client.query("q(x) <- r(x)")
        for row in range(3):
            client.add("r", row)
        live = client.live("q")
        port = server.port
    raises(djq.Disconnected, lambda: live.next(SECONDS))
    with Server(program, port) as server, server.connect() as client:
        raises(djq.NoQuery, lambda: live.next(SECONDS))
        client.relation("r", int)
        client.query("q(x) <- r(x)")
        client.add("r", 7)
        change = live.next(SECONDS)
        assert change == djq.Change(1, frozenset({(7,)}), frozenset({(0,), (1,), (2,)}), True, True), change
        client.add("r", 8)
        assert live.next(SECONDS) == djq.Change(2, frozenset({(8,)}), frozenset())
        # each failed start gave its session up
        live.close()
        others = [server.connect() for _ in range(63)]
        for other in others:
            other.ping()
            other.close()


def test_live_reconnects(program):
    with Server(program) as server, server.connect() as client:
        client.relation("r", int)
        client.query("q(x) <- r(x)")
        client.add("r", 1)
        client.add("r", 2)
        live = client.live("q", reconnect=True)
        port = server.port
    assert live.next(0.2) is None
    told = []
    reader = threading.Thread(target=lambda: told.append(live.next(SECONDS)))
    reader.start()
    time.sleep(0.3)
    with Server(program, port) as server, server.connect() as client:
        time.sleep(0.3)
        assert told == []
        client.relation("r", int)
        client.add("r", 2)
        client.query("q(x) <- r(x)")
        reader.join(SECONDS)
        assert told == [djq.Change(1, frozenset(), frozenset({(1,)}), True, True)], told
        assert live.answers == {(2,)} and live.seq == 1
        live.close()


# Calls that are interrupted


class Interrupted(TimeoutError):
    """Raised by a clock, whatever is being done. It is an OSError, as those of sockets are."""


def interrupted(seconds, call):
    """Makes a call that is interrupted after so many seconds, if it takes as long. The clock rings again: what is raised
    as something is finalized, Python tells and drops."""

    def ring(*_):
        raise Interrupted

    before = signal.signal(signal.SIGALRM, ring)
    try:
        signal.setitimer(signal.ITIMER_REAL, seconds, 5)
        call()
        signal.setitimer(signal.ITIMER_REAL, 0)
    except Interrupted:
        signal.setitimer(signal.ITIMER_REAL, 0)
    signal.signal(signal.SIGALRM, before)


def test_interrupted_listings(program):
    draw, closed = random.Random(5), 0
    with Server(program) as server, contextlib.ExitStack() as open_ones:
        client = open_ones.enter_context(server.connect())
        grid(client, "q", 70)
        rows = client.snapshot("q")
        for turn in range(60):
            listing = client.answers if turn % 2 else client.snapshot
            interrupted(draw.uniform(0.0005, 0.03), lambda: list(listing("q")))
            try:
                assert client.has("q", 0, 1, 1, 1) and not client.has("q", 0, 1, 1, 2)
                assert set(client.answers("q")) == rows
            except djq.Disconnected as error:
                assert isinstance(error.__cause__, Interrupted), error.__cause__
                closed += 1
                client = open_ones.enter_context(server.connect())
        return closed


def test_interrupted_live_sets(program):
    draw = random.Random(6)
    with Server(program) as server, server.connect() as client:
        lines = grid(client, "q", 30)
        lines += [line.replace("q_b 7 1", "q_b 0 77") for line in lines]
        lines += [line.replace("q_b 7 1", "q_a 0 77") for line in lines[:2]]
        with client.live("q") as live:
            with churn(server, 2000, *lines):
                for _ in range(300):
                    interrupted(draw.uniform(0.0002, 0.01), lambda: list(live.changes(SECONDS)))
                assert live.next(SECONDS) is not None
            catch_up(live, set(client.answers("q")))


# Many commands at once


def test_a_pipeline_that_watches_reads_meanwhile(program):
    text, count, due = "t" * 250, 20000, 0
    with Server(program) as server, server.connect() as client:
        client.relation("r", str, int)
        client.query("q(x,y) <- r(x,y)")
        client.watch("q")
        with client.pipeline() as many:
            for number in range(count):
                many.add("r", text, number)
                due = max(due, client._protocol.due)
        assert due < 2010
        # page by page: a snapshot asks for more at once than a session that reads late may leave pending
        assert set(client.answers("q")) == {(text, number) for number in range(count)}


def test_a_pipeline_raises(program):
    with Server(program) as server, server.connect() as client, server.connect() as other:
        client.relation("r", int)

        def add(raises=True):
            with client.pipeline(raises=raises) as many:
                for number in range(30):
                    many.add("r", number) if number % 2 else many.add("s", number)

        error = raises(djq.SomeRefused, add)
        assert (error.sent, error.refused, len(error.first)) == (30, 15, 10)
        assert type(error.first[1]) is djq.NoRelation and error.first[1].line == "add s 2"
        assert "15 of 30" in str(error) and "add s 18" in str(error) and "no relation is named s" in str(error)
        add(raises=False)

        def too_long():
            with server.connect() as third, third.pipeline(raises=False) as many:
                for number in range(30):
                    many.add("r", number)
                    if number == 20:
                        third._say("e" * 5000, djq.protocol.READ_OK)

        assert raises(djq.Ended, too_long).cause == "long"

        def stop():
            with client.pipeline(raises=False) as many:
                for number in range(200000):
                    many.add("r", number)
                    if number == 100000:
                        other.stop()

        raises(djq.Disconnected, stop)


TESTS = [
    test_live_starts_while_rows_change, test_a_large_live_set_starts_while_rows_change,
    test_live_starts_anew_after_a_long_delta,
    test_a_listing_that_is_overtaken_says_so, test_live_after_a_start_that_failed, test_live_reconnects,
    test_interrupted_listings, test_interrupted_live_sets,
    test_a_pipeline_that_watches_reads_meanwhile, test_a_pipeline_raises,
]  # fmt: skip
