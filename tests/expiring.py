"""Tests of rows that go by themselves unless they are renewed.

    python3 tests/expiring.py PROGRAM [NAME ..]

Ends with a line `N passed, N failed`; a failure is exit status 1.
"""

import contextlib
import logging
import os
import random
import signal
import subprocess
import sys
import tempfile
import threading
import time
import traceback

from serving import HERE, SECONDS, Server, djq, raises, wait_until

ROWS = 10000
LOGGED = 1000  # rows, each of which a server with a log writes as it goes


class Clock:
    """A time that goes as it is told."""

    def __init__(self):
        self.now = 1_000_000.0

    def __call__(self):
        return self.now


@contextlib.contextmanager
def seen_by(server, seconds, **settings):
    """Rows that go after so many seconds, over a connection of their own."""
    with server.connect() as client:
        with djq.Expiring(client.table("seen", int, str, key=1), seconds, **settings) as seen:
            yield client, seen


def test_ten_thousand_rows(program):
    """Exactly those go that weren't renewed, and nobody is told of a renewal."""
    clock = Clock()
    with Server(program) as server, seen_by(server, 30, by_itself=False, clock=clock) as (client, seen):
        rows = [(number, f"machine {number}") for number in range(ROWS)]
        assert seen.renew_all(rows) == ROWS and seen.expire() == [] and seen.next_due() == 30
        with server.connect() as other, other.live("seen_rows") as live:
            clock.now += 20
            assert seen.renew_all(rows[::2]) == 0 and live.next(0.2) is None
            clock.now += 9.999
            assert seen.expire() == [] and seen.left(1) == 0.001 and seen.left(2) == 20.001
            clock.now += 0.001
            assert sorted(seen.expire()) == rows[1::2] and seen.expire() == []
            assert set(seen.table) == set(rows[::2]) and seen.left(1) is None
            gone = [len(change.went) for change in live.changes(0.5)]
            assert sum(gone) == ROWS // 2 and len(gone) == ROWS // 2000 and live.answers == set(rows[::2]), gone
        # nothing stays of those that went
        assert {key for key, _ in client.snapshot("seen_due_rows")} == {key for key, _ in rows[::2]}
        clock.now += 1000
        assert len(seen.expire()) == ROWS // 2 and client.snapshot("seen_due_rows") == set() and seen.next_due() is None


RENEWER = """
import sys
sys.path[:0] = [{client!r}]
import djq
server = djq.connect("127.0.0.1", {port})
seen = djq.Expiring(server.table("seen", int, str, key=1), {seconds}, by_itself={by_itself})
print(seen.renew_all([(number, "") for number in range({rows})]), flush=True)
sys.stdin.read()
"""


@contextlib.contextmanager
def renewer(server, seconds, rows, by_itself):
    """Another process that renews so many rows once, and then is there."""
    client = os.path.join(HERE, "..", "clients", "python")
    text = RENEWER.format(client=client, port=server.port, seconds=seconds, rows=rows, by_itself=by_itself)
    process = subprocess.Popen([sys.executable, "-c", text], stdin=subprocess.PIPE, stdout=subprocess.PIPE)
    try:
        assert int(process.stdout.readline()) == rows
        yield process
    finally:
        process.kill()
        process.communicate()


def test_a_process_that_is_killed_is_gone_on_for(program):
    """Rows and times are as they were for the process that begins again, and for a server that does."""
    with tempfile.TemporaryDirectory() as folder:
        log = os.path.join(folder, "log")
        clock = Clock()
        with Server(program, log=log) as server:
            began = time.time()
            with renewer(server, 100, LOGGED, False) as process:
                renewed = time.time()
                process.send_signal(signal.SIGKILL)
                process.wait()
            with server.connect() as client:
                assert len(client.snapshot("seen_rows")) == LOGGED, "they stay as the process goes"
            port = server.port
        with Server(program, port, log) as server, seen_by(server, 1, by_itself=False, clock=clock) as (_, seen):
            # not the second that is given here: each has its time from the process before
            clock.now = began + 100 - 0.01
            assert seen.expire() == [] and 0 <= seen.next_due() <= renewed - began + 0.02
            seen.renew(7, "")
            clock.now = renewed + 100
            gone = seen.expire()
            assert len(gone) == LOGGED - (renewed - began < 0.99) and (8, "") in gone, len(gone)


def test_rows_go_by_themselves(program):
    with Server(program) as server, seen_by(server, 2) as (client, seen), server.connect() as other:
        with other.live("seen_rows") as live:
            assert seen.renew(1, "stays") and seen.renew(2, "goes") and not seen.renew(2, "goes")
            until, began = time.monotonic() + 5, time.monotonic()
            while time.monotonic() < until:
                seen.renew(1, "stays")
                time.sleep(0.1)
            told = [(change.came, change.went) for change in live.changes(0.2)]
            assert told == [({(1, "stays")}, set()), ({(2, "goes")}, set()), (set(), {(2, "goes")})], told
            change = live.next(SECONDS)
            assert change.went == {(1, "stays")} and time.monotonic() - began > 5 + 1.8
    # a further process takes over where the one that took them out was killed
    with Server(program) as server:
        with renewer(server, 1, 20, True):
            pass
        with seen_by(server, 1) as (client, seen):
            wait_until(lambda: not client.snapshot("seen_rows"))


def test_what_others_do(program):
    """Rows without a time get one, a key has one row, and copies go with the row."""
    clock = Clock()
    with Server(program) as server, server.connect() as other:
        other.relation("seen", int, str)
        other.add("seen", 1, "found")
        with seen_by(server, 10, by_itself=False, clock=clock) as (client, seen):
            assert seen.left(1) == 10 and seen.left(2) is None
            for _ in range(3):
                other.add("seen", 2, "new")
            clock.now += 5
            assert seen.expire() == [] and seen.left(2) == 10
            assert seen.renew(2, "newer") and set(seen.table) == {(1, "found"), (2, "newer")}
            raises(djq.WrongType, lambda: seen.renew(2, 2))
            raises(djq.Error, lambda: seen.renew(3, 3))
            assert set(seen.table) == {(1, "found"), (2, "newer")}
            other.load("seen", [(1, "found")] * 5)
            clock.now += 5
            assert seen.expire() == [(1, "found")] and other.snapshot("seen_rows") == {(2, "newer")}
            clock.now += 100
            assert seen.expire() == [(2, "newer")] and client.snapshot("seen_due_rows") == set()


def test_a_renewal_beside_an_expiry(program):
    """Whatever the order in which two processes' lines come, a row that was renewed in time is there."""
    clock = Clock()
    with Server(program) as server:
        with (
            seen_by(server, 10, by_itself=False, clock=clock) as (_, one),
            seen_by(server, 10, by_itself=False, clock=clock) as (client, two),
        ):  # fmt: skip
            rows = [(number, "") for number in range(50)]
            for turn in range(12):
                two.renew_all(rows)
                one._catch_up()
                clock.now += 10
                expiring = threading.Thread(target=one.expire)
                expiring.start()
                time.sleep(random.Random(turn).random() / 50)
                two.renew_all(rows)
                expiring.join()
                assert client.snapshot("seen_rows") == set(rows), turn
                assert one.expire() == [] and client.snapshot("seen_rows") == set(rows), turn
                clock.now += 9.9
                assert one.expire() == []
                clock.now += 0.2
                assert len(one.expire()) == 50, turn


def test_a_renewal_just_before_a_row_goes(program):
    """A row that is renewed after the look at what is due, and before it goes, stays: watchers see nothing of it."""
    clock = Clock()
    with Server(program) as server:
        with (
            seen_by(server, 10, by_itself=False, clock=clock) as (_, one),
            seen_by(server, 10, by_itself=False, clock=clock) as (client, two),
        ):  # fmt: skip
            rows = [(number, "") for number in range(20)]
            two.renew_all(rows)
            clock.now += 10
            carry_out, tries = one._carry_out, []

            def renewed_first(edit):
                if not tries:
                    assert two.renew_all(rows[:15]) == 0
                tries.append(len(edit.rows))
                return carry_out(edit)

            one._carry_out = renewed_first
            with client.live("seen_rows") as live:
                assert sorted(one.expire()) == rows[15:] and tries == [20, 5], tries
                assert [(len(change.came), change.went) for change in live.changes(0.3)] == [(0, set(rows[15:]))]
            assert client.snapshot("seen_rows") == set(rows[:15]) == set(two.table) and two.left(3) == 10
            # a renewal that comes second is made anew too: the rows are there again
            carry_out, tries = two._carry_out, []

            def expired_first(edit):
                if not tries:
                    assert len(one.expire()) == 15
                tries.append(len(edit.rows))
                return carry_out(edit)

            two._carry_out, one._carry_out = expired_first, type(one)._carry_out.__get__(one)
            clock.now += 10
            assert two.renew_all(rows[:15]) == 15 and tries == [0, 15] and set(one.table) == set(rows[:15]), tries


def test_keys_of_several_columns(program):
    clock = Clock()
    with Server(program) as server, server.connect() as client:
        seen = djq.Expiring(client.table("pairs", int, str, int, key=2), 1, False, clock)
        assert seen.renew_all([(1, "a", 5), (1, "b", 6), (2, "a", 7)]) == 3
        clock.now += 0.5
        assert seen.renew(1, "b", 6) is False and seen.renew(1, "a", 8) is True
        clock.now += 0.5
        assert seen.expire() == [(2, "a", 7)] and set(seen.table) == {(1, "a", 8), (1, "b", 6)}
        raises(ValueError, lambda: djq.Expiring(seen.table, 0))


def test_the_thread_waits_for_the_server(program):
    with Server(program) as server:
        client = server.connect()
        seen = djq.Expiring(client.table("seen", int, str, key=1), 1)
        port = server.port
    time.sleep(0.3)
    with Server(program, port) as server, server.connect() as other:
        table = djq.Expiring(other.table("seen", int, str, key=1), 1, by_itself=False)
        table.renew(1, "")
        wait_until(lambda: not other.snapshot("seen_rows"))
    began = time.monotonic()
    seen.close()
    assert time.monotonic() - began < SECONDS


TESTS = [
    test_ten_thousand_rows, test_a_process_that_is_killed_is_gone_on_for, test_rows_go_by_themselves, test_what_others_do,
    test_a_renewal_beside_an_expiry, test_a_renewal_just_before_a_row_goes, test_keys_of_several_columns, test_the_thread_waits_for_the_server,
]  # fmt: skip


def main():
    program, names = os.path.abspath(sys.argv[1]), sys.argv[2:]
    logging.getLogger("djq").setLevel(logging.ERROR)
    passed = failed = 0
    for test in TESTS:
        if names and test.__name__ not in names:
            continue
        try:
            test(program)
            passed += 1
        except Exception:
            failed += 1
            print(f"{test.__name__} failed")
            traceback.print_exc()
    print(f"{passed} passed, {failed} failed")
    sys.exit(1 if failed or not passed else 0)


if __name__ == "__main__":
    main()
