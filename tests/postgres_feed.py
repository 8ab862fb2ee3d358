#!/usr/bin/env python3
"""Tests of djq-postgres (djq.postgres_in and what is under it), beside the built program, a PostgreSQL 15 and a Redis of
their own on loopback.

    python3 tests/postgres_feed.py PROGRAM [NAME ..]

It needs Debian's postgresql-15, python3-psycopg2, redis-server and python3-redis. Without them its tests are skipped by
name; with DJQ_NEIGHBOURS=1 in the environment they fail. Each process that is started is ended by its id. A line is
printed for each test that fails or is skipped, and last `N passed, N failed`, with `, N skipped`; the status is 0 where
none failed. With TIMES=1 in the environment it says how long each took, with DJQ_LONG=1 it makes many more changes and
kills.

Nothing is compared before it has to be alike: the position that djq has is waited for, until it is that of
PostgreSQL's log once the writers have committed.
"""

import collections
import contextlib
import io
import os
import random
import signal
import subprocess
import sys
import tempfile
import threading
import time
import traceback
from unittest import mock

from postgres_in import LACKS as LACKS_IN
from postgres_in import change_python as change_for_psycopg2

if __name__ == "__main__":
    change_for_psycopg2()

import pages
from harness import expect
from postgres_in import Postgres
from redis_out import CLIENT, Proxy, Redis, Writer, entries, present
from redis_out import LACKS as LACKS_OUT
from serving import Server, djq, raises

LACKS = [*LACKS_IN, *LACKS_OUT]
if not LACKS:
    import psycopg2
    from djq import postgres_in
    from djq.postgres_difference import MOST_COUNTED, copies_of
    from djq.pgoutput import Begin, Column, Commit, Delete, Insert, Relation, Update
    from djq.postgres_position import RELATION, Differs, Moved, Position, Positions
    from djq.postgres_rows import TableRows
    from djq.postgres_stream import connect, number_of
    from djq.postgres_transactions import Followed, Transactions
    from djq.postgres_types import mapping_of

LONG = os.environ.get("DJQ_LONG") == "1"
PATIENT = 120 if LONG else 60  # seconds that a condition is waited for

TESTS = []


def test(function):
    """A test that is given the program, and a PostgreSQL."""
    TESTS.append(function)
    return function


def wait_for(call, what=""):
    """Waits until it is so."""
    until = time.monotonic() + PATIENT
    while not call():
        assert time.monotonic() < until, f"waited too long {what}"
        time.sleep(0.02)


class Feed:
    """The program djq-postgres."""

    def __init__(self, dsn, port, *words):
        self.words = [sys.executable, "-m", "djq.postgres_in", dsn, f"127.0.0.1:{port}", *words]
        self.process, self.said = None, []

    def __enter__(self):
        self.start()
        return self

    def __exit__(self, *_):
        self.kill()

    def start(self):
        environment = dict(os.environ, PYTHONPATH=CLIENT, PYTHONUNBUFFERED="1")
        self.process = subprocess.Popen(self.words, env=environment, stderr=subprocess.PIPE, text=True)
        self.said = []
        self.thread = threading.Thread(target=self.listen, args=(self.process.stderr, self.said), daemon=True)
        self.thread.start()

    def listen(self, lines, said):
        for line in lines:
            said.append(line)

    def has_said(self, words):
        return any(words in line for line in self.said)

    def await_said(self, words):
        until = time.monotonic() + PATIENT
        while not self.has_said(words):
            assert time.monotonic() < until and self.process.poll() is None, (words, self.said)
            time.sleep(0.02)

    def send(self, number):
        self.process.send_signal(number)

    def kill(self):
        with contextlib.suppress(ProcessLookupError):
            self.send(signal.SIGKILL)
        self.process.wait()
        self.thread.join(PATIENT)
        self.process.stderr.close()

    def ends(self):
        """What it says as it ends by itself."""
        status = self.process.wait(PATIENT)
        self.thread.join(PATIENT)
        return status, "".join(self.said).replace("djq-postgres: ", "")


def place(sql):
    """The place of PostgreSQL's log behind all that was committed."""
    sql.execute("SELECT pg_current_wal_flush_lsn()::text")
    return number_of(sql.fetchone()[0])


def lsn_of(server, slot="djq"):
    """The place up to which djq has all; none if it isn't in reach, or says none."""
    with contextlib.suppress(djq.Error), contextlib.closing(server.connect()) as session:
        return max(session.snapshot(f"{slot}_lsn"), default=(0,))[0]
    return 0


def await_place(sql, server, slot="djq"):
    """Waits until djq has all that was committed."""
    end = place(sql)
    wait_for(lambda: lsn_of(server, slot) >= end, "for the position")


# A shop, and its writers


QUERIES = ("q(o,w,i) <- orders(o,w), lines(o,i,_)", "all_orders(o,w) <- orders(o,w)", "all_lines(o,i,n) <- lines(o,i,n)")
JOIN = "SELECT DISTINCT id, who, item FROM orders JOIN lines ON o = id"
TABLES = ("--tables", "orders,lines", *(word for text in QUERIES for word in ("--query", text)))


def make_shop(sql, whole, rows=40):
    """Two tables: with keys, or with the whole row as identity and one of them without a key."""
    sql.execute("CREATE TABLE orders (id int PRIMARY KEY, who text NOT NULL)")
    sql.execute(f"CREATE TABLE lines (o int, item text, n int NOT NULL{'' if whole else ', PRIMARY KEY (o, item)'})")
    if whole:
        sql.execute("ALTER TABLE orders REPLICA IDENTITY FULL; ALTER TABLE lines REPLICA IDENTITY FULL")
    sql.execute("INSERT INTO orders SELECT n, 'w' || n %% 7 FROM generate_series(1, %s) AS n", (rows,))
    sql.execute("INSERT INTO lines SELECT n %% %s, 'i' || n, n %% 3 FROM generate_series(1, %s) AS n", (rows, 2 * rows))


def change(cursor, draw):
    """One random statement."""
    a, text, kind = draw.randrange(60), draw.choice("abcdef"), draw.random()
    if kind < 0.2:
        cursor.execute("INSERT INTO orders VALUES (%s, %s) ON CONFLICT (id) DO UPDATE SET who = excluded.who", (a, text))
    elif kind < 0.3:
        cursor.execute("DELETE FROM orders WHERE id = %s", (a,))
    elif kind < 0.6:
        cursor.execute("INSERT INTO lines VALUES (%s, %s, %s) ON CONFLICT DO NOTHING", (a, text, a % 3))
    elif kind < 0.75:
        cursor.execute("UPDATE lines SET n = n + 1 WHERE o = %s", (a,))
    elif kind < 0.85:
        cursor.execute("UPDATE lines SET o = o + 1 WHERE o = %s", (a,))
    else:
        cursor.execute("DELETE FROM lines WHERE o = %s", (a,))


PASSING = ("DeadlockDetected", "UniqueViolation")


class Shop:
    """Two writers by random transactions, for as long as a block lasts or so many times."""

    def __init__(self, dsn, seed=1):
        self.dsn, self.draws = dsn, [random.Random(f"{seed} {one}") for one in range(2)]
        self.ends, self.wrong, self.done = threading.Event(), [], 0

    def __enter__(self):
        self.ends.clear()
        self.begin(None)
        return self

    def __exit__(self, *_):
        self.ends.set()
        self.join()

    def write(self, count):
        """So many transactions of each writer."""
        self.begin(count)
        self.join()

    def begin(self, count):
        self.threads = [threading.Thread(target=self.go_on, args=(draw, count), daemon=True) for draw in self.draws]
        for one in self.threads:
            one.start()

    def join(self):
        for one in self.threads:
            one.join()
        expect(self.wrong, [])

    def go_on(self, draw, count):
        own = None
        while not self.ends.is_set() if count is None else count:
            try:
                own = own or psycopg2.connect(self.dsn)
                self.transact(own, draw)
                count = None if count is None else count - 1
            except psycopg2.Error as error:
                lost = isinstance(error, (psycopg2.OperationalError, psycopg2.InterfaceError))
                if type(error).__name__ not in PASSING and not (lost and count is None):
                    self.wrong.append(repr(error))
                    return
                own = self.reset(own)
        if own is not None:
            own.close()

    def reset(self, own):
        """The connection after a refusal; none if PostgreSQL was killed."""
        with contextlib.suppress(psycopg2.Error):
            if own is not None:
                own.rollback()
                return own
        time.sleep(0.05)
        return None

    def transact(self, own, draw):
        with own.cursor() as cursor:
            for _ in range(draw.randrange(1, 6)):
                change(cursor, draw)
        (own.rollback if draw.random() < 0.1 else own.commit)()
        self.done += 1


def rows_in(sql, text):
    sql.execute(text)
    return collections.Counter(sql.fetchall())


def expect_same(sql, server):
    """What djq has is what PostgreSQL has, once djq has all that was committed. Nobody writes meanwhile."""
    await_place(sql, server)
    with contextlib.closing(server.connect()) as session:
        expect(session.snapshot("q"), set(rows_in(sql, JOIN)), "the join")
        for name in "orders", "lines":
            expect(session.snapshot(f"all_{name}"), set(rows_in(sql, f"SELECT * FROM {name}")), name)


def expect_copies(sql, server, name):
    """Each row has as many copies as in PostgreSQL: a further one says how many there are, and is removed again."""
    rows = rows_in(sql, f"SELECT * FROM {name}")
    with contextlib.closing(server.connect()) as session, session.pipeline() as many:
        told = {row: (many.add(name, *row), many.delete(name, *row)) for row in rows}
    expect({row: added.result().copies - 1 for row, (added, _) in told.items()}, dict(rows), f"copies in {name}")


@contextlib.contextmanager
def shop(program, postgres, whole=False, log=None, words=()):
    """A shop in PostgreSQL, a djq, and the program between them."""
    with database(postgres) as (dsn, sql), Server(program, log=log) as server:
        make_shop(sql, whole)
        with Feed(dsn, server.port, *TABLES, *words) as feed:
            await_place(sql, server)
            feed.await_said("rows of")
            yield dsn, sql, server, feed


@contextlib.contextmanager
def database(postgres):
    """A new database, whose slots are dropped at the end."""
    with postgres.database() as (dsn, sql):
        try:
            yield dsn, sql
        finally:
            drop_slots(dsn)


def drop_slots(dsn):
    """Drops the slots of a database, once nobody reads them."""

    def drop():
        with contextlib.suppress(psycopg2.errors.ObjectInUse), contextlib.closing(connect(dsn)) as own:
            own.autocommit = True
            cursor = own.cursor()
            cursor.execute("SELECT pg_terminate_backend(active_pid) FROM pg_replication_slots WHERE active_pid IS NOT NULL")
            cursor.execute("SELECT pg_drop_replication_slot(slot_name) FROM pg_replication_slots WHERE database = current_database()")
            return True

    wait_for(drop, "for slots")


@contextlib.contextmanager
def log_path():
    with tempfile.TemporaryDirectory() as folder:
        yield os.path.join(folder, "log")


# Equal at all moments


def random_transactions(program, postgres, whole, log):
    rounds, count = (10, 500) if LONG else (3, 40)
    with shop(program, postgres, whole, log) as (dsn, sql, server, feed):
        writers = Shop(dsn, seed=f"{whole} {log is None}")
        for _ in range(rounds):
            writers.write(count)
            expect_same(sql, server)
        for name in "orders", "lines":
            expect_copies(sql, server, name)
        expect_same(sql, server)
        expect(sum("rows of" in line for line in feed.said), 1, feed.said)


@test
def random_transactions_with_keys(program, postgres):
    random_transactions(program, postgres, False, None)


@test
def random_transactions_with_whole_rows(program, postgres):
    random_transactions(program, postgres, True, None)


@test
def random_transactions_with_keys_and_a_log(program, postgres):
    with log_path() as log:
        random_transactions(program, postgres, False, log)


@test
def random_transactions_with_whole_rows_and_a_log(program, postgres):
    with log_path() as log:
        random_transactions(program, postgres, True, log)


@test
def a_watcher_sees_true_states_only(program, postgres):
    """Each state of a watcher is one that the only writer has committed, and they come in order."""
    with shop(program, postgres) as (dsn, sql, server, _):
        draw, states, seen = random.Random(5), [set(rows_in(sql, JOIN))], []
        with server.connect() as session, session.lives("q") as lives, contextlib.closing(psycopg2.connect(dsn)) as own:
            seen.append(set(next(iter(lives)).answers))
            for number in range(2000 if LONG else 200):
                with contextlib.suppress(psycopg2.errors.UniqueViolation), own.cursor() as cursor:
                    for _ in range(draw.randrange(1, 6)):
                        change(cursor, draw)
                    cursor.execute(JOIN)
                    states.append(set(cursor.fetchall()))
                    own.commit()
                own.rollback()
                if number % 50 == 0:
                    take_states(lives, seen)
            await_place(sql, server)
            take_states(lives, seen)
        expect(seen[-1], states[-1])
        at = 0
        for state in seen:
            found = next((place for place in range(at, len(states)) if states[place] == state), None)
            assert found is not None, ("a state that never was, or an earlier one", at, state ^ states[at])
            at = found


def take_states(lives, seen):
    """The states of a watched query up to now, behind those before."""
    for _, told in lives.sync():
        seen.append(seen[-1] - told.went | told.came)


# Kills


@test
def kills_of_each_process(program, postgres):
    """PostgreSQL, djq, the feed, Redis and what writes to it are killed in turn, while two writers go on."""
    with log_path() as log, Redis() as there, shop(program, postgres, log=log) as (dsn, sql, server, feed):
        with there.connect() as client, Writer(server, there, "--queries", "q", "--commit-on", "djq_lsn") as writer:
            seen = Processes(postgres, server, program, log, feed, there, writer)
            writers = Shop(dsn, seed=9)
            for number in range(10 if LONG else 1):
                for kill in seen.all():
                    with writers:
                        before = writers.done
                        wait_for(lambda before=before: writers.done > before + 5, "for the writers")
                        kill()
                        before = writers.done
                        wait_for(lambda before=before: writers.done > before + 5, f"for the writers after {kill.__name__}")
                    with contextlib.closing(connect(dsn)) as again, again.cursor() as own:
                        again.autocommit = True
                        expect_same(own, server)
                        answers = set(rows_in(own, JOIN))
                    wait_for(lambda answers=answers: present_at(client) == answers, f"for Redis after {kill.__name__} {number}")
        with contextlib.closing(connect(dsn)) as again, again.cursor() as own:
            again.autocommit = True
            for name in "orders", "lines":
                expect_copies(own, server, name)


def present_at(client):
    """The answers in Redis; none if it isn't in reach."""
    try:
        return present(client)
    except Exception:  # noqa: BLE001
        return None


class Processes:
    """The five processes, each of which is killed and started again."""

    def __init__(self, postgres, server, program, log, feed, there, writer):
        self.own_postgres, self.server, self.program, self.log = postgres, server, program, log
        self.own_feed, self.own_redis, self.own_writer = feed, there, writer

    def all(self):
        return [self.feed, self.djq, self.postgres, self.redis, self.writer]

    def postgres(self):
        self.own_postgres.kill()
        self.own_postgres.start()

    def djq(self):
        restart(self.server, self.program, self.log)

    def feed(self):
        self.own_feed.kill()
        self.own_feed.start()

    def redis(self):
        self.own_redis.kill()
        self.own_redis.start()

    def writer(self):
        self.own_writer.kill()
        self.own_writer.start()


def restart(server, program, log=None):
    """Kills djq, and starts it again at its address."""
    server.process.kill()
    server.process.wait()
    server.process = Server(program, server.port, log).__enter__().process


@test
def a_kill_of_djq_without_a_log(program, postgres):
    """All rows are there again before the queries are, so readers in Redis never see fewer answers."""
    with Redis() as there, shop(program, postgres) as (dsn, sql, server, feed):
        with there.connect() as client, Writer(server, there, "--queries", "q"):
            answers = set(rows_in(sql, JOIN))
            for number in range(10 if LONG else 2):
                expect(present(client), answers)
                restart(server, program)
                sql.execute("INSERT INTO orders VALUES (%s, 'al'); INSERT INTO lines VALUES (%s, 'bolt', 1)", (900 + number,) * 2)
                answers.add((900 + number, "al", "bolt"))
                expect_same(sql, server)
                wait_for(lambda: present(client) == answers, "for Redis")
            expect([entry for entry in entries(client) if entry.went], [])
            expect_copies(sql, server, "lines")


class Gate(Proxy):
    """Lets so many large transactions through to djq, and nothing after them until it is opened."""

    def __init__(self, port):
        self.left, self.is_shut, self.opens = None, threading.Event(), threading.Event()
        super().__init__(port)

    def shut_after(self, count):
        self.is_shut.clear()
        self.opens.clear()
        self.left = count

    def open(self):
        self.left = None
        self.opens.set()

    def _move(self, one, other):
        if other.getpeername()[1] != self._to:
            return super()._move(one, other)
        rest = b""
        with contextlib.suppress(OSError), one, other:
            while piece := one.recv(1 << 16):
                *lines, rest = (rest + piece).split(b"\n")
                if not self._pass(lines, other):
                    return None
        return None

    def _pass(self, lines, other):
        """Sends lines on, until the gate is shut; what comes then is lost."""
        for at, line in enumerate(lines):
            if self.left is not None and line.startswith(b"done ") and int(line[5:]) > 100:
                self.left -= 1
                if self.left == 0:
                    other.sendall(b"".join(one + b"\n" for one in lines[: at + 1]))
                    self.is_shut.set()
                    self.opens.wait()
                    return False
        other.sendall(b"".join(line + b"\n" for line in lines))
        return True


@test
def a_large_transaction_is_killed_in_its_middle(program, postgres):
    """A transaction of 30,000 rows is cut into pieces; it is resumed after the last that is there."""
    count = 30_000 if LONG else 12_000
    statements = (
        f"INSERT INTO wide SELECT n, 'a', 'b', 'c', 'd', 'e', 'f', 'g' FROM generate_series(1, {count}) AS n",
        "UPDATE wide SET id = -id - 100, t0 = 'x' WHERE id > 0; INSERT INTO bare SELECT n % 5, 'y' FROM generate_series(1, 9) AS n",
        f"INSERT INTO bare SELECT n % 100, 'z' FROM generate_series(1, {count}) AS n; DELETE FROM wide WHERE id < -100",
    )
    with database(postgres) as (dsn, sql), Server(program) as server, Gate(server.port) as gate:
        sql.execute("CREATE TABLE wide (id int PRIMARY KEY, " + ", ".join(f"t{n} text" for n in range(7)) + ")")
        sql.execute("CREATE TABLE bare (id int, a text); ALTER TABLE bare REPLICA IDENTITY FULL")
        sql.execute("INSERT INTO wide SELECT n, 'a', 'b', 'c', 'd', 'e', 'f', 'g' FROM generate_series(-5, 0) AS n")
        words = ("--tables", "wide,bare", "--query", "q(x,y) <- wide(x,y,_,_,_,_,_,_)", "--query", "p(x,y) <- bare(x,y)")
        with Feed(dsn, gate.port, *words) as feed:
            await_place(sql, server)
            for statement, passed in zip(statements, (1, 3, 2)):
                gate.shut_after(passed)
                sql.execute(statement)
                wait_for(gate.is_shut.is_set, "for the pieces")
                wait_for(lambda passed=passed: [one[3] for one in positions(server)] == [passed], f"for {passed} pieces")
                with contextlib.closing(server.connect()) as session:
                    expect(session.snapshot("djq_lsn"), set(), "no position in the middle")
                feed.kill()
                gate.open()
                feed.start()
                feed.await_said("resumes at")
                assert feed.has_said(f"and {passed} pieces") and not feed.has_said("rows of"), (feed.said, positions(server))
                await_place(sql, server)
                with contextlib.closing(server.connect()) as session:
                    expect(session.snapshot("q"), set(rows_in(sql, "SELECT id, t0 FROM wide")))
                    expect(session.snapshot("p"), set(rows_in(sql, "SELECT id, a FROM bare")))
                expect_copies(sql, server, "bare")


KEYED = Relation(1, "public", "keyed", "d", (Column("a", 23, -1, True), Column("b", 23, -1, False))) if not LACKS else None
BARE = Relation(2, "public", "bare", "f", (Column("a", 23, -1, True),)) if not LACKS else None


def tables_with(rows):
    """Two tables as they are followed, with these rows."""
    followed = {}
    for table in KEYED, BARE:
        mapping = mapping_of(table.name, table.columns, {}, {})
        followed[table.relation] = Followed(table.name, mapping, TableRows(table, mapping.value))
    followed[KEYED.relation].rows.start([row for relation, row in rows if relation == "keyed"])
    return followed


def drawn_messages(draw):
    """Transactions of different sizes, as the stream has them."""
    keyed, bare = {}, []
    for number in range(1, 9):
        yield Begin(100 * number, 0, number)
        yield from (KEYED, BARE)
        for _ in range(draw.choice((1, 3, 40))):
            a, b = draw.randrange(6), draw.randrange(3)
            if draw.random() < 0.4 and (bare or b):
                bare.append(a)
                yield Insert(2, (str(a),))
            elif bare and draw.random() < 0.3:
                yield Delete(2, None, (str(bare.pop(draw.randrange(len(bare)))),))
            elif a not in keyed:
                keyed[a] = b
                yield Insert(1, (str(a), str(b)))
            elif draw.random() < 0.5:
                keyed[a] = b
                yield Update(1, None, None, (str(a), str(b)))
            elif (to := draw.randrange(6, 12)) not in keyed:
                keyed[to] = keyed.pop(a)
                yield Update(1, (str(a), None), None, (str(to), str(keyed[to])))
            else:
                del keyed[a]
                yield Delete(1, (str(a), None), None)
        yield Commit(100 * number, 100 * number + 50, 0)


def steps_from(position, rows, messages):
    made = Transactions(position, tables_with(rows))
    return [step for message in messages for step in made.take(message)] + list(made.flush())


def carried_out(rows, lines):
    """The rows after some lines, in which each row that is deleted is there."""
    rows = collections.Counter(rows)
    for line in lines:
        command, relation, *values = line.split(" ")
        rows[relation, tuple(map(int, values))] += 1 if command == "add" else -1
        assert min(rows.values()) >= 0, line
    return +rows


@test
def pieces_are_cut_alike(program, postgres):
    """Wherever it stops, another run over the same stream carries out what is left, and nothing again."""
    for seed in range(20):
        messages = list(drawn_messages(random.Random(seed)))
        with mock.patch("djq.postgres_transactions.ROOM_LINES", 12):
            begin, rows = Position("s", 1, 50, 0), collections.Counter()
            steps = steps_from(begin, rows, messages)
            assert any(step.position.pieces > 1 for step in steps) and max(len(step.lines) for step in steps) <= 12, steps
            for place, step in enumerate(steps):
                rows = carried_out(rows, step.lines)
                expect(steps_from(step.position, rows, messages), steps[place + 1 :], (seed, place))
            expect(steps[-1].position, Position("s", 1, 850, 0))


@test
def groups_fit_into_a_transaction(program, postgres):
    """Whole transactions are committed together, as many as one transaction of djq holds."""
    messages = [KEYED, BARE]
    for number in range(1, 21):
        rows = [Insert(2, (str(10 * number + one),)) for one in range(5)]
        messages += [Begin(100 * number, 0, number), *rows, Commit(100 * number, 100 * number + 50, 0)]
    with mock.patch("djq.postgres_transactions.ROOM_LINES", 12):
        steps = steps_from(Position("s", 1, 50, 0), (), messages)
    expect([(step.position.lsn, len(step.lines)) for step in steps], [(100 * number + 50, 10) for number in range(2, 21, 2)])


def states_of(messages):
    """The rows after each transaction, by the place behind it."""
    rows, keyed, states = collections.Counter(), {}, {}
    for message in messages:
        if isinstance(message, Commit):
            states[message.end] = +rows + collections.Counter({("keyed", row): 1 for row in keyed.items()})
        elif isinstance(message, (Insert, Update)) and message.relation == KEYED.relation:
            if isinstance(message, Update) and message.key is not None:
                del keyed[int(message.key[0])]
            keyed[int(message.new[0])] = int(message.new[1])
        elif isinstance(message, Delete) and message.relation == KEYED.relation:
            del keyed[int(message.key[0])]
        elif isinstance(message, (Insert, Delete)):
            came = isinstance(message, Insert)
            rows["bare", (int((message.new if came else message.old)[0]),)] += 1 if came else -1
    return states


@test
def whole_transactions_alone(program, postgres):
    """Whenever it is flushed or moved, the rows at a position are those of the transactions up to it."""
    for seed in range(40):
        draw = random.Random(seed)
        messages = list(drawn_messages(draw))
        states = {50: collections.Counter(), **states_of(messages)}
        with mock.patch("djq.postgres_transactions.ROOM_LINES", draw.choice((12, 60, 1000))):
            made, rows, whole, end = Transactions(Position("s", 1, 50, 0), tables_with(())), collections.Counter(), 0, 50
            for message in messages:
                steps = list(made.take(message))
                end = message.end if isinstance(message, Commit) else end
                if draw.random() < 0.2:
                    steps += list(draw.choice((made.flush, lambda end=end, made=made: made.move(end)))())
                for step in steps:
                    rows = carried_out(rows, step.lines)
                    assert step.position.lsn >= whole or step.position.pieces, (seed, step)
                    if step.position.pieces == 0:
                        whole = step.position.lsn
                        expect(rows, states[max(place for place in states if place <= whole)], (seed, step))
            for step in made.flush():
                rows = carried_out(rows, step.lines)
            expect((rows, made.position.lsn), (states[850], 850), seed)


@test
def a_comparison_is_killed_in_its_middle(program, postgres):
    """More rows than one transaction holds are compared anew, and the queries come once all are there."""
    with database(postgres) as (dsn, sql), Server(program) as server, Gate(server.port) as gate:
        sql.execute("CREATE TABLE bag (a int, b text); ALTER TABLE bag REPLICA IDENTITY FULL; CREATE TABLE t (a int PRIMARY KEY)")
        sql.execute("INSERT INTO bag SELECT n % 50, 'x' FROM generate_series(1, 300) AS n; INSERT INTO t SELECT generate_series(1, 66000)")
        gate.shut_after(1)
        with Feed(dsn, gate.port, "--tables", "bag,t", "--query", "q(a,b) <- bag(a,b)", "--query", "p(a) <- t(a)") as feed:
            wait_for(gate.is_shut.is_set, "for the first part")
            wait_for(lambda: [one[2:] for one in positions(server)] == [(0, 1)], "for the first part in djq")
            with contextlib.closing(server.connect()) as session:
                for query in "q", "djq_lsn":
                    raises(djq.NoQuery, lambda query=query: session.snapshot(query))
            feed.kill()
            gate.open()
            sql.execute("DELETE FROM bag WHERE a % 3 = 0; INSERT INTO bag SELECT n % 60, 'x' FROM generate_series(1, 90) AS n")
            sql.execute("UPDATE t SET a = -a WHERE a % 1000 = 0; DELETE FROM t WHERE a % 1001 = 0")
            feed.start()
            await_place(sql, server)
            with contextlib.closing(server.connect()) as session:
                expect(session.snapshot("q"), set(rows_in(sql, "SELECT * FROM bag")))
                expect(session.snapshot("p"), set(rows_in(sql, "SELECT * FROM t")))
            expect_copies(sql, server, "bag")


@test
def nothing_is_confirmed_before_djq_has_it(program, postgres):
    """A transaction that is on its way to djq isn't confirmed, and comes again if it is lost there."""
    with database(postgres) as (dsn, sql), Server(program) as server, Gate(server.port) as gate:
        sql.execute("CREATE TABLE t (a int PRIMARY KEY)")
        with Feed(dsn, gate.port, "--tables", "t", "--query", "q(a) <- t(a)") as feed:
            await_place(sql, server)
            gate.shut_after(1)
            sql.execute("INSERT INTO t SELECT generate_series(1, 200)")
            wait_for(gate.is_shut.is_set, "for the first transaction")
            before = place(sql)
            sql.execute("INSERT INTO t SELECT generate_series(201, 400)")
            end = place(sql)
            wait_for(lambda: sent(sql) >= end, "for the stream")
            time.sleep(0.5)  # in which nothing is to happen
            assert confirmed(sql) <= before, (confirmed(sql), before)
            feed.kill()
            gate.open()
            feed.start()
            feed.await_said("resumes at")
            await_place(sql, server)
            with contextlib.closing(server.connect()) as session:
                expect(session.snapshot("q"), {(a,) for a in range(1, 401)})


def sent(sql):
    """Up to which place PostgreSQL has sent its log to the stream."""
    sql.execute("SELECT coalesce(min(sent_lsn::text), '0/0') FROM pg_stat_replication")
    return number_of(sql.fetchone()[0])


def free(sql):
    sql.execute("SELECT NOT active FROM pg_replication_slots WHERE slot_name = 'djq'")
    return sql.fetchone()[0]


def positions(server):
    """The rows of the position's relation, without the slot."""
    with contextlib.closing(server.connect()) as session:
        with contextlib.suppress(djq.Taken):
            session.query(f"positions(s,p,l,n) <- {RELATION}(_,s,p,l,n)")
        return sorted(session.snapshot("positions"))


def end_stream(sql):
    """Ends the slot's stream, as PostgreSQL does by itself after wal_sender_timeout if its reader is stopped."""
    sql.execute("SELECT pg_terminate_backend(active_pid) FROM pg_replication_slots WHERE slot_name = 'djq'")


@test
def a_stopped_feed_is_replaced(program, postgres):
    """One that is stopped until another has its slot, and then continued, commits nothing a second time."""
    with shop(program, postgres, words=()) as (dsn, sql, server, feed), Feed(dsn, server.port, *TABLES) as other:
        writers, pair = Shop(dsn, seed=3), [feed, other]
        pair[1].await_said("is active")
        for number in range(5 if LONG else 2):
            with writers:
                before = writers.done
                wait_for(lambda before=before: writers.done > before + 20, "for the writers")
                pair[0].send(signal.SIGSTOP)
                end_stream(sql)
                pair[1].await_said("resumes at")
                before = writers.done
                wait_for(lambda before=before: writers.done > before + 20, "for the writers")
                pair[0].send(signal.SIGCONT)
                before = writers.done
                wait_for(lambda before=before: writers.done > before + 20, "for the writers")
            expect_same(sql, server)
            for name in "orders", "lines":
                expect_copies(sql, server, name)
            pair[0].said.clear()
            pair[1].said.clear()
            pair.reverse()
            wait_for(lambda: not free(sql), f"for a reader in round {number}")


@test
def copies_of_a_table_without_a_key(program, postgres):
    """Rows that stand several times, through kills of the feed and of djq: copies are as count(*) says."""
    with database(postgres) as (dsn, sql), Server(program) as server:
        sql.execute("CREATE TABLE bag (a int, b text); ALTER TABLE bag REPLICA IDENTITY FULL")
        sql.execute("INSERT INTO bag SELECT n % 6, 'x' FROM generate_series(1, 60) AS n")
        with Feed(dsn, server.port, "--tables", "bag", "--query", "q(a,b) <- bag(a,b)") as feed:
            await_place(sql, server)
            draw = random.Random(11)

            def write(count):
                for _ in range(count):
                    a = draw.randrange(8)
                    sql.execute(draw.choice((
                        f"INSERT INTO bag SELECT {a}, 'x' FROM generate_series(1, {draw.randrange(1, 9)})",
                        f"DELETE FROM bag WHERE ctid IN (SELECT ctid FROM bag WHERE a = {a} LIMIT {draw.randrange(1, 9)})",
                        f"UPDATE bag SET a = {draw.randrange(8)} WHERE ctid IN (SELECT ctid FROM bag WHERE a = {a} LIMIT 3)",
                    )))  # fmt: skip

            for number in range(20 if LONG else 4):
                write(20)
                (feed.kill if number % 2 else lambda: restart(server, program))()
                write(20)
                if number % 2:
                    feed.start()
                await_place(sql, server)
                with contextlib.closing(server.connect()) as session:
                    expect(session.snapshot("q"), set(rows_in(sql, "SELECT a, b FROM bag")))
                expect_copies(sql, server, "bag")
            # somebody else's copies are found by the next comparison
            feed.kill()
            with contextlib.closing(server.connect()) as session:
                for row in rows_in(sql, "SELECT a, b FROM bag"):
                    for _ in range(draw.randrange(4)):
                        draw.choice((session.add, session.add, session.delete))("bag", *row)
                session.add("bag", 99, "y")
                session.add("bag", 99, "y")
            feed.words.append("--compare")
            feed.start()
            feed.await_said("rows of")
            await_place(sql, server)
            expect_copies(sql, server, "bag")


@test
def more_copies_than_a_transaction_counts(program, postgres):
    """Where a row has very many copies they are counted in parts, unseen by who watches."""
    with Server(program) as server, contextlib.closing(server.connect()) as session:
        session.relation("bag", int)
        session.query("q(a) <- bag(a)")
        count = MOST_COUNTED + 77
        session.load("bag", [(1,)] * count + [(2,)] * 3)
        held = Positions(session, "djq")
        held.define("rows_of_position")
        held.claim(Position("s", 5, 0, 0))
        with session.live("q") as live:
            copies = copies_of(held, "bag", [(1,), (2,)], {(1,): count, (2,): 3})
            expect(copies[2,], 3)
            expect(session.add("bag", 1).copies, copies[1,] + 1)
            expect(live.next(0.2), None)


# What the position is for


@test
def transactions_are_conditional_on_the_position(program, postgres):
    """Of two that go on from one position one is refused, and knows whether the position or a row was the reason."""
    with Server(program) as server, contextlib.closing(server.connect()) as one, contextlib.closing(server.connect()) as two:
        one.relation("r", int)
        first, second = Positions(one, "djq"), Positions(two, "djq")
        expect(first.find("rows_of_position"), False)
        first.define("rows_of_position")
        second.define("rows_of_position")
        expect((first.resume(), first.read()), (None, []))
        begin, begin_too = Position("s", 7, 0, 0), Position("s", 8, 0, 0)
        first.claim(begin)
        second.claim(begin_too)
        raises(Moved, lambda: first.commit(begin.next_piece(), ["add r 1"]))
        second.commit(Position("s", 8, 9, 0), ["add r 2"])
        expect([found.lsn for found in first.read()], [9])
        expect(first.resume(), Position("s", 8, 9, 0))
        first.commit(first.position.at(10), ["add r 3"])
        raises(Moved, lambda: second.commit(second.position.at(10), ["add r 3"]))
        raises(Differs, lambda: first.commit(first.position.at(11), ["del r 1"]))
        expect(first.allow([["del r 3", "add r 3"], ["del r 1", "add r 1"]]), [True, False])
        raises(Moved, lambda: second.allow([["del r 3", "add r 3"]]))
        third = Positions(two, "other")
        third.define("rows_of_others")
        expect(third.read(), [], "slots have positions of their own")
        first.invalidate()
        expect((first.read(), Positions(one, "djq").position), ([], None))


@test
def rows_that_somebody_else_changed(program, postgres):
    """A row that is gone from djq refuses the transaction that deletes it: all rows are compared."""
    with shop(program, postgres) as (_, sql, server, feed):
        with contextlib.closing(server.connect()) as session:
            assert session.delete("orders", 1, "w1").changed
            session.add("orders", 777, "nobody")
            expect(session.add("orders", 3, "w3").copies, 2)
        sql.execute("DELETE FROM orders WHERE id IN (1, 2)")
        feed.await_said("compares all rows")
        expect_same(sql, server)
        expect_copies(sql, server, "orders")


@test
def an_older_log_of_djq(program, postgres):
    """If the position of djq is before what is confirmed to PostgreSQL, all rows are compared; else it is resumed."""
    with log_path() as log, shop(program, postgres, log=log) as (_, sql, server, feed):
        server.process.kill()
        server.process.wait()
        with open(log, "rb") as file:
            before = file.read()
        restart(server, program, log)
        wait_for(lambda: lsn_of(server), "for djq")
        old = lsn_of(server)
        sql.execute("UPDATE orders SET who = 'late' WHERE id = 3; DELETE FROM lines WHERE o = 4")
        expect_same(sql, server)
        assert not feed.has_said("compares"), feed.said
        wait_for(lambda: confirmed(sql) > old, "for what is confirmed")
        feed.said.clear()
        feed.kill()
        server.process.kill()
        server.process.wait()
        with open(log, "wb") as file:
            file.write(before)
        restart(server, program, log)
        feed.start()
        expect_same(sql, server)
        feed.await_said("rows of")
        expect([line for line in feed.said if "resumes" in line], [])


def confirmed(sql):
    sql.execute("SELECT confirmed_flush_lsn::text FROM pg_replication_slots WHERE slot_name = 'djq'")
    return number_of(sql.fetchone()[0])


@test
def a_lost_slot(program, postgres):
    """A slot that is gone, or was made by somebody else, is made anew, and the rows are compared."""
    with shop(program, postgres, whole=True) as (dsn, sql, server, feed):
        for made_by_another in (False, True):
            feed.kill()
            wait_for(lambda: free(sql), "for the slot")
            sql.execute("SELECT pg_drop_replication_slot('djq')")
            sql.execute("DELETE FROM orders WHERE id = 5; INSERT INTO lines SELECT 6, 'bolt', 1 FROM generate_series(1, 3)")
            if made_by_another:
                sql.execute("SELECT pg_create_logical_replication_slot('djq', 'pgoutput')")
            feed.start()
            feed.await_said("rows of")
            expect_same(sql, server)
            expect_copies(sql, server, "lines")


@test
def a_position_of_another_postgres(program, postgres):
    """A position of another system or timeline, or behind the end of the log, is none to go on from."""
    with shop(program, postgres) as (_, sql, server, feed):
        for change in (lambda one: ("1/1", *one[1:]), lambda one: (*one[:2], one[2] + 2**40, one[3])):
            feed.kill()
            (one,) = positions(server)
            with contextlib.closing(server.connect()) as session, session.transaction() as moved:
                moved.update(RELATION, ("djq", *one), ("djq", *change(one)))
            sql.execute("DELETE FROM orders WHERE id % 9 = 0; INSERT INTO orders VALUES (300, 'bo') ON CONFLICT DO NOTHING")
            feed.start()
            feed.await_said("rows of")
            expect_same(sql, server)


@test
def changes_of_other_tables(program, postgres):
    """They move the position and what is confirmed, so a session that is killed, or whose PostgreSQL is stopped, is resumed."""
    with shop(program, postgres) as (dsn, sql, server, feed):
        sql.execute("CREATE TABLE other (a int)")
        for number in range(6 if LONG else 3):
            before = confirmed(sql)
            sql.execute("INSERT INTO other SELECT generate_series(1, 1000)")
            if number % 3:
                sql.execute("UPDATE orders SET who = who || 'o' WHERE id = 3")
            await_place(sql, server)
            wait_for(lambda before=before: confirmed(sql) > before, "for what is confirmed")
            sql.execute("INSERT INTO other SELECT generate_series(1, 1000)")
            if number % 2:
                feed.kill()
                feed.start()
                feed.await_said("resumes at")
        expect_same(sql, server)
        postgres.process.send_signal(signal.SIGINT)  # stops, once all streams have confirmed its last place
        postgres.process.wait(PATIENT)
        said = len(feed.said)
        postgres.start()
        wait_for(lambda: any("resumes at" in line for line in feed.said[said:]), "for the stream")
        expect([line for line in feed.said if "rows of" in line], [])
        with contextlib.closing(connect(dsn)) as again, again.cursor() as own:
            again.autocommit = True
            expect_same(own, server)


@test
def a_truncated_table(program, postgres):
    with shop(program, postgres) as (_, sql, server, feed):
        with server.connect() as session, session.lives("all_lines") as lives:
            before = set(next(iter(lives)).answers)
            sql.execute("TRUNCATE lines; INSERT INTO lines VALUES (7, 'bolt', 1)")
            expect_same(sql, server)
            told = [told for _, told in lives.sync() if told.came or told.went]
            expect([(told.came, told.went) for told in told], [({(7, "bolt", 1)}, before)])
        sql.execute("INSERT INTO lines VALUES (8, 'nut', 1); TRUNCATE lines, orders")
        expect_same(sql, server)
        wait_for(lambda: sum("a table was truncated" in line for line in feed.said) == 2, "for what it says")


@test
def definitions_that_change(program, postgres):
    """Another identity, and a type that makes no difference, are followed; a further column isn't."""
    with shop(program, postgres) as (_, sql, server, feed):
        for statement in (
            "ALTER TABLE orders REPLICA IDENTITY FULL", "ALTER TABLE orders REPLICA IDENTITY DEFAULT",
            "ALTER TABLE orders ALTER id TYPE bigint", "ALTER TABLE lines REPLICA IDENTITY FULL",
        ):  # fmt: skip
            sql.execute(f"{statement}; UPDATE orders SET who = who || 'z' WHERE id % 3 = 0; DELETE FROM lines WHERE o = 9")
            sql.execute("UPDATE lines SET n = n + 1 WHERE o % 4 = 0; INSERT INTO orders VALUES ((SELECT 100 + max(id) FROM orders), 'cy')")
            expect_same(sql, server)
        sql.execute("ALTER TABLE orders ADD paid bool NOT NULL DEFAULT false; INSERT INTO orders VALUES (2000, 'al', true)")
        status, said = feed.ends()
        expect(status, 1)
        assert "the relation orders is there with other columns than int text int, and can't be replaced" in said, said
        assert "The slot djq stays" in said, said


# What is refused, and how


@test
def what_cannot_be_followed(program, postgres):
    """It is named before anything is made, on either side."""
    with database(postgres) as (dsn, sql), Server(program) as server:
        sql.execute("CREATE TABLE t (a int PRIMARY KEY, b text, c float8); INSERT INTO t VALUES (1, NULL, 0)")
        sql.execute("CREATE TABLE u (a int PRIMARY KEY, b text); INSERT INTO u VALUES (1, NULL)")
        sql.execute("""CREATE TABLE "Odd Name" (a int)""")
        for words, said in (
            (("--tables", "t"), "t.c: double precision: its type is none that djq has"),
            (("--tables", "u"), "u, the row with a=1, b: NULL, and no value was given for it by --null u.b=VALUE"),
            (("--tables", "u", "--null", "t.b=x", "--null", "u.b=x"), "t: --null names no table that is followed"),
            (("--tables", "Odd Name"), "Odd Name: its name can't be a relation's"),
            (("--tables", "u", "--beat", "v", "--null", "u.b="), "--beat v: it is none of the tables that are followed"),
            (("--tables", "nothing"), 'relation "nothing" does not exist'),
            ((), "there is no publication djq"),
        ):  # fmt: skip
            with Feed(dsn, server.port, *words) as feed:
                status, told = feed.ends()
                expect(status, 1, told)
                assert said in told, (words, told)
            sql.execute("SELECT slot_name::text FROM pg_replication_slots UNION ALL SELECT pubname FROM pg_publication")
            expect(sql.fetchall(), [], words)
            with contextlib.closing(server.connect()) as session:
                for name in "t", "u", RELATION:
                    raises(djq.NoRelation, lambda name=name, session=session: session.add(name, 1))
        # a slot of another kind
        sql.execute("SELECT pg_create_logical_replication_slot('djq', 'test_decoding')")
        with Feed(dsn, server.port, "--tables", "u", "--null", "u.b=") as feed:
            status, told = feed.ends()
            assert status == 1 and "the slot djq is one of test_decoding in the database" in told, told
        sql.execute("SELECT pubname FROM pg_publication")
        expect(sql.fetchall(), [])


@test
def a_row_of_the_stream_that_does_not_fit(program, postgres):
    """The feed stops at it, with all before it there, and says what that does to the slot."""
    with database(postgres) as (dsn, sql), Server(program) as server:
        sql.execute("CREATE TABLE t (a int PRIMARY KEY, b text)")
        words = ("--tables", "t", "--query", "q(a,b) <- t(a,b)")
        with Feed(dsn, server.port, *words) as feed:
            await_place(sql, server)
            feed.send(signal.SIGSTOP)
            sql.execute("INSERT INTO t VALUES (1, 'x')")
            sql.execute("INSERT INTO t VALUES (2, 'y'), (3, repeat('z', 256))")
            feed.send(signal.SIGCONT)
            status, said = feed.ends()
            expect(status, 1)
            assert "t, the row with a=3, b: a text of 256 bytes, and 255 are the most" in said and "SELECT pg_drop_replication_slot('djq')" in said, said
            with contextlib.closing(server.connect()) as session:
                expect(session.snapshot("q"), {(1, "x")})
            sql.execute("UPDATE t SET b = 'z' WHERE a = 3")
            feed.words.append("--compare")
            feed.start()
            await_place(sql, server)
            with contextlib.closing(server.connect()) as session:
                expect(session.snapshot("q"), {(1, "x"), (2, "y"), (3, "z")})


@test
def lists_of_columns_filters_and_nulls(program, postgres):
    """A publication's columns and rows, values for NULL, and names of columns in queries."""
    with database(postgres) as (dsn, sql), Server(program) as server:
        sql.execute('CREATE SCHEMA other; CREATE TABLE other.jobs (id int PRIMARY KEY, site int, note text, secret jsonb, "Due" date)')
        sql.execute("ALTER TABLE other.jobs REPLICA IDENTITY USING INDEX jobs_pkey; CREATE TABLE sites (site int PRIMARY KEY)")
        sql.execute("CREATE UNIQUE INDEX by_site ON other.jobs (id, site); ALTER TABLE other.jobs ALTER site SET NOT NULL")
        sql.execute("ALTER TABLE other.jobs REPLICA IDENTITY USING INDEX by_site")
        sql.execute("INSERT INTO other.jobs SELECT n, n % 4, NULL, '{}', '1970-01-03' FROM generate_series(1, 40) AS n")
        sql.execute("INSERT INTO sites VALUES (1), (3)")
        sql.execute('CREATE PUBLICATION part FOR TABLE other.jobs (id, site, note, "Due") WHERE (site % 2 = 1), sites')
        words = ("--publication", "part", "--slot", "mine", "--null", "other.jobs.note=none", "--null", "other.jobs.Due=1970-01-01")
        words += ("--query", "q(j,n) <- sites(site: s), other_jobs(j,s,n,_)", "--query", "p(s) <- sites(site: s)", "--query", "r(s) <- other_jobs(_,s,_,0)")
        with Feed(dsn, server.port, *words, "--union", "both p r"):
            def check():
                await_place(sql, server, "mine")
                sql.execute("SELECT id, coalesce(note, 'none') FROM other.jobs JOIN sites USING (site) WHERE site % 2 = 1")
                with contextlib.closing(server.connect()) as session:
                    expect(session.snapshot("q"), set(sql.fetchall()))
                    sql.execute('SELECT site FROM sites UNION SELECT site FROM other.jobs WHERE site % 2 = 1 AND "Due" IS NULL')
                    expect(session.snapshot("both"), set(sql.fetchall()))

            check()
            sql.execute("UPDATE other.jobs SET site = site + 1 WHERE id % 3 = 0; UPDATE other.jobs SET note = 'x' WHERE id % 5 = 0")
            sql.execute('UPDATE other.jobs SET "Due" = NULL WHERE id % 7 = 0; DELETE FROM other.jobs WHERE id % 11 = 0; DELETE FROM sites WHERE site = 1')
            check()


@test
def a_beat_ends_a_transaction(program, postgres):
    """Each change of the beat's table is a change of djq of its own, also when many come together."""
    with database(postgres) as (dsn, sql), Server(program) as server:
        sql.execute("CREATE TABLE t (a int PRIMARY KEY); CREATE TABLE beat (n int PRIMARY KEY); INSERT INTO beat VALUES (0)")
        words = ("--tables", "t,beat", "--beat", "beat", "--query", "q(a,n) <- t(a), beat(n)", "--query", "b(n) <- beat(n)")
        with Feed(dsn, server.port, *words) as feed:
            await_place(sql, server)
            with server.connect() as session, session.lives("q", "b") as lives:
                feed.send(signal.SIGSTOP)
                for number in range(1, 31):
                    sql.execute("INSERT INTO t VALUES (%s)", (number,))
                    if number % 10 == 0:
                        sql.execute("UPDATE beat SET n = n + 1")
                feed.send(signal.SIGCONT)
                await_place(sql, server)
                answers, states = {"q": set(), "b": {(0,)}}, {}
                for live, told in lives.sync():
                    answers[live.query] = answers[live.query] - told.went | told.came
                    states[told.seq] = [set(one) for one in answers.values()]
            counts = [(beat[0], len(joined)) for joined, (beat,) in states.values()]
            assert {(1, 10), (2, 20), (3, 30)} <= set(counts), counts


@test
def two_feeds_of_one_djq(program, postgres):
    """Two databases, each with a slot, have their tables in one djq; a query joins them."""
    with database(postgres) as (dsn, sql), database(postgres) as (dsn_too, sql_too), Server(program) as server:
        sql.execute("CREATE TABLE t (a int PRIMARY KEY)")
        sql_too.execute("CREATE TABLE u (a int PRIMARY KEY)")
        with Feed(dsn, server.port, "--tables", "t"), Feed(dsn_too, server.port, "--tables", "u", "--slot", "second"):
            await_place(sql, server)
            await_place(sql_too, server, "second")
            sql.execute("INSERT INTO t SELECT generate_series(1, 20)")
            sql_too.execute("INSERT INTO u SELECT generate_series(11, 30)")
            await_place(sql, server)
            await_place(sql_too, server, "second")
            with contextlib.closing(server.connect()) as session:
                session.query("q(a) <- t(a), u(a)")
                expect(session.snapshot("q"), {(a,) for a in range(11, 21)})


# As it is documented


@test
def the_page(program, postgres):
    with database(postgres) as (dsn, sql), Server(program) as server, contextlib.closing(server.connect()) as session:
        sql.execute("CREATE TABLE orders (id int PRIMARY KEY, state text); CREATE TABLE lines (\"order\" int, item text)")
        sql.execute("ALTER TABLE lines REPLICA IDENTITY FULL")
        words = ("--tables", "orders,lines", "--query", 'open(id,item) <- orders(id:, state: "open"), lines(order: id, item:)')
        with Feed(dsn, server.port, *words):
            await_place(sql, server)
            ran = []
            for kind, block in pages.blocks("POSTGRES.md"):
                if kind == "python":
                    pages.run_python("POSTGRES.md", block, {"server": session, "sql": sql})
                ran.append(kind)
            expect(ran.count("python"), 1)


@test
def words_that_are_wrong(program, postgres):
    for words in (["no address"], ["h:1", "--slot", "Djq"], ["h:1", "--slot", "d" * 29], ["h:1", "--null", "t=1"],
                  ["h:1", "--union", "both p"], ["h:1", "--tables", ","]):  # fmt: skip
        told = io.StringIO()
        with mock.patch.object(sys, "argv", ["djq-postgres", "dbname=x", *words]), contextlib.redirect_stderr(told):
            expect((raises(SystemExit, postgres_in.main).code, "error: " in told.getvalue()), (2, True), words)


# Which are run


def outcome(function, program, postgres):
    try:
        function(program, postgres)
        return "passed"
    except Exception:  # noqa: BLE001
        print(f"{function.__name__}: {traceback.format_exc(limit=-4)}", flush=True)
        return "failed"


def main():
    program, names, counts = sys.argv[1], sys.argv[2:], {"passed": 0, "failed": 0, "skipped": 0}
    with contextlib.ExitStack() as stack:
        postgres = None
        for function in TESTS:
            if names and function.__name__ not in names:
                continue
            if LACKS:
                asked = os.environ.get("DJQ_NEIGHBOURS") == "1"
                print(f"{function.__name__}: {'needs' if asked else 'skipped, without'} {', '.join(LACKS)}")
                counts["failed" if asked else "skipped"] += 1
                continue
            postgres = postgres or stack.enter_context(Postgres())
            began = time.monotonic()
            counts[outcome(function, program, postgres)] += 1
            if os.environ.get("TIMES") == "1":
                print(f"{function.__name__} took {time.monotonic() - began:.1f} s", flush=True)
    skipped = f", {counts['skipped']} skipped" if counts["skipped"] else ""
    print(f"{counts['passed']} passed, {counts['failed']} failed{skipped}")
    return 1 if counts["failed"] else 0


if __name__ == "__main__":
    if len(sys.argv) < 2:
        raise SystemExit(__doc__)
    sys.exit(main())
