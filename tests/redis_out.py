#!/usr/bin/env python3
"""Tests of djq-redis (djq.redis_out, djq.redis_feed), beside the built program and a Redis of their own on loopback.

    python3 tests/redis_out.py PROGRAM [NAME ..]

It needs Debian's redis-server, python3-redis and python3-venv. Without them its tests are skipped by name; with
DJQ_NEIGHBOURS=1 in the environment they fail. Each process that is started is ended by its id. A line is printed for
each test that fails or is skipped, and last `N passed, N failed`, with `, N skipped`; the status is 0 where none
failed. With TIMES=1 in the environment it says how long each took.
"""

import contextlib
import importlib.util
import io
import os
import random
import re
import resource
import selectors
import shutil
import signal
import socket
import subprocess
import sys
import tempfile
import threading
import time
import traceback
from unittest import mock

OTHER = "/usr/bin/python3"  # which Debian's packages are for


def change_python():
    """Goes on in the system's Python if that has the package redis, and this one hasn't."""
    if importlib.util.find_spec("redis") is None and os.path.realpath(sys.executable) != os.path.realpath(OTHER):
        asked = [OTHER, "-c", "import redis"]
        if os.path.exists(OTHER) and subprocess.run(asked, stderr=subprocess.DEVNULL).returncode == 0:
            os.execv(OTHER, [OTHER, *sys.argv])


if __name__ == "__main__":
    change_python()

import pages
from harness import TESTS, expect, test
from serving import HERE, SECONDS, Server, djq, raises

LACKS = [name for name, there in {
    "redis-server": shutil.which("redis-server"), "redis-cli": shutil.which("redis-cli"),
    "python3-redis": importlib.util.find_spec("redis"), "python3-venv": importlib.util.find_spec("ensurepip"),
}.items() if not there]  # fmt: skip

if not LACKS:
    import redis
    from djq import redis_feed, redis_out
    from djq.redis_feed import Entry, Reader, read_answer, spell_answer
    from djq.shards import Merged

CLIENT = os.path.abspath(os.path.join(HERE, "..", "clients", "python"))
PATIENT = 6 * SECONDS  # for what goes through several processes on a busy machine


def wait_for(call):
    """Waits until it is so, for as long as several processes may take on a busy machine."""
    until = time.monotonic() + PATIENT
    while not call():
        assert time.monotonic() < until, "waited too long"
        time.sleep(0.01)


def free_port():
    with socket.create_server(("127.0.0.1", 0)) as free:
        return free.getsockname()[1]


class Redis:
    """A Redis on a free port of loopback, with a folder of its own."""

    def __init__(self, *words):
        self.port, self.words = free_port(), words
        self.folder = tempfile.TemporaryDirectory()
        self.process = None

    def __enter__(self):
        try:
            self.start()
        except BaseException:
            self.__exit__()
            raise
        return self

    def __exit__(self, *_):
        self.kill()
        self.folder.cleanup()

    def start(self):
        words = ["redis-server", "--port", str(self.port), "--bind", "127.0.0.1", "--dir", self.folder.name, "--save", ""]
        self.process = subprocess.Popen([*words, *self.words], stdout=subprocess.DEVNULL, stderr=subprocess.DEVNULL)
        wait_for(self.answers)

    def answers(self):
        with contextlib.suppress(redis.RedisError), self.connect() as client:
            return client.ping()

    def kill(self):
        self.process.kill()
        self.process.wait()

    def connect(self):
        return redis.Redis(port=self.port, decode_responses=True)

    @property
    def url(self):
        return f"redis://127.0.0.1:{self.port}/0"


class Writer:
    """The program djq-redis."""

    def __init__(self, server, there, *words, begun=True):
        self.words = [sys.executable, "-m", "djq.redis_out", f"127.0.0.1:{server.port}", "--redis", there.url, *words]
        self.process, self.begun = None, begun

    def __enter__(self):
        try:
            self.start()
        except BaseException:
            self.kill()
            raise
        return self

    def __exit__(self, *_):
        self.kill()

    def start(self):
        environment = dict(os.environ, PYTHONPATH=CLIENT, PYTHONUNBUFFERED="1")
        self.process = subprocess.Popen(self.words, env=environment, stderr=subprocess.PIPE, text=True)
        self.said = []
        self.thread = threading.Thread(target=self.listen, daemon=True)
        self.thread.start()
        if self.begun:
            wait_for(lambda: self.has_said(" answers: ") or self.process.poll() is not None)
            assert self.process.poll() is None, self.said

    def listen(self):
        for line in self.process.stderr:
            self.said.append(line)

    def has_said(self, words):
        return any(words in line for line in self.said)

    def kill(self):
        with contextlib.suppress(ProcessLookupError):
            self.process.send_signal(signal.SIGKILL)
        self.process.wait()
        self.thread.join(SECONDS)
        self.process.stderr.close()


class Proxy:
    """What stands between a client and a server, and cuts their connections."""

    def __init__(self, port):
        self._to, self._listener = port, socket.create_server(("127.0.0.1", 0))
        self.port, self._open, self.cuts = self._listener.getsockname()[1], [], 0
        threading.Thread(target=self._accept, daemon=True).start()

    def __enter__(self):
        return self

    def __exit__(self, *_):
        self._listener.close()
        self.cut()

    def cut(self):
        self.cuts += bool(self._open)
        while self._open:
            with contextlib.suppress(OSError):
                self._open.pop().shutdown(socket.SHUT_RDWR)

    def _accept(self):
        with contextlib.suppress(OSError):
            while True:
                here, _ = self._listener.accept()
                with contextlib.suppress(OSError):
                    there = socket.create_connection(("127.0.0.1", self._to))
                    self._open += [here, there]
                    for one, other in ((here, there), (there, here)):
                        threading.Thread(target=self._move, args=(one, other), daemon=True).start()

    def _move(self, one, other):
        with contextlib.suppress(OSError), one:
            while piece := one.recv(1 << 16):
                other.sendall(piece)
            other.shutdown(socket.SHUT_RDWR)


class Rows:
    """Rows that change at random, and the answers of `q` after each change, by its number."""

    def __init__(self, server, seed=1):
        self.server, self.draw = server, random.Random(seed)
        self.r = {(self.draw.randrange(30), self.draw.randrange(8)) for _ in range(60)}
        self.s = set(range(5))
        self.states = {}
        self.ends = threading.Event()
        self.thread = None

    def define(self):
        with self.server.connect() as client:
            for text in ("r", "int", "int"), ("s", "int"):
                client.relation(*text)
            client.load("r", sorted(self.r))
            client.load("s", [(y,) for y in sorted(self.s)])
            seq = client.add("r", -1, -1).seq  # a row that is in no answer
            self.states[seq] = self.answers()
            client.query("q(x,y) <- r(x,y), s(y)")
            client.query("rr(x,y) <- r(x,y)")
            client.query("ss(y) <- s(y)")

    def answers(self):
        return frozenset((x, y) for x, y in self.r if y in self.s)

    def pick(self):
        """A row to change, with the rows of its relation, and what the relation and the query over it are called."""
        y = self.draw.randrange(8)
        if self.draw.random() < 0.1 and (y not in self.s or len(self.s) > 2):  # so that there are always answers
            return self.s, y, "s", "ss"
        return self.r, (self.draw.randrange(30), self.draw.randrange(8)), "r", "rr"

    def change(self, client, picked=None):
        """One change of rows."""
        rows, row, relation, _ = picked or self.pick()
        values = row if relation == "r" else (row,)
        told = (client.delete if row in rows else client.add)(relation, *values)
        assert told.changed, (relation, row, told)
        self.changed(rows, row, told.seq)

    def changed(self, rows, row, seq):
        rows ^= {row}
        self.states[seq] = self.answers()

    def settle(self, client, picked):
        """What became of a change whose reply didn't come."""
        rows, row, relation, query = picked
        if client.has(query, *(row if relation == "r" else (row,))) != (row in rows):
            self.changed(rows, row, client.watch(query))
            client.unwatch(query)

    def run(self, client, count):
        for _ in range(count):
            self.change(client)

    def __enter__(self):
        """Changes rows, as long as the block lasts."""
        self.ends.clear()
        self.thread = threading.Thread(target=self.go_on, daemon=True)
        self.thread.start()
        return self

    def __exit__(self, *_):
        self.ends.set()
        self.thread.join()

    def go_on(self):
        """Changes rows, also while the server is killed and restarted."""
        client = picked = None
        while picked is not None or not self.ends.is_set():
            try:
                client = client or self.server.connect()
                if picked is not None:
                    self.settle(client, picked)
                else:
                    picked = self.pick()
                    self.change(client, picked)
                picked = None
                time.sleep(0.001)
            except djq.Error:
                client = None
                time.sleep(0.02)


def present(client, feed="djq:q"):
    """The answers in the set."""
    return {read_answer(line) for line in client.smembers(f"{feed}:now")}


def entries(client, feed="djq:q"):
    return [Entry.of_fields(*entry) for entry in client.xrange(feed)]


def check_chain(found, states=None):
    """Each entry begins where the one before ended, takes away what was there, and brings what wasn't; with the states by
    their numbers, each is the state of its number. Gives the answers at the end."""
    answers, last = set(), found[0].prev if found else ""
    for entry in found:
        expect(entry.prev, last, entry)
        assert entry.went <= answers and not entry.came & answers and (entry.came or entry.went), entry
        answers = (answers - entry.went) | entry.came
        last = entry.id
        if states is not None:
            expect(answers, set(states[entry.seq]), entry)
    return answers


class Follower:
    """A reader in a thread: each of its states is that of its number."""

    def __init__(self, there, rows, feed="djq:q"):
        self.there, self.rows, self.feed = there, rows, feed
        self.changes = self.restarts = 0
        self.fewest = 999  # answers, since there were any
        self.wrong, self.ends = [], threading.Event()
        self.thread = threading.Thread(target=self.follow, daemon=True)

    def __enter__(self):
        self.thread.start()
        return self

    def __exit__(self, *_):
        self.ends.set()
        self.thread.join(PATIENT)

    def follow(self):
        reader = None
        while not self.ends.is_set():
            try:
                reader = reader or Reader(self.there.connect(), self.feed)
                change = reader.next(0.2)
            except redis.RedisError:
                time.sleep(0.05)
                continue
            self.answers, self.seq = set(reader.answers), reader.seq
            if self.answers or self.fewest < 999:
                self.fewest = min(self.fewest, len(self.answers))
            if change is not None:
                self.changes += 1
                self.restarts += change.restarted
                self.check(reader)

    def check(self, reader):
        if not reader.seq:
            return  # Redis has nothing yet
        until = time.monotonic() + SECONDS
        while reader.seq not in self.rows.states and time.monotonic() < until:
            time.sleep(0.001)  # the delta was faster than the reply
        if reader.answers != self.rows.states.get(reader.seq):
            self.wrong.append((reader.seq, reader.answers ^ set(self.rows.states.get(reader.seq, ()))))

    def expect_right(self):
        wait_for(lambda: self.answers == self.rows.answers())
        expect(self.wrong[:3], [], "states that never were")


def caught_up(client, rows, feed="djq:q"):
    """Waits until the set has the present answers."""
    until = time.monotonic() + PATIENT
    while present(client, feed) != rows.answers():
        assert time.monotonic() < until, present(client, feed) ^ rows.answers()
        time.sleep(0.02)


@contextlib.contextmanager
def all_of(program, *words, log=None, writer=("--queries", "q"), seed=1):
    """A server with rows, a Redis, and a writer."""
    with Server(program, log=log) as server, Redis(*words) as there, there.connect() as client:
        rows = Rows(server, seed)
        rows.define()
        with Writer(server, there, *writer) as one:
            yield server, rows, there, client, one


# How it lies


@test
def an_entry_a_delta(program):
    with Server(program) as server, Redis() as there, there.connect() as client, server.connect() as changes:
        changes.relation("jobs", int, str)
        changes.query("q(x,y) <- jobs(x,y)")
        changes.add("jobs", 7, "bo lt")
        with Writer(server, there, "--queries", "q"), client.pubsub() as told:
            told.subscribe("djq:q")
            told.get_message(timeout=SECONDS)
            texts = ['say "hi"', "line\nfeed", "back\\slash", "", "äöü 😀"]
            with changes.transaction() as change:
                for number, text in enumerate(texts):
                    change.add("jobs", number, text)
            changes.delete("jobs", 7, "bo lt")
            wait_for(lambda: client.xlen("djq:q") == 3)
            expect(client.smembers("djq:q:now"), {spell_answer(row) for row in enumerate(texts)})
            first, second, third = client.xrange("djq:q")
            expect(first[1], {"seq": "1", "lsn": "", "prev": "", "+": '7 "bo lt"'})
            expect((second[1]["seq"], second[1]["prev"], "-" in second[1]), ("2", first[0], False))
            expect(sorted(second[1]["+"].split("\n")), sorted(spell_answer(row) for row in enumerate(texts)))
            expect(third[1], {"seq": "3", "lsn": "", "prev": second[0], "-": '7 "bo lt"'})
            at = client.hgetall("djq:q:at")
            expect(at, {"id": third[0], "seq": "3", "lsn": "", "by": ""})
            published = [Entry.of_message(told.get_message(timeout=SECONDS)["data"]) for _ in range(2)]
            expect(published, entries(client)[1:])
            expect(check_chain(entries(client)), set(enumerate(texts)))
            # a change of rows below the query that changes no answer moves the hash alone
            changes.relation("others", int)
            changes.query("p(x) <- jobs(x,_), others(x)")
            changes.add("jobs", 8, "a")
            changes.add("others", 9)
            wait_for(lambda: client.hget("djq:q:at", "seq") == "4")
            expect(client.hget("djq:q:at", "id"), client.xrevrange("djq:q", count=1)[0][0])


@test
def several_queries_and_answers_without_columns(program):
    with Server(program) as server, Redis() as there, there.connect() as client, server.connect() as changes:
        changes.relation("r", int)
        changes.query("any() <- r(x)")
        changes.query("big(x) <- r(x), x > 5")
        with Writer(server, there, "--queries", "any,big", "--prefix", "mine"):
            reader = Reader(client, "mine:any")
            expect((reader.answers, reader.id), (set(), ""))
            changes.add("r", 1)
            expect(reader.next(SECONDS).came, {()})
            changes.add("r", 9)
            wait_for(lambda: present(client, "mine:big") == {(9,)})
            expect(present(client, "mine:any"), {()})
            changes.delete("r", 1)
            changes.delete("r", 9)
            expect(reader.next(SECONDS).went, {()})
            wait_for(lambda: present(client, "mine:big") == set())


@test
def a_stream_is_trimmed(program):
    with all_of(program, writer=("--queries", "q", "--maxlen", "10")) as (server, rows, there, client, _):
        reader = Reader(client, "djq:q")
        with server.connect() as changes:
            rows.run(changes, 300)
        caught_up(client, rows)
        expect(client.xlen("djq:q"), 10)
        told = list(reader.changes(0.5))
        expect((told[0].restarted, reader.answers), (True, set(rows.answers())))


@test
def the_command_refuses_words(program):
    def said(*words):
        with contextlib.redirect_stderr(io.StringIO()) as told, mock.patch.object(sys, "argv", ["djq-redis", *words]):
            expect(raises(SystemExit, redis_out.main).code, 2)
        return told.getvalue().splitlines()[-1].partition("error: ")[2]

    expect(said("7007", "--queries", "q"), "not HOST:PORT: 7007")
    expect(said("127.0.0.1:7007", "--queries", "Q"), "--queries: not a name or a head: 'Q'")
    expect(said("127.0.0.1:7007", "--queries", "q,q"), "--queries: q is named twice")
    expect(said("127.0.0.1:7007", "--queries", "q", "--commit-on", "q"), "--queries: q is named twice")
    expect(said("127.0.0.1:7007", "--queries", "q", "--by", "x"), "--by: q has no column x: name its columns, as '--queries q(x,y)'")
    expect(said("127.0.0.1:7007", "--queries", "q(x,y)", "--by", "3"), "--by: q has no column 3")
    expect(said("127.0.0.1:7007", "--queries", "q", "--maxlen", "0"), "not a number of entries: 0")
    expect(said("127.0.0.1:7007", "--queries", "q", "--prefix", "a*"), "--prefix: letters, digits and _ . : - alone: 'a*'")
    assert said("127.0.0.1:7007", "--queries", "q", "--redis", "nothing").startswith("--redis: ")


@test
def the_package_brings_the_command(program):
    """With its extras, which are met by what Debian has, and without a network."""
    with tempfile.TemporaryDirectory() as folder:
        source, made = os.path.join(folder, "source"), os.path.join(folder, "made")
        shutil.copytree(CLIENT, source)
        environment = {**os.environ, "PIP_NO_INDEX": "1", "PIP_DISABLE_PIP_VERSION_CHECK": "1", "PIP_NO_CACHE_DIR": "1"}
        environment.pop("PYTHONPATH", None)
        extras = "postgres,redis" if importlib.util.find_spec("psycopg2") else "redis"
        for words in (
            [sys.executable, "-m", "venv", "--system-site-packages", made],
            [f"{made}/bin/pip", "install", "--quiet", f"{source}[{extras}]"],
            *([[f"{made}/bin/djq-postgres", "--help"]] if "postgres" in extras else []),
            [f"{made}/bin/djq-redis", "--help"],
        ):
            done = subprocess.run(words, capture_output=True, text=True, env=environment, cwd=folder, timeout=PATIENT)
            expect(done.returncode, 0, done.stdout + done.stderr)
        assert done.stdout.startswith("usage: djq-redis"), done.stdout
        environment["REDIS_URL"] = "redis://:secret@127.0.0.1:1/0"
        done = subprocess.run(words, capture_output=True, text=True, env=environment, timeout=PATIENT)
        assert "secret" not in done.stdout, done.stdout


# Losses


@test
def a_writer_is_killed_and_begun_again(program):
    with all_of(program) as (server, rows, there, client, writer), Follower(there, rows) as follower:
        with server.connect() as changes:
            rows.run(changes, 100)
            caught_up(client, rows)
            writer.kill()
            before = client.xlen("djq:q")
            rows.run(changes, 100)
            writer.start()
            caught_up(client, rows)
            expect(client.xlen("djq:q"), before + 1, "the difference is one entry")
            rows.run(changes, 100)
        caught_up(client, rows)
        check_chain(entries(client), rows.states)
        follower.expect_right()
        expect(follower.restarts, 0)


@test
def fifty_kills(program):
    draw = random.Random(5)
    with all_of(program) as (server, rows, there, client, writer), Follower(there, rows) as follower:
        with rows:
            for _ in range(50):
                writer.begun = draw.random() < 0.7  # else it is killed as it starts
                writer.kill()
                writer.start()
                time.sleep(draw.uniform(0, 0.1))
        caught_up(client, rows)
        check_chain(entries(client), rows.states)
        follower.expect_right()
        expect((follower.restarts, follower.changes > 30), (0, True))


@test
def redis_is_restarted_with_its_data(program):
    with all_of(program, "--appendonly", "yes", "--appendfsync", "always") as (server, rows, there, client, _):
        with Follower(there, rows) as follower:
            for _ in range(3):
                with rows:
                    time.sleep(0.3)
                    there.kill()
                    time.sleep(0.3)
                    there.start()
                    time.sleep(0.3)
                caught_up(client, rows)
            check_chain(entries(client), rows.states)
            follower.expect_right()
            expect(follower.restarts, 0)


@test
def redis_is_restarted_empty(program):
    with all_of(program) as (server, rows, there, client, _), Follower(there, rows) as follower:
        for _ in range(3):
            with rows:
                time.sleep(0.3)
                there.kill()
                time.sleep(0.3)
                there.start()
                time.sleep(0.3)
            caught_up(client, rows)
            found = entries(client)
            expect(found[0].prev, "", "the first entry of all")
            check_chain(found, rows.states)
        client.flushall()  # without a connection that is lost
        caught_up(client, rows)
        follower.expect_right()
        expect((follower.restarts > 0, follower.fewest > 0), (True, True), "while Redis is empty a reader has what it had")


@test
def the_file_of_redis_was_cut(program):
    """Redis may then have part of a script: entries that its hash and its set don't know."""
    draw = random.Random(3)
    with all_of(program, "--appendonly", "yes", "--appendfsync", "always") as (server, rows, there, client, _):
        with Follower(there, rows) as follower, server.connect() as changes:
            for _ in range(4):
                rows.run(changes, 200)
                caught_up(client, rows)
                wait_for(lambda: follower.answers == rows.answers())
                there.kill()
                path = max((os.path.join(at, name) for at, _, names in os.walk(there.folder.name) for name in names
                            if name.endswith(".incr.aof")), key=os.path.getmtime)  # fmt: skip
                os.truncate(path, int(os.path.getsize(path) * draw.uniform(0.5, 0.9)))
                there.start()
                rows.run(changes, 20)
                caught_up(client, rows)
                wait_for(lambda: follower.answers == rows.answers())
                expect(Reader(client, "djq:q").answers, set(rows.answers()))


@test
def ids_that_went_back(program):
    """As by a clock that was wrong: no entry follows the last one, and the hash names another."""
    with all_of(program) as (server, rows, there, client, writer):
        caught_up(client, rows)
        reader = Reader(client, "djq:q")
        reader._longest = 0.1
        writer.kill()
        client.delete("djq:q")
        client.xadd("djq:q", {"seq": 9, "prev": "", "lsn": "", "-": "1 1"}, id="5-0")
        client.sadd("djq:q:now", "99 99")
        client.hset("djq:q:at", mapping={"id": "5-0", "seq": 9})
        change = reader.next(SECONDS)
        expect((change.restarted, change.came, reader.id, reader.seq), (True, {(99, 99)}, "5-0", 9))
        expect(reader.next(0.3), None)


@test
def the_set_was_lost_alone(program):
    """As when Redis evicts keys."""
    with all_of(program) as (server, rows, there, client, _), server.connect() as changes:
        for key in ("djq:q:now", "djq:q:at", "djq:q"):
            rows.run(changes, 50)
            caught_up(client, rows)
            client.delete(key)
            rows.run(changes, 50)
            caught_up(client, rows)
            expect(Reader(client, "djq:q").answers, set(rows.answers()))


@test
def the_session_is_lost(program):
    draw = random.Random(11)
    with Server(program) as server, Redis() as there, there.connect() as client, Proxy(server.port) as proxy:
        rows = Rows(server)
        rows.define()
        with Writer(proxy, there, "--queries", "q"), Follower(there, rows) as follower, rows:
            while proxy.cuts < 20:
                time.sleep(draw.uniform(0, 0.1))
                changes = follower.changes
                proxy.cut()
                wait_for(lambda: follower.changes > changes)
        follower.expect_right()
        check_chain(entries(client), rows.states)
        expect(follower.restarts, 0)


@test
def djq_is_restarted_with_a_log(program):
    with tempfile.TemporaryDirectory() as folder:
        log = os.path.join(folder, "log")
        with all_of(program, log=log) as (server, rows, there, client, _), Follower(there, rows) as follower:
            for _ in range(3):
                with server.connect() as changes:
                    rows.run(changes, 30)
                restart(program, server, log)
                with server.connect() as changes:
                    rows.run(changes, 30)
                caught_up(client, rows)
            check_chain(entries(client), rows.states)
            follower.expect_right()
            expect(follower.restarts, 0)


@test
def djq_is_restarted_without_a_log(program):
    """Whoever feeds it loads the rows, and then registers the query. So readers never see fewer answers."""
    with all_of(program) as (server, rows, there, client, _):
        rows.s = set(range(8))
        rows.r = {(x, y) for x in range(30) for y in range(8)}
        rows.states.clear()
        fewest, ends = [], threading.Event()

        def watch():
            with there.connect() as other:
                while not ends.is_set():
                    fewest.append(other.scard("djq:q:now"))
                    time.sleep(0.002)

        thread = threading.Thread(target=watch, daemon=True)
        for turn in range(4):
            restart(program, server)
            rows.states.clear()
            rows.define()
            with server.connect() as changes:
                changes.add("r", 100 + turn, 0)
                rows.r.add((100 + turn, 0))
            caught_up(client, rows)
            if turn == 0:
                thread.start()
        ends.set()
        thread.join()
        expect((min(fewest), len(fewest) > 10), (241, True))


def restart(program, server, log=None):
    """The server killed, and another one at its place."""
    server.process.kill()
    server.process.wait()
    again = Server(program, server.port, log)
    server.process = again.process
    again.__enter__()


@test
def ten_kills_of_each(program):
    """Of djq with a log, of Redis with a file that is synced, and of two writers, while rows change."""
    draw, words = random.Random(6), ("--appendonly", "yes", "--appendfsync", "always")
    with tempfile.TemporaryDirectory() as folder:
        log = os.path.join(folder, "log")
        with all_of(program, *words, log=log) as (server, rows, there, client, first), Follower(there, rows) as follower:
            with Writer(server, there, "--queries", "q") as second:

                def again(one):
                    one.begun = False
                    one.kill()
                    one.start()

                def redis_again():
                    there.kill()
                    there.start()

                kills = [lambda: restart(program, server, log), redis_again, lambda: again(first), lambda: again(second)] * 10
                draw.shuffle(kills)
                with rows:
                    for kill in kills:
                        kill()
                        changes = follower.changes
                        until = time.monotonic() + draw.uniform(0, 3)
                        while follower.changes == changes and time.monotonic() < until:
                            time.sleep(0.01)
                caught_up(client, rows)
                check_chain(entries(client), rows.states)
                follower.expect_right()
                expect((follower.restarts, follower.changes > 10), (0, True))


# Several


@test
def of_two_writers_one_writes(program):
    with all_of(program) as (server, rows, there, client, first), Follower(there, rows) as follower:
        with Writer(server, there, "--queries", "q") as second, server.connect() as changes:
            with rows:
                wait_for(lambda: first.has_said("by another") or second.has_said("by another"))
            caught_up(client, rows)
            for _ in range(3):
                waits, writes = (first, second) if first.said and "by another" in first.said[-1] else (second, first)
                writes.process.send_signal(signal.SIGSTOP)
                count = len(waits.said)
                with rows:
                    wait_for(lambda: any(" answers: " in line for line in waits.said[count:]))
                    writes.process.send_signal(signal.SIGCONT)
                    wait_for(lambda: "by another" in writes.said[-1])
                caught_up(client, rows)
            writes, waits = waits, writes
            writes.kill()
            with rows:
                time.sleep(0.2)
            caught_up(client, rows)
            writes.start()
            check_chain(entries(client), rows.states)
            follower.expect_right()
            expect(follower.restarts, 0)


@test
def readers_join_in_the_middle(program):
    few, page, redis_feed.FEW, redis_feed.PAGE = redis_feed.FEW, redis_feed.PAGE, 5, 5
    try:
        with all_of(program) as (server, rows, there, client, _), contextlib.ExitStack() as stack:
            followers = []
            with rows:
                for number in range(30):
                    redis_feed.FEW = few if number > 20 else 5  # by one command, or by several
                    followers.append(stack.enter_context(Follower(there, rows)))
                    time.sleep(0.1)
            caught_up(client, rows)
            for follower in followers:
                wait_for(lambda: hasattr(follower, "answers"))
                follower.expect_right()
                expect(follower.restarts, 0)
    finally:
        redis_feed.FEW, redis_feed.PAGE = few, page


@test
def feeds_of_two_servers_are_merged(program):
    """Each has a writer with a prefix of its own, and answers that both have are counted."""
    draw = random.Random(8)
    with contextlib.ExitStack() as stack:
        there = stack.enter_context(Redis())
        client, clients, rows = stack.enter_context(there.connect()), [], [set(), set()]
        for number in range(2):
            server = stack.enter_context(Server(program))
            clients.append(stack.enter_context(server.connect()))
            clients[-1].relation("r", int)
            clients[-1].query("q(x) <- r(x)")
            rows[number] = set(range(number, 3))
            clients[-1].load("r", [(row,) for row in rows[number]])
            stack.enter_context(Writer(server, there, "--queries", "q", "--prefix", f"djq{number}"))
        readers, merged = [Reader(client, f"djq{number}:q") for number in range(2)], Merged()
        for reader in readers:
            merged.take(frozenset(reader.answers), frozenset())
        expect(merged.answers, {(0,), (1,), (2,)})
        for _ in range(20):
            for _ in range(30):
                number, row = draw.randrange(2), draw.randrange(9)
                (clients[number].delete if row in rows[number] else clients[number].add)("r", row)
                rows[number] ^= {row}
            for number, reader in enumerate(readers):
                while reader.answers != {(row,) for row in rows[number]}:
                    change = reader.next(PATIENT)
                    came, went = merged.take(change.came, change.went)
                    assert not (came & went) and came <= merged.answers and not went & merged.answers
            expect(merged.answers, {(row,) for row in rows[0] | rows[1]})


@test
def a_large_set_is_read_by_several_commands(program):
    """Rows change in the middle of that; what changed is in the entries, if these weren't trimmed meanwhile."""
    few, page = redis_feed.FEW, redis_feed.PAGE
    for maxlen, whole in (("1000", 0), ("3", 1)):
        words = ("--queries", "q", "--maxlen", maxlen)
        with all_of(program, writer=words) as (server, rows, there, client, _), server.connect() as changes:
            caught_up(client, rows)

            class Slow(redis.Redis):
                read_whole = 0

                def sscan_iter(self, *given, **more):
                    for number, member in enumerate(super().sscan_iter(*given, **more)):
                        if number in (3, 9):
                            rows.run(changes, 30)
                            caught_up(client, rows)
                        yield member

                def pipeline(self, *given, **more):
                    made, both = super().pipeline(*given, **more), self

                    class Counted(type(made)):
                        def smembers(self, *given):
                            both.read_whole += 1
                            return super().smembers(*given)

                    made.__class__ = Counted
                    return made

            redis_feed.FEW, redis_feed.PAGE = 5, 5
            try:
                slow = Slow(port=there.port, decode_responses=True)
                reader = Reader(slow, "djq:q")
            finally:
                redis_feed.FEW, redis_feed.PAGE = few, page
            expect((reader.answers, reader.id), (set(rows.answers()), client.hget("djq:q:at", "id")))
            expect(slow.read_whole, whole, "it is read by one command if that can't be")


# By a column


@test
def a_feed_for_each_value(program):
    words = ("--queries", "q(x,y)", "--by", "y")
    with all_of(program, writer=words) as (server, rows, there, client, writer), server.connect() as changes:
        readers = {y: Reader(there.connect(), f"djq:q:by:{y}") for y in range(8)}

        def hold():
            caught_up(client, rows)
            for y in range(8):
                wanted = {row for row in rows.answers() if row[1] == y}
                expect(present(client, f"djq:q:by:{y}"), wanted)
                expect(check_chain(entries(client, f"djq:q:by:{y}")), wanted)
                list(readers[y].changes(0.3))
                expect(readers[y].answers, wanted)
                times = {client.ttl(f"djq:q:by:{y}"), client.ttl(f"djq:q:by:{y}:at")}
                expect(all(3000 < left <= 3600 for left in times) or times <= {-1, -2}, True, times)
                expect(times == {-1}, bool(wanted), (y, times))

        rows.run(changes, 500)
        hold()
        writer.kill()
        rows.run(changes, 100)
        writer.start()
        hold()
        for y in sorted(rows.s):
            rows.s.discard(y)
            rows.states[changes.delete("s", y).seq] = rows.answers()
        caught_up(client, rows)
        expect([key for key in client.keys("djq:q:by:*:now")], [])
        for y in range(8):
            rows.s.add(y)
            rows.states[changes.add("s", y).seq] = rows.answers()
        hold()
        # another column: the feeds of the one before are gone
        writer.kill()
        other = Writer(server, there, "--queries", "q", "--by", "1")
        with other:
            rows.run(changes, 100)
            caught_up(client, rows)
            feeds = {int(re.fullmatch(r"djq:q:by:(\d+):now", key)[1]) for key in client.keys("djq:q:by:*:now")}
            expect(feeds, {x for x, _ in rows.answers()})
            for x in feeds:
                expect(present(client, f"djq:q:by:{x}"), {row for row in rows.answers() if row[0] == x})
        with Writer(server, there, "--queries", "q"):
            expect(client.keys("djq:q:by:*"), [])


@test
def a_column_that_is_not_there(program):
    with all_of(program) as (server, rows, there, client, first), server.connect() as changes:
        rows.run(changes, 100)
        first.kill()
        with Writer(server, there, "--queries", "q", "--by", "3", begun=False) as writer:
            expect(writer.process.wait(SECONDS), 1)
            writer.thread.join(SECONDS)
            expect(writer.said[-1], "djq-redis: q has 2 columns, and none with the number 3\n")


READERS = 10_000


def room(wanted):
    """How many connections this process and a Redis may have, at most so many as are wanted."""
    least, most = resource.getrlimit(resource.RLIMIT_NOFILE)
    if least != resource.RLIM_INFINITY and least < wanted + 500:
        enough = wanted + 500 if most == resource.RLIM_INFINITY else min(most, wanted + 500)
        resource.setrlimit(resource.RLIMIT_NOFILE, (enough, most))
        least = enough
    return wanted if least == resource.RLIM_INFINITY else min(wanted, least - 500)


@test
def ten_thousand_readers_of_a_key_each(program):
    count = room(READERS)
    expect(count, READERS, "files that this process may open")
    with Server(program) as server, Redis("--maxclients", str(count + 100)) as there, server.connect() as changes:
        client, draw, wanted = there.connect(), random.Random(9), {}
        changes.relation("pages", int, int)
        changes.query("q(user,page) <- pages(user,page)")
        changes.load("pages", [(user, 0) for user in range(count)])
        with Writer(server, there, "--queries", "q", "--by", "1"), selectors.DefaultSelector() as selector:
            readers = [subscribed(selector, there.port, f"djq:q:by:{user}", user) for user in range(count)]
            wanted = {user: {(user, 0)} for user in range(count)}
            with changes.pipeline() as many:
                for number in range(1, 10_001):
                    user = draw.randrange(count)
                    wanted[user].add((user, number))
                    many.add("pages", user, number)
            followed = [Reader(client, f"djq:q:by:{user}") for user in range(count)]
            left = {user for user in range(count) if followed[user].answers != wanted[user]}
            until = time.monotonic() + PATIENT
            while left:
                assert time.monotonic() < until, f"{len(left)} readers lack answers"
                for key, _ in selector.select(1):
                    reader = followed[key.data]
                    for message in messages(key.fileobj):
                        reader.take(Entry.of_message(message))
                    if reader.answers == wanted[key.data]:
                        left.discard(key.data)
            for one in readers:
                one.close()


def subscribed(selector, port, channel, user):
    """A connection that has subscribed to a channel."""
    one = socket.create_connection(("127.0.0.1", port))
    one.sendall(f"SUBSCRIBE {channel}\r\n".encode())
    file = one.makefile("rb")
    expect([file.readline() for _ in range(6)][-1], b":1\r\n")
    one.setblocking(False)
    selector.register(one, selectors.EVENT_READ, user)
    return one


def messages(one):
    """The messages that have come."""
    data = b""
    with contextlib.suppress(BlockingIOError):
        while piece := one.recv(1 << 16):
            data += piece
    while data:
        length = int(re.match(rb"\*3\r\n\$7\r\nmessage\r\n\$(\d+)\r\n", data)[1])
        at = data.index(b"\r\n", data.index(b"message\r\n") + 9) + 2 + length + 2
        size, _, data = data[at + 1 :].partition(b"\r\n")
        yield data[: int(size)]
        data = data[int(size) + 2 :]


# By a position


class Moves:
    """Amounts that move between accounts, each by several changes; a position goes before the first and comes with the last."""

    ACCOUNTS = 6

    def __init__(self, server, seed=2):
        self.server, self.draw, self.lsn = server, random.Random(seed), 1
        self.amounts = {account: 100 for account in range(self.ACCOUNTS)}
        self.at = {}
        self.ends = threading.Event()

    def define(self):
        with self.server.connect() as client:
            client.relation("accounts", int, int)
            client.relation("position", int)
            client.load("accounts", sorted(self.amounts.items()))
            client.add("position", self.lsn)
            client.query("q(account,amount) <- accounts(account,amount)")
            client.query("p(account) <- accounts(account,amount), amount > 100")
            client.query("done(lsn) <- position(lsn)")
        self.at[self.lsn] = self.state()

    def state(self):
        return frozenset(self.amounts.items())

    def move(self, client):
        client.delete("position", self.lsn)
        self.lsn += 1
        for account, change in zip(self.draw.sample(range(self.ACCOUNTS), 2), (7, -7)):
            client.delete("accounts", account, self.amounts[account])
            self.amounts[account] += change
            client.add("accounts", account, self.amounts[account])
        self.at[self.lsn] = self.state()
        client.add("position", self.lsn)

    def __enter__(self):
        self.ends.clear()
        self.thread = threading.Thread(target=self.go_on, daemon=True)
        self.thread.start()

    def __exit__(self, *_):
        self.ends.set()
        self.thread.join()

    def go_on(self):
        with self.server.connect() as client:
            while not self.ends.is_set():
                self.move(client)
                time.sleep(0.002)


def wait_for_more(states, more=20):
    count = len(states)
    wait_for(lambda: len(states) > count + more)


@test
def entries_are_transactions(program):
    draw = random.Random(4)
    with Server(program) as server, Redis() as there, there.connect() as client:
        moves = Moves(server)
        moves.define()
        with Proxy(server.port) as proxy, Writer(proxy, there, "--queries", "q,p", "--commit-on", "done") as writer:
            reader, states, ends = Reader(there.connect(), "djq:q"), [], threading.Event()

            def follow():
                while not ends.is_set():
                    with contextlib.suppress(redis.RedisError):
                        if reader.next(0.1) is not None:
                            states.append((reader.lsn, frozenset(reader.answers)))

            thread = threading.Thread(target=follow, daemon=True)
            thread.start()
            with moves:
                for _ in range(5):
                    wait_for_more(states)
                    writer.kill()
                    time.sleep(draw.uniform(0, 0.3))
                    writer.start()
                for _ in range(20):
                    wait_for_more(states, 2)
                    proxy.cut()
                wait_for_more(states)
                there.kill()
                there.start()
                wait_for_more(states)
            wait_for(lambda: present(client) == moves.state())
            wait_for(lambda: reader.answers == moves.state())
            wait_for(lambda: client.hget("djq:p:at", "lsn") == str(moves.lsn))
            ends.set()
            thread.join()
            expect(present(client, "djq:p"), {(account,) for account, amount in moves.state() if amount > 100})
            expect(client.hget("djq:q:at", "lsn"), str(moves.lsn))
            expect([lsn for lsn, state in states if lsn and state != moves.at[int(lsn)]], [], "entries that are no transaction")
            # a transaction that isn't whole isn't written, also by a writer that begins in its middle
            with server.connect() as changes:
                before = client.xlen("djq:q")
                changes.delete("position", moves.lsn)
                changes.add("accounts", 99, 1)
                writer.kill()
                writer.begun = False
                writer.start()
                time.sleep(1)
                expect((client.xlen("djq:q"), present(client)), (before, set(moves.state())))
                changes.delete("accounts", 99, 1)
                changes.add("accounts", 98, 1)
                changes.add("position", moves.lsn + 1)
                wait_for(lambda: present(client) == moves.state() | {(98, 1)})
                expect((client.xlen("djq:q"), client.hget("djq:q:at", "lsn")), (before + 1, str(moves.lsn + 1)))


@test
def a_transaction_is_whole_with_its_position(program):
    """A position that is a part of the change itself; its query was registered first, so its delta comes first."""
    with Server(program) as server, Redis() as there, there.connect() as client, server.connect() as changes:
        changes.relation("orders", int, int)
        changes.relation("position", int)
        changes.query("done(lsn) <- position(lsn)")
        changes.query("q(x,y) <- orders(x,y)")
        changes.add("position", 0)
        with Writer(server, there, "--queries", "q", "--commit-on", "done"):
            for number in range(1, 41):
                with changes.transaction() as change:
                    for line in range(5):
                        change.add("orders", number, line)
                    change.update("position", (number - 1,), (number,))
            wait_for(lambda: client.hget("djq:q:at", "lsn") == "40")
            found = entries(client)
            expect([entry.lsn for entry in found], [str(number) for number in range(1, 41)])
            expect([entry.came for entry in found], [frozenset((number, line) for line in range(5)) for number in range(1, 41)])


# The page


@test
def the_page_is_as_shown(program):
    with Server(program) as server, Redis() as there, there.connect() as client, tempfile.TemporaryDirectory() as folder:
        for name, command in (
            ("djq-shell", f"{sys.executable} -m djq.shell 127.0.0.1:{server.port}"),
            ("redis-cli", f'{shutil.which("redis-cli")} -p {there.port} "$@"'),
        ):
            path = os.path.join(folder, name)
            with open(path, "w", encoding="utf-8") as file:
                file.write(f"#!/bin/sh\nexec {command}\n")
            os.chmod(path, 0o755)
        environment = {**os.environ, "PATH": folder + ":" + os.environ["PATH"], "PYTHONPATH": CLIENT}

        def said(command):
            return subprocess.run(["sh", "-c", command], capture_output=True, text=True, env=environment, timeout=PATIENT).stdout

        def are_said(command, wanted):
            until = time.monotonic() + PATIENT
            while (told := said(command)).rstrip() != wanted.rstrip() and command.startswith("redis-cli"):
                assert time.monotonic() < until, (command, told, wanted)
                time.sleep(0.1)
            expect(told.rstrip(), wanted.rstrip(), command)

        ran = []
        with Writer(server, there, "--queries", "board", "--by", "1", begun=False), server.connect() as changes:
            names = {"server": changes, "client": client}
            for kind, block in pages.blocks("REDIS.md"):
                if kind == "sh":
                    for example in filter(None, re.split(r"^\$ ", block, flags=re.MULTILINE)):
                        are_said(*example.split("\n", 1))
                elif kind == "python":
                    pages.run_python("REDIS.md", block, names)
                ran.append(kind)
        expect((ran.count("sh"), ran.count("python")), (1, 1))


def main():
    program, names = os.path.abspath(sys.argv[1]), sys.argv[2:]
    counts = {"passed": 0, "failed": 0, "skipped": 0}
    for function in TESTS:
        if names and function.__name__ not in names:
            continue
        if LACKS:
            asked = os.environ.get("DJQ_NEIGHBOURS") == "1"
            print(f"{function.__name__}: {'needs' if asked else 'skipped, without'} {', '.join(LACKS)}")
            counts["failed" if asked else "skipped"] += 1
            continue
        began = time.monotonic()
        try:
            function(program)
            counts["passed"] += 1
        except Exception:  # noqa: BLE001
            print(f"{function.__name__}: {traceback.format_exc(limit=-3)}")
            counts["failed"] += 1
        if os.environ.get("TIMES") == "1":
            print(f"{function.__name__} took {time.monotonic() - began:.1f} s", flush=True)
    skipped = f", {counts['skipped']} skipped" if counts["skipped"] else ""
    print(f"{counts['passed']} passed, {counts['failed']} failed{skipped}")
    return 1 if counts["failed"] else 0


if __name__ == "__main__":
    if len(sys.argv) < 2:
        raise SystemExit(__doc__)
    sys.exit(main())
