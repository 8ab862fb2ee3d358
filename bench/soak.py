#!/usr/bin/env python3
"""A soak: fills a server and empties it again, and measures the memory that it has then beyond a fresh one.

    python3 bench/soak.py PROGRAM [--minutes N] [--scale S] [--hold MIB] [--only PART ..] [--seed N]

Each part has a server of its own and three thirds. At the end of each third every row is deleted, every query and union
dropped, every cursor closed, every session but one ended, and resident memory (VmRSS) is compared with that of the same
process before its first row. What is left then is relations without rows, and whatever the server doesn't return.

    rows            1,000,000 rows of two relations below a join, inserted and deleted 102 times
    deltas          a change of 500,000 answers of each of three watched queries, three times
    registrations   1,000 queries and 250 unions over 20,000 rows, some 200 at a time, watched and listed
    texts           1,000,000 different texts, each in a row that is deleted again
    sessions        60 sessions with 16 cursors, a batch of 1,000 long rows and half a line each, 30 times
    random          rows, texts, transactions, queries, unions, cursors, watches and sessions at random, for N minutes (60)

S scales these numbers, but not the minutes. A table is printed, and with `--hold MIB` the status is 1 if any third leaves
more than that. A wrong reply ends it with status 1 too: replies are compared with a model of the rows and of who uses
which query, deltas with listings, and before queries are dropped each has to be empty.

It needs Python's standard library. Where gcc is there, `in use` is what the program had from malloc and didn't free, at
the end: what resident memory has beyond that is free, but malloc didn't return it to the system.
"""

import argparse
import os
import random
import select
import shutil
import signal
import socket
import subprocess
import sys
import tempfile
import time

HERE = os.path.dirname(os.path.abspath(__file__))
sys.path.insert(0, os.path.join(HERE, "..", "tests"))
from serving import Server

MIB = 1 << 20
PATIENCE = 300  # seconds without a byte
BURST = 1000  # lines that the random part sends in one piece
TIDE = 50_000  # rows of a relation in the random part, at most
MOST_QUERIES, MOST_SESSIONS, MOST_CURSORS = 120, 8, 12


class Wrong(Exception):
    """A reply that isn't the right one."""


def require(holds, *words):
    if not holds:
        raise Wrong(" ".join(map(str, words)))


# ---------------------------------------------------------------- sessions


class Session:
    """A connection: lines that are to be sent, replies that were received, and the answers of what it watches."""

    def __init__(self, port):
        self.socket = socket.create_connection(("127.0.0.1", port))
        self.socket.setsockopt(socket.IPPROTO_TCP, socket.TCP_NODELAY, 1)
        self.socket.setblocking(False)
        self.unsent, self.rest, self.ended = memoryview(b""), b"", False
        self.replies, self.answers = [], []
        self.watched = {}  # by query, its answers as deltas change them
        self.seen = {}  # by query, the SEQ of its last delta

    def fileno(self):
        return self.socket.fileno()

    def send_some(self):
        self.unsent = self.unsent[self.socket.send(self.unsent[:65536]):]

    def receive_some(self):
        """The whole lines that are there, as one piece."""
        piece = self.socket.recv(MIB)
        self.ended = not piece
        whole, end, self.rest = (self.rest + piece).rpartition(b"\n")
        return whole + end

    def understand(self, lines):
        """Lines of deltas change the answers of what is watched; others are replies."""
        for line in lines.split(b"\n")[:-1]:
            if line[:1] == b"=":
                self.answers.append(line[2:])
            elif line.startswith((b"+ ", b"- ")):
                name, _, answer = line[2:].partition(b" ")
                known = self.watched[name]
                require((answer in known) == (line[:1] == b"-"), "a delta twice:", line)
                (known.add if line[:1] == b"+" else known.discard)(answer)
            elif line.startswith(b"at "):
                _, name, seq = line.split()
                self.seen[name] = int(seq)
            else:
                self.replies.append((self.answers, line))
                self.answers = []

    def receive(self):
        self.understand(self.receive_some())

    def leave(self):
        """Ends its input, and waits until the server has closed it."""
        self.socket.shutdown(socket.SHUT_WR)
        while not self.ended:
            require(select.select([self], [], [], PATIENCE)[0], "a session isn't closed")
            self.receive_some()
        self.socket.close()


def exchange(sessions, done, receive):
    """Sends what is unsent and receives what is sent, until it is done."""
    while not done():
        readable, writable, _ = select.select(sessions, [one for one in sessions if one.unsent], [], PATIENCE)
        require(readable or writable, "no byte for", PATIENCE, "seconds")
        for session in readable:
            receive(session)
            require(not session.ended, "a session was closed:", session.replies[-1:], session.rest)
        for session in writable:
            session.send_some()


def pour(session, lines, word):
    """Sends many lines; each reply begins with this word. The last reply."""
    session.unsent, received, last = memoryview(b"".join(lines)), 0, b""

    def receive(_):
        nonlocal received, last
        text = session.receive_some()
        count = text.count(b"\n")
        if count:
            others = [one for one in text.split(b"\n")[:-1] if word not in one] if text.count(word) != count else []
            require(not others, "in place of", word, "came", others[:1])
            received, last = received + count, text[text.rfind(b"\n", 0, -1) + 1:-1]

    exchange([session], lambda: received == len(lines), receive)
    return last


def replies_to(session, lines, others=()):
    """The replies to these lines, each the answers that were listed and a last line. Others are read meanwhile."""
    session.replies, session.unsent = [], memoryview(b"".join(lines))
    exchange([session, *others], lambda: len(session.replies) == len(lines), Session.receive)
    return session.replies


def run_line(session, line, reply, others=()):
    """One line that is answered by this reply, or by one that begins so, if it ends in `*`."""
    got = replies_to(session, [line + b"\n"], others)[0][1]
    require(fits(reply, got), line, "is answered by", got, "in place of", reply)


def fits(wanted, got):
    return got.startswith(wanted[:-1]) if wanted.endswith(b"*") else got == wanted


def listing(session, name, others=()):
    """All answers of a query."""
    run_line(session, b"open all " + name, b"ok open", others)
    found, last = [], b"more"
    while last == b"more":
        answers, last = replies_to(session, [b"next all 1000\n"], others)[0]
        found += answers
    require(last == b"end", "a listing ends by", last)
    run_line(session, b"close all", b"ok", others)
    require(len(set(found)) == len(found), name, "lists an answer twice")
    return found


# ---------------------------------------------------------------- what is measured


class Counted:
    """Servers that are started within it write what they have from malloc, if gcc is there."""

    def __enter__(self):
        self.folder = tempfile.TemporaryDirectory()
        self.path = os.path.join(self.folder.name, "bytes") if shutil.which("gcc") else None
        if self.path:
            library = os.path.join(self.folder.name, "in_use.so")
            source = os.path.join(HERE, "in_use.c")
            subprocess.run(["gcc", "-shared", "-fPIC", "-O1", "-Wall", "-Werror", "-o", library, source], check=True)
            os.environ.update(LD_PRELOAD=library, IN_USE=self.path)
        return self

    def __exit__(self, *_):
        if self.path:
            del os.environ["LD_PRELOAD"], os.environ["IN_USE"]
        self.folder.cleanup()

    def in_use(self, server):
        """The bytes, or None."""
        if not self.path:
            return None
        server.process.send_signal(signal.SIGUSR1)
        until, text = time.monotonic() + PATIENCE, ""
        while not text.endswith("\n"):
            require(time.monotonic() < until, "the bytes in use aren't written")
            time.sleep(0.01)
            if os.path.exists(self.path):
                with open(self.path, encoding="ascii") as file:
                    text = file.read()
        os.remove(self.path)
        return int(text)


class Run:
    """A part on a server of its own: its sizes, and the memory at each mark of each third."""

    def __init__(self, server, given, counted):
        self.server, self.scale, self.minutes, self.seed = server, given.scale, given.minutes, given.seed
        self.marks, self.each, self.unit, self.notes = [], 0, "", ""
        self.session().leave()
        self.fresh, self.counted = self.resident(), counted

    def resident(self):
        with open(f"/proc/{self.server.process.pid}/status", encoding="ascii") as file:
            return next(int(line.split()[1]) * 1024 for line in file if line.startswith("VmRSS:"))

    def session(self):
        return Session(self.server.port)

    def scaled(self, number, least=1):
        return max(least, round(number * self.scale))

    def thirds(self, each, unit):
        """Three times: the part fills and empties the server; `each` is how many of its unit a third has."""
        self.each, self.unit = each, unit
        for number in range(3):
            self.marks.append({})
            yield number
            self.mark("removed")

    def mark(self, name):
        self.marks[-1][name] = self.resident() - self.fresh

    def left(self):
        return [marks["removed"] for marks in self.marks]


# ---------------------------------------------------------------- parts


def rows(run):
    """The same rows again and again, below a join; each has about one partner."""
    count, rounds, session = run.scaled(1_000_000, 2) // 2, run.scaled(34, 2), run.session()
    made = [[b"%s %s %d %d\n" % (word, name, number, number * 7919 % count) for name in (b"r", b"s") for number in range(count)]
            for word in (b"add", b"del")]
    for name in (b"r", b"s"):
        run_line(session, b"rel %s int int" % name, b"ok")
    run.notes = f"{3 * rounds} times"
    for third in run.thirds(2 * count, "row"):
        run_line(session, b"query q(x,y,z) <- r(x,y), s(y,z)", b"ok query *")
        for number in range(rounds):
            pour(session, made[0], b"ok added ")
            if number + 1 == rounds:
                run.mark("full")
            last = pour(session, made[1], b"ok removed ")
        require(last == b"ok removed %d 0" % (4 * count * rounds * (third + 1)), "the last reply is", last)
        run.mark("rows deleted")
        require(listing(session, b"q") == [], "answers without rows")
        run_line(session, b"drop q", b"ok")


def deltas(run):
    """One row that makes each row of a join with each of b, in three queries with a watcher each."""
    names, session = (b"q0", b"q1", b"q2"), run.session()
    side = max(1, round((run.scaled(500_000) / 2) ** 0.5))
    most = 2 * side * side
    for line in (b"rel a int int", b"rel b int int", b"rel g int"):
        run_line(session, line, b"ok")
    for _ in run.thirds(3 * most, "answer"):
        rest = [b"a %d 0\n" % number for number in range(2 * side)] + [b"b %d 0\n" % number for number in range(side)]
        for name in names:
            run_line(session, b"query " + name + b"(x,y,z) <- g(z), a(x,z), b(y,z)", b"ok query *")
        pour(session, [b"add " + row for row in rest], b"ok added ")
        watchers = [run.session() for _ in names]
        for name, watcher in zip(names, watchers):
            watcher.watched[name] = set()
            run_line(watcher, b"watch " + name, b"ok watch *")
        run_line(session, b"add g 0", b"ok added *", watchers)
        # a session that sends a line while so much is pending for it would be ended
        exchange(watchers, lambda: all(watcher.seen for watcher in watchers), Session.receive)
        for name, watcher in zip(names, watchers):
            require(len(watcher.watched[name]) == most, name, "has", len(watcher.watched[name]), "answers")
            run_line(watcher, b"unwatch " + name, b"ok")
            watcher.leave()
        run.mark("full")
        pour(session, [b"del g 0\n"] + [b"del " + row for row in rest], b"ok removed ")
        run.mark("rows deleted")
        for name in names:
            require(listing(session, name) == [], "answers without rows")
            run_line(session, b"drop " + name, b"ok")


def registrations(run):
    """Queries and unions over rows that are there; the oldest are dropped as others are registered."""
    count, each, at_once, session = run.scaled(10_000, 10), run.scaled(1000, 300) // 3, 200, run.session()
    made = [b"%s %d %d\n" % (name, number, number * 7 % count) for name in (b"r", b"s") for number in range(count)]
    for name in (b"r", b"s"):
        run_line(session, b"rel %s int int" % name, b"ok")
    for _ in run.thirds(each, "registration"):
        pour(session, [b"add " + row for row in made], b"ok added ")
        there = []
        for number in range(each):
            there.append(b"q%d" % number)
            run_line(session, b"query %s(x,y,z) <- r(x,y), s(y,z), x >= -%d" % (there[-1], number), b"ok query *")
            if number % 4 == 3:
                there.append(b"u%d" % number)
                run_line(session, b"union %s q%d q%d" % (there[-1], number - 1, number - 3), b"ok union *")
            name = there[-1]
            for line in (b"watch ", b"unwatch ", b"open c "):
                run_line(session, line + name, b"ok*")
            require(replies_to(session, [b"next c 10\n"])[0][0] != [], "no answers of", name)
            run_line(session, b"close c", b"ok")
            if len(there) > at_once:
                drop_oldest(session, there)
        run.mark("full")
        pour(session, [b"del " + row for row in made], b"ok removed ")
        run.mark("rows deleted")
        while there:
            drop_oldest(session, there)


def drop_oldest(session, there):
    """A union is dropped before the members that were registered before it."""
    for name in sorted(there[:5], reverse=True):  # four queries and their union, which is named later in the alphabet
        require(replies_to(session, [b"drop %s\n" % name])[0][1] == b"ok", name, "isn't dropped")
    del there[:5]


def texts(run):
    """Each text is in one row, and in no row of a later third."""
    each, session, serial = run.scaled(1_000_000, 3) // 3, run.session(), 0
    run_line(session, b"rel r int text", b"ok")
    for _ in run.thirds(each, "text"):
        run_line(session, b"query q(x,t) <- r(x,t)", b"ok query *")
        made = [b'r %d "%032x"\n' % (number, (serial + number) * 0x9E3779B97F4A7C15) for number in range(each)]
        serial += each
        pour(session, [b"add " + row for row in made], b"ok added ")
        run.mark("full")
        pour(session, [b"del " + row for row in made], b"ok removed ")
        run.mark("rows deleted")
        require(listing(session, b"q") == [], "answers without rows")
        run_line(session, b"drop q", b"ok")


def sessions(run):
    """Sessions that leave in the middle of a line and of a batch, with cursors on a query."""
    count, held, rounds, session = 60, run.scaled(1000, 10), run.scaled(10, 2), run.session()
    rel = b"rel wide" + b" text" * 15
    for line in (b"rel r int", rel):
        run_line(session, line, b"ok")
    # few texts are different, since a server may not forget one; the lines are long all the same
    long = [b"add wide" + b' "%s"' % (b"%d" % number * 250)[:250] * 15 + b"\n" for number in range(10)]
    for _ in run.thirds(count * rounds, "session"):
        run_line(session, b"query q(x) <- r(x)", b"ok query *")
        pour(session, [b"add r %d\n" % number for number in range(100)], b"ok added ")
        for number in range(rounds):
            others = [run.session() for _ in range(count)]
            for other in others:
                replies_to(other, [line for at in range(16) for line in (b"open c%d q\n" % at, b"next c%d 2\n" % at)])
                run_line(other, b"batch", b"ok batch")
                pour(other, [long[at % 10] for at in range(held)], b"ok held ")
                other.unsent = memoryview(b"add wide " + b" " * 4000)
                other.send_some()
            if number + 1 == rounds:
                run.mark("full")
            for other in others:
                other.leave()
        pour(session, [b"del r %d\n" % number for number in range(100)], b"ok removed ")
        run.mark("rows deleted")
        require(listing(session, b"q") == [], "answers without rows")
        run_line(session, b"drop q", b"ok")


# ---------------------------------------------------------------- at random

RELATIONS = {b"a": b"int int", b"b": b"int int", b"c": b"int text", b"d": b"text int", b"e": b"int", b"f": b"text text int"}

# types of the head, the head, and the body; INT and TEXT are constants
SHAPES = [
    (b"int int", b"x,y", b"a(x,y)"),
    (b"int int", b"y,x", b"b(x,y), e(x)"),
    (b"int int", b"x,y", b"a(x,y), b(x,_), y != INT"),
    (b"int int int", b"x,y,z", b"a(x,y), b(y,z)"),
    (b"int int int", b"x,y,z", b"a(x,y), a(y,z)"),
    (b"int", b"x", b"a(x,_), e(x)"),
    (b"int", b"x", b"c(x,t), d(t,_)"),
    (b"int text", b"x,t", b"c(x,t), b(x,_)"),
    (b"int text", b"x,t", b"d(t,x), e(x), t != TEXT"),
    (b"text", b"t", b"c(_,t), f(t,_,n), n >= INT"),
    (b"text", b"t", b"d(t,_), f(_,t,_)"),
    (b"text text int", b"s,t,n", b"f(s,t,n), n < INT"),
    (b"int text int", b"x,t,y", b"c(x,t), d(t,y)"),
    (b"", b"", b"a(x,y), b(y,z)"),
]


class Bag:
    """Rows with their copies, one of which can be chosen at random."""

    def __init__(self):
        self.copies, self.rows, self.places = {}, [], {}

    def add(self, row):
        copies = self.copies.get(row, 0) + 1
        if copies == 1:
            self.places[row] = len(self.rows)
            self.rows.append(row)
        self.copies[row] = copies
        return copies

    def delete(self, row):
        """The copies that are left, of a row that is there."""
        self.copies[row] -= 1
        if self.copies[row]:
            return self.copies[row]
        del self.copies[row]
        last, place = self.rows.pop(), self.places.pop(row)
        if last != row:
            self.rows[place], self.places[last] = last, place
        return 0


class Client:
    """A session of the random part: its cursors by name, and what it watches."""

    def __init__(self, run):
        self.session, self.cursors = run.session(), {}


class Model:
    """What there should be, and how it is changed at random. One client sends at a time, and all are read."""

    def __init__(self, run, chance):
        self.run, self.chance, self.most = run, chance, run.scaled(TIDE, 300)
        self.bags, self.seq, self.serial = {name: Bag() for name in RELATIONS}, 0, 0
        self.changed = dict.fromkeys(RELATIONS, 0)  # by relation: the SEQ of its last change
        self.queries = {}  # by name: the types of its head, and the relations that it reads
        self.unions = {}  # by name: its members
        self.former = {}  # by name: an answer that was listed once
        self.clients = [Client(run)]
        self.counts = dict.fromkeys(("lines", "texts", "registrations", "cursors", "watches", "sessions"), 0)
        for name, types in RELATIONS.items():
            self.run_line(self.clients[0], b"rel %s %s" % (name, types), b"ok")

    # lines

    def others(self, client):
        return [one.session for one in self.clients if one is not client]

    def run_lines(self, client, said):
        """Lines with the reply that each should have; then the deltas that follow from them are received."""
        self.counts["lines"] += len(said)
        replies = replies_to(client.session, [line + b"\n" for line, _ in said], self.others(client))
        for (line, wanted), (_, got) in zip(said, replies):
            require(fits(wanted, got), line, "is answered by", got, "in place of", wanted)
        watchers = [one.session for one in self.clients if one.session.watched]
        exchange(watchers, lambda: all(map(self.is_up_to_date, watchers)), Session.receive)

    def is_up_to_date(self, session):
        """Whether it has the delta of the last change of each query that it watches."""
        return all(session.seen[name] >= max(self.changed[one] for one in self.reads(name)) for name in session.watched)

    def reads(self, name):
        """The relations that a query or a union reads."""
        members = self.unions.get(name, [name])
        return {one for member in members for one in self.queries[member][1]}

    def run_line(self, client, line, reply):
        self.run_lines(client, [(line, reply)])

    def listing(self, client, name):
        found = listing(client.session, name, self.others(client))
        if found:
            self.former[name] = found[0]
        return found

    # rows

    def value(self, kind):
        if kind == b"int":
            return b"%d" % self.chance.randrange(self.most // 2)
        if self.chance.random() < 0.7:  # one of a few that may join
            return b'"text %d"' % self.chance.randrange(self.most // 4)
        self.serial += 1
        self.counts["texts"] += 1
        return b'"never again %d"' % self.serial

    def add(self, name):
        """A row of a relation, mostly a new one, and the reply to its insertion."""
        bag = self.bags[name]
        if bag.rows and self.chance.random() < 0.1:
            row = self.chance.choice(bag.rows)
        else:
            row = b" ".join(map(self.value, RELATIONS[name].split()))
        copies = bag.add(row)
        if copies == 1:
            self.seq = self.changed[name] = self.seq + 1
        return b"add %s %s" % (name, row), b"ok added %d %d" % (self.seq, copies)

    def delete(self, name, row):
        copies = self.bags[name].delete(row)
        if copies == 0:
            self.seq = self.changed[name] = self.seq + 1
        return b"del %s %s" % (name, row), b"ok removed %d %d" % (self.seq, copies)

    def insert_some(self, client):
        name = self.chance.choice(list(RELATIONS))
        for _ in range(self.chance.randrange(1, 8)):
            room = self.most - len(self.bags[name].rows)
            self.run_lines(client, [self.add(name) for _ in range(min(room, self.chance.randrange(BURST)))])

    def delete_some(self, client):
        """Some rows of a relation, or all of them."""
        name = self.chance.choice(list(RELATIONS))
        bag = self.bags[name]
        least = 0 if self.chance.random() < 0.2 else len(bag.rows) * self.chance.random()
        while len(bag.rows) > least:
            self.run_lines(client, [self.delete(name, self.chance.choice(bag.rows)) for _ in range(BURST) if bag.rows])
        self.run_line(client, b"del e -1", b"ok absent %d" % self.seq)

    def transaction(self, client):
        """Rows are inserted and deleted as one change; now and then it is abandoned."""
        count = self.chance.randrange(1, 1000)
        if self.chance.random() < 0.3:
            lines = [b"%s e %d" % (self.chance.choice((b"add", b"del")), self.chance.randrange(self.most)) for _ in range(count)]
            ends = (b"abandon", b"ok")
        else:
            lines, moved = self.moved(count)
            ends = (b"done %d" % count, b"ok done %d %d" % (self.seq, moved))
        self.run_lines(client, [(b"batch", b"ok batch"), *((line, b"ok held %d" % at) for at, line in enumerate(lines, 1)), ends])

    def moved(self, count):
        """So many lines that insert and delete rows, and how many rows are inserted or deleted once all are done."""
        lines, copies, seq, changed = [], {}, self.seq, self.changed.copy()
        for _ in range(count):
            name = self.chance.choice(list(RELATIONS))
            bag = self.bags[name]
            if bag.rows and self.chance.random() < 0.4:
                row = self.chance.choice(bag.rows)
                copies.setdefault((name, row), bag.copies[row])
                line, _ = self.delete(name, row)
            else:
                line, _ = self.add(name)
                row = line.split(b" ", 2)[2]
                copies.setdefault((name, row), bag.copies[row] - 1)
            lines.append(line)
        moved = [name for (name, row), before in copies.items() if (before == 0) != (row not in self.bags[name].copies)]
        self.seq = seq + bool(moved)
        self.changed = {**changed, **dict.fromkeys(moved, self.seq)}
        return lines, len(moved)

    # queries

    def constant(self, body):
        return body.replace(b"INT", self.value(b"int")).replace(b"TEXT", self.value(b"text"))

    def register(self, client):
        if len(self.queries) + len(self.unions) >= MOST_QUERIES:
            return
        types, head, body = self.chance.choice(SHAPES)
        self.counts["registrations"] += 1
        name = b"q%d" % self.counts["registrations"]
        self.run_line(client, b"query %s(%s) <- %s" % (name, head, self.constant(body)), b"ok query *")
        self.queries[name] = types, {one for one in RELATIONS if one + b"(" in body}

    def unite(self, client):
        types = self.chance.choice(SHAPES)[0]
        alike = [name for name, (others, _) in self.queries.items() if others == types]
        if len(alike) < 2 or len(self.queries) + len(self.unions) >= MOST_QUERIES:
            return
        members = self.chance.sample(alike, min(len(alike), self.chance.randrange(2, 5)))
        self.counts["registrations"] += 1
        name = b"u%d" % self.counts["registrations"]
        self.run_line(client, b"union %s %s" % (name, b" ".join(members)), b"ok union *")
        self.unions[name] = members

    def some_query(self):
        return self.chance.choice([*self.queries, *self.unions] or [None])

    def in_use(self, name):
        users = any(name in one.cursors.values() or name in one.session.watched for one in self.clients)
        return users or any(name in members for members in self.unions.values())

    def drop(self, client, name=None):
        name = name or self.some_query()
        if name is None:
            return
        refused = self.in_use(name)
        self.run_line(client, b"drop " + name, b"err 14 in use" if refused else b"ok")
        if not refused:
            self.queries.pop(name, None)
            self.unions.pop(name, None)
            self.former.pop(name, None)

    # cursors and watches

    def open(self, client):
        name = self.some_query()
        if name is None or len(client.cursors) == MOST_CURSORS:
            return
        self.counts["cursors"] += 1
        cursor = b"c%d" % self.counts["cursors"]
        self.run_line(client, b"open %s %s" % (cursor, name), b"ok open")
        client.cursors[cursor] = name

    def read(self, client):
        for cursor in client.cursors:
            last = replies_to(client.session, [b"next %s 100\n" % cursor], self.others(client))[0][1]
            require(last in (b"more", b"end") or last.startswith(b"stale "), "next is answered by", last)

    def close(self, client):
        for cursor in [one for one in client.cursors if self.chance.random() < 0.5]:
            self.run_line(client, b"close " + cursor, b"ok")
            del client.cursors[cursor]

    def watch(self, client):
        name = self.some_query()
        if name is None or name in client.session.watched or len(client.session.watched) > 4:
            return
        self.counts["watches"] += 1
        client.session.watched[name], client.session.seen[name] = set(), self.seq
        self.run_line(client, b"watch " + name, b"ok watch %d" % self.seq)
        client.session.watched[name] = set(self.listing(client, name))

    def unwatch(self, client):
        """The listing before it began to watch and the deltas since are the present listing."""
        for name in [one for one in client.session.watched if self.chance.random() < 0.5]:
            found = self.listing(client, name)
            require(set(found) == client.session.watched[name], "deltas of", name, "don't add up to its listing")
            del client.session.watched[name]
            self.run_line(client, b"unwatch " + name, b"ok")

    # sessions

    def connect(self, _):
        if len(self.clients) < MOST_SESSIONS:
            self.counts["sessions"] += 1
            self.clients.append(Client(self.run))

    def disconnect(self, client):
        """One of the clients but the first ends, sometimes in the middle of a batch."""
        if client is self.clients[0]:
            return
        self.clients.remove(client)
        if self.chance.random() < 0.5:
            self.run_lines(client, [(b"batch", b"ok batch"), (b"add e 1", b"ok held 1")])
        client.session.leave()

    # all of it

    def step(self):
        ways = {self.insert_some: 5, self.delete_some: 5, self.transaction: 4, self.register: 4, self.unite: 1, self.drop: 4,
                self.open: 6, self.read: 2, self.close: 2, self.watch: 3, self.unwatch: 3, self.connect: 2, self.disconnect: 1}
        self.chance.choices(list(ways), list(ways.values()))[0](self.chance.choice(self.clients))

    def delete_all(self):
        for name, bag in self.bags.items():
            while bag.rows:
                said = [self.delete(name, bag.rows[-1]) for _ in range(BURST) if bag.rows]
                self.run_lines(self.chance.choice(self.clients), said)

    def are_empty(self):
        """No query lists an answer or has one that it had, and the deltas have taken out each."""
        client = self.clients[0]
        for name in [*self.queries, *self.unions]:
            former = self.former.get(name)
            require(listing(client.session, name, self.others(client)) == [], name, "lists answers without rows")
            if former is not None:
                self.run_line(client, b" ".join((b"has", name, former)).rstrip(), b"no")
        for one in self.clients:
            require(not any(one.session.watched.values()), "deltas leave answers without rows")

    def drop_all(self):
        for one in self.clients:
            for cursor in one.cursors:
                self.run_line(one, b"close " + cursor, b"ok")
            for name in list(one.session.watched):
                del one.session.watched[name]
                self.run_line(one, b"unwatch " + name, b"ok")
            one.cursors = {}
        for name in [*self.unions, *self.queries]:
            self.drop(self.clients[0], name)
        while len(self.clients) > 1:
            self.clients.pop().session.leave()


def at_random(run):
    chance = random.Random(run.seed)
    model = Model(run, chance)
    for _ in run.thirds(0, "text"):
        before, until = model.counts["texts"], time.monotonic() + 20 * run.minutes
        while time.monotonic() < until:
            model.step()
        run.mark("full")
        model.delete_all()
        run.mark("rows deleted")
        model.are_empty()
        model.drop_all()
        run.each = model.counts["texts"] - before
    run.notes = ", ".join(f"{count:,} {name}" for name, count in model.counts.items())


PARTS = {"rows": rows, "deltas": deltas, "registrations": registrations, "texts": texts, "sessions": sessions,
         "random": at_random}


# ---------------------------------------------------------------- the table


HEAD = """| part | of | full | rows deleted | all removed | 2nd third | 3rd | in use | bytes each | each later |
|---|---|---|---|---|---|---|---|---|---|"""


def row_of(name, run):
    """A part's line: MiB above a fresh process, and bytes for each of its unit, by the first third and by a later one."""
    mib = lambda size: "" if size is None else f"{size / MIB:.1f}"
    left, marks, in_use = run.left(), run.marks, run.counted.in_use(run.server)
    sizes = [marks[0]["full"], marks[0]["rows deleted"], *left, in_use]
    bytes_each = [left[0] / run.each, (left[2] - left[0]) / 2 / run.each] if run.each else [0, 0]
    cells = [name, f"{run.each:,} {run.unit}s", *map(mib, sizes), *(f"{size:,.0f}" for size in bytes_each)]
    return f"| {' | '.join(cells)} |"


def measure(name, given, counted):
    """Runs a part, and prints its line; what is to be said of it below the table, and the most that it left."""
    began = time.monotonic()
    with Server(os.path.abspath(given.program)) as server:
        run = Run(server, given, counted)
        try:
            PARTS[name](run)
        except Wrong as wrong:
            raise SystemExit(f"{name}: {wrong}") from None
        print(row_of(name, run), flush=True)
    words = [f"{name}: {time.monotonic() - began:.0f} s", f"a fresh process has {run.fresh / MIB:.1f} MiB", run.notes]
    return "; ".join(filter(None, words)), max(run.left())


def main():
    words = argparse.ArgumentParser(description=__doc__.splitlines()[0])
    words.add_argument("program")
    words.add_argument("--minutes", type=float, default=60, help="how long the random part runs")
    words.add_argument("--scale", type=float, default=1, help="of the other parts' numbers")
    words.add_argument("--hold", type=float, metavar="MIB", help="fail if a third leaves more than that")
    words.add_argument("--only", nargs="+", choices=PARTS, default=list(PARTS), help="which parts are run")
    words.add_argument("--seed", type=int, default=1, help="of the random part")
    given = words.parse_args()
    print(HEAD, flush=True)
    notes, over = [], []
    with Counted() as counted:
        for name in given.only:
            note, most = measure(name, given, counted)
            notes.append(note)
            if given.hold is not None and most > given.hold * MIB:
                over.append(f"{name}: {most / MIB:.1f} MiB above a fresh process, {given.hold:g} at most are wanted")
    print("", *notes, *over, sep="\n")
    return 1 if over else 0


if __name__ == "__main__":
    sys.exit(main())
