#!/usr/bin/env python3
"""What djq costs on this machine, beside SQLite: python3 bench/bench.py PROGRAM [--rows N] [--runs R] [--only NAME ..].

Each part makes a stream of lines, feeds it to PROGRAM over a pipe, and gives SQLite the same work, in memory, with
triggers that log each answer that comes or goes; then both are compared, answer by answer. Each part runs with N rows
and with 4N. README.md beside this file says how to read the table. Standard library alone; nothing is kept.
"""

import argparse
import collections
import contextlib
import os
import random
import select
import shutil
import socket
import sqlite3
import statistics
import subprocess
import sys
import tempfile
import threading
import time

sys.path.insert(0, os.path.join(os.path.dirname(os.path.abspath(__file__)), "..", "clients", "python"))
import djq  # noqa: E402

HELD = 1000  # rows of a transaction
UPDATES = 5000  # rows that are replaced
LOGGED = 200  # rows that are added alone to a server with a log
REGISTERED = 2_000_000  # rows over which a query is registered while another session waits
SENTINEL = b"no command"  # a line that is answered by LAST alone, within a batch too
LAST = b"err 1 syntax\n"
LOG = "create table log(sign, a, b, c, d);"


# The program over a pipe, and SQLite


class Session:
    """One session of `PROGRAM run`, over pipes; by another program where its words are given before."""

    def __init__(self, program, before=()):
        self.process = subprocess.Popen(
            [*before, program, "run"], stdin=subprocess.PIPE, stdout=subprocess.PIPE, bufsize=0
        )

    def __enter__(self):
        return self

    def __exit__(self, *_error):
        self.process.stdin.close()
        self.process.stdout.read()
        self.process.wait()
        self.process.stdout.close()

    def feed(self, lines):
        """Sends lines in one piece; gives the seconds until all is answered, and the lines of the answer."""
        text = ("\n".join(lines) + "\n").encode() + SENTINEL + b"\n"
        pieces, tail = [], b""
        writer = threading.Thread(target=self._write, args=(text,))
        begin = time.perf_counter()
        writer.start()
        while not tail.endswith(LAST):
            piece = self.process.stdout.read(1 << 20)
            if not piece:
                raise SystemExit("the program ended")
            pieces.append(piece)
            tail = (tail + piece)[-len(LAST) :]
        seconds = time.perf_counter() - begin
        writer.join()
        return seconds, b"".join(pieces)[: -len(LAST)].decode().split("\n")[:-1]

    def _write(self, text):
        view = memoryview(text)
        while view:
            view = view[self.process.stdin.write(view) :]

    def bytes(self):
        """The resident bytes of the program."""
        with open(f"/proc/{self.process.pid}/status", encoding="ascii") as status:
            return next(int(line.split()[1]) * 1024 for line in status if line.startswith("VmRSS:"))


def base_of(script):
    base = sqlite3.connect(":memory:", isolation_level=None)
    base.executescript(LOG + script)
    return base


def base_bytes(base):
    return base.execute("select page_count * page_size from pragma_page_count, pragma_page_size").fetchone()[0]


def statements(changes):
    """SQLite's statements for some changes: a row that is there has one copy more, or one less, and a trigger deletes it
    with its last."""
    words = {}
    for table in sorted({table for _, table, _ in changes}):
        wanted = " and ".join(f"{name} = ?" for name in ("x", "y"))
        words["add", table] = f"insert into {table}(x, y) values (?, ?) on conflict do update set copies = copies + 1"
        words["del", table] = f"update {table} set copies = copies - 1 where {wanted}"
    return words


def apply(base, changes, at_once=1):
    """Gives SQLite the changes, one after another, or so many a transaction, and reads what its triggers logged; gives
    the seconds, and the log."""
    words = statements(changes)
    base.execute("delete from log")
    begin = time.perf_counter()
    for at, (word, table, row) in enumerate(changes):
        if at_once > 1 and at % at_once == 0:
            if at:
                base.execute("commit")
            base.execute("begin")
        base.execute(words[word, table], row)
    if at_once > 1:
        base.execute("commit")
    log = base.execute("select * from log order by rowid").fetchall()
    return time.perf_counter() - begin, log


def lines_of(changes):
    return [f"{word} {table} " + " ".join(map(str, row)) for word, table, row in changes]


def deltas_of_lines(lines):
    """What the program told for each change: the set of the answers that came and went, with the watched queries' names."""
    deltas, told = [], set()
    for line in lines:
        if line.startswith("ok "):
            deltas.append(told)
            told = set()
        elif not line.startswith("at "):
            sign, _, *values = line.split(" ")
            told.add((sign, *map(int, values)))
    return deltas


def deltas_of_log(log, width):
    """The same of SQLite's log, in which a row `at` ends what a change brought."""
    deltas, told = [], set()
    for sign, *values in log:
        if sign == "at":
            deltas.append(told)
            told = set()
        else:
            told.add((sign, *values[:width]))
    return deltas


def answers_of(lines):
    return sorted(tuple(map(int, line[2:].split(" "))) for line in lines if line.startswith("= "))


def same(ours, theirs, what):
    if ours != theirs:
        raise SystemExit(f"{what}: djq and SQLite tell different answers")


def listing(cursor, query, answers):
    """The lines that list so many answers."""
    return [f"open {cursor} {query}"] + [f"next {cursor} 1000"] * (answers // 1000 + 1) + [f"close {cursor}"]


# The parts: each gives rows of (what, value, SQLite's value, unit) for a number of rows


TABLE = """create table {0}(x, y, copies default 1, primary key (x, y)) without rowid;
    create trigger {0}last after update of copies on {0} when new.copies = 0 begin
      delete from {0} where x = new.x and y = new.y; end;"""
PAIR = TABLE + "create index {0}y on {0}(y, x);"


def pairs(count, groups, seed):
    """Different pairs of integers whose second one has so many values."""
    chance = random.Random(seed)
    rows = [(at, chance.randrange(groups)) for at in range(count)]
    chance.shuffle(rows)
    return rows


def load(program, count):
    """Rows without a query."""
    changes = [("add", "r", row) for row in pairs(count, count, 1)]
    with Session(program) as session:
        session.feed(["rel r int int"])
        before = session.bytes()
        ours, told = session.feed(lines_of(changes))
        same(told, [f"ok added {at + 1} 1" for at in range(count)], "load")
        memory = (session.bytes() - before) / count
    base = base_of(TABLE.format("r"))
    theirs, _ = apply(base, changes)
    yield "load: add a row, no query", ours / count, theirs / count, "ns"
    yield "load: memory", memory, base_bytes(base) / count, "bytes a row"


JOIN = ["rel r int int", "rel s int int", "query q(x,y,z) <- r(x,y), s(y,z)"]
JOIN_BASE = (
    PAIR.format("r") + PAIR.format("s") + """
    create trigger ri after insert on r begin
      insert into log select '+', new.x, new.y, y, null from s where x = new.y; end;
    create trigger si after insert on s begin
      insert into log select '+', x, new.x, new.y, null from r where y = new.x; end;"""
)  # fmt: skip


def join_rows(count):
    """Rows of the two relations of a join, in turns, about one partner each."""
    half, changes = count // 2, []
    for (x, y), (z, w) in zip(pairs(half, half, 2), pairs(half, half, 3)):
        changes += [("add", "r", (x, y)), ("add", "s", (w, z))]
    return changes


def join(program, count):
    """Rows below a join of two atoms; then a listing of it, and its rows go again."""
    changes = join_rows(count)
    gone = [("del", table, row) for _, table, row in changes]
    base = base_of(JOIN_BASE)
    theirs, _ = apply(base, changes)
    taken = base_bytes(base) / count
    begin = time.perf_counter()
    expected = base.execute("select r.x, r.y, s.y from r join s on r.y = s.x").fetchall()
    their_listing = time.perf_counter() - begin
    their_removal, _ = apply(base, gone)
    with Session(program) as session:
        session.feed(JOIN)
        before = session.bytes()
        ours, _ = session.feed(lines_of(changes))
        memory = (session.bytes() - before) / count
        our_listing, told = session.feed(listing("c", "q", len(expected)))
        same(answers_of(told), sorted(expected), "join")
        our_removal, _ = session.feed(lines_of(gone))
    yield "join: add a row below q(x,y,z) <- r(x,y), s(y,z)", ours / count, theirs / count, "ns"
    yield "join: memory", memory, taken, "bytes a row"
    yield "join: list all, an answer", our_listing / len(expected), their_listing / len(expected), "ns"
    yield "join: delete a row", our_removal / count, their_removal / count, "ns"


def copies(program, count):
    """Each row below a watched join comes a second time, and one of its two copies goes: nothing is told of either."""
    half = count // 2
    fill = [("add", "r", row) for row in pairs(half, half, 2)]
    fill += [("add", "s", (w, z)) for z, w in pairs(half, half, 3)]
    changes = fill + [("del", table, row) for _, table, row in fill]
    with Session(program) as session:
        session.feed(JOIN + lines_of(fill) + ["watch q"])
        ours, told = session.feed(lines_of(changes))
        same(told, [f"ok {what}" for what in [f"added {count} 2"] * count + [f"removed {count} 1"] * count], "copies")
    base = base_of(JOIN_BASE)
    apply(base, fill)
    theirs, log = apply(base, changes)
    same(log, [], "copies")
    yield "copies: one copy more of a row, or one of two less", ours / len(changes), theirs / len(changes), "ns"


def batches(program, count):
    """Rows below a watched join, each alone and by batches, of which each is told as one delta."""
    half = count // 2
    fill = [("add", "s", (w, z)) for z, w in pairs(half, half, 3)]
    changes = [("add", "r", row) for row in pairs(half, half, 2)]
    rows = lines_of(changes)
    batched = [line for at in range(0, half, HELD) for line in ["batch", *rows[at : at + HELD], "done"]]
    for how, said, at_once in (("each alone", rows, 1), (f"by batches of {HELD:,}", batched, HELD)):
        with Session(program) as session:
            session.feed(JOIN + lines_of(fill) + ["watch q"])
            ours, told = session.feed(said)
        base = base_of(JOIN_BASE)
        apply(base, fill)
        theirs, log = apply(base, changes, at_once)
        deltas = deltas_of_lines([line for line in told if not line.startswith(("ok batch", "ok held "))])
        same(len(deltas), -(-half // at_once), "batches")
        same(set().union(*deltas), {row[:4] for row in log}, "batches")
        yield f"batches: add a row below a watched join, {how}", ours / half, theirs / half, "ns"


UPDATE_BASE = (
    PAIR.format("r") + PAIR.format("s") + """
    create trigger rd after delete on r begin
      insert into log select '-', old.x, old.y, y, null from s where x = old.y; end;
    create trigger ri after insert on r begin
      insert into log select '+', new.x, new.y, y, null from s where x = new.y;
      insert into log(sign) values ('at'); end;"""
)  # fmt: skip


def update_changes(count):
    """The rows of the two relations of a join, and changes of which each two replace a row of the first one."""
    half, chance, changes = count // 2, random.Random(7), []
    rows = dict(pairs(half, half, 2))
    fill = [("add", "r", row) for row in rows.items()] + [("add", "s", (w, z)) for z, w in pairs(half, half, 3)]
    for _ in range(min(half, UPDATES)):
        x = chance.randrange(half)
        changes.append(("del", "r", (x, rows[x])))
        rows[x] = (rows[x] + 1 + chance.randrange(half - 1)) % half
        changes.append(("add", "r", (x, rows[x])))
    return fill, changes


def updates(program, count):
    """Rows below a watched join that are replaced, each by a transaction, of which one delta is told."""
    fill, changes = update_changes(count)
    lines = lines_of(changes)
    said = [line for at in range(0, len(lines), 2) for line in ["batch", *lines[at : at + 2], "done 2"]]
    with Session(program) as session:
        session.feed(JOIN + lines_of(fill) + ["watch q"])
        ours, told = session.feed(said)
    base = base_of(UPDATE_BASE)
    apply(base, fill)
    theirs, log = apply(base, changes, 2)
    deltas = deltas_of_lines([line for line in told if not line.startswith(("ok batch", "ok held "))])
    same(deltas, deltas_of_log(log, 3), "updates")
    yield "updates: replace a row below a watched join", ours / len(deltas), theirs / len(deltas), "ns"


def register(program, count):
    """A query over rows that are there already, which all sessions wait for; SQLite makes its two indexes over them."""
    half = count // 2
    changes = [("add", "r", row) for row in pairs(half, half, 2)]
    changes += [("add", "s", (w, z)) for z, w in pairs(half, half, 3)]
    with Session(program) as session:
        session.feed(JOIN[:2] + lines_of(changes))
        ours, told = session.feed(JOIN[2:])
        same(told, ["ok query 7"], "register")
    base = base_of("".join(map(TABLE.format, "rs")))
    apply(base, changes)
    begin = time.perf_counter()
    base.executescript("create index ry on r(y, x); create index sx on s(y, x);")
    yield "register: a query over all rows", ours, time.perf_counter() - begin, "ms"


def dead_end_rows(count):
    """Rows of a path of three atoms, of which nearly every one of the middle has a partner on one side only."""
    half = count // 4 * 2
    rows = [(table, (at, at)) for table in "rt" for at in range(0, half, 2)]
    rows += [("s", (at, at + 1) if at % 2 == 0 else (at, at - 1)) for at in range(half)]
    rows += [("s", (at, at)) for at in range(half - 20, half, 2)]
    random.Random(4).shuffle(rows)
    return [("add", table, row) for table, row in rows]


PATH_BASE = "".join(map(PAIR.format, "rst")) + "create trigger n after insert on r when 0 begin select 0; end;"
FIRST_OF_PATH = "select r.x, s.x, t.x, t.y from r, s, t where r.y = s.x and s.y = t.x limit "


def dead_ends(program, count):
    """The first ten answers, where a search by trying meets dead ends."""
    changes = dead_end_rows(count)
    path = "query p(a,b,c,d) <- r(a,b), s(b,c), t(c,d)"
    times = 1000
    with Session(program) as session:
        session.feed(["rel r int int", "rel s int int", "rel t int int", path])
        session.feed(lines_of(changes))
        _, told = session.feed(["open c p", "next c 20", "close c"])
        ours, _ = session.feed(["open c p", "next c 10", "close c"] * times)
    base = base_of(PATH_BASE)
    apply(base, changes)
    base.execute("analyze")
    wanted = FIRST_OF_PATH + "?"
    same(answers_of(told), sorted(base.execute(wanted, (20,))), "dead ends")
    begin = time.perf_counter()
    for _ in range(3):
        base.execute(wanted, (10,)).fetchall()
    theirs = time.perf_counter() - begin
    yield "dead ends: open, first 10 answers, close", ours / times, theirs / 3, "ns"


FAN_BASE = "".join(map(PAIR.format, "rst")) + """
    create trigger si after insert on s begin
      insert into log select '+', r.x, new.x, new.y, t.y from r, t where r.y = new.x and t.x = new.y;
      insert into log(sign) values ('at'); end;
    create trigger sd after delete on s begin
      insert into log select '-', r.x, old.x, old.y, t.y from r, t where r.y = old.x and t.x = old.y;
      insert into log(sign) values ('at'); end;"""


def fan_changes(count):
    """The rows at both ends of a path of three atoms, and changes of its middle, each of which brings or takes sixteen answers."""
    groups = count // 8
    fill = [("add", "r", (4 * at + k, at)) for at in range(groups) for k in range(4)]
    fill += [("add", "t", (at, 4 * at + k)) for at in range(groups) for k in range(4)]
    chance, changes = random.Random(5), []
    for _ in range(min(groups, 5000)):
        row = (chance.randrange(groups), chance.randrange(groups))
        changes += [("add", "s", row), ("del", "s", row)]
    return fill, changes


def fan_out(program, count):
    """A watched path of three atoms: each change of the middle brings or takes sixteen answers."""
    fill, changes = fan_changes(count)
    with Session(program) as session:
        session.feed(["rel r int int", "rel s int int", "rel t int int", "query p(a,b,c,d) <- r(a,b), s(b,c), t(c,d)"])
        session.feed(lines_of(fill))
        session.feed(["watch p"])
        ours, told = session.feed(lines_of(changes))
    base = base_of(FAN_BASE)
    apply(base, fill)
    theirs, log = apply(base, changes)
    deltas = deltas_of_lines(told)
    same(deltas, deltas_of_log(log, 4), "fan-out")
    same({len(delta) for delta in deltas}, {16}, "fan-out")
    number = len(changes)
    yield "fan-out: a watched change that tells 16 answers", ours / number, theirs / number, "ns"
    yield "fan-out: answers told", 16 * number / ours, 16 * number / theirs, "a second"


HIERARCHICAL_BASE = "".join(map(PAIR.format, "rs")) + "".join(
    f"""
    create trigger {one}{when} after {event} on {one} begin
      insert into log select '{sign}', {row}.x, null, null, null
        where not exists (select 1 from {one} where x = {row}.x and y <> {row}.y)
        and exists (select 1 from {other} where x = {row}.x);
      insert into log(sign) values ('at'); end;"""
    for one, other in ("rs", "sr")
    for when, event, sign, row in (("i", "insert", "+", "new"), ("d", "delete", "-", "old"))
)


def hierarchical(program, count):
    """A watched q-hierarchical query, whose changes cost the same whatever there is: h(x) <- r(x,y), s(x,z)."""
    groups = count // 8
    chance = random.Random(6)
    draw = lambda: (chance.choice("rs"), (chance.randrange(groups), chance.randrange(16)))
    rows = set()
    while len(rows) < count:
        rows.add(draw())
    changes = []
    for _ in range(min(count, 20_000)):
        table, row = draw()
        changes.append(("del" if (table, row) in rows else "add", table, row))
        rows ^= {(table, row)}
    fill = [("add", table, row) for table, row in sorted(rows.symmetric_difference(odd(changes)))]
    with Session(program) as session:
        session.feed(["rel r int int", "rel s int int", "query h(x) <- r(x,_), s(x,_)"])
        session.feed(lines_of(fill))
        session.feed(["watch h"])
        ours, told = session.feed(lines_of(changes))
    base = base_of(HIERARCHICAL_BASE)
    apply(base, fill)
    theirs, log = apply(base, changes)
    same(deltas_of_lines(told), deltas_of_log(log, 1), "hierarchical")
    yield "hierarchical: a watched change of h(x) <- r(x,_), s(x,_)", ours / len(changes), theirs / len(changes), "ns"


def odd(changes):
    """The rows that come or go an odd number of times."""
    rows = set()
    for _, table, row in changes:
        rows ^= {(table, row)}
    return rows


def many_queries(program, count):
    """64 watched queries on one relation, of which each change is told to all and changes the answers of one."""
    fill = [("add", "r", (at, at % 64)) for at in range(count // 4)]
    changes = [(word, "r", (count + at, at % 64)) for at in range(min(count, 2500)) for word in ("add", "del")]
    with Session(program) as session:
        session.feed(["rel r int int"] + [f"query w{at}(x) <- r(x,{at})" for at in range(64)])
        session.feed(lines_of(fill))
        session.feed([f"watch w{at}" for at in range(64)])
        ours, told = session.feed(lines_of(changes))
    base = base_of(PAIR.format("r") + "".join(
        f"""create trigger i{at} after insert on r when new.y = {at} begin
              insert into log values ('+', new.x, null, null, null); insert into log(sign) values ('at'); end;
            create trigger d{at} after delete on r when old.y = {at} begin
              insert into log values ('-', old.x, null, null, null); insert into log(sign) values ('at'); end;"""
        for at in range(64)
    ))  # fmt: skip
    apply(base, fill)
    theirs, log = apply(base, changes)
    same(deltas_of_lines(told), deltas_of_log(log, 1), "64 queries")
    same(sum(line.startswith("at ") for line in told), 64 * len(changes), "64 queries")
    yield "64 queries: a change that all 64 watched queries read", ours / len(changes), theirs / len(changes), "ns"


def untouched(program, count):
    """Adds to a relation that no query reads, with nothing else there, and beside a watched join."""
    changes = [("add", "t", (at, at)) for at in range(count)]
    measured = []
    for lines in (["rel t int int"], JOIN + ["rel t int int", "add r 1 1", "add s 1 1", "watch q"]):
        with Session(program) as session:
            session.feed(lines)
            seconds, told = session.feed(lines_of(changes))
            same(len(told), count, "untouched")
            measured.append(seconds)
    base = base_of(JOIN_BASE + TABLE.format("t"))
    theirs, log = apply(base, changes)
    same(log, [], "untouched")
    yield "untouched: add to a relation, no query", measured[0] / count, theirs / count, "ns"
    yield "untouched: the same beside a watched query on others", measured[1] / count, theirs / count, "ns"


MEMBERS = [f"m{at}" for at in range(4)]  # of a union; each has half of its answers in common with the next one
UNION = [f"rel {name} int int" for name in MEMBERS] + [f"query {name}(x,y) <- {name}(x,y)" for name in MEMBERS]
UNION.append(" ".join(["union u", *MEMBERS]))


def union_trigger(name, event, sign, row):
    """Logs an answer that comes or goes where no other member has it."""
    without = "not exists (select 1 from {} where x = {}.x and y = {}.y)"
    others = [without.format(other, row, row) for other in MEMBERS if other != name]
    return f"""create trigger {name}{event} after {event} on {name} begin
      insert into log select '{sign}', {row}.x, {row}.y, null, null where {" and ".join(others)};
      insert into log(sign) values ('at'); end;"""


def union_by_sqlite(there, changes):
    """The seconds for the first ten answers, for all and for the changes; all answers, and what the changes told."""
    triggers = [union_trigger(name, *of) for name in MEMBERS for of in (("insert", "+", "new"), ("delete", "-", "old"))]
    base = base_of("".join(map(TABLE.format, MEMBERS)) + "".join(triggers))
    apply(base, there)
    wanted = " union ".join(f"select x, y from {name}" for name in MEMBERS)
    begin = time.perf_counter()
    base.execute(f"select * from ({wanted}) limit 10").fetchall()
    first = time.perf_counter() - begin
    begin = time.perf_counter()
    expected = base.execute(wanted).fetchall()
    whole = time.perf_counter() - begin
    seconds, log = apply(base, changes)
    return (first, whole, seconds), sorted(expected), deltas_of_log(log, 2)


def members_listed(session, each):
    """What a client does that has no union: it lists the members one after another, and drops what it has already."""
    seconds, told = session.feed([line for name in MEMBERS for line in listing("c", name, each)])
    begin = time.perf_counter()
    answers = {line for line in told if line.startswith("= ")}
    return seconds + time.perf_counter() - begin, answers


def members_counted(session, there, lines):
    """The same for changes: it watches the members, and counts for each answer how many of them have it."""
    held = collections.Counter(" ".join(map(str, row)) for _, _, row in there)
    session.feed([f"watch {name}" for name in MEMBERS])
    seconds, told = session.feed(lines)
    begin = time.perf_counter()
    deltas, delta = [], []
    for line in told:
        sign, _, answer = line.split(" ", 2)
        if sign in ("+", "-"):
            before = held[answer]
            held[answer] += 1 if sign == "+" else -1
            if not before or not held[answer]:
                delta.append((sign, answer))
        elif sign == "ok":
            deltas.append(delta)
            delta = []
    seconds += time.perf_counter() - begin
    return seconds, [{(sign, *map(int, answer.split(" "))) for sign, answer in delta} for delta in deltas]


def union(program, count):
    """A union of four members of N/2 answers each, of which each shares half of its answers with the next; beside it
    what a client does that lists and watches the members itself."""
    each, times = count // 2, 300
    places = [(name, at * each // 2) for at, name in enumerate(MEMBERS)]
    there = [("add", name, (x, x)) for name, begin in places for x in range(begin, begin + each)]
    chance = random.Random(9)
    chance.shuffle(there)
    moved = [chance.randrange(each) for _ in range(min(each, 2500))]
    changes = [(word, MEMBERS[0], (x, x)) for x in moved for word in ("del", "add")]
    theirs, expected, deltas = union_by_sqlite(there, changes)
    with Session(program) as session:
        session.feed(UNION + lines_of(there))
        first, told = session.feed(["open c u", "next c 10", "close c"] * times)
        same(sum(line.startswith("= ") for line in told), 10 * times, "union")
        of_member, _ = session.feed([f"open c {MEMBERS[0]}", "next c 10", "close c"] * times)
        whole, told = session.feed(listing("c", "u", len(expected)))
        same(answers_of(told), expected, "union")
        listed, told = members_listed(session, each)
        same(answers_of(told), expected, "union")
        session.feed(["watch u"])
        ours, told = session.feed(lines_of(changes))
        same(deltas_of_lines(told), deltas, "union")
        session.feed(["unwatch u"])
        counted, told = members_counted(session, there, lines_of(changes))
        same(told, deltas, "union")
    answers, number = len(expected), len(changes)
    yield "union: open, first 10 answers, close", first / times, theirs[0], "ns"
    yield "union: the same of its first member", of_member / times, theirs[0], "ns"
    yield "union: list all, an answer", whole / answers, theirs[1] / answers, "ns"
    yield "union: list its members and drop repeats, an answer", listed / answers, theirs[1] / answers, "ns"
    yield "union: a watched change", ours / number, theirs[2] / number, "ns"
    yield "union: a change, its members watched and counted", counted / number, theirs[2] / number, "ns"


PARTS = {
    "load": load,
    "join": join,
    "copies": copies,
    "batches": batches,
    "updates": updates,
    "register": register,
    "dead-ends": dead_ends,
    "fan-out": fan_out,
    "hierarchical": hierarchical,
    "64-queries": many_queries,
    "untouched": untouched,
    "union": union,
}


# Over loopback


class Server:
    """`PROGRAM serve` on a free port of loopback."""

    def __init__(self, program, *words):
        with socket.create_server(("127.0.0.1", 0)) as free:
            self.port = free.getsockname()[1]
        self.process = subprocess.Popen([program, "serve", f"127.0.0.1:{self.port}", *words])

    def __enter__(self):
        self.clients = []
        self.connect()
        return self

    def __exit__(self, *_error):
        for client in self.clients:
            client.close()
        self.process.kill()
        self.process.wait()

    def connect(self):
        self.clients.append(connected(self.port))
        return self.clients[-1]

    def processor(self):
        """The nanoseconds that the program was on a processor."""
        with open(f"/proc/{self.process.pid}/schedstat", encoding="ascii") as file:
            return int(file.read().split()[0])


def connected(port):
    """A connection, once there is a listener."""
    until = time.monotonic() + 10
    while True:
        try:
            client = socket.create_connection(("127.0.0.1", port))
            client.setsockopt(socket.IPPROTO_TCP, socket.TCP_NODELAY, 1)
            return client
        except ConnectionRefusedError:
            if time.monotonic() > until:
                raise
            time.sleep(0.02)


def ask(client, text, lines=1):
    """Sends text and waits for so many lines."""
    client.sendall(text)
    return hear(client, lines)


def pour(client, text, lines):
    """Sends as fast as it is taken, and reads so many lines meanwhile."""
    sender = threading.Thread(target=client.sendall, args=(text,))
    sender.start()
    hear(client, lines)
    sender.join()


def hear(client, lines):
    """Waits for so many lines."""
    pieces = []
    while lines > 0:
        pieces.append(client.recv(65536))
        if not pieces[-1]:
            raise SystemExit("the connection was closed")
        lines -= pieces[-1].count(b"\n")
    return b"".join(pieces)


def waiting(program, count):
    """One client that waits for each reply."""
    with Server(program) as server:
        client = server.clients[0]
        ask(client, b"rel r int\n")
        begin = time.perf_counter()
        for at in range(count):
            ask(client, b"add r %d\n" % at)
        yield "one client that waits for each reply", count / (time.perf_counter() - begin), "replies a second"


def pipelining(program, count):
    """Clients that send many lines at once, beside others that say nothing."""
    for number, others in ((1, 0), (1, 63), (8, 0), (64, 0)):
        with Server(program) as server:
            ask(server.clients[0], b"rel r int int\n")
            clients = [server.clients[0]] + [server.connect() for _ in range(number - 1)]
            for _ in range(others):
                server.connect()
            each = count // number
            due = {}
            for at, client in enumerate(clients):
                client.setblocking(False)
                due[client] = [b"".join(b"add r %d %d\n" % (at, row) for row in range(each)), each]
            begin = time.perf_counter()
            while due:
                readable, writable, _ = select.select(due, [client for client in due if due[client][0]], [])
                for client in writable:
                    due[client][0] = due[client][0][client.send(due[client][0][:65536]) :]
                for client in readable:
                    due[client][1] -= client.recv(1 << 20).count(b"\n")
                    if due[client][1] == 0:
                        del due[client]
            seconds = time.perf_counter() - begin
            beside = f" beside {others} idle" if others else ""
            yield f"{number} that send many lines at once{beside}", each * number / seconds, "replies a second"


def latency(program, count):
    """From an add in one session to the delta in another."""
    with Server(program) as server:
        one, two = server.clients[0], server.connect()
        ask(one, b"rel r int\nquery q(x) <- r(x)\n", 2)
        if not ask(two, b"watch q\n").startswith(b"ok watch"):
            return
        taken = []
        for at in range(min(count, 5000)):
            begin = time.perf_counter()
            one.sendall(b"add r %d\n" % at)
            same(hear(two, 2), b"+ q %d\nat q %d\n" % (at, at + 1), "latency")
            taken.append(time.perf_counter() - begin)
            hear(one, 1)
        yield "from an add to the delta in another session, median", statistics.median(taken) * 1e6, "us"
        yield "  of a hundred, the slowest", statistics.quantiles(taken, n=100)[-1] * 1e6, "us"


def registering(program, _count):
    """How long another session waits while a query over many rows is registered, always over as many."""
    with Server(program) as server:
        one, two = server.clients[0], server.connect()
        lines = b"".join(b"add r %d %d\nadd s %d %d\n" % (at, at, at, at) for at in range(REGISTERED // 2))
        ask(one, b"rel r int int\nrel s int int\n", 2)
        pour(one, lines, REGISTERED)
        one.sendall(JOIN[2].encode() + b"\n")
        longest = 0.0
        while not select.select([one], [], [], 0)[0]:
            begin = time.perf_counter()
            ask(two, b"add r -1 -1\ndel r -1 -1\n", 2)
            longest = max(longest, time.perf_counter() - begin)
        yield f"a round trip while a query over {REGISTERED:,} rows is registered", longest * 1e3, "ms at most"


def loading(program, count):
    """The Python client's `load`, beside a socket over which the same lines go without a look at the replies."""
    lines = [(at, at) for at in range(4 * count)]
    with Server(program) as server:
        ask(server.clients[0], b"rel r int int\nrel s int int\n", 2)
        begin = time.perf_counter()
        pour(server.clients[0], b"".join(b"add s %d %d\n" % row for row in lines), len(lines))
        bare = len(lines) / (time.perf_counter() - begin)
        with djq.connect("127.0.0.1", server.port) as client:
            begin = time.perf_counter()
            same(client.load("r", lines), len(lines), "load")
            loaded = len(lines) / (time.perf_counter() - begin)
    yield "the Python client's `load`", loaded, "rows a second"
    yield "  of what a bare socket takes", 100 * loaded / bare, "%"


def logging(program, _count):
    """A server that keeps a log: rows below a join, each alone and by batches, each reply waited for."""
    with tempfile.TemporaryDirectory() as folder, Server(program, "--log", os.path.join(folder, "log")) as server:
        client = server.clients[0]
        ask(client, ("\n".join(JOIN) + "\n").encode(), len(JOIN))
        taken = {"alone": [], "batch": [], "done": []}
        for at in range(LOGGED):
            begin = time.perf_counter()
            ask(client, b"add s %d %d\n" % (at, at))
            taken["alone"].append(time.perf_counter() - begin)
        for first in range(0, LOGGED * HELD // 10, HELD):
            rows = b"".join(b"add r %d %d\n" % (first + at, (first + at) % LOGGED) for at in range(HELD))
            begin = time.perf_counter()
            ask(client, b"batch\n" + rows, 1 + HELD)
            held = time.perf_counter()
            same(ask(client, b"done\n").endswith(b" %d\n" % HELD), True, "logging")
            taken["done"].append(time.perf_counter() - held)
            taken["batch"].append(time.perf_counter() - begin)
    median = {what: statistics.median(times) * 1e6 for what, times in taken.items()}
    yield "with a log: an add, median", median["alone"], "us"
    yield f"with a log: a transaction of {HELD:,} rows, median", median["batch"], "us"
    yield "  of that its `done`", median["done"], "us"


def idle(program, _count):
    """What a server uses that nobody talks to."""
    for number in (0, 64):
        with Server(program) as server:
            if number == 0:
                server.clients.pop().close()
            while len(server.clients) < number:
                server.connect()
            time.sleep(0.5)
            before, seconds = server.processor(), 4
            time.sleep(seconds)
            share = (server.processor() - before) / seconds / 1e9
            yield f"idle with {number} connections", share * 100, "% of a processor"


LOOPBACK = {
    "waiting": waiting,
    "pipelining": pipelining,
    "latency": latency,
    "registering": registering,
    "loading": loading,
    "logging": logging,
    "idle": idle,
}


# Beside Redis


@contextlib.contextmanager
def redis():
    """A connection to a Redis of its own that keeps all in memory."""
    with socket.create_server(("127.0.0.1", 0)) as free:
        port = free.getsockname()[1]
    words = ["redis-server", "--port", str(port), "--bind", "127.0.0.1", "--save", "", "--appendonly", "no"]
    process = subprocess.Popen(words, stdout=subprocess.DEVNULL)
    try:
        with connected(port) as client:
            yield client
    finally:
        process.kill()
        process.wait()


def spelled(*words):
    """A command of Redis."""
    return b"*%d\r\n" % len(words) + b"".join(b"$%d\r\n%s\r\n" % (len(word), word) for word in words)


def each_second(client, lines, at_once):
    """How many of these lines are answered a second: each one once the one before is, or sent as fast as they go."""
    begin = time.perf_counter()
    if not at_once:
        for line in lines:
            ask(client, line)
    else:
        pour(client, b"".join(lines), len(lines))
    return len(lines) / (time.perf_counter() - begin)


def beside_redis(program, count):
    """A set of integers: members come, and it is asked for members."""
    ours = {"a member comes": b"add r %d\n", "is this a member": b"has q %d\n"}
    with Server(program) as server, redis() as theirs:
        ask(server.clients[0], b"rel r int\nquery q(x) <- r(x)\n", 2)
        for at_once, first in ((False, 0), (True, count)):
            for word, (what, line) in zip((b"SADD", b"SISMEMBER"), ours.items()):
                values = range(first, first + count)
                our_rate = each_second(server.clients[0], [line % value for value in values], at_once)
                commands = [spelled(word, b"r", b"%d" % value) for value in values]
                how = "sent many at once" if at_once else "each reply waited for"
                yield f"{what}, {how}", our_rate, each_second(theirs, commands, at_once)


# The table


SCALES = {"ns": 1e9, "ms": 1e3}  # by which seconds are told


def least(part, program, count, runs):
    """A part's rows, each value the best of its runs."""
    best = {}
    for _ in range(runs):
        for what, ours, theirs, unit in part(program, count):
            better = max if unit == "a second" else min
            if what in best:
                ours, theirs = better(ours, best[what][0]), better(theirs, best[what][1])
            best[what] = (ours, theirs, unit)
    return best


def watches(program):
    with Session(program) as session:
        _, told = session.feed(["rel r int", "query q(x) <- r(x)", "watch q"])
        return told[-1].startswith("ok watch")


def number(value, unit):
    return f"{value * SCALES.get(unit, 1):,.0f}"


def print_parts(given, names):
    head = f"| what | unit | djq, {given.rows:,} | {4 * given.rows:,} | growth | SQLite | {4 * given.rows:,} | growth |"
    print(head + "\n|---|---|---|---|---|---|---|---|", flush=True)
    for name in names:
        small = least(PARTS[name], given.program, given.rows, given.runs)
        large = least(PARTS[name], given.program, 4 * given.rows, given.runs)
        for what, (ours, theirs, unit) in small.items():
            our_large, their_large, _ = large[what]
            cells = [number(value, unit) for value in (ours, our_large, theirs, their_large)]
            cells.insert(2, f"{our_large / max(ours, 1e-12):.2f}")
            cells.append(f"{their_large / max(theirs, 1e-12):.2f}")
            print(f"| {what} | {unit} | " + " | ".join(cells) + " |", flush=True)


def print_loopback(given, names):
    print("\n| over loopback | |\n|---|---|", flush=True)
    for name in names:
        for what, value, unit in LOOPBACK[name](given.program, given.rows):
            print(f"| {what} | {value:,.{2 if value < 10 else 0}f} {unit} |", flush=True)


def print_redis(given):
    print("\n| a set of integers over loopback, a second | djq | Redis |\n|---|---|---|", flush=True)
    for what, ours, theirs in beside_redis(given.program, given.rows):
        print(f"| {what} | {ours:,.0f} | {theirs:,.0f} |", flush=True)


def main():
    words = argparse.ArgumentParser(description=__doc__.splitlines()[0])
    words.add_argument("program")
    words.add_argument("--rows", type=int, default=50_000, help="N, the rows of a stream; each part runs with 4N too")
    words.add_argument("--runs", type=int, default=1, help="how often each part runs; the best is told")
    every = [*PARTS, *LOOPBACK, "redis"]
    words.add_argument("--only", nargs="*", choices=every, default=every)
    given = words.parse_args()
    parts = [name for name in PARTS if name in given.only]
    if not watches(given.program):
        parts = [name for name in parts if name in ("load", "join", "dead-ends")]
        print("this program serves no watches: what needs them is left out\n")
    if parts:
        print_parts(given, parts)
    if names := [name for name in LOOPBACK if name in given.only]:
        print_loopback(given, names)
    if "redis" in given.only and shutil.which("redis-server"):
        print_redis(given)


if __name__ == "__main__":
    main()
