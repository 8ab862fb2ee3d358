"""Tests of the client for asyncio beside the one that blocks, on the same script, and of what only it does.

    python3 tests/aio.py PROGRAM [NAME ..]

Ends with a line `N passed, N failed`; a failure is exit status 1.
"""

import asyncio
import inspect
import logging
import os
import random
import signal
import socket
import sys
import time
import traceback

from serving import SECONDS, Server, churn, djq

import djq.aio

TYPES = {"r": (int, int), "s": (int, str), "t": (str,)}
QUERIES = [
    "q(x,y,z) <- r(x,y), s(y,z)", "p(z) <- t(z)", "bad(x,z) <- r(x,y), s(y,z)", "ring(x) <- r(x,y), r(y,x), r(x,x)",
    "w(z) <- s(_,z)",
]  # fmt: skip

TEXTS = ["a", 'b"', "c\\", "d\n", "ü"]


def random_commands(count, seed):
    """Method names and what they are given: some are refused, and many change nothing."""
    chance = random.Random(seed)
    for name, types in TYPES.items():
        yield "relation", (name, *types)
    for text in QUERIES:
        yield "query", (text,)
    for members in (("p", "w"), ("p", "q"), ("p",), ("p", "none"), ("p", "w")):
        yield "union", ("u", *members)
    for _ in range(count):
        yield chance.choice(["add", "delete"]), random_row(chance)
        if chance.random() < 0.1:
            yield "transaction", [random_line(chance) for _ in range(chance.randrange(6))]
        if chance.random() < 0.2:
            yield chance.choice([("has", ("q", 1, 2, "a")), ("has", ("p", "ü")), ("snapshot", ("q",)), ("has", ("z",))])
        if chance.random() < 0.1:
            yield chance.choice([("snapshot", ("p",)), ("explain", ("q",)), ("watch", ("q",)), ("unwatch", ("p",))])
            yield "shape", (chance.choice("qpzu"),)
            yield chance.choice([("snapshot", ("u",)), ("explain", ("u",)), ("watch", ("u",)), ("has", ("u", "ü"))])
        if chance.random() < 0.02:
            yield chance.choice([("drop", ("q",)), ("relation", ("r", int)), ("ping", ()), ("add", ("No", 1))])
            yield chance.choice([("drop", ("p",)), ("unwatch", ("u",)), ("union", ("u2", "w", "p", "w"))])


def random_row(chance):
    """A row behind the name of its relation; some don't fit it."""
    relation = chance.choice("rrsst")
    row = [chance.randrange(6) if kind is int else chance.choice(TEXTS) for kind in TYPES[relation]]
    if chance.random() < 0.05:
        row = chance.choice([row + [1], row[:-1], [2**63, *row[1:]], ["text", *row[1:]]])
    return relation, *row


def random_line(chance):
    """A call within a transaction."""
    name, row = chance.choice(["add", "add", "add", "delete", "update"]), random_row(chance)
    if name != "update":
        return name, *row
    values = [chance.randrange(6) if isinstance(value, int) else chance.choice(TEXTS) for value in row[1:]]
    return name, row[0], row[1:], values


def carried_out(client, lines):
    with client.transaction() as change:
        for name, *given in lines:
            getattr(change, name)(*given)
    return change.result()


async def awaited_carried_out(client, lines):
    async with client.transaction() as change:
        for name, *given in lines:
            getattr(change, name)(*given)
    return change.result()


def plain(result):
    return (type(result).__name__, str(result)) if isinstance(result, Exception) else result


def one_after_another(server, commands):
    """What the client that blocks is told."""
    told = []
    with server.connect() as client:
        for name, given in commands:
            try:
                told.append(carried_out(client, given) if name == "transaction" else getattr(client, name)(*given))
            except djq.Error as error:
                told.append(plain(error))
        rest = [change for query in "qu" for change in client.changes(query, 0.2)]
    return told, rest


async def awaited(server, commands):
    """What the client for asyncio is told."""
    told = []
    async with djq.aio.connect("127.0.0.1", server.port, SECONDS) as client:
        for name, given in commands:
            try:
                is_own = name != "transaction"
                told.append(await (getattr(client, name)(*given) if is_own else awaited_carried_out(client, given)))
            except djq.Error as error:
                told.append(plain(error))
        rest = [change for query in "qu" async for change in client.changes(query, 0.2)]
    return told, rest


def test_the_same_script(program):
    """Both are told the same, values, errors and changes, on servers of their own."""
    for seed in range(3):
        commands = [*random_commands(400, seed), ("query", (QUERIES[0],)), ("watch", ("q",)), ("watch", ("u",))]
        commands += [("add", ("r", 77, 1)), ("add", ("s", 1, "new")), ("delete", ("s", 1, "new"))]
        with Server(program) as one, Server(program) as two:
            blocking = one_after_another(one, commands)
            waiting = asyncio.run(awaited(two, commands))
        for command, here, there in zip(commands, blocking[0], waiting[0]):
            assert here == there, (command, here, there)
        assert blocking[1] == waiting[1] and len(blocking[1]) > 2, (blocking[1], waiting[1])


def test_the_same_methods(program):
    """What one has, the other has too, and with the same parameters."""
    for kind in (
        "Connection", "Cursor", "Expiring", "Live", "Lives", "Pipeline", "PipelinedTransaction", "Table", "Transaction",
    ):  # fmt: skip
        own, other = getattr(djq, kind), getattr(djq.aio, kind)
        for name, method in inspect.getmembers(own, inspect.isfunction):
            if not name.startswith("_") and name != "fileno":  # what is waited for is the loop's business
                words = list(inspect.signature(method).parameters)
                assert words == list(inspect.signature(getattr(other, name)).parameters), (kind, name)


async def pipelines(server):
    async with djq.aio.connect("127.0.0.1", server.port, SECONDS) as client:
        await client.relation("many", int)
        await client.query("all(x) <- many(x)")
        async with client.pipeline() as many:
            replies = [await many.add("many", number // 2) for number in range(10000)]
        assert sum(reply.result().changed for reply in replies) == 5000
        told = []
        assert await client.load("many", ([number] for number in range(6000)), told.append) == 1000
        assert told == sorted(set(told)) and told[-1] == 6000 and told[0] <= 500
        try:
            async with client.pipeline() as many:
                await many.add("many", 1)
                await many.add("many", "one")
                await many.add("nothing", 1)
            raise AssertionError("not raised")
        except djq.SomeRefused as error:
            assert (error.sent, error.refused) == (3, 2)
        async with client.pipeline(raises=False) as many:
            refused = await many.add("many", "one")
        assert "err 7" in str(refused._error)
        assert len({answer async for answer in client.answers("all", 7)}) == 6000
        async with client.cursor("all") as cursor:
            first = await cursor.next(10)
            rest = [answer async for answer in cursor]
            assert len(first.answers) == 10 and len({*first.answers, *rest}) == 6000
            await client.add("many", -1)
            try:
                await cursor.next()
                raise AssertionError("not raised")
            except djq.Stale as error:
                assert error.relation == "many"


def test_pipelines_and_cursors(program):
    with Server(program) as server:
        asyncio.run(pipelines(server))


async def transactions(server):
    async with djq.aio.connect("127.0.0.1", server.port, SECONDS) as client:
        await client.relation("r", int)
        await client.query("q(x) <- r(x)")
        # what other tasks say meanwhile is answered, and sent before or after the transaction
        adds = [asyncio.create_task(client.add("r", -number)) for number in range(1, 101)]
        lines = [[("add", "r", number) for number in range(n)] for n in (10, 20)]
        both = [asyncio.create_task(awaited_carried_out(client, some)) for some in lines]
        assert [(await one).rows for one in both] == [10, 10]
        assert [(await one).copies for one in adds] == [1] * 100
        seq = (await client.add("r", 0)).seq
        assert seq == 102
        # one that is cancelled is done whole or not at all, and leaves none open
        lines = [("add", "r", 1000 + number) for number in range(1000)]
        for pause in (0, 0, 0.0005, 0.001, 0.002, 0.004, 0.008, 0.016, 0.032):
            task = asyncio.create_task(awaited_carried_out(client, lines))
            await asyncio.sleep(pause)
            task.cancel()
            await asyncio.wait([task])
            there = len(await client.snapshot("q"))
            assert there in (120, 1120), there
            if there == 1120:
                gone = await awaited_carried_out(client, [("delete", "r", 1000 + number) for number in range(1000)])
                assert gone.rows == 1000
        assert (await awaited_carried_out(client, lines)).rows == 1000


def test_transactions(program):
    with Server(program) as server:
        asyncio.run(transactions(server))


async def updates(server):
    """Tasks that add to one number each read it and replace it: none of them overwrites another's."""
    async with client_of(server) as client, client_of(server) as other:
        sums = [await one.table("sums", int, int, key=1) for one in (client, other)]
        await sums[0].upsert(1, 0)

        async def count(table):
            for _ in range(10):
                while True:
                    old = table.get(1)
                    try:
                        await table.update(old or (1, 0), (1, (old or (1, 0))[1] + 1))
                        break
                    except djq.RowAbsent as error:
                        assert error.number == 19

        await asyncio.gather(*(count(table) for table in sums for _ in range(5)))
        assert await client.snapshot("sums_rows") == {(1, 100)} == set(sums[0])
        # a key that has a row keeps one, whoever replaces it
        values = [(table, 1000 * place + turn) for turn in range(20) for place, table in enumerate(sums)]
        await asyncio.gather(*(table.upsert(1, value) for table, value in values))
        assert len(await client.snapshot("sums_rows")) == 1


def test_updates_beside_each_other(program):
    with Server(program) as server:
        asyncio.run(updates(server))


async def tasks(server):
    """Many tasks over one connection: each gets its own replies, and a cancelled one takes nobody else's."""
    async with djq.aio.connect("127.0.0.1", server.port, SECONDS) as client:
        await client.relation("a", int)
        await client.query("every(x) <- a(x)")

        async def one(number):
            if number % 7 == 0:
                assert len(await client.snapshot("every")) <= 500
            update = await client.add("a", number)
            assert update.changed and await client.has("every", number)
            return update.seq

        running = [asyncio.create_task(one(number)) for number in range(500)]
        await asyncio.sleep(0.002)
        for task in running[::3]:
            task.cancel()
        done = await asyncio.gather(*running, return_exceptions=True)
        seqs = [seq for seq in done if isinstance(seq, int)]
        assert len(set(seqs)) == len(seqs) >= 333, len(seqs)
        for failed in done:
            assert isinstance(failed, (int, asyncio.CancelledError)), failed
        assert {number for (number,) in await client.snapshot("every")} >= {n for n in range(500) if n % 3}


async def transactions_in_a_pipeline(server):
    async with djq.aio.connect("127.0.0.1", server.port, SECONDS) as client:
        await client.relation("r", int)
        await client.query("q(x) <- r(x)")
        told = []
        async with client.pipeline(raises=False) as many:
            for rows in ([1, 2], [3, "four"], [5]):
                async with many.transaction() as order:
                    for row in rows:
                        order.add("r", row)
                told.append(order)
            async with many.transaction() as order:
                order.update("r", (5,), (6,))
                order.delete("r", 7)
            told.append(order)
            one = await many.add("r", 6)
            # other tasks' lines are before or after a transaction, never in one
            await asyncio.gather(*(client.add("r", 100 + number) for number in range(20)))
        assert [told[0].result(), told[2].result()] == [djq.Done(1, 2), djq.Done(2, 1)] and one.result().seq == 3
        try:
            told[1].result()
            raise AssertionError("not raised")
        except djq.SomeRefused as error:
            assert (error.sent, error.refused, error.first[0].line) == (2, 1, 'add r "four"')
        assert isinstance(many.first[1], djq.RowAbsent) and many.first[1].why == "one of 2 rows has no copy"
        assert (many.sent, many.refused) == (4 + 4 + 3 + 5 + 1, 2), (many.sent, many.refused)
        assert len(await client.snapshot("q")) == 4 + 20
        try:
            async with client.pipeline() as many:
                async with many.transaction() as order:
                    order.add("r", "seven")
            raise AssertionError("not raised")
        except djq.SomeRefused as error:
            assert (error.sent, error.refused) == (3, 1)


def test_transactions_in_a_pipeline(program):
    with Server(program) as server:
        asyncio.run(transactions_in_a_pipeline(server))


async def rows_expire(server):
    now = [1000.0]
    async with client_of(server) as client:
        table = await client.table("seen", int, str, key=1)
        async with djq.aio.Expiring(table, 30, by_itself=False, clock=lambda: now[0]) as seen:
            rows = [(number, "") for number in range(500)]
            assert await seen.renew_all(rows) == 500 and await seen.next_due() == 30
            now[0] += 20
            # any number of tasks renew, also one that is cancelled
            renewing = [asyncio.create_task(seen.renew(*row)) for row in rows[::2]]
            await asyncio.sleep(0)
            renewing[0].cancel()
            await asyncio.wait(renewing)
            now[0] += 10
            gone, renewed = await asyncio.gather(seen.expire(), seen.renew(0, "other"))
            assert sorted(gone) == rows[1::2] and renewed is True and await seen.left(0) == 30
            assert set(table) == {(0, "other"), *rows[2::2]} and await seen.left(1) is None
            # a client that blocks goes on with the times
            with server.connect() as other:
                twin = djq.Expiring(other.table("seen", int, str, key=1), 1, False, lambda: now[0])
                now[0] += 20
                assert len(twin.expire()) == 249 and set(twin.table) == {(0, "other")} and twin.left(0) == 10
        table = await client.table("few", int, key=1)
        async with djq.aio.Expiring(table, 1) as few, client.live("few_rows") as live:
            assert await few.renew(1) is True
            assert [(len((await live.next(SECONDS)).came), len(live.answers)) for _ in range(2)] == [(1, 1), (0, 0)]


def test_rows_expire(program):
    with Server(program) as server:
        asyncio.run(rows_expire(server))


async def first_start(program):
    """A set waits for the server, and for its query; what ends it names the query."""
    with socket.create_server(("127.0.0.1", 0)) as free:
        port = free.getsockname()[1]
    lives = djq.aio.Lives("127.0.0.1", port, "q", "p", reconnect=True)
    beginning = asyncio.create_task(lives.__aenter__())
    await asyncio.sleep(0.2)
    with Server(program, port) as server, server.connect() as client:
        await asyncio.sleep(0.2)
        assert not beginning.done()
        client.relation("r", int)
        client.query("q(x) <- r(x)")
        client.add("r", 1)
        await asyncio.sleep(0.2)
        assert not beginning.done()
        client.query("p(x) <- r(x)")
        await asyncio.wait_for(beginning, SECONDS)
        await lives.sync()
        assert [live.answers for live in lives] == [{(1,)}, {(1,)}]
        live = client_of(server).live("q")
        await live.__aenter__()
        client.stop()
        server.process.wait(SECONDS)
    for _ in range(2):
        try:
            await live.next(SECONDS)
            raise AssertionError("not raised")
        except djq.Disconnected as error:
            assert str(error).startswith("the live answers of q ended: ") and "and a new start failed: " in str(error), error
    lives.close()
    live.close()
    try:
        async with djq.aio.Lives("127.0.0.1", port):
            raise AssertionError("not raised")
    except djq.Disconnected as error:
        assert str(error).startswith("[Errno 111]"), error
    try:
        async with djq.aio.Lives("127.0.0.1", port, "q"):
            raise AssertionError("not raised")
    except djq.Disconnected as error:
        assert str(error).startswith("the live answers of q ended: [Errno 111]"), error


def test_a_live_set_waits_for_its_first_start(program):
    asyncio.run(first_start(program))


def test_tasks_share_a_connection(program):
    with Server(program) as server:
        asyncio.run(tasks(server))


def test_a_live_set_starts_while_rows_change(program):
    with Server(program) as server, server.connect() as client:
        for relation in ("a", "b", "c"):
            client.relation(relation, int, int)
        client.query("q(g,x,y,k) <- a(g,x), b(g,y), c(g,k)")
        client.load("a", [(0, n) for n in range(55)] + [(7, 1)])
        client.load("b", [(0, n) for n in range(55)])
        client.load("c", [(0, 1), (7, 1)])

        async def follow():
            async with client_of(server).live("q") as live:
                with churn(server, 500, "add b 7 1", "del b 7 1"):
                    async with client_of(server).live("q") as beside:
                        seqs = [(await beside.next(SECONDS)).seq for _ in range(300)]
                        assert seqs == list(range(seqs[0], seqs[0] + 300))
                for one in (live, beside):
                    assert len(one.answers) - 3025 in (0, 1)
                async for _ in live.changes(0.3):
                    pass
                return live.answers

        assert asyncio.run(follow()) == client.snapshot("q")


def client_of(server):
    return djq.aio.connect("127.0.0.1", server.port, SECONDS)


def test_a_live_set_comes_back(program):
    """The server is killed and another listens on the port: what differs is told as one change."""

    async def follow():
        with Server(program) as first:
            with first.connect() as client:
                client.relation("r", int)
                client.query("q(x) <- r(x)")
                client.load("r", [(1,), (2,)])
            live = client_of(first).live("q", reconnect=True)
            async with live:
                assert live.answers == {(1,), (2,)}
                first.process.kill()
                first.process.wait()
                waiting = asyncio.create_task(live.next())
                await asyncio.sleep(0.2)
                with Server(program, first.port) as second:
                    await asyncio.sleep(0.2)
                    with second.connect() as client:
                        client.relation("r", int)
                        client.load("r", [(2,), (3,)])
                        client.query("q(x) <- r(x)")
                        change = await asyncio.wait_for(waiting, SECONDS)
                        assert change.restarted, change
                        assert live.answers - {(2,), (3,)} == set() and (1,) not in live.answers
                        assert (change.came - {(3,)}, change.went) == (frozenset(), frozenset({(1,)}))
                        client.add("r", 4)
                        async for change in live.changes(0.5):
                            pass
                        assert live.answers == {(2,), (3,), (4,)}

    asyncio.run(follow())


async def several(server):
    async with client_of(server) as client:
        for relation in ("machines", "jobs"):
            await client.relation(relation, int, int)
        await client.query("every(x) <- machines(x,_)")
        await client.query("busy(x) <- jobs(_,x)")
        await client.load("machines", [(at, 0) for at in range(10)])
        async with client.lives("every", "busy") as both:
            every, busy = both
            assert (len(every.answers), busy.answers) == (10, set())
            stop = asyncio.Event()

            async def move():
                while not stop.is_set():
                    for at in range(10):
                        await client.add("jobs", at, at)
                        await client.add("machines", 10 + at, 0)
                    for at in range(10):
                        await client.delete("jobs", at, at)
                        await client.delete("machines", 10 + at, 0)

            moving = asyncio.create_task(move())
            for _ in range(50):
                # up to one change: a job comes before the machine behind it, and goes before that goes
                await both.sync()
                jobs, more = len(busy.answers), len(every.answers) - 10
                assert (both.seq - 10) % 40 in ({jobs + more, 40 - jobs - more}), (both.seq, jobs, more)
                assert jobs - more in (0, 1) or more - jobs in (0, 1)
            stop.set()
            await moving
            await both.sync()
            assert busy.answers == set() and await both.ready() == [] and await both.next(0.05) is None
            more = await both.add("busy")
            assert more is busy
            await client.query("all(x,y) <- jobs(x,y)")
            all_jobs = await both.add("all")
            # one task a set; each is told its own
            told = [asyncio.create_task(one.next()) for one in (busy, all_jobs)]
            await asyncio.sleep(0.05)
            await client.add("jobs", 1, 2)
            changes = await asyncio.wait_for(asyncio.gather(*told), SECONDS)
            assert [change.came for change in changes] == [{(2,)}, {(1, 2)}], changes
            both.remove(busy)
            await client.delete("jobs", 1, 2)
            assert [live async for live, _ in both.changes(0.3)] == [all_jobs]
            try:
                await both.add("nothing")
                raise AssertionError("not raised")
            except djq.NoQuery:
                pass
        while True:
            try:
                await client.drop("busy")
                break
            except djq.InUse:
                await asyncio.sleep(0.01)


def test_several_live_sets(program):
    with Server(program) as server:
        asyncio.run(several(server))


def test_live_sets_find_out_that_a_server_is_stopped(program):
    """It is asked for a reply where nothing comes; once it goes on, all sets are told what was missed."""

    async def follow(server):
        async with djq.aio.connect("127.0.0.1", server.port) as client:
            await client.relation("r", int)
            for query in ("p", "q"):
                await client.query(f"{query}(x) <- r(x)")
            async with client.lives("p", "q", ping=0.2, reconnect=True) as both:
                assert await both.next(0.7) is None  # its replies to the questions are no changes
                server.process.send_signal(signal.SIGSTOP)
                waiting = [asyncio.create_task(live.next()) for live in both]
                assert not (await asyncio.wait(waiting, timeout=1))[0]
                server.process.send_signal(signal.SIGCONT)
                changes = await asyncio.wait_for(asyncio.gather(*waiting), SECONDS)
                assert all(change.restarted for change in changes), changes
                await client.add("r", 1)
                told = [await asyncio.wait_for(both.next(), SECONDS) for _ in range(2)]
                assert {live.query for live, _ in told} == {"p", "q"}
            try:
                await both.next()
                raise AssertionError("not raised")
            except djq.Disconnected:
                pass

    with Server(program) as server:
        asyncio.run(follow(server))


async def keyed(server):
    draw = random.Random(7)
    async with client_of(server) as client, client_of(server) as other:
        table, rows = await client.table("keyed", int, int, str, key=2), {}
        for _ in range(200):
            key = (draw.randrange(4), draw.randrange(2))
            if draw.random() < 0.7:
                row = (*key, draw.choice("abc"))
                assert await table.upsert(*row) == (rows.get(key) != row)
                rows[key] = row
            else:
                assert await table.remove(*key) == (rows.pop(key, None) is not None)
            assert table.get(*key) == rows.get(key)
        assert set(table) == set(rows.values()) == await client.snapshot("keyed_rows") and len(table) == len(rows)
        # tasks that write one key leave one row, also where some are cancelled on the way
        writing = [asyncio.create_task(table.upsert(9, 9, f"text {number}")) for number in range(100)]
        await asyncio.sleep(0)
        for task in writing[::7]:
            task.cancel()
        await asyncio.gather(*writing, return_exceptions=True)
        await table.upsert(8, 8, "last")
        there = {row for row in await other.snapshot("keyed_rows") if row[0] == 9}
        assert len(there) == 1 and there == {table.get(9, 9)}, there
        # what is refused leaves the old row
        for value, kind in ((8, djq.WrongType), (0.5, TypeError), ("\ud800", UnicodeError)):
            try:
                await table.upsert(8, 8, value)
                raise AssertionError("not raised")
            except kind:
                pass
        assert table.get(8, 8) == (8, 8, "last") and await other.has("keyed_rows", 8, 8, "last")
        # rows of others are seen, and two of a key become one
        await other.add("keyed", 8, 8, "new")
        await table.upsert(8, 8, "newest")
        assert {row for row in await other.snapshot("keyed_rows") if row[0] == 8} == {(8, 8, "newest")}
        # a row goes with all copies that others gave it, and stays where the new one is refused
        assert await other.load("keyed", [(8, 8, "newest")] * 1500) == 0
        try:
            await table.upsert(8, 8, 8)
            raise AssertionError("not raised")
        except djq.WrongType:
            pass
        assert (await other.add("keyed", 8, 8, "newest")).copies == 1502
        assert await table.remove(8, 8) and isinstance(await other.delete("keyed", 8, 8, "newest"), djq.Absent)
        assert set(await other.table("keyed", int, int, str, key=2)) == set(table)


def test_a_table_with_a_key(program):
    with Server(program) as server:
        asyncio.run(keyed(server))


async def silent():
    """A server that is stopped gives no reply: the timeout says so, and closes the connection."""
    server = await asyncio.start_server(lambda reader, writer: None, "127.0.0.1", 0)
    port = server.sockets[0].getsockname()[1]
    began = time.monotonic()
    async with djq.aio.connect("127.0.0.1", port, 0.3) as client:
        try:
            await client.add("r", 1)
            raise AssertionError("not raised")
        except djq.Unanswered as error:
            assert error.line == "add r 1"
        assert time.monotonic() - began < 5
    server.close()
    try:
        await djq.aio.connect("127.0.0.1", port, 1)
        raise AssertionError("not raised")
    except djq.Disconnected:
        pass


def test_a_reply_that_doesnt_come(program):
    asyncio.run(silent())


TESTS = [
    test_the_same_script, test_the_same_methods, test_pipelines_and_cursors, test_transactions,
    test_updates_beside_each_other, test_transactions_in_a_pipeline,
    test_a_live_set_waits_for_its_first_start, test_rows_expire, test_tasks_share_a_connection,
    test_a_live_set_starts_while_rows_change, test_a_live_set_comes_back, test_several_live_sets,
    test_live_sets_find_out_that_a_server_is_stopped, test_a_table_with_a_key, test_a_reply_that_doesnt_come,
]  # fmt: skip


def main():
    program, names = os.path.abspath(sys.argv[1]), sys.argv[2:]
    logging.getLogger("djq").setLevel(logging.ERROR)
    failed = 0
    tests = [test for test in TESTS if not names or test.__name__ in names]
    for test in tests:
        try:
            test(program)
        except Exception:
            failed += 1
            print(f"{test.__name__} failed")
            traceback.print_exc()
    print(f"{len(tests) - failed} passed, {failed} failed")
    sys.exit(1 if failed or not tests else 0)


if __name__ == "__main__":
    main()
