"""Tests of the client in clients/python: its protocol on its own, and its commands and the examples against the built
program on loopback.

    python3 tests/clients.py PROGRAM [NAME ..]

Runs all tests, or those of these names. Ends with a line `N passed, N failed`; a failure is exit status 1.
"""

import collections
import contextlib
import logging
import os
import random
import resource
import selectors
import signal
import socket
import subprocess
import sys
import tempfile
import threading
import time
import traceback

import busy
import pages
from serving import HERE, SECONDS, Server, djq, dropped, raises, wait_until


# The protocol alone


def test_values_there_and_back():
    texts = ["", "a", 'say "hi"', "back\\slash", "two\nlines", "naïve", "\u4f60\u597d", "\U0001f600", " ", "\\n"]
    for value in [*texts, 0, -1, 2**63 - 1, -(2**63)]:
        spelled = djq.spell(value)
        assert "\n" not in spelled
        assert djq.read_values(f" {spelled}") == (value,), value
        assert djq.read_values(f" 7 {spelled} -7") == (7, value, -7), value
    assert djq.read_values("") == ()
    raises(TypeError, lambda: djq.spell(True))
    raises(TypeError, lambda: djq.spell(1.5))


def test_answers_there_and_back():
    """Lines of equally wide answers are read as each of them would be alone."""
    draw = random.Random(8)
    texts = ["", "a", 'say "hi"', "back\\slash", "two\nlines", " ", "\\n", "= 1", "+ q 1", '"', "\\", "a  b"]
    for _ in range(500):
        kinds = [draw.choice((int, str)) for _ in range(draw.randrange(4))]
        rows = [
            tuple(draw.randrange(-9, 10**18) if kind is int else draw.choice(texts) for kind in kinds)
            for _ in range(draw.randrange(1, 6))
        ]
        front = draw.choice(["=", "+ q", "- abc"])
        lines = [" ".join([front, *map(djq.spell, row)]) for row in rows]
        assert djq.protocol.read_answers(lines, front) == rows, lines
        assert [djq.read_values(line[len(front) :]) for line in lines] == rows, lines
    for lines in (["= x"], ['= "a'], ["= 1", "= x"], ['= "a"', "= 1x"]):
        raises(djq.Error, lambda: djq.protocol.read_answers(lines, "="))


def test_deltas_between_replies():
    protocol = djq.Protocol()
    first = protocol.say("add r 1", djq.protocol.READ_ADDED)
    second = protocol.say("next c 2", djq.protocol.read_page)
    assert protocol.outgoing == b"add r 1\nnext c 2\n"
    for byte in b'+ q 1 "a b"\n- q 2 "c"\nat q 5\nok added 5 1\nat q 6\n= 1 "x"\n=\nmore\n+ p\nat p 7\n':
        protocol.feed(bytes([byte]))
    assert first.result() == djq.Added(5, 1)
    assert second.result() == djq.Page([(1, "x"), ()], False)
    assert protocol.due == 0
    changes = [change for _, change in protocol.changes["q"]]
    assert changes == [
        djq.Change(5, frozenset({(1, "a b")}), frozenset({(2, "c")})),
        djq.Change(6, frozenset(), frozenset()),
    ]
    assert [change.came for _, change in protocol.changes["p"]] == [frozenset({()})]
    lines = [number for number, _ in protocol.changes["q"]]
    assert lines[0] < protocol.replied and lines[1] < protocol.replied


def test_changes_up_to_one():
    """Sets that are brought up to one change take none behind it, also where only some of what that brings has come."""
    protocol, kept = djq.Protocol(), [djq.live.Kept("p"), djq.live.Kept("q")]
    reply = protocol.say("watch p", djq.protocol.READ_WATCH)
    protocol.feed(b"+ p 1\nat p 1\n+ q 1\nat q 1\nok watch 1\n+ p 2\nat p 2\n")
    told = djq.live.take_until(kept, protocol, reply.result())
    assert [(one.query, change.seq) for one, change in told] == [("p", 1), ("q", 1)]
    assert [one.answers for one in kept] == [{(1,)}, {(1,)}]
    protocol.feed(b"+ q 2\nat q 2\n")
    assert [one.query for one, _ in djq.live.take_until(kept, protocol, 2)] == ["p", "q"]


def test_refusals_by_their_lines():
    for line, kind in (
        ("err 2 taken", djq.Taken),
        ("err 8 head unbound", djq.HeadUnbound),
        ("err 9 head repeated", djq.HeadRepeated),
        ("err 10 variable type", djq.VariableType),
        ("err 12 memory", djq.OutOfMemory),
        ("err 14 in use", djq.InUse),
        ("err 16 unbound", djq.ComparisonUnbound),
        ("err 17 member", djq.MemberRefused),
        ("err 18 batch", djq.Misplaced),
        ("err 19 absent", djq.RowAbsent),
        ("err 20 held", djq.WrongCount),
        ("err 99 else", djq.Refused),
        ("no cyclic x,y x,z y,z", djq.Cyclic),
        ("no connex x,y x,z y,z", djq.NotFreeConnex),
    ):
        protocol = djq.Protocol()
        pending = protocol.say("query q(x) <- r(x)", djq.protocol.READ_QUERY)
        protocol.feed(line.encode() + b"\n")
        error = raises(kind, pending.result)
        if isinstance(error, djq.NotFreeConnex):
            assert error.edges == [("x", "y"), ("x", "z"), ("y", "z")]


def test_many_replies_are_counted():
    """Of many commands that were sent as one: the first copies that came, and the last that went."""
    for replies, changed in (
        (["added 1 1", "added 2 1", "added 2 2", "added 3 1"], 3),
        (["added 11 11", "added 1 1", "removed 1 1", "removed 2 0", "absent 2", "removed 10 10"], 2),
        (["absent 0", "absent 1", "removed 1 0", "added 2 1"], 2),
        (["absent 0"], 0),
    ):
        for size in (1, 7, 1000):
            protocol = djq.Protocol()
            rows = protocol.say_rows(["add r 1"] * len(replies), b"")
            text = "".join(f"ok {reply}\n" for reply in replies).encode()
            for at in range(0, len(text), size):
                protocol.feed(text[at : at + size])
            assert rows.done and (rows.changed, rows.replies) == (changed, len(replies)), (replies, rows.changed)


def test_replies_to_a_transaction():
    lines = ["add r 1", "add r 2", "del r 3"]
    held = b"ok batch\nok held 1\nok held 2\nok held 3\n"
    for size in (1, 7, 1000):
        for text, result, refused in (
            (held + b"+ q 1\n- q 3\n+ q 2\nat q 7\nok done 7 3\n", djq.Done(7, 3), []),
            (b"ok batch\nok held 1\nerr 7 type\nok held 2\nerr 20 held\n", djq.SomeRefused, [djq.WrongType]),
            (held + b"err 19 absent\n", djq.RowAbsent, [djq.RowAbsent]),
            (held + b"err 20 held\n", djq.WrongCount, [djq.WrongCount]),
            (held + b"err 12 memory\n", djq.OutOfMemory, [djq.OutOfMemory]),
            (held + b"end memory\n", djq.Ended, [djq.Ended]),
        ):
            protocol, failed = djq.Protocol(), []
            commit = protocol.say_transaction(lines, failed.append)
            assert protocol.outgoing == b"batch\nadd r 1\nadd r 2\ndel r 3\ndone 3\n" and protocol.due == 5
            raises(djq.Error, commit.result)
            for at in range(0, len(text), size):
                protocol.feed(text[at : at + size])
            assert commit.done and protocol.due == 0 and [type(error) for error in failed] == refused
            if isinstance(result, djq.Done):
                assert commit.result() == result and result.changed and not djq.Done(7, 0).changed
                assert protocol.changes["q"][0][1] == djq.Change(7, {(1,), (2,)}, {(3,)})
            else:
                raises(result, commit.result)
    protocol = djq.Protocol()
    commit = protocol.say_transaction(lines)
    protocol.feed(held + b"err 19 absent\n")
    assert raises(djq.RowAbsent, commit.result).why == "no copy for: del r 3"
    protocol = djq.Protocol()
    commit = protocol.say_transaction(lines)
    protocol.lose(djq.Disconnected("lost"))
    assert raises(djq.Unanswered, commit.result).line == "done 3"


def test_replies_about_a_union():
    text = b"ok union 8\n+ u 1\nat u 1\nm a\nm b\nend\nat u 2\nunion\n= 1\nmore\nok\n"
    for size in (1, 7, 1000):
        protocol, counted = djq.Protocol(), djq.protocol.ReplyCount(b"")
        made = protocol.say("union u a b", djq.protocol.READ_UNION)
        members = protocol.say("explain u", djq.protocol.read_tree)
        shape = protocol.say("shape u", djq.protocol.READ_SHAPE)
        page, closed = protocol.say("next c 1", djq.protocol.read_page), protocol.say("close c", djq.protocol.READ_OK)
        for at in range(0, len(text), size):
            protocol.feed(text[at : at + size])
            counted.count(text[at : at + size])
        assert (made.result(), members.result(), shape.result()) == (8, ["m a", "m b"], "union")
        assert page.result() == djq.Page([(1,)], False) and closed.done
        assert len(protocol.changes["u"]) == 2 and protocol.due == 0 and counted.replies == 5, counted.replies


def test_an_end_fails_what_is_due():
    protocol = djq.Protocol()
    pending = protocol.say("next c 1", djq.protocol.read_page)
    protocol.feed(b"= 1\nend slow\n")
    assert raises(djq.Ended, pending.result).cause == "slow"
    raises(djq.Ended, lambda: protocol.say("quit", djq.protocol.READ_OK))


# Against the built program


def test_commands(server):
    with server.connect() as client:
        client.relation("a", int, int)
        assert client.query("qa(x,y) <- a(x,y)") == 5
        assert client.add("a", 1, 2) == djq.Added(1, 1) and djq.Added(1, 1).changed
        assert client.add("a", 1, 2) == djq.Added(1, 2) and not djq.Added(1, 2).changed
        absent = client.delete("a", 3, 4)
        assert absent == djq.Absent(1) and (absent.changed, absent.copies) == (False, 0)
        assert client.add("a", -(2**63), 2**63 - 1).changed
        assert client.delete("a", 1, 2) == djq.Removed(2, 1) and not djq.Removed(2, 1).changed
        assert set(client.answers("qa")) == {(1, 2), (-(2**63), 2**63 - 1)}
        assert client.delete("a", 1, 2) == djq.Removed(3, 0) and djq.Removed(3, 0).changed
        assert djq.Added(3, 1) != djq.Removed(3, 1) and djq.Removed(3, 0) != djq.Absent(3)
        assert list(client.answers("qa", page=1)) == [(-(2**63), 2**63 - 1)]
        assert client.has("qa", -(2**63), 2**63 - 1) and not client.has("qa", 1, 2)
        client.drop("qa")
        raises(djq.NoQuery, lambda: client.cursor("qa"))
        client.quit()


def test_refusals(server):
    with server.connect() as client:
        client.relation("b", int)
        client.query("qb(x) <- b(x)")
        raises(djq.Taken, lambda: client.relation("b", int))
        raises(djq.Taken, lambda: client.query("qb(x) <- b(x)"))
        raises(djq.NoRelation, lambda: client.add("nothing", 1))
        raises(djq.NoQuery, lambda: client.cursor("nothing"))
        raises(djq.Arity, lambda: client.add("b", 1, 2))
        raises(djq.WrongType, lambda: client.add("b", 2**63))
        raises(djq.Syntax, lambda: client.query("qb(x) <- "))
        raises(djq.LimitReached, lambda: client.relation("wide", *[int] * 17))
        with client.cursor("qb") as cursor:
            raises(djq.InUse, lambda: client.drop("qb"))
            client.add("b", 1)
            error = raises(djq.Stale, cursor.next)
            assert error.relation == "b"
        raises(djq.NoCursor, cursor.next)
        cursors = [client.cursor("qb") for _ in range(16)]
        raises(djq.LimitReached, lambda: client.cursor("qb"))
        for cursor in cursors:
            cursor.close()


def test_an_error_class_for_each_number(server):
    # 12 needs a machine without memory; 13 comes only behind bytes without a line end, which this client doesn't send
    assert set(djq.REFUSALS) == set(range(1, 21)) - {13, 15}
    with server.connect() as client:
        client.relation("n", int, str)
        client.query("qn(x) <- n(x,_)")
        cursor = client.cursor("qn")
        for number, call in (
            (1, lambda: client.query("N(x) <- n(x,_)")),
            (2, lambda: client.relation("n", int)),
            (3, lambda: client.delete("nothing", 1)),
            (4, lambda: client.has("nothing", 1)),
            (5, djq.Cursor(client, "nothing").next),
            (6, lambda: client.has("qn", 1, 2)),
            (7, lambda: client.add("n", "a", "b")),
            (8, lambda: client.query("qm(y) <- n(x,_)")),
            (9, lambda: client.query("qm(x,x) <- n(x,_)")),
            (10, lambda: client.query("qm(x) <- n(x,x)")),
            (11, lambda: client.query("qm(x) <- " + ", ".join(["n(x,_)"] * 33))),
            (14, lambda: client.drop("qn")),
            (16, lambda: client.query("qm(x) <- n(x,_), y < 5")),
            (17, lambda: client.union("qm", "qn", "qn")),
            (18, lambda: client._do("done", djq.protocol.READ_DONE)),
            (19, lambda: carried_out(client, ("delete", "n", 7, "x"))),
            (20, lambda: (client._do("batch", djq.protocol.READ_OK), client._do("done 1", djq.protocol.READ_DONE))),
        ):
            error = raises(djq.Refused, call)
            assert type(error) is djq.REFUSALS[number] and error.number == number, (number, error)
        cursor.close()


def test_comparisons(server):
    with server.connect() as client:
        client.relation("gauge", int, str, int)
        client.query('hot(machine,reading) <- gauge(machine,kind,reading), kind = "heat", reading >= 80')
        with client.live("hot") as live:
            for row in ((1, "heat", 79), (1, "heat", 80), (2, "load", 99), (2, "heat", 2**63 - 1), (3, "heat", -(2**63))):
                client.add("gauge", *row)
            client.delete("gauge", 1, "heat", 80)
            seen = [(change.came, change.went) for change in live.changes(timeout=0.5)]
        assert [told for told in seen if told != (set(), set())] \
            == [({(1, 80)}, set()), ({(2, 2**63 - 1)}, set()), (set(), {(1, 80)})]
        assert client.snapshot("hot") == {(2, 2**63 - 1)}
        raises(djq.WrongType, lambda: client.query('cold(machine) <- gauge(machine,kind,_), kind < "heat"'))


def test_texts_and_joins(server):
    with server.connect() as client:
        client.relation("people", int, str)
        client.relation("calls", int, int)
        texts = ["", "a b", 'say "hi"\\', "line\nfeed", "äöü 😀"]
        for at, text in enumerate(texts):
            client.add("people", at, text)
            client.add("calls", at, at + 1)
        assert client.query("jq(x,n,m) <- people(x,n), calls(x,m)") == 7
        listed = set(client.answers("jq", page=2))
        assert listed == {(at, text, at + 1) for at, text in enumerate(texts)}
        assert client.has("jq", 1, "a b", 2) and not client.has("jq", 1, "unknown", 2)
        assert client.explain("jq")[0].startswith("n 0 leaf people ")
        assert client.query("jc(x) <- people(x,_), calls(x,y)") == 3 and client.shape("jc") == "flat"
        assert client.query("jl(x) <- people(y,_), calls(x,y)") == 3 and client.shape("jl") == "linear"
        raises(djq.NoQuery, lambda: client.shape("jm"))
        refused = raises(djq.NotFreeConnex, lambda: client.query("jn(x,z) <- calls(x,y), calls(y,z)"))
        assert refused.edges == [("x", "y"), ("x", "z"), ("y", "z")]


def test_unions(server):
    with server.connect() as client, server.connect() as other:
        for relation in ("va", "vb"):
            client.relation(relation, int, str)
        client.query("qva(x,y) <- va(x,y)")
        client.query("qvb(x,y) <- vb(x,y), x >= 0")
        assert client.union("qv", "qva", "qvb") == 12
        assert client.shape("qv") == "union" and client.explain("qv") == ["m qva", "m qvb"]
        seq = other.watch("qv")

        def told():
            change = other.next_change("qv", SECONDS)
            return change.seq - seq, set(change.came), set(change.went)

        client.add("va", 1, "a")
        assert told() == (1, {(1, "a")}, set())
        client.add("vb", 1, "a")
        client.add("vb", -1, "b")
        assert [told(), told()] == [(2, set(), set()), (3, set(), set())]
        with client.transaction() as change:
            for row in (("va", 2, "b"), ("vb", 2, "b"), ("vb", 3, "c")):
                change.add(*row)
        assert change.result() == djq.Done(seq + 4, 3) and told() == (4, {(2, "b"), (3, "c")}, set())
        client.delete("va", 1, "a")
        client.delete("vb", 1, "a")
        assert [told(), told()] == [(5, set(), set()), (6, set(), {(1, "a")})]
        # an answer that one member loses and another one gains stays one
        with client.transaction() as change:
            change.delete("va", 2, "b")
            change.update("vb", (3, "c"), (3, "d"))
        assert change.result() == djq.Done(seq + 7, 3) and told() == (7, {(3, "d")}, {(3, "c")})
        with client.transaction() as change:
            change.update("vb", (3, "d"), (3, "c"))
        assert told() == (8, {(3, "c")}, {(3, "d")})
        assert client.snapshot("qv") == set(client.answers("qv", page=1)) == {(2, "b"), (3, "c")}
        assert client.has("qv", 2, "b") and not client.has("qv", 1, "a")
        with client.cursor("qv") as cursor:
            assert len(cursor.next(1).answers) == 1
            client.add("vb", 4, "d")
            assert raises(djq.Stale, cursor.next).relation == "vb"
        raises(djq.InUse, lambda: client.drop("qva"))
        raises(djq.InUse, lambda: client.drop("qv"))
        other.unwatch("qv")
        client.drop("qv")
        client.drop("qva")
        raises(djq.NoQuery, lambda: client.shape("qv"))


def test_unions_are_refused(server):
    with server.connect() as client:
        client.relation("vr", int, str)
        for number in range(9):
            client.query(f"qr{number}(x) <- vr(x,_), x > {number}")
        client.query("qrt(y) <- vr(_,y)")
        members = [f"qr{number}" for number in range(9)]
        with client.pipeline(raises=False) as many:
            first, again = many.union("qr", "qr0", "qr1"), many.union("qr", "qr0", "qr1")
        assert first.result() == 8 and isinstance(raises(djq.Taken, again.result), djq.Taken)
        for kind, given, why in (
            (djq.Taken, ("qr0", "qr1", "qr2"), "the name is there: qr0"),
            (djq.NoQuery, ("qs", "qr1", "none"), "one of these isn't registered: qr1, none"),
            (djq.MemberRefused, ("qs", "qr1", "qr2", "qr1"), "qr1 stands twice"),
            (djq.MemberRefused, ("qs", "qr1", "qrt"), "their answers aren't of the same types"),
            (djq.MemberRefused, ("qs", "qr1", "qr"), "one is a union"),
            (djq.LimitReached, ("qs", *members), "9 members, and 8 are the most"),
            (djq.Syntax, ("qs", "qr1"), ""),
            (djq.BadName, ("qs", "qr1", "a\nstop"), ""),
            (djq.BadName, ("Qs", "qr1", "qr2"), ""),
        ):
            error = raises(kind, lambda: client.union(*given))
            assert type(error) is kind and why in error.why, (given, error)
        assert client.union("qs", *members[: djq.MOST_MEMBERS]) == 80


def test_a_live_union_beside_fresh_listings(server):
    """A live set of a union is those of its members together, also where one of them belongs to a table."""
    draw = random.Random(17)
    with server.connect() as client, server.connect() as other:
        table = client.table("vk", int, int)
        client.relation("vs", int, int, int)
        client.query("qvs(y,x) <- vs(x,y,_)")
        client.union("every", "qvs", "vk_rows")
        with other.lives("every", "qvs") as lives:
            every, single = lives
            shared = 0
            for _ in range(400):
                key, value = draw.randrange(4), draw.randrange(4)
                if draw.random() < 0.4:
                    table.upsert(key, value)
                elif draw.random() < 0.3:
                    added_by(client, *[("vs", draw.randrange(4), key, draw.randrange(2)) for _ in range(3)])
                else:
                    client.delete("vs", value, key, draw.randrange(2))
                if draw.random() < 0.2:
                    lives.sync()
                    rows, own = set(table), set(client.answers("qvs"))
                    assert single.answers == own and every.answers == own | rows == client.snapshot("every")
                    shared += len(own & rows)
            assert shared > 10


def test_pipelines(server):
    with server.connect() as client:
        client.relation("c", int, int)
        client.query("qc(y,x) <- c(x,y)")
        rows = [(n, n * n) for n in range(20000)]
        with client.pipeline(raises=False) as many:
            replies = [many.add("c", *row) for row in rows[:500]]
            replies.append(many.delete("c", 0, 0))
            found = many.has("qc", 4, 2)
            twice = many.query("qc(y,x) <- c(x,y)")
        assert all(reply.result().changed for reply in replies)
        assert found.result() is True
        raises(djq.Taken, twice.result)
        assert set(client.answers("qc", page=7)) == {(y, x) for x, y in rows[1:500]}


def test_transactions_in_a_pipeline(server):
    with server.connect() as client, server.connect() as other:
        client.relation("po", int, str)
        client.query("qpo(o,who) <- po(o,who)")
        seq, orders = other.watch("qpo"), []
        with client.pipeline() as many:
            first = many.add("po", 0, "alone")
            for number in range(1, 6):
                with many.transaction() as order:
                    for row in range(number):
                        order.add("po", 10 * number + row, "bo")
                orders.append(order)
                raises(djq.Error, lambda: order.add("po", 1, "late"))
            raises(djq.Error, orders[-1].result)  # its reply is due
            last = many.has("qpo", 50, "bo")
        assert first.result().seq == seq + 1 and last.result() is True
        assert [order.result() for order in orders] == [djq.Done(seq + 1 + number, number) for number in range(1, 6)]
        changes = [other.next_change("qpo", SECONDS) for _ in range(6)]
        assert [len(change.came) for change in changes] == [1, 1, 2, 3, 4, 5]


def test_transactions_in_a_pipeline_that_are_refused(server):
    with server.connect() as client:
        client.relation("pr", int)
        client.query("qpr(x) <- pr(x)")

        def orders(many):
            for rows in ([1, 2], [3, "four", "five"], [6], [7] * (djq.MOST_HELD + 1), [8]):
                with many.transaction() as order:
                    for row in rows:
                        order.add("pr", row)
                yield order
            with many.transaction() as order:
                order.update("pr", (99,), (100,))
            yield order

        with client.pipeline(raises=False) as many:
            told = list(orders(many))
            refused = many.add("none", 1)
        assert [order.result().rows for order in (told[0], told[2], told[4])] == [2, 1, 1]
        error = raises(djq.SomeRefused, told[1].result)
        assert (error.sent, error.refused, error.first[0].line) == (3, 2, 'add pr "four"')
        assert isinstance(raises(djq.SomeRefused, told[3].result).first[0], djq.LimitReached)
        assert raises(djq.RowAbsent, told[5].result).why == "no copy for: del pr 99"
        raises(djq.NoRelation, refused.result)
        assert client.snapshot("qpr") == {(1,), (2,), (6,), (8,)}
        with_all = lambda many: (list(orders(many)), many.add("none", 1))
        error = raises(djq.SomeRefused, lambda: in_pipeline(client, with_all))
        assert (error.refused, error.sent) == (5, 2 + 3 + 1 + djq.MOST_HELD + 1 + 1 + 2 + 6 * 2 + 1), error
        # a block that raises sends nothing of its transaction, and the pipeline goes on
        with client.pipeline() as many:
            with contextlib.suppress(ZeroDivisionError), many.transaction() as order:
                order.add("pr", 9)
                order.add("pr", 1 // 0)
            more = many.add("pr", 10)
        raises(djq.Error, order.result)
        assert more.result().copies == 1 and not client.has("qpr", 9)


def in_pipeline(client, say):
    with client.pipeline() as many:
        say(many)


def carried_out(client, *lines):
    """What becomes of a transaction of these calls, each a method's name and what it is given."""
    with client.transaction() as change:
        for name, *given in lines:
            getattr(change, name)(*given)
    return change.result()


def added_by(client, *rows):
    """What becomes of a transaction that adds these rows, each after the name of its relation."""
    return carried_out(client, *[("add", *row) for row in rows])


def test_transactions(server):
    with server.connect() as client, server.connect() as other:
        client.relation("bo", int, str)
        client.relation("bl", int, int, str)
        client.query("qbo(o,who,l,what) <- bo(o,who), bl(o,l,what)")
        seq = other.watch("qbo")
        with client.transaction() as change:
            for row in (("bl", 7, 1, "bolt"), ("bl", 7, 2, "nut"), ("bo", 7, "bo"), ("bo", 7, "bo")):
                change.add(*row)
            assert not client.has("qbo", 7, "bo", 1, "bolt"), "nothing is sent in the block"
            raises(djq.Error, change.result)
        assert change.result() == djq.Done(seq + 1, 3) and change.result().changed
        raises(djq.Error, lambda: change.add("bo", 7, "bo"))
        came = {(7, "bo", 1, "bolt"), (7, "bo", 2, "nut")}
        assert other.next_change("qbo", SECONDS) == djq.Change(seq + 1, came, set())
        assert client.delete("bo", 7, "bo") == djq.Removed(seq + 1, 1)
        assert added_by(client, ("bo", 7, "bo")) == djq.Done(seq + 1, 0)
        assert added_by(client) == djq.Done(seq + 1, 0) and not added_by(client).changed


def test_an_update_is_one_change(server):
    """A row is replaced, moved and deleted by transactions, each of which watchers and live sets see as one change."""
    with server.connect() as client, server.connect() as other:
        client.relation("up", int, str)
        client.relation("old", int, str)
        client.query("qup(x,y) <- up(x,y)")
        client.query("qkeys(x) <- up(x,_)")
        client.load("up", [(1, "new"), (2, "new")])
        seq = other.watch("qkeys")
        with client.live("qup") as live:
            with client.transaction() as change:
                change.update("up", (1, "new"), (1, "paid"))
            assert change.result() == djq.Done(seq + 1, 2) and change.result().changed
            assert live.next(SECONDS) == djq.Change(seq + 1, {(1, "paid")}, {(1, "new")})
            assert live.answers == {(1, "paid"), (2, "new")} == client.snapshot("qup")
            assert other.next_change("qkeys", SECONDS) == djq.Change(seq + 1, set(), set()), "its answers stay"
            with client.transaction() as change:  # a move
                change.delete("up", 1, "paid")
                change.add("old", 1, "paid")
                change.update("up", (2, "new"), (2, "new"))  # which is there, and stays
            assert change.result() == djq.Done(seq + 2, 2)
            assert live.next(SECONDS) == djq.Change(seq + 2, set(), {(1, "paid")})
            # what isn't there any more refuses all of it
            lines = [("add", "up", 3, "new"), ("update", "up", (1, "paid"), (1, "sent"))]
            error = raises(djq.RowAbsent, lambda: carried_out(client, *lines))
            assert (error.number, error.line, error.why) == (19, "done 3", 'no copy for: del up 1 "paid"')
            error = raises(djq.RowAbsent, lambda: carried_out(client, *[("delete", "up", 2, "new")] * 2))
            assert error.why == "one of 2 rows has no copy" and live.next(0.2) is None
            # half an update isn't said
            change = client.transaction()
            raises(TypeError, lambda: change.update("up", (2, "new"), (2, 0.5)))
            raises(djq.BadName, lambda: change.update("Up", (2, "new"), (2, "old")))
            with change:
                change.add("up", 4, "new")
            assert change.result().rows == 1 and client.snapshot("qup") == {(2, "new"), (4, "new")}


def test_transactions_that_are_refused(server):
    with server.connect() as client:
        client.relation("bn", int, str)
        client.query("qbn(x,y) <- bn(x,y)")
        seq = client.watch("qbn")
        for rows, refused, why in (
            ([(8, "x"), (9, 9), (10, "y"), ("a", "b")], 2, "value 2 is an int, and its column text"),
            ([(8, "x"), (8, "x", 1)], 1, "3 values were given, and bn has 2 columns"),
        ):
            error = raises(djq.SomeRefused, lambda: added_by(client, *[("bn", *row) for row in rows]))
            assert (error.sent, error.refused, error.first[0].why) == (len(rows), refused, why), error
        for count in (1, 5000):
            rows = [("bn", number, "x") for number in range(djq.MOST_HELD + count)]
            error = raises(djq.SomeRefused, lambda: added_by(client, *rows))
            assert isinstance(error.first[0], djq.LimitReached) and error.first[0].line == f'add bn {djq.MOST_HELD} "x"'
            assert (error.sent, error.refused) == (len(rows), count)
        long = [("bn", number, 250 * "x") for number in range(djq.MOST_HELD)]
        size = sum(len(f'add bn {number} ""') + 250 for number in range(djq.MOST_HELD))
        error = raises(djq.SomeRefused, lambda: added_by(client, *long))
        assert size > djq.HELD_BYTES and isinstance(error.first[0], djq.LimitReached), error
        # what can't be said ends the block, of which nothing is sent
        for kind, row in ((djq.BadName, ("No", 8)), (UnicodeError, ("bn", 8, "\ud800")), (TypeError, ("bn", 1.5, "x"))):
            raises(kind, lambda: added_by(client, ("bn", 8, "x"), row))
        assert client.snapshot("qbn") == set() and client.watch("qbn") == seq
        assert added_by(client, *rows[: djq.MOST_HELD]) == djq.Done(seq + 1, djq.MOST_HELD)
        assert client.snapshot("qbn") == {(number, "x") for number in range(djq.MOST_HELD)}


class Interrupted(Exception):
    pass


def interrupt(*_):
    raise Interrupted


def test_a_transaction_that_is_interrupted(program):
    """An interrupted call leaves no transaction open: it is carried out whole. Of one whose server goes away it isn't
    known whether it was."""
    before = signal.signal(signal.SIGALRM, interrupt)
    with Server(program) as server, server.connect() as client:
        client.relation("r", int)
        client.query("q(x) <- r(x)")
        for _ in range(3):
            os.kill(server.process.pid, signal.SIGSTOP)
            signal.setitimer(signal.ITIMER_REAL, 0.2)
            raises(Interrupted, lambda: added_by(client, ("r", 1), ("r", 2)))
            os.kill(server.process.pid, signal.SIGCONT)
            assert client.snapshot("q") == {(1,), (2,)}
            with client.transaction() as change:
                change.delete("r", 1)
                change.delete("r", 2)
        assert added_by(client, ("r", 1)).rows == 1
        os.kill(server.process.pid, signal.SIGSTOP)
        killing = threading.Timer(0.3, server.process.kill)
        killing.start()
        error = raises(djq.Disconnected, lambda: added_by(client, ("r", 2)))
        assert isinstance(error, djq.Unanswered) and error.line == "done 1", error
        killing.join()
    signal.signal(signal.SIGALRM, before)


def test_random_rows_by_two_clients(server):
    draw = random.Random(19)
    with server.connect() as one, server.connect() as two:
        one.relation("d", int, int)
        two.query("qd(x,y) <- d(x,y)")
        rows, seq = collections.Counter(), one.watch("qd")
        for turn in range(600):
            client, row = draw.choice((one, two)), (draw.randrange(6), draw.randrange(6))
            if draw.random() < 0.5:
                rows[row] += 1
                seq += rows[row] == 1
                assert client.add("d", *row) == djq.Added(seq, rows[row])
            elif rows[row]:
                rows[row] -= 1
                seq += rows[row] == 0
                assert client.delete("d", *row) == djq.Removed(seq, rows[row])
            else:
                assert client.delete("d", *row) == djq.Absent(seq)
            if turn % 20 == 0:
                assert set(draw.choice((one, two)).answers("qd")) == set(+rows)


# Watches


def test_watch_and_unwatch(server):
    with server.connect() as one, server.connect() as two:
        raises(djq.NoQuery, lambda: one.watch("qw"))
        raises(djq.NoQuery, lambda: one.unwatch("qw"))
        one.relation("w", int, int)
        one.query("qw(x) <- w(x,_)")
        seq = two.add("w", 1, 1).seq
        assert one.watch("qw") == seq
        assert one.watch("qw") == seq
        # a session's own changes are told before their reply, each once
        for row, came in (((1, 2), frozenset()), ((2, 2), frozenset({(2,)}))):
            update = one.add("w", *row)
            assert one.next_change("qw", 0) == djq.Change(update.seq, came, frozenset())
        update = two.delete("w", 2, 2)
        assert one.next_change("qw", SECONDS) == djq.Change(update.seq, frozenset(), frozenset({(2,)}))
        # what changes nothing isn't told, nor what another relation does
        two.delete("w", 2, 2)
        two.add("w", 1, 1)
        two.relation("beside", int)
        two.add("beside", 1)
        one.unwatch("qw")
        one.unwatch("qw")
        two.add("w", 3, 3)
        assert one.watch("qw") == two.add("beside", 1).seq
        assert one.next_change("qw", 0) is None


def test_a_watched_query_is_in_use(server):
    with server.connect() as one, server.connect() as two:
        one.relation("u", int)
        watched = lambda: (two.query("qu(x) <- u(x)"), one.watch("qu"), raises(djq.InUse, lambda: two.drop("qu")))
        watched()
        one.unwatch("qu")
        two.drop("qu")
        watched()
        one.quit()
        two.drop("qu")
    with server.connect() as two:
        with server.connect() as one:
            watched()
        wait_until(lambda: dropped(two, "qu"))


def test_two_queries_are_told_in_order_of_registration(server):
    with server.connect() as client:
        client.relation("o", int)
        for name in ("zo", "ao"):
            client.query(f"{name}(x) <- o(x)")
        for name in ("ao", "zo"):
            client.watch(name)
        client.add("o", 5)
        (first, _), (second, _) = client._protocol.changes["zo"][0], client._protocol.changes["ao"][0]
        assert first < second < client._protocol.replied


LIVE = ["lj(x,y,z) <- lr(x,y), ls(y,z)", "lp(x,y,z) <- lr(x,y), lr(y,z)", "lc(x) <- lr(x,2), ls(_,x)"]


def test_live_beside_a_fresh_listing(server):
    draw = random.Random(7)
    with server.connect() as one, server.connect() as two, contextlib.ExitStack() as open_ones:
        for name in ("lr", "ls", "lt"):
            one.relation(name, int, int)
        for _ in range(8):
            one.add("lr", draw.randrange(6), draw.randrange(6))
        lives = []
        for text in LIVE:
            two.query(text)
            live = open_ones.enter_context(one.live(text[:2]))
            lives.append((live, "ls" if "ls" in text else "lr", live.changes(SECONDS)))
        for _ in range(2000):
            client, relation = draw.choice((one, two)), draw.choice(("lr", "lr", "ls", "ls", "lt"))
            act = client.add if draw.random() < 0.5 else client.delete
            update = act(relation, draw.randrange(6), draw.randrange(6))
            for live, second, changes in lives:
                if update.changed and relation in ("lr", second):
                    before = set(live.answers)
                    change = next(changes)
                    assert change.seq == live.seq == update.seq and not change.restarted
                    assert change.came == live.answers - before and change.went == before - live.answers
                assert live.answers == set(client.answers(live.query)), live.query


def test_live_begins_while_rows_change(server):
    stop, last, faults = threading.Event(), [0], []

    def churn():
        draw = random.Random(3)
        try:
            with server.connect() as client:
                while not stop.is_set():
                    act = client.add if draw.random() < 0.5 else client.delete
                    update = act("lb", draw.randrange(9), draw.randrange(9))
                    last[0] = update.seq if update.changed else last[0]
                    time.sleep(draw.random() / 1000)
        except Exception as error:
            faults.append(error)

    with server.connect() as client, contextlib.ExitStack() as open_ones:
        client.relation("lb", int, int)
        client.query("lo(x,y,z) <- lb(x,y), lb(y,z)")
        client.query("back(x,y,z) <- lb(z,y), lb(y,x)")
        client.union("ways", "lo", "back")
        client.add("lb", 1, 1)
        other = threading.Thread(target=churn)
        other.start()
        lives = []
        try:
            for number in range(25):
                lives.append(open_ones.enter_context(client.live(("lo", "ways")[number % 2])))
                next(lives[-1].changes(SECONDS))
        finally:
            stop.set()
            other.join()
        assert not faults, faults
        for live in lives:
            while live.seq < last[0]:
                next(live.changes(SECONDS))
            assert live.answers == set(client.answers(live.query)), live.query


def test_a_stalled_reader_comes_back(server):
    text = "t" * 250
    with server.connect() as other:
        other.relation("sw", str, int)
        other.relation("sx", int)
        other.query("sq(a,b,x) <- sw(a,b), sx(x)")
        other.query("probe(a) <- sw(a,_)")
        for number in range(300):
            other.add("sw", text, number)
        with other.live("sq") as live:
            live._group._connection.watch("probe")
            # nothing of this is read, until the server ends the session, which gives up its watches
            for last in range(2000):
                other.add("sx", last)
                other.delete("sx", last - 1)
                if dropped(other, "probe"):
                    break
            assert last < 1999, "the session never ended"
            seqs = []
            for change in live.changes(SECONDS):
                seqs.append(change.seq)
                if change.restarted:
                    break
            told = seqs[:-1]
            assert told == list(range(told[0], told[0] + len(told))) and told[-1] < seqs[-1]
            assert live.answers == set(other.answers("sq")) == {(text, number, last) for number in range(300)}
            update = other.delete("sx", last)
            change = next(live.changes(SECONDS))
            assert (change.seq, len(change.went), change.restarted) == (update.seq, 300, False)
            assert live.answers == set()


# Errors that tell what is wrong


def test_errors_tell_what_is_wrong(server):
    with server.connect() as client:
        client.relation("e", int, str)
        client.query("qe(x) <- e(x,_)")
        long_text = "ä" * 128
        for kind, call, line, why in (
            (djq.NoRelation, lambda: client.add("nothing", 1), "add nothing 1", "no relation is named nothing"),
            (djq.NoQuery, lambda: client.has("nothing", 1), "has nothing 1", "no query is named nothing"),
            (djq.NoQuery, lambda: client.cursor("nothing"), "open c1 nothing", "no query is named nothing"),
            (djq.Taken, lambda: client.relation("e", int), "rel e int", "the name is there: e"),
            (djq.Taken, lambda: client.query("qe(x) <- e(x,_)"), "query qe(x) <- e(x,_)", "the name is there: qe"),
            (djq.Taken, lambda: client.union("qe", "qe", "qe"), "union qe qe qe", "the name is there: qe"),
            (djq.Arity, lambda: client.add("e", 1), "add e 1", "1 values were given, and e has 2 columns"),
            (djq.WrongType, lambda: client.add("e", 2**63, ""), f'add e {2**63} ""', "value 1 is past 64 bits"),
            (djq.WrongType, lambda: client.add("e", "a", ""), 'add e "a" ""', "value 1 is a text, and its column int"),
            (djq.WrongType, lambda: client.delete("e", 1, 2), "del e 1 2", "value 2 is an int, and its column text"),
            (djq.WrongType, lambda: client.add("e", 1, long_text), f'add e 1 "{long_text}"', "a text of 256 bytes"),
        ):
            error = raises(kind, call)
            assert error.line == line and why in error.why, (error.line, error.why)
            assert error.words in str(error) and error.why in str(error) and line[:100] in str(error)


def test_what_isnt_sent(server):
    with server.connect() as client:
        for name in ("", "N", "a b", "a\nstop", "1a", "a" * 33, "ä"):
            for call in (client.watch, client.explain, client.drop, client.relation, client.add, client.cursor):
                raises(djq.BadName, lambda: call(name))
        for blank in "\n\r\t":  # is a space of the query, and ends no line
            raises(djq.Syntax, lambda: client.query(f"q(x) <- r(x){blank}stop"))
        raises(ValueError, lambda: client.query('q(x) <- r("a\\\n")'))
        raises(djq.Syntax, lambda: client.query('q(x) <- r("a\nstop'))
        raises(ValueError, lambda: client.add("r", "\ud800"))
        raises(djq.TooLong, lambda: client.add("r", *["t" * 255] * 16))
        raises(djq.NotWatched, lambda: client.next_change("q", 0))
        client.ping()


def test_a_reply_that_doesnt_come(program):
    with Server(program) as server, djq.connect("127.0.0.1", server.port, timeout=0.5) as client:
        client.relation("r", int)
        client.query("q(x) <- r(x)")
        with client.live("q", ping=0.5, reconnect=True) as live:
            os.kill(server.process.pid, signal.SIGSTOP)
            error = raises(djq.Unanswered, lambda: client.add("r", 1))
            assert error.line == "add r 1" and "may have been done" in str(error)
            raises(djq.Disconnected, client.ping)
            assert live.next(3) is None
            assert not live._group._whole, "it wasn't found out that the server has stopped"
            os.kill(server.process.pid, signal.SIGCONT)
            assert live.next(SECONDS).restarted and live.answers == {(1,)}


def test_a_server_that_is_started_again_with_its_log(program):
    with tempfile.TemporaryDirectory() as folder:
        log = os.path.join(folder, "log")
        with Server(program, log=log) as server, server.connect() as client:
            client.relation("r", int)
            client.query("q(x) <- r(x)")
            client.add("r", 1)
            client.add("r", 2)
            live = client.live("q", reconnect=True)
            port = server.port
        with Server(program, port, log) as server, server.connect() as client:
            change = live.next(SECONDS)
            assert change == djq.Change(2, frozenset(), frozenset(), True, False), change
            assert client.add("r", 3).seq == 3 and live.next(SECONDS).came == {(3,)}
        with Server(program, port) as server, server.connect() as client:
            client.relation("r", int)
            client.query("q(x) <- r(x)")
            change = live.next(SECONDS)
            assert change == djq.Change(0, frozenset(), frozenset({(1,), (2,), (3,)}), True, True), change
        live.close()


# How live sets begin and end


def test_a_live_set_waits_for_its_first_start(program):
    """For the server, for the query, and where another set of the group is told of changes meanwhile."""
    with socket.create_server(("127.0.0.1", 0)) as free:
        port = free.getsockname()[1]
    faults, begun, group = [], [], []

    def begin():
        try:
            with djq.Lives("127.0.0.1", port, reconnect=True) as lives:
                group.append(lives)
                begun.append(set(lives.add("q").answers))
                begun.append(set(lives.add("p").answers))
                begun.append([set(one.answers) for one in lives])
                lives.sync()
                begun.append([set(one.answers) for one in lives])
        except Exception as error:
            faults.append(error)

    other = threading.Thread(target=begin)
    other.start()
    time.sleep(0.3)
    with Server(program, port) as server, server.connect() as client:
        time.sleep(0.3)
        assert not begun and not faults, (begun, faults)
        client.relation("r", int)
        client.add("r", 1)
        client.query("q(x) <- r(x)")
        wait_until(lambda: len(begun) == 1)
        client.load("r", [(number,) for number in range(2, 2000)])
        # what comes for the one is read as it waits for the other
        wait_until(lambda: len(group[0]._connection._protocol.changes["q"]) > 1000)
        client.query("p(x) <- r(x), x > 1998")
        other.join(SECONDS)
        every = {(number,) for number in range(1, 2000)}
        assert not faults and begun == [{(1,)}, {(1999,)}, [{(1,)}, {(1999,)}], [every, {(1999,)}]], faults
        # without the setting what is wrong is raised at once
        error = raises(djq.NoQuery, lambda: client.live("none"))
        assert "no query is named none" in str(error)
        with client.live("q", reconnect=True) as live:
            assert live.answers == every
    error = raises(djq.Disconnected, lambda: djq.Lives("127.0.0.1", port).add("q"))
    assert str(error) == "the live answers of q ended: [Errno 111] Connection refused", error


def test_a_live_set_says_what_it_waits_for(program):
    told = []
    handler = logging.Handler()
    handler.emit = lambda record: told.append(record.getMessage())
    log = logging.getLogger("djq")
    level, _ = log.level, (log.addHandler(handler), log.setLevel(logging.WARNING))
    try:
        with Server(program) as server, server.connect() as client:
            client.relation("r", int)
            timer = threading.Timer(0.4, lambda: server.connect().query("q(x) <- r(x)"))
            timer.start()
            client.live("q", reconnect=True).close()
    finally:
        log.removeHandler(handler)
        log.setLevel(level)
    assert told == ["the live answers of q wait: err 4 no query: no query is named q (sent: watch q)"], told


def test_what_ends_a_live_set_names_its_query(program):
    with Server(program) as server:
        client = server.connect()
        client.relation("r", int)
        for name in ("q", "p"):
            client.query(f"{name}(x) <- r(x)")
        live, both = client.live("q"), client.lives("p", "q")
        client.stop()
        server.process.wait(SECONDS)
    lost = "the server closed the connection, and a new start failed: [Errno 111] Connection refused"
    for one, names in ((live, "q"), (both, "p, q")):
        for _ in range(2):
            for call in (one.next, getattr(one, "sync", one.next), getattr(one, "next_moment", one.next)):
                error = raises(djq.Disconnected, call)
                assert str(error) == f"the live answers of {names} ended: {lost}", error
        one.close()
        assert str(raises(djq.Disconnected, one.next)) == f"the live answers of {names} ended: they were closed"


def test_an_end_of_a_live_set_by_the_server_names_its_query(program):
    """A server that ends each session: as a reader that is too slow, or as it is full."""
    slow = "the server ended the session, as too little was read of what it sent (end slow)"
    full = "the server takes no further session (end full)"
    for cause, words in (("slow", slow), ("full", full)):
        with socket.create_server(("127.0.0.1", 0)) as listener:

            def serve():
                with contextlib.suppress(OSError):
                    while True:
                        session, _ = listener.accept()
                        session.recv(4096)
                        session.sendall(f"end {cause}\n".encode())
                        session.close()

            threading.Thread(target=serve, daemon=True).start()
            port = listener.getsockname()[1]
            error = raises(djq.Ended, lambda: djq.Lives("127.0.0.1", port, within=1).add("board"))
            assert (str(error), error.cause) == (f"the live answers of board ended: {words}", cause), error
            listener.shutdown(socket.SHUT_RDWR)


def test_two_threads(server):
    """A call beside another thread's says so and does nothing; one after another is nobody's business."""
    with server.connect() as client, server.connect() as other:
        client.relation("tt", int)
        client.query("qtt(x) <- tt(x)")
        client.watch("qtt")
        told = []
        waiting = threading.Thread(target=lambda: told.append(client.next_change("qtt", SECONDS)), name="waits")
        waiting.start()
        wait_until(lambda: client._using._holder == waiting.ident)
        for call in (lambda: client.add("tt", 1), client.ping, lambda: client.snapshot("qtt"), client.close):
            error = raises(djq.TwoThreads, call)
            assert "'MainThread' calls a connection that 'waits' is in a call of: " in str(error), error
            assert isinstance(error, djq.Error) and isinstance(error, RuntimeError)
        assert not other.has("qtt", 1)
        other.add("tt", 2)
        waiting.join(SECONDS)
        assert [change.came for change in told] == [{(2,)}]
        assert client.add("tt", 3).copies == 1
        for number in range(5):
            handed = threading.Thread(target=client.add, args=("tt", 10 + number))
            handed.start()
            handed.join(SECONDS)
        assert len(client.snapshot("qtt")) == 7


def test_queries_over_several_lines(server):
    with server.connect() as client:
        client.relation("ql", int, str)
        text = """
            several(x,
            \tname) <-
                ql(x, name),\r
                x >= 0,     name != "tab\there,
            and a \\"line\\" end"
        """
        assert client.query(text) == 5
        name = 'tab\there,\n            and a "line" end'
        client.load("ql", [(1, name), (2, "other"), (-3, "less")])
        assert client.snapshot("several") == {(2, "other")}
        with client.pipeline() as many:
            again = many.query("again(x)\n<-\n\tql(x,_)\n")
        assert again.result() == 3


# Many sets, many rows


def test_unwatch_forgets(server):
    with server.connect() as client:
        client.relation("f", int)
        client.query("qf(x) <- f(x)")
        client.watch("qf")
        client.add("f", 1)
        client.unwatch("qf")
        raises(djq.NotWatched, lambda: client.next_change("qf", 0))
        client.watch("qf")
        assert client.next_change("qf", 0) is None


def test_several_live_sets_over_one_connection(server):
    draw = random.Random(2)
    with server.connect() as client:
        names = ["ga", "gb", "gc"]
        for name in names:
            client.relation(name, int)
        texts = {"one": "one(x) <- ga(x)", "two": "two(x) <- ga(x), gb(x)", "three": "three(x,y) <- gb(x), gc(y)"}
        for text in texts.values():
            client.query(text)
        with client.lives() as none:
            assert none.fileno() >= 0 and none.next(0) is None and none.sync() == [] and none.next_moment(0) is None
            assert none.add("one").answers == set() and len(list(none)) == 1
        with client.lives("one", "two") as lives, selectors.DefaultSelector() as waiting:
            lives.add("three")
            assert [live.query for live in lives] == list(texts) and lives.add("two") is list(lives)[1]
            waiting.register(lives, selectors.EVENT_READ)
            told = []
            for _ in range(200):
                (client.add if draw.random() < 0.5 else client.delete)(draw.choice(names), draw.randrange(5))
                if draw.random() < 0.2:
                    told += lives.sync()
                    assert all(live.answers == set(client.answers(live.query)) for live in lives)
                elif waiting.select(0):
                    told += lives.ready()
            told += lives.sync()
            assert waiting.select(0) == [] and lives.next(0) is None
            # each change that one of them reads was told, in order
            seqs = [change.seq for _, change in told]
            assert seqs == sorted(seqs) and seqs[-1] <= lives.seq
            # each set is asked alone too, and what comes for the others waits for them
            one, two, _ = lives
            for _ in range(3):
                client.add("ga", 7)
                client.delete("ga", 7)
            assert [len(change.came) for change in one.changes(0.2)] == [1, 0] * 3
            assert len(list(two.changes(0))) == 6
            two.close()
            client.drop("two")
            client.add("ga", 9)
            (live, change) = lives.next(SECONDS)
            assert (live.query, change.came) == ("one", {(9,)})


def test_more_descriptors_than_select_takes(server):
    most = resource.getrlimit(resource.RLIMIT_NOFILE)
    if most[1] != resource.RLIM_INFINITY and most[1] < 1200:
        return
    resource.setrlimit(resource.RLIMIT_NOFILE, (max(most[0], 1200), most[1]))
    with contextlib.ExitStack() as open_ones:
        for _ in range(1050):
            open_ones.enter_context(open(os.devnull, "rb"))
        with server.connect() as client:
            assert client.fileno() > 1024
            client.ping()
    resource.setrlimit(resource.RLIMIT_NOFILE, most)


def test_loads(server):
    with server.connect() as client:
        client.relation("m", int, str)
        client.query("qm(x,y) <- m(x,y)")
        client.watch("qm")
        rows = [(number, f'"{number}"') for number in range(5000)]
        told = []
        assert client.load("m", iter(rows[:3000]), told.append) == 3000
        assert client.load("m", rows, told.append) == 2000
        assert told == sorted(told[: told.index(3000) + 1]) + sorted(told[told.index(3000) + 1 :]) and told[-1] == 5000
        assert client.snapshot("qm") == set(rows)
        assert len(list(client.changes("qm", 0))) == 5000
        assert [client.delete("m", *rows[number]).copies for number in (0, 2999, 3000)] == [1, 1, 0]
        assert client.load("m", []) == 0
        # nothing is sent behind a refusal that has come
        error = raises(djq.SomeRefused, lambda: client.load("m", ((n, "x" if n != 700 else n) for n in range(10**9))))
        assert error.refused == 1 and error.first[0].line == "add m 700 700" and error.sent < 20000
        client.ping()


def test_a_table_with_a_key(server):
    draw = random.Random(4)
    with server.connect() as client, server.connect() as other:
        table, rows = client.table("keyed", int, int, str, key=2), {}
        for _ in range(300):
            key = (draw.randrange(4), draw.randrange(2))
            if draw.random() < 0.7:
                row = (*key, draw.choice("abc"))
                assert table.upsert(*row) == (rows.get(key) != row)
                rows[key] = row
            else:
                assert table.remove(*key) == (rows.pop(key, None) is not None)
            assert table.get(*key) == rows.get(key)
        assert set(table) == set(rows.values()) == client.snapshot("keyed_rows") and len(table) == len(rows)
        # what is refused leaves the old row
        table.upsert(9, 9, "old")
        raises(djq.WrongType, lambda: table.upsert(9, 9, 9))
        raises(TypeError, lambda: table.upsert(9, 9, 0.5))
        raises(UnicodeError, lambda: table.upsert(9, 9, "\ud800"))
        assert table.get(9, 9) == (9, 9, "old") and other.has("keyed_rows", 9, 9, "old")
        # rows of others are seen, and two of a key become one
        other.add("keyed", 9, 9, "new")
        table.upsert(9, 9, "last")
        assert {row for row in other.snapshot("keyed_rows") if row[0] == 9} == {(9, 9, "last")}
        # an update is one change, and overwrites nothing that another client did
        seq = other.watch("keyed_rows")
        table.update((9, 9, "last"), (9, 9, "later"))
        assert other.next_change("keyed_rows", SECONDS) == djq.Change(seq + 1, {(9, 9, "later")}, {(9, 9, "last")})
        raises(djq.RowAbsent, lambda: table.update((9, 9, "last"), (9, 9, "lost")))
        raises(ValueError, lambda: table.update((9, 9, "later"), (9, 8, "later")))
        raises(djq.WrongType, lambda: table.update((9, 9, "later"), (9, 9, 9)))
        table.upsert(9, 9, "last")
        assert other.next_change("keyed_rows", SECONDS) == djq.Change(seq + 2, {(9, 9, "last")}, {(9, 9, "later")})
        assert table.get(9, 9) == (9, 9, "last")
        # a row goes with all copies that others gave it, and stays where the new one is refused
        assert other.load("keyed", [(9, 9, "last")] * 2500) == 0
        raises(djq.WrongType, lambda: table.upsert(9, 9, 9))
        assert other.add("keyed", 9, 9, "last").copies == 2502
        assert table.upsert(9, 9, "very last") and other.delete("keyed", 9, 9, "last").copies == 0
        assert table.get(9, 9) == (9, 9, "very last") and not other.has("keyed_rows", 9, 9, "last")
        other.add("keyed", 9, 9, "very last")
        assert table.remove(9, 9) and not other.has("keyed_rows", 9, 9, "very last")
        assert set(server.connect().table("keyed", int, int, str, key=2)) == set(table)


# Examples


@contextlib.contextmanager
def example(server, name, *words):
    """An example that runs, whose output can be read line by line; a silent one is killed."""
    command = [sys.executable, os.path.join(HERE, "..", "examples", name), f"127.0.0.1:{server.port}", *words]
    process = subprocess.Popen(command, stdin=subprocess.PIPE, stdout=subprocess.PIPE, encoding="utf-8", bufsize=1)
    clock = threading.Timer(SECONDS, process.kill)
    clock.start()
    try:
        yield process
    finally:
        clock.cancel()
        process.kill()
        process.communicate()


def output(server, name, *words, given=""):
    """All that an example writes."""
    with example(server, name, *words) as process:
        told, _ = process.communicate(given)
        assert process.returncode == 0, name
        return told


def hear(process, lines):
    for line in lines.splitlines():
        assert (got := process.stdout.readline()) == line + "\n", f"got {got!r}, want {line!r}"


DASHBOARD = """change 4, answers: 2
  machine  name     job  state
  -------  -------  ---  -------
  1        anvil    11   running
  2        bellows  12   waiting
"""
DASHBOARD_MOVED = """change 5, answers: 3
  machine  name     job  state
  -------  -------  ---  -------
  1        anvil    11   running
  2        bellows  12   waiting
+ 2        bellows  13   waiting
change 6, answers: 2
  machine  name     job  state
  -------  -------  ---  -------
  2        bellows  12   waiting
  2        bellows  13   waiting
"""


def test_dashboard(program):
    with Server(program) as server, server.connect() as client:
        assert output(server, "dashboard.py", "--once") == DASHBOARD
        with example(server, "dashboard.py", "--changes", "2") as process:
            hear(process, DASHBOARD)
            client.add("jobs", 13, 2, "waiting")
            client.delete("jobs", 11, 1, "running")
            hear(process, DASHBOARD_MOVED)
            assert process.wait(SECONDS) == 0


def test_alarm(program):
    with Server(program) as server, server.connect() as client:
        assert output(server, "alarm.py", "--once") == ""
        client.add("readings", 7, "heat", 95)
        stands = "stands 6: sensor 7 has heat at 95 %, heating calls Ada\n"
        assert output(server, "alarm.py", "--once") == stands
        with example(server, "alarm.py", "--lines", "6") as process:
            hear(process, stands)
            # a second gateway reports the same, and takes it back: nothing is told
            row = ("readings", 7, "heat", 95)
            assert client.add(*row).copies == 2 and client.delete(*row).copies == 1
            client.add("readings", 8, "heat", 89)  # below the threshold
            carried_out(client, ("update", "readings", (7, "heat", 95), (7, "heat", 97)))
            carried_out(client, ("update", "oncall", ("heating", "Ada"), ("heating", "Cai")))
            client.add("minds", "heat", "plumbing")
            client.add("readings", 9, "damp", 90)
            carried_out(client, ("update", "readings", (9, "damp", 90), (9, "damp", 20)))
            hear(process, "changed 8: sensor 7 has heat at 97 %, heating calls Ada")
            hear(process, "changed 9: sensor 7 has heat at 97 %, heating calls Cai")
            hear(process, "raised 10: sensor 7 has heat at 97 %, plumbing calls Bo")
            hear(process, "raised 11: sensor 9 has damp at 90 %, plumbing calls Bo")
            hear(process, "cleared 12: sensor 9 has damp at 90 %, plumbing calls Bo")
            assert process.wait(SECONDS) == 0


def test_rules(program):
    with Server(program) as server, server.connect() as client:
        assert output(server, "rules.py", "--once") == ""
        client.add("levels", 12, 5)
        stands = "stands 7: pump 2 has to stop, it is dry\n"
        assert output(server, "rules.py", "--once") == stands
        with example(server, "rules.py", "--lines", "5") as process:
            hear(process, stands)
            client.add("levels", 11, 5)
            hear(process, "raised 8: pump 1 has to stop, it is dry")
            # the other rule holds beside it, and then this one no more: nothing is told
            client.add("bearings", 1, 85)
            client.delete("levels", 11, 5)
            client.delete("bearings", 1, 85)
            hear(process, "cleared 11: pump 1 may run")
            added_by(client, ("bearings", 1, 85), ("levels", 11, 5))
            hear(process, "raised 12: pump 1 has to stop, it is dry and hot")
            client.delete("pumps", 2, 12, "running")
            hear(process, "cleared 13: pump 2 may run")
            assert process.wait(SECONDS) == 0
        raises(djq.InUse, lambda: client.drop("hot"))


def test_cache(program):
    with Server(program) as server, server.connect() as client:
        told = output(server, "cache.py", "--size", "2", given="1 1 2\n1 3 2\n")
        assert told.splitlines() == [
            "1 made: Ada cake, Ada tea", "1 kept: Ada cake, Ada tea", "2 made: Bo soup",
            "1 kept: Ada cake, Ada tea", "3 made: nothing", "2 made: Bo soup",
        ]  # fmt: skip
        with example(server, "cache.py") as process:
            ask = lambda key: print(key, file=process.stdin, flush=True) or process.stdout.readline().strip()
            assert ask(1).startswith("1 made: ") and ask(2).startswith("2 made: ") and ask(9) == "9 made: nothing"
            # one query serves all keys
            raises(djq.NoQuery, lambda: client.watch("customer_1"))
            raises(djq.InUse, lambda: client.drop("ordered"))
            client.add("orders", 1, "beer")
            wait_until(lambda: ask(1) != "1 kept: Ada cake, Ada tea")
            assert ask(1) == "1 kept: Ada beer, Ada cake, Ada tea"
            assert ask(2) == "2 kept: Bo soup" and ask(9) == "9 kept: nothing"
            client.delete("customers", 2, "Bo")
            wait_until(lambda: ask(2) != "2 kept: Bo soup")
            assert ask(2) == "2 kept: nothing"
            client.load("customers", [(number, "Cai") for number in range(10, 3000)])
            client.load("orders", [(number, "milk") for number in range(10, 3000)])
            wait_until(lambda: ask(2999) == "2999 kept: Cai milk")
            assert all(ask(number) == f"{number} made: Cai milk" for number in range(10, 2000))
            client.add("orders", 1500, "nuts")
            wait_until(lambda: ask(1500) == "1500 kept: Cai milk, Cai nuts")
            assert all(ask(number) == f"{number} kept: Cai milk" for number in range(10, 1500))


TREE = """4 trim  -
└── 3 meet  y
    ├── 1 leaf xs  y
    └── 2 trim  y
        └── 0 leaf xr  x,y
"""
GRAPH = """digraph {
  0 [label="leaf xr\\nx,y" shape=box style=dashed]
  1 [label="trim\\nx" shape=ellipse]
  1 -> 0
  2 [label="trim\\n-" shape=ellipse]
  2 -> 1
}
"""


def test_explain(program):
    with Server(program) as server, server.connect() as client:
        assert "leaf flights" in output(server, "explain.py")
        client.relation("xr", int, int)
        client.relation("xs", int)
        client.query("kept(x) <- xr(x,y)")
        assert output(server, "explain.py", "qx(x,y) <- xr(x,y), xs(y)") == TREE
        assert output(server, "explain.py", "kept", "--dot") == GRAPH
        raises(djq.NoQuery, lambda: client.drop("qx"))


def test_ends(server):
    client = server.connect()
    too_long = lambda: client._do("add " + "e" * 5000, djq.protocol.READ_OK)
    assert raises(djq.Ended, too_long).cause == "long"
    raises(djq.Ended, lambda: client.add("b", 1))
    client.close()
    closed = server.connect()
    closed.close()
    raises(djq.Disconnected, lambda: closed.add("b", 1))


def test_stop(program):
    with Server(program) as server:
        with server.connect() as client:
            client.stop()
        assert server.process.wait(SECONDS) == 0
        raises(djq.Disconnected, server.connect)


ALONE = [
    test_values_there_and_back, test_answers_there_and_back, test_deltas_between_replies, test_changes_up_to_one,
    test_refusals_by_their_lines, test_many_replies_are_counted, test_replies_to_a_transaction,
    test_replies_about_a_union, test_an_end_fails_what_is_due,
]  # fmt: skip
SERVED = [
    test_commands, test_refusals, test_an_error_class_for_each_number, test_comparisons, test_texts_and_joins,
    test_unions, test_unions_are_refused, test_a_live_union_beside_fresh_listings, test_pipelines, test_transactions, test_an_update_is_one_change,
    test_transactions_that_are_refused, test_random_rows_by_two_clients, test_ends,
    test_watch_and_unwatch, test_a_watched_query_is_in_use, test_two_queries_are_told_in_order_of_registration,
    test_live_beside_a_fresh_listing, test_live_begins_while_rows_change, test_a_stalled_reader_comes_back,
    test_errors_tell_what_is_wrong, test_what_isnt_sent, test_unwatch_forgets,
    test_several_live_sets_over_one_connection, test_more_descriptors_than_select_takes, test_loads,
    test_a_table_with_a_key, test_transactions_in_a_pipeline, test_transactions_in_a_pipeline_that_are_refused, test_two_threads,
    test_queries_over_several_lines,
]  # fmt: skip
# each with a server of its own
APART = [
    test_explain, test_stop, test_dashboard, test_alarm, test_rules, test_cache, test_a_reply_that_doesnt_come,
    test_a_server_that_is_started_again_with_its_log, test_a_transaction_that_is_interrupted,
    test_a_live_set_waits_for_its_first_start, test_a_live_set_says_what_it_waits_for,
    test_what_ends_a_live_set_names_its_query, test_an_end_of_a_live_set_by_the_server_names_its_query,
    *pages.TESTS, *busy.TESTS,
]  # fmt: skip


def main():
    program, names = os.path.abspath(sys.argv[1]), sys.argv[2:]
    logging.getLogger("djq").setLevel(logging.ERROR)
    passed = failed = 0
    with Server(program) as server:
        runs = [(test, ()) for test in ALONE] + [(test, (server,)) for test in SERVED]
        for test, given in runs + [(test, (program,)) for test in APART]:
            if names and test.__name__ not in names:
                continue
            try:
                test(*given)
                passed += 1
            except Exception:
                failed += 1
                print(f"{test.__name__} failed")
                traceback.print_exc()
    print(f"{passed} passed, {failed} failed")
    sys.exit(1 if failed or not passed else 0)


if __name__ == "__main__":
    main()
