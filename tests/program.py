#!/usr/bin/env python3
"""Tests of the built program from outside, over real pipes and devices: what no contract can name.

    tests/program.py PATH_TO_DJQ

It needs Python's standard library alone. One line is printed for each test that fails, and last
`N passed, N failed`; the status is 0 where none failed.
"""

import os
import random
import re
import resource
import select
import socket
import struct
import subprocess
import sys
import time

sys.dont_write_bytecode = True
from harness import expect, run_tests, test  # noqa: E402
from reasons import fits  # noqa: E402

# the most seconds that a reply or an end is waited for
PATIENCE = 20

USAGE = b"usage: djq run | serve ADDR [--turns N] [--log PATH] | replay [--log PATH] | gen N SEED | mirror Q\n"

# A session with each command, and what it is answered.
SESSION = [
    (b"rel r int int", [b"ok"]),
    (b"add r 1 2", [b"ok added 1 1"]),
    (b"add r 3 4", [b"ok added 2 1"]),
    (b"add r 1 2", [b"ok added 2 2"]),
    (b"del r 3 4", [b"ok removed 3 0"]),
    (b"query q(x,y) <- r(x,y)", [b"ok query 5"]),
    (b"open c q", [b"ok open"]),
    (b"next c 2", [b"= 1 2", b"end"]),
    (b"next c 2", [b"end"]),
    (b"has q 1 2", [b"yes"]),
    (b"has q 3 4", [b"no"]),
    (b"has q 1", [b"err 6 arity"]),
    (b"drop q", [b"err 14 in use"]),
    (b"close c", [b"ok"]),
    (b"close c", [b"err 5 no cursor"]),
    (b"drop q", [b"ok"]),
    (b"has q 1 2", [b"err 4 no query"]),
    (b"query q(y,x) <- r(x,y)", [b"ok query 5"]),
    (b"has q 2 1", [b"yes"]),
]


def lines_of(session, end=b"\n"):
    return b"".join(line + end for line, _ in session)


def replies_of(session):
    return b"".join(reply + b"\n" for _, replies in session for reply in replies)


def run(text, words=("run",)):
    """What the program writes for an input, and its status. On standard error it says why it ended so."""
    done = subprocess.run([PROGRAM, *words], input=text, capture_output=True, timeout=PATIENCE * 3)
    expect(fits(done.returncode, done.stderr), True, done.stderr)
    return done.stdout, done.returncode


def expect_run(text, output, status=0):
    expect(run(text), (output, status), text[:60])


class Talk:
    """A program that is talked to line by line."""

    def __enter__(self):
        self.program = subprocess.Popen([PROGRAM, "run"], stdin=subprocess.PIPE, stdout=subprocess.PIPE, bufsize=0)
        self.heard = b""
        return self

    def __exit__(self, *_):
        self.program.kill()
        self.program.wait()
        self.program.stdin.close()
        self.program.stdout.close()

    def say(self, text):
        self.program.stdin.write(text)

    def hear(self, count):
        """As many bytes, which have to come without a further word."""
        until = time.monotonic() + PATIENCE
        while len(self.heard) < count:
            ready, _, _ = select.select([self.program.stdout], [], [], max(0, until - time.monotonic()))
            if not ready:
                raise AssertionError(f"no reply: heard {self.heard!r}")
            piece = os.read(self.program.stdout.fileno(), 65536)
            if piece == b"":
                raise AssertionError(f"the output ended: heard {self.heard!r}")
            self.heard += piece
        heard, self.heard = self.heard[:count], self.heard[count:]
        return heard

    def line(self):
        """The next line, which has to come without a further word."""
        until = time.monotonic() + PATIENCE
        while b"\n" not in self.heard:
            ready, _, _ = select.select([self.program.stdout], [], [], max(0, until - time.monotonic()))
            piece = os.read(self.program.stdout.fileno(), 65536) if ready else b""
            if piece == b"":
                raise AssertionError(f"no line: heard {self.heard!r}")
            self.heard += piece
        line, self.heard = self.heard.split(b"\n", 1)
        return line

    def hears_nothing(self, seconds=0.2):
        ready, _, _ = select.select([self.program.stdout], [], [], seconds)
        if ready or self.heard:
            raise AssertionError("a reply before its line ended")

    def end(self):
        self.program.stdin.close()
        rest = self.program.stdout.read()
        return self.heard + rest, self.program.wait(PATIENCE)


@test
def a_session_in_one_piece():
    expect_run(lines_of(SESSION), replies_of(SESSION))


def dialogues():
    """The dialogues of dialogues.txt: the command, the name, the lines that are said and those that are told."""
    with open(os.path.join(os.path.dirname(os.path.abspath(__file__)), "dialogues.txt"), "rb") as file:
        for dialogue in file.read().split(b"\n## ")[1:]:
            title, *rows = dialogue.split(b"\n")
            command, name = title.decode().split(": ", 1)
            said = [row[2:] for row in rows if row.startswith(b"> ")]
            yield command, name, said, [row for row in rows if row and not row.startswith(b"> ")]


def in_any_order(told):
    """What is told, with answers and lines of a delta that stand together in order."""
    ordered, block = [], []
    for line in told + [b""]:
        if line.split(b"< ")[-1][:2] in (b"= ", b"+ ", b"- "):
            block.append(line)
        else:
            ordered += sorted(block) + [line]
            block = []
    return ordered


@test
def dialogues_go_as_written():
    for command, name, said, told in dialogues():
        output, status = run(b"".join(line + b"\n" for line in said), (command,))
        expect((in_any_order(output.splitlines()), status), (in_any_order(told), 0), name)


@test
def a_long_listing_is_whole_while_another_session_stops():
    rows = b"".join(b"say 1 add r %d\n" % number for number in range(1000, 2000))
    text = b"open 1\nopen 2\nsay 1 rel r int\nsay 1 query q(x) <- r(x)\n" + rows + b"say 1 open c q\nsay 1 next c 1000\nsay 2 stop\n"
    output, status = run(text, ("replay",))
    expect(status, 0)
    behind = output.splitlines()[1003:]
    expect(sorted(behind[:1000]), [b"1< = %d" % number for number in range(1000, 2000)])
    expect(behind[1000:], [b"1< end", b"2< bye"])


@test
def a_session_with_cr_before_each_lf():
    expect_run(lines_of(SESSION, b"\r\n"), replies_of(SESSION))


@test
def a_session_in_single_bytes():
    with Talk() as talk:
        for byte in lines_of(SESSION):
            talk.say(bytes([byte]))
        expect(talk.end(), (replies_of(SESSION), 0))


@test
def each_reply_comes_before_the_next_line_is_sent():
    with Talk() as talk:
        for line, replies in SESSION:
            want = b"".join(reply + b"\n" for reply in replies)
            talk.say(line + b"\n")
            expect(talk.hear(len(want)), want, line)
        expect(talk.end(), (b"", 0))


@test
def lines_that_come_together_are_answered_together():
    with Talk() as talk:
        talk.say(lines_of(SESSION))
        expect(talk.hear(len(replies_of(SESSION))), replies_of(SESSION))
        expect(talk.end(), (b"", 0))


@test
def a_line_is_answered_once_its_end_comes():
    with Talk() as talk:
        talk.say(b"rel r ")
        talk.hears_nothing()
        talk.say(b"int\nadd r")
        expect(talk.hear(3), b"ok\n")
        talk.hears_nothing()
        talk.say(b" 7\n")
        expect(talk.hear(13), b"ok added 1 1\n")
        expect(talk.end(), (b"", 0))


@test
def nothing_is_answered_to_nothing():
    expect_run(b"", b"")
    expect_run(b"\n\n   \n", b"")


@test
def a_line_that_the_input_cuts_is_not_run():
    expect_run(b"rel r int\nadd r 1", b"ok\nerr 13 cut\n")
    expect_run(b"rel r int\n ", b"ok\nerr 13 cut\n")


def texts_of_lines(lines):
    return b"".join(line + b"\n" for line in lines)


@test
def texts_come_back_as_they_were_said():
    texts = [b'""', b'"a"', b'"b\\"\\\\\\n"', '"äöü ∷ 😀"'.encode(), b'"' + b"a" * 255 + b'"']
    lines = [b"rel t int text", b"query q(x) <- t(_,x)", b"query p(n) <- t(n,\"a\")"]
    lines += [b"add t %d %s" % (at, text) for at, text in enumerate(texts)]
    lines += [b"has q " + text for text in texts]
    lines += [b'has q "z"', b"open c p", b"next c 9", b'add t 9 "%s"' % (b"a" * 256), b"add t 9 \"\xff\""]
    replies = [b"ok", b"ok query 3", b"ok query 3"]
    replies += [b"ok added %d 1" % (at + 1) for at in range(len(texts))]
    replies += [b"yes"] * len(texts)
    replies += [b"no", b"ok open", b"= 1", b"end", b"err 7 type", b"err 1 syntax"]
    expect_run(texts_of_lines(lines), texts_of_lines(replies))
    for text in texts:
        lines = [b"rel t text", b"query q(x) <- t(x)", b"add t " + text, b"open c q", b"next c 1"]
        replies = [b"ok", b"ok query 3", b"ok added 1 1", b"ok open", b"= " + text, b"end"]
        expect_run(texts_of_lines(lines), texts_of_lines(replies))


@test
def queries_are_judged_and_explained():
    lines = [
        b"rel r int int", b"rel s int int", b"rel t int int", b"rel u int int int",
        b"query q(x,y,z) <- r(x,y), s(y,z), t(z,x)",
        b"query q(x,z) <- r(x,y), s(y,z)",
        b"query q(x,y,z) <- r(x,y), s(y,z), t(z,x), u(x,y,z)",
        b"explain q",
        b"explain p",
    ]
    replies = [
        b"ok", b"ok", b"ok", b"ok", b"no cyclic x,y x,z y,z", b"no connex x,y x,z y,z", b"ok query 7",
        b"n 0 leaf r x,y out", b"n 1 leaf s y,z out", b"n 2 leaf t x,z out", b"n 3 leaf u x,y,z out",
        b"n 4 meet 3 0 x,y,z out", b"n 5 meet 4 1 x,y,z out", b"n 6 trim 5 x,z out",
        b"n 7 meet 2 6 x,z out", b"n 8 trim 7 - out", b"end", b"err 4 no query",
    ]
    expect_run(texts_of_lines(lines), texts_of_lines(replies))


@test
def a_query_is_told_flat_exactly_where_it_is():
    asked = [
        (b"a(x,y) <- e(x,y), s(y)", b"flat"),  # x stands where y does
        (b"b(x,y) <- r(x), e(x,y), s(y)", b"linear"),  # they share an atom, and each has one of its own
        (b"c(x) <- e(x,y), s(y)", b"linear"),  # x is in the head, and y isn't, which has the atom of x and another
        (b"d(y) <- e(x,y), s(y)", b"flat"),
        (b"f() <- e(x,y), s(y)", b"flat"),
        (b"g(x,y,z) <- e(x,y), e(x,z)", b"flat"),
        (b"h(x,y,z,w) <- e(x,y), e(y,z), e(z,w)", b"linear"),
        (b"i(x,z) <- r(x), s(z), e(_,3)", b"flat"),
        (b"j(x,y) <- r(x), e(x,y), e(x,y), s(_), e(x,x)", b"flat"),
        (b"k() <- r(x), e(x,y), s(y)", b"linear"),
    ]
    lines = [b"rel r int", b"rel e int int", b"rel s int"]
    replies = [b"ok"] * 3
    for query, shape in asked:
        name, _, rest = query.partition(b"(")
        head = rest[:rest.index(b")")]
        lines += [b"query " + query, b"shape " + name]
        replies += [b"ok query %d" % (2 * len(head.replace(b",", b"")) + 1), shape]
    # rows change nothing of it, and nor does a watch
    lines += [b"add e 1 2", b"watch b", b"shape b", b"shape l", b"drop a", b"shape a", b"shape", b"shape b c"]
    replies += [b"ok added 1 1", b"ok watch 1", b"linear", b"err 4 no query", b"ok", b"err 4 no query"]
    replies += [b"err 1 syntax"] * 2
    expect_run(texts_of_lines(lines), texts_of_lines(replies))


@test
def each_refusal_of_a_query_comes_in_its_order():
    lines = [b"rel r int text", b"rel s int", b"query w(x) <- s(x)"]
    asked = [
        (b"query w(x) <- z(x)", b"err 2 taken"),
        (b"query q(x,x) <- z(x), s(x,x)", b"err 3 no relation"),
        (b"query q(x,x) <- s(x,3), r(3,x)", b"err 6 arity"),
        (b"query q(x,x) <- r(\"a\",x), s(x)", b"err 7 type"),
        (b"query q(y,y) <- r(x,x)", b"err 10 variable type"),
        (b"query q(z,z) <- r(x,_)", b"err 9 head repeated"),
        (b"query q(z) <- " + b", ".join([b"s(x)"] * 33), b"err 8 head unbound"),
        (b"query q(x) <- " + b", ".join([b"s(x)"] * 33), b"err 11 limit"),
        (b"query q(x) <- " + b", ".join([b"s(x)"] * 32), b"ok query 3"),
    ]
    lines += [line for line, _ in asked]
    replies = [b"ok", b"ok", b"ok query 3"] + [reply for _, reply in asked]
    expect_run(texts_of_lines(lines), texts_of_lines(replies))


@test
def each_refusal_of_a_comparison_comes_in_its_order():
    lines = [b"rel r int text", b"rel s int", b"rel k" + b" int" * 17, b"rel k" + b" int" * 16]
    replies = [b"ok", b"ok", b"err 11 limit", b"ok"]
    many = b", x > 0" * 31
    holes = b"k(" + b",".join([b"_"] * 16) + b")"
    asked = [
        (b"query q(y) <- s(x), x = 9223372036854775808", b"err 7 type"),
        (b"query q(y) <- z(x), n < 1", b"err 3 no relation"),
        (b"query q(y) <- s(x,y), n < 1", b"err 6 arity"),
        (b"query q(y) <- s(\"a\"), n < 1", b"err 7 type"),
        (b"query q(y,y) <- r(x,x), n < 1", b"err 10 variable type"),
        (b"query q(z,z) <- x < \"a\", r(x,_), n < 1", b"err 16 unbound"),
        (b"query q(z,z) <- r(x,_), x < \"a\"", b"err 7 type"),
        (b"query q(z,z) <- r(_,y), y >= \"a\"", b"err 7 type"),
        (b"query q(z,z) <- r(_,y), y != 1", b"err 7 type"),
        (b"query q(z,z) <- r(_,y), y != \"a\"", b"err 9 head repeated"),
        (b"query q(z) <- r(x,_), x != 1", b"err 8 head unbound"),
        (b"query q(x) <- s(x), x < 5, x >= -5" + many, b"err 11 limit"),
        (b"query q() <- " + b", ".join([holes] * 9), b"err 11 limit"),
        (b"query p() <- " + b", ".join([holes] * 8), b"ok query 1"),
        (b"query q(x) <- x >= -5, s(x)" + many, b"ok query 3"),
        # none of these is in the grammar
        (b"query w(x) <- x = 1", b"err 1 syntax"),
        (b"query w(x) <- s(x), x<-5", b"err 1 syntax"),
        (b"query w(x) <- r(x,y), x < y", b"err 1 syntax"),
        (b"query w(x) <- s(x), 1 < x", b"err 1 syntax"),
        (b"query w(x) <- s(x), _ < 1", b"err 1 syntax"),
        (b"query w(x) <- s(x), x == 1, x <> 1, x => 1", b"err 1 syntax"),
        (b"query w(x) <- s(x) x < 1", b"err 1 syntax"),
        (b"query w(x)<-s(x),x<5,x>-5,x!=0", b"ok query 3"),
    ]
    lines += [line for line, _ in asked]
    expect_run(texts_of_lines(lines), texts_of_lines(replies + [reply for _, reply in asked]))


@test
def comparisons_let_rows_through_by_their_variables():
    lines = [b"rel r int text", b"query q(x,y) <- r(x,y), x >= 2, x < 4, y != \"b\""]
    lines += [b'add r %d "%s"' % (at, b"abaa"[at - 1:at]) for at in range(1, 5)]
    lines += [b"open c q", b"next c 9", b"rel e int", b"watch p"]
    replies = [b"ok", b"ok query 5"] + [b"ok added %d 1" % at for at in range(1, 5)]
    replies += [b"ok open", b'= 3 "a"', b"end", b"ok", b"err 4 no query"]
    # the order of numbers, at both ends of their range too
    values = [-(1 << 63), -(1 << 63) + 1, -1, 0, 1, (1 << 63) - 2, (1 << 63) - 1]
    seq = 4
    for value in values:
        seq += 1
        lines.append(b"add e %d" % value)
        replies.append(b"ok added %d 1" % seq)
    holds = {b"<": lambda v, c: v < c, b"<=": lambda v, c: v <= c, b">": lambda v, c: v > c,
             b">=": lambda v, c: v >= c, b"=": lambda v, c: v == c, b"!=": lambda v, c: v != c}
    for sign, stands in holds.items():
        for constant in values:
            lines.append(b"query p(x) <- x %s %d, e(x)" % (sign, constant))
            replies.append(b"ok query 3")
            for value in values:
                lines.append(b"has p %d" % value)
                replies.append(b"yes" if stands(value, constant) else b"no")
            lines.append(b"drop p")
            replies.append(b"ok")
    # a row that no comparison lets through is still a change
    lines += [b"query p(x) <- e(x), x > 5, x < 9", b"watch p", b"open d p", b"add e 5", b"next d 1", b"add e 7"]
    replies += [b"ok query 3", b"ok watch 11", b"ok open", b"at p 12", b"ok added 12 1", b"stale d e 12",
                b"+ p 7", b"at p 13", b"ok added 13 1"]
    expect_run(texts_of_lines(lines), texts_of_lines(replies))


@test
def the_first_of_400000000_answers_come_at_once():
    lines = [b"rel r int int", b"rel s int int", b"query q(x,y,z) <- r(x,y), s(y,z)"]
    lines += [b"add r %d 0" % at for at in range(1, 20001)]
    lines += [b"add s 0 %d" % at for at in range(1, 20001)]
    begin = time.monotonic()
    output, status = run(texts_of_lines(lines + [b"open c q", b"next c 3"]))
    told = output.splitlines()
    expect(status, 0)
    expect(told[-5:-4] + told[-1:], [b"ok open", b"more"])
    expect(len(set(told[-4:-1])), 3)
    if time.monotonic() - begin > PATIENCE:
        raise AssertionError("too slow")


# Queries, and how a set of assignments is made of their atoms: a relation, and what stands in it.
JOINS = [
    (b"a(x,y,z) <- r(x,y), s(y,z)", "xyz", [("r", "xy"), ("s", "yz")]),
    (b"b(z,y,x) <- r(x,y), r(y,z)", "zyx", [("r", "xy"), ("r", "yz")]),
    (b"c(x) <- r(x,x), s(x,_)", "x", [("r", "xx"), ("s", "x_")]),
    (b"d() <- r(1,y), s(y,2)", "", [("r", "1y"), ("s", "y2")]),
    (b"e(x,u) <- r(x,_), s(u,3)", "xu", [("r", "x_"), ("s", "u3")]),
    (b"f(y,x) <- r(x,y), s(y,_), t(y)", "yx", [("r", "xy"), ("s", "y_"), ("t", "y")]),
    (b"g(x,y,z,w) <- r(x,y), s(y,z), r(z,w)", "xyzw", [("r", "xy"), ("s", "yz"), ("r", "zw")]),
]


def count(bag, row, change):
    """Gives a row one copy more, or one less, and answers how many it has then."""
    copies = bag.pop(row, 0) + change
    if copies > 0:
        bag[row] = copies
    return copies


# Queries with comparisons: what has to hold of an assignment stands last.
COMPARED = [
    (b"a(x,y,z) <- r(x,y), y >= 1, s(y,z), y < 3", "xyz", [("r", "xy"), ("s", "yz")], lambda v: 1 <= v["y"] < 3),
    (b"b(x,y,z) <- y != 2, r(x,y), r(y,z), x <= 3", "xyz", [("r", "xy"), ("r", "yz")],
     lambda v: v["y"] != 2 and v["x"] <= 3),
    (b"c(y) <- r(x,y), s(y,z), x = 1, z > 0, z != 3", "y", [("r", "xy"), ("s", "yz")],
     lambda v: v["x"] == 1 and v["z"] > 0 and v["z"] != 3),
    (b"d(x) <- r(x,x), t(x), x > 9", "x", [("r", "xx"), ("t", "x")], lambda v: v["x"] > 9),
    (b"e() <- t(x), s(x,y), x >= 2, y <= 2", "", [("t", "x"), ("s", "xy")], lambda v: v["x"] >= 2 and v["y"] <= 2),
]


def brute(head, atoms, rows, holds=lambda values: True):
    """The answers of a query by trying every row for every atom."""
    found = [{}]
    for relation, terms in atoms:
        further = []
        for bound in found:
            for row in rows[relation]:
                new = dict(bound)
                for term, cell in zip(terms, row):
                    if term == "_":
                        continue
                    if term.isdigit():
                        fits = int(term) == cell
                    else:
                        fits = new.setdefault(term, cell) == cell
                    if not fits:
                        break
                else:
                    further.append(new)
        found = further
    return {tuple(bound[name] for name in head) for bound in found if holds(bound)}


def listed(talk, cursor, query):
    """The answers that a fresh cursor over a query lists, which are all different."""
    told = []
    talk.say(b"open " + cursor + b" " + query + b"\n")
    expect(talk.line(), b"ok open")
    while True:
        talk.say(b"next " + cursor + b" 7\n")
        while (line := talk.line()).startswith(b"="):
            told.append(tuple(int(cell) for cell in line[1:].split()))
        if line == b"end":
            break
        expect(line, b"more")
    talk.say(b"close " + cursor + b"\n")
    expect(talk.line(), b"ok")
    expect(len(told), len(set(told)), "different answers")
    return set(told)


@test
def joins_are_listed_as_by_brute_force():
    chance = random.Random(5)
    rows = {"r": {}, "s": {}, "t": {}}
    with Talk() as talk:
        talk.say(b"rel r int int\nrel s int int\nrel t int\n")
        for _ in range(3):
            expect(talk.line(), b"ok")
        late = JOINS[3:]
        for text, head, _ in JOINS[:3]:
            talk.say(b"query " + text + b"\n")
            expect(talk.line(), b"ok query %d" % (2 * len(head) + 1))
        for turn in range(300):
            relation = chance.choice("rrssst")
            row = tuple(chance.randrange(5) for _ in range(1 if relation == "t" else 2))
            cells = b" ".join(b"%d" % cell for cell in row)
            goes = row in rows[relation] and chance.random() < 0.7
            talk.say(b"%s %s %s\n" % (b"del" if goes else b"add", relation.encode(), cells))
            copies = count(rows[relation], row, -1 if goes else 1)
            ok, word, _, told = talk.line().split()
            expect((ok, word, told), (b"ok", b"removed" if goes else b"added", b"%d" % copies))
            if turn % 60 == 59 and late:
                text, head, _ = late.pop(0)
                talk.say(b"query " + text + b"\n")
                expect(talk.line(), b"ok query %d" % (2 * len(head) + 1))
            if turn % 20 == 19:
                for text, head, atoms in JOINS[:len(JOINS) - len(late)]:
                    expect(listed(talk, b"k", text[:1]), brute(head, atoms, rows), text)


@test
def joins_with_comparisons_are_listed_and_told_as_by_brute_force():
    chance = random.Random(7)
    rows = {"r": {}, "s": {}, "t": {}}
    with Talk() as talk:
        talk.say(b"rel r int int\nrel s int int\nrel t int\n")
        for _ in range(3):
            expect(talk.line(), b"ok")
        answers = {}
        for text, head, _, _ in COMPARED:
            talk.say(b"query %s\nwatch %s\n" % (text, text[:1]))
            expect(talk.line(), b"ok query %d" % (2 * len(head) + 1))
            expect(talk.line(), b"ok watch 0")
            answers[text[:1]] = set()
        for turn in range(300):
            relation = chance.choice("rrssst")
            row = tuple(chance.randrange(5) for _ in range(1 if relation == "t" else 2))
            goes = row in rows[relation] and chance.random() < 0.7
            talk.say(b"%s %s %s\n" % (b"del" if goes else b"add", relation.encode(), b" ".join(b"%d" % v for v in row)))
            count(rows[relation], row, -1 if goes else 1)
            while not (line := talk.line()).startswith(b"ok "):
                word, _, rest = line.partition(b" ")
                query, _, values = rest.partition(b" ")
                if word != b"at":
                    answer = tuple(int(value) for value in values.split())
                    expect(answer in answers[query], word == b"-", line)
                    answers[query] ^= {answer}
            for text, head, atoms, holds in COMPARED:
                wanted = brute(head, atoms, rows, holds)
                expect(answers[text[:1]], wanted, text)
                if turn % 20 == 19:
                    expect(listed(talk, b"k", text[:1]), wanted, text)


@test
def quit_and_stop_end_the_session():
    for word in [b"quit", b"stop"]:
        expect_run(word + b"\nrel r int\n", b"bye\n")
        with Talk() as talk:
            talk.say(word + b"\n")
            expect(talk.hear(4), b"bye\n")
            expect(talk.program.wait(PATIENCE), 0, word)


@test
def a_line_of_4096_bytes_is_run_and_one_more_ends_the_session():
    expect_run(b"rel r int" + b" " * 4087 + b"\n", b"ok\n")
    expect_run(b"rel r int" + b" " * 4087 + b"\r\n", b"ok\n")
    expect_run(b"rel r int" + b" " * 4088 + b"\nrel s int\n", b"end long\n", 8)
    with Talk() as talk:
        talk.say(b"x" * 4097)
        expect(talk.hear(9), b"end long\n")
        expect(talk.program.wait(PATIENCE), 8)


@test
def a_cursor_goes_stale_and_says_so():
    text = b"rel r int\nrel t int\nquery q(x) <- r(x)\nadd r 1\nadd r 2\nopen c q\nnext c 1\nadd r 1\nadd t 5\nnext c 1\nadd r 3\nnext c 1\nnext c 1\n"
    got, status = run(text)
    lines = got.decode().splitlines()
    expect(status, 0)
    expect(sorted([lines.pop(6), lines.pop(9)]), ["= 1", "= 2"], lines)
    expect(lines, ["ok", "ok", "ok query 3", "ok added 1 1", "ok added 2 1", "ok open", "more", "ok added 2 2",
                   "ok added 3 1", "end", "ok added 4 1", "stale c r 4", "stale c r 4"])


@test
def a_long_listing_comes_whole():
    count = 1000
    text = b"rel r int int\n" + b"".join(b"add r %d %d\n" % (i, -i) for i in range(count))
    text += b"query q(y,x) <- r(x,y)\nopen c q\nnext c 1\nnext c 1000\nnext c 1000\n"
    got, status = run(text)
    lines = got.decode().splitlines()
    expect(status, 0)
    expect(lines[: count + 3], ["ok"] + [f"ok added {i + 1} 1" for i in range(count)] + ["ok query 5", "ok open"])
    told = lines[count + 3:]
    expect([told[1], told[-2], told[-1]], ["more", "end", "end"])
    answers = [told[0]] + told[2:-2]
    expect(sorted(answers), sorted(f"= {-i} {i}" for i in range(count)))


@test
def limits_are_reached_without_running_out_of_memory():
    text = b"".join(b"rel r%d int\n" % i for i in range(257)) + b"query q(x) <- r0(x)\n"
    text += b"".join(b"query q%d(x) <- r1(x)\n" % i for i in range(256))
    text += b"".join(b"open c%d q\n" % i for i in range(17))
    expect_run(text, b"ok\n" * 256 + b"err 11 limit\n" + b"ok query 3\n" * 256 + b"err 11 limit\n"
               + b"ok open\n" * 16 + b"err 11 limit\n")


@test
def other_words_get_the_usage_line():
    others = [(), ("fly",), ("run", "run"), ("--help",), ("--version",), ("help",), ("RUN",)]
    serves = [(), ("a", "b"), ("a", "--turns", "0"), ("a", "--turns", "x"), ("--help",)]
    for words in others + [("serve", *more) for more in serves]:
        expect(run(b"rel r int\n", words), (USAGE, 1), words)


@test
def a_full_device_is_a_failed_write():
    with open("/dev/full", "wb") as full:
        for words, text in [(["run"], b"rel r int\n"), (["fly"], b"")]:
            done = subprocess.run([PROGRAM, *words], input=text, stdout=full, timeout=PATIENCE)
            expect(done.returncode, 3, words)


@test
def an_output_that_nobody_reads_is_a_failed_write():
    program = subprocess.Popen([PROGRAM, "run"], stdin=subprocess.PIPE, stdout=subprocess.PIPE, bufsize=0)
    program.stdout.close()
    program.stdin.write(b"rel r int\n")
    expect(program.wait(PATIENCE), 3)
    program.stdin.close()


@test
def an_input_that_cannot_be_read_is_a_failed_read():
    folder = os.open("/", os.O_RDONLY)
    try:
        done = subprocess.run([PROGRAM, "run"], stdin=folder, capture_output=True, timeout=PATIENCE)
    finally:
        os.close(folder)
    expect((done.stdout, done.returncode), (b"", 2))


@test
def a_closed_output_is_a_failed_write():
    done = subprocess.run(["sh", "-c", 'exec "$0" run >&-', PROGRAM], input=b"rel r int\n", timeout=PATIENCE)
    expect(done.returncode, 3)


@test
def a_closed_input_is_a_failed_read():
    done = subprocess.run(["sh", "-c", 'exec "$0" run <&-', PROGRAM], capture_output=True, timeout=PATIENCE)
    expect((done.stdout, done.returncode), (b"", 2))


class Serving:
    """A program that serves an address of loopback, and its clients."""

    def __init__(self, *words, memory=None):
        self.words = words
        self.limit = (lambda: resource.setrlimit(resource.RLIMIT_AS, (memory, memory))) if memory else None

    def __enter__(self):
        with socket.socket() as free:
            free.bind(("127.0.0.1", 0))
            self.port = free.getsockname()[1]
        words = [PROGRAM, "serve", f"127.0.0.1:{self.port}", *self.words]
        self.program = subprocess.Popen(
            words, stdin=subprocess.DEVNULL, stdout=subprocess.PIPE, preexec_fn=self.limit
        )
        self.clients = []
        return self

    def __exit__(self, *_):
        for client in self.clients:
            client.close()
        self.program.kill()
        self.program.wait()
        self.program.stdout.close()

    def client(self):
        until = time.monotonic() + PATIENCE
        while True:
            try:
                client = Client(socket.create_connection(("127.0.0.1", self.port), PATIENCE))
                self.clients.append(client)
                return client
            except ConnectionRefusedError:
                if time.monotonic() > until:
                    raise
                time.sleep(0.02)

    def end(self):
        status = self.program.wait(PATIENCE)
        return self.program.stdout.read(), status


class Client:
    """A session over TCP."""

    def __init__(self, stream):
        self.stream = stream
        self.stream.settimeout(PATIENCE)
        self.heard = b""

    def say(self, text):
        self.stream.sendall(text)

    def more(self):
        piece = self.stream.recv(65536)
        if piece == b"":
            raise AssertionError(f"the session ended: heard {self.heard!r}")
        self.heard += piece

    def hear(self, count):
        while len(self.heard) < count:
            self.more()
        heard, self.heard = self.heard[:count], self.heard[count:]
        return heard

    def line(self):
        while b"\n" not in self.heard:
            self.more()
        line, self.heard = self.heard.split(b"\n", 1)
        return line

    def ask(self, line, *replies):
        want = b"".join(reply + b"\n" for reply in replies)
        self.say(line + b"\n")
        expect(self.hear(len(want)), want, line)

    def rest(self):
        self.stream.shutdown(socket.SHUT_WR)
        return self.to_the_end()

    def to_the_end(self):
        pieces = [self.heard]
        while piece := self.stream.recv(65536):
            pieces.append(piece)
        return b"".join(pieces)

    def reset(self):
        self.stream.setsockopt(socket.SOL_SOCKET, socket.SO_LINGER, struct.pack("ii", 1, 0))
        self.stream.close()

    def close(self):
        self.stream.close()


@test
def a_client_is_served_and_stops_the_server():
    with Serving() as serving:
        client = serving.client()
        for line, replies in SESSION:
            client.ask(line, *replies)
        client.ask(b"stop", b"bye")
        expect(client.to_the_end(), b"")
        expect(serving.end(), (b"", 0))


@test
def a_client_in_single_bytes_ends_with_its_input():
    with Serving() as serving:
        client = serving.client()
        for byte in lines_of(SESSION):
            client.say(bytes([byte]))
        client.say(b"add r 9")
        expect(client.rest(), replies_of(SESSION) + b"err 13 cut\n")
        serving.client().ask(b"stop", b"bye")
        expect(serving.end(), (b"", 0))


@test
def two_clients_share_the_rows():
    with Serving() as serving:
        one, two = serving.client(), serving.client()
        one.ask(b"rel r int", b"ok")
        two.ask(b"add r 1", b"ok added 1 1")
        one.ask(b"query q(x) <- r(x)", b"ok query 3")
        one.ask(b"open c q", b"ok open")
        two.ask(b"open c q", b"ok open")
        one.ask(b"next c 9", b"= 1", b"end")
        two.ask(b"add r 2", b"ok added 2 1")
        one.ask(b"next c 9", b"stale c r 2")
        two.ask(b"next c 9", b"stale c r 2")
        one.ask(b"quit", b"bye")
        expect(one.to_the_end(), b"")
        two.ask(b"stop", b"bye")
        expect(serving.end(), (b"", 0))


@test
def a_client_that_never_reads_delays_no_other():
    with Serving() as serving:
        mute, other = serving.client(), serving.client()
        other.ask(b"rel r int", b"ok")
        for number in range(1, 301):
            other.ask(b"add r %d" % number, b"ok added %d 1" % number)
        other.ask(b"query q(x) <- r(x)", b"ok query 3")
        mute.say(b"open c q\n" + b"next c 300\nclose c\nopen c q\n" * 20000)
        for number in range(301, 501):
            other.ask(b"add r %d" % number, b"ok added %d 1" % number)
        other.ask(b"stop", b"bye")
        expect(serving.end(), (b"", 0))


@test
def a_reset_in_the_middle_of_a_line_ends_one_session_alone():
    with Serving() as serving:
        one, two = serving.client(), serving.client()
        one.ask(b"rel r int", b"ok")
        one.say(b"add r ")
        one.reset()
        two.ask(b"add r 1", b"ok added 1 1")
        two.ask(b"stop", b"bye")
        expect(serving.end(), (b"", 0))


@test
def the_65th_client_is_told_that_it_is_full():
    with Serving() as serving:
        clients = [serving.client() for _ in range(64)]
        for client in clients:
            client.ask(b"rel r int", *[b"ok" if client is clients[0] else b"err 2 taken"])
        expect(serving.client().to_the_end(), b"end full\n")
        clients[5].ask(b"quit", b"bye")
        expect(clients[5].to_the_end(), b"")
        serving.client().ask(b"rel r int", b"err 2 taken")
        clients[7].ask(b"stop", b"bye")
        expect(serving.end(), (b"", 0))


@test
def turns_are_used():
    with Serving("--turns", "1") as serving:
        expect(serving.end(), (b"", 5))


@test
def an_address_that_is_none_is_a_fault_of_the_hub():
    for address in ["nowhere", "127.0.0.1", "127.0.0.1:99999"]:
        expect(run(b"", ("serve", address)), (b"", 4), address)


@test
def where_it_listens_is_said():
    words = [PROGRAM, "serve", "127.0.0.1:0"]
    program = subprocess.Popen(words, stdin=subprocess.DEVNULL, stdout=subprocess.PIPE, stderr=subprocess.PIPE)
    try:
        line = program.stderr.readline()
        expect(re.match(rb"djq \d+\.\d+\.\d+: listening on 127\.0\.0\.1:\d+\n", line) is not None, True, line)
        client = Client(socket.create_connection(("127.0.0.1", int(line.rpartition(b":")[2])), PATIENCE))
        client.ask(b"stop", b"bye")
        client.close()
        expect((program.wait(PATIENCE), program.stdout.read(), program.stderr.read()), (0, b"", b""))
    finally:
        program.kill()
        program.wait()
        program.stdout.close()
        program.stderr.close()


@test
def a_request_of_http_is_closed_before_a_line_is_run():
    with Serving() as serving:
        for request in [b"POST / HTTP/1.1\r\nHost: 127.0.0.1\r\n\r\nstop\n", b"GET /\nstop\n"]:
            web = serving.client()
            web.say(request)
            expect(web.to_the_end(), b"", request)
        client = serving.client()
        client.ask(b"GET", b"err 1 syntax")
        client.ask(b"stop", b"bye")
        expect(serving.end(), (b"", 0))


@test
def a_schedule_is_replayed():
    schedule = (b"open 1\nopen 2\nsay 1 rel r int\nsay 1 query q(x) <- r(x)\nsay 2 open c q\npart 2 ne\n"
                b"say 1 add r 1\nsay 2 xt c 1\nagain 1\nsay 1 has q 1\nsay 2 has q 2\nfree 1\nend 1\nend 2")
    told = (b"1< ok\n1< ok query 3\n2< ok open\n1< ok added 1 1\n2< stale c r 1\n2< no\n1< yes\n")
    expect(run(schedule, ("replay",)), (told, 0))
    expect(run(b"open 1\nopen 2\nsay 1 stop\nsay 2 quit\n", ("replay",)), (b"1< bye\n", 0))
    expect(run(b"".join(b"open %d\n" % i for i in range(1, 66)), ("replay",)), (b"65< end full\n", 0))
    expect(run(b"", ("replay",)), (b"", 0))


@test
def a_schedule_with_a_line_outside_its_grammar_is_not_run():
    for line in [b"say 2 x", b"", b"open 1", b"open 01", b"end 1 now", b"fly 1", b"say 1 " + b"x" * 8187]:
        expect(run(b"open 1\nsay 1 rel r int\n" + line + b"\nsay 3\n", ("replay",)), (b"schedule 3\n", 7), line[:9])


# Watches


@test
def a_watcher_is_told_before_the_reply():
    session = [
        (b"rel r int int", [b"ok"]),
        (b"query q(x) <- r(x,y)", [b"ok query 3"]),
        (b"watch q", [b"ok watch 0"]),
        (b"add r 1 10", [b"+ q 1", b"at q 1", b"ok added 1 1"]),
        (b"add r 1 11", [b"at q 2", b"ok added 2 1"]),
        (b"open c q", [b"ok open"]),
        (b"next c 9", [b"= 1", b"end"]),
        (b"add r 1 11", [b"ok added 2 2"]),
        (b"del r 1 10", [b"at q 3", b"ok removed 3 0"]),
        (b"del r 1 11", [b"ok removed 3 1"]),
        (b"del r 1 11", [b"- q 1", b"at q 4", b"ok removed 4 0"]),
        (b"del r 1 11", [b"ok absent 4"]),
        (b"unwatch q", [b"ok"]),
        (b"add r 2 2", [b"ok added 5 1"]),
        (b"watch q", [b"ok watch 5"]),
        (b"add r 2 3", [b"at q 6", b"ok added 6 1"]),
    ]
    expect_run(lines_of(session), replies_of(session))
    expect_run(lines_of(session, b"\r\n"), replies_of(session))
    with Talk() as talk:
        for byte in lines_of(session):
            talk.say(bytes([byte]))
        expect(talk.end(), (replies_of(session), 0))


@test
def a_row_has_copies_and_only_the_first_and_the_last_are_changes():
    session = [
        (b"rel r int", [b"ok"]),
        (b"query q(x) <- r(x)", [b"ok query 3"]),
        (b"watch q", [b"ok watch 0"]),
        (b"add r 5", [b"+ q 5", b"at q 1", b"ok added 1 1"]),
        (b"open c q", [b"ok open"]),
        (b"add r 5", [b"ok added 1 2"]),
        (b"next c 1", [b"= 5", b"end"]),
        (b"del r 5", [b"ok removed 1 1"]),
        (b"next c 1", [b"end"]),
        (b"has q 5", [b"yes"]),
        (b"del r 5", [b"- q 5", b"at q 2", b"ok removed 2 0"]),
        (b"next c 1", [b"stale c r 2"]),
        (b"del r 5", [b"ok absent 2"]),
        (b"has q 5", [b"no"]),
    ]
    expect_run(lines_of(session), replies_of(session))
    with Talk() as talk:
        for byte in lines_of(session):
            talk.say(bytes([byte]))
        expect(talk.end(), (replies_of(session), 0))


@test
def many_copies_of_two_rows_are_counted_apart():
    lines = [b"rel r int text", b'add r 1 "a"'] + [b'add r 2 "a"'] * 1000 + [b'del r 1 "a"'] * 2 + [b'del r 2 "a"'] * 1001
    replies = [b"ok", b"ok added 1 1"] + [b"ok added 2 %d" % copies for copies in range(1, 1001)]
    replies += [b"ok removed 3 0", b"ok absent 3"] + [b"ok removed 3 %d" % left for left in range(999, 0, -1)]
    replies += [b"ok removed 4 0", b"ok absent 4"]
    expect_run(texts_of_lines(lines), texts_of_lines(replies))


@test
def copies_that_two_sessions_add_are_of_one_row():
    schedule = (b"open 1\nopen 2\nopen 3\nsay 1 rel r int\nsay 1 query q(x) <- r(x)\nsay 3 watch q\nsay 1 add r 7\n"
                b"say 3 open c q\nsay 2 add r 7\nsay 1 del r 7\nsay 3 next c 1\nend 1\nsay 2 del r 7\nsay 2 del r 7\n"
                b"say 3 next c 1\n")
    told = (b"1< ok\n1< ok query 3\n3< ok watch 0\n1< ok added 1 1\n3< + q 7\n3< at q 1\n3< ok open\n2< ok added 1 2\n"
            b"1< ok removed 1 1\n3< = 7\n3< end\n2< ok removed 2 0\n3< - q 7\n3< at q 2\n2< ok absent 2\n3< stale c r 2\n")
    expect(run(schedule, ("replay",)), (told, 0))


@test
def a_self_join_is_told_once_for_each_answer():
    lines = [b"rel r int int", b"query q(x,y,z) <- r(x,y), r(y,z)", b"watch q", b"add r 1 1", b"add r 1 2", b"del r 1 1"]
    output, status = run(texts_of_lines(lines))
    told = output.splitlines()
    told[9:11] = sorted(told[9:11])
    want = [b"ok", b"ok query 7", b"ok watch 0", b"+ q 1 1 1", b"at q 1", b"ok added 1 1", b"+ q 1 1 2", b"at q 2",
            b"ok added 2 1", b"- q 1 1 1", b"- q 1 1 2", b"at q 3", b"ok removed 3 0"]
    expect((told, status), (want, 0))


@test
def watches_are_refused_in_order():
    session = [
        (b"watch", [b"err 1 syntax"]),
        (b"watch q p", [b"err 1 syntax"]),
        (b"unwatch 1", [b"err 1 syntax"]),
        (b"watch q", [b"err 4 no query"]),
        (b"unwatch q", [b"err 4 no query"]),
        (b"rel q int", [b"ok"]),
        (b"watch q", [b"err 4 no query"]),
        (b"query q() <- q(_)", [b"ok query 1"]),
        (b"unwatch q", [b"ok"]),
        (b"watch q", [b"ok watch 0"]),
        (b"watch q", [b"ok watch 0"]),
        (b"drop q", [b"err 14 in use"]),
        (b"add q 7", [b"+ q", b"at q 1", b"ok added 1 1"]),
        (b"add q 8", [b"at q 2", b"ok added 2 1"]),
        (b"watch q", [b"ok watch 2"]),
        (b"unwatch q", [b"ok"]),
        (b"drop q", [b"ok"]),
        (b"unwatch q", [b"err 4 no query"]),
        (b"query q(x) <- q(x)", [b"ok query 3"]),
        (b"add q 9", [b"ok added 3 1"]),
        (b"watch q", [b"ok watch 3"]),
        (b"quit", [b"bye"]),
    ]
    expect_run(lines_of(session), replies_of(session))


@test
def texts_are_told_as_they_were_said():
    session = [
        (b"rel t int text", [b"ok"]),
        (b"query q(x) <- t(_,x)", [b"ok query 3"]),
        (b"watch q", [b"ok watch 0"]),
        ('add t 1 "a\\n\\"\\\\ äö 😀"'.encode(), ['+ q "a\\n\\"\\\\ äö 😀"'.encode(), b"at q 1", b"ok added 1 1"]),
        (b'add t -1 ""', [b'+ q ""', b"at q 2", b"ok added 2 1"]),
        (b'del t -1 ""', [b'- q ""', b"at q 3", b"ok removed 3 0"]),
    ]
    expect_run(lines_of(session), replies_of(session))


@test
def queries_go_by_registration_and_sessions_by_opening():
    schedule = (b"open 1\nopen 2\nopen 7\nsay 2 rel r int\nsay 2 query z(x) <- r(x)\nsay 2 query a(x) <- r(x)\n"
                b"say 7 watch a\nsay 7 watch z\nsay 2 watch a\nsay 2 watch z\nsay 1 watch a\nsay 2 add r 5\n"
                b"say 2 unwatch z\nsay 7 quit\nsay 1 del r 5\nend 1\nend 2\n")
    told = (b"2< ok\n2< ok query 3\n2< ok query 3\n7< ok watch 0\n7< ok watch 0\n2< ok watch 0\n2< ok watch 0\n1< ok watch 0\n"
            b"1< + a 5\n1< at a 1\n2< + z 5\n2< at z 1\n2< + a 5\n2< at a 1\n2< ok added 1 1\n"
            b"7< + z 5\n7< at z 1\n7< + a 5\n7< at a 1\n2< ok\n7< bye\n"
            b"1< - a 5\n1< at a 2\n1< ok removed 2 0\n2< - a 5\n2< at a 2\n")
    expect(run(schedule, ("replay",)), (told, 0))


@test
def a_change_within_a_line_of_the_watcher():
    schedule = (b"open 1\nopen 2\nsay 1 rel r int\nsay 1 query q(x) <- r(x)\nsay 2 watch q\nsay 1 add r 1\nsay 1 open c q\n"
                b"part 2 add r\nsay 1 next c 1\nsay 2  2\nsay 1 next c 1\nend 1\nend 2\n")
    told = (b"1< ok\n1< ok query 3\n2< ok watch 0\n1< ok added 1 1\n2< + q 1\n2< at q 1\n1< ok open\n1< = 1\n1< end\n"
            b"2< + q 2\n2< at q 2\n2< ok added 2 1\n1< stale c r 2\n")
    expect(run(schedule, ("replay",)), (told, 0))


@test
def a_watcher_that_is_not_sent_to_ends_slow():
    text = b'"' + b"a" * 255 + b'"'
    wide = b" ".join([text] * 4)
    schedule = [b"open 1", b"open 2", b"open 3", b"say 2 rel t text text text text", b"say 2 rel r int", b"say 2 add t " + wide]
    schedule += [b"say 2 add r %d" % at for at in range(1, 33)]
    schedule += [b"say 2 query q(a,b,c,d,x,y) <- t(a,b,c,d), r(x), r(y)", b"say 2 query w(x) <- r(x)", b"say 1 watch w",
                 b"say 3 watch w", b"say 1 open c q", b"again 1", b"say 1 next c 1000", b"say 1 next c 1000",
                 b"say 2 add r 33", b"say 2 drop w", b"say 3 unwatch w", b"say 2 drop w", b"free 1", b"end 2", b"end 3"]
    output, status = run(texts_of_lines(schedule), ("replay",))
    told = {number: [] for number in (b"1", b"2", b"3")}
    for line in output.splitlines():
        number, _, line = line.partition(b"< ")
        told[number].append(line)
    expect(status, 0)
    expect(told[b"3"], [b"ok watch 33", b"+ w 33", b"at w 34", b"ok"])
    expect(told[b"2"][-5:], [b"ok query 13", b"ok query 3", b"ok added 34 1", b"err 14 in use", b"ok"])
    mute = told[b"1"]
    expect(mute[:2] + [mute[1002]] + mute[-2:], [b"ok watch 33", b"ok open", b"more", b"end", b"end slow"])
    answers = mute[2:1002] + mute[1003:-2]
    expect(set(answers), {b"= %s %d %d" % (wide, x, y) for x in range(1, 33) for y in range(1, 33)})
    expect(len(answers), 1024)


@test
def a_long_delta_is_whole_and_a_further_one_finds_the_session_slow():
    # 4,900 lines of over 260 bytes are pending as the second delta of one change begins
    lines = [b"rel t int text", b"rel u int", b"rel s int", b"query q(x,a,y,z) <- t(x,a), u(y), s(z)", b"query p(z) <- s(z)"]
    replies = [b"ok", b"ok", b"ok", b"ok query 9", b"ok query 3"]
    text = b'"%s"' % (b"a" * 250)
    lines += [b"add t %d %s" % (at, text) for at in range(70)] + [b"add u %d" % at for at in range(70)]
    replies += [b"ok added %d 1" % at for at in range(1, 141)]
    lines += [b"watch q", b"add s 7", b"watch p", b"del s 7", b"add s 8"]
    came, went = (sorted(b"%s q %d %s %d 7" % (sign, x, text, y) for x in range(70) for y in range(70)) for sign in (b"+", b"-"))
    output, status = run(texts_of_lines(lines))
    told = output.splitlines()
    at = len(replies)
    expect(told[:at + 1], replies + [b"ok watch 140"])
    expect(sorted(told[at + 1:at + 4901]), came)
    expect(told[at + 4901:at + 4904], [b"at q 141", b"ok added 141 1", b"ok watch 141"])
    expect(sorted(told[at + 4904:at + 9804]), went)
    expect((told[at + 9804:], status), ([b"at q 142", b"end slow"], 8))


# Transactions


def expect_session(session):
    """A session goes as it is written, in one piece, with CR, and in single bytes. Lines of a delta that stand together come
    in any order."""
    told = (in_any_order(replies_of(session).splitlines()), 0)
    for text in (lines_of(session), lines_of(session, b"\r\n")):
        output, status = run(text)
        expect((in_any_order(output.splitlines()), status), told, text[:60])
    with Talk() as talk:
        for byte in lines_of(session):
            talk.say(bytes([byte]))
        output, status = talk.end()
        expect((in_any_order(output.splitlines()), status), told)


@test
def lines_of_a_transaction_are_one_change():
    expect_session([
        (b"rel r int int", [b"ok"]),
        (b"query q(x,y,z) <- r(x,y), r(y,z)", [b"ok query 7"]),
        (b"watch q", [b"ok watch 0"]),
        (b"batch", [b"ok batch"]),
        (b"add r 1 2", [b"ok held 1"]),
        (b"add r 2 3", [b"ok held 2"]),
        (b"add r 1 2", [b"ok held 3"]),
        (b"done", [b"+ q 1 2 3", b"at q 1", b"ok done 1 2"]),
        (b"batch", [b"ok batch"]),
        (b"next c 1", [b"err 18 batch"]),
        (b"done", [b"ok done 1 0"]),
        (b"done", [b"err 18 batch"]),
        (b"del r 1 2", [b"ok removed 1 1"]),
        (b"del r 1 2", [b"- q 1 2 3", b"at q 2", b"ok removed 2 0"]),
        (b"batch", [b"ok batch"]),
        (b"add r 2 3", [b"ok held 1"]),
        (b"done", [b"ok done 2 0"]),
        (b"batch", [b"ok batch"]),
        (b"add r 1 2", [b"ok held 1"]),
        (b"del r 2 3", [b"ok held 2"]),
        (b"del r 2 3", [b"ok held 3"]),
        (b"add r 2 4", [b"ok held 4"]),
        (b"done 4", [b"+ q 1 2 4", b"at q 3", b"ok done 3 3"]),
        (b"batch", [b"ok batch"]),
        (b"del r 2 4", [b"ok held 1"]),
        (b"add r 2 3", [b"ok held 2"]),
        (b"done", [b"+ q 1 2 3", b"- q 1 2 4", b"at q 4", b"ok done 4 2"]),
        (b"del r 2 3", [b"- q 1 2 3", b"at q 5", b"ok removed 5 0"]),
    ])


@test
def what_stays_an_answer_isnt_in_the_delta():
    """A changed column that the query doesn't show, and rows before and after of which some would join with each other."""
    expect_session([
        (b"rel r int int", [b"ok"]),
        (b"rel s int", [b"ok"]),
        (b"query q(x) <- r(x,_)", [b"ok query 3"]),
        (b"query p(x,y) <- s(x), r(y,_)", [b"ok query 5"]),
        (b"add r 1 10", [b"ok added 1 1"]),
        (b"add s 7", [b"ok added 2 1"]),
        (b"watch q", [b"ok watch 2"]),
        (b"watch p", [b"ok watch 2"]),
        (b"batch", [b"ok batch"]),
        (b"del r 1 10", [b"ok held 1"]),
        (b"add r 1 11", [b"ok held 2"]),
        (b"done", [b"at q 3", b"at p 3", b"ok done 3 2"]),
        (b"batch", [b"ok batch"]),
        (b"del r 1 11", [b"ok held 1"]),
        (b"add r 2 1", [b"ok held 2"]),
        (b"del s 7", [b"ok held 3"]),
        (b"add s 8", [b"ok held 4"]),
        (b"done", [b"+ q 2", b"- q 1", b"at q 4", b"+ p 8 2", b"- p 7 1", b"at p 4", b"ok done 4 4"]),
        (b"batch", [b"ok batch"]),
        (b"del s 8", [b"ok held 1"]),
        (b"add r 3 3", [b"ok held 2"]),
        (b"del r 3 3", [b"ok held 3"]),
        (b"add s 8", [b"ok held 4"]),
        (b"done", [b"ok done 4 0"]),
        (b"batch", [b"ok batch"]),
        (b"del r 2 1", [b"ok held 1"]),
        (b"del s 8", [b"ok held 2"]),
        (b"done", [b"- q 2", b"at q 5", b"- p 8 2", b"at p 5", b"ok done 5 2"]),
    ])


@test
def a_refused_line_isnt_held_and_a_batch_is_abandoned():
    expect_session([
        (b"rel r int int", [b"ok"]),
        (b"batch", [b"ok batch"]),
        (b"add z 1", [b"err 3 no relation"]),
        (b"del z 1", [b"err 3 no relation"]),
        (b"add r 1", [b"err 6 arity"]),
        (b"del r 1", [b"err 6 arity"]),
        (b"abandon", [b"ok"]),
        (b"done", [b"err 18 batch"]),
        (b"abandon", [b"err 18 batch"]),
        (b"batch", [b"ok batch"]),
        (b"add r 1 2", [b"ok held 1"]),
        (b"add r 1 \"a\"", [b"err 7 type"]),
        (b"del r 1 \"a\"", [b"err 7 type"]),
        (b"add r 3 4", [b"ok held 2"]),
        (b"done", [b"ok done 1 2"]),
        (b"batch", [b"ok batch"]),
        (b"add r 5 6", [b"ok held 1"]),
        (b"del r 1 2", [b"ok held 2"]),
        (b"abandon", [b"ok"]),
        (b"add r 5 6", [b"ok added 2 1"]),
        (b"del r 1 2", [b"ok removed 3 0"]),
    ])


@test
def a_row_without_a_copy_refuses_a_transaction_whole():
    expect_session([
        (b"rel r int", [b"ok"]),
        (b"query q(x) <- r(x)", [b"ok query 3"]),
        (b"add r 1", [b"ok added 1 1"]),
        (b"add r 1", [b"ok added 1 2"]),
        (b"watch q", [b"ok watch 1"]),
        (b"open c q", [b"ok open"]),
        (b"batch", [b"ok batch"]),
        (b"add r 2", [b"ok held 1"]),
        (b"del r 1", [b"ok held 2"]),
        (b"del r 1", [b"ok held 3"]),
        (b"del r 1", [b"ok held 4"]),
        (b"add r 1", [b"ok held 5"]),
        (b"done", [b"err 19 absent"]),
        (b"done", [b"err 18 batch"]),
        (b"next c 9", [b"= 1", b"end"]),
        (b"batch", [b"ok batch"]),
        (b"del r 9", [b"ok held 1"]),
        (b"add r 9", [b"ok held 2"]),
        (b"done 2", [b"err 19 absent"]),
        (b"batch", [b"ok batch"]),
        (b"add r 9", [b"ok held 1"]),
        (b"del r 9", [b"ok held 2"]),
        (b"del r 1", [b"ok held 3"]),
        (b"done", [b"ok done 1 0"]),
        (b"next c 9", [b"end"]),
        (b"del r 2", [b"ok absent 1"]),
        (b"del r 1", [b"- q 1", b"at q 2", b"ok removed 2 0"]),
    ])


@test
def done_with_another_number_than_lines_are_held_refuses_all():
    session = [(b"rel r int", [b"ok"])]
    for held, said, reply in (
        (0, b"0", b"ok done 0 0"), (0, b"000", b"ok done 0 0"), (0, b"1", b"err 20 held"), (1, b"0", b"err 20 held"), (1, b"2", b"err 20 held"),
        (2, b"65538", b"err 20 held"), (2, b"18446744073709551618", b"err 20 held"), (2, b"4294967298", b"err 20 held"),
        (2, b"9" * 60, b"err 20 held"), (2, b"0002", b"ok done 1 2"), (2, b"2", b"ok done 1 0"),
    ):
        session += [(b"batch", [b"ok batch"])] + [(b"add r %d" % at, [b"ok held %d" % (at + 1)]) for at in range(held)]
        session += [(b"done " + said, [reply]), (b"done", [b"err 18 batch"])]
    for line in (b"done -1", b"done 1 1", b"done x", b'done "1"', b"done _", b"done1"):
        session.append((line, [b"err 1 syntax"]))
    session += [(b"done 99", [b"err 18 batch"]), (b"del r 0", [b"ok removed 1 1"])]
    expect_session(session)


@test
def what_isnt_for_a_batch_is_refused_in_its_order():
    past = b"9223372036854775808"
    session = [(b"rel r int", [b"ok"]), (b"query q(x) <- r(x)", [b"ok query 3"]), (b"open c q", [b"ok open"]),
               (b"batch", [b"ok batch"])]
    for line in [b"rel s int", b"rel r int", b"query p(x) <- r(x)", b"query p(x) <- r(%s,x)" % past,
                 b"drop q", b"drop z", b"open d q", b"next c 1", b"next z 1", b"close c", b"has q 1", b"has q " + past, b"watch q",
                 b"unwatch q", b"explain q", b"shape q", b"union u q q", b"batch"]:
        session.append((line, [b"err 18 batch"]))
    for line in [b"rel r bool", b"del r", b"batch 1", b"done 1 1", b"done r", b"abandon r", b"next c 0", b"add", b"add r", b"nothing"]:
        session.append((line, [b"err 1 syntax"]))
    for word in (b"add", b"del"):
        session += [(word + b" z " + past, [b"err 7 type"]), (word + b' z "a"', [b"err 3 no relation"]),
                    (word + b' r "a" 1', [b"err 6 arity"]), (word + b' r "a"', [b"err 7 type"])]
    session += [(b"add r 1", [b"ok held 1"]), (b"del r 1", [b"ok held 2"]), (b"add r 1", [b"ok held 3"]), (b"done 3", [b"ok done 1 1"]),
                (b"next c 1", [b"stale c r 1"]), (b"batch", [b"ok batch"]), (b"quit", [b"bye"])]
    expect_session(session)


@test
def a_batch_holds_65536_lines():
    most = 65_536
    held = [b"ok held %d" % (at + 1) for at in range(most)]
    lines = [b"rel r int", b"batch"] + [b"add r %d" % (at % 700) for at in range(most)]
    lines += [b"add r 1", b"del r 1", b"add z 1", b"del r", b"done %d" % most]
    replies = [b"ok", b"ok batch", *held, b"err 11 limit", b"err 11 limit", b"err 3 no relation", b"err 1 syntax", b"ok done 1 700"]
    copies = [most // 700 + (number < most % 700) for number in range(700)]
    lines += [b"del r 0", b"del r 699"]
    replies += [b"ok removed 1 %d" % (copies[0] - 1), b"ok removed 1 %d" % (copies[699] - 1)]
    # as many lines take all copies but two
    lines += [b"batch"] + [b"del r %d" % number for number in range(700) for _ in range(copies[number] - 1)] + [b"done"]
    replies += [b"ok batch", *held[: sum(copies) - 700], b"ok done 2 2"]
    lines += [b"del r 1", b"del r 0"]
    replies += [b"ok removed 3 0", b"ok absent 3"]
    expect_run(texts_of_lines(lines), texts_of_lines(replies))


@test
def a_batch_holds_16777216_bytes():
    # spaces within a line count, and the CR at its end doesn't
    full = [b"add r 1".ljust(4096)] * 4095
    for end in (b"\n", b"\r\n"):
        for lines, replies in (
            ([b"add r 2".ljust(4096), b"add r 3", b"del r 1", b"done 4096"], [b"ok held 4096", b"err 11 limit", b"err 11 limit", b"ok done 1 2"]),
            ([b"del r 1".ljust(4089), b"add r 22", b"add r 3", b"done"], [b"ok held 4096", b"err 11 limit", b"ok held 4097", b"ok done 1 2"]),
            ([b"add r 2".ljust(4090), b"add r 3", b"add r 33", b"abandon"], [b"ok held 4096", b"err 11 limit", b"err 11 limit", b"ok"]),
        ):
            said = [b"rel r int", b"batch", *full, *lines]
            told = [b"ok", b"ok batch"] + [b"ok held %d" % (at + 1) for at in range(4095)] + replies
            expect_run(b"".join(line + end for line in said), texts_of_lines(told))


@test
def a_cursor_is_stale_by_the_first_named_relation_that_changed():
    lines = [b"rel r int", b"rel s int", b"query q(x) <- r(x), s(x)", b"query p(x) <- s(x)", b"query w(x) <- r(x)", b"add s 1"]
    replies = [b"ok", b"ok", b"ok query 3", b"ok query 3", b"ok query 3", b"ok added 1 1"]
    for held, done, stale in [
        ([b"add s 1", b"add r 5", b"add s 7"], b"ok done 2 2", [b"stale a s 2", b"stale b s 2", b"stale c r 2"]),
        ([b"add s 1", b"add r 6"], b"ok done 3 1", [b"stale a r 3", None, b"stale c r 3"]),
        ([b"add r 5", b"add s 8", b"add r 5"], b"ok done 4 1", [b"stale a s 4", b"stale b s 4", None]),
        ([b"add r 5", b"add s 8"], b"ok done 4 0", [None, None, None]),
        # a row that comes and goes, or goes and comes back, changes nothing
        ([b"add r 9", b"del r 9", b"del s 7", b"add r 3"], b"ok done 5 2", [b"stale a r 5", b"stale b s 5", b"stale c r 5"]),
        ([b"del r 3", b"add s 9", b"add r 3"], b"ok done 6 1", [b"stale a s 6", b"stale b s 6", None]),
        ([b"del r 3", b"add r 3", b"add s 4", b"del s 4"], b"ok done 6 0", [None, None, None]),
        ([b"del s 8", b"del s 2"], b"err 19 absent", [None, None, None]),
    ]:
        lines += [b"open a q", b"open b p", b"open c w", b"batch", *held, b"done"]
        replies += [b"ok open"] * 3 + [b"ok batch"] + [b"ok held %d" % (at + 1) for at in range(len(held))] + [done]
        for cursor, told in zip((b"a", b"b", b"c"), stale):
            if told is not None:
                lines.append(b"next %s 1" % cursor)
                replies.append(told)
            lines.append(b"close " + cursor)
            replies.append(b"ok")
    expect_run(texts_of_lines(lines), texts_of_lines(replies))


@test
def a_transaction_is_told_to_all_who_watch_as_one_change():
    schedule = (b"open 1\nopen 2\nopen 3\nsay 1 rel r int\nsay 1 rel s int\nsay 1 query q(x,y) <- r(x), s(y)\n"
                b"say 1 query p(x) <- s(x)\nsay 1 query w(x) <- r(x), x > 100\nsay 2 watch q\nsay 3 watch p\nsay 3 watch w\n"
                b"say 1 batch\nsay 1 add r 7\nsay 2 add s 7\nsay 3 has q 7 7\nsay 1 add s 8\nsay 1 add s 7\nsay 2 open c q\n"
                b"say 1 done\nsay 2 next c 1\nsay 1 watch q\nsay 1 batch\nsay 1 add r 9\nsay 2 del s 8\nsay 1 del r 7\nsay 1 done 2\n"
                b"say 1 batch\nsay 1 del s 7\nsay 3 batch\nsay 3 del s 7\nsay 3 done\nsay 1 done\n")
    told = [b"1< ok", b"1< ok", b"1< ok query 5", b"1< ok query 3", b"1< ok query 3", b"2< ok watch 0", b"3< ok watch 0",
            b"3< ok watch 0", b"1< ok batch", b"1< ok held 1", b"2< at q 1", b"2< ok added 1 1", b"3< + p 7", b"3< at p 1",
            b"3< no", b"1< ok held 2", b"1< ok held 3", b"2< ok open",
            b"1< ok done 2 2", b"2< + q 7 7", b"2< + q 7 8", b"2< at q 2", b"3< + p 8", b"3< at p 2", b"3< at w 2",
            b"2< stale c r 2", b"1< ok watch 2", b"1< ok batch", b"1< ok held 1",
            b"1< - q 7 8", b"1< at q 3", b"2< - q 7 8", b"2< at q 3", b"2< ok removed 3 0", b"3< - p 8", b"3< at p 3", b"1< ok held 2",
            b"1< + q 9 7", b"1< - q 7 7", b"1< at q 4", b"1< ok done 4 2", b"2< + q 9 7", b"2< - q 7 7", b"2< at q 4", b"3< at w 4",
            # the row has two copies: both transactions that delete one are done
            b"1< ok batch", b"1< ok held 1", b"3< ok batch", b"3< ok held 1", b"3< ok done 4 0",
            b"1< - q 9 7", b"1< at q 5", b"1< ok done 5 1", b"2< - q 9 7", b"2< at q 5", b"3< - p 7", b"3< at p 5"]
    output, status = run(schedule, ("replay",))
    expect((in_any_order(output.splitlines()), status), (in_any_order(told), 0))


@test
def a_transaction_is_refused_by_what_others_did_meanwhile():
    schedule = (b"open 1\nopen 2\nsay 1 rel r int int\nsay 1 add r 1 10\nsay 1 batch\nsay 1 del r 1 10\nsay 1 add r 1 11\n"
                b"say 2 batch\nsay 2 del r 1 10\nsay 2 add r 1 12\nsay 2 done 2\nsay 1 done 2\nsay 1 del r 1 12\nsay 1 del r 1 11\n")
    told = (b"1< ok\n1< ok added 1 1\n1< ok batch\n1< ok held 1\n1< ok held 2\n2< ok batch\n2< ok held 1\n2< ok held 2\n"
            b"2< ok done 2 2\n1< err 19 absent\n1< ok removed 3 0\n1< ok absent 3\n")
    expect(run(schedule, ("replay",)), (told, 0))


@test
def a_batch_ends_with_its_session():
    """Lines that are held as a session ends by itself are reported as its last line, or before `bye`."""
    schedule = (b"open 1\nopen 2\nopen 3\nsay 1 rel r int\nsay 1 query q(x) <- r(x)\nsay 2 batch\nsay 2 add r 1\nend 2\n"
                b"say 3 batch\nsay 3 del r 2\nsay 3 quit\nopen 4\nsay 4 batch\nsay 4 add r 3\nsay 4 " + b"x" * 4097 + b"\n"
                b"say 1 open c q\nsay 1 next c 1\nsay 1 batch\nsay 1 add r 4\npart 1 done\nend 1\nopen 5\nsay 5 done\n"
                b"say 5 add r 5\nopen 6\nsay 6 batch\nend 6\nopen 7\nsay 7 batch\nsay 7 quit\nsay 5 batch\nsay 5 add r 6\n"
                b"open 8\nsay 8 batch\nsay 8 add r 7\nsay 8 stop\n")
    told = (b"1< ok\n1< ok query 3\n2< ok batch\n2< ok held 1\n2< err 18 batch\n3< ok batch\n3< ok held 1\n3< err 18 batch\n3< bye\n"
            b"4< ok batch\n4< ok held 1\n4< end long\n1< ok open\n1< end\n1< ok batch\n1< ok held 1\n1< err 13 cut\n1< err 18 batch\n"
            b"5< err 18 batch\n5< ok added 1 1\n6< ok batch\n7< ok batch\n7< bye\n5< ok batch\n5< ok held 1\n"
            b"8< ok batch\n8< ok held 1\n8< err 18 batch\n8< bye\n")
    expect(run(schedule, ("replay",)), (told, 0))
    begun = b"ok\nok batch\nok held 1\n"
    expect_run(b"rel r int\nbatch\nadd r 1\n", begun + b"err 18 batch\n")
    expect_run(b"rel r int\nbatch\nadd r 1\ndo", begun + b"err 13 cut\nerr 18 batch\n")
    expect_run(b"rel r int\nbatch\nadd r 1\nstop\ndone\n", begun + b"err 18 batch\nbye\n")
    expect_run(b"rel r int\nbatch\nadd r 1\nabandon\nbatch\nquit\ndone\n", begun + b"ok\nok batch\nbye\n")
    expect_run(b"batch\n", b"ok batch\n")


def say_transaction(client, chance, rows, most):
    """Says a transaction of random rows. Gives the relations that it changes, of how many rows, and its reply, in which the
    number of changes is left open, where it has one."""
    lines, copies = [], {name: dict(bag) for name, bag in rows.items()}
    for relation in chance.choices("rrssst", k=chance.randrange(7)):
        there = list(copies[relation])
        goes = chance.random() < 0.45 and (there or chance.random() < 0.1)
        row = chance.choice(there) if goes and there and chance.random() < 0.95 else random_row(chance, relation, most)
        lines.append((relation, row, -1 if goes else 1))
        if count(copies[relation], row, -1 if goes else 1) < 0:
            copies = None
            break
    for at, (relation, row, change) in enumerate(lines):
        word = b"add" if change > 0 else b"del"
        lines[at] = b"%s %s %s\n" % (word, relation.encode(), b" ".join(b"%d" % cell for cell in row))
    client.say(b"batch\n" + b"".join(lines) + chance.choice((b"done\n", b"done %d\n" % len(lines))))
    expect([client.line() for _ in range(len(lines) + 1)], [b"ok batch"] + [b"ok held %d" % (at + 1) for at in range(len(lines))])
    if copies is None:
        return set(), 0, b"err 19 absent"
    moved = [name for name in rows for _ in rows[name].keys() ^ copies[name].keys()]
    rows.update(copies)
    return set(moved), len(moved), b"ok done %%d %d" % len(moved)


@test
def deltas_of_transactions_add_up_to_a_fresh_listing():
    chance = random.Random(13)
    rows = {"r": {}, "s": {}, "t": {}}
    seq, refused = 0, 0
    with Serving() as serving:
        changer, following = serving.client(), Following(serving.client())
        changer.ask(b"rel r int int\nrel s int int\nrel t int", b"ok", b"ok", b"ok")
        for text, head, _ in JOINS:
            changer.ask(b"query " + text, b"ok query %d" % (2 * len(head) + 1))
            following.client.ask(b"watch " + text[:1], b"ok watch 0")
            following.answers[text[:1]] = set()
        for _ in range(600):
            if chance.random() < 0.5:
                changed, moved, said = say_transaction(changer, chance, rows, 6)
                seq, refused = seq + (moved > 0), refused + said.startswith(b"err")
                expect(changer.line(), said.replace(b"%d", b"%d" % seq))
            else:
                relation, is_change, said = change_row(changer, chance, rows, 6)
                seq, changed = seq + is_change, {relation} if is_change else set()
                expect(changer.line(), said % seq)
            for text, head, atoms in JOINS:
                if changed & {read for read, _ in atoms}:
                    following.take(text[:1], seq)
                    expect(following.answers[text[:1]], brute(head, atoms, rows), text)
        assert refused > 5
        for text, head, atoms in JOINS:
            expect(listed(changer, b"k", text[:1]), brute(head, atoms, rows), text)


# Unions


UNION = [
    (b"rel r int", [b"ok"]),
    (b"rel s int", [b"ok"]),
    (b"query a(x) <- r(x)", [b"ok query 3"]),
    (b"query b(x) <- s(x)", [b"ok query 3"]),
    (b"union u a b", [b"ok union 8"]),
    (b"watch u", [b"ok watch 0"]),
    (b"add r 1", [b"+ u 1", b"at u 1", b"ok added 1 1"]),
    (b"add s 1", [b"at u 2", b"ok added 2 1"]),
    (b"has u 1", [b"yes"]),
    (b"has u 2", [b"no"]),
    (b"open c u", [b"ok open"]),
    (b"next c 9", [b"= 1", b"end"]),
    (b"next c 9", [b"end"]),
    (b"add s 2", [b"+ u 2", b"at u 3", b"ok added 3 1"]),
    (b"next c 9", [b"stale c s 3"]),
    (b"add s 2", [b"ok added 3 2"]),
    (b"del r 1", [b"at u 4", b"ok removed 4 0"]),
    (b"del s 1", [b"- u 1", b"at u 5", b"ok removed 5 0"]),
    (b"next c 9", [b"stale c s 3"]),
    (b"close c", [b"ok"]),
    (b"open c u", [b"ok open"]),
    (b"next c 1", [b"= 2", b"end"]),
    (b"explain u", [b"m a", b"m b", b"end"]),
    (b"shape u", [b"union"]),
    (b"shape a", [b"flat"]),
    (b"drop a", [b"err 14 in use"]),
    (b"union v a", [b"err 1 syntax"]),
    (b"union u a b", [b"err 2 taken"]),
    (b"union v a z", [b"err 4 no query"]),
    (b"union v a a", [b"err 17 member"]),
    (b"union v a u", [b"err 17 member"]),
]


@test
def a_union_is_listed_told_and_asked_as_a_query():
    expect_session(UNION)


@test
def answers_of_several_members_are_listed_once():
    lines = [b"rel r int", b"rel s int", b"query a(x) <- r(x)", b"query b(x) <- s(x)", b"union u a b", b"union w b a"]
    lines += [b"add r %d" % at for at in range(2000)] + [b"add s %d" % at for at in range(1000, 3000)]
    fill = len(lines)
    lines += [b"open c u"] + [b"next c 1000"] * 4
    lines += [b"open d w", b"next d 999", b"next d 1000", b"next d 1000", b"next d 2"]
    output, status = run(texts_of_lines(lines))
    replies = output.splitlines()[fill:]
    ends = [at for at, reply in enumerate(replies) if not reply.startswith(b"= ")]
    want = [b"ok open", b"more", b"more", b"end", b"end", b"ok open", b"more", b"more", b"more", b"end"]
    expect(([replies[at] for at in ends], status), (want, 0))
    expect([ends[at + 1] - ends[at] - 1 for at in range(9)], [1000, 1000, 1000, 0, 0, 999, 1000, 1000, 1])
    for told in (replies[:ends[4]], replies[ends[5]:]):
        expect(sorted(int(reply[2:]) for reply in told if reply.startswith(b"= ")), list(range(3000)))


@test
def a_union_is_refused_in_its_order():
    session = [(b"rel r int", [b"ok"]), (b"rel s int int", [b"ok"]), (b"rel t text", [b"ok"])]
    session += [(b"query q%d(x) <- r(x), x > %d" % (at, at), [b"ok query 3"]) for at in range(9)]
    session += [(b"query p(x,y) <- s(x,y)", [b"ok query 5"]), (b"query t(x) <- t(x)", [b"ok query 3"]),
                (b"query n() <- r(_)", [b"ok query 1"]), (b"query m() <- s(_,_), t(_)", [b"ok query 1"])]
    for line in [b"union", b"union v", b"union v q0", b"union v q0 1", b"union v q0,q1", b"union v(q0,q1)",
                 b"union 1 q0 q1", b"union V q0 q1", b"union v q0 Q1", b'union v q0 "q1"', b"union v q0 _",
                 b"union v q0 q1 <- q2", b"union " + b"v" * 33 + b" q0 q1", b"union v q0 " + b"q" * 33,
                 b"union\tv q0 q1"]:
        session.append((line, [b"err 1 syntax"]))
    eight = b" ".join(b"q%d" % at for at in range(8))
    session += [
        (b"union q0 z z", [b"err 2 taken"]),
        (b"union v z z", [b"err 4 no query"]),
        (b"union v q0 q0 z", [b"err 4 no query"]),
        (b"union v q0 p t z", [b"err 4 no query"]),
        (b"union v q0 q1 v", [b"err 4 no query"]),  # no union is its own member
        (b"union v q0 q0", [b"err 17 member"]),
        (b"union v q0 p", [b"err 17 member"]),  # of another length
        (b"union v q0 t", [b"err 17 member"]),  # of another type
        (b"union v q0 n", [b"err 17 member"]),
        (b"union v " + eight + b" q8 p", [b"err 17 member"]),
        (b"union v " + eight + b" q8 q0", [b"err 17 member"]),
        (b"union v " + eight + b" q8", [b"err 11 limit"]),
        (b"  union   v  " + eight + b"  ", [b"ok union 80"]),
        (b"union w q0 v", [b"err 17 member"]),
        (b"union w v q0 q1", [b"err 17 member"]),
        (b"union v q0 q1", [b"err 2 taken"]),
        (b"query v(x) <- r(x)", [b"err 2 taken"]),
        (b"union union q1 q0", [b"ok union 8"]),  # no word is reserved
        (b"union r q8 q0", [b"ok union 8"]),  # names of relations are apart
        (b"union w n m", [b"ok union 5"]),
        (b"add r 8", [b"ok added 1 1"]),
        (b"open c w", [b"ok open"]),
        (b"next c 9", [b"=", b"end"]),
        (b"has w", [b"yes"]),
        (b"has w 1", [b"err 6 arity"]),
        (b"has v", [b"err 6 arity"]),
        (b'has v "a"', [b"err 7 type"]),
        (b"has v 9223372036854775808", [b"err 7 type"]),
        (b"has v 8", [b"yes"]),
        (b"has r 8", [b"yes"]),
        (b"has r 9", [b"no"]),
        (b"batch", [b"ok batch"]),
        (b"union x q0 q1", [b"err 18 batch"]),
        (b"union x q0", [b"err 1 syntax"]),
        (b"done", [b"ok done 1 0"]),
        (b"union x q0 q1", [b"ok union 8"]),
    ]
    expect_session(session)


@test
def unions_and_queries_are_256_together():
    lines = [b"rel r int"] + [b"query q%d(x) <- r(x)" % at for at in range(250)]
    replies = [b"ok"] + [b"ok query 3"] * 250
    lines += [b"union u%d q%d q%d" % (at, at, at + 1) for at in range(8)]
    lines += [b"query q250(x) <- r(x)", b"query q0(x) <- r(x)"]
    replies += [b"ok union 8"] * 6 + [b"err 11 limit"] * 3 + [b"err 2 taken"]
    lines += [b"union u6 q1 q1", b"drop u0", b"query q250(x) <- r(x)", b"union u0 q0 q1", b"drop q0", b"union u6 q1 q2"]
    replies += [b"err 17 member", b"ok", b"ok query 3", b"err 11 limit", b"ok", b"ok union 8"]
    expect_run(texts_of_lines(lines), texts_of_lines(replies))


@test
def a_member_stays_as_long_as_a_union_has_it():
    schedule = (b"open 1\nopen 2\nopen 3\nsay 1 rel r int\nsay 1 query a(x) <- r(x)\nsay 1 query b(x) <- r(x), x > 5\n"
                b"say 1 query c(x) <- r(x), x < 9\nsay 1 union u a b\nsay 1 union v b c a\nsay 2 drop a\nsay 2 drop c\n"
                b"say 2 watch u\nsay 3 open k v\nsay 1 drop u\nsay 1 drop v\nsay 2 unwatch u\nsay 1 drop u\n"
                b"say 1 drop a\nsay 1 add r 7\nsay 3 next k 1\nsay 1 drop v\nend 3\n"
                b"say 1 drop v\nsay 1 drop b\nsay 1 drop a\n"
                b"say 2 unwatch u\nsay 1 union u a c\nsay 1 query a(x) <- r(x)\nsay 1 union u a c\nsay 2 open k u\n"
                b"say 2 next k 9\n")
    told = (b"1< ok\n1< ok query 3\n1< ok query 3\n1< ok query 3\n1< ok union 8\n1< ok union 15\n2< err 14 in use\n"
            b"2< err 14 in use\n2< ok watch 0\n3< ok open\n1< err 14 in use\n1< err 14 in use\n2< ok\n1< ok\n"
            b"1< err 14 in use\n1< ok added 1 1\n3< stale k r 1\n1< err 14 in use\n1< ok\n1< ok\n1< ok\n"
            b"2< err 4 no query\n1< err 4 no query\n1< ok query 3\n1< ok union 8\n2< ok open\n2< = 7\n2< end\n")
    expect(run(schedule, ("replay",)), (told, 0))


@test
def members_answers_are_compared_in_the_order_of_their_heads():
    session = [
        (b"rel r int text", [b"ok"]),
        (b"rel s text int", [b"ok"]),
        (b"query a(n,t) <- r(n,t)", [b"ok query 5"]),
        (b"query b(n,t) <- s(t,n)", [b"ok query 5"]),
        (b'query c(n,t) <- s(t,m), r(n,_), t != "x", m >= 0', [b"ok query 5"]),
        (b"union u b c a", [b"ok union 23"]),
        (b"watch u", [b"ok watch 0"]),
        (b'add r 1 "one"', [b'+ u 1 "one"', b"at u 1", b"ok added 1 1"]),
        (b'add s "one" 1', [b"at u 2", b"ok added 2 1"]),
        (b'add s "x" 1', [b'+ u 1 "x"', b"at u 3", b"ok added 3 1"]),
        (b'has u 1 "x"', [b"yes"]),
        (b'has u 1 "nobody said this"', [b"no"]),
        (b'has u "x" 1', [b"err 7 type"]),
        (b'del r 1 "one"', [b"at u 4", b"ok removed 4 0"]),
        (b'del s "x" 1', [b'- u 1 "x"', b"at u 5", b"ok removed 5 0"]),
        (b"open k u", [b"ok open"]),
        (b"next k 9", [b'= 1 "one"', b"end"]),
    ]
    expect_session(session)
    output, status = run(lines_of(session) + b'add r 2 "two"\ndel s "one" 1\n')
    told = output[len(replies_of(session)):].splitlines()
    told[:2], told[4:6] = sorted(told[:2]), sorted(told[4:6])
    want = [b'+ u 2 "one"', b'+ u 2 "two"', b"at u 6", b"ok added 6 1",
            b'- u 1 "one"', b'- u 2 "one"', b"at u 7", b"ok removed 7 0"]
    expect((told, status), (want, 0))


@test
def a_transaction_below_members_is_one_delta_of_their_union():
    expect_session([
        (b"rel r int", [b"ok"]),
        (b"rel s int", [b"ok"]),
        (b"rel t int", [b"ok"]),
        (b"query a(x) <- r(x), t(_)", [b"ok query 3"]),
        (b"query b(x) <- s(x)", [b"ok query 3"]),
        (b"union u b a", [b"ok union 9"]),
        (b"watch u", [b"ok watch 0"]),
        (b"watch b", [b"ok watch 0"]),
        (b"open c u", [b"ok open"]),
        (b"open d a", [b"ok open"]),
        (b"batch", [b"ok batch"]),
        (b"add r 5", [b"ok held 1"]),
        (b"explain u", [b"err 18 batch"]),
        (b"add s 5", [b"ok held 2"]),
        (b"add t 0", [b"ok held 3"]),
        (b"done", [b"+ b 5", b"at b 1", b"+ u 5", b"at u 1", b"ok done 1 3"]),
        (b"next c 1", [b"stale c r 1"]),
        (b"next d 1", [b"stale d r 1"]),
        (b"close c", [b"ok"]),
        (b"open c u", [b"ok open"]),
        (b"batch", [b"ok batch"]),
        (b"add r 5", [b"ok held 1"]),
        (b"add t 1", [b"ok held 2"]),
        (b"add s 5", [b"ok held 3"]),
        (b"done", [b"at u 2", b"ok done 2 1"]),
        (b"next c 1", [b"stale c t 2"]),
        (b"batch", [b"ok batch"]),
        (b"add s 5", [b"ok held 1"]),
        (b"add r 5", [b"ok held 2"]),
        (b"done", [b"ok done 2 0"]),
        (b"del t 0", [b"at u 3", b"ok removed 3 0"]),
        (b"del s 5", [b"ok removed 3 2"]),
        (b"del t 1", [b"at u 4", b"ok removed 4 0"]),
        (b"del s 5", [b"ok removed 4 1"]),
        (b"del s 5", [b"- b 5", b"at b 5", b"- u 5", b"at u 5", b"ok removed 5 0"]),
        (b"add s 6", [b"+ b 6", b"at b 6", b"+ u 6", b"at u 6", b"ok added 6 1"]),
        # what one member loses and another one gains stays an answer of the union
        (b"batch", [b"ok batch"]),
        (b"del s 6", [b"ok held 1"]),
        (b"add r 6", [b"ok held 2"]),
        (b"add t 0", [b"ok held 3"]),
        (b"del r 5", [b"ok held 4"]),
        (b"del r 5", [b"ok held 5"]),
        (b"del r 5", [b"ok held 6"]),
        (b"done", [b"- b 6", b"at b 7", b"at u 7", b"ok done 7 4"]),
        (b"batch", [b"ok batch"]),
        (b"del t 0", [b"ok held 1"]),
        (b"add s 7", [b"ok held 2"]),
        (b"done 2", [b"+ b 7", b"at b 8", b"+ u 7", b"- u 6", b"at u 8", b"ok done 8 2"]),
    ])


@test
def deltas_go_by_registration_of_queries_and_unions():
    schedule = (b"open 1\nopen 2\nsay 1 rel r int\nsay 1 query z(x) <- r(x)\nsay 1 query y(x) <- r(x), x > 0\n"
                b"say 1 union m z y\nsay 1 query b(x) <- r(x), x < 9\nsay 1 union a y b\nsay 2 watch a\nsay 2 watch b\n"
                b"say 2 watch z\nsay 2 watch m\nsay 1 watch a\nsay 1 add r 5\nsay 1 del r 5\nsay 2 unwatch m\n"
                b"say 1 drop m\nsay 1 union m y z\nsay 2 watch m\nsay 1 add r 9\n")
    told = (b"1< ok\n1< ok query 3\n1< ok query 3\n1< ok union 8\n1< ok query 3\n1< ok union 8\n2< ok watch 0\n"
            b"2< ok watch 0\n2< ok watch 0\n2< ok watch 0\n1< ok watch 0\n"
            b"1< + a 5\n1< at a 1\n1< ok added 1 1\n"
            b"2< + z 5\n2< at z 1\n2< + m 5\n2< at m 1\n2< + b 5\n2< at b 1\n2< + a 5\n2< at a 1\n"
            b"1< - a 5\n1< at a 2\n1< ok removed 2 0\n"
            b"2< - z 5\n2< at z 2\n2< - m 5\n2< at m 2\n2< - b 5\n2< at b 2\n2< - a 5\n2< at a 2\n"
            b"2< ok\n1< ok\n1< ok union 8\n2< ok watch 2\n"
            b"1< + a 9\n1< at a 3\n1< ok added 3 1\n"
            b"2< + z 9\n2< at z 3\n2< at b 3\n2< + a 9\n2< at a 3\n2< + m 9\n2< at m 3\n")
    expect(run(schedule, ("replay",)), (told, 0))


MEMBERS = [
    (b"a(x,y) <- r(x,y)", "xy", [("r", "xy")]),
    (b"b(x,y) <- s(y,x)", "xy", [("s", "yx")]),
    (b"c(x,y) <- r(x,z), s(z,_), t(y)", "xy", [("r", "xz"), ("s", "z_"), ("t", "y")]),
    (b"d(y,x) <- r(x,y), r(y,_)", "yx", [("r", "xy"), ("r", "y_")]),
]
# in the order in which they are registered, between the members
UNIONS = [(b"u", b"ab", 12), (b"v", b"bcda", 41), (b"w", b"dc", 15)]


def answers_by_brute_force(rows):
    """Of each member and each union its answers."""
    answers = {text[:1]: brute(head, atoms, rows) for text, head, atoms in MEMBERS}
    for name, members, _ in UNIONS:
        answers[name] = set().union(*(answers[bytes([member])] for member in members))
    return answers


@test
def unions_are_listed_told_and_asked_as_by_brute_force():
    chance = random.Random(16)
    rows = {"r": {}, "s": {}, "t": {}}
    reads = {text[:1]: {relation for relation, _ in atoms} for text, _, atoms in MEMBERS}
    reads.update({name: set().union(*(reads[bytes([member])] for member in members)) for name, members, _ in UNIONS})
    seq, shared = 0, 0
    with Serving() as serving:
        changer, following = serving.client(), Following(serving.client())
        changer.ask(b"rel r int int\nrel s int int\nrel t int", b"ok", b"ok", b"ok")
        for text, _, _ in MEMBERS:
            changer.ask(b"query " + text, b"ok query 5")
        for name, members, most in UNIONS:
            said = b" ".join(bytes([member]) for member in members)
            changer.ask(b"union %s %s" % (name, said), b"ok union %d" % most)
        for name in reads:
            following.client.ask(b"watch " + name, b"ok watch 0")
            following.answers[name] = set()
        for turn in range(600):
            if chance.random() < 0.2:
                changed, moved, said = say_transaction(changer, chance, rows, 4)
                seq += moved > 0
                expect(changer.line(), said.replace(b"%d", b"%d" % seq))
            else:
                relation, is_change, said = change_row(changer, chance, rows, 4)
                seq, changed = seq + is_change, {relation} if is_change else set()
                expect(changer.line(), said % seq)
            answers = answers_by_brute_force(rows)
            shared += len(answers[b"a"] & answers[b"b"])
            for name in reads:
                if changed & reads[name]:
                    following.take(name, seq)
                expect(following.answers[name], answers[name], name)
            name, answer = chance.choice(UNIONS)[0], (chance.randrange(4), chance.randrange(4))
            changer.ask(b"has %s %d %d" % (name, *answer), b"yes" if answer in answers[name] else b"no")
            if turn % 5 == 0:
                expect(listed(changer, b"k", name), answers[name], name)
    expect(shared > 100, True, "answers that two members share")


def read_answer(text):
    return tuple(int(cell) for cell in text.split())


class Following:
    """The answers of the queries that a session watches, as its deltas add up."""

    def __init__(self, client):
        self.client = client
        self.answers = {}

    def take(self, query, seq):
        """Reads one delta of a query, which has to be the next that comes."""
        kept = self.answers[query]
        told = set()
        while (line := self.client.line())[:1] in (b"+", b"-"):
            sign, name, values = (line + b" ").split(b" ", 2)
            expect(name, query, line)
            answer = read_answer(values)
            expect((answer in kept, answer in told), (sign == b"-", False), line)
            told.add(answer)
            kept ^= {answer}
        expect(line, b"at %s %d" % (query, seq))


def random_row(chance, relation, most):
    return tuple(chance.randrange(most) for _ in range(1 if relation == "t" else 2))


def change_row(client, chance, rows, most):
    """Says that a random row comes or goes; gives its relation, whether that changes something, and the reply, in which
    the number of changes is left open."""
    relation = chance.choice("rrssst")
    row = random_row(chance, relation, most)
    word = chance.choice((b"add", b"del"))
    client.say(b"%s %s %s\n" % (word, relation.encode(), b" ".join(b"%d" % cell for cell in row)))
    copies = count(rows[relation], row, 1 if word == b"add" else -1)
    if copies < 0:
        return relation, False, b"ok absent %d"
    said = b"ok %s %%d %d" % (b"added" if word == b"add" else b"removed", copies)
    return relation, copies == (1 if word == b"add" else 0), said


@test
def deltas_add_up_to_a_fresh_listing():
    chance = random.Random(11)
    rows = {"r": {}, "s": {}, "t": {}}
    seq = 0
    with Serving() as serving:
        changer, sessions = serving.client(), [Following(serving.client()) for _ in range(3)]
        changer.ask(b"rel r int int\nrel s int int\nrel t int", b"ok", b"ok", b"ok")
        for text, head, _ in JOINS:
            changer.ask(b"query " + text, b"ok query %d" % (2 * len(head) + 1))
        for turn in range(1000):
            session, (text, head, atoms) = chance.choice(sessions), chance.choice(JOINS)
            if chance.random() < 0.2:
                if text[:1] in session.answers:
                    session.client.ask(b"unwatch " + text[:1], b"ok")
                    del session.answers[text[:1]]
                else:
                    session.client.ask(b"watch " + text[:1], b"ok watch %d" % seq)
                    session.answers[text[:1]] = listed(changer, b"k", text[:1])
            relation, changed, said = change_row(changer, chance, rows, 4)
            seq += changed
            expect(changer.line(), said % seq)
            for text, head, atoms in JOINS:
                if changed and any(read == relation for read, _ in atoms):
                    fresh = listed(changer, b"k", text[:1])
                    expect(fresh, brute(head, atoms, rows), text)
                    for session in sessions:
                        if text[:1] in session.answers:
                            session.take(text[:1], seq)
                            expect(session.answers[text[:1]], fresh, text)


@test
def a_watcher_that_never_reads_ends_alone():
    with Serving() as serving:
        changer, mute, other = (serving.client() for _ in range(3))
        changer.ask(b"rel r int text\nrel s int\nrel u int", b"ok", b"ok", b"ok")
        for number in range(300):
            changer.ask(b'add r %d "%s"' % (number, b"a" * 250), b"ok added %d 1" % (number + 1))
        changer.ask(b"query q(x,a,y) <- r(x,a), s(y)\nquery p(y) <- u(y)", b"ok query 7", b"ok query 3")
        mute.ask(b"watch q\nwatch p", b"ok watch 300", b"ok watch 300")
        other.ask(b"watch q", b"ok watch 300")
        seq, signs = 300, (b"- q ", b"+ q ")
        while True:
            seq, comes = seq + 1, seq % 2 == 0
            changer.ask(b"%s s 1" % (b"del", b"add")[comes], b"ok %s %d %d" % ((b"removed", b"added")[comes], seq, comes))
            expect({other.line()[:4] for _ in range(300)}, {signs[comes]})
            expect(other.line(), b"at q %d" % seq)
            changer.say(b"drop p\n")
            if changer.line() == b"ok":
                break  # nobody watches it any more
            expect(seq < 2300, True, "the mute watcher never ends")
        told = mute.to_the_end().split(b"\n")
        expect(told[-2:], [b"end slow", b""])
        ats = [line for line in told if line.startswith(b"at ")]
        expect(ats, [b"at q %d" % number for number in range(301, seq)], "the deltas before the one that found too much pending")
        changer.ask(b'del r 7 "%s"' % (b"a" * 250), b"ok removed %d 0" % (seq + 1))
        other.ask(b"quit", *[b'- q 7 "%s" 1' % (b"a" * 250)] * comes, b"at q %d" % (seq + 1), b"bye")
        changer.ask(b"stop", b"bye")
        expect(serving.end(), (b"", 0))


@test
def a_delta_that_finds_no_memory_ends_its_watcher_alone():
    # the delta has 100,000 lines of over 1,000 bytes, and the program is given 100 MB
    text = b" ".join([b'"' + b"a" * 255 + b'"'] * 4)
    with Serving(memory=100_000_000) as serving:
        changer, watcher, other = (serving.client() for _ in range(3))
        changer.ask(b"rel t text text text text\nrel r int\nrel s int", b"ok", b"ok", b"ok")
        changer.ask(b"query q(a,b,c,d,x) <- t(a,b,c,d), r(x), s(y)\nquery p(x) <- s(x)", b"ok query 11", b"ok query 3")
        changer.ask(b"add t " + text, b"ok added 1 1")
        for first in range(0, 100_000, 1000):
            lines = [b"add r %d" % (first + at) for at in range(1000)]
            changer.ask(b"\n".join(lines), *[b"ok added %d 1" % (first + at + 2) for at in range(1000)])
        watcher.ask(b"watch q", b"ok watch 100001")
        other.ask(b"watch p", b"ok watch 100001")
        changer.ask(b"add s 5", b"ok added 100002 1")
        other.ask(b"quit", b"+ p 5", b"at p 100002", b"bye")
        told = watcher.to_the_end().split(b"\n")
        expect(told[-2:], [b"end memory", b""])
        for line in told[:-2]:
            expect(line.startswith(b"+ q " + text), True, line[:20])
        expect(len(set(told)), len(told), "different answers, and no `at`")
        changer.ask(b"drop q", b"ok")
        changer.ask(b"stop", b"bye")
        expect(serving.end(), (b"", 0))


class Swimmer:
    """One of many clients at once: it sends lines in bursts, and checks what comes by what it sent, in order."""

    def __init__(self, client, chance, text):
        self.stream, self.chance, self.query = client.stream, chance, text[:1]
        self.stream.setblocking(False)
        self.outgoing, self.incoming = b"", b""
        self.answers, self.due, self.listing = set(), [], None
        self.seq, self.finished, self.deltas = 0, 0, 0
        self.say(b"watch " + self.query, b"ok")

    def say(self, line, form):
        self.outgoing += line + b"\n"
        self.due.append(form)

    def burst(self):
        for _ in range(self.chance.randrange(1, 20)):
            relation = self.chance.choice("rrssst")
            row = b" ".join(b"%d" % cell for cell in random_row(self.chance, relation, 5))
            self.say(b"%s %s %s" % (self.chance.choice((b"add", b"del")), relation.encode(), row), b"ok")
        self.list()

    def list(self):
        self.say(b"open c " + self.query, b"ok")
        self.say(b"next c 1000", b"list")
        self.say(b"close c", b"ok")

    def take(self, line):
        word, _, rest = line.partition(b" ")
        if word in (b"+", b"-"):
            query, _, values = rest.partition(b" ")
            answer = read_answer(values)
            expect((query, answer in self.answers), (self.query, word == b"-"), line)
            self.answers ^= {answer}
        elif word == b"at":
            query, seq = rest.split(b" ")
            expect((query, int(seq) > self.seq), (self.query, True), line)
            self.seq, self.deltas = int(seq), self.deltas + 1
        elif self.due[0] == b"list":
            self.listing = self.listing or []
            if word == b"=":
                self.listing.append(read_answer(rest))
                return
            if word == b"end":
                # a listing that nothing came between is what the deltas add up to
                expect(len(set(self.listing)), len(self.listing), "different answers")
                expect(set(self.listing), self.answers, "a listing beside the deltas")
                self.finished += 1
            else:
                expect(line[:8], b"stale c ", "a listing")
            self.listing = None
            self.due.pop(0)
        else:
            expect(word, self.due.pop(0), line)


def swim(swimmers, go_on):
    """Moves what can be moved, until nothing is due and nobody begins a further burst."""
    streams = {swimmer.stream: swimmer for swimmer in swimmers}
    until = time.monotonic() + PATIENCE * 3
    while any(swimmer.due or swimmer.outgoing for swimmer in swimmers) or go_on():
        expect(time.monotonic() < until, True, "replies are due")
        readable, writable, _ = select.select(streams, [s.stream for s in swimmers if s.outgoing], [], 1)
        for stream in writable:
            swimmer = streams[stream]
            swimmer.outgoing = swimmer.outgoing[stream.send(swimmer.outgoing):]
        for stream in readable:
            swimmer = streams[stream]
            piece = stream.recv(1 << 20)
            expect(piece != b"", True, "the session goes on")
            *lines, swimmer.incoming = (swimmer.incoming + piece).split(b"\n")
            for line in lines:
                swimmer.take(line)
        if go_on():
            for swimmer in swimmers:
                if not swimmer.due:
                    swimmer.burst()


@test
def sixty_four_clients_add_and_watch_and_list_at_once():
    with Serving() as serving:
        first = serving.client()
        first.ask(b"rel r int int\nrel s int int\nrel t int", b"ok", b"ok", b"ok")
        for text, head, _ in JOINS:
            first.ask(b"query " + text, b"ok query %d" % (2 * len(head) + 1))
        clients = [first] + [serving.client() for _ in range(63)]
        swimmers = [Swimmer(client, random.Random(at), JOINS[at % len(JOINS)][0]) for at, client in enumerate(clients)]
        swim(swimmers, lambda: False)
        until = time.monotonic() + 4
        swim(swimmers, lambda: time.monotonic() < until)
        # now nothing changes any more, so each listing is finished
        before = [swimmer.finished for swimmer in swimmers]
        for swimmer in swimmers:
            swimmer.list()
        swim(swimmers, lambda: False)
        expect([swimmer.finished - 1 for swimmer in swimmers], before, "listings at the end")
        expect(min(swimmer.deltas for swimmer in swimmers) > 0, True, "deltas")
        for text in {swimmer.query for swimmer in swimmers}:
            told = [swimmer.answers for swimmer in swimmers if swimmer.query == text]
            expect(all(answers == told[0] for answers in told), True, text)


KILLED = """
import socket, sys
stream = socket.create_connection(("127.0.0.1", int(sys.argv[1])))
stream.sendall(b"watch q\\nopen c q\\nadd r " + sys.argv[2].encode())
sys.stdout.write(stream.recv(5).decode())
sys.stdout.flush()
while True:
    stream.sendall(b" 1\\nadd r " + sys.argv[2].encode())
    stream.recv(65536)
"""


@test
def clients_are_killed_in_the_middle_of_lines():
    with Serving() as serving:
        watcher, changer = serving.client(), serving.client()
        changer.ask(b"rel r int int\nquery q(x,y) <- r(x,y)", b"ok", b"ok query 5")
        following = Following(watcher)
        following.answers[b"q"] = set()
        watcher.ask(b"watch q", b"ok watch 0")
        for number in range(8):
            words = [sys.executable, "-c", KILLED, str(serving.port), str(number)]
            victim = subprocess.Popen(words, stdout=subprocess.PIPE)
            expect(victim.stdout.read(5), b"ok wa")
            time.sleep(0.02)
            victim.kill()
            victim.wait()
            victim.stdout.close()
        changer.ask(b"open c q", b"ok open")
        changer.say(b"add r 99 99\n")
        seq = int(changer.line().split()[2])
        for number in range(1, seq + 1):
            following.take(b"q", number)
        expect(listed(changer, b"k", b"q"), following.answers[b"q"])
        expect(following.answers[b"q"] - {(99, 99)} <= {(number, 1) for number in range(8)}, True, "rows of whole lines alone")
        # the dead sessions' watches and cursors are given up
        changer.ask(b"close c", b"ok")
        watcher.ask(b"unwatch q", b"ok")
        until = time.monotonic() + PATIENCE
        while True:
            changer.say(b"drop q\n")
            if changer.line() == b"ok":
                break
            expect(time.monotonic() < until, True, "the query stays in use")
        changer.ask(b"stop", b"bye")
        expect(serving.end(), (b"", 0))


@test
def two_watchers_send_single_bytes_in_turn():
    with Serving() as serving:
        clients = one, two = serving.client(), serving.client()
        one.ask(b"rel r int\nquery q(x) <- r(x)\nwatch q", b"ok", b"ok query 3", b"ok watch 0")
        two.ask(b"watch q", b"ok watch 0")
        for before in range(0, 40, 2):
            rows = [b"%d" % (before + 10), b"%d" % (before + 11)]
            for here, there in zip(b"add r %s\n" % rows[0], b"add r %s\n" % rows[1]):
                one.say(bytes([here]))
                two.say(bytes([there]))
            told = [[client.line() for _ in range(5)] for client in clients]
            # either line may be run first; both are told in that order, each reply behind its own delta
            first = min(rows, key=lambda row: told[0].index(b"+ q " + row))
            ordered = [first] + [row for row in rows if row != first]
            for row, lines in zip(rows, told):
                want = []
                for seq, other in enumerate(ordered, before + 1):
                    want += [b"+ q " + other, b"at q %d" % seq] + [b"ok added %d 1" % seq] * (other == row)
                expect(lines, want)
        one.ask(b"stop", b"bye")
        expect(serving.end(), (b"", 0))


def two_terminals():
    """The sessions of two terminals that the protocol's page shows: for each the rows of its two columns."""
    with open(os.path.join(os.path.dirname(os.path.abspath(__file__)), "..", "docs", "PROTOCOL.md"), encoding="utf-8") as page:
        blocks = page.read().split("```")[1::2]
    for block in blocks:
        head, *rows = block.strip("\n").split("\n")
        if head.split() == ["one", "two"]:
            second = head.index("two")
            yield [(row[:second].rstrip(), row[second:].rstrip()) for row in rows]


@test
def sessions_of_two_terminals_go_as_the_page_shows():
    shown = 0
    for rows in two_terminals():
        with Serving() as serving:
            clients = serving.client(), serving.client()
            answers = {client: [] for client in clients}
            for row in rows:
                for client, cell in zip(clients, row):
                    want = cell.strip().encode()
                    if want == b"" or want.startswith(b"the set is"):
                        continue
                    if not cell.startswith(" "):
                        client.say(want + b"\n")
                        answers[client] = []
                        continue
                    line = client.line()
                    if want.startswith(b"= "):
                        answers[client] += [(want, line)]  # in any order
                        expect(line[:2], b"= ")
                    else:
                        expect(line, want, row)
                    if want == b"end":
                        expect(*(sorted(side) for side in zip(*answers[client])))
        shown += 1
    expect(shown, 2, "sessions of two terminals")
@test
def a_load_is_run_and_summed_up():
    expect(run(b"", ("gen", "5", "1")), (b"rows 3 1\nchanges 4\nanswers 2\nsum 5\n", 0))
    large = b"rows 7441 7436\nchanges 14901\nanswers 44043\nsum 82060188\n"
    for _ in range(2):
        expect(run(b"", ("gen", "20000", "7")), (large, 0))
    # a row stays that has two copies, of which one goes
    expect(run(b"", ("gen", "1000", "2")), (b"rows 335 367\nchanges 726\nanswers 1890\nsum 176676\n", 0))


@test
def a_load_has_a_number_of_changes_and_a_seed():
    for words in [
        (),
        ("5",),
        ("0", "1"),
        ("1000001", "1"),
        ("5", "2147483648"),
        ("5", "x"),
        ("5", "1", "1"),
    ]:
        expect(run(b"", ("gen", *words)), (USAGE, 1), words)


if __name__ == "__main__":
    if len(sys.argv) != 2:
        raise SystemExit(__doc__)
    PROGRAM = os.path.abspath(sys.argv[1])
    sys.exit(run_tests())
