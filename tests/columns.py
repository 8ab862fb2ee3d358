#!/usr/bin/env python3
"""Tests of queries that name columns: what a schema writes out and what it refuses, then both clients for Python and the shell.

    tests/columns.py PATH_TO_DJQ

The client for Node has the same form in tests/node.py. One line is printed for each test that fails, and last
`N passed, N failed`; the status is 0 where none failed.
"""

import asyncio
import os
import random
import re
import subprocess
import sys
import tempfile

from harness import expect, run_tests, test
from serving import HERE, SECONDS, Server, djq, raises

import djq.aio

SHELL = [sys.executable, "-m", "djq.shell"]
ENVIRONMENT = {**os.environ, "PYTHONPATH": os.path.join(HERE, "..", "clients", "python")}
WIDE = {f"c{place}": str if place % 4 == 3 else int for place in range(16)}


def schema():
    made = djq.Schema()
    made.columns("lines", "number", "line", "item", "price")
    made.columns("orders", "number", "state")
    return made


@test
def atoms_are_written_out(_):
    for query, want in (
        ("q(n) <- lines(number: n)", "q(n) <- lines(n,_,_,_)"),
        ("q(price,n) <- lines(price:, number: n)", "q(price,n) <- lines(n,_,_,price)"),
        ('q(n) <- lines(number:n,item:"bolt",price:-3)', 'q(n) <- lines(n,_,"bolt",-3)'),
        ("q(n) <- lines(number: n, line: _), orders(state: s, number: n), n >= 3", "q(n) <- lines(n,_,_,_), orders(n,s), n >= 3"),
        ("q(n) <- lines\n(\n  number\t: n,\r\n  price :\n)", "q(n) <- lines(n,_,_,price)"),
        ("q(x) <- lines(number: x, line: x)", "q(x) <- lines(x,x,_,_)"),
    ):
        expect(schema().spell(query), want)


@test
def all_else_stays_as_it_is(_):
    for query in (
        "q(x) <- lines(x,_,_,_)", "q(x) <- r(x), x != 3", "", "q(x)", "q() <- r()", "nothing of a query", "q(a: b) <- r(a)",
        'q(x) <- r(x,"a: b"), x != 3', 'q(x) <- r(x,y), y = "lines(number: x)"', r'q(x) <- r(x,"\": lines(a: b)")', 'q(x) <- r(x,"a: ',
        "q(x) <- lines(number: f(x))", "q(x) <- lines(number: x",
    ):
        expect(schema().spell(query), query)


@test
def a_drawn_atom_is_read_back(_):
    """Of random atoms each column has the term that was given by its name, and no other has one."""
    draw = random.Random(11)
    terms = ["x", "y2", "_", "-7", "12", '"a"', '"a, b: c)"', r'"\"\\ (x:"']
    for _ in range(300):
        names = [f"c{place}" for place in range(draw.randrange(1, 17))]
        given = {name: draw.choice(terms) for name in draw.sample(names, draw.randrange(1, len(names) + 1))}
        made = djq.Schema()
        made.columns("r", *names)
        space = draw.choice(["", " ", "\n\t"])
        atom = ",".join(f"{space}{name}{space}:{space}{term}{space}" for name, term in given.items())
        spelled = made.spell(f"q() <- s(x), r({atom}), t(y)")
        expect(spelled, f"q() <- s(x), r({','.join(given.get(name, '_') for name in names)}), t(y)", atom)


@test
def what_cant_be_written_out_is_refused(_):
    for query, words in (
        ("q(x) <- lines(numbr: x)", "lines has no column numbr: did you mean number? it has number, line, item, price"),
        ("q(x) <- lines(z: x)", "lines has no column z: it has number, line, item, price"),
        ("q(x) <- line(number: x)", "the columns of line have no names here: did you mean lines? name them first, by columns: line and each name"),
        ("q(x) <- lines(number: x, number: y)", "lines: the column number is named twice"),
        ("q(x) <- lines(number: x, y)", "lines: no column and term: 'y': beside a colon each term has a column, as in price: x"),
        ("q(x) <- lines(number: x,)", "lines: no column and term: '': beside a colon each term has a column, as in price: x"),
        ("q(x) <- lines(number: x+1)", "lines: no column and term: 'number: x+1': beside a colon each term has a column, as in price: x"),
    ):
        error = raises(djq.BadColumns, lambda: schema().spell(query))
        expect((str(error), error.number), (words, 1))
    for names in ((), ("a", "a"), ("a", "B")):
        raises(djq.Syntax, lambda: schema().columns("r", *names))
    raises(djq.BadName, lambda: schema().columns("R", "a"))
    expect(schema().names["orders"], ("number", "state"))


@test
def a_client_sends_places(program):
    with Server(program) as server, server.connect() as own:
        own.relation("wide", **WIDE)
        own.relation("plain", int, int)
        own.query('q(c0,last) <- wide(c0:, c7: "seven", c14: last), plain(c0,_)')
        own.add("wide", *(("seven" if place == 7 else "t") if kind is str else place for place, kind in enumerate(WIDE.values())))
        own.add("plain", 0, 5)
        expect(own.snapshot("q"), {(0, 14)})
        raises(djq.BadColumns, lambda: own.query("p(x) <- plain(number: x)"))
        own.columns("plain", "number", "other")
        own.query("p(x) <- plain(other: x)")
        expect(own.snapshot("p"), {(5,)})
        with own.pipeline() as many:
            steps = many.query("r(x) <- plain(number: x)")
        expect(steps.result() > 0, True)
        raises(TypeError, lambda: own.relation("both", int, named=int))
        # names are known also where the relation is there, and to each connection that has the schema
        with djq.connect("127.0.0.1", server.port, SECONDS, own.schema) as other:
            other.query("s(x) <- wide(c13: x)")
        with server.connect() as third:
            raises(djq.Taken, lambda: third.relation("plain", number=int, other=int))
            third.query("t(x) <- plain(other: x)")
            expect(third.snapshot("t"), {(5,)})
            third.columns("plain", "a", "b", "c")  # more than there are: the server says so
            raises(djq.Arity, lambda: third.query("u(x) <- plain(c: x)"))


@test
def a_client_of_asyncio_sends_places(program):
    async def run(port):
        async with djq.aio.connect("127.0.0.1", port, SECONDS, schema()) as own:
            await own.relation("lines", int, int, str, int)
            await own.relation("name", name=str, self=int)  # names that the method's own words have
            own.columns("lines", "number", "line", "item", "cents")
            await own.query("q(n,cents) <- lines(number: n, cents:), name(self: n)")
            async with own.pipeline() as many:
                await many.query("p(n) <- name(self: n)")
            await own.add("lines", 1, 2, "bolt", 3)
            await own.add("name", "one", 1)
            return await own.snapshot("q"), await own.snapshot("p")

    with Server(program) as server:
        expect(asyncio.run(run(server.port)), ({(1, 3)}, {(1,)}))


# The shell, as a filter


def filtered(program, text, *words):
    done = subprocess.run([*SHELL, "--local", "--program", program, *words], input=text, capture_output=True, text=True, timeout=SECONDS,
                          env=ENVIRONMENT)
    return done.stdout, done.stderr, done.returncode


SCHEMA = """\
\\if-missing
rel lines int int text int
\\columns lines number line item price
query bolts(n,price) <-
  lines(number: n,
    item: "bolt", price:)
"""


@test
def the_shell_reads_a_schema_and_sends_places(program):
    with tempfile.TemporaryDirectory() as folder:
        paths = [os.path.join(folder, name) for name in ("schema", "refused", "nested", "none")]
        for path, text in zip(paths, (SCHEMA, "nonsense\nrel behind int\n", f"\\read {paths[0]}\n")):
            with open(path, "w", encoding="utf-8") as file:
                file.write(text)
        lines = [f"\\read {paths[0]}", f"\\read {paths[0]}", 'query q(n) <- lines(number: n, item: "a:b")', 'add lines 1 2 "bolt" 3',
                 "has bolts 1 3", "\\columns lines", f"\\read {paths[1]}", "add behind 1", f"\\read {paths[2]}", f"\\read {paths[3]}"]
        out, err, status = filtered(program, "\n".join(lines) + "\n")
    told = re.sub("query [0-9]+", "query N", out).splitlines()
    expect(told, ["ok", "ok query N", "err 2 taken", "err 2 taken", "ok query N", "ok added 1 1", "yes", "rel lines int int text int",
                  "\\columns lines number line item price", "err 1 syntax", "err 3 no relation"], (out, err))
    wrong = err.splitlines()
    expect([line.split(": ", 2)[1] for line in wrong], ["line 7", "line 7", "line 8", "line 9", "line 9", "line 10"], err)
    for line, words in zip(wrong[1:], ("nothing was run behind the line nonsense", "no relation is named behind", "a file that is read doesn't read",
                                       "nothing was run behind", "No such file")):
        expect(words in line, True, (words, line))
    expect(status, 1)


@test
def the_shell_names_what_is_wrong(program):
    cases = (
        ("query q(n) <- lines(numbr: n)", "lines has no column numbr: did you mean number? it has number, line"),
        ("query q(n) <- line(number: n)", "the columns of line have no names here: did you mean lines? name them first, by columns: line and each name"),
        ("\\columns lines number", "lines has 2 columns, and 1 names were given"),
        ("\\columns lines number number", "lines: two columns are named number"),
        ("\\columns none a", "there is no relation none; make it first: rel none int text .."),
        ("query q(n) <- lines(number: n, line: f(n))", "err 1 syntax: a colon stands in an atom alone"),
    )
    lines = ["rel lines int int", "\\columns lines number line", *(line for line, _ in cases)]
    out, err, status = filtered(program, "\n".join(lines) + "\n")
    expect((out, status), ("ok\nerr 1 syntax\n", 1), err)
    told = err.splitlines()
    expect(len(told), len(cases), err)
    for number, (said, (_, words)) in enumerate(zip(told, cases), 3):
        expect(said.startswith(f"djq-shell: line {number}: {words}"), True, said)


def main():
    if len(sys.argv) != 2:
        raise SystemExit(__doc__)
    program = os.path.abspath(sys.argv[1])
    return run_tests(lambda function: function(program))


if __name__ == "__main__":
    sys.exit(main())
