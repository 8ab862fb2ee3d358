#!/usr/bin/env python3
"""Tests of the shell, in a real terminal and as a filter, and of the package that it comes in.

    tests/shell.py PATH_TO_DJQ [NAME ..]

As a filter it needs Python's standard library alone. Tests of the terminal need pexpect, prompt_toolkit and rich,
in this Python or in /usr/bin/python3, those of the package ensurepip (of python3-venv) and aiohttp, and that of its types mypy: what
isn't there is named, and its tests are skipped. One line is printed for each test that fails or is skipped, and last
`N passed, N failed`, with `, N skipped` and what they were without; the status is 0 where none failed.
"""

import contextlib
import importlib.util
import os
import random
import re
import resource
import signal
import socket
import subprocess
import sys
import tempfile
import threading
import time
import traceback

TERMINAL = ("pexpect", "prompt_toolkit", "rich")
OTHER = "/usr/bin/python3"


def lacks(names):
    return [name for name in names if importlib.util.find_spec(name) is None]


def change_python():
    """Goes on in the system's Python where that has what this one lacks."""
    if not lacks(TERMINAL) or os.path.realpath(sys.executable) == os.path.realpath(OTHER):
        return
    asked = f"import {', '.join(TERMINAL)}"
    if os.path.exists(OTHER) and subprocess.run([OTHER, "-c", asked], stderr=subprocess.DEVNULL).returncode == 0:
        os.execv(OTHER, [OTHER, *sys.argv])


if __name__ == "__main__":
    change_python()

from serving import HERE, SECONDS, Server, djq, raises, wait_until

from djq.shell import files, queries, terminal
from djq.shell.names import Names, find_columns
from djq.shell.screen import Screen, cell, tree
from djq.shell.session import Session

if not lacks(TERMINAL):
    import pexpect

CLIENT = os.path.abspath(os.path.join(HERE, "..", "clients", "python"))
SHELL = [sys.executable, "-m", "djq.shell"]
ENVIRONMENT = {**os.environ, "PYTHONPATH": CLIENT, "TERM": "xterm-256color", "PROMPT_TOOLKIT_NO_CPR": "1"}
PLAIN = """
import sys
for name in ("prompt_toolkit", "rich"):
    sys.modules[name] = None
from djq.shell import main
sys.exit(main())
"""
TESTS = []


def test(*needs):
    """A test, and the packages that it needs."""

    def mark(function):
        TESTS.append((function, needs))
        return function

    return mark


def expect(got, want, what=""):
    assert got == want, f"{what}: got {got!r}, want {want!r}"


def numbered(count):
    return "".join(f"add r {number}\n" for number in range(count))


# As a filter


def filtered(text, *words, program=None, server=None):
    """What the filter writes on both outputs for an input, and its status."""
    at = [f"127.0.0.1:{server.port}"] if server else ["--local", "--program", program]
    text = text if isinstance(text, bytes) else text.encode()
    done = subprocess.run([*SHELL, *at, *words], input=text, capture_output=True, timeout=3 * SECONDS, env=ENVIRONMENT)
    return done.stdout.decode(), done.stderr.decode(), done.returncode


SESSION = """\
rel r int text
rel r int
add r 1 "a \\"b\\" \\\\ \\n ü"

add r 1 "a \\"b\\" \\\\ \\n ü"
add r 2 "b"\r
add r 2
add none 1
add r "x" 1
nonsense
query q(x,y) <- r(x,y)
query w(x,z) <- r(x,y), r(z,y)
query c(x) <- r(x,y), r(z,y), r(x,"b")
watch q
add r 3 "c"
open c q
next c 1
next c 9
del r 3 "c"
next c 1
close c
has q 2 "b"
has q 3 "c"
drop q
unwatch q
shape q
shape z
explain q
query p(x) <- r(x,_)
query t(x) <- r(x,"b")
union u p t
union u p t
union v p
union v p p
union v p q
union v p none
explain u
shape u
watch u
add r 2 "c"
add r 5 "b"
has u 5
open c u
del r 5 "b"
next c 9
close c
drop p
unwatch u
drop u
drop q
done
batch
add r 4 "d"
add r 4 "d"
add r 4
has q 4 "d"
done
batch
del r 4 "d"
add r 4 "e"
done 2
batch
del r 4 "e"
del r 4 "e"
done
batch
add r 4 "f"
done 2
batch
abandon
batch
quit
add r 9 "never"
"""


@test()
def a_filter_writes_what_the_program_does(program):
    done = subprocess.run([program, "run"], input=SESSION.encode(), capture_output=True, timeout=SECONDS)
    written, told, status = filtered(SESSION, program=program)
    expect(written, done.stdout.decode())
    expect(status, 1)
    refusals = [line for line in written.splitlines() if line.startswith(("err", "no c", "stale"))]
    expect(len(told.splitlines()), len(refusals), told)
    assert "err 18 batch: no batch is open (sent: done)" in told, told
    assert 'err 18 batch: a batch is open (sent: has q 4 "d")' in told, told
    assert "err 19 absent: nothing of the batch was carried out (sent: done)" in told, told
    assert "err 20 held: nothing of the batch was carried out (sent: done 2)" in told, told
    assert told.startswith("djq-shell: line 2: err 2 taken"), told
    assert "err 17 member: p stands twice (sent: union v p p)" in told, told
    assert "djq-shell: line 7: err 6 arity: 1 values were given, and r has 2 columns" in told, told


@test()
def lines_that_are_held_at_the_end_are_reported(program):
    begun = "rel r int\nbatch\nadd r 1\n"
    for last in ("quit", "stop"):
        written, told, status = filtered(f"{begun}{last}\n", program=program)
        expect((written, status), ("ok\nok batch\nok held 1\nerr 18 batch\nbye\n", 1), told)
        expect(told, f"djq-shell: line 4: err 18 batch: the lines of the open batch are discarded (sent: {last})\n")
    written, told, status = filtered(begun, program=program)
    expect((written, status), ("ok\nok batch\nok held 1\n", 1))
    expect(told, "djq-shell: the input ended within a batch: 1 line was held, and nothing of the batch was carried out\n")
    expect(filtered("batch\n", program=program)[1:], ("", 0))


@test()
def the_status_is_that_of_the_refusals(program):
    expect(filtered("rel r int\nadd r 1\nadd r 1\n", program=program), ("ok\nok added 1 1\nok added 1 2\n", "", 0))
    expect(filtered("", program=program), ("", "", 0))
    written, _, status = filtered("rel r int\nadd r x\nadd r 1\n", program=program)
    expect((written, status), ("ok\nerr 1 syntax\nok added 1 1\n", 1))
    written, _, status = filtered("rel r int\nadd r x\nadd r 1\n", "--stop", program=program)
    expect((written, status), ("ok\nerr 1 syntax\n", 1))
    with socket.create_server(("127.0.0.1", 0)) as free:
        port = free.getsockname()[1]
    done = subprocess.run([*SHELL, f"127.0.0.1:{port}"], input=b"quit\n", capture_output=True, env=ENVIRONMENT)
    expect((done.stdout, done.returncode), (b"", 2))
    assert done.stderr.startswith(b"djq-shell: ") and b"Traceback" not in done.stderr, done.stderr
    expect(subprocess.run([*SHELL, "nowhere"], input=b"", capture_output=True, env=ENVIRONMENT).returncode, 2)


SCHEMA = """\\if-missing
rel r int text
rel s int
query q(x,y) <- r(x,y)
query p(x,y) <- r(x,y), s(x)
union u q p
"""


@test()
def a_file_of_what_there_is_can_be_run_twice(program):
    with Server(program) as server, server.connect() as client:
        expect(filtered(SCHEMA, server=server), ("ok\nok\nok query 5\nok query 5\nok union 13\n", "", 0))
        client.add("r", 1, "one")
        expect(filtered(SCHEMA, server=server), ("err 2 taken\n" * 5, "", 0))
        expect(filtered(SCHEMA + "\\d r\n\\d u\n", "--stop", server=server)[1:], ("", 0))
        assert client.has("u", 1, "one")
        # other columns are another thing, and without the word each line is refused
        for line in ("rel s text", "rel s int int", "rel r int int"):
            _, told, status = filtered(f"\\if-missing\n{line}\nrel s int\n", server=server)
            expect((len(told.splitlines()), status), (1, 1), told)
            assert "line 2: err 2 taken" in told and "is there with other columns: int" in told, told
        expect(filtered(SCHEMA.partition("\n")[2], server=server)[2], 1)
        # also where a batch is open behind the line, and in lines that come as one
        written, told, status = filtered("\\if-missing\nrel s int\nbatch\nadd s 1\nrel s int\ndone\n", server=server)
        expect((written.splitlines()[-2:], status), (["err 18 batch", "ok done 2 1"], 1), told)


ADVICE = (
    ("query q(x) <- r(x,y), not t(y)", "queries have no not"), ("query q(x) <- r(x,y), !t(y)", "queries have no not"),
    ("query q(x) <- r(x,y), not(y)", "queries have no not"), ("query q(x) <- t(x) or r(x,_)", "queries have no or"),
    ("query q(x) <- t(x) | r(x,_)", "queries have no or"), ("query q(x) <- r(x,y), y in (1,2)", "queries have no or"),
    ("query q(count(x)) <- r(x,y)", "queries compute nothing"), ("query q(x) <- count(x)", "queries compute nothing"),
    ("query q(x,n) <- r(x,y), n = count(y)", "live.count(by=..)"), ("query q(x) <- r(x,y) and t(y)", "a comma stands between"),
    ("query q(x,y) <- r(x,y), x < y", "to compare two columns"), ("query q(x,y) <- r(x,y), x != y", "to compare two columns"),
    ("query q(x,y) <- r(x,y), x = y", "columns with equal values have one name"), ("query q(x) :- r(x,y)", "<- stands behind"),
    ("query q(x) <- r(x,y), 5 < y", "a variable is compared with a constant alone"), ("add r 1 'a'", "in double quotes"),
    ("add r 1 2.5", "there are no fractions"),
)  # fmt: skip


@test()
def advice_stands_in_pipes_and_exceptions(program):
    with Server(program) as server, server.connect() as client:
        client.relation("r", int, int)
        client.relation("t", int)
        written, told, status = filtered("".join(line + "\n" for line, _ in ADVICE), server=server)
        expect((len(written.splitlines()), len(told.splitlines()), status), (len(ADVICE), len(ADVICE), 1))
        for reply, complaint, (line, advice) in zip(written.splitlines(), told.splitlines(), ADVICE):
            assert advice in complaint and reply in complaint, (line, complaint)
            command, _, text = line.partition(" ")
            said = (lambda: client.query(text)) if command == "query" else (lambda: client._do(line, djq.protocol.READ_OK))
            error = raises(djq.Refused, said)
            assert advice in error.why and advice in str(error), (line, error)
        # what is right isn't advised, whatever its names and texts are
        client.relation("count", int, str)
        client.query('sums(not1,min) <- count(not1,min), min != "a or b", not1 != 5')
        expect(raises(djq.Arity, lambda: client.query("q(x) <- count(x)")).why, "")


@test()
def what_a_server_would_end_a_session_for_is_refused_here(program):
    text = b"rel r text\nadd r \"\xff\"\nadd r \"" + b"x" * 5000 + b'"\nadd r "y"'
    written, told, status = filtered(text, program=program)
    expect((written, status), ("ok\nok added 1 1\n", 1))
    assert "line 2: " in told and "line 3: a line of 5008 bytes" in told and "Traceback" not in told, told


@test()
def replies_come_as_lines_come_and_changes_without_a_word(program):
    with Server(program) as server, server.connect() as other:
        words = [*SHELL, f"127.0.0.1:{server.port}"]
        pipes = {name: subprocess.PIPE for name in ("stdin", "stdout", "stderr")}
        with subprocess.Popen(words, **pipes, env=ENVIRONMENT, bufsize=0) as shell:
            guard = threading.Timer(SECONDS, shell.kill)
            guard.start()
            for line, reply in (("rel r int", "ok"), ("query q(x) <- r(x)", "ok query 3"), ("watch q", "ok watch 0")):
                shell.stdin.write(line.encode() + b"\n")
                expect(shell.stdout.readline(), reply.encode() + b"\n", line)
            other.add("r", 7)
            expect([shell.stdout.readline() for _ in range(2)], [b"+ q 7\n", b"at q 1\n"])
            other.stop()
            expect(shell.wait(SECONDS), 2)
            expect(shell.stderr.read(), b"djq-shell: the server closed the connection\n")
            guard.cancel()


@test()
def many_lines_go_through_a_filter(program):
    count = 60000
    before = resource.getrusage(resource.RUSAGE_CHILDREN).ru_utime
    pages = "query q(x) <- r(x)\nopen c q\n" + "next c 1000\n" * 70
    written, told, status = filtered("rel r int\n" + numbered(count) + pages, program=program)
    took = resource.getrusage(resource.RUSAGE_CHILDREN).ru_utime - before
    lines = written.splitlines()
    expect((told, status), ("", 0))
    expect(lines[: count + 1], ["ok", *(f"ok added {number + 1} 1" for number in range(count))])
    expect({int(line[2:]) for line in lines if line.startswith("= ")}, set(range(count)))
    assert took < SECONDS / 2, took  # of processor time: some 1 s


@test()
def a_reader_that_goes_away_ends_a_filter(program):
    with Server(program) as server, server.connect() as client:
        client.relation("r", int)
        pipes = {name: subprocess.PIPE for name in ("stdin", "stdout", "stderr")}
        shell = subprocess.Popen([*SHELL, f"127.0.0.1:{server.port}"], **pipes, env=ENVIRONMENT)
        shell.stdout.close()
        with contextlib.suppress(BrokenPipeError):
            shell.stdin.write(numbered(20000).encode())
            shell.stdin.close()
        expect(shell.stderr.read(), b"")
        expect(shell.wait(SECONDS), 2)
        shell.stderr.close()


# Queries that aren't admitted


def random_query(chance, number):
    variables = "abcdef"[: chance.randint(2, 6)]
    atoms = []
    for _ in range(chance.randint(1, 5)):
        relation = chance.choice(["two", "two", "three"])
        terms = [chance.choice(variables) if chance.random() < 0.9 else chance.choice(["_", "3"])
                 for _ in range(2 if relation == "two" else 3)]  # fmt: skip
        atoms.append(queries.Atom(relation, tuple(terms)))
    bound = sorted({v for atom in atoms for v in atom.variables})
    head = tuple(chance.sample(bound, chance.randint(0, len(bound))))
    return queries.Query(f"q{number}", head, tuple(atoms))


@test()
def each_cure_of_a_query_is_admitted(program):
    chance = random.Random(3)
    refused = {"no cyclic": 0, "no connex": 0}
    cured = 0
    with Server(program) as server, server.connect() as client:
        client.relation("two", int, int)
        client.relation("three", int, int, int)
        for number in range(500):
            query = random_query(chance, number)
            expect(queries.read_query(f" {query}"), query)
            try:
                client.query(str(query))
                client.drop(query.name)
                assert queries.admitted(query), query
                expect(queries.with_longer_head(query), query)
                continue
            except djq.NotFreeConnex as error:
                refused[" ".join(error.words.split()[:2])] += 1
                expect(queries.is_cyclic(query), isinstance(error, djq.Cyclic), query)
                expect(queries.admitted(query), False, query)
                edges = {frozenset(edge) for edge in error.edges}
            if not queries.is_cyclic(query):
                expect({v for edge in edges for v in edge} - set(query.head) != set(), True, query)
            cures = queries.cures(query)
            cured += bool(cures)
            for cure in cures:
                for admitted in cure.queries:
                    register(client, admitted)
    assert min(refused.values()) > 20 and cured == sum(refused.values()), (refused, cured)


def register(client, query):
    """Registers a query, with the relations that it brings, and drops it again."""
    for atom in query.atoms:
        with contextlib.suppress(djq.Taken):
            client.relation(atom.relation, *[int] * len(atom.terms))
    client.query(str(query))
    client.drop(query.name)


@test()
def columns_are_found_without_a_change(program):
    chance = random.Random(4)
    with Server(program) as server, server.connect() as client:
        session = Session("127.0.0.1", server.port, SECONDS)
        for number in range(30):
            kinds = tuple(chance.choice(["int", "text"]) for _ in range(chance.randint(1, 8)))
            client.relation(f"r{number}", *kinds)
            expect(find_columns(Names(), session, f"r{number}"), kinds)
        expect(find_columns(Names(), session, "none"), None)
        expect(find_columns(Names(), session, "No, such"), None)
        expect(client.add("r0", *[1 if kind == "int" else "" for kind in find_columns(Names(), session, "r0")]).seq, 1)
        raises(djq.NoQuery, lambda: client.drop("djq_shell_asks_for_columns"))
        session.connection.close()


@test()
def a_tree_is_drawn_with_its_root_on_top(program):
    lines = ["n 0 leaf r x,y out", "n 1 leaf s y out", "n 2 trim 0 y out", "n 3 meet 1 2 y out", "n 4 trim 3 - out"]
    drawn = [re.split(" {3,}", line.lstrip())[0] for line in tree(lines)]
    expect(drawn, ["4 trim", "└── 3 meet  y", "├── 1 leaf s  y", "└── 2 trim  y", "└── 0 leaf r  x,y"])
    expect([line[:4] for line in tree(lines)], ["4 tr", "└── ", "    ", "    ", "    "])
    expect(tree(["m a", "m b", "m c"]), ["union of", "├── a", "├── b", "└── c"])
    assert tree(["n 0 leaf r x,y", "n 1 trim 0 x out", "n 2 trim 1 - out"])[2].strip().startswith("└── (0 leaf r  x,y)")


@test()
def texts_are_shown_safely(program):
    for value, want in ((7, "7"), ("plain text", "plain text"), ("", '""'), (" a", '" a"'), ("a ", '"a "'),
                        ('say "x"', '"say \\"x\\""'), ("a\nb", '"a\\nb"'), ("\x1b[2J", "\\u{1b}[2J"),
                        ("a\u202eb", "a\\u{202e}b"), ("tab\tbed", "tab\\u{9}bed"), ("ü 你", "ü 你")):  # fmt: skip
        expect(cell(value), want)


@test()
def pasted_lines_are_cut_where_commands_end(program):
    text = "rel r int\r\n\n  add r 1\nquery q(x,y) <-\n  r(x,y),\n  s(y)\nwatch q\nadd t \"a,\"\n"
    want = ["rel r int", "add r 1", "query q(x,y) <- r(x,y), s(y)", "watch q", 'add t "a,"']
    expect(list(terminal.lines_of(text)), want)


# Files


NASTY = [
    "", " ", "a,b", 'q"q', "two\nlines", "cr\rin", "crlf\r\n", "\ufeffbom", "ü 你", "'", "\\", "x" * 255, "7", "\x1b[2J",
]  # fmt: skip


@contextlib.contextmanager
def served(program):
    """A server, a client of it, and a directory that files are in."""
    with Server(program) as server, server.connect() as client, tempfile.TemporaryDirectory() as directory:
        yield server, client, directory


@test()
def a_dump_is_loaded_as_it_was(program):
    with served(program) as (server, client, directory):
        rows = {(number, text, -number) for number, text in enumerate(NASTY)} | {(2**63 - 1, "", -(2**63))}
        client.relation("r", int, str, int)
        client.relation("s", int, str, int)
        client.query("q(x,y,z) <- r(x,y,z)")
        client.query("p(x,y,z) <- s(x,y,z)")
        client.load("r", rows)
        for further in ("", " header"):
            path = os.path.join(directory, f"rows{len(further)}.csv")
            lines = f"\\dump q {path}{further}\n\\load {path} s{further}\n"
            written, told, status = filtered(lines, server=server)
            expect((told, status), ("", 0), written)
            expect(client.snapshot("p"), rows)
            for row in rows:
                client.delete("s", *row)
        written, told, status = filtered(f"\\dump q {path}\n", server=server)
        assert status == 1 and "is there already" in told, told
        before = open(path).read()
        client.add("r", 0, "more", 0)
        written, told, status = filtered(f"\\dump q {path} over\n", server=server)
        expect(status, 0)
        assert "more" in open(path).read() and "more" not in before
        expect(sorted(os.listdir(directory)), ["rows0.csv", "rows7.csv"])
        after = open(path).read()
        lines = f"\\dump none {path} over\n\\dump q {directory}/no/such.csv\n"
        written, told, status = filtered(lines, server=server)
        expect((written, status, len(told.splitlines())), ("", 1, 2), told)
        expect(open(path).read(), after)


@test()
def a_bad_line_is_told_and_nothing_is_sent(program):
    with served(program) as (server, client, directory):
        client.relation("r", int, str)
        client.query("q(x,y) <- r(x,y)")
        good = "".join(f"{number},text\n" for number in range(3000))
        bad = (
            (b"x,y", "line 3001: value 1 is no int: 'x'"), (b"1", "line 3001: 1 values, and r has 2 columns: int text"),
            (b"1,2,3", "line 3001: 3 values"), (b"9223372036854775808,a", "line 3001: value 1 is past 64 bits"),
            (b"1," + b"x" * 256, "line 3001: value 2 is a text of 256 bytes"), (b"1_0,a", "value 1 is no int"),
            (b"1,\xff", "line 3001: value 2 isn't UTF-8"), (b'"1\n2",a', "line 3001: value 1 is no int"),
            (b'1,"open', "unexpected end of data"), ("٣,a".encode(), "value 1 is no int"), (b" 1,a", "is no int"),
        )  # fmt: skip
        lines = []
        for number, (row, _) in enumerate(bad):
            lines.append(f"\\load {directory}/{number}.csv r")
            with open(f"{directory}/{number}.csv", "wb") as file:
                file.write(good.encode() + row + b"\n5,five\n" * (row != b'1,"open'))
        with open(f"{directory}/named.csv", "w") as file:
            file.write("number,name\n" + good)
        whys = [why for _, why in bad]
        whys += ["write header behind the relation", "there is no relation none", "no such file"]
        whys += ["it is written \\load FILE.csv RELATION [header]", "comes header, or new, or both"]
        named = f"{directory}/named.csv"
        lines += [f"\\load {named} r", f"\\load {named} none", f"\\load {directory} r", f"\\load {named}"]
        lines += [f"\\load {named} r heder"]
        written, told, status = filtered("\n".join(lines), server=server)
        expect((written, status, len(told.splitlines())), ("", 1, len(whys)), told)
        for number, (why, line) in enumerate(zip(whys, told.splitlines()), 1):
            assert why in line and line.startswith(f"djq-shell: line {number}: "), (why, line)
        expect(client.snapshot("q"), set())
        written, told, status = filtered(f"\\load {named} r header\n" * 2, server=server)
        first, second = written.splitlines()
        assert first.startswith("3,000 rows came to r") and status == 0, written + told
        assert second.startswith("3,000 rows came to r, 3,000 of them were there and have one copy more"), written
        expect(len(client.snapshot("q")), 3000)
        with open(named, "a") as file:
            file.write("3000,more\n3000,more\n")
        written, told, status = filtered(f"\\load {named} r new header\n", server=server)
        assert written.startswith("1 row came to r, 3,001 were there already") and status == 0, written + told
        expect([client.delete("r", number, "text").copies for number in (0, 2999)], [1, 1])
        # each thousand rows of a load are one change
        expect(client.delete("r", 3000, "more"), djq.Removed(5, 0))


class Refusing:
    """Stands between a client and a server, and refuses one `add` as if there were no memory; or hangs up at it."""

    def __init__(self, server, at, hang_up=False):
        self.listener = socket.create_server(("127.0.0.1", 0))
        self.port = self.listener.getsockname()[1]
        self.server, self.at, self.hang_up = server, at, hang_up
        threading.Thread(target=self.run, daemon=True).start()

    def run(self):
        client, _ = self.listener.accept()
        seen = 0
        behind = socket.create_connection(("127.0.0.1", self.server.port))
        with client, behind, client.makefile("rb") as said, behind.makefile("rb") as told:
            for line in said:
                seen += line.startswith(b"add ")
                if line.startswith(b"add ") and seen == self.at:
                    if self.hang_up:
                        client.shutdown(socket.SHUT_RDWR)
                        return
                    client.sendall(b"err 12 memory\n")
                    continue
                behind.sendall(line)
                client.sendall(told.readline())


@test()
def a_load_that_is_refused_is_taken_back(program):
    with served(program) as (server, client, directory):
        client.relation("r", int)
        client.query("q(x) <- r(x)")
        client.load("r", [(1,), (1500,), (90000,)])
        path = os.path.join(directory, "rows.csv")
        with open(path, "w") as file:
            file.write("".join(f"{number}\n" for number in range(3000)))
        written, told, status = filtered(f"\\load {path} r\n", server=Refusing(server, 1700))
        assert status == 1 and "err 12 memory" in told and "rows that had come were taken out again" in told, told
        expect(client.snapshot("q"), {(1,), (1500,), (90000,)})
        written, told, status = filtered(f"\\load {path} r\n", server=Refusing(server, 1700, hang_up=True))
        assert status in (1, 2) and "the connection was lost: the " in told and f"\\load {path} r new" in told, told
        # of the transaction that was open nothing came
        expect([client.delete("r", number).copies for number in (1, 1500, 90000)], [1, 0, 0])
        expect(filtered(f"\\load {path} r new\n", server=server)[2], 0)
        expect([client.delete("r", number).copies for number in (0, 1, 1000, 2999)], [0] * 4)
        client.load("r", [(number,) for number in (0, 1, 1000, 2999)])
        expect(client.snapshot("q"), {(number,) for number in range(3000)})


# In a terminal


class Terminal:
    """A shell in a terminal, and what it shows without the terminal's own commands."""

    def __init__(self, *words, plain=False, history=os.devnull, cwd=None):
        command = [sys.executable, "-c", PLAIN] if plain else SHELL
        self.process = pexpect.spawn(
            command[0], [*command[1:], *words], env={**ENVIRONMENT, "DJQ_HISTORY": history}, encoding="utf-8",
            dimensions=(40, 120), timeout=SECONDS, cwd=cwd,
        )  # fmt: skip
        self.shown = ""
        self.waits("djq>")

    def __enter__(self):
        return self

    def __exit__(self, *_):
        self.process.close(force=True)

    def waits(self, words, behind=0):
        """Waits until these words are shown, and gives what was shown before and with them."""
        until = time.monotonic() + SECONDS
        while True:
            found = self.text().find(words, behind)
            if found >= 0:
                return self.text()[behind : found + len(words)]
            assert time.monotonic() < until, f"{words!r} isn't shown: {self.text()[behind:]!r}"
            try:
                self.shown += self.process.read_nonblocking(65536, 0.2)
            except pexpect.TIMEOUT:
                pass
            except pexpect.EOF:
                assert self.text().find(words, behind) >= 0, f"{words!r} isn't shown: {self.text()[behind:]!r}"

    def text(self):
        """What was shown."""
        return re.sub(r"\x1b(\[[0-9;?]*[a-zA-Z]|.)", "", self.shown).replace("\r", "\n")

    def types(self, keys):
        self.process.send(keys)

    def runs(self, line, words):
        """Types a line, and waits until these words and a new prompt are shown. Gives what was shown meanwhile."""
        behind = len(self.text())
        self.types(line + "\r")
        told = self.waits("\n" + words, behind)
        self.waits("djq>", behind + len(told))
        return self.text()[behind:]

    def completes(self, keys):
        """Types the beginning of a word and a tab, and waits until that is done."""
        for typed in (keys, "\t"):
            before = len(self.shown)
            self.types(typed)
            quiet = time.monotonic()
            while len(self.shown) == before or time.monotonic() < quiet + 0.4:
                assert time.monotonic() < quiet + SECONDS, f"nothing is shown of {typed!r}"
                with contextlib.suppress(pexpect.TIMEOUT):
                    self.shown += self.process.read_nonblocking(65536, 0.1)
                    quiet = time.monotonic()

    def ends(self):
        """Waits for its end, and gives the status."""
        with contextlib.suppress(pexpect.EOF):
            while True:
                self.shown += self.process.read_nonblocking(65536, SECONDS)
        self.process.close()
        return self.process.exitstatus


@test(*TERMINAL)
def commands_are_typed(program):
    with Terminal("--local", "--program", program) as shell:
        shell.runs("rel r int text", "ok")
        shell.runs('add r 1 "one"', "ok added 1 1")
        shell.runs('add r 22 "t\\"wo"', "ok added 2 1")
        shell.runs('add r 1 "one"', "the row has 2 copies now")
        shell.runs('del r 1 "one"', "the row has 1 copy now")
        shell.runs("query q(number,name) <- r(number,name)", "ok query 5")
        shown = shell.runs("\\show q", "2 answers, and these are the last")
        rows = [line.split() for line in shown.splitlines() if line.strip()]
        assert ["number", "name"] in rows and ["1", "one"] in rows and ["22", '"t\\"wo"'] in rows, shown
        shell.runs("\\show q 1", "1 answer, and there are more")
        shell.runs("open c q", "ok open")
        assert "number" in shell.runs("next c 5", "2 answers, and these are the last")
        assert "└── 0 leaf r  number,name" in shell.runs("\\explain q", "1 trim")
        shell.runs("query one(number,name) <- r(number,name), number = 1", "ok query 5")
        shell.runs("union u one q", "ok union 12")
        assert "number" in shell.runs("\\show u", "2 answers, and these are the last")
        for line in ("explain u", "\\explain u"):
            assert "├── one\n" in shell.runs(line, "union of").replace("\n\n", "\n")
        shell.runs("\\names", "union u one q")
        shell.runs("\\timing", "timing is on")
        assert re.search(r"\n[0-9.]+ ms", shell.runs("has q 1 \"one\"", "yes"))
        shell.runs("\\timing", "timing is off")
        shell.runs("\\names", "cursor c of q")
        shell.runs("\\columns r", "rel r int text")
        shell.runs("\\d r", "rel r int text")
        shell.runs("\\d", "rel r int text")
        assert "├── one\n" in shell.runs("\\d u", "union of").replace("\n\n", "\n")
        shell.runs("\\d none", "err 4 no query")
        shell.runs("\\if-missing", "")
        shell.runs("rel r int text", "it is there already, and stays as it is")
        assert "\\load FILE.csv RELATION" in shell.runs("\\?", "rel NAME int text ..")
        shell.runs("\\load", "it is written \\load FILE.csv RELATION")
        shell.runs("\\nothing", "no command is named \\nothing")
        shell.types("has q \x03")
        shell.runs('has q 1 "one"', "yes")
        shell.types("\\q\r")
        expect(shell.ends(), 0)


@test(*TERMINAL)
def refusals_say_what_to_do(program):
    with Terminal("--local", "--program", program) as shell:
        shell.runs("rel r int int", "ok")
        shell.runs("rel s int text", "ok")
        for line, refusal, advice in (
            ("query q(x,z) <- r(x,y), r(y,z)", "no connex x,y x,z y,z", "query q(x,z,y) <- r(x,y), r(y,z)"),
            ("query q(x,y,z) <- r(x,y), r(y,z), r(z,x)", "no cyclic", "query q(x,y,z) <- r(x,y), r(y,z), q_has"),
            ("addd r 1 2", "err 1 syntax", "did you mean add?"),
            ("add s 1 'a'", "err 1 syntax", "a text stands in double quotes"),
            ("rel r int", "err 2 taken", "its rows are as they were"),
            ("add rr 1 2", "err 3 no relation", "did you mean r?"),
            ("open c qq", "err 4 no query", "register it: query qq"),
            ("next c 1", "err 5 no cursor", "open one: open c QUERY"),
            ("add r 1", "err 6 arity", "r has the columns int int"),
            ('add s "a" 1', "err 7 type", "s has the columns int text"),
            ("query q(x,w) <- r(x,_)", "err 8 head unbound", "no atom has w"),
            ("query q(x,x) <- r(x,_)", "err 9 head repeated", "name x once"),
            ("query q(x) <- s(x,x)", "err 10 variable type", "x stands in column 1 of s, of ints, and in column 2"),
            ("rel w" + " int" * 17, "err 11 limit", "a relation has at most 16 columns"),
            ("query q(x) <- r(x,_), x < z", "err 1 syntax", "a variable is compared with a constant alone"),
            ("query q(x) <- r(x,_), x<-5", "err 1 syntax", "less than -5 is < -5"),
            ("query q(x) <- x > 5", "err 1 syntax", "an atom stands in the body too"),
            ('query q(x) <- s(x,y), y > "a"', "err 7 type", "texts have no order"),
            ('query q(x) <- s(x,y), x = "a"', "err 7 type", "x stands in column 1 of s, of ints"),
            ("query q(x) <- r(x,_), z > 5", "err 16 unbound", "no atom has z"),
            ("query q(x) <- r(x,y), not s(x,_)", "err 1 syntax", "queries have no not"),
            ("query q(x) <- r(x,y), not(x)", "err 3 no relation", "queries have no not"),
            ("query q(count(x)) <- r(x,y)", "err 1 syntax", "queries compute nothing"),
            ("query q(x) <- r(x,_) or s(x,_)", "err 1 syntax", "queries have no or"),
        ):
            if advice.endswith("q_has"):
                advice = "query q_has(x,z) <- r(z,x)"
            shown = shell.runs(line, refusal)
            assert advice in shown, (line, shown)
        shell.runs("query q(x) <- r(x,_)", "ok query 3")
        shell.runs("query p(x) <- s(x,_)", "ok query 3")
        shell.runs("query t(x) <- s(_,x)", "ok query 3")
        shell.runs("union u p q", "ok union 8")
        for line, refusal, advice in (
            ("union v p", "err 1 syntax", "union NAME QUERY QUERY"),
            ("union u p q", "err 2 taken", "drop u first"),
            ("union v p qq", "err 4 no query", "did you mean q?"),
            ("union v p p", "err 17 member: p stands twice", "name p once"),
            ("union v p u", "err 17 member", "u is a union itself: name its members, p q"),
            ("union v p t", "err 17 member", "as many variables, of the same types in order: p(x), t(x)"),
            ("union v a b c d e f g h i", "err 4 no query", "register it: query a"),
            ("drop q", "err 14 in use", "drop u first"),
        ):
            shown = shell.runs(line, refusal)
            assert advice in shown, (line, shown)
        shell.runs("drop u", "ok")
        shell.runs("open c q", "ok open")
        shell.runs("watch q", "ok watch 0")
        assert "close c, unwatch q first" in shell.runs("drop q", "err 14 in use")
        shell.runs("add r 1 2", "+ q  1")
        assert "close c, then open c q" in shell.runs("next c 1", "stale c r 1")
        shell.types("\x04")
        expect(shell.ends(), 0)


@test(*TERMINAL)
def an_open_batch_is_shown(program):
    with Terminal("--local", "--program", program) as shell:
        shell.runs("rel r int int", "ok")
        shell.runs("query q(x,y) <- r(x,y)", "ok query 5")
        shell.runs("watch q", "ok watch 0")
        assert "\n[0 held] djq>" in shell.runs("batch", "ok batch")
        assert "\n[1 held] djq>" in shell.runs("add r 1 2", "ok held 1")
        assert "it holds 1 line: done carries them out" in shell.runs("drop q", "err 18 batch: a batch is open")
        assert "r has the columns int int" in shell.runs("add r 1", "err 6 arity")
        shell.runs("\\show q", "a batch is open, and \\show asks the server")
        shell.runs("\\names", "rel r int int")
        shell.runs("add r 3 4", "ok held 2")
        shell.completes("do")  # no drop here
        told = shell.runs("", "+ q  1  2")
        assert "+ q  3  4" in told and "ok done 1 2" in told and "2 rows came or went, as one change" in told, told
        assert "\ndjq>" in told, told
        assert "batch opens one" in shell.runs("done", "err 18 batch: no batch is open")
        shell.runs("batch", "ok batch")
        shell.runs("add r 1 2", "ok held 1")
        assert "no row came or went: only copies" in shell.runs("done", "ok done 1 0")
        # an update, one of a row that isn't there, and another count than is held
        shell.runs("batch", "ok batch")
        shell.runs("del r 3 4", "ok held 1")
        assert "\n[2 held] djq>" in shell.runs("add r 3 5", "ok held 2")
        told = shell.runs("done 2", "+ q  3  5")
        assert "- q  3  4" in told and "ok done 2 2" in told and "2 rows came or went" in told, told
        shell.runs("batch", "ok batch")
        shell.runs("del r 3 4", "ok held 1")
        assert "no copy of r 3 4 is there" in shell.runs("done", "err 19 absent")
        shell.runs("batch", "ok batch")
        shell.runs("add r 3 4", "ok held 1")
        assert "1 line was held" in shell.runs("done 3", "err 20 held")
        shell.runs("batch", "ok batch")
        shell.runs("add r 5 6", "ok held 1")
        assert "\ndjq>" in shell.runs("abandon", "ok")
        shell.runs("has q 5 6", "no")
        shell.runs("batch", "ok batch")
        shell.runs("del r 3 5", "ok held 1")
        shell.types("\\q\r")
        shell.waits("1 line was held, and nothing of the batch was carried out")
        expect(shell.ends(), 0)


@test(*TERMINAL)
def changes_leave_the_line_that_is_typed(program):
    with Server(program) as server, server.connect() as other, Terminal(f"127.0.0.1:{server.port}") as shell:
        other.relation("r", int, str)
        other.query("q(x,y) <- r(x,y)")
        shell.runs("watch q", "ok watch 0")
        shell.types('has q 7 "sev')
        shell.waits('has q 7 "sev')
        behind = len(shell.text())
        other.add("r", 7, "seven")
        shell.waits("+ q  7  seven", behind)
        told = shell.waits("q at change 1", behind)
        assert "+ q  7  seven" in told, told
        shell.waits('djq> has q 7 "sev', behind + len(told))  # drawn anew, below it
        shell.types("en")
        other.delete("r", 7, "seven")
        shell.waits("- q  7  seven", behind)
        other.add("r", 7, "seven")
        shell.waits("at change 3", behind)
        shell.runs('"', "yes")
        other.add("r", 8, "\x1b[2J")
        shell.waits("+ q  8  \\u{1b}[2J", behind)
        for number in range(500):
            other.add("r", number, "many")
        shell.waits("at change 504", behind)
        shell.runs("unwatch q", "ok")


@test(*TERMINAL)
def lines_are_pasted_completed_and_remembered(program):
    with tempfile.TemporaryDirectory() as directory:
        history = os.path.join(directory, "history")
        with Terminal("--local", "--program", program, history=history) as shell:
            pasted = "rel readings int int\nrel names int text\nquery joined(x,y,z) <-\n  readings(x,y),\n  names(x,z)"
            pasted += "\nwatch joined"
            behind = len(shell.text())
            shell.types(f"\x1b[200~{pasted}\x1b[201~\r")
            shell.waits("ok watch 0", behind)
            assert "\n> query joined(x,y,z) <- readings(x,y), names(x,z)" in shell.text()
            shell.waits("djq>", len(shell.text()) - 5)
            shell.completes("add rea")
            shell.runs(" 1 2", "ok added 1 1")
            shell.completes("unw")
            shell.completes(" jo")
            shell.runs("", "ok")
            shell.completes("\\sho")
            shell.completes(" j")
            shell.runs("", "0 answers")
            shell.completes("query other(x) <- na")
            shell.runs("(x,_)", "ok query 3")
            # of a union queries alone are members, each once
            shell.completes("union both joined o")
            shell.runs("", "err 17 member")
            # typed over several lines
            shell.types("query third(x) <-\r")
            shell.waits("...>", behind)
            shell.runs("names(x,_)", "ok query 3")
            shell.types("\\q\r")
            expect(shell.ends(), 0)
        expect(os.stat(history).st_mode & 0o77, 0)
        with Terminal("--local", "--program", program, history=history) as shell:
            shell.types("\x1b[A\x1b[A")  # the last but one, behind \q: the query of two lines
            assert "make it: rel names int text" in shell.runs("", "err 3 no relation")


@test(*TERMINAL)
def a_load_that_is_interrupted_is_taken_back(program):
    with served(program) as (server, client, directory):
        client.relation("r", int)
        client.query("q(x) <- r(x)")
        client.add("r", 5)
        path = os.path.join(directory, "rows.csv")
        with open(path, "w") as file:
            file.write("".join(f"{number}\n" for number in range(400000)))
        with Terminal(f"127.0.0.1:{server.port}") as shell:
            behind = len(shell.text())
            shell.types(f"\\load {path} r\r")
            shell.waits(" a second", behind)
            shell.process.kill(signal.SIGINT)
            shell.waits("rows that had come were taken out again", behind)
            shell.waits("djq>", len(shell.text()) - 5)
            expect(client.snapshot("q"), {(5,)})
            shell.runs("has q 5", "yes")


@test(*TERMINAL)
def a_session_that_is_lost_is_begun_anew(program):
    with Server(program) as first:
        with Terminal(f"127.0.0.1:{first.port}") as shell:
            shell.runs("rel r int", "ok")
            behind = len(shell.text())
            first.process.kill()
            first.process.wait()
            shell.waits("the next command connects anew", behind)
            shell.runs("add r 1", "[Errno 111] Connection refused")
            with Server(program, first.port):
                assert "connected anew" in shell.runs("rel r int", "ok")
                shell.runs("add r 1", "ok added 1 1")
                shell.types("stop\r")
                shell.waits("Type yes", behind)
                shell.types("no\r")
                shell.runs("add r 2", "ok added 2 1")
                shell.types("stop\r")
                shell.waits("Type yes", len(shell.text()) - 10)
                shell.types("yes\r")
                expect(shell.ends(), 0)
            with contextlib.suppress(djq.Error):
                first.connect()
                raise AssertionError("the server goes on")


@test("pexpect")
def a_terminal_without_packages_serves(program):
    with (
        Server(program) as server, server.connect() as other,
        Terminal(f"127.0.0.1:{server.port}", plain=True) as shell,
    ):  # fmt: skip
        assert "it is better with prompt_toolkit and rich" in shell.text()
        shell.runs("rel r int text", "ok")
        shell.runs("query q(x,y) <- r(x,y)", "ok query 5")
        shell.runs("watch q", "ok watch 0")
        other.add("r", 1, "one")
        shell.runs('has q 1 "one"', "yes")
        assert "+ q  1  one" in shell.text()
        assert "x  y\n\n-  ---\n\n1  one" in shell.runs("\\show q", "1 answer")
        shell.types("\\q\r")
        expect(shell.ends(), 0)


@test("pexpect")
def a_server_beside_it_is_found_and_ends_with_it(program):
    with tempfile.TemporaryDirectory() as directory:
        os.makedirs(os.path.join(directory, "crates", "djq", "out"))
        os.makedirs(os.path.join(directory, "deep", "down"))
        os.symlink(program, os.path.join(directory, "crates", "djq", "out", "djq"))
        with Terminal("--local", cwd=os.path.join(directory, "deep", "down")) as shell:
            port = int(re.search(r"djq at 127\.0\.0\.1:(\d+), a server of its own", shell.text())[1])
            shell.process.kill(signal.SIGINT)  # Ctrl-C is no end
            shell.runs("rel r int", "ok")
            socket.create_connection(("127.0.0.1", port), SECONDS).close()
            shell.types("\\q\r")
            expect(shell.ends(), 0)
        raises(OSError, lambda: socket.create_connection(("127.0.0.1", port), 1))


# The package


@test("ensurepip")
def the_package_is_installed_without_a_network(program):
    with tempfile.TemporaryDirectory() as directory:
        source, made = os.path.join(directory, "source"), os.path.join(directory, "made")
        subprocess.run(["cp", "-r", CLIENT, source], check=True)
        # nothing of this Python's packages is there, so pip can't fall back on a setuptools of it
        run = pip_environment(directory, made)
        done = run("-m", "pip", "install", "--no-index", "--quiet", source)
        assert done.returncode == 0, done.stdout + done.stderr
        asked = "import djq, djq.aio, djq.shell, os; print(djq.__version__, djq.__file__, os.listdir(os.path.dirname(djq.__file__)))"
        done = run("-c", asked)
        assert done.stdout.startswith(f"{djq.__version__} {made}") and "py.typed" in done.stdout, done.stdout + done.stderr
        assert f"Version: {djq.__version__}\n" in run("-m", "pip", "show", "djq").stdout
        shell = os.path.join(made, "bin", "djq-shell")
        done = run(shell, "--local", "--program", program, input="rel r int\nadd r 1\n")
        expect((done.stdout, done.returncode), ("ok\nok added 1 1\n", 0), done.stderr)
        assert "--local" in run(shell, "--help").stdout
        packed = [name for name in run("-m", "pip", "show", "--files", "djq").stdout.split() if name.startswith("djq/web/")]
        for name in os.listdir(os.path.join(CLIENT, "djq", "web")):
            assert name == "__pycache__" or f"djq/web/{name}" in packed, name
        # of the sources where they are, for who works on them
        done = run("-m", "pip", "install", "--no-index", "--quiet", "--editable", source)
        assert done.returncode == 0, done.stdout + done.stderr
        assert run("-c", "import djq; print(djq.__file__)").stdout.startswith(source)


@test("ensurepip", "prompt_toolkit", "rich", "aiohttp")
def what_the_package_can_use_is_named(program):
    """Each extra is met by what Debian has, and one that isn't there is missed without a network."""
    with tempfile.TemporaryDirectory() as directory:
        source, made = os.path.join(directory, "source"), os.path.join(directory, "made")
        subprocess.run(["cp", "-r", CLIENT, source], check=True)
        run = pip_environment(directory, made, "--system-site-packages")
        done = run("-m", "pip", "install", "--no-index", "--quiet", f"{source}[shell,web]")
        assert done.returncode == 0, done.stdout + done.stderr
        asked = "from importlib.metadata import requires; print(*requires('djq'), sep='\\n')"
        needs = run("-c", asked).stdout
        assert 'extra == "shell"' in needs and 'aiohttp>=3.8 ; extra == "web"' in needs, needs
        run = pip_environment(directory, os.path.join(directory, "bare"))
        done = run("-m", "pip", "install", "--no-index", "--quiet", f"{source}[web]")
        assert done.returncode != 0 and "aiohttp" in done.stderr, done.stderr


def pip_environment(directory, made, *words):
    """A virtual environment, and what runs its Python, or another program, without a network."""
    subprocess.run([sys.executable, "-m", "venv", *words, made], check=True)
    environment = {**os.environ, "PIP_NO_INDEX": "1", "PIP_DISABLE_PIP_VERSION_CHECK": "1", "PIP_NO_CACHE_DIR": "1"}
    environment.pop("PYTHONPATH", None)

    def run(*given, **more):
        front = [] if os.path.isabs(given[0]) else [os.path.join(made, "bin", "python3")]
        settings = {"capture_output": True, "text": True, "env": environment, "cwd": directory, "timeout": 9 * SECONDS}
        return subprocess.run([*front, *given], **settings, **more)

    return run


@test()
def a_server_of_its_own_keeps_its_rows(program):
    with tempfile.TemporaryDirectory() as folder:
        log = ("--log", os.path.join(folder, "rows.log"))
        expect(filtered("rel r int\nadd r 1\n", *log, program=program), ("ok\nok added 1 1\n", "", 0))
        expect(filtered("del r 1\n", *log, program=program), ("ok removed 2 0\n", "", 0))
        told = filtered("add r 2\n", "--log", folder, program=program)
        assert told[2] == 2 and "its log can't be opened" in told[1], told


@test("mypy")
def a_checker_accepts_the_types(program):
    words = [sys.executable, "-m", "mypy", "--strict", "--no-error-summary", "--ignore-missing-imports", "--cache-dir"]
    with tempfile.TemporaryDirectory() as cache:
        check = lambda *given: subprocess.run([*words, cache, *given], capture_output=True, text=True, cwd=CLIENT)
        done = check("djq", "wheel_backend.py")
        expect((done.stdout, done.returncode), ("", 0))
        path = os.path.join(cache, "uses.py")
        with open(path, "w") as file:
            file.write(USES)
        found = [line.split(" ", 1)[0] + " " + line for line in check(path).stdout.splitlines() if " error: " in line]
        wrong = [number for number, line in enumerate(USES.splitlines(), 1) if "# wrong" in line]
        expect([int(line.split(":")[1]) for line in found], wrong, found)
        assert "reconect" in found[0] and "reconect" in found[1], found


USES = """\
import djq
import djq.aio

server = djq.connect()
server.live("q", reconect=True)  # wrong
server.lives("q", "p", reconect=True)  # wrong
djq.aio.connect().live("q", reconect=True)  # wrong
server.live("q", within="a minute")  # wrong
live = server.live("q", reconnect=True, ping=10, within=5.0)
count: int = live.count()
by_group: int = live.count(by=1)["a"]
grouped: int = live.count(by=1)  # wrong
first: list[djq.Answer] = live.top(10, 2)
firsts: list[djq.Answer] = live.top(10, 2, by=(0, 1))[(1, 2)]
least: int = live.min(1)  # wrong
index: djq.Index = live.by(0, 1)
djq.Expiring(server.table("seen", int), seconds=30).renew(7)
version: str = djq.__version__
"""


def main():
    program, names = os.path.abspath(sys.argv[1]), sys.argv[2:]
    passed = failed = skipped = 0
    missed = set()
    for function, needs in TESTS:
        if names and function.__name__ not in names:
            continue
        if missing := lacks(needs):
            skipped += 1
            missed.update(missing)
            print(f"{function.__name__}: skipped, without {', '.join(missing)}")
            continue
        try:
            function(program)
            passed += 1
        except Exception:
            failed += 1
            print(f"{function.__name__}: {traceback.format_exc(limit=-2)}")
    print(f"{passed} passed, {failed} failed" + (f", {skipped} skipped, without {', '.join(sorted(missed))}" if skipped else ""))
    return 1 if failed or not passed else 0


if __name__ == "__main__":
    if len(sys.argv) < 2:
        raise SystemExit(__doc__)
    sys.exit(main())
