#!/usr/bin/env python3
"""Tests of the client in clients/node, and of both clients by one table of cases.

    python3 tests/node.py PROGRAM

Each case of tests/cases/clients.json is performed with the client for Python and with the one for Node, each on a server of its
own, and each outcome is compared with the table. Then what concerns the client for Node alone is tested. Without Node 18 or later
its part is skipped by name, and so are the types without tsc (Debian's node-typescript). Ends with a line `N passed, N failed`.
"""

import contextlib
import glob
import json
import os
import re
import shutil
import socket
import subprocess
import sys
import tempfile
import threading
import time
import traceback

from serving import HERE, SECONDS, Server, churn, djq

NODE = os.path.join(HERE, "..", "clients", "node")
CASES = os.path.join(HERE, "cases")
LONGEST = 120  # seconds that a case may take


# Integers that a double doesn't hold are {"int": "DIGITS"} in the table and on the way


def read(text):
    return json.loads(text, object_hook=lambda of: int(of["int"]) if set(of) == {"int"} else of)


def write(value):
    def spelled(part):
        if isinstance(part, int) and not isinstance(part, bool) and abs(part) >= 2**53:
            return {"int": str(part)}
        if isinstance(part, (list, tuple)):
            return [spelled(one) for one in part]
        return {name: spelled(one) for name, one in part.items()} if isinstance(part, dict) else part

    return json.dumps(spelled(value))


# The client for Python


def update(done):
    return {"seq": done.seq, "copies": done.copies, "changed": done.changed}


def rows_of(answers):
    return [list(answer) for answer in answers]


def change_of(change):
    if change is None:
        return None
    return {"seq": change.seq, "came": rows_of(change.came), "went": rows_of(change.went), "restarted": change.restarted,
            "lost": change.lost}


class Python:
    """Performs steps with the client for Python."""

    def __init__(self, port):
        self.port, self.sessions, self.named = port, {}, {}

    def close(self):
        for one in [*self.sessions.values(), *self.named.values()]:
            with contextlib.suppress(djq.Error):
                one.close()

    def perform(self, what, values, name):
        try:
            if name not in self.sessions:
                self.sessions[name] = djq.connect("127.0.0.1", self.port, timeout=SECONDS)
            result = getattr(self, f"_{what}")(self.sessions[name], *values)
        except djq.SomeRefused as error:
            return {"refused": [one.number for one in error.first], "sent": error.sent}
        except djq.NotFreeConnex as error:
            return {"refused": 0, "words": error.words, "edges": rows_of(error.edges)}
        except djq.Refused as error:
            return {"refused": error.number, "words": error.words}
        except djq.Stale as error:
            return {"stale": error.relation, "seq": error.seq}
        except djq.Error:
            return {"ended": True}
        except TypeError:
            return {"wrong": True}
        return {"gives": result}

    def __getattr__(self, name):
        """A method of the connection that needs no translation."""
        return lambda server, *values: getattr(server, name[1:])(*values)

    def _relation(self, server, name, *types):
        named = types[0] if types and isinstance(types[0], dict) else None
        server.relation(name, *([] if named else types), **(named or {}))

    def _add(self, server, *values):
        return update(server.add(*values))

    def _delete(self, server, *values):
        return update(server.delete(*values))

    def _load(self, server, relation, rows):
        return server.load(relation, rows)

    def _transaction(self, server, *lines):
        with server.transaction() as change:
            for name, *given in lines:
                getattr(change, name)(*given)
        done = change.result()
        return {"seq": done.seq, "rows": done.rows}

    def _snapshot(self, server, query):
        return rows_of(server.snapshot(query))

    def _cursor(self, server, name, query):
        self.named[name] = server.cursor(query)

    def _page(self, _, name, count):
        page = self.named[name].next(count)
        return {"answers": rows_of(page.answers), "last": page.last}

    def _shut(self, _, name):
        self.named.pop(name).close()

    def _live(self, server, name, query, settings):
        self.named[name] = server.live(query, **settings)
        return rows_of(self.named[name].answers)

    def _next(self, _, name):
        return change_of(self.named[name].next(timeout=SECONDS))

    def _quiet(self, _, name):
        return change_of(self.named[name].next(timeout=0.2))

    def _kept(self, _, name):
        return rows_of(self.named[name].answers)

    def _last(self, _, name, count):
        live = self.named[name]
        while len(live.answers) < count:
            live.next(timeout=SECONDS)
        return rows_of(live.answers)

    def _delta(self, server, query):
        change = server.next_change(query, timeout=SECONDS)
        return {"seq": change.seq, "came": rows_of(change.came), "went": rows_of(change.went)}

    def _long(self, server, size):
        return update(server.add("r", "x" * size))

    def _many(self, server, relation, count):
        return server.load(relation, ((place, "t") for place in range(count)))


class Node:
    """Performs steps with the client for Node, in a process of its own."""

    def __init__(self, port):
        command = ["node", os.path.join(CASES, "perform.mjs"), str(port)]
        self.process = subprocess.Popen(command, stdin=subprocess.PIPE, stdout=subprocess.PIPE, text=True)
        self.timer = threading.Timer(LONGEST, self.process.kill)
        self.timer.start()

    def close(self):
        self.timer.cancel()
        self.process.kill()
        self.process.communicate()

    def perform(self, what, values, name):
        self.process.stdin.write(write([what, values, name]) + "\n")
        self.process.stdin.flush()
        line = self.process.stdout.readline()
        assert line, f"{what} {values}: the process ended without an outcome"
        return read(line)


# The table


def in_order(value):
    """Answers are a set: they are compared in order."""
    if isinstance(value, dict):
        return {name: in_order(part) for name, part in value.items()}
    if isinstance(value, list) and value and all(isinstance(part, list) for part in value):
        return sorted(value, key=json.dumps)
    return value


def holds(outcome, wanted):
    if wanted is None:
        return "gives" in outcome
    if "count" in wanted:
        return len(outcome.get("gives") or []) == wanted["count"]
    if "fails" in wanted:
        return "gives" not in outcome
    # the edges of a refusal have an order
    return all(name in outcome and (outcome[name] == part if name == "edges" else in_order(outcome[name]) == in_order(part))
               for name, part in wanted.items())


class Case:
    """A case on a server of its own."""

    def __init__(self, program, case, folder):
        self.program, self.case = program, case
        self.log = os.path.join(folder, "log") if case.get("log") else None
        self.server = Server(program, None, self.log).__enter__()

    def restart(self, steps):
        """Ends the server and starts it again. With a log another server does the steps before, on another port, so that
        nobody sees the moments between them; without one they are done at once, the query last."""
        self.server.__exit__()
        if self.log:
            with Server(self.program, None, self.log) as other:
                self._do(other, steps)
        self.server = Server(self.program, self.server.port, self.log).__enter__()
        if not self.log:
            self._do(self.server, steps)

    @staticmethod
    def _do(server, steps):
        own = Python(server.port)
        for what, values in zip(steps[::2], steps[1::2]):
            outcome = own.perform(what, values, "first")
            assert "gives" in outcome, (what, values, outcome)
        own.close()

    def run(self, client):
        own = client(self.server.port)
        try:
            for what, values, wanted, name in (step + [None, "first"][len(step) - 2 :] for step in self.case["steps"]):
                if what == "restart":
                    self.restart(values)
                    continue
                outcome = own.perform(what, values, name)
                assert holds(outcome, wanted), f"{what} {values}: wanted {wanted}, got {outcome}"
        finally:
            own.close()
            self.server.__exit__()


# What concerns the client for Node alone


def run_node(script, *words, timeout=LONGEST):
    done = subprocess.run(["node", script, *map(str, words)], capture_output=True, text=True, timeout=timeout)
    assert done.returncode == 0, done.stdout + done.stderr
    return done.stdout


def test_alone(program):
    """What needs more than a table: see tests/cases/alone.mjs."""
    with Server(program) as server:
        assert run_node(os.path.join(CASES, "alone.mjs"), server.port).endswith("all hold\n")


def test_listing_while_rows_change(program):
    """A listing and a live set agree with the rows beside constant changes."""
    with Server(program) as server:
        with server.connect() as own:
            own.relation("r", int, str)
            own.query("q(x,y) <- r(x,y)")
            own.load("r", ((place, "t") for place in range(3000)))
        with churn(server, 300, 'add r 1 "c"', 'del r 1 "c"'):
            told = run_node(os.path.join(CASES, "beside.mjs"), server.port)
        assert told == "3000 or 3001 each time\n", told


def test_the_example(program):
    """The example starts before its server and its query, and follows it through a restart."""
    with tempfile.TemporaryDirectory() as folder:
        with socket.create_server(("127.0.0.1", 0)) as free:
            port = free.getsockname()[1]
        command = ["node", os.path.join(NODE, "examples", "live.mjs"), "q", f"127.0.0.1:{port}"]
        process = subprocess.Popen(command, stdout=subprocess.PIPE, text=True)
        timer = threading.Timer(LONGEST, process.kill)
        timer.start()
        try:
            log = os.path.join(folder, "log")
            with Server(program, port, log) as server, server.connect() as own:
                own.relation("r", int, str)
                own.add("r", 1, "a")
                own.query("q(x,y) <- r(x,y)")
                assert process.stdout.readline() == "  1 a\n"
                own.add("r", 2, "b")
                assert [process.stdout.readline() for _ in range(2)] == ["+ 2 b\n", "after change 2: 2 answers\n"]
            with Server(program, None, log) as other, other.connect() as own:
                own.delete("r", 1, "a")
            with Server(program, port, log):
                told = [process.stdout.readline() for _ in range(2)]
                assert told == ["- 1 a\n", "after change 3, connected again: 1 answers\n"], told
        finally:
            timer.cancel()
            process.kill()
            process.communicate()


@contextlib.contextmanager
def installed():
    """A folder in which the package is installed."""
    with tempfile.TemporaryDirectory() as folder:
        os.mkdir(os.path.join(folder, "node_modules"))
        os.symlink(os.path.abspath(NODE), os.path.join(folder, "node_modules", "djq"))
        yield folder


def test_the_readme(program):
    """What the page of the client shows runs as it is written, its endless loop last."""
    with open(os.path.join(NODE, "README.md"), encoding="utf-8") as file:
        shown = re.findall(r"^```js\n(.*?)^```$", file.read(), re.MULTILINE | re.DOTALL)
    begin, loop = shown[0].split("for await", 1)
    with Server(program) as server, installed() as folder:
        path = os.path.join(folder, "shown.mjs")
        with open(path, "w", encoding="utf-8") as file:
            file.write("\n".join([begin.replace("7007", str(server.port)), *shown[1:], f"for await{loop}"]))
        process = subprocess.Popen(["node", path], cwd=folder, stdout=subprocess.PIPE, text=True)
        timer = threading.Timer(LONGEST, process.kill)
        timer.start()
        try:
            told = [process.stdout.readline() for _ in range(3)]
        finally:
            timer.cancel()
            process.kill()
            process.communicate()
    assert told[0].startswith("1 err 1 syntax queries have no not: "), told
    assert told[1:] == ["2 [ [ 3, 12 ] ] [] 1\n", "3 [ [ 3, 13 ] ] [] 2\n"], told


def test_no_dependency(_):
    """The client imports its own files and node:net, and its package has no dependency and the program's version."""
    for path in glob.glob(os.path.join(NODE, "lib", "*.mjs")):
        with open(path, encoding="utf-8") as file:
            found = re.findall(r'from "([^"]+)"', file.read())
        assert all(name.startswith("./") or name == "node:net" for name in found), (path, found)
    with open(os.path.join(NODE, "package.json"), encoding="utf-8") as file:
        package = json.load(file)
    with open(os.path.join(HERE, "..", "VERSION"), encoding="utf-8") as file:
        assert package["version"] == file.read().strip() and not package["dependencies"]


def test_types(_):
    """The types are those of the package, and a program in TypeScript finds what is wrong."""
    command = ["tsc", "--noEmit", "--strict", "--target", "es2022", "--module", "nodenext", "--moduleResolution", "nodenext"]
    with installed() as folder:
        for name in ("typed.mts", "mistyped.mts"):
            shutil.copy(os.path.join(CASES, name), folder)
        typed = subprocess.run([*command, "typed.mts"], cwd=folder, capture_output=True, text=True)
        assert typed.returncode == 0, typed.stdout
        wrong = subprocess.run([*command, "mistyped.mts"], cwd=folder, capture_output=True, text=True)
        lines = re.findall(r"mistyped\.mts\((\d+),", wrong.stdout)
        assert sorted(set(map(int, lines))) == [4, 5, 6, 7], wrong.stdout


# All


def node_is_there():
    if shutil.which("node") is None:
        return False
    version = subprocess.run(["node", "--version"], capture_output=True, text=True).stdout
    return int(re.match(r"v(\d+)", version).group(1)) >= 18


def tests(program):
    with open(os.path.join(CASES, "clients.json"), encoding="utf-8") as file:
        cases = read(file.read())
    clients = [Python, Node] if node_is_there() else [Python]
    if len(clients) == 1:
        print("skipped: the client for Node, since there is no node 18 or later")
    for case in cases:
        for client in clients:
            yield f"{case['name']} ({client.__name__})", lambda case=case, client=client: of_case(program, case, client)
    alone = [test_alone, test_listing_while_rows_change, test_the_example, test_the_readme] if len(clients) == 2 else []
    alone += [test_no_dependency]
    if shutil.which("tsc"):
        alone += [test_types]
    else:
        print("skipped: the types, since there is no tsc")
    for test in alone:
        yield test.__name__, lambda test=test: test(program)


def of_case(program, case, client):
    with tempfile.TemporaryDirectory() as folder:
        Case(program, case, folder).run(client)


def main():
    if len(sys.argv) != 2:
        raise SystemExit(__doc__)
    passed = failed = 0
    began = time.monotonic()
    for name, run in tests(os.path.abspath(sys.argv[1])):
        try:
            run()
            passed += 1
        except Exception:  # noqa: BLE001
            failed += 1
            print(f"{name}: {traceback.format_exc(limit=-1)}")
    print(f"{time.monotonic() - began:.1f} s")
    print(f"{passed} passed, {failed} failed")
    return 1 if failed else 0


if __name__ == "__main__":
    sys.exit(main())
