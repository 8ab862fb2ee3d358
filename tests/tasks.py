#!/usr/bin/env python3
"""Does a newcomer's five tasks by the commands of the pages, in order, in an empty folder.

    python3 tests/tasks.py PROGRAM

The first run and the first program are README.md's, the first outage is docs/OPERATIONS.md's, the first change of a command follows
docs/CHANGING.md, and 'Is this for me?' is README.md's again. PROGRAM takes the place of the built one: building isn't tried.
Ports of the pages become free ones, and their absolute paths folders. Last `N passed, M failed` is printed; the status is 0 if
none failed.
"""

import contextlib
import os
import re
import select
import shutil
import signal
import socket
import subprocess
import sys
import tempfile
import time
import urllib.request

sys.dont_write_bytecode = True
from docs import ROOT, blocks, in_any_order, read, sessions  # noqa: E402
from harness import expect, run_tests, test  # noqa: E402

PATIENCE = 240
PORTS = ("7007", "7008", "7080")
ABSOLUTE = ("/var/lib/djq", "/backup")
PLACE = None  # the folder in which the tasks are done


def page(name):
    return read(os.path.join(ROOT, name))


def section(name, title):
    """The part of a page below a heading, up to the next one of its level."""
    found = re.search(rf"^## {re.escape(title)}\n(.*?)(?=^## |\Z)", page(name), re.MULTILINE | re.DOTALL)
    expect(bool(found), True, f"{name} has a section '{title}'")
    return found[1]


def blocks_of(text, kind):
    return [rows for word, rows in blocks(text) if word == kind]


def free_port():
    with socket.create_server(("127.0.0.1", 0)) as probe:
        return str(probe.getsockname()[1])


def until(call, what):
    """What a call returns once that isn't false, or raises no fault of the system."""
    end = time.monotonic() + PATIENCE
    while True:
        try:
            if found := call():
                return found
        except OSError:
            pass
        expect(time.monotonic() < end, True, f"in time: {what}")
        time.sleep(0.05)


class Place:
    """An empty folder, the environment that README's `export` line makes, and the processes that were started there."""

    def __init__(self, folder, program):
        self.folder, self.started = os.path.join(folder, "empty"), []
        self.ports = {port: free_port() for port in PORTS}
        os.mkdir(self.folder)
        for path in ABSOLUTE:
            os.makedirs(folder + path)
        self.outside = folder
        checkout = os.path.join(folder, "checkout")
        os.makedirs(os.path.join(checkout, "crates", "djq", "out"))
        os.symlink(program, os.path.join(checkout, "crates", "djq", "out", "djq"))
        os.symlink(os.path.join(ROOT, "clients"), os.path.join(checkout, "clients"))
        exports = [row for rows in blocks_of(page("README.md"), "sh") for row in rows if row.startswith("export ")]
        shown = subprocess.run("\n".join([*exports, 'printf "%s\\n" "$PATH" "$PYTHONPATH"']), shell=True, cwd=checkout,
                               capture_output=True, text=True, check=True).stdout.split("\n")
        self.environment = {**os.environ, "PATH": shown[0], "PYTHONPATH": shown[1], "PYTHONDONTWRITEBYTECODE": "1",
                            "PYTHONUNBUFFERED": "1"}

    def here(self, command):
        """A command of a page, with this place's ports and folders."""
        for port, free in self.ports.items():
            command = command.replace(f":{port}", f":{free}")
        for path in ABSOLUTE:
            command = command.replace(f" {path}", f" {self.outside}{path}")
        return command

    def start(self, command):
        words = self.here(command).removesuffix("&").split()
        process = subprocess.Popen(words, cwd=self.folder, env=self.environment, stdin=subprocess.DEVNULL,
                                   stdout=subprocess.PIPE, stderr=subprocess.PIPE, text=True)
        self.started.append(process)
        return process

    def run(self, command, given=""):
        """What a command prints, and its status."""
        done = subprocess.run(self.here(command), shell=True, cwd=self.folder, env=self.environment, input=given,
                              capture_output=True, text=True, timeout=PATIENCE)
        return done.stdout.splitlines() + done.stderr.splitlines(), done.returncode

    def talk(self, port, lines):
        """A session over TCP: the lines, and all that is sent for them, up to the reply to `quit`."""
        with until(lambda: socket.create_connection(("127.0.0.1", int(self.ports[port])), PATIENCE), "a connection") as client:
            client.sendall("".join(line + "\n" for line in [*lines, "quit"]).encode())
            got = client.makefile().read().splitlines()
        expect(got[-1], "bye", lines)
        return got[:-1]

    def end(self):
        for process in self.started:
            if process.poll() is None:
                process.kill()
            process.communicate()


def stop(process, port):
    """Ends a server as README says."""
    PLACE.run(f"python3 -m djq.shell 127.0.0.1:{port}", "stop\n")
    expect(process.wait(PATIENCE), 0, "the status after `stop`")


def first_session():
    ((said, answered),) = sessions(page("README.md"))
    return said, answered


@test
def what_builds_and_tests_is_there():
    ((build, gate),) = [rows for rows in blocks_of(section("README.md", "Install"), "") if "rt run" in rows[0]]
    folder, given = re.search(r"cd (\S+) && rt run -- run < (\w+)", build).groups()
    expect(os.path.exists(os.path.join(ROOT, folder, given)), True, build)
    expect(os.access(os.path.join(ROOT, gate.split()[0]), os.X_OK), True, gate)


def python_with_aiohttp():
    """A Python that the page runs with: the one of the path or Debian's, or none."""
    seeks = "import sys, importlib.util as u; sys.exit(sys.version_info < (3, 11) or u.find_spec('aiohttp') is None)"
    pythons = (sys.executable, "/usr/bin/python3")
    return next((it for it in pythons if os.path.exists(it) and subprocess.run([it, "-c", seeks]).returncode == 0), None)


@test
def first_run():
    said, answered = first_session()
    got, status = PLACE.run("djq run", "".join(line + "\n" for line in said))
    expect((in_any_order(got), status), (in_any_order(answered), 0))
    (serve, shell), (serve_page, web) = blocks_of(section("README.md", "Run it"), "sh")
    PLACE.server, PLACE.serve = PLACE.start(serve), serve
    PLACE.talk("7007", [])
    got, _ = PLACE.run(shell, "".join(line + "\n" for line in said))
    expect("ok query 5" in got and "+ waiting 2 12" in got, True, got)
    server = PLACE.start(serve_page)
    PLACE.talk("7008", [])
    python = python_with_aiohttp()
    if python:
        PLACE.start(f"{web} --listen 127.0.0.1:7080".replace("python3 ", f"{python} ", 1))
        address = PLACE.here("http://127.0.0.1:7080/")
        got = until(lambda: urllib.request.urlopen(address, timeout=PATIENCE).read(), "the page in a browser")
        expect(b"<html" in got.lower(), True, got[:80])
    else:
        print("the page in a browser is skipped: Python 3.11 with aiohttp isn't there")
    stop(server, "7008")


@test
def first_program():
    ((*program,),) = blocks_of(section("README.md", "Run it"), "python")
    with open(os.path.join(PLACE.folder, "first.py"), "w", encoding="utf-8") as file:
        file.write(PLACE.here("\n".join(program).replace('"127.0.0.1", 7007', '"127.0.0.1", ' + PLACE.ports["7007"])))
    process = PLACE.start("python3 first.py")
    jobs = iter(range(13, 1000))

    def printed():
        """What the program prints once it watches: until then it is sent no delta."""
        expect(PLACE.talk("7007", [f'add jobs {next(jobs)} 2 "waiting"'])[0].startswith("ok added "), True)
        return select.select([process.stdout], [], [], 0.2)[0]

    until(printed, "a delta")
    line = process.stdout.readline()
    seq = int(line.split()[0])
    expect(line, f"{seq} frozenset({{(2, {seq + 10})}}) frozenset() {seq - 1}\n", "the row of that change, and how many there are")
    process.kill()


@test
def first_outage():
    PLACE.server.send_signal(signal.SIGKILL)
    PLACE.server.wait(PATIENCE)
    PLACE.server = PLACE.start(PLACE.serve)
    expect(PLACE.talk("7007", ["has waiting 2 12", "has waiting 2 13", "has waiting 2 99"]), ["yes", "yes", "no"])
    (count,) = PLACE.talk("7007", ["watch waiting"])
    (added,) = PLACE.talk("7007", ['add jobs 99 2 "waiting"'])
    expect(added, f"ok added {int(count.split()[-1]) + 1} 1", "SEQ continues")
    stop(PLACE.server, "7007")
    serve, backup, mend = blocks_of(page("docs/OPERATIONS.md"), "text")
    server = PLACE.start(serve[0].removeprefix("$ "))
    expect(server.stderr.readline().strip(), PLACE.here(serve[1]))
    expect(PLACE.talk("7007", ["rel r int"]), ["ok"])
    expect(PLACE.talk("7007", ["add r 1"]), ["ok added 1 1"], "a commit of its own")
    shown(backup)
    stop(server, "7007")
    damage_and(mend)


def shown(rows):
    """Runs the commands of a block, which begin with `$`, and compares what each prints with the lines below it."""
    for command, *wanted in [part.splitlines() for part in "\n".join(rows).removeprefix("$ ").split("\n$ ")]:
        expect(PLACE.run(command)[0], wanted, command)


def damage_and(mend):
    """The log from before, with a line that no server wrote, and what the page does about it."""
    log = os.path.join(PLACE.folder, "log")
    shutil.copy(os.path.join(PLACE.outside + ABSOLUTE[0], "log"), log)
    with open(log, "r+b") as file:
        bytes_there = file.read()
        file.seek(bytes_there.index(b"add r 1"))
        file.write(b"xdd")
    got, status = PLACE.run("djq replay --log log < /dev/null")
    (said,) = re.findall(r"`(djq: the log is bad[^`]*)`", re.sub(r"\s+", " ", page("docs/OPERATIONS.md")))
    expect((got, status), ([said], 11))
    shown(mend)
    server = PLACE.start("djq serve 127.0.0.1:7007 --log mended")
    expect(PLACE.talk("7007", ["add r 2"]), ["ok added 1 1"], "the lines before the damage")
    stop(server, "7007")


@test
def first_change_of_a_command():
    """The files outside crates that the page lists are there and know commands; a page that shows another reply is refused."""
    change = section("docs/CHANGING.md", "How a command is added")
    for path in sorted(set(re.findall(r"`((?:tests|clients|docs)/[\w/]+\.(?:py|txt|md))`", change))):
        expect("watch" in page(path), True, f"{path} knows commands")
    copy = os.path.join(PLACE.folder, "djq")
    shutil.copytree(ROOT, copy, ignore=shutil.ignore_patterns("out", ".git", "target", "__pycache__"))
    command = "python3 djq/tests/docs.py $(command -v djq)"
    complaint = "README.md: a session isn't answered as shown:"
    expect(complaint in PLACE.run(command)[0], False, "the pages as they are")
    with open(os.path.join(copy, "README.md"), encoding="utf-8") as file:
        text = file.read()
    expect(text.count("ok query 5"), 1)
    with open(os.path.join(copy, "README.md"), "w", encoding="utf-8") as file:
        file.write(text.replace("ok query 5", "ok registered 5"))
    got, status = PLACE.run(command)
    expect((complaint in got, status), (True, 1), "a page that shows the new reply, before the code has it")


# Is this for me?


def joins():
    got = PLACE.talk("7007", ["rel r int int", "rel s int int", "rel t int int", "query q(x,y,z) <- r(x,y), s(y,z), t(z,x)",
                              "query p(x,z) <- r(x,y), s(y,z)", "query f(x,y,z) <- r(x,y), s(y,z)", "shape f"])
    expect(got[3:], ["no cyclic x,y x,z y,z", "no connex x,y x,z y,z", "ok query 7", "flat"])


def questions():
    got = PLACE.talk("7007", ["query a(count) <- r(x,_)", "query b(x) <- r(x,y), x < y", "query c(x) <- r(x,_), not s(x,_)"])
    expect(got, ["err 8 head unbound", "err 1 syntax", "err 1 syntax"])


def transactions():
    got = PLACE.talk("7007", ["batch", "has f 1 2 3", *(f"add r {n % 1000} 1" for n in range(65537)), "done"])
    expect(got[:2] + got[-3:], ["ok batch", "err 18 batch", "ok held 65536", "err 11 limit", "ok done 1 1000"])
    update = lambda value: ["batch", "del r 5000 1", f"add r 5000 {value}", "done 2"]
    got = PLACE.talk("7007", ["add r 5000 1", *update(2), *update(3)])
    expect(got[4::4], ["ok done 3 2", "err 19 absent"])


def sizes():
    got = PLACE.talk("7007", [f"query n{n}(x) <- r(x,_)" for n in range(256)])
    expect(got[-2:], ["ok query 3", "err 11 limit"], "256 queries, the one from before among them")
    address = ("127.0.0.1", int(PLACE.ports["7007"]))
    clients = [socket.create_connection(address, PATIENCE) for _ in range(64)]
    for client in clients:
        client.sendall(b"has n0 1\n")
        expect(client.recv(64), b"yes\n")
    with socket.create_connection(address, PATIENCE) as further:
        expect(further.makefile().read(), "end full\n")
    for client in clients:
        client.close()
    until(lambda: serves_at_once(address, 32), "places after sessions ended")


def serves_at_once(address, count):
    """Whether so many sessions more are let in together."""
    with contextlib.ExitStack() as stack:
        clients = [stack.enter_context(socket.create_connection(address, PATIENCE)) for _ in range(count)]
        for client in clients:
            with contextlib.suppress(ConnectionError):
                client.sendall(b"has n0 1\n")
        return all(heard(client) == b"yes\n" for client in clients)


def heard(client):
    try:
        return client.recv(64)
    except ConnectionError:
        return b""


def durable():
    expect(PLACE.talk("7007", ["add s 424242 1"]), ["ok added 4 1"])
    with open(os.path.join(PLACE.folder, "own.log"), "rb") as file:
        expect(b"add s 424242 1" in file.read(), True, "the line is in the log before its reply")


def networks():
    with socket.create_connection(("127.0.0.1", int(PLACE.ports["7007"])), PATIENCE) as anybody:
        anybody.sendall(b"stop\n")
        expect(anybody.makefile().read(), "bye\n")


NOT_FOR = {
    "Cyclic joins": joins, "Aggregates": questions, "Transactions": transactions, "More than 64": sizes, "Fast single": durable,
    "Open networks": networks,
}


@test
def is_this_for_me():
    server = PLACE.start("djq serve 127.0.0.1:7007 --log own.log")
    reasons = re.findall(r"^- \*\*(.*?)[.*]", section("README.md", "Is this for me?"), re.MULTILINE)
    for reason in reasons:
        (try_it,) = [call for begin, call in NOT_FOR.items() if reason.startswith(begin)]
        try_it()
    expect(len(reasons), len(NOT_FOR), "reasons that are tried")
    expect(server.wait(PATIENCE), 0, "a stranger's `stop`")


def main():
    global PLACE
    if len(sys.argv) != 2:
        raise SystemExit(__doc__)
    with tempfile.TemporaryDirectory() as folder:
        PLACE = Place(folder, os.path.abspath(sys.argv[1]))
        try:
            return run_tests()
        finally:
            PLACE.end()


if __name__ == "__main__":
    sys.exit(main())
