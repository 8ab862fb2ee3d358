#!/usr/bin/env python3
"""Follows docs/TUTORIAL.md from its first line to its last: the session, the page, and the feed that moves it.

    python3 tests/tutorial.py PROGRAM

The page's program is skipped by name if it lacks what it needs. Ends with a line `N passed, N failed`.
"""

import http.client
import os
import re
import socket
import subprocess
import sys
import tempfile
import time
import traceback

from docs import ROOT, blocks, read, sessions
from serving import HERE, SECONDS, Server

TUTORIAL = os.path.join(ROOT, "docs", "TUTORIAL.md")
CLIENT = dict(os.environ, PYTHONPATH=os.path.join(HERE, "..", "clients", "python"))


def block(kind):
    found = ["\n".join(lines) + "\n" for name, lines in blocks(read(TUTORIAL)) if name == kind]
    assert len(found) == 1, f"{len(found)} blocks of {kind}"
    return found[0]


def type_session(port):
    """All lines of the tutorial's sessions, the last of which has those before it."""
    lines, replies = list(sessions(read(TUTORIAL)))[-1]
    with socket.create_connection(("127.0.0.1", port), timeout=SECONDS) as session:
        session.sendall("".join(line + "\n" for line in [*lines, "quit"]).encode())
        got = b""
        while piece := session.recv(1 << 16):
            got += piece
    assert got.decode().splitlines() == [*replies, "bye"], got


def feed(port, folder):
    path = os.path.join(folder, "feed.py")
    with open(path, "w", encoding="utf-8") as file:
        file.write(block("python").replace("7007", str(port)))
    return subprocess.Popen([sys.executable, path], env=CLIENT, stderr=subprocess.PIPE)


def test_the_feed_moves_the_alarm(program):
    with Server(program) as server, tempfile.TemporaryDirectory() as folder:
        type_session(server.port)
        with server.connect() as client, client.live("alarm") as live:
            assert live.answers == set()
            process = feed(server.port, folder)
            try:
                until = time.monotonic() + 60
                raised = cleared = False
                while not (raised and cleared):
                    assert process.poll() is None, process.stderr.read().decode()
                    assert time.monotonic() < until, "no alarm was raised and cleared"
                    change = live.next(timeout=1)
                    raised, cleared = raised or bool(change and change.came), cleared or bool(change and change.went)
            finally:
                process.kill()
                process.communicate()


def test_the_page_shows_the_board(program):
    with Server(program) as server, tempfile.TemporaryDirectory() as folder, socket.create_server(("127.0.0.1", 0)) as free:
        port = free.getsockname()[1]
        free.close()
        type_session(server.port)
        path = os.path.join(folder, "board.toml")
        with open(path, "w", encoding="utf-8") as file:
            file.write(block("toml"))
        words = [python_of_page(), "-m", "djq.web", f"127.0.0.1:{server.port}", "--page", path, "--listen", f"127.0.0.1:{port}"]
        process = subprocess.Popen(words, env=CLIENT, stdout=subprocess.PIPE)
        try:
            assert process.stdout.readline().decode() == f"djq-web: http://127.0.0.1:{port}/\n"
            page = http.client.HTTPConnection("127.0.0.1", port, timeout=SECONDS)
            page.request("GET", "/")
            reply = page.getresponse()
            assert reply.status == 200 and "Freezers" in reply.read().decode()
        finally:
            process.kill()
            process.communicate()


def test_its_commands(_):
    """The tutorial uses the commands of the packages, and no others."""
    commands = {line.split()[0] for name, lines in blocks(read(TUTORIAL)) if name == "sh" for line in lines}
    assert commands == {"djq", "djq-shell", "djq-web", "python3"}, commands
    assert re.search(r"port|7007", block("python"))


def python_of_page():
    """A Python that has what the page's program needs: this one, or the one that Debian's packages are for."""
    for python in (sys.executable, "/usr/bin/python3"):
        done = subprocess.run([python, "-m", "djq.web", "--help"], env=CLIENT, capture_output=True)
        if done.returncode == 0:
            return python
    return None


def main():
    if len(sys.argv) != 2:
        raise SystemExit(__doc__)
    tests = [test_the_feed_moves_the_alarm, test_its_commands]
    if python_of_page() is not None:
        tests.append(test_the_page_shows_the_board)
    else:
        print("skipped: the page, since no Python has what djq-web needs")
    failed = 0
    for test in tests:
        try:
            test(os.path.abspath(sys.argv[1]))
        except Exception:  # noqa: BLE001
            failed += 1
            print(f"{test.__name__}: {traceback.format_exc(limit=-1)}")
    print(f"{len(tests) - failed} passed, {failed} failed")
    return 1 if failed else 0


if __name__ == "__main__":
    sys.exit(main())
