"""What the tests of the client share: the built program on a free port, and rows that change beside it."""

import contextlib
import os
import socket
import subprocess
import sys
import time

HERE = os.path.dirname(os.path.abspath(__file__))
sys.path.insert(0, os.path.join(HERE, "..", "clients", "python"))
import djq

SECONDS = 20  # that a reply may take


class Server:
    """The built program on a free port of loopback, or on a port that is given; with a log, where one is."""

    def __init__(self, program, port=None, log=None):
        if port is None:
            with socket.create_server(("127.0.0.1", 0)) as free:
                port = free.getsockname()[1]
        self.port = port
        words = [program, "serve", f"127.0.0.1:{self.port}", *(["--log", log] if log else [])]
        self.process = subprocess.Popen(words, stderr=subprocess.DEVNULL)

    def __enter__(self):
        until = time.monotonic() + SECONDS
        while True:
            try:
                self.connect().close()
                return self
            except djq.Disconnected:
                if time.monotonic() > until:
                    raise
                time.sleep(0.02)

    def __exit__(self, *_):
        self.process.kill()
        self.process.wait()

    def processor(self):
        """The seconds that it was on a processor."""
        with open(f"/proc/{self.process.pid}/schedstat", encoding="ascii") as file:
            return int(file.read().split()[0]) / 1e9

    def connect(self):
        return djq.connect("127.0.0.1", self.port, timeout=SECONDS)


@contextlib.contextmanager
def churn(server, rate, *lines):
    """Another process sends these lines in turn, so many a second, as long as the block lasts."""
    command = [sys.executable, os.path.join(HERE, "churn.py"), str(server.port), str(rate), *lines]
    process = subprocess.Popen(command, stdin=subprocess.PIPE, stdout=subprocess.PIPE)
    try:
        yield process
        told, _ = process.communicate(timeout=SECONDS)
        assert process.returncode == 0 and int(told) > 0, told
    finally:
        process.kill()
        process.communicate()


def raises(kind, call):
    try:
        call()
    except kind as error:
        return error
    raise AssertionError(f"{kind.__name__} wasn't raised")


def wait_until(call):
    until = time.monotonic() + SECONDS
    while not call():
        assert time.monotonic() < until, "waited too long"
        time.sleep(0.01)


def dropped(client, query):
    """Whether a query could be dropped, as nobody uses it any more."""
    try:
        client.drop(query)
        return True
    except djq.InUse:
        return False
