"""A server beside the shell, for a first try."""

from __future__ import annotations

import os
import shutil
import socket
import subprocess
import time

BUILT = os.path.join("crates", "djq", "out", "djq")
SECONDS = 20  # that it may take to listen
REASONS = {9: ": its log can't be opened", 11: ": its log is bad"}


class NoProgram(Exception):
    """No program is there to start, or it doesn't listen."""


def find_program() -> str:
    """The built program of the repository that this is in, or that is worked in, or one on the path."""
    for start in (os.getcwd(), os.path.dirname(os.path.abspath(__file__))):
        while True:
            if os.access(os.path.join(start, BUILT), os.X_OK):
                return os.path.join(start, BUILT)
            start, before = os.path.dirname(start), start
            if start == before:
                break
    found = shutil.which("djq")
    if found is None:
        build = "(cd crates/djq && rt run -- run < stdin)"
        raise NoProgram(f"no {BUILT} is here: build it, {build}, or give --program PATH")
    return found


class Server:
    """A server that is started, on loopback, and ended with the block."""

    def __init__(self, program: str, port: int | None, log: str | None = None) -> None:
        if port is None:
            with socket.create_server(("127.0.0.1", 0)) as free:
                port = free.getsockname()[1]
        self.port = port
        try:
            # in a session of its own: Ctrl-C in the shell isn't meant for it
            self._process = subprocess.Popen(
                [program, "serve", f"127.0.0.1:{port}", *(["--log", log] if log else [])],
                stdin=subprocess.DEVNULL, stdout=subprocess.DEVNULL, stderr=subprocess.DEVNULL, start_new_session=True,
            )  # fmt: skip
        except OSError as error:
            raise NoProgram(f"{program}: {error.strerror}") from error

    def __enter__(self) -> Server:
        until = time.monotonic() + SECONDS
        while True:
            if self._process.poll() is not None:
                status = self._process.returncode
                raise NoProgram(f"the server ended at once, with status {status}{REASONS.get(status, '')}")
            try:
                socket.create_connection(("127.0.0.1", self.port), 1).close()
                return self
            except OSError:
                if time.monotonic() > until:
                    self.__exit__()
                    raise NoProgram(f"the server doesn't listen on 127.0.0.1:{self.port}") from None
                time.sleep(0.02)

    def __exit__(self, *_: object) -> None:
        self._process.terminate()
        self._process.wait()
