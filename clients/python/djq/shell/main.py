"""The shell's command line."""

from __future__ import annotations

import argparse
import contextlib
import os
import sys
from typing import Sequence

from ..errors import Error
from . import local, pipe, terminal
from .commands import Shell
from .screen import HAS_RICH, Screen
from .session import Session

WORDS = """\
Where its input is no terminal it is a filter: commands in, replies out. The status is then 0, or 1 where a command was
refused, 2 where the connection was lost or there was none.
"""


def main(words: Sequence[str] | None = None) -> int:
    """Runs the shell, and gives its status."""
    given = _parser().parse_args(words)
    ends = contextlib.ExitStack()
    try:
        host, port = _address(given, ends)
        return _run(given, host, port)
    except (Error, local.NoProgram) as error:
        print(f"djq-shell: {error}", file=sys.stderr)
        return 2
    except BrokenPipeError:
        os.dup2(os.open(os.devnull, os.O_WRONLY), sys.stdout.fileno())
        return 2
    except KeyboardInterrupt:
        return 130
    finally:
        ends.close()


def _parser() -> argparse.ArgumentParser:
    parser = argparse.ArgumentParser(prog="djq-shell", description="A terminal at a djq server.", epilog=WORDS)
    parser.add_argument("address", nargs="?", help="HOST:PORT of a server; 127.0.0.1:7007 where it is left out")
    parser.add_argument("--local", action="store_true", help="start a server beside it, which ends with it")
    parser.add_argument("--program", metavar="PATH", help="the server's program, for --local")
    parser.add_argument("--log", metavar="PATH", help="for --local: a file in which its rows are kept for the next time")
    parser.add_argument("--plain", action="store_true", help="no colours, no completion")
    parser.add_argument("--stop", action="store_true", help="as a filter: end at the first command that is refused")
    parser.add_argument("--timeout", type=float, metavar="SECONDS", help="the most that a reply may take")
    return parser


def _address(given: argparse.Namespace, ends: contextlib.ExitStack) -> tuple[str, int]:
    host, colon, port = (given.address or "127.0.0.1:7007").rpartition(":")
    if not colon or not port.isdigit() or int(port) > 65535:
        raise Error(f"not HOST:PORT: {given.address}")
    host = host.strip("[]")
    if not given.local:
        if given.log:
            raise Error("--log is of a server of the shell's own: --local --log PATH")
        return host, int(port)
    if host != "127.0.0.1":
        raise Error("a server of the shell's own listens on 127.0.0.1")
    program = given.program or local.find_program()
    server = ends.enter_context(local.Server(program, int(port) if given.address else None, given.log))
    return host, server.port


def _run(given: argparse.Namespace, host: str, port: int) -> int:
    typed, fancy = sys.stdin.isatty(), sys.stdout.isatty() and not given.plain
    screen = Screen(colours=typed and fancy and "NO_COLOR" not in os.environ)
    shell = Shell(screen, lambda: Session(host, port, given.timeout), raw=not typed)
    if not typed:
        sys.stdout.reconfigure(encoding="utf-8", errors="surrogateescape")  # type: ignore[attr-defined]
        return pipe.run(shell, sys.stdin.fileno(), given.stop)
    rows = f"are kept in {given.log}" if given.log else "are gone as the shell ends"
    own = f" of its own, whose rows {rows}" if given.local else ""
    screen.line(f"djq at {host}:{port}, a server{own}; \\? for help, \\q to end", "quiet")
    there = {"prompt_toolkit": terminal.HAS_PROMPT, "rich": HAS_RICH}
    if fancy and not all(there.values()):
        missing = [name for name, is_there in there.items() if not is_there]
        screen.line(f"it is better with {' and '.join(missing)}", "quiet")
    terminal.run(shell, fancy)
    return 0
