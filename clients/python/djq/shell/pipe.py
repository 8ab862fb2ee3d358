"""A filter: commands come in and replies go out."""

from __future__ import annotations

import os
import select
import sys

from .advice import NOTHING_DONE, held_lines
from .commands import MAKING, Shell

PIECE = 1 << 16
MOST_DUE = 2000  # replies that are due, above which no more is read


def run(shell: Shell, source: int, stop: bool) -> int:
    """Runs the lines that a descriptor gives. The status: 0, 1 where one was refused, 2 where the connection was lost.

    Replies come in the order of the lines. With `stop` nothing is run behind the first line that is refused.
    """
    lines = _Lines(source)
    most = 1
    while not (shell.done or shell.lost or (stop and shell.refused)):
        line = lines.next() if shell.session.due < most else None
        if line is not None:
            shell.lines += 1
            _run(shell, line)
            # a page may be as long as a session may leave unread, so nothing is sent behind one that wasn't read
            most = 1 if stop or line.lstrip(" ").startswith("next") else MOST_DUE
        elif lines.ended and shell.session.due == 0:
            break
        else:
            _move(shell, lines, shell.session.due < most)
        shell.tell_what_came()
        if shell.session.ended is not None:
            break
    return _status(shell, lines)


def _run(shell: Shell, line: str) -> None:
    line = line.removesuffix("\r")
    if line.lstrip(" ").startswith("\\"):
        shell.settle()
        shell.run(line)
    elif line.strip(" "):
        shell.say(line)
        if shell.if_missing and line.split()[0] in MAKING:
            shell.settle()  # the server may be asked for a relation's columns, which isn't possible in a batch


def _move(shell: Shell, lines: _Lines, more: bool) -> None:
    """Waits until lines come, where more are wanted, or bytes of the server, and takes them."""
    sys.stdout.flush()
    session, waiting = shell.session, select.poll()
    waiting.register(session.connection.fileno(), select.POLLIN | (select.POLLOUT if session.sending else 0))
    if more and not lines.ended:
        waiting.register(lines.source, select.POLLIN)
    if any(descriptor == lines.source for descriptor, _ in waiting.poll()):
        lines.read()
    session.move()


def _status(shell: Shell, lines: _Lines) -> int:
    if shell.names.held and shell.session.ended is None:
        lost = f"{held_lines(shell.names)} held, and {NOTHING_DONE}"
        print(f"djq-shell: the input ended within a batch: {lost}", file=sys.stderr)
        return 1
    if shell.done or shell.session.ended is None:
        return 1 if shell.refused else 0
    if shell.lost is None:
        print(f"djq-shell: {shell.session.ended}", file=sys.stderr)
    return 2


class _Lines:
    """The lines of a descriptor, as they come."""

    def __init__(self, source: int) -> None:
        self.source = source
        self.ended = False
        self._rest = b""
        self._whole: list[bytes] = []  # the last of them first

    def next(self) -> str | None:
        """The next line that is whole."""
        return self._whole.pop().decode(errors="surrogateescape") if self._whole else None

    def read(self) -> None:
        """Takes what has come, at least a byte. What the end of the input leaves without LF is a line too."""
        piece = os.read(self.source, PIECE)
        *whole, self._rest = (self._rest + piece).split(b"\n")
        if not piece:
            self.ended = True
            whole, self._rest = [self._rest] if self._rest else [], b""
        self._whole = whole[::-1] + self._whole
