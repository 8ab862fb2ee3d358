"""Lines that are sent as they are, and what comes back in the order in which it was told."""

from __future__ import annotations

import sys
from collections import deque
from dataclasses import dataclass
from typing import Iterator, Union

from ..connection import Connection
from ..errors import Error
from ..protocol import ENDING, LOST, Change, fitting, refusal

MOST_MOVES = 16  # of bytes, before what came is told
MORE = ("= ", "n ", "m ")  # what begins a line behind which the reply goes on


class Said:
    """A line that was sent, and once it is `done` the lines of its reply, or what it was `lost` by."""

    def __init__(self, line: str) -> None:
        self.line = line
        self.number = 0  # of the line, where lines are counted
        self.reply: list[str] = []
        self.done = False
        self.lost: Error | None = None
        self.replies = 0
        self.at = 0  # the number of the line that ended the reply

    def take(self, lines: list[str], at: int) -> int:
        """Takes lines of the reply, the first of them that at `at`. Gives the place behind the last that it took."""
        while at < len(lines) and not self.done and not lines[at].startswith("end "):
            self.reply.append(lines[at])
            lost = lines[at] == LOST and self.line.strip(" ") in ENDING
            self.done = lines[at] != "=" and not lines[at].startswith(MORE) and not lost
            at += 1
        self.replies = int(self.done)
        return at

    def fail(self, error: Error) -> None:
        """No reply comes."""
        self.lost, self.done, self.at = error, True, sys.maxsize

    def refused(self, columns: dict[str, tuple[str, ...]]) -> Error | None:
        """What the reply refuses; also that a cursor is stale."""
        return refusal(self.reply[0], self.line, columns) if self.reply else None


@dataclass(frozen=True)
class Delta:
    """A change of a query that the session watches."""

    query: str
    change: Change


class Session:
    """A connection over which lines are said as they are."""

    def __init__(self, host: str, port: int, timeout: float | None = None) -> None:
        self.connection = Connection(host, port, timeout)
        self._protocol = self.connection._protocol
        self._said: deque[Said] = deque()

    @property
    def ended(self) -> Error | None:
        """Why nothing comes any more."""
        return self._protocol.ended

    @property
    def due(self) -> int:
        """How many replies are due."""
        return self._protocol.due

    @property
    def sending(self) -> bool:
        """Whether bytes wait to be sent."""
        return bool(self._protocol.outgoing)

    def say(self, line: str) -> Said:
        """Queues a line, which isn't blank. Raises `TooLong`, and `UnicodeError` for what isn't UTF-8."""
        said = Said(line)
        data = fitting(line).encode() + b"\n"
        self.connection._check()
        self.connection._whole(self._protocol._queue, said, data, 1)
        self._said.append(said)
        return said

    def move(self, timeout: float | None = 0) -> None:
        """Sends and reads what can be, some megabytes at most; with a timeout it waits so long for the first byte."""
        for _ in range(MOST_MOVES):
            if self.ended is not None or not self.connection._move(timeout):
                return
            timeout = 0

    def wait(self, said: Said) -> Iterator[Said | Delta]:
        """What is told up to the reply of this line, in its order."""
        while True:
            for told in self.told():
                yield told
                if told is said:
                    return
            self.connection._await(self.connection.timeout)

    def told(self) -> Iterator[Said | Delta]:
        """What has come, in its order."""
        while True:
            waiting = [(queue[0][0], query) for query, queue in self._protocol.changes.items() if queue]
            first = min(waiting, default=None)
            said = self._said[0] if self._said and self._said[0].done else None
            if said is not None and (first is None or said.at < first[0]):
                self._said.popleft()
                yield said
            elif first is not None:
                yield Delta(first[1], self._protocol.changes[first[1]].popleft()[1])
            else:
                return

    def ask(self, *lines: str) -> list[Said]:
        """The replies to lines that are sent together; deltas that come meanwhile wait to be told."""
        asked = [self.say(line) for line in lines]
        while not asked[-1].done:
            self.connection._await(self.connection.timeout)
        for said in asked:
            self._said.remove(said)
        return asked


Told = Union[Said, Delta]
