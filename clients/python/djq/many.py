"""Commands that are sent together: the lines of a transaction, the commands of a pipeline, and rows that are loaded."""

from __future__ import annotations

from collections import deque
from types import TracebackType
from typing import TYPE_CHECKING, Callable, TypeVar

from . import protocol
from .errors import Error, Refused, SomeRefused
from .protocol import FIRST_REFUSALS, Added, Commit, Pending, Rows, Update, Value, spell_line, spell_query, spell_union
from .transaction import Collected

if TYPE_CHECKING:
    from .connection import Connection

T = TypeVar("T")


class Transaction(Collected):
    """Rows that are inserted and deleted as one change: see `Connection.transaction`."""

    def __init__(self, connection: Connection) -> None:
        super().__init__()
        self._connection = connection

    def __enter__(self) -> Transaction:
        return self

    def __exit__(self, kind: type | None, error: BaseException | None, trace: TracebackType | None) -> None:
        lines = self._end()
        if error is None:
            self._commit = self._connection._carry_out(lines)
            self._commit.result()


class PipelinedTransaction(Collected):
    """Rows that are inserted and deleted as one change, within a pipeline: see `Pipeline.transaction`."""

    def __init__(self, pipeline: Pipeline) -> None:
        super().__init__()
        self._pipeline = pipeline

    def __enter__(self) -> PipelinedTransaction:
        return self

    def __exit__(self, kind: type | None, error: BaseException | None, trace: TracebackType | None) -> None:
        lines = self._end()
        if error is None:
            self._commit = self._pipeline._say_transaction(lines)


class Pipeline:
    """Commands that are sent together. Each method gives a `Pending` reply."""

    def __init__(self, connection: Connection, raises: bool = True) -> None:
        self._connection = connection
        self._raises = raises
        self._sent = self._refused = 0
        self._first: list[Refused] = []
        self._lost: Error | None = None

    def __enter__(self) -> Pipeline:
        return self

    def __exit__(self, kind: type | None, error: BaseException | None, trace: TracebackType | None) -> None:
        if error is not None:
            if isinstance(error, Exception) and not isinstance(error, Error):
                self._connection._settle()
            return
        self._connection._settle()
        if self._lost is not None:
            raise self._lost
        if self._refused and self._raises:
            raise SomeRefused(self._sent, self._refused, self._first)

    def add(self, relation: str, *values: Value) -> Pending[Added]:
        """Gives a row one copy more."""
        return self._say(spell_line("add", relation, values), protocol.READ_ADDED)

    def delete(self, relation: str, *values: Value) -> Pending[Update]:
        """Takes one copy of a row."""
        return self._say(spell_line("del", relation, values), protocol.READ_REMOVED)

    def has(self, query: str, *values: Value) -> Pending[bool]:
        """Whether this is an answer."""
        return self._say(spell_line("has", query, values), protocol.READ_HAS)

    def query(self, text: str) -> Pending[int]:
        """Registers a query."""
        return self._say(spell_query(self._connection.schema.spell(text)), protocol.READ_QUERY)

    def union(self, name: str, *members: str) -> Pending[int]:
        """Registers a union."""
        return self._say(spell_union(name, members), protocol.READ_UNION)

    def transaction(self) -> PipelinedTransaction:
        """A transaction among the commands of the pipeline, in the order in which they are said:

        with server.pipeline() as many:
            orders = []
            for number in range(100):
                with many.transaction() as order:
                    order.add("orders", number, "bo")
                    order.add("lines", number, 1, "bolt")
                orders.append(order)
        inserted = sum(order.result().rows for order in orders)

        What became of it is a reply like any other of the pipeline: `result()` gives it once the pipeline's block has
        ended. If it is refused, `result()` raises that, and its refusals count among those of the pipeline.
        """
        return PipelinedTransaction(self)

    def _say(self, line: str, read: Callable[[list[str]], T | None]) -> Pending[T]:
        self._connection._pump()
        pending = self._connection._say(line, read, self._failed)
        self._sent += 1
        return pending

    def _say_transaction(self, lines: list[str]) -> Commit:
        self._connection._pump()
        commit = self._connection._say_transaction(lines, self._failed)
        self._sent += len(commit.lines)
        return commit

    def _failed(self, error: Error) -> None:
        if not isinstance(error, Refused):
            self._lost = self._lost or error
            return
        self._refused += 1
        if len(self._first) < FIRST_REFUSALS:
            self._first.append(error)


class Load:
    """Rows on their way, some hundred at a time."""

    def __init__(self, connection: Connection, progress: Callable[[int], None] | None) -> None:
        self._connection = connection
        self._progress = progress
        self._open: deque[Rows] = deque()
        self._sent = self._answered = self._changed = self._refused = 0
        self._first: list[Refused] = []
        self._lost: Error | None = None

    def send(self, lines: list[str]) -> bool:
        """Queues lines, and sends and reads what can be. False where one of those before was refused."""
        text = ("\n".join(lines) + "\n").encode()
        self._connection._check()
        self._open.append(self._connection._whole(self._connection._protocol.say_rows, lines, text))
        self._sent += len(lines)
        self._connection._move(0)
        self._connection._pump()
        self._collect()
        return self._refused == 0

    def finish(self) -> int:
        """Waits for all replies. Gives how many rows came, or raises what went wrong."""
        self._connection._settle()
        self._collect()
        if self._lost is not None:
            raise self._lost
        if self._refused:
            raise SomeRefused(self._sent, self._refused, self._first)
        return self._changed

    def _collect(self) -> None:
        before = self._answered
        while self._open and self._open[0].done:
            rows = self._open.popleft()
            self._answered += rows.replies
            self._changed += rows.changed
            self._refused += rows.refused
            self._first += rows.first[: FIRST_REFUSALS - len(self._first)]
            if rows.lost is not None:
                self._lost = self._lost or rows.lost
        if self._progress is not None and self._answered > before:
            self._progress(self._answered)
