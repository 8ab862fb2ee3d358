"""One session between PostgreSQL and a server: from which position, the rows of one moment, and the changes after it.

`djq.postgres_in` is the command, which begins another session whenever one ends.
"""

from __future__ import annotations

import contextlib
import hashlib
import importlib
import logging
import sys
import time
from collections.abc import Iterable, Mapping, Sequence
from dataclasses import dataclass
from typing import NoReturn, cast

from .connection import Connection
from .errors import BadColumns, BadName, Taken
from .postgres_difference import Difference, copies_of, difference, rows_of, transactions
from .postgres_position import RELATION, Moved, Position, Positions
from .postgres_source import Chosen, Source, choose, drop_publication, open_slot, read_all, wait_and_drop
from .postgres_stream import connect, number_of, place_of
from .postgres_transactions import Step, Transactions
from .postgres_types import Unfit
from .protocol import Answer, spell

IDLE = 1.0  # seconds without a transaction, after which the position is moved to the end of the log
LONGEST = 0.25  # seconds that whole transactions wait for further ones
REPORT = 10.0  # seconds between two lines about the lag
REPLY = 600.0  # seconds that a reply of the server may take

log = logging.getLogger("djq")


@dataclass(frozen=True)
class Target:
    """The server, and the queries that it is to have."""

    host: str
    port: int
    queries: tuple[str, ...] = ()
    unions: tuple[tuple[str, ...], ...] = ()


class Feed:
    """One session: the slot's stream on one side, the server on the other."""

    def __init__(self, source: Source, target: Target, compares: bool) -> None:
        self.has_slot = False  # whether the slot stays if the session ends
        self._source, self._target, self._compares = source, target, compares
        self._stack = contextlib.ExitStack()
        self._psycopg2 = importlib.import_module("psycopg2")
        self._reported = time.monotonic()
        self._lines = self._counted = 0  # lines and transactions, since they were reported
        self._delay = 0.0  # seconds from the last commit until it was acknowledged

    def __enter__(self) -> Feed:
        return self

    def __exit__(self, *_: object) -> None:
        self._stack.close()

    def begin(self) -> None:
        """Connects, and brings the rows to those of a moment. Raises `Busy` and `Unfit`."""
        source = self._source
        self._sql = self._stack.enter_context(contextlib.closing(connect(source.dsn)))
        self._server = Connection(self._target.host, self._target.port, REPLY)
        self._stack.callback(self._server.close)
        self._held = Positions(self._server, source.slot)
        self._chosen, made_publication = choose(self._sql, source)
        try:
            position = self._open()
        except Unfit:
            if made_publication:
                with contextlib.suppress(self._psycopg2.Error):
                    drop_publication(self._sql, source.publication)
            raise
        self._register()
        beat = next((one.table.relation for one in self._chosen if one.table.label == source.beat), None)
        self.made = Transactions(position, self._tables, beat)

    def _open(self) -> Position:
        """Opens the slot, and brings the rows to a position. A slot that was created for nothing is dropped."""
        self._slot = open_slot(self._sql, self._source, self._invalidate)
        self._stack.callback(self._slot.stream.close)
        self.has_slot = self._slot.made is None
        self._tables = {one.table.relation: one.follow() for one in self._chosen}
        try:
            position = self._resume() or self._compare()
        except Unfit:
            if self._slot.made is not None:
                self._slot.stream.close()
                with contextlib.suppress(self._psycopg2.Error):
                    wait_and_drop(self._sql, self._source.slot)
            raise
        self.has_slot = True
        return position

    def _invalidate(self) -> None:
        """Before the slot is created: a position is of the one before."""
        if self._held.find(self._query_of("")):
            self._held.invalidate()

    # The position

    def _resume(self) -> Position | None:
        """Resumes at the server's position. None if there is none, or one that the slot has no changes after."""
        if self._slot.made is not None or self._compares:
            return None
        self._held.define(self._query_of(""))
        position = self._held.resume()
        if position is None or position.system != self._slot.system or position.lsn < self._slot.confirmed:
            return None
        if position.lsn > self._end():
            return None
        with self._slot.stream.staying():
            for one, table in zip(self._chosen, self._tables.values()):
                if table.rows.has_key:
                    table.rows.start(self._rows_of(one))
        if self._held.read() != [position]:
            raise Moved("another program has moved the position meanwhile")
        log.info("resumes at %s", position)
        return position

    def _end(self) -> int:
        """The end of PostgreSQL's log."""
        with self._sql.cursor() as cursor:
            cursor.execute("SELECT pg_current_wal_flush_lsn()::text")
            end = number_of(cursor.fetchone()[0])
        self._sql.rollback()
        return end

    def _query_of(self, relation: str) -> str:
        """The name of a query that lists a relation for this slot; that of the position is of no relation."""
        return "rows_" + hashlib.sha256(f"{self._source.slot} {relation}".encode()).hexdigest()[:16]

    def _rows_of(self, one: Chosen) -> set[Answer]:
        return rows_of(self._server, self._query_of(one.relation), one.relation, one.mapping.types, REPLY)

    # The difference

    def _compare(self) -> Position:
        """Makes the server's rows those of one moment of PostgreSQL."""
        progress = Progress()
        point, wanted = read_all(self._sql, self._source, self._slot, self._chosen, progress.rows)
        progress.end()
        for one in self._chosen:
            with contextlib.suppress(Taken):
                self._server.relation(one.relation, *one.mapping.types)
        self._held.define(self._query_of(""))
        self._held.claim(Position(self._slot.system, point, 0, 0))
        with self._slot.stream.staying():
            differences = [self._difference(one, wanted[one.relation]) for one in self._chosen]
            self._send(differences, point, progress)
        self._slot.stream.confirm(point - 1)
        for one, table in zip(self._chosen, self._tables.values()):
            table.rows.start(wanted[one.relation])
        return Position(self._slot.system, point, point, 0)

    def _difference(self, one: Chosen, wanted: Mapping[Answer, int]) -> Difference:
        there, rows = self._rows_of(one), self._tables[one.table.relation].rows
        copies = copies_of(self._held, one.relation, there, wanted)
        key = (lambda row: cast(Answer, rows.key(row))) if rows.has_key else None
        return Difference(one.relation, difference(copies, wanted), key)

    def _send(self, differences: Sequence[Difference], point: int, progress: Progress) -> None:
        """Commits the differences, the last of them with the position."""
        total, sent = sum(map(len, differences)), 0
        waiting: list[str] | None = None
        for lines in transactions(differences):
            if waiting is not None and self._held.position is not None:
                self._held.commit(self._held.position.next_piece(), waiting)
                sent += len(waiting)
                progress.part(sent, total)
            waiting = lines
        self._held.commit(Position(self._slot.system, point, point, 0), waiting or ())
        progress.end()
        log.info("has the rows of %s: %d lines differed", place_of(point), total)

    # Queries

    def _register(self) -> None:
        """Registers the queries, now that all rows are there; that of the position last, as deltas come in this order."""
        server = self._server
        for one in self._chosen:
            with contextlib.suppress(BadColumns, BadName):
                server.schema.columns(one.relation, *[column.name for column in one.mapping.columns])
        for text in self._target.queries:
            with contextlib.suppress(Taken):
                server.query(text)
        for name, *members in self._target.unions:
            with contextlib.suppress(Taken):
                server.union(name, *members)
        with contextlib.suppress(Taken):
            server.query(f"{self._source.slot}_lsn(lsn) <- {RELATION}({spell(self._source.slot)},_,_,lsn,0), lsn > 0")

    # The stream

    def follow(self) -> NoReturn:
        """Commits the transactions of the stream, until something goes wrong."""
        stream, made = self._slot.stream, self.made
        since = time.monotonic()  # when a transaction began to wait
        try:
            while True:
                message = stream.next(0 if made.waits else IDLE)
                now = time.monotonic()
                if not made.waits:
                    since = now
                if message is not None:
                    self._carry_out(made.take(message))
                if message is None or now - since > LONGEST:
                    self._carry_out(made.flush())
                if message is None or stream.is_due:
                    self._rest()
        except Unfit:
            self._carry_out(made.flush())
            raise
        except self._psycopg2.Error:
            self._move_on()
            raise

    def _carry_out(self, steps: Iterable[Step]) -> None:
        for step in steps:
            self._held.commit(step.position, step.lines)
            self._lines += len(step.lines)
            if step.commit is not None:
                self._delay = time.time() - step.commit.time / 1e6
                self._slot.stream.confirm(step.commit.end - 1)

    def _rest(self) -> None:
        """Between transactions, and now and then within one: what is there is confirmed."""
        self._move_on()
        if self.made.is_idle and self._slot.stream.end > self._slot.stream.confirmed:
            self._slot.stream.confirm_idle()
        self._slot.stream.stay()
        self._report()

    def _move_on(self) -> None:
        """Moves the position also by what isn't followed, before psycopg2 confirms the end of the log by itself: the next
        session takes a position before what is confirmed for an old one."""
        self._carry_out(self.made.move(self._slot.stream.end))

    def _report(self) -> None:
        now = time.monotonic()
        if now - self._reported < REPORT or not self._lines:
            return
        lag = max(0, self._end() - self.made.position.lsn)
        log.info(
            "at %s, lag %d bytes: %d transactions, %d lines; the last commit was acknowledged after %.3f s",
            self.made.position, lag, self.made.taken - self._counted, self._lines, self._delay,
        )  # fmt: skip
        self._reported, self._lines, self._counted = now, 0, self.made.taken


class Progress:
    """The progress of a comparison: a line of a terminal that is overwritten, else a line every ten seconds."""

    def __init__(self) -> None:
        self._is_terminal = sys.stderr.isatty()
        self._said = time.monotonic()
        self._open = False
        self._read: dict[str, int] = {}

    def rows(self, relation: str, count: int) -> None:
        """So many rows more of a table were read."""
        self._read[relation] = self._read.get(relation, 0) + count
        self._say(f"reads {relation}: {self._read[relation]:,} rows", False)

    def part(self, sent: int, total: int) -> None:
        """So many lines of all that differ were sent."""
        bar = "#" * (30 * sent // total) if total else ""
        self._say(f"sends what differs: [{bar:<30}] {sent:,} of {total:,} lines", sent == total)

    def end(self) -> None:
        """Nothing more is said on the line."""
        if self._open:
            sys.stderr.write("\n")
            self._open = False

    def _say(self, words: str, is_last: bool) -> None:
        pause = 0.1 if self._is_terminal else REPORT
        if not is_last and time.monotonic() - self._said < pause:
            return
        self._said = time.monotonic()
        if self._is_terminal:
            sys.stderr.write(f"\rdjq-postgres: {words}\033[K")
            sys.stderr.flush()
            self._open = True
        else:
            log.info("%s", words)
