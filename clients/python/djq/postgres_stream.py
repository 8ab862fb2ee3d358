"""A slot of PostgreSQL, and the stream of a publication's changes from it, by the replication protocol of psycopg2.

    stream = Stream("host=127.0.0.1 dbname=shop", "djq")
    made = stream.create()                          # a slot, and the snapshot of the moment from which on it tells
    with seeing(connect(dsn), made.snapshot) as cursor:
        ..                                          # rows are read that were there at that moment
    stream.start("shop", made.point)
    for message in stream.messages(timeout=1):
        ..
    stream.confirm(commit.end)                      # what PostgreSQL doesn't need to store any more

psycopg2 frames messages and answers the server's questions whether this side is alive. What is confirmed is said by
`confirm`. If that is the place of the last message or a later one, psycopg2 itself confirms the end of the log as well, until
the next message comes.
"""

from __future__ import annotations

import contextlib
import importlib
import select
import threading
import time
from collections.abc import Iterator
from dataclasses import dataclass
from typing import Any

from .pgoutput import Message, decode
from .postgres_tables import quoted
from .postgres_types import SETTINGS

STATUS = 5.0  # seconds between two reports of what is confirmed, at most
AUTOMATIC = 3600  # seconds after which psycopg2 reports by itself, which `stay` does earlier


@dataclass(frozen=True)
class Created:
    """A slot that was made: from which place of the log on it tells, and the snapshot of the rows at that place."""

    point: int
    snapshot: str


def connect(dsn: str) -> Any:
    """A connection for SQL, whose values are texts as `postgres_types` reads them."""
    return importlib.import_module("psycopg2").connect(dsn, options=SETTINGS)


@contextlib.contextmanager
def seeing(connection: Any, snapshot: str) -> Iterator[Any]:
    """A cursor of a transaction that sees the rows of a slot's snapshot, and ends with the block. The slot's stream is
    started behind the block's first line, or later."""
    connection.rollback()
    try:
        with connection.cursor() as cursor:
            cursor.execute("SET TRANSACTION ISOLATION LEVEL REPEATABLE READ READ ONLY")
            cursor.execute("SET TRANSACTION SNAPSHOT %s", (snapshot,))
            yield cursor
    finally:
        connection.rollback()


def number_of(place: str) -> int:
    """A place of the log, which PostgreSQL writes as two numbers."""
    high, _, low = place.partition("/")
    return (int(high, 16) << 32) | int(low, 16)


def place_of(number: int) -> str:
    """How PostgreSQL writes a place of the log."""
    return f"{number >> 32:X}/{number & 0xFFFFFFFF:X}"


class Stream:
    """One slot, over a connection of its own. What psycopg2 raises is passed on."""

    def __init__(self, dsn: str, slot: str) -> None:
        extras = importlib.import_module("psycopg2.extras")
        kind = extras.LogicalReplicationConnection
        self._connection = importlib.import_module("psycopg2").connect(dsn, connection_factory=kind, options=SETTINGS)
        self._cursor = self._connection.cursor()
        self.slot = slot
        self.confirmed = 0
        self._reported = time.monotonic()

    def __enter__(self) -> Stream:
        return self

    def __exit__(self, *_: object) -> None:
        self.close()

    def close(self) -> None:
        """Closes the connection. The slot stays, and with it what PostgreSQL stores for it."""
        self._connection.close()

    def identify(self) -> str:
        """Which PostgreSQL it is: a number that no other has, and that of its timeline, which a restore from a backup
        changes."""
        self._cursor.execute("IDENTIFY_SYSTEM")
        system, timeline, *_ = self._cursor.fetchone()
        return f"{system}/{timeline}"

    def create(self, temporary: bool = False) -> Created:
        """Makes the slot; a temporary one is dropped as the connection ends. Its snapshot can be seen until the next
        command of this connection."""
        kind = "TEMPORARY " if temporary else ""
        self._cursor.execute(f"CREATE_REPLICATION_SLOT {quoted(self.slot)} {kind}LOGICAL pgoutput EXPORT_SNAPSHOT")
        _, point, snapshot, _ = self._cursor.fetchone()
        return Created(number_of(point), snapshot)

    def drop(self) -> None:
        """Drops the slot, which nobody may be reading."""
        self._cursor.drop_replication_slot(self.slot)

    def start(self, publication: str, point: int = 0) -> None:
        """Begins the stream, with the first transaction that ended behind this place and wasn't confirmed."""
        options = {"proto_version": "1", "publication_names": quoted(publication)}
        self._cursor.start_replication(
            slot_name=self.slot, start_lsn=place_of(point), options=options, decode=False, status_interval=AUTOMATIC
        )

    def messages(self, timeout: float | None = None) -> Iterator[Message]:
        """The messages as they come; with a timeout, until none came for so many seconds. Raises `NotDecoded`."""
        while (message := self.next(timeout)) is not None:
            yield message

    def next(self, timeout: float | None = None) -> Message | None:
        """The next message; none if none came for so many seconds."""
        until = None if timeout is None else time.monotonic() + timeout
        while True:
            told = self._cursor.read_message()
            if told is not None:
                return decode(told.payload)
            left = STATUS if until is None else min(STATUS, until - time.monotonic())
            if left < 0:
                return None
            select.select([self._cursor], [], [], left)

    def confirm(self, place: int) -> None:
        """Says that all before this place is taken over, so that PostgreSQL drops what it stores of it."""
        self.confirmed = max(self.confirmed, place)
        self._reported = time.monotonic()
        self._cursor.send_feedback(write_lsn=self.confirmed, flush_lsn=self.confirmed, force=True)

    @property
    def is_due(self) -> bool:
        """Whether it is time to say again what is confirmed, so that the server doesn't take this side for dead."""
        return time.monotonic() - self._reported > STATUS

    def stay(self) -> None:
        """Says it again, if it is time."""
        if self.is_due:
            self.confirm(self.confirmed)

    @contextlib.contextmanager
    def staying(self) -> Iterator[None]:
        """Says it again in a thread, as often as it is time within the block, which doesn't use the stream."""
        ends = threading.Event()

        def stay() -> None:
            with contextlib.suppress(Exception):  # that the stream has ended is found as it is read
                while not ends.wait(1):
                    self.stay()

        thread = threading.Thread(target=stay, daemon=True)
        thread.start()
        try:
            yield
        finally:
            ends.set()
            thread.join()

    @property
    def end(self) -> int:
        """The place of the log up to which all messages have come, as the server said it last."""
        place: int = self._cursor.wal_end
        return place

    def confirm_idle(self) -> None:
        """Confirms `end`. Only for who has taken over every transaction that came: changes of other tables, which come
        without a message, would otherwise make PostgreSQL store more and more."""
        self.confirm(self.end)
