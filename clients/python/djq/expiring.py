"""Rows that go by themselves unless they are renewed, as the heartbeats of machines do."""

from __future__ import annotations

import contextlib
import threading
import time
from collections.abc import Callable, Iterable, Sequence
from types import TracebackType

from .connection import Connection
from .errors import Error, RowAbsent, SomeRefused, Taken
from .expiry import LONGEST_WAIT, Edit, Expiry
from .listing import WITHIN, list_whole
from .live import Waits
from .protocol import Answer, Done, Value
from .table import Table, of_one


class Expiring(Expiry):
    """The rows of a table, each of which goes once it wasn't renewed for so many seconds.

        seen = djq.Expiring(server.table("heartbeats", int, str, key=1), seconds=30)
        seen.renew(7, "press")              # machine 7 is there for 30 seconds from now

    When a row is due stands in a relation of its own, `heartbeats_due`: the row's key, and milliseconds since 1970. So a
    renewal changes no row of the table, and who watches the table is told of rows that come and go alone. A process
    that begins again goes on with the times that it finds; a row without one gets the whole time. The table's name has
    at most 23 characters.

    A thread with a connection of its own takes out what is due, until `close` or the end of the process. One such thread
    is enough for a table; with `by_itself=False` there is none, and `expire` does it. Several processes may renew. The
    latest time counts, so their clocks should agree to a fraction of it. A renewal and an expiry are transactions that
    delete the time before: whichever comes second is refused, and made anew after the other.
    """

    def __init__(
        self, table: Table, seconds: float, by_itself: bool = True, clock: Callable[[], float] = time.time
    ) -> None:
        super().__init__(table, seconds, clock)
        self.table, self._connection = table, table._connection
        self._begin()
        self._closing = threading.Event()
        self._thread: threading.Thread | None = None
        if by_itself:
            self._thread = threading.Thread(target=self._keep, name=f"djq expires {table.relation}", daemon=True)
            self._thread.start()

    def __enter__(self) -> Expiring:
        return self

    def __exit__(self, kind: type | None, error: BaseException | None, trace: TracebackType | None) -> None:
        self.close()

    def close(self) -> None:
        """Takes no more rows out. They stay, with their times, for whoever goes on."""
        self._closing.set()
        if self._thread is not None:
            self._thread.join()

    def renew(self, *row: Value) -> bool:
        """From now on the row is there for the whole time, as the one of its key. True where it wasn't there."""
        return self.renew_all([row]) == 1

    def renew_all(self, rows: Iterable[Sequence[Value]]) -> int:
        """As `renew` for each of these rows, of which no two have one key, by a transaction for each thousand. Gives how
        many weren't there."""
        missing = 0
        for some in self._in_parts(rows):
            missing += self._renew_some(some)
        return missing

    def left(self, *key: Value) -> float | None:
        """The seconds until the row of this key is due; none where there is none."""
        self._catch_up()
        return self._left(key)

    def expire(self) -> list[Answer]:
        """Takes out the rows that are due, and gives them."""
        self._date()
        now, gone = self._now(), list[Answer]()
        while True:
            self._catch_up()
            edit = self._expiry(now)
            if not edit.deletes:
                return gone
            done = self._carry_out(edit)
            if done is not None:
                back = self._take_copies(edit, done, now)
                gone += [row for row in edit.rows if row not in back]

    def next_due(self) -> float | None:
        """The seconds until `expire` has something to do; none where there are no rows."""
        self._catch_up()
        return self._until_due()

    # Inside

    def _begin(self) -> None:
        """Makes what isn't there, lists the times, and gives rows without one the whole time."""
        own = self._connection
        with contextlib.suppress(Taken):
            own.relation(self._due, *self._kinds)
        with contextlib.suppress(Taken):
            own.query(self._text)
        self._dues._listed(list_whole(own, self._dues.query, WITHIN, watch=True), own._protocol)
        self._dues._restarted()
        self._date()

    def _date(self) -> None:
        """Gives rows without a time the whole of it."""
        self._catch_up()
        for some in self._in_parts(self._undated()):
            self._carry_out(self._dating(some))

    def _renew_some(self, rows: list[Answer]) -> int:
        """Renews rows by one transaction. If another process was first, it is made anew of what is there then."""
        while True:
            self._catch_up()
            edit = self._renewal(rows)
            done = self._carry_out(edit)
            if done is not None:
                if done.rows < len(edit.deletes) + len(edit.adds):
                    self._catch_up()
                    self.table._take_rest(self._left_over(edit))
                return len(edit.rows)

    def _take_copies(self, edit: Edit, done: Done, now: int) -> list[Answer]:
        """Removes further copies of rows that were due, which others gave them. Gives those that were renewed meanwhile,
        which are added again."""
        if done.rows == len(edit.deletes):
            return []
        self._catch_up()
        left = self._left_over(edit)
        left = [row for row in left if row not in self._renewed(left, now)]
        self.table._take_rest(left)
        self._catch_up()
        back = self._renewed(left, now)
        if back:
            self._carry_out(Edit([], [(self.table.relation, row) for row in back], back))
        return back

    def _carry_out(self, edit: Edit) -> Done | None:
        """One transaction; none if it is refused, as another process has deleted one of these rows first."""
        try:
            with self._connection.transaction() as change:
                for relation, row in edit.deletes:
                    change.delete(relation, *row)
                for relation, row in edit.adds:
                    change.add(relation, *row)
        except RowAbsent:
            return None
        except SomeRefused as error:
            raise of_one(error) from None
        return change.result()

    def _catch_up(self) -> None:
        """Takes the changes that have come."""
        self.table._catch_up()
        self._take_times(self._connection._protocol)

    def _keep(self) -> None:
        """Takes rows out as they are due, over a connection of its own, until `close`."""
        waits = Waits(f"the rows of {self.table.relation} that are due")
        while not self._closing.is_set():
            try:
                self._keep_connected()
            except Error as error:
                self._closing.wait(waits.next(error))

    def _keep_connected(self) -> None:
        own, table = self._connection, self.table
        with Connection(own.host, own.port, own.timeout) as other:
            twin = Expiring(Table(other, table.relation, table.types, table.key), self.seconds, False, self._clock)
            while not self._closing.is_set():
                twin.expire()
                due = twin.next_due()
                other._move(LONGEST_WAIT if due is None else min(due, LONGEST_WAIT))
