"""Rows that go by themselves unless they are renewed, for asyncio."""

from __future__ import annotations

import asyncio
import contextlib
import time
from collections.abc import Callable, Generator, Iterable, Sequence

from ..errors import Error, RowAbsent, SomeRefused, Taken
from ..expiry import LONGEST_WAIT, Edit, Expiry
from ..listing import WITHIN
from ..live import log
from ..protocol import Answer, Done, Value
from ..table import of_one
from .connection import list_whole
from .table import Table


class Expiring(Expiry):
    """The rows of a table, each of which goes once it wasn't renewed for so many seconds: `async with
    djq.aio.Expiring(await server.table("heartbeats", int, str), 30) as seen`.

    It promises what `djq.Expiring` does, but that a task takes out what is due, over the table's own connection: it ends
    where that is lost. Any number of tasks may renew; they take turns.
    """

    def __init__(
        self, table: Table, seconds: float, by_itself: bool = True, clock: Callable[[], float] = time.time
    ) -> None:
        super().__init__(table, seconds, clock)
        self.table, self._connection = table, table._connection
        self._by_itself = by_itself
        self._writing = asyncio.Lock()  # held by a renewal, and by an expiry
        self._task: asyncio.Task[None] | None = None

    def __await__(self) -> Generator[object, None, Expiring]:
        return self.__aenter__().__await__()

    async def __aenter__(self) -> Expiring:
        await self._begin()
        if self._by_itself:
            self._task = asyncio.create_task(self._keep())
        return self

    async def __aexit__(self, *_: object) -> None:
        self.close()

    def close(self) -> None:
        """Takes no more rows out. They stay, with their times, for whoever goes on."""
        if self._task is not None:
            self._task.cancel()

    async def renew(self, *row: Value) -> bool:
        """From now on the row is there for the whole time, as the one of its key. True where it wasn't there."""
        return await self.renew_all([row]) == 1

    async def renew_all(self, rows: Iterable[Sequence[Value]]) -> int:
        """As `renew` for each of these rows, of which no two have one key, by a transaction for each thousand. Gives how
        many weren't there."""
        return await asyncio.shield(self._renew_all(list(rows)))

    async def left(self, *key: Value) -> float | None:
        """The seconds until the row of this key is due; none where there is none."""
        self._catch_up()
        return self._left(key)

    async def expire(self) -> list[Answer]:
        """Takes out the rows that are due, and gives them."""
        return await asyncio.shield(self._expire())

    async def next_due(self) -> float | None:
        """The seconds until `expire` has something to do; none where there are no rows."""
        self._catch_up()
        return self._until_due()

    # Inside

    async def _begin(self) -> None:
        """Makes what isn't there, lists the times, and gives rows without one the whole time."""
        own = self._connection
        with contextlib.suppress(Taken):
            await own.relation(self._due, *self._kinds)
        with contextlib.suppress(Taken):
            await own.query(self._text)
        self._dues._listed(await list_whole(own, self._dues.query, WITHIN, watch=True), own._protocol)
        self._dues._restarted()
        await self._date()

    async def _renew_all(self, rows: list[Sequence[Value]]) -> int:
        async with self._writing:
            missing = 0
            for some in self._in_parts(rows):
                missing += await self._renew_some(some)
            return missing

    async def _expire(self) -> list[Answer]:
        async with self._writing:
            await self._date()
            now, gone = self._now(), list[Answer]()
            while True:
                self._catch_up()
                edit = self._expiry(now)
                if not edit.deletes:
                    return gone
                done = await self._carry_out(edit)
                if done is not None:
                    back = await self._take_copies(edit, done, now)
                    gone += [row for row in edit.rows if row not in back]

    async def _date(self) -> None:
        """Gives rows without a time the whole of it."""
        self._catch_up()
        for some in self._in_parts(self._undated()):
            await self._carry_out(self._dating(some))

    async def _renew_some(self, rows: list[Answer]) -> int:
        """Renews rows by one transaction. If another process was first, it is made anew of what is there then."""
        while True:
            self._catch_up()
            edit = self._renewal(rows)
            done = await self._carry_out(edit)
            if done is not None:
                if done.rows < len(edit.deletes) + len(edit.adds):
                    self._catch_up()
                    await self.table._take_rest(self._left_over(edit))
                return len(edit.rows)

    async def _take_copies(self, edit: Edit, done: Done, now: int) -> list[Answer]:
        """Removes further copies of rows that were due, which others gave them. Gives those that were renewed meanwhile,
        which are added again."""
        if done.rows == len(edit.deletes):
            return []
        self._catch_up()
        left = self._left_over(edit)
        left = [row for row in left if row not in self._renewed(left, now)]
        await self.table._take_rest(left)
        self._catch_up()
        back = self._renewed(left, now)
        if back:
            await self._carry_out(Edit([], [(self.table.relation, row) for row in back], back))
        return back

    async def _carry_out(self, edit: Edit) -> Done | None:
        """One transaction; none if it is refused, as another process has deleted one of these rows first."""
        try:
            async with self._connection.transaction() as change:
                for relation, row in edit.deletes:
                    change.delete(relation, *row)
                for relation, row in edit.adds:
                    change.add(relation, *row)
        except RowAbsent:
            return None
        except SomeRefused as error:
            raise of_one(error) from None
        return change.result()

    def _catch_up(self) -> None:
        """Takes the changes that have come."""
        self.table._catch_up()
        self._take_times(self._connection._protocol)

    async def _keep(self) -> None:
        """Takes rows out as they are due, until `close`."""
        try:
            while True:
                await self.expire()
                due = await self.next_due()
                await asyncio.sleep(LONGEST_WAIT if due is None else min(due, LONGEST_WAIT))
        except Error as error:
            log.warning("the rows of %s don't expire any more: %s", self.table.relation, error)
