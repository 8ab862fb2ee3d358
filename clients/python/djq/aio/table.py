"""A relation whose rows have a key, for asyncio."""

from __future__ import annotations

import asyncio
from typing import Iterable, Iterator, Sequence

from ..errors import RowAbsent, SomeRefused, Taken
from ..listing import WITHIN
from ..protocol import Answer, Value
from ..table import MOST_AT_ONCE, Keyed, of_one
from .connection import Connection, list_whole


class Table(Keyed):
    """A relation whose first columns are a key: at most one row for each. It promises what `djq.Table` does.

    Any number of tasks may write to one table; they take turns. One that is cancelled leaves its write to be done.
    """

    def __init__(self, connection: Connection, relation: str, types: Sequence[type | str], key: int = 1) -> None:
        super().__init__(relation, types, key)
        self._connection, self._types = connection, types
        self._writing = asyncio.Lock()  # held until a write is answered, behind which the rows are known

    async def _begin(self) -> Table:
        """Makes what isn't there, and lists the rows."""
        connection = self._connection
        try:
            await connection.relation(self.relation, *self._types)
        except Taken:
            pass
        try:
            await connection.query(self._text)
        except Taken:
            pass
        listing = await list_whole(connection, self._query, WITHIN, watch=True)
        for row in listing.answers:
            self._put(row)
        self._take(connection._protocol, listing.at)
        return self

    def __len__(self) -> int:
        self._catch_up()
        return len(self._rows)

    def __iter__(self) -> Iterator[Answer]:
        """The rows."""
        self._catch_up()
        return iter(self._all())

    def get(self, *key: Value) -> Answer | None:
        """The row of a key, as far as it was told; none where there is none."""
        self._catch_up()
        return self._get(key)

    async def upsert(self, *row: Value) -> bool:
        """Makes this the row of its key. False where it is already."""
        return await asyncio.shield(self._make(row[: self.key], row))

    async def update(self, old: Sequence[Value], new: Sequence[Value]) -> None:
        """Replaces the row of a key by another one. Raises `RowAbsent` if another client, or task, has replaced or
        deleted the old one: so what is computed from it overwrites nothing."""
        away, row = self._same_key(old, new)
        await asyncio.shield(self._update(away, row))

    async def remove(self, *key: Value) -> bool:
        """Takes the row of a key out. False where there is none."""
        return await asyncio.shield(self._make(key, None))

    # Inside

    async def _make(self, key: Answer, row: Answer | None) -> bool:
        """Makes this the one row of a key, or none."""
        async with self._writing:
            while True:
                self._catch_up()
                old, new = self._replacing(row) if row is not None else (set(self._rows.get(key, ())), [])
                if not old and not new:
                    return False
                if await self._replace(old, new):
                    return True

    async def _update(self, old: Answer, new: Answer) -> None:
        async with self._writing:
            await self._carry_out([old], [new])

    async def _replace(self, old: Iterable[Answer], new: Iterable[Answer]) -> bool:
        """Deletes rows and adds others, as one change. False if another client has deleted one of them first; then its
        change has arrived."""
        try:
            await self._carry_out(old, new)
        except RowAbsent:
            return False
        return True

    async def _carry_out(self, old: Iterable[Answer], new: Iterable[Answer]) -> None:
        try:
            async with self._connection.transaction() as change:
                for row in old:
                    change.delete(self.relation, *row)
                for row in new:
                    change.add(self.relation, *row)
        except SomeRefused as error:
            raise of_one(error) from None
        self._catch_up()
        await self._take_rest(self._still({*old} - {*new}))

    async def _take_rest(self, rows: Iterable[Answer]) -> None:
        """Removes the copies that are left of rows, which others gave them."""
        for row in rows:
            copies = 1
            while copies > 0:
                async with self._connection.pipeline() as many:
                    replies = [await many.delete(self.relation, *row) for _ in range(min(copies, MOST_AT_ONCE))]
                copies = replies[-1].result().copies

    def _catch_up(self) -> None:
        """Takes the changes that have come."""
        self._connection._check()
        self._take(self._connection._protocol)
