"""A relation whose rows have a key."""

from __future__ import annotations

from collections import deque
from typing import TYPE_CHECKING, Iterable, Iterator, Sequence

from .errors import Error, RowAbsent, SomeRefused, Taken
from .listing import WITHIN, list_whole
from .protocol import Answer, Protocol, Value

if TYPE_CHECKING:
    from .connection import Connection

MOST_AT_ONCE = 1000  # copies of a row that are removed before it is looked how many are left


class Keyed:
    """Rows by their key, which are the first so many of their columns."""

    def __init__(self, relation: str, types: Sequence[type | str], key: int) -> None:
        if not 1 <= key <= len(types):
            raise ValueError("a key has at least one column, and at most all")
        self.relation, self.types, self.key = relation, tuple(types), key
        self._rows: dict[Answer, set[Answer]] = {}
        columns = ",".join(f"c{place}" for place in range(len(types)))
        self._query = f"{relation}_rows"
        self._text = f"{self._query}({columns}) <- {relation}({columns})"

    def _get(self, key: Answer) -> Answer | None:
        return next(iter(self._rows.get(key, ())), None)

    def _all(self) -> list[Answer]:
        return [row for rows in self._rows.values() for row in rows]

    def _replacing(self, row: Answer) -> tuple[set[Answer], list[Answer]]:
        """Which rows have to go so that this is the one of its key, and which have to come."""
        there = self._rows.get(row[: self.key], set())
        return there - {row}, [] if row in there else [row]

    def _still(self, rows: Iterable[Answer]) -> list[Answer]:
        """Those of these rows that are there."""
        return [row for row in rows if row in self._rows.get(row[: self.key], ())]

    def _same_key(self, old: Sequence[Value], new: Sequence[Value]) -> tuple[Answer, Answer]:
        """An old and a new row. Raises `ValueError` if they have different keys."""
        if tuple(old[: self.key]) != tuple(new[: self.key]):
            raise ValueError("the old and the new row have different keys")
        return tuple(old), tuple(new)

    def _take(self, protocol: Protocol, listed: int = 0) -> None:
        """Takes the changes that have come. Those before the line `listed` are in the rows already."""
        changes = protocol.changes.setdefault(self._query, deque())
        while changes:
            line, change = changes[0]
            if line > listed:
                for row in change.went:
                    self._rows.get(row[: self.key], set()).discard(row)
                    if not self._rows.get(row[: self.key], row):
                        del self._rows[row[: self.key]]
                for row in change.came:
                    self._put(row)
            del changes[0]

    def _put(self, row: Answer) -> None:
        self._rows.setdefault(row[: self.key], set()).add(row)


def of_one(error: SomeRefused) -> Error:
    """What one row was refused with, where it is one alone."""
    return error.first[0] if error.refused == 1 else error


class Table(Keyed):
    """A relation whose first columns are a key: at most one row for each.

    The server knows no keys, so the table watches the relation's rows and knows which row a key has; it registers the
    query `RELATION_rows` for that. A row and the one that it replaces are one transaction, so watchers get one delta of
    both. If another client replaces or deletes the old row first, the transaction is refused, and made anew of what is
    there then. Two clients that give a new key its first row at one time may both succeed; the next `upsert` of the key
    leaves its own row alone. A row that others gave further copies is deleted with all of them, by a further round
    trip after the change.
    """

    def __init__(self, connection: Connection, relation: str, types: Sequence[type | str], key: int = 1) -> None:
        super().__init__(relation, types, key)
        self._connection = connection
        try:
            connection.relation(relation, *types)
        except Taken:
            pass
        try:
            connection.query(self._text)
        except Taken:
            pass
        listing = list_whole(connection, self._query, WITHIN, watch=True)
        for row in listing.answers:
            self._put(row)
        self._catch_up(listing.at)

    def __len__(self) -> int:
        self._catch_up()
        return len(self._rows)

    def __iter__(self) -> Iterator[Answer]:
        """The rows."""
        self._catch_up()
        return iter(self._all())

    def get(self, *key: Value) -> Answer | None:
        """The row of a key, as far as it was told; none where there is none."""
        self._catch_up()
        return self._get(key)

    def upsert(self, *row: Value) -> bool:
        """Makes this the row of its key. False where it is already."""
        while True:
            self._catch_up()
            old, new = self._replacing(row)
            if not old and not new:
                return False
            if self._replace(old, new):
                return True

    def update(self, old: Sequence[Value], new: Sequence[Value]) -> None:
        """Replaces the row of a key by another one. Raises `RowAbsent` if another client has replaced or deleted the
        old one: so what is computed from it overwrites nothing."""
        away, row = self._same_key(old, new)
        self._carry_out([away], [row])

    def remove(self, *key: Value) -> bool:
        """Takes the row of a key out. False where there is none."""
        while True:
            self._catch_up()
            old = list(self._rows.get(key, ()))
            if not old:
                return False
            if self._replace(old, []):
                return True

    # Inside

    def _replace(self, old: Iterable[Answer], new: Iterable[Answer]) -> bool:
        """Deletes rows and adds others, as one change. False if another client has deleted one of them first; then its
        change has arrived."""
        try:
            self._carry_out(old, new)
        except RowAbsent:
            return False
        return True

    def _carry_out(self, old: Iterable[Answer], new: Iterable[Answer]) -> None:
        try:
            with self._connection.transaction() as change:
                for row in old:
                    change.delete(self.relation, *row)
                for row in new:
                    change.add(self.relation, *row)
        except SomeRefused as error:
            raise of_one(error) from None
        self._catch_up()
        self._take_rest(self._still({*old} - {*new}))

    def _take_rest(self, rows: Iterable[Answer]) -> None:
        """Removes the copies that are left of rows, which others gave them."""
        for row in rows:
            copies = 1
            while copies > 0:
                with self._connection.pipeline() as many:
                    replies = [many.delete(self.relation, *row) for _ in range(min(copies, MOST_AT_ONCE))]
                copies = replies[-1].result().copies

    def _catch_up(self, listed: int = 0) -> None:
        """Takes the changes that have come."""
        while self._connection._move(0):
            pass
        self._take(self._connection._protocol, listed)
