"""The rows of tables that PostgreSQL replicates: which row each message deletes, and which it inserts. It knows no
socket.

Which row an update or a deletion is of is said by the table's replica identity, as pgoutput's `Relation` has it. With
the whole row (`f`) the message has the old row, so nothing is stored, and a row that stands several times in a table
without a key has as many copies. With a key (`d`, `i`) it has at most the key, so the rows are stored by their keys
here.

A row's values are texts, as pgoutput has them, or what a table's `convert` makes of each.
"""

from __future__ import annotations

from collections.abc import Callable, Iterable
from dataclasses import dataclass
from typing import Union

from .pgoutput import UNCHANGED, Delete, Insert, Relation, Row, Unchanged, Update
from .postgres_types import Unfit

Cell = Union[str, int, None, Unchanged]
Cells = tuple[Cell, ...]
Convert = Callable[[Row, int], Cell]  # a row of a message and the place of a column


class Redefined(Unfit):
    """A table is defined in another way than the rows that are stored."""


def _as_it_is(row: Row, place: int) -> Cell:
    return row[place]


@dataclass(frozen=True)
class RowChange:
    """One change of a table: a row that is deleted, a row that is inserted, or both. `said` is what the message has of
    it."""

    relation: int
    went: Cells | None
    came: Cells | None
    said: Row


class TableRows:
    """One table: its definition, and its rows by their keys if the identity is a key."""

    def __init__(self, definition: Relation, convert: Convert = _as_it_is) -> None:
        self.definition = definition
        self.by_key: dict[Cells, Cells] = {}
        self._convert = convert

    @property
    def has_key(self) -> bool:
        """Whether rows are identified by a key."""
        return self.definition.identity in "di" and any(column.in_identity for column in self.definition.columns)

    def key(self, cells: Cells) -> Cells:
        """The key of a row."""
        return tuple([value for value, column in zip(cells, self.definition.columns) if column.in_identity])

    def start(self, rows: Iterable[Cells]) -> None:
        """Rows that are there before the first change."""
        if self.has_key:
            self.by_key.update((self.key(row), row) for row in rows)

    def define(self, definition: Relation) -> None:
        """The definition, again or anew. Raises `Redefined` if the stored rows aren't those of the new one."""
        before, self.definition = self.definition, definition
        names = [column.name for column in before.columns], [column.name for column in definition.columns]
        if names[0] != names[1]:
            raise Redefined(self._says(f"its columns were {', '.join(names[0])}, and are {', '.join(names[1])} now"))
        kinds = [[(one.type, one.modifier) for one in table.columns] for table in (before, definition)]
        if self._convert is not _as_it_is and kinds[0] != kinds[1]:
            raise Redefined(self._says("the types of its columns are others now"))
        places = [tuple(column.in_identity for column in one.columns) for one in (before, definition)]
        if self.has_key and (places[0] != places[1] or before.identity not in "di"):
            raise Redefined(self._says("its replica identity is another one now, and the rows by that aren't known"))
        if not self.has_key:
            self.by_key.clear()

    def insert(self, message: Insert) -> RowChange:
        """A row is inserted."""
        new = self._read(message.new)
        if self.has_key:
            self.by_key[self.key(new)] = new
        return RowChange(message.relation, None, new, message.new)

    def update(self, message: Update) -> RowChange:
        """A row is replaced by another."""
        old = None if message.old is None else self._read(message.old)
        if old is None and self.has_key:
            old = self._take(self._read_key(message.new if message.key is None else message.key))
        if old is None:
            raise self._unfit("an update without the old row: its replica identity has to be a key or FULL")
        new = self._read(message.new, old)
        if self.has_key:
            self.by_key[self.key(new)] = new
        return RowChange(message.relation, old, new, message.new)

    def delete(self, message: Delete) -> RowChange:
        """A row is deleted."""
        said = message.key if message.old is None else message.old
        if said is not None and self.has_key:
            return RowChange(message.relation, self._take(self._read_key(said)), None, said)
        if message.old is None:
            raise self._unfit("a deletion without the old row: its replica identity has to be a key or FULL")
        return RowChange(message.relation, self._read(message.old), None, message.old)

    def _read(self, row: Row, before: Cells | None = None) -> Cells:
        """The values of a row, those that an update left as they were from the row before."""
        return tuple([
            before[place] if before is not None and text is UNCHANGED else self._convert(row, place)
            for place, text in enumerate(row)
        ])  # fmt: skip

    def _read_key(self, row: Row) -> Cells:
        columns = self.definition.columns
        return tuple([self._convert(row, place) for place, column in enumerate(columns) if column.in_identity])

    def _take(self, key: Cells) -> Cells:
        try:
            return self.by_key.pop(key)
        except KeyError:
            raise self._unfit(f"no row has the key {', '.join(map(str, key))}") from None

    def _unfit(self, why: str) -> Unfit:
        return Unfit(self._says(why))

    def _says(self, why: str) -> str:
        return f"{self.definition.schema}.{self.definition.name}: {why}"


def take(table: TableRows, message: Insert | Update | Delete) -> RowChange:
    """What a message deletes and inserts in its table. Raises `Unfit`."""
    if isinstance(message, Insert):
        return table.insert(message)
    return table.update(message) if isinstance(message, Update) else table.delete(message)
