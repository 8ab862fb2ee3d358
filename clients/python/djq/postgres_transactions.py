"""The transactions of a stream, as lines of a server: several together, or one in pieces. It knows no socket.

    made = Transactions(position, tables)
    for message in stream:
        for step in made.take(message):             # what is to be committed now
            positions.commit(step.position, step.lines)

Whole transactions are grouped until they have as many lines as one transaction of the server holds, until `flush`, or until
one changed the table `beat`. A transaction above that is alone, and is cut into pieces. The cuts depend on its messages
alone, so that another run finds the pieces that are committed already: each message counts as many lines as it can have,
each as long as the types of the columns allow.
"""

from __future__ import annotations

from collections.abc import Iterator, Mapping
from dataclasses import dataclass, field
from typing import cast

from .errors import Error
from .pgoutput import Begin, Commit, Delete, Insert, Message, Relation, Truncate, Update
from .postgres_difference import ROOM_BYTES, ROOM_LINES, line_of
from .postgres_position import Position
from .postgres_rows import TableRows, take
from .postgres_types import TableMapping
from .protocol import Answer


class Anew(Error):
    """The rows have to be compared anew, for this reason."""


@dataclass
class Followed:
    """A table that is followed: its relation, its rows, and how they are mapped."""

    relation: str
    mapping: TableMapping
    rows: TableRows
    newest: Relation | None = None  # a definition that no change was read by yet

    def define(self) -> None:
        """Takes the definition of the stream for the changes that come. Raises `Redefined`."""
        if self.newest is not None:
            self.rows.define(self.newest)
            self.newest = None


@dataclass(frozen=True)
class Step:
    """A transaction of the server: its lines, the position after it, and the last commit of PostgreSQL that it has."""

    position: Position
    lines: list[str]
    commit: Commit | None = None


@dataclass
class Net:
    """How many copies of each row come, or go, in sum, and how much room that may need."""

    counts: dict[tuple[str, Answer], int] = field(default_factory=dict)
    lines: int = 0
    bytes: int = 0

    def put(self, relation: str, row: Answer, copies: int) -> None:
        """Copies of a row come, or go."""
        self.counts[relation, row] = self.counts.get((relation, row), 0) + copies

    def grow(self, lines: int, size: int) -> None:
        """So many lines more may be needed, of so many bytes."""
        self.lines += lines
        self.bytes += size

    def has_room(self, lines: int, size: int) -> bool:
        """Whether as much more fits into one transaction."""
        return self.lines + lines <= ROOM_LINES and self.bytes + size <= ROOM_BYTES

    def merge(self, other: Net) -> None:
        """What another one has comes after this."""
        for (relation, row), copies in other.counts.items():
            self.put(relation, row, copies)
        self.grow(other.lines, other.bytes)

    def spell(self) -> list[str]:
        """The lines."""
        spelled: list[str] = []
        for (relation, row), copies in self.counts.items():
            if copies:
                spelled += [line_of("add" if copies > 0 else "del", relation, row)] * abs(copies)
        return spelled


class Transactions:
    """The steps that the messages of a stream come to, from a position on. The stream may begin earlier."""

    def __init__(self, position: Position, tables: Mapping[int, Followed], beat: int | None = None) -> None:
        self.position = position
        self.taken = 0  # transactions that are in what was given
        self._tables, self._beat = tables, beat
        self._group, self._last = Net(), None  # type: tuple[Net, Commit | None]
        self._current = Net()
        self._begun: Begin | None = None
        self._known = False  # whether the transaction is there already
        self._skip = 0  # pieces of it that are
        self._beaten = False

    @property
    def waits(self) -> bool:
        """Whether `flush` would give something."""
        return self._last is not None

    @property
    def is_idle(self) -> bool:
        """Whether no transaction is there in part, or waits."""
        return self._begun is None and self._last is None and self.position.is_whole

    def take(self, message: Message) -> Iterator[Step]:
        """Takes a message, and gives the steps that are due. Raises `Unfit` and `Anew`; the steps before are valid."""
        if isinstance(message, Begin):
            self._begin(message)
        elif isinstance(message, Commit):
            yield from self._commit(message)
        elif isinstance(message, Relation):
            if message.relation in self._tables:
                self._tables[message.relation].newest = message
        elif self._known:
            return
        elif isinstance(message, Truncate):
            if any(number in self._tables for number in message.relations):
                raise Anew("a table was truncated")
        elif isinstance(message, (Insert, Update, Delete)) and message.relation in self._tables:
            yield from self._change(self._tables[message.relation], message)

    def flush(self) -> Iterator[Step]:
        """The whole transactions that wait."""
        if self._last is not None:
            self.position = self.position.at(self._last.end)
            step = Step(self.position, self._group.spell(), self._last)
            self._group, self._last = Net(), None
            yield step

    def move(self, end: int) -> Iterator[Step]:
        """The same, and the position at the place before which nothing is missing: the stream's end between transactions,
        else the commit of the one that is read."""
        yield from self.flush()
        place = end if self._begun is None else self._begun.final
        if not self.position.pieces and self.position.lsn < place:
            self.position = self.position.at(place)
            yield Step(self.position, [])

    def _begin(self, message: Begin) -> None:
        self._begun = message
        self._known = message.final < self.position.lsn
        self._skip = 0 if self._known else self.position.pieces
        self._current, self._beaten = Net(), False

    def _change(self, table: Followed, message: Insert | Update | Delete) -> Iterator[Step]:
        lines = 2 if isinstance(message, Update) else 1
        if not self._current.has_room(lines, lines * table.mapping.longest):
            yield from self._cut()
        if not self._skip:
            self._put(table, message)
        self._current.grow(lines, lines * table.mapping.longest)
        self._beaten = self._beaten or message.relation == self._beat

    def _put(self, table: Followed, message: Insert | Update | Delete) -> None:
        table.define()
        change = take(table.rows, message)
        if change.went is not None:
            self._current.put(table.relation, cast(Answer, change.went), -1)
        if change.came is not None:
            table.mapping.check(change.said, cast(Answer, change.came))
            self._current.put(table.relation, cast(Answer, change.came), 1)

    def _cut(self) -> Iterator[Step]:
        """A piece ends here."""
        if self._skip:
            self._skip -= 1
        else:
            yield from self.flush()
            if self._begun is not None and not self.position.pieces:
                self.position = self.position.at(self._begun.final)
            self.position = self.position.next_piece()
            yield Step(self.position, self._current.spell())
        self._current = Net()

    def _commit(self, message: Commit) -> Iterator[Step]:
        if self._known:
            self._begun = None
            return
        if self._skip:
            raise Anew("a transaction has fewer pieces than before")
        self._begun = None
        self.taken += 1
        if self.position.pieces or not self._group.has_room(self._current.lines, self._current.bytes):
            yield from self.flush()
        self._group.merge(self._current)
        self._current, self._last = Net(), message
        if self.position.pieces or self._beaten:
            yield from self.flush()
