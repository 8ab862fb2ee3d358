"""Up to which transaction of PostgreSQL a server has its rows, as a row of the server itself.

The relation `postgres_position` has one row for each slot: `slot`, `system`, `point`, `lsn`, `pieces`. Each transaction
that `djq-postgres` sends deletes this row and inserts the next one. The server refuses a transaction that deletes a row
without a copy. So each change is committed once and in order, also if there are several programs, if one was stopped for
a while, and if a reply was lost.

- `system`: which PostgreSQL, and which timeline
- `point`: the place of the log at which all rows were compared last
- `lsn`: the place before which no commit is missing; 0 while rows are compared
- `pieces`: of the next transaction, which is too large for one, so many pieces are there; while rows are compared so many
  transactions of the comparison

For readers the query `SLOT_lsn(lsn)` has `lsn`; while a transaction is there in part it has no answer.
"""

from __future__ import annotations

import contextlib
from collections.abc import Sequence
from dataclasses import dataclass, replace

from .connection import Connection
from .errors import Error, InUse, NoQuery, NoRelation, RowAbsent, SomeRefused, Taken
from .postgres_stream import place_of
from .protocol import Answer, Commit, Rows, Value, spell

RELATION = "postgres_position"


class Moved(Error):
    """The position isn't the one that was read last: another program has moved it."""


class Differs(Error):
    """Rows of the server aren't those that were sent: somebody else has changed them."""


@dataclass(frozen=True)
class Position:
    """A row of the relation, without its slot."""

    system: str
    point: int
    lsn: int
    pieces: int

    @property
    def is_whole(self) -> bool:
        """Whether all of the last transaction is there."""
        return self.lsn > 0 and self.pieces == 0

    def __str__(self) -> str:
        return place_of(self.lsn) + (f" and {self.pieces} pieces" if self.pieces else "")

    def next_piece(self) -> Position:
        """The position with one piece more."""
        return replace(self, pieces=self.pieces + 1)

    def at(self, lsn: int) -> Position:
        """The position once all up to this place is there."""
        return replace(self, lsn=lsn, pieces=0)


class Positions:
    """The positions of a slot at a server, of which there is one, and on which each transaction is conditional."""

    def __init__(self, server: Connection, slot: str) -> None:
        self.server, self.slot = server, slot
        self.position: Position | None = None
        self._query = ""

    def find(self, query: str) -> bool:
        """Registers a query of this name over the slot's positions. False if the relation isn't there."""
        self._query = query
        try:
            self.server.query(f"{query}(s,p,l,n) <- {RELATION}({spell(self.slot)},s,p,l,n)")
        except Taken:
            return True
        except NoRelation:
            return False
        return True

    def define(self, query: str) -> None:
        """Makes the relation, if it isn't there, and finds the positions in it."""
        with contextlib.suppress(Taken):
            self.server.relation(RELATION, str, str, int, int, int)
        self.find(query)

    def read(self) -> list[Position]:
        """The positions of the slot: one; none before the first comparison, and several if two began at once."""
        return sorted(map(_position, self.server.snapshot(self._query)), key=lambda one: (one.lsn, one.point, one.pieces))

    def resume(self) -> Position | None:
        """The position that there is, if all rows were compared up to it."""
        there = self.read()
        if len(there) == 1 and there[0].lsn > 0:
            self.position = there[0]
        return self.position

    def invalidate(self) -> None:
        """Deletes the positions: from now on the rows have to be compared."""
        while there := self.read():
            with contextlib.suppress(RowAbsent):
                self._carry_out([self._line("del", one) for one in there])

    def claim(self, position: Position) -> None:
        """Begins a comparison: this position replaces all others of the slot, so no other program commits any more."""
        while True:
            before = self.read()
            with contextlib.suppress(RowAbsent):
                self._carry_out([*(self._line("del", one) for one in before), self._line("add", position)])
                if before or self.read() == [position]:
                    self.position = position
                    return

    def commit(self, position: Position, lines: Sequence[str] = ()) -> None:
        """Commits these lines and the position. Raises `Moved` and `Differs`, and nothing was changed then."""
        if self.position is None:
            raise Moved("the position isn't known")
        try:
            self._carry_out([self._line("del", self.position), self._line("add", position), *lines])
        except RowAbsent as error:
            there = self.read()
            if there == [self.position]:
                raise Differs(f"rows of the server were changed by somebody else ({error})") from error
            found = ", ".join(map(str, there)) or "nowhere"
            raise Moved(f"the position was {self.position}, and is {found}") from error
        self.position = position

    def allow(self, transactions: Sequence[Sequence[str]]) -> list[bool]:
        """Which of these transactions, each of which changes nothing, aren't refused. Raises `Moved`."""
        commits = []
        for lines in transactions:
            self.server._pump()
            commits.append(self.server._say_transaction([*lines]))
        self.server._settle()
        self._stay()
        return [_is_allowed(commit) for commit in commits]

    def refuse(self, transactions: Sequence[Sequence[str]]) -> bool:
        """Whether all of these transactions are refused, as a row has no copy. It is asked faster than one by one. Raises
        `Moved`."""
        lines = [line for one in transactions for line in ("batch", *one, f"done {len(one)}")]
        absent = Absences(lines)
        self.server._check()
        self.server._whole(self.server._protocol.say_rows, lines, ("\n".join(lines) + "\n").encode(), absent)
        self.server._settle()
        if absent.lost is not None:
            raise absent.lost
        self._stay()
        return absent.absent == len(transactions)

    def _stay(self) -> None:
        """Raises `Moved` if the position isn't the one that was read or committed last."""
        if self.position is None or self.read() != [self.position]:
            raise Moved(f"the position isn't {self.position} any more")

    def _carry_out(self, lines: Sequence[str]) -> None:
        try:
            self.server._carry_out([*lines]).result()
        except SomeRefused as error:
            raise error.first[0] if error.first else error from None

    def _line(self, command: str, position: Position) -> str:
        values: tuple[Value, ...] = (self.slot, position.system, position.point, position.lsn, position.pieces)
        return " ".join([command, RELATION, *map(spell, values)])


class Absences(Rows):
    """Many commands that were queued as one: how many of them were refused as a row has no copy."""

    def __init__(self, lines: list[str]) -> None:
        super().__init__(lines, {})
        self.absent = 0

    def _refuse(self, reply: str) -> None:
        if reply == "err 19 absent":
            self.absent += 1
            self.replies += 1
        else:
            super()._refuse(reply)


def _is_allowed(commit: Commit) -> bool:
    try:
        commit.result()
    except RowAbsent:
        return False
    return True


def drop_unused(server: Connection, query: str) -> None:
    """Drops a query, unless another session uses it."""
    with contextlib.suppress(NoQuery, InUse):
        server.drop(query)


def _position(answer: Answer) -> Position:
    system, point, lsn, pieces = answer
    return Position(str(system), int(point), int(lsn), int(pieces))
