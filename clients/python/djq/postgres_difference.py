"""The rows of relations at a server, and the lines by which they become those of another place.

    there = rows_of(server, query, "orders", (int, str), within)
    copies = copies_of(positions, "orders", there, wanted)
    change = Difference("orders", difference(copies, wanted))
    for lines in transactions([change, ..]): ..

A table without a key may have a row several times, and the relation as many copies of it. The server says of a row
whether it is there and not how often. So the copies are counted by transactions that delete and insert the row several
times, and change nothing: they are refused if it has fewer.
"""

from __future__ import annotations

import contextlib
from collections.abc import Callable, Iterable, Iterator, Mapping, Sequence
from dataclasses import dataclass

from .connection import Connection
from .errors import Arity, Taken, WrongType
from .postgres_position import Positions, drop_unused
from .postgres_types import Unfit
from .protocol import HELD_BYTES, MOST_HELD, MOST_LINE, Answer, Value, spell

ROOM_LINES = MOST_HELD - 2  # of a transaction, beside the two of the position
ROOM_BYTES = HELD_BYTES - 2 * MOST_LINE
MOST_COUNTED = 30_000  # copies that one transaction can delete and insert
AT_ONCE = 500  # transactions that are sent together


def line_of(command: str, relation: str, row: Answer) -> str:
    """The line that inserts or deletes a row."""
    return f"{command} {relation} " + " ".join([str(one) if type(one) is int else spell(one) for one in row])


def rows_of(server: Connection, query: str, relation: str, types: Sequence[type], within: float) -> set[Answer]:
    """The rows of a relation at one moment, by a query of this name that is registered for a while, and `Overtaken` is
    raised after so many seconds. Raises `Unfit` if the relation has other columns."""
    columns = ",".join(f"c{place}" for place in range(len(types)))
    try:
        with contextlib.suppress(Taken):
            server.query(f"{query}({columns}) <- {relation}({columns})")
        samples: list[Value] = [0 if kind is int else "" for kind in types]
        server.has(query, *samples)
        return server.snapshot(query, within)
    except (Arity, WrongType):
        words = " ".join("int" if kind is int else "text" for kind in types)
        raise Unfit(f"the relation {relation} is there with other columns than {words}, and can't be replaced") from None
    finally:
        if server.fileno() >= 0:
            drop_unused(server, query)


# Copies


@dataclass
class _Count:
    """What is known of a row's copies: it has `low`, and hasn't `high`."""

    row: Answer
    likely: int
    low: int = 1
    high: int | None = None

    @property
    def is_known(self) -> bool:
        return self.high is not None and self.high - self.low == 1

    def question(self) -> int:
        """Of which number it is asked next whether it has as many."""
        if self.high is None:
            return min(max(self.likely + 1, 2 * self.low), MOST_COUNTED)
        return self.likely if self.low < self.likely < self.high else (self.low + self.high) // 2

    def take(self, count: int, has: bool) -> None:
        """Whether it has so many."""
        if has:
            self.low = count
        else:
            self.high = count


def copies_of(held: Positions, relation: str, rows: Iterable[Answer], likely: Mapping[Answer, int]) -> dict[Answer, int]:
    """How many copies rows have that are there; `likely` says how many they should have, and is asked first."""
    counts = [_Count(row, likely.get(row, 1)) for row in rows]
    waiting = counts
    while waiting:
        for some in _parts(waiting, AT_ONCE):
            asked = [one.question() for one in some]
            questions = [_nothing(relation, one.row, count) for one, count in zip(some, asked)]
            # most rows have one copy and not two, so that all questions are answered alike
            is_usual = max(asked) == 2 and held.refuse(questions)
            told = [False] * len(some) if is_usual else held.allow(questions)
            for one, count, has in zip(some, asked, told):
                one.take(count, has)
                if one.low == MOST_COUNTED:
                    _reduce(held, relation, one)
        waiting = [one for one in waiting if not one.is_known]
    return {one.row: one.low for one in counts}


def _nothing(relation: str, row: Answer, count: int) -> list[str]:
    """A transaction that a row needs so many copies for, and that changes nothing."""
    return [line_of("del", relation, row)] * count + [line_of("add", relation, row)] * count


def _reduce(held: Positions, relation: str, count: _Count) -> None:
    """Deletes all but one of the copies that a transaction can ask for: nobody sees it, as the row stays."""
    if held.position is not None:
        held.commit(held.position.next_piece(), [line_of("del", relation, count.row)] * (MOST_COUNTED - 1))
        count.low, count.high, count.likely = 1, None, 1


def _parts(items: Sequence[_Count], size: int) -> Iterator[Sequence[_Count]]:
    for at in range(0, len(items), size):
        yield items[at : at + size]


# Differences


@dataclass
class Difference:
    """What makes the rows of one relation those of its table: how many copies of each row come, or go."""

    relation: str
    changes: dict[Answer, int]
    key: Callable[[Answer], Answer] | None = None

    def units(self) -> Iterator[list[str]]:
        """The lines, those together that belong into one transaction: the old and the new row of a key."""
        if self.key is None:
            for row, count in self.changes.items():
                line = line_of("add" if count > 0 else "del", self.relation, row)
                yield from ([line] for _ in range(abs(count)))
            return
        by_key: dict[Answer, list[str]] = {}
        for row, count in sorted(self.changes.items(), key=lambda change: change[1]):
            lines = by_key.setdefault(self.key(row), [])
            lines += [line_of("add" if count > 0 else "del", self.relation, row)] * abs(count)
        yield from by_key.values()

    def __len__(self) -> int:
        return sum(abs(count) for count in self.changes.values())


def difference(there: Mapping[Answer, int], wanted: Mapping[Answer, int]) -> dict[Answer, int]:
    """How many copies of each row come, or go, so that it has as many as are wanted."""
    changes = {row: count - there.get(row, 0) for row, count in wanted.items() if count != there.get(row, 0)}
    changes.update((row, -count) for row, count in there.items() if row not in wanted)
    return changes


def transactions(differences: Iterable[Difference]) -> Iterator[list[str]]:
    """The lines of all differences, as few transactions as they fit in."""
    lines: list[str] = []
    size = 0
    for unit in (unit for one in differences for unit in one.units()):
        more = sum(len(line.encode()) for line in unit)
        if lines and (len(lines) + len(unit) > ROOM_LINES or size + more > ROOM_BYTES):
            yield lines
            lines, size = [], 0
        lines += unit
        size += more
    yield lines
