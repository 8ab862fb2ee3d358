"""When the rows of a table are due, and what a renewal and an expiry have to send. It knows no socket."""

from __future__ import annotations

import time
from collections.abc import Callable, Iterable, Iterator, Sequence
from dataclasses import dataclass
from itertools import islice, takewhile
from typing import Any

from .kept import Kept, take_first
from .protocol import Answer, Protocol, Value
from .table import Keyed

KEYS_AT_ONCE = 1000  # of which one transaction has the rows and their times
LONGEST_WAIT = 0.2  # seconds after which who expires rows looks whether it is to end


Line = tuple[str, Answer]  # the name of a relation, and a row of it


@dataclass(frozen=True)
class Edit:
    """What one transaction deletes and adds, and which rows of the table it is about: those that it adds, or those that
    it deletes."""

    deletes: list[Line]
    adds: list[Line]
    rows: list[Answer]


class Expiry:
    """The times of a table's rows: a relation with a key and its milliseconds since 1970 in each row. Of several times of
    a key the latest counts."""

    def __init__(self, table: Keyed, seconds: float, clock: Callable[[], float] = time.time) -> None:
        if seconds <= 0:
            raise ValueError("the time is more than 0 seconds")
        self.seconds = seconds
        self._keyed, self._clock = table, clock
        self._due = f"{table.relation}_due"
        self._dues = Kept(f"{self._due}_rows")
        self._kinds: tuple[type | str, ...] = (*table.types[: table.key], int)
        columns = ",".join(f"c{place}" for place in range(len(self._kinds)))
        self._text = f"{self._dues.query}({columns}) <- {self._due}({columns})"

    def _now(self) -> int:
        return round(1000 * self._clock())

    def _whole_time(self) -> int:
        return self._now() + round(1000 * self.seconds)

    def _times(self, key: Answer) -> list[int]:
        """The times of a key."""
        index = self._dues.by(*range(self._keyed.key))
        return [int(due[-1]) for due in index[key[0] if len(key) == 1 else key]]

    def _is_over(self, key: Answer, now: int) -> bool:
        return max(self._times(key), default=0) <= now

    def _left(self, key: Answer) -> float | None:
        """The seconds that a row has; none where it isn't there."""
        times = self._times(key)
        return max(0.0, (max(times) - self._now()) / 1000) if times and key in self._keyed._rows else None

    def _until_due(self) -> float | None:
        """The seconds until something is due."""
        first = next(self._in_order(), None)
        return None if first is None else max(0.0, (first[0] - self._now()) / 1000)

    def _in_order(self) -> Iterator[Any]:
        """The times and what they are of, the first that is due first."""
        groups = self._dues._ranks(self._keyed.key, None)
        return iter(groups[()]) if groups else iter(())

    def _undated(self) -> list[Answer]:
        """The times for rows without one, which get the whole of it."""
        rows, due = self._keyed._rows, self._whole_time()
        if len(rows) <= len(self._dues.by(*range(self._keyed.key))):
            return []
        return [(*key, due) for key in rows if not self._times(key)]

    def _in_parts(self, rows: Iterable[Sequence[Value]]) -> Iterator[list[Answer]]:
        """Rows, each the last of its key, so many at a time as one transaction has."""
        wanted = list({tuple(row[: self._keyed.key]): tuple(row) for row in rows}.values())
        for at in range(0, len(wanted), KEYS_AT_ONCE):
            yield wanted[at : at + KEYS_AT_ONCE]

    def _dating(self, times: list[Answer]) -> Edit:
        """What gives rows their times."""
        return Edit([], [(self._due, due) for due in times], [])

    def _renewal(self, rows: list[Answer]) -> Edit:
        """What makes rows be there for the whole time from now on. It deletes the times before: so of two renewals at
        once, and of a renewal and an expiry, one is refused, and made anew after the other."""
        keyed, due = self._keyed, self._whole_time()
        edit = Edit([], [], [])
        for row in rows:
            key = row[: keyed.key]
            times, (old, new) = self._times(key), keyed._replacing(row)
            edit.deletes.extend((keyed.relation, away) for away in old)
            edit.deletes.extend((self._due, (*key, time)) for time in times if time != due)
            edit.adds.extend((keyed.relation, missing) for missing in new)
            edit.adds.extend([] if due in times else [(self._due, (*key, due))])
            edit.rows.extend(new)
        return edit

    def _expiry(self, now: int) -> Edit:
        """What deletes some of the times that are past, and the rows of those keys that have no later time."""
        ranked = takewhile(lambda ranked: ranked[0] <= now, self._in_order())
        past = [due for _, due in islice(ranked, KEYS_AT_ONCE)]
        keys = {due[:-1] for due in past}
        rows = [row for key in keys if self._is_over(key, now) for row in self._keyed._rows.get(key, ())]
        times = [(self._due, due) for due in past]
        return Edit([(self._keyed.relation, row) for row in rows] + times, [], rows)

    def _left_over(self, edit: Edit) -> list[Answer]:
        """The rows that are there although they were deleted, since others gave them further copies."""
        return self._keyed._still(row for relation, row in edit.deletes if relation == self._keyed.relation)

    def _renewed(self, rows: list[Answer], now: int) -> list[Answer]:
        """Those of these rows that are renewed by now."""
        return [row for row in rows if not self._is_over(row[: self._keyed.key], now)]

    def _take_times(self, protocol: Protocol) -> None:
        """Takes the changes of times that have come."""
        while take_first([self._dues], protocol) is not None:
            pass
