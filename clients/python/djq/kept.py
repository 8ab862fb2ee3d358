"""The answers of queries as they were listed, and the changes that come behind: what is taken of them, and in which
order. It knows no socket."""

from __future__ import annotations

import contextlib
import math
import operator
from collections import deque
from collections.abc import Iterator, Mapping, Sequence
from dataclasses import dataclass
from itertools import islice
from typing import TypeVar, overload

from .folds import Columns, Fold, Grouped, Index, Key, Ordered, Ranks, Totals
from .listing import Listing
from .protocol import Answer, Change, Protocol, Value, checked

F = TypeVar("F", bound=Fold)
V = TypeVar("V")


class Kept:
    """The answers of one query, as `answers`, and the number of the last change that is in them, as `seq`.

    What `by`, `count`, `sum`, `min`, `max` and `top` give is computed once, and then updated by each change that is
    taken. Columns are numbered from 0, as the values of an answer are.
    """

    def __init__(self, query: str) -> None:
        self.query = checked(query)
        self.answers: set[Answer] = set()
        self.seq = 0
        self._anew: tuple[set[Answer], int] | None = None  # a new listing, which wasn't told yet
        self._folds: dict[tuple[object, ...], Fold] = {}

    # What is computed of the answers

    def by(self, *columns: int) -> Index:
        """The answers by a column's value, or by those of several: `live.by(0)[7]` are those with 7 in the first."""
        if not columns:
            raise TypeError("an index has at least one column")
        key: Columns = columns[0] if len(columns) == 1 else columns
        return self._fold(Index(key), "by", key)

    @overload
    def count(self) -> int: ...

    @overload
    def count(self, by: Columns) -> Mapping[Key, int]: ...

    def count(self, by: Columns | None = None) -> int | Mapping[Key, int]:
        """How many answers there are; with a column, or several, how many of each of its values."""
        if by is None:
            return len(self.answers)
        return Grouped(self._fold(Totals(by, None), "count", by).counts, int)

    @overload
    def sum(self, column: int) -> int: ...

    @overload
    def sum(self, column: int, by: Columns) -> Mapping[Key, int]: ...

    def sum(self, column: int, by: Columns | None = None) -> int | Mapping[Key, int]:
        """The sum of a column; by group, that of each."""
        sums = self._fold(Totals(by, column), "sum", column, by).sums
        return sums.get((), 0) if by is None else Grouped(sums, int)

    @overload
    def min(self, column: int) -> Value | None: ...

    @overload
    def min(self, column: int, by: Columns) -> Mapping[Key, Value]: ...

    def min(self, column: int, by: Columns | None = None) -> Value | None | Mapping[Key, Value]:
        """The least value of a column, none where there is no answer; by group, that of each."""
        groups = self._ranks(column, by)
        return Grouped(groups, _least) if by is not None else _least(groups[()]) if groups else None

    @overload
    def max(self, column: int) -> Value | None: ...

    @overload
    def max(self, column: int, by: Columns) -> Mapping[Key, Value]: ...

    def max(self, column: int, by: Columns | None = None) -> Value | None | Mapping[Key, Value]:
        """The largest value of a column, none where there is no answer; by group, that of each."""
        groups = self._ranks(column, by)
        return Grouped(groups, _largest) if by is not None else _largest(groups[()]) if groups else None

    @overload
    def top(self, count: int, column: int, *, least: bool = False) -> list[Answer]: ...

    @overload
    def top(self, count: int, column: int, by: Columns, *, least: bool = False) -> Mapping[Key, list[Answer]]: ...

    def top(
        self, count: int, column: int, by: Columns | None = None, *, least: bool = False
    ) -> list[Answer] | Mapping[Key, list[Answer]]:
        """The answers with the largest values in a column, the largest first, or those with the least; by group, those
        of each. Where values are alike the answers' own order decides."""
        groups = self._ranks(column, by)

        def first(ranked: Ordered) -> list[Answer]:
            items = iter(ranked) if least else reversed(ranked)
            return [answer for _, answer in islice(items, count)]

        return Grouped(groups, first) if by is not None else first(groups[()]) if groups else []

    def _ranks(self, column: int, by: Columns | None) -> dict[Key, Ordered]:
        return self._fold(Ranks(by, column), "ranks", column, by).groups

    def _fold(self, made: F, *name: object) -> F:
        """What has this name, in step with the answers; `made` where there was none."""
        fold = self._folds.setdefault(name, made)
        if not fold.whole:
            fold.begin(self.answers)
        return fold  # type: ignore[return-value]

    # What comes

    def _listed(self, listing: Listing, protocol: Protocol) -> None:
        """A listing came to its end that watched the query first. What changed before its last line is in it; what
        changed after isn't."""
        seq = listing.seq
        changes = protocol.changes.setdefault(self.query, deque())
        while changes and changes[0][0] < listing.at:
            seq = changes.popleft()[1].seq
        self._anew = (listing.answers, seq)

    def _restarted(self) -> Change:
        """What the new listing brings, as one change."""
        answers, seq = self._anew or (self.answers, self.seq)
        came, went = frozenset(answers - self.answers), frozenset(self.answers - answers)
        change = Change(seq, came, went, restarted=True, lost=seq < self.seq)
        for fold in self._folds.values():
            fold.whole = False
        self.answers, self.seq, self._anew = answers, seq, None
        self._compute_anew()
        return change

    def _apply(self, change: Change) -> None:
        """Takes a change in. Done again after it was interrupted, it comes to the same: what is computed of the
        answers is then computed anew."""
        steady = [fold for fold in self._folds.values() if fold.whole]
        came, went = change.came, change.went
        if steady:
            came, went = came - self.answers, went & self.answers
        for fold in steady:
            fold.whole = False
        self.answers -= change.went
        self.answers |= change.came
        self.seq = change.seq
        for fold in steady:
            with contextlib.suppress(TypeError, IndexError, KeyError):  # is raised where it is read, not here
                fold.take(came, went)
                fold.whole = True
        self._compute_anew()

    def _compute_anew(self) -> None:
        """Computes what isn't in step with the answers, since somebody may hold it."""
        for fold in self._folds.values():
            if not fold.whole:
                with contextlib.suppress(TypeError, IndexError):
                    fold.begin(self.answers)


def _least(ranked: Ordered) -> Value:
    value: Value = next(iter(ranked))[0]
    return value


def _largest(ranked: Ordered) -> Value:
    value: Value = next(reversed(ranked))[0]
    return value


@dataclass(frozen=True)
class Moment:
    """All that one change of rows did to the queries of a group: its number, and by name, of each query that reads what
    changed, the change of its answers."""

    seq: int
    changes: dict[str, Change]


K = TypeVar("K", bound=Kept)


def has_come(kept: Sequence[Kept], protocol: Protocol) -> bool:
    """Whether there is something to take."""
    return any(one._anew is not None or protocol.changes.get(one.query) for one in kept)


def take_first(kept: Sequence[K], protocol: Protocol, until: float = math.inf) -> tuple[K, Change] | None:
    """The change that came first, once it is in the answers; none where none has come up to the number `until`."""
    for one in kept:
        if one._anew is not None:
            return one, one._restarted()
    waiting = [(protocol.changes[one.query], one) for one in kept if protocol.changes.get(one.query)]
    if not waiting:
        return None
    changes, first = min(waiting, key=lambda pair: pair[0][0][0])
    change = changes[0][1]
    if change.seq > until:
        return None
    # it leaves the queue last, and what was done of it before comes to the same when it is done again
    first._apply(change)
    del changes[0]
    return first, change


def take_until(kept: Sequence[K], protocol: Protocol, seq: int) -> list[tuple[K, Change]]:
    """The changes that have come, up to this one, in order."""
    return list(_taken(kept, protocol, seq))


def _taken(kept: Sequence[K], protocol: Protocol, seq: int) -> Iterator[tuple[K, Change]]:
    while (told := take_first(kept, protocol, seq)) is not None:
        yield told


def first_moment(kept: Sequence[Kept], protocol: Protocol) -> tuple[int | None, bool]:
    """The number of the change that is to be taken whole next, and whether all of it has come, as a later one has. After
    a new start there is no such number."""
    if any(one._anew is not None for one in kept):
        return None, False
    waiting = [queue for one in kept if (queue := protocol.changes.get(one.query))]
    seq = min(queue[0][1].seq for queue in waiting)
    return seq, any(queue[-1][1].seq > seq for queue in waiting)


def take_moment(kept: Sequence[Kept], protocol: Protocol, seq: int) -> Moment:
    """What has come up to this change, as one change of each query."""
    if any(one._anew is not None for one in kept):
        told: dict[str, list[Change]] = {}
        for one, change in _taken(kept, protocol, seq):
            told.setdefault(one.query, []).append(change)
        return Moment(seq, {query: _together(changes) for query, changes in told.items()})
    taken = {
        one.query: (one, queue)
        for one in kept
        if (queue := protocol.changes.get(one.query)) and queue[0][1].seq <= seq
    }
    changes = {query: queue[0][1] for query, (_, queue) in taken.items()}
    for query, (one, _) in taken.items():
        one._apply(changes[query])
    # all leave their queues by one call, so that one that is interrupted is done again whole
    deque(map(operator.methodcaller("popleft"), [queue for _, queue in taken.values()]), maxlen=0)
    return Moment(seq, changes)


def _together(changes: list[Change]) -> Change:
    """What several changes of a query come to."""
    came: set[Answer] = set()
    went: set[Answer] = set()
    for change in changes:
        went |= change.went - came
        came -= change.went
        back = change.came & went
        came |= change.came - back
        went -= back
    restarted, lost = any(change.restarted for change in changes), any(change.lost for change in changes)
    return Change(changes[-1].seq, frozenset(came), frozenset(went), restarted, lost)
