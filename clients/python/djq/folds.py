"""What is computed of a set of answers and updated by its deltas: counts, sums, least and largest values, the first few
in order, and the answers by some of their columns.

Each is computed once from all answers, and from then on a delta costs what it brings and takes, however many answers
there are. Nothing of it asks the server.
"""

from __future__ import annotations

from bisect import bisect_left, insort
from collections.abc import Callable, Iterable, Iterator, Mapping, Set
from typing import Any, Generic, TypeVar, Union

from .protocol import Answer, Change, Value

Key = Union[Value, Answer]  # a column's value, or those of several columns
Columns = Union[int, "tuple[int, ...]"]
V = TypeVar("V")

MOST_IN_A_LIST = 512  # items, above which a list of `Ordered` is cut in two
NO_ANSWERS: frozenset[Answer] = frozenset()


def key_reader(columns: Columns | None) -> Callable[[Answer], Key]:
    """What reads the key of an answer: a column's value, or a tuple of those of several. Without columns all answers
    have one key."""
    if columns is None:
        return lambda answer: ()
    if isinstance(columns, int):
        at = columns
        return lambda answer: answer[at]
    places = columns
    return lambda answer: tuple([answer[place] for place in places])


class Fold:
    """Something that is computed of answers. Where `whole` is false it has to be computed anew, as a delta was
    interrupted on its way in, or didn't suit it."""

    def __init__(self) -> None:
        self.whole = False

    def begin(self, answers: Set[Answer]) -> None:
        """Computes it of all answers."""
        self.clear()
        self.take(answers, NO_ANSWERS)
        self.whole = True

    def clear(self) -> None:
        """What it is without answers."""
        raise NotImplementedError

    def take(self, came: Iterable[Answer], went: Iterable[Answer]) -> None:
        """Takes answers in that weren't there, and others out that were."""
        raise NotImplementedError


class Index(Fold, Mapping[Key, "Set[Answer]"]):
    """The answers by their key: `index[key]` is the set of those that have it, which is empty where none has.

    It follows the answers, as they do the changes that are taken. A set that it gives is the one that it goes on with, so
    whoever changes something copies it.
    """

    def __init__(self, columns: Columns) -> None:
        super().__init__()
        self._key = key_reader(columns)
        self._sets: dict[Key, set[Answer]] = {}

    def __getitem__(self, key: Key) -> Set[Answer]:
        return self._sets.get(key, NO_ANSWERS)

    def __contains__(self, key: object) -> bool:
        return key in self._sets

    def __iter__(self) -> Iterator[Key]:
        return iter(self._sets)

    def __len__(self) -> int:
        return len(self._sets)

    def touched(self, change: Change) -> set[Key]:
        """The keys of which a change brought or took answers: what a cache has to compute anew."""
        return {*map(self._key, change.came), *map(self._key, change.went)}

    def clear(self) -> None:
        """What it is without answers."""
        self._sets.clear()

    def take(self, came: Iterable[Answer], went: Iterable[Answer]) -> None:
        """Takes answers in that weren't there, and others out that were."""
        for answer in went:
            key = self._key(answer)
            there = self._sets[key]
            there.discard(answer)
            if not there:
                del self._sets[key]
        for answer in came:
            self._sets.setdefault(self._key(answer), set()).add(answer)


class Totals(Fold):
    """How many answers each group has, and the sum of one of their columns, where there is one."""

    def __init__(self, by: Columns | None, column: int | None) -> None:
        super().__init__()
        self._key, self._column = key_reader(by), column
        self.counts: dict[Key, int] = {}
        self.sums: dict[Key, int] = {}

    def clear(self) -> None:
        """What it is without answers."""
        self.counts.clear()
        self.sums.clear()

    def take(self, came: Iterable[Answer], went: Iterable[Answer]) -> None:
        """Takes answers in that weren't there, and others out that were."""
        for answers, sign in ((went, -1), (came, 1)):
            for answer in answers:
                key = self._key(answer)
                self.counts[key] = self.counts.get(key, 0) + sign
                if self._column is not None:
                    self.sums[key] = self.sums.get(key, 0) + sign * _number(answer[self._column])
        for answer in went:
            if self.counts.get(self._key(answer)) == 0:
                del self.counts[self._key(answer)]
                self.sums.pop(self._key(answer), None)


def _number(value: Value) -> int:
    if not isinstance(value, int):
        raise TypeError(f"texts have no sum: {value!r}")
    return value


class Ordered:
    """Items in order, in lists of some hundred each, so that one that comes or goes moves few others."""

    def __init__(self, items: Iterable[Any] = ()) -> None:
        whole = sorted(items)
        half = MOST_IN_A_LIST // 2
        self._lists = [whole[at : at + half] for at in range(0, len(whole), half)]
        self._last = [some[-1] for some in self._lists]  # of each list its largest item

    def __bool__(self) -> bool:
        return bool(self._lists)

    def add(self, item: Any) -> None:
        """Puts an item in."""
        at = min(bisect_left(self._last, item), len(self._lists) - 1)
        if at < 0:
            self._lists, self._last = [[item]], [item]
            return
        some = self._lists[at]
        insort(some, item)
        if len(some) > MOST_IN_A_LIST:
            half = len(some) // 2
            self._lists.insert(at, some[:half])
            self._last.insert(at, some[half - 1])
            del some[:half]
            at += 1
        self._last[at] = some[-1]

    def remove(self, item: Any) -> None:
        """Takes an item out that is there."""
        at = bisect_left(self._last, item)
        some = self._lists[at]
        del some[bisect_left(some, item)]
        if some:
            self._last[at] = some[-1]
        else:
            del self._lists[at], self._last[at]

    def __iter__(self) -> Iterator[Any]:
        for some in self._lists:
            yield from some

    def __reversed__(self) -> Iterator[Any]:
        for some in reversed(self._lists):
            yield from reversed(some)


class Ranks(Fold):
    """The answers of each group in the order of one of their columns; those with the same value in their own order."""

    def __init__(self, by: Columns | None, column: int) -> None:
        super().__init__()
        self._key, self._column = key_reader(by), column
        self.groups: dict[Key, Ordered] = {}

    def begin(self, answers: Set[Answer]) -> None:
        """Computes it of all answers, each group sorted at once."""
        self.clear()
        items: dict[Key, list[tuple[Value, Answer]]] = {}
        for answer in answers:
            items.setdefault(self._key(answer), []).append((answer[self._column], answer))
        self.groups.update((key, Ordered(some)) for key, some in items.items())
        self.whole = True

    def clear(self) -> None:
        """What it is without answers."""
        self.groups.clear()

    def take(self, came: Iterable[Answer], went: Iterable[Answer]) -> None:
        """Takes answers in that weren't there, and others out that were."""
        for answer in went:
            key = self._key(answer)
            self.groups[key].remove((answer[self._column], answer))
            if not self.groups[key]:
                del self.groups[key]
        for answer in came:
            key = self._key(answer)
            if key not in self.groups:
                self.groups[key] = Ordered()
            self.groups[key].add((answer[self._column], answer))


class Grouped(Mapping[Key, V], Generic[V]):
    """Something of each group, read as it is asked for; a group without answers isn't there."""

    def __init__(self, groups: Mapping[Key, Any], read: Callable[[Any], V]) -> None:
        self._groups, self._read = groups, read

    def __getitem__(self, key: Key) -> V:
        return self._read(self._groups[key])

    def __iter__(self) -> Iterator[Key]:
        return iter(self._groups)

    def __len__(self) -> int:
        return len(self._groups)

    def __repr__(self) -> str:
        return repr(dict(self))
