"""The answers of a query over several servers, each of which has a part of the rows.

    with shards([("10.0.0.1", 7007), ("10.0.0.2", 7007)], by="x") as servers:
        servers.relation("r", int, int)             # on each
        servers.relation("s", int)
        servers.query("q(x,y) <- r(x,y), s(y)")     # on each: r is spread by its first column, s is whole everywhere
        with servers.live("q") as live:
            for change in live.changes():
                print(change.server, change.came, change.went, len(live.answers))

Rows are spread by whoever has them, not here: a row of a relation in which queries have the variable `by` goes to the
server that its value stands for, by whatever rule. A relation in which they don't have it goes to all servers. Then
all rows of an answer lie on one server, so the answers are those of any of them. `places` says how relations have to
lie.

A query is refused by `Unsuited` if its rows may lie on several servers. If an answer may be found by several of them
it is counted how many have it. No server knows of another. What one server did is one change, and there is no moment
that is common to all.
"""

from __future__ import annotations

import time
from collections import Counter
from collections.abc import Iterator, Sequence
from contextlib import ExitStack
from dataclasses import dataclass
from selectors import EVENT_READ, DefaultSelector
from typing import Any

from .connection import Connection
from .errors import Error
from .listing import WITHIN
from .live import Live, Lives
from .protocol import Answer, Value, checked
from .shell.queries import Atom, Query, read_query

AGAIN = 0.5  # seconds after which a server is tried again that was lost


class Unsuited(Error):
    """A query's answers aren't those of the servers together. The words name it, with the reason."""


@dataclass(frozen=True)
class ShardChange:
    """A change of the merged answers, by what one server did. `server` is its place in the list."""

    server: int
    seq: int
    came: frozenset[Answer]
    went: frozenset[Answer]
    restarted: bool = False


class Spread:
    """How relations lie over the servers, as the queries say that were registered."""

    def __init__(self, by: str) -> None:
        self._by = checked(by)
        self.places: dict[str, frozenset[int]] = {}  # the columns of each relation by which it is spread
        self.disjoint: dict[str, bool] = {}  # of each query, whether no answer is found by two servers
        self._queries: list[Query] = []

    def add(self, text: str) -> str:
        """One more query. Gives its name, or raises `Unsuited`; then it is as before."""
        query = read_query(text)
        if query is None:
            raise Unsuited(f"the relations and variables of this aren't known, as it isn't in the grammar: {text}")
        places = self._with(query)
        for one in (*self._queries, query):
            self._check(one, places, query)
        self.places = places
        self._queries.append(query)
        self.disjoint = {one.name: self._is_disjoint(one) for one in self._queries}
        return query.name

    def drop(self, name: str) -> None:
        """One query less. Relations lie as they did."""
        self._queries = [query for query in self._queries if query.name != name]
        self.disjoint.pop(name, None)

    def _with(self, query: Query) -> dict[str, frozenset[int]]:
        places = dict(self.places)
        for atom in query.atoms:
            found = frozenset(place for place, term in enumerate(atom.terms) if term == self._by)
            places[atom.relation] = places.get(atom.relation, frozenset()) | found
        return places

    def _check(self, query: Query, places: dict[str, frozenset[int]], new: Query) -> None:
        """Whether each answer's rows lie on one server: its atoms over spread relations have one term in common, each
        in a column by which its relation is spread."""
        spread = [atom for atom in query.atoms if places[atom.relation]]
        if len(spread) < 2 or _common(spread, places):
            return
        at = ", ".join(f"{atom} by {_columns(places[atom.relation])}" for atom in spread)
        why = f"{query.name} isn't suited to rows spread by {self._by}: its atoms have no term in common in {at}"
        raise Unsuited(why if query is new else f"{new.name} would spread a relation anew, and then {why}")

    def _is_disjoint(self, query: Query) -> bool:
        """Whether each answer names its server: by a variable of the head, or a constant, by which alone its rows
        lie."""
        spread = [atom for atom in query.atoms if self.places[atom.relation]]
        if not spread or any(len(self.places[atom.relation]) > 1 for atom in spread):
            return False
        common = _common(spread, self.places)
        return any(term in query.head or not term[0].isalpha() for term in common if term != "_")


def _common(spread: Sequence[Atom], places: dict[str, frozenset[int]]) -> set[str]:
    """The terms that each of these atoms has in a column by which its relation is spread. A hole is in common with
    none."""
    terms = [{term for place, term in enumerate(atom.terms) if place in places[atom.relation]} for atom in spread]
    common = set.intersection(*terms)
    return common - {"_"} if len(spread) > 1 else common


def _columns(places: frozenset[int]) -> str:
    return " and ".join(f"column {place + 1}" for place in sorted(places))


class Shards:
    """Several servers as one that is read."""

    def __init__(self, addresses: Sequence[tuple[str, int]], by: str, timeout: float | None = None) -> None:
        if not addresses:
            raise ValueError("there is at least one server")
        self.addresses = list(addresses)
        self._timeout = timeout
        self._spread = Spread(by)
        self._ends = ExitStack()
        try:
            self.connections = [self._ends.enter_context(Connection(*one, timeout)) for one in self.addresses]
        except BaseException:
            self._ends.close()
            raise

    def __enter__(self) -> Shards:
        return self

    def __exit__(self, *_: object) -> None:
        self.close()

    def close(self) -> None:
        """Closes the connections, and those of live answers."""
        self._ends.close()

    @property
    def places(self) -> dict[str, tuple[int, ...]]:
        """How relations have to lie: the columns, from 0 on, by whose values a row's servers are chosen; none for
        all."""
        return {relation: tuple(sorted(places)) for relation, places in self._spread.places.items()}

    def relation(self, name: str, *types: type | str) -> None:
        """Makes a relation on each server."""
        for connection in self.connections:
            connection.relation(name, *types)

    def query(self, text: str) -> None:
        """Registers a query on each server. Raises `Unsuited`, and then it is registered nowhere."""
        name = self._spread.add(text)
        done: list[Connection] = []
        try:
            for connection in self.connections:
                connection.query(text)
                done.append(connection)
        except Error:
            self._spread.drop(name)
            for connection in done:
                connection.drop(name)
            raise

    def know(self, text: str) -> None:
        """The text of a query that is registered already. Raises `Unsuited`."""
        self._spread.add(text)

    def drop(self, query: str) -> None:
        """Drops a query on each server."""
        for connection in self.connections:
            connection.drop(query)
        self._spread.drop(query)

    def has(self, query: str, *values: Value) -> bool:
        """Whether a server has this answer."""
        self._check(query)
        return any(connection.has(query, *values) for connection in self.connections)

    def snapshot(self, query: str, within: float = WITHIN) -> set[Answer]:
        """The answers of each server at one moment of it."""
        self._check(query)
        return set().union(*(connection.snapshot(query, within) for connection in self.connections))

    def live(self, query: str, *, within: float = WITHIN, ping: float | None = 10) -> ShardedLive:
        """The merged answers, kept up to date, over one further connection to each server."""
        disjoint = self._check(query)
        groups = [Lives(*one, self._timeout, within, True, ping) for one in self.addresses]
        return self._ends.enter_context(ShardedLive(groups, query, disjoint))

    def _check(self, query: str) -> bool:
        try:
            return self._spread.disjoint[query]
        except KeyError:
            raise Unsuited(f"the text of {query} isn't known: it is given by query, or by know") from None


def shards(addresses: Sequence[tuple[str, int]], by: str, timeout: float | None = None) -> Shards:
    """Opens one session of each of several servers, whose rows are spread by the values of the variable `by`."""
    return Shards(addresses, by, timeout)


class Merged:
    """The answers that any of several sources has, as `answers`. If several may have the same one it is counted how many
    do. It moves no bytes, so it also merges the feeds of several servers in Redis."""

    def __init__(self, disjoint: bool = False) -> None:
        self.answers: set[Answer] = set()
        self._counts: Counter[Answer] | None = None if disjoint else Counter()

    def take(self, came: frozenset[Answer], went: frozenset[Answer]) -> tuple[frozenset[Answer], frozenset[Answer]]:
        """Takes a change of one source. Gives which answers came that none had, and which went that none has now."""
        if self._counts is not None:
            came, went = self._count(self._counts, came, went)
        self.answers -= went
        self.answers |= came
        return came, went

    def _count(
        self, counts: Counter[Answer], came: frozenset[Answer], went: frozenset[Answer]
    ) -> tuple[frozenset[Answer], frozenset[Answer]]:
        counts.update(came)
        counts.subtract(went)
        last = frozenset(answer for answer in went if not counts[answer])
        for answer in last:
            del counts[answer]
        return frozenset(answer for answer in came if counts[answer] == 1), last


class ShardedLive:
    """The answers that any server has, as `answers`. While a server is lost, its answers are those that were told
    last."""

    def __init__(self, groups: Sequence[Lives], query: str, disjoint: bool) -> None:
        self.query = query
        self._merged = Merged(disjoint)
        self._groups = list(groups)
        self._lives: list[Live] = []
        self._again = 0.0  # when a server that was lost is tried again
        try:
            for server, group in enumerate(self._groups):
                live = group.add(query)
                self._lives.append(live)
                self._merge(server, live.seq, frozenset(live.answers), frozenset(), False)
        except BaseException:
            self.close()
            raise

    def __enter__(self) -> ShardedLive:
        return self

    def __exit__(self, *_: object) -> None:
        self.close()

    @property
    def answers(self) -> set[Answer]:
        """The merged answers."""
        return self._merged.answers

    def close(self) -> None:
        """Keeps the answers no more."""
        for group in self._groups:
            group.close()

    def changes(self, timeout: float | None = None) -> Iterator[ShardChange]:
        """Each change as it comes, once it is in `answers`; with a timeout, until none came for so many seconds."""
        while (change := self.next(timeout)) is not None:
            yield change

    def next(self, timeout: float | None = None) -> ShardChange | None:
        """The next change of the merged answers; none if none came for so many seconds."""
        until = None if timeout is None else time.monotonic() + timeout
        while True:
            for server, live in self._there():
                while (change := live.next(0)) is not None:
                    merged = self._merge(server, change.seq, change.came, change.went, change.restarted)
                    if merged.came or merged.went or merged.restarted:
                        return merged
            left = AGAIN if until is None else min(AGAIN, until - time.monotonic())
            if left < 0:
                return None
            self._wait(left)

    def _there(self) -> list[tuple[int, Live]]:
        """The servers that may have something new; one that was lost now and then."""
        tries = time.monotonic() >= self._again
        if tries:
            self._again = time.monotonic() + AGAIN
        return [(at, live) for at, live in enumerate(self._lives) if tries or live.fileno() >= 0]

    def sync(self) -> None:
        """Takes all that each server has done up to now."""
        for server, group in enumerate(self._groups):
            for _, change in group.sync():
                self._merge(server, change.seq, change.came, change.went, change.restarted)

    def _wait(self, seconds: float) -> None:
        with DefaultSelector() as selector:
            files: set[Any] = {group.fileno() for group in self._groups}
            for file in files - {-1}:
                selector.register(file, EVENT_READ)
            selector.select(seconds)

    def _merge(
        self, server: int, seq: int, came: frozenset[Answer], went: frozenset[Answer], restarted: bool
    ) -> ShardChange:
        return ShardChange(server, seq, *self._merged.take(came, went), restarted)
