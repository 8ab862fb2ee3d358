"""How the answers of a query lie in Redis, and a reader that follows them there.

    import redis
    from djq.redis_feed import Reader

    reader = Reader(redis.Redis(), "djq:board")
    print(reader.answers)                           # all answers, of one moment
    for change in reader.changes():                 # blocks until an entry is written
        print(change.seq, change.came, change.went)

A feed `djq:q` is a stream and a channel `djq:q`, a set `djq:q:now` and a hash `djq:q:at`. Each change of the answers
is one entry of the stream, and is published as a JSON object of the same fields and its id. `djq-redis` writes all of
them by one script, so they are of one moment whenever Redis is asked for several of them at once.

An answer is said as on a line of the server: `7 "bolt"`. The fields of an entry:

- `+` and `-`: the answers that came and those that went, a line each; a field that would have none is left out
- `seq`: the number of the change of rows
- `lsn`: the position of the rows' source, if the writer was given one, else empty
- `prev`: the id of the entry before, empty if there was none

The rule of a reader: take the id of the hash and the set at one moment (MULTI), then the entries behind that id
(XREAD). If an entry's `prev` isn't the id that was taken last, then entries were lost, and the set is read anew.
"""

from __future__ import annotations

import json
import time
from collections.abc import Iterable, Iterator, Mapping
from dataclasses import dataclass
from typing import Any, Union

from .protocol import Answer, Change, read_values, spell

Text = Union[str, bytes]

FEW = 10_000  # answers that are read by one command; more by several, so that Redis serves others between
PAGE = 1000  # entries, or members of a set, that are asked for at a time
IDLE = 10.0  # seconds without an entry, after which it is asked whether the stream goes on from the last one


def spell_answer(answer: Answer) -> str:
    """An answer as one line."""
    return " ".join(map(spell, answer))


def read_answer(line: str) -> Answer:
    """The answer that a line says. Raises `djq.Error`."""
    return read_values(" " + line if line else "")


@dataclass(frozen=True)
class Names:
    """The keys of a feed."""

    stream: str

    @property
    def now(self) -> str:
        """The set of the present answers."""
        return f"{self.stream}:now"

    @property
    def at(self) -> str:
        """The hash that says up to which entry they are."""
        return f"{self.stream}:at"

    def by(self, value: object) -> Names:
        """The feed of the answers that have this value in the column of `--by`."""
        return Names(f"{self.stream}:by:{value}")


@dataclass(frozen=True)
class Entry:
    """One entry of a feed."""

    id: str
    prev: str
    seq: int
    lsn: str
    came: frozenset[Answer]
    went: frozenset[Answer]

    @classmethod
    def of_fields(cls, id: Text, fields: Mapping[Any, Any]) -> Entry:
        """An entry of the stream."""
        said = {text(name): text(value) for name, value in fields.items()}
        came, went = _answers(said.get("+")), _answers(said.get("-"))
        return cls(text(id), said.get("prev", ""), int(said.get("seq", 0)), said.get("lsn", ""), came, went)

    @classmethod
    def of_message(cls, data: Text) -> Entry:
        """An entry as it is published."""
        fields = json.loads(data)
        return cls.of_fields(fields.pop("id"), fields)


def text(value: Text) -> str:
    """What Redis says, whether or not its client decodes it."""
    return value if isinstance(value, str) else value.decode()


def order_of(id: str) -> tuple[int, int]:
    """What ids are ordered by; that of no entry is before all others."""
    first, _, second = id.partition("-")
    return int(first or -1), int(second or 0)


def _answers(lines: str | None) -> frozenset[Answer]:
    return frozenset() if lines is None else frozenset(map(read_answer, lines.split("\n")))


class Reader:
    """The answers of a feed, as `answers`; up to which entry, as `id`, `seq` and `lsn`.

    `redis` is a client of the package redis. What it raises is passed on, and the next call goes on from the last
    entry. After entries were missed the difference is one change with `restarted`.
    """

    def __init__(self, redis: Any, feed: str) -> None:
        self.answers: set[Answer] = set()
        self.id, self.seq, self.lsn = "", 0, ""
        self._redis, self._names = redis, Names(feed)
        settings = getattr(getattr(redis, "connection_pool", None), "connection_kwargs", {})
        self._longest = min(IDLE, (settings.get("socket_timeout") or 2 * IDLE) / 2)
        self._came: list[Entry] = []
        self.restart()

    def changes(self, timeout: float | None = None) -> Iterator[Change]:
        """Each change as it comes, once it is in `answers`; with a timeout, until none came for so many seconds."""
        while (change := self.next(timeout)) is not None:
            yield change

    def next(self, timeout: float | None = None) -> Change | None:
        """The next change, once it is in `answers`; none if none came for so many seconds."""
        until = None if timeout is None else time.monotonic() + timeout
        while True:
            while self._came:
                change = self.take(self._came.pop(0))
                if change is not None:
                    return change
            left = self._longest if until is None else min(self._longest, until - time.monotonic())
            if left < 0:
                return None
            if not self._wait(left) and self._is_elsewhere():
                return self.restart()

    def take(self, entry: Entry) -> Change | None:
        """Takes an entry that was published, or read by other means. None if it was taken already."""
        if entry.id != self.id and entry.prev == self.id:
            self.answers -= entry.went
            self.answers |= entry.came
            self.id, self.seq, self.lsn = entry.id, entry.seq, entry.lsn
            return Change(entry.seq, entry.came, entry.went)
        if order_of(entry.id) <= order_of(self.id):
            return None
        return self.restart()

    def restart(self) -> Change:
        """Reads all answers anew, and gives the difference as one change."""
        self._came = []
        found = None
        if self._redis.scard(self._names.now) > FEW:
            found = self._scan() or self._scan()
        answers, (self.id, self.seq, self.lsn) = found or self._read()
        came, went = frozenset(answers - self.answers), frozenset(self.answers - answers)
        self.answers = answers
        return Change(self.seq, came, went, restarted=True)

    # Inside

    def _wait(self, seconds: float) -> bool:
        """Waits for entries behind the last one."""
        block = max(1, int(1000 * seconds))
        told = self._redis.xread({self._names.stream: self.id or "0-0"}, count=PAGE, block=block)
        for _, entries in told or []:
            self._came = [Entry.of_fields(*entry) for entry in entries]
        return bool(self._came)

    def _is_elsewhere(self) -> bool:
        """Whether the last entry isn't the one that was taken last, as after Redis has lost some. If it has lost the feed,
        the answers are as they were until it is written again."""
        return text(self._redis.hget(self._names.at, "id") or "") not in ("", self.id) and not self._wait(0.001)

    def _read(self) -> tuple[set[Answer], tuple[str, int, str]]:
        """All answers of one moment, by one command."""
        with self._redis.pipeline(transaction=True) as both:
            self._ask_at(both)
            both.smembers(self._names.now)
            at, members = both.execute()
        return {read_answer(text(member)) for member in members}, _at(at)

    def _scan(self) -> tuple[set[Answer], tuple[str, int, str]] | None:
        """The same by several commands (SSCAN): what changed between them is in the entries behind the id. None if these
        aren't there any more."""
        at = _at(self._ask_at(self._redis))
        members = self._redis.sscan_iter(self._names.now, count=PAGE)
        answers = {read_answer(text(member)) for member in members}
        with self._redis.pipeline(transaction=True) as both:
            self._ask_at(both)
            both.xrange(self._names.stream, min=f"({at[0] or '0-0'}")
            last, entries = both.execute()
        for entry in (Entry.of_fields(*fields) for fields in entries):
            if entry.prev != at[0]:
                return None
            answers = (answers - entry.went) | entry.came
            at = (entry.id, entry.seq, entry.lsn)
        return (answers, _at(last)) if at[0] == _at(last)[0] else None

    def _ask_at(self, asked: Any) -> Any:
        return asked.hmget(self._names.at, "id", "seq", "lsn")


def _at(values: Iterable[Text | None]) -> tuple[str, int, str]:
    id, seq, lsn = (text(value or "") for value in values)
    return id, int(seq or 0), lsn
