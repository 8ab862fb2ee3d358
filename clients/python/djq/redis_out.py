"""Writes the answers of queries to Redis as they change, for more readers than a server has sessions.

    djq-redis HOST:PORT --queries q,p
    djq-redis HOST:PORT --queries 'board(machine,name,job)' --by machine
    djq-redis HOST:PORT --queries q --commit-on position --redis redis://10.0.0.5/0
    python3 -m djq.redis_out HOST:PORT --queries q,p

How they lie there, and the rule of a reader, is in `djq.redis_feed`. Each entry is written by one script, and only if
the feed is at the entry that this program wrote or read last. So of several programs with the same words one writes,
and another goes on if that one stops. After a loss on either side the difference is written between the answers of
the server and the set in Redis. The server is asked after Redis was, so what is written is never older than what was
there.
"""

from __future__ import annotations

import argparse
import importlib
import logging
import os
import re
import sys
import time
from collections.abc import Iterable, Iterator, Sequence
from dataclasses import dataclass, field
from itertools import groupby
from typing import Any

from .errors import Error, shown
from .kept import Moment, _together
from .live import Live, Lives, Waits
from .protocol import Answer, Change, checked
from .redis_feed import Names, order_of, read_answer, spell_answer, text

try:
    redis: Any = importlib.import_module("redis")  # without types, since it has them from version 5 on alone
except ModuleNotFoundError as missing:
    if missing.name != "redis":
        raise
    raise SystemExit("djq-redis needs redis, as by `apt install python3-redis`") from missing

REDIS = "redis://127.0.0.1:6379/0"
MAXLEN = 10_000  # entries of a stream
TURN = 0.25  # seconds after which it is looked at Redis again if no change came
MOST_CHANGES = 500  # that are written by one script
PATIENCE = 2.0  # seconds in which another writer has to write what this one would
FORGET = 3600  # seconds that the feed of a key outlives its last answer

# KEYS: of each feed that is written its stream, set and hash; those of the query first, and again for each delta.
# ARGV: what the query's hash has to hold, the most entries, the seconds that a key's feed outlives its last answer, and
# the column of --by. Then of each delta the number of feeds, seq, lsn, and for each feed how many answers come and how
# many go, each with its lines.
SCRIPT = """
local maxlen, forget, by = ARGV[4], ARGV[5], ARGV[6]
local place, from = 6, 0

local function argument()
    place = place + 1
    return ARGV[place]
end

local function change(command, set, lines, count)
    local some, begin = {}, 1
    for at = 1, count do
        local stop = string.find(lines, '\\n', begin, true) or #lines + 1
        some[#some + 1] = string.sub(lines, begin, stop - 1)
        begin = stop + 1
        if #some == 1000 or at == count then
            redis.call(command, set, unpack(some))
            some = {}
        end
    end
end

local function write(stream, set, at, seq, lsn)
    local came, plus, went, minus = tonumber(argument()), argument(), tonumber(argument()), argument()
    if came + went == 0 then
        redis.call('HSET', at, 'seq', seq, 'lsn', lsn)
        return
    end
    local entry = {seq = seq, lsn = lsn, prev = redis.call('HGET', at, 'id') or ''}
    if came > 0 then entry['+'] = plus end
    if went > 0 then entry['-'] = minus end
    local fields = {}
    for name, value in pairs(entry) do
        fields[#fields + 1] = name
        fields[#fields + 1] = value
    end
    entry.id = redis.call('XADD', stream, 'MAXLEN', '=', maxlen, '*', unpack(fields))
    change('SREM', set, minus, went)
    change('SADD', set, plus, came)
    redis.call('HSET', at, 'id', entry.id, 'seq', seq, 'lsn', lsn)
    redis.call('PUBLISH', stream, cjson.encode(entry))
end

local function held()
    local found, size = redis.call('HMGET', KEYS[3], 'id', 'by'), redis.call('SCARD', KEYS[2])
    return (found[1] or '') == ARGV[1] and size == tonumber(ARGV[2]) and (found[2] or '') == ARGV[3]
end

if not held() then return false end
while place < #ARGV do
    local feeds, seq, lsn = tonumber(argument()), argument(), argument()
    for feed = 1, feeds do
        local stream, set, at = KEYS[from + 1], KEYS[from + 2], KEYS[from + 3]
        from = from + 3
        write(stream, set, at, seq, lsn)
        if feed > 1 and redis.call('EXISTS', set) == 0 then
            redis.call('EXPIRE', stream, forget)
            redis.call('EXPIRE', at, forget)
        elseif feed > 1 then
            redis.call('PERSIST', stream)
            redis.call('PERSIST', at)
        end
    end
end
redis.call('HSET', KEYS[3], 'by', by)
return {redis.call('HGET', KEYS[3], 'id') or '', redis.call('SCARD', KEYS[2])}
"""

log = logging.getLogger("djq")


@dataclass
class Delta:
    """What is to be written as one entry: the lines of answers that come and go, of all, and by key."""

    seq: int
    lsn: str
    came: list[str]
    went: list[str]
    keys: dict[str, tuple[list[str], list[str]]] = field(default_factory=dict)

    def arguments(self, names: Names) -> tuple[list[str], list[str]]:
        """The keys and the arguments of the script for it."""
        sides = [(names, (self.came, self.went)), *((names.by(key), lines) for key, lines in self.keys.items())]
        keys = [key for one, _ in sides for key in (one.stream, one.now, one.at)]
        arguments = [str(len(sides)), str(self.seq), self.lsn]
        for _, (came, went) in sides:
            arguments += [str(len(came)), "\n".join(came), str(len(went)), "\n".join(went)]
        return keys, arguments

    @property
    def is_empty(self) -> bool:
        """Whether it changes no answer."""
        return not (self.came or self.went)


@dataclass(frozen=True)
class Place:
    """Where a feed in Redis is: its last entry, how many answers its set has, and by which column it is kept."""

    id: str
    size: int
    by: str


class Feed:
    """What is known of one query's feed, and what is to be written to it."""

    def __init__(self, query: str, names: Names, column: int | None) -> None:
        self.query, self.names, self.column = query, names, column
        self.place: Place | None = None  # none if Redis has to be asked
        self.held: list[Delta] = []
        self.pending: list[Change] = []  # behind the last position
        self.seq = 0  # of the last delta, also of one that isn't to be written
        self.rival = ""  # the last entry of another writer, if there is one
        self.quiet_since = 0.0  # when it wrote last what this one would

    @property
    def by(self) -> str:
        """The column as the hash says it."""
        return "" if self.column is None else str(self.column + 1)

    def hold(self, seq: int, lsn: str, came: Iterable[Answer], went: Iterable[Answer]) -> None:
        """Something is to be written. A delta that changes nothing is replaced by the next one."""
        self.seq = seq
        delta = self.delta(seq, lsn, [*map(spell_answer, came)], [*map(spell_answer, went)])
        if self.held and self.held[-1].is_empty:
            del self.held[-1]
        self.held.append(delta)

    def delta(self, seq: int, lsn: str, came: list[str], went: list[str]) -> Delta:
        """A delta of these lines, with its keys."""
        delta = Delta(seq, lsn, came, went)
        if self.column is not None:
            delta.keys = self.by_key(came, went)
        return delta

    def by_key(self, came: Iterable[str], went: Iterable[str]) -> dict[str, tuple[list[str], list[str]]]:
        """The lines by the value of the column. Raises `Error` for an answer without it."""
        keys: dict[str, tuple[list[str], list[str]]] = {}
        for side, lines in enumerate((came, went)):
            for line in lines:
                answer = read_answer(line)
                if self.column is None or len(answer) <= self.column:
                    raise Error(f"{self.query} has {len(answer)} columns, and none with the number {self.by}")
                keys.setdefault(str(answer[self.column]), ([], []))[side].append(line)
        return keys

    def lose(self) -> None:
        """What Redis has isn't known any more."""
        self.place, self.rival = None, ""
        self.held.clear()

    def yield_to(self, id: str) -> None:
        """Another writer has written this entry."""
        self.lose()
        self.rival, self.quiet_since = id, time.monotonic()


class Source:
    """The live answers of the queries, and which of their changes are to be written together.

    Without a position each delta of the server is one. With a position those are that came up to a change by which its
    query has an answer that it hadn't.
    """

    def __init__(self, group: Lives, feeds: Sequence[Feed], position: str | None) -> None:
        self._group, self._feeds = group, {feed.query: feed for feed in feeds}
        self._lives: dict[str, Live] = {query: group.add(query) for query in self._feeds}
        self._position = None if position is None else group.add(position)

    def wait(self, seconds: float) -> None:
        """Takes the changes that have come, and waits for one so long if there is none."""
        for _ in range(MOST_CHANGES):
            if self._position is not None:
                moment = self._group.next_moment(seconds)
                if moment is None:
                    return
                self._take(moment)
            else:
                told = self._group.next(seconds)
                if told is None:
                    return
                self._take_alone(*told)
            seconds = 0

    def sync(self) -> bool:
        """Takes all changes before this moment. False if the answers aren't those of a position then."""
        told = self._group.sync()
        if self._position is None:
            for live, change in told:
                self._take_alone(live, change)
            return True
        for moment in _moments(told, self._group.seq):
            self._take(moment)
        return bool(self._position.answers)

    def difference(self, feed: Feed, there: set[str]) -> Delta:
        """What has to be written so that these lines are the present answers. Nothing else is held then."""
        present = set(map(spell_answer, self._lives[feed.query].answers))
        feed.held.clear()
        feed.pending.clear()
        feed.seq = self._group.seq
        return feed.delta(feed.seq, self._lsn(), sorted(present - there), sorted(there - present))

    def whole(self, feed: Feed) -> dict[str, tuple[list[str], list[str]]]:
        """All answers by key."""
        return feed.by_key(map(spell_answer, self._lives[feed.query].answers), ())

    def _lsn(self) -> str:
        return "" if self._position is None else spell_answer(max(self._position.answers))

    def _take_alone(self, live: Live, change: Change) -> None:
        _tell(live, change)
        if (feed := self._feeds.get(live.query)) is not None:
            feed.hold(change.seq, "", change.came, change.went)

    def _take(self, moment: Moment) -> None:
        for query, change in moment.changes.items():
            if query in self._feeds:
                _tell(self._lives[query], change)
                self._feeds[query].pending.append(change)
        ends = self._ends(moment)
        if not ends:
            return
        for feed in self._feeds.values():
            whole = _together(feed.pending) if feed.pending else Change(moment.seq, frozenset(), frozenset())
            feed.pending.clear()
            feed.hold(moment.seq, spell_answer(max(ends)), whole.came, whole.went)

    def _ends(self, moment: Moment) -> Iterable[Answer]:
        """The answers of the position whose change is whole by this moment; none if it isn't."""
        if self._position is None:
            return ()
        if any(change.restarted for change in moment.changes.values()):
            return self._position.answers
        told = moment.changes.get(self._position.query)
        return () if told is None else told.came


def _tell(live: Live, change: Change) -> None:
    """Says where the server was found again."""
    if change.restarted:
        log.info("%s was listed anew: %d came and %d went", live.query, len(change.came), len(change.went))


def _moments(told: list[tuple[Live, Change]], seq: int) -> Iterator[Moment]:
    """The changes by the moments that they are of. After a new start all are of one."""
    if any(change.restarted for _, change in told):
        by_query: dict[str, list[Change]] = {}
        for live, change in told:
            by_query.setdefault(live.query, []).append(change)
        yield Moment(seq, {query: _together(changes) for query, changes in by_query.items()})
        return
    for number, same in groupby(told, key=lambda pair: pair[1].seq):
        yield Moment(number, {live.query: change for live, change in same})


class Once(logging.Filter):
    """Lets a message through that isn't the one before again."""

    def __init__(self) -> None:
        super().__init__()
        self._last = ""

    def filter(self, record: logging.LogRecord) -> bool:
        """Whether it is another message."""
        last, self._last = self._last, record.getMessage()
        return last != self._last


class Writer:
    """Brings what a source has to feeds in Redis."""

    def __init__(self, client: Any, source: Source, feeds: Sequence[Feed], maxlen: int, forget: int = FORGET) -> None:
        self._redis, self._source, self._feeds = client, source, feeds
        self._settings = [str(maxlen), str(forget)]
        self._sha = ""
        self._waits = Waits("writes to Redis")
        self._looked = 0.0

    def turn(self) -> None:
        """Writes what is held, and waits for more. Whatever Redis refuses is tried again, with growing pauses."""
        try:
            if not self._sha:
                self._sha = text(self._redis.script_load(SCRIPT))
            self._look()
            for feed in self._feeds:
                if feed.place is None and not feed.rival:
                    self._begin(feed)
            self._write([feed for feed in self._feeds if feed.place is not None and feed.held])
            self._waits = Waits("writes to Redis")
        except redis.RedisError as error:
            self._sha = ""
            for feed in self._feeds:
                feed.lose()
            self._rest(self._waits.next(Error(f"{type(error).__name__}: {shown(str(error))}")))
            return
        self._take(0 if any(feed.held for feed in self._feeds if feed.place) else TURN)

    def _rest(self, seconds: float) -> None:
        """Writes nothing for so long."""
        until = time.monotonic() + seconds
        while (left := until - time.monotonic()) > 0:
            self._take(left)

    def _take(self, seconds: float) -> None:
        """Takes what has come. What isn't to be written is a part of the difference later."""
        self._source.wait(seconds)
        for feed in self._feeds:
            if feed.place is None:
                feed.held.clear()

    def _look(self) -> None:
        """Finds out, a few times a second, whether Redis has lost entries or another writer has stopped."""
        now = time.monotonic()
        if now - self._looked < TURN:
            return
        self._looked = now
        with self._redis.pipeline(transaction=False) as all_feeds:
            for feed in self._feeds:
                all_feeds.hmget(feed.names.at, "id", "seq")
            told = all_feeds.execute()
        for feed, found in zip(self._feeds, told):
            id, seq = (text(value or "") for value in found)
            if feed.place is not None and id != feed.place.id:
                self._is_at(feed, id)
            elif feed.rival and (id != feed.rival or seq == str(feed.seq)):
                feed.rival, feed.quiet_since = id, now
            elif feed.rival and now - feed.quiet_since > PATIENCE:
                feed.lose()

    def _is_at(self, feed: Feed, id: str) -> None:
        """The feed isn't at the entry that was written or read last. An earlier one tells of a loss, a later one of
        another writer."""
        known = feed.place.id if feed.place is not None else ""
        if order_of(id) > order_of(known):
            feed.yield_to(id)
            log.warning("%s is written by another: this one waits", feed.names.stream)
        else:
            feed.lose()

    def _begin(self, feed: Feed) -> None:
        """Writes the difference between the server's answers and those in Redis."""
        id, by = (text(value or "") for value in self._redis.hmget(feed.names.at, "id", "by"))
        if not self._source.sync():
            return
        there = {text(member) for member in self._redis.sscan_iter(feed.names.now, count=10_000)}
        delta = self._source.difference(feed, there)
        if by != feed.by:
            self._forget_keys(feed)
            delta.keys = self._source.whole(feed) if feed.column is not None else {}
        feed.place = Place(id, len(there), by)
        feed.held.append(delta)
        self._write([feed])
        if feed.place is not None:
            came, went = len(delta.came), len(delta.went)
            log.info("%s has %d answers: %d came and %d went", feed.names.stream, feed.place.size, came, went)

    def _forget_keys(self, feed: Feed) -> None:
        """Drops the feeds by key, which are of another column."""
        found = list(self._redis.scan_iter(match=feed.names.by("*").stream, count=10_000))
        for at in range(0, len(found), 1000):
            self._redis.unlink(*found[at : at + 1000])

    def _write(self, feeds: Sequence[Feed]) -> None:
        """Writes what is held of these feeds, each by one script, all sent together."""
        if not feeds:
            return
        with self._redis.pipeline(transaction=False) as all_feeds:
            for feed in feeds:
                self._say(all_feeds, feed)
            told = all_feeds.execute()
        for feed, found in zip(feeds, told):
            del feed.held[:MOST_CHANGES]
            if found is None:
                self._is_at(feed, text(self._redis.hget(feed.names.at, "id") or ""))
            else:
                feed.place = Place(text(found[0]), int(found[1]), feed.by)

    def _say(self, said: Any, feed: Feed) -> None:
        place = feed.place or Place("", 0, "")
        keys: list[str] = []
        arguments = [place.id, str(place.size), place.by, *self._settings, feed.by]
        for delta in feed.held[:MOST_CHANGES]:
            further = delta.arguments(feed.names)
            keys += further[0]
            arguments += further[1]
        said.evalsha(self._sha, len(keys), *keys, *arguments)


# The command


def main() -> None:
    """Writes until it is ended from outside."""
    words = _words()
    given = words.parse_args()
    logging.basicConfig(level=logging.INFO, format="djq-redis: %(message)s", stream=sys.stderr)
    log.addFilter(Once())
    host, port = _address(words, given.server)
    feeds = _feeds(words, given)
    if given.maxlen < 1:
        words.error(f"not a number of entries: {given.maxlen}")
    client = _client(words, given.redis or os.environ.get("REDIS_URL") or REDIS)
    try:
        with Lives(host, port, reconnect=True, ping=10) as group:
            writer = Writer(client, Source(group, feeds, given.commit_on), feeds, given.maxlen)
            while True:
                writer.turn()
    except KeyboardInterrupt:
        pass
    except Error as error:
        sys.exit(f"djq-redis: {error}")


def _client(words: argparse.ArgumentParser, url: str) -> Any:
    """A client of Redis that sends nothing twice by itself: what had no reply may have been done, and is looked for."""
    retry, backoff = importlib.import_module("redis.retry"), importlib.import_module("redis.backoff")
    try:
        never = retry.Retry(backoff.NoBackoff(), 0)
        return redis.Redis.from_url(url, socket_timeout=60, socket_keepalive=True, retry=never)
    except ValueError as error:
        words.error(f"--redis: {error}")


def _words() -> argparse.ArgumentParser:
    what = "Writes the answers of queries to Redis as they change."
    words = argparse.ArgumentParser(prog="djq-redis", description=what)
    add = words.add_argument
    add("server", metavar="HOST:PORT", help="of the djq server")
    add("--queries", metavar="q,p", required=True,
        help="the queries, or their heads, as 'board(machine,job),alarms(machine)'")  # fmt: skip
    add("--redis", metavar="URL", help=f"the Redis that is written to; else that of the variable REDIS_URL, else {REDIS}")
    add("--by", metavar="COLUMN",
        help="also a feed for each value of this column: its name in the heads, or its number from 1 on")  # fmt: skip
    add("--maxlen", metavar="N", type=int, default=MAXLEN, help="entries that a stream has at most; else %(default)s")
    add("--commit-on", metavar="POSITION", help="a query: entries are what came up to a new answer of it")
    add("--prefix", metavar="WORD", default="djq", help="what the keys in Redis begin with; else %(default)s")
    return words


def _address(words: argparse.ArgumentParser, said: str) -> tuple[str, int]:
    host, _, port = said.rpartition(":")
    if not (host and port.isascii() and port.isdigit() and int(port) < 65536):
        words.error(f"not HOST:PORT: {said}")
    return host.removeprefix("[").removesuffix("]"), int(port)


_HEAD = re.compile(r"\s*([a-z][a-z0-9_]*)\s*(?:\(([a-z0-9_,\s]*)\))?\s*")


def _feeds(words: argparse.ArgumentParser, given: argparse.Namespace) -> list[Feed]:
    """A feed of each query, which is known by its name or by its head."""
    feeds: dict[str, Feed] = {}
    if re.fullmatch(r"[A-Za-z0-9_.:-]+", given.prefix) is None:
        words.error(f"--prefix: letters, digits and _ . : - alone: {given.prefix!r}")
    for said in re.split(r",(?![^(]*\))", given.queries):
        found = _HEAD.fullmatch(said)
        if found is None:
            words.error(f"--queries: not a name or a head: {said.strip()!r}")
        columns = [name.strip() for name in (found[2] or "").split(",") if name.strip()]
        try:
            query = checked(found[1])
            checked(given.commit_on if given.commit_on is not None else query)
        except Error as error:
            words.error(str(error))
        if query in feeds or query == given.commit_on:
            words.error(f"--queries: {query} is named twice")
        feeds[query] = Feed(query, Names(f"{given.prefix}:{query}"), _column(words, given.by, query, columns))
    return list(feeds.values())


def _column(words: argparse.ArgumentParser, by: str | None, query: str, columns: list[str]) -> int | None:
    """Which column of a query --by names."""
    if by is None:
        return None
    if by in columns:
        return columns.index(by)
    if by.isascii() and by.isdigit() and int(by) > 0 and (not columns or int(by) <= len(columns)):
        return int(by) - 1
    words.error(f"--by: {query} has no column {by}" + ("" if columns else ": name its columns, as '--queries q(x,y)'"))


if __name__ == "__main__":
    main()
