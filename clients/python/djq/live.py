"""Answers that are kept up to date: a listing and the changes behind it, without a gap."""

from __future__ import annotations

import contextlib
import logging
import time
from typing import Callable, Iterator

from .connection import Connection
from .errors import Disconnected, Ended, Error, NoQuery, OutOfMemory, Overtaken, of_live, reason
from .kept import Kept, Moment, first_moment, has_come, take_first, take_moment, take_until
from .listing import FIRST_PAGES, MOST_PAGES, WITHIN, list_whole
from .protocol import Change

FIRST_PAUSE = 0.05  # seconds before a start that failed is tried again; each further one waits twice as long
LONGEST_PAUSE = 5.0

# what may be over after a while: the server isn't there, or isn't yet what it was
PASSING = (Disconnected, Ended, NoQuery, OutOfMemory, Overtaken)

log = logging.getLogger("djq")


class Waits:
    """The pauses between starts that fail, which grow. What each waits for is logged as a warning, once each reason."""

    def __init__(self, what: str) -> None:
        self._what, self._pause = what, FIRST_PAUSE
        self._told: set[str] = set()

    def next(self, error: Error | None) -> float:
        """The seconds to wait for after this."""
        pause, self._pause = self._pause, min(2 * self._pause, LONGEST_PAUSE)
        if error is not None and reason(error) not in self._told:
            self._told.add(reason(error))
            log.warning("%s wait: %s", self._what, reason(error))
        return pause


class Live(Kept):
    """The answers of one query, as `answers`, and the number of the last change that is in them, as `seq`.

    They change only as changes are taken: by `changes` and `next` here, or for several queries by those of `Lives`.
    Whatever interrupts these, each change that was told is in `answers` whole once the next one is taken.
    """

    def __init__(self, group: Lives, query: str) -> None:
        super().__init__(query)
        self._group = group
        self._alone = False  # whether the group was made for this one

    def __enter__(self) -> Live:
        return self

    def __exit__(self, *_: object) -> None:
        self.close()

    def close(self) -> None:
        """Keeps the answers no more."""
        if self._alone:
            self._group.close()
        else:
            self._group.remove(self)

    def fileno(self) -> int:
        """See `Lives.fileno`."""
        return self._group.fileno()

    def changes(self, timeout: float | None = None) -> Iterator[Change]:
        """Each change as it comes, once it is in `answers`; with a timeout, until none came for so many seconds."""
        while (change := self.next(timeout)) is not None:
            yield change

    def next(self, timeout: float | None = None) -> Change | None:
        """The next change, once it is in `answers`; none where none came for so many seconds."""
        told = self._group._next(timeout, [self])
        return None if told is None else told[1]


class Lives:
    """The answers of several queries, kept up to date over one connection.

    Each query is watched first, then listed; a listing that came to its end lists the answers of one moment, and each
    change that comes later is applied in its place. Where the server ended the session or the connection was lost, it
    starts anew, and what was missed comes as one change of each query, with `restarted`.

    - `within`: the seconds that a listing may take, before it raises `Overtaken`.
    - `reconnect`: where a start fails, the first one too, since the server isn't there or doesn't know the query yet,
      it is tried again, with growing pauses, and what it waits for is logged. Without it what failed is raised, in one
      sentence that names the queries, and the next call tries again.
    - `ping`: where nothing came for so many seconds the server is asked for a reply, so that one that is stopped is
      found out. `timeout` is how long it may take, else as many seconds again.
    """

    def __init__(
        self,
        host: str,
        port: int,
        timeout: float | None = None,
        within: float = WITHIN,
        reconnect: bool = False,
        ping: float | None = None,
    ) -> None:
        self.seq = 0  # up to which change all sets are told, by the last `sync` or `next_moment`
        self._open: Callable[[], Connection] = lambda: Connection(host, port, timeout if timeout is not None else ping)
        self._within, self._reconnect, self._ping = within, reconnect, ping
        self._lives: list[Live] = []
        self._most = MOST_PAGES  # that a listing asks for in one turn
        self._closed = False
        self._heard = time.monotonic()  # when bytes came last
        self._made: Connection | None = None
        self._whole = False  # whether all queries are watched and listed over the connection
        self._lost: Error | None = None  # what the last session was lost by, until another one is whole

    def __enter__(self) -> Lives:
        self._connect()
        return self

    def __exit__(self, *_: object) -> None:
        self.close()

    def __iter__(self) -> Iterator[Live]:
        return iter(list(self._lives))

    def close(self) -> None:
        """Closes the connection."""
        self._closed, self._lost = True, None
        self._drop()

    def fileno(self) -> int:
        """The descriptor to wait for; after a change with `restarted` it is another, and -1 while there is none."""
        return -1 if self._made is None else self._made.fileno()

    def add(self, query: str) -> Live:
        """One more query; where it is kept already, that."""
        for live in self._lives:
            if live.query == query:
                return live
        live = Live(self, query)
        with self._naming(query):
            self._begin(live)
        live._restarted()
        self._lives.append(live)
        return live

    def only(self, query: str) -> Live:
        """The one query of a group that is closed with it, and where it can't be kept."""
        try:
            live = self.add(query)
        except BaseException:
            self.close()
            raise
        live._alone = True
        return live

    def remove(self, live: Live) -> None:
        """One query less."""
        self._lives.remove(live)
        self._unwatch(live.query)

    def changes(self, timeout: float | None = None) -> Iterator[tuple[Live, Change]]:
        """Each change of any query as it comes, once it is in the `answers`; with a timeout, as `Live.changes`."""
        while (told := self.next(timeout)) is not None:
            yield told

    def next(self, timeout: float | None = None) -> tuple[Live, Change] | None:
        """The next change of any query; none where none came for so many seconds."""
        return self._next(timeout, self._lives)

    def ready(self) -> list[tuple[Live, Change]]:
        """The changes that have come, without waiting: all that are behind a descriptor that can be read."""
        return list(iter(lambda: self.next(0), None))

    def moments(self, timeout: float | None = None) -> Iterator[Moment]:
        """As `next_moment`, one after another; with a timeout, until none came for so many seconds."""
        while (moment := self.next_moment(timeout)) is not None:
            yield moment

    def next_moment(self, timeout: float | None = None) -> Moment | None:
        """All that the next change of rows did to the queries, together: behind it all sets are those of one moment,
        whose number is `seq` then. None where none came for so many seconds. Where nothing has come behind a change yet
        it costs a round trip to know that all of it has."""
        until = None if timeout is None else time.monotonic() + timeout
        with self._naming():
            while self._come(timeout, self._lives):
                protocol = self._connection._protocol
                seq, whole = first_moment(self._lives, protocol)
                fence = seq if whole else self._fence(until)
                if fence is not None:
                    self.seq = fence if seq is None else seq
                    return take_moment(self._lives, protocol, self.seq)
                timeout = None if until is None else until - time.monotonic()
        return None

    def sync(self) -> list[tuple[Live, Change]]:
        """Waits until all sets are told up to one change, which is `seq` then, and gives the changes till there."""
        if not self._lives:
            return []
        with self._naming():
            while (seq := self._fence(None)) is None:
                pass
        self.seq = seq
        return take_until(self._lives, self._connection._protocol, seq)

    # Inside

    @property
    def _connection(self) -> Connection:
        if self._made is None:
            raise Disconnected("not connected yet")
        return self._made

    def _connect(self) -> None:
        """Connects, where no query was added, which does it too."""
        if self._made is None:
            self._restart(None, None, Waits("live answers"))

    @contextlib.contextmanager
    def _naming(self, *further: str) -> Iterator[None]:
        """Names the queries in what ends them."""
        try:
            yield
        except (Ended, Disconnected) as error:
            queries = [*(live.query for live in self._lives), *further]
            raise of_live(error, queries, self._lost) from error.__cause__

    def _next(self, timeout: float | None, lives: list[Live]) -> tuple[Live, Change] | None:
        with self._naming():
            if not self._come(timeout, lives):
                return None
            return take_first(lives, self._connection._protocol)

    def _come(self, timeout: float | None, lives: list[Live]) -> bool:
        """Waits until there is a change to take; false where none came in so many seconds."""
        until = None if timeout is None else time.monotonic() + timeout
        left = timeout
        while not self._whole or not has_come(lives, self._connection._protocol):
            if left is not None and left < 0:
                return False
            try:
                self._check()
                self._wait(left)
            except (Ended, Disconnected) as error:
                self._restart(until, error)
            left = None if until is None else until - time.monotonic()
        return True

    def _fence(self, until: float | None) -> int | None:
        """The number of a change up to which all have come; none where the session was lost meanwhile."""
        try:
            self._check()
            return self._connection.watch(self._lives[0].query)
        except (Ended, Disconnected) as error:
            self._restart(until, error)
            return None

    def _wait(self, left: float | None) -> None:
        """Waits for bytes at most so long, and asks for a reply where none came for long."""
        connection = self._connection
        patience = None if self._ping is None else self._heard + self._ping - time.monotonic()
        if patience is None or (left is not None and left < patience):
            came = connection._move(left)
        else:
            came = connection._move(max(0, patience))
            if not came:
                connection.ping()
                came = True
        if came:
            self._heard = time.monotonic()

    def _check(self) -> None:
        """Raises where there is no connection, or one that isn't begun whole."""
        if self._closed:
            raise Disconnected("they were closed")
        if not self._whole:
            raise self._lost or Disconnected("not connected yet")
        self._connection._check()

    def _begin(self, live: Live) -> None:
        """Watches and lists a further query, and where the session is ended as too slow a reader, again with less."""
        until, waits = time.monotonic() + self._within, Waits(f"the live answers of {live.query}")
        while True:
            try:
                if not self._whole or self._connection._protocol.ended is not None:
                    self._restart(None, self._lost, waits)
                self._start(live)
                return
            except PASSING as error:
                slow = isinstance(error, Ended) and error.cause == "slow" and time.monotonic() <= until
                if not slow and not self._reconnect:
                    self._unwatch(live.query)
                    raise
                self._pause(0 if slow else waits.next(error))
            except Error:
                self._unwatch(live.query)
                raise

    def _start(self, live: Live) -> None:
        """Watches and lists a query."""
        connection = self._connection
        try:
            listing = list_whole(connection, live.query, self._within, self._most, watch=True)
        except Ended as error:
            if error.cause == "slow":
                self._most = max(FIRST_PAGES, self._most // 2)
            raise
        live._listed(listing, connection._protocol)

    def _restart(self, until: float | None, lost: Error | None, waits: Waits | None = None) -> None:
        """Starts anew. Where that fails and may come right, it is tried again as long as there is time, or raised."""
        if self._closed:
            raise Disconnected("they were closed")
        self._lost = self._lost or lost
        waits = waits or Waits(f"the live answers of {', '.join(live.query for live in self._lives)}")
        while (error := self._try()) is not None:
            pause = waits.next(error)
            left = pause if until is None else until - time.monotonic()
            if left <= 0:
                return
            time.sleep(min(pause, left))

    def _try(self) -> Error | None:
        """One start anew of all queries, which is whole, or isn't: then what it failed by, where that may be over after
        a while and is waited for."""
        self._whole = False
        self._drop()
        try:
            self._made = self._open()
            for live in self._lives:
                self._start(live)
            self._heard = time.monotonic()
            self._whole, self._lost = True, None
            return None
        except PASSING as error:
            if not self._reconnect and not self._with_less(error):
                raise
            return error
        finally:
            if not self._whole:
                self._drop()

    def _with_less(self, error: Error) -> bool:
        """Whether the next start asks for less at once, as this one was too slow a reader."""
        return isinstance(error, Ended) and error.cause == "slow" and self._most > FIRST_PAGES

    def _pause(self, seconds: float) -> None:
        """Waits, and reads meanwhile what comes for other sets."""
        until = time.monotonic() + seconds
        while (left := until - time.monotonic()) > 0:
            if self._whole and self._connection._protocol.ended is None:
                self._connection._move(left)
            else:
                time.sleep(left)

    def _drop(self) -> None:
        if self._made is not None:
            self._made.close()

    def _unwatch(self, query: str) -> None:
        if self._whole and self._connection._protocol.ended is None and query in self._connection._watched:
            self._connection.unwatch(query)
