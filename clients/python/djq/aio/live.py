"""Answers that are kept up to date, for asyncio: a listing and the changes behind it, without a gap."""

from __future__ import annotations

import asyncio
import contextlib
import time
from typing import AsyncIterator, Callable, Iterator

from .. import protocol
from ..errors import Disconnected, Ended, Error, of_live
from ..kept import Kept, Moment, first_moment, has_come, take_first, take_moment, take_until
from ..listing import FIRST_PAGES, MOST_PAGES, WITHIN
from ..live import PASSING, Waits
from ..protocol import Change
from .connection import Connection, list_whole


class Live(Kept):
    """The answers of one query, as `answers`, and the number of the last change that is in them, as `seq`.

    They change only as changes are taken: by `changes` and `next` here, or for several queries by those of `Lives`.
    """

    def __init__(self, group: Lives, query: str) -> None:
        super().__init__(query)
        self._group = group

    async def __aenter__(self) -> Live:
        await self._group.__aenter__()
        return self

    async def __aexit__(self, *_: object) -> None:
        self.close()

    def close(self) -> None:
        """Keeps the answers no more; where the group was made for them, closes it."""
        if self._group._alone:
            self._group.close()
        else:
            self._group.remove(self)

    async def changes(self, timeout: float | None = None) -> AsyncIterator[Change]:
        """Each change as it comes, once it is in `answers`; with a timeout, until none came for so many seconds."""
        while (change := await self.next(timeout)) is not None:
            yield change

    async def next(self, timeout: float | None = None) -> Change | None:
        """The next change, once it is in `answers`; none where none came for so many seconds."""
        told = await self._group._next(timeout, [self])
        return None if told is None else told[1]


class Lives:
    """The answers of several queries, kept up to date over one connection: `async with server.lives("p", "q") as both`.

    It is as `djq.Lives`, and has its settings `within`, `reconnect` and `ping`. Several tasks may wait for changes of
    one group; each change is told to one of them.
    """

    def __init__(
        self,
        host: str,
        port: int,
        *queries: str,
        timeout: float | None = None,
        within: float = WITHIN,
        reconnect: bool = False,
        ping: float | None = None,
    ) -> None:
        self.seq = 0  # up to which change all sets are told, by the last `sync` or `next_moment`
        wait = timeout if timeout is not None else ping
        self._open: Callable[[], Connection] = lambda: Connection(host, port, wait)
        self._within, self._reconnect, self._ping = within, reconnect, ping
        self._lives: list[Live] = []
        self._first = [Live(self, query) for query in dict.fromkeys(queries)]  # that are added as it is begun
        self._alone = False  # whether it was made for one query
        self._most = MOST_PAGES  # that a listing asks for in one turn
        self._closed = False
        self._starting = asyncio.Lock()  # held as queries are watched and listed
        self._connection = self._open()
        self._whole = False  # whether all queries are watched and listed over the connection
        self._lost: Error | None = None  # what the last session was lost by, until another one is whole

    async def __aenter__(self) -> Lives:
        try:
            with self._naming(*(live.query for live in self._first)):
                await self._restart(None, None, Waits("live answers"))
            for live in self._first:
                await self._add(live)
        except BaseException:
            self.close()
            raise
        return self

    async def __aexit__(self, *_: object) -> None:
        self.close()

    def __iter__(self) -> Iterator[Live]:
        return iter(list(self._lives))

    def close(self) -> None:
        """Closes the connection."""
        self._closed, self._lost = True, None
        self._connection.close()

    async def add(self, query: str) -> Live:
        """One more query; where it is kept already, that."""
        for live in self._lives:
            if live.query == query:
                return live
        return await self._add(Live(self, query))

    def only(self, query: str) -> Live:
        """The one query of a group that is begun and closed with it."""
        self._first, self._alone = [Live(self, query)], True
        return self._first[0]

    def remove(self, live: Live) -> None:
        """One query less."""
        self._lives.remove(live)
        self._unwatch(live)

    async def changes(self, timeout: float | None = None) -> AsyncIterator[tuple[Live, Change]]:
        """Each change of any query as it comes, once it is in the `answers`; with a timeout, as `Live.changes`."""
        while (told := await self.next(timeout)) is not None:
            yield told

    async def next(self, timeout: float | None = None) -> tuple[Live, Change] | None:
        """The next change of any query; none where none came for so many seconds."""
        return await self._next(timeout, self._lives)

    async def ready(self) -> list[tuple[Live, Change]]:
        """The changes that have come, without waiting."""
        return [told async for told in self.changes(0)]

    async def moments(self, timeout: float | None = None) -> AsyncIterator[Moment]:
        """As `next_moment`, one after another; with a timeout, until none came for so many seconds."""
        while (moment := await self.next_moment(timeout)) is not None:
            yield moment

    async def next_moment(self, timeout: float | None = None) -> Moment | None:
        """All that the next change of rows did to the queries, together, as `djq.Lives.next_moment`."""
        until = None if timeout is None else time.monotonic() + timeout
        with self._naming():
            while await self._come(until, self._lives):
                protocol = self._connection._protocol
                seq, whole = first_moment(self._lives, protocol)
                fence = seq if whole else await self._fence(until)
                # another task may have taken it meanwhile
                if fence is not None and has_come(self._lives, self._connection._protocol):
                    self.seq = fence if seq is None else seq
                    return take_moment(self._lives, self._connection._protocol, self.seq)
        return None

    async def sync(self) -> list[tuple[Live, Change]]:
        """Waits until all sets are told up to one change, which is `seq` then, and gives the changes till there."""
        if not self._lives:
            return []
        with self._naming():
            while (seq := await self._fence(None)) is None:
                pass
        self.seq = seq
        return take_until(self._lives, self._connection._protocol, seq)

    # Inside

    @contextlib.contextmanager
    def _naming(self, *further: str) -> Iterator[None]:
        """Names the queries in what ends them."""
        try:
            yield
        except (Ended, Disconnected) as error:
            queries = [*(live.query for live in self._lives), *further]
            raise of_live(error, queries, self._lost) from error.__cause__

    async def _next(self, timeout: float | None, lives: list[Live]) -> tuple[Live, Change] | None:
        until = None if timeout is None else time.monotonic() + timeout
        with self._naming():
            while await self._come(until, lives):
                if (told := take_first(lives, self._connection._protocol)) is not None:
                    return told
        return None

    async def _come(self, until: float | None, lives: list[Live]) -> bool:
        """Waits until there is a change to take; false where none came until then."""
        while not self._whole or not has_come(lives, self._connection._protocol):
            try:
                self._check()
                if not await self._wait(until):
                    return False
            except (Ended, Disconnected) as error:
                if not await self._restart(until, error):
                    return False
        return True

    async def _fence(self, until: float | None) -> int | None:
        """The number of a change up to which all have come; none where the session was lost meanwhile."""
        try:
            self._check()
            return await self._connection.watch(self._lives[0].query)
        except (Ended, Disconnected) as error:
            await self._restart(until, error)
            return None

    async def _wait(self, until: float | None) -> bool:
        """Waits for bytes, and asks for a reply where none came for long. False where none came until then."""
        connection = self._connection
        patience = None if self._ping is None else connection._heard + self._ping
        if patience is None or (until is not None and until < patience):
            return await connection._wait(until)
        if not await connection._wait(patience):
            await connection.ping()
        return True

    def _check(self) -> None:
        """Raises where there is no connection, or one that isn't begun whole."""
        if self._closed:
            raise Disconnected("they were closed")
        if not self._whole:
            raise self._lost or Disconnected("not connected yet")
        self._connection._check()

    async def _add(self, live: Live) -> Live:
        """Watches and lists a further query."""
        with self._naming(live.query):
            await self._begin(live)
        live._restarted()
        self._lives.append(live)
        return live

    async def _begin(self, live: Live) -> None:
        """Watches and lists a further query, and where the session is ended as too slow a reader, again with less."""
        until, waits = time.monotonic() + self._within, Waits(f"the live answers of {live.query}")
        while True:
            try:
                if not self._whole or self._connection._protocol.ended is not None:
                    await self._restart(None, self._lost, waits)
                async with self._starting:
                    await self._start(live)
                return
            except PASSING as error:
                slow = isinstance(error, Ended) and error.cause == "slow" and time.monotonic() <= until
                if not slow and not self._reconnect:
                    self._unwatch(live)
                    raise
                await asyncio.sleep(0 if slow else waits.next(error))
            except BaseException:
                self._unwatch(live)
                raise

    async def _start(self, live: Live) -> None:
        """Watches and lists a query."""
        connection = self._connection
        try:
            listing = await list_whole(connection, live.query, self._within, self._most, watch=True)
        except Ended as error:
            if error.cause == "slow":
                self._most = max(FIRST_PAGES, self._most // 2)
            raise
        live._listed(listing, connection._protocol)

    async def _restart(self, until: float | None, lost: Error | None, waits: Waits | None = None) -> bool:
        """Starts anew. Where that fails and may come right, it is tried again as long as there is time, or raised."""
        self._lost = self._lost or lost
        waits = waits or Waits(f"the live answers of {', '.join(live.query for live in self._lives)}")
        while (error := await self._try()) is not None:
            pause = waits.next(error)
            left = pause if until is None else until - time.monotonic()
            if left <= 0:
                return False
            await asyncio.sleep(min(pause, left))
        return True

    async def _try(self) -> Error | None:
        """One start anew of all queries, which is whole, or isn't: then what it failed by, where that may be over after
        a while and is waited for."""
        async with self._starting:
            if self._closed:
                raise Disconnected("they were closed")
            if self._whole and self._connection._protocol.ended is None:
                return None  # by another task
            self._whole = False
            self._connection.close()
            try:
                self._connection = await self._open().open()
                for live in self._lives:
                    await self._start(live)
                self._whole = not self._closed
                self._lost = None
            except PASSING as error:
                less = isinstance(error, Ended) and error.cause == "slow" and self._most > FIRST_PAGES
                if not self._reconnect and not less:
                    raise
                return error
            finally:
                if not self._whole:
                    self._connection.close()
            if not self._whole:
                raise Disconnected("they were closed")
            return None

    def _unwatch(self, live: Live) -> None:
        """Asks for no more of a query, and waits for no reply."""
        connection = self._connection
        if self._whole and connection._protocol.ended is None and live.query in connection._watched:
            connection._say(f"unwatch {live.query}", protocol.READ_OK)
            connection._flush()
            connection._watched.discard(live.query)
            connection._protocol.forget(live.query)
