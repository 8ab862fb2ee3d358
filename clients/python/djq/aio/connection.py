"""A connection of asyncio, which has a method for each command."""

from __future__ import annotations

import asyncio
import time
from collections import deque
from typing import TYPE_CHECKING, Any, AsyncIterator, Callable, Generator, Iterable, Sequence, TypeVar

from .. import protocol
from ..errors import Disconnected, Error, NoCursor, NotWatched, Refused, SomeRefused
from ..listing import CLOSE, MOST_PAGES, WITHIN, Listing, Said
from ..protocol import FIRST_REFUSALS, MOST_ANSWERS, Added, Answer, Change, Commit, Page, Pending, Protocol, Update
from ..protocol import Value, checked, fitting, spell_line, spell_query, spell_relation, spell_union
from ..schema import Schema
from ..transaction import Collected

if TYPE_CHECKING:
    from .live import Live, Lives
    from .table import Table

T = TypeVar("T")

MOST_DUE = 2000  # replies that are left due while a pipeline sends more
ROWS_AT_ONCE = 500  # replies behind which a load tells its progress
MOST_UNTAKEN = 10000  # changes that nobody took, above which no more is read while nobody waits


class _Wire(asyncio.Protocol):
    """What the loop tells of the socket, handed to a connection."""

    def __init__(self, connection: Connection) -> None:
        self._connection = connection

    def data_received(self, data: bytes) -> None:
        self._connection._came(data)

    def connection_lost(self, exc: Exception | None) -> None:
        self._connection._lose(Disconnected(str(exc) if exc else "the server closed the connection"))


class Connection:
    """One session of a server, made by `connect`. Each method sends one command and waits for its reply."""

    def __init__(self, host: str, port: int, timeout: float | None = None, schema: Schema | None = None) -> None:
        self.host, self.port, self.timeout = host, port, timeout
        self.schema = schema if schema is not None else Schema()
        self._protocol = Protocol()
        self._transport: asyncio.Transport | None = None
        self._order = asyncio.Lock()  # held by a listing's turn, and as a command is said
        self._listing = asyncio.Lock()  # held by a listing, since all have one cursor's name
        self._waiting: deque[tuple[Pending[Any] | Commit, asyncio.Future[None]]] = deque()
        self._sleepers: list[asyncio.Future[None]] = []  # that are woken as bytes come, or the connection is lost
        self._heard = time.monotonic()  # when bytes came last
        self._watched: set[str] = set()
        self._paused = False
        self._names = 0

    async def open(self) -> Connection:
        """Connects."""
        loop = asyncio.get_running_loop()
        try:
            made = loop.create_connection(lambda: _Wire(self), self.host, self.port)
            self._transport, _ = await asyncio.wait_for(made, self.timeout)
        except asyncio.TimeoutError as error:
            raise Disconnected(f"not connected in {self.timeout:g} s") from error
        except OSError as error:
            raise Disconnected(str(error)) from error
        self._heard = time.monotonic()
        return self

    def __await__(self) -> Generator[object, None, Connection]:
        return self.open().__await__()

    async def __aenter__(self) -> Connection:
        return self if self._transport is not None else await self.open()

    async def __aexit__(self, *_: object) -> None:
        self.close()

    def close(self) -> None:
        """Closes the connection; the server gives up the session's cursors and watches."""
        self._lose(Disconnected("the connection was closed"))

    # Commands

    async def relation(self, name: str, /, *types: type | str, **columns: type | str) -> None:
        """Makes a relation; each type is `int` or `str`. Given by name, as `orders(number=int, state=str)`, its columns
        are named from then on, also where the relation is there already."""
        line, kinds = spell_relation(name, types, columns)
        if columns:
            self.schema.columns(name, *columns)
        await self._do(line, protocol.READ_OK)
        self._protocol.columns[name] = kinds

    def columns(self, relation: str, *names: str) -> None:
        """Names all columns of a relation, in their order, for queries that name them. Nothing is sent."""
        self.schema.columns(relation, *names)

    async def add(self, relation: str, *values: Value) -> Added:
        """Gives a row one copy more; the first puts it in."""
        return await self._do(spell_line("add", relation, values), protocol.READ_ADDED)

    async def delete(self, relation: str, *values: Value) -> Update:
        """Takes one copy of a row; the last takes it out. Gives `Removed`, or `Absent` where it wasn't there."""
        return await self._do(spell_line("del", relation, values), protocol.READ_REMOVED)

    async def query(self, text: str) -> int:
        """Registers a query, by places or by the names of columns. Gives the most steps that one answer costs."""
        return await self._do(spell_query(self.schema.spell(text)), protocol.READ_QUERY)

    async def union(self, name: str, *members: str) -> int:
        """Registers the union of two to eight queries, whose answers are of the same types: it has the answers that any
        of them has, each once, and its name is used as a query's. Gives the most steps that one answer costs."""
        return await self._do(spell_union(name, members), protocol.READ_UNION)

    async def drop(self, query: str) -> None:
        """Takes a query or a union out that no cursor and no watch is on, and that is no union's member."""
        await self._do(spell_line("drop", query), protocol.READ_OK)

    async def has(self, query: str, *values: Value) -> bool:
        """Whether this is an answer."""
        return await self._do(spell_line("has", query, values), protocol.READ_HAS)

    async def explain(self, query: str) -> list[str]:
        """The query's join tree, a line a node; or a union's members, a line `m NAME` each."""
        return await self._do(spell_line("explain", query), protocol.read_tree)

    async def shape(self, query: str) -> str:
        """`flat` where no change of a row costs the query more as rows grow in number, else `linear`; `union` of a
        union, whose members have shapes of their own."""
        return await self._do(spell_line("shape", query), protocol.READ_SHAPE)

    async def watch(self, query: str) -> int:
        """From now on changes of the query's answers come: see `changes`. Gives the number of changes so far."""
        seq = await self._do(spell_line("watch", query), protocol.READ_WATCH)
        self._watched.add(query)
        return seq

    async def unwatch(self, query: str) -> None:
        """No changes of the query come any more, and those that nobody took are forgotten."""
        await self._do(spell_line("unwatch", query), protocol.READ_OK)
        self._watched.discard(query)
        self._protocol.forget(query)

    async def ping(self) -> None:
        """Asks for a reply."""
        try:
            await self._do("close ping", protocol.READ_OK)
        except NoCursor:
            pass

    async def quit(self) -> None:
        """Ends the session."""
        await self._do("quit", protocol.READ_BYE)

    async def stop(self) -> None:
        """Stops the whole server."""
        await self._do("stop", protocol.READ_BYE)

    # Answers

    def cursor(self, query: str) -> Cursor:
        """A cursor in front of the query's answers, open as long as its `async with` lasts."""
        self._names += 1
        return Cursor(self, f"c{self._names}", query)

    async def answers(self, query: str, page: int = MOST_ANSWERS) -> AsyncIterator[Answer]:
        """The query's answers, `page` at a time. Raises `Stale` where rows change meanwhile."""
        async with self.cursor(query) as cursor:
            async for answer in cursor.answers(page):
                yield answer

    async def snapshot(self, query: str, within: float = WITHIN) -> set[Answer]:
        """All answers of one moment, also while rows change. Raises `Overtaken` after so many seconds without it."""
        return (await list_whole(self, query, within)).answers

    # Answers that are kept up to date

    def live(
        self, query: str, *, within: float = WITHIN, reconnect: bool = False, ping: float | None = None
    ) -> Live:
        """The query's answers, kept up to date as long as its `async with` lasts, over a connection of its own. For the
        settings see `djq.Lives`."""
        return self.lives(within=within, reconnect=reconnect, ping=ping).only(query)

    def lives(
        self, *queries: str, within: float = WITHIN, reconnect: bool = False, ping: float | None = None
    ) -> Lives:
        """The answers of several queries, kept up to date over one further connection as long as its `async with`
        lasts. For the settings see `djq.Lives`."""
        from .live import Lives

        return Lives(
            self.host, self.port, *queries, timeout=self.timeout, within=within, reconnect=reconnect, ping=ping
        )

    async def table(self, relation: str, *types: type | str, key: int = 1) -> Table:
        """A relation whose first `key` columns are a key. It is made where it isn't there: see `djq.Table`."""
        from .table import Table

        return await Table(self, relation, types, key)._begin()

    # Many at once, and changes

    def transaction(self) -> Transaction:
        """What the block adds, deletes and updates is carried out at its end as one change, or not at all:

        async with server.transaction() as change:
            change.add("orders", 8, "al")
            change.update("states", (7, "new"), (7, "paid"))
            change.delete("open", 7)
        done = change.result()

        It promises what `djq.Connection.transaction` does. It is sent in one write, so no other task's command is in it;
        if the task is cancelled as it waits for the replies, it is carried out nevertheless.
        """
        return Transaction(self)

    def pipeline(self, raises: bool = True) -> Pipeline:
        """Commands of the block are sent together, and their replies read by its end:

        async with server.pipeline() as many:
            replies = [await many.add("r", i) for i in range(1000)]
        changed = sum(reply.result().changed for reply in replies)

        The block's end raises where the session ended, and, unless `raises` is false, `SomeRefused` where commands
        were refused.
        """
        return Pipeline(self, raises)

    async def load(
        self, relation: str, rows: Iterable[Sequence[Value]], progress: Callable[[int], None] | None = None
    ) -> int:
        """Gives each of many rows one copy more, and tells how many weren't there before. `progress` is told how many
        were answered. Raises `SomeRefused` where some were refused."""
        changed = answered = 0
        replies: deque[Pending[Added]] = deque()
        async with self.pipeline() as many:
            for row in rows:
                replies.append(await many.add(relation, *row))
                while replies and replies[0].done and not many.refused:
                    changed += replies.popleft().result().changed
                    answered += 1
                    if progress is not None and answered % ROWS_AT_ONCE == 0:
                        progress(answered)
                if many.refused:
                    break
        if progress is not None and (replies or answered % ROWS_AT_ONCE):
            progress(answered + len(replies))
        return changed + sum(reply.result().changed for reply in replies)

    async def changes(self, query: str, timeout: float | None = None) -> AsyncIterator[Change]:
        """The changes of a watched query as they come; with a timeout, until none came for so many seconds."""
        while (change := await self.next_change(query, timeout)) is not None:
            yield change

    async def next_change(self, query: str, timeout: float | None = None) -> Change | None:
        """The next change of a watched query; none where none came for so many seconds."""
        if query not in self._watched:
            raise NotWatched(query)
        until = None if timeout is None else time.monotonic() + timeout
        while not (waiting := self._protocol.changes.setdefault(query, deque())):
            self._check()
            if not await self._wait(until):
                return None
        return waiting.popleft()[1]

    # Inside

    def _check(self) -> None:
        if self._protocol.ended is not None:
            raise self._protocol.ended
        if self._transport is None:
            raise Disconnected("not connected yet")

    def _say(
        self, line: str, read: Callable[[list[str]], T | None], failed: Callable[[Error], None] | None = None
    ) -> Pending[T]:
        self._check()
        line.encode()  # what isn't UTF-8 fails here, where nothing is half done
        pending = self._protocol.say(line, read, failed)
        self._resume()
        return pending

    def _flush(self) -> None:
        """Hands what was said to the loop."""
        if self._transport is not None and self._protocol.outgoing:
            self._transport.write(bytes(self._protocol.outgoing))
            self._protocol.outgoing.clear()

    async def _do(self, line: str, read: Callable[[list[str]], T | None]) -> T:
        async with self._order:
            pending = self._say(line, read)
            self._flush()
        await self._done(pending)
        return pending.result()

    def _say_transaction(self, lines: list[str], failed: Callable[[Error], None] | None = None) -> Commit:
        """Queues a transaction of these lines."""
        self._check()
        commit = self._protocol.say_transaction(lines, failed)
        self._resume()
        return commit

    async def _carry_out(self, lines: list[str]) -> Commit:
        """Sends a transaction of these lines, and waits for its replies."""
        async with self._order:
            commit = self._say_transaction(lines)
            self._flush()
        await self._done(commit)
        return commit

    async def _done(self, pending: Pending[Any] | Commit) -> None:
        """Waits for a reply, and loses the connection where nothing comes for too long."""
        if pending.done:
            return
        future = asyncio.get_running_loop().create_future()
        self._waiting.append((pending, future))
        began = time.monotonic()
        while not pending.done:
            left = None
            if self.timeout is not None:
                left = max(began, self._heard) + self.timeout - time.monotonic()
                if left <= 0:
                    self._lose(Disconnected(f"nothing came in {self.timeout:g} s"))
                    return
            await asyncio.wait([future], timeout=left)

    async def _settle(self, due: int = 0) -> None:
        """Waits until no more replies than this are due."""
        self._flush()
        until = None
        while self._protocol.ended is None and self._protocol.due > due:
            if self.timeout is not None:
                until = time.monotonic() + self.timeout
            if not await self._wait(until):
                self._lose(Disconnected(f"nothing came in {self.timeout:g} s"))
        self._check()

    async def _wait(self, until: float | None) -> bool:
        """Waits for bytes; false where none came until then."""
        left = None if until is None else until - time.monotonic()
        if left is not None and left <= 0:
            await asyncio.sleep(0)
            return False
        future = asyncio.get_running_loop().create_future()
        self._sleepers.append(future)
        self._resume()
        await asyncio.wait([future], timeout=left)
        return future.done()

    async def _turn(self, lines: Sequence[Said], until: float, lead: int = 0) -> list[Pending[Any]] | None:
        """Sends lines in one write, after so many blank ones, and reads their replies once all are there. None if that
        took too long."""
        async with self._order:
            await self._settle()
            self._protocol.lead(lead)
            pending: list[Pending[Any]] = [self._say(line, read) for line, read in lines]
            self._protocol.hold()
            try:
                self._flush()
                while self._protocol.ended is None and self._protocol.kept() < len(pending):
                    if not await self._wait(until):
                        return None
            finally:
                self._read()
        return pending

    def _came(self, data: bytes) -> None:
        self._heard = time.monotonic()
        self._protocol.keep(data)
        if not self._protocol.holds():
            self._read()
        self._wake()
        self._rest()

    def _read(self) -> None:
        """Reads the lines that have come, and wakes who waits for them."""
        try:
            self._protocol.read()
        except Error as error:
            self._protocol.lose(error)
        if self._protocol.ended is not None:
            self._lose(self._protocol.ended)
        self._wake()

    def _wake(self) -> None:
        """Wakes those whose reply has come, and those who wait for bytes."""
        woken, self._sleepers = self._sleepers, []
        while self._waiting and self._waiting[0][0].done:
            woken.append(self._waiting.popleft()[1])
        for future in woken:
            if not future.done():
                future.set_result(None)

    def _rest(self) -> None:
        """Reads no more where many changes were taken by nobody, so that the server finds a slow reader out."""
        untaken = sum(map(len, self._protocol.changes.values()))
        if untaken <= MOST_UNTAKEN or self._protocol.due or self._paused or self._transport is None:
            return
        if not self._transport.is_closing():
            self._transport.pause_reading()
            self._paused = True

    def _resume(self) -> None:
        if self._paused and self._transport is not None and not self._transport.is_closing():
            self._transport.resume_reading()
        self._paused = False

    def _lose(self, error: Error) -> None:
        if self._protocol.ended is None and self._protocol.holds():
            self._protocol.read()
        self._protocol.lose(error)
        self._wake()
        if self._transport is not None:
            self._transport.close()


def connect(
    host: str = "127.0.0.1", port: int = 7007, timeout: float | None = None, schema: Schema | None = None
) -> Connection:
    """A connection to a server: `async with connect(..) as server`, or `server = await connect(..)`."""
    return Connection(host, port, timeout, schema)


class Cursor:
    """A place in the answers of a query. It is stale once rows below the query change."""

    def __init__(self, connection: Connection, name: str, query: str) -> None:
        self.name, self.query = name, query
        self._connection = connection

    async def __aenter__(self) -> Cursor:
        await self._connection._do(f"open {self.name} {checked(self.query)}", protocol.READ_OPEN)
        return self

    async def __aexit__(self, *_: object) -> None:
        if self._connection._protocol.ended is None:
            self._connection._say(f"close {self.name}", protocol.READ_OK)
            self._connection._flush()

    async def next(self, count: int = MOST_ANSWERS) -> Page:
        """The next answers, at most `count`. Raises `Stale`."""
        return await self._connection._do(f"next {self.name} {count}", protocol.read_page)

    async def close(self) -> None:
        """Gives the cursor up before its `async with` ends."""
        await self._connection._do(f"close {self.name}", protocol.READ_OK)

    async def answers(self, page: int = MOST_ANSWERS) -> AsyncIterator[Answer]:
        """The answers from here on, asked for `page` at a time."""
        while True:
            got = await self.next(page)
            for answer in got.answers:
                yield answer
            if got.last:
                return

    def __aiter__(self) -> AsyncIterator[Answer]:
        return self.answers()


class Transaction(Collected):
    """Rows that are inserted and deleted as one change: see `Connection.transaction`."""

    def __init__(self, connection: Connection) -> None:
        super().__init__()
        self._connection = connection

    async def __aenter__(self) -> Transaction:
        return self

    async def __aexit__(self, kind: type | None, error: BaseException | None, trace: object) -> None:
        lines = self._end()
        if error is None:
            self._commit = await self._connection._carry_out(lines)
            self._commit.result()


class PipelinedTransaction(Collected):
    """Rows that are inserted and deleted as one change, within a pipeline: see `Pipeline.transaction`."""

    def __init__(self, pipeline: Pipeline) -> None:
        super().__init__()
        self._pipeline = pipeline

    async def __aenter__(self) -> PipelinedTransaction:
        return self

    async def __aexit__(self, kind: type | None, error: BaseException | None, trace: object) -> None:
        lines = self._end()
        if error is None:
            self._commit = await self._pipeline._say_transaction(lines)


class Pipeline:
    """Commands that are sent together. Each method gives a `Pending` reply, and waits only where many are due."""

    def __init__(self, connection: Connection, raises: bool = True) -> None:
        self.sent = self.refused = 0
        self.first: list[Refused] = []
        self._connection = connection
        self._raises = raises
        self._lost: Error | None = None

    async def __aenter__(self) -> Pipeline:
        return self

    async def __aexit__(self, kind: type | None, error: BaseException | None, trace: object) -> None:
        if error is not None:
            return
        try:
            await self._connection._settle()
        except Error:
            if self._lost is None:
                raise
        if self._lost is not None:
            raise self._lost
        if self.refused and self._raises:
            raise SomeRefused(self.sent, self.refused, self.first)

    async def add(self, relation: str, *values: Value) -> Pending[Added]:
        """Gives a row one copy more."""
        return await self._say(spell_line("add", relation, values), protocol.READ_ADDED)

    async def delete(self, relation: str, *values: Value) -> Pending[Update]:
        """Takes one copy of a row."""
        return await self._say(spell_line("del", relation, values), protocol.READ_REMOVED)

    async def has(self, query: str, *values: Value) -> Pending[bool]:
        """Whether this is an answer."""
        return await self._say(spell_line("has", query, values), protocol.READ_HAS)

    async def query(self, text: str) -> Pending[int]:
        """Registers a query."""
        return await self._say(spell_query(self._connection.schema.spell(text)), protocol.READ_QUERY)

    async def union(self, name: str, *members: str) -> Pending[int]:
        """Registers a union."""
        return await self._say(spell_union(name, members), protocol.READ_UNION)

    def transaction(self) -> PipelinedTransaction:
        """A transaction among the commands of the pipeline, as `djq.Pipeline.transaction`."""
        return PipelinedTransaction(self)

    async def _say_transaction(self, lines: list[str]) -> Commit:
        own = self._connection
        async with own._order:
            commit = own._say_transaction(lines, self._failed)
        self.sent += len(commit.lines)
        if own._protocol.due > MOST_DUE:
            await own._settle(MOST_DUE // 2)
        return commit

    async def _say(self, line: str, read: Callable[[list[str]], T | None]) -> Pending[T]:
        own = self._connection
        async with own._order:
            pending = own._say(line, read, self._failed)
        self.sent += 1
        if own._protocol.due > MOST_DUE:
            await own._settle(MOST_DUE // 2)
        return pending

    def _failed(self, error: Error) -> None:
        if not isinstance(error, Refused):
            self._lost = self._lost or error
            return
        self.refused += 1
        if len(self.first) < FIRST_REFUSALS:
            self.first.append(error)


async def list_whole(
    connection: Connection, query: str, within: float, most: int = MOST_PAGES, watch: bool = False
) -> Listing:
    """A listing that came to its end, by turns of at most so many pages. Raises `Overtaken` after `within` seconds."""
    async with connection._listing:
        listing = Listing(query, within, most, watch)
        try:
            while not listing.whole:
                listing.take(await connection._turn(listing.turn(), listing.until, listing.lead))
                if listing.pause:
                    await asyncio.sleep(listing.pause)
            if listing.is_open:
                await connection._do(*CLOSE)
        finally:
            if listing.watched:
                connection._watched.add(query)
        return listing
