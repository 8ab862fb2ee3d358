"""A connection moves the bytes of one session, and has a method for each command."""

from __future__ import annotations

import selectors
import socket
import threading
import time
from collections import deque
from types import TracebackType
from typing import TYPE_CHECKING, Any, Callable, Iterable, Iterator, Sequence, TypeVar

from . import protocol
from .errors import Disconnected, Error, NoCursor, NotWatched, TwoThreads
from .listing import WITHIN, Said, list_whole
from .many import Load, Pipeline, Transaction
from .protocol import MOST_ANSWERS, Added, Answer, Change, Commit, Page, Pending, Protocol, Update
from .protocol import Value, checked, fitting, spell, spell_line, spell_query, spell_relation, spell_union
from .schema import Schema

if TYPE_CHECKING:
    from .live import Live, Lives
    from .table import Table

T = TypeVar("T")

PIECE = 1 << 18  # bytes that are read at a time
MOST_DUE = 2000  # replies that are left due while more is sent: some 50 KB, where 1 MB ends the session
MOST_OUTGOING = 1 << 17  # bytes that wait to be sent before more is queued
ROWS_AT_ONCE = 500  # that a load makes lines of
KEEPALIVE = (("TCP_KEEPIDLE", 30), ("TCP_KEEPINTVL", 10), ("TCP_KEEPCNT", 3))


class OneThread:
    """Held by the thread that is in a call of a connection. Another one that calls it meanwhile is told so."""

    def __init__(self) -> None:
        self._lock = threading.RLock()
        self._holder = 0  # the thread that held it last

    def __enter__(self) -> None:
        if not self._lock.acquire(False):
            raise TwoThreads(
                f"the thread {threading.current_thread().name!r} calls a connection that {self._name()!r} is in a call"
                " of: a connection is used from one thread, so each thread makes its own by djq.connect"
            )
        self._holder = threading.get_ident()

    def __exit__(self, *_: object) -> None:
        self._lock.release()

    def _name(self) -> str:
        return next((one.name for one in threading.enumerate() if one.ident == self._holder), "another thread")


class Connection:
    """One session of a server. Each method sends one command, waits for its reply, and raises what it was refused with.

    It is used from one thread: in one that calls it while another is in a call, `TwoThreads` is raised. Whatever
    interrupts a call while it waits (a signal's handler that raises, Ctrl-C) leaves the connection whole: later replies
    go where they belong, and only the interrupted command is open, which may be done, or be sent with the next one. What
    interrupts it while bytes are moved closes it, and is the `__cause__` of the `Disconnected` that each later call
    raises.
    """

    def __init__(self, host: str, port: int, timeout: float | None = None, schema: Schema | None = None) -> None:
        self.host, self.port, self.timeout = host, port, timeout
        self.schema = schema if schema is not None else Schema()
        try:
            self._socket = socket.create_connection((host, port), timeout)
        except OSError as error:
            if not _of_system(error):
                raise
            raise Disconnected(str(error)) from error
        try:
            _prepare(self._socket)
        except BaseException:
            self._socket.close()
            raise
        self._selector = getattr(selectors, "PollSelector", selectors.SelectSelector)()
        self._selector.register(self._socket, selectors.EVENT_READ)
        self._interest = selectors.EVENT_READ
        self._protocol = Protocol()
        self._torn = False  # whether bytes are being moved, or were as something interrupted it
        self._using = OneThread()
        self._watched: set[str] = set()
        self._names = 0

    def __enter__(self) -> Connection:
        return self

    def __exit__(self, *_: object) -> None:
        self.close()

    def close(self) -> None:
        """Closes the connection; the server gives up the session's cursors and watches."""
        with self._using:
            self._lose(Disconnected("the connection was closed"))

    def fileno(self) -> int:
        """The socket's descriptor, to wait for several connections; -1 once it is closed."""
        return self._socket.fileno()

    # Commands

    def relation(self, name: str, /, *types: type | str, **columns: type | str) -> None:
        """Makes a relation; each type is `int` or `str`. Given by name, as `orders(number=int, state=str)`, its columns
        are named from then on, also where the relation is there already."""
        line, kinds = spell_relation(name, types, columns)
        if columns:
            self.schema.columns(name, *columns)
        self._do(line, protocol.READ_OK)
        self._protocol.columns[name] = kinds

    def columns(self, relation: str, *names: str) -> None:
        """Names all columns of a relation, in their order, for queries that name them. Nothing is sent."""
        self.schema.columns(relation, *names)

    def add(self, relation: str, *values: Value) -> Added:
        """Gives a row one copy more; the first puts it in."""
        return self._do(spell_line("add", relation, values), protocol.READ_ADDED)

    def delete(self, relation: str, *values: Value) -> Update:
        """Takes one copy of a row; the last takes it out. Gives `Removed`, or `Absent` where it wasn't there."""
        return self._do(spell_line("del", relation, values), protocol.READ_REMOVED)

    def query(self, text: str) -> int:
        """Registers a query, as `q(x,y) <- r(x,z), s(z,y)`, or as `q(n) <- orders(number: n, state: "new")` where the
        columns have names. Gives the most steps that one answer costs."""
        return self._do(spell_query(self.schema.spell(text)), protocol.READ_QUERY)

    def union(self, name: str, *members: str) -> int:
        """Registers the union of two to eight queries, whose answers are of the same types: it has the answers that any
        of them has, each once, and its name is used as a query's. Gives the most steps that one answer costs."""
        return self._do(spell_union(name, members), protocol.READ_UNION)

    def drop(self, query: str) -> None:
        """Takes a query or a union out that no cursor and no watch is on, and that is no union's member."""
        self._do(spell_line("drop", query), protocol.READ_OK)

    def has(self, query: str, *values: Value) -> bool:
        """Whether this is an answer."""
        return self._do(spell_line("has", query, values), protocol.READ_HAS)

    def watch(self, query: str) -> int:
        """From now on changes of the query's answers come: see `changes`. Gives the number of changes so far."""
        seq = self._do(spell_line("watch", query), protocol.READ_WATCH)
        self._watched.add(query)
        return seq

    def unwatch(self, query: str) -> None:
        """No changes of the query come any more, and those that nobody took are forgotten."""
        self._do(spell_line("unwatch", query), protocol.READ_OK)
        self._watched.discard(query)
        self._protocol.forget(query)

    def explain(self, query: str) -> list[str]:
        """The query's join tree, a line a node; or a union's members, a line `m NAME` each."""
        return self._do(spell_line("explain", query), protocol.read_tree)

    def shape(self, query: str) -> str:
        """`flat` where no change of a row costs the query more as rows grow in number, else `linear`; `union` of a
        union, whose members have shapes of their own."""
        return self._do(spell_line("shape", query), protocol.READ_SHAPE)

    def cursor(self, query: str) -> Cursor:
        """Opens a cursor in front of the query's answers."""
        self._names += 1
        name = f"c{self._names}"
        self._do(f"open {name} {checked(query)}", protocol.READ_OPEN)
        return Cursor(self, name)

    def answers(self, query: str, page: int = MOST_ANSWERS) -> Iterator[Answer]:
        """The query's answers, read by a cursor, `page` at a time. Raises `Stale` where rows change meanwhile."""
        with self.cursor(query) as cursor:
            while True:
                got = cursor.next(page)
                yield from got.answers
                if got.last:
                    return

    def snapshot(self, query: str, within: float = WITHIN) -> set[Answer]:
        """All answers of one moment, also while rows change. Raises `Overtaken` after so many seconds without it."""
        return list_whole(self, query, within).answers

    def ping(self) -> None:
        """Asks for a reply. A server that is stopped gives none, and then `timeout` closes the connection."""
        try:
            self._do("close ping", protocol.READ_OK)
        except NoCursor:
            pass

    def quit(self) -> None:
        """Ends the session."""
        self._do("quit", protocol.READ_BYE)

    def stop(self) -> None:
        """Stops the whole server."""
        self._do("stop", protocol.READ_BYE)

    # Answers that are kept up to date

    def live(
        self, query: str, *, within: float = WITHIN, reconnect: bool = False, ping: float | None = None
    ) -> Live:
        """The query's answers, kept up to date, over a connection of its own. For the settings see `Lives`."""
        from .live import Lives

        return Lives(self.host, self.port, self.timeout, within, reconnect, ping).only(query)

    def lives(
        self, *queries: str, within: float = WITHIN, reconnect: bool = False, ping: float | None = None
    ) -> Lives:
        """The answers of several queries, kept up to date over one further connection. For the settings see `Lives`."""
        from .live import Lives

        group = Lives(self.host, self.port, self.timeout, within, reconnect, ping)
        try:
            for query in queries:
                group.add(query)
            group._connect()
        except BaseException:
            group.close()
            raise
        return group

    def table(self, relation: str, *types: type | str, key: int = 1) -> Table:
        """A relation whose first `key` columns are a key. It is made where it isn't there: see `Table`."""
        from .table import Table

        return Table(self, relation, types, key)

    # Many at once, and changes

    def transaction(self) -> Transaction:
        """What the block adds, deletes and updates is carried out at its end as one change, or not at all:

        with server.transaction() as change:
            change.add("orders", 8, "al")
            change.update("states", (7, "new"), (7, "paid"))
            change.delete("open", 7)
        done = change.result()

        It has up to `MOST_HELD` lines of `HELD_BYTES` bytes, and is sent at the block's end in one write; if the block
        raises, nothing is sent. A row that is deleted has to have a copy then, else `RowAbsent` is raised: so what the
        block deletes states what must still be there. `SomeRefused` is raised if the server refused lines. After a
        refusal nothing was carried out.
        """
        return Transaction(self)

    def pipeline(self, raises: bool = True) -> Pipeline:
        """Commands of the block are sent together, and their replies read by its end:

        with server.pipeline() as many:
            replies = [many.add("r", i) for i in range(1000)]
        changed = sum(reply.result().changed for reply in replies)

        The block's end raises where the session ended, and, unless `raises` is false, `SomeRefused` where commands
        were refused.
        """
        return Pipeline(self, raises)

    def load(
        self, relation: str, rows: Iterable[Sequence[Value]], progress: Callable[[int], None] | None = None
    ) -> int:
        """Gives each of many rows one copy more, and tells how many weren't there before. `progress` is told how many
        were answered.

        At the first refusal no further rows are sent, and `SomeRefused` is raised once those that were are answered.
        """
        front = f"add {checked(relation)} "
        load = Load(self, progress)
        lines: list[str] = []
        for row in rows:
            line = front + " ".join([str(v) if type(v) is int else spell(v) for v in row])
            lines.append(line if len(line) < 1000 else fitting(line))
            if len(lines) == ROWS_AT_ONCE:
                if not load.send(lines):
                    break
                lines = []
        else:
            if lines:
                load.send(lines)
        return load.finish()

    def changes(self, query: str, timeout: float | None = None) -> Iterator[Change]:
        """The changes of a watched query as they come; with a timeout, until none came for so many seconds."""
        while (change := self.next_change(query, timeout)) is not None:
            yield change

    def next_change(self, query: str, timeout: float | None = None) -> Change | None:
        """The next change of a watched query; none where none came for so many seconds."""
        if query not in self._watched:
            raise NotWatched(query)
        waiting = self._protocol.changes.setdefault(query, deque())
        until = None if timeout is None else time.monotonic() + timeout
        left = timeout
        while not waiting:
            if left is not None and left < 0:
                return None
            self._move(left)
            left = None if until is None else until - time.monotonic()
        change = waiting[0][1]
        del waiting[0]  # no call, which might be interrupted between the change's leaving the queue and its return
        return change

    # Inside

    def _say(
        self, line: str, read: Callable[[list[str]], T | None], failed: Callable[[Error], None] | None = None
    ) -> Pending[T]:
        """Queues a command."""
        line.encode()  # what isn't UTF-8 fails here, where nothing is half done
        with self._using:
            return self._queue(line, read, failed)

    def _queue(
        self, line: str, read: Callable[[list[str]], T | None], failed: Callable[[Error], None] | None = None
    ) -> Pending[T]:
        self._check()
        return self._whole(self._protocol.say, line, read, failed)

    def _do(self, line: str, read: Callable[[list[str]], T | None]) -> T:
        line.encode()  # what isn't UTF-8 fails here, where nothing is half done
        with self._using:
            pending = self._queue(line, read)
            self._drain(0, 0)
        return pending.result()

    def _settle(self) -> None:
        """Sends what is queued, and waits for every reply that is due."""
        with self._using:
            self._drain(0, 0)

    def _pump(self) -> None:
        """Sends and reads until no more is due and queued than may be as more is said."""
        if self._protocol.due > MOST_DUE or len(self._protocol.outgoing) > MOST_OUTGOING:
            with self._using:
                self._drain(MOST_DUE // 2, MOST_OUTGOING // 2)

    def _drain(self, due: int, outgoing: int) -> None:
        """Sends and reads until no more than this is due and queued."""
        own = self._protocol
        while own.ended is None and (own.due > due or len(own.outgoing) > outgoing):
            self._await(self.timeout)
        if own.ended is not None:
            self._lose(own.ended)

    def _await(self, timeout: float | None, hold: bool = False) -> None:
        """Moves bytes, or closes the connection where none could be moved in so many seconds."""
        if not self._move_bytes(timeout, hold):
            self._lose(Disconnected(f"nothing came in {timeout:g} s"))

    def _turn(self, lines: Sequence[Said], until: float, lead: int = 0) -> list[Pending[Any]] | None:
        """Sends lines in one write, after so many blank ones, and reads their replies once all are there. None if that
        took too long."""
        with self._using:
            return self._turn_of(lines, until, lead)

    def _turn_of(self, lines: Sequence[Said], until: float, lead: int) -> list[Pending[Any]] | None:
        self._drain(0, 0)
        self._protocol.lead(lead)
        pending = [self._queue(line, read) for line, read in lines]
        self._whole(self._protocol.hold)
        while self._protocol.ended is None and self._protocol.kept() < len(pending):
            left = until - time.monotonic()
            if left <= 0:
                return None
            if self.timeout is None or left < self.timeout:
                self._move_bytes(left, hold=True)
            else:
                self._await(self.timeout, hold=True)
        self._whole(self._protocol.read)
        return pending

    def _say_transaction(self, lines: list[str], failed: Callable[[Error], None] | None = None) -> Commit:
        """Queues a transaction of these lines."""
        with self._using:
            self._check()
            return self._whole(self._protocol.say_transaction, lines, failed)

    def _carry_out(self, lines: list[str]) -> Commit:
        """Sends a transaction of these lines, and waits for its replies."""
        with self._using:
            commit = self._say_transaction(lines)
            self._drain(0, 0)
        return commit

    def _give_up(self, cursor: str) -> None:
        """Closes a cursor without waiting for the reply, as something else has gone wrong."""
        self._say_last(f"close {cursor}")

    def _say_last(self, line: str) -> None:
        """Sends a line without waiting for the reply, as something else has gone wrong."""
        try:
            self._say(line, protocol.READ_OK)
            self._move(0)
        except Error:
            pass

    def _check(self) -> None:
        """Raises why the connection can't be used."""
        if self._torn:
            self._break(None)
        if self._protocol.ended is not None:
            raise self._protocol.ended

    def _whole(self, act: Callable[..., T], *given: object) -> T:
        """Does it whole, or closes the connection with what interrupted it."""
        self._torn = True
        try:
            result = act(*given)
            self._torn = False
            return result
        except BaseException as error:
            if self._torn:
                self._break(error)
            raise

    def _break(self, error: BaseException | None) -> None:
        cause = Disconnected("interrupted as bytes were moved" + (f", by {error!r}" if error is not None else ""))
        cause.__cause__ = error
        self._lose(cause)
        self._torn = False

    def _lose(self, error: Error) -> None:
        self._protocol.lose(error)
        self._selector.close()
        self._socket.close()

    def _move(self, timeout: float | None, hold: bool = False) -> bool:
        """Reads and writes what can be; false where nothing could be in so many seconds."""
        with self._using:
            return self._move_bytes(timeout, hold)

    def _move_bytes(self, timeout: float | None, hold: bool) -> bool:
        self._check()
        if self._protocol.holds() and not hold:  # a listing was interrupted
            self._whole(self._protocol.read)
            return True
        interest = selectors.EVENT_READ | (selectors.EVENT_WRITE if self._protocol.outgoing else 0)
        if interest != self._interest:
            self._whole(self._listen, interest)
        ready = self._selector.select(timeout)
        if ready:
            self._whole(self._exchange, ready[0][1], hold)
        return bool(ready)

    def _listen(self, interest: int) -> None:
        self._selector.modify(self._socket, interest)
        self._interest = interest

    def _exchange(self, ready: int, hold: bool) -> None:
        """Reads, where the socket has bytes, and writes, where it takes some."""
        own = self._protocol
        try:
            if ready & selectors.EVENT_READ:
                self._receive(hold)
            if ready & selectors.EVENT_WRITE and own.ended is None:
                del own.outgoing[: self._socket.send(own.outgoing)]
        except BlockingIOError:
            pass
        except OSError as error:
            if not _of_system(error):
                raise
            self._read_rest()
            own.lose(Disconnected(str(error)))
        if own.ended is not None:
            self._lose(own.ended)

    def _receive(self, hold: bool) -> None:
        own = self._protocol
        piece = self._socket.recv(PIECE)
        own.keep(piece)
        if not hold or not piece:
            own.read()
        if not piece:
            own.lose(Disconnected("the server closed the connection"))

    def _read_rest(self) -> None:
        """Reads what the server sent before a write failed: it may tell why."""
        try:
            while self._protocol.ended is None:
                self._receive(hold=False)
        except OSError as error:
            if not _of_system(error):
                raise


def connect(
    host: str = "127.0.0.1", port: int = 7007, timeout: float | None = None, schema: Schema | None = None
) -> Connection:
    """Connects to a server. `timeout` is in seconds, for connecting and for each reply; `schema` has the names of
    columns that it knows from the start."""
    return Connection(host, port, timeout, schema)


def _of_system(error: OSError) -> bool:
    """Whether the system or the socket raised this, and not a signal's handler: `TimeoutError` is an OSError too."""
    return error.errno is not None or error.args == ("timed out",)


def _prepare(own: socket.socket) -> None:
    """A socket that never waits, and by which the system finds out that the other machine is gone, where it can."""
    own.setblocking(False)
    own.setsockopt(socket.IPPROTO_TCP, socket.TCP_NODELAY, 1)
    own.setsockopt(socket.SOL_SOCKET, socket.SO_KEEPALIVE, 1)
    for option, value in KEEPALIVE:
        if hasattr(socket, option):
            own.setsockopt(socket.IPPROTO_TCP, getattr(socket, option), value)


class Cursor:
    """A place in the answers of a query. It is stale once rows below the query change."""

    def __init__(self, connection: Connection, name: str) -> None:
        self.connection, self.name = connection, name

    def __enter__(self) -> Cursor:
        return self

    def __exit__(self, kind: type | None, error: BaseException | None, trace: TracebackType | None) -> None:
        if error is None or isinstance(error, GeneratorExit):
            if self.connection._protocol.ended is None:
                self.close()
        else:
            self.connection._give_up(self.name)

    def next(self, count: int = MOST_ANSWERS) -> Page:
        """The next answers, at most `count`. Raises `Stale`."""
        return self.connection._do(f"next {self.name} {count}", protocol.read_page)

    def close(self) -> None:
        """Gives the cursor up."""
        self.connection._do(f"close {self.name}", protocol.READ_OK)
