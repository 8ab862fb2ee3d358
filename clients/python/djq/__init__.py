"""A client of djq, the live join query server.

    import djq

    with djq.connect("127.0.0.1", 7007) as server:
        server.relation("reading", int, int)
        server.query("q(x,y) <- reading(x,y)")
        server.add("reading", 1, 20)                # Added(seq=1, copies=1)
        print(list(server.answers("q")))            # [(1, 20)]
        with server.live("q") as live:
            for change in live.changes():           # blocks until rows change
                print(change.seq, change.came, change.went)

Columns may have names, for queries that name them in place of counting them (`price:` alone is `price: price`):

    server.relation("lines", order=int, line=int, item=str, price=int)
    server.query("bolts(o,price) <- lines(order: o, item: \"bolt\", price:)")

Where one of several queries is enough, their union is told as one query, an answer of several of them once:

    server.query("hot(x) <- reading(x,y), y >= 80")
    server.query("shut(x) <- closed(x)")
    server.union("alarm", "hot", "shut")

A row has copies: each `add` brings one, each `delete` takes one, and only the first that comes and the last that goes
change what is answered. What belongs together is one transaction, which is one change, or none:

    with server.transaction() as change:
        change.update("reading", (1, 20), (1, 21))
        change.add("closed", 1)
    print(change.result())                          # Done(seq=3, rows=3)

What is computed of live answers is updated by what came and went, and nothing is asked for again:

    live.count(by=0), live.sum(1), live.top(10, 1), live.by(0)[7]

One connection is one session of the server; it is used from one thread. Values are `int` (64 bits) and `str` (at most
255 bytes of UTF-8). Each error that the server may answer is an exception of its own, under `Refused`. All methods
stand on one page, docs/CLIENT.md in the repository.

Inside, `protocol` knows the lines and no socket: what a command sends, which reply is due, and which lines are deltas;
`syntax` knows what a line may have meant that the server doesn't understand, and `schema` the names of columns.
`connection` moves the bytes, `many` sends commands together, `transaction` collects the lines of one, `listing`
lists the answers of one moment, and `live` keeps them up to date: `kept` takes the changes, and `folds` are what is
computed of the answers. `table` keeps rows by key, and `expiring` takes them out in time, by `expiry`.
"""

from .connection import Connection, Cursor, connect
from .errors import (
    REFUSALS, Arity, BadColumns, BadName, ComparisonUnbound, Cyclic, Disconnected, Ended, Error, HeadRepeated,
    HeadUnbound, InUse, LimitReached, MemberRefused, Misplaced, NoCursor, NoQuery, NoRelation, NotFreeConnex,
    NotWatched, OutOfMemory, Overtaken, Refused, RowAbsent, SomeRefused, Stale, Syntax, Taken, TooLong, TwoThreads,
    Unanswered, VariableType, WrongCount, WrongType,
)  # fmt: skip
from .expiring import Expiring
from .folds import Columns, Index, Key
from .kept import Moment
from .live import Live, Lives
from .many import Pipeline, PipelinedTransaction, Transaction
from .protocol import (
    HELD_BYTES, MOST_ANSWERS, MOST_HELD, MOST_MEMBERS, Absent, Added, Answer, Change, Done, Page, Pending, Protocol,
    Removed, Update, Value, read_values, spell,
)  # fmt: skip
from .schema import Schema
from .table import Table
from .version import __version__

__all__ = [
    "HELD_BYTES", "MOST_ANSWERS", "MOST_HELD", "MOST_MEMBERS", "REFUSALS", "Absent", "Added", "Answer", "Arity",
    "BadColumns", "BadName", "Change", "Columns", "ComparisonUnbound", "Connection", "Cursor", "Cyclic",
    "Disconnected", "Done", "Ended", "Error", "Expiring", "HeadRepeated", "HeadUnbound", "InUse", "Index", "Key",
    "LimitReached", "Live", "Lives", "MemberRefused", "Misplaced", "Moment", "NoCursor", "NoQuery", "NoRelation",
    "NotFreeConnex", "NotWatched", "OutOfMemory", "Overtaken", "Page", "Pending", "Pipeline", "PipelinedTransaction",
    "Protocol", "Refused", "Removed", "RowAbsent", "Schema", "SomeRefused", "Stale", "Syntax", "Table", "Taken",
    "TooLong", "Transaction", "TwoThreads", "Unanswered", "Update", "Value", "VariableType", "WrongCount", "WrongType",
    "__version__", "connect", "read_values", "spell",
]  # fmt: skip
