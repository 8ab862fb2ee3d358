"""A client for asyncio, over the same lines as the one that blocks.

    import djq.aio

    async with djq.aio.connect("127.0.0.1", 7007) as server:
        await server.relation("reading", int, int)
        await server.query("q(x,y) <- reading(x,y)")
        await server.add("reading", 1, 20)
        async for answer in server.answers("q"):
            print(answer)                           # (1, 20)
        async with server.live("q") as live:
            async for change in live.changes():     # waits until rows change
                print(change.seq, change.came, change.went)

One connection is one session, and any number of tasks of one loop may use it: their commands are answered in the order
in which they were said. A task that is cancelled as it waits leaves its command to be done, and the reply goes where it
belongs. Errors are those of `djq`.

`connection` is one session, `live` keeps answers up to date, `table` keeps rows by key, and `expiring` takes them out in
time; what they share with the client that blocks knows no socket.
"""

from .connection import Connection, Cursor, Pipeline, PipelinedTransaction, Transaction, connect
from .expiring import Expiring
from .live import Live, Lives
from .table import Table

__all__ = [
    "Connection", "Cursor", "Expiring", "Live", "Lives", "Pipeline", "PipelinedTransaction", "Table", "Transaction",
    "connect",
]  # fmt: skip
