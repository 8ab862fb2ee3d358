"""A terminal at a server, and a filter where there is no terminal.

    djq-shell HOST:PORT
    python3 -m djq.shell HOST:PORT
    djq-shell --local                       # with a server of its own, for a first try
    djq-shell --local --log rows.log        # whose rows are there again the next time

Inside, `session` sends lines as they are and takes what comes in its order, `names` knows what was seen, `queries`
reads a query and finds how one that isn't admitted becomes one that is, `advice` says what to do after a refusal,
`files` reads and writes CSV, `screen` draws, `commands` runs a line, `terminal` and `pipe` are the two ways to come by
lines, and `local` starts a server.
"""

from .main import main

__all__ = ["main"]
