"""Follows tables of PostgreSQL: each of its transactions becomes one of the server's.

    djq-postgres 'host=db dbname=shop' HOST:PORT --tables orders,lines
    djq-postgres DSN HOST:PORT --publication shop --query 'open(o,i) <- orders(o,_), lines(o,i)'
    python3 -m djq.postgres_in DSN HOST:PORT --tables orders,lines

The tables are those of a publication, and a slot retains the changes that the server doesn't have yet, so nothing is lost
while this program or the server is down. At first, and whenever the server's position isn't one that the slot continues,
the rows of one moment are read from PostgreSQL, and the difference is sent. Then the queries are registered, and the
changes follow.

After any failure on either side a new session begins, at the server's position. A transaction is confirmed to PostgreSQL
once the server has acknowledged it.
"""

from __future__ import annotations

import argparse
import importlib
import logging
import re
import sys
import time
from typing import Any, NoReturn

from .errors import BadName, Error
from .live import PASSING, Waits
from .postgres_position import Differs, Moved
from .postgres_rows import Redefined
from .postgres_source import Busy, Source
from .postgres_transactions import Anew
from .postgres_types import Unfit
from .protocol import checked

try:
    psycopg2: Any = importlib.import_module("psycopg2")  # without types, which it hasn't
except ModuleNotFoundError as missing:
    if missing.name != "psycopg2":
        raise
    raise SystemExit("djq-postgres needs psycopg2, as by `apt install python3-psycopg2`") from missing

from .postgres_feed import Feed, Target

NAME = "djq"  # of the slot and the publication
LONGEST_SLOT = 28  # characters of a slot's name, since a query's is it and a few more

log = logging.getLogger("djq")


class Runner:
    """Runs sessions, one after another."""

    def __init__(self, source: Source, target: Target, compares: bool) -> None:
        self._source, self._target, self._compares = source, target, compares
        self._redefined = ""  # what the last session ended by, if that was a definition
        self._waits = Waits("changes of PostgreSQL")

    def run(self) -> NoReturn:
        """Runs until an error that doesn't pass: raises `Unfit`, another `Error`, or what psycopg2 raises."""
        while True:
            with Feed(self._source, self._target, self._compares) as feed:
                pause = self._once(feed)
            time.sleep(pause)

    def _once(self, feed: Feed) -> float:
        """A session. Gives the seconds before the next one."""
        try:
            feed.begin()
            self._compares = False
            self._waits = Waits("changes of PostgreSQL")
            feed.follow()
        except Redefined as error:
            return self._redefine(error, feed)
        except Unfit as error:
            raise self._stopped(error) if feed.has_slot else error
        except (Anew, Differs) as error:
            return self._anew(error)
        except (Busy, Moved, *PASSING) as error:
            return self._waits.next(error)
        except psycopg2.Error as error:
            if isinstance(error, (psycopg2.ProgrammingError, psycopg2.NotSupportedError)):
                raise
            return self._waits.next(Error(" ".join(str(error).split())))

    def _anew(self, error: Error) -> float:
        log.warning("compares all rows: %s", error)
        self._compares = True
        return 0

    def _redefine(self, error: Redefined, feed: Feed) -> float:
        """The rows are compared by the definition that there is now. Raises `Unfit` if that was of no use."""
        if str(error) == self._redefined and feed.made.taken == 0:
            raise self._stopped(error)
        self._redefined = str(error)
        return self._anew(error)

    def _stopped(self, error: Unfit) -> Unfit:
        slot = self._source.slot
        return Unfit(
            f"{error}\nThe slot {slot} stays, and PostgreSQL retains its log for it from the next transaction on: repair what"
            " is named and start with --compare, or drop the slot by"
            f" SELECT pg_drop_replication_slot('{slot}')"
        )


# The command


def main() -> None:
    """Follows until it is stopped."""
    words = _words()
    given = words.parse_args()
    logging.basicConfig(level=logging.INFO, format="djq-postgres: %(message)s", stream=sys.stderr)
    host, port = _address(words, given.server)
    source = _source(words, given)
    target = Target(host, port, tuple(given.query), tuple(_unions(words, given.union)))
    try:
        Runner(source, target, given.compare).run()
    except KeyboardInterrupt:
        pass
    except Error as error:
        sys.exit("\n".join(f"djq-postgres: {line}" for line in str(error).splitlines()))
    except psycopg2.Error as error:
        sys.exit(f"djq-postgres: PostgreSQL: {str(error).strip()}")


def _words() -> argparse.ArgumentParser:
    what = "Follows tables of PostgreSQL: each of its transactions becomes one of the server's."
    words = argparse.ArgumentParser(prog="djq-postgres", description=what)
    add = words.add_argument
    add("dsn", metavar="DSN", help="of the database, as 'host=db dbname=shop'; a password belongs into ~/.pgpass")
    add("server", metavar="HOST:PORT", help="of the djq server")
    add("--tables", metavar="a,b", default="", help="the tables that are followed; else all of the publication")
    add("--publication", metavar="NAME", default=NAME,
        help="the publication; if it isn't there, it is created for --tables (%(default)s)")  # fmt: skip
    add("--slot", metavar="NAME", default=NAME, help="the replication slot; if it isn't there, it is created (%(default)s)")
    add("--query", metavar="TEXT", action="append", default=[],
        help="a query that is registered once all rows are there; several times for several")  # fmt: skip
    add("--union", metavar="'NAME QUERY ..'", action="append", default=[], help="a union of queries, after them")
    add("--null", metavar="t.c=VALUE", action="append", default=[], help="what stands for NULL in a column of a table")
    add("--beat", metavar="TABLE", help="a transaction that changes this table ends one of the server's")
    add("--compare", action="store_true", help="compare all rows first, also if the position is valid")
    return words


def _address(words: argparse.ArgumentParser, said: str) -> tuple[str, int]:
    host, _, port = said.rpartition(":")
    if not (host and port.isascii() and port.isdigit() and int(port) < 65536):
        words.error(f"not HOST:PORT: {said}")
    return host.removeprefix("[").removesuffix("]"), int(port)


def _source(words: argparse.ArgumentParser, given: argparse.Namespace) -> Source:
    try:
        checked(given.slot)
    except BadName as error:
        words.error(f"--slot: {error}")
    if len(given.slot) > LONGEST_SLOT:
        words.error(f"--slot: at most {LONGEST_SLOT} characters: {given.slot}")
    tables = tuple(name.strip().removeprefix("public.") for name in given.tables.split(",") if name.strip())
    if not tables and given.tables:
        words.error(f"--tables: no table: {given.tables!r}")
    nulls = tuple(_null(words, said) for said in given.null)
    return Source(given.dsn, given.publication, given.slot, tables, nulls, given.beat)


def _null(words: argparse.ArgumentParser, said: str) -> tuple[str, str, str]:
    found = re.fullmatch(r"(?:public\.)?(.+?)\.([^.=]+)=(.*)", said, re.DOTALL)
    if found is None:
        words.error(f"--null: not table.column=VALUE: {said}")
    return found[1], found[2], found[3]


def _unions(words: argparse.ArgumentParser, said: list[str]) -> list[tuple[str, ...]]:
    unions = [tuple(one.split()) for one in said]
    for names in unions:
        if len(names) < 3:
            words.error(f"--union: not a name and two queries or more: {' '.join(names)!r}")
    return unions


if __name__ == "__main__":
    main()
