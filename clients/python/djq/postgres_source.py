"""The side of PostgreSQL: which tables are followed, a slot that is this program's alone, and the rows of one moment."""

from __future__ import annotations

import contextlib
import importlib
import logging
import time
from collections import Counter
from collections.abc import Callable, Iterator, Mapping, Sequence
from dataclasses import dataclass
from typing import Any

from .errors import Error
from .pgoutput import Relation
from .postgres_position import RELATION
from .postgres_rows import TableRows
from .postgres_stream import Created, Stream, connect, number_of, seeing
from .postgres_tables import Table, published, quoted, read_answers, type_names
from .postgres_transactions import Followed
from .postgres_types import TableMapping, Unfit, mapping_of
from .protocol import Answer, checked

PATIENCE = 10.0  # seconds in which a server notices that a stream was closed

log = logging.getLogger("djq")


class Busy(Error):
    """Another program reads the slot."""


@dataclass(frozen=True)
class Source:
    """What is followed: a database, a publication, a slot, and of the tables all, or those that are named."""

    dsn: str
    publication: str
    slot: str
    tables: tuple[str, ...] = ()
    nulls: tuple[tuple[str, str, str], ...] = ()  # a table, a column, and the text that stands for NULL
    beat: str | None = None  # a table each change of which ends a transaction of the server

    def nulls_of(self, table: Table) -> dict[str, str]:
        """The texts that stand for NULL in a table's columns."""
        return {column: text for name, column, text in self.nulls if name == table.label}


@dataclass
class Chosen:
    """A table that is followed, and how its rows are mapped."""

    table: Table
    relation: str
    mapping: TableMapping

    def follow(self) -> Followed:
        """Its rows in the stream, none of which is known yet."""
        table = self.table
        definition = Relation(table.relation, table.schema, table.name, table.identity, table.columns)
        return Followed(self.relation, self.mapping, TableRows(definition, self.mapping.value))


# Tables


def choose(sql: Any, source: Source) -> tuple[list[Chosen], bool]:
    """The tables, and whether a publication was created for those that are named, as there was none of its name. Raises
    `Unfit` with all that is wrong, and has made nothing then."""
    try:
        with sql.cursor() as cursor:
            cursor.execute("SHOW wal_level")
            if (level := cursor.fetchone()[0]) != "logical":
                raise Unfit(f"wal_level is {level}, and has to be logical in postgresql.conf")
            cursor.execute("SELECT FROM pg_publication WHERE pubname = %s", (source.publication,))
            is_new = cursor.fetchone() is None and bool(source.tables)
            if is_new:
                names = ", ".join(".".join(map(quoted, name.split("."))) for name in source.tables)
                cursor.execute(f"CREATE PUBLICATION {quoted(source.publication)} FOR TABLE {names}")
        chosen = _chosen(sql, source)
        sql.commit()
        return chosen, is_new
    finally:
        sql.rollback()


def drop_publication(sql: Any, name: str) -> None:
    """Drops a publication."""
    with sql.cursor() as cursor:
        cursor.execute(f"DROP PUBLICATION IF EXISTS {quoted(name)}")
        sql.commit()


def _chosen(sql: Any, source: Source) -> list[Chosen]:
    there = published(sql, source.publication)
    labels = [table.label for table in there if not source.tables or table.label in source.tables]
    publication = source.publication
    wrong = [f"{name}: the publication {publication} doesn't have it" for name in source.tables if name not in labels]
    wrong += [f"{name}: --null names no table that is followed" for name, _, _ in source.nulls if name not in labels]
    if source.beat is not None and source.beat not in labels:
        wrong.append(f"--beat {source.beat}: it is none of the tables that are followed")
    if not there:
        wrong.append(f"the publication {publication} has no table")
    names = type_names(sql, there)
    chosen: list[Chosen] = []
    for table in there:
        if table.label not in labels:
            continue
        try:
            mapping = mapping_of(table.label, table.columns, names, source.nulls_of(table))
            chosen.append(Chosen(table, _relation_of(table, [one.relation for one in chosen]), mapping))
        except Unfit as error:
            wrong.append(str(error))
    if wrong:
        raise Unfit("\n".join(wrong))
    return chosen


def _relation_of(table: Table, taken: Sequence[str]) -> str:
    """What the relation of a table is called. Raises `Unfit`."""
    name = table.label.lower().replace(".", "_")
    try:
        checked(name)
    except Error as error:
        raise Unfit(f"{table.label}: its name can't be a relation's: {error}") from None
    if name in taken or name == RELATION:
        raise Unfit(f"{table.label}: another relation is called {name}")
    return name


# The slot


@dataclass
class Slot:
    """A slot whose stream has begun, so that nobody else reads it."""

    stream: Stream
    system: str
    confirmed: int  # the place up to which it was confirmed
    made: Created | None  # if it was created just now


def state_of(sql: Any, slot: str) -> tuple[int, bool] | None:
    """Up to which place a slot is confirmed, and whether it can be read; none if there is no slot. Raises `Unfit` if it
    is one of another kind."""
    with sql.cursor() as cursor:
        cursor.execute(_STATE, (slot,))
        found = cursor.fetchone()
        sql.rollback()
    if found is None:
        return None
    place, is_whole, database, plugin = found
    if not is_whole or (database, plugin) == (sql.info.dbname, "pgoutput"):
        return number_of(place or "0/0"), is_whole
    raise Unfit(f"the slot {slot} is one of {plugin} in the database {database}: name another by --slot")


_STATE = """
    SELECT confirmed_flush_lsn::text, coalesce(wal_status <> 'lost', true), coalesce(database, 'none'),
        coalesce(plugin, 'none')
    FROM pg_replication_slots WHERE slot_name = %s
"""


def drop_slot(sql: Any, slot: str) -> None:
    """Drops a slot that nobody reads."""
    with sql.cursor() as cursor:
        cursor.execute("SELECT pg_drop_replication_slot(%s)", (slot,))
        sql.commit()


def wait_and_drop(sql: Any, slot: str) -> None:
    """Drops a slot whose stream has just been closed, once the server has noticed it."""
    sql.rollback()
    until = time.monotonic() + PATIENCE
    while True:
        try:
            return drop_slot(sql, slot)
        except importlib.import_module("psycopg2.errors").ObjectInUse:
            sql.rollback()
            if time.monotonic() > until:
                raise
            time.sleep(0.05)


def open_slot(sql: Any, source: Source, before: Callable[[], None]) -> Slot:
    """Begins the slot's stream. If there is no slot, or one that lost what it stored, it is created, and `before` is called
    first; then its stream begins once its snapshot is seen. Raises `Busy`."""
    errors = importlib.import_module("psycopg2.errors")
    state = state_of(sql, source.slot)
    stream = Stream(source.dsn, source.slot)
    try:
        system = stream.identify()
        if state is None or not state[1]:
            before()
            return Slot(stream, system, 0, _create(sql, source, stream, state is not None))
        _start(stream, source)
        state = state_of(sql, source.slot) or state  # another program may have confirmed more before
        return Slot(stream, system, state[0], None)
    except (errors.DuplicateObject, errors.UndefinedObject) as error:
        stream.close()
        raise Busy(f"another program makes the slot: {str(error).strip()}") from None
    except BaseException:
        stream.close()
        raise


def _create(sql: Any, source: Source, stream: Stream, is_lost: bool) -> Created:
    if is_lost:
        log.warning("the slot %s has lost changes, and is made anew", source.slot)
        drop_slot(sql, source.slot)
    log.info("creates the slot %s, once the transactions have ended that are open now", source.slot)
    return stream.create()


def _start(stream: Stream, source: Source) -> None:
    try:
        stream.start(source.publication)
    except importlib.import_module("psycopg2.errors").ObjectInUse as error:
        raise Busy(str(error).strip()) from None


# Rows of one moment


@contextlib.contextmanager
def _snapshot(sql: Any, source: Source, slot: Slot) -> Iterator[tuple[Any, int]]:
    """A cursor that sees the rows at a place of the log, and this place: of the slot, if it is new, else of a temporary
    one."""
    if slot.made is not None:
        with seeing(sql, slot.made.snapshot) as cursor:
            _see(cursor)
            _start(slot.stream, source)
            yield cursor, slot.made.point
        return
    with Stream(source.dsn, f"{source.slot}_snapshot_{sql.info.backend_pid}") as other:
        made = other.create(temporary=True)
        with seeing(sql, made.snapshot) as cursor:
            _see(cursor)
            yield cursor, made.point


def _see(cursor: Any) -> None:
    cursor.execute("SELECT")


def read_all(
    sql: Any, source: Source, slot: Slot, chosen: Sequence[Chosen], progress: Callable[[str, int], None]
) -> tuple[int, dict[str, Mapping[Answer, int]]]:
    """The rows of all tables at one moment, with their copies, and its place in the log. `progress` is called with a
    relation and a number of further rows. Raises `Unfit`."""
    rows: dict[str, Mapping[Answer, int]] = {}
    with _snapshot(sql, source, slot) as (cursor, point):
        for one in chosen:
            counts: Counter[Answer] = Counter()

            def take(some: list[Answer], counts: Counter[Answer] = counts, name: str = one.relation) -> None:
                counts.update(some)
                slot.stream.stay()
                progress(name, len(some))

            read_answers(cursor, one.table, one.mapping, take)
            rows[one.relation] = counts
    return point, rows
