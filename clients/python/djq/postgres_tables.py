"""What a publication of PostgreSQL has, and its rows as they are at one moment.

    for table in published(connection, "shop"):
        mapping = mapping_of(table.label, table.columns, type_names(connection, [table]), {})
        read_answers(cursor, table, mapping, rows.extend)       # of a transaction that sees a slot's snapshot

`connection` is one of psycopg2. Column lists and row filters are those of the publication: what is read here is what
the stream says of later changes. A table's own rows alone are read, as its children are tables of the publication
themselves; of a partitioned one that is published by its root all rows are.
"""

from __future__ import annotations

import io
import re
from collections.abc import Callable, Mapping
from dataclasses import dataclass
from typing import Any

from .pgoutput import Column, Said
from .postgres_types import TableMapping, Unfit
from .protocol import Answer

AT_ONCE = 1000  # rows that are given at a time


@dataclass(frozen=True)
class Table:
    """A table as it is published. `filter` is the condition of its rows, in SQL."""

    relation: int
    schema: str
    name: str
    identity: str
    columns: tuple[Column, ...]
    filter: str | None
    is_root: bool  # of partitions

    @property
    def label(self) -> str:
        """How it is called in words: with its schema, if that isn't the usual one."""
        return self.name if self.schema == "public" else f"{self.schema}.{self.name}"

    def query(self) -> str:
        """What reads its rows."""
        columns = ", ".join(quoted(column.name) for column in self.columns)
        only = "" if self.is_root else "ONLY "
        where = "" if self.filter is None else f" WHERE {self.filter}"
        return f"SELECT {columns} FROM {only}{quoted(self.schema)}.{quoted(self.name)}{where}"


def quoted(name: str) -> str:
    """A name in SQL."""
    return '"' + name.replace('"', '""') + '"'


_TABLES = """
    SELECT c.oid, p.schemaname, p.tablename, c.relreplident, c.relkind = 'p', p.attnames, p.rowfilter
    FROM pg_publication_tables p
    JOIN pg_namespace n ON n.nspname = p.schemaname
    JOIN pg_class c ON c.relname = p.tablename AND c.relnamespace = n.oid
    WHERE p.pubname = %s ORDER BY 2, 3
"""
# of an index that is the identity, of the primary key, or of all columns
_COLUMNS = """
    SELECT a.attname, a.atttypid, a.atttypmod, %(identity)s = 'f' OR EXISTS (
        SELECT FROM pg_index i WHERE i.indrelid = a.attrelid AND a.attnum = ANY (i.indkey)
        AND CASE %(identity)s WHEN 'd' THEN i.indisprimary AND i.indimmediate WHEN 'i' THEN i.indisreplident ELSE false END)
    FROM pg_attribute a
    WHERE a.attrelid = %(table)s AND a.attname = ANY (%(names)s::name[])
    AND a.attnum > 0 AND NOT a.attisdropped AND a.attgenerated = '' ORDER BY a.attnum
"""


def published(connection: Any, publication: str) -> list[Table]:
    """The tables of a publication. Raises `Unfit` if there is none of the name."""
    with connection.cursor() as cursor:
        cursor.execute("SELECT FROM pg_publication WHERE pubname = %s", (publication,))
        if cursor.fetchone() is None:
            raise Unfit(f"there is no publication {publication}")
        cursor.execute(_TABLES, (publication,))
        return [_table(cursor, *row) for row in cursor.fetchall()]


def _table(
    cursor: Any, number: int, schema: str, name: str, identity: str, is_root: bool, names: list[str] | str,
    filter: str | None,
) -> Table:  # fmt: skip
    listed = names if isinstance(names, list) else _names(names)
    cursor.execute(_COLUMNS, {"identity": identity, "table": number, "names": listed})
    columns = tuple(Column(*row) for row in cursor.fetchall())
    return Table(number, schema, name, identity, columns, filter, is_root)


_NAME = re.compile(r'"((?:[^"\\]|\\.)*)"|([^,{}]+)')


def _names(text: str) -> list[str]:
    """A list of names as PostgreSQL writes an array, which psycopg2 gives as it is."""
    return [re.sub(r"\\(.)", r"\1", quote) if quote else plain for quote, plain in _NAME.findall(text)]


def type_names(connection: Any, tables: list[Table]) -> Mapping[int, str]:
    """What the types of the columns are called."""
    numbers = sorted({column.type for table in tables for column in table.columns})
    with connection.cursor() as cursor:
        cursor.execute("SELECT oid, format_type(oid, NULL) FROM pg_type WHERE oid = ANY (%s::oid[])", (numbers,))
        return dict(cursor.fetchall())


# Rows


def read_rows(cursor: Any, table: Table, take: Callable[[list[tuple[Said, ...]]], None]) -> int:
    """Gives all rows of a table as texts, some at a time, and tells how many there were."""
    copied = _Copied(take)
    cursor.copy_expert(f"COPY ({table.query()}) TO STDOUT", copied, 1 << 16)
    copied.flush()
    return copied.count


def read_answers(cursor: Any, table: Table, mapping: TableMapping, take: Callable[[list[Answer]], None]) -> int:
    """The same as rows of a relation. Raises `Unfit`, which names the row."""
    return read_rows(cursor, table, lambda rows: take([mapping.read(row) for row in rows]))


class _Copied(io.RawIOBase):
    """What COPY writes, which is cut into rows."""

    def __init__(self, take: Callable[[list[tuple[Said, ...]]], None]) -> None:
        self.count = 0
        self._take = take
        self._rest = b""
        self._rows: list[tuple[Said, ...]] = []

    def write(self, data: Any) -> int:
        """Takes some bytes."""
        *lines, self._rest = (self._rest + bytes(data)).split(b"\n")
        for line in lines:
            self._rows.append(split_row(line.decode()))
            if len(self._rows) == AT_ONCE:
                self.flush()
        return len(data)

    def flush(self) -> None:
        """Gives the rows that are whole."""
        if self._rows:
            rows, self._rows = self._rows, []
            self.count += len(rows)
            self._take(rows)


_ESCAPE = re.compile(r"\\(.)")
_ESCAPES = {"b": "\b", "f": "\f", "n": "\n", "r": "\r", "t": "\t", "v": "\v"}


def split_row(line: str) -> tuple[Said, ...]:
    """The values of a line of COPY; none for NULL."""
    values: list[Said] = []
    for value in line.split("\t"):
        if value == "\\N":
            values.append(None)
        elif "\\" in value:
            values.append(_ESCAPE.sub(lambda found: _ESCAPES.get(found[1], found[1]), value))
        else:
            values.append(value)
    return tuple(values)
