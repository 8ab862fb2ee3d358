"""What PostgreSQL's plugin pgoutput says of changes, message by message: bytes in, what they mean out. It knows no
socket.

    message = decode(b"I...")                       # Insert(relation=16384, new=("7", "bolt"))

It is version 1 of the protocol, in text. A value is its text, `None` for NULL, or `UNCHANGED` for a large one that an
update left as it was and that isn't sent. Of a row that was updated or deleted the message has what the table's
replica identity says: the columns of a key, all of the old row, or nothing.
"""

from __future__ import annotations

import enum
import struct
from dataclasses import dataclass
from typing import Final, Union

from .errors import Error

EPOCH: Final = 946_684_800_000_000  # microseconds from 1970 to 2000, from where PostgreSQL counts


class Unchanged(enum.Enum):
    """The type of `UNCHANGED`."""

    UNCHANGED = "unchanged"


UNCHANGED: Final = Unchanged.UNCHANGED

Said = Union[str, None, Unchanged]
Row = tuple[Said, ...]


class NotDecoded(Error):
    """A message isn't one of pgoutput, or of a kind that wasn't asked for."""


@dataclass(frozen=True)
class Begin:
    """A transaction begins, which ended at this place of the log, at this time in microseconds since 1970."""

    final: int
    time: int
    transaction: int


@dataclass(frozen=True)
class Commit:
    """A transaction has ended. `end` is the place behind it, which is what is confirmed once it is taken over."""

    commit: int
    end: int
    time: int


@dataclass(frozen=True)
class Origin:
    """The transaction came from another server, where it ended at this place."""

    commit: int
    name: str


@dataclass(frozen=True)
class Column:
    """A column that is published: the number of its type, what qualifies that, and whether it is of the identity."""

    name: str
    type: int
    modifier: int
    in_identity: bool


@dataclass(frozen=True)
class Relation:
    """A table, before the first change of it and whenever its definition has changed.

    `identity` is the setting: `d` the primary key, `i` an index, `f` the whole row, `n` nothing. Which columns these
    are is said by `in_identity` of each.
    """

    relation: int
    schema: str
    name: str
    identity: str
    columns: tuple[Column, ...]


@dataclass(frozen=True)
class Type:
    """A type that isn't PostgreSQL's own, before a table that has it."""

    type: int
    schema: str
    name: str


@dataclass(frozen=True)
class Insert:
    """A row came."""

    relation: int
    new: Row


@dataclass(frozen=True)
class Update:
    """A row has changed. `old` is all of it before, `key` its identity before; neither if the identity is as it was."""

    relation: int
    key: Row | None
    old: Row | None
    new: Row


@dataclass(frozen=True)
class Delete:
    """A row went: `old` is all of it, or `key` its identity."""

    relation: int
    key: Row | None
    old: Row | None


@dataclass(frozen=True)
class Truncate:
    """All rows of these tables went."""

    relations: tuple[int, ...]
    cascade: bool
    restart: bool


Message = Union[Begin, Commit, Origin, Relation, Type, Insert, Update, Delete, Truncate]

_SHORT, _INT, _LONG = struct.Struct(">h"), struct.Struct(">I"), struct.Struct(">Q")
_MODIFIER, _TIME = struct.Struct(">i"), struct.Struct(">q")


class _Bytes:
    """A message that is read from the front."""

    def __init__(self, data: bytes) -> None:
        self.data, self.at = data, 1

    def read(self, form: struct.Struct) -> int:
        """A number."""
        at, self.at = self.at, self.at + form.size
        number: int = form.unpack_from(self.data, at)[0]
        return number

    def byte(self) -> str:
        """A byte that stands for a letter."""
        at, self.at = self.at, self.at + 1
        return chr(self.data[at])

    def flags(self) -> int:
        """A byte of flags."""
        at, self.at = self.at, self.at + 1
        return self.data[at]

    def time(self) -> int:
        """A time, in microseconds since 1970."""
        return self.read(_TIME) + EPOCH

    def name(self) -> str:
        """A text that ends with a byte 0."""
        end = self.data.index(b"\0", self.at)
        at, self.at = self.at, end + 1
        return self.data[at:end].decode()

    def row(self) -> Row:
        """The values of a row."""
        return tuple([self.value() for _ in range(self.read(_SHORT))])

    def value(self) -> Said:
        """One value."""
        kind = self.byte()
        if kind == "t":
            length = self.read(_INT)
            at, self.at = self.at, self.at + length
            if self.at > len(self.data):
                raise NotDecoded("a value ends behind its message")
            return self.data[at : self.at].decode()
        if kind == "n":
            return None
        if kind == "u":
            return UNCHANGED
        raise NotDecoded(f"a value of the kind {kind!r}, where text was asked for")


def decode(data: bytes) -> Message:
    """What a message says. Raises `NotDecoded`."""
    letter = chr(data[0]) if data else ""
    read = _READ.get(letter)
    if read is None:
        raise NotDecoded(f"a message of the kind {letter!r}, which wasn't asked for")
    rest = _Bytes(data)
    try:
        message = read(rest)
    except (struct.error, IndexError, ValueError) as error:
        raise NotDecoded(f"a message of the kind {letter!r} that is cut: {error}") from error
    if rest.at != len(data):
        raise NotDecoded(f"a message of the kind {letter!r} with {len(data) - rest.at} bytes too many")
    return message


def _begin(rest: _Bytes) -> Message:
    return Begin(rest.read(_LONG), rest.time(), rest.read(_INT))


def _commit(rest: _Bytes) -> Message:
    rest.flags()
    return Commit(rest.read(_LONG), rest.read(_LONG), rest.time())


def _origin(rest: _Bytes) -> Message:
    return Origin(rest.read(_LONG), rest.name())


def _relation(rest: _Bytes) -> Message:
    number, schema, name, identity = rest.read(_INT), rest.name(), rest.name(), rest.byte()
    columns = [_column(rest) for _ in range(rest.read(_SHORT))]
    return Relation(number, schema or "pg_catalog", name, identity, tuple(columns))


def _column(rest: _Bytes) -> Column:
    in_identity = bool(rest.flags() & 1)
    return Column(rest.name(), rest.read(_INT), rest.read(_MODIFIER), in_identity)


def _type(rest: _Bytes) -> Message:
    return Type(rest.read(_INT), rest.name() or "pg_catalog", rest.name())


def _insert(rest: _Bytes) -> Message:
    number = rest.read(_INT)
    _expect(rest.byte(), "N")
    return Insert(number, rest.row())


def _update(rest: _Bytes) -> Message:
    number, kind = rest.read(_INT), rest.byte()
    key = rest.row() if kind == "K" else None
    old = rest.row() if kind == "O" else None
    if kind != "N":
        kind = rest.byte()
    _expect(kind, "N")
    return Update(number, key, old, rest.row())


def _delete(rest: _Bytes) -> Message:
    number, kind = rest.read(_INT), rest.byte()
    _expect(kind, "KO")
    row = rest.row()
    return Delete(number, row if kind == "K" else None, row if kind == "O" else None)


def _truncate(rest: _Bytes) -> Message:
    count, options = rest.read(_INT), rest.flags()
    return Truncate(tuple([rest.read(_INT) for _ in range(count)]), bool(options & 1), bool(options & 2))


def _expect(kind: str, kinds: str) -> None:
    if kind not in kinds:
        raise NotDecoded(f"a row of the kind {kind!r}")


_READ = {
    "B": _begin, "C": _commit, "O": _origin, "R": _relation, "Y": _type,
    "I": _insert, "U": _update, "D": _delete, "T": _truncate,
}  # fmt: skip
