"""Which columns of PostgreSQL djq can hold, and how the text of their values becomes values of a row.

| type | value |
|---|---|
| smallint, integer, bigint | the number |
| boolean | 0 or 1 |
| text, varchar, uuid | the text |
| date | days since 1970 |
| timestamp, timestamptz | microseconds since 1970, the second one in UTC |
| numeric(p,s) with p up to 18 | the number without its point, so 1.50 of numeric(6,2) is 150 |

Texts are those that PostgreSQL writes with `DateStyle` ISO and `TimeZone` UTC: see `SETTINGS`.
"""

from __future__ import annotations

import re
from collections.abc import Callable, Mapping, Sequence
from dataclasses import dataclass

from .errors import Error
from .pgoutput import Column, Said, Unchanged
from .protocol import MOST_LINE, MOST_TEXT, Answer, Value, spell

SETTINGS = "-c datestyle=ISO -c timezone=UTC -c client_encoding=UTF8 -c extra_float_digits=0"
MOST_COLUMNS = 16  # of a relation
LONGEST_NAME = 32  # bytes of a relation's name
LONGEST_INT = 21  # bytes of an integer and the space before it
MOST_DIGITS = 18  # of a numeric: as many as any number of 64 bits has room for

BOOL, INT8, INT2, INT4, TEXT, VARCHAR = 16, 20, 21, 23, 25, 1043
DATE, TIMESTAMP, TIMESTAMPTZ, NUMERIC, UUID = 1082, 1114, 1184, 1700, 2950

Read = Callable[[str], Value]


class Unfit(Error):
    """A table, a column or a value that djq can't hold. It is named in the words, with the reason."""


class NotHeld(ValueError):
    """The text of one value says what djq can't hold."""


# Values


def read_number(text: str) -> int:
    """A number without a point."""
    return int(text)


def read_bool(text: str) -> int:
    """A boolean, as an output function writes it, or as a cast to text does."""
    try:
        return {"t": 1, "f": 0, "true": 1, "false": 0}[text]
    except KeyError:
        raise NotHeld(f"not a boolean: {text!r}") from None


def read_text(text: str) -> str:
    """A text, if it isn't too long."""
    if 4 * len(text) > MOST_TEXT and (size := len(text.encode())) > MOST_TEXT:
        raise NotHeld(f"a text of {size} bytes, and {MOST_TEXT} are the most")
    return text


_DATE = re.compile(r"(\d{4,})-(\d\d)-(\d\d)( BC)?")
_TIMESTAMP = re.compile(r"(\d{4,}-\d\d-\d\d) (\d\d):(\d\d):(\d\d)(?:\.(\d{1,6}))?(?:\+00)?( BC)?")


def read_date(text: str) -> int:
    """Days since 1970."""
    found = _DATE.fullmatch(text)
    if found is None:
        raise NotHeld(f"not a date: {text}")
    year, month, day = int(found[1]), int(found[2]), int(found[3])
    return days_of(1 - year if found[4] else year, month, day)


def days_of(year: int, month: int, day: int) -> int:
    """Days from 1970 to a day of the Gregorian calendar, also before it began; the year 0 is 1 BC."""
    # years from March on, so that a leap day is the last of its year
    years, months = (year, month - 3) if month > 2 else (year - 1, month + 9)
    return 365 * years + years // 4 - years // 100 + years // 400 + (153 * months + 2) // 5 + day - 719_469


def read_timestamp(text: str) -> int:
    """Microseconds since 1970."""
    found = _TIMESTAMP.fullmatch(text)
    if found is None:
        raise NotHeld(f"not a time in UTC: {text}")
    days = read_date(found[1] + (found[6] or ""))
    seconds = (24 * days + int(found[2])) * 3600 + 60 * int(found[3]) + int(found[4])
    micros = 1_000_000 * seconds + int((found[5] or "").ljust(6, "0"))
    if micros >= 1 << 63:
        raise NotHeld(f"a time in the year 294247 or later, which 64 bits of microseconds don't reach: {text}")
    return micros


def numeric_reader(scale: int) -> Read:
    """What reads a numeric with so many digits behind the point, or, if it is below zero, so many zeros before it."""

    def read(text: str) -> int:
        whole, _, part = text.partition(".")
        if not (whole.removeprefix("-") + part).isdigit():
            raise NotHeld(f"not a number: {text}")
        if scale < 0:
            return int(whole[:scale] or "0")
        if len(part) > scale:
            raise NotHeld(f"more than {scale} digits behind the point: {text}")
        return int(whole + part.ljust(scale, "0"))

    return read


_READERS: dict[int, Read] = {
    INT2: read_number, INT4: read_number, INT8: read_number, BOOL: read_bool, TEXT: read_text, VARCHAR: read_text,
    UUID: read_text, DATE: read_date, TIMESTAMP: read_timestamp, TIMESTAMPTZ: read_timestamp,
}  # fmt: skip
_TEXTS = (TEXT, VARCHAR, UUID)


def reader_of(column: Column) -> Read | str:
    """What reads the column's values; or else why djq can't hold them."""
    if column.type != NUMERIC:
        return _READERS.get(column.type, "its type is none that djq has")
    if column.modifier < 4:
        return "numeric without a precision: numeric(p,s) with p up to 18 can be held"
    precision = (column.modifier - 4) >> 16
    scale = (((column.modifier - 4) & 0x7FF) ^ 0x400) - 0x400
    if precision > MOST_DIGITS:
        return f"numeric({precision},{scale}), and {MOST_DIGITS} digits are the most"
    return numeric_reader(scale)


# Tables


@dataclass(frozen=True)
class TableMapping:
    """How the rows of a table become rows of a relation."""

    table: str
    columns: tuple[Column, ...]
    readers: tuple[Read, ...]
    nulls: tuple[Value | None, ...]  # the value of each column's NULL, if one was given
    types: tuple[type, ...]  # of the relation's columns

    def read(self, row: Sequence[Said]) -> Answer:
        """The row of the relation. Raises `Unfit`, which names the table, the row's identity and the column."""
        values = tuple([self.value(row, place) for place in range(len(row))])
        self.check(row, values)
        return values

    def value(self, row: Sequence[Said], place: int) -> Value:
        """The value of one column of a row. Raises `Unfit`."""
        try:
            return self._value(place, row[place])
        except ValueError as error:
            raise self._unfit(row, self.columns[place].name, str(error)) from None

    def check(self, row: Sequence[Said], values: Sequence[Value]) -> None:
        """Raises `Unfit` if the line of these values is longer than the server accepts."""
        if str in self.types:
            self._check_line(row, values)

    @property
    def longest(self) -> int:
        """How many bytes the line of a row can have, by the types of its columns."""
        most = sum(LONGEST_INT if kind is int else 2 * MOST_TEXT + 3 for kind in self.types)
        return min(MOST_LINE, most + len("add ") + LONGEST_NAME)

    def _value(self, place: int, text: Said) -> Value:
        if text is None:
            null = self.nulls[place]
            if null is None:
                name = self.columns[place].name
                raise NotHeld(f"NULL, and no value was given for it by --null {self.table}.{name}=VALUE")
            return null
        if isinstance(text, Unchanged):
            raise NotHeld("a large value that the update left as it was, and the row before isn't known")
        return self.readers[place](text)

    def _check_line(self, row: Sequence[Said], values: Sequence[Value]) -> None:
        """A row's line has to fit, also behind the words of the command."""
        size = sum(len(spell(value).encode()) + 1 for value in values) + len("add ") + LONGEST_NAME
        if size > MOST_LINE:
            raise self._unfit(row, "all columns", f"a line of {size} bytes, and {MOST_LINE} are the most")

    def _unfit(self, row: Sequence[Said], column: str, why: str) -> Unfit:
        said = ", ".join(f"{one.name}={text}" for one, text in zip(self.columns, row) if one.in_identity)
        return Unfit(f"{self.table}, the row with {said or 'no key'}, {column}: {why}")


def mapping_of(
    table: str, columns: Sequence[Column], types: Mapping[int, str], nulls: Mapping[str, str]
) -> TableMapping:
    """How the rows of a table with these columns are held. `types` names the types by their numbers; `nulls` has the
    texts that `--null` gives. Raises `Unfit` with all that is wrong, a line each."""
    wrong: list[str] = []
    readers: list[Read] = []
    values: list[Value | None] = []
    for column in columns:
        reader = reader_of(column)
        if isinstance(reader, str):
            wrong.append(f"{table}.{column.name}: {types.get(column.type, f'type {column.type}')}: {reader}")
            continue
        readers.append(reader)
        try:
            values.append(reader(nulls[column.name]) if column.name in nulls else None)
        except ValueError as error:
            wrong.append(f"{table}.{column.name}: --null: {error}")
    names = {column.name for column in columns}
    wrong += [f"{table}.{name}: --null names no column that is published" for name in nulls if name not in names]
    if not 1 <= len(columns) <= MOST_COLUMNS:
        wrong.append(f"{table}: {len(columns)} columns are published, and a relation has 1 to {MOST_COLUMNS}")
    if wrong:
        raise Unfit("\n".join(wrong))
    held = tuple(str if column.type in _TEXTS else int for column in columns)
    return TableMapping(table, tuple(columns), tuple(readers), tuple(values), held)
