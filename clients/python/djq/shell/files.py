"""Rows from CSV files, and answers into them.

A file is read twice: first each row is looked at, so that nothing is sent of a file with a row that doesn't fit; then
the rows are sent, by transactions, of which each is one change. Where the server refuses a row even so, or where it is
interrupted, the copies that it had added are taken again.
"""

from __future__ import annotations

import contextlib
import csv
import os
import re
import tempfile
from typing import Callable, Iterator, Sequence

from ..errors import Error, SomeRefused
from ..protocol import MOST_LINE, MOST_TEXT, Answer, Rows, Value, spell
from .session import Session

# what became of a row: its first copy came; or one copy more; or either, by a transaction
FIRST, FURTHER, EITHER = 1, 2, 3
ROWS_AT_ONCE = 500  # that are made lines of before they are sent
HELD_AT_ONCE = 1000  # rows of a transaction: for so long other sessions wait
MOST_DUE = 2000  # replies that are left due while more is sent
_INTEGER = re.compile("-?[0-9]+")

csv.field_size_limit(1 << 20)


class BadFile(Exception):
    """A file that can't be loaded or written, and why."""


def read_rows(path: str, relation: str, kinds: Sequence[str], header: bool) -> Iterator[list[Value]]:
    """The rows of a file, which fit a relation with these columns. Raises `BadFile` at the first that doesn't."""
    try:
        with open(path, encoding="utf-8-sig", errors="surrogateescape", newline="") as file:
            reader = csv.reader(file, strict=True)
            before, first = 0, True
            for cells in reader:
                line, before = before + 1, reader.line_num
                if not cells or (first and header):
                    first = first and not cells
                    continue
                try:
                    yield _row(cells, relation, kinds)
                except ValueError as error:
                    hint = _is_header(cells, kinds) if first else ""
                    raise BadFile(f"{path}, line {line}: {error}{hint}") from error
                first = False
    except csv.Error as error:
        raise BadFile(f"{path}, line {reader.line_num}: {error}") from error
    except OSError as error:
        raise BadFile(f"{path}: {error.strerror}") from error


def _row(cells: list[str], relation: str, kinds: Sequence[str]) -> list[Value]:
    """A row of these cells. Raises `ValueError`."""
    if len(cells) != len(kinds):
        raise ValueError(f"{len(cells)} values, and {relation} has {len(kinds)} columns: {' '.join(kinds)}")
    row = [_value(at, text, kind) for at, (text, kind) in enumerate(zip(cells, kinds), 1)]
    if "text" in kinds and len(" ".join(["add", relation, *map(spell, row)]).encode()) > MOST_LINE:
        raise ValueError(f"the row takes more than the {MOST_LINE} bytes of a line")
    return row


def _value(at: int, text: str, kind: str) -> Value:
    shown = text if len(text) <= 40 else text[:40] + " .."
    if kind == "int":
        if _INTEGER.fullmatch(text) is None:
            raise ValueError(f"value {at} is no int: {shown!r}")
        if len(text) > MOST_LINE or not -(2**63) <= int(text) < 2**63:
            raise ValueError(f"value {at} is past 64 bits: {shown}")
        return int(text)
    try:
        size = len(text.encode())
    except UnicodeError:
        raise ValueError(f"value {at} isn't UTF-8") from None
    if size > MOST_TEXT:
        raise ValueError(f"value {at} is a text of {size} bytes, and {MOST_TEXT} are the most: {shown!r}")
    return text


def _is_header(cells: list[str], kinds: Sequence[str]) -> str:
    """What to say where the first row that doesn't fit looks like the names of columns."""
    names = len(cells) == len(kinds) and not any(_INTEGER.fullmatch(text) for text in cells)
    return "; where it names the columns, write header behind the relation" if names else ""


class _Adds(Rows):
    """Rows that were sent together, and what became of each: `FIRST`, `FURTHER`, or 0 where it was refused."""

    def __init__(self, rows: list[str], load: Load) -> None:
        super().__init__(rows, {})
        self._load = load

    def take(self, lines: list[str], at: int) -> int:
        end = super().take(lines, at)
        came = [_became(line) for line in lines[at:end]]
        self._load.came += bytes(came)
        self._load.further += came.count(FURTHER)
        return end


class _Transaction(Rows):
    """Rows that are added by a transaction, and what became of each: `EITHER`, or 0 where it was refused.

    A server that has no memory to begin one takes each row alone.
    """

    def __init__(self, rows: list[str], load: Load) -> None:
        super().__init__(["batch", *rows, f"done {len(rows)}"], {})
        self._load = load
        self._replies: list[str] = []

    def _refuse(self, reply: str) -> None:
        if self.refused and self.replies == len(self.lines) - 1:
            self.replies += 1  # of `done`, which names more lines than are held
        else:
            super()._refuse(reply)

    def take(self, lines: list[str], at: int) -> int:
        end = super().take(lines, at)
        self._replies += lines[at:end]
        if self.done:
            done = self._replies[-1].split(" ")
            held = EITHER if done[0] == "ok" else 0
            came = [held if reply.startswith("ok held ") else _became(reply) for reply in self._replies[1:-1]]
            self._load.came += bytes(came)
            self._load.further += came.count(FURTHER)
            if done[0] == "ok":
                self._load.further += came.count(EITHER) - int(done[3])
        return end


def _became(reply: str) -> int:
    if not reply.startswith("ok added "):
        return 0
    return FIRST if reply.endswith(" 1") else FURTHER


class Load:
    """A file on its way into a relation: of each row that was answered, what became of it."""

    def __init__(self, session: Session, relation: str, at_once: bool) -> None:
        self.came = bytearray()
        self.further = 0  # how many rows were given one copy more
        self._session, self._relation, self._at_once = session, relation, at_once
        self._sent = 0
        self._open: list[Rows] = []

    def run(self, rows: Iterator[list[Value]], progress: Callable[[int], None]) -> None:
        """Sends the rows. Raises `SomeRefused` at a refusal."""
        lines: list[str] = []
        for row in rows:
            lines.append(f"add {self._relation} " + " ".join(map(spell, row)))
            if len(lines) == (HELD_AT_ONCE if self._at_once else ROWS_AT_ONCE):
                self._add(lines, progress)
                lines = []
        self._add(lines, progress)
        self._settle(0, progress)

    def count(self) -> int:
        """How many rows were given a copy."""
        return len(self.came) - self.came.count(0)

    def undo(self, rows: Iterator[list[Value]], which: tuple[int, ...] = (FIRST, FURTHER, EITHER)) -> int:
        """Takes the copy again of each row of which this became, and gives how many that were."""
        progress: Callable[[int], None] = lambda done: None
        with contextlib.suppress(SomeRefused):
            self._settle(0, progress)
        lines: list[str] = []
        taken = 0
        for came, row in zip(bytes(self.came), rows):
            if came in which:
                lines.append(f"del {self._relation} " + " ".join(map(spell, row)))
            if len(lines) == ROWS_AT_ONCE:
                taken += len(lines)
                self._send(Rows(lines, {}), progress)
                lines = []
        self._send(Rows(lines, {}), progress)
        self._settle(0, progress)
        return taken + len(lines)

    def _add(self, lines: list[str], progress: Callable[[int], None]) -> None:
        self._sent += len(lines)
        if lines:
            self._send(_Transaction(lines, self) if self._at_once else _Adds(lines, self), progress)

    def _send(self, rows: Rows, progress: Callable[[int], None]) -> None:
        if not rows.lines:
            return
        own = self._session.connection
        own._check()
        own._whole(own._protocol._queue, rows, ("\n".join(rows.lines) + "\n").encode(), len(rows.lines))
        self._open.append(rows)
        own._move(0)
        self._settle(MOST_DUE, progress)

    def _settle(self, due: int, progress: Callable[[int], None]) -> None:
        """Waits until no more replies than this are due. Raises what was refused."""
        own = self._session.connection
        while own._protocol.ended is None and own._protocol.due > due:
            own._await(own.timeout)
            progress(len(self.came))
        refused = [rows for rows in self._open if rows.refused]
        self._open = [rows for rows in self._open if not rows.done and not rows.refused]
        if own._protocol.ended is not None:
            raise own._protocol.ended
        if refused:
            raise SomeRefused(self._sent, sum(rows.refused for rows in refused), refused[0].first[:1])


def write_answers(path: str, answers: Sequence[Answer], heads: Sequence[str]) -> None:
    """Writes answers, and before them the names of their columns. The file is whole at once, or as it was."""
    directory = os.path.dirname(os.path.abspath(path))
    try:
        descriptor, beside = tempfile.mkstemp(prefix=".djq-", suffix=".csv", dir=directory)
    except OSError as error:
        raise BadFile(f"{path}: {error.strerror}") from error
    try:
        with open(descriptor, "w", encoding="utf-8", newline="") as file:
            # each text in quotes: else one with a CR in it would end its row
            writer = csv.writer(file, quoting=csv.QUOTE_NONNUMERIC, lineterminator="\n")
            if heads:
                writer.writerow(heads)
            writer.writerows(answers)
        mask = os.umask(0)
        os.umask(mask)
        os.chmod(beside, 0o666 & ~mask)
        os.replace(beside, path)
    except OSError as error:
        raise BadFile(f"{path}: {error.strerror}") from error
    finally:
        with contextlib.suppress(OSError):
            os.unlink(beside)
