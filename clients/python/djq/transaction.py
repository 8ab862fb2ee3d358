"""The lines of a transaction, as they are collected, and what became of it."""

from __future__ import annotations

from collections.abc import Sequence

from .errors import Error
from .protocol import Commit, Done, Value, spell_line


class Collected:
    """What a transaction is given in its block. Nothing of it is sent before the block's end."""

    def __init__(self) -> None:
        self._lines: list[str] = []
        self._ended = False
        self._commit: Commit | None = None

    def add(self, relation: str, *values: Value) -> None:
        """Adds a copy of a row, at the block's end."""
        self._hold("add", relation, values)

    def delete(self, relation: str, *values: Value) -> None:
        """Removes a copy of a row, at the block's end. If it has none then, all is refused with `RowAbsent`."""
        self._hold("del", relation, values)

    def update(self, relation: str, old: Sequence[Value], new: Sequence[Value]) -> None:
        """Replaces a row by another one. If the old one has no copy then, all is refused with `RowAbsent`."""
        before = len(self._lines)
        try:
            self.delete(relation, *old)
            self.add(relation, *new)
        except BaseException:
            del self._lines[before:]
            raise

    def result(self) -> Done:
        """What became of the transaction, once the block has ended; within a pipeline, once that has."""
        if self._commit is None:
            raise Error("the transaction isn't done")
        return self._commit.result()

    def _hold(self, command: str, relation: str, values: tuple[Value, ...]) -> None:
        if self._ended:
            raise Error("the block of the transaction has ended")
        line = spell_line(command, relation, values)
        line.encode()  # what isn't UTF-8 fails here
        self._lines.append(line)

    def _end(self) -> list[str]:
        """The lines of the transaction, which takes no further ones."""
        self._ended = True
        return self._lines
