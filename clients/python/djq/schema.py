"""The names of columns, and queries that name columns in place of counting them.

The server knows places alone. A client that is told the names writes out what names them: of a relation `lines` with the
columns `order`, `line` and `price`

    q(o,price) <- lines(order: o, price:)

is `q(o,price) <- lines(o,_,price)`. In an atom with a colon each term stands behind a column's name and a colon, in any
order; `price:` alone is `price: price`, and a column that isn't named gets a `_`. An atom without a colon stays as it is.
"""

from __future__ import annotations

import difflib
import re
from typing import Iterable, Iterator

from .errors import BadColumns
from .protocol import checked

_TEXT = r'"(?:[^"\\]|\\.)*"'
_NAME = r"[a-z][a-z0-9_]*"
_TEXTS = re.compile(_TEXT, re.DOTALL)
_ATOM = re.compile(rf'{_TEXT}|({_NAME})\s*\(((?:[^()"]|{_TEXT})*)\)', re.DOTALL)
_PART = re.compile(rf'((?:[^,"]|{_TEXT})*)(,|\Z)', re.DOTALL)
_TERM = re.compile(rf"({_NAME})\s*:\s*({_NAME}|_|-?[0-9]+|{_TEXT})?", re.DOTALL)


class Schema:
    """The names of relations' columns. One may serve several connections: `djq.connect(.., schema=schema)`."""

    def __init__(self) -> None:
        self.names: dict[str, tuple[str, ...]] = {}  # of each relation's columns, in their order

    def columns(self, relation: str, *names: str) -> None:
        """Says how all columns of a relation are named, in their order; what was said before is forgotten."""
        twice = [name for place, name in enumerate(names) if name in names[:place]]
        if twice:
            raise BadColumns(f"{relation}: two columns are named {twice[0]}")
        if not names:
            raise BadColumns(f"{relation}: a relation has a column")
        self.names[checked(relation)] = tuple(map(checked, names))

    def spell(self, query: str) -> str:
        """The query with a term for each column, in place of names. Raises `BadColumns`."""
        head, arrow, body = query.partition("<-")
        return head + arrow + _ATOM.sub(self._spell_atom, body)

    def _spell_atom(self, found: re.Match[str]) -> str:
        relation, inside = found.groups()
        if relation is None or ":" not in _TEXTS.sub("", inside):  # a text, or an atom by places
            return found[0]
        named = _named_terms(relation, inside)
        known = self._names_of(relation)
        for column in named:
            if column not in known:
                raise BadColumns(f"{relation} has no column {column}", _near(column, known) + f"it has {', '.join(known)}")
        return f"{relation}({','.join(named.get(column, '_') for column in known)})"

    def _names_of(self, relation: str) -> tuple[str, ...]:
        if relation not in self.names:
            why = _near(relation, self.names) + f"name them first, by columns: {relation} and each name"
            raise BadColumns(f"the columns of {relation} have no names here", why)
        return self.names[relation]


def _named_terms(relation: str, inside: str) -> dict[str, str]:
    """The term of each column that an atom names."""
    named: dict[str, str] = {}
    for part in _parts(inside):
        found = _TERM.fullmatch(part)
        if found is None:
            raise BadColumns(f"{relation}: no column and term: {part!r}", "beside a colon each term has a column, as in price: x")
        column, term = found.groups()
        if column in named:
            raise BadColumns(f"{relation}: the column {column} is named twice")
        named[column] = column if term is None else term
    return named


def _parts(inside: str) -> Iterator[str]:
    """What stands between commas."""
    for found in _PART.finditer(inside):
        yield found[1].strip()
        if not found[2]:
            return


def _near(name: str, known: Iterable[str]) -> str:
    close = difflib.get_close_matches(name, known, 1)
    return f"did you mean {close[0]}? " if close else ""
