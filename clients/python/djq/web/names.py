"""What the server has, as far as this program can know it: queries with the names of their columns, and relations.

The server has no command that lists its relations or queries. So what is known is what the page file and `--query`
name, what the demo registers, and what somebody asked for by its name and was found. All that depends on that is here:
once the server can be asked, `queries`, `relations` and `look_up` ask it.
"""

from __future__ import annotations

import re
from typing import Iterable

from ..aio import Connection
from ..errors import Arity, BadName, HeadRepeated, NoQuery, NoRelation, Refused, Taken, WrongType
from ..protocol import checked

MOST_COLUMNS = 16  # of a relation, and of a head
OF_RELATION = "web_"  # what begins the name of the query that shows a relation
PROBE = "djq_web_asks_for_columns"

_HEAD = re.compile(r"\s*([a-z][a-z0-9_]*)\s*(?:\(([a-z0-9_,\s]*)\)\s*)?(?:<-.*)?", re.DOTALL)


class Names:
    """Names of queries and relations."""

    def __init__(self) -> None:
        self._columns: dict[str, list[str]] = {}  # of each query, as far as they have names
        self._relations: dict[str, str] = {}  # the query that shows each relation

    def know(self, query: str, columns: Iterable[str] = ()) -> None:
        """There is, or will be, a query of this name; columns that are known already keep their names."""
        named = list(columns)
        if named or query not in self._columns:
            self._columns[query] = named or self._columns.get(query, [])

    def know_head(self, text: str) -> None:
        """The same, by the head of a query, as `q(x,y)`, or by its whole text. Raises `BadName`."""
        found = _HEAD.fullmatch(text)
        if found is None:
            raise BadName(text)
        columns = [checked(name.strip()) for name in (found[2] or "").split(",") if name.strip()]
        self.know(checked(found[1]), columns)

    def queries(self) -> list[str]:
        """The queries that are known, in order."""
        return sorted(set(self._columns) - set(self._relations.values()))

    def relations(self) -> list[str]:
        """The relations that are known, in order."""
        return sorted(self._relations)

    def columns(self, query: str) -> list[str]:
        """The names of a query's columns, as far as they are known."""
        return list(self._columns.get(query, []))

    def labels(self, query: str, width: int) -> list[str]:
        """A name for each of so many columns of a query: the number of one that has none."""
        known = self.columns(query)[:width]
        return known + [str(place + 1) for place in range(len(known), width)]

    def place(self, query: str, column: str) -> int | None:
        """Which of a query's columns has this name or number; none where none has."""
        known = self._columns.get(query, [])
        if column in known:
            return known.index(column)
        if column.isascii() and column.isdigit() and 1 <= int(column) <= MOST_COLUMNS:
            return int(column) - 1
        return None

    async def look_up(self, server: Connection, name: str, registers: bool = True) -> str | None:
        """The query by which this name is shown: its own, or for a relation one that has the relation's rows, which is
        registered where it isn't there and where that is wanted. None where there is neither."""
        try:
            await server.shape(name)
            self.know(name)
            return name
        except NoQuery:
            pass
        if not registers:
            return self._relations.get(name)
        width = await _width(server, name)
        if width == 0:
            return None
        query = OF_RELATION + name
        columns = [f"column{place + 1}" for place in range(width)]
        try:
            await server.query(f"{query}({','.join(columns)}) <- {name}({','.join(columns)})")
        except Taken:
            pass
        self.know(query, [str(place + 1) for place in range(width)])
        self._relations[name] = query
        return query


async def _width(server: Connection, relation: str) -> int:
    """How many columns a relation has; 0 where there is none of the name.

    The server is asked for queries that it refuses in any case, since their head names a variable twice. What it finds
    fault with before that tells whether there are as many columns.
    """
    for width in range(1, MOST_COLUMNS + 1):
        terms = ",".join(["x", *["_"] * (width - 1)])
        try:
            await server.query(f"{PROBE}(x,x) <- {relation}({terms})")
        except NoRelation:
            return 0
        except HeadRepeated:
            return width
        except (Arity, WrongType):
            continue
        except Refused:
            return 0
    return 0
