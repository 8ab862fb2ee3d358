"""What a session has seen of the server's relations and queries, and its own cursors and watches."""

from __future__ import annotations

import re
from typing import TYPE_CHECKING

from ..protocol import ENDING
from ..schema import Schema
from .queries import MOST_COLUMNS, Query, read_query

if TYPE_CHECKING:
    from .session import Session

PROBE = "djq_shell_asks_for_columns"


class Names:
    """Names that were seen, by the lines that the server accepted."""

    def __init__(self) -> None:
        self.columns: dict[str, tuple[str, ...]] = {}  # of relations
        self.schema = Schema()  # the names of their columns, which a person gave
        self.relations: set[str] = set()
        self.queries: dict[str, Query | None] = {}  # for a union one of its members, by whose head its answers are told
        self.unions: dict[str, tuple[str, ...]] = {}  # each union's members
        self.cursors: dict[str, str] = {}  # each cursor's query
        self.watched: set[str] = set()
        self.held: int | None = None  # how many lines the open batch holds; none where no batch is open
        self.deletes: list[str] = []  # those of them that delete a row

    def saw(self, line: str) -> None:
        """Takes what a line tells that the server accepted."""
        words = line.split()
        command, name = words[0], words[1] if len(words) > 1 else ""
        if command == "rel":
            self.columns[name] = tuple(words[2:])
            self.relations.add(name)
        elif command == "query":
            query = read_query(line.strip()[len("query") :])
            if query is not None:
                self.queries[query.name] = query
                self.unions.pop(query.name, None)  # which another session has dropped
                self.relations.update(atom.relation for atom in query.atoms)
        elif command in ("add", "del"):
            self.relations.add(name)
        elif command == "union":
            self.saw_union(name, words[2:])
        else:
            self._saw_of_query(command, name, words[2] if len(words) > 2 else "")

    def saw_union(self, name: str, members: list[str]) -> None:
        """Takes which members a union has."""
        known = [query for member in members if (query := self.queries.setdefault(member, None)) is not None]
        self.unions[name] = tuple(members)
        self.queries[name] = known[0] if known else None

    def _saw_of_query(self, command: str, name: str, further: str) -> None:
        if command == "open":
            self.cursors[name] = further
            self.queries.setdefault(further, None)
        elif command == "close":
            self.cursors.pop(name, None)
        elif command == "drop":
            self.queries.pop(name, None)
            self.unions.pop(name, None)
        elif command in ("watch", "has", "explain", "shape"):
            self.queries.setdefault(name, None)
            if command == "watch":
                self.watched.add(name)
        elif command == "unwatch":
            self.watched.discard(name)

    def saw_of_batch(self, line: str, reply: str) -> None:
        """Takes what the reply to a line tells of the batch. Also a `done` that is refused ends it."""
        command = line.split()[0]
        if reply == "ok batch":
            self.held, self.deletes = 0, []
        elif reply.startswith("ok held "):
            self.held = int(reply.removeprefix("ok held "))
            self.deletes += [line.strip(" ")] * (command == "del")
        elif command in ("done", "abandon") and not reply.startswith(("err 1 ", "err 18 ")):
            self.held = None
        elif command in ENDING:
            self.held = None

    def head(self, query: str, width: int) -> list[str]:
        """The names of a query's columns, as far as they are known, else their numbers."""
        known = self.queries.get(query)
        if known is not None and len(known.head) == width:
            return list(known.head)
        return [str(place + 1) for place in range(width)]

    def new_session(self) -> None:
        """Cursors, watches and a batch are a session's own, and the server may be another one."""
        self.held = None
        self.cursors.clear()
        self.watched.clear()
        self.columns.clear()


def find_columns(names: Names, session: Session, relation: str) -> tuple[str, ...] | None:
    """The types of a relation's columns; none where there is no such relation, or they aren't known while a batch is
    open.

    The server has no command that tells them. So it is asked for queries that it refuses in any case, since their head
    names a variable twice: what it finds fault with before that tells how many columns there are and of which types.
    Nothing is registered.
    """
    if re.fullmatch("[a-z][a-z0-9_]{0,31}", relation) is None:
        return None
    if relation not in names.columns:
        if names.held is not None:  # no query is answered as long as a batch is open
            return None
        columns = _ask_for_columns(session, relation)
        if columns is None:
            return None
        names.columns[relation] = columns
        names.relations.add(relation)
    return names.columns[relation]


def _ask_for_columns(session: Session, relation: str) -> tuple[str, ...] | None:
    def refused_by(terms: list[list[str]]) -> list[str]:
        lines = [f"query {PROBE}(x,x) <- {relation}({','.join(row)})" for row in terms]
        return [said.reply[0].split()[1] if said.reply else "" for said in session.ask(*lines)]

    by_width = refused_by([["_"] * width for width in range(1, MOST_COLUMNS + 1)])
    if "9" not in by_width:
        return None
    width = by_width.index("9") + 1
    # a constant of 0 in one column: refused by its type where that is a column of texts
    by_place = refused_by([["0" if at == place else "_" for at in range(width)] for place in range(width)])
    return tuple("text" if number == "7" else "int" for number in by_place)
