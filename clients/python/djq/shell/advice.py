"""What to do after a refusal."""

from __future__ import annotations

import difflib
import re
from typing import Callable

from .. import syntax
from ..errors import BadColumns, NotFreeConnex, Refused, Stale
from ..protocol import ENDING, HELD_BYTES, MOST_ANSWERS, MOST_HELD, MOST_MEMBERS
from .names import Names
from .queries import MOST_ATOMS, MOST_COLUMNS, MOST_HEAD, Query, cures, read_query, ring

FORMS = {
    "rel": f"rel NAME int text ..              a relation with 1 to {MOST_COLUMNS} columns",
    "add": 'add NAME 1 "a text" ..            puts a row in, or gives it one copy more',
    "del": 'del NAME 1 "a text" ..            takes a copy of a row; the last takes it out',
    "batch": "batch                             then: add .. and del .., and done or abandon",
    "done": "done, or done 3                   carries out the lines of the batch; 3: if it holds so many",
    "abandon": "abandon                           discards the lines of the batch",
    "query": "query NAME(x,y) <- REL(x,z), REL(z,y,3), x >= 5",
    "union": f"union NAME QUERY QUERY ..         2 to {MOST_MEMBERS} queries",
    "drop": "drop QUERY",
    "open": "open CURSOR QUERY                 then: next CURSOR 20",
    "next": f"next CURSOR COUNT                 1 to {MOST_ANSWERS} answers",
    "close": "close CURSOR",
    "has": 'has QUERY 1 "a text" ..           whether that is an answer',
    "watch": "watch QUERY",
    "unwatch": "unwatch QUERY",
    "explain": "explain QUERY",
    "shape": "shape QUERY",
    "quit": "quit",
    "stop": "stop",
}

LIMITS = {
    "rel": f"a relation has at most {MOST_COLUMNS} columns, and a server 256 relations",
    "add": "a row has at most 4,294,967,295 copies, a relation as many rows, and a server as many texts",
    "query": f"a query has at most {MOST_ATOMS} atoms, 128 variables with each _ counted, {MOST_HEAD} variables in its"
    " head, and 32 comparisons; a server has 256 queries and unions: drop one that nobody needs",
    "union": f"a union has at most {MOST_MEMBERS} members; a server has 256 queries and unions: drop one that isn't"
    " needed",
    "open": "a session has at most 16 cursors: close one",
}
NOTHING_DONE = "nothing of the batch was carried out"
LIMITS["done"] = f"{NOTHING_DONE}: {LIMITS['add']}"

Columns = Callable[[str], "tuple[str, ...] | None"]


def advice(error: Exception, line: str, names: Names, columns: Columns) -> list[str]:
    """What to do next, a line each. `columns` finds a relation's columns."""
    words = line.split()
    command, name = words[0], words[1] if len(words) > 1 else ""
    if isinstance(error, NotFreeConnex):
        return _of_ring(error, line)
    if isinstance(error, Stale):
        cursor, query = name, names.cursors.get(name, "QUERY")
        return [f"rows changed since it was opened: close {cursor}, then open {cursor} {query}",
                f"\\show {query} and \\dump list the answers of one moment, also while rows change"]  # fmt: skip
    if not isinstance(error, Refused) or isinstance(error, BadColumns):  # which says all itself
        return []
    if error.number == 1:
        return _of_syntax(line, command)
    if error.number in (2, 3, 4, 5, 14):
        return _of_names(error.number, command, line, names)
    if error.number in (6, 7):
        return _of_values(command, name, line, columns)
    if error.number in (8, 9, 10, 16):
        return _of_head(error.number, line, columns)
    if error.number == 11:
        if command in ("add", "del") and names.held is not None:
            most = f"a batch holds at most {MOST_HELD:,} lines, of {HELD_BYTES:,} bytes"
            return [f"{most}: say done, and batch for the next ones"]
        return [LIMITS.get(command, "a limit is reached")]
    if error.number == 12:
        more = "the server has no memory left: delete rows, drop queries, or give its machine more"
        return [NOTHING_DONE] * (command == "done") + [more]
    if error.number == 17:
        return _of_members(words[2:], names)
    if error.number == 18:
        return _of_batch(command, names)
    if error.number == 19:
        rows = [deleted.partition(" ")[2] for deleted in names.deletes]
        which = rows[0] if len(rows) == 1 else f"one of the {len(rows):,} rows that del names"
        return [f"no copy of {which} is there: look at what is, and begin again with batch"]
    if error.number == 20:
        return [f"{NOTHING_DONE}: {held_lines(names)} held; begin again with batch"]
    return []


def held_lines(names: Names) -> str:
    """How many lines the batch holds, in words."""
    return f"{names.held or 0:,} {'line was' if names.held == 1 else 'lines were'}"


def _of_batch(command: str, names: Names) -> list[str]:
    if command in ENDING:
        return [f"{held_lines(names)} held, and {NOTHING_DONE}"]
    if names.held is None:
        return ["batch opens one"]
    lines = f"{names.held:,} {'line' if names.held == 1 else 'lines'}"
    return [f"it holds {lines}: done carries them out, abandon discards them; add and del hold further ones"]


def _of_members(members: list[str], names: Names) -> list[str]:
    twice = [member for place, member in enumerate(members) if member in members[:place]]
    if twice:
        return [f"name {twice[0]} once"]
    inner = [member for member in members if member in names.unions]
    if inner:
        return [f"{inner[0]} is a union itself: name its members, {' '.join(names.unions[inner[0]])}"]
    known = [query for member in members if (query := names.queries.get(member)) is not None]
    heads = ", ".join(f"{query.name}({','.join(query.head)})" for query in known)
    return ["all heads have as many variables, of the same types in order" + (f": {heads}" if heads else "")]


def _of_ring(error: NotFreeConnex, line: str) -> list[str]:
    query = read_query(line.strip()[len("query") :])
    rest = " - ".join(",".join(edge) for edge in error.edges)
    if query is None:
        return [f"a ring stays: {rest}"]
    edges = [frozenset(edge) for edge in error.edges]
    if ring([atom.variables for atom in query.atoms]):
        told = [f"these variables stand in a ring that no atom fills: {rest}"]
    else:
        left_out = sorted({v for edge in edges for v in edge} - set(query.head))
        told = [f"the head leaves out {', '.join(left_out)}, by which its own variables hang together: {rest}"]
    found = cures(query)
    for at, cure in enumerate(found):
        front = "" if len(found) == 1 else "either " if at == 0 else "or "
        told.append(f"{front}{cure.what}:")
        told += [f"    query {admitted}" for admitted in cure.queries]
    return told


def _of_syntax(line: str, command: str) -> list[str]:
    if command not in FORMS:
        close = difflib.get_close_matches(command.lower(), FORMS, 1)
        meant = f"did you mean {close[0]}? " if close else ""
        return [f"there is no command {command}: {meant}\\? lists them all"]
    count = [f"the count is from 1 to {MOST_ANSWERS}"] * (command == "next")
    return [FORMS[command].strip(), *count, *syntax.of_line(line)]


def _of_names(number: int, command: str, line: str, names: Names) -> list[str]:
    wanted = re.split(r"[ (]+", line.strip())
    name = wanted[2] if command == "open" and number == 4 and len(wanted) > 2 else wanted[1] if len(wanted) > 1 else ""
    if command == "union" and number == 4:
        name = next((member for member in wanted[2:] if member not in names.queries), wanted[2])
    if number == 2:
        if command in ("query", "union"):
            return [f"drop {name} first, or take another name"]
        if command == "open":
            return [f"close {name} first, or take another name"]
        return ["its rows are as they were: use it as it is, or take another name"]
    if number == 14:
        mine = [cursor for cursor, query in names.cursors.items() if query == name]
        own = [f"close {cursor}" for cursor in mine] + ([f"unwatch {name}"] if name in names.watched else [])
        own += [f"drop {union}" for union, members in names.unions.items() if name in members]
        others = "another session has a cursor or a watch on it, or it is a union's member"
        return [", ".join(own) + " first" if own else others]
    if number == 3:
        if command == "query":
            query = read_query(line.strip()[len("query") :])
            missing = [atom.relation for atom in query.atoms if atom.relation not in names.relations] if query else []
            name = missing[0] if missing else ""
            if meant := syntax.of_relation(name):
                return [meant]
        return _near(name, sorted(names.relations), f"make it: rel {name or 'NAME'} int text ..")
    if number == 4:
        return _near(name, sorted(names.queries), f"register it: query {name}(x,y) <- REL(x,y)")
    return _near(name, sorted(names.cursors), f"open one: open {name} QUERY")


def _near(name: str, known: list[str], otherwise: str) -> list[str]:
    close = difflib.get_close_matches(name, known, 1)
    return ([f"did you mean {close[0]}?"] if close and close[0] != name else []) + [otherwise]


def _of_values(command: str, name: str, line: str, columns: Columns) -> list[str]:
    if command in ("add", "del"):
        kinds = columns(name)
        return [f"{name} has the columns {' '.join(kinds)}"] if kinds else []
    if command == "query":
        query = read_query(line.strip()[len("query") :])
        told = _of_comparisons(query, columns) if query else []
        for relation in dict.fromkeys(atom.relation for atom in query.atoms) if query else []:
            kinds = columns(relation)
            if kinds:
                told.append(f"{relation} has the columns {' '.join(kinds)}")
        return told
    return [f"{command} {name} takes a value for each variable of the query's head, in its order"]


def _of_head(number: int, line: str, columns: Columns) -> list[str]:
    query = read_query(line.strip()[len("query") :])
    if query is None:
        return []
    if number == 9:
        twice = sorted({v for v in query.head if query.head.count(v) > 1})
        return [f"name {', '.join(twice)} once in the head"]
    bound = {v for atom in query.atoms for v in atom.variables}
    if number == 16:
        unbound = sorted({comparison.variable for comparison in query.comparisons} - bound)
        return [f"no atom has {', '.join(unbound)}: what is compared is a variable of an atom"]
    if number == 8:
        unbound = [v for v in query.head if v not in bound]
        return [f"no atom has {', '.join(unbound)}: put it into one, or leave it out of the head"]
    return [
        f"{variable} stands in {of['int']}, of ints, and in {of['text']}, of texts: use two names"
        for variable, of in _places(query, columns).items()
        if len(of) == 2
    ]


def _places(query: Query, columns: Columns) -> dict[str, dict[str, str]]:
    """Of each variable the types that it has, each with a column that gives it that type."""
    places: dict[str, dict[str, str]] = {}
    for atom in query.atoms:
        for at, (term, kind) in enumerate(zip(atom.terms, columns(atom.relation) or ())):
            if term in atom.variables:
                places.setdefault(term, {}).setdefault(kind, f"column {at + 1} of {atom.relation}")
    return places


def _of_comparisons(query: Query, columns: Columns) -> list[str]:
    """What is wrong with the types of comparisons, a line each."""
    places, told = _places(query, columns), []
    for comparison in query.comparisons:
        of = places.get(comparison.variable, {})
        for kind, place in of.items():
            if (kind == "text") != comparison.constant.startswith('"'):
                told.append(f"{comparison.variable} stands in {place}, of {kind}s: {comparison} can't be asked of it")
            elif kind == "text" and comparison.operator not in ("=", "!="):
                told.append(f"texts have no order: of {comparison.variable} only = and != can be asked")
    return told
