"""A query's text read, whether it is admitted, and how one that isn't becomes one that is.

Edges are the sets of variables of atoms. Variables that lie in one edge only and edges that lie within another are
taken away as long as there are any: what stays, if anything, is a ring. A query is admitted where nothing stays,
neither without the head as an edge nor with it. Comparisons make no difference to that.
"""

from __future__ import annotations

import re
from dataclasses import dataclass, replace
from typing import Iterator

MOST_HEAD = 16
MOST_ATOMS = 32
MOST_COLUMNS = 16
OPERATORS = ("<", "<=", ">", ">=", "=", "!=")

_TOKEN = re.compile(r' *(?:(<-|[<>!]=|[<>=(),_])|([a-z][a-z0-9_]*)|(-?[0-9]+)|("(?:[^"\\]|\\.)*"))')
_VARIABLE = re.compile(r"[a-z][a-z0-9_]*")
_SIGNS = ("(", ")", ",", "<-", *OPERATORS)


@dataclass(frozen=True)
class Atom:
    """A relation, and what stands in its columns."""

    relation: str
    terms: tuple[str, ...]

    @property
    def variables(self) -> frozenset[str]:
        return frozenset(term for term in self.terms if _VARIABLE.fullmatch(term))

    def __str__(self) -> str:
        return f"{self.relation}({','.join(self.terms)})"


@dataclass(frozen=True)
class Comparison:
    """A variable, and how it stands to a constant."""

    variable: str
    operator: str
    constant: str

    def __str__(self) -> str:
        return f"{self.variable} {self.operator} {self.constant}"


@dataclass(frozen=True)
class Query:
    """A query as it is said, its comparisons behind its atoms."""

    name: str
    head: tuple[str, ...]
    atoms: tuple[Atom, ...]
    comparisons: tuple[Comparison, ...] = ()

    def __str__(self) -> str:
        return f"{self.name}({','.join(self.head)}) <- {', '.join(map(str, (*self.atoms, *self.comparisons)))}"


def incomplete(text: str) -> bool:
    """Whether a query goes on behind this: no whole one ends so."""
    return text.lstrip().startswith("query") and re.search(r"(,|<-|\(|[<>=])\s*\Z", text) is not None


def lines_of(text: str) -> Iterator[str]:
    """The commands of what was typed or pasted. A query may go over several lines, each cut behind `,`, `<-`, `(`
    or the sign of a comparison."""
    begun = ""
    for line in text.split("\n"):
        begun = f"{begun} {line.strip()}" if begun else line.strip().rstrip("\r")
        if not incomplete(begun):
            if begun:
                yield begun
            begun = ""
    if begun:
        yield begun


def read_query(text: str) -> Query | None:
    """The query that a text says; none where it isn't in the grammar."""
    tokens, at, text = [], 0, text.rstrip(" ")
    while at < len(text):
        found = _TOKEN.match(text, at)
        if found is None:
            return None
        tokens.append(found[0].strip(" "))
        at = found.end()
    try:
        arrow = tokens.index("<-")
        head = _read_atom(tokens[:arrow])
        atoms: list[Atom] = []
        comparisons: list[Comparison] = []
        rest = [",", *tokens[arrow + 1 :]]
        while rest:
            comma, *rest = rest
            if comma != ",":
                return None
            if len(rest) > 1 and rest[1] in OPERATORS:
                end = 3
                comparisons.append(_read_comparison(rest[:end]))
            else:
                end = rest.index(")") + 1
                atoms.append(_read_atom(rest[:end]))
            rest = rest[end:]
    except ValueError:
        return None
    return Query(head.relation, head.terms, tuple(atoms), tuple(comparisons)) if atoms else None


def _read_atom(tokens: list[str]) -> Atom:
    """The atom of these tokens, or the head. Raises `ValueError`."""
    name, opening, *inner, closing = tokens
    terms, commas = inner[::2], inner[1::2]
    if (opening, closing) != ("(", ")") or not _VARIABLE.fullmatch(name) or len(inner) % 2 != (len(inner) > 0):
        raise ValueError
    if any(comma != "," for comma in commas) or any(term in _SIGNS for term in terms):
        raise ValueError
    return Atom(name, tuple(terms))


def _read_comparison(tokens: list[str]) -> Comparison:
    """The comparison of these tokens. Raises `ValueError`."""
    variable, operator, constant = tokens
    if not _VARIABLE.fullmatch(variable) or _VARIABLE.fullmatch(constant) or constant in ("_", *_SIGNS):
        raise ValueError
    return Comparison(variable, operator, constant)


def ring(edges: list[frozenset[str]]) -> list[frozenset[str]]:
    """What stays of these edges."""
    left = [edge for edge in edges if edge]
    while True:
        once = {v for edge in left for v in edge if sum(v in other for other in left) == 1}
        less = [edge - once for edge in left]
        kept: list[frozenset[str]] = []
        for at, edge in enumerate(less):
            within = any(edge <= other for other in kept) or any(edge < other for other in less[at + 1 :])
            if edge and not within:
                kept.append(edge)
        if kept == left:
            return kept
        left = kept


def is_cyclic(query: Query) -> bool:
    return bool(ring([atom.variables for atom in query.atoms]))


def admitted(query: Query) -> bool:
    """Whether the server takes a query of this form."""
    edges = [atom.variables for atom in query.atoms]
    return not ring(edges) and not ring([*edges, frozenset(query.head)])


# Cures


@dataclass(frozen=True)
class Cure:
    """How a query becomes one that is admitted: what to do, and the lines that do it."""

    what: str
    queries: tuple[Query, ...]


def cures(query: Query) -> list[Cure]:
    """Ways to a query that is admitted, the one that changes least first."""
    if is_cyclic(query):
        found = [_wider_atom(query), _without_an_atom(query), _with_a_helper(query)]
    else:
        found = [_longer_head(query), _shorter_head(query)]
    return [cure for cure in found if cure is not None]


def _listed(words: list[str] | tuple[str, ...]) -> str:
    return " and ".join([", ".join(words[:-1]), words[-1]] if len(words) > 1 else words)


def with_longer_head(query: Query) -> Query | None:
    """The query with as few further variables in the head as let it be admitted, if any do."""
    if admitted(query):
        return query
    edges = [atom.variables for atom in query.atoms]
    if ring(edges):
        return None
    left_out = sorted({v for edge in ring([*edges, frozenset(query.head)]) for v in edge} - set(query.head))
    added = list(left_out)
    for variable in left_out:
        fewer = [v for v in added if v != variable]
        if admitted(replace(query, head=(*query.head, *fewer))):
            added = fewer
    longer = replace(query, head=(*query.head, *added))
    return longer if admitted(longer) and len(longer.head) <= MOST_HEAD else None


def _longer_head(query: Query) -> Cure | None:
    longer = with_longer_head(query)
    if longer is None:
        return None
    added = longer.head[len(query.head) :]
    leave = "its value" if len(added) == 1 else "their values"
    return Cure(f"let the head name {_listed(added)} too, and leave {leave} out as you read the answers", (longer,))


def _shorter_head(query: Query) -> Cure | None:
    for variable in reversed(query.head):
        shorter = replace(query, head=tuple(v for v in query.head if v != variable))
        if admitted(shorter):
            return Cure(f"take {variable} out of the head", (shorter,))
    return None


def _wider_atom(query: Query) -> Cure | None:
    """One variable more in an atom, where another column determines it."""
    inside = sorted({v for edge in ring([atom.variables for atom in query.atoms]) for v in edge})
    for at, atom in enumerate(query.atoms):
        for variable in inside:
            if variable in atom.variables or len(atom.terms) == MOST_COLUMNS:
                continue
            wider = Atom(_new_name(query, f"{atom.relation}_{variable}"), (*atom.terms, variable))
            found = with_longer_head(replace(query, atoms=(*query.atoms[:at], wider, *query.atoms[at + 1 :])))
            if found is not None:
                what = f"put {variable} into {atom.relation}'s rows, as a relation with a further column"
                return Cure(what, (found,))
    return None


def _without_an_atom(query: Query) -> Cure | None:
    """One atom apart, which is asked with `has`."""
    for at, atom in reversed(list(enumerate(query.atoms))):
        others = (*query.atoms[:at], *query.atoms[at + 1 :])
        bound = {v for other in others for v in other.variables}
        head = (*query.head, *sorted(atom.variables - set(query.head)))
        if not atom.variables or not atom.variables <= bound or not set(query.head) <= bound or len(head) > MOST_HEAD:
            continue
        found = with_longer_head(replace(query, head=head, atoms=others))
        if found is not None:
            apart = Query(_new_name(query, f"{query.name}_has"), tuple(sorted(atom.variables)), (atom,))
            asked = f"has {apart.name} {' '.join(apart.head).upper()}"
            return Cure(f"leave {atom} out, and ask it apart for each answer: {asked}", (found, apart))
    return None


def _with_a_helper(query: Query) -> Cure | None:
    """A further atom that has all variables of a ring."""
    rest = ring([atom.variables for atom in query.atoms])
    variables = tuple(sorted({v for edge in rest for v in edge}))
    if len(variables) > MOST_COLUMNS or len(query.atoms) == MOST_ATOMS:
        return None
    helper = Atom(_new_name(query, f"{query.name}_ring"), variables)
    found = with_longer_head(replace(query, atoms=(*query.atoms, helper)))
    if found is None:
        return None
    return Cure(f"keep a relation of all {_listed(variables)} that belong together, in step with the others", (found,))


def _new_name(query: Query, wanted: str) -> str:
    """A name that fits, and that the query has nowhere."""
    taken = {query.name, *(atom.relation for atom in query.atoms)}
    number, name = 1, wanted[:32]
    while name in taken:
        number += 1
        name = f"{wanted[:28]}_{number}"
    return name
