"""What a page file says: a title and panels, each of a kind and of queries."""

from __future__ import annotations

from dataclasses import dataclass, field
from typing import Any

try:
    import tomllib
except ModuleNotFoundError as missing:
    raise SystemExit("djq-web needs Python 3.11 or a later one") from missing

from ..errors import BadName
from ..protocol import checked

MOST_PANELS = 40
MOST_LINES = 6  # of a chart: as many as can be told apart
MOST_ROWS = 500  # of a table
MOST_MINUTES = 24 * 60
MOST_COLUMNS = 256  # that a head may name
FOLDS = ("max", "min", "sum")  # what becomes of several values of one line


class PageError(Exception):
    """A page file isn't one. Says where and why."""


@dataclass(frozen=True)
class Panel:
    """One part of a page. Each kind has its own of these fields: see `FIELDS`."""

    kind: str
    title: str
    queries: list[str]
    labels: list[str] = field(default_factory=list)
    columns: list[str] = field(default_factory=list)
    order: list[int] = field(default_factory=list)
    descending: bool = False
    rows: int = 15
    minutes: int = 5
    wide: bool = False
    alarm: bool = False
    value: int | None = None
    by: int | None = None
    fold: str = "max"


@dataclass(frozen=True)
class Page:
    """A title, and the panels in order."""

    title: str
    panels: list[Panel]

    def queries(self) -> list[str]:
        """The queries of all panels, each once."""
        return list(dict.fromkeys(query for panel in self.panels for query in panel.queries))


# The fields of each kind, and whether they have to be there.
FIELDS: dict[str, dict[str, bool]] = {
    "table": {
        "query": True, "columns": False, "order": False, "descending": False, "rows": False, "wide": False,
        "alarm": False,
    },
    "newest": {"query": True, "columns": False, "wide": False, "alarm": False},
    "count": {
        "query": True, "minutes": False, "wide": False, "alarm": False, "columns": False, "value": False, "fold": False
    },
    "chart": {
        "queries": False, "query": False, "labels": False, "minutes": False, "wide": False, "columns": False,
        "value": False, "by": False, "fold": False,
    },
}  # fmt: skip


def read_page(text: str) -> Page:
    """Reads a page file. Raises `PageError`."""
    try:
        told = tomllib.loads(text)
    except tomllib.TOMLDecodeError as error:
        raise PageError(f"not TOML: {error}") from error
    _only(told, ("title", "panel"), "the page")
    panels = told.get("panel")
    if not isinstance(panels, list) or not all(isinstance(panel, dict) for panel in panels):
        raise PageError("a page has panels, each under [[panel]]")
    if len(panels) > MOST_PANELS:
        raise PageError(f"{len(panels)} panels, and {MOST_PANELS} are the most")
    title = _value(told, "title", str, "djq", "the page")
    return Page(title, [_panel(panel, f"panel {number}") for number, panel in enumerate(panels, 1)])


def _panel(told: dict[str, Any], where: str) -> Panel:
    kind = told.get("kind")
    if kind not in FIELDS:
        raise PageError(f"{where}: kind is one of {', '.join(FIELDS)}")
    fields = FIELDS[kind]
    _only(told, ("kind", "title", *fields), f"{where}, a {kind}")
    for name, needed in fields.items():
        if needed and name not in told:
            raise PageError(f"{where}: a {kind} has a {name}")
    queries = _queries(told, where)
    labels = _names(told, "labels", where) or queries
    if len(labels) != len(queries):
        raise PageError(f"{where}: {len(labels)} labels, and {len(queries)} queries")
    columns = _names(told, "columns", where)
    if len(columns) > MOST_COLUMNS or len(set(columns)) < len(columns):
        raise PageError(f"{where}: columns are {MOST_COLUMNS} at most, each with a name of its own")
    value, by = _column(told, "value", columns, where), _column(told, "by", columns, where)
    if by is not None and (value is None or len(queries) > 1):
        raise PageError(f"{where}: by goes with one query and a value")
    fold = _value(told, "fold", str, FOLDS[0], where)
    if fold not in FOLDS:
        raise PageError(f"{where}: fold is one of {', '.join(FOLDS)}")
    return Panel(
        kind=kind,
        title=_value(told, "title", str, ", ".join(labels), where),
        queries=queries,
        labels=labels,
        columns=columns,
        order=_order(_names(told, "order", where), columns, where),
        descending=_value(told, "descending", bool, False, where),
        rows=_number(told, "rows", 15, MOST_ROWS, where),
        minutes=_number(told, "minutes", 5, MOST_MINUTES, where),
        wide=_value(told, "wide", bool, False, where),
        alarm=_value(told, "alarm", bool, False, where),
        value=value,
        by=by,
        fold=fold,
    )


def _queries(told: dict[str, Any], where: str) -> list[str]:
    """The queries of a panel, which names one or several."""
    if ("query" in told) == ("queries" in told):
        raise PageError(f"{where}: a {told['kind']} has a query, or queries")
    queries = [_value(told, "query", str, "", where)] if "query" in told else _names(told, "queries", where)
    if not 1 <= len(queries) <= MOST_LINES:
        raise PageError(f"{where}: queries are from 1 to {MOST_LINES}")
    for query in queries:
        try:
            checked(query)
        except BadName as error:
            raise PageError(f"{where}: {error}") from error
    return queries


def _column(told: dict[str, Any], name: str, columns: list[str], where: str) -> int | None:
    """The place of the one column that a field names; none without the field."""
    if name not in told:
        return None
    column = _value(told, name, str, "", where)
    if column not in columns:
        raise PageError(f"{where}: {name} names {column!r}, which is none of its columns")
    return columns.index(column)


def _order(names: list[str], columns: list[str], where: str) -> list[int]:
    """The places of the columns by which a table is in order."""
    for name in names:
        if name not in columns:
            raise PageError(f"{where}: order names {name!r}, which is none of its columns")
    return [columns.index(name) for name in names]


def _only(told: dict[str, Any], known: tuple[str, ...], where: str) -> None:
    for name in told:
        if name not in known:
            raise PageError(f"{where}: there is no {name!r}, but {', '.join(known)}")


def _value(told: dict[str, Any], name: str, kind: type, default: Any, where: str) -> Any:
    value = told.get(name, default)
    if type(value) is not kind:
        raise PageError(f"{where}: {name} is {'true or false' if kind is bool else 'a text'}")
    return value


def _number(told: dict[str, Any], name: str, default: int, most: int, where: str) -> int:
    value = told.get(name, default)
    if type(value) is not int or not 1 <= value <= most:
        raise PageError(f"{where}: {name} is a number from 1 to {most}")
    return value


def _names(told: dict[str, Any], name: str, where: str) -> list[str]:
    value = told.get(name, [])
    if not isinstance(value, list) or not all(isinstance(one, str) for one in value):
        raise PageError(f"{where}: {name} is a list of texts")
    return value
