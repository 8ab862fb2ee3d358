"""Pages as a browser gets them first: whole also where no script runs. `page.js` keeps them up to date from there on.

All that comes from the page file or from rows goes through `text`.
"""

from __future__ import annotations

import html
from typing import Callable

from .board import Board
from .page import Panel
from .rows import is_fresh
from .track import View

MANY = 6  # characters of a number, above which it is smaller
LONG = 40  # characters of a cell, from which on it is clamped until somebody looks at it

HEAD = """<!doctype html>
<html lang="en">
<head>
<meta charset="utf-8">
<meta name="viewport" content="width=device-width, initial-scale=1">
<title>{title}</title>
<link rel="icon" href="/icon.svg" type="image/svg+xml">
<link rel="stylesheet" href="/page.css">
"""

# how a page begins and ends; `mark` says to the script whether it is of this page, after the program was started anew
FRAME = (
    HEAD
    + """<script src="/page.js" defer></script>
<noscript><meta http-equiv="refresh" content="5"></noscript>
</head>
<body data-mark="{mark}" data-events="{events}" data-long="{long}">
<header>
<h1>{title}</h1>
<p id="status" role="status" class="{state}">{status}</p>
<button id="pause" type="button" aria-pressed="false" hidden>Pause</button>
</header>
<p id="latest" aria-live="polite">{latest}</p>
<main>
{panels}</main>
<footer><a href="/offer">All queries</a></footer>
</body>
</html>
"""
)

PANEL = """<section class="{classes}" data-panel="{number}" data-kind="{kind}" aria-labelledby="title{number}">
<h2 id="title{number}">{title}</h2>
<p class="why">{why}</p>
{body}</section>
"""

# a page of words: what there is, or why nothing is shown
PLAIN = (
    HEAD
    + """{more}</head>
<body>
<header>
<h1>{title}</h1>
</header>
<main class="plain">
{body}</main>
</body>
</html>
"""
)

AGAIN = '<meta http-equiv="refresh" content="10">\n'


def render(board: Board, mark: str, events: str, places: dict[str, str]) -> str:
    """A board with what is shown now."""
    views = board.views(places)
    panels = [_panel(panel, number, views[str(number)]) for number, panel in enumerate(board.page.panels)]
    return FRAME.format(
        title=text(board.page.title),
        mark=text(mark),
        events=text(events),
        long=LONG,
        state="live" if views["status"]["live"] else "waiting",
        status=text(views["status"]["words"]),
        latest=text(views["latest"]["words"]),
        panels="".join(panels),
    )


def render_offer(server: str, silent: str, queries: list[str], relations: list[str], is_open: bool) -> str:
    """What can be shown, as links."""
    body = f"<p>{text(silent or 'The server answers.')}</p>\n"
    for title, names in (("Queries", queries), ("Relations", relations)):
        if names:
            links = "".join(f'<li><a href="/show/{text(name)}">{text(name)}</a></li>\n' for name in names)
            body += f'<section class="list"><h2>{title}</h2>\n<ul>\n{links}</ul></section>\n'
    if not queries and not relations:
        body += "<p>No query is known here yet.</p>\n"
    if is_open:
        body += (
            '<section class="list"><h2>Another one</h2>\n'
            "<p>A djq server doesn't list what it has. "
            "Type the name of a query or a relation to see it as a table.</p>\n"
            '<form action="/show" method="get">\n'
            '<label for="name">Name</label> <input id="name" name="name" required maxlength="32" '
            'pattern="[a-z][a-z0-9_]*" autocapitalize="none" autocomplete="off" spellcheck="false">\n'
            '<button type="submit">Show</button>\n</form></section>\n'
        )
    return PLAIN.format(title=f"djq at {text(server)}", more="", body=body)


def render_missing(name: str, reason: str, again: bool) -> str:
    """That a name can't be shown, and why; where it may be soon, the page is asked for again by itself."""
    body = f'<p>{text(reason)}</p>\n<p><a href="/offer">All queries</a></p>\n'
    return PLAIN.format(title=text(name), more=AGAIN if again else "", body=body)


def render_full(most: int) -> str:
    """That there are too many viewers; the page is asked for again by itself."""
    body = f"<p>This page has {most:,} viewers, which are the most that it takes. It is tried again by itself.</p>\n"
    return PLAIN.format(title="Too many viewers", more=AGAIN, body=body)


def text(value: object) -> str:
    """A value as text, whatever it holds."""
    return html.escape(str(value), quote=True)


def _panel(panel: Panel, number: int, view: View) -> str:
    classes = [panel.kind, *(word for word in ("wide", "alarm") if getattr(panel, word))]
    if view["state"]:
        classes.append("lost")
    return PANEL.format(
        classes=" ".join(classes),
        number=number,
        kind=panel.kind,
        title=text(panel.title),
        why=text(view["state"] or ""),
        body=BODIES[panel.kind](panel, view, number),
    )


def _table(panel: Panel, view: View, number: int) -> str:
    heads = "".join(
        f'<th scope="col"{_number(numeric)}>{text(name)}</th>'
        for name, numeric in zip(view["columns"], view["numbers"])
    )
    rows = "".join(_row(row, view["numbers"], "alarm" if panel.alarm else "new") for row in view["rows"])
    page, pages = view["page"], view["pages"]
    hidden = "" if pages > 1 else " hidden"
    return f"""<div class="scroll" role="region" tabindex="0" aria-labelledby="title{number}">
<table>
<caption>{text(view["words"])}</caption>
<thead><tr><th scope="col"><span class="unseen">mark</span></th>{heads}</tr></thead>
<tbody>{rows}</tbody>
</table>
</div>
<nav class="pages" aria-label="Pages of {text(panel.title)}"{hidden}>
<a rel="prev" href="?p{number}={max(1, page - 1)}">Previous</a>
<span>Page {page:,} of {pages:,}</span>
<a rel="next" href="?p{number}={min(pages, page + 1)}">Next</a>
</nav>
"""


def _row(row: View, numbers: list[bool], word: str) -> str:
    kind, mark = (' class="came"', f"<span>{word}</span>") if is_fresh(row["came"]) else ("", "")
    cells = "".join(f"<td{_number(numeric)}>{_cell(cell)}</td>" for cell, numeric in zip(row["cells"], numbers))
    return f'<tr{kind}><td class="mark">{mark}</td>{cells}</tr>'


def _cell(cell: str) -> str:
    """A cell; one that is long can be looked at, and is whole then."""
    return f'<span class="long" tabindex="0">{text(cell)}</span>' if is_long(cell) else text(cell)


def is_long(cell: str) -> bool:
    """Whether a cell is clamped."""
    return len(cell) > LONG or cell.count("\n") > 1


def _number(numeric: bool) -> str:
    return ' class="number"' if numeric else ""


def _newest(panel: Panel, view: View, number: int) -> str:
    cells = view["cells"] or []
    pairs = "".join(
        f"<div><dt>{text(name)}</dt><dd>{_cell(cell)}</dd></div>" for name, cell in zip(view["columns"], cells)
    )
    return f'<dl>{pairs}</dl>\n<p class="words">{text(view["words"])}</p>\n'


def _count(panel: Panel, view: View, number: int) -> str:
    line = view["lines"][0]
    some = " some" if line["now"] not in (None, "0") else ""
    many = " many" if len(line["now"] or "") > MANY else ""
    return f"""<p class="count{some}{many}">{_now(line)}</p>
<svg aria-hidden="true"></svg>
<p class="words">{text(line["span"])} in {text(view["words"])}</p>
"""


def _chart(panel: Panel, view: View, number: int) -> str:
    lines = "".join(
        f'<li><svg aria-hidden="true" viewBox="0 0 28 8"><path class="line{place}" d="M0 4H28"/></svg>'
        f'<span class="label">{text(line["label"])}</span> '
        f'<span class="now">{_now(line)}</span> '
        f'<span class="words">{text(line["span"])}</span></li>'
        for place, line in enumerate(view["lines"])
    )
    return f"""<svg role="img" aria-labelledby="title{number} words{number}"></svg>
<p class="words" id="words{number}">the last {text(view["words"])}</p>
<ul class="lines">{lines}</ul>
"""


def _now(line: View) -> str:
    return "–" if line["now"] is None else text(line["now"])


BODIES: dict[str, Callable[[Panel, View, int], str]] = {
    "table": _table, "newest": _newest, "count": _count, "chart": _chart
}  # fmt: skip
