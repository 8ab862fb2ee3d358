"""What is drawn: tables, trees, changes and progress; with rich where that is there and wanted."""

from __future__ import annotations

import re
import sys
import time
import unicodedata
from typing import Iterator, Sequence

from ..protocol import Answer, Change, Value, spell

try:
    from rich import box
    from rich.console import Console
    from rich.table import Table
    from rich.text import Text
except ImportError:  # drawn without it then
    Console = None  # type: ignore[assignment,misc]

HAS_RICH = Console is not None
MOST_DRAWN = 40  # answers of one change that are drawn
STYLES = {"came": "green", "went": "red", "error": "bold red", "advice": "cyan", "quiet": "bright_black"}

# what would move the cursor, colour what follows or turn its direction, were it written as it is
_UNSAFE = re.compile("[\x00-\x1f\x7f-\x9f\u200b-\u200f\u2028-\u202e\u2060-\u206f\ufeff\ud800-\udfff]")
_PLAIN = re.compile(r'[^\s"\\][^"\\\n]*(?<!\s)')


def safe(text: str) -> str:
    """The text, with control characters told by their numbers."""
    return _UNSAFE.sub(lambda found: f"\\u{{{ord(found[0]):x}}}", text)


def cell(value: Value) -> str:
    """How a table shows a value: a text without quotes, where nothing hangs on them."""
    if isinstance(value, int):
        return str(value)
    return safe(value if _PLAIN.fullmatch(value) else spell(value))


def width(text: str) -> int:
    """How many places of a terminal a text takes."""
    return sum(0 if unicodedata.combining(c) else 2 if unicodedata.east_asian_width(c) in "WF" else 1 for c in text)


def _rich_table(heads: Sequence[str], cells: list[list[str]], right: list[bool]) -> Table:
    table = Table(box=box.SIMPLE_HEAD, pad_edge=False)
    for head, is_right in zip(heads, right):
        table.add_column(Text(head), justify="right" if is_right else "left", overflow="fold")
    for row in cells:
        table.add_row(*map(Text, row))
    return table


def _padded(text: str, places: int, right: bool) -> str:
    space = " " * (places - width(text))
    return space + text if right else text + space


class Screen:
    """Writes on the standard output."""

    def __init__(self, colours: bool) -> None:
        self._console = Console(highlight=False, soft_wrap=True) if colours and Console is not None else None

    def line(self, text: str, style: str = "") -> None:
        """One line, or several, as they are."""
        self._lines([(line, style) for line in text.split("\n")])

    def _lines(self, lines: Sequence[tuple[str, str]]) -> None:
        """Writes lines in one piece, each with its style, so that a prompt is drawn behind the last."""
        if self._console is not None:
            styled = [Text(safe(line), style=STYLES.get(style, "")) for line, style in lines]
            self._console.print(Text("\n").join(styled))
        else:
            print("\n".join(safe(line) for line, _ in lines), flush=True)

    def table(self, heads: Sequence[str], rows: Sequence[Answer]) -> None:
        """Answers, a column for each value."""
        right = [bool(rows) and isinstance(rows[0][at], int) for at in range(len(heads))]
        cells = [[cell(value) for value in row] for row in rows]
        if self._console is not None:
            self._console.print(_rich_table(heads, cells, right), soft_wrap=False)
            return
        places = [max(map(width, column)) for column in zip(heads, *cells)]
        for row in [heads, ["-" * place for place in places], *cells]:
            print("  ".join(_padded(*given) for given in zip(row, places, right)).rstrip())
        sys.stdout.flush()

    def change(self, query: str, change: Change) -> None:
        """What a change brought to the answers of a query."""
        signed = [("-", "went", answer) for answer in sorted(change.went)]
        signed += [("+", "came", answer) for answer in sorted(change.came)]
        lines = [
            (f"{sign} {query}  {'  '.join(map(cell, answer))}".rstrip(), style)
            for sign, style, answer in signed[:MOST_DRAWN]
        ]
        rest = signed[MOST_DRAWN:]
        if rest:
            came = sum(sign == "+" for sign, _, _ in rest)
            lines.append((f"  {query}: {came} more came, and {len(rest) - came} more went", "quiet"))
        if signed:
            self._lines([*lines, (f"  {query} at change {change.seq}", "quiet")])

    def progress(self, what: str, total: int) -> Progress:
        """Tells how far something is that takes a while."""
        return Progress(what, total)


class Progress:
    """A line on the standard error that tells how far something is, where that is a terminal."""

    BAR = 24

    def __init__(self, what: str, total: int) -> None:
        self._what, self._total = what, total
        self._began = self._drawn = time.monotonic()
        self._shows = sys.stderr.isatty()
        self._wrote = False

    def at(self, done: int) -> None:
        """So much is done."""
        now = time.monotonic()
        if not self._shows or (now - self._drawn < 0.1 and done < self._total):
            return
        self._drawn = now
        full = self.BAR * done // max(1, self._total)
        bar = "█" * full + "░" * (self.BAR - full)
        speed = done / max(now - self._began, 1e-6)
        print(f"\r{self._what} {bar} {done:,} of {self._total:,}, {speed:,.0f} a second ", end="", file=sys.stderr)
        sys.stderr.flush()
        self._wrote = True

    def end(self) -> float:
        """Takes the line away. Gives the seconds that it took."""
        if self._wrote:
            print("\r\x1b[K", end="", file=sys.stderr, flush=True)
        return time.monotonic() - self._began


def tree(lines: list[str]) -> list[str]:
    """The tree of `explain`, the root on top, with what each node keeps; or a union above its members."""
    if lines[0].startswith("m "):
        members = [line.removeprefix("m ") for line in lines]
        branches = ["├── "] * (len(members) - 1) + ["└── "]
        return ["union of", *(branch + member for branch, member in zip(branches, members))]
    nodes: dict[str, Node] = {}
    for line in lines:
        words = line.split(" ")
        out = words[-1] == "out"
        number, kind, *rest = words[1 : len(words) - out]
        nodes[number] = (kind, rest[:-1], rest[-1], out)
    drawn = list(_branch(nodes, list(nodes)[-1], "", ""))
    places = max(width(text) for text, _ in drawn)
    return [f"{_padded(text, places, False)}   {remark}".rstrip() for text, remark in drawn]


Node = tuple[str, list[str], str, bool]  # its kind, what it is made of, its variables, and whether it is listed


def _branch(nodes: dict[str, Node], number: str, first: str, further: str) -> Iterator[tuple[str, str]]:
    kind, given, variables, out = nodes[number]
    name = f"{kind} {given[0]}" if kind == "leaf" else kind
    text = f"{number} {name}  {'' if variables == '-' else variables}".rstrip()
    yield first + (text if out else f"({text})"), _remark(kind, given, variables)
    below = [] if kind == "leaf" else given
    for at, child in enumerate(below):
        last = at == len(below) - 1
        yield from _branch(nodes, child, further + ("└── " if last else "├── "), further + ("    " if last else "│   "))


def _remark(kind: str, given: list[str], variables: str) -> str:
    if kind == "leaf":
        return f"the rows of {given[0]}"
    if kind == "meet":
        return f"those of {given[0]} that {given[1]} has too"
    return "whether there is any answer" if variables == "-" else f"the {variables} of {given[0]}"
