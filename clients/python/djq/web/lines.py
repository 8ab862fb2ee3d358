"""Views of numbers over time: how many answers a query has, or what one of its columns reads."""

from __future__ import annotations

from collections import deque
from typing import Any, Iterable

from ..folds import Ranks, Totals
from ..protocol import Answer, Change, Value
from .feeds import WAITING, Feed
from .page import MOST_LINES, Panel
from .rows import counted, now, shown
from .track import Track, View

POINTS = 150  # of a line, over all its minutes

Key = tuple[str, "Value | None"]  # of a line: its query, and the value that parts it from others


class Folded:
    """The number of each line of a query: of the answers with one value in the column that parts lines, the largest or
    the least value of a further column, or their sum."""

    def __init__(self, panel: Panel, column: int) -> None:
        self._by, self._column, self._fold = panel.by, column, panel.fold
        self._totals = Totals(panel.by, column)
        self._ranks = Ranks(panel.by, column)

    def change(self, came: Iterable[Answer], went: Iterable[Answer]) -> None:
        """Takes answers in, and others out. Texts, and columns that aren't there, draw no line."""
        fold = self._totals if self._fold == "sum" else self._ranks
        fold.take([*filter(self._draws, came)], [*filter(self._draws, went)])

    def keys(self) -> Iterable[Any]:
        """By what there are lines: the values of the column that parts them, or one key without it."""
        return [*self._totals.sums] if self._fold == "sum" else [*self._ranks.groups]

    def number(self, key: Any) -> int | None:
        """What a line reads; none without answers."""
        if self._fold == "sum":
            return self._totals.sums.get(key)
        if (ordered := self._ranks.groups.get(key)) is None:
            return None
        value, _ = next(reversed(ordered)) if self._fold == "max" else next(iter(ordered))
        return int(value)

    def _draws(self, answer: Answer) -> bool:
        return len(answer) > max(self._column, self._by or 0) and isinstance(answer[self._column], int)


class History:
    """A number over some minutes up to now."""

    def __init__(self, label: str, minutes: int) -> None:
        self.label = label
        self.number: int | None = None
        self.known = False  # whether the number is up to date
        self._step = 60 * minutes / POINTS
        self._next = now() + self._step
        self._values: deque[int | None] = deque(maxlen=POINTS)
        self._new: list[int | None] = []  # values since the last delta

    def tick(self) -> bool:
        """Time passes. Whether a further value is held; as long as the feed is lost, it isn't known."""
        steps = min(POINTS, max(0, int((now() - self._next) // self._step) + 1))
        if steps:
            values = [self.number if self.known else None] * steps
            self._values.extend(values)
            self._new = (self._new + values)[-POINTS:]
            self._next = max(self._next + steps * self._step, now())
        return steps > 0

    @property
    def is_empty(self) -> bool:
        """Whether nothing of the line is drawn any more."""
        return self.number is None and all(value is None for value in self._values)

    def view(self) -> View:
        """All of it: `values` are at equal distances, the last one is now's; none where it isn't known."""
        return {**self._words(), "values": [*self._values, self.number]}

    def delta(self) -> View:
        """What is another than at the last delta: `push` are the further values, now's last."""
        pushed, self._new = [*self._new, self.number], []
        return {**self._words(), "push": pushed}

    def _words(self) -> View:
        known = [value for value in (*self._values, self.number) if value is not None]
        low, high = min(known, default=0), max(known, default=0)
        span = f"{low:,} to {high:,}" if low < high else f"always {low:,}" if known else "not known"
        # as a text too, since a browser's numbers have but 53 bits
        return {"label": self.label, "now": None if self.number is None else f"{self.number:,}", "span": span}


class Chart:
    """Numbers of answers, or values, as lines."""

    def __init__(self, panel: Panel, name: str) -> None:
        self._panel = panel
        self._states = {query: WAITING for query in panel.queries}
        column = panel.value
        self._folds = {} if column is None else {query: Folded(panel, column) for query in panel.queries}
        fixed = [] if panel.by is not None else list(zip(panel.queries, panel.labels))
        self._lines: dict[Key, History] = {
            (query, None): History(label, panel.minutes) for query, label in fixed
        }
        self._words = ""
        self._track = Track(name, self._view())

    def begin(self, feed: Feed) -> None:
        """The answers were listed for the first time."""
        self._fold(feed, feed.answers, ())

    def change(self, feed: Feed, change: Change) -> None:
        """The answers changed."""
        self._fold(feed, change.came, change.went)

    def state(self, feed: Feed) -> None:
        """Whether the feed is up to date has changed."""
        self._states[feed.query] = feed.state or ""
        for (query, _), line in self._lines.items():
            if query == feed.query:
                line.known = not feed.words

    def tick(self) -> bool:
        """Time passes. Whether the view is another by that."""
        return any([line.tick() for line in self._lines.values()])

    def publish(self) -> bool:
        """Brings the view up to date."""
        before = self._track.whole
        whole = self._view()
        lines = list(self._lines.values())
        labels = [line["label"] for line in before["lines"]]
        if labels != [line.label for line in lines] or not lines:
            for line in lines:
                line.delta()
            return self._track.put(whole)
        if whole == before:
            return False
        delta = {name: whole[name] for name in ("state", "words")}
        return self._track.put(whole, {**delta, "lines": [line.delta() for line in lines]})

    def track(self, place: str) -> Track:
        """The view, which has one place."""
        return self._track

    # Inside

    def _view(self) -> View:
        states = {words: None for words in self._states.values() if words}
        return {
            "state": " ".join(states) or None,
            "words": f"{counted(self._panel.minutes, 'minute')}{self._words}",
            "minutes": self._panel.minutes,
            "points": POINTS + 1,
            "counts": self._panel.value is None,
            "lines": [line.view() for line in self._lines.values()],
        }

    def _fold(self, feed: Feed, came: Iterable[Answer], went: Iterable[Answer]) -> None:
        """The numbers of the lines of a query, by what came and went."""
        folded = self._folds.get(feed.query)
        if folded is not None:
            folded.change(came, went)
            if self._panel.by is not None:
                self._part_lines(feed.query, folded)
        empty = 0 if self._panel.fold == "sum" and self._panel.by is None else None
        for (query, key), line in self._lines.items():
            if query == feed.query:
                number = folded.number(() if key is None else key) if folded is not None else len(feed.answers)
                line.number = empty if number is None else number

    def _part_lines(self, query: str, folded: Folded) -> None:
        """A line for each value of the column that parts them, the first six in order."""
        there = set(folded.keys())
        for key in [key for key, line in self._lines.items() if key[1] not in there and line.is_empty]:
            del self._lines[key]
        for value in sorted(there, key=lambda value: _place((query, value))):
            if (query, value) not in self._lines and len(self._lines) < MOST_LINES:
                line = self._lines[query, value] = History(shown(value), self._panel.minutes)
                line.known = True
        self._lines = dict(sorted(self._lines.items(), key=lambda item: _place(item[0])))
        more = len(there) - sum(value in there for _, value in self._lines)
        self._words = f", without {more} further lines" if more > 0 else ""


def _place(key: Key) -> tuple[bool, Value]:
    """By what lines are in order."""
    return isinstance(key[1], str), "" if key[1] is None else key[1]
