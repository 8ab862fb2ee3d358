"""Views of answers as rows: tables, of which a viewer sees a part at a time, and the newest answer."""

from __future__ import annotations

import bisect
import time
from collections import OrderedDict

from ..protocol import Answer, Change, Value
from .feeds import WAITING, Feed
from .page import Panel
from .track import Track, View

FRESH = 6.0  # seconds for which a row that came is marked
MOST_UNSEEN = 20  # parts of a table that are held though nobody may see them
MANY = 200  # rows of a change, from which on a table is put in order anew

Row = tuple[Answer, "float | None"]  # and when it came, where that is to be marked

# control characters, and those that turn the direction of the text around them, by what stands for them
_UNSEEN = {code: 0x2400 + code for code in range(32) if code != 10} | {0x7F: 0x2421}
_UNSEEN |= {code: 0xFFFD for code in (*range(0x80, 0xA0), *range(0x202A, 0x202F), *range(0x2066, 0x206A))}


def shown(value: Value) -> str:
    """A value as the page shows it. Numbers are texts too, since a browser's have but 53 bits."""
    return value.translate(_UNSEEN) if isinstance(value, str) else str(value)


def shown_row(answer: Answer) -> str:
    """An answer in a sentence."""
    return ", ".join(map(shown, answer))


def counted(count: int, thing: str) -> str:
    """So many things, in words."""
    return f"{f'{count:,}' if count else 'no'} {thing}{'' if count == 1 else 's'}"


def now() -> float:
    """The time by which views say when a row came."""
    return round(time.monotonic(), 3)


def is_fresh(came: float | None) -> bool:
    """Whether what came then is marked still."""
    return came is not None and now() - came < FRESH


def clock() -> str:
    """The time of the day."""
    return time.strftime("%H:%M:%S")


def heads(names: list[str], answer: Answer | None) -> View:
    """The columns of rows: their names, and whether they are numbers, by an answer where there is one."""
    if answer is None:
        return {"columns": names, "numbers": [False] * len(names)}
    unnamed = [f"column {place + 1}" for place in range(len(names), len(answer))]
    numbers = [isinstance(value, int) for value in answer]
    return {"columns": names[: len(answer)] + unnamed, "numbers": numbers}


class Table:
    """The answers of a query in order."""

    def __init__(self, panel: Panel, name: str) -> None:
        self._panel, self._name = panel, name
        self._rows: list[Answer] = []
        self._came: OrderedDict[Answer, float] = OrderedDict()  # when the rows came that are still marked
        self._words: str | None = WAITING
        self._parts: dict[int, Part] = {}
        self._part(0)

    def begin(self, feed: Feed) -> None:
        """The answers were listed for the first time."""
        self._rows = sorted(feed.answers, key=self._key)

    def change(self, feed: Feed, change: Change) -> None:
        """The answers changed."""
        for answer in change.went:
            self._came.pop(answer, None)
        for answer in change.came:
            self._came[answer] = now()
            self._came.move_to_end(answer)
        # after a new start the query may be another of the same name, whose values don't compare with the old ones
        if change.restarted or len(change.came) + len(change.went) > MANY:
            self._rows = sorted(set(self._rows) - change.went | change.came, key=self._key)
            return
        for answer in change.went:
            del self._rows[bisect.bisect_left(self._rows, self._key(answer), key=self._key)]
        for answer in change.came:
            bisect.insort(self._rows, answer, key=self._key)

    def state(self, feed: Feed) -> None:
        """Whether the feed is up to date has changed."""
        self._words = feed.state

    def tick(self) -> bool:
        """Time passes. Whether the view is another by that."""
        return False

    def publish(self) -> bool:
        """Brings each part that somebody sees up to date."""
        while self._came and not is_fresh(next(iter(self._came.values()))):
            self._came.popitem(last=False)
        self._sweep()
        return any([self._show(part) for part in self._parts.values()])

    def track(self, place: str) -> Track:
        """The track of a page of the table, by its number from 1 on."""
        number = int(place) if place.isascii() and place.isdigit() and len(place) < 10 else 1
        return self._part(max(0, number - 1)).track

    # Inside

    def _part(self, number: int) -> Part:
        part = self._parts.get(number)
        if part is None:
            if len(self._parts) > MOST_UNSEEN:
                self._sweep()
            part = self._parts[number] = Part(number, self._name)
            self._show(part)
        return part

    def _sweep(self) -> None:
        """Gives up the parts that nobody sees any more, but for the first."""
        for number, part in list(self._parts.items()):
            if number > 0 and part.track.viewers == 0:
                del self._parts[number]

    def _show(self, part: Part) -> bool:
        most, total = self._panel.rows, len(self._rows)
        pages = max(1, -(-total // most))
        page = min(part.number, pages - 1)
        if self._panel.descending:
            answers = self._rows[max(0, total - most * (page + 1)) : total - most * page][::-1]
        else:
            answers = self._rows[most * page : most * (page + 1)]
        first = self._rows[0] if self._rows else None
        head = {
            **heads(self._panel.columns, first),
            "state": self._words,
            "words": self._count(most * page, len(answers)),
            "page": page + 1,
            "pages": pages,
        }
        return part.show(head, [(answer, self._came.get(answer)) for answer in answers])

    def _count(self, first: int, shows: int) -> str:
        total = len(self._rows)
        if shows == total:
            return counted(total, "row")
        return f"{first + 1:,} to {first + shows:,} of {counted(total, 'row')}"

    def _key(self, answer: Answer) -> tuple[list[Value], Answer]:
        return [answer[place] for place in self._panel.order if place < len(answer)], answer


class Part:
    """The rows of one page of a table."""

    def __init__(self, number: int, name: str) -> None:
        self.number = number
        self._rows: list[Row] = []
        self._head: View = {}
        self.track = Track(name, {"rows": []})

    def show(self, head: View, rows: list[Row]) -> bool:
        """Shows these rows. Whether that is another view."""
        before = dict(self._rows)
        same = {
            answer for answer, came in rows if answer in before and (came is None or came == before[answer])
        }
        # a row that stays keeps its mark, so that nothing is sent where only the mark fades
        rows = [(answer, before[answer] if answer in same else came) for answer, came in rows]
        gone = [place for place, (answer, _) in enumerate(self._rows) if answer not in same]
        come = [(place, row) for place, row in enumerate(rows) if row[0] not in same]
        if not gone and not come and head == self._head:
            return False
        stays = len(same) > 0 and all(head[name] == self._head.get(name) for name in ("columns", "numbers"))
        self._rows, self._head = rows, head
        whole = {**head, "rows": [_row(row) for row in rows]}
        if not stays:
            return self.track.put(whole)
        short = {name: value for name, value in head.items() if name not in ("columns", "numbers")}
        return self.track.put(whole, {**short, "gone": gone, "come": [[place, _row(row)] for place, row in come]})


def _row(row: Row) -> View:
    answer, came = row
    return {"cells": [*map(shown, answer)], "came": came}


class Newest:
    """The answer that came last."""

    def __init__(self, panel: Panel, name: str) -> None:
        self._panel = panel
        self._answer: Answer | None = None
        self._words = ""
        self._state: str | None = WAITING
        self._came: float | None = None
        self._track = Track(name, self._view())

    def begin(self, feed: Feed) -> None:
        """The answers were listed for the first time."""
        self._words = f"none has come since {clock()}"

    def change(self, feed: Feed, change: Change) -> None:
        """The answers changed."""
        if change.came:
            self._answer, self._came = max(change.came), now()
            self._words = f"came at {clock()}"
        elif self._answer in change.went:
            self._words += f", gone at {clock()}"

    def state(self, feed: Feed) -> None:
        """Whether the feed is up to date has changed."""
        self._state = feed.state

    def tick(self) -> bool:
        """Time passes. Whether the view is another by that."""
        return False

    def publish(self) -> bool:
        """Brings the view up to date."""
        return self._track.put(self._view())

    def track(self, place: str) -> Track:
        """The view, which has one place."""
        return self._track

    def _view(self) -> View:
        cells = None if self._answer is None else [*map(shown, self._answer)]
        return {
            **heads(self._panel.columns, self._answer),
            "state": self._state,
            "words": self._words,
            "cells": cells,
            "came": self._came,
        }
