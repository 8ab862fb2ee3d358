"""What a page shows: a view of each panel, and what of it each viewer doesn't have yet.

Views change as feeds hand their changes on, and are published a few times a second at most. Viewers get deltas: of a
table the rows that came and went in the part that they see, of a line its latest values. A viewer that is slow skips
what was between, so nothing piles up for it.
"""

from __future__ import annotations

import time
from typing import Callable, Protocol

from ..protocol import Answer, Change
from .feeds import LINGER, WAITING, Feed
from .lines import Chart
from .page import Page, Panel
from .rows import Newest, Table, clock, shown_row
from .track import Track, View

LONGEST_NEWS = 200  # characters of an answer in the newest change


class Shown(Protocol):
    """What the view of a panel can do."""

    def begin(self, feed: Feed) -> None:
        """The answers were listed for the first time."""

    def change(self, feed: Feed, change: Change) -> None:
        """The answers changed."""

    def state(self, feed: Feed) -> None:
        """Whether the feed is up to date has changed."""

    def tick(self) -> bool:
        """Time passes. Whether the view is another by that."""

    def publish(self) -> bool:
        """Brings the tracks that viewers follow up to date. Whether any has changed."""

    def track(self, place: str) -> Track:
        """The track of the part of the panel that a viewer asks for."""


VIEWS: dict[str, Callable[[Panel, str], Shown]] = {"table": Table, "newest": Newest, "count": Chart, "chart": Chart}


class Board:
    """The views of a page's panels, with a status and the newest change."""

    def __init__(self, page: Page, wake: Callable[[], None]) -> None:
        self.page = page
        self.viewers: set[Viewer] = set()
        self.unused = time.monotonic()  # since when nobody looks
        self._wake = wake  # is called as there is something to publish
        self._panels = [VIEWS[panel.kind](panel, str(number)) for number, panel in enumerate(page.panels)]
        self._titles = _titles(page)
        self._dirty: set[int] = set(range(len(self._panels)))
        self._status = Track("status", {"live": False, "words": WAITING})
        self._latest = Track("latest", {"words": ""})
        self._news = ""

    # By the feeds

    def begin(self, feed: Feed) -> None:
        """The answers were listed for the first time."""
        for panel in self._of(feed.query):
            panel.begin(feed)

    def change(self, feed: Feed, change: Change) -> None:
        """The answers changed."""
        for panel in self._of(feed.query):
            panel.change(feed, change)
        if (title := self._titles.get(feed.query)) is not None:
            both = (("new", change.came), ("gone", change.went))
            news = "; ".join(f"{word}: {_some(answers)}" for word, answers in both if answers)
            self._news = f"{clock()} {title}, {news}"

    def state(self, feed: Feed) -> None:
        """Whether a feed is up to date has changed."""
        for panel in self._of(feed.query):
            panel.state(feed)

    def status(self, words: str) -> None:
        """Why the page isn't live; empty where it is."""
        self._status.put({"live": not words, "words": words or "live"})

    def tick(self) -> None:
        """Time passes."""
        self._dirty.update(number for number, panel in enumerate(self._panels) if panel.tick())

    def publish(self) -> None:
        """Brings what viewers follow up to date, and wakes them."""
        for number in self._dirty:
            self._panels[number].publish()
        self._dirty.clear()
        self._latest.put({"words": self._news})
        for viewer in self.viewers:
            viewer.look()

    def _of(self, query: str) -> list[Shown]:
        """The panels that show a query, which are to be published."""
        numbers = [number for number, panel in enumerate(self.page.panels) if query in panel.queries]
        self._dirty.update(numbers)
        self._wake()
        return [self._panels[number] for number in numbers]

    # By viewers

    @property
    def is_unused(self) -> bool:
        """Whether nobody looks, nor did a moment ago."""
        return not self.viewers and time.monotonic() - self.unused > LINGER

    def views(self, places: dict[str, str]) -> dict[str, View]:
        """What is shown now at these places of the panels."""
        return {track.name: track.whole for track in self.tracks(places)}

    def tracks(self, places: dict[str, str]) -> list[Track]:
        """What a viewer follows who is at these places of the panels."""
        numbered = enumerate(self._panels)
        return [self._status, self._latest, *(panel.track(places.get(str(number), "")) for number, panel in numbered)]


class Viewer:
    """One who follows a board: what it has of each track. `wake` is called as there is more."""

    def __init__(self, board: Board, places: dict[str, str], wake: Callable[[], None]) -> None:
        self._board, self._wake = board, wake
        self._seen = {track: -1 for track in board.tracks(places)}
        for track in self._seen:
            track.viewers += 1
        board.viewers.add(self)

    def leave(self) -> None:
        """Follows no more."""
        self._board.viewers.discard(self)
        self._board.unused = time.monotonic()
        for track in self._seen:
            track.viewers -= 1

    def look(self) -> None:
        """Wakes the viewer where there is more."""
        if any(track.version != seen for track, seen in self._seen.items()):
            self._wake()

    def take(self) -> bytes:
        """The events that the viewer doesn't have yet."""
        pieces = []
        for track, seen in self._seen.items():
            if track.version != seen:
                pieces.append(track.since(seen))
                self._seen[track] = track.version
        return b"".join(pieces)


def _some(answers: frozenset[Answer]) -> str:
    """One of some answers, and how many more there are."""
    row, more = shown_row(max(answers)), len(answers) - 1
    return row[:LONGEST_NEWS] + "…" * (len(row) > LONGEST_NEWS) + (f", and {more} more" if more else "")


def _titles(page: Page) -> dict[str, str]:
    """Under which title changes of a query are reported: of those that are shown as rows, or of all where none is."""
    rows = [panel for panel in page.panels if panel.kind in ("table", "newest")]
    titles: dict[str, str] = {}
    for panel in sorted(rows or page.panels, key=lambda panel: panel.kind != "table"):
        for query, label in zip(panel.queries, panel.labels):
            titles.setdefault(query, label if panel.kind == "chart" else panel.title)
    return titles
