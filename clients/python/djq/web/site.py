"""What browsers may ask for: the page of the page file, a table of each query, and answers as events."""

from __future__ import annotations

import asyncio
import hashlib
import secrets
import time

from .board import Board
from .feeds import LINGER, Follower
from .live import Full, Hub
from .names import Names
from .page import Page, Panel
from .stream import Streams

BETWEEN = 0.03  # seconds at least between two times that viewers are sent changes
SHARE = 0.0001  # seconds that each viewer adds to that, so that many leave time for the rest
TICK = 0.5  # seconds without a change, after which lines grow
ROWS = 50  # of a page of a table that is shown by its query's name
MOST_BOARDS = 200  # that are shown by a query's name


class Site:
    """All boards and hubs. `is_open` says whether each query of the server is offered, or those of the page alone."""

    def __init__(self, follower: Follower, names: Names, page: Page | None, most_viewers: int, is_open: bool) -> None:
        self.follower, self.names, self.is_open = follower, names, is_open
        self.streams = Streams(most_viewers)
        self._run = secrets.token_bytes(16)
        self._boards: dict[str, Board] = {}  # that of the page file is without a name
        self._hubs: dict[str, Hub] = {}
        self._swept = time.monotonic()
        self._changed = asyncio.Event()  # set as a board has something to publish
        if page is not None:
            self._board("", page)

    def home(self) -> Board | None:
        """The board of the page file."""
        return self._boards.get("")

    def offers(self, name: str) -> bool:
        """Whether a query may be asked for."""
        return self.is_open or name in self.names.queries()

    def table(self, query: str, title: str) -> Board:
        """The board that shows a query as a table. Raises `Full`."""
        if query not in self._boards:
            if len(self._boards) >= MOST_BOARDS:
                raise Full("too many tables are looked at")
            columns = self.names.columns(query)
            panel = Panel("table", title, [query], [query], columns=columns, rows=ROWS, wide=True)
            return self._board(query, Page(title, [panel]))
        return self._boards[query]

    def hub(self, query: str) -> Hub:
        """The viewers of a query's answers. Raises `Full`."""
        if query not in self._hubs:
            if (feed := self.follower.feed(query)) is None:
                raise Full("too many queries are asked for")
            self._hubs[query] = Hub(feed, self.names)
        return self._hubs[query]

    def mark(self, board: Board) -> str:
        """Of the run as well as of the page: what a script of an earlier run holds may be of other panels."""
        return hashlib.sha256(self._run + repr(board.page).encode()).hexdigest()[:16]

    async def publish(self) -> None:
        """Publishes what has changed, without end."""
        while True:
            self._changed.clear()
            if time.monotonic() - self._swept > LINGER / 10:
                self._sweep()
            for board in self._boards.values():
                board.status(self.follower.silent)
                board.tick()
                board.publish()
            await asyncio.sleep(BETWEEN + SHARE * sum(len(board.viewers) for board in self._boards.values()))
            try:
                await asyncio.wait_for(self._changed.wait(), TICK)
            except asyncio.TimeoutError:
                pass

    # Inside

    def _board(self, name: str, page: Page) -> Board:
        feeds = [self.follower.feed(query) for query in page.queries()]
        if None in feeds:
            raise Full("too many queries are asked for")
        board = self._boards[name] = Board(page, self._changed.set)
        for feed in feeds:
            if feed is not None:
                feed.add(board)
        board.status(self.follower.silent)
        board.publish()
        return board

    def _sweep(self) -> None:
        """Gives up tables and hubs that nobody looks at any more."""
        self._swept = time.monotonic()
        for name, board in list(self._boards.items()):
            if name and board.is_unused:
                del self._boards[name]
                for query in board.page.queries():
                    if (feed := self.follower.feed(query)) is not None:
                        feed.remove(board)
        for name, hub in list(self._hubs.items()):
            if hub.is_unused:
                del self._hubs[name]
                hub.feed.remove(hub)
