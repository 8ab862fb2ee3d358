"""Follows the queries that somebody asks for, over one connection, and hands each change to who listens.

A feed is one query with its answers. What goes wrong with one query concerns its feed alone, which says so in words and
begins by itself once the query is there. After a lost connection the answers are listed again, and what was missed is
one change. A server that is quiet is asked for a reply each second, so a feed is called live only while it answers.
"""

from __future__ import annotations

import asyncio
import time
from typing import Coroutine, Protocol

from ..aio import Lives
from ..aio.live import Live
from ..errors import Ended, Error, NoQuery, OutOfMemory, Overtaken, Refused
from ..live import PASSING
from ..protocol import Answer, Change

FIRST_PAUSE = 0.1  # seconds before a connection that failed is tried again; each further pause is twice as long
LONGEST_PAUSE = 3.0
PING = 1.0  # seconds without a byte, after which the server is asked for a reply, and between two tries of a query
SILENT = 3.0  # seconds without a reply, after which the server isn't called live
TIMEOUT = 15.0  # seconds without a reply, after which the connection is given up
WITHIN = 15.0  # seconds that a listing may take
LINGER = 30.0  # seconds for which a query is followed that nobody listens to any more
BURST = 0.01  # seconds of changes, after which others have their turn
WAITING = "waiting for the server"  # before it was ever asked
NOTHING = "djq_web_asks_for_a_reply"  # a name that no query has, for where nothing else is asked
MOST_FEEDS = 300  # queries that are followed at once


class Listener(Protocol):
    """Who takes what becomes of a feed."""

    def begin(self, feed: Feed) -> None:
        """The answers were listed for the first time."""

    def change(self, feed: Feed, change: Change) -> None:
        """The answers changed."""

    def state(self, feed: Feed) -> None:
        """Whether the feed is up to date has changed, or why it isn't."""


class Feed:
    """One query, and its answers as far as they are known."""

    def __init__(self, query: str) -> None:
        self.query = query
        self.answers: set[Answer] = set()
        self.began = False  # whether answers were ever listed
        self.words = WAITING  # why it isn't up to date; empty where it is
        self.since = ""  # the time of the day since when it isn't
        self.is_own = False  # whether that is of this query alone
        self.unused = time.monotonic()  # since when nobody listens
        self._listeners: list[Listener] = []
        self._live: Live | None = None

    def add(self, listener: Listener) -> None:
        """One more listener, which gets at once what is known."""
        self._listeners.append(listener)
        if self.began:
            listener.begin(self)
        listener.state(self)

    def remove(self, listener: Listener) -> None:
        """One listener less."""
        self._listeners.remove(listener)
        self.unused = time.monotonic()

    @property
    def is_used(self) -> bool:
        """Whether anybody listens, or did until a moment ago."""
        return bool(self._listeners) or time.monotonic() - self.unused < LINGER

    @property
    def state(self) -> str | None:
        """Why it isn't up to date, for a page that says itself where the server is lost; none where it is."""
        if not self.words or self.is_own or not self.began:
            return self.words or None
        return f"Not up to date since {self.since}."

    # By the follower

    def start(self, live: Live) -> None:
        """The answers were listed, for the first time or again."""
        self._live = live
        self.replace(live.answers, live.seq)
        self.say("")

    def replace(self, answers: set[Answer], seq: int) -> None:
        """Takes a new list of the answers; the difference is one change."""
        if self.began:
            change = Change(seq, frozenset(answers - self.answers), frozenset(self.answers - answers), restarted=True)
            self.answers = answers
            if change.came or change.went:
                self.take(change)
            return
        self.began, self.answers = True, answers
        for listener in self._listeners:
            listener.begin(self)

    def take(self, change: Change) -> None:
        """Hands a change on that is in the answers."""
        if self._live is not None:
            self.answers = self._live.answers
        if change.came or change.went:
            for listener in self._listeners:
                listener.change(self, change)

    def stop(self, words: str, is_own: bool = True) -> None:
        """The answers aren't up to date any more. They stay, so that what is missed is one change."""
        self._live = None
        self.say(words, is_own)

    def say(self, words: str, is_own: bool = True) -> None:
        """Says why the feed isn't up to date, once for each reason."""
        if words == self.words:
            return
        if not self.words:
            self.since = time.strftime("%H:%M:%S")
        self.words, self.is_own = words, is_own
        for listener in self._listeners:
            listener.state(self)


class Follower:
    """Follows one server."""

    def __init__(self, host: str, port: int) -> None:
        self.host, self.port = host, port
        self.words = WAITING  # why nothing is up to date; empty where the server answers
        self._feeds: dict[str, Feed] = {}
        self._heard = 0.0  # when the server answered last
        self._wanted = asyncio.Event()  # set as a feed is to be begun

    def feed(self, query: str) -> Feed | None:
        """The feed of a query, which is begun where it is new; none where too many are followed."""
        feed = self._feeds.get(query)
        if feed is None:
            if len(self._feeds) >= MOST_FEEDS:
                return None
            feed = self._feeds[query] = Feed(query)
            feed.words = self.words or "being listed"
            self._wanted.set()
        return feed

    @property
    def silent(self) -> str:
        """Why the page isn't live, in words; empty where the server answered just now."""
        if self.words:
            return self.words
        seconds = time.monotonic() - self._heard
        return f"no reply from the server for {seconds:.0f} s" if seconds > SILENT else ""

    async def run(self) -> None:
        """Follows without end. Raises `djq.Error` where what answers isn't such a server."""
        pause = FIRST_PAUSE
        while True:
            begun = time.monotonic()
            try:
                async with Lives(self.host, self.port, timeout=TIMEOUT, within=WITHIN) as lives:
                    await _both(self._take(lives), self._tend(lives))
            except PASSING as error:
                self._lose(explain(error, self.host, self.port))
            if self._heard > begun:
                pause = FIRST_PAUSE
            await asyncio.sleep(pause)
            pause = min(2 * pause, LONGEST_PAUSE)

    # Inside

    async def _take(self, lives: Lives) -> None:
        """Hands each change on as it comes."""
        until = time.monotonic() + BURST
        async for live, change in lives.changes():
            self._hand(live.query, change)
            if time.monotonic() > until:
                await asyncio.sleep(0)
                until = time.monotonic() + BURST

    def _hand(self, query: str, change: Change) -> None:
        self._hear()
        if (feed := self._feeds.get(query)) is not None:
            feed.take(change)

    async def _tend(self, lives: Lives) -> None:
        """Begins what isn't begun, ends what nobody uses, and asks for a reply where nothing came for long."""
        while True:
            self._wanted.clear()
            for feed in list(self._feeds.values()):
                if not feed.is_used:
                    self._drop(lives, feed)
                elif feed._live is None:
                    await self._start(lives, feed)
            if time.monotonic() - self._heard >= 0.9 * PING:
                await self._ping(lives)
            try:
                await asyncio.wait_for(self._wanted.wait(), PING)
            except asyncio.TimeoutError:
                pass

    async def _start(self, lives: Lives, feed: Feed) -> None:
        try:
            live = await lives.add(feed.query)
        except NoQuery:
            self._hear()
            since = "any more" if feed.began else "yet"
            feed.stop(f"There is no query {feed.query} {since}. It is shown here once it is registered.")
            return
        except (Refused, Overtaken) as error:
            self._hear()
            feed.stop(explain(error, self.host, self.port))
            return
        self._hear()
        feed.start(live)
        for other, change in await lives.ready():  # what came before the query was among those that are waited for
            self._hand(other.query, change)

    def _drop(self, lives: Lives, feed: Feed) -> None:
        del self._feeds[feed.query]
        if feed._live is not None:
            lives.remove(feed._live)

    async def _ping(self, lives: Lives) -> None:
        """Waits for a reply, and takes the changes before it."""
        if any(True for _ in lives):
            for live, change in await lives.sync():
                self._hand(live.query, change)
        else:
            try:
                await lives.add(NOTHING)
            except NoQuery:
                pass
        self._hear()

    def _hear(self) -> None:
        self._heard = time.monotonic()
        self.words = ""

    def _lose(self, words: str) -> None:
        self.words = words
        for feed in self._feeds.values():
            feed.stop(words, is_own=False)


async def _both(*coroutines: Coroutine[object, object, None]) -> None:
    """Runs both until one of them fails, and raises that."""
    tasks = [asyncio.ensure_future(coroutine) for coroutine in coroutines]
    try:
        done, _ = await asyncio.wait(tasks, return_when=asyncio.FIRST_EXCEPTION)
        for task in done:
            task.result()
    finally:
        for task in tasks:
            task.cancel()
        await asyncio.gather(*tasks, return_exceptions=True)


def explain(error: Error, host: str, port: int) -> str:
    """What went wrong, in a sentence for who reads the page."""
    if isinstance(error, Ended):
        return {
            "full": "The server has as many sessions as it takes. Trying again.",
            "slow": "This page read more slowly than rows change. Beginning again.",
            "memory": "The server is out of memory for this page. Trying again.",
        }.get(error.cause, "The server ended the session. Trying again.")
    if isinstance(error, OutOfMemory):
        return "The server is out of memory for this. Trying again."
    if isinstance(error, Overtaken):
        return "Not all rows could be listed in time: they change too fast, or the server is slow. Trying again."
    if isinstance(error, NoQuery):
        return "A query was dropped. Beginning again."
    if isinstance(error, Refused):
        return f"The server refused this: {error.words}"
    return f"The server at {host}:{port} doesn't answer. Trying again."
