"""A query's answers as events for other people's pages: first all of them, then each change.

    GET /live/QUERY                 all answers
    GET /live/QUERY?machine=7       those with this value in a column; of several columns, with all of these values

Events are in JSON. `answers` says `{"columns": [..], "answers": [[..], ..]}`, which replaces whatever was there;
`change` says `{"seq": N, "came": [[..], ..], "went": [[..], ..]}`; `status` says `{"live": true, "words": ".."}`. Each
has an id. A browser that connects again sends the last one, and gets what it missed, or `answers` where that isn't
known any more. An integer that JavaScript can't hold, past 2^53 - 1, is a text of its digits.

Changes go to viewers by a hash of the values that they asked for, so what a change costs doesn't depend on how many
other values are asked for.
"""

from __future__ import annotations

import json
import secrets
import time
from collections import deque
from typing import Callable, Iterable

from ..protocol import Answer, Change, Value
from .feeds import LINGER, Feed
from .names import Names

EXACT = 2**53 - 1  # the largest integer up to which JavaScript has all
MOST_PENDING = 1 << 20  # bytes that wait for a viewer, above which it gets all answers anew in their place
MOST_LOGGED = 1000  # changes that are held for viewers that come again
MOST_LOGGED_ANSWERS = 100_000  # of these changes
MOST_INDEXES = 8  # different choices of columns by which the viewers of one query ask

Places = tuple[int, ...]  # columns, in order
Key = tuple[str, ...]  # the value of each, as a text


class Full(Exception):
    """There is no room for what a viewer asks for. Says of what."""


class Channel:
    """The viewers that ask for the same columns and values."""

    def __init__(self) -> None:
        self.viewers: set[Watcher] = set()


class Index:
    """The answers, and the viewers, by the values of some columns."""

    def __init__(self, places: Places, answers: Iterable[Answer]) -> None:
        self._places = places
        self._answers: dict[Key, set[Answer]] = {}
        self.channels: dict[Key, Channel] = {}
        for answer in answers:
            self._answers.setdefault(self.key(answer), set()).add(answer)

    def key(self, answer: Answer) -> Key:
        """Where an answer belongs; a column that isn't there is no text that could be asked for."""
        return tuple([str(answer[place]) if place < len(answer) else "\0" for place in self._places])

    def answers(self, key: Key) -> set[Answer]:
        """The answers with these values."""
        return self._answers.get(key, set())

    def change(self, change: Change) -> dict[Key, tuple[list[Answer], list[Answer]]]:
        """Takes a change, and parts it by the values of the columns."""
        parted: dict[Key, tuple[list[Answer], list[Answer]]] = {}
        for answer in change.went:
            key = self.key(answer)
            parted.setdefault(key, ([], []))[1].append(answer)
            there = self._answers.get(key)
            if there is not None:
                there.discard(answer)
                if not there:
                    del self._answers[key]
        for answer in change.came:
            key = self.key(answer)
            parted.setdefault(key, ([], []))[0].append(answer)
            self._answers.setdefault(key, set()).add(answer)
        return parted


class Hub:
    """One query's viewers."""

    def __init__(self, feed: Feed, names: Names) -> None:
        self.feed = feed
        self._names = names
        self._mark = secrets.token_hex(4)  # so that an id of an earlier run isn't taken for one of this
        self._count = 0  # changes so far, of which ids are made
        self._log: deque[tuple[int, Change]] = deque()
        self._logged = 0  # answers in the log
        self._indexes: dict[Places, Index] = {}
        self._all = ""  # all answers as JSON, as long as they are the same
        self._everything = Channel()  # who asks for all answers
        self.watchers: set[Watcher] = set()
        self._unused = time.monotonic()  # since when it has no viewers
        feed.add(self)

    @property
    def is_unused(self) -> bool:
        """Whether nobody looks, nor did a moment ago."""
        return not self.watchers and time.monotonic() - self._unused > LINGER

    # By the feed

    def begin(self, feed: Feed) -> None:
        """The answers were listed for the first time."""
        self._indexes = {places: Index(places, feed.answers) for places in self._indexes}
        for watcher in self.watchers:
            self._channel(watcher).viewers.add(watcher)
            watcher.restart()

    def change(self, feed: Feed, change: Change) -> None:
        """The answers changed."""
        self._count += 1
        self._all = ""
        self._hold(change)
        self._send(self._everything, change.seq, change.came, change.went)
        for index in self._indexes.values():
            for key, (came, went) in index.change(change).items():
                if (channel := index.channels.get(key)) is not None:
                    self._send(channel, change.seq, came, went)

    def state(self, feed: Feed) -> None:
        """Whether the feed is up to date has changed."""
        for watcher in self.watchers:
            watcher.say(self._status())

    # By viewers

    def join(self, watcher: Watcher, last: str) -> None:
        """One more viewer, who had the event of this id last. Raises `Full`."""
        if watcher.places and watcher.places not in self._indexes:
            if len(self._indexes) >= MOST_INDEXES:
                raise Full("the viewers of this query ask by too many different columns")
            self._indexes[watcher.places] = Index(watcher.places, self.feed.answers)
        self._channel(watcher).viewers.add(watcher)
        self.watchers.add(watcher)
        watcher.say(self._status())
        if self.feed.began:
            missed = self._since(watcher, last)
            if missed is None:
                watcher.restart()
            else:
                watcher.put(missed)

    def leave(self, watcher: Watcher) -> None:
        """One viewer less."""
        self.watchers.discard(watcher)
        self._unused = time.monotonic()
        channel = self._channel(watcher)
        channel.viewers.discard(watcher)
        index = self._indexes.get(watcher.places)
        if index is None or channel.viewers:
            return
        del index.channels[watcher.key]
        if not index.channels:
            del self._indexes[watcher.places]

    def answers(self, watcher: Watcher) -> bytes:
        """All answers that a viewer asked for, as an event."""
        if watcher.places:
            text = self._list(self._indexes[watcher.places].answers(watcher.key))
        else:
            text = self._all = self._all or self._list(self.feed.answers)
        return f"id: {self._id}\nevent: answers\ndata: {text}\n\n".encode()

    def beat(self) -> bytes:
        """Says that the connection is there, and which changes a viewer has without being sent anything."""
        return f"id: {self._id}\n: beat\n\n".encode() if self.feed.began else b": beat\n\n"

    # Inside

    def _channel(self, watcher: Watcher) -> Channel:
        """The viewers that ask for what this one asks for."""
        if not watcher.places:
            return self._everything
        return self._indexes[watcher.places].channels.setdefault(watcher.key, Channel())

    def _send(self, channel: Channel, seq: int, came: Iterable[Answer], went: Iterable[Answer]) -> None:
        """Hands a change to all viewers of a channel."""
        if channel.viewers:
            piece = self._event(seq, came, went)
            for watcher in channel.viewers:
                watcher.put(piece)

    @property
    def _id(self) -> str:
        return f"{self._mark}-{self._count}"

    def _hold(self, change: Change) -> None:
        """Logs a change for viewers that come again."""
        self._log.append((self._count, change))
        self._logged += len(change.came) + len(change.went)
        while len(self._log) > MOST_LOGGED or self._logged > MOST_LOGGED_ANSWERS:
            _, old = self._log.popleft()
            self._logged -= len(old.came) + len(old.went)

    def _since(self, watcher: Watcher, last: str) -> bytes | None:
        """The events after the one with this id; none where they aren't known."""
        mark, _, number = last.partition("-")
        if mark != self._mark or not (number.isascii() and number.isdigit()):
            return None
        count = int(number)
        if count > self._count or (count < self._count and (not self._log or self._log[0][0] > count + 1)):
            return None
        pieces = []
        for at, change in self._log:
            if at > count:
                came, went = [*filter(watcher.asks_for, change.came)], [*filter(watcher.asks_for, change.went)]
                if came or went:
                    pieces.append(self._event(change.seq, came, went, at))
        return b"".join(pieces)

    def _status(self) -> bytes:
        text = json.dumps({"live": not self.feed.words, "words": self.feed.words or "live"}, ensure_ascii=False)
        return f"event: status\ndata: {text}\n\n".encode()

    def _event(self, seq: int, came: Iterable[Answer], went: Iterable[Answer], at: int | None = None) -> bytes:
        view = {"seq": seq, "came": plain(came), "went": plain(went)}
        text = json.dumps(view, ensure_ascii=False, separators=(",", ":"))
        count = self._count if at is None else at
        return f"id: {self._mark}-{count}\nevent: change\ndata: {text}\n\n".encode()

    def _list(self, answers: set[Answer]) -> str:
        width = len(next(iter(answers))) if answers else 0
        view = {"columns": self._names.labels(self.feed.query, width), "answers": plain(answers)}
        return json.dumps(view, ensure_ascii=False, separators=(",", ":"))


class Watcher:
    """One viewer of a query: what it asks for, and what waits to be sent to it. `wake` is called as there is more."""

    def __init__(self, hub: Hub, wanted: dict[int, str], wake: Callable[[], None]) -> None:
        self.places: Places = tuple(sorted(wanted))
        self.key: Key = tuple(wanted[place] for place in self.places)
        self._hub, self._wake = hub, wake
        self._status = b""  # that waits
        self._pending: list[bytes] = []  # changes that wait
        self._size = 0
        self._anew = False  # whether all answers are to be sent in their place

    def asks_for(self, answer: Answer) -> bool:
        """Whether an answer is one of those that the viewer asks for."""
        return all(
            place < len(answer) and str(answer[place]) == value for place, value in zip(self.places, self.key)
        )

    def say(self, status: bytes) -> None:
        """A status waits to be sent, in place of the one that does."""
        self._status = status
        self._wake()

    def put(self, piece: bytes) -> None:
        """A change waits to be sent. Who doesn't read gets all answers anew, in place of what waits."""
        if self._anew:
            return  # the answers are made as they are sent, and so have this change
        self._pending.append(piece)
        self._size += len(piece)
        if self._size > MOST_PENDING:
            self.restart()
        self._wake()

    def restart(self) -> None:
        """All answers are to be sent, in place of the changes that wait."""
        self._pending, self._size, self._anew = [], 0, True
        self._wake()

    def take(self) -> bytes:
        """What is to be sent next; nothing where nothing waits."""
        answers = self._hub.answers(self) if self._anew else b"".join(self._pending)
        pieces = self._status + answers
        self._status, self._pending, self._size, self._anew = b"", [], 0, False
        return pieces


def plain(answers: Iterable[Answer]) -> list[list[Value]]:
    """Answers as JSON has them, so that JavaScript reads each value exactly."""
    return [[v if type(v) is str or -EXACT <= int(v) <= EXACT else str(v) for v in answer] for answer in answers]
