"""A stream of events to one browser, and how many there may be."""

from __future__ import annotations

import asyncio
import time
from typing import Any, Callable, Iterator

from aiohttp import web

BEAT = 10.0  # seconds without news, after which a browser gets a sign that the program is there
STUCK = 20.0  # seconds that a browser may take for its request, and for what it is sent
IDLE = 5.0  # seconds for which a connection is held that may ask for more
PIECE = 1 << 16  # bytes that are handed to the system at a time
STEPS = 50  # parts of the seconds between two beats, in which a part of the viewers has its turn


class Room:
    """How many connections there are, and how many may be. Some more get an answer that there is no room."""

    def __init__(self, most: int) -> None:
        self.most = most
        self.taken = 0

    @property
    def is_over(self) -> bool:
        """Whether there are more connections than there is room for."""
        return self.taken > self.most


class Connection(web.RequestHandler):
    """One connection of a browser. It is closed where no request comes for too long, and its stream ends with it."""

    def __init__(self, manager: web.Server, loop: asyncio.AbstractEventLoop, room: Room) -> None:
        settings: dict[str, Any] = {"keepalive_timeout": IDLE, "access_log": None, "tcp_keepalive": True}
        super().__init__(manager, loop=loop, **settings)
        self.stream: Stream | None = None
        self.room = room
        self._limit = loop.call_later(STUCK, self._give_up)

    def asked(self) -> None:
        """A whole request has come."""
        self._limit.cancel()

    def connection_made(self, transport: asyncio.BaseTransport) -> None:
        """A browser has connected."""
        super().connection_made(transport)
        self.room.taken += 1
        if self.room.taken > 2 * self.room.most:  # not even that there is no room can be said to so many
            self._give_up()

    def connection_lost(self, exc: BaseException | None) -> None:
        """The browser went away."""
        self.room.taken -= 1
        self._limit.cancel()
        if self.stream is not None:
            self.stream.lose()
        super().connection_lost(exc)

    def _give_up(self) -> None:
        if isinstance(self.transport, asyncio.Transport):
            self.transport.abort()


class Stream:
    """Events that go to one browser as they come."""

    def __init__(self, request: web.Request) -> None:
        self._request = request
        self._more = asyncio.get_running_loop().create_future()
        self._lost = False
        self._beats = False
        self._since: float | None = None  # when a write began that isn't done

    def wake(self) -> None:
        """There is more to be sent."""
        if not self._more.done():
            self._more.set_result(None)

    def beat(self) -> None:
        """It is time for a beat; a stream that took nothing for too long is closed."""
        transport = self._request.transport
        if self._since is not None and time.monotonic() - self._since > STUCK and transport is not None:
            transport.abort()
        self._beats = True
        self.wake()

    def lose(self) -> None:
        """The browser went away."""
        self._lost = True
        self.wake()

    async def run(
        self, response: web.StreamResponse, first: bytes, take: Callable[[], bytes], beat: Callable[[], bytes]
    ) -> None:
        """Sends what `take` gives, as often as it is woken, until the browser goes away."""
        if isinstance(self._request.protocol, Connection):
            self._request.protocol.stream = self
        try:
            await response.prepare(self._request)
            await response.write(first)
            while not self._lost:
                self._more = asyncio.get_running_loop().create_future()
                piece = take() or (beat() if self._beats else b"")
                self._beats = False
                if piece:
                    await self._write(response, piece)
                else:
                    await self._more
        except ConnectionError:
            pass  # a browser that goes away is no error

    async def _write(self, response: web.StreamResponse, piece: bytes) -> None:
        self._since = time.monotonic()
        if len(piece) <= PIECE:
            await response.write(piece)
        else:
            for at in range(0, len(piece), PIECE):
                await response.write(piece[at : at + PIECE])
        self._since = None


class Streams:
    """All streams, of which there are at most so many."""

    def __init__(self, most: int) -> None:
        self.most = most
        self._streams: set[Stream] = set()

    @property
    def is_full(self) -> bool:
        """Whether there is no place for one more."""
        return len(self._streams) >= self.most

    def add(self, stream: Stream) -> None:
        """One more stream."""
        self._streams.add(stream)

    def remove(self, stream: Stream) -> None:
        """One stream less."""
        self._streams.discard(stream)

    async def beat(self) -> None:
        """Gives each stream its beat in turn, without end."""
        while True:
            for some in self._parts():
                for stream in some:
                    stream.beat()
                await asyncio.sleep(BEAT / STEPS)

    def _parts(self) -> Iterator[list[Stream]]:
        """All streams in equal parts, so that not all are written to at once."""
        streams = list(self._streams)
        for step in range(STEPS):
            yield streams[step::STEPS]
