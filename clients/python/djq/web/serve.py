"""Answers what browsers ask for over HTTP.

It only reads, and a page is for whoever opens it: a request for another host's name, or by a page of another origin, is
refused, so no page that a browser shows beside it can read it by way of that browser. Answers as events (`/live/QUERY`)
are for the origins that are listed as well.
"""

from __future__ import annotations

import asyncio
import functools
import ipaddress
import json
import socket
from importlib import resources
from typing import Awaitable, Callable

from aiohttp import web

from ..aio import connect
from ..errors import BadName, Error
from ..protocol import checked
from .board import Board, Viewer
from .feeds import explain
from .live import Full, Watcher
from .names import MOST_COLUMNS
from .render import render, render_full, render_missing, render_offer
from .rows import FRESH, now
from .site import Site
from .stream import Connection, Room, Stream

SPARE = 500  # connections beside those of viewers
WAIT = 5.0  # seconds that the server may take to say whether it has a query

# the page runs no script but its own, loads from nowhere else, is in no frame, and makes no markup of a text
HEADERS = {
    "Content-Security-Policy": "default-src 'none'; script-src 'self'; style-src 'self'; img-src 'self'; "
    "connect-src 'self'; base-uri 'none'; form-action 'self'; frame-ancestors 'none'; "
    "require-trusted-types-for 'script'; trusted-types 'none'",
    "X-Content-Type-Options": "nosniff",
    "X-Frame-Options": "DENY",
    "Referrer-Policy": "no-referrer",
    "Cross-Origin-Opener-Policy": "same-origin",
    "Cross-Origin-Resource-Policy": "same-origin",
    "Cache-Control": "no-store",
    "Server": "djq-web",
}

FILES = {"page.css": "text/css", "page.js": "text/javascript", "icon.svg": "image/svg+xml"}

Handler = Callable[[web.Request], Awaitable[web.StreamResponse]]


class Refusal(Exception):
    """A request that isn't answered, by the status and the reason that are sent instead."""

    def __init__(self, status: int, reason: str) -> None:
        super().__init__(reason)
        self.status, self.reason = status, reason


class Doors:
    """From where requests are answered: the hosts' names by which the page may be asked for, and other origins whose
    pages may read answers as events."""

    def __init__(self, address: tuple[str, int], names: list[str], origins: list[str]) -> None:
        host, port = address
        hosts = [name.lower() for name in names]
        if not is_any(host):
            hosts.append(bracketed(host))
        if is_loopback(host):
            hosts += ["localhost", "127.0.0.1", "[::1]"]
        self._hosts = {f"{host}:{port}" for host in hosts} | {name.lower() for name in names}
        if port == 80:
            self._hosts.update(hosts)
        self._origins = {origin.lower().rstrip("/") for origin in origins}

    def admit(self, request: web.Request) -> dict[str, str]:
        """The headers of an answer to this request. Raises `Refusal` where it gets none."""
        hosts: list[str] = request.headers.getall("Host", [])
        if len(hosts) != 1 or hosts[0].strip().lower() not in self._hosts:
            raise Refusal(421, "this is none of the names of this page; others are given by --name")
        origins = [origin.strip().lower() for origin in request.headers.getall("Origin", [])]
        if request.path.startswith("/live/") and len(origins) == 1 and origins[0] in self._origins:
            return {"Access-Control-Allow-Origin": request.headers["Origin"], "Vary": "Origin",
                    "Cross-Origin-Resource-Policy": "cross-origin"}  # fmt: skip
        for origin in origins:
            scheme, _, host = origin.partition("://")
            if scheme not in ("http", "https") or host not in self._hosts:
                raise Refusal(403, "asked for by another's page; its origin may be listed by --allow")
        site = request.headers.get("Sec-Fetch-Site", "none")
        followed = (request.headers.get("Sec-Fetch-Mode"), request.headers.get("Sec-Fetch-Dest"))
        if site not in ("none", "same-origin") and followed != ("navigate", "document"):
            raise Refusal(403, "asked for by another's page")
        return {}


class Web:
    """The answers to all requests."""

    def __init__(self, site: Site, doors: Doors) -> None:
        self._site, self._doors = site, doors

    def application(self) -> web.Application:
        """What aiohttp serves."""
        made = web.Application(middlewares=[self._guard])
        made.router.add_get("/", self._home)
        made.router.add_get("/events", self._home_events)
        made.router.add_get("/offer", self._offer)
        made.router.add_get("/show", self._find)
        made.router.add_get("/show/{name}", self._table)
        made.router.add_get("/show/{name}/events", self._table_events)
        made.router.add_get("/live/{query}", self._live)
        for name in FILES:
            made.router.add_get(f"/{name}", self._file)
        return made

    @web.middleware
    async def _guard(self, request: web.Request, handler: Handler) -> web.StreamResponse:
        """Admits a request, and says in words what isn't answered."""
        more: dict[str, str] = {}
        try:
            more = request["more"] = self._doors.admit(request)
            if isinstance(request.protocol, Connection):
                request.protocol.asked()
                if request.protocol.room.is_over:
                    raise Full("this page has too many connections")
            if request.method == "OPTIONS" and more:
                response: web.StreamResponse = web.Response(status=204, headers={"Access-Control-Allow-Methods": "GET"})
            elif request.method not in ("GET", "HEAD"):
                response = words(405, "this page only reads", {"Allow": "GET, HEAD"})
                response.force_close()  # a body that isn't read would be taken for the next request
            else:
                response = await handler(request)
        except Refusal as refusal:
            response = words(refusal.status, refusal.reason)
        except Full as full:
            response = words(503, f"{full}; try again later", {"Retry-After": "5"})
        except web.HTTPException as error:
            response = words(error.status, "there is no such page" if error.status == 404 else error.reason)
        if not response.prepared:
            response.headers.update({**HEADERS, **more})
        return response

    # Pages

    async def _home(self, request: web.Request) -> web.StreamResponse:
        """The page of the page file; what there is, where none was given."""
        board = self._site.home()
        if board is None:
            return await self._offer(request)
        return self._page(request, board, "/events")

    async def _offer(self, request: web.Request) -> web.StreamResponse:
        """What can be shown."""
        names, follower = self._site.names, self._site.follower
        return page(
            render_offer(f"{follower.host}:{follower.port}", follower.silent, names.queries(), names.relations(),
                         self._site.is_open)
        )  # fmt: skip

    async def _find(self, request: web.Request) -> web.StreamResponse:
        """Goes to the table of a name that was typed."""
        name = self._named(request.query.get("name", "").strip())
        return web.Response(status=303, headers={"Location": f"/show/{name}"})

    async def _table(self, request: web.Request) -> web.StreamResponse:
        """A table of a query, or of a relation."""
        name = self._named(request.match_info["name"])
        try:
            query = await self._look_up(name, request.headers.get("Sec-Fetch-Site", "none") in ("none", "same-origin"))
        except Error as error:
            follower = self._site.follower
            return page(render_missing(name, explain(error, follower.host, follower.port), True), 503)
        if query is None:
            return page(render_missing(name, f"The server has no query and no relation named {name}.", False), 404)
        return self._page(request, self._site.table(query, name), f"/show/{query}/events")

    async def _look_up(self, name: str, registers: bool) -> str | None:
        """The query by which a name is shown. By a link of another's page no query is registered for it."""
        if name in self._site.names.queries() or not self._site.is_open:
            return name
        follower = self._site.follower
        async with connect(follower.host, follower.port, WAIT) as server:
            return await self._site.names.look_up(server, name, registers)

    def _named(self, name: str) -> str:
        """A name that may be asked for."""
        try:
            checked(name)
        except BadName as error:
            raise Refusal(404, "a name is a letter a to z, then a to z, 0 to 9 and _; 32 at most") from error
        if not self._site.offers(name):
            raise Refusal(404, f"this page doesn't show {name}; --query {name} or --all would")
        return name

    def _page(self, request: web.Request, board: Board, events: str) -> web.Response:
        if self._site.streams.is_full:
            return page(render_full(self._site.streams.most), 503)
        return page(render(board, self._site.mark(board), events, places_of(request)))

    async def _file(self, request: web.Request) -> web.StreamResponse:
        """A file of the page."""
        name = request.path[1:]
        body = resources.files(__package__).joinpath(name).read_bytes()
        return web.Response(body=body, content_type=FILES[name], charset="utf-8")

    # Streams

    async def _home_events(self, request: web.Request) -> web.StreamResponse:
        board = self._site.home()
        if board is None:
            raise Refusal(404, "there is no page")
        return await self._board_events(request, board)

    async def _table_events(self, request: web.Request) -> web.StreamResponse:
        query = self._named(request.match_info["name"])
        return await self._board_events(request, self._site.table(query, query))

    async def _board_events(self, request: web.Request, board: Board) -> web.StreamResponse:
        """What a page shows, then what is newer, without end."""
        stream, response = self._stream(request)
        if request.method == "HEAD":
            return response
        view = json.dumps({"mark": self._site.mark(board), "now": now(), "fresh": FRESH})
        first = f"retry: 1000\nevent: page\ndata: {view}\n\n".encode()
        viewer = Viewer(board, places_of(request), stream.wake)
        self._site.streams.add(stream)
        try:
            await stream.run(response, first, viewer.take, lambda: b"event: beat\ndata:\n\n")
        finally:
            viewer.leave()
            self._site.streams.remove(stream)
        return response

    async def _live(self, request: web.Request) -> web.StreamResponse:
        """A query's answers as events, then each change, without end."""
        query = self._named(request.match_info["query"])
        wanted = self._wanted(request, query)
        stream, response = self._stream(request)
        response.headers.update(request["more"])
        if request.method == "HEAD":
            return response
        hub = self._site.hub(query)
        watcher = Watcher(hub, wanted, stream.wake)
        hub.join(watcher, request.headers.get("Last-Event-ID", ""))
        self._site.streams.add(stream)
        try:
            await stream.run(response, b"retry: 1000\n\n", watcher.take, hub.beat)
        finally:
            hub.leave(watcher)
            self._site.streams.remove(stream)
        return response

    def _wanted(self, request: web.Request, query: str) -> dict[int, str]:
        """The columns by which a viewer asks, each with its value."""
        wanted: dict[int, str] = {}
        for column, value in request.query.items():
            place = self._site.names.place(query, column)
            if place is None:
                named = ", ".join(self._site.names.columns(query)) or f"1 to {MOST_COLUMNS}, by their place"
                raise Refusal(400, f"{query} has no column {column}; its columns are {named}")
            if place in wanted:
                raise Refusal(400, f"{column} is asked for twice")
            wanted[place] = value
        return wanted

    def _stream(self, request: web.Request) -> tuple[Stream, web.StreamResponse]:
        """A stream, where there is place for one more."""
        if self._site.streams.is_full:
            raise Full(f"this page has {self._site.streams.most} viewers, which are the most")
        headers = {**HEADERS, "Content-Type": "text/event-stream; charset=utf-8", "X-Accel-Buffering": "no"}
        return Stream(request), web.StreamResponse(headers=headers)


async def open_site(application: web.Application, listener: socket.socket, most_viewers: int) -> None:
    """Serves an application at a socket that is bound, as long as the loop runs."""
    runner = web.AppRunner(application, access_log=None)
    await runner.setup()
    manager, loop, room = runner.server, asyncio.get_running_loop(), Room(most_viewers + SPARE)
    if manager is not None:  # it is there, after `setup`
        make = functools.partial(Connection, manager, loop, room)
        await loop.create_server(make, sock=listener, backlog=1024)


def page(text: str, status: int = 200) -> web.Response:
    """A page of HTML."""
    headers = {"Retry-After": "5"} if status == 503 else {}
    return web.Response(text=text, status=status, content_type="text/html", charset="utf-8", headers=headers)


def words(status: int, text: str, more: dict[str, str] | None = None) -> web.Response:
    """An answer in words."""
    return web.Response(text=f"{text}\n", status=status, headers=more)


def places_of(request: web.Request) -> dict[str, str]:
    """Which page of each panel a viewer is at: `p3=2` says the second one of panel 3."""
    return {name[1:]: value for name, value in request.query.items() if name[:1] == "p"}


def is_loopback(host: str) -> bool:
    """Whether only programs of this machine reach the address."""
    try:
        return ipaddress.ip_address(host).is_loopback
    except ValueError:
        return host.lower() == "localhost"


def is_any(host: str) -> bool:
    """Whether the address stands for all of the machine's."""
    try:
        return ipaddress.ip_address(host).is_unspecified
    except ValueError:
        return host == ""


def bracketed(host: str) -> str:
    """A host as an address in the browser says it."""
    return f"[{host}]" if ":" in host else host.lower()
