"""The command `djq-web`."""

from __future__ import annotations

import argparse
import asyncio
import contextlib
import resource
import socket
import sys
import threading
from importlib import resources

from ..errors import BadName, Error
from .demo import QUERIES, run_demo
from .feeds import WAITING, Follower
from .names import Names
from .page import Page, PageError, read_page

try:
    from .serve import SPARE, Doors, Web, bracketed, is_any, is_loopback, open_site
    from .site import Site
except ModuleNotFoundError as missing:
    if missing.name != "aiohttp":
        raise
    raise SystemExit("djq-web needs aiohttp, as by `apt install python3-aiohttp`") from missing

LISTEN = "127.0.0.1:7080"
VIEWERS = 2000


def main() -> None:
    """Serves the page until it is ended from outside."""
    words = _words()
    given = words.parse_args()
    server, listen = _address(words, given.server), _address(words, given.listen)
    if is_any(listen[0]) and not given.name:
        words.error(f"{given.listen} is every address of this machine: say by --name by which name browsers ask for it")
    page, names = _page(given), _names(words, given)
    for panel in page.panels if page is not None else []:
        for query in panel.queries:
            names.know(query, panel.columns)
    listener = _listener(listen, given.listen)
    most = _viewers(given.viewers)
    if not is_loopback(listen[0]):
        print("djq-web: whoever reaches this address can read the page", file=sys.stderr)
    port = listener.getsockname()[1]
    host = given.name[0] if is_any(listen[0]) else bracketed(listen[0])
    doors = Doors((listen[0], port), given.name, given.allow)
    print(f"djq-web: http://{host}:{port}/", flush=True)
    if given.demo:
        threading.Thread(target=run_demo, args=server, daemon=True).start()
    try:
        asyncio.run(_serve(server, names, page, given.all or given.page is None, doors, listener, most))
    except KeyboardInterrupt:
        pass
    except Error as error:
        sys.exit(f"djq-web: {server[0]}:{server[1]} answers, but not as a djq server does: {error}")


async def _serve(
    server: tuple[str, int],
    names: Names,
    page: Page | None,
    is_open: bool,
    doors: Doors,
    listener: socket.socket,
    most: int,
) -> None:
    """Follows the server and answers browsers, without end. Raises `djq.Error`."""
    follower = Follower(*server)
    site = Site(follower, names, page, most, is_open)
    await open_site(Web(site, doors).application(), listener, most)
    await asyncio.gather(follower.run(), site.publish(), site.streams.beat(), _report(follower))


async def _report(follower: Follower) -> None:
    """Says on standard error whenever the server is found or lost."""
    was_live: bool | None = None
    while True:
        words = follower.silent
        if words != WAITING and was_live != (not words):
            was_live = not words
            print(f"djq-web: {words or 'live'}", file=sys.stderr, flush=True)
        await asyncio.sleep(0.2)


def _words() -> argparse.ArgumentParser:
    words = argparse.ArgumentParser(prog="djq-web", description="Pages that show the answers of a server's queries.")
    add = words.add_argument
    add("server", metavar="HOST:PORT", help="of the djq server")
    add("--page", metavar="FILE.toml", help="what the page shows; its form is described by `pydoc djq.web`")
    add("--demo", action="store_true", help="fill relations with a small factory that moves, and show it")
    add("--query", metavar="HEAD", action="append", default=[],
        help="a query that is offered and how its columns are called, as 'board(machine,job)'; may be repeated")  # fmt: skip
    add("--all", action="store_true", help="offer every query of the server; else with --page only those of the page")
    add("--allow", metavar="ORIGIN", action="append", default=[],
        help="an origin whose pages may read /live/QUERY, as https://factory.example; may be repeated")  # fmt: skip
    add("--viewers", metavar="N", type=int, default=VIEWERS, help="that are served at once; else %(default)s")
    add("--listen", metavar="HOST:PORT", default=LISTEN, help="where browsers ask for it; else %(default)s")
    add("--name", metavar="NAME", action="append", default=[], help="a further name by which browsers ask for it")
    return words


def _address(words: argparse.ArgumentParser, text: str) -> tuple[str, int]:
    host, _, port = text.rpartition(":")
    if not (host and port.isascii() and port.isdigit() and int(port) < 65536):
        words.error(f"not HOST:PORT: {text}")
    return host.removeprefix("[").removesuffix("]"), int(port)


def _page(given: argparse.Namespace) -> Page | None:
    """What the page file says; the demo's where none is given, and nothing without either."""
    try:
        if given.page is not None:
            with open(given.page, encoding="utf-8") as file:
                return read_page(file.read())
        if given.demo:
            return read_page(resources.files(__package__).joinpath("factory.toml").read_text(encoding="utf-8"))
    except (PageError, OSError, UnicodeDecodeError) as error:
        sys.exit(f"djq-web: {given.page}: {error}")
    return None


def _names(words: argparse.ArgumentParser, given: argparse.Namespace) -> Names:
    """The queries that are known before the server is asked."""
    names = Names()
    try:
        for head in [*(QUERIES if given.demo else []), *given.query]:
            names.know_head(head)
    except BadName as error:
        words.error(f"--query: {error}")
    return names


def _listener(address: tuple[str, int], text: str) -> socket.socket:
    """The socket at which browsers connect."""
    family = socket.AF_INET6 if ":" in address[0] else socket.AF_INET
    listener = socket.socket(family, socket.SOCK_STREAM)
    try:
        listener.setsockopt(socket.SOL_SOCKET, socket.SO_REUSEADDR, 1)
        listener.bind(address)
        listener.listen(1024)
    except OSError as error:
        listener.close()
        sys.exit(f"djq-web: {text}: {error.strerror}")
    return listener


def _viewers(asked: int) -> int:
    """How many viewers can be served, each of which takes a file of this process."""
    wanted = asked + SPARE + 50
    least, most = resource.getrlimit(resource.RLIMIT_NOFILE)
    if least != resource.RLIM_INFINITY and least < wanted:
        with contextlib.suppress(ValueError, OSError):
            resource.setrlimit(resource.RLIMIT_NOFILE, (wanted if most == -1 else min(wanted, most), most))
    least, _ = resource.getrlimit(resource.RLIMIT_NOFILE)
    if least == resource.RLIM_INFINITY or least >= wanted:
        return max(1, asked)
    served = max(1, least - SPARE - 50)
    print(f"djq-web: at most {served} viewers, since a process may open {least} files here", file=sys.stderr)
    return served
