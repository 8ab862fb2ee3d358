"""All answers of a query at one moment, also while rows change.

The server reads at most 8,192 bytes of a session at once, and runs all lines that it has read before it reads again, one
line of each session in turn. So a cursor is opened and asked for many pages in one write. The replies are parsed only
once all have arrived: a client that parses them one by one is slower than the server, which ends a session that doesn't
read. The first write asks for a few pages, which is enough for most; else the next one asks for all that one write can
list. If that wasn't all, a further write goes on; if a change overtook it, it begins again.

Changes of other sessions that were read together with such a write are run between its lines. So after a listing was
overtaken the next write begins with blank lines: the changes are run between these, and none is left as the cursor is
opened.

That one write arrives in one read is likely and not promised. Nothing depends on it: a cursor that isn't stale at its
end has listed the answers of one moment, however the bytes were cut.
"""

from __future__ import annotations

import time
from typing import TYPE_CHECKING, Any, Callable, Sequence

from . import protocol
from .errors import Overtaken, Stale
from .protocol import MOST_ANSWERS, Answer, Pending

if TYPE_CHECKING:
    from .connection import Connection

MOST_PAGES = 670  # that are asked for in one turn: as many lines as are read at once
READ_BYTES = 8192  # that are read at once
FIRST_LEAD, MOST_LEAD = 128, 2048  # blank lines before a try that follows one that was overtaken
FIRST_PAGES = 8  # that are asked for in the first turn
WITHIN = 60.0  # seconds in which a listing has to come to its end
LONGEST_PAUSE = 0.5  # seconds between two tries
CURSOR = "l"  # a name that no other cursor of a connection has

Said = tuple[str, Callable[[list[str]], object]]  # a line, and what reads its reply

CLOSE: Said = (f"close {CURSOR}", protocol.READ_OK)
PAGE: Said = (f"next {CURSOR} {MOST_ANSWERS}", protocol.read_page)


class Listing:
    """A listing on its way: what its next turn says, and what the replies of a turn come to. It moves no bytes.

    Where it has to, it watches the query first; `seq` is then the number of changes before.
    """

    def __init__(self, query: str, within: float, most: int = MOST_PAGES, watch: bool = False) -> None:
        self.answers: set[Answer] = set()
        self.whole = False  # whether these are all answers of one moment
        self.at = 0  # the number of the line that told so
        self.seq = 0
        self.watched = False
        self.is_open = False  # whether its cursor is
        self.until = time.monotonic() + within
        self.pause = 0.0  # seconds to wait before the next turn
        self._lead = 0  # blank lines before a turn that opens the cursor
        self._query, self._within, self._most = protocol.checked(query), within, most
        self._watches = watch
        self._pages = min(FIRST_PAGES, most)  # that the next turn asks for
        self._is_first = True
        self._tries = self._told = 0
        self._rest = 0.0  # seconds that the last try was waited for

    @property
    def lead(self) -> int:
        """How many blank lines the next turn begins with."""
        return 0 if self.is_open else self._lead

    def turn(self) -> list[Said]:
        """What the next turn says."""
        said = self._front() + [PAGE] * self._pages
        return said + [CLOSE] if self._is_first else said

    def _front(self) -> list[Said]:
        if self.is_open:
            return []
        # an earlier listing that was interrupted may have left its cursor
        front: list[Said] = [CLOSE, (f"open {CURSOR} {self._query}", protocol.READ_OPEN)]
        return [(f"watch {self._query}", protocol.READ_WATCH), *front] if self._watches else front

    def take(self, replies: Sequence[Pending[Any]] | None) -> None:
        """Takes the replies of the turn; none where they came too late. Raises `Overtaken` where time is over."""
        self.pause = 0.0
        if replies is None:
            self._begin_again()
            return
        begin = len(self._front())
        if self._watches:
            self.seq, self.watched, self._watches = replies[0].result(), True, False
        if begin:
            replies[begin - 1].result()
        self.is_open = not self._is_first
        try:
            for page in replies[begin : begin + self._pages]:
                self.answers.update(page.result().answers)
                if page.result().last:
                    self.whole, self.at = True, page.at
                    return
        except Stale:
            self._lead = min(MOST_LEAD, max(FIRST_LEAD, 4 * self._lead))
            self._begin_again()
            return
        if self._is_first:
            self._begin()

    def _begin(self) -> None:
        """The next try asks for all that one turn can tell, which costs little more than what there is."""
        front = self._lead + len(f"watch {self._query} close {CURSOR} open {CURSOR} {self._query} ".encode())
        room = (READ_BYTES - front) // len(f"{PAGE[0]} ") if self._lead else self._most
        self.answers, self._pages, self._is_first, self.is_open = set(), min(self._most, room), False, False

    def _begin_again(self) -> None:
        """Rows changed before the end, or it took too long."""
        self._tries, self._told = self._tries + 1, max(self._told, len(self.answers))
        if self._tries > 1:
            self.pause = self._rest = min(LONGEST_PAUSE, 2 * self._rest + 0.01)
        if time.monotonic() + self.pause >= self.until:
            raise Overtaken(
                f"{self._query} wasn't listed in {self._within:g} s: rows changed before the end of a listing, or it was"
                f" slow, {self._tries} times; at most {self._told} answers were told, and one turn tells"
                f" {self._most * MOST_ANSWERS}"
            )
        self._begin()


def list_whole(
    connection: Connection, query: str, within: float, most: int = MOST_PAGES, watch: bool = False
) -> Listing:
    """A listing that came to its end, by turns of at most so many pages. Raises `Overtaken` after `within` seconds."""
    listing = Listing(query, within, most, watch)
    try:
        while not listing.whole:
            listing.take(connection._turn(listing.turn(), listing.until, listing.lead))
            time.sleep(listing.pause)
        if listing.is_open:
            connection._do(*CLOSE)
    except BaseException:
        connection._give_up(CURSOR)
        raise
    finally:
        if listing.watched:
            connection._watched.add(query)
    return listing
