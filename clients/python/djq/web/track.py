"""A part of a page as viewers follow it: the whole of it, and the latest deltas."""

from __future__ import annotations

import json
from collections import deque
from typing import Any

View = dict[str, Any]

MOST_DELTAS = 50  # that a track holds; who lacks more gets the whole


class Track:
    """What is shown in one place, as events that a browser reads.

    Each `put` that changes something makes a further version. Who has one of the latest gets the deltas since, and
    everybody else the whole.
    """

    def __init__(self, name: str, whole: View) -> None:
        self.name, self.whole = name, whole
        self.version = 0
        self.viewers = 0
        self._event = b""  # the whole as an event, where it was made for this version
        self._deltas: deque[tuple[int, bytes]] = deque(maxlen=MOST_DELTAS)  # each by the version that it makes

    def put(self, whole: View, delta: View | None = None) -> bool:
        """This is shown from now on, which a delta makes of what was shown before. Whether it is another."""
        if delta is None and whole == self.whole:
            return False
        self.whole, self._event = whole, b""
        self.version += 1
        if delta is None:
            self._deltas.clear()
        else:
            self._deltas.append((self.version, event(self.name, {"delta": 1, **delta})))
        return True

    def since(self, version: int) -> bytes:
        """The events that bring who has this version to the present one."""
        if self._deltas and self._deltas[0][0] <= version + 1:
            return b"".join(delta for at, delta in self._deltas if at > version)
        if not self._event:
            self._event = event(self.name, self.whole)
        return self._event


def event(name: str, view: View) -> bytes:
    """A view as an event of a stream."""
    text = json.dumps(view, ensure_ascii=False, separators=(",", ":"))
    return f"event: {name}\ndata: {text}\n\n".encode()
