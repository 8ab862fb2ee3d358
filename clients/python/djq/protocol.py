"""The lines of one session, without a socket: what a command sends, which reply is due, and which lines are deltas."""

from __future__ import annotations

import re
from collections import deque
from dataclasses import dataclass
from typing import Any, Callable, Generic, Mapping, Sequence, TypeVar, Union

from . import syntax
from .errors import (
    REFUSALS, BadName, Cyclic, Ended, Error, NotFreeConnex, Refused, RowAbsent, SomeRefused, Stale, TooLong,
)  # fmt: skip

Value = Union[int, str]
Answer = tuple[Value, ...]
T = TypeVar("T")

MOST_ANSWERS = 1000  # that one `next` may ask for
MOST_LINE = 4096  # bytes of a line
MOST_TEXT = 255  # bytes of a text
MOST_HELD = 65536  # lines of a transaction
HELD_BYTES = 16777216  # of these lines together
MOST_MEMBERS = 8  # of a union
FIRST_REFUSALS = 10  # that are kept of commands that are sent together
ENDING = ("quit", "stop")  # before whose reply `LOST` says that the session's batch held lines
LOST = "err 18 batch"


# Values and lines


_ESCAPES = {'"': '\\"', "\\": "\\\\", "\n": "\\n"}
_UNESCAPES = {'"': '"', "\\": "\\", "n": "\n"}
_NEEDS_ESCAPE = re.compile(r'["\\\n]')
_VALUE = re.compile(r' *(?:(-?[0-9]+)|"((?:[^"\\]|\\.)*)")')
_WORD = re.compile(r'"(?:[^"\\]|\\.)*"|[^ "]+')  # of a line: a text with its quotes, or what stands between spaces
_NAME = re.compile(r"[a-z][a-z0-9_]{0,31}")
_RELATION = re.compile(r"([a-z][a-z0-9_]*) *\(")
_QUOTED = re.compile(r'"(?:[^"\\]|\\.)*"', re.DOTALL)
_ESCAPE_OR_END = re.compile(r"\\.|\n", re.DOTALL)
_BLANKS = re.compile(r" *[\t\r\n][ \t\r\n]*")
_CHANGED = re.compile(r"^ok (?:added [0-9]+ 1|removed [0-9]+ 0)$", re.MULTILINE)  # the first copy came, the last went


def spell(value: Value) -> str:
    """How a line says a value."""
    if isinstance(value, bool) or not isinstance(value, (int, str)):
        raise TypeError(f"neither int nor str: {value!r}")
    if isinstance(value, int):
        return str(int(value))
    return '"' + _NEEDS_ESCAPE.sub(lambda found: _ESCAPES[found[0]], value) + '"'


def spell_union(name: str, members: tuple[str, ...]) -> str:
    """The line that registers a union. Raises `BadName` and `TooLong`."""
    return fitting(" ".join(["union", *map(checked, (name, *members))]))


def spell_relation(
    name: str, types: Sequence[type | str], columns: Mapping[str, type | str]
) -> tuple[str, tuple[str, ...]]:
    """The line that makes a relation, whose types are given in order or by the names of columns, and its types' words.
    Raises `BadName` and `TooLong`."""
    if types and columns:
        raise TypeError("types are given in order or by name, and not in both ways")
    kinds = tuple(map(column_type, types or columns.values()))
    return fitting(" ".join(["rel", checked(name), *kinds])), kinds


def spell_line(command: str, name: str, values: tuple[Value, ...] = ()) -> str:
    """The line of a command that names something and gives values. Raises `BadName` and `TooLong`."""
    return fitting(" ".join([command, checked(name), *map(spell, values)]))


def spell_query(text: str) -> str:
    """The line that registers a query, whose text may go over several lines and have tabs: outside of texts each is a
    space, and within one a line end is said as the server reads it. Raises `TooLong`."""
    at, pieces = 0, []
    for found in _QUOTED.finditer(text):
        pieces += [_BLANKS.sub(" ", text[at : found.start()]), _ESCAPE_OR_END.sub(_spell_end, found[0])]
        at = found.end()
    pieces.append(_BLANKS.sub(" ", text[at:]))
    return fitting("query " + "".join(pieces).strip(" "))


def _spell_end(found: re.Match[str]) -> str:
    return "\\n" if found[0] == "\n" else found[0]


def checked(name: str) -> str:
    """A name, which is in the grammar."""
    if not isinstance(name, str) or _NAME.fullmatch(name) is None:
        raise BadName(str(name))
    return name


def fitting(line: str) -> str:
    """A line that is one, and that the server takes."""
    if "\n" in line:
        raise ValueError("a command is one line")
    if 4 * len(line) > MOST_LINE and (size := len(line.encode())) > MOST_LINE:
        raise TooLong(line, size)
    return line


def column_type(kind: type | str) -> str:
    """The word for a column's type, which is given as `int`, `str`, or that word."""
    if kind not in (int, str, "int", "text"):
        raise TypeError(f"neither int nor str: {kind!r}")
    return "int" if kind in (int, "int") else "text"


def read_values(text: str) -> Answer:
    """The values that a reply says, with a space before each."""
    if '"' not in text:
        try:
            return tuple(map(int, text.split()))
        except ValueError as error:
            raise Error(f"not values: {text!r}") from error
    values: list[Value] = []
    at = 0
    while at < len(text):
        found = _VALUE.match(text, at)
        if found is None:
            raise Error(f"not a value: {text[at:]!r}")
        number, quoted = found.groups()
        values.append(int(number) if number is not None else _unescape(quoted))
        at = found.end()
    return tuple(values)


def _unescape(quoted: str) -> str:
    return re.sub(r"\\(.)", lambda found: _UNESCAPES[found[1]], quoted) if "\\" in quoted else quoted


def read_answers(lines: list[str], front: str) -> list[Answer]:
    """The answers that lines say, each behind the same words. Of one query they are as wide and of the same types, so
    whole columns are read at once."""
    text, whole = " ".join(lines), True
    if '"' in text:
        words = _WORD.findall(text)
        whole = sum(map(len, words)) + len(words) - 1 == len(text)
    else:
        words = text.split(" ")
    width = len(words) // len(lines)
    begins = front.split(" ")
    same = len(words) == width * len(lines) and all(
        words[place::width].count(word) == len(lines) for place, word in enumerate(begins)
    )
    if not whole or not same:
        return [read_values(line[len(front) :]) for line in lines]
    columns = [_read_column(words[place::width]) for place in range(len(begins), width)]
    return list(zip(*columns)) if columns else [()] * len(lines)


def _read_column(words: list[str]) -> Sequence[Value]:
    try:
        if not words[0].startswith('"'):
            return list(map(int, words))
    except ValueError as error:
        raise Error(f"not integers: {words[:3]!r}") from error
    if not all(word.startswith('"') for word in words):
        raise Error(f"not texts: {words[:3]!r}")
    return [_unescape(word[1:-1]) for word in words]


# What the server says


@dataclass(frozen=True)
class Update:
    """What became of an `add` or a `delete`: the number of changes so far, how many copies the row has now, and
    whether that changed answers: `changed` is true of a row's first copy that came, and of its last that went."""

    seq: int
    copies: int = 0

    @property
    def changed(self) -> bool:
        """Whether the row wasn't there before, or isn't any more."""
        return False


class Added(Update):
    """A copy of the row came."""

    @property
    def changed(self) -> bool:
        """Whether it is the first copy."""
        return self.copies == 1


class Removed(Update):
    """A copy of the row went."""

    @property
    def changed(self) -> bool:
        """Whether it was the last copy."""
        return self.copies == 0


class Absent(Update):
    """The row wasn't there."""


@dataclass(frozen=True)
class Done:
    """What became of a transaction: the number of changes so far, and how many rows it inserted and deleted together."""

    seq: int
    rows: int

    @property
    def changed(self) -> bool:
        """Whether it inserted or deleted any row."""
        return self.rows > 0


@dataclass(frozen=True)
class Change:
    """One change of a watched query's answers. After a new start `restarted` is true, and `seq` that of the listing.

    Then `lost` is true where the server counts fewer changes than were told before: it isn't the one that it was, or
    has begun anew without a log. One that loaded its log goes on counting.
    """

    seq: int
    came: frozenset[Answer]
    went: frozenset[Answer]
    restarted: bool = False
    lost: bool = False


@dataclass(frozen=True)
class Page:
    """Some answers of a cursor, and whether they are the last."""

    answers: list[Answer]
    last: bool


class Pending(Generic[T]):
    """A command that was queued. It has its result once its reply came."""

    def __init__(
        self, line: str, read: Callable[[list[str]], T | None], failed: Callable[[Error], None] | None = None
    ) -> None:
        self.line = line
        self.done = False
        self.at = 0  # the number of the line that ended its reply
        self.replies = 0
        self._read = read
        self._failed = failed
        self._lines: list[str] = []
        self._result: T | None = None
        self._error: Error | None = None

    def result(self) -> T:
        """The reply; raises what the server refused."""
        if self._error is not None:
            raise self._error
        if not self.done:
            raise Error("the reply hasn't come")
        return self._result  # type: ignore[return-value]

    def take(self, lines: list[str], at: int) -> int:
        """Takes lines of its reply, the first of them that at `at`. Gives the place behind the last that it took."""
        end = _end_of_answers(lines, at) if lines[at][:1] == "=" else at + 1
        self._lines += lines[at:end]
        try:
            result = self._read(self._lines)
        except Error as error:
            self.fail(error)
        else:
            if result is not None:
                self._result = result
                self.done = True
        self.replies = int(self.done)
        return end

    def fail(self, error: Error) -> None:
        """No reply comes, or one that refuses."""
        self._error = error
        self._lines = []
        self.done = True
        if self._failed is not None:
            self._failed(error)


def _end_of_answers(lines: list[str], at: int) -> int:
    """The place behind the answers that stand from this line on."""
    for end in range(at, len(lines)):
        if lines[end][:1] != "=":
            return end
    return len(lines)


class Rows:
    """Many commands that were queued as one, each answered by one line: how many of them brought a row's first copy or
    took its last, and what was refused."""

    def __init__(self, lines: list[str], columns: dict[str, tuple[str, ...]]) -> None:
        self.lines = lines
        self.done = False
        self.at = 0
        self.replies = self.changed = self.refused = 0
        self.first: list[Refused] = []
        self.lost: Error | None = None
        self._columns = columns

    @property
    def line(self) -> str:
        """The first command that is without its reply."""
        return self.lines[self.replies]

    def take(self, lines: list[str], at: int) -> int:
        """Takes lines of its replies, as `Pending` does."""
        end = min(len(lines), at + len(self.lines) - self.replies)
        place = at
        while place < end and lines[place].startswith("ok "):
            place += 1
        done = "\n".join(["", *lines[at:place], ""])
        all_added = done.count("\nok added ") == place - at  # as in a load, where counting is three times as fast
        self.changed += done.count(" 1\n") if all_added else len(_CHANGED.findall(done))
        self.replies += place - at
        if place < end and lines[place].startswith("err "):
            self._refuse(lines[place])
            place += 1
        self.done = self.replies == len(self.lines)
        return place

    def _refuse(self, reply: str) -> None:
        error = refusal(reply, self.lines[self.replies], self._columns)
        self.replies += 1
        self.refused += 1
        if isinstance(error, Refused) and len(self.first) < FIRST_REFUSALS:
            self.first.append(error)

    def fail(self, error: Error) -> None:
        """No further reply comes."""
        self.lost = error
        self.done = True


class Commit(Rows):
    """A transaction that was queued as one: `batch`, its lines, and `done` with their number.

    If a line is refused, `done` is too, since it names more lines than are held. `batch` isn't refused: none is open, and
    the server takes no memory for it. Without it the lines would be run one by one.
    """

    def __init__(
        self, lines: list[str], columns: dict[str, tuple[str, ...]], failed: Callable[[Error], None] | None
    ) -> None:
        super().__init__(["batch", *lines, f"done {len(lines)}"], columns)
        self._failed = failed
        self._last = ""  # the reply to `done`
        self._error: Error | None = None  # what `done` was refused with

    @property
    def line(self) -> str:
        """The command that carries it out."""
        return self.lines[-1]

    def result(self) -> Done:
        """What became of it; raises what it, or lines of it, were refused with."""
        if self.lost is not None:
            raise self.lost
        if not self.done:
            raise Error("the reply hasn't come")
        if self.refused:
            raise SomeRefused(len(self.lines) - 2, self.refused, self.first)
        if self._error is not None:
            raise self._error
        return READ_DONE([self._last])

    def take(self, lines: list[str], at: int) -> int:
        """Takes lines of its replies, as `Pending` does."""
        end = super().take(lines, at)
        if self.done:
            self._last = lines[end - 1]
        return end

    def _refuse(self, reply: str) -> None:
        error = refusal(reply, self.lines[self.replies], self._columns) or Error(f"not a reply: {reply!r}")
        if self.replies < len(self.lines) - 1:
            super()._refuse(reply)
        else:
            self.replies += 1
            self._error = self._which(error)
            if self.refused:  # then `done` names more lines than are held
                return
        if self._failed is not None:
            self._failed(error)

    def _which(self, error: Error) -> Error:
        """The refusal of `done`, with the row that it may be about."""
        deleted = [line for line in self.lines if line.startswith("del ")]
        if isinstance(error, RowAbsent):
            error.why = f"no copy for: {deleted[0]}" if len(deleted) == 1 else f"one of {len(deleted)} rows has no copy"
        return error

    def fail(self, error: Error) -> None:
        """No further reply comes."""
        super().fail(error)
        if self._failed is not None:
            self._failed(error)


def refusal(reply: str, line: str = "", columns: dict[str, tuple[str, ...]] | None = None) -> Error | None:
    """What a reply refuses, of the command in this line."""
    words = reply.split(" ")
    if words[0] == "err" and len(words) > 2:
        kind = REFUSALS.get(int(words[1]), Refused)
        return kind(reply, line, what_is_wrong(kind.number, line, columns or {}))
    if words[:2] == ["no", "cyclic"] or words[:2] == ["no", "connex"]:
        kind = Cyclic if words[1] == "cyclic" else NotFreeConnex
        error = kind(reply, [tuple(edge.split(",")) for edge in words[2:]])
        error.line = line
        return error
    if words[0] == "stale" and len(words) == 4:
        return Stale(words[2], int(words[3]))
    return None


def what_is_wrong(number: int, line: str, columns: dict[str, tuple[str, ...]]) -> str:
    """What is wrong with a line that was refused by this number, where the line and the columns tell it."""
    command, _, rest = line.strip(" ").partition(" ")
    if number == 1:
        return "; ".join(syntax.of_line(line.strip(" ")))
    if number == 3 and command == "query":
        return "; ".join(filter(None, map(syntax.of_relation, _RELATION.findall(rest.partition("<-")[2]))))
    if number in (19, 20):
        return "nothing of the batch was carried out"
    if number == 18:
        if command in ENDING:
            return "the lines of the open batch are discarded"
        return "no batch is open" if command in ("done", "abandon") else "a batch is open"
    name, _, said = rest.partition(" ")
    if command == "union" and number != 2:
        return _wrong_members(number, said.split())
    if number == 3 and command in ("add", "del"):
        return f"no relation is named {name}"
    if number == 4 and command != "open":
        return f"no query is named {name}"
    if number == 4:
        return f"no query is named {said}"
    if number == 2:
        return f"the name is there: {re.split('[ (]', said if command == 'open' else rest, maxsplit=1)[0]}"
    if command not in ("add", "del", "has") or number not in (6, 7):
        return ""
    try:
        values = read_values(f" {said}")
    except Error:
        return ""
    kinds = columns.get(name) if command != "has" else None
    return _wrong_values(number, name, values, kinds)


def _wrong_members(number: int, members: list[str]) -> str:
    if number == 4:
        return f"one of these isn't registered: {', '.join(members)}"
    if number == 11 and len(members) > MOST_MEMBERS:
        return f"{len(members)} members, and {MOST_MEMBERS} are the most"
    if number != 17:
        return ""
    twice = [name for place, name in enumerate(members) if name in members[:place]]
    return f"{twice[0]} stands twice" if twice else "one is a union, or their answers aren't of the same types"


def _wrong_values(number: int, name: str, values: Answer, kinds: tuple[str, ...] | None) -> str:
    if number == 6:
        return f"{len(values)} values were given" + (f", and {name} has {len(kinds)} columns" if kinds else "")
    for place, value in enumerate(values):
        if isinstance(value, int) and not -(2**63) <= value < 2**63:
            return f"value {place + 1} is past 64 bits"
        if isinstance(value, str) and (size := len(value.encode())) > MOST_TEXT:
            return f"value {place + 1} is a text of {size} bytes, and {MOST_TEXT} are the most"
    for place, (value, kind) in enumerate(zip(values, kinds or ())):
        if isinstance(value, int) != (kind == "int"):
            return f"value {place + 1} is {'an int' if isinstance(value, int) else 'a text'}, and its column {kind}"
    return ""


def _one_line(line: str, forms: dict[str, Callable[[str], T]]) -> T:
    """Reads a reply of one line by the word or words that it begins with."""
    for form, read in forms.items():
        if line == form or line.startswith(form + " "):
            return read(line[len(form) + 1 :])
    raise Error(f"not a reply to this command: {line!r}")


def reader(**forms: Callable[[str], T]) -> Callable[[list[str]], T]:
    """What reads a reply of one line that begins with one of these words, `_` standing for a space."""
    spelled = {form.replace("_", " "): read for form, read in forms.items()}
    return lambda lines: _one_line(lines[0], spelled)


READ_OK = reader(ok=lambda rest: True)
READ_ADDED = reader(ok_added=lambda rest: Added(*map(int, rest.split(" "))))
READ_REMOVED: Callable[[list[str]], Update] = reader(
    ok_removed=lambda rest: Removed(*map(int, rest.split(" "))), ok_absent=lambda rest: Absent(int(rest))
)
READ_DONE = reader(ok_done=lambda rest: Done(*map(int, rest.split(" "))))
READ_HAS = reader(yes=lambda rest: True, no=lambda rest: False)
READ_SHAPE = reader(flat=lambda rest: "flat", linear=lambda rest: "linear", union=lambda rest: "union")
READ_OPEN = reader(ok_open=lambda rest: True)
READ_QUERY = reader(ok_query=int)
READ_UNION = reader(ok_union=int)
READ_WATCH = reader(ok_watch=int)
READ_BYE = reader(bye=lambda rest: True)


def read_page(lines: list[str]) -> Page | None:
    """Reads the reply to `next`, once it is whole."""
    if lines[-1].startswith("="):
        return None
    last = _one_line(lines[-1], {"end": lambda rest: True, "more": lambda rest: False})
    return Page(read_answers(lines[:-1], "=") if len(lines) > 1 else [], last)


def read_tree(lines: list[str]) -> list[str] | None:
    """Reads the reply to `explain`, once it is whole."""
    if lines[-1].startswith(("n ", "m ")):
        return None
    _one_line(lines[-1], {"end": lambda rest: True})
    return lines[:-1]


class ReplyCount:
    """How many replies end in bytes that come, without reading what they say."""

    # what begins a line that ends no reply, behind the end of the line before
    _INNER = (b"\n= ", b"\n=\n", b"\n+ ", b"\n- ", b"\nat ", b"\nn ", b"\nm ")

    def __init__(self, rest: bytes) -> None:
        self.replies = 0
        self._rest = b"\n"
        self.count(rest)

    def count(self, piece: bytes) -> None:
        """Counts those that end in this piece."""
        text = self._rest + piece
        end = text.rfind(b"\n")
        inner = sum(text.count(mark, 0, end + 1) for mark in self._INNER)
        self.replies += text.count(b"\n", 1, end + 1) - inner
        self._rest = text[end:]


class Protocol:
    """The lines of one session: commands go out, bytes come in, and replies and changes come of them."""

    def __init__(self) -> None:
        self.outgoing = bytearray()
        # each change of a watched query that nobody has taken, with the number of its line
        self.changes: dict[str, deque[tuple[int, Change]]] = {}
        self.columns: dict[str, tuple[str, ...]] = {}  # of relations whose making was seen
        self.ended: Error | None = None
        self.replied = 0  # the number of the line that ended the last reply
        self.due = 0  # how many replies are due
        self._lines = 0
        self._incoming = bytearray()
        self._kept: ReplyCount | None = None
        self._pending: deque[Pending[Any] | Rows] = deque()
        self._came: dict[str, set[Answer]] = {}
        self._went: dict[str, set[Answer]] = {}

    def say(
        self, line: str, read: Callable[[list[str]], T | None], failed: Callable[[Error], None] | None = None
    ) -> Pending[T]:
        """Queues a command, what reads its reply, and what is told where it fails."""
        if self.ended is not None:
            raise self.ended
        if "\n" in line:
            raise ValueError("a command is one line")
        pending = Pending(line, read, failed)
        self._queue(pending, line.encode() + b"\n", 1)
        return pending

    def lead(self, lines: int) -> None:
        """Queues so many blank lines, which the server runs without a reply."""
        self.outgoing += b"\n" * lines

    def say_rows(self, lines: list[str], text: bytes, rows: Rows | None = None) -> Rows:
        """Queues commands that are each answered by one line; `text` is their bytes, and `rows` takes the replies."""
        if self.ended is not None:
            raise self.ended
        rows = rows or Rows(lines, self.columns)
        self._queue(rows, text, len(lines))
        return rows

    def say_transaction(self, lines: list[str], failed: Callable[[Error], None] | None = None) -> Commit:
        """Queues a transaction of these lines, and what is called where it, or one of them, fails."""
        if self.ended is not None:
            raise self.ended
        commit = Commit(lines, self.columns, failed)
        self._queue(commit, ("\n".join(commit.lines) + "\n").encode(), len(commit.lines))
        return commit

    def _queue(self, pending: Pending[Any] | Rows, line: bytes, replies: int) -> None:
        self.outgoing += line
        self._pending.append(pending)
        self.due += replies

    def feed(self, piece: bytes) -> None:
        """Bytes of the server come, and are read."""
        self.keep(piece)
        self.read()

    def hold(self) -> None:
        """From now on the replies are counted that come by `keep`, until `read`."""
        self._kept = ReplyCount(bytes(self._incoming))

    def keep(self, piece: bytes) -> None:
        """Bytes of the server come, and wait until they are read."""
        self._incoming += piece
        if self._kept is not None:
            self._kept.count(piece)

    def holds(self) -> bool:
        """Whether bytes may have come that weren't read."""
        return self._kept is not None

    def kept(self) -> int:
        """How many replies have come since `hold`."""
        return self._kept.replies if self._kept is not None else 0

    def read(self) -> None:
        """Reads the lines that have come."""
        self._kept = None
        end = self._incoming.rfind(b"\n") + 1
        if end == 0:
            return
        lines = self._incoming[:end].decode().split("\n")
        del lines[-1], self._incoming[:end]
        at = 0
        while at < len(lines):
            at += self._take(lines, at)

    def lose(self, error: Error) -> None:
        """Nothing comes any more: what is due fails."""
        if self.ended is None:
            self.ended = error
        while self._pending:
            pending = self._pending.popleft()
            pending.fail(self.ended.about(pending.line))
        self.due = 0
        self.outgoing.clear()

    def forget(self, query: str) -> None:
        """Drops the changes of a query that nobody has taken."""
        self.changes.pop(query, None)

    def _take(self, lines: list[str], at: int) -> int:
        """Takes some lines from this one on, and gives how many."""
        word, _, rest = lines[at].partition(" ")
        taken = 1
        if word in ("+", "-"):
            taken = self._delta_lines(lines, at, word, rest.partition(" ")[0])
        elif word == "at":
            self._close_delta(rest, self._lines + 1)
        elif word == "end" and rest:
            self.lose(Ended(rest))
        else:
            taken = self._reply(lines, at)
            if taken == 0 and self.ended is None:
                raise Error(f"no reply is due: {lines[at]!r}")
        self._lines += max(taken, 1)
        return max(taken, 1)

    def _delta_lines(self, lines: list[str], at: int, sign: str, query: str) -> int:
        """Takes the lines of answers that came, or went, and gives how many."""
        front = f"{sign} {query}"
        end = at
        while end < len(lines) and lines[end].startswith(front) and lines[end][len(front) : len(front) + 1] in ("", " "):
            end += 1
        side = (self._came if sign == "+" else self._went).setdefault(query, set())
        side.update(read_answers(lines[at:end], front))
        return end - at

    def _close_delta(self, rest: str, line: int) -> None:
        query, _, seq = rest.partition(" ")
        came, went = self._came.pop(query, set()), self._went.pop(query, set())
        change = Change(int(seq), frozenset(came), frozenset(went))
        self.changes.setdefault(query, deque()).append((line, change))

    def _reply(self, lines: list[str], at: int) -> int:
        """Takes lines of the reply that is due next, and gives how many."""
        if not self._pending:
            return 0
        pending = self._pending[0]
        if lines[at] == LOST and isinstance(pending, Pending) and pending.line in ENDING:
            return 1
        before = pending.replies
        if isinstance(pending, Pending) and (error := refusal(lines[at], pending.line, self.columns)) is not None:
            pending.fail(error)
            pending.replies = taken = 1
        else:
            taken = pending.take(lines, at) - at
        self.due -= pending.replies - before
        if pending.done:
            self._pending.popleft()
            self.replied = pending.at = self._lines + taken
        return taken
