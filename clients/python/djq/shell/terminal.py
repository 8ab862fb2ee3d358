"""A person at a terminal."""

from __future__ import annotations

import asyncio
import contextlib
import os
import re
import sys
from typing import Callable, Iterator

from ..errors import Error
from .advice import FORMS, NOTHING_DONE, held_lines
from .commands import HELP, Shell
from .queries import incomplete, lines_of

try:
    from prompt_toolkit import PromptSession
    from prompt_toolkit.auto_suggest import AutoSuggestFromHistory
    from prompt_toolkit.completion import CompleteEvent, Completer, Completion
    from prompt_toolkit.document import Document
    from prompt_toolkit.history import FileHistory, History, InMemoryHistory
    from prompt_toolkit.key_binding import KeyBindings, KeyPressEvent
    from prompt_toolkit.patch_stdout import patch_stdout
except ImportError:  # lines are read without it then
    PromptSession = None  # type: ignore[assignment,misc]
    Completer = object  # type: ignore[assignment,misc]

HAS_PROMPT = PromptSession is not None
OWN = [line.split()[0] for line in HELP.split("\n") if line.startswith("\\")]
OF_RELATIONS = ("add", "del", "\\columns")
IN_BATCH = ("add", "del", "done", "abandon", "quit", "stop")
VARIABLE = re.compile(r"[(,] *([a-z][a-z0-9_]*)(?= *[,)])")  # that a query names, in its head or in an atom
OPEN_ATOM = re.compile(r"([a-z][a-z0-9_]*) *\([^()]*\Z")  # that the cursor is in
OF_QUERIES = ("watch", "unwatch", "has", "explain", "shape", "drop", "\\show", "\\explain", "\\dump")


def run(shell: Shell, fancy: bool) -> None:
    """Runs what is typed until the end. Without `fancy`, or prompt_toolkit, changes are told before each prompt."""
    ask = _Prompt(shell).ask if fancy and PromptSession is not None else _ask_plainly(shell)
    while not shell.done:
        try:
            lines = list(lines_of(ask()))
        except KeyboardInterrupt:
            continue
        except EOFError:
            break
        for line in lines:
            if shell.done:
                break
            if len(lines) > 1:
                shell.screen.line(f"> {line}", "quiet")
            _run(shell, line)
    if shell.names.held:
        shell.screen.line(f"{held_lines(shell.names)} held, and {NOTHING_DONE}", "error")


def _run(shell: Shell, line: str) -> None:
    try:
        if line.strip() == "stop" and not _agreed():
            return
        shell.run(line)
    except KeyboardInterrupt:
        shell.screen.line("interrupted: what was sent may be done", "error")


def _agreed() -> bool:
    try:
        return input("This ends the server for all, and its rows are gone. Type yes to go on: ").strip() == "yes"
    except EOFError:
        return False


def prompt(shell: Shell) -> str:
    """What stands before a line that is typed: also how many lines an open batch holds."""
    return "djq> " if shell.names.held is None else f"[{shell.names.held:,} held] djq> "


def _ask_plainly(shell: Shell) -> Callable[[], str]:
    with contextlib.suppress(ImportError):
        import readline  # noqa: F401, that input() has a history then

    def ask() -> str:
        with contextlib.suppress(Error):
            shell.session.move()
        shell.tell_what_came()
        text = input(prompt(shell))
        while incomplete(text):
            text += "\n" + input("...> ")
        return text

    return ask


class _Prompt:
    """Reads a line while changes are told above it."""

    def __init__(self, shell: Shell) -> None:
        self._shell = shell
        self._loop: asyncio.AbstractEventLoop | None = None
        self._watched = -1  # the descriptor that the loop waits for
        self._session: PromptSession[str] = PromptSession(
            history=_history(),
            completer=Names(shell),
            complete_while_typing=False,
            auto_suggest=AutoSuggestFromHistory(),
            key_bindings=_keys(),
            prompt_continuation=lambda width, *_: "...> ".rjust(width),
        )

    def ask(self) -> str:
        """What was typed. Raises `EOFError` at its end, and `KeyboardInterrupt`."""
        with patch_stdout(raw=True):
            try:
                return self._session.prompt(prompt(self._shell), pre_run=self._listen)
            finally:
                self._listen_no_more()

    def _listen(self) -> None:
        self._loop, self._watched = asyncio.get_running_loop(), self._shell.session.connection.fileno()
        if self._watched >= 0:
            self._loop.add_reader(self._watched, self._came)
            self._loop.call_soon(self._came)

    def _listen_no_more(self) -> None:
        if self._loop is not None and self._watched >= 0 and not self._loop.is_closed():
            self._loop.remove_reader(self._watched)
        self._watched = -1

    def _came(self) -> None:
        """Bytes have come: changes, or the session's end."""
        if self._watched < 0:
            return
        with contextlib.suppress(Error):
            self._shell.session.move()
        self._shell.tell_what_came()
        if self._shell.session.ended is not None:
            self._listen_no_more()
            self._shell.screen.line(f"{self._shell.session.ended}; the next command connects anew", "error")


def _history() -> History:
    path = os.environ.get("DJQ_HISTORY", os.path.join(os.path.expanduser("~"), ".djq_history"))
    try:
        # what is typed may be nobody else's business
        os.close(os.open(path, os.O_CREAT | os.O_APPEND | os.O_WRONLY, 0o600))
        return FileHistory(path)
    except OSError:
        return InMemoryHistory()


def _keys() -> KeyBindings:
    keys = KeyBindings()

    @keys.add("enter")
    def _(event: KeyPressEvent) -> None:
        buffer = event.current_buffer
        if incomplete(buffer.document.text):
            buffer.insert_text("\n")
        else:
            buffer.validate_and_handle()

    return keys


class Names(Completer):
    """Completes commands, and the names that were seen where they belong."""

    def __init__(self, shell: Shell) -> None:
        self._shell = shell

    def get_completions(self, document: Document, complete_event: CompleteEvent) -> Iterator[Completion]:
        """What the word before the cursor may become."""
        before = document.current_line_before_cursor.lstrip()
        begun = re.split(r'[\s(),"<>=!]', before)[-1]
        for word in sorted(self._words(before[: len(before) - len(begun)], begun)):
            if word.startswith(begun):
                yield Completion(word, -len(begun))

    def _words(self, front: str, begun: str) -> list[str]:
        names, words = self._shell.names, front.split()
        if not words:
            return [*(FORMS if names.held is None else IN_BATCH), *OWN]
        command, place = words[0], len(words)
        if command == "query":
            return self._of_query(front) if "<-" in front else []
        if command == "rel":
            return ["int", "text"] if place > 1 else []
        if command == "union":
            return [name for name in names.queries if name not in (*names.unions, *words)] if place > 1 else []
        if command == "\\d" and place == 1:
            return [*names.relations, *names.queries]
        if command in OF_RELATIONS and place == 1 or (command == "\\load" and place == 2):
            return list(names.relations)
        if command in OF_QUERIES and place == 1 or (command == "open" and place == 2):
            return list(names.queries)
        if command in ("next", "close") and place == 1:
            return list(names.cursors)
        if (command in ("\\load", "\\read") and place == 1) or (command == "\\dump" and place == 2):
            return _files(begun)
        if command == "\\load" and place > 2:
            return ["header", "new"]
        return ["header", "over"] if command == "\\dump" and place > 2 else []

    def _of_query(self, front: str) -> list[str]:
        """Relations, variables, and within an atom the names of its columns."""
        names, atom = self._shell.names, OPEN_ATOM.search(front)
        columns = names.schema.names.get(atom[1], ()) if atom else ()
        return [*{*names.relations, *VARIABLE.findall(front), *(f"{column}:" for column in columns)}]


def _files(begun: str) -> list[str]:
    directory = os.path.dirname(begun)
    try:
        entries = list(os.scandir(os.path.expanduser(directory) or "."))
    except OSError:
        return []
    return [
        os.path.join(directory, entry.name) + ("/" if entry.is_dir() else "")
        for entry in entries
        if not entry.name.startswith(".")
    ]
