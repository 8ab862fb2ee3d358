"""What a shell does with a line, and with what comes of it."""

from __future__ import annotations

import inspect
import os
import shlex
import signal
import sys
import time
from typing import Callable

from ..errors import Disconnected, Ended, Error, Refused, Syntax, Taken
from ..listing import WITHIN, list_whole
from ..protocol import MOST_ANSWERS, Page, read_page, spell
from .advice import advice
from .files import FURTHER, BadFile, Load, read_rows, write_answers
from .names import Names, find_columns
from .queries import lines_of
from .screen import Screen, safe, tree
from .session import Delta, Said, Session

HELP = """\
rel NAME int text ..              a relation with 1 to 16 columns
add NAME 1 "a text" ..            puts a row in, or gives it one copy more
del NAME 1 "a text" ..            takes a copy of a row; the last takes it out
batch                             begins a transaction: add and del lines are held from now on, up to 65,536
done, done 3, abandon             carries all of them out as one change, or none where one doesn't fit, as a del of a row
                                  that isn't there; with 3 only where 3 lines are held; discards them
query NAME(x,y) <- REL(x,z), REL(z,y,3), x >= 5, z != "a"
                                  registers a query: equal names stand for equal values, _ for any; a variable is
                                  compared with a constant by < <= > >= = !=, a text by = and != alone; where columns
                                  have names, REL(price: x, state: "new", number:), of as many columns as it needs
union NAME QUERY QUERY ..         registers the union of 2 to 8 queries: the answers that any of them has, each once;
                                  its name is used as a query's
watch QUERY, unwatch QUERY        tells what comes (+) and goes (-) as rows change, or no more
has QUERY 1 "a text" ..           whether that is an answer
open CURSOR QUERY, next CURSOR 20, close CURSOR
                                  answers, page by page
explain QUERY, drop QUERY         how a query is kept, or a union's members; gives it up
shape QUERY                       flat where a change costs the same however many rows there are, else linear; or union
quit, stop                        ends this session; ends the whole server

\\show QUERY [COUNT]               answers of one moment, as a table
\\explain QUERY                    draws how a query is kept
\\load FILE.csv RELATION [header] [new]
                                  gives each of a file's rows a copy, all or none; header: its first line names the
                                  columns; new: rows that are there are left as they are
\\dump QUERY FILE.csv [header] [over]
                                  writes the answers; over: also where the file is there
\\columns RELATION [NAME ..]       of which types its columns are; or names them, all in their order, for queries
\\read FILE                        runs a file's lines up to one that is refused, as those of a schema
\\d [NAME]                         what this shell has seen; a relation's columns, or how a query is kept
\\if-missing                       from now on rel, query and union leave what is there as it is, so a file of them can
                                  be run again; a relation with other columns is refused even so
\\names                            what this shell has seen
\\timing                           tells how long each command takes, or no more
\\?                                this page
\\q                                ends the shell"""

AGAIN = "; to load the rest: \\load {} {} new"
ASKING = ("\\show", "\\explain", "\\load", "\\dump", "\\columns", "\\d")  # what is refused as long as a batch is open
MAKING = ("rel", "query", "union")  # what \\if-missing is of
SHOWN = 50  # answers that \show draws where it isn't told how many


class Usage(Exception):
    """A command of the shell that it doesn't understand."""


class Interrupts:
    """Keeps Ctrl-C until it is asked for, so that it comes between the moves of bytes; a second one comes at once."""

    def __enter__(self) -> Interrupts:
        self._noted = False
        self._before = signal.signal(signal.SIGINT, self._note)
        return self

    def __exit__(self, *_: object) -> None:
        signal.signal(signal.SIGINT, self._before)

    def check(self) -> None:
        """Raises `KeyboardInterrupt` where there was one."""
        if self._noted:
            raise KeyboardInterrupt

    def _note(self, *_: object) -> None:
        self.check()
        self._noted = True


class Shell:
    """A session, and what is drawn of it.

    `raw` writes replies and changes as the server does, and what else there is to say on the standard error.
    """

    def __init__(self, screen: Screen, open_session: Callable[[], Session], raw: bool = False) -> None:
        self.screen, self.raw = screen, raw
        self.names = Names()
        self.timing = False
        self.if_missing = False  # whether what is there already is left as it is, without a refusal
        self.done = False  # whether the shell was told to end
        self._reading = False  # whether a file's lines are run
        self.refused = 0  # how many lines were
        self.lost: Error | None = None  # what a line is without its reply by
        self.lines = 0  # the number of the last line, where lines are counted
        self._open = open_session
        self.session = open_session()

    def columns(self, relation: str) -> tuple[str, ...] | None:
        """The types of a relation's columns; none where there is no such relation."""
        return find_columns(self.names, self.session, relation)

    def run(self, line: str) -> None:
        """Runs a line, and draws what is told up to its reply."""
        line = line.removesuffix("\r")
        if not line.strip(" "):
            return
        began = time.monotonic()
        try:
            self._reopen()
            if line.lstrip(" ").startswith("\\"):
                self._own(line.strip())
            else:
                said = self.session.say(self._by_places(line))
                said.number = self.lines
                for told in self.session.wait(said):
                    self.tell(told)
        except (Error, UnicodeError, ValueError, Usage, BadFile) as error:
            self.fail(error, line)
        if self.timing:
            self.screen.line(f"{1000 * (time.monotonic() - began):.1f} ms", "quiet")

    def say(self, line: str) -> None:
        """Queues a line: a further call of `tell_what_came` tells its reply."""
        try:
            self.session.say(self._by_places(line)).number = self.lines
        except (Error, UnicodeError, ValueError) as error:
            self.settle()
            self.fail(error, line)

    def settle(self) -> None:
        """Waits until all replies are told."""
        while self.session.due and self.session.ended is None:
            self.session.move(None)
            self.tell_what_came()
        self.tell_what_came()

    def tell_what_came(self) -> None:
        """Draws what has come."""
        for told in self.session.told():
            self.tell(told)

    def tell(self, told: Said | Delta) -> None:
        """Draws a reply, or a change."""
        if isinstance(told, Delta):
            self._tell_change(told)
        elif told.lost is not None:
            self._lose(told.lost, told)
        else:
            error = told.refused(self.names.columns)
            if error is not None:
                self._refuse(error, told)
            self.names.saw_of_batch(told.line, told.reply[0])
            if error is None:
                self.names.saw(told.line)
                self._tell_reply(told)
            self.done = self.done or told.reply[-1] == "bye"

    def _lose(self, error: Error, told: Said) -> None:
        """Tells why a line is without its reply; as a filter of the first such line alone."""
        if self.done:  # what stands behind `quit` isn't run
            return
        if not self.raw:
            self.fail(error, told.line)
        elif self.lost is None:
            self._complain(told.number, error)
        self.lost = error

    def fail(self, error: Exception, line: str = "") -> None:
        """Tells what went wrong with a line that had no reply."""
        self.refused += 1
        if self.raw:
            self._complain(self.lines, error)
            return
        if isinstance(error, Refused) and error.line:
            self._tell_refusal(error.words, error, error.line)
        else:
            self.screen.line(str(error), "error")
            self._advise(error, line)

    # Inside

    def _by_places(self, line: str) -> str:
        """The line as the server reads it: of a query that names columns, with a term for each."""
        return self.names.schema.spell(line) if line.lstrip(" ").startswith("query ") else line

    def _reopen(self) -> None:
        """A new session where the last one ended, for a person who goes on."""
        if self.session.ended is None or self.raw:
            return
        self.session = self._open()
        self.names.new_session()
        self.screen.line("connected anew: cursors, watches and the batch of the session before are gone", "advice")

    def _tell_change(self, told: Delta) -> None:
        if not self.raw:
            self.screen.change(told.query, told.change)
            return
        for sign, answers in (("+", told.change.came), ("-", told.change.went)):
            for answer in answers:
                self._write(" ".join([sign, told.query, *map(spell, answer)]))
        self._write(f"at {told.query} {told.change.seq}")

    def _tell_reply(self, told: Said) -> None:
        if self.raw:
            self._write("\n".join(told.reply))
            return
        command = told.line.split()[0]
        if command == "next":
            self._tell_page(told)
        elif told.reply[0].startswith(("ok added", "ok removed")):
            self.screen.line(told.reply[0])
            self._tell_copies(told.reply[0])
        elif command == "done":
            self.screen.line(told.reply[0])
            self._tell_rows(told.reply[0])
        elif command == "explain":
            self._tell_tree(told)
        else:
            self.screen.line(told.reply[0])

    def _tell_tree(self, told: Said) -> None:
        """Draws a query's tree, or a union's members, which are seen by that."""
        lines = told.reply[:-1]
        if lines[0].startswith("m "):
            self.names.saw_union(told.line.split()[1], [line.removeprefix("m ") for line in lines])
        self.screen.line("\n".join(tree(lines)))

    def _tell_copies(self, reply: str) -> None:
        """Says why no answer has changed, where the row was there before and is still."""
        _, done, _, copies = reply.split(" ")
        if (done, copies) not in (("added", "1"), ("removed", "0")):
            self.screen.line(f"the row has {int(copies):,} {'copy' if copies == '1' else 'copies'} now", "quiet")

    def _tell_rows(self, reply: str) -> None:
        """Says what a transaction has changed."""
        rows = int(reply.split(" ")[3])
        changed = f"{rows:,} {'row' if rows == 1 else 'rows'} came or went, as one change"
        self.screen.line(changed if rows else "no row came or went: only copies were counted", "quiet")

    def _tell_page(self, told: Said) -> None:
        page = read_page(told.reply) or Page([], True)
        cursor = told.line.split()[1]
        if page.answers:
            query = self.names.cursors.get(cursor, "")
            self.screen.table(self.names.head(query, len(page.answers[0])), page.answers)
        count = f"{len(page.answers)} answer{'' if len(page.answers) == 1 else 's'}"
        self.screen.line(f"{count}, and these are the last" if page.last else f"{count}, and there are more", "quiet")

    def _refuse(self, error: Error, told: Said) -> None:
        if self.if_missing and isinstance(error, Taken) and told.line.split()[0] in MAKING:
            other = self._other_columns(told.line)
            if not other:
                self._leave_it(told)
                return
            error = Taken(error.words, error.line, other)
        self.refused += 1
        if self.raw:
            self._write("\n".join(told.reply))
            self._complain(told.number, error)
            return
        self._tell_refusal(told.reply[0], error, told.line)

    def _other_columns(self, line: str) -> str:
        """Which other columns the relation has that a line makes, where it has."""
        command, name, *kinds = line.split()
        found = self.columns(name) if command == "rel" else None
        if found is None or found == tuple(kinds):
            return ""
        return f"{name} is there with other columns: {' '.join(found)}"

    def _leave_it(self, told: Said) -> None:
        """Tells that what a line makes is there, which is no refusal."""
        self.names.saw(told.line)
        if self.raw:
            self._write("\n".join(told.reply))
        else:
            self.screen.line("it is there already, and stays as it is", "quiet")

    def _tell_refusal(self, words: str, error: Error, line: str) -> None:
        why = "" if isinstance(error, Syntax) else getattr(error, "why", "")  # which the advice tells line by line
        self.screen.line(f"{words}: {why}" if why else words, "error")
        self._advise(error, line)

    def _advise(self, error: Exception, line: str) -> None:
        try:
            for words in advice(error, line, self.names, self.columns):
                self.screen.line(f"  {words}", "advice")
        except (Disconnected, Ended):  # as it asked the server; the next line tells
            pass

    def _write(self, lines: str) -> None:
        """Writes lines as they are, unless a terminal would obey what a text says."""
        if sys.stdout.isatty():
            lines = "\n".join(map(safe, lines.split("\n")))
        sys.stdout.write(lines + "\n")

    def _complain(self, number: int, error: Exception) -> None:
        sys.stdout.flush()
        print(f"djq-shell: line {number}: {error}", file=sys.stderr)

    # Commands of the shell

    def _own(self, line: str) -> None:
        words = shlex.split(line.replace("\\", "\\\\", 1))
        name, given = words[0], words[1:]
        commands: dict[str, Callable[..., None]] = {
            "\\show": self._show, "\\explain": self._explain, "\\load": self._load, "\\dump": self._dump,
            "\\columns": self._columns, "\\read": self._read, "\\d": self._describe, "\\if-missing": self._if_missing,
            "\\names": self._names, "\\timing": self._timing, "\\?": self._help, "\\q": self._quit,
        }  # fmt: skip
        if name not in commands:
            raise Usage(f"no command is named {name}; \\? lists them all")
        if self.names.held is not None and name in ASKING:
            raise Usage(f"a batch is open, and {name} asks the server: done or abandon comes first")
        try:
            inspect.signature(commands[name]).bind(*given)
        except TypeError:
            form = next(told for told in HELP.split("\n") if told.split(" ")[0] == name)
            raise Usage(f"it is written {form.split('  ')[0]}") from None
        commands[name](*given)

    def _quit(self) -> None:
        self.done = True

    def _help(self) -> None:
        self.screen.line(HELP)

    def _if_missing(self) -> None:
        self.if_missing = True

    def _describe(self, name: str = "") -> None:
        if not name:
            self._names()
        elif name in self.names.queries or self.columns(name) is None:
            self._explain(name)
        else:
            self._columns(name)

    def _timing(self) -> None:
        self.timing = not self.timing
        self.screen.line(f"timing is {'on' if self.timing else 'off'}")

    def _names(self) -> None:
        names = self.names
        for relation in sorted(names.relations):
            self._tell_columns(relation, self.columns(relation) or ("?",))
        for query, known in sorted(names.queries.items()):
            told = f"query {known if known is not None else query}"
            if query in names.unions:
                told = " ".join(["union", query, *names.unions[query]])
            self.screen.line(told + " *" * (query in names.watched))
        for cursor, query in sorted(names.cursors.items()):
            self.screen.line(f"cursor {cursor} of {query}")
        if names.watched:
            self.screen.line("* is watched", "quiet")
        if names.held is not None:
            self.screen.line(f"batch, which holds {names.held:,} {'line' if names.held == 1 else 'lines'}")

    def _columns(self, relation: str, *names: str) -> None:
        kinds = self._kinds(relation)
        if not names:
            self._tell_columns(relation, kinds)
        elif len(names) != len(kinds):
            raise Usage(f"{relation} has {len(kinds)} columns, and {len(names)} names were given")
        else:
            self.names.schema.columns(relation, *names)

    def _tell_columns(self, relation: str, kinds: tuple[str, ...]) -> None:
        self.screen.line(f"rel {relation} {' '.join(kinds)}")
        if relation in self.names.schema.names:
            self.screen.line(f"\\columns {relation} {' '.join(self.names.schema.names[relation])}")

    def _read(self, path: str) -> None:
        if self._reading:
            raise Usage(f"a file that is read doesn't read {path}")
        try:
            with open(path, encoding="utf-8") as file:
                lines = list(lines_of(file.read()))
        except OSError as error:
            raise BadFile(f"{path}: {error.strerror}") from error
        self._reading, before = True, self.refused
        try:
            for line in lines:
                self.run(line)
                if self.refused > before:
                    raise BadFile(f"{path}: nothing was run behind the line {line}")
                if self.done:
                    return
        finally:
            self._reading = False

    def _kinds(self, relation: str) -> tuple[str, ...]:
        kinds = self.columns(relation)
        if kinds is None:
            raise BadFile(f"there is no relation {relation}; make it first: rel {relation} int text ..")
        return kinds

    def _explain(self, query: str) -> None:
        told = self.session.ask(f"explain {query}")[0]
        self._reply_or_raise(told)
        self._tell_tree(told)

    def _reply_or_raise(self, told: Said) -> None:
        error = told.lost or told.refused(self.names.columns)
        if error is not None:
            raise error
        self.names.saw(told.line)

    def _show(self, query: str, count: str = str(SHOWN)) -> None:
        if not count.isdigit() or not 1 <= int(count) <= MOST_ANSWERS:
            raise Usage(f"the count is from 1 to {MOST_ANSWERS}")
        cursor = "shell_shows"
        told = self.session.ask(f"open {cursor} {query}", f"next {cursor} {count}", f"close {cursor}")
        self._reply_or_raise(told[0])
        self.names.cursors[cursor] = query
        try:
            self._reply_or_raise(told[1])
            self._tell_page(told[1])
        finally:
            del self.names.cursors[cursor]

    def _dump(self, query: str, path: str, *further: str) -> None:
        if not set(further) <= {"header", "over"}:
            raise Usage("behind the file comes header, or over, or both")
        if os.path.exists(path) and "over" not in further:
            raise BadFile(f"{path} is there already; to replace it: \\dump {query} {path} over")
        listing = list_whole(self.session.connection, query, WITHIN)
        answers = sorted(listing.answers)
        known = self.names.queries.get(query)
        width = len(answers[0]) if answers else len(known.head) if known else 0
        write_answers(path, answers, self.names.head(query, width) if "header" in further else [])
        self.screen.line(f"{len(answers):,} answers written to {path}")

    def _load(self, path: str, relation: str, *further: str) -> None:
        if not set(further) <= {"header", "new"}:
            raise Usage("behind the relation comes header, or new, or both")
        kinds, header, only_new = self._kinds(relation), "header" in further, "new" in further
        if not os.path.isfile(path):
            raise BadFile(f"{path}: no such file")
        stamp = _stamp(path)
        total = sum(1 for _ in read_rows(path, relation, kinds, header))
        progress = self.screen.progress(relation, total)

        def at(done: int) -> None:
            progress.at(done)
            interrupts.check()

        with Interrupts() as interrupts:
            try:
                load = self._load_whole(path, relation, header, only_new, stamp, at)
                if only_new:
                    self._leave(load, path, relation, header, stamp)
            finally:
                took = progress.end()
        speed = f", {total / took:,.0f} rows a second" if total >= 1000 else ""
        further_copies = load.further
        became = "were there already" if only_new else "of them were there and have one copy more"
        there = f", {further_copies:,} {became}" if further_copies else ""
        came = total - further_copies * only_new
        self.screen.line(f"{came:,} row{'' if came == 1 else 's'} came to {relation}{there}{speed}")

    def _load_whole(
        self, path: str, relation: str, header: bool, only_new: bool, stamp: object, progress: Callable[[int], None]
    ) -> Load:
        """Sends a file's rows, by transactions unless it has to be known of each whether it was there. Where that goes
        wrong it is taken back as far as it can."""
        load = Load(self.session, relation, at_once=not only_new)
        try:
            load.run(read_rows(path, relation, self._kinds(relation), header), progress)
            return load
        except BaseException as error:
            told = str(error) or "interrupted"
            if self.session.ended is not None or _stamp(path) != stamp:
                why = "the connection was lost" if self.session.ended is not None else f"{path} was changed"
                again = AGAIN.format(path, relation + " header" * header)
                became = f"{why}: the {load.count():,} rows that came stay in {relation}, and further ones may{again}"
            else:
                became = self._undo(load, path, relation, header)
            raise BadFile(f"{told}\n{became}") from error

    def _leave(self, load: Load, path: str, relation: str, header: bool, stamp: object) -> None:
        """Takes the further copies of rows that were there again."""
        try:
            if _stamp(path) != stamp:
                raise BadFile(f"{path} was changed")
            load.undo(read_rows(path, relation, self._kinds(relation), header), (FURTHER,))
        except (Error, BadFile, KeyboardInterrupt) as error:
            told = str(error) or "interrupted"
            raise BadFile(f"{told}\nall rows are in {relation}; some that were there may have one copy more") from error

    def _undo(self, load: Load, path: str, relation: str, header: bool) -> str:
        """Takes out what a load had put in, and tells how that went."""
        try:
            taken = load.undo(read_rows(path, relation, self._kinds(relation), header))
        except (Error, KeyboardInterrupt):
            again = AGAIN.format(path, relation + " header" * header)
            return f"it couldn't be taken back whole: some of its rows stay in {relation}{again}"
        return f"the {taken:,} rows that had come were taken out again"


def _stamp(path: str) -> tuple[int, int, int]:
    """What is another where a file was changed."""
    found = os.stat(path)
    return found.st_ino, found.st_size, found.st_mtime_ns
