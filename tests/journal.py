#!/usr/bin/env python3
"""The log of the built program: killed at random moments, cut, changed, full, and locked by another server.

    tests/journal.py PATH_TO_DJQ [--kills N] [--seed S]

A server with a log is killed by SIGKILL while changes arrive, many times over; then a new one is started on the same
file. It has to have every change that was answered, and nothing that wasn't sent: the changes are of such a kind that
the number of changes alone determines which rows there are. Some are transactions, whose rows come and go all or
none. Then logs of both formats are cut at each byte, and each bit is flipped in which a start looks for damage; what a
start does of it is compared with what tests/log_format.py reads. A disk is full, and a second server is started on the
same file. One line is printed for each test that fails, and last `N passed, N failed`; the status is 0 if none failed.
It needs Python's standard library alone.
"""

import argparse
import os
import random
import re
import resource
import signal
import socket
import subprocess
import sys
import tempfile
import time

sys.dont_write_bytecode = True
import log_format  # noqa: E402
from harness import expect, run_tests, test  # noqa: E402

PATIENCE = 20
HERE = os.path.dirname(os.path.abspath(__file__))


def run(program, words, said=b"", **settings):
    """What the program writes, its status, and what it says on standard error."""
    done = subprocess.run([program, *words], input=said, capture_output=True, timeout=PATIENCE, check=False, **settings)
    return done.stdout, done.returncode, done.stderr


def replay(program, log, schedule=b""):
    return run(program, ["replay", "--log", log], schedule)


def bad(place):
    """What is printed on standard error if a start refuses a log."""
    return b"djq: the log is bad from byte %d on\n" % place


def read(path):
    with open(path, "rb") as file:
        return file.read()


def write(path, content):
    with open(path, "wb") as file:
        file.write(content)


def singles(lines):
    """A group for each line, as lines have that are sent one after another."""
    return [[line] for line in lines]


def in_first(groups):
    """A log of format 1 has no mark between groups."""
    return log_format.write_first([line for group in groups for line in group])


FORMATS = (log_format.write, in_first)


def shapes(lines):
    """Logs of lines, and the place that a start names if it refuses the last one: of format 1, and of format 2 with a group for
    each line, and with one for all."""
    yield log_format.write_first(lines), log_format.gates_first(lines)[-2]
    yield log_format.write(singles(lines)), log_format.gates(singles(lines))[-2]
    yield log_format.write([lines]), log_format.gates([])[0]


def groups_of(log, header):
    """The groups of a log that is whole, of this format. A batch is in one of them, from its `batch` to its `done`."""
    content = read(log)
    groups = log_format.read(content)
    if isinstance(groups, tuple) or not content.startswith(header):
        raise AssertionError(f"the log is no whole one with {header!r}: {content[:8]!r}, {groups!r}")
    for group in groups if header == log_format.SECOND else []:
        if group.count(b"batch") != group.count(b"done"):
            raise AssertionError(f"a batch isn't in one group: {group!r}")
    return groups


# ---------------------------------------------------------------- a server that is killed


class Serving:
    """A server with a log, in a process of its own."""

    def __init__(self, program, log, limit=None):
        with socket.create_server(("127.0.0.1", 0)) as free:
            self.port = free.getsockname()[1]
        words = [program, "serve", f"127.0.0.1:{self.port}", "--log", log]
        bounded = None if limit is None else lambda: resource.setrlimit(resource.RLIMIT_FSIZE, (limit, limit))
        # a write past the limit fails, where its signal is ignored, as it is here
        self.process = subprocess.Popen(words, stderr=subprocess.PIPE, preexec_fn=bounded, restore_signals=False)

    def connect(self):
        until = time.monotonic() + PATIENCE
        while True:
            try:
                return socket.create_connection(("127.0.0.1", self.port), PATIENCE)
            except OSError:
                if self.process.poll() is not None or time.monotonic() > until:
                    raise
                time.sleep(0.005)

    def kill(self):
        self.process.send_signal(signal.SIGKILL)
        return self.end()

    def end(self):
        """The status, and what it said on standard error."""
        _, said = self.process.communicate(timeout=PATIENCE)
        return self.process.returncode, said


def ask(connection, lines):
    """What the server answers to these lines, up to its closing the connection."""
    connection.sendall(lines + b"quit\n")
    told = b""
    while True:
        piece = connection.recv(65536)
        if not piece:
            return told.decode().splitlines()
        told += piece


# the rows are listed by a union, one of whose members has them all
BEGIN = b"rel r int int\nquery q(x) <- r(x,y), y >= 0\nquery p(x) <- r(x,y), y >= 0, x < 50\nunion u p q\n"


def inserted_by(at):
    """The rows that a transaction inserts, one of them with two copies."""
    return [at, at + 1000000, at, at + 2000000]


def change(number):
    """The change of this number, from 1: three rows come, then a transaction replaces the last of them by several, and then
    the first of the three goes."""
    at = number - 1
    if at % 5 == 4:
        return b"del r %d 0\n" % (at - 4)
    if at % 5 == 3:
        held = [b"del r %d 0\n" % (at - 1), *(b"add r %d 0\n" % row for row in inserted_by(at))]
        return b"batch\n" + b"".join(held) + b"done %d\n" % len(held)
    return b"add r %d 0\n" % at


def rows_after(count):
    """The rows behind so many changes."""
    kept = set()
    for at in range(count):
        if at % 5 == 4:
            kept.discard(at - 4)
        elif at % 5 == 3:
            kept.discard(at - 1)
            kept.update(inserted_by(at))
        else:
            kept.add(at)
    return kept


def state(program, log):
    """The number of changes and the rows that a file comes to, by a server that is started on it."""
    serving = Serving(program, log)
    with serving.connect() as connection:
        lines = ask(connection, b"watch u\nopen c u\n" + b"next c 1000\n" * 200)
    serving.kill()
    watch = next(line for line in lines if line.startswith("ok watch"))
    return int(watch.split()[2]), {int(line[2:]) for line in lines if line.startswith("= ")}


def churn(connection, first, until):
    """Sends changes from this number on without waiting, until a moment or until the connection ends. Gives the last
    number that was sent, and the last that was answered."""
    connection.setblocking(False)
    sent, told, due = first - 1, b"", b""
    while time.monotonic() < until:
        if not due and sent < first + 4000:
            due = b"".join(change(number) for number in range(sent + 1, sent + 9))
            sent += 8
        try:
            due = due[connection.send(due):] if due else due
        except BlockingIOError:
            pass
        except OSError:
            break
        try:
            piece = connection.recv(65536)
            if not piece:
                break
            told += piece
        except BlockingIOError:
            pass
        except OSError:
            break
    return sent, told


def one_by_one(connection, first):
    """Sends changes from this number on, each once the one before it is answered, until the connection ends. Gives what was
    told. A server that ends with lines unread resets the connection, and the reset may overtake replies."""
    connection.settimeout(PATIENCE)
    told, number = b"", first
    try:
        while True:
            connection.sendall(change(number))
            while answered(told, first - 1) < number:
                piece = connection.recv(65536)
                if not piece:
                    return told
                told += piece
            number += 1
    except OSError:
        return told


def drain(connection, told):
    """What still comes, until the connection ends."""
    connection.settimeout(PATIENCE)
    while True:
        try:
            piece = connection.recv(65536)
        except OSError:
            return told
        if not piece:
            return told
        told += piece


def answered(told, before):
    """The number of the last change that was answered by a whole line."""
    whole = told[:told.rfind(b"\n") + 1].decode().splitlines()
    numbers = [int(line.split()[2]) for line in whole if line.startswith(("ok added", "ok removed", "ok done"))]
    expect(numbers, list(range(before + 1, before + 1 + len(numbers))), "changes are answered in order")
    return before + len(numbers)


@test
def kills(program, folder, options):
    draw = random.Random(options.seed)
    log, count, header = os.path.join(folder, "kills"), 0, log_format.SECOND
    for turn in range(options.kills):
        if turn % 25 == 0:  # a new file now and then, so that loading stays short; each second one is of format 1
            if os.path.exists(log):
                os.remove(log)
            header = log_format.FIRST if turn // 25 % 2 else log_format.SECOND
            if header == log_format.FIRST:
                write(log, log_format.write_first([]))
            serving, count = Serving(program, log), 0
            with serving.connect() as connection:
                expect(ask(connection, BEGIN)[:2], ["ok", "ok query 3"], "a new file")
            serving.kill()
        serving = Serving(program, log)
        with serving.connect() as connection:
            sent, told = churn(connection, count + 1, time.monotonic() + draw.random() * 0.08)
            expect(serving.kill()[0], -signal.SIGKILL, "the server went on until it was killed")
            least = answered(drain(connection, told), count)
        expect(replay(program, log)[:2], (b"", 0), "the file is whole")
        groups_of(log, header)
        seq, rows = state(program, log)
        if not least <= seq <= sent:
            raise AssertionError(f"turn {turn}: {seq} changes, where {least} were answered and {sent} sent")
        expect(rows, rows_after(seq), f"turn {turn}: rows behind {seq} changes")
        count = seq


# ---------------------------------------------------------------- files


FIRST = b"open 1\nsay 1 rel r int\nsay 1 add r 7\nsay 1 add r 7\nsay 1 del r 9\n"


@test
def a_schedule_is_kept(program, folder, options):
    log = os.path.join(folder, "kept")
    expect(replay(program, log, FIRST)[:2], (b"1< ok\n1< ok added 1 1\n1< ok added 1 2\n1< ok absent 1\n", 0), "first")
    expect(read(log), log_format.write(singles([b"rel r int", b"add r 7", b"add r 7"])), "a record for each commit")
    expect(replay(program, log, b"open 1\nsay 1 del r 7\n")[:2], (b"1< ok removed 1 1\n", 0), "a copy is left")
    expect(replay(program, log, b"open 1\nsay 1 del r 7\n")[:2], (b"1< ok removed 2 0\n", 0), "the changes go on")


@test
def a_transaction_is_kept_whole(program, folder, options):
    for form in FORMATS:
        a_transaction_in_a_log(program, os.path.join(folder, form.__name__), form)


def a_transaction_in_a_log(program, log, form):
    begin = [[b"rel r int int"]]
    held = [b"add r 1 2", b" add  r 2 03 ", b"del r 1 2", b"add r 1 2", b"  del r  2 3", b"add r 2 3", b"add r 1 2"]
    said = [b"rel r int int", b"batch", *held, b"add r 1", b"has q 1"]
    told = [b"ok", b"ok batch", *(b"ok held %d" % (at + 1) for at in range(len(held))), b"err 6 arity", b"err 18 batch"]
    for open_still in ([], [b"done"], [b"batch"], [b"batch", b"del r 5 5"], [b"batch", b"add r 5 5", b"abandon"]):
        lines = [*said, b"done 07", b"batch", b"done", b"batch", b"add r 9 9", b"abandon", *open_still]
        write(log, form(begin))
        schedule = b"open 1\n" + b"".join(b"say 1 %s\n" % line for line in lines[1:])
        written, status, _ = replay(program, log, schedule)
        expect(status, 0, "status")
        want = [*told[1:], b"ok done 1 2", b"ok batch"]
        expect(written.splitlines()[: len(want)], [b"1< " + line for line in want], "replies")
        whole = form([*begin, [b"batch", *held, b"done"], [b"batch", b"done"]])
        expect(read(log), whole, "what was done, as its lines were sent")
    expect(replay(program, log, b"open 1\nsay 1 del r 1 2\nsay 1 del r 2 3\n")[:2],
           (b"1< ok removed 1 1\n1< ok removed 2 0\n", 0), "the copies")
    # a change and its copies alone
    write(log, form([*begin, [b"add r 1 2"], [b"batch", b"del r 1 2", b"add r 1 3", b"done"], [b"batch", b"add r 1 3", b"done 1"]]))
    expect(replay(program, log, b"open 1\nsay 1 del r 1 2\nsay 1 del r 1 3\nsay 1 del r 1 3\n")[:2],
           (b"1< ok absent 2\n1< ok removed 2 1\n1< ok removed 3 0\n", 0), "loaded")


@test
def unions_are_kept(program, folder, options):
    log = os.path.join(folder, "unions")
    kept = [b"rel r int", b"query a(x) <- r(x)", b"query b(x) <- r(x), x > 5", b" union  u a  b", b"add r 7",
            b"union v b a"]
    refused = [b"union u a b", b"union w a", b"union w a a", b"union w a u", b"union w a none", b"drop a"]
    lines = kept + refused + [b"drop u", b"union u b a", b"explain u"]
    told, status, _ = replay(program, log, b"open 1\n" + b"".join(b"say 1 %s\n" % line for line in lines))
    want = [b"ok", b"ok query 3", b"ok query 3", b"ok union 8", b"ok added 1 1", b"ok union 8", b"err 2 taken",
            b"err 1 syntax", b"err 17 member", b"err 17 member", b"err 4 no query", b"err 14 in use",
            b"ok", b"ok union 8", b"m b", b"m a", b"end"]
    expect((told, status), (b"".join(b"1< " + line + b"\n" for line in want), 0), "replies")
    expect(read(log), log_format.write(singles([*kept, b"drop u", b"union u b a"])), "the file")
    schedule = b"open 1\nsay 1 has u 7\nsay 1 drop b\nsay 1 explain u\nsay 1 watch u\nsay 1 watch v\nsay 1 add r 8\n"
    # v is first, since u was registered anew after it
    want = b"1< yes\n1< err 14 in use\n1< m b\n1< m a\n1< end\n1< ok watch 1\n1< ok watch 1\n" \
        b"1< + v 8\n1< at v 2\n1< + u 8\n1< at u 2\n1< ok added 2 1\n"
    expect(replay(program, log, schedule)[:2], (want, 0), "loaded")


@test
def a_refused_transaction_isnt_kept(program, folder, options):
    log = os.path.join(folder, "refused")
    schedule = b"open 1\nopen 2\nsay 1 rel r int\nsay 1 done\nsay 1 batch\nsay 2 batch\nsay 1 rel s int\nsay 1 add r 1\n" \
        b"say 2 add r 7\nsay 1 abandon\nsay 2 quit\n" \
        b"say 1 batch\nsay 1 add r 1\nsay 1 del r 2\nsay 1 done\nsay 1 batch\nsay 1 add r 1\nsay 1 done 2\n"
    told, status, _ = replay(program, log, schedule)
    expect((status, told.splitlines()[-1], told.count(b"err 19 absent")), (0, b"1< err 20 held", 1), "replies")
    expect(read(log), log_format.write([[b"rel r int"]]), "the file")


@test
def a_file_that_ends_within_a_batch(program, folder, options):
    log = os.path.join(folder, "within")
    for form in FORMATS:
        for held in ([], [b"add r 2"], [b"add r 2", b"add r 1", b"add r 3"], [b"del r 1"], [b"del r 9", b"add r 2", b"del r 1"]):
            begun = [*singles([b"rel r int", b"add r 1"]), [b"batch", *held]]
            write(log, form(begun))
            expect(replay(program, log)[:2], (b"", 0), f"{held}: loaded")
            whole = form([*begun, [b"abandon"]])
            expect(read(log), whole, f"{held}: the batch is abandoned")
            expect(replay(program, log)[:2], (b"", 0), f"{held}: loaded again")
            expect(read(log), whole, f"{held}: nothing more is logged")
            told, status, _ = replay(program, log, b"open 1\nsay 1 done\nsay 1 add r 1\nsay 1 add r 2\n")
            want = b"1< err 18 batch\n1< ok added 1 2\n1< ok added 2 1\n"
            expect((told, status), (want, 0), f"{held}: nothing of it was carried out")


@test
def a_refused_line(program, folder, options):
    log = os.path.join(folder, "refused")
    for line in (b"add z 1", b"del r 9", b"next c 1", b"rel r int", b"union u q q",
                 b"query q(x,z) <- r(x), r(z), r(y), z < 1", b"\xff", b"add r " + b"1" * 5000):
        for content, place in shapes([b"rel r int", line]):
            write(log, content)
            told, status, said = replay(program, log, b"open 1\nsay 1 add r 8\n")
            if line.startswith(b"query"):
                expect(status, 0, "a query that can be registered")
            else:
                expect((told, status, said), (b"", 11, bad(place)), repr(line[:50]))
                expect(read(log), content, "the file")


@test
def a_refused_line_of_a_batch(program, folder, options):
    log = os.path.join(folder, "refused")
    full = [b"add r 1"] * 65536
    for lines in ([b"done"], [b"abandon"], [b"batch", b"batch"], [b"batch", b"rel s int"], [b"batch", b"del r 1", b"done"],
                  [b"batch", b"add r 1", b"del r 2", b"done"], [b"batch", b"del r 1", b"add r 1", b"done 2"], [b"batch", b"del z 1"],
                  [b"batch", b"add r 1", b"done 2"], [b"batch", b"done 1"], [b"done 0"], [b"batch", b"del r 1 1"],
                  [b"batch", b"quit"], [b"batch", b"union u q q"], [b"batch", b"add z 1"],
                  [b"batch", b"add r 1", b"add r 1 1"], [b"batch", b"done", b"done"],
                  [b"batch", b"add r 1", b"abandon", b"abandon"], [b"batch", *full, b"add r 1"], [b"batch", b"add r 1", b"drop q"]):
        for content, place in shapes([b"rel r int", *lines]):
            write(log, content)
            told, status, said = replay(program, log, b"open 1\nsay 1 add r 8\n")
            expect((told, status, said), (b"", 11, bad(place)), repr(lines[-3:]))
            expect(read(log), content, "the file")
    for content, _ in shapes([b"rel r int", b"batch", *full, b"done", b"batch", b"abandon"]):
        write(log, content)
        expect(replay(program, log, b"open 1\nsay 1 add r 1\n")[:2], (b"1< ok added 1 65537\n", 0), "a batch at its limit")


# ---------------------------------------------------------------- the formats


# the bytes of two groups, of one line and of two
EXAMPLE = [[b"rel r int"], [b"add r 7", b"add r 8"]]


@test
def the_example_is_that_of_the_specification_and_of_the_page(program, folder, options):
    root = os.path.join(HERE, "..")
    definition = read(os.path.join(root, "crates", "djq_log_format", "specs", "Example.antt")).decode()
    numbers = re.search(r"^example_file =\n(.*?)\[\]", definition, re.MULTILINE | re.DOTALL)[1]
    page = read(os.path.join(root, "docs", "PROTOCOL.md")).decode()
    shown = re.search(r"^```bytes\n(.*?)^```$", page, re.MULTILINE | re.DOTALL)[1]
    cells = [re.split(r"\s{2,}", row.strip())[1] for row in shown.splitlines()]
    for bytes_of_it in (bytes(map(int, re.findall(r"\d+", numbers))), bytes.fromhex(" ".join(cells))):
        expect(bytes_of_it, log_format.write(EXAMPLE), "its bytes")
        expect(log_format.read(bytes_of_it), EXAMPLE, "its groups")
    log = os.path.join(folder, "example")
    write(log, log_format.write(EXAMPLE))
    expect(replay(program, log, b"open 1\nsay 1 add r 8\n")[:2], (b"1< ok added 2 2\n", 0), "it loads")
    expect(groups_of(log, log_format.SECOND), [*EXAMPLE, [b"add r 8"]], "and is appended to")


@test
def the_samples_of_both_formats_have_the_same_lines(program, folder, options):
    for name in ("", "-crash"):
        first, second = (log_format.read(read(os.path.join(HERE, "logs", f"format-{number}{name}.log"))) for number in (1, 2))
        expect(sum(second, []), sum(first, []), f"the lines of format-2{name}.log")
        expect(len(sum(second, [])) > 2, True, "lines")


@test
def an_unbegun_file_is_made_a_log(program, folder, options):
    log = os.path.join(folder, "unbegun")
    for header in (log_format.FIRST, log_format.SECOND):
        for size in range(len(header) + 1):
            for schedule, groups in ((b"", []), (FIRST, singles([b"rel r int", b"add r 7", b"add r 7"]))):
                write(log, header[:size])
                expect(replay(program, log, schedule)[1:], (0, b""), f"{size} bytes of {header!r}")
                expect(read(log), log_format.write(groups), f"{size} bytes of {header!r}, the file")
    for content in (b"\0", b"D\0", b"DJQLOG\0", b"djqlog2\n", b"DJQLOG3\n", b"DJQLOG2\r", b"DJQLOG2 \0", bytes(8), bytes(9), b"DJQLOG3\n\0",
                    b"\n" + log_format.write([]), log_format.write([])[1:]):
        write(log, content)
        expect(log_format.read(content), (0, "header"), repr(content))
        expect(replay(program, log, FIRST), (b"", 11, bad(0)), repr(content))
        expect(read(log), content, f"{content!r}, the file")


@test
def a_log_of_format_1_is_continued_as_one(program, folder, options):
    log, more = os.path.join(folder, "first"), [b"rel more int", b"add more 7", b"batch", b"add more 7", b"add more 8", b"del more 7", b"done"]
    schedule = b"open 1\n" + b"".join(b"say 1 %s\n" % line for line in more)
    for name in ("format-1", "format-1-crash", "format-1-cut"):
        content = read(os.path.join(HERE, "logs", name + ".log"))
        lines, abandoned = log_format.read(content), singles([b"abandon"] if name == "format-1-cut" else [])
        write(log, content)
        expect(replay(program, log), (b"", 0, b""), f"{name}: loaded")
        expect(groups_of(log, log_format.FIRST), lines + abandoned, f"{name}: its lines")
        told, status, _ = replay(program, log, schedule)
        expect((status, b"err" in told, told.count(b"1< ok")), (0, False, len(more)), f"{name}: continued")
        expect(groups_of(log, log_format.FIRST), lines + abandoned + singles(more), f"{name}: its lines and more")
        told, status, _ = replay(program, log, b"open 1\nsay 1 add more 7\n")
        expect((status, told.split()[-1]), (0, b"2"), f"{name}: loaded again")


# ---------------------------------------------------------------- cuts and flips


# each kind of line, alone and with others, some of them in a group
SAMPLE = [
    *singles([b"rel r int int", b"rel s int text", b"query q(x) <- r(x,y), y >= 0", b"query p(x) <- r(x,y), x < 50",
              b"query t(x,y) <- s(x,y)"]),
    [b"union u p q", b"query gone(x) <- r(x,_)", b"union v q p"],
    *singles([b"add r 1 2", b'add s 7 "a \\"b\\"\\n"']),
    [b"add r 3 4", b"add r 1 2", b"del r 3 4", b"add r 60 1"],
    [b"batch", b"add r 5 6", b' add  s 8 "c"', b"del r 60 1", b"add r 61 1", b"add r 5 6", b"done", b"drop gone"],
    *singles([b"drop v", b"del r 5 6"]),
]

# each session lists for itself, so an answer shows whose it is; the last line shows the copies of a row, and is appended
LISTED = b"pqtu"
LISTING = b"".join(b"open %d\nsay %d open c %c\nsay %d next c 1000\nsay %d explain %c\nsay %d watch %c\n" % (at, at, name, at, at, name, at, name)
                   for at, name in enumerate(LISTED, 1)) + b"open 9\nsay 9 has gone 1\nsay 9 has v 1\nsay 9 add r 1 2\n"
APPENDED = [[b"add r 1 2"]]

# a record whose gate was never opened, as a crash leaves it after the end
REMAINS = log_format.write([[b"add r 77 77"]])[9:]


def listed(told):
    """What was listed, the answers in order."""
    lines = told.splitlines()
    return sorted(line for line in lines if b"< = " in line), [line for line in lines if b"< = " not in line]


def flips_of(content, places):
    """One bit flipped: each of gates, lengths, digests and bytes of the header, and those of each 7th byte elsewhere."""
    heads = {at for place in places for at in range(place, min(place + log_format.HEAD, len(content)))}
    for at in range(len(content)):
        if at < 8 or at in heads or at % 7 == 0:
            for flipped in log_format.flips(content, at):
                yield f"byte {at} flipped to {flipped[at]}", flipped


def cuts_of(content):
    """Each file that is cut and still has bytes after its header."""
    for size in range(9, len(content)):
        yield f"cut to {size} bytes", content[:size]


def a_start_refuses_it_or_loads_the_same(program, log, content, what):
    """A start refuses a file with the place that tests/log_format.py finds, and leaves it as it is; or it loads what it loaded before
    the change."""
    write(log, content)
    told, status, said = replay(program, log, LISTING)
    found = log_format.read(content)
    if isinstance(found, tuple):
        expect((told, status, said), (b"", 11, bad(found[0])), f"{what}, {found}")
        expect(read(log), content, f"{what}, the file")
        return 1
    expect(found, SAMPLE, what)
    expect((status, said), (0, b""), what)
    expect(listed(told), listed_before(program, log), what)
    expect(groups_of(log, log_format.SECOND), SAMPLE + APPENDED, f"{what}, the file")
    return 0


def listed_before(program, log):
    """What is listed of the log as it was before any change, computed once."""
    if not LISTINGS:
        whole = log + "-whole"
        write(whole, log_format.write(SAMPLE))
        told, status, said = replay(program, whole, LISTING)
        expect((status, said), (0, b""), "the log before any change")
        answers, rest = listed(told)
        expect((len(answers), rest[-3:]), (10, [b"9< err 4 no query", b"9< err 4 no query", b"9< ok added 6 3"]), "what it has")
        LISTINGS.append((answers, rest))
    return LISTINGS[0]


LISTINGS = []


@test
def each_flip_of_a_bit_and_each_cut(program, folder, options):
    log, whole = os.path.join(folder, "flipped"), log_format.write(SAMPLE)
    count = refused = 0
    for changes in (flips_of(whole + REMAINS, log_format.gates(SAMPLE)), cuts_of(whole + REMAINS)):
        for what, content in changes:
            refused += a_start_refuses_it_or_loads_the_same(program, log, content, what)
            count += 1
    print(f"{count} flips and cuts, {refused} of them refused")
    expect(refused > count // 2, True, f"{refused} of {count} refused")


@test
def any_open_gate_is_as_good(program, folder, options):
    log = os.path.join(folder, "gates")
    for gate in (1, 2, 128, 254):
        refused = a_start_refuses_it_or_loads_the_same(program, log, log_format.write(SAMPLE, gate), f"gates of {gate}")
        expect(refused, 0, f"gates of {gate}")


@test
def records_that_are_moved(program, folder, options):
    """A record that is left out, repeated, exchanged with the next or of another log is refused at its place."""
    log, whole, places = os.path.join(folder, "moved"), log_format.write(SAMPLE), log_format.gates(SAMPLE)
    records = [whole[begin:end] for begin, end in zip(places, places[1:])]
    for at in range(len(records) - 1):
        others = {
            "left out": records[:at] + records[at + 1:],
            "repeated": records[:at + 1] + records[at:],
            "exchanged": records[:at] + [records[at + 1], records[at]] + records[at + 2:],
            "of another log": records[:at] + [log_format.write([SAMPLE[at]])[8:-1]] + records[at + 1:] if at else None,
        }
        for what, changed in others.items():
            if changed:
                content = log_format.SECOND + b"".join(changed) + b"\0"
                refused = a_start_refuses_it_or_loads_the_same(program, log, content, f"record {at} is {what}")
                expect(refused, 1, f"record {at} is {what}")


@test
def a_log_of_many_pieces(program, folder, options):
    """Records that are longer than what a start reads at once, and others that reach over its end."""
    log, draw = os.path.join(folder, "long"), random.Random(options.seed)
    groups = [[b"rel r int", b"query q(x) <- r(x)"]]
    for first in range(0, 3000, 1000):
        rows = [b"add r %d" % row + b" " * draw.randrange(200) for row in range(first, first + 1000)]
        groups += [[b"batch", *rows, b"done"], *singles(b"add r %d" % -row + b" " * draw.randrange(4000) for row in range(first + 1, first + 41))]
    whole = log_format.write(groups)
    asked = b"open 1\nsay 1 watch q\nsay 1 has q 2999\nsay 1 has q -2040\nsay 1 has q -2041\n"
    wanted = b"1< ok watch 123\n1< yes\n1< yes\n1< no\n", 0, b""
    write(log, whole)
    expect(replay(program, log, asked), wanted, "as it is")
    for at in (draw.randrange(9, len(whole)) for _ in range(50)):
        for what, content in (("cut", whole[:at]), ("flipped", draw.choice(list(log_format.flips(whole, at))))):
            write(log, content)
            found = log_format.read(content)
            want = (b"", 11, bad(found[0])) if isinstance(found, tuple) else wanted
            expect(replay(program, log, asked), want, f"byte {at} of {len(whole)} is {what}")


@test
def each_cut_of_format_1(program, folder, options):
    log = os.path.join(folder, "cut")
    lines = [b"rel r int", b"add r 7", b"batch", b"add r 7", b"add r 9", b"del r 7", b"done"]
    gates, whole = log_format.gates_first(lines), log_format.write_first(lines)
    for size in range(9, len(whole)):
        write(log, whole[:size])
        gate = max(at for at in gates if at <= size)
        expect(replay(program, log, b"open 1\nsay 1 add r 8\n"), (b"", 11, bad(gate)), f"cut to {size} bytes")
        expect(log_format.read(whole[:size])[0], gate, f"cut to {size} bytes, as it is read here")
        expect(read(log), whole[:size], f"cut to {size} bytes, the file")


@test
def each_byte_of_format_1_changed(program, folder, options):
    log = os.path.join(folder, "changed")
    lines = [b"rel r int", b"add r 7"]
    whole, gates = log_format.write_first(lines), log_format.gates_first(lines)
    draw = random.Random(options.seed)
    for at in range(len(whole)):
        values = {0, 1, 255, draw.randrange(256)} | ({flipped[at] for flipped in log_format.flips(whole, at)} if at < 12 else set())
        for value in values - {whole[at]}:
            changed = whole[:at] + bytes([value]) + whole[at + 1:]
            write(log, changed)
            told, status, said = replay(program, log)
            found = log_format.read(changed)
            if isinstance(found, tuple):
                expect((told, status, said), (b"", 11, bad(found[0])), f"byte {at} is {value}")
            elif (told, status) not in ((b"", 0), (b"", 11)) or said not in ((b"",) if status == 0 else map(bad, gates)):
                raise AssertionError(f"byte {at} is {value}: {told!r}, {status}, {said!r}")
            expect(read(log), changed, f"byte {at} is {value}, the file")
            if at < 8:
                expect(status, 11, f"byte {at} of the header is {value}")


# ---------------------------------------------------------------- the disk


@test
def a_disk_that_is_full_from_the_start(program, folder, options):
    told, status, said = replay(program, "/dev/full", FIRST)
    expect((told, status, bool(said)), (b"", 9, True), "/dev/full")


@test
def a_folder_or_nothing(program, folder, options):
    for path in (folder, os.path.join(folder, "none", "log")):
        told, status, said = replay(program, path, FIRST)
        expect((told, status, bool(said)), (b"", 9, True), path)


@test
def a_disk_that_becomes_full(program, folder, options):
    log = os.path.join(folder, "full")
    serving = Serving(program, log)
    with serving.connect() as connection:
        ask(connection, BEGIN)
    serving.kill()
    count = 0
    for limit in (1000, *range(2000, 2040, 5)):
        serving = Serving(program, log, limit)
        with serving.connect() as connection:
            least = answered(one_by_one(connection, count + 1), count)
            status, said = serving.end()
            expect((status, bool(said)), (9, True), f"a limit of {limit} bytes")
        seq, rows = state(program, log)
        if not least <= seq <= least + 1:
            raise AssertionError(f"a limit of {limit} bytes: {seq} changes, where {least} were answered")
        expect(rows, rows_after(seq), f"a limit of {limit} bytes: rows")
        count = seq
    expect(count > 20, True, "changes were kept")


@test
def a_second_server_on_the_same_file(program, folder, options):
    log = os.path.join(folder, "second")
    serving = Serving(program, log)
    with serving.connect() as connection:
        expect(ask(connection, BEGIN)[:2], ["ok", "ok query 3"], "the first server")
    before = read(log)
    told, status, said = replay(program, log, b"open 1\nsay 1 add r 1 1\n")
    expect((told, status, bool(said)), (b"", 9, True), "the second server")
    expect(read(log), before, "the file")
    with serving.connect() as connection:
        expect(ask(connection, b"add r 1 1\n")[0], "ok added 1 1", "the first server goes on")
    serving.kill()
    expect(state(program, log), (1, {1}), "what it kept")


@test
def a_copy_made_while_it_runs(program, folder, options):
    log, copy = os.path.join(folder, "runs"), os.path.join(folder, "copy")
    serving = Serving(program, log)
    with serving.connect() as connection:
        ask(connection, BEGIN)
    with serving.connect() as connection:
        told, sent = b"", 0
        for _ in range(20):
            more, heard = churn(connection, sent + 1, time.monotonic() + 0.01)
            sent, told = more, told + heard
            least = answered(told, 0)
            write(copy, read(log))
            expect(replay(program, copy)[:2], (b"", 0), "the copy is whole")
            groups_of(copy, log_format.SECOND)
        serving.kill()
    seq, rows = state(program, copy)
    if not least <= seq <= sent:
        raise AssertionError(f"the copy has {seq} changes, where {least} were answered before and {sent} sent")
    expect(rows, rows_after(seq), "the copy's rows")


def main():
    parser = argparse.ArgumentParser(description=__doc__.splitlines()[0])
    parser.add_argument("program")
    parser.add_argument("--kills", type=int, default=200)
    parser.add_argument("--seed", type=int, default=1)
    options = parser.parse_args()
    program = os.path.abspath(options.program)

    def call(function):
        with tempfile.TemporaryDirectory() as folder:
            function(program, folder, options)

    return run_tests(call, limit=None)


if __name__ == "__main__":
    sys.exit(main())
