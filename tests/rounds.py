#!/usr/bin/env python3
"""Rounds of the built program: who is served before whom, what a commit costs, and what a kill or a failing disk leaves of it.

    tests/rounds.py PROGRAM [--kills N] [--seed S] [--only NAME]

Pipelined changes need few calls of the system. Sessions that pipeline are served in turn, and a question beside a pipeline or
beside costly lines doesn't wait for all of them. A server with a log and 32 writers is killed N times (12; 200 is the long form),
its syncs fail, and its disk is full: each time the next start has every change that was acknowledged, and of each writer a first
part of what it sent. What strace or a mount is needed for is skipped, and named, if it can't be had. One line is printed for each
test that fails, and last `N passed, N failed`; the status is 0 if none failed. It needs Python's standard library alone.
"""

import argparse
import contextlib
import errno
import os
import random
import re
import resource
import select
import shutil
import signal
import socket
import statistics
import subprocess
import sys
import tempfile
import threading
import time

sys.dont_write_bytecode = True
import harness  # noqa: E402
from harness import expect, run_tests, test  # noqa: E402

PATIENCE = 60
TRIES = 3  # of what a busy machine may spoil
WRITERS = 32
WINDOW = 16  # changes of a writer that are on their way at once
PIPELINED = 10_000
HELD_UP = 60  # costly lines by which a server is held up
KILLS_A_LOG = 8  # kills after which a new log is begun, so that loading stays short


class Skipped(Exception):
    """Why a test can't look at what it is for, on this machine."""


@contextlib.contextmanager
def folder():
    with tempfile.TemporaryDirectory(prefix="djq-rounds-") as made:
        yield os.path.realpath(made)


def tries(function):
    """The best of some tries: what failed last is raised, if all fail."""
    for left in reversed(range(TRIES)):
        try:
            return function()
        except AssertionError:
            if not left:
                raise
    return None


# ---------------------------------------------------------------- a server and its clients


class Serving:
    """A program that serves a port of loopback, below other words if some are given."""

    def __init__(self, log=None, below=(), **settings):
        with socket.create_server(("127.0.0.1", 0)) as free:
            self.port = free.getsockname()[1]
        words = [*below, PROGRAM, "serve", f"127.0.0.1:{self.port}", *(["--log", log] if log else [])]
        self.program = subprocess.Popen(words, stdin=subprocess.DEVNULL, stderr=subprocess.PIPE, **settings)
        self.streams = []

    def __enter__(self):
        return self

    def __exit__(self, *_):
        for stream in self.streams:
            stream.close()
        self.program.kill()
        self.program.communicate()

    def client(self):
        until = time.monotonic() + PATIENCE
        while True:
            try:
                stream = socket.create_connection(("127.0.0.1", self.port), PATIENCE)
                stream.setsockopt(socket.IPPROTO_TCP, socket.TCP_NODELAY, 1)
                self.streams.append(stream)
                return stream
            except OSError:
                if self.program.poll() is not None or time.monotonic() > until:
                    raise
                time.sleep(0.01)

    def end(self):
        """The status, and what it said on standard error."""
        said = self.program.communicate(timeout=PATIENCE)[1]
        return self.program.returncode, said


def read_lines(stream, count):
    """What a session is sent, until so many lines have ended."""
    told, ended = [], 0
    while ended < count:
        piece = stream.recv(1 << 16)
        expect(bool(piece), True, f"the session ended after {ended} lines, of {count}")
        told.append(piece)
        ended += piece.count(b"\n")
    return b"".join(told).splitlines()


def ask(stream, *lines):
    """Sends lines that have a reply of one line each, and reads these."""
    stream.sendall(b"".join(line + b"\n" for line in lines))
    return read_lines(stream, len(lines))


def to_the_end(stream):
    told = b""
    with contextlib.suppress(ConnectionResetError):
        while piece := stream.recv(1 << 16):
            told += piece
    return told


def beside(function, *words):
    """Begins a function in a thread; the call that is given back waits for its result."""
    result = []

    def run():
        try:
            result.append((function(*words), None))
        except BaseException as error:  # noqa: BLE001
            result.append((None, error))

    thread = threading.Thread(target=run, daemon=True)
    thread.start()

    def wait():
        thread.join(PATIENCE)
        expect(len(result), 1, "a thread ended")
        if result[0][1]:
            raise result[0][1]
        return result[0][0]

    return wait


# Costly lines

ROWS = 100


def prepare_listing(stream):
    """A union whose listing is costly: eight queries of 22 atoms each, with a million answers."""
    atoms = b", ".join(b"%c(%c)" % (b"abc"[at % 3], b"xyz"[at % 3]) for at in range(22))
    lines = [b"rel %c int" % name for name in b"abc"]
    lines += [b"add %c %d" % (name, value) for name in b"abc" for value in range(ROWS)]
    lines += [b"query m%d(x,y,z) <- %s" % (at, atoms) for at in range(8)]
    lines += [b"union u " + b" ".join(b"m%d" % at for at in range(8))]
    told = ask(stream, *lines)
    expect(told[-1][:9], b"ok union ", "the union")


LISTING = b"open c u\n" + b"next c 1000\n" * HELD_UP + b"close c\n"
LISTING_LINES = 1001 * HELD_UP + 2


@contextlib.contextmanager
def held_up(serving):
    """A server that runs costly lines for some hundredths of a second, as the block begins. They log nothing."""
    stream = serving.client()
    prepare_listing(stream)
    stream.sendall(LISTING)
    begun = len(read_lines(stream, 1))
    reading = beside(read_lines, stream, LISTING_LINES - begun)
    yield
    reading()


# ---------------------------------------------------------------- calls of the system


def may_trace():
    """Skips a test if nothing can be traced."""
    if not shutil.which("strace"):
        raise Skipped("strace isn't there")
    done = subprocess.run(["strace", "-qq", "-e", "trace=none", "true"], capture_output=True, check=False)
    if done.returncode:
        raise Skipped(f"strace may not trace: {done.stderr.decode().strip()}")


class Trace:
    """What a server that strace starts asks the system, in a file to which each call is written at once."""

    KINDS = {"sends": ("sendto", "sendmsg", "write", "writev"), "syncs": ("fsync", "fdatasync")}
    CALL = re.compile(r"^(?:\d+ +)?(\w+)\(\d+<(\w*)")

    def __init__(self, here, *more):
        self.path = os.path.join(here, "trace")
        names = ",".join(name for names in self.KINDS.values() for name in names)
        # by -D the server is a child of this process, and it is stopped at no other calls
        self.words = ["strace", "-D", "-f", "--seccomp-bpf", "-qq", "-y", "-e", f"trace={names}", "-e", "signal=none", *more, "-o", self.path]

    def counts(self):
        """How many calls of each kind there were so far: of sends only those of sockets."""
        size = -1
        while size != os.path.getsize(self.path):
            size = os.path.getsize(self.path)
            time.sleep(0.1)
        found = dict.fromkeys(self.KINDS, 0)
        with open(self.path, encoding="utf-8", errors="replace") as file:
            for call in filter(None, map(self.CALL.match, file)):
                for kind, names in self.KINDS.items():
                    found[kind] += call[1] in names and (kind == "syncs" or call[2] in ("socket", "TCP", "TCPv6"))
        return found


def pipeline(stream, lines, count):
    """Sends lines in one piece, and reads so many lines of replies meanwhile."""
    reading = beside(read_lines, stream, count)
    stream.sendall(lines)
    return reading()


@test
def pipelined_changes_need_few_calls():
    may_trace()
    for logs in (False, True):
        def one_try():
            with folder() as here:
                trace = Trace(here)
                with Serving(os.path.join(here, "log") if logs else None, trace.words) as serving:
                    stream = serving.client()
                    expect(ask(stream, b"rel r int", b"query q(x) <- r(x)"), [b"ok", b"ok query 3"])
                    before = trace.counts()
                    told = pipeline(stream, b"".join(b"add r %d\n" % row for row in range(PIPELINED)), PIPELINED)
                    expect(told, [b"ok added %d 1" % (row + 1) for row in range(PIPELINED)], "replies")
                    made = {kind: count - before[kind] for kind, count in trace.counts().items()}
            pieces = PIPELINED // 500
            expect(made["sends"] <= pieces, True, f"{made['sends']} sends, {pieces} at most are wanted, with a log: {logs}")
            least = 2 if logs else 0
            expect(least <= made["syncs"] <= pieces * least, True, f"{made['syncs']} syncs, with a log: {logs}")

        tries(one_try)


# ---------------------------------------------------------------- who is served before whom

LINES = 1500


def adds(name, count=LINES):
    return b"".join(b"add %s %d\n" % (name, row) for row in range(count))


@test
def sessions_that_pipeline_are_served_in_turn():
    """Two sessions whose lines are at hand at once: between two lines of one there is one of the other."""
    def one_try():
        with Serving() as serving:
            one, other = serving.client(), serving.client()
            ask(one, b"rel r int", b"rel s int")
            ask(other, b"rel t int")
            with held_up(serving):
                one.sendall(adds(b"r"))
                other.sendall(adds(b"s"))
            told = [read_lines(stream, LINES) for stream in (one, other)]
        served = sorted((int(line.split()[2]), at) for at, lines in enumerate(told) for line in lines)
        expect(len({seq for seq, _ in served}), 2 * LINES, "numbers of changes")
        changes = sum(before[1] != after[1] for before, after in zip(served, served[1:]))
        expect(changes >= 1.8 * LINES, True, f"it changed {changes} times between two sessions with {LINES} lines each")

    tries(one_try)


@test
def the_lines_of_a_session_are_run_in_order():
    """Whatever others send, and in whatever pieces they are sent: the replies of each session are those of its lines in order."""
    draw = random.Random(ARGUMENTS.seed)
    with Serving() as serving:
        streams = [serving.client() for _ in range(8)]
        ask(streams[0], b"rel r int int", b"query q(x,y) <- r(x,y)")
        waits = []
        for number, stream in enumerate(streams):
            lines = [(b"add r %d %d\n" if at % 2 else b"has q %d %d\n") % (number, at) for at in range(1000)]
            waits.append(beside(read_lines, stream, len(lines)))
            beside(in_pieces, stream, b"".join(lines), draw.randrange(1 << 30))
        for told in [wait() for wait in waits]:
            expect([line.split()[0] for line in told], [b"ok" if at % 2 else b"no" for at in range(1000)], "kinds of replies")
            seqs = [int(line.split()[2]) for line in told if line.startswith(b"ok")]
            expect(seqs, sorted(seqs), "numbers of changes")


def in_pieces(stream, lines, seed):
    """Sends bytes in pieces that are cut at random."""
    draw, at = random.Random(seed), 0
    while at < len(lines):
        end = at + draw.choice((1, 7, 100, 3000, 9000))
        stream.sendall(lines[at:end])
        at = end


def sync_seconds(here):
    """The median of a sync on the disk of a folder."""
    taken = []
    with open(os.path.join(here, "synced"), "wb", buffering=0) as file:
        for _ in range(50):
            file.write(b"x" * 64)
            begin = time.perf_counter()
            os.fsync(file.fileno())
            taken.append(time.perf_counter() - begin)
    return statistics.median(taken)


def keep_pipeline(stream, ends):
    """Has 1,000 changes on their way until an event is set, and reads all replies. How many there were."""
    sent = heard = 0
    while not ends.is_set() or heard < sent:
        if sent - heard <= 500 and not ends.is_set():
            more = 1000 - (sent - heard)
            stream.sendall(b"".join(b"add r %d\n" % row for row in range(sent, sent + more)))
            sent += more
        piece = stream.recv(1 << 16)
        expect(bool(piece), True, "the pipeline goes on")
        heard += piece.count(b"\n")
    return heard


def delays(stream, seconds):
    """What each of many questions waits for its answer."""
    taken, until = [], time.monotonic() + seconds
    while time.monotonic() < until:
        begin = time.perf_counter()
        expect(ask(stream, b"has q -1"), [b"no"])
        taken.append(time.perf_counter() - begin)
        time.sleep(0.002)
    return taken


@test
def a_question_beside_a_pipeline_is_answered_soon():
    """A bound that a server misses which waits for two syncs with each of 1,000 lines."""
    for logs in (False, True):
        def one_try():
            with folder() as here:
                sync = sync_seconds(here)
                with Serving(os.path.join(here, "log") if logs else None) as serving:
                    stream, asking = serving.client(), serving.client()
                    ask(stream, b"rel r int", b"query q(x) <- r(x)")
                    ends = threading.Event()
                    waiting = beside(keep_pipeline, stream, ends)
                    try:
                        taken = delays(asking, 1.5)
                    finally:
                        ends.set()
                    changes = waiting()
            most = 0.03 + (12 * sync if logs else 0)
            median = statistics.median(taken)
            said = f"{median * 1e3:.1f} ms in the median beside {changes} changes, a sync of {sync * 1e3:.2f} ms, with a log: {logs}"
            expect(median <= most, True, said)

        tries(one_try)


def arrivals(stream, count):
    """When the first and the last of so many lines were read."""
    first, left = None, count
    while left > 0:
        piece = stream.recv(1 << 16)
        expect(bool(piece), True, "the session goes on")
        first = first or time.monotonic()
        left -= piece.count(b"\n")
    return first, time.monotonic()


def answered_early(lines, count, prepare):
    """Beside costly lines of one session in one piece, a question that is at hand with them is answered in a small part of their time."""
    def one_try():
        with Serving() as serving:
            costly, asking = serving.client(), serving.client()
            prepare(costly)
            ask(asking, b"rel t int", b"query p(x) <- t(x)")
            with held_up(serving):
                reading = beside(arrivals, costly, count)
                costly.sendall(lines)
                asking.sendall(b"has p 7\n")
                expect(read_lines(asking, 1), [b"no"])
                answered = time.monotonic()
                begin, end = reading()
        part = (answered - begin) / (end - begin)
        expect(part <= 0.25, True, f"a question is answered after {part:.2f} of the time of all costly lines")

    tries(one_try)


@test
def a_question_isnt_answered_behind_a_wide_listing():
    def prepare(stream):
        ask(stream, b"rel w int", *(b"add w %d" % row for row in range(3)))

    # the union is that of the session by which the server is held up
    answered_early(b"open d u\n" + b"next d 1000\n" * 200, 1 + 200 * 1001, prepare)


@test
def a_question_isnt_answered_behind_queries_over_many_rows():
    def prepare(stream):
        ask(stream, b"rel s int int")
        for first in range(0, 100_000, 1000):
            told = ask(stream, b"batch", *(b"add s %d %d" % (row, row) for row in range(first, first + 1000)), b"done")
            expect(told[-1].split()[:2], [b"ok", b"done"])

    answered_early(b"query v(x,y) <- s(x,y)\ndrop v\n" * 100, 200, prepare)


# ---------------------------------------------------------------- writers, and what a log has of them


class Writer:
    """A client that inserts the rows `r NUMBER 1`, `r NUMBER 2` and so on, several of which are on their way."""

    def __init__(self, stream, number, before):
        stream.setblocking(False)
        self.stream, self.number, self.sent, self.acknowledged = stream, number, before, before
        self.due, self.told, self.seqs, self.ended = b"", b"", [], False

    def send(self):
        while self.sent - self.acknowledged < WINDOW:
            self.sent += 1
            self.due += b"add r %d %d\n" % (self.number, self.sent)
        try:
            if self.due:
                self.due = self.due[self.stream.send(self.due):]
        except BlockingIOError:
            pass
        except OSError:
            self.ended = True

    def hear(self):
        try:
            piece = self.stream.recv(1 << 16)
        except BlockingIOError:
            return
        except OSError:
            piece = b""
        self.ended = self.ended or not piece
        *lines, self.told = (self.told + piece).split(b"\n")
        for line in lines:
            words = line.split()
            expect((words[:2], words[3:]), ([b"ok", b"added"], [b"1"]), "a reply")
            self.seqs.append(int(words[2]))
            self.acknowledged += 1


def write_all(writers, until):
    """Each writer sends and hears, until a moment or until all have ended."""
    poll = select.epoll()
    places = {}
    for writer in writers:
        poll.register(writer.stream, select.EPOLLIN)
        places[writer.stream.fileno()] = writer
        writer.send()
    while time.monotonic() < until and not all(writer.ended for writer in writers):
        for place, _ in poll.poll(0.05):
            writer = places[place]
            writer.hear()
            if writer.ended:
                poll.unregister(writer.stream)
            else:
                writer.send()
    poll.close()


def drain(writers):
    """What arrives until the connections end."""
    for writer in writers:
        writer.stream.settimeout(PATIENCE)
        while not writer.ended:
            writer.hear()


BEGIN = [b"rel r int int", b"query q(w,n) <- r(w,n)"]


def begun(log):
    """A new log that has the writers' relation and query."""
    if os.path.exists(log):
        os.remove(log)
    schedule = b"open 1\n" + b"".join(b"say 1 %s\n" % line for line in BEGIN)
    expect(replayed(log, schedule)[0], [b"ok", b"ok query 5"], "a new log")


def replayed(log, schedule):
    words = [PROGRAM, "replay", "--log", log]
    done = subprocess.run(words, input=schedule, capture_output=True, timeout=PATIENCE, check=False)
    expect((done.returncode, done.stderr), (0, b""), "the log loads")
    return [line.partition(b"< ")[2] for line in done.stdout.splitlines()], done.stdout


def rows_in(log, most):
    """The number of changes, and the greatest row of each writer, which has all before it, that a log has."""
    pages = most // 1000 + 2
    told, _ = replayed(log, b"open 1\nsay 1 watch q\nsay 1 open c q\n" + b"say 1 next c 1000\n" * pages)
    rows = {}
    for line in told:
        if line.startswith(b"= "):
            writer, number = map(int, line.split()[1:])
            rows.setdefault(writer, set()).add(number)
    expect(told[-1], b"end", "all rows are listed")
    for writer, numbers in rows.items():
        expect(len(numbers), max(numbers), f"the rows of writer {writer} are the first ones that it sent")
    greatest = {writer: max(numbers) for writer, numbers in rows.items()}
    seq = int(told[0].split()[2])
    expect(sum(greatest.values()), seq, "rows and changes")
    return seq, greatest


def check_log(log, writers):
    """A log has what was acknowledged, and a first part of what was sent."""
    seq, greatest = rows_in(log, sum(writer.sent for writer in writers))
    for writer in writers:
        last = greatest.get(writer.number, 0)
        said = f"writer {writer.number} sent {writer.sent} rows, of which {writer.acknowledged} were acknowledged: there are {last}"
        expect(writer.acknowledged <= last <= writer.sent, True, said)
    seqs = [number for writer in writers for number in writer.seqs]
    expect(len(seqs), len(set(seqs)), "each change has a number of its own")
    expect(max(seqs, default=0) <= seq, True, f"change {max(seqs, default=0)} was acknowledged, and there are {seq}")
    return greatest


@test
def kills_beside_many_writers():
    draw = random.Random(ARGUMENTS.seed)
    changes = 0
    with folder() as here:
        log, greatest = os.path.join(here, "log"), {}
        for turn in range(ARGUMENTS.kills):
            if turn % KILLS_A_LOG == 0:
                begun(log)
                greatest = {}
            with Serving(log) as serving:
                writers = [Writer(serving.client(), at, greatest.get(at, 0)) for at in range(WRITERS)]
                write_all(writers, time.monotonic() + 0.02 + draw.random() * 0.2)
                serving.program.send_signal(signal.SIGKILL)
                expect(serving.end()[0], -signal.SIGKILL, "it went on until it was killed")
                drain(writers)
            changes += sum(len(writer.seqs) for writer in writers)
            greatest = check_log(log, writers)
    print(f"{ARGUMENTS.kills} kills beside {WRITERS} writers, {changes} acknowledged changes")
    expect(changes > 0, True, "changes were acknowledged")


# ---------------------------------------------------------------- disks that fail


def failed(call, log, reason):
    return f"djq: {call} the log {log} failed: {reason}\n".encode()


def ends_with_9(serving, log, call, reason):
    """A server whose disk fails beside writers. Nobody is sent anything of a commit that isn't logged."""
    writers = [Writer(serving.client(), at, 0) for at in range(WRITERS)]
    write_all(writers, time.monotonic() + PATIENCE)
    expect(all(writer.ended for writer in writers), True, "all sessions end")
    status, said = serving.end()
    expect((status, said.endswith(failed(call, log, reason))), (9, True), said)
    return writers


def syncs_of_a_start(here, log):
    """How many syncs a server makes before its first change."""
    trace = Trace(here)
    with Serving(log, trace.words) as serving:
        expect(ask(serving.client(), b"has q 1 1"), [b"no"])
        return trace.counts()["syncs"]


def failing(here, at):
    """The words below which the sync of this number fails, and each after it."""
    return Trace(here, "-e", f"inject=fsync,fdatasync:error=EIO:when={at}+").words


@test
def a_sync_that_fails_ends_serving_and_nothing_unlogged_is_sent():
    may_trace()
    reason = f"{os.strerror(errno.EIO)} (os error {errno.EIO})"
    with folder() as here:
        log = os.path.join(here, "log")
        begun(log)
        before = syncs_of_a_start(here, log)
        for further in (1, 2, 3, 4, 9, 20):
            begun(log)
            with Serving(log, failing(here, before + further)) as serving:
                writers = ends_with_9(serving, log, "syncing", reason)
            acknowledged = sum(len(writer.seqs) for writer in writers)
            expect((acknowledged > 0) == (further > 2), True, f"{acknowledged} changes are acknowledged at sync {further}")
            check_log(log, writers)


@test
def a_question_that_saw_what_isnt_logged_isnt_answered():
    """The question is of another session, in the same commit; both are at hand as the server is held up."""
    may_trace()
    with folder() as here:
        log, begin = os.path.join(here, "log"), os.path.join(here, "begin")
        begun(log)
        with Serving(log) as serving:
            prepare_listing(serving.client())
            expect(ask(serving.client(), b"stop"), [b"bye"])
            expect(serving.end()[0], 0)
        os.rename(log, begin)
        for at in range(2):
            shutil.copyfile(begin, log)
            before = syncs_of_a_start(here, log)
            with Serving(log, failing(here, before + 1 + at)) as serving:
                one, other, holding = serving.client(), serving.client(), serving.client()
                expect(ask(one, b"has q 7 7") + ask(other, b"has q 7 7"), [b"no", b"no"])
                holding.sendall(LISTING)
                read_lines(holding, 1)
                reading = beside(to_the_end, holding)
                one.sendall(b"add r 7 7\nhas q 7 7\n")
                other.sendall(b"has q 7 7\nadd r 8 8\n")
                told = to_the_end(one), to_the_end(other)
                reading()
                expect(serving.end()[0], 9, "the status")
            # the question may have been run before the row was inserted, but not be answered by what isn't logged
            expect(told in ((b"", b""), (b"", b"no\n")), True, f"what the two sessions are sent: {told}")


def with_limit(size):
    """The settings of a program whose files may have so many bytes."""
    return {"preexec_fn": lambda: resource.setrlimit(resource.RLIMIT_FSIZE, (size, size))}


@test
def a_limit_of_a_files_size_ends_serving_and_nothing_unlogged_is_sent():
    with folder() as here:
        log = os.path.join(here, "log")
        for limit in (112, 400, 1000, 4001, 20_000, 60_007):  # the log that is begun has 82 bytes
            begun(log)
            with Serving(log, **with_limit(limit)) as serving:
                writers = ends_with_9(serving, log, "writing", "it would pass the limit of a file's size")
            expect(os.path.getsize(log) <= limit, True, f"a limit of {limit} bytes")
            check_log(log, writers)


@contextlib.contextmanager
def small_disk(here, size):
    """A file system of so many bytes in memory."""
    place = os.path.join(here, "small")
    os.mkdir(place)
    words = ["mount", "-t", "tmpfs", "-o", f"size={size}", "tmpfs", place]
    done = subprocess.run(words, capture_output=True, check=False) if shutil.which("mount") else None
    if done is None or done.returncode:
        raise Skipped("no file system can be mounted")
    try:
        yield place
    finally:
        subprocess.run(["umount", place], check=True)


@test
def a_full_disk_ends_serving_and_nothing_unlogged_is_sent():
    reason = f"{os.strerror(errno.ENOSPC)} (os error {errno.ENOSPC})"
    with folder() as here, small_disk(here, 64 << 10) as place:
        log, copy = os.path.join(place, "log"), os.path.join(here, "copy")
        for _ in range(3):
            begun(log)
            with Serving(log) as serving:
                writers = ends_with_9(serving, log, "writing", reason)
            shutil.copyfile(log, copy)
            check_log(copy, writers)
            # once there is space again, it goes on at the same file
            subprocess.run(["mount", "-o", "remount,size=1m", place], check=True)
            expect(replayed(log, b"open 1\nsay 1 add r 99 1\n")[0][0][:9], b"ok added ", "a change after it")
            subprocess.run(["mount", "-o", "remount,size=64k", place], check=False)


# ---------------------------------------------------------------- all of them


def called(function):
    """Runs a test; one that can't look at what it is for is named."""
    begin = time.monotonic()
    try:
        function()
    except Skipped as reason:
        print(f"skipped: {function.__name__}: {reason}")
    if ARGUMENTS.times:
        print(f"{function.__name__}: {time.monotonic() - begin:.1f} s")


def main():
    words = argparse.ArgumentParser(description=__doc__.splitlines()[0])
    words.add_argument("program")
    words.add_argument("--kills", type=int, default=12, help="how often a server with writers is killed")
    words.add_argument("--seed", type=int, default=1)
    words.add_argument("--only", default="", help="only the tests with this in their name")
    words.add_argument("--times", action="store_true", help="print how long each test took")
    return words.parse_args()


if __name__ == "__main__":
    ARGUMENTS = main()
    PROGRAM = os.path.abspath(ARGUMENTS.program)
    sys.setswitchinterval(0.001)
    harness.TESTS[:] = [function for function in harness.TESTS if ARGUMENTS.only in function.__name__]
    sys.exit(run_tests(called, limit=-2))
