#!/usr/bin/env python3
"""Where the built program meets the system: clients that don't read, requests of HTTP, disks and streams that fail.

    tests/edge.py PROGRAM [--instructions]

Clients that read nothing cost the others no call of the system. A connection that begins as one of HTTP does runs no
line, in whatever pieces it comes. A disk that fails is told with the call, the path and the reason; a log is its owner's
alone. Standard streams that never wait, signals and a limit of a file's size end nothing without a word. What is looked
at by strace is skipped, and named, where it isn't there or may not trace. `--instructions` counts by callgrind, too, what a
client that doesn't read costs another's change; it says something of a program that was proved and compiled for use.
One line is printed for each test that fails, and last `N passed, N failed`; the status is 0 where none failed.
"""

import argparse
import contextlib
import errno
import fcntl
import itertools
import os
import re
import resource
import shutil
import signal
import socket
import stat
import struct
import subprocess
import sys
import tempfile
import termios
import time

sys.dont_write_bytecode = True
from harness import expect, run_tests, test  # noqa: E402

ROOT = os.path.join(os.path.dirname(os.path.abspath(__file__)), "..")
PATIENCE = 60
STALLED = 60  # clients that don't read
CHANGES = 100  # of another client
MOST_INSTRUCTIONS = 100  # for each client that doesn't read, a change
HEADER = 9  # bytes of a log without lines


class Skipped(Exception):
    """Why a test can't look at what it is for, on this machine."""


def run(words, said=b"", **settings):
    """What the program writes, its status, and what it says on standard error."""
    done = subprocess.run([PROGRAM, *words], input=said, capture_output=True, timeout=PATIENCE, check=False, **settings)
    return done.stdout, done.returncode, done.stderr


@contextlib.contextmanager
def folder():
    with tempfile.TemporaryDirectory(prefix="djq-edge-") as made:
        yield os.path.realpath(made)


def limited(size):
    """The settings of a program whose files may have so many bytes. Past them the system ends it, as by default."""
    return {"preexec_fn": lambda: resource.setrlimit(resource.RLIMIT_FSIZE, (size, size))}


# ---------------------------------------------------------------- a server and its clients


class Serving:
    """A program that serves a port of loopback, below other words where some are given."""

    def __init__(self, *words, below=(), **settings):
        self.port = free_port()
        words = [*below, PROGRAM, "serve", f"127.0.0.1:{self.port}", *words]
        self.program = subprocess.Popen(words, stdin=subprocess.DEVNULL, stderr=subprocess.PIPE, **settings)
        self.streams = []

    def __enter__(self):
        return self

    def __exit__(self, *_):
        for stream in self.streams:
            stream.close()
        self.program.kill()
        self.program.communicate()

    def client(self, room=None):
        """A connection, which has room for so many bytes that it didn't read, or the system's choice."""
        until = time.monotonic() + PATIENCE
        while True:
            stream = socket.socket()
            if room:
                stream.setsockopt(socket.SOL_SOCKET, socket.SO_RCVBUF, room)
            stream.settimeout(PATIENCE)
            try:
                stream.connect(("127.0.0.1", self.port))
                self.streams.append(stream)
                return stream
            except ConnectionRefusedError:
                stream.close()
                if self.program.poll() is not None or time.monotonic() > until:
                    raise
                time.sleep(0.02)

    def end(self):
        """The status, and what it said on standard error."""
        said = self.program.communicate(timeout=PATIENCE)[1]
        return self.program.returncode, said


def free_port():
    """The first port of the test's own that is free."""
    for port in range(7501, 7600):
        with socket.socket() as tried:
            tried.setsockopt(socket.SOL_SOCKET, socket.SO_REUSEADDR, 1)
            with contextlib.suppress(OSError):
                tried.bind(("127.0.0.1", port))
                return port
    raise Skipped("no port from 7501 to 7599 is free")


def ask(stream, line, reply):
    """Sends a line and reads its reply, which is one line."""
    stream.sendall(line + b"\n")
    told = b""
    while not told.endswith(b"\n"):
        piece = stream.recv(65536)
        if not piece:
            break
        told += piece
    expect(told, reply + b"\n", line)


def to_the_end(stream):
    told = b""
    with contextlib.suppress(ConnectionResetError):
        while piece := stream.recv(65536):
            told += piece
    return told


# ---------------------------------------------------------------- what the system is asked


def traced(words, calls, *more):
    """The words that trace these calls of a program."""
    return ["strace", "-f", "-qq", "-e", f"trace={calls}", "-e", "signal=none", *more, *words]


def may_trace():
    """Skips a test where nothing can be traced."""
    if not shutil.which("strace"):
        raise Skipped("strace isn't there")
    done = subprocess.run(["strace", "-qq", "-e", "trace=none", "true"], capture_output=True, check=False)
    if done.returncode:
        raise Skipped(f"strace may not trace: {done.stderr.decode().strip()}")


class Tracing:
    """The calls that a process makes from now on, until the block's end."""

    def __init__(self, process):
        self.process = process

    def __enter__(self):
        self.file = tempfile.NamedTemporaryFile("r", prefix="djq-edge-")
        words = ["strace", "-f", "-qq", "-e", "trace=network,epoll_wait,poll", "-o", self.file.name, "-p", str(self.process)]
        self.strace = subprocess.Popen(words, stderr=subprocess.PIPE)
        until = time.monotonic() + PATIENCE
        while not tracer_of(self.process):
            if self.strace.poll() is not None:
                raise Skipped(f"strace may not attach: {self.strace.stderr.read().decode().strip()}")
            expect(time.monotonic() < until, True, "strace attaches")
            time.sleep(0.01)
        return self

    def __exit__(self, *_):
        self.strace.send_signal(signal.SIGINT)
        self.strace.communicate(timeout=PATIENCE)
        self.lines = self.file.read().splitlines()
        self.file.close()

    def count(self, call):
        return sum(f"{call}(" in line for line in self.lines)

    def refused(self):
        return sum("EAGAIN" in line and "sendto(" in line for line in self.lines)


def tracer_of(process):
    with open(f"/proc/{process}/status", encoding="ascii") as file:
        return int(re.search(r"TracerPid:\s*(\d+)", file.read())[1])


# ---------------------------------------------------------------- clients that don't read


def stalled_server(stalled, below=()):
    """A server with so many clients that have asked for more than any buffer takes, and read nothing; and one more."""
    serving = Serving(below=below)
    try:
        client = serving.client()
        ask(client, b"rel t text", b"ok")
        ask(client, b"rel r int", b"ok")
        ask(client, b"query q(x) <- t(x)", b"ok query 3")
        for number in range(1000):
            ask(client, b'add t "%d%s"' % (number, b"x" * 240), b"ok added %d 1" % (number + 1))
        for _ in range(stalled):
            deaf = serving.client(room=2048)
            deaf.sendall(b"open c q\nnext c 1000\nclose c\n" * 40)
        # as each turn serves all others first, all were served behind so many
        for number in range(100):
            ask(client, b"add r %d" % number, b"ok added %d 1" % (1001 + number))
        return serving, client
    except BaseException:
        serving.__exit__()
        raise


def change_often(client):
    for _ in range(CHANGES // 2):
        client.sendall(b"add r 7777\n")
        expect(client.recv(100)[:9], b"ok added ", "add")
        client.sendall(b"del r 7777\n")
        expect(client.recv(100)[:11], b"ok removed ", "del")


@test
def clients_that_dont_read_cost_no_call_of_the_system():
    may_trace()
    for stalled in (0, STALLED):
        serving, client = stalled_server(stalled)
        with serving:
            time.sleep(0.5)
            with Tracing(serving.program.pid) as tracing:
                change_often(client)
            sent = tracing.refused(), tracing.count("sendto")
            expect(sent, (0, CHANGES), f"refused sends, and sends, beside {stalled} that don't read")


@test
def a_client_that_reads_again_is_sent_the_rest():
    serving, client = stalled_server(0)
    with serving:
        slow = serving.client(room=2048)
        # as much as may be pending, and what the system takes beside it
        slow.sendall(b"open c q\nnext c 1000\nclose c\n" * 4 + b"has q \"none\"\n")
        for number in range(50):
            ask(client, b"del r %d" % number, b"ok removed %d 0" % (1101 + number))
        told = b""
        while not told.endswith(b"\nno\n"):
            piece = slow.recv(3000)
            if not piece:
                break
            told += piece
        lines = told.splitlines()
        answers = sum(line[:2] == b"= " for line in lines)
        expect((lines.count(b"ok open"), answers, lines[-1]), (4, 4000, b"no"), "what it read")
        ask(client, b"stop", b"bye")


def instructions(stalled):
    """What a change beside so many clients that don't read costs in instructions."""
    with tempfile.NamedTemporaryFile("r", prefix="djq-edge-") as told:
        counting = ["valgrind", "--tool=callgrind", "--instr-atstart=no", "--callgrind-out-file=/dev/null"]
        serving, client = stalled_server(stalled, (*counting, f"--log-file={told.name}"))
        with serving:
            for switch in ("on", "off"):
                words = ["callgrind_control", "-i", switch, str(serving.program.pid)]
                subprocess.run(words, check=True, capture_output=True)
                if switch == "on":
                    change_often(client)
            ask(client, b"stop", b"bye")
            serving.end()
        return int(re.search(r"Collected : (\d+)", told.read())[1]) / CHANGES


@test
def clients_that_dont_read_cost_few_instructions():
    if not ARGUMENTS.instructions:
        raise Skipped("without --instructions")
    if not shutil.which("valgrind") or not shutil.which("callgrind_control"):
        raise Skipped("valgrind isn't there")
    alone, beside = instructions(0), instructions(STALLED)
    each = (beside - alone) / STALLED
    print(f"a change takes {alone:,.0f} instructions alone, {beside:,.0f} beside {STALLED} that don't read: {each:.0f} each")
    expect(each <= MOST_INSTRUCTIONS, True, f"{each:.0f} instructions for each client that doesn't read")


# ---------------------------------------------------------------- requests of HTTP

HEADERS = b"\r\nHost: 127.0.0.1\r\nContent-Length: 99\r\n\r\n"


def requests():
    """How requests begin, and in which pieces they come."""
    for line in (b"PROPFIND /a HTTP/1.1", b"CONNECT a.example:443 HTTP/1.1", b"PRI * HTTP/2.0", b"LINK x HTTP/1.0",
                 b"M-SEARCH * HTTP/1.1", b"POST / HTTP/1.1", b"TRACE / HTTP/1.1 ", b"rel r int HTTP/1.1",
                 b"  PUT x HTTP/1.1"):
        yield [line + HEADERS]
    for empty in (b"\r\n", b"\n", b" \r\n\n ", b"\n" * 9000):
        yield [empty + b"POST / HTTP/1.1" + HEADERS]
        yield [empty, b"POST / HTTP/1.1" + HEADERS]
        yield [empty + b"QUERY /a HTTP/1.1" + HEADERS]
    whole = b"POST / HTTP/1.1" + HEADERS
    for cut in range(1, 18):
        yield [whole[:cut], whole[cut:]]
    yield [b"G", b"ET", b" ", b"/\n"]
    yield [whole[at:at + 1] for at in range(len(whole))]
    # as long as a line may be that is run
    long = b"COPY /" + b"a" * 4081 + b" HTTP/1.1\r\n"
    for cut in (3000, 4095, 4096, 4097):
        yield [long[:cut], long[cut:]]


@test
def a_request_of_http_runs_no_line_in_whatever_pieces():
    with Serving() as serving:
        client = serving.client()
        for number, pieces in enumerate(requests()):
            web = serving.client()
            web.setsockopt(socket.IPPROTO_TCP, socket.TCP_NODELAY, 1)
            with contextlib.suppress(BrokenPipeError, ConnectionResetError):
                for piece in pieces[:-1]:
                    web.sendall(piece)
                    time.sleep(0.02)
                web.sendall(pieces[-1] + b"rel h%d int\nquit\n" % number)
            told = to_the_end(web)
            expect(told, b"", pieces)
            web.close()
            ask(client, b"rel h%d int" % number, b"ok")
        ask(client, b"stop", b"bye")
        expect(serving.end()[0], 0)


@test
def a_first_line_that_is_no_request_is_run_in_whatever_pieces():
    long = b"add t \"" + b"x" * 5000
    with Serving() as serving:
        for pieces, reply in [
            ([b"r", b"el ", b"a int\nquit\n"], b"ok\nbye\n"),
            ([b"\n", b" ", b"\r\n", b"rel b int\r\nquit\n"], b"ok\nbye\n"),
            ([b"\r\n \n  rel c int\r\nquit\n"], b"ok\nbye\n"),
            ([b"GET\nquit\n"], b"err 1 syntax\nbye\n"),
            ([b"HTTP/1.\nquit\n"], b"err 1 syntax\nbye\n"),
            ([b"rel t text\nadd t \"GET / HTTP/1.1\"\nquit\n"], b"ok\nok added 1 1\nbye\n"),
            ([b"add t \"POST / HTTP/1.1\"\nPOST / HTTP/1.1\nquit\n"], b"ok added 2 1\nerr 1 syntax\nbye\n"),
            ([b"quit" + b" " * 4092, b"\r", b"\n"], b"bye\n"),
            ([long[:4000], long[4000:]], b"end long\n"),
            ([b"quit" + b" " * 4092 + b"\r", b" "], b"end long\n"),
            ([b"a" * 4097], b"end long\n"),
        ]:
            client = serving.client()
            for piece in pieces:
                client.sendall(piece)
                time.sleep(0.02)
            expect(to_the_end(client), reply, pieces)
        for text, reply in [(b"rel d", b"err 13 cut\n"), (b"\n \r\n", b""), (b"", b""), (b"POST", b"err 13 cut\n")]:
            client = serving.client()
            client.sendall(text)
            time.sleep(0.02)
            client.shutdown(socket.SHUT_WR)
            expect(to_the_end(client), reply, text)


# ---------------------------------------------------------------- the disk


def failed(call, path, reason, file="the log"):
    return f"djq: {call} {file} {path} failed: {reason}\n".encode()


def system_reason(number):
    return f"{os.strerror(number)} (os error {number})"


@test
def a_disk_that_fails_is_told_with_the_call_the_path_and_the_reason():
    with folder() as here:
        path = os.path.join(here, "none", "log")
        expect(run(["replay", "--log", path]), (b"", 9, failed("opening", path, "no such folder")))
        expect(run(["replay", "--log", here]), (b"", 9, failed("opening", here, system_reason(errno.EISDIR))))
        told, status, said = run(["replay", "--log", "/dev/full"])
        expect((told, status), (b"", 9), "/dev/full")
        # a start syncs before it looks at a file, and a device can't be synced
        expect(said.endswith(failed("syncing", "/dev/full", system_reason(errno.EINVAL))), True, said)
        log = os.path.join(here, "log")
        with Serving("--log", log) as serving:
            ask(serving.client(), b"rel r int", b"ok")
            expect(run(["replay", "--log", log]), (b"", 9, failed("locking", log, "locked by another process")))


@test
def a_log_is_made_for_its_owner_alone():
    with folder() as here:
        for umask in (0, 0o022, 0o277):
            log = os.path.join(here, f"log-{umask:o}")
            expect(run(["replay", "--log", log], preexec_fn=lambda: os.umask(umask)), (b"", 0, b""))
            expect(oct(stat.S_IMODE(os.stat(log).st_mode)), oct(0o600 & ~umask), f"umask {umask:o}")


@test
def behind_a_link_the_folder_of_the_file_is_synced():
    may_trace()
    with folder() as here:
        for name in ("links", "files"):
            os.mkdir(os.path.join(here, name))
        link, log = os.path.join(here, "links", "log"), os.path.join(here, "files", "made")
        os.symlink("../files/made", link)
        for path in (link, log, "made"):
            if os.path.exists(log):
                os.remove(log)
            trace = os.path.join(here, "trace")
            words = traced([PROGRAM, "replay", "--log", path], "fsync,fdatasync", "-y", "-o", trace)
            settings = {"capture_output": True, "timeout": PATIENCE, "cwd": os.path.dirname(log)}
            done = subprocess.run(words, input=b"", check=False, **settings)
            expect((done.stdout, done.returncode), (b"", 0), path)
            with open(trace, encoding="utf-8") as file:
                synced = re.findall(r"f(?:data)?sync\(\d+<(.*?)>\)\s+= 0", file.read())
            expect(set(synced), {os.path.dirname(log), log, f"{log}.new"}, path)


@test
def the_check_of_a_copy_says_whole_of_no_file_that_isnt_there():
    with open(os.path.join(ROOT, "docs", "OPERATIONS.md"), encoding="utf-8") as file:
        shown = re.findall(r"(\S.*)djq replay --log \S+ < /dev/null(?: && echo whole)?", file.read())
    expect([before for before in shown if "test -s " not in before], [], "checks that don't look first for a file")
    check = 'test -s "$2" && "$1" replay --log "$2" < /dev/null && echo whole'
    with folder() as here:
        log = os.path.join(here, "log")
        done = subprocess.run(["sh", "-c", check, "sh", PROGRAM, log], capture_output=True, timeout=PATIENCE, check=False)
        expect((done.stdout, os.path.exists(log)), (b"", False), "no file")
        run(["replay", "--log", log])
        done = subprocess.run(["sh", "-c", check, "sh", PROGRAM, log], capture_output=True, timeout=PATIENCE, check=False)
        expect(done.stdout, b"whole\n", "a log")


# ---------------------------------------------------------------- standard streams


def never_waits(pipe):
    fcntl.fcntl(pipe, fcntl.F_SETFL, fcntl.fcntl(pipe, fcntl.F_GETFL) | os.O_NONBLOCK)


def processor(process):
    """The seconds that a process was on a processor."""
    with open(f"/proc/{process}/schedstat", encoding="ascii") as file:
        return int(file.read().split()[0]) / 1e9


def unread(pipe):
    """How many bytes wait in a pipe."""
    return struct.unpack("i", fcntl.ioctl(pipe, termios.FIONREAD, bytes(4)))[0]


@test
def an_input_that_never_waits_is_waited_for():
    far, near = os.pipe()
    never_waits(far)
    program = subprocess.Popen([PROGRAM, "run"], stdin=far, stdout=subprocess.PIPE, stderr=subprocess.PIPE)
    os.close(far)
    try:
        for line, reply in [(b"rel r int\n", b"ok\n"), (b"add r 1\n", b"ok added 1 1\n"), (b"add r 1\n", b"ok added 1 2\n")]:
            time.sleep(0.3)
            expect(program.poll(), None, "it waits")
            os.write(near, line)
            expect(os.read(program.stdout.fileno(), 100), reply, line)
        spent = processor(program.pid)
        time.sleep(0.5)
        expect(processor(program.pid) - spent < 0.1, True, "it sleeps as it waits")
    finally:
        os.close(near)
        told, said = program.communicate(timeout=PATIENCE)
    expect((told, program.returncode, said), (b"", 0, b""))


@test
def an_output_that_never_waits_is_waited_for():
    far, near = os.pipe()
    never_waits(near)
    said = b"rel r int\nquery q(x) <- r(x)\n" + b"".join(b"add r %d\n" % number for number in range(1000))
    said += b"open c q\nnext c 1000\nclose c\n" * 100
    program = subprocess.Popen([PROGRAM, "run"], stdin=subprocess.PIPE, stdout=near, stderr=subprocess.PIPE)
    os.close(near)
    with os.fdopen(far, "rb") as reader:
        program.stdin.write(said)
        program.stdin.close()
        until, before = time.monotonic() + PATIENCE, -1
        while program.poll() is None and (unread(far) < 16384 or unread(far) != before):
            expect(time.monotonic() < until, True, "the pipe is filled")
            before = unread(far)
            time.sleep(1)
        expect(program.poll(), None, "it waits")
        told = reader.read()
    status, errors = program.wait(PATIENCE), program.stderr.read()
    program.stderr.close()
    expect((status, errors), (0, b""))
    expect((told.count(b"= "), told.count(b"\n")), (100000, 1002 + 100 * 1003), "all that was due")


def interrupted(call, shown, words, said):
    """What a program does whose first call of this kind, with this in its line, is interrupted by a signal."""
    with folder() as here:
        trace = os.path.join(here, "trace")
        log = os.path.join(here, "log")
        words = [word.replace("LOG", log) for word in words]
        run(["replay", "--log", log], b"open 1\nsay 1 rel r int\n")
        with open(log, "rb") as file:
            kept = file.read()
        settings = {"input": said, "capture_output": True, "timeout": PATIENCE}
        subprocess.run(traced([PROGRAM, *words], call, "-y", "-o", trace), check=False, **settings)
        with open(trace, encoding="utf-8", errors="replace") as file:
            lines = [line for line in file if f"{call}(" in line]
        at = next((number for number, line in enumerate(lines, 1) if shown.replace("LOG", log) in line), None)
        expect(at is not None, True, f"{call} of {shown}")
        with open(log, "wb") as file:
            file.write(kept)
        words = traced([PROGRAM, *words], call, "-o", trace, "-e", f"inject={call}:error=EINTR:when={at}")
        done = subprocess.run(words, check=False, **settings)
        with open(trace, encoding="utf-8", errors="replace") as file:
            expect("EINTR" in file.read(), True, f"{call} is interrupted")
        return done.stdout, done.returncode, done.stderr


@test
def a_signal_ends_no_read_and_no_write():
    may_trace()
    expect(interrupted("read", "read(0<", ["run"], b"rel r int\n"), (b"ok\n", 0, b""), "the input")
    expect(interrupted("write", "write(1<", ["run"], b"rel r int\n"), (b"ok\n", 0, b""), "the output")
    schedule = b"open 1\nsay 1 add r 1\n"
    for call in ("pread64", "pwrite64"):
        expect(interrupted(call, "<LOG>", ["replay", "--log", "LOG"], schedule), (b"1< ok added 1 1\n", 0, b""), call)


# ---------------------------------------------------------------- a limit of a file's size

LIMIT_SAID = "it would pass the limit of a file's size"


@test
def a_write_of_the_log_past_the_limit_isnt_made():
    with folder() as here:
        log = os.path.join(here, "log")
        for limit in (0, HEADER - 1):
            done = run(["replay", "--log", log], **limited(limit))
            expect(done, (b"", 9, failed("writing", log, LIMIT_SAID, "the new log")), f"a limit of {limit}")
            expect(os.path.getsize(log), 0, "nothing was written, so a later start takes it")
        expect(run(["replay", "--log", log], b"open 1\nsay 1 rel r int\n"), (b"1< ok\n", 0, b""))
        empty = os.path.getsize(log)
        for limit in range(65, 125, 12):  # a log with the relation has 37 bytes, and each row 26 more
            with Serving("--log", log, **limited(limit)) as serving:
                client = serving.client()
                count, answered = 0, True
                while answered:  # one after the other, so that each is a commit of its own
                    client.sendall(b"add r %d\n" % count)
                    answered = b"ok added" in client.recv(4096)
                    count += answered
                status, said = serving.end()
            expect((status, said.endswith(failed("writing", log, LIMIT_SAID))), (9, True), f"a limit of {limit}: {said}")
            expect(empty < os.path.getsize(log) <= limit, True, f"a limit of {limit}")
            asked = b"open 1\nsay 1 query q(x) <- r(x)\nsay 1 open c q\nsay 1 next c 1000\n"
            told, status, said = run(["replay", "--log", log], asked)
            rows = {int(row) for row in re.findall(rb"^1< = (\d+)$", told, re.MULTILINE)}
            expect((status, said), (0, b""), f"a limit of {limit}: the log is whole")
            expect(rows in (set(range(count)), set(range(count + 1))), True, f"{count} were answered, and there are {rows}")
            os.truncate(log, 0)
            run(["replay", "--log", log], b"open 1\nsay 1 rel r int\n")


@test
def a_log_past_the_limit_says_so():
    with folder() as here:
        log = os.path.join(here, "log")
        run(["replay", "--log", log], b"open 1\nsay 1 rel r int\n")
        expect(run(["replay", "--log", log], b"open 1\nsay 1 add r 1\n", **limited(os.path.getsize(log))),
               (b"", 9, failed("writing", log, LIMIT_SAID)))
        expect(run(["replay", "--log", log], b"open 1\nsay 1 add r 1\n"), (b"1< ok added 1 1\n", 0, b""))


def written_to(file, said, limit):
    """`run`, whose output goes into a file, of which there may be so many bytes."""
    settings = {"input": said, "stdout": file, "stderr": subprocess.PIPE, "timeout": PATIENCE}
    return subprocess.run([PROGRAM, "run"], check=False, **settings, **limited(limit))


@test
def a_write_of_the_output_past_the_limit_isnt_made():
    said = b"rel r int\n" * 20
    whole = b"ok\n" + b"err 2 taken\n" * 19
    lines = whole.splitlines(keepends=True)
    ends = list(zip(itertools.accumulate(map(len, lines)), lines))
    fault = f"djq: the standard output can't be written: {LIMIT_SAID}\n".encode()
    with folder() as here:
        path = os.path.join(here, "output")
        for how, before in (("wb", b""), ("ab", b""), ("ab", b"x" * 90), ("ab", b"x" * 100), ("ab", b"x" * 200)):
            with open(path, "wb") as file:
                file.write(before)
            with open(path, how) as file:
                done = written_to(file, said, 100)
            with open(path, "rb") as file:
                told = file.read()
            expect((done.returncode, done.stderr), (3, fault), f"behind {len(before)} bytes")
            fits = [line for end, line in ends if len(before) + end <= 100]
            expect(told, before + b"".join(fits), f"behind {len(before)} bytes")
        # what is no file has no limit
        expect(run(["run"], said, **limited(0)), (whole, 0, b""), "a pipe")
        with open("/dev/null", "wb") as null:
            done = written_to(null, said, 0)
        expect((done.returncode, done.stderr), (0, b""), "/dev/null")


# ---------------------------------------------------------------- all of them


def called(function):
    """Runs a test; one that can't look at what it is for is named."""
    try:
        function()
    except Skipped as reason:
        print(f"skipped: {function.__name__}: {reason}")


def main():
    words = argparse.ArgumentParser(description=__doc__.splitlines()[0])
    words.add_argument("program")
    words.add_argument("--instructions", action="store_true", help="count what clients that don't read cost")
    words.add_argument("--only", help="only the tests with this in their name")
    return words.parse_args()


if __name__ == "__main__":
    ARGUMENTS = main()
    PROGRAM = os.path.abspath(ARGUMENTS.program)
    if ARGUMENTS.only:
        import harness

        harness.TESTS[:] = [function for function in harness.TESTS if ARGUMENTS.only in function.__name__]
    sys.exit(run_tests(called, limit=-2))
