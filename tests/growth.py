#!/usr/bin/env python3
"""Out of memory is reported if the system refused some, and otherwise never: what no contract of the program can promise.

    tests/growth.py PATH_TO_DJQ

First without a limit of memory. The dialogues, the sessions of tests/memory.py, the logs of tests/logs and streams of
tests/random_driver.py go through `run`, `replay`, `serve` and `gen`: no reply is `err 12 memory`, no session ends with
`end memory`, and no status is that of no memory.

Then with tests/refuse.c preloaded, which refuses the Nth growth of memory alone, for each N of `run`, and for many N of
`serve` and `replay`. Exactly one refusal follows: the program ends as it starts, or one command is refused, or its session
ends; a delta that is refused ends all its watchers, and the schedule of a `replay` may be refused whole. After a refused
command the replies are those that the program gives to the session without that command, with stale cursors as the protocol
page describes. A growth at the start may be made good: the program asks again, and all replies are as if none was refused.

A build without proofs has an allocator of its own, which isn't refused anything: the second part is then skipped, and the
reason printed. One line is printed for each test that fails, and last `N passed, N failed`; the status is 0 if none failed.
Python's standard library and gcc are all it needs.
"""

import contextlib
import os
import re
import shutil
import socket
import struct
import subprocess
import sys
import tempfile
import threading
import time

sys.dont_write_bytecode = True
import harness  # noqa: E402
import memory  # noqa: E402
import model  # noqa: E402
import program  # noqa: E402
import random_driver  # noqa: E402
import serving  # noqa: E402
from harness import expect, test  # noqa: E402

# those modules have listed tests of their own
harness.TESTS.clear()

HERE = os.path.dirname(os.path.abspath(__file__))
PATIENCE = 60
NO_MEMORY = 6  # the status
# a delta that finds no memory is refused to all its watchers, whose sessions end one after another
REFUSAL = re.compile(rb"^(?:[0-9]+< )?(err 12 memory$|end memory(?:\n[0-9]+< end memory)*$)", re.MULTILINE)
ACCEPTED = re.compile(rb"^(?:[0-9]+< )?(?:ok|yes|no$|end$|more$|[=+-] )", re.MULTILINE)

# of random streams, at least: the lines in all, and the streams that a server is sent
RANDOM_LINES, SERVED_STREAMS = 30000, 8


# ---------------------------------------------------------------- without a limit

def memory_suffices(name, output, status=0, error=b""):
    """Fails if a refusal was sent or is the cause of the end. Returns the number of lines that accept something."""
    found = REFUSAL.search(output)
    expect(found and found[1], None, f"{name}: a line sent without a limit of memory")
    expect((status == NO_MEMORY, b"out of memory" in error), (False, False), f"{name}: status {status}, {error!r}")
    return len(ACCEPTED.findall(output))


def given(name, words, text):
    """Runs the program on a text. Returns as memory_suffices does."""
    done = subprocess.run([PROGRAM, *words], input=text, capture_output=True, timeout=PATIENCE, check=False)
    return memory_suffices(name, done.stdout, done.returncode, done.stderr)


def served(name, text):
    """Sends a text to a server, in one session, and reads as it sends. Returns as memory_suffices does."""
    with serving.Server(PROGRAM) as server:
        stream = socket.create_connection(("127.0.0.1", server.port), PATIENCE)
        sending = threading.Thread(target=sent, args=(stream, text))
        sending.start()
        with stream:
            output = received(stream)
            sending.join(PATIENCE)
        if server.process.poll() is None:
            # a server that the text has stopped may listen no longer and not have ended yet
            with contextlib.suppress(ConnectionRefusedError):
                sent(socket.create_connection(("127.0.0.1", server.port), PATIENCE), b"stop\n")
        return memory_suffices(name, output, server.process.wait(PATIENCE))


def sent(stream, text):
    """Sends a text, to the end of which a session may not read."""
    try:
        stream.sendall(text)
        stream.shutdown(socket.SHUT_WR)
    except OSError:
        pass


def received(stream):
    """All that comes until the end, which may be a reset if the server closes with bytes unread."""
    pieces = [b""]
    try:
        while piece := stream.recv(65536):
            pieces.append(piece)
    except ConnectionResetError:
        pass
    return b"".join(pieces)


def corpus():
    """The sessions that tests/ writes out: a name, the words of the command, and the input."""
    for command, name, lines, _ in program.dialogues():
        yield name, (command,), b"".join(line + b"\n" for line in lines)
    yield "each command", ("run",), program.lines_of(program.SESSION)
    for name, text in vars(memory).items():
        if name.isupper() and isinstance(text, bytes):
            yield name, ("replay" if text.startswith(b"open 1\n") else "run",), text
    yield "a load", ("gen", "300", "3"), b""


@test
def no_written_session_is_refused_memory():
    accepted = sessions = 0
    for name, words, text in corpus():
        accepted += given(name, words, text)
        sessions += 1
        if words[0] == "run":
            accepted += served(name, text)
    # a corpus that isn't found, or is refused whole, would show nothing
    expect(sessions > 25 and accepted > 1000, True, f"{sessions} sessions, {accepted} lines that accept")
    print(f"{sessions} written sessions without a limit: {accepted} lines that accept, none refused for memory")


@test
def no_schedule_over_a_log_is_refused_memory():
    logs = sorted(name for name in os.listdir(os.path.join(HERE, "logs")) if name.endswith(".log"))
    expect(len(logs) >= 3, True, logs)
    for name in logs:
        with tempfile.TemporaryDirectory() as folder:
            log = shutil.copy(os.path.join(HERE, "logs", name), folder)
            with open(os.path.join(HERE, "logs", name[:-len("log")] + "schedule"), "rb") as file:
                expect(given(name, ("replay", "--log", log), file.read()) > 0, True, name)


@test
def no_random_stream_is_refused_memory():
    lines = accepted = seed = at_server = 0
    while lines < RANDOM_LINES or at_server < SERVED_STREAMS:
        seed += 1
        word, pieces = random_driver.stream_of(seed)
        text = b"".join(pieces)
        words = (word, *text.decode().split()) if word == "gen" else (word,)
        accepted += given(f"seed {seed}", words, b"" if word == "gen" else text)
        if word == "run" and at_server < SERVED_STREAMS:
            accepted += served(f"seed {seed}, to a server", text)
            at_server += 1
        lines += len(pieces)
    expect(accepted > lines // 2, True, f"{accepted} lines that accept, of {lines}")
    print(f"{lines} random lines from seeds 1 to {seed} without a limit: {accepted} lines that accept, none refused for memory")


# ---------------------------------------------------------------- a session, and the same without one command

SESSION = memory.lines(b"""
rel orders int text
rel items int text
rel stock text int
add orders 1 "ann"
add orders 2 "bob"
add items 1 "bolt"
LONG
add items 2 "bolt"
add stock "bolt" 7
query bought(o,what) <- items(o,what)
open l bought
next l 1000
close l
query placed(o,who,what) <- orders(o,who), items(o,what)
query known(o,what) <- items(o,what), stock(what,_)
query late(o,what) <- items(o,what), o >= 2, what != "washer"
query bolts(o) <- items(o,"bolt")
query ring(x,y,z) <- items(x,y), stock(y,z), items(x,"gear"), orders(z,y), orders(x,y)
query twice(x,z) <- items(x,y), items(z,y)
union either known late
explain placed
explain either
shape placed
watch placed
watch either
open a placed
next a 2
next a 1000
open b either
next b 1000
open c known
next c 1
has placed 1 "ann" "bolt"
has either 9 "none"
add items 2 "nut"
next a 9
next b 9
next c 9
close a
close b
close c
open a placed
open d late
open e known
open f bolts
next f 1
add stock "nut" 3
add orders 1 "ann"
add orders 3 "cy"
next a 1000
next d 1
next e 1000
next f 1
close e
open e known
del items 1 "bolt"
del items 9 "no"
del orders 1 "ann"
next d 1000
next e 1
close a
open a placed
open g either
next a 3
batch
add orders 4 "dee"
add items 4 "bolt"
add items 4 "washer"
add stock "washer" 0
add orders 4 "dee"
done
next a 1000
next g 1000
close a
close g
open a placed
batch
add orders 5 "eve"
add items 5 "gear"
abandon
next a 1000
batch
add orders 4 "dee"
add orders 6 "flo"
done
next a 1000
batch
del items 4 "washer"
add items 4 "gear"
del orders 4 "dee"
add stock "gear" 2
del stock "gear" 2
done 5
next a 1000
next g 1000
close a
open a placed
batch
add items 6 "gear"
del orders 9 "no"
done
next a 1000
batch
add orders 4 "dee"
done
unwatch placed
close b
open b either
drop twice
drop ring
query ordered(x,y) <- orders(x,y)
query listed(x,y) <- items(x,y)
query stocked(x,y) <- stock(x,y)
open x ordered
open y listed
open z stocked
next x 1000
next y 1000
next z 1000
next b 1000
add orders 4 "dee"
add stock "gear" 1
next z 1
""").replace(b"LONG\n", b"".join(b'add items 1 "%s %d"\n' % (b"nut" * 80, at) for at in range(18)))

# what has to be refused by `err 12` for some N, and what by `end memory`, for the session to show what it should
REFUSED_WORDS = {b"rel", b"add", b"del", b"query", b"union", b"watch", b"open", b"has", b"hold", b"done"}
ENDED_WORDS = {b"next", b"explain", b"add", b"del", b"done"}

PART = re.compile(rb"[=+-] |at |n |m ")  # a line before the last of a reply


class Session:
    """The lines of a session, the program's reply to each, and what is open and buffered before each."""

    def __init__(self, lines, replies):
        self.lines, self.replies = lines, replies
        self.reads, self.cursors, self.held, self.seq = {}, {}, None, 0
        self.before = []
        for line, reply in zip(lines, replies):
            self.before.append((dict(self.cursors), None if self.held is None else list(self.held), self.seq))
            self.follow(line.split(b" "), line, reply[-1])

    def follow(self, words, line, last):
        if not last.startswith(b"ok"):
            if words[0] == b"done":
                self.held = None
        elif words[0] == b"query":
            self.reads[words[1].partition(b"(")[0]] = set(re.findall(rb"(\w+)\(", line.partition(b"<-")[2]))
        elif words[0] == b"union":
            self.reads[words[1]] = set().union(*(self.reads[member] for member in words[2:]))
        elif words[0] == b"open":
            self.cursors[words[1]] = self.reads[words[2]]
        elif words[0] == b"close":
            del self.cursors[words[1]]
        elif words[0] in (b"batch", b"done", b"abandon"):
            self.held = [] if words[0] == b"batch" else None
        elif last.startswith(b"ok held"):
            self.held.append(words[1])
        if re.match(rb"ok (added|removed|done) ", last):
            self.seq = int(last.split(b" ")[2])

    def staled(self, at, names):
        """The replies if a refusal before line `at` made stale the cursors of queries that read one of these relations."""
        cursors, _, seq = self.before[at]
        first = {cursor: next((name for name in names if name in read), None) for cursor, read in cursors.items()}
        replies = list(self.replies)
        for number in range(at, len(replies)):
            words, reply = self.lines[number].split(b" "), replies[number]
            if words[0] == b"next" and first.get(words[1]):
                earlier = reply[0].startswith(b"stale ") and int(reply[0].split(b" ")[3]) <= seq
                replies[number] = reply if earlier else [b"stale %s %s %d" % (words[1], first[words[1]], seq)]
            elif words[0] == b"close":
                first.pop(words[1], None)
        return replies


def grouped(output, name):
    """The replies of a session, each a list of lines."""
    replies, reply = [], []
    for line in model.lines_of(output):
        reply.append(line)
        if not PART.match(line):
            replies.append(reply)
            reply = []
    expect(reply, [], f"{name}: the end of a reply is missing")
    return replies


def comparable(lines, replies):
    """Replies without what the protocol leaves open: the order of a delta's lines and of answers, and which come first."""
    listed, compared = {}, []
    for line, reply in zip(lines, replies):
        words = line.split(b" ")
        if reply == [b"ok open"]:
            listed[words[1]] = []
        if words[0] == b"next" and reply[-1] in (b"more", b"end"):
            listed[words[1]] += reply[:-1]
            reply = [b"%d answers" % (len(reply) - 1), reply[-1]] + sorted(listed[words[1]] if reply[-1] == b"end" else [])
        compared.append(program.in_any_order(reply))
    return compared


class Refused:
    """The session, and the replies that are allowed for each of its commands that is refused for memory."""

    def __init__(self, lines):
        self.lines, self.known = lines, {}
        self.whole = self.replied(lines)
        self.before = Session(lines, self.whole).before

    @staticmethod
    def replied(lines):
        text = b"".join(line + b"\n" for line in lines)
        done = subprocess.run([PROGRAM, "run"], input=text, capture_output=True, timeout=PATIENCE, check=False)
        memory_suffices("without a refusal", done.stdout, done.returncode, done.stderr)
        replies = grouped(done.stdout, "without a refusal")
        expect(len(replies), len(lines), "replies without a refusal")
        return replies

    def kind(self, at):
        """The word of a command; a line that a batch holds is its own kind."""
        word = self.lines[at].split(b" ")[0]
        return b"hold" if word in (b"add", b"del") and self.before[at][1] is not None else word

    def allowed(self, at):
        """The lists of replies of which one follows if command `at` has the reply `err 12 memory`."""
        if at not in self.known:
            self.known[at] = [comparable(self.lines, replies) for replies in self.followed(at)]
        return self.known[at]

    def followed(self, at):
        kind = self.kind(at)
        # a refused `done` ends its batch too
        instead = [b"abandon"] if kind == b"done" else []
        lines = self.lines[:at] + instead + self.lines[at + 1:]
        session = Session(lines, self.replied(lines))
        first = at + len(instead)
        with_refusal = lambda replies: replies[:at] + [[b"err 12 memory"]] + replies[first:]
        if kind == b"done":
            return [with_refusal(session.staled(at, self.before[at][1]))]
        ways = [with_refusal(session.replies)]
        if kind == b"add" and self.whole[at][-1].endswith(b" 1"):
            # a new row: whether its line had been read shows only in what it made stale
            ways.append(with_refusal(session.staled(at, [self.lines[at].split(b" ")[1]])))
        return ways

    def follow(self, number, output, status):
        """Checks the replies after growth `number` was refused. Returns the kind of the command that was."""
        try:
            lines = model.lines_of(output)
            if lines[-1] == b"end memory":
                return self.ended(lines[:-1], status)
            return self.went_on(grouped(output, "after a refusal"), status)
        except AssertionError as difference:
            raise AssertionError(f"growth {number} refused: {difference}") from None

    def went_on(self, replies, status):
        expect((len(replies), status), (len(self.lines), 0), "replies after a refusal, and the status")
        at = replies.index([b"err 12 memory"])
        expect(comparable(self.lines, replies) in self.allowed(at), True,
               f"whether {self.lines[at]!r}, refused, leaves the session as it was: {replies[at:]}")
        return self.kind(at)

    def ended(self, lines, status):
        expect(status, NO_MEMORY, "the status after `end memory`")
        at, whole = 0, []
        while lines and at < len(self.whole) and len(self.whole[at]) <= len(lines):
            whole.append(lines[:len(self.whole[at])])
            lines = lines[len(self.whole[at]):]
            at += 1
        # the lines of a reply that broke off aren't complete
        expect(comparable(self.lines, whole), comparable(self.lines, self.whole[:at]), "replies before `end memory`")
        if at == len(self.whole):  # the session's input has ended, or it is another session
            return b""
        kind = self.kind(at)
        if kind == b"next":
            expect(set(lines) - set(self.whole[at][:-1]), set(), "a part of a listing before `end memory`")
        elif kind in (b"add", b"del", b"done"):
            expect(breaks_off(lines, self.whole[at][:-1]), True, f"{lines}, deltas before `end memory`")
        else:
            expect(lines, [], "a part of a reply before `end memory`")
        return kind if at or lines else b""


def breaks_off(lines, deltas):
    """Whether these are whole deltas, and lines of the next one without its last."""
    while deltas:
        size = next(at for at, line in enumerate(deltas) if line.startswith(b"at ")) + 1
        if len(lines) < size:
            return set(lines) <= set(deltas[:size - 1])
        if sorted(lines[:size]) != sorted(deltas[:size]):
            return False
        lines, deltas = lines[size:], deltas[size:]
    return lines == []


# ---------------------------------------------------------------- one growth refused

class Skipped(Exception):
    """Why nothing can be refused to this program."""


def refusable():
    """Skips a program that doesn't ask the C library for memory, so far as its file shows."""
    with open(PROGRAM, "rb") as file:
        held = file.read()
    if not held.startswith(b"\x7fELF"):
        raise Skipped("the program is started by a script, which would meet the refusals itself")
    if b"__asan_init" in held:
        raise Skipped("a build without proofs brings an allocator of its own, which isn't refused anything")


def unless_skipped(function):
    try:
        function()
    except Skipped as reason:
        print(f"skipped: {function.__name__}: {reason}")


def run_with(refusing, word):
    """How a command is run on a text with the Nth growth refused: what it writes, its status, growths met and refused."""
    return lambda text, number: refusing.run((word,), text, number)


def serve_with(refusing):
    """The same of a server: what it sends to a session that sends the text, and to others that stop it, until one does."""
    def serve(text, number):
        with open(refusing.counts, "wb") as file:
            file.write(bytes(16))
        told = dict(os.environ, LD_PRELOAD=refusing.library, REFUSE_FROM=str(number), REFUSE_COUNT=refusing.counts)
        with socket.create_server(("127.0.0.1", 0)) as free:
            port = free.getsockname()[1]
        words = [PROGRAM, "serve", f"127.0.0.1:{port}"]
        with subprocess.Popen(words, env=told, stderr=subprocess.DEVNULL) as server:
            try:
                output = session_of(server, port, text)
                while not output.endswith(b"bye\n") and server.poll() is None:
                    output += session_of(server, port, b"stop\n")
                status = server.wait(PATIENCE)
            finally:
                server.kill()
        with open(refusing.counts, "rb") as file:
            return output, status, *struct.unpack("QQ", file.read())
    return serve


def session_of(server, port, text):
    """All that a server sends to a session with this input; nothing if it has ended."""
    while server.poll() is None:
        try:
            with socket.create_connection(("127.0.0.1", port), PATIENCE) as stream:
                sent(stream, text)
                return received(stream)
        except ConnectionRefusedError:
            time.sleep(0.005)
    return b""


def each_refused(run, text, most):
    """For each N up to the number of growths, but not many more than `most` of them: N, what was written, the status, whether
    it is met at the start, and how it was made good, if it was: the program asked again, or it had wanted room for a further
    line of a commit, which then ends earlier, and went on as if nothing was refused."""
    whole, _, met, _ = run(text, 0)
    started = run(b"", 0)[2]
    expect(10 < started < met, True, f"{started} growths at the start, {met} in all")
    for number in [*range(1, started + 1), *range(started + 1, met + 1, max(1, (met - started) // most))]:
        output, status, asked, refused = run(text, number)
        expect(refused, 1, f"refusals of growth {number}")
        good = None
        if number <= started and (output, status, asked) == (whole, 0, met + 1):
            good = "asked again"
        elif number > started and (output, status) == (whole, 0):
            good = "commit ended"
        yield number, output, status, number <= started, good


def refusal_of(number, output, status, good):
    """How the refusal of a growth was reported. Fails unless exactly one refusal followed, or it was made good."""
    if good is not None:
        return good
    if (output, status) == (b"", NO_MEMORY):
        return "ended"
    found = REFUSAL.findall(output)
    expect(len(found), 1, f"refusals reported after that of growth {number}, status {status}: {output[-200:]!r}")
    return found[0].split(b"\n")[0].decode()


@test
def one_growth_refused_to_run_is_one_refusal():
    refusable()
    session, kinds, ways = Refused(SESSION.split(b"\n")[:-1]), {}, {}
    with memory.Refusing() as refusing:
        for number, output, status, starting, good in each_refused(run_with(refusing, "run"), SESSION, 1000):
            way = refusal_of(number, output, status, good)
            ways[way] = ways.get(way, 0) + 1
            if way in ("asked again", "ended", "commit ended"):
                expect((starting, way == "commit ended"), (True, False), f"growth {number}: {way}, after the start")
            else:
                kinds.setdefault(way, set()).add(session.follow(number, output, status))
    missed = REFUSED_WORDS - kinds["err 12 memory"], ENDED_WORDS - kinds["end memory"]
    expect(missed, (set(), set()), "commands that were never refused")
    print(f"run, one growth refused: {ways}")


@test
def one_growth_refused_to_serve_is_one_refusal():
    refusable()
    session, ways = Refused(SESSION.split(b"\n")[:-1]), {}
    with memory.Refusing() as refusing:
        for number, output, status, starting, good in each_refused(serve_with(refusing), SESSION, 150):
            way = refusal_of(number, output, status, good)
            ways[way] = ways.get(way, 0) + 1
            if way == "commit ended":
                continue
            if way in ("asked again", "ended"):
                expect(starting, True, f"growth {number}: {way}, after the start")
                continue
            # the server goes on: another session stops it, or the one after that if the refusal is to this one
            expect((output[-4:], status), (b"bye\n", 0), f"growth {number}: the last reply and the status")
            session.follow(number, output[:-4], NO_MEMORY if output[:-4].endswith(b"end memory\n") else status)
    expect(ways.get("err 12 memory", 0) > 50 and "end memory" in ways and ways.get("commit ended", 0) < 5, True, ways)
    print(f"serve, one growth refused: {ways}")


@test
def one_growth_refused_to_replay_is_one_refusal():
    refusable()
    ways = {}
    with memory.Refusing() as refusing:
        for number, output, status, _, good in each_refused(run_with(refusing, "replay"), memory.SCHEDULE, 300):
            way = refusal_of(number, output, status, good)
            ways[way] = ways.get(way, 0) + 1
            try:
                model.follow_replay(memory.SCHEDULE, output, status, memory=True)
            except model.Difference as difference:
                raise AssertionError(f"growth {number} refused: {difference}") from None
    expect(ways.get("err 12 memory", 0) > 50 and ways.get("end memory", 0) > 5 and ways.get("commit ended", 0) < 5, True, ways)
    print(f"replay, one growth refused: {ways}")


if __name__ == "__main__":
    if len(sys.argv) != 2:
        raise SystemExit(__doc__)
    PROGRAM = program.PROGRAM = memory.PROGRAM = os.path.abspath(sys.argv[1])
    sys.exit(harness.run_tests(unless_skipped))
