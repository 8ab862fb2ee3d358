"""The servers that are measured, each of the bench's own: in a temporary folder, on a free port of loopback, ended by its process."""

import os
import re
import shlex
import shutil
import socket
import subprocess
import sys
import time

HERE = os.path.dirname(os.path.abspath(__file__))
sys.path[1:1] = [os.path.join(HERE, ".."), os.path.join(HERE, "..", "wide")]
import bench  # noqa: E402
import engines  # noqa: E402

FURTHER = 10_000_000  # by which the integers of one load are greater than those of the load before
FIRST = 1_000_000_000


def missing_for(side):
    """The package that a side lacks, if any."""
    if side == "redis":
        return "" if shutil.which("redis-server") else "redis-server"
    return engines.missing_for("postgres") if side == "postgres" else ""


def compiled(folder, sides):
    """The drivers, each by its name."""
    made, wanted = {}, {"lines": [], "postgres": engines.DRIVERS["postgres"]}
    if not shutil.which("cc"):
        raise SystemExit("there is no C compiler: on Debian, apt-get install gcc")
    for name, words in wanted.items():
        if name == "lines" or "postgres" in sides:
            made[name] = os.path.join(folder, f"drive_{name}")
            command = ["cc", "-O2", "-o", made[name], os.path.join(HERE, name + ".c"), *words]
            done = subprocess.run(command, capture_output=True, text=True)
            if done.returncode:
                raise SystemExit(f"{name}.c isn't compiled:\n{done.stderr}")
    return made


# System calls


class Trace:
    """The system calls of a server that strace starts, in a file to which each is written at once."""

    KINDS = {
        "syncs": {"fsync", "fdatasync"},
        "sends": {"sendto", "sendmsg", "write", "writev"},
        "reads": {"recvfrom", "recvmsg", "read", "readv"},
        "waits": {"epoll_wait", "epoll_pwait", "epoll_pwait2", "poll", "ppoll", "select", "pselect6"},
    }
    LINE = re.compile(r"^(?:\d+ +)?(\w+)\((?:\d+<(\w*))?")
    EXPIRED = re.compile(r", [1-9]\d*(?:, NULL, \d+)?\) += 0\b")  # a wait of some time in which nothing happened

    def __init__(self, folder, kinds):
        self.path, self.kinds = os.path.join(folder, "calls"), kinds
        names = ",".join(sorted(name for kind in kinds for name in self.KINDS[kind]))
        # -D leaves the server a child of this process, and the filter stops it at no other calls
        self.words = ["strace", "-D", "-f", "--seccomp-bpf", "-qq", "-y", "-e", f"trace={names}", "-o", f"|exec cat >{shlex.quote(self.path)}"]

    def counts(self):
        """How many calls of each kind there were so far: sends and reads of sockets, and waits but those of an idle server."""
        size, until = -1, time.monotonic() + 2
        while size != os.path.getsize(self.path) and time.monotonic() < until:
            size = os.path.getsize(self.path)
            time.sleep(0.1)  # less than between two waits of an idle djq, which are written too
        counts = dict.fromkeys(self.kinds, 0)
        with open(self.path, encoding="utf-8", errors="replace") as file:
            for line in file:
                found = self.LINE.match(line)
                for kind in self.kinds if found else ():
                    of_socket = found[2] in ("socket", "TCP", "TCPv6")
                    is_meant = of_socket or kind == "syncs" or kind == "waits" and not self.EXPIRED.search(line)
                    counts[kind] += found[1] in self.KINDS[kind] and is_meant
        return counts


# The servers


class Server:
    """One that listens on loopback as long as a `with` block runs."""

    def __init__(self, folder, drivers, kinds=()):
        os.makedirs(folder)
        self.folder, self.drivers, self.first, self.trace = folder, drivers, FIRST, Trace(folder, kinds) if kinds else None
        with socket.create_server(("127.0.0.1", 0)) as free:
            self.port = free.getsockname()[1]

    def started(self, *words):
        words = [*(self.trace.words if self.trace else ()), *words]
        with open(os.path.join(self.folder, "said"), "w", encoding="utf-8") as said:
            return subprocess.Popen(words, cwd=self.folder, stdin=subprocess.DEVNULL, stdout=said, stderr=said)

    def connect(self):
        return bench.connected(self.port)

    def __exit__(self, *_):
        self.process.kill()
        self.process.wait()

    def load(self, connections, window, seconds):
        """The words of a driver that makes changes, none of which was made before."""
        self.first += FURTHER
        return [*self.driver("load"), str(connections), str(window), str(self.first), str(seconds)]

    def ask(self, seconds, least, most):
        """The words of a driver that asks for an integer, the first of the last load."""
        return [*self.driver("ask"), str(self.first), str(seconds), str(least), str(most)]


class Djq(Server):
    """`PROGRAM serve`, with a log where a side has one."""

    def __init__(self, folder, drivers, program, log, kinds=()):
        super().__init__(folder, drivers, kinds)
        self.words = [program, "serve", f"127.0.0.1:{self.port}", *(["--log", os.path.join(folder, "log")] if log else [])]

    def __enter__(self):
        self.process = self.started(*self.words)
        with self.connect() as client:
            told = bench.ask(client, b"rel r int\nquery q(x) <- r(x)\n", 2)
            bench.same(told, b"ok\nok query 3\n", "djq")
        return self

    def driver(self, what):
        return [self.drivers["lines"], what, "djq", str(self.port)]

    def changes(self):
        """How many changes there were so far."""
        with self.connect() as client:
            return int(bench.ask(client, b"watch q\nunwatch q\n", 2).split()[2])


class Redis(Server):
    """Redis that syncs its file of commands before it replies."""

    WORDS = ("--bind", "127.0.0.1", "--save", "", "--appendonly", "yes", "--appendfsync", "always", "--auto-aof-rewrite-percentage", "0")

    def __enter__(self):
        self.process = self.started("redis-server", "--port", str(self.port), "--dir", self.folder, *self.WORDS)
        with self.connect() as client:
            while not bench.ask(client, bench.spelled(b"PING")).startswith(b"+PONG"):
                time.sleep(0.05)
        return self

    def driver(self, what):
        return [self.drivers["lines"], what, "redis", str(self.port)]

    def changes(self):
        with self.connect() as client:
            return int(bench.ask(client, bench.spelled(b"SCARD", b"r"))[1:])


class Postgres(engines.Postgres):
    """PostgreSQL with `synchronous_commit`, and a table whose key is its one column."""

    SETTINGS = {**engines.Postgres.SETTINGS, "shared_buffers": "128MB", "max_connections": "50", "checkpoint_timeout": "1h"}

    def __init__(self, folder, drivers, kinds=()):
        super().__init__(os.path.dirname(os.path.dirname(folder)))  # beside the folder of the bench, which another user may not enter
        self.drivers, self.first = drivers, FIRST
        self.trace = Trace(self.folder, kinds) if kinds else None
        self.before = self.trace.words if kinds else ()

    def __enter__(self):
        super().__enter__()
        self.sql("postgres", "create table r (x bigint primary key);")
        return self

    load, ask = Server.load, Server.ask

    def driver(self, what):
        return [self.drivers["postgres"], what, self.words("postgres", "on")]

    def changes(self):
        return int(self.sql("postgres", "select count(*) from r"))
