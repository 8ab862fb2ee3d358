"""The drivers, compiled, and a PostgreSQL server of the bench's own: in a temporary folder, on loopback, stopped by its process."""

import glob
import os
import pwd
import shutil
import signal
import socket
import subprocess
import tempfile
import time

HERE = os.path.dirname(os.path.abspath(__file__))
DRIVERS = {"djq": [], "sqlite": ["-lsqlite3"], "postgres": ["-I/usr/include/postgresql", "-lpq"]}
DRIVER_OF = {"run": "djq", "tcp": "djq", "log": "djq", "hand": "djq", "sqlite": "sqlite", "postgres": "postgres", "synced": "postgres"}
HEADERS = {"djq": "", "sqlite": "/usr/include/sqlite3.h", "postgres": "/usr/include/postgresql/libpq-fe.h"}
PACKAGES = {"djq": "gcc", "sqlite": "libsqlite3-dev", "postgres": "libpq-dev"}
SECONDS = 60


def folder_of_postgres():
    """Where PostgreSQL's programs are; none where it isn't installed."""
    found = sorted(glob.glob("/usr/lib/postgresql/*/bin/postgres"))
    return os.path.dirname(found[-1]) if found else None


def missing_for(side):
    """The package that a side lacks, if any."""
    driver = DRIVER_OF[side]
    if not shutil.which("cc"):
        return "gcc"
    if HEADERS[driver] and not os.path.exists(HEADERS[driver]):
        return PACKAGES[driver]
    if driver == "postgres" and not folder_of_postgres():
        return "postgresql"
    if driver == "postgres" and os.getuid() == 0 and not known_user("postgres"):
        return "a user postgres, as it doesn't run as root,"
    return ""


def known_user(name):
    try:
        return pwd.getpwnam(name)
    except KeyError:
        return None


def compiled(folder, sides):
    """The drivers of some sides, each by its name."""
    made = {}
    for name in dict.fromkeys(DRIVER_OF[side] for side in sides):
        made[name] = os.path.join(folder, name)
        done = subprocess.run(["cc", "-O2", "-o", made[name], os.path.join(HERE, name + ".c"), *DRIVERS[name]], capture_output=True, text=True)
        if done.returncode:
            raise SystemExit(f"{name}.c isn't compiled:\n{done.stderr}")
    return made


class Postgres:
    """A server that is there as long as a `with` block runs; started by another program where its words are given before."""

    before = ()
    SETTINGS = {"fsync": "on", "shared_buffers": "512MB", "max_wal_size": "4GB", "autovacuum": "off", "listen_addresses": "127.0.0.1",
                "max_connections": "20", "jit": "off"}

    def __init__(self, disk=None):
        self.programs = folder_of_postgres()
        self.user = "postgres" if os.getuid() == 0 else None
        self.folder = tempfile.mkdtemp(dir=disk)
        if self.user:
            shutil.chown(self.folder, self.user)

    def program(self, name, *words, **more):
        return subprocess.run([os.path.join(self.programs, name), *words], user=self.user, check=True, capture_output=True, text=True,
                              cwd=self.folder, **more).stdout

    def __enter__(self):
        self.data = os.path.join(self.folder, "data")
        self.program("initdb", "-D", self.data, "-A", "trust", "-U", "wide", "-E", "UTF8", "--no-locale", "--no-sync")
        with socket.create_server(("127.0.0.1", 0)) as free:
            self.port = free.getsockname()[1]
        words = [word for name, value in self.SETTINGS.items() for word in ("-c", f"{name}={value}")]
        with open(os.path.join(self.folder, "said"), "w", encoding="utf-8") as said:
            program = os.path.join(self.programs, "postgres")
            self.process = subprocess.Popen([*self.before, program, "-D", self.data, "-p", str(self.port), "-k", self.folder, *words], user=self.user,
                                            cwd=self.folder, stdin=subprocess.DEVNULL, stdout=said, stderr=said)
        try:
            self.await_ready()
        except BaseException:
            self.stop()
            raise
        return self

    def await_ready(self):
        end = time.monotonic() + SECONDS
        while subprocess.run([os.path.join(self.programs, "pg_isready"), "-q", "-h", "127.0.0.1", "-p", str(self.port)]).returncode:
            if time.monotonic() > end or self.process.poll() is not None:
                raise SystemExit("PostgreSQL doesn't start")
            time.sleep(0.1)

    def __exit__(self, *_):
        self.stop()

    def stop(self):
        if self.process.poll() is None:
            self.process.send_signal(signal.SIGINT)
            self.process.wait(SECONDS)
        shutil.rmtree(self.folder, ignore_errors=True)

    def words(self, base, wait):
        """What a driver connects by."""
        return f"host=127.0.0.1 port={self.port} user=wide dbname={base} options='-c synchronous_commit={wait}'"

    def sql(self, base, text):
        return self.program("psql", "-h", "127.0.0.1", "-p", str(self.port), "-U", "wide", "-d", base, "-v", "ON_ERROR_STOP=1", "-q", "-At",
                            input=text)

    def has(self, base):
        return self.sql("postgres", f"select 1 from pg_database where datname = '{base}'") != ""

    def sizes(self, base):
        """The bytes of each table, its indexes among them."""
        rows = self.sql(base, "select relname, pg_total_relation_size(oid) from pg_class where relkind = 'r' and relnamespace = 'public'::regnamespace")
        return {name: int(size) for name, size in (row.split("|") for row in rows.splitlines())}
