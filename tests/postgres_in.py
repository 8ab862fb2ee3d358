#!/usr/bin/env python3
"""Tests of what reads PostgreSQL's replication (djq.pgoutput, djq.postgres_types, djq.postgres_tables, djq.postgres_rows,
djq.postgres_stream), beside a PostgreSQL 15 of their own on loopback.

    python3 tests/postgres_in.py PROGRAM [NAME ..]

It needs Debian's postgresql-15 and python3-psycopg2; PROGRAM isn't run. Without them those tests are skipped by name that
need them; with DJQ_NEIGHBOURS=1 in the environment they fail. Run as root, PostgreSQL is run as the user postgres. It is
ended by its id. A line is printed for each test that fails or is skipped, and last `N passed, N failed`, with `, N skipped`;
the status is 0 where none failed. With TIMES=1 in the environment it says how long each took.
"""

import collections
import contextlib
import datetime
import decimal
import glob
import importlib.util
import os
import random
import shutil
import signal
import socket
import struct
import subprocess
import sys
import tempfile
import threading
import time
import traceback
import uuid

OTHER = "/usr/bin/python3"  # which Debian's packages are for


def change_python():
    """Goes on in the system's Python if that has psycopg2, and this one hasn't."""
    if importlib.util.find_spec("psycopg2") is None and os.path.realpath(sys.executable) != os.path.realpath(OTHER):
        asked = [OTHER, "-c", "import psycopg2"]
        if os.path.exists(OTHER) and subprocess.run(asked, stderr=subprocess.DEVNULL).returncode == 0:
            os.execv(OTHER, [OTHER, *sys.argv])


if __name__ == "__main__":
    change_python()

from harness import expect
from serving import SECONDS, raises

from djq import pgoutput, postgres_tables
from djq.pgoutput import UNCHANGED, Begin, Column, Commit, Delete, Insert, NotDecoded, Origin, Relation, Truncate, Type, Update
from djq.postgres_rows import TableRows, take
from djq.postgres_stream import Stream, connect, number_of, place_of, seeing
from djq.postgres_tables import published, read_answers, read_rows, split_row, type_names
from djq.postgres_types import Unfit, days_of, mapping_of, numeric_reader, read_date, read_timestamp

BINARIES = "/usr/lib/postgresql/15/bin"
PATIENT = 6 * SECONDS
LACKS = [name for name, there in {
    "postgresql-15": os.path.exists(f"{BINARIES}/postgres"), "python3-psycopg2": importlib.util.find_spec("psycopg2"),
}.items() if not there]  # fmt: skip

TESTS = []


def test(function):
    """A test without a PostgreSQL."""
    TESTS.append((function, False))
    return function


def beside(function):
    """A test that is given a PostgreSQL."""
    TESTS.append((function, True))
    return function


class Postgres:
    """A PostgreSQL on a free port of loopback, in a folder of its own."""

    def __init__(self):
        with socket.create_server(("127.0.0.1", 0)) as free:
            self.port = free.getsockname()[1]
        self.folder = tempfile.mkdtemp()
        self.front = []
        if os.getuid() == 0:
            shutil.chown(self.folder, "postgres")
            self.front = ["setpriv", "--reuid", "postgres", "--regid", "postgres", "--init-groups"]
        self.data = os.path.join(self.folder, "data")
        self.process = None
        self.databases = 0

    def __enter__(self):
        words = ["initdb", "-D", self.data, "-A", "trust", "-U", "postgres", "--no-sync", "-E", "UTF8", "--locale=C"]
        self.run(*words)
        try:
            self.start()
        except BaseException:
            self.__exit__()
            raise
        return self

    def start(self):
        """Starts it, also after it was killed: what it left then has to end first."""
        settings = {"wal_level": "logical", "fsync": "off", "max_connections": "40", "shared_buffers": "16MB"}
        words = [f"{BINARIES}/postgres", "-D", self.data, "-k", self.folder, "-h", "127.0.0.1", "-p", str(self.port)]
        words += [word for name, value in settings.items() for word in ("-c", f"{name}={value}")]
        until = time.monotonic() + PATIENT
        while True:
            with open(os.path.join(self.folder, "out"), "a") as out:
                self.process = subprocess.Popen([*self.front, *words], stdout=out, stderr=out, cwd=self.folder)
            if self.wait():
                return
            assert time.monotonic() < until, "PostgreSQL doesn't start"

    def kill(self):
        self.process.kill()
        self.process.wait(PATIENT)

    def wait(self):
        """Waits until it can be used; false if it ends."""
        until = time.monotonic() + PATIENT
        while self.process.poll() is None:
            try:
                connect(self.dsn("postgres")).close()
                return True
            except Exception:  # noqa: BLE001
                assert time.monotonic() < until, "PostgreSQL doesn't answer"
                time.sleep(0.1)
        return False

    def __exit__(self, *_):
        if self.process is not None and self.process.poll() is None:
            self.process.send_signal(signal.SIGQUIT)
            self.process.wait(PATIENT)
        shutil.rmtree(self.folder)

    def run(self, *words):
        done = subprocess.run([*self.front, f"{BINARIES}/{words[0]}", *words[1:]], capture_output=True, text=True, cwd=self.folder)
        expect(done.returncode, 0, done.stdout + done.stderr)

    def dsn(self, database):
        return f"host=127.0.0.1 port={self.port} user=postgres dbname={database}"

    @contextlib.contextmanager
    def database(self):
        """A new database: what connects to it, and a connection that commits each command."""
        self.databases += 1
        name = f"d{self.databases}"
        with contextlib.closing(connect(self.dsn("postgres"))) as first:
            first.autocommit = True
            first.cursor().execute(f"CREATE DATABASE {name}")
        with contextlib.closing(connect(self.dsn(name))) as sql:
            sql.autocommit = True
            yield self.dsn(name), sql.cursor()


@contextlib.contextmanager
def streaming(dsn, publication="pub", slot=None):
    """A slot whose stream has begun. It is dropped at the end."""
    slot = slot or f"s{random.randrange(10**9)}"
    with Stream(dsn, slot) as stream:
        made = stream.create()
        stream.start(publication, made.point)
        yield stream
    drop(dsn, slot)


def drop(dsn, slot):
    until = time.monotonic() + PATIENT
    while True:
        try:
            with Stream(dsn, slot) as stream:
                return stream.drop()
        except Exception:  # noqa: BLE001
            assert time.monotonic() < until
            time.sleep(0.05)


def transaction(stream):
    """The messages of the next transaction."""
    told = []
    while not told or not isinstance(told[-1], Commit):
        message = stream.next(PATIENT)
        assert message is not None, "nothing came"
        told.append(message)
    return told


def columns_of(relation):
    return [(column.name, column.in_identity) for column in relation.columns]


# Without a PostgreSQL


@test
def messages_are_decoded():
    long, name = struct.Struct(">Q").pack, lambda text: text.encode() + b"\0"
    some = b"\0\2" + b"t" + struct.pack(">I", 3) + "ä7".encode() + b"n"
    for data, message in (
        (b"B" + long(2**40) + struct.pack(">qI", -1, 9), Begin(2**40, 946_684_799_999_999, 9)),
        (b"C\0" + long(1) + long(2) + struct.pack(">q", 5), Commit(1, 2, 946_684_800_000_005)),
        (b"O" + long(7) + name("away"), Origin(7, "away")),
        (b"Y" + struct.pack(">I", 70000) + name("public") + name("mood"), Type(70000, "public", "mood")),
        (b"R" + struct.pack(">I", 5) + name("") + name("t") + b"f" + b"\0\1" + b"\1" + name("a") + struct.pack(">Ii", 23, -1),
         Relation(5, "pg_catalog", "t", "f", (Column("a", 23, -1, True),))),
        (b"I\0\0\0\5N" + some, Insert(5, ("ä7", None))),
        (b"U\0\0\0\5N\0\1u", Update(5, None, None, (UNCHANGED,))),
        (b"U\0\0\0\5K" + some + b"N" + some, Update(5, ("ä7", None), None, ("ä7", None))),
        (b"U\0\0\0\5O" + some + b"N" + some, Update(5, None, ("ä7", None), ("ä7", None))),
        (b"D\0\0\0\5K" + some, Delete(5, ("ä7", None), None)),
        (b"D\0\0\0\5O" + some, Delete(5, None, ("ä7", None))),
        (b"T\0\0\0\2\3\0\0\0\5\0\0\0\6", Truncate((5, 6), True, True)),
    ):  # fmt: skip
        expect(pgoutput.decode(data), message, data)
        for end in range(len(data)):
            raises(NotDecoded, lambda: pgoutput.decode(data[:end]))
        raises(NotDecoded, lambda: pgoutput.decode(data + b"\0"))
    for data in (b"M\0", b"S\0\0\0\1\1", b"I\0\0\0\5O" + some, b"D\0\0\0\5N" + some, b"I\0\0\0\5N\0\1b\0\0\0\1\7", b"I\0\0\0\5N\0\1t\0\0\0\1\xff"):
        raises(NotDecoded, lambda: pgoutput.decode(data))


@test
def places_of_the_log():
    for number, place in ((0, "0/0"), (2**32 + 255, "1/FF"), (2**64 - 1, "FFFFFFFF/FFFFFFFF")):
        expect((place_of(number), number_of(place)), (place, number))


@test
def days_are_those_of_the_calendar():
    first = datetime.date(1970, 1, 1)
    draw = random.Random(1)
    for _ in range(2000):
        day = datetime.date.fromordinal(draw.randrange(1, 3_652_060))
        expect(days_of(day.year, day.month, day.day), (day - first).days, day)
        expect(read_date(day.isoformat()), (day - first).days)
    expect(days_of(-4712, 1, 1), days_of(-4711, 1, 1) - 366)
    for text in ("infinity", "2024-1-1", "01/02/2024"):
        raises(ValueError, lambda: read_date(text))
    for text in ("infinity", "2024-01-01 00:00:00+01", "2024-01-01"):
        raises(ValueError, lambda: read_timestamp(text))
    for scale, text, value in ((2, "-1.50", -150), (0, "7", 7), (3, "0.001", 1), (3, "-0.010", -10), (2, "5", 500), (-2, "-1200", -12), (-2, "0", 0)):
        expect(numeric_reader(scale)(text), value)
    for text in ("NaN", "1.505", "", "1e5"):
        raises(ValueError, lambda: numeric_reader(2)(text))


@test
def rows_of_copy_are_split():
    expect(split_row("1\t\\N\t\tx\\ty\\\\z\\nä"), ("1", None, "", "x\ty\\z\nä"))


# The stream


@beside
def each_kind_of_message(postgres):
    with postgres.database() as (dsn, sql):
        sql.execute("CREATE TYPE mood AS ENUM ('sad', 'glad'); CREATE TABLE t (a int PRIMARY KEY, b text, m mood)")
        sql.execute("ALTER TABLE t ALTER b SET STORAGE EXTERNAL; CREATE PUBLICATION pub FOR TABLE t")
        with streaming(dsn) as stream:
            sql.execute("INSERT INTO t VALUES (1, repeat('x', 9000), 'sad'), (2, NULL, 'glad')")
            begin, kind, definition, one, two, commit = transaction(stream)
            expect((kind.schema, kind.name), ("public", "mood"))
            expect((definition.schema, definition.name, definition.identity), ("public", "t", "d"))
            expect(columns_of(definition), [("a", True), ("b", False), ("m", False)])
            expect((one.new, two.new), (("1", "x" * 9000, "sad"), ("2", None, "glad")))
            expect((begin.final, commit.commit < commit.end), (commit.commit, True))
            assert abs(begin.time / 1e6 - time.time()) < PATIENT, begin
            sql.execute("UPDATE t SET m = 'glad' WHERE a = 1")
            expect(transaction(stream)[1], Update(definition.relation, None, None, ("1", UNCHANGED, "glad")))
            sql.execute("UPDATE t SET a = 3 WHERE a = 2")
            expect(transaction(stream)[1], Update(definition.relation, ("2", None, None), None, ("3", None, "glad")))
            sql.execute("DELETE FROM t WHERE a = 3")
            expect(transaction(stream)[1], Delete(definition.relation, ("3", None, None), None))
            sql.execute("ALTER TABLE t REPLICA IDENTITY FULL; UPDATE t SET m = 'sad'")
            _, _, full, update, _ = transaction(stream)
            expect((full.identity, columns_of(full)), ("f", [("a", True), ("b", True), ("m", True)]))
            expect((update.old, update.new), (("1", "x" * 9000, "glad"), ("1", UNCHANGED, "sad")))
            sql.execute("TRUNCATE t RESTART IDENTITY CASCADE")
            expect(transaction(stream)[-2], Truncate((definition.relation,), True, True))
            sql.execute("SELECT pg_replication_origin_create('away'), pg_replication_origin_session_setup('away')")
            sql.execute("BEGIN; SELECT pg_replication_origin_xact_setup('0/AB', now()); INSERT INTO t VALUES (9); COMMIT")
            expect([one for one in transaction(stream) if isinstance(one, Origin)], [Origin(0xAB, "away")])


@beside
def what_is_confirmed_does_not_come_again(postgres):
    with postgres.database() as (dsn, sql):
        sql.execute("CREATE TABLE t (a int PRIMARY KEY); CREATE PUBLICATION pub FOR TABLE t; CREATE TABLE other (a int)")
        with Stream(dsn, "again") as stream:
            stream.start("pub", stream.create().point)
            for number in range(3):
                sql.execute("INSERT INTO t VALUES (%s)", (number,))
            told = [transaction(stream) for _ in range(3)]
            stream.confirm(told[1][-1].end)
        with Stream(dsn, "again") as stream:
            start_when_free(stream)
            expect(transaction(stream)[-2].new, ("2",), "the first that wasn't confirmed")
            expect(stream.next(0.2), None)
            sql.execute("INSERT INTO other SELECT generate_series(1, 1000)")
            sql.execute("SELECT pg_current_wal_lsn()::text")
            end = number_of(sql.fetchone()[0])
            until = time.monotonic() + PATIENT
            while stream.confirmed < end:
                assert time.monotonic() < until, (stream.confirmed, end)
                expect(stream.next(0.2), None)
                stream.confirm_idle()
            sql.execute("SELECT confirmed_flush_lsn::text FROM pg_replication_slots WHERE slot_name = 'again'")
            assert number_of(sql.fetchone()[0]) <= stream.confirmed
        drop(dsn, "again")


def start_when_free(stream):
    """Begins the stream, once the server has noticed that the one before ended."""
    until = time.monotonic() + PATIENT
    while True:
        try:
            return stream.start("pub")
        except Exception:  # noqa: BLE001
            assert time.monotonic() < until
            time.sleep(0.05)


# Types


ALL = """
    CREATE TABLE t (a smallint, b int, c bigint, d boolean, e text, f varchar(20), g uuid, h date, i timestamp, j timestamptz,
                    k numeric(18,6), l numeric(5), m numeric(3,-2), n int NOT NULL PRIMARY KEY)
"""
EPOCH = datetime.datetime(1970, 1, 1)


def drawn_row(draw, number):
    """A row as psycopg2 is given it, and as a relation has it."""
    moment = EPOCH + datetime.timedelta(microseconds=draw.randrange(-(10**16), 10**17))
    day = datetime.date.fromordinal(draw.randrange(1, 3_652_060))
    long, small, whole = draw.randrange(-(10**18) + 1, 10**18), draw.randrange(-99999, 100000), draw.randrange(-999, 1000)
    text = "".join(draw.choice("ab \"\\\n\t\x07'ä😀,|") for _ in range(draw.randrange(20)))
    name = str(uuid.UUID(int=draw.getrandbits(128)))
    flag, micros = draw.random() < 0.5, (moment - EPOCH) // datetime.timedelta(microseconds=1)
    given = (draw.randrange(-(2**15), 2**15), draw.randrange(-(2**31), 2**31), draw.randrange(-(2**63), 2**63), flag, text,
             text, name, day, moment, moment.replace(tzinfo=datetime.timezone.utc), decimal.Decimal(long).scaleb(-6), small,
             whole * 100, number)  # fmt: skip
    days = (day - datetime.date(1970, 1, 1)).days
    return given, (*given[:3], int(flag), text, text, name, days, micros, micros, long, small, whole, number)


@beside
def values_of_all_types(postgres):
    """By the snapshot and by the stream, each type's values, those at its ends too, are those of the table."""
    draw = random.Random(3)
    with postgres.database() as (dsn, sql):
        sql.execute(ALL + "; CREATE PUBLICATION pub FOR TABLE t")
        drawn = [drawn_row(draw, number) for number in range(300)]
        sql.executemany("INSERT INTO t VALUES (" + ",".join(["%s"] * 14) + ")", [given for given, _ in drawn[:150]])
        (table,) = published(sql.connection, "pub")
        mapping = mapping_of("t", table.columns, type_names(sql.connection, [table]), {})
        expect(mapping.types, (int,) * 4 + (str,) * 3 + (int,) * 7)
        with Stream(dsn, "types") as stream, contextlib.closing(connect(dsn)) as reads:
            made = stream.create()
            sql.executemany("INSERT INTO t VALUES (" + ",".join(["%s"] * 14) + ")", [given for given, _ in drawn[150:]])
            rows = []
            with seeing(reads, made.snapshot) as cursor:
                expect(read_answers(cursor, table, mapping, rows.extend), 150)
            expect(sorted(rows, key=lambda row: row[-1]), [row for _, row in drawn[:150]])
            stream.start("pub", made.point)
            came = []
            while len(came) < 150:
                came += [mapping.read(one.new) for one in transaction(stream) if isinstance(one, Insert)]
            expect(came, [row for _, row in drawn[150:]])
            # the ends, as PostgreSQL counts days and microseconds itself
            given = mapping_of("t", table.columns, {}, {name: "0" for name in "abcklm"} | {"d": "f", "e": "", "f": "", "g": ""})
            for day, moment in (("4713-01-01 BC", "4713-01-01 BC"), ("5874897-12-31", "294247-01-10 04:00:54.775807")):
                sql.execute("TRUNCATE t; INSERT INTO t (n, h, i, j) VALUES (900, %s, %s, %s)", (day, moment, moment + "+00"))
                micros = "extract(epoch FROM date_trunc('second', {0}))::bigint * 1000000 + extract(microseconds FROM {0})::bigint % 1000000"
                sql.execute(f"SELECT h - DATE '1970-01-01', {micros.format('i')}, {micros.format('j')} FROM t")
                expect(given.read(transaction(stream)[-2].new)[7:10], sql.fetchone())
            sql.execute("INSERT INTO t (n, h, i, j) VALUES (901, 'today', 'today', '294247-01-10 04:00:54.775808+00')")
            assert "the row with n=901, j: a time in the year 294247" in str(raises(Unfit, lambda: given.read(transaction(stream)[-2].new)))
        drop(dsn, "types")


@beside
def what_is_refused_is_named(postgres):
    with postgres.database() as (dsn, sql):
        sql.execute("CREATE SCHEMA other; CREATE TABLE other.wide (" + ", ".join(f"c{n} int" for n in range(17)) + ")")
        sql.execute("CREATE TABLE odd (a float8, b numeric, c numeric(19,2), d jsonb, e int[], f int, g char(3))")
        sql.execute("CREATE PUBLICATION pub FOR TABLE odd, other.wide")
        odd, wide = sorted(published(sql.connection, "pub"), key=lambda one: one.name)
        names = type_names(sql.connection, [odd, wide])
        error = raises(Unfit, lambda: mapping_of(odd.label, odd.columns, names, {"f": "x", "z": "1"}))
        expect(str(error).splitlines(), [
            "odd.a: double precision: its type is none that djq has",
            "odd.b: numeric: numeric without a precision: numeric(p,s) with p up to 18 can be held",
            "odd.c: numeric: numeric(19,2), and 18 digits are the most",
            "odd.d: jsonb: its type is none that djq has",
            "odd.e: integer[]: its type is none that djq has",
            "odd.f: --null: invalid literal for int() with base 10: 'x'",
            "odd.g: character: its type is none that djq has",
            "odd.z: --null names no column that is published",
        ])  # fmt: skip
        error = raises(Unfit, lambda: mapping_of(wide.label, wide.columns, names, {}))
        expect(str(error), "other.wide: 17 columns are published, and a relation has 1 to 16")
        raises(Unfit, lambda: published(sql.connection, "nothing"))
        # values
        sql.execute("CREATE TABLE v (k int PRIMARY KEY, a text, b timestamp, c numeric(3,1)); CREATE PUBLICATION values FOR TABLE v")
        (table,) = published(sql.connection, "values")
        mapping = mapping_of("v", table.columns, {}, {"c": "-1.5"})
        long = "ä" * 128
        for row, why in (
            ("(1, NULL, now(), 0)", "v, the row with k=1, a: NULL, and no value was given for it by --null v.a=VALUE"),
            ("(2, 'x', 'infinity', 0)", "v, the row with k=2, b: not a time in UTC: infinity"),
            ("(3, 'x', now(), 'NaN')", "v, the row with k=3, c: not a number: NaN"),
            (f"(4, '{long}', now(), 0)", "v, the row with k=4, a: a text of 256 bytes, and 255 are the most"),
        ):
            sql.execute(f"TRUNCATE v; INSERT INTO v VALUES {row}")
            expect(str(raises(Unfit, lambda: read_answers(sql, table, mapping, list))), why)
        sql.execute("TRUNCATE v; INSERT INTO v VALUES (5, 'x', '1970-01-01 00:00:01', NULL)")
        rows = []
        read_answers(sql, table, mapping, rows.extend)
        expect(rows, [(5, "x", 1_000_000, -15)])
        sql.execute("CREATE TABLE w (" + ", ".join(f"c{n} text" for n in range(9)) + "); CREATE PUBLICATION ws FOR TABLE w")
        sql.execute("INSERT INTO w VALUES (" + ", ".join(["repeat('\"', 250)"] * 9) + ")")
        (table,) = published(sql.connection, "ws")
        error = raises(Unfit, lambda: read_answers(sql, table, mapping_of("w", table.columns, {}, {}), list))
        expect(str(error), "w, the row with no key, all columns: a line of 4563 bytes, and 4096 are the most")


# Publications


@beside
def lists_of_columns_and_filters_of_rows(postgres):
    """The snapshot and the stream have the columns and the rows that the publication names, also as rows move."""
    with postgres.database() as (dsn, sql):
        sql.execute('CREATE TABLE "T t" ("K" int, a int, "b""c" text, g int GENERATED ALWAYS AS (a * 2) STORED, PRIMARY KEY ("K", a))')
        sql.execute('CREATE PUBLICATION pub FOR TABLE "T t" ("K", a, "b""c") WHERE (((hashint4(a) & 2147483647) % 2) = 1)')
        sql.execute("""INSERT INTO "T t" SELECT n, n % 10, 'x' || n FROM generate_series(1, 500) AS n""")
        sql.execute('CREATE PUBLICATION whole FOR TABLE "T t"')
        (table,), (whole,) = published(sql.connection, "pub"), published(sql.connection, "whole")
        expect([(one.name, one.in_identity) for one in table.columns], [("K", True), ("a", True), ('b"c', False)])
        expect((whole.columns, whole.filter), (table.columns, None), "a generated column isn't replicated")
        with Stream(dsn, "filters") as stream, contextlib.closing(connect(dsn)) as reads:
            made = stream.create()
            sql.execute('UPDATE "T t" SET a = a + 1 WHERE "K" % 3 = 0; DELETE FROM "T t" WHERE "K" % 7 = 0')
            rows = []
            with seeing(reads, made.snapshot) as cursor:
                read_rows(cursor, table, rows.extend)
            stream.start("pub", made.point)
            follow_to_the_end(sql, stream, [(table, rows)])
        drop(dsn, "filters")


@beside
def partitions_and_children(postgres):
    with postgres.database() as (dsn, sql):
        sql.execute("CREATE TABLE p (a int PRIMARY KEY, b int) PARTITION BY RANGE (a); CREATE TABLE base (a int PRIMARY KEY)")
        sql.execute("CREATE TABLE p1 PARTITION OF p FOR VALUES FROM (0) TO (100); CREATE TABLE p2 PARTITION OF p FOR VALUES FROM (100) TO (200)")
        sql.execute("CREATE TABLE child (PRIMARY KEY (a)) INHERITS (base)")
        sql.execute("INSERT INTO p SELECT n, n FROM generate_series(0, 199) AS n; INSERT INTO base VALUES (1); INSERT INTO child VALUES (2)")
        sql.execute("CREATE PUBLICATION roots FOR TABLE p WITH (publish_via_partition_root = true); CREATE PUBLICATION pub FOR TABLE p, base")

        def counts(publication):
            return {one.name: (read_rows(sql, one, list), one.is_root) for one in published(sql.connection, publication)}

        expect(counts("roots"), {"p": (200, True)})
        expect(counts("pub"), {"p1": (100, False), "p2": (100, False), "base": (1, False), "child": (1, False)})


# Rows by their identity


class Rows:
    """The rows of all tables that a stream reports."""

    def __init__(self):
        self.tables = {}

    def define(self, definition):
        if definition.relation in self.tables:
            self.tables[definition.relation].define(definition)
        return self.tables.setdefault(definition.relation, TableRows(definition))

    def take(self, message):
        return take(self.tables[message.relation], message)

    def truncate(self, message):
        return [self.tables[number] for number in message.relations]


def follow_to_the_end(sql, stream, tables):
    """Applies the stream to rows that were read before, until all that was done is in it; then they are those of SQL."""
    rows, names = Rows(), {}
    held = {}
    for table, there in tables:
        started = Relation(table.relation, table.schema, table.name, table.identity, table.columns)
        rows.define(started).start(there)
        names[table.relation], held[table.relation] = table, collections.Counter(there)
    sql.execute("SELECT pg_current_wal_lsn()::text")
    end = number_of(sql.fetchone()[0])
    place, until = 0, time.monotonic() + PATIENT
    while place < end:
        assert time.monotonic() < until, "the stream doesn't reach the end"
        message = stream.next(0.2)
        if message is None:
            place = stream.end
        elif isinstance(message, Relation):
            rows.define(message)
        elif isinstance(message, Truncate):
            for one in rows.truncate(message):
                held[one.definition.relation].clear()
                one.by_key.clear()
        elif isinstance(message, (Insert, Update, Delete)):
            change = rows.take(message)
            count = held[change.relation]
            if change.went is not None:
                assert count[change.went] > 0, change
                count[change.went] -= 1
            if change.came is not None:
                count[change.came] += 1
    for number, table in names.items():
        there = []
        read_rows(sql, table, there.extend)
        expect(+held[number], collections.Counter(there), table.label)


def churn(sql, draw, table, count):
    """Random changes of a table (a, b, c), also of its key, of several rows at once, and of large values beside others."""
    for _ in range(count):
        a, b = draw.randrange(40), draw.randrange(5)
        kind = draw.random()
        try:
            if kind < 0.4:
                sql.execute(f"INSERT INTO {table} VALUES (%s, %s, repeat(%s, %s))", (a, b, draw.choice("xyz"), draw.choice((3, 9000))))
            elif kind < 0.6:
                sql.execute(f"UPDATE {table} SET b = %s WHERE a = %s", (b, a))
            elif kind < 0.75:
                sql.execute(f"UPDATE {table} SET a = a + %s WHERE a = %s", (draw.choice((1, 50)), a))
            elif kind < 0.98:
                sql.execute(f"DELETE FROM {table} WHERE a = %s", (a,))
            else:
                sql.execute(f"TRUNCATE {table}")
        except Exception as error:  # noqa: BLE001
            assert type(error).__name__ == "UniqueViolation", error


@beside
def each_replica_identity(postgres):
    """By a primary key, by an index, by the whole row with a key and without: rows and their copies are those of SQL."""
    draw = random.Random(7)
    with postgres.database() as (dsn, sql):
        for name in ("keyed", "indexed", "whole", "bare"):
            sql.execute(f"CREATE TABLE {name} (a int NOT NULL{'' if name in ('bare', 'indexed') else ' PRIMARY KEY'}, b int, c text)")
            sql.execute(f"ALTER TABLE {name} ALTER c SET STORAGE EXTERNAL")
        sql.execute("CREATE UNIQUE INDEX i ON indexed (a); ALTER TABLE indexed REPLICA IDENTITY USING INDEX i")
        sql.execute("ALTER TABLE whole REPLICA IDENTITY FULL; ALTER TABLE bare REPLICA IDENTITY FULL")
        sql.execute("CREATE PUBLICATION pub FOR ALL TABLES")
        for name in ("keyed", "indexed", "whole", "bare"):
            churn(sql, draw, name, 60)
        tables = published(sql.connection, "pub")
        expect({one.name: (one.identity, [c.in_identity for c in one.columns]) for one in tables}, {
            "keyed": ("d", [True, False, False]), "indexed": ("i", [True, False, False]),
            "whole": ("f", [True] * 3), "bare": ("f", [True] * 3),
        })  # fmt: skip
        with Stream(dsn, "identities") as stream, contextlib.closing(connect(dsn)) as reads:
            made = stream.create()
            churn(sql, draw, "bare", 20)
            read = [(table, []) for table in tables]
            with seeing(reads, made.snapshot) as cursor:
                for table, there in read:
                    read_rows(cursor, table, there.extend)
            stream.start("pub", made.point)
            for _ in range(4):
                for name in ("keyed", "indexed", "whole", "bare"):
                    churn(sql, draw, name, 60)
            follow_to_the_end(sql, stream, read)
        drop(dsn, "identities")


@beside
def two_writers_beside_the_snapshot(postgres):
    """A slot is made and its snapshot read while two sessions change rows by transactions: nothing is missed or doubled."""
    with postgres.database() as (dsn, sql):
        sql.execute("CREATE TABLE keyed (a int PRIMARY KEY, b int, c text); CREATE TABLE bare (a int, b int, c text)")
        sql.execute("ALTER TABLE bare REPLICA IDENTITY FULL; CREATE PUBLICATION pub FOR ALL TABLES")
        churn(sql, random.Random(1), "bare", 200)

        done = collections.Counter()

        def transact(own, draw):
            with own.cursor() as cursor:
                for _ in range(draw.randrange(1, 5)):
                    a, b, table = draw.randrange(40), draw.randrange(5), draw.choice(("bare", "bare", "keyed"))
                    if draw.random() < 0.5:
                        cursor.execute(f"INSERT INTO {table} VALUES (%s, %s, 'x') ON CONFLICT DO NOTHING", (a, b))
                    else:
                        cursor.execute(f"DELETE FROM {table} WHERE a = %s AND b = %s", (a, b))

        def write(seed):
            draw = random.Random(seed)
            with contextlib.closing(connect(dsn)) as own:
                for _ in range(1000):
                    try:
                        transact(own, draw)
                        (own.commit if draw.random() < 0.9 else own.rollback)()
                        done[seed] += 1
                    except Exception as error:  # noqa: BLE001
                        assert type(error).__name__ == "DeadlockDetected", error
                        own.rollback()

        writers = [threading.Thread(target=write, args=(seed,), daemon=True) for seed in (1, 2)]
        for one in writers:
            one.start()
        time.sleep(0.2)
        with Stream(dsn, "beside") as stream, contextlib.closing(connect(dsn)) as reads:
            made = stream.create()
            read = [(table, []) for table in published(sql.connection, "pub")]
            with seeing(reads, made.snapshot) as cursor:
                for table, there in read:
                    time.sleep(0.1)
                    read_rows(cursor, table, there.extend)
            stream.start("pub", made.point)
            for one in writers:
                one.join(PATIENT)
            assert min(done[1], done[2]) > 900, done
            follow_to_the_end(sql, stream, read)
        drop(dsn, "beside")


@beside
def a_definition_that_changes(postgres):
    with postgres.database() as (dsn, sql):
        sql.execute("CREATE TABLE t (a int PRIMARY KEY, b int); ALTER TABLE t REPLICA IDENTITY FULL; CREATE PUBLICATION pub FOR TABLE t")
        with streaming(dsn) as stream:
            rows = Rows()

            def taken():
                return [rows.take(one) if isinstance(one, (Insert, Update, Delete)) else rows.define(one)
                        for one in transaction(stream)[1:-1]]  # fmt: skip

            sql.execute("INSERT INTO t VALUES (1, 2)")
            expect(taken()[-1].came, ("1", "2"))
            sql.execute("ALTER TABLE t REPLICA IDENTITY DEFAULT; UPDATE t SET b = 3")
            expect(str(raises(Unfit, taken)), "public.t: its replica identity is another one now, and the rows by that aren't known")
            sql.execute("ALTER TABLE t REPLICA IDENTITY FULL; UPDATE t SET b = 4")
            expect((taken()[-1].went), ("1", "3"))
            sql.execute("ALTER TABLE t ADD c int; UPDATE t SET b = 5")
            expect(str(raises(Unfit, taken)), "public.t: its columns were a, b, and are a, b, c now")
            sql.execute("CREATE TABLE n (a int); ALTER PUBLICATION pub ADD TABLE n; ALTER TABLE n REPLICA IDENTITY NOTHING; INSERT INTO n VALUES (1)")
            expect(taken()[-1].came, ("1",))


# Which are run


def outcome(function, postgres):
    try:
        function(*([postgres] if postgres else []))
        return "passed"
    except Exception:  # noqa: BLE001
        print(f"{function.__name__}: {traceback.format_exc(limit=-3)}", flush=True)
        return "failed"


def main():
    names, counts = sys.argv[2:], {"passed": 0, "failed": 0, "skipped": 0}
    with contextlib.ExitStack() as stack:
        postgres = None
        for function, needs in TESTS:
            if names and function.__name__ not in names:
                continue
            if needs and LACKS:
                asked = os.environ.get("DJQ_NEIGHBOURS") == "1"
                print(f"{function.__name__}: {'needs' if asked else 'skipped, without'} {', '.join(LACKS)}")
                counts["failed" if asked else "skipped"] += 1
                continue
            if needs and postgres is None:
                postgres = stack.enter_context(Postgres())
            began = time.monotonic()
            counts[outcome(function, postgres if needs else None)] += 1
            if os.environ.get("TIMES") == "1":
                print(f"{function.__name__} took {time.monotonic() - began:.1f} s", flush=True)
    skipped = f", {counts['skipped']} skipped" if counts["skipped"] else ""
    print(f"{counts['passed']} passed, {counts['failed']} failed{skipped}")
    return 1 if counts["failed"] else 0


if __name__ == "__main__":
    if len(sys.argv) < 2:
        raise SystemExit(__doc__)
    sys.exit(main())
