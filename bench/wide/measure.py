#!/usr/bin/env python3
"""The joins of TPC-H kept beside changes: djq, SQLite in memory and PostgreSQL, each driven from C, in one run.

    bench/wide/measure.py PROGRAM [--scales S ..] [--changes N] [--runs R] [--sets NAME ..] [--sides NAME ..] [--once NAME ..] [--write]

README.md beside it says what is done and how the tables are read. All sides make the same changes in the same order; what their watchers
were sent and what they list is held against each other at ten moments, and where it differs the run stops and says so.
"""

import argparse
import json
import os
import subprocess
import sys
import tempfile
import time

sys.dont_write_bytecode = True
import keeping  # noqa: E402
import report  # noqa: E402
import summary  # noqa: E402
from engines import Postgres, compiled, missing_for  # noqa: E402
from keeping import POSTGRES, SQLITE, Kept, parameters  # noqa: E402
from queries import BY_NAME, SETS, Variable  # noqa: E402
from schema import TABLES, Stream  # noqa: E402

MOMENTS = 10
PACED = 500
FIRSTS = 20
BATCH = 1000
LOGGED_SETS = ("none", "q3", "lines", "every")
SIDES = ("run", "tcp", "log", "sqlite", "postgres", "synced")
MODULUS = 1 << 64


class Different(Exception):
    """Two sides have different answers."""


# The files that the drivers read


def djq_lines(change):
    """A change as djq is sent it: an update is the new row and then the old one, so that what reads neither's change sees none."""
    def line(word, row):
        return f"{word} {change[1]} " + " ".join(f'"{value}"' if isinstance(value, str) else str(value) for value in row)
    if change[0] == "insert":
        return line("add", change[2]) + "\n"
    if change[0] == "delete":
        return line("del", change[2]) + "\n"
    return line("add", change[3]) + "\n " + line("del", change[2]) + "\n"


def sql_line(change):
    statement, values = parameters(change)
    return "\t".join(map(str, (statement, *values))) + "\n"


def passes(query, atom, row):
    """Whether a row meets what a query asks of it alone."""
    terms = {column: term for column, term in atom.terms.items()}
    table = TABLES[atom.table]
    for column, term in terms.items():
        if not isinstance(term, Variable) and table.value(row, column) != term:
            return False
    tests = {"<": lambda a, b: a < b, "<=": lambda a, b: a <= b, ">": lambda a, b: a > b, ">=": lambda a, b: a >= b,
             "=": lambda a, b: a == b, "!=": lambda a, b: a != b}
    return all(tests[sign](table.value(row, atom.variables()[name]), value) for name, sign, value in query.comparisons if name in atom.variables())


class Data:
    """The rows and changes of one scale, written for all drivers."""

    def __init__(self, folder, scale, changes):
        self.folder, self.scale = folder, scale
        os.makedirs(folder, exist_ok=True)
        stream = Stream(scale, changes)
        self.rows = {name: sum(1 for change in stream.load if change[1] == name) for name in TABLES}
        self.change_count, self.load_count = len(stream.changes), len(stream.load)
        self.lines = [row for _, name, row in stream.load if name == "lineitem"][:PACED]
        self.write("load", stream.load)
        self.write("changes", stream.changes)
        for name in TABLES:
            self.write(f"table_{name}", [change for change in stream.load if change[1] == name])
        with open(self.path("batched", "djq"), "w", encoding="utf-8") as file:
            for at in range(0, len(stream.load), BATCH):
                file.write("batch\n" + "".join(map(djq_lines, stream.load[at:at + BATCH])) + "done\n")
        for query in {name for names in SETS.values() if len(names) == 1 for name in names}:
            self.write(f"paced_{query}", list(self.paced(stream, BY_NAME[query])))

    def paced(self, stream, query):
        """Deletes and inserts of rows that no change of the stream touches, and that the query reads."""
        atom = next(atom for name in ("lineitem", "orders", "partsupp") for atom in query.atoms if atom.table == name)
        there = stream.tables[atom.table]
        rows = [row for kind, name, row in stream.load
                if name == atom.table and there.get(TABLES[name].key_of(row)) == row and passes(query, atom, row)]
        for row in rows[:PACED // 2]:
            yield "delete", atom.table, row
            yield "insert", atom.table, row

    def path(self, what, side):
        return os.path.join(self.folder, f"{what}.{side}")

    def write(self, what, changes):
        for side, spell in (("djq", djq_lines), ("sql", sql_line)):
            with open(self.path(what, side), "w", encoding="utf-8") as file:
                file.writelines(map(spell, changes))


# One run of one side


def text(words, body):
    return f"{words} {len(body.encode())}\n{body}\n"


class Script:
    """What a driver is given, and what the moments of it mean."""

    def __init__(self):
        self.lines = []

    def add(self, line):
        self.lines.append(line + "\n")

    def run(self, command):
        done = subprocess.run(command, input="".join(self.lines), capture_output=True, text=True)
        if done.returncode:
            raise SystemExit(f"{os.path.basename(command[0])}: {done.stderr.strip()}")
        return [json.loads(line) for line in done.stdout.splitlines()]


def moments(count):
    """The changes between one moment and the next."""
    return [(count * at // MOMENTS, count * (at + 1) // MOMENTS - count * at // MOMENTS) for at in range(MOMENTS)]


class Side:
    """One of those that are compared."""

    def __init__(self, name, tools, data, given):
        self.name, self.tools, self.data, self.given = name, tools, data, given
        self.whole = True  # whether answers are listed at each moment, or at the first and the last alone
        self.slow = name in ("log", "synced")
        self.count = min(data.change_count, given.logged) if self.slow else data.change_count

    def changes(self):
        return moments(self.count)

    def steps(self, queries):
        """The part of a script that all sides share."""
        script = Script()
        self.begin(script, queries)
        for query in queries:
            self.listing(script, query)
        for query in queries:
            script.add(f"watch {query.name}")
            if len(queries) == 1:
                self.first(script, query)
        for begin, count in self.changes():
            script.add(f"changes {self.data.path('changes', self.kind)} {begin} {count}")
            if self.whole or begin + count == self.count:
                for query in queries:
                    self.moment(script, query)
        if len(queries) == 1:
            script.add(f"paced {self.data.path('paced_' + queries[0].name, self.kind)} {PACED}")
            self.listing(script, queries[0])
        return script

    def moment(self, script, query):
        self.listing(script, query)

    def measured(self, name):
        """One run of a set: the figures of it, and what was listed."""
        queries = [BY_NAME[query] for query in SETS[name]]
        return self.started(name, self.steps(queries), queries)


class Djq(Side):
    kind = "djq"

    def begin(self, script, queries):
        script.add(text("say", "\n".join(f"rel {table.name} {' '.join(table.columns.values())}" for table in TABLES.values())))
        script.add("memory")
        script.add(f"changes {self.data.path('batched' if self.name == 'log' else 'load', 'djq')} 0 {10 ** 9}")
        script.add("memory")
        for query in queries:
            script.add(text(f"register {query.name}", query.djq()))
        script.add("memory")

    def listing(self, script, query):
        script.add(f"all {query.name}")

    def first(self, script, query):
        script.add(f"first {query.name} {FIRSTS}")

    def started(self, name, script, queries):
        program = self.given.by_hand if self.name == "hand" else self.given.program
        words = [self.tools["djq"], "tcp" if self.name in ("tcp", "log") else "run", program]
        if self.name not in ("tcp", "log"):
            return script.run([*words, "run"])
        words += ["serve", "127.0.0.1:0"]
        if self.name == "tcp":
            return script.run(words)
        with tempfile.TemporaryDirectory(dir=self.given.disk) as folder:
            return script.run([*words, "--log", os.path.join(folder, "log")])

    def by_table(self):
        script = Script()
        script.add(text("say", "\n".join(f"rel {table.name} {' '.join(table.columns.values())}" for table in TABLES.values())))
        for name in TABLES:
            script.add("memory")
            script.add(f"changes {self.data.path('table_' + name, 'djq')} 0 {10 ** 9}")
        script.add("memory")
        sizes = [step["bytes"] for step in self.started("tables", script, []) if step["what"] == "memory"]
        return {name: after - before for name, before, after in zip(TABLES, sizes, sizes[1:])}


class Sql(Side):
    kind = "sql"

    def begin(self, script, queries):
        self.filled(script, queries)
        script.add("memory")
        if queries:
            script.add(text("say", "\n".join(keeping.indexes(queries)) + "\nanalyze;"))
        for query in queries:
            tables = ",".join(sorted(query.tables))
            script.add(text(f"register {query.name} {tables}", Kept(self.engine, query).script()))
        script.add("memory")

    def statements(self, script):
        for table, kinds, sql in keeping.statements(self.engine):
            script.add(text(f"statement {table} {''.join(kind[0] for kind in kinds)}", sql))

    def listing(self, script, query):
        script.add(text(f"all {query.name}", Kept(self.engine, query).answers()))

    def first(self, script, query):
        script.add(text(f"first {query.name} {FIRSTS}", Kept(self.engine, query).answers() + " limit 10"))
        script.add(text(f"first {query.name} {FIRSTS}", query.select() + " limit 10"))

    def moment(self, script, query):
        self.listing(script, query)
        script.add(text(f"all {query.name}", query.select()))


class Sqlite(Sql):
    engine = SQLITE

    def filled(self, script, queries):
        saved = self.data.path("saved", "sqlite")
        if queries and os.path.exists(saved):
            script.add(f"restore {saved}")
            self.statements(script)
        else:
            script.add(text("say", keeping.schema(SQLITE)))
            self.statements(script)
            script.add("memory")
            script.add(f"changes {self.data.path('load', 'sql')} 0 {10 ** 9}")
            script.add(f"save {saved}")

    def started(self, name, script, queries):
        return script.run([self.tools["sqlite"]])

    def by_table(self):
        script = Script()
        script.add(text("say", keeping.schema(SQLITE)))
        self.statements(script)
        for name in TABLES:
            script.add("memory")
            script.add(f"changes {self.data.path('table_' + name, 'sql')} 0 {10 ** 9}")
        script.add("memory")
        sizes = [step["bytes"] for step in script.run([self.tools["sqlite"]]) if step["what"] == "memory"]
        return {name: after - before for name, before, after in zip(TABLES, sizes, sizes[1:])}


class PostgresSide(Sql):
    engine = POSTGRES

    def filled(self, script, queries):
        self.statements(script)

    def begin(self, script, queries):
        super().begin(script, queries)
        if not self.slow:
            for query in queries:
                script.add(text("say", f"create materialized view view_{query.name} as {query.select()}"))

    def moment(self, script, query):
        super().moment(script, query)
        if not self.slow:
            script.add(text(f"refresh {query.name}", f"refresh materialized view view_{query.name}"))
            script.add(text(f"all {query.name}", f"select * from view_{query.name}"))

    def started(self, name, script, queries):
        """Each set has a copy of a base that is loaded once a run."""
        server, steps = self.tools["server"], []
        base = "base_" + str(self.data.scale).replace(".", "_")
        if not server.has(base) or not (queries or self.slow):
            steps = self.loaded(server, base)
        server.sql("postgres", "drop database if exists wide")
        server.sql("postgres", f"create database wide template {base}")
        return steps + self.driven(script, "wide", "on" if self.slow else "off")

    def loaded(self, server, base):
        server.sql("postgres", f"drop database if exists {base}")
        server.sql("postgres", f"create database {base}")
        server.sql(base, keeping.schema(POSTGRES))
        script = Script()
        self.statements(script)
        script.add(f"changes {self.data.path('load', 'sql')} 0 {10 ** 9}")
        steps = self.driven(script, base, "off")
        self.table_sizes = server.sizes(base)
        return steps

    def driven(self, script, base, wait):
        server = self.tools["server"]
        return script.run([self.tools["postgres"], str(server.process.pid), server.words(base, wait)])

    def by_table(self):
        return {name: self.table_sizes[name] for name in TABLES}


MAKERS = {"run": Djq, "tcp": Djq, "log": Djq, "hand": Djq, "sqlite": Sqlite, "postgres": PostgresSide, "synced": PostgresSide}


# What the steps of a run say


class Figures:
    """Of one run of a set: the figures, and the answers at each moment."""

    def __init__(self, steps, queries, rows):
        self.values, self.answers, self.queries, self.rows = {}, {}, queries, rows
        changes = [at for at, step in enumerate(steps) if step["what"] == "changes"]
        if len(changes) > MOMENTS:
            self.keep("load", [steps[changes[0]]], rows)
            steps = steps[:changes[0]] + steps[changes[0] + 1:]
        self.memory = [step["bytes"] for step in steps if step["what"] == "memory"]
        self.read(steps)
        self.read_answers(steps)

    def keep(self, name, steps, count):
        """What some steps cost together, and how many times their work was done."""
        for part in ("wall", "processor", "client"):
            self.values[name, part] = sum(step.get(part, 0) for step in steps)
        self.values[name, "count"] = count

    def read(self, steps):
        def of(what):
            return [step for step in steps if step["what"] == what]
        self.keep("change", of("changes"), sum(step["count"] for step in of("changes")))
        if self.queries:
            self.keep("register", of("register"), 1)
        for name, firsts in (("first", of("first")[:1]), ("first anew", of("first")[1:])):  # SQL is asked in two ways
            if firsts:
                self.keep(name, firsts, firsts[0]["times"])
        for step in of("paced"):
            self.values["delay", "median"], self.values["delay", "p99"] = step["median"], step["p99"]
        if of("refresh"):
            self.keep("refresh", of("refresh"), len(of("refresh")) / len(self.queries))

    def read_answers(self, steps):
        """The answers at each moment, that the deltas add up to them, and what all of them cost, kept and asked anew."""
        moment, deltas, ways = 0, None, {}
        for step in steps:
            if step["what"] in ("changes", "paced"):
                moment, deltas = moment + 1, step["deltas"]
            elif step["what"] == "all":
                before = sum(1 for _, at, query in ways if (at, query) == (moment, step["query"]))
                ways["kept" if before == 0 else "anew" if before == 1 else "view", moment, step["query"]] = step
                self.answer(moment, step, deltas)
        for name in ("kept", "anew"):
            listed = [step for (way, _, _), step in ways.items() if way == name]
            if listed:
                self.keep(name, listed, len(listed) / len(self.queries))
                self.values[name, "answers"] = sum(step["count"] for step in listed)

    def answer(self, moment, step, deltas):
        query, found = step["query"], (step["count"], int(step["sum"]))
        before = self.answers.setdefault((moment, query), found)
        if before != found:
            raise Different(f"{query} at moment {moment}: asked in two ways it has {before[0]} and {found[0]} answers, or others")
        if deltas:
            count, total = self.answers[0, query]
            added, came, went = deltas[query]
            if (count + came - went, (total + int(added)) % MODULUS) != found:
                raise Different(f"{query} at moment {moment}: the deltas don't add up to the {found[0]} answers that are listed")


    def plain(self):
        """The figures by name, as they are kept."""
        return {**{".".join(key): value for key, value in self.values.items()}, "memory": self.memory}


class Answers:
    """What the sides have answered, of each scale and set: a side is held against the first one that made as many changes."""

    def __init__(self):
        self.first = {}
        self.compared = 0

    def hold(self, scale, name, side, found):
        """That a side has the same answers at each moment that it shares with the first one."""
        first, known = self.first.setdefault((scale, name, side.slow), (side.name, found))
        for moment, answers in found.items():
            other = known.get(moment)
            if other is not None and other != answers:
                raise Different(f"scale {scale}, {name}, {moment[1]} at moment {moment[0]}: {first} has {other[0]} answers, {side.name} {answers[0]}, or others")
        self.compared += len(found)


def measured_set(name, side, answers):
    """One run of a set by a side: its figures; none where it has no part in the set. Its answers are held against the other sides'."""
    queries = [BY_NAME[query] for query in SETS[name]]
    if side.slow and name not in LOGGED_SETS:
        return None
    if side.name == "hand" and any(query.comparisons for query in queries):
        return None
    figures = Figures(side.measured(name), queries, side.data.load_count)
    answers.hold(side.data.scale, name, side, figures.answers)
    return figures


class Measurement:
    """All runs of all scales: of each scale, set and side the figures of each run, and the bytes of each table."""

    def __init__(self, given, folder, tools):
        self.given, self.folder, self.tools = given, folder, tools
        self.ends = time.monotonic() + 60 * given.minutes if given.minutes else None
        self.answers, self.left_out = Answers(), []
        self.found = {"figures": {}, "tables": {}, "rows": {}}

    def run(self):
        """First the sides that are run each time, then those that are run once, as long as there is time for these."""
        made = {scale: self.made(scale) for scale in self.given.scales}
        for run in range(self.given.runs):
            for scale, sides in made.items():
                self.passed(scale, run, [side for side in sides if side.name not in self.given.once])
        for scale, sides in reversed(made.items()):
            self.passed(scale, 0, [side for side in sides if side.name in self.given.once])
        for scale, sides in made.items():
            there = {side for sets in self.found["figures"][str(scale)].values() for side in sets}
            self.found["tables"][str(scale)] = {side.name: side.by_table() for side in sides if side.name in there and side.name in report.MEMORY}
        return {**self.found, "compared": self.answers.compared}

    def made(self, scale):
        """The sides, with the data of a scale."""
        changes = round(self.given.changes * scale / max(self.given.scales))
        data = Data(os.path.join(self.folder, f"data_{scale}"), scale, changes)
        self.found["rows"][str(scale)] = data.rows
        self.found["figures"][str(scale)] = {}
        return [MAKERS[name](name, self.tools, data, self.given) for name in self.given.sides]

    def passed(self, scale, run, sides):
        """One run of all sets by some sides."""
        for side in sides:
            side.whole = run == 0
        for name in self.given.sets:
            for side in sides:
                if self.ends and side.name in self.given.once and time.monotonic() > self.ends:
                    print(f"scale {scale}, {name}, {side.name} is left out: {self.given.minutes} minutes have passed", file=sys.stderr)
                    continue
                began = time.monotonic()
                figures = measured_set(name, side, self.answers)
                if figures:
                    self.found["figures"][str(scale)].setdefault(name, {}).setdefault(side.name, []).append(figures.plain())
                    print(f"scale {scale}, run {run + 1}, {name}, {side.name}: {time.monotonic() - began:.1f} s", file=sys.stderr, flush=True)


def main():
    words = argparse.ArgumentParser(description=__doc__.splitlines()[0])
    words.add_argument("program")
    words.add_argument("--scales", type=float, nargs="+", default=[0.0125, 0.05])
    words.add_argument("--changes", type=int, default=60_000, help="changes at the largest scale; fewer at the others, in proportion")
    words.add_argument("--logged", type=int, default=3_000, help="changes where each is synced to a disk")
    words.add_argument("--runs", type=int, default=3)
    words.add_argument("--sets", nargs="+", default=[name for name in SETS if name != "every"], choices=list(SETS))
    words.add_argument("--sides", nargs="+", default=list(SIDES), choices=list(MAKERS))
    words.add_argument("--once", nargs="+", default=[], choices=list(MAKERS), help="sides that are run once, behind all others")
    words.add_argument("--minutes", type=float, help="once so many have passed, no further set is begun of a side of --once")
    words.add_argument("--by-hand", help="bench/by_hand's program, for the side `hand`")
    words.add_argument("--disk", help="a folder for logs and PostgreSQL's files; the temporary one where it isn't given")
    words.add_argument("--keep", help="a file for the figures, as JSON")
    words.add_argument("--write", action="store_true", help="put the tables into docs/WIDE.md, docs/PERFORMANCE.md and README.md")
    given = words.parse_args()
    given.program = os.path.abspath(given.program)
    for side in list(given.sides):
        missing = missing_for(side)
        if missing:
            print(f"{side} is left out: {missing} isn't there", file=sys.stderr)
            given.sides.remove(side)
    with tempfile.TemporaryDirectory() as folder:
        tools = compiled(folder, given.sides)
        if not {"postgres", "synced"} & set(given.sides):
            found = Measurement(given, folder, tools).run()
        else:
            with Postgres(given.disk) as server:
                found = Measurement(given, folder, {**tools, "server": server}).run()
    page = report.page(found)
    print(page, end="")
    if given.keep:
        report.keep(given.keep, found)
    if given.write:
        summary.write(found)


if __name__ == "__main__":
    main()
