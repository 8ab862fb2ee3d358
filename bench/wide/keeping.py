"""What SQLite and PostgreSQL need to keep a join: a table of its answers, the indexes that its triggers look up by, the triggers,
and on SQLite's side a log of the answers that came and went. On PostgreSQL's side they are sent by `pg_notify`.

An answer comes as a row of any of its tables does, joined with the other tables; it goes before that row does. Where the head
leaves open which rows an answer is of, the kept table counts how many ways there are to it.
"""

from schema import TABLES, UPDATES

SQLITE, POSTGRES = "sqlite", "postgres"
TYPES = {SQLITE: {"int": "integer", "text": "text"}, POSTGRES: {"int": "bigint", "text": "text"}}


def schema(engine):
    """The eight tables, each with its primary key."""
    made = []
    for table in TABLES.values():
        columns = ", ".join(f"{name} {TYPES[engine][kind]} not null" for name, kind in table.columns.items())
        rowless = " without rowid" if engine == SQLITE and len(table.key) > 1 else ""
        made.append(f"create table {table.name} ({columns}, primary key ({', '.join(table.key)})){rowless};")
    return "\n".join(made)


def statements(engine):
    """The statements that change a row, each with the types of its parameters: of each table an insert and a delete, then the updates."""
    made = []
    for table in TABLES.values():
        kinds = list(table.columns.values())
        made.append((table.name, kinds, f"insert into {table.name} values ({places(engine, len(kinds))})"))
        made.append((table.name, [table.columns[key] for key in table.key], f"delete from {table.name} where {matched(engine, table.key, 1)}"))
    for name, column in UPDATES:
        table = TABLES[name]
        made.append((name, [table.columns[column]] + [table.columns[key] for key in table.key],
                     f"update {name} set {column} = {place(engine, 1)} where {matched(engine, table.key, 2)}"))
    return made


def place(engine, at):
    return "?" if engine == SQLITE else f"${at}"


def places(engine, count):
    return ", ".join(place(engine, at) for at in range(1, count + 1))


def matched(engine, columns, first):
    return " and ".join(f"{column} = {place(engine, first + at)}" for at, column in enumerate(columns))


def parameters(change):
    """The number of a change's statement, and its parameters."""
    kind, name, row = change[:3]
    table, at = TABLES[name], list(TABLES).index(name)
    if kind == "insert":
        return 2 * at, row
    if kind == "delete":
        return 2 * at + 1, table.key_of(row)
    column = change[4]
    return 2 * len(TABLES) + UPDATES.index((name, column)), (table.value(change[3], column), *table.key_of(row))


def indexes(queries):
    """The indexes that some queries need, none of them the beginning of another."""
    wanted = dict.fromkeys(index for query in queries for index in query.indexes())
    for table, columns in wanted:
        if not any(other != columns and other[:len(columns)] == columns for name, other in wanted if name == table):
            yield f"create index {table}_{'_'.join(columns)} on {table} ({', '.join(columns)});"


class Kept:
    """One query that is kept by triggers."""

    def __init__(self, engine, query):
        self.engine, self.query = engine, query
        self.counted = query.key() is None
        self.key = query.key() or query.head
        self.table = f"kept_{query.name}"

    def script(self):
        return "\n".join([self.tables(), self.filling(), *self.told(), *(text for at in range(len(self.query.atoms)) for text in self.triggers(at))])

    def columns(self):
        return [f"{name} {TYPES[self.engine][kind]} not null" for name, kind in zip(self.query.head, self.query.kinds())]

    def tables(self):
        """The kept table, and the log."""
        columns = ", ".join(self.columns() + (["ways bigint not null"] if self.counted else []))
        rowless = " without rowid" if self.engine == SQLITE and len(self.key) > 1 else ""
        made = f"create table {self.table} ({columns}, primary key ({', '.join(self.key)})){rowless};"
        if self.engine == SQLITE:
            made += f"\ncreate table log_{self.query.name} (sign integer, {', '.join(self.columns())});"
        return made

    def filling(self):
        return self.put(*self.query.source()) + ";"

    def put(self, place, source):
        """Puts answers in, or ways to them."""
        values = ", ".join(place[name] for name in self.query.head)
        if not self.counted:
            return f"insert into {self.table} select {values}{source}"
        source += "" if " where " in source else " where true"
        clash = f" on conflict ({', '.join(self.key)}) do update set ways = {self.table}.ways + excluded.ways"
        return f"insert into {self.table} select {values}, count(*){source} group by {values}{clash}"

    def take(self, at, place, source):
        """Takes answers out, or ways to them."""
        if self.counted:
            values = [place[name] for name in self.query.head]
            named = ", ".join(f"{value} as {name}" for value, name in zip(values, self.query.head))
            join = " and ".join(f"{self.table}.{name} = gone.{name}" for name in self.query.head)
            source += "" if source else " where true"
            return (f"update {self.table} set ways = {self.table}.ways - gone.n from (select {named}, count(*) as n{source} "
                    f"group by {', '.join(values)}) as gone where {join}")
        atom = self.query.atoms[at]
        keys = atom.key_terms()
        if all(term in self.query.head for term in keys) and self.key[0] in keys:
            tests = " and ".join(f"{term} = old.{column}" for column, term in zip(TABLES[atom.table].key, keys))
            return f"delete from {self.table} where {tests}"
        return f"delete from {self.table} where ({', '.join(self.key)}) in (select {', '.join(place[name] for name in self.key)}{source})"

    def triggers(self, at):
        """What is done as a row of one atom's table comes, goes, or changes in a column that the query reads."""
        query, atom = self.query, self.query.atoms[at]
        twice = [other for other in range(at) if query.atoms[other].table == atom.table]
        come = self.put(*query.source(at, "new", twice))
        go = self.take(at, *query.source(at, "old"))
        changing = [column for name, column in UPDATES if name == atom.table and column in atom.terms]
        for when, row, text in (("after insert", "new", come), ("before delete", "old", go)):
            yield self.trigger(at, when, row, text)
        if changing:
            yield self.trigger(at, f"before update of {', '.join(changing)}", "old", go)
            yield self.trigger(at, f"after update of {', '.join(changing)}", "new", come)

    def trigger(self, at, when, row, text):
        name = f"on_{self.query.name}_{at}_{'_'.join(when.split()[:2])}"
        tests = self.query.row_tests(at, row)
        on = f"{when} on {self.query.atoms[at].table} for each row" + (f" when ({tests})" if tests else "")
        if self.engine == SQLITE:
            return f"create trigger {name} {on} begin {text}; end;"
        goes_on = "old" if "delete" in when else "new"  # the row that a trigger before a change lets through
        return (f"create function {name}() returns trigger language plpgsql as $$ begin {text}; "
                f"perform pg_notify('delta', 'at {self.query.name}'); return {goes_on}; end $$;\n"
                f"create trigger {name} {on} execute function {name}();")

    def told(self):
        """What hands on the answers that come to the kept table and go from it."""
        name = self.query.name
        if self.counted:
            match = " and ".join(f"{column} = new.{column}" for column in self.key)
            empty = f"delete from {self.table} where {match}"
            if self.engine == SQLITE:
                yield f"create trigger empty_{name} after update of ways on {self.table} when new.ways = 0 begin {empty}; end;"
            else:
                yield (f"create function empty_{name}() returns trigger language plpgsql as $$ begin {empty}; return null; end $$;\n"
                       f"create trigger empty_{name} after update of ways on {self.table} for each row when (new.ways = 0) "
                       f"execute function empty_{name}();")
        for sign, event, row in (("+", "insert", "new"), ("-", "delete", "old")):
            values = ", ".join(f"{row}.{column}" for column in self.query.head)
            if self.engine == SQLITE:
                yield (f"create trigger log_{name}_{event} after {event} on {self.table} begin "
                       f"insert into log_{name} values ({sign}1, {values}); end;")
            else:
                yield (f"create function told_{name}_{event}() returns trigger language plpgsql as $$ begin "
                       f"perform pg_notify('delta', '{sign} {name} ' || concat_ws(' ', {values})); return null; end $$;\n"
                       f"create trigger told_{name}_{event} after {event} on {self.table} for each row execute function told_{name}_{event}();")

    def answers(self):
        return f"select {', '.join(self.query.head)} from {self.table}"
