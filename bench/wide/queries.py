#!/usr/bin/env python3
"""The joins of TPC-H's queries, each written once by the names of columns, in djq's language and in SQL.

    python3 bench/wide/queries.py           prints both of each
"""

import os
import re
import sys

sys.path.insert(0, os.path.join(os.path.dirname(os.path.abspath(__file__)), "..", "..", "clients", "python"))
import djq  # noqa: E402
from djq.shell.queries import read_query  # noqa: E402
from schema import TABLES, day  # noqa: E402

# the names of the tables' columns, by which the client writes a query out
SCHEMA = djq.Schema()
for table in TABLES.values():
    SCHEMA.columns(table.name, *table.columns)


class Variable(str):
    """A name of a query, where a constant may stand too."""


def term(spelled):
    """What a term of a query says."""
    return Variable(spelled) if spelled[0].isalpha() else djq.read_values(f" {spelled}")[0]


class Atom:
    """A table in a query: a term for each column that isn't a hole."""

    def __init__(self, read):
        self.table = read.relation
        self.kinds = TABLES[self.table].columns
        self.terms = {column: term(spelled) for column, spelled in zip(self.kinds, read.terms) if spelled != "_"}

    def variables(self):
        """Each variable with the first column that has it."""
        found = {}
        for column, term in self.terms.items():
            if isinstance(term, Variable):
                found.setdefault(str(term), column)
        return found

    def key_terms(self):
        return [self.terms.get(column) for column in TABLES[self.table].key]


def quoted(value):
    return "'" + value.replace("'", "''") + "'" if isinstance(value, str) else str(value)


class Query:
    """A join, with what TPC-H's query of that number asks beyond it."""

    def __init__(self, text, beyond=""):
        self.text = SCHEMA.spell(text)
        read = read_query(self.text)
        self.name, self.head, self.beyond = read.name, list(read.head), beyond
        self.atoms = [Atom(atom) for atom in read.atoms]
        self.comparisons = [(one.variable, one.operator, term(one.constant)) for one in read.comparisons]
        self.tables = {atom.table for atom in self.atoms}

    def djq(self):
        """The query as djq reads it, with a hole for each column that isn't named."""
        return f"query {self.text}"

    def kinds(self):
        """The types of the head."""
        return [next(atom.kinds[atom.variables()[name]] for atom in self.atoms if name in atom.variables()) for name in self.head]

    def key(self):
        """The fewest variables of the head that tell which row each atom has; none where the head leaves this open."""
        keys = [term for atom in self.atoms for term in atom.key_terms() if isinstance(term, Variable)]
        wanted = [str(term) for term in dict.fromkeys(keys) if term in self.head]
        if not self.determines(wanted):
            return None
        for name in list(reversed(wanted)):
            if self.determines([one for one in wanted if one != name]):
                wanted.remove(name)
        return wanted

    def determines(self, names):
        """Whether values of these variables leave one row at most for each atom."""
        known, open_atoms = set(names), list(self.atoms)
        while True:
            found = [atom for atom in open_atoms if all(term is not None and (not isinstance(term, Variable) or term in known)
                                                         for term in atom.key_terms())]
            if not found:
                return not open_atoms
            for atom in found:
                known.update(atom.variables())
                open_atoms.remove(atom)

    # SQL

    def bound(self, fixed=None, row=""):
        """Where each variable is found, each atom's place but one being a table of its own, and that one the row that changes."""
        place = {}
        order = ([fixed] if fixed is not None else []) + [at for at in range(len(self.atoms)) if at != fixed]
        for at in order:
            alias = row if at == fixed else f"a{at}"
            for name, column in self.atoms[at].variables().items():
                place.setdefault(name, f"{alias}.{column}")
        return place

    def tests(self, at, alias, place):
        """What a row of an atom has to meet."""
        found = []
        for column, term in self.atoms[at].terms.items():
            here = f"{alias}.{column}"
            if not isinstance(term, Variable):
                found.append(f"{here} = {quoted(term)}")
            elif place[str(term)] != here:
                found.append(f"{here} = {place[str(term)]}")
        for name, sign, value in self.comparisons:
            if place[str(name)].startswith(alias + "."):
                found.append(f"{place[str(name)]} {'<>' if sign == '!=' else sign} {quoted(value)}")
        return found

    def row_tests(self, at, row):
        """What the row that changes has to meet by itself."""
        return " and ".join(self.tests(at, row, self.bound(at, row)))

    def source(self, fixed=None, row="", without=()):
        """The tables and conditions of a join, of which one atom may be a row that is given."""
        place = self.bound(fixed, row)
        others = [at for at in range(len(self.atoms)) if at != fixed]
        conditions = [test for at in others for test in self.tests(at, f"a{at}", place)]
        for at in without:
            conditions.append("not (" + " and ".join(f"a{at}.{key} = {row}.{key}" for key in TABLES[self.atoms[at].table].key) + ")")
        text = " from " + ", ".join(f"{self.atoms[at].table} a{at}" for at in others) if others else ""
        return place, text + (" where " + " and ".join(conditions) if conditions else "")

    def select(self):
        """The answers, asked anew."""
        place, source = self.source()
        distinct = "" if self.key() else "distinct "
        return f"select {distinct}{', '.join(f'{place[name]} as {name}' for name in self.head)}{source}"

    def indexes(self):
        """What the join, started from any of its tables, looks up by: the columns that an atom shares with others, or has
        a constant in, where they are no beginning of its key."""
        found = {}
        for at, atom in enumerate(self.atoms):
            for other in self.atoms[:at] + self.atoms[at + 1:]:
                shared = [column for name, column in atom.variables().items() if name in other.variables()]
                key = TABLES[atom.table].key
                if shared and sorted(shared) != sorted(key[:len(shared)]):
                    found[atom.table, tuple(shared)] = None
        return list(found)


QUERIES = [Query(*one) for one in (
    ('q1(orderkey, linenumber, returnflag, linestatus, quantity, extendedprice, discount, tax) <- lineitem(orderkey:, linenumber:, '
     f'returnflag:, linestatus:, quantity:, extendedprice:, discount:, tax:, shipdate:), shipdate <= {day("1998-09-02")}',
     "sums, means, counts a group"),
    ('q2(partkey, suppkey, nationkey, supplycost, acctbal, s_name, n_name, mfgr, address, phone, type) <- part(partkey:, mfgr:, type:, '
     'size: 15), partsupp(partkey:, suppkey:, supplycost:), supplier(suppkey:, name: s_name, address:, nationkey:, phone:, acctbal:), '
     'nation(nationkey:, name: n_name, regionkey:), region(regionkey:, name: "EUROPE")',
     "`type like '%BRASS'`; the least cost, a subquery; the order and the first 100"),
    ('q3(orderkey, linenumber, custkey, extendedprice, discount, orderdate, shippriority) <- customer(custkey:, mktsegment: "BUILDING"), '
     'orders(orderkey:, custkey:, orderdate:, shippriority:), lineitem(orderkey:, linenumber:, extendedprice:, discount:, shipdate:), '
     f'orderdate < {day("1995-03-15")}, shipdate > {day("1995-03-15")}', "the sum a group; the order and the first 10"),
    ('q4(orderkey, linenumber, orderpriority, commitdate, receiptdate) <- orders(orderkey:, orderdate:, orderpriority:), '
     f'lineitem(orderkey:, linenumber:, commitdate:, receiptdate:), orderdate >= {day("1993-07-01")}, orderdate < {day("1993-10-01")}',
     "`commitdate < receiptdate`, two columns; the count a group"),
    ('q5(orderkey, linenumber, custkey, suppkey, nationkey, n_name, extendedprice, discount) <- customer(custkey:, nationkey:), '
     'orders(orderkey:, custkey:, orderdate:), lineitem(orderkey:, linenumber:, suppkey:, extendedprice:, discount:), '
     'supplier(suppkey:, nationkey:), nation(nationkey:, name: n_name, regionkey:), region(regionkey:, name: "ASIA"), '
     f'orderdate >= {day("1994-01-01")}, orderdate < {day("1995-01-01")}', "the sum a group"),
    ('q5_open(orderkey, linenumber, custkey, suppkey, nationkey, buyer, n_name, extendedprice, discount) <- customer(custkey:, '
     'nationkey: buyer), orders(orderkey:, custkey:, orderdate:), lineitem(orderkey:, linenumber:, suppkey:, extendedprice:, discount:), '
     'supplier(suppkey:, nationkey:), nation(nationkey:, name: n_name, regionkey:), region(regionkey:, name: "ASIA"), '
     f'orderdate >= {day("1994-01-01")}, orderdate < {day("1995-01-01")}',
     "that the buyer's nation is the seller's: the client compares `buyer` with `nationkey`"),
    (f'q6(orderkey, linenumber, extendedprice, discount) <- lineitem(orderkey:, linenumber:, quantity:, extendedprice:, discount:, shipdate:), '
     f'shipdate >= {day("1994-01-01")}, shipdate < {day("1995-01-01")}, discount >= 5, discount <= 7, quantity < 24', "the sum"),
    *((f'q7_{side}(orderkey, linenumber, suppkey, custkey, sold, bought, extendedprice, discount, shipdate) <- supplier(suppkey:, '
       'nationkey: sold), lineitem(orderkey:, linenumber:, suppkey:, extendedprice:, discount:, shipdate:), orders(orderkey:, custkey:), '
       f'customer(custkey:, nationkey: bought), nation(nationkey: sold, name: "{seller}"), nation(nationkey: bought, name: "{buyer}"), '
       f'shipdate >= {day("1995-01-01")}, shipdate <= {day("1996-12-31")}',
       "`or`: the union of `q7_there` and `q7_back`; the year of a date, the sum a group")
      for side, seller, buyer in (("there", "FRANCE", "GERMANY"), ("back", "GERMANY", "FRANCE"))),
    ('q8(orderkey, linenumber, partkey, suppkey, custkey, sold, bought, n_name, extendedprice, discount, orderdate) <- part(partkey:, '
     'type: "ECONOMY ANODIZED STEEL"), lineitem(orderkey:, linenumber:, partkey:, suppkey:, extendedprice:, discount:), '
     'supplier(suppkey:, nationkey: sold), orders(orderkey:, custkey:, orderdate:), customer(custkey:, nationkey: bought), '
     'nation(nationkey: bought, regionkey:), region(regionkey:, name: "AMERICA"), nation(nationkey: sold, name: n_name), '
     f'orderdate >= {day("1995-01-01")}, orderdate <= {day("1996-12-31")}', "the year of a date, the share a group"),
    ('q9(orderkey, linenumber, partkey, suppkey, nationkey, n_name, p_name, extendedprice, discount, quantity, supplycost, orderdate) <- '
     'part(partkey:, name: p_name), lineitem(orderkey:, linenumber:, partkey:, suppkey:, quantity:, extendedprice:, discount:), '
     'partsupp(partkey:, suppkey:, supplycost:), supplier(suppkey:, nationkey:), orders(orderkey:, orderdate:), nation(nationkey:, name: n_name)',
     "`name like '%green%'`; the year of a date, the sum a group"),
    ('q10(orderkey, linenumber, custkey, nationkey, c_name, acctbal, n_name, address, phone, comment, extendedprice, discount) <- '
     'customer(custkey:, name: c_name, address:, nationkey:, phone:, acctbal:, comment:), orders(orderkey:, custkey:, orderdate:), '
     'lineitem(orderkey:, linenumber:, extendedprice:, discount:, returnflag: "R"), nation(nationkey:, name: n_name), '
     f'orderdate >= {day("1993-10-01")}, orderdate < {day("1994-01-01")}', "the sum a group; the order and the first 20"),
    ('q11(partkey, suppkey, supplycost, availqty) <- partsupp(partkey:, suppkey:, availqty:, supplycost:), supplier(suppkey:, nationkey:), '
     'nation(nationkey:, name: "GERMANY")', "the sum a group; `having`, over a subquery"),
    ('q12(orderkey, linenumber, orderpriority, shipmode, shipdate, commitdate, receiptdate) <- orders(orderkey:, orderpriority:), '
     f'lineitem(orderkey:, linenumber:, shipmode:, shipdate:, commitdate:, receiptdate:), receiptdate >= {day("1994-01-01")}, '
     f'receiptdate < {day("1995-01-01")}',
     "`shipmode in (..)`: a union of two queries, or the client; `shipdate < commitdate < receiptdate`, two columns; the count a group"),
    ('q13(custkey, orderkey, comment) <- customer(custkey:), orders(orderkey:, custkey:, comment:)',
     "customers without orders, an outer join: the difference of two queries; `comment not like ..`; the counts"),
    ('q14(orderkey, linenumber, partkey, type, extendedprice, discount) <- lineitem(orderkey:, linenumber:, partkey:, extendedprice:, '
     f'discount:, shipdate:), part(partkey:, type:), shipdate >= {day("1995-09-01")}, shipdate < {day("1995-10-01")}',
     "`type like 'PROMO%'`; the share"),
    ('q15(suppkey, orderkey, linenumber, s_name, address, phone, extendedprice, discount) <- supplier(suppkey:, name: s_name, address:, '
     f'phone:), lineitem(orderkey:, linenumber:, suppkey:, extendedprice:, discount:, shipdate:), shipdate >= {day("1996-01-01")}, '
     f'shipdate < {day("1996-04-01")}', "the sum a supplier, and the greatest of these"),
    ('q16(partkey, suppkey, brand, type, size) <- partsupp(partkey:, suppkey:), part(partkey:, brand:, type:, size:), brand != "Brand#45"',
     "`size in (..)`: a union of eight queries, or the client; `type not like ..`; suppliers without complaints: the difference of two queries; the count a group"),
    ('q17(orderkey, linenumber, partkey, quantity, extendedprice) <- lineitem(orderkey:, linenumber:, partkey:, quantity:, extendedprice:), '
     'part(partkey:, brand: "Brand#23", container: "MED BOX")', "less than a fifth of the mean, a subquery; the sum"),
    ('q18(orderkey, linenumber, custkey, c_name, orderdate, totalprice, quantity) <- customer(custkey:, name: c_name), orders(orderkey:, '
     'custkey:, totalprice:, orderdate:), lineitem(orderkey:, linenumber:, quantity:)', "`having sum(quantity) > 300`; the order and the first 100"),
    ('q19(orderkey, linenumber, partkey, brand, container, size, quantity, shipmode, extendedprice, discount) <- lineitem(orderkey:, '
     'linenumber:, partkey:, quantity:, extendedprice:, discount:, shipmode:, shipinstruct: "DELIVER IN PERSON"), part(partkey:, brand:, '
     'container:, size:), quantity >= 1, quantity <= 30, size >= 1, size <= 15',
     "`or` of three, with `in (..)`: a union of queries, or the client; the sum"),
    ('q20(partkey, suppkey, orderkey, linenumber, s_name, address, p_name, availqty, quantity) <- supplier(suppkey:, name: s_name, address:, '
     'nationkey:), nation(nationkey:, name: "CANADA"), partsupp(partkey:, suppkey:, availqty:), part(partkey:, name: p_name), '
     f'lineitem(orderkey:, linenumber:, partkey:, suppkey:, quantity:, shipdate:), shipdate >= {day("1994-01-01")}, '
     f'shipdate < {day("1995-01-01")}', "`name like 'forest%'`; more than half of a sum, a subquery"),
    ('q21(orderkey, linenumber, linenumber2, suppkey, suppkey2, s_name, commitdate, receiptdate, commitdate2, receiptdate2) <- '
     'supplier(suppkey:, name: s_name, nationkey:), lineitem(orderkey:, linenumber:, suppkey:, commitdate:, receiptdate:), '
     'orders(orderkey:, orderstatus: "F"), nation(nationkey:, name: "SAUDI ARABIA"), lineitem(orderkey:, linenumber: linenumber2, '
     'suppkey: suppkey2, commitdate: commitdate2, receiptdate: receiptdate2)',
     "`receiptdate > commitdate`, `suppkey != suppkey2`, two columns; `not exists`; the count"),
    ('q22(custkey, phone, acctbal) <- customer(custkey:, phone:, acctbal:), acctbal > 0',
     "without orders: the difference from `q22_orders`; the first two digits of a text; more than a mean, a subquery; the sums"),
    ('q22_orders(custkey) <- customer(custkey:), orders(custkey:)', "see `q22`"),
    # joins as they are, without TPC-H's conditions
    ('placed(orderkey, custkey, nationkey, regionkey, totalprice, orderdate, c_name, n_name, r_name) <- orders(orderkey:, custkey:, '
     'totalprice:, orderdate:), customer(custkey:, name: c_name, nationkey:), nation(nationkey:, name: n_name, regionkey:), '
     'region(regionkey:, name: r_name)', ""),
    ('offered(partkey, suppkey, availqty, supplycost, p_name, brand, size, s_name, acctbal) <- partsupp(partkey:, suppkey:, availqty:, '
     'supplycost:), part(partkey:, name: p_name, brand:, size:), supplier(suppkey:, name: s_name, acctbal:)', ""),
    ('lines(orderkey, linenumber, partkey, suppkey, quantity, extendedprice, discount, shipdate, shipmode, custkey, orderstatus, orderdate, '
     'orderpriority) <- lineitem(orderkey:, linenumber:, partkey:, suppkey:, quantity:, extendedprice:, discount:, shipdate:, shipmode:), '
     'orders(orderkey:, custkey:, orderstatus:, orderdate:, orderpriority:)', ""),
    ('sold(orderkey, linenumber, partkey, suppkey, quantity, extendedprice, discount, shipdate, shipmode, custkey, orderstatus, orderdate, '
     'orderpriority, c_name, nationkey, mktsegment) <- lineitem(orderkey:, linenumber:, partkey:, suppkey:, quantity:, extendedprice:, discount:, '
     'shipdate:, shipmode:), orders(orderkey:, custkey:, orderstatus:, orderdate:, orderpriority:), customer(custkey:, name: c_name, nationkey:, '
     'mktsegment:)', ""),
)]
BY_NAME = {query.name: query for query in QUERIES}

# refused, as djq has no join that closes a ring
REFUSED = {"q5"}

# what is kept at once; the largest delta stands last
SETS = {
    "none": (),
    "q3": ("q3",),
    "placed": ("placed",),
    "offered": ("offered",),
    "lines": ("lines",),
    "sold": ("sold",),
    "twelve": ("q2", "q3", "q4", "q7_there", "q8", "q10", "q11", "q12", "q14", "q21", "q18", "q9"),
}

# all that are admitted, for the test
SETS["every"] = tuple(query.name for query in QUERIES if query.name not in REFUSED)

UNIONS = [("q7", ("q7_there", "q7_back"))]

# the heads of TPC-H's own queries: what its `select` and `group by` read, where that leaves a key out
PLAIN_HEADS = {
    "q2": "acctbal s_name n_name partkey mfgr address phone", "q3": "orderkey extendedprice discount orderdate shippriority",
    "q4": "orderpriority", "q7_there": "sold bought shipdate extendedprice discount", "q8": "orderdate extendedprice discount n_name",
    "q9": "n_name orderdate extendedprice discount supplycost quantity", "q10": "custkey c_name extendedprice discount acctbal n_name address phone comment",
    "q11": "partkey supplycost availqty", "q12": "shipmode orderpriority", "q13": "custkey orderkey",
    "q14": "type extendedprice discount", "q15": "suppkey s_name address phone extendedprice discount",
    "q16": "brand type size suppkey", "q17": "extendedprice", "q18": "c_name custkey orderkey orderdate totalprice quantity",
    "q19": "extendedprice discount", "q20": "s_name address", "q21": "s_name",
}


def with_head(query, head):
    """The same query with another head, as djq reads it."""
    return re.sub(r"\(.*?\)", f"({','.join(head.split())})", query.djq(), count=1)


if __name__ == "__main__":
    for one in QUERIES:
        print(f"{one.djq()}\n{one.select()}\n")
