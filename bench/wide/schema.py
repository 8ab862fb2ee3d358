"""The eight tables of TPC-H, their rows by a scale factor, and a stream of changes. The same numbers give the same rows everywhere.

Money is in hundredths, a rate in percent, and a date the days since the first of January 1992. All else is as TPC-H has it, but
that order keys have no gaps and that names and comments are cut from a text of our own.
"""

import datetime
import random

INT, TEXT = "int", "text"


class Table:
    """A table: its columns with their types, and those that are its key."""

    def __init__(self, name, key, columns):
        self.name = name
        self.key = key.split()
        self.columns = {}
        for word in columns.split():
            column, _, kind = word.partition(":")
            self.columns[column] = TEXT if kind else INT
        self.places = {column: at for at, column in enumerate(self.columns)}

    def value(self, row, column):
        return row[self.places[column]]

    def key_of(self, row):
        return tuple(self.value(row, column) for column in self.key)

    def changed(self, row, column, value):
        at = self.places[column]
        return (*row[:at], value, *row[at + 1:])


TABLES = {table.name: table for table in (
    Table("region", "regionkey", "regionkey name:t comment:t"),
    Table("nation", "nationkey", "nationkey name:t regionkey comment:t"),
    Table("supplier", "suppkey", "suppkey name:t address:t nationkey phone:t acctbal comment:t"),
    Table("part", "partkey", "partkey name:t mfgr:t brand:t type:t size container:t retailprice comment:t"),
    Table("partsupp", "partkey suppkey", "partkey suppkey availqty supplycost comment:t"),
    Table("customer", "custkey", "custkey name:t address:t nationkey phone:t acctbal mktsegment:t comment:t"),
    Table("orders", "orderkey", "orderkey custkey orderstatus:t totalprice orderdate orderpriority:t clerk:t shippriority comment:t"),
    Table("lineitem", "orderkey linenumber", "orderkey partkey suppkey linenumber quantity extendedprice discount tax returnflag:t "
          "linestatus:t shipdate commitdate receiptdate shipinstruct:t shipmode:t comment:t"),
)}

# what an update may change, of which table
UPDATES = [("orders", "orderstatus"), ("lineitem", "quantity"), ("partsupp", "availqty"), ("customer", "nationkey"), ("nation", "regionkey")]

REGIONS = "AFRICA AMERICA ASIA EUROPE MIDDLE_EAST".split()
NATIONS = [("ALGERIA", 0), ("ARGENTINA", 1), ("BRAZIL", 1), ("CANADA", 1), ("EGYPT", 4), ("ETHIOPIA", 0), ("FRANCE", 3), ("GERMANY", 3),
           ("INDIA", 2), ("INDONESIA", 2), ("IRAN", 4), ("IRAQ", 4), ("JAPAN", 2), ("JORDAN", 4), ("KENYA", 0), ("MOROCCO", 0),
           ("MOZAMBIQUE", 0), ("PERU", 1), ("CHINA", 2), ("ROMANIA", 3), ("SAUDI ARABIA", 4), ("VIETNAM", 2), ("RUSSIA", 3),
           ("UNITED KINGDOM", 3), ("UNITED STATES", 1)]
SEGMENTS = "AUTOMOBILE BUILDING FURNITURE HOUSEHOLD MACHINERY".split()
PRIORITIES = ["1-URGENT", "2-HIGH", "3-MEDIUM", "4-NOT SPECIFIED", "5-LOW"]
INSTRUCTIONS = ["COLLECT COD", "DELIVER IN PERSON", "NONE", "TAKE BACK RETURN"]
MODES = ["AIR", "FOB", "MAIL", "RAIL", "REG AIR", "SHIP", "TRUCK"]
TYPES = [f"{a} {b} {c}" for a in "ECONOMY LARGE MEDIUM PROMO SMALL STANDARD".split()
         for b in "ANODIZED BRUSHED BURNISHED PLATED POLISHED".split() for c in "BRASS COPPER NICKEL STEEL TIN".split()]
CONTAINERS = [f"{a} {b}" for a in "JUMBO LG MED SM WRAP".split() for b in "BAG BOX CAN CASE DRUM JAR PACK PKG".split()]
COLOURS = ("almond aquamarine azure beige black blue brown coral cream cyan drab firebrick forest frosted ghost green grey honey indian "
           "ivory khaki lace lemon linen magenta maroon midnight mint navy olive orange orchid pale peach pink plum puff purple red rose "
           "salmon sandy sienna sky smoke snow steel tan thistle tomato turquoise violet wheat white yellow").split()
WORDS = ("accounts among bold carefully deposits even final foxes furiously ideas instructions ironic never packages pending pinto "
         "quickly regular requests silent sleep slyly special theodolites unusual waters wake above the of").split()

FIRST_DAY = datetime.date(1992, 1, 1)
LAST_ORDER = (datetime.date(1998, 8, 2) - FIRST_DAY).days
TODAY = (datetime.date(1995, 6, 17) - FIRST_DAY).days


def day(text):
    """The days from the first of January 1992 to a date, as `1995-03-15`."""
    return (datetime.date.fromisoformat(text) - FIRST_DAY).days


class Rows:
    """Makes rows, each from the random numbers that come next."""

    def __init__(self, scale, seed=1):
        self.random = random.Random(seed)
        self.suppliers = max(20, round(10_000 * scale))
        self.parts = max(40, round(200_000 * scale))
        self.customers = max(30, round(150_000 * scale))
        self.orders = max(100, round(1_500_000 * scale))
        self.clerks = max(10, round(1_000 * scale))
        words = [self.one_of(WORDS) for _ in range(20_000)]
        self.pool = " ".join(words)
        self.sellers = {}

    def below(self, count):
        return int(self.random.random() * count)

    def between(self, least, most):
        return least + self.below(most - least + 1)

    def one_of(self, values):
        return values[self.below(len(values))]

    def comment(self, least, most):
        """So many bytes of the pool."""
        size = self.between(least, most)
        at = self.below(len(self.pool) - size)
        return self.pool[at:at + size].strip()

    def phone(self, nation):
        return f"{nation + 10}-{self.between(100, 999)}-{self.between(100, 999)}-{self.between(1000, 9999)}"

    def region(self, key):
        return key, REGIONS[key].replace("_", " "), self.comment(31, 115)

    def nation(self, key):
        name, region = NATIONS[key]
        return key, name, region, self.comment(31, 114)

    def supplier(self, key):
        nation = self.below(len(NATIONS))
        return key, f"Supplier#{key:09}", self.comment(10, 40), nation, self.phone(nation), self.between(-99999, 999999), self.comment(25, 100)

    def price(self, part):
        return 90_000 + (part // 10) % 20_001 + 100 * (part % 1_000)

    def part(self, key):
        maker = self.between(1, 5)
        name = " ".join(self.one_of(COLOURS) for _ in range(5))
        return (key, name, f"Manufacturer#{maker}", f"Brand#{maker}{self.between(1, 5)}", self.one_of(TYPES), self.between(1, 50),
                self.one_of(CONTAINERS), self.price(key), self.comment(5, 22))

    def sellers_of(self, part):
        """The four suppliers of a part."""
        if part not in self.sellers:
            step = self.suppliers // 4 + (part - 1) // self.suppliers
            found, at = [], part
            while len(found) < 4:
                seller = at % self.suppliers + 1
                at += 1 if seller in found else step
                if seller not in found:
                    found.append(seller)
            self.sellers[part] = found
        return self.sellers[part]

    def partsupp(self, part, seller):
        return part, seller, self.between(1, 9999), self.between(100, 100_000), self.comment(49, 198)

    def customer(self, key):
        nation = self.below(len(NATIONS))
        return (key, f"Customer#{key:09}", self.comment(10, 40), nation, self.phone(nation), self.between(-99999, 999999),
                self.one_of(SEGMENTS), self.comment(29, 116))

    def order(self, key):
        """An order and its lines."""
        date = self.below(LAST_ORDER + 1)
        customer = self.between(1, self.customers)
        while customer % 3 == 0 and self.customers > 3:  # a third of the customers have no orders
            customer = self.between(1, self.customers)
        lines = [self.line(key, number, date) for number in range(1, self.between(1, 7) + 1)]
        done = sum(1 for line in lines if line[9] == "F")
        status = "F" if done == len(lines) else "P" if done else "O"
        total = sum(line[5] * (100 - line[6]) * (100 + line[7]) // 10_000 for line in lines)
        head = (key, customer, status, total, date, self.one_of(PRIORITIES), f"Clerk#{self.between(1, self.clerks):09}", 0, self.comment(19, 78))
        return head, lines

    def line(self, order, number, date):
        part = self.between(1, self.parts)
        seller = self.one_of(self.sellers_of(part))
        quantity = self.between(1, 50)
        shipped = date + self.between(1, 121)
        received = shipped + self.between(1, 30)
        return (order, part, seller, number, quantity, quantity * self.price(part), self.between(0, 10), self.between(0, 8),
                self.one_of("RA") if received <= TODAY else "N", "O" if shipped > TODAY else "F", shipped, date + self.between(30, 90),
                received, self.one_of(INSTRUCTIONS), self.one_of(MODES), self.comment(10, 43))


class Stream:
    """All rows in a random order, and then changes of them, each of which follows from the state before it."""

    def __init__(self, scale, changes, seed=1):
        self.rows = Rows(scale, seed)
        self.tables = {name: {} for name in TABLES}
        self.lines = {}
        for name, row in self.made():
            self.put(name, row)
        self.load = [("insert", name, row) for name, rows in self.tables.items() for row in rows.values()]
        self.rows.random.shuffle(self.load)
        self.order_keys, self.offers = list(self.tables["orders"]), list(self.tables["partsupp"])
        self.changes = []
        nations = {changes * part // 5 for part in range(1, 5)}
        while len(self.changes) < changes:
            if nations and len(self.changes) >= min(nations):
                nations.remove(min(nations))
                self.changes.append(self.moved("nation", self.rows.below(len(NATIONS)), "regionkey", len(REGIONS)))
            self.next_change()
        # an order that was begun is whole: so there may be a few more changes than were asked for

    def made(self):
        rows = self.rows
        yield from (("region", rows.region(key)) for key in range(len(REGIONS)))
        yield from (("nation", rows.nation(key)) for key in range(len(NATIONS)))
        yield from (("supplier", rows.supplier(key)) for key in range(1, rows.suppliers + 1))
        for part in range(1, rows.parts + 1):
            yield "part", rows.part(part)
            yield from (("partsupp", rows.partsupp(part, seller)) for seller in rows.sellers_of(part))
        yield from (("customer", rows.customer(key)) for key in range(1, rows.customers + 1))
        for key in range(1, rows.orders + 1):
            yield from self.of_order(*rows.order(key))

    @staticmethod
    def of_order(head, lines):
        yield "orders", head
        yield from (("lineitem", line) for line in lines)

    def put(self, name, row):
        self.tables[name][TABLES[name].key_of(row)] = row
        if name == "lineitem":
            self.lines.setdefault(row[0], []).append(row[3])

    def next_change(self):
        """One event: an order comes with its lines, one goes, or a quantity, a status or, seldom, a customer's nation changes."""
        chance = self.rows.below(1000)
        if chance < 110:
            self.new_order()
        elif chance < 220 and len(self.order_keys) > 1:
            self.drop_order()
        elif chance < 620:
            order = self.one_order()
            line = self.rows.one_of(self.lines[order])
            self.changes.append(self.updated("lineitem", (order, line), "quantity", self.rows.between(1, 50)))
        elif chance < 740:
            self.changes.append(self.updated("partsupp", self.rows.one_of(self.offers), "availqty", self.rows.between(1, 9999)))
        elif chance < 998:
            self.changes.append(self.updated("orders", (self.one_order(),), "orderstatus", self.rows.one_of("FOP")))
        else:
            self.changes.append(self.moved("customer", self.rows.between(1, self.rows.customers), "nationkey", len(NATIONS)))

    def one_order(self):
        return self.rows.one_of(self.order_keys)[0]

    def new_order(self):
        self.rows.orders += 1
        for name, row in self.of_order(*self.rows.order(self.rows.orders)):
            self.put(name, row)
            self.changes.append(("insert", name, row))
        self.order_keys.append((self.rows.orders,))

    def drop_order(self):
        at = self.rows.below(len(self.order_keys))
        self.order_keys[at], self.order_keys[-1] = self.order_keys[-1], self.order_keys[at]
        (order,) = self.order_keys.pop()
        for line in self.lines.pop(order):
            self.changes.append(("delete", "lineitem", self.tables["lineitem"].pop((order, line))))
        self.changes.append(("delete", "orders", self.tables["orders"].pop((order,))))

    def updated(self, name, key, column, value):
        old = self.tables[name][key]
        if value == TABLES[name].value(old, column):  # another one
            value = value + 1 if isinstance(value, int) else "O" if value == "F" else "F"
        new = TABLES[name].changed(old, column, value)
        self.tables[name][key] = new
        return "update", name, old, new, column

    def moved(self, name, key, column, count):
        """A row's key of another table becomes a different one."""
        old = TABLES[name].value(self.tables[name][key,], column)
        return self.updated(name, (key,), column, (old + self.rows.between(1, count - 1)) % count)
