"""The streams whose instructions `count.py` counts: twenty-two kinds of work, each made for a number of rows.

The letters name them in what `count.py` tells. Each stream is the same on every machine.
"""

import random
from dataclasses import dataclass

PATH = "query p(a,b,c,d) <- r(a,b), s(b,c), t(c,d)"
JOIN = "query q(x,y,z) <- r(x,y), s(y,z)"


@dataclass
class Stream:
    """Lines that are run before the count begins, the lines that are counted, how many operations these are, and how
    many lines of answers they are told."""

    before: list
    counted: list
    operations: int
    told: int = 0


def relations(names, columns="int int"):
    return [f"rel {name} {columns}" for name in names]


def add(name, *row):
    return f"add {name} " + " ".join(map(str, row))


def delete(name, *row):
    return f"del {name} " + " ".join(map(str, row))


def below_a_join(rows):
    """Adds to both sides of a join, eight rows a key on each side in the end."""
    chance = random.Random(1)
    keys = max(1, rows // 16)
    lines = [add("r", at, chance.randrange(keys)) for at in range(rows // 2)]
    lines += [add("s", chance.randrange(keys), at) for at in range(rows // 2)]
    chance.shuffle(lines)
    return Stream(relations("rs") + [JOIN], lines, len(lines))


def by_batches(rows):
    """The same rows by batches of a thousand."""
    stream = below_a_join(rows)
    groups = [stream.counted[at : at + 1000] for at in range(0, rows, 1000)]
    stream.counted = [line for group in groups for line in ["batch", *group, "done"]]
    return stream


def done_alone(rows):
    """A thousand rows more below the same, of which `done` alone is counted."""
    stream = below_a_join(rows + 1000)
    before, held = stream.counted[:rows], stream.counted[rows:]
    return Stream([*stream.before, *before, "batch", *held], ["done"], len(held))


def filled_path(rows):
    """A path of three atoms, in which each row has two partners on either side."""
    side = rows // 3
    lines = relations("rst") + [PATH]
    for at in range(side):
        lines += [add("r", at, at // 2), add("s", at // 2, at % (side // 2)), add("t", at // 2, at)]
    return lines


def first_ten(rows):
    """The first ten answers, by a cursor that is opened and closed."""
    return Stream(filled_path(rows), ["open c p", "next c 10", "close c"] * 300, 300, 3000)


def first_ten_behind_dead_ends(rows):
    """The same where nearly each row of the middle has a partner on one side only, and some matches have gone."""
    side = rows // 4 * 2
    lines = relations("rst") + [PATH]
    lines += [add(name, at, at) for name in "rt" for at in range(0, side, 2)]
    lines += [add("s", at, at + 1 - 2 * (at % 2)) for at in range(side)]
    alive = [(at, at) for at in range(side - 40, side, 2)]
    lines += [add("s", *row) for row in alive]
    lines += [delete("s", *row) for row in alive[:5]]
    return Stream(lines, ["open c p", "next c 10", "close c"] * 300, 300, 3000)


def listing(rows):
    """All answers of a join, a thousand a command."""
    lines = relations("rs") + [JOIN]
    for at in range(rows // 2):
        lines += [add("r", at, at // 2), add("s", at // 2, at)]
    answers = rows // 2 // 2 * 4
    return Stream(lines, ["open c q"] + ["next c 1000"] * (answers // 1000 + 1) + ["close c"], answers, answers)


def watched_path(rows):
    """Changes of the middle of a watched path of three atoms, which bring or take sixteen answers each."""
    chance, groups = random.Random(2), rows // 8
    lines = relations("rst") + [PATH]
    for at in range(groups):
        for k in range(4):
            lines += [add("r", 4 * at + k, at), add("t", at, 4 * at + k)]
    counted = []
    for _ in range(200):
        row = chance.randrange(groups), chance.randrange(groups)
        counted += [add("s", *row), delete("s", *row)]
    return Stream([*lines, "watch p"], counted, len(counted), 16 * len(counted))


def skewed(rows):
    """Rows below a join that go and come again; few keys have most of them."""
    chance, keys = random.Random(3), rows // 4
    there = [("r", at, int(keys * chance.random() ** 3)) for at in range(rows // 2)]
    there += [("s", int(keys * chance.random() ** 3), at) for at in range(rows // 2)]
    chance.shuffle(there)
    counted = []
    for row in chance.sample(there, min(rows // 2, 1000)):
        counted += [delete(*row), add(*row)]
    return Stream(relations("rs") + [JOIN] + [add(*row) for row in there], counted, len(counted))


def many_queries(rows, watched):
    """Changes below 64 joins of the same relations, two or three partners each."""
    chance, keys = random.Random(4), rows // 2
    lines = relations("rs") + [JOIN.replace("q(", f"q{at}(") for at in range(64)]
    partners = {key: 3 if key % 4 == 0 else 2 for key in range(keys)}
    lines += [add("s", key, 4 * key + k) for key in range(keys) for k in range(partners[key])]
    if watched:
        lines += [f"watch q{at}" for at in range(64)]
    counted, told = [], 0
    for at in range(50):
        key = chance.randrange(keys)
        counted += [add("r", at, key), delete("r", at, key)]
        told += 2 * 64 * partners[key]
    return Stream(lines, counted, len(counted), told if watched else 0)


def star(rows):
    """Adds below a star of four atoms, two rows a centre in each."""
    chance, centres = random.Random(5), max(1, rows // 8)
    lines = [add(name, at // 2 % centres, at) for name in "rstu" for at in range(rows // 4)]
    chance.shuffle(lines)
    query = "query q(x,a,b,c,d) <- r(x,a), s(x,b), t(x,c), u(x,d)"
    return Stream(relations("rstu") + [query], lines, len(lines))


def hierarchical(rows):
    """Changes of a watched query whose changes cost the same whatever there is; about two rows a key in each relation."""
    chance, keys = random.Random(6), rows // 4
    there = {(name, key): set() for name in "rs" for key in range(keys)}
    counted, told = [], 0
    for at in range(rows):
        there["rs"[at % 2], chance.randrange(keys)].add(at % 8 // 2)
    lines = [add(name, key, value) for (name, key), values in there.items() for value in values]
    for _ in range(1000):
        name, key, value = chance.choice("rs"), chance.randrange(keys), chance.randrange(4)
        own, other = there[name, key], there["s" if name == "r" else "r", key]
        counted.append((delete if value in own else add)(name, key, value))
        before = bool(own)
        own ^= {value}
        told += bool(other) and before != bool(own)
    query = "query h(x) <- r(x,_), s(x,_)"
    return Stream(relations("rs") + [query, *lines, "watch h"], counted, len(counted), told)


def text(number):
    return f'"item {number:07}"'


def below_a_join_of_texts(rows):
    """Adds to both sides of a join by texts of twelve bytes, eight rows a key on each side in the end."""
    chance, keys = random.Random(7), max(1, rows // 16)
    lines = [add("r", at, text(chance.randrange(keys))) for at in range(rows // 2)]
    lines += [add("s", text(chance.randrange(keys)), at) for at in range(rows // 2)]
    chance.shuffle(lines)
    return Stream(["rel r int text", "rel s text int", JOIN], lines, len(lines))


def listing_of_texts(rows):
    """All answers of a join, two texts and an integer each."""
    lines = ["rel r text text", "rel s text int", JOIN]
    for at in range(rows // 2):
        lines += [add("r", text(at), text(at // 2)), add("s", text(at // 2), at)]
    answers = rows // 2 // 2 * 4
    return Stream(lines, ["open c q"] + ["next c 1000"] * (answers // 1000 + 1) + ["close c"], answers, answers)


def moved(rows):
    """A change that makes as many tuples join as there are rows, or stop to."""
    lines = relations("rs") + ["rel t int", "query q(x,y,z) <- r(x,y), s(y,z), t(z)"]
    for at in range(rows):
        lines += [add("r", at, at), add("s", at, 1)]
    return Stream(lines, [add("t", 1), delete("t", 1)] * 10, 20)


def passed_over(rows, into):
    """Adds to a relation beside 64 watched joins, of which no comparison lets a row of `r` through."""
    chance, keys = random.Random(8), rows // 2
    lines = relations("rsu")
    lines += [f"{JOIN.replace('q(', f'q{at}(')}, x < {rows}, y != {-1 - at}" for at in range(64)]
    for at in range(rows):
        lines += [add("r", at, chance.randrange(keys)), add("s", chance.randrange(keys), at)]
    lines += [f"watch q{at}" for at in range(64)]
    counted = [add(into, rows + at, chance.randrange(keys)) for at in range(200)]
    return Stream(lines, counted, len(counted))


def filled_union(rows):
    """A union of four members of a quarter of the rows each, of which each shares half of its answers with the next;
    and how many answers that makes."""
    each, members = rows // 4, ["m0", "m1", "m2", "m3"]
    lines = relations(members) + [f"query {name}(x,y) <- {name}(x,y)" for name in members]
    lines.append(" ".join(["union u", *members]))
    there = [(name, at * (each // 2) + x) for at, name in enumerate(members) for x in range(each)]
    random.Random(9).shuffle(there)
    return lines + [add(name, x, x) for name, x in there], 3 * (each // 2) + each


def first_ten_of_a_union(rows):
    """The first ten answers of a union, by a cursor that is opened and closed."""
    return Stream(filled_union(rows)[0], ["open c u", "next c 10", "close c"] * 300, 300, 3000)


def listing_of_a_union(rows):
    """All answers of a union, a thousand a command."""
    lines, answers = filled_union(rows)
    return Stream(lines, ["open c u"] + ["next c 1000"] * (answers // 1000 + 1) + ["close c"], answers, answers)


def watched_union(rows):
    """Changes of a member, of which half come to an answer of the union and half to one that the next member has."""
    chance, counted, told = random.Random(10), [], 0
    for _ in range(500):
        x = chance.randrange(rows // 4)
        counted += [delete("m0", x, x), add("m0", x, x)]
        told += 2 * (x < rows // 8)
    return Stream([*filled_union(rows)[0], "watch u"], counted, len(counted), told)


def updated(rows):
    """Rows below a watched join that are replaced, each by a transaction, with two partners before and two others after."""
    chance, keys, count = random.Random(11), rows // 4, 300
    keyed = [chance.randrange(keys) for _ in range(rows // 2)]
    lines = relations("rs") + [JOIN] + [add("r", at, key) for at, key in enumerate(keyed)]
    lines += [add("s", at // 2, at) for at in range(2 * keys)]
    counted = []
    for _ in range(count):
        at = chance.randrange(len(keyed))
        old = keyed[at]
        keyed[at] = (old + 1 + chance.randrange(keys - 1)) % keys
        counted += ["batch", delete("r", at, old), add("r", at, keyed[at]), "done 2"]
    return Stream([*lines, "watch q"], counted, count, 4 * count)


def updated_unshown(rows):
    """The same of a column that the query doesn't show: each row has 999 partners, which stay, so nothing is listed."""
    chance, values, count = random.Random(12), [0] * rows, 300
    lines = ["rel r int int int", "rel s int int", "query q(x,y,z) <- r(x,y,_), s(y,z)"]
    lines += [add("s", 0, at) for at in range(999)] + [add("r", at, 0, 0) for at in range(rows)]
    counted = []
    for _ in range(count):
        at = chance.randrange(rows)
        values[at] += 1
        counted += ["batch", delete("r", at, 0, values[at] - 1), add("r", at, 0, values[at]), "done 2"]
    return Stream([*lines, "watch q"], counted, count)


@dataclass
class Workload:
    """A kind of work, how it is made for a number of rows, and that number."""

    what: str
    make: object
    rows: int


WORKLOADS = {
    "A": Workload("an add below a join of two", below_a_join, 2000),
    "A2": Workload("a row of a batch of a thousand below the same", by_batches, 2000),
    "A3": Workload("of that its `done` alone", done_alone, 2000),
    "B": Workload("the first ten answers of a path of three", first_ten, 3000),
    "B2": Workload("the same, most matches being dead ends", first_ten_behind_dead_ends, 4000),
    "C": Workload("an answer of a listing", listing, 4000),
    "D": Workload("a watched change with 16 answers", watched_path, 4000),
    "E": Workload("a skewed delete or the add after it", skewed, 4000),
    "F": Workload("a change below 64 watched joins", lambda rows: many_queries(rows, True), 400),
    "Fu": Workload("the same, unwatched", lambda rows: many_queries(rows, False), 400),
    "G": Workload("an add below a star of four", star, 2000),
    "H": Workload("a watched change of a q-hierarchical query", hierarchical, 4000),
    "I": Workload("an add of an integer and a text", below_a_join_of_texts, 2000),
    "I2": Workload("an answer of two texts", listing_of_texts, 2000),
    "J": Workload("a change that moves N tuples", moved, 500),
    "K": Workload("an add that no comparison lets through, 64 watched queries", lambda rows: passed_over(rows, "r"), 400),
    "K0": Workload("an add that no query reads, beside them", lambda rows: passed_over(rows, "u"), 400),
    "L": Workload("the first ten answers of a union of four", first_ten_of_a_union, 4000),
    "L2": Workload("an answer of a union of four, most of two members", listing_of_a_union, 4000),
    "L3": Workload("a watched change of a union of four", watched_union, 4000),
    "M": Workload("a row replaced below a watched join, 4 answers", updated, 4000),
    "M2": Workload("the same in a column that isn't shown, 999 partners", updated_unshown, 1000),
}

BY_HAND = ["A", "B", "B2", "C", "D", "E", "F", "Fu", "G", "H", "I", "I2", "J"]  # those that the program by hand has

# The instructions of an operation in a program by hand that has hash tables as djq has them, by estimate: it was counted
# on other streams of these kinds, and each count is scaled by what djq of 27 November 2026 took on these and on those.
ALIKE = {
    "A": 1_322,
    "B": 8_078,
    "B2": 10_046,
    "C": 389,
    "D": 11_572,
    "E": 1_483,
    "F": 217_434,
    "Fu": 56_217,
    "G": 1_480,
    "H": 2_225,
    "I": 2_454,
    "I2": 838,
    "J": 382_993,
}
