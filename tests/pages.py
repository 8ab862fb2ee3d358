"""Tests of the pages in docs: what they show is what happens."""

import doctest
import itertools
import os
import random
import re
import socket

from serving import HERE, SECONDS, Server, djq


def blocks(name):
    """The blocks of a page, each with the word behind its fence."""
    with open(os.path.join(HERE, "..", "docs", name), encoding="utf-8") as page:
        return re.findall(r"^```(\w*)\n(.*?)^```$", page.read(), re.MULTILINE | re.DOTALL)


def shown(block):
    """The lines of a session that a page shows, each with its replies, which stand beside it or below."""
    lines = []
    for row in block.splitlines():
        said, _, told = row.partition("  ")
        if said:
            lines.append((said, []))
        if told.strip():
            lines[-1][1].append(told.strip())
    return lines


def run_session(name, block, stream):
    for line, want in shown(block):
        stream.write(line + "\n")
        stream.flush()
        got = [stream.readline().rstrip("\n") for _ in want]
        # answers come in any order
        assert sorted(got) == sorted(want) and got[-1] == want[-1], f"{name}: {line}: got {got}, want {want}"


def run_python(name, block, names):
    told = []
    test = doctest.DocTestParser().get_doctest(block, names, name, name, 0)
    doctest.DocTestRunner(verbose=False).run(test, out=told.append, clear_globs=False)
    assert not told, "".join(told)
    names.update(test.globs)


def run_page(name, program, behind=lambda client: None):
    """Runs the blocks of a page, those of a session and those of Python, over one server, and what comes behind them.
    Gives how many there were of each."""
    ran = {"djq": 0, "python": 0}
    with Server(program) as server, server.connect() as client:
        names = {"server": client, "djq": djq}
        raw = socket.create_connection(("127.0.0.1", server.port), SECONDS)
        with raw, raw.makefile("rw", newline="\n") as stream:
            for kind, block in blocks(name):
                if kind == "djq":
                    run_session(name, block, stream)
                elif kind == "python":
                    run_python(name, block, names)
                if kind in ran:
                    ran[kind] += 1
        behind(client)
    return ran


def test_recipes(program):
    ran = run_page("RECIPES.md", program)
    assert ran == {"djq": 0, "python": 26}, ran


def test_queries(program):
    def helper_is_in_step(client):
        client.query("helped_too(a,b,c,d) <- helped(a,b,c,d)")
        assert client.snapshot("helped_too") == client.snapshot("limits_of") != set()

    ran = run_page("QUERIES.md", program, helper_is_in_step)
    assert ran == {"djq": 11, "python": 1}, ran


# The three rules of QUERIES.md, tried out


def neighbours(edges):
    return {(one, two) for edge in edges for one in edge for two in edge if one != two}


def has_open_ring(variables, near):
    """Whether a ring of four or more has no shortcut."""
    for count in range(4, len(variables) + 1):
        for ring in itertools.permutations(variables, count):
            apart = [(ring[i], ring[j]) for i in range(count) for j in range(i + 2, count) if (i, j) != (0, count - 1)]
            if all((ring[i - 1], ring[i]) in near for i in range(count)) and not near.intersection(apart):
                return True
    return False


def has_loose_clique(variables, near, edges):
    """Whether variables that are all neighbours stand in no atom all together."""
    for count in range(3, len(variables) + 1):
        for some in itertools.combinations(variables, count):
            if near.issuperset(itertools.combinations(some, 2)) and not any(set(some) <= edge for edge in edges):
                return True
    return False


def has_way_outside(variables, near, head):
    """Whether two variables of the head that aren't neighbours have a way between them outside the head."""
    for one in head:
        reached, waiting = {one}, [one]
        while waiting:
            here = waiting.pop()
            for there in variables:
                if (here, there) in near and there not in reached:
                    if there in head and here != one and (one, there) not in near:
                        return True
                    if there not in head:
                        reached.add(there)
                        waiting.append(there)
    return False


def judged(edges, head):
    variables, near = sorted(set().union(*edges)), neighbours(edges)
    if has_open_ring(variables, near) or has_loose_clique(variables, near, edges):
        return djq.Cyclic
    return djq.NotFreeConnex if has_way_outside(variables, near, head) else None


def test_the_rules_of_the_page(program):
    draw, seen = random.Random(1), set()
    with Server(program) as server, server.connect() as client:
        for columns in range(1, 5):
            client.relation(f"r{columns}", *[int] * columns)
        for _ in range(200):
            edges = [set(draw.sample("abcde", draw.choice((1, 2, 2, 2, 3, 3, 4)))) for _ in range(draw.randint(1, 6))]
            variables = sorted(set().union(*edges))
            head = draw.sample(variables, draw.randint(0, len(variables)))
            atoms = ", ".join(f"r{len(edge)}({','.join(sorted(edge))})" for edge in edges)
            wanted = judged(edges, head)
            seen.add(wanted)
            try:
                client.query(f"q({','.join(head)}) <- {atoms}")
                got = client.drop("q")
            except djq.NotFreeConnex as error:
                got = type(error)
            assert got is wanted, (head, atoms, got, wanted)
    assert len(seen) == 3


TESTS = [test_recipes, test_queries, test_the_rules_of_the_page]
