#!/usr/bin/env python3
"""Draws the join tree by which a query is kept, as text or for Graphviz.

    crates/djq/out/djq serve 127.0.0.1:7007 &
    python3 examples/explain.py 127.0.0.1:7007

Without a further word it explains a query of its own, over three relations that it makes where they aren't there. A
word names a registered query, or is the text of one, which is registered and dropped again:

    python3 examples/explain.py 127.0.0.1:7007 'q(x) <- flights(x,_)' --dot | dot -Tsvg > tree.svg

What the nodes mean stands in docs/PROTOCOL.md, Reading explain. Nodes in brackets aren't gone through as answers are
listed. A query that isn't admitted is told with the ring of variables that is left of it.
"""

import argparse
import os
import re
import sys

sys.path.insert(0, os.path.join(os.path.dirname(os.path.abspath(__file__)), "..", "clients", "python"))
import djq

RELATIONS = [("people", (int, str)), ("trips", (int, str, str)), ("flights", (str, int))]
QUERY = "trip(person,name,town) <- people(person,name), trips(person,town,_), flights(town,_)"


class Node:
    """A line of `explain`: `n NUMBER leaf RELATION VARIABLES`, or `trim` or `meet` and the nodes below in its place."""

    def __init__(self, line):
        words = line.split(" ")
        self.out = words[-1] == "out"
        self.number, self.kind, *rest = words[1 : len(words) - self.out]
        self.variables = rest.pop()
        self.below = [] if self.kind == "leaf" else rest
        self.name = f"{self.kind} {rest[0]}" if self.kind == "leaf" else self.kind
        self.text = f"{self.number} {self.name}  {self.variables}"


def drawn(nodes, number, first="", further=""):
    """The lines of a node and of those below it, the root on top."""
    node = nodes[number]
    yield first + (node.text if node.out else f"({node.text})")
    for at, child in enumerate(node.below):
        last = at == len(node.below) - 1
        yield from drawn(nodes, child, further + ("└── " if last else "├── "), further + ("    " if last else "│   "))


def dot(nodes):
    """The lines of a graph for Graphviz."""
    yield "digraph {"
    for node in nodes.values():
        shape = "box" if node.kind == "leaf" else "ellipse"
        style = "" if node.out else " style=dashed"
        yield f'  {node.number} [label="{node.name}\\n{node.variables}" shape={shape}{style}]'
        for child in node.below:
            yield f"  {node.number} -> {child}"
    yield "}"


def prepare(server):
    for name, types in RELATIONS:
        try:
            server.relation(name, *types)
        except djq.Taken:
            pass


def main():
    words = argparse.ArgumentParser(description=__doc__.splitlines()[0])
    words.add_argument("address", help="HOST:PORT of a server")
    words.add_argument("query", nargs="?", help="a registered query's name, or a query's text")
    words.add_argument("--dot", action="store_true", help="write a graph for Graphviz")
    given = words.parse_args()
    host, _, port = given.address.rpartition(":")
    with djq.connect(host, int(port)) as server:
        if given.query is None:
            prepare(server)
        text = given.query or QUERY
        name = re.match(r" *(\w*)", text)[1]
        try:
            if "<-" in text:
                server.query(text)
            told = server.explain(name)
            if "<-" in text:
                server.drop(name)
        except djq.Refused as error:
            sys.exit(str(error))
    nodes = {node.number: node for node in map(Node, told)}
    root = list(nodes)[-1]
    print("\n".join(dot(nodes) if given.dot else drawn(nodes, root)))


if __name__ == "__main__":
    try:
        main()
    except djq.Error as error:
        sys.exit(str(error))
