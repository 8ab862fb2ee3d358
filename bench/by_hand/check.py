#!/usr/bin/env python3
"""Whether the program by hand replies as djq does: python3 bench/by_hand/check.py PROGRAM BY_HAND.

Both are run on small streams of each kind of work that the one by hand has, on random changes below queries of many
shapes, and on lines that are refused. The lines of a delta are compared as a set, and so are the answers of a listing;
of a listing that stops before its end it is compared how many there are, and each is looked for among all answers.
"""

import argparse
import os
import random
import subprocess
import sys

sys.path.insert(0, os.path.join(os.path.dirname(os.path.abspath(__file__)), ".."))
from workloads import BY_HAND, WORKLOADS, add, delete, relations  # noqa: E402

SHAPES = [
    "(x,y,z) <- r(x,y), s(y,z)",
    "(a,b,c,d) <- r(a,b), s(b,c), t(c,d)",
    "(b,c) <- r(a,b), s(b,c), t(c,d)",
    "(x,a,b,c) <- r(x,a), s(x,b), t(x,c)",
    "(x) <- r(x,_), s(x,_)",
    "(x) <- r(x,y), s(y,z)",
    "(x,y,z) <- r(x,y), s(y,z), u(z)",
    "(x,y) <- r(x,y), s(x,y)",
    "(x,y,z) <- r(x,y), r(y,z)",
    "(x,y,z) <- r(x,y), r(x,z), u(x)",
    "(x) <- r(x,x), s(x,1), u(x)",
    "(x,y,z,w) <- r(x,y), s(z,w)",
    "(y,x,a) <- s(x,y), r(x,y), t(x,a), u(y)",
    "(x,y,b,c) <- r(x,y), s(x,c), w(x,y,b), u(b)",
    "(a,b,c) <- w(a,b,c), r(a,b), s(b,c), t(a,c)",
    "(a,b,n) <- w(a,b,_), v(b,n)",
    "(n,b) <- v(b,n), r(b,_)",
    '(b) <- v(b,"two")',
    "() <- r(x,y), s(y,x)",
    "() <- r(1,2)",
    "(z) <- u(z), r(1,2), s(z,_)",
    "(x,y) <- u(x), u(y)",
    "(c,d,e) <- r(a,b), s(b,c), t(c,d), r(d,e)",
]
REFUSED = r"""foo
rel
rel r flt
rel r int
rel R int
add
add r
add r 1
add r 1 2 3
add r 1 "a"
add nor 1
add r 1,2
add r 1"a"
add v 1 "a
add v 1 "a\x"
add v 1 "\"\\\n"
del v 1 "\"\\\n"
add r 9223372036854775808 1
add nor 9223372036854775808
add r -9223372036854775808 9223372036854775807
add  r -0   007
del r 0 7
del r 0 7
del v 1 "none"
add v 1 "ä€😀"
query q
query q(x) <-
query q(x) <- nor(x)
query q(x) <- r(x)
query q(x) <- r(x,_
query q(x) <- r(x,"a")
query q(x) <- v(x,1)
query q(x) <- r(x,y), v(_,y)
query q(z) <- r(x,y)
query q(x,x) <- r(x,y)
query q(x) <- r(x,99999999999999999999)
query p(x) <- r(x,_)
query  k ( x )<-r( x ,_ ),s(x , 3)
open c nor
open c
open c p q
open c p
open c p
next
next c
next c 0
next c 1001
next c 0001
next c -1
next d 1
next c1
close
close d
close c x
add r 5 5
next c 1
close c
close c
watch
watch nor
watch p q
watch p
del r 5 5
quit now
watch p
"""


def replies(program, lines):
    """What a program says to the lines, and `quit` behind them."""
    text = "\n".join([*lines, "quit", ""]).encode()
    done = subprocess.run([program, "run"], input=text, stdout=subprocess.PIPE, check=True)
    return done.stdout.decode().split("\n")


def whole(query):
    """Lists all answers."""
    return [f"open whole {query}", *["next whole 1000"] * 8, "close whole"]


def settled(told):
    """The lines with each delta in order and without the answers of listings, and these; a whole listing has `end`."""
    lines, delta, listings = [], [], []
    for line in told:
        if line.startswith(("+ ", "- ")):
            delta.append(line)
            continue
        lines += sorted(delta)
        delta = []
        if line.startswith("="):
            listings[-1].append(line)
            line = "="
        elif line == "ok open":
            listings.append([])
        elif line == "end":
            listings[-1].append(line)
        lines.append(line)
    return lines + delta, listings


def are_same(ours, theirs):
    """Whether two programs replied the same."""
    (lines, listings), (others, other_listings) = settled(ours), settled(theirs)
    if lines != others or len(listings) != len(other_listings):
        return False
    every = set().union(*(listing for listing in listings if "end" in listing))
    for one, other in zip(listings, other_listings):
        if len(set(one)) != len(set(other)) or ("end" in one and set(one) != set(other)) or set(other) - every:
            return False
    return True


def random_stream(seed, shape):
    """Changes of rows below a query, which is registered and watched on the way, and listed now and then."""
    chance, rows = random.Random(seed), []
    lines = [*relations("rst"), "rel u int", "rel v int text", "rel w int int int"]
    for at in range(200):
        if at == seed % 50:
            lines += [f"query q{shape}", "watch q"]
        if at % 40 == 39 and at > 50:
            lines += whole("q")
        if rows and chance.random() < 0.4:
            lines.append(delete(*rows.pop(chance.randrange(len(rows)))))
            continue
        name = chance.choice([name for name in "rstuvw" if f"{name}(" in shape])
        values = [chance.randrange(4) for _ in range({"u": 1, "w": 3}.get(name, 2))]
        if name == "v":
            values[1] = chance.choice(['"one"', '"two"', '"\\"three\\n"'])
        rows.append((name, *values))
        lines.append(add(*rows[-1]))
    for row in rows:
        lines.append(delete(*row))
    return [*lines, *whole("q")]


def streams():
    """All streams, by a name."""
    for name in BY_HAND:
        for rows in (32, 160):
            stream = WORKLOADS[name].make(rows)
            queries = [line.split("(")[0].split()[1] for line in stream.before if line.startswith("query")]
            ends = [line for query in queries for line in whole(query)]
            yield f"{name} with {rows} rows", [*stream.before, *stream.counted, *ends]
    for shape in SHAPES:
        for seed in range(20):
            yield f"q{shape}, {seed}", random_stream(seed, shape)
    texts = [f'add v 1 "{"a" * length}" ' for length in (255, 256)]
    yield "refusals", [*relations("rst"), "rel v int text", "", "   ", *texts, *REFUSED.splitlines()]


def main():
    words = argparse.ArgumentParser(description=__doc__.splitlines()[0])
    words.add_argument("program")
    words.add_argument("by_hand")
    given = words.parse_args()
    passed = failed = 0
    for name, lines in streams():
        if are_same(replies(given.program, lines), replies(given.by_hand, lines)):
            passed += 1
        else:
            failed += 1
            print(f"different: {name}")
    print(f"{passed} passed, {failed} failed")
    sys.exit(1 if failed else 0)


if __name__ == "__main__":
    main()
