#!/usr/bin/env python3
"""The mirror of the built program: what a session was sent, against what the server lists.

    tests/mirror.py PATH_TO_DJQ [--rounds N] [--seed S]

A session watches a query, lists it and goes on while other sessions change rows at random; every byte that it was sent
is kept. Put through `djq mirror`, they have to come to what a fresh listing says, at moments of every kind: in the middle
of a listing, behind a change that gave one up, and once all is known. Then each kind of line that can't be followed is
tried, and a long input is read. One line is printed for each test that fails, and last `N passed, N failed`; the status
is 0 where none failed. It needs Python's standard library alone.
"""

import argparse
import random
import subprocess
import sys
import time

sys.dont_write_bytecode = True
from harness import expect, run_tests, test  # noqa: E402

PATIENCE = 60


def mirror(program, sent, query="q"):
    """What a mirror of a query writes of what a session was sent, and its status."""
    done = subprocess.run([program, "mirror", query], input=sent, capture_output=True, timeout=PATIENCE, check=False)
    return done.stdout, done.returncode


def replayed(program, schedule):
    """What each session of a schedule was sent, by its number."""
    text = "".join(line + "\n" for line in schedule).encode()
    done = subprocess.run([program, "replay"], input=text, capture_output=True, timeout=PATIENCE, check=False)
    expect(done.returncode, 0, "status of replay")
    sent = {}
    for line in done.stdout.splitlines(keepends=True):
        number, _, rest = line.partition(b"< ")
        sent[int(number)] = sent.get(int(number), b"") + rest
    return sent


def random_row(draw):
    return f"{draw.choice(['r', 's'])} {draw.randrange(6)} {draw.choice([0, 1, 2])}"


def random_change(draw):
    return f"{draw.choice(['add', 'add', 'add', 'del'])} {random_row(draw)}"


def random_batch(draw):
    """A batch; lines that aren't for one, or that open a second one, are refused in it. Some are refused as a whole, for a row
    that isn't there, or another number of lines."""
    held = [f"{draw.choice(['add', 'add', 'del'])} {random_row(draw)}" for _ in range(draw.randrange(6))]
    if draw.random() < 0.2:
        held.insert(draw.randrange(len(held) + 1), draw.choice(["batch", "next c 3", "open d q", "has q 1 1", "add r", "del r"]))
    return ["batch", *held, draw.choice(["done", "done", "done", f"done {len(held)}", "abandon"])]


def random_schedule(draw):
    """Session 1 watches q and lists it again and again; 2 and 3 change rows; 4 lists q at the end. Now and then q is a
    union, whose members share answers, and session 1 registers another one beside it."""
    lines = [f"open {i}" for i in (1, 2, 3, 4)]
    lines += ["say 2 rel r int int", "say 2 rel s int int", "say 2 query qq(x) <- r(x,_)"]
    if draw.random() < 0.5:
        lines += ["say 2 query q(x,y,z) <- r(x,y), s(z,y)"]
    else:
        lines += ["say 2 query one(x,y,z) <- r(x,y), s(z,y)", "say 2 query two(z,y,x) <- r(x,y), s(z,y), y > 0"]
        lines += ["say 2 query three(y,x,z) <- r(x,z), s(x,y)", "say 2 union q one two three"]
    lines += ["say 1 watch q"]
    if draw.random() < 0.3:
        lines += ["say 1 query other(x) <- s(x,_)", "say 1 union both qq other", "say 1 union both qq qq"]
    is_open = False
    held = []  # lines of a batch of session 3, between which the others go on
    for _ in range(draw.randrange(5, 120)):
        kind = draw.randrange(12)
        if kind < 5:
            lines.append(f"say 2 {random_change(draw)}")
        elif kind == 5:
            lines.append(f"say 1 {random_change(draw)}")
        elif kind == 10:
            lines += [f"say {number} {line}" for number in [draw.choice([1, 2])] for line in random_batch(draw)]
        elif kind == 11:
            held = held or random_batch(draw)
            lines.append(f"say 3 {held.pop(0)}")
        elif kind == 6 and is_open:
            lines.append("say 1 close c")
            is_open = False
        elif not is_open:
            lines.append("say 1 open c q")
            is_open = True
        else:
            lines.append(f"say 1 next c {draw.choice([1, 3, 1000])}")
    if draw.random() < 0.3:
        # all is listed in the end, and changes go on
        lines += ["say 1 close c"] if is_open else []
        lines += ["say 1 open c q", "say 1 next c 1000"]
        lines += [f"say 2 {random_change(draw)}" for _ in range(draw.randrange(8))]
    return lines


@test
def random_sessions_are_followed(program, options):
    draw = random.Random(options.seed)
    live = 0
    for _ in range(options.rounds):
        lines = random_schedule(draw)
        sent = replayed(program, [*lines, "say 4 open all q", "say 4 next all 1000"])
        written, status = mirror(program, sent[1])
        expect(status, 0, "\n".join(lines))
        if written == b"none\n":
            continue
        live += 1
        listed = sorted(line for line in sent[4].splitlines(keepends=True) if line.startswith(b"="))
        expect(written, b"".join(listed) + b"end\n", "\n".join(lines))
    if options.rounds >= 50 and live < options.rounds // 10:
        raise AssertionError(f"the answers were known in {live} of {options.rounds} sessions alone")


@test
def every_first_part_is_followed(program, options):
    """A session's bytes are followed up to each line, as it may be asked at any moment."""
    sent = replayed(program, random_schedule(random.Random(options.seed + 1)))[1].splitlines(keepends=True)
    for count in range(len(sent)):
        written, status = mirror(program, b"".join(sent[:count]))
        expect(status, 0, f"first {count} lines")
        expect(written.endswith((b"end\n", b"none\n")), True, f"first {count} lines")


@test
def lines_that_cant_be_followed_are_told(program, options):
    known = b"ok watch 0\nok open\n= 1 \"a\"\nend\n"
    for line in [
        b"= 2 \"b\"\n", b"more\n", b"+ q 1 \"a\"\n", b"- q 2 \"b\"\n", b"ok watch", b"nonsense\n", b"= 01\n", b"=  1\n", b"= 1 \n", b"= -0\n",
        b"= \"\\a\"\n", b"= 9223372036854775808\n", b"ok added 1\n", b"ok added 01 1\n", b"err 15 later\n", b"\n", b"end long \n", b"at q\n",
        b"ok union\n", b"ok union 01\n", b"ok union a\n", b"m\n", b"m A\n", b"m a b\n", b"union q\n",
        b"err 17 unbound\n",
        b"ok batch 1\n", b"ok held\n", b"ok held 01\n", b"ok done 1\n", b"ok done 1 01\n", b"err 18\n",
        b"err 19\n", b"err 19 held\n", b"err 20\n", b"err 20 absent\n", b"err 21 held\n",
        b"stale c r\n", b"= \"\xff\"\n", b"ok\r\n", b"no cyclic\n", b"n 0 leaf r\n", b"x" * 16385 + b"\n", b"x" * 20000,
    ]:
        expect(mirror(program, known + line), (b"mirror 5\n", 12), repr(line[:40]))
    for line in [b"end\n", b"at q 7\n", b"+ p 1\n", b"- p 1\n", b"at p 7\n", b"ok\n", b"ok added 18446744073709551615 4294967295\n",
                 b"ok query 33\n", b"no cyclic x,y y,z z,x\n", b"no connex x,_ y\n", b"yes\n", b"flat\n",
                 b"union\n", b"ok union 8\n", b"m a\n", b"m union_1\n", b"err 17 member\n",
                 b"err 16 unbound\n", b"err 18 batch\n", b"err 19 absent\n", b"err 20 held\n",
                 b"ok batch\n", b"ok held 1\n", b"ok held 65536\n", b"ok done 0 0\n", b"ok done 18446744073709551615 65536\n", b"bye\n",
                 b"end slow\n",
                 b"n 0 leaf r x,_\n", b"n 12 trim 3 - out\n", b"n 3 meet 0 1 x out\n"]:
        expect(mirror(program, known + line), (b"= 1 \"a\"\nend\n", 0), repr(line))
    # a delta of both signs, in any order
    for lines in (b"+ q 2 \"b\"\n- q 1 \"a\"\nat q 7\n", b"- q 1 \"a\"\n+ q 2 \"b\"\nat q 7\n"):
        expect(mirror(program, known + lines), (b"= 2 \"b\"\nend\n", 0), "an update")
    expect(mirror(program, known + b"stale c r 1\n"), (b"none\n", 0), "stale")
    expect(mirror(program, b""), (b"none\n", 0), "nothing")


@test
def other_words_are_no_command(program, options):
    for words in [[], ["Q"], ["q", "p"], ["1q"], ["q" * 33]]:
        done = subprocess.run([program, "mirror", *words], input=b"", capture_output=True, timeout=PATIENCE, check=False)
        expect((done.stdout[:6], done.returncode), (b"usage:", 1), repr(words))
    expect(mirror(program, b"", "q" * 32), (b"none\n", 0), "a name of 32 bytes")


@test
def a_long_input_is_followed(program, options):
    """200,000 answers that are listed, and then half of them go."""
    count = 200_000
    sent = b"ok watch 0\nok open\n" + b"".join(b"= %d %d\n" % (i, i * i) for i in range(count)) + b"end\n"
    sent += b"".join(b"- q %d %d\nat q %d\n" % (i, i * i, i + 1) for i in range(0, count, 2))
    began = time.monotonic()
    written, status = mirror(program, sent)
    seconds = time.monotonic() - began
    expect(status, 0, "status")
    expect(written, b"".join(sorted(b"= %d %d\n" % (i, i * i) for i in range(1, count, 2))) + b"end\n", "what is written")
    print(f"{len(sent) / 1e6:.1f} MB followed in {seconds:.2f} s")


def main():
    parser = argparse.ArgumentParser()
    parser.add_argument("program")
    parser.add_argument("--rounds", type=int, default=200)
    parser.add_argument("--seed", type=int, default=1)
    options = parser.parse_args()
    return run_tests(lambda function: function(options.program, options), limit=None)


if __name__ == "__main__":
    raise SystemExit(main())
