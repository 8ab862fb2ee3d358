#!/usr/bin/env python3
"""Each growth of memory refused: the built program under an allocator that refuses, and under a limit of its memory.

    tests/memory.py PATH_TO_DJQ

tests/refuse.c is compiled with gcc and preloaded. Each session below is run with the Nth growth refused alone, and
with every growth from the Nth on refused, N from 1 up to a run that meets none. Each time tests/model.py follows what
was written: the replies are those of the session up to `end memory`, an `err 12` stands only where it may, and what
comes behind it is what the page says of a refusal. One line is printed for each test that fails, and last
`N passed, N failed`; the status is 0 where none failed. Python's standard library and gcc are all it needs.
"""

import os
import resource
import struct
import subprocess
import sys
import tempfile

sys.dont_write_bytecode = True
import model  # noqa: E402
from harness import expect, run_tests, test  # noqa: E402
from reasons import fits  # noqa: E402

PATIENCE = 60

# a run of one session never asks for so many growths
MOST_GROWTHS = 5000


def lines(text):
    return b"".join(line.strip() + b"\n" for line in text.strip().split(b"\n"))


# ---------------------------------------------------------------- sessions

ONE_RELATION = lines(b"""
rel r int int
add r 1 2
add r 3 4
add r 1 2
del r 3 4
query q(x,y) <- r(x,y)
open c q
next c 2
next c 2
close c
open c q
add r 1
add r 1 "a"
add t 1
open c q
next c 1
add r 5 6
next c 1
open d q
next d 9
del r 9 9
next d 9
del r 5 6
next d 9
next c 9
close c
close d
drop q
query q(y) <- r(_,y)
open c q
next c 9
""")

JOINS = lines(b"""
rel r int int
rel s int
rel t int int
query q() <- r(x,y), s(y)
query p(x,y,z) <- r(x,y), t(y,z), s(y)
query w(x,z) <- r(x,y), t(y,z)
query v(x,y,z) <- r(x,y), t(y,z), t(z,x)
explain q
explain p
shape p
add r 1 2
add s 2
add t 2 5
add t 2 6
open c q
open d p
next c 5
next d 1
next d 5
has q
has p 1 2 5
has p 1 2 7
del s 2
next c 5
next d 5
close c
open c q
next c 5
add s 2
add r 3 2
close d
open d p
next d 9
""")

WATCHES = lines(b"""
rel r int int
query q(x) <- r(x,y)
watch q
add r 1 10
add r 1 11
add r 1 12
open c q
next c 9
del r 1 10
del r 1 11
del r 1 12
rel s int
query p(x,y) <- r(x,_), s(y)
watch p
watch p
add s 1
add r 1 1
add r 2 1
add s 2
add s 3
del r 1 1
unwatch q
drop q
del r 2 1
unwatch p
""")

SELF_JOINS = lines(b"""
rel r int int
query q(x,y,z) <- r(x,y), r(y,z)
watch q
add r 1 1
add r 1 2
del r 1 1
add r 2 1
add r 2 2
add r 2 3
query p(x,y) <- r(x,y), r(y,y), r(x,_)
watch p
add r 3 3
add r 2 2
del r 2 2
del r 2 2
add r 2 2
add r 2 2
open c q
open d p
next c 3
next d 50
del r 3 3
next c 50
""")

TRANSACTIONS = lines(b"""
rel r int int
rel s int text
query q(x,y,z) <- r(x,y), s(y,z)
query p(x,y,z) <- r(x,y), r(y,z)
query w(x) <- s(x,_)
watch q
watch p
batch
add r 1 2
add r 2 3
add s 2 "new"
add s 3 "other"
add r 1 2
done
open c q
open d p
open e w
next c 9
next d 9
batch
add s 2 "new"
add s 2 "new"
done
next c 9
next e 9
batch
add r 5 6
del r 1 2
add t 1
add r 1
next c 1
abandon
batch
add s 2 "new"
add r 6 2
add s 9 "third"
add r 6 9
done
batch
del s 9 "third"
add s 9 "fourth"
add s 9 "fifth"
del s 9 "fifth"
done 4
next c 9
batch
add r 6 3
del r 6 9
del s 9 "none"
done
batch
del r 6 2
add r 6 3
done 3
batch
del r 6 2
add r 6 3
del r 6 9
done 3
next c 9
next d 9
next e 9
close c
open c q
next c 9
batch
done
done
batch
add r 7 7
add r 7 8
add r 8 7
done
next c 9
close d
open d p
next d 99
del r 1 2
del r 1 2
batch
add r 1 2
""")

UNIONS = lines(b"""
rel r int text
rel s text int
query a(x,y) <- r(x,y)
query b(x,y) <- s(y,x)
query c(y,x) <- s(y,x)
union u a b
union u a b
union v a
union v a z
union v a a
union v a u
union v a c
add r 1 "one"
watch u
add s "one" 1
add s "two" 2
open c u
open d a
next c 9
has u 2 "two"
has u 2 "unknown"
has u 2
explain u
shape u
del r 1 "one"
next c 9
next d 9
close c
open c u
next c 1
next c 1
drop a
batch
add r 3 "three"
add s "three" 3
add s "four" 3
union v a b
done
next c 1
union v b a
watch v
del s "one" 1
del s "four" 3
close c
close d
unwatch u
drop u
drop a
unwatch v
drop v
drop a
query a(x,y) <- r(x,_), s(y,x), x < 9
union u a b
open c u
next c 9
""")

CONSTANTS_AND_TEXTS = lines(b"""
rel r int int int
add r 1 1 3
add r 1 2 3
add r 2 2 4
add r 5 5 3
query q(x) <- r(x,x,3)
open c q
next c 9
del r 1 2 3
next c 9
rel n int
rel t text text
add n -9223372036854775808
add n 9223372036854775807
add n 9223372036854775808
add n -007
add t "LONG" ""
add t "LONGa" "a"
add t 5 5
add t "b\\"\\\\\\n" "b"
query p(x) <- t(x,_), t(_,"b")
query w(x,y) <- t("new",x), t("other",y), t(x,y)
query v(x) <- x != "first", t(x,_), x != "second", t(_,"third"), x != "first"
query u(x) <- n(x), x >= -7, x < 9223372036854775807
query z(x) <- x != "fourth", t(x,_), y < 1
query z(x) <- x != "fourth", t(x,_), x < "fifth"
watch v
watch u
add n 5
add n 9223372036854775807
watch p
has p "b\\"\\\\\\n"
has p "z"
add t "c" "b"
del t "b\\"\\\\\\n" "b"
del t "unknown" "b"
add t "new" "d"
add t "other" "e"
add t "d" "e"
open e w
next e 5
""").replace(b"LONG", b"a" * 255)

REFUSALS = lines(b"""
rel r int text
rel r int
rel k int int int int int int int int int int int int int int int int int
rel
add z 1
add r 1
add r 1 2
query q(x) <- z(x)
query q(x) <- r(x)
query q(x) <- r("a",x)
query q(x) <- r(x,x)
query q(x,x) <- r(x,_)
query q(z) <- r(x,_)
query q(3) <- r(x,_)
open c q
next c 1
query q(x) <- r(x,_)
open c q
open c q
drop q
has q
has q "a"
close c
drop q
""") + b"".join(b"rel r%d int\n" % at for at in range(4)) \
    + b"query q(x) <- r0(x)" + b", r0(x)" * 32 + b"\n" + b"query q(x) <- r0(x)" + b", r0(x)" * 31 + b"\n" \
    + b"".join(b"query q%d(x) <- r1(x)\n" % at for at in range(6)) \
    + b"".join(b"open c%d q\n" % at for at in range(17)) \
    + b"add r0 1\nadd r1 1\nnext c0 1\nnext c15 1\n"

LONG_REPLIES = b"rel r int int\nquery q(x,y) <- r(x,y)\nwatch q\n" \
    + b"".join(b"add r %d %d\n" % (at, at + 1000000000) for at in range(60)) \
    + b"unwatch q\nopen c q\nnext c 10\nnext c 1000\nnext c 1\n" \
    + b"query p(x) <- r(x,_), r(_,y)\nwatch p\nadd r 0 0\n" \
    + b"query w(" + b",".join(b"v%d" % at for at in range(16)) + b") <- " \
    + b", ".join(b"r(v%d,v%d)" % (at, (at + 1) % 16) for at in range(16)) + b"\nexplain q\n" \
    + b"query c(x) <- r(x,y)" + b", y != 7" * 33 + b"\nquery c(x) <- r(x,y)" + b", y != 7" * 32 + b"\n" \
    + b"add r 7 7\nopen e c\nnext e 1\n"


SCHEDULE = lines(b"""
open 1
open 2
open 5
say 1 rel r int int
say 1 rel s int
say 2 query q(x,y) <- r(x,y), s(y)
say 2 query p(x) <- r(x,_), r(_,x)
say 2 watch q
say 5 watch q
say 5 watch p
say 1 add r 1 2
say 1 add s 2
part 1 add r
say 2 open c q
say 5 add r 1 2
part 5 open
say 2 next c 1
say 1  2 1
say 5  c p
say 5 next c 9
say 1 add r 2 2
say 5 next c 9
say 1 batch
say 1 add r 3 3
say 1 add s 3
say 1 add r 2 2
say 2 batch
say 2 add s 3
say 1 done
say 5 next c 9
say 2 abandon
say 2 explain q
say 2 drop p
say 2 query w(y,x) <- r(x,y), s(_)
say 2 union u q w
say 5 watch u
say 2 open d u
say 1 add r 4 3
say 2 next d 1
say 2 close d
say 2 open d u
say 2 next d 50
say 2 explain u
say 5 unwatch u
say 2 close d
say 2 drop w
say 2 drop u
say 2 drop w
say 1 del r 4 3
open 6
say 6 has q 2 2
say 6 batch
say 6 add s 6
say 6 quit
end 5
say 1 drop p
say 1 del r 1 2
say 1 del r 2 2
say 1 del s 2
say 2 unwatch q
say 1 drop q
say 2 close c
part 2 x
end 2
say 1 query q(x) <- r(x,_)
open 7
say 7 open c q
say 7 next c 100
say 1 stop
""")

# ---------------------------------------------------------------- an allocator that refuses

class Refusing:
    """The allocator, compiled, and the file in which it counts."""

    def __enter__(self):
        self.folder = tempfile.TemporaryDirectory()
        self.library = os.path.join(self.folder.name, "refuse.so")
        self.counts = os.path.join(self.folder.name, "counts")
        source = os.path.join(os.path.dirname(os.path.abspath(__file__)), "refuse.c")
        subprocess.run(["gcc", "-shared", "-fPIC", "-O1", "-Wall", "-Werror", "-o", self.library, source], check=True)
        return self

    def __exit__(self, *_):
        self.folder.cleanup()

    def run(self, words, text, first, many=False):
        """What is written, the status, and how many growths were met and how many refused."""
        with open(self.counts, "wb") as file:
            file.write(bytes(16))
        told = dict(os.environ, LD_PRELOAD=self.library, REFUSE_FROM=str(first), REFUSE_COUNT=self.counts)
        if many:
            told["REFUSE_MANY"] = "1"
        done = subprocess.run([PROGRAM, *words], input=text, capture_output=True, env=told, timeout=PATIENCE)
        with open(self.counts, "rb") as file:
            met, refused = struct.unpack("QQ", file.read())
        # what is said may find no memory itself
        said = done.stderr == b"" or fits(done.returncode, done.stderr)
        expect(said, True, f"{done.stderr} where growth {first} is refused")
        return done.stdout, done.returncode, met, refused


def gen_is_followed(text, output, status, memory=False):
    summary = model.summary_of_load(300, 3)
    if (output, status) != (summary, 0) and (not memory or (output, status) != (b"", 6)):
        raise model.Difference(f"written {output!r}, status {status}")


FOLLOWS = {"run": model.follow_run, "replay": model.follow_replay, "gen": gen_is_followed}


def each_growth_refused(name, text, words=("run",)):
    follow = FOLLOWS[words[0]]
    with Refusing() as refusing:
        output, status, met, _ = refusing.run(words, text, 0)
        follow(text, output, status)
        expect(met > 10, True, f"{name}: the program asks the allocator, {met} growths")
        for many in (False, True):
            first, total = 1, 0
            while True:
                output, status, _, refused = refusing.run(words, text, first, many)
                if refused == 0:
                    break
                try:
                    follow(text, output, status, memory=True)
                    wants = output.count(b"err 12 memory\n") + output.count(b"end memory\n")
                    if words[0] == "run" and wants > refused:
                        raise model.Difference(f"memory wanted {wants} times, refused {refused} times")
                except model.Difference as difference:
                    which = "each growth from" if many else "growth"
                    raise AssertionError(f"{name}, {which} {first} refused: {difference}\n{output[-600:]!r}") from None
                first, total = first + 1, total + refused
                expect(first < MOST_GROWTHS, True, "a run that meets no refusal")
            expect(first > 10, True, f"{name}: refusals")
            print(f"{name}: {first - 1} growths refused one by one" if not many
                  else f"{name}: {total} growths refused in {first - 1} runs")


@test
def one_relation_with_refusals_and_stale_cursors():
    each_growth_refused("one relation", ONE_RELATION)


@test
def joins_listed_asked_and_explained():
    each_growth_refused("joins", JOINS)


@test
def watches_with_deltas():
    each_growth_refused("watches", WATCHES)


@test
def self_joins_that_are_watched():
    each_growth_refused("self-joins", SELF_JOINS)


@test
def transactions_that_are_watched():
    each_growth_refused("transactions", TRANSACTIONS)


@test
def unions_that_are_listed_and_watched():
    each_growth_refused("unions", UNIONS)


@test
def a_long_transaction():
    rows = b"".join(b'add r %d "text %d"\n' % (at, at) for at in range(50))
    text = b"rel r int text\nquery q(x,y) <- r(x,y)\nopen c q\nbatch\n" + rows + b"done\nnext c 1\nclose c\nopen c q\nnext c 1000\n"
    updates = b"".join(b'del r %d "text %d"\nadd r %d "other %d"\n' % (at, at, at, at) for at in range(0, 50, 2))
    text += b"watch q\nbatch\n" + updates + b"done\nnext c 1\nclose c\nopen c q\nnext c 1000\n"
    each_growth_refused("a long transaction", text)


@test
def constants_and_texts():
    each_growth_refused("constants and texts", CONSTANTS_AND_TEXTS)


@test
def refusals_and_limits():
    each_growth_refused("refusals and limits", REFUSALS)


@test
def long_replies_and_deltas():
    each_growth_refused("long replies", LONG_REPLIES)


@test
def a_schedule_of_several_sessions():
    each_growth_refused("a schedule", SCHEDULE, ("replay",))


@test
def a_generated_load():
    each_growth_refused("a load", b"", ("gen", "300", "3"))


# ---------------------------------------------------------------- a limit of memory

MILLION = 1000000


def run_within(memory, text):
    """What `run` writes where its address space has a limit, and its status."""
    limit = lambda: resource.setrlimit(resource.RLIMIT_AS, (memory, memory))
    done = subprocess.run([PROGRAM, "run"], input=text, capture_output=True, preexec_fn=limit, timeout=PATIENCE * 3)
    expect(done.stderr == b"" or fits(done.returncode, done.stderr), True, done.stderr)
    return done.stdout, done.returncode


def changed(rows, word, row, seq, reply):
    """The rows and the number of changes after a change that was answered; an `add` may be refused for memory."""
    if word == b"add" and reply == b"err 12 memory":
        return seq
    copies = rows.pop(row, 0) + (1 if word == b"add" else -1)
    if copies < 0:
        expect(reply, b"ok absent %d" % seq, row)
        return seq
    if copies:
        rows[row] = copies
    seq += copies == (1 if word == b"add" else 0)
    expect(reply, b"ok %s %d %d" % (b"added" if word == b"add" else b"removed", seq, copies), row)
    return seq


@test
def transactions_come_whole_or_not_at_all_where_memory_ends():
    each, count = 500, 2000
    row = lambda at: b"%d %d" % (at, at * 7 % MILLION)
    text = b"rel r int int\nquery q(x,y) <- r(x,y)\nopen c q\nnext c 10\n" + b"".join(
        b"batch\n" + b"".join(b"add r %s\n" % row(each * number + at) for at in range(each)) + (b"done 500\n" if number % 3 else b"done\n")
        for number in range(count))
    text += b"close c\nopen c q\n" + b"next c 10\n" * (each * count // 10 + 1)
    output, status = run_within(60 << 20, text)
    expect(status, 0, output[-200:])
    replies = iter(output.split(b"\n"))
    expect([next(replies) for _ in range(4)], [b"ok", b"ok query 5", b"ok open", b"end"])
    rows, seq, refused = set(), 0, 0
    for number in range(count):
        opened = next(replies)
        said = [(row(each * number + at), next(replies)) for at in range(each)]
        done, is_open = next(replies), opened == b"ok batch"
        came = [one for one, reply in said if reply.startswith(b"ok held " if is_open else b"ok added ")]
        expect({reply for _, reply in said if not reply.startswith(b"ok ")} <= {b"err 12 memory"}, True, "refused rows")
        if not is_open:  # its rows came each alone
            expect((opened, done), (b"err 12 memory", b"err 18 batch"), "a batch that isn't opened")
            seq += len(came)
        elif number % 3 and len(came) < each:
            expect(done in (b"err 20 held", b"err 12 memory"), True, done)
            came = []
        elif done != b"err 12 memory":
            seq += len(came) > 0
            expect(done, b"ok done %d %d" % (seq, len(came)), "a transaction that is done")
        else:
            came = []
        refused += came == []
        rows.update(came)
    expect(10 < refused < count - 10, True, f"{refused} of {count} transactions are refused")
    listed = [reply[2:] for reply in replies if reply.startswith(b"= ")]
    expect(len(listed), len(rows), "how many rows are listed")
    expect(set(listed) == rows, True, "exactly the rows of the transactions that were done are listed")
    print(f"{refused} of {count} transactions of {each} rows are refused in 60 MiB, and {len(rows)} rows are listed in the end")


@test
def exactly_the_accepted_rows_are_listed_where_memory_ends():
    row = lambda at: b"%d %d" % (at, at * 7 % MILLION)
    changes = [(b"add", row(at)) for at in range(MILLION)]
    # rows go where no memory is left, and others come in their place; of those that are there further copies do
    changes += [(b"del", row(at)) for at in range(2000)] + [(b"add", row(at)) for at in range(1000, MILLION, 500)]
    changes += [(b"del", row(at)) for at in range(2000, MILLION, 1000)]
    # a reply of ten answers takes no memory, so all of them can be listed where none is left
    text = b"rel r int int\nquery q(x,y) <- r(x,y)\nopen c q\nnext c 10\n" \
        + b"".join(b"%s r %s\n" % change for change in changes) \
        + b"next c 1\nclose c\nopen c q\n" + b"next c 10\n" * (MILLION // 10 + 1)
    output, status = run_within(60 << 20, text)
    expect(status, 0, output[-200:])
    replies = output.split(b"\n")
    expect(replies[:4], [b"ok", b"ok query 5", b"ok open", b"end"])
    rows, seq = {}, 0
    for (word, said), reply in zip(changes, replies[4:]):
        seq = changed(rows, word, said, seq, reply)
    refused = replies[4:4 + MILLION].count(b"err 12 memory")
    expect(1000 < refused < MILLION - 1000, True, f"{refused} of {MILLION} rows are refused")
    # a removed row makes room for another
    expect(b"err 12 memory" in replies[4 + MILLION:4 + len(changes)], False, "rows come in place of removed ones")
    rest = replies[4 + len(changes):]
    expect(rest[:3], [b"stale c r 1", b"ok", b"ok open"])
    listed = [reply[2:] for reply in rest[3:] if reply.startswith(b"= ")]
    expect(len(listed), len(rows), "how many rows are listed")
    expect(set(listed) == set(rows), True, "exactly the accepted rows are listed")
    expect({reply for reply in rest[3:] if not reply.startswith(b"= ")}, {b"more", b"end", b""}, "other replies")
    print(f"{refused} of {MILLION} rows are refused in 60 MiB, and {len(rows)} are listed in the end")


if __name__ == "__main__":
    if len(sys.argv) != 2:
        raise SystemExit(__doc__)
    PROGRAM = os.path.abspath(sys.argv[1])
    sys.exit(run_tests())
