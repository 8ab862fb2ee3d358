#!/usr/bin/env python3
"""Hostile bytes, and one call of the system that fails: the built program from outside.

    tests/hostile.py PATH_TO_DJQ

Each input of a table is given to `run` whole and in single bytes (of a long one the two ends), and to `replay` as single
bytes of a session; what is written and the status are the same each time. Then one read, one write or the listening
fails, by real pipes and sockets. One line is printed for each test that fails, and last `N passed, N failed`; the status
is 0 where none failed. It needs Python's standard library alone.
"""

import fcntl
import os
import signal
import socket
import struct
import subprocess
import sys
import tempfile
import termios
import threading
import time

sys.dont_write_bytecode = True
from harness import expect, run_tests, test  # noqa: E402
from reasons import fits  # noqa: E402

PATIENCE = 20

# ---------------------------------------------------------------- hostile bytes

MOST_ATOMS = b", ".join([b"r(x)"] * 32)
MOST_COMPARISONS = b", ".join([b"x>0"] * 32)
EIGHT_HOLES = b"k(" + b",".join([b"_"] * 8) + b")"
SYNTAX = b"err 1 syntax\n"

# input, output, status
TABLE = [
    (b"\xff\n", SYNTAX, 0),
    (b"\x00\n", SYNTAX, 0),
    (b"rel R int\n", SYNTAX, 0),
    (b"rel r int\r\r\n", SYNTAX, 0),
    (b"rel " + b"a" * 33 + b" int\n", SYNTAX, 0),
    (b"rel " + b"a" * 32 + b" int\n", b"ok\n", 0),
    (b"add r --1\n", SYNTAX, 0),
    (b'add r 1"a"\n', SYNTAX, 0),
    (b'add r "a\n', SYNTAX, 0),
    (b'add r "\\t"\n', SYNTAX, 0),
    (b"rel r\tint\n", SYNTAX, 0),
    (b"add r 99999999999999999999\n", b"err 7 type\n", 0),
    (b"query q(x) <- r(99999999999999999999,x\n", SYNTAX, 0),
    (b"next c 01\n", b"err 5 no cursor\n", 0),
    (b"next c -1\n", SYNTAX, 0),
    (b"next c 99999999999999999999\n", SYNTAX, 0),
    (b"rel r int\nquery q() <- r()\n", b"ok\nerr 6 arity\n", 0),
    (b"rel r int\nquery q(x) <- %s\nquery p(x) <- %s, r(x)\n" % (MOST_ATOMS, MOST_ATOMS),
     b"ok\nok query 3\nerr 11 limit\n", 0),
    (b"rel r int\nquery q(x) <- %s,r(x)\nquery p(x) <- x<9, r(x), %s\n" % (MOST_COMPARISONS, MOST_COMPARISONS),
     b"ok\nok query 3\nerr 11 limit\n", 0),
    (b"rel k" + b" int" * 17 + b"\nrel k" + b" int" * 16 + b"\n", b"err 11 limit\nok\n", 0),
    (b"rel k" + b" int" * 8 + b"\nquery q() <- %s\nquery p() <- %s\n" % (
        b", ".join([EIGHT_HOLES] * 16), b", ".join([EIGHT_HOLES] * 17)), b"ok\nok query 1\nerr 11 limit\n", 0),
    # the end of the input, and the length of a line
    (b"quit" + b" " * 4092 + b"\r", b"err 13 cut\n", 0),
    (b"quit" + b" " * 4092 + b"\r ", b"end long\n", 8),
    (b"quit" + b" " * 4092 + b"\r\n", b"bye\n", 0),
    (b"quit" + b" " * 4092, b"err 13 cut\n", 0),
    (b"quit" + b" " * 4093, b"end long\n", 8),
    (b"quit" + b" " * 4093 + b"\r\n", b"end long\n", 8),
    (b"a" * 4097 + b"\nrel r int\n", b"end long\n", 8),
    (b"\nquit", b"err 13 cut\n", 0),
    (b"\n", b"", 0),
    (b" ", b"err 13 cut\n", 0),
    (b"\r", b"err 13 cut\n", 0),
    (b"\r\n \r\n", b"", 0),
    (b"quit\nrel r int\n", b"bye\n", 0),
    (b"quit\nrel r", b"bye\n", 0),
    (b"stop\n" + b"\xff" * 5000, b"bye\n", 0),
    # bytes that are nearly UTF-8
    (b'rel r text\nadd r "\xc3\xa9"\nadd r "\xf4\x8f\xbf\xbf"\n', b"ok\nok added 1 1\nok added 2 1\n", 0),
    (b'add r "\xc3"\n', SYNTAX, 0),
    (b'add r "\xc0\xaf"\n', SYNTAX, 0),
    (b'add r "\xe0\x80\xaf"\n', SYNTAX, 0),
    (b'add r "\xed\xa0\x80"\n', SYNTAX, 0),
    (b'add r "\xf4\x90\x80\x80"\n', SYNTAX, 0),
    (b'add r "\xf8\x88\x80\x80\x80"\n', SYNTAX, 0),
    (b'add r 1 \x80\n', SYNTAX, 0),
    (b'rel r text\nadd r "\x00\x01\t\r"\nadd r "\x7f"\n', b"ok\nok added 1 1\nok added 2 1\n", 0),
    (b"\xef\xbb\xbfrel r int\n", SYNTAX, 0),
    # numbers
    (b"rel r int\nadd r 9223372036854775807\nadd r -9223372036854775808\nadd r 9223372036854775808\n"
     b"add r -9223372036854775809\nadd r 000000000000000000000000000000007\nadd r 7\nadd r -0\nadd r 0\n",
     b"ok\nok added 1 1\nok added 2 1\nerr 7 type\nerr 7 type\nok added 3 1\nok added 3 2\nok added 4 1\nok added 4 2\n", 0),
    (b"add r -\nadd r - 1\nadd r +1\nadd r 1.0\nadd r 1_0\nadd r 0x1\nadd r 1a\n", SYNTAX * 7, 0),
    (b"add r " + b"9" * 4090 + b"\n", b"err 7 type\n", 0),
    # the grammar's edges
    (b"rel\nrel r\nadd r\ndel r\nnext c\nopen c\nclose\nhas\nquit 1\nstop stop\nQUIT\n", SYNTAX * 11, 0),
    (b"rel r bool\nrel r int,int\nquery q(x)\nquery q(x) <-\n", SYNTAX * 4, 0),
    (b"query q(x) < - r(x)\nquery q(x) <- r(x),\nquery q(x) <- , r(x)\n", SYNTAX * 3, 0),
    (b"query q(x,) <- r(x)\nquery q(_) <- r(x)\nquery q(1) <- r(x)\n", SYNTAX * 3, 0),
    (b"query q(x)) <- r(x)\nquery (x) <- r(x)\nquery q(x) <- r(x) s(x)\n", SYNTAX * 3, 0),
    # the signs of comparisons, each as long as it can be
    (b"query q(x) <- r(x), x<-5\nquery q(x) <- r(x), x < - 5\nquery q(x) <- r(x), x ! = 5\n", SYNTAX * 3, 0),
    (b"query q(x) <- r(x), x == 5\nquery q(x) <- r(x), x => 5\nquery q(x) <- r(x), x <> 5\n", SYNTAX * 3, 0),
    (b"query q(x) <- r(x), x !5\nquery q(x) <- r(x), x !! 5\nquery q(x) <- r(x), x =! 5\n", SYNTAX * 3, 0),
    (b"query q(x) <- r(x), x <\nquery q(x) <- r(x), < 5\nquery q(x) <- r(x), x < 5,\n", SYNTAX * 3, 0),
    (b"query q(x) <- r(x), x < y\nquery q(x) <- r(x), 5 < x\nquery q(x) <- r(x), _ < 5\n", SYNTAX * 3, 0),
    (b"query q(x) <- r(x), x < 5 6\nquery q(x) <- r(x), 1 < x < 5\nquery q(x) <- r(x), x < (5)\n", SYNTAX * 3, 0),
    (b'query q(x) <- x < 5\nquery q(x) <- r(x) x < 5\nquery q(x) <- r(x), x = "a"b\n', SYNTAX * 3, 0),
    (b"rel = int\nadd r =1\nadd r <5\nopen c!=q\nhas q>1\nr=1\n=\n", SYNTAX * 7, 0),
    (b"rel r int\nquery q(x)<-x>-5,r(x),x<=5,x!=-0,x=3\nquery p(x) <-  x  >=  -9223372036854775808 , r ( x )\n",
     b"ok\nok query 3\nok query 3\n", 0),
    (b'rel r text\nquery q(x)<-r(x),x!="a",x="b <= \\"c"\nquery p(x) <- r(x), x <= "a"\n',
     b"ok\nok query 3\nerr 7 type\n", 0),
    (b"query q(x) <- r(x), y < 9223372036854775808\nquery q(x) <- r(x), y > -9223372036854775809\n"
     b'query q(x) <- r(x), y = "' + b"a" * 256 + b'"\n', b"err 7 type\n" * 3, 0),
    (b"rel rel int\nquery query(x)<-rel(x)\nopen next query\nnext next 1\n", b"ok\nok query 3\nok open\nend\n", 0),
    (b"next c 0\nnext c 1001\nnext c 1000\nnext c 0001000\nnext c \"1\"\n",
     SYNTAX * 2 + b"err 5 no cursor\n" * 2 + SYNTAX, 0),
    (b'rel r text\nadd r "' + b"a" * 255 + b'"\nadd r "' + b"a" * 256 + b'"\nadd r "' + b"\\n" * 255 + b'"\n',
     b"ok\nok added 1 1\nerr 7 type\nok added 2 1\n", 0),
    # unions
    (b"union\nunion u\nunion u a\nunion u 1 a\nunion u a, b\nunion u(a,b)\nUNION u a b\n", SYNTAX * 7, 0),
    (b"union u a b <-\nunion u a \"b\"\nunion u a _\nunion u a -1\nunion u a b\t\nunion u a " + b"b" * 33 + b"\n",
     SYNTAX * 6, 0),
    (b"union u a " + b"b" * 32 + b"\nunion u" + b" a" * 2044 + b"\n", b"err 4 no query\n" * 2, 0),
    (b"rel r int\nquery a(x) <- r(x)\nunion u" + b" a" * 2044 + b"\nunion a b c\nunion u a c a\n",
     b"ok\nok query 3\nerr 17 member\nerr 2 taken\nerr 4 no query\n", 0),
    (b"rel union int\nquery a(x) <- union(x)\nquery union(x)<-union(x),x>0\n  union  u  a  union \r\n"
     b"open union u\nnext union 1\n",
     b"ok\nok query 3\nok query 3\nok union 8\nok open\nend\n", 0),
    (b"union u" + b" a" * 2045, b"end long\n", 8),
    (b"union u a", b"err 13 cut\n", 0),
    # transactions
    (b"done\nabandon\ndone 0\n", b"err 18 batch\n" * 3, 0),
    (b"batch 1\ndone x\nabandon abandon\nBATCH\nbatch()\ndone -0\ndone 1 1\ndone \"1\"\ndone _\ndone(1)\ndone\t1\n", SYNTAX * 11, 0),
    (b"batch\ndone " + b"9" * 4091 + b"\nbatch\ndone " + b"0" * 4091 + b"\nbatch\n  done  00 \n",
     b"ok batch\nerr 20 held\nok batch\nok done 0 0\nok batch\nok done 0 0\n", 0),
    (b"batch\ndone 18446744073709551616\nbatch\ndone 4294967296\n", b"ok batch\nerr 20 held\n" * 2, 0),
    (b" batch \nbatch\nbatch batch\ndone\ndone\n", b"ok batch\nerr 18 batch\n" + SYNTAX + b"ok done 0 0\nerr 18 batch\n", 0),
    (b"batch\nrel r int\n\xff\nabandon\nabandon\nrel r int\n",
     b"ok batch\nerr 18 batch\n" + SYNTAX + b"ok\nerr 18 batch\nok\n", 0),
    (b"batch\ndel r 99999999999999999999\nadd r 99999999999999999999\nhas q 99999999999999999999\n"
     b"query q(x) <- r(99999999999999999999,x)\nadd r \"" + b"a" * 256 + b'"\n',
     b"ok batch\nerr 7 type\nerr 7 type\nerr 18 batch\nerr 18 batch\nerr 7 type\n", 0),
    (b"rel r int\nbatch\n" + b"add r 1\ndel r 1\n" * 32768 + b'add r 1\nadd z 1\ndel r 1 2\nadd r "a"\nadd r 99999999999999999999\ndone\n',
     b"ok\nok batch\n" + b"".join(b"ok held %d\n" % (at + 1) for at in range(65536))
     + b"err 11 limit\nerr 3 no relation\nerr 6 arity\nerr 7 type\nerr 7 type\nok done 0 0\n", 0),
    (b"rel r int\nbatch\n" + b"del r 1\n" * 65536 + b"add r 1\ndone\nadd r 1\n",
     b"ok\nok batch\n" + b"".join(b"ok held %d\n" % (at + 1) for at in range(65536)) + b"err 11 limit\nerr 19 absent\nok added 1 1\n", 0),
    (b"rel batch int\nadd batch 1\nbatch\nadd batch 1\nadd batch 2\ndone\n",
     b"ok\nok added 1 1\nok batch\nok held 1\nok held 2\nok done 2 1\n", 0),
    (b"rel del int\nadd del 1\nbatch\ndel del 1\nadd del 2\ndone 2\n",
     b"ok\nok added 1 1\nok batch\nok held 1\nok held 2\nok done 2 2\n", 0),
    (b"batch\nadd r", b"ok batch\nerr 13 cut\n", 0),
    (b"batch\nquit\ndone\n", b"ok batch\nbye\n", 0),
    (b"batch\n" + b"a" * 4097, b"ok batch\nend long\n", 8),
    (b"rel r int\nbatch\nadd r 1\nquit\ndone\n", b"ok\nok batch\nok held 1\nerr 18 batch\nbye\n", 0),
    (b"rel r int\nbatch\ndel r 1\ndone", b"ok\nok batch\nok held 1\nerr 13 cut\nerr 18 batch\n", 0),
    (b"rel r int\nbatch\ndel r 1\n" + b"a" * 4097, b"ok\nok batch\nok held 1\nend long\n", 8),
    (b'rel r text\nadd r "' + "é".encode() * 127 + b'"\nadd r "' + "é".encode() * 128 + b'"\n',
     b"ok\nok added 1 1\nerr 7 type\n", 0),
]


def run(text, words=("run",)):
    done = subprocess.run([PROGRAM, *words], input=text, capture_output=True, timeout=PATIENCE * 3)
    expect(fits(done.returncode, done.stderr), True, done.stderr)
    return done.stdout, done.returncode


def unread(pipe):
    """How many bytes wait in a pipe."""
    return struct.unpack("i", fcntl.ioctl(pipe, termios.FIONREAD, bytes(4)))[0]


SINGLE = 8192  # as many bytes of each end of a text are written one by one


def pieces_of(text):
    """Single bytes; of a long text, those between its two ends as one piece."""
    if len(text) <= 2 * SINGLE:
        return [text[at:at + 1] for at in range(len(text))]
    return [*pieces_of(text[:SINGLE]), text[SINGLE:-SINGLE], *pieces_of(text[-SINGLE:])]


def run_in_single_bytes(text):
    """Writes each piece once the one before it was read. The output goes to a file, since a full pipe would stop the program."""
    with tempfile.TemporaryFile() as output:
        program = subprocess.Popen([PROGRAM, "run"], stdin=subprocess.PIPE, stdout=output, stderr=subprocess.PIPE)
        pipe = program.stdin.fileno()
        until = time.monotonic() + PATIENCE * 3
        try:
            for piece in pieces_of(text):
                while piece:
                    piece = piece[os.write(pipe, piece):]
                while unread(pipe) and program.poll() is None:
                    expect(time.monotonic() < until, True, "the input is read in time")
        except BrokenPipeError:
            pass
        errors = program.communicate(timeout=PATIENCE)[1]
        expect(fits(program.returncode, errors), True, errors)
        output.seek(0)
        return output.read(), program.returncode


@test
def hostile_inputs_in_one_piece():
    for text, output, status in TABLE:
        expect(run(text), (output, status), text[:60])


@test
def hostile_inputs_in_single_bytes():
    for text, output, status in TABLE:
        expect(run_in_single_bytes(text), (output, status), text[:60])


@test
def hostile_inputs_in_single_bytes_of_a_session():
    for text, output, _ in TABLE:
        turns = [b"say 1" if text[at:at + 1] == b"\n" else b"part 1 " + text[at:at + 1] for at in range(len(text))]
        schedule = b"\n".join([b"open 1", *turns, b"end 1"])
        told = b"".join(b"1< " + line for line in output.splitlines(keepends=True))
        expect(run(schedule, ("replay",)), (told, 0), text[:60])


@test
def hostile_inputs_one_after_another():
    # one session after another over the same rows: what came before doesn't change how a line is read
    schedule, told = [], b""
    for number, (text, output, _) in enumerate([entry for entry in TABLE if b"ok" not in entry[1]][:60], 1):
        pieces = text.split(b"\n")
        schedule.append(b"open %d" % number)
        schedule += [b"say %d %s" % (number, piece) for piece in pieces[:-1]]
        schedule += [b"part %d %s" % (number, pieces[-1]), b"end %d" % number]
        told += b"".join(b"%d< %s" % (number, line) for line in output.splitlines(keepends=True))
        if b"stop\n" in text:
            break
    expect(run(b"\n".join(schedule), ("replay",)), (told, 0))


@test
def schedules_outside_their_grammar():
    for at, schedule in [
        (1, b"\n"), (1, b"open 0\n"), (1, b"open 01\n"), (1, b"open 1000001\n"), (1, b"open -1\n"), (1, b"open\n"),
        (1, b"open 1 \n"), (1, b" open 1\n"), (1, b"Open 1\n"), (1, b"open 1\r\n"), (1, b"say 1 x\n"), (1, b"\xff\n"),
        (1, b"open 99999999999999999999\n"), (2, b"open 2\nopen 1\n"), (2, b"open 1\nopen 1\n"),
        (2, b"open 1\nsay  1 x\n"), (2, b"open 1\nsay 2 x\n"), (2, b"open 1\nagain 2\n"), (2, b"open 1\nfree 2\n"),
        (2, b"open 1\nend 1 \n"), (3, b"open 1\nend 1\nsay 1 x\n"), (3, b"open 1\nend 1\nend 1\n"),
        (3, b"open 1\nend 1\nagain 1\n"), (2, b"open 1\nsay 1 " + b"x" * 8187 + b"\n"), (2, b"open 1\n\nend 1\n"),
        (2, b"open 1\nsay 1x\n"), (2, b"open 1\n" + b"\x00" * 20000),
    ]:
        expect(run(schedule, ("replay",)), (b"schedule %d\n" % at, 7), schedule[:60])
    for schedule, told in [
        (b"open 1000000", b""), (b"open 1\nend 1\nfree 1\n", b""),
        (b"open 1\nsay 1\nsay 1 \npart 1\npart 1 \nend 1", b""),
        (b"open 1\nsay 1 " + b" " * 8186 + b"\n", b"1< end long\n"),
        (b"open 1\npart 1 \xff\nend 1", b"1< err 13 cut\n"),
        (b"open 1\nsay 1 quit\nsay 1 x\npart 1 x\nagain 1\nfree 1\nend 1\n", b"1< bye\n"),
    ]:
        expect(run(schedule, ("replay",)), (told, 0), schedule[:60])


@test
def a_megabyte_of_bytes_without_a_line_ends_the_session():
    for byte in (b"a", b"\xff", b"\x00", b" ", b'"'):
        expect(run(byte * 1000000), (b"end long\n", 8), byte)
    expect(run(b"\r" * 1000000), (b"end long\n", 8), "CR")
    expect(run(b"\n" * 1000000), (b"", 0), "LF")


# ---------------------------------------------------------------- one call that fails

# lines, each with how it is answered
TALK = [
    (b"rel r int int\n", b"ok\n"),
    (b"add r 1 2\n", b"ok added 1 1\n"),
    (b"add r 3 4\n", b"ok added 2 1\n"),
    (b"add r 1 2\n", b"ok added 2 2\n"),
    (b"del r 3 4\n", b"ok removed 3 0\n"),
    (b"query q(x,y) <- r(x,y)\n", b"ok query 5\n"),
    (b"open c q\n", b"ok open\n"),
    (b"next c 2\n", b"= 1 2\nend\n"),
    (b"next c 2\n", b"end\n"),
    (b"close c\n", b"ok\n"),
]


def drained(stream, into):
    """Reads a pipe beside all else."""
    def loop():
        while piece := os.read(stream.fileno(), 65536):
            into.append(piece)
    thread = threading.Thread(target=loop, daemon=True)
    thread.start()
    return thread


@test
def each_write_fails_in_turn():
    """The output is closed once the replies of so many lines were read."""
    for count in range(len(TALK)):
        pipes = dict(stdin=subprocess.PIPE, stdout=subprocess.PIPE, stderr=subprocess.PIPE)
        program = subprocess.Popen([PROGRAM, "run"], bufsize=0, **pipes)
        for line, reply in TALK[:count]:
            program.stdin.write(line)
            heard = b""
            while len(heard) < len(reply):
                heard += program.stdout.read(len(reply) - len(heard))
            expect(heard, reply, line)
        program.stdout.close()
        program.stdin.write(b"".join(line for line, _ in TALK[count:]))
        program.stdin.close()
        expect(program.wait(PATIENCE), 3, f"write {count + 1} fails")
        errors = program.stderr.read()
        expect(fits(3, errors), True, errors)
        program.stderr.close()


@test
def the_usage_line_and_the_bad_schedule_and_the_summary_are_not_taken():
    for words, text in [(["fly"], b""), ([], b""), (["replay"], b"open 1\nsay 2 x\n"), (["gen", "5", "1"], b""),
                        (["replay"], b"open 1\nsay 1 rel r int\n")]:
        far, near = os.pipe()
        os.close(far)
        done = subprocess.run([PROGRAM, *words], input=text, stdout=near, stderr=subprocess.PIPE, timeout=PATIENCE)
        os.close(near)
        expect((done.returncode, fits(3, done.stderr)), (3, True), words)
    # nothing is written, so nothing fails
    far, near = os.pipe()
    os.close(far)
    for words, text in [(["run"], b"\n\n"), (["replay"], b"open 1\n"), (["replay"], b"")]:
        done = subprocess.run([PROGRAM, *words], input=text, stdout=near, timeout=PATIENCE)
        expect(done.returncode, 0, words)
    os.close(near)


@test
def a_long_replay_is_not_taken_from_the_middle_on():
    schedule = b"open 1\n" + b"say 1 close c\n" * 100000
    program = subprocess.Popen([PROGRAM, "replay"], stdin=subprocess.PIPE, stdout=subprocess.PIPE, bufsize=0)
    feeding = threading.Thread(target=lambda: (program.stdin.write(schedule), program.stdin.close()), daemon=True)
    feeding.start()
    heard = program.stdout.read(1000)
    program.stdout.close()
    feeding.join(PATIENCE)
    expect(program.wait(PATIENCE), 3)
    expect((b"1< err 5 no cursor\n" * 100)[:len(heard)], heard)


def run_with_reset_input(words, text, replies):
    """The input is a connection. It is reset once so many lines were answered: what is written, and the status."""
    with socket.create_server(("127.0.0.1", 0)) as listener:
        near = socket.create_connection(listener.getsockname())
        far, _ = listener.accept()
    near.setsockopt(socket.SOL_SOCKET, socket.SO_LINGER, struct.pack("ii", 1, 0))
    near.sendall(text)
    if replies is None:
        near.close()
    with far:
        program = subprocess.Popen([PROGRAM, *words], stdin=far.fileno(), stdout=subprocess.PIPE)
    pieces = []
    reading = drained(program.stdout, pieces)
    if replies is not None:
        until = time.monotonic() + PATIENCE
        while b"".join(pieces).count(b"\n") < replies and program.poll() is None:
            expect(time.monotonic() < until, True, "the replies come")
            time.sleep(0.001)
        time.sleep(0.05)
        near.close()
    status = program.wait(PATIENCE)
    reading.join(PATIENCE)
    program.stdout.close()
    return b"".join(pieces), status


@test
def each_read_fails_in_turn():
    for words in (["run"], ["replay"]):
        expect(run_with_reset_input(words, b"", None), (b"", 2), words)
    for count in range(1, len(TALK) + 1):
        text, output = (b"".join(part) for part in zip(*TALK[:count]))
        expect(run_with_reset_input(["run"], text, output.count(b"\n")), (output, 2), f"{count} lines and a reset")
    # nothing of a schedule that can't be read to its end is run
    expect(run_with_reset_input(["replay"], b"open 1\nsay 1 rel r int\n", 0), (b"", 2), "replay")


@test
def a_port_that_is_taken_is_a_fault_of_the_hub():
    with socket.create_server(("127.0.0.1", 0)) as holder:
        words = ("serve", "127.0.0.1:%d" % holder.getsockname()[1])
        expect(run(b"", words), (b"", 4))
        expect(run(b"", words + ("--turns", "5")), (b"", 4))


@test
def signals_between_calls_are_harmless():
    """A stop and a continuation in the middle of waiting, and a reader that comes late."""
    program = subprocess.Popen([PROGRAM, "run"], stdin=subprocess.PIPE, stdout=subprocess.PIPE, bufsize=0)
    for line, reply in TALK:
        program.send_signal(signal.SIGSTOP)
        program.stdin.write(line)
        time.sleep(0.005)
        program.send_signal(signal.SIGCONT)
        heard = b""
        while len(heard) < len(reply):
            heard += program.stdout.read(len(reply) - len(heard))
        expect(heard, reply, line)
    program.stdin.close()
    expect((program.stdout.read(), program.wait(PATIENCE)), (b"", 0))
    program.stdout.close()


if __name__ == "__main__":
    if len(sys.argv) != 2:
        raise SystemExit(__doc__)
    PROGRAM = os.path.abspath(sys.argv[1])
    sys.exit(run_tests())
