#!/usr/bin/env python3
"""A stop at each write and each sync of the log, also one that loses what wasn't synced.

    tests/stops.py PATH_TO_DJQ

tests/stop.c is compiled with gcc and preloaded. A schedule with a log is run again and again, and stopped at its first
call that writes or syncs the file, at its second, and so on: before a write, in the middle of it and after it, and with
some of the writes undone that weren't synced, as after a power cut. Each time the file that is left has to load, and to
give what the first lines of the schedule gave, a transaction with all that it changes or with nothing: of a new log, of a
log of format 1, and of a file that is being made a log. One line is printed for each test that fails, and last
`N passed, N failed`; the status is 0 if none failed. Python's standard library and gcc are all it needs.
"""

import os
import subprocess
import sys
import tempfile

sys.dont_write_bytecode = True
import log_format  # noqa: E402
from harness import run_tests, test  # noqa: E402

PATIENCE = 20
STOPPED = 99
PARTS = (0, 1, 2, 3, 4)  # quarters of a write at which it is stopped
SEEDS = range(8)  # ways to lose what wasn't synced, the first of which loses nothing
MOST_CALLS = 200

BEGIN = [b"rel r int int", b"query q(x,y) <- r(x,y)", b"query p(x,y) <- r(y,x)", b"add r 9 9"]
ASK = [b"open c q", b"next c 1000", b"explain u", b"watch q"]


def replay(log, lines, preload=None, **told):
    """What a session is told by a server with a log, and the status."""
    schedule = b"open 1\n" + b"".join(b"say 1 %s\n" % line for line in lines)
    environment = dict(os.environ, **{name: str(value) for name, value in told.items()})
    if preload:
        environment["LD_PRELOAD"] = preload
    words = [PROGRAM, "replay", "--log", log]
    done = subprocess.run(words, input=schedule, capture_output=True, env=environment, timeout=PATIENCE, check=False)
    return [line.partition(b"< ")[2] for line in done.stdout.splitlines()], done.returncode


def compiled(folder):
    """The library that stops a program."""
    library, source = os.path.join(folder, "stop.so"), os.path.join(os.path.dirname(os.path.abspath(__file__)), "stop.c")
    subprocess.run(["gcc", "-shared", "-fPIC", "-O1", "-Wall", "-Werror", "-o", library, source], check=True)
    return library


def state_of(log):
    """The answers, the members of a union and the number of changes that a file gives."""
    told, status = replay(log, ASK)
    if status != 0:
        raise AssertionError(f"the file that is left doesn't load: status {status}")
    members = [line for line in told if line.startswith(b"m ")]
    return (*sorted(line for line in told if line.startswith(b"= ")), *members), told[-1]


def read(log):
    with open(log, "rb") as file:
        return file.read()


def write(log, content):
    with open(log, "wb") as file:
        file.write(content)


def each_stop(groups):
    """Groups of lines, each logged whole or not at all, in a new log and in one of format 1."""
    each_stop_with(groups, log_format.SECOND)
    each_stop_with(groups, log_format.FIRST)


def each_stop_with(groups, header):
    """Runs groups of lines with a log of a format, with a stop at each call and of each kind."""
    lines = [line for group in groups for line in group]
    with tempfile.TemporaryDirectory() as folder:
        library, begun, log = compiled(folder), os.path.join(folder, "begun"), os.path.join(folder, "log")

        def again():
            write(log, read(begun))

        if header == log_format.FIRST:
            write(begun, log_format.write_first([]))
        assert replay(begun, BEGIN)[1] == 0
        assert read(begun).startswith(header)
        allowed = []
        for count in range(len(groups) + 1):
            again()
            assert replay(log, [line for group in groups[:count] for line in group])[1] == 0
            allowed.append(state_of(log))
        stops, seen, at = 0, set(), 1
        while True:
            for part in PARTS:
                for seed in SEEDS:
                    again()
                    _, status = replay(log, lines, library, STOP_AT=at, STOP_PART=part, STOP_LOSES=seed)
                    if status not in (0, STOPPED):
                        raise AssertionError(f"status {status} at call {at}, part {part}, seed {seed}")
                    left = state_of(log)
                    assert read(log).startswith(header) and not isinstance(log_format.read(read(log)), tuple), (at, part, seed)
                    if left not in allowed:
                        raise AssertionError(f"a stop at call {at}, part {part}, seed {seed} leaves {left}")
                    stops += status == STOPPED
                    seen.add(allowed.index(left))
            if status == 0:
                break
            at += 1
            assert at < MOST_CALLS, "a run that meets no stop"
        assert seen == set(range(len(allowed))), f"of {len(allowed)} states these were left: {seen}"
        print(f"{stops} stops at {at - 1} calls")


@test
def lines_that_are_kept_one_by_one():
    each_stop([[b"add r 1 2"], [b"del r 9 9"], [b"add r 3 4"]])


@test
def unions_that_are_kept():
    each_stop([[b"union u q p"], [b"add r 1 2"], [b"drop u"], [b"union u p q"]])


@test
def a_transaction_of_two_rows_is_left_whole_or_not_at_all():
    each_stop([[b"batch", b"add r 1 2", b"add r 2 3", b"done"]])


@test
def an_updated_row_is_left_as_it_was_or_as_it_is():
    each_stop([[b"batch", b"del r 9 9", b"add r 9 8", b"add r 8 9", b"done 3"], [b"batch", b"del r 9 8", b"del r 8 9", b"done"]])


@test
def a_transaction_in_several_writes_is_left_whole_or_not_at_all():
    # the lines are gathered in pieces of 16 KB in format 1, and of 64 KB in format 2
    held = [b"add r %d 2" % row + b" " * 4000 for row in range(35)]
    each_stop([[b"batch", *held, b"del r 9 9", b"done"]])


@test
def transactions_between_other_lines():
    each_stop([[b"add r 5 5"], [b"batch", b"add r 1 2", b"add r 2 3", b"add r 1 2", b"del r 5 5", b"done"], [b"del r 2 3"],
               [b"batch", b"add r 7 7", b"done"], [b"del r 9 9"]])


@test
def a_file_that_ends_within_a_batch_is_stopped_as_it_is_mended():
    held = [b"batch", b"add r 1 1", b"del r 9 9"]
    each_stop_of_a_start(log_format.write_first([*BEGIN, *held]), ((b"= 9 9",), b"ok watch 1"))
    each_stop_of_a_start(log_format.write([BEGIN, held]), ((b"= 9 9",), b"ok watch 1"))


@test
def a_file_that_is_being_made_a_log_is_one_or_none():
    """A start that is stopped leaves a file which the next one takes."""
    for header in (log_format.FIRST, log_format.SECOND):
        for size in (0, 1, 6, 7, 8):
            each_stop_of_a_start(header[:size], ((), b"err 4 no query"))
    each_stop_of_a_start(None, ((), b"err 4 no query"))


def each_stop_of_a_start(content, wanted):
    """Starts over a file of these bytes, or over none, with a stop at each call and of each kind. What a next start has is
    always the same."""
    with tempfile.TemporaryDirectory() as folder:
        library, log = compiled(folder), os.path.join(folder, "log")
        for at in range(1, MOST_CALLS):
            for part in PARTS:
                for seed in SEEDS:
                    if content is not None:
                        write(log, content)
                    elif os.path.exists(log):
                        os.remove(log)
                    _, status = replay(log, [], library, STOP_AT=at, STOP_PART=part, STOP_LOSES=seed)
                    assert status in (0, STOPPED), (status, at, part, seed)
                    assert state_of(log) == wanted, (at, part, seed)
            if status == 0:
                return
        raise AssertionError("a start that meets no stop")


if __name__ == "__main__":
    if len(sys.argv) != 2:
        raise SystemExit(__doc__)
    PROGRAM = os.path.abspath(sys.argv[1])
    sys.exit(run_tests(limit=-2))
