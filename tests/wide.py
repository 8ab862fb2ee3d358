#!/usr/bin/env python3
"""The joins of TPC-H's queries over a small scale of its tables: djq beside SQLite, and PostgreSQL where it is installed.

    tests/wide.py PATH_TO_DJQ

All sides make the same changes, by the drivers of bench/wide. At ten moments their answers are held against each other: those that
are listed, those that SQLite and PostgreSQL find anew, and those that all deltas add up to. And docs/WIDE.md says of each query what the
program says. gcc and libsqlite3-dev are needed; where something isn't installed, its side is left out by name. One line is printed
for each test that fails, and last `N passed, N failed`; the status is 0 where none failed.
"""

import argparse
import os
import re
import sys
import tempfile

sys.dont_write_bytecode = True
HERE = os.path.dirname(os.path.abspath(__file__))
sys.path.insert(0, os.path.join(HERE, "..", "bench", "wide"))
import measure  # noqa: E402
import report  # noqa: E402
from engines import Postgres, compiled, missing_for  # noqa: E402
from harness import expect, run_tests, test  # noqa: E402
from queries import BY_NAME, REFUSED, SETS, UNIONS  # noqa: E402
from schema import Stream  # noqa: E402

SCALE, CHANGES = 0.0001, 200
PAGE = os.path.join(HERE, "..", "docs", "WIDE.md")


def rows_of_page():
    """The page's table of queries: what it says of each, and of its head as TPC-H's."""
    with open(PAGE, encoding="utf-8") as file:
        return {row[0]: row[1:] for row in re.findall(r"^\| `(\w+)` \|[^|]*\| ([^|]*) \| ([^|]*) \|", file.read(), re.MULTILINE)}


@test
def the_page_says_of_each_query_what_the_program_says(program):
    page, found = rows_of_page(), report.verdicts(program)
    expect({name: page[name][0] for name in found}, {name: f"`{words}`" if words.startswith("no ") else words for name, words in found.items()})
    expect({name for name, words in found.items() if words.startswith("no ")}, REFUSED, "refused")


@test
def the_page_says_which_heads_leave_too_much_out(program):
    page, found = rows_of_page(), report.verdicts_of_heads(program)
    expect({name: page[name][1] for name in found}, {name: {"ok query": "admitted"}.get(words, f"`{words}`") for name, words in found.items()})


@test
def the_unions_are_admitted(program):
    lines = [BY_NAME[member].djq() for _, members in UNIONS for member in members]
    lines += [f"union {name} {' '.join(members)}" for name, members in UNIONS]
    expect([reply.split()[0] for reply in report.replies(program, lines)], ["ok"] * len(lines))


@test
def the_generator_gives_the_same_rows_each_time(_):
    one, other = Stream(SCALE, CHANGES), Stream(SCALE, CHANGES)
    expect((one.load, one.changes), (other.load, other.changes))
    expect(len(one.changes) >= CHANGES, True, "changes")
    expect({change[0] for change in one.changes}, {"insert", "delete", "update"})


@test
def all_sides_have_the_same_answers_at_ten_moments(program):
    sides = ["run", "tcp", "log", "sqlite", "postgres"]
    for side in list(sides):
        missing = missing_for(side)
        if missing:
            print(f"{side} is skipped: {missing} isn't there")
            sides.remove(side)
    if not sides:
        return
    with tempfile.TemporaryDirectory() as folder:
        tools = compiled(folder, sides)
        if "postgres" not in sides:
            found = compared(program, folder, tools, sides)
        else:
            with Postgres() as server:
                found = compared(program, folder, {**tools, "server": server}, sides)
    differences_are_seen(found)


def compared(program, folder, tools, sides):
    """Two sets of queries over all sides: none, which loads, and every one."""
    given = argparse.Namespace(program=program, by_hand=None, disk=None, logged=CHANGES)
    data = measure.Data(os.path.join(folder, "data"), SCALE, CHANGES)
    made = [measure.MAKERS[name](name, tools, data, given) for name in sides]
    answers = measure.Answers()
    for side in made:
        measure.measured_set("none", side, answers)
    found = {side.name: measure.measured_set("every", side, answers) for side in made}
    # the beginning, then ten moments, of each query and side
    expect(answers.compared, (measure.MOMENTS + 1) * len(SETS["every"]) * len(found), "answers that were compared")
    for side in found.values():
        expect(len(side.answers), (measure.MOMENTS + 1) * len(SETS["every"]), "moments")
    answered = {query for (_, query), (count, _) in found[sides[0]].answers.items() if count}
    expect(len(answered) >= 20, True, f"queries with answers, of these: {sorted(answered)}")
    return found


def differences_are_seen(found):
    """One answer more, or another one, at one side and moment isn't taken for the same; nor are deltas that lack one."""
    one = next(iter(found.values()))
    side = argparse.Namespace(name="one", slow=False)
    count, total = one.answers[3, "lines"]
    for wrong in ((count + 1, total), (count, total + 1)):
        answers = measure.Answers()
        answers.hold(SCALE, "every", side, one.answers)
        is_different(lambda other={**one.answers, (3, "lines"): wrong}: answers.hold(SCALE, "every", side, other))
    count, total = one.answers[0, "lines"]
    begun = {"query": "lines", "count": count, "sum": str(total)}
    one.answer(0, begun, {"lines": ["0", 0, 0]})
    for wrong in (["0", 1, 0], ["1", 0, 0]):
        is_different(lambda deltas=wrong: one.answer(0, begun, {"lines": deltas}))


def is_different(call):
    try:
        call()
    except measure.Different:
        return
    raise AssertionError("a difference isn't seen")


def main():
    if len(sys.argv) != 2:
        raise SystemExit(__doc__)
    program = os.path.abspath(sys.argv[1])
    return run_tests(lambda function: function(program))


if __name__ == "__main__":
    sys.exit(main())
