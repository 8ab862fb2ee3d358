#!/usr/bin/env python3
"""Lists the arrays of cells, places and flags in the crates that have tuples, and whether docs/DECISIONS.md has a row for each.

    python3 tests/arrays.py [PROGRAM]

Crates that have tuples are djq_index and those above it in crates.txt, without the crates of tests. A field, a local, a result
or an element that is an array of numbers, choices or flags is listed with its file and line, unless it is inside a `SmallVec`.
Arrays of bytes are buffers, and aren't listed. Each array needs a row in the table of docs/DECISIONS.md with its file and its
length, and two counts of instructions: of the array, and of a SmallVec filled in place. A row without its array fails too.
PROGRAM isn't looked at. Last `N passed, M failed` is printed; the status is 0 if none failed.
"""

import glob
import os
import re
import sys

ROOT = os.path.abspath(os.path.join(os.path.dirname(os.path.abspath(__file__)), ".."))
LOWEST = "djq_index"

ARRAY = re.compile(r"\[(u64|u32|usize|bool|Choice|\d+|false|true|Choice::default\(\)); (\w+)\]")
LENT = re.compile(r"&(?:'\w+ )?(?:mut )?$")
INSIDE = re.compile(r"SmallVec<$")
BUFFER = re.compile(r"_BYTES$")
ROW = re.compile(r"^\| `(crates/[^`]+)` \| `\[[^\];]*; (\w+)\]` \|[^|]*\| (\d[\d,]*)[^|]*\| (\d[\d,]*)[^|]*\|$", re.MULTILINE)


def read(path):
    with open(os.path.join(ROOT, path), encoding="utf-8") as file:
        return file.read()


def above(lowest):
    """A crate and those above it, without the crates of tests."""
    uses = {}
    for line in read("crates.txt").splitlines():
        name, _, below = line.split("#")[0].partition(":")
        uses[name.strip()] = below.split()
    found = {lowest}
    while True:
        more = {name for name, below in uses.items() if found & set(below)} - found
        if not more:
            return sorted(name for name in found if not name.startswith("djq_examples_"))
        found |= more


def arrays(path):
    """Each array of a file that is owned: its line's number, its text and its length."""
    for number, line in enumerate(read(path).splitlines(), 1):
        code = line.split("//")[0]
        for match in ARRAY.finditer(code):
            before, length = code[: match.start()], match[2]
            if BUFFER.search(length) or LENT.search(before) or INSIDE.search(before):
                continue
            yield number, match[0], length


def main():
    rows = {(file, length): False for file, length, _, _ in ROW.findall(read("docs/DECISIONS.md"))}
    passed, failed = 0, 0
    for crate in above(LOWEST):
        for path in sorted(glob.glob(os.path.join(ROOT, "crates", crate, "src", "**", "*.rt"), recursive=True)):
            file = os.path.relpath(path, ROOT)
            for number, text, length in arrays(file):
                known = (file, length) in rows
                print(f"{file}:{number}: {text}{'' if known else ', which docs/DECISIONS.md has no row for'}")
                if known:
                    rows[file, length] = True
                    passed += 1
                else:
                    failed += 1
    for (file, length), is_there in rows.items():
        if not is_there:
            print(f"docs/DECISIONS.md: a row names an array of {length} in {file}, which isn't there")
            failed += 1
    print(f"{passed} passed, {failed} failed")
    sys.exit(1 if failed else 0)


if __name__ == "__main__":
    main()
