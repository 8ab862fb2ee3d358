#!/usr/bin/env python3
"""How long the statement is that the program is proved to meet, and whether the pages say so.

    tests/statement.py [PROGRAM] [--write] [--list]

From the `ensures` of `run_program` it follows names to all definitions that they reach, and prints how many these are, and in
how many lines and crates. It needs Python's standard library alone, and doesn't look at PROGRAM. `--write` writes the marked
parts of the pages anew, and `--list` prints each definition with its file and its lines. Sizes that a page tells may be off by 2
in a hundred; where the statement has grown by more, the page has to be read and written again. Last `N passed, N failed` is
printed; the status is 0 where none failed.
"""

import argparse
import glob
import os
import re
import sys

sys.dont_write_bytecode = True
from definitions import BELOW, ROOT, Repository, is_code, read  # noqa: E402
from marked import Pages, block_of  # noqa: E402

TOP = "run_program"
PAGE = os.path.join(ROOT, "docs", "THEOREM.md")

# by how much a number of a page may be off: a share of it, or so many
NEAR = {"definitions": (0, 0), "reading": (0.1, 5), "repository": (0.1, 5)}
ELSE = (0.02, 2)


def near(what):
    return NEAR.get(re.split(r"[ .]", what)[0], ELSE)


def number(n):
    return f"{n:,}"


def names_in(cell):
    """The names that a cell of a table has between backticks."""
    return re.findall(r"`(\w+)`", cell)


def cells(rows):
    """The rows of a table, without its head, as lists of cells."""
    return [[cell.strip() for cell in row.strip().strip("|").split("|")] for row in rows.strip().split("\n")[2:]]


class Size:
    """How much some definitions are: those of `specs/`, their lines of code and with comments, and what of `src/` they name."""

    def __init__(self, found):
        stated = [one for one in found if not one.is_source]
        self.definitions, self.types = len(stated), len(found) - len(stated)
        self.code, self.whole = sum(one.code() for one in stated), sum(one.whole() for one in stated)
        self.crates, self.files = len({one.crate for one in stated}), len({one.file for one in stated})

    def __str__(self):
        return f"{self.definitions} definitions, {self.code} lines of code, {self.whole} with comments, {self.crates} crates"

    def row(self, words):
        counts = (self.definitions, self.code, self.whole, self.types, self.crates)
        return f"| {words} | {' | '.join(map(number, counts))} |\n"


class Statement:
    """The statement, its parts, and what the pages tell of them."""

    def __init__(self):
        self.all = Repository()
        self.top = self.all.cited_by(TOP)
        self.found = self.all.closure(self.top)

    def size_of(self, *names):
        """How much is reached from these definitions, or from the contract of the top call."""
        roots = [one for name in names for one in (self.top if name == TOP else [self.all.named(name)])]
        return Size(self.all.closure(roots))

    def number_of(self, key):
        """A number that a page tells: of what a definition reaches, of the path, or of the whole repository."""
        name, _, kind = key.partition(".")
        if name == "repository":
            return repository(kind)
        if name == "path":
            return number(vars(Size(self.path()))[kind])
        if name == TOP or self.all.is_defined(name):
            return number(vars(self.size_of(name))[kind])
        return None

    def text_of(self, what, shown):
        """A marked block: what it is of is its first word, and further words are names."""
        kind, *names = what.split()
        makes = {"sizes": self.size_rows, "reading": self.reading_rows, "path": self.path_rows, "definitions": self.shown}
        return makes[kind](names, shown)

    def size_rows(self, names, shown):
        """A row for each that the page has: how much is reached from the definitions that its first cell names."""
        head = "| what | definitions | lines of code | with comments | types and constants of `src/` | crates |\n"
        return head + "|---|---|---|---|---|---|\n" + "".join(self.size_of(*names_in(row[0])).row(row[0]) for row in cells(shown))

    def reading_rows(self, names, shown):
        """A row a crate: which of its files the statement reaches, and how much of them."""
        rows = "| folder | files | definitions | lines | types and constants of its crate's `src/` |\n"
        rows += "|---|---|---|---|---|\n"
        for crate in sorted({one.crate for one in self.found}, key=list(BELOW).index):
            here = [one for one in self.found if one.crate == crate]
            size = Size(here)
            files = sorted({re.sub(r".*/specs/|\.antt$", "", one.file) for one in here if not one.is_source})
            counts = f"{size.definitions} | {number(size.whole)} | {size.types}"
            rows += f"| `{crate}/specs` | {', '.join(files) or 'none'} | {counts} |\n"
        return rows

    def path_rows(self, names, shown):
        """A row for each that the page has: where the definitions stand that its second cell names."""
        rows = "| | read | in | lines of code |\n|---|---|---|---|\n"
        for place, (_, said, *_) in enumerate(cells(shown), 1):
            found = [self.all.named(name) for name in names_in(said)]
            where = ", ".join(f"`{file}`" for file in sorted({one.file for one in found}))
            rows += f"| {place} | {said} | {where} | {Size(found).code} |\n"
        return rows

    def path(self):
        """The definitions of the shortest way, as the page names them."""
        (shown,) = [shown for _, what, shown, _ in block_of("statement.py").findall(read(PAGE)) if what == "path"]
        return [self.all.named(name) for row in cells(shown) for name in names_in(row[1])]

    def shown(self, names, shown):
        """Definitions as they stand in their files, but for comments and the word `pub`."""
        texts = []
        for name in names:
            lines = filter(is_code, self.all.named(name).lines)
            texts.append("\n".join(re.sub(r"^(\s*)(?:abbrev )?(?:pub )", r"\1", line) for line in lines))
        return "```antt\n" + "\n\n".join(texts) + "\n```\n"


def repository(kind):
    """How much the whole repository is: its crates, its tests, its must-fail edits and the crates that have some, its lines of code,
    of definitions and of proofs."""
    if kind == "crates":
        return str(len(BELOW))
    patterns = {
        "edits": "must-fail/*.edit", "edited": "must-fail", "tests": "src/**/*.rt",
        "source": "src/**/*.rt", "specs": "specs/**/*.antt", "proofs": "proofs/**/*.antt",
    }
    paths = glob.glob(os.path.join(ROOT, "crates", "*", patterns[kind]), recursive=True)
    if kind == "tests":
        return str(sum(read(path).count("#[test]") for path in paths))
    if kind in ("edits", "edited"):
        return str(len(paths))
    return number(sum(is_code(line) for path in paths for line in read(path).split("\n")))


def main():
    words = argparse.ArgumentParser(description=__doc__.splitlines()[0])
    words.add_argument("program", nargs="?")
    words.add_argument("--write", action="store_true", help="write the marked parts of the pages anew")
    words.add_argument("--list", action="store_true", help="print each definition that is reached")
    given = words.parse_args()
    statement = Statement()
    for one in statement.found if given.list else ():
        print(f"{one.file}: {one.name}, {one.code()} lines")
    print(f"the contract of {TOP}: {Size(statement.found)}")
    held = Pages("statement.py", statement.text_of, statement.number_of, near)
    if given.write:
        held.write()
    held.hold()
    print(f"{held.passed} passed, {held.failed} failed")
    return 1 if held.failed else 0


if __name__ == "__main__":
    sys.exit(main())
