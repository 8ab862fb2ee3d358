#!/usr/bin/env python3
"""What is trusted beside the proofs, as far as files tell it, and whether the pages say so.

    tests/trusted.py PROGRAM [--check | --report FILE] [--write]

It counts the code that meets the system, file by file. It looks whether any file of a crate assumes something, leaves a goal
open or uses what only trust covers. It lists the functions of the C library that PROGRAM calls, by `nm` of Debian's binutils, and
those that the verdict rests on: `--check` calls `rt check --list-axioms` in the program's folder, and FILE is what that printed, or
what `rt ci` did. `--write` writes the marked parts of the pages anew. What can't be looked at is named, and isn't compared. Last
`N passed, N failed` is printed; the status is 0 where none failed.
"""

import argparse
import glob
import os
import re
import shutil
import subprocess
import sys

sys.dont_write_bytecode = True
from definitions import BELOW, ROOT, is_code, read  # noqa: E402
from marked import Pages  # noqa: E402

# The types over the system: of the crates that declare the first all code counts, of the others the one file.
WHOLE = ("TcpHub", "FileDisk")
ALONE = ("StdSource", "StdSink", "Telling")

# The functions that are proved by hand: they alone set the ghost list of calls.
BY_HAND = {f"crates/djq_system/proofs/notes/Notes/{name}/Proof.antt" for name in ("new", "note")}

# Words that assume a statement or leave one open, in definitions and proofs; and that only trust covers, in code.
ASSUMING = re.compile(r"\b(?:axiom|Prim\.Axiom)\b|(?:^|[\s(,])\?")
TRUSTING = re.compile(r"\b(?:unsafe|extern|Abort|Wait|forever|transmute)\b")

# A line of the report, in the long form and in the short one, and a function's line in the long form.
AXIOMS = re.compile(r"^axioms (\w+): .*?(\d+|none) (?:reached )?of the (\d+) declared", re.MULTILINE)
REACHED = re.compile(r"^\s*([a-z_]\w*(?:::\w+)+)\b.*\breached$", re.MULTILINE)


def sources(pattern="src/**/*.rt"):
    return sorted(glob.glob(os.path.join(ROOT, "crates", "*", pattern), recursive=True))


def is_test(path):
    """Whether a file of `src/` is of a crate of tests."""
    return "/djq_examples_" in path


def is_main(path):
    """Whether a file has the program's `main`."""
    text = read(path)
    return "run_program" in text and bool(re.search(r"^fn main\(", text, re.MULTILINE))


def edge():
    """The files that meet the system, from the crates' root."""
    found = set()
    for path in sources():
        declared = set(re.findall(r"^(?:pub(?:\(crate\))? )?struct (\w+)", read(path), re.MULTILINE))
        if declared & set(WHOLE):
            found.update(glob.glob(os.path.join(os.path.dirname(path), "**", "*.rt"), recursive=True))
        if declared & set(ALONE) or is_main(path):
            found.add(path)
    return sorted(path for path in found if not is_test(path))


def code_of(path):
    return sum(map(is_code, read(path).split("\n")))


def first_sentence(path):
    """What the first type of a file is for, by its comment; of a crate's root what the crate is."""
    text = read(path)
    found = re.search(r"((?:^///.*\n)+)(?:#\[.*\]\n)*(?:pub(?:\(crate\))? )?(?:struct|enum|fn|trait)", text, re.MULTILINE)
    whole = re.search(r"\A((?://!.*\n)+)", text) or found
    words = re.sub(r"^//[/!] ?", "", whole[1], flags=re.MULTILINE) if whole else ""
    return re.split(r"(?<=[.:])\s", words.strip().replace("\n", " "))[0].rstrip(".:") if words else ""


def edge_rows():
    rows = "| file | lines of code | what it is |\n|---|---|---|\n"
    for path in edge():
        rows += f"| `{os.path.relpath(path, os.path.join(ROOT, 'crates'))}` | {code_of(path)} | {first_sentence(path)} |\n"
    return rows


# What the program stands on of the kit

STD = ("std", "std_alloc", "std_collections", "std_heap", "std_io", "core", "io", "libc", "os")


def kit():
    """The folder of the kit's libraries, or None where `rt` isn't there."""
    if not shutil.which("rt"):
        return None
    page = subprocess.run(["rt", "doc"], capture_output=True, text=True).stdout.strip()
    return os.path.join(os.path.dirname(page), "rattle")


def libraries():
    """The kit's libraries that the program's crates name, and std with what is below it."""
    program = next(path for path in sources() if is_main(path))
    met, waiting = set(), [os.path.relpath(program, os.path.join(ROOT, "crates")).split("/")[0]]
    while waiting:
        crate = waiting.pop()
        met.add(crate)
        waiting += [below for below in BELOW.get(crate, ()) if below not in met]
    return (*sorted(met - set(BELOW) - set(STD)), *STD)


def kit_rows(folder):
    rows = "| library | lines of code | licence in the kit |\n|---|---|---|\n"
    for name in libraries():
        files = glob.glob(os.path.join(folder, name, "src", "**", "*.rt"), recursive=True)
        licences = sorted(os.path.basename(path) for path in glob.glob(os.path.join(folder, name, "LICENSE*")))
        rows += f"| {name} | {sum(map(code_of, files)):,} | {' '.join(licences) or 'none'} |\n"
    logic = [path for part in ("logic", "antt") for path in glob.glob(os.path.join(folder, part, "**", "*.antt"), recursive=True)]
    return rows + f"| the logic, of definitions and proofs that each check reads | {sum(map(code_of, logic)):,} | none |\n"


# What is assumed


def without_comments(text, mark):
    return re.sub(rf"{mark}.*", "", re.sub(r'"(?:[^"\\]|\\.)*"', '""', text))


def assumptions(path, mark, words):
    """The lines of a file that assume something, leave a goal open or use what only trust covers."""
    for number, line in enumerate(read(path).split("\n"), 1):
        if words.search(without_comments(line, mark)):
            yield f"{os.path.relpath(path, ROOT)}:{number}: {line.strip()}"


def hold_assumptions(held):
    """No file assumes anything, and none but tests uses what only trust covers."""
    looked = [(path, "--", ASSUMING) for path in sources("specs/**/*.antt") + sources("proofs/**/*.antt")]
    looked += [(path, "//", TRUSTING) for path in sources() if not is_test(path)]
    for path, mark, words in looked:
        places = list(assumptions(path, mark, words))
        held.check(not places, "\n".join(f"{place}: assumes something, or uses what only trust covers" for place in places))


def hold_proofs_by_hand(held):
    """No function is proved by hand but those that set a ghost list of calls, whose text TRUST.md asks to be read."""
    found = {os.path.relpath(path, ROOT) for path in sources("proofs/**/Proof.antt")}
    for path in sorted(found ^ BY_HAND):
        held.check(False, f"{path}: proved by hand, and TRUST.md doesn't say so" if path in found else f"{path}: isn't there")
    held.check(found == BY_HAND, "the proofs by hand aren't those that TRUST.md names")


def calls(program):
    """The functions of the C library that a program calls, or None where that can't be told."""
    if not shutil.which("nm"):
        return None
    told = subprocess.run(["nm", "-D", "--undefined-only", program], capture_output=True, text=True)
    if told.returncode:
        return None
    return sorted({line.split()[-1].split("@")[0] for line in told.stdout.splitlines() if " U " in line})


def axioms(report):
    """Of each library on how many functions of C the verdict rests and how many there are; and their names, where they are told."""
    counts = {library: (reached.replace("none", "0"), declared) for library, reached, declared in AXIOMS.findall(report)}
    return counts, sorted(set(REACHED.findall(report)))


def report_of(given):
    """What the check of the program printed, or nothing."""
    if given.report:
        return read(given.report)
    if not given.check:
        return ""
    folder = os.path.dirname(os.path.dirname(next(path for path in sources() if is_main(path))))
    return subprocess.run(["rt", "check", "--list-axioms"], cwd=folder, capture_output=True, text=True).stdout


def axiom_rows(counts, names):
    rows = "| library | functions of C that it declares | of which the verdict rests on |\n|---|---|---|\n"
    rows += "".join(f"| {library} | {declared} | {reached} |\n" for library, (reached, declared) in sorted(counts.items()))
    return rows + (f"\n{', '.join(names)}\n" if names else "")


def skipped(called, counts):
    """What can't be looked at here."""
    if not called:
        yield "the program's calls of C: nm isn't there, or can't read it"
    if not counts:
        yield "which functions of C the verdict rests on: neither --check nor a report with lines `axioms` was given"
    if not kit():
        yield "the sizes of the kit's libraries: rt isn't there"


def main():
    words = argparse.ArgumentParser(description=__doc__.splitlines()[0])
    words.add_argument("program")
    words.add_argument("--report", metavar="FILE", help="what `rt check --list-axioms` or `rt ci` printed")
    words.add_argument("--check", action="store_true", help="call `rt check --list-axioms`")
    words.add_argument("--write", action="store_true", help="write the marked parts of the pages anew")
    given = words.parse_args()
    called = calls(given.program)
    counts, names = axioms(report_of(given))
    for what in skipped(called, counts):
        print(f"skipped: {what}")
    makes = {
        "edge": lambda shown: edge_rows(),
        "kit": lambda shown: kit_rows(kit()) if kit() else None,
        "calls": lambda shown: f"{', '.join(called)}\n" if called else None,
        "axioms": lambda shown: axiom_rows(counts, names or re.findall(r"\w+(?:::\w+)+", shown)) if counts else None,
    }
    files = edge()
    numbers = {"edge.code": f"{sum(map(code_of, files)):,}", "edge.files": str(len(files))}
    held = Pages("trusted.py", lambda what, shown: makes[what](shown), numbers.get)
    if given.write:
        held.write()
    held.hold()
    hold_assumptions(held)
    hold_proofs_by_hand(held)
    held.check(files, "no file meets the system")
    print(f"{held.passed} passed, {held.failed} failed")
    return 1 if held.failed else 0


if __name__ == "__main__":
    sys.exit(main())
