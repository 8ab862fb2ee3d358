#!/usr/bin/env python3
"""Checks the must-fail edits: each one can be applied, and no crate has more than four.

An edit is a file crates/NAME/must-fail/EDIT.edit: a line 'file: PATH', then pairs of lines 'old: TEXT' and
'new: TEXT'. `rt must-fail` tells whether the prover refuses it."""

import sys
from pathlib import Path

CRATES = Path(__file__).resolve().parent.parent / "crates"
MOST = 4


def pairs_of(text):
    """The file, the old text and the new text of each pair of an edit."""
    path, old = None, None
    for line in text.split("\n"):
        word, _, rest = line.partition(": ")
        if word == "file":
            path = rest
        elif word == "old":
            old = rest
        elif word == "new" or line == "new:":
            yield path, old, rest


def fault_of(edit):
    """Why an edit can't be applied to its crate, or None."""
    texts = {}
    for path, old, new in pairs_of(edit.read_text()):
        if path is None or not old:
            return "a pair has no file or no old text"
        file = edit.parent.parent / path
        if path not in texts and not file.is_file():
            return f"there is no file {path}"
        before = texts.get(path) or file.read_text()
        if before.count(old) != 1:
            return f"its old text is {before.count(old)} times in {path}, not once"
        texts[path] = before.replace(old, new)
    return None if texts else "it has no pair of an old and a new text"


def main():
    """Prints what is wrong, and how many edits and crates passed."""
    passed, faults = 0, []
    for folder in sorted(CRATES.glob("*/must-fail")):
        edits = sorted(folder.glob("*.edit"))
        if len(edits) > MOST:
            faults.append(f"{folder.parent.name}: {len(edits)} edits, and {MOST} are the most")
        found = [(edit, fault_of(edit)) for edit in edits]
        faults += [f"{folder.parent.name}/{edit.name}: {why}" for edit, why in found if why]
        passed += sum(1 for _, why in found if not why)
    print(*faults, sep="\n", end="\n" if faults else "")
    print(f"edits: {passed} passed, {len(faults)} failed")
    return 1 if faults or not passed else 0


if __name__ == "__main__":
    sys.exit(main())
