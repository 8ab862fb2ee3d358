#!/usr/bin/env python3
"""Holds what the built program costs in instructions against bench/counted.json: no kind of work may take over a
twentieth more than is kept there.

    python3 tests/counted.py PROGRAM

Passes, and says so, where valgrind isn't there or no counts are kept. What rose with a reason is kept by `bench/count.py PROGRAM --write`.
"""

import os
import sys

sys.path.insert(0, os.path.join(os.path.dirname(os.path.abspath(__file__)), "..", "bench"))
from count import can_count, count, kept  # noqa: E402

MOST = 1.05  # times what is kept


def main():
    if not can_count():
        print("0 passed, 0 failed: nothing is counted, as valgrind isn't there")
        return
    failed, before = 0, kept()
    if not before:
        print("0 passed, 0 failed: no counts are kept, see bench/count.py")
        return
    for name, counts in count(os.path.abspath(sys.argv[1]), tuple(before)).items():
        for rows, now, then in zip(("N", "4N"), counts, before[name]):
            if now > MOST * then:
                failed += 1
                print(f"{name} with {rows} rows: {now:,} instructions, and {then:,} were kept ({now / then:.3f} times)")
    print(f"{2 * len(before) - failed} passed, {failed} failed")
    sys.exit(1 if failed else 0)


if __name__ == "__main__":
    main()
