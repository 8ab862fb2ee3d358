"""Parts of the pages that a script writes and that a test holds against the tree.

A block stands between `<!-- begin: tests/NAME.py WHAT -->` and `<!-- end -->`, a number between `<!--=KEY-->` and `<!--/-->`.
What isn't the script's own, or can't be told, is None, and stays as it is.
"""

import glob
import os
import re

from definitions import ROOT, read

NUMBER = re.compile(r"<!--=([\w.]+)-->(.*?)<!--/-->")
DIGITS = re.compile(r"\d[\d,]*(?:\.\d+)?")


def block_of(script):
    """The blocks of a script: what each is of, and its text."""
    return re.compile(rf"(<!-- begin: tests/{script} (.*?) -->\n)(.*?)(<!-- end -->)", re.DOTALL)


def pages():
    for pattern in ("*.md", "docs/*.md"):
        yield from sorted(glob.glob(os.path.join(ROOT, pattern)))


def is_near(shown, wanted, share, least=0):
    """Whether two texts are the same but for numbers, and these differ by no more than this share of them, or this much."""
    if DIGITS.sub("#", shown) != DIGITS.sub("#", wanted):
        return False
    pairs = zip(DIGITS.findall(shown), DIGITS.findall(wanted))
    values = [(float(a.replace(",", "")), float(b.replace(",", ""))) for a, b in pairs]
    return all(abs(a - b) <= max(share * a, least) for a, b in values)


class Pages:
    """Goes over the marked parts of one script, and holds them or writes them."""

    def __init__(self, script, text_of, number_of, share_of=lambda what: (0, 0)):
        self.block, self.text_of, self.number_of, self.share_of = block_of(script), text_of, number_of, share_of
        self.passed, self.failed = 0, 0

    def check(self, holds, words):
        self.passed, self.failed = self.passed + bool(holds), self.failed + (not holds)
        if not holds:
            print(words)

    def hold(self):
        for path in pages():
            page, name = read(path), os.path.relpath(path, ROOT)
            for _, what, shown, _ in self.block.findall(page):
                wanted = self.text_of(what, shown)
                if wanted is not None:
                    words = f"{name}: the part '{what}' doesn't say what the tree has: call this test with --write and read it"
                    self.check(is_near(shown, wanted, *self.share_of(what)), words)
            for key, shown in NUMBER.findall(page):
                wanted = self.number_of(key)
                if wanted is not None:
                    words = f"{name}: {key} is said to be {shown}, and is {wanted}"
                    self.check(is_near(shown, wanted, *self.share_of(key)), words)

    def write(self):
        for path in pages():
            page = old = read(path)
            page = self.block.sub(lambda part: part[1] + (self.text_of(part[2], part[3]) or part[3]) + part[4], page)
            page = NUMBER.sub(lambda part: f"<!--={part[1]}-->{self.number_of(part[1]) or part[2]}<!--/-->", page)
            if page != old:
                with open(path, "w", encoding="utf-8") as file:
                    file.write(page)
                print(f"{os.path.relpath(path, ROOT)} is written")
