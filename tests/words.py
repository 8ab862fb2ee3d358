#!/usr/bin/env python3
"""Holds the words of the pages to the field's measure: send, return, log, insert, after, if, in place of a few words for all.

    python3 tests/words.py [PROGRAM]

Prints, per thousand words, how often these words occur on each page, in the comments of crates (`///`, `//!`, `//`) and in
those of their definitions (`--` in specs/). Redis' README and LevelDB's pages have the figures in MEASURE; the pages
may have twice as many. A sentence of a page in SHORT has 35 words at most, and each page says first whom it is for. Comments may
have at most what CEILING allows; for a word above it the places are printed. PROGRAM isn't looked at. Last
`N passed, M failed` is printed; the status is 0 if none failed.
"""

import glob
import math
import os
import re
import sys

ROOT = os.path.abspath(os.path.join(os.path.dirname(os.path.abspath(__file__)), ".."))

FORMS = {
    "tell": "tell tells told telling",
    "come, go": "come comes came coming go goes went gone going",
    "keep": "keep keeps kept keeping",
    "take": "take takes took taken taking",
    "stand": "stand stands stood standing",
    "behind": "behind",
    "where": "where",
    "say": "say says said saying",
    "exactly": "exactly",
}
# occurrences in a thousand words of redis' README and LevelDB's README, impl, index and log_format (9,728 words)
MEASURE = {"tell": 0.0, "come, go": 0.5, "keep": 0.8, "take": 0.2, "stand": 0.0, "behind": 0.0, "where": 0.7, "say": 0.3,
           "exactly": 0.2}
# the most of them in comments: what they have, and room for the few that no other word replaces
CEILING = {"tell": 0.1, "come, go": 0.3, "keep": 0.3, "take": 0.3, "stand": 0.1, "behind": 0.1, "where": 0.3, "say": 0.3,
           "exactly": 0.3}
# the comments that are counted: their files, and what such a line begins with
COMMENTS = {"comments in src": ("crates/*/src/**/*.rt", "//[/!]?"), "comments in specs": ("crates/*/specs/**/*.antt", "--")}

READERS = ["README.md", "SECURITY.md", "docs/PROTOCOL.md", "docs/QUERIES.md", "docs/RECIPES.md", "docs/OPERATIONS.md",
           "docs/PERFORMANCE.md", "docs/TUTORIAL.md", "docs/MODELLING.md", "docs/FROM-SQL.md", "docs/BESIDE.md"]
# the other pages of docs have no more of them either, but for these: the glossary quotes names, PROVED.md lists names and means 'exactly'
QUOTED = {"docs/GLOSSARY.md": {"tell"}, "docs/PROVED.md": {"tell", "stand", "exactly"}}
SHORT = ["README.md", "docs/PROTOCOL.md", "docs/TUTORIAL.md", "docs/MODELLING.md", "docs/FROM-SQL.md", "docs/BESIDE.md"]
MOST_WORDS = 35
# pages that don't say yet whom they are for: one that does has to leave this list
UNADDRESSED = {"docs/THEOREM.md"}

FOR_WHOM = re.compile(r"\bfor (a reader|readers|who|whoever|everybody who|those who|you)\b", re.IGNORECASE)

passed, failed = 0, 0


def check(holds, *words):
    global passed, failed
    if holds:
        passed += 1
    else:
        failed += 1
        print(*words)


def read(path):
    with open(os.path.join(ROOT, path), encoding="utf-8") as file:
        return file.read()


# What of a page is prose


def without_blocks(page):
    """A page without its fenced blocks and comments, with a word for each piece of code, and links as their words."""
    page = re.sub(r"^```.*?^```$", "\n", page, flags=re.MULTILINE | re.DOTALL)
    page = re.sub(r"<!--.*?-->|<[a-z/][^>\n]*>", "", page, flags=re.DOTALL)
    page = re.sub(r"`[^`\n]+`", "CODE", page)
    return re.sub(r"!?\[([^\]]*)\]\([^)]*\)", r"\1", page)


def units(page):
    """The pieces of a page that sentences don't reach across: paragraphs, items, headings, cells."""
    piece = []
    for line in without_blocks(page).split("\n") + [""]:
        text = line.strip().lstrip("> ")
        begins = not text or re.match(r"([-*] |\d+\. |#|\|)", text)
        if begins and piece:
            yield " ".join(piece)
            piece = []
        if text.startswith("|"):
            yield from re.split(r"\s\|\s|·", text.strip("|"))
        elif text:
            piece.append(re.sub(r"^([-*] |\d+\. |#+ )", "", text))


def sentences(page):
    for unit in units(page):
        yield from re.split(r"(?<=[.?!])[\"')*]*\s+", unit)


def words_of(text):
    return re.findall(r"[A-Za-z0-9][A-Za-z0-9_'’,.+-]*", text)


def for_whom(page):
    """The first paragraph below the title."""
    pieces = list(units(page))
    return pieces[1] if len(pieces) > 1 else ""


# Counting


def counts(text):
    """How many words a text has, and how often each of those that are counted occurs."""
    words = [word.lower() for word in re.findall(r"[A-Za-z][A-Za-z'’]*", text)]
    return len(words), {name: sum(word in forms.split() for word in words) for name, forms in FORMS.items()}


def rate(count, words):
    return round(1000 * count / max(words, 1), 1)


def show(name, words, found):
    print(f"{name:28} {words:7,} " + " ".join(f"{rate(found[word], words):9.1f}" for word in FORMS))


def comments(pattern, mark):
    """The lines of comments in the crates' files: where each is, and its words without pieces of code."""
    for path in sorted(glob.glob(os.path.join(ROOT, pattern), recursive=True)):
        for number, line in enumerate(read(path).split("\n"), 1):
            comment = re.match(rf"\s*{mark}(.*)$", line)
            if comment:
                yield f"{os.path.relpath(path, ROOT)}:{number}", re.sub(r"`[^`\n]+`", " ", comment.group(1))


def held_pages():
    """Each page for itself, its figures rounded up to a whole occurrence; then all of READERS together."""
    total, together = 0, dict.fromkeys(FORMS, 0)
    others = [os.path.relpath(path, ROOT) for path in sorted(glob.glob(os.path.join(ROOT, "docs", "*.md")))]
    for page in dict.fromkeys(READERS + others):
        words, found = counts(without_blocks(read(page)).replace("CODE", ""))
        show(page, words, found)
        total += words if page in READERS else 0
        for name, count in found.items():
            together[name] += count if page in READERS else 0
            most = math.ceil(2 * MEASURE[name] * words / 1000)
            if name not in QUOTED.get(page, ()):
                check(count <= most, f"{page}: `{name}` occurs {count} times, {most} at most are wanted")
    show("the readers' pages", total, together)
    for name, count in together.items():
        now = rate(count, total)
        check(now <= 2 * MEASURE[name], f"the readers' pages: `{name}` occurs {now} times in a thousand words")


def held_comments():
    for row, (pattern, mark) in COMMENTS.items():
        lines = list(comments(pattern, mark))
        words, found = counts("\n".join(text for _, text in lines))
        show(row, words, found)
        for name, most in CEILING.items():
            now = rate(found[name], words)
            places = [place for place, text in lines if counts(text)[1][name]] if now > most else []
            check(now <= most, f"{row}: `{name}` occurs {now} times in a thousand words, and {most} at most are wanted:", *places)


def held_sentences():
    for page in SHORT:
        for sentence in sentences(read(page)):
            length = len(words_of(sentence))
            check(length <= MOST_WORDS, f"{page}: a sentence of {length} words: {sentence[:70]} ..")


def held_openings():
    for path in sorted(glob.glob(os.path.join(ROOT, "docs", "*.md"))) + [os.path.join(ROOT, "SECURITY.md")]:
        page = os.path.relpath(path, ROOT)
        addressed = bool(FOR_WHOM.search(for_whom(read(page))))
        if page in UNADDRESSED:
            check(not addressed, f"{page} says now whom it is for: UNADDRESSED doesn't need it any more")
        else:
            check(addressed, f"{page} doesn't say first whom it is for")


def main():
    print(f"{'':28} {'words':>7} " + " ".join(f"{name:>9}" for name in FORMS))
    held_pages()
    held_comments()
    held_sentences()
    held_openings()
    print(f"{passed} passed, {failed} failed")
    return 1 if failed else 0


if __name__ == "__main__":
    sys.exit(main())
