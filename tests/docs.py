#!/usr/bin/env python3
"""Compares the pages with what they speak of: paths, names, sessions, the table of crates, the files that a change touches, the
kit's line; and checks that no two definitions have one name.

    tests/docs.py PATH_TO_DJQ

It needs Python's standard library alone. One line is printed for each place that doesn't hold, and last
`N passed, N failed`; the status is 0 where none failed.

A block of a page that begins with ```lines is a session, and the ```replies behind it what is answered. In a block
```session each line has its reply beside it, at least two spaces away, and further replies stand alone below, also behind
spaces. A block ```session more goes on with the session before it. In all, answers (`= ..`) that stand together come in any order,
and so do the lines of a delta (`+ ..`, `- ..`).
The Python sessions of docs/CLIENT.md are run over one server, and the page has to name each method and error of the client.
"""

import glob
import itertools
import os
import re
import subprocess
import sys

ROOT = os.path.abspath(os.path.join(os.path.dirname(os.path.abspath(__file__)), ".."))

# names of other programs, of the system and of mathematics that pages put between backticks
ELSEWHERE = {
    "nc", "sqlite", "valgrind", "callgrind", "gcc", "epoll", "stunnel", "openssl", "git", "pip", "python3", "redis", "netcat", "nodejs",
    "MemoryMax", "cert", "CAfile", "ulimit", "SIGTERM", "SIGINT", "SIGPIPE", "EMFILE", "LD_PRELOAD", "max_slot_wal_keep_size", "stdin", "stdout", "stderr", "NAME",
}

# words of SQL and of Redis, that pages compare with
ELSEWHERE |= set("AND AS CASE COUNT DATE DECIMAL DELETE DISTINCT EXCEPT EXISTS EXPLAIN FETCH FILTER FROM HAVING INSERT INTERSECT "
                 "LIKE LISTEN MULTI NOT NOTIFY NULL OFFSET OR REPLICATION SELECT SUBSCRIBE SUM UNION UPDATE USING WITH".split())

passed, failed = 0, 0


def check(holds, *words):
    global passed, failed
    if holds:
        passed += 1
    else:
        failed += 1
        print(*words)


def pages():
    for pattern in ("*.md", "docs/*.md", "bench/*.md", "clients/**/*.md"):
        yield from sorted(glob.glob(os.path.join(ROOT, pattern), recursive=True))


def read(path):
    with open(path, encoding="utf-8") as file:
        return file.read()


def blocks(page):
    """The fenced blocks of a page: the word behind the fence, and the lines."""
    kind, lines = None, []
    for line in page.split("\n"):
        if line.startswith("```"):
            if kind is None:
                kind, lines = line[3:].strip(), []
            else:
                yield kind, lines
                kind = None
        elif kind is not None:
            lines.append(line)


def prose(page):
    """The lines of a page outside its fenced blocks."""
    inside = False
    for line in page.split("\n"):
        if line.startswith("```"):
            inside = not inside
        elif not inside:
            yield line


# Paths


PATH = re.compile(r"^[A-Za-z0-9_.\-]*(/[A-Za-z0-9_.\-]+)*/?$")
ENDING = re.compile(r"\.(md|rt|antt|py|mjs|ts|txt|svg|json|edit|sh|c)$")


def is_path(word):
    if {"FILE", "FUNCTION", "NAME"} & set(word.split("/")):
        return False  # stands for any
    return bool(PATH.match(word)) and ("/" in word or ENDING.search(word)) and not word.startswith(("/", "."))


def there(path):
    return os.path.exists(path) or os.path.basename(os.path.dirname(path)) == "out"


def find(word, page, line, last):
    """Where a path of a page leads to: from the root, the crates, the page, the path that was named before it, the crate that
    the line names, or, where it names none, any crate."""
    bases = [ROOT, os.path.join(ROOT, "crates"), os.path.dirname(page)]
    named = re.findall(r"\bdjq(?:_[a-z_]+)?\b", line)
    bases += [os.path.join(ROOT, "crates", name) for name in named] or glob.glob(os.path.join(ROOT, "crates", "*"))
    while last and last.startswith(ROOT) and last != ROOT:
        bases.append(last)
        last = os.path.dirname(last)
    for base in bases:
        if there(os.path.join(base, word)):
            return os.path.join(base, word)
    # the name of a file that many crates have
    anywhere = [] if named or "/" in word else glob.glob(os.path.join(ROOT, "crates", "*", "proofs", "**", word), recursive=True)
    return anywhere[0] if anywhere else None


def paths():
    for page in pages():
        name = os.path.relpath(page, ROOT)
        for number, line in enumerate(prose(read(page)), 1):
            for target in re.findall(r"\]\(([^)#]+?)(?:#[^)]*)?\)", line):
                if "://" not in target:
                    check(there(os.path.join(os.path.dirname(page), target)), f"{name}: no file {target}")
            last = None
            for word in re.findall(r"`([^` ]+)`", line):
                if is_path(word):
                    found = find(word, page, line, last)
                    check(found is not None, f"{name}: no file {word}")
                    last = found or last


def anchors_of(page):
    """The headings of a page, as links name them."""
    for heading in re.findall(r"^#+ (.*)$", "\n".join(prose(page)), re.MULTILINE):
        yield re.sub(r"[^\w\- ]", "", heading.strip().lower()).replace(" ", "-")


def anchors():
    for page in pages():
        text = "\n".join(prose(read(page)))
        for target, anchor in re.findall(r"\]\(([^)#\s]*)#([^)\s]*)\)", text):
            path = os.path.join(os.path.dirname(page), target) if target else page
            if "://" not in target and os.path.exists(path):
                check(anchor in anchors_of(read(path)), f"{os.path.relpath(page, ROOT)}: {target} has no section #{anchor}")


# Names


def known_words():
    words = set(ELSEWHERE)
    for pattern in ("crates/**/*.rt", "crates/**/*.antt", "**/*.py", "**/*.mjs", "clients/node/*/*.d.ts", "crates/*/must-fail/*.edit"):
        for path in glob.glob(os.path.join(ROOT, pattern), recursive=True):
            if "/out/" not in path:
                words.update(re.findall(r"[A-Za-z_][A-Za-z0-9_]*", read(path)))
                words.add(os.path.splitext(os.path.basename(path))[0])
    words.update(re.findall(r"[a-z_0-9]+", read(os.path.join(ROOT, "crates.txt"))))
    return words


def names():
    known = known_words()
    for page in pages():
        name = os.path.relpath(page, ROOT)
        said = [line for kind, lines in blocks(read(page)) if kind.split(" ")[0] in ("session", "lines", "djq") for line in lines]
        own = known | set(re.findall(r"[a-z_0-9]+", "\n".join(said)))
        for line in prose(read(page)):
            for word in re.findall(r"`([A-Za-z_][A-Za-z0-9_]*(?:(?:::|\.)[A-Za-z_][A-Za-z0-9_]*)*)(?:\(\))?`", line):
                if is_path(word):
                    continue
                missing = [part for part in re.split(r"::|\.", word) if part not in own]
                check(not missing, f"{name}: nothing is named {', '.join(missing)} (`{word}`)")


# Files that a change has to touch


SEARCH = re.compile(r"<!-- each file of (.*?) with: (.*) -->")
IMPORT = re.compile(r"^(?:pub )?(?:ghost )?use [^;{\n]*(?:\{[^}]*\})?[^\n]*$", re.MULTILINE)
COMMENT = re.compile(r"(?:--|//).*")


def searched(folder):
    """The files of a folder that a search goes through, each with its text: of a crate its sources, definitions and proofs, without
    imports and comments."""
    for path in sorted(glob.glob(os.path.join(ROOT, folder, "**", "*"), recursive=True)):
        text = ""
        if re.search(r"/(src|specs|proofs)/.*\.(rt|antt)$", path):
            text = COMMENT.sub("", IMPORT.sub("", read(path)))
        elif "crates" not in folder and re.search(r"\.(py|txt|c)$", path) and path != os.path.abspath(__file__):
            text = read(path)
        if text and "/out/" not in path:
            yield path, text


def named_in(section, page):
    """The files and folders that the tables of a section name."""
    found = set()
    for row in re.findall(r"^\|.*\|$", section, re.MULTILINE):
        last = None
        for word in re.findall(r"`([^` ]+)`", row):
            if is_path(word):
                last = find(word, page, row, last) or last
                found.add(last)
    return found - {None}


def changing():
    """The pages on a change name every file that their searches find, and all limits."""
    path = os.path.join(ROOT, "docs", "CHANGING.md")
    sections = re.split(r"^## ", read(path), flags=re.MULTILINE)[1:]
    for section in sections:
        title, named = section.split("\n")[0], named_in(section, path)
        searches = SEARCH.findall(section)
        check(searches, f"docs/CHANGING.md, {title}: no search holds this list")
        for folders, words in searches:
            hits = [file for folder in folders.split() for file, text in searched(folder) if re.search(words, text)]
            check(hits, f"docs/CHANGING.md, {title}: no file has {words}")
            for hit in hits:
                is_named = any(hit == one or hit.startswith(one.rstrip("/") + "/") for one in named)
                check(is_named, f"docs/CHANGING.md, {title}: {os.path.relpath(hit, ROOT)} has {words}, and isn't named")
    limits = re.findall(r"^pub const (\w+)", read(os.path.join(ROOT, "crates", "djq_protocol", "src", "limits.rt")), re.MULTILINE)
    for limit in limits:
        check(f"`{limit}`" in "".join(sections), f"docs/CHANGING.md doesn't speak of the limit {limit}")


# Decisions


ASPECTS = ["Context", "Choice", "Why", "Cost"]


def decisions():
    """Each decision is in the index, in order, has its four parts, and at most 300 words."""
    page = read(os.path.join(ROOT, "docs", "DECISIONS.md"))
    index, *entries = re.split(r"^### ", page, flags=re.MULTILINE)
    listed = re.findall(r"^- \[(.*)\]\((#.*)\)$", index, re.MULTILINE)
    titles = [entry.split("\n")[0] for entry in entries]
    anchors = ["#" + re.sub(r"[^\w\- ]", "", title.lower()).replace(" ", "-") for title in titles]
    check(titles and listed == list(zip(titles, anchors)), "docs/DECISIONS.md: the index isn't the list of its entries")
    for title, entry in zip(titles, entries):
        entry = re.split(r"^## ", entry, flags=re.MULTILINE)[0]
        check(re.findall(r"^- \*\*(\w+)\.\*\*", entry, re.MULTILINE) == ASPECTS, f"docs/DECISIONS.md, {title}: not {', '.join(ASPECTS)}")
        check(len(entry.split()) <= 300, f"docs/DECISIONS.md, {title}: {len(entry.split())} words")


def glossary():
    """No word is explained twice."""
    words = []
    for section in re.split(r"^## ", read(os.path.join(ROOT, "docs", "GLOSSARY.md")), flags=re.MULTILINE)[1:]:
        for cell in re.findall(r"^\| ([^|]+) \|", section, re.MULTILINE)[1:]:
            words += [] if section.startswith("Words of the code") else re.split(r", ", cell)
    for word in sorted(set(words)):
        check(words.count(word) == 1, f"docs/GLOSSARY.md: {word} is explained {words.count(word)} times")


# Sessions


def sessions(page):
    """The sessions that a page shows: the lines, and the replies."""
    lines = None
    for kind, rows in blocks(page):
        if kind == "lines":
            lines = rows
        elif kind == "replies":
            yield lines, rows
            lines = None
        elif kind in ("session", "session more"):
            said, answered = (said[:], answered[:]) if kind.endswith("more") else ([], [])
            for row in rows:
                parts = re.split(r"\s{2,}", row.strip(), maxsplit=1) if not row.startswith(" ") else ["", row.strip()]
                said += [parts[0]] if parts[0] else []
                answered += parts[1:]
            yield said, answered


def in_any_order(replies):
    """The replies, with the answers that stand together in order, and the lines of each delta."""
    of_one_block = lambda reply: "=" if reply.startswith("= ") else "+" if reply.startswith(("+ ", "- ")) else None
    ordered = []
    for block, run in itertools.groupby(replies, of_one_block):
        ordered += sorted(run) if block else run
    return ordered


def shown_sessions(program):
    for page in pages():
        for said, answered in sessions(read(page)):
            text = "".join(line + "\n" for line in said).encode()
            done = subprocess.run([program, "run"], input=text, capture_output=True, timeout=60)
            got = done.stdout.decode().splitlines()
            check(in_any_order(got) == in_any_order(answered), f"{os.path.relpath(page, ROOT)}: a session isn't answered as shown:\n  "
                  + "\n  ".join(f"{a!r} is shown, {b!r} came" for a, b in zip(in_any_order(answered), in_any_order(got)) if a != b))


# The client's page


KINDS = ("Connection", "Cursor", "Pipeline", "Transaction", "Live", "Lives", "Index", "Table", "Expiring")


def client_page(program):
    """Its sessions are as shown, and each method and each error of the client is named."""
    sys.path.insert(0, os.path.join(ROOT, "tests"))
    import pages as sessions_of

    djq = sessions_of.djq
    try:
        ran = sessions_of.run_page("CLIENT.md", program)
        check(ran["python"] > 10, f"docs/CLIENT.md: {ran['python']} sessions were run")
    except Exception as error:  # noqa: BLE001
        check(False, f"docs/CLIENT.md: {error!r}")
    page = read(os.path.join(ROOT, "docs", "CLIENT.md"))
    told = set(re.findall(r"\b([A-Za-z_]+)\(", page)) | set(re.findall(r"`([A-Za-z_]+)`", page))
    for kind in KINDS:
        for name in dir(getattr(djq, kind)):
            if not name.startswith("_") and callable(getattr(getattr(djq, kind), name)):
                inside = kind == "Index" and name in ("begin", "clear", "take", "get", "items", "keys", "values")
                check(inside or name in told, f"docs/CLIENT.md doesn't name {kind}.{name}")
    for name in djq.__all__:
        if isinstance(getattr(djq, name), type) and issubclass(getattr(djq, name), Exception):
            check(name in told or name in ("Error", "Refused"), f"docs/CLIENT.md doesn't name {name}")


# Definitions


DEFINITION = re.compile(r"^(?!pub use)(?:(?:abbrev|unfoldable|record|data|pub) )+([^\s:(){}]+)", re.MULTILINE)


def definitions():
    """Each name is that of one definition, in whatever crate."""
    homes = {}
    for path in sorted(glob.glob(os.path.join(ROOT, "crates", "*", "specs", "*.antt"))):
        if os.path.basename(path) != "Lib.antt":
            for name in DEFINITION.findall(read(path)):
                homes.setdefault(name, []).append(os.path.relpath(path, os.path.join(ROOT, "crates")))
    for name, files in homes.items():
        check(len(files) == 1, f"{name} is defined {len(files)} times: {', '.join(files)}")


# The crates, the kit, the size of the front page


def crates():
    below = {}
    for line in read(os.path.join(ROOT, "crates.txt")).splitlines():
        line = line.split("#")[0]
        if ":" in line:
            name, needs = line.split(":")
            below[name.split()[0]] = needs.split()
    page = read(os.path.join(ROOT, "docs", "ARCHITECTURE.md"))
    listed = {}
    for row in re.findall(r"^\| (djq\w*) \| [^|]+ \|([^|]*)\|$", page, re.MULTILINE):
        check(row[0] not in listed, f"docs/ARCHITECTURE.md: {row[0]} stands twice")
        listed[row[0]] = row[1]
    check(sorted(listed) == sorted(below), "docs/ARCHITECTURE.md and crates.txt differ:", sorted(set(listed) ^ set(below)))
    for name, needs in listed.items():
        for need in re.findall(r"[a-z_]+", needs):
            check("djq_" + need in below.get(name, []), f"docs/ARCHITECTURE.md: {name} doesn't depend on {need}")
    proved = read(os.path.join(ROOT, "docs", "PROVED.md"))
    for name in below:
        check(re.search(rf"^\| {name} \|", proved, re.MULTILINE), f"docs/PROVED.md doesn't speak of {name}")
    done = subprocess.run([sys.executable, os.path.join(ROOT, "docs", "pictures.py"), "--check"], capture_output=True, text=True)
    check(done.returncode == 0, done.stdout.strip() or done.stderr.strip())


def kit():
    line = subprocess.run(["rt", "version"], capture_output=True, text=True).stdout.strip()
    check(line and line in read(os.path.join(ROOT, "README.md")), f"README.md doesn't name the kit's line: {line}")


# The pages for whoever works on djq, each of which says first whom it is for.
INNER = ["CONTRIBUTING.md"] + [f"docs/{name}.md" for name in ("ARCHITECTURE", "CHANGING", "DECISIONS", "GLOSSARY", "PROVED")]


def readers():
    for name in INNER:
        first = read(os.path.join(ROOT, name)).split("\n")[2]
        check(first.startswith("*For "), f"{name} doesn't say first whom it is for")


def front_page():
    size = os.path.getsize(os.path.join(ROOT, "README.md"))
    check(size <= 8192, f"README.md has {size} bytes, and 8192 at most are wanted")
    for row in re.findall(r"^\|.*\|$", read(os.path.join(ROOT, "docs", "PROVED.md")), re.MULTILINE):
        for cell in row.strip("|").split("|"):
            check(len(cell.split()) <= 40, f"docs/PROVED.md: a cell of {len(cell.split())} words: {cell.strip()[:60]} ..")


def main():
    if len(sys.argv) != 2:
        raise SystemExit(__doc__)
    paths()
    anchors()
    names()
    definitions()
    changing()
    decisions()
    glossary()
    shown_sessions(os.path.abspath(sys.argv[1]))
    client_page(os.path.abspath(sys.argv[1]))
    crates()
    kit()
    readers()
    front_page()
    print(f"{passed} passed, {failed} failed")
    return 1 if failed else 0


if __name__ == "__main__":
    sys.exit(main())
