#!/usr/bin/env python3
"""Draws the pages' pictures, the crates as crates.txt lists them and a join's tree as `explain` prints it, and fills in the
parts of docs/ARCHITECTURE.md that crates.txt decides: the last column of its table of crates, and the longest chain.

    docs/pictures.py            writes docs/crates.svg, docs/join.svg and these parts of docs/ARCHITECTURE.md
    docs/pictures.py --check    prints which of them differ from what would be written; the status is 1 if one does
"""

import os
import re
import sys
import textwrap

HERE = os.path.dirname(os.path.abspath(__file__))

STYLE = """<style>
text { font: 13px sans-serif; fill: #1f2328; text-anchor: middle }
.small { font-size: 12px; fill: #59636e }
.left { text-anchor: start }
.mono { font-family: monospace }
rect { fill: #f6f8fa; stroke: #59636e }
.on { fill: #ddf4ff; stroke: #0969da; stroke-width: 2 }
line, path { stroke: #8c959f; fill: none }
.way { stroke: #0969da; stroke-width: 2.5 }
.new { fill: #0969da; font-weight: bold }
</style>
<rect x="0" y="0" width="100%" height="100%" style="fill: #ffffff; stroke: none"/>
"""


def picture(width, height, title, parts):
    head = f'<svg xmlns="http://www.w3.org/2000/svg" viewBox="0 0 {width} {height}" width="{width}" role="img">\n'
    return head + f"<title>{title}</title>\n" + STYLE + "\n".join(parts) + "\n</svg>\n"


def text(x, y, words, kind=""):
    words = words.replace("&", "&amp;").replace("<", "&lt;")
    return f'<text x="{x}" y="{y}"' + (f' class="{kind}"' if kind else "") + f">{words}</text>"


def box(x, y, width, height, kind=""):
    return f'<rect x="{x}" y="{y}" width="{width}" height="{height}" rx="5"' + (f' class="{kind}"' if kind else "") + "/>"


def listed():
    """The crates of crates.txt, each with those of them that it stands on."""
    below = {}
    with open(os.path.join(HERE, "..", "crates.txt"), encoding="utf-8") as lines:
        for line in lines:
            line = line.split("#")[0]
            if ":" in line:
                name, needs = line.split(":")
                below[name.split()[0]] = needs.split()
    return {name: [need for need in needs if need in below] for name, needs in below.items()}


def ranks(below):
    """For each crate, how many stand below it in the longest chain."""
    rank = {}

    def of(name):
        if name not in rank:
            rank[name] = 1 + max(map(of, below[name]), default=-1)
        return rank[name]

    for name in below:
        of(name)
    return rank


def reached(below):
    """For each crate, all those below it, however far."""
    all_below = {}
    for name in sorted(below, key=ranks(below).get):
        all_below[name] = set(below[name]).union(*(all_below[need] for need in below[name]))
    return all_below


def needed(below):
    """The arrows that a shorter way doesn't already say."""
    all_below = reached(below)
    for name, needs in below.items():
        for need in needs:
            if not any(need in all_below[other] for other in needs):
                yield name, need


def crates():
    below = listed()
    rank = ranks(below)
    rows = [[] for _ in range(max(rank.values()) + 1)]
    for name in sorted(below):
        rows[rank[name]].append(name)
    arrows = list(needed(below))
    # each row in the order of the middles of what it is joined to, up and down a few times
    spot = {name: i / len(row) for row in rows for i, name in enumerate(row)}
    for sweep in range(8):
        for row in rows if sweep % 2 == 0 else rows[::-1]:
            middle = {}
            for name in row:
                near = [spot[b] for a, b in arrows if a == name] + [spot[a] for a, b in arrows if b == name]
                middle[name] = sum(near) / len(near) if near else spot[name]
            row.sort(key=lambda name: (round(middle[name], 6), name))
            for i, name in enumerate(row):
                spot[name] = (i + 0.5) / len(row)
    step, high, wide = 66, 28, 116
    width = max(map(len, rows)) * (wide + 14) + 20
    height = len(rows) * step + 10
    place = {}
    for level, row in enumerate(rows):
        for i, name in enumerate(row):
            x = round((i + 0.5) * width / len(row))
            place[name] = (x, height - 24 - level * step)
    parts = []
    for name, need in sorted(arrows):
        (x, y), (to_x, to_y) = place[name], place[need]
        y, to_y = y + high // 2, to_y - high // 2
        half = (y + to_y) // 2
        parts.append(f'<path d="M {x} {y} C {x} {half}, {to_x} {half}, {to_x} {to_y}"/>')
    for name, (x, y) in sorted(place.items()):
        parts.append(box(x - wide // 2, y - high // 2, wide, high))
        parts.append(text(x, y + 4, name.removeprefix("djq_")))
    return picture(width, height, "The crates of djq: each depends on those that a line leads down to", parts)


def table(x, y, width, title, rows, new=()):
    """A node of the tree with what it keeps: `new` are the rows that the change brings."""
    parts = [box(x, y, width, 26 + 20 * len(rows), "on" if new else ""), text(x + width // 2, y + 18, title)]
    for i, row in enumerate(rows):
        parts.append(text(x + width // 2, y + 38 + 20 * i, row, "mono new" if row in new else "mono"))
    return parts


def join():
    """The tree of the dashboard's query as `explain` tells it, and the way of one row through it."""
    parts = [
        '<path d="M 300 72 L 300 92"/>',
        '<path d="M 250 140 L 160 176"/>',
        '<path d="M 350 140 L 440 176"/>',
        '<path d="M 160 244 L 160 268"/>',
        '<path class="way" d="M 440 268 L 440 248"/>',
        '<path class="way" d="M 440 400 L 440 362"/>',
    ]
    parts += table(230, 26, 140, "5 trim", ["(there is one)"])
    parts += table(230, 92, 140, "4 meet", ["1", "2"])
    parts += table(90, 178, 140, "2 trim", ["1", "2"])
    parts += table(350, 178, 180, "3 trim", ["1  1 job", "2  1 job, now 2"], ["2  1 job, now 2"])
    parts += table(60, 268, 200, "0 machines: machine, name", ['1 "anvil"', '2 "bellows"'])
    parts += table(330, 268, 220, "1 jobs: machine, job, state", ['1 11 "running"', '2 12 "waiting"', '2 13 "waiting"'], ['2 13 "waiting"'])
    parts += [
        text(440, 418, 'add jobs 13 2 "waiting"', "mono"),
        text(575, 208, "machine 2 was here already:", "small left"),
        text(575, 225, "what is kept above stays as it is", "small left"),
        text(575, 300, "each watcher is sent what came:", "small left"),
        text(575, 322, '+ board 2 "bellows" 13 "waiting"', "mono left"),
        text(575, 342, "at board 5", "mono left"),
    ]
    return picture(830, 430, "The tree that keeps the join of machines and jobs, and a new job's way through it", parts)


# A row of the table of crates: the name, the crate's job, and what it stands on.
ROW = re.compile(r"^\| (djq\w*) \| ([^|]+) \|[^|\n]*\|$", re.MULTILINE)
CHAIN = re.compile(r"(<!-- begin: docs/pictures.py chain -->\n).*?(<!-- end -->)", re.DOTALL)


def chain(below):
    """The longest chain of crates, the lowest first. Of several the first in the alphabet, seen from the top."""
    rank = ranks(below)
    name = min(name for name in rank if rank[name] == max(rank.values()))
    found = [name]
    while rank[name]:
        name = min(need for need in below[name] if rank[need] == rank[name] - 1)
        found.insert(0, name)
    return found


def architecture():
    """The page with the table's last column and the longest chain as crates.txt has them."""
    below = listed()
    direct = {name: [] for name in below}
    for name, need in sorted(needed(below)):
        direct[name].append(need.removeprefix("djq_"))
    with open(os.path.join(HERE, "ARCHITECTURE.md"), encoding="utf-8") as page:
        text = page.read()
    text = ROW.sub(lambda row: f"| {row[1]} | {row[2]} | {', '.join(direct.get(row[1], []))} |".replace("|  |", "| |"), text)
    longest = chain(below)
    words = textwrap.fill(f"The longest chain has {len(longest)} crates: {', '.join(longest)}.", 130)
    return CHAIN.sub(lambda part: part[1] + words + "\n" + part[2], text)


def pictures():
    return {"crates.svg": crates(), "join.svg": join(), "ARCHITECTURE.md": architecture()}


def main():
    differ = False
    for name, drawn in pictures().items():
        path = os.path.join(HERE, name)
        if "--check" in sys.argv[1:]:
            with open(path, encoding="utf-8") as there:
                if there.read() != drawn:
                    print(f"{name} isn't what docs/pictures.py writes")
                    differ = True
        else:
            with open(path, "w", encoding="utf-8") as out:
                out.write(drawn)
    return 1 if differ else 0


if __name__ == "__main__":
    sys.exit(main())
