"""The tables of a measurement, and what is kept of it: the page and figures.json."""

import json
import os

ROOT = os.path.join(os.path.dirname(os.path.abspath(__file__)), "..", "..")
PAGE = os.path.join(ROOT, "docs", "PERFORMANCE.md")
KEPT = os.path.join(ROOT, "bench", "log", "figures.json")
BEGIN, END = "<!-- begin: bench/log/measure.py --write -->\n", "<!-- end -->"
SIDES = {"djq log": "djq with a log", "before log": "before", "redis": "Redis", "postgres": "PostgreSQL", "djq": "djq without a log",
         "before": "before"}
BEFORE = {"djq log": "before log", "djq": "before"}
ROWS = {
    "waiting.rate": ("32 clients that wait for each reply: changes a second", "rate"),
    "waiting.syncs": ("their syncs a change", "count"),
    "waiting.median": ("a question of another client beside these 32: median", "time"),
    "waiting.p99": ("the same: 99th of a hundred", "time"),
    "pipeline.rate": ("one client with 1,000 changes on their way: changes a second", "rate"),
    "pipeline.syncs": ("its syncs a change", "count"),
    "pipeline.median": ("a question of another client beside this one: median", "time"),
    "pipeline.p99": ("the same: 99th of a hundred", "time"),
    "alone.median": ("a question with nothing else on its way: median", "time"),
    "alone.p99": ("the same: 99th of a hundred", "time"),
}
COSTLY = {"listing": "680 `next` of a thousand answers each of a union", "registering": "200 `query` and `drop` over {:,} rows"}
CALLS = {"sends": "sends", "reads": "reads", "waits": "`epoll_wait`", "syncs": "syncs"}


def time_of(seconds):
    """Seconds in a unit that suits them."""
    for least, scale, unit in ((1, 1, "s"), (1e-3, 1e3, "ms"), (0, 1e6, "µs")):
        if seconds >= least:
            value = seconds * scale
            return f"{value:,.0f} {unit}" if value >= 10 else f"{value:,.1f} {unit}"
    return ""


def shown(value, kind):
    if value is None:
        return ""
    if kind == "time":
        return time_of(value)
    return f"{value:,.0f}" if kind == "rate" or value >= 100 or value == 0 else f"{value:.3g}"


def rows_of(head, rows):
    """A table; without rows nothing."""
    lines = [head, ["---"] * len(head), *rows]
    return "\n" + "\n".join("| " + " | ".join(row) + " |" for row in lines) + "\n" if rows else ""


def loads(figures):
    """Changes a second, syncs and questions, by sides."""
    there = [side for side in SIDES if any(side in figures.get(row, {}) for row in ROWS)]
    made = [[title, *(shown(figures[row].get(side), kind) for side in there)] for row, (title, kind) in ROWS.items() if row in figures]
    return rows_of(["", *(SIDES[side] for side in there)], made)


def costly(figures, rows):
    """One write of costly lines to a server without a log."""
    made = []
    for name, title in COSTLY.items():
        for side in ("djq", "before"):
            parts = [figures.get(f"{name}.{part}", {}).get(side) for part in ("all", "one", "median", "most")]
            if parts[0] is not None:
                made.append([title.format(rows) + (", before" if side == "before" else ""), *(shown(part, "time") for part in parts)])
    return rows_of(["one write of", "all replies", "the reply to one alone", "a question beside it: median", "longest"], made)


def calls(figures):
    """System calls for pipelined changes."""
    made = []
    for side in ("djq log", "before log", "djq", "before"):
        counts = [figures.get(f"calls.{kind}", {}).get(side) for kind in CALLS]
        if counts[0] is not None:
            title = ("with a log" if side.endswith("log") else "without a log") + (", before" if side.startswith("before") else "")
            made.append([title, *(shown(count, "count") for count in counts)])
    return rows_of(["system calls for 500 pipelined changes", *CALLS.values()], made)


def with_before(now, before):
    """The figures, with those of before beside them as far as both measured the same."""
    merged = {row: dict(sides) for row, sides in now["figures"].items()}
    for row, sides in before["figures"].items() if before else ():
        same = not row.startswith("registering") or before["machine"]["rows"] == now["machine"]["rows"]
        for side in BEFORE if row in merged and same else ():
            if side in sides:
                merged[row][BEFORE[side]] = sides[side]
    return merged


def aims(figures):
    """What a loop should reach that syncs once for all changes on their way, and what was measured."""
    def at(row, side):
        return figures.get(row, {}).get(side)

    made, sync, rate = [], at("sync", "disk"), at("pipeline.rate", "djq")
    for row, least, said in (("waiting.rate", 0.4, "32 clients"), ("pipeline.rate", 0.5, "1,000 changes on their way")):
        if at(row, "djq log") and at(row, "redis"):
            times = at(row, "djq log") / at(row, "redis")
            made.append([f"with a log, {said}: changes a second beside those of Redis", f"{least} times", f"{times:.2g} times"])
    if sync and rate and at("pipeline.median", "djq log"):
        most = time_of(4 * sync + 2048 / rate)
        made.append(["with a log, a question beside the pipeline: median", f"at most {most}", time_of(at("pipeline.median", "djq log"))])
    for name, said in (("listing", "`next`"), ("registering", "`query`")):
        if at(f"{name}.one", "djq"):
            most = time_of(at(f"{name}.one", "djq") + 0.02)
            made.append([f"a question beside costly lines of {said}: longest", f"at most {most}", time_of(at(f"{name}.most", "djq"))])
    if rate and at("pipeline.rate", "before"):
        times = rate / at("pipeline.rate", "before")
        made.append(["without a log, a pipelining client: replies a second beside those of before", "1.5 times", f"{times:.2g} times"])
    if at("calls.sends", "djq log") and at("calls.sends", "djq"):
        sends = max(at("calls.sends", "djq log"), at("calls.sends", "djq"))
        made.append(["500 pipelined changes: sends", "at most 1", shown(sends, "count")])
        made.append(["with a log, 500 pipelined changes: syncs", "at most 2", shown(at("calls.syncs", "djq log"), "count")])
    return rows_of(["what", "aim", "measured"], made)


def of_machine(found):
    machine, sync = found["machine"], found["figures"].get("sync", {}).get("disk")
    words = f"{machine['day']}, {machine['processors']} processors, a load of {machine['load']:.1f}, medians of {machine['runs']}"
    return words + (f", a sync of {time_of(sync)}" if sync else "")


def text_of(now, before):
    """All tables."""
    figures = with_before(now, before)
    text = f"Measured on {of_machine(now)}.\n"
    if before:
        text += f"Figures of *before* are of another run: {of_machine(before)}.\n"
    return text + loads(figures) + costly(figures, now["machine"]["rows"]) + calls(figures) + aims(figures)


# What is kept


def stored():
    if not os.path.exists(KEPT):
        return {}
    with open(KEPT, encoding="utf-8") as file:
        return json.load(file)


def stored_before():
    """The figures that later ones are compared with, if any."""
    return stored().get("before")


def write(text, now, as_before):
    """Keeps the figures: those of before are the first ones, or these where this is asked for."""
    before = now if as_before else stored().get("before", now)
    with open(KEPT, "w", encoding="utf-8") as file:
        json.dump({"before": before, "now": now}, file, indent=1)
        file.write("\n")
    with open(PAGE, encoding="utf-8") as file:
        page = file.read()
    head, there, rest = page.partition(BEGIN)
    if not there:
        raise SystemExit("docs/PERFORMANCE.md has no place for the tables")
    with open(PAGE, "w", encoding="utf-8") as file:
        file.write(head + BEGIN + text + rest[rest.index(END):])
