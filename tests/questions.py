#!/usr/bin/env python3
"""Answers the questions of tests/questions.json, which people would ask of machines and their jobs.

    python3 tests/questions.py PROGRAM

Each question is asked over the rows of `given`, and is one of three:

- answered: `lines` are run, and answered by `replies`; answers that stand together come in any order;
- cured: the line in `refused`, if there is one, gets its refusal. The section that `cure` names is there, and what it advises
  works: after `lines`, the client computes `gives` by `python`;
- open: `open` says why djq has no answer.

At least LEAST have to be answered or cured. A line is printed for each that fails or is open, and last `N passed, N failed`.
"""

import json
import os
import re
import socket
import subprocess
import sys

from docs import anchors_of, in_any_order, prose
from serving import HERE, SECONDS, Server

ROOT = os.path.abspath(os.path.join(HERE, ".."))
LEAST, ALL = 24, 26


def run(program, lines):
    text = "".join(line + "\n" for line in lines).encode()
    done = subprocess.run([program, "run"], input=text, capture_output=True, timeout=SECONDS)
    return done.stdout.decode().splitlines()


def compare(what, got, wanted):
    assert got == wanted, f"{what}: got {got}, and wanted {wanted}"


def answered(program, given, question):
    before = run(program, given)
    replies = run(program, given + question["lines"])
    compare("the rows", replies[: len(before)], before)
    compare("the replies", in_any_order(replies[len(before) :]), in_any_order(question["replies"]))


def section_is_there(cure):
    path, _, anchor = cure.partition("#")
    with open(os.path.join(ROOT, path), encoding="utf-8") as file:
        page = file.read()
    assert anchor in anchors_of(page), f"{path} has no section #{anchor}"
    lines = list(prose(page))
    at = next(place for place, line in enumerate(lines) if re.match("#+ ", line) and anchor in anchors_of(line))
    following = [line for line in lines[at + 1 :] if line.strip()]
    assert following and not following[0].startswith("#"), f"{cure}: the section is empty"


def send(port, lines):
    with socket.create_connection(("127.0.0.1", port), timeout=SECONDS) as session:
        session.sendall("".join(line + "\n" for line in [*lines, "quit"]).encode())
        replies = b""
        while piece := session.recv(1 << 16):
            replies += piece
    refused = [line for line in replies.decode().splitlines() if line.startswith(("err ", "no "))]
    assert not refused, refused


def cured(program, given, question):
    if "refused" in question:
        line, refusal = question["refused"]
        compare("the refusal", run(program, given + [line])[-1], refusal)
    section_is_there(question["cure"])
    with Server(program) as server:
        send(server.port, given + question["lines"])
        with server.connect() as client:
            compare(question["python"], repr(eval(question["python"], {"server": client})), question["gives"])


def main():
    if len(sys.argv) != 2:
        raise SystemExit(__doc__)
    program = os.path.abspath(sys.argv[1])
    with open(os.path.join(HERE, "questions.json"), encoding="utf-8") as file:
        told = json.load(file)
    holds = failed = 0
    for question in told["questions"]:
        if "open" in question:
            print(f"open: {question['question']} {question['open']}")
            continue
        try:
            (cured if "cure" in question else answered)(program, told["given"], question)
            holds += 1
        except (AssertionError, OSError, subprocess.TimeoutExpired) as error:
            failed += 1
            print(f"{question['question']} {error}")
    words = [question["question"] for question in told["questions"]]
    if len(set(words)) != ALL or holds < LEAST:
        failed += 1
        print(f"{holds} of {len(set(words))} are answered or cured, and {LEAST} of {ALL} are wanted")
    print(f"{holds} passed, {failed} failed")
    return 1 if failed else 0


if __name__ == "__main__":
    sys.exit(main())
