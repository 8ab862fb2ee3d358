#!/usr/bin/env python3
"""Lists, for each public function of the libraries, the tests that call it by name.

    tests/called.py [--at COMMIT] [--since COMMIT]

A library's public functions are the `pub fn` of its src/ outside tests. Test code is what stands behind `#[cfg(test)]`: a module
of the file, or a file of its own, as all of them are in the crates of examples. A test calls a function where it, or a helper of
its crate that it calls, has `name(` for a free function, `.name(` for a method, and `Type::name(` for either kind of function of a
type, in a file that names the library or belongs to it. So two methods of one name are told apart only by their libraries. With
`--at` the state is that of a commit, without it that of the files here. With `--since` nothing is listed but the functions that a
test called at that commit and none calls now; a library that was renamed since is found by its functions' names. The last line is
`called: N of M public functions are called by a test`, and with `--since` a second one, `N called at COMMIT, N of these not now`;
the status is 1 where there are some.
"""

import argparse
import glob
import os
import re
import subprocess
import sys

ROOT = os.path.abspath(os.path.join(os.path.dirname(os.path.abspath(__file__)), ".."))
TEST_FILE = re.compile(r"#\[cfg\(test\)\]\n(?:pub(?:\([a-z]+\))? )?mod (\w+);\n")
TEST_MODULE = re.compile(r"#\[cfg\(test\)\]\n(?:pub(?:\([a-z]+\))? )?mod \w+ \{\n.*?^\}\n", re.S | re.M)
FUNCTION = re.compile(r"^[ \t]*(?:pub(?:\([a-z]+\))? )?(?:const |unsafe )*fn (\w+)", re.M)
PUBLIC = re.compile(r"^(?P<indent>[ \t]*)pub (?:const |unsafe )*fn (?P<name>\w+)(?:<[^(]*>)?\((?P<first>\s*[^,)]*)", re.M)
IMPL = re.compile(r"^impl(?:<[^{]*?>)? (?:\w+(?:<[^{]*?>)? for )?(?P<type>\w+)", re.M)


def sources(commit):
    """The text of each source file by its path: here, or at a commit."""
    if commit is None:
        paths = sorted(glob.glob(os.path.join(ROOT, "crates/*/src/**/*.rt"), recursive=True))
        for path in paths:
            with open(path, encoding="utf-8") as file:
                yield os.path.relpath(path, ROOT), file.read()
        return
    git = ["git", "-C", ROOT]
    listed = subprocess.run(git + ["ls-tree", "-r", "--name-only", commit, "crates"], check=True, capture_output=True, text=True)
    for path in listed.stdout.split("\n"):
        if re.match(r"crates/\w+/src/.*\.rt$", path):
            yield path, subprocess.run(git + ["show", f"{commit}:{path}"], check=True, capture_output=True, text=True).stdout


def parts(files):
    """The libraries' code by path, and the tests' code by path."""
    tested = {}
    for path, text in files.items():
        folder, name = os.path.split(path)
        if name not in ("lib.rt", "main.rt", "mod.rt"):
            folder = path[: -len(".rt")]
        for module in TEST_FILE.findall(text):
            tested[os.path.join(folder, module + ".rt")] = True
    code, tests = {}, {}
    for path, text in files.items():
        if any(path == other or path.startswith(other[: -len(".rt")] + "/") for other in tested):
            tests[path] = text
        else:
            code[path] = TEST_MODULE.sub("", text)
            inline = "".join(TEST_MODULE.findall(text))
            if inline:
                tests[path] = inline
    return code, tests


def crate_of(path):
    return path.split("/")[1]


def public_functions(code):
    """The public functions: the library, the type or nothing, the name, and whether it takes self."""
    for path, text in code.items():
        if path.endswith("/src/main.rt"):
            continue
        impls = [(match.start(), match["type"]) for match in IMPL.finditer(text)]
        for match in PUBLIC.finditer(text):
            owner = None
            if match["indent"]:
                owner = next((name for start, name in reversed(impls) if start < match.start()), None)
            yield crate_of(path), owner, match["name"], re.search(r"\bself\b", match["first"]) is not None


def pieces(text):
    """The functions of a test file: the name, whether it is a test, and the text."""
    starts = list(FUNCTION.finditer(text))
    for match, after in zip(starts, starts[1:] + [None]):
        before = text[: match.start()].rstrip().split("\n")
        is_test = any(line.strip() == "#[test]" for line in before[-3:])
        yield match[1], is_test, text[match.end() : after.start() if after else len(text)]


def callers(tests):
    """Each test with what it reaches, itself among it: the text of each function, and the crates that its file names."""
    helpers, imported, found = {}, {}, []
    for path, text in tests.items():
        crate = crate_of(path)
        imported[path] = " ".join(re.findall(r"\buse (?:crate|super)::[^;]*;", text))
        scope = set(re.findall(r"\bdjq_\w+", text)) | {crate}
        aliases = dict(re.findall(r"\btype (\w+) = (\w+)", text))
        for name, is_test, body in pieces(text):
            for alias, meant in aliases.items():
                body = re.sub(rf"\b{alias}\b", meant, body)
            entry = (path, name, body, scope)
            helpers.setdefault(path, {}).setdefault(name, []).append(entry)
            if is_test:
                found.append(entry)
    for entry in found:
        reached, due = [], [entry]
        while due:
            one = due.pop()
            if one in reached:
                continue
            reached.append(one)
            for name in set(re.findall(r"\b(\w+)(?:::<[^(]*>)?\(", one[2])):
                due += helper(helpers, imported, one[0], name)
        yield label(entry), [(body, scope) for _, _, body, scope in reached]


def helper(helpers, imported, path, name):
    """The helpers of this name that a file has, or else imports from the files beside it."""
    own = helpers.get(path, {}).get(name)
    if own is not None:
        return own
    if not re.search(rf"\b{name}\b|\*", imported[path]):
        return []
    beside = [other for other in helpers if crate_of(other) == crate_of(path)]
    return [entry for other in beside for entry in helpers[other].get(name, [])]


def label(entry):
    path, name = entry[0], entry[1]
    module = path.split("/src/")[1][: -len(".rt")].replace("/", "::")
    return f"{crate_of(path)}::{module}::{name}"


def pattern(owner, name, takes_self):
    if owner is None:
        return re.compile(rf"(?<![.\w]){name}(?:::<[^(]*>)?\(")
    by_type = rf"\b{owner}(?:::<[^(]*>)?::{name}\("
    return re.compile(rf"{by_type}|\.{name}\(" if takes_self else by_type)


def called(commit):
    """Each public function with the tests that call it."""
    code, tests = parts(dict(sources(commit)))
    reached = list(callers(tests))
    found = {}
    for crate, owner, name, takes_self in public_functions(code):
        sign = pattern(owner, name, takes_self)
        found[(crate, f"{owner}::{name}" if owner else name)] = [
            test for test, texts in reached if any(crate in scope and sign.search(body) for body, scope in texts)
        ]
    return found


def main():
    parser = argparse.ArgumentParser()
    parser.add_argument("--at", metavar="COMMIT")
    parser.add_argument("--since", metavar="COMMIT")
    asked = parser.parse_args()
    now = called(asked.at)
    missed = []
    if asked.since is None:
        for (crate, name), tests in sorted(now.items()):
            print(crate, name, ", ".join(tests) or "-")
    else:
        crates = {crate for crate, _ in now}
        by_name = {name for (_, name), tests in now.items() if tests}
        before = sorted(key for key, tests in called(asked.since).items() if tests)
        missed = [key for key in before if not now.get(key) and (key[0] in crates or key[1] not in by_name)]
        for crate, name in missed:
            print(crate, name)
    print(f"called: {sum(1 for tests in now.values() if tests)} of {len(now)} public functions are called by a test")
    if asked.since is not None:
        print(f"{len(before)} called at {asked.since}, {len(missed)} of these not now")
    return 1 if missed else 0


if __name__ == "__main__":
    sys.exit(main())
