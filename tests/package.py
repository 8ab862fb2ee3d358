#!/usr/bin/env python3
"""The packages of the built program, and the logs that earlier versions wrote.

    tests/package.py PATH_TO_DJQ

The packages are built into a folder of the test's own. The program in them has to be the given one, byte for byte; contents,
versions, checksums, man pages, the unit and the completion are looked at. A release is refused where the gate's output is of
another commit or program. Each log in tests/logs/ is loaded, and asked for what it held.

With DJQ_BARE=1 in the environment, as root, the package is installed in a bare system without a network, and runs there as a
service; see tests/bare.py. What a test needs and isn't installed is named, and the test is skipped; with DJQ_BARE=1 it fails.
The line `package: commit C, program P` says what was tested; packaging/build reads it from the gate's output. One line is
printed for each test that fails, and last `N passed, M failed`; the status is 0 where none failed.
"""

import glob
import hashlib
import os
import re
import shutil
import subprocess
import sys
import tarfile
import tempfile
import traceback
import zipfile

sys.dont_write_bytecode = True
import bare  # noqa: E402
from harness import expect  # noqa: E402

HERE = os.path.dirname(os.path.abspath(__file__))
ROOT = os.path.dirname(HERE)
PATIENCE = 300
PYTHON = "/usr/bin/python3"  # Debian's, which builds the packages and runs their commands
SERVICE = "usr/lib/systemd/system/djq.service"
PACKAGERS = ("dpkg-deb", "dpkg-shlibdeps", "objdump", "python3-pip", "python3-setuptools", "python3-wheel")

TESTS = []


def test(*needs):
    """A test, and the commands and Debian packages of Python that it needs."""

    def take(function):
        TESTS.append((function, needs))
        return function

    return take


def has_module(name):
    """Whether Debian's Python has this module."""
    words = [PYTHON, "-c", f"import importlib.util, sys; sys.exit(importlib.util.find_spec({name!r}) is None)"]
    return os.path.exists(PYTHON) and subprocess.run(words).returncode == 0


def lacks(needs):
    """What of these isn't installed."""

    def is_there(need):
        return has_module(need.removeprefix("python3-")) if need.startswith("python3-") else shutil.which(need) is not None

    return [need for need in needs if not is_there(need)]


def read(path):
    with open(path, "rb") as file:
        return file.read()


def text(*path):
    return read(os.path.join(ROOT, *path)).decode()


def run(*words, **settings):
    """What a command writes. It fails the test where the command fails."""
    done = subprocess.run(words, capture_output=True, text=True, timeout=PATIENCE, **settings)
    if done.returncode:
        raise AssertionError(f"{' '.join(words)}: {done.returncode}: {done.stdout}{done.stderr}")
    return done.stdout


def build(folder, *words, root=ROOT):
    """What packaging/build says, and its status."""
    command = [PYTHON, os.path.join(root, "packaging", "build"), "--into", folder, *words]
    done = subprocess.run(command, capture_output=True, text=True, timeout=PATIENCE)
    return done.stdout + done.stderr, done.returncode


BUILT = {}


def built(program, folder):
    """The folder with the packages of the program, which are built once, and the tree that the Debian package holds."""
    if program not in BUILT:
        told, status = build(os.path.join(folder, "dist"), "--trial", program)
        expect(status, 0, told)
        tree = os.path.join(folder, "tree")
        run("dpkg-deb", "--extract", glob.glob(os.path.join(folder, "dist", "*.deb"))[0], tree)
        BUILT[program] = os.path.join(folder, "dist"), tree
    return BUILT[program]


def version():
    return text("VERSION").strip()


# The packages


@test(*PACKAGERS)
def the_program_is_in_them_byte_for_byte(program, folder):
    dist, tree = built(program, folder)
    whole = read(program)
    expect(read(os.path.join(tree, "usr/bin/djq")) == whole, True, "the program in the Debian package")
    with tarfile.open(os.path.join(dist, f"djq-{version()}-linux-amd64.tar.gz")) as archive:
        inner = archive.extractfile(f"djq-{version()}/bin/djq").read()
    expect(inner == whole, True, "the program in the tarball")
    told = f"program  sha256 {hashlib.sha256(whole).hexdigest()}\n"
    for path in (os.path.join(dist, "BUILD"), os.path.join(tree, "usr/share/doc/djq/BUILD")):
        expect(told in read(path).decode(), True, path)


@test(*PACKAGERS, "sha256sum")
def the_checksums_hold(program, folder):
    dist, _ = built(program, folder)
    run("sha256sum", "--check", "--strict", "SHA256SUMS", cwd=dist)
    listed = {line.split()[1] for line in read(os.path.join(dist, "SHA256SUMS")).decode().splitlines()}
    expect(listed, set(os.listdir(dist)) - {"SHA256SUMS"}, "each file has its checksum")


@test(*PACKAGERS)
def the_debian_package_holds_what_it_should(program, folder):
    dist, tree = built(program, folder)
    rows = run("dpkg-deb", "--contents", glob.glob(os.path.join(dist, "*.deb"))[0]).splitlines()
    modes = {row.split(maxsplit=5)[5].split(" -> ")[0].removeprefix("./"): row.split()[:2] for row in rows}
    for path in ("usr/bin/djq", "usr/bin/djq-shell", "usr/bin/djq-web"):
        expect(modes[path], ["-rwxr-xr-x", "root/root"], path)
    for path in (SERVICE, "etc/default/djq", "usr/share/man/man1/djq.1.gz", "usr/share/man/man5/djq-log.5.gz",
                 "usr/share/bash-completion/completions/djq", "usr/lib/python3/dist-packages/djq/__init__.py",
                 "usr/lib/python3/dist-packages/djq/web/page.js", "usr/share/doc/djq/copyright", "usr/share/doc/djq/changelog.gz",
                 "usr/share/doc/djq/README.md", "usr/share/doc/djq/docs/PROTOCOL.md", "usr/share/doc/djq/examples/alarm.py"):
        expect(modes[path], ["-rw-r--r--", "root/root"], path)
    expect({mode for mode, _ in modes.values()}, {"drwxr-xr-x", "-rw-r--r--", "-rwxr-xr-x", "lrwxrwxrwx"}, "modes")
    expect([path for path in modes if "__pycache__" in path or path.endswith((".pyc", ".rt"))], [], "what should be left out")
    depends = run("dpkg-deb", "--field", glob.glob(os.path.join(dist, "*.deb"))[0], "Depends").strip()
    names = {need.split()[0] for need in depends.split(", ")}
    expect(names <= {"libc6", "libgcc-s1", "passwd"} and "libc6" in names, True, f"it needs {depends}")
    here = os.path.join(tree, "usr/lib/python3/dist-packages/djq")
    there = os.path.join(ROOT, "clients/python/djq")
    for path in glob.glob(os.path.join(there, "**", "*.py"), recursive=True):
        expect(read(os.path.join(here, os.path.relpath(path, there))) == read(path), True, path)


@test(*PACKAGERS)
def all_say_one_version(program, folder):
    dist, tree = built(program, folder)
    told = run("dpkg-deb", "--field", glob.glob(os.path.join(dist, "*.deb"))[0], "Version").strip()
    expect(told, version(), "the Debian package")
    with zipfile.ZipFile(os.path.join(dist, f"djq-{version()}-py3-none-any.whl")) as wheel:
        lines = wheel.read(f"djq-{version()}.dist-info/METADATA").decode().splitlines()
    expect(f"Version: {version()}" in lines, True, "the wheel")
    words = [PYTHON, "-c", "import djq; print(djq.__version__)"]
    for path in (os.path.join(tree, "usr/lib/python3/dist-packages"), os.path.join(ROOT, "clients/python")):
        expect(run(*words, env={**os.environ, "PYTHONPATH": path, "PYTHONDONTWRITEBYTECODE": "1"}).strip(), version(), path)
    serving = subprocess.Popen([program, "serve", "127.0.0.1:0"], stderr=subprocess.PIPE, text=True)
    reported = serving.stderr.readline()
    serving.kill()
    serving.communicate()
    expect(reported.startswith(f"djq {version()}: listening on 127.0.0.1:"), True, reported)
    numbers = re.findall(r"^## (\d\S*?),? ", text("CHANGELOG.md"), re.MULTILINE)
    expect(numbers[0], version(), "the newest section of CHANGELOG.md")
    names = set(re.findall(r"djq[_-](\d+\.\d+\.\d+)[-_/]", text("README.md")))
    expect(names, {version()}, "the packages that README.md names")


@test(*PACKAGERS)
def a_build_gives_the_same_bytes_again(program, folder):
    dist, _ = built(program, folder)
    again = os.path.join(folder, "again")
    expect(build(again, "--trial", program)[1], 0, "a second build")
    expect(read(os.path.join(again, "SHA256SUMS")).decode(), read(os.path.join(dist, "SHA256SUMS")).decode(), "its checksums")


@test(*PACKAGERS)
def the_commands_of_the_package_run(program, folder):
    _, tree = built(program, folder)
    environment = {**os.environ, "PYTHONPATH": os.path.join(tree, "usr/lib/python3/dist-packages"), "PYTHONDONTWRITEBYTECODE": "1"}
    words = [PYTHON, os.path.join(tree, "usr/bin/djq-shell"), "--local", "--program", os.path.join(tree, "usr/bin/djq")]
    expect(run(*words, input="rel r int\nadd r 1\n", env=environment, cwd=tree), "ok\nok added 1 1\n", "djq-shell")
    for name in ("djq-shell", "djq-web"):
        told = run(PYTHON, os.path.join(tree, "usr/bin", name), "--help", env=environment)
        expect(told.startswith(f"usage: {name}"), True, told)


# The man pages, the unit, the completion


def usage(program):
    """The program's usage line."""
    return subprocess.run([program], capture_output=True, text=True, timeout=PATIENCE).stdout


def man_pages():
    return sorted(name for name in os.listdir(os.path.join(ROOT, "packaging")) if re.search(r"\.\d$", name))


@test("man")
def the_man_pages_are_sound(program, folder):
    expect(man_pages(), ["djq-log.5", "djq-shell.1", "djq-web.1", "djq.1"], "the pages")
    for name in man_pages():
        path = os.path.join(ROOT, "packaging", name)
        words = ["man", "--warnings", "-E", "UTF-8", "-l", "-Tutf8", path]
        done = subprocess.run(words, capture_output=True, text=True, timeout=PATIENCE, env={**os.environ, "MANROFFOPT": "-c"})
        expect((done.returncode, done.stderr, done.stdout.count("\n") > 20), (0, "", True), name)


@test()
def the_man_page_says_what_the_program_takes(program, folder):
    page = re.sub(r"\\f[BIR]|\\%", "", text("packaging", "djq.1")).replace("\\-", "-")
    commands = [part.split()[0] for part in usage(program).removeprefix("usage: djq ").split(" | ")]
    expect(len(commands) > 3, True, usage(program))
    synopsis = page.partition(".SH SYNOPSIS")[2].partition(".SH")[0]
    expect(re.findall(r"^\.B djq (\w+)", synopsis, re.MULTILINE), commands, "the commands of the synopsis")
    expect(set(re.findall(r"--\w+", usage(program))) - set(re.findall(r"--\w+", page)), set(), "options")
    statuses = re.findall(r"^\| (\d+) \|", text("docs", "PROTOCOL.md").partition("| status | when |")[2], re.MULTILINE)
    section = page.partition(".SH EXIT STATUS")[2].partition(".SH")[0]
    expect(re.findall(r"^\.B (\d+)$", section, re.MULTILINE), statuses, "the statuses")


@test()
def the_examples_of_the_man_pages_run(program, folder):
    place = os.path.join(folder, "examples")
    os.mkdir(place)
    os.symlink(program, os.path.join(place, "djq"))
    with open(os.path.join(place, "djq-shell"), "w", encoding="utf-8") as file:
        file.write(f'#!/bin/sh\nexec {sys.executable} -m djq.shell --program {program} "$@"\n')
    os.chmod(os.path.join(place, "djq-shell"), 0o755)
    paths = {"PATH": place + ":" + os.environ["PATH"], "PYTHONPATH": os.path.join(ROOT, "clients", "python")}
    shown = 0
    for name in man_pages():
        section = text("packaging", name).partition(".SH EXAMPLE")[2].partition(".nf\n")[2].partition(".fi")[0]
        plain = section.replace("\\(aq", "'").replace("\\-", "-").replace("\\e", "\\")
        for example in filter(None, re.split(r"^\$ ", plain, flags=re.MULTILINE)):
            command, _, wanted = example.partition("\n")
            told = run("sh", "-c", command, cwd=place, env={**os.environ, **paths})
            expect([line.split() for line in told.splitlines()], [line.split() for line in wanted.splitlines()], command)
            shown += 1
    expect(shown, 4, "examples")


def settings(path):
    """The lines `name=value` of a unit or of a file of the environment, the last of each name."""
    return dict(line.split("=", 1) for line in read(path).decode().splitlines() if re.match(r"\w+=", line))


@test()
def the_unit_bounds_the_service(program, folder):
    unit = settings(os.path.join(ROOT, "packaging", "djq.service"))
    for name, value in {"User": "djq", "StateDirectory": "djq", "StateDirectoryMode": "0700", "UMask": "0077", "LimitAS": "2G"}.items():
        expect(unit.get(name), value, name)
    expect([name for name in unit if name.startswith("Memory") and name != "MemoryDenyWriteExecute"], [], "what would kill it")
    expect(unit["EnvironmentFile"], "/etc/default/djq", "where its settings are")
    named = set(re.findall(r"\$\{(\w+)\}", unit["ExecStart"]))
    expect(named, set(settings(os.path.join(ROOT, "packaging", "djq.default"))), "the settings that its command uses")
    # A restart doesn't mend these.
    expect(unit["RestartPreventExitStatus"].split(), ["1", "6", "10", "11"], "statuses")


@test("systemd-analyze")
def systemd_accepts_the_unit(program, folder):
    unit = os.path.join(folder, "djq.service")
    with open(unit, "w", encoding="utf-8") as file:
        file.write(text("packaging", "djq.service").replace("/usr/bin/djq", program))
    done = subprocess.run(["systemd-analyze", "verify", "--man=no", unit], capture_output=True, text=True, timeout=PATIENCE)
    named = [line for line in done.stderr.splitlines() if "djq.service" in line]
    expect((done.returncode, named), (0, []), done.stderr)


@test("bash")
def bash_completes_the_words(program, folder):
    def completed(*words):
        script = 'source "$0"; COMP_WORDS=("$@"); COMP_CWORD=$(($# - 1)); _djq; printf "%s\\n" "${COMPREPLY[@]}"'
        return run("bash", "-c", script, os.path.join(ROOT, "packaging", "djq.bash"), *words, cwd=folder).split()

    commands = [part.split()[0] for part in usage(program).removeprefix("usage: djq ").split(" | ")]
    expect(completed("djq", ""), commands, "the commands")
    expect(completed("/usr/bin/djq", "se"), ["serve"], "a command")
    for part in usage(program).removeprefix("usage: djq ").split(" | "):
        expect(sorted(completed("djq", part.split()[0], "--")), sorted(re.findall(r"--\w+", part)), part)
    open(os.path.join(folder, "a-log"), "w").close()
    expect(completed("djq", "serve", "127.0.0.1:7007", "--log", "a-"), ["a-log"], "a file")
    for name in ("djq-shell", "djq-web"):
        module = name.replace("-", ".")
        help = run(PYTHON, "-m", module, "--help", env={**os.environ, "PYTHONPATH": os.path.join(ROOT, "clients/python")})
        expect(set(completed(name, "--")), set(re.findall(r"--\w+", help)), name)


# A release


def gate_output(commit, program):
    """What a gate that passed prints, as far as a release reads it."""
    said = hashlib.sha256(read(program)).hexdigest()
    return (f"rt: ok; done in this run: 0 of the 90 proofs\n90 passed, 0 failed (0 skipped)\ntests/package.py\n"
            f"package: commit {commit}, program {said}\n12 passed, 0 failed\n900 commands from seed 1 on\n3 passed, 0 failed\n")


@test(*PACKAGERS, "git", "rt")
def a_release_is_of_what_the_gate_tested(program, folder):
    clone, into, gate = (os.path.join(folder, name) for name in ("clone", "release", "gate.txt"))
    run("git", "clone", "--quiet", ROOT, clone)
    os.makedirs(os.path.join(clone, "crates/djq/out"))
    shutil.copy(program, os.path.join(clone, "crates/djq/out/djq"))
    commit = run("git", "rev-parse", "HEAD", cwd=clone).strip()
    whole = gate_output(commit, program)

    def released(output, why=None):
        with open(gate, "w", encoding="utf-8") as file:
            file.write(output)
        told, status = build(into, "--gate", gate, root=clone)
        expect((status, why is None or why in told), (1 if why else 0, True), told)

    released(whole)
    told = read(os.path.join(into, "BUILD")).decode()
    for line in (f"commit   {commit}", f"kit      {run('rt', 'version').strip()}", "gate     rt: ok; done in this run: 0 of the 90 proofs",
                 "gate     rt ci: 90 passed, 0 failed (0 skipped)", "gate     tests/package.py: 12 passed, 0 failed",
                 "gate     tests/random_driver.py: 3 passed, 0 failed"):
        expect(line in told.splitlines(), True, told)
    expect(re.search(r"^gate     ended \d{4}-\d\d-\d\dT\d\d:\d\d:\d\dZ$", told, re.MULTILINE) is not None, True, told)
    released(whole.replace(commit, "0" * 40), "of another commit")
    released(re.sub(r"program \w{64}", "program " + "0" * 64, whole), "of another commit or program")
    released(whole.replace("12 passed, 0 failed", "11 passed, 1 failed"), "tests that failed")
    released(whole.replace("rt: ok", "rt: not ok"), "isn't the output of a gate that passed")
    released(whole.removesuffix("3 passed, 0 failed\n"), "isn't the output of a gate that passed")
    with open(os.path.join(clone, "VERSION"), "w", encoding="utf-8") as file:
        file.write("9.9.9\n")
    released(whole, "isn't clean")
    run("git", "-c", "user.name=test", "-c", "user.email=test@localhost", "commit", "--quiet", "--all", "--message", "Change", cwd=clone)
    commit = run("git", "rev-parse", "HEAD", cwd=clone).strip()
    released(gate_output(commit, program), "VERSION says 9.9.9")


# Logs of earlier versions


def in_any_order(replies):
    """The replies, the answers that stand together in order."""
    ordered, answers = [], []
    for reply in replies + [""]:
        if reply.startswith("1< = "):
            answers.append(reply)
        else:
            ordered += sorted(answers) + [reply]
            answers = []
    return ordered


@test()
def logs_of_earlier_versions_load(program, folder):
    logs = sorted(glob.glob(os.path.join(HERE, "logs", "*.log")))
    promised = re.findall(r"`tests/logs/(\S+\.log)`", text("docs", "COMPATIBILITY.md"))
    expect(sorted(os.path.basename(log) for log in logs), sorted(promised), "the logs that docs/COMPATIBILITY.md promises to load")
    expect(len(logs) > 2, True, "logs")
    for log in logs:
        asked, wanted = (text("tests", "logs", os.path.basename(log)[:-4] + ending) for ending in (".schedule", ".replies"))
        copied = shutil.copy(log, folder)
        for turn in ("as it was", "after it was loaded once"):
            empty = subprocess.run([program, "replay", "--log", copied], input=b"", capture_output=True, timeout=PATIENCE)
            expect((empty.stdout, empty.returncode, empty.stderr), (b"", 0, b""), f"{log}, {turn}")
        words = [program, "replay", "--log", copied]
        done = subprocess.run(words, input=asked.encode(), capture_output=True, timeout=PATIENCE)
        expect((done.returncode, done.stderr), (0, b""), log)
        expect(in_any_order(done.stdout.decode().splitlines()), in_any_order(wanted.splitlines()), log)


# A bare system


@test(*PACKAGERS, "debootstrap", "unshare", "nsenter")
def a_bare_system_runs_the_service(program, folder):
    dist, _ = built(program, folder)
    bare.run_service(dist, version(), folder)


# What was tested


def say_what():
    """The line by which a release knows which program the gate tested."""
    words = ["git", "-C", ROOT]
    commit = subprocess.run([*words, "rev-parse", "HEAD"], capture_output=True, text=True).stdout.strip() or "unknown"
    changed = subprocess.run([*words, "status", "--porcelain"], capture_output=True, text=True).stdout
    print(f"package: commit {commit}{' with changes' if changed else ''}, program {hashlib.sha256(read(sys.argv[1])).hexdigest()}")


def outcome(function, needs, program, folder):
    """Runs a test in a folder of its own, and says whether it passed, failed or was skipped."""
    asked = os.environ.get("DJQ_BARE") == "1"
    if function is a_bare_system_runs_the_service and not asked:
        print(f"{function.__name__}: skipped, without DJQ_BARE=1")
        return "skipped"
    missing = lacks(needs)
    if missing:
        print(f"{function.__name__}: {'needs' if asked else 'skipped, without'} {', '.join(missing)}")
        return "failed" if asked else "skipped"
    try:
        function(program, folder)
        return "passed"
    except Exception:
        print(f"{function.__name__}: {traceback.format_exc(limit=-2)}")
        return "failed"


def main():
    program, names = os.path.abspath(sys.argv[1]), sys.argv[2:]
    counts = {"passed": 0, "failed": 0, "skipped": 0}
    say_what()
    with tempfile.TemporaryDirectory() as shared:
        for number, (function, needs) in enumerate(TESTS):
            if names and function.__name__ not in names:
                continue
            folder = os.path.join(shared, str(number))
            os.mkdir(folder)
            counts[outcome(function, needs, program, folder)] += 1
    skipped = f", {counts['skipped']} skipped" if counts["skipped"] else ""
    print(f"{counts['passed']} passed, {counts['failed']} failed{skipped}")
    return 1 if counts["failed"] or not counts["passed"] else 0


if __name__ == "__main__":
    if len(sys.argv) < 2:
        raise SystemExit(__doc__)
    sys.exit(main())
