"""The Debian package in a bare system, for tests/package.py.

`debootstrap` makes Debian bookworm in a folder: no Python, no compiler, no prover. Its systemd is started as the first process
of namespaces of its own, whose network is an empty loopback. There the package is installed, started as a service, killed,
upgraded and purged. The client runs outside that system, with the host's Python, and shares nothing but its loopback.
It needs root.
"""

import contextlib
import os
import shutil
import subprocess
import sys
import time

ROOT = os.path.dirname(os.path.dirname(os.path.abspath(__file__)))
MIRROR = os.environ.get("DJQ_MIRROR", "http://deb.debian.org/debian")
PATIENCE = 60

# Runs in the new namespaces: mounts what systemd needs below the folder, and becomes systemd.
BOOT = """
set -e
mount --make-rprivate /
mount --bind "$0" "$0"
mount -t proc proc "$0/proc"
mount -t sysfs -o ro sysfs "$0/sys"
mount -t tmpfs -o mode=755 tmpfs "$0/run"
mount -t tmpfs -o mode=755 tmpfs "$0/dev"
for node in null zero full random urandom tty; do touch "$0/dev/$node"; mount --bind "/dev/$node" "$0/dev/$node"; done
mkdir "$0/dev/pts" "$0/dev/shm"
mount -t devpts -o newinstance,ptmxmode=0666,mode=620 devpts "$0/dev/pts"
ln -s pts/ptmx "$0/dev/ptmx"
mount -t tmpfs tmpfs "$0/dev/shm"
exec chroot "$0" /usr/bin/env -i container=test PATH=/usr/sbin:/usr/bin:/sbin:/bin \
    /lib/systemd/systemd --system --log-target=console --show-status=no
"""


def say(*words):
    print("bare:", *words, flush=True)


def make(folder):
    """A bare system in this folder."""
    began = time.monotonic()
    words = ["debootstrap", "--variant=minbase", "--include=systemd-sysv", "bookworm", folder, MIRROR]
    done = subprocess.run(words, stdout=subprocess.PIPE, stderr=subprocess.STDOUT, text=True, timeout=3600)
    if done.returncode:
        raise AssertionError("\n".join(done.stdout.splitlines()[-5:]))
    say(f"debootstrap made bookworm in {time.monotonic() - began:.0f} s")


class System:
    """A bare system that runs: its first process is systemd."""

    def __init__(self, folder):
        self.folder = folder
        words = ["unshare", "--mount", "--pid", "--net", "--uts", "--ipc", "--cgroup", "--fork", "--kill-child"]
        words += ["sh", "-c", BOOT, folder]
        self.outer = subprocess.Popen(words, stdout=subprocess.DEVNULL, stderr=subprocess.PIPE, text=True)
        self.first = None

    def first_process(self):
        """The number, outside, of the system's first process."""
        until = time.monotonic() + PATIENCE
        while time.monotonic() < until:
            if self.outer.poll() is not None:
                raise AssertionError(f"the bare system doesn't start: {self.outer.stderr.read()}")
            with open(f"/proc/{self.outer.pid}/task/{self.outer.pid}/children", encoding="ascii") as file:
                children = file.read().split()
            if children and os.path.basename(os.readlink(f"/proc/{children[0]}/exe")) == "systemd":
                return children[0]
            time.sleep(0.05)
        raise AssertionError("systemd wasn't started")

    def wait(self):
        """Waits until it takes commands and has started all that it starts by itself."""
        self.first = self.first_process()
        until = time.monotonic() + PATIENCE
        while self.tries("systemctl", "is-active", "multi-user.target")[0]:
            if time.monotonic() > until:
                raise AssertionError("the bare system doesn't come up")
            time.sleep(0.2)

    def tries(self, *words):
        """Runs a command in it: its status, and what it writes."""
        inside = ["nsenter", "--target", self.first, "--all", "--root", "--wd", "env", "-i", "PATH=/usr/sbin:/usr/bin:/sbin:/bin"]
        inside += ["DEBIAN_FRONTEND=noninteractive"]
        done = subprocess.run([*inside, *words], stdin=subprocess.DEVNULL, stdout=subprocess.PIPE, stderr=subprocess.STDOUT,
                              text=True, timeout=PATIENCE)
        return done.returncode, done.stdout.strip()

    def run(self, *words):
        """What a command in it writes. It fails the test where the command fails."""
        status, told = self.tries(*words)
        say("$", " ".join(words))
        for line in told.splitlines():
            if not line.startswith("(Reading database"):
                say("   ", line)
        if status:
            raise AssertionError(f"{' '.join(words)}: {status}: {told}")
        return told

    def client(self, script):
        """What a client outside writes: Python of the host, and the client of the repository, at the system's loopback."""
        begin = "import djq\nserver = djq.connect('127.0.0.1', 7007, timeout=20)\n"
        words = ["nsenter", "--target", self.first, "--net", sys.executable, "-c", begin + script]
        environment = {**os.environ, "PYTHONPATH": os.path.join(ROOT, "clients", "python"), "PYTHONDONTWRITEBYTECODE": "1"}
        until = time.monotonic() + PATIENCE
        while True:
            done = subprocess.run(words, capture_output=True, text=True, timeout=5 * PATIENCE, env=environment)
            if done.returncode == 0:
                say("client:", done.stdout.strip())
                return done.stdout.strip()
            if "refused" not in done.stderr or time.monotonic() > until:  # the connection, while the service starts
                raise AssertionError(done.stderr)
            time.sleep(0.2)

    def show(self, name):
        """A property of the service."""
        return self.tries("systemctl", "show", "--value", "--property", name, "djq")[1]

    def end(self):
        self.outer.kill()  # and with it the system's first process, which ends all others
        self.outer.communicate()


@contextlib.contextmanager
def booted(folder):
    system = System(folder)
    try:
        system.wait()
        yield system
    finally:
        system.end()


def equal(got, want, what):
    if got != want:
        raise AssertionError(f"{what}: got {got!r}, want {want!r}")


ROWS = "server.query('all(x,y) <- r(x,y)') if new else None\nprint(sorted(server.answers('all')))"


def starts(system, package):
    """The package is installed, and one command starts the service."""
    for name in ("python3", "rt", "cc", "curl"):
        equal(system.tries("which", name)[0], 1, f"the bare system has {name}")
    equal(system.tries("cat", "/proc/net/route")[1].count("\n"), 0, "the bare system has routes")
    told = system.run("dpkg", "--install", package)
    equal("start the service by: systemctl enable --now djq" in told, True, told)
    system.run("systemctl", "enable", "--now", "djq")
    told = system.client("server.relation('r', int, int)\nprint(server.add('r', 1, 2), server.add('r', 3, 4))\nnew = True\n" + ROWS)
    equal(told, "Added(seq=1, copies=1) Added(seq=2, copies=1)\n[(1, 2), (3, 4)]", "what the client is sent")


def is_bounded(system):
    """The service runs as its user, with the unit's limits and modes."""
    process = system.show("MainPID")
    status = system.run("grep", "-E", "^(Uid|NoNewPrivs|CapEff|Seccomp):", f"/proc/{process}/status").split()
    wanted = {"Uid:": system.run("id", "--user", "djq"), "CapEff:": "0" * 16, "NoNewPrivs:": "1", "Seccomp:": "2"}
    equal({name: status[status.index(name) + 1] for name in wanted}, wanted, "its user, and what it may do")
    limits = system.run("grep", "address space", f"/proc/{process}/limits").split()
    equal(limits[3:5], [str(2 << 30)] * 2, "its limit of memory")
    modes = system.run("stat", "--format", "%a %U %n", "/var/lib/djq", "/var/lib/djq/log")
    equal(modes, "700 djq /var/lib/djq\n600 djq /var/lib/djq/log", "modes")


def survives(system, package):
    """Rows outlive a kill, a restart and an upgrade."""
    for words in (["systemctl", "kill", "--signal=KILL", "djq"], ["systemctl", "restart", "djq"], ["dpkg", "--install", package]):
        before = system.show("MainPID")
        system.run(*words)
        until = time.monotonic() + PATIENCE
        while system.show("MainPID") in (before, "0"):
            if time.monotonic() > until:
                raise AssertionError(f"no new server after {' '.join(words)}")
            time.sleep(0.1)
        equal(system.client("new = False\n" + ROWS), "[(1, 2), (3, 4)]", f"the rows after {' '.join(words)}")


# Adds rows until the server has no memory for one; then a row goes and comes again, and a query is asked.
FILL = """
server.relation('r', int, int)
server.query('all(x,y) <- r(x,y)')
server.add('r', 1, 2)
server.relation('full', str)
text = lambda number: str(number).rjust(250, '-')
held = 0
try:
    while True:
        server.add('full', text(held))
        held += 1
except djq.OutOfMemory:
    pass
print(held > 1000, server.delete('full', text(0)).copies, server.add('full', text(0)).copies, server.has('all', 1, 2))
"""


def answers_at_its_limit(system):
    """At the limit of memory the server answers so, and goes on: it isn't killed."""
    folder = os.path.join(system.folder, "etc/systemd/system/djq.service.d")
    os.makedirs(folder)
    with open(os.path.join(folder, "limit.conf"), "w", encoding="utf-8") as file:
        file.write("[Service]\nLimitAS=40M\nExecStart=\nExecStart=/usr/bin/djq serve ${DJQ_ADDRESS}\n")
    system.run("systemctl", "daemon-reload")
    system.run("systemctl", "restart", "djq")
    process = system.show("MainPID")
    equal(system.client(FILL), "True 0 1 True", "a server without memory")
    equal((system.show("MainPID"), system.show("NRestarts")), (process, "0"), "the server that answers")
    shutil.rmtree(folder)
    system.run("systemctl", "daemon-reload")
    system.run("systemctl", "restart", "djq")


def is_purged(system, package):
    """A purge stops the service, and leaves the data, which it says; another install has it again."""
    told = system.run("apt-get", "--quiet", "--quiet", "purge", "--yes", "djq")
    equal("the data in /var/lib/djq and the user djq are left" in told, True, told)
    equal(system.tries("systemctl", "is-active", "djq")[1], "inactive", "the service")
    for path in ("/usr/bin/djq", "/etc/default/djq", "/usr/lib/systemd/system/djq.service", "/usr/lib/python3/dist-packages/djq",
                 "/etc/systemd/system/multi-user.target.wants/djq.service"):
        equal(system.tries("test", "-e", path)[0], 1, f"{path} is left")
    system.run("ls", "-l", "/var/lib/djq/log")
    system.run("dpkg", "--install", package)
    system.run("systemctl", "enable", "--now", "djq")
    equal(system.client("new = False\n" + ROWS), "[(1, 2), (3, 4)]", "the rows after a purge")
    system.run("dpkg", "--purge", "djq")
    system.run("rm", "-r", "/var/lib/djq")
    system.run("userdel", "djq")


def runs_unpacked(system, tarball):
    """The tarball runs where it is unpacked."""
    system.run("tar", "-xzf", tarball, "-C", "/opt")
    told = system.run("sh", "-c", "printf 'rel r int\\nadd r 1\\n' | /opt/djq-*/bin/djq run")
    equal(told, "ok\nok added 1 1", "the tarball's program")


def run_service(dist, version, folder):
    """All of it, in a system in this folder."""
    place = os.path.join(folder, "system")
    make(place)
    package, tarball = f"djq_{version}_amd64.deb", f"djq-{version}-linux-amd64.tar.gz"
    for name in (package, tarball):
        shutil.copy(os.path.join(dist, name), os.path.join(place, "root"))
    with booted(place) as system:
        starts(system, f"/root/{package}")
        is_bounded(system)
        survives(system, f"/root/{package}")
        answers_at_its_limit(system)
        is_purged(system, f"/root/{package}")
        runs_unpacked(system, f"/root/{tarball}")
