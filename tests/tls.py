#!/usr/bin/env python3
"""Tries the recipe of SECURITY.md: a proxy with TLS and client certificates in front of the built program.

    tests/tls.py PATH_TO_DJQ

It needs `stunnel` and `openssl` (Debian's stunnel4 and openssl), and works in a folder of its own. The last line is
`N passed, N failed`, with the tests that were skipped where a program isn't there; the status is 0 where none failed.
"""

import os
import re
import shutil
import socket
import ssl
import subprocess
import sys
import tempfile
import time

ROOT = os.path.join(os.path.dirname(os.path.abspath(__file__)), "..")
PATIENCE = 20


def free_port():
    with socket.socket() as probe:
        probe.bind(("127.0.0.1", 0))
        return probe.getsockname()[1]


def reach(port):
    until = time.monotonic() + PATIENCE
    while True:
        try:
            return socket.create_connection(("127.0.0.1", port), timeout=PATIENCE)
        except OSError:
            if time.monotonic() > until:
                raise
            time.sleep(0.05)


def recipe(outside, inside):
    """The configuration that SECURITY.md shows, on other ports."""
    with open(os.path.join(ROOT, "SECURITY.md"), encoding="utf-8") as page:
        shown = re.search(r"```\n(foreground.*?)```", page.read(), re.DOTALL).group(1)
    assert "0.0.0.0:7443" in shown and "127.0.0.1:7007" in shown
    return shown.replace("0.0.0.0:7443", f"127.0.0.1:{outside}").replace("127.0.0.1:7007", f"127.0.0.1:{inside}")


def certificates(folder):
    """The server's certificate and key, an authority for clients, a client of it, and a stranger."""

    def openssl(*words):
        subprocess.run(["openssl", *words], cwd=folder, check=True, capture_output=True)

    def self_signed(name):
        openssl("req", "-x509", "-newkey", "ec", "-pkeyopt", "ec_paramgen_curve:prime256v1", "-nodes", "-days", "2",
                "-subj", f"/CN={name}", "-keyout", f"{name}.key", "-out", f"{name}.crt")

    for name in ("server", "clients", "stranger"):
        self_signed(name)
    openssl("req", "-newkey", "ec", "-pkeyopt", "ec_paramgen_curve:prime256v1", "-nodes", "-subj", "/CN=one",
            "-keyout", "one.key", "-out", "one.csr")
    openssl("x509", "-req", "-in", "one.csr", "-CA", "clients.crt", "-CAkey", "clients.key", "-CAcreateserial", "-days", "2",
            "-out", "one.crt")
    with open(os.path.join(folder, "server.pem"), "w", encoding="utf-8") as out:
        for part in ("server.key", "server.crt"):
            with open(os.path.join(folder, part), encoding="utf-8") as text:
                out.write(text.read())
    shutil.copy(os.path.join(folder, "clients.crt"), os.path.join(folder, "clients.pem"))


def talk(folder, port, name):
    """What a client with this certificate, or with none, is answered; None where it isn't let in."""
    context = ssl.create_default_context(cafile=os.path.join(folder, "server.crt"))
    context.check_hostname = False
    if name is not None:
        context.load_cert_chain(os.path.join(folder, f"{name}.crt"), os.path.join(folder, f"{name}.key"))
    try:
        with reach(port) as plain, context.wrap_socket(plain) as stream:
            stream.sendall(b"rel r int\nadd r 7\nquit\n")
            answer = b""
            while piece := stream.recv(4096):
                answer += piece
            return answer or None
    except (ssl.SSLError, ConnectionError):
        return None


def main():
    if len(sys.argv) != 2:
        raise SystemExit(__doc__)
    program = os.path.abspath(sys.argv[1])
    stunnel = shutil.which("stunnel") or shutil.which("stunnel4")
    if stunnel is None or shutil.which("openssl") is None:
        print("skipped: stunnel or openssl isn't there")
        print("0 passed, 0 failed, 3 skipped, without stunnel or openssl")
        return 0
    failed = 0
    with tempfile.TemporaryDirectory() as folder:
        certificates(folder)
        inside, outside = free_port(), free_port()
        with open(os.path.join(folder, "djq.conf"), "w", encoding="utf-8") as out:
            out.write(recipe(outside, inside))
        server = subprocess.Popen([program, "serve", f"127.0.0.1:{inside}"])
        proxy = None
        try:
            reach(inside).close()
            proxy = subprocess.Popen([stunnel, "djq.conf"], cwd=folder, stdout=subprocess.DEVNULL, stderr=subprocess.DEVNULL)
            reach(outside).close()
            for name, want in ((None, None), ("stranger", None), ("one", b"ok\nok added 1 1\nbye\n")):
                got = talk(folder, outside, name)
                if got != want:
                    failed += 1
                    print(f"with certificate {name}: {got!r} came, and {want!r} was wanted")
        finally:
            for process in (proxy, server):
                if process is not None:
                    process.kill()
                    process.wait()
    print(f"{3 - failed} passed, {failed} failed")
    return 1 if failed else 0


if __name__ == "__main__":
    sys.exit(main())
