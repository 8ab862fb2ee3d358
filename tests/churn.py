"""Changes rows without end, at a rate, until its standard input ends.

    python3 tests/churn.py PORT RATE LINE ..

Sends the lines in turn, RATE of them a second, and reads what it is answered. Where it was late it sends what is
missing at once. Last it prints how many lines were sent.
"""

import select
import socket
import sys
import time


def main():
    port, rate, lines = int(sys.argv[1]), float(sys.argv[2]), [f"{line}\n".encode() for line in sys.argv[3:]]
    with socket.create_connection(("127.0.0.1", port)) as server:
        server.setsockopt(socket.IPPROTO_TCP, socket.TCP_NODELAY, 1)
        began, sent = time.monotonic(), 0
        while True:
            wanted = int((time.monotonic() - began) * rate)
            while sent < wanted:
                server.sendall(lines[sent % len(lines)])
                sent += 1
            ready, _, _ = select.select([server, sys.stdin], [], [], 1 / rate)
            if server in ready and not server.recv(65536):
                raise SystemExit("the server closed the connection")
            if sys.stdin in ready:
                break
    print(sent)


if __name__ == "__main__":
    main()
