#!/usr/bin/env -S python3 -B
"""How many connections a second the transmitter's server serves that are each dialled anew, and how long one waits at most.

    python3 -B bench/run_connections.py PROGRAM [CONNECTIONS [PROGRAM ..]]

Sixteen clients, in four processes, each dial, ask for the metadata and close, one connection after the other. Several programs
take turns, three times each, and the best and the median of each are printed.
"""
import multiprocessing
import os
import socket
import statistics
import sys
import tempfile
import threading
import time
import uuid

sys.dont_write_bytecode = True
sys.path.insert(0, os.path.join(os.path.dirname(os.path.abspath(__file__)), "..", "tools"))
from checks.check_server import Server

PROCESSES, CLIENTS, ROUNDS = 4, 4, 3
ASKED = b"GET /.well-known/ssf-configuration HTTP/1.1\r\nhost: idp.example\r\nconnection: close\r\n\r\n"


def visit(port):
    """One connection, from its dial to its end: the seconds that it takes."""
    began = time.monotonic()
    link = socket.create_connection(("127.0.0.1", port), 70)
    link.sendall(ASKED)
    said = b""
    while piece := link.recv(4096):
        said += piece
    link.close()
    if not said.startswith(b"HTTP/1.1 200"):
        raise SystemExit(f"answered {said[:40]!r}")
    return time.monotonic() - began


def clients(port, each, told):
    """A process of clients, which tells how long each connection took."""
    waits = [[] for _ in range(CLIENTS)]

    def ask(mine):
        for _ in range(each):
            mine.append(visit(port))

    asking = [threading.Thread(target=ask, args=(mine,)) for mine in waits]
    for thread in asking:
        thread.start()
    for thread in asking:
        thread.join()
    told.put([wait for mine in waits for wait in mine])


def measured(program, count):
    """The connections a second, and the longest wait in milliseconds."""
    with tempfile.TemporaryDirectory() as room:
        server = Server(program, room)
        server.run("init", "tx", server.store, str(uuid.uuid4()))
        server.start()
        told, each = multiprocessing.Queue(), count // (PROCESSES * CLIENTS)
        began = time.monotonic()
        asking = [multiprocessing.Process(target=clients, args=(server.port, each, told)) for _ in range(PROCESSES)]
        for process in asking:
            process.start()
        waits = [wait for _ in asking for wait in told.get()]
        took = time.monotonic() - began
        for process in asking:
            process.join()
        server.kill()
    return len(waits) / took, max(waits) * 1000


def main():
    if len(sys.argv) < 2:
        raise SystemExit(__doc__)
    count = int(sys.argv[2]) if len(sys.argv) > 2 else 10_000
    programs = [sys.argv[1], *sys.argv[3:]]
    found = {program: [] for program in programs}
    for _ in range(ROUNDS):
        for program in programs:
            found[program].append(measured(os.path.abspath(program), count))
    for program, runs in found.items():
        rates, waits = zip(*runs)
        print(f"{program}: {max(rates):.0f} connections a second at best, {statistics.median(rates):.0f} in the median run;"
              f" longest wait {min(waits):.0f} ms at best, {statistics.median(waits):.0f} in the median run")


if __name__ == "__main__":
    main()
