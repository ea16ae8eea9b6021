#!/usr/bin/env -S python3 -B
"""The memory of the transmitter's server over many links, over real sockets: it grows with those that are open, and not with those
that were.

    python3 -B tools/checks/check_memory.py [PROGRAM [LINKS]]

Four clients make LINKS connections, each of sixteen requests, of which each is a turn of the node. After them the server holds at
most 8 MB more than after the first 64. With 100,000 links there is an end of a watch among them.

Without a built program, or where no socket can be opened, it says that it is passed over.
"""
import os
import re
import socket
import sys
import tempfile
import time
import uuid
from concurrent.futures import ThreadPoolExecutor

sys.dont_write_bytecode = True
sys.path.insert(0, os.path.join(os.path.dirname(os.path.abspath(__file__)), ".."))
from checks.check_server import Server
from checks.served import built_program, need

CLIENTS, ASKED, FIRST, LINKS = 4, 16, 64, 5_000
MOST = 8 << 20
REQUEST = b"GET /.well-known/ssf-configuration HTTP/1.1\r\nhost: idp.example\r\n\r\n"
# As the units and the script at the root have it.
os.environ["MALLOC_ARENA_MAX"] = "2"


def resident(server):
    """The bytes that the server holds in memory."""
    with open(f"/proc/{server.running.pid}/status", encoding="ascii") as status:
        return int(re.search(r"VmRSS:\s+(\d+) kB", status.read()).group(1)) * 1024


def link(server):
    """One connection, with as many requests as it may have."""
    with socket.create_connection(("127.0.0.1", server.port), 30) as peer:
        peer.sendall(REQUEST * ASKED)
        told = b""
        while piece := peer.recv(1 << 16):
            told += piece
    need(told.count(b"HTTP/1.1 200 ") == ASKED, f"of {ASKED} requests {told.count(b'HTTP/1.1 200 ')} are answered: {told[-200:]!r}")


def links(server, count):
    """So many connections, side by side."""
    with ThreadPoolExecutor(CLIENTS) as pool:
        # what fails in a client is raised here
        list(pool.map(lambda _: link(server), range(count)))


def main():
    program = built_program()
    if not program:
        return
    count = int(sys.argv[2]) if len(sys.argv) > 2 else LINKS
    with tempfile.TemporaryDirectory() as room:
        server = Server(program, room)
        status, _ = server.run("init", "tx", server.store, str(uuid.uuid4()))
        need(status == 0, f"init ends with {status}")
        server.start()
        links(server, FIRST)
        first, began = resident(server), time.monotonic()
        links(server, count)
        last, seconds = resident(server), time.monotonic() - began
        server.kill()
    print(f"{count} links of {ASKED} requests in {seconds:.1f} s: {first >> 10} KB after {FIRST} links, {(last - first) >> 10} KB more at the end")
    need(last - first <= MOST, f"the server holds {last - first} bytes more")


if __name__ == "__main__":
    main()
