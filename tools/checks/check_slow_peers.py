#!/usr/bin/env -S python3 -B
"""Peers that are slow or silent at the transmitter's server, over real sockets (docs/FORMATS.md, "Links and their limits").

Some connections say nothing, some send a byte of a request each half second, and some are kept after a response. The server ends
each of them within its limit, without a response to what was no request, and another client is answered meanwhile and afterwards.

    python3 -B tools/checks/check_slow_peers.py [PROGRAM]

Without a built program, or where no socket can be opened, it says that it is passed over.
"""
import http.client
import os
import select
import socket
import sys
import tempfile
import time
import uuid

sys.dont_write_bytecode = True
sys.path.insert(0, os.path.join(os.path.dirname(os.path.abspath(__file__)), ".."))
from checks.check_server import Server
from checks.served import built_program, need

# As docs/FORMATS.md has them, with a second that a limit may be passed by and one for this machine.
LIMIT_SECONDS, MARGIN_SECONDS = 15, 2
EACH = 20


def connected(server):
    link = socket.create_connection(("127.0.0.1", server.port), 5)
    link.setblocking(False)
    return link


def answered(link):
    """Whether a request over this connection is answered."""
    link.request("GET", "/.well-known/ssf-configuration")
    response = link.getresponse()
    return response.status == 200 and bool(response.read())


def opened(server):
    return http.client.HTTPConnection("127.0.0.1", server.port, timeout=5)


def kept(server):
    """A connection over which one request was answered, and nothing more is asked."""
    link = opened(server)
    need(answered(link), "a request isn't answered")
    link.sock.setblocking(False)
    return link.sock


def ends(links):
    """The connections that the server has ended, which may not have said anything."""
    ready, _, _ = select.select(links, [], [], 0)
    for link in ready:
        try:
            said = link.recv(1)
        except ConnectionResetError:
            said = b""
        need(said == b"", f"the server says {said!r} to no request")
    return ready


def drip(links):
    for link in links:
        try:
            link.send(b"G")
        except OSError:
            pass


def wait_for_ends(beside, silent, dripping, idle):
    """Waits until the server has ended them all, and says after how many seconds the last one ended. A client beside them is
    answered meanwhile, over one connection, since a server takes so many at once."""
    began, asked, left = time.monotonic(), 0, {*silent, *dripping, *idle}
    while left:
        spent = time.monotonic() - began
        need(spent <= LIMIT_SECONDS + MARGIN_SECONDS, f"{len(left)} connections stand after {spent:.1f} seconds")
        drip(left & {*dripping})
        if spent >= 3 * asked:
            asked += 1
            need(answered(beside) and time.monotonic() - began - spent < 1, "another client isn't answered within a second")
        left -= {*ends([*left])}
        time.sleep(0.5)
    return time.monotonic() - began


def main():
    program = built_program()
    if not program:
        return
    with tempfile.TemporaryDirectory() as room:
        server = Server(program, room)
        status, _ = server.run("init", "tx", server.store, str(uuid.uuid4()))
        need(status == 0, f"init ends with {status}")
        server.start()
        beside = opened(server)
        need(answered(beside), "a request isn't answered")
        idle = [kept(server) for _ in range(EACH)]
        silent, dripping = ([connected(server) for _ in range(EACH)] for _ in range(2))
        last = wait_for_ends(beside, silent, dripping, idle)
        beside.close()
        need(answered(opened(server)), "a request afterwards isn't answered")
        server.kill()
    print(f"{3 * EACH} slow connections were ended within {last:.0f} seconds, and others were answered meanwhile")


if __name__ == "__main__":
    main()
