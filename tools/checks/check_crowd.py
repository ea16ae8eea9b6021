#!/usr/bin/env -S python3 -B
"""Many connections at the transmitter's server, over real sockets: those of some clients can't keep others out.

    python3 -B tools/checks/check_crowd.py [PROGRAM [SECONDS]]

Of all connections 63 send a byte now and then for as long as the check lasts, each begun anew where the server has ended it.
Meanwhile others come in their thousands, one after another and several side by side, and each is answered within two seconds. A
server with few descriptors answers more connections than it may hold, one that may make no further thread answers in its own,
and one whose disk fails in service ends within two seconds, though connections stand open that say nothing.

Without a built program, or where no socket can be opened, it says that it is passed over.
"""
import http.client
import os
import resource
import select
import shutil
import signal
import socket
import sys
import tempfile
import threading
import time
import uuid

sys.dont_write_bytecode = True
sys.path.insert(0, os.path.join(os.path.dirname(os.path.abspath(__file__)), ".."))
from checks.check_server import Server, publish
from checks.served import built_program, need

DRIPPING, ASKING = 63, 4
# How long a client waits for its answer, and how long the whole is tried.
WITHIN, SECONDS = 2, 12
NOBODY = 65534


def connected(server, timeout=5):
    return socket.create_connection(("127.0.0.1", server.port), timeout)


def answered(server, timeout=5):
    """How many seconds a request over a connection of its own takes."""
    began = time.monotonic()
    link = http.client.HTTPConnection("127.0.0.1", server.port, timeout=timeout)
    link.request("GET", "/.well-known/ssf-configuration", headers={"connection": "close"})
    response = link.getresponse()
    need(response.status == 200 and response.read(), f"a request is answered {response.status}")
    link.close()
    return time.monotonic() - began


class Drips:
    """Connections that send a byte each half second, each begun anew where the server has ended it."""

    def __init__(self, server):
        self.server, self.renewed, self.is_over = server, 0, threading.Event()
        self.links = [connected(server) for _ in range(DRIPPING)]
        self.thread = threading.Thread(target=self.drip, daemon=True)
        self.thread.start()

    def drip(self):
        while not self.is_over.wait(0.5):
            for place, link in enumerate(self.links):
                self.links[place] = self.kept(link)

    def kept(self, link):
        try:
            ended, _, _ = select.select([link], [], [], 0)
            if not ended:
                link.send(b"G")
                return link
        except OSError:
            pass
        link.close()
        self.renewed += 1
        return connected(self.server)

    def end(self):
        self.is_over.set()
        self.thread.join()
        for link in self.links:
            link.close()


def crowd(server, seconds):
    """Clients that come anew for each request, side by side, while others drip: how many came, and how long one waited at most."""
    drips, waits = Drips(server), [[] for _ in range(ASKING)]
    until = time.monotonic() + seconds

    def ask(mine):
        while time.monotonic() < until:
            mine.append(answered(server))

    asking = [threading.Thread(target=ask, args=(mine,), daemon=True) for mine in waits]
    for thread in asking:
        thread.start()
    for thread in asking:
        thread.join()
    drips.end()
    every = sorted(wait for mine in waits for wait in mine)
    need(len(every) >= 20 * seconds, f"only {len(every)} connections were served in {seconds} seconds")
    need(every[-1] <= WITHIN, f"beside slow connections a client waited {every[-1]:.2f} seconds")
    return len(every), every[-1], drips.renewed


def few_descriptors(server):
    """A server that may hold 40 descriptors, and 200 connections at once: each is answered, and the metrics tell what it lacked."""

    def limited():
        resource.setrlimit(resource.RLIMIT_NOFILE, (40, 40))

    server.start(limited)
    links = []
    for _ in range(200):
        link = connected(server, 30)
        link.sendall(b"GET /.well-known/ssf-configuration HTTP/1.1\r\nhost: idp.example\r\nconnection: close\r\n\r\n")
        links.append(link)
    for number, link in enumerate(links):
        need(link.recv(12) == b"HTTP/1.1 200", f"with few descriptors connection {number} isn't answered")
        link.close()
    answered(server)
    _, _, said = server.ask_as_text("GET", "/operator/metrics", bearer="operator")
    need(b"\nsignals_door_faults_total 0\n" not in said and b"\nsignals_door_faults_total " in said, "no accept is told that lacked a descriptor")
    server.kill()


def no_thread(server, room):
    """A server that may make no thread serves each connection itself, before it accepts the next one."""
    if os.geteuid() != 0:
        return
    server.program = shutil.copy(server.program, room)
    for folder, _, names in os.walk(room):
        for path in [folder, *(os.path.join(folder, name) for name in names)]:
            os.chown(path, NOBODY, NOBODY)

    def limited():
        os.setgid(NOBODY)
        os.setuid(NOBODY)
        resource.setrlimit(resource.RLIMIT_NPROC, (1, 1))

    server.start(limited)
    for _ in range(50):
        answered(server)
    server.kill()


def failing_disk(server):
    """A file that may not grow, beside connections that say nothing: the publication is answered 503, and the run ends with 5."""

    def limited():
        signal.signal(signal.SIGXFSZ, signal.SIG_IGN)
        size = os.path.getsize(f"{server.store}.a") + 4
        resource.setrlimit(resource.RLIMIT_FSIZE, (size, size))

    server.start(limited)
    silent = [connected(server) for _ in range(20)]
    body, _ = publish(server, 1)
    status, _ = server.ask("POST", "/operator/publish", body, "operator")
    need(status == 503, f"over a failing disk a publication is answered {status}")
    ended = server.ended(2)
    need(ended == (5, "signals: store failed\n"), f"over a failing disk the server ends with {ended}")
    for link in silent:
        link.close()


def main():
    program = built_program()
    if not program:
        return
    seconds = int(sys.argv[2]) if len(sys.argv) > 2 else SECONDS
    with tempfile.TemporaryDirectory() as room:
        os.chmod(room, 0o755)
        server = Server(program, room)
        status, _ = server.run("init", "tx", server.store, str(uuid.uuid4()))
        need(status == 0, f"init ends with {status}")
        server.start()
        count, slowest, renewed = crowd(server, seconds)
        server.kill()
        few_descriptors(server)
        failing_disk(server)
        no_thread(server, room)
    print(f"{count} connections beside {DRIPPING} slow ones ({renewed} begun anew), {slowest * 1000:.0f} ms at most")


if __name__ == "__main__":
    main()
