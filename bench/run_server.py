#!/usr/bin/env python3
"""Measures the transmitter's server over real sockets and a real file.

`run_server.py PROGRAM` runs the built program `signals` in a folder of its own and prints:

- how many publications a second an operator makes on kept links, each asked for once the one before is answered, beside a bare
  loop of two writes and two syncs of the same sizes, in turns, and the ratio of both speeds;
- how many polls a second that change nothing are answered on kept links, sixteen requests sent at a time.

A line stands for each bound and says whether it is kept. The status is 1 where one isn't.
"""
import json
import os
import subprocess
import sys
import tempfile
import time
import uuid

sys.dont_write_bytecode = True
sys.path.insert(0, os.path.join(os.path.dirname(os.path.abspath(__file__)), "..", "tools"))
from checks.check_server import SESSION_REVOKED, Server
from checks.served import fail

import socket

# How many requests a link takes (RFC 9112, section 9.3): then the server closes it.
LINK = 16
ROUNDS = 10
PUBLICATIONS = 640
POLLS = 64_000
# Times the bare loop's speed, and polls a second, at least.
LEAST_RATIO = 0.55
LEAST_POLLS = 15_000


def request(method, path, bearer, body):
    text = json.dumps(body, separators=(",", ":"))
    head = f"{method} {path} HTTP/1.1\r\nhost: localhost\r\nauthorization: Bearer {bearer}\r\n"
    return f"{head}content-type: application/json\r\ncontent-length: {len(text)}\r\n\r\n{text}".encode()


class Link:
    """A link that is dialled anew once it has taken its requests."""

    def __init__(self, port):
        self.port, self.left, self.socket, self.kept = port, 0, None, b""

    def ask(self, requests):
        """Sends these requests at once and gives their statuses."""
        if self.left < len(requests):
            if self.socket:
                self.socket.close()
            self.socket, self.left, self.kept = socket.create_connection(("127.0.0.1", self.port), 30), LINK, b""
            self.socket.setsockopt(socket.IPPROTO_TCP, socket.TCP_NODELAY, 1)
        self.left -= len(requests)
        self.socket.sendall(b"".join(requests))
        return [self.status() for _ in requests]

    def status(self):
        while b"\r\n\r\n" not in self.kept:
            self.more()
        head, _, rest = self.kept.partition(b"\r\n\r\n")
        lines = head.lower().split(b"\r\n")
        size = next((int(line[15:]) for line in lines if line.startswith(b"content-length:")), 0)
        self.kept = rest
        while len(self.kept) < size:
            self.more()
        self.kept = self.kept[size:]
        return int(lines[0].split()[1])

    def more(self):
        got = self.socket.recv(1 << 16)
        if not got:
            fail("the link ended before its answers")
        self.kept += got


def publication(server, number):
    body = {
        "publish_id": str(uuid.UUID(int=number)),
        "sub_id": {"format": "opaque", "id": f"s-{number}"},
        "events": {SESSION_REVOKED: {}},
    }
    return request("POST", "/operator/publish", server.operator, body)


def bare(path, count, size):
    """The time of a loop of two writes and two syncs, as an append makes them."""
    file = os.open(path, os.O_RDWR | os.O_CREAT | os.O_APPEND, 0o600)
    begun = time.perf_counter()
    for _ in range(count):
        os.write(file, b"x" * size)
        os.fdatasync(file)
        os.write(file, b"x")
        os.fdatasync(file)
    took = time.perf_counter() - begun
    os.close(file)
    return took


def publishing(server, room):
    link, served, written, part = Link(server.port), 0.0, 0.0, PUBLICATIONS // ROUNDS
    before = os.path.getsize(f"{server.store}.a")
    for number in range(ROUNDS):
        asks = [publication(server, number * part + place) for place in range(part)]
        begun = time.perf_counter()
        for ask in asks:
            if link.ask([ask]) != [200]:
                fail("a publication isn't answered with 200")
        served += time.perf_counter() - begun
        size = (os.path.getsize(f"{server.store}.a") - before) // ((number + 1) * part)
        written += bare(os.path.join(room, "bare"), part, size)
    print(f"publications: {PUBLICATIONS / served:.0f} a second, bare {PUBLICATIONS / written:.0f}, ratio {written / served:.3f}")
    return written / served


def polling(server):
    ask = request("POST", "/poll/acme-1", server.client, {"maxEvents": 0, "returnImmediately": True})
    link = Link(server.port)
    begun = time.perf_counter()
    for _ in range(POLLS // LINK):
        if link.ask([ask] * LINK) != [200] * LINK:
            fail("a poll isn't answered with 200")
    speed = POLLS / (time.perf_counter() - begun)
    print(f"polls without change: {speed:.0f} a second")
    return speed


def main():
    if len(sys.argv) != 2:
        sys.exit("usage: run_server.py PROGRAM")
    with tempfile.TemporaryDirectory(dir=".") as room:
        room = os.path.abspath(room)
        server = Server(os.path.abspath(sys.argv[1]), room)
        subprocess.run([server.program, "init", "tx", server.store, str(uuid.uuid4())], check=True)
        server.start()
        try:
            status, _ = server.ask("POST", "/ssf/stream", {})
            if status != 201:
                fail(f"a stream isn't made: {status}")
            ratio, speed = publishing(server, room), polling(server)
        finally:
            server.kill()
    kept = ratio >= LEAST_RATIO, speed >= LEAST_POLLS
    print(f"at least {LEAST_RATIO} of the bare loop: {'kept' if kept[0] else 'NOT kept'}")
    print(f"at least {LEAST_POLLS} polls a second: {'kept' if kept[1] else 'NOT kept'}")
    return 0 if all(kept) else 1


if __name__ == "__main__":
    sys.exit(main())
