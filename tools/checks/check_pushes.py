#!/usr/bin/env -S python3 -B
"""Pushes to several receivers of which some fail, over real sockets (RFC 8935, sections 2.2 to 2.4).

    python3 -B tools/checks/check_pushes.py [PROGRAM]

The streams that stand first have endpoints that fail, each in a way of its own: nobody listens, the link is closed without a
response, a proxy answers with an error of its own, the receiver is busy, and the receiver doesn't know who pushes. The stream
that stands last has its token all the same, and each of the others still owes its own: it comes once the endpoint is mended.
A token that a receiver refuses by a registered code is settled, and is never pushed again. An endpoint that is slow has fifteen
seconds for all tokens of its stream together.

Without a built program, or where no socket can be opened, it says that it is passed over.
"""
import http.server
import json
import os
import socket
import sys
import tempfile
import threading
import time
import uuid

sys.dont_write_bytecode = True
sys.path.insert(0, os.path.join(os.path.dirname(os.path.abspath(__file__)), ".."))
from checks.check_server import Server, claims_of, publish
from checks.served import built_program, free_port, need
from checks.server_rows import PUSH

# How an endpoint fails: the status and the body of its response; None where it closes the link without one.
FAILING = {
    "closes": None,
    "proxy": (400, b'{"err":"WAF blocked"}'),
    "page": (400, b"<html>Bad Request</html>"),
    "unread": (400, b'{"description":"head"}'),
    "stranger": (400, b'{"err":"authentication_failed","description":"bearer"}'),
    "busy": (503, b""),
    "moved": (302, b""),
}


class Endpoint:
    """An endpoint of pushes on a port of its own, which keeps what it is sent, and answers as it is told."""

    def __init__(self, answer):
        self.begin(answer, free_port())

    def begin(self, answer, port):
        self.answer, self.tokens, self.port, self.delay = answer, [], port, 0
        # the subjects of the first so many tokens, each where it came first
        self.read, self.first = 0, {}
        endpoint = self

        class Handler(http.server.BaseHTTPRequestHandler):
            def do_POST(self):
                endpoint.tokens.append(self.rfile.read(int(self.headers["content-length"])).decode())
                if endpoint.answer is None:
                    self.close_connection = True
                    return
                time.sleep(endpoint.delay)
                status, body = endpoint.answer
                try:
                    self.send_response(status)
                    self.send_header("content-length", str(len(body)))
                    self.end_headers()
                    self.wfile.write(body)
                except OSError:
                    # The transmitter waits no longer.
                    self.close_connection = True

            def log_message(self, *_):
                pass

        self.server = http.server.ThreadingHTTPServer(("127.0.0.1", self.port), Handler)
        threading.Thread(target=self.server.serve_forever, daemon=True).start()

    def url(self):
        return f"http://127.0.0.1:{self.port}/events"

    def subjects(self):
        """The subjects of the tokens, each where it came first: two rounds of a stream at the same time push a token twice."""
        if self.read > len(self.tokens):
            self.read, self.first = 0, {}
        for token in self.tokens[self.read :]:
            self.first.setdefault(claims_of(token)["sub_id"]["id"])
            self.read += 1
        return [*self.first]


def push_stream(server, url):
    delivery = {"method": PUSH, "endpoint_url": url, "authorization_header": "Bearer push-secret"}
    status, made = server.ask("POST", "/ssf/stream", {"delivery": delivery})
    need(status == 201, f"a push stream isn't made: {status} {made}")
    return made["stream_id"]


def until(holds, why):
    deadline = time.time() + 20
    while not holds():
        need(time.time() < deadline, why)
        time.sleep(0.02)


def published(server, number):
    body, subject = publish(server, number)
    status, answer = server.ask("POST", "/operator/publish", body, bearer="operator")
    need(status == 200, f"a publication is answered {status} {answer}")
    return subject["id"]


def deliver(server, stream):
    need(server.ask("POST", "/operator/deliver", {"stream_id": stream}, bearer="operator")[0] in (200, 202, 204), "a round isn't asked")


def others_fail(server):
    """The streams that fail, with their endpoints; the last stream has each token though the others stand before it."""
    nobody = push_stream(server, f"http://127.0.0.1:{free_port()}/events")
    failing = {name: Endpoint(answer) for name, answer in FAILING.items()}
    streams = {name: push_stream(server, endpoint.url()) for name, endpoint in failing.items()}
    well = Endpoint((202, b""))
    last = push_stream(server, well.url())
    subjects = []
    # more tokens than one page has
    for number in range(40):
        subjects.append(published(server, number))
        until(lambda: len(well.tokens) == len(subjects), f"the last stream has {len(well.tokens)} tokens of {len(subjects)}")
    need(well.subjects() == subjects, "the last stream has other tokens than were published")
    for name, endpoint in failing.items():
        need(subjects[0] in endpoint.subjects(), f"nothing was pushed to the endpoint that {name}")
    return nobody, failing, streams, last, subjects


def mended(server, nobody, failing, streams, subjects):
    """Each endpoint takes the tokens again, and then has all of them, in their order."""
    late = Endpoint((202, b""))
    delivery = {"method": PUSH, "endpoint_url": late.url(), "authorization_header": "Bearer push-secret"}
    need(server.ask("PATCH", "/ssf/stream", {"stream_id": nobody, "delivery": delivery})[0] == 200, "an endpoint isn't changed")
    for stream, endpoint in [(nobody, late), *((streams[name], failing[name]) for name in failing)]:
        endpoint.answer, endpoint.tokens = (202, b""), []
        for wanted in (32, 40):
            deliver(server, stream)
            until(lambda: len(endpoint.subjects()) >= wanted, f"{stream} was pushed {len(endpoint.subjects())} tokens of {wanted}")
        need(endpoint.subjects() == subjects, f"{stream} was pushed other tokens than it owed")


def refused(server):
    """A registered code settles the token."""
    endpoint = Endpoint((400, b'{"err":"invalid_key","description":"kid"}'))
    stream = push_stream(server, endpoint.url())
    published(server, 90)
    until(lambda: len(endpoint.tokens) == 1, "nothing is pushed to who refuses")
    deliver(server, stream)
    time.sleep(0.5)
    need(len(endpoint.tokens) == 1, "a token that was refused is pushed again")


def slow(server):
    """An endpoint that keeps 40 tokens owed, each after four seconds: a round ends after fifteen seconds, and what is left of it stays owed."""
    endpoint = Endpoint((503, b""))
    stream = push_stream(server, endpoint.url())
    for number in range(100, 140):
        published(server, number)
    until(lambda: endpoint.tokens, "nothing is pushed to who is busy")
    # until the server has tried it by itself, after which it waits for half a minute
    time.sleep(5)
    endpoint.delay, endpoint.tokens = 4, []
    body = json.dumps({"stream_id": stream}).encode()
    head = f"POST /operator/deliver HTTP/1.1\r\nhost: localhost\r\nauthorization: Bearer {server.operator}\r\nconnection: close\r\ncontent-length: {len(body)}\r\n\r\n"
    began, got = time.time(), b""
    with socket.create_connection(("127.0.0.1", server.port), 60) as link:
        link.sendall(head.encode() + body)
        while more := link.recv(1 << 16):
            got += more
    lasted = time.time() - began
    need(got.startswith(b"HTTP/1.1 20"), f"a round that is asked for is answered {got!r}")
    need(10 <= lasted <= 20, f"a slow endpoint holds the link of who asks for {lasted:.0f} seconds")
    need(3 <= len(endpoint.tokens) <= 4, f"a round of fifteen seconds pushes {len(endpoint.tokens)} tokens, one each four seconds")


def main():
    program = built_program()
    if not program:
        return
    with tempfile.TemporaryDirectory() as room:
        server = Server(program, room)
        need(server.run("init", "tx", server.store, str(uuid.UUID(int=7))) == (0, ""), "a store isn't made")
        server.start()
        nobody, failing, streams, _, subjects = others_fail(server)
        mended(server, nobody, failing, streams, subjects)
        refused(server)
        slow(server)
        server.kill()
    print(f"{len(subjects)} publications, {1 + len(failing)} endpoints that failed: each token came where it was owed, once it could")


if __name__ == "__main__":
    main()
