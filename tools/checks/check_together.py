#!/usr/bin/env -S python3 -B
"""Many connections at once at the transmitter's server, over real sockets and files (RFC 9112, section 9.3; RFC 8936, section 2).

One connection is held in the midst of a request while another one is answered. Then so many connections, for so many seconds,
publish events, poll their streams, acknowledge what came, and read and change configurations, each over a kept link for as many
requests as a link may have. The server is killed with no warning (SIGKILL) and started again; whatever was answered stands:
each stream owes, once, the tokens of all publications that were answered, but those whose acknowledgement was.

    python3 -B tools/checks/check_together.py [PROGRAM [SECONDS [CONNECTIONS]]]

Without a built program, or where no socket can be opened, it says that it is passed over.
"""
import http.client
import json
import os
import random
import socket
import sys
import tempfile
import threading
import time
import uuid

sys.dont_write_bytecode = True
sys.path.insert(0, os.path.join(os.path.dirname(os.path.abspath(__file__)), ".."))
from checks.check_server import POLL, Server, claims_of, publish
from checks.served import built_program, need

STREAMS = 8


class Link:
    """A kept connection, which is made again where the server closes it."""

    def __init__(self, server):
        self.server, self.link, self.made = server, None, 0

    def ask(self, method, path, body=None, bearer="client"):
        fields = {"authorization": f"Bearer {self.server.bearers[bearer]}"}
        if body is not None:
            fields["content-type"] = "application/json"
        if self.link is None:
            self.link, self.made = http.client.HTTPConnection("127.0.0.1", self.server.port, timeout=60), self.made + 1
        self.link.request(method, path, None if body is None else json.dumps(body), fields)
        response = self.link.getresponse()
        text = response.read()
        if response.getheader("connection") == "close":
            self.link.close()
            self.link = None
        return response.status, json.loads(text) if text else None


class Story:
    """What all connections did together."""

    def __init__(self, server, streams, until):
        self.server, self.streams, self.until = server, streams, until
        self.lock, self.asked, self.published = threading.Lock(), {}, 0
        # the tokens of each stream by the publications that were answered; those that came in polls; those whose
        # acknowledgement was answered, and those where it was asked
        self.issued = {it: set() for it in streams}
        self.came, self.acked, self.tried = ({it: set() for it in streams} for _ in range(3))
        self.faults, self.next = [], 0

    def publish(self, link):
        with self.lock:
            self.next += 1
            body, _ = publish(self.server, self.next)
        status, told = link.ask("POST", "/operator/publish", body, "operator")
        need(status == 200, f"a publication is answered {status}")
        with self.lock:
            self.published += 1
            for token in told["tokens"]:
                self.issued[token["stream_id"]].add(token["jti"])

    def poll(self, link, stream, mine):
        with self.lock:
            self.tried[stream].update(mine)
            settled = set(self.acked[stream])
        status, told = link.ask("POST", f"/poll/{stream}", {"ack": sorted(mine), "returnImmediately": True})
        need(status == 200, f"a poll is answered {status}")
        need(not settled & told["sets"].keys(), "a token comes again after its acknowledgement was answered")
        for jti, token in told["sets"].items():
            need(claims_of(token)["jti"] == jti, "a token stands under another's name")
        with self.lock:
            self.acked[stream].update(mine)
            self.came[stream].update(told["sets"])
        return set(told["sets"])

    def run(self, number):
        chance, link, mine = random.Random(number), Link(self.server), set()
        stream = self.streams[number % len(self.streams)]
        try:
            while time.monotonic() < self.until:
                kind = chance.random()
                if kind < 0.4:
                    self.publish(link)
                elif kind < 0.8:
                    mine = self.poll(link, stream, mine)
                elif kind < 0.9:
                    need(link.ask("GET", f"/ssf/stream?stream_id={stream}")[0] == 200, "a stream isn't read")
                else:
                    change = {"stream_id": stream, "description": f"by {number}"}
                    need(link.ask("PATCH", "/ssf/stream", change)[0] == 200, "a stream isn't changed")
                with self.lock:
                    self.asked[number] = self.asked.get(number, 0) + 1
        except (OSError, http.client.HTTPException, SystemExit) as fault:
            with self.lock:
                self.faults.append((number, repr(fault)))


def overlap(server):
    """One connection is held after the first line of its request, and another one is answered meanwhile."""
    held = socket.create_connection(("127.0.0.1", server.port), 10)
    held.sendall(b"GET /.well-known/ssf-configuration HTTP/1.1\r\n")
    begun = time.monotonic()
    need(server.ask("GET", "/.well-known/ssf-configuration", bearer=None)[0] == 200, "a link isn't answered while another one is held")
    took = time.monotonic() - begun
    held.sendall(b"host: held\r\nconnection: close\r\n\r\n")
    need(held.recv(16).startswith(b"HTTP/1.1 200"), "a link that was held isn't answered")
    held.close()
    need(took < 5, f"a link waited {took:.1f} s for another one")


def made(server, count):
    streams = []
    for number in range(count):
        status, told = server.ask("POST", "/ssf/stream", {"delivery": {"method": POLL}, "description": str(number)})
        need(status == 201, "a stream isn't made")
        streams.append(told["stream_id"])
    return streams


def owed(server, stream):
    """All that a stream owes, by polls that acknowledge it."""
    told, ack = [], []
    while True:
        status, page = server.ask("POST", f"/poll/{stream}", {"ack": ack, "returnImmediately": True})
        need(status == 200, "a poll isn't answered after the restart")
        if not page["sets"]:
            return told
        ack = list(page["sets"])
        told += ack


def main():
    program = built_program()
    if program is None:
        return
    seconds = float(sys.argv[2]) if len(sys.argv) > 2 else 3
    connections = int(sys.argv[3]) if len(sys.argv) > 3 else 64
    with tempfile.TemporaryDirectory() as room:
        server = Server(program, room)
        need(server.run("init", "tx", server.store, str(uuid.UUID(int=7))) == (0, ""), "a store isn't made")
        server.start()
        overlap(server)
        streams = made(server, STREAMS)
        story = Story(server, streams, time.monotonic() + seconds)
        threads = [threading.Thread(target=story.run, args=(it,)) for it in range(connections)]
        for it in threads:
            it.start()
        for it in threads:
            it.join()
        need(not story.faults, f"connections met {story.faults[:3]}")
        need(len(story.asked) == connections, "not every connection was answered")
        with open(f"/proc/{server.running.pid}/status", encoding="utf-8") as it:
            peak = next(line.split()[1] for line in it if line.startswith("VmHWM"))
        server.kill()
        server.start()
        for stream in streams:
            left = owed(server, stream)
            need(len(left) == len(set(left)), "a stream owes a token twice")
            need(not story.acked[stream] & set(left), "a token is owed whose acknowledgement was answered")
            need(story.issued[stream] - story.tried[stream] <= set(left), "a token of a publication that was answered is lost")
            need(set(left) <= story.issued[stream], "a token is owed that no publication was answered with")
        server.kill()
    asked = sum(story.asked.values())
    print(f"{connections} connections, {asked} requests in {seconds:g} s, {story.published} publications, {sum(map(len, story.acked.values()))} acknowledged; peak {int(peak) // 1024} MiB: all as answered after a kill")


main()
