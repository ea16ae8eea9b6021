#!/usr/bin/env -S python3 -B
"""A server tries late pushes again by itself, over real sockets (RFC 8935, section 2.4).

    python3 -B tools/checks/check_late.py [PROGRAM [PUBLICATIONS]]

Three receivers of which one refuses each link, one never answers and one drips a byte a second stand before forty that are
well. Once the three are known to be late, each publication reaches the forty within two seconds, though nobody asks for a
round. The server is killed with tokens owed and started again, and every token arrives at every well receiver, by nothing but
the start. A receiver that was away has its tokens half a minute after it is back. A stream that was paused has what it kept
once it is enabled.

Without a built program, or where no socket can be opened, it says that it is passed over.
"""
import os
import socket
import sys
import tempfile
import threading
import time
import uuid

sys.dont_write_bytecode = True
sys.path.insert(0, os.path.join(os.path.dirname(os.path.abspath(__file__)), ".."))
from checks.check_pushes import Endpoint, published
from checks.check_server import Server
from checks.served import built_program, free_port, need

# How many receivers are well, how many clients they share, and how many publications reach each of them.
WELL, CLIENTS, PUBLICATIONS = 40, 4, 1_000
# How many publications before the last ones the server is killed: behind those whose time is measured.
KILLS = (50, 30, 10)
# A late stream waits half a minute after its first attempt; an accept waits a second; the rest is room.
FIRST_WAIT = 30


class Slow:
    """What takes links at a port of its own and never answers, or answers a byte a second."""

    def __init__(self, drips):
        self.links, self.port = 0, free_port()
        listener = socket.create_server(("127.0.0.1", self.port))
        threading.Thread(target=self.take, args=(listener, drips), daemon=True).start()

    def take(self, listener, drips):
        while True:
            link, _ = listener.accept()
            self.links += 1
            threading.Thread(target=self.hold, args=(link, drips), daemon=True).start()

    @staticmethod
    def hold(link, drips):
        answer = iter(b"HTTP/1.1 202 Accepted\r\nx-slow: " + b"a" * 600)
        try:
            while True:
                time.sleep(1)
                if drips:
                    link.sendall(bytes([next(answer)]))
        except (OSError, StopIteration):
            link.close()

    def url(self):
        return f"http://127.0.0.1:{self.port}/events"


def until(holds, seconds, why):
    began = time.time()
    while not holds():
        need(time.time() - began < seconds, f"{why} within {seconds} seconds")
        time.sleep(0.01)
    return time.time() - began


def with_clients(server):
    """Has the server know some more clients, and gives their bearers."""
    first = server.said["clients"][0]
    others = [{**first, "name": f"more{number}", "bearer": f"bearer-of-more-{number}", "aud": [f"https://more{number}.example"]} for number in range(1, CLIENTS)]
    server.said["clients"] = [first, *others]
    server.write(server.settings, server.said)
    server.bearers |= {client["name"]: client["bearer"] for client in others}
    return ["client", *(client["name"] for client in others)]


def make_stream(server, bearer, url):
    delivery = {"method": "urn:ietf:rfc:8935", "endpoint_url": url, "authorization_header": "Bearer push-secret"}
    status, made = server.ask("POST", "/ssf/stream", {"delivery": delivery}, bearer)
    need(status == 201, f"a push stream isn't made: {status} {made}")
    return made["stream_id"]


def start_again(server):
    server.kill()
    server.start()


def well_beside_late(server, names, publications):
    """Each publication reaches those that are well, also where the server is killed after it."""
    make_stream(server, names[0], f"http://127.0.0.1:{free_port()}/events")
    slow = [Slow(False), Slow(True)]
    for one in slow:
        make_stream(server, names[0], one.url())
    well = [Endpoint((202, b"")) for _ in range(WELL)]
    for number, endpoint in enumerate(well):
        make_stream(server, names[number % len(names)], endpoint.url())
    subjects = [published(server, 0)]
    # the round on this link, and then the first attempt of each, take fifteen seconds at most for each that is slow
    until(lambda: all(len(endpoint.subjects()) == 1 for endpoint in well), 40, "a well receiver has no token")
    until(lambda: all(one.links >= 2 for one in slow), 40, "a slow receiver isn't tried again")
    time.sleep(16)
    longest, killed = 0, 0
    for number in range(1, publications):
        began = time.time()
        subjects.append(published(server, number))
        if publications - number in KILLS:
            start_again(server)
            killed += 1
            until(lambda: all(len(endpoint.subjects()) == len(subjects) for endpoint in well), 20, "a token isn't pushed after the start")
        else:
            until(lambda: all(len(endpoint.subjects()) == len(subjects) for endpoint in well), 20, "a token isn't pushed")
            # after a start it isn't known again which are late
            longest = max(longest, time.time() - began) if not killed else longest
    for endpoint in well:
        need(sorted(endpoint.subjects()) == sorted(subjects), "a well receiver has other tokens than were published")
    return longest, killed, subjects


def away_for_a_while(server):
    """A receiver is away, and comes back at the same place."""
    port = free_port()
    make_stream(server, "client", f"http://127.0.0.1:{port}/events")
    wanted = [published(server, 10_001), published(server, 10_002)]
    time.sleep(2)
    back = Endpoint.__new__(Endpoint)
    back.begin((202, b""), port)
    waited = until(lambda: back.subjects() == wanted, FIRST_WAIT + 5, "a receiver that is back has no tokens")
    need(waited > FIRST_WAIT - 5, f"a late stream is tried again after {waited:.0f} seconds")
    return waited


def paused(server):
    """What a paused stream kept comes once it is enabled."""
    endpoint = Endpoint((202, b""))
    stream = make_stream(server, "client", endpoint.url())
    need(server.ask("POST", "/ssf/status", {"stream_id": stream, "status": "paused"})[0] == 200, "a stream isn't paused")
    wanted = published(server, 20_001)
    time.sleep(2)
    need(wanted not in endpoint.subjects(), "a paused stream is pushed to")
    need(server.ask("POST", "/ssf/status", {"stream_id": stream, "status": "enabled"})[0] == 200, "a stream isn't enabled")
    until(lambda: wanted in endpoint.subjects(), 5, "a stream that is enabled again has nothing pushed")


def main():
    program = built_program()
    if not program:
        return
    with tempfile.TemporaryDirectory() as room:
        server = Server(program, room)
        names = with_clients(server)
        need(server.run("init", "tx", server.store, str(uuid.UUID(int=7))) == (0, ""), "a store isn't made")
        server.start()
        waited = away_for_a_while(server)
        paused(server)
        server.kill()
    with tempfile.TemporaryDirectory() as room:
        server = Server(program, room)
        names = with_clients(server)
        need(server.run("init", "tx", server.store, str(uuid.UUID(int=8))) == (0, ""), "a store isn't made")
        server.start()
        longest, killed, subjects = well_beside_late(server, names, int(sys.argv[2]) if sys.argv[2:] else PUBLICATIONS)
        need(longest <= 2, f"a token comes after {longest:.1f} seconds beside late receivers")
        server.kill()
    print(f"{len(subjects)} publications to {WELL} receivers beside three that were late: {longest * 1000:.0f} ms at most, {killed} kills; one that was away has its tokens after {waited:.0f} seconds")


if __name__ == "__main__":
    main()
