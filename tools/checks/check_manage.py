#!/usr/bin/env -S python3 -B
"""`manage` over real sockets: streams are brought to a declared file, at a transmitter of this program and at one of another hand.

The built program serves a transmitter by the settings of `examples/`, and `manage` is run against it: over no stream, over the
same again, over streams that are declared otherwise, and over links that are cut at any request, after which a whole run brings
about the same. Then a transmitter that stands here answers as other products do, with members in another order and more of them.

    python3 -B tools/checks/check_manage.py [PROGRAM]

Without a built program, or where no socket can be opened, it says that it is passed over.
"""
import http.server
import json
import os
import socket
import sys
import tempfile
import threading
import urllib.parse
import uuid

sys.dont_write_bytecode = True
sys.path.insert(0, os.path.join(os.path.dirname(os.path.abspath(__file__)), ".."))
from checks.check_server import Server
from checks.served import built_program, free_port, need
from crates.crate_list import TOP

POLL = "urn:ietf:rfc:8936"
PUSH = "urn:ietf:rfc:8935"
REVOKED = "https://schemas.openid.net/secevent/caep/event-type/session-revoked"
NOTHING = "created 0 replaced 0 deleted 0 status 0\n"


class Manager:
    """Settings of `manage` in a folder, and the program that is run by them."""

    def __init__(self, program, room, port, bearer):
        self.program, self.room, self.runs = program, room, 0
        self.said = {"bearer": bearer, "url": f"http://127.0.0.1:{port}", "streams": []}

    def run(self, streams, **other):
        """The status and the output of a run by these streams."""
        self.runs += 1
        path = os.path.join(self.room, f"manage-{self.runs}.json")
        Server.write(path, {**self.said, "streams": streams, **other})
        return Server.run(self, "manage", path)


class Cut:
    """A way to a port that is cut with no warning once so many connections were led through it."""

    def __init__(self, port, count):
        self.to, self.left = port, count
        self.door = socket.create_server(("127.0.0.1", 0))
        self.port = self.door.getsockname()[1]
        threading.Thread(target=self.lead, daemon=True).start()

    def lead(self):
        while True:
            link, _ = self.door.accept()
            if self.left == 0:
                link.close()
                continue
            self.left -= 1
            with link, socket.create_connection(("127.0.0.1", self.to)) as other:
                back = threading.Thread(target=pump, args=(other, link))
                back.start()
                pump(link, other)
                back.join()


def pump(giver, taker):
    """All that one end gives goes to the other."""
    try:
        while piece := giver.recv(65536):
            taker.sendall(piece)
        taker.shutdown(socket.SHUT_WR)
    except OSError:
        pass


class Other(http.server.BaseHTTPRequestHandler):
    """A transmitter as others write them: members in another order, more of them, and 200 where 201 might stand."""

    streams, asked, answer_with = {}, [], None

    def do(self):
        size = int(self.headers.get("content-length") or 0)
        body = json.loads(self.rfile.read(size)) if size else None
        url = urllib.parse.urlsplit(self.path)
        asked = dict(urllib.parse.parse_qsl(url.query))
        self.asked.append((self.command, url.path, self.headers.get("authorization")))
        if self.answer_with:
            self.tell(*self.answer_with)
            return
        name = asked.get("stream_id") or (body or {}).get("stream_id")
        if url.path == "/ssf/status":
            self.status(name, body)
        elif self.command == "DELETE":
            del self.streams[name]
            self.tell(204, None)
        elif self.command == "GET":
            self.tell(200, [self.told(it) for it in self.streams])
        else:
            if self.command == "POST":
                name = f"a stream/{len(self.asked)} & more"
                self.streams[name] = {"status": "enabled"}
            self.streams[name] = {**self.streams[name], "want": {key: it for key, it in body.items() if key != "stream_id"}}
            self.tell(200, self.told(name))

    do_GET = do_POST = do_PUT = do_DELETE = do

    def status(self, name, body):
        if body:
            self.streams[name]["status"] = body["status"]
        self.tell(200, {"x": 1, "stream_id": name, "reason": None, "status": self.streams[name]["status"]})

    def told(self, name):
        want = self.streams[name]["want"]
        return {
            "inactivity_timeout": 3600, "stream_id": name, "aud": ["https://app.example"], "events_delivered": [REVOKED],
            **{key: want[key] for key in sorted(want, reverse=True)}, "iss": "https://other.example", "events_supported": [REVOKED],
        }

    def tell(self, status, said):
        text = b"" if said is None else json.dumps(said, indent=2).encode()
        self.send_response(status)
        self.send_header("content-type", "application/json")
        if status != 204:
            self.send_header("content-length", str(len(text)))
        self.end_headers()
        self.wfile.write(text)

    def log_message(self, *_):
        pass


def stands(server):
    """The streams of the client, each by its description, with what of it is declared."""
    status, listed = server.ask("GET", "/ssf/stream")
    need(status == 200, "streams aren't listed")
    told = {}
    for it in listed:
        status, said = server.ask("GET", f"/ssf/status?stream_id={it['stream_id']}")
        need(status == 200, "a status isn't told")
        told[it.get("description")] = (it["delivery"]["method"], it.get("events_requested"), said["status"])
    need(len(told) == len(listed), "two streams have one description")
    return told


def rows(server, manager):
    """The rows that were worked out by hand."""
    declared = [{"description": "a", "status": "paused", "delivery": {"method": POLL}}]
    need(manager.run(declared) == (0, "create a\nstatus acme-1 paused\ncreated 1 replaced 0 deleted 0 status 1\n"), "a stream isn't created as declared")
    need(manager.run(declared) == (0, NOTHING), "a second run changes something")
    need(manager.run([]) == (0, "delete acme-1\ncreated 0 replaced 0 deleted 1 status 0\n"), "a stream that isn't declared stays")
    for description in ["a", "a", "b"]:
        need(server.ask("POST", "/ssf/stream", {"description": description})[0] == 201, "a stream isn't made")
    declared = [{"description": "a", "events_requested": [REVOKED]}]
    told = "delete acme-3\ndelete acme-4\nreplace acme-2\ncreated 0 replaced 1 deleted 2 status 0\n"
    need(manager.run(declared) == (0, told), "three streams aren't brought to one")
    need(manager.run(declared) == (0, NOTHING), "a second run after that changes something")
    need(stands(server) == {"a": (POLL, [REVOKED], "enabled")}, "the stream isn't as it was declared")


def cuts(server, manager):
    """A run that is cut at any request, and then a whole one: it comes to the same as one that is never cut."""
    first = [{"description": "a", "status": "disabled"}, {"description": "gone"}, {"description": "c", "events_requested": []}]
    then = [
        {"description": "b", "status": "paused"},
        {"description": "a", "events_requested": [REVOKED]},
        {"description": "c", "delivery": {"method": PUSH, "endpoint_url": "http://127.0.0.1:9/in", "authorization_header": "Bearer x"}},
    ]
    wanted = {"a": (POLL, [REVOKED], "enabled"), "b": (POLL, None, "paused"), "c": (PUSH, None, "enabled")}
    for count in range(30):
        need(manager.run(first)[0] == 0, "the first streams aren't brought about")
        cut = Cut(server.port, count)
        status, told = manager.run(then, url=f"http://127.0.0.1:{cut.port}")
        if status == 0:
            need(stands(server) == wanted and count > 5, "a run that wasn't cut comes to something else")
            return count
        need(told.endswith(("signals: network failed\n", "signals: peer http\n")) and status in (7, 13), f"a run that was cut ends with {status}: {told}")
        need(manager.run(then)[0] == 0 and stands(server) == wanted, f"after a cut at {count} it comes to something else")
        need(manager.run(then) == (0, NOTHING), "a further run changes something")
    raise SystemExit("no run of 30 connections came to its end")


def example(manager):
    """The streams of `examples/manage.json`."""
    need(manager.run([])[0] == 0, "streams that aren't declared stay")
    with open(os.path.join(TOP, "examples/manage.json"), encoding="utf-8") as file:
        said = json.load(file)
    status, told = manager.run(said["streams"], bearer=said["bearer"])
    need((status, told.splitlines()[-1]) == (0, "created 3 replaced 0 deleted 0 status 1"), f"the example ends with {status}: {told}")


def other_hand(program, room):
    """A transmitter of another hand, also one that fails."""
    server = http.server.ThreadingHTTPServer(("127.0.0.1", 0), Other)
    threading.Thread(target=server.serve_forever, daemon=True).start()
    manager = Manager(program, room, server.server_address[1], "change-me-other")
    declared = [{"description": "é \"x\"", "status": "disabled"}, {"description": "b", "events_requested": [REVOKED, "x:y"]}]
    status, told = manager.run(declared)
    need((status, told.splitlines()[-1]) == (0, "created 2 replaced 0 deleted 0 status 1"), f"another's transmitter ends it with {status}: {told}")
    need(manager.run(declared) == (0, NOTHING), "a second run changes something at another's transmitter")
    need({it["status"] for it in Other.streams.values()} == {"enabled", "disabled"}, "a status isn't set at another's transmitter")
    need({it[2] for it in Other.asked} == {"Bearer change-me-other"}, "the bearer isn't shown")
    status, told = manager.run(declared[1:])
    need(status == 0 and len(Other.streams) == 1, "a stream stays at another's transmitter")
    for answer, place in [((500, {}), "status"), ((200, {}), "body"), ((200, [{}]), "stream_id"), ((200, [7]), "body")]:
        Other.answer_with = answer
        need(manager.run(declared) == (13, f"signals: peer {place}\n"), f"{answer} isn't told as {place}")
    server.shutdown()


def faults(manager):
    """What is refused before anything is asked, and what can't be reached."""
    twice = [{"description": "a"}, {"description": "a"}]
    for streams, place in [
        ({}, "streams"), ([7], "streams[0]"), ([{}], "streams[0].description"), ([{"description": ""}], "streams[0].description"),
        ([{"description": "a"}, {"description": "b", "status": "off"}], "streams[1].status"), (twice, "streams"),
        ([{"description": "a", "delivery": {"method": "x"}}], "streams[0].delivery.method"),
        ([{"description": "a", "delivery": {"method": PUSH}}], "streams[0].delivery.endpoint_url"),
        ([{"description": str(it)} for it in range(17)], "streams"),
    ]:
        need(manager.run(streams) == (10, f"signals: settings {place}\n"), f"{place} isn't told")
    need(manager.run([], url="http://127.0.0.1/x") == (10, "signals: settings url\n"), "a url with a path is taken")
    need(manager.run([], url="https://127.0.0.1") == (10, "signals: settings url\n"), "a url of https is taken without a gateway")
    need(manager.run([], bearer="") == (10, "signals: settings bearer\n"), "an empty bearer is taken")
    need(manager.run([], url=f"http://127.0.0.1:{free_port()}") == (7, "signals: network failed\n"), "a dial that fails isn't told")


def main():
    program = built_program()
    if program is None:
        return
    with tempfile.TemporaryDirectory() as room:
        server = Server(program, room)
        need(server.run("init", "tx", server.store, str(uuid.UUID(int=7))) == (0, ""), "a store isn't made")
        server.start()
        manager = Manager(program, room, server.port, server.bearers["client"])
        rows(server, manager)
        faults(manager)
        count = cuts(server, manager)
        example(manager)
        other_hand(program, room)
        server.kill()
    print(f"manage: two rows, {count} cuts and a transmitter of another hand: each run comes to what is declared, and a second one changes nothing")


if __name__ == "__main__":
    main()
