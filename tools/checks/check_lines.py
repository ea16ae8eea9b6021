#!/usr/bin/env -S python3 -B
"""The lines on standard error of both servers and of `fetch`, over real sockets (docs/FORMATS.md, lines on standard error).

    python3 -B tools/checks/check_lines.py [PROGRAM]

A transmitter pushes to a receiver whose key differs, to an endpoint where nobody listens and to one that is busy; a poll reports
a token; a fetch under a wrong key refuses what it gets, and one with a wrong bearer gets no page. Each shows its line, with the
time of this clock, and so does the endpoint that is busy no more. Of the endpoint where nobody listens one line a minute is told, with how many were left out. No bearer stands
in any line, nor does a control character that a client sent. It takes more than a minute.

Without a built program, or where no socket can be opened, it says that it is passed over.
"""
import calendar
import os
import re
import subprocess
import sys
import tempfile
import time
import uuid

sys.dont_write_bytecode = True
sys.path.insert(0, os.path.join(os.path.dirname(os.path.abspath(__file__)), ".."))
from checks.check_pushes import Endpoint, deliver, published, push_stream, until
from checks.check_receiver import Receiver
from checks.check_server import Server
from checks.served import built_program, free_port, need

OTHER_KEY = "b3RoZXItb3RoZXItb3RoZXItb3RoZXItb3RoZXItMTI"
# What is told of members that `main` puts into the settings, in the order in which they stand.
STRAYS_OF_SERVER = ["settings unknown tls_gatway", "settings twice clients", "settings unknown clients[0].ad", "settings twice clients[0].aud"]
STRAYS_OF_RECEIVER = ["settings twice listen", "settings unknown issuers[0].keys[0].kd"]


def told(lines, began):
    """The lines without their times, each of which lies between then and now."""
    texts = []
    for line in lines:
        moment, _, text = line.partition(" ")
        need(re.fullmatch(r"\d{4}-\d\d-\d\dT\d\d:\d\d:\d\dZ", moment), f"a line begins with no time: {line!r}")
        seconds = calendar.timegm(time.strptime(moment, "%Y-%m-%dT%H:%M:%SZ"))
        need(int(began) <= seconds <= time.time() + 1, f"a line has another time: {line!r}")
        texts.append(text)
    return texts


def comes(server, began, line):
    """A line comes, by its pattern, within the time that a link may last."""
    deadline = time.time() + 20
    while not any(re.fullmatch(line, text) for text in told(server.lines(), began)):
        need(time.time() < deadline, f"no line '{line}' comes: {server.lines()}")
        time.sleep(0.05)


def fetch(receiver):
    """What a fetch prints, and its lines."""
    ran = subprocess.run([receiver.program, "fetch", receiver.settings, receiver.store, "3"], capture_output=True, timeout=60, check=False)
    return ran.stdout.decode(), ran.stderr.decode("ascii").splitlines()


def begins(server, began, streams, owed, records):
    """The line with which a transmitter begins to serve."""
    place = rf"https://idp\.example on 127\.0\.0\.1:{server.port}"
    comes(server, began, f"serving {place}: {streams} streams, {owed} owed, {records} records")


def fetches(program, room, server, polled, began):
    """A fetch names each token that it refuses, and the status of an answer that has no page."""
    fetcher = Receiver(program, room, "fetcher")
    need(fetcher.run("init", "rx", fetcher.store, str(uuid.uuid4())) == (0, ""), "a store isn't made")
    poll = {"bearer": server.client, "iss": "https://idp.example", "url": f"http://127.0.0.1:{server.port}/poll/{polled}"}
    issuers = [{"iss": "https://idp.example", "keys": [{"k": OTHER_KEY, "kid": "k1"}]}]
    fetcher.write(fetcher.settings, {**fetcher.said, "poll": poll, "issuers": issuers})
    out, lines = fetch(fetcher)
    need(out == "rounds 2 accepted 0 seen 0 refused 1\n", f"fetch says {out!r}")
    need(len(lines) == 1 and re.fullmatch(rf"refused [0-9a-f-]{{36}}\.{polled}\.1 invalid_key", told(lines, began)[0]), f"fetch tells {lines}")
    comes(server, began, rf"refused [0-9a-f-]{{36}}\.{polled}\.1 invalid_key")
    fetcher.write(fetcher.settings, {**fetcher.said, "poll": {**poll, "bearer": "change-me-nobody"}})
    out, lines = fetch(fetcher)
    need(out == "signals: peer status\n" and told(lines, began) == ["peer status 401"], f"fetch says {out!r} and tells {lines}")


def pushes(server, receiver, began):
    """What receivers refuse and keep is told on both sides, and a stream whose endpoint fails by one line a minute."""
    url = f"http://127.0.0.1:{receiver.port}/push"
    delivery = {"method": "urn:ietf:rfc:8935", "endpoint_url": url, "authorization_header": "Bearer change-me-push"}
    status, made = server.ask("POST", "/ssf/stream", {"delivery": delivery})
    need(status == 201, f"a push stream isn't made: {status} {made}")
    endpoint = Endpoint((503, b""))
    nobody, busy = push_stream(server, f"http://127.0.0.1:{free_port()}/events"), push_stream(server, endpoint.url())
    first = time.time()
    for number in range(20):
        published(server, number)
    comes(server, began, rf"refused {made['stream_id']}\.1 invalid_key")
    comes(server, began, rf"push {nobody} late \d+ of \d+ dial")
    comes(server, began, rf"push {busy} late \d+ of \d+ kept")
    endpoint.answer = (202, b"")
    comes(receiver, began, r"refused push of https://idp\.example invalid_key \w+")
    failed = [text for text in told(server.lines(), began) if text.startswith(f"push {nobody} ")]
    need(time.time() - first > 55 or len(failed) == 1, f"one stream has {failed} within a minute")
    return nobody, busy, first


def strangers(server, receiver, began):
    """A link that ends by a fault is told by its cause, and what a client sends never reaches the terminal."""
    status, _, _ = receiver.ask_as_text("POST", "/push", "no token", bearer="nobody")
    need(status == 400, f"a stranger's push is answered {status}")
    comes(receiver, began, r"refused push of - authentication_failed \w+")
    ask = {"setErrs": {"a\u001b[31m\u00e9": {"err": "invalid_key\r\nended done"}}, "maxEvents": 0, "returnImmediately": True}
    server.ask("POST", f"/poll/{server.polled}", ask)
    comes(server, began, r"refused a\?\[31m\?\? invalid_key\?\?ended done")


def with_strays(served, before, after):
    """Puts members before one of the settings' text that nothing is taken of, so that the server has to serve as it did."""
    with open(served.settings, encoding="utf-8") as file:
        text = file.read()
    need(text.count(before) >= 1, f"the settings have no {before}")
    with open(served.settings, "w", encoding="utf-8") as file:
        file.write(text.replace(before, after + before, 1))


def strays(server, receiver, began):
    """Members of settings that are unknown or stand twice are named as they are read, and no value of them is."""
    for served, kind in (server, "tx"), (receiver, "rx"):
        status, said = served.run(served.word, served.settings, os.path.join(server.room, "none"), "1")
        need((status, said) == (6, "signals: no store\n"), f"settings with strays are answered {status} {said!r}")
    names = [f"x{number}\u001b\u00e9" for number in range(20)]
    server.write(os.path.join(server.room, "many"), {**dict.fromkeys(names, "change-me-value"), "issuer": ""})
    ran = subprocess.run([server.program, "courier", os.path.join(server.room, "many"), server.store], input=b"", capture_output=True, timeout=60, check=False)
    need(ran.stdout == b"signals: settings issuer\n", f"settings that lack a value are answered {ran.stdout}")
    lines = told(ran.stderr.decode("ascii").splitlines(), began)
    need(lines == [f"settings unknown x{number}???" for number in range(16)] + ["settings more 4"], f"of many strays are told {lines}")


def main():
    program = built_program()
    if not program:
        return
    with tempfile.TemporaryDirectory() as room:
        began = time.time()
        server, receiver = Server(program, room), Receiver(program, room)
        receiver.said["issuers"][0]["keys"][0]["k"] = OTHER_KEY
        receiver.write(receiver.settings, receiver.said)
        with_strays(server, '"clients"', '"tls_gatway": "change-me", "clients": [], ')
        with_strays(server, '"aud"', '"ad": {"k": 1, "k": 2}, "aud": [], ')
        with_strays(receiver, '"audience"', '"listen": "change-me", ')
        with_strays(receiver, '"kid"', '"kd": "change-me", ')
        strays(server, receiver, began)
        for served, kind in (server, "tx"), (receiver, "rx"):
            need(served.run("init", kind, served.store, str(uuid.uuid4())) == (0, ""), "a store isn't made")
            served.start()
        need(told(server.lines(), began)[:4] == STRAYS_OF_SERVER, f"the transmitter begins with {server.lines()}")
        need(told(receiver.lines(), began)[:2] == STRAYS_OF_RECEIVER, f"the receiver begins with {receiver.lines()}")
        begins(server, began, 0, 0, "0")
        comes(receiver, began, rf"receiving on 127\.0\.0\.1:{receiver.port}: 2 issuers, 0 tokens")
        server.polled = server.ask("POST", "/ssf/stream", {})[1]["stream_id"]
        published(server, 90)
        fetches(program, room, server, server.polled, began)
        nobody, busy, first = pushes(server, receiver, began)
        strangers(server, receiver, began)
        time.sleep(max(0.0, first + 61 - time.time()))
        deliver(server, nobody)
        comes(server, began, rf"push {nobody} late \d+ of \d+ dial \(and \d+ more\)")
        comes(server, began, rf"push {busy} good \d+")
        streams = server.ask("GET", "/operator/streams", bearer="operator")[1]["streams"]
        owed = sum(stream["owed"] for stream in streams)
        need(owed > len(streams) > 1, f"{len(streams)} streams owe {owed}")
        server.kill()
        server.start()
        begins(server, began, len(streams), owed, r"[1-9]\d+")
        server.kill()
        receiver.kill()
        lines = server.lines() + receiver.lines()
        need(not any("change-me" in line for line in lines), "a line has a bearer")
    print(f"{len(lines)} lines, each with its time: what was refused, kept and failed is told, and one line a minute of what fails on")


if __name__ == "__main__":
    main()
