#!/usr/bin/env -S python3 -B
"""The transmitter's server over real sockets and files, as a client, an operator and a push receiver see it.

The built program makes a store, serves it by the settings of examples/transmitter.json, and is killed with no warning (SIGKILL) at random moments between and during
requests. After each start whatever was answered stands: streams, their configurations, what is owed and what was
acknowledged. Expected values are by OpenID Shared Signals Framework 1.0, RFC 8935 and RFC 8936, and tokens are verified by
Python's own HMAC.

    python3 -B tools/checks/check_server.py [PROGRAM [ROUNDS]]

Before that it asks for single answers, each as worked out by hand (`server_rows.py`), among them those of a full disk and to
clients that break off. With 100 rounds and more a client that says nothing is tried too, which takes half a minute.

Without a built program, or where no socket can be opened, it says that it is passed over.
"""
import base64
import hashlib
import hmac
import http.client
import http.server
import json
import os
import random
import subprocess
import sys
import tempfile
import threading
import time
import uuid

sys.dont_write_bytecode = True
sys.path.insert(0, os.path.join(os.path.dirname(os.path.abspath(__file__)), ".."))
from checks import server_rows
from checks.served import Served, built_program, free_port, is_free, need
from checks.server_rows import PUSH, SESSION_REVOKED

KEY = b"0123456789abcdef0123456789abcdef"
POLL = "urn:ietf:rfc:8936"
# From so many kills on, what takes half a minute is tried too.
LONG = 100


def part(text):
    return base64.urlsafe_b64decode(text + "=" * (-len(text) % 4))


def claims_of(token):
    """The claims of a token whose signature is right (RFC 7515, section 5.2)."""
    head, payload, signature = token.split(".")
    made = hmac.new(KEY, f"{head}.{payload}".encode(), hashlib.sha256).digest()
    need(hmac.compare_digest(made, part(signature)), "a token's signature is wrong")
    need(json.loads(part(head))["typ"] == "secevent+jwt", "a token has another type")
    return json.loads(part(payload))


class Receiver:
    """A receiver of pushes on a port of its own, which keeps what it accepted."""

    def __init__(self):
        self.tokens, self.port = [], free_port()
        kept = self.tokens

        class Handler(http.server.BaseHTTPRequestHandler):
            def do_POST(self):
                body = self.rfile.read(int(self.headers["content-length"]))
                need(self.headers["content-type"] == "application/secevent+jwt", "a push has another type of body")
                need(self.headers["authorization"] == "Bearer push-secret", "a push has another authorization")
                kept.append(body.decode())
                self.send_response(202)
                self.send_header("content-length", "0")
                self.end_headers()

            def log_message(self, *_):
                pass

        self.server = http.server.ThreadingHTTPServer(("127.0.0.1", self.port), Handler)
        threading.Thread(target=self.server.serve_forever, daemon=True).start()

    def url(self):
        return f"http://127.0.0.1:{self.port}/events"


class Server(Served):
    """A transmitter."""

    def __init__(self, program, room):
        super().__init__(program, room, "serve", "transmitter.json", "tx")
        self.said["base"] = f"http://127.0.0.1:{self.port}"
        self.client, self.operator = self.said["clients"][0]["bearer"], self.said["operator"]
        self.bearers = {"client": self.client, "operator": self.operator}
        self.write(self.settings, self.said)


def publish(server, number):
    """Publishes an event about a session under a name of its own, and gives the name and the subject."""
    name, subject = str(uuid.UUID(int=number)), {"format": "opaque", "id": f"s-{number}"}
    body = {"publish_id": name, "sub_id": subject, "events": {SESSION_REVOKED: {}}}
    return body, subject


def poll_all(server, stream, ack=()):
    status, body = server.ask("POST", f"/poll/{stream}", {"ack": list(ack), "returnImmediately": True})
    need(status == 200, f"a poll is answered {status}")
    return body["sets"]


def story(server, receiver):
    """What a person tries first, each answer by the standard."""
    status, about = server.ask("GET", "/.well-known/ssf-configuration", bearer=None)
    need(status == 200 and about["issuer"] == "https://idp.example", "the metadata is wrong")
    need(server.ask("GET", "/ssf/stream", bearer="wrong")[0] == 401, "a wrong bearer is let in")
    need(server.ask("GET", "/nowhere")[0] == 404, "an unknown path isn't 404")
    need(server.ask("PUT", "/ssf/status")[0] == 405, "another method isn't 405")
    status, polled = server.ask("POST", "/ssf/stream", {"delivery": {"method": POLL}, "description": "first"})
    need(status == 201 and polled["delivery"]["method"] == POLL, "a poll stream isn't made")
    delivery = {"method": PUSH, "endpoint_url": receiver.url(), "authorization_header": "Bearer push-secret"}
    status, pushed = server.ask("POST", "/ssf/stream", {"delivery": delivery})
    need(status == 201 and pushed["delivery"]["endpoint_url"] == receiver.url(), "a push stream isn't made")
    stream = polled["stream_id"]
    status, read = server.ask("GET", f"/ssf/stream?stream_id={stream}")
    need(status == 200 and read == polled, "a stream isn't read as it was made")
    status, changed = server.ask("PATCH", "/ssf/stream", {"stream_id": stream, "description": "changed"})
    need(status == 200 and changed["description"] == "changed", "a stream isn't changed")
    subject = {"format": "opaque", "id": "s-0"}
    need(server.ask("POST", "/ssf/subjects/add", {"stream_id": stream, "subject": subject})[0] == 200, "a subject isn't added")
    status, state = server.ask("GET", f"/ssf/status?stream_id={stream}")
    need(status == 200 and state["status"] == "enabled", "a new stream isn't enabled")
    return stream, pushed["stream_id"]


def refusals(server, room):
    """How a server that can't begin ends."""
    other = os.path.join(room, "other")
    need(server.run("serve", server.settings, server.store) == (1, "signals: usage\n"), "words that are no command aren't told so")
    for watches in ("0", "01", "x", "4611686018427387905"):
        need(server.run("serve", server.settings, server.store, watches)[0] == 1, f"{watches} is a number of watches")
    ended = server.run("serve", other, server.store, "1")
    need(ended == (3, "signals: input failed\n"), f"settings that aren't there: {ended}")
    server.write(other, {name: what for name, what in server.said.items() if name != "operator"})
    ended = server.run("serve", other, server.store, "1")
    need(ended == (10, "signals: settings operator\n"), f"settings without the operator: {ended}")
    server.write(other, {**server.said, "clients": [{**server.said["clients"][0], "bearer": server.operator}]})
    ended = server.run("serve", other, server.store, "1")
    need(ended == (10, "signals: settings clients[0].bearer\n"), f"settings with a client by the operator's bearer: {ended}")
    ended = server.run("serve", server.settings, os.path.join(room, "nowhere", "tx"), "1")
    need(ended == (6, "signals: no store\n"), f"a store in a folder that isn't there: {ended}")
    missing = os.path.join(room, "mistyped")
    ended = server.run("serve", server.settings, missing, "1")
    need(ended == (6, "signals: no store\n"), f"a store that isn't there: {ended}")
    need(not any(os.path.exists(f"{missing}.{file}") for file in "ab"), "a store is made that wasn't there")
    need(is_free(server.port), "the place of a server that found no store isn't free after it")
    need(server.run("init", "rx", other, str(uuid.UUID(int=9))) == (0, ""), "a receiver's store isn't made")
    need(os.stat(other + ".a").st_mode & 0o777 == 0o600, "a new store isn't its owner's alone")
    ended = server.run("serve", server.settings, other, "1")
    need(ended == (6, "signals: damaged a 6\n"), f"a receiver's store: {ended}")
    need(is_free(server.port), "the place of a server over a damaged store isn't free after it")


def taken(server):
    """A second server at the place of one that runs, where no store is and over its store; and one over its store at another place.

    The first two wait for the place for ten seconds, and look for no store before they have it.
    """
    missing, elsewhere = os.path.join(server.room, "mistyped"), os.path.join(server.room, "elsewhere.json")
    words = [server.program, "serve", server.settings]
    begun, runs = time.monotonic(), []
    for store in (missing, server.store):
        runs.append(subprocess.Popen([*words, store, "1"], stdout=subprocess.PIPE, stderr=subprocess.PIPE))
    for run in runs:
        out, said = run.communicate(timeout=60)
        need((run.returncode, out) == (7, b"signals: network failed\n"), f"a place that is taken: {run.returncode} {out} {said}")
        need(said == b"signals: the place is in use\n", f"a place that is taken is said so: {said}")
    need(time.monotonic() - begun >= 10, "a place that is taken isn't asked for again for ten seconds")
    need(not any(os.path.exists(f"{missing}.{file}") for file in "ab"), "a store is made where the place is taken")
    port = free_port()
    server.write(elsewhere, {**server.said, "listen": f"127.0.0.1:{port}"})
    ran = subprocess.run([*words[:2], elsewhere, server.store, "1"], capture_output=True, timeout=60, check=False)
    need((ran.returncode, ran.stdout) == (5, b"signals: store failed\n"), f"a store that is in use: {ran}")
    need(b"the store is in use" in ran.stderr, f"a store that is in use isn't said: {ran.stderr}")
    need(is_free(port), "the place of a server whose store is in use isn't free after it")


def check_tokens(told, published):
    """Each token says an event that was published."""
    for token in told:
        claims = claims_of(token)
        need(claims["iss"] == "https://idp.example", "a token has another issuer")
        need(claims["sub_id"]["id"] in published, "a token is about nobody that was published")


def main():
    program = built_program()
    rounds = int(sys.argv[2]) if len(sys.argv) > 2 else 12
    if not program:
        return
    draw = random.Random(8417)
    with tempfile.TemporaryDirectory() as room:
        server_rows.rows(Server(program, room), room, rounds >= LONG)
    with tempfile.TemporaryDirectory() as room:
        server, receiver = Server(program, room), Receiver()
        need(server.run("init", "tx", server.store, str(uuid.UUID(int=7))) == (0, ""), "a store isn't made")
        code, said = server.run("init", "tx", server.store, str(uuid.UUID(int=8)))
        need(code == 12 and said.startswith("signals: not empty "), f"a store is made twice: {code} {said}")
        refusals(server, room)
        server.start()
        taken(server)
        stream, pushing = story(server, receiver)
        published, acknowledged, number = set(), set(), 0
        for _ in range(rounds):
            for _ in range(draw.randrange(1, 8)):
                body, subject = publish(server, number)
                status, answer = server.ask("POST", "/operator/publish", body, bearer="operator")
                need(status == 200 and len(answer["tokens"]) == 2, f"a publication is answered {status} {answer}")
                again = server.ask("POST", "/operator/publish", body, bearer="operator")
                need(again == (status, answer), "a repeated publication is answered in another way")
                published.add(subject["id"])
                number += 1
            owed = poll_all(server, stream)
            need(not acknowledged & set(owed), "an acknowledged token is owed again")
            check_tokens(owed.values(), published)
            some = draw.sample(sorted(owed), draw.randrange(len(owed) + 1))
            poll_all(server, stream, some)
            acknowledged |= set(some)
            # a last publication may be cut by the kill: it was taken whole or not at all, and is asked again
            body, subject = publish(server, number)
            number += 1
            published.add(subject["id"])
            late = threading.Thread(target=lambda body=body: quietly(server, body))
            late.start()
            time.sleep(draw.random() / 100)
            server.kill()
            late.join()
            server.start()
            status, answer = server.ask("POST", "/operator/publish", body, bearer="operator")
            need(status == 200 and len(answer["tokens"]) == 2, f"a publication after a kill is answered {status} {answer}")
            need(server.ask("GET", f"/ssf/stream?stream_id={stream}")[1]["description"] == "changed", "a change is lost")
        everything = {}
        while True:
            owed = poll_all(server, stream, everything)
            if not owed:
                break
            everything.update(owed)
        need(not acknowledged & set(everything), "an acknowledged token is owed at the end")
        need(len(acknowledged) + len(everything) == number, f"{len(acknowledged)} and {len(everything)} tokens of {number}")
        server.ask("POST", "/operator/deliver", {"stream_id": pushing}, bearer="operator")
        told = {claims_of(token)["jti"] for token in receiver.tokens}
        check_tokens(receiver.tokens, published)
        deadline = time.time() + 20
        while len(told) < number and time.time() < deadline:
            server.ask("POST", "/operator/deliver", {"stream_id": pushing}, bearer="operator")
            told = {claims_of(token)["jti"] for token in receiver.tokens}
        need(len(told) == number, f"{len(told)} of {number} tokens were pushed")
        status, _ = server.ask("DELETE", f"/ssf/stream?stream_id={stream}")
        need(status == 204, "a stream isn't deleted")
        server.kill()
    print(f"{rounds} kills, {number} publications, {len(told)} tokens pushed, {len(acknowledged) + len(everything)} polled: all as answered")


def quietly(server, body):
    try:
        server.ask("POST", "/operator/publish", body, bearer="operator")
    except OSError:
        pass
    except http.client.HTTPException:
        pass


if __name__ == "__main__":
    main()
