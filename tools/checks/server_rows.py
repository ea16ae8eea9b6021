"""Single answers of the transmitter's server, byte for byte or by their status: what `check_server.py` asks before its story."""
import http.client
import json
import os
import resource
import signal
import socket
import struct
import time
import uuid

from checks.served import need

SESSION_REVOKED = "https://schemas.openid.net/secevent/caep/event-type/session-revoked"
PUSH = "urn:ietf:rfc:8935"
STORE_ID = uuid.UUID("6ba7b810-9dad-11d1-80b4-00c04fd430c8")
# What a store that was just made has in its first file: the gate, the magic, the version, the kind, a generation, the id, and an
# empty journal.
NEW_STORE = bytes.fromhex("5a5349474a0154" + "00" * 8 + STORE_ID.hex + "00000000" + "00")


def asked(server, method, path, body=None, headers=None, bearer=None):
    """The status, the fields and the bytes of an answer."""
    link = http.client.HTTPConnection("127.0.0.1", server.port, timeout=60)
    fields = {"authorization": f"Bearer {bearer or server.client}", "content-type": "application/json", **(headers or {})}
    link.request(method, path, body, fields)
    response = link.getresponse()
    text = response.read()
    link.close()
    return response.status, text


def as_bytes(server, method, path, body):
    """All bytes of the answer to the first request of a link."""
    head = f"{method} {path} HTTP/1.1\r\nhost: localhost\r\nauthorization: Bearer {server.client}\r\ncontent-length: {len(body)}\r\n\r\n"
    with socket.create_connection(("127.0.0.1", server.port), 30) as link:
        link.sendall(head.encode() + body)
        link.shutdown(socket.SHUT_WR)
        got = b""
        while more := link.recv(1 << 16):
            got += more
    return got


def publish(server, number):
    body = {
        "publish_id": str(uuid.UUID(int=number)),
        "sub_id": {"format": "opaque", "id": f"row-{number}"},
        "events": {SESSION_REVOKED: {}},
    }
    return server.ask("POST", "/operator/publish", body, bearer="operator")


def new_store(server, room):
    """A store as `init` makes it, byte for byte, and that it isn't made twice."""
    store = os.path.join(room, "new")
    need(server.run("init", "tx", store, str(STORE_ID)) == (0, ""), "a store isn't made")
    with open(f"{store}.a", "rb") as file:
        need(file.read() == NEW_STORE, "a new store has other bytes")
    ended = server.run("init", "tx", store, str(uuid.UUID(int=8)))
    need(ended == (12, f"signals: not empty {len(NEW_STORE)}\n"), f"a store is made twice: {ended}")
    with open(f"{store}.a", "r+b") as file:
        file.seek(35)
        file.write(b"\x5a")
    ended = server.run("serve", server.settings, store, "1")
    need(ended == (6, "signals: damaged a 35\n"), f"an open end with no record behind it: {ended}")


def streams(server, other):
    """Streams of two clients (OpenID Shared Signals Framework 1.0, section 8.1.1)."""
    status, made = server.ask("POST", "/ssf/stream", {"events_requested": [SESSION_REVOKED]})
    need(status == 201 and made["stream_id"] == "acme-1", f"the first stream is {status} {made}")
    need(made["events_delivered"] == [SESSION_REVOKED], "another type is delivered")
    need(made["delivery"]["endpoint_url"] == f"{server.said['base']}/poll/acme-1", "a stream is polled elsewhere")
    status, text = asked(server, "POST", "/ssf/stream", json.dumps({"delivery": {"method": PUSH}}))
    need((status, json.loads(text)["description"]) == (400, "endpoint_url"), f"a push to nowhere is {status} {text}")
    need(asked(server, "GET", "/ssf/nothing")[0] == 404, "an unknown path isn't 404")
    need(server.ask("GET", "/ssf/stream", bearer=None)[0] == 401, "no bearer isn't 401")
    status, theirs = server.ask("POST", "/ssf/stream", {}, bearer=other)
    need(status == 201 and theirs["stream_id"] == "zeta-1", "the other client's stream isn't made")
    need(server.ask("GET", "/ssf/stream?stream_id=acme-1", bearer=other)[0] == 404, "a client reads another's stream")
    return made["stream_id"], theirs["stream_id"]


def owed_by_both(server, other):
    """The identifiers of the tokens that either client's stream owes."""
    asks = ("/poll/acme-1", "client"), ("/poll/zeta-1", other)
    return [sorted(server.ask("POST", path, {}, bearer)[1]["sets"]) for path, bearer in asks]


def settling(server, other):
    """A poll that acknowledges an own token and another's (RFC 8936, section 2.4)."""
    for number in (901, 902):
        need(publish(server, number)[0] == 200, "a publication isn't taken")
    owed = owed_by_both(server, other)
    need([len(names) for names in owed] == [2, 2], f"each stream owes {owed}")
    body = json.dumps({"ack": [owed[0][0], owed[1][0]], "maxEvents": 0}).encode()
    wanted = b'HTTP/1.1 200 OK\r\ncontent-type: application/json\r\ncache-control: no-store\r\ncontent-length: 32\r\n\r\n{"moreAvailable":true,"sets":{}}'
    got = as_bytes(server, "POST", "/poll/acme-1", body)
    need(got == wanted, f"a poll without tokens is answered {got!r}")
    left = owed_by_both(server, other)
    need(left == [owed[0][1:], owed[1]], f"after the acknowledgement each stream owes {left}")


def limits(server):
    """Streams a client may have, verifications, and bodies."""
    made = [server.ask("POST", "/ssf/stream", {})[0] for _ in range(16)]
    need(made == [201] * 15 + [409], f"sixteen more streams are answered {made}")
    for number in range(2, 17):
        need(server.ask("DELETE", f"/ssf/stream?stream_id=acme-{number}")[0] == 204, "a stream isn't deleted")
    verify = {"stream_id": "acme-1", "state": "s"}
    asks = [server.ask("POST", "/ssf/verification", verify)[0] for _ in range(2)]
    time.sleep(server.said["min_verification_interval"] + 1)
    asks.append(server.ask("POST", "/ssf/verification", verify)[0])
    need(asks == [204, 429, 204], f"verifications at once, at once and after the interval are answered {asks}")
    disable = {"stream_id": "acme-1", "status": "disabled"}
    need(server.ask("POST", "/ssf/status", disable)[0] == 200, "a stream isn't disabled")
    need(server.ask("POST", "/ssf/verification", verify)[0] == 409, "a disabled stream is verified")
    need(server.ask("POST", "/ssf/status", {**disable, "status": "enabled"})[0] == 200, "a stream isn't enabled")
    body = b'{"maxEvents":0}'
    need(asked(server, "POST", "/poll/acme-1", body.ljust(65_536))[0] == 200, "a body of the limit isn't read")
    need(asked(server, "POST", "/poll/acme-1", body.ljust(65_537))[0] == 413, "a body above the limit is read")
    need(asked(server, "POST", "/poll/acme-1", body, {"content-encoding": "gzip"})[0] == 415, "a coded body is read")


# The lines of the metrics that don't tell of time.
METRICS = '''# HELP signals_streams Streams that stand, by status.
# TYPE signals_streams gauge
signals_streams{status="enabled"} 2
signals_streams{status="paused"} 0
signals_streams{status="disabled"} 0
# HELP signals_publications_total Publications that stand.
# TYPE signals_publications_total counter
signals_publications_total 2
# HELP signals_owed_tokens Tokens that a stream owes.
# TYPE signals_owed_tokens gauge
signals_owed_tokens{stream="acme-1"} 0
signals_owed_tokens{stream="zeta-1"} 2
# HELP signals_oldest_owed_timestamp_seconds When the first token that a stream owes was made, in seconds since 1970.
# TYPE signals_oldest_owed_timestamp_seconds gauge
# HELP signals_made_tokens_total Tokens that were made for a stream.
# TYPE signals_made_tokens_total counter
signals_made_tokens_total{stream="acme-1"} 4
signals_made_tokens_total{stream="zeta-1"} 2
'''


def page_of(server, query=""):
    """A page of how streams stand, without when the first owed token was made, which was just now."""
    status, page = server.ask("GET", "/operator/streams" + query, bearer="operator")
    need(status == 200, f"a page of streams is answered {status}")
    for stream in page["streams"]:
        need(("oldest" in stream) == (stream["owed"] > 0), f"since when is told wrongly: {stream}")
        need(abs(stream.pop("oldest", time.time()) - time.time()) < 600, f"a token is owed since another time: {stream}")
    return page


def overseen(server, other):
    """What the operator reads of all streams, and that it deletes one whose client was taken out of the settings."""
    ours = {"made": 4, "owed": 0, "status": "enabled", "stream_id": "acme-1"}
    theirs = {"made": 2, "owed": 2, "status": "enabled", "stream_id": "zeta-1"}
    pages = [page_of(server, query) for query in ("", "?from=1", "?from=2&x=y")]
    need(pages == [{"next": 2, "streams": found} for found in ([ours, theirs], [theirs], [])], f"streams stand like this: {pages}")
    status, said = server.ask("GET", "/operator/streams?from=01", bearer="operator")
    need((status, said["description"]) == (400, "from"), f"a place that is none is answered {status} {said}")
    status, fields, text = server.ask_as_text("GET", "/operator/metrics", bearer="operator")
    need((status, fields["content-type"]) == (200, "text/plain; version=0.0.4"), f"the metrics are answered {status} {fields}")
    oldest = "signals_oldest_owed_timestamp_seconds{"
    # what was counted stands behind the state's figures (check_metrics.py)
    lines = text.decode().partition("# HELP signals_uptime_seconds ")[0].splitlines(keepends=True)
    need("".join(line for line in lines if not line.startswith(oldest)) == METRICS, f"the metrics are {text.decode()}")
    since = [line.split(" ") for line in lines if line.startswith(oldest)]
    need([name for name, _ in since] == [oldest + 'stream="zeta-1"}'], f"a token is owed by {since}")
    need(abs(int(since[0][1]) - time.time()) < 600, f"a token is owed since {since}")
    paths = ("GET", "/operator/streams"), ("GET", "/operator/metrics"), ("DELETE", "/operator/stream?stream_id=zeta-1")
    said = [server.ask(method, path, bearer=bearer)[0] for method, path in paths for bearer in ("client", other, None)]
    need(said == [401] * 9, f"clients that ask as the operator are answered {said}")
    left_out(server, other, ours, theirs)


def left_out(server, other, ours, theirs):
    """A stream whose client is in the settings no more: it is listed, and the operator deletes it."""
    server.kill()
    server.said["clients"].pop()
    server.write(server.settings, server.said)
    server.start()
    need(server.ask("GET", "/ssf/stream", bearer=other)[0] == 401, "a client that was taken out is served")
    page = page_of(server)
    need(page == {"next": 2, "streams": [ours, theirs]}, f"without its client a stream stands like this: {page}")
    asks = [server.ask("DELETE", "/operator/stream?stream_id=" + name, bearer="operator")[0] for name in ("zeta-1", "zeta-1", "")]
    need(asks == [204, 404, 404], f"deletions of the operator are answered {asks}")
    need(server.ask("DELETE", "/operator/stream", bearer="operator")[0] == 400, "a deletion of nothing isn't refused")
    page = page_of(server)
    need(page == {"next": 1, "streams": [ours]}, f"after it streams stand like this: {page}")


def refused(server):
    """Tokens that a receiver reports as faulty (RFC 8936, section 2.4.4), as the operator reads them, over a restart too."""
    path = "/operator/refused"
    need(server.ask("GET", path, bearer="operator") == (200, {"next": 0, "refused": []}), "tokens were reported before one was")
    for number in (921, 922):
        need(publish(server, number)[0] == 200, "a publication isn't taken")
    owed = sorted(server.ask("POST", "/poll/acme-1", {})[1]["sets"])
    errors = {owed[0]: {"err": "invalid_audience", "description": "x"}, owed[1]: {"err": "c" * 65, "description": "x"}}
    need(server.ask("POST", "/poll/acme-1", {"maxEvents": 0, "setErrs": errors})[0] == 200, "a report isn't taken")
    for _ in range(2):
        status, page = server.ask("GET", path, bearer="operator")
        need(all(abs(token.pop("time") - time.time()) < 600 for token in page["refused"]), f"reported tokens have other times: {page}")
        told = [
            {"code": "invalid_audience", "number": 5, "publish_id": str(uuid.UUID(int=921)), "stream_id": "acme-1"},
            {"number": 6, "publish_id": str(uuid.UUID(int=922)), "stream_id": "acme-1"},
        ]
        need((status, page) == (200, {"next": 2, "refused": told}), f"reported tokens are {status} {page}")
        server.kill()
        server.start()
    status, page = server.ask("GET", path + "?from=1", bearer="operator")
    need((status, page["next"], len(page["refused"])) == (200, 2, 1), f"from the second on they are {status} {page}")
    need(server.ask("GET", path + "?from=2", bearer="operator") == (200, {"next": 2, "refused": []}), "behind the last one stands another")
    need([server.ask("GET", path, bearer=bearer)[0] for bearer in ("client", None)] == [401, 401], "a client reads what was reported")


def broken_clients(server):
    """Clients that end in the middle, reset their link, or send what is no request: the next one is served."""
    cut = b"POST /poll/acme-1 HTTP/1.1\r\ncontent-length: 9\r\n\r\n{"
    for begun in (b"", cut[:20], cut, b"\x16\x03\x01\x02\x00\x01", b"\r\n" * 40):
        for is_reset in (False, True):
            link = socket.create_connection(("127.0.0.1", server.port), 30)
            link.sendall(begun)
            if is_reset:
                link.setsockopt(socket.SOL_SOCKET, socket.SO_LINGER, struct.pack("ii", 1, 0))
            link.close()
            need(server.ask("GET", "/ssf/stream?stream_id=acme-1")[0] == 200, f"after {begun!r} nobody is served")


def slow_client(server):
    """A client that says nothing holds the server for no longer than the time limit of a read, 30 seconds."""
    with socket.create_connection(("127.0.0.1", server.port), 30) as link:
        link.sendall(b"POST /poll/acme-1 HTTP/1.1\r\n")
        begun = time.time()
        need(asked(server, "GET", "/ssf/stream?stream_id=acme-1")[0] == 200, "after a slow client nobody is served")
        need(time.time() - begun < 35, "a slow client holds the server")


def full_disk(server):
    """A file that may not grow: the publication is answered 503, and the server ends. Loaded again, it is there whole or not at all."""

    def limited():
        signal.signal(signal.SIGXFSZ, signal.SIG_IGN)
        size = os.path.getsize(f"{server.store}.a") + 4
        resource.setrlimit(resource.RLIMIT_FSIZE, (size, size))

    server.kill()
    server.start(limited)
    said = publish(server, 903)[0]
    need(said == 503, f"over a full disk a publication is answered {said}")
    ended = server.ended(2)
    need(ended == (5, "signals: store failed\n"), f"over a full disk the server ends with {ended}")
    server.start()
    said = [publish(server, number) for number in (903, 904)]
    need([status for status, _ in said] == [200, 200], f"after a full disk publications are answered {said}")
    owed = server.ask("POST", "/poll/acme-1", {})[1]["sets"]
    made = {token["jti"] for _, answer in said for token in answer["tokens"] if token["stream_id"] == "acme-1"}
    need(len(made) == 2 and set(owed) == made, f"after a full disk acme-1 owes {set(owed)} of {made}")


def rows(server, room, is_long):
    """All of these, over a server that isn't started yet."""
    server.said["clients"].append({"name": "zeta", "bearer": "change-me-zeta", "aud": ["https://zeta.example"]})
    server.said["min_verification_interval"] = 3
    server.write(server.settings, server.said)
    new_store(server, room)
    need(server.run("init", "tx", server.store, str(uuid.UUID(int=6))) == (0, ""), "a store isn't made")
    server.start()
    streams(server, "change-me-zeta")
    settling(server, "change-me-zeta")
    limits(server)
    overseen(server, "change-me-zeta")
    refused(server)
    broken_clients(server)
    if is_long:
        slow_client(server)
    full_disk(server)
    server.kill()
