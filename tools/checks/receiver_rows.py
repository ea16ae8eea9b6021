"""Single answers of the receiver's server and endings of `fetch`, byte for byte or by their status: what `check_receiver.py` asks first."""
import http.server
import json
import os
import resource
import signal
import socket
import threading
import time
import uuid

from checks.served import TOP, free_port, is_free, need
from cases.sign_tokens import JOE, claims, header, opaque, signed

REVOKED = "https://schemas.openid.net/secevent/caep/event-type/session-revoked"


def token(jti, subject, **changes):
    return signed(header(), claims(jti=jti, sub_id=subject, **changes))


def push(receiver, text, bearer="push"):
    """The status of a push, and the code and spot where it is refused (RFC 8935, sections 2.2 and 2.3)."""
    kind = {"content-type": "application/secevent+jwt"}
    status, fields, said = receiver.ask_as_text("POST", "/push", text, bearer, kind)
    if status == 202:
        need(said == b"", f"a push that is taken is answered {said!r}")
        return "202"
    need((status, fields.get("content-type"), fields.get("content-language")) == (400, "application/json", "en"), f"a push is answered {status} {fields}")
    said = json.loads(said)
    return f"{said['err']} {said['description']}"


def refusals(receiver, room):
    """How a receiver that can't begin ends."""
    other, tx = os.path.join(room, "other"), os.path.join(room, "tx")
    need(receiver.run("receive", receiver.settings, receiver.store) == (1, "signals: usage\n"), "words that are no command aren't told so")
    for count in ("0", "01", "x", "4611686018427387905"):
        need(receiver.run("receive", receiver.settings, receiver.store, count)[0] == 1, f"{count} is a number of watches")
        need(receiver.run("fetch", receiver.settings, receiver.store, count)[0] == 1, f"{count} is a number of rounds")
    need(receiver.run("init", "tx", tx, str(uuid.UUID(int=9))) == (0, ""), "a transmitter's store isn't made")
    for word in ("receive", "fetch"):
        ended = receiver.run(word, other, receiver.store, "1")
        need(ended == (3, "signals: input failed\n"), f"settings that aren't there: {ended}")
        receiver.write(other, {name: what for name, what in receiver.said.items() if name != "reader"})
        ended = receiver.run(word, other, receiver.store, "1")
        need(ended == (10, "signals: settings reader\n"), f"settings without the reader: {ended}")
        receiver.write(other, {**receiver.said, "issuers": [*receiver.said["issuers"], {"iss": "https://third.example", "keys": [{"k": "short"}]}]})
        ended, place = receiver.run(word, other, receiver.store, "1"), len(receiver.said["issuers"])
        need(ended == (10, f"signals: settings issuers[{place}].keys[0].k\n"), f"settings with a wrong key: {ended}")
        os.remove(other)
        ended = receiver.run(word, receiver.settings, os.path.join(room, "nowhere", "rx"), "1")
        need(ended == (6, "signals: no store\n"), f"a store in a folder that isn't there: {ended}")
        missing = os.path.join(room, "mistyped")
        ended = receiver.run(word, receiver.settings, missing, "1")
        need(ended == (6, "signals: no store\n"), f"a store that isn't there: {ended}")
        need(not any(os.path.exists(f"{missing}.{file}") for file in "ab"), f"{word} makes a store")
        need(is_free(receiver.port), f"the place is not free after {word} found no store")
        ended = receiver.run(word, receiver.settings, tx, "1")
        need(ended == (6, "signals: damaged a 6\n"), f"a transmitter's store: {ended}")


def taken(receiver, room):
    """A second receiver at the place of one that runs, where no store is, and two over its store at another place."""
    missing, elsewhere, port = os.path.join(room, "mistyped"), os.path.join(room, "elsewhere.json"), free_port()
    begun = time.monotonic()
    ended = receiver.run("receive", receiver.settings, missing, "1")
    need(ended == (7, "signals: network failed\n"), f"a place that is taken: {ended}")
    need(time.monotonic() - begun >= 10, "a place that is taken isn't asked for again for ten seconds")
    need(not any(os.path.exists(f"{missing}.{file}") for file in "ab"), "a store is made where the place is taken")
    receiver.write(elsewhere, {**receiver.said, "listen": f"127.0.0.1:{port}"})
    for word in ("receive", "fetch"):
        ended = receiver.run(word, elsewhere, receiver.store, "1")
        need(ended == (5, "signals: store failed\n"), f"a store that is in use: {ended}")
        need(is_free(port), f"the place is not free after {word} found its store in use")


def routes(receiver):
    """What is asked of no route, by no bearer, and in no right way, in this order (RFC 9110, section 15.5; RFC 6750, section 3)."""
    asks = [
        ("GET", "/nowhere", None, None, 404, None),
        ("PUT", "/push", "{}", None, 405, ("allow", "POST")),
        ("POST", "/sessions", "{}", None, 405, ("allow", "GET")),
        ("GET", "/sessions/check", None, None, 405, ("allow", "POST")),
        ("POST", "/metrics", "{}", None, 405, ("allow", "GET")),
        ("GET", "/metrics", None, None, 401, ("www-authenticate", "Bearer")),
        ("GET", "/metrics", None, "push", 401, ("www-authenticate", "Bearer")),
        ("GET", "/sessions?from=x", None, None, 401, ("www-authenticate", "Bearer")),
        ("GET", "/sessions?from=x", None, "push", 401, ("www-authenticate", "Bearer")),
        ("POST", "/sessions/check", "[]", "push", 401, ("www-authenticate", "Bearer")),
    ]
    for method, path, body, bearer, status, field in asks:
        got, fields, said = receiver.ask_as_text(method, path, body, bearer)
        need((got, said) == (status, b""), f"{method} {path} is answered {got} {said!r}")
        need(field is None or fields.get(field[0]) == field[1], f"{method} {path} is answered with {fields}")
    bad = [
        ("GET", "/sessions?from=x", None, "from"),
        ("GET", "/sessions?from=", None, "from"),
        ("GET", "/sessions?from=01", None, "from"),
        ("GET", "/sessions?from=4611686018427387905", None, "from"),
        ("GET", "/sessions?from=x&from=0", None, "from"),
        ("POST", "/sessions/check", "[]", "body"),
        ("POST", "/sessions/check", "{", "body"),
        ("POST", "/sessions/check", "{}", "subject"),
        ("POST", "/sessions/check", '{"format":"opaque","id":"s-77","x":1}', "subject"),
    ]
    for method, path, body, place in bad:
        status, _, said = receiver.ask_as_text(method, path, body, "reader")
        wanted = b'{"description":"%s","err":"invalid_request"}' % place.encode()
        need((status, said) == (400, wanted), f"{method} {path} {body} is answered {status} {said!r}")
    for path in ("/sessions", "/sessions?from=0", "/sessions?from=4611686018427387904", "/sessions?from=0&from=x"):
        status, _, said = receiver.ask_as_text("GET", path, None, "reader")
        need((status, said) == (200, b"[]"), f"{path} over an empty table is answered {status} {said!r}")


def judged(receiver):
    """Pushes that are refused, each at its check."""
    good = token("row-1", opaque("s-1"))
    asks = [
        (JOE, "push", "invalid_request typ"),
        (good, None, "authentication_failed bearer"),
        (good, "nobody", "authentication_failed bearer"),
        (good, "reader", "authentication_failed bearer"),
        (good, "other", "access_denied iss"),
        (signed({"alg": "none", "typ": "secevent+jwt"}, claims()).rsplit(".", 1)[0] + ".", "push", "invalid_request compact"),
        (good[:-2] + ("AA" if good[-2:] != "AA" else "BB"), "push", None),
        ("x" * 8193, "push", "invalid_request length"),
        ("", "push", "invalid_request compact"),
    ]
    for text, bearer, wanted in asks:
        got = push(receiver, text, bearer)
        need(got == wanted or (wanted is None and got.startswith("invalid_")), f"a push that should be refused {wanted} is answered {got}")
    need(receiver.ask("GET", "/sessions", bearer="reader") == (200, []), "a refused push has an effect")


def row_24(receiver):
    """A token, what is then known of its subject and of another, and the one row."""
    text = token("6ba7b810-9dad-11d1-80b4-00c04fd430c8.acme-1.1", opaque("s-77"))
    for _ in range(3):
        need(push(receiver, text) == "202", "a good token is refused")
    asks = [
        ("s-77", b'{"account":"unseen","allow":false,"device":"unseen","known":true,"reset":false,"session":"revoked"}'),
        ("s-78", b'{"account":"unseen","allow":true,"device":"unseen","known":false,"reset":false,"session":"unseen"}'),
    ]
    for name, wanted in asks:
        status, _, said = receiver.ask_as_text("POST", "/sessions/check", json.dumps(opaque(name)), "reader")
        need((status, said) == (200, wanted), f"a check of {name} is answered {status} {said!r}")
    row = (
        b'[{"account":"unseen","device":"unseen","opt":"unseen","reset":false,"session":"revoked","stale":false,'
        b'"subject":{"format":"opaque","id":"s-77"}}]'
    )
    status, _, said = receiver.ask_as_text("GET", "/sessions?from=0", None, "reader")
    need((status, said) == (200, row), f"the one row is {status} {said!r}")


def pyjwt(receiver):
    """Tokens of PyJWT, each with its answer."""
    with open(os.path.join(TOP, "tools", "cases", "pyjwt_tokens.txt"), encoding="utf-8") as file:
        lines = [line.rstrip("\n").split("\t") for line in file]
    for wanted, text in lines:
        got = push(receiver, text)
        need(got == wanted, f"a token of PyJWT that is {wanted} is answered {got}")
    need(receiver.ask("POST", "/sessions/check", {"format": "email", "email": "user@example.com"}, "reader")[1]["account"] == "disabled", "an account isn't disabled")


def pages(receiver):
    """More rows than a page has: 256 each, in order, none twice (the first two calls made three and one rows)."""
    before = len(receiver.ask("GET", "/sessions", bearer="reader")[1])
    for number in range(300):
        need(push(receiver, token(f"page-{number}", opaque(f"p-{number}"))) == "202", "a token is refused")
    first, second, third = (receiver.ask("GET", f"/sessions?from={at}", bearer="reader")[1] for at in (0, 256, 512))
    names = [row["subject"].get("id") for row in first + second][before:]
    need((len(first), third) == (256, []), f"pages have {len(first)}, {len(second)} and {len(third)} rows")
    need(names == [f"p-{number}" for number in range(300)], "pages have other rows")


def limits(receiver):
    """Bodies above the limit, and such as are coded (RFC 9110, sections 15.5.14 and 15.5.16)."""
    body = json.dumps(opaque("s-77"))
    need(receiver.ask_as_text("POST", "/sessions/check", body.ljust(65_536), "reader")[0] == 200, "a body of the limit isn't read")
    need(receiver.ask_as_text("POST", "/sessions/check", body.ljust(65_537), "reader")[0] == 413, "a body above the limit is read")
    need(receiver.ask_as_text("POST", "/sessions/check", body, "reader", {"content-encoding": "gzip"})[0] == 415, "a coded body is read")


def broken_clients(receiver):
    """Clients that end in the middle or send what is no request: the next one is served."""
    for begun in (b"", b"POST /push HTTP/1.1\r\n", b"POST /push HTTP/1.1\r\ncontent-length: 9\r\n\r\n{", b"\x16\x03\x01\x02\x00\x01"):
        with socket.create_connection(("127.0.0.1", receiver.port), 30) as link:
            link.sendall(begun)
        need(receiver.ask("GET", "/sessions", bearer="reader")[0] == 200, f"after {begun!r} nobody is served")


def full_disk(receiver):
    """A file that may not grow: a push is answered 503, and the server ends. Loaded again, it is there whole or not at all."""

    def limited():
        signal.signal(signal.SIGXFSZ, signal.SIG_IGN)
        size = os.path.getsize(f"{receiver.store}.a") + 4
        resource.setrlimit(resource.RLIMIT_FSIZE, (size, size))

    kind = {"content-type": "application/secevent+jwt"}
    texts = [token(f"full-{number}", opaque(f"f-{number}")) for number in range(2)]
    receiver.kill()
    receiver.start(limited)
    said = receiver.ask_as_text("POST", "/push", texts[0], "push", kind)[0]
    need(said == 503, f"over a full disk a push is answered {said}")
    ended = receiver.ended(2)
    need(ended == (5, "signals: store failed\n"), f"over a full disk the server ends with {ended}")
    receiver.start()
    need([push(receiver, text) for text in texts] == ["202", "202"], "after a full disk pushes are refused")
    need(receiver.ask("POST", "/sessions/check", opaque("f-1"), "reader")[1]["session"] == "revoked", "a push after a full disk has no effect")


class Peer:
    """A transmitter that answers polls as it is told, and keeps what it was asked."""

    def __init__(self, *answers):
        self.asked, self.port, left = [], free_port(), list(answers)
        asked = self.asked

        class Handler(http.server.BaseHTTPRequestHandler):
            def do_POST(self):
                body = self.rfile.read(int(self.headers["content-length"]))
                asked.append((self.path, self.headers["authorization"], self.headers["content-language"], json.loads(body)))
                status, text = left.pop(0)
                if status is None:
                    self.wfile.write(text)
                    return
                self.send_response(status)
                self.send_header("content-length", str(len(text)))
                self.end_headers()
                self.wfile.write(text)

            def log_message(self, *_):
                pass

        self.server = http.server.HTTPServer(("127.0.0.1", self.port), Handler)
        threading.Thread(target=self.server.serve_forever, daemon=True).start()

    def end(self):
        self.server.shutdown()
        self.server.server_close()


def sets(more=False, **tokens):
    return 200, json.dumps({"sets": tokens, "moreAvailable": more}).encode()


def fetched(receiver, room, rounds, *answers):
    """How `fetch` ends over a peer that answers so, and what the peer was asked."""
    peer, settings = Peer(*answers), os.path.join(room, "fetching.json")
    said = {**receiver.said, "poll": {"bearer": "poll-me", "iss": "https://idp.example", "url": f"http://127.0.0.1:{peer.port}/some/poll"}}
    receiver.write(settings, said)
    ended = receiver.run("fetch", settings, os.path.join(room, "fetching"), str(rounds))
    peer.end()
    for path, bearer, language, ask in peer.asked:
        need((path, bearer) == ("/some/poll", "Bearer poll-me"), f"a poll is asked of {path} by {bearer}")
        need(language == ("en" if ask["setErrs"] else None), f"a poll is asked in {language}: {ask}")
        need((ask["maxEvents"], ask["returnImmediately"]) == (32, True), f"a poll asks {ask}")
    return ended, [(ask["ack"], ask["setErrs"]) for _, _, _, ask in peer.asked]


def fetching(receiver, room):
    """Each way in which `fetch` ends, and what it acknowledges and reports (RFC 8936, sections 2.4 and 2.5)."""
    need(receiver.run("init", "rx", os.path.join(room, "fetching"), str(uuid.UUID(int=11))) == (0, ""), "a store isn't made")
    one, two, bad = token("t-1", opaque("a")), token("t-2", opaque("b")), token("t-3", opaque("c"), aud="x")
    error = {"t-3": {"description": "invalid_audience", "err": "invalid_audience"}}
    ended = fetched(receiver, room, 5, sets(**{"t-1": one, "t-3": bad}), sets(**{"t-2": two}), sets())
    need(ended[0] == (0, "rounds 3 accepted 2 seen 0 refused 1\n"), f"fetch ends {ended[0]}")
    need(ended[1] == [([], {}), (["t-1"], error), (["t-2"], {})], f"fetch says {ended[1]}")
    ended = fetched(receiver, room, 1, sets(**{"t-1": one, "other": two}))
    need(ended == ((0, "rounds 1 accepted 0 seen 1 refused 1\n"), [([], {})]), f"a token under another name: {ended}")
    for answer, place in [
        ((200, b"[]"), "body"),
        ((200, b'{"moreAvailable":true}'), "sets"),
        ((200, b'{"sets":{"a":1}}'), "sets"),
        ((200, b'{"sets":{},"moreAvailable":1}'), "moreAvailable"),
        ((204, b""), "status"),
        ((500, b"{}"), "status"),
        ((None, b"nonsense\r\n\r\n"), "http"),
        ((None, b""), "http"),
    ]:
        ended = fetched(receiver, room, 2, sets(**{"t-1": one}), answer)
        need(ended == ((13, f"signals: peer {place}\n"), [([], {}), (["t-1"], {})]), f"a peer that is wrong at {place}: {ended}")
    receiver.write(os.path.join(room, "fetching.json"), {**receiver.said, "poll": {**receiver.said["poll"], "url": f"http://127.0.0.1:{free_port()}/"}})
    ended = receiver.run("fetch", os.path.join(room, "fetching.json"), os.path.join(room, "fetching"), "1")
    need(ended == (7, "signals: network failed\n"), f"a peer that isn't there: {ended}")
    receiver.write(os.path.join(room, "fetching.json"), {name: what for name, what in receiver.said.items() if name != "poll"})
    ended = receiver.run("fetch", os.path.join(room, "fetching.json"), os.path.join(room, "fetching"), "1")
    need(ended == (10, "signals: settings poll\n"), f"settings without a peer: {ended}")


def rows(receiver, room):
    """All of these, over a receiver that isn't started yet."""
    need(receiver.run("init", "rx", receiver.store, str(uuid.UUID(int=6))) == (0, ""), "a store isn't made")
    refusals(receiver, room)
    fetching(receiver, room)
    receiver.start()
    taken(receiver, room)
    routes(receiver)
    judged(receiver)
    row_24(receiver)
    pyjwt(receiver)
    pages(receiver)
    limits(receiver)
    broken_clients(receiver)
    full_disk(receiver)
    receiver.kill()
