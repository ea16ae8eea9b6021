"""The stored run of `sig_visits`: what links are written and what a fetch sends, byte for byte, by RFC 8935, RFC 8936, RFC 9112
and docs/FORMATS.md alone.

Tokens are signed by Python's own hmac and pow (`sign_tokens.py`, `rsa_keys.py`), and nothing here comes from the program under test.
"""
import base64
import json

from cases.key_cases import BAD, GOOD
from cases.rs256_tokens import KEYS
from cases.rsa_keys import FIRST, OTHER, confused, public_key_pem, rs256, rs256_header
from cases.sign_tokens import JOE, claims, header, opaque, signed

SETTINGS = {
    "audience": "https://rp.example",
    "listen": "0.0.0.0:8419",
    "reader": "read-me",
    "issuers": [
        {"iss": iss, "keys": [{"k": "MDEyMzQ1Njc4OWFiY2RlZjAxMjM0NTY3ODlhYmNkZWY"}]}
        for iss in ("https://idp.example", "https://other.example")
    ],
    "principals": [{"bearer": "push-me", "iss": "https://idp.example"}, {"bearer": "push-other", "iss": "https://other.example"}],
    "poll": {"bearer": "poll-me", "iss": "https://idp.example", "url": "http://tx.example/poll/acme-1"},
}
PHRASES = {200: "OK", 202: "Accepted", 400: "Bad Request", 401: "Unauthorized", 404: "Not Found", 405: "Method Not Allowed", 413: "Payload Too Large"}
REVOKED = b'{"account":"unseen","allow":false,"device":"unseen","known":true,"reset":false,"session":"revoked"}'
UNSEEN = b'{"account":"unseen","allow":true,"device":"unseen","known":false,"reset":false,"session":"unseen"}'
ROW = b'[{"account":"unseen","device":"unseen","opt":"unseen","reset":false,"session":"revoked","stale":false,"subject":{"format":"opaque","id":"s-77"}}]'


def text(value):
    return json.dumps(value, separators=(",", ":"), sort_keys=True).encode()


def word(data):
    return base64.urlsafe_b64encode(data).rstrip(b"=").decode() or "-"


def token(jti, subject=opaque("s-77"), **changes):
    return signed(header(), claims(jti=jti, sub_id=subject, **changes)).encode()


def request(method, path, body=b"", bearer="read-me", *fields):
    head = [f"{method} {path} HTTP/1.1", "host: rp.example"]
    head += [f"authorization: Bearer {bearer}"] if bearer else []
    return "\r\n".join([*head, *fields, f"content-length: {len(body)}", "", ""]).encode() + body


def response(status, body=b"", *fields, close=False):
    head = [f"HTTP/1.1 {status} {PHRASES[status]}"]
    head += ["content-type: application/json"] if body else []
    head += [*fields, "cache-control: no-store", *(["connection: close"] if close else []), f"content-length: {len(body)}", "", ""]
    return "\r\n".join(head).encode() + body


def bad(place):
    return response(400, b'{"description":"%s","err":"invalid_request"}' % place.encode())


def unread(place):
    return response(400, b'{"description":"%s"}' % place.encode(), close=True)


def coded(code, spot):
    return response(400, b'{"description":"%s","err":"%s"}' % (spot.encode(), code.encode()), "content-language: en")


# Metrics: the name of each, what it is and its kind (docs/FORMATS.md); one with labels has no value where nothing was counted.
METRICS = [
    ("signals_tokens_total", "Tokens that were taken, each once.", "counter"),
    ("signals_session_rows", "Rows of the session table.", "gauge"),
    ("signals_uptime_seconds", "Seconds since the start.", "gauge"),
    ("signals_links_open", "Links that are open.", "gauge"),
    ("signals_door_faults_total", "Accepts that found no descriptor or memory free.", "counter"),
    ("signals_requests_total", "Requests, by method, route and status.", "counter"),
    ("signals_links_ended_total", "Links that ended, by cause.", "counter"),
    ("signals_pushes_total", "Pushes, by outcome.", "counter"),
    ("signals_reported_total", "Tokens that were reported as faulty, by code.", "counter"),
    ("signals_store_bytes", "Bytes of the store's file in force.", "gauge"),
]


def figures(rows, *tokens):
    # a new store has 36 bytes, and a record ten beside its token (docs/FORMATS.md, the files of a store, and records)
    values = {
        "signals_tokens_total": len(tokens), "signals_session_rows": rows, "signals_uptime_seconds": 0, "signals_links_open": 0, "signals_door_faults_total": 0,
        "signals_store_bytes": 36 + sum(10 + len(it) for it in tokens),
    }
    told = "".join(f"# HELP {name} {what}\n# TYPE {name} {kind}\n" + (f"{name} {values[name]}\n" if name in values else "") for name, what, kind in METRICS)
    return response(200, told.encode()).replace(b"application/json", b"text/plain; version=0.0.4")


def push(body, bearer="push-me", *fields):
    return request("POST", "/push", body, bearer, "content-type: application/secevent+jwt", *fields)


def check(name, *fields):
    return request("POST", "/sessions/check", text(opaque(name)), "read-me", *fields)


def link(comment, asked, end, *written):
    return comment, f"link {word(asked)}", f"{end} {word(b''.join(written))}"


def links():
    """Pushes, checks and rows, each link with how it ends and what is written to it."""
    good = token("6ba7b810-9dad-11d1-80b4-00c04fd430c8.acme-1.1")
    taken, seen = response(202), response(200, REVOKED)
    yield link("A link that gives nothing (RFC 9112, section 9.5).", b"", "end")
    yield link("The JWT of RFC 7515, appendix A.1, is no security event token (RFC 8417, section 2.3).", push(JOE.encode()), "end", coded("invalid_request", "typ"))
    yield link("Nobody's bearer, none, and one for another issuer (RFC 8935, section 2.4).", push(good, "nobody") + push(good, None) + push(good, "push-other"),
               "end", coded("authentication_failed", "bearer") * 2, coded("access_denied", "iss"))
    yield link("A refused token has no effect, and neither has the table a row.", request("GET", "/sessions"), "end", response(200, b"[]"))
    yield link("A token, and its repeat (RFC 8935, section 2.2).", push(good) + push(good), "end", taken * 2)
    yield link("What is known then of its subject, of another, and the one row; the last request asks for closing (RFC 9112, section 9.6).",
               check("s-77") + check("s-78") + request("GET", "/sessions?from=0", b"", "read-me", "connection: close"),
               "closed", seen, response(200, UNSEEN), response(200, ROW, close=True))
    yield link("An HTTP/1.0 request closes the link (RFC 9112, section 9.3).", check("s-77").replace(b"HTTP/1.1", b"HTTP/1.0"), "closed", response(200, REVOKED, close=True))
    yield link("A page after the last row.", request("GET", "/sessions?from=1") + request("GET", "/sessions?from=4611686018427387904"), "end", response(200, b"[]") * 2)
    yield link("A link takes sixteen requests: the last response closes it, and the one after isn't read.", check("s-78") * 17,
               "spent", response(200, UNSEEN) * 15, response(200, UNSEEN, close=True))
    yield link("Path, method and bearer (RFC 9110, sections 15.5.5, 15.5.6, 15.5.2).",
               request("GET", "/push/") + request("GET", "/push") + request("DELETE", "/sessions") + request("GET", "/sessions/check") + request("GET", "/sessions", b"", None)
               + request("GET", "/sessions", b"", "push-me") + request("POST", "/sessions/check", b"[]", "READ-ME"),
               "end", response(404), response(405, b"", "allow: POST"), response(405, b"", "allow: GET"), response(405, b"", "allow: POST"),
               response(401, b"", "www-authenticate: Bearer") * 3)
    yield link("The word before a bearer is of any case (RFC 9110, section 11.1).", check("s-77").replace(b"Bearer read-me", b"bEARER read-me"), "end", seen)
    yield link("Queries that name no row.", b"".join(request("GET", f"/sessions?from={value}") for value in ("", "x", "01", "-1", "4611686018427387905", "1&from=0")),
               "end", bad("from") * 5, response(200, b"[]"))
    yield link("Bodies that are no subject (RFC 9493, section 3).",
               b"".join(request("POST", "/sessions/check", body) for body in (b"", b"[]", b"{}", b'{"format":"opaque"}', b'{"format":"opaque","id":"s-77","x":1}')),
               "end", bad("body") * 2, bad("subject") * 3)
    yield link("The figures, over a node by itself, which counts nothing: one token was taken, and one row stands.",
               request("GET", "/metrics") + request("GET", "/metrics", b"", "push-me") + request("POST", "/metrics"), "end",
               figures(1, good), response(401, b"", "www-authenticate: Bearer"), response(405, b"", "allow: GET"))
    yield link("A head that is none is answered once, and the link closes.", b"nonsense\r\n\r\n" + check("s-77"), "head", unread("head"))
    yield link("A request says its host once (RFC 9112, section 3.2).", check("s-77").replace(b"host: rp.example\r\n", b""), "host", unread("host"))
    yield link("The absolute form of a target is its path (RFC 9112, section 3.2.2).", check("s-77").replace(b" /sessions", b" http://rp.example/sessions"), "end", seen)
    yield link("A body that is cut is answered nothing.", check("s-77")[:-1], "cut")
    yield link("A body above the limit is refused unread (RFC 9110, section 15.5.14).", check("s-77").replace(b"content-length: 31", b"content-length: 65537"), "body-long", response(413, close=True))
    yield link("A second token about the same subject, and one about a part of another (RFC 8417, section 2.1; SSF, section 3.2).",
               push(token("2", {"format": "complex", "session": opaque("s-1"), "user": opaque("u-1")}))
               + request("POST", "/sessions/check", text({"format": "complex", "session": opaque("s-1"), "user": opaque("u-1")})), "end", taken, seen)


def polled(acks=(), errors=()):
    """A poll request as it is written (RFC 8936, section 2.4)."""
    body = text({"ack": list(acks), "maxEvents": 32, "returnImmediately": True, "setErrs": {jti: {"description": code, "err": code} for jti, code in errors}})
    head = ["POST /poll/acme-1 HTTP/1.1", "host: tx.example:80", "authorization: Bearer poll-me", "content-type: application/json"]
    head += ["content-language: en"] if errors else []
    return "\r\n".join([*head, "accept: application/json", "connection: close", f"content-length: {len(body)}", "", ""]).encode() + body


def page(more=False, **sets):
    return response(200, text({"moreAvailable": more, "sets": sets}))


def fetch(comment, rounds, links, told, *sent):
    return comment, f"fetch {rounds} {' '.join(map(word, links))}", " ".join([told, *map(word, sent)])


def fetches():
    """Polls in rounds: what each link gives, what comes of it, and what each is sent (RFC 8936, sections 2.4 and 2.5)."""
    named = {f"t-{number:02}": token(f"t-{number:02}", opaque(f"f-{number}")).decode() for number in range(33)}
    first, last = dict(list(named.items())[:32]), dict(list(named.items())[32:])
    yield fetch("33 tokens in three rounds, each acknowledged by the next.", 5, [page(True, **first), page(**last), page()],
                "rounds 3 accepted 33 seen 0 refused 0", polled(), polled(first), polled(last))
    yield fetch("A page without tokens ends it.", 5, [page()], "rounds 1 accepted 0 seen 0 refused 0", polled())
    wrong, other = token("t-34", opaque("f-34"), aud="x").decode(), token("t-35", opaque("f-35")).decode()
    yield fetch("A token that was seen, one that is refused, and one that stands under another name: reported once, in English.", 2,
                [page(**{"t-00": named["t-00"], "t-34": wrong, "z": other}), page(**{"t-35": other})],
                "rounds 2 accepted 1 seen 1 refused 2", polled(), polled(["t-00"], [("t-34", "invalid_audience"), ("z", "invalid_request")]))
    yield fetch("An issuer for whom the peer may not speak.", 1, [page(**{"t-36": token("t-36", iss="https://other.example").decode()})],
                "rounds 1 accepted 0 seen 0 refused 1", polled())
    for gives, place in [
        (response(200, b"[]"), "body"),
        (response(200, b'{"sets":[]}'), "sets"),
        (response(200, b'{"sets":{"t-37":1}}'), "sets"),
        (response(200, b'{"moreAvailable":0,"sets":{}}'), "moreAvailable"),
        (response(202), "status"),
        (response(404), "status"),
        (b"HTTP/1.1 200 OK\r\ncontent-length: 9\r\n\r\n{}", "http"),
        (b"nonsense\r\n\r\n", "http"),
        (b"", "http"),
    ]:
        yield fetch(f"A peer that is wrong at `{place}` ends it; what was taken before stays.", 5, [page(**{"t-00": named["t-00"]}), gives], f"peer {place}", polled(), polled(["t-00"]))
    hints = b"HTTP/1.1 103 Early Hints\r\nlink: </page>\r\n\r\n"
    yield fetch("Five interim responses before a page are passed over (RFC 9110, section 15.2).", 5, [b"HTTP/1.1 100 Continue\r\n\r\n" + 4 * hints + page()],
                "rounds 1 accepted 0 seen 0 refused 0", polled())
    yield fetch("A sixth is no response, whatever follows it.", 5, [6 * hints + page()], "peer http", polled())
    yield fetch("A link that ends behind one gives no response.", 5, [hints], "peer http", polled())
    switching = b"HTTP/1.1 101 Switching Protocols\r\nconnection: upgrade\r\nupgrade: x\r\n\r\n"
    yield fetch("A change of protocols is no response (RFC 9110, section 15.2.2).", 5, [hints + switching + page()], "peer http", polled())
    yield fetch("A peer that isn't there any more.", 5, [page(**{"t-01": named["t-01"]})], "dial", polled())


def with_keys(keys):
    """Settings whose first issuer has these keys."""
    return {**SETTINGS, "issuers": [{"iss": "https://idp.example", "keys": keys}, *SETTINGS["issuers"][1:]]}


def signed_by_rs256():
    """Settings with public keys (RFC 7518, section 6.3.1), and pushes to a receiver that has one of them."""
    for why, keys, path in [*BAD, *((why, keys, None) for why, keys in GOOD)]:
        wanted = "ok" if path is None else f"refused issuers[0].keys{path}"
        yield f"The keys of an issuer: {why}.", f"settings {text(with_keys(keys)).decode()}", wanted
    issuers = [{"iss": iss, "keys": keys} for iss, keys in KEYS.items()]
    yield "An issuer with a public key, and one with keys of both kinds.", f"settings {text({**SETTINGS, 'issuers': issuers}).decode()}", "ok"
    good, taken = rs256(rs256_header(kid="2026-11"), claims(), FIRST).encode(), response(202)
    yield link("A token that is signed by RS256 (RFC 7518, section 3.3), its repeat, and what is known then.", push(good) + push(good) + check("s-77"), "end",
               taken * 2, response(200, REVOKED))
    pem = public_key_pem(FIRST).encode()
    other = claims(iss="https://other.example", jti="2")
    yield link("Other keys, names and algorithms; and the public key as the secret of an HMAC (RFC 8725, section 2.1).",
               push(rs256(rs256_header(), claims(), OTHER).encode()) + push(rs256(rs256_header(kid="2026-12"), claims(), FIRST).encode())
               + push(rs256(rs256_header(alg="RS512"), claims(), FIRST).encode()) + push(confused(header(kid="2026-11"), pem).encode())
               + push(confused(rs256_header(kid="2026-11"), pem).encode()) + push(token("2")),
               "end", coded("invalid_key", "mac"), coded("invalid_key", "kid"), coded("invalid_key", "alg"), coded("invalid_key", "kid"),
               coded("invalid_key", "mac"), coded("invalid_key", "kid"))
    yield link("An issuer with keys of both kinds: a token by each, and the name of a key of the other kind (RFC 8725, section 3.1).",
               push(rs256(rs256_header(), other, FIRST).encode(), "push-other") + push(signed(header(kid="k1"), dict(other, jti="3")).encode(), "push-other")
               + push(signed(header(kid="2026-11"), dict(other, jti="4")).encode(), "push-other")
               + push(rs256(rs256_header(kid="k1"), dict(other, jti="5"), FIRST).encode(), "push-other"),
               "end", taken * 2, coded("invalid_key", "kid") * 2)


def lines():
    yield "# Visits at a receiver (tools/cases/visit_cases.py). Settings by docs/FORMATS.md.", None
    yield f"settings {text({**SETTINGS, 'reader': 'no good'}).decode()}", "refused reader"
    yield f"settings {text(SETTINGS).decode()}", "ok"
    for comment, asked, told in [*links(), *fetches(), *signed_by_rs256()]:
        yield f"# {comment}", None
        yield asked, told
    yield "link", "bad-case"
    yield "fetch 0 -", "bad-case"
    yield "knock -", "bad-case"


def files():
    """What is stored beside the crate, by its path."""
    asked, told = [], []
    for number, (line, answer) in enumerate(lines(), 1):
        asked.append(f"{line}\n")
        if answer is not None:
            told.append(f"{number} {answer}\n")
    return {"crates/sig_visits/stdin": "".join(asked).encode(), "crates/sig_visits/stdout": "".join(told).encode()}
