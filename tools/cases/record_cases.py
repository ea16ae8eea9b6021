"""The cases of records: bytes of facts and of tokens, each with the answer worked out by hand.

A record is a list of parts, as docs/FORMATS.md has them: a kind, a number, a flag, a status, a count, or a text with its
length. A row names the part that is cut or breaks its rule, and the offset is the number of bytes before that part. No code
reads a record here, so the answers stand on the layout alone; `models/records.py` reads them, and has to answer the same.
"""

import base64
import struct

LAST_NUMBER = 2**62
CAEP = b"https://schemas.openid.net/secevent/caep/event-type/"
RISC = b"https://schemas.openid.net/secevent/risc/event-type/"
SSF = b"https://schemas.openid.net/secevent/ssf/event-type/"

OPAQUE = b'{"format":"opaque","id":"s-77"}'
EMAIL = b'{"email":"user@example.com","format":"email"}'
URL = b"https://hooks.acme.example:8443/set"
TOKEN = b"eyJhbGciOiJIUzI1NiJ9.e30.AAAA"


def count(n):
    return struct.pack(">I", n)


def number(n):
    return struct.pack(">Q", n)


def text(value):
    return count(len(value)) + value


YES, NO = b"\x01", b"\x00"
STREAM = text(b"acme-1")
TIME = number(1700000000)


def kind(n):
    return bytes([n])


def texts(*values):
    return [count(len(values)), *map(text, values)]


def created(delivery=(NO,), interval=number(60), aud=(), requested=(NO,), defaults=YES, description=(NO,), time=TIME):
    audience = texts(*(aud or (b"https://acme.example",)))
    return [kind(1), STREAM, text(b"https://idp.example"), *audience, *requested, *delivery, interval, defaults, *description, time]


PUSH = (YES, text(URL), YES, text(b"Bearer hook"))
REQUESTED = (YES, *texts(CAEP + b"session-revoked", RISC + b"account-disabled"))


def configured(delivery=PUSH, requested=REQUESTED, description=(YES, text("für Acme".encode()))):
    return [kind(2), STREAM, *requested, *delivery, *description]


def status_set(status=b"\x01", reason=(YES, text(b"maintenance")), operator=YES, time=TIME):
    return [kind(3), STREAM, status, *reason, operator, time]


def published(subject=OPAQUE, uri=CAEP + b"session-revoked", payload=b"{}", time=TIME, publication=b"6ba7b810-9dad-11d1-80b4-00c04fd430c8"):
    return [kind(7), text(publication), text(subject), text(uri), text(payload), time]


def settled(*items):
    return [kind(8), STREAM, count(len(items)), *(part for item in items for part in item)]


# Each row: what it shows, and a record that is read and written again.
TAKEN = [
    ("a stream that is polled", created()),
    ("a stream that is pushed, with all that may be there", created(PUSH, number(86400), (b"a", b""), REQUESTED, NO, (YES, text(b"")), number(LAST_NUMBER))),
    ("a configuration", configured()),
    ("a configuration by poll that asks for nothing", configured((NO,), (YES, *texts()), (NO,))),
    ("a push without authorization, over http, without port and path", configured((YES, text(b"http://h"), NO))),
    ("a status", status_set()),
    ("each status", status_set(b"\x00", (NO,), NO)),
    ("the last status", status_set(b"\x02", (NO,), NO, number(0))),
    ("a subject that is listed", [kind(4), STREAM, text(OPAQUE)]),
    ("a complex subject that is taken off", [kind(5), STREAM, text(b'{"format":"complex","user":' + EMAIL + b"}")]),
    ("a subject of an unknown format", [kind(4), STREAM, text(b'{"a":[1,{"b":null}],"format":"x"}')]),
    ("a deleted stream: eleven bytes", [kind(6), STREAM]),
    ("a stream without a name", [kind(6), text(b"")]),
    ("a publication", published()),
    ("a publication with a payload, under any text", published(payload=b'{"event_timestamp":1615304991643,"initiating_entity":"policy","reason_admin":{"en":"x"}}', publication="ä".encode())),
    ("a publication about an identifier", published(EMAIL, RISC + b"identifier-changed", b'{"new-value":"a@b.example"}')),
    ("settled tokens", settled((number(1), NO), (number(2), YES, text(b"invalid_key")))),
    ("no settled token, and the greatest number", settled((number(2**64 - 1), NO))),
    ("an empty list of settled tokens", settled()),
    ("a verification", [kind(9), STREAM, YES, text(b"VGhpcyBpcyBhbiBleGFtcGxl"), TIME]),
    ("a verification without state", [kind(9), STREAM, NO, TIME]),
]


def broken(parts, at, part):
    """The record with another part at this place."""
    return parts[:at] + [part] + parts[at + 1 :], at


# Each row: what it shows, a record, and the place of its part that breaks its rule.
REFUSED = [
    ("a kind of no fact: 0", *broken([kind(6), STREAM], 0, b"\x00")),
    ("a kind of no fact: 10", *broken([kind(6), STREAM], 0, b"\x0a")),
    ("a text that is no UTF-8", *broken([kind(6), STREAM], 1, text(b"acme\xff"))),
    ("a surrogate in UTF-8", *broken([kind(6), STREAM], 1, text(b"\xed\xa0\x80"))),
    ("a flag of two", *broken(created(), 5, b"\x02")),
    ("a delivery of two", *broken(created(), 6, b"\x02")),
    ("an interval of 86,401 seconds", *broken(created(), 7, number(86401))),
    ("default subjects of two", *broken(created(), 8, b"\x02")),
    ("a description that may be there, of two", *broken(created(), 9, b"\x02")),
    ("a time above 2^62", *broken(created(), 10, number(LAST_NUMBER + 1))),
    ("of two broken parts the first", broken(created(time=number(2**64 - 1)), 7, number(86401))[0], 7),
    ("a url that spells no endpoint: another scheme", *broken(configured(requested=(NO,)), 4, text(b"ftp://h"))),
    ("a url without a host", *broken(configured(requested=(NO,)), 4, text(b"https://"))),
    ("a port of zero", *broken(configured(requested=(NO,)), 4, text(b"https://h:0/"))),
    ("a space in a path", *broken(configured(requested=(NO,)), 4, text(b"https://h/a b"))),
    ("an authorization of two", *broken(configured(requested=(NO,)), 5, b"\x02")),
    ("a status of three", *broken(status_set(), 2, b"\x03")),
    ("an operator of two", *broken(status_set(), 5, b"\x02")),
    ("a subject that is no JSON", *broken([kind(4), STREAM, text(OPAQUE)], 2, text(b"{"))),
    ("a subject of another order", *broken([kind(4), STREAM, text(OPAQUE)], 2, text(b'{"id":"s-77","format":"opaque"}'))),
    ("a subject with white space", *broken([kind(4), STREAM, text(OPAQUE)], 2, text(b'{"format": "opaque","id":"s-77"}'))),
    ("a subject with an escape that isn't written", *broken([kind(5), STREAM, text(OPAQUE)], 2, text(b'{"format":"opaque","id":"s\\u002d77"}'))),
    ("a subject with a member too many", *broken([kind(5), STREAM, text(OPAQUE)], 2, text(b'{"a":1,"format":"opaque","id":"s-77"}'))),
    ("a subject with a fraction", *broken([kind(4), STREAM, text(OPAQUE)], 2, text(b'{"a":1.5,"format":"x"}'))),
    ("a subject that is a text", *broken([kind(4), STREAM, text(OPAQUE)], 2, text(b'"s-77"'))),
    ("a publication of a verification", *broken(published(), 3, text(SSF + b"verification"))),
    ("a publication of an unknown type", *broken(published(), 3, text(CAEP + b"x"))),
    ("a payload with a member that isn't kept", *broken(published(), 4, text(b'{"x":1}'))),
    ("a payload with white space", *broken(published(), 4, text(b"{ }"))),
    ("a payload that is no object", *broken(published(), 4, text(b"[]"))),
    ("a payload that lacks a member", published(uri=CAEP + b"credential-change"), 4),
    ("an event about an identifier on another subject", published(OPAQUE, RISC + b"identifier-changed", b"{}"), 4),
    ("a subject before its uri", broken(published(uri=b"x"), 2, text(b"{}"))[0], 2),
    ("a publication's time", *broken(published(), 5, number(LAST_NUMBER + 1))),
    ("a code of two", *broken(settled((number(1), NO), (number(2), NO)), 6, b"\x02")),
    ("a count of one item more", [kind(8), STREAM, count(2), number(1), NO], 5),
    ("a count of all that fit", [kind(8), STREAM, count(2**32 - 1)], 3),
    ("a count of one item less", [kind(8), STREAM, count(0), number(1), NO], 3),
    ("a state of two", *broken([kind(9), STREAM, NO, TIME], 2, b"\x02")),
]

# Each row: what it shows, a record of a token, and the place of its broken part, or none.
TOKENS = [
    ("a token", [kind(1), text(TOKEN)], None),
    ("a token of no bytes", [kind(1), text(b"")], None),
    ("a token that is no UTF-8", [kind(1), text(b"\xff")], None),
    ("another kind", [kind(2), text(TOKEN)], 0),
    ("a token that is cut", [kind(1), count(2) + b"a"], 1),
    ("bytes after a token", [kind(1), text(TOKEN), b"\x00"], 2),
    ("no bytes", [], 0),
]


def spelled(data):
    return base64.urlsafe_b64encode(data).decode().rstrip("=") or "-"


def offset(parts, place):
    return sum(map(len, parts[:place]))


def cuts(parts):
    """Ends within a record: at each part's first byte, after it, and before its last; each with the part that is cut."""
    for place, part in enumerate(parts):
        start = offset(parts, place)
        for end in sorted({start, start + 1, start + len(part) - 1}):
            if end < start + len(part):
                yield end, start


def cases():
    """Lines and answers, and between them a comment with no answer."""
    for word, rows in (("record", [*((s, p, None) for s, p in TAKEN), *REFUSED]), ("token-record", TOKENS)):
        for shows, parts, place in rows:
            data = b"".join(parts)
            yield f"# {shows}", None
            yield f"{word} {spelled(data)}", f"bad {offset(parts, place)}" if place is not None else f"ok {spelled(data)}"
    for word, rows in (("record", TAKEN), ("token-record", [row[:2] for row in TOKENS[:1]])):
        for shows, parts in rows:
            data = b"".join(parts)
            yield f"# {shows}: cut at each part, and with a byte more", None
            for end, start in cuts(parts):
                yield f"{word} {spelled(data[:end])}", f"bad {start}"
            yield f"{word} {spelled(data + NO)}", f"bad {len(data)}"


def lines():
    """The lines, each before its answer."""
    out = []
    for line, answer in cases():
        out += [line] if answer is None else [line, f"> {answer}"]
    return [line.encode() for line in out]
