"""Cases of the bodies by which tokens are delivered (RFC 8935, sections 2.2 to 2.4; RFC 8936, section 2).

Each row names its answer by hand, from the standards and docs/FORMATS.md; `models/delivery.py` has to give the same.
"""
import json
import sys

from models import delivery
from models.values import Fault, word

JTI = "4d3559ec67504aaba65d40b0363faad8"
OTHER = "3d0c3cf797584bd193bd0fb1bd4e7d30"
TOKEN = "eyJhbGciOiJub25lIn0.eyJqdGkiOiI0ZDM1NTllYzY3NTA0YWFiYTY1ZDQwYjAzNjNmYWFkOCJ9."
REPORTED = {"err": "authentication_failed", "description": "The SET could not be authenticated"}
NOT_OBJECTS = ["[]", "null", "true", "7", "1.5", '"ack"', '[{"ack":[]}]', "{", '{"ack":[]', "{'ack':[]}", '{"ack":[],}', '{"ack":[]}{}', "\ufeff{}"]
NO_TEXT = ["null", "true", "0", "1.5", "[]", "{}"]


def python(value):
    """As json.dumps of Python gives it: spaces after commas and colons, and escapes for what isn't ASCII."""
    return json.dumps(value)


def ask(acks=(), errors=(), most=None):
    return "ok " + delivery.dump({"acks": list(acks), "errors": [list(error) for error in errors], "max": most})


def sets(tokens=(), more=False):
    return "ok " + delivery.dump({"more": more, "tokens": [list(token) for token in tokens]})


def bad(name):
    return f'bad "{name}"'


ASKS = [
    ("RFC 8936, section 2.4.1: a poll that takes as many as there are, and waits", '{"returnImmediately":true}', ask()),
    ("Section 2.4.2: acknowledgements alone", python({"ack": [JTI, OTHER], "maxEvents": 0}), ask([JTI, OTHER], [], 0)),
    ("Section 2.4.3: a poll with acknowledgements", python({"ack": [JTI, OTHER], "returnImmediately": False}), ask([JTI, OTHER])),
    ("Section 2.4.4: a poll with acknowledgements and errors", python({"ack": [OTHER], "setErrs": {JTI: REPORTED}, "returnImmediately": True}), ask([OTHER], [(JTI, "authentication_failed")])),
    ("Nothing is asked, by an object without members and by no body", "{}", ask()),
    ("", " { } ", ask()),
    ("", "", ask()),
    ("Members that have no name here are passed over, also inside of errors, and their fractions", '{"x":1.5,"Ack":7,"max":[],"setErrs":{"a":{"err":"e","n":-0,"description":7}}}', ask([], [("a", "e")])),
    ("Errors stand in byte order of identifiers", '{"setErrs":{"b":{"err":"1"},"é":{"err":"2"},"a":{"err":"3"},"":{"err":""},"B":{"err":"4"},"a0":{"err":"5"}}}', ask([], [("", ""), ("B", "4"), ("a", "3"), ("a0", "5"), ("b", "1"), ("é", "2")])),
    ("Acknowledgements stay in their order, each as often as it stands", '{"ack":["b","a","b",""]}', ask(["b", "a", "b", ""])),
    ("Of a repeated member the last stands", '{"ack":7,"ack":["a"]}', ask(["a"])),
    ("", '{"setErrs":{"a":{"err":"1"},"a":{"err":"2","err":"3"}}}', ask([], [("a", "3")])),
    ("Escapes are those of JSON", python({"ack": ["é\u20ac\U0001f600", '"\\/\b\f\n\r\t\u0001']}), ask(["é\u20ac\U0001f600", '"\\/\b\f\n\r\t\u0001'])),
    ("`maxEvents` is a whole number from 0", '{"maxEvents":0}', ask(most=0)),
    ("", '{"maxEvents":32}', ask(most=32)),
    ("", '{"maxEvents":18446744073709551615}', ask(most=2**64 - 1)),
    *[("", '{"maxEvents":%s}' % text, bad("maxEvents")) for text in ["-1", "-0", "1.0", "1e2", "0.5", "18446744073709551616", "-9223372036854775808", '"1"', "null", "[]", "{}", "false"]],
    ("A number that can't be held makes the text no JSON", '{"maxEvents":1e400}', bad("body")),
    *[("The body is a JSON object" if not place else "", text, bad("body")) for place, text in enumerate(NOT_OBJECTS)],
    *[("`ack` is a list of texts" if not place else "", '{"ack":%s}' % text, bad("ack")) for place, text in enumerate(["null", "true", "0", '"a"', "{}", '{"a":"b"}', "[null]", '["a",1]', '[["a"]]', '["a",{}]'])],
    *[("`returnImmediately` is a boolean" if not place else "", '{"returnImmediately":%s}' % text, bad("returnImmediately")) for place, text in enumerate(["null", "0", "1", '"true"', "[]", "{}"])],
    *[("`setErrs` is an object of objects" if not place else "", '{"setErrs":%s}' % text, bad("setErrs")) for place, text in enumerate(["null", "true", "0", '"a"', "[]", '[{"err":"a"}]', '{"a":null}', '{"a":"invalid_key"}', '{"a":["err"]}', '{"a":{"err":"b"},"c":1}'])],
    *[("with a text `err`" if not place else "", '{"setErrs":{"a":{"err":%s}}}' % text, bad("setErrs")) for place, text in enumerate(NO_TEXT)],
    ("", '{"setErrs":{"a":{}}}', bad("setErrs")),
    ("", '{"setErrs":{"a":{"description":"b"}}}', bad("setErrs")),
    ("The first member that is wrong is named, in the order `ack`, `maxEvents`, `returnImmediately`, `setErrs`", '{"setErrs":7,"returnImmediately":7,"maxEvents":-1,"ack":7}', bad("ack")),
    ("", '{"setErrs":7,"returnImmediately":7,"maxEvents":-1,"ack":[]}', bad("maxEvents")),
    ("", '{"setErrs":7,"returnImmediately":7,"maxEvents":1}', bad("returnImmediately")),
    ("", '{"setErrs":7,"returnImmediately":true}', bad("setErrs")),
]

SETS = [
    ("RFC 8936, section 2.5.1: a response with tokens", python({"sets": {JTI: TOKEN, OTHER: TOKEN}}), sets([(OTHER, TOKEN), (JTI, TOKEN)])),
    ("Section 2.5.2: none", '{"sets":{}}', sets()),
    ("As it is written here", '{"moreAvailable":true,"sets":{}}', sets(more=True)),
    ("", '{"moreAvailable":false,"sets":{"a.b-1.1":"x.y.z"}}', sets([("a.b-1.1", "x.y.z")])),
    ("As curl shows it in one line, with spaces", ' {  "moreAvailable" : true , "sets" : { "a" : "b" } } ', sets([("a", "b")], True)),
    ("Tokens stand in byte order of identifiers", '{"sets":{"s.10":"1","s.2":"2","s.1":"3","é":"4","":"5","Z":"6"}}', sets([("", "5"), ("Z", "6"), ("s.1", "3"), ("s.10", "1"), ("s.2", "2"), ("é", "4")])),
    ("The texts are judged by nobody here", '{"sets":{"a":"","b":"no token","c":"\\u00e9\\n"}}', sets([("a", ""), ("b", "no token"), ("c", "é\n")])),
    ("Members that have no name here are passed over", '{"sets":{},"x":1.5,"MoreAvailable":7}', sets()),
    ("Of a repeated member the last stands", '{"sets":7,"sets":{"a":"1","a":"2"}}', sets([("a", "2")])),
    *[("The body is a JSON object" if not place else "", text, bad("body")) for place, text in enumerate(["", *NOT_OBJECTS])],
    ("`sets` has to be there", "{}", bad("sets")),
    ("", '{"moreAvailable":true}', bad("sets")),
    *[("It is an object of texts" if not place else "", '{"sets":%s}' % text, bad("sets")) for place, text in enumerate(["null", "true", "0", '"a"', "[]", '["a"]', '{"a":null}', '{"a":1}', '{"a":["b"]}', '{"a":{"b":"c"}}', '{"a":"b","c":false}'])],
    *[("`moreAvailable` is a boolean" if not place else "", '{"sets":{},"moreAvailable":%s}' % text, bad("moreAvailable")) for place, text in enumerate(["null", "0", "1", '"true"', "[]", "{}"])],
    ("The first member that is wrong is named, in the order `sets`, `moreAvailable`", '{"moreAvailable":7,"sets":7}', bad("sets")),
    ("", '{"moreAvailable":7}', bad("sets")),
]

INVALID_KEY = b'{"err":"invalid_key","description":"kid"}'
CODES = ["invalid_request", "invalid_key", "invalid_issuer", "invalid_audience"]
OUTCOMES = [
    ("RFC 8935, section 2.2: the token was taken", 202, b"", "accepted"),
    ("whatever the body is", 202, INVALID_KEY, "accepted"),
    ("", 202, b"\xff", "accepted"),
    ("Section 2.3: it was refused", 400, INVALID_KEY, 'reported "invalid_key"'),
    ("", 400, b'{\n  "err": "invalid_request",\n  "description": "typ"\n}\n', 'reported "invalid_request"'),
    *[("", 400, python({"description": "d", "err": code}).encode(), f'reported "{code}"') for code in CODES],
    ("A code that isn't registered settles nothing: it may be a proxy's", 400, b'{"err":"WAF blocked"}', "keep"),
    *[("", 400, text, "keep") for text in [b'{"err":"another"}', b'{"err":"jwtParse"}', b'{"err":""}', b'{"err":"Invalid_key"}', b'{"err":"invalid_key "}', b'{"err":"invalid"}', b'{"err":"a\\"\\u00e9"}']],
    ("A request that couldn't be read says nothing of its token", 400, b'{"description":"head"}', "keep"),
    ("Section 2.4: two codes speak of who brings the token, and settle nothing", 400, b'{"err":"authentication_failed"}', "keep"),
    ("", 400, b'{"err":"access_denied","description":"iss"}', "keep"),
    ("", 400, b'{"err":"access\\u005fdenied"}', "keep"),
    ("Of a repeated member the last stands", 400, b'{"err":"access_denied","err":"invalid_key"}', 'reported "invalid_key"'),
    ("", 400, b'{"err":"invalid_key","err":"access_denied"}', "keep"),
    ("A body that is no JSON object with a text `err` settles nothing", 400, b"", "keep"),
    *[("", 400, text, "keep") for text in [b"{}", b"[ ]", b'["err"]', b'"err"', b"null", b'{"error":"invalid_key"}', b'{"Err":"invalid_key"}', b'{"err":null}', b'{"err":7}', b'{"err":["invalid_key"]}', b'{"err":{"err":"invalid_key"}}', b"{", b'{"err":"invalid_key"', b'{"err":"\xff"}', b"invalid_key", b"<html></html>"]],
]


def texts_of(answer):
    try:
        return answer()
    except Fault as fault:
        return fault.args[0]


def rows():
    """What each case shows, its line, its answer by hand, and the model's."""
    for shows, body, by_hand in ASKS:
        yield shows, "ask " + body, by_hand, texts_of(lambda: "ok " + delivery.check_ask(body.encode()))
    for shows, body, by_hand in SETS:
        yield shows, "sets " + body, by_hand, texts_of(lambda: "ok " + delivery.check_sets(body.encode()))
    for shows, status, body, by_hand in OUTCOMES:
        yield shows, f"outcome {status} {word(body)}", by_hand, delivery.outcome(status, body)
    for status in range(100, 600):
        by_hand = {202: "accepted", 400: 'reported "invalid_key"'}.get(status, "keep")
        shows = "Each status with the body of a refusal: 202 and 400 alone settle a push" if status == 100 else ""
        yield shows, f"outcome {status} {word(INVALID_KEY)}", by_hand, delivery.outcome(status, INVALID_KEY)


def lines():
    """The lines, each before its answer."""
    out = []
    for shows, line, by_hand, computed in rows():
        if by_hand != computed:
            sys.exit(f"{line}: by hand {by_hand}, computed {computed}")
        out += [f"# {shows}."] * bool(shows) + [line, "> " + by_hand]
    return [line.encode() for line in out]
