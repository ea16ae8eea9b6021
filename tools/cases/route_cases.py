"""The cases of a transmitter's routes: the word `route` of `sig_cases`.

    route {"bearer":"acme-bearer","body":"{}","method":"POST","path":"/ssf/stream","query":""}

`bearer`, `body` and `query` may be left out, and `gateway`, true, says that there is one. The rules are those of
RULES in `models/routes.py`. The answer is `path`; `method` with the allowed ones or `bad` with the place, as a JSON string; `auth`; `poll` with an object of
client and stream, whose body is read and not told; or `call` with an object of the call's name and parts, whose members are in byte order. Each row names its
answer by hand, from OpenID Shared Signals Framework 1.0, sections 7.1 and 8.1, and docs/FORMATS.md; `models/routes.py` computes it
from the table of routes, and has to give the same. `lines` gives the cases with their answers.

Nothing here comes from the program under test.
"""
import json

from models.routes import ROUTES, answer
from models.values import dump

SR = "https://schemas.openid.net/secevent/caep/event-type/session-revoked"
ID = "11111111-1111-1111-1111-111111111111"


def case(method, path, bearer=None, body=None, query=None, **more):
    given = {"method": method, "path": path, "bearer": bearer, "query": query, **more}
    given["body"] = body if isinstance(body, str) else "" if body is None else json.dumps(body)
    return {name: value for name, value in given.items() if value is not None}


def client(method, path, body=None, query=None, **more):
    return case(method, path, "acme-bearer", body, query, **more)


def overseer(method, path, query=None):
    return case(method, path, "operator-bearer", None, query)


def operator(path, body=None):
    return case("POST", path, "operator-bearer", body)


PUSHED = {"method": "urn:ietf:rfc:8935", "endpoint_url": "http://rx.example:8080/events", "authorization_header": "Bearer x y"}
PUSH_WANT = '{"authorization":"Bearer x y","host":"rx.example","method":"push","path":"/events","port":8080,"secure":false,"url":"http://rx.example:8080/events"}'
SECURE = {"delivery": {"method": "urn:ietf:rfc:8935", "endpoint_url": "https://rx.example"}}
NOTHING = '{"delivery":null,"description":null,"requested":null}'
OPAQUE = {"format": "opaque", "id": "s-77"}
NEWS = {"publish_id": ID, "sub_id": OPAQUE, "events": {SR: {}}}
STREAM_METHODS = 'method "POST, GET, PATCH, PUT, DELETE"'

# Each row: what it shows, the case, the answer.
ROWS = [
    ("section 7.1: nobody needs a bearer for the metadata, and one that is shown isn't read", case("GET", "/.well-known/ssf-configuration"), 'call {"call":"metadata"}'),
    ("the metadata", case("GET", "/.well-known/ssf-configuration", "who", "{", "stream_id"), 'call {"call":"metadata"}'),
    ("section 8.1.1.1: a stream is made", client("POST", "/ssf/stream", {"events_requested": [SR]}), f'call {{"call":"create","client":"acme","want":{{"delivery":null,"description":null,"requested":["{SR}"]}}}}'),
    ("a stream that nothing is said of", client("POST", "/ssf/stream", {}), f'call {{"call":"create","client":"acme","want":{NOTHING}}}'),
    ("an empty list requests nothing", client("POST", "/ssf/stream", {"events_requested": []}), 'call {"call":"create","client":"acme","want":{"delivery":null,"description":null,"requested":[]}}'),
    ("delivery by push", client("POST", "/ssf/stream", {"delivery": PUSHED, "description": "a"}), f'call {{"call":"create","client":"acme","want":{{"delivery":{PUSH_WANT},"description":"a","requested":null}}}}'),
    ("the other client", case("POST", "/ssf/stream", "zeta-bearer", {}), f'call {{"call":"create","client":"zeta","want":{NOTHING}}}'),
    ("https without a gateway", client("POST", "/ssf/stream", SECURE), 'bad "endpoint_url"'),
    ("https with a gateway", client("POST", "/ssf/stream", SECURE, gateway=True), 'call {"call":"create","client":"acme","want":{"delivery":{"authorization":null,"host":"rx.example","method":"push","path":"/","port":443,"secure":true,"url":"https://rx.example"},"description":null,"requested":null}}'),
    ("members that nobody reads", client("POST", "/ssf/stream", {"aud": 7, "stream_id": 1}), f'call {{"call":"create","client":"acme","want":{NOTHING}}}'),
    ("push without a URL", client("POST", "/ssf/stream", {"delivery": {"method": "urn:ietf:rfc:8935"}}), 'bad "endpoint_url"'),
    ("another method of delivery", client("POST", "/ssf/stream", {"delivery": {"method": "mail"}}), 'bad "method"'),
    ("the members of a want in order", client("POST", "/ssf/stream", {"delivery": [], "description": 1, "events_requested": 1}), 'bad "delivery"'),
    ("the second of them", client("POST", "/ssf/stream", {"description": None, "events_requested": None}), 'bad "description"'),
    ("the third of them", client("POST", "/ssf/stream", {"events_requested": [1]}), 'bad "events_requested"'),
    ("a wrong authorization", client("POST", "/ssf/stream", {"delivery": {**PUSHED, "authorization_header": "\n"}}), 'bad "authorization_header"'),
    ("a body that is no JSON", client("POST", "/ssf/stream", "{"), 'bad "body"'),
    ("an empty body", client("POST", "/ssf/stream"), 'bad "body"'),
    ("a body that is no object", client("POST", "/ssf/stream", []), 'bad "body"'),
    ("section 8.1.1.2: all streams are read", client("GET", "/ssf/stream"), 'call {"call":"read_all","client":"acme"}'),
    ("another name in the query", client("GET", "/ssf/stream", query="stream=acme-1"), 'call {"call":"read_all","client":"acme"}'),
    ("one stream is read", client("GET", "/ssf/stream", query="stream_id=acme-1"), 'call {"call":"read","client":"acme","stream":"acme-1"}'),
    ("another's stream, which the call then doesn't find", client("GET", "/ssf/stream", query="stream_id=zeta-1"), 'call {"call":"read","client":"acme","stream":"zeta-1"}'),
    ("an empty name", client("GET", "/ssf/stream", query="stream_id="), 'call {"call":"read","client":"acme","stream":""}'),
    ("of a repeated name the first counts", client("GET", "/ssf/stream", query="a=b&stream_id=acme-1&stream_id=acme-2"), 'call {"call":"read","client":"acme","stream":"acme-1"}'),
    ("URL Standard, section 5.1: a query is decoded", client("GET", "/ssf/stream", query="stream%5Fid=acme%2D1+x"), 'call {"call":"read","client":"acme","stream":"acme-1 x"}'),
    ("a body isn't read there", client("GET", "/ssf/stream", {"stream_id": "acme-1"}), 'call {"call":"read_all","client":"acme"}'),
    ("section 8.1.1.3: a stream is changed", client("PATCH", "/ssf/stream", {"stream_id": "acme-1", "description": "b"}), 'call {"call":"patch","client":"acme","stream":"acme-1","want":{"delivery":null,"description":"b","requested":null}}'),
    ("section 8.1.1.4: a stream is replaced", client("PUT", "/ssf/stream", {"stream_id": "acme-1"}), f'call {{"call":"put","client":"acme","stream":"acme-1","want":{NOTHING}}}'),
    ("the stream's name comes last", client("PATCH", "/ssf/stream", {"stream_id": 1, "description": 2}), 'bad "description"'),
    ("no stream's name", client("PATCH", "/ssf/stream", {}, "stream_id=acme-1"), 'bad "stream_id"'),
    ("no stream's name", client("PUT", "/ssf/stream", {"stream_id": None}), 'bad "stream_id"'),
    ("section 8.1.1.5: a stream is deleted", client("DELETE", "/ssf/stream", query="stream_id=acme-1"), 'call {"call":"delete","client":"acme","stream":"acme-1"}'),
    ("which the query has to name", client("DELETE", "/ssf/stream", {"stream_id": "acme-1"}), 'bad "stream_id"'),
    ("RFC 9110, section 10.2.1: the methods at a path, in order", client("HEAD", "/ssf/stream"), STREAM_METHODS),
    ("methods are told apart by case", client("get", "/ssf/stream"), STREAM_METHODS),
    ("a wrong method comes before a wrong bearer", case("OPTIONS", "/ssf/stream"), STREAM_METHODS),
    ("section 8.1.2.1: a status is read", client("GET", "/ssf/status", query="stream_id=acme-1"), 'call {"call":"get_status","client":"acme","stream":"acme-1"}'),
    ("which the query has to name", client("GET", "/ssf/status"), 'bad "stream_id"'),
    ("section 8.1.2.2: a status is set", client("POST", "/ssf/status", {"stream_id": "acme-1", "status": "paused", "reason": "r"}), 'call {"call":"set_status","client":"acme","reason":"r","status":"paused","stream":"acme-1"}'),
    ("without a reason", client("POST", "/ssf/status", {"stream_id": "acme-1", "status": "enabled"}), 'call {"call":"set_status","client":"acme","status":"enabled","stream":"acme-1"}'),
    ("its members in order", client("POST", "/ssf/status", {"stream_id": 1, "status": "off", "reason": None}), 'bad "reason"'),
    ("the second of them", client("POST", "/ssf/status", {"status": "Enabled"}), 'bad "status"'),
    ("the third of them", client("POST", "/ssf/status", {"status": "enabled"}), 'bad "stream_id"'),
    ("its methods", client("PUT", "/ssf/status"), 'method "GET, POST"'),
    ("section 8.1.3.2: a subject is added", client("POST", "/ssf/subjects/add", {"stream_id": "acme-1", "subject": OPAQUE, "verified": 7}), 'call {"call":"add","client":"acme","stream":"acme-1","subject":{"format":"opaque","id":"s-77"}}'),
    ("section 8.1.3.3: a subject is removed", client("POST", "/ssf/subjects/remove", {"stream_id": "acme-1", "subject": OPAQUE}), 'call {"call":"remove","client":"acme","stream":"acme-1","subject":{"format":"opaque","id":"s-77"}}'),
    ("its members in order", client("POST", "/ssf/subjects/add", {"subject": {}}), 'bad "stream_id"'),
    ("RFC 9493, section 3: no subject", client("POST", "/ssf/subjects/add", {"stream_id": "acme-1", "subject": {"format": "opaque"}}), 'bad "subject"'),
    ("no subject at all", client("POST", "/ssf/subjects/remove", {"stream_id": "acme-1"}), 'bad "subject"'),
    ("its method", client("DELETE", "/ssf/subjects/add"), 'method "POST"'),
    ("section 8.1.4.2: a verification is asked for", client("POST", "/ssf/verification", {"stream_id": "acme-1", "state": "s"}), 'call {"call":"verify","client":"acme","state":"s","stream":"acme-1"}'),
    ("with an empty state", client("POST", "/ssf/verification", {"stream_id": "acme-1", "state": ""}), 'call {"call":"verify","client":"acme","state":"","stream":"acme-1"}'),
    ("without one", client("POST", "/ssf/verification", {"stream_id": "acme-1"}), 'call {"call":"verify","client":"acme","stream":"acme-1"}'),
    ("a state that is no text", client("POST", "/ssf/verification", {"stream_id": "acme-1", "state": None}), 'bad "state"'),
    ("no stream's name", client("POST", "/ssf/verification", {"state": 1}), 'bad "stream_id"'),
    ("RFC 8936, section 2.4: a poll, whose body says what it asks", client("POST", "/poll/acme-1", "{}"), 'poll {"client":"acme","stream":"acme-1"}'),
    ("one whose body spells no JSON", client("POST", "/poll/acme-1", "{"), 'bad "body"'),
    ("one that asks for a number of tokens which is none", client("POST", "/poll/acme-1", '{"maxEvents":-1}'), 'bad "maxEvents"'),
    ("the rest of its path as it stands", client("POST", "/poll/a%2Fb/c+d"), 'poll {"client":"acme","stream":"a%2Fb/c+d"}'),
    ("an empty rest", client("POST", "/poll/"), 'poll {"client":"acme","stream":""}'),
    ("no rest", client("POST", "/poll"), "path"),
    ("its method", client("GET", "/poll/acme-1"), 'method "POST"'),
    ("without a bearer", case("POST", "/poll/acme-1"), "auth"),
    ("the operator publishes", operator("/operator/publish", NEWS), f'call {{"call":"publish","id":"{ID}","payload":{{}},"sub_id":{{"format":"opaque","id":"s-77"}},"uri":"{SR}"}}'),
    ("RFC 9562, section 4: a name is kept with hyphens, in lower case", operator("/operator/publish", {**NEWS, "publish_id": "URN:UUID:".lower() + "ABCDEFAB-1111-1111-1111-111111111111"}), f'call {{"call":"publish","id":"abcdefab-1111-1111-1111-111111111111","payload":{{}},"sub_id":{{"format":"opaque","id":"s-77"}},"uri":"{SR}"}}'),
    ("its members in order", operator("/operator/publish", {"publish_id": "1", "sub_id": 1, "events": 1}), 'bad "publish_id"'),
    ("the second of them", operator("/operator/publish", {"publish_id": ID, "events": 1}), 'bad "sub_id"'),
    ("the third of them", operator("/operator/publish", {**NEWS, "events": {SR: {}, "https://example.com/x": {}}}), 'bad "events"'),
    ("no body", operator("/operator/publish", "null"), 'bad "body"'),
    ("the operator sets a status", operator("/operator/status", {"stream_id": "acme-1", "status": "disabled", "reason": ""}), 'call {"call":"operator_status","reason":"","status":"disabled","stream":"acme-1"}'),
    ("its members in order", operator("/operator/status", {"reason": 1, "status": 1}), 'bad "reason"'),
    ("the operator asks for pushes", operator("/operator/deliver", {"stream_id": "acme-1"}), 'call {"call":"deliver","stream":"acme-1"}'),
    ("no stream's name", operator("/operator/deliver", {}), 'bad "stream_id"'),
    ("the operator deletes a stream", overseer("DELETE", "/operator/stream", "stream_id=acme-1"), 'call {"call":"operator_delete","stream":"acme-1"}'),
    ("its name as it is decoded", overseer("DELETE", "/operator/stream", "from=x&stream_id=gone%2D1&stream_id=b"), 'call {"call":"operator_delete","stream":"gone-1"}'),
    ("an empty one", overseer("DELETE", "/operator/stream", "stream_id="), 'call {"call":"operator_delete","stream":""}'),
    ("no stream's name", overseer("DELETE", "/operator/stream", "stream=acme-1"), 'bad "stream_id"'),
    ("the operator reads how streams stand, from the first", overseer("GET", "/operator/streams"), 'call {"call":"streams","from":0}'),
    ("other members of a query are passed over", overseer("GET", "/operator/streams", "page=2&stream_id=acme-1"), 'call {"call":"streams","from":0}'),
    ("from a place on", overseer("GET", "/operator/streams", "from=100"), 'call {"call":"streams","from":100}'),
    ("the first one counts", overseer("GET", "/operator/streams", "from=0&from=x"), 'call {"call":"streams","from":0}'),
    ("up to the last number", overseer("GET", "/operator/streams", "from=4611686018427387904"), 'call {"call":"streams","from":4611686018427387904}'),
    *[("a place that is none", overseer("GET", "/operator/streams", "from=" + place), 'bad "from"') for place in ["", "01", "00", "-1", "%2B1", "1.0", "x", "1+", "4611686018427387905", "99999999999999999999", "%D9%A1"]],
    ("the operator reads which tokens were reported as faulty, from the first", overseer("GET", "/operator/refused"), 'call {"call":"refused","from":0}'),
    ("from a place on", overseer("GET", "/operator/refused", "x=y&from=10000"), 'call {"call":"refused","from":10000}'),
    ("up to the last number", overseer("GET", "/operator/refused", "from=4611686018427387904"), 'call {"call":"refused","from":4611686018427387904}'),
    *[("a place that is none", overseer("GET", "/operator/refused", "from=" + place), 'bad "from"') for place in ["", "01", "-1", "x", "4611686018427387905"]],
    ("the operator reads the figures", overseer("GET", "/operator/metrics", "from=x"), 'call {"call":"figures"}'),
    *[(f"a client's bearer opens none of them: {path}", case(method, path, "acme-bearer", None, "stream_id=acme-1"), "auth") for method, path in [("DELETE", "/operator/stream"), ("GET", "/operator/streams"), ("GET", "/operator/refused"), ("GET", "/operator/metrics")]],
    ("a stream is deleted, and not read, by the operator", overseer("GET", "/operator/stream", "stream_id=acme-1"), 'method "DELETE"'),
    ("RFC 9110, section 15.5.2: no bearer", case("GET", "/ssf/stream"), "auth"),
    ("an empty bearer", case("GET", "/ssf/stream", ""), "auth"),
    ("a bearer in another case", case("GET", "/ssf/stream", "Acme-bearer"), "auth"),
    ("the operator's bearer is no client's", case("GET", "/ssf/stream", "operator-bearer"), "auth"),
    ("a client's bearer isn't the operator's", client("POST", "/operator/publish", NEWS), "auth"),
    ("a wrong bearer comes before a wrong body", case("POST", "/ssf/stream", "who", "{"), "auth"),
    ("and before a wrong query", case("DELETE", "/ssf/stream"), "auth"),
    ("RFC 9110, section 15.5.5: no route", client("GET", "/ssf/nothing"), "path"),
    ("a path is told apart by each byte", client("GET", "/ssf/stream/"), "path"),
    ("and isn't decoded", client("GET", "/ssf/%73tream"), "path"),
    ("an empty path", client("GET", ""), "path"),
    ("the routes of receivers", client("POST", "/push", "x"), "path"),
    ("the routes of receivers", client("GET", "/sessions"), "path"),
    ("the routes of receivers", client("POST", "/sessions/check", OPAQUE), "path"),
]


def refusals():
    """Each route with each refusal that it has."""
    for method, path, whose, name in ROUTES:
        at = path + ("acme-1" if path.endswith("/") else "")
        right = {"anybody": None, "client": "acme-bearer", "operator": "operator-bearer"}[whose]
        other = "acme-bearer" if whose == "operator" else "operator-bearer"
        yield f"{method} {path} under a longer path", case(method, at + "x" if not path.endswith("/") else path[:-1], right)
        yield f"{method} {path} by a method of none", case("TRACE", at, right)
        for bearer in [None, other, (right or "") + "x"]:
            yield f"{method} {path} with another bearer", case(method, at, bearer, "{")
        yield f"{method} {path} with nothing", case(method, at, right)
        yield f"{method} {path} with a body that is a list", case(method, at, right, "[]")
        yield f"{method} {path} with a body that says nothing", case(method, at, right, "{}")


def cases():
    """The cases, each with what it shows and its answer."""
    for shows, given, by_hand in ROWS:
        found = answer(given)
        if found != by_hand:
            raise SystemExit(f"{shows}: {given}: by hand {by_hand}, and computed {found}")
        yield shows, "route " + dump(given), found
    for shows, given in refusals():
        yield shows, "route " + dump(given), answer(given)


def lines():
    """The same as lines of a part, each before its answer."""
    return [line.encode() for shows, case_line, found in cases() for line in (f"# {shows}.", case_line, "> " + found)]
