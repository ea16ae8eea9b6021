"""The routes of a transmitter (OpenID Shared Signals Framework 1.0, sections 7.1 and 8.1; docs/FORMATS.md)."""
import json
import re
import urllib.parse

from models import subjects
from models.delivery import check_ask
from models.streams import check_publication, check_want, want_object
from models.values import Fault, NotJson, dump, member, optional, read

RULES = {"clients": {"acme-bearer": "acme", "zeta-bearer": "zeta"}, "operator": "operator-bearer"}
STATUSES = ["enabled", "paused", "disabled"]

# Method, path, whose call it is, its name. A path that ends in `/` goes on with a stream's name.
ROUTES = [
    ("GET", "/.well-known/ssf-configuration", "anybody", "metadata"),
    ("POST", "/ssf/stream", "client", "create"),
    ("GET", "/ssf/stream", "client", "read"),
    ("PATCH", "/ssf/stream", "client", "patch"),
    ("PUT", "/ssf/stream", "client", "put"),
    ("DELETE", "/ssf/stream", "client", "delete"),
    ("GET", "/ssf/status", "client", "get_status"),
    ("POST", "/ssf/status", "client", "set_status"),
    ("POST", "/ssf/subjects/add", "client", "add"),
    ("POST", "/ssf/subjects/remove", "client", "remove"),
    ("POST", "/ssf/verification", "client", "verify"),
    ("POST", "/poll/", "client", "poll"),
    ("POST", "/operator/publish", "operator", "publish"),
    ("POST", "/operator/status", "operator", "operator_status"),
    ("POST", "/operator/deliver", "operator", "deliver"),
    ("DELETE", "/operator/stream", "operator", "operator_delete"),
    ("GET", "/operator/streams", "operator", "streams"),
    ("GET", "/operator/refused", "operator", "refused"),
    ("GET", "/operator/metrics", "operator", "figures"),
]


class Bad(Exception):
    """The place that is missing or wrong."""


def need(holds, place):
    if not holds:
        raise Bad(place)


def text_in(body, name):
    need(isinstance(body.get(name), str), name)
    return body[name]


def optional_text(body, name):
    return {name: text_in(body, name)} if name in body else {}


def want_in(body, gateway):
    try:
        return want_object(check_want(body, gateway))
    except Fault as fault:
        raise Bad(place_of(fault.args[0])) from None


def place_of(fault):
    """The place that a refusal of `want` or `publication` names: `member "x"`, `method` or `endpoint`."""
    if fault.startswith("member "):
        return json.loads(fault[len("member "):])
    return {"method": "method", "endpoint": "endpoint_url"}[fault]


def status_in(body):
    reason = optional_text(body, "reason")
    need(body.get("status") in STATUSES if isinstance(body.get("status"), str) else False, "status")
    return {"status": body["status"], "stream": text_in(body, "stream_id"), **reason}


def subject_in(body):
    need("subject" in body and subjects.is_subject(body["subject"]), "subject")
    return body["subject"]


def publication_in(body):
    try:
        return check_publication(body)
    except Fault as fault:
        raise Bad(place_of(fault.args[0])) from None


def parts_of(name, body, gateway):
    """The parts of a call that its body says."""
    if name == "create":
        return {"want": want_in(body, gateway)}
    if name in ("patch", "put"):
        return {"want": want_in(body, gateway), "stream": text_in(body, "stream_id")}
    if name in ("set_status", "operator_status"):
        return status_in(body)
    if name in ("add", "remove"):
        return {"stream": text_in(body, "stream_id"), "subject": subject_in(body)}
    if name == "verify":
        return {"stream": text_in(body, "stream_id"), **optional_text(body, "state")}
    if name == "publish":
        return publication_in(body)
    return {"stream": text_in(body, "stream_id")}


def named_in(query, name):
    return [value for key, value in urllib.parse.parse_qsl(query, keep_blank_values=True, errors="replace") if key == name]


def place_in(query):
    """A number up to 2^62 in decimal without leading zeros; 0 where none is given."""
    place = [*named_in(query, "from"), "0"][0]
    need(re.fullmatch("0|[1-9][0-9]*", place, re.ASCII) and int(place) <= 2**62, "from")
    return {"from": int(place)}


def by_query(name, query):
    if name == "figures":
        return name, {}
    if name in ("streams", "refused"):
        return name, place_in(query)
    named = named_in(query, "stream_id")
    if name == "read" and not named:
        return "read_all", {}
    need(named, "stream_id")
    return name, {"stream": named[0]}


def object_in(text):
    try:
        body = read(text.encode())
    except NotJson:
        raise Bad("body") from None
    need(isinstance(body, dict), "body")
    return body


def asked(name, case, client):
    if name == "metadata":
        return "call " + dump({"call": name})
    whose = {"client": client} if client else {}
    if name == "poll":
        check_ask(case.get("body", "").encode())
        return "poll " + dump({**whose, "stream": case["path"][len("/poll/"):]})
    if name in ("read", "delete", "get_status", "operator_delete", "streams", "refused", "figures"):
        name, parts = by_query(name, case.get("query", ""))
    else:
        parts = parts_of(name, object_in(case.get("body", "")), case.get("gateway", False))
    return "call " + dump({"call": name, **whose, **parts})


def read_case(case):
    """The case, where it has the form of one."""
    for name in ("method", "path"):
        member(case, name, str)
    for name in ("bearer", "body", "query"):
        optional(case, name, str)
    optional(case, "gateway", bool)
    return case


def is_at(path, pattern):
    return path.startswith(pattern) if pattern.endswith("/") else path == pattern


def answer(case):
    here = [route for route in ROUTES if is_at(case["path"], route[1])]
    if not here:
        return "path"
    found = [route for route in here if route[0] == case["method"]]
    if not found:
        return "method " + dump(", ".join(route[0] for route in here))
    _, _, whose, name = found[0]
    shown = case.get("bearer")
    client = RULES["clients"].get(shown) if whose == "client" else None
    if whose == "client" and client is None or whose == "operator" and shown != RULES["operator"]:
        return "auth"
    try:
        return asked(name, case, client)
    except Bad as place:
        return "bad " + dump(place.args[0])
    except Fault as refused:
        return refused.args[0]
