"""What bodies want of streams and publish, and what a stream delivers (Shared Signals Framework 1.0, sections 6.1 and 8.1.1)."""
import re
import uuid

from models.events import CAEP, PREFIX, RISC, check_event
from models.subjects import is_subject, matches, refuse, same
from models.values import BadCase, Fault, member

POLL, PUSH = "urn:ietf:rfc:8936", "urn:ietf:rfc:8935"
PORTS = {"http": 80, "https": 443}
PUBLISHED = [PREFIX + "caep/event-type/" + name for name in CAEP] + [PREFIX + "risc/event-type/" + name for name in RISC]
URL = r"(https?)://([A-Za-z0-9.-]+)(?::([1-9][0-9]{0,4}))?(/[!-~]*)?"
# The bytes of a URL and of an authorization at most.
URL_BYTES, AUTHORIZATION_BYTES = 2048, 8192
HYPHENATED = "[0-9A-Fa-f]{8}-[0-9A-Fa-f]{4}-[0-9A-Fa-f]{4}-[0-9A-Fa-f]{4}-[0-9A-Fa-f]{12}"
# A UUID in one of its four spellings (RFC 9562, section 4); the prefix of a URN has any case (RFC 8141, section 3.1).
UUID = rf"[0-9A-Fa-f]{{32}}|{HYPHENATED}|(?i:urn:uuid:){HYPHENATED}|\{{{HYPHENATED}\}}"


def need(holds, name):
    if not holds:
        refuse("member", name)


def is_text(value):
    return isinstance(value, str)


def is_texts(value):
    return isinstance(value, list) and all(map(is_text, value))


def check_url(url, gateway):
    """Where a push stream's tokens go: a URL of the one form that is taken (RFC 3986, section 3)."""
    found = re.fullmatch(URL, url, re.A) if is_text(url) else None
    # no target of a request has a fragment (RFC 9110, section 7.1)
    if found is None or len(url) > URL_BYTES or "#" in url:
        refuse("endpoint")
    if int(found[3] or 1) > 65535 or found[1] == "https" and not gateway:
        refuse("endpoint")
    scheme, host, port, path = found.groups()
    return {"host": host, "path": path or "/", "port": int(port or PORTS[scheme]), "secure": scheme == "https", "url": url}


def check_delivery(given, gateway):
    need(isinstance(given, dict), "delivery")
    method = given.get("method", POLL)
    if method == POLL:
        return {"method": "poll"}
    if method != PUSH:
        refuse("method")
    read = check_url(given.get("endpoint_url"), gateway)
    shown = given.get("authorization_header", "")
    need(is_text(shown) and len(shown) <= AUTHORIZATION_BYTES and re.fullmatch("[ -~]*", shown), "authorization_header")
    return dict(read, method="push", authorization=given.get("authorization_header"))


def check_want(body, gateway):
    """The members that a body gives, `delivery`, `description` and `requested`, or the first that is wrong."""
    need(isinstance(body, dict), "body")
    want = {}
    if "delivery" in body:
        want["delivery"] = check_delivery(body["delivery"], gateway)
    if "description" in body:
        need(is_text(body["description"]), "description")
        want["description"] = body["description"]
    if "events_requested" in body:
        need(is_texts(body["events_requested"]), "events_requested")
        want["requested"] = body["events_requested"]
    return want


def want_object(want):
    return {name: want.get(name) for name in ["delivery", "description", "requested"]}


def check_publication(body):
    """What a body publishes, or the first member that is missing or wrong."""
    need(isinstance(body, dict), "body")
    named = body.get("publish_id")
    need(is_text(named) and re.fullmatch(UUID, named), "publish_id")
    need(is_subject(body.get("sub_id")), "sub_id")
    events = body.get("events")
    need(isinstance(events, dict) and len(events) == 1, "events")
    uri, payload = next(iter(events.items()))
    need(uri in PUBLISHED, "events")
    try:
        payload = check_event(uri, payload, body["sub_id"])
    except Fault:
        need(False, "events")
    return {"id": str(uuid.UUID(named.lower())), "payload": payload, "sub_id": body["sub_id"], "uri": uri}


def conf_object(case):
    """A stream's configuration as it is written (Shared Signals Framework 1.0, section 8.1.1)."""
    base, iss, stream = (member(case, name, str) for name in ["base", "iss", "stream"])
    aud, interval = member(case, "aud", list), member(case, "interval", int)
    if not is_texts(aud) or isinstance(interval, bool) or not 0 <= interval <= 86400 or "want" not in case:
        raise BadCase
    try:
        want = check_want(case["want"], True)
    except Fault:
        raise BadCase from None
    delivery = want.get("delivery", {"method": "poll"})
    written = {"endpoint_url": f"{base}/poll/{stream}", "method": POLL}
    if delivery["method"] == "push":
        shown = {"authorization_header": delivery["authorization"]} if delivery["authorization"] is not None else {}
        written = {"endpoint_url": delivery["url"], "method": PUSH, **shown}
    requested = want.get("requested", PUBLISHED)
    conf = {
        "aud": aud[0] if len(aud) == 1 else aud, "delivery": written, "iss": iss, "min_verification_interval": interval,
        "events_delivered": [uri for uri in PUBLISHED if uri in requested], "events_supported": PUBLISHED, "stream_id": stream,
    }
    given = {"description": want.get("description"), "events_requested": want.get("requested")}
    return {**conf, **{name: value for name, value in given.items() if value is not None}}


def delivers(case):
    uri = member(case, "uri", str)
    if "requested" not in case or not (case["requested"] is None or is_texts(case["requested"])):
        raise BadCase
    return uri in PUBLISHED and (case["requested"] is None or uri in case["requested"])


def fits(case):
    """Under ALL every subject but the identical ones, under NONE those that a listed one matches."""
    defaults, listed = member(case, "defaults", str), member(case, "listed", list)
    subject = case.get("subject")
    if defaults not in ["ALL", "NONE"] or not all(map(is_subject, listed + [subject])):
        raise BadCase
    if defaults == "ALL":
        return not any(same(one, subject) for one in listed)
    return any(matches(one, subject) for one in listed)
