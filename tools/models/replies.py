"""How a transmitter tells its answers (OpenID Shared Signals Framework 1.0, sections 7.1 and 8.1): a status and a body."""
from models.streams import POLL, PUSH, conf_object
from models.values import BadCase, dump, member, optional

BASE = "http://tx.example"
STORE = "6ba7b810-9dad-11d1-80b4-00c04fd430c8"
STATUSES = ["enabled", "paused", "disabled"]
# The answers that tell nothing but their status (RFC 9110, section 15).
EMPTY = {
    "added": 200, "delivering": 202, "gone": 204, "removed": 204, "asked": 204, "not-found": 404, "too-many": 409,
    "conflict": 409, "disabled": 409, "early": 429,
}
METADATA = {
    "issuer": "https://idp.example", "spec_version": "1_0", "default_subjects": "ALL",
    "delivery_methods_supported": [PUSH, POLL],
    "configuration_endpoint": BASE + "/ssf/stream", "status_endpoint": BASE + "/ssf/status",
    "verification_endpoint": BASE + "/ssf/verification", "add_subject_endpoint": BASE + "/ssf/subjects/add",
    "remove_subject_endpoint": BASE + "/ssf/subjects/remove",
}


def conf(case):
    if not isinstance(case, dict):
        raise BadCase
    return conf_object({**case, "base": BASE})


def state(case):
    stream, status, reason = member(case, "stream", str), member(case, "status", str), optional(case, "reason", str)
    if status not in STATUSES:
        raise BadCase
    return {"status": status, "stream_id": stream, **({} if reason is None else {"reason": reason})}


def issued(token):
    if not isinstance(token, list) or [type(part) for part in token] != [str, int] or token[1] < 0:
        raise BadCase
    return {"jti": f"{STORE}.{token[0]}.{token[1]}", "stream_id": token[0]}


def number(case, name):
    value = member(case, name, int)
    if isinstance(value, bool) or not 0 <= value <= 2**62:
        raise BadCase
    return value


def standing(case):
    """How a stream stands, as a page has it: `oldest` where a token is owed."""
    if not isinstance(case, dict) or member(case, "status", str) not in STATUSES:
        raise BadCase
    oldest = {"oldest": number(case, "oldest")} if "oldest" in case else {}
    return {"made": number(case, "made"), "owed": number(case, "owed"), "status": case["status"], "stream_id": member(case, "stream", str), **oldest}


def refused(case):
    """A token that was reported as faulty, as a page has it: the publication's name and the code where they are known."""
    named = {key: member(case, name, str) for name, key in [("id", "publish_id"), ("code", "code")] if name in case}
    return {"number": number(case, "number"), "stream_id": member(case, "stream", str), "time": number(case, "time"), **named}


def metric(name, kind, help, values):
    """A metric of Prometheus' text format 0.0.4: its help, its kind, and a line for each value."""
    return [f"# HELP {name} {help}", f"# TYPE {name} {kind}"] + [f"{name}{label} {value}" for label, value in values]


def metrics(publications, streams):
    """The metrics, as one text."""
    by_stream = [('{stream="%s"}' % one["stream_id"], one) for one in streams]
    lines = [
        *metric("signals_streams", "gauge", "Streams that stand, by status.", [
            ('{status="%s"}' % status, sum(one["status"] == status for one in streams)) for status in STATUSES
        ]),
        *metric("signals_publications_total", "counter", "Publications that stand.", [("", publications)]),
        *metric("signals_owed_tokens", "gauge", "Tokens that a stream owes.", [(label, one["owed"]) for label, one in by_stream]),
        *metric("signals_oldest_owed_timestamp_seconds", "gauge", "When the first token that a stream owes was made, in seconds since 1970.", [
            (label, one["oldest"]) for label, one in by_stream if "oldest" in one
        ]),
        *metric("signals_made_tokens_total", "counter", "Tokens that were made for a stream.", [(label, one["made"]) for label, one in by_stream]),
    ]
    return "".join(line + "\n" for line in lines)


def reply(case):
    name = member(case, "answer", str)
    if name in EMPTY:
        return f"{EMPTY[name]} -"
    if name == "meta":
        return "200 " + dump(METADATA)
    if name in ("made", "conf"):
        return ("201 " if name == "made" else "200 ") + dump(conf(case.get("conf")))
    if name == "confs":
        return "200 " + dump([conf(item) for item in member(case, "confs", list)])
    if name == "state":
        return "200 " + dump(state(case))
    if name == "published":
        return "200 " + dump({"tokens": [issued(token) for token in member(case, "tokens", list)]})
    if name == "standings":
        return "200 " + dump({"next": number(case, "next"), "streams": [standing(item) for item in member(case, "standings", list)]})
    if name == "refused":
        return "200 " + dump({"next": number(case, "next"), "refused": [refused(item) for item in member(case, "tokens", list)]})
    if name == "figures":
        # the lines of the body, as a text in JSON
        return "200 " + dump(metrics(number(case, "publications"), [standing(item) for item in member(case, "standings", list)]))
    if name == "long":
        return "400 " + dump({"description": "long", "err": "invalid_request"})
    raise BadCase
