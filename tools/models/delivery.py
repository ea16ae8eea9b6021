"""Bodies by which tokens are delivered (RFC 8935, sections 2.2 to 2.4; RFC 8936, section 2), as an independent model reads them."""
from models.subjects import refuse
from models.values import NotJson, dump, read

OF_TOKENS = ("invalid_request", "invalid_key", "invalid_issuer", "invalid_audience")


def need(holds, name):
    if not holds:
        refuse("bad", name)


def is_text(value):
    return isinstance(value, str)


def body_object(body):
    """The object that a body spells."""
    try:
        value = read(body)
    except NotJson:
        value = None
    need(isinstance(value, dict), "body")
    return value


def in_order(members):
    return sorted(members.items(), key=lambda member: member[0].encode())


def check_ask(body):
    ask = body_object(body) if body else {}
    acks, most, errors = ask.get("ack", []), ask.get("maxEvents", 0), ask.get("setErrs", {})
    need(isinstance(acks, list) and all(map(is_text, acks)), "ack")
    need(type(most) is int and most >= 0, "maxEvents")
    need(isinstance(ask.get("returnImmediately", True), bool), "returnImmediately")
    need(isinstance(errors, dict), "setErrs")
    need(all(isinstance(error, dict) and is_text(error.get("err")) for error in errors.values()), "setErrs")
    told = [[jti, error["err"]] for jti, error in in_order(errors)]
    return dump({"acks": acks, "errors": told, "max": ask.get("maxEvents")})


def check_sets(body):
    answer = body_object(body)
    tokens, more = answer.get("sets"), answer.get("moreAvailable", False)
    need(isinstance(tokens, dict) and all(map(is_text, tokens.values())), "sets")
    need(isinstance(more, bool), "moreAvailable")
    return dump({"more": more, "tokens": [list(member) for member in in_order(tokens)]})


def outcome(status, body):
    if status == 202:
        return "accepted"
    try:
        value = read(body)
    except NotJson:
        value = None
    code = value.get("err") if isinstance(value, dict) else None
    if status == 400 and is_text(code) and code in OF_TOKENS:
        return "reported " + dump(code)
    return "keep"
