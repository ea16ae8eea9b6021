"""Calls at a transmitter's core (Shared Signals Framework 1.0, section 8.1; RFC 8935; RFC 8936; docs/FORMATS.md).

The model keeps each token that was ever made, and finds what a stream owes by going over them.
"""
import re

from models.events import PREFIX
from models.streams import check_publication, check_want, is_texts
from models.subjects import is_subject, matches, same
from models.values import BadCase, Fault, dump, member, optional, read_case, word

STORE = "6ba7b810-9dad-11d1-80b4-00c04fd430c8"
STORE_WORD = word(bytes.fromhex(STORE.replace("-", "")))
VERIFICATION, UPDATED = (PREFIX + "ssf/event-type/" + name for name in ["verification", "stream-updated"])
BY_POLL = {"method": "poll"}
LAST_NUMBER, PAYLOAD_BYTES, PAGE, MOST_STREAMS, STREAMS_PAGE = 2**62, 6000, 32, 16, 100
REFUSED_KEPT, REFUSED_PAGE, CODE_BYTES = 10000, 100, 64
KEEPING = ["authentication_failed", "access_denied"]
STATUSES = ["enabled", "paused", "disabled"]


def number(case, name):
    value = member(case, name, int)
    if isinstance(value, bool) or not 0 <= value <= LAST_NUMBER:
        raise BadCase
    return value


def texts(case, name):
    if not is_texts(member(case, name, list)):
        raise BadCase
    return case[name]


def checked(check, *given):
    try:
        return check(*given)
    except Fault:
        raise BadCase from None


def want_in(case):
    if "want" not in case:
        raise BadCase
    return checked(check_want, case["want"], True)


def subject_in(case):
    if not is_subject(case.get("subject")):
        raise BadCase
    return case["subject"]


def status_in(case):
    if member(case, "status", str) not in STATUSES:
        raise BadCase
    return case["status"], optional(case, "reason", str)


def ask_in(case):
    ask = member(case, "ask", dict)
    errors = member(ask, "errors", list)
    if not all(is_texts(error) and len(error) == 2 for error in errors) or "max" not in ask:
        raise BadCase
    return texts(ask, "acks"), errors, None if ask["max"] is None else number(ask, "max")


def read_rules(case):
    issuer, clients, interval = member(case, "issuer", str), member(case, "clients", list), number(case, "interval")
    if member(case, "defaults", str) not in ["ALL", "NONE"] or interval > 86400:
        raise BadCase
    return {"issuer": issuer, "defaults": case["defaults"], "interval": interval, "clients": {member(one, "name", str): texts(one, "aud") for one in clients}}


class Core:
    """A transmitter's streams and tokens, and what was published."""

    def __init__(self):
        self.made, self.streams, self.tokens, self.published, self.refused = {}, {}, [], {}, []

    # -- streams and what they owe

    def mine(self, case):
        client, name = member(case, "client", str), member(case, "stream", str)
        found = self.streams.get(name)
        return found if found and found["client"] == client else None

    def named(self, case):
        return self.streams.get(member(case, "stream", str))

    def in_order(self):
        return sorted(self.streams.values(), key=lambda held: (held["client"], held["number"]))

    def owed(self, held):
        return [token for token in self.tokens if token["held"] is held and token["owed"]]

    def offered(self, held):
        return [token for token in self.owed(held) if held["status"] == "enabled" or UPDATED in token["claims"]["events"]]

    def drop(self, held):
        for token in self.owed(held):
            token["owed"] = False

    def token(self, held, subject, uri, payload, now):
        place = held["tokens"] + 1
        aud = held["aud"][0] if len(held["aud"]) == 1 else held["aud"]
        claims = {"aud": aud, "events": {uri: payload}, "iat": now, "iss": held["iss"], "jti": f"{STORE}.{held['stream']}.{place}", "sub_id": subject}
        return {"held": held, "number": place, "claims": claims, "owed": True}

    def notice(self, held, uri, payload, now):
        return self.token(held, {"format": "opaque", "id": held["stream"]}, uri, {name: value for name, value in payload.items() if value is not None}, now)

    def keep(self, tokens):
        for token in tokens:
            token["held"]["tokens"] += 1
            self.tokens.append(token)

    # -- calls

    def metadata(self, rules, case, now):
        return "meta"

    def create(self, rules, case, now):
        want, client = want_in(case), member(case, "client", str)
        if client not in rules["clients"]:
            return "not-found"
        if sum(held["client"] == client for held in self.streams.values()) == MOST_STREAMS:
            return "too-many"
        self.made[client] = self.made.get(client, 0) + 1
        name = f"{client}-{self.made[client]}"
        self.streams[name] = {
            "client": client, "number": self.made[client], "stream": name, "iss": rules["issuer"], "aud": rules["clients"][client],
            "interval": rules["interval"], "defaults": rules["defaults"], "delivery": BY_POLL, "requested": None, "description": None,
            "status": "enabled", "reason": None, "listed": [], "asked": None, "tokens": 0, **want,
        }
        return "made " + dump(conf(self.streams[name]))

    def read_all(self, rules, case, now):
        client = member(case, "client", str)
        return "confs " + dump([conf(held) for held in self.in_order() if held["client"] == client])

    def read(self, rules, case, now):
        held = self.mine(case)
        return "conf " + dump(conf(held)) if held else "not-found"

    def patch(self, rules, case, now):
        return self.configured(case, want_in(case))

    def put(self, rules, case, now):
        return self.configured(case, {"delivery": BY_POLL, "requested": None, "description": None, **want_in(case)})

    def configured(self, case, want):
        held = self.mine(case)
        if not held:
            return "not-found"
        held.update(want)
        return "conf " + dump(conf(held))

    def delete(self, rules, case, now):
        held = self.mine(case)
        if not held:
            return "not-found"
        self.drop(held)
        del self.streams[held["stream"]]
        return "gone"

    def get_status(self, rules, case, now):
        held = self.mine(case)
        return state(held) if held else "not-found"

    def set_status(self, rules, case, now):
        (status, reason), held = status_in(case), self.mine(case)
        if not held:
            return "not-found"
        if held["status"] != status:
            if status == "disabled":
                self.drop(held)
            held.update(status=status, reason=reason)
        return state(held)

    def operator_status(self, rules, case, now):
        (status, reason), held = status_in(case), self.named(case)
        if not held:
            return "not-found"
        if held["status"] == status:
            return state(held)
        token = self.notice(held, UPDATED, {"reason": reason, "status": status}, now)
        if size(token) > PAYLOAD_BYTES:
            return f"long {size(token)}"
        if status == "disabled":
            self.drop(held)
        held.update(status=status, reason=reason)
        self.keep([token])
        return state(held, token["number"])

    def operator_delete(self, rules, case, now):
        held = self.named(case)
        if not held:
            return "not-found"
        self.drop(held)
        del self.streams[held["stream"]]
        return "gone"

    def standings(self):
        for held in self.in_order():
            owed = [token["claims"]["iat"] for token in self.owed(held)]
            yield {"made": held["tokens"], "oldest": owed[0] if owed else None, "owed": len(owed), "status": held["status"], "stream": held["stream"]}

    def listing(self, rules, case, now):
        place, standings = number(case, "from"), list(self.standings())
        return "standings " + dump({"next": min(place + STREAMS_PAGE, len(standings)), "streams": standings[place : place + STREAMS_PAGE]})

    def refuse(self, token, code):
        """A token that was reported as faulty, whatever becomes of its stream: all are here, and a page has of the last ones."""
        made_by = [id for id, (_, answer) in self.published.items() if issued(token) in answer["tokens"]]
        short = code if len(code.encode()) <= CODE_BYTES else None
        self.refused.append({"code": short, "id": made_by[0] if made_by else None, **issued(token), "time": token["claims"]["iat"]})

    def refusing(self, rules, case, now):
        first = max(number(case, "from"), len(self.refused) - REFUSED_KEPT)
        return "refused " + dump({"next": min(first + REFUSED_PAGE, len(self.refused)), "tokens": self.refused[first : first + REFUSED_PAGE]})

    def figures(self, rules, case, now):
        return "figures " + dump({"publications": len(self.published), "streams": list(self.standings())})

    def add(self, rules, case, now):
        return self.change_list(case, "NONE", "added")

    def remove(self, rules, case, now):
        return self.change_list(case, "ALL", "removed")

    def change_list(self, case, listing, answer):
        subject, held = subject_in(case), self.mine(case)
        if not held:
            return "not-found"
        held["listed"] = [one for one in held["listed"] if not same(one, subject)] + [subject] * (held["defaults"] == listing)
        return answer

    def verify(self, rules, case, now):
        asked, held = optional(case, "state", str), self.mine(case)
        if not held:
            return "not-found"
        if held["status"] == "disabled":
            return "disabled"
        if held["asked"] is not None and now < held["asked"] + held["interval"]:
            return f"early {held['asked'] + held['interval']}"
        token = self.notice(held, VERIFICATION, {"state": asked}, now)
        if size(token) > PAYLOAD_BYTES:
            return f"long {size(token)}"
        held["asked"] = now
        self.keep([token])
        return "asked " + dump(issued(token))

    def poll(self, rules, case, now):
        (acks, errors, most), held = ask_in(case), self.mine(case)
        if not held or held["delivery"] != BY_POLL:
            return "not-found"
        codes = dict(reversed(errors))
        for token in self.owed(held):
            jti = token["claims"]["jti"]
            token["owed"] = jti not in acks and codes.get(jti, KEEPING[0]) in KEEPING
            if jti not in acks and not token["owed"]:
                self.refuse(token, codes[jti])
        offered, place = self.offered(held), PAGE if most is None else min(most, PAGE)
        return "sets " + dump({"more": len(offered) > place, "tokens": list(map(handed, offered[:place]))})

    def publish(self, rules, case, now):
        if "publication" not in case:
            raise BadCase
        given = checked(check_publication, case["publication"])
        news = {name: given[name] for name in ["payload", "sub_id", "uri"]}
        if given["id"] in self.published:
            before, answer = self.published[given["id"]]
            return "published " + dump(answer) if same(before, news) else "conflict"
        due = [held for held in self.in_order() if is_due(held, given["sub_id"], given["uri"])]
        tokens = [self.token(held, given["sub_id"], given["uri"], given["payload"], now) for held in due]
        if max(map(size, tokens), default=0) > PAYLOAD_BYTES:
            return f"long {max(map(size, tokens))}"
        self.keep(tokens)
        answer = {"store": STORE_WORD, "tokens": list(map(issued, tokens))}
        self.published[given["id"]] = news, answer
        return "published " + dump(answer)

    def deliver(self, rules, case, now):
        held = self.named(case)
        return "delivering " + dump(held["stream"]) if held and held["delivery"] != BY_POLL else "not-found"

    def hand(self, rules, case, now):
        named = [self.streams[name] for name in dict.fromkeys(texts(case, "streams")) if name in self.streams]
        tokens = [token for held in named if held["delivery"] != BY_POLL for token in self.offered(held)]
        return "handed " + dump(list(map(handed, tokens[:PAGE])))

    def settle(self, rules, case, now):
        held, place, outcome = self.named(case), number(case, "number"), member(case, "outcome", str)
        if outcome == "reported":
            member(case, "code", str)
        elif outcome not in ["accepted", "keep"]:
            raise BadCase
        found = [token for token in self.owed(held) if token["number"] == place and outcome != "keep"] if held else []
        for token in found:
            token["owed"] = False
            if outcome == "reported":
                self.refuse(token, case["code"])
        return f"settled {len(found)}"


CALLS = {
    name: getattr(Core, name)
    for name in """metadata create read_all read patch put delete get_status set_status add remove verify poll publish operator_status
    operator_delete figures deliver hand settle""".split()
}
CALLS["streams"], CALLS["refused"] = Core.listing, Core.refusing


def is_due(held, subject, uri):
    requested = held["requested"] is None or uri in held["requested"]
    if held["defaults"] == "ALL":
        fits = not any(same(one, subject) for one in held["listed"])
    else:
        fits = any(matches(one, subject) for one in held["listed"])
    return held["status"] != "disabled" and requested and fits


def conf(held):
    return {name: held[name] for name in ["aud", "defaults", "delivery", "description", "interval", "iss", "requested", "stream"]}


def state(held, token=None):
    return "state " + dump({"reason": held["reason"], "status": held["status"], "stream": held["stream"], "token": token})


def issued(token):
    return {"number": token["number"], "stream": token["held"]["stream"]}


def handed(token):
    """A token as it is handed out: to where its stream sends now."""
    delivery = token["held"]["delivery"]
    is_push = delivery != BY_POLL
    endpoint = {name: delivery[name] for name in ["host", "path", "port", "secure"]} if is_push else None
    return {"authorization": delivery.get("authorization"), "claims": token["claims"], "endpoint": endpoint, **issued(token)}


def size(token):
    return len(dump(token["claims"]).encode())


def answer(core, rules, rest):
    case = read_case(rest)
    name = member(case, "call", str)
    if name not in CALLS:
        raise BadCase
    return CALLS[name](core, rules, case, number(case, "at") if "at" in case else 0)


def owed(core, rest):
    try:
        name = rest.decode()
    except UnicodeDecodeError:
        raise BadCase from None
    return f"owed {len(core.owed(core.streams[name]))}" if name in core.streams else "none"
