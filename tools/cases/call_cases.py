"""The cases of calls at a transmitter's core: the words `rules`, `call` and `owed` of `sig_cases`.

What calls do is of OpenID Shared Signals Framework 1.0, sections 7.1 and 8.1, of RFC 8935 for pushes, of RFC 8936 for polls,
and of docs/FORMATS.md. Each row has what it shows, its line and its answer by hand. `lines` gives them; `tools/models/calls.py`
computes the answers by a model that keeps the whole history, and has to give the same.

Nothing here comes from the program under test.
"""
from cases.stream_cases import CAEP, OPAQUE, PUSH, RISC, SR, SSF, each, text

STORE = "6ba7b810-9dad-11d1-80b4-00c04fd430c8"
STORE_WORD = "a6e4EJ2tEdGAtADAT9QwyA"
RP, TWO, ISSUER = "https://rp.example", "https://two.example", "https://idp.example"
SESSIONS, PURGED = RISC + "sessions-revoked", RISC + "account-purged"
VERIFICATION, UPDATED = SSF + "verification", SSF + "stream-updated"
BY_POLL = {"method": "poll"}
WHO = {"format": "opaque", "id": "s-77"}
NOBODY = [{"aud": [RP], "name": "acme"}, {"aud": [RP, TWO], "name": "zeta"}]


# ---- lines


def rules(**parts):
    return "rules " + text({"clients": NOBODY, "defaults": "ALL", "interval": 60, "issuer": ISSUER, **parts})


def call(name, stream=None, **parts):
    """A call on a stream, by the client whose name the stream's begins with."""
    named = {} if stream is None else {"client": stream.split("-")[0], "stream": stream}
    return "call " + text({"call": name, **named, **parts})


def operate(name, stream, **parts):
    return "call " + text({"call": name, "stream": stream, **parts})


def create(client="acme", **want):
    return call("create", client=client, want=want)


def publish(place, subject=WHO, uri=SR, payload=None, **parts):
    """The publication of a number."""
    body = {"events": {uri: payload or {}}, "publish_id": name_of(place), "sub_id": subject}
    return call("publish", publication=body, **parts)


def name_of(place):
    return f"{place:08d}-1111-1111-1111-111111111111"


def poll(stream, acks=(), errors=(), most=None, **parts):
    ask = {"acks": [jti(*one) for one in acks], "errors": [[jti(*one), code] for one, code in errors], "max": most}
    return call("poll", stream, ask=ask, **parts)


def settle(stream, place, outcome="accepted", **parts):
    return operate("settle", stream, number=place, outcome=outcome, **parts)


def jti(stream, place):
    return f"{STORE}.{stream}.{place}"


def by_push(url="http://rx.example:8080/events", **parts):
    return {"method": "urn:ietf:rfc:8935", "endpoint_url": url, **parts}


# ---- answers


def conf(stream, **parts):
    aud = [RP] if stream.startswith("acme") else [RP, TWO]
    given = {"aud": aud, "defaults": "ALL", "delivery": BY_POLL, "description": None, "interval": 60, "iss": ISSUER, "requested": None, "stream": stream}
    return {**given, **parts}


def made(stream, **parts):
    return "made " + text(conf(stream, **parts))


def stands(stream, **parts):
    return "conf " + text(conf(stream, **parts))


def pushed(url="http://rx.example:8080/events", host="rx.example", port=8080, path="/events", secure=False, shown=None):
    return {"authorization": shown, "host": host, "method": "push", "path": path, "port": port, "secure": secure, "url": url}


def state(stream, status, reason=None, token=None):
    return "state " + text({"reason": reason, "status": status, "stream": stream, "token": token})


def asked(stream, place):
    return "asked " + text({"number": place, "stream": stream})


def published(*tokens):
    return "published " + text({"store": STORE_WORD, "tokens": [{"number": place, "stream": stream} for stream, place in tokens]})


def token(stream, place, uri=SR, payload=None, subject=WHO, at=0, iss=ISSUER, **parts):
    """A token as it is handed out; its audience is a text where there is one (RFC 7519, section 4.1.3)."""
    aud = RP if stream.startswith("acme") else [RP, TWO]
    claims = {"aud": aud, "events": {uri: payload or {}}, "iat": at, "iss": iss, "jti": jti(stream, place), "sub_id": subject}
    return {"authorization": None, "claims": claims, "endpoint": None, "number": place, "stream": stream, **parts}


def of_stream(stream, place, uri, payload, at=0, **parts):
    return token(stream, place, uri, payload, {"format": "opaque", "id": stream}, at, **parts)


def sets(*tokens, more=False):
    return "sets " + text({"more": more, "tokens": list(tokens)})


def sent(stream, place, shown=None, host="rx.example", port=8080, path="/events", secure=False, **parts):
    endpoint = {"host": host, "path": path, "port": port, "secure": secure}
    return token(stream, place, authorization=shown, endpoint=endpoint, **parts)


def stand(stream, owed=0, made=0, status="enabled", oldest=None):
    return {"made": made, "oldest": oldest, "owed": owed, "status": status, "stream": stream}


def listed(behind, *streams):
    return "standings " + text({"next": behind, "streams": list(streams)})


def refusal(stream, place, publication=None, code=None, at=0):
    return {"code": code, "id": publication and name_of(publication), "number": place, "stream": stream, "time": at}


def refused(behind, *tokens):
    return "refused " + text({"next": behind, "tokens": list(tokens)})


def figures(publications, *streams):
    return "figures " + text({"publications": publications, "streams": list(streams)})


def handed(*tokens):
    return "handed " + text(list(tokens))


def anew(shows, **parts):
    """An empty core under these rules."""
    return [(shows, "clear", "ok"), ("", rules(**parts), "ok")]


NONE_STANDS = [
    ("At first there is no client and no stream. Shared Signals Framework 1.0, section 7.1: the metadata is for everybody", "clear", "ok"),
    ("", call("metadata"), "meta"),
    ("", create(), "not-found"),
    ("", call("read_all", client="acme"), "confs []"),
    *each("A call on a stream that isn't there", str, [
        call("read", "acme-1"), call("patch", "acme-1", want={}), call("put", "acme-1", want={}), call("delete", "acme-1"), call("get_status", "acme-1"),
        call("set_status", "acme-1", status="paused"), call("add", "acme-1", subject=WHO), call("remove", "acme-1", subject=WHO), call("verify", "acme-1"),
        poll("acme-1"), operate("operator_status", "acme-1", status="paused"), operate("deliver", "acme-1"),
    ], "not-found"),
    ("settles nothing, hands out nothing, and owes nothing", settle("acme-1", 1), "settled 0"),
    ("", call("hand", streams=["acme-1"]), "handed []"),
    ("", "owed acme-1", "none"),
    ("A publication stands though no stream is due", publish(1), published()),
    ("and does so for a stream that is made later", rules(), "ok"),
    ("", create(), made("acme-1")),
    ("", publish(1), published()),
    ("", "owed acme-1", "owed 0"),
]

# A client's streams: section 8.1.1.
STREAMS = [
    *anew("Section 8.1.1.1: a client's streams have its name and a number, its audience, and the rules' other settings"),
    ("", create(), made("acme-1")),
    ("", create("zeta", description="a", events_requested=[SR, "x"]), made("zeta-1", description="a", requested=[SR, "x"])),
    ("", create(delivery=by_push()), made("acme-2", delivery=pushed())),
    ("", create("nobody"), "not-found"),
    ("Section 8.1.1.2: a client reads its streams in the order of their numbers, and those of nobody else", call("read_all", client="acme"), "confs " + text([conf("acme-1"), conf("acme-2", delivery=pushed())])),
    ("", call("read_all", client="zeta"), "confs " + text([conf("zeta-1", description="a", requested=[SR, "x"])])),
    ("", call("read_all", client="nobody"), "confs []"),
    ("", call("read", "acme-2"), stands("acme-2", delivery=pushed())),
    ("", call("read", client="zeta", stream="acme-1"), "not-found"),
    ("", call("read", client="acme", stream="zeta-1"), "not-found"),
    ("", call("read", client="acme", stream="acme-01"), "not-found"),
    ("", call("read", client="", stream="acme-1"), "not-found"),
    *each("Nobody else changes, deletes, asks or polls a stream", str, [
        call("patch", client="zeta", stream="acme-1", want={"description": "b"}), call("put", client="zeta", stream="acme-1", want={}), call("delete", client="zeta", stream="acme-1"),
        call("get_status", client="zeta", stream="acme-1"), call("set_status", client="zeta", stream="acme-1", status="disabled"), call("add", client="zeta", stream="acme-1", subject=WHO),
        call("remove", client="zeta", stream="acme-1", subject=WHO), call("verify", client="zeta", stream="acme-1"), call("poll", client="zeta", stream="acme-1", ask={"acks": [], "errors": [], "max": 1}),
    ], "not-found"),
    ("", call("read", "acme-1"), stands("acme-1")),
    ("Section 8.1.1.3: a change keeps what isn't there", call("patch", "zeta-1", want={"delivery": by_push("https://rx.example")}), stands("zeta-1", description="a", requested=[SR, "x"], delivery=pushed("https://rx.example", port=443, path="/", secure=True))),
    ("", call("patch", "zeta-1", want={"description": "b"}), stands("zeta-1", description="b", requested=[SR, "x"], delivery=pushed("https://rx.example", port=443, path="/", secure=True))),
    ("", call("patch", "zeta-1", want={"events_requested": []}), stands("zeta-1", description="b", requested=[], delivery=pushed("https://rx.example", port=443, path="/", secure=True))),
    ("", call("patch", "zeta-1", want={}), stands("zeta-1", description="b", requested=[], delivery=pushed("https://rx.example", port=443, path="/", secure=True))),
    ("", call("patch", "zeta-1", want={"delivery": {}}), stands("zeta-1", description="b", requested=[])),
    ("Section 8.1.1.4: a replacement sets it to the default", call("put", "zeta-1", want={"description": "c"}), stands("zeta-1", description="c")),
    ("", call("put", "zeta-1", want={"delivery": by_push(authorization_header="z")}), stands("zeta-1", delivery=pushed(shown="z"))),
    ("", call("put", "zeta-1", want={}), stands("zeta-1")),
    ("", call("read", "zeta-1"), stands("zeta-1")),
    ("Section 8.1.1.5: a stream that was deleted isn't there, and its number isn't used again", call("delete", "acme-1"), "gone"),
    ("", call("delete", "acme-1"), "not-found"),
    ("", "owed acme-1", "none"),
    ("", create(), made("acme-3")),
    ("", call("delete", "acme-3"), "gone"),
    ("", create(), made("acme-4")),
    ("", call("read_all", client="acme"), "confs " + text([conf("acme-2", delivery=pushed()), conf("acme-4")])),
    ("A stream keeps the issuer, audience, interval and default subjects that it was made with", rules(clients=[{"aud": ["a"], "name": "acme"}], defaults="NONE", interval=0, issuer="b"), "ok"),
    ("", call("read", "acme-4"), stands("acme-4")),
    ("", create(), made("acme-5", aud=["a"], defaults="NONE", interval=0, iss="b")),
    ("A client that isn't configured any more makes no stream, and reads those that it has", create("zeta"), "not-found"),
    ("", call("read", "zeta-1"), stands("zeta-1")),
    ("", rules(), "ok"),
    *[("A client has 16 streams at most" if place == 6 else "", create(), made(f"acme-{place}")) for place in range(6, 19)],
    ("", create(), "too-many"),
    ("", create("zeta"), made("zeta-2")),
    ("Streams are in order of their numbers, not of their names", call("read_all", client="acme"), "confs " + text([conf("acme-2", delivery=pushed()), conf("acme-4"), conf("acme-5", aud=["a"], defaults="NONE", interval=0, iss="b"), *[conf(f"acme-{place}") for place in range(6, 19)]])),
    ("Another number is free where one was deleted", call("delete", "acme-9"), "gone"),
    ("", create(), made("acme-19")),
    ("", create(), "too-many"),
]

# Status, by the client and by the operator: sections 8.1.2 and 8.1.5.
STATUSES = [
    *anew("Section 8.1.2: a new stream is enabled, without a reason"),
    ("", create(), made("acme-1")),
    ("", call("get_status", "acme-1"), state("acme-1", "enabled")),
    ("A status that is set has the reason that it was set for", call("set_status", "acme-1", status="paused", reason="r"), state("acme-1", "paused", "r")),
    ("", call("get_status", "acme-1"), state("acme-1", "paused", "r")),
    ("One that stands already is told as it stands, with its reason", call("set_status", "acme-1", status="paused", reason="s"), state("acme-1", "paused", "r")),
    ("", call("set_status", "acme-1", status="paused"), state("acme-1", "paused", "r")),
    ("", call("get_status", "acme-1"), state("acme-1", "paused", "r")),
    ("", call("set_status", "acme-1", status="enabled"), state("acme-1", "enabled")),
    ("", call("set_status", "acme-1", status="disabled", reason=""), state("acme-1", "disabled", "")),
    ("", "owed acme-1", "owed 0"),
    ("Section 8.1.5: where the operator sets it, the receiver is told by a token, also on a disabled stream", operate("operator_status", "acme-1", status="enabled", reason="r", at=5), state("acme-1", "enabled", "r", 1)),
    ("", operate("operator_status", "acme-1", status="enabled", reason="s"), state("acme-1", "enabled", "r")),
    ("", operate("operator_status", "acme-1", status="paused", at=6), state("acme-1", "paused", None, 2)),
    ("", poll("acme-1"), sets(of_stream("acme-1", 1, UPDATED, {"reason": "r", "status": "enabled"}, 5), of_stream("acme-1", 2, UPDATED, {"status": "paused"}, 6))),
    ("What is published is held while a stream is paused; notices of its status are offered", publish(1, at=7), published(("acme-1", 3))),
    ("", poll("acme-1"), sets(of_stream("acme-1", 1, UPDATED, {"reason": "r", "status": "enabled"}, 5), of_stream("acme-1", 2, UPDATED, {"status": "paused"}, 6))),
    ("", "owed acme-1", "owed 3"),
    ("", call("set_status", "acme-1", status="enabled"), state("acme-1", "enabled")),
    ("", poll("acme-1", most=1, acks=[("acme-1", 1), ("acme-1", 2)]), sets(token("acme-1", 3, at=7))),
    ("A stream that its client disables owes nothing, and gets nothing", call("set_status", "acme-1", status="disabled"), state("acme-1", "disabled")),
    ("", "owed acme-1", "owed 0"),
    ("", publish(2), published()),
    ("", call("set_status", "acme-1", status="enabled"), state("acme-1", "enabled")),
    ("", poll("acme-1"), sets()),
    ("Where the operator disables it, the notice alone stays", publish(3), published(("acme-1", 4))),
    ("", operate("operator_status", "acme-1", status="disabled", at=9), state("acme-1", "disabled", None, 5)),
    ("", "owed acme-1", "owed 1"),
    ("", poll("acme-1"), sets(of_stream("acme-1", 5, UPDATED, {"status": "disabled"}, 9))),
    ("and a client that disables one that is disabled changes nothing", call("set_status", "acme-1", status="disabled"), state("acme-1", "disabled")),
    ("", "owed acme-1", "owed 1"),
    ("A client's own disabling drops earlier notices too", operate("operator_status", "acme-1", status="paused"), state("acme-1", "paused", None, 6)),
    ("", "owed acme-1", "owed 2"),
    ("", call("set_status", "acme-1", status="disabled"), state("acme-1", "disabled")),
    ("", "owed acme-1", "owed 0"),
    # the worked lines
    *anew("A stream that is paused holds a token and gives it once it is enabled"),
    ("", create(), made("acme-1")),
    ("", call("set_status", "acme-1", status="paused"), state("acme-1", "paused")),
    ("", publish(1), published(("acme-1", 1))),
    ("", poll("acme-1", most=32), sets()),
    ("", call("set_status", "acme-1", status="enabled"), state("acme-1", "enabled")),
    ("", poll("acme-1", most=32), sets(token("acme-1", 1))),
    ("", call("set_status", "acme-1", status="disabled"), state("acme-1", "disabled")),
    ("", "owed acme-1", "owed 0"),
    *anew("An operator's disabling takes the place of two tokens, and is told once"),
    ("", create(), made("acme-1")),
    ("", publish(1), published(("acme-1", 1))),
    ("", publish(2), published(("acme-1", 2))),
    ("", operate("operator_status", "acme-1", status="disabled"), state("acme-1", "disabled", None, 3)),
    ("", poll("acme-1"), sets(of_stream("acme-1", 3, UPDATED, {"status": "disabled"}))),
    ("", operate("operator_status", "acme-1", status="disabled"), state("acme-1", "disabled")),
    ("", poll("acme-1"), sets(of_stream("acme-1", 3, UPDATED, {"status": "disabled"}))),
    ("", poll("acme-1", acks=[("acme-1", 3)]), sets()),
]

# Polls: RFC 8936, section 2.
POLLS = [
    *anew("RFC 8936, section 2.4: a poll gets the first tokens in the order of their numbers"),
    ("", create(), made("acme-1")),
    ("", create("zeta"), made("zeta-1")),
    ("", publish(1, at=1700000000), published(("acme-1", 1), ("zeta-1", 1))),
    ("", publish(2, uri=PURGED, at=1700000001), published(("acme-1", 2), ("zeta-1", 2))),
    ("", publish(3, uri=SESSIONS), published(("acme-1", 3), ("zeta-1", 3))),
    ("", poll("acme-1"), sets(token("acme-1", 1, at=1700000000), token("acme-1", 2, PURGED, at=1700000001), token("acme-1", 3, SESSIONS))),
    ("RFC 8417, section 2.2: an audience of two stands as a list", poll("zeta-1", most=1), sets(token("zeta-1", 1, at=1700000000), more=True)),
    ("As many as it asks for, none among them, and whether there are more", poll("acme-1", most=2), sets(token("acme-1", 1, at=1700000000), token("acme-1", 2, PURGED, at=1700000001), more=True)),
    ("", poll("acme-1", most=0), sets(more=True)),
    ("", poll("acme-1", most=3), sets(token("acme-1", 1, at=1700000000), token("acme-1", 2, PURGED, at=1700000001), token("acme-1", 3, SESSIONS))),
    ("", poll("acme-1", most=2**62), sets(token("acme-1", 1, at=1700000000), token("acme-1", 2, PURGED, at=1700000001), token("acme-1", 3, SESSIONS))),
    ("A token that was given is owed until it is acknowledged", "owed acme-1", "owed 3"),
    ("Section 2.4.2: acknowledgements alone. Another stream's token stays owed there", poll("acme-1", [("acme-1", 1), ("zeta-1", 1)], most=0), sets(more=True)),
    ("", "owed acme-1", "owed 2"),
    ("", "owed zeta-1", "owed 3"),
    ("An acknowledgement that comes again, or names no token, changes nothing", poll("acme-1", [("acme-1", 1), ("acme-1", 4), ("acme-1", 0), ("acme-2", 2), ("", 2)], most=1), sets(token("acme-1", 2, PURGED, at=1700000001), more=True)),
    *each("nor one that is nearly a token's identifier", lambda one: call("poll", "acme-1", ask={"acks": [one], "errors": [], "max": 0}), ["", STORE + ".acme-1.", STORE + ".acme-1.02", STORE + ".acme-1.+2", STORE + ".acme-1.2 ", STORE.upper() + ".acme-1.2", STORE.replace("-", "") + ".acme-1.2", "acme-1.2", STORE + "acme-1.2", STORE + ".acme-1", STORE + ".acme-1.2.", STORE + ".acme-1.18446744073709551618"], sets(more=True)),
    ("", "owed acme-1", "owed 2"),
    ("Section 2.6: a token that is refused is owed no more", poll("acme-1", errors=[(("acme-1", 2), "invalid_key")], most=1), sets(token("acme-1", 3, SESSIONS))),
    ("", "owed acme-1", "owed 1"),
    *each("unless the refusal is about the bearer", lambda code: poll("acme-1", errors=[(("acme-1", 3), code)], most=1), ["authentication_failed", "access_denied"], sets(token("acme-1", 3, SESSIONS))),
    *each("Another's and a made up token's refusals change nothing", lambda one: poll("acme-1", errors=[(one, "invalid_key")], most=1), [("zeta-1", 3), ("acme-1", 2), ("acme-1", 7)], sets(token("acme-1", 3, SESSIONS))),
    ("Where a token is both taken and refused, it was taken, whatever the code", poll("acme-1", [("acme-1", 3)], [(("acme-1", 3), "access_denied")], 1), sets()),
    ("", "owed acme-1", "owed 0"),
    ("Each code but the two settles, an empty one too", poll("zeta-1", [("zeta-1", 1)], [(("zeta-1", 3), ""), (("zeta-1", 2), "Access_denied")]), sets()),
    ("", "owed zeta-1", "owed 0"),
    ("A page has 32 tokens at most", call("delete", "zeta-1"), "gone"),
    *[("", publish(place), published(("acme-1", place))) for place in range(4, 37)],
    ("", poll("acme-1", most=40), sets(*[token("acme-1", place) for place in range(4, 36)], more=True)),
    ("", poll("acme-1", most=33), sets(*[token("acme-1", place) for place in range(4, 36)], more=True)),
    ("", poll("acme-1"), sets(*[token("acme-1", place) for place in range(4, 36)], more=True)),
    ("and the rest comes once these are taken", poll("acme-1", [("acme-1", place) for place in range(4, 36)]), sets(token("acme-1", 36))),
    ("A poll settles in whatever order, also tokens that aren't offered while the stream is paused", publish(37), published(("acme-1", 37))),
    ("", publish(38), published(("acme-1", 38))),
    ("", call("set_status", "acme-1", status="paused"), state("acme-1", "paused")),
    ("", poll("acme-1", [("acme-1", 38), ("acme-1", 36)]), sets()),
    ("", call("set_status", "acme-1", status="enabled"), state("acme-1", "enabled")),
    ("", poll("acme-1"), sets(token("acme-1", 37))),
    ("Tokens of a stream that is pushed aren't polled, nor settled by a poll", call("patch", "acme-1", want={"delivery": by_push()}), stands("acme-1", delivery=pushed())),
    ("", poll("acme-1", [("acme-1", 37)]), "not-found"),
    ("", "owed acme-1", "owed 1"),
    ("", call("patch", "acme-1", want={"delivery": {}}), stands("acme-1")),
    ("", poll("acme-1"), sets(token("acme-1", 37))),
    ("The tokens of a stream that is deleted are owed no more", call("delete", "acme-1"), "gone"),
    ("", "owed acme-1", "none"),
    ("", create(), made("acme-2")),
    ("", poll("acme-2", [("acme-1", 37)]), sets()),
    ("", settle("acme-1", 37), "settled 0"),
]

# Pushes: RFC 8935, section 2.
PUSHES = [
    *anew("RFC 8935, section 2: a push stream's tokens are handed out with the place that they go to"),
    ("", create(delivery=by_push(authorization_header="Bearer a")), made("acme-1", delivery=pushed(shown="Bearer a"))),
    ("", create(), made("acme-2")),
    ("", create("zeta", delivery=by_push("https://two.example")), made("zeta-1", delivery=pushed("https://two.example", "two.example", 443, "/", True))),
    ("", publish(1, at=3), published(("acme-1", 1), ("acme-2", 1), ("zeta-1", 1))),
    ("", publish(2, at=4), published(("acme-1", 2), ("acme-2", 2), ("zeta-1", 2))),
    ("", call("hand", streams=["acme-1"]), handed(sent("acme-1", 1, "Bearer a", at=3), sent("acme-1", 2, "Bearer a", at=4))),
    ("in the order in which the streams are named", call("hand", streams=["zeta-1", "acme-1"]), handed(sent("zeta-1", 1, host="two.example", port=443, path="/", secure=True, at=3), sent("zeta-1", 2, host="two.example", port=443, path="/", secure=True, at=4), sent("acme-1", 1, "Bearer a", at=3), sent("acme-1", 2, "Bearer a", at=4))),
    ("A name that comes again, that no stream has, or that is of a stream that is polled counts for nothing", call("hand", streams=["acme-2", "acme-1", "acme-3", "acme-1", ""]), handed(sent("acme-1", 1, "Bearer a", at=3), sent("acme-1", 2, "Bearer a", at=4))),
    *each("", lambda names: call("hand", streams=names), [[], ["acme-2"], ["x"], ["acme-01"]], handed()),
    ("The operator asks for a round of pushes of a stream that is pushed", operate("deliver", "acme-1"), 'delivering "acme-1"'),
    ("", operate("deliver", "acme-2"), "not-found"),
    ("", operate("deliver", "acme-3"), "not-found"),
    ("Section 2.2: a token that was taken is owed no more", settle("acme-1", 1), "settled 1"),
    ("", settle("acme-1", 1), "settled 0"),
    ("", call("hand", streams=["acme-1"]), handed(sent("acme-1", 2, "Bearer a", at=4))),
    ("Section 2.3: nor is one that was refused", settle("acme-1", 2, "reported", code="invalid_issuer"), "settled 1"),
    ("", "owed acme-1", "owed 0"),
    ("", settle("acme-1", 2, "reported", code="invalid_issuer"), "settled 0"),
    ("Any other answer leaves it owed", settle("zeta-1", 1, "keep"), "settled 0"),
    ("", "owed zeta-1", "owed 2"),
    *each("A token that isn't owed isn't settled", lambda place: settle("zeta-1", place), [0, 3, 2**62], "settled 0"),
    ("", settle("acme-3", 1), "settled 0"),
    ("A later token may be settled before an earlier one", settle("zeta-1", 2), "settled 1"),
    ("", call("hand", streams=["zeta-1"]), handed(sent("zeta-1", 1, host="two.example", port=443, path="/", secure=True, at=3))),
    ("An answer settles a token of a stream that is polled by now", call("patch", "zeta-1", want={"delivery": {}}), stands("zeta-1")),
    ("", call("hand", streams=["zeta-1"]), handed()),
    ("", operate("deliver", "zeta-1"), "not-found"),
    ("", settle("zeta-1", 1), "settled 1"),
    ("", poll("zeta-1"), sets()),
    ("A token goes to where its stream sends by now", publish(3, at=5), published(("acme-1", 3), ("acme-2", 3), ("zeta-1", 3))),
    ("", call("patch", "acme-1", want={"delivery": by_push("http://b:81")}), stands("acme-1", delivery=pushed("http://b:81", "b", 81, "/"))),
    ("", call("hand", streams=["acme-1"]), handed(sent("acme-1", 3, None, "b", 81, "/", at=5))),
    ("", call("put", "acme-2", want={"delivery": by_push("http://c/d")}), stands("acme-2", delivery=pushed("http://c/d", "c", 80, "/d"))),
    ("", call("hand", streams=["acme-2"]), handed(sent("acme-2", 1, None, "c", 80, "/d", at=3), sent("acme-2", 2, None, "c", 80, "/d", at=4), sent("acme-2", 3, None, "c", 80, "/d", at=5))),
    ("A paused stream hands out its notices alone, and a disabled one the last", operate("operator_status", "acme-1", status="paused", at=6), state("acme-1", "paused", None, 4)),
    ("", call("hand", streams=["acme-1"]), handed(of_stream("acme-1", 4, UPDATED, {"status": "paused"}, 6, endpoint={"host": "b", "path": "/", "port": 81, "secure": False}))),
    ("", operate("deliver", "acme-1"), 'delivering "acme-1"'),
    ("", operate("operator_status", "acme-1", status="disabled", at=7), state("acme-1", "disabled", None, 5)),
    ("", call("hand", streams=["acme-1"]), handed(of_stream("acme-1", 5, UPDATED, {"status": "disabled"}, 7, endpoint={"host": "b", "path": "/", "port": 81, "secure": False}))),
    ("", operate("deliver", "acme-1"), 'delivering "acme-1"'),
    ("At most 32 tokens are handed out in all", operate("operator_status", "acme-1", status="enabled", at=8), state("acme-1", "enabled", None, 6)),
    *[("", publish(place, uri=PURGED), published(("acme-1", place - 3), ("acme-2", place - 6), ("zeta-1", place - 6))) for place in range(10, 38)],
    ("", call("hand", streams=["acme-1", "acme-2"]), handed(
        of_stream("acme-1", 5, UPDATED, {"status": "disabled"}, 7, endpoint={"host": "b", "path": "/", "port": 81, "secure": False}),
        of_stream("acme-1", 6, UPDATED, {"status": "enabled"}, 8, endpoint={"host": "b", "path": "/", "port": 81, "secure": False}),
        *[sent("acme-1", place, None, "b", 81, "/", uri=PURGED) for place in range(7, 35)],
        *[sent("acme-2", place, None, "c", 80, "/d", at=place + 2) for place in range(1, 3)],
    )),
]

# Verification: section 8.1.4.2.
VERIFICATIONS = [
    *anew("Section 8.1.4.2: a verification is asked for, and the token has the state that is to be sent back"),
    ("", create(), made("acme-1")),
    ("", call("verify", "acme-1", at=100), asked("acme-1", 1)),
    ("Another comes after the interval, and not before", call("verify", "acme-1", at=100), "early 160"),
    ("", call("verify", "acme-1", at=159, state="a"), "early 160"),
    ("", call("verify", "acme-1", at=0), "early 160"),
    ("", call("verify", "acme-1", at=160, state="VGhpcyBpcyBhbiBleGFtcGxl"), asked("acme-1", 2)),
    ("One that was too early didn't count", call("verify", "acme-1", at=219), "early 220"),
    ("", call("verify", "acme-1", at=220, state=""), asked("acme-1", 3)),
    ("", poll("acme-1", most=1), sets(of_stream("acme-1", 1, VERIFICATION, {}, 100), more=True)),
    ("", poll("acme-1"), sets(of_stream("acme-1", 1, VERIFICATION, {}, 100), of_stream("acme-1", 2, VERIFICATION, {"state": "VGhpcyBpcyBhbiBleGFtcGxl"}, 160), of_stream("acme-1", 3, VERIFICATION, {"state": ""}, 220))),
    ("The types that were asked for and the subjects have nothing to do with it", call("patch", "acme-1", want={"events_requested": []}), stands("acme-1", requested=[])),
    ("", call("remove", "acme-1", subject={"format": "opaque", "id": "acme-1"}), "removed"),
    ("", call("verify", "acme-1", at=280), asked("acme-1", 4)),
    ("A paused stream is verified, and gives the token once it is enabled", call("set_status", "acme-1", status="paused"), state("acme-1", "paused")),
    ("", call("verify", "acme-1", at=340), asked("acme-1", 5)),
    ("", poll("acme-1"), sets()),
    ("", "owed acme-1", "owed 5"),
    ("A disabled one isn't, which is told before the time", call("set_status", "acme-1", status="disabled"), state("acme-1", "disabled")),
    ("", call("verify", "acme-1", at=400), "disabled"),
    ("", call("verify", "acme-1", at=341), "disabled"),
    ("The last time stands through all that", call("set_status", "acme-1", status="enabled"), state("acme-1", "enabled")),
    ("", call("verify", "acme-1", at=399), "early 400"),
    ("", call("verify", "acme-1", at=400), asked("acme-1", 6)),
    ("Each stream has its own time", create(), made("acme-2")),
    ("", call("verify", "acme-2", at=401), asked("acme-2", 1)),
    ("The interval is that of the stream's making: none, and a day", rules(interval=0), "ok"),
    ("", create(), made("acme-3", interval=0)),
    ("", call("verify", "acme-3", at=7), asked("acme-3", 1)),
    ("", call("verify", "acme-3", at=7), asked("acme-3", 2)),
    ("", call("verify", "acme-3", at=6), "early 7"),
    ("", rules(interval=86400), "ok"),
    ("", create(), made("acme-4", interval=86400)),
    ("", call("verify", "acme-4", at=2**62), asked("acme-4", 1)),
    ("", call("verify", "acme-4", at=2**62), "early 4611686018427474304"),
    ("", call("verify", "acme-1", at=460), asked("acme-1", 7)),
    ("", call("verify", "acme-1", at=519), "early 520"),
]

# The payload of a token has 6,000 bytes at most. The state of a verification stands behind 344 bytes of others, all counted.
BEHIND = len(text(of_stream("acme-1", 1, VERIFICATION, {"state": ""})["claims"]))
OF_NOTICE = len(text(of_stream("acme-1", 2, UPDATED, {"reason": "", "status": "paused"})["claims"]))
OF_NEWS = len(text(token("acme-1", 3, RISC + "account-disabled", {"reason": ""})["claims"]))
OF_TWO = len(text(token("zeta-1", 1, RISC + "account-disabled", {"reason": ""})["claims"]))
SIZES = [
    *anew("A token's payload has 6,000 bytes at most, in UTF-8. A longer one isn't made, and changes nothing"),
    ("", create(), made("acme-1")),
    ("", call("verify", "acme-1", state="s" * (6001 - BEHIND)), "long 6001"),
    ("", call("verify", "acme-1", state="é" * 3500), f"long {BEHIND + 7000}"),
    ("", "owed acme-1", "owed 0"),
    ("", call("verify", "acme-1", state="s" * (6000 - BEHIND)), asked("acme-1", 1)),
    ("", operate("operator_status", "acme-1", status="paused", reason="r" * (6001 - OF_NOTICE)), "long 6001"),
    ("", call("get_status", "acme-1"), state("acme-1", "enabled")),
    ("", operate("operator_status", "acme-1", status="paused", reason="r" * (6000 - OF_NOTICE)), state("acme-1", "paused", "r" * (6000 - OF_NOTICE), 2)),
    ("A client's reason makes no token", call("set_status", "acme-1", status="enabled", reason="r" * 6000), state("acme-1", "enabled", "r" * 6000)),
    ("A quote is two bytes where it is written", publish(1, uri=RISC + "account-disabled", payload={"reason": '"' * 3000}), f"long {OF_NEWS + 6000}"),
    ("A publication that was too long hasn't used its name", publish(1, uri=RISC + "account-disabled", payload={"reason": "r" * (6000 - OF_NEWS)}), published(("acme-1", 3))),
    ("The largest of its tokens is told: the one for two audiences", create("zeta"), made("zeta-1")),
    ("", publish(2, uri=RISC + "account-disabled", payload={"reason": "r" * (6001 - OF_NEWS)}), f"long {6001 - OF_NEWS + OF_TWO}"),
    ("", publish(2, uri=RISC + "account-disabled", payload={"reason": "r" * (6000 - OF_TWO)}), published(("acme-1", 4), ("zeta-1", 1))),
    ("Where no stream is due, nothing is too long", call("set_status", "acme-1", status="disabled"), state("acme-1", "disabled")),
    ("", call("delete", "zeta-1"), "gone"),
    ("", publish(3, uri=RISC + "account-disabled", payload={"reason": "r" * 7000}), published()),
]

USER, ON_DEVICE = {"format": "complex", "user": WHO}, {"format": "complex", "user": WHO, "device": {"format": "opaque", "id": "d"}}
OTHER = {"format": "opaque", "id": "s-78"}
AUTHORS = [
    *anew("A publication makes a token for each stream that is due, in the order of client names and of numbers"),
    ("", create("zeta"), made("zeta-1")),
    *[("", create(), made(f"acme-{place}")) for place in range(1, 11)],
    ("", call("set_status", "acme-3", status="disabled"), state("acme-3", "disabled")),
    ("", call("set_status", "acme-4", status="paused"), state("acme-4", "paused")),
    ("", call("patch", "acme-5", want={"events_requested": [PURGED]}), stands("acme-5", requested=[PURGED])),
    ("", call("patch", "acme-6", want={"events_requested": [SR, PURGED]}), stands("acme-6", requested=[SR, PURGED])),
    ("", call("patch", "acme-7", want={"events_requested": []}), stands("acme-7", requested=[])),
    ("", call("remove", "acme-8", subject=WHO), "removed"),
    ("", call("patch", "acme-9", want={"delivery": by_push()}), stands("acme-9", delivery=pushed())),
    ("", publish(1), published(*[(f"acme-{place}", 1) for place in [1, 2, 4, 6, 9, 10]], ("zeta-1", 1))),
    ("", publish(2, uri=PURGED, subject=OTHER), published(("acme-1", 2), ("acme-2", 2), ("acme-4", 2), ("acme-5", 1), ("acme-6", 2), ("acme-8", 1), ("acme-9", 2), ("acme-10", 2), ("zeta-1", 2))),
    ("What comes again is answered as at first, whatever changed since then", call("delete", "acme-1"), "gone"),
    ("", call("set_status", "acme-2", status="disabled"), state("acme-2", "disabled")),
    ("", publish(1, at=9), published(*[(f"acme-{place}", 1) for place in [1, 2, 4, 6, 9, 10]], ("zeta-1", 1))),
    ("", "owed zeta-1", "owed 2"),
    ("", publish(3), published(("acme-4", 3), ("acme-6", 3), ("acme-9", 3), ("acme-10", 3), ("zeta-1", 3))),
    # one name, one publication
    *anew("A name under which something else was published is in use"),
    ("", create(), made("acme-1")),
    ("", publish(1), published(("acme-1", 1))),
    ("", publish(1), published(("acme-1", 1))),
    ("", "owed acme-1", "owed 1"),
    ("", publish(1, subject=OTHER), "conflict"),
    ("", publish(1, uri=SESSIONS), "conflict"),
    ("", publish(1, payload={"event_timestamp": 1}), "conflict"),
    ("", publish(1, payload={"reason_admin": "a"}), "conflict"),
    ("", publish(1, subject=USER), "conflict"),
    ("What isn't read doesn't tell publications apart", publish(1, payload={"x": 1}), published(("acme-1", 1))),
    ("nor does the spelling of the name", call("publish", publication={"events": {SR: {}}, "publish_id": "{" + name_of(1) + "}", "sub_id": WHO}), published(("acme-1", 1))),
    ("", call("publish", publication={"events": {SR: {}}, "publish_id": name_of(1).replace("-", ""), "sub_id": WHO}), published(("acme-1", 1))),
    ("", "owed acme-1", "owed 1"),
    ("Another name is another publication, of the same", publish(2), published(("acme-1", 2))),
    ("A token says what was published, of whom, and when it was made", publish(3, subject=ON_DEVICE, payload={"reason_user": {"en": "a"}, "x": 7}, at=1700000000), published(("acme-1", 3))),
    ("", poll("acme-1", [("acme-1", 1), ("acme-1", 2)]), sets(token("acme-1", 3, SR, {"reason_user": {"en": "a"}}, ON_DEVICE, 1700000000))),
    ("and by which issuer, for which audience: those of the stream's making", rules(issuer="b", clients=[{"aud": ["c"], "name": "acme"}]), "ok"),
    ("", publish(4), published(("acme-1", 4))),
    ("", poll("acme-1", [("acme-1", 3)]), sets(token("acme-1", 4))),
]

# Subjects: sections 7.1 and 8.1.3.
SUBJECTS = [
    *anew("Section 7.1: by default NONE a new stream has no subject, and the client adds some", defaults="NONE"),
    ("", create(), made("acme-1", defaults="NONE")),
    ("", publish(1), published()),
    ("", call("add", "acme-1", subject=WHO), "added"),
    ("", publish(2), published(("acme-1", 1))),
    ("", call("remove", "acme-1", subject=WHO), "removed"),
    ("", publish(3), published()),
    ("", "owed acme-1", "owed 1"),
    ("Adding twice and removing what isn't there change nothing", call("add", "acme-1", subject=WHO), "added"),
    ("", call("add", "acme-1", subject=WHO), "added"),
    ("", call("remove", "acme-1", subject=OTHER), "removed"),
    ("", publish(4), published(("acme-1", 2))),
    ("", publish(5, subject=OTHER), published()),
    ("", call("remove", "acme-1", subject=WHO), "removed"),
    ("", publish(6), published()),
    ("", call("remove", "acme-1", subject=WHO), "removed"),
    ("Section 8.1.3.1: a complex subject that was added has those that it matches", call("add", "acme-1", subject=USER), "added"),
    ("", publish(7, subject=ON_DEVICE), published(("acme-1", 3))),
    ("", publish(8, subject=USER), published(("acme-1", 4))),
    ("", publish(9), published()),
    ("", publish(10, subject={"format": "complex", "user": OTHER}), published()),
    ("", publish(11, subject={"format": "complex", "session": OTHER}), published(("acme-1", 5))),
    ("and goes as it came, not by one that matches it", call("remove", "acme-1", subject=ON_DEVICE), "removed"),
    ("", publish(12, subject=ON_DEVICE), published(("acme-1", 6))),
    ("", call("remove", "acme-1", subject={"user": WHO, "format": "complex"}), "removed"),
    ("", publish(13, subject=ON_DEVICE), published()),
    ("The default is that of the stream's making: under ALL a stream has each subject but those that were removed", rules(), "ok"),
    ("", create(), made("acme-2")),
    ("", publish(14), published(("acme-2", 1))),
    ("", call("remove", "acme-2", subject=USER), "removed"),
    ("", publish(15, subject=USER), published()),
    ("of them the identical ones alone", publish(16, subject=ON_DEVICE), published(("acme-2", 2))),
    ("", publish(17), published(("acme-2", 3))),
    ("", call("remove", "acme-2", subject=WHO), "removed"),
    ("", call("remove", "acme-2", subject=WHO), "removed"),
    ("", publish(18), published()),
    ("", call("add", "acme-2", subject=WHO), "added"),
    ("", publish(19), published(("acme-2", 4))),
    ("", call("add", "acme-2", subject=WHO), "added"),
    ("", publish(20, subject=USER), published()),
    ("A subject that is removed takes back no token", "owed acme-2", "owed 4"),
    ("Each stream has its own list", create(), made("acme-3")),
    ("", publish(21, subject=USER), published(("acme-3", 1))),
    ("", call("add", "acme-1", subject=WHO), "added"),
    ("", publish(22), published(("acme-1", 7), ("acme-2", 5), ("acme-3", 2))),
]

# What the operator reads of all streams, and that it deletes any.
ALL = [stand(f"acme{client}-{place}") for client in range(1, 8) for place in range(1, 16)]
OVERSEEN = [
    *anew("Where no stream stands, none is listed, from whichever place"),
    ("", call("streams", **{"from": 0}), listed(0)),
    ("", call("streams", **{"from": 7}), listed(0)),
    ("", call("figures"), figures(0)),
    ("", operate("operator_delete", "acme-1"), "not-found"),
    ("The streams of all clients stand in the order of client names and of numbers", create("zeta"), made("zeta-1")),
    *[("", create(), made(f"acme-{place}")) for place in range(1, 11)],
    ("", call("delete", "acme-3"), "gone"),
    *[("", call("delete", f"acme-{place}"), "gone") for place in range(4, 10)],
    ("", call("streams", **{"from": 0}), listed(4, stand("acme-1"), stand("acme-2"), stand("acme-10"), stand("zeta-1"))),
    ("with what each owes, since when, and how many were made for it", publish(1, at=1700000000), published(("acme-1", 1), ("acme-2", 1), ("acme-10", 1), ("zeta-1", 1))),
    ("", call("set_status", "acme-2", status="disabled"), state("acme-2", "disabled")),
    ("", publish(2, at=1700000005), published(("acme-1", 2), ("acme-10", 2), ("zeta-1", 2))),
    ("", poll("acme-1", [("acme-1", 1)]), sets(token("acme-1", 2, at=1700000005))),
    ("", operate("operator_status", "zeta-1", status="paused", at=1700000009), state("zeta-1", "paused", None, 3)),
    ("", call("streams", **{"from": 0}), listed(4, stand("acme-1", 1, 2, oldest=1700000005), stand("acme-2", 0, 1, "disabled"), stand("acme-10", 2, 2, oldest=1700000000), stand("zeta-1", 3, 3, "paused", 1700000000))),
    ("from a place on, and none from the last one", call("streams", **{"from": 2}), listed(4, stand("acme-10", 2, 2, oldest=1700000000), stand("zeta-1", 3, 3, "paused", 1700000000))),
    *[("", call("streams", **{"from": place}), listed(4)) for place in [4, 5, 2**62]],
    ("The figures are of all streams, and of the publications that stand", call("figures"), figures(2, stand("acme-1", 1, 2, oldest=1700000005), stand("acme-2", 0, 1, "disabled"), stand("acme-10", 2, 2, oldest=1700000000), stand("zeta-1", 3, 3, "paused", 1700000000))),
    ("A publication that comes again, or that isn't taken, doesn't count", publish(1), published(("acme-1", 1), ("acme-2", 1), ("acme-10", 1), ("zeta-1", 1))),
    ("", publish(1, uri=SESSIONS), "conflict"),
    ("A client that is configured no longer keeps its streams, and they are listed", rules(clients=[{"aud": [RP], "name": "acme"}]), "ok"),
    ("", call("streams", **{"from": 3}), listed(4, stand("zeta-1", 3, 3, "paused", 1700000000))),
    ("The operator deletes them", operate("operator_delete", "zeta-1"), "gone"),
    ("", operate("operator_delete", "zeta-1"), "not-found"),
    ("", "owed zeta-1", "none"),
    ("and those of a client that is", operate("operator_delete", "acme-10"), "gone"),
    ("", call("read", "acme-10"), "not-found"),
    ("", call("figures"), figures(2, stand("acme-1", 1, 2, oldest=1700000005), stand("acme-2", 0, 1, "disabled"))),
    ("A client may make another one then, with a number of its own", create(), made("acme-11")),
    # a page has at most 100
    *anew("A page has at most 100 streams", clients=[{"aud": [RP], "name": f"acme{place}"} for place in range(1, 8)]),
    *[("", create(f"acme{client}"), made(f"acme{client}-{place}")) for client in range(1, 8) for place in range(1, 16)],
    ("", call("streams", **{"from": 0}), listed(100, *ALL[:100])),
    ("", call("streams", **{"from": 1}), listed(101, *ALL[1:101])),
    ("", call("streams", **{"from": 5}), listed(105, *ALL[5:])),
    ("", call("streams", **{"from": 100}), listed(105, *ALL[100:])),
    ("", call("figures"), figures(0, *ALL)),
    *anew("Back to the streams of the cases above"),
    ("", create(), made("acme-1")),
    *[("", publish(place), published(("acme-1", place))) for place in range(1, 8)],
]

# What the operator reads of tokens that were reported as faulty.
MANY = [refusal("acme-1", place, place, "c", 1700000000 + place) for place in range(1, 103)]
REPORTED = [
    *anew("Where nothing was reported, nothing is told, from whichever place"),
    ("", call("refused", **{"from": 0}), refused(0)),
    ("", call("refused", **{"from": 2**62}), refused(0)),
    ("", create(), made("acme-1")),
    ("", create("zeta", delivery=by_push()), made("zeta-1", delivery=pushed())),
    ("", publish(1, at=1700000000), published(("acme-1", 1), ("zeta-1", 1))),
    ("", publish(2, at=1700000001), published(("acme-1", 2), ("zeta-1", 2))),
    ("", call("verify", "acme-1", at=1700000002), asked("acme-1", 3)),
    ("", operate("operator_status", "acme-1", status="paused", at=1700000003), state("acme-1", "paused", None, 4)),
    ("RFC 8936, section 2.4.4: a token that is reported is told with its publication, its code and its own time", poll("acme-1", [], [(("acme-1", 2), "invalid_audience")], 0), sets(more=True)),
    ("", call("refused", **{"from": 0}), refused(1, refusal("acme-1", 2, 2, "invalid_audience", 1700000001))),
    ("An acknowledged one isn't, one that is kept isn't, and a code that is empty is told", poll("acme-1", [("acme-1", 1)], [(("acme-1", 1), "x"), (("acme-1", 3), ""), (("acme-1", 4), "access_denied")], 0), sets(more=True)),
    ("A verification is of no publication, nor is what tells of a status", call("refused", **{"from": 1}), refused(2, refusal("acme-1", 3, None, "", 1700000002))),
    ("", poll("acme-1", [], [(("acme-1", 4), "y"), (("acme-1", 4), "z"), (("acme-1", 2), "again")]), sets()),
    ("RFC 8935, section 2.3: a push that is answered so is told too; a code of more than 64 bytes isn't kept", settle("zeta-1", 2, "reported", code="c" * 65), "settled 1"),
    ("", settle("zeta-1", 1, "reported", code="é" * 32), "settled 1"),
    ("", settle("zeta-1", 1, "reported", code="x"), "settled 0"),
    ("in the order in which they were reported", call("refused", **{"from": 2}), refused(5, refusal("acme-1", 4, None, "y", 1700000003), refusal("zeta-1", 2, 2, None, 1700000001), refusal("zeta-1", 1, 1, "é" * 32, 1700000000))),
    ("and their stream's deletion leaves them", operate("operator_delete", "zeta-1"), "gone"),
    ("", call("delete", "acme-1"), "gone"),
    ("", call("refused", **{"from": 3}), refused(5, refusal("zeta-1", 2, 2, None, 1700000001), refusal("zeta-1", 1, 1, "é" * 32, 1700000000))),
    *[("", call("refused", **{"from": place}), refused(5)) for place in [5, 6, 2**62]],
    *anew("A page has at most 100 of them"),
    ("", create(), made("acme-1")),
    *[row for place in range(1, 103) for row in [
        ("", publish(place, at=1700000000 + place), published(("acme-1", place))),
        ("", settle("acme-1", place, "reported", code="c"), "settled 1"),
    ]],
    ("", call("refused", **{"from": 0}), refused(100, *MANY[:100])),
    ("", call("refused", **{"from": 1}), refused(101, *MANY[1:101])),
    ("", call("refused", **{"from": 100}), refused(102, *MANY[100:])),
    *anew("Back to the streams of the cases above"),
    ("", create(), made("acme-1")),
    *[("", publish(place), published(("acme-1", place))) for place in range(1, 8)],
]

FORMS = [
    *each("What spells no call changes nothing. The object names a call, and has its parts", str, [
        "call ", "call {", "call []", "call null", 'call "metadata"', "call {}", call("Metadata"), call(""), call("commit"), "call " + text({"call": 7}), call("metadata", at=-1),
        call("metadata", at=2**62 + 1), call("metadata", at="1"), call("metadata", at=None), "call " + '{"call":"metadata","at":1.5}', call("read_all"), call("read_all", client=7), call("create"),
        call("create", client="acme"), call("create", want={}), create(description=7), create(delivery={"method": "x"}), "call " + text({"call": "read", "client": "acme"}), "call " + text({"call": "read", "stream": "acme-1"}),
        call("read", client="acme", stream=None), call("patch", "acme-1"), call("put", "acme-1", want=[]), call("delete"), call("get_status"), call("set_status", "acme-1"),
        call("set_status", "acme-1", status="Paused"), call("set_status", "acme-1", status="paused", reason=None), call("set_status", "acme-1", status="paused", reason=7), operate("set_status", "acme-1", status="paused"),
        call("add", "acme-1"), call("add", "acme-1", subject={}), call("remove", "acme-1", subject={"format": "email"}), call("verify", "acme-1", state=7), operate("verify", "acme-1"),
        call("poll", "acme-1"), call("poll", "acme-1", ask={}), call("poll", "acme-1", ask={"acks": [], "errors": []}), call("poll", "acme-1", ask={"acks": [7], "errors": [], "max": None}),
        call("poll", "acme-1", ask={"acks": [], "errors": {}, "max": None}), call("poll", "acme-1", ask={"acks": [], "errors": [["a"]], "max": None}), call("poll", "acme-1", ask={"acks": [], "errors": [["a", 7]], "max": None}),
        call("poll", "acme-1", ask={"acks": [], "errors": [["a", "b", "c"]], "max": None}), call("poll", "acme-1", ask={"acks": [], "errors": [], "max": -1}), call("poll", "acme-1", ask={"acks": [], "errors": [], "max": 2**62 + 1}),
        call("publish"), call("publish", publication={}), publish(9, subject={}), publish(9, uri=VERIFICATION), operate("operator_status", "acme-1"), operate("operator_status", 7, status="paused"), "call " + text({"call": "deliver"}), call("operator_delete"), call("streams"), call("streams", **{"from": -1}), call("streams", **{"from": "0"}), call("refused"), call("refused", **{"from": -1}),
        call("hand"), call("hand", streams="acme-1"), call("hand", streams=[7]), settle("acme-1", -1), settle("acme-1", None), settle("acme-1", 1, "Accepted"), settle("acme-1", 1, "reported"), settle("acme-1", 1, "reported", code=7), settle("acme-1", 1, None),
    ], "bad-case"),
    *each("Nor do rules that are none", str, ["rules ", "rules {}", "rules []", rules(defaults="all"), rules(defaults=None), rules(interval=86401), rules(interval=-1), rules(interval="0"), rules(issuer=7), rules(clients={}), rules(clients=[7]), rules(clients=[{"name": "a"}]), rules(clients=[{"aud": [], "name": 7}]), rules(clients=[{"aud": "b", "name": "a"}]), rules(clients=[{"aud": [7], "name": "a"}])], "bad-case"),
    ("", "owed acme-1", "owed 7"),
    ("", call("metadata", at=2**62, x=1.5), "meta"),
    ("A name that no stream has owes nothing, the empty one neither", "owed ", "none"),
    ("", "owed  acme-1", "none"),
    ("", "owed", "none"),
    ("", "owed acme-1 ", "none"),
]


def lines():
    """The lines of the cases, each before its answer."""
    out = []
    for shows, line, answer in NONE_STANDS + STREAMS + STATUSES + POLLS + PUSHES + VERIFICATIONS + SIZES + AUTHORS + SUBJECTS + OVERSEEN + REPORTED + FORMS:
        out += [f"# {shows}."] * bool(shows) + [line, "> " + answer]
    return [line.encode() for line in out]
