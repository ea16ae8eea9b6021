#!/usr/bin/env python3
"""Makes `tools/cases/pyjwt_tokens.txt` with PyJWT, an implementation of RFC 7515 of another hand.

    python3 tools/cases/pyjwt_tokens.py > tools/cases/pyjwt_tokens.txt

Each line has what a receiver by `examples/receiver.json` answers to the token that is pushed by a bearer of the issuer's, and
the token; `check_receiver.py` pushes them in this order. `202` is an accepted token or a repeat of one; else it is the code and
the spot of the first check that fails (docs/FORMATS.md).
"""
import jwt

KEY = b"0123456789abcdef0123456789abcdef"
CAEP = "https://schemas.openid.net/secevent/caep/event-type/"
RISC = "https://schemas.openid.net/secevent/risc/event-type/"
USER = {"format": "email", "email": "user@example.com"}


def token(jti, events, subject, key=KEY, algorithm="HS256", header=None, **changes):
    payload = {
        "iss": "https://idp.example",
        "aud": "https://rp.example",
        "jti": jti,
        "iat": 1700000000,
        "sub_id": subject,
        "events": events,
        **changes,
    }
    payload = {name: value for name, value in payload.items() if value is not None}
    return jwt.encode(payload, key, algorithm, {"typ": "secevent+jwt", **(header or {})})


def opaque(name):
    return {"format": "opaque", "id": name}


def lines():
    first = token("py-1", {f"{CAEP}session-revoked": {"event_timestamp": 1700000000}}, opaque("py-1"))
    yield "202", first
    yield "202", first
    yield "202", token("py-2", {f"{RISC}account-disabled": {"reason": "hijacking"}}, USER, header={"kid": "k1"})
    yield "202", token("py-3", {f"{CAEP}session-established": {}}, opaque("py-3"), aud=["https://other.example", "https://rp.example"])
    yield "202", token("py-4", {f"{CAEP}credential-change": {"credential_type": "password", "change_type": "update"}}, USER)
    yield "202", token("py-5", {"https://example.com/unknown": {"n": 1}}, opaque("py-5"))
    yield "invalid_key mac", token("py-6", {f"{CAEP}session-revoked": {}}, opaque("py-6"), key=b"another key of thirty-two bytes.")
    yield "invalid_key alg", token("py-7", {f"{CAEP}session-revoked": {}}, opaque("py-7"), algorithm="HS512")
    yield "invalid_key kid", token("py-8", {f"{CAEP}session-revoked": {}}, opaque("py-8"), header={"kid": "k2"})
    yield "invalid_issuer iss", token("py-9", {f"{CAEP}session-revoked": {}}, opaque("py-9"), iss="https://evil.example")
    yield "access_denied iss", token("py-10", {f"{CAEP}session-revoked": {}}, opaque("py-10"), iss="https://other.example")
    yield "invalid_audience aud", token("py-11", {f"{CAEP}session-revoked": {}}, opaque("py-11"), aud="https://zeta.example")
    yield "invalid_request exp", token("py-12", {f"{CAEP}session-revoked": {}}, opaque("py-12"), exp=1900000000)
    yield "invalid_request sub", token("py-13", {f"{CAEP}session-revoked": {}}, opaque("py-13"), sub="user")
    yield "invalid_request events", token("py-14", {}, opaque("py-14"))
    yield "invalid_request sub_id", token("py-15", {f"{CAEP}session-revoked": {}}, {"format": "email"})
    yield "invalid_request event", token("py-16", {f"{CAEP}credential-change": {"credential_type": "password"}}, USER)
    yield "invalid_request typ", token("py-17", {f"{CAEP}session-revoked": {}}, opaque("py-17"), header={"typ": "JWT"})
    yield "invalid_request iat", token("py-18", {f"{CAEP}session-revoked": {}}, opaque("py-18"), iat=None)
    yield "invalid_request jti", token(None, {f"{CAEP}session-revoked": {}}, opaque("py-19"))


if __name__ == "__main__":
    for answer, text in lines():
        print(f"{answer}\t{text}")
