#!/usr/bin/env python3
"""Makes tokens with Python's own hmac, base64 and json, for the cases of `tools/cases` and for tests.

`sign_tokens.py table` prints each token with its name and what is expected of it. Nothing here comes from the program
under test.
"""
import base64
import hashlib
import hmac
import json
import sys

KEY = b"0123456789abcdef0123456789abcdef"
ISS = "https://idp.example"
AUD = "https://rp.example"
STORE = "6ba7b810-9dad-11d1-80b4-00c04fd430c8"
REVOKED = "https://schemas.openid.net/secevent/caep/event-type/session-revoked"
HEADER = {"alg": "HS256", "typ": "secevent+jwt"}
# RFC 7515, appendix A.1.
JOE = (
    "eyJ0eXAiOiJKV1QiLA0KICJhbGciOiJIUzI1NiJ9.eyJpc3MiOiJqb2UiLA0KICJleHAiOjEzMDA4MTkzODAsDQogImh0dHA6Ly9leGFtcGxlLmNvbS9pc19yb290"
    "Ijp0cnVlfQ.dBjftJeZ4CVP-mB92K27uhbUJU1p1r_wW1gFWFOEjXk"
)


def part(data):
    return base64.urlsafe_b64encode(data).rstrip(b"=").decode()


def text(value):
    return json.dumps(value, separators=(",", ":"), sort_keys=True, ensure_ascii=False).encode()


def as_it_stands(value):
    """The text of a value with its members in the order in which they were put."""
    return json.dumps(value, separators=(",", ":"), ensure_ascii=False).encode()


def mac_of(front, key=KEY):
    return hmac.new(key, front.encode(), hashlib.sha256).digest()


def signed(header, payload, key=KEY):
    header = header if isinstance(header, bytes) else text(header)
    payload = payload if isinstance(payload, bytes) else text(payload)
    front = part(header) + "." + part(payload)
    return front + "." + part(mac_of(front, key))


def claims(**changes):
    made = {
        "aud": AUD,
        "events": {REVOKED: {}},
        "iat": 1700000000,
        "iss": ISS,
        "jti": STORE + ".acme-1.1",
        "sub_id": {"format": "opaque", "id": "s-77"},
    }
    made.update(changes)
    return {name: value for name, value in made.items() if value is not None}


def header(**changes):
    made = dict(HEADER)
    made.update(changes)
    return {name: value for name, value in made.items() if value is not None}


def subject(**members):
    return members


def opaque(name):
    return {"format": "opaque", "id": name}


def event(uri, **members):
    """The claims' `events` with one event."""
    return {uri: members}


def without(name, **changes):
    """Claims without a member; another member may be any value, also None."""
    made = dict(claims(), **changes)
    made.pop(name, None)
    return made


def filled(size):
    """Claims with a `txn` that fills the payload to this many bytes."""
    empty = len(text(claims(txn="")))
    return claims(txn="t" * (size - empty))


CAEP = "https://schemas.openid.net/secevent/caep/event-type/"
RISC = "https://schemas.openid.net/secevent/risc/event-type/"
EMAIL = subject(format="email", email="a@example.com")
CHANGED = event(RISC + "identifier-changed", **{"new-value": "b@example.com"})

# Claims whose members, and whose events, stand in reverse byte order.
REVERSED = {
    "sub_id": {"id": "s-77", "format": "opaque"},
    "jti": STORE + ".acme-1.1",
    "iss": ISS,
    "iat": 1700000000,
    "events": {RISC + "account-disabled": {"reason": "hijacking"}, REVOKED: {}},
    "aud": AUD,
}

GOOD = signed(HEADER, claims())
FRONT = GOOD.rsplit(".", 1)[0]
HEAD_MAC = part(mac_of(FRONT.split(".")[0]))
SHORT_MAC = part(mac_of(FRONT)[:31])

SECOND_KEY = b"f" * 32

# The checks of a token that is in compact form and has an object for its header and for its payload, in their order.
CHECKS = "typ crit iss issuer alg kid mac aud jti iat exp sub sub_id events event".split()
BAD_HEADER = {"typ": "JWT", "crit": ["x"], "alg": "none", "kid": 7}
BAD_CLAIMS = {"iss": 7, "aud": ["https://other.example"], "jti": 7, "iat": -1, "exp": 1, "sub": "s", "sub_id": {}, "events": {}}


def broken_from(first):
    """A token of which this check fails, and each later one."""
    broken = CHECKS[CHECKS.index(first) :]
    made = claims(events={REVOKED: []})
    if "issuer" in broken:
        made["iss"] = "https://other.example"
    made.update({name: value for name, value in BAD_CLAIMS.items() if name in broken})
    bad = {name: value for name, value in BAD_HEADER.items() if name in broken}
    return signed(dict(HEADER, **bad), made, SECOND_KEY if "mac" in broken else KEY)


# Tokens for https://rp.example of https://idp.example, whose one key has no name: name, token, and what is expected by
# the order of the checks, accepted or the code (RFC 8935, section 2.4) and the spot.
TABLE = [
    ("GOOD", GOOD, "accepted"),
    ("NAMED_KEY", signed(header(kid="k1"), claims()), "accepted"),
    ("LAST_SECOND", signed(HEADER, claims(iat=2**62)), "accepted"),
    ("FIRST_SECOND", signed(HEADER, claims(iat=0)), "accepted"),
    ("TYPE_OF_A_MEDIA_TYPE", signed(header(typ="application/SecEvent+JWT"), claims()), "accepted"),
    ("LISTED_AUDIENCE", signed(HEADER, claims(aud=["https://other.example", AUD])), "accepted"),
    ("IDENTIFIER_CHANGED", signed(HEADER, claims(sub_id=EMAIL, events=CHANGED)), "accepted"),
    ("UNREAD_EVENT", signed(HEADER, claims(events=event("https://example.com/x", n=1.5))), "accepted"),
    ("FURTHER_MEMBERS", signed(header(x=1), claims(txn="t", toe=1.5)), "accepted"),
    ("REVERSED", signed(HEADER, as_it_stands(REVERSED)), "accepted"),
    ("LONGEST", signed(HEADER, filled(6074)), "accepted"),
    ("TOO_LONG", signed(HEADER, filled(6075)), "invalid_request length"),
    ("UNSIGNED", part(text(header(alg="none"))) + "." + part(text(claims())) + ".", "invalid_request compact"),
    ("ONE_DOT", FRONT, "invalid_request compact"),
    ("PADDED", GOOD + "=", "invalid_request compact"),
    ("HEADER_IS_NO_OBJECT", signed(b'["HS256"]', claims()), "invalid_request header"),
    ("HEADER_IS_NO_JSON", signed(b"{", claims()), "invalid_request header"),
    ("NO_TYPE", signed(header(typ=None), claims()), "invalid_request typ"),
    ("OTHER_TYPE", signed(header(typ="JWT"), claims()), "invalid_request typ"),
    ("OTHER_MEDIA_TYPE", signed(header(typ="text/secevent+jwt"), claims()), "invalid_request typ"),
    ("TYPE_IS_NO_TEXT", signed(header(typ=["secevent+jwt"]), claims()), "invalid_request typ"),
    ("CRITICAL", signed(header(crit=["x"]), claims()), "invalid_request crit"),
    ("CRITICAL_NULL", signed(dict(HEADER, crit=None), claims()), "invalid_request crit"),
    ("PAYLOAD_IS_NO_JSON", signed(HEADER, b"{}}"), "invalid_request payload"),
    ("PAYLOAD_IS_NO_OBJECT", signed(HEADER, b'["x"]'), "invalid_request payload"),
    ("NO_ISSUER", signed(HEADER, without("iss")), "invalid_request iss"),
    ("ISSUER_IS_NO_TEXT", signed(HEADER, claims(iss=[ISS])), "invalid_request iss"),
    ("OTHER_ISSUER", signed(HEADER, claims(iss="https://other.example")), "invalid_issuer iss"),
    ("LONGER_ISSUER", signed(HEADER, claims(iss=ISS + "/")), "invalid_issuer iss"),
    ("OTHER_ISSUER_AND_KEY", signed(header(alg="none"), claims(iss="https://other.example"), SECOND_KEY), "invalid_issuer iss"),
    ("OTHER_ALGORITHM", signed(header(alg="HS512"), claims()), "invalid_key alg"),
    ("ALGORITHM_NONE", signed(header(alg="none"), claims()), "invalid_key alg"),
    ("NO_ALGORITHM", signed(header(alg=None), claims()), "invalid_key alg"),
    ("KEY_NAME_IS_NO_TEXT", signed(header(kid=7), claims()), "invalid_key kid"),
    ("KEY_NAME_IS_NULL", signed(dict(HEADER, kid=None), claims()), "invalid_key kid"),
    ("OTHER_KEY", signed(HEADER, claims(), SECOND_KEY), "invalid_key mac"),
    ("OTHER_KEY_AND_AUDIENCE", signed(HEADER, claims(aud="https://other.example"), SECOND_KEY), "invalid_key mac"),
    ("MAC_OF_THE_HEADER_ALONE", FRONT + "." + HEAD_MAC, "invalid_key mac"),
    ("SHORT_MAC", FRONT + "." + SHORT_MAC, "invalid_key mac"),
    ("NO_AUDIENCE", signed(HEADER, without("aud")), "invalid_audience aud"),
    ("OTHER_AUDIENCE", signed(HEADER, claims(aud="https://other.example")), "invalid_audience aud"),
    ("LONGER_AUDIENCE", signed(HEADER, claims(aud=[AUD + "/"])), "invalid_audience aud"),
    ("SHORTER_AUDIENCE", signed(HEADER, claims(aud=[AUD[:-1]])), "invalid_audience aud"),
    ("LIST_WITHOUT_THE_AUDIENCE", signed(HEADER, claims(aud=["https://other.example"])), "invalid_audience aud"),
    ("EMPTY_LIST", signed(HEADER, claims(aud=[])), "invalid_audience aud"),
    ("LIST_WITH_A_NUMBER", signed(HEADER, claims(aud=[AUD, 1])), "invalid_audience aud"),
    ("OTHER_AUDIENCE_AND_NO_JTI", signed(HEADER, without("jti", aud="https://other.example")), "invalid_audience aud"),
    ("NO_JTI", signed(HEADER, without("jti")), "invalid_request jti"),
    ("EMPTY_JTI", signed(HEADER, claims(jti="")), "invalid_request jti"),
    ("JTI_IS_NO_TEXT", signed(HEADER, claims(jti=7)), "invalid_request jti"),
    ("NO_TIME", signed(HEADER, without("iat")), "invalid_request iat"),
    ("TIME_BEFORE_ZERO", signed(HEADER, claims(iat=-1)), "invalid_request iat"),
    ("TIME_WITH_FRACTION", signed(HEADER, claims(iat=1.5)), "invalid_request iat"),
    ("TIME_PAST_THE_LAST", signed(HEADER, claims(iat=2**62 + 1)), "invalid_request iat"),
    ("TIME_IS_A_TEXT", signed(HEADER, claims(iat="1700000000")), "invalid_request iat"),
    ("END", signed(HEADER, claims(exp=1800000000)), "invalid_request exp"),
    ("END_NULL", signed(HEADER, dict(claims(), exp=None)), "invalid_request exp"),
    ("SECOND_SUBJECT", signed(HEADER, claims(sub="s-77")), "invalid_request sub"),
    ("SECOND_SUBJECT_NULL", signed(HEADER, dict(claims(), sub=None)), "invalid_request sub"),
    ("NO_SUBJECT", signed(HEADER, without("sub_id")), "invalid_request sub_id"),
    ("SUBJECT_WITHOUT_FORMAT", signed(HEADER, claims(sub_id=subject(id="s-77"))), "invalid_request sub_id"),
    ("EMPTY_SUBJECT", signed(HEADER, claims(sub_id=subject(format="opaque", id=""))), "invalid_request sub_id"),
    ("SUBJECT_WITH_FURTHER_MEMBER", signed(HEADER, claims(sub_id=subject(format="opaque", id="s", x=1))), "invalid_request sub_id"),
    ("NO_EVENTS", signed(HEADER, without("events")), "invalid_request events"),
    ("EMPTY_EVENTS", signed(HEADER, claims(events={})), "invalid_request events"),
    ("EVENTS_ARE_A_LIST", signed(HEADER, claims(events=[REVOKED])), "invalid_request events"),
    ("EVENT_IS_NO_OBJECT", signed(HEADER, claims(events={REVOKED: []})), "invalid_request event"),
    ("SECOND_EVENT_IS_NO_OBJECT", signed(HEADER, claims(events={REVOKED: {}, "urn:x": None})), "invalid_request event"),
    ("FAULTY_EVENT", signed(HEADER, claims(events=event(CAEP + "credential-change"))), "invalid_request event"),
    ("EVENT_OF_NO_OPAQUE_SUBJECT", signed(HEADER, claims(events=CHANGED)), "invalid_request event"),
]

SCIM = {
    "iss": "https://scim.example.com",
    "iat": 1458496404,
    "jti": "4d3559ec67504aaba65d40b0363faad8",
    "aud": [
        "https://scim.example.com/Feeds/98d52461fa5bbc879593b7754",
        "https://scim.example.com/Feeds/5d7604516b1d08641d7676ee7",
    ],
    "events": {
        "urn:ietf:params:scim:event:create": {
            "ref": "https://scim.example.com/Users/44f6142df96bd6ab61e7521d9",
            "attributes": ["id", "name", "userName", "password", "emails"],
        }
    },
}
LOGOUT = {
    "iss": "https://server.example.com",
    "sub": "248289761001",
    "aud": "s6BhdRkqt3",
    "iat": 1471566154,
    "jti": "bWJq",
    "sid": "08a5019c-17e1-4977-8f42-65a12843ea02",
    "events": {"http://schemas.openid.net/event/backchannel-logout": {}},
}
CONSENT = {
    "iss": "https://my.med.example.org",
    "iat": 1458496025,
    "jti": "fb4e75b5411e4e19b6c0fe87950f7749",
    "aud": ["https://rp.example.com"],
    "events": {
        "https://openid.net/heart/specs/consent.html": {
            "iss": "https://connect.example.com",
            "sub": "248289761001",
            "consentUri": ["https://terms.med.example.org/labdisclosure.html#Agree"],
        }
    },
}
DISABLED = {
    "iss": "https://idp.example.com/",
    "jti": "756E69717565206964656E746966696572",
    "iat": 1508184845,
    "aud": "636C69656E745F6964",
    "events": {
        RISC
        + "account-disabled": {
            "subject": {"subject_type": "iss-sub", "iss": "https://idp.example.com/", "sub": "7375626A656374"},
            "reason": "hijacking",
        }
    },
}
SP = {
    "iss": "https://idp.example.com/123456789/",
    "jti": "24c63fb56e5a2d77a6b512616ca9fa24",
    "iat": 1615305159,
    "aud": "https://sp.example.com/caep",
    "txn": "8675309",
}
SESSION = subject(format="opaque", id="dMTlD|1600802906337.16|16008.16")
POLICY = {
    "event_timestamp": 1615304991,
    "initiating_entity": "policy",
    "reason_admin": {"en": "Landspeed Policy Violation: C076E82F"},
    "reason_user": {
        "en": "Access attempt from multiple regions.",
        "es-410": "Intento de acceso desde varias regiones.",
    },
}
COMPLEX = subject(
    format="complex",
    session=SESSION,
    user=subject(format="iss_sub", iss="https://idp.example.com/123456789/", sub="99beb27c-c1c2-4955-882a-e0dc4996fcbc"),
    tenant=subject(format="opaque", id="123456789"),
)
NOT_COMPLIANT = {
    "current_status": "not-compliant",
    "previous_status": "compliant",
    "initiating_entity": "policy",
    "reason_admin": {"en": "Location Policy Violation: C076E8A3"},
    "reason_user": {"en": "Device is no longer in a trusted location."},
    "event_timestamp": 1615304991,
}
ENROLLED = {
    "credential_type": "fido2-roaming",
    "change_type": "create",
    "fido2_aaguid": "accced6a-63f5-490a-9eea-e59bc1896cfc",
    "friendly_name": "Jane's USB authenticator",
    "initiating_entity": "user",
    "reason_admin": {"en": "User self-enrollment"},
    "event_timestamp": 1615304991,
}
JANE = subject(format="iss_sub", iss="https://idp.example.com/3456789/", sub="jane.smith@example.com")
RISC_SUBJECT = subject(format="iss_sub", iss="https://idp.example.com/", sub="7375626A656374")
JOHN = subject(format="email", email="john.doe@example.com")

# Examples of RFC 8417 (section 2.1, figures 1 to 4), of CAEP 1.0 and of RISC 1.0, signed under the key here: name, claims,
# and what is expected. A figure without `sub_id` is refused there, one with `sub` at it.
EXAMPLES = [
    ("SCIM_FIGURE", SCIM, "invalid_request sub_id"),
    ("LOGOUT_FIGURE", LOGOUT, "invalid_request sub"),
    ("CONSENT_FIGURE", CONSENT, "invalid_request sub_id"),
    ("RISC_FIGURE", DISABLED, "invalid_request sub_id"),
    ("CAEP_SESSION_REVOKED", dict(SP, sub_id=SESSION, events=event(REVOKED, event_timestamp=1615304991)), "accepted"),
    ("CAEP_SESSION_OF_A_USER", dict(SP, sub_id=COMPLEX, events=event(REVOKED, **POLICY)), "accepted"),
    ("CAEP_DEVICE", dict(SP, sub_id=COMPLEX, events=event(CAEP + "device-compliance-change", **NOT_COMPLIANT)), "accepted"),
    ("CAEP_CREDENTIAL", dict(SP, sub_id=JANE, events=event(CAEP + "credential-change", **ENROLLED)), "accepted"),
    ("RISC_DISABLED", dict(DISABLED, sub_id=RISC_SUBJECT, events=event(RISC + "account-disabled", reason="hijacking")), "accepted"),
    ("RISC_CHANGED", dict(DISABLED, sub_id=JOHN, events=event(RISC + "identifier-changed", **{"new-value": "john.roe@example.com"})), "accepted"),
]


def main():
    if sys.argv[1:] == ["table"]:
        for name, token, expected in TABLE:
            print(name, expected, token)
        for name, made, expected in EXAMPLES:
            print(name, expected, signed(HEADER, made))
    else:
        sys.exit("usage: sign_tokens.py table")


if __name__ == "__main__":
    main()
