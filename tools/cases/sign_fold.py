"""The tokens of the examples and of the runs of `fold`, by Python's own hmac, pow, base64 and json.

`make_runs.py` takes those of its runs by their names. Nothing here comes from the program under test.
"""
from cases.rsa_keys import FIRST, OTHER, RS256, confused, public_key_pem, rs256, rs256_header, with_signature
from cases.sign_tokens import AUD, CAEP, EMAIL, GOOD, HEADER, RISC, claims, filled, header, part, signed, subject, text

SSF = "https://schemas.openid.net/secevent/ssf/event-type/"

USER = subject(format="opaque", id="u")
SESSION = subject(format="opaque", id="s")
BOTH = subject(format="complex", session=SESSION, user=USER)


def token(jti, about, uri, payload=None, **changes):
    made = claims(jti=jti, sub_id=about, events={uri: payload or {}}, **changes)
    return signed(HEADER, made)


# RFC 7515, appendix A.1
RFC7515 = (
    "eyJ0eXAiOiJKV1QiLA0KICJhbGciOiJIUzI1NiJ9"
    ".eyJpc3MiOiJqb2UiLA0KICJleHAiOjEzMDA4MTkzODAsDQogImh0dHA6Ly9leGFtcGxlLmNvbS9pc19yb290Ijp0cnVlfQ"
    ".dBjftJeZ4CVP-mB92K27uhbUJU1p1r_wW1gFWFOEjXk"
)

TESTS = [
    ("GOOD", GOOD),
    ("UNSIGNED", part(text(header(alg="none"))) + "." + part(text(claims())) + "."),
    ("OTHER_ALGORITHM", signed(header(alg="HS512"), claims())),
    ("OTHER_KEY", signed(HEADER, claims(), b"f" * 32)),
    ("OTHER_ISSUER_AND_KEY", signed(HEADER, claims(iss="https://other.example"), b"f" * 32)),
    ("AUDIENCES", signed(HEADER, claims(aud=["x", AUD]))),
    ("NO_AUDIENCE", signed(HEADER, claims(aud=None))),
    ("LONGEST", signed(HEADER, filled(6074))),
    ("TOO_LONG", signed(HEADER, filled(6075))),
    ("RFC7515", RFC7515),
    ("ESTABLISHED_BOTH", token("a", BOTH, CAEP + "session-established")),
    ("SESSIONS_REVOKED", token("b", USER, RISC + "sessions-revoked")),
    ("ESTABLISHED", token("c", USER, CAEP + "session-established")),
    ("CHANGED_OPAQUE", token("d", USER, RISC + "identifier-changed", {"new-value": "b@example.com"})),
    ("CHANGED_EMAIL", token("e", EMAIL, RISC + "identifier-changed", {"new-value": "b@example.com"})),
    ("LEVEL", token("f", USER, CAEP + "assurance-level-change", {"current_level": "nist-\"aal2\""})),
    ("DISABLED", token("g", USER, RISC + "account-disabled", {"reason": "hijacking"})),
    ("NOTICE", token("h", subject(format="opaque", id="acme-1"), SSF + "stream-updated", {"status": "paused"})),
    ("OTHER_EVENT", token("i", USER, "https://example.com/x", {"n": 1.5})),
]

EXAMPLES = [
    GOOD,
    GOOD,
    "",
    signed(header(kid="k1", typ="application/SecEvent+JWT"), claims(jti="2", sub_id=subject(format="opaque", id="s-78"), aud=["x", AUD])),
    token("3", BOTH, CAEP + "session-established", {"acr": "urn:mace:incommon:iap:silver"}),
    token("4", USER, RISC + "sessions-revoked"),
    token("5", USER, CAEP + "assurance-level-change", {"namespace": "NIST-AAL", "current_level": "nist-aal2", "change_direction": "increase"}),
    token("6", EMAIL, RISC + "identifier-changed", {"new-value": "b@example.com"}),
    token("7", subject(format="opaque", id="acme-1"), SSF + "verification", {"state": "x"}),
    "t" * 8193,
    part(text(header(alg="none"))) + "." + part(text(claims())) + ".",
    signed(b'["HS256"]', claims()),
    signed(header(typ="JWT"), claims()),
    signed(header(crit=["x"]), claims()),
    signed(HEADER, b'["x"]'),
    signed(HEADER, claims(iss=None)),
    signed(HEADER, claims(iss="https://other.example")),
    signed(header(alg="HS512"), claims()),
    signed(header(kid=7), claims()),
    signed(HEADER, claims(), b"f" * 32),
    signed(HEADER, claims(aud=["x", 7])),
    signed(HEADER, claims(jti="")),
    signed(HEADER, claims(iat=-1)),
    signed(HEADER, claims(exp=1800000000)),
    signed(HEADER, claims(sub="s-77")),
    signed(HEADER, claims(sub_id=subject(format="opaque", id="s", x=1))),
    signed(HEADER, claims(events={})),
    signed(HEADER, claims(events={CAEP + "credential-change": {"credential_type": "password", "change_type": "lost"}})),
]

# Tokens of a provider that signs by RS256, whose public key is `examples/provider.pem`.
PEM = public_key_pem(FIRST)
PROVIDED = rs256(rs256_header(kid="2026-11"), claims(), FIRST)
OF_A_PROVIDER = [
    PROVIDED,
    PROVIDED,
    rs256(RS256, claims(jti="2", sub_id=subject(format="opaque", id="s-78")), FIRST),
    rs256(rs256_header(kid="2026-11"), claims(jti="3"), OTHER),
    confused(header(kid="2026-11"), PEM.encode()),
    rs256(rs256_header(alg="RS512"), claims(jti="4"), FIRST),
    with_signature(RS256, claims(jti="5"), lambda front: FIRST.sign(front)[:-1]),
    part(text(RS256)) + "." + part(text(claims(jti="6"))) + ".",
    rs256(RS256, claims(jti="7", aud="https://other.example"), FIRST),
]

# A session is established and then revoked; the first token is brought again, and one is signed under another key.
ESTABLISHED = token("1", subject(format="opaque", id="s-77"), CAEP + "session-established")
GUARD = [ESTABLISHED, GOOD, ESTABLISHED, signed(HEADER, claims(), b"f" * 32)]


def files():
    """The tokens of the examples and of `sig_guard`, by the paths of the files that have them, and the key of the provider."""
    named = {"examples/tokens.txt": EXAMPLES, "examples/rs256.txt": OF_A_PROVIDER, "crates/sig_guard/stdin": GUARD}
    found = {path: "".join(line + "\n" for line in lines).encode() for path, lines in named.items()}
    return {**found, "examples/provider.pem": PEM.encode()}
