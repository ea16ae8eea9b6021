#!/usr/bin/env python3
"""Makes `tools/cases/rs256_tokens.txt` with joserfc and PyJWT, two implementations of RFC 7515 of other hands, which sign by OpenSSL.

    python3 tools/cases/rs256_tokens.py > tools/cases/rs256_tokens.txt

Each line has what a receiver answers to a token that is pushed, the bearer, and the token; `check_receiver.py` pushes them in this
order, and `captured_cases.py` makes lines of `sig_cases` of them. `202` is an accepted token or a repeat of one; else it is the code
and the spot of the first check that fails (docs/FORMATS.md). KEYS has whom the receiver trusts. A token of another algorithm has
other bytes at each run, since PS256 and ES256 draw a number.
"""
import base64
import json
import os
import sys

sys.dont_write_bytecode = True
sys.path.insert(0, os.path.join(os.path.dirname(os.path.abspath(__file__)), ".."))
from cases.rsa_keys import FIRST, OTHER, SECOND, bytes_of, confused, public_key_pem
from cases.sign_tokens import KEY, SECOND_KEY, part

IDP, SECOND_IDP = "https://idp.example", "https://other.example"
REVOKED = {"https://schemas.openid.net/secevent/caep/event-type/session-revoked": {}}
# The keys of each issuer: one provider signs by RS256 alone, and the other moves from HS256 to RS256.
KEYS = {
    IDP: [FIRST.jwk("2026-11")],
    SECOND_IDP: [SECOND.jwk("2026-12"), {"k": part(KEY), "kid": "k1"}, FIRST.jwk("2026-11")],
}
BEARERS = {"push": IDP, "other": SECOND_IDP}


def claims(number, iss, **changes):
    made = {"iss": iss, "aud": "https://rp.example", "jti": f"rs-{number}", "iat": 1700000000}
    return {**made, "sub_id": {"format": "opaque", "id": f"rs-{number}"}, "events": REVOKED, **changes}


def members(key):
    """A private key as a JWK (RFC 7518, section 6.3.2)."""
    first, second = key.first, key.second
    secret = pow(key.exponent, -1, (first - 1) * (second - 1))
    made = {"d": secret, "p": first, "q": second, "dp": secret % (first - 1), "dq": secret % (second - 1), "qi": pow(second, -1, first)}
    return {**{name: part(bytes_of(number)) for name, number in made.items()}, **key.jwk(alg=None)}


def signed(header, payload, key):
    from joserfc import jws
    from joserfc.jwk import ECKey, OctKey, RSAKey

    header = {"typ": "secevent+jwt", **header}
    if key is None:
        key = ECKey.generate_key("P-256")
    elif isinstance(key, bytes):
        key = OctKey.import_key({"kty": "oct", "k": part(key)})
    else:
        key = RSAKey.import_key(members(key))
    return jws.serialize_compact(header, json.dumps(payload).encode(), key, algorithms=[header["alg"]])


def cut(token, change):
    """A token with another signature."""
    front, _, last = token.rpartition(".")
    return front + "." + part(change(base64.urlsafe_b64decode(last + "=" * (-len(last) % 4))))


def good():
    first = signed({"alg": "RS256", "kid": "2026-11"}, claims(1, IDP), FIRST)
    yield "202", "push", first
    yield "202", "push", first
    yield "202", "push", signed({"alg": "RS256"}, claims(2, IDP), FIRST)
    yield "202", "push", signed({"alg": "RS256", "kid": "2026-11", "typ": "application/secevent+jwt"}, claims(3, IDP, aud=["x", "https://rp.example"]), FIRST)
    # without a name each public key is tried
    yield "202", "other", signed({"alg": "RS256"}, claims(4, SECOND_IDP), FIRST)
    yield "202", "other", signed({"alg": "RS256"}, claims(5, SECOND_IDP), SECOND)
    yield "202", "other", signed({"alg": "RS256", "kid": "2026-12"}, claims(6, SECOND_IDP), SECOND)
    yield "202", "other", signed({"alg": "HS256", "kid": "k1"}, claims(7, SECOND_IDP), KEY)
    yield "202", "other", signed({"alg": "HS256"}, claims(8, SECOND_IDP), KEY)


def of_no_key():
    yield "invalid_key kid", "push", signed({"alg": "RS256", "kid": "2026-12"}, claims(9, IDP), FIRST)
    yield "invalid_key kid", "push", signed({"alg": "RS256", "kid": ""}, claims(10, IDP), FIRST)
    # the name of a secret is none of a public key, and the other way round
    yield "invalid_key kid", "other", signed({"alg": "RS256", "kid": "k1"}, claims(11, SECOND_IDP), FIRST)
    yield "invalid_key kid", "other", signed({"alg": "HS256", "kid": "2026-12"}, claims(12, SECOND_IDP), KEY)
    yield "invalid_key kid", "push", signed({"alg": "HS256"}, claims(13, IDP), KEY)
    yield "invalid_key mac", "other", signed({"alg": "RS256", "kid": "2026-12"}, claims(14, SECOND_IDP), FIRST)
    yield "invalid_key mac", "push", signed({"alg": "RS256"}, claims(15, IDP), OTHER)
    yield "invalid_key mac", "other", signed({"alg": "HS256"}, claims(16, SECOND_IDP), SECOND_KEY)


def of_other_algorithms():
    for alg, key in [("RS384", FIRST), ("RS512", FIRST), ("PS256", FIRST), ("ES256", None), ("HS512", KEY)]:
        yield "invalid_key alg", "push", signed({"alg": alg}, claims(17, IDP), key)
    yield "invalid_request compact", "push", signed({"alg": "none"}, claims(18, IDP), KEY)


def confusions():
    """The public key as the secret of an HMAC (RFC 8725, section 2.1), and an HMAC where a signature should be."""
    for secret in (public_key_pem(FIRST).encode(), FIRST.modulus.to_bytes(256, "big")):
        yield "invalid_key kid", "push", signed({"alg": "HS256", "kid": "2026-11"}, claims(19, IDP), secret)
        yield "invalid_key kid", "push", signed({"alg": "HS256"}, claims(19, IDP), secret)
        yield "invalid_key kid", "other", signed({"alg": "HS256", "kid": "2026-11"}, claims(19, SECOND_IDP), secret)
        yield "invalid_key mac", "other", signed({"alg": "HS256"}, claims(19, SECOND_IDP), secret)
        yield "invalid_key mac", "push", confused({"alg": "RS256", "kid": "2026-11", "typ": "secevent+jwt"}, secret)


def damaged():
    whole = signed({"alg": "RS256", "kid": "2026-11"}, claims(20, IDP), FIRST)
    yield "invalid_key mac", "push", cut(whole, lambda data: data[:9] + bytes([data[9] ^ 1]) + data[10:])
    yield "invalid_key mac", "push", cut(whole, lambda data: data[:-1])
    yield "invalid_key mac", "push", cut(whole, lambda data: data[1:])
    yield "invalid_key mac", "push", cut(whole, lambda data: b"\0" + data)
    yield "invalid_key mac", "push", cut(whole, lambda data: data + b"\0")
    yield "invalid_key mac", "push", cut(whole, lambda data: (FIRST.modulus - int.from_bytes(data, "big")).to_bytes(256, "big"))
    yield "invalid_request compact", "push", whole.rpartition(".")[0] + "."
    yield "invalid_audience aud", "push", signed({"alg": "RS256"}, claims(21, IDP, aud="https://zeta.example"), FIRST)
    yield "invalid_request exp", "push", signed({"alg": "RS256"}, claims(22, IDP, exp=1900000000), FIRST)
    yield "access_denied iss", "push", signed({"alg": "RS256"}, claims(23, SECOND_IDP), FIRST)


def private_key_pem(key):
    """A private key as PyJWT takes it (RFC 5958)."""
    from jwt.algorithms import RSAAlgorithm
    from cryptography.hazmat.primitives import serialization

    made = RSAAlgorithm.from_jwk(json.dumps(members(key)))
    return made.private_bytes(serialization.Encoding.PEM, serialization.PrivateFormat.PKCS8, serialization.NoEncryption())


def by_pyjwt():
    """The same by PyJWT."""
    import jwt

    def token(number, iss, key, alg="RS256", **header):
        return jwt.encode(claims(number, iss), private_key_pem(key), alg, {"typ": "secevent+jwt", **header})

    yield "202", "push", token(24, IDP, FIRST, kid="2026-11")
    yield "202", "push", token(25, IDP, FIRST)
    yield "202", "other", token(26, SECOND_IDP, SECOND, kid="2026-12")
    yield "202", "other", token(27, SECOND_IDP, FIRST)
    yield "invalid_key kid", "push", token(28, IDP, FIRST, kid="2026-12")
    yield "invalid_key mac", "push", token(29, IDP, OTHER, kid="2026-11")
    yield "invalid_key alg", "push", token(30, IDP, FIRST, alg="RS384", kid="2026-11")


def lines():
    for rows in (good, of_no_key, of_other_algorithms, confusions, damaged, by_pyjwt):
        yield from rows()


if __name__ == "__main__":
    for words in lines():
        print("\t".join(words))
