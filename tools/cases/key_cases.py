"""Keys of one issuer, as a receiver's settings may have them and as they may not (docs/FORMATS.md; RFC 7518, section 6.3.1)."""
from cases.rsa_keys import FIRST, OTHER, SECOND, THIRD, bytes_of, jwk
from cases.sign_tokens import KEY, part

SECRET = {"k": part(KEY), "kid": "k1"}

# Keys of one issuer that settings may have.
GOOD = [
    ("a key without a name", [FIRST.jwk()]),
    ("four keys of both kinds", [FIRST.jwk("a"), SECRET, SECOND.jwk("b"), {"k": part(KEY)}]),
    ("members that nobody names", [FIRST.jwk("a", use="sig", key_ops=["verify"], x5t="x")]),
    ("3,000 bits", [THIRD.jwk("a")]),
    ("4,096 bits", [jwk(2**4096 - 1, 65537, "a")]),
    ("the exponent 3", [FIRST.with_exponent(3).jwk("a")]),
    ("the exponent 2^32 - 1", [FIRST.with_exponent(2**32 - 1).jwk("a")]),
    ("a name of 64 characters", [FIRST.jwk("Az09._-" + "x" * 57)]),
]
# And such as they may not have, with where in the list of keys the fault stands.
BAD = [
    ("no key", [], ""),
    ("five keys of both kinds", [FIRST.jwk("a"), SECOND.jwk("b"), THIRD.jwk("c"), SECRET, {"k": part(KEY)}], ""),
    ("five public keys", [FIRST.jwk()] * 5, ""),
    ("a secret in a public key", [FIRST.jwk("a", k=part(KEY))], "[0].k"),
    ("no algorithm", [FIRST.jwk("a", alg=None)], "[0].alg"),
    ("another algorithm", [FIRST.jwk("a", alg="RS512")], "[0].alg"),
    ("the algorithm of secrets", [FIRST.jwk("a", alg="HS256")], "[0].alg"),
    ("no type", [FIRST.jwk("a", kty=None)], "[0].kty"),
    ("another type", [FIRST.jwk("a", kty="EC")], "[0].kty"),
    ("no modulus", [FIRST.jwk("a", n=None)], "[0].n"),
    ("no exponent", [FIRST.jwk("a", e=None)], "[0].e"),
    ("an exponent that is a number", [FIRST.jwk("a", e=65537)], "[0].e"),
    ("a modulus with padding", [FIRST.jwk("a", n=part(bytes_of(FIRST.modulus)) + "==")], "[0].n"),
    ("a modulus with a leading zero", [FIRST.jwk("a", n=part(b"\0" + bytes_of(FIRST.modulus)))], "[0].n"),
    ("an exponent with a leading zero", [FIRST.jwk("a", e="AAEAAQ")], "[0].e"),
    ("2,047 bits", [jwk(2**2047 - 1, 65537, "a")], "[0].n"),
    ("4,097 bits", [jwk(2**4096 + 1, 65537, "a")], "[0].n"),
    ("an even modulus", [jwk(2**2048 - 2, 65537, "a")], "[0].n"),
    ("the exponent 1", [jwk(FIRST.modulus, 1, "a")], "[0].e"),
    ("an even exponent", [jwk(FIRST.modulus, 65538, "a")], "[0].e"),
    ("the exponent 2^32 + 1", [jwk(FIRST.modulus, 2**32 + 1, "a")], "[0].e"),
    ("an empty name", [FIRST.jwk("")], "[0].kid"),
    ("a name with a space", [FIRST.jwk("a b")], "[0].kid"),
    ("a name of 65 characters", [FIRST.jwk("x" * 65)], "[0].kid"),
    ("a name that is a number", [FIRST.jwk(7)], "[0].kid"),
    ("a good key and a bad one", [FIRST.jwk("a"), OTHER.jwk("b", alg=None)], "[1].alg"),
]
