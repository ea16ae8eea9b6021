"""Third parts of tokens that are near a signature of RS256 and none, for `rs256.txt`; and the JWS of RFC 7515, appendix A.2.

Nothing here comes from the program under test.
"""
import hashlib
import itertools
import pathlib

from cases.rsa_keys import FIRST, RS256, bytes_of, front_of, public_key_der
from cases.sign_tokens import claims, part
from models.rsa import DIGEST_INFO, encoded, verifies

# What DER says before a digest of SHA-1 and of SHA-512 (RFC 8017, section 9.2, note 1); and before one of SHA-256 without the null.
SHA1_INFO = bytes.fromhex("3021300906052b0e03021a05000414")
SHA512_INFO = bytes.fromhex("3051300d060960864801650304020305000440")
SHORT_INFO = bytes.fromhex("302f300b0609608648016503040201" + "0420")


def sha1(front):
    return hashlib.sha1(front.encode()).digest()


def sha256(front):
    return hashlib.sha256(front.encode()).digest()


def sha512(front):
    return hashlib.sha512(front.encode()).digest()


def padded(told, kind=b"\1", fill=b"\xff", size=256):
    """A message of another block type or with another padding (RFC 2313, section 8.1), or with something else at its end."""
    return b"\0" + kind + fill * (size - len(told) - 3) + b"\0" + told


def flipped(data, place, bit):
    return data[:place] + bytes([data[place] ^ bit]) + data[place + 1 :]


def less(key, signature):
    """What is left of the modulus: its power is the negative one."""
    return (key.modulus - int.from_bytes(signature, "big")).to_bytes(key.size, "big")


def more(key, signature):
    """The signature and the modulus together, which have the same power."""
    return (key.modulus + int.from_bytes(signature, "big")).to_bytes(key.size, "big")


def above_jti():
    """An identifier for which that sum has no more bytes than the modulus."""
    for number in itertools.count():
        signature = FIRST.sign(front_of(RS256, claims(jti=f"above-{number}")))
        if FIRST.modulus + int.from_bytes(signature, "big") < 1 << 8 * FIRST.size:
            return f"above-{number}"


def cube_of(front):
    """A number whose cube begins as an encoded message with too little padding, and ends with anything.

    A verifier that looks for the digest and not at the end takes it under the exponent 3.
    """
    wanted = int.from_bytes(b"\0\1" + b"\xff" * 8 + b"\0" + DIGEST_INFO + sha256(front), "big")
    least = wanted << 8 * (FIRST.size - 62)
    below, above = 0, 1 << 8 * FIRST.size // 3 + 1
    while above - below > 1:
        middle = (below + above) // 2
        below, above = (middle, above) if middle**3 < least else (below, middle)
    if above**3 >> 8 * (FIRST.size - 62) != wanted:
        raise AssertionError("no cube begins so")
    return above.to_bytes(FIRST.size, "big")


def standard(key):
    """The modulus in the alphabet of section 4 of RFC 4648, in which it has another character."""
    word = part(bytes_of(key.modulus)).translate(str.maketrans("-_", "+/"))
    if word == part(bytes_of(key.modulus)):
        raise AssertionError("both alphabets spell it alike")
    return word


def read_a2():
    """The parts of that JWS, whose signature is right."""
    lines = pathlib.Path(__file__).with_name("rfc7515_a2.txt").read_text(encoding="utf-8").splitlines()
    parts = {name: bytes.fromhex(digits) for name, digits in (line.split() for line in lines if not line.startswith("#"))}
    if not verifies((int.from_bytes(parts["n"], "big"), int.from_bytes(parts["e"], "big")), parts["input"], parts["signature"]):
        raise AssertionError("the signature of RFC 7515, appendix A.2, is wrong")
    return parts


A2 = read_a2()
