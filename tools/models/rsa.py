"""Signatures of RSASSA-PKCS1-v1_5 with SHA-256 (RFC 8017, sections 8.2.2 and 9.2; RS256 of RFC 7518, section 3.3), and the public
keys that check them (RFC 7518, section 6.3.1), by plain integers."""
import hashlib

from models.values import BadCase, decode, member

# What DER says before a digest of SHA-256 (RFC 8017, section 9.2, note 1).
DIGEST_INFO = bytes.fromhex("3031300d060960864801650304020105000420")


def encoded(message, size):
    """A message as so many bytes (RFC 8017, section 9.2)."""
    told = DIGEST_INFO + hashlib.sha256(message).digest()
    return b"\0\1" + b"\xff" * (size - len(told) - 3) + b"\0" + told


def verifies(key, message, signature):
    modulus, exponent = key
    size = (modulus.bit_length() + 7) // 8
    number = int.from_bytes(signature, "big")
    if len(signature) != size or number >= modulus:
        return False
    return pow(number, exponent, modulus).to_bytes(size, "big") == encoded(message, size)


def number_of(word):
    """The number that a word spells by its fewest bytes (RFC 7518, section 2, Base64urlUInt), none where it is no such word."""
    data = decode(word.encode())
    return int.from_bytes(data, "big") if data and data[0] != 0 else None


def public_key(modulus, exponent):
    """A key of 2,048 to 4,096 bits of two words, none where they are no key."""
    modulus, exponent = number_of(modulus), number_of(exponent)
    if modulus is None or exponent is None:
        return None
    is_key = 2048 <= modulus.bit_length() <= 4096 and modulus % 2 == 1 and 3 <= exponent < 2**32 and exponent % 2 == 1
    return (modulus, exponent) if is_key else None


def read_jwk(value):
    """The key of a JWK, where a key of another kind stands beside it too."""
    if (member(value, "kty", str), member(value, "alg", str)) != ("RSA", "RS256") or "k" in value:
        raise BadCase
    key = public_key(member(value, "n", str), member(value, "e", str))
    if key is None:
        raise BadCase
    return key
