#!/usr/bin/env python3
"""Prints a provider's public key as a receiver's settings have it, or as a word of `fold`.

    python3 examples/public_key.py FILE [KID]        a JWK for `keys` of an issuer (RFC 7518, section 6.3.1)
    python3 examples/public_key.py --word FILE [KID] the word `rs256:<n>:<e>`

FILE is a public key or a certificate in PEM, for which it calls openssl, or a provider's list of keys in JSON (RFC 7517,
section 5), of which KID picks one; without KID each key of the list is printed that can have signed by RS256. Nothing is
fetched: where the file comes from, and whether the key is the provider's, is for you to know.
"""
import base64
import json
import re
import subprocess
import sys


def fail(why):
    sys.exit(f"public_key.py: {why}")


def openssl(*words, given):
    try:
        ran = subprocess.run(["openssl", *words], input=given, capture_output=True, check=False)
    except FileNotFoundError:
        fail("there is no openssl")
    if ran.returncode != 0:
        fail("openssl finds no RSA key here: " + ran.stderr.decode(errors="replace").strip().splitlines()[0])
    return ran.stdout


def in_pem(data):
    """Modulus and exponent of a key or a certificate in PEM."""
    if b"PRIVATE KEY" in data:
        fail("this is a private key, which stays with the provider; its public key is what a receiver needs")
    form = ["-RSAPublicKey_in"] if b"BEGIN RSA PUBLIC KEY" in data else ["-pubin"]
    if b"BEGIN CERTIFICATE" in data:
        data = openssl("x509", "-noout", "-pubkey", given=data)
    told = openssl("rsa", *form, "-noout", "-modulus", "-text", given=data).decode()
    modulus = re.search(r"^Modulus=([0-9A-F]+)$", told, re.M)
    exponent = re.search(r"^Exponent: ([0-9]+)", told, re.M)
    if not modulus or not exponent:
        fail("openssl tells no modulus and no exponent")
    return int(modulus.group(1), 16), int(exponent.group(1))


def word(number):
    """A number as base64url of its fewest bytes (RFC 7518, section 2)."""
    data = number.to_bytes((number.bit_length() + 7) // 8, "big")
    return base64.urlsafe_b64encode(data).rstrip(b"=").decode()


def number(text):
    return int.from_bytes(base64.urlsafe_b64decode(text + "=" * (-len(text) % 4)), "big")


def in_list(data, kid):
    """The keys of a provider's list that can have signed by RS256: name, modulus and exponent of each."""
    value = json.loads(data)
    for key in value.get("keys", [value]):
        is_fit = key.get("kty") == "RSA" and key.get("use", "sig") == "sig" and key.get("alg", "RS256") == "RS256"
        if is_fit and kid in (None, key.get("kid")):
            yield key.get("kid"), number(key["n"]), number(key["e"])


def check(kid, modulus, exponent):
    """An end of the run where a receiver would refuse the key."""
    if kid is not None and not re.fullmatch(r"[A-Za-z0-9._-]{1,64}", kid):
        fail(f"a receiver takes no such name: {kid}; leave it out, and the key is tried for each name")
    if not 2048 <= modulus.bit_length() <= 4096 or modulus % 2 == 0:
        fail(f"a receiver takes keys of 2,048 to 4,096 bits, and this one has {modulus.bit_length()}")
    if not 3 <= exponent < 2**32 or exponent % 2 == 0:
        fail(f"a receiver takes odd exponents from 3 to 2^32 - 1, and this one is {exponent}")


def main():
    words = sys.argv[1:]
    is_word = words[:1] == ["--word"]
    words = words[is_word:]
    if not 1 <= len(words) <= 2:
        sys.exit(__doc__.strip())
    with open(words[0], "rb") as file:
        data = file.read()
    kid = words[1] if len(words) == 2 else None
    found = list(in_list(data, kid)) if data.lstrip()[:1] == b"{" else [(kid, *in_pem(data))]
    if not found:
        fail("no such key stands here")
    for name, modulus, exponent in found:
        check(name, modulus, exponent)
        named = {} if name is None else {"kid": name}
        jwk = {"kty": "RSA", "alg": "RS256", **named, "n": word(modulus), "e": word(exponent)}
        print(f"rs256:{jwk['n']}:{jwk['e']}" if is_word else json.dumps(jwk))


if __name__ == "__main__":
    main()
