#!/usr/bin/env python3
"""Makes the stored run of `sig_rsa_cases` with python3-cryptography, an implementation of RFC 8017 of another hand, and with
the commands of OpenSSL.

    python3 -B tools/cases/rsa_vectors.py

It writes `stdin` and `stdout` of the crate. A line of `stdin` has a modulus, an exponent, a message and a signature. What is
right stands in `stdout`: `key` where modulus and exponent are no key by RFC 8017, section 3.1, and the sizes that are taken here
(an odd modulus of 2,048 to 4,096 bits with no zero byte before it, an odd exponent of 3 to 2^32 - 1), and else `yes` or `no` as
cryptography's own verification answers. Each row says what it expects too, and both must agree.

The keys are drawn by cryptography, which takes no seed, so each call makes other lines: the stored ones were made once.
"""
import hashlib
import os
import pathlib
import random
import subprocess
import sys
import tempfile

from cryptography.exceptions import InvalidSignature
from cryptography.hazmat.primitives import hashes
from cryptography.hazmat.primitives.asymmetric import padding, rsa

sys.dont_write_bytecode = True
TOP = os.path.join(os.path.dirname(os.path.abspath(__file__)), "..", "..")
KEYS = [
    (2048, 65537), (2048, 3), (2048, 65537), (2048, 3), (2112, 65537), (3072, 65537), (3072, 3), (4096, 65537), (4096, 3),
    (2049, 65537), (2049, 3), (2055, 65537), (2055, 3), (3000, 65537), (3000, 3), (4095, 65537), (4095, 3),
]
OPENSSL_KEYS = [(2048, 65537), (2048, 3), (3000, 65537), (3072, 3), (4096, 65537), (4096, 3)]
INFO = bytes.fromhex("3031300d060960864801650304020105000420")
INFO_WITHOUT_NULL = bytes.fromhex("302f300b0609608648016503040201" + "0420")
INFO_OF_SHA1 = bytes.fromhex("3021300906052b0e03021a05000414")
INFO_OF_SHA512 = bytes.fromhex("3051300d060960864801650304020305000440")
DRAWN = random.Random(7)


def spelled(number, length=None):
    """A number's bytes, the most significant first."""
    return number.to_bytes(length or (number.bit_length() + 7) // 8, "big")


def number_of(spelling):
    return int.from_bytes(spelling, "big")


def is_key(modulus, exponent):
    number = number_of(modulus)
    return modulus[0] > 0 and 2048 <= number.bit_length() <= 4096 and number % 2 == 1 and exponent % 2 == 1 and 3 <= exponent < 1 << 32


def answer(modulus, exponent, message, signature):
    """What is right for a line, by cryptography's verification."""
    if not is_key(modulus, exponent):
        return "key"
    key = rsa.RSAPublicNumbers(exponent, number_of(modulus)).public_key()
    try:
        key.verify(signature, message, padding.PKCS1v15(), hashes.SHA256())
        return "yes"
    except InvalidSignature:
        return "no"


class Signer:
    """A key, and what it makes of blocks that no honest signer would take."""

    def __init__(self, bits, exponent):
        self.key = rsa.generate_private_key(exponent, bits)
        self.exponent = exponent
        self.number = self.key.public_key().public_numbers().n
        self.modulus = spelled(self.number)
        self.length = len(self.modulus)

    def signed(self, message):
        return self.key.sign(message, padding.PKCS1v15(), hashes.SHA256())

    def raw(self, block):
        """The block, raised to the secret exponent."""
        power = pow(number_of(block), self.key.private_numbers().d, self.number)
        return spelled(power, self.length)

    def block(self, message, info=INFO, first=b"\0\1", pad=b"\xff", between=b"\0", digest=None):
        """The encoded message of RFC 8017, section 9.2, with one part changed."""
        last = info + (digest or hashlib.sha256(message).digest())
        return first + pad * (self.length - len(last) - len(first) - len(between)) + between + last


def honest(signer, message):
    signature = signer.signed(message)
    yield "yes", message, signature
    yield "no", message + b"x", signature
    flipped = bytearray(message or b"x")
    flipped[DRAWN.randrange(len(flipped))] ^= 1 << DRAWN.randrange(8)
    yield "no", bytes(flipped), signature
    flipped = bytearray(signature)
    flipped[DRAWN.randrange(len(flipped))] ^= 1 << DRAWN.randrange(8)
    yield "no", message, bytes(flipped)


def resized(signer, message):
    """Short, long and shifted signatures, and numbers that aren't below the modulus."""
    signature = signer.signed(message)
    yield "no", message, signature[1:]
    yield "no", message, signature[:-1]
    yield "no", message, b"\0" + signature
    yield "no", message, signature + b"\0"
    yield "no", message, b""
    above = number_of(signature) + signer.number
    yield "no", message, spelled(above)
    if above < 1 << 8 * signer.length:
        yield "no", message, spelled(above, signer.length)
    for number in (0, 1, signer.number - 1, signer.number, signer.number + 1):
        yield "no", message, spelled(number, max(signer.length, (number.bit_length() + 7) // 8))
    yield "no", message, b"\xff" * signer.length


def misencoded(signer, message):
    """Powers of blocks that aren't the encoded message."""
    raw, block = signer.raw, signer.block
    yield "yes", message, raw(block(message))
    yield "no", message, raw(block(message, pad=b"\xfe"))
    yield "no", message, raw(block(message, first=b"\0\2"))
    yield "no", message, raw(block(message, first=b"\0\0"))
    yield "no", message, raw(block(message, between=b"\1"))
    yield "no", message, raw(block(message, info=INFO_WITHOUT_NULL))
    yield "no", message, raw(block(message, digest=hashlib.sha256(message + b"!").digest()))
    yield "no", message, raw(block(message, INFO_OF_SHA1, digest=hashlib.sha1(message).digest()))
    yield "no", message, raw(block(message, INFO_OF_SHA512, digest=hashlib.sha512(message).digest()))
    yield "no", message, signer.key.sign(message, padding.PSS(padding.MGF1(hashes.SHA256()), 32), hashes.SHA256())
    # Bleichenbacher's forgery: little padding, and garbage behind the digest
    short = b"\0\1" + b"\xff" * 8 + b"\0" + INFO + hashlib.sha256(message).digest()
    yield "no", message, raw(short + DRAWN.randbytes(signer.length - len(short)))


def forged(signer, message):
    """The same forgery as an outsider makes it for the exponent 3: a cube whose first bytes are the short block."""
    short = b"\0\1" + b"\xff" * 8 + b"\0" + INFO + hashlib.sha256(message).digest()
    least = number_of(short + b"\0" * (signer.length - len(short)))
    low, high = 0, 1 << 8 * signer.length
    while low < high:
        middle = (low + high) // 2
        low, high = (middle + 1, high) if middle**3 < least else (low, middle)
    if spelled(low**3, signer.length).startswith(short):
        yield "no", message, spelled(low, signer.length)


def rows(signer):
    for size in (0, 55, 200):
        yield from honest(signer, DRAWN.randbytes(size))
    message = DRAWN.randbytes(64)
    yield from resized(signer, message)
    yield from misencoded(signer, message)
    if signer.exponent == 3:
        yield from forged(signer, message)


def refused_keys(signer):
    """A modulus or an exponent that is none."""
    modulus, exponent = signer.modulus, signer.exponent
    yield modulus[:-1] + bytes([modulus[-1] ^ 1]), exponent
    yield b"\0" + modulus, exponent
    yield modulus + b"\1", exponent + 1
    yield modulus, exponent + 1
    yield modulus, 1
    yield modulus[: 255], exponent
    yield b"\x7f" + modulus[1:256], exponent
    yield b"\1" + b"\0" * 511 + b"\1", exponent


def openssl(room, *words):
    return subprocess.run(["openssl", *words], cwd=room, capture_output=True, check=True).stdout


def by_openssl(room, bits, exponent):
    """A key, signatures and what is near to them by the commands of OpenSSL, each line judged by its own verification too."""
    openssl(room, "genpkey", "-algorithm", "RSA", "-out", "key", "-pkeyopt", f"rsa_keygen_bits:{bits}", "-pkeyopt", f"rsa_keygen_pubexp:{exponent}")
    openssl(room, "pkey", "-in", "key", "-pubout", "-out", "public")
    modulus = bytes.fromhex(openssl(room, "rsa", "-in", "key", "-noout", "-modulus").decode().strip().partition("=")[2])
    message = DRAWN.randbytes(100)
    signatures = [openssl_signed(room, message, hash, padding) for hash, padding in (("sha256", "pkcs1"), ("sha1", "pkcs1"), ("sha512", "pkcs1"), ("sha256", "pss"))]
    signatures.append(signatures[0][:-1] + bytes([signatures[0][-1] ^ 1]))
    for of, signature in [(message, it) for it in signatures] + [(message[1:], signatures[0])]:
        expected = "yes" if of == message and signature == signatures[0] else "no"
        if openssl_verifies(room, of, signature) != (expected == "yes"):
            sys.exit(f"rsa_vectors: OpenSSL doesn't answer {expected}")
        yield expected, (modulus, exponent, of, signature)


def openssl_signed(room, message, hash, padding):
    pathlib.Path(room, "message").write_bytes(message)
    return openssl(room, "dgst", f"-{hash}", "-sign", "key", "-sigopt", f"rsa_padding_mode:{padding}", "message")


def openssl_verifies(room, message, signature):
    pathlib.Path(room, "message").write_bytes(message)
    pathlib.Path(room, "signature").write_bytes(signature)
    words = ["openssl", "dgst", "-sha256", "-verify", "public", "-signature", "signature", "message"]
    return subprocess.run(words, cwd=room, capture_output=True, check=False).returncode == 0


def lines():
    with tempfile.TemporaryDirectory() as room:
        for bits, exponent in OPENSSL_KEYS:
            yield from by_openssl(room, bits, exponent)
    for bits, exponent in KEYS:
        signer = Signer(bits, exponent)
        for expected, message, signature in rows(signer):
            yield expected, (signer.modulus, exponent, message, signature)
        for modulus, other in refused_keys(signer) if bits in (2048, 2049, 4096) else ():
            yield "key", (modulus, other, message, signer.signed(message))
        yield "no", (signer.modulus, 4294967295, b"m", b"\5" * signer.length)


def main():
    read, told = [], []
    for expected, case in lines():
        if answer(*case) != expected:
            sys.exit(f"rsa_vectors: cryptography answers {answer(*case)}, and the row says {expected}: {case}")
        modulus, exponent, message, signature = case
        read.append(f"{modulus.hex()} {exponent} {message.hex() or '-'} {signature.hex() or '-'}\n")
        told.append(f"{expected}\n")
    for name, made in (("stdin", read), ("stdout", told)):
        with open(os.path.join(TOP, "crates", "sig_rsa_cases", name), "w") as file:
            file.write("".join(made))
    print(f"rsa_vectors: {len(read)} lines")


if __name__ == "__main__":
    main()
