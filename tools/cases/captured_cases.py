"""Lines of `sig_cases` of the tokens of another hand in `rs256_tokens.txt`, judged by the keys that `rs256_tokens.py` names."""
import base64
import json
import pathlib

from cases.rs256_tokens import BEARERS, KEYS
from cases.sign_tokens import text
from models.values import dump


def captured():
    """The answer, the bearer and the token of each line."""
    rows = pathlib.Path(__file__).with_name("rs256_tokens.txt").read_text(encoding="utf-8").splitlines()
    return [row.split("\t") for row in rows]


def claims_in(token):
    word = token.split(".")[1]
    return text(json.loads(base64.urlsafe_b64decode(word + "=" * (-len(word) % 4))))


def lines():
    yield b"# Tokens of joserfc and PyJWT, implementations of RFC 7515 of other hands: one issuer has a public key, and the other both kinds."
    issuers = [{"iss": iss, "keys": keys} for iss, keys in KEYS.items()]
    yield b"trust " + dump({"audience": "https://rp.example", "issuers": issuers}).encode()
    yield b"> ok"
    for answer, bearer, token in captured():
        yield b"judge " + dump({"principal": BEARERS[bearer], "token": token}).encode()
        yield b"> " + (b"valid " + claims_in(token) if answer == "202" else answer.encode())
