"""JSON values (RFC 8259), and bytes as lines and answers spell them: base64url without padding, the empty bytes as `-`.

A whole number is from -2^63 to 2^64 - 1 and not written -0; any other number is FRACTION.
"""
import base64
import hashlib
import hmac
import json
import re


class BadCase(Exception):
    """The rest of a line isn't of its form."""


class NotJson(Exception):
    """A text spells no JSON value."""


class Fault(Exception):
    """The first check that fails; its argument is the answer."""


FRACTION = object()


def number(text):
    if float(text) in (float("inf"), float("-inf")):
        raise NotJson
    if re.fullmatch(r"-?[0-9]+", text) and text != "-0" and -(2**63) <= int(text) < 2**64:
        return int(text)
    return FRACTION


def no_constant(text):
    raise NotJson


def levels(text):
    """How deep lists and objects nest, with the contents of strings left out."""
    deep = deepest = 0
    for mark in re.sub(r'"(\\.|[^"\\])*"', "", text, flags=re.S):
        deep += {"[": 1, "{": 1, "]": -1, "}": -1}.get(mark, 0)
        deepest = max(deepest, deep)
    return deepest


def read(data):
    try:
        text = data.decode()
        if levels(text) > 127 or text.startswith("\ufeff"):
            raise NotJson
        value = json.loads(text, parse_int=number, parse_float=number, parse_constant=no_constant)
        dump(value, default=str).encode()
    except (ValueError, RecursionError) as error:
        raise NotJson from error
    return value


def dump(value, **how):
    return json.dumps(value, separators=(",", ":"), sort_keys=True, ensure_ascii=False, **how)


def has_fraction(value):
    if isinstance(value, dict):
        value = list(value.values())
    return value is FRACTION or isinstance(value, list) and any(map(has_fraction, value))


def read_case(data):
    try:
        return read(data)
    except NotJson as error:
        raise BadCase from error


def member(case, name, kind):
    """The member of this kind, which has to be there."""
    if not isinstance(case, dict) or not isinstance(case.get(name), kind):
        raise BadCase
    return case[name]


def optional(case, name, kind):
    return member(case, name, kind) if name in case else None


def word(data):
    return base64.urlsafe_b64encode(data).rstrip(b"=").decode() or "-"


def decode(text):
    """The bytes that a text spells, none where it isn't their one spelling (RFC 4648, section 5)."""
    if not re.fullmatch(rb"[A-Za-z0-9_-]*", text) or len(text) % 4 == 1:
        return None
    data = base64.urlsafe_b64decode(text + b"=" * (-len(text) % 4))
    return data if base64.urlsafe_b64encode(data).rstrip(b"=") == text else None


def word_bytes(text):
    if text == b"-":
        return b""
    data = decode(text)
    if not data:
        raise BadCase
    return data


def key_of(text):
    data = decode(text)
    return data if data is not None and 32 <= len(data) <= 64 else None


def mac(key, message):
    return hmac.new(key, message, hashlib.sha256).digest()


def split(data):
    """The parts of a compact form (RFC 7515, section 7.1)."""
    parts = data.split(b".")
    if len(parts) != 3 or b"" in parts:
        raise Fault("dots")
    for part, name in zip(parts, ["header", "payload", "mac"]):
        if decode(part) is None:
            raise Fault(name)
    return [decode(part) for part in parts]
