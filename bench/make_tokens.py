#!/usr/bin/env python3
"""Makes signed tokens for the benchmark of `fold`, by a seed.

`make_tokens.py COUNT SUBJECTS SEED` prints COUNT tokens of about 640 bytes, one a line. Each is about one of SUBJECTS
subjects and of one of twelve event types of CAEP and RISC, both drawn by the seed. With `new` for SUBJECTS every fourth
token is about a subject that no earlier one was about, and the others about one of the last 100 of these; a fifth of the
subjects are complex, with a user of their own, and a device and a tenant that others share. The same words give
the same bytes.
"""
import base64
import hashlib
import hmac
import json
import random
import sys

KEY = b"0123456789abcdef0123456789abcdef"
CAEP = "https://schemas.openid.net/secevent/caep/event-type/"
RISC = "https://schemas.openid.net/secevent/risc/event-type/"
SIZE = 640
LAST_NEW = 100

EVENTS = [
    (CAEP + "session-revoked", {"initiating_entity": "policy", "reason_admin": "landspeed"}),
    (CAEP + "session-established", {"acr": "urn:mace:incommon:iap:silver", "amr": ["pwd", "otp"]}),
    (CAEP + "session-presented", {"ext_id": "12345"}),
    (CAEP + "credential-change", {"credential_type": "fido2-roaming", "change_type": "create"}),
    (CAEP + "assurance-level-change", {"namespace": "NIST-AAL", "current_level": "nist-aal2"}),
    (CAEP + "device-compliance-change", {"previous_status": "compliant", "current_status": "not-compliant"}),
    (CAEP + "token-claims-change", {"claims": {"role": "ro-admin"}}),
    (RISC + "account-disabled", {"reason": "hijacking"}),
    (RISC + "account-enabled", {}),
    (RISC + "credential-compromise", {"credential_type": "password"}),
    (RISC + "sessions-revoked", {}),
    (RISC + "opt-in", {}),
]


def part(data):
    return base64.urlsafe_b64encode(data).rstrip(b"=").decode()


def text(value):
    return json.dumps(value, separators=(",", ":"), sort_keys=True).encode()


HEADER = part(text({"alg": "HS256", "typ": "secevent+jwt"}))


def signed(payload):
    front = HEADER + "." + part(text(payload))
    return front + "." + part(hmac.new(KEY, front.encode(), hashlib.sha256).digest())


def user(number):
    return {"format": "iss_sub", "iss": "https://idp.example/", "sub": f"user-{number:08d}"}


def opaque(name):
    return {"format": "opaque", "id": name}


def new_subject(number):
    """The subject of this number: each fifth one is complex, and shares all parts but its user."""
    if number % 5 != 4:
        return user(number)
    return {
        "format": "complex",
        "device": opaque(f"device-{number // 50:06d}"),
        "tenant": opaque("tenant-1"),
        "user": user(number),
    }


def subject(number, subjects, rng):
    if subjects != "new":
        return user(rng.randrange(int(subjects)))
    newest = (number - 1) // 4
    if number % 4 == 1:
        return new_subject(newest)
    return new_subject(rng.randrange(max(newest - LAST_NEW, 0), newest + 1))


def token(number, subjects, rng):
    uri, payload = EVENTS[rng.randrange(len(EVENTS))]
    claims = {
        "aud": "https://rp.example",
        "events": {uri: payload},
        "iat": 1700000000 + number,
        "iss": "https://idp.example",
        "jti": f"6ba7b810-9dad-11d1-80b4-00c04fd430c8.acme-1.{number}",
        "sub_id": subject(number, subjects, rng),
        "txn": "",
    }
    missing = (SIZE - len(signed(claims))) * 3 // 4
    claims["txn"] = "".join(rng.choice("0123456789abcdef") for _ in range(max(missing, 0)))
    return signed(claims)


def main():
    if len(sys.argv) != 4:
        sys.exit("usage: make_tokens.py COUNT SUBJECTS|new SEED")
    count, subjects, seed = int(sys.argv[1]), sys.argv[2], int(sys.argv[3])
    rng = random.Random(seed)
    for number in range(1, count + 1):
        print(token(number, subjects, rng))


if __name__ == "__main__":
    main()
