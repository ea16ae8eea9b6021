"""Lines for the session table over two thousand rows, drawn by a seed.

Their answers are those of `models/table.py`, which goes over all rows for each event and each verdict, where the table of
the program finds its rows by keys. Subjects are simple, of several formats, and complex ones that share devices, groups
and tenants with others; a few are parts of many rows.
"""
import json
import random

CAEP = "https://schemas.openid.net/secevent/caep/event-type/"
RISC = "https://schemas.openid.net/secevent/risc/event-type/"
SEED = 12
TAKEN = 2_600
ASKED = 500

EVENTS = [
    (CAEP + "session-established", {}),
    (CAEP + "session-revoked", {}),
    (CAEP + "session-presented", {}),
    (CAEP + "device-compliance-change", {"current_status": "not-compliant", "previous_status": "compliant"}),
    (CAEP + "device-compliance-change", {"current_status": "compliant", "previous_status": "not-compliant"}),
    (CAEP + "assurance-level-change", {"current_level": "nist-aal2", "namespace": "NIST-AAL"}),
    (RISC + "account-disabled", {}),
    (RISC + "account-enabled", {}),
    (RISC + "account-purged", {}),
    (RISC + "account-credential-change-required", {}),
    (RISC + "opt-in", {}),
    (RISC + "sessions-revoked", {}),
]


def opaque(name):
    return {"format": "opaque", "id": name}


def simple(rng):
    """One of the identifiers that also stand as parts, or an alias of two."""
    kind = rng.randrange(8)
    if kind < 4:
        return opaque(f"u{rng.randrange(900)}")
    if kind == 4:
        return {"email": f"u{rng.randrange(300)}@a.example", "format": "email"}
    if kind == 5:
        return {"format": "iss_sub", "iss": "https://a.example", "sub": f"u{rng.randrange(300)}"}
    if kind == 6:
        return opaque(f"d{rng.randrange(40)}")
    return {"format": "aliases", "identifiers": [opaque(f"u{rng.randrange(30)}"), opaque(f"u{rng.randrange(30)}")]}


def part(name, rng):
    many = {"user": 900, "device": 40, "session": 2_000, "group": 5, "tenant": 2, "application": 3, "org_unit": 2}[name]
    return opaque(f"{name[0]}{rng.randrange(many)}")


def complex_subject(rng):
    names = rng.choice([["user", "tenant"], ["session", "user"], ["device", "user"], ["group", "tenant"], ["device", "session", "user", "tenant"], ["application", "user"], ["org_unit"]])
    return {"format": "complex", **{name: part(name, rng) for name in names}}


def subject(rng):
    return simple(rng) if rng.randrange(2) else complex_subject(rng)


def text(value):
    return json.dumps(value, separators=(",", ":"), sort_keys=True).encode()


def lines():
    """Tokens that are taken, with a verdict after each sixth, and at the end rows and further verdicts."""
    rng = random.Random(SEED)
    out = [b"# Two thousand rows, in which each row is found by a walk over all of them.", b"clear"]
    for taken in range(TAKEN):
        uri, payload = EVENTS[rng.randrange(len(EVENTS))]
        # An event on a part of many rows changes them all, so one that changes little is rare enough.
        whom = opaque("t0") if taken % 400 == 399 else subject(rng)
        out.append(b"take " + text({"events": {uri: payload}, "sub_id": whom}))
        if taken % 6 == 5:
            out.append(b"verdict " + text(subject(rng)))
    out.append(b"# What each third row says, and verdicts on subjects of all kinds.")
    out += [b"row %d" % place for place in range(1, 2_200, 3)]
    out += [b"verdict " + text(subject(rng)) for _ in range(ASKED)]
    return out + [b"clear"]
