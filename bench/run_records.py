#!/usr/bin/env python3
"""Measures records and poll responses in memory.

`run_records.py PROGRAM` runs the built program `sig_bench`:

- records of 700 bytes of the larger kinds of facts are decoded and encoded, 100,000 times each, and the speeds printed; what
  a run over one record takes is taken off, and the fastest of five runs counts;
- a poll response with a page of 32 tokens is written and signed under `valgrind --tool=callgrind`, and its instructions are
  printed beside those of base64url and the MACs of the same payloads alone.

A line stands for each bound and says whether it is kept. The status is 1 where one isn't.
"""
import base64
import os
import re
import resource
import subprocess
import sys
import tempfile

sys.dont_write_bytecode = True
sys.path.insert(0, os.path.join(os.path.dirname(os.path.abspath(__file__)), "..", "tools"))
from cases import record_cases as made
from cases import sign_tokens

BYTES = 700
COUNT = 100_000
RUNS = 5
PAGES = 50
# MB a second at least, and how many times the instructions of base64url and the MACs at most.
LEAST = 150
MOST = 1.3

SUBJECT = {
    "format": "complex", "session": {"format": "opaque", "id": "s-77"},
    "user": {"email": "user@example.com", "format": "email"},
}
REASON = {
    "event_timestamp": 1615304991, "initiating_entity": "policy",
    "reason_admin": {"en": "Landspeed Policy Violation: C076E82F"},
}


def filled(parts_with):
    """A record with so long a text that it has the wanted bytes."""
    return b"".join(parts_with(b"x" * (BYTES - len(b"".join(parts_with(b""))))))


def publication(reason, subject=made.OPAQUE):
    payload = {**REASON, "reason_admin": {"en": reason.decode()}}
    return made.published(subject, payload=sign_tokens.text(payload))


def publication_on_a_session(reason):
    return publication(reason, sign_tokens.text(SUBJECT))


def stream(description):
    return made.created(made.PUSH, requested=made.REQUESTED, description=(made.YES, made.text(description)))


def settled(last):
    items = [(made.number(n), made.NO) if n % 4 else (made.number(n), made.YES, made.text(b"invalid_key")) for n in range(1, 46)]
    return made.settled(*items, (made.number(46), made.YES, made.text(last)))


RECORDS = [
    ("a publication", publication), ("a publication about a user's session", publication_on_a_session),
    ("a stream", stream), ("settled tokens", settled),
]

TOKENS = [
    ("about a session", sign_tokens.claims()),
    ("about a user's session, with a reason", sign_tokens.claims(sub_id=SUBJECT, events={sign_tokens.REVOKED: REASON})),
]


def run(program, *words):
    return subprocess.run([program, *map(str, words)], stdout=subprocess.PIPE, stderr=subprocess.PIPE, check=True)


def expect(told, wanted):
    if told.stdout.decode().strip() != wanted:
        sys.exit(f"{told.args[-3:-1]}: {told.stdout!r}, and not {wanted!r}")
    return told


def seconds(program, mode, count, record):
    """The processor's time of a run, which other programs beside it don't lengthen."""
    begun = resource.getrusage(resource.RUSAGE_CHILDREN).ru_utime
    expect(run(program, mode, count, record), f"records {count}")
    return resource.getrusage(resource.RUSAGE_CHILDREN).ru_utime - begun


def speed(program, mode, record):
    """MB a second."""
    one, many = (min(seconds(program, mode, count, record) for _ in range(RUNS)) for count in (1, COUNT))
    return COUNT * BYTES / (many - one) / 1e6


def instructions(program, folder, mode, count, token):
    out = os.path.join(folder, "callgrind.out")
    told = run("valgrind", "--tool=callgrind", f"--callgrind-out-file={out}", program, mode, count, token)
    return int(re.search(rb"Collected : (\d+)", expect(told, f"pages {count}").stderr).group(1))


def page(program, folder, mode, token):
    """The instructions that a page takes."""
    one = instructions(program, folder, mode, 1, token)
    return (instructions(program, folder, mode, PAGES + 1, token) - one) / PAGES


def main():
    program = os.path.abspath(sys.argv[1])
    kept = {}
    for shows, parts_with in RECORDS:
        record = filled(parts_with)
        word = base64.urlsafe_b64encode(record).decode().rstrip("=")
        for mode in ("decode", "encode"):
            found = speed(program, mode, word)
            print(f"{mode} {shows} of {len(record)} bytes: {found:.0f} MB a second")
            kept[f"{mode} {shows} at {LEAST} MB a second"] = found >= LEAST
    with tempfile.TemporaryDirectory() as folder:
        for shows, claims in TOKENS:
            token = sign_tokens.signed(sign_tokens.header(kid="k1"), claims)
            written, signed = (page(program, folder, mode, token) for mode in ("sets", "signs"))
            print(f"a page of 32 tokens {shows}, {len(token)} bytes each: {written:.0f} instructions, "
                  f"base64url and MACs {signed:.0f}, ratio {written / signed:.3f}")
            kept[f"a page of tokens {shows} within {MOST} times"] = written <= MOST * signed
    for bound, holds in kept.items():
        print(f"{bound}: {'kept' if holds else 'NOT KEPT'}")
    sys.exit(0 if all(kept.values()) else 1)


if __name__ == "__main__":
    main()
