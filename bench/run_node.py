#!/usr/bin/env python3
"""Measures the receiver's node over real files.

`run_node.py PROGRAM` runs the built program `sig_bench` in a folder of its own:

- 5,000 new tokens are brought to a receiver's node, in turns with a bare loop of two writes and two syncs of the same sizes,
  and the ratio of the times is printed: the node over the bare loop, as speeds. What a run that only makes these tokens takes
  is taken off;
- a store of 100,000 tokens is loaded from the page cache, and how many a second is printed; the fastest of five runs counts.

A line stands for each bound and says whether it is kept. The status is 1 where one isn't.
"""
import os
import sys
import tempfile
import time

sys.dont_write_bytecode = True
sys.path.insert(0, os.path.join(os.path.dirname(os.path.abspath(__file__)), "..", "tools"))
from cases import sign_tokens
from run_journal import expect, run, seconds

ROUNDS = 10
COUNT = 5_000
STORED = 100_000
# Times the bare loop's speed, and tokens a second, at least.
LEAST_RATIO = 0.85
LEAST_LOADED = 60_000


def token():
    """A token of some 700 bytes."""
    claims = sign_tokens.claims(events={sign_tokens.REVOKED: {"reason_admin": {"en": "x" * 150}}})
    return sign_tokens.signed(sign_tokens.HEADER, claims)


def taking(program, folder, text):
    node = bare = 0.0
    part = COUNT // ROUNDS
    # the record: its kind, the text's length and the text
    size = len(text) + 5
    for number in range(ROUNDS):
        names = [f"{name}-{number}" for name in "abcde"]
        # making the tokens, and loading an empty store, is no part of taking them
        node -= seconds(program, folder, "tokens", names[3], names[4], part, text)[0]
        bare -= seconds(program, folder, "bare", names[2], 0, size)[0]
        took, told = seconds(program, folder, "take", names[0], names[1], part, text)
        expect(told, f"records {part}", "take")
        node += took
        took, told = seconds(program, folder, "bare", names[2], part, size)
        expect(told, f"records {part}", "bare")
        bare += took
    print(f"take tokens of {len(text)} bytes: {COUNT / node:.0f} a second, bare {COUNT / bare:.0f}, ratio {bare / node:.3f}")
    return bare / node


def loading(program, folder, text):
    expect(run(program, folder, "tokens", "la", "lb", STORED, text), f"records {STORED}", "tokens")
    times = []
    for _ in range(5):
        took, told = seconds(program, folder, "node", "la", "lb")
        expect(told, f"records {STORED}", "node")
        times.append(took)
    print(f"load {STORED} tokens: {STORED / min(times):.0f} a second")
    return STORED / min(times)


def main():
    program = os.path.abspath(sys.argv[1])
    with tempfile.TemporaryDirectory() as folder:
        text = token()
        bounds = [
            (f"at least {LEAST_RATIO} of the bare loop's speed", taking(program, folder, text) >= LEAST_RATIO),
            (f"at least {LEAST_LOADED} tokens loaded a second", loading(program, folder, text) >= LEAST_LOADED),
        ]
    for bound, is_kept in bounds:
        print(f"{'kept' if is_kept else 'NOT KEPT'}: {bound}")
    sys.exit(0 if all(is_kept for _, is_kept in bounds) else 1)


if __name__ == "__main__":
    main()
