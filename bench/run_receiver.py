#!/usr/bin/env python3
"""Measures the receiver's server over real sockets and a real file.

`run_receiver.py PROGRAM [ROWS]` runs the built program `signals` in a folder of its own and prints:

- how many pushes a second are taken on kept links, each sent once the one before is answered, beside a bare loop of two writes and
  two syncs of the same sizes, in turns, and the ratio of both speeds;
- how long a store with ROWS rows (100,000 by default) takes to load, and how many checks of subjects a second are answered over
  it on kept links, sixteen requests sent at a time.

A line stands for each bound and says whether it is kept. The status is 1 where one isn't.
"""
import json
import os
import random
import sys
import tempfile
import time
import uuid

sys.dont_write_bytecode = True
sys.path.insert(0, os.path.join(os.path.dirname(os.path.abspath(__file__)), "..", "tools"))
from checks.check_receiver import Receiver
from checks.receiver_rows import opaque, token
from run_server import LINK, Link, bare
from checks.served import fail

ROUNDS = 10
PUSHES = 640
CHECKS = 64_000
ROWS = 100_000
# Times the bare loop's speed, and checks a second, at least.
LEAST_RATIO = 0.6
LEAST_CHECKS = 15_000


def request(path, bearer, kind, text):
    head = f"POST {path} HTTP/1.1\r\nhost: localhost\r\nauthorization: Bearer {bearer}\r\ncontent-type: {kind}\r\n"
    return f"{head}content-length: {len(text)}\r\n\r\n{text}".encode()


def push(receiver, number):
    text = token(f"{uuid.UUID(int=number)}.bench", opaque(f"s-{number}"))
    return request("/push", receiver.bearers["push"], "application/secevent+jwt", text)


def pushing(receiver, room):
    link, served, written, part = Link(receiver.port), 0.0, 0.0, PUSHES // ROUNDS
    before = os.path.getsize(f"{receiver.store}.a")
    for number in range(ROUNDS):
        asks = [push(receiver, number * part + place) for place in range(part)]
        begun = time.perf_counter()
        for ask in asks:
            if link.ask([ask]) != [202]:
                fail("a push isn't answered with 202")
        served += time.perf_counter() - begun
        size = (os.path.getsize(f"{receiver.store}.a") - before) // ((number + 1) * part)
        written += bare(os.path.join(room, "bare"), part, size)
    print(f"pushes: {PUSHES / served:.0f} a second, bare {PUSHES / written:.0f}, ratio {written / served:.3f}")
    return written / served


def fill(receiver, rows):
    """A journal with a token about each of so many subjects (docs/FORMATS.md, the files of a store and records)."""
    with open(f"{receiver.store}.a", "r+b") as file:
        file.seek(35)
        for number in range(rows):
            text = token(f"row-{number}", opaque(f"r-{number}")).encode()
            record = b"\x01" + len(text).to_bytes(4, "big") + text
            file.write(b"\x5a" + len(record).to_bytes(4, "big") + record)
        file.write(b"\x00")


def checking(receiver, rows):
    draw, kind, reader = random.Random(9493), "application/json", receiver.bearers["reader"]
    asks = [request("/sessions/check", reader, kind, json.dumps(opaque(f"r-{draw.randrange(rows * 2)}"))) for _ in range(CHECKS)]
    link = Link(receiver.port)
    begun = time.perf_counter()
    for at in range(0, CHECKS, LINK):
        if link.ask(asks[at : at + LINK]) != [200] * LINK:
            fail("a check isn't answered with 200")
    speed = CHECKS / (time.perf_counter() - begun)
    print(f"checks over {rows} rows: {speed:.0f} a second")
    return speed


def main():
    if len(sys.argv) not in (2, 3):
        sys.exit("usage: run_receiver.py PROGRAM [ROWS]")
    rows = int(sys.argv[2]) if len(sys.argv) == 3 else ROWS
    with tempfile.TemporaryDirectory(dir=".") as room:
        room = os.path.abspath(room)
        receiver, full = (Receiver(os.path.abspath(sys.argv[1]), room, name) for name in ("rx", "full"))
        for one in receiver, full:
            if one.run("init", "rx", one.store, str(uuid.uuid4())) != (0, ""):
                fail("a store isn't made")
        receiver.start()
        ratio = pushing(receiver, room)
        receiver.kill()
        fill(full, rows)
        begun = time.perf_counter()
        full.start(wait=60)
        print(f"a store of {rows} rows is loaded in {time.perf_counter() - begun:.1f} s")
        speed = checking(full, rows)
        full.kill()
    kept = ratio >= LEAST_RATIO, speed >= LEAST_CHECKS
    print(f"at least {LEAST_RATIO} of the bare loop: {'kept' if kept[0] else 'NOT kept'}")
    print(f"at least {LEAST_CHECKS} checks a second: {'kept' if kept[1] else 'NOT kept'}")
    return 0 if all(kept) else 1


if __name__ == "__main__":
    sys.exit(main())
