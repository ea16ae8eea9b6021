#!/usr/bin/env python3
"""Measures the journal over real files, and tries it on a file that is cut and on a disk that is full.

`run_journal.py PROGRAM` runs the built program `sig_bench` in a folder of its own:

- 5,000 records of 64 and of 700 bytes are appended, in turns with a bare loop of two writes and two syncs of the same
  kind and sizes, and the ratio of the times is printed: the journal over the bare loop, as speeds;
- a store of 100,000 records of 700 bytes is loaded from the page cache;
- of a store of 1,000 records the file is cut at every byte of the last one, and each is loaded;
- records are appended until a file may grow no more, and then the store is loaded.
"""
import os
import resource
import shutil
import signal
import subprocess
import sys
import tempfile
import time

ROUNDS = 10
COUNT = 5_000


def run(program, folder, *words, limit=None):
    """What a run printed."""
    def grow_no_more():
        signal.signal(signal.SIGXFSZ, signal.SIG_IGN)
        resource.setrlimit(resource.RLIMIT_FSIZE, (limit, limit))
    told = subprocess.run(
        [program, *map(str, words)], cwd=folder, stdout=subprocess.PIPE, check=True, restore_signals=False,
        preexec_fn=grow_no_more if limit else None)
    return told.stdout.decode().strip()


def seconds(program, folder, *words):
    begun = time.perf_counter()
    told = run(program, folder, *words)
    return time.perf_counter() - begun, told


def expect(told, wanted, what):
    if told != wanted:
        sys.exit(f"{what}: {told!r}, and not {wanted!r}")


def appending(program, folder, size):
    """The times of the journal and of the bare loop, in turns, less what a run without records takes."""
    journal = bare = 0.0
    part = COUNT // ROUNDS
    for number in range(ROUNDS):
        names = [f"{name}-{size}-{number}" for name in "abc"]
        journal -= seconds(program, folder, "append", names[0], names[1], 0, size)[0]
        bare -= seconds(program, folder, "bare", names[2], 0, size)[0]
        took, told = seconds(program, folder, "append", names[0], names[1], part, size)
        expect(told, f"records {part}", "append")
        journal += took
        took, told = seconds(program, folder, "bare", names[2], part, size)
        expect(told, f"records {part}", "bare")
        bare += took
    print(f"append {size} bytes: {COUNT / journal:.0f} records a second, bare {COUNT / bare:.0f}, ratio {bare / journal:.3f}")


def loading(program, folder):
    count, size = 100_000, 700
    expect(run(program, folder, "fill", "la", "lb", count, size), f"records {count}", "fill")
    expect(run(program, folder, "load", "la", "lb"), f"records {count}", "load")
    empty = min(seconds(program, folder, "load", "ea", "eb")[0] for _ in range(5)) if run(program, folder, "append", "ea", "eb", 0, 0) else 0
    times = [seconds(program, folder, "load", "la", "lb")[0] for _ in range(5)]
    total = os.path.getsize(os.path.join(folder, "la"))
    print(f"load {count} records of {size} bytes: {total / (min(times) - empty) / 1e6:.0f} MB a second")


def cutting(program, folder):
    """A cut within the last record is damage at its gate, and one before it at the gate of the record before it."""
    count, size = 1_000, 64
    expect(run(program, folder, "append", "ca", "cb", count, size), f"records {count}", "append")
    whole = open(os.path.join(folder, "ca"), "rb").read()
    gate = 35 + (count - 1) * (size + 5)
    for length in range(gate, len(whole) + 1):
        with open(os.path.join(folder, "ca"), "wb") as out:
            out.write(whole[:length])
        wanted = f"damaged 0 {gate if length > gate else gate - (size + 5)}" if length < len(whole) else f"records {count}"
        expect(run(program, folder, "load", "ca", "cb"), wanted, f"cut at {length}")
    print(f"cut at each of {len(whole) + 1 - gate} lengths: told at its place")


def filling(program, folder):
    """A disk that is full: the cause is told, and no record is lost."""
    limit, size = 65_536, 64
    expect(run(program, folder, "append", "fa", "fb", 2_000, size, limit=limit), "Store", "append to a full disk")
    held = (limit - 36) // (size + 5)
    expect(run(program, folder, "load", "fa", "fb"), f"records {held}", "load after a full disk")
    print(f"full at {limit} bytes: the disk's fault is told, and {held} records are there")


def main():
    program = os.path.abspath(sys.argv[1])
    folder = tempfile.mkdtemp(dir=sys.argv[2] if len(sys.argv) > 2 else None)
    try:
        cutting(program, folder)
        filling(program, folder)
        loading(program, folder)
        for size in (64, 700):
            appending(program, folder, size)
    finally:
        shutil.rmtree(folder)


if __name__ == "__main__":
    main()
