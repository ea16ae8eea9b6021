#!/usr/bin/env python3
"""Counts the instructions of reading and writing HTTP messages in memory.

`run_http.py PROGRAM` runs the built program `sig_bench` under `valgrind --tool=callgrind`:

- a push request of 700 bytes with eight fields is read, and its response written; what a run over one takes is taken off;
- a response in chunks is read, of 65,536 and of 524,288 bytes, in chunks of 1,024 bytes and of one byte. The instructions
  a byte of content are printed, and the ratio of the larger body's to the smaller's: 1 where reading takes time in
  proportion to the bytes.

What it takes to make the messages is counted too. The status is 1 where a request takes more than 60,000 instructions, or
where a byte of the larger body takes over a tenth more than one of the smaller.
"""
import os
import re
import subprocess
import sys
import tempfile

PUSHES = 500
MOST = 60_000
SMALL, LARGE = 65_536, 524_288


def instructions(program, folder, wanted, *words):
    """The instructions of a run that has to print this."""
    out = os.path.join(folder, "callgrind.out")
    told = subprocess.run(
        ["valgrind", "--tool=callgrind", f"--callgrind-out-file={out}", program, *map(str, words)],
        stdout=subprocess.PIPE, stderr=subprocess.PIPE, check=True)
    if told.stdout.decode().strip() != wanted:
        sys.exit(f"{words}: {told.stdout!r}, and not {wanted!r}")
    return int(re.search(rb"Collected : (\d+)", told.stderr).group(1))


def pushes(program, folder):
    one = instructions(program, folder, "requests 1", "push", 1)
    each = (instructions(program, folder, f"requests {PUSHES + 1}", "push", PUSHES + 1) - one) / PUSHES
    print(f"a push request of 700 bytes read and its response written: {each:.0f} instructions")
    return each <= MOST


def chunks(program, folder, size):
    none = instructions(program, folder, "bytes 0", "chunks", 0, size)
    small, large = (
        (instructions(program, folder, f"bytes {count}", "chunks", count // size, size) - none) / count
        for count in (SMALL, LARGE))
    print(f"chunks of {size} bytes: {small:.1f} instructions a byte of {SMALL:,}, {large:.1f} of {LARGE:,}, ratio {large / small:.3f}")
    return large <= small * 1.1


def main():
    program = os.path.abspath(sys.argv[1])
    with tempfile.TemporaryDirectory() as folder:
        held = [pushes(program, folder), chunks(program, folder, 1024), chunks(program, folder, 1)]
    sys.exit(0 if all(held) else 1)


main()
