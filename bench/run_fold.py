#!/usr/bin/env python3
"""Runs `fold` on generated tokens, and prints what a token takes beside what it may take.

`run_fold.py PROGRAM` runs the built program over tokens of `make_tokens.py`: 5,000 and 20,000 about 100 subjects, 20,000
about 20,000 subjects, and 20,000 and 80,000 with a new subject every fourth token, a fifth of them complex. Each run has to
accept every token. Instructions are counted by `valgrind --tool=callgrind`, and memory is the peak of the resident set;
what a run over one token takes is taken off both. A line stands for each bound, and says whether it is kept.
"""
import os
import re
import subprocess
import sys
import tempfile
import threading
import time

WORDS = ["fold", "https://idp.example", "https://rp.example", "MDEyMzQ1Njc4OWFiY2RlZjAxMjM0NTY3ODlhYmNkZWY"]
HERE = os.path.dirname(os.path.abspath(__file__))
RUNS = 5


def tokens(folder, count, subjects):
    path = os.path.join(folder, f"tokens-{count}-{subjects}")
    with open(path, "wb") as out:
        subprocess.run([sys.executable, os.path.join(HERE, "make_tokens.py"), str(count), str(subjects), "1"], stdout=out, check=True)
    return path


def seconds(program, path):
    """How long a run takes."""
    begun = time.perf_counter()
    subprocess.run([program, *WORDS], stdin=open(path, "rb"), stdout=subprocess.DEVNULL, check=True)
    return time.perf_counter() - begun


def seconds_in_turn(program, *paths):
    """The fastest run over each, where they run in turn."""
    rounds = [[seconds(program, path) for path in paths] for _ in range(RUNS)]
    return [min(times) for times in zip(*rounds)]


def peak(program, path):
    """The peak of the resident set in bytes, once each token has its verdict and before the input ends."""
    with open(path, "rb") as tokens:
        lines = tokens.readlines()
    run = subprocess.Popen([program, *WORDS], stdin=subprocess.PIPE, stdout=subprocess.PIPE)
    writer = threading.Thread(target=lambda: (run.stdin.write(b"".join(lines)), run.stdin.flush()))
    writer.start()
    for number in range(1, len(lines) + 1):
        verdict = run.stdout.readline()
        if verdict != b"%d accepted\n" % number:
            sys.exit(f"token {number}: {verdict!r}")
    writer.join()
    with open(f"/proc/{run.pid}/status") as status:
        held = int(re.search(r"VmHWM:\s+(\d+) kB", status.read()).group(1)) * 1024
    run.stdin.close()
    table = run.stdout.read().splitlines()
    if run.wait() != 0 or not table[-1].endswith(b" tokens %d" % len(lines)):
        sys.exit(f"status {run.returncode}, last line {table[-1:]}")
    return held


def instructions(program, path, folder):
    out = os.path.join(folder, "callgrind.out")
    told = subprocess.run(
        ["valgrind", "--tool=callgrind", f"--callgrind-out-file={out}", program, *WORDS],
        stdin=open(path, "rb"), stdout=subprocess.DEVNULL, stderr=subprocess.PIPE, check=True,
    )
    return int(re.search(rb"Collected : (\d+)", told.stderr).group(1))


class Bench:
    """The program, and what it takes over one token."""

    def __init__(self, program, folder):
        self.program = program
        self.folder = folder
        one = tokens(folder, 1, 100)
        self.base_held = peak(program, one)
        self.base_count = instructions(program, one, folder)

    def measure(self, count, subjects):
        """Prints what the tokens take, and gives instructions and bytes a token, and their file."""
        path = tokens(self.folder, count, subjects)
        taken = min(seconds(self.program, path) for _ in range(RUNS))
        held = (peak(self.program, path) - self.base_held) / (count - 1)
        each = (instructions(self.program, path, self.folder) - self.base_count) / (count - 1)
        named = "a new subject every fourth" if subjects == "new" else f"{subjects} subjects"
        print(
            f"{count} tokens of {os.path.getsize(path) / count:.0f} bytes, {named}: {count / taken:,.0f} tokens a second, "
            f"{held:,.0f} bytes of memory a token, {each:,.0f} instructions a token",
            flush=True,
        )
        return each, held, path


def bound(what, value, most):
    """Prints a measure beside what it may be at most."""
    shown = f"{value:.2f} of {most}" if most < 100 else f"{value:,.0f} of {most:,}"
    print(f"{what}: {shown}, {'kept' if value <= most else 'not kept'}", flush=True)


def main():
    if len(sys.argv) != 2:
        sys.exit("usage: run_fold.py PROGRAM")
    with tempfile.TemporaryDirectory() as folder:
        bench = Bench(os.path.abspath(sys.argv[1]), folder)
        bench.measure(5_000, 100)
        few, few_held, few_path = bench.measure(20_000, 100)
        some, some_held, _ = bench.measure(20_000, "new")
        many, many_held, _ = bench.measure(80_000, "new")
        over_few, over_many = seconds_in_turn(bench.program, few_path, tokens(folder, 20_000, 20_000))
        bound("instructions a token, 100 subjects", few, 105_000)
        bound("instructions a token, a new subject every fourth, 20,000 tokens", some, 115_000)
        bound("instructions a token, a new subject every fourth, 80,000 tokens", many, 115_000)
        bound("their growth from 20,000 tokens to 80,000", many / some, 1.03)
        bound("bytes of memory a token", max(few_held, some_held, many_held), 450)
        bound("time a token over 20,000 subjects beside that over 100", over_many / over_few, 1.25)


if __name__ == "__main__":
    main()
