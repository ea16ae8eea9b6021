#!/usr/bin/env python3
"""Counts the instructions of the transmitter's core by `valgrind --tool=callgrind`.

`run_core.py PROGRAM` runs the built program `sig_bench` with the words `publish` and `poll`, and prints:

- of a publication on 32 streams, of the 100 after the first 1,100 and of the last 2,000 of 100,000;
- of a publication on 1,024 streams, a stream;
- of a poll with 1,000 acknowledgements over 10,000 and over 100,000 owed tokens, where nothing was published before and
  where 100,000 tokens were published and acknowledged before, and of one with 10 acknowledgements.

Each is the difference of two runs. It fails where a bound isn't kept.
"""
import concurrent.futures
import os
import re
import subprocess
import sys
import tempfile

# Publications over which one is counted: after a few, and after so many that how the allocator moves its blocks tells.
EARLY = (1_100, 1_200)
LATE = (98_000, 100_000)
WIDE = (20, 120)
# How much more the later of two publications, or a poll after more publications, may take.
GROWTH = 1.05


def instructions(program, *words):
    with tempfile.TemporaryDirectory() as folder:
        out = os.path.join(folder, "callgrind.out")
        told = subprocess.run(
            ["valgrind", "--tool=callgrind", f"--callgrind-out-file={out}", program, *map(str, words)],
            stdout=subprocess.PIPE, stderr=subprocess.PIPE, check=True, cwd=folder)
        if not told.stdout.startswith(b"owed "):
            sys.exit(f"{words}: {told.stdout!r}")
        return int(re.search(r"^(?:summary|totals): (\d+)", open(out).read(), re.M).group(1))


def main():
    program = os.path.abspath(sys.argv[1])
    runs = {("publish", count, 32) for count in EARLY + LATE} | {("publish", count, 1_024) for count in WIDE}
    polls = [(before, owed, acks) for before, owed in ((0, 10_000), (0, 100_000), (100_000, 10_000)) for acks in (10, 1_000)]
    runs |= {("poll", *poll) for poll in polls} | {("poll", before, owed, 0) for before, owed, _ in polls}
    with concurrent.futures.ThreadPoolExecutor(os.cpu_count()) as pool:
        ordered = sorted(runs, key=lambda run: -max(run[1:3]))
        counts = dict(zip(ordered, pool.map(lambda run: instructions(program, *run), ordered)))

    def publication(part, streams):
        first, last = part
        return (counts["publish", last, streams] - counts["publish", first, streams]) / (last - first)

    def poll(before, owed, acks):
        return counts["poll", before, owed, acks] - counts["poll", before, owed, 0]

    early, late = publication(EARLY, 32), publication(LATE, 32)
    print(f"a publication on 32 streams: {early:.0f} after 1,100, {late:.0f} after 98,000, a ratio of {late / early:.3f}")
    wide = publication(WIDE, 1_024)
    print(f"a publication on 1,024 streams: {wide:.0f}, a stream {wide / 1024:.0f}; on 32 streams, a stream {early / 32:.0f}")
    for before, owed, acks in polls:
        print(f"a poll with {acks} acknowledgements over {owed} owed tokens, {before} acknowledged before: "
              f"{poll(before, owed, acks)}")
    grown = poll(100_000, 10_000, 1_000) / poll(0, 10_000, 1_000)
    # By what a token more and an acknowledgement more cost, each alone.
    summed = poll(0, 100_000, 10) + poll(0, 10_000, 1_000)
    kept = {
        "a publication doesn't grow with those before": late <= GROWTH * early,
        "a publication grows with its streams alone": wide <= GROWTH * 32 * early,
        "a poll doesn't grow with what was published before": grown <= GROWTH,
        "a poll doesn't grow with the product": poll(0, 100_000, 1_000) <= GROWTH * summed,
    }
    for bound, holds in kept.items():
        print(f"{bound}: {'kept' if holds else 'NOT KEPT'}")
    sys.exit(0 if all(kept.values()) else 1)


if __name__ == "__main__":
    main()
