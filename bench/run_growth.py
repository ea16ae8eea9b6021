#!/usr/bin/env python3
"""Measures how what the transmitter's core does grows with what it holds, over lines of calls and over a store.

`run_growth.py TURNS [SIGNALS] [PART]..` runs the built program `sig_turns`, which makes a call at the core a line, and prints:

- the instructions of a publication to 1, 100 and 1,000 streams that are due, and to 1 of 1,000;
- of adding the 1,000th and the 100,000th listed subject of a stream;
- of a poll of 32 tokens over 1,000 and over 100,000 owed ones, and of one that acknowledges 32 and asks for 32;
- the processor's time of a poll of 32 over 1,000 and over 1,000,000 owed tokens, and of draining both by pages of 32, a token.

With the built program `signals` it writes stores of 10,000, 100,000 and 1,000,000 publications, loads each by `courier` without a
tick, and prints the processor's time and the memory that the program held at most, a publication.

Instructions are those of `valgrind --tool=callgrind` between two lines, all else left out, and with the reading of the line and the
writing of its answer; below each stand the functions that take most of them. PART is `publishing`, `listing`, `polling`, `draining` or
`loading`, and each of them where none is named. It fails where a bound isn't kept.
"""
import json
import os
import re
import subprocess
import sys
import tempfile
import threading
import time
import uuid

sys.dont_write_bytecode = True
sys.path.insert(0, os.path.join(os.path.dirname(os.path.abspath(__file__)), "..", "tools"))
from cases import record_cases as made

# Streams that a client may have at most, and tokens of a page.
CLIENT_STREAMS, PAGE = 16, 32
# How much more may be taken where nothing may grow.
GROWTH = 1.2
# A drain that takes longer is broken off, in the processor's seconds, and its mean stands for the tokens that were drained.
DRAIN_SECONDS = 120
STORE = "6ba7b810-9dad-11d1-80b4-00c04fd430c8"
EVENT = "https://schemas.openid.net/secevent/caep/event-type/session-revoked"


def line(word, body):
    return f"{word} {json.dumps(body, separators=(',', ':'))}\n".encode()


def call(name, **parts):
    return line("call", {"call": name, **parts})


def streams(count, defaults="ALL"):
    """Rules with as many clients as so many streams need, and the streams."""
    clients = [{"aud": ["https://rp.example"], "name": f"c{at}"} for at in range(-(-count // CLIENT_STREAMS))]
    yield line("rules", {"clients": clients, "defaults": defaults, "interval": 0, "issuer": "https://idp.example"})
    for at in range(count):
        yield call("create", client=f"c{at // CLIENT_STREAMS}", want={})


def subject(number):
    return {"format": "opaque", "id": f"s-{number}"}


def publications(first, count):
    for at in range(first, first + count):
        yield call("publish", publication={"events": {EVENT: {}}, "publish_id": str(uuid.UUID(int=at)), "sub_id": subject(at)})


def added(first, count):
    for at in range(first, first + count):
        yield call("add", client="c0", stream="c0-1", subject=subject(at))


def poll(most=PAGE, acks=()):
    """A poll for at most so many tokens, with the acknowledgements of tokens of these numbers."""
    return call("poll", client="c0", stream="c0-1", ask={"acks": [f"{STORE}.c0-1.{at}" for at in acks], "errors": [], "max": most})


def drain(first, count):
    """Polls that acknowledge a page and ask for the next one."""
    for at in range(first, first + count, PAGE):
        yield poll(PAGE, range(at, min(at + PAGE, first + count)))


class Turns:
    """A run of `sig_turns` that is told lines and says when it has answered them."""

    def __init__(self, program, *before):
        self.running = subprocess.Popen([*before, program], stdin=subprocess.PIPE, stdout=subprocess.PIPE, stderr=subprocess.DEVNULL)
        self.number = 0

    def tell(self, lines):
        """Tells these lines, and reads the answer to each, none of which may say that it isn't known or refused."""
        lines = list(lines)
        writer = threading.Thread(target=self.write, args=(lines,))
        writer.start()
        for _ in lines:
            self.number += 1
            answer = self.running.stdout.readline()
            if not answer.startswith(b"%d " % self.number) or answer.split()[1] not in (b"ok", b"made", b"published", b"added", b"sets"):
                sys.exit(f"line {self.number}: {answer[:200]!r}")
        writer.join()

    def write(self, lines):
        self.running.stdin.write(b"".join(lines))
        self.running.stdin.flush()

    def seconds(self):
        """The processor's time so far."""
        with open(f"/proc/{self.running.pid}/schedstat", encoding="utf-8") as file:
            return int(file.read().split()[0]) / 1e9

    def polls(self, owed):
        """The processor's time of a poll: the least of the means of several times twenty, which other programs beside it lengthen least."""
        means = []
        for _ in range(20):
            begun = self.seconds()
            self.tell([poll()] * 20)
            means.append((self.seconds() - begun) / 20)
        print(f"a poll of 32 over {owed:,} owed: {min(means) * 1e6:,.1f} microseconds", flush=True)
        return min(means)

    def control(self, word):
        subprocess.run(["callgrind_control", "-i", word, str(self.running.pid)], stdout=subprocess.PIPE, stderr=subprocess.PIPE, check=True)

    def end(self):
        self.running.stdin.close()
        if self.running.wait() != 0:
            sys.exit(f"sig_turns ended with {self.running.returncode}")


class Growth:
    """What was measured, and which bounds were kept."""

    def __init__(self, program):
        self.program, self.kept = program, {}

    def instructions(self, shows, before, lines):
        """The instructions of each of these lines, told after others; the functions that take most are printed."""
        lines = list(lines)
        with tempfile.TemporaryDirectory() as folder:
            out = os.path.join(folder, "callgrind.out")
            turns = Turns(self.program, "valgrind", "--tool=callgrind", "--instr-atstart=no", f"--callgrind-out-file={out}")
            turns.tell(before)
            turns.control("on")
            turns.tell(lines)
            turns.control("off")
            turns.end()
            with open(out, encoding="utf-8") as file:
                count = int(re.search(r"^totals: (\d+)", file.read(), re.M).group(1)) / len(lines)
            told = subprocess.run(["callgrind_annotate", out], stdout=subprocess.PIPE, stderr=subprocess.PIPE, check=False).stdout.decode()
        print(f"{shows}: {count:,.0f} instructions")
        for share, name in re.findall(r"^ *[\d,]+ \( *([\d.]+)%\)  \S*?:(\S.*?)(?: \[.*)?$", told, re.M)[:4]:
            print(f"    {share:>5} % {name}")
        sys.stdout.flush()
        return count

    def bound(self, shows, first, last, most=GROWTH):
        self.kept[shows] = last <= most * first
        print(f"{shows}: grown by {last / first:.3f}, at most {most:.3f}: {'kept' if self.kept[shows] else 'NOT KEPT'}", flush=True)


def publishing(growth):
    counts = {}
    for count, often in ((1, 200), (100, 20), (1_000, 5)):
        before = [*streams(count), *publications(1, often)]
        counts[count] = growth.instructions(f"a publication, {count} streams due", before, publications(often + 1, often))
    growth.bound("a publication, a due stream more, 100 to 1,000 beside 1 to 100", (counts[100] - counts[1]) / 99, (counts[1_000] - counts[100]) / 900)
    one = [0, 0]
    for at, count in enumerate((1, 1_000)):
        before = [*streams(count, "NONE"), *added(1, 400), *publications(1, 200)]
        one[at] = growth.instructions(f"a publication, 1 of {count} streams due", before, publications(201, 200))
    growth.bound("a publication, 1 due of 1,000 beside 1 of 1", *one)


def listing(growth):
    few, many = (
        growth.instructions(f"the {count:,}th subject added", [*streams(1, "NONE"), *added(1, count - 100)], added(count - 99, 100))
        for count in (1_000, 100_000)
    )
    growth.bound("a subject added, the 100,000th beside the 1,000th", few, many)


def polling(growth):
    polls, acknowledged = {}, {}
    for owed in (1_000, 100_000):
        before = [*streams(1), *publications(1, owed)]
        polls[owed] = growth.instructions(f"a poll of 32 over {owed:,} owed", before, [poll()] * 20)
        acknowledged[owed] = growth.instructions(f"a poll of 32 that acknowledges 32 over {owed:,} owed", before, drain(1, 20 * PAGE))
    growth.bound("a poll of 32, over 100,000 beside 1,000", polls[1_000], polls[100_000])
    growth.bound("a poll that acknowledges, over 100,000 beside 1,000", acknowledged[1_000], acknowledged[100_000])


def draining(growth):
    turns, small, few = Turns(growth.program), 0, 0
    turns.tell(streams(1))
    for first in range(1, 20_001, 1_000):
        turns.tell(publications(first, 1_000))
        few = turns.polls(1_000) if first == 1 else few
        begun = turns.seconds()
        turns.tell(drain(first, 1_000))
        small += (turns.seconds() - begun) / 20_000
    turns.end()
    print(f"1,000 owed drained, a token: {small * 1e6:.1f} microseconds", flush=True)
    owed = 1_000_000
    turns = Turns(growth.program)
    turns.tell(streams(1))
    for first in range(1, owed, 100_000):
        turns.tell(publications(first, 100_000))
    many = turns.polls(owed)
    begun, drained = turns.seconds(), 0
    while drained < owed and turns.seconds() - begun < DRAIN_SECONDS:
        turns.tell(drain(drained + 1, PAGE * 20))
        drained += PAGE * 20
    large = (turns.seconds() - begun) / min(drained, owed)
    turns.end()
    print(f"{owed:,} owed, the first {min(drained, owed):,} drained, a token: {large * 1e6:.1f} microseconds", flush=True)
    growth.bound("a poll of 32, over 1,000,000 beside 1,000", few, many)
    growth.bound("draining, a token, 1,000,000 beside 1,000", small, large, 2)


def write_store(path, count):
    """A transmitter's journal with one stream by poll and so many publications (docs/FORMATS.md)."""
    with open(f"{path}.a", "r+b") as file:
        file.seek(35)
        records = [b"".join(made.created())]
        for at in range(count):
            about = json.dumps(subject(at), separators=(",", ":")).encode()
            records.append(b"".join(made.published(about, publication=str(uuid.UUID(int=at + 1)).encode())))
            if len(records) == 10_000 or at == count - 1:
                file.write(b"".join(b"\x5a" + len(it).to_bytes(4, "big") + it for it in records))
                records = []
        file.write(b"\x00")
        return file.tell()


def loading(growth, program):
    settings = os.path.join(os.path.dirname(os.path.abspath(__file__)), "..", "examples", "transmitter.json")
    took, held = {}, {}
    for count in (10_000, 100_000, 1_000_000):
        with tempfile.TemporaryDirectory(dir=".") as folder:
            store = os.path.join(os.path.abspath(folder), "tx")
            subprocess.run([program, "init", "tx", store, STORE], check=True, stdout=subprocess.PIPE)
            size = write_store(store, count)
            begun = time.perf_counter()
            running = subprocess.Popen([program, "courier", settings, store], stdin=subprocess.DEVNULL)
            _, status, used = os.wait4(running.pid, 0)
            running.returncode = status
            if status != 0:
                sys.exit(f"courier ended with {status}")
            took[count], held[count] = used.ru_utime + used.ru_stime, used.ru_maxrss * 1024
            print(f"{count:,} publications loaded, {size:,} bytes: {took[count]:.2f} s of the processor, {time.perf_counter() - begun:.2f} s, "
                  f"{held[count] / 2**20:,.0f} MiB at most", flush=True)
    bytes_each = (held[1_000_000] - held[10_000]) / 990_000
    print(f"memory at most, a publication: {bytes_each:.0f} bytes", flush=True)
    growth.bound("loading, a publication, 1,000,000 beside 100,000", took[100_000] / 100_000, took[1_000_000] / 1_000_000)


PARTS = {"publishing": publishing, "listing": listing, "polling": polling, "draining": draining}


def main():
    words = sys.argv[1:]
    parts = [it for it in words if it in (*PARTS, "loading")] or [*PARTS, "loading"]
    programs = [os.path.abspath(it) for it in words if it not in parts]
    growth = Growth(programs[0])
    for name in parts:
        if name in PARTS:
            PARTS[name](growth)
        elif len(programs) > 1:
            loading(growth, programs[1])
    sys.exit(0 if all(growth.kept.values()) else 1)


if __name__ == "__main__":
    main()
