#!/usr/bin/env python3
"""Measures both servers over several connections at once, over real sockets and a real file.

`run_together.py PROGRAM` runs the built program `signals` in a folder of its own and prints:

- how many pushes a second a receiver takes on one link, on 16 and on 64 at once, each link sending one once the one before is
  answered, beside a bare loop of two writes and two syncs of the same sizes, in turns, and the ratio of both speeds;
- how many polls a second that change nothing a transmitter answers on one link and on 16 at once, each sent once the one before is
  answered, and then sixteen at a time;
- how long a client waits from its dialling to its first answer, where 64 dial again and again: what a pause between two watches
  costs; and the memory that the server held at most.

Each connection is a process of its own. A line stands for each bound and says whether it is kept. The status is 1 where one isn't.
"""
import multiprocessing
import os
import socket
import sys
import tempfile
import time
import uuid

sys.dont_write_bytecode = True
sys.path.insert(0, os.path.join(os.path.dirname(os.path.abspath(__file__)), "..", "tools"))
from checks.check_receiver import Receiver
from checks.check_server import Server
from run_receiver import push
from run_server import LINK, Link, bare, request
from checks.served import fail

ROUNDS = 5
PUSHES = 1_280
POLLS = 64_000
# By how many links: times the bare loop's speed, at least.
LEAST_RATIOS = {16: 0.8, 64: 0.7}
# Times the polls on one link, at least, on 16.
LEAST_GROWTH = 2.5

FORK = multiprocessing.get_context("fork")


def at_once(count, work):
    """Has so many processes do their work from one moment on: the time until the last has ended, and what each gave."""
    ready, told = FORK.Barrier(count + 1), FORK.SimpleQueue()

    def run(number):
        ready.wait()
        given = work(number)
        told.put((time.perf_counter(), given))

    links = [FORK.Process(target=run, args=(number,), daemon=True) for number in range(count)]
    for it in links:
        it.start()
    ready.wait()
    begun = time.perf_counter()
    ended = [told.get() for _ in links]
    for it in links:
        it.join()
    return max(end for end, _ in ended) - begun, [given for _, given in ended]


def asked(port, batches, wanted):
    """Sends batches of requests over kept links, and gives how long each link's first answer took from the dialling on."""
    link, waits = Link(port), []
    for batch in batches:
        begun, is_new = time.perf_counter(), link.left < len(batch)
        if link.ask(batch) != [wanted] * len(batch):
            fail(f"a request isn't answered with {wanted}")
        if is_new:
            waits.append(time.perf_counter() - begun)
    return waits


def pushing(receiver, room, links):
    served, written, waits = 0.0, 0.0, []
    before = os.path.getsize(f"{receiver.store}.a")
    for turn in range(ROUNDS):
        each = PUSHES // links
        batches = [[[push(receiver, (turn + 1) << 80 | links << 60 | link << 30 | place)] for place in range(each)] for link in range(links)]
        took, given = at_once(links, lambda link: asked(receiver.port, batches[link], 202))
        served += took
        waits += sum(given, [])
        size = (os.path.getsize(f"{receiver.store}.a") - before) // ((turn + 1) * PUSHES)
        written += bare(os.path.join(room, "bare"), PUSHES, size)
    total = ROUNDS * PUSHES
    print(f"pushes on {links} at once: {total / served:.0f} a second, bare {total / written:.0f}, ratio {written / served:.3f}", flush=True)
    return written / served, waits


def answered(port, asks, wanted=None):
    """What a link is answered to each of these, sent once the one before is answered; and that it is this, where it is told."""
    told = []
    with socket.create_connection(("127.0.0.1", port), 30) as link:
        link.setsockopt(socket.IPPROTO_TCP, socket.TCP_NODELAY, 1)
        for place, ask in enumerate(asks):
            link.sendall(ask)
            answer = link.recv(1 << 16)
            while wanted and len(answer) < len(wanted[place]):
                answer += link.recv(1 << 16)
            told.append(answer)
    if wanted and told != wanted:
        fail("a link isn't answered as the one before")
    return told


def polled(port, asks, wanted, count):
    for _ in range(count):
        answered(port, asks, wanted)


def polling(server, links, at_a_time):
    """Polls a second over so many links at once, each link sending so many at a time."""
    asks = [request("POST", "/poll/acme-1", server.client, {"maxEvents": 0, "returnImmediately": True})] * LINK
    each, count = answered(server.port, asks), POLLS // LINK // links
    if not all(it.startswith(b"HTTP/1.1 200 OK\r\n") for it in each):
        fail("a poll isn't answered with 200")
    join = lambda texts: [b"".join(texts[at : at + at_a_time]) for at in range(0, LINK, at_a_time)]
    took, _ = at_once(links, lambda _: polled(server.port, join(asks), join(each), count))
    speed = count * LINK * links / took
    print(f"polls on {links} at once, {at_a_time} at a time: {speed:.0f} a second", flush=True)
    return speed


def peak(server):
    """The most memory that it held, in MiB."""
    with open(f"/proc/{server.running.pid}/status", encoding="utf-8") as it:
        return int(next(line.split()[1] for line in it if line.startswith("VmHWM"))) // 1024


def main():
    if len(sys.argv) != 2:
        sys.exit("usage: run_together.py PROGRAM")
    kept = []

    def hold(what, is_kept):
        kept.append(is_kept)
        print(f"{what}: {'kept' if is_kept else 'NOT kept'}")

    with tempfile.TemporaryDirectory(dir=".") as room:
        room, program = os.path.abspath(room), os.path.abspath(sys.argv[1])
        receiver, server = Receiver(program, room), Server(program, room)
        for kind, one in ("rx", receiver), ("tx", server):
            if one.run("init", kind, one.store, str(uuid.uuid4())) != (0, ""):
                fail("a store isn't made")
        receiver.start()
        pushing(receiver, room, 1)
        for links, least in LEAST_RATIOS.items():
            ratio, waits = pushing(receiver, room, links)
            waits.sort()
            print(f"until a link's first answer: {waits[len(waits) // 2] * 1000:.1f} ms, of a hundred the last {waits[len(waits) * 99 // 100] * 1000:.1f}, at most {waits[-1] * 1000:.1f}")
            hold(f"at least {least} of the bare loop on {links}", ratio >= least)
        print(f"memory: {peak(receiver)} MiB at most, with {os.path.getsize(receiver.store + '.a') >> 20} MiB of journal")
        receiver.kill()
        server.start()
        if server.ask("POST", "/ssf/stream", {})[0] != 201:
            fail("a stream isn't made")
        one, many = polling(server, 1, 1), polling(server, 16, 1)
        hold(f"on 16 at least {LEAST_GROWTH} times the polls on one ({many / one:.2f})", many >= LEAST_GROWTH * one)
        one, many = polling(server, 1, LINK), polling(server, 16, LINK)
        print(f"where {LINK} are sent at a time: {many / one:.2f} times")
        print(f"memory: {peak(server)} MiB at most")
        server.kill()
    return 0 if all(kept) else 1


if __name__ == "__main__":
    sys.exit(main())
