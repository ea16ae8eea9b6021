#!/usr/bin/env -S python3 -B
"""Pushes that are tried again by `courier`, over real sockets and files (RFC 8935, section 2).

    python3 -B tools/checks/check_courier.py [PROGRAM]

A token is published while nobody listens at its stream's endpoint, and the server is stopped. Then `courier` is given lines: the
first tick tries the stream late, and later ones pass it over, since it isn't due. Killed by SIGKILL and begun again, with a
schedule that is empty, it brings the token once the endpoint listens, prints that attempt at once, and pushes nothing again. It
ends with 0 at the end of its input, with 6 without a store, with 5 over a store that is open, and with 10 at refused settings.

Without a built program, or where no socket can be opened, it says that it is passed over.
"""
import os
import select
import signal
import subprocess
import sys
import tempfile
import time
import uuid

sys.dont_write_bytecode = True
sys.path.insert(0, os.path.join(os.path.dirname(os.path.abspath(__file__)), ".."))
from checks.check_pushes import Endpoint, push_stream, published
from checks.check_server import Server, claims_of
from checks.served import built_program, free_port, need

# How long an attempt may take, in seconds: a round of a stream has fifteen.
WAIT = 20


class Courier:
    """A run of `courier` over the store of a server that is stopped, which is given one line after another."""

    def __init__(self, program, server):
        words = [program, "courier", server.settings, server.store]
        self.running = subprocess.Popen(words, stdin=subprocess.PIPE, stdout=subprocess.PIPE, stderr=subprocess.PIPE)
        self.told = b""

    def tick(self, line=b"\n"):
        self.running.stdin.write(line)
        self.running.stdin.flush()

    def printed(self, seconds):
        """The next line that it prints within so many seconds; none where it prints no whole line."""
        deadline = time.time() + seconds
        while b"\n" not in self.told and (left := deadline - time.time()) > 0:
            if select.select([self.running.stdout], [], [], left)[0]:
                more = os.read(self.running.stdout.fileno(), 1 << 16)
                if not more:
                    break
                self.told += more
        if b"\n" not in self.told:
            return None
        line, _, self.told = self.told.partition(b"\n")
        return line.decode()

    def ended(self):
        """Its status, and what else it printed, once its input ends."""
        out, _ = self.running.communicate(timeout=WAIT)
        return self.running.returncode, (self.told + out).decode()

    def kill(self):
        self.running.send_signal(signal.SIGKILL)
        self.running.communicate()


def late_first(program, server, stream):
    """While nobody listens the first tick is late, and a second one comes too early; then the run is killed."""
    run = Courier(program, server)
    run.tick()
    need(run.printed(WAIT) == f"1 {stream} 1 late", "a push to nobody isn't told as late, or not at once")
    run.tick(b"whatever\xff the line holds\n")
    need(run.printed(0.5) is None, "a stream is tried before it is due")
    run.kill()


def good_then(program, server, stream, endpoint):
    """Once the endpoint listens a new run brings the token, and pushes nothing again."""
    run = Courier(program, server)
    run.tick(b"x" * 100_000 + b"\n")
    need(run.printed(WAIT) == f"1 {stream} 1 good", "a token that is owed isn't brought, or not told at once")
    for _ in range(3):
        run.tick()
    need(run.ended() == (0, ""), "a run without anything owed prints more, or doesn't end with 0")
    need(len(endpoint.tokens) == 1, f"a token was pushed {len(endpoint.tokens)} times")


def killed_within(program, server, endpoint):
    """A run that is killed in the midst of a push leaves the token owed: begun again, the token arrives."""
    endpoint.answer = (503, b"")
    server.start()
    subject = published(server, 2)
    server.kill()
    endpoint.answer, endpoint.delay, endpoint.tokens = (202, b""), 3, []
    run = Courier(program, server)
    run.tick()
    deadline = time.time() + WAIT
    while not endpoint.tokens:
        need(time.time() < deadline, "nothing is pushed")
        time.sleep(0.02)
    run.kill()
    endpoint.delay, endpoint.tokens = 0, []
    again = Courier(program, server)
    again.tick()
    need(again.ended()[0] == 0, "a run after a kill doesn't end with 0")
    need([claims_of(token)["sub_id"]["id"] for token in endpoint.tokens] == [subject], "a token that was owed at a kill doesn't arrive")


def ends(program, server):
    """The statuses and the last lines of runs that come to no tick."""
    absent = subprocess.run([program, "courier", server.settings, server.store + "-none"], input=b"\n", capture_output=True, timeout=WAIT, check=False)
    need((absent.returncode, absent.stdout) == (6, b"signals: no store\n"), f"without a store: {absent}")
    refused = os.path.join(os.path.dirname(server.store), "refused.json")
    server.write(refused, {**server.said, "issuer": ""})
    wrong = subprocess.run([program, "courier", refused, server.store], input=b"\n", capture_output=True, timeout=WAIT, check=False)
    need((wrong.returncode, wrong.stdout) == (10, b"signals: settings issuer\n"), f"at refused settings: {wrong}")
    server.start()
    beside = subprocess.run([program, "courier", server.settings, server.store], input=b"\n", capture_output=True, timeout=WAIT, check=False)
    need((beside.returncode, beside.stdout) == (5, b"signals: store failed\n"), f"beside a server: {beside}")
    server.kill()
    words = subprocess.run([program, "courier", server.settings], input=b"\n", capture_output=True, timeout=WAIT, check=False)
    need(words.returncode == 1, f"with a word too few: {words}")


def main():
    program = built_program()
    if not program:
        return
    with tempfile.TemporaryDirectory() as room:
        server = Server(program, room)
        need(server.run("init", "tx", server.store, str(uuid.UUID(int=7))) == (0, ""), "a store isn't made")
        server.start()
        endpoint = Endpoint((202, b""))
        port, endpoint_url = free_port(), endpoint.url()
        stream = push_stream(server, f"http://127.0.0.1:{port}/events")
        published(server, 1)
        server.kill()
        late_first(program, server, stream)
        server.start()
        # the stream's endpoint is the one that listens from now on; no push is asked for by that
        delivery = {"method": "urn:ietf:rfc:8935", "endpoint_url": endpoint_url, "authorization_header": "Bearer push-secret"}
        need(server.ask("PATCH", "/ssf/stream", {"stream_id": stream, "delivery": delivery})[0] == 200, "an endpoint isn't changed")
        server.kill()
        good_then(program, server, stream, endpoint)
        killed_within(program, server, endpoint)
        ends(program, server)
    print("a token that was owed came by a tick once its endpoint listened, and no attempt came before it was due")


if __name__ == "__main__":
    main()
