#!/usr/bin/env -S python3 -B
"""What the program asks of the system where no contract reaches: of a real file, and of a real network. By strace.

    python3 -B tools/checks/check_deeds.py [PROGRAM]

- An append writes, syncs, writes and syncs again, all on the file in force and on no other: for each push that a receiver answers
  202, and for each publication that a transmitter answers 200. The answer is written after the second sync, and not before.
- The write that makes a record count is one byte, the last of the append.
- A store whose files are no files, as `/dev/null` under their names, is made by nobody: `init` ends with 5.
- A server listens at the place of its settings and at no other; a push is dialled at its endpoint's place and a fetch at the place
  of `poll`, and nothing else is.

Without a built program, where no socket can be opened, or without a strace that may trace, it says that it is passed over.
"""
import os
import re
import subprocess
import sys
import tempfile
import time
import uuid

sys.dont_write_bytecode = True
sys.path.insert(0, os.path.join(os.path.dirname(os.path.abspath(__file__)), ".."))
from checks.check_receiver import Receiver as TokenReceiver
from checks.check_server import Receiver as PushReceiver
from checks.check_server import Server, publish
from checks.check_syncs import can_trace
from checks.receiver_rows import push, token
from checks.served import built_program, need

# An append as the system sees it: the record beyond the closed gate, a sync, the gate, a sync (docs/FORMATS.md).
APPEND = ["pwrite64", "fdatasync", "pwrite64", "fdatasync"]
ROUNDS = 3


class Tracing:
    """What strace tells of a running process and its threads, until it is taken off."""

    def __init__(self, pid, calls):
        self.process = subprocess.Popen(["strace", "-f", "-y", "-e", f"trace={calls}", "-p", str(pid)], stderr=subprocess.PIPE, text=True)
        line = self.process.stderr.readline()
        need("attached" in line, f"strace says {line!r}")

    def lines(self):
        self.process.terminate()
        _, told = self.process.communicate(timeout=30)
        return told.splitlines()


def whole_calls(lines):
    """The calls in the order of their ends, each as one line: where another thread's call stands between, strace tells one in two."""
    begun, calls = {}, []
    for line in lines:
        found = re.match(r"(?:\[pid +(\d+)\] )?(.*)", line)
        thread, said = found[1], found[2]
        if said.endswith("<unfinished ...>"):
            begun[thread] = said[: -len("<unfinished ...>")].rstrip()
        elif resumed := re.match(r"<\.\.\. \w+ resumed>(.*)", said):
            calls.append(begun.pop(thread, "") + resumed[1])
        else:
            calls.append(said)
    return calls


def deeds(calls, store):
    """The calls on a store's two files and the answers on connections: a word each, with the file's letter, and the bytes of a write."""
    found = []
    for call in calls:
        if on_file := re.match(rf"(pwrite64|fdatasync|fsync)\(\d+<{re.escape(store)}\.([ab])>.*= (\d+)$", call):
            found.append((on_file[1], on_file[2], int(on_file[3])))
        elif re.match(r"(?:write|sendto|writev|sendmsg)\(\d+<(?:TCP|socket)", call):
            found.append(("answer", "", 0))
    return found


def appends(server, ask, what):
    """Asks some changes of a server, each of which is one append on its first file, answered after the append's last sync."""
    tracing = Tracing(server.running.pid, "pwrite64,fdatasync,fsync,write,writev,sendto,sendmsg")
    for number in range(ROUNDS):
        ask(number)
    found = deeds(whole_calls(tracing.lines()), server.store)
    for number in range(ROUNDS):
        one, found = found[: len(APPEND)], found[len(APPEND) :]
        need([name for name, _, _ in one] == APPEND, f"{what} {number} is {one}")
        need({file for _, file, _ in one} == {"a"}, f"{what} {number} is written to {one}")
        need(one[2][2] == 1, f"{what} {number} opens its gate by {one[2][2]} bytes")
        need(found and found[0][0] == "answer", f"{what} {number} is followed by {found[:1]}")
        while found and found[0][0] == "answer":
            found.pop(0)
    need(not found, f"after {what} there is {found}")


def pushes(program, room):
    receiver = TokenReceiver(program, room)
    need(receiver.run("init", "rx", receiver.store, str(uuid.uuid4())) == (0, ""), "a store isn't made")
    receiver.start()
    texts = [token(f"deed-{number}", {"format": "opaque", "id": f"s-{number}"}) for number in range(ROUNDS)]
    appends(receiver, lambda number: need(push(receiver, texts[number]) == "202", "a push is not taken"), "a push")
    receiver.kill()


def publications(program, room):
    server = Server(program, room)
    need(server.run("init", "tx", server.store, str(uuid.uuid4())) == (0, ""), "a store isn't made")
    server.start()

    def ask(number):
        body, _ = publish(server, number)
        status, _ = server.ask("POST", "/operator/publish", body, "operator")
        need(status == 200, f"a publication is answered {status}")

    appends(server, ask, "a publication")
    server.kill()


def no_files(program, room):
    """Names that lead to a device which takes each write and keeps none."""
    store = os.path.join(room, "null")
    for end in (".a", ".b"):
        os.symlink("/dev/null", store + end)
    for kind in ("tx", "rx"):
        ran = subprocess.run([program, "init", kind, store, str(uuid.uuid4())], capture_output=True, timeout=60, check=False)
        need((ran.returncode, ran.stdout) == (5, b"signals: store failed\n"), f"a store over /dev/null: {ran.returncode} {ran.stdout!r}")


def places(calls, name):
    """The ports on 127.0.0.1 that calls of this name were given; another address is a fault."""
    given = [call for call in calls if call.startswith(f"{name}(") and "AF_INET" in call]
    found = [re.search(r'sin_port=htons\((\d+)\), sin_addr=inet_addr\("127\.0\.0\.1"\)', call) for call in given]
    need(all(found), f"{name} is given {given}")
    return [int(one[1]) for one in found]


def network(program, room):
    server, receiver, other = Server(program, room), PushReceiver(), TokenReceiver(program, room, "fetching")
    for kind, store in (("tx", server.store), ("rx", other.store)):
        need(server.run("init", kind, store, str(uuid.uuid4())) == (0, ""), "a store isn't made")
    log = os.path.join(room, "bind")
    ran = subprocess.Popen(["strace", "-f", "-o", log, "-e", "trace=bind,connect", program, "serve", server.settings, server.store, "1"])
    try:
        for _ in range(500):
            try:
                server.ask("GET", "/.well-known/ssf-configuration", bearer=None)
                break
            except OSError:
                time.sleep(0.02)
        pushed = {"method": "urn:ietf:rfc:8935", "endpoint_url": receiver.url(), "authorization_header": "Bearer push-secret"}
        status, _ = server.ask("POST", "/ssf/stream", {"delivery": pushed})
        need(status == 201, f"a stream is answered {status}")
        status, stream = server.ask("POST", "/ssf/stream", {"delivery": {"method": "urn:ietf:rfc:8936"}})
        need(status == 201, f"a stream is answered {status}")
        body, _ = publish(server, 1)
        status, _ = server.ask("POST", "/operator/publish", body, "operator")
        need(status == 200, f"a publication is answered {status}")
        # it is pushed once it is answered
        for _ in range(250):
            if receiver.tokens:
                break
            time.sleep(0.02)
        need(len(receiver.tokens) == 1, f"a publication is pushed {len(receiver.tokens)} times")
        other.said["poll"]["url"] = f"http://127.0.0.1:{server.port}/poll/{stream['stream_id']}"
        other.write(other.settings, other.said)
        fetched = os.path.join(room, "fetch")
        done = subprocess.run(["strace", "-f", "-o", fetched, "-e", "trace=bind,connect", program, "fetch", other.settings, other.store, "3"], capture_output=True, timeout=60, check=False)
        need(done.returncode == 0, f"a fetch ends with {done.returncode}: {done.stdout!r}")
    finally:
        with open(f"/proc/{ran.pid}/task/{ran.pid}/children", encoding="utf-8") as file:
            for child in file.read().split():
                os.kill(int(child), 9)
        ran.wait(10)
    told = [line.split(None, 1)[1] for line in open(log, encoding="utf-8", errors="replace") if " " in line]
    need(places(told, "bind") == [server.port], f"serve listens at {places(told, 'bind')}")
    need(places(told, "connect") == [receiver.port], f"serve dials {places(told, 'connect')}")
    told = [line.split(None, 1)[1] for line in open(fetched, encoding="utf-8", errors="replace") if " " in line]
    need(places(told, "bind") == [], "fetch listens")
    need(set(places(told, "connect")) == {server.port}, f"fetch dials {places(told, 'connect')}")


def main():
    program = built_program()
    if not program:
        return
    if not can_trace():
        print("passed over: no strace is here that may trace")
        return
    for part in (pushes, publications, no_files, network):
        with tempfile.TemporaryDirectory() as room:
            part(program, room)
    print(f"{2 * ROUNDS} appends write, sync, write and sync on one file before they are answered; places are those of the settings")


if __name__ == "__main__":
    main()
