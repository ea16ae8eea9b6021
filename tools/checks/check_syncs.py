#!/usr/bin/env -S python3 -B
"""Syncs that fail, one after the other, of a store that is served: by strace, which answers a call of the system with EIO.

    python3 -B tools/checks/check_syncs.py [PROGRAM]

A receiver took a token by a push, and one of the syncs of a second push fails: the first, then the second, and so on. That push is
not answered 202, and no later one is, since the receiver's store is broken. It is killed and started again: the first token stands
in the journal once, the second at most once. Pushed again, the second is answered 202 and stands there once, also after a
further start. So it is told of a push all of whose syncs succeed.

As a store is opened, each sync of a file or of its folder fails in turn: the run ends with 5 before it says that it serves. And
what is asked of the system then is told: both files are locked and synced, the system forgets its pages of them, and their folder
is synced, before the first byte of either is read. A server whose place is in use opens no file of its store. `init` syncs the
folder after it made a file there.

Without a built program, where no socket can be opened, or without a strace that may trace, it says that it is passed over.
"""
import http.client
import os
import re
import shutil
import subprocess
import sys
import tempfile
import time
import uuid

sys.dont_write_bytecode = True
sys.path.insert(0, os.path.join(os.path.dirname(os.path.abspath(__file__)), ".."))
from checks.check_receiver import Receiver
from checks.receiver_rows import push, token
from checks.served import built_program, free_port, need

# More than a push has syncs, and more than the opening of a store has.
SYNCS = 12


def can_trace():
    """Whether strace is here, and may trace."""
    if not shutil.which("strace"):
        return False
    return subprocess.run(["strace", "-o", "/dev/null", "true"], stderr=subprocess.DEVNULL, check=False).returncode == 0


class Syncing(Receiver):
    """A receiver over a store of its own, some of whose calls of the system may fail."""

    def __init__(self, program, room):
        super().__init__(program, room)
        need(self.run("init", "rx", self.store, str(uuid.uuid4())) == (0, ""), "a store isn't made")

    def is_taken(self, text):
        """Whether a push is answered 202; a push that has another answer, or none, is not."""
        try:
            status, _, _ = self.ask_as_text("POST", "/push", text, "push", {"content-type": "application/secevent+jwt"})
        except (OSError, http.client.HTTPException):
            return False
        need(status in (202, 503), f"a push is answered {status}")
        return status == 202

    def fail_sync(self, number):
        """From now on this sync of each thread of the server fails."""
        words = ["strace", "-f", "-e", "trace=fdatasync", "-e", f"inject=fdatasync:error=EIO:when={number}", "-p", str(self.running.pid)]
        self.tracing = subprocess.Popen(words, stderr=subprocess.PIPE, text=True)
        line = self.tracing.stderr.readline()
        need("attached" in line, f"strace says {line!r}")

    def failed(self):
        """Ends the server, and answers whether a sync failed."""
        self.running.kill()
        self.running.communicate()
        _, told = self.tracing.communicate(timeout=30)
        return "(INJECTED)" in told


def text_of(number):
    return token(f"sync-{number}", {"format": "opaque", "id": f"s-{number}"})


def push_over(receiver, number):
    """A push with this sync failing. The answer says whether any sync failed."""
    first, second = text_of(1), text_of(2)
    receiver.start()
    need(receiver.is_taken(first), "a push is not taken")
    receiver.fail_sync(number)
    is_taken = receiver.is_taken(second)
    is_later_taken = receiver.is_taken(text_of(3))
    has_failed = receiver.failed()
    need(is_taken != has_failed, f"with sync {number} failing a push is {'taken' if is_taken else 'not taken'}")
    need(not (has_failed and is_later_taken), f"after sync {number} failed a push is taken")
    receiver.start()
    stands = receiver.journal()
    need(stands.count(first) == 1, "the token of a push that was answered 202 is gone")
    need(stands.count(second) == 1 if is_taken else stands.count(second) <= 1, f"after sync {number} failed the second token stands {stands.count(second)} times")
    need(push(receiver, second) == "202", "a push after the start is not taken")
    receiver.kill()
    receiver.start()
    need(receiver.journal().count(second) == 1, "the token that was pushed again is gone, or stands there twice")
    receiver.kill()
    return has_failed


def pushes(program):
    """How many syncs a push has; each of them failed once."""
    for number in range(1, SYNCS):
        with tempfile.TemporaryDirectory() as room:
            if not push_over(Syncing(program, room), number):
                return number - 1
    return need(False, "a push has more syncs than were tried")


def traced(receiver, *words):
    """The status of a run that strace traces by these words, what it printed, and the lines of its trace."""
    log = os.path.join(receiver.room, "trace")
    command = ["strace", "-f", "-y", "-o", log, *words]
    ran = subprocess.run(command, capture_output=True, timeout=60, check=False)
    with open(log, encoding="utf-8", errors="replace") as file:
        return ran.returncode, ran.stdout.decode(), file.read().splitlines()


def serving(receiver):
    return [receiver.program, "receive", receiver.settings, receiver.store, "1"]


def openings(receiver):
    """How many syncs the opening of a store has; each of them failed once, and the run ended."""
    for number in range(1, SYNCS):
        words = ["-e", "trace=fsync", "-e", f"inject=fsync:error=EIO:when={number}", *serving(receiver)]
        with open(f"{receiver.store}.lines", "ab") as lines:
            process = subprocess.Popen(["strace", "-f", "-o", "/dev/null", *words], stdout=subprocess.PIPE, stderr=lines)
        for _ in range(500):
            if process.poll() is not None:
                break
            if receiver.begun():
                for child in children(process.pid):
                    os.kill(child, 9)
                process.communicate()
                return number - 1
            time.sleep(0.02)
        out, _ = process.communicate(timeout=10)
        need((process.returncode, out) == (5, b"signals: store failed\n"), f"with sync {number} of the opening failing: {process.returncode} {out!r}")
    return need(False, "an opening has more syncs than were tried")


def children(pid):
    with open(f"/proc/{pid}/task/{pid}/children", encoding="utf-8") as file:
        return [int(word) for word in file.read().split()]


def calls_on(lines, path):
    """The names of the calls on a file in order; of the reads the first alone."""
    names = [found[1] for line in lines if (found := re.search(rf"^\d+ +(\w+)\(\d+<{re.escape(path)}>", line))]
    return [name for place, name in enumerate(names) if name != "pread64" or name not in names[:place]]


def order(receiver):
    """What is asked of the system as a store is opened, where the place is taken, and as a store is made."""
    calls = "trace=openat,flock,fsync,fdatasync,fadvise64,pread64,pwrite64"
    receiver.start()
    other = Syncing(receiver.program, os.path.join(receiver.room, "other"))
    other.said["listen"] = receiver.said["listen"]
    # nobody listens at the peer's place, so that a fetch ends once the store is loaded
    other.said["poll"]["url"] = f"http://127.0.0.1:{free_port()}/"
    other.write(other.settings, other.said)
    status, out, lines = traced(other, "-e", calls, *serving(other))
    receiver.kill()
    need((status, out) == (7, "signals: network failed\n"), f"a place that is taken: {status} {out!r}")
    need(any(other.settings in line for line in lines), "settings are read, and strace doesn't tell it")
    need(not any(other.store + end in line for line in lines for end in (".a", ".b")), "a store is opened where the place is taken")
    status, out, lines = traced(other, "-e", calls, other.program, "fetch", other.settings, other.store, "1")
    need((status, out) == (7, "signals: network failed\n"), f"a peer that isn't there: {status} {out!r}")
    first_read = next((place for place, line in enumerate(lines) if re.search(rf"pread64\(\d+<{re.escape(other.store)}", line)), len(lines))
    for end in (".a", ".b"):
        told = calls_on(lines[:first_read], other.store + end)
        need(told[:3] == ["flock", "fsync", "fadvise64"], f"before the first read {end} is asked {told}")
    folder = calls_on(lines[:first_read], os.path.dirname(other.store))
    need("fsync" in folder, "the folder is not synced before the first read")

    made = os.path.join(receiver.room, "made")
    status, _, lines = traced(receiver, "-e", calls, receiver.program, "init", "rx", made, str(uuid.uuid4()))
    need(status == 0, "a store isn't made under strace")
    opened = next(place for place, line in enumerate(lines) if "made.b" in line and "openat" in line)
    need("fsync" in calls_on(lines[opened:], receiver.room), "the folder is not synced after its second file is made")


def main():
    program = built_program()
    if not program:
        return
    if not can_trace():
        print("passed over: no strace is here that may trace")
        return
    of_a_push = pushes(program)
    with tempfile.TemporaryDirectory() as room:
        of_an_opening = openings(Syncing(program, room))
    with tempfile.TemporaryDirectory() as room:
        os.mkdir(os.path.join(room, "other"))
        order(Syncing(program, room))
    print(f"{of_a_push} syncs of a push and {of_an_opening} of an opening, each failed once: nothing is lost, and nothing is taken twice")


if __name__ == "__main__":
    main()
