#!/usr/bin/env python3
"""Notes the processor seconds of the gate's proofs, by crate and kind, as it looks on from outside.

    python3 -B tools/crates/gate_watch.py PROCESS FILE

`.ci/run` begins it beside `rt ci`, which tells no times. Twice a second it reads /proc for `rattle` below that process, until it is told
to end; then it writes a line to the file for each kind and crate, for `gate_cost.py`. What a check takes after the last look
at it is missed.
"""
import os
import signal
import sys
import time

TICK = os.sysconf("SC_CLK_TCK")


def read(process, name):
    with open(f"/proc/{process}/{name}", "rb") as file:
        return file.read()


def processes():
    """Each process, with its parent and the seconds of it and of the children that it waited for."""
    found = {}
    for name in filter(str.isdigit, os.listdir("/proc")):
        try:
            fields = read(name, "stat").rsplit(b")", 1)[1].split()
        except OSError:
            continue
        found[int(name)] = int(fields[1]), sum(map(int, fields[11:15])) / TICK
    return found


def words_of(process):
    try:
        return read(process, "cmdline").decode(errors="replace").split("\0")
    except OSError:
        return []


def above(process, found):
    """The processes above one."""
    while process in found:
        process = found[process][0]
        yield process


def kind_of(process, words, parents):
    """What a run of rattle is for."""
    try:
        folder = os.readlink(f"/proc/{process}/cwd")
    except OSError:
        return None
    if "rt-edit" in folder or any("try_wrong_bodies" in word for it in parents for word in words_of(it)):
        return "bodies"
    if "--test" in words:
        return "tests"
    return "programs" if "--backend" in words else "proofs"


class Watch:
    def __init__(self, root):
        # by process: its kind and crate, and its seconds when it was seen last; and the seconds of those that ended
        self.root, self.known, self.seconds, self.ended = root, {}, {}, {}

    def name(self, process, found):
        """Notes what a process is, where it is a run of rattle below the root that no other run of rattle began."""
        parents = list(above(process, found))
        words = words_of(process)
        if self.root not in parents or os.path.basename(words[0] if words else "") != "rattle" or "--crate-name" not in words:
            return None
        if any(self.known.get(it) for it in parents):
            return None
        kind = kind_of(process, words, parents)
        return kind and (kind, words[words.index("--crate-name") + 1])

    def look(self):
        found = processes()
        # a number may be given to a process again
        for process in [it for it in self.known if it not in found]:
            self.settle(process)
        for process in found:
            # a process is another program before it is rattle
            if not self.known.get(process):
                self.known[process] = self.name(process, found)
        now = {}
        for process, (_, spent) in found.items():
            for it in [process, *above(process, found)]:
                if self.known.get(it):
                    now[it] = now.get(it, 0) + spent
        for process, spent in now.items():
            self.seconds[process] = max(spent, self.seconds.get(process, 0))

    def settle(self, process):
        """Adds the seconds of a process that ended to those of its kind and crate."""
        of = self.known.pop(process)
        if of:
            self.ended[of] = self.ended.get(of, 0) + self.seconds.pop(process, 0)

    def write(self, path):
        for process in list(self.known):
            self.settle(process)
        with open(path, "a", encoding="utf-8") as file:
            for (kind, crate), seconds in sorted(self.ended.items()):
                file.write(f"{kind} {crate} {seconds:.1f}\n")


def main():
    watch, ends = Watch(int(sys.argv[1])), []
    signal.signal(signal.SIGTERM, lambda *_: ends.append(True))
    while not ends and os.path.exists(f"/proc/{watch.root}"):
        watch.look()
        time.sleep(0.5)
    watch.write(sys.argv[2])


if __name__ == "__main__":
    main()
