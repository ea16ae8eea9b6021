#!/usr/bin/env python3
"""Proves and builds the program and all that it stands on, as many crates at once as there are processors and memory for.

    python3 -B tools/crates/build_program.py [CRATE..]

With names it builds these libraries and those below them. A crate is begun once all that it stands on is built; among those, first
the one that has the longest chain of crates above it. A crate that isn't proved ends the run with status 70.

`rt lib` locks a crate and all below it, and each crate here stands on sig_json: two of them never run side by side. So this locks
all crates once, as `rt all` does, and has each library built by the call that `rt lib` makes.
"""
import importlib.machinery
import importlib.util
import os
import signal
import subprocess
import sys
import tempfile
import threading
import time
from concurrent.futures import FIRST_COMPLETED, ThreadPoolExecutor, wait

sys.dont_write_bytecode = True
sys.path.insert(0, os.path.join(os.path.dirname(os.path.abspath(__file__)), ".."))
from crates.crate_list import TOP
from crates.unproved import at_once, kit, tell

PARTS = ("src", "specs", "proofs")
PROGRAM = "signals"
NOT_PROVED = 70
# The memory that a build may take, in bytes.
ROOM = 4_000_000_000


def loaded_rt():
    """The kit's command rt as a module. Where the kit can, its commands share what they keep with the other checkouts of this machine."""
    loader = importlib.machinery.SourceFileLoader("rt", os.path.join(kit(), "bin/rt"))
    rt = importlib.util.module_from_spec(importlib.util.spec_from_loader("rt", loader))
    sys.modules["rt"] = rt
    loader.exec_module(rt)
    if hasattr(rt, "share_work"):
        rt.share_work(True)
    rt.rtlib.Crate.stamp = summed_once(rt.rtlib.Crate.stamp)
    # so that all that is begun ends with this program, however it ends
    rt.rtlib.guarded()
    return rt


def summed_once(stamp):
    """The kit's sum of a crate's sources, which is made of the sums of the crates that it uses: along every path of crates.txt, which
    takes minutes at the top. This takes those of the crates below as they were last made here."""
    made, within = {}, threading.local()

    def summed(crate):
        if getattr(within, "another", False):
            return made[crate.folder] if crate.folder in made else made.setdefault(crate.folder, stamp(crate))
        within.another = True
        try:
            made[crate.folder] = stamp(crate)
        finally:
            within.another = False
        return made[crate.folder]

    return summed


def size_of(crate):
    """The bytes of a crate's sources, but its tests."""
    size = 1
    for part in PARTS:
        for folder, folders, names in os.walk(os.path.join(crate.folder, part)):
            folders[:] = [it for it in folders if it != "tests"]
            size += sum(os.path.getsize(os.path.join(folder, name)) for name in names if name != "tests.rt")
    return size


class Build:
    """The libraries that have to be built, lowest first, and how far that is."""

    def __init__(self, crates, lanes):
        self.left, self.lanes, self.began = list(crates), lanes, time.monotonic()
        self.size = {it: size_of(it) for it in crates}
        self.chain = self.chains()
        # what is built: bytes, and the seconds of all lanes
        self.count, self.built, self.spent = len(crates), 0, 0.0
        self.running = {}

    def chains(self):
        """The size of the longest chain of crates from each on upwards."""
        above = dict.fromkeys(self.left, 0)
        for crate in reversed(self.left):
            above[crate] += self.size[crate]
            for it in crate.deps:
                if it in above:
                    above[it] = max(above[it], above[crate])
        return above

    def seconds_left(self):
        """What is left by the pace so far, and not less than the longest chain that is left at the pace of a lane."""
        whole, lane = self.built / max(time.monotonic() - self.began, 1), self.built / max(self.spent, 1)
        left = [*self.left, *self.running.values()]
        return round(max(sum(self.size[it] for it in left) / whole, max((self.chain[it] for it in left), default=0) / lane))

    def begin(self, pool):
        waited = {*self.left, *self.running.values()}
        ready = [it for it in self.left if waited.isdisjoint(it.below())]
        for crate in sorted(ready, key=self.chain.get, reverse=True)[: self.lanes - len(self.running)]:
            self.left.remove(crate)
            self.running[pool.submit(built, crate)] = crate

    def end(self, future):
        crate, (status, said, seconds) = self.running.pop(future), future.result()
        if status:
            give_up(crate.name, said)
        self.built, self.spent = self.built + self.size[crate], self.spent + seconds
        place = self.count - len(self.left) - len(self.running)
        tell(f"{place} of {self.count}, {crate.name}: {seconds:.0f} s; about {self.seconds_left()} s more")

    def run(self):
        with ThreadPoolExecutor(self.lanes) as pool:
            while self.left or self.running:
                self.begin(pool)
                for future in wait(self.running, return_when=FIRST_COMPLETED).done:
                    self.end(future)


def built(crate):
    """The status of a library's build, what it said, and its seconds."""
    began = time.monotonic()
    with tempfile.TemporaryFile("w+", errors="replace") as crate.out:
        try:
            status = crate.build_rlib(["--jobs", "1"], False)
        except SystemExit:
            status = 2
        crate.out.seek(0)
        return status, crate.out.read(), time.monotonic() - began


def give_up(name, said):
    """Ends this program, and with it what is being built."""
    sys.stderr.write(said)
    tell(f"{name} is not proved and built")
    sys.stderr.flush()
    os._exit(NOT_PROVED)


def known_crate(rt, folder, known):
    """A crate, once however often it is named or used: the kit adds to `known` those that a crate uses, and not the crate itself."""
    if folder not in known:
        known[folder] = rt.rtlib.Crate(folder, TOP, known)
    return known[folder]


def build_libraries(rt, names):
    known = {}
    asked = [known_crate(rt, os.path.join(TOP, "crates", name), known) for name in names]
    crates = []
    for crate in asked:
        crates += [it for it in [*crate.below(), crate] if it not in crates and it.makes_rlib()]
    held = rt.rtlib.lock([*crates, *asked])
    lacking, lanes = [it for it in crates if not it.is_built()], at_once(ROOM)
    tell(f"proving and building {len(lacking)} of {len(crates)} libraries, {lanes} at once; ./signals --unproved runs without proofs")
    Build(lacking, lanes).run()
    for it in held:
        os.close(it)


def program_of(name):
    return os.path.join(TOP, "crates", name, "out", name)


def build_program(name):
    """Without words the program says that these are no command; so what tells that it is built is that it stands there."""
    program, began = program_of(name), time.monotonic()
    ran = subprocess.run(["rt", "run"], cwd=os.path.join(TOP, "crates", name), stdin=subprocess.DEVNULL, stdout=subprocess.PIPE, stderr=subprocess.STDOUT, errors="replace", check=False)
    if not os.access(program, os.X_OK):
        give_up(name, ran.stdout)
    os.utime(program)
    tell(f"{name}: {time.monotonic() - began:.0f} s")


def main():
    # Python would wait for the lanes at Ctrl-C
    signal.signal(signal.SIGINT, signal.SIG_DFL)
    libraries = sys.argv[1:]
    # a source that isn't proved must not leave an older program to run in its place
    if not libraries and os.path.exists(program_of(PROGRAM)):
        os.remove(program_of(PROGRAM))
    build_libraries(loaded_rt(), libraries or [PROGRAM])
    if not libraries:
        build_program(PROGRAM)


if __name__ == "__main__":
    main()
