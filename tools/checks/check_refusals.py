#!/usr/bin/env python3
"""Refuses each allocation of single calls in turn, as the programs of cases make them.

    python3 -B tools/checks/check_refusals.py [CRATE..]

Of each kind of line that sig_cases, sig_turns and sig_visits answer some are taken, with the lines before that they rest on. Each
allocation of the last line is refused, alone and with all after it: the program has to give the whole answer, or to end with status
9 after the answers to the lines before. A link in memory may be answered otherwise, since a server answers on where memory runs out
(507), and its node goes on. It needs a C compiler and the programs that `rt ci` or `rt run` built.
"""
import collections
import concurrent.futures
import os
import re
import struct
import subprocess
import sys
import tempfile

sys.dont_write_bytecode = True
TOP = os.path.abspath(os.path.join(os.path.dirname(os.path.abspath(__file__)), "../.."))
CRATES = ("sig_cases", "sig_turns", "sig_visits")
# The lines that later lines rest on, of which the last of each word counts, and those that begin anew.
LASTING, ANEW = ("trust", "key", "rules", "settings"), ("clear",)
# The lines that rest on all since it was begun anew.
GROWING = ("take", "row", "verdict", "outcome", "call", "owed", "link", "fetch", "knock")
# The lines whose answer may be another one where memory runs out.
ANSWERED_ON = ("link", "fetch", "knock")
# How many lines of a kind are tried, and how long the lines that one rests on may be.
OF_A_KIND, LONGEST = 3, 60_000


def kind_of(line):
    """What a line asks for: its word, and of a call its name."""
    word = line.split(b" ")[0].decode("utf-8", "replace")
    call = re.search(rb'"call":"(\w+)"', line)
    return word + (" " + call[1].decode() if word == "call" and call else "")


class Program:
    """A program of cases, its stored lines and its answers to them by the number of the line."""

    def __init__(self, crate, library, room):
        self.crate, self.library, self.room = crate, library, room
        self.path = os.path.join(TOP, "crates", crate, "out", crate)
        folder = os.path.join(TOP, "crates", crate)
        with open(os.path.join(folder, "stdin"), "rb") as file:
            self.lines = file.read().split(b"\n")
        with open(os.path.join(folder, "stdout"), "rb") as file:
            self.answers = dict(row.split(b" ", 1) for row in file.read().split(b"\n") if b" " in row)

    def trials(self):
        """Of each kind some lines with those that they rest on."""
        taken, lasting, grown = collections.Counter(), {}, []
        for number, line in enumerate(self.lines, 1):
            word = line.split(b" ")[0].decode("utf-8", "replace")
            if word in ANEW:
                grown = [line]
            elif word in LASTING:
                lasting[word] = line
            elif str(number).encode() not in self.answers:
                continue
            kind, before = kind_of(line), [*lasting.values(), *(grown if word in GROWING else [])]
            if taken[kind] < OF_A_KIND and sum(map(len, before)) <= LONGEST and word.isascii() and word.isidentifier():
                taken[kind] += 1
                yield kind, [it for it in before if it is not line] + [line]
            if word in GROWING:
                grown.append(line)

    def run(self, lines, first=0, last=0):
        """The status, the rows of the output and the number of allocations of a run in which these are refused."""
        with tempfile.NamedTemporaryFile(dir=self.room) as count:
            count.write(bytes(8))
            count.flush()
            given = {**os.environ, "COUNT": count.name, "FIRST": str(first), "LAST": str(last), "LD_PRELOAD": self.library}
            ran = subprocess.run([self.path], input=b"\n".join(lines) + b"\n", capture_output=True, timeout=60, env=given, check=False)
            with open(count.name, "rb") as file:
                return ran.returncode, ran.stdout, struct.unpack("=q", file.read(8))[0]

    def refuse(self, kind, lines):
        """How many refusals of the last line's allocations ended how."""
        status, whole, calls = self.run(lines)
        _, before, others = self.run(lines[:-1]) if lines[:-1] else (0, b"", self.run([b""])[2])
        if status != 0 or not whole.startswith(before):
            sys.exit(f"{self.crate}: {kind}: status {status} with no allocation refused: {lines[-1][:200]!r}")
        ended = collections.Counter()
        for call in range(others + 1, calls + 1):
            for last in (call, 1 << 62):
                status, made, _ = self.run(lines, call, last)
                if (status, made) == (0, whole):
                    ended["whole"] += 1
                elif status == 9 and made == before:
                    ended["memory"] += 1
                elif status == 0 and made.startswith(before) and kind.split(" ")[0] in ANSWERED_ON:
                    ended["answered on"] += 1
                else:
                    sys.exit(f"{self.crate}: {kind}: status {status} with the calls {call} to {last} refused of {lines[-1][:200]!r}: {made[len(before):][:200]!r}")
        return kind, calls - others, ended


def main():
    crates = sys.argv[1:] or CRATES
    with tempfile.TemporaryDirectory() as room:
        library = os.path.join(room, "refusing.so")
        subprocess.run(["cc", "-shared", "-fPIC", "-o", library, os.path.join(TOP, "tools/checks/refusing.c")], check=True)
        for crate in crates:
            program = Program(crate, library, room)
            if not os.access(program.path, os.X_OK):
                print(f"passed over: no program is built at {os.path.relpath(program.path, TOP)}")
                continue
            with concurrent.futures.ThreadPoolExecutor(os.cpu_count()) as pool:
                done = [*pool.map(lambda trial: program.refuse(*trial), program.trials())]
            ended = sum((it for _, _, it in done), collections.Counter())
            none = sorted({kind for kind, _, _ in done} - {kind for kind, calls, _ in done if calls})
            print(f"{crate}: {len(done)} lines of {len({kind for kind, _, _ in done})} kinds, {sum(calls for _, calls, _ in done)} allocations, each refused alone and with all after it: {', '.join(f'{number} {how}' for how, number in sorted(ended.items()))}; without any: {', '.join(none) or 'none'}")


if __name__ == "__main__":
    main()
