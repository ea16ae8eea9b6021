#!/usr/bin/env python3
"""Stops each line of a script at each call of a disk, with each of three fills, and compares what is printed with the model.

`check_stops.py [PROGRAM]` takes the built program, by `served.program_path`. For each line by which
an end acts, each node, each number of calls from 0 to 4 and the fills 00, 5a and ff it runs the script with that line stopped so.
What must be printed, and so what must be kept, is worked out by `models/replay_model.py`, which was written from the documents alone.
`check_stops.py script` prints the script itself.
"""
import os
import subprocess
import sys
from concurrent.futures import ThreadPoolExecutor

sys.dont_write_bytecode = True
sys.path.insert(0, os.path.join(os.path.dirname(os.path.abspath(__file__)), ".."))
from models import replay_model
from cases.script_cases import FOLDER, spelled
from checks.served import program_path

SCRIPT = FOLDER / "every_stop.txt"
FILLS = ["00", "5a", "ff"]


def lines_of(path):
    return [spelled(line) for line in path.read_text(encoding="utf-8").splitlines()]


def variants(lines):
    """The script, and the script with one line stopped."""
    yield lines
    for place, line in enumerate(lines):
        if not line or line.startswith("#") or line.split(" ")[0] in ["time", "check", "stop", "crash"]:
            continue
        for node in ["tx", "rx"]:
            for calls in range(5):
                for fill in FILLS:
                    yield [*lines[:place], f"stop {node} {calls} {fill} {line}", *lines[place + 1:]]


def differs(program, lines):
    printed, status = replay_model.replay([line.encode() for line in lines])
    wanted = "".join(line + "\n" for line in printed).encode()
    ran = subprocess.run([program, "replay"], input="".join(line + "\n" for line in lines).encode(), stdout=subprocess.PIPE, check=False)
    return None if (ran.stdout, ran.returncode) == (wanted, status) else (lines, wanted, ran)


def main():
    if sys.argv[1:] == ["script"]:
        print("\n".join(lines_of(SCRIPT)))
        return
    program = program_path()
    if program is None:
        return
    scripts = list(variants(lines_of(SCRIPT)))
    with ThreadPoolExecutor(4) as pool:
        for found in pool.map(lambda lines: differs(program, lines), scripts):
            if found:
                lines, wanted, ran = found
                sys.exit("\n".join([*lines, f"status {ran.returncode}", ran.stdout.decode(), "and not", wanted.decode()]))
    print(f"{len(scripts)} scripts of {len(scripts[0])} lines: each prints what the model prints")


if __name__ == "__main__":
    main()
