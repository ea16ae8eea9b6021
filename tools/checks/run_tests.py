#!/usr/bin/env python3
"""Tries a change without proofs: every stored run and the checks of tools/, over programs that `unproved.py` compiles.

    python3 -B tools/checks/run_tests.py

A stored run is a program whose crate has stdin, stdout, and maybe args and status. The checks run the program that
SIGNALS_PROGRAM names. The last line counts what passed, and the status is 0 exactly where all did. What is promised is proved by
`.ci/run` alone.
"""
import os
import subprocess
import sys
import time

sys.dont_write_bytecode = True
sys.path.insert(0, os.path.join(os.path.dirname(os.path.abspath(__file__)), ".."))
from crates.crate_list import TOP, crates
from crates.unproved import made

CHECKS = [
    [sys.executable, "-B", "tools/generate.py", "check"],
    ["tools/checks/check_examples.sh"],
    *([sys.executable, "-B", f"tools/checks/{name}.py"] for name in ("check_stops", "check_server", "check_receiver", "check_together", "check_slow_peers", "check_crowd", "check_pushes", "check_lines", "check_metrics", "check_courier", "check_manage", "check_late", "check_syncs", "check_deeds", "check_documents")),
]


def stored(name, file):
    """The bytes of a file beside a crate's src/, or nothing."""
    path = os.path.join(TOP, "crates", name, file)
    if not os.path.isfile(path):
        return b""
    with open(path, "rb") as it:
        return it.read()


def programs():
    """The programs that have a stored run."""
    return [name for name in crates() if os.path.isfile(os.path.join(TOP, "crates", name, "src/main.rt")) and stored(name, "stdout")]


def first_difference(wanted, got):
    """The first line in which two texts differ."""
    lines = max(wanted, got, key=len).splitlines()
    pairs = zip(wanted.splitlines() + [b""] * len(lines), got.splitlines() + [b""] * len(lines))
    number, (one, other) = next((number, pair) for number, pair in enumerate(pairs, 1) if pair[0] != pair[1])
    return f"line {number} is {other.decode(errors='replace')!r} and not {one.decode(errors='replace')!r}"


def run_stored(name, program):
    """Why a stored run fails, or nothing; and what it shows."""
    wanted, status = stored(name, "stdout"), int(stored(name, "status") or b"0")
    ran = subprocess.run([program, *stored(name, "args").decode().splitlines()], input=stored(name, "stdin"), stdout=subprocess.PIPE, check=False)
    if ran.returncode != status:
        return f"status {ran.returncode} and not {status}", ""
    if ran.stdout != wanted:
        return first_difference(wanted, ran.stdout), ""
    return None, f"{len(wanted.splitlines())} lines as they are stored"


def run_check(words, program):
    """Why a check fails, or nothing; and what it says at its end. One that passes itself over hasn't passed."""
    ran = subprocess.run(words, cwd=TOP, env={**os.environ, "SIGNALS_PROGRAM": program}, stdin=subprocess.DEVNULL,
                         stdout=subprocess.PIPE, stderr=subprocess.STDOUT, errors="replace", check=False)
    said = ran.stdout.strip() or "as it is stored"
    is_good = ran.returncode == 0 and not said.startswith("passed over")
    return None if is_good else f"status {ran.returncode}: {said}", said.splitlines()[-1]


def main():
    names = programs()
    paths = dict(zip(names, made(names)))
    tasks = [(name, lambda name=name: run_stored(name, paths[name])) for name in names]
    tasks += [(next(word for word in words if word.startswith("tools/")), lambda words=words: run_check(words, paths["signals"])) for words in CHECKS]
    passed = 0
    for name, task in tasks:
        began = time.monotonic()
        why, said = task()
        passed += why is None
        print(f"{name}: {'FAILED: ' + why if why else said} ({time.monotonic() - began:.0f} s)", flush=True)
    print(f"{passed} of {len(tasks)} passed")
    sys.exit(0 if passed == len(tasks) else 1)


if __name__ == "__main__":
    main()
