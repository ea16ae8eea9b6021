#!/usr/bin/env python3
"""Checks on the built program what no contract says: how it reads and writes.

    python3 -B tools/checks/check_pieces.py [PROGRAM]

A person who types a line sees its verdict before the next line is read. A large input is read and written in large
pieces; that part needs strace, and is passed over without it.
"""
import os
import shutil
import subprocess
import sys
import tempfile

sys.dont_write_bytecode = True
sys.path.insert(0, os.path.join(os.path.dirname(os.path.abspath(__file__)), ".."))
from checks.served import program_path

WORDS = ["fold", "https://idp.example", "https://rp.example", "MDEyMzQ1Njc4OWFiY2RlZjAxMjM0NTY3ODlhYmNkZWY"]


def verdict_comes_before_the_next_line(program):
    run = subprocess.Popen([program, *WORDS], stdin=subprocess.PIPE, stdout=subprocess.PIPE)
    for number in range(1, 4):
        run.stdin.write(b"x.y.z\n")
        run.stdin.flush()
        line = run.stdout.readline()
        assert line == b"%d refused invalid_request compact\n" % number, line
    run.stdin.close()
    assert run.stdout.read() == b"rows 0 tokens 0\n"
    assert run.wait() == 0


def large_input_comes_in_large_pieces(program, lines=200_000):
    if shutil.which("strace") is None:
        print("strace isn't there: pieces not counted")
        return
    with tempfile.TemporaryDirectory() as folder:
        source = os.path.join(folder, "input")
        with open(source, "wb") as file:
            file.write(b"x.y.z\n" * lines)
        counts = os.path.join(folder, "counts")
        with open(source, "rb") as file, open(os.devnull, "wb") as sink:
            status = subprocess.call(["strace", "-c", "-o", counts, "-e", "trace=read,write", program, *WORDS], stdin=file, stdout=sink)
        assert status == 0, status
        # Columns: share of the time, seconds, microseconds a call, calls, errors where there were some, name.
        rows = [line.split() for line in open(counts)]
        calls = {row[-1]: int(row[3]) for row in rows if row and row[-1] in ("read", "write")}
        size = os.path.getsize(source)
        print(f"{lines} lines, {size} bytes: {calls}")
        assert calls["read"] <= size // 65536 + 20, calls
        assert calls["write"] <= 2 * lines * 40 // 65536 + 20, calls


def main():
    program = program_path()
    if program is None:
        return
    verdict_comes_before_the_next_line(program)
    large_input_comes_in_large_pieces(program)
    print("ok")


if __name__ == "__main__":
    main()
