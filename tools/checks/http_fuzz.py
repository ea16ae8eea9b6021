"""Runs mutated HTTP messages through the proved reader and a plain one, and compares what they answer.

    python3 tools/checks/http_fuzz.py PROGRAM [COUNT [SEED]]

PROGRAM is the built program `sig_cases`, which answers the lines `request <size> <bytes>` and `response <size> <bytes>` by
the readers of `sig_http`: what is read of the bytes, which stand as base64url, of a source that gives at most so many at a
time. A message that no line has room for is drawn again. The messages begin as those of `tools/cases/http_captured.json` and of RFC 9112; a few bytes of each are changed,
lines are repeated, taken out or swapped, and numbers are made larger. Prints how often each answer came and the first
lines that differ; the status is 1 where one does.
"""

import base64
import collections
import json
import os
import pathlib
import random
import re
import subprocess
import sys

sys.dont_write_bytecode = True
sys.path.insert(0, os.path.join(os.path.dirname(os.path.abspath(__file__)), ".."))
from models.http_reader import answer

LINE_BYTES = 65536
CAPTURED = pathlib.Path(__file__).resolve().parents[1] / "cases" / "http_captured.json"

REQUESTS = [
    b"GET /hello.txt HTTP/1.1\r\nUser-Agent: curl/7.64.1\r\nHost: www.example.com\r\nAccept-Language: en, mi\r\n\r\n",
    b"POST /push HTTP/1.1\r\nHost: notify.example.com\r\nAccept: application/json\r\nAuthorization: Bearer h480djs93hd8\r\n"
    b"Content-Type: application/secevent+jwt\r\nContent-Length: 11\r\n\r\neyJ0eXAiOiJ",
    b"POST /poll/acme-1?x=%20 HTTP/1.1\r\nhost: a\r\ntransfer-encoding: chunked\r\nconnection: keep-alive, Close\r\n\r\n"
    b"4;x=\"y\"\r\nWiki\r\n7  \r\npedia i\r\nB\r\nn \r\nchunks.\r\n\r\n0\r\nExpires: never\r\n\r\nGET / HTTP/1.1\r\n\r\n",
    b"\r\n\r\nPUT /ssf/stream HTTP/1.0\nhost:x\ncontent-length:3\nexpect: 100-continue\n\n{ }",
    b"POST / HTTP/1.1\r\nhost: a\r\ncontent-length: 3\r\ncontent-encoding: identity\r\n\r\nabcPOST / HTTP/1.1\r\n\r\n",
    b"POST / HTTP/1.1\r\nhost: a\r\ncontent-length: 003\r\ncontent-length: 3\r\n\r\nabc",
    b"GET /\xc3\xa9?a=\xe2\x82\xac HTTP/1.1\r\nhost: a\r\nauthorization: bearer \xff\r\n\r\n",
]
RESPONSES = [
    b"HTTP/1.1 200 OK\r\nDate: Mon, 27 Jul 2009 12:28:53 GMT\r\nServer: Apache\r\nContent-Length: 14\r\nConnection: close\r\n\r\n"
    b"Hello World! M",
    b"HTTP/1.1 202 Accepted\r\ncontent-length: 0\r\n\r\nHTTP/1.1 204 No Content\r\n\r\n",
    b"HTTP/1.0 404 \r\n\r\nto the end",
    b"HTTP/1.1 304 Not Modified\r\ncontent-length: 99\r\n\r\n",
    b"HTTP/1.1 200\r\ntransfer-encoding: chunked\r\n\r\n3\r\nabc\r\n0\r\n\r\n",
    b"HTTP/1.1 400 Bad Request\r\ncontent-type: application/json\r\ncontent-length: 12\r\n\r\n{\"err\":\"jwtX\"}",
]
PIECES = [
    b"\r", b"\n", b"\r\n", b"\r\n\r\n", b" ", b"\t", b":", b";", b",", b"?", b"0", b"-", b"+", b"\x00", b"\x7f", b"\x80",
    b"content-length: 1\r\n", b"Content-Length: 99999\r\n", b"content-length: 18446744073709551617\r\n",
    b"content-length: 0000000000000000000000000000000003\r\n", b"content-length: 1, 1\r\n", b"content-length: +1\r\n",
    b"transfer-encoding: chunked\r\n", b"transfer-encoding: gzip, chunked\r\n", b"Transfer-Encoding : chunked\r\n",
    b" folded\r\n", b"expect: 100-continue\r\n", b"content-encoding: gzip\r\n", b"connection: close\r\n",
    b"connection: x ,\tCLOSE , y\r\n", b"authorization: BEARER a b\r\n", b"authorization: Basic x\r\n",
    b"0\r\n\r\n", b"ffffffffffffffff\r\n", b"00000000000000001\r\n", b"10000\r\n", b"1;" + b"e" * 260 + b"\r\n",
    b"x: " + b"v" * 17000 + b"\r\n", b"f: 1\r\n" * 64, b"f: 1\r\n" * 62, b"t" * 1020, b"a" * 300,
]


def swapped_lines(chance, data):
    lines = re.findall(rb"[^\n]*\n|[^\n]+$", data)
    if len(lines) > 1:
        at, to = chance.randrange(len(lines)), chance.randrange(len(lines))
        lines[at], lines[to] = lines[to], lines[at]
    return b"".join(lines)


def repeated_line(chance, data):
    lines = re.findall(rb"[^\n]*\n|[^\n]+$", data)
    if lines:
        at = chance.randrange(len(lines))
        lines[at:at] = [lines[at]] * chance.choice((1, 1, 1, 2, 70))
    return b"".join(lines)


def dropped_line(chance, data):
    lines = re.findall(rb"[^\n]*\n|[^\n]+$", data)
    if lines:
        del lines[chance.randrange(len(lines))]
    return b"".join(lines)


def mutated(chance, data):
    """The message with one change."""
    kind = chance.randrange(9)
    place = chance.randrange(len(data) + 1)
    if kind == 0:
        return data[:place]
    if kind in (1, 2):
        return data[:place] + chance.choice(PIECES) + data[place:]
    if kind == 3:
        return data[:place] + bytes([chance.randrange(256)]) + data[place + 1 :]
    if kind == 4:
        return data[:place] + data[place + chance.randrange(1, 5) :]
    if kind == 5:
        return swapped_lines(chance, data)
    if kind == 6:
        return repeated_line(chance, data)
    if kind == 7:
        return dropped_line(chance, data)
    start = data.find(b"\n", place) + 1
    return data[:start] + chance.choice(PIECES) + data[start:]


def case(chance, seeds):
    kind = chance.choice(("request", "response"))
    data = chance.choice(seeds[kind])
    for _ in range(chance.choice((0, 1, 1, 1, 2, 3, 5))):
        data = mutated(chance, data)
    size = chance.choice((1, 2, 3, 7, 100, chance.randrange(1, len(data) + 2), 4096, 1000000))
    return kind, size, data


def seeds():
    found = {"request": list(REQUESTS), "response": list(RESPONSES)}
    if CAPTURED.exists():
        for message in json.loads(CAPTURED.read_text()):
            found[message["kind"]].append(base64.b64decode(message["bytes"]))
    return found


def spelled(data):
    return base64.urlsafe_b64encode(data).decode().rstrip("=") or "-"


def line_of(kind, size, data):
    return f"{kind} {size} {spelled(data)}"


def fitting(chance, pool):
    """A case that a line has room for."""
    while True:
        found = case(chance, pool)
        if len(line_of(*found)) <= LINE_BYTES:
            return found


def main(program, count=100000, seed=1):
    chance, pool = random.Random(int(seed)), seeds()
    cases = [fitting(chance, pool) for _ in range(int(count))]
    lines = "".join(line_of(*found) + "\n" for found in cases)
    told = subprocess.run([program], input=lines.encode(), stdout=subprocess.PIPE, check=True).stdout.decode().splitlines()
    if len(told) != len(cases):
        sys.exit(f"{len(told)} answers to {len(cases)} lines")
    counts, differing = collections.Counter(), []
    for number, ((kind, size, data), line) in enumerate(zip(cases, told), 1):
        expected = f"{number} {answer(kind, data)}"
        counts[kind + " " + expected.split(" ")[1]] += 1
        if line != expected:
            differing.append((kind, size, data, expected, line))
    for name, times in sorted(counts.items()):
        print(f"{name} {times}")
    for found in differing[:5]:
        print("differs:", *found, sep="\n  ")
    print(f"{len(cases)} messages with the seed {seed}, {len(differing)} differences")
    return 1 if differing else 0


if __name__ == "__main__":
    sys.exit(main(*sys.argv[1:]))
