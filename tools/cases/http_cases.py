"""The cases of HTTP messages, of which `stored_cases.py` makes lines of the stored run of `sig_cases`.

Each row names its answer by hand, from RFC 9112 and docs/FORMATS.md; `models/http_reader.py` has to give the same, and the
object that is got is its. Each message is given whole and byte by byte, a short one also in pieces of each size, so that
it is cut at every place; each fault comes at the byte that decides it; three messages end at every place. A message that
no line has room for is left out: bodies at their limits are tests of `sig_http`.
"""

import base64
import json
import pathlib
import sys

from models.http_reader import answer

BODY, RESPONSE_BODY, HEAD, LINE_BYTES = 65536, 524288, 16384, 65536
EACH_PLACE = 48


def request(head, body=b""):
    return b"\r\n".join([*head, b"", body])


def post(*fields, body=b""):
    return request([b"POST / HTTP/1.1", b"host: a", *fields], body)


def reply(*fields, body=b"", status=b"200 OK"):
    return request([b"HTTP/1.1 " + status, *fields], body)


CHUNKED = b"transfer-encoding: chunked"
# As many bytes beside the content as a body of a request may have, in chunks of one byte and extensions that fill them.
FRAME = BODY // 64 * 6 + 256 + 1024
SPREAD = b"1;" + b"x" * 244 + b"\r\nb\r\n"
FULL = SPREAD * (FRAME // 250 - 1)


def padded(count):
    """Chunks with their last one and an empty trailer section, and so many bytes beside their content."""
    rest = count - 250 * (FRAME // 250 - 1) - 5 - 5
    return FULL + b"1;" + b"x" * (rest // 2 - 1) + b"\r\nb\r\n" + b"0;" + b"x" * (rest - rest // 2 - 1) + b"\r\n\r\n"


FILLED = b"f: " + b"v" * (HEAD - len(post(b"f: ")))

# Each row: what it shows, the kind, the bytes, and the answer's first word.
ROWS = [
    ("RFC 9112, section 2.1", "request", b"GET /hello.txt HTTP/1.1\r\nUser-Agent: curl/7.64.1\r\nHost: www.example.com\r\nAccept-Language: en, mi\r\n\r\n", "got"),
    ("RFC 9112, section 3.2.1: a target with a query", "request", b"GET /where?q=now HTTP/1.1\r\nHost: www.example.org\r\n\r\n", "got"),
    ("RFC 8935, section 2.1, with an unchanged body", "request", request([b"POST / HTTP/1.1", b"Host: notify.rp.example.com", b"Accept: application/json", b"Accept-Language: en-US, en;q=0.5", b"Content-Type: application/secevent+jwt", b"Content-Length: 20"], b"eyJ0eXAiOiJzZWNldmVu"), "got"),
    ("section 2.2: empty lines before a request", "request", b"\r\n\r\nGET / HTTP/1.1\r\nhost: a\r\n\r\n", "got"),
    ("section 2.2: lines that end in LF", "request", b"GET / HTTP/1.1\nhost: a\n\n", "got"),
    ("section 2.2: a bare CR", "request", b"GET / HTTP/1.1\r\nx: a\rb\r\n\r\n", "head"),
    ("section 2.2: a line between the start line and the fields that begins with a space", "request", b"GET / HTTP/1.1\r\n x: y\r\n\r\n", "head"),
    ("section 2.3: HTTP/1.0 closes", "request", b"GET / HTTP/1.0\r\n\r\n", "got"),
    ("section 2.3: another version", "request", b"GET / HTTP/2.0\r\n\r\n", "head"),
    ("section 3: no target", "request", b"GET HTTP/1.1\r\n\r\n", "head"),
    ("section 3: two spaces", "request", b"GET  / HTTP/1.1\r\n\r\n", "head"),
    ("a target that is no UTF-8", "request", b"GET /\xff HTTP/1.1\r\n\r\n", "head"),
    ("section 5.1: white space before a colon", "request", post(b"content-length : 1", body=b"a"), "head"),
    ("section 5.2: a folded field", "request", post(b"x: a", b" b"), "head"),
    ("section 5.1: a field without a colon", "request", post(b"x"), "head"),
    ("no bytes", "request", b"", "end"),
    ("an empty line alone", "request", b"\r\n", "cut"),
    ("a head that is cut", "request", b"GET / HTTP/1.1\r\nhost: a\r\n", "cut"),
    ("section 6.3: a body by its length, and what follows", "request", post(b"content-length: 3", body=b"abcGET"), "got"),
    ("section 6.3: a body that is a byte short", "request", post(b"content-length: 3", body=b"ab"), "cut"),
    ("section 6.3: no length and no coding, no body", "request", post(body=b"abc"), "got"),
    ("section 6.2: a length with a sign", "request", post(b"content-length: +3", body=b"abc"), "length"),
    ("section 6.2: an empty length", "request", post(b"content-length:", body=b"abc"), "length"),
    ("section 6.3: a list of lengths", "request", post(b"content-length: 3, 3", body=b"abc"), "length"),
    ("section 6.3: two lengths that are one number", "request", post(b"content-length: 3", b"Content-Length: 03", body=b"abc"), "got"),
    ("section 6.3: two lengths that differ", "request", post(b"content-length: 3", b"content-length: 2", body=b"abc"), "length"),
    ("two long lengths that differ", "request", post(b"content-length: 18446744073709551617", b"content-length: 1"), "length"),
    ("a long length", "request", post(b"content-length: 18446744073709551619"), "body-long"),
    ("section 6.1: a length beside a coding", "request", post(CHUNKED, b"content-length: 3", body=b"0\r\n\r\n"), "length"),
    ("section 6.1: another coding", "request", post(b"transfer-encoding: gzip, chunked", body=b"0\r\n\r\n"), "length"),
    ("section 6.1: chunked twice", "request", post(CHUNKED, CHUNKED, body=b"0\r\n\r\n"), "length"),
    ("section 6.1: chunked in capitals", "request", post(b"Transfer-Encoding: CHUNKED", body=b"0\r\n\r\n"), "got"),
    ("section 7.1: chunks", "request", post(CHUNKED, body=b"4\r\nWiki\r\n7\r\npedia i\r\nB\r\nn \r\nchunks.\r\n0\r\n\r\n"), "got"),
    ("section 7.1.1: extensions", "request", post(CHUNKED, body=b"3;a=b;c=\"d\"\r\nabc\r\n0;x\r\n\r\n"), "got"),
    ("section 7.1.2: a trailer section, and what follows", "request", post(CHUNKED, body=b"0\r\nx: y\r\nz\r\n\r\nGET"), "got"),
    ("a chunk's size with a sign", "request", post(CHUNKED, body=b"+3\r\nabc\r\n0\r\n\r\n"), "length"),
    ("a chunk's size in C's form", "request", post(CHUNKED, body=b"0x3\r\nabc\r\n0\r\n\r\n"), "length"),
    ("a chunk line without its CR", "request", post(CHUNKED, body=b"3\nabc\r\n0\r\n\r\n"), "length"),
    ("a chunk line with a bare CR", "request", post(CHUNKED, body=b"3;\r x\r\nabc\r\n0\r\n\r\n"), "length"),
    ("a chunk that is longer than its size", "request", post(CHUNKED, body=b"3\r\nabcd\r\n0\r\n\r\n"), "length"),
    ("16 digits", "request", post(CHUNKED, body=b"0000000000000003\r\nabc\r\n0\r\n\r\n"), "got"),
    ("17 digits", "request", post(CHUNKED, body=b"00000000000000003\r\nabc\r\n0\r\n\r\n"), "length"),
    ("a chunk line of 256 bytes", "request", post(CHUNKED, body=b"0;" + b"x" * 252 + b"\r\n\r\n"), "got"),
    ("a chunk line of 257 bytes", "request", post(CHUNKED, body=b"0;" + b"x" * 253 + b"\r\n\r\n"), "length"),
    ("a trailer section of 1,024 bytes", "request", post(CHUNKED, body=b"0\r\n" + b"x" * 1020 + b"\r\n\r\n"), "got"),
    ("a trailer section of 1,025 bytes", "request", post(CHUNKED, body=b"0\r\n" + b"x" * 1021 + b"\r\n\r\n"), "length"),
    ("RFC 9112, section 3.2: no host in HTTP/1.1", "request", b"GET / HTTP/1.1\r\n\r\n", "host"),
    ("a host twice in HTTP/1.1", "request", post(b"Host: a"), "host"),
    ("a host twice in HTTP/1.0", "request", b"GET / HTTP/1.0\r\nhost: a\r\nhost: a\r\n\r\n", "host"),
    ("one in HTTP/1.0", "request", b"GET / HTTP/1.0\r\nhost: a\r\n\r\n", "got"),
    ("an empty host", "request", b"GET / HTTP/1.1\r\nhost:\r\n\r\n", "got"),
    ("a fragment", "request", b"GET /a#b HTTP/1.1\r\nhost: a\r\n\r\n", "head"),
    ("a fragment in a query", "request", b"GET /a?b#c HTTP/1.1\r\nhost: a\r\n\r\n", "head"),
    ("section 3.2.2: the absolute form", "request", b"GET http://www.example.org/pub/WWW/TheProject.html HTTP/1.1\r\nhost: a\r\n\r\n", "got"),
    ("the absolute form with a query", "request", b"GET HTTPS://a:1/b//c?http://d/e HTTP/1.1\r\nhost: a\r\n\r\n", "got"),
    ("the absolute form without a path", "request", b"GET hTTp://a?b/c HTTP/1.0\r\n\r\n", "got"),
    ("the absolute form of no authority", "request", b"GET http:// HTTP/1.0\r\n\r\n", "got"),
    ("another scheme", "request", b"GET ftp://a/b HTTP/1.0\r\n\r\n", "got"),
    ("a scheme without an authority", "request", b"GET http:/a/b HTTP/1.0\r\n\r\n", "got"),
    ("a URL in a path", "request", b"GET /http://a/b HTTP/1.0\r\n\r\n", "got"),
    ("the form of OPTIONS", "request", b"OPTIONS * HTTP/1.1\r\nhost: a\r\n\r\n", "got"),
    ("RFC 9110, section 10.1.1: an expectation", "request", post(b"expect: 100-continue"), "expect"),
    ("an expectation in HTTP/1.0", "request", b"POST / HTTP/1.0\r\nexpect: 100-continue\r\ncontent-length: 1\r\n\r\na", "got"),
    ("RFC 9110, section 8.4: a coding", "request", post(b"content-encoding: gzip"), "coding"),
    ("the coding that changes nothing", "request", post(b"content-encoding: Identity"), "got"),
    ("of several faults the first: a head", "request", post(b"expect: x", b" folded"), "head"),
    ("a fragment", "request", b"GET /# HTTP/1.1\r\nexpect: x\r\n\r\n", "head"),
    ("a host", "request", b"GET / HTTP/1.1\r\nexpect: x\r\ncontent-encoding: br\r\n\r\n", "host"),
    ("an expectation", "request", post(b"content-length: x", b"content-encoding: br", b"expect: x"), "expect"),
    ("a coding", "request", post(b"content-length: x", b"content-encoding: br"), "coding"),
    ("a length", "request", post(b"content-length: 99999", b"content-length: x"), "length"),
    ("section 9.6: close in a list", "request", post(b"connection: keep-alive,\t Close"), "got"),
    ("another word than close", "request", post(b"connection: closed"), "got"),
    ("RFC 6750, section 2.1: a bearer", "request", post(b"authorization: BEARER  a b"), "got"),
    ("another scheme before a bearer", "request", post(b"authorization: Basic x", b"authorization: Bearer y"), "got"),
    ("a bearer that is no UTF-8", "request", post(b"authorization: Bearer \xff"), "got"),
    ("64 fields", "request", post(*[b"f: 1"] * 63), "got"),
    ("65 fields", "request", post(*[b"f: 1"] * 64), "head-long"),
    ("a head of 16,384 bytes", "request", post(FILLED), "got"),
    ("a head of 16,385 bytes", "request", post(FILLED + b"v"), "head-long"),
    ("as many bytes beside the content as may be", "request", post(CHUNKED, body=padded(FRAME)), "got"),
    ("one more", "request", post(CHUNKED, body=padded(FRAME + 1)), "body-long"),
    ("chunks of one byte", "request", post(CHUNKED, body=b"1\r\nb\r\n" * 1483 + b"0\r\n\r\n"), "got"),
    ("one too many", "request", post(CHUNKED, body=b"1\r\nb\r\n" * 1484 + b"0\r\n\r\n"), "body-long"),
    ("a body of 65,536 bytes that isn't there", "request", post(b"content-length: 65536"), "cut"),
    ("a body of 65,536 bytes", "request", post(b"content-length: 65536", body=b"b" * BODY), "got"),
    ("a body of 65,537 bytes, by its head alone", "request", post(b"content-length: 65537"), "body-long"),
    ("chunks of 65,536 bytes", "request", post(CHUNKED, body=b"8000\r\n" + b"b" * 32768 + b"\r\n8000\r\n" + b"c" * 32768 + b"\r\n0\r\n\r\n"), "got"),
    ("a chunk of 65,537 bytes, by its line", "request", post(CHUNKED, body=b"10001\r\n"), "body-long"),
    ("a chunk of 65,536 bytes that isn't there", "request", post(CHUNKED, body=b"10000\r\n"), "cut"),
    ("chunks of 65,537 bytes, by the chunk line", "request", post(CHUNKED, body=b"8000\r\n" + b"b" * 32768 + b"\r\n8001\r\n"), "body-long"),
    ("section 4: a response, and what follows", "response", reply(b"content-length: 3", body=b"abcHTTP"), "got"),
    ("section 4: no phrase", "response", b"HTTP/1.1 200\r\ncontent-length: 0\r\n\r\n", "got"),
    ("section 6.3: to the end of the source", "response", reply(body=b"abc"), "got"),
    ("section 6.3: 204 has no body", "response", reply(b"content-length: 3", status=b"204 No Content", body=b"abc"), "got"),
    ("section 6.3: 304 has no body", "response", reply(b"content-length: 999999", status=b"304 Not Modified"), "got"),
    ("304 with two ways to end", "response", reply(CHUNKED, b"content-length: 3", status=b"304 Not Modified"), "length"),
    ("a response's coding isn't asked", "response", reply(b"content-encoding: gzip", b"expect: x", b"content-length: 0"), "got"),
    ("section 6.3: a status 1xx has no body", "response", reply(b"content-length: 3", status=b"103 Early Hints", body=b"abc"), "got"),
    ("a status 1xx without a length, and what follows", "response", reply(status=b"100 Continue", body=b"HTTP"), "got"),
    ("another status that is no status", "response", reply(b"content-length: 1", status=b"099 x", body=b"a"), "got"),
    ("two digits", "response", b"HTTP/1.1 20 OK\r\n\r\n", "head"),
    ("no response", "response", b"", "cut"),
    ("a body of 524,288 bytes that isn't there", "response", reply(b"content-length: 524288"), "cut"),
    ("a chunk of 524,289 bytes, by its line", "response", reply(CHUNKED, body=b"80001\r\n"), "body-long"),
    ("a chunk of 524,288 bytes that isn't there", "response", reply(CHUNKED, body=b"80000\r\n"), "cut"),
    ("a body of 524,289 bytes, by its head alone", "response", reply(b"content-length: 524289"), "body-long"),
    ("a body to the end of 524,288 bytes", "response", reply(body=b"e" * RESPONSE_BODY), "got"),
    ("a body to the end of 524,289 bytes", "response", reply(body=b"e" * (RESPONSE_BODY + 1)), "body-long"),
]

# Each row: what it shows, the kind, the answer, and the bytes of which the last decides it: without that byte they are cut,
# and with further ones the answer stays.
DECIDING = [
    ("the bytes of a head section", "request", "head-long", post(FILLED + b"v")[: HEAD + 1]),
    ("the bytes of empty lines before it", "request", "head-long", b"\r\n" * (HEAD // 2) + b"\r"),
    ("its lines", "request", "head-long", b"GET / HTTP/1.1\r\n" + b"f: 1\r\n" * 65),
    ("its lines after empty ones", "request", "head-long", b"\r\n\nGET / HTTP/1.1\n" + b"f:\n" * 65),
    ("a version", "request", "head", b"GET / HTTP/2.0\r\n\r\n"),
    ("a field", "request", "head", post(b"x : y")),
    ("a fragment", "request", "head", b"GET /# HTTP/1.1\r\nhost: a\r\n\r\n"),
    ("a host that isn't there", "request", "host", b"GET / HTTP/1.1\r\n\r\n"),
    ("a second host", "request", "host", post(b"Host: b")),
    ("an expectation", "request", "expect", post(b"expect: x")),
    ("a coding of the content", "request", "coding", post(b"content-encoding: br")),
    ("a length", "request", "length", post(b"content-length: -1")),
    ("a length over the limit", "request", "body-long", post(b"content-length: 65537")),
    ("a chunk line that breaks the rule", "request", "length", post(CHUNKED, body=b"x\r\n")),
    ("a second one", "request", "length", post(CHUNKED, body=b"1\r\na\r\n1 1\r\n")),
    ("a chunk line without its end", "request", "length", post(CHUNKED, body=b"1;" + b"x" * 254)),
    ("two bytes after a chunk", "request", "length", post(CHUNKED, body=b"1\r\nabc")),
    ("the second of two bytes after a chunk", "request", "length", post(CHUNKED, body=b"1\r\na\r\r")),
    ("a trailer section without its end", "request", "length", post(CHUNKED, body=b"0\r\n" + b"x" * 1024)),
    ("a byte beside the content too many", "request", "body-long", post(CHUNKED, body=FULL + SPREAD + b"1;" + b"x" * (FRAME % 250 - 1))),
    ("a last byte too many", "request", "body-long", post(CHUNKED, body=padded(FRAME + 1))),
    ("a chunk over the limit", "request", "body-long", post(CHUNKED, body=b"1\r\na\r\n10000\r\n")),
    ("the lines of a response's head", "response", "head-long", b"HTTP/1.1 200 OK\r\n" + b"f: 1\r\n" * 65),
    ("a status", "response", "head", b"HTTP/1.1 2000 OK\r\n\r\n"),
    ("a response's length", "response", "length", reply(b"content-length: 1", b"content-length: 2")),
    ("a response's length over the limit", "response", "body-long", reply(b"content-length: 524289")),
    ("a chunk line of a response", "response", "length", reply(CHUNKED, body=b"1\n")),
    ("a chunk of a response over the limit", "response", "body-long", reply(CHUNKED, body=b"1\r\na\r\n80000\r\n")),
]

# Each row: what it shows, the kind, the bytes, and the answer's first word where there are none.
ENDING = [
    ("a request with a body", "request", post(b"content-length: 3", body=b"abc"), "end"),
    ("a request in chunks", "request", post(CHUNKED, body=b"4;x\r\nWiki\r\n0\r\ny: z\r\n\r\n"), "end"),
    ("a response with a body", "response", reply(b"content-length: 3", body=b"abc"), "cut"),
]


def captured():
    for row in json.loads(pathlib.Path(__file__).with_name("http_captured.json").read_text()):
        word = "expect" if row["name"].endswith("expect") else "got"
        yield row["name"], row["kind"], base64.b64decode(row["bytes"]), word


def sizes(data):
    """How many bytes a call gives: the message whole, byte by byte, and with a first piece of each length."""
    pieces = range(2, len(data)) if len(data) <= EACH_PLACE else [4096] if len(data) > 4096 else []
    return (1000000, 1, *pieces)


def spelled(data):
    return base64.urlsafe_b64encode(data).decode().rstrip("=") or "-"


def checked(shows, kind, data, word):
    """The reader of the other hand gives the answer that stands by hand."""
    told = answer(kind, data).split(" ")[0]
    if told != word:
        sys.exit(f"{shows}: {told}, and not {word}")


def lines():
    """The lines, each after one that says what it shows."""
    out = []
    for shows, kind, data, word in [*ROWS, *captured()]:
        checked(shows, kind, data, word)
        told = [f"{kind} {size} {spelled(data)}" for size in sizes(data)]
        if len(told[0]) <= LINE_BYTES:
            out += [f"# {shows}", *told]
    for shows, kind, word, data in DECIDING:
        out.append(f"# the byte that decides: {shows}")
        for bytes_of, wanted in ((data, word), (data[:-1], "cut"), (data + b"\r\nGET", word)):
            checked(shows, kind, bytes_of, wanted)
            out.append(f"{kind} 1 {spelled(bytes_of)}")
    for shows, kind, data, first in ENDING:
        out.append(f"# {shows}, which ends at every place")
        for end in range(len(data)):
            checked(f"{shows} at {end}", kind, data[:end], first if end == 0 else "cut")
            out.append(f"{kind} 1000000 {spelled(data[:end])}")
    return [line.encode() for line in out]
