"""A plain reader of HTTP/1 messages, by the rules of docs/FORMATS.md and RFC 9112 alone.

`answer(kind, data)` gives what a line `request` or `response` is answered for the bytes of a whole source. It works on
whole bytes and by regular expressions, and shares nothing with the proved reader, which works byte by byte.
"""

import base64
import json
import re

HEAD_BYTES = 16384
FIELDS = 64
BODY_BYTES = {"request": 65536, "response": 524288}
CHUNK_LINE_BYTES = 256
TRAILER_BYTES = 1024

TOKEN = rb"[!#$%&'*+\-.^_`|~0-9A-Za-z]+"
VALUE = rb"[\t\x20-\x7e\x80-\xff]*"
END = rb"\r?\n"
FIELD = TOKEN + rb":" + VALUE + END
REQUEST_LINE = rb"(" + TOKEN + rb") ([\x21-\x7e\x80-\xff]+) HTTP/1\.([01])" + END
STATUS_LINE = rb"HTTP/1\.([01]) ([0-9]{3})(?: " + VALUE + rb")?" + END
HEADS = {
    "request": re.compile(rb"(?:\r?\n)*" + REQUEST_LINE + rb"((?:" + FIELD + rb")*)" + END),
    "response": re.compile(rb"(?:\r?\n)*" + STATUS_LINE + rb"((?:" + FIELD + rb")*)" + END),
}
ABSOLUTE = re.compile(r"https?://[^/]*(/.*)?", re.ASCII | re.DOTALL | re.IGNORECASE)
CHUNK_LINE = re.compile(rb"([0-9A-Fa-f]{1,16})[ \t]*(?:;[^\r\n]*)?\r\n")


class Fault(Exception):
    """The bytes decide this fault."""


class Cut(Exception):
    """The bytes end within the message."""


def section_of(data):
    """The length of the head section."""
    place, lines = 0, 0
    while True:
        newline = data.find(b"\n", place)
        if newline < 0 or newline >= HEAD_BYTES:
            if len(data) > HEAD_BYTES:
                raise Fault("head-long")
            raise Cut
        empty = data[place:newline] in (b"", b"\r")
        place = newline + 1
        if empty and lines > 0:
            return place
        if not empty:
            lines += 1
            if lines == FIELDS + 2:
                raise Fault("head-long")


def fields_of(text):
    fields = []
    for line in text.split(b"\n")[:-1]:
        name, value = line.removesuffix(b"\r").split(b":", 1)
        fields.append((name.lower(), value.strip(b" \t")))
    return fields


def values(fields, name):
    return [value for key, value in fields if key == name]


def framing_of(kind, status, fields):
    """How the body ends, by what the fields say: a number of bytes, `chunked` or `end`."""
    lengths = values(fields, b"content-length")
    codings = values(fields, b"transfer-encoding")
    if any(re.fullmatch(rb"[0-9]+", length) is None for length in lengths):
        raise Fault("length")
    if len({int_of(length) for length in lengths}) > 1:
        raise Fault("length")
    if codings and (lengths or len(codings) > 1 or codings[0].lower() != b"chunked"):
        raise Fault("length")
    if kind == "response" and (status in (204, 304) or 100 <= status < 200):
        return 0
    if codings:
        return "chunked"
    if lengths:
        number = int_of(lengths[0])
        if number == "" or len(number) <= 7 and int(number) <= BODY_BYTES[kind]:
            return int(number or 0)
        raise Fault("body-long")
    return 0 if kind == "request" else "end"


def int_of(digits):
    """The number's digits without the zeros at its start, since a number may have very many."""
    return digits.decode().lstrip("0")


def spend(spare, count):
    """What is left of the bytes that may stand beside the content, once so many of them came."""
    if count > spare:
        raise Fault("body-long")
    return spare - count


def line_of(data, spare):
    """The bytes and the size of the chunk line at the start, and what is left of the bytes beside the content."""
    part = data[:CHUNK_LINE_BYTES]
    count = part.find(b"\n") + 1
    line = CHUNK_LINE.fullmatch(part[:count])
    if line is None and (count or len(part) == CHUNK_LINE_BYTES):
        spend(spare, (count or CHUNK_LINE_BYTES) - 1)
        raise Fault("length")
    spare = spend(spare, count or len(part))
    if line is None:
        raise Cut
    return count, int(line[1], 16), spare


def chunked_body(data, limit):
    """The content of a chunked body, and its length in bytes."""
    content, place, spare = b"", 0, limit // 64 * 6 + CHUNK_LINE_BYTES + TRAILER_BYTES
    while True:
        count, size, spare = line_of(data[place:], spare)
        place += count
        if size == 0:
            return content, place + trailer_of(data[place:], spare)
        if len(content) + size > limit:
            raise Fault("body-long")
        content += data[place : place + size]
        place += size
        end = data[place : place + 2]
        if len(end) == 2 and end != b"\r\n":
            spend(spare, 1)
            raise Fault("length")
        spare = spend(spare, len(end))
        if len(end) < 2:
            raise Cut
        place += 2


def trailer_of(data, spare):
    """The length of a trailer section."""
    part, place = data[:TRAILER_BYTES], 0
    while True:
        newline = part.find(b"\n", place)
        if newline < 0:
            if len(data) >= TRAILER_BYTES:
                spend(spare, TRAILER_BYTES - 1)
                raise Fault("length")
            spend(spare, len(data))
            raise Cut
        if part[place:newline] in (b"", b"\r"):
            spend(spare, newline + 1)
            return newline + 1
        place = newline + 1


def body_of(kind, framing, data):
    """The body, and its length in bytes."""
    limit = BODY_BYTES[kind]
    if framing == "chunked":
        return chunked_body(data, limit)
    if framing == "end":
        if len(data) > limit:
            raise Fault("body-long")
        return data, len(data)
    if len(data) < framing:
        raise Cut
    return data[:framing], framing


def text_of(data):
    try:
        return data.decode()
    except UnicodeDecodeError:
        return None


def bearer_of(fields):
    for value in values(fields, b"authorization")[:1]:
        if value[:7].lower() == b"bearer ":
            return text_of(value[7:])
    return None


def path_of(target):
    """The path of a target without its query: that of the absolute form follows its authority."""
    found = ABSOLUTE.fullmatch(target)
    return target if found is None else found[1] or "/"


def closes(minor, fields):
    words = [word.strip(b" \t").lower() for value in values(fields, b"connection") for word in value.split(b",")]
    return minor == b"0" or b"close" in words


def read(kind, data):
    """The message as an object, and how many bytes it has."""
    count = section_of(data)
    head = HEADS[kind].fullmatch(data[:count])
    if head is None:
        raise Fault("head")
    if kind == "request":
        method, target, minor, text = head.groups()
        if text_of(target) is None or b"#" in target:
            raise Fault("head")
        fields, status = fields_of(text), None
        hosts = len(values(fields, b"host"))
        if hosts > 1 or hosts == 0 and minor == b"1":
            raise Fault("host")
        if values(fields, b"expect") and minor == b"1":
            raise Fault("expect")
        if any(coding.lower() != b"identity" for coding in values(fields, b"content-encoding")):
            raise Fault("coding")
        path, _, query = text_of(target).partition("?")
        path = path_of(path)
        message = {"bearer": bearer_of(fields), "method": method.decode(), "path": path, "query": query}
    else:
        minor, digits, text = head.groups()
        fields, status = fields_of(text), int(digits)
        message = {"status": status}
    framing = framing_of(kind, status, fields)
    content, length = body_of(kind, framing, data[count:])
    message["body"] = base64.urlsafe_b64encode(content).decode().rstrip("=") or "-"
    message["close"] = closes(minor, fields)
    return message, count + length


def answer(kind, data):
    """What the cases print for these bytes."""
    if kind == "request" and not data:
        return "end"
    try:
        message, length = read(kind, data)
    except Fault as fault:
        return str(fault)
    except Cut:
        return "cut"
    text = json.dumps(message, sort_keys=True, separators=(",", ":"), ensure_ascii=False)
    return f"got {text} left {len(data) - length}"
