#!/usr/bin/env python3
"""Answers the lines of `sig_cases` and `sig_turns` by the tables of the standards and of docs/FORMATS.md.

    python3 -B tools/models/answers.py cases|turns < lines

Nothing here comes from the program under test.
"""
import os
import re
import sys

sys.dont_write_bytecode = True
sys.path.insert(0, os.path.join(os.path.dirname(os.path.abspath(__file__)), ".."))
from models import calls, delivery, http_reader, records, replies, routes, streams, subjects, table, tokens
from models.events import check_event
from models.values import BadCase, Fault, NotJson
from models.values import dump, has_fraction, key_of, mac, member, optional, read, split, word, word_bytes

LINE_BYTES = 65536
LAST_NUMBER = 2**62


def yes_or_no(holds):
    return "yes" if holds else "no"


def read_case(data):
    try:
        return read(data)
    except NotJson:
        raise BadCase from None


def number(word):
    if not re.fullmatch(rb"[1-9][0-9]*", word) or int(word) > LAST_NUMBER:
        raise BadCase
    return int(word)


def subject_in(value):
    if not subjects.is_subject(value):
        raise BadCase
    return value


class Program:
    """A program that answers lines by words of its own."""

    def answer(self, line):
        """The answer to a line, None where it is passed over."""
        if len(line) > LINE_BYTES:
            return "bad-case"
        if line == b"" or line.startswith(b"#"):
            return None
        name, _, rest = line.partition(b" ")
        try:
            return self.words[name](rest) if name in self.words else "bad-case"
        except BadCase:
            return "bad-case"


class Turns(Program):
    """What lines of calls are answered: rules and the core go from one line to the next."""

    def __init__(self):
        self.rules = {"issuer": "", "defaults": "ALL", "interval": 0, "clients": {}}
        self.core = calls.Core()
        self.words = {
            b"rules": self.set_rules,
            b"call": lambda rest: calls.answer(self.core, self.rules, rest),
            b"owed": lambda rest: calls.owed(self.core, rest),
            b"clear": self.clear,
        }

    def set_rules(self, rest):
        self.rules = calls.read_rules(read_case(rest))
        return "ok"

    def clear(self, rest):
        if rest != b"":
            raise BadCase
        self.core = calls.Core()
        return "ok"


class Answers(Program):
    """What lines of cases are answered: trust and the session table go from one line to the next."""

    def __init__(self):
        self.trust = {"audience": "", "issuers": []}
        self.rows = []
        self.words = {
            b"json": self.json,
            b"mac": self.mac,
            b"key": self.key,
            b"split": self.split,
            b"subject": self.subject,
            b"identical": lambda rest: self.related(rest, subjects.same),
            b"matches": lambda rest: self.related(rest, subjects.matches),
            b"covers": lambda rest: self.related(rest, subjects.covers),
            b"event": self.event,
            b"trust": self.set_trust,
            b"judge": self.judge,
            b"claims": self.claims,
            b"take": self.take,
            b"row": self.row,
            b"verdict": self.verdict,
            b"clear": self.clear,
            b"want": self.want,
            b"publish": lambda rest: self.checked(streams.check_publication, rest),
            b"conf": lambda rest: "ok " + dump(streams.conf_object(read_case(rest))),
            b"delivers": lambda rest: yes_or_no(streams.delivers(read_case(rest))),
            b"fits": lambda rest: yes_or_no(streams.fits(read_case(rest))),
            b"request": lambda rest: self.message("request", rest),
            b"response": lambda rest: self.message("response", rest),
            b"record": lambda rest: self.record(records.fact, rest),
            b"token-record": lambda rest: self.record(records.token, rest),
            b"ask": lambda rest: self.body(delivery.check_ask, rest),
            b"sets": lambda rest: self.body(delivery.check_sets, rest),
            b"outcome": self.outcome,
            b"route": lambda rest: routes.answer(routes.read_case(read_case(rest))),
            b"reply": lambda rest: replies.reply(read_case(rest)),
        }

    def json(self, rest):
        try:
            value = read(rest)
        except NotJson:
            return "not-json"
        return "fraction" if has_fraction(value) else "value " + dump(value)

    def mac(self, rest):
        words = rest.split(b" ")
        if len(words) != 2:
            raise BadCase
        return word(mac(word_bytes(words[0]), word_bytes(words[1])))

    def key(self, rest):
        if b" " in rest:
            raise BadCase
        return yes_or_no(key_of(rest) is not None)

    def split(self, rest):
        try:
            return " ".join(["ok"] + [word(part) for part in split(rest)])
        except Fault as fault:
            return fault.args[0]

    def subject(self, rest):
        try:
            return "ok " + dump(subjects.check_subject(read(rest)))
        except NotJson:
            return "not-json"
        except Fault as fault:
            return fault.args[0]

    def related(self, rest, relation):
        pair = read_case(rest)
        if not isinstance(pair, list) or len(pair) != 2:
            raise BadCase
        return yes_or_no(relation(subject_in(pair[0]), subject_in(pair[1])))

    def event(self, rest):
        case = read_case(rest)
        uri = member(case, "uri", str)
        if "payload" not in case:
            raise BadCase
        subject = subject_in(case.get("subject"))
        try:
            return "ok " + dump(check_event(uri, case["payload"], subject))
        except Fault as fault:
            return fault.args[0]

    def set_trust(self, rest):
        self.trust = tokens.read_trust(read_case(rest))
        return "ok"

    def judge(self, rest):
        case = read_case(rest)
        token = member(case, "token", str).encode()
        named, principal = optional(case, "named", str), optional(case, "principal", str)
        try:
            return "valid " + tokens.judge(self.trust, principal, named, token)
        except Fault as fault:
            return " ".join(fault.args[0])

    def claims(self, rest):
        try:
            return "ok " + tokens.claims_of(rest)
        except Fault as fault:
            return "bad " + fault.args[0][1]

    def take(self, rest):
        case = read_case(rest)
        if not isinstance(case, dict):
            raise BadCase
        try:
            table.take(self.rows, case.get("sub_id"), tokens.check_happened(case))
        except Fault as fault:
            return "bad " + fault.args[0][1]
        return f"rows {len(self.rows)}"

    def row(self, rest):
        place = number(rest)
        return table.row_text(place, self.rows[place - 1]) if place <= len(self.rows) else "none"

    def verdict(self, rest):
        return dump(table.verdict(self.rows, subject_in(read_case(rest))))

    def clear(self, rest):
        if rest != b"":
            raise BadCase
        self.rows = []
        return "ok"

    def want(self, rest):
        gateway, _, body = rest.partition(b" ")
        if gateway not in [b"yes", b"no"]:
            raise BadCase
        return self.checked(lambda value: streams.want_object(streams.check_want(value, gateway == b"yes")), body)

    def checked(self, check, rest):
        body = read_case(rest)
        try:
            return "ok " + dump(check(body))
        except Fault as fault:
            return fault.args[0]

    def message(self, kind, rest):
        size, _, data = rest.partition(b" ")
        number(size)
        return http_reader.answer(kind, word_bytes(data))

    def record(self, read_whole, rest):
        data = word_bytes(rest)
        at = records.bad_offset(read_whole, data)
        return f"ok {word(data)}" if at is None else f"bad {at}"

    def body(self, check, rest):
        try:
            return "ok " + check(rest)
        except Fault as fault:
            return fault.args[0]

    def outcome(self, rest):
        status, _, body = rest.partition(b" ")
        if not 100 <= number(status) <= 999:
            raise BadCase
        return delivery.outcome(int(status), word_bytes(body))


def lines_of(data):
    """Lines end with LF, and one CR before it goes; the last may lack its LF."""
    lines = data.split(b"\n")
    last = lines.pop()
    return [line[:-1] if line.endswith(b"\r") else line for line in lines] + ([last] if last else [])


def answer_all(answers, data):
    out = []
    for number, line in enumerate(lines_of(data), 1):
        answer = answers.answer(line)
        if answer is not None:
            out.append(f"{number} {answer}")
    return out


def main():
    programs = {"cases": Answers, "turns": Turns}
    if len(sys.argv) != 2 or sys.argv[1] not in programs:
        sys.exit("usage: answers.py cases|turns")
    for answer in answer_all(programs[sys.argv[1]](), sys.stdin.buffer.read()):
        print(answer)


if __name__ == "__main__":
    main()
