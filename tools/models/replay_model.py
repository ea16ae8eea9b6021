#!/usr/bin/env python3
"""What a script of `replay` prints, worked out by a model of another hand (docs/FORMATS.md).

`replay_model.py < script` prints the output, and last `status N`. The model keeps the whole history, and finds what a stream
owes by going over it (RFC 8935, RFC 8936; OpenID Shared Signals Framework 1.0, sections 7 and 8). It was written from the
documents; nothing in it comes from the program under test.
"""
import copy
import os
import re
import sys

sys.dont_write_bytecode = True
sys.path.insert(0, os.path.join(os.path.dirname(os.path.abspath(__file__)), ".."))
from models import streams, table
from models.events import PREFIX
from models.subjects import check_subject, same
from models.values import Fault, NotJson, dump, read

LAST_NUMBER = 2**62
LINE_BYTES, PAYLOAD_BYTES = 65536, 6000
PAGE, MOST_STREAMS, INTERVAL = 32, 16, 60
CLIENTS = ["acme", "zeta"]
ISSUER, AUDIENCE = "https://idp.example", "https://rp.example"
GATE = 0x5A
STORE = "6ba7b810-9dad-11d1-80b4-00c04fd430c8"
BY_POLL = {"method": "poll"}
VERIFICATION, UPDATED = (PREFIX + "ssf/event-type/" + name for name in ["verification", "stream-updated"])


class Refused(Exception):
    """The line has no form of a script."""


# ---- what lines say


def number(word):
    if not re.fullmatch("0|[1-9][0-9]*", word) or int(word) > LAST_NUMBER:
        raise Refused
    return int(word)


def client(word):
    if word not in CLIENTS:
        raise Refused
    return word


def name(word):
    if word == "":
        raise Refused
    return word


def status(word):
    if word not in ["enabled", "paused", "disabled"]:
        raise Refused
    return word


def body(text):
    try:
        return read(text.encode())
    except NotJson:
        raise Refused from None


def checked(check, *given):
    """What is read of a body; a script line whose body is wrong is refused."""
    try:
        return check(*given)
    except Fault:
        raise Refused from None


def want(text):
    # there is no gateway, so no endpoint is `https`
    return checked(streams.check_want, body(text), False)


def subject(text):
    return checked(check_subject, body(text))


def publication(text):
    given = checked(streams.check_publication, body(text))
    return given["id"], given["sub_id"], given["uri"], given["payload"]


def node(word):
    if word not in ["tx", "rx"]:
        raise Refused
    return word


def calls(word):
    if word not in ["0", "1", "2", "3", "4"]:
        raise Refused
    return int(word)


def byte(word):
    if not re.fullmatch("[0-9a-f]{2}", word):
        raise Refused
    return int(word, 16)


def inner(text):
    """The line that is played while a disk stands still: one by which an end acts."""
    found = parsed(text.encode())
    if not found or found[0] in ["time", "stop", "crash", "check"]:
        raise Refused
    return found


FORMS = {
    "time": [number],
    "create": [client, want],
    "patch": [client, name, want],
    "put": [client, name, want],
    "delete": [client, name],
    "status": [client, name, status],
    "operator": [name, status],
    "add": [client, name, subject],
    "remove": [client, name, subject],
    "verify": [client, name],
    "publish": [publication],
    "poll": [client, name, number],
    "hand": [name],
    "deliver": [number],
    "answer": [number],
    "check": [subject],
    "stop": [node, calls, byte, inner],
    "crash": [node],
}
# what takes the rest of a line
JSON = [want, subject, publication, inner]


def parsed(line):
    """The word of a line and what it says, None where it is passed over."""
    if len(line) > LINE_BYTES:
        raise Refused
    try:
        text = line.decode()
    except UnicodeDecodeError:
        raise Refused from None
    if text == "" or text.startswith("#"):
        return None
    word, space, rest = text.partition(" ")
    if word not in FORMS or not space:
        raise Refused
    form = FORMS[word]
    # every argument but JSON is one word, and JSON is the rest of the line
    parts = rest.split(" ", len(form) - 1) if form[-1] in JSON else rest.split(" ")
    if len(parts) != len(form):
        raise Refused
    return word, [read_part(part) for read_part, part in zip(form, parts)]


# ---- both ends


class World:
    """The histories of both ends. A stream owes the tokens made for it that nothing after them took off."""

    def __init__(self):
        self.now = 0
        self.made = {one: 0 for one in CLIENTS}
        self.streams = {}
        self.tokens = []
        self.published = {}
        self.messages, self.replies = [], []
        self.journal, self.rows = [], []

    # -- streams and tokens

    def in_order(self):
        return sorted(self.streams, key=lambda held: (self.streams[held]["client"], self.streams[held]["number"]))

    def of_client(self, whose, held):
        found = self.streams.get(held)
        return found if found and found["client"] == whose else None

    def owed(self, held):
        return [token for token in self.tokens if token["stream"] == held and token["owed"]]

    def offered(self, held):
        if self.streams[held]["status"] == "enabled":
            return self.owed(held)
        return [token for token in self.owed(held) if token["uri"] == UPDATED]

    def drop(self, held):
        for token in self.owed(held):
            token["owed"] = False

    def token(self, held, whom, uri, payload):
        place = self.streams[held]["tokens"] + 1
        jti = f"{STORE}.{held}.{place}"
        claims = {"aud": AUDIENCE, "events": {uri: payload}, "iat": self.now, "iss": ISSUER, "jti": jti, "sub_id": whom}
        return {"stream": held, "number": place, "uri": uri, "payload": payload, "subject": whom, "size": len(dump(claims).encode()), "owed": True}

    def keep(self, tokens):
        for token in tokens:
            self.streams[token["stream"]]["tokens"] += 1
            self.tokens.append(token)

    def hand_out(self, tokens):
        lines = []
        for token in tokens:
            self.messages.append(token)
            lines.append(f"m{len(self.messages)} {label(token)}")
        return lines

    # -- lines of clients

    def create(self, whose, wanted):
        if sum(held["client"] == whose for held in self.streams.values()) == MOST_STREAMS:
            return ["too-many"]
        self.made[whose] += 1
        made = f"{whose}-{self.made[whose]}"
        self.streams[made] = {
            "client": whose, "number": self.made[whose], "status": "enabled", "removed": [], "asked": None, "tokens": 0,
            "delivery": BY_POLL, "requested": None, "description": None, **wanted,
        }
        return [f"made {made}"]

    def patch(self, whose, held, wanted):
        found = self.of_client(whose, held)
        if not found:
            return ["not-found"]
        found.update(wanted)
        return [f"conf {held}"]

    def put(self, whose, held, wanted):
        return self.patch(whose, held, {"delivery": BY_POLL, "requested": None, "description": None, **wanted})

    def delete(self, whose, held):
        if not self.of_client(whose, held):
            return ["not-found"]
        self.drop(held)
        del self.streams[held]
        return ["gone"]

    def status(self, whose, held, new):
        found = self.of_client(whose, held)
        if not found:
            return ["not-found"]
        if found["status"] != new:
            if new == "disabled":
                self.drop(held)
            found["status"] = new
        return [f"state {held} {new}"]

    def add(self, whose, held, whom):
        found = self.of_client(whose, held)
        if not found:
            return ["not-found"]
        found["removed"] = [one for one in found["removed"] if not same(one, whom)]
        return ["added"]

    def remove(self, whose, held, whom):
        found = self.of_client(whose, held)
        if not found:
            return ["not-found"]
        if not any(same(one, whom) for one in found["removed"]):
            found["removed"].append(whom)
        return ["removed"]

    def verify(self, whose, held):
        found = self.of_client(whose, held)
        if not found:
            return ["not-found"]
        if found["status"] == "disabled":
            return ["disabled"]
        if found["asked"] is not None and self.now < found["asked"] + INTERVAL:
            return [f"early {found['asked'] + INTERVAL}"]
        token = self.token(held, {"format": "opaque", "id": held}, VERIFICATION, {})
        if token["size"] > PAYLOAD_BYTES:
            return [f"long {token['size']}"]
        found["asked"] = self.now
        self.keep([token])
        return [f"asked {label(token)}"]

    def poll(self, whose, held, most):
        found = self.of_client(whose, held)
        if not found or found["delivery"]["method"] == "push":
            return ["not-found"]
        offered, size = self.offered(held), min(most, PAGE)
        page = offered[:size]
        return [f"sets {len(page)} more {'yes' if len(offered) > size else 'no'}"] + self.hand_out(page)

    # -- lines of the operator and of the network

    def time(self, now):
        self.now = now
        return [f"time {now}"]

    def operator(self, held, new):
        found = self.streams.get(held)
        if not found:
            return ["not-found"]
        if found["status"] == new:
            return [f"state {held} {new}"]
        token = self.token(held, {"format": "opaque", "id": held}, UPDATED, {"status": new})
        if token["size"] > PAYLOAD_BYTES:
            return [f"long {token['size']}"]
        if new == "disabled":
            self.drop(held)
        found["status"] = new
        self.keep([token])
        return [f"state {held} {new} token {token['number']}"]

    def publish(self, given):
        named, whom, uri, payload = given
        if named in self.published:
            before, tokens = self.published[named]
            alike = same(before[0], whom) and before[1] == uri and dump(before[2]) == dump(payload)
            return published(tokens) if alike else ["conflict"]
        tokens = [self.token(held, whom, uri, payload) for held in self.in_order() if self.is_due(held, whom, uri)]
        longest = max([token["size"] for token in tokens], default=0)
        if longest > PAYLOAD_BYTES:
            return [f"long {longest}"]
        self.published[named] = (whom, uri, payload), tokens
        self.keep(tokens)
        return published(tokens)

    def is_due(self, held, whom, uri):
        found = self.streams[held]
        asked_for = found["requested"] is None or uri in found["requested"]
        return found["status"] != "disabled" and asked_for and not any(same(one, whom) for one in found["removed"])

    def hand(self, held):
        found = self.streams.get(held)
        page = self.offered(held)[:PAGE] if found and found["delivery"]["method"] == "push" else []
        return [f"handed {len(page)}"] + self.hand_out(page)

    def deliver(self, place):
        if not 1 <= place <= len(self.messages):
            raise Refused
        token = self.messages[place - 1]
        self.replies.append(token)
        answer = f"a{len(self.replies)}"
        if label(token) in self.journal:
            return [f"seen {answer}"]
        self.journal.append(label(token))
        table.take(self.rows, token["subject"], {token["uri"]: token["payload"]})
        return [f"accepted {answer}"]

    def answer(self, place):
        if not 1 <= place <= len(self.replies):
            raise Refused
        token = self.replies[place - 1]
        settled = int(token["owed"])
        token["owed"] = False
        return [f"settled {settled}"]

    def check(self, whom):
        return ["allow" if table.verdict(self.rows, whom)["allow"] else "deny"]

    # -- crashes

    def crash(self, end):
        # what a crash leaves of a store that isn't written is that store
        return ["loaded"]

    def stop(self, end, calls, fill, line):
        word, said = line
        after = copy.deepcopy(self)
        printed = getattr(after, word)(*said)
        if end != ("rx" if word == "deliver" else "tx") or not records(self, after, word, said, printed):
            self.__dict__ = after.__dict__
            return printed
        # an addition is four calls of the device: write, sync, open the gate, sync. With two it isn't begun to be opened;
        # with three the gate was written, not synced, and rests as the fill
        kept = calls == 4 or calls == 3 and fill == GATE
        if kept:
            # what is told is lost: no answer comes, and no token is handed out
            after.messages, after.replies = after.messages[: len(self.messages)], after.replies[: len(self.replies)]
            self.__dict__ = after.__dict__
        return ["kept" if kept else "lost"]

    def end(self):
        lines = [table.row_text(place, row) for place, row in enumerate(self.rows, 1)]
        lines.append(f"rows {len(self.rows)} tokens {len(self.journal)}")
        return lines + [f"owed {held} {len(self.owed(held))}" for held in self.in_order()]


def records(before, after, word, said, printed):
    """Whether a line's end keeps something in its store, which it does by a record of what changed."""
    first = printed[0].split(" ")[0]
    if word == "deliver":
        return first == "accepted"
    if word == "answer":
        return first == "settled" and printed[0] == "settled 1"
    if word in ["poll", "hand"]:
        return False
    if word == "publish":
        return first == "published" and said[0][0] not in before.published
    if word in ["patch", "put", "status", "operator", "add", "remove"]:
        # they keep something where the stream isn't as it was
        held = said[0] if word == "operator" else said[1]
        return first in ["conf", "state", "added", "removed"] and before.streams[held] != after.streams[held]
    return first in ["made", "gone", "asked"]


def label(token):
    return f"{token['stream']}.{token['number']}"


def published(tokens):
    return [f"published {len(tokens)}"] + [f"token {label(token)}" for token in tokens]


def replay(lines):
    """What the lines print, and the status."""
    world, out = World(), []
    for place, line in enumerate(lines, 1):
        try:
            found = parsed(line)
            if found:
                out += [f"{place} {text}" for text in getattr(world, found[0])(*found[1])]
        except Refused:
            return out + [f"signals: line {place}"], 2
    return out + world.end(), 0


def main():
    data = sys.stdin.buffer.read()
    lines = data.split(b"\n")
    last = lines.pop()
    printed, status = replay([line[:-1] if line.endswith(b"\r") else line for line in lines] + ([last] if last else []))
    print("\n".join(printed + [f"status {status}"]))


if __name__ == "__main__":
    main()
