"""Calls at a transmitter's core that are drawn by a seed, over few names, so that they meet each other.

Their answers are those of `models/calls.py`, which goes over all tokens that were ever made for each call.
"""
import random

from cases.call_cases import by_push, call, operate, publish, rules, settle
from models import calls
from cases.walk_scripts import EVENTS, uri

SEED = 21
DRAWN = 900
CODES = ["invalid_key", "invalid_request", "access_denied", "authentication_failed", ""]
TIMES = 40
RULES = [{"defaults": "NONE"}, {"defaults": "ALL", "interval": 0}, {"defaults": "NONE", "interval": 90, "issuer": "https://b.example"}]


class Drawn:
    """Draws calls over what the model has, so that most of what they name is there."""

    def __init__(self, seed):
        self.rng = random.Random(seed)
        self.core, self.now = calls.Core(), 1_700_000_000

    def client(self):
        return self.rng.choice(["acme", "zeta"])

    def stream(self):
        there = list(self.core.streams)
        return self.rng.choice(there) if there and self.rng.random() < 0.95 else f"{self.client()}-{self.rng.randrange(30)}"

    def subject(self):
        opaque = {"format": "opaque", "id": f"s-{self.rng.randrange(4)}"}
        email = {"email": f"{self.rng.choice('ab')}@example.com", "format": "email"}
        return self.rng.choice([opaque, email, {"format": "complex", "user": email}, {"format": "complex", "session": opaque, "user": email}])

    def want(self):
        wanted = {}
        if self.rng.random() < 0.5:
            wanted["delivery"] = self.rng.choice([{}, {}, by_push("http://a/b"), by_push("https://c:8443", authorization_header="d")])
        if self.rng.random() < 0.2:
            wanted["description"] = f"number {self.rng.randrange(9)}"
        if self.rng.random() < 0.2:
            wanted["events_requested"] = [uri(event) for event in self.rng.sample(EVENTS, 6)]
        return wanted

    def status(self):
        reason = {"reason": f"reason {self.rng.randrange(9)}"} if self.rng.random() < 0.5 else {}
        return {"status": self.rng.choice(["enabled", "enabled", "paused", "disabled"]), **reason}

    def token(self):
        """One of the last tokens, owed or not, and where a stream has none a number that none has."""
        made = self.core.tokens[-60:]
        return self.rng.choice(made) if made and self.rng.random() < 0.95 else None

    def jti(self):
        found = self.token()
        return found["claims"]["jti"] if found else f"{calls.STORE}.acme-1.{self.rng.randrange(2000)}"

    def poll(self):
        errors = [[self.jti(), self.rng.choice(CODES)] for _ in range(self.rng.randrange(4))]
        ask = {"acks": [self.jti() for _ in range(self.rng.randrange(6))], "errors": errors, "max": self.rng.choice([0, 1, 1, 2, 3])}
        return call("poll", self.stream(), ask=ask)

    def settle(self):
        found = self.token()
        outcome = self.rng.choice([{"outcome": "accepted"}, {"outcome": "keep"}, {"outcome": "reported", "code": self.rng.choice(CODES)}])
        return settle(found["held"]["stream"], found["number"], **outcome) if found else settle(self.stream(), 2000, **outcome)

    def publish(self):
        event = self.rng.choice(EVENTS)
        whom = {"email": "a@example.com", "format": "email"} if event[1] == "identifier-changed" else self.subject()
        return publish(self.rng.randrange(300), whom, uri(event), event[2], at=self.now)

    def line(self):
        self.now += self.rng.randrange(TIMES)
        several = [self.stream() for _ in range(self.rng.randrange(3))]
        kinds = [
            (6, lambda: call("create", client=self.client(), want=self.want())),
            (6, lambda: call(self.rng.choice(["patch", "put"]), self.stream(), want=self.want())),
            (1, lambda: call("delete", self.stream())),
            (3, lambda: call(self.rng.choice(["read", "get_status"]), self.stream())),
            (6, lambda: call("set_status", self.stream(), **self.status())),
            (6, lambda: operate("operator_status", self.stream(), at=self.now, **self.status())),
            (1, lambda: operate("operator_delete", self.stream())),
            (4, lambda: call("streams", **{"from": self.rng.randrange(6)})),
            (4, lambda: call("refused", **{"from": self.rng.randrange(9)})),
            (2, lambda: call("figures")),
            (14, lambda: call(self.rng.choice(["add", "add", "remove"]), self.stream(), subject=self.subject())),
            (8, lambda: call("verify", self.stream(), at=self.now, **({"state": "s"} if self.rng.random() < 0.5 else {}))),
            (40, self.publish),
            (30, self.poll),
            (30, self.settle),
            (3, lambda: call("hand", streams=several)),
            (2, lambda: operate("deliver", self.stream())),
            (12, lambda: f"owed {self.stream()}"),
        ]
        return self.rng.choices([kind for _, kind in kinds], [weight for weight, _ in kinds])[0]()

    def take(self, line, now):
        word, _, rest = line.encode().partition(b" ")
        if word == b"call":
            calls.answer(self.core, now, rest)


def lines():
    """The calls, a third of them under each of three rules."""
    drawn, out = Drawn(SEED), ["# Calls that are drawn, over the streams of two clients, under rules that change.", "clear"]
    for place in range(DRAWN):
        if place % (DRAWN // len(RULES)) == 0:
            out.append(rules(**RULES[place * len(RULES) // DRAWN]))
            now = calls.read_rules(calls.read_case(out[-1].encode().partition(b" ")[2]))
        out.append(drawn.line())
        drawn.take(out[-1], now)
    return [line.encode() for line in out + ["clear"]]
