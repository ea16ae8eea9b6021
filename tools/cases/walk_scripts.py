"""Scripts for `replay` that are drawn by a seed: every word of a line, over few names, so that they meet each other.

What they print is worked out by `models/replay_model.py`.
"""
import json
import random

from models import replay_model
from models.streams import PUSH as BY_PUSH

PUSH = {"method": BY_PUSH, "endpoint_url": "http://rx.example/push"}
EVENTS = [
    ("caep", "session-revoked", {}),
    ("caep", "session-established", {}),
    ("caep", "session-presented", {"ext_id": "é"}),
    ("caep", "assurance-level-change", {"current_level": "aal2", "namespace": "NIST"}),
    ("caep", "device-compliance-change", {"current_status": "not-compliant", "previous_status": "compliant"}),
    ("caep", "credential-change", {"change_type": "revoke", "credential_type": "password"}),
    ("risc", "account-disabled", {"reason": "hijacking"}),
    ("risc", "account-enabled", {}),
    ("risc", "account-credential-change-required", {}),
    ("risc", "identifier-changed", {"new-value": "b@example.com"}),
    ("risc", "opt-out-effective", {}),
    ("risc", "sessions-revoked", {}),
]


def text(value):
    return json.dumps(value, ensure_ascii=False)


def uri(event):
    return f"{replay_model.PREFIX}{event[0]}/event-type/{event[1]}"


class Drawn:
    """Draws lines. It counts what was made, so that most messages and answers that it names are there."""

    def __init__(self, seed, streams, crashing):
        self.rng = random.Random(seed)
        self.most = streams
        self.crashing = crashing
        self.now = 1_700_000_000
        self.lines = []

    def client(self):
        return self.rng.choice(replay_model.CLIENTS)

    def stream(self, client=None):
        # now and then it is another client's
        owner = client if client and self.rng.random() < 0.95 else self.client()
        return f"{owner}-{self.rng.randrange(1, self.most + 1)}"

    def named(self):
        client = self.client()
        return f"{client} {self.stream(client)}"

    def subject(self):
        opaque = {"format": "opaque", "id": f"s-{self.rng.randrange(6)}"}
        email = {"email": f"{self.rng.choice('abc')}@example.com", "format": "email"}
        return self.rng.choice([opaque, opaque, email, {"format": "complex", "session": opaque, "user": email}])

    def want(self):
        wanted = {}
        if self.rng.random() < 0.5:
            wanted["delivery"] = self.rng.choice([{}, PUSH])
        if self.rng.random() < 0.3:
            wanted["description"] = f"number {self.rng.randrange(9)}"
        if self.rng.random() < 0.3:
            wanted["events_requested"] = [uri(event) for event in self.rng.sample(EVENTS, self.rng.randrange(6))]
        return text(wanted)

    def publication(self):
        event = self.rng.choice(EVENTS)
        whom = {"email": "a@example.com", "format": "email"} if event[1] == "identifier-changed" else self.subject()
        named = f"00000000-0000-0000-0000-{self.rng.randrange(400):012}"
        return text({"events": {uri(event): event[2]}, "publish_id": named, "sub_id": whom})

    def place(self, among):
        return self.rng.randrange(max(1, len(among) - 12), len(among) + 1)

    def line(self, world):
        """A line that the model takes."""
        if self.crashing and self.rng.random() < 0.05:
            return f"crash {self.rng.choice(['tx', 'rx'])}"
        line = self.plain_line(world)
        if not self.crashing or line.split(" ")[0] in ["time", "check"] or self.rng.random() < 0.6:
            return line
        # mostly the node whose store the line is for
        own = "rx" if line.startswith("deliver ") else "tx"
        node = own if self.rng.random() < 0.9 else self.rng.choice(["tx", "rx"])
        return f"stop {node} {self.rng.randrange(5)} {self.rng.choice(['00', '5a', 'ff', '01', 'a5'])} {line}"

    def plain_line(self, world):
        self.now += self.rng.randrange(40)
        status = self.rng.choice(["enabled", "enabled", "paused", "disabled"])
        kinds = [
            (6, lambda: f"create {self.client()} {self.want()}"),
            (4, lambda: f"{self.rng.choice(['patch', 'put'])} {self.named()} {self.want()}"),
            (1, lambda: f"delete {self.named()}"),
            (6, lambda: f"status {self.named()} {status}"),
            (6, lambda: f"operator {self.stream()} {status}"),
            (6, lambda: f"{self.rng.choice(['add', 'remove'])} {self.named()} {text(self.subject())}"),
            (6, lambda: f"verify {self.named()}"),
            (12, lambda: f"time {self.now}"),
            (30, lambda: f"publish {self.publication()}"),
            (14, lambda: f"poll {self.named()} {self.rng.randrange(6)}"),
            (14, lambda: f"hand {self.stream()}"),
            (6, lambda: f"check {text(self.subject())}"),
        ]
        if world.messages:
            kinds.append((30, lambda: f"deliver {self.place(world.messages)}"))
        if world.replies:
            kinds.append((25, lambda: f"answer {self.place(world.replies)}"))
        return self.rng.choices([kind for _, kind in kinds], [weight for weight, _ in kinds])[0]()


def script(seed, count, streams, crashing):
    """So many lines, over so many streams a client; crashes among them, where they are asked for."""
    drawn, world = Drawn(seed, streams, crashing), replay_model.World()
    for _ in range(count):
        line = drawn.line(world)
        word, said = replay_model.parsed(line.encode())
        getattr(world, word)(*said)
        drawn.lines.append(line)
    return drawn.lines
