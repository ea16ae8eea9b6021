#!/usr/bin/env -S python3 -B
"""Both servers over real sockets and files: a transmitter that pushes to a receiver, another receiver that fetches, and an application.

The built program serves a transmitter and a receiver by the settings of `examples/`. An operator publishes events of many types
about a few subjects; the transmitter pushes them to the first receiver, and `fetch` brings them to a second one. An issuer of
another hand pushes tokens of its own. Either end, or both, is killed with no warning (SIGKILL) at random moments, among them while a
publication, a push or a fetch is under way. At the end each token that was acknowledged stands in its receiver's journal once, so does each
that was published, and what the receiver tells of its session table is the fold of its journal, by a model that was written from
docs/FORMATS.md alone (`tools/models/table.py`).

    python3 -B tools/checks/check_receiver.py [PROGRAM [ROUNDS]]

Before that it asks for single answers, each as worked out by hand (`receiver_rows.py`, and `rs256_rows.py` where issuers sign by
RS256). Without a built program, or where no socket can be opened, it says that it is passed over.
"""
import base64
import http.client
import json
import os
import random
import subprocess
import sys
import tempfile
import threading
import time
import uuid

sys.dont_write_bytecode = True
sys.path.insert(0, os.path.join(os.path.dirname(os.path.abspath(__file__)), ".."))
from checks import receiver_rows, rs256_rows
from models.table import take, verdict
from checks.check_server import Server
from checks.receiver_rows import push, token
from checks.served import Served, built_program, need
from checks.server_rows import PUSH

CAEP = "https://schemas.openid.net/secevent/caep/event-type/"
RISC = "https://schemas.openid.net/secevent/risc/event-type/"
# Events that are published, and their payloads (CAEP 1.0, section 3; RISC 1.0, section 2).
EVENTS = [
    (CAEP + "session-revoked", {}),
    (CAEP + "session-established", {}),
    (CAEP + "session-presented", {}),
    (CAEP + "credential-change", {"credential_type": "password", "change_type": "revoke"}),
    (CAEP + "credential-change", {"credential_type": "password", "change_type": "update"}),
    (CAEP + "device-compliance-change", {"previous_status": "compliant", "current_status": "not-compliant"}),
    (CAEP + "device-compliance-change", {"previous_status": "not-compliant", "current_status": "compliant"}),
    (RISC + "account-disabled", {}),
    (RISC + "account-enabled", {}),
    (RISC + "account-credential-change-required", {}),
    (RISC + "sessions-revoked", {}),
]
USERS = [{"format": "opaque", "id": f"u-{number}"} for number in range(4)]
SESSIONS = [
    {"format": "complex", "user": user, "session": {"format": "opaque", "id": f"s-{number}"}}
    for user in USERS
    for number in range(3)
]


class Receiver(Served):
    """A receiver, whose settings trust a second issuer too."""

    def __init__(self, program, room, store="rx"):
        super().__init__(program, room, "receive", "receiver.json", store)
        self.settings = os.path.join(room, f"{store}.json")
        key = self.said["issuers"][0]["keys"]
        self.said["issuers"].append({"iss": "https://other.example", "keys": key})
        self.said["principals"].append({"bearer": "change-me-other", "iss": "https://other.example"})
        self.bearers = {"push": "change-me-push", "other": "change-me-other", "reader": self.said["reader"]}
        self.write(self.settings, self.said)

    def journal(self):
        """The tokens in the journal, in order (docs/FORMATS.md, the files of a store and records)."""
        with open(f"{self.store}.a", "rb") as file:
            data = file.read()
        at, tokens = 35 + int.from_bytes(data[31:35], "big"), []
        while data[at] == 0x5A:
            size = int.from_bytes(data[at + 1 : at + 5], "big")
            record = data[at + 5 : at + 5 + size]
            need(record[0] == 1 and int.from_bytes(record[1:5], "big") == size - 5, "a record has another form")
            tokens.append(record[5:].decode())
            at += 5 + size
        return tokens

    def rows(self):
        """The session table, page by page."""
        rows, page = [], True
        while page:
            page = self.ask("GET", f"/sessions?from={len(rows)}", bearer="reader")[1]
            rows += page
        return rows


def claims_in(text):
    part = text.split(".")[1]
    return json.loads(base64.urlsafe_b64decode(part + "=" * (-len(part) % 4)))


def pairs_of(tokens):
    return [(claims["iss"], claims["jti"]) for claims in map(claims_in, tokens)]


def folded(tokens):
    """The session table that the tokens make, by the model."""
    rows = []
    for claims in map(claims_in, tokens):
        take(rows, claims["sub_id"], claims["events"])
    return rows


def as_told(row):
    """A row of the model as `/sessions` has it."""
    told = {name: row[name] for name in ("session", "account", "device", "opt", "subject")}
    told.update(reset=row["reset"] == "yes", stale=row["stale"] == "yes")
    return told if row["level"] == "-" else {**told, "level": json.loads(row["level"])}


def check_table(receiver):
    """What a running receiver tells is the fold of its journal, and each pair stands there once."""
    tokens = receiver.journal()
    need(len(set(pairs_of(tokens))) == len(tokens), "a journal has a token twice")
    rows = folded(tokens)
    need(receiver.rows() == [as_told(row) for row in rows], "the table isn't the fold of the journal")
    for subject in USERS + SESSIONS:
        status, told = receiver.ask("POST", "/sessions/check", subject, "reader")
        need((status, told) == (200, verdict(rows, subject)), f"a verdict on {subject} is {told}")
    return tokens


class Story:
    """Both ends, and what was told of them."""

    def __init__(self, program, room):
        self.draw = random.Random(8935)
        self.transmitter, self.receiver = Server(program, room), Receiver(program, room)
        self.fetcher = Receiver(program, room, "fetcher")
        for served, kind in (self.transmitter, "tx"), (self.receiver, "rx"), (self.fetcher, "rx"):
            need(served.run("init", kind, served.store, str(uuid.uuid4())) == (0, ""), "a store isn't made")
        self.transmitter.start()
        self.receiver.start()
        delivery = {"method": PUSH, "endpoint_url": f"http://127.0.0.1:{self.receiver.port}/push", "authorization_header": "Bearer change-me-push"}
        status, pushed = self.transmitter.ask("POST", "/ssf/stream", {"delivery": delivery})
        need(status == 201, f"a push stream is answered {status} {pushed}")
        status, polled = self.transmitter.ask("POST", "/ssf/stream", {})
        need(status == 201, f"a poll stream is answered {status} {polled}")
        self.pushed, self.polled = pushed["stream_id"], polled["stream_id"]
        poll = {"bearer": self.transmitter.client, "iss": "https://idp.example", "url": f"http://127.0.0.1:{self.transmitter.port}/poll/{self.polled}"}
        self.fetcher.write(self.fetcher.settings, {**self.fetcher.said, "poll": poll})
        # by stream: the identifiers that the transmitter told; and what the receiver acknowledged to the other issuer
        self.told, self.acknowledged, self.number, self.kills = {self.pushed: set(), self.polled: set()}, set(), 0, 0

    def publication(self):
        uri, payload = self.draw.choice(EVENTS)
        self.number += 1
        return {"publish_id": str(uuid.UUID(int=self.number)), "sub_id": self.draw.choice(USERS + SESSIONS), "events": {uri: payload}}

    def publish(self, body):
        status, answer = self.transmitter.ask("POST", "/operator/publish", body, bearer="operator")
        need(status == 200 and len(answer["tokens"]) == 2, f"a publication is answered {status} {answer}")
        for made in answer["tokens"]:
            self.told[made["stream_id"]].add(made["jti"])

    def bring(self):
        """A token of the other issuer, which is acknowledged where it is answered 202."""
        uri, payload = self.draw.choice(EVENTS)
        jti = f"other-{self.number}-{self.draw.randrange(1 << 30)}"
        text = token(jti, self.draw.choice(USERS + SESSIONS), iss="https://other.example", events={uri: payload})
        need(push(self.receiver, text, "other") == "202", "a good token is refused")
        self.acknowledged.add(("https://other.example", jti))
        need(push(self.receiver, text, "other") == "202", "a repeat is refused")

    def fetch(self, rounds="3"):
        words = [self.fetcher.program, "fetch", self.fetcher.settings, self.fetcher.store, rounds]
        return subprocess.Popen(words, stdout=subprocess.PIPE, stderr=subprocess.DEVNULL)

    def fetch_whole(self):
        out, _ = self.fetch().communicate(timeout=60)
        need(out.startswith(b"rounds ") and out.endswith(b" refused 0\n"), f"fetch says {out!r}")

    def round(self):
        """Some publications, pushes and fetches, and then a kill while more of them are under way."""
        for _ in range(self.draw.randrange(1, 6)):
            self.publish(self.publication())
        for _ in range(self.draw.randrange(3)):
            self.bring()
        if self.draw.random() < 0.5:
            self.fetch_whole()
        body, fetching = self.publication(), self.fetch() if self.draw.random() < 0.5 else None
        late = [threading.Thread(target=quietly, args=(self.publish, body)), threading.Thread(target=quietly, args=(self.bring,))]
        for one in late:
            one.start()
        time.sleep(self.draw.random() / 60)
        killed = self.draw.choice([[self.transmitter], [self.receiver], [self.transmitter, self.receiver]])
        for served in killed:
            served.kill()
            self.kills += 1
        if fetching:
            fetching.kill()
            fetching.communicate()
            self.kills += 1
        for served in killed:
            served.start()
        for one in late:
            one.join()
        # taken whole or not at all, and asked again
        self.publish(body)
        for iss, jti in self.acknowledged:
            need((iss, jti) in set(pairs_of(self.receiver.journal())), f"{jti} was acknowledged, and isn't in the journal")

    def settle(self):
        """Pushes and fetches until nothing is left to bring."""
        deadline = time.time() + 60
        wanted = self.told[self.pushed]
        while not wanted <= {jti for _, jti in pairs_of(self.receiver.journal())}:
            need(time.time() < deadline, "not all tokens are pushed")
            self.transmitter.ask("POST", "/operator/deliver", {"stream_id": self.pushed}, bearer="operator")
        while True:
            out, _ = self.fetch("1000").communicate(timeout=60)
            need(out.startswith(b"rounds ") and out.endswith(b" refused 0\n"), f"fetch says {out!r}")
            if out.startswith(b"rounds 1 "):
                break
        need(self.transmitter.ask("POST", f"/poll/{self.polled}", {})[1]["sets"] == {}, "after a fetch something is owed")

    def end(self):
        """Each end tells what it has to."""
        self.settle()
        tokens = check_table(self.receiver)
        pairs = set(pairs_of(tokens))
        need(self.acknowledged <= pairs, "a token that was acknowledged isn't in the journal")
        pushed = {jti for iss, jti in pairs if iss == "https://idp.example"}
        need(pushed == self.told[self.pushed], "other tokens were pushed than were made")
        self.transmitter.kill()
        self.receiver.kill()
        fetched = {jti for _, jti in pairs_of(self.fetcher.journal())}
        need(fetched == self.told[self.polled], "other tokens were fetched than were made")
        need(len(self.fetcher.journal()) == len(fetched), "a token was fetched twice")
        self.fetcher.start()
        check_table(self.fetcher)
        self.fetcher.kill()
        return f"{self.kills} kills, {self.number} publications, {len(pushed)} pushed, {len(fetched)} fetched, {len(self.acknowledged)} of another issuer"


def quietly(call, *given):
    try:
        call(*given)
    except (OSError, http.client.HTTPException):
        pass


def owed_by_fetch(program, room):
    """A stream that owes 33 tokens is fetched in three rounds of at most 32, and owes nothing then."""
    story = Story(program, room)
    for number in range(33):
        story.publish({**story.publication(), "sub_id": USERS[number % 4]})
    out, _ = story.fetch("5").communicate(timeout=60)
    need(out == b"rounds 3 accepted 33 seen 0 refused 0\n", f"33 tokens are fetched so: {out!r}")
    need(story.transmitter.ask("POST", f"/poll/{story.polled}", {})[1] == {"moreAvailable": False, "sets": {}}, "something is owed")
    story.transmitter.kill()
    story.receiver.kill()


def main():
    program = built_program()
    rounds = int(sys.argv[2]) if len(sys.argv) > 2 else 12
    if not program:
        return
    with tempfile.TemporaryDirectory() as room:
        receiver_rows.rows(Receiver(program, room), room)
    with tempfile.TemporaryDirectory() as room:
        rs256_rows.rows(program, room)
    with tempfile.TemporaryDirectory() as room:
        owed_by_fetch(program, room)
    with tempfile.TemporaryDirectory() as room:
        story = Story(program, room)
        for _ in range(rounds):
            story.round()
        print(f"{story.end()}: all as acknowledged")


if __name__ == "__main__":
    main()
