"""A receiver whose issuers sign by RS256: its settings, pushes to it, and a fetch. `check_receiver.py` asks for these too.

The tokens are those of `tools/cases/rs256_tokens.txt`, which an implementation of another hand signed, so nothing but Python is
needed here.
"""
import json
import os
import uuid

from cases.captured_cases import captured, claims_in
from cases.key_cases import BAD, GOOD
from cases.rs256_tokens import IDP, KEYS, SECOND_IDP
from cases.sign_tokens import opaque
from checks.receiver_rows import fetched, push, sets
from checks.served import Served, need

REVOKED = {"account": "unseen", "allow": False, "device": "unseen", "known": True, "reset": False, "session": "revoked"}


def receiver_of(program, room):
    """A receiver by the example, which trusts a second issuer with keys of both kinds too."""
    served = Served(program, room, "receive", "receiver_rs256.json", "rx")
    need(served.said["issuers"] == [{"iss": IDP, "keys": KEYS[IDP]}], "the example has other keys than the tokens")
    served.said["issuers"].append({"iss": SECOND_IDP, "keys": KEYS[SECOND_IDP]})
    served.said["principals"].append({"bearer": "change-me-other", "iss": SECOND_IDP})
    served.bearers = {"push": "change-me-push", "other": "change-me-other", "reader": served.said["reader"]}
    served.write(served.settings, served.said)
    return served


def settings(receiver, room):
    """What settings may have as keys. Where all is right, `fetch` ends since there is no peer."""
    path = os.path.join(room, "keys.json")
    rows = [(*row, "are refused", "poll") for row in GOOD]
    rows += [(why, keys, "are taken", f"issuers[0].keys{place}") for why, keys, place in BAD]
    for why, keys, ended, member in rows:
        receiver.write(path, {**receiver.said, "issuers": [{"iss": IDP, "keys": keys}]})
        got = receiver.run("fetch", path, receiver.store, "1")
        need(got == (10, f"signals: settings {member}\n"), f"settings with {why} {ended}: {got}")


def pushes(receiver):
    """Each token is answered as it should be; the subjects of those that were taken, each once."""
    taken = []
    for wanted, bearer, text in captured():
        got = push(receiver, text, bearer)
        need(got == wanted, f"a token that is {wanted} is answered {got}: {text}")
        taken += [json.loads(claims_in(text))["sub_id"]] if wanted == "202" else []
    return [subject for place, subject in enumerate(taken) if subject not in taken[:place]]


def table(receiver, taken):
    """The sessions of the tokens that were taken are revoked, and there is no other row."""
    rows = receiver.ask("GET", "/sessions", bearer="reader")[1]
    need([row["subject"] for row in rows] == taken, f"the rows are {rows}")
    for subject in taken:
        told = receiver.ask("POST", "/sessions/check", subject, "reader")
        need(told == (200, REVOKED), f"a check of {subject} is answered {told}")
    need(receiver.ask("POST", "/sessions/check", opaque("rs-19"), "reader")[1]["known"] is False, "a refused token has an effect")


def fetching(receiver, room):
    """A page with a token that is signed by RS256, and with one whose header names another key."""
    need(receiver.run("init", "rx", os.path.join(room, "fetching"), str(uuid.UUID(int=13))) == (0, ""), "a store isn't made")
    good = next(text for wanted, _, text in captured() if wanted == "202")
    other = next(text for wanted, bearer, text in captured() if (wanted, bearer) == ("invalid_key kid", "push"))
    error = {"rs-9": {"description": "invalid_key", "err": "invalid_key"}}
    ended = fetched(receiver, room, 5, sets(**{"rs-1": good, "rs-9": other}), sets())
    need(ended[0] == (0, "rounds 2 accepted 1 seen 0 refused 1\n"), f"fetch ends {ended[0]}")
    need(ended[1] == [([], {}), (["rs-1"], error)], f"fetch says {ended[1]}")


def rows(program, room):
    """All of these, and what was taken once more after a kill: a journal is read again without keys."""
    receiver = receiver_of(program, room)
    need(receiver.run("init", "rx", receiver.store, str(uuid.UUID(int=12))) == (0, ""), "a store isn't made")
    settings(receiver, room)
    fetching(receiver, room)
    receiver.start()
    taken = pushes(receiver)
    table(receiver, taken)
    receiver.kill()
    receiver.start()
    table(receiver, taken)
    need(pushes(receiver) == taken, "other tokens are taken after a kill")
    table(receiver, taken)
    receiver.kill()
