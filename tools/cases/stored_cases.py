"""The stored runs of `sig_cases` and `sig_turns`: the lines of the files beside this one and of the modules in MADE, and the
answers to them by `models/answers.py`.

In these files a line that begins with `#` says what the next cases show; one that begins with `> ` is the answer to the
case before it, given by a standard or worked out by hand; any other line is a case. `<%..%>` stands for the text of a
Python expression over the names of `sign_tokens.py`, `rsa_keys.py` and `wrong_signatures.py`, `word`, which spells bytes,
and `b`, raw bytes. Each answer is computed; where it isn't the one that stands by hand, nothing is made.

Nothing here comes from the program under test.
"""
import pathlib
import re
import sys

from cases import call_cases, captured_cases, delivery_cases, http_cases, record_cases, route_cases, rsa_keys, sign_tokens
from cases import stream_cases, walk_calls, walk_cases, wrong_signatures
from models import streams
from models.answers import Answers, Turns, answer_all
from models.values import dump, word

PARTS = [
    "base", "subjects", "events", "tokens", "standards", "effects", "verdicts", "walk", "streams", "messages", "http", "records",
    "delivery", "bodies", "routes", "replies", "rs256", "captured", "lines",
]
TURNS = ["calls", "walk_calls"]
MADE = {
    "captured": captured_cases, "walk": walk_cases, "streams": stream_cases, "http": http_cases, "records": record_cases, "routes": route_cases,
    "delivery": delivery_cases, "calls": call_cases, "walk_calls": walk_calls,
}


def names():
    parts = (rsa_keys, wrong_signatures, sign_tokens)
    known = {name: value for part in parts for name, value in vars(part).items() if not name.startswith("_")}
    known.update({name: token for name, token, _ in sign_tokens.TABLE})
    known.update({name: sign_tokens.signed(sign_tokens.HEADER, made) for name, made, _ in sign_tokens.EXAMPLES})
    return dict(known, word=word, dump=dump, SUPPORTED=streams.PUBLISHED)


def spelled(line, known):
    """The bytes of a line of a part, with its expressions worked out."""
    pieces = re.split(rb"<%(.*?)%>", line)
    for place in range(1, len(pieces), 2):
        value = eval(pieces[place].decode(), known)  # the expressions are this repository's own
        pieces[place] = value if isinstance(value, bytes) else str(value).encode()
    return b"".join(pieces)


def part_lines(part):
    if part in MADE:
        return MADE[part].lines()
    return pathlib.Path(__file__).with_name(part + ".txt").read_bytes().splitlines()


def made(parts, program):
    """The input and its answers; an end of the run where an answer isn't the one that stands by hand."""
    known, lines, by_hand = names(), [], {}
    for part in parts:
        for line in part_lines(part):
            if line.startswith(b"> "):
                by_hand[len(lines)] = spelled(line[2:], known).decode()
            else:
                lines.append(line if line.startswith(b"#") else spelled(line, known))
    data = b"\n".join(lines)
    answers = answer_all(program, data)
    told = dict(answer.split(" ", 1) for answer in answers)
    wrong = [(number, want, told.get(str(number))) for number, want in by_hand.items() if told.get(str(number)) != want]
    if wrong:
        sys.exit("\n".join(f"line {number}: by hand {want}, computed {told}" for number, want, told in wrong))
    return data, "".join(answer + "\n" for answer in answers).encode()


def files():
    """What is stored beside both crates, by its path."""
    found = {}
    for crate, parts, program in ("sig_cases", PARTS, Answers()), ("sig_turns", TURNS, Turns()):
        found[f"crates/{crate}/stdin"], found[f"crates/{crate}/stdout"] = made(parts, program)
    return found
