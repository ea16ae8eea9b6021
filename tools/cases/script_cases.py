"""Whole scripts for `replay`, one for each group of lines, and what each prints.

In `scripts/*.txt` a line that begins with `> ` is what the line before it prints, worked out by hand; every other line is
the script's. `caep:NAME` and `risc:NAME` stand for the URI of a type of event, `id:N` for a UUID that ends with that number,
and `many:C:N` for so many of one character. What a script prints is computed by `models/replay_model.py`; where it isn't what
stands by hand, nothing is made.
"""
import pathlib
import re
import sys

from models import replay_model

FOLDER = pathlib.Path(__file__).resolve().parent / "scripts"
GROUPS = ["streams", "statuses", "subjects", "tokens", "verification", "absent", "sizes", "filters", "names", "crashes"]
PREFIX = "https://schemas.openid.net/secevent/"


def spelled(line):
    line = re.sub(r'"(caep|risc):([a-z-]+)"', rf'"{PREFIX}\1/event-type/\2"', line)
    line = re.sub(r'"many:(\\?.):([0-9]+)"', lambda found: f'"{found[1] * int(found[2])}"', line)
    return re.sub(r'"id:([0-9]+)"', lambda found: f'"00000000-0000-0000-0000-{int(found[1]):012}"', line)


def script(group):
    """Why the script is there, its lines, what it prints, and its status."""
    given, by_hand = [], {}
    for line in (FOLDER / (group + ".txt")).read_text().splitlines():
        if line.startswith("> "):
            by_hand.setdefault(len(given), []).append(line[2:])
        else:
            given.append(spelled(line))
    printed, status = replay_model.replay([line.encode() for line in given])
    for place, texts in by_hand.items():
        told = [line.split(" ", 1)[1] for line in printed if line.split(" ", 1)[0] == str(place)]
        if told != texts:
            sys.exit(f"{group}, line {place}: by hand {texts}, computed {told}")
    return given[0].removeprefix("# "), given, status, "".join(line + "\n" for line in printed)
