#!/usr/bin/env python3
"""What the gate costs, in processor time, from the file that `.ci/run` names at its end.

    python3 -B tools/crates/gate_cost.py kinds FILE    the minutes of each kind, and the crates that cost most
    python3 -B tools/crates/gate_cost.py table FILE    the tables of CONTRIBUTING.md
    python3 -B tools/crates/gate_cost.py write FILE    puts them there

A line of the file is a kind, a name and seconds. `gate_watch.py` measures proofs, tests, wrong bodies and programs by crate, and
the shell what `rt ci` and the wrong bodies took as a whole, and each check after them. What the whole took beyond what was
watched is counted among the programs: their runs and rt itself, and the last half second of each proof.
"""
import os
import re
import sys

sys.dont_write_bytecode = True
sys.path.insert(0, os.path.join(os.path.dirname(os.path.abspath(__file__)), ".."))
from crates.crate_list import TOP, crates

KINDS = {"proofs": "proofs", "tests": "tests", "bodies": "wrong bodies", "programs": "programs", "scripts": "scripts"}
OF_CRATES = ("proofs", "tests", "bodies")
SHOWN = 15
TOLD = 25
PLACE = re.compile(r"(<!-- tools/crates/gate_cost.py -->\n).*?(<!-- end -->\n)", re.S)


def read(path):
    """The seconds by kind and name."""
    found = {}
    with open(path, encoding="utf-8") as file:
        for line in file:
            kind, name, seconds = line.split()
            found[kind, name] = found.get((kind, name), 0) + float(seconds)
    return found


def by_kind(costs):
    total = {kind: sum(spent for (it, _), spent in costs.items() if it == kind) for kind in (*KINDS, "whole")}
    watched = sum(total[kind] for kind in (*OF_CRATES, "programs"))
    total["programs"] += max(0, total.pop("whole") - watched)
    return total


def minutes(seconds):
    return f"{seconds / 60:.1f}"


def tell_kinds(costs, path):
    total = by_kind(costs)
    said = ", ".join(f"{word} {minutes(total[kind])}" for kind, word in KINDS.items())
    print(f"gate: processor minutes: {said}; together {minutes(sum(total.values()))}\ngate: by crate and kind in {path}")
    for kind in OF_CRATES:
        spent = {name: seconds for (it, name), seconds in costs.items() if it == kind}
        dearest = sorted(spent, key=lambda it: -spent[it])[:TOLD]
        print(f"gate: {KINDS[kind]}: {', '.join(f'{it} {minutes(spent[it])}' for it in dearest)}")


def longest_chain(costs):
    """The crates of the chain whose proofs together take longest, lowest first, and their seconds."""
    best = {}
    for name, used in crates().items():
        below = max((best[it] for it in used), key=lambda it: it[0], default=(0, []))
        best[name] = below[0] + costs.get(("proofs", name), 0), [*below[1], name]
    return max(best.values(), key=lambda it: it[0])


def rows(heads, lines):
    yield f"| {' | '.join(heads)} |"
    yield "|---" * len(heads) + "|"
    for line in lines:
        yield f"| {' | '.join(line)} |"


def tables(costs):
    total = by_kind(costs)
    kinds = [*((KINDS[kind], minutes(spent)) for kind, spent in total.items()), ("together", minutes(sum(total.values())))]
    spent = {name: [costs.get((kind, name), 0) for kind in OF_CRATES] for name in crates()}
    dearest = sorted(spent, key=lambda it: -sum(spent[it]))[:SHOWN]
    seconds, chain = longest_chain(costs)
    return "\n".join([
        "Processor minutes of one run from nothing, by kind:", "",
        *rows(["Kind", "Minutes"], kinds), "",
        f"The {SHOWN} crates that cost most:", "",
        *rows(["Crate", *(KINDS[it] for it in OF_CRATES), "together"],
              ([f"`{it}`", *map(minutes, [*spent[it], sum(spent[it])])] for it in dearest)), "",
        f"The longest chain of crates that wait for each other's proofs takes {minutes(seconds)} minutes:",
        f"{', '.join(f'`{it}`' for it in chain)}.", "",
    ])


def write(costs):
    path = os.path.join(TOP, "CONTRIBUTING.md")
    with open(path, encoding="utf-8") as file:
        text = file.read()
    with open(path, "w", encoding="utf-8") as file:
        file.write(PLACE.sub(lambda found: f"{found[1]}{tables(costs)}{found[2]}", text))


def main():
    if len(sys.argv) != 3 or sys.argv[1] not in ("kinds", "table", "write"):
        sys.exit("usage: gate_cost.py kinds|table|write FILE")
    word, path = sys.argv[1:]
    costs = read(path)
    if word == "kinds":
        tell_kinds(costs, path)
    elif word == "table":
        print(tables(costs), end="")
    else:
        write(costs)


if __name__ == "__main__":
    main()
