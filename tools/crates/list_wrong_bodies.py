#!/usr/bin/env python3
"""Lists the wrong bodies that the prover has to refuse, as docs/WRONG_BODIES.md has them.

    python3 -B tools/crates/list_wrong_bodies.py

They are the files crates/NAME/wrong/*.edit and crates/NAME/must-fail/*.edit. `generate.py` writes the page. An edit whose old
text doesn't stand once in its file is told here, in a second, and not by the gate after hours.
"""
import os
import sys
import textwrap

sys.dont_write_bytecode = True
sys.path.insert(0, os.path.join(os.path.dirname(os.path.abspath(__file__)), ".."))
from crates.crate_list import TOP, crates

PAGE = "docs/WRONG_BODIES.md"
HEAD = """# Wrong bodies

This page answers: which mistakes would the contracts catch?

A contract may be too weak, and no proof shows that. So each wrong body below stands in for a right
one, and the gate passes only where the prover refuses it. `tools/crates/list_wrong_bodies.py` makes
this page from the files that it links to. [CONTRIBUTING.md](../CONTRIBUTING.md#wrong-bodies) says
how to write one.

- Wrong bodies: {count}, of {crates} crates.
- Tried by the kit's gate, each alone over a whole proof of its crate: {alone}, of {few} crates. They
  are marked `alone`.
- The others are tried many at once, and each has to be refused by itself.

These have none. Either they hold no code, or they promise nothing by contract that a stored run
doesn't show:

{without}
"""


def applied(crate, edit, rows):
    """Makes the changes of an edit to texts in memory, and gives the files that it changes."""
    texts, path, old = {}, None, None
    for row in rows.splitlines():
        word, _, rest = row.partition(":")
        rest = rest.removeprefix(" ")
        if word == "file":
            path = rest.strip()
            if path not in texts:
                with open(os.path.join(TOP, "crates", crate, path), encoding="utf-8") as file:
                    texts[path] = file.read()
        elif word == "old":
            old = rest
        elif word == "new":
            if texts[path].count(old) != 1:
                raise SystemExit(f"{edit} of {crate}: its old text stands {texts[path].count(old)} times in {path}: {old}")
            texts[path] = texts[path].replace(old, rest)
    return list(texts)


def edits(crate):
    """The wrong bodies of a crate: the name, the folder, and the files that it changes."""
    for folder in "wrong", "must-fail":
        path = os.path.join(TOP, "crates", crate, folder)
        for name in sorted(os.listdir(path)) if os.path.isdir(path) else []:
            if name.endswith(".edit"):
                with open(os.path.join(path, name), encoding="utf-8") as file:
                    yield name.removesuffix(".edit"), folder, applied(crate, name, file.read())


def line(crate, name, folder, changed):
    alone = ", alone" if folder == "must-fail" else ""
    files = ", ".join(f"`{path}`" for path in changed)
    return f"- [{name.replace('-', ' ')}](../crates/{crate}/{folder}/{name}.edit) ({files}{alone})"


def page():
    found = {crate: sorted(edits(crate)) for crate in crates()}
    having = {crate: rows for crate, rows in found.items() if rows}
    alone = {crate: sum(row[1] == "must-fail" for row in rows) for crate, rows in having.items()}
    head = HEAD.format(
        count=sum(map(len, having.values())), crates=len(having), alone=sum(alone.values()), few=sum(map(bool, alone.values())),
        without=textwrap.fill(", ".join(f"`{crate}`" for crate in found if crate not in having) + ".", 100))
    parts = [f"## {crate}\n\n" + "\n".join(line(crate, *row) for row in rows) + "\n" for crate, rows in having.items()]
    return "\n".join([head, *parts])


def files():
    """The page, by its path."""
    return {PAGE: page().encode()}


if __name__ == "__main__":
    print(page(), end="")
