#!/usr/bin/env python3
"""Draws the crates by the layers of crates.txt: each stands above all that it stands on.

    python3 -B tools/crates/draw_crates.py

An arrow leads to the crates that it stands on directly; those that stand below one of these are left out. `generate.py` puts the
drawing into docs/ARCHITECTURE.md, and a list of the crates by their layers into docs/PROMISES.md.
"""
import os
import re
import sys
import textwrap

sys.dont_write_bytecode = True
sys.path.insert(0, os.path.join(os.path.dirname(os.path.abspath(__file__)), ".."))
from crates.crate_list import TOP, crates, direct, layers

PICTURE = re.compile(r"<!-- tools/crates/draw_crates.py -->\n```text\n.*?```\n", re.S)
INDEX = re.compile(r"<!-- tools/crates/draw_crates.py -->\n.*?<!-- end -->\n", re.S)


def drawing():
    used = crates()
    width = max(map(len, used))
    lines = []
    for heading, names in reversed(layers()):
        lines += [""] * bool(lines) + [heading]
        for name in reversed(names):
            arrow = " -> " + ", ".join(direct(name, used)) if used[name] else ""
            lines.append(f"  {name:{width}}{arrow}".rstrip())
    return "\n".join(lines) + "\n"


def framed():
    """The drawing as it stands in the document."""
    return f"<!-- tools/crates/draw_crates.py -->\n```text\n{drawing()}```\n"


def index():
    """The crates by their layers, each with a link to its section."""
    lines = []
    for heading, names in layers():
        links = ", ".join(f"[{name}](#{name})" for name in names)
        how = {"width": 100, "subsequent_indent": "  ", "break_on_hyphens": False, "break_long_words": False}
        lines.append(textwrap.fill(f"- {heading.partition(':')[0]}: {links}", **how) + "\n")
    return f"<!-- tools/crates/draw_crates.py -->\n{''.join(lines)}<!-- end -->\n"


def files():
    """The documents with the drawing and the list in their places, by their paths."""
    found = {}
    for path, place, made in ("docs/ARCHITECTURE.md", PICTURE, framed()), ("docs/PROMISES.md", INDEX, index()):
        with open(os.path.join(TOP, path), encoding="utf-8") as file:
            found[path] = place.sub(lambda _, made=made: made, file.read()).encode()
    return found


if __name__ == "__main__":
    print(drawing(), end="")
