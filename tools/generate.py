#!/usr/bin/env -S python3 -B
"""Makes or checks all that a script writes into the repository.

    python3 -B tools/generate.py check    says which files aren't what is made, and ends with 1 where there is one
    python3 -B tools/generate.py write    writes them

They are the stored runs of cases, of runs and of visits, the tokens of the examples and of `sig_guard`, the picture and the list
of the crates, and the page of wrong bodies. What the scripts of the examples print was worked out by hand: `check` holds it against
the model, and `write` leaves it.
"""
import os
import sys

sys.dont_write_bytecode = True
sys.path.insert(0, os.path.dirname(os.path.abspath(__file__)))
from cases import make_runs, sign_fold, stored_cases, visit_cases
from crates import draw_crates, list_wrong_bodies
from crates.crate_list import TOP
from models import replay_model

MAKERS = [stored_cases, make_runs, visit_cases, sign_fold, draw_crates, list_wrong_bodies]
SCRIPTS = ["first", "replay", "streams"]


def bytes_of(path):
    """What stands at a path, None where nothing does."""
    if not os.path.exists(os.path.join(TOP, path)):
        return None
    with open(os.path.join(TOP, path), "rb") as file:
        return file.read()


def by_hand():
    """What the scripts of the examples print, by the path of what was worked out by hand."""
    for name in SCRIPTS:
        printed, status = replay_model.replay(bytes_of(f"examples/{name}.txt").splitlines())
        if status:
            sys.exit(f"generate: the script examples/{name}.txt ends with {status}")
        yield f"examples/{name}.out.txt", "".join(line + "\n" for line in printed).encode()


def write(made):
    for path, data in made.items():
        if bytes_of(path) != data:
            with open(os.path.join(TOP, path), "wb") as file:
                file.write(data)
            print(f"generate: {path} is written anew")


def main():
    if sys.argv[1:] not in (["check"], ["write"]):
        sys.exit("usage: generate.py check|write")
    made = {path: data for maker in MAKERS for path, data in maker.files().items()}
    if sys.argv[1] == "write":
        write(made)
    held = dict(by_hand())
    faults = [path for path, data in {**made, **held}.items() if bytes_of(path) != data]
    for path in faults:
        print(f"generate: {path} isn't what is made" + (" by the model" if path in held else "; the word write makes it so"))
    if faults:
        sys.exit(1)
    print(f"generate: {len(made)} files as they are made, and {len(held)} by hand as the model has them")


if __name__ == "__main__":
    main()
