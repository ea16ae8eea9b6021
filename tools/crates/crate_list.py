"""The crates of crates.txt: which there are, what each stands on, and in which layer."""
import os

TOP = os.path.dirname(os.path.dirname(os.path.dirname(os.path.abspath(__file__))))


def rows():
    """The lines of crates.txt."""
    with open(os.path.join(TOP, "crates.txt"), encoding="utf-8") as file:
        return file.read().splitlines()


def named():
    """Each crate of the repository, in the order of crates.txt, with all that its line names."""
    found = {}
    for line in rows():
        line = line.split("#")[0]
        if ":" in line:
            name, used = line.split(":")
            found[name.split()[0]] = used.split()
    return found


def crates():
    """Each crate of the repository with the crates of the repository that it names."""
    found = named()
    return {name: [one for one in used if one in found] for name, used in found.items()}


def kit():
    """The crates of the kit that some crate names."""
    found = named()
    return {one for used in found.values() for one in used} - set(found)


def layers():
    """Each layer, lowest first: what its heading says, and its crates. A heading is a line of # after an empty line."""
    found, before = [], None
    for line in rows():
        if before == "" and line.startswith("#"):
            found.append((line.strip("# "), []))
        elif ":" in line.split("#")[0]:
            found[-1][1].append(line.split(":")[0].split()[0])
        before = line
    return found


def misplaced():
    """Each crate that names one whose line stands below its own, with that one."""
    found = list(crates())
    return [(name, one) for name, used in crates().items() for one in used if found.index(one) > found.index(name)]


def below(name, used):
    """All crates that a crate stands on."""
    found = set()
    for one in used[name]:
        found |= {one} | below(one, used)
    return found


def direct(name, used):
    """The crates that it stands on and that stand below none of the others."""
    return [one for one in used[name] if not any(one in below(other, used) for other in used[name])]
