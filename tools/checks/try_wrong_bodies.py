"""Tries the wrong bodies of crates, many at once: python3 -B tools/checks/try_wrong_bodies.py [--anew] [--control] [NAME..]

A wrong body is an edit in crates/NAME/wrong/, in the form of must-fail edits (CONTRIBUTING.md). The prover has to refuse
each, or a contract is too weak. With no name the wrong bodies of all crates are tried, as the gate does, once `rt ci`
has proved them; with names those of these crates, once `rt ci NAME` has.

A function's proof rests on its own body and on the contracts of what it calls, never on their bodies. So wrong bodies of
different functions of a crate go into one copy of it, in which every other function has no body left to prove, and one
check of the functions that are wrong has to refuse each by itself: by a goal of its own that isn't proved, or by an
error in its own proof. That it calls something unproved shows nothing. A second wrong body of a function stands in the copy as
a further function after it, with its contract and its proof; where that can't be, as for a method of a trait, it goes into a
further round. What stands in no function, or was refused by itself in no round, is tried alone over the whole crate, as the
kit tries a must-fail edit; a round that doesn't compile is split.

What was refused is kept by the sums of all that it stands on: the kit, this script, the crate, the libraries below it, and
the edit. --anew tries all. --control makes the rounds without the edits, and fails where a function is refused all the same.

Where the kit keeps what its gate proved, the libraries are taken from there, and what was refused is kept beside them. Where
it keeps nothing, they are taken from out/ of each crate, where `rt ci` or `rt lib` left them.
"""
import copy
import hashlib
import importlib.machinery
import importlib.util
import json
import os
import pathlib
import re
import resource
import shutil
import sys
import tempfile

ROOT = pathlib.Path(__file__).resolve().parents[2]
sys.path.insert(0, str(ROOT / "tools"))
from crates.build_program import summed_once

FUNCTION = re.compile(r"( *)(?:pub(?:\([^)]*\))? )?(?:final )?(?:unsafe )?fn (\w+)")
PARTS = ("src", "specs", "proofs")
# The functions that keep their bodies in each copy.
KEPT_BODIES = ("drop", "main")
# What an error says where a proof names what isn't there. Where the wrong body took it away, that says little of the contract.
NAMES = re.compile(r"not in scope|has no |not admitted")
ONLY_NAMES = "only since its proof names what is gone"


def kit_script():
    """The kit's own command as a module: its crates, libraries, edits and lanes are taken from there."""
    sys.dont_write_bytecode = True
    loader = importlib.machinery.SourceFileLoader("rt_of_kit", os.path.realpath(shutil.which("rt")))
    made = importlib.util.module_from_spec(importlib.util.spec_from_loader("rt_of_kit", loader))
    sys.modules["rt_of_kit"] = made
    loader.exec_module(made)
    return made


rt = kit_script()


def bodies(rows):
    """The name, the first row, the row of the opening brace and the last row of each function whose body has rows of its own."""
    for at, row in enumerate(rows):
        if found := FUNCTION.match(row):
            opens = opening(rows, at, found[1])
            last = opens and next((it for it in range(opens + 1, len(rows)) if rows[it] == found[1] + "}"), None)
            if last:
                yield found[2], at, opens, last


def opening(rows, at, indent):
    """The row with the brace at which the body of the function begins, None where no such row belongs to it."""
    has_clause = False
    for it in range(at, len(rows)):
        row = rows[it]
        has_clause = has_clause or bool(re.match(rf"{indent}    (requires|ensures|ghost)\b", row))
        if row == indent + "{" or row.endswith("{") and not has_clause and re.match(rf"{indent}\S", row):
            return it
        if row.endswith((";", "{}")) or row == indent + "}" or it > at and FUNCTION.match(row):
            return None
    return None


def emptied(text, wrong):
    """The text with no body left in functions, but in those with one of these rows."""
    rows = text.split("\n")
    for name, at, opens, last in reversed([*bodies(rows)]):
        if not keeps_body(rows, name, at) and not any(at <= it <= last for it in wrong):
            rows[opens + 1 : last] = [rows[last][:-1] + "    unreachable!()"]
    return "\n".join(rows)


def keeps_body(rows, name, at):
    """Whether the function has to take a value apart, or is marked as one of several that call one another."""
    return name in KEPT_BODIES or rows[at - 1].strip().startswith("#[cycle")


def block_around(rows, at):
    """The head of the `impl` or `trait` in which this row stands, in one line; empty where it stands in none."""
    begins = next((it for it in range(at, -1, -1) if re.match(r"(pub(\([^)]*\))? )?(impl|trait)\b", rows[it])), None)
    ends = next((it for it in range(begins or 0, at) if rows[it].endswith("{")), at)
    return " ".join(row.strip() for row in rows[begins : ends + 1]) if begins is not None else ""


class Function:
    """A function in which a wrong body stands: its module, its type or the like, and its name."""

    def __init__(self, path, rows, at):
        self.path, self.name = path, FUNCTION.match(rows[at])[2]
        self.module = re.sub(r"(^|/)(lib|main|mod)$", "", path[len("src/") : -len(".rt")]).replace("/", "::")
        self.owner = block_around(rows, at) if rows[at].startswith(" ") else ""

    def key(self):
        return self.path, self.owner, self.name

    def again(self, number):
        """What stands for it in a copy that has it once more."""
        made = copy.copy(self)
        made.name = f"{self.name}_again_{number}" if number else self.name
        return made

    def rows_in(self, rows):
        """The row with its name, with the attributes above it, and its last row."""
        at, last = next((at, last) for name, at, _, last in bodies(rows) if name == self.name and self.stands_at(rows, at))
        first = at
        while rows[first - 1].strip().startswith("#["):
            first -= 1
        return first, at, last

    def stands_at(self, rows, at):
        return self.owner == (block_around(rows, at) if rows[at].startswith(" ") else "")

    def may_repeat(self, rows):
        """Whether a copy of it may stand beside it: no method of a trait, and nothing that calls itself."""
        first, at, last = self.rows_in(rows)
        inside = "\n".join(rows[at + 1 : last])
        is_own = bool(re.search(rf"\b{self.name}\(", inside)) or "#[cycle" in "".join(rows[first:at])
        return not self.of()[1] and self.name not in KEPT_BODIES and not is_own

    def of(self):
        """The words that name the type and the trait of the block around it, empty ones where there is none."""
        head = self.owner
        while re.search(r"<[^<>]*>", head):
            head = re.sub(r"<[^<>]*>", "", head)
        head = re.sub(r"^(pub(\([^)]*\))? )?(impl|trait)\b", "", re.split(r" where\b| \{", head)[0])
        trait, _, kind = head.strip().rpartition(" for ")
        return [re.sub(r"\W", "", it.split("::")[-1].split(":")[0]) for it in (kind, trait)] if head else ["", ""]

    def asked(self, by_module):
        """The path by which a check is asked for it: its module's, or its own, of a method the end of that alone."""
        return self.module if by_module and self.module else "::".join(it for it in ("".join(self.of()) or self.module, self.name) if it)

    def is_named(self, said):
        """Whether a check names it, or a closure in it, so."""
        start = re.escape(self.module) + "::" if self.module else ""
        if not self.owner:
            return bool(re.fullmatch(rf"{start}({self.name}|fn::{self.name}::.*)", said))
        # (a method is named by its type and what it is a method of, and a trait's parameters stand last)
        kind, trait = self.of()
        owner = kind[:1].upper() + kind[1:] + (rf"{trait}\w*" if trait else "")
        return bool(re.fullmatch(rf"(\w+::)*{owner}::{self.name}|{start}(\w+::)*fn::(\w+::)*{self.name}::.*", said))

    def named_by(self, said):
        """What a check says of it and of the closures in it; none where it is not the only function that may be named so."""
        found = [it for it in said if self.is_named(it)]
        return found if sum("fn::" not in it for it in found) == 1 else []


class Wrong:
    """A wrong body: its file, and the functions in which it stands, none where a part of it stands in no function."""

    def __init__(self, crate, file):
        self.file, self.label = file, f"{crate.name}/{os.path.basename(file)}"
        self.texts, self.why = rt.read_edit(file, crate.folder)
        self.functions = [] if self.why else functions_of(pathlib.Path(file).read_text(), crate.folder)
        # which of the wrong bodies of its function it is in its round, counted from 0
        self.number = 0

    def named(self):
        """Its functions, as the copy names them."""
        return [it.again(self.number) for it in self.functions]

    def pairs(self):
        """Each file that it changes, with the old text and the new one."""
        path, old = None, None
        for line in pathlib.Path(self.file).read_text().split("\n"):
            if line.startswith("file: "):
                path = line[len("file: ") :].strip()
            elif line.startswith("old: "):
                old = line[len("old: ") :]
            elif line.startswith("new:"):
                yield path, old, re.sub(r"^ ", "", line[len("new:") :], count=1)

    def may_repeat(self, texts):
        """Whether it may stand in a copy of its function: all that it changes stands there."""
        if len(self.functions) != 1:
            return False
        rows = texts[self.functions[0].path].split("\n")
        first, _, last = self.functions[0].rows_in(rows)
        inside = "\n".join(rows[first : last + 1])
        return self.functions[0].may_repeat(rows) and all(old in inside for _, old, _ in self.pairs())


def functions_of(edit, folder):
    """The functions in which the edit's old texts stand, none where one stands elsewhere."""
    path, found = None, {}
    for line in edit.split("\n"):
        if line.startswith("file: "):
            path = line[len("file: ") :].strip()
        elif line.startswith("old: "):
            rows = pathlib.Path(folder, path).read_text().split("\n")
            old = line[len("old: ") :]
            place = next((it for it, row in enumerate(rows) if old in row), None)
            around = [at for _, at, _, last in bodies(rows) if place is not None and at <= place <= last]
            if old.startswith("use "):
                continue
            if not path.startswith("src/") or not around:
                return []
            made = Function(path, rows, around[-1])
            found[made.key()] = made
    return [*found.values()]


def texts_of(crate):
    return {os.path.relpath(it, crate.folder): it.read_text() for it in pathlib.Path(crate.folder, "src").rglob("*.rt")}


def of_one_round(crate, left):
    """As many wrong bodies as can stand in one copy, in their order."""
    texts, taken, used = texts_of(crate), [], {}
    for it in left:
        keys = [function.key() for function in it.functions]
        it.number = max(used.get(key, 0) for key in keys)
        if not it.number or it.may_repeat(texts):
            used.update({key: it.number + 1 for key in keys})
            taken.append(it)
    return taken


def together(crate, tried, is_control):
    """The texts of a copy with these wrong bodies and no other body, and those of them that could be put in."""
    given = texts_of(crate)
    texts, rows, taken = dict(given), {it: set() for it in given}, []
    for wrong in [it for it in tried if not it.number]:
        pairs = [*wrong.pairs()]
        if all(texts[it].count(was) == 1 for it, was, _ in pairs):
            taken.append(wrong)
            for it, was, new in pairs:
                rows[it].add(texts[it][: texts[it].index(was)].count("\n"))
                texts[it] = texts[it] if is_control else texts[it].replace(was, new)
    made = {it: emptied(text, rows[it]) for it, text in texts.items()}
    for wrong in [it for it in tried if it.number]:
        path = wrong.functions[0].path
        made[path] = with_further(made[path], given[path], wrong, is_control)
        taken.append(wrong)
    return made, taken


def with_further(text, given, wrong, is_control):
    """The text with the function of a wrong body once more, after it, as that makes it."""
    function, again, rows = wrong.functions[0], wrong.named()[0], given.split("\n")
    first, at, last = function.rows_in(rows)
    rows[at] = re.sub(rf"\bfn {function.name}\b", f"fn {again.name}", rows[at], count=1)
    body = "\n".join(rows[first : last + 1])
    for _, was, new in [] if is_control else wrong.pairs():
        body = body.replace(was, new)
    rows = text.split("\n")
    last = function.rows_in(rows)[2]
    return "\n".join([*rows[: last + 1], "", *body.split("\n"), *rows[last + 1 :]])


def refusals(said, name):
    """The functions that a check refuses for what stands in them, with what it says."""
    found = {}
    for it in re.finditer(rf"(?m)^fn {name}::(\S+): (not proved|no proof: )(.*)$", said):
        folder = re.escape(it[1].replace("::", "/"))
        errors = re.findall(rf"(?m)^(?:\./)?proofs/{folder}/\S+: error: (.*)$", said)
        own = [one for one in errors if not NAMES.search(one)]
        if "expected answers" in it[3]:
            goals = re.sub(r"^expected answers in \S+; |; it (calls|passes) .*", "", it[3])
            # (which a body that was taken away leaves open)
            if goals != "`search` did not prove `unreachable-requires`":
                found[it[1]] = goals
        elif own:
            found[it[1]] = own[0]
        elif gone := [one for one in errors if f"proofs.{it[1].replace('::', '.')}." in one]:
            found[it[1]] = f"{ONLY_NAMES}: {gone[0]}"
    return found


def compiles(ran):
    return ran.returncode in (1, 3) and not re.search(r"(?m)\berror\[[\w-]+\]", ran.stdout)


def checked(crate, texts, taken, by_module):
    asked = sorted({function.asked(by_module) for it in taken for function in it.named()})
    with tempfile.TemporaryDirectory(prefix="rt-copy-") as room:
        shorn = without_proofs(crate, {function.name for it in taken for function in it.functions}, f"{room}/{crate.name}")
        for it in taken:
            for function, again in zip(it.functions, it.named()):
                repeat_proof(crate, function, again, room)
        return rt.checked(shorn, texts, ["--jobs", "1", *[word for it in asked for word in ("--only", it)]], None)


def repeat_proof(crate, function, again, room):
    """Has a function that stands there once more find what is written of the proof of the first."""
    parts = [*filter(None, [*function.module.split("::"), function.of()[0]]), function.name]
    folder, to = f"{room}/{crate.name}/proofs/{'/'.join(parts)}", f"{room}/{crate.name}/proofs/{'/'.join([*parts[:-1], again.name])}"
    if function.name == again.name or not os.path.isdir(folder):
        return
    shutil.copytree(folder, to)
    names = ".".join(["Rattle", crate.name, "proofs", *parts[:-1], ""])
    for it in pathlib.Path(to).rglob("*.antt"):
        it.write_text(it.read_text().replace(f"{names}{function.name}.", f"{names}{again.name}."))


def without_proofs(crate, names, room):
    """A copy of the crate without what is written of the proofs of functions with no body left: it names what isn't there any more,
    and some kits then say nothing of the functions that call them."""
    for part in PARTS:
        if os.path.isdir(f"{crate.folder}/{part}"):
            shutil.copytree(f"{crate.folder}/{part}", f"{room}/{part}")
    for at, _, files in os.walk(f"{room}/proofs"):
        parts = os.path.relpath(at, f"{room}/proofs").split("/")
        if not any(it in names or it in KEPT_BODIES or it.startswith("+") for it in parts):
            for it in {"Answers.antt", "Invariants.antt", "Proof.antt"} & {*files}:
                os.remove(f"{at}/{it}")
    made = copy.copy(crate)
    made.folder = room
    return made


def try_round(crate, tried, is_control):
    """What a round says of each wrong body that could be put into it: how it was refused by itself, or None."""
    texts, taken = together(crate, tried, is_control)
    ran = checked(crate, texts, taken, False)
    if ran.returncode == 2:
        ran = checked(crate, texts, taken, True)
    if not compiles(ran) and len(taken) > 1:
        half = len(taken) // 2
        return {**try_round(crate, taken[:half], is_control), **try_round(crate, taken[half:], is_control)}
    if not compiles(ran):
        return dict.fromkeys(taken)
    every, own = re.findall(rf"(?m)^fn {crate.name}::(\S+): ", ran.stdout), refusals(ran.stdout, crate.name)
    return {it: refusal(it, every, own) for it in taken}


def refusal(wrong, every, own):
    """How a round refused this wrong body by itself, by the functions that it names and those that it refuses; or None."""
    named = [it for function in wrong.named() for it in function.named_by(every) if it in own]
    return f"{named[0]}: {own[named[0]][:150]}" if named else None


def try_rounds(crate, left, is_control):
    """How each of these wrong bodies was refused by itself in a round, those that weren't left out."""
    refused, rounds = {}, 0
    while left:
        told, rounds = try_round(crate, of_one_round(crate, left), is_control), rounds + 1
        refused.update({it: f"refused in round {rounds}: {why}" for it, why in told.items() if why})
        left = [it for it in left if it not in told]
    return refused


def try_crate(crate, libraries, anew, is_control):
    """Of each wrong body of a crate: its label, whether all is well with it, what to say, and whether an earlier run refused it."""
    every = [Wrong(crate, it) for it in edits_of(crate)]
    names = {it: name_of(libraries, crate, it) for it in every}
    known = {it: told for it in every if not anew and not is_control and (told := libraries.refused.read(names[it]))}
    left = [it for it in every if it not in known and it.functions]
    refused = {**known, **try_rounds(crate, left, is_control)}
    if is_control:
        return [(it.label, it not in refused, refused.get(it, "as it should be without the edit"), False) for it in every]
    rows = []
    for it in every:
        is_refused, said = (True, refused[it]) if it in refused else alone(crate, it)
        if is_refused and it not in known:
            libraries.refused.keep(names[it], said)
        rows.append((it.label, is_refused, said, it in known))
    return rows


def told(rows):
    print("".join(f"{label}: {'' if is_well else 'NOT REFUSED: '}{said}\n" for label, is_well, said, _ in rows), end="", flush=True)
    return rows


def alone(crate, wrong):
    kind, said = rt.must_fail(crate, wrong.file, ["--jobs", "1"])
    said = re.sub(rf"^must-fail {re.escape(wrong.label)}: ", "", said)
    # (a kit that tells no kinds says whether it was refused)
    return kind in (getattr(rt, "REFUSED", True), getattr(rt, "AT_LIMIT", True)), f"alone: {said}"


def edits_of(crate):
    return sorted(str(it) for it in pathlib.Path(crate.folder, "wrong").glob("*.edit"))


def name_of(libraries, crate, wrong):
    sums = pathlib.Path(__file__).read_bytes(), libraries.key(crate), os.path.basename(wrong.file), pathlib.Path(wrong.file).read_bytes()
    return hashlib.sha256(repr(sums).encode()).hexdigest()


class Refused:
    """What earlier runs refused: a file in a folder for each wrong body, by its sum."""

    def __init__(self, folder):
        self.folder = pathlib.Path(folder)

    def read(self, name):
        try:
            found = json.loads((self.folder / name).read_text())
            return found["said"] if found["name"] == name else None
        except (OSError, ValueError, KeyError, TypeError):
            return None

    def keep(self, name, said):
        try:
            self.folder.mkdir(mode=0o700, parents=True, exist_ok=True)
            with tempfile.NamedTemporaryFile("w", prefix="new-", dir=self.folder, delete=False) as it:
                json.dump({"name": name, "said": said}, it)
            os.replace(it.name, self.folder / name)
        except OSError:
            pass


class KeptLibraries:
    """The libraries that the kit's gate proved and keeps, laid out in a copy of the repository."""

    def __init__(self, room):
        rt.copy_crates(str(ROOT), f"{room}/repo")
        os.mkdir(f"{room}/repo/.git")
        os.chdir(f"{room}/repo")
        self.crates = rt.crates_of(os.getcwd())
        self.kept, self.refused, self.there = rt.Kept(self.crates), Refused(f"{rt.STORE}/wrong-bodies"), set()
        for crate in self.crates:
            if all(it.name in self.there for it in crate.below()) and self.takes(crate):
                self.kept.is_built(crate)
                self.there.add(crate.name)

    def key(self, crate):
        return self.kept.key(crate)

    def takes(self, crate):
        return self.kept.give(crate, False, self.key(crate)) or crate.is_program or self.takes_built(crate)

    def takes_built(self, crate):
        """Takes the library that `rt ci` left in the checkout where it could keep nothing. One with a stamp is of another command."""
        built = ROOT / "crates" / crate.name / "out" / "rlib"
        if not (built / f"{crate.name}.rlib" / "format").is_file() or (built / "stamp").exists():
            return False
        shutil.copytree(built, f"{crate.folder}/out/rlib", copy_function=rt.link_or_copy, dirs_exist_ok=True)
        return True


class LeftLibraries:
    """The libraries that a run of `rt ci` or `rt lib` left in the checkout, of a kit that keeps none."""

    def __init__(self):
        rt.rtlib.Crate = rt.Crate
        rt.Crate.stamp = summed_once(rt.Crate.stamp)
        self.crates = sorted(rt.rtlib.crates_below(str(ROOT)), key=lambda it: len(it.below()))
        cache = os.environ.get("XDG_CACHE_HOME") or os.path.expanduser("~/.cache")
        self.sums, self.refused, self.there = {}, Refused(f"{cache}/signals/wrong-bodies"), set()
        for crate in self.crates:
            if all(it.name in self.there for it in crate.below()) and (crate.is_program or is_left(crate)):
                self.there.add(crate.name)

    def key(self, crate):
        if crate.name not in self.sums:
            texts = [(os.path.relpath(it, crate.folder), pathlib.Path(it).read_bytes()) for it in sources_of(crate)]
            kit = pathlib.Path(rt.KIT, "KIT-ID").read_bytes()
            self.sums[crate.name] = hashlib.sha256(repr((kit, texts, [self.key(it) for it in crate.below()])).encode()).hexdigest()
        return self.sums[crate.name]


def is_left(crate):
    """Whether the crate's library is there, made from the sources as they are."""
    made = pathlib.Path(crate.rlib, "format")
    if pathlib.Path(crate.folder, "out/rlib/stamp").exists():
        return crate.is_built()
    return made.is_file() and all(os.path.getmtime(it) <= os.path.getmtime(made) for it in sources_of(crate))


def sources_of(crate):
    folders = [pathlib.Path(crate.folder, part) for part in PARTS]
    return sorted(str(it) for folder in folders for it in folder.rglob("*") if it.is_file())


def libraries_for(names, room):
    """For named crates those that `rt lib` left in the checkout, where all that they need is there; else those that the gate keeps."""
    if names or not hasattr(rt, "Kept"):
        left = LeftLibraries()
        if not hasattr(rt, "Kept") or left.there.issuperset(names):
            return left
    return KeptLibraries(room)


def try_all(names, anew, is_control, room):
    # (its first call sets a signal's handler, which only the main thread may)
    rt.rtlib.guarded()
    rt.Crate.allowed, rt.Crate.cuts_libraries = rt.handles_of("."), True
    libraries = libraries_for(names, room)
    wanted = [it for it in libraries.crates if (not names or it.name in names) and edits_of(it)]
    # (by this name the kit's lanes give a task one processor)
    tasks = {
        (it.name, "edits"): ([], it.count(rb"\n"), 0.6 * rt.need(it), lambda given, jobs, it=it: told(try_crate(it, libraries, anew, is_control)))
        for it in wanted
        if it.name in libraries.there
    }
    given = rt.in_lanes(tasks)
    lacking = [it.name for it in wanted if it.name not in libraries.there]
    return [row for it in wanted if it.name in libraries.there for row in given[it.name, "edits"]], lacking


def main(words):
    names = [it for it in words if not it.startswith("--")]
    unknown = {*words} - {*names, "--anew", "--control"}
    if unknown or any(not (ROOT / "crates" / it).is_dir() for it in names):
        sys.exit(__doc__.split("\n")[0])
    with tempfile.TemporaryDirectory(prefix=f"rt-copy-{os.getpid()}-") as room:
        os.chdir(ROOT)
        rows, lacking = try_all(names, "--anew" in words, "--control" in words, room)
        os.chdir(ROOT)
    used = resource.getrusage(resource.RUSAGE_CHILDREN)
    failed, old, weak = (sum(it) for it in zip(*((not row[1], row[3], ONLY_NAMES in row[2]) for row in rows), (0, 0, 0)))
    for label, is_well, said, _ in rows:
        if not is_well:
            print(f"{label}: NOT REFUSED: {said}")
    for it in lacking:
        print(f"{it}: NOT TRIED: it, or a library below it, isn't proved as it stands: run rt ci first")
    print(f"wrong bodies: {len(rows) - failed} refused, {old} of them by an earlier run and {weak} {ONLY_NAMES}; {failed} not refused; {(used.ru_utime + used.ru_stime) / 60:.1f} processor minutes")
    return 1 if failed or lacking else 0


if __name__ == "__main__":
    sys.exit(main(sys.argv[1:]))
