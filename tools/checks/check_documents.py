#!/usr/bin/env -S python3 -B
"""The documents agree with the repository: its crates, files, names and examples."""
import os
import re
import sys
from itertools import zip_longest

sys.dont_write_bytecode = True
sys.path.insert(0, os.path.join(os.path.dirname(os.path.abspath(__file__)), ".."))
from crates.crate_list import TOP, crates, kit, layers, misplaced

DOCUMENTS = [
    "README.md",
    "CHANGELOG.md",
    "CONTRIBUTING.md",
    "docs/ARCHITECTURE.md",
    "docs/DECISIONS.md",
    "docs/FORMATS.md",
    "docs/OPERATING.md",
    "docs/PROMISES.md",
    "docs/WRONG_BODIES.md",
    "examples/README.md",
    "bench/README.md",
    "tools/README.md",
]
# Words that a reader would stumble over, or that tell how something came to be.
UNWANTED = re.compile(r"\b[Ww]ants? of memory\b|\b[Ff]ronts? of\b|\b[Bb]ehind\b|\b[Oo]ur own\b|\bNeither\b")

# What a reader has to find in a document.
SECTIONS = {
    "README.md": [
        "Is it for you?", "What you need", "Try it", "What is proved", "What is only tested", "What is not claimed", "What is trusted",
    ],
    "docs/PROMISES.md": ["How to read it", "Can a token be lost?", "Can a token take effect twice?", "By crate", "Wrong bodies"],
    "docs/ARCHITECTURE.md": ["Words", "Crates", "The way of a request, and of its push", "The way of a record"],
}
# How wide a line of prose may be, and how long a sentence of the README.
COLUMNS, WORDS = 100, 25
# The sources that read members of settings, with the kinds of the objects that are asked: of the settings, and inside them.
READERS = {
    "sig_settings/key.rt": (None, "Key"),
    "sig_txsettings/settings.rt": ("Transmitter", None),
    "sig_txsettings/client.rt": ("Transmitter", "Client"),
    "sig_rxsettings/settings.rt": ("Receiver", None),
    "sig_rxsettings/issuer.rt": (None, "Issuer"),
    "sig_rxsettings/key.rt": (None, "IssuerKey"),
    "sig_rxsettings/principal.rt": ("Receiver", "Principal"),
    "sig_rxsettings/peer.rt": ("Receiver", "Peer"),
}
# The members of a JWK that are known and not read (RFC 7517, section 4).
UNREAD = {"use", "key_ops", "x5u", "x5c", "x5t", "x5t#S256"}

faults = []


def tell(document, fault):
    faults.append(f"{document}: {fault}")


def text_of(path):
    with open(os.path.join(TOP, path), encoding="utf-8") as file:
        return file.read()


def anchor(heading):
    """The anchor that a heading gets: lower case, without punctuation, with hyphens for spaces."""
    return re.sub(r"[^\w\- ]", "", heading.lower()).replace(" ", "-")


def headings(text):
    return re.findall(r"^#+ (.*)$", re.sub(r"^```.*?^```", "", text, flags=re.M | re.S), re.M)


def check_links(document, text):
    for name, place in re.findall(r"\]\((?!https://)([^)#]*)#?([^)]*)\)", text):
        path = os.path.normpath(os.path.join(os.path.dirname(document), name)) if name else document
        if not os.path.exists(os.path.join(TOP, path)):
            tell(document, f"no file {name}")
        elif place and place not in map(anchor, headings(text_of(path))):
            tell(document, f"no heading #{place} in {path}")


def check_words(document, text):
    for number, line in enumerate(text.splitlines(), 1):
        for found in UNWANTED.findall(line):
            tell(document, f"line {number}: '{found}'")
        for name in re.findall(r"\bsig_\w+", line):
            if name not in crates():
                tell(document, f"line {number}: no crate {name}")
        for path in re.findall(r"`((?:docs|tools|examples|bench|crates)/[\w./]+)`", line):
            if not os.path.exists(os.path.join(TOP, path)):
                tell(document, f"line {number}: no file {path}")


def prose(text):
    """The lines of a document without blocks of code, headings, tables and comments, each with its number."""
    is_code, before = False, ""
    for number, line in enumerate(text.splitlines(), 1):
        if line.startswith("```"):
            is_code = not is_code
        elif not is_code and not line.startswith(("#", "|", "<!--")) and not (line.startswith("    ") and before == ""):
            yield number, line
        # what goes on a block of indented code is code too
        before = "" if line.startswith("    ") and before == "" else line.strip()


def check_headings(document, text):
    """One title, which comes first; no level is left out, and no heading comes twice, so that each has an anchor of its own."""
    levels = [len(mark) for mark in re.findall(r"^(#+) ", re.sub(r"^```.*?^```", "", text, flags=re.M | re.S), re.M)]
    if not text.startswith("# ") or levels.count(1) != 1:
        tell(document, "it doesn't have one title, at its head")
    if any(later > earlier + 1 for earlier, later in zip(levels, levels[1:])):
        tell(document, "a level of headings is left out")
    named = headings(text)
    for name in sorted({name for name in named if named.count(name) > 1}):
        tell(document, f"the heading '{name}' comes twice")
    for name in SECTIONS.get(document, ()):
        if name not in named:
            tell(document, f"no heading '{name}'")


def check_columns(document, text):
    """No line of prose is too wide, as a reader sees it: without the targets of its links."""
    for number, line in prose(text):
        width = len(re.sub(r"\]\([^)]*\)", "]", line))
        if width > COLUMNS:
            tell(document, f"line {number}: {width} columns")


def sentences(text):
    """The sentences of the prose and of the tables, each as a list of words; a span of code is one word."""
    lines = [re.sub(r"^\s*- ", "\0", line) if line.strip() else "\0" for _, line in prose(text)]
    parts = " ".join(lines).split("\0")
    parts += [part for line in text.splitlines() if line.startswith("|") for cell in line.split("|") for part in cell.split(";")]
    for part in parts:
        plain = re.sub(r"\[([^]]*)\]\([^)]*\)", r"\1", re.sub(r"`[^`]*`", "code", part)).replace("**", "")
        yield from (words.split() for words in re.split(r"(?<=[.!?])\s+", plain))


def check_readme(text):
    for words in sentences(text):
        if len(words) > WORDS:
            tell("README.md", f"{len(words)} words: {' '.join(words)}")
    shown = [line[4:] for line in text.splitlines() if line.startswith("    ") and not line.startswith("     ")]
    shown = shown[: shown.index("owed acme-1 1") + 1]
    given = [line[2:] for line in shown if line.startswith("> ")]
    printed = [line for line in shown if not line.startswith("> ")]
    if given != text_of("examples/first.txt").splitlines() or printed != text_of("examples/first.out.txt").splitlines():
        tell("README.md", "its first example isn't examples/first.txt with examples/first.out.txt")
    for language, path, change in ("rust", "crates/sig_guard/src/guard.rt", without_contracts), ("json", "examples/transmitter.json", str):
        shown = re.search(rf"^```{language}\n(.*?)^```", text, re.M | re.S).group(1)
        if without_space(shown) not in without_space(change(text_of(path))):
            tell("README.md", f"what it shows of {path} doesn't stand there")
    for name in kit():
        if f"`{name}`" not in text:
            tell("README.md", f"it doesn't say that {name} is trusted")


def without_contracts(source):
    return "\n".join(line for line in source.splitlines() if not re.match(r"\s*(ensures|///)", line))


def without_space(text):
    return re.sub(r"\s+", "", text)


def check_help(text):
    """The script's help has the commands that the program knows, and the four words of the script."""
    told = re.findall(r"^\./signals (\S+)", text, re.M)
    paths = [f"crates/{crate}/src/{file}.rt" for crate in crates() for file in ("command", "asking")]
    sources = [text_of(path) for path in paths if os.path.exists(os.path.join(TOP, path))]
    known = re.findall(r'\bname(?:\.as_str\(\))? [!=]= "(\w+)"|"(\w+)" => Some\(Server::', "".join(sources))
    known = [one or other for one, other in known]
    if sorted(told) != sorted(known + ["--unproved", "help", "settings", "test", "version"]):
        tell("signals", f"its help has {told}, and the program knows {known}")


def check_ways(text):
    """Each crate of the product, which are those of all layers but the last, stands on a way of the architecture, and in a table."""
    sections = re.split(r"^## ", text, flags=re.M)[1:]
    ways = " ".join(section for section in sections if section.startswith("The way of"))
    for heading, names in layers():
        layer = re.search(rf"^### {re.escape(heading.partition(':')[0])}\n(.*?)(?=^##)", text, re.M | re.S)
        listed = re.findall(r"^\| `(\w+)` \|", layer.group(1), re.M) if layer else []
        if listed != names:
            tell("docs/ARCHITECTURE.md", f"the table of '{heading}' has {listed}, and crates.txt {names}")
        for name in names:
            if heading != layers()[-1][0] and not re.search(rf"\b{name}\b", ways):
                tell("docs/ARCHITECTURE.md", f"{name} stands on no way")


def check_tools(text):
    """Each tool has an entry in the page of tools."""
    for folder, _, files in os.walk(os.path.join(TOP, "tools")):
        for file in files:
            path = os.path.relpath(os.path.join(folder, file), TOP)
            if file.endswith((".py", ".sh")) and file != "__init__.py" and not re.search(rf"{re.escape(path)}\b", text):
                tell("tools/README.md", f"it doesn't name {path}")


def check_version():
    """The changes of the version that these sources have stand first."""
    version = text_of("VERSION").strip()
    if re.findall(r"^## \[([^]]*)\]", text_of("CHANGELOG.md"), re.M)[:1] != [version]:
        tell("CHANGELOG.md", f"its first version isn't {version}, which VERSION has")


def check_layers():
    for name, one in misplaced():
        tell("crates.txt", f"{name} uses {one}, whose line stands below its own")


def sources_of(crate):
    """The words of a crate's sources and definitions, and the names of its files."""
    words = set()
    for part in ("src", "specs"):
        for folder, _, files in os.walk(os.path.join(TOP, "crates", crate, part)):
            for file in files:
                words |= {file.split(".")[0]} | set(re.findall(r"\w+", text_of(os.path.join(folder, file))))
    return words


def cells(line):
    return [cell.strip() for cell in line.strip("|").split("|")]


def contracts(section):
    """The cells of contracts in the tables of a section: the column is named so in each table's first row."""
    column = None
    for line in section.splitlines():
        if not line.startswith("|"):
            column = None
        elif column is None:
            column = cells(line).index("Contract") if "Contract" in cells(line) else -1
        elif column >= 0 and not line.startswith("|---"):
            yield cells(line)[column]


def check_promises(text):
    for number, line in enumerate(text.splitlines(), 1):
        if line.startswith("|") and any(len(cell) > 200 or cell.startswith("the same") for cell in cells(line)):
            tell("docs/PROMISES.md", f"line {number}: a cell of more than 200 characters, or one that says 'the same'")
    sections = re.split(r"^## ", text, flags=re.M)[1:]
    named = [section.split("\n")[0] for section in sections]
    for got, wanted in zip_longest((name for name in named if name in crates()), crates()):
        if got != wanted:
            tell("docs/PROMISES.md", f"a section {got} where crates.txt has {wanted}")
            break
    words = {crate: sources_of(crate) for crate in crates()}
    for name, section in zip(named, sections):
        for cell in contracts(section):
            homes = {name} & words.keys() | {crate for crate in words if re.search(rf"\b{crate}\b", cell)}
            check_contract(name, cell, homes, words)


def check_contract(section, cell, homes, words):
    """Each name in a cell of contracts stands in the sources of the crate of its section, or of a crate that the cell names."""
    for code in re.findall(r"`([^`]*)`", cell):
        for word in re.findall(r"\w+", code):
            if word not in ("specs", "docs", "FORMATS", "md", *words) and not any(word in words[home] for home in homes):
                tell("docs/PROMISES.md", f"{section}: no {word} in the sources that a contract names ({code})")


def spelled_line(definition):
    """A line as the table has it, from the parts that its definition puts together."""
    line = ""
    for part in definition.split("++"):
        literal = re.match(r'codes "(.*)"$', part.strip())
        name = re.split(r"[ .]", part.strip())[-1]
        line += literal.group(1) if literal else f"<{name}>"
    return line


def check_lines(text):
    """The lines on standard error, and the words of their causes, are those that two crates define."""
    spelled = text_of("crates/sig_notes/specs/Lines.antt") + text_of("crates/sig_stray/specs/Lines.antt")
    definitions = re.findall(r"^(\w+) ([\w ]+) =\s+(.*(?:\n +\+\+.*)*)$", spelled, re.M)
    wanted = {spelled_line(definition) for name, _, definition in definitions if "codes" in definition and name != "or_dash"}
    section = re.split(r"^## ", text, flags=re.M)
    section = next((part for part in section if part.startswith("Lines on standard error\n")), "")
    table = {cells(line)[0].strip("`") for line in section.splitlines() if line.startswith("| `") and len(cells(line)) == 3}
    for line in sorted(wanted ^ table):
        tell("docs/FORMATS.md", f"the line '{line}' stands in one of the table and specs/Lines of sig_notes and sig_stray alone")
    for kind in ("push", "link", "end"):
        words = re.findall(rf'^{kind}_text {kind}\.\w+ = codes "(.*)"$', spelled, re.M)
        listed = re.search(rf"^\| `{kind}` \| (.*) \|$", section, re.M)
        if not listed or re.findall(r"`(.*?)`", listed.group(1)) != words:
            tell("docs/FORMATS.md", f"the causes of '{kind}' are {words} in crates/sig_notes/specs/Lines.antt")


def members_read():
    """The members that readers of settings ask for, by the kind of the object: `needed` and `optional` ask the settings themselves,
    and `member_in` and `optional_in` the object of the file."""
    names = {}
    for crate in ("sig_settings", "sig_txsettings", "sig_rxsettings"):
        for file in sorted(os.listdir(os.path.join(TOP, "crates", crate, "src"))):
            source = text_of(f"crates/{crate}/src/{file}")
            for call, name in re.findall(r'\b(needed|optional|member_in|optional_in)::<[^(]*>\(\s*[^"()]*"(\w+)"', source):
                whole, inner = READERS.get(f"{crate}/{file}", (None, None))
                names.setdefault(whole if call in ("needed", "optional") else inner, set()).add(name)
    names["IssuerKey"] |= names["Key"]
    return names


def check_members(text):
    """The table of known members has what the readers of settings ask for, what is known and not read, and no more; and so have the
    tables of the document."""
    table = text_of("crates/sig_stray/specs/Table.antt")
    known = {}
    for kind, rows in re.findall(r"^members_of (\w+) =(.*?)∷ \[\]$", table, re.M | re.S):
        known[kind] = set(re.findall(r'codes "([^"]*)"', rows))
    wanted = members_read()
    wanted["IssuerKey"] |= UNREAD
    for kind in sorted(wanted.keys() | known.keys(), key=str):
        for name in sorted(wanted.get(kind, set()) ^ known.get(kind, set())):
            tell("crates/sig_stray/specs/Table.antt", f"the member '{name}' of {kind} is in the table alone, or is read and isn't there")
    for whose, kind in ("transmitter", "Transmitter"), ("receiver", "Receiver"):
        rows = text.split(f"| Member of a {whose}'s settings |")[1].split("\n\n")[0]
        if set(re.findall(r"^\| `(\w+)` \|", rows, re.M)) != known[kind]:
            tell("docs/FORMATS.md", f"the members of a {whose}'s settings aren't those of crates/sig_stray/specs/Table.antt")


def main():
    for document in DOCUMENTS:
        text = text_of(document)
        check_links(document, text)
        check_words(document, text)
        check_headings(document, text)
        check_columns(document, text)
    check_tools(text_of("tools/README.md"))
    check_version()
    check_layers()
    check_readme(text_of("README.md"))
    check_help(text_of("signals"))
    check_ways(text_of("docs/ARCHITECTURE.md"))
    check_promises(text_of("docs/PROMISES.md"))
    check_lines(text_of("docs/FORMATS.md"))
    check_members(text_of("docs/FORMATS.md"))
    print("\n".join(faults) or "documents: ok")
    sys.exit(1 if faults else 0)


if __name__ == "__main__":
    main()
