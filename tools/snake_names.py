#!/usr/bin/env python3
"""Brings the repository's own definitions and lemmas from camel case to snake case, as today's Rattle spells them.

usage: tools/snake_names.py      at the top of the repository, once, right after port.py

A name of specs/ or proofs/ that begins with a small letter and has a capital in it, as `stateOk`, becomes `state_ok`; so
does each part of a name that dashes join, as in `bandOf-cold`. Types and modules keep their capitals, and the two
definitions that are facts, not values, get one. A name of src/ is in snake case already and stays. The must-fail edits,
deep/ and the pages are turned with the rest: in a page only what stands in backticks.
specs/Contracts.antt becomes specs/PublicPromises.antt, since Rattle now makes a module specs.contracts.
It stops before the names of camel case where two names would fall together.
"""
import glob
import os
import re
import sys

# names that port.py had turned in some places already, and a field of a record
SAME = {"up_to", "le_z", "read_flags"}
# definitions of facts, which are spelled as types
FACTS = {"partOf": "PartHolds", "clauseOf": "ClauseHolds"}
# where the plain form is taken
OTHER = {}
# lemmas and constructors in whose name port.py put an underscore, and that would fall together with a definition: they
# keep the dash that they had
DASHED = """all_sound as_written by_codes by_rows ended_by first_byte fresh_at last_line no_bytes no_edges of_row one_byte
one_more other_length raw_at read_flags takes_count too_large too_long value_in""".split()
DASHES = re.compile(r"(?<![A-Za-z0-9_'.-])(" + "|".join(DASHED) + r")(?![A-Za-z0-9_'-])|(?<=first\.)too_long\b")
TOKEN = re.compile(r"[A-Za-z0-9_'′₀-₉]+")
CAMEL = re.compile(r"[a-z][a-z0-9]*[A-Z][A-Za-z0-9_']*")
VALUE = re.compile(r"(?:\blet (?:mut )?|\bconst )?\b(\w+)(?= *:[^:])|\blet (?:mut )?(\w+)")
# a word of antt that is no part of a path: neither behind nor before a dot
ANTT = re.compile(r"(?<![A-Za-z0-9_'′₀-₉.·])([A-Za-z0-9_'′₀-₉]+)(?![A-Za-z0-9_'′₀-₉.·])")
HEAD = re.compile(r"^[ \t]*(?:(?:abbrev|unfoldable|pub|ruleset) +)*([^\s(){}:;,]+(?: [^\s(){}:;,]+)*) [:=]", re.M)


def antt():
    return sorted(glob.glob("crates/*/specs/**/*.antt", recursive=True) + glob.glob("crates/*/proofs/**/*.antt", recursive=True))


def texts():
    return antt() + sorted(glob.glob("crates/*/src/**/*.rt", recursive=True)) + sorted(glob.glob("crates/*/must-fail/*.edit") + glob.glob("deep/*/*.edit"))


def pages():
    return ["README.md", "CONTRIBUTING.md"] + sorted(glob.glob("docs/*.md"))


def read(path):
    with open(path, encoding="utf-8") as it:
        return it.read()


def write(path, text):
    with open(path, "w", encoding="utf-8") as it:
        it.write(text)


def snake(name):
    if name in FACTS:
        return FACTS[name]
    if name in OTHER:
        return OTHER[name]
    return re.sub(r"(?<=[a-z0-9])([A-Z])|(?<=[A-Z])([A-Z])(?=[a-z])", lambda m: "_" + m.group(0), name).lower()


def keep_dashes():
    """The names of DASHED with their dash again; in step_kinds read_flags is a function's name."""
    for path in antt():
        text = read(path)
        dashed = lambda m: m.group(0) if "/step_kinds/" in path else m.group(0).replace("_", "-")
        new = "\n".join(line if line.startswith("--") else DASHES.sub(dashed, line) for line in text.split("\n"))
        if new != text:
            write(path, new)


def own():
    """The repository's names with a capital behind a small first letter."""
    found = set()
    for path in antt():
        for m in HEAD.finditer(read(path)):
            for word in m.group(1).split():
                for part in TOKEN.findall(word):
                    if CAMEL.fullmatch(part):
                        found.add(part)
    return found


def contracts():
    """Renames each specs/Contracts.antt, and the paths that name it."""
    found = sorted(glob.glob("crates/*/specs/Contracts.antt"))
    for path in found:
        os.rename(path, path.replace("Contracts.antt", "PublicPromises.antt"))
        lib = path.replace("Contracts.antt", "Lib.antt")
        write(lib, re.sub(r"^((?:pub )?mod )Contracts$", r"\1PublicPromises", read(lib), flags=re.M))
    for path in texts() + pages():
        text = read(path)
        new = re.sub(r"(\bspecs[./])Contracts\b", r"\1PublicPromises", text)
        if new != text:
            write(path, new)
    return len(found)


def main():
    keep_dashes()
    names = {name: snake(name) for name in own()}
    used = {}
    for path in texts():
        text = read(path)
        # in src/ a function or a module may have the name of the definition that it is held to; a value may not
        text = re.sub(r"--.*|//.*", "", text)
        found = (VALUE if path.endswith(".rt") else ANTT).findall(text) if not path.endswith(".edit") else []
        for part in {p for m in found for p in ([m] if isinstance(m, str) else m)}:
            used.setdefault(part, path)
    clashes = [f"{a} and {b} both become {names[a]}" for a in names for b in names if a < b and names[a] == names[b]]
    clashes += [f"{a} becomes {b}, which stands in {used[b]}" for a, b in sorted(names.items()) if b in used and b not in SAME]
    if clashes:
        print("\n".join(clashes))
        return 1
    turned = lambda text: TOKEN.sub(lambda m: names.get(m.group(0), m.group(0)), text)
    for path in texts() + pages():
        text = read(path)
        new = re.sub(r"`[^`\n]*`", lambda m: turned(m.group(0)), text) if path.endswith(".md") else turned(text)
        if new != text:
            write(path, new)
    print(f"{len(names)} names, {contracts()} files specs/Contracts.antt")
    return 0


if __name__ == "__main__":
    sys.exit(main())
