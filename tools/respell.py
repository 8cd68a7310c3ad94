#!/usr/bin/env python3
"""Spells the definitions and lemmas of this repository as today's Rattle does, once, after port.py: words in snake case.

usage: python3 tools/respell.py [--check]     at the top of the repository, right after port.py; --check writes nothing

Each name that a file of specs/, or a lemma file of proofs/, declares is turned wherever it stands in an .antt file, in a clause, a ghost item or a comment's
code of an .rt file, and in a must-fail edit: a capital in the middle of a word becomes `_` and a small letter, and a dash becomes `_`.
A part that begins with a capital is a fact's or a type's name and stays as it is. Names of functions, of exported symbols and of generated goals stay.
MET lists lemmas that port.py spelled as their function is spelled now: they get `_lem` too.
The crate `sha1` is called `sha1_definition`, since the kit has a library of the old name. A line that begins 'met:' says where two names would fall together.
"""

import os
import re
import subprocess
import sys

WORD = re.compile(r'[^\s(){}.;,@"«»\[\]|`:]+')
DECLARED = re.compile(r"(?m)^ *(?:\w+ )*?([^\s(){}.;,@\"«»]+)(?: \{[^{}\n]*\})* :(?= |$)")
IMPORT = re.compile(r"\buse ([^\s;{]+)\.\{([^}]*)\}")
GENERATED = re.compile(r"\.(Statement|Tie|Reads|Lts)$")
CRATE = ("sha1", "sha1_definition")

MET = {"go_on": "go_on_lem", "pointer_word": "pointer_word_lem", "read_back": "read_back_lem"}


def plain(name):
    return "_".join(part if part[:1].isupper() else re.sub(r"(?<=[a-z0-9])[A-Z]", lambda m: "_" + m[0].lower(), part) for part in name.split("-"))


def files():
    for folder, folders, names in os.walk("crates"):
        folders[:] = sorted(f for f in folders if f != "out")
        for name in sorted(names):
            yield os.path.join(folder, name)


def read(path):
    with open(path, encoding="utf-8") as f:
        return f.read()


def is_lemmas(path):
    """A file of specs/, or right in proofs/: the files of a function's proof are below it."""
    parts = path.split("/")
    return path.endswith(".antt") and len(parts) == 4 and parts[2] in ("specs", "proofs")


def code(text):
    return re.sub(r"(?m)(?<!\S)--.*$", "", text)


def declared():
    names = set()
    for path in files():
        if is_lemmas(path):
            names |= {m[1] for m in DECLARED.finditer(code(read(path))) if re.match(r"[a-z]", m[1])}
    # A lemma that would have its function's name gets `_lem`.
    functions = {plain(n) for n in names if "-" not in n}
    spelled = {n: plain(n) + ("_lem" if "-" in n and plain(n) in functions else "") for n in names}
    return {**{n: s for n, s in spelled.items() if s != n}, **MET}


def kit_names(text):
    """What a file imports from the kit's libraries: these keep their spelling there."""
    kept = set()
    for where, items in IMPORT.findall(text):
        steps = where.split(".")
        own = steps[0] == "Rattle" and os.path.isdir(os.path.join("crates", steps[1]))
        if not own or GENERATED.search(where):
            kept |= {item.split(" as ")[0].strip() for item in items.split(",")}
    return kept


def turned(text, table, kept, met, path):
    def word(m):
        new = table.get(m[0])
        return m[0] if new is None or m[0] in kept else new

    words = set(WORD.findall(text))
    for old, new in table.items():
        if old in words and old not in kept and new in words:
            met.add((new, old, path))
    return WORD.sub(word, text)


def crate_moved(text):
    """The crate's name in paths and `use` lines."""
    old, new = CRATE
    text = re.sub(rf"\bRattle\.{old}\.", f"Rattle.{new}.", text)
    return re.sub(rf"\buse {old}::", f"use {new}::", text)


def main():
    writes = "--check" not in sys.argv
    table, met, changed = declared(), set(), 0
    by_new = {}
    for old, new in table.items():
        by_new.setdefault(new, []).append(old)
    for new, olds in sorted(by_new.items()):
        if len(olds) > 1:
            print(f"met: {' and '.join(sorted(olds))} would both be {new}")
    for path in files():
        if not path.endswith((".rt", ".antt", ".edit")):
            continue
        text = read(path)
        kept = kit_names(text)
        if path.endswith(".antt") and not is_lemmas(path):
            # A function's own goals, and the steps of its proof, keep their names.
            kept |= {m[1] for m in DECLARED.finditer(code(text)) if "-" in m[1]}
        new = crate_moved(turned(text, table, kept, met, path))
        if new != text:
            changed += 1
            if writes:
                with open(path, "w", encoding="utf-8") as f:
                    f.write(new)
    for new, old, path in sorted(met):
        print(f"met: {old} would be {new}, which stands in {path}")
    if writes:
        old, new = CRATE
        subprocess.run(["git", "mv", f"crates/{old}", f"crates/{new}"], check=True)
        lines = read("crates.txt").split("\n")
        lines = [re.sub(rf"(?<![\w]){old}(?![\w])", new, line) if not line.startswith("#") else line for line in lines]
        with open("crates.txt", "w", encoding="utf-8") as f:
            f.write("\n".join(lines))
    print(f"{len(table)} names in {changed} files")


if __name__ == "__main__":
    main()
