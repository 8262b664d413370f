#!/usr/bin/env python3
"""Gives the repository's own definitions and lemmas the spelling of its Rattle, after the kit's port.py.

usage: python3 tools/respell.py        at the top of the repository

A definition, lemma or field is in snake case. A name with a dash changes in the files that declare it or import it from a crate of the
repository, and a field or any word with a capital inside in every file. Types, modules, functions of src/, strings and numbers keep
theirs. It stops, with nothing written, where two names would fall together. A second run changes nothing.
"""

import glob
import os
import re
import sys

# Names that would read as a tactic of antt's, fall together with another, or are the library's: what they are called instead.
OTHERWISE = {"first_of": "first_from", "firstOf": "first_from", "sameInt": "int_same", "layer-record": "layer_record_lem", "getD": "get_or"}
WORD = r"[^\s(){}\[\].,;:«»`'\"|@]+"
DECLARED = re.compile(rf"^ *(?:(?:abbrev|unfoldable|pub) +)*({WORD})(?: [^\n]*?)? : ", re.M)
IMPORTED = re.compile(r"Rattle\.(\w+)\.(?:specs|proofs)[^\s;{}]*\.\{([^}]*)\}")


def snake(part):
    return re.sub(r"(?<=[a-z0-9])([A-Z])", lambda m: "_" + m.group(1).lower(), part)


def is_mixed(part):
    return part[:1].islower() and re.search(r"[a-z0-9][A-Z]", part) is not None


def respelt(name):
    return OTHERWISE.get(name) or (snake(name.replace("-", "_")) if name[:1].islower() else name)


def read(path):
    with open(path, encoding="utf-8") as f:
        return f.read()


def declared(text):
    return set(DECLARED.findall(text))


def fields(text):
    found, inside = set(), False
    for line in text.split("\n"):
        if re.match(r"(pub )?record ", line):
            inside = True
        elif line[:1] not in ("", " "):
            inside = False
        elif inside:
            found |= declared(line)
    return found


def is_walked(path):
    """A function's own proof: what it declares is named after the code."""
    return "/proofs/" in path and "/Laws/" not in path and path.endswith(("/Proof.antt", "/Invariants.antt", "/Answers.antt"))


def main():
    crates = sorted(os.path.basename(p) for p in glob.glob("crates/*"))
    logic = sorted(glob.glob("crates/*/specs/**/*.antt", recursive=True) + glob.glob("crates/*/proofs/**/*.antt", recursive=True))
    texts = {p: read(p) for p in logic}
    walked = {p for p in logic if is_walked(p)}
    sources = sorted(glob.glob("crates/*/src/**/*.rt", recursive=True))
    edits = sorted(glob.glob("crates/*/must-fail/*.edit"))
    own = set().union(*(declared(t) for p, t in texts.items() if p not in walked))
    mixed = {w for p in logic + edits for w in re.findall(WORD, texts.get(p) or read(p)) if is_mixed(w)}
    renamed = {n: respelt(n) for n in own | mixed}
    renamed = {n: m for n, m in renamed.items() if n != m}
    everywhere = mixed | set(renamed) & set().union(*(fields(t) for p, t in texts.items() if p not in walked))
    after, wrong = {}, []
    for path in logic + sources + edits:
        text = texts.get(path) or read(path)
        known = everywhere & set(renamed)
        if path not in edits:
            known |= set(renamed) & (declared(text) if path in texts and path not in walked else set())
            for crate, names in IMPORTED.findall(text):
                if crate in crates:
                    known |= set(renamed) & {w.strip().split(" as ")[0] for w in names.split(",")}
        # a word behind a dot is a field, and one before it a step of a path
        words = set(re.findall(rf"(?<![.\w])({WORD})(?!\.)", re.sub(r"--[^\n]*", "", text)))
        for n in known & words:
            if renamed[n] in words and renamed[n] not in known and path not in edits and path not in sources:
                wrong.append(f"{path}: {n} would become {renamed[n]}, which stands there already")
        for m in {renamed[n] for n in known}:
            if len(both := sorted(n for n in known if renamed[n] == m and n in words)) > 1:
                wrong.append(f"{path}: {both} would all be {m}")
        after[path] = re.sub(WORD, lambda m: renamed[m.group(0)] if m.group(0) in known else m.group(0), text)

    made = {}
    for path, text in texts.items():
        for n in declared(text):
            made.setdefault((path, renamed.get(n, n)), set()).add(n)
    wrong += [f"{p}: {sorted(ns)} would all be {m}" for (p, m), ns in made.items() if len(ns) > 1]
    if wrong:
        print("\n".join(sorted(wrong)))
        sys.exit(1)
    changed = 0
    for path, text in after.items():
        if text != (texts.get(path) or read(path)):
            with open(path, "w", encoding="utf-8") as f:
                f.write(text)
            changed += 1
    print(f"{len(renamed)} names, {changed} files")


main()
