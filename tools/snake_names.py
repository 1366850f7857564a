#!/usr/bin/env python3
"""Spells this repository's own definitions and lemmas in snake case, as today's Rattle does.

usage: python3 tools/snake_names.py        at the top of a checkout on which the toolchain's port.py has been run

Run once. Definitions are found in crates/*/specs and in the lemma files of crates/*/proofs; every use in .antt files and in
the clauses and imports of .rt files follows. Strings, comments, and the names that Rattle gives to goals stay. Four lemmas
keep their dash, which joins the names of the two functions that they speak of: with _ for it, two of them would be named as
functions of the library.
"""
import os
import re
import sys

KEPT = {"bit-and", "bit-or", "bit-pow", "bit-zero"}
# other names that a clause gives to a definition, where a function of the program has the definition's own
ALIASES = {"hasAllOf": "has_all_of", "levelOf": "level_of", "theRows": "the_rows"}
DEFINED = re.compile(r"\s*(?:abbrev |unfoldable |pub )*([a-z][\w'-]*)\s*:(?!:)")
# a name, with what names the steps of a proof (c, w) where that stands before it
NAME = re.compile(r"(?<![\w'])(?:[cw]\.)?[A-Za-z_][\w'-]*")
# parts of a file that stay: comments and strings
STAYS = {".antt": re.compile(r"--(?![\w-]).*"), ".rt": re.compile(r'//.*|"(?:[^"\\]|\\.)*"')}


def files(top):
    for crate in sorted(os.listdir(os.path.join(top, "crates"))):
        for part in ("src", "specs", "proofs"):
            for folder, dirs, names in os.walk(os.path.join(top, "crates", crate, part)):
                dirs.sort()
                for name in sorted(names):
                    if name.endswith((".antt", ".rt")):
                        yield os.path.join(folder, name)


def holds_definitions(path):
    return path.endswith(".antt") and os.path.basename(path) not in ("Answers.antt", "Invariants.antt", "Proof.antt")


def defined(paths):
    names = set()
    for path in filter(holds_definitions, paths):
        with open(path, encoding="utf-8") as f:
            for line in f:
                found = DEFINED.match(line)
                if found and "-" in found.group(1):
                    names.add(found.group(1))
    return names - KEPT


def respelled(text, turn, stays):
    out, at = [], 0
    for part in list(stays.finditer(text)) + [None]:
        code = text[at:part.start()] if part else text[at:]
        out.append(NAME.sub(lambda m: turn.get(m.group(0), m.group(0)), code))
        if part:
            out.append(part.group(0))
            at = part.end()
    return "".join(out)


def main():
    paths = list(files("."))
    turn = {name: name.replace("-", "_") for name in defined(paths)} | ALIASES
    changed = 0
    for path in paths:
        with open(path, encoding="utf-8") as f:
            old = f.read()
        new = respelled(old, turn, STAYS[os.path.splitext(path)[1]])
        if new != old:
            changed += 1
            with open(path, "w", encoding="utf-8") as f:
                f.write(new)
    print(f"{len(turn)} names, {changed} of {len(paths)} files changed")
    return 0


if __name__ == "__main__":
    sys.exit(main())
