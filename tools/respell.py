#!/usr/bin/env python3
"""Spells this repository's own definitions, lemmas, constructors and record fields in snake case.

usage: python3 tools/respell.py     at the top of the repository, after `port.py` of the kit, once

A name that is declared in specs/ or proofs/ with a dash gets an underscore in its place, wherever it stands: in the
files of specs/, proofs/ and src/, and in the texts of the must-fail edits. Names of goals (declared in a proof file
as `goal.NAME`) are the toolchain's and stay. It stops where two names would fall together.
"""

import os
import re
import sys

# Facts are spelled as types; a lemma that would have its function's name gets _lem.
APART = {
    "All-play": "AllPlay",
    "IOV-MAX": "iov_max",
    "SSIZE-MAX": "ssize_max",
    "getD-sized": "get_or_sized",
    "numbers-are-new": "numbers_are_new_lem",
    "refusals-have-causes": "refusals_have_causes_lem",
    "refusals-leave": "refusals_leave_lem",
}
GOALS = ("Answers.antt", "Invariants.antt", "Choices.antt")
DECLARED = re.compile(r"^\s*(?:(?:abbrev|unfoldable|pub|data|record)\s+)*([^\s:(){}.,]+)(?:\s+[({].*?)?\s*:(?:\s|$)")
TOKEN = re.compile(r"[^\s(){}\[\].,;\u27e6\u27e7]+")


def files(*endings):
    for folder, dirs, names in os.walk("crates"):
        dirs[:] = sorted(d for d in dirs if d != "out")
        for name in sorted(names):
            if name.endswith(endings):
                yield os.path.join(folder, name)


def declared():
    own, goals, plain = set(), set(), set()
    for path in files(".antt"):
        with open(path, encoding="utf-8") as f:
            for line in f:
                m = DECLARED.match(line)
                if not m or line.lstrip().startswith("--"):
                    continue
                name = m.group(1)
                if os.path.basename(path) in GOALS and "goal." in line:
                    goals.add(name)
                elif "-" in name:
                    own.add(name)
                else:
                    plain.add(name)
    return own - goals, plain


def main():
    own, plain = declared()
    new = {name: APART.get(name, name.replace("-", "_")) for name in own}
    for name, spelled in sorted(new.items()):
        if spelled in plain or list(new.values()).count(spelled) > 1:
            sys.exit(f"{name} and another name would both be {spelled}")
    for path in files(".antt", ".rt", ".edit"):
        with open(path, encoding="utf-8") as f:
            text = f.read()
        turned = TOKEN.sub(lambda m: new.get(m.group(0), m.group(0)), text)
        if turned != text:
            with open(path, "w", encoding="utf-8") as f:
                f.write(turned)
    print(f"{len(new)} names")


main()
