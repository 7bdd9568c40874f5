#!/usr/bin/env python3
"""Brings the repository's own definitions and lemmas to Rattle's spelling: words in snake case, types and modules in camel case.

usage: python3 tools/respell.py, once, at the top of the repository, on what `port.py` of the kit made.

It goes over every .rt and .antt file below crates/. A name of ours is one that a file of specs/ or proofs/ declares, or an alias that a
`use` gives. Names of goals, which Rattle makes, stay: they are what Answers.antt and Invariants.antt declare.
"""

import os
import re
import sys

PART = r"[^\s(){}\[\];,.:@\"=|→×≡⌜⌝]"
# a lemma that says what one function makes of another keeps the dash between the two names
KEPT = {"*ℤ-+ℤ", "up-mul", "down-mul", "mag-quot", "truncated-quot", "congruent-add", "congruent-mul", "length-digit", "length-step"}
# not a hyphen that changes, but the case of a letter
CASED = {"eqZ": "eq_z", "eqZ-refl": "eq_z_refl", "eqZ-same": "eq_z_same", "ofZ-small": "of_z_small"}
DECLARED = re.compile(r"(?m)^ *(?:(?:abbrev|opaque|unfoldable|pub)\s+)*(?:(?:record|data)\s+)?(" + PART + r"+)(?:\s+[^\n=]*?)?\s+:(?:\s|$)")
BOUND = re.compile(r"\((" + PART + r"+(?: " + PART + r"+)*) : ")
ALIAS = re.compile(r"\bas (" + PART + r"*-" + PART + r"*)")


def files(root):
    for folder, dirs, names in os.walk(os.path.join(root, "crates")):
        dirs[:] = sorted(d for d in dirs if d != "out")
        for name in sorted(names):
            if name.endswith((".rt", ".antt")):
                yield os.path.join(folder, name)


def own(path, text):
    """The names with a dash that this file declares or gives."""
    found = set(ALIAS.findall(text))
    if path.endswith(".antt") and os.path.basename(path) not in ("Answers.antt", "Invariants.antt", "Choices.antt"):
        plain = re.sub(r"--( |$).*", "", text)
        found |= set(DECLARED.findall(plain))
        for several in BOUND.findall(plain):
            found |= set(several.split(" "))
    return {n for n in found if "-" in n or n in CASED}


def main():
    root = sys.argv[1] if len(sys.argv) > 1 else "."
    texts = {p: open(p, encoding="utf-8").read() for p in files(root)}
    mine = set().union(*(own(p, t) for p, t in texts.items())) - KEPT
    mine = {n for n in mine if n in CASED or (re.search(r"\w-\w", n) and not n.startswith("-") and not n.endswith("-"))}
    new = {n: CASED.get(n, n.replace("-", "_")) for n in mine}
    if len(set(new.values())) != len(new):
        sys.exit("two names fall together: " + " ".join(sorted(v for v in new.values() if list(new.values()).count(v) > 1)))
    everything = "\n".join(texts.values())
    for old, said in sorted(new.items()):
        if re.search(r"(?<![\w'-])" + re.escape(said) + r"(?![\w'-])", everything):
            print(f"look: {said} stood already, beside {old}")
    if not new:
        sys.exit("nothing to do")
    word = re.compile(r"(?<![\w'′*ℤ·+-])(" + "|".join(sorted(map(re.escape, new), key=len, reverse=True)) + r")(?![\w'′ℤ·-])")
    changed = 0
    for p, t in texts.items():
        # strings stay as they are
        pieces = re.split(r'("(?:[^"\\\n]|\\.)*")', t)
        said = "".join(x if i % 2 else word.sub(lambda m: new[m[1]], x) for i, x in enumerate(pieces))
        if said != t:
            changed += 1
            with open(p, "w", encoding="utf-8") as f:
                f.write(said)
    print(f"{len(new)} names in {changed} files")


main()
