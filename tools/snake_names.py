#!/usr/bin/env python3
"""Respells this repository's own definitions and lemmas: words in snake case, types in camel case.

usage: python3 tools/snake_names.py      at the top of the repository, once, straight after the toolchain's port.py

A name is the repository's own if a file of specs/ or proofs/ declares it. Names that the toolchain makes
(goals, steps, fields of `c`) and names of its library keep their spelling, and so do functions of src/, strings and inputs.
"""

import collections
import glob
import os
import re
import sys

IDENT = re.compile(r"[^\s().{}\[\],;:→λ×·◌⟨⟩«»\"@|]+")
HYPHEN = re.compile(r"[A-Za-z0-9']-[A-Za-z0-9]")
DECLARED = re.compile(r"^\s*((?:abbrev |pub |unfoldable |data |record )*)([^\s:{(]+)\s*(?:\{[^}]*\}|\([^)]*\))?\s*.*:(?!=)")
IMPORT = re.compile(r"^\s*(?:ghost )?use ([\w.·'-]+?)\.\{([^}]*)\}", re.M)


def files():
    found = glob.glob("crates/*/specs/**/*.antt", recursive=True) + glob.glob("crates/*/proofs/**/*.antt", recursive=True)
    return sorted(found) + sorted(glob.glob("crates/*/src/**/*.rt", recursive=True))


def declared(texts):
    names = set()
    for path, text in texts.items():
        if not path.endswith(".antt"):
            continue
        for line in text.splitlines():
            if line.strip().startswith(("--", "let ", "use ")):
                continue
            m = DECLARED.match(line)
            if m and HYPHEN.search(m.group(2)) and not line.split(":", 1)[1].strip().startswith("goal."):
                names.add(m.group(2))
    return names


def foreign(texts, own_crates):
    names = set()
    for text in texts.values():
        for path, listed in IMPORT.findall(text):
            parts = path.split(".")
            if not (parts[0] == "Rattle" and parts[1] in own_crates):
                names |= {n.strip().split(" as ")[0].strip() for n in listed.split(",")}
    return names


def respelled(name):
    if name[0].isupper():
        return "".join(w[:1].upper() + w[1:] for w in name.split("-"))
    return name.replace("-", "_")


def main():
    texts = {p: open(p, encoding="utf-8").read() for p in files()}
    own = declared(texts) - foreign(texts, set(os.listdir("crates")))
    meant = collections.defaultdict(set)
    for name in own:
        meant[respelled(name)].add(name)
    clash = [names for names in meant.values() if len(names) > 1]
    if clash:
        sys.exit(f"fall together: {clash}")
    for path, text in texts.items():
        made = "/proofs/" in path and path.endswith(("Answers.antt", "Invariants.antt"))

        def turn(m):
            word = m.group(0)
            # a step of a function's proof is named by the toolchain
            if word not in own or (made and text[: m.start()].endswith(("c.", "l.initial.", " l."))):
                return word
            return respelled(word)

        turned = IDENT.sub(turn, text)
        if turned != text:
            with open(path, "w", encoding="utf-8") as f:
                f.write(turned)
    print(f"{len(own)} names")


main()
