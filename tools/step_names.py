#!/usr/bin/env python3
"""Respells the names of goals and steps in proof files: they now keep the underscores of the source's own names.

usage: python3 tools/step_names.py      at the top of the repository, once, after tools/snake_names.py
"""

import glob
import re

SOURCE = re.compile(r"\b[A-Za-z][A-Za-z0-9]*(?:_[A-Za-z0-9]+)+\b")
TOKEN = re.compile(r"[A-Za-z0-9_'+-]+")
IMPORT = re.compile(r"^\s*use ([\w.'-]+?)\.\{([^}]*)\}", re.M)
MADE = {"slice-bounds": "slice_bounds", "type-inv": "type_inv", "in-ok": "in_ok", "in-err": "in_err", "in-default": "in_default", "overflow-add": "overflow_add", "overflow-mul": "overflow_mul", "overflow-sub": "overflow_sub", "In-ok": "In_ok", "In-err": "In_err", "In-default": "In_default", "from-residual": "from_residual", "get-or": "get_or"}


def main():
    words = dict(MADE)
    for path in glob.glob("crates/*/src/**/*.rt", recursive=True):
        with open(path, encoding="utf-8") as f:
            for name in SOURCE.findall(f.read()):
                words[name.replace("_", "-")] = name
    order = sorted(words, key=len, reverse=True)
    parts = re.compile(r"(?<![A-Za-z0-9_'])(?:" + "|".join(map(re.escape, order)) + r")(?![A-Za-z0-9_'])")
    for path in glob.glob("crates/*/proofs/**/*.antt", recursive=True):
        if not path.endswith(("Answers.antt", "Invariants.antt", "Proof.antt")):
            continue
        with open(path, encoding="utf-8") as f:
            text = f.read()
        foreign = {n.strip().split(" as ")[0].strip() for p, listed in IMPORT.findall(text) if ".Goals" not in p and ".Given" not in p for n in listed.split(",")}
        lines = []
        for line in text.splitlines(keepends=True):
            if line.lstrip().startswith("--"):
                lines.append(line)
                continue
            lines.append(TOKEN.sub(lambda m: m.group(0) if m.group(0) in foreign or "-" not in m.group(0) else parts.sub(lambda k: words[k.group(0)], m.group(0)), line))
        turned = "".join(lines)
        if turned != text:
            with open(path, "w", encoding="utf-8") as f:
                f.write(turned)


main()
