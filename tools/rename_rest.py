#!/usr/bin/env python3
"""Spells what tools/rename_specs.py leaves, after it: a fact of all elements of a list goes by the library's own name, and one definition in snake case.

usage: python3 tools/rename_rest.py     at the top of the repository; a second run changes nothing

The scripts of the port bring in the library's AllByRecursion as All, a word that the library has for another definition.
"""

import glob
import re

NAMES = {"nextWord": "next_word"}

for f in sorted(
    glob.glob("crates/*/src/**/*.rt", recursive=True)
    + glob.glob("crates/*/specs/**/*.antt", recursive=True)
    + glob.glob("crates/*/proofs/**/*.antt", recursive=True)
):
    with open(f, encoding="utf-8") as it:
        text = it.read()
    names = dict(NAMES)
    if "AllByRecursion as All" in text:
        names["All"] = "AllByRecursion"
    out = []
    for line in text.replace("AllByRecursion as All", "AllByRecursion").split("\n"):
        if not line.lstrip().startswith(("--", "//")):
            for old, new in names.items():
                line = re.sub(r"(?<![\w'.-])" + old + r"(?![\w'-])", new, line)
        out.append(line)
    turned = "\n".join(out)
    if turned != text:
        with open(f, "w", encoding="utf-8") as it:
            it.write(turned)
