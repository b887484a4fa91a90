#!/usr/bin/env python3
"""Spells the repository's own definitions and lemmas as the library does: words in snake case, types in camel case.

usage: python3 tools/rename_specs.py [--list]     at the top of the repository, once

It goes by text: it collects the names that specs/ and proofs/ declare with a dash, and writes each use of them anew in specs/, proofs/ and the clauses of src/.
Names that Rattle makes (goals, steps) and names of the library keep their spelling. With --list it prints old and new names and changes nothing.
"""

import collections
import glob
import os
import re
import sys

NAME = r"[^\s(){}.;,:@\"«»\[\]\\]+"
TOKEN = re.compile(r"--[^\n]*|\"(?:[^\"\\\n]|\\.)*\"|«[^»]*»|[^\s(){}.;,@\"«»\[\]\\]+")
HEAD = re.compile(r"^( *)((?:pub |abbrev |unfoldable |data |record |inductive )*)(" + NAME + r")((?: +[^:=\n]*)?) : (.*)$", re.M)
LET = re.compile(r"\blet (" + NAME + r") (?::|=)")
BIND = re.compile(r"[({]((?:" + NAME + r" )+): ")
ALIAS = re.compile(r" as ([a-z]\w*-[\w-]+)")
LAMBDA = re.compile(r"λ ((?:" + NAME + r" )*" + NAME + r")\.")


def antt_files():
    return sorted(glob.glob("crates/*/specs/**/*.antt", recursive=True) + glob.glob("crates/*/proofs/**/*.antt", recursive=True))


def camel(name):
    return "".join(p[:1].upper() + p[1:] for p in name.split("-"))


def dashed(name):
    return re.fullmatch(r"[\w'₀-₉?]+(-[\w'₀-₉?]+)+", name)


def uncommented(text):
    return re.sub(r"--[^\n]*", "", text)


def collect(files):
    """The names with a dash that are declared here, and those that are brought in from the library or made by Rattle."""
    own, kinds, foreign = collections.defaultdict(set), {}, set()
    for f in files:
        with open(f, encoding="utf-8") as it:
            text = uncommented(it.read())
        goals = set(re.findall(r"^ *(?:abbrev )?(?:pub )?(?:abbrev )?(" + NAME + r") : goal\.", text, re.M))
        foreign |= goals
        for m in re.finditer(r"^use ([^\s{]+)\.\{([^}]*)\}", text, re.M):
            path, names = m.group(1), [n.split(" as ")[0].strip() for n in m.group(2).split(",")]
            if not re.match(r"Rattle\.(" + "|".join(CRATES) + r")\.", path) or re.search(r"\.(Goals|Given)$", path):
                foreign |= {n for n in names if "-" in n}
        for n in ALIAS.findall(text):
            own[n].add(f)
        for m in HEAD.finditer(text):
            n = m.group(3)
            if dashed(n) and n not in goals:
                own[n].add(f)
                if n[0].isupper():
                    kinds[n] = m.group(5)
        for n in LET.findall(text):
            if dashed(n):
                own[n].add(f)
        for row in BIND.findall(text) + LAMBDA.findall(text):
            for n in row.split():
                if dashed(n):
                    own[n].add(f)
    return own, kinds, foreign


# names that would fall together with one that stands
OTHERWISE = {"digest-of": "digest_by", "One-text": "EachHasOneText", "Has-output": "OwnsOutput", "store-path": "full_store_path"}


def new_name(name, kinds):
    if name in OTHERWISE:
        return OTHERWISE[name]
    if name[0].isupper():
        return camel(name) if re.search(r"Type 0", kinds.get(name, "")) else name
    return name.replace("-", "_")


def turn_antt(text, names):
    out, last = [], 0
    for m in TOKEN.finditer(text):
        t = m.group(0)
        if t.startswith(("--", '"', "«")):
            continue
        if t in names:
            before = text[: m.start()]
            # a step, a goal or a field of one: c.path-of, goal.x, g.S.x
            chain = re.search(r"([\w'₀-₉«»-]+(?:\.[\w'₀-₉«»-]+)*)\.$", before[-200:])
            if chain and chain.group(1).split(".")[0] in STEPS and t in MADE:
                continue
            out.append(text[last : m.start()] + names[t])
            last = m.end()
    return "".join(out) + text[last:]


def turn_rt(text, names):
    """Only clauses, ghost items and `ghost use` lines: there a dash in a name has no spaces around it."""
    out, last = [], 0
    for m in re.finditer(r"//[^\n]*|b?\"(?:[^\"\\]|\\.)*\"|[\w'₀-₉?]+(?:-[\w'₀-₉?]+)+", text):
        t = m.group(0)
        if t in names:
            out.append(text[last : m.start()] + names[t])
            last = m.end()
    return "".join(out) + text[last:]


STEPS = {"c", "l", "w", "g", "goal", "need"}
MADE = set()
CRATES = sorted(os.path.basename(c) for c in glob.glob("crates/*") if os.path.isdir(c))


def main():
    files = antt_files()
    own, kinds, foreign = collect(files)
    for f in sorted(glob.glob("crates/*/src/**/*.rt", recursive=True)):
        with open(f, encoding="utf-8") as it:
            for line in it:
                if line.startswith("ghost use "):
                    for n in ALIAS.findall(line):
                        own[n].add(f)
    clash = sorted(n for n in own if n in foreign)
    for n in clash:
        print("left, a name of the library or of Rattle too:", n, sorted(own[n])[:2])
        MADE.add(n)
    names = {n: new_name(n, kinds) for n in own if n not in foreign}
    names = {a: b for a, b in names.items() if a != b}
    words = set()
    for f in files:
        with open(f, encoding="utf-8") as it:
            words |= {t for t in TOKEN.findall(uncommented(it.read()))}
    seen = collections.defaultdict(list)
    for a, b in names.items():
        seen[b].append(a)
        if b in words:
            print("falls together with a name that stands:", a, b, sorted(own[a])[:2])
    for b, olds in seen.items():
        if len(olds) > 1:
            print("fall together:", b, olds)
    if "--list" in sys.argv:
        for a in sorted(names):
            print(a, names[a])
        return
    for f in files:
        with open(f, encoding="utf-8") as it:
            text = it.read()
        turned = turn_antt(text, names)
        if turned != text:
            with open(f, "w", encoding="utf-8") as it:
                it.write(turned)
    for f in sorted(glob.glob("crates/*/src/**/*.rt", recursive=True)):
        with open(f, encoding="utf-8") as it:
            text = it.read()
        turned = turn_rt(text, names)
        if turned != text:
            with open(f, "w", encoding="utf-8") as it:
                it.write(turned)


if __name__ == "__main__":
    main()
