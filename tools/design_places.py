#!/usr/bin/env python3
"""Lists the places in crates/*/src that docs/DESIGN-PASS.md counts: usage: tools/design_places.py [ROOT]

It goes by text, so what it lists is a place to look at. Tests (`#[cfg(test)]` and below) are left out.
"""
import collections
import glob
import re
import sys

ROOT = sys.argv[1] if len(sys.argv) > 1 else "."


def sources():
    for path in sorted(glob.glob(f"{ROOT}/crates/*/src/**/*.rt", recursive=True)):
        text = open(path).read().split("#[cfg(test)]")[0]
        yield path[len(ROOT) + len("/crates/") :].replace("/src/", ":"), text


def functions(text):
    """Each function's name, its lines from `fn` to the brace that ends it, and the line it begins at."""
    lines = text.split("\n")
    for n, line in enumerate(lines):
        m = re.match(r"(\s*)(?:pub(?:\([a-z]+\))? )?(?:const )?fn (\w+)", line)
        if m:
            end = n
            while end < len(lines) and lines[end] != m.group(1) + "}" and not lines[end].endswith(";"):
                end += 1
            yield m.group(2), "\n".join(lines[n : end + 1]), n + 1


def lines_with(pattern):
    for name, text in sources():
        for n, line in enumerate(text.split("\n"), 1):
            if re.search(pattern, line) and not line.lstrip().startswith("//"):
                yield f"{name}:{n}: {line.strip()}"


def small_enums():
    for name, text in sources():
        for m in re.finditer(r"enum (\w+)[^{]*\{(.*?)\n\}", text, re.S):
            body = re.sub(r"//.*", "", m.group(2))
            variants = re.findall(r"^    (\w+)(\(.*\))?,", body, re.M)
            if len(variants) == 2 and any(payload for _, payload in variants):
                yield f"{name}: enum {m.group(1)} of the shape of Option or Result"


def flags():
    for name, text in sources():
        for m in re.finditer(r"struct (\w+)[^{;]*\{(.*?)\n\}", text, re.S):
            fields = re.findall(r"^    (?:pub )?(\w+): ([^,\n]+),", m.group(2), re.M)
            for field, kind in fields:
                if kind == "bool" and len(fields) > 1:
                    yield f"{name}: {m.group(1)}.{field}: bool beside other fields"


def numbered():
    for name, text in sources():
        for fn, body, line in functions(text):
            if len(re.findall(r"=> \d+,", body)) > 1 and "::" in body:
                yield f"{name}:{line}: {fn} gives a number for each kind"
    yield from lines_with(r"\b(?:number|layer|field|kind|code): u8\b")
    yield from lines_with(r"\b(?:number|file|index|slot|row)s? [!=]= 0\b")
    for name, text in sources():
        for n, line in enumerate(text.split("\n"), 1):
            if re.search(r"//.*\b(?:0 for none|or 0 where|0: none|0 stands for|or row 0)", line):
                yield f"{name}:{n}: {line.strip()}"


def same_names():
    where = collections.defaultdict(list)
    for name, text in sources():
        for fn, body, line in functions(text):
            if not re.match(r" {4}", body) or "self" not in body.split("\n")[0]:
                where[fn].append(f"{name}:{line}")
    for fn, places in sorted(where.items()):
        if len(places) > 1 and fn not in ("main", "run", "new", "from", "blank", "open", "rest"):
            yield f"fn {fn}: " + ", ".join(places)


def loops():
    yield from lines_with(r"\bfor \w+ in .*\.\.|\bwhile |\bloop \{")


def by_hand():
    derivable = "Clone|Copy|PartialEq|Eq|PartialOrd|Ord|From|TryFrom|Display|Debug|Default"
    yield from lines_with(rf"^impl.*\b(?:{derivable})(?:<.*>)? for\b")
    yield from lines_with(r"\bfn (?:same|compare|number|slot|tell|escape|unescape)\w*\(")
    yield from lines_with(r":02x")


def clauses(body):
    for m in re.finditer(r"\b(requires|ensures)(?: \w+)? \{ (.*) \}\n", body):
        for part in m.group(2).split(" × "):
            yield m.group(1), part.strip("() ")


def repeated():
    facts, groups = collections.defaultdict(set), collections.defaultdict(set)
    for name, text in sources():
        crate = name.split(":")[0]
        for fn, body, line in functions(text):
            for kind, part in clauses(body):
                if kind == "requires":
                    facts[crate, part].add(fn)
            head = re.sub(r"\s+", " ", body.split(" {\n")[0])
            m = re.search(r"\((.*?)\)(?: ->| requires| ensures| \{|$)", head)
            params = re.findall(r"(\w+): ([^,]+)", m.group(1)) if m else []
            for i in range(len(params)):
                for j in range(i + 1, len(params)):
                    groups[crate, params[i][0] + ", " + params[j][0]].add(fn)
    for (crate, part), fns in sorted(facts.items()):
        if len(fns) > 2:
            yield f"{crate}: required by {len(fns)} functions: {part}"
    for (crate, pair), fns in sorted(groups.items()):
        if len(fns) > 2:
            yield f"{crate}: ({pair}) are parameters of {len(fns)} functions: {', '.join(sorted(fns))}"


def tables():
    for name, text in sources():
        for m in re.finditer(r"struct (\w+)[^{;]*\{(.*?)\n\}", text, re.S):
            fields = re.findall(r"^    (?:pub )?(\w+): ([^\n]+),", m.group(2), re.M)
            arrays = [f for f, kind in fields if re.match(r"\[.*; \w+\]$", kind)]
            lengths = [f for f, kind in fields if f in ("len", "count", "filled", "at")]
            if arrays and lengths:
                yield f"{name}: {m.group(1)} has {', '.join(arrays)} with {', '.join(lengths)} beside"
    yield from lines_with(r"\(\[\w+; \d+\], usize\)")
    yield from lines_with(r"\bfn (?:insert_at|place|settle|sort_rows|find|lookup)\b")


def switches():
    for name, text in sources():
        for fn, body, line in functions(text):
            calls = re.findall(r"=> (?:self\.)?[a-z_]+\(", body)
            if len(calls) > 2 and re.search(r"match \w+ \{", body) and "sink.write" not in body:
                yield f"{name}:{line}: {fn} runs one of {len(calls)} functions by a kind"
    yield from lines_with(r"^impl.* Ask\b.* for ")
    yield from lines_with(r"\bunreachable\(\)|: fn\(|\bdyn ")


def proofs():
    for path in sorted(glob.glob(f"{ROOT}/crates/*")):
        files = glob.glob(f"{path}/proofs/**/*.antt", recursive=True)
        lines = sum(len(open(f).read().split("\n")) for f in files)
        answers = sum(f.endswith("Answers.antt") for f in files)
        own = sum(len(re.findall(r"^(?:pub )?(?:lemma|abbrev|pub) ", open(f).read(), re.M)) for f in files if not re.search(r"(Answers|Invariants|Proof)\.antt$", f))
        if files:
            yield f"{path.split('/')[-1]}: {lines} lines, {answers} files of answers, {own} lemmas and definitions of its own"


POINTS = [
    ("1 own options and results, flags with a value, numbers for kinds", (small_enums, flags, numbered)),
    ("2 functions of one name (twins are among them)", (same_names,)),
    ("3 loops by index, while and loop", (loops,)),
    ("4 equality, order, copies, conversions and printing by hand", (by_hand,)),
    ("5 facts and parameters that stand three times or more", (repeated,)),
    ("6 tables with a length beside, searches by hand", (tables,)),
    ("7 switches on a step, questions as types, arms that can't be reached", (switches,)),
    ("8 proofs", (proofs,)),
]

for title, finders in POINTS:
    found = [place for finder in finders for place in finder()]
    print(f"{title}: {len(found)}")
    for place in found:
        print(f"    {place}")
