#!/usr/bin/env python3
"""Makes crates/reading_cases/stdin and stdout: derivation files in base 16 with their names, and what reading.py says of each.

With a folder as its argument the real derivations FOLDER/*/*.drv go in; without one, those that stand in stdin already are kept.
"""
import hashlib
import random
import sys
from pathlib import Path

import reading

root = Path(__file__).resolve().parent.parent
crate = root / "crates" / "reading_cases"
random.seed(5)

Z = b"0" * 32


def store(name, digits=Z):
    return b"/nix/store/" + digits + b"-" + name


OWN = store(b"a.drv")


def s(b):
    return b'"' + b + b'"'


def rows(items):
    return b"[" + b",".join(items) + b"]"


def out(name=b"out", path=None, algorithm=b"", digest=b""):
    path = store(b"p") if path is None else path
    return b"(" + b",".join(map(s, [name, path, algorithm, digest])) + b")"


def inp(path=None, names=(b"out",)):
    path = store(b"i.drv") if path is None else path
    return b"(" + s(path) + b"," + rows(map(s, names)) + b")"


def var(name, value=b""):
    return b"(" + s(name) + b"," + s(value) + b")"


def text(outputs=None, inputs=(), sources=(), system=b"x", builder=b"/b", arguments=(), environment=()):
    outputs = [out()] if outputs is None else outputs
    parts = [rows(outputs), rows(inputs), rows(map(s, sources)), s(system), s(builder), rows(map(s, arguments)), rows(environment)]
    return b"Derive(" + b",".join(parts) + b")"


cases = {}


def case(name, data, path=OWN):
    assert name not in cases and " " not in name, name
    cases[name] = (path, data)


# texts that read
whole = text(
    [out(b"out"), out(b"dev", store(b"q"))],
    [inp(store(b"i.drv"), [b"out", b"dev"]), inp(store(b"j.drv"))],
    [store(b"src"), store(b"t.drv")],
    b"x86_64-linux", b"/bin/sh", [b"-c", b"a \\\"b\\\" \\\\ \\n\\t\\r\\a"], [var(b"a", b"1"), var(b"\\n", b""), var(b"", b"\n\x00\xff")])
case("least", text())
case("whole", whole)
case("real-bytes-in-strings", text(system=bytes(b for b in range(256) if b not in b'"\\'), builder=b"".join(b"\\" + bytes([b]) for b in range(256))))
case("escape-a", text(system=b"\\a"))
case("escaped-quote", text(system=b"\\\""))
case("escaped-backslash-then-quote", text(system=b"\\\\"))
case("output-path-ends-in-drv", text([out(path=store(b"p.drv"))]))
case("source-path-ends-in-drv", text(sources=[store(b"s.drv")]))

# 11: a byte that is not allowed, or the end
case("empty", b"")
case("word-cut", b"Derive")
case("word-wrong", b"Derive[" + text()[7:])
case("word-small", b"derive" + text()[6:])
case("space-before", b" " + text())
case("space-within", text().replace(b",", b", ", 1))
case("newline-after", text() + b"\n")
case("byte-after", text() + b")")
case("zero-after", text() + b"\x00")
case("quote-after-escape-ends-no-string", b"Derive([],[],[],\"\\\"")
case("ends-in-escape", b"Derive([],[],[],\"a\\")
case("comma-after-last-row", text([out()]).replace(b")],[", b"),],[", 1))
case("comma-before-first-row", text().replace(b"([", b"([,", 1))
case("string-for-a-row", text().replace(b"[(", b"[\"", 1))
case("row-for-a-string", text(sources=[store(b"s")]).replace(b"[\"", b"[(", 1))
case("three-columns", b"Derive([(\"out\",\"p\",\"\")]" + text()[-20:])
case("five-columns", text().replace(b"\"\",\"\")", b"\"\",\"\",\"\")", 1))
case("six-fields", b"Derive([" + out() + b"],[],[],\"x\",\"/b\",[])")
case("eight-fields", text()[:-1] + b",[])")
case("names-not-a-list", b"Derive([" + out() + b"],[(\"p\",\"out\")],[],\"x\",\"/b\",[],[])")
case("system-a-list", b"Derive([" + out() + b"],[],[],[],\"/b\",[],[])")
case("list-ends-in-round", b"Derive([" + out() + b"),[],[],\"x\",\"/b\",[],[])")

# 12: a row too many, and what stands where it would begin
many = {
    "outputs": (16, lambda n: [out(b"o%d" % i) for i in range(n)], lambda r: text(outputs=r)),
    "inputs": (64, lambda n: [inp(store(b"i%d.drv" % i)) for i in range(n)], lambda r: text(inputs=r)),
    "sources": (64, lambda n: [store(b"s%d" % i) for i in range(n)], lambda r: text(sources=r)),
    "arguments": (64, lambda n: [b"%d" % i for i in range(n)], lambda r: text(arguments=r)),
    "environment": (128, lambda n: [var(b"v%d" % i) for i in range(n)], lambda r: text(environment=r)),
    "names": (16, lambda n: [b"n%d" % i for i in range(n)], lambda r: text(inputs=[inp(), inp(store(b"j.drv"), r)])),
}
for kind, (limit, make, put) in many.items():
    full = put(make(limit))
    more = put(make(limit + 1))
    case(f"{kind}-{limit}", full)
    case(f"{kind}-{limit + 1}", more)
    case(f"{kind}-{limit + 2}", put(make(limit + 2)))
    number, _, _, _, place = reading.fault(OWN, more)
    assert number == 12
    case(f"{kind}-{limit}-then-the-end", more[:place])
    case(f"{kind}-{limit}-then-the-end-before-the-comma", more[:place - 1])
    case(f"{kind}-{limit}-then-a-wrong-byte", more[:place] + b"x" + more[place + 1:])
    case(f"{kind}-{limit}-then-a-comma-and-the-list-ends", more[:place] + b"]")
    case(f"{kind}-{limit + 1}-cut-after-its-first-byte", more[:place + 1])
    case(f"{kind}-{limit + 1}-wrong-after-its-first-byte", more[:place + 1] + b"]")
    case(f"{kind}-{limit}-wrong-later", full[:-1] + b"]")
    case(f"{kind}-none", put([]))

# 13: no outputs, an input without names
case("no-outputs", text([]))
case("no-outputs-and-an-input-without-names", text([], [inp(names=[])]))
case("no-names-first", text(inputs=[inp(names=[])]))
case("no-names-third", text(inputs=[inp(store(b"%d.drv" % i), [b"out"] if i < 2 else []) for i in range(4)]))
case("no-names-before-ill-formed", text([out(b".x")], [inp(names=[])]))

# 14: backslashes, names and paths
for column in range(4):
    for value in [b"\\a", b"\\\\", b"out\\n"]:
        columns = [b"out", store(b"p"), b"", b""]
        columns[column] += value
        case(f"backslash-in-output-{column}-{value.hex()}", text([out(b"one", store(b"q")), out(*columns)]))
case("backslash-in-the-algorithm-of-a-fixed-file", text([out(algorithm=b"sha25\\6", digest=b"0" * 64)]))
case("backslash-in-the-hash-of-a-fixed-file", text([out(algorithm=b"sha256", digest=b"\\0" + b"0" * 63)]))
case("backslash-in-input-path", text(inputs=[inp(), inp(store(b"\\j.drv"))]))
case("backslash-in-input-path-before-drv", text(inputs=[inp(store(b"j\\.drv"))]))
case("backslash-in-input-name", text(inputs=[inp(names=[b"out", b"d\\ev"])]))
case("backslash-in-source", text(sources=[store(b"a"), store(b"b\\n")]))
case("backslash-elsewhere", text(system=b"\\n", builder=b"\\n", arguments=[b"\\n"], environment=[var(b"\\n", b"\\n")]))
ill_names = {
    "empty": b"", "dot": b".", "dot-first": b".a", "space": b"a b", "slash": b"a/b", "high": b"a\xc3\xa9", "zero": b"a\x00", "newline": b"a\n",
    "star": b"*", "212": b"n" * 212, "caret": b"a^b", "at": b"a@b",
}
good_names = {"211": b"n" * 211, "one": b"n", "dots": b"a..", "all": b"azAZ09+-._?=", "hyphen": b"-", "question": b"?"}
for label, name in {**ill_names, **good_names}.items():
    case(f"output-name-{label}", text([out(name)]))
    case(f"input-name-{label}", text(inputs=[inp(), inp(store(b"j.drv"), [b"out", name])]))
    case(f"source-name-{label}", text(sources=[store(name)]))
    case(f"output-path-name-{label}", text([out(path=store(name))]))
    case(f"input-path-name-{label}", text(inputs=[inp(store(name))]))
    case(f"input-path-name-drv-{label}", text(inputs=[inp(store(name + b".drv"))]))
ill_paths = {
    "empty": b"", "no-name": b"/nix/store/" + Z + b"-", "no-hyphen": b"/nix/store/" + Z, "short": b"/nix/store/" + Z[1:] + b"-a",
    "long": b"/nix/store/" + Z + b"0-a", "other-store": b"/nix/stork/" + Z + b"-a", "no-slash": b"nix/store/" + Z + b"-a",
    "digit-e": store(b"a", b"e" * 32), "digit-o": store(b"a", Z[1:] + b"o"), "digit-u": store(b"a", b"u" + Z[1:]), "digit-t": store(b"a", b"t" + Z[1:]),
    "digit-capital": store(b"a", b"A" + Z[1:]), "below": store(b"a/b"), "underscore": b"/nix/store/" + Z + b"_a",
}
for label, path in ill_paths.items():
    case(f"output-path-{label}", text([out(), out(b"two", path)]))
    case(f"input-path-{label}", text(inputs=[inp(path + b".drv")]))
    case(f"source-path-{label}", text(sources=[store(b"s"), path]))
case("digits-all", text([out(path=store(b"a", b"0123456789abcdfghijklmnpqrsvwxyz"))]))
for tail in [b"", b"drv", b".dr", b".drv1", b".DRV", b".drv.", b"x.drv", b".drv.drv"]:
    case(f"input-path-tail-{tail.decode()}", text(inputs=[inp(store(b"i" + tail))]))
case("input-path-only-drv", text(inputs=[inp(store(b".drv"))]))
case("formed-first-output-second-row", text([out(), out(b"b/"), out(b"c/")], [inp(b"")]))
case("formed-input-before-source", text(inputs=[inp(), inp(b"")], sources=[b""]))
case("formed-before-repeated", text([out(), out()], sources=[b"x"]))
case("formed-before-filled", text([out(b".", algorithm=b"sha256")]))

# 15: keys twice, by what they mean
three = [b"a", b"b", b"a"]
case("outputs-twice", text([out(), out()]))
case("outputs-twice-apart", text([out(n) for n in three]))
case("outputs-twice-later", text([out(n) for n in [b"a", b"b", b"c", b"d", b"b", b"a"]]))
case("output-paths-twice", text([out(b"a"), out(b"b")]))
case("inputs-twice", text(inputs=[inp(), inp()]))
case("inputs-twice-apart", text(inputs=[inp(store(n + b".drv")) for n in three]))
case("input-names-twice", text(inputs=[inp(), inp(store(b"j.drv"), [b"a", b"a"])]))
case("input-names-twice-apart", text(inputs=[inp(), inp(store(b"j.drv"), three)]))
case("input-names-in-two-rows", text(inputs=[inp(), inp(store(b"j.drv"))]))
case("input-names-twice-before-a-path-twice", text(inputs=[inp(), inp(store(b"j.drv"), three), inp()]))
case("sources-twice", text(sources=[store(b"s"), store(b"s")]))
case("sources-twice-apart", text(sources=[store(n) for n in three]))
case("source-and-input-alike", text(inputs=[inp()], sources=[store(b"i.drv")]))
case("arguments-twice", text(arguments=[b"a", b"a"]))
case("environment-twice", text(environment=[var(b"a"), var(b"a")]))
case("environment-twice-apart", text(environment=[var(n, b"%d" % i) for i, n in enumerate([b"a", b"b", b"c", b"a"])]))
case("environment-values-twice", text(environment=[var(b"a", b"x"), var(b"b", b"x")]))
case("environment-empty-twice", text(environment=[var(b""), var(b"a"), var(b"")]))
alike = {
    "a": (b"a", b"\\a"), "n": (b"\n", b"\\n"), "r": (b"\r", b"\\r"), "t": (b"\t", b"\\t"), "backslash": (b"\\\\", b"\\\\"), "quote": (b"\\\"", b"\\\""),
    "long": (b"xay", b"\\x\\a\\y"), "b": (b"\\b", b"b"), "escape-n-twice": (b"\\n", b"\\n"), "newline-escaped": (b"\n", b"\\\n"),
}
unlike = {
    "n": (b"n", b"\\n"), "t": (b"t", b"\\t"), "r": (b"r", b"\\r"), "n-r": (b"\\n", b"\\r"), "a": (b"a", b"\\\\a"), "longer": (b"a", b"\\a\\a"),
    "front": (b"ab", b"\\a"), "nn": (b"\\nn", b"\\n\\n"), "n-backslash": (b"\\\\n", b"\\n"), "empty": (b"", b"\\\\"),
}
for label, (x, y) in alike.items():
    case(f"alike-{label}", text(environment=[var(x), var(b"between"), var(y)]))
    case(f"alike-turned-{label}", text(environment=[var(y), var(x)]))
for label, (x, y) in unlike.items():
    case(f"unlike-{label}", text(environment=[var(x), var(y)]))
case("environment-128-last-like-first", text(environment=[var(b"v%d" % i) for i in range(127)] + [var(b"\\v0")]))
case("outputs-before-inputs-twice", text([out(), out()], [inp(), inp()]))
case("sources-before-environment-twice", text(sources=[store(b"s")] * 2, environment=[var(b"a")] * 2))
case("repeated-before-filled", text([out(algorithm=b"x")], environment=[var(b"a")] * 2))

# 16: filled columns
lengths = {b"md5": 32, b"sha1": 40, b"sha256": 64, b"sha512": 128}
for algorithm, n in lengths.items():
    a = algorithm.decode()
    for mark in [b"", b"r:"]:
        m = "r-" if mark else ""
        case(f"fixed-{m}{a}", text([out(algorithm=mark + algorithm, digest=(b"0123456789abcdef" * 8)[:n])]))
        case(f"fixed-{m}{a}-one-less", text([out(algorithm=mark + algorithm, digest=b"0" * (n - 1))]))
        case(f"fixed-{m}{a}-one-more", text([out(algorithm=mark + algorithm, digest=b"0" * (n + 1))]))
        case(f"fixed-{m}{a}-no-hash", text([out(algorithm=mark + algorithm)]))
        case(f"fixed-{m}{a}-capital", text([out(algorithm=mark + algorithm, digest=b"A" + b"0" * (n - 1))]))
        case(f"fixed-{m}{a}-last-no-digit", text([out(algorithm=mark + algorithm, digest=b"0" * (n - 1) + b"g")]))
    case(f"fixed-{a}-other-name", text([out(b"outs", algorithm=algorithm, digest=b"0" * n)]))
    case(f"fixed-{a}-dev", text([out(b"dev", algorithm=algorithm, digest=b"0" * n)]))
    case(f"fixed-{a}-two-outputs", text([out(algorithm=algorithm, digest=b"0" * n), out(b"dev")]))
    case(f"fixed-{a}-second-output", text([out(), out(b"dev", algorithm=algorithm, digest=b"0" * n)]))
    case(f"fixed-{a}-no-algorithm", text([out(digest=b"0" * n)]))
    case(f"fixed-{a}-of-another", text([out(algorithm=algorithm, digest=b"0" * lengths[b"sha1" if algorithm != b"sha1" else b"md5"])]))
for algorithm in [b"sha-256", b"SHA256", b"sha224", b"sha3", b"r:", b"r", b"r:r:sha256", b"R:sha256", b"r:sha256 ", b"sha256:", b"text:sha256", b"r:text", b"blake3"]:
    case(f"algorithm-{algorithm.hex()}", text([out(algorithm=algorithm, digest=b"0" * 64)]))
case("filled-third-output", text([out(b"a"), out(b"b"), out(b"c", digest=b"0"), out(b"d", algorithm=b"x")]))
case("filled-before-too-long", text([out(b"x" * 211), out(b"b", algorithm=b"x")]))

# 17: an output's own name
for stem in [1, 100, 206, 207, 208, 209, 210, 211, 212]:
    path = store(b"s" * stem + b".drv")
    case(f"stem-{stem}-out", text(), path)
    for n in sorted({max(1, 210 - stem - 1), max(1, 210 - stem), max(1, 211 - stem), 3}):
        case(f"stem-{stem}-name-{n}", text([out(), out(b"n" * n)]), path)
case("name-212-first-of-two", text([out(b"n" * 210), out(b"m" * 210)]))
case("name-211-three-bytes-not-out", text([out(b"ou1")]), store(b"s" * 208 + b".drv"))
case("fixed-too-long", text([out(algorithm=b"md5", digest=b"0" * 32)]), store(b"s" * 212 + b".drv"))
case("path-empty", text([out(b"n" * 210)]), b"")
case("path-short-name-211", text([out(b"n" * 211)]), b"/nix/store/")
case("path-of-48", text([out(b"n" * 210)]), b"p" * 48)
case("path-of-49", text([out(b"n" * 210)]), b"p" * 49)

# every question at once, one fewer each time
worst = dict(outputs=[out(b"n" * 211, algorithm=b"x")], inputs=[inp(names=[])], sources=[b""], environment=[var(b"a"), var(b"\\a")])
case("all-questions", text(**worst))
worst["inputs"] = [inp()]
case("questions-14-to-17", text(**worst))
worst["sources"] = []
case("questions-15-to-17", text(**worst))
worst["environment"] = []
case("questions-16-and-17", text(**worst))
worst["outputs"] = [out(b"n" * 211)]
case("question-17", text(**worst))

# real derivations
real = {}
if len(sys.argv) > 1:
    for drv in sorted(Path(sys.argv[1]).glob("*/*.drv")):
        real[f"real-{drv.parent.name}-{drv.name}"] = (b"/nix/store/" + drv.name.encode(), drv.read_bytes())
else:
    for line in (crate / "stdin").read_text().splitlines():
        name, path, data = line.split(" ")
        if name.startswith("real-") and name.endswith(".drv"):
            real[name] = (bytes.fromhex(path), bytes.fromhex(data))
assert real
for name, (path, data) in real.items():
    case(name, data, path)

# one of them cut at every place, and changed at some
path, short = min(real.values(), key=lambda f: (len(f[1]), f))
for n in range(len(short)):
    case(f"cut-{n}", short[:n], path)
marks = b'"\\,()[]nrt.-/ \x00\xff'
for n in range(500):
    at = random.randrange(len(short))
    byte = random.choice([bytes([random.choice(marks)]), bytes([random.randrange(256)])])
    what = random.choice(["put", "add", "drop"])
    changed = {"put": short[:at] + byte + short[at + 1:], "add": short[:at] + byte + short[at:], "drop": short[:at] + short[at + 1:]}[what]
    case(f"{what}-{n}-{at}", changed, path)
for n in range(200):
    at = random.randrange(len(whole))
    case(f"whole-{n}-{at}", whole[:at] + bytes([random.choice(marks)]) + whole[at + 1:])
for n in range(50):
    case(f"random-{n}", random.randbytes(random.randrange(80)))
    case(f"random-after-{n}", b"Derive([" + bytes(random.choice(marks) for _ in range(random.randrange(40))))


def rewritten(data):
    """What is said of a text that reads: the SHA-256 of its canonical text, and where the text first differs from it."""
    wanted = reading.canonical(data)
    digest = hashlib.sha256(wanted).hexdigest()
    place = reading.first_difference(data, wanted)
    return f"reads {digest} canonical" if place is None else f"reads {digest} differs {place}"


values = [b"", b"a", b"\\a", b"\\n", b"\n", b"\t", b"\\t", b"\r", b'\\"', b"\\\\", b"\xff\x00", b"plain text", b"(],)"]
keys = [b"", b"a", b"aa", b"ab", b"b", b"B", b"\\c", b"\\n", b"~", b"\xc3\xa9", b"a b", b"a\\\\"]
for n in range(120):
    variables = random.sample(keys, random.randrange(len(keys) + 1))
    names = random.sample([b"out", b"dev", b"lib", b"a", b"a-b", b"Z"], random.randrange(1, 7))
    files = random.sample([store(b"i%d.drv" % i) for i in range(6)], random.randrange(7))
    case(
        f"shuffled-{n}",
        text(
            outputs=[out(name) for name in names],
            inputs=[inp(f, random.sample([b"out", b"dev", b"a"], random.randrange(1, 4))) for f in files],
            sources=random.sample([store(b"s%d" % i) for i in range(5)], random.randrange(6)),
            system=random.choice(values),
            builder=random.choice(values),
            arguments=[random.choice(values) for _ in range(random.randrange(5))],
            environment=[var(v, random.choice(values)) for v in variables],
        ),
    )

lines, answers = [], []
for name, (path, data) in cases.items():
    lines.append(f"{name} {path.hex()} {data.hex()}\n")
    found = reading.fault(path, data)
    answers.append(f"{name} {rewritten(data)}\n" if found is None else f"{name} {' '.join(map(str, found))}\n")
(crate / "stdin").write_text("".join(lines))
(crate / "stdout").write_text("".join(answers))
