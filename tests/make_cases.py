#!/usr/bin/env python3
"""Makes crates/cases/stdin and stdout, images in base 16 with their names and what reference.py says of each, and crates/drvcheck/stdout."""
import random
import struct
from collections import Counter

import reference
import right_paths
from images import Forge, Z, derivation, image, made_by_nix, output, patched, path, root
from sets import OUT, absent, forge, sets

two = image([(path(b"a.drv"), b"text a"), (path(b"b.drv"), b"text b")])
three = [(path(b"%d.drv" % i), b"t%d" % i) for i in range(3)]
many = [(path(b"n%d.drv" % i), b"") for i in range(256)]

cases = {
    "empty": b"",
    "three-bytes": bytes(3),
    "four-zero-bytes": bytes(4),
    "no-files-but-a-slot": struct.pack("<HH", 1, 0) + bytes(16),
    "longest-input": bytes(65535),
    "input-one-too-long": bytes(65536),
    "slots-256": image(many),
    "slots-257": struct.pack("<HH", 257, 0) + bytes(16 * 257),
    "slots-past-the-end": struct.pack("<HH", 2, 0) + bytes(31),
    "slots-to-the-end": struct.pack("<HH", 2, 0) + bytes(32),
    "two": two,
    "two-turned": image([(path(b"a.drv"), b"text a"), (path(b"b.drv"), b"text b")], first=2, nexts=[0, 1]),
    "one-slot-ignored": image(three, first=1, nexts=[3, 0, 0]),
    "first-index-past-the-slots": patched(two, 2, "<H", 3),
    "next-index-past-the-slots": patched(two, 4, "<H", 3),
    "next-index-of-two-bytes": patched(two, 4, "<H", 0x0102),
    "slot-names-itself": patched(two, 4, "<H", 1),
    "repeated-not-adjacent": image(three, nexts=[2, 3, 1]),
    "repeated-second": image(three, nexts=[2, 3, 2]),
    "path-past-the-end": patched(two, 4 + 2, "<H", len(two)),
    "path-offset-wraps": patched(two, 4 + 16 + 4, "<I", 0xFFFFFFFF),
    "text-past-the-end": patched(two, 4 + 16 + 12, "<I", 7),
    "text-length-wraps": patched(two, 4 + 16 + 12, "<I", 0xFFFFFFFF),
    "empty-text-at-the-end": patched(two, 4 + 16 + 8, "<II", len(two), 0),
    "empty-text-past-the-end": patched(two, 4 + 16 + 8, "<II", len(two) + 1, 0),
    "path-not-drv": image([(path(b"a.drv"), b""), (path(b"b"), b"")]),
    "path-short-digits": image([(path(b"a.drv", Z[1:]), b"")]),
    "path-digit-e": image([(path(b"a.drv", Z[1:] + b"e"), b"")]),
    "path-no-hyphen": image([(b"/nix/store/" + Z + b"a.drv", b"")]),
    "path-other-store": image([(b"/nix/stone/" + Z + b"-a.drv", b"")]),
    "path-only-drv": image([(path(b".drv"), b"")]),
    "path-name-211": image([(path(b"n" * 207 + b".drv"), b"")]),
    "path-name-212": image([(path(b"n" * 208 + b".drv"), b"")]),
    "path-bad-byte": image([(path(b"a b.drv"), b"")]),
    "path-all-signs": image([(path(b"+-._?=09azAZ.drv"), b"")]),
    "path-repeated": image([(path(b"a.drv"), b"1"), (path(b"b.drv"), b"2"), (path(b"a.drv"), b"3")]),
    "part-before-path": image([(path(b"b"), b""), (path(b"a.drv"), b"")])[:-1],
    "path-before-repeated": image([(path(b"a.drv"), b""), (path(b"a.drv"), b""), (path(b"b"), b"")]),
    "parts-overlap": patched(two, 4 + 8, "<II", 0, len(two)),
    "text-one-byte-under-a-block": image([(path(b"a.drv"), b"x" * 55)]),
    "text-one-block-of-padding": image([(path(b"a.drv"), b"x" * 56)]),
    "text-one-block": image([(path(b"a.drv"), b"x" * 64)]),
    "text-many-blocks": image([(path(b"a.drv"), b"xyz" * 1000)]),
}
plain = derivation([output()], environment=[[b"out", path(b"stated")], [b"a", b"1"]])
some = [b"o%d" % i for i in range(15, 0, -1)] + [b"out"]
cases |= {
    "paths-one-output": image([(path(b"a.drv"), plain)]),
    "paths-16-outputs": image([(path(b"a.drv"), derivation([output(n) for n in some], environment=[[n, b"v"] for n in some[3:9]]))]),
    "paths-fixed-source": image([(path(b"a.drv"), derivation([output(b"out", b"r:sha256", b"0f" * 32)]))]),
    "paths-fixed-flat": image([(path(b"a.drv"), derivation([output(b"out", b"sha256", b"0f" * 32)]))]),
    "paths-fixed-md5": image([(path(b"a.drv"), derivation([output(b"out", b"r:md5", b"0f" * 16)]))]),
    "paths-sources-turned": image([(path(b"a.drv"), derivation([output(b"dev"), output(b"bin")], sources=[path(b"t"), path(b"s")], arguments=[b"\"\\\n\r\t", b"b", b"a"]))]),
    "paths-needless-escapes": image([(path(b"a.drv"), plain.replace(b"/bin/sh", b"/\\bin/sh").replace(b'"1"', b'"\n"'))]),
    "paths-longest-name": image([(path(b"n" * 207 + b".drv"), plain)]),
    "paths-only-without-inputs": image([
        (path(b"a.drv"), plain),
        (path(b"b.drv"), derivation([output()], [(path(b"a.drv"), [b"out"])])),
        (path(b"c.drv"), plain[:-1]),
        (path(b"d.drv"), plain),
    ]),
    "paths-ill-formed": image([(path(b"a.drv"), derivation([output(b"out", b"sha256", b"0f")]))]),
}
random.seed(180)
for i in range(12):
    cases[f"random-{i}"] = random.randbytes(random.randrange(4, 60))
for cut in (5, 19, 20, 21, 35, 36, 37, 84, 85, 90, len(two) - 1):
    cases[f"truncated-to-{cut}"] = two[:cut]

sample = bytes.fromhex("0100010000003100140000004500000000000000")
cases["sample"] = sample + path(b"a.drv")

cases |= {name: image(files) for name, (_, files) in sets.items()}

made = made_by_nix()
random.seed(181)
for name, files in made.items():
    cases[f"nix-{name}"] = image(files)
    cases[f"nix-{name}-shuffled"] = image(random.sample(files, len(files)))
    if name not in ("chain60", "diamond"):
        cases[f"nix-{name}-without-one"] = image(random.sample(files, len(files) - 1))


def closure(files, wanted):
    """The files of a set that some of its files rest on, and those themselves."""
    texts, found = dict(files), list(wanted)
    for stored in found:
        found += [other for other, _ in right_paths.File(texts[stored]).inputs if other not in found]
    return [(stored, texts[stored]) for stored in found]


def damaged(img):
    """With one byte changed."""
    at = random.randrange(len(img))
    byte = random.choice([img[at] ^ 1, random.choice(b'"\\,()[]nrt0a-. /'), random.randrange(256)])
    return img[:at] + bytes([byte]) + img[at + 1:]


def one_changed(files):
    """A digit or a name's byte, changed in some path that a file states, so that it reads as before."""
    k = random.randrange(len(files))
    stored, text = files[k]
    at = random.choice([i for i in range(len(text)) if text.startswith(b"/nix/store/", i)]) + 11 + random.randrange(36)
    other = text[:at] + bytes([text[at] ^ 1]) + text[at + 1:]
    return files[:k] + [(stored, other)] + files[k + 1:]


small = [closure(files, [random.choice(files)[0]]) for files in made.values() for _ in range(9)]
small = [files for files in small if sum(len(text) for _, text in files) < 2500]
for i in range(160):
    cases[f"nix-damaged-{i}"] = damaged(image(random.choice(small)))
for i in range(80):
    cases[f"nix-changed-{i}"] = image(one_changed(random.choice(small)))


def some_of(names):
    return sorted(random.sample(names, random.randrange(1, len(names) + 1)))


def random_set():
    """Files that name each other, themselves and files that are not there; most of them at their right paths."""
    forge, files = Forge(), []
    loose = [path(b"l%d.drv" % i) for i in range(2)]
    for i in range(random.randrange(1, 8)):
        known = {stored: [row[0] for row in right_paths.File(text).outputs] for stored, text in files}
        right = [stored for stored in known if stored in forge.hashes]
        near = random.sample(right, min(len(right), random.randrange(4)))
        outputs = random.sample([b"out", b"dev", b"bin"], random.choice([1, 1, 2, 3]))
        if random.random() < 0.75:
            files.append(forge.file(b"f%d.drv" % i, sorted(outputs), sorted((stored, some_of(known[stored])) for stored in near)))
        else:
            named = random.sample([absent, *loose, *known], random.randrange(1, min(4, 3 + len(known)) + 1))
            rows = [(stored, some_of(known.get(stored, OUT) if random.random() < 0.8 else [b"out", b"dev", b"bin"])) for stored in named]
            stored = random.choice([path(b"g%d.drv" % i), *[p for p in loose if p not in known]])
            files.append((stored, derivation([output(n) for n in outputs], rows)))
    return random.sample(files, len(files))


for i in range(160):
    img = image(random_set())
    cases[f"set-{i}"] = img if i % 4 else damaged(img)

# a chain as long as an input may be, the last file first
chain = [forge.file(b"0.drv")]
while len(image(chain)) < 65535 - 400:
    chain.append(forge.file(b"%d.drv" % len(chain), inputs=[(chain[-1][0], OUT)]))
cases["long-chain-turned"] = image(chain[::-1])
wide = [forge.file(b"w%d.drv" % i) for i in range(64)]
cases["inputs-64"] = image([forge.file(b"wide.drv", inputs=sorted((stored, OUT) for stored, _ in wide))] + wide)

# sets of derivations made by Nix, of which tests/nix/make_images.py knows the number that each file gets
for line in (root / "tests/nix/images.txt").read_text().splitlines():
    name, digits = line.split(" ")
    cases[f"made-by-nix-{name}"] = bytes.fromhex(digits)

lines, answers, told = [], [], Counter()
for name, img in cases.items():
    said = reference.report(img)
    lines.append(b"%s %s\n" % (name.encode(), img.hex().encode()))
    answers.append(b"%s\n%s" % (name.encode(), said))
    rows = [row.split() for row in said.decode().splitlines()]
    numbers = [row[1] for row in rows if rows[0][0] == "refused" or len(row) == 6]
    told.update(numbers)
    if name in sets:
        assert " ".join(numbers) == sets[name][0], (name, said)
    if name.startswith("nix-") and name[4:].removesuffix("-shuffled") in made and "equal" not in name:
        assert set(numbers) == {"0"}, name
# every number but 1 is told somewhere
assert set(told) == set(map(str, [0, *range(2, 8), *range(11, 25)])), told

out = root / "crates/cases"
(out / "stdin").write_bytes(b"".join(lines))
(out / "stdout").write_bytes(b"".join(answers))
drvcheck = root / "crates/drvcheck"
(drvcheck / "stdout").write_bytes(reference.report((drvcheck / "stdin").read_bytes()))
print(len(cases), "cases,", sum(map(len, lines)), "bytes; told", *(f"{n}: {told[n]}" for n in sorted(told, key=int)))
