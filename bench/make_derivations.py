#!/usr/bin/env python3
"""Makes derivations that are all accepted, always the same: make_derivations.py COUNT LENGTH INPUTS FOLDER

COUNT files of about LENGTH bytes of text each, in layers of 16: those of the first are fixed, each of the others has INPUTS files of the
layer below as inputs. FOLDER gets the image (`image`), the files in a folder `store`, named as their store paths end, and for Nix what
`nix-store --load-db` reads of them and of their sources (`registration`).
"""
import hashlib
import random
import struct
import sys
from pathlib import Path

sys.path.insert(0, str(Path(__file__).resolve().parent.parent / "tests"))
from pack_image import pack
from reading import fault, grouped, listed, quoted
from right_paths import DIGITS, File, Worked, verdict

ACCEPTED = (0, 0, 0, 0, 0)
LAYER = 16
VARIABLES = 24
LETTERS = [bytes([b]) for b in b"abcdefghijklmnopqrstuvwxyz   -/="]
ESCAPES = [b"\n", b'"', b"\\", b"\t"]


def digits():
    return bytes(random.choice(DIGITS) for _ in range(32))


def value(length):
    """A string that is about so long when it is written; one place in 10 is an escape of two bytes."""
    places = random.choices(LETTERS, k=length * 10 // 11)
    places[9::10] = random.choices(ESCAPES, k=len(places) // 10)
    return b"".join(places)


class Made:
    def __init__(self, path, text, worked):
        self.path, self.text, self.hash = path, text, worked.hash
        self.outputs = {row[0]: row[1] for row in File(text).outputs}


def written(name, outputs, inputs, sources, fill):
    """The text of a file. Its output paths are not right yet."""
    paths = {output: b"/nix/store/" + output.rjust(32, b"0") + b"-" + name for output, _, _ in outputs}
    variables = {b"name": name, b"builder": b"/bin/sh", b"system": b"x86_64-linux", b"src": b" ".join(sources)}
    variables[b"buildInputs"] = b" ".join(other.outputs[o] for other, names in inputs for o in names)
    variables |= paths | {b"variable%d" % i: filling for i, filling in enumerate(fill)}
    fields = [
        listed(grouped(map(quoted, [output, paths[output], algorithm, given])) for output, algorithm, given in outputs),
        listed(grouped([quoted(other.path), listed(map(quoted, names))]) for other, names in inputs),
        listed(map(quoted, sources)),
        quoted(b"x86_64-linux"),
        quoted(b"/bin/sh"),
        listed(map(quoted, [b"-e", sources[0]])),
        listed(grouped(map(quoted, row)) for row in sorted(variables.items())),
    ]
    return b"Derive(" + b",".join(fields) + b")"


def settled(name, text, inputs):
    """The file with right output paths, at its right path."""
    hashes = {other.path: other.hash for other, _ in inputs}
    path = b"/nix/store/" + b"0" * 32 + b"-" + name + b".drv"
    file = File(text)
    for row, right in zip(file.outputs, Worked(path, file, hashes).outputs):
        text = text.replace(row[1], right)
    worked = Worked(path, File(text), hashes)
    assert fault(worked.own, text) is None and verdict(worked.own, text, worked) == ACCEPTED
    return Made(worked.own, text, worked)


def make_file(number, below, sources, length):
    name = b"package-%d-1.0" % number
    if below:
        outputs = [(o, b"", b"") for o in [b"dev", b"lib", b"out"][random.randrange(3):]]
    else:
        algorithm = random.choice([b"sha256", b"r:sha256"])
        outputs = [(b"out", algorithm, random.randbytes(32).hex().encode())]
    inputs = [(other, sorted(random.sample(sorted(other.outputs), random.randint(1, len(other.outputs))))) for other in below]
    parts = name, outputs, inputs, sorted(random.sample(sources, 2))
    room = max(0, length - len(written(*parts, [b""] * VARIABLES)))
    text = written(*parts, [value(room // VARIABLES) for _ in range(VARIABLES)])
    return settled(name, text, inputs)


def make_files(count, sources, length, inputs):
    files = []
    for number in range(count):
        start = number // LAYER * LAYER
        below = random.sample(files[start - LAYER:start], inputs) if start else []
        files.append(make_file(number, sorted(below, key=lambda other: other.path), sources, length))
    return sorted(files, key=lambda file: file.path)


def archive_hash(content):
    """The hash that Nix keeps of a file: that of its archive."""
    words = [b"nix-archive-1", b"(", b"type", b"regular", b"contents", content, b")"]
    archive = b"".join(struct.pack("<Q", len(w)) + w + bytes(-len(w) % 8) for w in words)
    return hashlib.sha256(archive).hexdigest(), len(archive)


def registered(path, content, references):
    """Path, hash, size, no deriver, and the references."""
    hashed, size = archive_hash(content)
    return "\n".join([path.decode(), hashed, str(size), "", str(len(references)), *(r.decode() for r in references)]) + "\n"


def main():
    count, length, inputs = map(int, sys.argv[1:4])
    folder = Path(sys.argv[4])
    random.seed(17)
    sources = [b"/nix/store/" + digits() + b"-source-%d" % i for i in range(32)]
    files = make_files(count, sources, length, inputs)
    pairs = [(file.path, file.text) for file in files]
    store = folder / "store"
    store.mkdir(parents=True, exist_ok=True)
    for path, text in pairs:
        (store / path[11:].decode()).write_bytes(text)
    (folder / "image").write_bytes(pack(pairs))
    registration = [registered(source, b"", []) for source in sources]
    for path, text in pairs:
        file = File(text)
        registration.append(registered(path, text, sorted({p for p, _ in file.inputs} | set(file.sources))))
    (folder / "registration").write_text("".join(registration))
    print(count, "files,", sum(len(text) for _, text in pairs), "bytes of text")


if __name__ == "__main__":
    main()
