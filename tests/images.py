"""Makes images and derivations for the cases that other files write."""
import struct
from collections import defaultdict
from pathlib import Path

import reading
import right_paths
from reading import grouped, listed, quoted

root = Path(__file__).resolve().parent.parent

Z = b"0" * 32


def path(name, digits=Z):
    return b"/nix/store/" + digits + b"-" + name


def image(files, first=1, nexts=None, count=None):
    """files: (path, text) of slots 1, 2, ..; by default chained in that order."""
    n = len(files)
    at = 4 + 16 * n
    nexts = nexts if nexts is not None else [i + 1 if i < n else 0 for i in range(1, n + 1)]
    head = struct.pack("<HH", n if count is None else count, first if files else 0)
    body = b""
    for (p, text), following in zip(files, nexts):
        head += struct.pack("<HHIII", following, len(p), at + len(body), at + len(body) + len(p), len(text))
        body += p + text
    return head + body


def patched(img, at, form, *values):
    out = bytearray(img)
    struct.pack_into(form, out, at, *values)
    return bytes(out)


def derivation(outputs, inputs=(), sources=(), arguments=(), environment=()):
    """Rows as they are given, in any order."""
    fields = [
        listed(grouped(map(quoted, row)) for row in outputs),
        listed(grouped([quoted(p), listed(map(quoted, names))]) for p, names in inputs),
        listed(map(quoted, sources)),
        quoted(b"x86_64-linux"),
        quoted(b"/bin/sh"),
        listed(map(quoted, arguments)),
        listed(grouped(map(quoted, row)) for row in environment),
    ]
    return b"Derive(" + b",".join(fields) + b")"


def output(name=b"out", algorithm=b"", given=b""):
    return [name, path(b"stated"), algorithm, given]


def made_by_nix():
    """The derivations made by Nix that stand in crates/reading_cases/stdin: the files of each set, sorted, by the set's name."""
    sets = defaultdict(list)
    for row in (root / "crates" / "reading_cases" / "stdin").read_text().splitlines():
        name, stored, text = row.split(" ")
        if name.startswith("real-") and name.endswith(".drv"):
            sets[name.split("-")[1]].append((bytes.fromhex(stored), bytes.fromhex(text)))
    return {name: sorted(files) for name, files in sets.items()}


class Forge:
    """Makes files that state their right paths, and knows the hashes of those that it made."""

    def __init__(self, digest=right_paths.sha256):
        self.digest, self.hashes = digest, {}

    def worked(self, stored, text):
        return right_paths.Worked(stored, right_paths.File(text), self.hashes, self.digest)

    def placed(self, name, text):
        """The text at its right path."""
        stored = self.worked(path(name), text).own
        assert reading.fault(stored, text) is None
        self.hashes[stored] = self.worked(stored, text).hash
        return stored, text

    def fixed(self, name, algorithm, given, **more):
        """A file with one output whose hash is given."""
        text = derivation([output(b"out", algorithm, given)], environment=[[b"out", path(b"stated")]], **more)
        return self.placed(name, text.replace(path(b"stated"), self.worked(path(name), text).outputs[0]))

    def file(self, name, outputs=(b"out",), inputs=(), sources=(), arguments=(), environment=(), variables=None):
        """Rows in the order given; the variables of the outputs, which have their paths, come first."""
        variables = outputs if variables is None else variables
        right = dict.fromkeys(outputs, path(b"stated"))

        def text():
            rows = [[n, right[n], b"", b""] for n in outputs]
            named = [[n, right[n]] for n in variables]
            return derivation(rows, inputs, sources, arguments, named + list(environment))

        right = dict(zip(sorted(outputs), self.worked(path(name), text()).outputs))
        return self.placed(name, text())
