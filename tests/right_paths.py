#!/usr/bin/env python3
"""Works out hashes modulo inputs and right paths as docs/FORMATS.md defines them, and compares with the paths that the files state.

right_paths.py FOLDER...: each folder is a set of derivations made by Nix, each file named as its store path ends. Files made by Nix 2.8 differ where inputs of equal hash are taken by different names: docs/DECISIONS.md says why. make_right_path_cases.py and reference.py import what is defined here.
"""
import hashlib
import sys
from pathlib import Path

import reading
from reading import grouped, listed, meaning, quoted

DIGITS = b"0123456789abcdfghijklmnpqrsvwxyz"


def sha256(b):
    return hashlib.sha256(b).digest()


def zeros(b):
    """The digest that is the same for all strings."""
    return bytes(32)


def to_hex(b):
    return b.hex().encode()


def base32(bs):
    def bit(b):
        return (bs[b // 8] >> (b % 8)) & 1

    return bytes(DIGITS[sum(bit(5 * (31 - p) + j) << j for j in range(5))] for p in range(32))


def fold(bs):
    out = bytearray(20)
    for k, b in enumerate(bs):
        out[k % 20] ^= b
    return bytes(out)


def path_string(kind, hashed, name):
    return kind + b":sha256:" + hashed + b":/nix/store:" + name


class File:
    def __init__(self, text):
        fields = reading.Text(text).whole()
        self.outputs = sorted([meaning(c) for c in row] for _, row in fields[0])
        self.inputs = sorted((meaning(p), sorted(meaning(n) for _, n in names)) for _, (p, names) in fields[1])
        self.sources = sorted(meaning(r) for _, r in fields[2])
        self.system, self.builder = meaning(fields[3]), meaning(fields[4])
        self.arguments = [meaning(r) for _, r in fields[5]]
        self.environment = sorted([meaning(c) for c in row] for _, row in fields[6])
        self.fixed = reading.is_fixed([(0, row) for row in self.outputs])

    def text(self, outputs=None, inputs=None, environment=None):
        outputs = self.outputs if outputs is None else outputs
        inputs = self.inputs if inputs is None else inputs
        environment = self.environment if environment is None else environment
        parts = [
            listed(grouped(map(quoted, row)) for row in outputs),
            listed(grouped([quoted(p), listed(map(quoted, names))]) for p, names in inputs),
            listed(map(quoted, self.sources)),
            quoted(self.system),
            quoted(self.builder),
            listed(map(quoted, self.arguments)),
            listed(grouped(map(quoted, row)) for row in environment),
        ]
        return b"Derive(" + b",".join(parts) + b")"


class Worked:
    """What is digested for the file at a path, where `hashes` has the hashes of its inputs, and what comes of it.

    `own_strings` are digested for its own path alone, `output_strings[i]` for that of its output i alone, both counted from 0.
    """

    def __init__(self, path, file, hashes, digest=sha256):
        name = path[44:]
        self.strings, self.digest = [], digest
        references = sorted({p for p, _ in file.inputs} | set(file.sources))
        kind = b"text" + b"".join(b":" + r for r in references)
        self.own = self.located(kind, to_hex(self.digested(file.text())), name)
        self.own_strings = list(self.strings)
        if file.fixed:
            self.work_fixed(file.outputs[0], name[:-4], file)
        else:
            rows = sorted({to_hex(hashes[p]): names for p, names in file.inputs}.items())
            self.work_text(file, rows, name[:-4])

    def digested(self, string):
        self.strings.append(string)
        return self.digest(string)

    def located(self, kind, hashed, name):
        digits = base32(fold(self.digested(path_string(kind, hashed, name))))
        return b"/nix/store/" + digits + b"-" + name

    def work_fixed(self, only, stem, file):
        _, stated, algorithm, given = only
        inner = b"fixed:out:" + algorithm + b":" + given + b":"
        self.hash, self.masked = self.digested(inner + stated), None
        if algorithm == b"r:sha256":
            self.outputs = [self.located(b"source", given, stem)]
        else:
            self.outputs = [self.located(b"output:out", to_hex(self.digested(inner)), stem)]
        self.output_strings = [self.strings[len(self.own_strings) + 1:]]

    def work_text(self, file, rows, stem):
        self.hash = self.digested(file.text(inputs=rows))
        names = {r[0] for r in file.outputs}
        outputs = [[n, b"", algorithm, given] for n, _, algorithm, given in file.outputs]
        environment = [[n, b"" if n in names else v] for n, v in file.environment]
        self.masked = self.digested(file.text(outputs, rows, environment))
        text = self.strings[-1]
        self.outputs = [
            self.located(b"output:" + n, to_hex(self.masked), stem if n == b"out" else stem + b"-" + n) for n, _, _, _ in file.outputs
        ]
        self.output_strings = [[text, string] for string in self.strings[-len(file.outputs):]]


def wrong_variable(fields, right):
    """23: where the environment has an output's name with another path, or not at all."""
    variables = [(i, place, meaning(row[0]), meaning(row[1])) for i, (place, row) in enumerate(fields[6], 1)]
    for _, row in fields[0]:
        output = meaning(row[0])
        i, place, _, value = next((v for v in variables if v[2] == output), (0, 0, output, None))
        if value != right[output]:
            return 7, i, place


def verdict(path, text, worked):
    """The first no to the questions 21 to 24, as the five numbers that it is told by; five zeros where the file is accepted."""
    fields = reading.Text(text).whole()
    outputs = [(meaning(row[0]), meaning(row[1])) for _, row in fields[0]]
    right = dict(zip(sorted(output for output, _ in outputs), worked.outputs))
    if worked.own != path:
        return 21, 5, 0, 0, 0
    for i, (output, stated) in enumerate(outputs, 1):
        if stated != right[output]:
            return 22, 5, 1, i, fields[0][i - 1][0]
    found = wrong_variable(fields, right)
    if found:
        return (23, 5) + found
    place = reading.first_difference(text, reading.canonical(text))
    return (0, 0, 0, 0, 0) if place is None else (24, 5, 0, 0, place)


def in_order(files):
    """The paths of a set in an order in which inputs come before the files that use them."""
    order = []

    def take(path):
        if path not in order:
            for p, _ in files[path].inputs:
                take(p)
            order.append(path)

    for path in sorted(files):
        take(path)
    return order


def work_out(files):
    """What is worked out for each file of a set, by its path."""
    worked, hashes = {}, {}
    for path in in_order(files):
        worked[path] = Worked(path, files[path], hashes)
        hashes[path] = worked[path].hash
    return worked


def wrong_paths(files):
    """How many files of the set state a path that is not the right one."""
    wrong = 0
    for path, worked in sorted(work_out(files).items()):
        if worked.own != path or worked.outputs != [row[1] for row in files[path].outputs]:
            wrong += 1
            print("wrong:", path.decode())
    return wrong


def main():
    count = failed = 0
    for folder in sys.argv[1:]:
        files = {b"/nix/store/" + f.name.encode(): File(f.read_bytes()) for f in sorted(Path(folder).glob("*.drv"))}
        count += len(files)
        failed += wrong_paths(files)
    print(f"{count} files, {failed} with a path other than the right one")
    sys.exit(1 if failed else 0)


if __name__ == "__main__":
    main()
