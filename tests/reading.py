"""Reads the text of a derivation, says its first fault, (number, layer, field, row, place) or None, and writes its canonical text."""

ROW = {"outputs": 16, "inputs": 64, "names": 16, "sources": 64, "arguments": 64, "environment": 128}
NAME_BYTES = set(b"abcdefghijklmnopqrstuvwxyzABCDEFGHIJKLMNOPQRSTUVWXYZ0123456789+-._?=")
BASE32 = set(b"0123456789abcdfghijklmnpqrsvwxyz")
HASH_DIGITS = {b"md5": 32, b"sha1": 40, b"sha256": 64, b"sha512": 128}


class Stop(Exception):
    def __init__(self, number, place):
        self.number, self.place = number, place


class Text:
    def __init__(self, data):
        self.data, self.at = data, 0

    def peek(self):
        return self.data[self.at:self.at + 1]

    def take(self, byte):
        if self.peek() != byte:
            raise Stop(11, self.at)
        self.at += 1

    def word(self, word):
        for b in word:
            self.take(bytes([b]))

    def string(self):
        self.take(b'"')
        start = self.at
        while self.peek() != b'"':
            self.at += 2 if self.peek() == b"\\" else 1
            if self.at >= len(self.data):
                raise Stop(11, len(self.data))
        self.at += 1
        return self.data[start:self.at - 1]

    def rows(self, limit, first, read):
        """A list of (place, value); `first` is the byte that each row begins with."""
        self.take(b"[")
        found = []
        if self.peek() == b"]":
            self.at += 1
            return found
        while True:
            if len(found) == limit and self.peek() == first:
                raise Stop(12, self.at)
            if self.peek() != first:
                raise Stop(11, self.at)
            found.append((self.at, read()))
            if self.peek() == b"]":
                self.at += 1
                return found
            self.take(b",")

    def group(self, *readers):
        values = []
        for i, read in enumerate(readers):
            self.take(b"," if i else b"(")
            values.append(read())
        self.take(b")")
        return values

    def strings(self, kind):
        return self.rows(ROW[kind], b'"', self.string)

    def output(self):
        return self.group(self.string, self.string, self.string, self.string)

    def input(self):
        return self.group(self.string, lambda: self.strings("names"))

    def variable(self):
        return self.group(self.string, self.string)

    def whole(self):
        self.word(b"Derive(")
        fields = []
        readers = [
            lambda: self.rows(ROW["outputs"], b"(", self.output),
            lambda: self.rows(ROW["inputs"], b"(", self.input),
            lambda: self.strings("sources"),
            self.string,
            self.string,
            lambda: self.strings("arguments"),
            lambda: self.rows(ROW["environment"], b"(", self.variable),
        ]
        for i, read in enumerate(readers):
            if i:
                self.take(b",")
            fields.append(read())
        self.take(b")")
        if self.at != len(self.data):
            raise Stop(11, self.at)
        return fields


def meaning(raw):
    out, at = bytearray(), 0
    while at < len(raw):
        if raw[at] == 0x5C:
            at += 1
            out.append({0x6E: 10, 0x72: 13, 0x74: 9}.get(raw[at], raw[at]))
        else:
            out.append(raw[at])
        at += 1
    return bytes(out)


def is_name(s):
    return 1 <= len(s) <= 211 and s[:1] != b"." and set(s) <= NAME_BYTES


def is_store_path(s):
    return s[:11] == b"/nix/store/" and len(s) >= 44 and set(s[11:43]) <= BASE32 and s[43:44] == b"-" and is_name(s[44:])


def missing(fields, path):
    """13"""
    if not fields[0]:
        return 1, 0, 0
    for i, (place, (_, names)) in enumerate(fields[1]):
        if not names:
            return 2, i + 1, place


def ill_formed(fields, path):
    """14"""
    for i, (place, (name, stored, algorithm, digest)) in enumerate(fields[0]):
        if b"\\" in name + stored + algorithm + digest or not is_name(name) or not is_store_path(stored):
            return 1, i + 1, place
    for i, (place, (stored, names)) in enumerate(fields[1]):
        if not is_store_path(stored) or stored[-4:] != b".drv" or not all(is_name(n) for _, n in names):
            return 2, i + 1, place
    for i, (place, stored) in enumerate(fields[2]):
        if not is_store_path(stored):
            return 3, i + 1, place


def repeated(fields, path):
    """15"""
    keys = {
        1: [r[0] for _, r in fields[0]],
        2: [r[0] for _, r in fields[1]],
        3: [r for _, r in fields[2]],
        7: [r[0] for _, r in fields[6]],
    }
    for field, raw in keys.items():
        seen = set()
        for i, key in enumerate(raw):
            place, row = fields[field - 1][i]
            twice = field == 2 and len({meaning(n) for _, n in row[1]}) < len(row[1])
            if meaning(key) in seen or twice:
                return field, i + 1, place
            seen.add(meaning(key))


def is_fixed(outputs):
    if len(outputs) != 1:
        return False
    name, _, algorithm, digest = outputs[0][1]
    if algorithm[:2] == b"r:":
        algorithm = algorithm[2:]
    return name == b"out" and HASH_DIGITS.get(algorithm) == len(digest) and set(digest) <= set(b"0123456789abcdef")


def filled(fields, path):
    """16"""
    if is_fixed(fields[0]):
        return None
    for i, (place, (_, _, algorithm, digest)) in enumerate(fields[0]):
        if algorithm or digest:
            return 1, i + 1, place


def too_long(fields, path):
    """17"""
    stem = max(0, len(path) - len("/nix/store/") - 33 - len(".drv"))
    for i, (place, (name, _, _, _)) in enumerate(fields[0]):
        if stem + (0 if name == b"out" else 1 + len(name)) > 211:
            return 1, i + 1, place


def fault(path, text):
    try:
        fields = Text(text).whole()
    except Stop as stop:
        return stop.number, 2, 0, 0, stop.place
    for number, question in enumerate([missing, ill_formed, repeated, filled, too_long], 13):
        found = question(fields, path)
        if found:
            return (number, 3) + found
    return None


def quoted(value):
    named = {0x22: b'\\"', 0x5C: b"\\\\", 10: b"\\n", 13: b"\\r", 9: b"\\t"}
    return b'"' + b"".join(named.get(b, bytes([b])) for b in value) + b'"'


def listed(items):
    return b"[" + b",".join(items) + b"]"


def grouped(items):
    return b"(" + b",".join(items) + b")"


def canonical(text):
    """The canonical text of a text that reads: rows rising by what their keys mean, and no escape but those that are needed."""
    fields = Text(text).whole()
    outputs = sorted([meaning(c) for c in row] for _, row in fields[0])
    inputs = sorted((meaning(path), sorted(meaning(n) for _, n in names)) for _, (path, names) in fields[1])
    sources = sorted(meaning(r) for _, r in fields[2])
    environment = sorted([meaning(c) for c in row] for _, row in fields[6])
    parts = [
        listed(grouped(map(quoted, row)) for row in outputs),
        listed(grouped([quoted(path), listed(map(quoted, names))]) for path, names in inputs),
        listed(map(quoted, sources)),
        quoted(meaning(fields[3])),
        quoted(meaning(fields[4])),
        listed(quoted(meaning(r)) for _, r in fields[5]),
        listed(grouped(map(quoted, row)) for row in environment),
    ]
    return b"Derive(" + b",".join(parts) + b")"


def first_difference(one, two):
    """The number of bytes at the front in which two texts agree; None where they are the same."""
    if one == two:
        return None
    return next((i for i, (a, b) in enumerate(zip(one, two)) if a != b), min(len(one), len(two)))
