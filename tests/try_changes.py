#!/usr/bin/env python3
"""Tries every truncation and, at every place, some changed bytes of a few texts: try_changes.py PROGRAM FILE.drv...

PROGRAM is the built reading_cases; what it says of each text is compared with reading.py. Not a part of the gate.
"""
import hashlib
import random
import subprocess
import sys
from pathlib import Path

import reading

random.seed(7)
MARKS = list(b'"\\,()[]nrta0Z\n\t/-.')


def said(path, text):
    found = reading.fault(path, text)
    if found:
        return " ".join(map(str, found))
    wanted = reading.canonical(text)
    digest = hashlib.sha256(wanted).hexdigest()
    same = reading.first_difference(text, wanted)
    return f"reads {digest} canonical" if same is None else f"reads {digest} differs {same}"


def changes(text):
    for i in range(len(text) + 1):
        yield text[:i]
    for i in range(len(text)):
        for b in random.sample(MARKS, 3) + [random.randrange(256)]:
            yield text[:i] + bytes([b]) + text[i + 1:]


program, *files = sys.argv[1:]
lines, expected = [], []
for name in files:
    path = b"/nix/store/" + Path(name).name.encode()
    for text in changes(Path(name).read_bytes()):
        n = len(lines)
        lines.append(f"c{n} {path.hex()} {text.hex()}\n")
        expected.append(f"c{n} {said(path, text)}")
run = subprocess.run([program], input="".join(lines).encode(), capture_output=True)
got = run.stdout.decode().splitlines()
wrong = [(a, b) for a, b in zip(got, expected) if a != b]
print(f"{len(expected)} texts, status {run.returncode}, {len(got)} answers, {len(wrong)} of them other than expected")
sys.exit(0 if run.returncode == 0 and len(got) == len(expected) and not wrong else 1)
