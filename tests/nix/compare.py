#!/usr/bin/env python3
"""Gives a program images, each a line `NAME DIGITS` in base 16, and compares what it prints with the report of reference.py: compare.py PROGRAM < images.txt"""
import subprocess
import sys
from pathlib import Path

sys.path.insert(0, str(Path(__file__).resolve().parent.parent))
import reference


def agrees(program, name, image):
    ran = subprocess.run([program], input=image, capture_output=True)
    expected = reference.report(image)
    if ran.returncode == 0 and ran.stdout == expected:
        return True
    print(f"{name}: status {ran.returncode}")
    for got, wanted in zip(ran.stdout.splitlines(), expected.splitlines()):
        if got != wanted:
            print(f"  {got.decode(errors='replace')}, expected {wanted.decode()}")
    return False


lines = [line.split() for line in sys.stdin.read().splitlines()]
wrong = sum(not agrees(sys.argv[1], name, bytes.fromhex(digits)) for name, digits in lines)
print(f"{len(lines)} images, {wrong} of them with other lines than expected")
sys.exit(1 if wrong else 0)
