#!/usr/bin/env python3
"""A second, independent reading of docs/FORMATS.md: what drvcheck prints of an image. reference.py < IMAGE"""
import re
import struct
import sys

import checking

NAME = re.compile(rb"[0-9a-zA-Z+\-_?=][0-9a-zA-Z+\-._?=]{0,210}")
PATH = re.compile(rb"/nix/store/[0-9abcdfghijklmnpqrsvwxyz]{32}-(.*)", re.S)


def is_store_path(path):
    m = PATH.fullmatch(path)
    return bool(m and NAME.fullmatch(m.group(1)))


def open_image(img):
    """(files, None) or (None, (number, slot))."""
    if not 4 <= len(img) <= 4194304:
        return None, (2, 0)
    count, index = struct.unpack_from("<HH", img)
    if count > 256 or 4 + 16 * count > len(img):
        return None, (3, 0)
    chain, holder = [], 0
    while index:
        if index > count or index in chain:
            return None, (4, holder)
        chain.append(index)
        holder = index
        index = struct.unpack_from("<H", img, 4 + 16 * (index - 1))[0]
    files = []
    for slot in chain:
        _, plen, poff, toff, tlen = struct.unpack_from("<HHIII", img, 4 + 16 * (slot - 1))
        if poff + plen > len(img) or toff + tlen > len(img) or tlen > 262144:
            return None, (5, slot)
        files.append((slot, img[poff:poff + plen], img[toff:toff + tlen]))
    for slot, path, _ in files:
        if not (is_store_path(path) and path.endswith(b".drv")):
            return None, (6, slot)
    seen = set()
    for slot, path, _ in files:
        if path in seen:
            return None, (7, slot)
        seen.add(path)
    return [(path, text) for _, path, text in files], None


def report(img):
    files, refused = (None, (2, 0)) if len(img) > 65535 else open_image(img)
    return b"refused %d %d\n" % refused if refused else checking.report(files)


if __name__ == "__main__":
    sys.stdout.buffer.write(report(sys.stdin.buffer.read()))
