#!/usr/bin/env python3
"""Packs derivation files into an image (docs/FORMATS.md, 'Image'): pack_image.py FILE.drv... > IMAGE. A file's path is /nix/store/ and its name."""
import struct
import sys
from pathlib import Path


def pack(files):
    """The image of (path, text) pairs, chained in their order. A path or text that stands in the image already is not written again."""
    start = 4 + 16 * len(files)
    body = bytearray(b"".join(text for _, text in files))
    slots, text_at = b"", 0
    for i, (path, text) in enumerate(files, 1):
        path_at = body.find(path)
        if path_at < 0:
            path_at = len(body)
            body += path
        slots += struct.pack("<HHIII", i + 1 if i < len(files) else 0, len(path), start + path_at, start + text_at, len(text))
        text_at += len(text)
    return struct.pack("<HH", len(files), 1 if files else 0) + slots + bytes(body)


def read_files(names):
    return [(b"/nix/store/" + Path(name).name.encode(), Path(name).read_bytes()) for name in names]


if __name__ == "__main__":
    sys.stdout.buffer.write(pack(read_files(sys.argv[1:])))
