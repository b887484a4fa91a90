#!/usr/bin/env python3
"""Makes the derivations of sets.nix with Nix, and packs each set, with all that it rests on, into an image: make_images.py FOLDER

FOLDER is empty. It gets a Nix store; images.txt, of which a line has a set's name and its image in base 16; and chain-256.img, an image that
is too long for drvcheck. Before it writes, it asks the second reading (tests/checking.py) about each file: all are accepted but for those
that are named here, nearly all of them because our rules differ from those of Nix 2.8.
"""
import json
import os
import subprocess
import sys
from pathlib import Path

sys.path.insert(0, str(Path(__file__).resolve().parent.parent))
import checking
from pack_image import pack
from right_paths import File, Worked

SETS = Path(__file__).resolve().parent / "sets.nix"

# The number told of a file that is not accepted, by its set and its name.
EXPECTED = {
    # One more than a file may have; Nix has no such limits. The user of 17 outputs names them in one input row.
    "past-outputs": {"many": 12, "user": 12},
    "past-inputs": {"many": 12},
    "past-sources": {"many": 12},
    "past-arguments": {"many": 12},
    "past-rows": {"many": 12},
    # Nix joins the names of inputs of equal hash; by our rule one row stands, with its own names, and so other paths are right.
    "equal-other": {"user": 22, "over": 22},
    "equal-turned": {"user": 22, "over": 22},
    # Nix writes the system without escapes, and makes the file's path of that; we make it of the canonical text.
    "system-newline": {"newline": 21},
    # The same text at its right path, with right output paths. Its system is not canonical.
    "system-right": {"newline": 24},
    # A system with a quotation mark can't be read; Nix fails too when it reads what it wrote.
    "system-quote": {"newline": 11},
    # By our rule a fixed file needs its inputs. Nix does not look at them.
    "fixed-input-absent": {"fetched": 18, "user": 20},
    # A fixed file states a wrong path. Nix would hash the right one, and so hold the output of `user` right; we hash what is stated.
    "fixed-stated-wrong": {"given": 22, "user": 22},
    "fixed-stated-ours": {"given": 22},
}


class Nix:
    def __init__(self, folder):
        self.root = folder / "root"
        self.bytes = folder / "bytes"
        self.bytes.write_bytes(bytes(range(1, 256)))
        self.environment = {k: v for k, v in os.environ.items() if not k.startswith("NIX_")} | {"NIX_CONF_DIR": str(folder)}

    def run(self, program, *words):
        command = [program, "--store", f"local?root={self.root}", *words]
        return subprocess.run(command, env=self.environment, check=True, capture_output=True, text=True).stdout

    def instantiate(self, *words):
        return self.run("nix-instantiate", *words, str(SETS), "--arg", "bytes", str(self.bytes))

    def names(self):
        told = self.run("nix-instantiate", "--eval", "--json", "--expr", f"builtins.attrNames (import {SETS} {{ bytes = null; }})")
        return json.loads(told)

    def files(self, name):
        """The files of a set, by path."""
        tops = self.instantiate("-A", name).split()
        paths = self.run("nix-store", "--query", "--requisites", *tops).split()
        return {p.encode(): (self.root / p[1:]).read_bytes() for p in paths if p.endswith(".drv")}


def named(files, name):
    """The path of the file of that name."""
    return next(path for path in files if path[44:-4] == name)


def settled(path, text, hashes, right_outputs=True):
    """A changed file with right output paths, where they are wanted, at its right path; and its hash."""
    if right_outputs:
        file = File(text)
        for row, right in zip(file.outputs, Worked(path, file, hashes).outputs):
            text = text.replace(row[1], right)
    worked = Worked(path, File(text), hashes)
    return worked.own, text, worked.hash


def system_changed(files):
    (path, text), = files.items()
    own, right, _ = settled(path, text, {})
    return {"system-right": {own: right}, "system-quote": {path: text.replace(b'"x\n"', b'"x"y"')}}


def input_absent(files):
    tool = named(files, b"tool")
    return {"fixed-input-absent": {path: text for path, text in files.items() if path != tool}}


def stated_wrong(files):
    given, user = named(files, b"given"), named(files, b"user")
    stated = File(files[given]).outputs[0][1]
    path, text, hashed = settled(given, files[given].replace(stated, stated[:11] + b"0" * 32 + stated[43:]), {}, right_outputs=False)
    user_text = files[user].replace(given, path).replace(stated, stated[:11] + b"0" * 32 + stated[43:])
    sets = {}
    for name, right_outputs in ("fixed-stated-wrong", False), ("fixed-stated-ours", True):
        user_path, changed, _ = settled(user, user_text, {path: hashed}, right_outputs)
        sets[name] = {path: text, user_path: changed}
    return sets


def ask(name, files):
    """Fails unless each file of the set gets the number that is expected."""
    expected = EXPECTED.get(name, {})
    assert set(expected) <= {path[44:-4].decode() for path in files}, name
    lines = checking.report(sorted(files.items())).splitlines()
    for (path, _), line in zip(sorted(files.items()), lines):
        number = int(line.split()[1])
        assert number == expected.get(path[44:-4].decode(), 0), (name, path, line)


def main():
    folder = Path(sys.argv[1]).resolve()
    nix = Nix(folder)
    sets = {name: nix.files(name) for name in nix.names()}
    sets |= system_changed(sets["system-newline"]) | input_absent(sets["fixed-input"]) | stated_wrong(sets["fixed-stated"])
    assert set(EXPECTED) <= set(sets)
    for name, files in sets.items():
        ask(name, files)
    images = {name: pack(sorted(files.items())) for name, files in sorted(sets.items())}
    (folder / "chain-256.img").write_bytes(images.pop("chain-256"))
    assert all(len(image) <= 65535 for image in images.values())
    (folder / "images.txt").write_text("".join(f"{name} {image.hex()}\n" for name, image in images.items()))


if __name__ == "__main__":
    main()
