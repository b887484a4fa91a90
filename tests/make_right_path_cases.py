#!/usr/bin/env python3
"""Makes crates/right_path_cases/stdin and stdout: derivations made by Nix in base 16 with their names, and what right_paths.py works out for each.

The derivations are those that stand in crates/reading_cases/stdin, and those of a set come in an order in which inputs come before the files that use them. After them come a few that were changed.
It fails where a right path is not the one that Nix wrote, but for 5 files of the set that was made to have inputs of equal hash (docs/DECISIONS.md says why).
"""
from collections import defaultdict
from pathlib import Path

import reading
import right_paths
from right_paths import verdict

root = Path(__file__).resolve().parent.parent
crate = root / "crates" / "right_path_cases"


def derivations():
    """The derivations made by Nix, each by its path, under the name of its set; and each one's name."""
    sets, names = defaultdict(dict), {}
    for line in (root / "crates" / "reading_cases" / "stdin").read_text().splitlines():
        name, path, text = line.split(" ")
        if name.startswith("real-") and name.endswith(".drv"):
            part = name.split("-")[1]
            sets[part][bytes.fromhex(path)] = bytes.fromhex(text)
            names[part, bytes.fromhex(path)] = name
    return sets, names


def answer(path, text, worked):
    count = sum(map(len, worked.strings))
    masked = worked.masked.hex() if worked.masked else "-"
    paths = [q.decode() for q in [worked.own] + worked.outputs]
    return " ".join([*map(str, verdict(path, text, worked)), str(count), worked.hash.hex(), masked, *paths])


cases, answers = {}, {}


def case(name, path, text, said):
    assert name not in cases, name
    cases[name], answers[name] = (path, text), said


sets, names = derivations()
assert sum(map(len, sets.values())) == 156 and len(sets["equal"]) == 16
known, differing = {}, []
for part, texts in sets.items():
    files = {path: right_paths.File(text) for path, text in texts.items()}
    for path, worked in right_paths.work_out(files).items():
        said = answer(path, texts[path], worked)
        if part == "equal" and said.startswith("22 "):
            differing.append(path)
        else:
            assert worked.own == path and worked.outputs == [row[1] for row in files[path].outputs], path
            assert said.startswith("0 0 0 0 0 "), said
        assert known.setdefault(path, worked.hash) == worked.hash
        case(names[part, path], path, texts[path], said)
assert len(differing) == 5, differing


def changed(name, path, text, own=None):
    """A changed file. At its own right path, unless another path is named, so that it comes past 21."""
    file = right_paths.File(text)
    path = right_paths.Worked(path, file, known).own if own is None else own
    assert reading.fault(path, text) is None
    case(name, path, text, answer(path, text, right_paths.Worked(path, file, known)))


def once(one, other):
    """The text of the changed file with one part of it replaced."""
    assert text.count(one) == 1, one
    return text.replace(one, other)


def right_outputs(text):
    """The text of a changed file with its output paths made right; the masked text, from which they come, has none of them."""
    file = right_paths.File(text)
    for row, right in zip(file.outputs, right_paths.Worked(path, file, known).outputs):
        text = text.replace(row[1], right)
    return text


path, text = next((p, t) for p, t in sets["outputs"].items() if p.endswith(b"-multi.drv"))
lib, out = (row[1] for row in right_paths.File(text).outputs[1:])
lib_variable, out_row = b'("lib","' + lib + b'"),', b',("out","' + out + b'","","")'
by_text = {
    "output-path": once(b'"' + lib + b'",""', b'"' + lib + b'-",""'),
    "source": once(b"[],[],", b'[],["' + out + b'"],'),
    "variable": once(lib_variable, b'("lib",""),'),
    "no-variable": right_outputs(once(lib_variable, b"")),
}
same_meaning = {
    "escape": once(b'"/bin/sh",[]', b'"\\/bin/sh",[]'),
    "variables-turned": once(lib_variable, b"").replace(b'("builder"', lib_variable + b'("builder"'),
    "outputs-turned": once(out_row, b"").replace(b"[", b"[" + out_row[1:] + b",", 1),
}
changed("changed-digits", path, text, path[:11] + b"0" * 32 + path[43:])
for label, other in by_text.items():
    changed(f"changed-{label}", path, other)
for label, other in same_meaning.items():
    changed(f"changed-{label}", path, other, path)

unread = text[:-1]
case("unread", path, unread, " ".join(map(str, reading.fault(path, unread))))
case("no-store-path", path[1:], text, "unfit")
case("long-path", path + b"0" * 256, text, "unfit")
without = once(b"[],[],", b'[("/nix/store/' + b"1" * 32 + b'-a.drv",["out"])],[],')
assert reading.fault(path, without) is None
case("without-input", path, without, "missing")

(crate / "stdin").write_text("".join(f"{name} {path.hex()} {text.hex()}\n" for name, (path, text) in cases.items()))
(crate / "stdout").write_text("".join(f"{name} {said}\n" for name, said in answers.items()))
