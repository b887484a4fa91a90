#!/usr/bin/env python3
"""Makes crates/run_cases/stdin and stdout: lists of calls over an image, with either digest, and what checking.py answers to each."""
import random

import reference
import right_paths
from checking import Checker, Refused
from images import Forge, derivation, image, made_by_nix, output, path, root
from sets import OUT, alone, itself, multi, ring_a, ring_b, sets, unread, user, using

DIGESTS = {"sha256": right_paths.sha256, "zeros": right_paths.zeros}
FILL = b"\xee"
KEPT = 4096
LARGEST = 2**64 - 1


class Run:
    """One checker with its buffer; a visit is offered by the number of the file."""

    def __init__(self, files, digest, size):
        self.checker, self.buffer, self.last = Checker(files, DIGESTS[digest]), FILL * size, 0

    def write(self, start, size, text_of):
        """A call that writes to a part of the buffer, which ends where the buffer ends."""
        start, end = min(start, len(self.buffer)), min(start + size, len(self.buffer))
        text = text_of(end - start)
        self.buffer = self.buffer[:start] + text + self.buffer[start + len(text):]
        return f"written {len(text)}"

    def answer(self, call, *numbers):
        checker = self.checker
        if call == "take":
            self.last = checker.take()
            return f"take {self.last}"
        if call == "settle":
            return f"settle {checker.settle(numbers[0] if numbers else self.last)}"
        if call == "put_back":
            checker.put_back(numbers[0] if numbers else self.last)
            return "put_back 0"
        if call == "circle":
            return f"circle {checker.circle()}"
        if call == "verdict":
            told = checker.verdict(*numbers)
            return "verdict pending" if told is None else "verdict " + " ".join(map(str, told))
        *of, start, size = numbers
        return self.write(start, size, lambda room: getattr(checker, call)(*of, room))

    def told(self, words):
        """The answer to a call as the program writes it."""
        call, *numbers = words.split(":")
        try:
            return self.answer(call, *map(int, numbers))
        except Refused as refused:
            return f"{'written' if call in ('path', 'rewrite', 'line', 'tail') else call} refused {refused.number}"


def played(digest, room, size, img, calls):
    files, refused = reference.open_image(img)
    run = Run(files, digest, size)
    lines = ["refused %d %d" % refused if refused else "opened"]
    lines += [run.told(call) for call in calls[:room]]
    lines += ["none"] * (room - len(calls))
    last = run.checker.last
    lines.append(f"calls {min(room, len(calls))}")
    lines.append(f"buffer {run.buffer.hex()}")
    lines.append(f"sink {min(len(last), KEPT)} {DIGESTS[digest](last).hex()}")
    return lines


cases, refusals = {}, {}


def case(name, digest, img, calls, size=1200, room=None):
    assert (name, digest) not in cases
    room = len(calls) if room is None else room
    lines = played(digest, room, size, img, calls)
    cases[name, digest] = (room, size, img, calls), lines
    for call, line in zip(calls, lines[1:]):
        if " refused " in line:
            refusals.setdefault((call.split(":")[0], int(line.split()[-1])), name)
    return lines


def both(name, img, calls, **more):
    for digest in DIGESTS:
        case(name, digest, img, calls, **more)


every = ["take", "settle", "settle:1", "put_back", "put_back:1", "verdict:1", "path:1:0:0:300", "rewrite:1:0:900", "circle", "line:1:0:40", "tail:0:20"]
settle_all = ["take", "settle"]
one = image([alone])
paired = image([alone, multi])

both("not-opened", b"", every)
both("not-opened-slot", image([alone, alone]), every)
both("no-files", image([]), every + ["line:0:0:40", "verdict:0"])
both("each-call", one, every)
both("before-any-take", one, ["settle", "put_back", "settle:0", "put_back:0", "settle:1", "put_back:2", f"settle:{LARGEST}", "take", "settle"])
both("take-twice", paired, ["take", "take", "settle", "take", "take", "settle", "take", "settle"])
both("settle-twice", paired, ["take", "settle", "settle", "settle:1", "put_back", "put_back:1", "take", "settle:1", "settle:2", "settle:2"])
both("put-back", paired, ["take", "put_back", "put_back", "settle", "verdict:1", "take", "line:1:0:20", "settle", "line:1:20:20", "take", "put_back:2", "tail:40:20", "take", "settle:2", "tail:60:20"])
both("no-such-file", paired, [f"{call}:{k}{rest}" for k in (0, 3, 257, LARGEST) for call, rest in [("verdict", ""), ("path", ":0:0:300"), ("rewrite", ":0:900"), ("line", ":0:40")]])
both("no-hash", image([unread, using(b"over", (unread[0], OUT)), alone]), ["path:1:0:0:300", "path:3:0:0:300", "take", "path:1:0:0:0"] + ["settle"] + settle_all * 2 + ["path:1:0:0:300", "path:2:9:0:0", "path:3:0:0:300", "path:3:1:300:300", "path:3:2:0:0"])
outputs = right_paths.File(multi[1]).outputs
both("paths", image([multi]), settle_all + [f"path:1:{j}:{100 * j}:100" for j in range(len(outputs) + 2)])
both("paths-short", image([multi]), settle_all + [f"path:1:{j}:{100 * j}:{n}" for j in range(4) for n in (0, 43, 44, 45, 51, 52, 53, 54, 55, 56, 57, 58)])
both("path-past-the-outputs-and-short", image([multi]), settle_all + ["path:1:4:0:0", f"path:1:{LARGEST}:0:0"])
canonical_length = len(multi[1])
both("rewrite-short", image([multi]), [f"rewrite:1:0:{canonical_length - 1}", f"rewrite:1:1:{canonical_length}", f"rewrite:1:2:{LARGEST}"])
both("rewrite-unread", image([unread]), ["rewrite:1:0:0", "take", "rewrite:1:0:900", "settle", "rewrite:1:0:900"])
both("rewrite-orders", image(sets["not-canonical-escape"][1] + sets["not-canonical-order"][1]), ["rewrite:1:0:500", "rewrite:2:500:700"])
both("line-short", one, ["line:1:0:9", "line:1:0:10", "take", "line:1:10:9", "line:1:10:10", "settle", "line:1:20:11", "line:1:20:12", "line:1:40:2000"], size=60)
both("tail-short", one, ["tail:0:5", "tail:0:6", "take", "tail:10:6", "settle", "tail:20:7", "tail:20:8", "tail:30:2000"], size=60)
both("windows", one, settle_all + ["line:1:59:12", "line:1:60:12", "line:1:61:12", f"line:1:{LARGEST}:{LARGEST}", f"tail:{LARGEST}:1", f"line:1:0:{LARGEST}", "tail:4:8", "line:1:2:12", "path:1:0:10:60", "path:1:1:10:50"], size=60)
both("no-buffer", one, settle_all + ["path:1:0:0:300", "rewrite:1:0:900", "line:1:0:40", "tail:0:20", "circle"], size=0)
both("less-room", paired, settle_all * 2 + ["tail:0:20"], room=3)
both("no-room", paired, settle_all, room=0)
both("more-room", paired, settle_all, room=5)
both("cycle", image([ring_a, ring_b, alone]), ["circle"] + (settle_all + ["circle"]) * 3 + ["line:1:0:40", "line:2:40:40", "line:3:80:40", "tail:120:40"])
both("cycle-of-one", image([alone, itself]), ["circle"] + settle_all * 2 + ["verdict:2"])
both("cycle-broken", image(sets["cycle-broken-by-18"][1]), ["circle"] + settle_all * 2 + ["verdict:1", "verdict:2"])
both("cycle-broken-by-a-file-that-does-not-read", image([ring_a, (ring_b[0], ring_b[1][:-1])]), ["circle"] + settle_all * 2 + ["verdict:1", "verdict:2"])
both("above-first", image([user, multi, alone]), (settle_all + ["line:1:0:40", "tail:40:40"]) * 3)
both("path-after-the-next", paired, settle_all * 2 + ["path:1:0:0:300", "path:1:1:0:300", "path:2:3:0:300"])
for name, (_, files) in sets.items():
    if len(image(files)) < 3000:
        lines = [f"line:{k}:{40 * (k - 1)}:40" for k in range(1, len(files) + 1)]
        both(f"whole-{name}", image(files), settle_all * len(files) + lines + [f"tail:{40 * len(files)}:40", "take", "circle"], size=40 * len(files) + 40)
for name, files in made_by_nix().items():
    files = files[:8]
    paths = [f"path:{k}:{j}:{200 * k - 200 + 100 * j}:100" for k in range(1, len(files) + 1) for j in (0, 1)]
    both(f"nix-{name}", image(files), settle_all * len(files) + paths + [f"tail:1600:40"], size=1640)

# what is right where every digest is 32 zeros
zeros = Forge(right_paths.zeros)
stated = path(b"a")
sample = derivation([[b"out", stated, b"", b""]], environment=[[b"out", stated]]).replace(b"x86_64-linux", b"s").replace(b"/bin/sh", b"b")
without = sample.replace(b'[("out","%s")])' % stated, b"[])")
assert case("sample", "zeros", image([(path(b"a.drv"), sample)]), settle_all + ["verdict:1"])[3] == "verdict 0 0 0 0 0"
assert case("sample-without-variable", "zeros", image([(path(b"a.drv"), without)]), settle_all + ["verdict:1"])[3].startswith("verdict 23 ")
below = [zeros.file(b"%s.drv" % n, [b"dev", b"out"]) for n in (b"p", b"q", b"r")]
rows = [(stored, names) for (stored, _), names in zip(below, ([b"dev", b"out"], OUT, [b"dev"]))]
files = [zeros.file(b"equal.drv", inputs=rows), *below, zeros.fixed(b"flat.drv", b"sha1", b"a" * 40), zeros.fixed(b"tree.drv", b"r:sha256", b"a" * 64)]
said = case("equal-hashes", "zeros", image(files), settle_all * 6 + ["path:1:1:0:100", "rewrite:1:100:900", "tail:1000:40"])
assert b"6 6 100\n".hex() in said[-2], said

random.seed(31)
words = {
    "take": lambda n: "take",
    "settle": lambda n: random.choice(["settle", "settle", "settle", f"settle:{random.randrange(n + 2)}"]),
    "put_back": lambda n: random.choice(["put_back", f"put_back:{random.randrange(n + 2)}"]),
    "verdict": lambda n: f"verdict:{random.randrange(n + 2)}",
    "path": lambda n: f"path:{random.randrange(n + 2)}:{random.randrange(4)}:{random.randrange(300)}:{random.randrange(40, 90)}",
    "rewrite": lambda n: f"rewrite:{random.randrange(n + 2)}:{random.randrange(300)}:{random.randrange(500)}",
    "circle": lambda n: "circle",
    "line": lambda n: f"line:{random.randrange(n + 2)}:{random.randrange(600)}:{random.randrange(24)}",
    "tail": lambda n: f"tail:{random.randrange(600)}:{random.randrange(12)}",
}
for i in range(80):
    name, (_, files) = random.choice([s for s in sets.items() if len(image(s[1][1])) < 2500])
    made = random.choices(list(words), [9, 9, 1, 3, 5, 3, 1, 3, 2], k=random.randrange(10, 50))
    both(f"random-{i}-{name}", image(random.sample(files, len(files))), [words[call](len(files)) for call in made], size=600)

# every call is refused by every number that it can be
wanted = {"take": [31, 32, 33], "settle": [31, 34], "put_back": [31, 34], "verdict": [31, 35], "path": [31, 35, 36, 37, 39], "rewrite": [31, 35, 38, 39],
          "circle": [31], "line": [31, 35, 39], "tail": [31, 39]}
assert set(refusals) == {(call, n) for call, ns in wanted.items() for n in ns}, refusals

crate = root / "crates/run_cases"
(crate / "stdin").write_text("".join(f"{n}-{d} {d} {room} {size} {img.hex()} {','.join(calls)}\n" for (n, d), ((room, size, img, calls), _) in cases.items()))
(crate / "stdout").write_text("".join("\n".join([f"{n}-{d}"] + lines) + "\n" for (n, d), (_, lines) in cases.items()))
print(len(cases), "lists,", sum(len(c[0][3]) for c in cases.values()), "calls")
