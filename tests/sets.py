"""Sets of files, each with the numbers that its files are told by."""
import reading
import right_paths
from images import Forge, derivation, output, path

forge = Forge()
alone = forge.file(b"alone.drv")
multi = forge.file(b"multi.drv", [b"bin", b"dev", b"out"], environment=[[b"zone", b"\"\\\n\r\t\xff"]])
flat = forge.fixed(b"flat.drv", b"sha256", b"0f" * 32)
tree = forge.fixed(b"tree.drv", b"r:sha256", b"0f" * 32)
user = forge.file(b"user.drv", inputs=sorted([(alone[0], [b"out"]), (multi[0], [b"bin", b"out"])]), sources=[path(b"s"), path(b"t")])
above = forge.file(b"user-above.drv", inputs=[(user[0], [b"out"])])
far = forge.file(b"far.drv", inputs=[(above[0], [b"out"])])


def using(name, *rows, **more):
    """A file with these input rows that states paths that are not right."""
    stated = path(name + b".drv")
    return stated, derivation([output()], [(stated if p is None else p, names) for p, names in rows], environment=[[b"out", path(b"stated")]], **more)


OUT = [b"out"]
itself = using(b"itself", (None, OUT))
absent = path(b"absent.drv", b"1" * 32)
ring_a, ring_b = using(b"ring-a", (path(b"ring-b.drv"), OUT)), using(b"ring-b", (path(b"ring-a.drv"), OUT))
over_ring = using(b"over-ring", (ring_a[0], OUT))
unread = path(b"unread.drv"), b"Derive("
no_outputs = path(b"no-outputs.drv"), derivation([])


def changed(file, one, other, own=None):
    """A file with one part of its text changed, at the right path of the new text unless another is given."""
    assert file[1].count(one) == 1, (one, file)
    text = file[1].replace(one, other)
    return (own, text) if own else forge.placed(file[0][44:], text)


def same_meaning(file, one, other):
    """A file with one part of its text written otherwise, still at its right path."""
    found = changed(file, one, other, file[0])
    assert reading.canonical(found[1]) == reading.canonical(file[1])
    return found


def turned(file):
    """A file as it is, but for the order of its environment's first two rows."""
    rows = [b'("%s","%s")' % tuple(row) for row in right_paths.File(file[1]).environment[:2]]
    return same_meaning(file, b",".join(rows), b",".join(reversed(rows)))


# of each set, the numbers that its files are told by, in order, written by hand
sets = {
    "accepted-one": ("0", [alone]),
    "accepted-multi": ("0", [multi]),
    "accepted-fixed": ("0 0 0 0 0 0", [flat, tree, *(forge.fixed(b"f%d.drv" % i, a, b"a" * n) for i, (a, n) in enumerate([(b"md5", 32), (b"r:sha1", 40), (b"sha1", 40), (b"r:sha512", 128)]))]),
    "accepted-set": ("0 0 0 0 0 0", [alone, multi, user, above, far, flat]),
    "accepted-set-turned": ("0 0 0 0 0 0", [flat, far, above, user, multi, alone]),
    "sources-that-are-files": ("0 0 0", [alone, forge.file(b"s.drv", sources=[alone[0]]), forge.file(b"t.drv", inputs=[(alone[0], OUT)], sources=[alone[0]])]),
    "fixed-with-input": ("0 0", [alone, forge.fixed(b"g.drv", b"sha256", b"1" * 64, inputs=[(alone[0], OUT)])]),
    "fixed-without-input": ("18", [forge.fixed(b"h.drv", b"sha256", b"2" * 64, inputs=[(alone[0], OUT)])]),
    "longest-names": ("0 0", [forge.file(b"n" * 207 + b".drv"), forge.file(b"n" * 203 + b".drv", [b"o" * 7])]),
    "name-too-long": ("0 17", [forge.file(b"n" * 203 + b".drv", [b"o" * 7]), (path(b"n" * 203 + b".drv"), derivation([output(b"o" * 8)]))]),
    "row-too-many": ("12 0", [(path(b"w.drv"), derivation([output(b"o%d" % i) for i in range(17)])), forge.file(b"v.drv", [b"o%02d" % i for i in range(16)])]),
    "names-itself": ("20", [itself]),
    "names-itself-second": ("0 20", [alone, using(b"second", (alone[0], OUT), (None, OUT))]),
    "names-itself-unowned": ("19", [using(b"unowned", (None, [b"dev"]))]),
    "cycle-of-two": ("20 20", [ring_a, ring_b]),
    "cycle-of-two-and-above": ("20 20 20", [over_ring, ring_a, ring_b]),
    "cycle-of-two-and-above-last": ("20 20 20", [ring_b, ring_a, over_ring]),
    "cycle-of-three-and-two-above": ("20 20 20 20 20", [using(b"a", (over_ring[0], OUT)), over_ring, ring_a, using(b"ring-b", (path(b"ring-c.drv"), OUT)), using(b"ring-c", (ring_a[0], OUT))]),
    "cycle-with-a-file-below": ("20 20 0", [using(b"ring-a", (alone[0], OUT), (ring_b[0], OUT)), ring_b, alone]),
    "cycle-and-a-file-unread": ("20 20 20 11", [using(b"mixed", (ring_a[0], OUT), (unread[0], OUT)), ring_a, ring_b, unread]),
    "cycle-and-a-file-unread-first": ("11 20 20 20", [unread, ring_a, ring_b, using(b"mixed", (ring_a[0], OUT), (unread[0], OUT))]),
    "cycle-broken-by-18": ("18 20", [using(b"ring-a", (ring_b[0], OUT), (absent, OUT)), ring_b]),
    "cycle-broken-by-19": ("19 20 20", [using(b"ring-a", (ring_b[0], [b"dev"])), ring_b, over_ring]),
    "two-cycles": ("20 20 20 20", [ring_a, using(b"link", (itself[0], OUT), (ring_b[0], OUT)), ring_b, itself]),
    "settled-without-before-pending": ("20 0 11", [using(b"first", (alone[0], OUT), (unread[0], OUT)), alone, unread]),
    "unread-below": ("20 11 20", [using(b"over", (unread[0], OUT)), unread, using(b"over-over", (path(b"over.drv"), OUT))]),
    "unread-owns-all": ("20 13", [using(b"over", (no_outputs[0], [b"any"])), no_outputs]),
    "absent": ("18", [using(b"lone", (absent, OUT))]),
    "absent-second": ("0 18", [alone, using(b"lone", (alone[0], OUT), (absent, OUT))]),
    "absent-before-unowned": ("0 18", [alone, using(b"lone", (alone[0], [b"dev"]), (absent, OUT))]),
    "absent-below": ("20 18", [using(b"top", (path(b"lone.drv"), OUT)), using(b"lone", (absent, OUT))]),
    "unowned": ("0 19", [alone, using(b"lone", (alone[0], [b"dev"]))]),
    "unowned-second-name": ("0 19", [multi, using(b"lone", (multi[0], [b"dev", b"lib"]))]),
    "unowned-before-unhashed": ("19 0 11", [using(b"lone", (unread[0], OUT), (alone[0], [b"dev"])), alone, unread]),
    "unowned-longer-name": ("0 19", [multi, using(b"lone", (multi[0], [b"outs"]))]),
    "own-path": ("21", [changed(alone, b"/bin/sh", b"/bin/zsh", alone[0])]),
    "own-path-digits": ("21", [(path(b"alone.drv"), alone[1])]),
    "own-path-of-an-input": ("21 18", [(path(b"alone.drv"), alone[1]), forge.file(b"over.drv", inputs=[(forge.placed(b"alone.drv", alone[1])[0], OUT)])]),
    "output-path": ("22", [changed(alone, b'-alone","",""', b'-clone","",""')]),
    "output-path-second": ("22", [changed(multi, b'-multi-dev","",""', b'-multi-lib","",""')]),
    "output-path-fixed": ("22", [changed(flat, b'-flat","sha256"', b'-flats","sha256"')]),
    "variable": ("23", [changed(alone, b'("out","%s")' % right_paths.File(alone[1]).outputs[0][1], b'("out","")')]),
    "variable-second": ("23", [changed(multi, b'-multi-dev")', b'-multi-lib")')]),
    "no-variable": ("23", [forge.file(b"none.drv", environment=[[b"name", b"none"]], variables=[])]),
    "no-variable-second": ("23", [forge.file(b"none.drv", [b"dev", b"out"], variables=[b"dev"])]),
    "variable-fixed": ("23", [changed(flat, b'-flat")', b'-flats")')]),
    "not-canonical-escape": ("24", [same_meaning(alone, b'"/bin/sh"', b'"\\/bin/sh"')]),
    "not-canonical-raw-newline": ("24", [same_meaning(multi, b"\\n", b"\n")]),
    "not-canonical-order": ("24", [turned(multi)]),
    "not-canonical-outputs": ("24", [forge.file(b"o.drv", [b"out", b"dev"], variables=[b"dev", b"out"])]),
    "not-canonical-inputs": ("0 0 24", [alone, multi, forge.file(b"o.drv", inputs=sorted([(alone[0], OUT), (multi[0], OUT)], reverse=True))]),
    "not-canonical-names": ("0 24", [multi, forge.file(b"o.drv", inputs=[(multi[0], [b"out", b"bin"])])]),
    "not-canonical-sources": ("24", [forge.file(b"o.drv", sources=[path(b"t"), path(b"s")])]),
    "not-canonical-below": ("24 0", [same_meaning(alone, b'"/bin/sh"', b'"\\/bin/sh"'), forge.file(b"over.drv", inputs=[(alone[0], OUT)])]),
    "wrong-below": ("22 0", [changed(alone, b'-alone","",""', b'-clone","",""'), forge.file(b"over.drv", inputs=[(forge.placed(b"alone.drv", alone[1].replace(b'-alone","",""', b'-clone","",""'))[0], OUT)])]),
    "all-from-21": ("21", [(path(b"w.drv"), derivation([output()], environment=[[b"z", b""], [b"out", b""]]))]),
    "all-from-22": ("22", [forge.placed(b"w.drv", derivation([output()], environment=[[b"z", b""], [b"out", b""]]))]),
}
