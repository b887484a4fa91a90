#!/usr/bin/env bash
# A visit that lapses, and one that is settled twice, are no programs: the compiler refuses both.
# Each edit in this folder is made in a copy of crates/visits, which must then be refused for the reason that it names; with no edit it runs.
set -euo pipefail
cd "$(dirname "$0")/../.."

room=$(mktemp -d)
trap 'rm -rf "$room"' EXIT
tar --exclude=out -cf - crates crates.txt | tar -xf - -C "$room"
program=$room/crates/visits/src/main.rt

# tries the program as it stands in the copy: `rt try` compiles and runs it, and proves nothing
try() { (cd "$room/crates/visits" && rt try 2>&1) || true; }

try > "$room/told"
grep -q '^run=ended status=0' "$room/told" || { cat "$room/told"; echo "visits does not run"; exit 1; }

for edit in tests/refused/*.edit; do
    cp crates/visits/src/main.rt "$program"
    python3 - "$edit" "$program" <<'PYTHON'
import sys
edit, program = sys.argv[1:]
lines = [line.split(": ", 1) for line in open(edit).read().splitlines()]
text = open(program).read()
pairs = [value for key, value in lines if key in ("old", "new")]
for old, new in zip(pairs[::2], pairs[1::2]):
    assert text.count(old) == 1, f"{edit}: {old!r} does not stand once"
    text = text.replace(old, new)
open(program, "w").write(text)
PYTHON
    try > "$room/told"
    reason=$(sed -n 's/^error: //p' "$edit")
    grep -qF "$reason" "$room/told" || { cat "$room/told"; echo "$edit: not refused with '$reason'"; exit 1; }
    echo "$edit: refused"
done
