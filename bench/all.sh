#!/usr/bin/env bash
# Proves and builds the programs that are measured, and runs every script of this folder: all.sh, or all.sh RUNS for so many rounds of each.
# Not part of any check. Wants what the scripts want: gcc, rustc, python3 and nix-store (Debian: nix-bin).
set -euo pipefail
cd "$(dirname "$0")/.."

names=(sha256 reading checker)
for name in "${names[@]}"; do
    (cd "crates/${name}_bench" && rt run < /dev/null > /dev/null)
done
for name in "${names[@]}"; do
    echo "== bench/$name.sh"
    "bench/$name.sh" "$@"
done
