#!/usr/bin/env bash
# Makes the images of derivations with Nix again, and compares what drvcheck says of them with what the second reading says: run.sh PROGRAM
# PROGRAM is the built drvcheck. Wants Nix 2.8 (Debian's nix-bin). The gate runs on the images that are kept, and not this script.
set -euo pipefail
program=$(realpath "$1")
cd "$(dirname "$0")"

work=$(mktemp -d)
trap 'rm -rf "$work"' EXIT
python3 make_images.py "$work"
cmp "$work/images.txt" images.txt
cmp "$work/chain-256.img" ../../crates/checker_bench/stdin
python3 compare.py "$program" < "$work/images.txt"
