#!/usr/bin/env bash
# Times SHA-256 of 16 MiB: the proved program, the same work in C, and coreutils' sha256sum. Not part of any check.
# Wants: `rt run` in crates/sha256_bench done before, gcc, and the C library's headers.
set -euo pipefail
cd "$(dirname "$0")/.."

runs=${1:-15}
out=target/bench
mkdir -p "$out"
kit=$(dirname "$(rt doc)")

# Rattle's clang comes without C headers of its own and is given gcc's; gcc links.
"$kit/toolchain/bin/clang" -O3 -isystem "$(gcc -print-file-name=include)" -c -o "$out/clang.o" bench/sha256.c
gcc -o "$out/clang" "$out/clang.o"
gcc -O3 -o "$out/gcc" bench/sha256.c
head -c 16777216 /dev/urandom > "$out/data"

# sum is coreutils' sha256sum, which reads the file once for each time that it is named
names=(rattle clang gcc sum)
eleven=()
for _ in $(seq 11); do eleven+=("$out/data"); done
declare -A once more

# the microseconds that a command takes
took() {
    local start=$EPOCHREALTIME
    "$@" > /dev/null
    local end=$EPOCHREALTIME
    echo $((${end/./} - ${start/./}))
}

# keeps the least: $1 the table, $2 the name, then the command
keep() {
    local -n table=$1
    local name=$2 us
    shift 2
    us=$(took "$@")
    if [ -z "${table[$name]:-}" ] || [ "$us" -lt "${table[$name]}" ]; then table[$name]=$us; fi
}

want=$(crates/sha256_bench/out/sha256_bench)
for p in "$out/clang" "$out/gcc"; do
    [ "$("$p")" = "$want" ] || { echo "$p answers another digest" >&2; exit 1; }
done

# the programs take turns, so that a slow moment of the machine falls on all
for _ in $(seq "$runs"); do
    keep once rattle crates/sha256_bench/out/sha256_bench 1
    keep once clang "$out/clang" 1
    keep once gcc "$out/gcc" 1
    keep once sum sha256sum "$out/data"
    keep more rattle crates/sha256_bench/out/sha256_bench 11
    keep more clang "$out/clang" 11
    keep more gcc "$out/gcc" 11
    keep more sum sha256sum "${eleven[@]}"
done

hash() { echo $(((more[$1] - once[$1]) / 10)); }
ms() { echo "$(($1 / 1000)).$(($1 % 1000 / 100))"; }
ratio() { printf '%d.%02d' $(($2 / $1)) $((100 * $2 / $1 % 100)); }

echo "best of $runs, 16777216 bytes"
echo "whole program, one digest:"
for n in "${names[@]}"; do
    printf '  %-7s %6s ms   speed of rattle over it %s\n' "$n" "$(ms "${once[$n]}")" "$(ratio "${once[rattle]}" "${once[$n]}")"
done
echo "one digest alone, (time of 11 - time of 1) / 10:"
for n in "${names[@]}"; do
    us=$(hash "$n")
    printf '  %-7s %6s ms  %4d MB/s   speed of rattle over it %s\n' "$n" "$(ms "$us")" $((16777216 / us)) "$(ratio "$(hash rattle)" "$us")"
done
