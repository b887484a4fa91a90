#!/usr/bin/env bash
# Times the reading of a derivation's text, and its rewriting in canonical form: the proved program and plain Rust. Not part of any check.
# Wants: `rt run` in crates/reading_bench done before, and rustc.
set -euo pipefail
cd "$(dirname "$0")/.."

runs=${1:-9}
few=20
many=200
sizes=(64 128 255)
out=target/bench
mkdir -p "$out"
rustc -C opt-level=3 --check-cfg 'cfg(pairs)' -o "$out/rust" bench/reading.rs
rustc -C opt-level=3 --check-cfg 'cfg(pairs)' --cfg pairs -o "$out/pairs" bench/reading.rs

# pairs is the Rust program that looks for equal keys in pairs, as the proved one does
names=(rattle rust pairs)
declare -A program=([rattle]=crates/reading_bench/out/reading_bench [rust]=$out/rust [pairs]=$out/pairs)
declare -A best

# the microseconds that a command takes
took() {
    local start=$EPOCHREALTIME
    "$@" > /dev/null
    local end=$EPOCHREALTIME
    echo $((${end/./} - ${start/./}))
}

# keeps the least under a name: $1 the name, then the command
keep() {
    local name=$1 us
    shift
    us=$(took "$@")
    if [ -z "${best[$name]:-}" ] || [ "$us" -lt "${best[$name]}" ]; then best[$name]=$us; fi
}

for work in read rewrite; do
    for size in "${sizes[@]}"; do
        want=$("${program[rattle]}" "$size" $work)
        for n in rust pairs; do
            [ "$("${program[$n]}" "$size" $work)" = "$want" ] || { echo "$n prints something else at $size $work" >&2; exit 1; }
        done
    done
done

# the programs take turns, so that a slow moment of the machine falls on all
for _ in $(seq "$runs"); do
    for work in read rewrite; do
        for size in "${sizes[@]}"; do
            for times in $few $many; do
                for n in "${names[@]}"; do
                    keep "$n $work $size $times" "${program[$n]}" "$size" $work $times
                done
            done
        done
    done
done

# the nanoseconds of one turn: the time of many less the time of few, over their difference
turn() {
    local us=$((best[$1 $2 $3 $many] - best[$1 $2 $3 $few]))
    if [ "$us" -lt 1 ]; then us=1; fi
    echo $((1000 * us / (many - few)))
}
bytes() { "${program[rust]}" "$1" | cut -d ' ' -f 1; }
ratio() { printf '%d.%02d' $(($1 / $2)) $((100 * $1 / $2 % 100)); }

echo "best of $runs, one turn = (time of $many - time of $few) / $((many - few))"
for work in read rewrite; do
    for size in "${sizes[@]}"; do
        length=$(bytes "$size")
        own=$(turn rattle $work "$size")
        echo "$work, $length bytes:"
        for n in "${names[@]}"; do
            ns=$(turn "$n" $work "$size")
            printf '  %-7s %8s us  %5d MB/s   speed of rattle over it %s\n' "$n" "$(ratio "$ns" 1000)" $((1000 * length / ns)) "$(ratio "$ns" "$own")"
        done
    done
done

# a turn's cost as so much a byte and so much besides, by the least and the largest size; the middle one shows how straight it is
least=$(bytes "${sizes[0]}")
middle=$(bytes "${sizes[1]}")
most=$(bytes "${sizes[2]}")
echo "a straight line through the least and the largest size:"
for work in read rewrite; do
    for n in "${names[@]}"; do
        a=$(turn "$n" $work "${sizes[0]}")
        b=$(turn "$n" $work "${sizes[1]}")
        c=$(turn "$n" $work "${sizes[2]}")
        slope=$((1000 * (c - a) / (most - least)))
        line=$((a + slope * (middle - least) / 1000))
        printf '  %-8s %-7s %s ns a byte and %d us besides; the middle size takes %s of what the line says\n' $work "$n" \
            "$(ratio "$slope" 1000)" $(((a - slope * least / 1000) / 1000)) "$(ratio "$b" "$line")"
    done
done
