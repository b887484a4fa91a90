#!/usr/bin/env bash
# Times the checker on images of derivations, and the nearest job of the Nix tool on the same files. Not part of any check.
# Wants: `rt run` in crates/checker_bench done before, python3, and nix-store (Debian: nix-bin; 2.8 was used).
set -euo pipefail
cd "$(dirname "$0")/.."

runs=${1:-9}
few=1
many=21
out=target/bench/checker
program=crates/checker_bench/out/checker_bench
# files, bytes of text a file, and input rows a file
main="256 2048 4"
more_files=("32 2048 4" "64 2048 4" "128 2048 4" "$main")
more_bytes=("$main" "256 4096 4" "256 6144 4" "256 8192 4")
more_rows=("256 8192 1" "256 8192 4" "256 8192 8" "256 8192 16")
mapfile -t sets < <(printf '%s\n' "${more_files[@]}" "${more_bytes[@]}" "${more_rows[@]}" | sort -u)
declare -A best

mkdir -p "$out/conf"
echo "fsync-metadata = false" > "$out/conf/nix.conf"
export NIX_CONF_DIR=$PWD/$out/conf

folder() { echo "$out/${1// /-}"; }

for s in "${sets[@]}"; do
    [ -f "$(folder "$s")/registration" ] || python3 bench/make_derivations.py $s "$(folder "$s")"
done

# all is accepted, or the figures would say nothing
for s in "${sets[@]}"; do
    last=$("$program" < "$(folder "$s")/image" | tail -n 1)
    [ "$last" = "${s%% *} ${s%% *} 100" ] || { echo "$program says $last of $s" >&2; exit 1; }
done

# Nix's jobs. Each registers a list of paths in a database that knows none, and then again in the one that it left, where Nix keeps no
# more rows, and reads and checks each derivation once in place of twice. `nothing` has no paths.
# `names` has the same paths, but that the files are not called .drv: so Nix looks at no file.
jobs=(derivations names nothing)
store=$out/root/nix/store
rm -rf "$out/root" "$out/var"
mkdir -p "$store"
cp "$(folder "$main")"/store/*.drv "$store/"
cp "$(folder "$main")/registration" "$out/derivations"
sed 's/\.drv$/.txt/' "$out/derivations" > "$out/names"
: > "$out/nothing"
load() { nix-store --store "local?root=$PWD/$out/root" --load-db < "$out/$1"; }
load nothing
cp -a "$out/root/nix/var" "$out/var"
# Nix too accepts all, or the script ends here
load derivations
load names

# the microseconds of the processor, user's and system's, that a command takes
took() {
    local TIMEFORMAT='%3U %3S' user system
    read -r user system < <({ time "$@" > /dev/null 2>&1; } 2>&1)
    echo $(((10#${user/./} + 10#${system/./}) * 1000))
}

# keeps the least under a name: $1 the name, then the command
keep() {
    local name=$1 us
    shift
    us=$(took "$@")
    if [ -z "${best[$name]:-}" ] || [ "$us" -lt "${best[$name]}" ]; then best[$name]=$us; fi
}

check() { "$program" "$2" < "$(folder "$1")/image"; }

# the programs take turns, so that a slow moment of the machine falls on all
for _ in $(seq "$runs"); do
    for s in "${sets[@]}"; do
        keep "$s $few" check "$s" $few
        keep "$s $many" check "$s" $many
    done
    for job in "${jobs[@]}"; do
        rm -rf "$out/root/nix/var"
        cp -a "$out/var" "$out/root/nix/var"
        keep "$job" load "$job"
        keep "$job again" load "$job"
    done
done

# the microseconds of one turn: the time of many less the time of few, over their difference
turn() { echo $(((best[$1 $many] - best[$1 $few]) / (many - few))); }
bytes() { cat "$(folder "$1")"/store/*.drv | wc -c; }
# input rows: each .drv of the registration is a file or a reference of one
rows() { echo $(($(grep -c '\.drv$' "$(folder "$1")/registration") - ${1%% *})); }
ms() { printf '%d.%02d' $(($1 / 1000)) $(($1 % 1000 / 10)); }
ratio() { printf '%d.%02d' $(($1 / $2)) $((100 * $1 / $2 % 100)); }

own=$(turn "$main")
echo "best of $runs, time of the processor; one turn of the checker = (time of $many - time of $few) / $((many - few))"
echo "${main%% *} files, $(bytes "$main") bytes of text:"
echo "  checker, one turn                  $(ms "$own") ms"
echo "  checker, the whole program         $(ms "${best[$main $few]}") ms"
echo "  nix-store --load-db, whole         $(ms "${best[derivations]}") ms"
tell() { echo "  $1 $(ms "$2") ms   speed of the checker over it $(ratio "$2" "$own")"; }
tell "nix-store less one of nothing     " $((best[derivations] - best[nothing]))
tell "nix-store less one of other names " $((best[derivations] - best[names]))
tell "the same, both for the second time" $((best[derivations again] - best[names again]))

# a straight line through the first and the last of some sets, and what the others take of what it says
line() {
    local a b x0 x1 at=$1 s
    shift
    local all=("$@")
    measure() { case $at in files) echo "${1%% *}" ;; bytes) bytes "$1" ;; rows) rows "$1" ;; esac; }
    x0=$(measure "$1") x1=$(measure "${all[-1]}") a=$(turn "$1") b=$(turn "${all[-1]}")
    echo "against $at:"
    for s in "${all[@]}"; do
        local x y said
        x=$(measure "$s") y=$(turn "$s")
        said=$((a + (b - a) * (x - x0) / (x1 - x0)))
        echo "  $x $at: $(ms "$y") ms, $(ratio "$y" "$said") of what the straight line through the first and the last says"
    done
    echo "  a slope of $((1000 * (b - a) / (x1 - x0))) ns each, and $(((a * x1 - b * x0) / (x1 - x0))) us besides"
}
line files "${more_files[@]}"
line bytes "${more_bytes[@]}"
line rows "${more_rows[@]}"
