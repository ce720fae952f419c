#!/bin/bash
# Seconds of processor time of `hv plain` on the programs of bench/plain, the best of five runs, beside the same programs
# in Python (bench/peers), and the ratio: ten million steps, an array of 100,000 that is filled and summed, 100 times
# calls to the greatest depth, each inside of 20 blocks, and 100,000 calls that are lent a struct of 4,096 leaves by
# `inout`, which `hv plain` refuses so far: hv_bench runs that one. Both have to print the same.
# Usage, at the top of the repository, where both programs are built: bench/plain.sh [PROGRAM [BENCH_PROGRAM]]
set -eu
cd "$(dirname "$0")/.."
program=${1:-crates/hv/out/hv}
bench_program=${2:-crates/hv_bench/out/hv_bench}
folder=$(mktemp -d)
trap 'rm -rf "$folder"' EXIT

best() {
    TIMEFORMAT='%U %S'
    for _ in 1 2 3 4 5; do
        { time "${@:2}" < "$1" > "$folder/printed"; } 2>&1
    done | awk '{ t = $1 + $2 } NR == 1 || t < best { best = t } END { print best }'
}

for file in bench/plain/*.hv; do
    name=$(basename "$file" .hv)
    case $name in
        lent) ours=$(best "$file" "$bench_program" run) ;;
        *) ours=$(best "$file" "$program" plain - --steps 1000000000) ;;
    esac
    mv "$folder/printed" "$folder/ours"
    peers=$(best /dev/null python3 "bench/peers/$name.py")
    cmp "$folder/ours" "$folder/printed"
    awk -v name="$name" -v ours="$ours" -v peers="$peers" \
        'BEGIN { printf "%-8s %7.3f s   Python %7.3f s   %.2f\n", name, ours, peers, ours / peers }'
done
