#!/bin/bash
# How fast `lex` reads. For each kind of text it prints MB (1,000,000 bytes) a second of processor time at 256 KiB,
# 512 KiB and 1 MiB, and by how much the slowest of the three is above linear. It ends with 1 where one is above 1.3.
set -eu
cd "$(dirname "$0")/.."
( cd crates/hv_bench && rt run -- lex 1 < stdin > /dev/null )
program=crates/hv_bench/out/hv_bench
total=$((32 * 1048576))
folder=$(mktemp -d)
trap 'rm -rf "$folder"' EXIT
TIMEFORMAT='%U %S'

text() {
    case $1 in
        words) yes 'alpha beta gamma while delta_1 x' ;;
        marks) yes '==(){}<=->&&;' | tr -d '\n' ;;
        digits) yes '1234567890' ;;
        comments) yes '// a comment, as long as most are' ;;
        letters) yes "$(printf '\360\240\200\200')" | tr -d '\n' ;;
    esac | head -c "$2"
}

# the least processor time, in seconds, of seven runs that read the same total
least() {
    for _ in 1 2 3 4 5 6 7; do
        { time "$program" lex "$((total / $2))" < "$folder/$1.$2" > /dev/null; } 2>&1
    done | awk '{ t = $1 + $2 } NR == 1 || t < best { best = t } END { print best }'
}

status=0
for kind in words marks digits comments letters; do
    times=''
    for size in 262144 524288 1048576; do
        text "$kind" "$size" > "$folder/$kind.$size" || true
        times="$times $(least "$kind" "$size")"
    done
    echo "$kind $times" | awk -v total="$total" '{
        low = $2; high = $2
        for (i = 3; i <= 4; i++) { if ($i < low) low = $i; if ($i > high) high = $i }
        printf "%-9s", $1
        for (i = 2; i <= 4; i++) printf " %6.1f MB/s", total / 1000000 / $i
        printf "   %.2f of linear\n", high / low
        exit high / low > 1.3
    }' || status=1
done
exit $status
