# Sources for benchmarks of `hv`, and the measurement over them. source_of KIND BYTES writes one of nearly so many bytes:
# a head, as many parts as fit, and a tail. In a part # stands for its number, ~ for half of that, ^ for one more.
source_of() {
    local head part tail
    case $1 in
        ordinary) head='struct P { var a: [Int] var b: Int }
fun g(s: Int, b: inout Int, c: [Int]) -> Int { return s }
fun h(p: inout P) { }
fun main() { }
' part='fun f#(x: Int, p: inout P) -> Int {
  var s: Int = 0
  while s < x && !(x == 3) {
    &s = s + count(p.a) * 2
    &p.a[s % 7] = g(s, &p.b, [1, 2, x])
    if s > 100 { return s } else if s == 50 { print(s) } else { h(&p) }
  }
  return -(s + 1)
}
' tail='' ;;
        chain) head='fun main() { print(1' part=' + 1' tail=') }' ;;
        block) head='fun f(x: Int, y: Int) { } fun main() { let x: Int = 1' part=' f(x, 12)' tail=' }' ;;
        elses) head='fun main() { let a: Bool = true if a { }' part=' else if a { }' tail=' }' ;;
        locals) head='fun main() {' part=' var x#: Int = 1 print(x#)' tail=' }' ;;
        calls) head='fun main() { }' part=' fun f#(x: Int) -> Int { return f~(x) }' tail='' ;;
        leaves) head="$(wide A Int) $(wide B A) $(wide C B) fun main() {" part=' var x#: C print(x#.x1.x2.x3)' tail=' }' ;;
        structs) head='fun main() { } struct S0 { var f: fun() }' part=' struct S^ { var x: S# }' tail='' ;;
        unknown) head='fun main() {' part=' print(y)' tail=' }' ;;
        arrays) head='fun main() {' part=" var x#: $(nested 90) print(x#)" tail=' }' ;;
    esac
    printf '%s' "$head"
    awk -v part="$part" -v room="$(($2 - ${#head} - ${#tail}))" 'BEGIN {
        for (i = 0; ; i++) {
            text = part
            gsub(/#/, i, text); gsub(/~/, int(i / 2), text); gsub(/\^/, i + 1, text)
            room -= length(text)
            if (room < 0) break
            printf "%s", text
        }
    }'
    printf '%s' "$tail"
}

# wide NAME TYPE: a struct with 16 fields of the type
wide() {
    local i
    printf 'struct %s {' "$1"
    for i in 0 1 2 3 4 5 6 7 8 9 10 11 12 13 14 15; do printf ' var x%s: %s' "$i" "$2"; done
    printf ' }'
}

# nested DEPTH: arrays of arrays of numbers
nested() {
    printf '[%.0s' $(seq "$1")
    printf 'Int'
    printf ']%.0s' $(seq "$1")
}

# the least processor time, in seconds, of seven rounds of the words over the file, 4 MiB a round
least_time() {
    local file=$1 size=$2
    shift 2
    TIMEFORMAT='%U %S'
    for _ in 1 2 3 4 5 6 7; do
        { time for ((i = 0; i < 4 * 1048576 / size; i++)); do "$@" < "$file" > /dev/null; done; } 2>&1
    done | awk '{ t = $1 + $2 } NR == 1 || t < best { best = t } END { print best }'
}

# one line: MB (1,000,000 bytes) a second for each size, and how far the slowest is above linear; fails above 1.3
rates() {
    awk '{
        low = $2; high = $2
        for (i = 3; i <= 4; i++) { if ($i < low) low = $i; if ($i > high) high = $i }
        printf "%-9s", $1
        for (i = 2; i <= 4; i++) printf " %6.1f MB/s", 4 * 1.048576 / $i
        printf "   %.2f of linear\n", high / low
        exit high / low > 1.3
    }'
}

# measure COMMAND KINDS SIZE..: prints the rates of `hv COMMAND` for these kinds of source at these sizes; show is timed
# over what it wrote of the source. Needs `program` and `folder`.
measure() {
    local command=$1 kinds=$2 kind size times status=0
    shift 2
    for kind in $kinds; do
        times=''
        for size in "$@"; do
            source_of "$kind" "$size" > "$folder/source"
            "$program" "$command" - < "$folder/source" > "$folder/written" || [ $? -eq 1 ]
            if [ "$command" = show ]; then mv "$folder/written" "$folder/source"; fi
            times="$times $(least_time "$folder/source" "$size" "$program" "$command" -)"
        done
        echo "$kind $times" | rates || status=1
    done
    return $status
}

program=${1:-crates/hv/out/hv}
folder=$(mktemp -d)
trap 'rm -rf "$folder"' EXIT
