#!/bin/bash
# What the checkers of initialisation, accesses and handles take over sources that are hostile to them: for each source and
# its half the best processor time of three runs, in seconds, the most memory that was held, and how far the time is above
# linear. Reading, lexing and parsing included, and at most 2 GB of memory. No source violates a rule; it ends with 1 where
# one is refused or a run doesn't end.
# Usage: bench/checkers.sh [PROGRAM [WORD..]], with the words of hv_bench that say what is judged
set -eu
cd "$(dirname "$0")/.."
if [ $# -eq 0 ]; then ( cd crates/hv_bench && rt run -- excl < stdin > /dev/null ); fi
program=$(realpath "${1:-crates/hv_bench/out/hv_bench}")
shift || true
words=${*:-init excl await}
folder=$(mktemp -d)
trap 'rm -rf "$folder"' EXIT
ulimit -v 2097152

# The sources and the numbers of their parts:
#   branches    locals without a value, filled on both sides of an `if`, ten on each, and read
#   loops       rows of 97 nested loops around a move
#   handles     handles that are awaited in reverse
#   calls       calls with three accesses each
#   leaves      leaves of one local, moved one by one on both sides of an `if`
#   statements  statements one after the other
#   bindings    bindings that stay open, and as many reads
#   blocks      bindings that stay open, and four blocks for each
#   sides       handles that wait to be awaited, and two `if`s for each
#   spans       handles of one block parted by those of others, and a `return` for each
#   turns       locals that are filled, and a loop around a change of each
#   links       locals without a value, each filled in a link of its own of one chain of `else if`
#   backs       bindings that are written back, and a `return` for each
all='branches 30000 loops 1000 handles 10000 calls 20000 leaves 4096 statements 50000 bindings 20000 blocks 10000
     sides 10000 spans 4000 turns 20000 links 20000 backs 3000'

# source_of KIND COUNT. A local's name has three characters, of which the first is a letter, so that no keyword is one.
source_of() {
    awk -v kind="$1" -v count="$2" '
        function name(i) {
            return substr("ABCDEFGHIJKLMNOPQRSTUVWXYZ", int(i / 1296) + 1, 1) digit(int(i / 36)) digit(i)
        }
        function digit(i) { return substr("0123456789ABCDEFGHIJKLMNOPQRSTUVWXYZ", i % 36 + 1, 1) }
        function repeated(text, times,  k) { for (k = 0; k < times; k++) printf "%s", text }
        function leaf(i) { return "c.x" int(i / 256) ".x" int(i / 16) % 16 ".x" i % 16 }
        function wide(struct, type,  k) {
            printf "struct %s{", struct
            for (k = 0; k < 16; k++) printf "var x%d:%s ", k, type
            print "}"
        }
        function branches(  i, k) {
            for (i = 0; i < count; i += 10) {
                for (k = i; k < i + 10; k++) printf "var %s:Int ", name(k)
                printf "if b{"
                for (k = i; k < i + 10; k++) printf "&%s=1 ", name(k)
                printf "}else{"
                for (k = i; k < i + 10; k++) printf "&%s=2 ", name(k)
                printf "}print(%s", name(i)
                for (k = i + 1; k < i + 10; k++) printf "+%s", name(k)
                print ")"
            }
        }
        BEGIN {
            wide("r", "Int"); wide("s", "r"); wide("t", "s")
            print "fun f(){}fun e(x:sink Int){}fun g(x:inout Int,y:inout Int,z:Int){}"
            print "fun main(){var b:Bool=true var x:Int=1 var y:Int=2 var z:Int=3"
            if (kind == "branches") branches()
            if (kind == "loops")
                for (i = 0; i < count; i++) { repeated("while b{", 97); printf "&x=1 e(x)"; repeated("}", 97); print "" }
            if (kind == "handles") {
                for (i = 0; i < count; i++) print "task " name(i) "=spawn(9)f()"
                for (i = count - 1; i >= 0; i--) print "await " name(i)
            }
            if (kind == "calls") repeated("g(&x,&y,z)\n", count)
            if (kind == "leaves") print "}fun h(c:sink t,b:Bool){"
            if (kind == "leaves")
                for (i = 0; i < count; i++) print "if b{e(" leaf(i) ")}else{e(" leaf(i) ")}"
            if (kind == "statements") repeated("&x=x+1\n", count)
            if (kind == "bindings" || kind == "blocks") for (i = 0; i < count; i++) print "let " name(i) ":Int=x"
            if (kind == "bindings") repeated("print(x)\n", count)
            if (kind == "blocks") repeated("{}\n", 4 * count)
            if (kind == "sides") {
                for (i = 0; i < count; i++) print "task " name(i) "=spawn(9)f()"
                repeated("if b{}\n", 2 * count)
                for (i = 0; i < count; i++) print "await " name(i)
            }
            if (kind == "spans") {
                for (i = 0; i < 2 * count; i += 2)
                    print "task " name(i) "=spawn(9)f(){task " name(i + 1) "=spawn(9)f()await " name(i + 1) "}await " name(i)
                repeated("if b{return;}\n", count)
            }
            if (kind == "turns") {
                for (i = 0; i < count; i++) print "var " name(i) ":Int=1"
                for (i = 0; i < count; i++) print "while b{&" name(i) "=2}"
            }
            if (kind == "links") {
                for (i = 0; i < count; i++) print "var " name(i) ":Int"
                for (i = 0; i < count; i++) print (i > 0 ? "else " : "") "if b{&" name(i) "=1}"
            }
            if (kind == "backs") {
                for (i = 0; i < 2 * count; i += 2) print "var " name(i) ":Int=1 inout " name(i + 1) ":Int=&" name(i)
                repeated("if b{return;}\n", count)
            }
            print "}"
        }'
}

# once WORD SOURCE: the processor time in seconds and the most memory in KB of the program with this word over the source
once() {
    if [ -x /usr/bin/time ]; then
        /usr/bin/time -f '%U %S %M' -o "$folder/taken" "$program" "$1" < "$2" > "$folder/written" || return 1
        awk '{ print $1 + $2, $3 }' "$folder/taken"
    else
        python3 - "$program" "$1" "$2" "$folder/written" << 'END_OF_PROGRAM'
import resource, subprocess, sys
program, word, source, written = sys.argv[1:]
with open(source) as given, open(written, "w") as taken:
    subprocess.run([program, word], stdin=given, stdout=taken, check=True)
used = resource.getrusage(resource.RUSAGE_CHILDREN)
print(used.ru_utime + used.ru_stime, used.ru_maxrss)
END_OF_PROGRAM
    fi
}

# the least of three times, and the least of what was held; nothing where the answer isn't that nothing is violated
best() {
    local taken
    for _ in 1 2 3; do
        taken=$(once "$1" "$2") && grep -qx none "$folder/written" || return 1
        echo "$taken"
    done | awk 'NR == 1 || $1 < time { time = $1 } NR == 1 || $2 < held { held = $2 } END { if (NR == 3) print time, held }'
}

status=0
set -- $all
while [ $# -gt 0 ]; do
    source_of "$1" "$(($2 / 2))" > "$folder/half"
    source_of "$1" "$2" > "$folder/whole"
    for word in $words; do
        half=$(best "$word" "$folder/half") || half=''
        whole=$(best "$word" "$folder/whole") || whole=''
        echo "$1 $2 $word $(wc -c < "$folder/half") $(wc -c < "$folder/whole") $half $whole" | awk '
            NF == 9 {
                linear = ($6 > 0) ? $8 / $6 * $4 / $5 : 0
                printf "%-10s %6d  %-5s %7.2f s %5.0f MB   half %7.2f s %5.0f MB   %.2f of linear\n",
                    $1, $2, $3, $8, $9 / 1000, $6, $7 / 1000, linear
            }
            NF != 9 { print $1, $2, $3, "was not measured"; exit 1 }' || status=1
    done
    shift 2
done
exit $status
