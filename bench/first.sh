#!/usr/bin/env bash
# Times `hv run` on sources of 256 KiB, 512 KiB and 1 MiB, three runs each, and prints seconds and
# the ratio of time to size against the smallest; each ratio should stay within 1.3.
# Usage: bench/first.sh [PROGRAM]
set -u
top=$(cd "$(dirname "$0")/.." && pwd)
program=${1:-$top/crates/hv/out/hv}
folder=$(mktemp -d)
trap 'rm -rf "$folder"' EXIT

make_source() {
  python3 - "$1" "$2" <<'P'
import sys
size, path = int(sys.argv[1]), sys.argv[2]
line = b"  print(1234567 - 89 + 100000)\n"
head, tail = b"fun main() {\n", b"}\n"
lines = (size - len(head) - len(tail)) // len(line)
text = head + line * lines + tail
open(path, "wb").write(text + b" " * (size - len(text)))
P
}

best() {
  python3 - "$program" "$1" <<'P'
import subprocess, sys, time
least = None
for _ in range(3):
    begun = time.monotonic()
    subprocess.run([sys.argv[1], "run", sys.argv[2]], stdout=subprocess.DEVNULL, check=True)
    taken = time.monotonic() - begun
    least = taken if least is None else min(least, taken)
print("%.4f" % least)
P
}

first=
for kib in 256 512 1024; do
  make_source $((kib * 1024)) "$folder/$kib.hv"
  seconds=$(best "$folder/$kib.hv") || exit 1
  per=$(python3 -c "print($seconds / $kib)")
  first=${first:-$per}
  python3 -c "print('%5d KiB %s s  ratio %.2f' % ($kib, '$seconds', $per / $first))"
done
