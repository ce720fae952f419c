#!/bin/sh
# Times clone, size, equal and text (with the test that there is no function) of arrays of Ints: eight of 131,072 and one of 1,048,576 elements.
# Each is linear where a pass over as many elements takes at most 1.3 times as long at the greater length.
# Proves and builds a program in a folder of its own, which takes minutes. Run it at the top of the repository.
set -eu

here=$(pwd)
work=$(mktemp -d)
trap 'rm -rf "$work"' EXIT
mkdir -p "$work/crates/value_bench/src"
"$here/.ci/edges" --below hv_value > "$work/crates.txt"
for name in $(cut -d: -f1 "$work/crates.txt"); do
    cp -r "$here/crates/$name" "$work/crates/"
    rm -rf "$work/crates/$name/out"
done
cp "$here/HANDLES" "$work/"
echo 'value_bench: hv_items hv_value' >> "$work/crates.txt"
cat > "$work/crates/value_bench/src/main.rt" <<'END'
//! Times the calls of hv_value on arrays of Ints.
#![tactic(auto)]

use hv_items::Items;
use hv_value::{Value, clone_value, equal, has_function, size, text};
use std::alloc::{AllocError, Global};
use std::io;
use std::rt::Clock;
use std::time::Instant;

fn array(alloc: Global, n: i64) -> Result<Value, AllocError> {
    let mut elements = Items::new(alloc);
    for z in 0..n {
        elements.push(Value::Int(1_000_000 + z % 1000))?;
    }
    Ok(Value::Array(elements))
}

fn arrays(alloc: Global, count: u8, n: i64) -> Result<Vec<Value>, AllocError> {
    let mut values = Vec::new(alloc);
    for _ in 0..count {
        values.push(array(alloc, n)?)?;
    }
    Ok(values)
}

fn clones(alloc: Global, values: &[Value]) -> Result<(), AllocError> {
    for value in values {
        let _ = clone_value(value, alloc)?;
    }
    Ok(())
}

fn sizes(values: &[Value]) -> u64 {
    let mut total = 0;
    for value in values {
        total ^= size(value, u64::MAX).unwrap_or(0);
    }
    total
}

fn comparisons(values: &[Value], others: &[Value]) -> bool {
    let mut all = true;
    for (value, other) in values.iter().zip(others) {
        all &= equal(value, other);
    }
    all
}

// The length of a value's text, which only a value without functions has.
fn text_len(alloc: Global, value: &Value) -> Result<usize, AllocError> {
    if has_function(value) {
        return Ok(0);
    }
    Ok(text(value, alloc)?.len())
}

fn texts(alloc: Global, values: &[Value]) -> Result<usize, AllocError> {
    let mut bytes = 0;
    for value in values {
        bytes ^= text_len(alloc, value)?;
    }
    Ok(bytes)
}

fn measure(
    rt: &(impl Print + Clock),
    alloc: Global,
    values: &[Value],
    others: &[Value],
) -> io::Result<()> {
    let count = values.len();
    let start = Instant::now(rt)?;
    clones(alloc, values)?;
    let cloned = start.elapsed(rt)?.as_nanos();
    let start = Instant::now(rt)?;
    let total = sizes(values);
    let sized = start.elapsed(rt)?.as_nanos();
    let start = Instant::now(rt)?;
    let all = comparisons(values, others);
    let compared = start.elapsed(rt)?.as_nanos();
    let start = Instant::now(rt)?;
    let bytes = texts(alloc, values)?;
    let written = start.elapsed(rt)?.as_nanos();
    println!(rt; "clone {count} {cloned}\nsize {count} {sized}\nequal {count} {compared}\ntext {count} {written}\nanswers {total} {all} {bytes}")
}

fn measure_arrays(rt: &(impl Print + Clock), alloc: Global, count: u8, n: i64) -> io::Result<()> {
    let values = arrays(alloc, count, n)?;
    let others = arrays(alloc, count, n)?;
    measure(rt, alloc, &values, &others)
}

fn main(rt: HostRuntime) -> io::Result<()> {
    for _ in 0..5u8 {
        measure_arrays(&rt, rt.alloc(), 8, 131_072)?;
        measure_arrays(&rt, rt.alloc(), 1, 1_048_576)?;
    }
    Ok(())
}
END
cd "$work/crates/value_bench"
# so that the C library keeps the memory of a round for the next; else the larger array pays for new pages
export MALLOC_MMAP_THRESHOLD_=1073741824 MALLOC_TRIM_THRESHOLD_=1073741824
rt run > "$work/log"
awk '
    $1 ~ /^(clone|size|equal|text)$/ {
        key = $1 " " $2
        if (!(key in least) || $3 < least[key]) least[key] = $3
    }
    END {
        for (i = split("clone size equal text", calls, " "); i > 0; i--) {
            small = least[calls[i] " 8"]; great = least[calls[i] " 1"]
            if (small == 0 || great == 0) { print calls[i] " was not measured"; bad = 1; continue }
            ratio = great / small
            printf "%-5s %6.2f ns an element at 131072, %6.2f at 1048576, ratio %.2f\n", calls[i], small / 1048576, great / 1048576, ratio
            if (ratio > 1.3) bad = 1
        }
        exit bad
    }
' "$work/log"
