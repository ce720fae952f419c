#!/bin/bash
# How fast `hv check` judges names and types, reading, lexing and parsing included, as bench/parse.sh measures it, with
# at most 1 GB of memory: one body of locals, of which 1 MiB holds about 34,000; functions that call each other, of which
# it holds 22,000; uses of a struct of 4,096 leaves; structs of which each has the one before it as a field and the first
# has a function; uses of one undeclared name, of which it holds 116,000; locals with types of 90 arrays.
# Usage: bench/types.sh [PROGRAM]
set -eu
cd "$(dirname "$0")/.."
. bench/sources.sh
ulimit -v 1048576
measure check 'locals calls leaves structs unknown arrays' 262144 524288 1048576
