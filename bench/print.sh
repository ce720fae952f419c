#!/bin/bash
# How fast `hv show` reads, checks and prints the printed forms of the sources of bench/parse.sh, in the same way.
# Sizes are those of the sources. Usage: bench/print.sh [PROGRAM]
set -eu
cd "$(dirname "$0")/.."
. bench/sources.sh
measure show 'ordinary chain block elses' 131072 262144 524288
