#!/bin/bash
# How fast `hv check` reads, lexes, parses and judges names and types. For each kind of source it prints MB (1,000,000 bytes) a second of
# processor time at 256 KiB, 512 KiB and 1 MiB, and by how much the slowest of the three is above linear. It ends with 1
# where one is above 1.3. The C library has its own settings. Usage: bench/parse.sh [PROGRAM]
set -eu
cd "$(dirname "$0")/.."
. bench/sources.sh
measure check 'ordinary chain block elses' 262144 524288 1048576
