#!/usr/bin/env bash
# Prints how many machine instructions one decoded instruction takes, by callgrind.
set -euo pipefail
program="$(dirname "$0")/../crates/bench_decode/out/bench_decode"
count=10000000
bound=25

instructions() {
    valgrind --tool=callgrind --callgrind-out-file=/dev/null "$program" "$count" "$1" 2>&1 >/dev/null |
        sed -n 's/.*Collected : \([0-9]*\).*/\1/p'
}

one=$(instructions 1)
two=$(instructions 2)
awk -v pass=$((two - one)) -v count="$count" -v bound="$bound" 'BEGIN {
    each = pass / count
    printf "%.2f machine instructions for each decoded instruction, at most %d\n", each, bound
    exit each > bound
}'
