#!/usr/bin/env bash
# Machine instructions a step of the proved library and of the reference, and of a check of the largest set, by valgrind's callgrind, which
# other load on the machine does not change: the counts of two runs are subtracted, so that starting and loading drop out. Build first: see
# README.md here.
set -eu
cd "$(dirname "$0")/.."
bench=target/tests/release/bench

counted() {
    valgrind --tool=callgrind --callgrind-out-file=/dev/null "$bench" "$1" "$2" "$3" 2>&1 | sed -n 's/.*Collected : //p'
}

# Prints a row: WORKLOAD SHORT LONG, the counts of two runs.
row() {
    local workload=$1 short=$2 long=$3 side a b
    for side in proved reference; do
        a=$(counted "$side" "$workload" "$short")
        b=$(counted "$side" "$workload" "$long")
        declare "$side=$(((b - a) * 10 / (long - short)))"
    done
    awk -v w="$workload" -v p="$proved" -v r="$reference" 'BEGIN { printf "%-14s %10.1f %10.1f %7.2f\n", w, p / 10, r / 10, p / r }'
}

printf '%-14s %10s %10s %7s\n' 'a step' proved reference ratio
for workload in arithmetic calls stores outer-stores switches two-words for-loops booleans sets library mix; do
    row "$workload" 20000 120000
done
printf '%-14s %10s %10s %7s\n' 'a check' proved reference ratio
row largest-set 1 3
