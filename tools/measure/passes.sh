#!/bin/bash
# Measures how many calls a second 1, 2, 4 and 8 threads make on a cell of passes, and on a book behind a lock. Prints the table of
# docs/PERFORMANCE.md: the best of RUNS runs, 10 by default. Each run makes 48,000 calls on each: an arrival, work and a tick in turn.
# Usage: tools/measure/passes.sh [RUNS]   Needs bash, awk, and `rt test` in crates/test_threads.
set -euo pipefail
here=$(dirname "$(readlink -f "$0")")
program=$here/../../crates/test_threads/out/test_threads_tests
runs=${1:-10}

for ((run = 0; run < runs; run++)); do
    "$program" passes::pace::each_call_of_many_threads_is_answered
done | awk -F'|' '
    NF == 5 {
        if ($3 + 0 > passed[$2 + 0]) passed[$2 + 0] = $3 + 0
        if ($4 + 0 > locked[$2 + 0]) locked[$2 + 0] = $4 + 0
    }
    END {
        print "| threads | a cell of passes | a book behind a lock |"
        print "|---|---|---|"
        for (threads = 1; threads <= 8; threads *= 2) printf "| %d | %d | %d |\n", threads, passed[threads], locked[threads]
    }'
