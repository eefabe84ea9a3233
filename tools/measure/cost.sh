#!/bin/bash
# Measures what `run` costs on generated inputs, in instructions that valgrind's callgrind counts. Prints two tables, from which
# docs/PERFORMANCE.md says how cost grows: whole inputs (a script of 20,000 lines on 8 operators, half of it, and 10 and 110 ticks of one operator with 1,024 flows),
# and single things, each from two inputs of which one has more of them. Last, the bytes of memory of a line of history.
# Usage: tools/measure/cost.sh [PROGRAM]   Needs bash, python3, valgrind and GNU time.
set -euo pipefail
here=$(dirname "$(readlink -f "$0")")
program=${1:-$here/../../crates/plant_program/out/plant_program}
work=$(mktemp -d)
trap 'rm -rf "$work"' EXIT

instructions() {
    valgrind --tool=callgrind --callgrind-out-file=/dev/null "$program" run <"$1" 2>&1 >/dev/null | awk '/Collected/ {print $4}'
}

"$here/../run" measure/large_script operators >"$work/20,000 lines, 8 operators"
awk '/^---$/ {behind = 1; print; next} behind {if (++lines <= 10000) print; next} {print}' \
    "$work/20,000 lines, 8 operators" >"$work/10,000 lines, 8 operators"
"$here/../run" measure/large_script flows 10 >"$work/10 ticks, 1,024 flows"
"$here/../run" measure/large_script flows 110 >"$work/110 ticks, 1,024 flows"
echo '| input | millions of instructions |'
echo '|---|---|'
for input in "$work"/*; do
    printf '| %s | %.1f |\n' "$(basename "$input")" "$(instructions "$input" | awk '{print $1 / 1e6}')"
done

# each MODE SMALL LARGE MORE: the thousands of instructions of one of the MORE things that the large input has beyond the small one
each() {
    "$here/../run" measure/large_script $1 >"$work/small"
    "$here/../run" measure/large_script $2 >"$work/large"
    awk -v small="$(instructions "$work/small")" -v large="$(instructions "$work/large")" -v more="$3" \
        'BEGIN {printf "%.1f", (large - small) / more / 1000}'
}

rm "$work"/*
echo
echo '| each | thousands of instructions |'
echo '|---|---|'
for flows in 125 250 500 1000; do
    printf '| flow added, acknowledged and deleted, next to %s others | %s |\n' "$flows" "$(each "standing $flows 160" "standing $flows 480" 320)"
done
for flows in 256 512 1024; do
    printf '| tick of an operator with %s flows | %s |\n' "$flows" "$(each "flows 10 $flows" "flows 110 $flows" 100)"
done
for operators in 4 8 16 32; do
    printf '| tick of %s operators with 2 flows each, with its MAP | %s |\n' "$operators" "$(each "maps $operators 2 10" "maps $operators 2 110" 100)"
done

# The greatest resident memory of `history A`, in bytes.
memory() {
    command time -f %M -o "$work/memory" "$program" history A <"$1" >/dev/null
    awk '{print 1024 * $1}' "$work/memory"
}

"$here/../run" measure/large_script standing 10 2000 >"$work/small"
"$here/../run" measure/large_script standing 10 4000 >"$work/large"
echo
awk -v small="$(memory "$work/small")" -v large="$(memory "$work/large")" -v few="$(wc -l <"$work/small")" -v many="$(wc -l <"$work/large")" \
    'BEGIN {printf "bytes of memory for each line of a history: %d\n", (large - small) / (many - few)}'
