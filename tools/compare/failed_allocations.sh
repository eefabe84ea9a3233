#!/bin/bash
# Fails each allocation of the built program in turn on many inputs: those of tools/run compare/handwritten_inputs, which reach every command
# and every step. It calls tools/compare/fail_each_allocation.sh for each. A program that has the command `threads` runs the inputs of
# `run` by it too. Prints a table: input, arguments, allocations, how many failures ended with status 5, after how many the output was
# the right one, and how many runs were wrong (none may be). With --short it runs a few short inputs by `run` and `threads` alone: CI does
# this.
# Usage: tools/compare/failed_allocations.sh [--short] [PROGRAM]   Needs bash, gcc and python3.
set -euo pipefail

here=$(dirname "$(readlink -f "$0")")
short=' '
if [ "${1:-}" = --short ]; then
    short=' additions changes deletions timers frames other_slices '
    shift
fi
program=${1:-$here/../../crates/plant_program/out/plant_program}
work=$(mktemp -d)
trap 'rm -rf "$work"' EXIT
row='%-24s %-12s %11s %10s %10s %10s\n'
inputs=0 allocations=0 memory=0 right=0 wrong=0

# Prints one row: an input and arguments.
fail_each() {
    local name=$1 result m r w=0
    shift
    if result=$("$here/fail_each_allocation.sh" "$program" "$work/input" "$@" 2>"$work/errors"); then
        [[ $result =~ ^([0-9]+)\ runs\ ran\ out\ of\ memory,\ ([0-9]+)\ printed ]]
        m=${BASH_REMATCH[1]} r=${BASH_REMATCH[2]}
    else
        m='' r='' w=1
        cat "$work/errors" >&2
    fi
    # shellcheck disable=SC2059
    printf "$row" "$name" "$*" "$((m + r))" "$m" "$r" "$w"
    inputs=$((inputs + 1)) allocations=$((allocations + m + r)) memory=$((memory + m)) right=$((right + r)) wrong=$((wrong + w))
}

threads=
"$here/../run" compare/handwritten_inputs frames >"$work/input"
if "$program" threads <"$work/input" >"$work/out"; then threads=yes; fi
if [ "$short" != ' ' ] && [ ! "$threads" ]; then
    echo "$program has no command threads" >&2
    exit 1
fi

# shellcheck disable=SC2059
printf "$row" input arguments allocations 'status 5' right wrong
while read -r name words; do
    if [ "$short" != ' ' ] && [[ $short != *" $name "* || $words != run ]]; then continue; fi
    "$here/../run" compare/handwritten_inputs "$name" >"$work/input"
    read -ra words <<<"$words"
    fail_each "$name" "${words[@]}"
    if [ "$threads" ] && [ "${words[0]}" = run ]; then fail_each "$name" threads; fi
done < <("$here/../run" compare/handwritten_inputs)
# shellcheck disable=SC2059
printf "$row" "$inputs inputs" '' "$allocations" "$memory" "$right" "$wrong"
[ "$wrong" = 0 ] && [ "$memory" -gt 0 ]
