#!/bin/bash
# Fails each allocation of the built program in turn on one input: the first, the second and so on, until a run makes fewer allocations.
# Each run has to print what the run without a failure prints (the route cache, for one, does without an entry). Or it has to end with
# status 5, and print `fault: memory` last, or nothing if the arguments themselves found no memory. A run that has not ended after 60
# seconds is wrong. Prints how many runs there were of each kind.
# Usage: tools/compare/fail_each_allocation.sh PROGRAM INPUT ARGUMENT..   Needs bash and gcc.
set -euo pipefail

program=$1 input=$2
shift 2
work=$(mktemp -d)
trap 'rm -rf "$work"' EXIT

gcc -shared -fPIC -O1 -o "$work/fail_allocation.so" "$(dirname "$(readlink -f "$0")")/fail_allocation.c"

status=0
"$program" "$@" <"$input" >"$work/right" || status=$?
right=0 memory=0
for ((n = 1; ; n++)); do
    got=0
    LD_PRELOAD="$work/fail_allocation.so" FAIL_ALLOCATION=$n FAIL_MARK="LD_PRELOAD= touch $work/spare" "$program" "$@" <"$input" >"$work/out" || got=$?
    if [ -e "$work/spare" ]; then
        break
    elif [ "$got" = "$status" ] && cmp -s "$work/right" "$work/out"; then
        right=$((right + 1))
    elif [ "$got" = 5 ] && { [ ! -s "$work/out" ] || [ "$(tail -n 1 "$work/out")" = 'fault: memory' ]; }; then
        memory=$((memory + 1))
    else
        echo "allocation $n failed: status $got, last line: $(tail -n 1 "$work/out")" >&2
        exit 1
    fi
done
cmp "$work/right" "$work/out"
echo "$memory runs ran out of memory, $right printed the same; there is no allocation $n"
