#!/bin/bash
# Fails each allocation of tests of library calls in turn: those of the modules `want_of_memory` of test_library, test_cores and
# test_threads, as `rt ci` or `rt test` built them. A run is right if the test passes: the call whose allocation failed returned that, left
# its value as it was, and succeeded when it was made again. It is also right if it ends early with status 101, since an allocation of the
# test itself failed. A failed assertion ends a test by a signal, and is wrong. A crate without such a test, and a test in which no
# allocation of a call failed, are wrong too. Prints a table: test, allocations, how many failed in the calls under test, how many in the
# test itself, and how many runs were wrong (none may be).
# Usage: tools/compare/failed_library_allocations.sh [CRATE..]   Needs bash and gcc, and `rt test` in each of these crates.
set -euo pipefail

here=$(dirname "$(readlink -f "$0")")
crates=("$@")
[ $# -gt 0 ] || crates=(test_library test_cores test_threads)
work=$(mktemp -d)
trap 'rm -rf "$work"' EXIT
gcc -shared -fPIC -O1 -o "$work/fail_allocation.so" "$here/fail_allocation.c"
row='%-60s %11s %10s %10s %10s\n'
tests=0 allocations=0 calls=0 owns=0 wrongs=0

# Prints one row: each allocation of a test.
fail_each() {
    local program=$1 name=$2 n call=0 own=0 wrong=0 got
    rm -f "$work/spare"
    "$program" "$name" >/dev/null
    for ((n = 1; ; n++)); do
        got=0
        LD_PRELOAD="$work/fail_allocation.so" FAIL_ALLOCATION=$n FAIL_MARK="LD_PRELOAD= touch $work/spare" \
            "$program" "$name" >/dev/null 2>"$work/errors" || got=$?
        if [ -e "$work/spare" ]; then
            break
        elif [ "$got" = 0 ]; then
            call=$((call + 1))
        elif [ "$got" = 101 ]; then
            own=$((own + 1))
        else
            wrong=$((wrong + 1))
            echo "$name, allocation $n: status $got" >&2
            cat "$work/errors" >&2
        fi
    done
    if [ "$call" = 0 ]; then
        wrong=$((wrong + 1))
        echo "$name: no allocation of a call failed" >&2
    fi
    # shellcheck disable=SC2059
    printf "$row" "$name" "$((n - 1))" "$call" "$own" "$wrong"
    tests=$((tests + 1)) allocations=$((allocations + n - 1)) calls=$((calls + call)) owns=$((owns + own)) wrongs=$((wrongs + wrong))
}

# shellcheck disable=SC2059
printf "$row" test allocations calls own wrong
for crate in "${crates[@]}"; do
    program=$here/../../crates/$crate/out/${crate}_tests
    before=$tests
    while read -r name kind; do
        if [[ $kind = test && $name == *want_of_memory::* ]]; then
            fail_each "$program" "${name%:}"
        fi
    done < <("$program" --list)
    if [ "$tests" = "$before" ]; then
        echo "$crate has no test in a module want_of_memory" >&2
        exit 1
    fi
done
# shellcheck disable=SC2059
printf "$row" "$tests tests" "$allocations" "$calls" "$owns" "$wrongs"
[ "$wrongs" = 0 ]
