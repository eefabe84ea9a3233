#!/bin/bash
# Checks failed reads and writes of the built program: each case has to end with status 6, and to print `fault: io` if output can be
# written. Prints a table; exits with 1 if a case differs.
# Usage: tools/compare/failed_io.sh [PROGRAM]
set -euo pipefail

top=$(cd "$(dirname "$(readlink -f "$0")")/../.." && pwd)
program=${1:-$top/crates/plant_program/out/plant_program}
run=$top/examples/two_operators.txt one=$top/examples/several_messages.txt
ulimit -v 4000000 # a program that reads an endless input whole is not to take all memory
failed=0
work=$(mktemp -d)
trap 'rm -rf "$work"' EXIT

# report WHAT ARGUMENTS EXPECTED GOT LAST_LINE EXPECTED_LINE
report() {
    local verdict=right
    if [ "$3" != "$4" ] || [ "$5" != "$6" ]; then verdict=WRONG failed=1; fi
    printf '%s  %-42s %-10s status %s  %s\n' "$verdict" "$1" "$2" "$4" "$5"
}

# unwritten WHAT ARGUMENT.. : runs the program with an output that cannot be written.
unwritten() {
    local what=$1 input=$run got=0
    shift
    if [ "$1" = one ]; then input=$one; fi
    case $what in
    'output to a full device') "$program" "$@" <"$input" >/dev/full 2>"$work/err" || got=$? ;;
    'output closed') "$program" "$@" <"$input" >&- 2>"$work/err" || got=$? ;;
    'output open for reading alone') "$program" "$@" <"$input" 1<"$input" 2>"$work/err" || got=$? ;;
    'output a pipe that nobody reads')
        mkfifo "$work/pipe"
        # shellcheck disable=SC2094
        exec 3<>"$work/pipe" 4>"$work/pipe" 3<&-
        trap '' PIPE
        { "$program" "$@" <"$input" >&4 2>"$work/err"; } || got=$?
        trap - PIPE
        exec 4>&-
        rm "$work/pipe" ;;
    esac
    report "$what" "$*" 6 "$got" '' ''
}

# unread WHAT STATUS LINE ARGUMENT.. : runs the program with an input that the caller opens as descriptor 0.
unread() {
    local what=$1 status=$2 line=$3 got=0
    shift 3
    "$program" "$@" >"$work/out" 2>"$work/err" || got=$?
    report "$what" "$*" "$status" "$got" "$(tail -n 1 "$work/out")" "$line"
}

for words in one check run 'history A'; do
    read -ra words <<<"$words"
    for what in 'output to a full device' 'output closed' 'output open for reading alone' 'output a pipe that nobody reads'; do
        unwritten "$what" "${words[@]}"
    done
    unread 'input a directory' 6 'fault: io' "${words[@]}" <"$work"
    unread 'input closed' 6 'fault: io' "${words[@]}" <&-
    unread 'input open for writing alone' 6 'fault: io' "${words[@]}" 0>"$work/sink"
    unread 'input of a byte that is not UTF-8' 6 'fault: io' "${words[@]}" < <(printf '#\377\n')
    unread 'input of a cut character' 6 'fault: io' "${words[@]}" < <(printf '#\303')
    unread 'input of 1,048,577 bytes' 6 'fault: io' "${words[@]}" < <(head -c 1048577 /dev/zero | tr '\0' '\n')
    unread 'input without end' 6 'fault: io' "${words[@]}" </dev/zero
done
unread 'input of 1,048,576 bytes' 0 '' one < <(head -c 1048576 /dev/zero | tr '\0' '\n')
unread 'input of 1,048,576 bytes' 3 'fault: plant 2 plant.frame_minislots' run < <(head -c 1048576 /dev/zero | tr '\0' '\n')
unread 'wrong words, input closed' 2 'fault: words' walk <&-
# An error line that cannot be written is lost. If there is nothing to write, no write fails.
got=0
"$program" walk >/dev/full || got=$?
report 'wrong words, output to a full device' walk 6 $got '' ''
got=0
printf '[plant\n' | "$program" check >/dev/full || got=$?
report 'a faulty plant, output to a full device' check 6 $got '' ''
got=0
printf '0\n' | "$program" one >/dev/full || got=$?
report 'a faulty line, output to a full device' one 6 $got '' ''
got=0
"$program" one </dev/null >/dev/full || got=$?
report 'nothing to write, output to a full device' one 0 $got '' ''
exit $failed
