#!/bin/bash
# Checks each exit status of the built program, and its last line, by one small case for each. Prints a table; exits with 1 if one differs.
# Usage: tools/ci/statuses.sh [PROGRAM]
set -euo pipefail

top=$(cd "$(dirname "$(readlink -f "$0")")/../.." && pwd)
program=${1:-$top/crates/plant_program/out/plant_program}
plant=$top/examples/plant_p2.toml
failed=0
limited= # kilobytes of memory that the program may have; empty for any
work=$(mktemp -d)
trap 'rm -rf "$work"' EXIT

# expect STATUS LAST_LINE WORD.. : the input is in $work/input.
expect() {
    local status=$1 line=$2 got=0 last
    shift 2
    (
        if [ "$limited" ]; then ulimit -v "$limited"; fi
        exec "$program" "$@" <"$work/input" >"$work/out" 2>"$work/err"
    ) || got=$?
    last=$(tail -n 1 "$work/out")
    if [ "$got" = "$status" ] && [ "$last" = "$line" ]; then
        printf 'right  %s  %-28s %s\n' "$got" "$last" "$*"
    else
        printf 'WRONG  %s  %-28s %s: expected status %s and the last line %s\n' "$got" "$last" "$*" "$status" "$line"
        failed=1
    fi
}

# The plant with a script after it.
script() { { cat "$plant"; echo ---; printf '%s\n' "$@"; } >"$work/input"; }

script
expect 0 'ok' check
expect 0 '' run
expect 0 '' threads
expect 0 '' trace
expect 0 '' history A
script 'M 020000000001 -'
expect 0 'S 020000000001 Empty' run
expect 0 'S 020000000001 Empty' threads
expect 0 'W' history A
expect 2 'fault: words'
expect 2 'fault: words' walk
expect 2 'fault: words' run run
expect 2 'fault: words' threads 2
expect 2 'fault: words' capture run.pcap
expect 2 'fault: words' trace 3
expect 2 'fault: words' history
expect 2 'fault: words' history C
script 'T' 'T C'
expect 4 'fault: line 2' run
expect 4 'fault: line 2' threads
expect 4 'fault: line 2' capture
expect 4 'fault: line 2' trace
expect 4 'fault: line 2' check
expect 4 'fault: line 2' history B
script 'T' 'Z 1 8/16/16 24/48/32'
expect 4 'fault: line 2' run
expect 4 'fault: line 2' threads
expect 4 'fault: line 2' trace
expect 0 'ok' check
printf '0F0001\n\n0F0\n' >"$work/input"
expect 4 'fault: line 3' one
printf '%s\n' '-' >"$work/input"
expect 0 'S Empty' one
for change in '/^frame_us/d' 's/^inbox = 4/inbox = 0/' 's/^slice = .40/slice = [39/' 's/^sids = .513/sids = [272/' 's/^sfids = .513/sfids = [512/' \
    's/020000000003/020000000002/' 's/^elements = 8/elements = 120/' 's/^budget = 32/budget = 33/' '$a[plant' \
    '$a[[operator.flow]]\nmodem = "020000000003"\nencoding = "0601070A0407A12000"'; do
    sed "$change" "$plant" >"$work/input"
    case $change in
    */d) expect 3 'fault: plant 2 plant.frame_us' check ;;
    s/^inbox*) expect 3 'fault: plant 3 operator[0].inbox' check ;;
    s/^slice*) expect 3 'fault: plant 4 A B' check ;;
    s/^sids*) expect 3 'fault: plant 5 A B' check ;;
    s/^sfids*) expect 3 'fault: plant 6 A B' check ;;
    s/0200*) expect 3 'fault: plant 7 020000000002' check ;;
    s/^elements*) expect 3 'fault: plant 8 247' check ;;
    s/^budget*) expect 3 'fault: plant 9 A' check ;;
    *flow*) expect 3 'fault: plant 10 B' check ;;
    *) expect 3 'fault: plant 1' run ;;
    esac
done
script 'T A'
expect 3 'fault: state' snapshot
expect 3 'fault: snapshot 1' restore
script 'T A' 'T B'
expect 0 'end 43 1026273898' snapshot
cp "$work/out" "$work/state"
cp "$work/state" "$work/input"
expect 0 '' restore
expect 0 '' run
sed 's/^frame 1 /frame 3 /' "$work/state" >"$work/input"
expect 3 'fault: snapshot 44' restore
expect 3 'fault: snapshot 44' run
expect 2 'fault: words' snapshot A
printf '\377\n' >"$work/input"
expect 6 'fault: io' one
expect 6 'fault: io' snapshot
head -c 1048576 /dev/zero | tr '\0' '\n' >"$work/input"
expect 0 '' one
limited=8000
expect 5 'fault: memory' one
exit $failed
