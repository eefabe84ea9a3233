#!/bin/bash
# Keeps a plant in service behind a Unix socket. Clients write lines of a script to FOLDER/socket, as many clients at once as there are,
# and read the answers in FOLDER/answers, which grows.
#
#     serve_plant.sh PLANT FOLDER
#
# PLANT is a plant file; what stands in it behind a line `---` is not read. In FOLDER, which is there already:
#
#     socket    where clients write whole lines
#     record    all lines that came, in order. A line stands here before the plant has it; a start does all of these first
#     answers   what the plant has put out for all lines of the record
#     lock      held while a plant is served here
#
# The program is the one that PLANT_SCRIPT names, else plant_script two folders above this file. SIGTERM and SIGINT end it.
# Statuses: those of `plant_script serve`; 0 where it was told to end; 1 where something else ended; 2 the words; 7 the record does not
# give the answers that are there, so that the plant file or the record is another than it was; 8 another serves this folder; 126 the
# proved program is not built. A start never builds it: `./prove` does, at the top of the repository.
# Needs bash 5.1, socat, python3, flock, and the tail and cmp of GNU.
set -eu
set -m # each job is a process group of its own

if [ $# != 2 ] || [ ! -r "$1" ] || [ ! -d "$2" ]; then
    echo 'usage: serve_plant.sh PLANT FOLDER' >&2
    exit 2
fi
here=$(cd "$(dirname "$(readlink -f "$0")")" && pwd)
top=$(cd "$here/../.." && pwd)
plant=$(readlink -f "$1")
program=${PLANT_SCRIPT:-$top/plant_script}
case $program in */*) program=$(readlink -f "$program") ;; esac
if [ "$program" = "$top/plant_script" ] && [ ! -x "$top/crates/plant_program/out/plant_program" ]; then
    echo "serve_plant: the proved program is not built, and a service never builds it; to prove and build it: $top/prove" >&2
    exit 126
fi
cd "$2"

exec 9>lock
if ! flock -n 9; then
    echo "serve_plant: another plant is served in $2" >&2
    exit 8
fi
touch record answers

# The plant file up to its bar, and the bar.
plant_and_bar() { awk '/^---$/ { exit } { print }' "$plant" && echo ---; }

# Where there are answers, the record gives them again; it may give more.
if [ -s answers ] && ! { plant_and_bar && cat record; } | "$program" serve | cmp -s -n "$(stat -c %s answers)" - answers; then
    echo "serve_plant: the record does not give the answers in $2/answers; move both away to begin anew" >&2
    exit 7
fi

feeding='' served='' listening=''
finish() {
    trap - EXIT
    trap '' TERM INT HUP
    # (first no more lines, then no more input: the plant answers what it has, and ends)
    [ -z "$listening" ] || kill -- "-$listening" 2>/dev/null || true
    [ -z "$feeding" ] || kill "$feeding" 2>/dev/null || true
    [ -z "$served" ] || wait "$served" || true
    rm -f socket
}
trap finish EXIT
trap 'exit 0' TERM INT HUP

# The record is fed, then each line that is appended to it. The answers are written over themselves: they are the same, and go on behind.
{ plant_and_bar && exec tail -c +1 -s 0.1 -f record; } | "$program" serve 1<>answers &
served=$!
feeding=$(jobs -p %%)

# One whole_lines.py for each client, with the client's socket as its input.
PATH=$here:$PATH socat UNIX-LISTEN:socket,fork,unlink-early,mode=660 EXEC:'whole_lines.py record',nofork 9>&- &
listening=$!

status=0
wait -n "$served" "$listening" || status=$?
echo "serve_plant: ended by itself, status $status" >&2
exit $((status > 0 ? status : 1))
