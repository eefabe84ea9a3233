#!/bin/bash
# Runs all checks of the repository but the proofs. Each prints what is wrong and ends this script.
#
#   - clauses, documents, lists of crates and of commands, pages of crates, doc comments, examples, and the texts and the number of must-fail
#     edits
#   - the cases of tests/, by the second implementation, and by the program if it is built
#   - the generator: a seed gives the same case twice, and tools/run compare/handwritten_inputs reaches each check of the rules
#   - the program, if it is built: compared with the second implementation by each command, and the exit statuses and messages;
#     the completions for shells, compared with its help; served behind a socket if socat is installed; its captures read by tshark if
#     that is installed; killed, with a folder for its state, if gcc is installed; and with each allocation of a few inputs failed in turn
#   - the tests of library calls, if they are built and gcc is installed: each allocation failed in turn
#   - the tests of the tools (tools/ci/run_tests.sh)
#
# Usage: tools/ci/run_checks.sh     Needs bash and Python 3.11. Takes 2 minutes; with the program, gcc, socat and tshark 3 minutes more.
set -euo pipefail

tools=$(cd "$(dirname "$(readlink -f "$0")")/.." && pwd)
program=$tools/../crates/plant_program/out/plant_program
work=$(mktemp -d)
trap 'rm -rf "$work"' EXIT

# Runs a command, and prints its output if it fails.
quietly() {
    "$@" >"$work/output" 2>&1 || { cat "$work/output" >&2; echo "failed: ${*#"$tools/"}" >&2; exit 1; }
}

# No clause has a line over 160 columns.
"$tools/run" ci/clause_widths --most 0 || { "$tools/run" ci/clause_widths --list >&2; exit 1; }
quietly "$tools/run" ci/check_prose
quietly "$tools/run" ci/crate_lists --check
quietly "$tools/run" reference_pages --check
quietly "$tools/run" ci/doc_comments
quietly "$tools/ci/edits" --check
quietly "$tools/run" ci/commands --check
# --version prints the version of CHANGELOG.md, and from the script plant_script also the kit that built the program.
version=$(sed -n 's/^## \([0-9.]*\) .*/\1/p' "$tools/../CHANGELOG.md" | head -n 1)
for option in --version -V; do
    "$tools/../plant_script" "$option" >"$work/output"
    printf 'plant_script %s\nkit %s\n' "$version" "$(rt version)" | cmp -s - "$work/output" || {
        echo "plant_script $option does not print the version $version and the kit $(rt version)" >&2
        exit 1
    }
done
quietly "$tools/ci/examples.sh"
quietly "$tools/run" ci/cases
if "$tools/run" ci/cases "$(type -P true)" >"$work/output"; then
    echo 'tools/run ci/cases does not notice a program that prints nothing' >&2
    exit 1
fi
[ "$(python3 "$tools/../service/reference" check <"$tools/../examples/plant_p2.toml")" = ok ]

for seed in 1 71 1011; do
    "$tools/run" compare/generate_case "$seed" >"$work/once"
    PYTHONHASHSEED=$seed "$tools/run" compare/generate_case "$seed" | cmp - "$work/once"
done
"$tools/run" compare/handwritten_inputs --met >"$work/met"
for check in DSA\ {1..9} DSA\ {13,14,15,17,18,19,20,21,22} DSC\ {1..16} DSC\ {19..22} DSD\ {1,2,3,10,11,12,22}; do
    grep -q " ${check/ / check }\(:\|$\)" "$work/met" || { echo "tools/run compare/handwritten_inputs does not reach $check" >&2; exit 1; }
done
quietly "$tools/run" compare/resumed_cases 0 10
quietly "$tools/run" compare/changed_cases 0 25
quietly "$tools/run" compare/renumbered_cases 0 25
quietly "$tools/run" compare/continued_cases 0 50
quietly "$tools/run" compare/hostile_snapshots 0 2000
echo 'the second implementation agrees with the documents, and the generator with itself'

if [ -x "$program" ]; then
    "$tools/run" compare/generated_cases 0 50
    "$tools/run" compare/generated_cases --threads 0 50
    "$tools/run" compare/generated_cases --capture 0 50
    "$tools/run" compare/generated_cases --trace 0 50
    "$tools/run" compare/resumed_cases 0 25 --program "$program"
    "$tools/run" compare/changed_cases 0 50 --program "$program"
    "$tools/run" compare/renumbered_cases 0 50 --program "$program"
    "$tools/run" compare/continued_cases 0 100 --program "$program"
    "$tools/run" compare/hostile_snapshots 0 1000 --program "$program"
    quietly "$tools/run" compare/threads_as_run
    quietly "$tools/run" compare/handwritten_inputs --compare
    quietly "$tools/run" compare/odd_spellings
    quietly "$tools/ci/statuses.sh"
    quietly "$tools/run" compare/serve_as_run
    quietly "$tools/run" measure/latency --fast "$program" 2000
    quietly "$tools/run" ci/reasons
    quietly "$tools/run" ci/fault_lists 0 25
    quietly "$tools/run" completions --check
    quietly "$tools/run" ci/json_lines
    echo 'the program agrees with the second implementation'
    if command -v socat >/dev/null; then
        quietly "$tools/run" compare/serve_behind_socat
        echo 'a plant behind a socket, also one restored from its record, answers as run'
    else
        echo 'socat is not installed: no plant was served behind a socket'
    fi
    status=0
    "$program" serve --state "$work/none" </dev/null >/dev/null 2>&1 || status=$?
    if [ $status = 2 ]; then
        echo 'the program has no option --state: no service with a folder was tried'
    elif command -v gcc >/dev/null; then
        quietly "$tools/run" ci/crash_trials --times 20 --step 10 --kinds kill,beginning,fail,power,limit,cut,change,two,both
        echo 'a service with a folder loses no answered line when it is killed, its calls fail or the power is lost'
    else
        echo 'gcc is not installed: no service with a folder was tried'
    fi
    if command -v gcc >/dev/null; then
        quietly "$tools/compare/failed_allocations.sh" --short
        echo 'run and threads end with status 5 or as ever, whichever allocation fails'
    else
        echo 'gcc is not installed: no allocation of the program failed'
    fi
    if command -v tshark >/dev/null; then
        quietly "$tools/run" compare/captures_in_tshark
        echo 'tshark reads the captures of the examples as run prints them'
    else
        echo 'tshark is not installed: nothing has read the captures'
    fi
else
    echo 'the program is not built: it was not compared'
fi

# rt builds the tests of a crate after its proof, as it builds the program last of all.
if [ ! -x "$program" ] && [ ! -x "$tools/../crates/test_cores/out/test_cores_tests" ]; then
    echo 'the tests of library calls are not built: none of their allocations failed'
elif command -v gcc >/dev/null; then
    quietly "$tools/compare/failed_library_allocations.sh"
    echo 'a library call whose allocation fails says so, leaves its value as it was, and succeeds when it is made again'
else
    echo 'gcc is not installed: no allocation of a library call failed'
fi

"$tools/ci/run_tests.sh"
