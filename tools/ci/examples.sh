#!/bin/bash
# Checks every output in examples/: the second implementation prints for each input what the file next to it has, and so does the
# program, if it is built. Each README shows what is printed. A's lines next to a flood of B are A's lines alone, and the picture
# shows these two runs. What pages under docs/ and examples/ quote of standard error, in blocks that begin with ```stderr, is what
# the program writes. The second implementation writes no reasons there, so this is compared only if the program is built.
# Usage: tools/ci/examples.sh [PROGRAM]     Needs bash and python3.
set -euo pipefail

top=$(cd "$(dirname "$(readlink -f "$0")")/../.." && pwd)
PYTHONPATH=$top python3 -P -m tools.ci.check_examples "$@"

isolation=$top/examples/isolation
of_a() { grep -E '^([RS] 02000000000[12]|F A) ' "$1"; }
cmp <(of_a "$isolation/run_flood.out") <(of_a "$isolation/run_alone.out")
"$top/tools/run" plant_view --plant "$isolation/run_flood.txt" --svg "A next to a flood of B=$isolation/run_flood.out" \
    "A alone=$isolation/run_alone.out" | cmp - "$top/docs/isolation.svg"
