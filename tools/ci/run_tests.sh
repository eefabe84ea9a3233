#!/bin/sh
# Runs the tests of the tools (tools/tests) with pytest, and prints the reason of each test that is skipped.
#
# The python3 of the path runs them if it has pytest, else /usr/bin/python3, to which Debian's package python3-pytest belongs. If
# neither has it, the package is installed. If that fails, unittest runs the same tests, and a line says so.
# Usage: tools/ci/run_tests.sh [ARGUMENT ..]     The arguments are pytest's, such as -k WORD.
set -eu
cd "$(dirname "$(readlink -f "$0")")/../.."

# Prints the first Python that has pytest 7 and is new enough for the tools, if there is one.
python_with_pytest() {
    for python in python3 /usr/bin/python3; do
        if "$python" -c 'import tomllib, pytest; assert int(pytest.__version__.split(".")[0]) >= 7' 2>/dev/null; then
            echo "$python"
            return
        fi
    done
}

install_pytest() {
    export DEBIAN_FRONTEND=noninteractive
    { timeout 120 apt-get update && timeout 300 apt-get install --yes --no-install-recommends python3-pytest; } >/dev/null
}

python=$(python_with_pytest)
if [ -z "$python" ]; then
    echo 'pytest is not installed: installing python3-pytest'
    if install_pytest; then python=$(python_with_pytest); fi
fi
if [ -z "$python" ]; then
    echo 'pytest cannot be installed: unittest runs the same tests'
    exec python3 -m unittest discover --verbose --start-directory tools/tests --top-level-directory .
fi
exec "$python" -m pytest -rs "$@" tools/tests
