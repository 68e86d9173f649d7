#!/usr/bin/env bash
# Checks the Python of the repository: its types by mypy, its form by ruff, and the tests of the package.
#
#     python/check.sh           BURCH_DILL and BD_VIEW name the programs; tests that ask one are left out without it
#
# What of mypy and ruff isn't on the path is installed into build/python, a virtual environment; where pip reaches no
# registry, that check is left out, and said to be. Status 0: nothing was found. 1: something was.
set -uo pipefail
cd "$(dirname "$0")/.." || exit 1
room=$PWD/build/python
status=0

# Where a tool is: on the path, or in the environment, into which it's installed where that can be.
found() {
    command -v "$1" && return
    [ -x "$room/bin/$1" ] || {
        [ -x "$room/bin/python" ] || python3 -m venv "$room" || return
        "$room/bin/python" -m pip install -q --retries 0 --timeout 15 "$1"
    } > "$room.log" 2>&1
    [ -x "$room/bin/$1" ] && echo "$room/bin/$1"
}

mkdir -p "$room"
if mypy=$(found mypy); then "$mypy" || status=1; else echo "mypy: left out, it can't be installed here"; fi
if ruff=$(found ruff); then "$ruff" check || status=1; else echo "ruff: left out, it can't be installed here"; fi
PYTHONPATH=python/src python3 -m unittest discover -q -s python/tests || status=1
exit $status
