#!/usr/bin/env bash
# Runs the gate, `rt ci`, as .ci/run does, with the words that it is given, such as --anew, and prints what it took: processor minutes
# and wall time, crate by crate.
set -u
cd "$(dirname "$0")/.."
export RT_JOBS="${RT_JOBS:-$(nproc)}"
exec python3 bench/gate.py "$@"
