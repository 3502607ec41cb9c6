#!/usr/bin/env bash
# Prints what memory a group takes when it is made, beside what its spec reserves, for groups of several specs. gb_sim is
# that of bin/, where ./install puts it, or give another one; then also the version of packets that the nodes send, 1 if not given.
set -eu
top=$(cd "$(dirname "$0")/.." && pwd)
exec python3 -B "$top/bench/memory.py" "${1:-$top/bin/gb_sim}" "${2:-1}"
