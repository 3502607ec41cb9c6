#!/usr/bin/env bash
# Prints what groups, nodes and schedules of 2, 4, 8 and 16 members take in two built gb_sim programs, an old and a new one, and the
# ratios: medians of three runs of each. Words: the old program, the new one, and how many lines the schedules have, 100,000 if not given.
set -eu
[ $# -ge 2 ] || { echo "$0 OLD NEW [LINES]"; exit 2; }
exec python3 -B "$(dirname "$0")/beside.py" "$@"
