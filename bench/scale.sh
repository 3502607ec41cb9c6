#!/usr/bin/env bash
# Compares the sheet of tools/capacity.py with a gb_serve: plays loads of three sizes, 10, 100 and 1,000 groups, at rates that take about
# 10, 30 and 60 percent of a core, and prints measured processor time, resident memory and packets beside the computed ones. Status 1: a median
# of processor time or memory is not within 30 percent. bench/serve/play.rs asks, which plain rustc compiles into bench/out; gb_serve is that of bin/,
# where ./install puts it, unless SERVE names another.
# Words: `sizes`, or `figures` to measure what the sheet is made from, which is written into bench/figures.txt; `sizes` if not given. Then how many
# rounds are made, 3 if not given, and behind `figures` which of its parts. SERVE may name a gb_peer: then each node has a process of its own.
# SCALE_PORT is the base port, 30,000 if not given.
set -eu
. "$(dirname "$0")/load.bash"
exec python3 -B "$top/bench/scale.py" "$serve" "$play" "${@:-sizes}"
