#!/usr/bin/env bash
# Measures what `gb_serve --record` costs: says and fetches a second on one connection with 1 and with 32 requests ahead, at a server without records,
# at another one without, whose rates show what chance makes of nothing, at one with --record, and at one with --record --sync, asked in turns; then how many
# bytes an event takes in a record, and how many entries gb_audit goes through in a second. All are asked by one program, bench/serve/play.rs, which plain rustc
# compiles into bench/out. gb_serve and gb_audit are those of bin/, where ./install puts them, unless SERVE and AUDIT name others. The records are written to a
# folder below TMPDIR, or /tmp: its disk is part of what is measured.
# Words: how many requests are made in a burst with 32 ahead, 20,000 if not given (a sixth of that with 1 ahead and with --sync), how many bursts of each server
# make a run, 10 if not given, and how many runs are made, each with servers of its own, 3 if not given.
set -eu
. "$(dirname "$0")/load.bash"
exec python3 "$top/bench/record.py" "$serve" "${AUDIT:-$top/bin/gb_audit}" "$play" "${1:-20000}" "${2:-10}" "${3:-3}"
