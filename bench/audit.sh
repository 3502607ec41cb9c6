#!/usr/bin/env bash
# Measures what an audit of large records takes: entries, seconds and memory, once without and once with --group. gb_serve and gb_audit are those of
# bin/, where ./install puts them, unless SERVE and AUDIT name others. The records are written to a folder below TMPDIR, or /tmp.
# Word: how many fetches each of three nodes is asked, 250,000 if not given.
set -eu
. "$(dirname "$0")/load.bash"
exec python3 "$top/bench/audit.py" "$serve" "${AUDIT:-$top/bin/gb_audit}" "$play" "${1:-250000}"
