#!/usr/bin/env bash
# Prints how many lines a second gb_sim answers, on a schedule of 10,000 and on one of 100,000 lines of says,
# packs, arrives, acknowledgements and fetches of 16 groups of 4 tenants on a cluster of 4 nodes, and the ratio of the two times.
# gb_sim is that of bin/, where ./install puts it, or give another one, and then how many nodes there are (4 if not given), the version of packets
# that they send (1) and how many bytes a payload has (2).
set -eu
top=$(cd "$(dirname "$0")/.." && pwd)
work=$top/bench/out/schedule
mkdir -p "$work"
program=${1:-$top/bin/gb_sim}
for lines in 10000 100000; do
    python3 "$top/bench/schedule.py" "$lines" "${@:2}" >"$work/$lines"
done
python3 - "$program" "$work" <<'PYTHON'
import subprocess, sys, time

program, work = sys.argv[1:]
times = []
for lines in (10000, 100000):
    best = None
    for _ in range(3):
        with open(f'{work}/{lines}') as schedule, open(f'{work}/{lines}.out', 'w') as out:
            start = time.monotonic()
            subprocess.run([program], stdin=schedule, stdout=out, check=True)
            took = time.monotonic() - start
        best = took if best is None else min(best, took)
    times.append(best)
    print(f'{lines} lines: {best:.3f} s, {lines / best:.0f} lines a second')
print(f'ten times the lines take {times[1] / times[0]:.1f} times as long')
PYTHON
