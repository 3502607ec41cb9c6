#!/usr/bin/env bash
# Measures gb_serve over loopback beside a Redis server where one is installed (Debian: redis-server): requests a second with 1 and 64
# connections and 1 and 32 requests ahead, the time from a say to another node's waiting fetch, delivered messages a second with three
# members, also with 5 % of datagrams lost, idle processor time, and 1,000 idle connections. Both servers are asked by one program,
# bench/serve/play.rs, which plain rustc compiles into bench/out. gb_serve is that of bin/,
# where ./install puts it, unless SERVE names another.
# Words: how many requests are made in each measurement of a rate, 100,000 if not given, and how many rounds are made, 3 if not given.
set -eu
. "$(dirname "$0")/load.bash"
"${CC:-cc}" -O2 -shared -fPIC -o "$top/bench/out/serve/lossy.so" "$top/bench/serve/lossy.c" -ldl
exec python3 "$top/bench/serve.py" "$serve" "$play" "$top/bench/out/serve/lossy.so" "${1:-100000}" "${2:-3}"
