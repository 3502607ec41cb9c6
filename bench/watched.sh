#!/usr/bin/env bash
# Measures what `gb_serve --status` costs while its figures are read once a second: fetches a second on one connection with 1 and with 32
# requests ahead, beside two servers without it, of which the second shows what chance makes of nothing. Each run starts its servers anew. All are asked
# by one program, bench/serve/play.rs, which plain rustc compiles into bench/out. gb_serve is that of bin/,
# where ./install puts it, unless SERVE names another.
# Words: how many fetches are made in each burst with 32 ahead, 400,000 if not given (a fifth of that with 1 ahead), how many bursts of each
# server make a run, 5 if not given, and how many runs are made, 6 if not given. With `count` as the first word the instructions of a node's loop are counted
# instead, by valgrind, of a server without and of one with the option, in turns: how many fetches of each, 50,000 if not given, and how many pairs, 3.
set -eu
. "$(dirname "$0")/load.bash"
if [ "${1:-}" = count ]; then
    shift
    exec python3 "$top/bench/watched_count.py" "$serve" "$play" "$@"
fi
exec python3 "$top/bench/watched.py" "$serve" "$play" "${1:-400000}" "${2:-5}" "${3:-6}"
