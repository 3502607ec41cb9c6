# Sourced by the scripts that load a server: sets `top`, the checkout; `serve`, the gb_serve that ./install put into bin/, or SERVE; and `play`,
# the program that asks, which plain rustc compiles from bench/serve/play.rs into bench/out.
top=$(cd "$(dirname "${BASH_SOURCE[0]}")/.." && pwd)
serve=${SERVE:-$top/bin/gb_serve}
if [ ! -x "$serve" ]; then
    echo "there is no program $serve: run ./install first, or name one by SERVE" >&2
    exit 2
fi
play=$top/bench/out/serve/play
mkdir -p "$top/bench/out/serve"
rustc --edition 2021 -O -o "$play" "$top/bench/serve/play.rs"
