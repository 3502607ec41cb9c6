#!/usr/bin/env bash
# Refuses requests for memory: each in turn, and under limits of all memory, of gb_sim, of programs that play the same schedules on a cluster and a
# day on a host with tapes and give a refused event again, and of public functions that make a value; and chosen ones of gb_serve, before it serves,
# while it serves and at its end. Prints what was counted, as the tables of docs/reference/MEMORY.md, and ends with status 1 where a run was wrong.
# The programs are built in bench/out, apart from the repository's own crates, unless PROGRAMS names a folder that has them: gb_sim, gb_serve,
# refused, refused_host and refused_makers.
# Words: how many requests of gb_serve are drawn while it serves, 200 if not given, and the seed of the drawing, 1 if not given.
set -eu
top=$(cd "$(dirname "$0")/.." && pwd)
work=$top/bench/out/refused
mkdir -p "$work/crates"
programs='gb_sim gb_serve refused refused_host refused_makers'
if [ -z "${PROGRAMS:-}" ]; then
    for crate in $(grep -E '^gb_' "$top/crates.txt" | cut -d: -f1 | grep -v '_examples$'); do
        mkdir -p "$work/crates/$crate"
        cp -r "$top/crates/$crate/." "$work/crates/$crate/"
    done
    grep -E '^gb_' "$top/crates.txt" | grep -v '_examples:' >"$work/crates.txt"
    cat >>"$work/crates.txt" <<'CRATES'
refused: gb_types gb_spelling gb_node gb_cluster gb_schedule gb_simulate anyhow
refused_host: gb_types gb_spelling gb_cap gb_node gb_host gb_merge anyhow
refused_makers: gb_types gb_spelling gb_layer gb_slot gb_stack gb_session gb_lines gb_schedule gb_port gb_node gb_host gb_client gb_client_words gb_serve_words anyhow
CRATES
    cp "$top/HANDLES" "$work/HANDLES"
    for program in main host makers; do
        crate=refused_$program
        [ "$program" = main ] && crate=refused
        mkdir -p "$work/crates/$crate/src"
        cp "$top/bench/refused/$program.rt.txt" "$work/crates/$crate/src/main.rt"
    done
    PROGRAMS=$work/programs
    mkdir -p "$PROGRAMS"
    for crate in $programs; do
        # What the program itself ends with is not looked at here.
        (cd "$work/crates/$crate" && { "${RT:-rt}" run <"$top/crates/gb_sim/stdin" >/dev/null || true; } && cp "out/$crate" "$PROGRAMS/")
    done
fi
cc -O2 -Wall -Wextra -shared -fPIC -o "$work/refuse_malloc.so" "$top/bench/refused/refuse_malloc.c"
status=0
python3 "$top/bench/refused.py" "$work/refuse_malloc.so" "$PROGRAMS/gb_sim" "$PROGRAMS/refused" "$PROGRAMS/refused_host" "$PROGRAMS/refused_makers" || status=1
python3 "$top/bench/refused_server.py" "$work/refuse_malloc.so" "$PROGRAMS/gb_serve" "${1:-200}" "${2:-1}" || status=1
exit $status
