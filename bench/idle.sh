#!/usr/bin/env bash
# How fast the proved hosts are: plays of 600 rounds with idle nodes, by crates/cellar/out/cellar and by the same loop in
# plain Rust (bench/plain/main.rs), each on one core. Prints the least time of several runs of each, and the ratio.
#
#     bench/idle.sh [PLAYS [RUNS]]      3000 plays and 5 runs, if not said otherwise
#
# CELLAR names another program in place of crates/cellar/out/cellar. Needs rustc.
source "$(dirname "${BASH_SOURCE[0]}")/both.sh"
plays=${1:-3000}
runs=${2:-5}
rounds=600

pin=()
if command -v taskset >/dev/null; then
    core=$(taskset -cp $$ | sed 's/.*: *//; s/[-,].*//')
    pin=(taskset -c "$core")
fi

# The script: every play begins anew.
for ((i = 0; i < plays; i++)); do
    printf 'anew\nround %d\n' "$rounds"
done >"$work/script"

play_both # both print nothing

# The least wall clock time of all runs, in microseconds.
least() { # PROGRAM
    local best=0 from to took
    for ((i = 0; i < runs; i++)); do
        from=${EPOCHREALTIME/./}
        "${pin[@]}" "$1" <"$work/script" >/dev/null
        to=${EPOCHREALTIME/./}
        took=$((to - from))
        if ((best == 0 || took < best)); then best=$took; fi
    done
    echo "$best"
}

proved=$(least "$cellar")
plain=$(least "$work/plain")

echo "$plays plays of $rounds rounds, idle nodes, one core, least of $runs runs"
awk -v a="$proved" -v b="$plain" -v n="$((plays * rounds))" 'BEGIN {
    printf "cellar      %8.1f ms  %6.1f ns a round\n", a / 1e3, a * 1e3 / n
    printf "plain Rust  %8.1f ms  %6.1f ns a round\n", b / 1e3, b * 1e3 / n
    printf "ratio       %8.2f\n", a / b
}'
