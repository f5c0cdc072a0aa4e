#!/usr/bin/env bash
# Plays random scripts with crates/cellar/out/cellar and with bench/plain, which was written apart from it and tests each
# stop, resume and put by itself. Both must print the same lines. Prints how many of each kind there were.
#
#     bench/compare.sh [PLAYS [SEED]]      2000 plays and seed 1, if not said otherwise
#
# CELLAR names another program in place of crates/cellar/out/cellar. Needs rustc.
source "$(dirname "${BASH_SOURCE[0]}")/both.sh"
plays=${1:-2000}
seed=${2:-1}

awk -v plays="$plays" -v seed="$seed" '
    function below(n) { return int(rand() * n) }
    function one(list, a, n) { n = split(list, a, " "); return a[below(n) + 1] }
    BEGIN {
        srand(seed)
        for (i = 0; i < plays; i++) {
            print "anew"
            for (n = 3 + below(60); n > 0; n--) {
                c = below(100)
                if (c < 20) print "move"
                else if (c < 42) print "round " one("1 1 2 3 5 20 60 600")
                else if (c < 52) print "write " below(33) " " below(1000000000)
                else if (c < 62) print "fall " below(2) " " one("1 2 3 5 9 40 90 200 1000") " " one("before after")
                else if (c < 70) print "lose " one("1 2 3 10 34 60")
                else if (c < 76) print "again"
                else if (c < 88) print "any " below(1000000000) " " one("1 5 50 400")
                else if (c < 99) print "where"
                else print "round +1"
            }
        }
    }' >"$work/script"

play_both
echo "$plays plays, seed $seed: the same lines"
cut -d ' ' -f 1 "$work/cellar.out" | sort | uniq -c
