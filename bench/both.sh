# Sourced by the scripts beside it: finds cellar, builds bench/plain, and compares what both print.
# Sets root, cellar and work, a directory that is removed at the end.
set -euo pipefail
export LC_ALL=C

root=$(cd -P "$(dirname "${BASH_SOURCE[0]}")/.." && pwd)
cellar=${CELLAR:-$root/crates/cellar/out/cellar}

if [[ ! -x $cellar ]]; then
    echo "${0##*/}: no $cellar; './play' builds it" >&2
    exit 1
fi

work=$(mktemp -d)
trap 'rm -rf "$work"' EXIT

rustc -O --edition 2021 -o "$work/plain" "$root/bench/plain/main.rs"

# Both play $work/script, and must print the same.
play_both() {
    "$cellar" <"$work/script" >"$work/cellar.out"
    "$work/plain" <"$work/script" >"$work/plain.out"
    if ! cmp -s "$work/cellar.out" "$work/plain.out"; then
        echo "${0##*/}: the two programs print different lines:" >&2
        diff "$work/cellar.out" "$work/plain.out" | head -n 6 >&2
        exit 1
    fi
}
