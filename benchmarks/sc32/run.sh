#!/usr/bin/env bash
# Times SC-32 side by side: crates/sc32 as `rt run` builds it, and the twin in Rust with -O.
# Both read the same 16 MiB; the programs run in turn, and each time below is the best of the runs.
# usage: benchmarks/sc32/run.sh [RUNS]
. "$(dirname "$0")/../begin.sh"
begin sc32_speed benchmarks/sc32/twin.rs "${1:-15}"
head -c 16777216 /dev/urandom > "$work/input"
for _ in $(seq "$runs"); do
    "$program" < "$work/input" > "$work/sum" 2> "$work/took"
    echo "rattle $(cat "$work/sum") $(cat "$work/took")"
    "$work/twin" < "$work/input"
done > "$work/all"
awk -v runs="$runs" '
    { if (!($1 in best) || $3 < best[$1]) best[$1] = $3; if (NR > 1 && $2 != sum) differ = 1; sum = $2 }
    END {
        if (differ) { print "the checksums differ"; exit 1 }
        printf "16 MiB, best of %d runs\n", runs
        printf "Rattle, four tables  %6d us\n", best["rattle"]
        printf "Rust, four tables    %6d us\n", best["four"]
        printf "Rust, one table      %6d us\n", best["one"]
        printf "Rattle speed / Rust speed, four tables          %.2f\n", best["four"] / best["rattle"]
        printf "Rattle speed with four / Rust speed with one    %.2f\n", best["one"] / best["rattle"]
    }' "$work/all"
