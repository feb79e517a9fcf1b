#!/usr/bin/env bash
# Times opening a book, asking it for each vehicle, and composing, side by side: the proved core as `rt run`
# builds it, and the second implementation in Rust with -O. The programs run in turn; each time is the best of the runs.
# usage: benchmarks/plan/run.sh [RUNS]
. "$(dirname "$0")/../begin.sh"
begin plan_speed benchmarks/plan/twin.rs "${1:-15}"

# So many lines of so many vehicles.
list() {
    awk -v lines="$1" -v size="$2" 'BEGIN {
        for (i = 1; i <= lines; i++) {
            printf "%08x%08x%08x%08x %d", i, i * 7919, i * 104729, i * 611953, i
            for (k = 0; k < size; k++) printf " \"Wagon %d\"%s", 1000 + i * size + k, k % 3 == 0 ? "-" : "+"
            printf "\n"
        }
    }'
}

list 200 10 > "$work/full"
list 50 10 > "$work/quarter"
list 7 9 > "$work/train"
list 3 10 > "$work/half"
for _ in $(seq "$runs"); do
    for input in full quarter train half; do
        for each in "$program" "$work/twin"; do
            "$each" < "$work/$input" > "$work/out" 2> "$work/took"
            echo "${each##*/} $input" $(cat "$work/out" "$work/took")
        done
    done
done > "$work/all"
awk -v runs="$runs" '
    function keep(what, time) { if (!(what in best) || time < best[what]) best[what] = time }
    function row(what, words) {
        r = best["plan_speed " what] / 1000; t = best["twin " what] / 1000
        printf "%-42s Rattle %7.2f us   Rust %7.2f us   Rattle/Rust %.2f\n", words, r, t, r / t
    }
    NF != 12 { print "no times: " $0; bad = 1; exit }
    {
        lengths = $4 " " $6 " " $8
        if ($2 in seen && seen[$2] != lengths) { print "the answers differ: " $0; bad = 1; exit }
        seen[$2] = lengths
        keep($1 " open " $2, $9); keep($1 " ask " $2, $10); keep($1 " compose " $2, $11); keep($1 " confirmed " $2, $12)
    }
    END {
        if (bad) exit 1
        printf "best of %d runs\n", runs
        row("open full", "open a full book"); row("open quarter", "open a quarter of it")
        row("ask full", "2000 vehicle questions on a full book"); row("ask quarter", "500 on a quarter of it")
        row("compose train", "compose 63 vehicles"); row("confirmed train", "compose 63 vehicles, confirmed")
        row("compose half", "compose 30 vehicles"); row("confirmed half", "compose 30 vehicles, confirmed")
    }' "$work/all"
