#!/usr/bin/env bash
# Times fleet lists side by side: crates/fleet_list as `rt run` builds it, and the twin in Rust with -O.
# Both import and export full lists, lists a quarter of the size, and one whose lines are as long as may be,
# 200 times each; the programs run in turn, and each time below is the best of the runs, for one call.
# usage: benchmarks/fleet_list/run.sh [RUNS]
. "$(dirname "$0")/../begin.sh"
begin list_speed benchmarks/fleet_list/twin.rs "${1:-15}"

# So many lines of so many vehicles. Mixed: names of 3 to 15 bytes that differ in the first, every seventh with a quote.
# Alike: names of ten bytes that differ in the last.
list() {
    awk -v kind="$1" -v lines="$2" -v size="$3" 'BEGIN {
        for (i = 1; i <= lines; i++) {
            printf "%08x%08x%08x%08x %d", i, i * 7919, i * 104729, i * 611953, i * i * 1009
            for (k = 0; k < size; k++) {
                n = i * size + k
                if (kind == "alike") {
                    printf " \"Wagon %d\"+", 1000 + n
                    continue
                }
                name = sprintf("%c%d", 65 + k, 10 + n % 90)
                long = 3 + n * 7 % 13
                mark = n % 7 == 0
                while (length(name) < long - mark) name = name sprintf("%c", 97 + (n + length(name)) % 26)
                printf " \"%s%s\"%s", name, mark ? "\\\"" : "", n % 3 == 0 ? "-" : "+"
            }
            printf "\n"
        }
    }'
}

for kind in mixed alike; do
    list $kind 200 10 > "$work/$kind-full"
    list $kind 50 10 > "$work/$kind-quarter"
done
list alike 62 32 > "$work/alike-long"
for _ in $(seq "$runs"); do
    for input in mixed-full mixed-quarter alike-full alike-quarter alike-long; do
        "$program" < "$work/$input" > "$work/out" 2> "$work/took"
        echo "rattle $input" $(cat "$work/out" "$work/took")
        "$work/twin" < "$work/$input" > "$work/out" 2> "$work/took"
        echo "rust $input" $(cat "$work/out" "$work/took")
    done
done > "$work/all"
awk -v runs="$runs" '
    function keep(what, time) { if (!(what in best) || time < best[what]) best[what] = time }
    function row(what) {
        r = best["rattle " what]; t = best["rust " what]
        printf "%-21s Rattle %6.1f us   Rust %6.1f us   Rattle/Rust %.2f\n", what, r, t, r / t
    }
    function growth(what) {
        printf "%-21s full/quarter %.2f\n", what, best[what "-full"] / best[what "-quarter"]
    }
    NF != 8 { print "no times: " $0; bad = 1; exit }
    {
        lengths = $3 " " $4 " " $5 " " $6
        if ($2 in seen && seen[$2] != lengths) { print "the lengths differ"; bad = 1; exit }
        seen[$2] = lengths
        keep($1 " import " $2, $7 / 200)
        keep($1 " export " $2, $8 / 200)
    }
    END {
        if (bad) exit 1
        printf "best of %d runs, for one call\n", runs
        for (input in seen) printf "%-21s %s\n", input, seen[input]
        row("import mixed-full"); row("export mixed-full"); row("import alike-full"); row("export alike-full")
        row("import alike-long"); row("export alike-long")
        row("import mixed-quarter"); row("export mixed-quarter"); row("import alike-quarter"); row("export alike-quarter")
        growth("rattle import mixed"); growth("rattle export mixed"); growth("rattle import alike"); growth("rattle export alike")
        growth("rust import mixed"); growth("rust export mixed"); growth("rust import alike"); growth("rust export alike")
    }' "$work/all"
