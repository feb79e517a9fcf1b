#!/usr/bin/env bash
# Every measurement, one after another: the checksum, fleet lists, and opening, asking and composing.
# usage: benchmarks/run.sh [RUNS]
set -eu
cd "$(dirname "$0")"
for folder in sc32 fleet_list plan; do
    echo "== $folder"
    "$folder/run.sh" "${1:-15}"
done
