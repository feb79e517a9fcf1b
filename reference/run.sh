#!/usr/bin/env bash
# Compares the proved core, linked as a static library and played by the console, with the second implementation
# in Rust, on many cases made by chance, and prints how often each call answered each number. Exit status 1 where
# an answer differs or a refusal number was never met.
# usage: reference/run.sh [CASES [SEED]]
set -eu
cd "$(dirname "$0")/.."
cases=${1:-200000}
seed=${2:-1}
tools/build.sh lib linkage
tools/build.sh run console
work=$(mktemp -d)
trap 'rm -rf "$work"' EXIT
rustc -O --edition 2024 -o "$work/compare" -L crates/linkage/out -l static=linkage reference/compare.rs
"$work/compare" "$cases" "$seed" crates/console/out/console
