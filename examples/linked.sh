#!/usr/bin/env bash
# Builds the static library, links it to the C program and to the Rust program beside this file, and has both print
# the coach order of a fleet list.
# usage: examples/linked.sh [LIST]
set -eu
cd "$(dirname "$0")/.."
list=${1:-examples/lists/two_operators.txt}
tools/build.sh lib linkage
work=$(mktemp -d)
trap 'rm -rf "$work"' EXIT
cc -O2 -Wall -Wextra -I include -o "$work/c" examples/c/coach_order.c crates/linkage/out/liblinkage.a
rustc -O --edition 2024 -o "$work/rust" -L crates/linkage/out -l static=linkage examples/rust/coach_order.rs
echo "C:" && "$work/c" "$list"
echo "Rust:" && "$work/rust" "$list"
